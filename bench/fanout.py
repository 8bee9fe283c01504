#!/usr/bin/python3
"""Many small nodes behind one log in NATS: bench/fanout.py [SECONDS] [COUNT ..]. A primary makes 1,000 entries a second, 20 at a time with
the marks of four streams behind them; told are, for each count of nodes, the processors that servers, followers and nodes take (1.00 is one
whole), the bytes a second that the servers send to clients, and how long from writing to readable at one node: with a follower a node, and
with one follower for all. By hand; needs bin/hkrep and a nats-server from 2.10.27 on. It ends only what it started."""
import json
import os
import pathlib
import subprocess
import sys
import tempfile
import threading
import time
import urllib.request

sys.dont_write_bytecode = True
ROOT = pathlib.Path(__file__).resolve().parent.parent
sys.path[:0] = [str(ROOT / "tests" / "lib"), str(ROOT / "tests" / "checks"), str(ROOT / "tests" / "checks"), str(ROOT / "connectors" / "nats")]
import engine
from checks import free_port
from feeding import Feed
from journeys import WORDS, is_entry, kill, log_of, waited
from servers import program

TICK, EACH = 0.02, 20


def used(children):
    """The processor's time of programs, in seconds."""
    total = 0.0
    for child in children:
        fields = pathlib.Path(f"/proc/{child.pid}/stat").read_text().rsplit(")", 1)[1].split()
        total += (int(fields[11]) + int(fields[12])) / os.sysconf("SC_CLK_TCK")
    return total


def sent(servers):
    """The bytes that the servers sent to clients."""
    total = 0
    for address in servers.monitors():
        with urllib.request.urlopen(f"http://{address}/varz", timeout=5) as reply:
            total += json.load(reply)["out_bytes"]
    return total


def ticks(frames):
    """The log in pieces of EACH entries and the marks behind them."""
    piece, count = [], 0
    for frame in frames:
        if is_entry(frame) and count == EACH:
            yield b"".join(piece)
            piece, count = [], 0
        piece.append(frame)
        count += is_entry(frame)
    yield b"".join(piece)


class Lateness:
    """Looks at one node until it can be read as far as was written."""

    def __init__(self, port):
        self.feed, self.written, self.late, self.is_over = Feed(port), {}, [], False
        self.thread = threading.Thread(target=self.look)
        self.thread.start()

    def look(self):
        while not self.is_over:
            readable, now = self.feed.front().readable, time.monotonic()
            for at in [it for it in self.written if it <= readable]:
                self.late.append((now - self.written.pop(at)) * 1000)
            time.sleep(0.002)

    def end(self):
        waited(lambda: not self.written, "the last entry can't be read")
        self.is_over = True
        self.thread.join()
        self.feed.close()
        return sorted(self.late)


def play(it, pieces, ports, parts):
    """Writes the log piece by piece; tells the share of a processor that each part took, the bytes a second, and the lateness."""
    writer = it.ran("publish", "--heads", stdin=subprocess.PIPE)
    writer.stdin.write(pieces[0])
    writer.stdin.flush()
    feeds = [Feed(port) for port in ports]
    waited(lambda: all(feed.front().readable >= EACH for feed in feeds), "a node isn't fed")
    before, bytes_, begin, late = {name: used(its) for name, its in parts.items()}, sent(it.servers), time.monotonic(), Lateness(ports[0])
    for number, piece in enumerate(pieces[1:], 1):
        late.written[(number + 1) * EACH] = time.monotonic()
        writer.stdin.write(piece)
        writer.stdin.flush()
        time.sleep(max(0.0, begin + number * TICK - time.monotonic()))
    took = time.monotonic() - begin
    shares = ", ".join(f"{name} {(used(its) - before[name]) / took:.2f}" for name, its in parts.items())
    rate, found = (sent(it.servers) - bytes_) / took, late.end()
    waited(lambda: len({feed.front().readable for feed in feeds}) == 1, "a node stays behind")
    for feed in feeds:
        feed.close()
    kill(writer)
    middle, most = found[len(found) // 2], found[len(found) * 99 // 100]
    return f"{shares}; {rate / 1000:,.0f} KB/s sent; readable after {middle:.1f} ms, {most:.1f} at the 99th of a hundred"


def measured(seconds, count, is_one):
    """With a follower for each node, or one for all."""
    entries = int(seconds / TICK) * EACH
    frames = [frame for frame in log_of(entries, 5) if is_entry(frame) or int.from_bytes(frame[24:32], "big") % EACH == 0]
    with tempfile.TemporaryDirectory() as folder:
        it = engine.Bench(pathlib.Path(folder), entries, frames, {})
        try:
            it.servers.begin()
            ports = [free_port() for _ in range(count)]
            nodes = [it.start_node(port, "-q") for port in ports]
            words = [("--node", port) for port in ports]
            words = [[word for two in words for word in two]] if is_one else words
            followers = [it.start(engine.CONNECTORS / "follow", *it.url(), *WORDS, *its) for its in words]
            parts = {"servers": list(it.servers.running.values()), "followers": followers, "nodes": nodes}
            told = play(it, list(ticks(frames)), ports, parts)
            print(f"{count:3} nodes, {'one follower' if is_one else 'a follower each'}: {told}; load {os.getloadavg()[0]:.0f}", flush=True)
        finally:
            it.__exit__()


def main(seconds, counts):
    if not program():
        sys.exit("no nats-server from 2.10.27 on is here")
    for count in counts:
        for is_one in (False, True) if count > 1 else (False,):
            measured(seconds, count, is_one)


if __name__ == "__main__":
    numbers_ = [int(word) for word in sys.argv[1:]]
    main((numbers_ or [6])[0], numbers_[1:] or [1, 5, 20])
