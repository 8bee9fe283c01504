#!/usr/bin/python3
"""Times a log over Redis, and over three nats-servers where a new enough one is here (NATS_SERVER or PATH), beside
`hkrep feed` of the same frames, by turns: bench/connectors.py [ENTRIES] [TURNS] [ENGINE ..]. Of each way frames a second,
the middle of all turns, and the middle of what they are of the `hkrep feed` just before, so that a load that comes and
goes weighs on both; of each follow the time from publish to resolved. By hand; needs what tests/checks/connectors.py needs. It
ends only what it started."""
import os
import pathlib
import resource
import statistics
import subprocess
import sys
import tempfile
import time

sys.dont_write_bytecode = True
ROOT = pathlib.Path(__file__).resolve().parent.parent
sys.path[:0] = [str(ROOT / "tests" / "lib"), str(ROOT / "tests" / "checks"), str(ROOT / "tests" / "checks"), str(ROOT / "connectors" / "nats")]
import connectors
import engine
import journeys
from checks import free_port
from journeys import HKREP, LOG, STREAMS, WORDS, kill, log_of
from jetstream import ApiError
from servers import program
from vadungsil import Entry, Mark, encode
from vadungsil.node import Node

FEED = "hkrep feed, 500 a request"


class Measure:
    """One log, an engine, and what each way told, turn by turn."""

    def __init__(self, it, frames):
        self.it, self.frames, self.log = it, frames, it.folder / "log.bin"
        self.told, self.beside, self.ratios = {}, {}, {}

    def node(self):
        port = free_port()
        return port, self.it.start_node(port, "-q")

    def timed(self, name, words, taken_off=(0.0, 0.0), source=None):
        """Runs a program; keeps frames a second, and microseconds of its processor a frame, without what starting it takes."""
        before, begin = used(), time.monotonic()
        with open(source or os.devnull, "rb") as file:
            done = subprocess.run([str(it) for it in words], stdin=file, stdout=subprocess.DEVNULL, stderr=subprocess.PIPE, text=True,
                                  check=False)
        took, cost = time.monotonic() - begin - taken_off[0], used() - before - taken_off[1]
        if done.returncode:
            raise SystemExit(f"{name}: status {done.returncode}: {done.stderr[-400:]}")
        rate = len(self.frames) / max(took, 1e-3)
        self.told.setdefault(name, []).append(rate)
        self.ratios.setdefault(name, []).append(rate / self.told[FEED][-1])
        self.beside.setdefault(name, []).append(cost / len(self.frames) * 1e6)

    @staticmethod
    def starting(program_):
        """What a connector takes to start, at this moment: seconds, and seconds of its processor."""
        before, begin = used(), time.monotonic()
        subprocess.run([program_, "--help"], stdout=subprocess.DEVNULL, check=True)
        return time.monotonic() - begin, used() - before

    def feed(self):
        port, node = self.node()
        self.timed(FEED, [HKREP, "feed", "--port", port, "--batch", 500], source=self.log)
        kill(node)

    def publish(self, folder, url, *more):
        program_ = folder / "publish"
        name = f"{folder.name}: publish {' '.join(map(str, more))}".rstrip()
        self.timed(name, [program_, *url, *WORDS, *more], self.starting(program_), self.log)

    def follow(self, folder, url):
        program_, (port, node) = folder / "follow", self.node()
        self.timed(f"{folder.name}: follow", [program_, *url, *WORDS, "--node", port, "--until", self.it.entries, "--block", 5],
                   self.starting(program_))
        kill(node)

    def print(self):
        for name, rates in self.told.items():
            middle, own = statistics.median(rates), statistics.median(self.beside[name])
            least, _, most = statistics.quantiles(self.ratios[name], n=4) if len(rates) > 1 else self.ratios[name] * 3
            ratio = f"{statistics.median(self.ratios[name]):.2f} of hkrep feed (half of the turns {least:.2f} to {most:.2f})"
            print(f"  {name:34} {middle:10,.0f} frames/s, {ratio}; {own:.1f} microseconds of its processor a frame", flush=True)


def used():
    it = resource.getrusage(resource.RUSAGE_CHILDREN)
    return it.ru_utime + it.ru_stime


def lateness(it, folder, url, count):
    """An entry and the marks of all streams are written to a publisher, until the node can be read up to them."""
    port, late = free_port(), []
    it.start_node(port, "-q")
    it.start(folder / "follow", *url, *WORDS, "--node", port)
    writer = it.start(folder / "publish", *url, *WORDS, "--heads", stdin=subprocess.PIPE)
    numbers = {stream: sum(journeys.is_entry(frame) and journeys.stream_of(frame) == stream for frame in it.frames)
               for stream in range(1, STREAMS + 1)}
    with Node(port, limit=60) as node:
        journeys.waited(lambda: node.front().readable >= it.entries, "the node doesn't come to the end")
        for at in range(it.entries + 1, it.entries + count + 1):
            numbers[1] += 1
            frames = [encode(Entry.of(LOG, 1, numbers[1], at, rows=[(1, at, 0, b"x" * 64)]))]
            frames += [encode(Mark(LOG, stream, numbers[stream], at)) for stream in numbers]
            begin = time.monotonic()
            writer.stdin.write(b"".join(frames))
            writer.stdin.flush()
            while node.front().readable < at:
                pass
            late.append((time.monotonic() - begin) * 1000)
            time.sleep(0.002)
    late.sort()
    print(f"  {folder.name}: publish to resolved, {count} entries with the marks of four streams: {late[count // 2]:.2f} ms in the middle, "
          f"{late[count * 99 // 100]:.2f} ms at the 99th of a hundred", flush=True)


def over_redis(it, frames, turns):
    print(f"Redis, blocks, load {os.getloadavg()[0]:.1f}", flush=True)
    measure, folder, url = Measure(it, frames), connectors.CONNECTORS, it.url()
    for turn in range(turns):
        it.client.flushall()
        measure.feed()
        measure.publish(folder, url, "--heads")
        measure.feed()
        measure.follow(folder, url)
        if turn % 5 == 0:
            it.client.flushall()
            measure.publish(folder, url)
    measure.print()
    lateness(it, folder, url, min(1000, it.entries))


def over_nats(it, frames, turns, name):
    print(f"NATS, three servers, three replicas, {name}, load {os.getloadavg()[0]:.1f}", flush=True)
    measure, folder, url = Measure(it, frames), engine.CONNECTORS, it.url()
    for _ in range(turns):
        made_anew(it, folder, url)
        measure.feed()
        measure.publish(folder, url, "--heads")
        measure.feed()
        measure.follow(folder, url)
    made_anew(it, folder, url)
    measure.publish(folder, url)
    measure.print()
    lateness(it, folder, url, min(1000, it.entries))


def made_anew(it, folder, url):
    """The streams, empty, and led: making them takes the servers a second or two."""
    nats = it.any_link()
    for key in engine.KEYS:
        try:
            nats.ask(f"$JS.API.STREAM.DELETE.{key}", limit=20)
        except ApiError:      # it isn't there yet
            pass
    nats.close()
    subprocess.run([folder / "publish", *url, *map(str, WORDS), "/dev/null"], stderr=subprocess.DEVNULL, check=True)
    journeys.waited(it.all_led, "not all streams have a leader")


def main(entries, turns, engines):
    frames = log_of(entries, 5)
    print(f"{len(frames)} frames, {sum(map(len, frames)) / 1e6:.1f} MB, 4 streams, {turns} turns", flush=True)
    if "redis" in engines:
        with tempfile.TemporaryDirectory() as folder, connectors.Bench(pathlib.Path(folder), entries, frames, {}) as it:
            over_redis(it, frames, turns)
    if "nats" not in engines or not program():
        return
    for name in ("no sync_interval", "sync_interval: always"):
        with tempfile.TemporaryDirectory() as folder:
            it = engine.Bench(pathlib.Path(folder), entries, frames, {})
            it.servers.is_synced = name.endswith("always")
            try:
                it.servers.begin()
                over_nats(it, frames, -(-turns // 5) if it.servers.is_synced else turns, name)
            finally:
                it.__exit__()


if __name__ == "__main__":
    numbers_ = [int(word) for word in sys.argv[1:] if word.isdigit()]
    names = [word for word in sys.argv[1:] if not word.isdigit()]
    main(*(numbers_ + [20_000, 5][len(numbers_):]), names or ["redis", "nats"])
