#!/usr/bin/env python3
"""A node, two feeders, and the page to look at it.

A primary with accounts commits about ten times a second, in three streams. Feeder 1 pushes streams 1 and 2 at once. Feeder 2 pushes stream 3
some seconds late, in blocks, each from its last entry to its first: so stream 3 holds the node back, and one sees by how much. The node
is pruned to the last 300 times.

Run it after `make`: examples/links/look.py [--seconds N] [--http HOST:PORT]. It runs until Ctrl-C, and uses clients/python."""
import argparse
import pathlib
import queue
import random
import socket
import subprocess
import sys
import threading
import time

sys.dont_write_bytecode = True
ROOT = pathlib.Path(__file__).resolve().parent.parent.parent
sys.path[:0] = [str(ROOT / "clients" / "python"), str(ROOT / "connectors" / "common")]
from built import hkrep, needed_hkrep
from vadungsil import LogWriter, Node, encode
from vadungsil.address import host_and_port
from vadungsil.web import Server
from vadungsil.web.server import serve_beside

PROGRAM = str(hkrep())
LOG, STREAMS, TABLE, KEPT, LATE, BLOCK, PACE = 7, 3, 1, 300, 2.0, 4, 0.05
NAMES = ("ada", "bob", "cyd", "dan", "eve", "fay", "gil", "hal", "ida", "jon")


def free_port():
    with socket.socket() as probe:
        probe.bind(("127.0.0.1", 0))
        return probe.getsockname()[1]


def node_on(port):
    child = subprocess.Popen([PROGRAM, "node", "-q", "--log", str(LOG), "--streams", str(STREAMS), "--port", str(port), "--links", "16"],
                             stdout=subprocess.PIPE, text=True, start_new_session=True)
    if not child.stdout.readline().startswith("listening"):
        raise SystemExit("the node doesn't listen")
    return child


def transactions():
    """Entries and marks of the primary, without an end: (stream, frame)."""
    rand, log = random.Random(7), LogWriter(LOG, STREAMS)
    while True:
        key = rand.randrange(len(NAMES))
        removes = [(TABLE, key)] if log.born(TABLE, key) and rand.random() < 0.05 else []
        body = b'{"name":"%s","balance":%d}' % (NAMES[key].encode(), rand.randrange(1000))
        entry = log.commit([] if removes else [(TABLE, key, key % 3, body)], removes, rand.randint(1, STREAMS))
        yield entry.stream, encode(entry)
        if entry.time % BLOCK == 0:
            for mark in log.marks():
                yield mark.stream, encode(mark)


def prompt_feeder(port, frames, ended):
    """Pushes what comes at once, and prunes the node to the last times."""
    with Node(port) as node:
        while not ended.is_set():
            made = frames.get()
            if made is None:
                return
            node.items([made[1]])
            front = node.front()
            if front.readable > front.horizon + KEPT + 50:
                node.prune(front.readable - KEPT)


def late_feeder(port, frames, ended):
    """Pushes in blocks of some items, each from its last to its first, some time after the first of them was made."""
    with Node(port) as node:
        while not ended.is_set():
            block = [frames.get() for _ in range(BLOCK)]
            made = [it for it in block if it is not None]
            if len(made) < BLOCK:
                return
            ended.wait(max(made[0][0] + LATE - time.monotonic(), 0))
            for _, frame in reversed(made):
                node.items([frame])


def run(port, seconds):
    """Commits until the time is over or Ctrl-C, and lets both feeders end."""
    ended, queues = threading.Event(), (queue.Queue(), queue.Queue())
    feeders = [threading.Thread(target=feed, args=(port, frames, ended), daemon=True) for feed, frames in zip((prompt_feeder, late_feeder), queues)]
    for feeder in feeders:
        feeder.start()
    begin = time.monotonic()
    try:
        for stream, frame in transactions():
            queues[stream == STREAMS].put((time.monotonic(), frame))
            time.sleep(PACE)
            if seconds is not None and time.monotonic() - begin > seconds:
                return
    except KeyboardInterrupt:
        print()
    finally:
        ended.set()
        for frames in queues:
            for _ in range(BLOCK):
                frames.put(None)
        for feeder in feeders:
            feeder.join(LATE + 5)


def main():
    words = argparse.ArgumentParser(description="A node, two feeders with one slow stream, and the page.")
    words.add_argument("--seconds", type=float, help="end after so many seconds; without it at Ctrl-C")
    words.add_argument("--http", default="127.0.0.1:8080", metavar="HOST:PORT", help="where the page is (127.0.0.1:8080); port 0 takes a free one")
    words = words.parse_args()
    needed_hkrep()
    port = free_port()
    child = node_on(port)
    try:
        try:
            server = Server([port], host_and_port(words.http, 0), messages=2)
        except OSError as error:
            raise SystemExit(f"can't listen on {words.http}: {error}; name another by --http") from error
        serve_beside(server)
        print(f"node on port {port}; look at {server.address}?kind=range&table=1&low=0&high=99&view=text", flush=True)
        run(port, words.seconds)
        server.stop()
        return 0
    finally:
        child.kill()
        child.communicate()


if __name__ == "__main__":
    sys.exit(main())
