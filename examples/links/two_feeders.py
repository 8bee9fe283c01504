#!/usr/bin/env python3
"""Two feeders fill a node, a reader asks it meanwhile, and a second node catches up by a delta from the first.

The log has two streams of 100 entries each. Feeder 1 pushes stream 1 and repeats every third item. Feeder 2 begins late and
pushes stream 2 in blocks of 10, each from its last entry to its first. The node can be read up to a time once both streams are
complete up to it.
A second node took the first half of the log; it joins what the first node learnt since, and then both answer the same.

Run it after `make`: examples/links/two_feeders.py [PORT], which also takes the port above. It uses clients/python."""
import pathlib
import subprocess
import sys
import time

sys.dont_write_bytecode = True
ROOT = pathlib.Path(__file__).resolve().parent.parent.parent
sys.path[:0] = [str(ROOT / "clients" / "python"), str(ROOT / "connectors" / "common")]
import vadungsil
from built import hkrep, needed_hkrep

PROGRAM = str(hkrep())
LOG, TABLE, TAG, KEYS, LAST = 7, 1, 9, 10, 200
LIMIT, BLOCK, DELAY = 20, 10, 30


def entry(at):
    """The entry of this time puts the key `at % KEYS` anew; odd times are of stream 1, even ones of stream 2."""
    stream, number = (1, (at + 1) // 2) if at % 2 else (2, at // 2)
    ends = [(TABLE, at % KEYS, at - KEYS)] if at > KEYS else []
    return vadungsil.Entry.of(LOG, stream, number, at, ends, [(TABLE, at % KEYS, TAG, at.to_bytes(2, "big"))])


def mark(stream, number, at):
    return vadungsil.Mark(LOG, stream, number, at)


def items(*found):
    return vadungsil.encode_request(vadungsil.Items(found))


FRONT = vadungsil.encode_request(vadungsil.AskFront())


def rows_at(at):
    return vadungsil.encode_request(vadungsil.Ask(at, vadungsil.Range(TABLE, 0, KEYS)))


class Node:
    """A node that runs until its links have ended."""

    def __init__(self, port, links):
        self.port = port
        self.child = subprocess.Popen([PROGRAM, "serve", "--log", str(LOG), "--streams", "2", "--port", str(port), "--links", str(links)],
                                      stdout=subprocess.PIPE, text=True)
        print(f"node: {self.child.stdout.readline().strip()}", flush=True)

    def ends(self):
        return self.child.communicate(timeout=LIMIT)[0].split("\n")[:-1]

    def stop(self):
        if self.child.poll() is None:
            self.child.kill()
            self.child.communicate()


class Feeder:
    """A running `hkrep push`: one request in, one reply printed."""

    def __init__(self, node):
        self.child = subprocess.Popen([PROGRAM, "push", "--port", str(node.port)], stdin=subprocess.PIPE, stdout=subprocess.PIPE, stderr=subprocess.DEVNULL,
                                      bufsize=0)

    def send(self, request):
        self.child.stdin.write(request)

    def line(self):
        return self.child.stdout.readline().decode().strip()

    def rows(self, at):
        """The lines of the rows at a time, or of the refusal."""
        self.send(rows_at(at))
        lines = [self.line()]
        while not lines[-1].startswith(("rows", "refused")):
            lines.append(self.line())
        return lines

    def end(self):
        self.child.stdin.close()
        rest = self.child.stdout.read().decode().splitlines()
        return rest, self.child.wait(LIMIT)


def blocks():
    """The requests of feeder 2: a block of entries from its last to its first, and then the mark that closes it."""
    for low in range(1, LAST // 2, BLOCK):
        for number in range(low + BLOCK - 1, low - 1, -1):
            yield items(entry(2 * number))
        yield items(mark(2, low + BLOCK - 1, 2 * (low + BLOCK - 1)))


def feed(node):
    """Feeds the node from both sides, and asks it meanwhile. Gives the reader, or None where a reply was not `done`."""
    first, late, reader = Feeder(node), Feeder(node), Feeder(node)
    repeats, late_ones = 0, list(blocks())
    count = len(late_ones)
    for step in range(1, LAST // 2 + DELAY + 1):
        if step <= LAST // 2:
            first.send(items(entry(2 * step - 1), mark(1, step, 2 * step)))
            if step % 3 == 0:
                first.send(items(entry(2 * step - 1)))
                repeats += 1
        if step > DELAY:
            late.send(late_ones.pop(0))
        if step % 20 == 0:
            reader.send(FRONT)
            print(f"reader, at step {step}: {reader.line()}", flush=True)
    for request in late_ones:
        late.send(request)
    for name, feeder, wanted in (("feeder 1", first, LAST // 2 + repeats), ("feeder 2", late, count)):
        lines, status = feeder.end()
        print(f"{name}: {len(lines)} of {wanted} replies, the last '{lines[-1]}', status {status}", flush=True)
        if len(lines) != wanted or status != 0 or not all(line.startswith("done ") for line in lines):
            return None
    return reader


def catch_up(second, first):
    """The second node has the first half of the log, and joins what the first one learnt since."""
    half = LAST // 2
    feeder = Feeder(second)
    feeder.send(items(*(entry(at) for at in range(half, 0, -1)), mark(1, half // 2, half), mark(2, half // 2, half)))
    print(f"second node: {feeder.line()}; at {LAST}: {feeder.rows(LAST)[0]}", flush=True)
    with vadungsil.Node(first.port, LIMIT) as node:
        joined = vadungsil.encode_request(vadungsil.JoinThis(node.delta(half)))
    feeder.send(joined)
    print(f"second node joins {len(joined)} bytes of what came since {half}: {feeder.line()}", flush=True)
    return feeder


def compare(one, other):
    """Whether both answer the same, namely the last row of each key, at each tenth time from half of the log on."""
    for at in range(LAST // 2, LAST + 1, 10):
        wanted = sorted((time_ % KEYS, time_) for time_ in range(at - KEYS + 1, at + 1))
        lines = [f"{key} {TAG} {time_:04x}" for key, time_ in wanted] + [f"rows {KEYS}"]
        if not one.rows(at) == other.rows(at) == lines:
            print(f"at {at} they differ")
            return False
    return True


def main():
    needed_hkrep()
    port = int(sys.argv[1]) if len(sys.argv) > 1 else 7427
    start = time.monotonic()
    nodes = []
    try:
        nodes.append(Node(port, 4))
        nodes.append(Node(port + 1, 1))
        reader = feed(nodes[0])
        if reader is None:
            return 1
        feeder = catch_up(nodes[1], nodes[0])
        same = compare(reader, feeder)
        reader.end()
        feeder.end()
        ends = [node.ends() for node in nodes]
        print(f"ends: {ends[0]} and {ends[1]}")
        if not same or ends != [["ended 0"] * 4, ["ended 0"]]:
            return 1
        print(f"both nodes answer the same, {time.monotonic() - start:.1f} s")
        return 0
    finally:
        for node in nodes:
            node.stop()


if __name__ == "__main__":
    sys.exit(main())
