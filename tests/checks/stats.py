#!/usr/bin/env python3
"""Checks of Stats and Tables: what a node tells of itself, over each port, of a failed node too, compared with what was sent, read and made, and with
what the system says of its process. The frames are spelled here.

Prints a line for each check and ends with 'N passed, M failed'. Standard library only."""
import pathlib
import socket
import struct
import subprocess
import sys
import time

sys.path.append(str(pathlib.Path(__file__).resolve().parents[1] / "lib"))
import messages as say
from checks import differ, ended, free_port, guarded, is_built, report
from messages import E1, E2
from staying import LIMIT, PROGRAM, Staying

ROOT = pathlib.Path(__file__).resolve().parents[2]
STATS, TABLES, OF_STATS, OF_TABLES, REFUSED = b"\2\x3c", b"\2\x3d", 75, 76, 36
BUDGET = 1 << 20
(ROWS, ENDS, BODY_BYTES, OPERATIONS, GUARDED, FAILED, PINS, SECONDS, OF_BUDGET, RESERVED, MEMORY, OPEN, OPENED, MOST_OPEN, BYTES_READ, BYTES_WRITTEN, REQUESTS, REFUSALS,
 FAILED_ACCEPTS, VERSION) = range(1, 21)
# how much the memory may differ from what the system says right after
MEMORY_SLACK = 8 << 20


def framed(rest):
    return struct.pack(">I", len(rest)) + rest


class Counting:
    """A connection that counts the bytes that it sent and read."""

    def __init__(self, port):
        self.socket, self.sent, self.read = socket.create_connection(("127.0.0.1", port), timeout=LIMIT), 0, 0

    def send(self, frame):
        self.socket.sendall(frame)
        self.sent += len(frame)

    def _take(self, size):
        found = b""
        while len(found) < size:
            piece = self.socket.recv(size - len(found))
            if not piece:
                raise ConnectionError
            found += piece
        self.read += size
        return found

    def reply(self):
        """The kind of the next reply, and its body."""
        rest = self._take(int.from_bytes(self._take(4), "big"))
        return rest[1], rest[2:]

    def ask(self, frame):
        self.send(frame)
        return self.reply()

    def stats(self):
        """The metrics by (name, label), and what is wrong with their list."""
        kind, body = self.ask(framed(STATS))
        count = int.from_bytes(body[:4], "big")
        if kind != OF_STATS or len(body) != 4 + 12 * count:
            raise RuntimeError(f"Stats is answered by {kind} with {len(body)} bytes")
        found = [struct.unpack_from(">HHQ", body, 4 + 12 * at) for at in range(count)]
        places = [it[:2] for it in found]
        if places != sorted(set(places)):
            raise RuntimeError(f"metrics don't rise: {places}")
        return {(name, label): value for name, label, value in found}

    def tables(self):
        kind, body = self.ask(framed(TABLES))
        count = int.from_bytes(body[:4], "big")
        if kind != OF_TABLES or len(body) != 4 + 2 * count:
            raise RuntimeError(f"Tables is answered by {kind} with {len(body)} bytes")
        return list(struct.unpack_from(f">{count}H", body, 4))

    def __enter__(self):
        return self

    def __exit__(self, *_):
        self.socket.close()


def of(metrics, name):
    """The metrics of a name, by label."""
    return {label: value for (own, label), value in metrics.items() if own == name}


def version():
    major, minor, patch = map(int, (ROOT / "VERSION").read_text(encoding="utf-8").strip().split("."))
    return major * 1_000_000 + minor * 1_000 + patch


def of_what_is_held():
    """Rows, ends, bytes, operations, pins and tables, as items come, a pin is made and released, and all before a time is pruned."""
    with Staying(4, "--no-guard") as node, Counting(node.port) as link:
        pairs = [("tables of a new node", link.tables(), [])]
        first = link.stats()
        pairs += [(f"metric {name} of a new node", first[name, 0], 0) for name in (ROWS, ENDS, BODY_BYTES, GUARDED, FAILED, PINS)]
        link.ask(say.items(E1, E2, say.entry(3, 3, [(1, 6, 9, b"CDE"), (7, 2 ** 64 - 1, 1, b"x" * 100), (65_535, 0, 1, b"")]), say.mark(1, 3, 3)))
        pairs.append(("tables", link.tables(), [1, 7, 65_535]))
        held = link.stats()
        # keys 5 (two rows), 6 of table 1, and one of each of the others
        pairs += [(f"metric {name}", held[name, 0], value) for name, value in ((ROWS, 5), (ENDS, 1), (BODY_BYTES, 2 + 3 + 100), (PINS, 0))]
        pairs.append(("operations", held[OPERATIONS, 0] - first[OPERATIONS, 0], 1))
        kind, body = link.ask(say.hold(2))
        pairs += [("a pin", kind, 71), ("pins", link.stats()[PINS, 0], 1)]
        link.ask(say.release(int.from_bytes(body[:8], "big")))
        pairs.append(("pins after the release", link.stats()[PINS, 0], 0))
        link.ask(say.prune(3))
        pruned = link.stats()
        pairs += [("rows after a prune", pruned[ROWS, 0], 4), ("bytes after a prune", pruned[BODY_BYTES, 0], 1 + 3 + 100), ("tables after a prune", link.tables(), [1, 7, 65_535])]
    report("the numbers of what a node holds, and its tables", differ(pairs))


def of_connections():
    """Bytes, requests, refusals and connections are those that were; the memory, the budget and the version too."""
    with Staying(4, "--link-bytes", str(BUDGET), reading=2, feeding=3) as node:
        with Counting(node.port) as link:
            link.ask(say.items(E1, say.mark(1, 1, 1)))
            link.ask(say.front())
            link.ask(say.ask(9, say.get(1, 5)))
            link.ask(say.ask(9, say.get(1, 5)))
            before = link.read
            told = link.stats()
            pairs = [("bytes read", told[BYTES_READ, 0], link.sent), ("bytes written", told[BYTES_WRITTEN, 0], before),
                     ("requests", of(told, REQUESTS), {16: 1, 17: 1, 20: 2}), ("refusals", of(told, REFUSALS), {26: 2}),
                     ("open", of(told, OPEN), {0: 1, 1: 0, 2: 0}), ("opened", of(told, OPENED), {0: 1, 1: 0, 2: 0}), ("at once", of(told, MOST_OPEN), {0: 1, 1: 0, 2: 0}),
                     ("budget", of(told, OF_BUDGET), {0: BUDGET // 2, 1: BUDGET // 2}), ("reserved", of(told, RESERVED), {0: 0, 1: 0}),
                     ("version", told[VERSION, 0], version()), ("failed accepts", told[FAILED_ACCEPTS, 0], 0),
                     ("memory", abs(told[MEMORY, 0] - node.memory()) < MEMORY_SLACK, True), ("seconds", told[SECONDS, 0] <= LIMIT, True)]
            with Counting(node.read_port) as reader, Counting(node.feed_port) as feeder, Counting(node.port) as other:
                for of_port, name in ((reader, "reader"), (feeder, "feeder"), (other, "other")):
                    pairs.append((f"tables of a {name}", of_port.tables(), [1]))
                    of_port.stats()
                told = reader.stats()
                pairs += [("open at all ports", of(told, OPEN), {0: 2, 1: 1, 2: 1}), ("Stats and Tables", (of(told, REQUESTS)[60], of(told, REQUESTS)[61]), (4, 3))]
                kind, body = reader.ask(say.prune(0))
                pairs.append(("a prune of a reader", (kind, body[0]), (REFUSED, 4)))
            while of(link.stats(), OPEN) != {0: 1, 1: 0, 2: 0}:
                time.sleep(0.01)
            told = link.stats()
            pairs += [("opened", of(told, OPENED), {0: 2, 1: 1, 2: 1}), ("at once", of(told, MOST_OPEN), {0: 2, 1: 1, 2: 1}), ("refusals", of(told, REFUSALS), {4: 1, 26: 2})]
            time.sleep(1.1)
            pairs.append(("seconds go on", link.stats()[SECONDS, 0] > told[SECONDS, 0] or told[SECONDS, 0] > 0, True))
    report("the numbers of connections, bytes, requests and refusals are those that were, over each port", differ(pairs))


def of_reserved_bytes():
    """What a connection reserves is told, and comes back at its end."""
    with Staying(4, "--link-bytes", str(BUDGET)) as node, Counting(node.port) as link:
        link.ask(say.items(E1, E2, say.mark(1, 2, 2)))
        with Counting(node.port) as other:
            other.ask(say.whole(0, 1))
            taken = of(link.stats(), RESERVED)[0]
        limit = time.monotonic() + LIMIT
        while of(link.stats(), RESERVED)[0] != 0 and time.monotonic() < limit:
            time.sleep(0.01)
        pairs = [("reserved", 0 < taken < BUDGET, True), ("after its end", of(link.stats(), RESERVED), {0: 0}), ("budget", of(link.stats(), OF_BUDGET), {0: BUDGET})]
    report("bytes that are reserved of the budget are told", differ(pairs))


def of_a_failed_node():
    """A failed node answers both, and a guarded one says that it is."""
    with Staying(4, "--no-guard") as node, Counting(node.port) as link:
        link.ask(say.items(E1, say.mark(1, 1, 1)))
        link.ask(say.items(say.entry(1, 1, [(1, 5, 8, b"other")])))
        told = link.stats()
        pairs = [("failed", told[FAILED, 0], 1), ("tables", link.tables(), [1]), ("rows", told[ROWS, 0], 1), ("refusals", of(told, REFUSALS), {23: 1})]
    with Staying(4) as node, Counting(node.port) as link:
        pairs.append(("guarded", link.stats()[GUARDED, 0], 1))
    report("a failed node answers Stats and Tables, and a guarded one says so", differ(pairs))


def without_stay():
    """A node of `serve` tells what it holds, and nothing else."""
    port = free_port()
    words = [str(PROGRAM), "serve", "--log", "7", "--streams", "1", "--port", str(port), "--links", "1", "--messages", "2"]
    with subprocess.Popen(words, stdout=subprocess.PIPE, stderr=subprocess.DEVNULL, text=True) as child:
        child.stdout.readline()
        with Counting(port) as link:
            link.ask(say.items(E1, say.mark(1, 1, 1)))
            told, tables = link.stats(), link.tables()
        child.wait(LIMIT)
    report("a node of serve tells what it holds", differ([("metrics", list(told), [(name, 0) for name in range(1, 8)]), ("rows", told[ROWS, 0], 1), ("tables", tables, [1])]))


CHECKS = (of_what_is_held, of_connections, of_reserved_bytes, of_a_failed_node, without_stay)


def main():
    if not is_built(PROGRAM):
        return 1
    for check in CHECKS:
        guarded(check)
    return ended()


if __name__ == "__main__":
    sys.exit(main())
