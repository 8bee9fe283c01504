#!/usr/bin/env python3
"""Checks of links to `bin/hkrep serve` that run short of something: of open files, of threads, of a peer that reads.

Prints a line for each check and ends with 'N passed, M failed'. Standard library only."""
import contextlib
import os
import pathlib
import socket
import subprocess
import sys
import tempfile
import time

sys.path.append(str(pathlib.Path(__file__).resolve().parents[1] / "lib"))
import messages as say
from checks import differ, ended, guarded, is_built, report
from client import Node
from messages import E1, TOO_LONG
from staying import said

ROOT = pathlib.Path(__file__).resolve().parents[2]
PROGRAM = ROOT / "bin" / "hkrep"
LIMIT = 30

# A request for the front, and the reply of a node that took nothing; the reply to a frame that is too long.
FRONT = say.front()
NO_FRONT = say.spelled(say.fields_of_front(0, 0))
REFUSED_2 = say.refused(2)


@contextlib.contextmanager
def node(links, environment=None, **limits):
    """A node for so many links, and its port."""
    with Node(links, environment=environment, **limits) as it:
        yield it.child, it.port


def opened(port):
    return socket.create_connection(("127.0.0.1", port), timeout=LIMIT)


def read(link, count):
    """So many bytes, or those that come before the end of the link; one that is cut off has no end, and raises."""
    told = b""
    while len(told) < count and (more := link.recv(count - len(told))):
        told += more
    return told


def asked(link):
    """The reply to a request for the front."""
    link.sendall(FRONT)
    return read(link, len(NO_FRONT))


def told(child):
    """What the node printed since it listened, its status, and how many lines standard error has."""
    out, err = child.communicate(timeout=LIMIT)
    return out.splitlines(), child.returncode, len(list(said(err.splitlines())))


def no_more_files():
    """With room for six files a node accepts two links beside its listener and its standard ones. The third accept fails; the two
    run to their end, and then 93 is told."""
    with node(3, RLIMIT_NOFILE=6) as (child, port):
        with opened(port) as first, opened(port) as second:
            pairs = [("the first link", asked(first), NO_FRONT), ("the second link", asked(second), NO_FRONT)]
            with opened(port):
                time.sleep(0.3)
                pairs += [("it runs on", child.poll(), None), ("the first link after it", asked(first), NO_FRONT)]
            pairs += [("the second link after it", asked(second), NO_FRONT)]
        report("a node that can open no further file", differ(pairs + [("the end", told(child), (["refused 93"], 1, 1))]))


def no_thread():
    """A link whose thread can't be started ends with 90, and the others are served."""
    with tempfile.TemporaryDirectory() as folder:
        library = pathlib.Path(folder) / "failing_threads.so"
        source = ROOT / "tests" / "faults" / "failing_threads.c"
        subprocess.run(["cc", "-shared", "-fPIC", "-O1", "-o", str(library), str(source), "-ldl"], check=True)
        faults = {**os.environ, "LD_PRELOAD": str(library), "FAILING_THREAD": "2"}
        with node(3, faults) as (child, port):
            with opened(port) as first, opened(port) as second, opened(port) as third:
                pairs = [("the first link", asked(first), NO_FRONT), ("the second link", read(second, 1), b""),
                         ("the third link", asked(third), NO_FRONT)]
            report("a link without a thread", differ(pairs + [("the end", told(child), (["ended 0", "ended 90", "ended 0"], 1, 1))]))


def behind_a_fault():
    """What a peer sent behind a fault does not cut off the last reply, though nobody asks for it."""
    with node(1) as (child, port), opened(port) as link:
        link.sendall(TOO_LONG + bytes(2 ** 20))
        time.sleep(0.3)
        pairs = [("the last reply", read(link, 99), REFUSED_2)]
        link.close()
        report("bytes behind a fault", differ(pairs + [("the end", told(child), (["ended 2"], 1, 1))]))


# The node writes what stands once it has more bytes than this.
MOST_HELD = 65_536


def replies_together():
    """The replies to what is read at once are written at once: no second sending is needed. Where they have more than so many
    bytes the first block ends with the reply that went beyond; where the second sending fails, that block is all that comes."""
    block = (MOST_HELD // len(NO_FRONT) + 1) * NO_FRONT
    with tempfile.TemporaryDirectory() as folder:
        library = pathlib.Path(folder) / "failing_io.so"
        source = ROOT / "tests" / "faults" / "failing_io.c"
        subprocess.run(["cc", "-shared", "-fPIC", "-O1", "-o", str(library), str(source), "-ldl"], check=True)
        faults = {**os.environ, "LD_PRELOAD": str(library), "FAILING_SEND": "2"}
        pairs = []
        for name, count, wanted in (("1,000 replies", 1000, 1000 * NO_FRONT), ("3,000 replies", 3000, block)):
            with node(1, faults) as (child, port), opened(port) as link:
                link.sendall(count * FRONT)
                pairs += [(name, read(link, len(wanted)), wanted)]
                if count == 1000:
                    link.sendall(FRONT)
                pairs += [(f"{name}, and no more", read(link, 1), b""), ("the end", told(child), (["ended 92"], 1, 1))]
    report("the replies to one read go out together", differ(pairs))


def in_order():
    """The ends are told in the order of accepting, and not in that of ending."""
    with node(3) as (child, port):
        with opened(port) as first, opened(port) as second, opened(port) as third:
            pairs = [(f"link {number}", asked(link), NO_FRONT) for number, link in enumerate((first, second, third), 1)]
            third.sendall(FRONT[:5])
            third.shutdown(socket.SHUT_WR)
            read(third, 99)
            second.sendall(TOO_LONG)
            second.shutdown(socket.SHUT_WR)
            read(second, 99)
            pairs += [("the first link at last", asked(first), NO_FRONT)]
        report("ends in the order of accepting", differ(pairs + [("the end", told(child), (["ended 0", "ended 2", "ended 1"], 1, 2))]))


# Entry 1 of time 1 at key 5, the mark that closes up to 5 behind it, and entry 2 of time 4 at key 6.
MARK = say.mark(1, 1, 5)
LATE = say.entry(2, 4, [(1, 6, 9, b"B")])
COUNT = say.ask(5, say.count(1))


def late_entry():
    """An entry for a closed time: a replica that absorbs it refuses it; a node joins it, and does not see it."""
    command = [str(PROGRAM), "front", "--log", "7", "--streams", "1"]
    absorbed = subprocess.run(command, input=E1 + MARK + LATE, capture_output=True, timeout=LIMIT, check=False)
    pairs = [("absorbing it", (absorbed.stdout, absorbed.returncode), (b"refused 23\n", 1))]
    with node(1) as (child, port):
        requests = say.items(E1, MARK) + COUNT + say.items(LATE) + COUNT
        pushed = subprocess.run([str(PROGRAM), "push", "--port", str(port)], input=requests, capture_output=True, timeout=LIMIT, check=False)
        pairs += [("joining it", (pushed.stdout, pushed.returncode), (b"done 2\ncount 1\ndone 3\ncount 2\n", 0)), ("the end", told(child), (["ended 0"], 0, 0))]
    report("an entry for a closed time", differ(pairs))


def main():
    if is_built(PROGRAM):
        for check in (no_more_files, no_thread, behind_a_fault, replies_together, in_order, late_entry):
            guarded(check)
    return ended()


if __name__ == "__main__":
    sys.exit(main())
