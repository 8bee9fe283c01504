#!/usr/bin/env python3
"""Checks of links over TCP: a client byte by byte (tests/lib/messages.py, on the package of clients/python) drives `bin/hkrep serve`, and
scripted peers drive `bin/hkrep push`. Every wait has a limit, and each node that is started is ended.

Prints a line for each check and ends with 'N passed, M failed'. Standard library only."""
import contextlib
import json
import os
import pathlib
import queue
import resource
import socket
import struct
import subprocess
import sys
import tempfile
import threading
import time

sys.path.append(str(pathlib.Path(__file__).resolve().parents[1] / "lib"))
import messages as say
from checks import differ, ended, free_port, report
from messages import E1, E2, E3, NEW_E1
from staying import said

ROOT = pathlib.Path(__file__).resolve().parents[2]
PROGRAM = str(ROOT / "bin" / "hkrep")
LIMIT = 30


class Node:
    """A node of `hkrep serve`, which is ended at the latest when the block is left; `words` are more of its command line, limits are of
    `resource`."""

    def __init__(self, links, log=7, streams=1, environment=None, port=None, words=(), **limits):
        def restrict():
            for name, limit in limits.items():
                resource.setrlimit(getattr(resource, name), (limit, limit))

        self.port = port or free_port()
        self.child = subprocess.Popen(
            [PROGRAM, "serve", "--log", str(log), "--streams", str(streams), "--port", str(self.port), "--links", str(links), *words],
            stdout=subprocess.PIPE, stderr=subprocess.PIPE, text=True, env=environment, preexec_fn=restrict)
        lines = queue.Queue()
        threading.Thread(target=lambda: lines.put(self.child.stdout.readline()), daemon=True).start()
        said = lines.get(timeout=LIMIT)
        if said != f"listening {self.port}\n":
            raise RuntimeError(f"the node said {said!r}")

    def link(self):
        return say.Link(self.port, LIMIT)

    def ends(self):
        """How the links ended, the status, and how many lines standard error has."""
        out, err = self.child.communicate(timeout=LIMIT)
        return [int(line.removeprefix("ended ")) for line in out.splitlines()], self.child.returncode, len(list(said(err.splitlines())))

    def __enter__(self):
        return self

    def __exit__(self, *_):
        if self.child.poll() is None:
            self.child.kill()
            self.child.communicate()


def guarded(check):
    """Runs a check; what it raises, a limit included, is a failure and not the end of the run."""
    try:
        check()
    except Exception as error:  # pylint: disable=broad-except
        report(check.__name__, [f"{type(error).__name__}: {error}"])


NEW_WORKED = say.items(NEW_E1, say.mark(1, 1, 1, version=2)) + say.ask(1, say.get(1, 5))
WORKED = say.items(E1, say.mark(1, 1, 1)) + say.ask(1, say.get(1, 5))
WHOLE_1 = {"streams": [(1, 1, [], [])], "facts": [(1, 5, 1, (9, b"\x41"), None)]}


def worked_bytes():
    """The spellings of this client are those that the documents print."""
    wanted = bytes.fromhex("0000005b 01 10 00000002 00000031 01 01 0000000000000007 0001 0000000000000001 0000000000000001 0000 0001"
                           "0001 0000000000000005 00000009 0001 41 0000001c 01 02 0000000000000007 0001 0000000000000001"
                           "0000000000000001 00000015 01 14 0000000000000001 01 0001 0000000000000005")
    told = bytes.fromhex("0000000a 01 20 0000000000000002 0000000b 01 23 01 01 00000009 0001 41")
    with Node(1) as node, node.link() as link:
        link.send(WORKED)
        link.half_close()
        report("items and an ask, in bytes", differ([("asked", WORKED, wanted), ("told", link.read_all(), told), ("ends", node.ends(), ([0], 0, 0))]))
    for name, worked in (("version 2", NEW_WORKED), ("both versions", say.items(NEW_E1, say.mark(1, 1, 1)) + say.ask(1, say.get(1, 5)))):
        with Node(1) as node, node.link() as link:
            link.send(worked)
            link.half_close()
            report(f"items of {name} and an ask", differ([("told", link.read_all(), told), ("ends", node.ends(), ([0], 0, 0))]))


def all_requests():
    """Each request and each reply, over one link; what a link changed shows in its next reply."""
    with Node(1, streams=2) as node, node.link() as link:
        steps = [
            ("front at first", say.front(), ("front", 0, 0)),
            ("items", say.items(E1, E2, E3, say.mark(1, 3, 3)), ("done", 2)),
            ("a stream is silent", say.front(), ("front", 0, 0)),
            ("not yet", say.ask(3, say.get(1, 5)), ("refused", 26, 0, 0)),
            ("the other stream's mark", say.items(say.mark(2, 0, 3)), ("done", 3)),
            ("front", say.front(), ("front", 0, 3)),
            ("get", say.ask(3, say.get(1, 5)), ("row", (9, b"\x42"))),
            ("get at an older time", say.ask(1, say.get(1, 5)), ("row", (9, b"\x41"))),
            ("get of nothing", say.ask(3, say.get(2, 5)), ("row", None)),
            ("range", say.ask(3, say.scan(1, 0, 9)), ("rows", [(5, 9, b"\x42"), (6, 9, b"\x43")])),
            ("range from high to low", say.ask(3, say.scan(1, 9, 0)), ("rows", [])),
            ("tag", say.ask(2, say.by_tag(1, 9)), ("rows", [(5, 9, b"\x42")])),
            ("count", say.ask(3, say.count(1)), ("number", 2)),
            ("delta", say.delta(2), ("fragment", {"log": 7, "base": 2, "horizon": 0, "streams": [(3, 3, [], []), (0, 3, [], [])],
                                                  "facts": [(1, 6, 3, (9, b"\x43"), None)]})),
            ("no items", say.items(), ("done", 4)),
            ("join of a delta", say.join_this(base=2, streams=[(4, 4, [], []), (0, 4, [], [])], facts=[(1, 5, 2, None, 4)]), ("done", 5)),
            ("what was joined ended", say.ask(4, say.get(1, 5)), ("row", None)),
            ("a delta above the mark", say.join_this(base=5, horizon=0, streams=[(4, 4, [], []), (0, 4, [], [])]), ("refused", 22, 5, 4)),
            ("prune above the mark", say.prune(5), ("refused", 24, 4, 0)),
            ("prune", say.prune(3), ("done", 6)),
            ("too old", say.ask(2, say.count(1)), ("refused", 25, 3, 0)),
            ("delta that is too old", say.delta(2), ("refused", 25, 3, 0)),
            ("merge", say.merge_this(streams=[(5, 5, [], []), (0, 5, [], [])], facts=[(1, 7, 5, (9, b""), None)]), ("done", 7)),
            ("what was merged", say.ask(5, say.get(1, 7)), ("row", (9, b""))),
            ("whole", say.full(), ("fragment", {"log": 7, "base": 0, "horizon": 3, "streams": [(5, 5, [], []), (0, 5, [], [])], "facts": [
                (1, 5, 2, (9, b"\x42"), 4), (1, 6, 3, (9, b"\x43"), None), (1, 7, 5, (9, b""), None)]})),
            ("items of another log", say.items(say.mark(1, 0, 1, log=8)), ("refused", 20, 0, 0)),
            ("a stream above the number", say.items(say.mark(3, 0, 1)), ("refused", 21, 0, 0)),
            ("another log", say.join_this(log=8, streams=[(0, 0, [], [])] * 2), ("refused", 20, 0, 0)),
            ("another number of streams", say.merge_this(), ("refused", 21, 0, 0)),
            ("items that contradict each other", say.items(say.entry(9, 9, [(1, 9, 9, b"a")]), say.entry(1, 9, [(1, 9, 9, b"b")], stream=2)),
             ("refused", 23, 0, 0)),
            ("which changed nothing", say.front(), ("front", 3, 5)),
            ("items that contradict the node", say.items(say.entry(1, 3, [(1, 6, 9, b"\x99")], stream=2)), ("refused", 23, 0, 0)),
            ("which damages it: ask", say.ask(5, say.count(1)), ("refused", 41, 0, 0)),
            ("front of a damaged node", say.front(), ("refused", 41, 0, 0)),
            ("delta of a damaged node", say.delta(5), ("refused", 41, 0, 0)),
            ("whole of a damaged node", say.full(), ("refused", 41, 0, 0)),
            ("items into a damaged node", say.items(E1), ("refused", 41, 0, 0)),
            ("prune of a damaged node", say.prune(5), ("refused", 41, 0, 0)),
        ]
        problems = differ([(name, link.ask(request), wanted) for name, request, wanted in steps])
        link.close()
        report("each request and its reply", problems + differ([("ends", node.ends(), ([0], 0, 0))]))


def gaps():
    """A number and two marks that wait behind a gap are told in the whole."""
    streams = [(0, 0, [2], [(2, 2), (3, 3)]), (0, 0, [], [])]
    facts = [(1, 5, 1, None, 2), (1, 5, 2, (9, b"\x42"), None)]
    with Node(1, streams=2) as node, node.link() as link:
        problems = differ([
            ("an entry and marks behind a gap", link.ask(say.items(E2, say.mark(1, 3, 3), say.mark(1, 2, 2))), ("done", 2)),
            ("the whole", link.ask(say.full()), ("fragment", {"log": 7, "base": 0, "horizon": 0, "streams": streams, "facts": facts}))])
        link.close()
        report("a whole with gaps", problems + differ([("ends", node.ends(), ([0], 0, 0))]))


def many_links(cases):
    """Sends each case over a link of its own, one after the other, to a node for up to 64 of them.

    A case is what it is called, the bytes that are sent before the link is closed for sending, what comes back and how the link ends."""
    problems = []
    for at in range(0, len(cases), 64):
        part = cases[at:at + 64]
        with Node(len(part)) as node:
            for name, data, told, _ in part:
                with node.link() as link:
                    link.send(data)
                    link.half_close()
                    problems += differ([(name, link.read_all().hex(" "), told.hex(" "))])
            ends = [end for *_, end in part]
            bad = 1 if any(ends) else 0
            problems += differ([("ends", node.ends(), (ends, bad, sum(end > 0 for end in ends)))])
    return problems


def each_fault():
    """The faults of tests/vectors/request_faults.json that are no cuts (each_cut has those)."""
    vectors = json.loads((ROOT / "tests" / "vectors" / "request_faults.json").read_text(encoding="utf-8"))
    cases = [(it["name"], bytes.fromhex(it["bytes"]), say.refused(it["number"]), it["number"]) for it in vectors if it["number"] != 1]
    report(f"each fault of form, at each field ({len(cases)})", many_links(cases))


def each_cut():
    """The worked bytes cut after each byte; the node's operations count over all links."""
    items_end = len(say.items(E1, say.mark(1, 1, 1)))
    ops = 1
    cases = []
    for end in range(len(WORKED) + 1):
        if end % 64 == 0:
            ops = 1
        told = b""
        if end >= items_end:
            ops += 1
            told = say.done(ops)
        if end == len(WORKED):
            told += say.spelled(say.message(35, [("kind", b"\1"), ("some", b"\1"), ("tag", say.u32(9)), ("length", say.u16(1)), ("body", b"\x41")]))
        whole = end in (0, items_end, len(WORKED))
        cases.append((f"cut at {end}", WORKED[:end], told + (b"" if whole else say.refused(1)), 0 if whole else 1))
    report(f"each cut of two requests ({len(cases)})", many_links(cases))


def pieces_and_pipelines():
    """A request byte by byte; a thousand requests at once, whose replies come in order; a fault behind replies."""
    problems = []
    with Node(3) as node:
        with node.link() as slow:
            for byte in WORKED:
                slow.send(bytes([byte]))
            problems += differ([("byte by byte", [slow.reply(), slow.reply()], [("done", 2), ("row", (9, b"\x41"))])])
        with node.link() as link:
            link.send(say.items(*(say.entry(n, n, [(2, n, 9, say.u16(n))]) for n in range(2, 1001)), say.mark(1, 1000, 1000)))
            problems += differ([("a thousand entries", link.reply(), ("done", 3))])
            link.send(b"".join(say.ask(1000, say.get(2, n)) for n in range(2, 1001)))
            problems += differ([(f"reply {n}", link.reply(), ("row", (9, say.u16(n)))) for n in range(2, 1001)])
        with node.link() as link:
            link.send(say.front() + say.u32(2 ** 28 + 1) + b"more bytes that nobody reads" * 1000)
            problems += differ([("a fault behind a reply", [link.reply(), link.reply()], [("front", 0, 1000), ("refused", 2, 0, 0)])])
        problems += differ([("ends", node.ends(), ([0, 0, 2], 1, 1))])
    report("pieces, pipelines, and bytes behind a fault", problems)


def long_lists():
    """Lists of 4,096 items and more, which several workers gather, are answered as short ones: by the first item that does not fit,
    then by two that contradict each other, wherever they stand; a refused list changes nothing."""
    count = 4096
    plain = [say.entry(n, n, [(1, n, 9, say.u64(n))]) for n in range(count + 1, count * 3)]
    time_ = count * 3
    contradicting = [say.entry(n, time_, [(1, 9999, 9, say.u64(n))]) for n in (1, 2)]
    other_log, other_stream = say.mark(1, 0, 1, log=8), say.mark(2, 0, 1)
    with Node(1) as node, node.link() as link:
        steps = [
            ("from the last to the first", say.items(*(say.entry(n, n, [(1, n, 9, say.u64(n))]) for n in range(count, 0, -1))), ("done", 2)),
            ("their mark", say.items(say.mark(1, count, count)), ("done", 3)),
            ("all of them came", say.ask(count, say.count(1)), ("number", count)),
            ("contradicting ends", say.items(contradicting[0], *plain, contradicting[1]), ("refused", 23, 0, 0)),
            ("another log behind them", say.items(contradicting[0], *plain, contradicting[1], other_log), ("refused", 20, 0, 0)),
            ("a stream above the number first", say.items(other_stream, *plain, other_log), ("refused", 21, 0, 0)),
            ("another log first", say.items(other_log, *plain, other_stream), ("refused", 20, 0, 0)),
            ("which changed nothing", say.front(), ("front", 0, count)),
            ("the same items again, and more", say.items(*plain, *plain, say.mark(1, time_ - 1, time_ - 1)), ("done", 4)),
            ("each row", say.ask(time_ - 1, say.scan(1, 0, time_)), ("rows", [(n, 9, say.u64(n)) for n in range(1, time_)])),
        ]
        problems = differ([(name, link.ask(request), wanted) for name, request, wanted in steps])
        link.close()
        report("lists that several workers gather", problems + differ([("ends", node.ends(), ([0], 0, 0))]))


def busy(node, key, number, problems):
    """Asks for one key again and again, while items may come."""
    try:
        with node.link() as link:
            before = 0
            for _ in range(number):
                told = link.ask(say.front())
                readable = told[2]
                if told[0] != "front" or readable < before:
                    problems.append(f"front {told}, after {before}")
                    return
                before = readable
                row = link.ask(say.ask(readable, say.get(1, key)))
                born = readable - (readable - key) % 64 if readable >= key else 0
                wanted = ("row", (9, say.u64(born)) if born > 0 else None)
                if row != wanted:
                    problems.append(f"key {key} at {readable}: {row}, wanted {wanted}")
                    return
    except (OSError, EOFError) as error:
        problems.append(f"key {key}: {error}")


def pushing(node, number, problems):
    """Pushes entries, four at a time, the later two first; key k is put at the times k, k + 64, k + 128, .."""
    try:
        with node.link() as link:
            for at in range(1, number, 4):
                frames = []
                for time_ in (at + 3, at + 2, at + 1, at):
                    key = (time_ - 1) % 64 + 1
                    ends = [(1, key, time_ - 64)] if time_ > 64 else []
                    frames.append(say.entry(time_, time_, [(1, key, 9, say.u64(time_))], ends))
                for request in (say.items(*frames[:2]), say.items(*frames[2:], say.mark(1, at + 3, at + 3))):
                    told = link.ask(request)
                    if told[0] != "done":
                        problems.append(f"push at {at}: {told}")
                        return
    except (OSError, EOFError) as error:
        problems.append(f"push: {error}")


def many_at_once():
    """64 links at once: one pushes, 63 ask; every answer is the row of its time."""
    problems = []
    with Node(64) as node:
        threads = [threading.Thread(target=pushing, args=(node, 400, problems))]
        threads += [threading.Thread(target=busy, args=(node, key, 50, problems)) for key in range(1, 64)]
        for thread in threads:
            thread.start()
        for thread in threads:
            thread.join(LIMIT)
        problems += differ([("ends", node.ends(), ([0] * 64, 0, 0))])
    report("64 links at once, beside a pushing one", problems)


def silent_link():
    """A link that is opened first and says nothing holds up no other, and one that stands inside a frame neither."""
    with Node(4) as node:
        silent, half = node.link(), node.link()
        half.send(WORKED[:40])
        problems = []
        for _ in range(2):
            with node.link() as link:
                problems += differ([("a busy link", [link.ask(say.items(E1, say.mark(1, 1, 1)))[0], link.ask(say.ask(1, say.get(1, 5)))],
                                     ["done", ("row", (9, b"\x41"))])])
        half.send(WORKED[40:])
        problems += differ([("the rest of the half frame", [half.reply(), half.reply()], [("done", 4), ("row", (9, b"\x41"))]),
                            ("the silent link", silent.ask(say.front()), ("front", 0, 1))])
        half.close()
        silent.close()
        problems += differ([("ends", node.ends(), ([0, 0, 0, 0], 0, 0))])
    report("a silent link beside busy ones", problems)


def link_that_does_not_read():
    """A link that asks for much and reads nothing holds up no other; when it goes, its end is a failed write or read."""
    problems = []
    with Node(2) as node:
        stuck = node.link()
        rows = [(1, key, 9, b"x" * 4000) for key in range(500)]
        problems += differ([("items", stuck.ask(say.items(say.entry(1, 1, rows), say.mark(1, 1, 1))), ("done", 2))])
        stuck.send(say.full() * 50)
        with node.link() as link:
            for _ in range(20):
                problems += differ([("another link", link.ask(say.ask(1, say.count(1))), ("number", 500))])
            problems += differ([("a change beside it", link.ask(say.items(say.mark(1, 1, 2))), ("done", 3))])
        stuck.socket.setsockopt(socket.SOL_SOCKET, socket.SO_LINGER, struct.pack("ii", 1, 0))
        stuck.close()
        ends, status, lines = node.ends()
        if ends not in ([91, 0], [92, 0]) or (status, lines) != (1, 1):
            problems.append(f"ends {ends}, status {status}, {lines} lines of warning")
    report("a link that stops reading", problems)


def failing_calls():
    """A session over a link that gives and takes one byte a call, of which each call in turn fails: what was written is the replies to
    the whole requests that were read, or a front of the replies."""
    told = bytes.fromhex("0000000a 01 20 0000000000000002 0000000b 01 23 01 01 00000009 0001 41")
    first, whole = len(say.items(E1, say.mark(1, 1, 1))), len(WORKED)
    with tempfile.TemporaryDirectory() as folder:
        library = pathlib.Path(folder) / "failing_io.so"
        source = ROOT / "tests" / "faults" / "failing_io.c"
        subprocess.run(["cc", "-shared", "-fPIC", "-O1", "-o", str(library), str(source), "-ldl"], check=True)
        # 120 bytes are received in as many calls and an end, 29 are sent
        for name, end, calls in (("FAILING_RECV", 91, whole + 1), ("FAILING_SEND", 92, len(told))):
            problems = []
            for number in range(1, calls + 2):
                environment = dict(os.environ, LD_PRELOAD=str(library), LINK_STEP="1", **{name: str(number)})
                with Node(1, environment=environment) as node, node.link() as link:
                    with contextlib.suppress(OSError):
                        # the node may have ended the link before
                        link.send(WORKED)
                        link.half_close()
                    got = link.read_all()
                    read = number - 1
                    wanted = told[:0 if read < first else 14 if read < whole else 29]
                    if name == "FAILING_SEND":
                        wanted = told[:number - 1]
                    if number > calls:
                        wanted = told
                    ended = end if number <= calls else 0
                    problems += differ([(f"call {number}", (got, node.ends()), (wanted, ([ended], int(ended > 0), int(ended > 0))))])
            report(f"each call of a session refused in turn ({name}, {calls} calls)", problems)


def run(args, data=b""):
    got = subprocess.run([PROGRAM, *args], input=data, capture_output=True, timeout=LIMIT, check=False)
    return got.stdout.decode(), got.returncode, len(list(said(got.stderr.decode().splitlines())))


def push(port, data):
    return run(["push", "--port", str(port), "--connect-seconds", "0"], data)


def pushes():
    """`hkrep push` against a node: what it prints, and what ends it."""
    with Node(5) as node:
        problems = differ([
            ("the worked bytes", push(node.port, WORKED), ("done 2\n9 41\n", 0, 0)),
            ("nothing", push(node.port, b""), ("", 0, 0)),
            ("a refusal goes on", push(node.port, say.prune(9) + say.front() + say.full() + say.ask(1, say.scan(1, 0, 9))),
             ("refused 24 readable 1\nfront horizon 0 readable 1\nfragment base 0 horizon 0 facts 1\n5 9 41\nrows 1\n", 1, 1)),
            ("half a frame", push(node.port, say.front() + WORKED[:40]), ("front horizon 0 readable 1\nrefused 1\n", 1, 1)),
            ("a fault", push(node.port, say.ask(1, say.count(1)) + say.done(1) + say.front()), ("count 1\nrefused 4\n", 1, 1)),
            ("ends", node.ends(), ([0] * 5, 0, 0))])
    report("push to a node", problems)


def peer(answers, reset=False):
    """Listens once, takes a request for each answer and sends the answer, which may be empty, and then closes; gives the port and
    the thread."""
    listener = socket.create_server(("127.0.0.1", 0))
    listener.settimeout(LIMIT)

    def talk():
        with listener:
            link, _ = listener.accept()
            with link:
                link.settimeout(LIMIT)
                for answer in answers:
                    length = int.from_bytes(link.recv(4, socket.MSG_WAITALL), "big")
                    link.recv(length, socket.MSG_WAITALL)
                    link.sendall(answer)
                if reset:
                    link.recv(1)
                    link.setsockopt(socket.SOL_SOCKET, socket.SO_LINGER, struct.pack("ii", 1, 0))

    thread = threading.Thread(target=talk, daemon=True)
    thread.start()
    return listener.getsockname()[1], thread


# What a peer replies, in hexadecimal digits, and what `push` prints of it.
BAD_REPLIES = (
    ("a change that waits", "00000013 01 24 2a ffffffffffffffff 0000000000000000", "refused 42 ops 18446744073709551615"),
    ("a hold", "00000013 01 24 28 ffffffffffffffff 0000000000000002", "refused 40 reader 18446744073709551615 at 2"),
    ("a length below the least", "00000001", "refused 10"), ("operations above the most", "0000000a 01 20 4000000000000001", "refused 6"),
    ("a horizon above the readable mark", "00000012 01 21 0000000000000005 0000000000000004", "refused 6"),
    ("a readable mark above the last time", "00000012 01 21 0000000000000005 4000000000000001", "refused 6"),
    ("a refusal that no reply has", "00000003 01 24 1e", "refused 6"), ("refusal 0", "00000003 01 24 00", "refused 6"),
    ("a refusal without its numbers", "00000003 01 24 01", "refused 10"),
    ("a number that the refusal has not", "00000013 01 24 01 0000000000000001 0000000000000000", "refused 6"),
    ("a refusal of one number", "0000000b 01 24 01 0000000000000000", "refused 10"),
    ("a second number that the refusal has not", "00000013 01 24 18 0000000000000001 0000000000000001", "refused 6"),
    ("a base above the last time", "00000013 01 24 16 4000000000000001 0000000000000001", "refused 6"),
    ("a hold above the last time", "00000013 01 24 28 4000000000000001 4000000000000001", "refused 6"),
    ("an answer of no kind", "0000000b 01 23 04 0000000000000001", "refused 6"), ("a row or none", "00000004 01 23 01 02", "refused 6"),
    ("a body above the most", "0000000a 01 23 01 01 00000009 1001", "refused 9"), ("rows that are not there", "00000007 01 23 02 ffffffff", "refused 10"),
    ("rows of one key", "0000001d 01 23 02 00000002 0000000000000005 00000009 0000 0000000000000005", "refused 7"))

REFUSED_20 = bytes.fromhex("00000013 01 24 14 0000000000000000 0000000000000000")


def push_to_bad_peers():
    problems = []
    for name, reply, wanted in BAD_REPLIES:
        port, thread = peer([bytes.fromhex(reply)])
        out, status, lines = push(port, say.front())
        thread.join(LIMIT)
        problems += differ([(name, (out, status, lines), (wanted + "\n", 1, 1))])
    for name, answers, reset, wanted in (
            ("the replies end", [b""], False, ["refused 1"]),
            ("the replies end after one", [say.done(2), b""], False, ["done 2", "refused 1"]),
            ("a reply is cut", [say.done(2)[:9]], False, ["refused 1"]),
            ("a reply of a request's kind", [say.front()], False, ["refused 4"]),
            ("a reply of another version", [say.framed(b"\3\x20")], False, ["refused 3"]),
            ("a kind of version 1 in version 2", [say.framed(b"\2\x20")], False, ["refused 3"]), ("another with a body", [bytes.fromhex("0000000402231100")], False, ["refused 3"]),
            ("a reply in version 2", [say.framed(b"\2\x46" + bytes(8))], False, ["refused 3"]),
            ("a reply that is too long", [say.u32(2 ** 28 + 1)], False, ["refused 2"]),
            ("done with 0", [say.done(0)], False, ["refused 6"]),
            ("the link is cut off", [], True, ["refused 91"])):
        port, thread = peer(answers, reset)
        out, status, lines = push(port, say.items() + say.front())
        thread.join(LIMIT)
        problems += differ([(name, (out.splitlines(), status, lines), (wanted, 1, 1))])
    port, thread = peer([REFUSED_20, say.framed(b"\1\x21" + bytes(16))])
    told = push(port, say.join_this() + say.front())
    thread.join(LIMIT)
    problems += differ([("nothing but its input is sent behind 20", told, ("refused 20\nfront horizon 0 readable 0\n", 1, 1))])
    nobody = free_port()
    problems += differ([("nobody listens", push(nobody, say.front()), ("refused 93\n", 1, 1))])
    report("push to peers that end, cut or malform their replies", problems)


def bad_ports_and_lines():
    problems = []
    with socket.create_server(("127.0.0.1", 0)) as taken:
        port = str(taken.getsockname()[1])
        problems += differ([("a port in use", run(["serve", "--log", "7", "--streams", "1", "--port", port, "--links", "1"]), ("refused 93\n", 1, 1))])
    serve = {"--log": "7", "--streams": "1", "--port": "7426", "--links": "1"}
    lines = [["serve", *(word for pair in {**serve, name: value}.items() for word in pair)] for name, value in (
        ("--port", "65536"), ("--port", "+1"), ("--links", "0"), ("--links", "65"), ("--links", "-1"), ("--streams", "65"),
        ("--log", "x"), ("--more", "1"))]
    lines += [["serve"], ["push", "--port", "0"], ["push", "--port", "+7"], ["push", "--port", "65536"], ["push", "--port", "1", "2"]]
    for line in lines:
        out, status, words = run(line)
        if (out, status) != ("", 2) or words == 0:
            problems.append(f"{line}: {out!r}, status {status}, {words} lines")
    for command in ("serve", "push"):
        out, status, _ = run([command, "--help"])
        missing = [word for word in ("hkrep serve --log", "hkrep push --port", "docs/PROTOCOL.md", "--port <P>") if word not in out]
        if missing or status != 0:
            problems.append(f"help of {command}: lacks {missing}, status {status}")
    report("ports in use, bad command lines, and help", problems)


def main():
    start = time.monotonic()
    checks = [worked_bytes, all_requests, gaps, each_fault, each_cut, pieces_and_pipelines, long_lists, silent_link, link_that_does_not_read,
              failing_calls, many_at_once, pushes,
              push_to_bad_peers, bad_ports_and_lines]
    wanted = sys.argv[1:]
    for check in checks:
        if not wanted or check.__name__ in wanted:
            guarded(check)
    print(f"links: {time.monotonic() - start:.1f} s")
    return ended()


if __name__ == "__main__":
    sys.exit(main())
