"""Checks of what the Python package reads of a node's numbers and of its tables, which tests/checks/python_client.py runs: values, frames, faults,
calls against a server that answers frames which are spelled here, and against one of an earlier release. Standard library only."""
import asyncio
import contextlib
import pathlib
import struct
import sys

sys.path.append(str(pathlib.Path(__file__).resolve().parents[1] / "lib"))
from checks import differ, report
from packaged import LIMIT, refusal_of, va
from python_servers import Peer
from staying import Staying

later = va.later
MOST = 2**64 - 1
METRICS = [(1, 0, 3), (2, 0, 1), (3, 0, 12), (4, 0, 9), (5, 0, 1), (6, 0, 0), (7, 0, 2), (8, 0, 61), (9, 0, 1000), (9, 1, 500), (10, 0, 10), (10, 1, 0), (11, 0, 4096),
           (12, 0, 2), (12, 1, 1), (13, 0, 7), (14, 0, 3), (15, 0, MOST), (16, 0, 5), (17, 17, 4), (17, 60, 1), (18, 26, 8), (19, 0, 0), (20, 0, 1_002_003), (21, 0, 2), (22, 0, 8192), (23, 0, 5),
           (23, 3, 6), (65535, 65535, MOST)]
TABLES = [0, 1, 5, 65535]


def frame(kind, body):
    """A frame of version 2, written out by hand."""
    return struct.pack(">IBB", len(body) + 2, 2, kind) + body


def stats_frame(metrics, count=None):
    return frame(75, struct.pack(">I", len(metrics) if count is None else count) + b"".join(struct.pack(">HHQ", *it) for it in metrics))


def tables_frame(tables, count=None):
    return frame(76, struct.pack(">I", len(tables) if count is None else count) + b"".join(struct.pack(">H", it) for it in tables))


def numbers():
    """What a node tells of itself has names, and what is not known here is kept."""
    stats = later.decode_reply(stats_frame(METRICS))
    nothing = later.decode_reply(stats_frame([]))
    wanted = {"rows": 3, "ends": 1, "body_bytes": 12, "operations": 9, "guarded": True, "failed": False, "pins": 2, "seconds": 61, "budget": {0: 1000, 1: 500}, "reserved": {0: 10, 1: 0},
              "memory": 4096, "open": {0: 2, 1: 1}, "opened": {0: 7}, "most_open": {0: 3}, "bytes_read": MOST, "bytes_written": 5, "requests": {17: 4, 60: 1}, "refusals": {26: 8},
              "failed_accepts": 0, "version": "1.2.3", "keys": 2,
              "memory_limit": 8192, "other": {23: {0: 5, 3: 6}, 65535: {65535: MOST}}}
    found = [name for name, it in vars(later.Stats).items() if isinstance(it, property)]
    problems = differ([("all of them", sorted(found), sorted(wanted)), *((name, getattr(stats, name), value) for name, value in wanted.items()),
                       *((f"{name} of nothing", getattr(nothing, name), {} if isinstance(value, dict) else None) for name, value in wanted.items())])
    lines = stats.line().split("\n")
    problems += differ([("lines", (lines[0], lines[1], lines[9], lines[-1], len(lines)), (f"stats {len(METRICS)}", "rows 3", "budget 0 1000", f"metric 65535 65535 {MOST}", len(METRICS) + 1)),
                        ("tables in lines", later.Tables((1, 5)).line(), "tables 2\ntable 1\ntable 5")])
    report("a node's numbers have names, and those that are not known are kept", problems)


def frames():
    """Frames are those that are spelled here, read back, in pieces too; what breaks a rule has its number."""
    problems = []
    for name, text, value in (("stats", stats_frame(METRICS), later.Stats(METRICS)), ("no stats", stats_frame([]), later.Stats(())),
                              ("tables", tables_frame(TABLES), later.Tables(TABLES)), ("no tables", tables_frame([]), later.Tables(()))):
        feeder = later.ReplyFeeder()
        pieces = [it for at in range(0, len(text), 3) for it in feeder.feed(text[at:at + 3])]
        problems += differ([(name, (later.encode_reply(value), later.decode_reply(text), pieces), (text, value, [value]))])
        problems += differ([(f"{name} cut at {end}", refusal_of(lambda: later.reply_of(text[4:end])), 10) for end in range(6, len(text), 5)])
    for name, value, kind in (("asking for stats", later.AskStats(), 60), ("asking for tables", later.AskTables(), 61)):
        problems += differ([(name, (later.encode_request(value), later.decode_request(frame(kind, b""))), (frame(kind, b""), value)),
                            (f"{name}, with a body", refusal_of(lambda: later.decode_request(frame(kind, b"\0"))), 10)])
    faults = (("the same metric twice", stats_frame([(1, 0, 1), (1, 0, 1)]), 7), ("labels that fall", stats_frame([(9, 1, 1), (9, 0, 1)]), 7), ("names that fall", stats_frame([(2, 0, 1), (1, 9, 1)]), 7),
              ("more metrics than it says", stats_frame([(1, 0, 1)], 0), 10), ("fewer", stats_frame([(1, 0, 1)], 2), 10), ("the same table twice", tables_frame([5, 5]), 7),
              ("tables that fall", tables_frame([5, 4]), 7), ("more tables than it says", tables_frame([5], 0), 10), ("fewer tables", tables_frame([5], MOST % 2**32), 10))
    problems += differ([(name, refusal_of(lambda: later.decode_reply(text)), number) for name, text, number in faults])
    made = (("metrics that fall", lambda: later.Stats([(2, 0, 1), (1, 0, 1)]), 7), ("a name", lambda: later.Stats([(65536, 0, 1)]), 6), ("a label", lambda: later.Stats([(1, -1, 1)]), 6),
            ("a value", lambda: later.Stats([(1, 0, MOST + 1)]), 6), ("tables twice", lambda: later.Tables([3, 3]), 7), ("a table", lambda: later.Tables([65536]), 6))
    problems += differ([(f"made: {name}", refusal_of(call), number) for name, call, number in made])
    report("frames of a node's numbers and tables, and what they refuse", problems)


def asked():
    """A node, a pipeline and asyncio give what was answered."""
    replies = (stats_frame(METRICS), tables_frame(TABLES))
    wanted, problems = (later.Stats(METRICS), TABLES), []
    with Peer([(4, 0, False)], lambda number: replies[number % 2]) as peer, contextlib.closing(va.Node(peer.port, limit=LIMIT, tries=1)) as node:
        problems += differ([("a node", (node.stats(), node.tables()), wanted)])
        with node.pipeline() as pipe:
            stats, tables = pipe.stats(), pipe.tables()
        problems += differ([("a pipeline", (stats.result(), tables.result()), wanted), ("it reads version 2", node._version, 2)])

    async def told(port):
        async with va.AsyncNode(port, tries=1) as node:
            return await node.stats(), await node.tables()

    with Peer([(2, 0, False)], lambda number: replies[number % 2]) as peer:
        problems += differ([("asyncio", asyncio.run(told(peer.port)), wanted)])
    report("a node's numbers and tables, asked by a node, a pipeline and asyncio", problems)


def of_an_earlier_release():
    """A node that doesn't know these requests refuses them, and the error says so; another reply is no answer."""
    problems = []
    for ask in (lambda node: node.stats(), lambda node: node.tables()):
        for number, words in ((3, "reads messages of version 1 alone"), (4, "of an earlier release")):
            with Peer([(1, 0, False)], va.encode_reply(va.Refused(number))) as peer, contextlib.closing(va.Node(peer.port, limit=LIMIT, tries=1)) as node:
                try:
                    ask(node)
                    problems.append(f"{number} is no error")
                except va.Refused as refused:
                    problems += differ([(f"refused {number}", (refused.number, words in str(refused)), (number, True))])
        with Peer([(2, 0, False)], va.later.encode_reply(va.Refused(90))) as peer, contextlib.closing(va.Node(peer.port, limit=LIMIT, tries=1)) as node:
            problems += differ([("out of memory", (refusal_of(lambda: ask(node)), refusal_of(lambda: ask(node))), (90, 90))])
        with Peer([(1, 0, False)], later.encode_reply(later.Added(1))) as peer, contextlib.closing(va.Node(peer.port, limit=LIMIT, tries=1)) as node:
            problems += differ([("another reply", refusal_of(lambda: ask(node)), 4)])
    report("a node of an earlier release refuses to tell its numbers, and the error says why", problems)


def of_a_node():
    """A node of the program reports what it was given, and the connections over which that came."""
    log = va.LogWriter(7, 1)
    with Staying(4) as node, va.Node(node.port) as link:
        new, none = link.stats(), link.tables()
        link.items([log.commit(puts=[(1, 5, 9, b"ABC"), (9, 2**64 - 1, 1, b"")]), log.commit(removes=[(1, 5)]), *log.marks()])
        for at in (3, 4):
            refusal_of(lambda: link.get(1, 5, at=at))
        with link.hold(1):
            held, tables = link.stats(), link.tables()
        wanted = {"rows": 2, "ends": 1, "body_bytes": 3, "pins": 1, "guarded": True, "failed": False, "version": va.__version__, "open": {0: 2}, "opened": {0: 2}, "most_open": {0: 2}}
        problems = differ([("of a new node", (new.rows, new.ends, new.pins, none), (0, 0, 0, [])), ("tables", tables, [1, 9]), ("operations", held.operations - new.operations, 2),
                           *((name, getattr(held, name), value) for name, value in wanted.items()), ("refusals", held.refusals.get(26), 2), ("questions", held.requests.get(20), 2),
                           ("of this run", (held.seconds < LIMIT, held.memory > 0, held.bytes_read > 0, held.bytes_written > 0), (True,) * 4), ("no other", held.other, {})])
    report("the numbers and the tables of a node of the program", problems)


CHECKS = (numbers, frames, asked, of_an_earlier_release, of_a_node)
