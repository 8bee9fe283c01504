#!/usr/bin/env python3
"""Checks of the Python package (clients/python): the vectors of tests/vectors against it and against bin/hkrep, its values and codecs, and
its clients against running nodes. Each node that is started is ended.

    tests/checks/python_client.py [CHECK ..]

Prints a line for each check and ends with 'N passed, M failed'. Standard library only."""
import ast
import asyncio
import concurrent.futures
import contextlib
import pathlib
import random
import re
import socket
import subprocess
import sys
import tempfile
import time
import zipfile

sys.dont_write_bytecode = True
ROOT = pathlib.Path(__file__).resolve().parents[2]
import python_addresses
import python_caught
import python_members
import python_names
import python_servers
import python_stats
import python_waiting
sys.path.append(str(pathlib.Path(__file__).resolve().parents[1] / "lib"))
import reference
from checks import differ, ended, is_built, report
from packaged import LIMIT, PACKAGE, command, refusal_of, run, va
from python_exports import export_places, exports
from python_servers import Peer
from vector_values import is_of_version_2, item_of, later_reply_of, later_request_of, reply_of, request_of, vectors
from client import Node as Served
from client import PROGRAM, free_port

POOL = concurrent.futures.ThreadPoolExecutor(4)


# ---------------------------------------------------------------- values

def values():
    """Each value's checks, in their order."""
    row, last = va.Row(9, b"a"), va.LAST_TIME
    entry = lambda number=1, at=2, ends=(), rows=((1, 5, row),), log=7, stream=1: va.Entry(log, stream, number, at, ends, rows)
    fragment = lambda base=0, horizon=0, streams=(va.Stream(3, 3),), facts=(): va.Fragment(7, base, horizon, streams, facts)
    fact = lambda born, put=None, died=None, key=1: va.Fact(va.VersionKey(1, key, born), put, died)
    cases = [
        ("a tag above its type", lambda: va.Row(2 ** 32, b""), 6), ("a body of 4,096", lambda: va.Row(1, bytes(4096)), 0), ("of 4,097", lambda: va.Row(1, bytes(4097)), 9),
        ("born at 0", lambda: va.VersionKey(1, 1, 0), 6), ("a table", lambda: va.VersionKey(2 ** 16, 1, 1), 6), ("a key", lambda: va.VersionKey(1, 2 ** 64, 1), 6),
        ("an entry", entry, 0), ("number 0", lambda: entry(0), 6), ("a number above its time", lambda: entry(3), 6), ("a time", lambda: entry(1, last + 1), 6),
        ("stream 0", lambda: entry(stream=0), 5), ("stream 65", lambda: entry(stream=65), 5), ("neither", lambda: entry(rows=()), 8),
        ("1,025 rows", lambda: entry(rows=[(1, key, row) for key in range(1025)]), 8), ("1,025 ends", lambda: entry(ends=[(1, key, 1) for key in range(1025)]), 8),
        ("rows that fall", lambda: entry(rows=[(1, 6, row), (1, 5, row)]), 7), ("a row twice", lambda: entry(rows=[(1, 6, row)] * 2), 7),
        ("ends that fall", lambda: entry(ends=[(1, 6, 1), (1, 5, 1)]), 7), ("born at the time", lambda: entry(ends=[(1, 6, 2)]), 6),
        ("number before count", lambda: entry(0, rows=()), 6), ("count before order", lambda: entry(rows=[(1, 5, row)] * 1025), 8),
        ("order before birth", lambda: entry(ends=[(1, 6, 9), (1, 5, 9)]), 7),
        ("a mark", lambda: va.Mark(7, 1, 2, 2), 0), ("n above m", lambda: va.Mark(7, 1, 3, 2), 6), ("m", lambda: va.Mark(7, 1, 3, last + 1), 6),
        ("a front", lambda: va.Front(3, 3), 0), ("a horizon above it", lambda: va.Front(4, 3), 6), ("readable", lambda: va.Front(0, last + 1), 6),
        ("a fragment", fragment, 0), ("no streams", lambda: fragment(streams=()), 5), ("base below horizon", lambda: fragment(2, 3), 6),
        ("horizon above closed", lambda: fragment(0, 4), 6), ("a row at the base", lambda: fragment(3, 0, facts=[fact(3, row)]), 6),
        ("died at the base", lambda: fragment(3, 0, facts=[fact(1, None, 3)]), 6), ("facts that fall", lambda: fragment(facts=[fact(2, row), fact(1, row)]), 7),
        ("neither row nor end", lambda: fact(1), 6), ("died at birth", lambda: fact(2, row, 2), 6),
        ("an extra number behind the prefix", lambda: va.Stream(2, 2, [3]), 6), ("extra numbers that fall", lambda: va.Stream(2, 2, [6, 5]), 7),
        ("a mark that does not wait", lambda: va.Stream(2, 2, [], [(2, 2)]), 6), ("waiting marks that fall", lambda: va.Stream(2, 2, [], [(4, 4), (3, 3)]), 7),
        ("a base of a merge", lambda: va.MergeThis(fragment(1)), 6), ("a prune", lambda: va.Prune(last + 1), 6), ("a delta", lambda: va.Delta(-1), 6),
        ("65,537 items", lambda: va.Items([b""] * 65537), 8), ("done with 0", lambda: va.Done(0), 6), ("keys that fall", lambda: va.Rows([(6, row), (5, row)]), 7),
        ("a head below its horizon", lambda: va.later.Head(7, 2, 3, (va.Stream(3, 3),), 0), 6), ("a merge of parts since a base", lambda: va.later.MergeParts(va.later.Head(7, 2, 0, (va.Stream(),), 0)), 6),
        ("a head of other facts", lambda: va.later.Head(7, 0, 0, (va.Stream(3, 3),), 2).with_facts([fact(1, row)]), 8),
        ("a page of no rows", lambda: va.later.AskPage(1, 1, most=0), 8), ("hold 0", lambda: va.later.Release(0), 6), ("no facts to come", lambda: va.later.Part((), 0), 6),
        ("facts of a part that fall", lambda: va.later.AddPart([fact(2, row), fact(1, row)]), 7), ("told of no streams", lambda: va.later.Streams(7, 0, 0, False, 1, None, ()), 5),
        ("version 3", lambda: va.encode(va.Mark(7, 1, 1, 1), 3), 3), ("a refusal without bytes", lambda: va.encode_reply(va.Refused(31, 1, 2)), 2),
    ]
    problems = differ([(name, refusal_of(call), wanted) for name, call, wanted in cases])
    for name, call in (("a row of text", lambda: va.Row(1, "a")), ("a tag of text", lambda: va.Row("1", b"")), ("a float", lambda: va.Mark(7, 1, 1.0, 2))):
        try:
            call()
            problems.append(f"{name} passes")
        except TypeError:
            pass
    report(f"values and what they refuse ({len(cases)})", problems)


def reasons():
    """The words of refusals are the program's, and its page's."""
    program = run([PROGRAM, "explain"]).stdout.decode()
    ours = "".join(f"{va.explain(number)}\n" for number in sorted(va.REASONS))
    shown = run([sys.executable, "-m", "vadungsil", "explain"], cwd=PACKAGE).stdout.decode()
    alone = [number for number in va.REASONS if run([PROGRAM, "explain", str(number)]).stdout.decode() != f"{va.explain(number)}\n"]
    page = (ROOT / "docs" / "FORMATS.md").read_text(encoding="utf-8")
    unknown = [number for number, reason in va.REASONS.items() if f"| {number} | {reason.name}" not in page]
    report("the words of each refusal are those of `hkrep explain`", differ([("all", ours, program), ("the command", shown, program), ("each", alone, []),
                                                                         ("FORMATS.md", unknown, [])]))


# ---------------------------------------------------------------- vectors against the package

def fed(feeder, data, size):
    """The values of data that comes in pieces of a size, and the number of the fault behind them, or 0."""
    found = []
    try:
        for at in range(0, len(data), size):
            found += feeder.feed(data[at:at + size])
        feeder.finish()
    except va.Refused as fault:
        found += getattr(fault, "before", [])
        if "byte " not in fault.place and "item " not in fault.place or fault.place == "":
            return found, -fault.number
        return found, fault.number
    return found, 0


def pieces_of(make, values_, data):
    """A feeder gives the values however the bytes are cut: at each byte, in pieces, and all at once; a cut input is 1."""
    problems = []
    for size in (1, 3, 7, 64, len(data)):
        problems += differ([(f"pieces of {size}", fed(make(), data, size), (values_, 0))])
    for end in range(1, min(len(data), 600)):
        feeder = make()
        found = feeder.feed(data[:end]) + feeder.feed(data[end:])
        problems += differ([(f"cut at {end}", found, values_)])
    return problems


def client_items():
    problems, data, all_items = [], b"", []
    for it in vectors("items"):
        item, old, new = item_of(it["value"]), bytes.fromhex(it["version1"]), bytes.fromhex(it["version2"])
        problems += differ([(f"{it['name']}: {what}", got, wanted) for what, got, wanted in (
            ("version 1", va.encode(item, 1), old), ("version 2", va.encode(item), new), ("read", va.decode(old), item), ("read anew", va.decode(new), item),
            ("line", item.line(), it["line"]))])
        head = va.head_of(old)
        problems += differ([(f"{it['name']}: head", (head.is_entry, head.log, head.stream), (isinstance(item, va.Entry), item.log, item.stream))])
        if len(old) < 500:
            data, all_items = data + old + new, [*all_items, item, item]
    report("items of the vectors, in both versions, however they are cut", problems + pieces_of(va.Feeder, all_items, data))


def client_messages():
    problems = []
    for name, of, encode, decode, make in (("requests", request_of, va.encode_request, va.decode_request, va.RequestFeeder),
                                           ("replies", reply_of, va.encode_reply, va.decode_reply, va.ReplyFeeder),
                                           ("later_requests", later_request_of, va.later.encode_request, va.later.decode_request, va.later.RequestFeeder),
                                           ("later_replies", later_reply_of, va.later.encode_reply, va.later.decode_reply, va.later.ReplyFeeder)):
        data, all_values = b"", []
        for it in vectors(name):
            value, text = of(it["value"]), bytes.fromhex(it["bytes"])
            problems += differ([(f"{it['name']}: bytes", encode(value).hex(), text.hex()), (f"{it['name']}: read", decode(text), value)])
            if "bytes_of_version1_items" in it:
                old = bytes.fromhex(it["bytes_of_version1_items"])
                problems += differ([(f"{it['name']}: old", (encode(value, 1), decode(old)), (old, value))])
            if "lines" in it:
                line = value.line if isinstance(value, va.Refused) else value.line()
                problems += differ([(f"{it['name']}: line", line.split("\n"), it["lines"])])
            if len(text) < 500:
                data, all_values = data + text, [*all_values, value]
        problems += pieces_of(make, all_values, data)
    report("requests and replies of the vectors, of both versions, however they are cut", problems)


def client_faults():
    problems, count = [], 0
    for name, make, size in (("item_faults", va.Feeder, 7), ("request_faults", va.RequestFeeder, 7), ("reply_faults", va.ReplyFeeder, 7),
                             ("later_request_faults", va.later.RequestFeeder, 7), ("later_reply_faults", va.later.ReplyFeeder, 7)):
        for it in vectors(name):
            data, count = bytes.fromhex(it["bytes"]), count + 1
            for step in (size, len(data)):
                problems += differ([(f"{name}: {it['name']}", fed(make(), data, step)[1], it["number"])])
    feeder = va.Feeder()
    again = [refusal_of(lambda: feeder.feed(b"\0\0\0\1")), refusal_of(lambda: feeder.feed(b"")), refusal_of(feeder.finish)]
    report(f"each fault of the vectors, with its number and place ({count})", problems + differ([("a fault is permanent", again, [10, 10, 10])]))


def stored():
    """The vectors are what the reference writes."""
    got = run([sys.executable, ROOT / "tests" / "tools" / "make_vectors.py", "--check"])
    own = [name for name in ("reference.py", "fields.py", "make_vectors.py", "later_vectors.py") if re.search(r"import (vadungsil|messages)", next((ROOT / "tests").glob(f"*/{name}")).read_text())]
    report("the stored vectors are what tests/tools/make_vectors.py writes, which asks no client", differ([("check", (got.stdout, got.returncode), (b"", 0)), ("own", own, [])]))


# ---------------------------------------------------------------- vectors against the program

def lines_of(words, data):
    return run([PROGRAM, *words], data).stdout.decode().splitlines()


def program_items():
    problems, data, wanted = [], b"", []
    for it in vectors("items"):
        data += bytes.fromhex(it["version1"]) + bytes.fromhex(it["version2"])
        wanted += [it["line"]] * 2
    problems += differ([("items", lines_of(["items"], data), wanted)])
    old = b"".join(bytes.fromhex(it["version1"]) for it in vectors("items"))
    new = b"".join(bytes.fromhex(it["version2"]) for it in vectors("items"))
    problems += differ([("rewrite", run([PROGRAM, "rewrite"], old).stdout, new)])
    # of the cuts one in eight
    faults = [it for number, it in enumerate(vectors("item_faults")) if it["number"] != 1 or number % 8 == 0]
    told = POOL.map(lambda it: lines_of(["items"], bytes.fromhex(it["bytes"]))[-1:], faults)
    problems += differ([(it["name"], got, [f"refused {it['number']}"]) for it, got in zip(faults, told)])
    report(f"items and their faults against `hkrep items` ({len(wanted)} and {len(faults)})", problems)


def pushed(replies, ends, request=va.encode_request(va.AskFront())):
    """What `hkrep push` prints where a peer replies these bytes, to so many requests of 6 bytes."""
    with socket.create_server(("127.0.0.1", 0)) as listener:
        listener.settimeout(LIMIT)
        with subprocess.Popen([PROGRAM, "push", "--messages", "2", "--port", str(listener.getsockname()[1])], stdin=subprocess.PIPE, stdout=subprocess.PIPE,
                              stderr=subprocess.DEVNULL) as child:
            child.stdin.write(request * ends)
            child.stdin.close()
            link, _ = listener.accept()
            with link, contextlib.suppress(OSError):
                link.settimeout(LIMIT)
                for reply in replies:
                    link.recv(6, socket.MSG_WAITALL)
                    link.sendall(reply)
                link.shutdown(socket.SHUT_WR)
                out = child.stdout.read()
            return out.decode().splitlines()


def program_replies():
    """Those of version 2 are replied to requests of version 2, their faults too; a frame of that version is read by its own rules."""
    known = vectors("replies")
    told = pushed([bytes.fromhex(it["bytes"]) for it in known], len(known))
    later = vectors("later_replies")
    asked, asked_later = va.encode_request(va.AskFront()), va.later.encode_request(va.later.AskStreams())
    told += pushed([bytes.fromhex(it["bytes"]) for it in later], len(later), asked_later)
    known += later
    problems = differ([("replies", told, [line for it in known for line in it["lines"]])])
    faults = [(it, asked) for it in vectors("reply_faults") if not is_of_version_2(it)] + [(it, asked_later) for it in vectors("later_reply_faults")]
    faults = [it for number, it in enumerate(faults) if it[0]["number"] != 1 or number % 8 == 0]
    found = POOL.map(lambda it: pushed([bytes.fromhex(it[0]["bytes"])], 1, it[1]), faults)
    problems += differ([(it["name"], got, [f"refused {it['number']}"]) for (it, _), got in zip(faults, found)])
    report(f"replies and their faults against `hkrep push` ({len(known)} and {len(faults)})", problems)


# ---------------------------------------------------------------- one node

def a_log(entries, streams, seed):
    """A log by a `LogWriter`, and the same history as the reference has it."""
    source, writer, primary = random.Random(seed), va.LogWriter(7, streams), reference.Primary(7, streams)
    items = []
    for _ in range(entries):
        tables = primary.tables_at(primary.last()) if entries <= 300 else None
        writes = {}
        for _ in range(source.randint(1, 3)):
            place = (source.randint(1, 2), source.randint(1, 12))
            is_there = place in tables if tables is not None else writer.born(*place) is not None
            writes[place] = None if is_there and source.random() < 0.3 else (source.randint(8, 9), source.randbytes(source.randint(0, 3)))
        stream = source.randint(1, streams)
        items.append(writer.commit([(*place, *row) for place, row in writes.items() if row], [place for place, row in writes.items() if not row], stream))
        if tables is not None:
            primary.commit(primary.last(), writes, stream)
        if source.random() < 0.2:
            items.append(writer.mark(stream))
            if tables is not None:
                primary.mark(stream)
    return writer, items, primary


def same_as_reference(item, other):
    return va.encode(item, 1) == reference.frame(other, 1)


def a_node():
    """Every request of `Node`, and what it refuses."""
    problems = []
    with Served(4, streams=2) as served, va.Node(served.port) as node:
        writer = va.LogWriter(7, 2)
        first = writer.commit([(1, 5, 9, b"A"), (2, 1, 8, b"")])
        problems += differ([("items", node.items([first, *writer.marks()]), 2), ("front", node.front(), va.Front(0, 1)), ("get", node.get(1, 5), va.Row(9, b"A")),
                            ("none", node.get(1, 6), None), ("count", node.count(1), 1), ("tag", node.by_tag(2, 8), [va.KeyRow(1, va.Row(8, b""))])])
        second = writer.commit([(1, 5, 9, b"B")], [(2, 1)], stream=2)
        problems += differ([("frames", node.items([va.encode(second, 1), *map(va.encode, writer.marks())]), 3),
                            ("range", node.range(1, 0, 9), [va.KeyRow(5, va.Row(9, b"B"))]), ("at", node.range(2, at=1), [va.KeyRow(1, va.Row(8, b""))]),
                            ("streams", node.streams(), (va.Stream(1, 2), va.Stream(1, 2)))])
        with node.at() as moment:
            problems += differ([("moment", (moment.time, moment.get(2, 1), moment.count(1)), (2, None, 1))])
        delta, whole = node.delta(1), node.whole()
        problems += differ([("delta", (delta.base, len(delta.facts)), (1, 3)), ("join", node.join(delta), 4), ("merge", node.merge(whole), 5), ("prune", node.prune(2), 6)])
        for name, call, number, values_ in (
                ("too old", lambda: node.get(1, 5, at=1), 25, {"horizon": 2}), ("not yet", lambda: node.get(1, 5, at=3), 26, {"readable": 2}),
                ("prune", lambda: node.prune(3), 24, {"readable": 2}), ("a gap", lambda: node.join(va.Fragment(7, 9, 0, (va.Stream(9, 9),) * 2)), 22, {"base": 9, "readable": 2}),
                ("another log", lambda: node.items([va.Mark(8, 1, 0, 0)]), 20, {}), ("another stream", lambda: node.items([va.Mark(7, 3, 0, 0)]), 21, {}),
                ("a key", lambda: node.get(1, 2 ** 64), 6, {}), ("a time", lambda: node.get(1, 1, at=-1), 6, {})):
            try:
                call()
                problems.append(f"{name} passes")
            except va.Refused as refused:
                problems += differ([(name, (refused.number, refused.fields), (number, values_)), (name, refused.meaning in str(refused), True)])
                problems += differ([(f"{name}: {field}", getattr(refused, field), value) for field, value in values_.items()])
        # bytes that are no frame end the link; the next request opens another
        problems += differ([("a bad frame", refusal_of(lambda: node.items([b"\0\0\0\x1c" + b"\7" * 28])), 3), ("the next link", node.count(1), 1)])
        other = va.Node(served.port)
        problems += differ([("another client", other.front(), va.Front(2, 2))])
        other.close()
    report("every request of a node, and its refusals", problems)


def pipelines():
    problems = []
    with Served(2) as served, va.Node(served.port) as node:
        writer = va.LogWriter(7, 1)
        rows = [(1, key, 9, str(key).encode() * 100) for key in range(1, 301)]
        items = [writer.commit(rows[at:at + 100]) for at in range(0, 300, 100)]
        with node.pipeline() as pipe:
            done = [pipe.items([it]) for it in items] + [pipe.items(writer.marks())]
            front = pipe.front()
        problems += differ([("changes", [it.result() for it in done], [2, 3, 4, 5]), ("front", front.result(), va.Front(0, 3))])
        with node.pipeline() as pipe:
            gets = [pipe.get(1, key) for key in range(1, 3001)]
            ranges, bad, count = [pipe.range(1) for _ in range(40)], pipe.get(1, 1, at=9), pipe.count(1)
        problems += differ([("gets", [it.result() for it in gets], [va.Row(9, str(key).encode() * 100) if key <= 300 else None for key in range(1, 3001)]),
                            ("long replies", [len(it.result()) for it in ranges], [300] * 40), ("one refused", refusal_of(bad.result), 26), ("behind it", count.result(), 300)])
        with node.at(1).pipeline() as pipe:
            early = pipe.count(1)
        problems += differ([("at a moment", early.result(), 100)])
        threads = [POOL.submit(lambda: [node.count(1, at=2) for _ in range(50)]) for _ in range(4)]
        problems += differ([("threads", [set(it.result(LIMIT)) for it in threads], [{200}] * 4)])
    report("pipelines, and threads that share a node", problems)


def limits_and_links():
    """A silent peer, a peer that ends links, and nobody."""
    problems = []
    with Peer([(1, 0, True)]) as peer, va.Node(peer.port, limit=0.3) as node:
        start = time.monotonic()
        problems += differ([("first", node.front().readable, 3)])
        try:
            node.front()
            problems.append("a silent peer replies")
        except va.TimeLimit as error:
            problems += differ([("limit", 0.2 < time.monotonic() - start < 5, True), ("words", "no reply within 0.3 s" in str(error), True)])
    with Peer([(2, 0, False), (1, 5, False), (9, 0, False)]) as peer, va.Node(peer.port) as node:
        problems += differ([("over three links", [node.front().readable for _ in range(5)], [3] * 5)])
    with Peer([(700, 3, False), (1500, 0, False), (3000, 0, False)]) as peer, va.Node(peer.port, tries=3) as node:
        with node.pipeline() as pipe:
            laters = [pipe.front() for _ in range(2000)]
        problems += differ([("a pipeline over links", {it.result().readable for it in laters}, {3})])
    with Peer([(0, 0, False), (0, 0, False)]) as peer, va.Node(peer.port) as node:
        try:
            node.front()
            problems.append("a peer that ends links replies")
        except va.LinkBroken as error:
            problems += differ([("words", "ended the connection" in str(error) or "reset" in str(error), True)])
    with Peer([(1, 0, False)], reply=bytes.fromhex("10000001")) as peer, va.Node(peer.port) as node:
        problems += differ([("a reply that is too long", refusal_of(node.front), 2)])
    with Peer([(1, 0, False)], reply=va.encode_reply(va.Done(1))) as peer, va.Node(peer.port) as node:
        problems += differ([("a reply of another kind", refusal_of(node.front), 4)])
    try:
        va.Node(free_port()).front()
        problems.append("nobody replies")
    except va.LinkBroken:
        pass
    for bad in ("", "x", "a:b", 0, 70000):
        try:
            va.Node(bad)
            problems.append(f"address {bad!r}")
        except ValueError:
            pass
    report("time limits, links that break and are opened anew, and replies that are none", problems)


def waited_for():
    """A node that is asked before it listens is waited for, and only at first."""
    port, problems = free_port(), []

    async def late():
        async with va.AsyncNode(port, wait=LIMIT) as node:
            return await node.front()

    with va.Node(port, wait=LIMIT) as node:
        early = [POOL.submit(node.front), POOL.submit(asyncio.run, late())]
        time.sleep(0.3)
        with subprocess.Popen([PROGRAM, "serve", "--log", "7", "--streams", "1", "--port", str(port), "--links", "2"], stdout=subprocess.DEVNULL) as child:
            problems += differ([("fronts", [it.result(LIMIT) for it in early], [va.Front(0, 0)] * 2)])
            node.close()
            problems += differ([("the end", child.wait(LIMIT), 0)])
        start = time.monotonic()
        try:
            node.front()
            problems.append("nobody listens, and it is answered")
        except va.LinkBroken:
            problems += differ([("once it was there", time.monotonic() - start < 2, True)])
    start = time.monotonic()
    try:
        va.Node(free_port(), wait=0.3).front()
        problems.append("nobody listens, and it is answered")
    except va.LinkBroken as broken:
        problems += differ([("how long", 0.3 <= time.monotonic() - start < 2, True), ("words", "refused" in str(broken), True)])
    report("a node that listens later is waited for", problems)


def asynchronous():
    problems = []

    async def story(port):
        found = []
        async with va.AsyncNode(port) as node:
            writer = va.LogWriter(7, 1)
            entry = writer.commit([(1, key, 9, b"%d" % key) for key in range(50)])
            found += [("items", await node.items([entry, *writer.marks()]), 2), ("get", await node.get(1, 7), va.Row(9, b"7"))]
            rows = await asyncio.gather(*(node.get(1, key, at=1) for key in range(100)))
            found.append(("gathered", rows, [va.Row(9, b"%d" % key) if key < 50 else None for key in range(100)]))
            async with node.at() as moment:
                found.append(("moment", (moment.time, await moment.count(1), len(await moment.range(1, 0, 9))), (1, 50, 10)))
            found += [("streams", await node.streams(), (va.Stream(1, 1),)), ("whole", len((await node.whole()).facts), 50), ("front", await node.front(), va.Front(0, 1))]
            try:
                await node.get(1, 1, at=5)
                found.append(("not yet", 0, 26))
            except va.Refused as refused:
                found.append(("not yet", (refused.number, refused.readable), (26, 1)))
            try:
                await node.items([b"\0\0\0\x1c" + b"\7" * 28])
            except va.Refused as refused:
                found.append(("a fault", refused.number, 3))
            found.append(("a new link", await node.count(1), 50))
        with Peer([(1, 0, True)]) as peer:
            async with va.AsyncNode(peer.port, limit=0.3) as node:
                found.append(("first", (await node.front()).readable, 3))
                try:
                    await node.front()
                    found.append(("a silent peer", 0, 1))
                except va.TimeLimit:
                    pass
        with Peer([(2, 0, False), (1, 5, False), (9, 0, False)]) as peer:
            async with va.AsyncNode(peer.port) as node:
                found.append(("over three links", [(await node.front()).readable for _ in range(5)], [3] * 5))
        with Peer([(9, 0, False)] * 2) as peer:
            async with va.AsyncNode(peer.port) as node:
                opened, ended_once = node._opened, []

                async def ended_as_it_is_handed_out():
                    link = await opened()
                    if not ended_once:
                        ended_once.append(link.close())
                    return link

                node._opened = ended_as_it_is_handed_out
                found.append(("a link that ends while it is handed out", (await node.front()).readable, 3))
        try:
            await va.AsyncNode(free_port()).front()
            found.append(("nobody", 0, 1))
        except va.LinkBroken:
            pass
        return found

    with Served(2) as served:
        problems += differ(asyncio.run(asyncio.wait_for(story(served.port), LIMIT)))
    report("an asyncio node: gathered questions, refusals, limits, new links", problems)


# ---------------------------------------------------------------- many nodes

def many_nodes():
    """Three nodes of one log at different times; nodes are killed in the middle of reports."""
    problems = []
    writer, items, _ = a_log(1000, 2, 5)
    whole = items + writer.marks()
    tables = {}
    for it in items:
        if isinstance(it, va.Entry):
            now = dict(tables.get(it.time - 1, {}))
            for end in it.ends:
                del now[end.table, end.key]
            now.update({(table, key): row for table, key, row in it.rows})
            tables[it.time] = now
    source = random.Random(9)
    with contextlib.ExitStack() as stack:
        served = [stack.enter_context(Served(16, streams=2)) for _ in range(4)]
        for node in served[:3]:
            order = list(whole)
            source.shuffle(order)
            with va.Node(node.port) as link:
                for at in range(0, len(order), 300):
                    link.items(order[at:at + 300])
        # the fourth has half of it, and the third is pruned
        half = va.LogWriter(7, 2)
        first = [it for it in items if isinstance(it, va.Entry) and it.time <= 500]
        counts = [sum(it.stream == stream for it in first) for stream in (1, 2)]
        with va.Node(served[3].port) as link:
            link.items([*first, *(va.Mark(7, stream, counts[stream - 1], 500) for stream in (1, 2))])
        with va.Node(served[2].port) as link:
            link.prune(400)
        del half
        nodes = stack.enter_context(va.Nodes([it.port for it in served], limit=LIMIT))
        wanted = lambda at, table: sorted((key, row) for (of, key), row in tables[at].items() if of == table)
        problems += differ([("latest", nodes.latest(), 1000)])
        every = [stack.enter_context(va.Node(it.port)) for it in served[:2]]
        each = []
        for node in every:
            with node.pipeline() as pipe:
                each.append([pipe.range(1, at=at) for at in range(1, 1001)])
        told = [[[tuple(row) for row in later.result()] for later in laters] for laters in each]
        problems += differ([("two nodes at 1,000 times", told[0] == told[1], True), ("and the log", told[0] == [wanted(at, 1) for at in range(1, 1001)], True)])
        killed = 0
        for report_ in range(40):
            at = source.choice([1000, 900, 450, 100, 1000])
            if report_ in (15, 25):
                victim, at = killed, 450 if report_ == 15 else 1000
            else:
                victim = None
            with nodes.at(at) as moment:
                for number in range(24):
                    if victim is not None and number == 10:
                        served[victim].child.kill()
                        served[victim].child.wait()
                        killed += 1
                    table = number % 2 + 1
                    if at < 400 and killed == 2 and number == 0:
                        pass
                    got = [tuple(it) for it in moment.range(table)] if number % 3 else [(key, moment.get(table, key)) for key in range(1, 13) if moment.get(table, key)]
                    if got != wanted(at, table):
                        problems.append(f"report {report_} at {at}, question {number}: {got}, wanted {wanted(at, table)}")
        problems += differ([("killed", killed, 2)])
        for name, at, number in (("too new for all", 1001, 26), ):
            problems += differ([(name, refusal_of(lambda: nodes.get(1, 1, at=at)), number)])
        for node in served:
            if node.child.poll() is None:
                node.child.kill()
                node.child.wait()
        try:
            nodes.at()
            problems.append("killed nodes answer")
        except va.NoNode as error:
            problems += differ([("all are told", len(error.told), 4)])
    report("many nodes as one: killed in the middle of reports, and equal at 1,000 times", problems)


# ---------------------------------------------------------------- writing

def log_writer():
    """A random log is the reference's, byte for byte; the program reads from it what the reference says."""
    problems = []
    for seed in range(4):
        streams = (1, 2, 3, 64)[seed]
        writer, items, primary = a_log(150, streams, seed)
        problems += differ([(f"items of seed {seed}", all(map(same_as_reference, items, primary.items)) and len(items) == len(primary.items), True)])
        marks = writer.marks()
        problems += differ([("marks", all(same_as_reference(it, primary.mark(it.stream)) for it in marks), True)])
        frames = b"".join(va.encode(it, 1 + number % 2) for number, it in enumerate([*items, *marks]))
        for at, key in ((1, 1), (40, 5), (75, 9), (150, 2), (150, 12), (151, 2)):
            told = lines_of(["at", "--log", "7", "--streams", str(streams), str(at), "1", str(key)], frames)
            problems += differ([(f"seed {seed} at {at}", told, list(reference.asked(frames, 7, streams, at, 1, key)[0]))])
    report("a log writer's items are the reference's, and the program reads them so", problems)


def writer_refusals():
    writer = va.LogWriter(7, 2)
    writer.commit([(1, 1, 9, b"a")], time=5)
    full = va.LogWriter(7, 1)
    full.commit([(1, 1, 9, b"a")], time=va.LAST_TIME)
    retired = va.LogWriter(7, 2)
    last = retired.retire(2)
    put = [(1, 2, 9, b"")]
    before = dict(writer.__dict__, _born=dict(writer._born), _numbers=list(writer._numbers))
    cases = [
        ("a key twice", lambda: writer.commit([(1, 2, 9, b""), (1, 2, 9, b"")]), 32), ("put and removed", lambda: writer.commit([(1, 1, 9, b"")], [(1, 1)]), 32),
        ("an absent key", lambda: writer.commit([], [(1, 2)]), 31), ("1,025 writes", lambda: writer.commit([(1, key, 9, b"") for key in range(1025)]), 33),
        ("no such stream", lambda: writer.commit(put, stream=3), 34), ("stream 0", lambda: writer.mark(0), 34), ("a time that stands", lambda: writer.commit(put, time=5), 6),
        ("a time that falls", lambda: writer.commit(put, time=4), 6), ("a time above the last", lambda: writer.commit(put, time=va.LAST_TIME + 1), 6),
        ("no time left", lambda: full.commit(put), 35), ("a retired stream", lambda: retired.commit(put, stream=2), 36), ("its mark", lambda: retired.mark(2), 36),
        ("twice retired", lambda: retired.retire(2), 36), ("a long body", lambda: writer.commit([(1, 2, 9, bytes(4097))]), 9), ("65 streams", lambda: va.LogWriter(7, 65), 5)]
    problems = differ([(name, refusal_of(call), number) for name, call, number in cases])
    problems += differ([("nothing changed", writer.__dict__, before)])
    problems += differ([("the last mark", last, va.Mark(7, 2, 0, va.LAST_TIME)), ("other marks", retired.marks(), [va.Mark(7, 1, 0, 0)]),
                        ("nothing written", writer.commit(), None), ("1,024 writes", len(writer.commit([(2, key, 9, b"") for key in range(1024)]).rows), 1024)])
    with contextlib.suppress(ZeroDivisionError):
        with writer.transaction() as it:
            it.put(9, 9, 9)
            raise ZeroDivisionError
    problems += differ([("a dropped transaction", writer.born(9, 9), None)])
    report(f"what no primary could write is refused ({len(cases)})", problems)


def resumed():
    """A writer goes on from a node's whole, pruned or not, and both go on alike; what is incomplete is told."""
    problems = []
    for prune in (0, 60, 150):
        writer, items, _ = a_log(150, 2, 8)
        with Served(2, streams=2) as served, va.Node(served.port) as node:
            node.items([*items, *writer.marks()])
            if prune:
                node.prune(prune)
            again = va.LogWriter.resume(node.whole())
            problems += differ([(f"pruned to {prune}", vars(again), vars(writer))])
            entry = again.commit([(1, key, 7, b"new") for key in range(1, 13)], stream=2)
            problems += differ([("goes on", entry, writer.commit([(1, key, 7, b"new") for key in range(1, 13)], stream=2)),
                                ("taken", node.items([entry, *again.marks()]) > 1, True), ("read", node.count(1), 12),
                                ("all new", {row.tag for _, row in node.range(1)}, {7})])
            node.items([again.retire(1)])
            third = va.LogWriter.resume(node.whole())
            problems += differ([("retired", (third.is_retired(1), third.time), (True, 151))])
    stream, row, key = va.Stream, va.Row(1, b""), va.VersionKey
    for name, whole in (("a delta", va.Fragment(7, 1, 0, (stream(1, 1),))), ("numbers behind a gap", va.Fragment(7, 0, 0, (stream(1, 1, (4,)),))),
                        ("a waiting mark", va.Fragment(7, 0, 0, (stream(1, 1, (), ((4, 4),)),))),
                        ("two versions that stand", va.Fragment(7, 0, 0, (stream(2, 2),), (va.Fact(key(1, 1, 1), row), va.Fact(key(1, 1, 2), row)))),
                        ("an end without its row", va.Fragment(7, 0, 0, (stream(2, 2),), (va.Fact(key(1, 1, 1), None, 2),)))):
        try:
            va.LogWriter.resume(whole)
            problems.append(f"{name} is gone on with")
        except va.NotResumable:
            pass
    report("a log is gone on with from a node's whole, and not from less", problems)


# ---------------------------------------------------------------- commands, export, wheel, pages

def commands():
    problems = []
    first = (ROOT / "examples" / "first.bin").read_bytes()
    with Served(20) as served:
        port = ["--port", str(served.port)]
        for words, data, out, status in (
                (["feed"], first, "done 2\n", 0), (["front"], b"", "front horizon 0 readable 1\n", 0), (["get", "1", "5", "--at", "1"], b"", "9 41\n", 0),
                (["get", "1", "6"], b"", "none\n", 0), (["range", "1", "0", "9"], b"", "5 9 41\nrows 1\n", 0), (["tag", "1", "9"], b"", "5 9 41\nrows 1\n", 0),
                (["count", "1"], b"", "count 1\n", 0), (["get", "1", "5", "--at", "3"], b"", "refused 26 readable 1\n", 1), (["whole"], b"", "fragment base 0 horizon 0 facts 1\n", 0),
                (["delta", "1"], b"", "fragment base 1 horizon 0 facts 0\n", 0), (["prune", "9"], b"", "refused 24 readable 1\n", 1), (["prune", "1"], b"", "done 3\n", 0),
                (["feed"], first[:60], "refused 1\n", 1)):
            got = command([*port, *words], data)
            problems += differ([(words, got[:2], (out, status))])
            if status and not re.search(r"refused \d+.*; ", got[2]):
                problems.append(f"{words}: standard error {got[2]!r}")
        several = ["--node", f"127.0.0.1:{served.port}", "--node", f"127.0.0.1:{free_port()}"]
        problems += differ([("two nodes", command([*several, "count", "1"])[:2], ("count 1\n", 0))])
    problems += differ([("nobody", command(["--port", str(free_port()), "front"])[:2], ("refused 93\n", 1)),
                        ("no command", command(["x"])[1], 2), ("explain", command(["explain", "99"])[1], 2),
                        ("version", command(["--version"])[:2], (f"vadungsil {va.__version__}\n", 0))])
    report("the command `python3 -m vadungsil`", problems)


def wheel():
    """Two builds give the same bytes; the wheel is installed without a network, and reads from a node."""
    problems = []
    with tempfile.TemporaryDirectory() as folder, Served(1) as served:
        path = pathlib.Path(folder)
        build = "import sys; sys.path.insert(0, '.'); import backend; print(backend.build_wheel(sys.argv[1]), backend.build_sdist(sys.argv[1]))"
        for name in ("one", "two"):
            (path / name).mkdir()
            got = run([sys.executable, "-B", "-c", build, path / name], cwd=PACKAGE)
            names = got.stdout.decode().split()
        problems += differ([(name, (path / "one" / name).read_bytes() == (path / "two" / name).read_bytes(), True) for name in names])
        problems += differ([("names", names, [f"vadungsil-{va.__version__}-py3-none-any.whl", f"vadungsil-{va.__version__}.tar.gz"])])
        inside = set(zipfile.ZipFile(path / "one" / names[0]).namelist())
        missing = {str(it.relative_to(PACKAGE)) for it in (PACKAGE / "vadungsil").rglob("*") if it.is_file() and it.suffix != ".pyc"} - inside
        problems += differ([("missing", missing, set())])
        pip = run([sys.executable, "-m", "pip", "install", "--no-index", "--quiet", "--target", path / "site", path / "one" / names[0]])
        if pip.returncode:
            problems.append(f"pip: {pip.stderr.decode()[-300:]}")
        source = run([sys.executable, "-m", "pip", "install", "--no-index", "--quiet", "--target", path / "from_source", path / "one" / names[1]])
        problems += differ([("from source", source.returncode, 0)])
        example = "import vadungsil; node = vadungsil.Node(%d); log = vadungsil.LogWriter(7, 1); node.items([log.commit([(1, 5, 9, b'A')]), *log.marks()]); " \
                  "print(vadungsil.__file__, node.get(1, 5).body)" % served.port
        page = run([sys.executable, "-c", "from vadungsil.web import Server; print(len(Server([1], ('127.0.0.1', 0)).assets))"], cwd=folder, env={"PYTHONPATH": str(path / "site")})
        problems += differ([("the files of the page", page.stdout.decode(), "9\n")])
        for name in ("site", "from_source"):
            got = run([sys.executable, "-c", example if name == "site" else "import vadungsil; print(vadungsil.__file__, b'A')"], cwd=folder, env={"PYTHONPATH": str(path / name)})
            problems += differ([(name, got.stdout.decode(), f"{path / name / 'vadungsil' / '__init__.py'} b'A'\n")])
    report("a wheel and a source archive, made twice alike and installed without a network", problems)


def syntax():
    """Each file of the package is Python 3.9, and imports only the package and the standard library; what it gives is in its __all__, or a
    strict look at types takes `from vadungsil import Node` for a name that isn't there."""
    tree = ast.parse((PACKAGE / "vadungsil" / "__init__.py").read_text(encoding="utf-8"))
    given = {it.name for node in tree.body if isinstance(node, ast.ImportFrom) for it in node.names}
    problems = differ([("__all__", sorted(va.__all__), sorted(given))])
    for path in sorted((PACKAGE / "vadungsil").rglob("*.py")):
        tree = ast.parse(path.read_text(encoding="utf-8"), feature_version=(3, 9))
        for node in ast.walk(tree):
            names = [it.name for it in node.names] if isinstance(node, ast.Import) else [node.module] if isinstance(node, ast.ImportFrom) and not node.level else []
            problems += [f"{path.name}: {name}" for name in names if name.split(".")[0] not in sys.stdlib_module_names]
            if isinstance(node, ast.FunctionDef) and not node.name.startswith("_") and (node.returns is None or any(it.annotation is None for it in node.args.args[1:])):
                problems.append(f"{path.name}: {node.name} has no types")
    report("the package is typed, Python 3.9, and of the standard library alone", problems)


CHECKS = (values, reasons, client_items, client_messages, client_faults, stored, syntax, program_items, program_replies, a_node, pipelines,
          limits_and_links, waited_for, *python_addresses.CHECKS, *python_servers.CHECKS, *python_stats.CHECKS, *python_waiting.CHECKS, asynchronous, many_nodes, *python_members.CHECKS, log_writer, writer_refusals, resumed, *python_names.CHECKS, *python_caught.CHECKS, commands, exports, export_places, wheel)


def main(words):
    start = time.monotonic()
    if not is_built(pathlib.Path(PROGRAM)):
        return ended()
    for check in CHECKS:
        if not words or check.__name__ in words:
            began = time.monotonic()
            try:
                check()
            except Exception as error:  # pylint: disable=broad-except
                trace = error.__traceback__
                while trace.tb_next:
                    trace = trace.tb_next
                report(check.__name__, [f"{type(error).__name__}: {error} (line {trace.tb_lineno} of {trace.tb_frame.f_code.co_filename})"])
            if words:
                print(f"{check.__name__}: {time.monotonic() - began:.1f} s")
    print(f"python client: {time.monotonic() - start:.1f} s")
    return ended()


if __name__ == "__main__":
    sys.exit(main(sys.argv[1:]))
