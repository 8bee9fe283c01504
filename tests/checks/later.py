#!/usr/bin/env python3
"""Checks of messages of version 2 over links to `bin/hkrep serve`: the sessions and faults of tests/vectors, which nodes answer them, what
belongs to a link and ends with it, what all links share, and how the Python client and the commands use them.

Prints a line for each check and ends with 'N passed, M failed'. Standard library only."""
import asyncio
import contextlib
import pathlib
import socket
import struct
import subprocess
import sys
import threading
import time

sys.path.append(str(pathlib.Path(__file__).resolve().parents[1] / "lib"))
import messages as say
import vadungsil as va
from checks import differ, ended, is_built, report
from client import Node
from messages import E1, E2, E3
from packaged import PACKAGE
from python_servers import Peer
from saved_file import summed
from staying import PROGRAM, Staying, is_silent
from vector_values import is_of_version_2, vectors

LIMIT = 30
PUSH = ["push", "--messages", "2"]
LATER = ("--messages", "2")
ALL = say.items(E1, E2, E3, say.mark(1, 3, 3))
# What the three versions of ALL count in parts: their bytes in a message, and 128 for each.
FACT_BYTES = (19 + 7 + 8) + (19 + 7) + (19 + 7) + 3 * 128
REQUESTS = {"Streams": say.status(), "AskLatest": say.latest(say.get(1, 5)), "Page": say.page(3, 1, 0, 9, 1), "Whole": say.whole(0, 0), "More": say.more(),
            "AddPart": say.add([]), "JoinParts": say.join_parts(), "MergeParts": say.merge_parts(), "Hold": say.hold(1), "Release": say.release(1),
            "Feed": say.feed(E1), "Await": say.wait(1, 0)}


def least_hold(link, wanted):
    """The least hold, once it is what is wanted, or what it is at last."""
    deadline = time.monotonic() + LIMIT
    while (told := link.ask(say.status())[1].least_hold) != wanted and time.monotonic() < deadline:
        time.sleep(0.01)
    return told


# ---------------------------------------------------------------- nodes and links

def without_it():
    """A node that wasn't asked to read version 2 tells each request of it what it tells any other version, and ends the link."""
    pairs, count = [], len(REQUESTS)
    for words in ((), ("--messages", "1")):
        with Node(count, words=words) as node:
            for name, request in REQUESTS.items():
                with node.link() as link:
                    link.send(request)
                    pairs.append((name, link.read_all(), say.refused(3)))
            pairs.append(("ends", node.ends()[:2], ([3] * count, 1)))
    plain = ["serve", "--log", "7", "--streams", "1", "--port", "47999", "--links", "1"]
    for words in (["--messages", "0"], ["--messages", "3"], ["--messages", "+2"], ["--messages", "2", "--parts-bytes", "x"], ["--messages", "2", "--parts-bytes", "-1"]):
        done = subprocess.run([str(PROGRAM), *plain, *words], capture_output=True, text=True, timeout=LIMIT, check=False)
        pairs.append((" ".join(words), (done.returncode, done.stdout), (2, "")))
    report("nodes without messages of version 2, and bad command lines", differ(pairs))


def links_that_only_read():
    """On a port for those who only read, what changes or holds has no meaning."""
    reading = ("Streams", "AskLatest", "Page", "Whole", "More", "Await")
    with Staying(1, reading=1) as node:
        with node.link() as link:
            link.ask(ALL)
        pairs = [("a link ends", node.line(), "ended 0")]
        with node.link(node.read_port) as link:
            pairs += [(name, link.ask(REQUESTS[name])[0], kind) for name, kind in zip(reading, ("streams", "latest", "page", "part", "part", "ready"))]
        pairs.append(("it ends", node.line(), "ended 0"))
        for name in [it for it in REQUESTS if it not in reading]:
            with node.link(node.read_port) as link:
                fault = 2 if len(REQUESTS[name]) > 68 else 4
                pairs += [(name, link.ask(REQUESTS[name]), ("refused", fault, 0, 0)), (f"{name} ends it", node.line(), f"ended {fault}")]
        with node.link(node.read_port) as link:
            pairs.append(("nothing changed", link.ask(say.status())[1].operations, 2))
    report("what links that only read may ask in version 2", differ(pairs))


def end_clean(link):
    link.close()


def end_by_a_fault(link):
    link.send(say.framed(b"\2\xff"))
    link.read_all()
    link.close()


def end_inside(link):
    link.send(say.add([])[:7])
    link.close()


def end_reset(link):
    link.socket.setsockopt(socket.SOL_SOCKET, socket.SO_LINGER, struct.pack("ii", 1, 0))
    link.close()


def end_unread(link):
    """With replies that nobody reads, and then a reset: a write fails."""
    link.send(say.full() * 2000)
    time.sleep(0.1)
    end_reset(link)


def holds():
    """Holds end with their link, however it ends, and no other's do; a hold of another link can't be released."""
    pairs = []
    for name, end in (("clean", end_clean), ("by a fault", end_by_a_fault), ("inside a frame", end_inside), ("by a reset", end_reset), ("with a failed write", end_unread)):
        with Node(3, words=LATER) as node, node.link() as first, node.link() as asker:
            second = node.link()
            pairs += [(f"{name}: {it}", got, wanted) for it, got, wanted in (
                ("items", first.ask(ALL)[0], "done"), ("a hold", first.ask(say.hold(2)), ("held", 1, 2)), ("another link's", second.ask(say.hold(1)), ("held", 2, 1)),
                ("and another", second.ask(say.hold(3)), ("held", 3, 3)), ("not its own", first.ask(say.release(2)), ("refused", 44, 0, 0)), ("the least", least_hold(asker, 1), 1))]
            end(second)
            pairs += [(f"{name}: {it}", got, wanted) for it, got, wanted in (
                ("the first link's hold stands", least_hold(asker, 2), 2), ("a prune stops there", (asker.ask(say.prune(3))[0], asker.ask(say.front())), ("done", ("front", 2, 3))),
                ("it is released", first.ask(say.release(1))[0], "done"), ("and none stands", least_hold(asker, None), None))]
    with Staying(2) as node, node.link() as asker:
        asker.ask(ALL)
        for number in range(1, 31):
            with node.link() as link:
                pairs.append((f"hold {number} of a place", link.ask(say.hold(1)), ("held", number, 1)))
            pairs.append(("let go", least_hold(asker, None), None))
    report("holds end with their link, and with no other", differ(pairs))


def a_full_link():
    """A link has 1,024 holds at most. One more is refused as the node refuses it, and only else since the link is full."""
    with Node(1, words=LATER) as node, node.link() as link:
        pairs = [("items", link.ask(ALL)[0], "done"), ("a prune", link.ask(say.prune(2))[0], "done")]
        link.send(say.hold(2) * 1024)
        pairs += [("1,024 holds", [link.reply() for _ in range(1024)], [("held", number, 2) for number in range(1, 1025)])]
        pairs += [(name, link.ask(request), wanted) for name, request, wanted in (
            ("one more", say.hold(2), ("refused", 46, 1024, 0)), ("one that is too old", say.hold(1), ("refused", 25, 2, 0)), ("and one more", say.hold(3), ("refused", 46, 1024, 0)))]
        pairs += [("a release", link.ask(say.release(7))[0], "done"), ("one in its place", link.ask(say.hold(3)), ("held", 1025, 3)), ("full again", link.ask(say.hold(3)), ("refused", 46, 1024, 0))]
    report("the node's own refusal comes before that of a full link", differ(pairs))


def a_limit_for_all():
    """What all links keep in parts has one limit; what would be more is refused and nothing changed; it is given back with the last part, a
    join, and the end of a link."""
    most = 2 * FACT_BYTES
    full = ("refused", 46, most, 0)
    with Node(4, words=(*LATER, "--parts-bytes", str(most))) as node, node.link() as first, node.link() as second:
        first.ask(ALL)
        parts = [second.ask(say.whole(0, 0)), second.ask(say.more()), second.ask(say.more())]
        facts = [fact for part in parts for fact in part[1]]
        pairs = [("all is given back with the last part", [first.ask(say.whole(0, 0))[0], second.ask(say.whole(0, 0))[0]], ["part", "part"])]
        with node.link() as third:
            pairs += [("a third whole", third.ask(say.whole(0, 0)), full), ("more of it", third.ask(say.more()), ("refused", 47, 0, 0)), ("a part", third.ask(say.add(facts[:1])), full),
                      ("the first goes on", first.ask(say.more()), parts[1]), ("a whole in place of another", first.ask(say.whole(0, 0)), parts[0]),
                      ("to its end", [first.ask(say.more()), first.ask(say.more())], parts[1:]), ("and then there is room", third.ask(say.add(facts)), ("added", 3))]
            pairs += [("all is taken again", first.ask(say.whole(0, 0)), full), ("which is said once more", first.ask(say.whole(0, 0)), full),
                      ("a join gives it back", third.ask(say.merge_parts(streams=[(3, 3, [], [])], count=3))[0], "done"), ("and there is room", third.ask(say.add(facts))[0], "added")]
        with node.link() as fourth:
            deadline = time.monotonic() + LIMIT
            while (told := fourth.ask(say.whole(0, 0))) == full and time.monotonic() < deadline:
                time.sleep(0.01)
            pairs += [("a link's end gives it back", told, parts[0]), ("the second still has its own", second.ask(say.more()), parts[1])]
    report("one limit for what all links keep in parts", differ(pairs))


def many_at_once():
    """Eight links give, take and hold side by side, beside one that changes; each sees parts of one moment, and at last nothing is kept."""
    problems, commits = [], 40
    def work(node, number):
        with node.link() as link:
            for _ in range(5):
                found, part = [], link.ask(say.whole(0, 100))
                while part[0] == "part":
                    found += part[1]
                    link.ask(say.hold(part[1][-1][2]))
                    part = link.ask(say.more())
                head = part[2]
                found += part[1]
                # of one moment: the prefix tells how many entries there were, and each has put one version
                if part[0] != "last part" or len(found) != head["count"] or head["count"] != head["streams"][0][0] or len({fact[2] for fact in found}) != len(found):
                    problems.append(f"link {number}: {part[0]}, {len(found)} facts, head {head}")
                if link.ask(say.add(found))[1] != len(found) or link.ask(say.merge_parts(streams=head["streams"], count=head["count"]))[0] != "done":
                    problems.append(f"link {number}: its parts are not taken")
            if number % 2:
                end_reset(link)

    with Staying(9) as node, node.link() as writer:
        first = [say.entry(n, n, [(1, n % 7, 9, b"")], [(1, n % 7, n - 7)] if n > 7 else []) for n in range(1, 21)]
        writer.ask(say.items(*first, say.mark(1, 20, 20)))
        threads = [threading.Thread(target=work, args=(node, number), daemon=True) for number in range(8)]
        for thread in threads:
            thread.start()
        for n in range(21, 21 + commits):
            told = writer.ask(say.items(say.entry(n, n, [(1, n % 7, 9, b"")], [(1, n % 7, n - 7)]), say.mark(1, n, n)))
            problems += [] if told[0] == "done" else [f"commit {n}: {told}"]
        for thread in threads:
            thread.join(LIMIT)
        problems += differ([("holds at last", least_hold(writer, None), None), ("the front", writer.ask(say.front()), ("front", 0, 20 + commits))])
    report(f"parts and holds of eight links beside {commits} changes", problems)


def damage():
    """A node that met a conflict still tells its streams; a guarded one refuses parts that contradict, and stays as it was."""
    wrong = [(1, 5, 1, (9, b"other"), 2)]
    head = {"streams": [(3, 3, [], [])], "count": 1}
    pairs = []
    for words, told, after in (((), 23, True), (("--guard",), 23, False)):
        with Node(1, words=(*LATER, *words)) as node, node.link() as link:
            link.ask(ALL)
            pairs += [("parts that contradict", (link.ask(say.add(wrong)), link.ask(say.merge_parts(**head))), (("added", 1), ("refused", told, 0, 0))),
                      ("whether it is damaged", link.ask(say.status())[1].damaged, after)]
            for name in ("AskLatest", "Page", "Whole", "MergeParts", "Hold", "Feed", "Await"):
                pairs.append((name, link.ask(REQUESTS[name])[:2] == ("refused", 41), after))
    report("damaged and guarded nodes in version 2", differ(pairs))


# longer than any check takes
LONG = 600_000


def told_at_once(link, request):
    """The reply to a request, and whether it came at once."""
    start = time.monotonic()
    return link.ask(request), time.monotonic() - start < LIMIT / 2


def waits():
    """A wait ends once its time can be read, or after its milliseconds; what is behind it waits, and nobody else does. What is ready is written
    before. Nodes of `serve`, and those that failed, answer at once."""
    entry, marked = say.items(E1), say.items(say.mark(1, 1, 5))
    with Node(1, words=LATER) as node, node.link() as link:
        pairs = [("of serve", told_at_once(link, say.wait(9, LONG)), (("ready", 0, 0), True))]
    with contextlib.ExitStack() as stack:
        node = stack.enter_context(Staying(3, "--no-guard", reading=8, feeding=1))
        waiting, other, late = (stack.enter_context(node.link()) for _ in range(3))
        readers = [stack.enter_context(node.link(node.read_port)) for _ in range(8)]
        feeder = stack.enter_context(node.link(node.feed_port))
        waiting.send(say.status() + say.wait(5, LONG) + say.front())
        pairs += [("what is ready is written", waiting.reply()[0], "streams"), ("it waits", is_silent(waiting), True)]
        for link in readers:
            link.send(say.wait(4, LONG))
        start = time.monotonic()
        pairs += [("its milliseconds", other.ask(say.wait(5, 300)), ("ready", 0, 0)), ("are waited", time.monotonic() - start >= 0.3, True),
                  ("an entry", feeder.ask(entry), ("done", 2)), ("moves no mark", [is_silent(it) for it in (waiting, readers[0])], [True, True]),
                  ("a mark does", feeder.ask(marked), ("done", 3)),
                  ("all are woken", [it.reply() for it in (waiting, *readers)], [("ready", 0, 5)] * 9), ("what was behind it", waiting.reply(), ("front", 0, 5)),
                  ("it can be read already", told_at_once(other, say.wait(5, LONG)), (("ready", 0, 5), True)),
                  ("also by a link that comes later", told_at_once(late, say.wait(1, LONG)), (("ready", 0, 5), True))]
        waiting.send(say.wait(9, LONG))
        pairs += [("it waits again", is_silent(waiting), True),
                  ("a conflict", other.ask(say.items(say.entry(1, 1, [(1, 5, 9, b"other")])))[:2], ("refused", 23)), ("fails all waits", waiting.reply()[:2], ("refused", 41)),
                  ("and each later one", [(told[:2], soon) for told, soon in [told_at_once(late, say.wait(9, LONG))]], [(("refused", 41), True)])]
    report("waits: over, woken, behind others, at each port, and of nodes that fail", differ(pairs))


def session_problems(it, words):
    """What differs where a session of the vectors goes to a new node."""
    problems = []
    with Node(1, it["log"], it["streams"], words=words) as node, node.link() as link:
        for number, (sent, told) in enumerate(it["steps"]):
            link.send(bytes.fromhex(sent))
            if number == len(it["steps"]) - 1 and it["ends"] == 1:
                link.half_close()
            try:
                got = link.read(len(told) // 2).hex()
            except EOFError:
                got = "the link ended"
            problems += differ([(f"{it['name']}, step {number}", got, told)])
        with contextlib.suppress(OSError):
            link.half_close()
        return problems + differ([(f"{it['name']}: behind it", link.read_all(), b""), (f"{it['name']}: ends", node.ends()[0], [it["ends"]])])


def sessions():
    """Whole sessions, step by step; and each request of the vectors, which is no fault. Those of version 1 go to a node that reads it alone,
    and to one that reads both: but for the frame of version 2, a fault to the first, all is answered alike."""
    problems, both = [], vectors("later_sessions")
    first, shared = vectors("sessions"), [it for it in vectors("sessions") if not is_of_version_2({"bytes": it["steps"][-1][0]})]
    for chosen, words in ((first, ()), (shared + both, LATER)):
        for it in chosen:
            problems += session_problems(it, words)
    for words, names in (((), ("requests",)), (LATER, ("requests", "later_requests"))):
        with Node(1, words=words) as node, node.link() as link:
            for it in [it for name in names for it in vectors(name)]:
                link.send(bytes.fromhex(it["bytes"]))
                rest = link.read(int.from_bytes(link.read(4), "big"))
                number = rest[2] if rest[1] in (36, 72) else 0
                # a head may tell of another number of facts than came
                if rest[0] != 1 + is_of_version_2(it) or 1 <= number <= 10 and (number, rest[0]) != (8, 2):
                    problems.append(f"{it['name']}: {rest[:20].hex()}")
    steps = sum(len(it["steps"]) for it in first + shared + both)
    report(f"sessions against `hkrep serve`, with --messages 1 and 2 ({steps} steps), and each request", problems)


def faults():
    """Each fault of a request against a node that reads both versions; one that reads version 1 alone is asked by tests/checks/client.py."""
    known = [it for it in vectors("request_faults") if not is_of_version_2(it)] + vectors("later_request_faults")
    chosen = [it for number, it in enumerate(known) if it["number"] != 1 or number % 8 == 0]

    def told(part):
        problems = []
        with Node(len(part), words=LATER) as node:
            for it in part:
                with node.link() as link:
                    link.send(bytes.fromhex(it["bytes"]))
                    link.half_close()
                    problems += differ([(it["name"], link.read_all().hex(), say.refused(it["number"]).hex())])
            return problems + differ([("ends", node.ends()[0], [it["number"] for it in part])])

    parts = [chosen[at:at + 64] for at in range(0, len(chosen), 64)]
    report(f"faults of both versions against `hkrep serve --messages 2` ({len(chosen)})", [it for found in map(told, parts) for it in found])


# ---------------------------------------------------------------- the client of Python

def refusal_of(call):
    try:
        call()
    except va.Refused as refused:
        return refused.number
    return 0


def python_node():
    """Requests of version 2 of `Node`: status, the latest answer, pages, parts from one node to another, and holds."""
    problems, later, rows = [], va.later, [va.KeyRow(key, va.Row(9, b"%d" % key)) for key in range(10)]
    with Node(20, words=LATER) as served, Node(20, words=LATER) as second, Node(2) as old, va.Node(served.port) as node, va.Node(second.port) as other:
        problems += differ([("a new node", node.status(), later.Streams(7, 0, 0, False, 1, None, (later.StreamTold(0, 0, 0, 0),))), ("no row", node.latest(va.Get(1, 5)), (0, None))])
        writer = va.LogWriter(7, 1)
        node.items([writer.commit([(1, key, 9, b"%d" % key) for key in range(10)]), *writer.marks()])
        problems += differ([("a row", node.latest(va.Get(1, 5)), (1, rows[5].row)), ("rows", node.latest(va.Range(1, 0, 1)), (1, rows[:2])), ("a count", node.latest(va.Count(1)), (1, 10)),
                            ("a page", node.page(1, 2, at=1, most=3), later.Page(tuple(rows[2:5]), True)), ("the last page", node.page(1, 8, at=1, most=3), later.Page(tuple(rows[8:]), False)),
                            ("page by page", list(node.rows(1, 1, 9, most=4)), rows[1:]), ("of nothing", list(node.rows(2, at=0)), []), ("too new", refusal_of(lambda: node.page(1, at=2)), 26)])
        with node.pipeline() as pipe:
            laters = [pipe.status(), pipe.latest(va.Count(1)), pipe.page(1, at=9), pipe.count(1)]
        problems += differ([("a pipeline", (laters[0].result().readable, laters[1].result(), refusal_of(laters[2].result), laters[3].result()), (1, (1, 10), 26, 10))])
        # parts of one moment, whatever is changed between them
        whole, parts = node.whole(), node.parts(0, 40)
        first = next(parts)
        node.items([writer.commit([(1, 3, 8, b"new")]), *writer.marks()])
        found = [first, *parts]
        problems += differ([("parts", [len(it.facts) for it in found], [1] * 10), ("to come", [it.left for it in found[:-1]], list(range(9, 0, -1))), ("the last one", type(found[-1]), later.LastPart),
                            ("their fragment", found[-1].head.with_facts([fact for it in found for fact in it.facts]), whole), ("in parts", node.whole(100), node.whole()),
                            ("taken", other.take_parts(found), 2), ("and what came since", other.take_parts(node.parts(1, 1)), 3), ("alike", other.whole(), node.whole()),
                            ("parts without an end", refusal_of(lambda: other.take_parts(found[:3])), 1), ("parts twice", refusal_of(lambda: other.take_parts([first, *found])), 7),
                            ("without the first", refusal_of(lambda: other.take_parts(found[1:])), 8), ("without one of them", refusal_of(lambda: other.take_parts(found[:4] + found[5:])), 8),
                            ("which changed nothing", other.status().operations, 3)])
        with node.hold(1) as hold:
            problems += differ([("a hold", (hold.number, hold.time, node.status().least_hold), (1, 1, 1)), ("a prune stops", (node.prune(2), node.front().horizon), (5, 1))])
        problems += differ([("let go", (node.status().least_hold, node.prune(2), node.front().horizon), (None, 7, 2)), ("a hold below", refusal_of(lambda: node.hold(1)), 25)])
        held = node.hold(2)
        held.close()
        deadline = time.monotonic() + LIMIT
        while node.status().least_hold is not None and time.monotonic() < deadline:
            time.sleep(0.01)
        problems += differ([("let go with its link", node.status().least_hold, None), ("without its link", is_broken(held.release), True)])
        with va.Node(old.port) as plain:
            try:
                plain.status()
                problems.append("a node of version 1 replies")
            except va.Fault as fault:
                problems += differ([("a node of version 1", (fault.number, "--messages 2" in str(fault)), (3, True)), ("and then", plain.count(1, at=0), 0)])

        async def story():
            async with va.AsyncNode(served.port) as it:
                return [(await it.status()).readable, await it.latest(va.Count(1)), (await it.page(1, at=2, most=1)).more]
        problems += differ([("asyncio", asyncio.run(story()), [2, (2, 10), True])])
    report("requests of version 2 of a node: status, the latest answer, pages, parts and holds", problems)


def is_broken(call):
    try:
        call()
    except va.LinkBroken:
        return True
    return False


def of_version_2(node):
    """What `items` tells where a node reads version 2: by one request and many, on the port for feeders, and on that for readers."""
    log = va.LogWriter(7, 1)
    first, second = log.commit([(1, 5, 9, b"A")]), log.commit([(1, 6, 9, b"B")])
    told = lambda it: (it, it.new)

    async def gathered():
        async with va.AsyncNode(node.port, messages=2) as it:
            return [told(await it.items([first])), [told(of) for of in await asyncio.gather(*(it.items([second, second, None]) for _ in range(3)))]]

    with va.Node(node.feed_port, messages=2) as feeder, va.Node(node.read_port, messages=2) as reader, va.Node(node.port, messages=1) as old, va.Node(node.port) as plain:
        pairs = [("two items", told(feeder.items([first, *log.marks()[:0], va.Mark(7, 1, 1, 1)])), (2, 2)), ("again", told(feeder.items([first, va.encode(va.Mark(7, 1, 1, 1), 1)])), (3, 0)),
                 ("none", told(feeder.items([])), (4, 0)), ("in version 1", told(old.items([first])), (5, None)), ("by tasks", asyncio.run(gathered()), [(6, 0), [(7, 2), (8, 0), (9, 0)]])]
        with feeder.pipeline() as pipe:
            laters = [pipe.items([first, log.marks()[0]]), pipe.front(), pipe.items([*log.marks()])]
        pairs += [("in a pipeline", [told(laters[0].result()), laters[1].result(), told(laters[2].result())], [(10, 1), va.Front(0, 2), (11, 0)]),
                  ("of another log", refusal_of(lambda: feeder.items([va.Mark(8, 1, 0, 0)])), 20), ("no frame", refusal_of(lambda: feeder.items([b"\0\0\0\x1c" + b"\7" * 28])), 3),
                  ("and behind it", told(feeder.items([first])), (12, 0)), ("a reader", refusal_of(lambda: reader.items([first])), 4)]
        pairs += [("of whom nothing is known", told(plain.items([first])), (13, None)), ("who answers in version 2", plain.status().operations, 13), ("and then", told(plain.items([first])), (14, 0)),
                  ("told version 1", (old.status().operations, told(old.items([first]))), (14, (15, None)))]
    return pairs


def of_version_1(node):
    """The same of a node that reads version 1 alone."""
    first = va.LogWriter(7, 1).commit([(1, 5, 9, b"A")])

    async def gathered():
        async with va.AsyncNode(node.port) as it:
            return [(of, of.new) for of in await asyncio.gather(*(it.items([first]) for _ in range(3)))]

    with va.Node(node.port) as plain, va.Node(node.port, messages=1) as knowing, va.Node(node.port, messages=2) as wrong:
        found = [plain.items([first]), plain.items([first]), knowing.items([first])]
        pairs = [("items", [(it, it.new) for it in found], [(2, None), (3, None), (4, None)]), ("wrong", refusal_of(lambda: wrong.items([first])), 3),
                 ("wrong again", refusal_of(lambda: wrong.items([first])), 3), ("by tasks", asyncio.run(gathered()), [(5, None), (6, None), (7, None)])]
        with plain.pipeline() as pipe:
            later = pipe.items([first])
        pairs.append(("in a pipeline", (later.result(), later.result().new), (8, None)))
    return pairs + [("ends", sorted(node.ends()[0]), [0] * 3 + [3] * 2)]


def python_feeds():
    """`items` of the Python client tells how many were new where the node reads version 2, and so does its command."""
    with Staying(4, reading=1, feeding=1) as node:
        pairs = of_version_2(node)
        for words, told in (((), ""), (("--messages", "2"), "new 0 of 2\n"), (("--messages", "1"), "")):
            done = subprocess.run([sys.executable, "-m", "vadungsil", "--port", str(node.port), "feed", *words], input=E1 + say.mark(1, 1, 1), cwd=PACKAGE, capture_output=True, timeout=LIMIT, check=False)
            pairs.append((f"feed {words}", (done.stdout[:5], done.stderr.decode(), done.returncode), (b"done ", told, 0)))
    with Node(5) as node:
        pairs += [(f"version 1: {it}", got, wanted) for it, got, wanted in of_version_1(node)]
    lying = va.later.encode_reply(va.later.Fed(2, 2))
    with Peer([(1, 0, False)], reply=lying) as peer, va.Node(peer.port, messages=2) as node:
        pairs.append(("more new items than were sent", refusal_of(lambda: node.items([E1])), 8))
    report("items of the Python client, and how many of them were new", differ(pairs))


# ---------------------------------------------------------------- the commands

def whole_frame(link):
    """The next frame of a socket, or nothing where it ended."""
    head = link.recv(4, socket.MSG_WAITALL)
    return head + link.recv(int.from_bytes(head, "big"), socket.MSG_WAITALL) if len(head) == 4 else b""


class Large:
    """Stands before a node as if it held more than a message has room for: a delta and a whole are refused 2, and parts have one fact each. It
    ends the link in place of the reply to a request for more, after so many of them."""

    def __init__(self, node, most_parts=None):
        self.node, self.most_parts = node, most_parts
        self.listener = socket.create_server(("127.0.0.1", 0))
        self.port = self.listener.getsockname()[1]
        threading.Thread(target=self.serve, daemon=True).start()

    def serve(self):
        try:
            while True:
                link, _ = self.listener.accept()
                with link, self.node.link() as behind:
                    self.talk(link, behind.socket)
        except OSError:
            pass

    def talk(self, link, behind):
        parts = 0
        while frame := whole_frame(link):
            kind = tuple(frame[4:6])
            parts += kind == (2, 52)
            if kind == (2, 52) and self.most_parts is not None and parts > self.most_parts:
                return
            if kind in ((1, 18), (1, 19)):
                link.sendall(say.refused(2))
                continue
            behind.sendall(frame[:-4] + bytes(4) if kind == (2, 51) else frame)
            link.sendall(whole_frame(behind))

    def __enter__(self):
        return self

    def __exit__(self, *_):
        self.listener.close()


def ran(*words, data=b""):
    done = subprocess.run([str(PROGRAM), *map(str, words)], input=data, capture_output=True, timeout=LIMIT, check=False)
    return done.stdout if words[0] == "save" else done.stdout.decode(), done.returncode


def commands():
    """`pull`, `save` and `load` go by parts where a node says that it holds too much for a message, and leave nothing half done."""
    pairs, state = [], lambda node: node.link().ask(say.full())
    with Node(40, words=LATER) as source, Node(40) as old, Large(source) as large, Large(source, 0) as cut, Large(old) as old_large:
        for node in (source, old):
            node.link().ask(ALL)
        whole = state(source)
        with Node(20, words=LATER) as target:
            target.link().ask(say.items(E1, say.mark(1, 1, 1)))
            pairs += [("a pull that is cut off", ran("pull", "--port", target.port, "--from", cut.port), ("refused 1\n", 1)), ("takes nothing", target.link().ask(say.front()), ("front", 0, 1)),
                      ("a pull of a delta", ran("pull", "--port", target.port, "--from", large.port), ("done 3\n", 0)), ("takes it", state(target), whole),
                      ("a pull of nothing new", ran("pull", "--port", target.port, "--from", large.port), ("done 4\n", 0))]
        source.link().ask(say.prune(2))
        whole = state(source)
        with Node(20, words=LATER) as target:
            pairs += [("a pull of the whole", ran("pull", "--port", target.port, "--from", large.port), ("done 2\n", 0)), ("takes all of it", state(target), whole)]
        frames = [say.add([fact]) for fact in whole[1]["facts"]] + [say.merge_parts(horizon=2, streams=[(3, 3, [], [])], count=2)]
        saved = ran("save", "--port", large.port)
        pairs += [("a save in parts", saved, (summed(*frames), 0)), ("one that is cut off", ran("save", "--port", cut.port), (frames[0], 1))]
        with Node(20, words=LATER) as target:
            pairs += [("a load of half", ran("load", "--port", target.port, data=frames[0]), ("added 1\nrefused 1\n", 1)), ("takes nothing", target.link().ask(say.front()), ("front", 0, 0)),
                      ("a load of parts", ran("load", "--port", target.port, data=saved[0]), ("added 1\nadded 2\ndone 2\n", 0)), ("takes the whole", state(target), whole),
                      ("a load without a part", ran("load", "--port", target.port, data=frames[0] + frames[2]), ("added 1\nrefused 8\n", 1)), ("changes nothing", state(target), whole),
                      ("a load of a hold", ran("load", "--port", target.port, data=say.hold(2)), ("refused 4\n", 1))]
        with Node(20, words=(*LATER, "--parts-bytes", "100")) as target:
            pairs += [("a pull into too little room", ran("pull", "--port", target.port, "--from", large.port), ("refused 46 most 100\n", 1)), ("takes nothing", target.link().ask(say.front()), ("front", 0, 0))]
        # a part that is refused stops what comes behind it, which would lack it
        with Node(20, words=LATER) as target:
            wrong = frames[0] + frames[0] + frames[1] + frames[2]
            pairs += [(f"a {command[0]} of a part twice", ran(*command, "--port", target.port, data=wrong), ("added 1\nrefused 7\n", 1)) for command in (["load"], PUSH)]
            pairs += [("takes nothing", target.link().ask(say.front()), ("front", 0, 0)), ("and goes on else", ran(*PUSH, "--port", target.port, data=say.release(1) + frames[0]), ("refused 44\nadded 1\n", 1)),
                      ("a push of version 1 alone", ran("push", "--port", target.port, data=say.front() + frames[0] + say.front()), ("front horizon 0 readable 0\nrefused 3\n", 1))]
        # where one of the two reads version 1 alone, what was refused stays refused
        with Node(20, words=LATER) as target:
            pairs.append(("from a node of version 1", ran("pull", "--port", target.port, "--from", old_large.port), ("refused 2\n", 1)))
        pairs += [("into a node of version 1", ran("pull", "--port", old.port, "--from", large.port), ("refused 2\n", 1)), ("a save of one", ran("save", "--port", old_large.port), (b"", 1))]
    report("pull, save and load in parts", differ(pairs))


CHECKS = (sessions, faults, without_it, links_that_only_read, holds, a_full_link, a_limit_for_all, many_at_once, damage, waits, python_node, python_feeds, commands)


def main():
    start = time.monotonic()
    if is_built(PROGRAM):
        for check in CHECKS:
            if sys.argv[1:] and check.__name__ not in sys.argv[1:]:
                continue
            try:
                check()
            except Exception as error:  # pylint: disable=broad-except
                report(check.__name__, [f"{type(error).__name__}: {error}"])
    print(f"messages of version 2: {time.monotonic() - start:.1f} s")
    return ended()


if __name__ == "__main__":
    sys.exit(main())
