"""Checks of what the Python package waits for, which tests/checks/python_client.py runs: the messages Await and Ready, `wait`, and `changes` beside
the changes that a primary made. The servers are those of tests/lib/served_log.py, and a node. Standard library only."""
import asyncio
import contextlib
from concurrent.futures import ThreadPoolExecutor
import pathlib
import random
import socket
import subprocess
import sys
import threading
import time

sys.path.append(str(pathlib.Path(__file__).resolve().parents[1] / "lib"))
import fields as of
import reference
from checks import differ, report
from packaged import LIMIT, PACKAGE, refusal_of, run, va
from python_servers import Peer
from served_log import LOG, ServedLog, changes_of, plain, random_log
from client import Node as Served
from staying import Staying

later = va.later
LAST = va.LAST_TIME
# what has to come at once comes within so many seconds
SOON = 5
LATER = ("--messages", "2")


def raised(call, kind):
    """The error of a kind that a call raises, None where it raises none."""
    try:
        call()
    except kind as error:
        return error
    return None


def took(call):
    began = time.monotonic()
    return call(), time.monotonic() - began


def after(seconds, call):
    """Calls something in so many seconds, in a thread."""
    timer = threading.Timer(seconds, call)
    timer.daemon = True
    timer.start()
    return timer


# ---------------------------------------------------------------- the two messages

def await_of(at, milliseconds):
    return of.later(59, [("time", of.u64(at)), ("milliseconds", of.u32(milliseconds))])


def ready_of(horizon, readable):
    return of.later(74, [("horizon", of.u64(horizon)), ("readable", of.u64(readable))])


def number_of(feeder, data):
    """The number of the fault that a feeder meets in bytes, 0 where it meets none."""
    return refusal_of(lambda: (feeder.feed(data), feeder.finish()))


def messages():
    """Await and Ready, field by field: as values, as bytes however they are cut, and each fault."""
    pairs, encode, decode = [], later.encode_request, later.decode_request
    for at, milliseconds in ((0, 0), (1, 1), (LAST, 600_000), (2 ** 40, 65_536)):
        data, value = of.spelled(await_of(at, milliseconds)), later.Await(at, milliseconds)
        pairs += [(f"Await {at}", (encode(value), decode(data)), (data, value))]
        for end in range(len(data) + 1):
            feeder = later.RequestFeeder()
            pairs.append((f"Await {at}, cut at {end}", feeder.feed(data[:end]) + feeder.feed(data[end:]), [value]))
        pairs += [(f"Await {at} up to {end}", number_of(later.RequestFeeder(), data[:end]), 1) for end in range(1, len(data))]
    for horizon, readable in ((0, 0), (2, 3), (LAST, LAST)):
        data, value = of.spelled(ready_of(horizon, readable)), later.Ready(horizon, readable)
        pairs += [(f"Ready {horizon}", (later.encode_reply(value), later.decode_reply(data)), (data, value)),
                  (f"Ready {horizon}: line", value.line(), f"ready horizon {horizon} readable {readable}"), (f"Ready {horizon} is no front", value == va.Front(horizon, readable), False)]
        for end in range(len(data) + 1):
            feeder = later.ReplyFeeder()
            pairs.append((f"Ready {horizon}, cut at {end}", feeder.feed(data[:end]) + feeder.feed(data[end:]), [value]))
    asked, said = await_of(1, 1), ready_of(1, 2)
    for name, data, number in (("a time above the last", of.patched(asked, "time", of.u64(LAST + 1)), 6), ("milliseconds", of.patched(asked, "milliseconds", of.u32(600_001)), 6),
                               ("the most of its type", of.patched(asked, "milliseconds", b"\xff" * 4), 6), ("no milliseconds", of.ended_by(asked, "milliseconds", b""), 10),
                               ("half of them", of.ended_by(asked, "milliseconds", bytes(2)), 10), ("a byte behind", of.spelled(asked + [("more", b"\0")]), 10),
                               ("version 1", of.patched(asked, "version", b"\1"), 4), ("a reply", of.spelled(said), 4)):
        pairs.append((f"Await: {name}", number_of(later.RequestFeeder(), data), number))
    for name, data, number in (("horizon above readable", of.patched(said, "horizon", of.u64(3)), 6), ("readable", of.patched(said, "readable", of.u64(LAST + 1)), 6),
                               ("no readable", of.ended_by(said, "readable", b""), 10), ("a byte behind", of.spelled(said + [("more", b"\0")]), 10),
                               ("version 1", of.patched(said, "version", b"\1"), 4), ("a request", of.spelled(asked), 4)):
        pairs.append((f"Ready: {name}", number_of(later.ReplyFeeder(), data), number))
    for name, call, number in (("a time", lambda: later.Await(LAST + 1, 0), 6), ("a time below 0", lambda: later.Await(-1, 0), 6), ("600,001 ms", lambda: later.Await(1, 600_001), 6),
                               ("-1 ms", lambda: later.Await(1, -1), 6), ("a horizon", lambda: later.Ready(2, 1), 6), ("in version 1", lambda: va.decode_request(of.spelled(asked)), 3)):
        pairs.append((f"a value: {name}", refusal_of(call), number))
    report(f"Await and Ready: their bytes, cuts and faults ({len(pairs)})", differ(pairs))


# ---------------------------------------------------------------- waiting for a time

def mark(at):
    return reference.Mark(LOG, 1, 0, at)


async def async_wait(port, *words, **more):
    async with va.AsyncNode(port, **more) as node:
        return await node.wait(*words)


def each_wait(port, **more):
    """`wait` of both clients of a port: a name and a call of (time, timeout)."""
    def plain_wait(*words):
        with va.Node(port, **more) as node:
            return node.wait(*words)

    return (("a node", plain_wait), ("asyncio", lambda *words: asyncio.run(async_wait(port, *words, **more))))


def waited():
    """A wait that is over at once, one that comes later, and one that doesn't come; each by both clients."""
    problems = []
    for kind in range(2):
        with ServedLog() as served:
            name, wait = each_wait(served.port, limit=LIMIT)[kind]
            served.take([mark(3)])
            for at in (0, 3):
                problems += differ([(f"{name}: {at} at once", wait(at), va.Front(0, 3))])
            served.prune(2)
            problems += differ([(f"{name}: at once, in no time", wait(2, 0), va.Front(2, 3))])
            timer = after(0.3, lambda: served.take([mark(9)]))
            got, spent = took(lambda: wait(7))
            problems += differ([(f"{name}: later", got, va.Front(2, 9)), (f"{name}: not before, and soon", 0.2 < spent < 0.3 + SOON or spent, True)])
            timer.join()
            error, spent = took(lambda: raised(lambda: wait(10, 0.4), va.TimeLimit))
            problems += differ([(f"{name}: never", 0.35 < spent < 0.4 + SOON or spent, True), (f"{name}: what is said", all(it in str(error) for it in ("time 10 ", "0.4 s", "is 9")) or str(error), True)])
            problems += differ([(f"{name}: not yet", "time 10 " in str(raised(lambda: wait(10, 0), va.TimeLimit)), True)])
            waits = [it for it in served.asked if isinstance(it, later.Await)]
            problems += differ([(f"{name}: no wait beyond half of what a reply is waited for", max(it.milliseconds for it in waits) <= 500 * LIMIT, True), (f"{name}: nothing else is asked", len(waits), len(served.asked))])
    report("a wait: over at once, later, and never", problems)


def asked_again():
    """A wait that is longer than one request goes on, over a new connection too; a node that replies at once isn't asked in haste."""
    problems = []
    for kind in range(2):
        with ServedLog() as served:
            name, wait = each_wait(served.port, limit=2.0)[kind]
            timer = after(2.3, lambda: served.take([mark(5)]))
            problems += differ([(f"{name}: several requests", wait(5), va.Front(0, 5)), (f"{name}: their number", 3 <= len(served.asked) <= 30 or served.asked, True)])
            timer.join()
        cut = iter([0, 5, None, 0, None, None])
        with ServedLog(breaks=lambda request: next(cut, None)) as served:
            name, wait = each_wait(served.port, limit=LIMIT)[kind]
            problems += differ([(f"{name}: no first reply, and half of one", isinstance(raised(lambda: wait(0, 2), va.LinkBroken), va.LinkBroken), True), (f"{name}: tried twice", len(served.asked), 2)])
            timer = after(0.6, lambda: served.take([mark(5)]))
            problems += differ([(f"{name}: over a new connection", wait(5, LIMIT), va.Front(0, 5))])
            timer.join()
        with ServedLog(is_staying=False) as served:
            name, wait = each_wait(served.port, limit=LIMIT)[kind]
            timer = after(0.5, lambda: served.take([mark(5)]))
            problems += differ([(f"{name}: replied to at once", wait(5, LIMIT), va.Front(0, 5)), (f"{name}: not in haste", 2 <= len(served.asked) <= 12 or len(served.asked), True)])
            timer.join()
    report("a wait that takes several requests, or several connections", problems)


@contextlib.contextmanager
def no_more_connections():
    """A port whose system answers nothing to who connects, since so many wait there already."""
    with contextlib.ExitStack() as stack:
        listener = stack.enter_context(socket.create_server(("127.0.0.1", 0), backlog=0))
        for _ in range(4):
            link = stack.enter_context(socket.socket())
            link.setblocking(False)
            link.connect_ex(listener.getsockname())
        yield listener.getsockname()[1]


def not_waited():
    """What can't be waited for is said, and nothing waits without an end."""
    problems = []
    old, earlier = va.encode_reply(va.Refused(3)), va.encode_reply(va.Refused(4))
    for kind in range(2):
        for said, number, words in ((old, 3, "version 1 alone"), (earlier, 4, "earlier release"), (later.encode_reply(va.Refused(41)), 41, "conflict"), (va.encode_reply(va.Front(0, 9)), 3, "version")):
            with Peer([(1, 0, False)] * 2, said) as peer:
                name, wait = each_wait(peer.port, limit=LIMIT)[kind]
                error = raised(lambda: wait(5), va.Refused)
                wanted = 4 if said == va.encode_reply(va.Front(0, 9)) else number
                problems += differ([(f"{name}: {number}", error.number, wanted)] + ([(f"{name}: words of {number}", words in str(error) or str(error), True)] if wanted == number else []))
        with Peer([(0, 0, True)]) as peer:
            name, wait = each_wait(peer.port, limit=0.5)[kind]
            error, spent = took(lambda: raised(lambda: wait(5), va.TimeLimit))
            problems += differ([(f"{name}: silent", "no reply within" in str(error), True), (f"{name}: silent for no longer", spent < SOON, True)])
        with Peer([(0, 0, True)]) as peer:
            name, wait = each_wait(peer.port, limit=LIMIT)[kind]
            error, spent = took(lambda: raised(lambda: wait(5, 0.2), va.TimeLimit))
            problems += differ([(f"{name}: silent beyond the time limit of the wait", spent < 0.2 + SOON, True)])
        with no_more_connections() as port:
            name, wait = each_wait(port, limit=LIMIT)[kind]
            error, spent = took(lambda: raised(lambda: wait(5, 0.2), va.TimeLimit))
            problems += differ([(f"{name}: no connection", "no connection within" in str(error) or str(error), True), (f"{name}: no connection, for no longer", spent < 2 + SOON, True)])
        name, wait = each_wait(1, limit=LIMIT, wait=0.0)[kind]
        problems += differ([(f"{name}: {what}", isinstance(raised(lambda: wait(*words), kind_), kind_), True) for what, words, kind_ in (
            ("a time below 0", (-1,), va.Fault), ("a time above the last", (LAST + 1,), va.Fault), ("a text", ("5",), TypeError), ("seconds below 0", (1, -0.1), ValueError),
            ("no number", (1, float("nan")), ValueError), ("nobody", (1,), va.LinkBroken))])
        problems += differ([(f"{name}: a base that is no time", refusal_of(lambda: (va.Node(1), va.AsyncNode(1))[kind].changes(-1)), 6)])
    report("what can't be waited for is said", problems)


def side_by_side():
    """While one waits, others ask over the node's connection; a wait is cancelled with its task."""
    problems = []

    async def story(port):
        async with va.AsyncNode(port, limit=LIMIT) as node:
            waits = [asyncio.ensure_future(node.wait(5)) for _ in range(3)]
            fronts = [await asyncio.wait_for(node.front(), SOON) for _ in range(3)]
            waits[0].cancel()
            served.take([mark(5)])
            return fronts, await asyncio.wait_for(asyncio.gather(*waits, return_exceptions=True), SOON)

    with ServedLog() as served, va.Node(served.port, limit=LIMIT) as node:
        thread = threading.Thread(target=node.wait, args=(5, LIMIT), daemon=True)
        thread.start()
        while not served.asked:
            time.sleep(0.01)
        (_, spent), is_waiting = took(node.front), thread.is_alive()
        problems += differ([("a question beside it", (spent < SOON, is_waiting), (True, True))])
        fronts, (cancelled, *others) = asyncio.run(story(served.port))
        problems += differ([("fronts beside it", fronts, [va.Front(0, 0)] * 3), ("a task", isinstance(cancelled, asyncio.CancelledError), True), ("the others", others, [va.Front(0, 5)] * 2)])
        thread.join(SOON)
        problems += differ([("the thread", thread.is_alive(), False)])
    report("a wait holds nobody up", problems)


# ---------------------------------------------------------------- changes

def feed_at_random(served, items, seed, given=lambda: 0, pause=0.001):
    """Feeds a server in a random order, some items twice, with prunes up to what was given. Items come late by up to 10 places, or by any."""
    source = random.Random(seed)
    late = len(items) if seed % 4 == 0 else 10
    places = [*range(len(items)), *source.sample(range(len(items)), len(items) // 5)]
    order = [items[place] for _, place in sorted((place + source.uniform(0, late), place) for place in places)]
    while order:
        count = source.randint(1, 6)
        served.take(order[:count])
        del order[:count]
        if source.random() < 0.2:
            served.prune(given())
        time.sleep(pause)


def feeding(*words):
    thread = threading.Thread(target=feed_at_random, args=words, daemon=True)
    thread.start()
    return thread


def broken_links(seed, most=12):
    """Now and then a connection ends, without a reply or inside of one; so many times, and never at the first requests."""
    source = random.Random(seed)
    ends = {}
    at = 3
    while len(ends) < most:
        at += source.randint(1, 9)
        ends[at] = source.choice([0, 3, 11])
    count = iter(range(10 ** 9))
    return lambda request: ends.get(next(count))


def all_of(changes):
    """The changes up to the end of the log, each behind what was given before it."""
    found = []
    for change in changes:
        found.append(plain(change))
    return found


def cases():
    return [(seed, 1 + seed % 3, since) for seed, since in ((1, 0), (2, 0), (3, 7), (4, 0), (5, 30), (6, 59), (7, 60))]


def changes_in_order():
    """The changes of a node that is fed in a random order, with repeats, prunes and connections that break, are the primary's."""
    problems, count = [], 0
    for seed, streams, since in cases():
        primary = random_log(seed, streams)
        with ServedLog(streams, each=1 + seed % 5, breaks=broken_links(seed), has_room=seed != 4) as served, va.Node(served.port, limit=LIMIT) as node:
            with node.changes(since) as changes:
                thread = feeding(served, primary.items, seed, lambda: changes.time)
                got = all_of(changes)
            thread.join()
        count += len(got)
        problems += differ([(f"seed {seed}", got, changes_of(primary, since)), (f"seed {seed}: up to where", changes.time, LAST)])
    report(f"changes of a node are those that the primary made ({count})", problems)


def async_changes():
    """The same for asyncio, where changes behind the first are waited for with a time limit that cancels the wait."""
    async def story(served, since, found):
        async with va.AsyncNode(served.port, limit=LIMIT) as node, node.changes(since) as changes:
            with contextlib.suppress(asyncio.TimeoutError):
                await asyncio.wait_for(changes.__anext__(), 0.1)
            thread = feeding(served, primary.items, seed, lambda: min(changes.time, 40), 0.005)
            with contextlib.suppress(StopAsyncIteration):
                while True:
                    with contextlib.suppress(asyncio.TimeoutError):
                        found.append(plain(await asyncio.wait_for(changes.__anext__(), 0.003 if found and thread.is_alive() else LIMIT)))
            thread.join()
        async with va.AsyncNode(served.port, limit=LIMIT) as node:
            return [plain(change) async for change in node.changes(50)]

    problems, count = [], 0
    for seed, streams, since in cases()[:4]:
        primary, got = random_log(seed, streams), []
        with ServedLog(streams, each=1 + seed % 5, breaks=broken_links(seed)) as served:
            again = asyncio.run(asyncio.wait_for(story(served, since, got), LIMIT))
        count += len(got)
        problems += differ([(f"seed {seed}", got, changes_of(primary, since)), (f"seed {seed}: again", again, changes_of(primary, 50))])
    report(f"changes for asyncio, with waits that are cancelled ({count})", problems)


def gone_on_with():
    """A watch that is left goes on by its time, in another one; what was given of the next time comes again as a whole."""
    problems, primary = [], random_log(11, 2)
    with ServedLog(2) as served, va.Node(served.port, limit=LIMIT) as node:
        served.take(primary.items)
        for count in range(0, 40, 3):
            with node.changes(0) as changes:
                first = [plain(next(changes)) for _ in range(count)]
                at = changes.time
            with node.changes(at) as rest:
                got = all_of(rest)
            problems += differ([(f"behind {count}", got, changes_of(primary, at)), (f"what {count} are", [it for it in first if it[0] <= at], [it for it in changes_of(primary) if it[0] <= at]),
                                (f"no more than one time again, at {count}", {it[0] for it in first if it[0] > at} <= {at + 1}, True)])
    report("a watch goes on where another was left", problems)


def one_change():
    """Rows that are born and end between two looks, an end and a birth at one time, what is above the resolved time, and what comes late."""
    primary = reference.Primary(LOG, 2)
    for writes, stream in (({(1, 5): (9, b"a")}, 1), ({(1, 5): None}, 1), ({(1, 5): (9, b"b"), (2, 1): (8, b"")}, 1), ({(1, 5): (9, b"b"), (2, 1): None}, 2)):
        primary.commit(primary.last(), writes, stream)
    entries, problems = primary.items[:4], []
    with ServedLog(2) as served, va.Node(served.port, limit=LIMIT) as node, node.changes(0) as changes:
        served.take([*entries[:2], entries[3], reference.Mark(LOG, 1, 2, 2), reference.Mark(LOG, 2, 0, 3)])
        got = [plain(next(changes)) for _ in range(2)]
        problems += differ([("up to the resolved time", (got, changes.time), ([(1, 1, 5, (9, b"a")), (2, 1, 5, None)], 2))])
        served.take([reference.Mark(LOG, 1, 3, 4), reference.Mark(LOG, 2, 1, 4)])
        after(0.2, lambda: served.take([entries[2]]))
        got = [plain(next(changes)) for _ in range(4)]
        problems += differ([("late, and an update", got, changes_of(primary, 2)), ("up to there", changes.time, 4)])
        served.take([reference.Mark(LOG, 1, 3, LAST), reference.Mark(LOG, 2, 1, LAST)])
        problems += differ([("the end", [next(changes, None) for _ in range(2)], [None] * 2)])
    report("one change for what happens to a row at a time", problems)


def idle():
    """A watch over a log in which nothing happens for longer than a reply is waited for goes on with what comes then."""
    problems, primary = [], random_log(14, 1)
    with ServedLog() as served, ServedLog() as other, va.Node(served.port, limit=2.0) as node, va.Nodes([served.port, other.port], limit=2.0) as nodes:
        with node.changes(0) as changes, nodes.changes(0) as of_nodes, ThreadPoolExecutor(2) as pool:
            found = [pool.submit(next, it) for it in (changes, of_nodes)]
            time.sleep(3.2)
            problems += differ([("still waiting", [it.done() for it in found], [False] * 2)])
            served.take(primary.items)
            problems += differ([("the first", [plain(it.result(LIMIT)) for it in found], [changes_of(primary)[0]] * 2), ("the rest", [all_of(it) for it in (changes, of_nodes)], [changes_of(primary)[1:]] * 2)])
    report("a watch over a log that is idle for long", problems)


def pruned():
    """25 with the node's horizon where it was pruned beyond what was given, and not before; the watch stays as it is."""
    problems, primary = [], random_log(12, 1)

    async def of_asyncio(port, since):
        async with va.AsyncNode(port) as node:
            return await node.changes(since).__anext__()

    with ServedLog() as served, va.Node(served.port, limit=LIMIT) as node:
        served.take(primary.items)
        with node.changes(0) as changes:
            next(changes)
            served.prune(20)
            problems += differ([("what was taken", all_of(changes), changes_of(primary)[1:])])
        for since in (0, 1, 19):
            for name, call in ((f"since {since}", lambda: next(node.changes(since))), (f"since {since}, asyncio", lambda: asyncio.run(of_asyncio(served.port, since)))):
                error = raised(call, va.TooOld)
                problems += differ([(name, (error.number, error.horizon, error.name, f"since {since}" in str(error)), (25, 20, "TooOld", True))])
        problems += differ([("at the horizon", all_of(node.changes(20)), changes_of(primary, 20)), ("a question is refused so", isinstance(raised(lambda: node.delta(3), va.Refused), va.TooOld), True)])
        with va.Nodes([served.port, served.port]) as nodes:
            error = raised(lambda: next(nodes.changes(19)), va.TooOld)
            problems += differ([("many nodes", (error.horizon, all_of(nodes.changes(20))), (20, changes_of(primary, 20)))])
    report("a node that was pruned beyond a watch says so", problems)


def other_nodes():
    """Another log behind the same address, a node that goes back, one that doesn't wait, and one that is away for long: said, or gone on with."""
    problems, primary, port = [], random_log(13, 1), None
    with ServedLog() as served:
        port = served.port
        served.take(primary.items[:8])
        node = va.Node(port, limit=3.0)
        changes = node.changes(0)
        first = plain(next(changes))
        while changes.time < served.readable:
            next(changes)
    error, spent = took(lambda: raised(lambda: next(changes), va.LinkBroken))
    problems += differ([("nobody, for as long as a reply is waited for", (isinstance(error, va.LinkBroken), 2 < spent < 3 + SOON), (True, True))])
    with ServedLog(log=LOG + 1, port=port) as served:
        served.take([reference.Mark(LOG + 1, 1, 0, 50)])
        problems += differ([("another log", refusal_of(lambda: next(changes)), 20)])
    with ServedLog(streams=2, port=port) as served:
        served.take([reference.Mark(LOG, stream, 0, 50) for stream in (1, 2)])
        problems += differ([("other streams", refusal_of(lambda: next(changes)), 21)])
    base = changes.time
    with ServedLog(port=port) as served:
        after(0.3, lambda: served.take(primary.items))
        problems += differ([("a node that begins anew", [first, *all_of(changes)], [changes_of(primary)[0], *changes_of(primary, base)])])
    changes.close()
    fragment = va.Fragment(LOG, 5, 0, (va.Stream(3, 5),))
    wrong = [(later.LastPart((), later.Head.of(fragment)), "behind its front"), (later.LastPart((), later.Head(LOG, 4, 0, (va.Stream(9, 9),), 0)), "since another base"), (va.Front(0, 9), "another kind")]
    for reply, name in wrong:
        with ServedLog(refuses=lambda request: reply if isinstance(request, later.Whole) else None) as served:
            served.take([mark(9)])
            problems += differ([(name, refusal_of(lambda: next(va.Node(served.port, limit=LIMIT).changes(5))), 4 if name == "another kind" else 6)])
    report("other nodes behind an address, and deltas that are none", problems)


# ---------------------------------------------------------------- changes of many nodes

def lies_of():
    """A log with another row at each time, and a resolved time of its own."""
    made = reference.Primary(LOG, 1)
    for number in range(1, 90):
        made.commit(made.last(), {(1, 1): (7, b"%d" % number)}, 1)
    return made.items + [reference.Mark(LOG, 1, 89, 89)]


def many_changes():
    """Three members, fed in orders of their own, two of which are killed and one comes back: the primary's changes, each once."""
    problems, count = [], 0
    for seed, streams, agree in ((21, 1, 1), (22, 2, 1), (23, 1, 2)):
        primary = random_log(seed, streams)
        served = [ServedLog(streams, breaks=broken_links(seed + number) if agree == 1 else lambda request: None) for number in range(3)]
        ports = [it.port for it in served]
        with contextlib.ExitStack() as stack, va.Nodes(ports, limit=LIMIT, agree=agree) as nodes, nodes.changes(0) as changes:
            stack.callback(lambda: [it.close() for it in served])
            threads = [feeding(it, primary.items, seed + number) for number, it in enumerate(served)]
            got = []
            for change in changes:
                got.append(plain(change))
                if len(got) == 20:
                    served[0].close()
                if len(got) == 40 and agree == 1:
                    served[1].close()
                    served[0] = ServedLog(streams, port=ports[0])
                    threads.append(feeding(served[0], primary.items, seed + 9))
            for thread in threads:
                thread.join()
        count += len(got)
        problems += differ([(f"seed {seed}", got, changes_of(primary))])
    report(f"changes of many nodes, of which some are killed, are those that the primary made ({count})", problems)


def unfit_members():
    """A member of version 1, one that lags, a pruned one, one that falls silent, one that lies, one that is no node: the changes come from others."""
    primary = random_log(31, 1)
    old = lambda request: va.encode_reply(va.Refused(3)) if type(request).__module__.endswith("later_values") else None
    silent = lambda request: b"" if isinstance(request, later.Await) else None
    problems = []
    with ServedLog() as good, ServedLog() as other, ServedLog(refuses=old) as version_1, ServedLog(refuses=silent) as quiet, ServedLog() as lagging, ServedLog() as prunes, ServedLog() as lies, Peer([(100, 0, False)] * 20, b"\xff" * 40) as stranger:
        for it in (good, other, version_1, quiet, prunes):
            it.take(primary.items)
        prunes.prune(30)
        lagging.take(primary.items[:3])
        lies.take(lies_of())
        for names, ports in (("version 1", [version_1, good]), ("lags", [lagging, good]), ("pruned", [prunes, good]), ("silent", [quiet, good]),
                             ("all", [version_1, lagging, prunes, quiet, good])):
            with va.Nodes([it.port for it in ports], limit=LIMIT) as nodes:
                got, spent = took(lambda: all_of(nodes.changes(0)))
                problems += differ([(names, got, changes_of(primary)), (f"{names}: soon", spent < 3 + SOON or spent, True)])
        with va.Nodes([stranger.port, good.port], limit=LIMIT) as nodes:
            problems += differ([("no node", all_of(nodes.changes(0)), changes_of(primary)), ("it is bad", nodes.members()[0].state, "bad")])
        for ports in ([lies, good, other], [good, lies, other]):
            with va.Nodes([it.port for it in ports], limit=LIMIT, agree=2) as nodes:
                problems += differ([("a liar", all_of(nodes.changes(0)), changes_of(primary)), ("it is bad", nodes.members()[ports.index(lies)].state, "bad")])
        with va.Nodes([version_1.port], limit=LIMIT) as nodes:
            problems += differ([("version 1 alone", refusal_of(lambda: next(nodes.changes(0))), 3)])
        prunes.prune(60)
        with va.Nodes([prunes.port, lagging.port], limit=1.0) as nodes, nodes.changes(3) as changes:
            after(0.1, lagging.close)
            error, spent = took(lambda: raised(lambda: next(changes), va.VadungsilError))
            problems += differ([("pruned, and the other away", (type(error), error.number, spent < 8 + SOON), (va.TooOld, 25, True))])
    with va.Nodes([good.port, other.port], limit=1.0) as nodes:
        error, spent = took(lambda: raised(lambda: next(nodes.changes(0)), va.NoNode))
        problems += differ([("nobody", (isinstance(error, va.NoNode), spent < 2 + SOON), (True, True))])
    report("members that can't give changes, or give wrong ones, are passed over", problems)


# ---------------------------------------------------------------- nodes of the program

class Fed:
    """A node of the program that is fed over a connection, as a `ServedLog` is without one."""

    def __init__(self, port):
        self.node = va.Node(port, limit=LIMIT)

    def take(self, items):
        self.node.items([reference.frame(it, 2) for it in items])

    def prune(self, horizon):
        self.node.prune(horizon)


def over_nodes():
    """`wait` and `changes` of nodes of the program, which are fed in random orders and pruned, one of them over the port of those who only read."""
    problems = []
    for seed, streams, words in ((41, 1, ("--no-guard",)), (42, 2, ())):
        primary = random_log(seed, streams)
        with Staying(8, *words, streams=streams, reading=4) as served, va.Node(served.read_port, limit=LIMIT) as node, node.changes(0) as changes:
            waiting = ThreadPoolExecutor(1).submit(node.wait, LAST, LIMIT)
            thread = feeding(Fed(served.port), primary.items, seed, lambda: changes.time)
            problems += differ([(f"seed {seed}", all_of(changes), changes_of(primary)), (f"seed {seed}: the wait", waiting.result(LIMIT).readable, LAST)])
            thread.join()
            front = node.front()
            problems += differ([(f"seed {seed}: too old", raised(lambda: next(node.changes(front.horizon - 1)), va.TooOld).horizon, front.horizon)] if front.horizon else [])
            problems += differ([(f"seed {seed}: asyncio", asyncio.run(awaited(served.port, front.horizon)), (front, changes_of(primary, front.horizon)))])
    report("waits and changes of nodes of the program", problems)


async def awaited(port, since):
    """What a wait and the changes of an asyncio node are."""
    async with va.AsyncNode(port, limit=LIMIT) as node:
        return await node.wait(LAST), [plain(change) async for change in node.changes(since)]


def over_other_nodes():
    """A node of `serve` replies at once, and is asked again; one without version 2 is told; of two nodes one is killed."""
    problems = []
    with Served(8, words=LATER) as served, va.Node(served.port, limit=LIMIT) as node:
        timer = after(0.3, lambda: Fed(served.port).take([mark(5)]))
        problems += differ([("of serve", node.wait(5, LIMIT), va.Front(0, 5)), ("not yet", isinstance(raised(lambda: node.wait(6, 0.1), va.TimeLimit), va.TimeLimit), True)])
        timer.join()
    with Served(8) as served, va.Node(served.port, limit=LIMIT) as node:
        problems += differ([("version 1", [refusal_of(lambda: node.wait(5)), refusal_of(lambda: next(node.changes(0)))], [3, 3])])
    primary = random_log(43, 1)
    with Staying(8) as one, Staying(8) as two, va.Nodes([one.port, two.port], limit=LIMIT) as nodes, nodes.changes(0) as changes:
        threads = [feeding(Fed(two.port), primary.items, 43)]
        Fed(one.port).take(primary.items[:20])
        got = [plain(next(changes)) for _ in range(10)]
        one.child.kill()
        problems += differ([("one of two is killed", got + all_of(changes), changes_of(primary))])
        threads[0].join()
    report("waits of other nodes, and changes of two of which one is killed", problems)


# ---------------------------------------------------------------- many open files

def many_files():
    """A long request and its reply over a connection whose file descriptor is above 1,024, in a process of its own."""
    script = """if True:
        import os, resource, sys
        import vadungsil as va
        most = resource.getrlimit(resource.RLIMIT_NOFILE)[1]
        resource.setrlimit(resource.RLIMIT_NOFILE, (min(4_096, most), most))
        kept = [os.dup(0) for _ in range(1_100)]
        node = va.Node(int(sys.argv[1]), limit=float(sys.argv[2]))
        entry = va.Entry.of(7, 1, 1, 1, rows=[(1, key, 9, bytes(4_000)) for key in range(1_000)])
        print([int(node.items([entry])) for _ in range(2)], node._link.socket.fileno() > 1_024)"""
    with Peer([(2, 0, True)], va.encode_reply(va.Done(9))) as peer:
        got = run([sys.executable, "-B", "-c", script, peer.port, LIMIT], cwd=PACKAGE, stdin=subprocess.DEVNULL, input=None)
    report("a connection above 1,024 open files", differ([("what was replied", got.stdout.decode(), "[9, 9] True\n")]) + ([got.stderr.decode()[-300:]] if got.returncode else []))


CHECKS = (messages, waited, asked_again, not_waited, side_by_side, changes_in_order, async_changes, gone_on_with, one_change, idle, pruned, other_nodes, many_changes, unfit_members, over_nodes, over_other_nodes, many_files)
