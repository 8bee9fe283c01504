#!/usr/bin/env python3
"""What those who only read can do to others at a long-running `bin/hkrep node`: long pipelines of requests that take long or look far, requests that wait behind an
Await, snapshots in chunks that nobody takes, and deltas of all that a node has. Each number is printed, beside the limit that stands below.

    tests/checks/readers.py [CHECK ..]

Prints a line for each check and ends with 'N passed, M failed'. Standard library only."""
import concurrent.futures
import contextlib
import itertools
import pathlib
import socket
import statistics
import subprocess
import sys
import tempfile
import threading
import time

sys.path.append(str(pathlib.Path(__file__).resolve().parents[1] / "lib"))
import messages as say
import vadungsil
from checks import differ, ended, free_port, guarded, is_built, report
from memory import ALL, Node, reply_to
from staying import LIMIT, PROGRAM, OwnNode

LATER = vadungsil.later
# How many rows a node has that show, and how many ended and weren't pruned, in tables of their own.
ROWS, LIVE, ENDED, BESIDE = 200_000, 1, 2, 3
# How many rows an entry has.
BATCH = 1_000
# How many connections of a read port send how many bytes each, and for how many seconds others may be held up by that.
GREEDY, SENT, MOST_SECONDS = 8, 65_000, 1
# How many times as long as alone a save may take beside them, where that is more: on four processors it takes twice as long, and on fewer who asks takes these.
SAVE_TIMES = 10
# How many connections wait by an Await with how many bytes behind it, what all connections of a read port may make a node keep, and how much memory may be taken beside that.
WAITING, BEHIND, LINK_BYTES, MARGIN = 300, 65_000, 20_000_000, 20_000_000


def entries_of(table, first, ends):
    """Requests that put so many rows into a table, or end those that were put at the times before, with the marks: of entries from this number on."""
    for at in range(ROWS // BATCH):
        number, keys = first + at, range(at * BATCH, (at + 1) * BATCH)
        rows = [] if ends else [(table, key, 9, b"x" * 20) for key in keys]
        over = [(table, key, ends + at) for key in keys] if ends else ()
        yield say.items(say.entry(number, number, rows, over), say.mark(1, number, number))


def large_node(*options):
    """A node with `ROWS` rows that show and as many that ended; gives it, and its newest time."""
    node = OwnNode("--read-port", (port := free_port()), "--read-links", WAITING + 20, *options)
    node.read_port, batches = port, ROWS // BATCH
    with node.link() as link:
        for requests in (entries_of(LIVE, 1, 0), entries_of(ENDED, batches + 1, 0), entries_of(ENDED, 2 * batches + 1, batches + 1)):
            for request in requests:
                told = link.ask(request)
                assert told[0] == "done", told
    return node, 3 * batches


def pages(at):
    return say.page(at, ENDED, 0, 2**64 - 1, 1)


def counts(at):
    return say.ask(at, say.count(LIVE))


def stats(_at):
    return say.later(LATER.AskStats())


def tables(_at):
    return say.later(LATER.AskTables())


def seconds_to(ask):
    start = time.monotonic()
    told = ask()
    return time.monotonic() - start, told


def asks_and_changes(node, number, until):
    """Asks for a row, and makes a change behind that of this number, one after the other, until that is set; gives how many seconds each took."""
    asked, made = [], []
    with node.link() as reader, node.link() as feeder:
        while not until.is_set():
            took, told = seconds_to(lambda: reader.ask(say.latest(say.get(LIVE, 5))))
            assert told[0] == "latest", told
            asked.append(took)
            change = change_of(number + len(made) + 1)
            took, told = seconds_to(lambda it=change: feeder.ask(it))
            assert told[0] == "done", told
            made.append(took)
    return asked, made


def change_of(number):
    """An entry of one row, and its mark."""
    return say.items(say.entry(number, number, [(BESIDE, number, 9, b"x")]), say.mark(1, number, number))


def saved(node, folder):
    """Saves the node into a file; gives how many seconds that took."""
    took, ran = seconds_to(lambda: subprocess.run([PROGRAM, "save", "--port", str(node.port), "--out", str(folder / "saved")], capture_output=True, timeout=LIMIT, check=False))
    assert ran.returncode == 0, ran
    return took


def takes_all(link):
    """Reads what is replied and keeps none of it, until the connection is closed."""
    with contextlib.suppress(OSError, ValueError):
        while link.socket.recv(1 << 20):
            pass


def greedy(node, folder, number, request):
    """So many connections of the read port send this request again and again at once. Meanwhile others ask for a row and make changes over the first port, behind
    the one of this number, and the node is saved; gives how many seconds each took."""
    until, each = threading.Event(), request(number)
    with concurrent.futures.ThreadPoolExecutor(1) as pool:
        links = [node.link(node.read_port) for _ in range(GREEDY)]
        for link in links:
            threading.Thread(target=takes_all, args=(link,), daemon=True).start()
            link.send(each * (SENT // len(each)))
        others = pool.submit(asks_and_changes, node, number, until)
        try:
            save = saved(node, folder)
            time.sleep(0.5)
        finally:
            until.set()
            break_off(links)
        return *others.result(), save


def break_off(links):
    """Ends these links at once, with a reset."""
    for link in links:
        link.socket.setsockopt(socket.SOL_SOCKET, socket.SO_LINGER, b"\1\0\0\0\0\0\0\0")
        link.close()


def who_asks_much():
    """Whoever asks by a read port, however much at once, holds up a question and a change over the first port for less than a second, and a save by little."""
    node, number = large_node()
    with node, tempfile.TemporaryDirectory() as name:
        folder, problems = pathlib.Path(name), []
        alone = min(saved(node, folder) for _ in range(3))
        told = [f"a save alone {alone * 1e3:.0f} ms"]
        for request in (pages, counts, stats, tables):
            asked, made, save = greedy(node, folder, number, request)
            number += len(made)
            for what, took, most in (("a question", max(asked), MOST_SECONDS), ("a change", max(made), MOST_SECONDS), ("a save", save, max(MOST_SECONDS, SAVE_TIMES * alone))):
                problems += within(f"seconds of {what} beside {request.__name__}", took, most)
            told.append(f"{request.__name__}: of {len(asked)} questions {in_ms(asked)}, changes {in_ms(made)}, a save {save * 1e3:.0f} ms")
    report(f"{GREEDY} readers that send {SENT // 1_000} kB of requests at once", problems, "; ".join(told))


def in_ms(took):
    """The median, the 99th percentile and the greatest of these."""
    rising = sorted(took)
    return f"{statistics.median(rising) * 1e3:.1f}/{rising[len(rising) * 99 // 100] * 1e3:.1f}/{rising[-1] * 1e3:.1f}"


def within(what, got, most):
    return [] if got <= most else [f"{what}: {got}, at most {most}"]


def behind_awaits():
    """What stands behind an Await is kept as it came, and counts in what connections may make a node keep: who has no room ends (90), and the others wait."""
    port = free_port()
    with OwnNode("--read-port", port, "--read-links", WAITING, "--link-bytes", LINK_BYTES, "-q") as node, contextlib.ExitStack() as stack:
        before, fronts = node.memory(), say.front()
        links = [stack.enter_context(node.link(port)) for _ in range(WAITING)]
        for link in links:
            with contextlib.suppress(OSError):
                link.send(say.wait(2**61, 600_000) + fronts * (BEHIND // len(fronts)))
        time.sleep(1)
        grown = node.memory() - before
        with node.link() as link:
            pairs = [("another link", link.ask(say.front()), ("front", 0, 0))]
    report(f"{WAITING} readers that wait with {BEHIND // 1_000} kB of requests behind", differ(pairs) + within("bytes", grown, LINK_BYTES // 2 + MARGIN), f"{grown / 1e6:.0f} MB")


def closed_before_it_is_time():
    """An Await whose peer sends no more is answered at once, and what it sent behind it; then the connection ends."""
    port = free_port()
    with OwnNode("--read-port", port, "--read-links", 4) as node:
        pairs = []
        for name, pause in (("closed with it", 0), ("closed later", 0.3)):
            with node.link(port) as link:
                start = time.monotonic()
                link.send(say.wait(2**61, 600_000) + say.front() * 40)
                time.sleep(pause)
                link.socket.shutdown(socket.SHUT_WR)
                pairs += [(name, link.reply(), ("ready", 0, 0)), (f"{name}: behind it", {link.reply() for _ in range(40)}, {("front", 0, 0)}), (f"{name}: its end", link.reply(), None),
                          (f"{name}: at once", time.monotonic() - start < 5, True)]
    report("readers that wait and send no more", differ(pairs))


def silent_chunks():
    """A snapshot in chunks of which nobody asks for the next one is given up after `--write-seconds`, and others have its room."""
    port = free_port()
    with OwnNode("--read-port", port, "--read-links", 6, "--link-bytes", LINK_BYTES, "--write-seconds", 1) as node, contextlib.ExitStack() as stack:
        with node.link() as link:
            for request in itertools.islice(entries_of(LIVE, 1, 0), 20):
                assert link.ask(request)[0] == "done"
        silent, told = [], []
        for _ in range(4):
            link = stack.enter_context(node.link(port))
            told.append(link.ask(say.whole(0, 1_000))[0])
            silent.append(link)
        other = stack.enter_context(node.link(port))
        first, until = other.ask(say.whole(0, 1_000)), time.monotonic() + 10
        while first[0] != "part" and time.monotonic() < until:
            time.sleep(0.2)
            first = other.ask(say.whole(0, 1_000))
        ended_so = {silent[at].reply() for at, it in enumerate(told) if it == "part"}
        pairs = [("some had no room at first", set(told), {"part", "refused"}), ("another has it then", first[0], "part"), ("their end", ended_so, {None})]
    report("readers that take the first chunk and are silent", differ(pairs))


def deltas_of_all():
    """A delta since 0 that would have more bytes than connections may make the node keep is refused before anything is made (90), as a full snapshot is, and its
    connection goes on; in chunks there is no room for it either (46)."""
    with OwnNode("--link-bytes", 1_000_000, "--links", 4) as node:
        with node.link() as link:
            for request in itertools.islice(entries_of(LIVE, 1, 0), 40):
                assert link.ask(request)[0] == "done"
            pairs = [("a delta since 0", link.ask(say.delta(0)), ("refused", 90, 0, 0)), ("a full snapshot", link.ask(say.full()), ("refused", 90, 0, 0)),
                     ("in chunks", link.ask(say.whole(0, 1_000))[:2], ("refused", 46)), ("it goes on", link.ask(say.delta(40))[0], "fragment")]
        with OwnNode() as empty:
            ran = subprocess.run([PROGRAM, "pull", "--port", str(empty.port), "--from", str(node.port)], capture_output=True, text=True, timeout=LIMIT, check=False)
            pairs += [("pull to an empty node", (ran.returncode, ran.stdout.splitlines()[-1:]), (1, ["refused 46 most 1000000"]))]
    report("deltas of all that a node has", differ(pairs))


# What may come behind a change that waits to be published for want of memory: whatever becomes of it, it publishes that one.
BEHIND_WAITING = {"a further change": (say.items(), "done"), "a pin": (say.hold(3), "held"), "a prune that is refused": (say.prune(2**61), "refused")}


def woken_after(left, behind):
    """A change is refused this request for memory, counted from then on. Where it waits therefore (42), that change comes behind it, and an Await of its time has to be
    answered; gives what the change was told, and what is wrong."""
    request, kind = BEHIND_WAITING[behind]
    with Node(4, "--no-guard", "--workers", "1", command="node") as node, node.link() as feeder, node.link() as waiting:
        assert feeder.ask(say.front()) == ("front", 0, 0)
        waiting.send(say.wait(3, 600_000))
        # whatever the first one asks for by a worker of the waiting link is behind it
        time.sleep(0.05)
        node.page.arm(left)
        told, refused = reply_to(feeder, ALL), node.page.get("refused")
        node.page.arm(0)
        if told is None or told[:2] != ("refused", 42):
            return ("another" if refused else "none"), []
        pairs = [(f"{behind} behind request {left}", feeder.ask(request)[0], kind)]
        waiting.socket.settimeout(5)
        try:
            pairs.append((f"an Await behind request {left} and {behind}", waiting.reply(), ("ready", 0, 3)))
        except TimeoutError:
            pairs.append((f"an Await behind request {left} and {behind}", "hangs", "ready"))
        return "waits", differ(pairs)


def woken_whatever_publishes():
    """An Await is answered once its time can be read, also where the change that makes it so had to wait for memory and is published by another that is refused."""
    kinds, problems, left = {}, [], 1
    while "none" not in kinds and left < 400:
        for behind in BEHIND_WAITING:
            kind, wrong = woken_after(left, behind)
            kinds[kind] = kinds.get(kind, 0) + 1
            problems += wrong
            if kind != "waits":
                break
        left += 1
    problems += [] if kinds.get("waits", 0) >= len(BEHIND_WAITING) else [f"none waited: {kinds}"]
    report("waits for a change that another one publishes", problems, f"{kinds.get('waits', 0)} tried")


def main():
    start = time.monotonic()
    if is_built(PROGRAM):
        for check in (who_asks_much, behind_awaits, closed_before_it_is_time, silent_chunks, deltas_of_all, woken_whatever_publishes):
            if not sys.argv[1:] or check.__name__ in sys.argv[1:]:
                guarded(check)
    print(f"readers: {time.monotonic() - start:.1f} s")
    return ended()


if __name__ == "__main__":
    sys.exit(main())
