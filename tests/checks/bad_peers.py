#!/usr/bin/env python3
"""What a bad peer of a long-running `bin/hkrep`, or many, can make it do: how many bytes of memory they take, for how many seconds they hold up others, and
what a node that failed still answers. Each number is printed, beside the limit that stands below.

The nodes that are to take memory have a limit of it: a control group of their own, where this machine lets one be made (version 2, as root), else a limit of
address space. Which of the two is printed.

    tests/checks/bad_peers.py [CHECK ..]

Prints a line for each check and ends with 'N passed, M failed'. Standard library only."""
import concurrent.futures
import contextlib
import functools
import itertools
import multiprocessing
import os
import pathlib
import resource
import select
import socket
import statistics
import subprocess
import sys
import time

sys.path.append(str(pathlib.Path(__file__).resolve().parents[1] / "lib"))
import messages as say
from checks import differ, ended, free_port, guarded, is_built, report
from messages import E1, E2, E3
from staying import LIMIT, PROGRAM, OwnNode, Staying, most_memory

MEGABYTE = 1 << 20
PUSHED = say.items(E1, say.mark(1, 1, 1))
GET = say.ask(1, say.get(1, 5))
ROW = ("row", (9, b"\x41"))
SNAPSHOT, LACKS_ROOM = b"\1\x22", ("refused", 90, 0, 0)
# What a node may have in all, by the system's limit: far more than the limits below, so that who passes these is told so and not ended.
MOST_MEMORY = 2_048 * MEGABYTE
# What all connections may make it keep, half of it those that only read, and how many threads give long answers.
LINK_BYTES, WORKERS = 200_000_000, 4
BOUNDED = ("--workers", str(WORKERS))
# How much memory may be taken beside what is counted: buffers of threads, and what the allocator keeps.
MARGIN = 32 * MEGABYTE
# How many bytes of a reply the system may hold on its way to a peer that doesn't read.
IN_SOCKETS = 16 * MEGABYTE
# The longest frame of all, and the longest of who only reads.
LONGEST, LONGEST_ASKED = 1 << 28, 64
# How long a change may wait beside snapshots, in seconds: these, or so many times what one snapshot takes alone. It waits for the snapshots that are being made
# as it comes, one of each thread for long answers, and on a loaded machine these wait for a processor.
CHANGE_SECONDS, CHANGE_TIMES = 2, 20
# How long a change, or a question, may wait while 64 connections with 1,024 pins each end, in seconds. It should be 0.05, and is 0.01 where four processors have
# seven programs to run; the gate's machine may have more.
PINS_SECONDS = 2
# How much memory a hundred trickling connections may take.
MOST_TRICKLED = 4 * MEGABYTE
# How many lines a node may print in three seconds in which it can open no file, that of a failed accept each tenth of a second at each of three ports, thrice.
MOST_LINES = 300

CGROUPS, NUMBERS = pathlib.Path("/sys/fs/cgroup"), itertools.count(1)


def made_group():
    """A control group of its own with this limit of memory, or none where that can't be made."""
    group = CGROUPS / f"hkrep-{os.getpid()}-{next(NUMBERS)}"
    try:
        if "memory" not in (CGROUPS / "cgroup.subtree_control").read_text().split():
            return None
        group.mkdir()
    except OSError:
        return None
    try:
        (group / "memory.max").write_text(str(MOST_MEMORY))
        subprocess.run(["sh", "-c", f"echo $$ > {group}/cgroup.procs"], stderr=subprocess.DEVNULL, check=True)
        return group
    except (OSError, subprocess.CalledProcessError):
        group.rmdir()
        return None


@contextlib.contextmanager
def bounded():
    """How a node is started so that its memory has a limit."""
    group = made_group()
    if group is None:
        yield {"RLIMIT_AS": MOST_MEMORY}
        return
    try:
        yield {"before": ("sh", "-c", f'echo $$ > {group}/cgroup.procs && exec "$0" "$@"')}
    finally:
        group.rmdir()


def kind_of_bound():
    with bounded() as limits:
        return "the address space" if "RLIMIT_AS" in limits else "a control group"


def from_now_on(node):
    """Begins to look for the most memory that a node takes (`most_memory`); gives what it has."""
    pathlib.Path(f"/proc/{node.child.pid}/clear_refs").write_text("5")
    return node.memory()


def within(what, got, most):
    return [] if got <= most else [f"{what}: {got}, at most {most}"]


def megabytes(count):
    return f"{count / MEGABYTE:.0f} MB"


@functools.lru_cache(None)
def batch(number, rows, size):
    """An entry with so many rows of so many bytes, and its mark."""
    return say.items(say.entry(number, number, [(1, number * rows + key, 9, b"x" * size) for key in range(rows)]), say.mark(1, number, number))


def filled(node, entries, size):
    """Gives a node so many entries with 1,000 rows each."""
    with node.link() as link:
        for number in range(1, entries + 1):
            told = link.ask(batch(number, 1_000, size))
            assert told == ("done", number + 1), told
    assert node.line() == "ended 0"


def take_snapshot(link):
    """Takes a full snapshot, and looks at none of its rows; gives how many bytes it has."""
    link.send(say.full())
    head = link.read(6)
    assert head[4:] == SNAPSHOT, head
    size = int.from_bytes(head[:4], "big")
    left = size - 2
    while left:
        piece = link.socket.recv(min(left, MEGABYTE))
        assert piece, "the link ended"
        left -= len(piece)
    return size


def small_change(number):
    """An entry of one row, and its mark."""
    return say.feed(say.entry(number, number, [(2, number, 9, b"x")]), say.mark(1, number, number))


# ---------------------------------------------------------------- memory

def how_begun(link):
    """What a reader is told first of the snapshot that it asked for: that it begins, why there is none, or that its connection ended."""
    try:
        head = link.read(6)
        return "begins" if head[4:] == SNAPSHOT else say.read_reply(head[4:] + link.read(int.from_bytes(head[:4], "big") - 2))
    except (EOFError, ConnectionError):
        return "ended"


def is_read_on(link, left):
    """Whether the rest of a snapshot comes that was begun."""
    try:
        while left:
            left -= len(link.read(min(left, MEGABYTE)))
        return True
    except (EOFError, ConnectionError):
        return False


def unread_snapshots(count):
    """So many readers ask for all of a node at once and read no more than how that begins. It keeps what is still to be written of as many as `--link-bytes` has room
    for, and refuses the others before anything is made for them; they go on, and who asks for a row, and who feeds, is answered. What was begun comes whole. Of
    those that are begun at the same moment, one for each thread, one that finds no room then is ended."""
    entries = 13
    with bounded() as limits, Staying(1, *BOUNDED, "--link-bytes", str(LINK_BYTES), reading=count + 2, feeding=1, **limits) as node, contextlib.ExitStack() as stack:
        filled(node, entries, 4_000)
        rows = node.memory()
        readers = [stack.enter_context(node.link(node.read_port)) for _ in range(count)]
        other, feeder = (stack.enter_context(node.link(port)) for port in (node.read_port, node.feed_port))
        reply = take_snapshot(readers[0])
        from_now_on(node)
        for reader in readers:
            reader.send(say.full())
        told = {reader: how_begun(reader) for reader in readers}
        refused = [reader for reader, first in told.items() if first == LACKS_ROOM]
        pairs = [("what else they were told", set(told.values()) - {LACKS_ROOM, "begins", "ended"}, set()),
                 ("another reader", other.ask(say.ask(1, say.get(1, 1_000))), ("row", (9, b"x" * 4_000))), ("a feeder", feeder.ask(small_change(entries + 1)), ("fed", entries + 2, 2)),
                 ("those that were refused", {reader.ask(say.front()) for reader in refused}, {("front", 0, entries + 1)})]
        least_refused = count - LINK_BYTES // 2 // (reply - IN_SOCKETS) - 2 * WORKERS
        most = most_memory(node.child.pid)
        whole = sum(is_read_on(reader, reply - 2) for reader, first in told.items() if first == "begins")
        pairs += [("enough were refused", len(refused) >= least_refused, True), ("some came whole", whole > 0, True), ("it runs on", node.child.poll(), None)]
    report(f"{count} readers that ask for all and read nothing", differ(pairs) + within("memory", most, rows + MARGIN),
           f"{megabytes(most)}, at most {megabytes(rows + MARGIN)}; {megabytes(rows)} without them, {megabytes(reply)} are a snapshot; {len(refused)} were refused, {whole} came whole")


def send_some(link, data):
    """Sends as much of it as the node lets."""
    with contextlib.suppress(OSError):
        link.send(data)


def send_each(pairs):
    for link, data in pairs:
        send_some(link, data)


def lengths_of_readers():
    """A length that no question has is refused as soon as its four bytes are there, and nothing of what follows is kept."""
    lengths = (LONGEST_ASKED + 1, LONGEST, (1 << 32) - 1)
    with bounded() as limits, Staying(1, *BOUNDED, reading=100, **limits) as node, node.link() as link, contextlib.ExitStack() as stack:
        pairs = [("a push", link.ask(PUSHED), ("done", 2))]
        readers = [stack.enter_context(node.link(node.read_port)) for _ in range(99)]
        before = from_now_on(node)
        for at, reader in enumerate(readers):
            pairs.append(("a length alone", reader.ask(say.u32(lengths[at % 3])), ("refused", 2, 0, 0)))
            send_some(reader, bytes(MEGABYTE))
        pairs += [("how they ended", {node.line() for _ in readers}, {"ended 2"}), ("another link", link.ask(GET), ROW)]
        grown = most_memory(node.child.pid) - before
    report("lengths of 99 readers, with a megabyte behind each", differ(pairs) + within("memory", grown, 4 * MEGABYTE), f"{megabytes(grown)}, at most {megabytes(4 * MEGABYTE)}")


def half_frames():
    """Halves of frames beyond what all connections may make it keep end theirs; others go on. A frame that grows has its old room and its new for a moment, so it
    may take twice what is counted."""
    count, each, kept = 8, 20_000_000, 50_000_000
    with bounded() as limits, Staying(count + 1, *BOUNDED, "--link-bytes", str(kept), reading=1, feeding=1, **limits) as node, contextlib.ExitStack() as stack:
        link, reader, feeder = (stack.enter_context(node.link(port)) for port in (node.port, node.read_port, node.feed_port))
        pairs = [("a push", link.ask(PUSHED), ("done", 2))]
        before = from_now_on(node)
        send_each((stack.enter_context(node.link()), say.u32(LONGEST) + b"\1\x10" + bytes(each)) for _ in range(count))
        pairs += [("how they ended", {node.line() for _ in range(count - kept // each)}, {"ended 90"}), ("another link", link.ask(say.front()), ("front", 0, 1)),
                  ("a reader", reader.ask(GET), ROW), ("a feeder", feeder.ask(small_change(2)), ("fed", 3, 2)), ("it runs on", node.child.poll(), None)]
        grown, limit = most_memory(node.child.pid) - before, 2 * kept + MARGIN
    report(f"{count} halves of frames of {megabytes(LONGEST)}", differ(pairs) + within("memory", grown, limit), f"{megabytes(grown)}, at most {megabytes(limit)}")


def trickles():
    """A hundred frames of which a byte comes each second, so that `--read-seconds` doesn't end them, take no memory to speak of and hold up nobody."""
    with bounded() as limits, Staying(101, *BOUNDED, "--read-seconds", "2", feeding=1, **limits) as node, contextlib.ExitStack() as stack:
        link, feeder = (stack.enter_context(node.link(port)) for port in (node.port, node.feed_port))
        pairs, took = [("a push", link.ask(PUSHED), ("done", 2))], []
        before = from_now_on(node)
        begun = [(stack.enter_context(node.link()), say.u32(LONGEST if at % 2 else 4_000) + b"\1\x10") for at in range(100)]
        for second in range(4):
            send_each((slow, b"\0" if second else head) for slow, head in begun)
            start = time.monotonic()
            pairs += [("another link", link.ask(GET), ROW), ("a feeder", feeder.ask(small_change(second + 2)), ("fed", second + 3, 2))]
            took.append(time.monotonic() - start)
            time.sleep(1)
        grown = most_memory(node.child.pid) - before
    report("a hundred frames that trickle", differ(pairs) + within("memory", grown, MOST_TRICKLED) + within("seconds of a question and a change", max(took), 1),
           f"{grown // 1024} kB, at most {megabytes(MOST_TRICKLED)}; a question and a change beside them {max(took) * 1e3:.1f} ms")


# ---------------------------------------------------------------- time

def takes_snapshots(port, count, each):
    """So many readers take so many full snapshots each, one after the other."""
    with contextlib.ExitStack() as stack, concurrent.futures.ThreadPoolExecutor(count) as pool:
        links = [stack.enter_context(say.Link(port, LIMIT)) for _ in range(count)]
        list(pool.map(lambda link: [take_snapshot(link) for _ in range(each)], links))


def seconds_alone(link, times):
    """How many seconds each of so many snapshots takes by itself, and how many bytes it has."""
    took = []
    for _ in range(times):
        start = time.perf_counter()
        size = take_snapshot(link)
        took.append(time.perf_counter() - start)
    return took, size


def seconds_of_changes(link, number, others):
    """How many seconds each change takes that is made behind that number of changes, for as long as others run."""
    took = []
    while others.is_alive():
        number, start = number + 1, time.perf_counter()
        told = link.ask(small_change(number))
        took.append(time.perf_counter() - start)
        assert told == ("fed", number + 1, 2), told
        time.sleep(0.005)
    return took


def changes_beside_snapshots(count):
    """A change is shown once nobody reads the older copy any more, so it may wait for the snapshots that are being made as it comes."""
    entries, each = 60, 96 // count + 1
    with Staying(1, "--link-bytes", "1000000000", reading=count + 1, feeding=1) as node:
        filled(node, entries, 100)
        with node.link(node.read_port) as reader:
            alone, size = seconds_alone(reader, 5)
        readers = multiprocessing.get_context("fork").Process(target=takes_snapshots, args=(node.read_port, count, each))
        with node.link(node.feed_port) as feeder:
            readers.start()
            took = seconds_of_changes(feeder, entries, readers)
        readers.join()
    usual, slowest = statistics.median(alone), max(took)
    report(f"changes beside {count} readers that take snapshots", differ([("the readers", readers.exitcode, 0)]) + within("seconds", slowest, max(CHANGE_SECONDS, CHANGE_TIMES * usual)),
           f"the slowest of {len(took)} {slowest * 1e3:.1f} ms, half of them {statistics.median(took) * 1e3:.1f}; a snapshot of {megabytes(size)} alone {usual * 1e3:.1f} ms")


def seconds_of(asked):
    """Sends these requests at once, each over a link of its own; gives their replies, and how long each took."""
    start, found, waiting = time.monotonic(), {}, {link: name for name, (link, _) in asked.items()}
    send_each(asked.values())
    while waiting and (ready := select.select(list(waiting), [], [], 2 * PINS_SECONDS)[0]):
        found.update({waiting.pop(link): (link.reply(), time.monotonic() - start) for link in ready})
    return [found[name] for name in asked]


def break_off(links):
    """Ends these links at once, with a reset."""
    for link in links:
        link.socket.setsockopt(socket.SOL_SOCKET, socket.SO_LINGER, b"\1\0\0\0\0\0\0\0")
        link.close()


def ends_with_pins():
    """64 connections with 1,024 pins each break off at once: so long a change and a question wait that come right behind."""
    with Staying(65, reading=1, feeding=1) as node, contextlib.ExitStack() as stack:
        link, reader, feeder = (stack.enter_context(node.link(port)) for port in (node.port, node.read_port, node.feed_port))
        pairs, holders = [("a push", link.ask(PUSHED), ("done", 2))], [node.link() for _ in range(64)]
        send_each((holder, say.hold(1) * 1_024) for holder in holders)
        pairs.append(("pinned", {say.read_reply(holder.rest())[0] for holder in holders for _ in range(1_024)}, {"held"}))
        break_off(holders)
        (change, changed_in), (row, asked_in) = seconds_of({"a change": (feeder, small_change(2)), "a question": (reader, GET)})
        pairs += [("the change", change[0], "fed"), ("the question", row, ROW), ("how they ended", {node.line() for _ in holders} <= {"ended 0", "ended 91"}, True),
                  ("no pin is left", link.ask(say.status())[1].least_hold, None)]
    report("64 connections with 1,024 pins each that end at once", differ(pairs) + within("seconds of a change", changed_in, PINS_SECONDS) + within("seconds of a question", asked_in, PINS_SECONDS),
           f"a change waits {changed_in:.2f} s, a question {asked_in:.2f} s")


# ---------------------------------------------------------------- files

def leave_files(node, count):
    """Lets a node open so many files more from now on."""
    files = max(int(it) for it in os.listdir(f"/proc/{node.child.pid}/fd")) + 1 + count
    resource.prlimit(node.child.pid, resource.RLIMIT_NOFILE, (files, resource.prlimit(node.child.pid, resource.RLIMIT_NOFILE)[1]))


def asked_beside(links, seconds):
    """Asks over each of these links ten times a second; gives what it is told."""
    told = set()
    for _ in range(10 * seconds):
        told |= {link.ask(GET) for link in links}
        time.sleep(0.1)
    return told


def flooded_without_files():
    """Where a node can open no further file and a hundred come at its three ports, old connections are answered, and few lines are printed; once they have gone
    the next ones are served. A port that waits for a connection has a file for that already, so each is left two: for its next one, and to wait."""
    with Staying(50, "-q", reading=50, feeding=50) as node, contextlib.ExitStack() as stack:
        ports = (node.port, node.read_port, node.feed_port)
        old = [stack.enter_context(node.link(port)) for port in ports]
        pairs = [("a push", old[0].ask(PUSHED), ("done", 2)), ("old links", asked_beside(old[1:], 1), {ROW})]
        leave_files(node, 2 * len(ports))
        flood = [node.link(ports[at % len(ports)]) for at in range(100)]
        pairs.append(("old links beside them", asked_beside(old, 3), {ROW}))
        lines = len(node.words)
        for link in flood:
            link.close()
        pairs.append(("other links after them", {stack.enter_context(node.link(port)).ask(GET) for port in ports}, {ROW}))
    told = any("not accepted 93" in it for it in node.words)
    report("a node that can open no further file", differ(pairs + [("it is told", told, True)]) + within("lines on standard error", lines, MOST_LINES), f"{lines} lines in three seconds, at most {MOST_LINES}")


# ---------------------------------------------------------------- a node that is full

# how many bytes of address space it may take, and how many rows of how many bytes an entry has; it has to have taken so many before it is full
FULL_SPACE, FULL_ROWS, FULL_BODY, FULL_LEAST = 400 * MEGABYTE, 1_000, 500, 100


def new_versions(number):
    """An entry that gives each of so many keys a new row in place of the one of the entry before, and its mark."""
    rows, ends = [(1, key, 9, b"x" * FULL_BODY) for key in range(FULL_ROWS)], [(1, key, number - 1) for key in range(FULL_ROWS)]
    return say.items(say.entry(number, number, rows, ends if number > 1 else []), say.mark(1, number, number))


def fed_until_full(node):
    """Gives a node entries until it takes one no more; gives how many it took, and whether it said so, or ended the connection, for want of memory."""
    with node.link() as link:
        for number in range(1, 2_000):
            try:
                told = link.ask(new_versions(number))
            except ConnectionError:
                told = None
            if told != ("done", number + 1):
                return number - 1, told in (None, LACKS_ROOM)
    return number, False


def asked_of_full(node, request):
    """What a node that is full replies, over a connection for which it finds memory at last."""
    until = time.monotonic() + 10
    while time.monotonic() < until:
        with contextlib.suppress(OSError), node.link() as link:
            told = link.ask(request)
            if told not in (None, LACKS_ROOM):
                return told
        time.sleep(0.05)
    return None


def a_full_node():
    """A node whose memory has a limit refuses what would grow beyond it (90), or ends the connection for which it finds none, and goes on: it answers, says what its
    limit is, and is pruned. A prune takes memory for the list of what it drops, so the first ones drop little."""
    with OwnNode("--workers", 2, "-q", before=("env", "MALLOC_ARENA_MAX=1"), RLIMIT_AS=FULL_SPACE) as node:
        taken, is_told = fed_until_full(node)
        pairs = [("it said so", is_told, True), ("it took some", taken >= FULL_LEAST, True), ("a row", asked_of_full(node, say.ask(taken, say.get(1, 0))), ("row", (9, b"x" * FULL_BODY))),
                 ("its limit", line_of_limit(node), f"memory_limit {FULL_SPACE}"), *pruned_of_full(node, taken), ("it runs on", node.child.poll(), None)]
    report("a node that is full", differ(pairs), f"{taken * FULL_ROWS} versions of {FULL_BODY} bytes in {megabytes(FULL_SPACE)}")


def pruned_of_full(node, taken):
    """A prune that drops little is made. One that drops more may have to wait for memory (42), as OPERATING has it; where none has to, the node is fed again."""
    pairs = []
    for at, count in ((10, 2), (20, 3), (100, 4), (taken, 5)):
        reply = asked_of_full(node, say.prune(at))
        if at >= 100 and reply == ("refused", 42, taken + count, 0):
            return pairs
        pairs.append((f"a prune up to {at}", reply, ("done", taken + count)))
    return [*pairs, ("it is fed again", asked_of_full(node, new_versions(taken + 1)), ("done", taken + 6))]


def line_of_limit(node):
    """The line of a node's limit of memory, as `hkrep status --stats` prints it."""
    ran = subprocess.run([PROGRAM, "status", "--stats", "--port", str(node.port)], capture_output=True, text=True, timeout=LIMIT, check=False)
    return next((line for line in ran.stdout.splitlines() if line.startswith("memory_limit")), ran.stdout + ran.stderr)


# ---------------------------------------------------------------- a node that failed

OTHER_ROW = say.join_this(facts=[(1, 5, 1, (9, b"C"), None)])
AGAINST_EACH_OTHER = (say.entry(4, 4, [(1, 7, 9, b"A")]), say.entry(5, 5, ends=[(1, 7, 4)]), say.entry(6, 6, ends=[(1, 7, 4)]))
NEXT = say.entry(4, 4, [(1, 7, 9, b"A")])


def told_of(reply):
    """What is compared of a reply: its number where it is a refusal, else its kind."""
    return reply[1] if reply[0] == "refused" else reply[0]


# What each request of a connection that has added nothing and begun nothing is told.
OF_FAILED = {
    "Front": (say.front(), 41), "Delta": (say.delta(1), 41), "Full": (say.full(), 41), "Ask": (GET, 41), "Ask above": (say.ask(9, say.get(1, 5)), 41),
    "Items that it has": (PUSHED, 41), "Items that are new": (say.items(NEXT), 41), "no Items": (say.items(), 41), "Items against each other": (say.items(*AGAINST_EACH_OTHER), 23),
    "Items of another log": (say.items(say.mark(1, 0, 0, log=8)), 20), "Items of a stream above": (say.items(say.mark(2, 1, 1)), 21),
    "Feed": (say.feed(NEXT), 41), "Feed against each other": (say.feed(*AGAINST_EACH_OTHER), 23), "Feed of another log": (say.feed(say.mark(1, 0, 0, log=8)), 20),
    "Feed of a stream above": (say.feed(say.mark(2, 1, 1)), 21), "JoinThis": (say.join_this(), 41), "JoinThis of another log": (say.join_this(log=8), 41), "JoinThis above a gap": (say.join_this(base=9), 41),
    "MergeThis": (say.merge_this(), 41), "MergeThis of another log": (say.merge_this(log=8), 41), "Prune": (say.prune(1), 41), "Prune above": (say.prune(9), 41),
    "Streams": (say.status(), "streams"), "AskLatest": (say.latest(say.get(1, 5)), 41), "Page": (say.page(1, 1, 0, 9, 1), 41), "Whole": (say.whole(0, 0), 41), "More": (say.more(), 47),
    "Hold": (say.hold(1), 41), "Release": (say.release(1), 44), "Await": (say.wait(1, 0), 41), "Await above": (say.wait(9, 1_000), 41),
    "JoinParts": (say.join_parts(), 41), "MergeParts": (say.merge_parts(), 41), "JoinParts of more": (say.join_parts(count=1), 8), "AddPart": (say.add([(1, 5, 1, (9, b"A"), None)]), "added"),
    "AddPart that doesn't rise": (say.add([(1, 5, 1, (9, b"A"), None)]), 7), "MergeParts of one": (say.merge_parts(count=1), 41)}


def what_a_failed_node_answers():
    """A node that failed answers 41, but for Streams, and for what is refused or taken before a copy is looked at; also to who began before it failed. A malformed
    request, and a change of who only reads, end their links."""
    read_port = free_port()
    with OwnNode("--no-guard", "--read-port", read_port, "--read-links", 1) as node, contextlib.ExitStack() as stack:
        link, waiting, sent, pinned, adding = (stack.enter_context(node.link()) for _ in range(5))
        pairs = [("items", link.ask(say.items(E1, E2, E3, say.mark(1, 3, 3))), ("done", 2)), ("a part", sent.ask(say.whole(0, 60))[0], "part"), ("a pin", pinned.ask(say.hold(3)), ("held", 1, 3)),
                 ("an added part", adding.ask(say.add([(1, 5, 1, (9, b"A"), None)])), ("added", 1))]
        waiting.send(say.wait(9, 600_000))
        pairs.append(("the conflict", told_of(link.ask(OTHER_ROW)), 23))
        for name, (request, wanted) in OF_FAILED.items():
            pairs.append((name, told_of(link.ask(request)), wanted))
        pairs += [("an Await under way", told_of(waiting.reply()), 41), ("More of what was begun", told_of(sent.ask(say.more())), "last part"), ("Release of its own", told_of(pinned.ask(say.release(1))), 41),
                  ("JoinParts of what was added", told_of(adding.ask(say.join_parts(count=1))), 41)]
        streams, malformed, reader = link.ask(say.status())[1], adding, stack.enter_context(node.link(read_port))
        pairs += [("a malformed request", told_of(malformed.ask(say.framed(b"\1\xff"))), 4), ("its end", malformed.reply(), None), ("Streams of a reader", told_of(reader.ask(say.status())), "streams"),
                  ("Ask of a reader", told_of(reader.ask(GET)), 41), ("Prune of a reader", told_of(reader.ask(say.prune(1))), 4), ("the reader's end", reader.reply(), None)]
        pairs.append(("what Streams says", (streams.damaged, streams.readable, streams.least_hold), (True, 3, 3)))
    report("what a node that failed answers", differ(pairs), f"{len(OF_FAILED)} requests")


CHECKS = ((unread_snapshots, 16), (unread_snapshots, 60), (lengths_of_readers,), (half_frames,), (changes_beside_snapshots, 16), (changes_beside_snapshots, 63), (ends_with_pins,), (trickles,),
          (flooded_without_files,), (a_full_node,), (what_a_failed_node_answers,))


def main():
    start = time.monotonic()
    if is_built(PROGRAM):
        print(f"memory is limited by {kind_of_bound()}: {megabytes(MOST_MEMORY)}")
        for check, *words in CHECKS:
            if not sys.argv[1:] or check.__name__ in sys.argv[1:]:
                guarded(check, *words)
    print(f"bad peers: {time.monotonic() - start:.1f} s")
    return ended()


if __name__ == "__main__":
    sys.exit(main())
