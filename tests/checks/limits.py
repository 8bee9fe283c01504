#!/usr/bin/env python3
"""Checks of what a long-running `bin/hkrep` allows its links: how long they may be silent, inside a frame or unread, how slowly a frame may come, how many bytes and pinned times all of
them make it keep, how many files it may open; that a long answer holds up nobody else; and its Unix domain sockets and ports that the system chooses.

Prints a line for each check and ends with 'N passed, M failed'. Standard library only."""
import contextlib
import pathlib
import re
import select
import socket
import stat
import subprocess
import sys
import tempfile
import threading
import time

sys.path.append(str(pathlib.Path(__file__).resolve().parents[1] / "lib"))
import messages as say
from checks import differ, ended, free_port, guarded, is_built, report
from messages import E1
from staying import LIMIT, PROGRAM, OwnNode, Running, Staying, is_silent

PUSHED = say.items(E1, say.mark(1, 1, 1))
GET = say.ask(1, say.get(1, 5))
ROW = ("row", (9, b"\x41"))
LONG = 600_000
# rows that make a full snapshot of 2 MB, more of which than a socket of the system takes
LARGE = say.items(say.entry(1, 1, [(1, key, 9, b"x" * 4_000) for key in range(500)]), say.mark(1, 1, 1))
UNREAD = say.full() * 20


def words_once(node, part):
    """The lines that a node told on standard error, once one has this part, or after a while."""
    until = time.monotonic() + 10
    while not any(part in line for line in list(node.words)) and time.monotonic() < until:
        time.sleep(0.01)
    return list(node.words)


def read_slowly(link, seconds):
    """Reads a million bytes each quarter of a second; gives how many came."""
    came, until = 0, time.monotonic() + seconds
    while time.monotonic() < until:
        before = came
        while came < before + 1_000_000 and (data := link.socket.recv(65_536)):
            came += len(data)
        time.sleep(0.25)
    return came


def unread_replies():
    """With a limit of a second a link ends whose replies nobody takes; one that takes them slowly stays, and without a limit each does."""
    with Staying(4, "--write-seconds", "1") as node, node.link() as link:
        pairs = [("items", link.ask(LARGE), ("done", 2))]
        with node.link() as stuck, node.link() as slow:
            start = time.monotonic()
            stuck.send(UNREAD)
            slow.send(UNREAD)
            pairs += [("who reads slowly", read_slowly(slow, 3) > 3_000_000, True), ("who doesn't", node.line(), "ended 92")]
            pairs += [("within its time", time.monotonic() - start < 10, True), ("the slow one goes on", slow.socket.recv(1) != b"", True), ("and nobody else ended", node.lines.empty(), True)]
        pairs += [("another link", link.ask(say.front()), ("front", 0, 1)), ("it is told", any("link 2: ended 92: " in it for it in words_once(node, "ended 92")), True)]
    with Staying(2, "--write-seconds", "0") as node, node.link() as link, node.link() as stuck:
        pairs += [("items", link.ask(LARGE), ("done", 2))]
        stuck.send(UNREAD)
        time.sleep(2)
        pairs += [("without a limit", node.lines.empty(), True)]
    report("links whose replies nobody takes", differ(pairs))


def small_link(port):
    """A socket of whose replies the system keeps few, in short segments."""
    it = socket.socket()
    it.setsockopt(socket.IPPROTO_TCP, socket.TCP_MAXSEG, 1_000)
    it.setsockopt(socket.SOL_SOCKET, socket.SO_RCVBUF, 4_096)
    it.connect(("127.0.0.1", port))
    return it


def all_of(link, size):
    """So many bytes, or those that come in time."""
    data = b""
    with contextlib.suppress(TimeoutError):
        while len(data) < size and (piece := link.recv(65_536)):
            data += piece
    return data


def silent_links():
    """With a limit of a second a link ends that says nothing between frames; not one that waits, or asks now and then. Without it none does."""
    with Staying(5, "--idle-seconds", "1") as node, Staying(1) as other:
        with node.link() as silent, node.link() as waiting, node.link() as asking, other.link() as free:
            waiting.send(say.wait(9, 3_000))
            pairs, start = [("it speaks first", silent.ask(say.front()), ("front", 0, 0))], time.monotonic()
            for _ in range(6):
                pairs.append(("one that asks", asking.ask(say.front()), ("front", 0, 0)))
                time.sleep(0.4)
            pairs += [("a silent link", node.line(), "ended 91"), ("its last", silent.reply(), None), ("one that waits", waiting.reply(), ("ready", 0, 0)),
                      ("for its time", time.monotonic() - start >= 2.9, True), ("without a limit", free.ask(say.front()), ("front", 0, 0))]
            # a wait isn't silence: it has its second from here on
            time.sleep(0.6)
            pairs.append(("it asks on", waiting.ask(say.front()), ("front", 0, 0)))
        pairs.append(("it is told", any("ended 91: " in it for it in words_once(node, "ended 91")), True))
    report("links that are silent", differ(pairs))


def sent_on(links):
    """Sends each of these links what it has next, if it is open."""
    for link, data in links:
        with contextlib.suppress(OSError):
            link.send(data)


def trickle(listener):
    """Accepts one connection, and answers its request by a frame of which a byte comes each half second."""
    with listener.accept()[0] as link, contextlib.suppress(OSError):
        link.recv(100)
        link.sendall(say.u32(1 << 28) + b"\2\x44")
        while True:
            link.sendall(b"\0")
            time.sleep(0.5)


def slow_sources():
    """A node to begin with which trickles is given up half a minute after its reply began, and the next is asked."""
    good = Staying(2)
    with good, socket.create_server(("127.0.0.1", 0)) as slow, good.link() as link:
        link.ask(LARGE)
        threading.Thread(target=trickle, args=(slow,), daemon=True).start()
        start, port = time.monotonic(), slow.getsockname()[1]
        with Running(["node", "--log", "7", "--streams", "1", "--port", "0", "--read-rate", "100", "--from", f"{port},{good.port}"]) as node:
            pairs = [("it listens", (node.line(90) or "")[:12], "listening on")]
            took = time.monotonic() - start
            words = [it.split(" - ", 1)[1] for it in words_once(node, "readable 1") if " - from " in it]
    pairs += [("not sooner", took > 29, True), ("the first", words[0][:-1] if words else None, f"from 127.0.0.1:{port}: request 1 to the source: refused 91: 127.0.0.1:{port} sends fewer than 100 bytes a second, "
               "for half a minute; name another node, or give --read-rate less"), ("the next", words[1:], [f"from 127.0.0.1:{good.port}: front horizon 0 readable 1\n"])]
    report("a source that trickles", differ(pairs))


def slow_frames():
    """With a rate a link ends half a minute after a frame began of which a byte comes now and then, though it is never silent for long; not one that is quicker, or
    that waited meanwhile, and none where there is no rate."""
    begun = say.u32(8_000_000) + b"\1\x10" + bytes(100)
    with Staying(3, "--read-seconds", "20", "--read-rate", "1024") as node, Staying(1, "--read-seconds", "20", "--read-rate", "0") as other:
        with node.link() as slow, node.link() as quick, node.link() as waiting, other.link() as free:
            start = time.monotonic()
            waiting.send(say.wait(9, 32_000) + say.front()[:5])
            sent_on([(link, begun) for link in (slow, quick, free)])
            while node.lines.empty() and time.monotonic() - start < 120:
                sent_on([(slow, b"\0"), (free, b"\0"), (quick, bytes(20_000))])
                time.sleep(0.5)
            pairs = [("not sooner", time.monotonic() - start > 29, True), ("a frame that trickles", node.line(), "ended 91")]
            while not select.select([waiting], [], [], 0.5)[0] and time.monotonic() - start < 120:
                sent_on([(free, b"\0"), (quick, bytes(20_000))])
            pairs.append(("a wait", waiting.reply(), ("ready", 0, 0)))
            waiting.send(say.front()[5:])
            pairs += [("the frame behind it", waiting.reply(), ("front", 0, 0)), ("a quicker one", is_silent(quick), True), ("one without a rate", is_silent(free), True),
                      ("and nobody else ended", (node.lines.empty(), other.lines.empty()), (True, True)), ("it is told", any("ended 91: " in it for it in words_once(node, "ended 91")), True)]
    report("links whose frames trickle", differ(pairs))


def kept_bytes():
    """What all links make a node keep has one limit, by each name of it: a frame or a reply beyond that ends its link with 90, and no other."""
    pairs = []
    for name in ("--link-bytes", "--parts-bytes"):
        with Staying(5, name, "3000000") as node, node.link() as link:
            pairs += [("items", link.ask(LARGE), ("done", 2))]
            with node.link() as half, node.link() as second:
                half.send(say.u32(8_000_000) + b"\1\x10" + bytes(1_000_000))
                pairs += [("half a frame", link.ask(say.front()), ("front", 0, 1))]
                with contextlib.suppress(OSError):
                    second.send(say.u32(8_000_000) + b"\1\x10" + bytes(6_000_000))
                pairs += [("one beyond it", node.line(), "ended 90"), ("the first stays", (node.lines.empty(), link.ask(say.front())), (True, ("front", 0, 1)))]
            pairs += [("the first's end", node.line(), "ended 1")]
            with node.link() as again:
                again.send(PUSHED[:-1])
                pairs += [("there is room again", link.ask(say.front()), ("front", 0, 1))]
                again.send(PUSHED[-1:])
                pairs += [("for a frame", again.reply()[0], "refused")]
            pairs += [("its end", node.line(), "ended 0"), ("it is told", any("ended 90: " in it for it in words_once(node, "ended 90")), True)]
    report("what all links make a node keep", differ(pairs))


def halves():
    """Where readers have a port or a socket, one half of what all links make a node keep is for them, and the other for all others: who uses up one takes nothing
    of the other. Without one all is for all."""
    words, whole, told = ["--link-bytes", "6000000"], say.whole(0, 1_000), ("refused", 46)
    with tempfile.TemporaryDirectory() as folder, Staying(6, *words, reading=3) as node, OwnNode(*words, "--read-socket", f"{folder}/read") as own, Staying(3, *words) as shared:
        for name, its, reader in (("a port", node, lambda: node.link(node.read_port)), ("a socket", own, lambda: At(f"{folder}/read"))):
            with its.link() as link, its.link() as other, reader() as first, reader() as second, reader() as third:
                pairs = [("items", link.ask(LARGE), ("done", 2)), ("a reader's snapshot", first.ask(whole)[0], "part"), ("one more", second.ask(whole)[:2], told), ("a feeder's frame", link.ask(LARGE), ("done", 3))]
                third.send(UNREAD)
                pairs += [("a reader's long replies", {third.reply() for _ in range(20)}, {("refused", 90, 0, 0)}), ("a feeder's frame then", link.ask(LARGE), ("done", 4)), ("the snapshot goes on", first.ask(say.more())[0], "part"),
                          ("another's snapshot", link.ask(whole)[0], "part"), ("one more of others", other.ask(whole)[:2], told), ("a reader's next one", first.ask(whole)[0], "part")]
            report(f"halves of what links make a node keep, with {name} for readers", differ(pairs))
        with shared.link() as link, shared.link() as second, shared.link() as third:
            pairs = [("items", link.ask(LARGE), ("done", 2)), *((f"snapshot {count}", it.ask(whole)[:len(wanted)], wanted) for count, (it, wanted) in enumerate(((link, ("part",)), (second, ("part",)), (third, told)), 1))]
        report("all of it without readers' ports", differ(pairs))


def unread_bytes():
    """A peer that never reads is read no further once its replies are many; the node's memory stays small, and all replies come at last."""
    with Staying(3) as node, node.link() as link:
        pairs, front = [("a push", link.ask(PUSHED), ("done", 2))], say.front()
        with node.link() as stuck:
            before, sent = node.memory(), 0
            stuck.socket.settimeout(0.5)
            with contextlib.suppress(TimeoutError):
                while sent < 100_000_000:
                    sent += stuck.socket.send((front * 10_000)[sent % len(front):])
            stuck.socket.settimeout(LIMIT)
            pairs += [("it is read no further", sent < 100_000_000, True), ("memory", node.memory() - before < 4 << 20, True), ("another link", link.ask(GET), ROW)]
            before = node.processor()
            time.sleep(0.5)
            pairs.append(("it does not spin", node.processor() - before < 25, True))
            # the rest of the last request, so that the replies end
            replies = sent // len(front)
            one = say.spelled(say.fields_of_front(0, 1))
            got = stuck.read(replies * len(one))
            pairs.append(("all replies", got == replies * one, True))
    report("a peer that never reads", differ(pairs))


def before_a_wait():
    """What stands before a wait is written while that goes on, once the peer reads again."""
    rows, wanted = [(1, key, 9, b"x" * 1_000) for key in range(100)], len(say.spelled(say.fields_of_one((9, b"x" * 1_000))))
    with Staying(5) as node, node.link() as link:
        pairs = [("items", link.ask(say.items(say.entry(1, 1, rows), say.mark(1, 1, 1))), ("done", 2))]
        for size in (20_000, 60_000, 100_000, 140_000):
            with contextlib.closing(small_link(node.port)) as waiting:
                count = size // wanted
                waiting.sendall(say.ask(1, say.get(1, 5)) * count + say.wait(9, LONG))
                time.sleep(0.3)
                waiting.settimeout(5)
                pairs.append((f"{size} bytes before a wait", len(all_of(waiting, count * wanted)), count * wanted))
    report("replies before a wait", differ(pairs))


def pinned_times():
    """All links pin 65,536 times together; one more is refused, until a link ends that has some."""
    each, full = 1_024, ("refused", 46, 65_536, 0)
    with Staying(70) as node, contextlib.ExitStack() as stack:
        links = [stack.enter_context(node.link()) for _ in range(65)]
        pairs = [("a push", links[0].ask(PUSHED), ("done", 2))]
        for link in links[:64]:
            link.send(say.hold(1) * each)
        for link in links[:64]:
            pairs.append(("its last", [link.reply()[0] for _ in range(each)][-1], "held"))
        pairs.append(("one more", links[64].ask(say.hold(1)), full))
        links[0].close()
        until = time.monotonic() + LIMIT
        while (told := links[64].ask(say.hold(1))) == full and time.monotonic() < until:
            time.sleep(0.01)
        pairs.append(("once a link ended", told[0], "held"))
    report("pinned times of all links", differ(pairs))


def long_answers():
    """Short and long answers of one connection come in the order that was asked, by few workers; and a link that is asked for snapshots again and again, and
    doesn't take them, holds up nobody."""
    pairs, times = [], []
    with Staying(4, "--workers", "1") as node, node.link() as link, node.link() as heavy, node.link() as mixed:
        pairs += [("items", link.ask(LARGE), ("done", 2))]
        mixed.send((say.front() + say.ask(1, say.scan(1, 3, 4)) + say.ask(1, say.count(1)) + say.whole(0, 1_000_000) + say.more() + say.wait(1, 10) + say.front()) * 3)
        pairs.append(("in order", [mixed.reply()[0] for _ in range(21)], ["front", "rows", "number", "part", "part", "ready", "front"] * 3))
        heavy.send(UNREAD)
        for _ in range(200):
            start = time.monotonic()
            pairs.append(("another link", link.ask(say.ask(1, say.count(1))), ("number", 500)))
            times.append(time.monotonic() - start)
        pairs.append(("soon", sorted(times)[100] < 0.05, True))
    for workers in (0, 32):
        done = subprocess.run([str(PROGRAM), "node", "--log", "7", "--streams", "1", "--workers", str(workers)], capture_output=True, text=True, timeout=LIMIT, check=False)
        pairs.append((f"{workers} workers", (done.returncode, "--workers" in done.stderr), (2, True)))
    report("long answers beside short ones", differ(pairs))


class At:
    """A link over a Unix domain socket."""

    def __new__(cls, path):
        link = say.Link.__new__(say.Link)
        link.socket = socket.socket(socket.AF_UNIX)
        link.socket.settimeout(LIMIT)
        link.socket.connect(path)
        return link


def ran(*words):
    done = subprocess.run([str(PROGRAM), *map(str, words)], stdin=subprocess.DEVNULL, capture_output=True, text=True, timeout=LIMIT, check=False)
    return done.stdout, done.returncode


def paths():
    """Unix domain sockets beside the ports of a node: one takes everything, the other changes nothing; both are their owner's alone. A socket that nobody listens on is
    replaced; one that somebody listens on isn't, nor is a file that is no socket."""
    with tempfile.TemporaryDirectory() as folder:
        notes = pathlib.Path(folder) / "notes"
        notes.write_text("kept", encoding="utf-8")
        done = subprocess.run([str(PROGRAM), "node", "--log", "7", "--streams", "1", "--port", "0", "--socket", str(notes)], capture_output=True, text=True, timeout=LIMIT, check=False)
        kept = [("a file that is no socket", (done.returncode, notes.read_text(encoding="utf-8")), (1, "kept"))]
        path, read_path = f"{folder}/node", f"{folder}/read"
        words = ("--socket", path, "--read-socket", read_path, "--read-port", free_port(), "--read-links", 2)
        for turn in range(2):
            with OwnNode(*words) as node, At(path) as link, At(read_path) as reading, node.link() as tcp:
                pairs = [("modes", [stat.S_IMODE(pathlib.Path(it).stat().st_mode) for it in (path, read_path)], [0o600] * 2), ("a push", link.ask(PUSHED), ("done", 2)),
                         ("a reader", reading.ask(GET), ROW), ("over TCP", tcp.ask(GET), ROW), ("a reader's push", reading.ask(PUSHED)[:2], ("refused", 2)),
                         ("a command", ran("front", "--node", f"unix:{path}"), ("front horizon 0 readable 1\n", 0))]
                taken = subprocess.run([str(PROGRAM), "node", "--log", "7", "--streams", "1", "--port", "0", "--socket", path], capture_output=True, text=True, timeout=LIMIT, check=False)
                pairs += [("a path in use", (taken.returncode, f"refused 93: can't listen at {path}: " in taken.stderr), (1, True)), ("and it goes on", link.ask(GET), ROW)]
            if turn == 0 and differ(pairs):
                break
        pairs += [*kept, ("the file stays at the end", pathlib.Path(path).is_socket(), True)]
    report("Unix domain sockets", differ(pairs))


def has_version_6():
    try:
        with socket.create_server(("::1", 0), family=socket.AF_INET6):
            return True
    except OSError:
        return False


def chosen_ports():
    """Port 0: the system chooses one, and the node says which; also at an IPv6 address, where the machine has one."""
    pairs = []
    if has_version_6():
        with Running(["node", "--log", "7", "--streams", "1", "--port", "0", "--address", "::1"]) as node:
            found = re.fullmatch(r"listening on (\[::1\]:\d+) for .*", node.line() or "")
            pairs.append(("an IPv6 address", bool(found) and ran("front", "--node", found[1]), ("front horizon 0 readable 0\n", 0)))
    for words, form in ((["serve", "--links", "2"], r"listening (\d+)"), (["node"], r"listening on 127\.0\.0\.1:(\d+) for .*")):
        with Running([*words, "--log", "7", "--streams", "1", "--port", "0"]) as node:
            found = re.fullmatch(form, node.line() or "")
            pairs.append((f"{words[0]} tells its port", bool(found) and found[1] != "0", True))
            if found:
                with say.Link(int(found[1]), LIMIT) as link:
                    pairs.append(("it answers", link.ask(say.front()), ("front", 0, 0)))
    report("ports that the system chooses", differ(pairs))


def few_files():
    """With room for 64 files a node says how many links it serves at once; the others wait until some have gone, and none is lost."""
    told = r".*\b\d+ of 1000 connections are served at once: .* 64 files; .*'ulimit -n'"
    with Staying(1_000, "--workers", "2", RLIMIT_NOFILE=64) as node:
        pairs = [("it is told at the start", any(re.match(told, it) for it in words_once(node, "ulimit -n")), True)]
        links, answered = [node.link() for _ in range(100)], 0
        for link in links:
            link.send(say.front())
        time.sleep(0.5)
        before, served = node.processor(), len(select.select(links, [], [], 0)[0])
        time.sleep(0.5)
        pairs += [("some are served", 20 <= served < 64, True), ("it does not spin", node.processor() - before < 25, True)]
        while links and (ready := select.select(links, [], [], LIMIT)[0]):
            for link in ready:
                answered += link.reply() == ("front", 0, 0)
                link.close()
                links.remove(link)
        pairs.append(("answered at last", answered, 100))
    report("a node with few files", differ(pairs), f"{served} at once")


def main():
    start = time.monotonic()
    if is_built(PROGRAM):
        # they last longer than all others, which are made meanwhile
        slow = [threading.Thread(target=guarded, args=(check,)) for check in (slow_frames, slow_sources) if not sys.argv[1:] or check.__name__ in sys.argv[1:]]
        for thread in slow:
            thread.start()
        for check in (unread_replies, silent_links, kept_bytes, halves, unread_bytes, before_a_wait, pinned_times, long_answers, paths, chosen_ports, few_files):
            if not sys.argv[1:] or check.__name__ in sys.argv[1:]:
                guarded(check)
        for thread in slow:
            thread.join()
    print(f"what links are allowed: {time.monotonic() - start:.1f} s")
    return ended()


if __name__ == "__main__":
    sys.exit(main())
