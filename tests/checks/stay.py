#!/usr/bin/env python3
"""Checks of `bin/hkrep node`: places that are given back, links that only read, limits of time, and peers that mean ill.

Prints a line for each check and ends with 'N passed, M failed'. Standard library only."""
import datetime
import fcntl
import os
import pathlib
import re
import resource
import signal
import socket
import struct
import subprocess
import sys
import threading
import time

sys.path.append(str(pathlib.Path(__file__).resolve().parents[1] / "lib"))
import messages as say
from checks import differ, ended, free_port, guarded, is_built, report
from messages import E1, TOO_LONG
from staying import PROGRAM, OwnNode, Staying, is_silent, said

PUSHED = say.items(E1, say.mark(1, 1, 1))
GET = say.ask(1, say.get(1, 5))
ROW = ("row", (9, b"\x41"))
# How many connects of each kind.
BAD_PEERS = 2_500
# The last of them, beside which memory is looked at.
MEASURED = 500
# How much it may grow beside these: nothing of note; the program of `make quick`, whose checks of memory keep what was freed for a while, more.
MOST_GROWN = {False: 1 << 20, True: 4 << 20}


def places_are_given_back():
    """Of two places, a hundred links; a third waits until one of two ends; what was pushed stays."""
    with Staying(2) as node:
        pairs = []
        for at in range(100):
            with node.link() as link:
                pairs.append((f"link {at}", link.ask(say.front()), ("front", 0, 0)))
        pairs.append(("their ends", [node.line() for _ in range(100)], ["ended 0"] * 100))
        with node.link() as first:
            pairs.append(("a push", first.ask(PUSHED), ("done", 2)))
            with node.link() as second:
                pairs.append(("the second link", second.ask(GET), ROW))
                with node.link() as third:
                    third.send(GET)
                    pairs.append(("a link beyond the places waits", is_silent(third), True))
                    second.close()
                    pairs += [("the end of the second", node.line(), "ended 0"), ("the third", third.reply(), ROW)]
        pairs += [("two ends", [node.line(), node.line()], ["ended 0"] * 2), ("it runs on", node.child.poll(), None)]
        with node.link() as link:
            pairs.append(("a link after all", link.ask(GET), ROW))
        report("places are given back", differ(pairs))


def quiet(node, stop, problems):
    """Asks over one link until it is told to stop."""
    with node.link() as link:
        while not stop.is_set():
            told = link.ask(GET)
            if told != ROW:
                problems.append(told)
                return


def hurt(port, kind):
    """Opens a link and leaves it in a bad way."""
    with socket.create_connection(("127.0.0.1", port), timeout=30) as it:
        if kind == "half a frame":
            it.sendall(b"\0\0\0\x10\x01")
        if kind == "another protocol":
            it.sendall(b"GET / HTTP/1.1\r\nHost: node\r\n\r\n")
        if kind == "a reset":
            it.setsockopt(socket.SOL_SOCKET, socket.SO_LINGER, struct.pack("ii", 1, 0))


ENDS = {"nothing": {"ended 0"}, "half a frame": {"ended 1", "ended 92"}, "another protocol": {"ended 2", "ended 91", "ended 92"},
        "a reset": {"ended 0", "ended 91"}}


def hurt_often(node, count):
    """So many bad peers of each kind, one after the other; what is wrong with how they ended."""
    problems = []
    for kind, ends in ENDS.items():
        for _ in range(count):
            hurt(node.port, kind)
        told = {node.line() for _ in range(count)}
        if not told <= ends:
            problems.append(f"{kind}: {sorted(map(str, told))}")
    return problems


def is_unproved():
    return "unproved" in subprocess.run([str(PROGRAM), "--version"], capture_output=True, text=True, check=False).stdout


def ten_thousand_connects():
    """Ten thousand connects that say nothing, half a frame, another protocol's bytes, or reset: another link is answered beside most
    of them, and after them memory doesn't grow any more."""
    with Staying(5) as node:
        problems, stop = [], threading.Event()
        with node.link() as link:
            problems += differ([("a push", link.ask(PUSHED), ("done", 2))])
        problems += differ([("its end", node.line(), "ended 0")])
        asking = threading.Thread(target=quiet, args=(node, stop, problems))
        asking.start()
        problems += hurt_often(node, BAD_PEERS - MEASURED)
        stop.set()
        asking.join(30)
        problems += differ([("the end of the link beside them", node.line(), "ended 0")])
        before = node.memory()
        problems += hurt_often(node, MEASURED)
        grown = node.memory() - before
        if grown > MOST_GROWN[is_unproved()]:
            problems.append(f"memory grew by {grown} bytes")
        with node.link() as link:
            problems += differ([("a link after all", link.ask(GET), ROW)])
        report("ten thousand connects of bad peers", problems)


def ends_soon_after_a_fault():
    """A peer that goes on sending after its fault, a byte at a time or as much as it can, has two seconds."""
    problems = []
    with Staying(1) as node:
        for name, piece, pause in (("a byte at a time", b"\0", 0.004), ("as much as it can", bytes(65_536), 0)):
            with node.link() as link:
                link.send(TOO_LONG)
                problems += differ([(name, link.reply()[:2], ("refused", 2))])
                start = time.monotonic()
                while time.monotonic() < start + 10 and node.lines.empty():
                    try:
                        link.send(piece)
                    except OSError:
                        break
                    time.sleep(pause)
                problems += differ([(f"the end of {name}", node.line(), "ended 2")])
                took = time.monotonic() - start
                # two seconds on an idle machine; the gate's is none
                if took > 4:
                    problems.append(f"{name}: {took:.1f} s")
    report("a link ends soon after its fault", problems)


def limits_of_time():
    """With a limit of a second, a link ends that is silent inside a frame or trickles; one that is silent between frames stays."""
    with Staying(3, "--read-seconds", "1") as node:
        with node.link() as silent, node.link() as half, node.link() as trickling:
            pairs = [("a link", silent.ask(say.front()), ("front", 0, 0))]
            half.send(say.front()[:5])
            pairs += [("a silent half of a frame", node.line(), "ended 91"), ("its last", half.reply(), None)]
            trickling.send(struct.pack(">I", 1_000) + b"\1\x10")
            start = time.monotonic()
            while time.monotonic() < start + 20 and node.lines.empty():
                try:
                    trickling.send(b"\0")
                except OSError:
                    break
                time.sleep(0.02)
            pairs += [("a trickle", node.line(), "ended 91")]
            time.sleep(max(0, 2.5 - (time.monotonic() - start)))
            pairs += [("a link that was silent", silent.ask(say.front()), ("front", 0, 0))]
            silent.socket.sendall(say.front()[:3])
            time.sleep(0.2)
            silent.socket.sendall(say.front()[3:])
            pairs += [("a frame in two pieces", silent.reply(), ("front", 0, 0))]
        report("limits of time", differ(pairs))


CHANGES = {"items": PUSHED, "a join": say.join_this(), "a merge": say.merge_this(), "a prune": say.prune(0)}


def fault_of(change):
    """With which number a change is refused where nothing may change: what asks has at most 64 bytes behind its length."""
    return 2 if int.from_bytes(change[:4], "big") > 64 else 4


def links_that_only_read():
    """Links to the second port ask and do not change: a change is refused, and ends the link."""
    with Staying(1, reading=1) as node, node.link() as link:
        pairs = [("a push", link.ask(PUSHED), ("done", 2))]
        for name, change in CHANGES.items():
            for cut in (len(GET + change + GET), 1):
                with node.link(node.read_port) as reading:
                    text = GET + change + GET
                    for at in range(0, len(text), cut):
                        try:
                            reading.send(text[at:at + cut])
                        except OSError:
                            break
                    pairs += [(f"{name}: an ask before it", reading.reply(), ROW), (name, reading.reply()[:2], ("refused", fault_of(change))), (f"{name}: the end", reading.reply(), None)]
                pairs.append((f"{name}: its line", node.line(), f"ended {fault_of(change)}"))
        with node.link(node.read_port) as reading:
            reading.send(b"\0\0\0\x41")
            pairs += [("a length of 65, and nothing behind it", reading.reply()[:2], ("refused", 2)), ("its end", node.line(), "ended 2")]
        with node.link(node.read_port) as reading:
            pairs += [("front", reading.ask(say.front()), ("front", 0, 1)), ("delta", reading.ask(say.delta(1))[0], "fragment"),
                      ("whole", reading.ask(say.full()), link.ask(say.full())), ("no kind", reading.ask(b"\0\0\0\2\1\xff")[:2], ("refused", 4))]
        pairs += [("an unknown kind", node.line(), "ended 4"), ("nothing changed", link.ask(say.items()), ("done", 3))]
        report("links that only read", differ(pairs))


def links_that_feed():
    """Links to the port for feeders send items and ask, in both versions: each other change is refused with 4, ends the link, and is not made."""
    with Staying(1, reading=1, feeding=1) as node, node.link() as link:
        with node.link(node.feed_port) as feeder:
            pairs = [("items", feeder.ask(PUSHED), ("done", 2)), ("an ask", feeder.ask(GET), ROW), ("its front", feeder.ask(say.front()), ("front", 0, 1)),
                     ("the status", feeder.ask(say.status())[0], "streams"), ("a whole", feeder.ask(say.whole(0, 0))[0], "last part"), ("known items", feeder.ask(say.feed(E1, say.mark(1, 1, 1))), ("fed", 3, 0))]
        pairs.append(("its end", node.line(), "ended 0"))
        changes = {name: change for name, change in CHANGES.items() if name != "items"}
        for name, change in (changes | {"a part": say.add([]), "a hold": say.hold(1), "a release": say.release(1)}).items():
            with node.link(node.feed_port) as feeder:
                feeder.send(GET + change + GET)
                pairs += [(f"{name}: an ask before it", feeder.reply(), ROW), (name, feeder.reply()[:2], ("refused", 4)), (f"{name}: the end", feeder.reply(), None)]
            pairs.append((f"{name}: its line", node.line(), "ended 4"))
        pairs.append(("nothing else changed", link.ask(say.items()), ("done", 4)))
        report("links that feed", differ(pairs))


def no_more_files():
    """Where no file is left an accept is told as failed and tried again, without much work, and links go on; those that fail behind it are told once a second, by their number, until
    for a second none fails."""
    with Staying(4, "--workers", "1") as node:
        with node.link() as first:
            pairs = [("the first", first.ask(say.front()), ("front", 0, 0))]
            # room for one more from now on, which the node couldn't know at its start
            files = len(os.listdir(f"/proc/{node.child.pid}/fd")) + 1
            resource.prlimit(node.child.pid, resource.RLIMIT_NOFILE, (files, files))
            second = node.link()
            pairs.append(("the second", second.ask(say.front()), ("front", 0, 0)))
            with node.link() as third:
                before, start = node.processor(), time.monotonic()
                third.send(say.front())
                pairs.append(("a third waits", is_silent(third, 1), True))
                pairs.append(("it does not spin", node.processor() - before < 50, True))
                heard(node, "not accepted 93 (")
                second.close()
                pairs += [("the end of the second", node.line(), "ended 0"), ("the third after it", third.reply(), ("front", 0, 0))]
                seconds, told = time.monotonic() - start, [line for line in list(node.words) if line.startswith("not accepted 93")]
                more = [bool(re.fullmatch(r"not accepted 93 \([1-9]\d* more\)\n", line)) for line in told]
                pairs += [("the first is told", told[0][:17], "not accepted 93: "), ("and then how many more", more, [False] + [True] * (len(told) - 1)), ("once a second", 2 <= len(told) <= seconds + 2, True)]
            pairs.append(("the end of the third", node.line(), "ended 0"))
            time.sleep(1.5)
            with node.link() as fourth, node.link() as fifth:
                fifth.send(say.front())
                pairs += [("a fourth", fourth.ask(say.front()), ("front", 0, 0)), ("a fifth waits", is_silent(fifth), True)]
    pairs.append(("it is told as a first again", sum(line.startswith("not accepted 93: ") for line in node.words), 2))
    report("a node that stays and can open no further file", differ(pairs))


def signals():
    """A signal ends the process at once: the client sees its link end, and nothing more is printed."""
    problems = []
    for signal_of in (signal.SIGTERM, signal.SIGINT):
        with Staying(1) as node, node.link() as link:
            pairs = [("a push", link.ask(PUSHED), ("done", 2))]
            node.child.send_signal(signal_of)
            try:
                told = link.socket.recv(1)
            except ConnectionResetError:
                told = b""
            pairs += [("the link", told, b""), ("the status", node.child.wait(30), -signal_of), ("nothing more", node.line(), None)]
            problems += [f"{signal_of.name}: {problem}" for problem in differ(pairs)]
    report("a node that a signal ends", problems)


def what_is_told():
    """Links that open and end, faults and refused changes are told on standard error; with -q only what is above 0."""
    all_told = {"": ["link 1: opened", "link 1: refused 20: ", "link 1: ended 0", "link 2: opened", "link 2: ended 2: "], "-q": ["link 1: refused 20: ", "link 2: ended 2: "]}
    problems = []
    for option, told in all_told.items():
        with Staying(1, *option.split()) as node:
            with node.link() as link:
                pairs = [("another log's item", link.ask(say.items(say.mark(1, 0, 0, log=8)))[:2], ("refused", 20))]
            with node.link() as link:
                link.send(TOO_LONG)
                link.read_all()
            ends = ["ended 2"] if option else ["ended 0", "ended 2"]
            pairs.append(("the ends that are told", [node.line() for _ in ends], ends))
            until = time.monotonic() + 10
            while len(node.words) < len(told) and time.monotonic() < until:
                time.sleep(0.01)
        words = [line.removesuffix("\n") for line in node.words]
        pairs += [("how many lines", len(words), len(told))]
        pairs += [("a line", word[:len(start)], start) for word, start in zip(words, told)]
        problems += differ(pairs)
    report("what a node tells on standard error", problems)


def heard(node, start):
    """Waits until a node told something that begins so, for ten seconds at most."""
    until = time.monotonic() + 10
    while not any(line.startswith(start) for line in list(node.words)) and time.monotonic() < until:
        time.sleep(0.01)


def changes_are_told():
    """With -v each change that takes effect is told, and no refused one."""
    told = ["link 1: opened", "link 1: done 2", "link 1: refused 24: ", *(f"link 1: done {at}" for at in (3, 4, 5)), "link 1: ended 0"]
    problems = []
    for options in (["-v"], ["-v", "--no-guard"]):
        with Staying(1, *options) as node:
            with node.link() as link:
                pairs = [("a push", link.ask(PUSHED), ("done", 2)), ("a prune that is refused", link.ask(say.prune(9))[:2], ("refused", 24)), ("a row", link.ask(GET), ROW)]
                pairs += [(f"change {at}", link.ask(change), ("done", at)) for at, change in enumerate((say.items(say.mark(1, 1, 5)), say.prune(1), PUSHED), 3)]
            pairs.append(("its end", node.line(), "ended 0"))
        words = [line.removesuffix("\n") for line in node.words]
        pairs += [("how many lines", len(words), len(told))] + [("a line", word[:len(start)], start) for word, start in zip(words, told)]
        problems += [f"{options}: {problem}" for problem in differ(pairs)]
    report("what is told of changes", problems)


def changes_are_guarded():
    """What contradicts is refused 23 and nothing changed, on each link; with --no-guard the node is damaged."""
    conflicts = say.items(say.entry(2, 2, [(1, 6, 9, b"\x42")]), say.entry(3, 3, ends=[(1, 5, 1)]), say.entry(4, 4, ends=[(1, 5, 1)]))
    other = say.join_this(facts=[(1, 5, 1, (9, b"\x43"), None)])
    with Staying(2) as node, node.link() as link, node.link() as second:
        pairs = [("a push", link.ask(PUSHED), ("done", 2))]
        for name, change in ("items that contradict each other", conflicts), ("a fragment that contradicts", other):
            pairs += [(name, second.ask(change)[:2], ("refused", 23)), (f"after {name}", link.ask(say.front()), ("front", 0, 1))]
        pairs += [("the same items again", second.ask(PUSHED), ("done", 3)), ("a row", link.ask(GET), ROW),
                  ("a mark", link.ask(say.items(say.mark(1, 1, 9))), ("done", 4)), ("an entry for a closed time", second.ask(say.items(say.entry(2, 2, [(1, 6, 9, b"\x42")])))[:2], ("refused", 23)),
                  ("a later entry", second.ask(say.items(say.entry(2, 10, [(1, 6, 9, b"\x42")]))), ("done", 5))]
    with Staying(1, "--no-guard") as node, node.link() as link:
        pairs += [("a push without it", link.ask(PUSHED), ("done", 2)), ("a conflict without it", link.ask(other)[:2], ("refused", 23)), ("the damage", link.ask(GET)[:2], ("refused", 41))]
    report("changes are tested first", differ(pairs))


def heard_in(node, count):
    """The lines on standard error of a node, once there are so many."""
    until = time.monotonic() + 10
    while len(node.words) < count and time.monotonic() < until:
        time.sleep(0.01)
    return list(node.words)


LOGGED = re.compile(r"(\d{4}-\d\d-\d\dT\d\d:\d\d:\d\d\.\d{3}Z) (info|warn|error) (-|127\.0\.0\.1:\d+) (.*)\n")


def what_a_node_logs():
    """`hkrep node` dates what it tells of connections, with how grave it is and the peer's address, on standard error alone; of connections
    of one slot each has its own number and address."""
    peers, wanted = [], []
    before = datetime.datetime.now(datetime.timezone.utc)
    with OwnNode("-v", "--links", 1) as node:
        pairs = [("what it opened", node.opened, f"listening on 127.0.0.1:{node.port} for 1 connections; log 7, streams 1, guarded, chunks {node.opened.split()[-2]} bytes")]
        for at in (1, 2):
            with node.link() as link:
                peers.append("127.0.0.1:%d" % link.socket.getsockname()[1])
                pairs += [("a push", link.ask(PUSHED)[0], "done"), ("another log's item", link.ask(say.items(say.mark(1, 0, 0, log=8)))[:2], ("refused", 20))]
                if at == 2:
                    link.send(TOO_LONG)
                    link.read_all()
            wanted += [("info", peers[-1], f"link {at}: opened"), ("info", peers[-1], f"link {at}: done {at + 1}"),
                       ("warn", peers[-1], f"link {at}: refused 20: "), (("info", peers[-1], f"link {at}: ended 0") if at == 1 else ("warn", peers[-1], f"link {at}: ended 2: "))]
            heard_in(node, len(wanted))
        lines = heard_in(node, len(wanted))
        pairs += [("nothing else on standard output", node.lines.empty(), True), ("how many lines", len(lines), len(wanted))]
    found = [LOGGED.fullmatch(line) for line in lines]
    pairs += [("a line", (it[2], it[3], it[4][:len(want[2])]) if it else line, want) for it, line, want in zip(found, lines, wanted)]
    times = [datetime.datetime.strptime(it[1], "%Y-%m-%dT%H:%M:%S.%f%z") for it in found if it]
    after = datetime.datetime.now(datetime.timezone.utc)
    pairs += [("the times rise", times, sorted(times)), ("they are of now", all(before - datetime.timedelta(seconds=1) < it < after for it in times), True)]
    report("what a node logs of connections", differ(pairs))


# a pipe of the system's least size; so many connections of each way to end go to each of three ports in a round, and so many rounds of a second fill the
# pipe and the 1,024 texts that wait, though ten lines of a kind and a port are told in a second (among those that are dropped are some that count others)
PIPE_BYTES, MANY_LINKS, OF_EACH, ROUNDS = 4_096, 2_000, 11, 9
# how many connections are answered, of each kind of peer, and with which number they end
WAYS = {b"": 0, TOO_LONG: 2, b"\0\0\0\2\3\x10": 3, b"\0\0\0\2\1\xff": 4, b"\0\0\0\2": 1}


def counted(errors):
    """How many lines of a node there are, with those that were dropped or are counted, and how many were dropped."""
    dropped = [int(found[1]) for found in (re.search(r"(\d+) lines were dropped\n", it) for it in errors) if found]
    more = [int(found[1].replace(",", "")) for found in (re.search(r"([\d,]+) more: (?:opened|ended \d+)\n", it) for it in errors) if found]
    return len(errors) - len(dropped) - len(more) + sum(dropped) + sum(more), sum(dropped)


def many_links(port):
    """So many connections one after the other; what they were answered."""
    answers = set()
    for _ in range(MANY_LINKS):
        with say.Link(port, 30) as link:
            answers.add(link.ask(say.front()))
    return answers


def many_ends(ports):
    """Connections that end in each way, at each of the ports, for some seconds; what they were answered that began with a request."""
    answers = set()
    for _ in range(ROUNDS):
        until = time.monotonic() + 1
        for port in ports:
            for bad in [it for it in WAYS for _ in range(OF_EACH)]:
                with say.Link(port, 30) as link:
                    answers.add(link.ask(say.front()))
                    link.send(bad)
        time.sleep(max(0, until - time.monotonic()))
    return answers


def unread(asked, *more):
    """What a node of this many ports tells in all, once nobody read it until the connections were answered: whether they were, its lines, and the seconds that they took."""
    ports = [free_port() for _ in range(3)]
    words = ["node", "--log", "7", "--streams", "1", "--links", "2", "--port", ports[0], *(it for pair in zip(more, ports[1:]) for it in (f"--{pair[0]}-port", pair[1], f"--{pair[0]}-links", 2))]
    with subprocess.Popen([str(PROGRAM), *map(str, words)], stdout=subprocess.PIPE, stderr=subprocess.PIPE, text=True) as node:
        fcntl.fcntl(node.stderr, fcntl.F_SETPIPE_SZ, PIPE_BYTES)
        node.stdout.readline()
        start = time.monotonic()
        answers = asked(ports)
        took, errors = time.monotonic() - start, []
        reader = threading.Thread(target=lambda: errors.extend(said(node.stderr)), daemon=True)
        reader.start()
        # the last lines of a second, and then a fault
        time.sleep(3)
        with say.Link(ports[0], 30) as link:
            link.send(TOO_LONG)
            link.read_all()
        until = time.monotonic() + 10
        while not any("ended 2" in it for it in list(errors)[-3:]) and time.monotonic() < until:
            time.sleep(0.02)
        node.kill()
        reader.join(10)
    return answers, errors, took


def full_pipes():
    """Where nobody reads what a node prints its connections are answered all the same. Of one kind ten lines are told in a second, so of one kind nothing is dropped; of more than
    there is room for it is told, once there is, how many lines were."""
    pairs = []
    for name, asked, others, links in (("one kind", lambda ports: many_links(ports[0]), (), MANY_LINKS), ("many kinds", many_ends, ("feed", "read"), 3 * len(WAYS) * OF_EACH * ROUNDS)):
        answers, errors, took = unread(asked, *others)
        got, dropped = counted(errors)
        pairs += [(f"{name}: the answers", answers, {("front", 0, 0)}), (f"{name}: lines were dropped", dropped > 0, bool(others)), (f"{name}: all lines are counted", got == 2 * links + 2 or bool(others), True),
                  (f"{name}: the last connection has its number", any(f"link {links + 1}: ended 2: " in it for it in errors), True), (f"{name}: in time", took < 60, True)]
    report("where nobody reads what a node prints, connections are answered", differ(pairs))


def bad_node_lines():
    """Options of `hkrep node` whose values are none: each is told by its name."""
    pairs = []
    for words, part in ((["--from", "node"], "invalid value 'node' for '--from <NODE>'"), (["--from", "7420,node:0"], "invalid value 'node:0' for '--from <NODE>'"),
                        (["--from", ",".join(map(str, range(1, 10)))], "invalid value '9' for '--from <NODE>'"), (["--parts-bytes", "0%"], "invalid value '0%' for '--link-bytes <BYTES>'"),
                        (["--link-bytes", "101%"], "for '--link-bytes <BYTES>'"), (["--link-bytes", "x"], "for '--link-bytes <BYTES>'"), (["--address", "::g"], "invalid value '::g' for '--address <A>'"),
                        (["--links", "65536"], "'65536' for '--links <N>'"), (["--read-port", "7421"], "--read-links"), (["--guard"], "--guard"),
                        (["--stay"], "--stay"), (["-q", "-v"], "--verbose"), (["--read-seconds", "+1"], "'+1'"), (["--write-seconds", "86401"], "'86401' for '--write-seconds <N>'"), (["--read-rate", "1048577"], "'1048577' for '--read-rate <BYTES>'"),
                        (["--workers", "0"], "'0' for '--workers <N>'"), (["--workers", "32"], "'32' for '--workers <N>'"), (["--read-socket"], "--read-socket")):
        done = subprocess.run([str(PROGRAM), "node", "--log", "7", "--streams", "1", *words], capture_output=True, text=True, timeout=30, check=False)
        pairs.append((" ".join(words), (done.returncode, done.stdout, part in done.stderr), (2, "", True)))
    report("bad options of a node", differ(pairs))


def what_a_node_opens():
    """By default a node has 64 connections, is guarded, answers version 2, and keeps a share of the memory for chunks; options change each."""
    memory = int(re.search(r"MemTotal: +(\d+) kB", pathlib.Path("/proc/meminfo").read_text())[1]) * 1024
    read, feed = free_port(), free_port()
    with OwnNode() as node, node.link() as link:
        told = re.fullmatch(rf"listening on 127.0.0.1:{node.port} for 64 connections; log 7, streams 1, guarded, chunks (\d+) bytes", node.opened)
        pairs = [("what it opened", bool(told), True), ("its share of the memory", 1 << 28 <= int(told[1]) <= max(memory // 4, 1 << 28), True),
                 ("version 2", link.ask(say.status())[0], "streams"), ("a push", link.ask(PUSHED), ("done", 2)),
                 ("a conflict", link.ask(say.join_this(facts=[(1, 5, 1, (9, b"B"), None)]))[:2], ("refused", 23)), ("a row after it", link.ask(GET), ROW)]
    options = ["--no-guard", "--parts-bytes", 1_000, "--read-port", read, "--read-links", 20, "--feed-port", feed, "--feed-links", 3]
    with OwnNode(*options) as node, node.link() as link, node.link(read) as reading, node.link(feed) as feeding:
        pairs += [("what it opened", node.opened, f"listening on 127.0.0.1:{node.port} for 64 connections, feeding on 127.0.0.1:{feed} for 3, reading on 127.0.0.1:{read} for 20; "
                   "log 7, streams 1, not guarded, chunks 1000 bytes"),
                  ("a feeder", feeding.ask(PUSHED), ("done", 2)), ("a reader", reading.ask(GET), ROW),
                  ("a conflict without a guard", link.ask(say.join_this(facts=[(1, 5, 1, (9, b"B"), None)]))[:2], ("refused", 23)), ("the damage", link.ask(GET)[:2], ("refused", 41))]
    report("what a node opens", differ(pairs))


def addresses_and_bad_lines():
    """An address of its own; options that want others, and numbers out of their ranges."""
    with Staying(1, "--address", "127.0.0.2", address="127.0.0.2") as node, node.link() as link:
        pairs = [("another address", link.ask(say.front()), ("front", 0, 0))]
        try:
            say.Link(node.port).close()
            pairs.append(("127.0.0.1", "listens", "does not listen"))
        except ConnectionRefusedError:
            pass
    plain, further = ["--log", "7", "--streams", "1", "--port", "47999", "--links"], ["--read-port", "47998"]
    serve = (["65"], ["1", "--stay"], ["1", "--address", "127.0.0.1"], ["1", "--read-seconds", "3"], ["1", *further, "--read-links", "1"], ["1", "--workers", "1"], ["1", "--socket", "/tmp/unused"], ["1", "-q"], ["1", "-v"],
             ["1", "--report-changes", "2"])
    node = (["1", *further], ["1", "--read-links", "1"], ["1", "--socket"], ["1", "--address", "node"], ["1", "--read-seconds", "86401"], ["1", "--read-seconds", "+1"], ["1", "-q", "-v"], ["1", "--report-changes", "2"],
            ["1", "--feed-port", "47998"], ["1", "--feed-links", "1"], ["1", *further, "--read-links", "65536"], ["1", "--messages", "2"], ["1", "--stay"])
    for command, lines in (("serve", serve), ("node", node)):
        for words in lines:
            done = subprocess.run([str(PROGRAM), command, *plain, *words], capture_output=True, text=True, timeout=30, check=False)
            pairs.append((f"{command} {' '.join(words)}", (done.returncode, done.stdout), (2, "")))
    for words, told in ((["1", "--address", "localhost"], "'localhost' for '--address <A>': an IP address is wanted"), (["1", "--address", "[::1]"], "'[::1]' for '--address <A>': an IP address"),
                        (["65536"], "'65536' for '--links <N>'")):
        done = subprocess.run([str(PROGRAM), "node", *plain, *words], capture_output=True, text=True, timeout=30, check=False)
        pairs.append((f"what is told of {words}", (done.returncode, done.stdout, told in done.stderr), (2, "", True)))
    with socket.create_server(("127.0.0.1", 0)) as taken:
        port = str(taken.getsockname()[1])
        done = subprocess.run([str(PROGRAM), "node", "--log", "7", "--streams", "1", "--port", port], capture_output=True, text=True, timeout=30, check=False)
        pairs.append(("a port in use", (done.returncode, done.stdout, "refused 93: " in done.stderr), (1, "", True)))
    report("addresses, and bad command lines", differ(pairs))


def main():
    if not is_built(PROGRAM):
        return ended()
    start = time.monotonic()
    for check in (places_are_given_back, ends_soon_after_a_fault, limits_of_time, links_that_only_read, links_that_feed, no_more_files, signals, what_is_told, changes_are_told, changes_are_guarded, what_a_node_opens, what_a_node_logs, full_pipes,
                  bad_node_lines, addresses_and_bad_lines, ten_thousand_connects):
        if sys.argv[1:] and check.__name__ not in sys.argv[1:]:
            continue
        guarded(check)
    print(f"links that come and go: {time.monotonic() - start:.1f} s")
    return ended()


if __name__ == "__main__":
    sys.exit(main())
