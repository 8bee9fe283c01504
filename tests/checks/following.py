#!/usr/bin/env python3
"""Checks of `bin/hkrep node --follow`: nodes that follow others, beside peers that mean ill, are killed, stopped, cut off, or of another log.

    tests/checks/following.py                      a line for each check, and at the end 'N passed, M failed'
    tests/checks/following.py NAME ..              those of these names
    tests/checks/following.py --soak SECONDS SEED  the soak alone, for so long

What a node should hold is what a log puts by the definition (tests/lib/following_nodes.py), not what another node says. Standard library only."""
import contextlib
import functools
import json
import pathlib
import random
import re
import shutil
import signal
import subprocess
import sys
import tempfile
import threading
import time
from concurrent.futures import ThreadPoolExecutor

sys.path.append(str(pathlib.Path(__file__).resolve().parents[1] / "lib"))
import messages as say
from checks import differ, ended, free_port, is_built, report, skip
from following_nodes import (LIMIT, TIMES, Fake, Node, Pretended, SocketLink, Story, Wires, answers_in_version_1, closes_in_a_chunk, hangs, heard,
                             in_chunks, means_nothing, never_brings, never_ends, says_more, soaked, trickles)
from staying import PROGRAM, Running

# how many stories are told side by side: most of what one does is to wait
SIDE_BY_SIDE = 4
# for how many seconds it is looked at whether a node rests, and how many hundredths of a second of the processor it may take meanwhile
RESTING, MOST_WORK = 3, 5
# how many lines on one that comes and goes are few, meanwhile
FEW = 20
# up to which change a log and one that forks from it are one
FORK = 1_500
# how many nodes begin beside a feed
STARTS = 24
# how many changes are timed from one node to the next
HOPS = 200
# for how many seconds a tree is soaked
SOAK = 20
FOLDER = pathlib.Path(tempfile.mkdtemp(prefix="following"))
UP, AWAY, OTHER = "info up", "warn away", "error another log: refused 23"


def fed(node, story, first, last):
    with node.link() as link:
        story.feed(link, first, last)


def goes_on(name, node, story, last, horizon=0):
    """That a node comes to a change of a log, and has all up to it."""
    return [(f"{name}: it comes to change {last}", node.reaches(story.time(last)), True), (f"{name}: all that it has", node.whole(), story.whole(last, horizon))]


def rests(name, *nodes):
    """That nodes take no operation and nearly no processor for some seconds."""
    before = [(node.streams().operations, node.processor()) for node in nodes]
    time.sleep(RESTING)
    after = [(node.streams().operations, node.processor()) for node in nodes]
    pairs = [(f"{name}: operations of node {at}", now[0], then[0]) for at, (then, now) in enumerate(zip(before, after), 1)]
    return pairs + [(f"{name}: node {at} rests", max(now[1] - then[1], MOST_WORK), MOST_WORK) for at, (then, now) in enumerate(zip(before, after), 1)]


# ---------------------------------------------------------------- command lines

BAD_LINES = (
    (["node", "--follow", "7421", "--no-guard"], "--no-guard"), (["serve", "--links", "1", "--follow", "7421"], "--follow"),
    (["node", "--follow", "1,2,3,4,5,6,7,8,9"], "up to 8 nodes"), (["node", "--follow", "1,2,3,4", "--follow", "5,6,7,8,9"], "up to 8 nodes"),
    (["node", "--follow", "0"], "'0'"), (["node", "--follow", "here"], "'here'"), (["node", "--follow", "7421,far:65536"], "'far:65536'"),
    (["node", "--follow", "unix:"], "'unix:'"), (["node", "--follow", "7421,7422,7423", "--workers", "31"], "64 seats"),
    (["node", "--follow", "1,2,3,4,5", "--workers", "30"], "64 seats"), (["node", "--follow-prunes", "no"], "--follow"),
    (["node", "--follow", "7421", "--follow-prunes", "maybe"], "'maybe'"), (["node", "--follow"], "--follow"))


def bad_command_lines():
    """A command line that can't be is told with what is wrong in it, and nothing is opened."""
    pairs = []
    for (command, *words), why in BAD_LINES:
        line = [str(PROGRAM), command, "--log", "7", "--streams", "4", "--port", str(free_port()), *words]
        done = subprocess.run(line, capture_output=True, text=True, timeout=LIMIT, check=False)
        pairs.append((" ".join([command, *words]), (done.returncode, done.stdout, why in done.stderr), (2, "", True)))
    with Node(workers=28, follows=range(1, 9)) as node:
        pairs.append(("as many as there are seats", node.child.poll(), None))
    return "command lines that can't be", differ(pairs)


# ---------------------------------------------------------------- one upstream

def one_upstream():
    """A node begins with what another has, and goes on with it; an empty one goes on once the other has something."""
    story, pairs = Story(), []
    with Node() as empty, Node(follows=[empty.port]) as first, Node() as up:
        pairs += [("of an empty one it has nothing", first.front(), (0, 0))]
        fed(up, story, 1, 200)
        with Node(follows=[up.port]) as node:
            pairs += [("it listens with what the other has", node.front(), (0, story.time(200)))]
            for last in range(220, 401, 20):
                fed(up, story, last - 19, last)
                pairs.append((f"change {last}", node.reaches(story.time(last)), True))
            pairs += goes_on("at last", node, story, 400)
            pairs += [(f"rows at {at}", node.rows(story.time(at)), story.rows(at)) for at in (1, 49, 200, 390)]
            pairs.append(("its lines", node.standings(up.port), [UP]))
        fed(empty, story, 1, 100)
        pairs += [*goes_on("of one that was empty", first, story, 100), ("its lines", first.standings(empty.port), [UP])]
    return "one node that is followed", differ(pairs)


def comes_back_empty():
    """One that comes back with nothing, and is fed anew, is followed again once it has more."""
    story = Story()
    with Node() as up, Node(follows=[up.port]) as node:
        fed(up, story, 1, 200)
        pairs = goes_on("at first", node, story, 200)
        up.has_ended()
        with Node(port=up.port) as again:
            pairs.append(("it is up again", heard(lambda: node.standings(up.port) == [UP, AWAY, UP]), True))
            fed(again, story, 1, 150)
            pairs.append(("nothing is lost", node.whole(), story.whole(200)))
            fed(again, story, 151, 250)
            pairs += [*goes_on("anew", node, story, 250), ("its lines", node.standings(up.port), [UP, AWAY, UP])]
    return "one that comes back with nothing", differ(pairs)


def its_places():
    """A node is followed over its port for readers, and over its sockets."""
    story, pairs, read_port, path, reading = Story(), [], free_port(), FOLDER / "node.sock", FOLDER / "read.sock"
    options = ("--read-port", read_port, "--read-links", 4, "--socket", path, "--read-socket", reading)
    with Node(*options) as up, contextlib.ExitStack() as stack:
        fed(up, story, 1, 100)
        places = (read_port, f"127.0.0.1:{up.port}", f"localhost:{up.port}", f"unix:{path}", f"unix:{reading}")
        nodes = {place: stack.enter_context(Node(follows=[place])) for place in places}
        fed(up, story, 101, 150)
        for place, node in nodes.items():
            pairs += [*goes_on(str(place).replace(str(FOLDER), ""), node, story, 150), ("its lines", node.standings(place), [UP])]
    return "a port for readers, a host, and sockets", differ(pairs)


def no_free_slot():
    """Where all connections of the other are taken a node waits until one is free."""
    story = Story()
    with Node(links=1) as up, up.link() as link:
        story.feed(link, 1, 50)
        with Node(follows=[up.port]) as node:
            pairs = [("it is away", node.told(up.port, "warn", "away: "), True), ("it has nothing", node.front(), (0, 0))]
            story.feed(link, 51, 100)
            link.close()
            pairs += [("once one is free", node.reaches(story.time(100)), True), ("it has all", node.whole(), story.whole(100)), ("its lines", node.standings(up.port), [AWAY, UP])]
    return "no free connection of the other", differ(pairs)


def begun_beside_a_feed():
    """Nodes that begin while a log comes to those that they follow: a line on each of these, and no more."""
    story, pairs, made, stop = Story(), [], [0], threading.Event()
    with contextlib.ExitStack() as stack:
        ups = [stack.enter_context(Node()) for _ in range(3)]
        links = [stack.enter_context(it.link()) for it in ups]

        def feed():
            while not stop.is_set():
                for link in links:
                    story.feed(link, made[0] + 1, made[0] + 4)
                made[0] += 4
        feeding = threading.Thread(target=feed)
        feeding.start()
        try:
            for _ in range(STARTS):
                with Node(follows=[it.port for it in ups]) as node:
                    heard(lambda: all(node.standings(it.port) for it in ups))
                    pairs += [("it goes on", node.reaches(story.time(made[0])), True), ("its lines", [node.standings(it.port) for it in ups], [[UP]] * 3)]
        finally:
            stop.set()
            feeding.join(LIMIT)
    return "nodes that begin beside a feed", differ(pairs)


def json_lines():
    """With --log-format json each line is an object that says which node it is about."""
    story, away = Story(), free_port()
    with Node() as up:
        fed(up, story, 1, 50)
        with Node("--log-format", "json", follows=[away, up.port]) as node:
            pairs = [("it comes", node.reaches(story.time(50)), True)]
            up.has_ended()
            found = heard(lambda: [it for it in map(json.loads, list(node.words)) if it.get("event") == "follow"][2:])
        lines = [it for it in map(json.loads, node.words) if it.get("event") == "follow"]
        told = [(it["source"], it["level"]) for it in lines]
        pairs += [("a third line", bool(found), True), ("whom they are about", sorted(told), sorted([(f"127.0.0.1:{away}", "warn"), (f"127.0.0.1:{up.port}", "info"), (f"127.0.0.1:{up.port}", "warn")]))]
    return "lines in JSON", differ(pairs)


# ---------------------------------------------------------------- what is pruned

def saved(node, name):
    """The file with what a node has."""
    file = FOLDER / name
    done = subprocess.run([str(PROGRAM), "save", "--port", str(node.port), "--out", str(file)], capture_output=True, timeout=LIMIT, check=False)
    assert done.returncode == 0, done.stderr
    return file


def pruned_ahead():
    """What was pruned beyond all that a node has comes as a full snapshot; and a prune comes with the next change."""
    story, pairs = Story(), []
    with Node() as up:
        fed(up, story, 1, 100)
        file = saved(up, "ahead.save")
        fed(up, story, 101, 400)
        pairs.append(("the prune", up.prune(story.time(350)), "done"))
        with Node(follows=[up.port]) as empty, Node("--load", file, follows=[up.port]) as behind:
            for name, node in (("one that has nothing", empty), ("one that is behind", behind)):
                pairs += [*goes_on(name, node, story, 400, 350), (f"{name}: its lines", node.standings(up.port), [UP])]
            pairs.append(("another prune", up.prune(story.time(390)), "done"))
            fed(up, story, 401, 410)
            for name, node in (("one that had nothing", empty), ("one that was behind", behind)):
                pairs += goes_on(name, node, story, 410, 390)
    return "an upstream that was pruned ahead", differ(pairs)


def pinned():
    """A prune of the other beyond a pin doesn't stop a node, and is made once the pin is gone."""
    story = Story()
    with Node() as up, Node(follows=[up.port]) as node:
        fed(up, story, 1, 300)
        pairs = goes_on("at first", node, story, 300)
        with node.link() as link:
            pairs += [("the pin", link.ask(say.hold(story.time(200)))[0], "held"), ("the prune", up.prune(story.time(290)), "done")]
            for last in (310, 320):
                fed(up, story, last - 9, last)
                pairs += [*goes_on("with a pin", node, story, last), ("the rows at the pin", node.rows(story.time(200)), story.rows(200))]
            pairs.append(("the pin's time", node.streams().least_hold, story.time(200)))
        pairs.append(("without a pin", heard(lambda: node.streams().least_hold is None), True))
        fed(up, story, 321, 330)
        pairs += [*goes_on("without a pin", node, story, 330, 290), ("its lines", node.standings(up.port), [UP])]
    return "a pin before what the other prunes", differ(pairs)


def pinned_anew():
    """With a pin a node also goes on by another one, which was pruned beyond the pin before it was there."""
    story, port = Story(), free_port()
    with Node() as up, Node(follows=[up.port, port]) as node, node.link() as link:
        fed(up, story, 1, 300)
        pairs = [*goes_on("at first", node, story, 300), ("the pin", link.ask(say.hold(story.time(200)))[0], "held"), ("the prune", up.prune(story.time(290)), "done")]
        fed(up, story, 301, 310)
        pairs += goes_on("with a pin", node, story, 310)
        file = saved(up, "anew.save")
        up.has_ended()
        with Node("--load", file, port=port) as late:
            fed(late, story, 311, 320)
            pairs += [*goes_on("by another", node, story, 320), ("the rows at the pin", node.rows(story.time(200)), story.rows(200))]
            link.close()
            heard(lambda: node.streams().least_hold is None)
            fed(late, story, 321, 330)
            pairs += goes_on("without the pin", node, story, 330, 290)
    return "a pin, and another that was pruned beyond it", differ(pairs)


def kept_out():
    """A full snapshot that would end times which a pin holds isn't taken, which is told once; others are followed on, and without the pin it is."""
    story, port = Story(), free_port()
    with Node() as up, Node(follows=[up.port, port]) as node, Node() as far:
        fed(far, story, 1, 400)
        fed(up, story, 1, 100)
        pairs = [("the prune", far.prune(story.time(350)), "done"), *goes_on("at first", node, story, 100)]
        file = saved(far, "kept.save")
        with node.link() as link:
            pairs += [("the pin", link.ask(say.hold(story.time(50)))[0], "held")]
            with Node("--load", file, port=port):
                pairs.append(("a line", node.told(port, "warn", f"kept out: it has times from {story.time(350)} on alone, and those from 0 on are kept here"), True))
                fed(up, story, 101, 200)
                pairs += [*goes_on("by another", node, story, 200), ("the rows at the pin", node.rows(story.time(50)), story.rows(50))]
                time.sleep(2.5)
                pairs += [("one line", node.standings(port), [AWAY, "warn kept out"]), ("it stays", node.whole(), story.whole(200))]
                link.close()
                pairs += [*goes_on("without the pin", node, story, 400, 350), ("its lines", node.standings(port), [AWAY, "warn kept out", UP])]
    return "a full snapshot that is kept out", differ(pairs)


def archive():
    """A node that doesn't prune what others do has all of a log, at each time, where that it follows is pruned again and again; also after an
    outage, from a file of its own."""
    story, no = Story(keys=20), ("--follow-prunes", "no")
    with Node() as root:
        with Node(*no, follows=[root.port]) as leaf:
            pairs = []
            for last in range(40, 401, 40):
                fed(root, story, last - 39, last)
                pairs += goes_on("with the root", leaf, story, last)
                root.prune(story.time(last - 10))
            file = saved(leaf, "archive.save")
        fed(root, story, 401, 440)
        pairs.append(("the root is pruned", root.prune(story.time(400)), "done"))
        with Node("--load", file, *no, follows=[root.port]) as leaf:
            pairs += goes_on("after an outage", leaf, story, 440)
            pairs += [(f"the rows at {at}", leaf.rows(story.time(at)), story.rows(at)) for at in (10, 200, 395, 440)]
            pairs.append(("its lines", leaf.standings(root.port), [UP]))
        fed(root, story, 441, 480)
        pairs.append(("the root is pruned beyond what the file has", root.prune(story.time(460)), "done"))
        with Node() as other, Node("--load", file, *no, follows=[root.port, other.port]) as leaf:
            pairs.append(("a line", leaf.told(root.port, "warn", f"kept out: it has times from {story.time(460)} on alone, and those from 0 on are kept here"), True))
            fed(other, story, 1, 470)
            pairs += goes_on("by another", leaf, story, 470)
            pairs += goes_on("and by the root again", leaf, story, 480)
    return "a leaf that keeps all under a root that is pruned", differ(pairs)


# ---------------------------------------------------------------- another log

def version_told(node, place):
    """The key and the time at which a line says that the node of a place has another log, or None."""
    words = "".join(words for _, source, words in node.followed if source == f"127.0.0.1:{place}")
    found = re.search("another log: refused 23: table 1 key ([0-9]+) at time ([0-9]+) is another there; nothing of it is taken", words)
    return found and tuple(map(int, found.groups()))


def versions(story, first, last):
    return {(at % story.keys, story.time(at)) for at in range(first, last + 1)}


def another_log_at_once(kind):
    """One that has another log under the same id from the beginning: nothing of it is taken, and it is taken again once it has the right one."""
    story, other, port = Story(times=TIMES[kind]), Story(times=TIMES[kind], name=" of another"), free_port()
    with Node() as up, contextlib.ExitStack() as stack:
        fed(up, story, 1, 100)
        wrong = stack.enter_context(Node(port=port))
        fed(wrong, other, 1, 120)
        node = stack.enter_context(Node(follows=[up.port, port]))
        pairs = [("a line", node.told(port, "error", "another log: refused 23: "), True), ("which says where", version_told(node, port) in versions(story, 1, 100), True),
                 ("nothing is taken", node.whole(), story.whole(100))]
        fed(wrong, other, 121, 300)
        fed(up, story, 101, 200)
        pairs += [*goes_on("by the right one", node, story, 200), ("its lines", (node.standings(up.port), node.standings(port)), ([UP], [OTHER]))]
        wrong.has_ended()
        right = stack.enter_context(Node(port=port))
        fed(right, story, 1, 300)
        pairs += [*goes_on("once the other has the right log", node, story, 300), ("its lines then", node.standings(port), [OTHER, AWAY, UP])]
    return f"another log at once, with times of {kind}", differ(pairs)


def another_log_later(kind):
    """One whose log forks from that which a node has, and is ahead: what it has behind the fork isn't taken. The fork is among the newest 1,000
    rows and ends, which are compared, and not among all."""
    story, fork = Story(times=TIMES[kind]), Story(times=TIMES[kind], name=" of a fork", fork=FORK)
    with Node() as up, Node() as other, Node(follows=[up.port, other.port]) as node:
        for it in (up, other):
            fed(it, story, 1, FORK)
        pairs = goes_on("before the fork", node, story, FORK)
        heard(lambda: all(node.standings(it.port) for it in (up, other)))
        fed(up, story, FORK + 1, FORK + 40)
        pairs += goes_on("behind the fork", node, story, FORK + 40)
        fed(other, fork, FORK + 1, FORK + 100)
        pairs += [("a line", node.told(other.port, "error", "another log: refused 23: "), True),
                  ("which says where", version_told(node, other.port) in versions(story, FORK + 1, FORK + 40), True), ("nothing is taken", node.whole(), story.whole(FORK + 40))]
        fed(up, story, FORK + 41, FORK + 120)
        pairs += [*goes_on("by the right one", node, story, FORK + 120), ("its lines", (node.standings(up.port), node.standings(other.port)), ([UP], [UP, OTHER]))]
    return f"a fork, with times of {kind}", differ(pairs)


def another_id():
    """One of another log's id, and one of another number of streams: a line each, and nothing is taken."""
    story, foreign = Story(), Story(log=8)
    with Node() as up, Node(log=8) as other, Node(streams=3) as fewer:
        fed(other, foreign, 1, 200)
        with Node(follows=[other.port, fewer.port, up.port]) as node:
            pairs = [("a line on another id", node.told(other.port, "error", "another log: refused 20"), True),
                     ("a line on fewer streams", node.told(fewer.port, "error", "another log: refused "), True), ("nothing is taken", node.front(), (0, 0))]
            fed(up, story, 1, 100)
            fed(other, foreign, 201, 300)
            pairs += [*goes_on("by the right one", node, story, 100), ("how many lines", [len(node.standings(it.port)) for it in (other, fewer, up)], [1, 1, 1])]
    return "nodes of another log's id, and of other streams", differ(pairs)


def failed():
    """One that failed, since it wasn't guarded: nothing more of it is taken, and others are followed on."""
    story = Story()
    with Node("--no-guard") as broken, Node() as up, Node(follows=[broken.port, up.port]) as node:
        for it in (broken, up):
            fed(it, story, 1, 100)
        pairs = goes_on("at first", node, story, 100)
        told = broken.ask(say.join_this(streams=[(25, 100, (), ())] * 4, facts=[(1, 7, 57, (9, b"another"), None)]))
        pairs += [("the conflict", told[:2], ("refused", 23)), ("it has failed", broken.streams().damaged, True)]
        fed(up, story, 101, 200)
        pairs += [*goes_on("by another", node, story, 200), ("the node itself", node.streams().damaged, False)]
        time.sleep(1.5)
        why = [words for _, source, words in node.followed if source == f"127.0.0.1:{broken.port}"][-1]
        pairs += [("its lines", node.standings(broken.port), [UP, AWAY]), ("why", "refused 41: " in why, True)]
    return "one that has failed", differ(pairs)


# ---------------------------------------------------------------- parts of a log, and nodes in a ring

def half_of_the_streams():
    """Of two nodes that have half of the streams each a third has the union."""
    story, pairs = Story(), []
    with Node() as one, Node() as two, Node(follows=[one.port, two.port]) as node, one.link() as first, two.link() as second:
        for last in (40, 80, 120):
            for link, streams in ((first, (1, 2)), (second, (3, 4))):
                own = [story.entry(at) for at in range(last - 39, last + 1) if story.stream(at) in streams]
                assert link.ask(say.feed(*own, *story.marks(last, streams)))[0] == "fed"
            pairs += goes_on("the union", node, story, last)
        pairs.append(("neither is readable", (one.front(), two.front()), ((0, 0), (0, 0))))
    return "two that have half of the streams each", differ(pairs)


def half_of_the_entries():
    """Of two nodes that have a random half of the entries of each stream, and all marks, a third has the union."""
    story, pairs, source = Story(), [], random.Random(11)
    with Node() as one, Node() as two, Node(follows=[one.port, two.port]) as node, one.link() as first, two.link() as second:
        for last in (60, 120, 180):
            sent = {first: [], second: []}
            for at in range(last - 59, last + 1):
                sent[source.choice((first, second))].append(story.entry(at))
            for link, own in sent.items():
                assert link.ask(say.feed(*own, *story.marks(last)))[0] == "fed"
            pairs += goes_on("the union", node, story, last)
    return "two that have a random half of the entries each", differ(pairs)


def in_a_ring():
    """Three nodes that follow each other both ways have what one is fed, and rest then: no operation more."""
    story, ports = Story(), [free_port() for _ in range(3)]
    with contextlib.ExitStack() as stack:
        ring = [stack.enter_context(Node(port=port, follows=[it for it in ports if it != port])) for port in ports]
        pairs = [("all are up", heard(lambda: all(node.standings(port)[-1:] == [UP] for node in ring for port in ports if port != node.port)), True)]
        for last in range(20, 201, 20):
            fed(ring[last // 20 % 3], story, last - 19, last)
            pairs += [(f"change {last}", node.reaches(story.time(last)), True) for node in ring]
        for node in ring:
            pairs += goes_on("a node", node, story, 200)
        # what was on its way between two of them
        time.sleep(1.5)
        pairs += rests("the ring", *ring)
        ring[0].has_ended()
        fed(ring[1], story, 201, 240)
        back = stack.enter_context(Node(port=ports[0], follows=ports[1:]))
        pairs += [*goes_on("one that comes back with nothing", back, story, 240), *goes_on("another", ring[2], story, 240)]
    return "three in a ring", differ(pairs)


def itself():
    """A node that follows itself does nothing by that."""
    story, port = Story(), free_port()
    with Node(port=port, follows=[port]) as node:
        fed(node, story, 1, 100)
        pairs = [*goes_on("fed", node, story, 100), ("it is up", node.told(port, "info", "up"), True)]
        time.sleep(1.5)
        pairs += [*rests("itself", node), ("its lines", node.standings(port), [AWAY, UP])]
    return "a node that follows itself", differ(pairs)


def log_and_upstream():
    """A log may feed a node that follows another one at once."""
    story = Story()
    with Node() as up, Node(follows=[up.port]) as node, up.link() as far, node.link() as near:
        for last in range(5, 501, 5):
            for link in (far, near) if last % 10 else (near, far):
                story.feed(link, last - 4, last)
        pairs = [*goes_on("both", node, story, 500), ("its lines", node.standings(up.port), [UP])]
        story.feed(near, 501, 520)
        pairs.append(("the other one doesn't follow it", up.front(), (0, story.time(500))))
        story.feed(far, 501, 540)
        pairs += goes_on("then", node, story, 540)
    return "a log and another node at once", differ(pairs)


# ---------------------------------------------------------------- nothing comes

def all_retired():
    """Where all streams are retired both rest."""
    story = Story()
    with Node() as up, Node(follows=[up.port]) as node:
        fed(up, story, 1, 100)
        with up.link() as link:
            last = say.feed(*(say.mark(it, story.count(it, 100), 2 ** 62) for it in range(1, 5)))
            pairs = [("the last marks", link.ask(last)[0], "fed"), ("it comes to the last time", node.reaches(2 ** 62), True)]
        pairs += [("the rows", node.rows(2 ** 62), story.rows(100)), *rests("retired", up, node), ("its lines", node.standings(up.port), [UP])]
    return "streams that are retired", differ(pairs)


class Served(Running):
    """A node of `hkrep serve`, which answers a wait at once, where it reads messages of version 2."""

    def __init__(self, *options):
        self.port = free_port()
        super().__init__(["serve", "--log", "7", "--streams", "4", "--port", str(self.port), "--links", "60", *options])
        self.opened = self.line()
        assert self.opened == f"listening {self.port}", self.opened


def served():
    """One of `hkrep serve`, which answers a wait at once: it is asked about once a second."""
    story = Story()
    with Served("--messages", "2") as up:
        fed(up, story, 1, 100)
        with Node(follows=[up.port]) as node:
            pairs = goes_on("at first", node, story, 100)
            time.sleep(1)
            pairs += rests("served", node)
            fed(up, story, 101, 200)
            pairs += [*goes_on("then", node, story, 200), ("its lines", node.standings(up.port), [UP])]
    return "one that answers a wait at once", differ(pairs)


# ---------------------------------------------------------------- peers that are slow, old, or mean ill

def an_old_one():
    """One that reads messages of version 1 alone is away, in one line, and nothing of it is taken."""
    story = Story()
    with Served() as up, up.link() as link:
        assert link.ask(say.items(*story.entries(1, 100), *story.marks(100)))[0] == "done"
        with Node(follows=[up.port]) as node:
            pairs = [("it has nothing", node.front(), (0, 0))]
            time.sleep(RESTING)
            why = [words for _, source, words in node.followed if source == f"127.0.0.1:{up.port}"]
            pairs += [("its lines", node.standings(up.port), [AWAY]), ("why", [" refused 3: " in it for it in why], [True])]
    return "one that reads messages of version 1 alone", differ(pairs)


def too_small():
    """One that has no room to tell all that it has is away, in one line; once less is asked it is up."""
    story = Story(keys=10_000)
    with Node("--link-bytes", 200_000) as up, up.link() as link:
        for last in range(500, 3_001, 500):
            story.feed(link, last - 499, last)
        with Node() as wide, Node(follows=[up.port, wide.port]) as node:
            pairs = [("a line", node.told(up.port, "warn", "away: "), True), ("it has nothing", node.front(), (0, 0))]
            why = [words for _, source, words in node.followed if source == f"127.0.0.1:{up.port}"]
            pairs.append(("why", [" refused 46: " in it for it in why], [True]))
            for last in range(100, 2_901, 100):
                fed(wide, story, last - 99, last)
            pairs += [*goes_on("with most of it", node, story, 3_000), ("its lines", node.standings(up.port), [AWAY, UP])]
    return "--link-bytes of the other that are too few", differ(pairs)


LIES = (hangs, answers_in_version_1, never_brings, closes_in_a_chunk, never_ends, means_nothing, trickles)


def liars():
    """Seven that break off, hang, trickle or send what means nothing: an eighth is followed beside them, and the node rests."""
    story = Story()
    with contextlib.ExitStack() as stack:
        fakes = [stack.enter_context(Fake(Pretended(story, 50, lie))) for lie in LIES]
        up = stack.enter_context(Node())
        fed(up, story, 1, 100)
        node = stack.enter_context(Node(follows=[*(it.port for it in fakes), up.port]))
        pairs = goes_on("at first", node, story, 100)
        before = node.processor()
        for last in range(120, 301, 20):
            fed(up, story, last - 19, last)
            pairs += goes_on("by the eighth", node, story, last)
            time.sleep(RESTING / 10)
        lines = {lie.__name__: node.standings(it.port) for lie, it in zip(LIES, fakes)}
        pairs += [("it works little", max(node.processor() - before, 2 * MOST_WORK), 2 * MOST_WORK), ("a line on the eighth", node.standings(up.port), [UP])]
        pairs += [(f"few lines on one that {name}", len(told) <= FEW, True) for name, told in lines.items()]
        pairs += [(f"the line on one that {lie.__name__}", lines[lie.__name__], [AWAY]) for lie in (closes_in_a_chunk, never_ends, means_nothing)]
    return "seven that mean ill, and one that doesn't", differ(pairs)


def chunks():
    """What has no room in a message comes in chunks."""
    story = Story()
    with Fake(Pretended(story, 100, in_chunks(story, 100))) as up, Node(follows=[up.port]) as node:
        pairs = [*goes_on("chunks", node, story, 100), ("its lines", node.standings(up.port), [UP])]
    return "a full snapshot in chunks", differ(pairs)


def marks_above_rows():
    """One whose marks are above its rows is believed (docs/SECURITY.md): an honest one is refused 23 then, and nothing is joined."""
    story = Story()
    with Fake(Pretended(story, 100, says_more(story, 100))) as liar, Node() as up:
        fed(up, story, 1, 120)
        with Node(follows=[liar.port, up.port]) as node:
            lied = ("fragment", {**story.whole(100)[1], "facts": [it for it in story.whole(100)[1]["facts"] if it[2] <= story.time(50)]})
            pairs = [("what it believes", node.whole(), lied), ("a line on the honest one", node.told(up.port, "error", "another log: refused 23: "), True)]
            pairs += [("which says where", version_told(node, up.port) in versions(story, 51, 100), True), ("nothing is joined", node.whole(), lied), ("it hasn't failed", node.streams().damaged, False)]
    return "marks above the rows", differ(pairs)


def seven_hang():
    """Seven that never answer, and a good one behind them: two seconds for each before it listens, and then it follows that one."""
    story = Story()
    with contextlib.ExitStack() as stack:
        fakes = [stack.enter_context(Fake()) for _ in range(7)]
        up = stack.enter_context(Node())
        fed(up, story, 1, 100)
        node = stack.enter_context(Node(follows=[*(it.port for it in fakes), up.port]))
        pairs = [("it listens with what the eighth has", node.front(), (0, story.time(100)))]
        for last in range(120, 201, 20):
            fed(up, story, last - 19, last)
            pairs += goes_on("by the eighth", node, story, last)
        pairs += [*rests("beside them", node), ("their lines", [node.standings(it.port) for it in (*fakes, up)], [[AWAY]] * 7 + [[UP]])]
    return "seven that hang", differ(pairs)


def givers_lost():
    """That which gives is killed, and the next one is stopped: a third is followed on; those that come back are up again, in a line each."""
    story = Story()
    with contextlib.ExitStack() as stack:
        ups = [stack.enter_context(Node()) for _ in range(3)]
        node = stack.enter_context(Node("--follow", f"{ups[1].port},{ups[2].port}", follows=[ups[0].port]))
        for up in ups:
            fed(up, story, 1, 100)
        pairs = goes_on("by three", node, story, 100)
        heard(lambda: all(node.standings(it.port) for it in ups))
        pairs.append(("all are up", [node.standings(it.port) for it in ups], [[UP]] * 3))
        ups[0].has_ended()
        for last in range(110, 201, 10):
            for up in ups[1:]:
                fed(up, story, last - 9, last)
            pairs += goes_on("without the first", node, story, last)
        ups[1].child.send_signal(signal.SIGSTOP)
        began = time.monotonic()
        for last in range(210, 301, 10):
            fed(ups[2], story, last - 9, last)
            pairs += goes_on("without the second", node, story, last)
        pairs.append(("it doesn't wait for one that is stopped", time.monotonic() - began < 5, True))
        pairs.append(("one that is stopped is away", node.told(ups[1].port, "warn", "away: "), True))
        ups[1].child.send_signal(signal.SIGCONT)
        back = stack.enter_context(Node(port=ups[0].port, follows=[ups[2].port]))
        heard(lambda: all(node.standings(it.port)[-1] == UP for it in ups))
        pairs.append(("those that come back", [node.standings(it.port) for it in ups], [[UP, AWAY, UP], [UP, AWAY, UP], [UP]]))
        ups[2].has_ended()
        fed(back, story, 301, 320)
        pairs += goes_on("by the first again", node, story, 320)
    return "givers that are killed and stopped", differ(pairs)


# ---------------------------------------------------------------- many, and cut links

def a_tree(seconds=SOAK, seed=1):
    """A tree of 13, any of which is killed or stopped: at the end each has what one has that was fed alone."""
    problems, went = soaked(seconds, seed)
    return f"a tree of 13, {went}", problems


def cut_links():
    """Two in network namespaces, whose wires are cut: what is sent is lost, and nobody is told. Where none can be made, None says so."""
    story, sockets = Story(), [FOLDER / f"cut{at}.sock" for at in range(2)]
    with Wires(2) as wires, contextlib.ExitStack() as stack:
        if not wires.is_made():
            return None
        for at, name in enumerate(wires.names):
            stack.enter_context(Node("--socket", sockets[at], port=7420, address=wires.far(at), before=("ip", "netns", "exec", name)))
        links = [stack.enter_context(SocketLink(it)) for it in sockets]
        places = [f"{wires.far(at)}:7420" for at in range(2)]

        def feed(first, last):
            for link in links:
                story.feed(link, first, last)
        feed(1, 100)
        node = stack.enter_context(Node(follows=places))
        pairs = goes_on("at first", node, story, 100)
        pairs.append(("the first is cut", wires.cut(0), True))
        for last in range(120, 201, 20):
            feed(last - 19, last)
            pairs += goes_on("by the second", node, story, last)
        pairs.append(("the second is cut", wires.cut(1), True))
        feed(201, 300)
        time.sleep(2)
        pairs += [("nothing comes", node.whole(), story.whole(200)), ("the second is healed", wires.heal(1), True), *goes_on("by the second again", node, story, 300)]
        pairs += [("the first is healed", wires.heal(0), True), ("the first is up", heard(lambda: node.standings(places[0])[-1:] == [UP]), True)]
        pairs += [("the second is cut again", wires.cut(1), True)]
        feed(301, 320)
        late = stack.enter_context(Node(follows=reversed(places)))
        pairs += [*goes_on("by the first", node, story, 320), *goes_on("one that begins meanwhile", late, story, 320)]
    return "cut links", differ(pairs)


# ---------------------------------------------------------------- how long a change takes

def a_hop():
    """After how many milliseconds a change can be read at a node, and at one that follows it, in the middle of so many for each."""
    story, took = Story(), ([], [])
    with Node() as up, Node(follows=[up.port]) as node, up.link() as feeder, up.link() as near, node.link() as far:
        for last in range(1, 2 * HOPS + 1):
            link = (near, far)[last % 2]
            link.send(say.wait(story.time(last), 1_000))
            time.sleep(0.001)
            feed = say.feed(*story.entries(last, last), *story.marks(last))
            start = time.perf_counter()
            feeder.send(feed)
            assert link.reply()[0] == "ready"
            took[last % 2].append(time.perf_counter() - start)
            assert feeder.reply()[0] == "fed" and node.reaches(story.time(last))
    return [sorted(it)[HOPS // 2] * 1_000 for it in took]


# those that take longest come first
STORIES = (a_tree, seven_hang, givers_lost, cut_links, bad_command_lines, one_upstream, comes_back_empty, its_places, no_free_slot, begun_beside_a_feed, json_lines,
           pruned_ahead, pinned, pinned_anew, kept_out, archive,
           *(functools.partial(story, kind) for kind in TIMES for story in (another_log_at_once, another_log_later)), another_id, failed,
           half_of_the_streams, half_of_the_entries, in_a_ring, itself, log_and_upstream, all_retired, served, an_old_one, too_small,
           liars, chunks, marks_above_rows)


def called(story):
    return getattr(story, "func", story).__name__


def told(story):
    """What a story is called and what is wrong with it, or None where it can't be told; what it raises is a failure of it alone."""
    try:
        return story()
    except Exception as error:  # pylint: disable=broad-except
        trace = error.__traceback__
        while trace.tb_next:
            trace = trace.tb_next
        return called(story), [f"{type(error).__name__}: {error} (line {trace.tb_lineno} of {trace.tb_frame.f_code.co_filename})"]


def main(words):
    if not is_built(PROGRAM):
        return ended()
    chosen = [story for story in STORIES if not words or called(story) in words]
    if words[:1] == ["--soak"]:
        seconds, seed = words[1:]
        chosen = [functools.partial(a_tree, float(seconds), int(seed))]
    start = time.monotonic()
    with ThreadPoolExecutor(SIDE_BY_SIDE) as pool:
        for found in pool.map(told, chosen):
            if found:
                report(*found)
            else:
                skip("no network namespaces can be made: cut links", needed=False)
    shutil.rmtree(FOLDER)
    if not words:
        print("a change can be read after {:.2f} ms at a node, after {:.2f} at one that follows it".format(*a_hop()))
    print(f"nodes that follow others: {time.monotonic() - start:.1f} s")
    return ended()


if __name__ == "__main__":
    sys.exit(main(sys.argv[1:]))
