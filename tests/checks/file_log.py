#!/usr/bin/env python3
"""Checks of a log in a file and of its followers (connectors/file): its checksums, what is corrupt or torn, and nodes that are stopped, refuse or
trickle beside others. Sums are made and judged here from docs/FORMATS.md, by hashlib.

    file_log.py                  all of it, with 200 flips of a bit
    file_log.py flips 50000 7    so many flips, and a fifth as many cuts, zeroed and doubled blocks, of this seed: by hand

Prints a line for each check and ends with 'N passed, M failed'. Needs bin/hkrep. Standard library only."""
import contextlib
import hashlib
import pathlib
import random
import re
import shutil
import signal
import socket
import subprocess
import sys
import tempfile
import threading
import time
from types import SimpleNamespace

ROOT = pathlib.Path(__file__).resolve().parents[2]
sys.path[:0] = [str(ROOT / "tests" / "lib"), str(ROOT / "clients" / "python"), str(ROOT / "connectors" / "file"), str(ROOT / "connectors" / "common")]
from checks import differ, ended, free_port, guarded, is_built, report
from damaged import damaged
import reference
from staying import PROGRAM, Running
from vadungsil import LogFile, LogWriter, Node, encode, item_file
from vadungsil.blocks import Cutter, frames_of, in_blocks
from vadungsil.errors import Broken

import following
from engine_log import Behind
from log_in_file import LogInFile

LOG, FOLDER, FLIPS = 9, pathlib.Path(tempfile.mkdtemp(prefix="file_log")), 200
FOLLOW = ROOT / "connectors" / "file" / "follow"
# a node that is stopped costs the others less than this, in seconds
SOON, LIMIT = 1.0, 60
OLD = "corrupt bytes may not show; its writer makes one with --trust"
# what stands behind the last checksum: how many entries have one, what stands there as (item, bytes of it) pairs, and whether a writer leaves so much
# (docs/FORMATS.md, "A log in a file": one block at most, of 65,536 bytes or one frame, and the first of a file is one frame; of the longest frame where
# the disk lacks how long it is)
SMALL, LARGE, TORN, MANY, BLOCK = "an entry of 200 bytes", "an entry of 30 rows", "an entry of 30 rows without its head", "400 entries", 65_536
BEHIND = ((0, [(SMALL, 3)], True), (0, [(SMALL, 100)], True), (0, [(SMALL, None)], True), (0, [(SMALL, None), (SMALL, 1)], False), (0, [(SMALL, None)] * 40, False),
          (0, [(LARGE, None)], True), (0, [(LARGE, None), (SMALL, 1)], False), (40, [(SMALL, 100)], True), (40, [(MANY, BLOCK)], True), (40, [(MANY, BLOCK + 1)], False), (40, [(MANY, None)], False),
          (40, [(LARGE, 100_000)], True), (40, [(LARGE, None)], True), (40, [(LARGE, None), (SMALL, 1)], False), (0, [(TORN, None)], True), (40, [(TORN, None)], True),
          (40, [(TORN, None)] + [(LARGE, None)] * 36, False))
REFUSED = ("stream 1: byte {place} of {path}: {rest} bytes stand behind the last checksum, more than the one block that a writer leaves: {path}.sums is older, or another file's."
           " Put back that of the same copy, or have the writer make it (--trust)")
TAKEN = "byte {place} of {path}: {rest} bytes that have no checksum yet are taken away"


class Own(Running):
    """A node of the log, once it listens."""

    def __init__(self, *options, log=LOG, port=0):
        self.port = port or free_port()
        super().__init__(["node", "-q", "--log", str(log), "--streams", "1", "--port", str(self.port), *map(str, options)])
        self.line()


class Log:
    """A log that is written to a file, as a capture writes one: `add` returns once it is kept."""

    def __init__(self, name, **words):
        self.path = FOLDER / name
        self.store, self.log, self.kept = LogInFile(str(self.path), LOG, False, **words), LogWriter(LOG, 1), []
        self.store.prepare()

    def add(self, count, body=b"x" * 200):
        data = b"".join(encode(self.log.commit(puts=[(1, 1 + number % 50, 9, body)])) for number in range(count))
        frames = Cutter().cut(data + encode(self.log.marks()[0]))
        blocks = in_blocks(frames, self.store.places.number, 65_536)
        self.store.append(1, self.store.places.size, blocks, self.kept.append)
        return self.log.time


def files(name):
    """A file and its checksums."""
    return FOLDER / name, FOLDER / f"{name}.sums"


def followed(name, *ports, more=("--once",)):
    words = [str(FOLLOW), "--file", str(FOLDER / name), "--log", str(LOG), "--streams", "1", *(word for port in ports for word in ("--node", str(port))), *more]
    done = subprocess.run([sys.executable, *words], capture_output=True, text=True, timeout=LIMIT, check=False)
    return done.returncode, done.stderr


def readable(port):
    with Node(port) as node:
        return node.front().readable


def lines_by_hand(data, ends):
    """The lines of blocks that end there, as FORMATS has them."""
    lines, before, begin = [], b"", 0
    for end, last in ends:
        line = f"{end} {last} {hashlib.sha256(before + data[begin:end]).hexdigest()}\n".encode()
        lines, before, begin = [*lines, line], line, end
    return b"".join(lines)


def a_file():
    """The file has frames alone, which `hkrep` reads, and FILE.sums a line for each block; a follower feeds what it has."""
    log = Log("whole.log")
    ends = [(log.store.places.size, log.store.places.number) for _ in range(5) if log.add(40)]
    log.add(700)
    log.store.drop()
    path, sums = files("whole.log")
    data, lines = path.read_bytes(), sums.read_bytes()
    found = [(int(words[0]), int(words[1])) for words in map(bytes.split, lines.splitlines())]
    first, least = (4 + int.from_bytes(data[:4], "big"), 1), [end - begin for (begin, _), (end, _) in zip(found, found[1:])]
    items = subprocess.run([str(PROGRAM), "items"], input=data, capture_output=True, timeout=LIMIT, check=False)
    with Own() as node:
        told = followed("whole.log", node.port)
        pairs = [("a follower", (told[0], readable(node.port)), (0, 900)), ("says nothing of checksums", OLD in told[1], False)]
    report("a file's checksums", differ([*pairs, ("as FORMATS has them", lines, lines_by_hand(data, found)), ("the first is one frame", found[0], first), ("the blocks", found[1:6], ends),
                                         ("64 KB at most", max(least) <= BLOCK, True), ("the last", found[-1], (len(data), 900)),
                                         ("kept", log.kept[:5] + log.kept[-1:], [40, 80, 120, 160, 200, 900]), ("frames alone", (items.returncode, items.stdout.count(b"commit")), (0, 900))]))


def looked(name):
    """What a reader makes of a file: how far it is, and why it stops, if it does. It never goes over bytes that no line has."""
    store = LogInFile(str(FOLDER / name), LOG, False)
    try:
        return store.look().size, str(store.places.fault or "")
    finally:
        store.drop()


def judged(data, sums):
    """What docs/FORMATS.md has a reader make of both: up to where it reads, and whether it stops there."""
    before, begin, last = b"", 0, 0
    *lines, torn_line = sums.split(b"\n")
    if not torn_line and lines and b"\0" in lines[-1] and len(lines[-1]) < 128:
        torn_line = lines.pop()
    for line in (it + b"\n" for it in lines):
        words = re.fullmatch(rb"(0|[1-9]\d*) (0|[1-9]\d*) ([0-9a-f]{64})\n", line)
        end = int(words[1]) if words else 0
        own = hashlib.sha256(before + data[begin:end]).hexdigest().encode()
        if not begin < end <= len(data) or words[3] != own:
            return begin, True
        numbers = [int.from_bytes(frame[16:24], "big") for frame in frames_of(data[begin:end]) if frame[5] == 1]
        last = numbers[-1] if numbers else last
        if int(words[2]) != last:
            return begin, True
        before, begin = line, end
    length = int.from_bytes(data[begin:begin + 4], "big")
    is_torn = reference.items_of(data[begin:begin + 4 + length])[1] is not None
    most = max(4 + (reference.LARGEST_REST if is_torn else length), BLOCK if begin else 0)
    return begin, len(data) - begin > most or len(torn_line) > 128


def flips(count=FLIPS, seed=5):
    """A flip, a cut, a zeroed or doubled block anywhere in either file: a reader stops before that block, and names it, but where it looks as a writer
    leaves it, with one block without its line."""
    chance, silent, tried = random.Random(seed), [], {}
    good = [it.read_bytes() for it in files("whole.log")]
    for which, share in ((0, 3 * count // 4), (1, count // 4)):
        for kind, data in damaged(good[which], share, chance):
            both = [data, good[1]] if which == 0 else [good[0], data]
            for it, text in zip(files("bad.log"), both):
                it.write_bytes(text)
            wanted = judged(*both)
            size, why = looked("bad.log")
            kind = kind if wanted[1] else f"{kind} as a writer leaves it"
            tried[kind] = tried.get(kind, 0) + 1
            # of a block that isn't what its line says some items may have been looked at; none is handed on
            is_named = bool(why) and re.search(r"byte \d+ of ", why) and re.search("corrupt|stand behind the last checksum", why)
            if size != wanted[0] or bool(is_named) != wanted[1]:
                silent.append((which, kind, len(data), size, wanted, why))
    for name, text, words in (("cut", good[0][:-100], "lost its tail"), ("a byte less", good[0][:50] + good[0][51:], "corrupt")):
        for it, what in zip(files("bad.log"), (text, good[1])):
            it.write_bytes(what)
        if words not in looked("bad.log")[1]:
            silent.append((name, looked("bad.log")))
    with Own() as node:
        told = followed("bad.log", node.port)
        pairs = [("a follower", (told[0], readable(node.port)), (3, 0)), ("says which block", "byte 0 of " in told[1] and "corrupt" in told[1], True)]
    report("damage to either file stops a reader before its block", differ([("silent", silent, []), *pairs]), f"{dict(sorted(tried.items()))}, {len(silent)} silent")


def torn():
    """What stands behind the last line wasn't kept: a reader passes over it and goes on once there is a line; the writer takes it away."""
    whole, sums = files("torn.log")
    for it, source in zip((whole, sums), files("whole.log")):
        shutil.copy(source, it)
    size, more = whole.stat().st_size, encode(LogWriter(LOG + 1, 1).commit(puts=[(1, 1, 9, b"A")]))
    with open(whole, "ab") as file:
        file.write(more)
    with open(sums, "ab") as file:
        file.write(b"17 1")
    pairs = [("a reader", looked("torn.log"), (size, ""))]
    said = []
    store = LogInFile(str(whole), LOG, False)
    store.say = said.append
    store.prepare()
    pairs += [("the writer", (whole.read_bytes() == files("whole.log")[0].read_bytes(), sums.read_bytes() == files("whole.log")[1].read_bytes()), (True, True)),
              ("says so", said, [f"byte {size} of {whole}: {len(more)} bytes that have no checksum yet are taken away"])]
    store.drop()
    # a damaged one isn't written to
    data = bytearray(whole.read_bytes())
    data[100] ^= 1
    whole.write_bytes(data)
    try:
        store.prepare()
        pairs.append(("a damaged file is written to", True, False))
    except Broken as broken:
        pairs += [("a damaged file", (broken.status, "corrupt" in str(broken)), (3, True)), ("it stays", whole.read_bytes() == bytes(data), True)]
    finally:
        store.drop()
    report("what isn't kept is taken away by the writer alone", differ(pairs))


def of_before():
    """A file without checksums is read, which is said once; its writer makes them with `trust`, and without goes on as before."""
    old, sums = files("old.log")
    shutil.copy(files("whole.log")[0], old)
    with Own() as node:
        told = followed("old.log", node.port)
        pairs = [("a follower", (told[0], readable(node.port)), (0, 900)), ("says so once", told[1].count(OLD), 1)]
    said = []
    for trust, there in ((False, False), (True, True)):
        store = LogInFile(str(old), LOG, False, trust)
        store.say = said.append
        store.prepare()
        store.drop()
        pairs += [(f"with trust {trust}", sums.exists(), there)]
    data = old.read_bytes()
    found = [(int(words[0]), int(words[1])) for words in map(bytes.split, sums.read_bytes().splitlines())]
    pairs += [("the writer says so", [OLD in line for line in said], [True]), ("as FORMATS has them", sums.read_bytes(), lines_by_hand(data, found)), ("to the end", found[-1], (len(data), 900)),
              ("a reader", looked("old.log"), (len(data), ""))]
    # others that are damaged are made anew where the owner trusts what the file has
    sums.write_bytes(b"1 1 00\n")
    pairs += [("damaged ones", "corrupt" in looked("old.log")[1], True)]
    store = LogInFile(str(old), LOG, False, True)
    store.prepare()
    store.drop()
    pairs += [("trusted", looked("old.log"), (len(data), ""))]
    report("a file without checksums", differ(pairs))


# ---------------------------------------------------------------- more than a writer leaves

def behind(name, kept, items):
    """A log of which so many entries have a checksum, and behind that what a row of BEHIND says: how long the first is, and how much follows."""
    log = Log(name)
    if kept:
        log.add(kept)
    place, bodies = log.store.places.size, {SMALL: [b"x" * 200], MANY: [b"x" * 200], LARGE: [b"x" * 4000] * 30, TORN: [b"x" * 4000] * 30}
    log.store.drop()
    count = {SMALL: 1, LARGE: 1, TORN: 1, MANY: 400}
    frames = [(b"".join(encode(log.log.commit(puts=[(1, key, 9, body) for key, body in enumerate(bodies[kind])])) for _ in range(count[kind])), size) for kind, size in items]
    rest = b"".join(bytes(600) + frame[600:size] if kind == TORN else frame[:size] for (frame, size), (kind, _) in zip(frames, items))
    with open(FOLDER / name, "ab") as file:
        file.write(rest)
    return place, len(rest)


def prepared(name, trust=False):
    """What a writer says that begins with a file, and its status, or None where it begins."""
    store, said = LogInFile(str(FOLDER / name), LOG, False, trust), []
    store.say = said.append
    try:
        store.prepare()
        return said, None
    except Broken as broken:
        return [*said, str(broken)], broken.status
    finally:
        store.drop()


def one_behind(number, kept, items, is_left):
    name = f"behind{number}.log"
    place, rest = behind(name, kept, items)
    before, words = [it.read_bytes() for it in files(name)], {"place": place, "path": FOLDER / name, "rest": rest}
    read = looked(name)
    told = prepared(name)
    after = [it.read_bytes() for it in files(name)]
    wanted = (place, ""), ([TAKEN.format(**words)], None), [before[0][:place], before[1]]
    if not is_left:
        wanted = (place, REFUSED.format(**words)), ([REFUSED.format(**words)], 3), before
    return [(f"{name}: a reader", read, wanted[0]), (f"{name}: a writer", told, wanted[1]), (f"{name}: the files", after, wanted[2])]


def more_behind():
    """Behind the last line a block may stand, which the writer takes away. Where more stands there it doesn't begin, changes nothing and says why."""
    report("more than a writer leaves behind the last checksum stays", differ([pair for number, row in enumerate(BEHIND) for pair in one_behind(number, *row)]))


def put_back():
    """A log that was put back beside the empty checksums of a start: nothing is lost, and each of the two ways on has all of it."""
    whole, sums = files("back.log")
    Log("back.log").store.drop()
    data, lines = (it.read_bytes() for it in files("whole.log"))
    pairs = [("a start over an empty log", (whole.read_bytes(), sums.read_bytes()), (b"", b""))]
    shutil.copy(files("whole.log")[0], whole)
    refused = REFUSED.format(place=0, path=whole, rest=len(data))
    with Own() as node:
        told = followed("back.log", node.port)
        pairs += [("a follower", (told, readable(node.port)), ((3, f"follow: {refused}\n"), 0)), ("a writer", prepared("back.log"), ([refused], 3)),
                  ("nothing is lost", (whole.read_bytes() == data, sums.read_bytes()), (True, b""))]
        sums.write_bytes(lines)
        pairs += [("with its checksums", (prepared("back.log"), followed("back.log", node.port)[0], readable(node.port)), (([], None), 0, 900))]
    sums.write_bytes(b"".join(lines.splitlines(True)[:3]))
    place = int(lines.splitlines()[2].split()[0])
    refused = REFUSED.format(place=place, path=whole, rest=len(data) - place)
    with Own() as node, Own() as other, Own() as third:
        told, several = followed("back.log", node.port), followed("back.log", other.port, third.port, more=())
        pairs += [("older ones", (told, readable(node.port)), ((3, f"follow: {refused}\n"), 80)), ("of several nodes", several, told), ("trust", prepared("back.log", True), ([], None)),
                  ("nothing is lost", (whole.read_bytes() == data, looked("back.log")), (True, (len(data), ""))), ("all is fed", (followed("back.log", node.port)[0], readable(node.port)), (0, 900))]
    report("a log put back beside empty or older checksums loses nothing", differ(pairs))


class Crash(BaseException):
    """The writer is no more, where it stands."""


def crashed(name, store, blocks, at):
    """A writer that ends before its write of this number, or halfway in it; whether it came to it."""
    count, write = [0], item_file.os.write

    def some(file, data):
        count[0] += 1
        if count[0] <= at // 2:
            return write(file, data)
        if at % 2:
            write(file, data[:len(data) // 2])
        raise Crash
    item_file.os.write = some
    try:
        store.append(1, store.places.size, blocks, lambda _: None)
        return False
    except Crash:
        return True
    finally:
        item_file.os.write = write
        store.drop()


def crashes():
    """Wherever a writer ends in an append of many blocks, the next one begins: what it leaves isn't more than it may, and what has a line stays."""
    log, pairs, at, is_on = LogWriter(LOG, 1), [], 0, True
    sizes = [[b"x" * 200]] * 900 + [[b"x" * 4000] * 30] * 2 + [[b"x" * 200]] * 10
    data = b"".join(encode(log.commit(puts=[(1, key, 9, body) for key, body in enumerate(bodies)])) for bodies in sizes)
    frames = Cutter().cut(data)
    while is_on:
        name = f"crash{at}.log"
        store = LogInFile(str(FOLDER / name), LOG, False)
        store.prepare()
        is_on = crashed(name, store, in_blocks(frames, 0, 4 * BLOCK), at)
        lines = files(name)[1].read_bytes()
        kept = int(lines.rpartition(b"\n")[0].split(b"\n")[-1].split()[0]) if b"\n" in lines else 0
        read, status = looked(name), prepared(name)[1]
        pairs.append((f"crash {at}", (read, status, files(name)[0].read_bytes() == data[:kept]), ((kept, ""), None, True)))
        at += 1
    report("wherever a writer ends, the next one begins", differ([*pairs, ("how many", at >= 30, True), ("the last has all", kept, len(data))]), f"{at - 1} places")


def another_file():
    """A reader in the place of whose file another one has come, whose places are others, reads nothing of it, and begins anew."""
    with LogFile(FOLDER / "compacted.log", LOG, clock=False) as log:
        for number in range(20):
            log.commit([(1, number, 9, b"x" * 200)])
        store = LogInFile(log.path, LOG)
        reading, gone = store.reading({1: 5}, 1), log.compact(log.time - 3)
        store.drop()      # as a look does that sees it
        log.commit([(1, 30, 9, b"y" * 4000)])
        try:
            said = reading.read(0)
        except Behind as behind:
            said = str(behind)
        found = [block.last for _, _, block in store.reading({1: log.number(1) - 1}, 1).read(0)]
        store.drop()
    wanted = f"{log.path} was compacted, or its checksums were made anew"
    report("another file in the place of one that is read", differ([("dropped", gone > 10, True), ("the reader", said, wanted), ("begun anew", found[-1], log.number(1))]))


# ---------------------------------------------------------------- several nodes

class Follower:
    """`follow` of a file to several nodes, till the block is left."""

    def __init__(self, name, *ports):
        words = [str(FOLLOW), "--file", str(FOLDER / name), "--log", str(LOG), "--streams", "1", *(word for port in ports for word in ("--node", str(port)))]
        self.child = subprocess.Popen([sys.executable, *words], stderr=subprocess.PIPE, text=True)
        self.said = []
        self.reader = threading.Thread(target=lambda: self.said.extend(self.child.stderr), daemon=True)
        self.reader.start()

    def __enter__(self):
        return self

    def __exit__(self, *_):
        self.child.kill()
        self.child.wait()
        self.reader.join(LIMIT)


def lateness(log, ports, seconds):
    """The most seconds that these nodes took to have what was written, for so long."""
    until, most = time.monotonic() + seconds, 0.0
    with contextlib.ExitStack() as opened:
        nodes = [opened.enter_context(Node(port)) for port in ports]
        while time.monotonic() < until:
            begin = time.monotonic()
            at = log.add(20)
            for node in nodes:
                node.wait(at, timeout=LIMIT)
            most = max(most, time.monotonic() - begin)
            time.sleep(0.02)
    return most


def a_stopped_node():
    """Two nodes go on beside a third that is stopped, for longer than its limit of time; when it goes on, it catches up."""
    log = Log("stopped.log")
    with Own() as one, Own() as two, Own() as three, Follower("stopped.log", one.port, two.port, three.port) as follower:
        lateness(log, [one.port, two.port, three.port], 0.5)
        three.child.send_signal(signal.SIGSTOP)
        most = lateness(log, [one.port, two.port], 4)
        three.child.send_signal(signal.SIGCONT)
        with Node(three.port) as node:
            front = node.wait(log.log.time, timeout=40).readable
        pairs = [("it catches up", front, log.log.time), ("the others were late", most > SOON, False), ("one follower", follower.child.poll(), None)]
    late = [line for line in follower.said if "no reply within 2.0 s" in line]
    report("a stopped node holds nobody else back", differ([*pairs, ("it is said", (bool(late), all(str(three.port) in line for line in late)), (True, True)),
                                                          ("nothing else", [line for line in follower.said if line not in late], [])]), f"at most {most:.2f} s late")


class Trickle:
    """What answers as a node does that sends its replies byte by byte."""

    def __init__(self, port):
        self.to, self.door = port, socket.create_server(("127.0.0.1", 0))
        self.port = self.door.getsockname()[1]
        threading.Thread(target=self.serve, daemon=True).start()

    def serve(self):
        with contextlib.suppress(OSError):
            while True:
                link, _ = self.door.accept()
                threading.Thread(target=self.talk, args=(link,), daemon=True).start()

    def talk(self, link):
        with link, socket.create_connection(("127.0.0.1", self.to)) as node, contextlib.suppress(OSError):
            threading.Thread(target=self.back, args=(node, link), daemon=True).start()
            while piece := link.recv(65_536):
                node.sendall(piece)

    @staticmethod
    def back(node, link):
        with contextlib.suppress(OSError):
            while piece := node.recv(65_536):
                for at in range(len(piece)):
                    link.sendall(piece[at:at + 1])
                    time.sleep(0.2)

    def __enter__(self):
        return self

    def __exit__(self, *_):
        self.door.close()


def others_beside():
    """The same beside a node of another log (it refuses), one that trickles, one whose machine isn't there, and one that begins late."""
    log, late = Log("beside.log"), free_port()
    with Own() as one, Own() as two, Own(log=LOG + 1) as other, Own() as slow, Trickle(slow.port) as trickle, \
            Follower("beside.log", one.port, other.port, trickle.port, late, two.port) as follower:
        lateness(log, [one.port, two.port], 0.5)
        most = lateness(log, [one.port, two.port], 3)
        with Own(port=late), Node(late) as node:
            front = node.wait(log.log.time, timeout=40).readable
        pairs = [("the late one", front, log.log.time), ("the others were late", most > SOON, False), ("one follower", follower.child.poll(), None)]
    refused = [line for line in follower.said if "refuses" in line]
    report("nor do those that refuse, trickle or aren't there", differ([*pairs, ("a refusal is said once", (len(refused), str(other.port) in "".join(refused), "refused 20" in "".join(refused)), (1, True, True))]),
           f"at most {most:.2f} s late")


def said_again():
    """A refusal that goes on is said once, and a minute later with how often it was; another one at once."""
    said = []
    refusals = following.Refusals(SimpleNamespace(say=said.append))
    for text, later in (("one", 0), ("one", 1), ("one", 58), ("one", 2), ("one", 1), ("two", 0), ("one", 0)):
        refusals.said -= later
        refusals.say(text)
    report("a refusal that goes on is said once a minute", differ([("said", said, ["one; trying again", "one (4 times); trying again", "two; trying again", "one; trying again"])]))


def one_alone():
    """A node alone that refuses ends its follower, with 4; and what is corrupt ends that of several for all, with 3."""
    with Own(log=LOG + 1) as other, Own() as one, Own() as two:
        alone, both = followed("whole.log", other.port, more=()), followed("bad.log", one.port, two.port, more=())
    report("what ends a follower", differ([("a refusal", (alone[0], "the node refuses" in alone[1]), (4, True)), ("damage", (both[0], both[1].count("corrupt")), (3, 1))]))


def main():
    if not is_built(PROGRAM):
        return ended()
    start = time.monotonic()
    if sys.argv[1:2] == ["flips"]:
        guarded(a_file)
        guarded(flips, int(sys.argv[2]), int(sys.argv[3]))
        return ended()
    for check in (a_file, flips, torn, of_before, more_behind, put_back, crashes, another_file, a_stopped_node, others_beside, said_again, one_alone):
        guarded(check)
    print(f"logs in files: {time.monotonic() - start:.1f} s")
    return ended()


if __name__ == "__main__":
    try:
        sys.exit(main())
    finally:
        shutil.rmtree(FOLDER, ignore_errors=True)
