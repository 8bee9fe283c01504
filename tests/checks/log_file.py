#!/usr/bin/env python3
"""Checks of LogFile and AsyncLogFile, a log in a file that a writer can't lose: what each commit promises, what an opening reads and what it refuses,
a disk that is full or fails, a writer that ends anywhere, identity and terms, forks, indexes. What a file has is judged by tests/lib/reference.py, the
replica made from the pages, beside a plain program that keeps all rows of each time.

    log_file.py [STORY ..]

Prints a line for each check and ends with 'N passed, M failed'. Needs bin/hkrep for the last four. Standard library only."""
import asyncio
import contextlib
import errno
import hashlib
import os
import pathlib
import random
import re
import shutil
import signal
import subprocess
import sys
import tempfile
import threading
import time

sys.dont_write_bytecode = True
ROOT = pathlib.Path(__file__).resolve().parents[2]
sys.path[:0] = [str(ROOT / "tests" / "lib"), str(ROOT / "connectors" / "file"), str(ROOT / "connectors" / "common")]
import reference
from checks import differ, ended, free_port, guarded, is_built, report
from packaged import PACKAGE, refusal_of, va
from staying import PROGRAM, Running
from vadungsil import log_file as module

from engine_log import Behind
from log_in_file import LogInFile

LOG, FOLDER, LIMIT = 7, pathlib.Path(tempfile.mkdtemp(prefix="log_file")), 60
FOLLOW = ROOT / "connectors" / "file" / "follow"
SYNCS = ("each", "group", "never")
BITS = bytes(range(16))


def path_of(name):
    return FOLDER / name


def files(name):
    """What a log's two files have."""
    return [it.read_bytes() if it.exists() else None for it in (path_of(name), path_of(f"{name}.sums"))]


def words_of(call, *kinds):
    """The words that a call raises, '' where it raises nothing."""
    try:
        told = call()
    except kinds as error:
        return f"{type(error).__name__}: {error}"
    if hasattr(told, "close"):
        told.close()
    return ""


class Played:
    """A log that is written to, and the plain program beside it: all rows of each time, and which entries were acknowledged."""

    def __init__(self, name, **words):
        self.name, self.tables, self.at, self.kept = name, {}, {0: {}}, []
        self.words = {"clock": False, **words}
        self.log = self.opened()

    def opened(self):
        return va.LogFile(path_of(self.name), LOG, **self.words)

    def again(self):
        """Closes the log, and opens it anew."""
        self.log.close()
        self.log = self.opened()

    def commit(self, puts, removes=()):
        """A commit; what it did counts once it returned."""
        entry = self.log.commit([(1, key, 9, body) for key, body in puts.items()], [(1, key) for key in removes])
        self.took(entry, puts, removes)

    def took(self, entry, puts, removes=()):
        self.tables = {**{key: body for key, body in self.tables.items() if key not in removes}, **puts}
        self.at[entry.time] = self.tables
        self.kept.append(entry.number)

    def judged(self):
        """What is wrong with the file beside the plain program: at each time the rows are those of the last commit, entries are 1 to n, each mark is
        true and none is above the entry before it, and the checksums are of all of it."""
        data, sums = files(self.name)
        items, fault = reference.items_of(data)
        entries, latest, marks = [it for it in items if isinstance(it, reference.Entry)], 0, []
        for it in items:
            if isinstance(it, reference.Entry):
                latest = it.time
            else:
                marks.append((it.n, it.m, latest, sum(other.time <= it.m for other in entries)))
        wrong_rows = [(at, rows) for at, rows in self.at.items()
                      if {key: body for (table, key), (_, body) in reference.shown(items, at).items() if table == 1} != rows]
        return differ([("a whole file", fault, None), ("the numbers", [it.number for it in entries], list(range(1, len(entries) + 1))),
                       ("other rows", wrong_rows, []), ("untrue marks", [it for it in marks if it[1] != it[2] or it[0] != it[3]], []),
                       ("all has a mark", marks[-1][1] if marks else 0, latest), ("its checksums", summed(data, sums), ""),
                       ("what was acknowledged", [it for it in self.kept if it > len(entries)], [])])


def summed(data, sums):
    """What is wrong with the checksums of a file, as FORMATS has them."""
    before, begin = b"", 0
    for line in sums.splitlines(True):
        end, last, digest = line.split()
        if hashlib.sha256(before + data[begin:int(end)]).hexdigest().encode() != digest:
            return f"{line} is of other bytes"
        numbers = [it.number for it in reference.items_of(data[:int(end)])[0] if isinstance(it, reference.Entry)] if begin == 0 or int(end) == len(data) else [int(last)]
        if numbers[-1:] != [int(last)]:
            return f"{line} has another last entry than {numbers[-1:]}"
        before, begin = line, int(end)
    return "" if begin == len(data) else f"{len(data) - begin} bytes have none"


# ---------------------------------------------------------------- what the system does

class Crash(BaseException):
    """The writer is no more, where it stands."""


@contextlib.contextmanager
def instead(one, *names):
    """Has these calls of the system be what `one` makes of the name and of the system's own call."""
    own = {name: getattr(os, name) for name in names}
    for name, call in own.items():
        setattr(os, name, one(name, call))
    try:
        yield
    finally:
        for name, call in own.items():
            setattr(os, name, call)


@contextlib.contextmanager
def failing(at, error, calls=("write", "fdatasync")):
    """Has the call of this number among these calls of the system raise an error, a write behind half of its bytes; which it was."""
    count, found = [0], []

    def one(name, own):
        def call(file, *data):
            count[0] += 1
            if count[0] != at:
                return own(file, *data)
            count[0] += 1
            found.append(name)
            if data:
                own(file, data[0][:len(data[0]) // 2])
            raise error
        return call
    with instead(one, *calls):
        yield found


@contextlib.contextmanager
def recorded():
    """What is written and synced meanwhile: (call, file) in their order."""
    told = []

    def one(name, own):
        def call(file, *data):
            given = own(file, *data)
            told.append((name, os.fstat(file).st_ino))
            return given
        return call
    with instead(one, "write", "fdatasync"):
        yield told


def crashed(played):
    """A writer that is no more: its files are closed, and nothing else is done."""
    played.log._closing.set()
    played.log._items.drop()


# ---------------------------------------------------------------- writing and opening

def a_log():
    """What is committed is there at each time, also behind openings: an update and a removal name the version that they end."""
    chance, problems = random.Random(3), []
    for sync in SYNCS:
        it = Played(f"a-{sync}.log", sync=sync)
        for turn in range(120):
            there = sorted(it.tables)
            removes = chance.sample(there, min(len(there), chance.randrange(3)))
            puts = {key: bytes([turn]) * chance.randrange(1, 60) for key in chance.sample(range(20), 3) if key not in removes}
            it.commit(puts, removes)
            if turn % 40 == 20:
                it.again()
        with it.log.transaction() as written:
            written.put(1, 50, 9, b"x")
        it.took(written.entry, {50: b"x"})
        beaten = it.log.beat(2, 1)
        shown = ([row.row.body for row in beaten[0].rows], beaten[1:] == it.log.marks(), it.log.born(2, 1), it.log.born(1, 99), it.log.number(1))
        wanted = ([str(it.log.time).encode()], True, it.log.time, None, beaten[0].number)
        problems += [("none of nothing", it.log.commit(), None), ("a beat", shown, wanted)]
        refusals = [refusal_of(lambda log=it.log, words=words: log.commit(**words)) for words in
                    ({"puts": [(1, 1, 9, b""), (1, 1, 9, b"")]}, {"puts": [(1, 1, 9, b"")], "stream": 2}, {"removes": [(1, 99)]}, {"puts": [(1, 1, 9, b"")], "time": 1})]
        problems += [("refusals change nothing", (refusals, it.log.number(1)), ([32, 34, 31, 6], beaten[0].number))]
        it.log.close()
        problems += [(f"{sync}: {told}", 1, 0) for told in it.judged()]
        problems += [("closed", words_of(lambda log=it.log: log.commit([(1, 1, 9, b"")]), ValueError), f"ValueError: the log {it.log.path} is closed"), ("twice", it.log.close(), None)]
    report("what was committed is there at each time", differ(problems))


def retired():
    """A retired log takes no commit, also behind an opening, and no term; another log goes on from it."""
    it = Played("retired.log")
    it.commit({1: b"a"})
    mark = it.log.retire(1)
    size = path_of(it.name).stat().st_size
    pairs = [("the mark", (mark.n, mark.m), (it.log.number(1), va.LAST_TIME)), ("a commit", refusal_of(lambda: it.log.commit([(1, 2, 9, b"")])), 36), ("its marks", it.log.marks(), [])]
    it.again()
    pairs += [("behind an opening", (it.log.is_retired(1), refusal_of(lambda: it.log.commit([(1, 2, 9, b"")])), refusal_of(lambda: it.log.retire(1)), path_of(it.name).stat().st_size),
               (True, 36, 36, size))]
    it.log.fork(path_of("went on.log"), LOG + 1)
    it.log.close()
    with va.LogFile(path_of("went on.log"), LOG + 1, clock=False) as other:
        pairs += [("another log", other.commit([(1, 1, 9, b"b")]).ends[0].born, it.kept[0])]
    report("a retired log takes nothing more", differ(pairs))


def promises():
    """What each `sync` promises when a commit returns: both files were synced behind their last write; by flush; nothing."""
    pairs = []
    for sync in SYNCS:
        it = Played(f"promises-{sync}.log", sync=sync)
        inodes = [path.stat().st_ino for path in (path_of(it.name), path_of(f"{it.name}.sums"))]
        for turn in range(5):
            with recorded() as told:
                it.commit({turn: b"x"})
                if sync == "group":
                    it.log.flush()
                last = [next((name for name, inode in reversed(told) if inode == wanted), None) for wanted in inodes]
            pairs += [(f"{sync}: what came last to each file", last, ["write"] * 2 if sync == "never" else ["fdatasync"] * 2),
                      (f"{sync}: how often", [told.count(("write", inode)) for inode in inodes], [1, 1])]
        with recorded() as told:
            it.log.flush()
        pairs += [(f"{sync}: a flush", [("fdatasync", inode) in told for inode in inodes], [sync == "never"] * 2)]
        it.log.close()
        pairs += [(f"{sync}: {told}", 1, 0) for told in it.judged()]
    report("what each sync promises", differ(pairs))


def threads():
    """Commits of threads side by side are all there, each once, and each is on the disk when it returns."""
    it, told, lock = Played("threads.log"), [], threading.Lock()

    def commits(number):
        for turn in range(25):
            entry = it.log.commit([(1, number, 9, bytes([turn]))])
            there = path_of(it.name).read_bytes()
            with lock:
                told.append((entry.number, entry.number in {one.number for one in reference.items_of(there)[0] if isinstance(one, reference.Entry)}))
    workers = [threading.Thread(target=commits, args=(number,)) for number in range(4)]
    for worker in workers:
        worker.start()
    for worker in workers:
        worker.join(LIMIT)
    it.log.close()
    items = reference.items_of(files(it.name)[0])[0]
    marks = [one for one in items if isinstance(one, reference.Mark)]
    report("commits of several threads", differ([("all of them", sorted(told), [(number, True) for number in range(2, 102)]),
                                                 ("the last mark", (marks[-1].n, marks[-1].m), (101, it.log.time)),
                                                 ("the rows", sorted((key, body) for (table, key), (_, body) in reference.shown(items, it.log.time).items() if table == 1),
                                                  [(number, b"\x18") for number in range(4)])]))


def beats():
    """Where nothing is committed a beat is, with its mark; no mark is above the last commit, and none comes behind the end."""
    it = Played("beats.log", beat_seconds=0.02, clock=True)
    until, count = time.monotonic() + LIMIT, 0
    while count < 3 and time.monotonic() < until:
        items = reference.items_of(path_of(it.name).read_bytes())[0]
        count = sum(place == (0, 4) for one in items if isinstance(one, reference.Entry) for place, _ in one.rows)
        time.sleep(0.01)
    it.commit({1: b"a"})
    it.log.close()
    items = reference.items_of(files(it.name)[0])[0]
    rows = [(one.time, row) for one in items if isinstance(one, reference.Entry) for place, row in one.rows if place == (0, 4)]
    report("beats", differ([("three came", count >= 3, True), *((told, 1, 0) for told in it.judged()), ("each has its time", [row for at, row in rows if row != (0, str(at).encode())], []),
                            ("none goes on", [one.name for one in threading.enumerate() if str(path_of(it.name)) in one.name], [])]))


# ---------------------------------------------------------------- what an opening refuses

def lines_without(name, count):
    """Takes the last checksums of a log away."""
    path = path_of(f"{name}.sums")
    path.write_bytes(b"".join(path.read_bytes().splitlines(True)[:-count]))


def written(name, *bodies, **words):
    """A log of so many commits, closed."""
    it = Played(name, **words)
    for number, body in enumerate(bodies):
        it.commit({number: body})
    it.log.close()
    return it


def altered(name, change):
    path = path_of(name)
    path.write_bytes(change(path.read_bytes()))


def refused_cases():
    """What stands there, what is asked for, and the words."""
    entry = lambda: va.encode(va.Entry.of(LOG, 1, 1, 5, rows=[(1, 1, 0, b"a")]))
    begin = lambda name, data: (path_of(name).write_bytes(data), path_of(f"{name}.sums").write_bytes(b""))
    line = lambda data, last: f"{len(data)} {last} {hashlib.sha256(data).hexdigest()}\n".encode()
    with_line = lambda name, data, last: (path_of(name).write_bytes(data), path_of(f"{name}.sums").write_bytes(line(data, last)))
    whole = lambda name, *bodies, **words: written(name, *bodies, **words)
    future = lambda body: va.encode(va.Entry.of(LOG, 1, 1, 5, rows=[(0, 2, 0, body)]))
    captured = lambda name: with_line(name, va.encode(va.Entry.of(LOG, 1, 1, 5, rows=[(0, 1, 0, b'{"system":1}')])), 1)
    yield "another id", lambda name: whole(name, b"a"), {"log": 9}, "Broken: {path} has log 7, and not 9"
    yield "another version", lambda name: begin(name, entry()[:4] + b"\x03" + entry()[5:]), {}, "Broken: {path} has items of version 3, and this release reads versions 1 and 2"
    yield "another stream", lambda name: begin(name, entry()[:14] + b"\x00\x02" + entry()[16:]), {}, "Broken: {path} has stream 2: a log in a file has stream 1 alone"
    yield "cut in its first block", lambda name: (whole(name), altered(name, lambda data: data[:40])), {}, "Broken: stream 1: byte 0 of {path}: it ends at byte 40, and {path}.sums says 130: it lost its tail: it is corrupt"
    yield "cut in a later block", lambda name: (whole(name, b"a", b"b"), altered(name, lambda data: data[:-10])), {}, "it lost its tail: it is corrupt"
    yield "another byte", lambda name: (whole(name, b"abc"), altered(name, lambda data: data.replace(b"abc", b"abd"))), {}, "it is corrupt"
    yield "without its checksums", lambda name: (whole(name, b"a"), path_of(f"{name}.sums").unlink()), {}, "Broken: {path} has no {path}.sums: trust=True makes the checksums of what it has"
    yield "with older checksums", lambda name: (whole(name, *[b"x" * 4000] * 40), lines_without(name, 25)), {}, "bytes stand behind the last checksum, more than the one block that a writer leaves"
    yield "without the file", lambda name: (whole(name, b"a"), path_of(name).unlink()), {}, "Broken: {path} isn't there, and {path}.sums says that it was: put it back, or delete that too"
    yield "no log at all", lambda name: path_of(name).write_bytes(b"notes of a reader\n" * 9), {}, "Broken: {path} has no {path}.sums: trust=True makes the checksums of what it has"
    yield "no log at all, trusted", lambda name: path_of(name).write_bytes(b"notes of a reader\n" * 9), {"trust": True}, "Broken: stream 1: byte 0 of {path} is no block of this stream: length 1852798053"
    yield "a later part", lambda name: with_line(name, va.encode(va.Entry.of(LOG, 1, 4, 5, rows=[(1, 1, 0, b"a")])), 4), {}, "Broken: {path} begins with entry 4, and {path}.head-3 isn't there or is corrupt: put back that of the same copy"
    yield "an end of nothing", lambda name: with_line(name, va.encode(va.Entry.of(LOG, 1, 1, 5, ends=[(1, 1, 3)])), 1), {}, "is no log that can be gone on with: behind entry 0 stands no entry of this log"
    yield "lists that are none", lambda name: with_line(name, entry()[:32] + b"\x00\x09" + entry()[34:], 1), {}, "is no log that can be gone on with: behind entry 0 stands no entry of this log"
    yield "a capture's", captured, {}, "Broken: {path} is the log of a capture: connectors/postgres/capture goes on with it"
    yield "a capture's, by its identity", lambda name: with_line(name, future(b"vadungsil log\x01" + BITS + bytes(4) + b"\x02"), 1), {}, "is the log of a capture"
    yield "an identity of another version", lambda name: with_line(name, future(b"vadungsil log\x02"), 1), {}, "Broken: {path}: an identity of version 2, and this reads version 1"
    yield "half of an identity", lambda name: with_line(name, future(b"vadungsil log\x01abc"), 1), {}, "is no identity of a log"
    yield "times of another kind", lambda name: with_line(name, future(b"vadungsil log\x01" + BITS + bytes(4) + b"\x03"), 1), {}, "an identity with times of kind 3, and this knows kinds 0 to 2"
    yield "another identity", lambda name: whole(name, identity=BITS), {"identity": bytes(16)}, f"Broken: {{path}} has the identity {BITS.hex()}, and not {bytes(16).hex()}"
    yield "numbers, not a clock", whole, {"clock": True}, "Broken: the times of {path} are numbers: open it with clock=False"
    yield "a clock, not numbers", lambda name: whole(name, clock=True), {}, "Broken: the times of {path} are a clock's microseconds: open it with clock=True"
    yield "two streams", whole, {"streams": 2}, "ValueError: a log in a file has one stream, as one program writes it, and not 2"
    yield "another sync", whole, {"sync": "often"}, "ValueError: sync is each, group or never, and not 'often'"
    yield "another beat", whole, {"beat_seconds": 0}, "ValueError: beat_seconds is 0.001 to 4294967, and not 0"
    yield "a short identity", whole, {"identity": b"abc"}, "ValueError: identity is new, None or 16 bytes, and not b'abc'"
    yield "a folder", lambda name: path_of(name).mkdir(), {}, "IsADirectoryError: [Errno 21] Is a directory: '{path}'"
    yield "no folder", lambda name: None, {"path": FOLDER / "none" / "a.log"}, "FileNotFoundError: [Errno 2] No such file or directory: '" + str(FOLDER / "none")


def refused():
    """What stands there and is no log that can be gone on with has its words, and stays as it is."""
    problems = []
    for number, (told, make, words, wanted) in enumerate(refused_cases()):
        name = f"refused{number}.log"
        make(name)
        before = files(name) if told != "a folder" else None
        said = words_of(lambda name=name, words=words: va.LogFile(**{"path": path_of(name), "log": LOG, "clock": False, **words}), va.VadungsilError, OSError, ValueError)
        wanted = wanted.replace("{path}", str(path_of(name)))
        if wanted not in said or (before is not None and files(name) != before):
            problems.append(f"{told}: {said!r}, wanted {wanted!r}; the files {'stay' if before is None or files(name) == before else 'are others'}")
    report("what is no log that can be gone on with", problems, f"{number + 1} cases")


HOLD = "import sys; sys.path.insert(0, sys.argv[1]); import vadungsil as va; log = va.LogFile(sys.argv[2], 7, clock=False); print(log.commit([(1, 1, 9, b'a')]).number, flush=True); sys.stdin.read()"


def two_writers():
    """A second writer, in this process or another, is refused, and changes nothing; once the first is killed it begins."""
    path = path_of("two.log")
    with subprocess.Popen([sys.executable, "-c", HOLD, str(PACKAGE), str(path)], stdin=subprocess.PIPE, stdout=subprocess.PIPE, text=True) as child:
        try:
            number, before = child.stdout.readline(), files("two.log")
            wanted = f"LogInUse: another program writes to {path}"
            told = [words_of(lambda: va.LogFile(path, LOG, clock=False), va.VadungsilError), words_of(lambda: va.LogFile(path, LOG, clock=False, trust=True), va.VadungsilError)]
            pairs = [("another process", (number, told), ("2\n", [wanted] * 2)), ("nothing changes", files("two.log") == before, True)]
        finally:
            child.send_signal(signal.SIGKILL)
            child.wait(LIMIT)
    with va.LogFile(path, LOG, clock=False) as log:
        pairs += [("once it is killed", (log.number(1), log.term.number, log.born(1, 1), log.left_over), (3, 2, 2, [])),
                  ("in one process", words_of(lambda: va.LogFile(path, LOG, clock=False), va.VadungsilError), wanted)]
    report("two writers", differ(pairs))


def torn():
    """A writer that is killed leaves at most one block behind the last checksum, of any length: it is taken away, with a line, and what was acknowledged
    is there; of its checksum too."""
    it = written("torn.log", b"abcdefghij", b"klmnopqrst")
    data, sums = files("torn.log")
    lines = sums.splitlines(True)
    end = int(lines[-2].split()[0])
    last, problems = it.kept[-2], []
    cuts = [(data[:end + size], b"".join(lines[:-1])) for size in range(len(data) - end + 1)] + [(data, sums[:-size]) for size in range(1, len(lines[-1]) + 1)]
    for text, kept in cuts:
        for path, what in zip((path_of("cut.log"), path_of("cut.log.sums")), (text, kept)):
            path.write_bytes(what)
        with va.LogFile(path_of("cut.log"), LOG, clock=False, sync="never") as log:
            told = [f"byte {end} of {log.path}: {len(text) - end} bytes that have no checksum yet are taken away"] if len(text) > end else []
            problems += differ([(f"{len(text)} and {len(kept)}", (log.number(1), log.left_over, log.born(1, 0), log.born(1, 1)), (last + 1, told, last, None))])
    fresh = FOLDER / "fresh.log"
    for size in range(0, int(lines[0].split()[0]), 16):      # and of the first block, before which nothing is
        fresh.write_bytes(data[:size])
        pathlib.Path(f"{fresh}.sums").write_bytes(b"")
        with va.LogFile(fresh, LOG, clock=False, sync="never") as log:
            problems += differ([(f"the first {size} bytes", (log.number(1), log.term.number, len(log.left_over)), (1, 1, int(size > 0)))])
    report("what a killed writer leaves", problems, f"{len(cuts)} cuts")


def trusted():
    """A file without its checksums goes on once it is trusted, and has them then."""
    it = written("trusted.log", *[b"x" * 4000] * 40)
    path_of("trusted.log.sums").unlink()
    with va.LogFile(path_of(it.name), LOG, clock=False, trust=True) as log:
        pairs = [("it goes on", (log.number(1), log.term.number, log.born(1, 39)), (42, 2, 41))]
    pairs += [("with checksums", words_of(it.opened, va.VadungsilError), "")]
    report("a file whose checksums are made anew", differ([*pairs, *((told, 1, 0) for told in it.judged())]))


# ---------------------------------------------------------------- a disk that fails

def full():
    """A disk that is full: nothing stays of a commit, which says so, and the next one goes well once there is room. Each write of a log may be the one."""
    problems = []
    for sync in SYNCS:
        for at in range(1, 9):
            it = Played(f"full-{sync}-{at}.log", sync=sync)
            told, before = [], it.log.number(1)
            with failing(at, OSError(errno.ENOSPC, os.strerror(errno.ENOSPC)), ("write",)) as found:
                for turn in range(4):
                    told.append(words_of(lambda it=it, turn=turn: committed(it, turn), va.VadungsilError))
            number = before + (at + 1) // 2
            words = f"entry {number} is not written, and nothing of it stays" if sync != "group" else f"entry {number} and what was behind it are not written"
            wanted = [f"NotWritten: {it.log.path}: No space left on device; {words}" if turn == (at - 1) // 2 else "" for turn in range(4)]
            problems += differ([(f"{sync}, write {at}", (found, told, it.log.number(1)), (["write"], wanted, before + 3))])
            it.commit({9: b"behind"})
            it.log.close()
            problems += it.judged()
    report("a full disk", problems, f"{3 * 8} writes")


def committed(it, turn):
    """A commit that is flushed where nobody waits for the disk."""
    entry = it.log.commit([(1, turn, 9, bytes([turn]) * 30)])
    if it.log.sync == "group":
        it.log.flush()
    it.took(entry, {turn: bytes([turn]) * 30})


def limited():
    """The system's own limit on a file, met in a commit: the same, by no call of this check."""
    text = ("import resource, signal, sys; sys.path.insert(0, sys.argv[1]); import vadungsil as va; signal.signal(signal.SIGXFSZ, signal.SIG_IGN)\n"
            "log = va.LogFile(sys.argv[2], 7, clock=False)\nresource.setrlimit(resource.RLIMIT_FSIZE, (9000, 100000))\n"
            "for turn in range(4):\n    try:\n        print(log.commit([(1, turn, 9, b'x' * 4000)]).number)\n    except va.NotWritten as error:\n        print(error)\n"
            "resource.setrlimit(resource.RLIMIT_FSIZE, (100000, 100000))\nprint(log.commit([(1, 9, 9, b'y')]).number)\nlog.close()\n")
    path = path_of("limited.log")
    done = subprocess.run([sys.executable, "-c", text, str(PACKAGE), str(path)], capture_output=True, text=True, timeout=LIMIT, check=False)
    words = f"{path}: File too large; entry 4 is not written, and nothing of it stays\n"
    it = Played("limited.log")
    it.at = {3: {0: b"x" * 4000, 1: b"x" * 4000}, 4: {0: b"x" * 4000, 1: b"x" * 4000, 9: b"y"}}
    it.log.close()
    report("a file that may not grow", differ([("what it said", (done.stdout, done.stderr), (f"2\n3\n{words}{words}4\n", "")), *((told, 1, 0) for told in it.judged())]))


def not_synced():
    """Where fdatasync of a block fails nothing of it stays; where that of its checksum does it isn't known, the log takes no more, and who opens it anew
    sees what stays."""
    problems = []
    for at in range(1, 7):
        it = Played(f"synced-{at}.log")
        before, told = it.log.number(1), []
        with failing(at, OSError(errno.EIO, os.strerror(errno.EIO)), ("fdatasync",)):
            for turn in range(4):
                told.append(words_of(lambda it=it, turn=turn: committed(it, turn), va.VadungsilError))
        first = (at - 1) // 2
        if at % 2:
            words = f"NotWritten: {it.log.path}: Input/output error; entry {before + first + 1} is not written, and nothing of it stays"
            wanted, number = [words if turn == first else "" for turn in range(4)], before + 3
        else:
            words = f"NotKept: {it.log.path}: Input/output error; whether what is behind entry {before + first} stays isn't known: close the log and open it anew"
            wanted, number = ["" if turn < first else words for turn in range(4)], before + first + 1
            problems += differ([("a flush", words_of(it.log.flush, va.VadungsilError), words)])
            it.took(va.Entry.of(LOG, 1, number, number, rows=[(1, first, 9, bytes([first]) * 30)]), {first: bytes([first]) * 30})
        problems += differ([(f"sync {at}", told, wanted), ("its end", words_of(it.log.close, va.VadungsilError), "")])
        it.log = it.opened()
        problems += differ([(f"sync {at}, opened anew", it.log.number(1), number + 1)])
        it.commit({9: b"behind"})
        it.log.close()
        problems += it.judged()
    report("a disk that doesn't confirm", problems)


def of_a_thread():
    """What fails in a thread is raised by the next call, once where the log goes on; and at the end where no call came."""
    it = Played("thread.log", sync="group")
    error, until = OSError(errno.ENOSPC, os.strerror(errno.ENOSPC)), time.monotonic() + LIMIT
    with failing(1, error, ("write",)) as found:
        it.log.commit([(1, 1, 9, b"a")])
        while it.log._error is None and time.monotonic() < until:
            time.sleep(0.001)
        wanted = f"NotWritten: {it.log.path}: No space left on device; entry 2 and what was behind it are not written"
        pairs = [("it failed", found, ["write"]), ("the next call", words_of(lambda: it.log.commit([(1, 2, 9, b"b")]), va.VadungsilError), wanted), ("which didn't begin", it.log.number(1), 1)]
        it.commit({3: b"c"})
        it.log.flush()
    with failing(1, error, ("write",)):
        it.log.commit([(1, 4, 9, b"d")])
        pairs += [("an end", words_of(it.log.close, va.VadungsilError).replace("entry 3", "entry 2"), wanted)]
    report("what fails in a thread", differ([*pairs, *((told, 1, 0) for told in it.judged())]))


def interrupted():
    """An interrupt inside a commit: the log takes no more, and what was acknowledged is there when it is opened anew; an error of the block before the
    end of it isn't hidden by that of the end."""
    problems = []
    for at in range(1, 5):
        it = Played(f"interrupted-{at}.log")
        it.commit({1: b"a"})
        with failing(at, KeyboardInterrupt()):
            told = [words_of(lambda it=it: it.log.commit([(1, 2, 9, b"b")]), KeyboardInterrupt)]
        told += [words_of(lambda it=it: it.log.commit([(1, 3, 9, b"c")]), va.VadungsilError), words_of(it.log.close, va.VadungsilError)]
        wanted = f"NotKept: {it.log.path}: KeyboardInterrupt in a commit; whether what is behind entry 2 stays isn't known: close the log and open it anew"
        problems += differ([(f"call {at}", told, ["KeyboardInterrupt: ", wanted, ""])])
        it.log = it.opened()
        number = it.log.number(1)
        it.commit({4: b"d"})
        it.log.close()
        problems += differ([("what is there", number in (3, 4), True), ("the rows", [key for key, _ in own_keys(it.name)][:2], [1, 4] if number == 3 else [1, 2])])
    it = Played("unsaid.log")
    with failing(2, OSError(errno.EIO, os.strerror(errno.EIO)), ("fdatasync",)):
        told = [words_of(lambda: it.log.commit([(1, 1, 9, b"a")]), va.VadungsilError)[:8], words_of(it.log.close, va.VadungsilError)]
    it = Played("said by the end.log", sync="group")
    with failing(2, OSError(errno.EIO, os.strerror(errno.EIO)), ("fdatasync",)):
        it.log.commit([(1, 1, 9, b"a")])
        told += [words_of(it.log.close, va.VadungsilError)[:8], words_of(it.log.close, va.VadungsilError)]
    report("an interrupt, and errors at an end", problems + differ([("once", told, ["NotKept:", "", "NotKept:", ""])]))


def own_keys(name):
    """The rows of table 1, in the order of their entries."""
    return [(key, body) for it in reference.items_of(files(name)[0])[0] if isinstance(it, reference.Entry) for (table, key), (_, body) in it.rows if table == 1]


def moved():
    """Where the file was moved or deleted nothing is written, and once it is back the log goes on; a process that was forked off writes nothing."""
    it, problems = Played("moved.log"), []
    it.commit({1: b"a"})
    for name in ("moved.log", "moved.log.sums"):
        os.rename(path_of(name), path_of("aside"))
        told = words_of(lambda: it.log.commit([(1, 2, 9, b"b")]), va.VadungsilError)
        os.rename(path_of("aside"), path_of(name))
        problems += differ([(name, told, f"NotWritten: {it.log.path}: {name} was moved or deleted; entry {it.log.number(1) + 1} is not written, and nothing of it stays")])
        it.commit({3: name.encode()})
    child = os.fork()
    if not child:
        try:
            path_of("forked").write_text(words_of(lambda: it.log.commit([(1, 2, 9, b"b")]), va.VadungsilError))
            it.log.close()
        finally:
            os._exit(0)
    os.waitpid(child, 0)
    it.commit({4: b"c"})
    it.log.close()
    wanted = f"LogInUse: another program writes to {it.log.path}: the one that this one was forked off"
    report("a file that is moved, and a process that is forked off", [*problems, *differ([("the other process", path_of("forked").read_text(), wanted)]), *it.judged()])


def unread():
    """A file that can't be read has the system's words, with its name."""
    written("unread.log", b"a")
    own = os.pread

    def fails(*_):
        raise OSError(errno.EIO, os.strerror(errno.EIO))
    os.pread = fails
    try:
        told = words_of(lambda: va.LogFile(path_of("unread.log"), LOG, clock=False), OSError)
    finally:
        os.pread = own
    report("a file that can't be read", differ([("its words", told, f"OSError: [Errno 5] Input/output error: '{path_of('unread.log')}'"), ("it goes on", words_of(lambda: va.LogFile(path_of("unread.log"), LOG, clock=False), OSError), "")]))


def crashes():
    """Wherever a writer ends, between two calls of the system or inside a write: what was acknowledged is there, the entry on its way is whole or not
    there, and the next writer goes on."""
    at, is_on, problems = 0, True, []
    while is_on:
        at += 1
        name, kept, log = f"crash{at}.log", [], None
        with failing(at, Crash()) as found:
            try:
                for turn in range(2):
                    log = va.LogFile(path_of(name), LOG, clock=False)
                    kept += [log.commit([(1, key, 9, bytes([key]) * size) for key in range(count)]).number for count, size in ((1, 20), (30, 4000), (1, 20))]
                    log.close()
            except Crash:
                if log is not None:
                    log._items.drop()
        is_on = bool(found)
        with va.LogFile(path_of(name), LOG, clock=False) as log:
            entries = [it.number for it in reference.items_of(path_of(name).read_bytes())[0] if isinstance(it, reference.Entry)]
            problems += differ([(f"crash {at}", (entries[:len(kept)] == list(range(1, len(kept) + 1)) or [it for it in kept if it not in entries], entries), (True, list(range(1, log.number(1) + 1))))])
            log.commit([(1, 1, 9, b"on")])
        problems += differ([(f"crash {at}: checksums", summed(*files(name)), "")])
    report("wherever a writer ends, nothing acknowledged is lost", [*problems, *differ([("how many", at > 40, True)])], f"{at - 1} places")


# ---------------------------------------------------------------- identity, terms, forks, indexes

def own_rows(name, log=LOG):
    """The rows of table 0 by key: (time, body) of each version."""
    found = {}
    for it in reference.items_of(path_of(name).read_bytes())[0]:
        for (table, key), (_, body) in it.rows if isinstance(it, reference.Entry) else ():
            if table == 0:
                found.setdefault(key, []).append((it.time, body))
    return found


def identities():
    """The identity of a log and the term of each opening, by their bytes in FORMATS; none where none was asked for; and what is there decides."""
    it = Played("identity.log", identity=BITS, beat_seconds=1_000)
    it.commit({1: b"a"})
    first = it.log.term
    it.again()
    second = it.log.term
    it.words.update(beat_seconds=None, identity=None)
    it.again()
    third = it.log.term
    told = words_of(lambda: it.log.commit([(0, 9, 9, b"")]), ValueError)
    it.log.close()
    term = lambda number, of: bytes([1]) + number.to_bytes(8, "big") + of.bits.to_bytes(8, "big") + b"\x00\x01" + of.before[0].to_bytes(8, "big")
    rows = own_rows(it.name)
    pairs = [("the identity", rows[2], [(1, b"vadungsil log\x01" + BITS + (1_000_000).to_bytes(4, "big") + b"\x00"), (4, b"vadungsil log\x01" + BITS + bytes(5))]),
             ("the terms", rows[3], [(1, term(1, first)), (3, term(2, second)), (4, term(3, third))]), ("their ends", [it.before for it in (first, second, third)], [(0,), (2,), (3,)]),
             ("their bits", len({it.bits for it in (first, second, third)}), 3), ("table 0", told, "ValueError: table 0 is the log's own, where it has an identity: write to tables 1 to 65535"),
             ("as values", (it.log.identity, second), (va.Identity(BITS, 0, 0), va.Term(2, second.bits, (2,))))]
    with va.LogFile(path_of("drawn.log"), LOG) as one, va.LogFile(path_of("drawn too.log"), LOG) as two:
        pairs += [("drawn ones", (len(one.identity.bits), one.identity.bits == two.identity.bits, one.identity.times), (16, False, 1))]
    bare = Played("bare.log", identity=None)
    bare.commit({1: b"a"})
    size = path_of("bare.log").stat().st_size
    bare.words.update(identity="new")
    bare.again()
    pairs += [("none", (bare.log.identity, bare.log.term, own_rows("bare.log"), path_of("bare.log").stat().st_size, bare.log.commit([(0, 9, 9, b"")]).number), (None, None, {}, size, 2))]
    bare.log.close()
    shown = [bytes.fromhex(text) for text in re.findall(r"^\| (?:Identity|Term).* \| `([0-9a-f ]+)` \|$", (ROOT / "docs" / "FORMATS.md").read_text(encoding="utf-8"), re.M)]
    pairs += [("as docs/FORMATS.md shows them", shown, [va.Identity(BITS, 1000, 1).body(), va.Term(2, 0x0123456789abcdef, (5,)).body()])]
    report("an identity and terms", differ([*pairs, *((told, 1, 0) for told in it.judged())]))


def forks():
    """Another log has all that the first has, and goes on under its own id and identity; the first goes on as it was."""
    it = Played("first.log", sync="group")
    for number in range(40):
        it.commit({number % 7: bytes([number]) * 3000})
    it.log.fork(path_of("other.log"), LOG + 1)
    before, number = it.log.identity, it.log.number(1)
    it.commit({1: b"first"})
    refusals = [words_of(lambda path=path, log=log: it.log.fork(path_of(path), log), ValueError, OSError) for path, log in (("third.log", LOG), ("other.log", 9), ("first.log", 9))]
    it.log.close()
    pairs = [("refused", refusals, [f"ValueError: another log has another id than {LOG}"] + [f"FileExistsError: [Errno 17] a log is never forked over another file: '{path_of(name)}'" for name in ("other.log", "first.log")]),
             ("no file", path_of("third.log").exists(), False)]
    items = [reference.items_of(path_of(name).read_bytes())[0] for name in ("first.log", "other.log")]
    texts = [[it.line().replace(f"log {log} ", "") for it in of if isinstance(it, reference.Entry) and it.number <= number] for log, of in zip((LOG, LOG + 1), items)]
    with va.LogFile(path_of("other.log"), LOG + 1, clock=False) as other:
        pairs += [("all of it", texts[0], texts[1]), ("an identity of its own", (other.identity.bits == before.bits, other.identity.times), (False, 0)), ("its terms", own_rows("other.log")[3][-2][1][-8:], number.to_bytes(8, "big")),
                  ("the second is of the opening", (other.term.number, other.term.before), (2, (number + 1,))), ("the rows", (other.born(1, 1), other.commit([(1, 1, 9, b"other")]).number), (38, number + 3))]
    told = {log: [body for (table, key), (_, body) in reference.shown(reference.items_of(path_of(name).read_bytes())[0], 2 ** 62).items() if (table, key) == (1, 1)] for log, name in ((1, "first.log"), (2, "other.log"))}
    pairs += [("each goes on", told, {1: [b"first"], 2: [b"other"]})]
    with failing(3, OSError(errno.ENOSPC, os.strerror(errno.ENOSPC)), ("write",)):
        log = it.opened()
        with failing(2, OSError(errno.ENOSPC, os.strerror(errno.ENOSPC)), ("write",)):
            pairs += [("a full disk", words_of(lambda: log.fork(path_of("fourth.log"), 9), OSError), "OSError: [Errno 28] No space left on device")]
        log.close()
    pairs += [("leaves no file", [path.name for path in FOLDER.glob("fourth*")], [])]
    report("a fork", differ([*pairs, *((told, 1, 0) for told in it.judged())]))


def indexes():
    """With an index an opening reads what came behind it, and knows the same; one that is damaged, another's, or of more than the file has isn't used."""
    module.INDEX_ENTRIES, own = 20, module.INDEX_ENTRIES
    try:
        it, problems, index = Played("index.log", sync="never"), [], path_of("index.log.index")
        for number in range(60):
            it.commit({number % 13: bytes([number]) * 2000}, [(number + 5) % 13] if number > 13 else ())
        it.again()
        problems += differ([("it is used", it.log._indexed > 0, True), *((told, 1, 0) for told in it.judged())])
        it.commit({1: b"behind"})
        it.log.close()
        whole, kept = files(it.name), index.read_bytes()
        with_index = opened_state(it)
        for told, change in (("none", None), ("a flip", lambda data: data[:300] + bytes([data[300] ^ 1]) + data[301:]), ("cut", lambda data: data[:-40]), ("empty", lambda data: b""),
                             ("something else", lambda data: b"vadungsil index 1\n{}\n")):
            index.unlink() if change is None else index.write_bytes(change(kept))
            problems += differ([(told, opened_state(it, whole), (False, with_index[1]))])
        index.write_bytes(kept)
        other = written("index other.log", *[b"y" * 2000] * 61, sync="never")
        os.replace(path_of("index other.log.index"), index)
        problems += differ([("another log's", opened_state(it, whole), (False, with_index[1])), ("of more than is there", True, other is not None)])
        for path, text in zip((path_of(it.name), path_of(f"{it.name}.sums")), whole):      # a copy of before is put back: the index is of more than it has
            path.write_bytes(text if path.suffix != ".sums" else b"".join(text.splitlines(True)[:9]))
        end = int(path_of(f"{it.name}.sums").read_bytes().splitlines()[-1].split()[0])
        path_of(it.name).write_bytes(whole[0][:end])
        index.write_bytes(kept)
        problems += differ([("a copy of before", opened_state(it)[0], False)])
        report("an index", problems)
    finally:
        module.INDEX_ENTRIES = own


def opened_state(it, whole=None):
    """Whether an opening used an index, and what it knows; with these files."""
    for path, text in zip((path_of(it.name), path_of(f"{it.name}.sums")), whole or ()):
        path.write_bytes(text)
    module.INDEX_ENTRIES, own = 10 ** 9, module.INDEX_ENTRIES      # none is written
    try:
        log = it.opened()
        told = log._indexed > 0, {"number": log.number(1), "time": log.time, "born": dict(log._born), "identity": log.identity, "term": log.term._replace(bits=0), "retired": log.is_retired(1)}
        log.close()
        return told
    finally:
        module.INDEX_ENTRIES = own


# ---------------------------------------------------------------- a log without its beginning

def grown(name, **words):
    """A log of 60 commits, updates and removals among them."""
    it = Played(name, **words)
    for number in range(60):
        it.commit({number % 7: bytes([number])}, [(number + 3) % 7] if number > 7 and number % 4 == 0 else ())
    return it


def with_gone(name, gone):
    """Takes the entries that went back to where they were, so that the log can be judged whole."""
    path = path_of(name)
    data = path.read_bytes()
    path.write_bytes(gone + data)
    sums, before, begin = b"", b"", 0
    for end, last in [(4 + int.from_bytes(gone[:4], "big"), 1), (len(gone + data), [it.number for it in reference.items_of(data)[0] if isinstance(it, reference.Entry)][-1])]:
        line = f"{end} {last} {hashlib.sha256(before + (gone + data)[begin:end]).hexdigest()}\n".encode()
        sums, before, begin = sums + line, line, end
    path_of(f"{name}.sums").write_bytes(sums)


def frames_until(data, number):
    """The frames of a file before the one of an entry."""
    at = 0
    while data[at + 5] != 1 or int.from_bytes(data[at + 16:at + 24], "big") < number:
        at += 4 + int.from_bytes(data[at:at + 4], "big")
    return data[:at]


def compacted():
    """A log that was compacted goes on as if it hadn't been, also behind openings and a second time: with what went before it has all rows of each time."""
    it, problems, gone = grown("compacted.log", sync="group"), [], b""
    for before, wanted in ((5, 4), (5, 0), (31, 26), (10 ** 9, 30), (10 ** 9, 0)):
        whole = path_of(it.name).read_bytes() if not it.log.flush() else b""
        count = it.log.compact(before)
        begins = int.from_bytes(path_of(it.name).read_bytes()[16:24], "big")
        gone += frames_until(whole, begins)
        problems += differ([(f"before {before}", (count, sorted(one.name for one in FOLDER.glob("compacted.log*")), begins),
                             (wanted, ["compacted.log", f"compacted.log.head-{begins - 1}", "compacted.log.sums"], begins))])
    problems += differ([("where it begins", begins, it.log.number(1)), ("its checksums", summed(*files(it.name)), "")])
    it.commit({1: b"behind"}, [0, 2])
    it.again()
    problems += differ([("it goes on", (it.log.term.number, it.log.born(1, 0), refusal_of(lambda: it.log.commit(removes=[(1, 0)]))), (2, None, 31))])
    it.commit({0: b"again"}, [1])
    it.log.fork(path_of("compacted other.log"), LOG + 1)
    it.log.close()
    with va.LogFile(path_of("compacted other.log"), LOG + 1, clock=False) as other:
        problems += differ([("a fork", (other.born(1, 0), other.commit([(1, 5, 9, b"")]).ends[0].born), (it.kept[-1], it.log.born(1, 5)))])
    head = next(FOLDER.glob("compacted.log.head-*"))
    text = head.read_bytes()
    for change, words in ((lambda: head.write_bytes(text[:-1]), f"Broken: {path_of(it.name)} begins with entry {begins}, and {head} isn't there or is corrupt: put back that of the same copy"),
                          (lambda: shutil.copy(next(FOLDER.glob("compacted other.log.head-*")), head), f"Broken: {head} is of log {LOG + 1}, entry {begins - 1}"), (lambda: head.write_bytes(text), "")):
        change()
        problems += differ([("its head", words_of(it.opened, va.VadungsilError), words)])
    with_gone(it.name, gone)
    report("a compacted log goes on as if it were whole", problems + it.judged())


@contextlib.contextmanager
def crashing(at):
    """Has the writer end at the call of this number, of those that change files or folders; whether it came to it."""
    count, found = [0], []

    def one(name, own):
        def call(*given):
            count[0] += 1
            if count[0] == at:
                found.append(name)
            if count[0] >= at:      # also what it would still do where it is left by the error
                raise Crash
            return own(*given)
        return call
    with instead(one, "rename", "fsync", "unlink", "write", "fdatasync"):
        yield found


def compaction_crashes():
    """Wherever a writer ends in a compaction, the next one opens the log, whole or compacted, and goes on; so where the disk fails there."""
    problems, befores, places = [], set(), []
    source = grown("source.log")
    source.log.close()
    names = ("", ".sums")
    for error in (Crash(), OSError(errno.ENOSPC, os.strerror(errno.ENOSPC))):
        at, is_on = 0, True
        while is_on:
            at += 1
            for it in FOLDER.glob("cut off.log*"):
                it.unlink()
            for it in names:
                shutil.copy(f"{path_of('source.log')}{it}", f"{path_of('cut off.log')}{it}")
            log = va.LogFile(path_of("cut off.log"), LOG, clock=False)
            with crashing(at) if isinstance(error, Crash) else failing(at, error, ("write", "fdatasync")) as found:
                with contextlib.suppress(Crash, OSError, va.NotKept):
                    log.compact(31)
            is_on = bool(found)
            if isinstance(error, Crash):
                for it in (log._items.file, log._items.sums.file):
                    with contextlib.suppress(OSError):
                        os.close(it)
                log._is_closed = True
            else:
                log.close()
            with va.LogFile(path_of("cut off.log"), LOG, clock=False) as log:
                begins = int.from_bytes(path_of("cut off.log").read_bytes()[16:24], "big")
                befores.add(begins)
                told = (log.number(1), log.born(1, 3), log.term.number, sorted(it.name for it in FOLDER.glob("cut off.log*")))
                wanted = (63, source.log.born(1, 3), 3, sorted(["cut off.log", "cut off.log.sums", *([f"cut off.log.head-{begins - 1}"] if begins > 1 else [])]))
                log.commit([(1, 3, 9, b"on")])
            problems += differ([(f"{type(error).__name__} at {at} ({''.join(found)})", told, wanted), ("its checksums", summed(*files("cut off.log")), "")])
        places.append(at - 1)
    report("wherever a compaction ends, the log goes on", problems + differ([("whole and compacted ones", befores, {1, 31}), ("enough", min(places) > 5, True)]), f"{places} places")


def followed_on():
    """Who reads a file that is compacted begins anew, where it was; what went is no longer in it."""
    it = grown("followed.log")
    store = LogInFile(str(path_of(it.name)), LOG, False)
    try:
        reading = store.reading({1: 40}, 256)
        blocks = reading.read(0)
        it.log.compact(31)
        it.commit({1: b"behind"})
        told = words_of(lambda: reading.read(0), Behind)
        store.forget()
        again = store.reading({1: 61}, 256).read(0)
        store.forget()
        opened, store.sums.open = store.sums.open, lambda *words: it.log.compact(45) < 0 or opened(*words)      # it is compacted between its two files
        between = words_of(store.look, FileNotFoundError)
        store.forget()
        pairs = [("between its files", (between, store.see().number), (f"FileNotFoundError: [Errno 2] another file has come in its place: '{path_of(it.name)}'", 62)),
                 ("what it read", (blocks[-1][2].last, told), (61, f"Behind: {path_of(it.name)} was compacted")), ("what comes", [block.last for _, _, block in again], [62]),
                 ("what went", (store.first(1), store.gone(1)), (45, None))]
    finally:
        store.drop()
        it.log.close()
    report("a reader of a file that is compacted", differ(pairs))


# ---------------------------------------------------------------- asyncio, and nodes

async def tasks():
    """Tasks side by side: each returns once its own entry is on the disk."""
    path, pairs = path_of("async.log"), []
    async with va.AsyncLogFile(path, LOG, clock=False) as log:
        async def one(key):
            entry = await log.commit([(1, key, 9, b"x")])
            return entry.number, entry.number in {it.number for it in reference.items_of(path.read_bytes())[0] if isinstance(it, reference.Entry)}
        told = await asyncio.gather(*(one(key) for key in range(100)))
        pairs += [("each is there", sorted(told), [(number, True) for number in range(2, 102)])]
        async with log.transaction() as it:
            it.put(1, 5, 9, b"y")
        beaten = await log.beat(2, 1)
        pairs += [("a transaction", (it.entry.number, it.entry.ends[0].born), (102, 7)), ("a beat", (beaten[0].number, beaten[1:] == log.marks(), log.time), (103, True, 103)),
                  ("a refusal", [it.number for it in await asyncio.gather(log.commit(removes=[(1, 999)]), return_exceptions=True)], [31])]
        try:
            await va.AsyncLogFile(path, LOG, clock=False).open()
        except va.LogInUse as error:
            pairs += [("a second", str(error), f"another program writes to {path}")]
        with failing(1, OSError(errno.ENOSPC, os.strerror(errno.ENOSPC)), ("write",)):
            failed = await asyncio.gather(*(log.commit([(1, key, 9, b"z")]) for key in range(3)), return_exceptions=True)
        told = {type(it).__name__ for it in failed}
        pairs += [("a full disk", (told <= {"NotWritten", "Entry"}, "NotWritten" in told), (True, True))]
        kept = [it.number for it in failed if isinstance(it, va.Entry)]
        pairs += [("what goes on", (await log.commit([(1, 9, 9, b"on")])).number, 104 + len(kept))]
        await log.flush()
        await log.fork(path_of("async other.log"), 9)
        pairs += [("compacted", await log.compact(1), 0)]
        mark = await log.retire(1)
    pairs += [("retired", mark.m, va.LAST_TIME), ("closed", [str(it) for it in await asyncio.gather(log.commit([(1, 1, 9, b"")]), return_exceptions=True)], [f"the log {path} is closed"]),
              ("not open yet", words_of(lambda: va.AsyncLogFile(path, LOG).marks(), ValueError), "ValueError: the log isn't open yet: `async with`, or await its open()")]
    items, fault = reference.items_of(files("async.log")[0])
    return [*pairs, ("a whole file", fault, None), ("its checksums", summed(*files("async.log")), ""), ("numbers", [it.number for it in items if isinstance(it, reference.Entry)][-1], 104 + len(kept))]


def asynchronous():
    report("a log of tasks", differ(asyncio.run(tasks())))


def nodes():
    """A node that a follower feeds from the file has the rows of each time, also of a writer that was opened three times, and of a fork."""
    it = Played("nodes.log")
    for number in range(90):
        it.commit({number % 11: bytes([number])}, [(number + 3) % 11] if number > 11 else ())
        if number % 30 == 29:
            it.again()
    it.log.fork(path_of("nodes other.log"), LOG + 1)
    pairs, at = [], dict(it.at)
    for name, log in (("nodes.log", LOG), ("nodes other.log", LOG + 1)):
        with node_of(log) as port:
            pairs += [(name, (*followed(name, log, port), wrong_in(port, at)), (0, "", []))]
            pairs += compacted_nodes(it, port) if log == LOG else []
    it.log.close()
    report("nodes of a log in a file", differ(pairs))


@contextlib.contextmanager
def node_of(log):
    port = free_port()
    with Running(["node", "-q", "--log", str(log), "--streams", "1", "--port", str(port)]) as node:
        node.line()
        yield port


def followed(name, log, port, *more):
    """The status of a follower that feeds a node what there is, and what it said."""
    words = [str(FOLLOW), "--file", str(path_of(name)), "--log", str(log), "--streams", "1", "--node", str(port), "--once", *more]
    done = subprocess.run([sys.executable, *words], capture_output=True, text=True, timeout=LIMIT, check=False)
    return done.returncode, re.sub(r"follow: \d+ frames in \d+ blocks, \d+ bytes\n", "", done.stderr)


def wrong_in(port, times):
    """The times at which a node has other rows than the plain program, or none."""
    with va.Node(port) as asked:
        readable = asked.front().readable
        return [at for at, rows in times.items() if at and (at > readable or {row.key: row.row.body for row in asked.range(1, at=at)} != rows)]


def compacted_nodes(it, port):
    """A node that is named has to have what goes; a new one is filled by another, and fed from the file then."""
    has, before = it.log.number(1), files(it.name)
    it.commit({1: b"x"})
    refused = words_of(lambda: it.log.compact(10 ** 9, nodes=[port]), va.VadungsilError) if not it.commit({2: b"y"}) else ""
    wanted = f" has log {LOG} up to entry {has}, and not log {LOG} up to entry {has + 1}: nothing is dropped"
    pairs = [("a node that lacks some", refused.startswith("Broken: the node at ") and refused.endswith(wanted), True), ("nothing went", files(it.name)[0].startswith(before[0]), True)]
    pairs += [("what it has", (it.log.compact(has, nodes=[port]), followed(it.name, LOG, port), wrong_in(port, it.at)), (has - 1, (0, ""), []))]
    with node_of(LOG) as other:
        alone = followed(it.name, LOG, other)
        pairs += [("a new node alone", alone, (3, f"follow: stream 1: entries 1 to {has - 1} are no longer in {path_of(it.name)}\n"))]
        filled = followed(it.name, LOG, other, "--from", str(port))
        pairs += [("filled", (filled[0], wrong_in(other, it.at)), (0, []))]
    return pairs


# ---------------------------------------------------------------- hkrep feed --follow

class Feeding:
    """`hkrep feed --follow` of a log to a node, which is ended when the block is left."""

    def __init__(self, name, port, *more):
        words = [str(PROGRAM), "feed", "--port", str(port), "--follow", str(path_of(name)), *more]
        self.child = subprocess.Popen(words, stdin=subprocess.DEVNULL, stdout=subprocess.PIPE, stderr=subprocess.PIPE, text=True)

    def ends(self):
        """Its status, what it printed, and the last line that it told, once it has ended."""
        printed, told = self.child.communicate(timeout=LIMIT)
        return self.child.returncode, printed, told.splitlines()[-1:]

    def __enter__(self):
        return self

    def __exit__(self, *_):
        self.child.kill()
        self.child.wait()
        for it in (self.child.stdout, self.child.stderr):
            it.close()


def prefix_of(port, wanted=0):
    """Up to which entry a node has all, once that is this one, or the time is up."""
    until = time.monotonic() + LIMIT
    with va.Node(port) as asked:
        while (prefix := asked.streams()[0].prefix) < wanted and time.monotonic() < until:
            time.sleep(0.01)
    return prefix


def laid(name, data, sums):
    """A log in a file that has this."""
    path_of(name).write_bytes(data)
    path_of(f"{name}.sums").write_bytes(sums)


def feeding():
    """A node that `hkrep feed --follow` feeds has the rows of each time, also behind openings and compactions; it goes on until it is ended, or the node is."""
    it, pairs = grown("feeding.log"), []
    with node_of(LOG) as port, Feeding(it.name, port) as fed:
        for turn in range(4):
            it.commit({turn: b"more"}, [turn + 1])
            pairs.append((f"turn {turn}", prefix_of(port, it.log.number(1)), it.log.number(1)))
            if turn % 2:
                it.again()
            else:
                it.log.compact(31 + turn)
        with Feeding(it.name, port, "--messages", "2", "--batch", "3") as second:
            it.commit({1: b"last"})
            pairs += [("the last one", prefix_of(port, it.log.number(1)), it.log.number(1)), ("the rows", wrong_in(port, it.at), [])]
            for each in (fed, second):
                each.child.send_signal(signal.SIGINT)
                pairs.append(("ended", each.ends(), (-signal.SIGINT, "", [])))
    begins = int.from_bytes(path_of(it.name).read_bytes()[16:24], "big")
    line = f"stopped: entries 1 to {begins - 1} are no longer in the log, and the node lacks them: fill it from another node (hkrep pull), or from a save of one (hkrep load)"
    with node_of(LOG) as port, Feeding(it.name, port) as fed:
        pairs += [("a new node", fed.ends(), (1, "", [line])), ("has nothing", prefix_of(port), 0)]
    it.log.close()
    whole = grown("feeding whole.log")
    whole.log.close()
    with node_of(LOG) as port:
        fed = Feeding(whole.name, port)
        pairs.append(("another one", prefix_of(port, whole.kept[-1]), whole.kept[-1]))
    with fed:       # the node is gone, and nothing is written
        status, printed, _ = fed.ends()
        pairs.append(("without the node", (status, re.sub("[0-9]+", "N", printed)), (1, "refused N\n")))
    other = grown("feeding other.log")
    other.log.close()
    with node_of(LOG) as port, Feeding(whole.name, port) as fed:
        pairs.append(("before another comes", prefix_of(port, whole.kept[-1]), whole.kept[-1]))
        path_of(whole.name).unlink()
        for suffix in (".sums", ""):
            os.replace(path_of(f"{other.name}{suffix}"), path_of(f"{whole.name}{suffix}"))
        pairs.append(("another one of this id in its place", fed.ends()[:2], (1, "refused 23\n")))
    report("hkrep feed --follow", differ(pairs))


def feeding_torn():
    """What has no whole line yet isn't sent, and is once it has; the same of a line that the disk lost a part of."""
    it, pairs = written("whole fed.log", *[bytes([number]) * 50 for number in range(9)]), []
    data, sums = files(it.name)
    lines = sums.splitlines(True)
    ends, count = [int(line.split()[0]) for line in lines], len(lines) - 3
    laid("torn fed.log", data[:ends[count]], b"".join(lines[:count]))
    has = int(lines[count - 1].split()[1])
    with node_of(LOG) as port, Feeding("torn fed.log", port) as fed:
        path, path_of_sums = path_of("torn fed.log"), path_of("torn fed.log.sums")
        for told, text in (("without a line", b""), ("half of a line", lines[count][:40]), ("a part is lost", lines[count][:40] + bytes(20) + b"\n"), ("a line without its end", lines[count][:-1])):
            path_of_sums.write_bytes(b"".join(lines[:count]) + text)
            pairs.append((told, prefix_of(port, has), has))
            time.sleep(0.1)
            pairs.append((f"{told}, later", prefix_of(port), has))
        path_of_sums.write_bytes(b"".join(lines[:count + 1]))
        pairs.append(("a line", prefix_of(port, has + 1), has + 1))
        with open(path, "ab") as file, open(path_of_sums, "ab") as kept:
            file.write(data[ends[count]:])
            kept.write(b"".join(lines[count + 1:]))
        pairs += [("all", prefix_of(port, it.kept[-1]), it.kept[-1]), ("it goes on", fed.child.poll(), None)]
    report("hkrep feed --follow of what is torn", differ(pairs))


def unfed_cases():
    """What stands there, up to which entry it is sent, what is printed, and the words."""
    whole = written("whole unfed.log", *[b"x" * 4000] * 40)
    data, sums = files(whole.name)
    lines = sums.splitlines(True)
    ends, stopped = [0, *(int(line.split()[0]) for line in lines)], "stopped: byte {end} of {path}: "
    here = len(ends) // 2
    end, has = ends[here], int(lines[here - 1].split()[1])
    other = data[:end + 100] + bytes([data[end + 100] ^ 1]) + data[end + 101:]
    sum_of = lambda line: line[:-2] + bytes([line[-2] ^ 1]) + line[-1:]
    of = lambda name, *what: laid(name, *what)
    yield "no file", lambda name: None, 0, "", "stopped: can't follow, with its FILE.sums, the file {path}: No such file or directory (os error 2)"
    yield "without checksums", lambda name: path_of(name).write_bytes(data), 0, "", "stopped: can't follow, with its FILE.sums, the file {path}: No such file or directory (os error 2)"
    yield "another byte", lambda name: of(name, other, sums), has, "refused 91\n", stopped.replace("{end}", str(end)) + "the block that begins there has another checksum than FILE.sums says: it is corrupt"
    yield "another checksum", lambda name: of(name, data, b"".join([*lines[:here], sum_of(lines[here]), *lines[here + 1:]])), has, "refused 91\n", stopped.replace("{end}", str(end)) + "the block that begins there has another checksum than FILE.sums says: it is corrupt"
    yield "no line", lambda name: of(name, data, b"".join([*lines[:here], b"12 a line of a reader\n", *lines[here + 1:]])), has, "refused 91\n", stopped.replace("{end}", str(end)) + "FILE.sums has a line that is none of a block: it is corrupt"
    yield "a line without an end", lambda name: of(name, data, b"".join([*lines[:here], b"1" * 200])), has, "refused 91\n", stopped.replace("{end}", str(end)) + "FILE.sums has a line that is none of a block: it is corrupt"
    yield "cut", lambda name: of(name, data[:end + 100], sums), has, "refused 91\n", stopped.replace("{end}", str(end)) + "the file ends before the block does that begins there: it lost its tail"
    yield "older checksums", lambda name: of(name, data, b"".join(lines[:here])), has, "refused 91\n", stopped.replace("{end}", str(end)) + "more stands there, behind the last checksum, than the one block that a writer leaves: FILE.sums is older, or another file's"
    yield "empty checksums", lambda name: of(name, data, b""), 0, "refused 91\n", stopped.replace("{end}", "0") + "more stands there, behind the last checksum, than the one block that a writer leaves: FILE.sums is older, or another file's"
    yield "of another log", lambda name: va.LogFile(path_of(name), LOG + 1, clock=False).close(), 0, "refused 20\n", None


def unfed():
    """A file that isn't there, without its checksums, damaged or of another log ends `hkrep feed --follow` with 1 and a line; what stands before is sent."""
    pairs = []
    for number, (told, make, has, printed, line) in enumerate(unfed_cases()):
        name = f"unfed{number}.log"
        make(name)
        with node_of(LOG) as port, Feeding(name, port) as fed:
            status, out, words = fed.ends()
            pairs += [(told, (status, out, prefix_of(port)), (1, printed, has))]
            pairs += [(f"{told}: its words", words, [line.replace("{path}", str(path_of(name)))])] if line else []
    report("hkrep feed --follow of no log", differ(pairs))


STORIES = (a_log, retired, promises, threads, beats, refused, two_writers, torn, trusted, full, limited, not_synced, of_a_thread, interrupted, moved, unread, crashes, identities, forks, indexes, compacted, compaction_crashes, followed_on, asynchronous, nodes, feeding, feeding_torn, unfed)
# those that need the program
WITH_PROGRAM = (nodes, feeding, feeding_torn, unfed)


def main(words):
    start = time.monotonic()
    for story in STORIES:
        if (not words or story.__name__ in words) and (story not in WITH_PROGRAM or is_built(PROGRAM)):
            guarded(story)
    print(f"logs of a writer: {time.monotonic() - start:.1f} s")
    return ended()


if __name__ == "__main__":
    try:
        sys.exit(main(sys.argv[1:]))
    finally:
        shutil.rmtree(FOLDER, ignore_errors=True)
