#!/usr/bin/env python3
"""A log in a file whose machine loses its power, and whose writer is killed or fails at any write: no node has an entry that the file lacks behind it,
nothing that was acknowledged is lost, nothing is damaged in silence, and the next writer goes on.

    log_cuts.py                    100 cuts and 100 kills
    log_cuts.py cuts 1000 7        so many cuts, of this seed: by hand
    log_cuts.py kills 1000 7       so many kills

The writer and those who read its file, `connectors/file/follow` and `hkrep feed --follow` by turns, run with a library preloaded that notes what they do
(tests/faults/noted_disk.c); of the notes tests/lib/noted_disk.py makes what the disk may have, wherever the power goes. The node is
tests/lib/reference.py, and so is who judges the items. Prints a line for each check and ends with 'N passed, M failed'. Needs cc and bin/hkrep. Standard
library only."""
import argparse
import contextlib
import copy
import os
import pathlib
import random
import runpy
import select
import shutil
import signal
import socket
import subprocess
import sys
import tempfile
import time

ROOT = pathlib.Path(__file__).resolve().parents[2]
sys.path[:0] = [str(ROOT / "tests" / "lib"), str(ROOT / "clients" / "python"), str(ROOT / "connectors" / "file"), str(ROOT / "connectors" / "common")]
import reference
from checks import differ, ended, guarded, is_built, report, skip
from noted_disk import CUT, SENT, SYNCING, WRITTEN, Disk, Sent, frames_of, library, notes_in, noting, put_back
from vadungsil import Broken, Done, Fragment, Front, LogFile, LogWriter, NotKept, NotWritten, Stream, encode, encode_reply
from vadungsil.blocks import Cutter

from feeding import Patience
from log_in_file import LogInFile
from publishing import Publisher

LOG, CUTS, KILLS, LIMIT = 9, 100, 100, 120
FOLLOW, PROGRAM = ROOT / "connectors" / "file" / "follow", ROOT / "bin" / "hkrep"
# of each run so many cuts are looked at
EACH = 10
FILE, ACKNOWLEDGED = "a.log", "acknowledged"
# the table whose rows say which transaction an entry is
MADE = 2
# how many transactions those have who are killed, how many of them are killed in one story, and how
STRIVEN, TRIES, HOWS = 12, 20, ("end", "half", "behind", "full", "fault")
# how a writer brings things to the disk
SYNCS = ("each", "group", "never")
SEE = "See to the disk, and whether the file is whole, before the next try"


class Story(AssertionError):
    """What went otherwise than it should."""


def holds(condition, text):
    if not condition:
        raise Story(text)


# ---------------------------------------------------------------- processes

def forked(work, *words):
    """A process that does this work and ends: its number. What goes wrong there is said on standard error, and its status is 1."""
    child = os.fork()
    if child:
        return child
    status = 1
    try:
        signal.signal(signal.SIGINT, signal.SIG_DFL)
        work(*words)
        status = 0
    except SystemExit as end:
        status = end.code or 0
    except BaseException as error:  # pylint: disable=broad-except
        sys.stderr.write(f"{work.__name__}: {type(error).__name__}: {error}\n")
    finally:
        os._exit(status)


def over(child, until):
    """The status of a process that ends by itself, in time."""
    while time.monotonic() < until:
        number, status = os.waitpid(child, os.WNOHANG)
        if number:
            return os.waitstatus_to_exitcode(status)
        time.sleep(0.001)
    os.kill(child, signal.SIGKILL)
    os.waitpid(child, 0)
    raise Story("a process doesn't end")


class Replica:
    """A node: the replica of the reference behind a port, one frame after the other. `has` gets the last entry up to which it has all, each time that
    items came."""

    def __init__(self, has):
        self.held, self.operations, self.has = reference.Held(LOG, 1), 0, has
        self.door = socket.create_server(("127.0.0.1", 0))
        self.links = {}

    def prefix(self):
        taken = reference.entries_of(self.held.items, 1)
        return next(number for number in range(len(taken) + 1) if number + 1 not in taken)

    def turn(self, seconds):
        """Answers what has come, and waits so long for the first of it."""
        for it in select.select([self.door, *self.links], [], [], seconds)[0]:
            if it is self.door:
                self.links[it.accept()[0]] = b""
                continue
            try:
                data = it.recv(1 << 20)
            except ConnectionError:  # a follower that didn't wait so long
                data = b""
            self.links[it] += data
            self.answer_all(it)
            if not data:
                del self.links[it]
                it.close()

    def answer_all(self, link):
        rest = self.links[link]
        while len(rest) >= 4 and len(rest) >= (end := 4 + int.from_bytes(rest[:4], "big")):
            with contextlib.suppress(ConnectionError):
                link.sendall(encode_reply(self.answer(rest[5], rest[6:end])))
            rest = rest[end:]
        self.links[link] = rest

    def answer(self, kind, body):
        if kind == 16:
            self.held.take(body[4:])
            self.operations += 1
            self.has(self.prefix())
            return Done(self.operations)
        closed = reference.closed(self.held.items, 1)
        if kind == 17:
            return Front(0, closed)
        return Fragment(LOG, int.from_bytes(body, "big"), 0, (Stream(self.prefix(), closed),))

    def close(self):
        for it in (self.door, *self.links):
            it.close()


# ---------------------------------------------------------------- the writer and the follower

def opened(path, sync, seed):
    """The writer of a log, who goes on behind what is there; most logs say nothing of themselves, so an opening writes nothing to them."""
    return LogFile(path, LOG, clock=False, sync=sync, identity="new" if seed % 5 < 2 else None)


def puts_of(seed, number):
    """The rows of a transaction: one that says which one it is, and a few small ones, or now and then more than a block has."""
    chance = random.Random(f"{seed} {number}")
    if chance.random() < 0.05:
        return [(MADE, number, 0, b""), *((1, key, number, chance.randbytes(4_000)) for key in range(1, 20))]
    return [(MADE, number, 0, b""), *((1, key, number, chance.randbytes(chance.randrange(200))) for key in chance.sample(range(1, 20), chance.randint(0, 3)))]


def acknowledging(folder):
    return os.open(folder / ACKNOWLEDGED, os.O_WRONLY | os.O_CREAT | os.O_APPEND)


def write(path, sync, seed, count, reached):
    """Commits, notes what is acknowledged, and often waits until the node has it."""
    chance, log, kept, waiting = random.Random(seed), opened(path, sync, seed), acknowledging(path.parent), []
    for number in range(1, count + 1):
        waiting.append(log.commit(puts_of(seed, number)))
        if sync == "each" or chance.random() < 0.15:
            log.flush()
            os.write(kept, b"".join(map(encode, waiting)))
            waiting = []
        if chance.random() < 0.4:
            reached(log.number(1))
        if chance.random() < 0.05:
            log.close()
            log = opened(path, sync, seed)
        if chance.random() < 0.05:
            reached(log.number(1))
            log.compact(log.time - 5)
    log.close()


def strive(path, sync, seed, count):
    """The same, whatever fails. What isn't written is committed again; where it isn't known, the log is opened anew, and what isn't there
    is. At the second failure there is room on the disk."""
    log, kept, failures = None, acknowledging(path.parent), 0
    for number in range(1, count + 1):
        while True:
            try:
                log = log or opened(path, sync, seed)
                if log.born(MADE, number) is None:
                    entry = log.commit(puts_of(seed, number))
                    log.flush()
                    os.write(kept, encode(entry))
                break
            except (NotWritten, NotKept, OSError) as error:
                failures += 1
                if failures == 2:
                    del os.environ["DISK_HOW"]
                holds(failures < 9, "it fails without an end")
                log = after(error, log)
    closed(log)


def after(error, log):
    """The log that goes on behind an error, or None where it is to be opened anew."""
    return log if isinstance(error, NotWritten) else closed(log)


class Room(Patience):
    """What waits for room on the disk, which there is at the second try."""

    def wait(self, reason):
        if self.said:
            os.environ.pop("DISK_HOW", None)
        self.said = str(reason)


def publish(path, _, seed, count):
    """The same over what a capture keeps its log by, which compares what is there: where the disk fails otherwise it ends, and is begun anew."""
    kept, is_on = acknowledging(path.parent), True
    while is_on:
        log, store, is_on = LogWriter(LOG, 1), LogInFile(str(path), LOG), False
        publisher = Publisher(store, argparse.Namespace(block=65_536, patience=LIMIT, confirm=False, heads=True))
        publisher.patience = Room("publish")
        try:
            publisher.begin()
            for number in range(1, count + 1):
                entry = encode(log.commit(puts_of(seed, number)))
                publisher.put(Cutter().cut(entry + encode(log.marks()[0])))
                publisher.flush_all()
                os.write(kept, entry)
        except OSError:
            is_on = True
        store.drop()


def closed(log):
    """Closes a log, if there is one, whose disk may fail."""
    with contextlib.suppress(NotWritten, NotKept):
        if log:
            log.close()


def follow(path, port, said):
    sys.argv = [str(FOLLOW), "--file", str(path), "--log", str(LOG), "--streams", "1", "--node", str(port)]
    sys.stderr = open(said, "w", encoding="utf-8")
    runpy.run_path(str(FOLLOW), run_name="__main__")


def feed(path, port, said):
    """The same by the program, in the place of this process; unlike the other it asks for a file that is there."""
    while not path.exists():
        time.sleep(0.001)
    with open(said, "w", encoding="utf-8") as file, open(os.devnull, "w", encoding="utf-8") as nothing:
        os.dup2(file.fileno(), 2)
        os.dup2(nothing.fileno(), 1)
    os.execv(PROGRAM, [str(PROGRAM), "feed", "--port", str(port), "--follow", str(path)])


# who reads a file and hands it on
FOLLOWERS = (follow, feed)


class Run:
    """A writer, a follower of its file and a node, from their begin until the writer has ended and the node has all that the file has: what they noted, and
    what was there before. `fails` is how the writer's disk fails, `lies` of which files the follower syncs nothing, `by` who the follower is."""

    def __init__(self, folder, sync, seed, count=40, lies=None, by=follow, **fails):
        self.name, self.sync, self.seed, self.count, self.lies, self.fails = f"{by.__name__} {sync} {seed}", sync, seed, count, lies, fails
        self.by = by
        self.folder, self.noted, self.said = folder / self.name, folder / f"{self.name}.notes", folder / f"{self.name}.said"
        self.file = self.folder / FILE
        self.folder.mkdir()
        if seed % 2:
            log = opened(self.file, sync, seed)
            log.commit([(1, 1, 0, b"before")])
            log.close()
        self.begin = Disk(self.folder)
        self.play()
        self.notes = notes_in(self.noted)
        self.noted.unlink()

    def play(self):
        read, told = os.pipe()
        replica = Replica(lambda number: os.write(told, number.to_bytes(8, "big")))
        children = [forked(self.write, read), forked(self.follow, replica.door.getsockname()[1])]
        try:
            self.serve(replica, children)
        finally:
            for it in children:
                os.kill(it, signal.SIGKILL)
                os.waitpid(it, 0)
            replica.close()
            os.close(read)
            os.close(told)

    def write(self, read):
        has = [0]

        def reached(number):
            while has[0] < number:
                has[0] = int.from_bytes(os.read(read, 8), "big")
        noting(self.folder, self.noted, slow=12, **self.fails)
        write(self.file, self.sync, self.seed, self.count, reached)

    def follow(self, port):
        noting(self.folder, self.noted, **({} if self.lies is None else {"lies": self.lies}))
        self.by(self.file, port, self.said)

    def serve(self, replica, children):
        """Answers until the writer has ended, whom it takes out of the children, and the node has all."""
        until = time.monotonic() + LIMIT
        while len(children) == 2 or replica.prefix() < last_of(self.file):
            replica.turn(0.01)
            number, status = os.waitpid(children[0], os.WNOHANG) if len(children) == 2 else (0, 0)
            if number:
                del children[0]
                holds(status == (signal.SIGKILL if self.fails else 0), f"{self.name}: the writer ended with {status}")
            if os.waitid(os.P_PID, children[-1], os.WEXITED | os.WNOHANG | os.WNOWAIT) or time.monotonic() > until:
                raise Story(f"{self.name}: the node lacks what was written; the follower said {self.said.read_text(encoding='utf-8')!r}")


def last_of(file):
    """The last entry of a file, by its checksums."""
    lines = pathlib.Path(f"{file}.sums").read_bytes().rpartition(b"\n")[0].splitlines()
    return int(lines[-1].split()[1]) if lines else 0


class Left:
    """What is there where the power goes behind these notes: the folder's files, the frames that nodes were handed, and those of the entries that were
    acknowledged."""

    def __init__(self, begin, notes, chance, how=None):
        disk, sent, kept = copy.deepcopy(begin), Sent(), b""
        for it in notes:
            disk.take(it)
            sent.take(it)
            kept += it.data if (it.what, it.name) == (WRITTEN, ACKNOWLEDGED) else b""
        self.files, self.handed, self.kept = disk.left(chance, how), sent.frames, frames_of(kept)
        self.files.pop(ACKNOWLEDGED, None)


# ---------------------------------------------------------------- who judges

def entries_in(data):
    """The entries of what is whole of item frames, by number; and the fault behind them, if there is one."""
    items, fault = reference.items_of(data)
    return {it.number: it for it in items if isinstance(it, reference.Entry)}, fault


def lost(what, frames, there, first=1):
    """The entries of these frames, from the first on that wasn't dropped, that aren't there, or otherwise."""
    wanted, _ = entries_in(b"".join(frames))
    return [f"entry {number}, which {what}, is {'another' if number in there else 'not there'}" for number, it in wanted.items()
            if number >= first and (number not in there or there[number].rest(2) != it.rest(2))]


def first_in(there, names):
    """The first entry that wasn't dropped, by the head that stands beside the file then."""
    first = min(there, default=1)
    return first if f"{FILE}.head-{first - 1}" in names else 1


def strange(there, seed):
    """The entries that are none of the story's transactions, or one of them again."""
    made = {number: key for number, it in there.items() for (table, key), _ in it.rows if table == MADE}
    wrong = [number for number, key in made.items() if there[number].rows != sorted(((table, at), (tag, body)) for table, at, tag, body in puts_of(seed, key))]
    return [f"entry {number} has other rows than were written" for number in wrong] + differ([("transactions", sorted(made.values()), sorted(set(made.values())))])


def goes_on(left, sync, seed, folder):
    """What is wrong with what is left, once the next writer has begun there and committed: the file is whole and has all of these, and a node that has what it
    was handed takes all of it. A log that is never synced may be refused, and stays as it is: then these stand before what is damaged."""
    put_back(folder, left.files)
    file = folder / FILE
    try:
        log = opened(file, sync, seed)
        log.commit([(1, 99, 9, b"behind it")])
        log.close()
    except Broken as broken:
        there, _ = entries_in(left.files.get(FILE, b""))
        is_as_it_was = {it.name: it.read_bytes() for it in folder.iterdir()} == left.files
        problems = [] if sync == "never" and is_as_it_was else [f"the next writer doesn't begin: {broken}"]
        return problems + lost("a node was handed", left.handed, there, first_in(there, left.files))
    finally:
        there, fault = entries_in(file.read_bytes() if file.exists() else b"")
        first = first_in(there, [it.name for it in folder.iterdir()])
        shutil.rmtree(folder)
    node = reference.Held(LOG, 1)
    node.take(*left.handed)
    node.take(*[reference.frame(it) for it in there.values()])
    return [*differ([("the file's fault", fault, None), ("its numbers", sorted(there), list(range(first, first + len(there))))]),
            *lost("a node was handed", left.handed, there, first), *lost("was acknowledged", left.kept, there, first), *strange(there, seed)]


# ---------------------------------------------------------------- cuts

def one_cut(run, number, chance):
    """A cut anywhere, or right behind a request: what is wrong behind it."""
    sent = [at for at, it in enumerate(run.notes, 1) if it.what == SENT and len(it.data) > 100]
    at = chance.choice(sent) if chance.random() < 0.5 else chance.randrange(len(run.notes) + 1)
    problems = goes_on(Left(run.begin, run.notes[:at], chance), run.sync, run.seed, run.folder / f"cut{number}")
    return [f"cut {number}, {run.name}, behind {at} of {len(run.notes)} notes: {it}" for it in problems]


def cuts(folder, count=CUTS, seed=1):
    """Wherever the power goes, the file has what nodes were handed and what was acknowledged, and the next writer goes on behind it."""
    problems = []
    for number in range(0, count, EACH):
        run = Run(folder, SYNCS[number // EACH % len(SYNCS)], seed * 1_000_000 + number // EACH, by=FOLLOWERS[number // EACH % len(FOLLOWERS)])
        for each in range(number, min(number + EACH, count)):
            problems += one_cut(run, each, random.Random(f"{seed} {each}"))
        shutil.rmtree(run.folder)
    report(f"{count} cuts of the power", problems)


def turns_in(notes):
    """Those notes that are a writer's calls which may fail, in their order; it notes first."""
    return [it for it in notes if it.what in (WRITTEN, CUT, SYNCING) and it.name != ACKNOWLEDGED and it.process == notes[0].process]


def unsynced_line(folder, by, lies):
    """What is lost behind the end of a writer that is killed between the line of its last block and its sync, where a follower syncs nothing of such files,
    or all."""
    count, seed, sums = 6, 20, f"{FILE}.sums"
    dry = Run(folder, "each", seed, count, by=by)
    shutil.rmtree(dry.folder)
    at = max(at for at, it in enumerate(turns_in(dry.notes), 1) if (it.what, it.name) == (SYNCING, sums))
    run = Run(folder, "each", seed, count, lies, by, at=at, how="end")
    shutil.rmtree(run.folder)
    return goes_on(Left(run.begin, run.notes, random.Random(1), "nothing"), "each", seed, folder / "behind")


def liars(folder):
    """What a follower hands on of a writer that is killed before it synced its last line stays, and the same check sees one that doesn't sync both files."""
    pairs = []
    for by in FOLLOWERS:
        run = Run(folder, "never", 11, lies="", by=by)
        left = Left(run.begin, run.notes, random.Random(1), "nothing")
        shutil.rmtree(run.folder)
        pairs += [(f"{by.__name__} that syncs both", unsynced_line(folder, by, None), []),
                  (f"{by.__name__} that doesn't sync the checksums", bool(unsynced_line(folder, by, ".sums")), True),
                  (f"{by.__name__} that syncs nothing", bool(lost("a node was handed", left.handed, entries_in(left.files.get(FILE, b""))[0])), True)]
    report("a follower that doesn't sync is seen", differ(pairs))


def fed_until_end(folder, by, **fails):
    """The status of a follower of the file there, whose disk fails so; what it said last, and whether a node took items of it."""
    replica, said, until = Replica(lambda number: None), folder.parent / f"{folder.name}.said", time.monotonic() + LIMIT

    def fed():
        noting(folder, folder.parent / f"{folder.name}.notes", **fails)
        by(folder / FILE, replica.door.getsockname()[1], said)
    child = forked(fed)
    try:
        while not os.waitid(os.P_PID, child, os.WEXITED | os.WNOHANG | os.WNOWAIT) and not replica.operations:
            replica.turn(0.01)
            holds(time.monotonic() < until, "a follower neither feeds nor ends")
    finally:
        os.kill(child, signal.SIGKILL)
        _, status = os.waitpid(child, 0)
        replica.close()
    lines = [line for line in said.read_text(encoding="utf-8").splitlines() if "no reply within" not in line]
    return os.waitstatus_to_exitcode(status), lines[-1:], replica.operations > 0


def failing_syncs(folder):
    """A follower that can't bring to the disk what it read hands on nothing of it, and ends with 1."""
    place = folder / "failing"
    place.mkdir()
    with opened(place / FILE, "each", 0) as log:
        log.commit([(1, 1, 0, b"kept")])
    said = {follow: f"follow: {place / FILE}: what was read can't be brought to the disk ([Errno 5] Input/output error), and is not handed on. {SEE}",
            feed: f"stopped: byte {(place / FILE).stat().st_size} of {place / FILE}: what was read can't be brought to the disk, and isn't sent: {SEE[0].lower()}{SEE[1:]}"}
    pairs = [(f"{by.__name__}, sync {at}", fed_until_end(place, by, at=at, how="fault"), (1, [said[by]], False)) for by in FOLLOWERS for at in (1, 2, 3)]
    pairs += [(f"{by.__name__}, none fails", fed_until_end(place, by), (-signal.SIGKILL, [], True)) for by in FOLLOWERS]
    report("a follower whose disk fails hands on nothing of it", differ(pairs))


# ---------------------------------------------------------------- kills

STORIES = ((strive, "each"), (strive, "group"), (strive, "each"), (strive, "group"), (publish, "each"))


class Kill:
    """A writer that strives while its disk fails, or that is killed, and one that opens the log behind it: what they noted, and what was there before."""

    def __init__(self, folder, seed, **fails):
        self.work, self.sync = STORIES[seed % len(STORIES)]
        self.folder, noted = folder / "kill", folder / "kill.notes"
        self.folder.mkdir()
        self.begin = Disk(self.folder)
        self.ends = [over(forked(work, noted, seed, words), time.monotonic() + LIMIT) for work, words in ((self.strive, fails), (self.show, {}))]
        self.notes = notes_in(noted)
        noted.unlink()

    def strive(self, noted, seed, fails):
        noting(self.folder, noted, **fails)
        self.work(self.folder / FILE, self.sync, seed, STRIVEN)

    def show(self, noted, seed, fails):
        """What a log shows that was opened counts as acknowledged."""
        noting(self.folder, noted, **fails)
        log = opened(self.folder / FILE, self.sync, seed)
        os.write(acknowledging(self.folder), (self.folder / FILE).read_bytes())
        log.close()


def one_kill(folder, number, seed, turns, chance):
    """What is wrong behind a kill or a failure at a write, a cut or a sync: with what stands then, and where the power goes too."""
    how, at = chance.choice(HOWS), chance.randint(1, turns)
    kill = Kill(folder, seed, at=at, how=how)
    problems = [] if kill.ends in ([0, 0], [-signal.SIGKILL, 0]) else [f"it doesn't go on: {kill.ends}"]
    end = len(kill.notes)
    for place in (chance.randrange(end + 1), end):
        left = Left(kill.begin, kill.notes[:place], chance)
        problems += [f"{it}, without power behind {place} of {end} notes" for it in goes_on(left, kill.sync, seed, folder / "behind")]
    left.files = {it.name: it.read_bytes() for it in kill.folder.iterdir() if it.name != ACKNOWLEDGED}
    problems += goes_on(left, kill.sync, seed, folder / "behind")
    shutil.rmtree(kill.folder)
    return [f"kill {number}, {kill.work.__name__} {kill.sync}, {how} at {at} of {turns}: {it}" for it in problems]


def kills(folder, count=KILLS, seed=1):
    """Wherever a writer is killed, its disk is full or fails, nothing that it acknowledged is lost, and the next one goes on."""
    problems = []
    for number in range(count):
        story = seed * 1_000_000 + number // TRIES
        if number % TRIES == 0:
            dry = Kill(folder, story)
            shutil.rmtree(dry.folder)
        problems += one_kill(folder, number, story, len(turns_in(dry.notes)), random.Random(f"{seed} {number}"))
    report(f"{count} kills and failures of a writer", problems)


CHECKS = (cuts, liars, failing_syncs, kills)


def main():
    if not shutil.which("cc"):
        skip("cc is not installed: no log is cut off")
        return ended()
    if not is_built(PROGRAM):
        return ended()
    folder = pathlib.Path(tempfile.mkdtemp(prefix="log_cuts")).resolve()
    try:
        if "noted_disk" not in os.environ.get("LD_PRELOAD", ""):
            return subprocess.run([sys.executable, *sys.argv], env={**os.environ, "LD_PRELOAD": str(library(folder))}, check=False).returncode
        os.environ["DISK_FOLDER"] = str(folder)  # the disk waits for nothing
        begin = time.monotonic()
        if len(sys.argv) == 4:
            guarded({"cuts": cuts, "kills": kills}[sys.argv[1]], folder, int(sys.argv[2]), int(sys.argv[3]))
        else:
            for check in CHECKS:
                guarded(check, folder)
        print(f"logs cut off: {time.monotonic() - begin:.1f} s")
        return ended()
    finally:
        shutil.rmtree(folder)


if __name__ == "__main__":
    sys.exit(main())
