"""A log in a file, for who has a primary of his own: what was committed is there after a crash.

FILE has the log's items and nothing else, so `hkrep` reads it; FILE.sums has its checksums (docs/FORMATS.md, "A log in
a file"). Nodes are fed by readers of the file: `connectors/file/follow`, or `hkrep feed`. A reader hands on what has
its line in FILE.sums, and nothing behind it; and before it hands it on it calls fdatasync on its own descriptors of
FILE and of FILE.sums. So no node ever has an entry that the file lacks after a crash.

Nothing of it is proved; numbers, births and marks are those of `LogWriter`. Standard library only."""
from __future__ import annotations

import atexit
import errno
import os
import struct
import threading
from time import monotonic
from typing import Any, Callable, Iterable, List, Optional, Union

from .address import Address
from .blocks import BLOCK_BYTES, Block, Framed, in_blocks
from .compacting import clean, compacted, recover, replace
from .errors import Broken, LogInUse, NotKept, NotWritten, Refused, VadungsilError
from .forking import copy_as
from .heads import read_head
from .identity import (
    BEAT,
    IDENTITY,
    KINDS,
    MICROSECONDS,
    MOMENTS,
    NAME,
    NUMBERS,
    OWN,
    TERM,
    Identity,
    Term,
    identity_of,
    term_of,
)
from .item_file import ItemFile, Unsynced
from .items import LEAST_REST, MOST_REST, encode
from .log_index import is_of, read_index, take_index, write_index
from .log_state import LogState
from .node import Node
from .sums import SUFFIX
from .values import LAST_TIME, Entry, Item, Mark, Written
from .writer import Clock, Place, Writing

SYNCS = ("each", "group", "never")
# how long a group of commits gathers, in seconds, and how many bytes of it wait at most before a commit waits for them
GROUP_SECONDS, MOST_WAITING = 0.002, 16 << 20
# an index is written where so many entries stand behind the last one
INDEX_ENTRIES = 10_000

Path = Union[str, "os.PathLike[str]"]


class Waiting:
    """An item that has its number, till it is in the file as was asked for, or isn't and `error` says why."""

    __slots__ = ("item", "frame", "before", "is_done", "error")

    def __init__(self, item: Item, before: int) -> None:
        self.item, self.frame, self.before = item, encode(item), before
        self.is_done = False
        self.error: Optional[VadungsilError] = None

    def framed(self) -> Framed:
        it = self.item
        if isinstance(it, Entry):
            return Framed(True, it.log, 1, it.number, it.time, self.frame)
        return Framed(False, it.log, 1, it.n, it.m, self.frame)

    def is_kept(self, number: int) -> bool:
        """Whether it is where the file has the entries up to this one. A last mark is the last of all."""
        return isinstance(self.item, Entry) and self.item.number <= number

    def name(self) -> str:
        return f"entry {self.item.number}" if isinstance(self.item, Entry) else "the last mark"


class LogFile(Writing):
    """A log of one stream in a file, which is made where it isn't there, and which one program writes at a time. Any
    thread may call it.

    `sync` says what a commit that returned promises:

    - "each": it is on the disk, by fdatasync; commits of several threads share one.
    - "group": it will be within some milliseconds, by a thread whose fdatasync serves all that came meanwhile. `flush`
      waits for that. What fails there is raised by the next call.
    - "never": nothing; the system decides when. It stays where the program is killed. Where the machine is, what came
      behind the last `flush` may be lost in part, which the next opening says (`Broken`; `trust` goes on with what is
      there).

    Opening reads what is there, also which rows stand, so that an update or a removal names the version that it ends;
    it goes on behind the last entry, and writes the mark of the last commit where that lacks. Unless `sync` is "never",
    all that it shows is on the disk then. What a writer that was killed left behind the last checksum was never kept,
    and is taken away: one block at most (`left_over` has a line for it). FILE.index, which is written at the end and
    behind a long reading, spares most of that reading; it may be deleted at any time, and isn't used where it doesn't
    belong to the file.

    `clock` is as for `LogWriter`, and on by default. With `beat_seconds`, at least 0.001, a thread commits a row of
    table 0, key 4, as `beat` does, where nothing was committed for so long, so that the log's resolved time goes on; it
    ends with the log. No mark is ever above the last commit.

    `identity` is of a log that begins here: "new" draws its 128 random bits, 16 bytes are these, None writes none.
    It stands in table 0, key 2, with the beat and the kind of times; and each opening commits a term, key 3
    (docs/FORMATS.md, "Table 0"). A log that exists has what it has: none is added to it, and another one than is asked
    for by 16 bytes is an error. Table 0 is the log's own then: other writes to it are an error (`ValueError`).

    `trust` makes the checksums anew, of what the file has: where they lack, or where it is known that the file is
    right.

    Raises at the opening: `LogInUse`: another program writes to it. `Broken`: what stands there is no log that this can
    go on with, and where and why: another log's, of another version, corrupt, cut off behind what was kept, without its
    checksums, a capture's, of other times than `clock`'s. `OSError` with the file's name: it can't be opened or read.
    `ValueError`: another number of streams than one, or a word that isn't named here. After each, what the files had is
    there. `NotWritten` and `NotKept` as of `commit`."""

    def __init__(
        self,
        path: Path,
        log: int,
        streams: int = 1,
        *,
        clock: Clock = True,
        sync: str = "each",
        beat_seconds: Optional[float] = None,
        identity: Union[None, str, bytes] = "new",
        trust: bool = False,
    ) -> None:
        if streams != 1:
            raise ValueError(f"a log in a file has one stream, as one program writes it, and not {streams}")
        if sync not in SYNCS:
            raise ValueError(f"sync is each, group or never, and not {sync!r:.80}")
        if beat_seconds is not None and not 0.001 <= beat_seconds <= 4_294_967:
            raise ValueError(f"beat_seconds is 0.001 to 4294967, and not {beat_seconds!r:.80}")
        if not (identity is None or identity == "new" or (isinstance(identity, bytes) and len(identity) == 16)):
            raise ValueError(f"identity is new, None or 16 bytes, and not {identity!r:.80}")
        super().__init__(log, streams, clock=clock)
        self.path, self.sync, self.beat_seconds = os.path.abspath(os.fsdecode(path)), sync, beat_seconds
        self._process = os.getpid()
        self.identity: Optional[Identity] = None
        self.term: Optional[Term] = None
        self.left_over: List[str] = []  # what was taken away at the opening, a line for each
        self._lock, self._disk = threading.RLock(), threading.Lock()  # of what is known here, and of the file
        self._waiting: List[Waiting] = []
        self._size = self._kept = self._indexed = 0
        self._owes_mark = self._is_closed = self._is_said = False
        self._error: Optional[VadungsilError] = None  # of a thread of its own, for the next call
        self._failed: Optional[NotKept] = None
        self._last = monotonic()
        self._closing, self._wake = threading.Event(), threading.Event()
        self._threads: List[threading.Thread] = []
        self._state = LogState(self.path)
        self._items = ItemFile(self.path, log, sync != "never", trust, self._state.take)
        self._items.say = self.left_over.append
        try:
            self._opened(identity)
        except BaseException as error:
            self._items.drop()
            if isinstance(error, OSError) and error.filename is None:
                raise OSError(error.errno, error.strerror, self.path) from error
            raise
        self._start()

    # ------------------------------------------------------------ opening

    def _opened(self, identity: Union[None, str, bytes]) -> None:
        items, state = self._items, self._state
        recover(self.path)
        see_head(self.path, self.log)
        items.lock()
        if not items.is_summed and not items.trust:
            raise Broken(3, f"{self.path} has no {self.path}{SUFFIX}: trust=True makes the checksums of what it has")
        index = read_index(self.path)
        if index is not None and is_of(index.said, items):
            take_index(index, items, state)
        else:
            self._begin_behind(state)
        self._indexed = state.number
        items.clear()
        clean(self.path, items.places.first)
        self._numbers, self.time, self._born = [state.number], state.time, state.born
        self._retired = [state.is_retired]
        self._kept = state.number
        self._see_own(identity)
        self._begin_term(identity)
        if self._numbers[0] - self._indexed >= INDEX_ENTRIES:
            self._write_index()

    def _begin_behind(self, state: LogState) -> None:
        """Has a state be that before the first entry of the file."""
        first = int.from_bytes(self._items.bytes_of(16, 24), "big")
        if self._items.bytes_of(5, 6) == b"\x01" and first > 1:
            read_head(self.path, self.log, first - 1, state)

    def _see_own(self, identity: Union[None, str, bytes]) -> None:
        """What table 0 says is what was asked for."""
        own = self._state.own
        try:
            self.identity = identity_of(own[IDENTITY]) if own.get(IDENTITY, b"").startswith(NAME) else None
            self.term = term_of(own[TERM]) if self.identity is not None and TERM in own else None
        except VadungsilError as error:
            raise Broken(3, f"{self.path}: {error}") from None
        there = self.identity
        if own.get(1, b"").startswith(b'{"system"') or (there is not None and there.times == MOMENTS):
            raise Broken(4, f"{self.path} is the log of a capture: connectors/postgres/capture goes on with it")
        if there is not None and there.times != self._times():
            words = f"{KINDS[there.times]}: open it with clock={there.times == MICROSECONDS}"
            raise Broken(4, f"the times of {self.path} are {words}")
        if isinstance(identity, bytes) and there is not None and there.bits != identity:
            raise Broken(4, f"{self.path} has the identity {there.bits.hex()}, and not {identity.hex()}")

    def _times(self) -> int:
        return NUMBERS if self._clock is None else MICROSECONDS

    def _begin_term(self, identity: Union[None, str, bytes]) -> None:
        """Writes who goes on from here, and the mark of the last commit where that lacks."""
        number, beat = self._numbers[0], round((self.beat_seconds or 0) * 1000)
        before = self.identity
        if before is None and number == 0 and identity is not None:
            bits = identity if isinstance(identity, bytes) else os.urandom(16)
            self.identity = Identity(bits, beat, self._times())
        elif before is not None:
            self.identity = before._replace(beat=beat)
        self._owes_mark = 0 < self._state.marked < self.time or (0 < self.time and not self._state.marked)
        if self._retired[0]:
            self.identity = before
            return
        if self.identity is not None:
            last = self.term.number if self.term is not None else 0
            self.term = Term(last + 1, int.from_bytes(os.urandom(8), "big"), (number,))
            puts = [(OWN, IDENTITY, 0, self.identity.body())] if self.identity != before else []
            entry = self._made([*puts, (OWN, TERM, 0, self.term.body())], (), 1, None)
            assert entry is not None
            self._push(entry)
        self._raise(self._write_waiting())

    def _start(self) -> None:
        if self.sync == "group":
            self._threads.append(threading.Thread(target=self._groups, name=f"group of {self.path}", daemon=True))
            atexit.register(self.close)
        if self.beat_seconds is not None:
            self._threads.append(threading.Thread(target=self._beats, name=f"beats of {self.path}", daemon=True))
        for it in self._threads:
            it.start()

    # ------------------------------------------------------------ writing

    def commit(
        self, puts: Iterable[Written] = (), removes: Iterable[Place] = (), stream: int = 1, time: Optional[int] = None
    ) -> Optional[Entry]:
        """As `LogWriter.commit`; the entry and its mark are in the file when it returns, and kept as `sync` says (with
        "group" they come there soon). Errors of `LogWriter.commit`, and `ValueError`: the log is closed, or a write is
        to table 0 of a log with an identity.

        `NotWritten`: the disk is full, or the write failed. Nothing of it stays, and nothing of what was committed
        behind the last flush that went well; the next commit may go well. `NotKept`: the disk didn't confirm it;
        whether it stays isn't known, and each later call raises this again: close the log and open it anew, which reads
        what is there. With "group" both are of earlier commits, and this one didn't begin."""
        put, gone = list(puts), list(removes)
        return self._settled(self._add(lambda: self._made(put, gone, stream, time)))

    def beat(self, table: int, key: int, tag: int = 0, stream: Optional[int] = None) -> List[Item]:
        """Commits a row whose body is the time in decimal digits, as `LogWriter.beat` does, and gives the entry and the
        mark that closes it, both of which are written. Errors as of `commit`."""
        entry = self._settled(self._add(lambda: self._made_beat(table, key, tag, stream)))
        assert entry is not None
        return [entry, Mark(self.log, 1, entry.number, entry.time)]

    def mark(self, stream: int) -> Mark:
        """The mark that closes a stream up to the last commit. It is in the file where that is."""
        with self._lock:
            return super().mark(stream)

    def marks(self) -> List[Mark]:
        """The marks of all streams that are not retired. They are in the file where the last commit is."""
        with self._lock:
            return super().marks()

    def retire(self, stream: int) -> Mark:
        """Writes the last mark of the stream: the log takes no commit from then on. Errors as of `commit`."""
        with self._lock:
            self._see()
            at = self._open(stream)
            mark = Mark(self.log, stream, self._numbers[at], LAST_TIME)
            it = Waiting(mark, self.time)
            self._retired[at] = True
            self._wait(it)
        self._settle(it)
        return mark

    def flush(self) -> None:
        """When it returns, all that was committed is on the disk, whatever `sync` says. Errors as of `commit`."""
        with self._disk:
            with self._lock:
                self._see()
            error = self._write_waiting()
            if error is None and self.sync == "never":
                error = self._sync_now()
        self._raise(error)

    def close(self) -> None:
        """Ends the beats, flushes unless `sync` is "never", writes FILE.index where much was written, and gives the
        file up. A second call does nothing, and one in a process that was forked off only gives it up there. Raises
        what wasn't raised yet, and is closed then too."""
        if os.getpid() != self._process:
            self._is_closed = True
            self._items.drop()
            return
        self._closing.set()
        self._wake.set()
        for it in self._threads:
            if it is not threading.current_thread():
                it.join()
        atexit.unregister(self.close)
        with self._disk:
            if self._is_closed:
                return
            self._is_closed = True
            try:
                other = self._write_waiting()
                error = self._error or (None if other is self._failed and self._is_said else other)
                if self._failed is None and error is None and self._numbers[0] - self._indexed >= INDEX_ENTRIES:
                    self._write_index()
            finally:
                self._items.drop()
        self._raise(error)

    def __enter__(self) -> "LogFile":
        return self

    def __exit__(self, kind: Any, *_: object) -> None:
        try:
            self.close()
        except VadungsilError:
            if kind is None:
                raise

    def fork(self, path: Path, log: int) -> None:
        """Makes another log, under another id, in another file, with all that this one has: `LogFile(path, log)` goes
        on there, and this one goes on as it was. The other has an identity of its own, where this one has one, and its
        first term names the last entry that both have; at times before that its table 0 says what this one's does.
        Commits wait meanwhile.

        `ValueError`: the same id. `FileExistsError`: a file is there already. Errors of `flush`, and `OSError`: it
        can't be written; then no file is left there."""
        if log == self.log:
            raise ValueError(f"another log has another id than {log}")
        with self._disk, self._lock:
            self._see()
            self._raise(self._write_waiting())
            copy_as(self._items, self._numbers[0], self.time, dict(self._born), self.identity, os.fsdecode(path), log)

    def compact(self, before: int, nodes: Iterable[Address] = ()) -> int:
        """Drops the entries of times below `before` from the file, but for the last entry of all, and returns how many.
        What has to be known of them to go on is kept in FILE.head-K, K the last that went: copy it with the file.
        Followers go on, and a new node is filled from another node (`--from`) or a save. Commits wait meanwhile.

        `nodes` are addresses of nodes that have to have what goes; `Broken`: one lacks it, or has another log, and
        nothing went. Errors of `Node`, of `flush`, and `OSError`: nothing went, for want of room, say. `NotKept`: it
        failed on the way, and the next opening goes on with it, or back."""
        with self._disk, self._lock:
            self._see()
            self._raise(self._write_waiting())
            first, state = self._items.places.first, LogState(self.path)
            self._begin_behind(state)
            last = 0
            try:
                last = compacted(self._items, state, before, lambda number: see_nodes(nodes, self.log, number))
            finally:
                if not last:
                    clean(self.path, first)
            if not last:
                return 0
            try:
                self._items = replace(self._items)
            except OSError as error:
                self._raise(self._fail([], error))
            except BaseException as error:
                self._interrupted([], error)
                raise
            self._indexed = 0
            clean(self.path, last + 1)
            return last - first + 1

    # ------------------------------------------------------------ parts of a commit

    def _see(self) -> None:
        """Raises what failed before, and where the log is closed."""
        if self._is_closed:
            raise ValueError(f"the log {self.path} is closed")
        if os.getpid() != self._process:
            raise LogInUse(1, f"another program writes to {self.path}: the one that this one was forked off")
        self._raise(self._failed)
        error, self._error = self._error, None
        self._raise(error)

    def _raise(self, error: Optional[VadungsilError]) -> None:
        """Raises what is wrong, if anything is."""
        if error is not None and error is self._failed:
            self._is_said = True
            raise NotKept(str(error)) from error.__cause__
        if error is not None:
            raise error

    def _add(self, make: Callable[[], Optional[Entry]]) -> Optional[Waiting]:
        """Gives a transaction its number. Nothing waits for the disk."""
        with self._lock:
            self._see()
            entry = make()
            if entry is None:
                return None
            tables = {*(it.table for it in entry.ends), *(it.table for it in entry.rows)}
            if self.identity is not None and OWN in tables:
                raise ValueError("table 0 is the log's own, where it has an identity: write to tables 1 to 65535")
            return self._push(entry)

    def _push(self, entry: Entry) -> Waiting:
        it = Waiting(entry, self.time)
        try:
            self._took(entry)
            self._wait(it)
        except BaseException as error:
            self._interrupted([], error)
            raise
        return it

    def _wait(self, it: Waiting) -> None:
        self._waiting.append(it)
        self._size += len(it.frame)
        self._last = monotonic()

    def _settled(self, it: Optional[Waiting]) -> Optional[Entry]:
        """The entry of a commit, once what `sync` promises is so."""
        if it is None:
            return None
        self._settle(it)
        assert isinstance(it.item, Entry)
        return it.item

    def _is_soon(self) -> bool:
        """Whether what waits is left to the thread of groups."""
        return self.sync == "group" and self._size < MOST_WAITING

    def _settle(self, it: Waiting) -> None:
        """Returns once what `sync` promises of an item is so."""
        if self._is_soon():
            self._wake.set()
            return
        with self._disk:
            if not it.is_done:
                error = self._write_waiting()
                if error is not None and it.error is None:
                    self._error = error
        self._raise(it.error)

    # ------------------------------------------------------------ the file

    def _write_waiting(self) -> Optional[VadungsilError]:
        """Writes all that waits, and behind it the mark that closes it; what is wrong then. One thread at a time."""
        items: List[Waiting] = []
        try:
            with self._lock:
                if self._failed is not None or not (self._waiting or self._owes_mark):
                    return self._failed
                items, self._waiting, self._size = self._waiting, [], 0
                framed = [it.framed() for it in items]
                if not self._retired[0]:
                    framed.append(Waiting(super().mark(1), 0).framed())
                self._owes_mark = True
            self._see_files()
            for block in in_blocks(framed, self._items.places.number, BLOCK_BYTES):
                self._write(block)
            self._owes_mark = False
        except Unsynced as error:
            return self._fail(items, error)
        except OSError as error:
            return self._give_up(items, error)
        except BaseException as error:
            self._interrupted(items, error)
            raise
        for it in items:
            it.is_done = True
        return None

    def _see_files(self) -> None:
        """`OSError`: what is at the paths isn't what was opened."""
        for path, file in ((self.path, self._items.file), (self._items.sums.path, self._items.sums.file)):
            try:
                is_it = os.path.samestat(os.stat(path), os.fstat(file))
            except FileNotFoundError:
                is_it = False
            if not is_it:
                raise FileNotFoundError(errno.ENOENT, f"{os.path.basename(path)} was moved or deleted", path)

    def _write(self, block: Block) -> None:
        for part in self._items.parts_of(block):
            self._items.write(part)
            self._kept = self._items.places.number

    def _give_up(self, items: List[Waiting], error: OSError) -> VadungsilError:
        """Takes back what isn't in the file, from the last commit on."""
        what = f"{self.path}: {error.strerror}"
        with self._lock:
            every, self._waiting, self._size = [*items, *self._waiting], [], 0
            for it in reversed(every):
                it.is_done = True
                if not it.is_kept(self._kept):
                    self._undo(it)
                    it.error = NotWritten(f"{what}; {it.name()} is not written, and nothing of it stays")
                    it.error.__cause__ = error
        left = [it for it in every if it.error is not None]
        said = f"{left[0].name()} and what was behind it are not written" if left else "the last mark is not written"
        found = NotWritten(f"{what}; {said}")
        found.__cause__ = error
        return found

    def _undo(self, it: Waiting) -> None:
        if isinstance(it.item, Mark):
            self._retired[0] = False
            return
        for put in it.item.rows:
            del self._born[put.table, put.key]
        self._born.update({(end.table, end.key): end.born for end in it.item.ends})
        self._numbers[0], self.time = it.item.number - 1, it.before

    def _fail(self, items: List[Waiting], error: OSError) -> NotKept:
        """The log takes no more."""
        with self._lock:
            words = f"{self.path}: {error.strerror}; whether what is behind entry {self._kept} stays isn't known"
            self._failed = NotKept(f"{words}: close the log and open it anew")
            self._failed.__cause__ = error
            for it in (*items, *self._waiting):
                it.is_done, it.error = True, None if it.is_kept(self._kept) else self._failed
            self._waiting, self._size = [], 0
            return self._failed

    def _interrupted(self, items: List[Waiting], error: BaseException) -> None:
        """What was begun isn't whole: the log takes no more."""
        self._fail(items, OSError(errno.EINTR, f"{type(error).__name__} in a commit"))

    def _sync_now(self) -> Optional[NotKept]:
        """What wasn't synced by each write."""
        try:
            self._items.sync()
            return None
        except OSError as error:
            return self._fail([], error)

    def _write_index(self) -> None:
        state = self._state
        state.number, state.time, state.marked = self._numbers[0], self.time, self.time
        state.born, state.is_retired = dict(self._born), self._retired[0]
        state.own = {}
        if self.identity is not None:
            state.own[IDENTITY] = self.identity.body()
        if self.term is not None:
            state.own[TERM] = self.term.body()
        write_index(self._items, state)
        self._indexed = self._numbers[0]

    # ------------------------------------------------------------ threads

    def _groups(self) -> None:
        """Writes what waits, again and again, with what comes meanwhile."""
        while not self._closing.is_set():
            self._wake.wait()
            self._closing.wait(GROUP_SECONDS)
            self._wake.clear()
            with self._disk:
                error = self._write_waiting()
                if error is not None and error is not self._failed:
                    self._error = error

    def _beats(self) -> None:
        """Beats where nothing was committed for so long, till the log ends."""
        seconds = self.beat_seconds or 0.0
        while not self._closing.wait(max(0.0, self._last + seconds - monotonic())):
            if monotonic() - self._last < seconds:
                continue
            try:
                with self._lock:
                    if self._failed is not None or self._is_closed:
                        return
                    it = self._push(self._made_beat(OWN, BEAT, 0, None))
                self._settle(it)
            except Refused:
                return  # retired, or no time is left
            except VadungsilError:
                continue  # who commits meets it too


def see_nodes(nodes: Iterable[Address], log: int, number: int) -> None:
    """4: a node hasn't all entries of a log up to this one."""
    for it in nodes:
        with Node(it) as node:
            told = node.delta(LAST_TIME)
            prefix = told.streams[0].prefix
            if told.log != log or prefix < number:
                has = f"the node at {node.name} has log {told.log} up to entry {prefix}"
                raise Broken(4, f"{has}, and not log {log} up to entry {number}: nothing is dropped")


def see_head(path: str, log: int) -> None:
    """`Broken`: what a file begins with is another log's, or of another version; or it isn't there, and was."""
    try:
        with open(path, "rb") as file:
            head = file.read(16)
    except FileNotFoundError:
        if os.path.exists(path + SUFFIX) and os.path.getsize(path + SUFFIX):
            lost = f"{path} isn't there, and {path}{SUFFIX} says that it was"
            raise Broken(3, f"{lost}: put it back, or delete that too") from None
        return
    if len(head) < 16:
        return
    length, version, kind, its_log, stream = struct.unpack(">IBBQH", head)
    if not LEAST_REST <= length <= MOST_REST or not 1 <= kind <= 2:
        return
    if not 1 <= version <= 2:
        raise Broken(3, f"{path} has items of version {version}, and this release reads versions 1 and 2")
    if its_log != log:
        raise Broken(4, f"{path} has log {its_log}, and not {log}")
    if stream != 1:
        raise Broken(4, f"{path} has stream {stream}: a log in a file has stream 1 alone")
