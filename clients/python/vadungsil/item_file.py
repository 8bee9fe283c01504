"""A log of one stream in a file: item frames one behind the other, as `hkrep` reads them, and nothing else. Beside it
are its checksums (sums.py). A writer writes one block, then its line, and only then the next block; the first block of
a file is one frame. So it leaves at most one block behind the last line, which wasn't kept: the next writer takes that
away, and readers wait. Where more stands there, the checksums are older or another file's, and writers and readers stop
(3). A file of before, without them, is read up to its last whole frame. Standard library only."""
from __future__ import annotations

import contextlib
import errno
import fcntl
import os
import struct
from bisect import bisect_left, bisect_right
from typing import Callable, Iterator, List, Optional, Tuple

from .blocks import (
    AHEAD,
    BLOCK_BYTES,
    Block,
    Cutter,
    closed,
    in_blocks,
    misplaced,
    no_block,
    reason,
    walked,
)
from .errors import Broken, Fault, LogInUse
from .items import LEAST_REST, MOST_REST, decode
from .sums import Line, Sums, line_of

_TWO = (1, 2)  # versions, and kinds
_HEAD, _PLACE = struct.Struct(">IBBQHQQ").unpack_from, struct.Struct(">QH").pack
# how much is looked at, at once
PIECE = 1 << 20


class Unsynced(OSError):
    """The line of a block was written and isn't synced: whether it stays isn't known."""


def last_entry(data: bytes) -> int:
    """The number of the last entry among whole frames, 0 where there is none."""
    at, number = 0, 0
    while at + 32 <= len(data):
        length, _, kind, _, _, first, _ = _HEAD(data, at)
        at, number = at + 4 + length, first if kind == 1 else number
    return number


class Places:
    """Where the blocks of a file end, each of 64 KB or one frame, with the number of the last entry up to there; and
    where what is whole ends. A file that grows is looked at from there on. Where bytes begin no item of the log, or one
    that can't stand there, is the end of what is whole, and `fault` says why."""

    def __init__(self, log: int, path: str) -> None:
        self.log, self.path = log, path
        self.ends: List[int] = []
        self.lasts: List[int] = []
        self.size = self.first = self.number = self.latest = 0
        self.fault: Optional[Broken] = None

    def add(self, data: bytes) -> int:
        """Takes whole frames that stand behind what was looked at, and says how many bytes they have."""
        at, begin, size, log = 0, self.ends[-1] if self.ends else 0, len(data), self.log
        number, latest, why = self.number, self.latest, ""
        while at + 32 <= size:
            length, version, kind, its_log, stream, first, time = _HEAD(data, at)
            is_next = first == number + 1 and time > latest if kind == 1 else first <= number
            if (
                not is_next
                or its_log != log
                or stream != 1
                or not LEAST_REST <= length <= MOST_REST
                or version not in _TWO
                or kind not in _TWO
            ):
                why = self.wrong(data[at : at + 32], number, latest)
            if why or at + 4 + length > size:
                break
            at += 4 + length
            if kind == 1:
                number, self.first = first, self.first or first
            if time > latest:
                latest = time
            if self.size + at - begin >= BLOCK_BYTES:
                begin = self.size + at
                self.ends.append(begin)
                self.lasts.append(number)
        self.size, self.number, self.latest = self.size + at, number, latest
        rest = data[at : at + 32]
        if not why and 0 < len(rest) < 32 and not self.may_begin(rest):
            why = reason(rest)
        if why:
            self.fault = no_block(f"stream 1: byte {self.size} of {self.path}", why)
        return at

    def state(self) -> Tuple[int, int, int, int, int]:
        return len(self.ends), self.size, self.first, self.number, self.latest

    def go_back(self, state: Tuple[int, int, int, int, int]) -> None:
        """To what it was before frames were added."""
        count, self.size, self.first, self.number, self.latest = state
        del self.ends[count:], self.lasts[count:]

    def wrong(self, head: bytes, number: int, latest: int) -> str:
        """Why an item can't stand behind entry `number` and these times, or nothing; a log may begin anywhere."""
        _, _, kind, _, _, first, time = _HEAD(head)
        if not self.may_begin(head):
            return reason(head)
        if kind == 1 and number and first != number + 1:
            return misplaced(first, number)
        if kind == 1 and time <= latest:
            return closed(first)
        return AHEAD if kind == 2 and number and first > number else ""

    def may_begin(self, head: bytes) -> bool:
        """Whether an item of the log may begin with these bytes."""
        least, most = (int.from_bytes(head[:4].ljust(4, fill), "big") for fill in (b"\0", b"\xff"))
        is_frame = least <= MOST_REST and most >= LEAST_REST and all(1 <= it <= 2 for it in head[4:6])
        return is_frame and _PLACE(self.log, 1).startswith(head[6:16])

    def around(self, number: int) -> Tuple[int, int]:
        """Where the block begins and ends that has an entry."""
        at = bisect_left(self.lasts, number)
        return self.ends[at - 1] if at else 0, self.ends[at] if at < len(self.ends) else self.size


class ItemFile:
    """Nothing is opened before the first call. With `fsync` nothing counts as kept before the system was asked to bring
    it to the disk. With `trust` its writer makes the checksums anew, of what the file has. `taken` is called with the
    bytes of each block that was looked at and has a checksum."""

    def __init__(
        self,
        path: str,
        log: int,
        fsync: bool = True,
        trust: bool = False,
        taken: Callable[[bytes], None] = lambda data: None,
    ) -> None:
        self.path, self.log, self.fsync, self.trust, self.taken = path, log, fsync, trust, taken
        self.file, self.places, self.is_writing = -1, Places(log, path), False
        self.drops = 0  # how often it was given up, to be opened anew
        self.sums, self.is_summed, self.has_said = Sums(path), None, False  # type: Sums, Optional[bool], bool
        self.rest = 0  # bytes behind what is whole
        self.say: Callable[[str], None] = lambda text: None  # what is worth a line

    def drop(self) -> None:
        if self.file >= 0:
            os.close(self.file)
        self.file, self.places, self.is_writing = -1, Places(self.log, self.path), False
        self.drops += 1
        self.sums.close()
        self.is_summed = None

    def prepare(self) -> None:
        """Opens the file for writing, which one program does at a time (1), and takes away what was cut off; what was
        never the begin of an item, isn't what its checksums say, or is more than a writer leaves stays (3)."""
        if not self.is_writing:
            self.lock()
            self.clear()

    def lock(self) -> None:
        """Opens the file for writing, and looks at nothing yet. 1: another program does."""
        self.drop()
        self.prepare_sums(not os.path.exists(self.path) or os.path.getsize(self.path) == 0)
        self.file = os.open(self.path, os.O_RDWR | os.O_CREAT | os.O_APPEND, 0o640)
        try:
            fcntl.flock(self.file, fcntl.LOCK_EX | fcntl.LOCK_NB)
        except BlockingIOError:
            raise LogInUse(1, f"another program writes to {self.path}") from None
        self.is_writing = True

    def clear(self) -> None:
        """Looks at what is there, and takes away what a writer left behind it."""
        if self.is_summed:
            self.look_runs()
        whole = self.see().size
        for line in self.left_over():
            self.say(f"{line} are taken away")
        os.ftruncate(self.file, whole)
        if self.is_summed:
            self.sums.cut()
            self.sums.renew()
        elif self.trust:
            self.sum_all()
        if self.fsync:
            self.sync()  # what is there counts as kept from here on, and who wrote it may have come no further

    def sync(self, names: bool = True) -> None:
        """Brings to the disk what was read or written: the file, then its checksums, which are of bytes that are there,
        and the names of both."""
        os.fdatasync(self.file)
        if self.is_summed:
            os.fdatasync(self.sums.file)
        if names:
            self.sync_folder()

    def sync_folder(self) -> None:
        """The names alone, where the folder may be read."""
        try:
            folder = os.open(os.path.dirname(os.path.abspath(self.path)), os.O_RDONLY)
        except PermissionError:
            return
        try:
            os.fsync(folder)
        finally:
            os.close(folder)

    # ------------------------------------------------------------ checksums

    def prepare_sums(self, is_empty: bool) -> None:
        """Begins with checksums where the file is empty; those of before aren't read where `trust` says so. They are
        there before the file is, so no reader sees it without."""
        self.is_summed = False
        if not self.trust:
            self.is_summed = self.sums.open(os.O_RDWR | os.O_APPEND | (os.O_CREAT if is_empty else 0))

    def sum_all(self) -> None:
        """Makes the checksums of what the file has: beside their place, then there."""
        new, old = self.sums.path + ".new", self.sums.path
        self.sums.path = new
        with contextlib.suppress(FileNotFoundError):
            os.unlink(new)
        self.is_summed = self.sums.open(os.O_RDWR | os.O_APPEND | os.O_CREAT)
        try:
            self.sum_blocks()
            os.fdatasync(self.sums.file)
            os.rename(new, old)
        except BaseException:
            os.unlink(new)
            raise
        self.sums.path = old

    def sum_blocks(self) -> None:
        """The line of each block."""
        for begin, end in zip([0, *self.places.ends], [*self.places.ends, self.places.size]):
            if begin < end:
                data = self.bytes_of(begin, end)
                last = last_entry(data) or self.number_before(begin)
                self.sums.add(line_of(end, last, self.sums.before, data))
                self.taken(data)

    def see_sums(self) -> bool:
        """Whether there are checksums, which is said once where there are none and the file has something."""
        if self.is_summed is None:
            self.is_summed = self.sums.open() or (None if os.fstat(self.file).st_size == 0 else False)
            self.see_one()
        if self.is_summed is False and not self.has_said and not self.trust:
            what = f"{self.path} has no {self.sums.path}"
            self.say(f"{what}: corrupt bytes may not show; its writer makes one with --trust")
            self.has_said = True
        return bool(self.is_summed)

    def see_one(self) -> None:
        """`FileNotFoundError`: the checksums that were opened behind the file may be those of the one that has come in
        its place."""
        if not os.path.samestat(os.stat(self.path), os.fstat(self.file)):
            self.drop()
            raise FileNotFoundError(errno.ENOENT, "another file has come in its place", self.path)

    def bytes_of(self, begin: int, end: int) -> bytes:
        """The bytes between two places, as far as they are there."""
        parts: List[bytes] = []
        while begin < end and (piece := os.pread(self.file, end - begin, begin)):
            parts.append(piece)
            begin += len(piece)
        return b"".join(parts)

    def look_runs(self) -> None:
        """Takes lines by the hundred, as far as all is right, where nobody else writes. What isn't is left to
        `look_summed`, which takes one after the other and says what is wrong."""
        while lines := self.sums.run(PIECE):
            data = self.bytes_of(self.sums.end, lines[-1].end)
            if not self.sums.are_right(lines, data) or self.unlike(lines[-1], data):
                return
            self.sums.take_run(lines)
            self.taken(data)

    def look_summed(self) -> Places:
        """Where the blocks are that have checksums. One that isn't what its line says is the end of what is whole, and
        so is the last line where more stands behind it than a writer leaves. The size is that of before the lines are
        read: a writer that goes on meanwhile has a line for all of it but one block."""
        size = os.fstat(self.file).st_size
        try:
            for line in self.sums.more():
                data = self.bytes_of(self.sums.end, line.end)
                why = self.sums.wrong(line, data) or self.unlike(line, data)
                if why:
                    raise Broken(3, f"stream 1: byte {self.sums.end} of {self.path}: {why}: it is corrupt")
                self.sums.take(line)
                self.taken(data)
        except Broken as broken:
            self.places.fault = broken
        self.rest = size - self.places.size
        if self.rest > 0 and not self.is_writing and self.sums.is_replaced():
            self.drop()  # they were made anew
        elif not self.places.fault and self.is_too_much():
            self.places.fault = self.too_much()
        return self.places

    def is_too_much(self) -> bool:
        """Whether more stands behind the last line than a writer leaves: the bytes of a block, or of the frame that
        begins there; of that frame alone where there is no line yet. Where no item begins there the disk lacks a part
        of a frame, which may be the longest."""
        if self.rest <= (BLOCK_BYTES if self.sums.end else 0):
            return False
        begin = self.places.size
        length = int.from_bytes(self.bytes_of(begin, begin + 4), "big")
        try:
            decode(self.bytes_of(begin, begin + 4 + min(length, MOST_REST)))
        except Fault:
            length = MOST_REST
        return self.rest > 4 + length

    def too_much(self) -> Broken:
        sums = self.sums.path
        place = f"stream 1: byte {self.places.size} of {self.path}: {self.rest} bytes stand behind the last checksum"
        why = f"more than the one block that a writer leaves: {sums} is older, or another file's"
        return Broken(3, f"{place}, {why}. Put back that of the same copy, or have the writer make it (--trust)")

    def unlike(self, line: Line, data: bytes) -> str:
        """Why the items of a block aren't those of its line, and then none of them is taken; empty where they are."""
        before, why = self.places.state(), ""
        if self.places.add(data) < len(data):
            why = f"byte {self.places.size} begins no item of the log"
        elif self.places.number != line.last:
            why = f"it ends with entry {self.places.number}, where {self.sums.path} says {line.last}"
        if why:
            self.places.go_back(before)
        return why

    # ------------------------------------------------------------ how far it is

    def look(self) -> Places:
        """Where the blocks are by now."""
        if self.file < 0:
            self.file = os.open(self.path, os.O_RDONLY)
        if self.places.fault:
            return self.places
        if self.see_sums():
            return self.look_summed()
        size, self.rest = PIECE, 0
        while not self.places.fault and (piece := os.pread(self.file, size, self.places.size)):
            taken = self.places.add(piece)
            self.rest = len(piece) - taken
            if not taken:
                if len(piece) < size:
                    break
                size *= 2  # a frame that is larger
        return self.places

    def see(self) -> Places:
        """The same; 3 where something else stands behind them."""
        places = self.look()
        if places.fault:
            raise places.fault
        return places

    def left_over(self) -> List[str]:
        size = self.look().size
        what = "have no checksum yet" if self.is_summed else "are no whole frame"
        return [f"byte {size} of {self.path}: {self.rest} bytes that {what}"] if self.rest > 0 else []

    def block(self, begin: int, end: int) -> Block:
        """The frames between two places; 3 where they are none of this log."""
        data = os.pread(self.file, end - begin, begin)
        last = last_entry(data) or self.number_before(begin)
        return walked(data, last, self.log, 1, f"stream 1: byte {begin} of {self.path}")

    def number_before(self, begin: int) -> int:
        """The last entry before a place."""
        at = bisect_right(self.places.ends, begin)
        start, number = (self.places.ends[at - 1], self.places.lasts[at - 1]) if at else (0, 0)
        return last_entry(os.pread(self.file, begin - start, start)) or number

    # ------------------------------------------------------------ appending

    def parts_of(self, block: Block) -> List[Block]:
        """A block as it is written: of 64 KB at most or of one frame, and the first of a file of one frame."""
        number, has_some = self.places.number, self.places.size > 0
        if block.frames == 1 or (has_some and len(block.data) <= BLOCK_BYTES):
            return [block]
        frames = Cutter().cut(block.data)
        first = [] if has_some else in_blocks(frames[:1], number, BLOCK_BYTES)
        return [*first, *in_blocks(frames[len(first) :], first[-1].last if first else number, BLOCK_BYTES)]

    def write(self, block: Block) -> None:
        """Writes a block, and then its line. Where that fails nothing of the block stays, and a later try may go well;
        but where the line was written and can't be synced, or what was written can't be taken away, it isn't known
        (`Unsynced`): drop it."""
        behind = self.places.size
        try:
            write_all(self.file, block.data)
            if self.fsync:
                os.fdatasync(self.file)
            if self.is_summed:
                self.sums.add(line_of(behind + len(block.data), block.last, self.sums.before, block.data))
        except OSError as error:
            self.take_back(behind, error)
            raise
        self.places.add(block.data)
        if self.fsync and self.is_summed:
            self.sync_sums()

    def take_back(self, behind: int, error: OSError) -> None:
        """A part of a block helps nobody, and the next try begins with none."""
        try:
            if self.is_summed:
                self.sums.cut()
            os.ftruncate(self.file, behind)
        except OSError as other:
            raise Unsynced(other.errno, f"{error.strerror}; and that can't be taken back: {other.strerror}") from error

    def sync_sums(self) -> None:
        """Readers may have the block already."""
        try:
            os.fdatasync(self.sums.file)
        except OSError as error:
            raise Unsynced(error.errno, error.strerror) from error


def write_all(file: int, data: bytes) -> None:
    left = memoryview(data)
    while left:
        left = left[os.write(file, left) :]
