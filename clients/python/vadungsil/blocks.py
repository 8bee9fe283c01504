"""Blocks: what one message of an engine has. A block is one or more whole item frames of one stream, one behind the
other, with nothing between them; so a message of one frame is a block too. A block is known by two numbers: `last` is
the number of its last entry (of the entry before it, where it has marks alone), `first` the number behind the last
entry before it. Blocks of a stream follow one another where `first` is at most one above the `last` of before, and
entry n stands in the first block whose `last` is n or more. Repeats are free. Standard library only."""
from __future__ import annotations

import hashlib
import struct
from typing import Dict, Iterable, List, NamedTuple

from .errors import Broken, Fault
from .items import LEAST_REST, MOST_REST, head_of
from .values import LAST_TIME

# a block is cut where it has so much; a frame that is larger is a block by itself
BLOCK_BYTES, BLOCK_FRAMES = 65_536, 4_096

_HEAD = struct.Struct(">IBBQHQQ").unpack_from


class Block(NamedTuple):
    data: bytes
    frames: int  # how many
    first: int
    last: int
    latest: int  # the greatest time that its entries and marks speak of
    marked: int  # the greatest m of its marks, or 0
    earliest: int = 0  # the time of its first entry, or 0
    name: str = ""  # of the message, with its stream; empty where it is in none yet


class Framed(NamedTuple):
    """A frame and what it says of itself. An entry's `first` and `second` are number and time, a mark's n and m."""

    is_entry: bool
    log: int
    stream: int
    first: int
    second: int
    frame: bytes


def walked(data: bytes, last: int, log: int, stream: int, name: str) -> Block:
    """The block of a message of which the engine says that its last entry is `last`. Looks at the heads alone; 3 where
    it is no block of this stream, or another one than the engine says."""
    at, count, first, number, earliest, latest, marked, counted, size = 0, 0, 0, 0, 0, 0, 0, 0, len(data)
    while at + 32 <= size:
        length, version, kind, its_log, its_stream, its_first, time = _HEAD(data, at)
        if (
            its_log != log
            or its_stream != stream
            or not LEAST_REST <= length <= MOST_REST
            or not 1 <= version <= 2
            or not 1 <= kind <= 2
        ):
            break
        if kind == 1:
            if not first:
                first, earliest = its_first, time
            elif its_first != number + 1:
                raise no_block(name, misplaced(its_first, number))
            number = its_first
        else:
            counted, marked = max(counted, its_first - (number - first + 1 if first else 0)), max(marked, time)
        if time > latest:
            latest = time
        elif kind == 1:
            raise no_block(name, closed(its_first))
        at, count = at + 4 + length, count + 1
    if at != size or not count:
        raise no_block(name, reason(data[at:]) if at <= size else "its last frame is cut off")
    if first and number != last:
        raise no_block(name, f"its last entry is {number}, and it says {last}")
    first = first or last + 1
    if counted > first - 1:
        raise no_block(name, AHEAD)
    return Block(data, count, first, last, latest, marked, earliest, name)


AHEAD = "a mark counts entries that come behind it"


def no_block(name: str, why: str) -> Broken:
    """What is said of a message that is no block, or of the bytes of a file that begin no item."""
    return Broken(3, f"{name} is no block of this stream: {why}")


def sum_of(data: bytes) -> bytes:
    """The checksum of a message's block."""
    return hashlib.sha256(data).digest()


def see_sum(name: str, said: bytes, data: bytes) -> None:
    """3 where the bytes of a message aren't those that its checksum was made of. One of before has none."""
    own = sum_of(data)
    if said and own != said:
        raise Broken(3, f"{name}: its checksum is {own.hex()}, where it says {said.hex()[:64]}: it is corrupt")


def misplaced(number: int, before: int) -> str:
    return f"entry {number} stands behind entry {before}"


def closed(number: int) -> str:
    return f"entry {number} is of a time that the entries or marks before it have closed"


def reason(rest: bytes) -> str:
    """Why what begins so is no item frame of a stream."""
    if len(rest) < 32:
        return f"{len(rest)} bytes are no item frame"
    length, version, kind, log, stream, *_ = _HEAD(rest)
    if LEAST_REST <= length <= MOST_REST and 1 <= version <= 2 and 1 <= kind <= 2:
        return f"a frame of log {log}, stream {stream}"
    return f"length {length}, version {version}, kind {kind} are no item frame's"


def frames_of(data: bytes) -> List[bytes]:
    """The frames of a block that was walked."""
    at, frames = 0, []
    while at < len(data):
        end = at + 4 + int.from_bytes(data[at : at + 4], "big")
        frames.append(data[at:end])
        at = end
    return frames


def entries_of(data: bytes) -> Dict[int, bytes]:
    """The entries of a block, by number."""
    return {int.from_bytes(frame[16:24], "big"): frame for frame in frames_of(data) if frame[5] == 1}


def time_of(frame: bytes) -> int:
    """An entry's time, a mark's m."""
    return int.from_bytes(frame[24:32], "big")


class Cutter:
    """Cuts an input into frames, in pieces that come anyhow. Heads are held to the limits of docs/FORMATS.md, lists
    aren't looked at."""

    def __init__(self) -> None:
        self.left, self.passed = b"", 0

    def cut(self, piece: bytes) -> List[Framed]:
        data, at, found = self.left + piece, 0, []
        size, new = len(data), tuple.__new__  # in half the time of Framed(..)
        while at + 32 <= size:
            length, version, kind, log, stream, first, second = _HEAD(data, at)
            end = at + 4 + length
            is_entry = kind == 1
            is_framed = LEAST_REST <= length <= MOST_REST and 1 <= version <= 2 and 1 <= kind <= 2
            if not is_framed or not is_entry <= first <= second <= LAST_TIME or not 1 <= stream <= 64:
                self.fault(data[at : at + 32], length)
            if end > size:
                break
            found.append(new(Framed, (is_entry, log, stream, first, second, data[at:end])))
            at = end
        self.left, self.passed = data[at:], self.passed + at
        if 4 <= len(self.left) < 32 and not LEAST_REST <= int.from_bytes(self.left[:4], "big") <= MOST_REST:
            self.fault(self.left, int.from_bytes(self.left[:4], "big"))
        return found

    def fault(self, head: bytes, length: int) -> None:
        """Raises what is wrong with a head."""
        place = f"frame behind byte {self.passed}"
        if not LEAST_REST <= length <= MOST_REST:
            raise Fault(2 if length > MOST_REST else 10, place=f"{place}, length {length}")
        head_of(head)
        raise Fault(5, place=place)

    def finish(self) -> None:
        if self.left:
            raise Fault(1, place=f"the input ends inside a frame, {len(self.left)} bytes behind the last whole one")


class Line:
    """The frames of one stream on their way: in any order, late and twice; an entry waits for those before it, a mark
    for those that it counts."""

    def __init__(self, number: int, marked: int) -> None:
        self.next, self.marked = number + 1, marked
        self.early: Dict[int, Framed] = {}
        self.marks: Dict[int, Framed] = {}
        self.ready: List[Framed] = []
        self.size = self.early_size = 0

    def put(self, one: Framed) -> None:
        is_entry, _, _, number, _, frame = one
        if not is_entry:
            self.put_mark(one)
        elif number > self.next:
            self.put_early(one)
        else:
            self.ready.append(one)  # one below the next is there already: it is compared
            self.size += len(frame)
            if number == self.next:
                self.next = number + 1
                if self.marks or self.early:
                    self.wake()

    def put_early(self, one: Framed) -> None:
        before = self.early.setdefault(one.first, one)
        if before is one:
            self.early_size += len(one.frame)
        elif before.frame != one.frame:
            raise Broken(2, f"stream {one.stream}: the input has two entries {one.first}")

    def put_mark(self, one: Framed) -> None:
        if one.first < self.next:
            if one.second > self.marked:
                self.marked = one.second
                self.add(one)
        elif one.first not in self.marks or self.marks[one.first].second < one.second:
            self.marks[one.first] = one

    def wake(self) -> None:
        """What waited for the last entry."""
        while True:
            if self.next - 1 in self.marks:
                self.put_mark(self.marks.pop(self.next - 1))
            if self.next not in self.early:
                return
            one = self.early.pop(self.next)
            self.early_size -= len(one.frame)
            self.add(one)
            self.next += 1

    def add(self, one: Framed) -> None:
        self.ready.append(one)
        self.size += len(one.frame)

    def taken(self) -> List[Framed]:
        """Takes out what is ready."""
        ready, self.ready, self.size = self.ready, [], 0
        return ready

    def put_back(self, frames: List[Framed]) -> None:
        """Frames that were taken out are ready again, before what is ready now."""
        self.ready[:0] = frames
        self.size += sum(len(one.frame) for one in frames)

    def lacks(self) -> str:
        """What did not come, or nothing."""
        waiting = sorted([*self.early, *self.marks])
        return f"entry {self.next} has not come, and {waiting[0]} and what follows wait for it" if waiting else ""


def in_blocks(frames: Iterable[Framed], number: int, most_bytes: int) -> List[Block]:
    """New frames as blocks behind entry `number`."""
    blocks: List[Block] = []
    parts: List[bytes] = []
    size, first, last, latest, marked = 0, number + 1, number, 0, 0
    for is_entry, _, _, its_first, time, frame in frames:
        if parts and (size + len(frame) > most_bytes or len(parts) == BLOCK_FRAMES):
            blocks.append(Block(b"".join(parts), len(parts), first, last, latest, marked))
            parts, size, first, latest, marked = [], 0, last + 1, 0, 0
        if is_entry:
            last = its_first
        else:
            marked = time
        if time > latest:
            latest = time
        parts.append(frame)
        size += len(frame)
    return [*blocks, Block(b"".join(parts), len(parts), first, last, latest, marked)] if parts else blocks
