"""The fields of a frame, one after the other, and the frames of bytes that come in pieces."""
from __future__ import annotations

import struct
from typing import Callable, Generic, Iterable, List, Optional, Tuple, TypeVar, Union

from .errors import Fault, Refused
from .values import LAST_TIME, MOST_BODY, Row, trusted_row

Bytes = Union[bytes, bytearray, memoryview]
Value = TypeVar("Value")

_U16, _U32, _U64 = (struct.Struct(form).unpack_from for form in (">H", ">I", ">Q"))


class Reader:
    """The rest of a frame, read field by field. A field that does not fit is 10."""

    __slots__ = ("data", "at", "start")

    def __init__(self, data: bytes, start: int = 0) -> None:
        """`start`: where the data begins in the frame, for the places of faults."""
        self.data, self.at, self.start = data, 0, start

    def fault(self, number: int, what: str, size: int = 0) -> Fault:
        """A fault at the field that was just read, which has so many bytes."""
        return Fault(number, place=f"byte {self.start + self.at - size}, {what}")

    def u8(self, what: str) -> int:
        at = self.at
        if at >= len(self.data):
            raise self.fault(10, what)
        self.at = at + 1
        return self.data[at]

    def u16(self, what: str) -> int:
        try:
            value: int = _U16(self.data, self.at)[0]
        except struct.error:
            raise self.fault(10, what) from None
        self.at += 2
        return value

    def u32(self, what: str) -> int:
        try:
            value: int = _U32(self.data, self.at)[0]
        except struct.error:
            raise self.fault(10, what) from None
        self.at += 4
        return value

    def u64(self, what: str) -> int:
        try:
            value: int = _U64(self.data, self.at)[0]
        except struct.error:
            raise self.fault(10, what) from None
        self.at += 8
        return value

    def time(self, what: str) -> int:
        """A number up to 2^62, else 6."""
        value = self.u64(what)
        if value > LAST_TIME:
            raise self.fault(6, what, 8)
        return value

    def take(self, size: int, what: str) -> bytes:
        if self.at + size > len(self.data):
            raise self.fault(10, what)
        self.at += size
        return bytes(self.data[self.at - size : self.at])

    def row(self) -> Row:
        tag, size = self.u32("tag"), self.u16("body length")
        if size > MOST_BODY:
            raise self.fault(9, "body length", 2)
        return trusted_row(tag, self.take(size, "body"))

    def end(self) -> None:
        if self.at != len(self.data):
            raise self.fault(10, f"{len(self.data) - self.at} bytes are left")


class FrameFeeder(Generic[Value]):
    """Takes bytes in pieces and gives the values of whole frames. A fault is permanent: it is raised, and again at each
    later call; the values before it are given by the call that met it, as `error.before`, and by nothing else."""

    least, most, noun = 2, 2**28, "frame"

    def __init__(self) -> None:
        # what came of the next frame, and how many bytes it has to be before it is looked at: till then a piece costs
        # its own bytes alone
        self._kept, self._wanted = bytearray(), 4
        self._fault: Optional[Refused] = None
        self.count = 0

    def decode(self, rest: bytes) -> Value:
        """The value of the rest of a frame."""
        raise NotImplementedError

    def feed(self, piece: Bytes) -> List[Value]:
        """The values of the frames that this piece completes."""
        return [value for value, _ in self.feed_frames(piece)]

    def feed_frames(self, piece: Bytes) -> List[Tuple[Value, bytes]]:
        """The same, each with the bytes of its frame."""
        if self._fault is not None:
            raise self._fault
        self._kept += piece
        found: List[Tuple[Value, bytes]] = []
        if len(self._kept) < self._wanted:
            return found
        data, at, self._wanted = bytes(self._kept), 0, 4
        try:
            while len(data) - at >= 4:
                size = int.from_bytes(data[at : at + 4], "big")
                if size > self.most or size < self.least:
                    raise Fault(2 if size > self.most else 10, place=f"byte 0, length {size}")
                if len(data) - at < 4 + size:
                    self._wanted = 4 + size
                    break
                found.append((self.decode(data[at + 4 : at + 4 + size]), data[at : at + 4 + size]))
                at += 4 + size
                self.count += 1
        except Refused as fault:
            self._fault = fault.at(f"{self.noun} {self.count + 1}")
            fault.before = [value for value, _ in found]
            raise
        finally:
            del self._kept[:at]
        return found

    def finish(self) -> None:
        """1 where the bytes end inside a frame; the fault, where one was met."""
        if self._fault is not None:
            raise self._fault
        if self._kept:
            raise Fault(1, place=f"{self.noun} {self.count + 1}, byte {len(self._kept)}")


def decode_all(feeder: FrameFeeder[Value], pieces: Iterable[Bytes]) -> List[Value]:
    """All values of these pieces, which end with a whole frame."""
    found: List[Value] = []
    for piece in pieces:
        found += feeder.feed(piece)
    feeder.finish()
    return found


def whole_frame(data: Bytes, decode: Callable[[bytes], Value], least: int, most: int) -> Value:
    """The value of the one frame that the data is."""
    data = bytes(data)
    if len(data) < 4:
        raise Fault(1, place=f"byte {len(data)}")
    size = int.from_bytes(data[:4], "big")
    if size > most or size < least:
        raise Fault(2 if size > most else 10, place=f"byte 0, length {size}")
    if len(data) < 4 + size:
        raise Fault(1, place=f"byte {len(data)}")
    value = decode(data[4 : 4 + size])
    if len(data) > 4 + size:
        raise Fault(10, place=f"byte {4 + size}, {len(data) - 4 - size} bytes behind the frame")
    return value
