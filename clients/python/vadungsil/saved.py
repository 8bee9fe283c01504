"""What `hkrep save` wrote, given to a node. Behind the requests of a fragment it has one frame with their checksum
(docs/FORMATS.md), so nothing of a corrupt file is joined."""
from __future__ import annotations

import hashlib
import pathlib
import warnings
from typing import BinaryIO, Callable, Iterator, NamedTuple, Tuple, Union

from .errors import Fault, Refused
from .later_values import Added, LaterDone
from .link import Link
from .messages import MOST_MESSAGE
from .transfer import OwnLink
from .values import Done

# version and kind of the frame of a checksum, its length, and its form: SHA-256
SUM, SUM_REST, SUM_FORM = b"\2\x7f", 36, 1
# requests that give a node a chunk, and those by which it joins a fragment: version and kind
PART = b"\2\x35"
JOINS = (b"\1\x15", b"\1\x16", b"\2\x36", b"\2\x37")

Saved = Union[str, pathlib.Path, BinaryIO]


class Loaded(NamedTuple):
    """What came of a file: the number of the node's operations that ends with it, and whether all of it had
    checksums."""

    operations: int
    is_checked: bool


class SavedFile:
    """The frames of a file one after the other, each with whether its checksum was read and is right; those of
    checksums are compared and left out (6). A fragment's last frame comes only then, or where none follows."""

    def __init__(self, file: BinaryIO) -> None:
        self._file, self._hash = file, hashlib.sha256()
        self._at = self.count = 0  # bytes and frames that were read
        self.is_open = False  # whether the last frames have no checksum

    def __iter__(self) -> Iterator[bytes]:
        held = b""
        while frame := self._next():
            if frame[4:6] == SUM:
                self._compare(frame)
                continue
            self._hash.update(frame)
            self.is_open = True
            if frame[4:6] != PART and frame[4:6] not in JOINS:
                kind = f"version {frame[4]}, kind {frame[5]} gives a node no fragment"
                raise Fault(4, place=f"frame {self.count}, byte {self._at - len(frame)}: {kind}")
            if held:
                yield held
            held = frame if frame[4:6] in JOINS else b""
            if not held:
                yield frame
        if held:
            yield held

    def _next(self) -> bytes:
        """The next whole frame, or nothing at the end."""
        head = self._file.read(4)
        if not head:
            return b""
        self.count += 1
        size = int.from_bytes(head, "big")
        if len(head) == 4 and not 2 <= size <= MOST_MESSAGE:
            raise Fault(10 if size < 2 else 2, place=f"frame {self.count}, byte {self._at}, length {size}")
        frame = head + (self._file.read(size) if len(head) == 4 else b"")
        if len(frame) < 4 + size or len(head) < 4:
            raise self._cut(frame)
        self._at += len(frame)
        return frame

    def _cut(self, frame: bytes) -> Fault:
        place = f"frame {self.count}, byte {self._at + len(frame)}"
        if frame[4:6] == SUM:
            return Fault(6, place=f"{place}: the file ends inside the frame of a checksum: it is corrupt")
        return Fault(1, place=place)

    def _compare(self, frame: bytes) -> None:
        """6 where the frame says another checksum than the frames before it have."""
        own, said = self._hash.digest(), frame[8:]
        self._hash, self.is_open = hashlib.sha256(), False
        place, form = f"frame {self.count}, byte {self._at - len(frame)}", int.from_bytes(frame[6:8], "big")
        if len(frame) != 4 + SUM_REST:
            raise Fault(6, place=f"{place}: the frame of a checksum has {len(frame) - 4} bytes, and not {SUM_REST}")
        if form != SUM_FORM:
            raise Fault(6, place=f"{place}: it has a checksum of the form {form}, not {SUM_FORM}")
        if own != said:
            raise Fault(
                6,
                place=(
                    f"{place}: the checksum of the frames before it is {own.hex()}, where it says {said.hex()}: the"
                    " file is corrupt"
                ),
            )


def opened(saved: Saved) -> Tuple[BinaryIO, bool]:
    """The file, and whether it is ours to close."""
    if isinstance(saved, (str, pathlib.Path)):
        return open(saved, "rb"), True
    return saved, False


def load(link: Callable[[], Link], saved: Saved) -> Loaded:
    """Has a node take what a file has: chunks as they come, and each fragment once its checksum was read and is
    right."""
    file, is_own = opened(saved)
    try:
        frames = SavedFile(file)
        operations, is_partial = 0, False
        with OwnLink(link()) as own:
            for frame in frames:
                is_partial = frame[4:6] == PART
                try:
                    operations = taken(own, frame) or operations
                except Refused as refused:
                    raise refused.at(f"up to frame {frames.count}")
    finally:
        if is_own:
            file.close()
    if is_partial or not operations:
        raise Fault(1, place=f"frame {frames.count + 1}: the file ends before what joins its last chunks")
    if frames.is_open:
        warnings.warn("the file has no checksum behind its last fragment, so corrupt bytes may not show", stacklevel=4)
    return Loaded(operations, not frames.is_open)


def taken(link: OwnLink, frame: bytes) -> int:
    """The number of the node's operations behind a frame that it took; 0 behind a chunk."""
    if frame[4:6] == PART:
        link.ask_frame(frame, Added)
        return 0
    operations: int = link.ask_frame(frame, Done, LaterDone).operations
    return operations
