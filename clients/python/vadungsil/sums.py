"""The checksums of a log in a file, in a file beside it: FILE.sums has a line for each block, `END LAST SUM`: the byte
of FILE at which the block ends, the number of the last entry up to there, and the SHA-256 of the line before, with its
line feed, and of the block's bytes. A line is written once its block is kept, and the block counts as kept once its
line is. What stands behind the last line is torn, or isn't kept yet, and is one block at most: only the writer touches
it. Standard library only."""
from __future__ import annotations

import hashlib
import os
from typing import Iterator, List, NamedTuple

from .errors import Broken

SUFFIX = ".sums"
MOST_LINE = 128


class Line(NamedTuple):
    end: int
    last: int
    sum: bytes
    text: bytes  # with its line feed


def line_of(end: int, last: int, before: bytes, block: bytes) -> Line:
    """The line of a block that ends there, behind this line."""
    digest = hashlib.sha256(before)
    digest.update(block)
    text = f"{end} {last} {digest.hexdigest()}\n".encode()
    return Line(end, last, digest.digest(), text)


class Sums:
    """Nothing is opened before the first call."""

    def __init__(self, log_path: str) -> None:
        self.log_path, self.path, self.file = log_path, log_path + SUFFIX, -1
        self.at = 0  # how many bytes were taken
        self.before = self.earlier = b""  # the last line that was, and the one before it
        self.begin = self.end = 0  # where the block of the last one begins, and ends

    def close(self) -> None:
        if self.file >= 0:
            os.close(self.file)
        self.__init__(self.log_path)  # type: ignore[misc]

    def open(self, flags: int = os.O_RDONLY) -> bool:
        """Whether there are checksums."""
        if self.file < 0:
            try:
                self.file = os.open(self.path, flags, 0o640)
            except FileNotFoundError:
                return False
        return True

    def more(self) -> Iterator[Line]:
        """The lines behind those that were taken, as far as they are whole. Each is taken by `take`, before the next is
        asked for."""
        held = b""
        while piece := os.pread(self.file, 1 << 16, self.at + len(held)):
            held, at = held + piece, 0
            while (end := held.find(b"\n", at) + 1) > 0:
                if self.is_torn(held[at:end]):
                    return
                yield self.read(held[at:end])
                at = end
            held = held[at:]
            if len(held) > MOST_LINE:
                raise self.fault("a line has no end")

    def run(self, most: int) -> List[Line]:
        """Some of the lines behind those that were taken, of blocks of so many bytes or of one; none where the next is
        no line. Their checksums aren't known yet."""
        held = os.pread(self.file, 1 << 16, self.at)
        lines: List[Line] = []
        before = self.end
        for text in held[: held.rfind(b"\n") + 1].split(b"\n")[:-1]:
            words = text.split(b" ")
            is_line = len(words) == 3 and len(text) < MOST_LINE and words[0].isdigit() and words[1].isdigit()
            end = int(words[0]) if is_line else 0
            if end <= before or (lines and end - self.end > most):
                break
            lines.append(Line(end, int(words[1]), words[2], text + b"\n"))
            before = end
        return lines

    def are_right(self, lines: List[Line], data: bytes) -> bool:
        """Whether lines of a run are those of these bytes."""
        view, begin, before, sha = memoryview(data), 0, self.before, hashlib.sha256
        for end, last, _, text in lines:
            digest = sha(before)
            digest.update(view[begin : end - self.end])
            if f"{end} {last} {digest.hexdigest()}\n".encode() != text:
                return False
            begin, before = end - self.end, text
        return begin == len(data)

    def is_torn(self, text: bytes) -> bool:
        """Whether the disk lacks a part of the last line, as it may where the machine lost its power before a sync."""
        return b"\0" in text and len(text) <= MOST_LINE and os.fstat(self.file).st_size == self.at + len(text)

    def read(self, text: bytes) -> Line:
        words = text.split()
        try:
            end, last, digest = int(words[0]), int(words[1]), bytes.fromhex(words[2].decode())
            line = Line(end, last, digest, text)
            if f"{end} {last} {digest.hex()}\n".encode() == text and len(digest) == 32 and end > self.end:
                return line
        except (ValueError, IndexError):
            pass
        raise self.fault("a line is none of a block")

    def take(self, line: Line) -> None:
        self.earlier, self.begin = self.before, self.end
        self.at, self.before, self.end = self.at + len(line.text), line.text, line.end

    def take_run(self, lines: List[Line]) -> None:
        for line in lines:
            self.take(line)

    def fault(self, why: str) -> Broken:
        return Broken(3, f"byte {self.at} of {self.path}: {why}: it is corrupt")

    def is_replaced(self) -> bool:
        """Whether another file has come in the place of this one."""
        try:
            return os.stat(self.path).st_ino != os.fstat(self.file).st_ino
        except FileNotFoundError:
            return False

    def wrong(self, line: Line, data: bytes) -> str:
        """Why bytes aren't the block of its line; empty where they are."""
        if len(data) < line.end - self.end:
            return f"it ends at byte {self.end + len(data)}, and {self.path} says {line.end}: it lost its tail"
        own = line_of(line.end, line.last, self.before, data)
        if own.sum != line.sum:
            return f"the checksum up to byte {line.end} is {own.sum.hex()}, where {self.path} says {line.sum.hex()}"
        return ""

    # ------------------------------------------------------------ writing

    def add(self, line: Line) -> None:
        """Writes the line of a block that is kept. Where that fails, a part of it may stand: `cut`."""
        data = memoryview(line.text)
        while data:
            data = data[os.write(self.file, data) :]
        self.take(line)

    def cut(self) -> None:
        """Takes away what stands behind the last whole line."""
        os.ftruncate(self.file, self.at)

    def renew(self) -> None:
        """Writes the last line once more, where it stands. What a sync failed to bring to the disk a later one doesn't
        bring there, unless it is written again; who reads it meanwhile sees the same."""
        if self.before:
            file = os.open(self.path, os.O_WRONLY)  # what the other descriptor writes goes behind all
            try:
                os.pwrite(file, self.before, self.at - len(self.before))
            finally:
                os.close(file)
