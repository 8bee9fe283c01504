"""A log of one stream in a file (vadungsil/item_file.py) as an engine. Places are offsets. Needs the package
`vadungsil`."""
from __future__ import annotations

import argparse
import errno
import pathlib
import sys
import time
from bisect import bisect_right
from typing import Any, Callable, Dict, Iterator, List, Optional, Tuple

sys.dont_write_bytecode = True
sys.path.append(str(pathlib.Path(__file__).resolve().parent.parent / "common"))

from engine_log import Behind, EngineLog, Moved, Reading, add_log_words, see_log  # noqa: E402
from vadungsil.blocks import Block  # noqa: E402
from vadungsil.heads import is_compacted  # noqa: E402
from vadungsil.item_file import ItemFile, Places  # noqa: E402

FULL = (errno.ENOSPC, errno.EDQUOT)
# how many blocks are read at once, and how long a reader sleeps in between, in seconds
BLOCKS, PAUSE = 16, 0.01


class LogInFile(ItemFile, EngineLog):
    """Nothing is opened before the first call. `fsync` and `trust` are those of `ItemFile`."""

    errors = (OSError,)

    def __init__(self, path: str, log: int, fsync: bool = True, trust: bool = False) -> None:
        EngineLog.__init__(self, log, 1)
        ItemFile.__init__(self, path, log, fsync, trust)
        self.engine = path

    def is_passing(self, error: BaseException) -> bool:
        """Whether the file isn't there yet, or its disk is full."""
        return isinstance(error, FileNotFoundError) or (isinstance(error, OSError) and error.errno in FULL)

    def key(self, stream: int) -> str:
        return self.path

    # ------------------------------------------------------------ how far it is

    def end(self, stream: int) -> Tuple[int, int, Iterator[Block]]:
        places = self.see()
        return places.size, places.number, self.backwards(places)

    def backwards(self, places: Places) -> Iterator[Block]:
        bounds = [0, *places.ends, places.size]
        for begin, end in zip(bounds[-2::-1], bounds[:0:-1]):
            if begin < end:
                yield self.block(begin, end)

    def last(self, stream: int) -> int:
        return self.look().number

    def first(self, stream: int) -> int:
        return self.look().first or 1

    def gone(self, stream: int) -> Optional[int]:
        return None if is_compacted(self.path, self.first(stream)) else 0

    def holding(self, stream: int, number: int) -> Optional[Block]:
        places = self.look()
        return self.block(*places.around(number)) if 1 <= number <= places.number else None

    # ------------------------------------------------------------ appending and reading

    def append(self, stream: int, behind: int, blocks: List[Block], kept: Callable[[int], None]) -> int:
        self.prepare()
        if self.see().size != behind:
            raise Moved
        for block in blocks:
            for part in self.parts_of(block):
                self.write(part)
            kept(block.last)
        return self.places.size

    def reading(self, prefixes: Dict[int, int], batch: int) -> "ReadingFile":
        return ReadingFile(self, prefixes.get(1, 0))


class ReadingFile(Reading):
    """Blocks of what is there, and of what comes."""

    def __init__(self, store: LogInFile, prefix: int) -> None:
        self.store, self.is_over = store, False
        places, self.drops = store.look(), store.drops
        self.at = places.around(prefix)[0] if 1 <= prefix <= places.number else places.size if prefix else 0

    def read(self, seconds: float) -> List[Tuple[int, Any, Block]]:
        until = time.monotonic() + seconds
        while self.at >= self.look().size:
            self.store.see()
            if self.store.sums.file >= 0 and self.store.sums.is_replaced():
                raise Behind(f"{self.store.path} was compacted")
            if time.monotonic() > until:
                self.is_over = True
                return []
            time.sleep(PAUSE)
        self.is_over = False
        places = self.store.places
        more = places.ends[bisect_right(places.ends, self.at) :][:BLOCKS] or [places.size]
        found = []
        for end in more:
            found.append((1, end, self.store.block(self.at, end)))
            self.at = end
        return found

    def look(self) -> Places:
        """Where the blocks are by now. `Behind`: another file has come in the place of the one that is read."""
        places = self.store.look()
        if self.store.drops != self.drops:
            raise Behind(f"{self.store.path} was compacted, or its checksums were made anew")
        return places

    def has_all(self) -> bool:
        return self.is_over


# ---------------------------------------------------------------- the command line


def add_words(words: argparse.ArgumentParser) -> None:
    words.add_argument("--file", required=True, metavar="FILE", help="the file of the log, beside FILE.sums")
    add_log_words(words)


def opened(said: argparse.Namespace, words: argparse.ArgumentParser) -> LogInFile:
    """The log that the words name. Nothing is opened yet."""
    see_log(said, words)
    if said.streams != 1:
        words.error("a file has a log of one stream")
    return LogInFile(said.file, said.log)
