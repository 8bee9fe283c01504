"""What a connector asks of an engine, and what is so on each of them: how far a stream of the log is there, and whether
an entry that is published again is the one that stands there."""
from __future__ import annotations

import abc
import argparse
from typing import Any, Callable, Dict, Iterator, List, NamedTuple, Optional, Tuple, Type

import feeding  # noqa: F401, finds the package
from vadungsil.blocks import BLOCK_BYTES, BLOCK_FRAMES, Block, Framed, closed, entries_of, no_block, time_of
from vadungsil.errors import Broken

USAGE = 64


class Moved(Exception):
    """Somebody else wrote to a stream: look again how far it is."""


class Behind(Exception):
    """The engine has less than it had. A server that was cut off answers so, and doesn't know it: a later try may find
    all."""


class Missing(Broken):
    """Entries that an engine no longer has: {stream: (from, to)}."""

    def __init__(self, engine: str, lacking: Dict[int, Tuple[int, int]]) -> None:
        super().__init__(
            3,
            "; ".join(
                f"stream {stream}: entries {low} to {high} are no longer in {engine}"
                for stream, (low, high) in sorted(lacking.items())
            ),
        )
        self.lacking = lacking


class Tail(NamedTuple):
    """How far a stream is: the place behind which the next block stands, the last entry, the greatest time that is
    closed or taken, and the greatest m of its last marks, or 0."""

    place: Any
    number: int
    latest: int
    marked: int


class EngineLog(abc.ABC):
    """The streams 1 to `streams` of a log in an engine. A place is what the engine knows a message by; places of a
    stream rise. Calls raise one of `errors`; `is_passing` says whether to try again, after `drop`."""

    engine = ""
    errors: Tuple[Type[Exception], ...] = ()
    block_bytes = BLOCK_BYTES  # how much a message has, where nothing else is asked for
    at_once = 16 * BLOCK_BYTES  # how many bytes a publisher appends in one go while more input waits

    def __init__(self, log: int, streams: int) -> None:
        self.log, self.streams = log, streams
        self.seen: Dict[int, Dict[int, bytes]] = {}  # the entries of the block of each stream that was looked at last
        self.names: Dict[int, str] = {}  # and its message
        self.say: Callable[[str], None] = lambda text: None  # a line on standard error

    @abc.abstractmethod
    def is_passing(self, error: BaseException) -> bool:
        """Whether it is a failure after which a later try may go well."""

    @abc.abstractmethod
    def drop(self) -> None:
        """Gives up the connection to the engine; the next call opens another."""

    @abc.abstractmethod
    def key(self, stream: int) -> str:
        """What the engine calls a stream."""

    def prepare(self) -> None:
        """Makes what a publisher needs."""

    def more_streams(self) -> List[int]:
        """Streams of this log above `streams` that the engine has, as far as it can be asked for them."""
        return []

    def see_streams(self) -> None:
        """3 where the log has more streams than was said: what is in those would never be read."""
        more = self.more_streams()
        if more:
            raise Broken(
                3,
                f"stream {more[0]}: {self.key(more[0])} is there, and --streams says that the log has {self.streams}",
            )

    def left_over(self) -> List[str]:
        """What stands at the end and is no block yet, a line for each."""
        return []

    # ------------------------------------------------------------ how far it is

    @abc.abstractmethod
    def end(self, stream: int) -> Tuple[Any, int, Iterator[Block]]:
        """The place of the last message, the number of the last entry, and some of the last blocks, from the last one
        on."""

    @abc.abstractmethod
    def last(self, stream: int) -> int:
        """The number of the last entry that the stream had."""

    @abc.abstractmethod
    def first(self, stream: int) -> int:
        """The number of the first entry that is still there, or would come next."""

    @abc.abstractmethod
    def gone(self, stream: int) -> Optional[int]:
        """How many messages of the stream are there no more; None where the engine doesn't count them."""

    def deleted(self, stream: int) -> int:
        """Entries up to this one may have been deleted one by one; 0 where none were, or the engine doesn't know."""
        return 0

    @abc.abstractmethod
    def holding(self, stream: int, number: int) -> Optional[Block]:
        """The first block whose last entry is `number` or more."""

    @abc.abstractmethod
    def append(self, stream: int, behind: Any, blocks: List[Block], kept: Callable[[int], None]) -> Any:
        """Adds blocks behind the last message, which stands at `behind`, else `Moved`; says the last entry of each
        block, in their order, once that is kept as was asked for, and gives the place of the last one. May return while
        blocks are on their way: what becomes of them is reported by later calls for any stream, up to `settle`; after
        an error or `Moved`, never."""

    def settle(self) -> None:
        """Waits for what is on its way."""

    @abc.abstractmethod
    def reading(self, prefixes: Dict[int, int], batch: int) -> "Reading":
        """Reads these streams from the blocks on that have these entries, at most so many blocks of a stream at
        once."""

    def tail(self, stream: int) -> Tail:
        """How far a stream is. Of what is there, the last two blocks at least go on one behind the other (2, 3)."""
        place, number, blocks = self.end(stream)
        latest = marked = 0
        has_entry = False
        behind: Optional[Block] = None
        for block in blocks:
            if behind is not None:
                self.see_next(stream, block, behind)
            latest, marked = max(latest, block.latest), max(marked, block.marked)
            has_entry = has_entry or block.last >= block.first
            if marked and behind is not None:
                break
            behind = block
        if number and not has_entry:  # marks alone, which needn't count the last entry
            found = self.holding(stream, number)
            frame = entries_of(found.data).get(number) if found else None
            latest = max(latest, time_of(frame)) if frame else latest
        return Tail(place, number, latest, marked)

    def see_next(self, stream: int, before: Block, block: Block) -> None:
        """Raises where a block doesn't go on behind the one before it: where entries lack (3), where it ends lower or
        has an entry of a closed time (3), and where it repeats an entry otherwise (2). A repeat of the same passes."""
        if block.first > before.last + 1:
            raise self.not_there(stream, before.last + 1, block.first - 1)
        if block.last < before.last:
            raise Broken(
                3,
                f"{block.name} ends with entry {block.last}, behind one that ends with entry {before.last}: something"
                " else writes to this stream",
            )
        if block.first <= before.last:
            self.see_repeat(stream, before, block)
        elif block.first <= block.last and block.earliest <= before.latest:
            raise no_block(block.name, closed(block.first))

    def see_repeat(self, stream: int, before: Block, block: Block) -> None:
        own, others = entries_of(block.data), entries_of(before.data)
        for number in range(block.first, before.last + 1):
            other = others.get(number) or self.entry(stream, number)
            if other is not None and other != own[number]:
                raise Broken(2, f"{block.name} has another entry {number} than stands before it: the log forks")
        if block.last > before.last and time_of(own[before.last + 1]) <= before.latest:
            raise no_block(block.name, closed(before.last + 1))

    # ------------------------------------------------------------ comparing

    def entry(self, stream: int, number: int) -> Optional[bytes]:
        """An entry up to the last one; None where it was trimmed. 3 where it isn't there otherwise."""
        if number not in self.seen.get(stream, {}):
            block = self.holding(stream, number)
            self.seen[stream] = entries_of(block.data) if block else {}
            self.names[stream] = block.name if block else ""
            if number not in self.seen[stream]:
                if self.is_trimmed(stream, number):
                    return None
                raise self.not_there(stream, number, block.first - 1 if block else self.last(stream))
        return self.seen[stream][number]

    def is_trimmed(self, stream: int, number: int) -> bool:
        """Whether an entry that isn't there was trimmed: it is below the first that is there, so many messages are gone
        as would hold what lacks, and none that may have had it was deleted by itself."""
        first, gone = self.first(stream), self.gone(stream)
        is_enough = gone is None or first - 1 <= gone * BLOCK_FRAMES
        return self.deleted(stream) < number < first and is_enough

    def not_there(self, stream: int, low: int, high: int) -> Broken:
        """What is said of entries that aren't there, though the stream had higher ones."""
        key, first = self.key(stream), self.first(stream)
        text, other = f"stream {stream}: entries {low} to {high}", "something else writes to this stream"
        if low >= first:
            text += f" are not in {key}, which had higher ones, and were not trimmed: they were deleted, or {other}"
        elif self.gone(stream) == 0:
            text += f" were never in {key}, which begins with entry {first}: {other}"
        else:
            text += f" are not in {key}, which begins with entry {first}, and were not trimmed: they were deleted, or"
            text += f" {other}"
        return Broken(3, text)

    def forget(self) -> None:
        """What was looked at may be another by now."""
        self.seen.clear()
        self.drop()

    def checked(self, frames: List[Framed], tail: Tail, added: Dict[int, bytes]) -> Tuple[List[Framed], Tail, int, int]:
        """What of these frames is new behind the tail, the tail behind that, how many were there, and how many were
        there once. Raises where the log forks (2) or entries lack (3). Frames of one stream, each entry at most one
        above those before it. `added` has the entries up to the tail that are on their way to the engine, and gets the
        new ones."""
        place, number, latest, marked = tail
        new: List[Framed] = []
        gone = 0
        for one in frames:
            is_entry, _, stream, first, time, frame = one
            if is_entry and first == number + 1:
                if time <= latest:
                    raise Broken(2, f"stream {stream}: {closed(first)}")
                number, latest, added[first] = first, time, frame
                new.append(one)
            elif first > number:
                raise Broken(
                    3,
                    f"stream {stream}: {self.engine} has entries to {number} only, and had more: it lost its tail. "
                    f"Start again with the log from entry {number + 1} at the latest",
                )
            elif is_entry:
                gone += self.compare(one, added)
            elif time > marked:
                self.try_mark(one, added, number)
                marked, latest = time, max(latest, time)
                new.append(one)
        return new, Tail(place, number, latest, marked), len(frames) - len(new) - gone, gone

    def compare(self, one: Framed, added: Dict[int, bytes]) -> bool:
        """2 where an entry is another than the one that is there, or is about to be; whether it is there no more."""
        own = added.get(one.first)
        there = own or self.entry(one.stream, one.first)
        if there is not None and there != one.frame:
            name = "" if own else f" ({self.names[one.stream].removeprefix(f'stream {one.stream}: ')})"
            raise Broken(
                2,
                f"stream {one.stream}: entry {one.first} in {self.engine} is another{name}: this log is not the one "
                "that was published before",
            )
        return there is None

    def try_mark(self, one: Framed, added: Dict[int, bytes], number: int) -> None:
        """2 where a mark isn't true of the entries beside it: the entries up to m are the first n, so entry n is not
        later, and the next one is."""
        own = behind = None
        if 0 < one.first <= number:
            own = added.get(one.first) or self.entry(one.stream, one.first)
        if one.first < number:
            behind = added.get(one.first + 1) or self.entry(one.stream, one.first + 1)
        if (own is not None and time_of(own) > one.second) or (behind is not None and time_of(behind) <= one.second):
            raise Broken(2, f"stream {one.stream}: a mark of the first {one.first} entries is not true of the entries")


class Reading(abc.ABC):
    """Blocks as they come, of some streams."""

    @abc.abstractmethod
    def read(self, seconds: float) -> List[Tuple[int, Any, Block]]:
        """What has come: streams, places and blocks; those of a stream in their order. Waits so long for the first."""

    @abc.abstractmethod
    def has_all(self) -> bool:
        """Whether all is read that was there when the reading began, and the last read gave nothing."""


def add_log_words(words: argparse.ArgumentParser) -> None:
    setattr(words, "error", lambda text: words.exit(USAGE, f"{words.format_usage()}{words.prog}: {text}\n"))
    words.add_argument("--log", type=int, required=True, help="the id of the log")
    words.add_argument("--streams", type=int, required=True, help="how many streams the log has, 1 to 64")
    words.add_argument(
        "--cacert", metavar="FILE", help="the certificates that may sign a server's, where TLS is spoken"
    )
    words.add_argument("--cert", metavar="FILE", help="our certificate, where the server asks for one")
    words.add_argument("--key", metavar="FILE", help="the key of our certificate")


def see_log(said: argparse.Namespace, words: argparse.ArgumentParser) -> None:
    if not 1 <= said.streams <= 64 or not 0 <= said.log < 2**64:
        words.error("a log has an id below 2^64 and 1 to 64 streams")
