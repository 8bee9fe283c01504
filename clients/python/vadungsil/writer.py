"""A writer of a log, for who has a primary of his own.

Nothing of it is proved. A replica answers with the primary's rows where its items are those of one history
(docs/DEFINITIONS.md); that the items that are written here are, is shown by tests alone. And whether what is handed in
here is what the primary did, nobody sees but its owner."""
from __future__ import annotations

import abc
from time import time_ns
from typing import Any, Callable, Dict, Iterable, List, MutableMapping, Optional, Sequence, Tuple, Union

from .errors import Fault, NothingToResume, NotResumable, Refused
from .values import (
    LAST_TIME,
    MOST_STREAMS,
    MOST_WRITES,
    Entry,
    Fragment,
    Item,
    Mark,
    Put,
    Row,
    VersionKey,
    Written,
    key_of,
    number_in,
    put_of,
    table_of,
)

Place = Tuple[int, int]
# whether times are those of a clock, or what gives the clock's microseconds
Clock = Union[bool, Callable[[], int]]


def place_in(removed: Place) -> Place:
    """`ValueError`: it is no place of a row, with what one is."""
    if not isinstance(removed, (tuple, list)) or len(removed) != 2:
        raise ValueError(f"{removed!r:.80} can't be removed: a place is (table, key)")
    return removed[0], removed[1]


def clock_of(clock: Clock) -> Optional[Callable[[], int]]:
    """What gives microseconds since 1970, or None where times are no clock's."""
    if isinstance(clock, bool):
        return _microseconds if clock else None
    if not callable(clock):
        raise TypeError(f"clock must be True, False or callable, and is {type(clock).__name__}")
    return clock


def _microseconds() -> int:
    return time_ns() // 1_000


class Writing(abc.ABC):
    """What hands out numbers, births and times: a `LogWriter`, or a `LogFile` that keeps what is written too."""

    def __init__(self, log: int, streams: int, *, clock: Clock = False) -> None:
        self.log = number_in(log, 0, 2**64 - 1, "log")
        self.streams = number_in(streams, 1, MOST_STREAMS, "number of streams", 5)
        self.time = 0
        self._clock = clock_of(clock)
        self._born: MutableMapping[Place, int] = {}
        self._numbers = [0] * streams
        self._retired = [False] * streams

    # ------------------------------------------------------------ writing

    @abc.abstractmethod
    def commit(
        self, puts: Iterable[Written] = (), removes: Iterable[Place] = (), stream: int = 1, time: Optional[int] = None
    ) -> Optional[Entry]:
        """The entry of a transaction: `puts` are (table, key, tag, body) or (table, key, Row), `removes` (table, key).
        Without a time it is one above the last, or the clock's (`clock`). None where nothing is written. `ValueError`:
        one of them has another form.

        Refused, in this order: 32 a key that is written twice, 33 a write after 1,024, 34 no such stream, 36 a retired
        one, 31 a removed row that is not there, 35 no time is left, 6 a time that is not above the last."""

    def transaction(self, stream: int = 1, time: Optional[int] = None) -> "Transaction":
        """`with writer.transaction() as it:`, and `it.entry` behind the block."""
        return Transaction(self, stream, time)

    @abc.abstractmethod
    def beat(self, table: int, key: int, tag: int = 0, stream: Optional[int] = None) -> List[Item]:
        """Commits a row whose body is the time in decimal digits, and gives the entry and the marks of all streams that
        are not retired: `node.items(log.beat(2, 1))`. So the resolved time moves while nothing else is written, and
        an idle primary and a dead one differ. No mark is above this commit. Without a stream it is the first that is
        not retired. Each call writes an entry, of which a node keeps the version till it is pruned.

        Refused, with nothing changed: 34 no such stream, 36 a retired one, or all are, 35 no time is left, 6 a table, a
        key, a tag or a clock outside its range."""

    @abc.abstractmethod
    def retire(self, stream: int) -> Mark:
        """The last mark of a stream, which takes no commit from then on and holds no replica back. 34 and 36 as
        above."""

    def mark(self, stream: int) -> Mark:
        """The mark that closes a stream up to the last commit. 34 and 36 as above."""
        at = self._open(stream)
        return Mark(self.log, stream, self._numbers[at], self.time)

    def marks(self) -> List[Mark]:
        """The marks of all streams that are not retired: what a node needs to be readable up to the last commit."""
        return [self.mark(stream) for stream in range(1, self.streams + 1) if not self._retired[stream - 1]]

    # ------------------------------------------------------------ what is kept

    def born(self, table: int, key: int) -> Optional[int]:
        """The time at which the row that is at a key was put, or None where none is."""
        return self._born.get((table, key))

    def number(self, stream: int) -> int:
        """How many entries a stream has."""
        return self._numbers[number_in(stream, 1, self.streams, "stream", 34) - 1]

    def is_retired(self, stream: int) -> bool:
        return self._retired[number_in(stream, 1, self.streams, "stream", 34) - 1]

    # ------------------------------------------------------------ parts

    def _made(
        self, puts: Iterable[Written], removes: Iterable[Place], stream: int, time: Optional[int]
    ) -> Optional[Entry]:
        """The entry of a transaction, which doesn't count before `_took`."""
        writes = self._writes(puts, removes)
        at = self._open(stream)
        for (table, key), row in sorted(writes.items(), key=lambda it: it[0]):
            if row is None and (table, key) not in self._born:
                raise Refused(31, table, key, place=f"stream {stream}")
        return self._entry(writes, stream, at, self._next(time)) if writes else None

    def _made_beat(self, table: int, key: int, tag: int, stream: Optional[int]) -> Entry:
        """The entry of a beat."""
        if stream is None:
            stream = self._retired.index(False) + 1 if False in self._retired else 1
        self._open(stream)
        time = self._next(None)
        entry = self._made([(table, key, tag, str(time).encode())], (), stream, time)
        assert entry is not None
        return entry

    def _took(self, entry: Entry) -> None:
        """An entry that was made counts."""
        rows = {(it.table, it.key) for it in entry.rows}
        for end in entry.ends:
            if (end.table, end.key) not in rows:
                del self._born[end.table, end.key]
        for place in rows:
            self._born[place] = entry.time
        self.time, self._numbers[entry.stream - 1] = entry.time, entry.number

    @staticmethod
    def _writes(puts: Iterable[Written], removes: Iterable[Place]) -> Dict[Place, Optional[Row]]:
        writes: Dict[Place, Optional[Row]] = {}
        every: List[Tuple[int, int, Optional[Row]]] = [put_of(it) for it in puts]
        every += [(*place_in(it), None) for it in removes]
        for table, key, row in every:
            place = (table_of(table), key_of(key))
            if place in writes:
                raise Refused(32, place=f"table {table} key {key}")
            if len(writes) == MOST_WRITES:
                raise Refused(33, place=f"table {table} key {key}")
            writes[place] = row
        return writes

    def _open(self, stream: int) -> int:
        if not isinstance(stream, int) or not 1 <= stream <= self.streams:
            raise Refused(34, place=f"stream {stream}")
        if self._retired[stream - 1]:
            raise Refused(36, stream)
        return stream - 1

    def _next(self, time: Optional[int]) -> int:
        if self.time == LAST_TIME:
            raise Refused(35, place=f"time {self.time}")
        if time is None:
            if self._clock is None:
                return self.time + 1
            return max(self.time + 1, number_in(self._clock(), 0, LAST_TIME, "microseconds of the clock"))
        if not self.time < time <= LAST_TIME:
            raise Fault(6, place=f"time {time} is not above the last, {self.time}, and at most 2^62")
        return time

    def _entry(self, writes: Dict[Place, Optional[Row]], stream: int, at: int, time: int) -> Entry:
        ends = [VersionKey(*place, self._born[place]) for place in writes if place in self._born]
        rows = [Put(*place, row) for place, row in writes.items() if row is not None]
        return Entry.of(self.log, stream, self._numbers[at] + 1, time, ends, rows)


class LogWriter(Writing):
    """Hands out numbers, births and, if wanted, times, and gives the entries and marks to send. One thread at a time.

    It keeps for each row that is there the time of its birth: about 150 bytes a row. A transaction that is refused
    changes nothing.

    With `clock=True` a commit without a time takes the clock's, in microseconds since 1970, or one above the last where
    the clock stands still or fell: so where it was ahead, times go on from there till it has caught up. `clock` may be
    what gives the microseconds: a whole number (`TypeError`) from 0 to 2^62 (6), asked at each such commit. Nodes know
    nothing of a clock: they refuse 26 what is above the resolved time, which commits and `beat` move with their marks.
    `TypeError`: `clock` is neither a bool nor callable.
    """

    def commit(
        self, puts: Iterable[Written] = (), removes: Iterable[Place] = (), stream: int = 1, time: Optional[int] = None
    ) -> Optional[Entry]:
        entry = self._made(puts, removes, stream, time)
        if entry is not None:
            self._took(entry)
        return entry

    def beat(self, table: int, key: int, tag: int = 0, stream: Optional[int] = None) -> List[Item]:
        entry = self._made_beat(table, key, tag, stream)
        self._took(entry)
        return [entry, *self.marks()]

    def retire(self, stream: int) -> Mark:
        at = self._open(stream)
        self._retired[at] = True
        return Mark(self.log, stream, self._numbers[at], LAST_TIME)

    # ------------------------------------------------------------ going on

    @classmethod
    def behind(
        cls, log: int, numbers: Sequence[int], time: int, born: MutableMapping[Place, int], *, clock: Clock = False
    ) -> "LogWriter":
        """A writer that goes on behind so many entries of each stream and behind a time, for who knows all of it:
        `born` has the time of birth of each row that stands, is changed with each commit, and may be a map of the
        caller's own that takes less memory. `clock` as above.
        """
        writer = cls(log, len(numbers))
        writer._clock = clock_of(clock)
        writer._numbers = [number_in(it, 0, LAST_TIME, "entries of a stream") for it in numbers]
        writer.time = number_in(time, max(writer._numbers), LAST_TIME, "time")
        writer._born = born
        return writer

    @classmethod
    def resume(
        cls,
        whole: Fragment,
        *,
        clock: Clock = False,
        empty: bool = False,
        at_least: Union[None, int, Sequence[int]] = None,
    ) -> "LogWriter":
        """A writer that goes on where a node's whole ends. The node must have taken **everything** that was written:
        what it lacks at the end of a stream can't be seen here, and would be written a second time, with other rows (23
        at every node that has the first). `NotResumable` where something is seen to be missing: a part of the log, a
        gap, a mark that waits, an end without its row. `clock` as above.

        `NothingToResume`: it has no entry, as of a new node, and `empty` isn't given, which says that the log begins
        there. `at_least` is what is known to have been written, as the writer or its owner noted it: how many entries
        of each stream, or a time that was committed; where the snapshot has less, that is `NotResumable` too.
        """
        if whole.base != 0:
            raise NotResumable(f"a delta since {whole.base} is no full snapshot")
        if not empty and not any(stream.prefix or stream.extra for stream in whole.streams):
            raise NothingToResume(
                f"log {whole.log} has no entry there; resume from a node that has all of it, or where it begins there"
                " say so by empty=True"
            )
        writer = cls(whole.log, len(whole.streams))
        writer._clock = clock_of(clock)
        for number, stream in enumerate(whole.streams, 1):
            if stream.extra or stream.waiting:
                raise NotResumable(
                    f"stream {number} has gaps: {len(stream.extra)} numbers above {stream.prefix},"
                    f" {len(stream.waiting)} marks that wait"
                )
            writer._numbers[number - 1] = stream.prefix
            writer._retired[number - 1] = stream.closed == LAST_TIME
            if stream.closed < LAST_TIME:
                writer.time = max(writer.time, stream.closed)
        writer.time = max(writer.time, whole.horizon)
        for fact in whole.facts:
            writer._learn(fact.version, fact.row, fact.died)
        if at_least is not None:
            writer._see_least(at_least)
        return writer

    def _see_least(self, least: Union[int, Sequence[int]]) -> None:
        """`NotResumable` where less was written than is known; `ValueError`: that isn't a number for each stream."""
        if isinstance(least, int):
            if self.time < number_in(least, 0, LAST_TIME, "time"):
                raise NotResumable(f"it ends with time {self.time}, and time {least} was committed: it lacks the rest")
            return
        if len(least) != self.streams:
            raise ValueError(f"at_least has {len(least)} numbers, for {self.streams} streams")
        for stream, (own, number) in enumerate(zip(self._numbers, least), 1):
            if own < number_in(number, 0, LAST_TIME, "entries of a stream"):
                raise NotResumable(
                    f"stream {stream} ends with entry {own} there, and {number} were written: it lacks the rest"
                )

    def _learn(self, version: VersionKey, row: Optional[Row], died: Optional[int]) -> None:
        place = (version.table, version.key)
        if row is None:
            raise NotResumable(f"{version} has ended, and its row is missing")
        if died is None and place in self._born:
            raise NotResumable(f"{version} and the version of {self._born[place]} both stand: an entry is missing")
        self.time = max(self.time, version.born, died or 0)
        if died is None:
            self._born[place] = version.born


class Transaction:
    """Writes that are committed when the block is left, and dropped where it raises."""

    def __init__(self, writer: Writing, stream: int, time: Optional[int]) -> None:
        self.writer, self.stream, self.time = writer, stream, time
        self.puts: List[Put] = []
        self.removes: List[Place] = []
        self.entry: Optional[Entry] = None

    def put(self, table: int, key: int, tag: int, body: Union[bytes, bytearray] = b"") -> None:
        self.puts.append(Put(table, key, Row(tag, bytes(body))))

    def remove(self, table: int, key: int) -> None:
        self.removes.append((table, key))

    def __enter__(self) -> "Transaction":
        return self

    def __exit__(self, kind: Any, *_: object) -> None:
        if kind is None:
            self.entry = self.writer.commit(self.puts, self.removes, self.stream, self.time)
