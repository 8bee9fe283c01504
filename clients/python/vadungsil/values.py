"""The values of a log and of a node's replies. Each is checked where it is made, and raises a `Fault` with the number
of the first rule that it breaks, in the order of the library."""
from __future__ import annotations

from dataclasses import dataclass
from typing import Any, Iterable, List, NamedTuple, Optional, Tuple, Union

from .errors import Fault

LAST_TIME = 2**62
MOST_BODY = 4_096
MOST_WRITES = 1_024
MOST_STREAMS = 64
LAST_KEY = 2**64 - 1


def number_in(value: Any, least: int, most: int, what: str, number: int = 6) -> int:
    """The value, where it is a whole number in this range."""
    if type(value) is not int and (not hasattr(value, "__index__") or isinstance(value, bool)):
        raise TypeError(f"{what} must be a whole number, and is {type(value).__name__}")
    if not least <= value <= most:
        raise Fault(number, place=f"{what} {value} is not in {least} to {most}")
    return int(value)


def rising(places: List[Any], what: str) -> None:
    """7 where a list doesn't rise strictly."""
    for before, after in zip(places, places[1:]):
        if not before < after:
            raise Fault(7, place=f"{what} {after} does not come after {before}")


def table_of(value: int) -> int:
    return number_in(value, 0, 2**16 - 1, "table")


def key_of(value: int) -> int:
    return number_in(value, 0, LAST_KEY, "key")


def time_of(value: int, what: str = "time") -> int:
    return number_in(value, 0, LAST_TIME, what)


def stream_of(value: int) -> int:
    return number_in(value, 1, MOST_STREAMS, "stream", 5)


@dataclass(frozen=True)
class Row:
    """A tag and a body of at most 4,096 bytes (9)."""

    tag: int
    body: bytes

    def __post_init__(self) -> None:
        number_in(self.tag, 0, 2**32 - 1, "tag")
        if not isinstance(self.body, bytes):
            if not isinstance(self.body, (bytearray, memoryview)):
                raise TypeError(f"body must be bytes, and is {type(self.body).__name__}")
            object.__setattr__(self, "body", bytes(self.body))
        if len(self.body) > MOST_BODY:
            raise Fault(9, place=f"body of {len(self.body)} bytes")

    def line(self) -> str:
        """As `hkrep` prints it: tag, and body in hexadecimal or `-`."""
        return f"{self.tag} {self.body.hex() or '-'}"


def trusted_row(tag: int, body: bytes) -> Row:
    """A row of bytes that were read, whose rules were looked at there."""
    row = _new(Row)
    fields = row.__dict__
    fields["tag"], fields["body"] = tag, body
    return row


_new = object.__new__


@dataclass(frozen=True, order=True)
class VersionKey:
    """A version: table, key, and the time at which it was born, from 1 on."""

    table: int
    key: int
    born: int

    def __post_init__(self) -> None:
        table_of(self.table)
        key_of(self.key)
        number_in(self.born, 1, LAST_TIME, "born")


class Put(NamedTuple):
    """A row that stands at a key of a table."""

    table: int
    key: int
    row: Row


# a row to put: (table, key, tag, body) or (table, key, Row); and a version to end: (table, key, born)
Written = Union[Put, Tuple[int, int, Row], Tuple[int, int, int, Union[bytes, bytearray, memoryview]]]
Ended = Union[VersionKey, Tuple[int, int, int]]


def put_of(written: Written) -> Put:
    """`ValueError`: it is no put, with what one is."""
    it: Any = written
    if not isinstance(it, (tuple, list)) or not (len(it) == 4 or (len(it) == 3 and isinstance(it[2], Row))):
        raise ValueError(f"{it!r:.80} is no put: it wants (table, key, tag, body), or (table, key, Row)")
    return Put(it[0], it[1], it[2] if len(it) == 3 else Row(it[2], it[3]))


class Operations(int):
    """The number of a node's operations that ends with the items that it was sent. `new` is how many of them it did not
    know before, each compared with what it held before the first; None where it reads messages of version 1 alone."""

    new: Optional[int]

    def __new__(cls, operations: int, new: Optional[int] = None) -> "Operations":
        it = super().__new__(cls, operations)
        it.new = new
        return it


class KeyRow(NamedTuple):
    """A row of an answer, with its key."""

    key: int
    row: Row


@dataclass(frozen=True)
class Entry:
    """What one transaction did: its place in the log, the versions that it ended, the rows that it put. Numbers and
    times are 1 to 2^62, the number at most the time (6); at most 1,024 ends and 1,024 rows and not neither (8); both
    rise strictly by table and key (7); each ended version was born before the time (6). `Entry.of` sorts its lists;
    this takes them as they stand."""

    log: int
    stream: int
    number: int
    time: int
    ends: Tuple[VersionKey, ...]
    rows: Tuple[Put, ...]

    def __post_init__(self) -> None:
        number_in(self.log, 0, LAST_KEY, "log")
        stream_of(self.stream)
        number_in(self.time, 1, LAST_TIME, "time")
        number_in(self.number, 1, self.time, "number")
        listed: Iterable[Any] = self.ends
        ends = tuple(it if isinstance(it, VersionKey) else VersionKey(*it) for it in listed)
        rows = tuple(Put(table_of(table), key_of(key), row) for table, key, row in self.rows)
        object.__setattr__(self, "ends", ends)
        object.__setattr__(self, "rows", rows)
        for name, count in (("ends", len(ends)), ("rows", len(rows))):
            if count > MOST_WRITES:
                raise Fault(8, place=f"{count} {name}")
        if not ends and not rows:
            raise Fault(8, place="neither ends nor rows")
        rising([(it.table, it.key) for it in ends], "end of")
        rising([(it.table, it.key) for it in rows], "row of")
        for it in ends:
            number_in(it.born, 1, self.time - 1, "born")
        for put in rows:
            if not isinstance(put.row, Row):
                raise TypeError(f"row must be a Row, and is {type(put.row).__name__}")

    @classmethod
    def of(
        cls, log: int, stream: int, number: int, time: int, ends: Iterable[Ended] = (), rows: Iterable[Written] = ()
    ) -> "Entry":
        """An entry whose lists are put in order first: ends (table, key, born), rows (table, key, tag, body) or (table,
        key, Row)."""
        puts = [put_of(it) for it in rows]
        ended = [it if isinstance(it, VersionKey) else VersionKey(*it) for it in ends]
        return cls(log, stream, number, time, tuple(sorted(ended)), tuple(sorted(puts, key=lambda it: it[:2])))

    def line(self) -> str:
        """As `hkrep items` prints it."""
        return (
            f"commit log {self.log} stream {self.stream} number {self.number} time {self.time} "
            f"ends {len(self.ends)} rows {len(self.rows)}"
        )


@dataclass(frozen=True)
class Mark:
    """The entries of the stream with a time of at most m are exactly its first n; n <= m <= 2^62 (6)."""

    log: int
    stream: int
    n: int
    m: int

    def __post_init__(self) -> None:
        number_in(self.log, 0, LAST_KEY, "log")
        stream_of(self.stream)
        number_in(self.m, 0, LAST_TIME, "m")
        number_in(self.n, 0, self.m, "n")

    def line(self) -> str:
        """As `hkrep items` prints it."""
        return f"mark log {self.log} stream {self.stream} n {self.n} m {self.m}"


Item = Union[Entry, Mark]


@dataclass(frozen=True)
class Front:
    """The range of readable times: `horizon`, the oldest, is at most `readable`, the resolved time (6)."""

    horizon: int
    readable: int

    def __post_init__(self) -> None:
        time_of(self.readable, "readable")
        number_in(self.horizon, 0, self.readable, "horizon")

    def line(self) -> str:
        return f"front {self._times()}"

    def _times(self) -> str:
        return f"horizon {self.horizon} readable {self.readable}"


@dataclass(frozen=True)
class Stream:
    """What is known of one stream: `prefix`, the number up to which all entries are taken; `closed`, the time up to
    which marks close it; `extra`, numbers taken above the prefix; `waiting`, marks (n, m) whose entries have not all
    come."""

    prefix: int = 0
    closed: int = 0
    extra: Tuple[int, ...] = ()
    waiting: Tuple[Tuple[int, int], ...] = ()

    def __post_init__(self) -> None:
        object.__setattr__(self, "extra", tuple(self.extra))
        object.__setattr__(self, "waiting", tuple((n, m) for n, m in self.waiting))
        time_of(self.prefix, "prefix")
        time_of(self.closed, "closed")
        rising(list(self.extra), "extra number")
        for number in self.extra:
            number_in(number, self.prefix + 2, LAST_TIME, "extra number")
        rising([n for n, _ in self.waiting], "waiting mark of")
        for n, m in self.waiting:
            number_in(m, 0, LAST_TIME, "m")
            if not self.prefix < n <= m:
                raise Fault(6, place=f"waiting mark of {n} and {m} at the prefix {self.prefix}")


@dataclass(frozen=True)
class Fact:
    """What is known of a version: its row, the time at which it ended, or both."""

    version: VersionKey
    row: Optional[Row] = None
    died: Optional[int] = None

    def __post_init__(self) -> None:
        if self.row is None and self.died is None:
            raise Fault(6, place=f"flags of {self.version}: neither a row nor an end")
        if self.died is not None:
            number_in(self.died, self.version.born + 1, LAST_TIME, "died")


@dataclass(frozen=True)
class Fragment:
    """A part of a log, as nodes send it to one another: what happened above `base` (0: all of it), with the oldest
    readable time, each stream and the facts, which rise by version (7). docs/FORMATS.md has the other rules (6)."""

    log: int
    base: int
    horizon: int
    streams: Tuple[Stream, ...]
    facts: Tuple[Fact, ...] = ()

    def __post_init__(self) -> None:
        object.__setattr__(self, "streams", tuple(self.streams))
        object.__setattr__(self, "facts", tuple(self.facts))
        number_in(self.log, 0, LAST_KEY, "log")
        number_in(len(self.streams), 1, MOST_STREAMS, "number of streams", 5)
        time_of(self.base, "base")
        time_of(self.horizon, "horizon")
        if self.base != 0 and self.base < self.horizon:
            raise Fault(6, place=f"base {self.base} is below the oldest readable time {self.horizon}")
        if self.horizon > self.readable:
            raise Fault(6, place=f"oldest readable time {self.horizon} is above the closed time {self.readable}")
        rising([it.version for it in self.facts], "fact of")
        for fact in self.facts:
            self._check(fact)

    def _check(self, fact: Fact) -> None:
        if fact.row is not None and fact.version.born <= self.base:
            raise Fault(6, place=f"{fact.version} has a row and is not born above the base {self.base}")
        if fact.died is not None and fact.died <= max(self.base, self.horizon):
            raise Fault(
                6,
                place=f"died {fact.died} of {fact.version} is not above base {self.base} and oldest readable time "
                f"{self.horizon}",
            )

    @property
    def readable(self) -> int:
        """The least closed time of its streams."""
        return min(it.closed for it in self.streams)

    def line(self) -> str:
        return f"fragment base {self.base} horizon {self.horizon} facts {len(self.facts)}"


@dataclass(frozen=True)
class FragmentHead:
    """What a fragment is without its facts, and how many of these it has."""

    log: int
    base: int
    horizon: int
    streams: Tuple[Stream, ...]
    count: int

    def __post_init__(self) -> None:
        number_in(self.count, 0, LAST_KEY, "facts of the fragment")
        bare = Fragment(self.log, self.base, self.horizon, self.streams)
        object.__setattr__(self, "streams", bare.streams)

    @classmethod
    def of(cls, fragment: Fragment) -> "FragmentHead":
        return cls(fragment.log, fragment.base, fragment.horizon, fragment.streams, len(fragment.facts))

    def with_facts(self, facts: Iterable[Fact]) -> Fragment:
        """The fragment of this head and of these facts, with all its rules (6, 7). 8: they are not so many."""
        found = tuple(facts)
        if len(found) != self.count:
            raise Fault(8, place=f"{len(found)} facts of {self.count}")
        return Fragment(self.log, self.base, self.horizon, self.streams, found)


# ---------------------------------------------------------------- questions and requests


@dataclass(frozen=True)
class Get:
    """The row of a key."""

    table: int
    key: int

    def __post_init__(self) -> None:
        table_of(self.table)
        key_of(self.key)


@dataclass(frozen=True)
class Range:
    """The rows of the keys from `low` to `high`, both with."""

    table: int
    low: int = 0
    high: int = LAST_KEY

    def __post_init__(self) -> None:
        table_of(self.table)
        number_in(self.low, 0, LAST_KEY, "low")
        number_in(self.high, 0, LAST_KEY, "high")


@dataclass(frozen=True)
class ByTag:
    """The rows with a tag."""

    table: int
    tag: int

    def __post_init__(self) -> None:
        table_of(self.table)
        number_in(self.tag, 0, 2**32 - 1, "tag")


@dataclass(frozen=True)
class Count:
    """How many rows a table has."""

    table: int

    def __post_init__(self) -> None:
        table_of(self.table)


Query = Union[Get, Range, ByTag, Count]


@dataclass(frozen=True)
class Items:
    """Take these items, all or none; each is an item or the bytes of its frame."""

    items: Tuple[Union[Item, bytes], ...]

    def __post_init__(self) -> None:
        object.__setattr__(self, "items", tuple(self.items))
        number_in(len(self.items), 0, 65_536, "count of items", 8)


@dataclass(frozen=True)
class AskFront:
    """What is the range of readable times?"""


@dataclass(frozen=True)
class Delta:
    """What happened since a base?"""

    base: int

    def __post_init__(self) -> None:
        time_of(self.base, "base")


@dataclass(frozen=True)
class Full:
    """What is held, all of it?"""


@dataclass(frozen=True)
class Ask:
    """A question at a time."""

    time: int
    query: Query

    def __post_init__(self) -> None:
        time_of(self.time)


@dataclass(frozen=True)
class JoinThis:
    """Take what a delta or a full snapshot has."""

    fragment: Fragment


@dataclass(frozen=True)
class MergeThis:
    """Take what a full snapshot has, as the merge of two replicas; its base is 0 (6)."""

    fragment: Fragment

    def __post_init__(self) -> None:
        if self.fragment.base != 0:
            raise Fault(6, place=f"base {self.fragment.base} of a merge")


@dataclass(frozen=True)
class Prune:
    """Drop the versions that ended up to a time."""

    horizon: int

    def __post_init__(self) -> None:
        time_of(self.horizon, "horizon")


# ---------------------------------------------------------------- replies


@dataclass(frozen=True)
class Done:
    """The number of the node's operations that ends with this change, 1 to 2^62."""

    operations: int

    def __post_init__(self) -> None:
        number_in(self.operations, 1, LAST_TIME, "operations")

    def line(self) -> str:
        return f"done {self.operations}"


@dataclass(frozen=True)
class One:
    """The answer to Get: a row, or None."""

    row: Optional[Row]

    def line(self) -> str:
        return "none" if self.row is None else self.row.line()


@dataclass(frozen=True)
class Rows:
    """The answer to Range and ByTag: rows by rising key (7)."""

    rows: Tuple[KeyRow, ...]

    def __post_init__(self) -> None:
        object.__setattr__(self, "rows", tuple(KeyRow(key_of(key), row) for key, row in self.rows))
        rising([key for key, _ in self.rows], "key")

    def line(self) -> str:
        return "\n".join([*(f"{key} {row.line()}" for key, row in self.rows), f"rows {len(self.rows)}"])


@dataclass(frozen=True)
class Number:
    """The answer to Count."""

    count: int

    def __post_init__(self) -> None:
        number_in(self.count, 0, LAST_KEY, "count")

    def line(self) -> str:
        return f"count {self.count}"


Answer = Union[One, Rows, Number]
