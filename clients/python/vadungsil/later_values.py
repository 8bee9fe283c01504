"""The values of messages of version 2, and the unions of all requests and of all replies."""
from __future__ import annotations

from dataclasses import dataclass
from typing import Iterable, Optional, Tuple, Union

from .errors import Fault, Refused
from .stats import AskStats, AskTables, Stats, Tables
from .values import (
    LAST_KEY,
    LAST_TIME,
    MOST_STREAMS,
    Answer,
    Ask,
    AskFront,
    Delta,
    Done,
    Fact,
    Fragment,
    FragmentHead,
    Front,
    Full,
    Items,
    JoinThis,
    KeyRow,
    MergeThis,
    Prune,
    Query,
    Rows,
    key_of,
    number_in,
    rising,
    table_of,
    time_of,
)

MOST_ROWS = 2**32 - 1
MOST_WAIT = 600_000
PART_BYTES = 8 * 2**20

# ---------------------------------------------------------------- requests


def _facts_of(facts: Iterable[Fact]) -> Tuple[Fact, ...]:
    found = tuple(facts)
    rising([it.version for it in found], "fact of")
    return found


@dataclass(frozen=True)
class AskStreams:
    """How far is the node, and each of its streams?"""


@dataclass(frozen=True)
class AskLatest:
    """A question at the resolved time."""

    query: Query


@dataclass(frozen=True)
class AskPage:
    """The rows of the keys from `low` to `high` at a time, by rising key, and so many of them at most (0 is refused
    8)."""

    time: int
    table: int
    low: int = 0
    high: int = LAST_KEY
    most: int = 1_000

    def __post_init__(self) -> None:
        time_of(self.time)
        table_of(self.table)
        key_of(self.low)
        key_of(self.high)
        number_in(self.most, 1, MOST_ROWS, "most rows", 8)


@dataclass(frozen=True)
class Whole:
    """What happened since a base, or all that is held since 0, in chunks of at most so many bytes of facts, or of one
    fact."""

    base: int = 0
    part_bytes: int = PART_BYTES

    def __post_init__(self) -> None:
        time_of(self.base, "base")
        number_in(self.part_bytes, 0, MOST_ROWS, "bytes of a chunk")


@dataclass(frozen=True)
class More:
    """The next chunk."""


@dataclass(frozen=True)
class AddPart:
    """Keep these facts until the other chunks and the head are there."""

    facts: Tuple[Fact, ...]

    def __post_init__(self) -> None:
        object.__setattr__(self, "facts", _facts_of(self.facts))


@dataclass(frozen=True)
class JoinParts:
    """Take the fragment of this head and of all chunks that were added. A node refuses it (8) where these have not as
    many facts as the head says."""

    head: FragmentHead


@dataclass(frozen=True)
class MergeParts:
    """Take the full snapshot of this head and of all chunks that were added; the base of the head is 0 (6)."""

    head: FragmentHead

    def __post_init__(self) -> None:
        if self.head.base != 0:
            raise Fault(6, place=f"base {self.head.base} of a merge")


@dataclass(frozen=True)
class AskHold:
    """Pin a time, so that it stays readable."""

    time: int

    def __post_init__(self) -> None:
        time_of(self.time)


@dataclass(frozen=True)
class Release:
    """Release the pinned time of this number."""

    number: int

    def __post_init__(self) -> None:
        number_in(self.number, 1, LAST_KEY, "number of a pin")


@dataclass(frozen=True)
class Feed(Items):
    """Take these items, all or none, and report how many of them were new."""


@dataclass(frozen=True)
class Await:
    """Reply once a time can be read, or when so many milliseconds are over: at most 600,000 (6)."""

    time: int
    milliseconds: int

    def __post_init__(self) -> None:
        time_of(self.time)
        number_in(self.milliseconds, 0, MOST_WAIT, "milliseconds")


LaterRequest = Union[
    AskStreams,
    AskLatest,
    AskPage,
    Whole,
    More,
    AddPart,
    JoinParts,
    MergeParts,
    AskHold,
    Release,
    Feed,
    Await,
    AskStats,
    AskTables,
]
Request = Union[Items, AskFront, Delta, Full, Ask, JoinThis, MergeThis, Prune, LaterRequest]


# ---------------------------------------------------------------- replies


@dataclass(frozen=True)
class LaterDone(Done):
    """The same, in version 2."""


@dataclass(frozen=True)
class StreamTold:
    """How far one stream is: its prefix, its closed time, and how many numbers above the prefix are taken and how many
    marks wait."""

    prefix: int
    closed: int
    extra: int
    waiting: int

    def __post_init__(self) -> None:
        time_of(self.closed, "closed")
        for name in ("prefix", "extra", "waiting"):
            number_in(getattr(self, name), 0, LAST_KEY, name)


@dataclass(frozen=True)
class Streams:
    """How far a node is. `least_hold` is the least pinned time, None where no time is pinned."""

    log: int
    horizon: int
    readable: int
    damaged: bool
    operations: int
    least_hold: Optional[int]
    streams: Tuple[StreamTold, ...]

    def __post_init__(self) -> None:
        object.__setattr__(self, "streams", tuple(self.streams))
        number_in(self.log, 0, LAST_KEY, "log")
        Front(self.horizon, self.readable)
        number_in(self.operations, 1, LAST_TIME, "operations")
        if self.least_hold is not None:
            time_of(self.least_hold, "least pinned time")
        number_in(len(self.streams), 1, MOST_STREAMS, "number of streams", 5)

    def line(self) -> str:
        held = "" if self.least_hold is None else f" held {self.least_hold}"
        first = (
            f"streams log {self.log} horizon {self.horizon} readable {self.readable} operations"
            f" {self.operations}{held}{' damaged' * self.damaged}"
        )
        return "\n".join(
            [
                first,
                *(
                    f"stream {number} prefix {it.prefix} extra {it.extra} closed {it.closed} waiting {it.waiting}"
                    for number, it in enumerate(self.streams, 1)
                ),
            ]
        )


@dataclass(frozen=True)
class Latest:
    """The resolved time, and the answer to a question at it."""

    time: int
    answer: Answer

    def __post_init__(self) -> None:
        time_of(self.time)

    def line(self) -> str:
        return f"latest {self.time}\n{self.answer.line()}"


@dataclass(frozen=True)
class Page:
    """Rows by rising key (7), and whether more of them follow."""

    rows: Tuple[KeyRow, ...]
    more: bool

    def __post_init__(self) -> None:
        object.__setattr__(self, "rows", Rows(self.rows).rows)

    def line(self) -> str:
        return "\n".join(
            [
                *(f"{key} {row.line()}" for key, row in self.rows),
                f"page {len(self.rows)} {'more' if self.more else 'all'}",
            ]
        )


@dataclass(frozen=True)
class Part:
    """Some facts, and how many come after them."""

    facts: Tuple[Fact, ...]
    left: int

    def __post_init__(self) -> None:
        object.__setattr__(self, "facts", _facts_of(self.facts))
        number_in(self.left, 1, LAST_KEY, "facts to come")

    def line(self) -> str:
        return f"part {len(self.facts)} left {self.left}"


@dataclass(frozen=True)
class LastPart:
    """The last facts, and the head of all."""

    facts: Tuple[Fact, ...]
    head: FragmentHead

    def __post_init__(self) -> None:
        object.__setattr__(self, "facts", _facts_of(self.facts))

    def line(self) -> str:
        return f"last part {len(self.facts)} base {self.head.base}"


@dataclass(frozen=True)
class Added:
    """How many facts were added so far."""

    count: int

    def __post_init__(self) -> None:
        number_in(self.count, 0, LAST_KEY, "facts added")

    def line(self) -> str:
        return f"added {self.count}"


@dataclass(frozen=True)
class Held:
    """A pin's number, and the time that it keeps readable."""

    number: int
    time: int

    def __post_init__(self) -> None:
        number_in(self.number, 1, LAST_KEY, "number of a pin")
        time_of(self.time)

    def line(self) -> str:
        return f"held {self.number} at {self.time}"


@dataclass(frozen=True)
class Fed:
    """The number of the node's operations that ends with these items, 1 to 2^62, and how many of them had something
    new."""

    operations: int
    new: int

    def __post_init__(self) -> None:
        number_in(self.operations, 1, LAST_TIME, "operations")
        number_in(self.new, 0, LAST_KEY, "new items")

    def line(self) -> str:
        return f"fed {self.operations} new {self.new}"


@dataclass(frozen=True)
class Ready(Front):
    """The range of readable times when a wait came to its end."""

    def line(self) -> str:
        return f"ready {self._times()}"


LaterReply = Union[LaterDone, Streams, Latest, Page, Part, LastPart, Added, Held, Fed, Ready, Stats, Tables]
Reply = Union[Done, Front, Fragment, Answer, LaterReply, Refused]
