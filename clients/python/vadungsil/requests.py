"""What can be asked, for every kind of asker: a node, a pipeline, one moment, and their asyncio twins."""
# mypy: no-warn-return-any
from __future__ import annotations

from typing import Any, Callable, Dict, Generic, Iterable, Iterator, List, Optional, Tuple, TypeVar, Union, overload

from .errors import Fault, NotYet, Refused
from .messages import encode_request, framed, items_bytes, query_bytes, reply_of
from .reading import Bytes
from .stats import Stats, Tables
from .later_values import AskLatest, AskPage, Fed, Latest, Page, Streams
from .values import (
    LAST_KEY,
    Answer,
    ByTag,
    Count,
    Delta,
    Done,
    Fragment,
    Front,
    Get,
    Item,
    JoinThis,
    KeyRow,
    MergeThis,
    Number,
    One,
    Operations,
    Prune,
    Query,
    Range,
    Row,
    Rows,
    time_of,
)

RowT = TypeVar("RowT")
RowsT = TypeVar("RowsT")
NumberT = TypeVar("NumberT")
FrontT = TypeVar("FrontT")
FragmentT = TypeVar("FragmentT")
StreamsT = TypeVar("StreamsT")
PageT = TypeVar("PageT")
LatestRowT = TypeVar("LatestRowT")
LatestRowsT = TypeVar("LatestRowsT")
LatestNumberT = TypeVar("LatestNumberT")
OperationsT = TypeVar("OperationsT")
StatsT = TypeVar("StatsT")
TablesT = TypeVar("TablesT")
Read = Callable[[bytes], Any]

NOT_READ = "the node reads messages of version 1 alone (hkrep serve --messages 2)"
NOT_FED = f"{NOT_READ}, or an item's frame is of none that it reads"
NOT_KNOWN = "the node is of an earlier release and doesn't know this request, or its port doesn't take it"
FRONT = framed(17, b"")
FULL = framed(19, b"")
STREAMS = framed(48, b"")
STATS = framed(60, b"")
TABLES = framed(61, b"")


def ask_frame(time: int, query: Query) -> bytes:
    body = query_bytes(query)
    return (len(body) + 10).to_bytes(4, "big") + b"\1\x14" + time_of(time).to_bytes(8, "big") + body


def value_of(rest: bytes, *kinds: type, latest: int = 1, unread: str = NOT_READ) -> Any:
    """The reply, which is of one of these kinds; a refusal is raised, and a reply of another kind is 4. A node that
    doesn't read version 2 refuses what it was asked in it in version 1, with 3, and one that doesn't know it with 4."""
    value = reply_of(rest, latest)
    if isinstance(value, Refused):
        why = {3: unread, 4: NOT_KNOWN}.get(value.number) if rest[0] < latest else None
        raise value.at(why) if why else value
    if not isinstance(value, kinds):
        wanted = " or ".join(kind.__name__ for kind in kinds)
        raise Fault(4, place=f"a reply of {type(value).__name__}, where {wanted} was asked for")
    return value


def read_row(rest: bytes) -> Optional[Row]:
    if len(rest) >= 10 and rest[:4] == b"\1\x23\1\1":
        size = rest[8] << 8 | rest[9]
        if size == len(rest) - 10 and size <= 4_096:
            row = object.__new__(Row)
            fields = row.__dict__
            fields["tag"], fields["body"] = int.from_bytes(rest[4:8], "big"), rest[10:]
            return row
    row_or_none: Optional[Row] = value_of(rest, One).row
    return row_or_none


def read_rows(rest: bytes) -> List[KeyRow]:
    return list(value_of(rest, Rows).rows)


def read_number(rest: bytes) -> int:
    count: int = value_of(rest, Number).count
    return count


def read_front(rest: bytes) -> Front:
    front: Front = value_of(rest, Front)
    return front


def latest_in(front: Front, name: str) -> int:
    """The resolved time. `NotYet` (26) where nothing can be read yet: a node without marks answers at time 0 alone."""
    if front.readable == 0:
        raise NotYet(26, 0, place=name)
    return front.readable


def read_fragment(rest: bytes) -> Fragment:
    fragment: Fragment = value_of(rest, Fragment)
    return fragment


def read_done(rest: bytes) -> int:
    operations: int = value_of(rest, Done).operations
    return operations


def read_items(rest: bytes) -> Operations:
    return Operations(read_done(rest))


def read_fed(rest: bytes, count: int) -> Operations:
    """What a node reports of so many items; more of them can't be new (8)."""
    fed: Fed = value_of(rest, Fed, latest=2, unread=NOT_FED)
    if fed.new > count:
        raise Fault(8, place=f"{fed.new} new items of {count}")
    return Operations(fed.operations, fed.new)


def feeding(body: bytes, version: int) -> Tuple[bytes, Read]:
    """The request that takes items, in messages of this version: Items, or Feed; and what reads its reply."""
    if version == 1:
        return framed(16, body), read_items
    count = int.from_bytes(body[:4], "big")
    return framed(58, body), lambda rest: read_fed(rest, count)


def version_seen(known: Optional[int], rest: bytes) -> Optional[int]:
    """The latest version that a node reads, as far as is known: a reply of version 2 shows it."""
    return 2 if known is None and rest[:1] == b"\2" else known


_ANSWERS: Dict[type, type] = {Get: One, Range: Rows, ByTag: Rows, Count: Number}


def _value_of_answer(answer: Answer, query: Query) -> Any:
    """A row or None, a list of rows, or a count, as the query asks for; an answer of another kind is 4."""
    kind = _ANSWERS[type(query)]
    if not isinstance(answer, kind):
        raise Fault(4, place=f"an answer of {type(answer).__name__}, where {kind.__name__} was asked for")
    if isinstance(answer, One):
        return answer.row
    return answer.count if isinstance(answer, Number) else list(answer.rows)


def read_streams(rest: bytes) -> Streams:
    streams: Streams = value_of(rest, Streams, latest=2)
    return streams


def read_stats(rest: bytes) -> Stats:
    stats: Stats = value_of(rest, Stats, latest=2)
    return stats


def read_tables(rest: bytes) -> List[int]:
    return list(value_of(rest, Tables, latest=2).tables)


def read_latest(rest: bytes, query: Query) -> Tuple[int, Any]:
    latest: Latest = value_of(rest, Latest, latest=2)
    return latest.time, _value_of_answer(latest.answer, query)


def read_page(rest: bytes, asked: AskPage) -> Page:
    """The page, of the keys that were asked for (6) and of so many rows at most (8). Where more follow, it has rows,
    and keys are left behind them (8): so who asks for page after page comes to an end."""
    page: Page = value_of(rest, Page, latest=2)
    keys = [row.key for row in page.rows]
    if keys and not asked.low <= keys[0] <= keys[-1] <= asked.high:
        raise Fault(
            6, place=f"a page of the keys {keys[0]} to {keys[-1]}, where {asked.low} to {asked.high} were asked for"
        )
    if len(keys) > asked.most or (page.more and (not keys or keys[-1] == asked.high)):
        raise Fault(8, place=f"a page of {len(keys)} rows{', behind which more follow' if page.more else ''}")
    return page


def range_of(table: int, low: int, high: int) -> Range:
    """The query for a range of keys. `ValueError`: low is above high, where no key could be."""
    query = Range(table, low, high)
    if low > high:
        raise ValueError(f"low is {low}, above high, {high}")
    return query


def logs_of(body: bytes) -> Iterator[int]:
    """The logs of the items in the body of Items that a node has read."""
    at = 4
    while at < len(body):
        yield int.from_bytes(body[at + 6 : at + 14], "big")
        at += 4 + int.from_bytes(body[at : at + 4], "big")


def other_log(name: str, own: int, given: Iterable[int]) -> str:
    """The place of a refusal 20 by a node of the log `own`, which was given items or a fragment of these logs."""
    other = next((log for log in given if log != own), own)
    return f"{name} has log {own}, and was given log {other}"


class Moment(Generic[RowT, RowsT, NumberT]):
    """Questions at one time. `time` is it."""

    time: int

    def _read(self, query: Query, read: Read) -> Any:
        raise NotImplementedError

    def get(self, table: int, key: int) -> RowT:
        """The row of a key, or None."""
        return self._read(Get(table, key), read_row)

    def range(self, table: int, low: int = 0, high: int = LAST_KEY) -> RowsT:
        """The rows of the keys from low to high, both with, by rising key. `ValueError`: low is above high."""
        return self._read(range_of(table, low, high), read_rows)

    def by_tag(self, table: int, tag: int) -> RowsT:
        """The rows with a tag, by rising key."""
        return self._read(ByTag(table, tag), read_rows)

    def count(self, table: int) -> NumberT:
        """How many rows a table has."""
        return self._read(Count(table), read_number)


class Reads(Generic[RowT, RowsT, NumberT]):
    """Questions, each at a time of its own; without one, at the resolved time, for which the front is asked first.

    Raised: `NotYet` without a time where nothing can be read yet; 25 below the oldest readable time (`error.horizon`),
    26 above the resolved time (`error.readable`)."""

    def _read(self, at: Optional[int], query: Query, read: Read) -> Any:
        raise NotImplementedError

    def get(self, table: int, key: int, at: Optional[int] = None) -> RowT:
        """The row of a key, or None."""
        return self._read(at, Get(table, key), read_row)

    def range(self, table: int, low: int = 0, high: int = LAST_KEY, at: Optional[int] = None) -> RowsT:
        """The rows of the keys from low to high, both with, by rising key. More than 2^28 bytes of them are refused 2.
        `ValueError`: low is above high."""
        return self._read(at, range_of(table, low, high), read_rows)

    def by_tag(self, table: int, tag: int, at: Optional[int] = None) -> RowsT:
        """The rows with a tag, by rising key."""
        return self._read(at, ByTag(table, tag), read_rows)

    def count(self, table: int, at: Optional[int] = None) -> NumberT:
        """How many rows a table has."""
        return self._read(at, Count(table), read_number)


class Requests(
    Reads[RowT, RowsT, NumberT],
    Generic[
        RowT,
        RowsT,
        NumberT,
        FrontT,
        FragmentT,
        StreamsT,
        PageT,
        LatestRowT,
        LatestRowsT,
        LatestNumberT,
        OperationsT,
        StatsT,
        TablesT,
    ],
):
    """All requests of docs/PROTOCOL.md. A change gives the number of the node's operations that ends with it."""

    def _call(self, request: bytes, read: Read) -> Any:
        raise NotImplementedError

    def _feed(self, body: bytes) -> Any:
        """Sends the body of Items, as Feed to a node that reads messages of version 2."""
        raise NotImplementedError

    def _give(self, fragment: Fragment, request: bytes) -> Any:
        """Sends the request that has a node take a fragment."""
        return self._call(request, read_done)

    def front(self) -> FrontT:
        """The range of readable times."""
        return self._call(FRONT, read_front)

    def items(self, items: Union[Iterable[Union[Item, Bytes, None]], Item, Bytes, None]) -> OperationsT:
        """Takes items, or the bytes of their frames, all or none; at most 65,536, and None is passed over. One item may
        be given as it is, without a list. Sent twice is as once: `new` of the number has how many the node did not know
        before, where it is known to read messages of version 2, and else None. 20 and 21: not of this log; 23: they
        conflict with one another, or with what the node holds, which fails it (41 from then on), but for one with a
        guard: that refuses also what touches the past, and a repeat that differs, and nothing is changed."""
        return self._feed(items_bytes(items))

    def delta(self, base: int) -> FragmentT:
        """What happened since a time in the range of readable times."""
        return self._call(encode_request(Delta(base)), read_fragment)

    def whole(self) -> FragmentT:
        """All that the node holds. More than 2^28 bytes of it are refused 2."""
        return self._call(FULL, read_fragment)

    def join(self, fragment: Fragment) -> NumberT:
        """Takes a delta or a full snapshot of another node. 22: it begins above this node's resolved time
        (`error.readable`)."""
        return self._give(fragment, encode_request(JoinThis(fragment)))

    def merge(self, fragment: Fragment) -> NumberT:
        """Takes the full snapshot of another node; its base is 0."""
        return self._give(fragment, encode_request(MergeThis(fragment)))

    def prune(self, horizon: int) -> NumberT:
        """Drops the versions that ended up to a time, which becomes the oldest readable time. 24: it is above the
        resolved time."""
        return self._call(encode_request(Prune(horizon)), read_done)

    # ------------------------------------------------------------ messages of version 2, which a node reads with
    # `--messages 2`; else 3

    def status(self) -> StreamsT:
        """How far the node is, and each of its streams (`later.Streams`): also of a failed node."""
        return self._call(STREAMS, read_streams)

    def stats(self) -> StatsT:
        """What the node counts (`later.Stats`): what it holds, memory, connections, requests, refusals. Also of a
        failed node. 4: the node is of an earlier release."""
        return self._call(STATS, read_stats)

    def tables(self) -> TablesT:
        """The tables of which the node holds anything, a row or an end of a version, by rising number. 4: the node is
        of an earlier release."""
        return self._call(TABLES, read_tables)

    @overload
    def latest(self, query: Get) -> LatestRowT:
        ...

    @overload
    def latest(self, query: Union[Range, ByTag]) -> LatestRowsT:
        ...

    @overload
    def latest(self, query: Count) -> LatestNumberT:
        ...

    def latest(self, query: Query) -> Any:
        """The resolved time, and the answer to a question at it: `node.latest(Get(1, 5))`, in one exchange."""
        return self._call(encode_request(AskLatest(query)), lambda rest: read_latest(rest, query))

    def page(self, table: int, low: int = 0, high: int = LAST_KEY, *, at: int, most: int = 1_000) -> PageT:
        """The rows of the keys from low to high at a time, and as many as `most` of them, and whether more follow
        (`later.Page`). `ValueError`: low is above high."""
        asked = AskPage(time_of(at), table, low, high, most)
        range_of(table, low, high)
        return self._call(encode_request(asked), lambda rest: read_page(rest, asked))
