"""Requests and replies as bytes: docs/FORMATS.md, "Message frames"."""
from __future__ import annotations

import struct
from typing import Any, Callable, Dict, Iterable, List, NamedTuple, Optional, Sequence, Tuple, Union

from . import items as _items
from .errors import Fault, Refused, refusal
from .items import LEAST_REST, MOST_REST, encode
from .reading import Bytes, FrameFeeder, Reader, Value, whole_frame
from .reasons import REASONS
from .stats import AskStats, AskTables, Metric, Stats, Tables
from .later_values import (
    MOST_WAIT,
    AddPart,
    Added,
    AskHold,
    AskLatest,
    AskPage,
    AskStreams,
    Await,
    Fed,
    Feed,
    Held,
    JoinParts,
    LastPart,
    LaterDone,
    Latest,
    MergeParts,
    More,
    Page,
    Part,
    Ready,
    Release,
    Reply,
    Request,
    Streams,
    StreamTold,
    Whole,
)
from .values import (
    LAST_TIME,
    MOST_STREAMS,
    Answer,
    Ask,
    AskFront,
    ByTag,
    Count,
    Delta,
    Done,
    Entry,
    Fact,
    Fragment,
    FragmentHead,
    Front,
    Full,
    Get,
    Item,
    Items,
    JoinThis,
    KeyRow,
    Mark,
    MergeThis,
    Number,
    One,
    Prune,
    Query,
    Range,
    Row,
    Rows,
    Stream,
    VersionKey,
)

MOST_MESSAGE = 2**28
MOST_ITEMS = 65_536
LEAST_LATER = 48  # the least kind of version 2
REFUSED = {1: 36, 2: 72}  # the kind of a refusal, by version

_U64 = struct.Struct(">Q").pack


def version_of(kind: int) -> int:
    """The version byte of a kind of messages."""
    return 1 if kind < LEAST_LATER else 2


def framed(kind: int, body: bytes) -> bytes:
    """The frame of a message; 2 where it is too long."""
    if len(body) + 2 > MOST_MESSAGE:
        raise Fault(2, place=f"a message of {len(body) + 2} bytes")
    return struct.pack(">IBB", len(body) + 2, version_of(kind), kind) + body


# ---------------------------------------------------------------- writing


def query_bytes(query: Query) -> bytes:
    if isinstance(query, Get):
        return struct.pack(">BHQ", 1, query.table, query.key)
    if isinstance(query, Range):
        return struct.pack(">BHQQ", 2, query.table, query.low, query.high)
    if isinstance(query, ByTag):
        return struct.pack(">BHI", 3, query.table, query.tag)
    if isinstance(query, Count):
        return struct.pack(">BH", 4, query.table)
    raise TypeError(f"no query: {type(query).__name__}")


def _row_bytes(row: Row) -> bytes:
    return struct.pack(">IH", row.tag, len(row.body)) + row.body


def head_bytes(log: int, base: int, horizon: int, streams: Sequence[Stream]) -> bytes:
    """A fragment up to the count of its facts."""
    parts = [struct.pack(">QHQQ", log, len(streams), base, horizon)]
    for stream in streams:
        parts += [struct.pack(">QQI", stream.prefix, stream.closed, len(stream.extra)), *map(_U64, stream.extra)]
        parts += [struct.pack(">I", len(stream.waiting)), *(struct.pack(">QQ", n, m) for n, m in stream.waiting)]
    return b"".join(parts)


def facts_bytes(facts: Sequence[Fact]) -> bytes:
    """Facts behind their count."""
    parts = [struct.pack(">I", len(facts))]
    for fact in facts:
        flags = (fact.row is not None) + 2 * (fact.died is not None)
        parts.append(struct.pack(">HQQB", fact.version.table, fact.version.key, fact.version.born, flags))
        if fact.row is not None:
            parts.append(_row_bytes(fact.row))
        if fact.died is not None:
            parts.append(_U64(fact.died))
    return b"".join(parts)


def fragment_bytes(it: Fragment) -> bytes:
    return head_bytes(it.log, it.base, it.horizon, it.streams) + facts_bytes(it.facts)


def _counted_head_bytes(it: FragmentHead) -> bytes:
    return head_bytes(it.log, it.base, it.horizon, it.streams) + _U64(it.count)


def _streams_bytes(it: Streams) -> bytes:
    held = b"\0" if it.least_hold is None else b"\1" + _U64(it.least_hold)
    streams = b"".join(struct.pack(">QQQQ", of.prefix, of.closed, of.extra, of.waiting) for of in it.streams)
    first = struct.pack(">QQQBQ", it.log, it.horizon, it.readable, it.damaged, it.operations)
    return first + held + struct.pack(">H", len(it.streams)) + streams


def _stats_bytes(it: Stats) -> bytes:
    return struct.pack(">I", len(it.metrics)) + b"".join(struct.pack(">HHQ", *metric) for metric in it.metrics)


def _tables_bytes(it: Tables) -> bytes:
    return struct.pack(f">I{len(it.tables)}H", len(it.tables), *it.tables)


def rows_bytes(rows: Sequence[KeyRow]) -> bytes:
    """Rows behind their count."""
    return len(rows).to_bytes(4, "big") + b"".join(_U64(key) + _row_bytes(row) for key, row in rows)


def answer_bytes(answer: Answer) -> bytes:
    if isinstance(answer, One):
        return b"\1\0" if answer.row is None else b"\1\1" + _row_bytes(answer.row)
    if isinstance(answer, Rows):
        return b"\2" + rows_bytes(answer.rows)
    if isinstance(answer, Number):
        return b"\3" + _U64(answer.count)
    raise TypeError(f"no answer: {type(answer).__name__}")


def _front_bytes(it: Front) -> bytes:
    return struct.pack(">QQ", it.horizon, it.readable)


def _refused_bytes(why: Refused, version: int) -> bytes:
    """A refusal's number and its two fields; 2 where no reply has it."""
    if not is_told(why.number, version):
        raise Fault(2, place=f"refusal {why.number} has no encoding")
    first, second = (*why.values, 0, 0)[:2]
    return struct.pack(">BQQ", why.number, first, second)


def items_frame(frames: Iterable[Union[Item, Bytes, None]], version: int = 2) -> bytes:
    """The request Items of items, or of the bytes of their frames, which are taken as they stand. None, which is what a
    commit that writes nothing gives, is passed over."""
    return framed(16, items_bytes(frames, version))


def _each(frames: Union[Iterable[Union[Item, Bytes, None]], Item, Bytes, None]) -> Iterable[Union[Item, Bytes, None]]:
    """The same; of one item, it alone."""
    if frames is None or isinstance(frames, (Entry, Mark, bytes, bytearray, memoryview)):
        return [frames]
    return frames


def items_bytes(frames: Union[Iterable[Union[Item, Bytes, None]], Item, Bytes, None], version: int = 2) -> bytes:
    """The body of Items and of Feed: their count, and the frame of each; of one item, where it is one."""
    texts: List[bytes] = []
    for frame in _each(frames):
        if frame is not None:
            texts.append(bytes(frame) if isinstance(frame, (bytes, bytearray, memoryview)) else encode(frame, version))
    if len(texts) > MOST_ITEMS:
        raise Fault(8, place=f"{len(texts)} items")
    return len(texts).to_bytes(4, "big") + b"".join(texts)


def is_told(number: int, version: int = 1) -> bool:
    """Whether a reply of this version may have this number."""
    return number in REASONS and not 30 <= number <= 36 and number <= 90 and (version == 2 or not 46 <= number <= 47)


# ---------------------------------------------------------------- reading


def _made(kind: type, **fields: Any) -> Any:
    """A value whose rules were looked at where it was read."""
    it: Any = object.__new__(kind)
    it.__dict__.update(fields)
    return it


def _items_at(reader: Reader) -> Items:
    count = reader.u32("count of items")
    if count > MOST_ITEMS:
        raise reader.fault(8, "count of items", 4)
    found: List[Item] = []
    for number in range(1, count + 1):
        size = reader.u32(f"length of item {number}")
        if size > MOST_REST or size < LEAST_REST:
            raise reader.fault(2 if size > MOST_REST else 10, f"length of item {number}", 4)
        start = reader.start + reader.at
        rest = reader.take(size, f"item {number}")
        try:
            found.append(_items.decode_rest(rest, start))
        except Fault as fault:
            raise fault.at(f"item {number}")
    return Items(tuple(found))


def _query_at(reader: Reader) -> Query:
    kind = reader.u8("kind of a query")
    if not 1 <= kind <= 4:
        raise reader.fault(6, "kind of a query", 1)
    table = reader.u16("table")
    if kind == 1:
        return Get(table, reader.u64("key"))
    if kind == 2:
        return Range(table, reader.u64("low"), reader.u64("high"))
    return ByTag(table, reader.u32("tag")) if kind == 3 else Count(table)


def _stream_at(reader: Reader) -> Stream:
    prefix, closed = reader.time("prefix"), reader.time("closed")
    count = reader.u32("count of extra numbers")
    extra: List[int] = []
    for _ in range(count):
        number = reader.u64("extra number")
        if extra and number <= extra[-1]:
            raise reader.fault(7, "extra number", 8)
        if not prefix + 1 < number <= LAST_TIME:
            raise reader.fault(6, "extra number", 8)
        extra.append(number)
    count = reader.u32("count of waiting marks")
    waiting: List[Tuple[int, int]] = []
    for _ in range(count):
        n, m = reader.u64("n"), reader.u64("m")
        if waiting and n <= waiting[-1][0]:
            raise reader.fault(7, "n of a waiting mark", 16)
        if not prefix < n <= m <= LAST_TIME:
            raise reader.fault(6, "n and m of a waiting mark", 16)
        waiting.append((n, m))
    stream: Stream = _made(Stream, prefix=prefix, closed=closed, extra=tuple(extra), waiting=tuple(waiting))
    return stream


def _fact_at(reader: Reader, base: int, horizon: int, before: Optional[VersionKey]) -> Fact:
    place = (reader.u16("table"), reader.u64("key"), reader.u64("born"))
    if before is not None and place <= (before.table, before.key, before.born):
        raise reader.fault(7, "version", 18)
    if not 1 <= place[2] <= LAST_TIME:
        raise reader.fault(6, "born", 8)
    flags = reader.u8("flags")
    if not 1 <= flags <= 3 or (flags & 1 and place[2] <= base):
        raise reader.fault(6, "flags", 1)
    row = reader.row() if flags & 1 else None
    died = reader.u64("died") if flags & 2 else None
    if died is not None and not max(base, horizon, place[2]) < died <= LAST_TIME:
        raise reader.fault(6, "died", 8)
    version, fact = object.__new__(VersionKey), object.__new__(Fact)
    version.__dict__.update(table=place[0], key=place[1], born=place[2])
    fact.__dict__.update(version=version, row=row, died=died)
    return fact


def head_at(reader: Reader) -> Tuple[int, int, int, Tuple[Stream, ...]]:
    """The log, the base, the oldest readable time and the streams of a fragment."""
    log, count = reader.u64("log"), reader.u16("number of streams")
    if not 1 <= count <= MOST_STREAMS:
        raise reader.fault(5, "number of streams", 2)
    base, horizon = reader.time("base"), reader.time("horizon")
    if base != 0 and base < horizon:
        raise reader.fault(6, "base and oldest readable time", 16)
    streams = [_stream_at(reader) for _ in range(count)]
    if horizon > min(it.closed for it in streams):
        raise reader.fault(6, "oldest readable time, which is above the least closed time")
    return log, base, horizon, tuple(streams)


def facts_at(reader: Reader, base: int = 0, horizon: int = 0) -> Tuple[Fact, ...]:
    """Facts behind their count, as a fragment of this base and oldest readable time has them."""
    count = reader.u32("count of facts")
    facts: List[Fact] = []
    for _ in range(count):
        facts.append(_fact_at(reader, base, horizon, facts[-1].version if facts else None))
    return tuple(facts)


def _fragment_at(reader: Reader) -> Fragment:
    log, base, horizon, streams = head_at(reader)
    fragment: Fragment = _made(
        Fragment, log=log, base=base, horizon=horizon, streams=streams, facts=facts_at(reader, base, horizon)
    )
    return fragment


def _counted_head_at(reader: Reader) -> FragmentHead:
    log, base, horizon, streams = head_at(reader)
    head: FragmentHead = _made(
        FragmentHead, log=log, base=base, horizon=horizon, streams=streams, count=reader.u64("facts of the fragment")
    )
    return head


def _of_all(it: Any, reader: Reader) -> Any:
    """A fragment or a head that is merged: its base is 0."""
    if it.base != 0:
        raise reader.fault(6, "base of a merge")
    return it


def _refused_at(reader: Reader, version: int) -> Refused:
    """A refusal, of those that a reply may have."""
    number = reader.u8("number of a refusal")
    if not is_told(number, version):
        raise reader.fault(6, "number of a refusal", 1)
    values = (reader.u64("first field"), reader.u64("second field"))
    names = REASONS[number].fields
    for place, value in enumerate(values):
        is_time = place < len(names) and names[place] in ("base", "readable", "horizon", "at")
        if value > (0 if place >= len(names) else LAST_TIME if is_time else value):
            raise reader.fault(6, "field of a refusal", 8)
    return refusal(number, *values[: len(names)])


def _rows_at(reader: Reader) -> Tuple[KeyRow, ...]:
    """Rows behind their count, by rising key."""
    count, rows = reader.u32("count of rows"), []
    last = -1
    for _ in range(count):
        key = reader.u64("key")
        if key <= last:
            raise reader.fault(7, "key", 8)
        last = key
        rows.append(KeyRow(key, reader.row()))
    return tuple(rows)


def _answer_at(reader: Reader) -> Answer:
    kind = reader.u8("kind of an answer")
    if kind == 1:
        some = reader.u8("presence")
        if some > 1:
            raise reader.fault(6, "presence", 1)
        return One(reader.row() if some else None)
    if kind == 3:
        return Number(reader.u64("count"))
    if kind != 2:
        raise reader.fault(6, "kind of an answer", 1)
    answer: Answer = _made(Rows, rows=_rows_at(reader))
    return answer


def _front_at(reader: Reader) -> Front:
    horizon, readable = reader.u64("horizon"), reader.u64("readable")
    if not horizon <= readable <= LAST_TIME:
        raise reader.fault(6, "oldest readable time and resolved time", 16)
    return Front(horizon, readable)


def _ready_at(reader: Reader) -> Ready:
    front = _front_at(reader)
    return Ready(front.horizon, front.readable)


def _operations_at(reader: Reader) -> int:
    operations = reader.u64("operations")
    if not 1 <= operations <= LAST_TIME:
        raise reader.fault(6, "operations", 8)
    return operations


def _page_request_at(reader: Reader) -> AskPage:
    time, table, low, high = reader.time("time"), reader.u16("table"), reader.u64("low"), reader.u64("high")
    most = reader.u32("most rows")
    if most == 0:
        raise reader.fault(8, "most rows", 4)
    return AskPage(time, table, low, high, most)


def _await_at(reader: Reader) -> Await:
    time, milliseconds = reader.time("time"), reader.u32("milliseconds")
    if milliseconds > MOST_WAIT:
        raise reader.fault(6, "milliseconds", 4)
    return Await(time, milliseconds)


def _positive_at(reader: Reader, what: str) -> int:
    number = reader.u64(what)
    if number == 0:
        raise reader.fault(6, what, 8)
    return number


def _flag_at(reader: Reader, what: str) -> bool:
    flag = reader.u8(what)
    if flag > 1:
        raise reader.fault(6, what, 1)
    return flag == 1


def _stream_told_at(reader: Reader) -> StreamTold:
    prefix, closed = reader.u64("prefix"), reader.time("closed")
    return StreamTold(prefix, closed, reader.u64("count of extra numbers"), reader.u64("count of waiting marks"))


def _streams_at(reader: Reader) -> Streams:
    log, front, damaged = reader.u64("log"), _front_at(reader), _flag_at(reader, "whether failed")
    operations = _operations_at(reader)
    held = reader.time("least pinned time") if _flag_at(reader, "whether a time is pinned") else None
    count = reader.u16("number of streams")
    if not 1 <= count <= MOST_STREAMS:
        raise reader.fault(5, "number of streams", 2)
    streams = tuple(_stream_told_at(reader) for _ in range(count))
    return Streams(log, front.horizon, front.readable, damaged, operations, held, streams)


def _stats_at(reader: Reader) -> Stats:
    count, metrics = reader.u32("count of metrics"), []
    last = (-1, -1)
    for _ in range(count):
        place = (reader.u16("name of a metric"), reader.u16("label of a metric"))
        if place <= last:
            raise reader.fault(7, "name and label of a metric", 4)
        last = place
        metrics.append(Metric(*place, reader.u64("value of a metric")))
    return Stats(tuple(metrics))


def _tables_at(reader: Reader) -> Tables:
    count, tables = reader.u32("count of tables"), []
    last = -1
    for _ in range(count):
        table = reader.u16("table")
        if table <= last:
            raise reader.fault(7, "table", 2)
        last = table
        tables.append(table)
    return Tables(tuple(tables))


def _page_at(reader: Reader) -> Page:
    more = _flag_at(reader, "whether more follow")
    page: Page = _made(Page, rows=_rows_at(reader), more=more)
    return page


def _part_at(reader: Reader) -> Part:
    left = _positive_at(reader, "facts to come")
    part: Part = _made(Part, facts=facts_at(reader), left=left)
    return part


def _last_part_at(reader: Reader) -> LastPart:
    facts = facts_at(reader)
    part: LastPart = _made(LastPart, facts=facts, head=_counted_head_at(reader))
    return part


# ---------------------------------------------------------------- the kinds


class Kind(NamedTuple):
    """The values of a kind of messages, how one becomes a body, and how a body is read."""

    values: Tuple[type, ...]
    write: Callable[[Any], bytes]
    read: Callable[[Reader], Any]


REQUESTS: Dict[int, Kind] = {
    16: Kind((Items,), lambda it: items_bytes(it.items), _items_at),
    17: Kind((AskFront,), lambda it: b"", lambda _: AskFront()),
    18: Kind((Delta,), lambda it: _U64(it.base), lambda it: Delta(it.time("base"))),
    19: Kind((Full,), lambda it: b"", lambda _: Full()),
    20: Kind((Ask,), lambda it: _U64(it.time) + query_bytes(it.query), lambda it: Ask(it.time("time"), _query_at(it))),
    21: Kind((JoinThis,), lambda it: fragment_bytes(it.fragment), lambda it: JoinThis(_fragment_at(it))),
    22: Kind((MergeThis,), lambda it: fragment_bytes(it.fragment), lambda it: MergeThis(_of_all(_fragment_at(it), it))),
    23: Kind((Prune,), lambda it: _U64(it.horizon), lambda it: Prune(it.time("horizon"))),
    48: Kind((AskStreams,), lambda it: b"", lambda _: AskStreams()),
    49: Kind((AskLatest,), lambda it: query_bytes(it.query), lambda it: AskLatest(_query_at(it))),
    50: Kind(
        (AskPage,), lambda it: struct.pack(">QHQQI", it.time, it.table, it.low, it.high, it.most), _page_request_at
    ),
    51: Kind(
        (Whole,),
        lambda it: struct.pack(">QI", it.base, it.part_bytes),
        lambda it: Whole(it.time("base"), it.u32("bytes of a chunk")),
    ),
    52: Kind((More,), lambda it: b"", lambda _: More()),
    53: Kind((AddPart,), lambda it: facts_bytes(it.facts), lambda it: _made(AddPart, facts=facts_at(it))),
    54: Kind((JoinParts,), lambda it: _counted_head_bytes(it.head), lambda it: JoinParts(_counted_head_at(it))),
    55: Kind(
        (MergeParts,), lambda it: _counted_head_bytes(it.head), lambda it: MergeParts(_of_all(_counted_head_at(it), it))
    ),
    56: Kind((AskHold,), lambda it: _U64(it.time), lambda it: AskHold(it.time("time"))),
    57: Kind((Release,), lambda it: _U64(it.number), lambda it: Release(_positive_at(it, "number of a pin"))),
    58: Kind((Feed,), lambda it: items_bytes(it.items), lambda it: Feed(_items_at(it).items)),
    59: Kind((Await,), lambda it: struct.pack(">QI", it.time, it.milliseconds), _await_at),
    60: Kind((AskStats,), lambda it: b"", lambda _: AskStats()),
    61: Kind((AskTables,), lambda it: b"", lambda _: AskTables()),
}

REPLIES: Dict[int, Kind] = {
    32: Kind((Done,), lambda it: _U64(it.operations), lambda it: Done(_operations_at(it))),
    33: Kind((Front,), _front_bytes, _front_at),
    34: Kind((Fragment,), fragment_bytes, _fragment_at),
    35: Kind((One, Rows, Number), answer_bytes, _answer_at),
    36: Kind((), lambda it: _refused_bytes(it, 1), lambda it: _refused_at(it, 1)),
    64: Kind((LaterDone,), lambda it: _U64(it.operations), lambda it: LaterDone(_operations_at(it))),
    65: Kind((Streams,), _streams_bytes, _streams_at),
    66: Kind(
        (Latest,),
        lambda it: _U64(it.time) + answer_bytes(it.answer),
        lambda it: Latest(it.time("time"), _answer_at(it)),
    ),
    67: Kind((Page,), lambda it: bytes([it.more]) + rows_bytes(it.rows), _page_at),
    68: Kind((Part,), lambda it: _U64(it.left) + facts_bytes(it.facts), _part_at),
    69: Kind((LastPart,), lambda it: facts_bytes(it.facts) + _counted_head_bytes(it.head), _last_part_at),
    70: Kind((Added,), lambda it: _U64(it.count), lambda it: Added(it.u64("facts added"))),
    71: Kind(
        (Held,),
        lambda it: struct.pack(">QQ", it.number, it.time),
        lambda it: Held(_positive_at(it, "number of a pin"), it.time("time")),
    ),
    72: Kind((), lambda it: _refused_bytes(it, 2), lambda it: _refused_at(it, 2)),
    73: Kind(
        (Fed,),
        lambda it: struct.pack(">QQ", it.operations, it.new),
        lambda it: Fed(_operations_at(it), it.u64("new items")),
    ),
    74: Kind((Ready,), _front_bytes, _ready_at),
    75: Kind((Stats,), _stats_bytes, _stats_at),
    76: Kind((Tables,), _tables_bytes, _tables_at),
}


def _kinds_by_value(kinds: Dict[int, Kind]) -> Dict[type, int]:
    return {value: kind for kind, it in kinds.items() for value in it.values}


_REQUEST_KINDS, _REPLY_KINDS = _kinds_by_value(REQUESTS), _kinds_by_value(REPLIES)


def encode_request(request: Request, version: int = 2) -> bytes:
    """The frame of a request; `version` is that of its items."""
    kind = _REQUEST_KINDS.get(type(request))
    if kind is None:
        raise TypeError(f"no request: {type(request).__name__}")
    return framed(
        kind, items_bytes(request.items, version) if isinstance(request, Items) else REQUESTS[kind].write(request)
    )


def encode_reply(reply: Reply, version: int = 1) -> bytes:
    """The frame of a reply; `version` is that of a refusal, which each version has. Refusals 30 to 36 and 91 to 93 have
    no frame, 46 and 47 none in version 1 (2)."""
    kind = REFUSED[version] if isinstance(reply, Refused) else _REPLY_KINDS.get(type(reply))
    if kind is None:
        raise TypeError(f"no reply: {type(reply).__name__}")
    return framed(kind, REPLIES[kind].write(reply))


def _message_of(rest: bytes, kinds: Dict[int, Kind], latest: int) -> Any:
    """The message of the rest of a frame, by its kind: of version 1, and up to the latest that is read."""
    reader = Reader(rest, 4)
    version = reader.u8("version")
    if not 1 <= version <= latest:
        raise reader.fault(3, "version", 1)
    kind = reader.u8("kind")
    if kind not in kinds or version_of(kind) != version:
        raise reader.fault(4, "kind", 1)
    value = kinds[kind].read(reader)
    reader.end()
    return value


def request_of(rest: bytes, latest: int = 1) -> Request:
    """The request of the rest of a frame; messages up to version `latest` are read."""
    request: Request = _message_of(rest, REQUESTS, latest)
    return request


def reply_of(rest: bytes, latest: int = 1) -> Reply:
    """The reply of the rest of a frame; a refusal is given, not raised."""
    reply: Reply = _message_of(rest, REPLIES, latest)
    return reply


def decode_request(frame: Bytes, latest: int = 1) -> Request:
    """The request of one whole frame."""
    return whole_frame(frame, lambda rest: request_of(rest, latest), 2, MOST_MESSAGE)


def decode_reply(frame: Bytes, latest: int = 1) -> Reply:
    """The reply of one whole frame; a refusal is given, not raised."""
    return whole_frame(frame, lambda rest: reply_of(rest, latest), 2, MOST_MESSAGE)


class _MessageFeeder(FrameFeeder[Value]):
    """Messages up to a version, in pieces that are cut anyhow."""

    kinds: Dict[int, Kind] = {}

    def __init__(self, latest: int = 1) -> None:
        super().__init__()
        self.latest = latest

    def decode(self, rest: bytes) -> Value:
        value: Value = _message_of(rest, self.kinds, self.latest)
        return value


class RequestFeeder(_MessageFeeder[Request]):
    """Requests of version 1, or up to version `latest`, in pieces that are cut anyhow."""

    noun, kinds = "request", REQUESTS


class ReplyFeeder(_MessageFeeder[Reply]):
    """Replies of version 1, or up to version `latest`, in pieces that are cut anyhow."""

    noun, kinds = "reply", REPLIES
