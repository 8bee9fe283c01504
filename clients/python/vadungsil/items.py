"""Items as bytes: docs/FORMATS.md, "Item frames"."""
from __future__ import annotations

import struct
from itertools import groupby
from typing import Callable, List, NamedTuple, Tuple

from .errors import Fault
from .reading import Bytes, FrameFeeder, Reader, whole_frame
from .values import LAST_TIME, MOST_STREAMS, MOST_WRITES, Entry, Item, Mark, Put, Row, VersionKey

LEAST_REST, MOST_REST = 28, 4_233_248
ENTRY, MARK = 1, 2

_HEAD = struct.Struct(">BBQHQQ")
_END, _ROW = struct.Struct(">QQ"), struct.Struct(">QIH")
_U16, _GROUP = struct.Struct(">H"), struct.Struct(">HH")


# ---------------------------------------------------------------- writing


def encode(item: Item, version: int = 2) -> bytes:
    """The frame of an item, in version 2 or 1."""
    if version not in (1, 2):
        raise Fault(3, place=f"version {version}")
    if isinstance(item, Mark):
        rest = _HEAD.pack(version, MARK, item.log, item.stream, item.n, item.m)
    elif isinstance(item, Entry):
        lists = _grouped(item) if version == 2 else _listed(item)
        rest = _HEAD.pack(version, ENTRY, item.log, item.stream, item.number, item.time) + lists
    else:
        raise TypeError(f"no item: {type(item).__name__}")
    return len(rest).to_bytes(4, "big") + rest


def _row_bytes(key: int, row: Row) -> bytes:
    return _ROW.pack(key, row.tag, len(row.body)) + row.body


def _listed(entry: Entry) -> bytes:
    parts = [_U16.pack(len(entry.ends))]
    parts += [_U16.pack(it.table) + _END.pack(it.key, it.born) for it in entry.ends]
    parts.append(_U16.pack(len(entry.rows)))
    parts += [_U16.pack(table) + _row_bytes(key, row) for table, key, row in entry.rows]
    return b"".join(parts)


def _groups(elements: List[Tuple[int, bytes]]) -> bytes:
    groups = [(table, [text for _, text in group]) for table, group in groupby(elements, key=lambda it: it[0])]
    return _U16.pack(len(groups)) + b"".join(
        _GROUP.pack(table, len(group)) + b"".join(group) for table, group in groups
    )


def _grouped(entry: Entry) -> bytes:
    ends = [(it.table, _END.pack(it.key, it.born)) for it in entry.ends]
    return _groups(ends) + _groups([(table, _row_bytes(key, row)) for table, key, row in entry.rows])


# ---------------------------------------------------------------- reading


class Head(NamedTuple):
    """What a frame begins with. An entry's `first` and `second` are number and time, a mark's n and m."""

    version: int
    is_entry: bool
    log: int
    stream: int
    first: int
    second: int


def head_of(frame: Bytes) -> Head:
    """The head of a whole item frame, without a look at its lists; for whoever passes frames on and sorts them."""
    return _head(Reader(bytes(frame[4:32]), 4))


def _head(reader: Reader) -> Head:
    version = reader.u8("version")
    if version not in (1, 2):
        raise reader.fault(3, "version", 1)
    kind = reader.u8("kind")
    if kind not in (ENTRY, MARK):
        raise reader.fault(4, "kind", 1)
    log, stream = reader.u64("log"), reader.u16("stream")
    if not 1 <= stream <= MOST_STREAMS:
        raise reader.fault(5, "stream", 2)
    if kind == MARK:
        n, m = reader.u64("n"), reader.u64("m")
        if not n <= m <= LAST_TIME:
            raise reader.fault(6, "n and m", 16)
        return Head(version, False, log, stream, n, m)
    number, time = reader.u64("number"), reader.u64("time")
    if not 1 <= number <= time <= LAST_TIME:
        raise reader.fault(6, "number and time", 16)
    return Head(version, True, log, stream, number, time)


class _Lists:
    """The ends and rows of an entry, as they are read."""

    def __init__(self, reader: Reader, time: int) -> None:
        self.reader, self.time = reader, time
        self.ends: List[VersionKey] = []
        self.rows: List[Put] = []

    def end(self, table: int) -> None:
        key, born = self.reader.u64("key of an end"), self.reader.u64("born")
        if self.ends and not (self.ends[-1].table, self.ends[-1].key) < (table, key):
            raise self.reader.fault(7, "key of an end", 16)
        if not 1 <= born < self.time:
            raise self.reader.fault(6, "born", 8)
        self.ends.append(VersionKey(table, key, born))

    def row(self, table: int) -> None:
        key = self.reader.u64("key of a row")
        if self.rows and not self.rows[-1][:2] < (table, key):
            raise self.reader.fault(7, "key of a row", 8)
        self.rows.append(Put(table, key, self.reader.row()))

    def listed(self, one: Callable[[int], None], name: str, has_none: bool) -> None:
        """A list of version 1."""
        count = self.reader.u16(f"count of {name}")
        if count > MOST_WRITES or (count == 0 and has_none):
            raise self.reader.fault(8, f"count of {name}", 2)
        for _ in range(count):
            one(self.reader.u16(f"table of {name}"))

    def grouped(self, one: Callable[[int], None], name: str, has_none: bool) -> None:
        """A list of version 2."""
        groups = self.reader.u16(f"groups of {name}")
        if groups > MOST_WRITES or (groups == 0 and has_none):
            raise self.reader.fault(8, f"groups of {name}", 2)
        total, last = 0, -1
        for _ in range(groups):
            table = self.reader.u16(f"table of {name}")
            if table <= last:
                raise self.reader.fault(7, f"table of {name}", 2)
            count = self.reader.u16(f"count of {name}")
            last, total = table, total + count
            if count == 0 or total > MOST_WRITES:
                raise self.reader.fault(8, f"count of {name}", 2)
            for _ in range(count):
                one(table)


def _trusted_entry(head: Head, lists: _Lists) -> Entry:
    """An entry whose rules were all looked at while it was read."""
    entry = object.__new__(Entry)
    entry.__dict__.update(
        log=head.log,
        stream=head.stream,
        number=head.first,
        time=head.second,
        ends=tuple(lists.ends),
        rows=tuple(lists.rows),
    )
    return entry


def decode_rest(rest: bytes, start: int = 4) -> Item:
    """The item of the rest of a frame."""
    reader = Reader(rest, start)
    head = _head(reader)
    item: Item
    if head.is_entry:
        lists = _Lists(reader, head.second)
        read = lists.listed if head.version == 1 else lists.grouped
        read(lists.end, "ends", False)
        read(lists.row, "rows", not lists.ends)
        item = _trusted_entry(head, lists)
    else:
        item = Mark(head.log, head.stream, head.first, head.second)
    reader.end()
    return item


def decode(frame: Bytes) -> Item:
    """The item of one whole frame, of version 1 or 2."""
    return whole_frame(frame, decode_rest, LEAST_REST, MOST_REST)


class Feeder(FrameFeeder[Item]):
    """Item frames of both versions, in pieces that are cut anyhow."""

    least, most = LEAST_REST, MOST_REST

    def decode(self, rest: bytes) -> Item:
        return decode_rest(rest)
