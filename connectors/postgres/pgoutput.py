"""PostgreSQL's own logical decoding, pgoutput in its protocol 1, from messages to transactions. Standard library
only."""
from __future__ import annotations

import struct
from typing import Dict, List, NamedTuple, Optional, Sequence, Tuple, Union


class Unchanged:
    """A value that stands outside of its row (TOAST), did not change, and so isn't sent."""


UNCHANGED = Unchanged()
Value = Union[str, None, Unchanged]
Values = Sequence[Value]

# 1970 in microseconds before 2000, from where PostgreSQL counts
SINCE_1970 = 946_684_800_000_000

_U16, _U32 = struct.Struct(">H").unpack_from, struct.Struct(">I").unpack_from
_BEGIN, _COMMIT, _COLUMN, _TRUNCATE = (struct.Struct(form) for form in (">QqI", ">BQQq", ">Ii", ">IB"))


class Broken(Exception):
    """A message that is none of pgoutput's protocol 1."""


class Column(NamedTuple):
    name: str
    type: int  # its number in pg_type
    is_key: bool  # it is sent of a row that goes
    modifier: int  # of its type, as a length


class Relation(NamedTuple):
    """A table as it is from here on. `identity`: d (primary key), f (all columns), i (an index), n (nothing) is sent of
    a row that goes."""

    number: int
    name: str
    identity: str
    columns: Tuple[Column, ...]


class Change(NamedTuple):
    """One of `kind` i (insert), u (update), d (delete), t (all rows go). `old` has the values of a row that goes, or
    None where an update leaves the key as it was; `new` those that come. Of `old` the columns that aren't sent are
    None."""

    relation: Relation
    kind: str
    old: Optional[Values]
    new: Optional[Values]


class Begin(NamedTuple):
    """`lsn` is the place of the commit."""

    lsn: int
    xid: int


class Commit(NamedTuple):
    """`end` is the place behind the commit, `clock` its time in microseconds since 1970."""

    end: int
    clock: int


class Word(NamedTuple):
    """What a program put into the write-ahead log by pg_logical_emit_message."""

    prefix: str
    text: bytes


Message = Union[Relation, Change, Begin, Commit, Word]


def text_at(data: bytes, at: int) -> Tuple[str, int]:
    end = data.index(0, at)
    return data[at:end].decode(), end + 1


def values_at(data: bytes, at: int) -> Tuple[List[Value], int]:
    """The values of a row, and where it ends."""
    values: List[Value] = []
    count, at = _U16(data, at)[0], at + 2
    for _ in range(count):
        kind = data[at]
        at += 1
        if kind == 0x74:  # t
            size = _U32(data, at)[0]
            at += 4
            values.append(data[at : at + size].decode())
            at += size
        elif kind == 0x6E:  # n
            values.append(None)
        elif kind == 0x75:  # u
            values.append(UNCHANGED)
        else:
            raise Broken(f"a value of kind {kind}")
    return values, at


def relation_of(data: bytes) -> Relation:
    number, at = _U32(data, 1)[0], 5
    schema, at = text_at(data, at)
    name, at = text_at(data, at)
    identity, count, at = chr(data[at]), _U16(data, at + 1)[0], at + 3
    columns = []
    for _ in range(count):
        flags = data[at]
        column, at = text_at(data, at + 1)
        kind, modifier = _COLUMN.unpack_from(data, at)
        at += 8
        columns.append(Column(column, kind, bool(flags & 1), modifier))
    return Relation(number, f"{schema}.{name}", identity, tuple(columns))


class Decoder:
    """Takes messages in their order; knows the tables that came before."""

    def __init__(self) -> None:
        self.relations: Dict[int, Relation] = {}

    def decode(self, data: bytes) -> List[Message]:
        """What a message says: nothing, one thing, or for TRUNCATE one for each table."""
        kind = data[:1]
        if kind in b"IUD":
            return [self.change(data, kind)]
        if kind == b"B":
            lsn, _, xid = _BEGIN.unpack_from(data, 1)
            return [Begin(lsn, xid)]
        if kind == b"C":
            _, _, end, clock = _COMMIT.unpack_from(data, 1)
            return [Commit(end, clock + SINCE_1970)]
        if kind == b"R":
            relation = relation_of(data)
            self.relations[relation.number] = relation
            return [relation]
        if kind == b"T":
            count, _ = _TRUNCATE.unpack_from(data, 1)
            return [
                Change(self.relations[number], "t", None, None) for number in struct.unpack_from(f">{count}I", data, 6)
            ]
        if kind == b"M":
            prefix, at = text_at(data, 10)
            return [Word(prefix, data[at + 4 : at + 4 + _U32(data, at)[0]])]
        if kind in (b"O", b"Y"):  # an origin, a type
            return []
        raise Broken(f"a message of kind {kind!r}")

    def change(self, data: bytes, kind: bytes) -> Change:
        relation, part, at = self.relations[_U32(data, 1)[0]], data[5:6], 6
        old: Optional[List[Value]] = None
        if part in (b"K", b"O"):
            old, at = values_at(data, at)
            if kind == b"D":
                return Change(relation, "d", old, None)
            at += 1
        return Change(relation, "i" if kind == b"I" else "u", old, values_at(data, at)[0])
