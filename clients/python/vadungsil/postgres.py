"""A PostgreSQL's tables in nodes, as `connectors/postgres/capture` writes them: docs/POSTGRESQL.md. Standard library
only.

A transaction of PostgreSQL is a run of entries, and its last entry has the time `last_time(transaction)`. At those
times, the moments, each transaction is whole or not there; at times between them parts of one may show. `moment` rounds
a time down to a moment."""
from __future__ import annotations

import datetime
import hashlib
import json
import time
import uuid
from typing import Any, Dict, Iterable, Iterator, List, NamedTuple, Optional, Tuple, Union

from .errors import TimeLimit, VadungsilError
from .identity import OWN as OWN
from .names import digest_of as digest_of, key_and_check as key_and_check  # which others take from here
from .names import key_of_text
from .node import Node
from .values import LAST_KEY, KeyRow, Row

# A transaction has so many times, of which its last entry has the last.
TIMES = 2**20

# The keys of table 0, beside those of identity.py: the last commit, what is captured, and from there on, by its number,
# each table.
COMMIT, HEAD, TABLES = 0, 1, 2**16

Key = Union[int, str, uuid.UUID]
Columns = Dict[str, Any]
Place = Union[int, datetime.datetime]
EPOCH = datetime.datetime(1970, 1, 1, tzinfo=datetime.timezone.utc)


class NotCaptured(VadungsilError):
    """What was asked for isn't in the node, or isn't as a capture writes it."""


# ---------------------------------------------------------------- times, keys and tags


def last_time(transaction: int) -> int:
    """The moment of a transaction: from then on it shows as a whole."""
    return transaction * TIMES + TIMES - 1


def moment(at: int) -> int:
    """The last moment up to a time, 0 where there is none."""
    return max(0, (at + 1) // TIMES * TIMES - 1)


def key_of(value: Key) -> int:
    """The key of a row: a whole number as it is, from 2^63 on where it is below 0 (2^64 is added); of a text or a UUID
    64 bits of its hash, as of a name, so that who asks compares the column too, as `Database.get` does."""
    if isinstance(value, int):
        return value % 2**64
    return key_of_text(str(value))


def tag_of(value: Union[Key, bool, None]) -> int:
    """The tag of a row: the low 32 bits of a whole number, 32 bits of the hash of a text, 0 for NULL."""
    if value is None:
        return 0
    if isinstance(value, int):
        return int(value) % 2**32
    return int.from_bytes(hashlib.blake2b(str(value).encode(), digest_size=4).digest(), "big")


def lsn_of(place: Union[int, str]) -> int:
    """A place in the write-ahead log as a number: of `0/16B3748`, as PostgreSQL prints it."""
    if isinstance(place, int):
        return place
    high, _, low = place.partition("/")
    return int(high, 16) << 32 | int(low, 16)


def place_of(lsn: int) -> str:
    """A place in the write-ahead log as PostgreSQL prints it."""
    return f"{lsn >> 32:X}/{lsn & 0xFFFFFFFF:X}"


# ---------------------------------------------------------------- bodies


class Long(NamedTuple):
    """What stands in place of a body above 4,096 bytes: where its parts are in the table of parts, and, where the key
    is a hash, the key."""

    first: int
    pieces: int
    size: int
    key: Optional[str]


def long_of(body: bytes) -> Optional[Long]:
    """None of a body that is whole."""
    if not body.startswith(b"["):
        return None
    first, count, size, *key = json.loads(body)
    return Long(first, count, size, key[0] if key else None)


def decode(body: bytes, parts: Iterable[KeyRow] = ()) -> Columns:
    """The columns of a row by name. `parts` are the rows of the table of parts where the body says that it is long
    (`long_of`), of the same moment. Whole numbers and floats are numbers, true and false are, NULL is None; all else is
    the text that PostgreSQL prints, a numeric, a date and JSON too, and a float that JSON doesn't carry (NaN, Infinity,
    -0)."""
    long = long_of(body)
    if long is not None:
        rows = list(parts)
        body = b"".join(row.body for _, row in rows)
        if [key for key, _ in rows] != list(range(long.first, long.first + long.pieces)) or len(body) != long.size:
            raise NotCaptured(
                f"a body of {long.size} bytes in {long.pieces} parts: {len(rows)} parts with {len(body)} "
                "bytes are there"
            )
    columns: Columns = json.loads(body)
    return columns


class Commit(NamedTuple):
    """The last transaction of a moment. `lsn` is behind its commit in the write-ahead log, `clock` the commit's own
    time, and `latest` the greatest of it and all before: clocks don't rise with the log. `xid` is 0 where nothing was
    captured but a place."""

    transaction: int
    lsn: int
    xid: int
    clock: datetime.datetime
    latest: datetime.datetime


def commit_of(body: bytes) -> Commit:
    said = json.loads(body)
    clock, latest = (EPOCH + datetime.timedelta(microseconds=said[name]) for name in ("clock", "latest"))
    return Commit(said["transaction"], said["lsn"], said["xid"], clock, latest)


class Table(NamedTuple):
    """A table as it is captured. `is_hashed`: its keys are hashes; `tag` is a column or None."""

    number: int
    name: str
    key: str
    is_hashed: bool
    tag: Optional[str]


def table_of(number: int, body: bytes) -> Table:
    said = json.loads(body)
    return Table(number, said["name"], said["key"], said["hashed"], said["tag"])


# ---------------------------------------------------------------- a node's tables


class Database:
    """The tables of a capture in a node that reads messages of version 2 (`serve --messages 2`):
    `Database(Node(7420))`. Without a time all is asked at the resolved time, which is a moment; a time that is handed
    in is rounded down to one."""

    def __init__(self, node: Node) -> None:
        self.node = node
        self._tables: Dict[str, Table] = {}
        self._parts = 0

    def moment(self, at: Optional[int] = None) -> int:
        """The last moment up to a time, or up to the current resolved time."""
        return moment(self.node.front().readable if at is None else at)

    # ------------------------------------------------------------ rows

    def get(self, name: str, key: Key, at: Optional[int] = None) -> Optional[Columns]:
        """The columns of a row, or None."""
        at, table = self.moment(at), self.table(name)
        row = self.node.get(table.number, key_of(key), at=at)
        columns = None if row is None else self._columns(row, at)
        if columns is not None and table.is_hashed and columns[table.key] != str(key):
            return None
        return columns

    def rows(self, name: str, low: int = 0, high: int = LAST_KEY, at: Optional[int] = None) -> Iterator[Columns]:
        """All rows of the keys from low to high, page by page: by the key where it is a whole number, else in no
        order."""
        at = self.moment(at)
        for _, row in self.node.rows(self.table(name).number, low, high, at=at):
            yield self._columns(row, at)

    def by_tag(self, name: str, value: Union[Key, bool, None], at: Optional[int] = None) -> List[Columns]:
        """The rows whose tag column has a value. The node finds those of its tag; other values of that tag are passed
        over."""
        at, table = self.moment(at), self.table(name)
        wanted = str(value) if isinstance(value, uuid.UUID) else value
        found = [self._columns(row, at) for _, row in self.node.by_tag(table.number, tag_of(value), at=at)]
        return [it for it in found if table.tag is not None and it.get(table.tag) == wanted]

    def count(self, name: str, at: Optional[int] = None) -> int:
        return self.node.count(self.table(name).number, at=self.moment(at))

    def _columns(self, row: Row, at: int) -> Columns:
        long = long_of(row.body)
        return decode(
            row.body, self.node.range(self._parts, long.first, long.first + long.pieces - 1, at=at) if long else ()
        )

    # ------------------------------------------------------------ what is captured

    def tables(self) -> List[Table]:
        self._learn()
        return list(self._tables.values())

    def table(self, name: str) -> Table:
        """A table by its name, as `public.orders` or `orders`."""
        if not self._tables:
            self._learn()
        found = self._tables.get(name) or self._tables.get(f"public.{name}")
        if found is None:
            raise NotCaptured(f"no table {name} is captured: there are {', '.join(self._tables) or 'none'}")
        return found

    def _learn(self) -> None:
        at = self.moment()
        head = self.node.get(OWN, HEAD, at=at)
        if head is None:
            raise NotCaptured(f"{self.node.name} has no whole load of a capture yet")
        self._parts = json.loads(head.body)["parts"]
        told = [table_of(key - TABLES, row.body) for key, row in self.node.range(OWN, TABLES, 2 * TABLES - 1, at=at)]
        self._tables = {it.name: it for it in told}

    # ------------------------------------------------------------ moments

    def commit(self, at: Optional[int] = None) -> Commit:
        """The last transaction that shows at a time."""
        row = self.node.get(OWN, COMMIT, at=self.moment(at))
        if row is None:
            raise NotCaptured(f"{self.node.name} has no whole load of a capture at {self.moment(at)}")
        return commit_of(row.body)

    def moment_of(self, place: Union[int, str, datetime.datetime]) -> int:
        """The moment that a place in the write-ahead log stands for, or a time of the clock with its zone: the last one
        that the node has with no transaction behind it. Asked of the log's end, that more comes below the place isn't
        seen. It costs a request for each halving of the moments that the node has. NotCaptured: it is before the first
        of them."""
        first, last = self._moments()
        wanted: Place = place if isinstance(place, datetime.datetime) else lsn_of(place)
        if not self._is_by(first, wanted):
            raise NotCaptured(f"{place} is before the first moment that {self.node.name} has")
        while first < last:
            middle = (first + last + 1) // 2
            if self._is_by(middle, wanted):
                first = middle
            else:
                last = middle - 1
        return last_time(first)

    def wait(self, place: Union[int, str], limit: float = 20.0) -> int:
        """Waits until a transaction has come that was committed at or behind a place, and gives its moment. TimeLimit:
        none came in so many seconds. A place that surely comes is that of pg_logical_emit_message(true, 'vadungsil',
        SLOT)."""
        wanted, until = lsn_of(place), time.monotonic() + limit
        while True:
            try:
                commit = self.commit()
                if commit.lsn >= wanted:
                    return last_time(commit.transaction)
            except NotCaptured:
                pass
            if time.monotonic() > until:
                raise TimeLimit(f"{self.node.name}: nothing came up to {place_of(wanted)} within {limit} s")
            time.sleep(0.01)

    def _moments(self) -> Tuple[int, int]:
        """The first and the last transaction whose moments can be asked for."""
        front = self.node.front()
        first, last = max(1, -(-(front.horizon + 1) // TIMES) - 1), (front.readable + 1) // TIMES - 1
        if last < first:
            raise NotCaptured(f"{self.node.name} has no moment to read at: {front.line()}")
        return first, last

    def _is_by(self, transaction: int, wanted: Place) -> bool:
        commit = self.commit(last_time(transaction))
        return commit.latest <= wanted if isinstance(wanted, datetime.datetime) else commit.lsn <= wanted


def moment_of(node: Node, place: Union[int, str, datetime.datetime]) -> int:
    """`Database(node).moment_of(place)`."""
    return Database(node).moment_of(place)
