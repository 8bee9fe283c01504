"""The log of a capture: transactions of any size as runs of entries, and what has to be known of the log to go on.
Needs the package `vadungsil`."""
from __future__ import annotations

import json
import os
import struct
from typing import Any, Callable, Dict, Iterable, Iterator, NamedTuple, Optional, Set, Tuple

from json.decoder import scanstring  # type: ignore[attr-defined]

from configuration import BAD, Broken
from keys import Births, Place
from shapes import Written
from spilling import Spilling
from vadungsil import LogWriter, encode
from vadungsil.identity import TERM, Term, term_of
from vadungsil.postgres import COMMIT, OWN, TIMES, Long, key_and_check, last_time, long_of
from vadungsil.values import MOST_BODY, MOST_WRITES

# what a body that stands in parts begins with
LONG = ord("[")

# the parts of one transaction are numbered within so many keys
PARTS = 2**22

_U16, _HEAD, _END, _ROW = (struct.Struct(form).unpack_from for form in (">H", ">HH", ">QQ", ">QIH"))
Writes = Dict[Place, Optional[Tuple[int, bytes]]]


def number_of(frame: bytes) -> int:
    return int.from_bytes(frame[16:24], "big")


def time_of(frame: bytes) -> int:
    return int.from_bytes(frame[24:32], "big")


def lists_of(frame: bytes) -> Iterator[Tuple[int, int, Optional[memoryview]]]:
    """The ends of an entry of version 2, as (table, key, None), and then its rows, as (table, key, body)."""
    view, at = memoryview(frame), 32
    for is_row in (False, True):
        groups, at = _U16(frame, at)[0], at + 2
        for _ in range(groups):
            table, count = _HEAD(frame, at)
            at += 4
            for _ in range(count):
                if is_row:
                    key, _, size = _ROW(frame, at)
                    yield table, key, view[at + 14 : at + 14 + size]
                    at += 14 + size
                else:
                    yield table, _END(frame, at)[0], None
                    at += 16


class Changes:
    """What one transaction does, folded: of each key the last. `alive` is called where that takes long."""

    def __init__(self, alive: Callable[[], None] = lambda: None) -> None:
        self.rows = Spilling(Written, alive=alive)
        self.has_long = False
        self.count = 0  # changes that came
        self.tables: Set[int] = set()  # the tables that have some

    def put(self, table: int, row: Written) -> None:
        self.tables.add(table)
        self.rows.put((table, row.key), row)
        self.has_long = self.has_long or len(row.body) > MOST_BODY

    def remove(self, table: int, key: int) -> None:
        self.rows.put((table, key), None)


class Standing(NamedTuple):
    """What the last whole transaction of a log was: its number, its place in the write-ahead log, the greatest clock up
    to it."""

    transaction: int
    lsn: int
    latest: int


class Log:
    """What is known of a log, all of it a function of the log: births and no bodies. `start` reads entries that stand,
    `commit` writes those of a transaction, `load_*` those of the first one; `out` takes the frames, and `alive` is
    called where that takes long."""

    def __init__(
        self,
        log: int,
        parts: int,
        hashed: Tuple[int, ...],
        out: Callable[[bytes], None],
        alive: Callable[[], None] = lambda: None,
    ) -> None:
        self.log, self.parts, self.out, self.alive = log, parts, out, alive
        self.births, self.has_hashes = Births(hashed), bool(hashed)
        self.own: Dict[int, bytes] = {}  # the rows of table 0
        self.longs: Dict[Place, Long] = {}  # the rows that have parts
        self.standing = Standing(0, 0, 0)
        self.writer = LogWriter.behind(log, [0], 0, self.births)
        self.number = self.index = self.next_part = 0

    # ------------------------------------------------------------ a log that stands

    def take(self, frame: bytes) -> None:
        """Takes in an entry that stands: of a transaction that is whole, or of the first one, whose load was cut
        off."""
        time, at = time_of(frame), 34
        for _ in range(_U16(frame, 32)[0]):
            table, count = _HEAD(frame, at)
            at += 4
            for _ in range(count):
                self.forget(table, _END(frame, at)[0])
                at += 16
        groups, at = _U16(frame, at)[0], at + 2
        for _ in range(groups):
            at = self.take_rows(frame, at, time)
        self.number = number_of(frame)
        if OWN in self.births.tables and self.births.tables[OWN].get(COMMIT) == time:
            self.stand(time)

    def take_rows(self, frame: bytes, at: int, time: int) -> int:
        """Takes in the rows of one table, and says where they end. A body is looked at where it says more than a row of
        columns does."""
        table, count = _HEAD(frame, at)
        keys, at = self.births.table(table), at + 4
        is_read, put = table == OWN or keys.size == 24, keys.put
        for _ in range(count):
            key, _, size = _ROW(frame, at)
            begin, at = at + 14, at + 14 + size
            put(key, time)
            if is_read or self.longs or (size and frame[begin] == LONG):
                self.learn(table, key, frame[begin:at])
        return at

    def forget(self, table: int, key: int) -> None:
        self.births.table(table).discard(key)
        self.longs.pop((table, key), None)
        if table == OWN:
            self.own.pop(key, None)

    def learn(self, table: int, key: int, body: bytes) -> None:
        """What has to be known of a row's body."""
        if table == OWN:
            self.own[key] = body
        if table in (OWN, self.parts):
            return
        long = long_of(body)
        if long is not None:
            self.longs[table, key] = long
        else:
            self.longs.pop((table, key), None)
        if self.is_hashed(table):
            self.births.tables[table].set_check(key, check_of(body, long))

    def is_hashed(self, table: int) -> bool:
        return self.births.table(table).size == 24

    def stand(self, time: int) -> None:
        """The log is whole up to a moment."""
        said = json.loads(self.own[COMMIT])
        if last_time(said["transaction"]) != time:
            raise Broken(
                BAD, f"entry {self.number} is none of a capture: time {time}, transaction " f"{said['transaction']}"
            )
        self.standing = Standing(said["transaction"], said["lsn"], said["latest"])

    def next_term(self) -> bytes:
        """The row that says who writes from here on."""
        before = self.own.get(TERM)
        number = term_of(before).number + 1 if before is not None else 1
        return Term(number, int.from_bytes(os.urandom(8), "big"), (self.number,)).body()

    def begin(self, number: int, time: int) -> None:
        """Goes on behind what was taken: so many entries, up to this time."""
        self.number = number
        self.writer = LogWriter.behind(self.log, [number], time, self.births)

    # ------------------------------------------------------------ writing

    def commit(self, lsn: int, xid: int, clock: int, changes: Changes) -> None:
        """Writes a transaction: its rows, and at last the row that names it."""
        transaction = self.standing.transaction + 1
        self.index, self.next_part = 0, transaction * PARTS
        writes, longs = self.writes_of(changes)
        latest = max(clock, self.standing.latest)
        said = {"transaction": transaction, "lsn": lsn, "xid": xid, "clock": clock, "latest": latest}
        self.write(transaction, writes, json.dumps(said, separators=(",", ":")).encode())
        self.settle(changes, longs)
        self.standing = Standing(transaction, lsn, latest)
        self.out(encode(self.writer.mark(1)))

    def note(self, rows: Dict[int, Optional[bytes]]) -> None:
        """Writes rows of table 0 as a transaction of their own, at the place where the log is; None ends one. They are
        one entry, so that no part of them ever stands alone."""
        transaction, lsn, latest = self.standing
        if len(rows) >= MOST_WRITES:
            raise Broken(BAD, f"what is remembered of the tables takes {len(rows)} rows")
        self.index = 0
        said = {"transaction": transaction + 1, "lsn": lsn, "xid": 0, "clock": latest, "latest": latest}
        writes = (((OWN, key), None if body is None else (0, body)) for key, body in sorted(rows.items()))
        self.write(transaction + 1, writes, json.dumps(said, separators=(",", ":")).encode())
        self.keep_own(rows)
        self.standing = Standing(transaction + 1, lsn, latest)
        self.out(encode(self.writer.mark(1)))

    def keep_own(self, rows: Dict[int, Optional[bytes]]) -> None:
        for key, body in rows.items():
            if body is None:
                self.own.pop(key, None)
            else:
                self.own[key] = body

    def writes_of(self, changes: Changes) -> Tuple[Iterator[Tuple[Place, Any]], Dict[Place, Long]]:
        """All that is written for rows, with their parts, in order of table and key; and which rows have parts."""
        if not self.longs and not changes.has_long:
            return self.short_writes(changes), {}
        writes = Spilling(most=changes.rows.most, alive=self.alive)
        longs: Dict[Place, Long] = {}
        for place, row in changes.rows.ordered():
            before = self.longs.get(place)
            for part in range(before.pieces if before is not None else 0):
                writes.put((self.parts, before.first + part), None)  # type: ignore[union-attr]
            if row is not None:
                self.put_row(writes, longs, place, row)
            elif place in self.births:
                writes.put(place, None)
        return writes.ordered(), longs

    def short_writes(self, changes: Changes) -> Iterator[Tuple[Place, Any]]:
        """The same where no row has parts, or had any."""
        for place, row in changes.rows.ordered():
            if row is not None:
                yield place, (row.tag, row.body)
            elif place in self.births:
                yield place, None

    def put_row(self, writes: Spilling, longs: Dict[Place, Long], place: Place, row: Written) -> None:
        """Puts a row among the writes, one that is long with its parts."""
        if len(row.body) <= MOST_BODY:
            writes.put(place, (row.tag, row.body))
            return
        pieces = [row.body[at : at + MOST_BODY] for at in range(0, len(row.body), MOST_BODY)]
        first, self.next_part = self.next_part, self.next_part + len(pieces)
        key = f",{row.key_text}" if self.is_hashed(place[0]) else ""
        head = f"[{first},{len(pieces)},{len(row.body)}{key}]".encode()
        if len(head) > MOST_BODY or self.next_part > (first // PARTS + 1) * PARTS:
            raise Broken(
                BAD,
                f"a row of table {place[0]} is too long: {len(row.body)} bytes, of which the key takes "
                f"{len(row.key_text)}",
            )
        writes.put(place, (row.tag, head))
        for at, piece in enumerate(pieces):
            writes.put((self.parts, first + at), (0 if at else len(pieces), piece))
        longs[place] = Long(first, len(pieces), len(row.body), None)

    def settle(self, changes: Changes, longs: Dict[Place, Long]) -> None:
        """What has to be known of the rows that were written."""
        for place, row in changes.rows.ordered() if self.longs or self.has_hashes else ():
            self.longs.pop(place, None)
            if row is not None and self.is_hashed(place[0]):
                self.births.tables[place[0]].set_check(place[1], row.check)
        self.longs.update(longs)

    def write(self, transaction: int, writes: Iterable[Tuple[Place, Any]], told: Optional[bytes]) -> None:
        """The entries of writes, which rise; `told` stands in the last entry of a transaction, behind entries that are
        full."""
        part: Writes = {}
        for place, row in writes:
            part[place] = row
            if len(part) == MOST_WRITES:
                self.next_entry(transaction, part)
                part = {}
        if told is not None:
            part[OWN, COMMIT] = (0, told)
            self.entry(last_time(transaction), part)
        elif part:
            self.next_entry(transaction, part)

    def next_entry(self, transaction: int, part: Writes) -> None:
        """An entry that isn't the last of its transaction."""
        if self.index == TIMES - 1:
            raise Broken(BAD, f"transaction {transaction} has more writes than 2^20 entries have room for")
        self.entry(transaction * TIMES + self.index, part)
        self.index += 1

    def entry(self, time: int, part: Writes) -> None:
        puts = [(*place, *row) for place, row in part.items() if row is not None]
        entry = self.writer.commit(puts, [place for place, row in part.items() if row is None], time=time)
        assert entry is not None
        self.number = entry.number
        self.out(encode(entry))

    # ------------------------------------------------------------ the first transaction

    def load_begin(self, rows: Dict[int, bytes]) -> None:
        """Begins the first transaction, or begins it anew behind what stands of it, with rows of table 0. What is of
        before goes at the end."""
        self.own.clear()
        self.index = self.writer.time % TIMES + 1 if self.writer.time else 0
        self.load_from = TIMES + self.index
        self.next_part = max([PARTS - 1, *self.births.table(self.parts)]) + 1
        self.write(1, [((OWN, key), (0, body)) for key, body in sorted(rows.items())], None)

    def load_own(self, rows: Dict[int, Optional[bytes]]) -> None:
        """Writes rows of table 0 that say more than those it began with."""
        there = {key: body for key, body in rows.items() if body is not None}
        self.write(1, [((OWN, key), (0, body)) for key, body in sorted(there.items())], None)
        self.keep_own(there)  # type: ignore[arg-type]

    def load(self, changes: Changes) -> None:
        """Writes rows that stand."""
        writes, longs = self.writes_of(changes)
        self.write(1, writes, None)
        self.settle(changes, longs)

    def load_end(self, lsn: int, clock: int) -> None:
        """Takes away what an earlier load left and this one did not find, and ends the first transaction."""
        left = Spilling()
        if self.load_from > TIMES:
            for place, time in self.births.items():
                if time < self.load_from:
                    left.put(place, None)
                    self.longs.pop(place, None)
        said = {"transaction": 1, "lsn": lsn, "xid": 0, "clock": clock, "latest": clock}
        self.write(1, left.ordered(), json.dumps(said, separators=(",", ":")).encode())
        self.standing = Standing(1, lsn, clock)
        self.out(encode(self.writer.mark(1)))


def check_of(body: bytes, long: Optional[Long]) -> int:
    """The second number of a row whose key is a text, which its body has first."""
    key = long.key if long is not None else None
    if key is None:
        text = body.decode()
        key = scanstring(text, scanstring(text, 2)[1] + 2)[0]
    return key_and_check(key)[1]
