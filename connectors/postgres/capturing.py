"""A capture: from PostgreSQL's changes to a log. Needs python3-psycopg2, and what is common to all connectors."""
from __future__ import annotations

import itertools
import json
import os
import time
from typing import Any, Dict, List, Optional, Tuple

from configuration import BAD, Broken, Configuration  # finds what is common
from feeding import Patience, short
import psycopg2

from catalog import Catalog, is_passing
from confirming import Origin, see_slot
from keeping import Kept
from log import Changes, Log
from pgoutput import UNCHANGED, Begin, Change, Commit, Message, Relation, Value, Values, Word
from schemas import REMEMBERED, Schemas, renamed
from shapes import Shape, Written, under_names
from source import PREFIX, Source
from vadungsil.identity import IDENTITY, MOMENTS, TERM, Identity
from vadungsil.postgres import COMMIT, HEAD, TABLES, place_of
from vadungsil.values import MOST_BODY
from watching import Watch

# Where so many bytes of the write-ahead log had nothing for us, a transaction of no rows is written, so that PostgreSQL
# can drop them.
QUIET_BYTES = 1 << 24
MOST_WAITING = 1 << 20
AGAIN = 5.0  # seconds between two tries to open a connection that PostgreSQL ended
CONFIRM = 0.2  # seconds at least between two places that are confirmed
SILENT = 1.0  # seconds without a message after which a PostgreSQL that ends has sent all
LOAD_ROWS = 1_024


class Capture:
    def __init__(self, said: Configuration, kept: Kept, until: int) -> None:
        self.said, self.kept, self.until = said, kept, until
        self.catalog = Catalog(said)
        self.source, self.patience = Source(said, self.catalog), Patience("capture")
        self.shapes = self.catalog.shapes()
        self.watch = Watch(said, self.catalog)
        self.watch.begin(self.shapes)
        self.catalog.see_settings(self.shapes)
        self.origin, self.schemas = Origin(said, self.catalog), Schemas(self.catalog)
        hashed = tuple(it.table.number for it in self.shapes.values() if it.is_hashed)
        self.log = Log(said.log, said.parts, hashed, self.put, self.source.live)
        self.now: Dict[int, Tuple[Relation, Optional[Shape]]] = {}  # relations as described last, and their shapes
        self.changes, self.xid, self.lsn, self.is_there = self.none(), 0, 0, False
        self.waiting = self.beaten = self.flushed = 0
        self.tried = self.told = 0.0
        self.owes_term = False  # whether this capture hasn't said yet that it writes the log

    def none(self) -> Changes:
        """Of a transaction of which nothing has come."""
        return Changes(self.source.live)

    def put(self, frame: bytes) -> None:
        self.kept.put(frame)
        self.waiting += len(frame)
        self.source.live()

    # ------------------------------------------------------------ the start

    def own_rows(self) -> Dict[int, bytes]:
        """The rows of table 0 that say what is captured."""
        system, database = self.catalog.name()
        rows: Dict[int, Dict[str, Any]] = {
            HEAD: {"system": system, "database": database, "slot": self.said.slot, "parts": self.said.parts}
        }
        for shape in self.shapes.values():
            it = shape.table
            rows[TABLES + it.number] = {
                "name": it.name,
                "oid": shape.number,
                "key": it.key,
                "hashed": shape.is_hashed,
                "tag": it.tag,
                "columns": it.columns and list(it.columns),
            }
        bodies = {key: json.dumps(row, separators=(",", ":")).encode() for key, row in rows.items()}
        for key, body in bodies.items():
            if len(body) > MOST_BODY:
                raise Broken(
                    BAD, f"what is said of {rows[key].get('name')} takes {len(body)} bytes, and has " f"{MOST_BODY}"
                )
        return bodies

    def begin(self) -> None:
        """Reads the log that stands, and goes on with it; loads what stands in PostgreSQL where no load ended."""
        for frame in self.kept.frames():
            self.log.take(frame)
        self.log.begin(self.kept.number, self.kept.time)
        if not self.origin.is_allowed:
            self.patience.say(
                "this user may not use replication origins, so a lost tail may be reported where none is: grant "
                f"execute on function {', '.join(self.origin.lacking)}"
            )
        if not self.log.standing.transaction:
            self.load()
            return
        wanted, own = self.own_rows(), {key for key in self.log.own if key < REMEMBERED}
        for key in sorted({*wanted, *own} - {COMMIT, IDENTITY, TERM}):
            begun, now = (rows.get(key, b"nothing of that").decode() for rows in (self.log.own, wanted))
            if begun != now:
                raise Broken(
                    BAD,
                    f"the log was begun with {begun}, and the configuration says {now}: begin a log "
                    "with a "
                    "new id",
                )
        see_slot(self.said, self.catalog, self.origin, self.log.standing.lsn, self.kept.name)
        self.schemas.learn(self.log.own)
        self.owes_term = IDENTITY in self.log.own  # a log of before has none
        self.watch.go_on(self.schemas.publication, self.log.standing.lsn)
        self.schemas.publication = self.watch.text()

    def load(self) -> None:
        """The rows that stand are the first transaction. What an earlier load left is written over."""
        for shape in self.shapes.values():
            self.catalog.see_rights(shape)
        if self.catalog.slot() is not None:
            if not self.log.number:
                raise Broken(
                    3,
                    f"slot {self.said.slot} is there and {self.kept.name} is empty: it is another log's, "
                    f"or this log was lost. `select pg_drop_replication_slot('{self.said.slot}')` gives "
                    "it up",
                )
            self.catalog.drop_slot()
        self.origin.drop()
        identity = self.log.own.get(IDENTITY) or Identity(os.urandom(16), 0, MOMENTS).body()
        self.log.load_begin({**self.own_rows(), IDENTITY: identity, TERM: self.log.next_term()})
        self.kept.flush()
        lsn, snapshot = self.source.make_slot(self.patience.say)
        loading = Changes()

        def take(shape: Shape, values: List[Value]) -> None:
            self.place(loading, shape, shape.written(values))
            if len(loading.rows) >= LOAD_ROWS:
                self.log.load(loading)
                loading.rows.clear()

        self.source.rows(snapshot, self.shapes, self.see_loaded, take)
        self.log.load(loading)
        self.log.load_own(self.schemas.rows({}))
        self.log.load_end(lsn, int(time.time() * 1e6))
        self.kept.flush()
        count = sum(len(self.log.births.table(it.table.number)) for it in self.shapes.values())
        self.patience.say(f"loaded {count} rows, up to {place_of(lsn)}")

    def see_loaded(self, cursor: Any) -> None:
        """Remembers the tables as a snapshot has them. One that was altered or written anew since can't be read by
        it."""
        for shape in self.shapes.values():
            then, now = self.catalog.look(shape, cursor), self.catalog.look(shape)
            if then[1:] != now[1:]:
                raise psycopg2.OperationalError(f"{shape.table.name} was altered while its load began")
            self.schemas.load(shape, then)
        self.schemas.publication = self.watch.text()

    # ------------------------------------------------------------ changes

    def place(self, changes: Changes, shape: Shape, row: Written) -> None:
        """Puts a row; two texts whose hashes are one key are reported, and stop it."""
        if shape.is_hashed and self.collides(changes, shape.table.number, row):
            raise Broken(
                BAD,
                f"{shape.table.name}: {shape.table.key} {row.key_text} has the hash {row.key}, which "
                "another "
                f"{shape.table.key} has too; such a table can't be captured",
            )
        changes.put(shape.table.number, row)

    def collides(self, changes: Changes, number: int, row: Written) -> bool:
        """Whether another text of the same hash came in this transaction, or stands and wasn't removed by it."""
        has_come, before = changes.rows.get((number, row.key))
        if has_come:
            return before is not None and bool(before.check != row.check)
        keys = self.log.births.table(number)
        return keys.get(row.key) is not None and keys.check(row.key) != row.check

    def change(self, it: Change) -> None:
        shape = self.shape_of(it.relation)
        if shape is None:
            return
        self.changes.count += 1
        number = shape.table.number
        if it.kind == "t":
            self.truncate(number)
            return
        if it.new is None:
            assert it.old is not None
            self.changes.remove(number, shape.key(it.old)[0])
            return
        row = shape.written(self.whole(shape, it))
        if it.old is not None:
            old = shape.key(it.old)[0]
            if old != row.key:
                self.changes.remove(number, old)
        self.place(self.changes, shape, row)

    def truncate(self, number: int) -> None:
        """All rows of a table go: those that stand, and those that this transaction put."""
        came = [key for (table, key), row in self.changes.rows.ordered() if table == number and row is not None]
        for key in self.changes.rows.lively(itertools.chain(self.log.births.table(number), came)):
            self.changes.remove(number, key)

    def whole(self, shape: Shape, it: Change) -> Values:
        """The values of a row that comes, with those that weren't sent from the row of before: as it was sent, or as
        the log has it."""
        assert it.new is not None
        values = it.new
        if it.old is not None:
            values = [old if new is UNCHANGED and isinstance(old, str) else new for old, new in zip(it.old, values)]
        if not shape.lacks(values):
            return values
        key = shape.key(it.old if it.old is not None else values)[0]
        found = self.before(shape, key)
        if found is None:
            raise Broken(
                3,
                f"{shape.table.name}: column {shape.lacks(values)[0]} of a row did not change and isn't "
                f"sent, and {self.kept.name} no "
                f"longer has the row of before: `alter table {shape.table.name} replica identity full` "
                "spares that",
            )
        body, born, era = found
        return shape.filled(values, body, self.schemas.names(shape, shape.lacks(values), born, era))

    def before(self, shape: Shape, key: int) -> Optional[Tuple[bytes, Optional[int], int]]:
        """The body of a row as it is by now: in the log, with its birth, or in this transaction, with its era."""
        number = shape.table.number
        has_come, row = self.changes.rows.get((number, key))
        if has_come:
            return None if row is None else (bytes(row.body), None, row.era)
        body, born, long = self.standing(number, key), self.log.births.table(number).get(key), None
        if body is not None:
            long = self.log.longs.get((number, key))
        if long is not None:
            parts = [self.standing(self.said.parts, long.first + at) for at in range(long.pieces)]
            body = None if None in parts else b"".join(part or b"" for part in parts)
        return None if body is None else (body, born, 0)

    def standing(self, table: int, key: int) -> Optional[bytes]:
        born = self.log.births.table(table).get(key)
        return None if born is None else self.kept.body(table, key, born)

    def shape_of(self, it: Relation) -> Optional[Shape]:
        """The shape of a table as it was described last; None of one that isn't captured."""
        known = self.now.get(it.number)
        if known is None or known[0] is not it:
            before, shape = known[1] if known else None, self.relation(it)
            if before is not None and shape is not None and shape.table.number in self.changes.tables:
                self.rename(before, shape)
            known = self.now[it.number] = (it, shape)
        return known[1]

    def rename(self, before: Shape, shape: Shape) -> None:
        """Rows of this transaction have the names of now, where columns were renamed in it."""
        names, changes = renamed(before, shape), self.none()
        if not names:
            return
        for (number, key), row in self.changes.rows.ordered():
            if row is None:
                changes.remove(number, key)
            else:
                is_it = number == shape.table.number
                changes.put(number, row._replace(body=under_names(row.body, names)) if is_it else row)
        changes.count, changes.tables = self.changes.count, self.changes.tables
        self.changes = changes

    def relation(self, it: Relation) -> Optional[Shape]:
        """A table as it is from here on; under its name stands the table that was loaded, and under no other."""
        known = next(
            (shape for shape in self.shapes.values() if it.number == shape.number or it.name == shape.table.name), None
        )
        if known is None:
            return None
        if (it.number, it.name) != (known.number, known.table.name):
            raise Broken(
                BAD,
                f"{known.table.place}: {known.table.name} is another table from here on, or has another "
                "name: "
                f"{it.name} is number {it.number}, and {known.number} was loaded; begin a log with a "
                "new id",
            )
        shape = self.catalog.relation(known.table, it)
        if shape.is_hashed != known.is_hashed:
            raise Broken(
                BAD,
                f"{known.table.place}: the key {known.table.key} of {it.name} has the type "
                f"{shape.types[known.table.key].shown()} from here on: begin a log with a new id",
            )
        is_mixed = shape.table.number in self.changes.tables
        self.schemas.begin(shape, it, self.lsn, self.log.standing.transaction, is_mixed, self.kept.is_cut)
        return shape

    # ------------------------------------------------------------ going on

    def take(self, it: Message) -> None:
        if isinstance(it, Change):
            if not self.is_there:
                self.change(it)
        elif isinstance(it, Begin):
            # PostgreSQL sends again what wasn't confirmed before its connection broke
            self.changes, self.xid, self.is_there = self.none(), it.xid, it.lsn < self.log.standing.lsn
            self.lsn = it.lsn
        elif isinstance(it, Word):
            self.changes.count += (it.prefix, it.text) == (PREFIX, self.said.slot.encode())
        elif isinstance(it, Commit):
            if self.changes.count and not self.is_there:
                self.commit(it)
            self.changes = self.none()
            if self.waiting > MOST_WAITING:
                self.settle()

    def commit(self, it: Commit) -> None:
        """Writes a transaction, and before it what is remembered from it on of the tables, and once that this capture
        writes: but where a part of it stands, for that was written behind what is remembered already."""
        if (self.schemas.may_differ or self.owes_term) and not self.kept.is_cut:
            rows = self.schemas.rows(self.log.own)
            if self.owes_term:
                rows[TERM] = self.log.next_term()
            if rows:
                self.log.note(rows)
            self.owes_term = False
        self.log.commit(it.end, self.xid, it.clock, self.changes)
        self.kept.is_cut = False

    def keep(self) -> None:
        """All that was written is kept."""
        self.kept.flush()
        self.waiting, self.flushed = 0, self.log.standing.lsn

    def settle(self, is_last: bool = False) -> None:
        """All that was written is kept, and confirmed to PostgreSQL, where that wasn't done just before."""
        self.keep()
        if self.flushed - 1 > self.source.confirmed and (is_last or time.monotonic() - self.told > CONFIRM):
            self.told = time.monotonic()
            if self.is_watched():
                self.origin.advance(self.flushed)
                self.source.confirm(self.flushed)

    def is_watched(self) -> bool:
        """Whether all is published (4 where it isn't); False too where PostgreSQL is away."""
        try:
            self.watch.see()
            return True
        except psycopg2.Error as error:
            if not is_passing(error):
                raise
            return False

    def see(self) -> None:
        """What has to be seen to behind each message: that all is published, and that psycopg2 confirms nothing that
        isn't kept."""
        if self.source.confirms_itself() and self.origin.covered(self.flushed) < self.log.standing.lsn:
            self.keep()
            self.origin.advance(self.flushed)
        if time.monotonic() > self.watch.due:
            self.is_watched()

    def rest(self) -> bool:
        """Nothing waits to be read. Whether that was all that was asked for."""
        if self.catalog.is_ended():
            self.end()
            return False
        is_last = bool(self.until) and self.log.standing.lsn >= self.until
        self.settle(is_last)
        if is_last:
            self.is_watched()
        seen = self.source.seen()
        if seen > max(self.beaten, self.log.standing.lsn) + QUIET_BYTES:
            self.beaten = seen
            self.source.beat()
        return is_last

    def end(self) -> None:
        """PostgreSQL ends, and all that it still sends is kept. It ends once the last connection is gone."""
        self.keep()
        if time.monotonic() - self.tried > AGAIN:
            self.tried = time.monotonic()
            self.catalog.tried("select 1")
        elif time.monotonic() - max(self.tried, self.source.heard) > SILENT:
            raise psycopg2.OperationalError("PostgreSQL ends")

    def follow(self) -> None:
        self.source.start()
        self.settle(True)
        while True:
            messages = self.source.read(0)
            if messages is None:
                if self.rest():
                    return
                messages = self.source.read(CONFIRM) or []
            for it in messages:
                self.take(it)
            self.see()
            self.patience.forget()

    def run(self) -> None:
        """Follows, again and again while PostgreSQL is away. Where something comes that can't be captured, what came
        before is kept."""
        while True:
            try:
                self.follow()
                return
            except Broken as broken:
                if broken.status == BAD:
                    self.keep()
                raise
            except psycopg2.Error as error:
                if not is_passing(error):
                    raise
                self.source.drop()
                self.changes = self.none()
                self.patience.wait(short(str(error)))
