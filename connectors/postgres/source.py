"""The database of a capture: its rows at the start, and the transactions since. Needs python3-psycopg2."""
from __future__ import annotations

import contextlib
import functools
import time
from typing import Any, Callable, Dict, Iterator, List, Optional, Tuple

import psycopg2
import psycopg2.extras
from psycopg2 import sql

from catalog import Catalog, connected, is_ready, names_of
from configuration import BAD, Broken, Configuration
from pgoutput import Decoder, Message, Value
from shapes import Shape
from vadungsil.postgres import lsn_of
from waiting import Waiting

# how long a silent link may be, in seconds, before the server is told that we live
ALIVE = 10.0
_GIVES_UP = "select setting::float / 1000 from pg_settings where name = 'wal_sender_timeout'"
PREFIX = "vadungsil"
_ESCAPES = {"b": "\b", "f": "\f", "n": "\n", "r": "\r", "t": "\t", "v": "\v"}


class Source:
    """The replication connection, opened anew where it broke.

    psycopg2 by itself confirms a place up to which nothing came, where what was confirmed is at or behind the last
    message. That is so while a transaction comes whose changes are older than what was confirmed, and before the first
    message; it then confirms what is before that transaction's commit. So where such a message has come,
    `confirms_itself` says so, and all that came before is kept before the next is read. Between transactions it never
    is so: of a commit all is confirmed but its last byte, which means the same, and a `beat` stands in the write-ahead
    log before the first message is read."""

    def __init__(self, said: Configuration, catalog: Catalog) -> None:
        self.said, self.catalog = said, catalog
        self.link: Any = None
        self.cursor: Any = None
        self.decoder = Decoder()
        self.confirmed, self.told, self.every = 0, 0.0, ALIVE
        self.last, self.heard = 0, 0.0  # the place of the last message, and when it came

    def drop(self) -> None:
        self.catalog.close()
        if self.link is not None:
            self.link.close()
        self.link = self.cursor = None

    def open(self) -> Any:
        if self.link is None:
            self.link = connected(self.said.dsn, connection_factory=psycopg2.extras.LogicalReplicationConnection)
            self.cursor = self.link.cursor()
        return self.cursor

    def beat(self) -> None:
        """Has PostgreSQL log a transaction of no rows, which comes back as a `Word`."""
        self.catalog.ask("select pg_logical_emit_message(true, %s, %s)", PREFIX, self.said.slot)

    # ------------------------------------------------------------ the rows that stand

    def make_slot(self, say: Callable[[str], None]) -> Tuple[int, str]:
        """Makes the slot: from where it sends transactions, and the name of a snapshot that has all from before. The
        snapshot is there until the next command over this connection. What PostgreSQL waits for is said."""
        cursor = self.open()
        with Waiting(self.said, self.link.info.backend_pid, say):
            cursor.execute(f"CREATE_REPLICATION_SLOT {self.said.slot} LOGICAL pgoutput EXPORT_SNAPSHOT")
        _, point, snapshot, _ = cursor.fetchone()
        return lsn_of(point), snapshot

    def rows(
        self,
        snapshot: str,
        shapes: Dict[str, Shape],
        see: Callable[[Any], None],
        take: Callable[[Shape, List[Value]], None],
    ) -> None:
        """Hands on each row of a snapshot, once no table can be altered any more and what its cursor shows was seen."""
        link = connected(self.said.dsn)
        try:
            link.set_session(isolation_level="REPEATABLE READ", readonly=True)
            with link.cursor() as cursor:
                cursor.execute("SET TRANSACTION SNAPSHOT %s", (snapshot,))
                for shape in shapes.values():
                    text = sql.SQL("SELECT {} FROM ONLY {} LIMIT 0")
                    cursor.execute(text.format(sql.Identifier(shape.table.key), names_of(shape.table)))
                see(cursor)
                for shape in shapes.values():
                    columns = sql.SQL(", ").join(sql.Identifier(name) for name in shape.names)
                    text = sql.SQL("COPY (SELECT {} FROM ONLY {}) TO STDOUT").format(columns, names_of(shape.table))
                    cursor.copy_expert(text, Lines(functools.partial(take, shape)))
        finally:
            link.close()

    # ------------------------------------------------------------ the transactions since

    def start(self) -> None:
        """Begins to read behind what was confirmed to PostgreSQL."""
        self.decoder, self.last = Decoder(), 0
        self.every = silence(self.catalog.ask(_GIVES_UP)[0][0])
        self.beat()
        quoted = self.said.publication.replace('"', '""')
        options = {"proto_version": "1", "messages": "true", "publication_names": f'"{quoted}"'}
        self.open().start_replication(slot_name=self.said.slot, decode=False, start_lsn=0, options=options)

    def read(self, seconds: float) -> Optional[List[Message]]:
        """What one message says; None where none came for so long."""
        message = self.cursor.read_message()
        if message is None and seconds:
            is_ready(self.cursor, seconds)
            message = self.cursor.read_message()
        self.live()
        if message is None:
            return None
        self.last, self.heard = message.data_start, time.monotonic()
        return self.decoder.decode(message.payload)

    def confirms_itself(self) -> bool:
        """Whether the next read may confirm what came before the transaction that comes."""
        return self.last <= self.confirmed

    def confirm(self, lsn: int) -> None:
        """Confirms to PostgreSQL that all up to behind a commit is kept."""
        if lsn - 1 > self.confirmed:
            self.confirmed = lsn - 1
            self.tell()

    def live(self) -> None:
        """Reports that we are there, where that is due; also in what takes long between two reads. A connection that
        has ended shows at the next read, and not in the midst of what is written."""
        if self.cursor is not None and self.confirmed and time.monotonic() - self.told > self.every:
            with contextlib.suppress(psycopg2.Error):
                self.tell()

    def tell(self) -> None:
        self.told = time.monotonic()
        self.cursor.send_feedback(flush_lsn=self.confirmed, force=True)

    def seen(self) -> int:
        """Up to where all that PostgreSQL logged has been sent, where nothing waits to be read."""
        return int(self.cursor.wal_end)


def silence(timeout: float) -> float:
    """How long a connection may be silent where the server gives up after so many seconds, or never (0)."""
    return min(ALIVE, timeout / 4) if timeout else ALIVE


class Lines:
    """What COPY writes, cut into lines and values: a file as psycopg2 wants it."""

    def __init__(self, take: Callable[[List[Value]], None]) -> None:
        self.take, self.left = take, b""

    def write(self, data: bytes) -> int:
        lines = (self.left + data).split(b"\n")
        self.left = lines.pop()
        for line in lines:
            self.take([plain(it) for it in line.decode().split("\t")])
        return len(data)


def plain(text: str) -> Optional[str]:
    """A value as it was before COPY wrote it."""
    if "\\" not in text:
        return text
    if text == "\\N":
        return None
    parts: List[str] = []
    letters: Iterator[str] = iter(text)
    for letter in letters:
        if letter == "\\":
            letter = next(letters)
            letter = _ESCAPES.get(letter, letter)
        parts.append(letter)
    return "".join(parts)
