"""What is confirmed to PostgreSQL, and how a tail that the log lost is known. Needs python3-psycopg2.

A slot gives nothing again from before what was confirmed to it. How far a capture confirmed is also in a replication
origin of the slot's name, which a lost tail doesn't take along. The slot's own place doesn't show it, for psycopg2
confirms places by itself (`Source`). For each place the order is:

1. The log has all up to it on its disk.
2. The origin is brought there, by a transaction that PostgreSQL has on its disk before it answers.
3. It is confirmed to the slot.

Killed behind 1 or 2, the slot sends again what the log has, which is passed over. A PostgreSQL that crashes may forget
3, since slots are saved now and then, and never 2, so wherever the slot is, the origin is too. In the other order a
crash could leave a slot ahead of the origin, and a tail that is lost then would be seen by nobody. The origin is never
ahead of what the log had on its disk: a log that ends before it has lost its tail. One that ends at or behind it has
lost nothing: what psycopg2 confirmed by itself had nothing in it for us, or was kept, and the origin brought there,
before the next message was read. While PostgreSQL is being shut down it takes no 2, so there is no 3.

Who may not use origins has the rule of before: a slot that is ahead of the log means a lost tail, also where psycopg2
alone brought it there."""
from __future__ import annotations

from typing import Optional

import psycopg2

from catalog import Catalog
from configuration import BAD, Broken, Configuration
from vadungsil.postgres import place_of

LOST = 3
UNDEFINED = "42704"

# what has to be granted, but to a superuser
RIGHTS = (
    "pg_replication_origin_create(text)",
    "pg_replication_origin_drop(text)",
    "pg_replication_origin_oid(text)",
    "pg_replication_origin_progress(text, boolean)",
    "pg_replication_origin_advance(text, pg_lsn)",
)


class Origin:
    """The replication origin of a capture. `place`: up to where it is by now; None: it isn't used. `lacking`: of RIGHTS
    those that this user hasn't."""

    def __init__(self, said: Configuration, catalog: Catalog) -> None:
        self.name, self.catalog = said.slot, catalog
        may_call = "select has_function_privilege(%s, 'execute')"
        self.lacking = [it for it in RIGHTS if not catalog.ask(may_call, f"pg_catalog.{it}")[0][0]]
        self.is_allowed = not self.lacking
        self.place: Optional[int] = self.found() if self.is_allowed else None

    def found(self) -> Optional[int]:
        """Its place in PostgreSQL, None where there is none."""
        if self.catalog.ask("select pg_replication_origin_oid(%s)", self.name)[0][0] is None:
            return None
        text = "select pg_replication_origin_progress(%s, false) - '0/0'::pg_lsn"
        return int(self.catalog.ask(text, self.name)[0][0] or 0) or None

    def drop(self) -> None:
        """Takes away what another log left."""
        if self.is_allowed and self.catalog.ask("select pg_replication_origin_oid(%s)", self.name)[0][0] is not None:
            self.catalog.ask("select pg_replication_origin_drop(%s)", self.name)
        self.place = None

    def covered(self, kept: int) -> int:
        """Up to where a tail that is lost would be known, of what is kept."""
        return min(kept, self.place or 0) if self.is_allowed else kept

    def advance(self, lsn: int) -> None:
        """Brings it to a place, on PostgreSQL's disk: a transaction with a number is there once it is committed."""
        if not self.is_allowed or lsn <= (self.place or 0):
            return
        text = "select pg_replication_origin_advance(%s, %s), txid_current()"
        try:
            self.catalog.ask(text, self.name, place_of(lsn))
        except psycopg2.Error as error:
            if error.pgcode != UNDEFINED:
                raise
            self.catalog.ask("select pg_replication_origin_create(%s)", self.name)
            self.catalog.ask(text, self.name, place_of(lsn))
        self.place = lsn


def see_slot(said: Configuration, catalog: Catalog, origin: Origin, lsn: int, name: str) -> None:
    """The slot is there, and the log has all that was confirmed (3)."""
    slot = catalog.slot()
    if slot is None:
        raise Broken(
            LOST, f"slot {said.slot} is gone, and what happened since {name} ends is lost: begin a log with a new id"
        )
    database = catalog.name()[1]
    if slot[0] != database:
        raise Broken(BAD, f"slot {said.slot} is of the database {slot[0]}, and dsn names {database}")
    confirmed = slot[1] if origin.place is None else origin.place
    if confirmed > lsn:
        raise Broken(
            LOST,
            f"more was confirmed to PostgreSQL than {name} has, up to {place_of(confirmed)} and not {place_of(lsn)}:"
            f" {name} lost its tail, and those transactions can't be had again. Begin a log with a new id",
        )
