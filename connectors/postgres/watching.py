"""Whether what is captured is still published, all of it. Needs python3-psycopg2."""
from __future__ import annotations

import json
import time
from typing import Any, Dict, List, Optional

from catalog import Catalog
from configuration import BAD, Broken, Configuration
from shapes import Shape
from vadungsil.postgres import place_of

# how often it is looked at, in seconds
EVERY = 2.0

_PUBLICATION = """select pg_current_wal_insert_lsn() - '0/0'::pg_lsn, pubinsert, pubupdate, pubdelete, pubtruncate,
pubviaroot, puballtables, pubowner::bigint, xmin::text from pg_publication where pubname = %s"""

# a table, and each entry of the publication that has it, itself or as a partition or by its schema
_TABLES = """select c.oid::bigint, relpersistence, array(
    select concat(r.oid, ' columns ' || prattrs::text, ' where ' || pg_get_expr(prqual, prrelid))
    from pg_publication_rel r join pg_publication p on p.oid = prpubid and pubname = %s
    where prrelid = c.oid or prrelid in (select relid from pg_partition_ancestors(c.oid)) order by 1), array(
    select n.oid::text from pg_publication_namespace n join pg_publication p on p.oid = pnpubid and pubname = %s
    where pnnspid = relnamespace order by 1)
from pg_class c where c.oid = any(%s)"""

_SAID = ("inserts", "updates", "deletes", "truncates", "publish_via_partition_root", "all tables")


class Watch:
    """What a publication was at the start, held against what it is. `place`: up to where all was published, as far as
    is known; `next`: where the last look was."""

    def __init__(self, said: Configuration, catalog: Catalog) -> None:
        self.said, self.catalog = said, catalog
        self.shapes: List[Shape] = []
        self.first: Optional[Dict[str, Any]] = None
        self.place = self.next = 0
        self.due = 0.0

    def begin(self, shapes: Dict[str, Shape]) -> None:
        self.shapes = list(shapes.values())
        self.first = self.found()
        if self.first[""]:
            self.see()

    def text(self) -> str:
        """What was published at the start."""
        return json.dumps(self.first, separators=(",", ":"))

    def go_on(self, text: str, place: int) -> None:
        """Goes on from what was published when the log came to a place."""
        if text:
            self.first, self.place = json.loads(text), place
            self.see()

    def found(self) -> Dict[str, Any]:
        """What can change, by name."""
        publication = self.catalog.ask(_PUBLICATION, self.said.publication)
        it: Dict[str, Any] = {"": bool(publication)}
        if publication:
            self.next = int(publication[0][0])
            it.update(zip((*_SAID, "owner", "written"), publication[0][1:]))
        names = (self.said.publication, self.said.publication, [shape.number for shape in self.shapes])
        rows = {number: rest for number, *rest in self.catalog.ask(_TABLES, *names)}
        for shape in self.shapes:
            it[shape.table.name] = rows.get(shape.number)
        return it

    def see(self) -> None:
        """4 where it isn't what it was. A place that was asked for before a look that finds all well was well."""
        before, self.due = self.next, time.monotonic() + EVERY
        told = self.told(self.found())
        if told:
            raise Broken(
                BAD,
                f"{told} by now, and wasn't up to {place_of(self.place)}: from there on the log can't be relied on. "
                "Begin a log with a new id",
            )
        self.place = before

    def told(self, now: Dict[str, Any]) -> str:
        """What is otherwise, in words."""
        first, name = self.first or {}, f"publication {self.said.publication}"
        if not now[""]:
            return f"{name} is gone"
        for it in _SAID:
            if now[it] != first[it]:
                return f"{name} has {it} = {str(now[it]).lower()}"
        for shape in self.shapes:
            told = self.table_told(shape.table.name, first[shape.table.name], now[shape.table.name])
            if told:
                return told
        if now["written"] != first["written"] and now["owner"] == first["owner"]:
            return f"{name} was altered, and perhaps set back,"
        return ""

    def table_told(self, table: str, first: Any, now: Any) -> str:
        name = f"publication {self.said.publication}"
        if now is None:
            return f"{table} is gone"
        if now[0] != first[0]:
            return f"{table} is {'unlogged' if now[0] == 'u' else 'logged'}"
        if now[1:] == first[1:]:
            return ""
        return f"{name} has {table} otherwise ({', '.join([*now[1], *now[2]]) or 'not at all'})"
