"""Snapshots of a PostgreSQL beside the moments of its capture: which moment a snapshot is, if it is one, and whether
the rows are the same. Used by the shop and by tests/checks/postgres.py."""
from __future__ import annotations

import decimal
from typing import Any, Dict, List, NamedTuple, Optional, Tuple

import servers      # noqa: F401: it finds the package
from vadungsil import Node
from vadungsil.postgres import COMMIT, OWN, Database, commit_of, last_time

Rows = Dict[Any, Dict[str, Any]]


class Snapshot(NamedTuple):
    """What one transaction of PostgreSQL saw: the numbers of pg_current_snapshot(), and the rows of each table by key.
    `tick` is the number of the ticker's row that was written behind it."""

    least: int
    next: int
    running: Tuple[int, ...]
    rows: Dict[str, Rows]
    tick: int

    def shows(self, xid: int) -> bool:
        return xid < self.next and xid not in self.running


def plain(value: Any) -> Any:
    """A value as a body has it: numbers and truth as they are, all else as a text."""
    return str(value) if isinstance(value, decimal.Decimal) else value


def taken(link: Any, tables: Dict[str, List[str]]) -> Snapshot:
    """A snapshot of tables, whose columns are named, the key first. Columns that aren't numbers are asked as texts."""
    with link.cursor() as cursor:
        cursor.execute("begin isolation level repeatable read")
        # a TRUNCATE shows in snapshots from before it; so none comes between
        cursor.execute(f"lock table {', '.join(tables)} in access share mode")
        cursor.execute("select pg_current_snapshot()::text")
        least, following, running = cursor.fetchone()[0].split(":")
        rows: Dict[str, Rows] = {}
        for name, columns in tables.items():
            cursor.execute(f"select {', '.join(columns)} from {name}")
            names = [it[0] for it in cursor.description]
            rows[name] = {row[0]: dict(zip(names, map(plain, row))) for row in cursor.fetchall()}
        cursor.execute("commit")
        cursor.execute("update ticker set tick = tick + 1 where id = 1 returning tick")
        tick = cursor.fetchone()[0]
    return Snapshot(int(least), int(following), tuple(int(it) for it in running.split(",") if it), rows, tick)


class Moments:
    """The transactions of a log as a node knows them, in their order."""

    def __init__(self) -> None:
        self.xids: List[int] = []

    def learn(self, node: Node) -> None:
        """Asks for those that came since it was asked last, some hundred at a time."""
        last = (node.front().readable + 1) // 2 ** 20 - 1
        while len(self.xids) < last:
            until = min(last, len(self.xids) + 500)
            with node.pipeline() as pipe:
                laters = [pipe.get(OWN, COMMIT, at=last_time(at)) for at in range(len(self.xids) + 1, until + 1)]
            self.xids += [commit_of(row.body).xid for later in laters if (row := later.result()) is not None]

    def of(self, snapshot: Snapshot) -> Optional[int]:
        """The last transaction that a snapshot shows, where those that it shows are a beginning of the log; else
        None."""
        shown = [xid == 0 or snapshot.shows(xid) for xid in self.xids]
        count = shown.index(False) if False in shown else len(shown)
        rest = [xid for xid, it in zip(self.xids[count:], shown[count:]) if it and xid]
        return None if rest else count


def has_come(node: Node, snapshot: Snapshot) -> bool:
    """Whether a node has all that a snapshot can show: the tick behind it."""
    row = Database(node).get("ticker", 1)
    return row is not None and int(row["tick"]) >= snapshot.tick


def differences(node: Node, snapshot: Snapshot, at: int) -> List[str]:
    """What is otherwise in a node at a moment than in a snapshot."""
    base, found = Database(node), []
    for name, wanted in snapshot.rows.items():
        key = base.table(name).key
        got = {row[key]: row for row in base.rows(name, at=at)}
        for it in [*(got.keys() - wanted.keys()), *(it for it in wanted if got.get(it) != wanted[it])][:3]:
            found.append(f"{name} {it} at {at}: {str(got.get(it))[:200]}, wanted {str(wanted.get(it))[:200]}")
    return found
