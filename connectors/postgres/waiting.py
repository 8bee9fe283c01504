"""What a capture waits for while PostgreSQL makes its slot: transactions that are open, in any database of the server.
Needs python3-psycopg2."""
from __future__ import annotations

import threading
from types import TracebackType
from typing import Any, Callable, List, Optional, Tuple, Type

import psycopg2

from catalog import connected
from configuration import Configuration

# seconds until the first word, and between two
FIRST, EVERY = 2.0, 60.0
MOST = 5

# who may not see another user's transactions sees no age
_OPEN = """select 'pid ' || pid, extract(epoch from clock_timestamp() - xact_start) from pg_stat_activity
where backend_xid is not null and pid not in (pg_backend_pid(), %s)
union all select 'prepared ' || quote_literal(gid), extract(epoch from clock_timestamp() - prepared)
from pg_prepared_xacts order by 2 desc nulls last"""


def told_of(found: List[Tuple[str, Any]]) -> str:
    """Open transactions in words, the oldest first."""
    them = [name if age is None else f"{name} for {age:.0f} s" for name, age in found[:MOST]]
    more = [f"{len(found) - MOST} more"] if len(found) > MOST else []
    return f"the load waits for transactions that are open: {', '.join(them + more)}"


class Waiting(threading.Thread):
    """Says what is waited for, over a connection of its own, for as long as it is entered. `pid`: of the connection
    that waits."""

    def __init__(self, said: Configuration, pid: int, say: Callable[[str], None]) -> None:
        super().__init__(daemon=True)
        self.said, self.pid, self.say = said, pid, say
        self.is_over = threading.Event()

    def __enter__(self) -> "Waiting":
        self.start()
        return self

    def __exit__(
        self, kind: Optional[Type[BaseException]], error: Optional[BaseException], where: Optional[TracebackType]
    ) -> None:
        self.is_over.set()

    def run(self) -> None:
        seconds = FIRST
        while not self.is_over.wait(seconds):
            found = self.found()
            if found and not self.is_over.is_set():
                self.say(told_of(found))
            seconds = EVERY if found else FIRST

    def found(self) -> List[Tuple[str, Any]]:
        try:
            link = connected(self.said.dsn)
        except psycopg2.Error:
            return []
        try:
            with link.cursor() as cursor:
                cursor.execute(_OPEN, (self.pid,))
                return list(cursor.fetchall())
        except psycopg2.Error:
            return []
        finally:
            link.close()
