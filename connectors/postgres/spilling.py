"""A map from places to rows that is read in order, of any size: what is too much for memory goes into a temporary file
(SQLite's), which is gone with it. Standard library only."""
from __future__ import annotations

import marshal
import sqlite3
import struct
from typing import Any, Callable, Dict, Iterable, Iterator, Optional, Tuple

from keys import Place

_PLACE = struct.Struct(">HQ")

# so many rows stand in memory
MOST = 200_000
# behind so many rows is said that we live, where that is due
OFTEN = 1_024


class Spilling:
    """Values are tuples of numbers, texts and bytes, which `make` takes, or None. `alive` is called often in what takes
    long."""

    def __init__(
        self,
        make: Callable[..., Any] = lambda *it: it,
        most: int = MOST,
        alive: Callable[[], None] = lambda: None,
    ) -> None:
        self.make, self.most, self.alive = make, most, alive
        self.rows: Dict[Place, Any] = {}
        self.base: Optional[sqlite3.Connection] = None

    def put(self, place: Place, value: Any) -> None:
        self.rows[place] = value
        if len(self.rows) > self.most:
            self.spill()

    def get(self, place: Place) -> Tuple[bool, Any]:
        """Whether a place is there, and what it has."""
        if place in self.rows:
            return True, self.rows[place]
        found = None
        if self.base is not None:
            found = self.base.execute("select value from rows where place = ?", (_PLACE.pack(*place),)).fetchone()
        return found is not None, self.value(found[0]) if found else None

    def __len__(self) -> int:
        if self.base is None:
            return len(self.rows)
        self.spill()
        count: int = self.base.execute("select count(*) from rows").fetchone()[0]
        return count

    def ordered(self) -> Iterator[Tuple[Place, Any]]:
        """All of it, in order of places; nothing is put meanwhile."""
        if self.base is None:
            for place in self.lively(sorted(self.rows)):
                yield place, self.rows[place]
            return
        self.spill()
        for packed, value in self.lively(self.base.execute("select place, value from rows order by place")):
            number, key = _PLACE.unpack(packed)
            yield (number, key), self.value(value)

    def lively(self, them: Iterable[Any]) -> Iterator[Any]:
        """The same, and `alive` is called."""
        for at, it in enumerate(them):
            if at % OFTEN == 0:
                self.alive()
            yield it

    def clear(self) -> None:
        self.rows.clear()
        if self.base is not None:
            self.base.close()
        self.base = None

    # ------------------------------------------------------------ the file

    def spill(self) -> None:
        """What stands in memory goes into the file; OSError where it has no room."""
        rows = (
            (_PLACE.pack(*place), marshal.dumps(None if row is None else tuple(row)))
            for place, row in self.lively(self.rows.items())
        )
        try:
            if self.base is None:
                self.base = sqlite3.connect("", isolation_level=None)
                self.base.execute("pragma journal_mode = off")
                self.base.execute("create table rows(place blob primary key, value blob) without rowid")
            self.base.execute("begin")
            self.base.executemany("insert or replace into rows values (?, ?)", rows)
            self.base.execute("commit")
        except sqlite3.Error as error:
            raise OSError(f"the temporary file of a large transaction (TMPDIR): {error}") from None
        self.rows.clear()

    def value(self, data: bytes) -> Any:
        row = marshal.loads(data)
        return None if row is None else self.make(*row)
