"""The numbers that a node reports of itself: docs/FORMATS.md, "Metrics"."""
from __future__ import annotations

from dataclasses import dataclass
from typing import Dict, NamedTuple, Optional, Tuple

from .values import LAST_KEY, number_in, rising, table_of

# The metrics' names, by the words that a line has for them.
NAMES: Dict[int, str] = {
    1: "rows",
    2: "ends",
    3: "body_bytes",
    4: "operations",
    5: "guarded",
    6: "failed",
    7: "pins",
    8: "seconds",
    9: "budget",
    10: "reserved",
    11: "memory",
    12: "open",
    13: "opened",
    14: "most_open",
    15: "bytes_read",
    16: "bytes_written",
    17: "requests",
    18: "refusals",
    19: "failed_accepts",
    20: "program",
    21: "keys",
    22: "memory_limit",
}
# Those that have a label: which budget, door, kind of requests or refusal.
LABELLED = frozenset((9, 10, 12, 13, 14, 17, 18))
MOST_NAME = 2**16 - 1


class Metric(NamedTuple):
    """One number of a node. Who doesn't know its name skips it."""

    name: int
    label: int
    value: int

    def line(self) -> str:
        """As `hkrep status --stats` prints it."""
        word = NAMES.get(self.name)
        if word is None:
            return f"metric {self.name} {self.label} {self.value}"
        has_label = self.name in LABELLED or self.label != 0
        return f"{word} {self.label} {self.value}" if has_label else f"{word} {self.value}"


@dataclass(frozen=True)
class AskStats:
    """What numbers has the node of itself?"""


@dataclass(frozen=True)
class AskTables:
    """Which tables does the node hold anything of?"""


@dataclass(frozen=True)
class Stats:
    """The numbers that a node reports of itself. One that it doesn't report is None, or without labels; `other` has the
    metrics that are not known here."""

    metrics: Tuple[Metric, ...]

    def __post_init__(self) -> None:
        metrics = tuple(Metric(*it) for it in self.metrics)
        object.__setattr__(self, "metrics", metrics)
        for it in metrics:
            number_in(it.name, 0, MOST_NAME, "name of a metric")
            number_in(it.label, 0, MOST_NAME, "label of a metric")
            number_in(it.value, 0, LAST_KEY, "value of a metric")
        rising([it[:2] for it in metrics], "metric of")

    def line(self) -> str:
        return "\n".join([f"stats {len(self.metrics)}", *(it.line() for it in self.metrics)])

    def of(self, name: int) -> Dict[int, int]:
        """The metrics of a name: the values by their labels."""
        return {it.label: it.value for it in self.metrics if it.name == name}

    def _one(self, name: int) -> Optional[int]:
        return self.of(name).get(0)

    def _is(self, name: int) -> Optional[bool]:
        value = self._one(name)
        return None if value is None else value != 0

    @property
    def rows(self) -> Optional[int]:
        """How many rows of versions the node holds."""
        return self._one(1)

    @property
    def ends(self) -> Optional[int]:
        """How many ends of versions it holds."""
        return self._one(2)

    @property
    def body_bytes(self) -> Optional[int]:
        """The bytes of the bodies of those rows."""
        return self._one(3)

    @property
    def operations(self) -> Optional[int]:
        return self._one(4)

    @property
    def guarded(self) -> Optional[bool]:
        return self._is(5)

    @property
    def failed(self) -> Optional[bool]:
        return self._is(6)

    @property
    def pins(self) -> Optional[int]:
        """How many pins are active."""
        return self._one(7)

    @property
    def seconds(self) -> Optional[int]:
        """The seconds since the node started."""
        return self._one(8)

    @property
    def budget(self) -> Dict[int, int]:
        """The bytes that may wait in memory: 0 of all doors, or of the feeders'; 1 of the readers'."""
        return self.of(9)

    @property
    def reserved(self) -> Dict[int, int]:
        """The bytes of each budget that are reserved."""
        return self.of(10)

    @property
    def memory(self) -> Optional[int]:
        """The bytes of memory that the process has; None or 0 where that is unknown."""
        return self._one(11)

    @property
    def open(self) -> Dict[int, int]:
        """The connections that are open, by door."""
        return self.of(12)

    @property
    def opened(self) -> Dict[int, int]:
        """The connections that were opened so far, by door."""
        return self.of(13)

    @property
    def most_open(self) -> Dict[int, int]:
        """The most connections that were open at once, by door."""
        return self.of(14)

    @property
    def bytes_read(self) -> Optional[int]:
        return self._one(15)

    @property
    def bytes_written(self) -> Optional[int]:
        return self._one(16)

    @property
    def requests(self) -> Dict[int, int]:
        """The requests so far, by their kind byte."""
        return self.of(17)

    @property
    def refusals(self) -> Dict[int, int]:
        """The refusals so far, by their number."""
        return self.of(18)

    @property
    def failed_accepts(self) -> Optional[int]:
        return self._one(19)

    @property
    def version(self) -> Optional[str]:
        """The version of the program, as "0.1.0"."""
        number = self._one(20)
        if number is None:
            return None
        return f"{number // 1_000_000}.{number // 1_000 % 1_000}.{number % 1_000}"

    @property
    def keys(self) -> Optional[int]:
        """How many keys of tables the node holds a version of."""
        return self._one(21)

    @property
    def memory_limit(self) -> Optional[int]:
        """The bytes of address space that the process may take; None where it has no limit."""
        return self._one(22)

    @property
    def other(self) -> Dict[int, Dict[int, int]]:
        """The metrics whose names are not known here: values by label, by name."""
        return {it.name: self.of(it.name) for it in self.metrics if it.name not in NAMES}


@dataclass(frozen=True)
class Tables:
    """The tables of which a node holds anything, a row or an end of a version, by rising number (7)."""

    tables: Tuple[int, ...]

    def __post_init__(self) -> None:
        object.__setattr__(self, "tables", tuple(map(table_of, self.tables)))
        rising(list(self.tables), "table")

    def line(self) -> str:
        return "\n".join([f"tables {len(self.tables)}", *(f"table {table}" for table in self.tables)])
