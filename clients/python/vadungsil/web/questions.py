"""Questions as they come in an address, their answers within bounds, and what changed between two moments."""
from __future__ import annotations

from functools import partial
from typing import Any, Dict, List, Mapping, NamedTuple, Optional, Tuple

from ..errors import Refused
from ..node import Node
from ..values import LAST_KEY, LAST_TIME, KeyRow, Row
from .watch import Watched

LAST_TABLE, LAST_TAG = 2**16 - 1, 2**32 - 1
FEW_ROWS, MOST_ROWS = 1_000, 10_000

# The most bytes of bodies in an answer of one node.
MOST_BYTES = 2**22

# Of each question: the parameters with their greatest values, and what one that isn't there is.
NUMBERS: Dict[str, Tuple[int, Optional[int]]] = {
    "table": (LAST_TABLE, None),
    "key": (LAST_KEY, None),
    "low": (LAST_KEY, 0),
    "high": (LAST_KEY, LAST_KEY),
    "tag": (LAST_TAG, None),
}
PARAMETERS = {"get": ("table", "key"), "range": ("table", "low", "high"), "tag": ("table", "tag"), "count": ("table",)}
TIMES = ("at", "from", "to")


class BadQuestion(ValueError):
    """What is asked can't be: a parameter lacks, is unknown, or is no number in its range."""


class Question(NamedTuple):
    """One of get, range, tag, count, with its numbers."""

    kind: str
    numbers: Dict[str, int]
    most: int = FEW_ROWS

    @property
    def table(self) -> int:
        return self.numbers["table"]

    def as_json(self) -> Dict[str, Any]:
        return {"kind": self.kind, **{name: str(value) for name, value in self.numbers.items()}}


class Found(NamedTuple):
    """The rows of an answer, at most so many as were wanted, and whether there are more; or a count."""

    rows: List[KeyRow]
    more: bool = False
    count: Optional[int] = None  # type: ignore[assignment]  # as above all tuples have it


class Change(NamedTuple):
    """What became of a key between two moments: it came, went, or became another row."""

    key: int
    before: Optional[Row]
    after: Optional[Row]

    @property
    def what(self) -> str:
        return "came" if self.before is None else "went" if self.after is None else "became"


# ---------------------------------------------------------------- reading an address


def number_of(words: Mapping[str, str], name: str, most: int, otherwise: Optional[int] = None, least: int = 0) -> int:
    """The number of a parameter: decimal digits, in its range."""
    word = words.get(name, "")
    if not word:
        if otherwise is None:
            raise BadQuestion(f"{name} lacks: a number of {least} to {most}")
        return otherwise
    if not (word.isascii() and word.isdigit()) or len(word) > 20 or not least <= int(word) <= most:
        raise BadQuestion(f"{name} is no number of {least} to {most}: {word[:40]!r}")
    return int(word)


def time_in(words: Mapping[str, str], name: str) -> Optional[int]:
    """A time, or None where none is named."""
    return number_of(words, name, LAST_TIME) if words.get(name) else None


def question_of(kind: str, words: Mapping[str, str], more: Tuple[str, ...] = ()) -> Question:
    """The question of these parameters; `more` are others that may stand there."""
    names = PARAMETERS[kind]
    for name in words:
        if name not in (*names, "most", "node", *more):
            raise BadQuestion(f"no parameter of {kind}: {name[:40]!r}")
    numbers = {name: number_of(words, name, *NUMBERS[name]) for name in names}
    if kind == "range" and numbers["low"] > numbers["high"]:
        raise BadQuestion(f"low is {numbers['low']}, above high, {numbers['high']}")
    return Question(kind, numbers, number_of(words, "most", MOST_ROWS, FEW_ROWS, 1))


# ---------------------------------------------------------------- asking


def found_by(watched: Watched, question: Question, at: int) -> Found:
    """What a node answers."""
    kind, table = question.kind, question.table
    if kind == "count":
        return Found([], False, watched.ask("count", lambda node: node.count(table, at=at)))
    if kind == "range":
        return _range(watched, question, at)
    if kind == "tag":
        rows = watched.ask("tag", lambda node: node.by_tag(table, question.numbers["tag"], at=at))
        return cut(rows, question.most)
    key = question.numbers["key"]
    row = watched.ask("get", lambda node: node.get(table, key, at=at))
    return Found([] if row is None else [KeyRow(key, row)])


def cut(rows: List[KeyRow], most: int) -> Found:
    """The first of these rows, within the bounds of rows and bytes."""
    size = 0
    for place, (_, row) in enumerate(rows):
        size += len(row.body)
        if place == most or (size > MOST_BYTES and place):
            return Found(rows[:place], True)
    return Found(rows)


def _part(table: int, low: int, last: int, at: int, node: Node) -> List[KeyRow]:
    return node.range(table, low, last, at=at)


def _range(watched: Watched, question: Question, at: int) -> Found:
    """The rows of a range. Where the table has more than are wanted it is asked one range of keys at a time, from the
    lowest key on, so that no more is fetched than about what is shown: a range is as wide as so many rows at first, and
    wider where the one before had few."""
    table, low, high = question.table, question.numbers["low"], question.numbers["high"]
    most, width = question.most, min(question.most, FEW_ROWS)
    if high - low >= most and watched.ask("count", lambda node: node.count(table, at=at)) <= most:
        width = LAST_KEY + 1
    rows: List[KeyRow] = []
    while len(rows) <= most:
        last = min(low + width - 1, high)
        try:
            part = watched.ask("range", partial(_part, table, low, last, at))
        except Refused as refused:
            if refused.number != 2 or width == 1:
                raise
            width = max(min(width, high - low + 1) // 16, 1)
            continue
        rows += part
        if last >= high or sum(len(row.body) for _, row in rows) > MOST_BYTES:
            break
        low = last + 1
        width = 16 * width if len(part) < most // 16 + 1 else max(width // 4, 1) if len(part) > most else width
    return cut(rows, most)


# ---------------------------------------------------------------- comparing


def changes_between(before: Found, after: Found) -> Tuple[List[Change], Optional[int]]:
    """What changed, by rising key, and up to which key that is known: None where all rows of both moments were looked
    at."""
    until = min((found.rows[-1].key for found in (before, after) if found.more and found.rows), default=None)
    old, new = ({key: row for key, row in found.rows if until is None or key <= until} for found in (before, after))
    keys = sorted(key for key in old.keys() | new.keys() if old.get(key) != new.get(key))
    return [Change(key, old.get(key), new.get(key)) for key in keys], until
