"""What is remembered of the columns of a table, so that no row of an altered table is another than
PostgreSQL's. Standard library only.

PostgreSQL names the columns of a row and doesn't number them, and says nothing of a table that was written anew. But
before the first change behind any ALTER it describes the table again: an era of the table begins. In one era a name is
one column. From one era to the next the catalogue shows which column it is: by its number, which no other column ever
gets; by `mark`, the transaction that wrote the column's row last; and by `file`, where the table's rows are, which is
another one wherever they were written anew. The catalogue is of now and the description of then, so:

- A column whose row has the mark that it had, at a place before the description, had its name of now then too.
- Where no column was dropped, and each that was added is there, the columns of the description are the first of now.
- A column with another mark and with another type or file was altered at some place up to that of the look. Its values
  of before aren't used: of eras before this one, nor of those up to that place, nor of the last one before it.
- What isn't sure by these has no number, and no value from before its era."""
from __future__ import annotations

import json
from typing import Any, Callable, Dict, FrozenSet, List, NamedTuple, Optional, Set, Tuple

# so many names of a column are remembered; rows from before aren't used
MOST_NAMES = 8

Said = Tuple[str, int, int]  # a name, a number of pg_type, a modifier


class Seen(NamedTuple):
    """A column as the catalogue has it."""

    name: str
    type: int
    modifier: int
    mark: int


class Look(NamedTuple):
    """A table as the catalogue has it, up to a place of the write-ahead log. `most`: the greatest number that a column
    ever had; `live`: those that are there; `columns`: those that are sent, as they rise."""

    place: int
    file: int
    most: int
    live: FrozenSet[int]
    columns: Dict[int, Seen]

    def said(self) -> List[Said]:
        return [(it.name, it.type, it.modifier) for it in self.columns.values()]


class Past(NamedTuple):
    """Where values of a column from before can be taken: from bodies of the log born at `since` or later, each under
    the name that it had then (`names` rise); and from rows of the transaction that is read, of this era or later."""

    number: Optional[int]
    since: int
    names: Tuple[Tuple[int, str], ...]
    era: int = 0

    def name_at(self, born: int) -> Optional[str]:
        if born < self.since:
            return None
        return next((name for time, name in reversed(self.names) if time <= born), None)

    def called(self, name: str, time: int) -> "Past":
        """The same column, by a name from a time on."""
        if name == self.names[-1][1]:
            return self
        names = (*self.names, (time, name))[-MOST_NAMES:]
        return self._replace(names=names, since=max(self.since, names[0][0]))


class Turn(NamedTuple):
    """Where an era begins: the place of its transaction's commit, the first time of the transaction in the log, the
    first from which on the log has rows of this era alone, and the number of the era."""

    place: int
    time: int
    behind: int
    era: int


class Memory:
    """One table. `columns`: the numbers of the last era's, and what was said of them; `most` is at most the greatest
    number of that era."""

    def __init__(self, look: Look, said: List[Said], numbers: List[Optional[int]]) -> None:
        self.look, self.columns = look, list(zip(numbers, said))
        is_whole = len(said) == len(look.columns) and None not in numbers
        self.most = look.most if is_whole else max([0, *(it for it in numbers if it is not None)])
        self.pasts = {number: Past(number, 0, ((0, it[0]),)) for number, it in zip(numbers, said) if number is not None}
        self.moved: Dict[int, int] = {}  # up to which place the row of a column was written
        self.altered: Dict[int, int] = {}  # up to which place it was altered

    @classmethod
    def of(cls, look: Look) -> "Memory":
        """Of a table that is loaded."""
        return cls(look, look.said(), list(look.columns))

    @classmethod
    def adopted(cls, look: Look, said: List[Said]) -> "Memory":
        """Of a log that remembers nothing: what has the name and the type of now is that column."""
        numbers = dict(zip(look.said(), look.columns))
        return cls(look, said, [numbers.get(it) for it in said])

    # ------------------------------------------------------------ from one era to the next

    def turn(self, said: List[Said], look: Look, turn: Turn, alike: Callable[[int, int], bool]) -> List[Past]:
        """Begins an era: the past of each column that is described."""
        self.notice(look, alike)
        numbers = self.numbers(said, look, turn.place)
        pasts = [self.past(number, it[0], turn) for number, it in zip(numbers, said)]
        if len(said) == len(look.columns) and None not in numbers:
            self.most = look.most
        else:
            self.most = max([self.most, *(it for it in numbers if it is not None)])
        self.columns, self.look = list(zip(numbers, said)), look
        self.pasts = {it.number: it for it in pasts if it.number is not None}
        self.moved = {number: place for number, place in self.moved.items() if place >= turn.place}
        self.altered = {number: place for number, place in self.altered.items() if place >= turn.place}
        return pasts

    def notice(self, look: Look, alike: Callable[[int, int], bool]) -> None:
        """What was moved and altered since the last look."""
        before, now = self.look, look.columns
        is_written, added = look.file != before.file, set(now) - set(before.columns)
        is_plain = look.live.issuperset(range(before.most + 1, look.most + 1)) and set(now) >= set(before.columns)
        moved = {number for number in now if number in added or now[number].mark != before.columns[number].mark}
        altered: Set[int] = added if is_written or not is_plain else set()
        for number, it in before.columns.items():
            is_other = number in moved and not alike(it.type, now[number].type)
            if is_other or (is_written and (number in moved or number not in now)):
                altered = altered | {number}
        self.moved.update({number: look.place for number in moved})
        self.altered.update({number: look.place for number in altered})

    def numbers(self, said: List[Said], look: Look, place: int) -> List[Optional[int]]:
        """The number of each column of a description, where it is sure."""
        era, now = [number for number, _ in self.columns], list(look.columns)
        is_plain = look.live.issuperset(range(self.most + 1, look.most + 1)) and now[: len(era)] == era
        if is_plain and len(era) <= len(said) <= len(now):
            of = [number if look.columns[number].name == it[0] else None for number, it in zip(now, said)]
            return [*era, *of[len(era) :]]
        still = {it.name: number for number, it in look.columns.items() if self.moved.get(number, 0) < place}
        left = {number for number in era if number in look.columns}
        if said == [it for _, it in self.columns] and look.most == self.most and left <= set(still.values()):
            return era
        new = {it.name: number for number, it in look.columns.items() if number not in self.pasts}
        return [still.get(it[0], new.get(it[0])) for it in said]

    def past(self, number: Optional[int], name: str, turn: Turn) -> Past:
        """The past of a column in the era that begins."""
        before = self.pasts.get(number) if number is not None else None
        if before is not None and number not in self.altered:
            return before.called(name, turn.time)
        return Past(number, turn.behind, ((turn.behind, name),), turn.era)

    # ------------------------------------------------------------ as a text

    def text(self) -> str:
        look = self.look
        columns: List[Any] = []
        for number, it in self.columns:
            past = self.pasts.get(number) if number is not None else None
            columns.append([number, *it, *([past.since, past.names] if past else [])])
        return json.dumps(
            {
                "columns": columns,
                "most": self.most,
                "file": look.file,
                "last": look.most,
                "live": sorted(look.live),
                "seen": [[number, *it] for number, it in look.columns.items()],
                "moved": sorted(self.moved.items()),
                "altered": sorted(self.altered.items()),
            },
            separators=(",", ":"),
        )

    @classmethod
    def read(cls, text: str) -> "Memory":
        said = json.loads(text)
        seen = {number: Seen(*it) for number, *it in said["seen"]}
        look = Look(0, said["file"], said["last"], frozenset(said["live"]), seen)
        columns = [(name, kind, modifier) for _, name, kind, modifier, *_ in said["columns"]]
        memory = cls(look, columns, [it[0] for it in said["columns"]])
        memory.most = said["most"]
        for number, _, _, _, *past in said["columns"]:
            if past:
                memory.pasts[number] = Past(number, past[0], tuple((time, name) for time, name in past[1]))
        memory.moved, memory.altered = dict(said["moved"]), dict(said["altered"])
        return memory
