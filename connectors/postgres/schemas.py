"""The captured tables as they are altered: what is remembered of each stands in table 0 of the log, and what isn't
sure ends the capture before anything of it is written (4). Needs the package `vadungsil`."""
from __future__ import annotations

from typing import Dict, List, Optional

from catalog import Catalog
from configuration import BAD, Broken
from pgoutput import Relation
from remembering import Look, Memory, Past, Said, Turn
from shapes import Shape
from vadungsil.postgres import TIMES
from vadungsil.values import MOST_BODY

# What is remembered of a table stands in pieces from its number times so many on, and that of the publication below
# them: from there on is all that a log remembers.
OF_TABLE = 2**32
OF_PUBLICATION = REMEMBERED = 2**31

Rows = Dict[int, Optional[bytes]]


def said_of(it: Relation) -> List[Said]:
    return [(column.name, column.type, column.modifier) for column in it.columns]


class Schemas:
    def __init__(self, catalog: Catalog) -> None:
        self.catalog = catalog
        self.memories: Dict[int, Memory] = {}
        self.publication = ""  # what was published, as a text
        self.may_differ = True  # from what stands in the log
        self.era = 0

    # ------------------------------------------------------------ table 0

    def learn(self, own: Dict[int, bytes]) -> None:
        """Takes what a log remembers."""
        pieces: Dict[int, List[bytes]] = {}
        for key in sorted(own):
            if key >= REMEMBERED:
                pieces.setdefault(key // OF_TABLE, []).append(own[key])
        for number, bodies in pieces.items():
            text = b"".join(bodies).decode()
            if number:
                self.memories[number] = Memory.read(text)
            else:
                self.publication = text

    def rows(self, own: Dict[int, bytes]) -> Rows:
        """What is remembered otherwise than it stands in the log, where rows are written to."""
        self.may_differ = False
        texts = {number * OF_TABLE: memory.text() for number, memory in self.memories.items()}
        texts[OF_PUBLICATION] = self.publication
        wanted: Dict[int, bytes] = {}
        for first, text in texts.items():
            body = text.encode()
            for at in range(0, len(body), MOST_BODY):
                wanted[first + at // MOST_BODY] = body[at : at + MOST_BODY]
        rows: Rows = {key: body for key, body in wanted.items() if own.get(key) != body}
        rows.update({key: None for key in own if key >= REMEMBERED and key not in wanted})
        return rows

    def load(self, shape: Shape, look: Look) -> None:
        """Remembers a table as it is loaded."""
        self.memories[shape.table.number] = Memory.of(look)

    # ------------------------------------------------------------ eras

    def begin(self, shape: Shape, it: Relation, place: int, transaction: int, is_mixed: bool, is_cut: bool) -> None:
        """Begins an era of a table, behind so many transactions of the log. Where `is_cut`, the transaction stands in
        part: what was remembered when it was written is what counts."""
        self.era += 1
        shape.era, self.may_differ = self.era, True
        number, said = shape.table.number, said_of(it)
        memory = self.memories.get(number)
        if memory is None:
            pasts = self.adopt(shape, said, is_cut)
        else:
            look = memory.look if is_cut else self.catalog.look(shape)
            # what is remembered may become a transaction before this one
            time = (transaction + 1) * TIMES
            turn = Turn(place, time, time + 2 * TIMES if is_mixed else time, self.era)
            key = self.key_of(shape, memory)
            pasts = memory.turn(said, look, turn, self.catalog.alike)
            self.see_key(shape, memory, key, pasts)
        shape.pasts = {name: past for (name, _, _), past in zip(said, pasts)}

    def adopt(self, shape: Shape, said: List[Said], is_cut: bool) -> List[Past]:
        """A log of before remembers nothing: a name of its rows is the column that has it now."""
        if is_cut:
            return [Past(None, 0, ((0, it[0]),)) for it in said]
        memory = Memory.adopted(self.catalog.look(shape), said)
        self.memories[shape.table.number] = memory
        numbers = [number for number, _ in memory.columns]
        return [memory.pasts[it] if it is not None else Past(None, 0, ((0, of[0]),)) for it, of in zip(numbers, said)]

    @staticmethod
    def key_of(shape: Shape, memory: Memory) -> Optional[int]:
        return next((number for number, it in memory.columns if it[0] == shape.table.key), None)

    def see_key(self, shape: Shape, memory: Memory, before: Optional[int], pasts: List[Past]) -> None:
        """The key is the column that it was, with the values that it had."""
        now = self.key_of(shape, memory)
        if before is None or (now == before and before not in memory.altered):
            return
        table = shape.table
        why = (
            "was altered, so its rows of before have other keys"
            if before in memory.altered
            else "may be another column than it was"
        )
        raise Broken(BAD, f"{table.place}: the key {table.key} of {table.name} {why}: begin a log with a new id")

    # ------------------------------------------------------------ values of before

    @staticmethod
    def names(shape: Shape, lacking: List[str], born: Optional[int], era: int) -> Dict[str, str]:
        """The names that columns had in a row of the log, which was born then, or in one that came in this transaction,
        in an era (`born` is None), whose names are those of now. 4 where one was altered since, or isn't known."""
        found: Dict[str, str] = {}
        for name in lacking:
            past = shape.pasts[name]
            of_then = past.name_at(born) if born is not None else name if era >= past.era else None
            if of_then is None:
                raise Broken(
                    BAD,
                    f"{shape.table.place}: column {name} of {shape.table.name} did not change and isn't sent, and since"
                    " the row was written the table was altered, so that its value isn't known: begin a log with a"
                    f" new id; `alter table {shape.table.name} replica identity full` before an ALTER spares that",
                )
            found[name] = of_then
        return found


def renamed(before: Shape, now: Shape) -> Dict[str, str]:
    """The columns of a table whose names are others in the era that begins, by those of before."""
    names = {it.number: name for name, it in now.pasts.items() if it.number is not None}
    found = {name: names.get(it.number, name) for name, it in before.pasts.items() if it.number is not None}
    return {} if all(name == other for name, other in found.items()) else found
