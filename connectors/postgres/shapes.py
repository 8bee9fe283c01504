"""What a row of PostgreSQL is in the log: its key, its tag, and its body of JSON. Needs the package `vadungsil`."""
from __future__ import annotations

import json
import math
from json.encoder import encode_basestring as quoted  # type: ignore[attr-defined]
from typing import Any, Dict, List, NamedTuple, Optional, Sequence, Tuple

from configuration import BAD, Broken, Table
from pgoutput import UNCHANGED, Unchanged, Values
from remembering import Past
from vadungsil.postgres import key_and_check, key_of, tag_of

# how a value of a type stands in a body: as PostgreSQL prints it where that is JSON, else as a text
NUMBERS = {"int2", "int4", "int8", "oid"}
FLOATS = {"float4", "float8"}
TEXTS = {
    "numeric",
    "text",
    "varchar",
    "bpchar",
    "char",
    "name",
    "uuid",
    "json",
    "jsonb",
    "bytea",
    "date",
    "time",
    "timetz",
    "timestamp",
    "timestamptz",
    "interval",
    "inet",
    "cidr",
    "macaddr",
    "macaddr8",
    "bit",
    "varbit",
}
WHOLE_KEYS, HASHED_KEYS = {"int2", "int4", "int8"}, {"text", "varchar", "bpchar", "uuid"}


class Type(NamedTuple):
    """A type, a domain by what it stands on. `kind`: b of a base type, e of an enum, a of an array whose elements
    `name` says."""

    name: str
    kind: str

    def is_known(self) -> bool:
        return (
            self.kind == "e"
            or self.name in TEXTS
            or (self.kind == "b" and (self.name == "bool" or self.name in NUMBERS | FLOATS))
            or (self.kind == "a" and self.name in NUMBERS | FLOATS | {"bool"})
        )

    def shown(self) -> str:
        return f"{self.name}[]" if self.kind == "a" else self.name


class Written(NamedTuple):
    """A row as it is written. `check` distinguishes two texts of one hash, and is 0 of whole numbers."""

    key: int
    check: int
    tag: int
    body: bytes
    key_text: str  # the key's column as JSON
    era: int = 0  # of its table, in which it came


def as_number(value: str) -> str:
    return value


def as_float(value: str) -> str:
    """What JSON doesn't carry is a text: no number, none that ends, and -0, which most read as 0."""
    is_carried = math.isfinite(float(value)) and value != "-0"
    return value if is_carried else quoted(value)  # type: ignore[no-any-return]


def as_bool(value: str) -> str:
    return "true" if value == "t" else "false"


class Shape:
    """A table with the columns that it has by now; `number` is PostgreSQL's own of it. Broken (4) where they don't fit
    the configuration, by name."""

    def __init__(self, table: Table, number: int, names: Sequence[str], types: Sequence[Type]) -> None:
        self.table, self.number, self.names = table, number, list(names)
        wanted = list(table.columns) if table.columns is not None else self.names
        for name in [table.key, *([table.tag] if table.tag else []), *wanted]:
            if name not in self.names:
                raise Broken(BAD, f"{table.place}: table {table.name} has no column {name}")
        self.types = dict(zip(self.names, types))
        for name in wanted:
            if not self.types[name].is_known():
                raise Broken(
                    BAD,
                    f"{table.place}: column {name} of {table.name} has the type "
                    f"{self.types[name].shown()}, which isn't known "
                    "here; leave it out by `columns`",
                )
        self.see_key_and_tag()
        self.era, self.pasts = 0, {}  # type: int, Dict[str, Past]
        ordered = [table.key, *(name for name in wanted if name != table.key)]
        self.fields = [
            (self.names.index(name), ("{" if name == table.key else ",") + quoted(name) + ":", self.writer(name))
            for name in ordered
        ]
        self.key_at, self.key_writer = self.fields[0][0], self.fields[0][2]
        self.tag_at = self.names.index(table.tag) if table.tag else -1

    def see_key_and_tag(self) -> None:
        table, key = self.table, self.types[self.table.key]
        if key.kind != "b" or key.name not in WHOLE_KEYS | HASHED_KEYS:
            raise Broken(
                BAD,
                f"{table.place}: the key {table.key} of {table.name} has the type {key.shown()}: a key "
                "is a whole number "
                "(smallint, integer, bigint), a text or a uuid",
            )
        self.is_hashed = key.name in HASHED_KEYS
        tag = self.types[table.tag] if table.tag else None
        if tag is not None and (tag.kind == "a" or tag.name in FLOATS | {"numeric"}):
            raise Broken(
                BAD,
                f"{table.place}: the tag {table.tag} of {table.name} has the type {tag.shown()}: a tag "
                "is a whole number, a text, "
                "or another value that is printed in one way alone",
            )

    def writer(self, name: str):  # type: ignore[no-untyped-def]
        """What writes a value of a column as JSON."""
        type_ = self.types[name]
        if type_.kind == "b" and type_.name in NUMBERS:
            return as_number
        if type_.kind == "b" and type_.name in FLOATS:
            return as_float
        return as_bool if type_.kind == "b" and type_.name == "bool" else quoted

    # ------------------------------------------------------------ rows

    def key(self, values: Values) -> Tuple[int, int]:
        """The key of a row, and its second number."""
        value = values[self.key_at]
        if not isinstance(value, str):
            raise Broken(BAD, f"a row of {self.table.name} came without its key {self.table.key}")
        if not self.is_hashed:
            return key_of(int(value)), 0
        return key_and_check(value)

    def tag(self, values: Values) -> int:
        if self.tag_at < 0:
            return 0
        value, kind = values[self.tag_at], self.types[self.table.tag or ""]
        assert not isinstance(value, Unchanged)
        if value is None or kind.kind != "b":
            return tag_of(value)
        return tag_of(int(value) if kind.name in NUMBERS else value == "t" if kind.name == "bool" else value)

    def written(self, values: Values) -> Written:
        """A row all of whose values are there."""
        parts: List[str] = []
        for at, prefix, write in self.fields:
            value = values[at]
            parts.append(prefix)
            parts.append("null" if value is None else write(value))
        parts.append("}")
        key, check = self.key(values)
        return Written(key, check, self.tag(values), "".join(parts).encode(), parts[1], self.era)

    def lacks(self, values: Values) -> List[str]:
        """The columns whose values aren't sent since they did not change."""
        return [self.names[at] for at, _, _ in self.fields if values[at] is UNCHANGED]

    def filled(self, values: Values, body: bytes, names: Dict[str, str]) -> Values:
        """The values of a row with what wasn't sent from the body of before, by the names of then. Such values are
        texts."""
        before: Dict[str, Optional[str]] = json.loads(body)
        whole = list(values)
        for name, of_then in names.items():
            if of_then not in before:
                raise Broken(
                    BAD,
                    f"column {name} of {self.table.name} did not change, and the row of before has no such column",
                )
            whole[self.names.index(name)] = before[of_then]
        return whole


class Spelling(str):
    """A number of JSON as it is spelled."""


def under_names(body: bytes, names: Dict[str, str]) -> bytes:
    """A body whose columns have other names; one that isn't among them gives way to one that gets its name."""
    said = json.loads(body, parse_int=Spelling, parse_float=Spelling)
    parts = [
        f"{quoted(names.get(name, name))}:{spelled(value)}"
        for name, value in said.items()
        if name in names or name not in names.values()
    ]
    return ("{" + ",".join(parts) + "}").encode()


def spelled(value: Any) -> str:
    if value is None or isinstance(value, bool):
        return json.dumps(value)
    return str(value) if isinstance(value, Spelling) else str(quoted(value))
