"""The configuration of a capture: a TOML file, read and held against what it may say. Standard library only."""
from __future__ import annotations

import pathlib
import re
import sys
import tomllib
from typing import Any, Dict, List, NamedTuple, NoReturn, Optional, Tuple

sys.dont_write_bytecode = True
sys.path.append(str(pathlib.Path(__file__).resolve().parent.parent / "common"))

import feeding  # noqa: E402, F401, finds the package
from vadungsil.errors import Broken  # noqa: E402

__all__ = ["Broken", "Configuration", "Table", "read"]

MOST_TABLE = 2**16 - 1
BAD = 4

_TOP = {"log": int, "dsn": str, "publication": str, "slot": str, "parts": int, "table": list}
_TABLE = {"number": int, "name": str, "key": str, "tag": str, "columns": list}
_WORDS = {int: "a whole number", str: "a text", list: "a list"}


class Table(NamedTuple):
    """A table to capture. Without `columns` it is all of them, also those that are added."""

    number: int
    name: str
    key: str
    tag: Optional[str]
    columns: Optional[Tuple[str, ...]]
    place: str  # where it stands in the file, for what is said of it


class Configuration(NamedTuple):
    log: int
    dsn: str
    publication: str
    slot: str
    parts: int
    tables: Tuple[Table, ...]


class Reader:
    """The file, and where in it something stands."""

    def __init__(self, path: str) -> None:
        self.path = path
        try:
            with open(path, "rb") as file:
                data = file.read()
            self.lines = data.decode().splitlines()
            self.said: Dict[str, Any] = tomllib.loads(data.decode())
        except (OSError, UnicodeDecodeError, tomllib.TOMLDecodeError) as error:
            raise Broken(BAD, f"{path}: {error}") from None

    def place(self, table: int, name: str) -> str:
        """The line of a name: in the table of so many, from 1 on, or above all of them (0)."""
        count, found = 0, 0
        for number, line in enumerate(self.lines, 1):
            if re.match(r"\s*\[\[\s*table\s*\]\]", line):
                count += 1
                found = number if count == table else found
            elif count == table and re.match(rf"\s*{re.escape(name)}\s*=", line):
                return f"{self.path}, line {number}"
        return f"{self.path}, line {found}" if found else self.path

    def fail(self, table: int, name: str, text: str) -> NoReturn:
        raise Broken(BAD, f"{self.place(table, name)}: {text}")

    def take(self, said: Dict[str, Any], table: int, known: Dict[str, type]) -> None:
        """Sees that each name is known and has a value of its type."""
        for name, value in said.items():
            if name not in known:
                self.fail(table, name, f"{name} means nothing here; known are {', '.join(known)}")
            if not isinstance(value, known[name]) or isinstance(value, bool):
                self.fail(table, name, f"{name} is {_WORDS[known[name]]}")

    def number(self, said: Dict[str, Any], table: int, name: str, most: int, otherwise: Optional[int] = None) -> int:
        if name not in said and otherwise is None:
            self.fail(table, name, f"{name} is missing")
        value: int = said.get(name, otherwise)
        if not (0 if name == "log" else 1) <= value <= most:
            self.fail(table, name, f"{name} {value} is not in {0 if name == 'log' else 1} to {most}")
        return value

    def text(self, said: Dict[str, Any], table: int, name: str) -> str:
        if not said.get(name):
            self.fail(table, name, f"{name} is missing")
        value: str = said[name]
        return value


def read(path: str) -> Configuration:
    """The configuration of a file; Broken (4) says the file, the line and what is wrong."""
    it = Reader(path)
    it.take(it.said, 0, _TOP)
    log = it.number(it.said, 0, "log", 2**64 - 1)
    parts = it.number(it.said, 0, "parts", MOST_TABLE, MOST_TABLE)
    slot = it.said.get("slot", f"vadungsil_{log}")
    if not re.fullmatch(r"[a-z0-9_]{1,63}", slot):
        it.fail(0, "slot", f"slot {slot}: PostgreSQL takes small letters, digits and _ alone, at most 63")
    tables = tuple(table_of(it, number, said) for number, said in enumerate(it.said.get("table", []), 1))
    if not tables:
        raise Broken(BAD, f"{path}: no [[table]] is there")
    see_numbers(it, tables, parts)
    return Configuration(log, it.said.get("dsn", ""), it.text(it.said, 0, "publication"), slot, parts, tables)


def table_of(it: Reader, number: int, said: Any) -> Table:
    if not isinstance(said, dict):
        it.fail(0, "table", "table is a list of [[table]]")
    it.take(said, number, _TABLE)
    name, columns = it.text(said, number, "name"), said.get("columns")
    key, tag = it.text(said, number, "key"), said.get("tag")
    if columns is not None:
        for column in [key, *([tag] if tag else [])]:
            if column not in columns:
                it.fail(
                    number,
                    "columns",
                    f"columns of {name} lacks {column}, which is its " f"{'key' if column == key else 'tag'}",
                )
        if any(not isinstance(column, str) for column in columns) or len(set(columns)) < len(columns):
            it.fail(number, "columns", f"columns of {name} are names, each once")
    return Table(
        it.number(said, number, "number", MOST_TABLE),
        name if "." in name else f"public.{name}",
        key,
        tag,
        None if columns is None else tuple(columns),
        it.place(number, "name"),
    )


def see_numbers(it: Reader, tables: Tuple[Table, ...], parts: int) -> None:
    numbers: List[int] = [parts]
    names: List[str] = []
    for at, table in enumerate(tables, 1):
        if table.number in numbers:
            whose = "the table of parts'" if table.number == parts else "another table's too"
            it.fail(at, "number", f"number {table.number} of {table.name} is {whose}")
        if table.name in names:
            it.fail(at, "name", f"{table.name} stands twice")
        numbers.append(table.number)
        names.append(table.name)
