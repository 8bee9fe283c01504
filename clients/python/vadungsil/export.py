"""All rows of one moment as a SQLite file, CSV or JSON lines."""
from __future__ import annotations

import csv
import errno
import json
import os
import sqlite3
import stat
import sys
import time as clock
from contextlib import contextmanager, suppress
from typing import Any, Dict, Iterable, Iterator, List, Optional, TextIO, Tuple

from .errors import Refused
from .values import LAST_KEY, KeyRow

# So many rows a question are aimed at, and so many keys is the first that is asked for.
FEW, MANY, FIRST_KEYS = 5_000, 50_000, 20_000
LAST_TABLE = 2**16 - 1


def tables_at(moment: Any, tables: Optional[Iterable[int]] = None) -> Dict[int, int]:
    """How many rows each table has that has any; of all 65,536 tables unless some are named."""
    wanted = list(range(LAST_TABLE + 1) if tables is None else tables)
    return {table: count for table, count in zip(wanted, moment.counts(wanted)) if count}


def rows_of(moment: Any, table: int) -> Iterator[List[KeyRow]]:
    """The rows of a table by rising key, one range of keys at a time. A range has more keys where the last had few
    rows, and fewer where it had many, or where the node answers that the reply is too long (2)."""
    low, keys = 0, FIRST_KEYS
    while low <= LAST_KEY:
        try:
            part = moment.range(table, low, min(low + keys - 1, LAST_KEY))
        except Refused as refused:
            if refused.number != 2 or keys == 1:
                raise
            keys = max(keys // 16, 1)
            continue
        low += keys
        if part:
            yield part
        if len(part) < FEW:
            keys *= 16
        elif len(part) > MANY:
            keys = max(keys // 4, 1)


class Progress:
    """How much is done, on standard error where that is a terminal: a bar, or a number where the total isn't known."""

    def __init__(self, total: Optional[int], noun: str = "rows", out: Optional[TextIO] = None) -> None:
        self.total, self.noun, self.done, self.last = total, noun, 0, 0.0
        self.out = sys.stderr if out is None else out
        self.is_shown = self.out.isatty()

    def add(self, count: int) -> None:
        self.done += count
        is_all = self.total is not None and self.done >= self.total
        if self.is_shown and (clock.monotonic() - self.last > 0.1 or is_all):
            self.last = clock.monotonic()
            self.out.write(f"\r{self._line()}")
            self.out.flush()

    def _line(self) -> str:
        if self.total is None:
            return f"{self.done} {self.noun}"
        share = self.done / self.total if self.total else 1.0
        return f"[{'#' * int(30 * share):<30}] {self.done} of {self.total} {self.noun}"

    def end(self) -> None:
        if self.is_shown:
            self.out.write("\r\x1b[K")
            self.out.flush()


def _sqlite_key(key: int) -> Any:
    """SQLite's whole numbers end below 2^63; keys from there on are text of 20 digits, which stands behind all
    numbers."""
    return key if key < 2**63 else f"{key:020}"


class _Sqlite:
    """A SQLite file. It has no journal, for one that isn't whole is thrown away."""

    def __init__(self, path: str, time: int, tables: Dict[int, int]) -> None:
        self.base = sqlite3.connect(path)
        self.base.execute("PRAGMA journal_mode = OFF")
        self.base.execute("CREATE TABLE moment (time INTEGER, tables INTEGER, rows INTEGER)")
        self.base.execute("INSERT INTO moment VALUES (?, ?, ?)", (time, len(tables), sum(tables.values())))
        for table in tables:
            self.base.execute(f"CREATE TABLE table_{table} (key PRIMARY KEY, tag INTEGER, body BLOB) WITHOUT ROWID")

    def write(self, table: int, rows: List[KeyRow]) -> None:
        self.base.executemany(
            f"INSERT INTO table_{table} VALUES (?, ?, ?)", ((_sqlite_key(key), row.tag, row.body) for key, row in rows)
        )

    def end(self) -> None:
        self.base.commit()

    def close(self) -> None:
        self.base.close()


class _Text:
    def __init__(self, out: TextIO) -> None:
        self.out = out

    def end(self) -> None:
        self.out.flush()

    def close(self) -> None:
        """Whoever opened the file closes it."""


class _Csv(_Text):
    def __init__(self, out: TextIO) -> None:
        super().__init__(out)
        self.lines = csv.writer(out, lineterminator="\n")
        self.lines.writerow(["table", "key", "tag", "body"])

    def write(self, table: int, rows: List[KeyRow]) -> None:
        self.lines.writerows([table, key, row.tag, row.body.hex()] for key, row in rows)


class _Json(_Text):
    def write(self, table: int, rows: List[KeyRow]) -> None:
        for key, row in rows:
            self.out.write(json.dumps({"table": table, "key": key, "tag": row.tag, "body": row.body.hex()}) + "\n")


FORMS = ("sqlite", "csv", "jsonl")
# the endings of files, and their forms
ENDINGS = {".csv": "csv", ".jsonl": "jsonl", ".db": "sqlite", ".sqlite": "sqlite", ".sqlite3": "sqlite", "": "sqlite"}


def form_named(path: str) -> str:
    """The form that a path's ending names; `-`, standard output, gets JSON lines. `ValueError`: no form has that
    ending, as .parquet."""
    if path == "-":
        return "jsonl"
    ending = os.path.splitext(path)[1]
    if ending not in ENDINGS:
        raise ValueError(
            f"{path}: no form has the ending {ending}; {', '.join(it for it in ENDINGS if it)} are known, and --form"
            " csv, jsonl or sqlite writes any"
        )
    return ENDINGS[ending]


def is_standard_output(path: str) -> bool:
    """Whether a path leads to where standard output goes: `-`, or /dev/stdout under any name."""
    try:
        return path == "-" or os.path.samestat(os.stat(path), os.fstat(sys.stdout.fileno()))
    except (OSError, ValueError, AttributeError):
        return False


def _is_new(path: str, force: bool) -> bool:
    """Whether a file is to be made there. Else there is something that is no file, and is written into; a file that
    stands is refused."""
    try:
        found = os.stat(path).st_mode
    except FileNotFoundError:
        return True
    if stat.S_ISDIR(found):
        raise IsADirectoryError(errno.EISDIR, os.strerror(errno.EISDIR), path)
    if stat.S_ISREG(found) and not force:
        raise FileExistsError(errno.EEXIST, "a file of this name stands; --force puts the export in its place", path)
    return stat.S_ISREG(found)


def export(
    node: Any,
    path: str,
    form: str = "sqlite",
    at: Optional[int] = None,
    tables: Optional[Iterable[int]] = None,
    force: bool = False,
) -> int:
    """Writes all rows of one moment, and gives how many. `node` is a `Node` or `Nodes`.

    A file is written beside its place, as `PATH.part`, and gets its name when it is whole; where the export fails it is
    taken away. A file that stands is refused (`FileExistsError`), and so is a `PATH.part`, but with `force`. What
    stands and is no file, as a device or a pipe, is never replaced: CSV and JSON lines are written into it, and what
    was written before a failure stays there; `-` is standard output. SQLite needs a file (`ValueError`). What the
    system refuses is an `OSError` with the path and the reason."""
    if form not in FORMS:
        raise ValueError(f"no form: {form}")
    is_standard = is_standard_output(path)
    name = "standard output" if is_standard else path
    is_file = not is_standard and _is_new(path, force)
    if form == "sqlite" and not is_file:
        raise ValueError(f"SQLite needs a file, and {name} is none: --form csv or jsonl can be written there")
    try:
        if is_file:
            with _beside(os.path.realpath(path), force) as (part, text):
                return _written(node.at(at), tables, form, text, part)
        if is_standard:
            if sys.stdout is None:
                raise OSError(errno.EBADF, "is closed")
            return _written(node.at(at), tables, form, sys.stdout)
        with open(os.open(path, os.O_WRONLY), "w", encoding="utf-8", newline="") as text:
            return _written(node.at(at), tables, form, text)
    except OSError as error:
        raise OSError(error.errno, error.strerror, name) from error
    except sqlite3.Error as error:
        raise OSError(errno.EIO, str(error), name) from error


@contextmanager
def _beside(path: str, force: bool) -> Iterator[Tuple[str, TextIO]]:
    """A new file beside a path, which gets its name at the end. It has no more rights than one that stands there."""
    part = f"{path}.part"
    rights = stat.S_IMODE(os.stat(path).st_mode) & 0o666 if os.path.exists(path) else 0o666
    if force and os.path.isfile(part) and not os.path.islink(part):
        os.unlink(part)
    try:
        place = os.open(part, os.O_WRONLY | os.O_CREAT | os.O_EXCL, rights)
    except FileExistsError:
        raise FileExistsError(
            errno.EEXIST, f"{part} stands: another export is writing it, or was killed; --force takes it away"
        ) from None
    try:
        with open(place, "w", encoding="utf-8", newline="") as text:
            yield part, text
        if not _is_new(path, force):
            raise FileExistsError(errno.EEXIST, "something that is no file has come to stand there")
        os.replace(part, path)
    except BaseException:
        with suppress(FileNotFoundError):
            os.unlink(part)
        raise


def _written(moment: Any, tables: Optional[Iterable[int]], form: str, text: TextIO, part: str = "") -> int:
    counts = tables_at(moment, tables)
    out: Any = _Sqlite(part, moment.time, counts) if form == "sqlite" else (_Csv if form == "csv" else _Json)(text)
    progress = Progress(sum(counts.values()))
    try:
        for table, count in counts.items():
            got = 0
            for rows in rows_of(moment, table):
                out.write(table, rows)
                got += len(rows)
                progress.add(len(rows))
                if got == count:
                    break
        out.end()
    finally:
        progress.end()
        out.close()
    return progress.done
