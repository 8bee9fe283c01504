"""What has to be known of a log in a file to go on with it, as its blocks are read: how far it is, which rows stand
since when, and what table 0 says. Standard library only."""
from __future__ import annotations

import struct
from typing import Callable, Dict

from .errors import Broken
from .identity import OWN
from .items import decode
from .values import LAST_TIME, Entry
from .writer import Place

_HEAD, _PAIR = struct.Struct(">IBBQHQQ").unpack_from, struct.Struct(">HH").unpack_from
_U16, _END, _ROW = (struct.Struct(form).unpack_from for form in (">H", ">QQ", ">QIH"))
Take = Callable[[bytes, int, int, int, int], int]
# what table 0 says of a log stands at keys below this; what a capture remembers, above it
MOST_OWN = 16


class LogState:
    """Of nothing, before a block was taken."""

    def __init__(self, path: str) -> None:
        self.path = path
        self.born: Dict[Place, int] = {}
        self.own: Dict[int, bytes] = {}  # the bodies of table 0, below MOST_OWN
        self.number = self.time = 0  # the last entry, and the greatest time that entries and marks speak of
        self.marked = 0  # the greatest time that a mark closed
        self.is_retired = False

    def take(self, data: bytes) -> None:
        """Takes the frames of a block, whose heads were looked at. 3: their lists are no entry's, or it ends a version
        that doesn't stand, or puts a row over one that it doesn't end."""
        try:
            self.walk(data)
        except (struct.error, IndexError, KeyError) as error:
            raise self.wrong(f"behind entry {self.number} stands no entry of this log ({error})") from None

    def walk(self, data: bytes) -> None:
        at, size = 0, len(data)
        while at < size:
            length, version, kind, _, _, first, time = _HEAD(data, at)
            end = at + 4 + length
            if kind == 2:
                if time > self.marked:
                    self.take_mark(time)
            elif first != self.number + 1:
                raise self.wrong(f"it begins with entry {first}: which rows stand can't be known without those before")
            else:
                if version == 2:
                    self.take_lists(data, at + 32, end, time)
                else:
                    self.take_old(decode(data[at:end]))
                self.number = first
                if time > self.time:
                    self.time = time
            at = end

    def take_mark(self, time: int) -> None:
        self.marked = time
        if time == LAST_TIME:
            self.is_retired = True
        else:
            self.time = max(self.time, time)

    # ------------------------------------------------------------ lists

    def take_lists(self, data: bytes, at: int, end: int, time: int) -> None:
        """The lists of an entry of version 2."""
        at = self.take_groups(data, at, time, self.take_ends)
        at = self.take_groups(data, at, time, self.take_rows)
        if at != end:
            raise IndexError(f"{at} bytes of {end}")

    @staticmethod
    def take_groups(data: bytes, at: int, time: int, take: Take) -> int:
        groups, at = _U16(data, at)[0], at + 2
        for _ in range(groups):
            table, count = _PAIR(data, at)
            at = take(data, at + 4, table, count, time)
        return at

    def take_ends(self, data: bytes, at: int, table: int, count: int, time: int) -> int:
        for place in range(at, at + 16 * count, 16):
            key, since = _END(data, place)
            self.end(table, key, since)
        return at + 16 * count

    def take_rows(self, data: bytes, at: int, table: int, count: int, time: int) -> int:
        born = self.born
        for _ in range(count):
            key, _, size = _ROW(data, at)
            at += 14
            if (table, key) in born:
                raise self.wrong(f"entry {self.number + 1} puts table {table} key {key} over a row that it doesn't end")
            born[table, key] = time
            if table == OWN and key < MOST_OWN:
                self.own[key] = data[at : at + size]
            at += size
        return at

    def end(self, table: int, key: int, since: int) -> None:
        if self.born.pop((table, key)) != since:
            raise self.wrong(f"entry {self.number + 1} ends table {table} key {key} of time {since}, which isn't there")
        if table == OWN:
            self.own.pop(key, None)

    def take_old(self, entry: object) -> None:
        """An entry of version 1."""
        assert isinstance(entry, Entry)
        for it in entry.ends:
            self.end(it.table, it.key, it.born)
        for put in entry.rows:
            if (put.table, put.key) in self.born:
                raise self.wrong(f"entry {entry.number} puts table {put.table} key {put.key} over a row")
            self.born[put.table, put.key] = entry.time
            if put.table == OWN and put.key < MOST_OWN:
                self.own[put.key] = put.row.body

    def wrong(self, why: str) -> Broken:
        return Broken(3, f"{self.path} is no log that can be gone on with: {why}")
