"""Where a capture keeps its log: in an engine (a file, Redis, NATS), or in a node. Both give what stands, take frames,
and say when they are kept. Needs the package `vadungsil`, and what is common to all connectors."""
from __future__ import annotations

import abc
import argparse
import hashlib
from typing import Any, Dict, Iterator, List, Optional, Tuple

from configuration import Broken  # finds what is common
from engine_log import EngineLog, Reading
from feeding import Feed, LinkBroken, Patience, Refused
from log import lists_of, number_of, time_of
from publishing import Publisher
from vadungsil import Entry, encode
from vadungsil.blocks import BLOCK_BYTES, Block, Framed, frames_of
from vadungsil.node import Node
from vadungsil.postgres import COMMIT, OWN, TIMES
from vadungsil.values import Fact

FORKED, LOST = 2, 3


class Kept(abc.ABC):
    """A log that is kept. `frames` is asked once, at the start; behind it `number` and `time` say how far these entries
    go, and `is_cut` whether a part of the next transaction stands behind them."""

    name = ""
    number = time = 0
    is_cut = False

    @abc.abstractmethod
    def frames(self) -> Iterator[bytes]:
        """The entries that stand up to the last whole transaction; where there is none, all that stand."""

    @abc.abstractmethod
    def put(self, frame: bytes) -> None:
        """Takes a frame; one that stands already is compared (2)."""

    @abc.abstractmethod
    def flush(self) -> None:
        """When it returns, all that was put is kept."""

    @abc.abstractmethod
    def body(self, table: int, key: int, born: int) -> Optional[bytes]:
        """The body of a row that stands, or None where the log doesn't have it any more."""


def is_last(frame: bytes) -> bool:
    """Whether an entry is the last one of its transaction."""
    return time_of(frame) % TIMES == TIMES - 1


# ---------------------------------------------------------------- an engine


class KeptByEngine(Kept):
    """Over what `publish` has for all engines: it compares what stands, and waits where the engine is away."""

    def __init__(self, store: EngineLog, patience: float) -> None:
        self.store, self.name = store, store.engine
        self.publisher = Publisher(
            store, argparse.Namespace(block=BLOCK_BYTES, patience=patience, confirm=False, heads=True)
        )
        self.publisher.patience = Patience("capture")
        self.publisher.begin()

    def frames(self) -> Iterator[bytes]:
        last = self.publisher.kept_up(self.store.last, 1)
        end = self.publisher.kept_up(self.last_whole) or last
        self.is_cut = last > end
        reading: Optional[Reading] = None
        before: Optional[Block] = None
        while self.number < end:
            try:
                reading = reading or self.store.reading({1: self.number}, 256)
                found = reading.read(0.2)
            except self.store.errors as error:
                if not self.store.is_passing(error):
                    raise
                reading = before = None
                self.store.forget()
                self.publisher.patience.wait(error)
                continue
            if not found and reading.has_all():
                raise Broken(LOST, f"{self.name} has entries up to {self.number} by now, and had {end}")
            for _, _, block in found:
                if before is not None and block.first <= before.last + 1:
                    self.store.see_next(1, before, block)
                before = block
                yield from self.entries(block, end)

    def entries(self, block: Block, end: int) -> Iterator[bytes]:
        """The entries of a block behind those that were read, up to the end."""
        if self.number < end and block.first > self.number + 1:
            raise Broken(
                LOST,
                f"entries {self.number + 1} to {block.first - 1} are no longer in {self.name}, and a "
                "capture "
                "goes on from the whole log: begin a log with a new id",
            )
        for frame in frames_of(block.data):
            if frame[5] == 1 and self.number < number_of(frame) <= end:
                self.number, self.time = number_of(frame), time_of(frame)
                yield frame

    def last_whole(self) -> int:
        """The number of the last entry that ends a transaction, 0 where there is none."""
        _, _, blocks = self.store.end(1)
        time = 0
        for block in blocks:
            for frame in reversed(frames_of(block.data)):
                if frame[5] == 1:
                    time = time_of(frame)
                    if is_last(frame):
                        return number_of(frame)
        if time >= 2 * TIMES:
            raise Broken(LOST, f"the last entries of {self.name} end no transaction")
        return 0

    def put(self, frame: bytes) -> None:
        self.publisher.put([Framed(frame[5] == 1, self.store.log, 1, number_of(frame), time_of(frame), frame)])

    def flush(self) -> None:
        self.publisher.flush_all()

    def body(self, table: int, key: int, born: int) -> Optional[bytes]:
        """By halving the entries that stand, down to the one of its birth."""
        self.flush()
        low, high = 1, self.publisher.kept_up(self.store.last, 1)
        while low <= high:
            middle = (low + high) // 2
            block = self.publisher.kept_up(self.store.holding, 1, middle)
            entries = [frame for frame in frames_of(block.data) if frame[5] == 1] if block else []
            if not entries or number_of(entries[0]) > middle:
                return None
            if born < time_of(entries[0]):
                high = number_of(entries[0]) - 1
            elif born > time_of(entries[-1]):
                low = number_of(entries[-1]) + 1
            else:
                return body_in(entries, table, key, born)
        return None


def body_in(entries: List[bytes], table: int, key: int, born: int) -> Optional[bytes]:
    for frame in entries:
        if time_of(frame) == born:
            for its_table, its_key, body in lists_of(frame):
                if body is not None and (its_table, its_key) == (table, key):
                    return bytes(body)
    return None


# ---------------------------------------------------------------- a node


class KeptByNode(Kept):
    """A node that reads messages of version 2, and is the only place where the log is: whoever needs a log that is kept
    takes an engine. Entries of a transaction that isn't whole are put together from the node's rows, so that they are
    compared as an engine's are."""

    def __init__(self, address: str, log: int) -> None:
        self.name, self.log = f"the node at {address}", log
        self.address, self.feed = address, Feed(address)
        self.there: Dict[int, bytes] = {}  # what stands of a transaction that isn't whole, by number, as hashes
        self.waiting: List[bytes] = []
        self.size = 0

    def frames(self) -> Iterator[bytes]:
        streams = self.feed.streams(self.log)
        if len(streams) != 1 or streams[0].extra or streams[0].waiting:
            raise Broken(
                BAD_NODE,
                f"{self.name} has {len(streams)} streams, or items that wait for others: a capture "
                "has one, and all of it",
            )
        self.number = streams[0].prefix
        if not self.number:
            return
        by_time: Dict[int, Tuple[List[Any], List[Any]]] = {}
        moment = self.moment()
        with Node(self.address, limit=600) as node:
            for part in node.parts(0):
                for fact in part.facts:
                    yield from self.fact(fact, moment, by_time)
                    self.time = moment or max(self.time, fact.version.born, fact.died or 0)
        self.partial(by_time)

    def moment(self) -> int:
        """The last whole transaction's moment, 0 where there is none: the birth of the row that names it."""
        with Node(self.address, limit=600) as node:
            for part in node.parts(0):
                for fact in part.facts:
                    if (fact.version.table, fact.version.key) > (OWN, COMMIT):
                        return 0
                    if (fact.version.table, fact.version.key) == (OWN, COMMIT) and fact.died is None:
                        return int(fact.version.born)
        return 0

    def fact(self, fact: Fact, moment: int, by_time: Dict[int, Tuple[List[Any], List[Any]]]) -> Iterator[bytes]:
        """An entry with the one row that a fact has, where it stood at the moment; what came later is kept by its
        time."""
        version, row, died = fact.version, fact.row, fact.died
        if moment and died is not None and died > moment:
            by_time.setdefault(died, ([], []))[0].append(version)
        if moment and version.born > moment:
            by_time.setdefault(version.born, ([], []))[1].append((version.table, version.key, row))
        elif row is not None and (died is None or (moment and died > moment)):
            yield encode(Entry.of(self.log, 1, 1, version.born, rows=[(version.table, version.key, row)]))

    def partial(self, by_time: Dict[int, Tuple[List[Any], List[Any]]]) -> None:
        number = self.number - len(by_time)
        for at, time in enumerate(sorted(by_time), 1):
            ends, rows = by_time[time]
            self.there[number + at] = digest(encode(Entry.of(self.log, 1, number + at, time, ends, rows)))
        self.number, self.is_cut = number, bool(by_time)

    def put(self, frame: bytes) -> None:
        if frame[5] == 1 and self.there:
            there = self.there.pop(number_of(frame), None)
            if there is not None and there != digest(frame):
                raise Broken(
                    FORKED,
                    f"entry {number_of(frame)} in {self.name} is another: this log is not the one "
                    "that was fed before",
                )
        self.waiting.append(frame)
        self.size += len(frame)
        if self.size > 1 << 20:
            self.flush()

    def flush(self) -> None:
        if self.waiting:
            blocks = [Block(frame, 1, 0, 0, 0, 0) for frame in self.waiting]
            try:
                self.feed.send_blocks(blocks)
                self.feed.drain()
            except LinkBroken as error:
                raise Broken(LOST, f"{error}: start again; a node that was ended has lost its log") from None
            except Refused as refused:
                raise Broken(BAD_NODE, f"{self.name} refuses: {refused}") from None
        self.waiting, self.size = [], 0

    def body(self, table: int, key: int, born: int) -> Optional[bytes]:
        self.flush()
        with Node(self.address, limit=60) as node:
            row = node.get(table, key)
        return None if row is None else row.body


BAD_NODE = 4


def digest(frame: bytes) -> bytes:
    return hashlib.blake2b(frame, digest_size=16).digest()
