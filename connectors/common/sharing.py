"""Blocks that were read lately, for nodes that are fed side by side: each block is read once for those that are near
one another. A node that is further behind reads by itself till it is near again, so it holds nobody back."""
from __future__ import annotations

import threading
import time
from collections import deque
from typing import Any, Deque, Dict, List, NamedTuple, Optional, Tuple

from engine_log import EngineLog, Reading
from vadungsil.blocks import Block

Found = List[Tuple[int, Any, Block]]

# how many bytes of blocks are kept for the nodes behind the first one
MOST_BYTES = 16 << 20


class Batch(NamedTuple):
    """What one read gave, with where each stream was before it: its last entry, and the place of its last block, where
    one was read since the window began."""

    found: Found
    numbers: Dict[int, int]
    places: Dict[int, Any]
    size: int


class Window:
    """Batches are counted from 0 on; those that are kept are the last ones. One thread at a time reads the next."""

    def __init__(self, store: EngineLog, batch: int) -> None:
        self.store, self.batch = store, batch
        self.changed = threading.Condition()
        self.batches: Deque[Batch] = deque()
        self.first = self.size = 0
        self.reading: Optional[Reading] = None
        self.is_reading = False
        self.begun: Dict[int, int] = {}  # the numbers at which it began
        self.numbers: Dict[int, int] = {}
        self.places: Dict[int, Any] = {}

    def join(self, numbers: Dict[int, int], places: Dict[int, Any]) -> Optional[int]:
        """The batch from which on a node gets all that it lacks, which has these numbers, and blocks up to these
        places; None where that is no longer there."""
        with self.changed:
            if self.reading is None:
                if self.is_reading:
                    return None
                self.begun, self.numbers, self.places = dict(numbers), dict(numbers), {}
                self.reading = self.store.reading(dict(numbers), self.batch)
            heads = [*((it.numbers, it.places) for it in self.batches), (self.numbers, self.places)]
            for at in range(len(heads) - 1, -1, -1):
                if all(self.is_behind(stream, numbers, places, heads[at]) for stream in numbers):
                    return self.first + at
            return None

    def is_behind(
        self, stream: int, numbers: Dict[int, int], places: Dict[int, Any], head: Tuple[Dict[int, int], Dict[int, Any]]
    ) -> bool:
        """Whether nothing of a stream that was read before a batch lacks."""
        number, place = head[0][stream], head[1].get(stream)
        if place is None:
            return numbers[stream] >= self.begun[stream]
        return numbers[stream] > number or (stream in places and bool(places[stream] >= place))

    def read(self, at: int, seconds: float) -> Optional[Found]:
        """The batch of this number, which is waited for; nothing where none came, and None where it isn't kept."""
        until = time.monotonic() + seconds
        with self.changed:
            while self.is_reading and at == self.first + len(self.batches):
                left = until - time.monotonic()
                if left <= 0:
                    return []
                self.changed.wait(left)
            if self.reading is None or at < self.first:
                return None
            if at < self.first + len(self.batches):
                return self.batches[at - self.first].found
            self.is_reading, reading = True, self.reading
        found: Optional[Found] = None
        try:
            found = reading.read(seconds)
        finally:
            with self.changed:
                self.is_reading = False
                if found is None:
                    self.begin_anew()
                elif found:
                    self.add(found)
                self.changed.notify_all()
        return found

    def add(self, found: Found) -> None:
        size = sum(len(block.data) for _, _, block in found)
        self.batches.append(Batch(found, dict(self.numbers), dict(self.places), size))
        self.size += size
        for stream, place, block in found:
            self.numbers[stream] = max(self.numbers[stream], block.last)
            self.places[stream] = place
        while self.size > MOST_BYTES and len(self.batches) > 1:
            self.size -= self.batches.popleft().size
            self.first += 1

    def begin_anew(self) -> None:
        """After a failure: nothing that was read is kept, and the next node that joins begins."""
        self.first += len(self.batches) + 1
        self.batches.clear()
        self.size, self.reading = 0, None
        self.store.forget()

    def has_all(self) -> bool:
        with self.changed:
            return self.reading is not None and self.reading.has_all()


class SharedReading(Reading):
    """What one node reads: of the window where that has what comes next, else by itself."""

    def __init__(self, window: Window, store: EngineLog, numbers: Dict[int, int], batch: int) -> None:
        self.window, self.store, self.batch = window, store, batch
        self.numbers, self.places, self.is_over = dict(numbers), {}, False  # type: Dict[int, int], Dict[int, Any], bool
        self.own: Optional[Reading] = None
        self.at = window.join(self.numbers, self.places)
        self.go_alone()

    def go_alone(self) -> None:
        self.own = None if self.at is not None else self.store.reading(dict(self.numbers), self.batch)

    def read(self, seconds: float) -> Found:
        found = self.read_shared(self.at, seconds) if self.at is not None else self.read_alone(seconds)
        for stream, place, block in found:
            self.numbers[stream] = max(self.numbers[stream], block.last)
            self.places[stream] = place
        if self.own is not None:
            self.at = self.window.join(self.numbers, self.places)
            self.own = None if self.at is not None else self.own
        return found

    def read_shared(self, at: int, seconds: float) -> Found:
        found = self.window.read(at, seconds)
        if found is None:
            self.at, self.is_over = None, False
            self.go_alone()
            return []
        self.is_over = not found and self.window.has_all()
        self.at = at + 1 if found else at
        return found

    def read_alone(self, seconds: float) -> Found:
        assert self.own is not None
        found = self.own.read(seconds)
        self.is_over = self.own.has_all()
        return found

    def has_all(self) -> bool:
        return self.is_over
