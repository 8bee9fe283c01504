"""What the web server counts of one node: answers by kind with their times, refusals by number, connections."""
from __future__ import annotations

import threading
from typing import Dict, List, NamedTuple, Tuple

KINDS = ("get", "range", "tag", "count", "front", "delta")

# The upper bounds of the histogram's buckets, in seconds.
BOUNDS = (0.0005, 0.001, 0.0025, 0.005, 0.01, 0.025, 0.05, 0.1, 0.25, 0.5, 1.0, 2.5, 5.0, 10.0)


# Of this refusal there is a count from the start on: a rate sees no step from nothing to 1.
OUT_OF_MEMORY = 90


class Times(NamedTuple):
    """A histogram: how many answers took at most each bound, the sum of seconds, and how many there were."""

    within: Tuple[int, ...]
    total: float
    count: int  # type: ignore[assignment]  # the tuple has a method of this name, which nobody calls


class Meters:
    """Counters that threads may share."""

    def __init__(self) -> None:
        self._lock = threading.Lock()
        self._within: Dict[str, List[int]] = {kind: [0] * len(BOUNDS) for kind in KINDS}
        self._total = dict.fromkeys(KINDS, 0.0)
        self._count = dict.fromkeys(KINDS, 0)
        self._refused: Dict[int, int] = {OUT_OF_MEMORY: 0}
        self._opened = self._broken = 0

    def answered(self, kind: str, seconds: float, number: int) -> None:
        """An answer, or a refusal with its number."""
        with self._lock:
            for place, bound in enumerate(BOUNDS):
                self._within[kind][place] += seconds <= bound
            self._total[kind] += seconds
            self._count[kind] += 1
            if number:
                self._refused[number] = self._refused.get(number, 0) + 1

    def opened(self) -> None:
        with self._lock:
            self._opened += 1

    def broken(self) -> None:
        with self._lock:
            self._broken += 1

    def times(self) -> Dict[str, Times]:
        with self._lock:
            return {kind: Times(tuple(self._within[kind]), self._total[kind], self._count[kind]) for kind in KINDS}

    def refused(self) -> Dict[int, int]:
        with self._lock:
            return dict(sorted(self._refused.items()))

    def links(self) -> Tuple[int, int]:
        """How many connections were opened and answered, and how many tries or connections failed."""
        with self._lock:
            return self._opened, self._broken
