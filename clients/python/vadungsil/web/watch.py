"""One node as the web server sees it: one connection, shared by all who ask, and what the node reported last.

A node of `hkrep serve` gives out each of its connection slots once, so the connection is kept; where it breaks it is
opened anew after a pause."""
from __future__ import annotations

import threading
import time as clock
from collections import deque
from typing import Any, Callable, Deque, Dict, List, Optional, Tuple, TypeVar

from ..address import Address, place_of
from ..errors import LinkBroken, Refused, TimeLimit, VadungsilError
from ..later_values import Streams
from ..link import Certificates
from ..node import Node
from ..stats import Stats
from ..values import LAST_TIME, Fragment
from .meters import Meters
from .state import State, Tables, state_of

Result = TypeVar("Result")
Told = Tuple[Optional[Stats], Tables]

# Seconds from a broken link to the next try; after each further time limit it is twice as long, up to the second
# number.
PAUSE, LONGEST_PAUSE = 1.0, 30.0

DAMAGED, BAD_VERSION, BAD_KIND = 41, 3, 4

# Seconds from one look at a node's tables to the next, where it did something between.
TABLES_EVERY = 5.0

# So many lags are kept, one a look.
HISTORY = 120


class Away(VadungsilError):
    """A node can't be asked now; the words say why."""


class Busy(Away):
    """A node is asked other questions for longer than the limit."""


class Watched:
    """A node that is asked how it stands every so many seconds, by a thread of its own, and questions between. Threads
    may share it. With `messages` of 2 it is asked for its operations, its least pinned time, its numbers and its tables
    too: where it reads version 1 alone, or is of an earlier release, that costs a connection each time that it comes
    back."""

    def __init__(
        self,
        address: Address,
        limit: float = 10.0,
        every: float = 1.0,
        changed: Optional[Callable[[], None]] = None,
        certificates: Certificates = Certificates(),
        messages: int = 1,
    ) -> None:
        place = place_of(address)
        self.node = Node(place, limit, tries=1, wait=0.0, **certificates.of(place)._asdict())
        self.name, self.limit, self.every = self.node.name, limit, every
        self.meters = Meters()
        self.state = State()
        self.told_at: Optional[float] = None
        self.up_at: Optional[float] = None
        self.peers: List[Watched] = [self]
        self.lags: Deque[Optional[int]] = deque(maxlen=HISTORY)
        self._messages = self._latest = messages
        self._tells, self._tables, self._tables_at = True, None, (0, 0.0)  # type: bool, Tables, Tuple[int, float]
        self._changed = changed or (lambda: None)
        self._lock, self._stop = threading.Lock(), threading.Event()
        self._broken, self._again, self._pause = "", 0.0, PAUSE
        self._thread = threading.Thread(target=self._run, name=f"watch {self.name}", daemon=True)

    @property
    def age(self) -> Optional[float]:
        """Seconds since the node's last reply to the watch; None before the first."""
        return None if self.told_at is None else clock.monotonic() - self.told_at

    @property
    def up_for(self) -> Optional[float]:
        """Seconds since it was first seen up, without a look between that found it away."""
        return None if self.up_at is None else clock.monotonic() - self.up_at

    def _known_peers(self) -> List[State]:
        """The nodes of its log that are known, it among them."""
        states = [it.state for it in self.peers]
        return [it for it in states if it.is_known and it.log == self.state.log]

    @property
    def lag(self) -> Optional[int]:
        """How far its resolved time is behind the newest that a node of its log has; None while that isn't known."""
        if not self.state.is_known:
            return None
        newest = [it.newest for it in self._known_peers()]
        return max([it - self.state.readable for it in newest] + [0])

    @property
    def lacks(self) -> Optional[int]:
        """How many entries it lacks that another node of its log has, by the prefixes; None while that isn't known."""
        if not self.state.is_known:
            return None
        lacking = 0
        for place, own in enumerate(self.state.streams):
            there = [it.streams[place].prefix for it in self._known_peers() if place < len(it.streams)]
            lacking += max([it - own.prefix for it in there] + [0])
        return lacking

    def start(self) -> None:
        self._thread.start()

    def stop(self) -> None:
        """Ends the watch, and closes the connection unless a reply is still waited for on it."""
        self._stop.set()
        if self._thread.is_alive():
            self._thread.join(1.0)
        if self._lock.acquire(timeout=0.1):
            try:
                self.node.close()
            finally:
                self._lock.release()

    # ------------------------------------------------------------ asking

    def ask(self, kind: str, call: Callable[[Node], Result]) -> Result:
        """What the node replies, with its time in the meters. `Refused` is the node's; `Away` says that it can't be
        asked."""
        if not self._lock.acquire(timeout=self.limit):
            raise Busy(f"{self.name}: busy with other questions for {self.limit:g} s")
        try:
            if self._broken and clock.monotonic() < self._again:
                raise Away(self._broken)
            return self._asked(kind, call)
        finally:
            self._lock.release()

    def _asked(self, kind: str, call: Callable[[Node], Result]) -> Result:
        before, began = self.node._link, clock.monotonic()
        try:
            value = call(self.node)
        except LinkBroken as error:
            self.meters.broken()
            self._pause = min(2 * self._pause, LONGEST_PAUSE) if isinstance(error, TimeLimit) else PAUSE
            self._broken, self._again = str(error), clock.monotonic() + self._pause
            raise Away(str(error)) from error
        except Refused as refused:
            self._answered(kind, began, before, refused.number)
            raise
        self._answered(kind, began, before, 0)
        return value

    def _answered(self, kind: str, began: float, before: Any, number: int) -> None:
        self.meters.answered(kind, clock.monotonic() - began, number)
        if self.node._link is not before and self.node._link is not None:
            self.meters.opened()
        self._broken, self._pause = "", PAUSE

    # ------------------------------------------------------------ watching

    def _run(self) -> None:
        while not self._stop.is_set():
            self.look()
            self._stop.wait(self.every)

    def _polled(self) -> State:
        """How it stands: by a delta since the last time of all, which has no facts, and by its streams, where it reads
        messages of version 2."""
        if self._latest == 2:
            try:
                head, told, (stats, tables) = self.ask("delta", self._poll)
                return state_of(head)._replace(
                    operations=told.operations, least_hold=told.least_hold, stats=stats, tables=tables
                )
            except Refused as refused:
                if refused.number != BAD_VERSION:
                    raise
                self._latest = 1
        return state_of(self.ask("delta", lambda node: node.delta(LAST_TIME)))

    def _poll(self, node: Node) -> Tuple[Fragment, Streams, Told]:
        head, streams = node.delta(LAST_TIME), node.status()
        try:
            return head, streams, self._told(node, streams.operations) if self._tells else (None, None)
        except Refused as refused:
            if refused.number not in (BAD_VERSION, BAD_KIND):
                raise
            self._tells = False
            return head, streams, (None, None)

    def _told(self, node: Node, operations: int) -> Told:
        """Its numbers, and its tables: these are asked anew where it has done something since, and not at each look."""
        stats, at, (done, asked) = node.stats(), clock.monotonic(), self._tables_at
        if self._tables is None or (operations != done and at >= asked + TABLES_EVERY):
            self._tables, self._tables_at = tuple(node.tables()), (operations, at)
        return stats, self._tables

    def look(self) -> State:
        """Asks the node how it stands, and keeps that and its lag."""
        before = self.state
        try:
            state = self._polled()
            self.told_at = clock.monotonic()
        except Refused as refused:
            state = State(True, str(refused), refused, refused.number == DAMAGED, before.log)
            self.told_at = clock.monotonic()
        except Busy:
            return before
        except Away as away:
            state = State(False, str(away), None, before.damaged, before.log)
        except Exception as error:  # pylint: disable=broad-except
            state = State(False, f"{self.name}: {type(error).__name__}: {error}", None, before.damaged, before.log)
        self.state = state
        if not state.up:
            self.up_at, self._latest, self._tells, self._tables = None, self._messages, True, None
        elif self.up_at is None:
            self.up_at = clock.monotonic()
        self.lags.append(self.lag)
        if (state.up, state.damaged) != (before.up, before.damaged):
            self._changed()
        return state


def watched_by_name(addresses: List[Address], **more: Any) -> Dict[str, Watched]:
    """The nodes by their names, in order; each once."""
    found: Dict[str, Watched] = {}
    for address in addresses:
        one = Watched(address, **more)
        if one.name in found:
            raise ValueError(f"{one.name} is named twice")
        found[one.name] = one
    for one in found.values():
        one.peers = list(found.values())
    return found
