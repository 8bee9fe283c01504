"""The changes of a log as they become readable: `node.changes(since)`. A watch gives each change of a row above a time
once, in the order of times, whatever comes late, and also over connections that break.

Up to its resolved time a node knows all that happened, above it some. So a watch waits until more can be read, takes
the delta since the time up to which all was given, and gives of it what is not above the resolved time that the delta
says itself. What is above comes again with the next delta, which is of the same base or a later one."""
from __future__ import annotations

import math
from collections import deque
from types import TracebackType
from typing import Callable, Deque, Dict, Iterable, Iterator, List, NamedTuple, Optional, Tuple, Type, TypeVar

from .errors import Fault, Refused, TooOld
from .later_values import LastPart, Part
from .link import Link
from .transfer import AnyPart, Chunks
from .values import LAST_TIME, Delta, Fact, Fragment, FragmentHead, Front, Row, time_of
from .waiting import Apart, Asked, Breaks, Steps, until

Own = TypeVar("Own", bound="Changes")


class Change(NamedTuple):
    """What happened to a row at a time: it is this one from then on, or None, and then it is gone."""

    time: int
    table: int
    key: int
    row: Optional[Row]


def changes_of(facts: Iterable[Fact], base: int, readable: int) -> List[Change]:
    """The changes at times above a base and up to a resolved time, by time, table and key. A version that ends and one
    that begins at one time at one key are one change."""
    found: Dict[Tuple[int, int, int], Optional[Row]] = {}
    for fact in facts:
        table, key, born = fact.version.table, fact.version.key, fact.version.born
        if fact.row is not None and base < born <= readable:
            found[born, table, key] = fact.row
        if fact.died is not None and base < fact.died <= readable:
            found.setdefault((fact.died, table, key), None)
    return [Change(*place, found[place]) for place in sorted(found)]


class Found(NamedTuple):
    """What a node said: its log and number of streams, up to which time all is known, and the changes up to there."""

    log: Tuple[int, int]
    readable: int
    changes: List[Change]

    def up_to(self, readable: int) -> "Found":
        """The same, up to an earlier time."""
        return Found(self.log, readable, [it for it in self.changes if it.time <= readable])

    def is_like(self, other: "Found") -> bool:
        """Whether both say the same up to where both know all."""
        readable = min(self.readable, other.readable)
        return self.up_to(readable) == other.up_to(readable)


def found_in(head: FragmentHead, facts: Iterable[Fact], base: int, front: Front) -> Found:
    """What a delta since a base says, of a node that had this front just before. `TooOld`: the node was pruned beyond
    the base. 6: it is no delta since the base, or the resolved time fell."""
    if head.base != base:
        raise Fault(6, place=f"a delta since {head.base}, where one since {base} was asked for")
    if head.horizon > base:
        raise TooOld(25, head.horizon)
    readable = min(it.closed for it in head.streams)
    if readable < front.readable:
        raise Fault(6, place=f"a delta up to {readable} behind a resolved time of {front.readable}")
    return Found((head.log, len(head.streams)), readable, changes_of(facts, base, readable))


class Watch:
    """Which changes of a log were given. All up to `base` were, but for those in `kept`, which come next."""

    def __init__(self, since: int, limit: Optional[float], tries: int = 1) -> None:
        self.base, self.limit = time_of(since, "since"), limit
        self.kept: Deque[Change] = deque()
        self._log: Optional[Tuple[int, int]] = None
        self._is_in_chunks, self.breaks = True, Breaks(limit, tries)

    @property
    def time(self) -> int:
        return self.kept[0].time - 1 if self.kept else self.base

    def is_over(self) -> bool:
        """Whether nothing more can come: each stream is retired, and all was given."""
        return self.base == LAST_TIME and not self.kept

    def is_waiting(self) -> bool:
        """Whether there may be more, and nothing is here."""
        return self.base < LAST_TIME and not self.kept

    # ------------------------------------------------------------ over one connection

    def steps(self) -> Steps[None]:
        """Waits for changes and takes them."""
        while self.is_waiting():
            found = yield from self.look(math.inf)
            if found is not None:
                self.take(found)

    def look(self, end: float) -> Steps[Optional[Found]]:
        """Waits until a node can be read above the base, and asks it what happened; None: it can't at the end of a time
        limit."""
        base = self.base
        front = yield from until(base + 1, end, self.limit)
        if front.readable <= base:
            return None
        if not self._is_in_chunks:
            fragment: Fragment = yield Asked(Delta(base), (Fragment,))
            return self.known(found_in(FragmentHead.of(fragment), fragment.facts, base, front))
        chunks, facts, head = Chunks(base), [], None  # type: Chunks, List[Fact], Optional[FragmentHead]
        while chunks.request is not None:
            part: AnyPart = yield Asked(chunks.request, (Part, LastPart))
            chunks.take(part)
            facts += part.facts
            head = part.head if isinstance(part, LastPart) else None
        assert head is not None  # the chunks end with the last one, or with an error
        return self.known(found_in(head, facts, base, front))

    def take(self, found: Found) -> None:
        """Gives what was found."""
        self._log, self.base = found.log, found.readable
        self.kept.extend(found.changes)

    def known(self, found: Found) -> Found:
        """The same. 20: it is of another log than what was given; 21: of another number of streams."""
        if self._log is not None and self._log != found.log:
            number = 20 if self._log[0] != found.log[0] else 21
            raise Refused(number, place=f"log {found.log[0]} of {found.log[1]} streams, behind log {self._log[0]}")
        return found

    # ------------------------------------------------------------ over several

    def rest(self, error: BaseException, has_replied: bool) -> float:
        """How many seconds to wait before it goes on over a new connection; raises the error where it doesn't. Where a
        node has no room for chunks (46) the next delta is one message, and where that is too long (2) the one after it
        is in chunks again."""
        if isinstance(error, Refused):
            if self.has_other_way(error):
                return 0.0
            raise error.at(f"changes since {self.base}")
        return self.breaks.rest(error, has_replied)

    def has_other_way(self, refused: Refused) -> bool:
        """Whether a delta may be asked for in another way than the one that was refused."""
        was_in_chunks = self._is_in_chunks
        if refused.number in (2, 46):
            self._is_in_chunks = refused.number == 2
        return was_in_chunks and not self._is_in_chunks


class Changes(Iterator[Change]):
    """The changes above a time, each once: `for change in node.changes(since):`. `time` is up to where all were given,
    so `changes(since=that)` goes on with them, also in another process. It waits for the next change without an end,
    and comes to one where all streams of the log are retired. One thread at a time.

    What it raises ends nothing: the next call of `next` goes on where it was."""

    def __init__(self, watch: Watch) -> None:
        self._watch = watch

    @property
    def time(self) -> int:
        """All changes up to this time were given."""
        return self._watch.time

    def _fetch(self) -> None:
        """Waits until there are more changes, or there is an end of them."""
        raise NotImplementedError

    def __next__(self) -> Change:
        if self._watch.is_waiting():
            self._fetch()
        if self._watch.is_over():
            raise StopIteration
        return self._watch.kept.popleft()

    def close(self) -> None:
        """Closes its connections. The next change opens others."""

    def __enter__(self: Own) -> Own:
        return self

    def __exit__(
        self, kind: Optional[Type[BaseException]], error: Optional[BaseException], trace: Optional[TracebackType]
    ) -> None:
        self.close()


class NodeChanges(Changes):
    """Those of one node, over a connection of their own."""

    def __init__(self, opened: Callable[[], Link], watch: Watch) -> None:
        super().__init__(watch)
        self._apart = Apart(opened, watch.rest)

    def _fetch(self) -> None:
        self._apart.run(self._watch.steps)

    def close(self) -> None:
        self._apart.close()
