"""How a node stands, by what it reported last."""
from __future__ import annotations

from typing import List, NamedTuple, Optional, Tuple

from ..errors import Refused
from ..stats import Stats
from ..values import LAST_TIME, Fragment, Stream

# Of the numbers above a gap, and of the marks that wait, so many are told; the counts are of all.
SHOWN = 32

Tables = Optional[Tuple[int, ...]]


class StreamState(NamedTuple):
    """How far one stream is. `lag` is how far it is behind the greatest closed time of the streams that aren't
    retired."""

    number: int
    prefix: int
    closed: int
    extra: int
    waiting: int
    first_extra: Tuple[int, ...]
    first_waiting: Tuple[Tuple[int, int], ...]
    lag: int
    holds: bool

    @property
    def is_retired(self) -> bool:
        return self.closed == LAST_TIME

    @property
    def lacks(self) -> str:
        """What a stream that holds the node back lacks: entries where some came above a gap or marks wait, else
        marks."""
        return ("entries" if self.extra or self.waiting else "marks") if self.holds else ""


class State(NamedTuple):
    """What a node reported last. `damaged` is None until a node has replied; `operations`, their number, and the least
    pinned time are None where that isn't asked, or no time is pinned; its numbers and its tables where that isn't
    asked, or it is of an earlier release."""

    up: bool = False
    error: str = "not asked yet"
    refused: Optional[Refused] = None
    damaged: Optional[bool] = None
    log: Optional[int] = None
    horizon: int = 0
    readable: int = 0
    streams: Tuple[StreamState, ...] = ()
    operations: Optional[int] = None
    least_hold: Optional[int] = None
    stats: Optional[Stats] = None
    tables: Tables = None

    @property
    def newest(self) -> int:
        """The greatest time up to which a stream is closed that isn't retired."""
        return max((it.closed for it in self.streams if not it.is_retired), default=self.readable)

    @property
    def is_known(self) -> bool:
        """Whether oldest readable time, resolved time and streams are those of now."""
        return self.up and self.refused is None

    @property
    def holders(self) -> List[StreamState]:
        """The streams holding the node back: closed only up to the resolved time, where another is closed further."""
        return [stream for stream in self.streams if stream.holds]


def stream_states(streams: Tuple[Stream, ...]) -> Tuple[StreamState, ...]:
    """The streams of a fragment, with what each is behind."""
    open_ones = [it.closed for it in streams if it.closed < LAST_TIME]
    greatest, least = max(open_ones, default=LAST_TIME), min(it.closed for it in streams)
    return tuple(
        StreamState(
            number,
            it.prefix,
            it.closed,
            len(it.extra),
            len(it.waiting),
            it.extra[:SHOWN],
            it.waiting[:SHOWN],
            max(greatest - it.closed, 0),
            it.closed == least < greatest,
        )
        for number, it in enumerate(streams, 1)
    )


def state_of(head: Fragment) -> State:
    """The state that a delta without facts reports."""
    return State(True, "", None, False, head.log, head.horizon, head.readable, stream_states(head.streams))
