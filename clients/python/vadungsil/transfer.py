"""What a node keeps for a connection: a fragment that it gives in chunks, chunks that it takes, and pinned times. Each
has a connection of its own, which is never opened anew: where it breaks, the node has dropped all of it."""
from __future__ import annotations

from types import TracebackType
from typing import Any, Callable, Iterable, Iterator, List, Optional, Tuple, Type, Union

from .errors import Fault
from .link import Link
from .messages import encode_request
from .requests import value_of
from .later_values import (
    PART_BYTES,
    AddPart,
    Added,
    AskHold,
    Held,
    JoinParts,
    LastPart,
    LaterDone,
    MergeParts,
    More,
    Part,
    Release,
    Request,
    Whole,
)
from .values import (
    VersionKey,
)

AnyPart = Union[Part, LastPart]


def least_of(limit: Optional[float], other: Optional[float]) -> Optional[float]:
    """The shorter of two time limits; None is none."""
    limits = [it for it in (limit, other) if it is not None]
    return min(limits) if limits else None


class OwnLink:
    """A connection for one transfer, one pinned time or one wait."""

    def __init__(self, link: Link) -> None:
        self._link, self._limit = link, link.limit

    @property
    def has_replied(self) -> bool:
        return self._link.has_replied

    def ask(self, request: Request, *kinds: type, within: Optional[float] = None) -> Any:
        """The reply, of one of these kinds, which is waited for `within` so many seconds, where that is less than the
        connection's own limit. After any error the connection is closed."""
        return self.ask_frame(encode_request(request), *kinds, within=within)

    def ask_frame(self, frame: bytes, *kinds: type, within: Optional[float] = None) -> Any:
        """The same of a request that is a frame already."""
        try:
            self._link.set_limit(least_of(self._limit, within))
            return self._read(self._exchanged(frame), kinds)
        except BaseException:
            self.close()
            raise

    def _exchanged(self, frame: bytes) -> bytes:
        found: List[bytes] = []
        self._link.exchange(frame, 1, found)
        return found[0]

    def _read(self, rest: bytes, kinds: Tuple[type, ...]) -> Any:
        return value_of(rest, *kinds, latest=2)

    def close(self) -> None:
        self._link.close()

    def __enter__(self) -> Any:
        return self

    def __exit__(
        self, kind: Optional[Type[BaseException]], error: Optional[BaseException], trace: Optional[TracebackType]
    ) -> None:
        self.close()


class Hold(OwnLink):
    """A pinned time of a node, which stays readable: no prune goes above it. `number` and `time` are the pin's. It
    lasts until `release`, until `close`, by which the node sees the connection end, or until the connection breaks,
    which `release` reports (`LinkBroken`).

        with node.hold(5): node.range(1, at=5)"""

    def __init__(self, link: Link, time: int) -> None:
        super().__init__(link)
        held = self.ask(AskHold(time), Held)
        self.number, self.time = held.number, held.time

    def release(self) -> int:
        """Releases the time; returns the number of the node's operations that ends with that."""
        operations: int = self.ask(Release(self.number), LaterDone).operations
        self.close()
        return operations

    def __exit__(
        self, kind: Optional[Type[BaseException]], error: Optional[BaseException], trace: Optional[TracebackType]
    ) -> None:
        if kind is None:
            self.release()
        self.close()


class Chunks:
    """What the chunks of one fragment have said so far. `request` is what is asked for the next one, None behind the
    last: what a node received since a base, or all that it holds since 0. All are of the moment of the first."""

    def __init__(self, base: int, part_bytes: int = PART_BYTES) -> None:
        self.request: Union[Whole, More, None] = Whole(base, part_bytes)
        self.count, self.whole, self.last = 0, None, None  # type: int, Optional[int], Optional[VersionKey]

    def take(self, part: AnyPart) -> None:
        """A chunk that goes on where the one before it ended: its facts come behind (7). Those so far and those to come
        are as many as the first chunk says, and as the head says; a chunk that isn't the last one has some (8). So the
        chunks come to an end."""
        if part.facts:
            if self.last is not None and part.facts[0].version <= self.last:
                raise Fault(7, place=f"a chunk from {part.facts[0].version}, behind {self.last}")
            self.last = part.facts[-1].version
        self.count += len(part.facts)
        whole = self.count + part.left if isinstance(part, Part) else part.head.count
        is_last = isinstance(part, LastPart)
        if self.whole not in (None, whole) or (self.count != whole if is_last else not part.facts):
            raise Fault(
                8,
                place=f"{self.count} facts with a chunk of {len(part.facts)}, which says that the fragment has {whole}",
            )
        self.whole = whole
        self.request = None if is_last else More()


def parts_from(opened: Callable[[], Link], base: int, part_bytes: int) -> Iterator[AnyPart]:
    """The chunks that `Chunks` asks for; the last one is a `LastPart`."""
    chunks = Chunks(base, part_bytes)
    with OwnLink(opened()) as link:
        while chunks.request is not None:
            part: AnyPart = link.ask(chunks.request, Part, LastPart)
            chunks.take(part)
            yield part


def parts_to(opened: Callable[[], Link], parts: Iterable[AnyPart]) -> int:
    """Has a node take chunks, of which the last is a `LastPart`; returns the number of its operations. Nothing of them
    is taken before all are there, which the node sees by the count in the head (8)."""
    with OwnLink(opened()) as link:
        for part in parts:
            link.ask(AddPart(part.facts), Added)
            if isinstance(part, LastPart):
                request = MergeParts(part.head) if part.head.base == 0 else JoinParts(part.head)
                operations: int = link.ask(request, LaterDone).operations
                return operations
    raise Fault(1, place="the chunks end before the last one")
