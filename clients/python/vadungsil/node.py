"""A node of one log, over a connection."""
from __future__ import annotations

import threading
from types import TracebackType
from typing import Any, Generic, Iterable, Iterator, List, Optional, Tuple, Type, TypeVar

from .address import Address, place_of
from .changes import Changes, NodeChanges, Watch
from .errors import Fault, LinkBroken, Refused, TimeLimit, VadungsilError
from .link import Certificates, Link, security_of
from .requests import (
    FRONT,
    Moment,
    Read,
    Requests,
    ask_frame,
    feeding,
    latest_in,
    logs_of,
    other_log,
    range_of,
    read_done,
    read_front,
    version_seen,
)
from .saved import Loaded, Saved, load
from .stats import Stats
from .transfer import AnyPart, Hold, least_of, parts_from, parts_to
from .later_values import (
    PART_BYTES,
    LastPart,
    Page,
    Streams,
)
from .values import (
    LAST_KEY,
    LAST_TIME,
    Fact,
    Fragment,
    FragmentHead,
    Front,
    KeyRow,
    Operations,
    Query,
    Row,
    Stream,
    number_in,
    time_of,
)
from .waiting import Apart, Breaks, end_of, reached, until, within

Result = TypeVar("Result", covariant=True)
Own = TypeVar("Own", bound="Node")
Rows_ = List[KeyRow]

# So much of a pipeline is sent before its replies are looked at.
WINDOW = 1_024


class Later(Generic[Result]):
    """What a request of a pipeline is replied, once the pipeline has run."""

    __slots__ = ("_rest", "_read", "_error")

    def __init__(self, read: Read) -> None:
        self._read, self._rest, self._error = read, None, None  # type: Read, Optional[bytes], Optional[Exception]

    def result(self) -> Result:
        """The value, or what the node refused."""
        if self._error is not None:
            raise self._error
        if self._rest is None:
            raise RuntimeError("the pipeline has not run yet")
        value: Result = self._read(self._rest)
        return value


class Node(
    Requests[
        Optional[Row],
        Rows_,
        int,
        Front,
        Fragment,
        Streams,
        Page,
        Tuple[int, Optional[Row]],
        Tuple[int, Rows_],
        Tuple[int, int],
        Operations,
        Stats,
        List[int],
    ]
):
    """A node: `Node(7420)`, `Node("127.0.0.1:7420")`, `Node("[::1]:7420")`, `Node("unix:/run/node.sock")`. `Node()` is
    where HKREP_NODE in the environment says, else 127.0.0.1:7420. `ValueError`: that is no address. The connection is
    opened with the first request, kept, and opened anew where it broke; a request whose reply did not come is then made
    once more, which is safe for all of them: a change made twice is as made once (the number that it returns is
    another). A time limit is not tried again: `TimeLimit` is raised. `NotANode`: an HTTP server, say, answers there.

    Threads may share a node; their requests go one after the other. `limit` is the most seconds of each wait, None
    without one. While nobody listens the first connection is tried again for `wait` seconds, so that a node may be
    asked that was started just before.

    `messages` is the latest version of messages that the node reads, 1 or 2, where the caller knows. Else items are
    sent in version 1, until the node has answered a request of version 2 (`latest`, `page`, `status`, `stats`,
    `tables`).

    `Node("tls://HOST:PORT", ca=.., cert=.., key=..)` asks over TLS, through what stands before the node there: its
    certificate is for that host, signed by one of the file `ca`, or of the system; ours is in the file `cert`, with its
    key there or in `key`. What either side finds wrong is a `LinkBroken` that says so; `ValueError`: a file can't be
    read, or the address isn't one over TLS.
    """

    def __init__(
        self,
        address: Optional[Address] = None,
        limit: Optional[float] = 20.0,
        tries: int = 2,
        wait: float = 3.0,
        *,
        ca: Optional[str] = None,
        cert: Optional[str] = None,
        key: Optional[str] = None,
        messages: Optional[int] = None,
    ) -> None:
        certificates, self.address = Certificates(ca, cert, key), place_of(address)
        certificates.see([self.address])
        self._told = self._version = None if messages is None else number_in(messages, 1, 2, "messages")
        self.limit, self.tries, self._wait = limit, max(tries, 1), wait
        self._security = security_of(self.address, certificates)
        self._link: Optional[Link] = None
        self._lock = threading.RLock()

    @property
    def name(self) -> str:
        return self.address.name

    # ------------------------------------------------------------ requests

    def _call(self, request: bytes, read: Read) -> Any:
        rest = self._exchange([request])[0]
        self._version = version_seen(self._version, rest)
        return read(rest)

    def _read(self, at: Optional[int], query: Query, read: Read) -> Any:
        return self._call(ask_frame(self._latest() if at is None else at, query), read)

    def _latest(self) -> int:
        """The resolved time."""
        return latest_in(self.front(), self.name)

    def _feed(self, body: bytes) -> Any:
        version = self._version or 1
        try:
            return self._call(*feeding(body, version))
        except Refused as refused:
            if (refused.number, version) == (3, 2):  # it may have been started anew, and reads version 1 alone
                self._version = self._told
            raise self._with_logs(refused, logs_of(body))

    def _give(self, fragment: Fragment, request: bytes) -> Any:
        try:
            return self._call(request, read_done)
        except Refused as refused:
            raise self._with_logs(refused, [fragment.log])

    def _with_logs(self, refused: Refused, given: Iterable[int]) -> Refused:
        """The same; where it is 20, with both logs: the node is asked for its own."""
        if refused.number == 20:
            try:
                refused.place = other_log(self.name, self.delta(LAST_TIME).log, given)
            except VadungsilError:
                pass
        return refused

    def streams(self) -> Tuple[Stream, ...]:
        """How far each stream is: for feeders, which go on behind each `prefix`. A delta since the last time of all has
        no facts."""
        return self.delta(LAST_TIME).streams

    def rows(
        self, table: int, low: int = 0, high: int = LAST_KEY, at: Optional[int] = None, most: int = 1_000
    ) -> Iterator[KeyRow]:
        """Each row of the keys from low to high at one time, asked for page by page (`page`), so there is no limit on
        their number. `ValueError`: low is above high."""
        range_of(table, low, high)
        time = self._latest() if at is None else at
        while True:
            page = self.page(table, low, high, at=time, most=most)
            yield from page.rows
            if not page.more:
                return
            low = page.rows[-1].key + 1

    def hold(self, time: int) -> Hold:
        """Pins a time, so that it stays readable, over a connection of its own: `with node.hold(5):`. A time above the
        resolved time is pinned too, and stays readable from when it is reached. 25: it is below the oldest readable
        time."""
        return Hold(self._own_link(), time_of(time))

    def wait(self, time: int, timeout: Optional[float] = None) -> Front:
        """Waits until a time can be read, and returns the range of readable times at that moment. It has a connection
        of its own, so questions of other threads don't wait behind it. `TimeLimit`: the time can't be read within
        `timeout` seconds; None: there is no limit but that of a silent node. 3: the node reads messages of version 1
        alone; 41: it has failed. `ValueError`: `timeout` is no number from 0 on."""
        time, end, limit = time_of(time), end_of(timeout), self.limit
        with Apart(lambda: self._own_link(within(end)), Breaks(limit, self.tries, end).rest) as apart:
            front = apart.run(lambda: until(time, end, limit))
        return reached(front, time, timeout, self.name)

    def changes(self, since: int) -> Changes:
        """Each change above a time, once, by time, table and key, as soon as it can be read:
        `for time, table, key, row in node.changes(5):`, over a connection of its own. Changes come late to a node, and
        connections break: it goes on with nothing missed or repeated. `TooOld`: the node was pruned beyond what was
        given. Other errors as of `wait`. The changes of a delta are in memory together; and what the node has above its
        resolved time comes with each delta, so a stream that lags far behind others makes each large."""
        return NodeChanges(self._own_link, Watch(since, self.limit, self.tries))

    def whole(self, part_bytes: Optional[int] = None) -> Fragment:
        """All that the node holds. More than 2^28 bytes of it are refused 2, but where it comes in chunks of so many
        bytes (version 2)."""
        if part_bytes is None:
            return super().whole()
        facts: List[Fact] = []
        head: Optional[FragmentHead] = None
        for part in self.parts(0, part_bytes):
            facts += part.facts
            head = part.head if isinstance(part, LastPart) else None
        assert head is not None  # the parts end with the last one, or with an error
        return head.with_facts(facts)

    def parts(self, base: int = 0, part_bytes: int = PART_BYTES) -> Iterator[AnyPart]:
        """What happened since a base, or all that is held since 0, in chunks of one moment, over a connection of its
        own: `later.Part`, and at last `later.LastPart` with the head. 46: the node gives no more bytes for chunks."""
        return parts_from(self._own_link, base, part_bytes)

    def take_parts(self, parts: Iterable[AnyPart]) -> int:
        """Takes what another node gives: `node.take_parts(other.parts())`. Nothing is taken before all chunks are
        there."""
        logs: List[int] = []

        def noted() -> Iterator[AnyPart]:
            for part in parts:
                if isinstance(part, LastPart):
                    logs.append(part.head.log)
                yield part

        try:
            return parts_to(self._own_link, noted())
        except Refused as refused:
            raise self._with_logs(refused, logs)

    def load(self, saved: Saved) -> Loaded:
        """Takes what `hkrep save` wrote: a file's name, or an open file of bytes. It goes over a connection of its own,
        a chunk at a time; a fragment is joined once its checksum was read and is right, and nothing of it where it is
        wrong (`Fault` 6). A file without checksums, as of --plain or of an earlier release, is taken too, with a
        warning."""
        return load(self._own_link, saved)

    def at(self, time: Optional[int] = None) -> "NodeMoment":
        """One moment: all questions at this time, or at the current resolved time."""
        return NodeMoment(self, self._latest() if time is None else time_of(time))

    def pipeline(self) -> "Pipeline":
        """Requests that are sent together: `with node.pipeline() as pipe:`, and `pipe.get(..).result()` behind the
        block."""
        return Pipeline(self)

    # ------------------------------------------------------------ the link

    def _exchange(self, requests: List[bytes]) -> List[bytes]:
        """The rests of the replies. Where the connection breaks, what was not replied is made again over a new one."""
        found: List[bytes] = []
        with self._lock:
            for left in range(self.tries - 1, -1, -1):
                try:
                    self._exchange_once(requests, found)
                    return found
                except (TimeLimit, Fault):
                    self._drop()
                    raise
                except LinkBroken:
                    self._drop()
                    if not left:
                        raise
                except BaseException:
                    self._drop()
                    raise
        return found

    def _exchange_once(self, requests: List[bytes], found: List[bytes]) -> None:
        if self._link is None:
            self._link = self._own_link()
        while len(found) < len(requests):
            part = requests[len(found) : len(found) + WINDOW]
            come: List[bytes] = []
            try:
                self._link.exchange(part[0] if len(part) == 1 else b"".join(part), len(part), come)
            finally:
                found += come
            if come and _ends_link(come[-1]):
                self._drop()
                if len(found) < len(requests):
                    raise LinkBroken(f"{self.name}: the node ended the connection")

    def _own_link(self, within: Optional[float] = None) -> Link:
        """Another connection, for what the node keeps for one; `within` is a time limit for it, where that is less than
        the node's."""
        wait, self._wait = self._wait, 0.0
        return Link(
            self.address, least_of(self.limit, within), min(wait, wait if within is None else within), self._security
        )

    def _drop(self) -> None:
        if self._link is not None:
            self._link.close()
            self._link = None

    def close(self) -> None:
        """Closes the connection, where one is open. The next request opens another."""
        with self._lock:
            self._drop()

    def __enter__(self: Own) -> Own:
        return self

    def __exit__(
        self, kind: Optional[Type[BaseException]], error: Optional[BaseException], trace: Optional[TracebackType]
    ) -> None:
        self.close()

    def __repr__(self) -> str:
        return f"Node({self.name!r})"


def _ends_link(rest: bytes) -> bool:
    """Whether a reply refuses malformed input (1 to 10), behind which the node ends the connection (2 may be that of a
    long reply, and then it goes on)."""
    return rest[1] == 36 and len(rest) > 2 and 1 <= rest[2] <= 10 and rest[2] != 2


class NodeMoment(Moment[Optional[Row], Rows_, int]):
    """Questions to a node at one time."""

    def __init__(self, node: Node, time: int) -> None:
        self.node, self.time = node, time

    def _read(self, query: Query, read: Read) -> Any:
        return self.node._read(self.time, query, read)

    def pipeline(self) -> "Pipeline":
        """Questions at this time that are sent together."""
        return Pipeline(self.node, self.time)

    def counts(self, tables: Iterable[int]) -> List[int]:
        """How many rows each of these tables has, asked together."""
        with self.pipeline() as pipe:
            laters = [pipe.count(table) for table in tables]
        return [later.result() for later in laters]

    def __enter__(self) -> "NodeMoment":
        return self

    def __exit__(self, *_: object) -> None:
        pass


class Pipeline(
    Requests[
        "Later[Optional[Row]]",
        "Later[Rows_]",
        "Later[int]",
        "Later[Front]",
        "Later[Fragment]",
        "Later[Streams]",
        "Later[Page]",
        "Later[Tuple[int, Optional[Row]]]",
        "Later[Tuple[int, Rows_]]",
        "Later[Tuple[int, int]]",
        "Later[Operations]",
        "Later[Stats]",
        "Later[List[int]]",
    ]
):
    """Requests that are sent together when the block is left, or by `run`. Each gives a `Later`; what a node refuses is
    raised by its `result`. Questions without a time are asked at the resolved time when the first of them is
    written."""

    def __init__(self, node: Node, time: Optional[int] = None) -> None:
        self.node, self.time = node, time
        self._requests: List[bytes] = []
        self._laters: List[Later[Any]] = []

    def _call(self, request: bytes, read: Read) -> Any:
        later: Later[Any] = Later(read)
        self._requests.append(request)
        self._laters.append(later)
        return later

    def _feed(self, body: bytes) -> Any:
        return self._call(*feeding(body, self.node._version or 1))

    def _read(self, at: Optional[int], query: Query, read: Read) -> Any:
        if at is None:
            if self.time is None:
                self.time = self.node._latest()
            at = self.time
        return self._call(ask_frame(at, query), read)

    def run(self) -> None:
        """Sends what was written since the last run, and takes the replies."""
        requests, laters = self._requests, self._laters
        self._requests, self._laters = [], []
        if requests:
            try:
                for later, rest in zip(laters, self.node._exchange(requests)):
                    later._rest = rest
                    self.node._version = version_seen(self.node._version, rest)
            except Exception as error:
                for later in laters:
                    later._error = error
                raise

    def __enter__(self) -> "Pipeline":
        return self

    def __exit__(
        self, kind: Optional[Type[BaseException]], error: Optional[BaseException], trace: Optional[TracebackType]
    ) -> None:
        if kind is None:
            self.run()
