"""A node for asyncio. Tasks may share it: their requests are pipelined over one connection."""
from __future__ import annotations

import asyncio
import contextlib
import errno
import os
import socket
import ssl
from collections import deque
from typing import Any, AsyncIterator, Awaitable, Callable, Deque, Iterable, List, Optional, Set, Tuple

from .address import Address, place_of
from .changes import Change, Watch
from .errors import Fault, LinkBroken, Refused, TimeLimit, VadungsilError
from .link import (
    NOBODY,
    PAUSE,
    Certificates,
    is_joined_with_itself,
    no_connection,
    no_length,
    security_of,
    too_late,
)
from .messages import MOST_MESSAGE, encode_request
from .node import _ends_link
from .requests import (
    Moment,
    Read,
    Requests,
    ask_frame,
    feeding,
    latest_in,
    logs_of,
    other_log,
    read_done,
    value_of,
    version_seen,
)
from .stats import Stats
from .transfer import least_of
from .later_values import (
    Page,
    Streams,
)
from .values import (
    LAST_TIME,
    Fragment,
    Front,
    KeyRow,
    Operations,
    Query,
    Row,
    Stream,
    number_in,
    time_of,
)
from .waiting import Asked, Breaks, Result, Steps, end_of, reached, until


class _AsyncLink:
    """One connection; a task of its own takes the replies, in the order of the requests."""

    def __init__(self, name: str, reader: asyncio.StreamReader, writer: asyncio.StreamWriter) -> None:
        self.name, self.reader, self.writer = name, reader, writer
        self.waiting: Deque["asyncio.Future[bytes]"] = deque()
        self.is_open, self.has_replied = True, False
        self.task = asyncio.ensure_future(self._take())

    async def _take(self) -> None:
        error: Exception = LinkBroken(f"{self.name}: the node ended the connection")
        if (
            self.writer.get_extra_info("sslcontext") is not None
        ):  # why isn't always known: a write that fails may come first
            error = LinkBroken(f"{self.name}: the connection ended, and our certificate may not be taken there")
        try:
            while True:
                head = await self.reader.readexactly(4)
                size = int.from_bytes(head, "big")
                if not 2 <= size <= MOST_MESSAGE:
                    raise no_length(self.name, head + await self._said())
                rest = await self.reader.readexactly(size)
                self.has_replied = True
                if not self.waiting:
                    raise Fault(4, place=f"{self.name}, a reply that nobody asked for")
                future = self.waiting.popleft()
                if not future.done():
                    future.set_result(rest)
                if _ends_link(rest):
                    break
        except Fault as fault:
            error = fault
        except ssl.SSLError as refused:
            error = LinkBroken(f"{self.name}: {refused}")
            with contextlib.suppress(OSError):  # the stream keeps it too, and says so at its end where nobody asked
                await self.writer.wait_closed()
        except (OSError, asyncio.IncompleteReadError, asyncio.CancelledError):
            pass
        self.close(error)

    async def _said(self) -> bytes:
        """What comes behind four bytes that are no node's, to show it."""
        with contextlib.suppress(OSError, asyncio.TimeoutError):
            return await asyncio.wait_for(self.reader.read(200), 1.0)
        return b""

    def close(self, error: Optional[Exception] = None) -> None:
        self.is_open = False
        self.writer.close()
        self.task.cancel()
        while self.waiting:
            future = self.waiting.popleft()
            if not future.done():
                future.set_exception(error or LinkBroken(f"{self.name}: the connection was closed"))


class AsyncNode(
    Requests[
        Awaitable[Optional[Row]],
        Awaitable[List[KeyRow]],
        Awaitable[int],
        Awaitable[Front],
        Awaitable[Fragment],
        Awaitable[Streams],
        Awaitable[Page],
        Awaitable[Tuple[int, Optional[Row]]],
        Awaitable[Tuple[int, List[KeyRow]]],
        Awaitable[Tuple[int, int]],
        Awaitable[Operations],
        Awaitable[Stats],
        Awaitable[List[int]],
    ]
):
    """As `Node`, with awaitable answers: `async with AsyncNode(7420) as node:`, `await node.get(1, 5)`.
    `asyncio.gather` of many questions is a pipeline. `limit` is the most seconds from a request to its reply; past it
    the connection is closed."""

    def __init__(
        self,
        address: Optional[Address] = None,
        limit: Optional[float] = 20.0,
        tries: int = 2,
        wait: float = 3.0,
        *,
        ca: Optional[str] = None,
        cert: Optional[str] = None,
        key: Optional[str] = None,
        messages: Optional[int] = None,
    ) -> None:
        certificates, self.address = Certificates(ca, cert, key), place_of(address)
        certificates.see([self.address])
        self._told = self._version = None if messages is None else number_in(messages, 1, 2, "messages")
        self.limit, self.tries, self._wait = limit, max(tries, 1), wait
        self._security = security_of(self.address, certificates)
        self._link: Optional[_AsyncLink] = None
        self._opening: Optional[asyncio.Lock] = None
        self._apart: Set[_AsyncApart] = set()

    @property
    def name(self) -> str:
        return self.address.name

    async def _call(self, request: bytes, read: Read) -> Any:
        for left in range(self.tries - 1, -1, -1):
            try:
                rest = await self._exchange(request)
                self._version = version_seen(self._version, rest)
                return read(rest)
            except TimeLimit:
                raise
            except LinkBroken:
                if not left:
                    raise

    async def _feed(self, body: bytes) -> Any:
        version = self._version or 1
        try:
            return await self._call(*feeding(body, version))
        except Refused as refused:
            if (refused.number, version) == (3, 2):  # it may have been started anew, and reads version 1 alone
                self._version = self._told
            raise await self._with_logs(refused, logs_of(body))

    async def _give(self, fragment: Fragment, request: bytes) -> Any:
        try:
            return await self._call(request, read_done)
        except Refused as refused:
            raise await self._with_logs(refused, [fragment.log])

    async def _with_logs(self, refused: Refused, given: Iterable[int]) -> Refused:
        """The same; where it is 20, with both logs: the node is asked for its own."""
        if refused.number == 20:
            with contextlib.suppress(VadungsilError):
                refused.place = other_log(self.name, (await self.delta(LAST_TIME)).log, given)
        return refused

    async def _read(self, at: Optional[int], query: Query, read: Read) -> Any:
        time = latest_in(await self.front(), self.name) if at is None else at
        return await self._call(ask_frame(time, query), read)

    async def _exchange(self, request: bytes) -> bytes:
        return await self._exchange_over(self._opened, request, self.limit)

    async def _exchange_over(
        self, opened: Callable[[], Awaitable[_AsyncLink]], request: bytes, limit: Optional[float]
    ) -> bytes:
        link: Optional[_AsyncLink] = None
        try:
            link = await asyncio.wait_for(opened(), limit)
            if not link.is_open:  # it ended while it was handed out, and nobody would take a reply from it
                raise LinkBroken(f"{self.name}: the node ended the connection")
            future: "asyncio.Future[bytes]" = asyncio.get_running_loop().create_future()
            link.waiting.append(future)
            link.writer.write(request)
            return await asyncio.wait_for(self._sent(link, future), limit)
        except asyncio.TimeoutError:
            if link is not None:
                link.close()
            raise too_late(self.name, limit, link is not None, link is not None and link.has_replied) from None
        except OSError as error:
            if link is None:
                raise no_connection(self.name, error) from error
            link.close()
            raise LinkBroken(f"{self.name}: {error}") from error

    @staticmethod
    async def _sent(link: _AsyncLink, future: "asyncio.Future[bytes]") -> bytes:
        with contextlib.suppress(OSError):  # why the connection ended is reported by what reads from it
            await link.writer.drain()
        return await future

    async def _connected(self) -> Tuple[asyncio.StreamReader, asyncio.StreamWriter]:
        """A connection; the first is tried again while nobody listens."""
        until, self._wait = asyncio.get_running_loop().time() + self._wait, 0.0
        while True:
            try:
                return await self._connected_once()
            except NOBODY:
                if asyncio.get_running_loop().time() >= until:
                    raise
                await asyncio.sleep(PAUSE)

    async def _connected_once(self) -> Tuple[asyncio.StreamReader, asyncio.StreamWriter]:
        place = self.address
        if place.path:
            return await asyncio.open_unix_connection(place.path, limit=2**20)
        try:
            reader, writer = await asyncio.open_connection(place.host, place.port, limit=2**20, ssl=self._security)
        except OSError as error:
            if error.errno is None and f"[Errno {errno.ECONNREFUSED}]" in str(error):  # by each address of the name
                raise ConnectionRefusedError(errno.ECONNREFUSED, os.strerror(errno.ECONNREFUSED)) from error
            raise
        if self._security is None and is_joined_with_itself(writer.get_extra_info("socket")):
            writer.close()
            raise ConnectionRefusedError(errno.ECONNREFUSED, os.strerror(errno.ECONNREFUSED))
        writer.get_extra_info("socket").setsockopt(socket.IPPROTO_TCP, socket.TCP_NODELAY, 1)
        return reader, writer

    async def _opened(self) -> _AsyncLink:
        if self._opening is None:
            self._opening = asyncio.Lock()
        async with self._opening:
            if self._link is None or not self._link.is_open:
                self._link = _AsyncLink(self.name, *await self._connected())
            return self._link

    async def wait(self, time: int, timeout: Optional[float] = None) -> Front:
        """As `Node.wait`: waits until a time can be read, over a connection of its own, and returns the front then."""
        time, end, limit = time_of(time), end_of(timeout), self.limit
        async with _AsyncApart(self, Breaks(limit, self.tries, end).rest) as apart:
            front = await apart.run(lambda: until(time, end, limit))
        return reached(front, time, timeout, self.name)

    def changes(self, since: int) -> "AsyncChanges":
        """As `Node.changes`: `async for change in node.changes(5):`."""
        return AsyncChanges(self, Watch(since, self.limit, self.tries))

    async def streams(self) -> Tuple[Stream, ...]:
        """How far each stream is, by a delta since the last time of all, which has no facts."""
        return (await self.delta(LAST_TIME)).streams

    def at(self, time: Optional[int] = None) -> "AsyncMoment":
        """`async with node.at() as moment:` reads one moment: this time, or the resolved time when the block is
        entered."""
        return AsyncMoment(self, time)

    async def close(self) -> None:
        """Closes the connections, those of waits and of changes too. The next request opens another."""
        for apart in list(self._apart):
            await apart.close()
        if self._link is not None:
            self._link.close()
            await asyncio.gather(self._link.task, return_exceptions=True)
            self._link = None

    async def __aenter__(self) -> "AsyncNode":
        return self

    async def __aexit__(self, *_: object) -> None:
        await self.close()


class _AsyncApart:
    """As `waiting.Apart`: a connection of its own to a node, for who waits."""

    def __init__(self, node: AsyncNode, rest: Callable[[BaseException, bool], float]) -> None:
        self._node, self._rest, self._is_closed = node, rest, False
        self._link: Optional[_AsyncLink] = None

    async def run(self, steps: Callable[[], Steps[Result]]) -> Result:
        """What comes of steps, which begin anew over each connection, but not where another task closes it."""
        self._is_closed = False
        while True:
            try:
                return await self._run_once(steps())
            except BaseException as error:  # pylint: disable=broad-except
                if self._is_closed:
                    raise
                has_replied = self._link is not None and self._link.has_replied
                self._drop()
                rest = self._rest(error, has_replied)
            await asyncio.sleep(rest)

    async def _run_once(self, steps: Steps[Result]) -> Result:
        came: Any = None
        while True:
            try:
                step = steps.send(came)
            except StopIteration as end:
                result: Result = end.value
                return result
            if isinstance(step, float):
                await asyncio.sleep(step)
                came = None
            else:
                came = await self._ask(step)

    async def _ask(self, asked: Asked) -> Any:
        limit = least_of(self._node.limit, asked.within)
        rest = await self._node._exchange_over(self._opened, encode_request(asked.request), limit)
        return value_of(rest, *asked.kinds, latest=2)

    async def _opened(self) -> _AsyncLink:
        if self._link is None:
            self._link = _AsyncLink(self._node.name, *await self._node._connected())
            self._node._apart.add(self)
        return self._link

    def _drop(self) -> Optional[_AsyncLink]:
        self._node._apart.discard(self)
        link, self._link = self._link, None
        if link is not None:
            link.close()
        return link

    async def close(self) -> None:
        self._is_closed = True
        link = self._drop()
        if link is not None:
            await asyncio.gather(link.task, return_exceptions=True)

    async def __aenter__(self) -> "_AsyncApart":
        return self

    async def __aexit__(self, *_: object) -> None:
        await self.close()


class AsyncChanges(AsyncIterator[Change]):
    """As `Changes`: the changes above a time, each once. `async with node.changes(5) as changes:` closes its connection
    where the loop over it is left early; so does the end of its node."""

    def __init__(self, node: AsyncNode, watch: Watch) -> None:
        self._watch, self._apart = watch, _AsyncApart(node, watch.rest)

    @property
    def time(self) -> int:
        """All changes up to this time were given."""
        return self._watch.time

    async def __anext__(self) -> Change:
        if self._watch.is_waiting():
            await self._apart.run(self._watch.steps)
        if self._watch.is_over():
            raise StopAsyncIteration
        return self._watch.kept.popleft()

    async def close(self) -> None:
        """Closes its connection. The next change opens another."""
        await self._apart.close()

    async def __aenter__(self) -> "AsyncChanges":
        return self

    async def __aexit__(self, *_: object) -> None:
        await self.close()


class AsyncMoment(Moment[Awaitable[Optional[Row]], Awaitable[List[KeyRow]], Awaitable[int]]):
    """Questions to a node at one time."""

    def __init__(self, node: AsyncNode, time: Optional[int]) -> None:
        self.node, self._wanted = node, time
        if time is not None:
            self.time = time_of(time)

    def _read(self, query: Query, read: Read) -> Any:
        return self.node._call(ask_frame(self.time, query), read)

    async def __aenter__(self) -> "AsyncMoment":
        if self._wanted is None:
            self.time = latest_in(await self.node.front(), self.node.name)
        return self

    async def __aexit__(self, *_: object) -> None:
        pass
