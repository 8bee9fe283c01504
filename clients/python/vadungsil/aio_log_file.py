"""A log in a file for asyncio. Standard library only."""
from __future__ import annotations

import asyncio
from functools import partial
from typing import Any, Callable, Iterable, List, Optional, Union

from .address import Address
from .identity import Identity, Term
from .log_file import LogFile, Path, Waiting
from .values import Entry, Item, Mark, Written
from .writer import Clock, Place, Transaction


class AsyncLogFile:
    """`LogFile` for asyncio: `async with AsyncLogFile("orders.log", 7) as log:`, or `await AsyncLogFile(..).open()`.
    Its words and what each `sync` promises are those of `LogFile`, and so are the errors. The file is opened, read,
    written and synced in threads: no other task waits for the disk. With `sync="each"` commits of tasks side by side
    share an fdatasync, and each returns once its own entry is on the disk. A commit that is cancelled may stay."""

    def __init__(
        self,
        path: Path,
        log: int,
        streams: int = 1,
        *,
        clock: Clock = True,
        sync: str = "each",
        beat_seconds: Optional[float] = None,
        identity: Union[None, str, bytes] = "new",
        trust: bool = False,
    ) -> None:
        words = {"clock": clock, "sync": sync, "beat_seconds": beat_seconds, "identity": identity, "trust": trust}
        self._open: Callable[[], LogFile] = partial(LogFile, path, log, streams, **words)
        self._file: Optional[LogFile] = None

    async def open(self) -> "AsyncLogFile":
        """Opens the file, once. Errors of `LogFile`."""
        if self._file is None:
            opening = asyncio.get_running_loop().run_in_executor(None, self._open)
            try:
                self._file = await asyncio.shield(opening)
            except asyncio.CancelledError:
                opening.add_done_callback(_given_up)
                raise
            self._turn = asyncio.Lock()
        return self

    @property
    def file(self) -> LogFile:
        """What it stands on, once it is open (`ValueError` before)."""
        if self._file is None:
            raise ValueError("the log isn't open yet: `async with`, or await its open()")
        return self._file

    # ------------------------------------------------------------ writing

    async def commit(
        self, puts: Iterable[Written] = (), removes: Iterable[Place] = (), stream: int = 1, time: Optional[int] = None
    ) -> Optional[Entry]:
        """As `LogFile.commit`."""
        file, put, gone = self.file, list(puts), list(removes)
        it = file._add(lambda: file._made(put, gone, stream, time))
        return None if it is None else await self._settled(it)

    def transaction(self, stream: int = 1, time: Optional[int] = None) -> "AsyncTransaction":
        """`async with log.transaction() as it:`, and `it.entry` behind the block."""
        return AsyncTransaction(self, stream, time)

    async def beat(self, table: int, key: int, tag: int = 0, stream: Optional[int] = None) -> List[Item]:
        """As `LogFile.beat`."""
        file = self.file
        it = file._add(lambda: file._made_beat(table, key, tag, stream))
        assert it is not None
        entry = await self._settled(it)
        return [entry, Mark(entry.log, 1, entry.number, entry.time)]

    async def retire(self, stream: int) -> Mark:
        """As `LogFile.retire`."""
        return await asyncio.to_thread(self.file.retire, stream)

    async def flush(self) -> None:
        """As `LogFile.flush`."""
        await asyncio.to_thread(self.file.flush)

    async def fork(self, path: Path, log: int) -> None:
        """As `LogFile.fork`."""
        await asyncio.to_thread(self.file.fork, path, log)

    async def compact(self, before: int, nodes: Iterable[Address] = ()) -> int:
        """As `LogFile.compact`."""
        return await asyncio.to_thread(self.file.compact, before, list(nodes))

    async def close(self) -> None:
        """As `LogFile.close`. Of one that was never opened nothing is closed."""
        if self._file is not None:
            await asyncio.to_thread(self._file.close)

    async def __aenter__(self) -> "AsyncLogFile":
        return await self.open()

    async def __aexit__(self, *of: Any) -> None:
        await asyncio.to_thread(self.file.__exit__, *of)

    # ------------------------------------------------------------ what is kept

    @property
    def time(self) -> int:
        """The time of the last commit."""
        return self.file.time

    @property
    def identity(self) -> Optional[Identity]:
        return self.file.identity

    @property
    def term(self) -> Optional[Term]:
        return self.file.term

    def marks(self) -> List[Mark]:
        """As `LogFile.marks`."""
        return self.file.marks()

    def born(self, table: int, key: int) -> Optional[int]:
        """As `LogFile.born`."""
        return self.file.born(table, key)

    def number(self, stream: int) -> int:
        """As `LogFile.number`."""
        return self.file.number(stream)

    # ------------------------------------------------------------ parts

    async def _settled(self, it: Waiting) -> Entry:
        """The entry, once what `sync` promises is so: one task at a time has all written that waits."""
        file = self.file
        if file._is_soon():
            file._settle(it)
        else:
            async with self._turn:
                if not it.is_done:
                    await asyncio.to_thread(file._settle, it)
        file._raise(it.error)
        assert isinstance(it.item, Entry)
        return it.item


class AsyncTransaction(Transaction):
    """Writes that are committed when the block is left, and dropped where it raises."""

    def __init__(self, log: AsyncLogFile, stream: int, time: Optional[int]) -> None:
        super().__init__(log.file, stream, time)
        self.log = log

    async def __aenter__(self) -> "AsyncTransaction":
        return self

    async def __aexit__(self, kind: Any, *_: object) -> None:
        if kind is None:
            self.entry = await self.log.commit(self.puts, self.removes, self.stream, self.time)


def _given_up(opening: "asyncio.Future[LogFile]") -> None:
    """What was opened for nobody is closed."""
    if not opening.cancelled() and opening.exception() is None:
        opening.result().close()
