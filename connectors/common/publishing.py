"""The publisher, over any engine: what `publish` does of each connector."""
from __future__ import annotations

import argparse
import collections
import gc
import os
import select
import time
from typing import Any, BinaryIO, Callable, Deque, Dict, Iterable, Iterator, List, Optional, Tuple, Type

from engine_log import Behind, EngineLog, Moved, Tail
from feeding import Fault, Patience, decode
from vadungsil.blocks import Block, Cutter, Framed, Line, in_blocks
from vadungsil.errors import Broken

MOST_EARLY = 2**28  # bytes of entries that wait for those before them

STATUSES = """status: 0 all frames are in ENGINE; 1 ENGINE refuses, or is set otherwise than was asked for; 2 the
log forks: ENGINE has another entry, or one that conflicts with this one; 3 entries lack, in the input, because ENGINE
lost its tail, or because they were deleted or never there, or messages in ENGINE are no blocks of the log, or it has
more streams; 4 the input is no log of this id and these streams; 64 the words of the command line."""


class Batch:
    """Frames that were given to the engine in one go, and of which not all blocks are kept yet."""

    def __init__(self, frames: List[Framed], blocks: List[Block], new: int, there: int, gone: int) -> None:
        self.frames = frames
        self.left = len(blocks) + 1  # blocks that aren't kept, and one until all are given to the engine
        self.counts = (new, len(blocks), there, gone)
        self.entries = range(blocks[0].first, blocks[-1].last + 1) if blocks else range(0)

    def last(self) -> int:
        """The greatest entry, or 0."""
        return max([one.first for one in self.frames if one.is_entry], default=0)


class Sending:
    """One stream on its way."""

    def __init__(self, tail: Tail) -> None:
        self.tail: Optional[Tail] = tail  # how far it will be, once all that is on its way is kept; None: look
        self.line = Line(tail.number, tail.marked)
        self.batches: Deque[Batch] = collections.deque()
        self.entries: Dict[int, bytes] = {}  # of these batches
        self.kept = 0  # the last entry that the engine acknowledged to this very publisher
        self.behind: Optional[float] = None  # since when the engine seems to have less

    def acknowledged(self, number: int) -> None:
        """One block more is kept, and `number` is its last entry."""
        self.kept, self.behind = number, None
        next(it for it in self.batches if it.left).left -= 1

    def finished(self) -> Iterator[Batch]:
        """Takes out the batches that are kept."""
        while self.batches and not self.batches[0].left:
            batch = self.batches.popleft()
            for number in batch.entries:
                del self.entries[number]
            yield batch

    def take_back(self) -> None:
        """What becomes of all that was on its way isn't reported any more: it is compared with what is there, as if it
        came only now."""
        self.tail = None
        frames = [one for batch in self.batches for one in batch.frames]
        self.line.put_back(frames)
        self.batches.clear()
        self.entries.clear()


class Publisher:
    def __init__(self, store: EngineLog, said: argparse.Namespace) -> None:
        self.store, self.said, self.patience = store, said, Patience("publish")
        store.say = lambda text: self.patience.say(text)
        self.passing: Tuple[Type[Exception], ...] = (Behind, *store.errors)
        self.sending: Dict[int, Sending] = {}
        self.added = self.there = self.gone = self.blocks = 0

    def kept_up(self, call: Callable[..., Any], *words: Any) -> Any:
        """A call of the engine, again and again while it is away."""
        while True:
            try:
                told = call(*words)
                self.patience.forget()
                return told
            except self.passing as error:
                if not isinstance(error, Behind) and not self.store.is_passing(error):
                    raise
                self.store.forget()
                self.take_back()
                self.patience.wait(error)

    def begin(self) -> None:
        """Makes what is needed to publish, and sees that it is this log's."""
        self.kept_up(self.store.prepare)
        self.kept_up(self.store.see_streams)

    def take_back(self) -> None:
        self.tell_kept()
        for it in self.sending.values():
            it.take_back()

    def put(self, frames: Iterable[Framed]) -> None:
        """Takes frames in, and appends what is ready of a stream once that is much."""
        log, most = self.store.log, max(self.store.at_once, self.said.block)
        for one in frames:
            it = self.sending.get(one.stream)
            if it is None or one.log != log:
                it = self.begun(one)
            line = it.line
            line.put(one)
            if line.size >= most:
                self.flush(one.stream)
            if line.early_size > MOST_EARLY:
                raise Broken(3, f"stream {one.stream}: {line.lacks()}")

    def begun(self, one: Framed) -> Sending:
        """The stream of a frame, which begins where the engine's ends."""
        if one.log != self.store.log or one.stream > self.store.streams:
            raise Broken(4, f"an item of log {one.log}, stream {one.stream}")
        self.sending[one.stream] = Sending(self.kept_up(self.store.tail, one.stream))
        return self.sending[one.stream]

    # ------------------------------------------------------------ appending

    def flush(self, stream: int) -> None:
        if self.sending[stream].line.ready:
            self.kept_up(self.append, stream)

    def append(self, stream: int) -> None:
        """Appends what is ready; again from a look at what is there where somebody else was quicker."""
        it = self.sending[stream]
        while it.line.ready:
            tail = it.tail or self.learn(stream, it)
            new, after, there, gone = self.store.checked(it.line.ready, tail, it.entries)
            blocks = in_blocks(new, tail.number, self.said.block)
            it.batches.append(Batch(it.line.taken(), blocks, len(new), there, gone))
            it.tail = None
            try:
                it.tail = after._replace(place=self.store.append(stream, tail.place, blocks, it.acknowledged))
                it.batches[-1].left -= 1
            except Moved:
                self.take_back()
        self.tell_kept()

    def tell_kept(self) -> None:
        for stream, it in self.sending.items():
            for batch in it.finished():
                new, blocks, there, gone = batch.counts
                self.added, self.blocks = self.added + new, self.blocks + blocks
                self.there, self.gone = self.there + there, self.gone + gone
                if self.said.confirm and batch.last():
                    print(f"kept {stream} {batch.last()}", flush=True)

    def settle(self) -> None:
        """Waits for what is on its way."""
        try:
            self.store.settle()
        except Moved:
            self.take_back()
        self.tell_kept()

    def learn(self, stream: int, it: Sending) -> Tail:
        """How far the stream is. Less than was acknowledged may come from a server that was cut off and doesn't know it
        yet: it is waited for."""
        tail = self.store.tail(stream)
        if tail.number < it.kept:
            it.behind = it.behind or time.monotonic()
            text = (
                f"stream {stream}: {it.kept} was acknowledged, and {self.store.engine} has entries to"
                f" {tail.number} only"
            )
            if time.monotonic() - it.behind > self.said.patience:
                raise Broken(
                    3, f"{text}: it lost its tail. Start again with the log from entry {tail.number + 1} at the latest"
                )
            raise Behind(text)
        it.behind = None
        return tail

    def leave(self) -> None:
        """Before an end that nothing can fix: reports what is kept by now."""
        may_fail: Tuple[Type[Exception], ...] = (Moved, *self.store.errors)
        try:
            self.store.settle()
        except may_fail:
            pass
        self.tell_kept()

    def flush_all(self) -> None:
        """Until all that came is kept."""
        while any(it.line.ready or it.batches for it in self.sending.values()):
            for stream in self.sending:
                self.flush(stream)
            self.kept_up(self.settle)

    # ------------------------------------------------------------ the input

    def run(self, source: BinaryIO) -> None:
        """Publishes what comes, and what is there whenever no more has come yet."""
        cutter = Cutter()
        for piece in pieces(source):
            frames = cutter.cut(piece)
            self.put(frames if self.said.heads else read_whole(frames))
            if not has_more(source):
                self.flush_all()
        self.flush_all()
        cutter.finish()

    def end(self) -> None:
        self.flush_all()
        lacking = [f"stream {stream}: {it.line.lacks()}" for stream, it in self.sending.items() if it.line.lacks()]
        if lacking:
            raise Broken(3, "; ".join(lacking))

    def told(self) -> str:
        gone = f", {self.gone} not compared, as {self.store.engine} no longer has them" if self.gone else ""
        return f"{self.added} frames added in {self.blocks} blocks, {self.there} were there{gone}"


def read_whole(frames: Iterable[Framed]) -> Iterator[Framed]:
    for one in frames:
        decode(one.frame)
        yield one


def pieces(source: BinaryIO) -> Iterator[bytes]:
    while piece := os.read(source.fileno(), 1 << 18):
        yield piece


def has_more(source: BinaryIO) -> bool:
    return bool(select.select([source], [], [], 0)[0])


def add_publish_words(words: argparse.ArgumentParser, store: Type[EngineLog]) -> None:
    words.add_argument(
        "--confirm", action="store_true", help="say on standard output what is kept, as `kept STREAM NUMBER`"
    )
    words.add_argument(
        "--heads",
        action="store_true",
        help=(
            "look at the heads of the frames alone, and not at their lists: quicker, for a "
            "primary that is trusted to write frames"
        ),
    )
    words.add_argument(
        "--block",
        type=int,
        default=store.block_bytes,
        metavar="BYTES",
        help=f"how much one message has at most, but for a frame that is larger ({store.block_bytes})",
    )
    words.add_argument(
        "--patience",
        type=float,
        default=60,
        metavar="SECONDS",
        help="how long less than was acknowledged is waited for (60)",
    )
    words.add_argument("files", nargs="*", metavar="FILE", help="item frames; without one, standard input")


def publish(store: EngineLog, said: argparse.Namespace, words: argparse.ArgumentParser) -> int:
    """All of it: the status."""
    if said.block < 1:
        words.error("--block is at least 1")
    publisher = Publisher(store, said)
    gc.set_threshold(50_000)  # it looks at all frames on their way again and again, and these are never in a cycle
    may_fail: Tuple[Type[Exception], ...] = (*store.errors, OSError)
    try:
        publisher.begin()
        for file in said.files or [""]:
            with open(file, "rb", buffering=0) if file else os.fdopen(os.dup(0), "rb", buffering=0) as source:
                publisher.run(source)
        publisher.end()
    except (Broken, Fault) as broken:
        publisher.leave()
        publisher.patience.say(str(broken))
        return broken.status if isinstance(broken, Broken) else 4
    except may_fail as error:
        publisher.patience.say(f"{type(error).__name__}: {error}")
        return 1
    publisher.patience.say(publisher.told())
    return 0
