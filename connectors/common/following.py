"""The follower, over any engine: what `follow` does of each connector. It keeps no cursor: at its start, and after each
connection that broke, it asks its node how far each stream is, and reads from there. Of several nodes each has a
thread, which waits for no other."""
from __future__ import annotations

import argparse
import queue
import threading
import time
from typing import Any, Callable, Dict, List, NamedTuple, Optional, Tuple, Type

from engine_log import Behind, EngineLog, Missing, Reading
from feeding import (
    ELSE,
    Certificates,
    Fault,
    Feed,
    LinkBroken,
    Patience,
    Refused,
    add_node_words,
    address,
    node_certificates,
    place_of,
    usual,
)
from sharing import SharedReading, Window
from vadungsil.blocks import Block, entries_of
from vadungsil.errors import Broken
from vadungsil.node import Node

STATUSES = """status: 0 as far as was asked for; 1 a failure, with --once, or ENGINE refuses; 2 the log forks:
ENGINE has another entry than a node was fed, or two of one number; 3 entries lack that ENGINE had, or its messages are
no blocks of the log, or it has more streams; 4 a node refuses the items; 64 the words of the command line."""


MOST_A_STREAM = 256
# how many seconds a node has for each step: to be connected to, to take what is sent, to reply
STEP_SECONDS = 2.0
# how many seconds of pause a node gets at most that fails again and again, and an engine; and how often a refusal that
# goes on is said
NODE_PAUSE, ENGINE_PAUSE, SAID_EACH = 30.0, 5.0, 60.0


class SourceAway(Exception):
    """The node at --from can't be asked now."""


class Fed:
    """A node that is fed, over one connection while it and this program live."""

    def __init__(self, address: str, ahead: int, certificates: Certificates = Certificates()) -> None:
        self.address, self.ahead, self.certificates = address, ahead, certificates
        self.feed: Optional[Feed] = None
        self.prefixes: Dict[int, int] = {}  # what it had when it was last asked
        self.sent: Dict[int, Any] = {}  # the last place of each stream that went over this link

    def link(self) -> Feed:
        if self.feed is None:
            feed = Feed(self.address, STEP_SECONDS, self.ahead, self.certificates)
            self.feed, self.sent = feed, {}
        return self.feed

    def unlink(self) -> None:
        if self.feed is not None:
            self.feed.close()
        self.feed = None

    def learn(self, log: int, streams: int) -> None:
        told = self.link().streams(log)
        if len(told) != streams:
            raise Broken(4, f"the node has {len(told)} streams, and not {streams}")
        self.prefixes = {stream: it.prefix for stream, it in enumerate(told, 1)}

    def send(self, found: List[Tuple[int, Any, Block]], name: str) -> None:
        """Sends of these blocks what it lacks: the one that has its last entry comes again, for the marks behind
        that."""
        blocks = []
        for stream, place, block in found:
            if block.last >= self.prefixes[stream] and (stream not in self.sent or place > self.sent[stream]):
                blocks.append(block)
                self.sent[stream] = place
        blocks.sort(key=lambda it: it.latest)  # those of one time together: what is fed can be read the sooner
        self.link().send_blocks(blocks, name)

    def fill(self, source: str) -> str:
        """Has it take what another node knows since what this one can read, else all of it: in chunks, where both nodes
        read messages of version 2, else in one message, which has at most 2^28 bytes."""
        feed = self.link()
        readable = feed.front().readable
        try:
            with self.node(source) as other, self.node(self.address) as own:
                try:
                    own.take_parts(other.parts(readable))
                except Refused as refused:
                    if refused.number == 3:
                        return self.join(source, readable)
                    own.take_parts(other.parts(0))
            return f"joined the chunks of the node at {source}; {feed.front().line()}"
        except LinkBroken as error:
            raise SourceAway(str(error)) from error
        except Refused as refused:
            raise refused.at(f"what the node at {source} gives")

    def node(self, address: str) -> Node:
        place = place_of(address)
        return Node(place, limit=60, **self.certificates.of(place)._asdict())

    def join(self, source: str, readable: int) -> str:
        other = Feed(source, certificates=self.certificates)
        try:
            body = other.facts_since(readable)
        finally:
            other.close()
        self.link().join_facts(body)
        return f"joined {len(body)} bytes of the node at {source}; {self.link().front().line()}"


class Follower:
    """Feeds one node. What it reads it shares with others, where there is a window."""

    def __init__(self, store: EngineLog, said: argparse.Namespace, node: str, window: Optional[Window] = None) -> None:
        self.store, self.said, self.window = store, said, window
        self.patience, self.node_patience = Patience("follow", ENGINE_PAUSE), Patience("follow", NODE_PAUSE)
        self.store.say = self.patience.say
        self.passing: Tuple[Type[Exception], ...] = (SourceAway, LinkBroken, Refused, *store.errors)
        self.streams: List[int] = said.only or list(range(1, store.streams + 1))
        self.node = Fed(node, said.ahead, node_certificates(said))
        self.refusals = Refusals(self.patience)
        self.reading: Optional[Reading] = None  # None: ask the node
        self.numbers: Dict[int, int] = {}  # the last entry of each stream that was read
        self.fed: Dict[int, Block] = {}  # the last block with entries of each stream that was sent
        self.before: Dict[int, Block] = {}  # the last block of each stream that this reading gave
        self.behind: Dict[int, float] = {}  # since when the engine seems to have less than the node
        self.lacked: Dict[
            int, Tuple[int, int]
        ] = {}  # what was missing in the middle of a stream, and is asked of --from
        self.heard = time.monotonic()
        self.frames = self.size = self.blocks = 0

    # ------------------------------------------------------------ where to begin

    def begin(self) -> None:
        """Reads from what the node has; where the engine lacks what comes next, after the node has joined what another
        one knows."""
        self.node.learn(self.store.log, self.store.streams)
        self.store.see_streams()
        self.see_no_fork()
        self.see_no_loss()
        lacking = self.lacking()
        if lacking or any(self.node.prefixes[stream] < high for stream, (_, high) in self.lacked.items()):
            if not self.said.source:
                raise Missing(self.store.engine, lacking)
            self.patience.say(self.node.fill(self.said.source))
            self.node.learn(self.store.log, self.store.streams)
            lacking = self.lacking()
            if lacking:
                raise Missing(self.store.engine, lacking)
        self.numbers = {stream: self.node.prefixes[stream] for stream in self.streams}
        self.before.clear()
        self.reading = self.new_reading()

    def new_reading(self) -> Reading:
        if self.window is None:
            return self.store.reading(self.numbers, self.said.batch)
        return SharedReading(self.window, self.store, self.numbers, self.said.batch)

    def lacking(self) -> Dict[int, Tuple[int, int]]:
        lacking = {}
        for stream in self.streams:
            first = self.store.first(stream)
            if first > self.node.prefixes[stream] + 1:
                lacking[stream] = (self.node.prefixes[stream] + 1, first - 1)
        return lacking

    def see_no_fork(self) -> None:
        """After each new look at the engine: the last entry that was sent is still the one. Its block may be another,
        where a lost tail was published again."""
        for stream, fed in self.fed.items():
            block = self.store.holding(stream, fed.last)
            there = entries_of(block.data).get(fed.last) if block is not None else None
            if there is not None and there != entries_of(fed.data)[fed.last]:
                raise Broken(
                    2,
                    (
                        f"stream {stream}: the log forks: entry {fed.last} in {self.store.engine} is another than the"
                        " one that was fed"
                    ),
                )

    def see_no_loss(self) -> None:
        """The engine has all that the node has. Where it doesn't for so long as --patience says, it lost its tail."""
        for stream in self.streams:
            last = self.store.last(stream)
            if last >= self.node.prefixes[stream]:
                self.behind.pop(stream, None)
                continue
            self.store.tail(stream)  # says so where it only ends with a repeat
            text = (
                f"stream {stream}: the node at {self.node.address} has entries to {self.node.prefixes[stream]}, and"
                f" {self.store.engine} to {last} only"
            )
            if time.monotonic() - self.behind.setdefault(stream, time.monotonic()) > self.said.patience:
                raise Broken(
                    3,
                    (
                        f"{text}: it lost its tail after the node was fed, and what comes under these numbers may be"
                        " other entries"
                    ),
                )
            raise Behind(text)

    # ------------------------------------------------------------ going on

    def step(self) -> bool:
        """Reads once, and sends it on. False where nothing has come."""
        if self.reading is None:
            self.begin()
        assert self.reading is not None
        found = self.reading.read(self.said.block / 1000)
        for stream, _, block in found:
            if block.first > self.numbers[stream] + 1:
                raise Missing(self.store.engine, {stream: (self.numbers[stream] + 1, block.first - 1)})
            self.see_next(stream, block)
            self.numbers[stream] = max(self.numbers[stream], block.last)
        name = ", ".join(f"stream {stream} to {self.numbers[stream]}" for stream in sorted({it[0] for it in found}))
        if found:
            self.node.send(found, name)
        elif self.node.feed is not None and self.node.feed.waiting:
            self.node.feed.drain()
        self.fed.update({stream: block for stream, _, block in found if block.last >= block.first})
        self.blocks, self.frames = self.blocks + len(found), self.frames + sum(it[2].frames for it in found)
        self.size += sum(len(it[2].data) for it in found)
        return bool(found)

    def see_next(self, stream: int, block: Block) -> None:
        """A block goes on behind the one that was read before it (2, 3)."""
        before = self.before.get(stream)
        if before is not None:
            self.store.see_next(stream, before, block)
            block = block if block.latest >= before.latest else block._replace(latest=before.latest)
        self.before[stream] = block

    def is_done(self, moved: bool) -> bool:
        """Whether that was all that was asked for. A silent connection is looked at once a second, for a node that is
        gone says nothing."""
        if moved:
            return False
        if self.said.until or time.monotonic() - self.heard > 1:
            self.heard = time.monotonic()
            readable = self.node.link().front().readable
            if self.said.until and readable >= self.said.until:
                return True
        return bool(self.said.once and self.reading and self.reading.has_all())

    def run(self) -> None:
        while True:
            try:
                moved = self.step()
                if self.is_done(moved):
                    return
                self.patience.forget()
                self.node_patience.forget()
                self.refusals.forget()
            except Missing as missing:
                # trimmed or deleted under this very reader: from the node's state once more, and by --from if need be
                if self.reading is None or not self.said.source or missing.lacking == self.lacked:
                    raise
                self.reading, self.lacked = None, missing.lacking
            except Behind as error:
                self.look_anew()
                self.patience.wait(error)
            except Broken as broken:
                if self.window is None or broken.status != 4 or self.said.once:
                    raise
                self.refused_again(broken)
            except self.passing as error:
                self.again(error)

    def again(self, error: BaseException) -> None:
        """Waits, where a later try may go well; a node that refuses what others take is tried again too."""
        is_passing = isinstance(error, (SourceAway, LinkBroken)) or (isinstance(error, Refused) and error.number == 90)
        if isinstance(error, self.store.errors):
            is_passing = self.store.is_passing(error)
            self.look_anew()
        is_refusal = isinstance(error, Refused) and not is_passing and self.window is not None
        if self.said.once or not (is_passing or is_refusal):
            raise error
        if is_refusal:
            self.refused_again(error)
            return
        if isinstance(error, (LinkBroken, Refused)):
            self.node.unlink()
        self.reading = None
        (self.node_patience if isinstance(error, LinkBroken) else self.patience).wait(error)

    def refused_again(self, error: BaseException) -> None:
        """Says what a node refuses that others may take, and begins with it anew after a while."""
        self.refusals.say(f"the node at {self.node.address} refuses: {error}")
        self.node.unlink()
        self.reading = None
        self.node_patience.pause_on()

    def look_anew(self) -> None:
        """Gives up the connection to the engine, and what was thought of it: what comes at the places of before may be
        other blocks."""
        self.store.forget()
        self.reading = None
        self.node.sent.clear()

    def summary(self) -> str:
        return f"{self.frames} frames in {self.blocks} blocks, {self.size} bytes"


class Refusals:
    """What a node refuses again and again is said once, and then once a minute with how often it was."""

    def __init__(self, patience: Patience) -> None:
        self.patience, self.text, self.count, self.said = patience, "", 0, 0.0

    def say(self, text: str) -> None:
        self.count = self.count + 1 if text == self.text else 1
        if text != self.text:
            self.patience.say(f"{text}; trying again")
            self.text, self.said = text, time.monotonic()
        elif time.monotonic() - self.said > SAID_EACH:
            self.patience.say(f"{text} ({self.count} times); trying again")
            self.said = time.monotonic()

    def forget(self) -> None:
        self.text, self.count = "", 0


def streams_of(text: str) -> List[int]:
    streams = sorted({int(word) for word in text.split(",")})
    if not streams or streams[0] < 1:
        raise ValueError
    return streams


def add_follow_words(words: argparse.ArgumentParser, engine: str) -> None:
    add_node_words(
        words,
        (
            "a node's first port; as often as wanted: each block is then read once for those that are near one another,"
            f" and none waits for another; {ELSE}"
        ),
        default=[],
    )
    words.add_argument(
        "--from", dest="source", type=address, metavar="ADDRESS", help=f"another node, for what {engine} no longer has"
    )
    words.add_argument("--only", type=streams_of, metavar="STREAMS", help="of these streams alone, as 1,2")
    words.add_argument(
        "--until", type=int, default=0, metavar="TIME", help="end when the node can be read at this time"
    )
    words.add_argument("--once", action="store_true", help="end when nothing more is there, and at the first failure")
    words.add_argument(
        "--batch",
        type=int,
        default=MOST_A_STREAM,
        metavar="N",
        help=f"blocks of a stream that are read at once ({MOST_A_STREAM})",
    )
    words.add_argument("--ahead", type=int, default=32, metavar="N", help="requests ahead of their replies")
    words.add_argument("--block", type=int, default=200, metavar="MS", help="how long a read waits for something new")
    words.add_argument(
        "--patience",
        type=float,
        default=60,
        metavar="SECONDS",
        help=f"how long {engine} may have less than the node before that is reported as lost (60)",
    )


def see_follow_words(said: argparse.Namespace, words: argparse.ArgumentParser) -> None:
    said.node = said.node or [usual()]
    if said.only and said.only[-1] > said.streams:
        words.error(f"stream {said.only[-1]} of {said.streams}")
    if said.batch < 1 or said.ahead < 1 or said.block < 1:
        words.error("--batch, --ahead and --block are at least 1")


class End(NamedTuple):
    """How the following of a node ended: the status, and why, where it wasn't asked for."""

    status: int
    why: str = ""


def followed(follower: Follower) -> End:
    """Follows till that ends."""
    may_fail: Tuple[Type[Exception], ...] = (*follower.store.errors, LinkBroken, SourceAway, OSError)
    try:
        follower.run()
    except Broken as broken:
        return End(broken.status, str(broken))
    except (Refused, Fault) as refused:
        return End(4, f"the node refuses: {refused}")
    except may_fail as error:
        return End(1, f"{type(error).__name__}: {error}")
    finally:
        follower.node.unlink()
    return End(0)


def followed_together(followers: List[Follower]) -> End:
    """Follows to several nodes, each in a thread, till all have ended, or one for a reason that is so for all."""
    ends: "queue.SimpleQueue[End]" = queue.SimpleQueue()
    for it in followers:
        threading.Thread(target=lambda it=it: ends.put(ended_by(it)), daemon=True).start()
    for _ in followers:
        end = ends.get()
        if end.status:
            return end
    return End(0)


def ended_by(follower: Follower) -> End:
    """The same; what nobody thought of ends all, too."""
    try:
        return followed(follower)
    except Exception as error:  # pylint: disable=broad-except
        return End(1, f"{type(error).__name__}: {error}")


def follow(opened: Callable[[], EngineLog], said: argparse.Namespace) -> int:
    """All of it: the status. `opened` gives the log that the words name; of several nodes each has its own."""
    window = Window(opened(), said.batch) if len(said.node) > 1 else None
    followers = [Follower(opened(), said, node, window) for node in said.node]
    patience = Patience("follow")
    end = followed(followers[0]) if window is None else followed_together(followers)
    if end.why:
        patience.say(end.why)
    if end.status:
        return end.status
    for line in followers[0].store.left_over():
        patience.say(line)
    for it in followers:
        patience.say(f"{it.node.address}: {it.summary()}" if window else it.summary())
    return 0
