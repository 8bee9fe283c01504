"""A log in NATS JetStream: stream S of log L is the JetStream stream `hekaton_L_S`, of the subject `hekaton.L.S`, with
three replicas; a message is a block (vadungsil/blocks.py), whose header Hk-Last has the number of its last
entry, and Hk-Sum its SHA-256 in hexadecimal digits.

Each append names the sequence of the message that it stands behind (Nats-Expected-Last-Sequence), so two writers can't
come between each other, nothing is there twice, and no block stands behind one that lacks: the server refuses it,
whoever leads by then. A message is there for readers once a majority of the servers has it, so no node is fed what a
failover may lose. Nothing but the blocks is kept: entry n is found by halving, in about twice the logarithm of the
number of blocks behind it. Needs nats-server 2.10.27 or later on each server."""
from __future__ import annotations

import argparse
import collections
import json
import os
import pathlib
import sys
import time
from typing import Any, Callable, Deque, Dict, Iterator, List, NamedTuple, Optional, Tuple

sys.dont_write_bytecode = True
HERE = pathlib.Path(__file__).resolve().parent
sys.path[:0] = [str(HERE), str(HERE.parent / "common")]

from engine_log import EngineLog, Moved, Reading, add_log_words, see_log  # noqa: E402
from jetstream import ApiError, Away, Denied, Message, Nats, Security, see_version, versions  # noqa: E402
from vadungsil.blocks import BLOCK_BYTES, Block, no_block, see_sum, sum_of, walked  # noqa: E402

WRONG_LAST, IN_USE, NO_STREAM = 10_071, 10_058, 10_059

# how many bytes of blocks of all streams wait for their acknowledgements at most
MOST_QUEUED = 16_000_000
# how many messages are looked through for the last mark
BACK = 64

# what a message has beside a block, in bytes, at most
HEADERS = 512


class Queued(NamedTuple):
    """A block that waits to be acknowledged, the sequence that it is to have, and what is called then."""

    sequence: int
    block: Block
    kept: Callable[[int], None]


class Info(NamedTuple):
    first: int  # sequences
    last: int
    leader: str
    replicas: int  # servers that keep it
    current: int  # of these, those that the leader takes for up to date

    def has_messages(self) -> bool:
        return self.first <= self.last


def said_in(header: bytes) -> bytes:
    """The checksum that a header has; what is none stays as it is, and is then no block's."""
    try:
        return bytes.fromhex(header.decode("ascii"))
    except ValueError:
        return header


class LogInNats(EngineLog):
    """Places are sequences. Nothing is asked of NATS before the first call. One connection is kept until `drop`."""

    engine, errors = "NATS", (Away, Denied, ApiError)
    # more than in Redis: of a stream one block is on its way at a time, and servers that sync their files do so for
    # each
    block_bytes = at_once = 4 * BLOCK_BYTES

    def __init__(
        self,
        urls: List[str],
        log: int,
        streams: int,
        replicas: int = 3,
        security: Security = Security(),
        by: str = "pull",
    ) -> None:
        super().__init__(log, streams)
        self.urls, self.replicas, self.security, self.by = urls, replicas, security, by
        self.nats: Optional[Nats] = None
        self.is_seen = False
        self.queues: Dict[int, Deque[Queued]] = {}  # by stream: the first of each is on its way
        self.on_way: Dict[bytes, int] = {}  # of those that are, their tokens and streams
        self.queued = 0  # bytes
        self.near: Dict[int, Tuple[int, int]] = {}  # of the block that was found last: its last entry and sequence

    def is_passing(self, error: BaseException) -> bool:
        return isinstance(error, Away) or isinstance(error, ApiError) and error.is_passing()

    def link(self) -> Nats:
        if not self.is_seen:  # each server that can be reached; later on the one that is linked to
            for name, version in versions(self.urls):
                if version and not version.startswith("?"):
                    see_version(name, version)
            self.is_seen = True
        if self.nats is None:
            self.nats = Nats(self.urls, self.security)
        return self.nats

    def drop(self) -> None:
        if self.nats is not None:
            self.nats.close()
        self.nats = None
        self.near.clear()
        self.queues.clear()
        self.on_way.clear()
        self.queued = 0

    def key(self, stream: int) -> str:
        return f"hekaton_{self.log}_{stream}"

    def subject(self, stream: int) -> str:
        return f"hekaton.{self.log}.{stream}"

    # ------------------------------------------------------------ streams

    def prepare(self) -> None:
        """Makes the streams that aren't there; one that is there has as many replicas as was asked for, else
        `Denied`."""
        for stream in range(1, self.streams + 1):
            try:
                told = self.link().ask(f"$JS.API.STREAM.CREATE.{self.key(stream)}", self.config(stream), 10)
            except ApiError as error:
                if error.number != IN_USE:
                    raise
                told = self.link().ask(f"$JS.API.STREAM.INFO.{self.key(stream)}")
            replicas = told["config"]["num_replicas"]
            if replicas < self.replicas:
                raise Denied(
                    f"{self.key(stream)} is kept by {replicas} servers, and not by {self.replicas}: --replicas says how"
                    " many are to keep it"
                )

    def more_streams(self) -> List[int]:
        """The next one alone, since publish makes all of them; not where no leader is asked."""
        if self.by == "get" or not self.info(self.streams + 1).replicas:
            return []
        return [self.streams + 1]

    def config(self, stream: int) -> Dict[str, Any]:
        """It refuses what would be too much, and drops nothing by itself."""
        return {
            "name": self.key(stream),
            "subjects": [self.subject(stream)],
            "storage": "file",
            "retention": "limits",
            "discard": "new",
            "max_msgs": -1,
            "max_bytes": -1,
            "max_age": 0,
            "num_replicas": self.replicas,
            "allow_direct": True,
            "deny_delete": True,
            "duplicate_window": 1_000_000_000,
        }

    def info(self, stream: int) -> Info:
        """How far the stream is, as its leader says; where it is read one by one, as any server that keeps it says,
        which may be behind."""
        if self.by == "get":
            first, last = (
                self.asked_of_any(stream, said) for said in (b'{"seq":1,"next_by_subj":"%s"}', b'{"last_by_subj":"%s"}')
            )
            return Info(max(1, first), last, "", 1, 1)
        try:
            told = self.link().ask(f"$JS.API.STREAM.INFO.{self.key(stream)}")
        except ApiError as error:
            if error.number == NO_STREAM:
                return Info(1, 0, "", 0, 0)
            raise
        cluster = told.get("cluster", {})
        replicas = cluster.get("replicas") or []
        return Info(
            max(1, told["state"]["first_seq"]),
            told["state"]["last_seq"],
            cluster.get("leader", ""),
            1 + len(replicas),
            1 + sum(1 for it in replicas if it.get("current") and not it.get("lag")),
        )

    def asked_of_any(self, stream: int, said: bytes) -> int:
        """The sequence of the message that is asked for; 0 where there is none."""
        subject, _ = self.question(stream, 0)
        return int(self.link().ask_again(subject, said % self.subject(stream).encode()).header(b"Nats-Sequence") or 0)

    # ------------------------------------------------------------ how far it is

    def end(self, stream: int) -> Tuple[int, int, Iterator[Block]]:
        told = self.info(stream)
        number = self.there(stream, told.last).last if told.has_messages() else 0
        return told.last, number, self.backwards(stream, told)

    def backwards(self, stream: int, told: Info) -> Iterator[Block]:
        for sequence in range(told.last, max(told.first, told.last - BACK) - 1, -1):
            yield self.there(stream, sequence)

    def last(self, stream: int) -> int:
        return self.end(stream)[1]

    def first(self, stream: int) -> int:
        told = self.info(stream)
        return self.there(stream, told.first).first if told.has_messages() else 1

    def gone(self, stream: int) -> Optional[int]:
        return self.info(stream).first - 1

    def holding(self, stream: int, number: int) -> Optional[Block]:
        sequence, told = self.find(stream, number)
        return self.there(stream, sequence) if sequence <= told.last else None

    def find(self, stream: int, number: int) -> Tuple[int, Info]:
        """The sequence of the first block whose last entry is `number` or more; one above the last, where none is."""
        told = self.info(stream)
        near, sequence = self.near.get(stream, (-1, 0))
        if (
            number == near + 1
            and told.first <= sequence < told.last
            and self.there(stream, sequence + 1).last >= number
        ):
            low = sequence + 1
        else:
            low = self.halved(stream, number, told)
        if low <= told.last:
            self.near[stream] = (self.there(stream, low).last, low)
        return low, told

    def halved(self, stream: int, number: int, told: Info) -> int:
        """From the end backwards by twice as much each time, and then by halves."""
        low, high, step = told.first, told.last + 1, 1  # what is looked for is from low to high
        while low < high:
            probe = max(low, told.last + 1 - step)
            if self.there(stream, probe).last < number:
                low = probe + 1
                break
            high, step = probe, 2 * step
        while low < high:
            middle = (low + high) // 2
            if self.there(stream, middle).last >= number:
                high = middle
            else:
                low = middle + 1
        return low

    # ------------------------------------------------------------ messages

    def question(self, stream: int, sequence: int) -> Tuple[bytes, bytes]:
        """The subject and data of a question for a message; any server that keeps the stream answers it."""
        return b"$JS.API.DIRECT.GET.%s" % self.key(stream).encode(), b'{"seq":%d}' % sequence

    def at(self, stream: int, place: int) -> Optional[Block]:
        """One that isn't there is asked for on more servers than one: one of them may be behind."""
        for _ in range(8):
            block = self.answered(stream, place, self.link().ask_again(*self.question(stream, place)))
            if block is not None:
                return block
            time.sleep(0.02)
        return None

    def there(self, stream: int, sequence: int) -> Block:
        block = self.at(stream, sequence)
        if block is None:
            raise Away(f"{self.key(stream)}: message {sequence} isn't there")
        return block

    def answered(self, stream: int, sequence: int, message: Message) -> Optional[Block]:
        """The block of an answer; None where there is no such message, or not on this server."""
        if message.status == b"404":
            return None
        if message.status or message.header(b"Nats-Sequence") != b"%d" % sequence:
            raise Away(f"{self.key(stream)}: asked for message {sequence}, and got {message.head[:60]!r}")
        return self.block(stream, sequence, message)

    def block(self, stream: int, sequence: int, message: Message) -> Block:
        last = message.header(b"Hk-Last")
        name = f"stream {stream}: message {sequence} of {self.key(stream)}"
        if not last.isdigit() or len(last) > 19:
            raise no_block(name, "its header Hk-Last is no number" if last else "it has no header Hk-Last")
        see_sum(name, said_in(message.header(b"Hk-Sum")), message.data)
        return walked(message.data, int(last), self.log, stream, name)

    # ------------------------------------------------------------ appending

    def append(self, stream: int, behind: int, blocks: List[Block], kept: Callable[[int], None]) -> int:
        """Each block counts once a majority of the servers that keep the stream has it. Of a stream one block is on its
        way at a time: were there two, and somebody else's took the place of the first, the servers would take the
        second behind that."""
        most = self.link().info.get("max_payload", 1 << 20)
        for block in blocks:
            if len(block.data) + HEADERS > most:
                raise Denied(
                    f"a block of {len(block.data)} bytes is more than {self.link().name} takes ({most}): "
                    "set max_payload to 8388608"
                )
        queue = self.queues.setdefault(stream, collections.deque())
        is_first = not queue
        queue.extend(Queued(sequence, block, kept) for sequence, block in enumerate(blocks, behind + 1))
        self.queued += sum(len(block.data) for block in blocks)
        if is_first and queue:
            self.send_first(stream)
        self.collect(waits=False)
        while self.queued > MOST_QUEUED:
            self.collect()
        return behind + len(blocks)

    def settle(self) -> None:
        while self.on_way:
            self.collect()

    def send_first(self, stream: int) -> None:
        it = self.queues[stream][0]
        token, text = self.message(stream, it.sequence - 1, it.block)
        self.on_way[token] = stream
        self.link().send(text)

    def collect(self, waits: bool = True) -> None:
        """Takes the acknowledgements that have come, or waits for the next one; sends what stands behind these."""
        for token in self.link().come(self.on_way, waits):
            stream = self.on_way.pop(token)
            sequence, block, kept = self.queues[stream][0]
            self.acknowledged(self.link().take(token), sequence)
            self.queues[stream].popleft()
            self.queued -= len(block.data)
            kept(block.last)
            if self.queues[stream]:
                self.send_first(stream)

    def message(self, stream: int, behind: int, block: Block) -> Tuple[bytes, bytes]:
        head = b"Nats-Expected-Stream: %s\r\nNats-Expected-Last-Sequence: %d\r\nHk-Last: %d\r\nHk-Sum: %s\r\n" % (
            self.key(stream).encode(),
            behind,
            block.last,
            sum_of(block.data).hex().encode(),
        )
        return self.link().put(self.subject(stream).encode(), block.data, head)

    def acknowledged(self, message: Message, sequence: int) -> None:
        told = json.loads(message.data)
        if "error" in told:
            self.drop()  # of other streams blocks may be on their way: they are looked at anew
            if told["error"].get("err_code") == WRONG_LAST:
                raise Moved
            raise ApiError(told["error"])
        if told.get("seq") != sequence:
            self.drop()
            raise Away(f"acknowledged as message {told.get('seq')}, and not {sequence}")

    def reading(self, prefixes: Dict[int, int], batch: int) -> Reading:
        from reading_nats import Getting, Pulling

        return Getting(self, prefixes) if self.by == "get" else Pulling(self, prefixes, batch)


# ---------------------------------------------------------------- the command line


def add_words(words: argparse.ArgumentParser) -> None:
    """The words of all programs."""
    words.add_argument(
        "--nats",
        metavar="URLS",
        help=(
            "HOST:PORT,HOST:PORT,.. of the cluster's servers, tls://USER@HOST:PORT for TLS; without it "
            "the environment's NATS_URL, else 127.0.0.1:4222. A password comes from NATS_PASSWORD, and never from the "
            "command line"
        ),
    )
    add_log_words(words)


def opened(said: argparse.Namespace, words: argparse.ArgumentParser, replicas: int = 3, by: str = "pull") -> LogInNats:
    """The log that the words name. Nothing is asked of NATS yet."""
    see_log(said, words)
    urls = [it for it in (said.nats or os.environ.get("NATS_URL", "127.0.0.1:4222")).split(",") if it]
    if any(":" in it.rpartition("@")[0].rpartition("//")[2] for it in urls):
        words.error("no password in --nats or NATS_URL: set NATS_PASSWORD")
    return LogInNats(urls, said.log, said.streams, replicas, Security(said.cacert, said.cert, said.key), by)
