"""A log in Redis: stream S of log L is the Redis stream `hekaton:L:S`, one message a block
(vadungsil/blocks.py), in the field `b`, and its SHA-256 in the field `s`. A message of before blocks were, with
one item frame in the field `f`, is a block too, and has the id that a block would have.

The id of a message says how far it goes: n is the last entry in it, k counts the messages with marks alone behind it,
and the id is n-k. So the place of an entry is known without a cursor, an entry can't stand there twice, and none can
stand where a lower one lacks: ids only rise, and append.lua adds a block only behind the one before. Needs Redis 6.2 or
later, and python3-redis."""
from __future__ import annotations

import argparse
import os
import pathlib
import sys
from typing import Any, Callable, Dict, Iterator, List, Optional, Tuple
from urllib.parse import urlsplit

sys.dont_write_bytecode = True
sys.path.append(str(pathlib.Path(__file__).resolve().parent.parent / "common"))

import redis  # noqa: E402

from engine_log import EngineLog, Moved, Reading, add_log_words, see_log  # noqa: E402
from finding import OwnersConnection, through_cluster, through_sentinels  # noqa: E402
from vadungsil.blocks import Block, no_block, see_sum, sum_of, walked  # noqa: E402
from vadungsil.errors import Broken  # noqa: E402

APPEND = (pathlib.Path(__file__).resolve().parent / "append.lua").read_text()

# What a later try may mend: the broker is away, starts, changes places with a replica, or is full.
PASSING_WORDS = (
    "LOADING",
    "READONLY",
    "MASTERDOWN",
    "CLUSTERDOWN",
    "TRYAGAIN",
    "OOM",
    "MISCONF",
    "NOREPLICAS",
    "BUSY",
    "UNKILLABLE",
)

Id = Tuple[int, int]
LAST = 2**64 - 1

# how many messages are looked through for the last mark, and how many bytes are read at once
BACK, BYTES_A_READ = 10_000, 1_000_000


def number_of(message: bytes) -> Id:
    first, _, second = message.partition(b"-")
    return int(first), int(second)


def text_of(place: Id) -> str:
    return f"{place[0]}-{place[1]}"


class LogInRedis(EngineLog):
    """Places are ids. Nothing is asked of Redis before the first call."""

    engine, errors = "Redis", (redis.RedisError,)

    def __init__(
        self, client: "redis.Redis[bytes]", log: int, streams: int, replicas: int = 0, fsync: bool = False
    ) -> None:
        super().__init__(log, streams)
        self.client, self.replicas, self.fsync, self.is_checked = client, replicas, fsync, False
        # in a cluster what stands in braces says which server has a key
        self.name = f"{{{log}}}" if client.connection_pool.connection_class is OwnersConnection else str(log)

    def is_passing(self, error: BaseException) -> bool:
        if isinstance(error, (redis.AuthenticationError, redis.exceptions.AuthorizationError)):
            return False
        gone = (
            redis.ConnectionError,
            redis.TimeoutError,
            redis.exceptions.BusyLoadingError,
            redis.exceptions.ReadOnlyError,
        )
        if isinstance(error, gone):
            return True
        return isinstance(error, redis.ResponseError) and any(word in str(error) for word in PASSING_WORDS)

    def drop(self) -> None:
        self.is_checked = False
        self.client.connection_pool.disconnect()

    def key(self, stream: int) -> str:
        return f"hekaton:{self.name}:{stream}"

    # ------------------------------------------------------------ how far it is

    def info(self, stream: int) -> Optional[Dict[str, Any]]:
        """What XINFO returns, all of one moment: two commands would have a publisher between them. None where there is
        no such stream."""
        try:
            told: Dict[str, Any] = self.client.xinfo_stream(self.key(stream))
            return told
        except redis.ResponseError as error:
            if "no such key" in str(error):
                return None
            if "WRONGTYPE" in str(error):
                raise Broken(3, f"stream {stream}: {self.key(stream)} is no stream") from None
            raise

    def more_streams(self) -> List[int]:
        line, above = self.client.pipeline(transaction=False), range(self.streams + 1, 65)
        for stream in above:
            line.xinfo_stream(self.key(stream))
        told = line.execute(raise_on_error=False) if above else []
        return [stream for stream, it in zip(above, told) if not isinstance(it, redis.RedisError)]

    def end(self, stream: int) -> Tuple[Id, int, Iterator[Block]]:
        told = self.info(stream)
        place = number_of(told["last-generated-id"]) if told else (0, 0)
        return place, place[0], self.backwards(stream, place)

    def backwards(self, stream: int, place: Id) -> Iterator[Block]:
        """The blocks up to a place, from there back: by one, by two and so on at once, as most often the last one has a
        mark."""
        end, count, looked = text_of(place), 1, 0
        while looked < BACK:
            page = self.client.xrevrange(self.key(stream), max=end, count=count)
            for message, fields in page:
                yield self.block(stream, message, fields)
            if len(page) < count:
                return
            end, looked, count = "(" + page[-1][0].decode(), looked + count, min(2 * count, 64)

    def last(self, stream: int) -> int:
        told = self.info(stream)
        return number_of(told["last-generated-id"])[0] if told else 0

    def first(self, stream: int) -> int:
        told = self.info(stream) or {"first-entry": None, "last-generated-id": b"0-0"}
        if told["first-entry"] is None:
            return number_of(told["last-generated-id"])[0] + 1
        message, fields = told["first-entry"]
        return self.block(stream, message, fields).first

    def gone(self, stream: int) -> Optional[int]:
        """From Redis 7 on it counts the messages that a stream ever had."""
        told = self.info(stream) or {"length": 0, "entries-added": 0}
        return told["entries-added"] - told["length"] if "entries-added" in told else None

    def deleted(self, stream: int) -> int:
        """By XDEL; from Redis 7 on it knows the greatest id that was, and XTRIM leaves that as it is."""
        told = self.info(stream) or {}
        return number_of(told.get("max-deleted-entry-id", b"0-0"))[0]

    def holding(self, stream: int, number: int) -> Optional[Block]:
        for message, fields in self.client.xrange(self.key(stream), f"{number}-0", "+", count=1):
            return self.block(stream, message, fields)
        return None

    def block(self, stream: int, message: bytes, fields: Dict[bytes, bytes]) -> Block:
        """The block of a message; 3 where it is none of this stream, or another one than its id says."""
        last, beside = number_of(message)
        name = f"stream {stream}: message {message.decode()} of {self.key(stream)}"
        data = fields.get(b"b", fields.get(b"f"))
        if data is None:
            raise no_block(name, "it has no field b")
        see_sum(name, fields.get(b"s", b""), data)
        block = walked(data, last, self.log, stream, name)
        if (block.last >= block.first) != (beside == 0):
            raise no_block(name, f"its id is one of {'entries' if beside == 0 else 'marks alone'}")
        return block

    # ------------------------------------------------------------ appending

    def append(self, stream: int, behind: Id, blocks: List[Block], kept: Callable[[int], None]) -> Id:
        """When it returns they are kept as was asked for: in the memory of Redis, in its file, by so many replicas."""
        words: List[Any] = [text_of(behind), int(self.replicas > 0 or self.fsync)]
        place = behind
        for block in blocks:
            place = (block.last, 0 if block.last >= block.first else place[1] + 1)
            words += [text_of(place), block.data, sum_of(block.data)]
        self.check_file()
        if not blocks and not self.replicas and not self.fsync:
            return place
        # one pipeline is one connection: WAIT speaks of the writes of its own
        line = self.client.pipeline(transaction=False)
        line.eval(APPEND, 1, self.key(stream), *words)
        if self.replicas:
            line.wait(self.replicas, 10_000)
        told, *count = self.replies(line)
        if told[0] != b"ok":
            raise Moved
        if count and count[0] < self.replicas:
            raise redis.TimeoutError(f"{count[0]} replicas of {self.replicas} have it")
        for block in blocks:
            kept(block.last)
        return place

    @staticmethod
    def replies(line: Any) -> List[Any]:
        """What the commands of a pipeline are replied. An error has Redis's words alone: `execute` would put all that
        was sent before them."""
        found: List[Any] = line.execute(raise_on_error=False)
        for it in found:
            if isinstance(it, Exception):
                raise it
        return found

    def check_file(self) -> None:
        """Where entries have to be in the file before they count: 1 where Redis says that they aren't."""
        if self.fsync and not self.is_checked:
            said = [self.client.config_get(name).get(name) for name in ("appendonly", "appendfsync")]
            if said != ["yes", "always"]:
                raise Broken(
                    1,
                    (
                        f"--fsync needs `appendonly yes` and `appendfsync always` in Redis, which has {said[0]} and"
                        f" {said[1]}"
                    ),
                )
            self.is_checked = True

    def reading(self, prefixes: Dict[int, int], batch: int) -> "ReadingRedis":
        return ReadingRedis(self, prefixes, batch)


class ReadingRedis(Reading):
    """Blocks by XREAD: the first whose last entry is the node's, or more, has an id above (prefix - 1)-LAST."""

    def __init__(self, store: LogInRedis, prefixes: Dict[int, int], batch: int) -> None:
        self.store, self.batch, self.count, self.is_over = store, batch, 1, False
        self.at: Dict[int, Id] = {
            stream: (prefix - 1, LAST) if prefix else (0, 0) for stream, prefix in prefixes.items()
        }

    def read(self, seconds: float) -> List[Tuple[int, Id, Block]]:
        asked = {self.store.key(stream): text_of(place) for stream, place in self.at.items()}
        found = []
        for key, messages in self.given(asked, max(1, int(seconds * 1000))):
            stream = int(key.rsplit(b":", 1)[1])
            for message, fields in messages:
                found.append((stream, number_of(message), self.store.block(stream, message, fields)))
            self.at[stream] = found[-1][1]
        self.is_over = not found
        self.learn_size(sum(len(block.data) for _, _, block in found), len(found))
        return found

    def given(self, asked: Dict[str, str], wait: int) -> Any:
        try:
            return self.store.client.xread(asked, count=self.count, block=wait)
        except redis.ResponseError:
            for stream in self.at:
                self.store.info(stream)  # names one that is no stream
            raise

    def learn_size(self, size: int, count: int) -> None:
        """How many messages of a stream to read at once, by what the last had in bytes."""
        if count:
            self.count = max(
                1, min(2 * self.count, int(BYTES_A_READ / max(size / count, 32) / len(self.at)), self.batch)
            )

    def has_all(self) -> bool:
        return self.is_over


# ---------------------------------------------------------------- the command line


def add_words(words: argparse.ArgumentParser) -> None:
    """The words of all three programs."""
    words.add_argument(
        "--redis",
        metavar="URL",
        help=(
            "redis://HOST:PORT/DB, rediss://USER@HOST:PORT for TLS, unix:///SOCKET,"
            " sentinel://HOST:PORT,HOST:PORT/NAME, cluster://HOST:PORT,HOST:PORT; without it the environment's"
            " REDIS_URL, else redis://127.0.0.1:6379. A password comes from REDISCLI_AUTH or REDIS_URL, and never from"
            " the command line"
        ),
    )
    add_log_words(words)


def opened(said: argparse.Namespace, words: argparse.ArgumentParser, **more: Any) -> LogInRedis:
    """The log that the words name. Nothing is asked of Redis yet."""
    see_log(said, words)
    if said.redis and urlsplit(said.redis).password is not None:
        words.error("no password on the command line: set REDISCLI_AUTH, or REDIS_URL to the complete address")
    url = said.redis or os.environ.get("REDIS_URL", "redis://127.0.0.1:6379")
    options: Dict[str, Any] = {"socket_timeout": 30, "socket_connect_timeout": 10, "max_connections": 1}
    if not url.startswith("unix:"):
        options["socket_keepalive"] = True
    if os.environ.get("REDISCLI_AUTH") and urlsplit(url).password is None:
        options["password"] = os.environ["REDISCLI_AUTH"]
    if url.startswith("rediss:"):
        options.update(
            ssl_cert_reqs="required",
            ssl_check_hostname=True,
            ssl_ca_certs=said.cacert,
            ssl_certfile=said.cert,
            ssl_keyfile=said.key,
        )
    try:
        return LogInRedis(client_of(url, options, said.log), said.log, said.streams, **more)
    except ValueError as error:
        words.error(str(error))
        raise


def client_of(url: str, options: Dict[str, Any], log: int) -> "redis.Redis[bytes]":
    if url.startswith("sentinel:"):
        return through_sentinels(url, options)
    if url.startswith("cluster:"):
        return through_cluster(url, options, log)
    client: "redis.Redis[bytes]" = redis.Redis.from_url(url, **options)
    return client
