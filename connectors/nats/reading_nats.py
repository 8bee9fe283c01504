"""Blocks of a log in NATS as they come: handed out by a consumer a stream, or asked for one by one."""
from __future__ import annotations

import json
import time
from typing import Deque, Dict, List, Optional, Tuple

from engine_log import Reading
from jetstream import Away, Late, Message, Nats
from log_in_nats import LogInNats
from vadungsil.blocks import Block

# how many bytes are taken in one go, so that the node isn't waited with; and how many are asked for ahead at most, of
# all streams: a server gives up a link to which it can't write for some seconds, so they should have room in the
# buffers of both machines
BYTES_A_READ, BYTES_AHEAD = 500_000, 4_000_000
# in seconds: after how long a consumer that says nothing is given up, and how often it has to say that it lives
SILENT, HEARTBEAT = 7, 2


class Place:
    """Where a stream is read: the sequence that comes next, and the last one that was there at the beginning."""

    def __init__(self, sequence: int, last: int) -> None:
        self.sequence, self.last = sequence, last
        self.heard = time.monotonic()


def places_of(store: LogInNats, prefixes: Dict[int, int]) -> Dict[int, Place]:
    """From the first block on that has the node's last entry: what marks stand behind that are in it, or follow."""
    places = {}
    for stream, prefix in prefixes.items():
        sequence, told = store.find(stream, prefix)
        if not told.replicas:
            raise Away(f"{store.key(stream)} isn't there yet")
        places[stream] = Place(sequence, told.last)
    return places


class Pulling(Reading):
    """By a consumer a stream: one request for many blocks, which come as they are kept. The consumer is for this
    connection alone, in the memory of one server, and acknowledges nothing: where it is lost, another one is made where
    this one was."""

    # In seconds. The servers choose one of those that keep a stream, also one that is gone, which then says nothing:
    # another is asked for.
    TRIES = (1, 1, 1, 2, 2, 4)

    def __init__(self, store: LogInNats, prefixes: Dict[int, int], batch: int) -> None:
        self.store, self.batch, self.is_over = store, batch, False
        self.mean = float(store.block_bytes)  # how many bytes a block has that came of late
        self.places = places_of(store, prefixes)
        self.consumers = {stream: Consumer(store, stream, place.sequence) for stream, place in self.places.items()}
        self.make(store.link())

    def make(self, nats: Nats) -> None:
        """Has all consumers made, side by side."""
        for limit in self.TRIES:
            asked = {it: it.creation(nats) for it in self.consumers.values() if not it.name}
            nats.send(*(text for _, text in asked.values()))
            for it, (token, _) in asked.items():
                try:
                    it.name = nats.told_of(nats.take(token, limit))["name"]
                except Late:
                    nats.forget([token])
            if all(it.name for it in self.consumers.values()):
                return
        raise Late(f"{nats.name}: not all consumers were made in {len(self.TRIES)} tries")

    def read(self, seconds: float) -> List[Tuple[int, int, Block]]:
        nats = self.store.link()
        count = max(2, min(self.batch, int(BYTES_AHEAD / 2 / self.mean / len(self.places))))
        wanted = [it.request(count) for it in self.consumers.values() if it.left <= count]
        if wanted:
            nats.send(*wanted)
        until, size = time.monotonic() + seconds, 0
        try:
            while size < BYTES_A_READ and (nats.has_more() or not (size or self.has_come())):
                message = nats.read(until)
                size += len(message.data) if message else 0
                nats.sort(message)
        except Late:
            pass
        found = [(stream, sequence, block) for stream in self.places for sequence, block in self.taken(stream)]
        self.is_over = not found
        if found:
            self.mean += (max(128, sum(len(block.data) for _, _, block in found) / len(found)) - self.mean) / 4
        return found

    def has_come(self) -> bool:
        return any(it.flow for it in self.consumers.values())

    def taken(self, stream: int) -> List[Tuple[int, Block]]:
        """The blocks of a stream that have come, which follow one another."""
        place, consumer, now, found = self.places[stream], self.consumers[stream], time.monotonic(), []
        while consumer.flow:
            message = consumer.flow.popleft()
            place.heard = now
            sequence = consumer.sequence_of(message)
            if sequence is None or sequence < place.sequence:
                continue
            if sequence > place.sequence:
                raise Away(f"{self.store.key(stream)}: message {sequence} came, where {place.sequence} comes next")
            found.append((sequence, self.store.block(stream, sequence, message)))
            place.sequence += 1
        if now - place.heard > SILENT:
            raise Away(f"{self.store.key(stream)}: its consumer is silent")
        return found

    def has_all(self) -> bool:
        return self.is_over and all(it.sequence > it.last for it in self.places.values())


class Consumer:
    """What hands out the messages of one stream from a sequence on."""

    def __init__(self, store: LogInNats, stream: int, sequence: int) -> None:
        self.key, self.sequence, self.name, self.left = store.key(stream), sequence, "", 0
        self.inbox, to = store.link().flow()
        self.flow: Deque[Message] = store.link().flows[to]

    def creation(self, nats: Nats) -> Tuple[bytes, bytes]:
        """The token and the bytes of the request to make it."""
        said = {
            "stream_name": self.key,
            "config": {
                "deliver_policy": "by_start_sequence",
                "opt_start_seq": self.sequence,
                "ack_policy": "none",
                "replay_policy": "instant",
                "inactive_threshold": 60_000_000_000,
                "num_replicas": 1,
                "mem_storage": True,
                "max_waiting": 8,
            },
        }
        return nats.put(f"$JS.API.CONSUMER.CREATE.{self.key}".encode(), json.dumps(said).encode())

    def request(self, count: int) -> bytes:
        """Asks for so many messages more."""
        self.left += count
        said = b'{"batch":%d,"expires":30000000000,"idle_heartbeat":%d000000000}' % (count, HEARTBEAT)
        subject = f"$JS.API.CONSUMER.MSG.NEXT.{self.key}.{self.name}".encode()
        return b"PUB %s %s %d\r\n%s\r\n" % (subject, self.inbox, len(said), said)

    def sequence_of(self, message: Message) -> Optional[int]:
        """The sequence of a message; None where it is a sign of life, or the request is over."""
        if message.status == b"100":
            return None
        if message.status in (b"404", b"408"):
            self.left = 0
            return None
        if message.status:
            raise Away(f"{self.key}: {message.head[9:60].decode(errors='replace').strip()}")
        self.left -= 1
        words = message.reply.split(
            b"."
        )  # $JS.ACK.STREAM.CONSUMER.DELIVERED.SEQUENCE.., or with a domain and an account before the stream
        return int(words[5 if len(words) == 9 else 7])


class Getting(Reading):
    """One by one, of whichever server has them: needs no leader, so it goes on where no majority is."""

    AHEAD = 8  # blocks of a stream that are asked for at once

    def __init__(self, store: LogInNats, prefixes: Dict[int, int]) -> None:
        self.store, self.is_over = store, False
        self.places = places_of(store, prefixes)

    def read(self, seconds: float) -> List[Tuple[int, int, Block]]:
        until = time.monotonic() + seconds
        found: List[Tuple[int, int, Block]] = []
        while not found:
            for stream in self.places:
                found += [(stream, sequence, block) for sequence, block in self.some(stream)]
            if not found:
                left = until - time.monotonic()
                if left <= 0:
                    break
                time.sleep(min(left, 0.05))
        self.is_over = not found
        return found

    def some(self, stream: int) -> List[Tuple[int, Block]]:
        """The next blocks of a stream that are there: one, and as many more as are there behind it."""
        place = self.places[stream]
        found: List[Tuple[int, Block]] = []
        nats = self.store.link()
        for count in (1, self.AHEAD):
            asked = [nats.put(*self.store.question(stream, place.sequence + it)) for it in range(count)]
            nats.send(*(text for _, text in asked))
            try:
                for token, _ in asked:
                    block = self.store.answered(stream, place.sequence, nats.take(token, 1.0))
                    if block is None:
                        return found
                    found.append((place.sequence, block))
                    place.sequence += 1
            except Late:  # handed to a server that is cut off: asked again by the next read
                return found
            finally:
                nats.forget([token for token, _ in asked])
        return found

    def has_all(self) -> bool:
        return self.is_over and all(it.sequence > it.last for it in self.places.values())
