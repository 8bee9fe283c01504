"""The node's side of any connector: a connection that is fed ahead of its replies, and what one that waits says.
Standard library, and the package `vadungsil` of this checkout."""
from __future__ import annotations

import argparse
import pathlib
import socket
import struct
import sys
import time
from typing import TYPE_CHECKING, Any, Iterator, List, Optional, Sequence, Tuple

_PACKAGE = pathlib.Path(__file__).resolve().parents[2] / "clients" / "python"
if _PACKAGE.is_dir():
    sys.path.insert(0, str(_PACKAGE))

from vadungsil.address import ELSE, FORMS, Address, address_word, place_of, usual  # noqa: E402, F401
from vadungsil.errors import Fault, LinkBroken, NotANode, Refused, TimeLimit  # noqa: E402, F401
from vadungsil.items import LEAST_REST, MOST_REST, decode, head_of  # noqa: E402, F401
from vadungsil.link import (
    Certificates,
    Link,
    add_certificates,
    certificates_of,
    no_length,
    security_of,
    too_late,
)  # noqa: E402
from vadungsil.messages import MOST_ITEMS, MOST_MESSAGE, encode_request, framed  # noqa: E402
from vadungsil.requests import FRONT, FULL, read_done, read_fragment, read_front  # noqa: E402
from vadungsil.values import LAST_TIME, Delta, Front, Stream  # noqa: E402

if TYPE_CHECKING:
    from vadungsil.blocks import Block

# what the package has that connectors take from here, beside what stands below
__all__ = [
    "ELSE",
    "FORMS",
    "LAST_TIME",
    "LEAST_REST",
    "MOST_REST",
    "Address",
    "Certificates",
    "Fault",
    "Feed",
    "LinkBroken",
    "Patience",
    "Refused",
    "Stream",
    "TimeLimit",
    "decode",
    "head_of",
    "place_of",
    "usual",
]

# How many bytes of items go into one request: a node takes these in less of its time than longer ones.
MOST_BYTES = 100_000

_ITEMS = struct.Struct(">IBBI").pack


class Feed(Link):
    """One connection to a node, over which items are sent a few requests ahead of their replies. After `LinkBroken` it
    is of no more use: who comes again opens another, and asks the node anew how far it is (it may be another node by
    then)."""

    def __init__(
        self,
        address: Address,
        limit: Optional[float] = 60.0,
        ahead: int = 4,
        certificates: Certificates = Certificates(),
    ) -> None:
        place = place_of(address)
        super().__init__(place, limit, 0.0, security_of(place, certificates))
        self.replies = self.socket.makefile("rb")
        self.ahead, self.waiting = ahead, []  # type: int, List[str]

    def close(self) -> None:
        if hasattr(self, "replies"):
            self.replies.close()
        super().close()

    # ------------------------------------------------------------ items

    def send_blocks(self, blocks: Sequence[Block], name: str = "items") -> None:
        """Sends blocks as they are, some to a request; waits for replies only while `ahead` requests have none. What
        the node refuses is raised with the name of the request, by this call or a later one. 42 isn't raised: the
        change stands."""
        parts: List[bytes] = []
        count = size = 0
        for block in blocks:
            for data, frames in (
                [(block.data, block.frames)] if len(block.data) <= MOST_BYTES else pieces_of(block.data)
            ):
                if parts and (count + frames > MOST_ITEMS or size + len(data) > MOST_BYTES):
                    self._send_items(parts, count, size, name)
                    parts, count, size = [], 0, 0
                parts.append(data)
                count, size = count + frames, size + len(data)
        if parts:
            self._send_items(parts, count, size, name)

    def _send_items(self, parts: List[bytes], count: int, size: int, name: str) -> None:
        while len(self.waiting) >= self.ahead:
            self.take()
        self._send(b"".join([_ITEMS(size + 6, 1, 16, count), *parts]), name)

    def take(self) -> None:
        """Takes the reply to the oldest items on their way."""
        name, rest = self.waiting[0], self._reply()
        try:
            read_done(rest)
        except Refused as refused:
            if refused.number != 42:
                raise refused.at(name)

    def drain(self) -> None:
        """Takes all replies."""
        while self.waiting:
            self.take()

    # ------------------------------------------------------------ questions

    def front(self) -> Front:
        return read_front(self._ask(FRONT))

    def streams(self, log: int) -> Tuple[Stream, ...]:
        """How far each stream of this log is, by a delta, which each node answers: Streams wants one that reads
        messages of version 2. It has that at its head, and where its base is the last time of all it has no facts
        behind: 36 bytes and 24 a stream, 8 for each extra number and 16 for each waiting mark. 20: the node has another
        log."""
        head = read_fragment(self._ask(encode_request(Delta(LAST_TIME))))
        if head.log != log:
            raise Refused(20, place=f"{self.name} has log {head.log}, and not {log}")
        return head.streams

    def facts_since(self, base: int) -> bytes:
        """The body of the fragment since a base, for another node's `join_facts`; of the full snapshot, where the node
        can't say it since then."""
        rest = self._ask(encode_request(Delta(base)))
        if rest[1] == 36:
            rest = self._ask(FULL)
        if rest[1] == 36:
            read_fragment(rest)
        return rest[2:]

    def join_facts(self, body: bytes) -> None:
        read_done(self._ask(framed(21, body)))

    # ------------------------------------------------------------ bytes

    def _ask(self, request: bytes) -> bytes:
        self.drain()
        self._send(request, "")
        return self._reply()

    def _send(self, request: bytes, name: str) -> None:
        try:
            self.socket.sendall(request)
        except socket.timeout:
            raise self._over_time() from None
        except OSError as error:
            raise LinkBroken(f"{self.name}: {error}") from error
        self.waiting.append(name)

    def _reply(self) -> bytes:
        head = self._exactly(4)
        size = int.from_bytes(head, "big")
        if not 2 <= size <= MOST_MESSAGE:
            raise self._no_reply(head)
        rest = self._exactly(size)
        self.has_replied = True
        del self.waiting[0]
        return rest

    def _exactly(self, size: int) -> bytes:
        try:
            data = self.replies.read(size)
        except socket.timeout:
            raise self._over_time() from None
        except OSError as error:
            raise LinkBroken(f"{self.name}: {error}") from error
        if len(data) < size:
            raise LinkBroken(f"{self.name}: the node ended the connection")
        return data

    def _no_reply(self, head: bytes) -> LinkBroken:
        """The error of four bytes that are no length, with what came behind them."""
        try:
            told = no_length(self.name, head + self.replies.peek(200))
        except OSError:
            told = no_length(self.name, head)
        if isinstance(told, NotANode):
            return LinkBroken(f"{told.place}: {told.meaning}; {told.advice}")
        return LinkBroken(f"{self.name}: a reply of length {int.from_bytes(head, 'big')}")

    def _over_time(self) -> TimeLimit:
        return too_late(self.name, self.limit, True, self.has_replied)


def pieces_of(data: bytes) -> Iterator[Tuple[bytes, int]]:
    """The frames of a long block, as many at once as go into a request, and how many these are."""
    start = at = count = 0
    while at < len(data):
        end = at + 4 + int.from_bytes(data[at : at + 4], "big")
        if count and end - start > MOST_BYTES:
            yield data[start:at], count
            start, count = at, 0
        at, count = end, count + 1
    yield data[start:], count


def short(text: str) -> str:
    """What is said of a failure: in one line, and in 400 letters at most."""
    return " ".join(text.split())[:400]


def add_node_words(words: argparse.ArgumentParser, more: str, **options: Any) -> None:
    """Nodes, and the certificates for those at tls://HOST:PORT: those of the engine are others."""
    words.add_argument(
        "--node",
        action="append",
        type=address,
        metavar="ADDRESS",
        help=f"{FORMS} of {more}",
        **options,
    )
    add_certificates(words, "node-")


def address(word: str) -> str:
    """The same word, where it is an address."""
    try:
        return address_word(word)
    except ValueError as error:
        raise argparse.ArgumentTypeError(str(error)) from None


def node_certificates(said: argparse.Namespace) -> Certificates:
    """`ValueError` where some are given and no node is one over TLS."""
    found = certificates_of(said)
    found.see(map(place_of, [*said.node, *filter(None, [getattr(said, "source", None)])]))
    return found


class Patience:
    """Waits after failures, each time twice as long, from 50 ms to `most` seconds; and says on standard error why, once
    for each reason in a row."""

    def __init__(self, name: str, most: float = 5.0) -> None:
        self.name, self.most, self.pause, self.said = name, most, 0.05, ""

    def say(self, text: str) -> None:
        sys.stderr.write(f"{self.name}: {short(text)}\n")  # in one piece: threads say side by side
        sys.stderr.flush()

    def wait(self, reason: object) -> None:
        text = f"{type(reason).__name__}: {reason}"
        if text != self.said:
            self.say(f"{text}; trying again")
        self.said = text
        self.pause_on()

    def pause_on(self) -> None:
        """Waits, and says nothing."""
        time.sleep(self.pause)
        self.pause = min(2 * self.pause, self.most)

    def forget(self) -> None:
        """Something went well."""
        self.pause, self.said = 0.05, ""
