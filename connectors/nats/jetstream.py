"""NATS by its protocol of text lines over one socket, and of JetStream what a log needs: make a stream, append behind a
sequence that is named, get a message by its sequence, have many handed out by a consumer. Standard library only; TLS,
and a user's password, where they are asked for."""
from __future__ import annotations

import collections
import itertools
import json
import os
import random
import select
import socket
import ssl
import time
from typing import Any, Collection, Deque, Dict, List, NamedTuple, Optional, Sequence, Set, Tuple
from urllib.parse import urlsplit

# in seconds: how long a connection, a reply, and each try of a question that may be asked again are waited for
LINK, REPLY, TRIES = 2.0, 5.0, (0.2, 0.2, 0.4, 0.8, 1.6, 3.2)

# Below this one a server loses acknowledged messages after a partition: a replica that was cut off stays behind, and
# may lead.
LEAST = (2, 10, 27)

# No leader, not enough servers, too many requests at once: of JetStream's errors those that a later try may fix
PASSING_CODES, PASSING_ERRORS = (408, 503, 504), (10005, 10008, 10014, 10039, 10074, 10077, 10118)


class Away(OSError):
    """No server, or a reply that didn't come in time: a later try may go well."""


class Late(Away):
    """No reply in time: ask again, it may have been handed to a server that is cut off."""


class Denied(OSError):
    """What no later try fixes: a user, a right, a certificate, a server that is too old."""


class ApiError(Exception):
    """What JetStream refuses."""

    def __init__(self, told: Dict[str, Any]) -> None:
        super().__init__(f"{told.get('err_code', told.get('code'))}: {told.get('description')}")
        self.code, self.number = told.get("code"), told.get("err_code")

    def is_passing(self) -> bool:
        return self.code in PASSING_CODES or self.number in PASSING_ERRORS


class Message(NamedTuple):
    subject: bytes
    to: bytes  # which of our subscriptions it is for
    status: bytes  # of a reply without data, else empty
    head: bytes
    data: bytes
    reply: bytes

    def header(self, name: bytes) -> bytes:
        """A header's value; empty where it isn't there."""
        at = self.head.find(b"\r\n" + name + b":")
        return self.head[at + len(name) + 3 : self.head.index(b"\r\n", at + 2)].strip() if at >= 0 else b""


class Security(NamedTuple):
    """The files of --cacert, --cert and --key."""

    cacert: Optional[str] = None
    cert: Optional[str] = None
    key: Optional[str] = None

    def around(self, plain: socket.socket, host: str) -> socket.socket:
        context = ssl.create_default_context(cafile=self.cacert)
        if self.cert:
            context.load_cert_chain(self.cert, self.key)
        try:
            return context.wrap_socket(plain, server_hostname=host)
        except ssl.SSLError as error:
            raise Denied(f"{host}: {error}") from None


def version_of(text: str) -> Tuple[int, ...]:
    """2.10.27-beta is 2, 10, 27."""
    return tuple(int(word) for word in text.partition("-")[0].split(".") if word.isdigit())


def see_version(name: str, version: str) -> None:
    if version_of(version) < LEAST:
        least = ".".join(map(str, LEAST))
        raise Denied(
            f"{name} is nats-server {version}, which loses acknowledged messages after a partition: {least} or later is"
            " needed on each server"
        )


class Nats:
    """One connection to one of some servers, each HOST:PORT, nats://USER@HOST:PORT or tls://USER@HOST:PORT; opened at
    once. Any server hands a request on to the one that it is for."""

    def __init__(self, urls: Sequence[str], security: Security = Security(), limit: float = REPLY) -> None:
        self.limit, self.security = limit, security
        self.counter = itertools.count(1)
        self.asked: Set[bytes] = set()
        self.got: Dict[bytes, Message] = {}  # replies, by their tokens
        self.flows: Dict[
            bytes, Deque[Message]
        ] = {}  # replies of which there are many, by the subscription that they are for
        reasons = []
        for url in random.sample(list(urls), len(urls)):
            try:
                self.open(url)
                return
            except Denied:
                raise
            except OSError as error:
                reasons.append(str(error) if isinstance(error, Away) else f"{url.rpartition('@')[2]}: {error}")
        raise Away("; ".join(reasons))

    def open(self, url: str) -> None:
        split = urlsplit(url if "://" in url else f"nats://{url}")
        host, port = split.hostname or "127.0.0.1", split.port or 4222
        self.name = f"{host}:{port}"
        self.socket = socket.create_connection((host, port), timeout=LINK)
        self.socket.setsockopt(socket.IPPROTO_TCP, socket.TCP_NODELAY, 1)
        self.buffer, self.at = b"", 0
        try:
            until = time.monotonic() + LINK
            self.info: Dict[str, Any] = json.loads(self.line(until)[5:])
            see_version(self.name, self.info.get("version", ""))
            if split.scheme == "tls" or self.info.get("tls_required"):
                self.socket = self.security.around(self.socket, host)
            self.inbox = b"_INBOX.%08x%08x" % (random.getrandbits(32), os.getpid())
            try:
                self.socket.sendall(b"CONNECT %s\r\nSUB %s.* 1\r\nPING\r\n" % (self.hello(split.username), self.inbox))
            except OSError:
                pass  # the server says why, in what can still be read
            while self.line(until) != b"PONG":
                pass
        except (ValueError, IndexError) as error:
            self.socket.close()
            raise Away(f"{self.name}: no NATS server: {error}") from None
        except BaseException:
            self.socket.close()
            raise

    @staticmethod
    def hello(user: Optional[str]) -> bytes:
        said = {
            "verbose": False,
            "pedantic": False,
            "headers": True,
            "no_responders": True,
            "lang": "python",
            "version": "0",
            "protocol": 1,
            "name": "hekaton",
        }
        if user:
            said.update(user=user, **{"pass": os.environ.get("NATS_PASSWORD", "")})
        return json.dumps(said).encode()

    def close(self) -> None:
        self.socket.close()

    # ------------------------------------------------------------ bytes

    def more(self, until: float) -> None:
        left = until - time.monotonic()
        if left <= 0:
            raise Late(f"{self.name}: no reply in time")
        self.socket.settimeout(left)
        try:
            piece = self.socket.recv(1 << 18)
        except (socket.timeout, TimeoutError):
            raise Late(f"{self.name}: no reply in time") from None
        except ssl.SSLError as error:
            raise Denied(f"{self.name}: {error}") from None
        except OSError as error:
            raise Away(f"{self.name}: {error}") from None
        if not piece:
            raise Away(f"{self.name}: the server ended the connection")
        self.buffer, self.at = self.buffer[self.at :] + piece if self.at < len(self.buffer) else piece, 0

    def line(self, until: float) -> bytes:
        """The next line; raises where it reports an error."""
        while (end := self.buffer.find(b"\r\n", self.at)) < 0:
            self.more(until)
        line = self.buffer[self.at : end]
        self.at = end + 2
        if line.startswith(b"-ERR"):
            text = f"{self.name}: {line[5:].decode(errors='replace')}"
            raise Denied(text) if b"Violation" in line else Away(text)
        return line

    def exactly(self, size: int, until: float) -> bytes:
        if len(self.buffer) - self.at < size:
            parts, have = [self.buffer[self.at :]], len(self.buffer) - self.at
            try:
                while have < size:
                    self.buffer, self.at = b"", 0
                    self.more(until)
                    parts.append(self.buffer)
                    have += len(self.buffer)
            except Away as away:
                raise Away(f"cut off inside a message: {away}") from None
            self.buffer, self.at = b"".join(parts), 0
        data = self.buffer[self.at : self.at + size]
        self.at += size
        return data

    def read(self, until: float) -> Optional[Message]:
        """The next message; None where a line was none."""
        line = self.line(until)
        words = line.split()
        if words and words[0] in (b"MSG", b"HMSG"):
            has_head = words[0] == b"HMSG"
            size, split = int(words[-1]), int(words[-2]) if has_head else 0
            data = self.exactly(size + 2, max(until, time.monotonic() + self.limit))[:size]
            status = data[9:12] if has_head and data[8:9] == b" " else b""
            return Message(
                words[1], words[2], status, data[:split], data[split:], words[3] if len(words) == 5 + has_head else b""
            )
        if line == b"PING":
            self.send(b"PONG\r\n")
        return None

    def send(self, *parts: bytes) -> None:
        try:
            self.socket.settimeout(self.limit)
            self.socket.sendall(b"".join(parts))
        except OSError as error:
            raise Away(f"{self.name}: {error}") from None

    # ------------------------------------------------------------ requests

    def put(self, subject: bytes, data: bytes = b"", head: bytes = b"") -> Tuple[bytes, bytes]:
        """The bytes of a request, and before them the token by which its reply is known."""
        token = b"%d" % next(self.counter)
        self.asked.add(token)
        reply = self.inbox + b"." + token
        if head:
            head = b"NATS/1.0\r\n" + head + b"\r\n"
            return token, b"HPUB %s %s %d %d\r\n%s%s\r\n" % (
                subject,
                reply,
                len(head),
                len(head) + len(data),
                head,
                data,
            )
        return token, b"PUB %s %s %d\r\n%s\r\n" % (subject, reply, len(data), data)

    def take(self, token: bytes, limit: Optional[float] = None) -> Message:
        """The reply to a request that was sent."""
        until = time.monotonic() + (limit or self.limit)
        while token not in self.got:
            self.sort(self.read(until))
        self.asked.discard(token)
        message = self.got.pop(token)
        if message.status == b"503":
            raise Away(f"{self.name}: nobody answers (no responders)")
        return message

    def forget(self, tokens: Sequence[bytes]) -> None:
        """Replies to these are of no more use."""
        for token in tokens:
            self.asked.discard(token)
            self.got.pop(token, None)

    def sort(self, message: Optional[Message]) -> None:
        """Puts a message where it is waited for; consumers' come under subjects of their own, so it goes by the
        subscription."""
        if message is None:
            return
        if message.to == b"1":
            token = message.subject.rpartition(b".")[2]
            if token in self.asked:
                self.got[token] = message
        elif message.to in self.flows:
            self.flows[message.to].append(message)

    def flow(self) -> Tuple[bytes, bytes]:
        """A subject for many replies, and the subscription that they are sorted by."""
        to = b"%d" % (next(self.counter) + 1000)
        self.flows[to] = collections.deque()
        subject = self.inbox + b".f." + to
        self.send(b"SUB %s %s\r\n" % (subject, to))
        return subject, to

    def has_more(self) -> bool:
        """Whether something is there to be read without waiting."""
        pending = self.socket.pending() if isinstance(self.socket, ssl.SSLSocket) else 0
        return self.at < len(self.buffer) or pending > 0 or bool(select.select([self.socket], [], [], 0)[0])

    def come(self, tokens: Collection[bytes], waits: bool) -> List[bytes]:
        """Those of some requests whose replies are there. Waits for the first, else for nothing but the rest of a
        message."""
        until = time.monotonic() + self.limit
        while not (there := [it for it in tokens if it in self.got]) and (waits or self.has_more()):
            self.sort(self.read(until))
        return there

    def ask_again(self, subject: bytes, data: bytes) -> Message:
        """A question that may be asked as often as wanted. Servers share such questions among them, also with one that
        was cut off and isn't known to be away yet: what it was handed is lost, so little patience at first."""
        for limit in TRIES:
            token, text = self.put(subject, data)
            self.send(text)
            try:
                return self.take(token, limit)
            except Late:
                self.forget([token])
        raise Late(f"{self.name}: no reply in {len(TRIES)} tries")

    def ask(self, subject: str, said: Any = None, limit: Optional[float] = None) -> Dict[str, Any]:
        """A request of JetStream's own, and what it returns."""
        token, text = self.put(subject.encode(), b"" if said is None else json.dumps(said).encode())
        self.send(text)
        return self.told_of(self.take(token, limit))

    @staticmethod
    def told_of(message: Message) -> Dict[str, Any]:
        told: Dict[str, Any] = json.loads(message.data)
        if "error" in told:
            raise ApiError(told["error"])
        return told


def versions(urls: Sequence[str]) -> List[Tuple[str, str]]:
    """Each server, and its version or why it doesn't say one."""
    told = []
    for url in urls:
        split = urlsplit(url if "://" in url else f"nats://{url}")
        name = f"{split.hostname}:{split.port or 4222}"
        try:
            with socket.create_connection((split.hostname or "127.0.0.1", split.port or 4222), timeout=LINK) as link:
                told.append((name, json.loads(link.makefile("rb").readline()[5:]).get("version", "")))
        except (OSError, ValueError) as error:
            told.append((name, f"? {error}"))
    return told
