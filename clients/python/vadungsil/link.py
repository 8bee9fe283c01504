"""A connection to a node: requests go out, replies come back in their order, within a time limit."""
from __future__ import annotations

import argparse
import contextlib
import errno
import os
import selectors
import socket
import ssl
import time
from typing import Iterable, List, NamedTuple, Optional, Tuple, Union

from .address import TLS, Place
from .errors import Fault, LinkBroken, NotANode, TimeLimit
from .messages import MOST_MESSAGE


class Certificates(NamedTuple):
    """The files of connections over TLS: `ca` has the certificates that may sign a node's, else those of the system do;
    `cert` is ours, and `key` its key, where that isn't in the same file."""

    ca: Optional[str] = None
    cert: Optional[str] = None
    key: Optional[str] = None

    def context(self) -> ssl.SSLContext:
        """`ValueError` where a file can't be read, or has none of it."""
        try:
            context = ssl.create_default_context(cafile=self.ca)
            if self.cert:
                context.load_cert_chain(self.cert, self.key)
        except OSError as error:
            raise ValueError(f"certificates of {', '.join(filter(None, self))}: {error}") from error
        return context

    def of(self, place: Place) -> "Certificates":
        """These, for a node over TLS; none for another."""
        return self if place.is_secured else Certificates()

    def see(self, places: Iterable[Place]) -> None:
        """`ValueError` where there are some, and no node is one over TLS: then nothing would be encrypted."""
        if any(self) and not any(place.is_secured for place in places):
            raise ValueError(f"certificates are for addresses that begin with {TLS}")


def add_certificates(words: argparse.ArgumentParser, prefix: str = "") -> None:
    """The options of a command that connects to nodes over TLS."""
    told = {
        "cacert": f"the certificates that may sign those of nodes at {TLS}HOST:PORT; else the system's do",
        "cert": "our certificate for them",
        "key": "its key, where that isn't in the same file",
    }
    for name, text in told.items():
        words.add_argument(f"--{prefix}{name}", dest=f"node_{name}", metavar="FILE", help=text)


def certificates_of(words: argparse.Namespace) -> Certificates:
    """What these options say."""
    return Certificates(*(getattr(words, f"node_{name}", None) for name in ("cacert", "cert", "key")))


def security_of(place: Place, certificates: Certificates) -> Optional[ssl.SSLContext]:
    """What a connection to a node goes through: nothing, but for "tls://HOST:PORT"."""
    return certificates.context() if place.is_secured else None


# ---------------------------------------------------------------- where no reply comes

# Nobody listens, and may so in a moment.
NOBODY = (ConnectionRefusedError, FileNotFoundError)


def no_connection(name: str, error: OSError) -> LinkBroken:
    """The error where no connection could be opened, of which this one is the reason."""
    if isinstance(error, NOBODY):
        return LinkBroken(f"{name}: nobody listens there: {os.strerror(error.errno) if error.errno else error}")
    if isinstance(error, socket.gaierror):
        return LinkBroken(f"{name}: no address is found for this name: {error}")
    return LinkBroken(f"{name}: {error}")


def too_late(name: str, limit: Optional[float], is_open: bool, has_replied: bool = False) -> TimeLimit:
    """The error where nothing came within the time: no connection, or no reply over one that is open."""
    if not is_open:
        return TimeLimit(f"{name}: no connection within {limit} s: the machine is away, or drops what is sent there")
    if has_replied:
        return TimeLimit(f"{name}: no reply within {limit} s: the node is stopped, or takes longer for it")
    why = "all connections of the node may be taken, or it is stopped"
    return TimeLimit(f"{name}: no reply within {limit} s, though it listens: {why}")


def no_length(name: str, data: bytes) -> Fault:
    """The error of bytes whose first four are no length of a reply."""
    size = int.from_bytes(data[:4], "big")
    number = 2 if size > MOST_MESSAGE else 10
    if data.startswith(b"\x15\x03"):
        return NotANode(number, "one who speaks TLS, and sends an alert", f"write {TLS}HOST:PORT", name)
    said = data[:4].decode("ascii", "replace")
    if not (said.isascii() and said.isprintable()):
        return Fault(number, place=f"{name}, length {size} of a reply")
    line = repr(data.splitlines()[0][:80].decode("ascii", "replace"))
    if said == "HTTP":
        return NotANode(
            number, f"one who speaks HTTP: {line}", "name the node's own port, without a proxy for HTTP before it", name
        )
    return NotANode(number, f"another server: {line}", "name the port of a node", name)


# ---------------------------------------------------------------- opening one

# how long is waited between two tries to connect, in seconds
PAUSE = 0.02


def is_joined_with_itself(own: socket.socket) -> bool:
    """Whether a socket is its own peer, as may come where nobody listens on a port that the system also hands out to
    clients."""
    return bool(own.getsockname() == own.getpeername())


def connected(place: Place, limit: Optional[float], wait: float) -> socket.socket:
    """A connection, tried again for so many seconds while nobody listens."""
    until = time.monotonic() + wait
    while True:
        try:
            return _connected_once(place, limit)
        except NOBODY:
            if time.monotonic() >= until:
                raise
            time.sleep(PAUSE)


def _connected_once(place: Place, limit: Optional[float]) -> socket.socket:
    if not place.path:
        found = socket.create_connection((place.host, place.port), timeout=limit)
        if not is_joined_with_itself(found):
            found.setsockopt(socket.IPPROTO_TCP, socket.TCP_NODELAY, 1)
            return found
        found.close()
        raise ConnectionRefusedError(errno.ECONNREFUSED, os.strerror(errno.ECONNREFUSED))
    found = socket.socket(socket.AF_UNIX, socket.SOCK_STREAM)
    try:
        found.settimeout(limit)
        found.connect(place.path)
        return found
    except BaseException:
        found.close()
        raise


def wrapped(plain: socket.socket, security: ssl.SSLContext, host: str) -> socket.socket:
    """The same connection, encrypted. What the other side's certificate lacks is raised; what it says of ours comes
    with the first reply."""
    try:
        return security.wrap_socket(plain, server_hostname=host)
    except BaseException:
        plain.close()
        raise


EITHER = selectors.EVENT_READ | selectors.EVENT_WRITE


def moved(selector: selectors.BaseSelector, limit: Optional[float]) -> Tuple[bool, bool]:
    """Whether the one socket of a selector can be read from and written to, as soon as it is one of them. TimeoutError:
    it is neither within so many seconds."""
    for _, events in selector.select(limit):
        return bool(events & selectors.EVENT_READ), bool(events & selectors.EVENT_WRITE)
    raise socket.timeout


class Link:
    """One connection, over TLS where a context is given: then the node's side has to have a certificate for the host.
    After any error it is closed; it isn't opened again."""

    def __init__(
        self,
        place: Place,
        limit: Optional[float],
        wait: float = 0.0,
        security: Optional[ssl.SSLContext] = None,
    ) -> None:
        self.name, self.limit, self.has_replied = place.name, limit, False
        try:
            self.socket = connected(place, limit, wait)
            if security is not None:
                self.socket = wrapped(self.socket, security, place.host)
        except socket.timeout:
            raise too_late(self.name, limit, False) from None
        except OSError as error:
            raise no_connection(self.name, error) from error
        self.kept = bytearray()

    def close(self) -> None:
        self.socket.close()

    def set_limit(self, limit: Optional[float]) -> None:
        """The most seconds of each wait from here on. That a connection is closed is said by the next exchange."""
        self.limit = limit
        with contextlib.suppress(OSError):
            self.socket.settimeout(limit)

    def exchange(self, data: bytes, count: int, found: List[bytes]) -> None:
        """Sends requests and adds the rests of so many replies to the list as they come. The limit is for each wait."""
        try:
            self._send_beside(data, count, found)
            while len(found) < count:
                self._cut(self._received(), count, found)
        except socket.timeout:
            self.close()
            raise too_late(self.name, self.limit, True, self.has_replied) from None
        except LinkBroken:
            self.close()
            raise
        except (OSError, ValueError) as error:
            why = self._refused_by_tls() or error
            self.close()
            raise LinkBroken(f"{self.name}: {why}") from why
        except BaseException:
            self.close()
            raise

    def _send_beside(self, data: bytes, count: int, found: List[bytes]) -> None:
        """A node reads on only when its reply is written, so what comes is taken while the rest is sent."""
        if len(data) <= 4_096:
            self.socket.sendall(data)
            return
        rest = memoryview(data)
        # select.select() fails for a file descriptor of 1,024 or more; what the system has beside it doesn't
        with selectors.DefaultSelector() as selector:
            selector.register(self.socket, EITHER)
            send = self._send_secured if isinstance(self.socket, ssl.SSLSocket) else self._send_plain
            send(selector, rest, count, found)

    def _send_plain(self, selector: selectors.BaseSelector, rest: memoryview, count: int, found: List[bytes]) -> None:
        while rest:
            is_readable, is_writable = moved(selector, self.limit)
            if is_readable:
                self._cut(self._received(), count, found)
            if is_writable:
                rest = rest[self.socket.send(rest[:65_536]) :]

    def _send_secured(self, selector: selectors.BaseSelector, rest: memoryview, count: int, found: List[bytes]) -> None:
        """The same over TLS, where there may be something to read that is no reply."""
        self.socket.settimeout(0.0)
        while rest:
            has_moved = False
            try:
                self._cut(self._received(), count, found)
                has_moved = True
            except ssl.SSLWantReadError:
                pass
            try:
                rest = rest[self.socket.send(rest[:16_384]) :]
            except (ssl.SSLWantReadError, ssl.SSLWantWriteError):
                if not has_moved:
                    moved(selector, self.limit)
        self.socket.settimeout(self.limit)

    def _refused_by_tls(self) -> Optional[ssl.SSLError]:
        """What the other side of TLS said before it ended the connection, where that can still be read."""
        try:
            if isinstance(self.socket, ssl.SSLSocket):
                self.socket.settimeout(1.0)
                while self.socket.recv(65_536):
                    pass
        except ssl.SSLError as error:
            return error
        except (OSError, ValueError):
            pass
        return None

    def _received(self) -> bytes:
        piece = self.socket.recv(262_144)
        if not piece:
            raise LinkBroken(f"{self.name}: the node ended the connection" + (" inside a reply" if self.kept else ""))
        return piece

    def _cut(self, piece: bytes, count: int, found: List[bytes]) -> None:
        """Cuts the whole replies out of what has come."""
        data: Union[bytes, bytearray] = piece
        if self.kept:
            self.kept += piece
            data = self.kept
        at, length = 0, len(data)
        while length - at >= 4 and len(found) < count:
            size = int.from_bytes(data[at : at + 4], "big")
            if not 2 <= size <= MOST_MESSAGE:
                raise no_length(self.name, bytes(data[at : at + 200]))
            if length - at < 4 + size:
                break
            found.append(bytes(data[at + 4 : at + 4 + size]))
            self.has_replied = True
            at += 4 + size
        if data is self.kept:
            del self.kept[:at]
        elif at < length:
            self.kept = bytearray(piece[at:])
