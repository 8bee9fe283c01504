"""Where a node is: addresses as they are written, and where none is, that of the environment."""
from __future__ import annotations

import os
import socket
from typing import NamedTuple, Optional, Tuple, Union

TLS, UNIX = "tls://", "unix:"

# The environment's address, and what counts where it has none.
VARIABLE = "HKREP_NODE"
USUAL = "127.0.0.1:7420"

FORMS = f"PORT, HOST:PORT, [::1]:PORT, {TLS}HOST:PORT or {UNIX}PATH"
ELSE = f"else that of {VARIABLE} in the environment, else {USUAL}"
MOST_PATH = 107


class Place(NamedTuple):
    """Where a node is: a host and a port, through TLS or not, or the path of a Unix socket."""

    host: str
    port: int
    is_secured: bool = False
    path: str = ""

    @property
    def name(self) -> str:
        """As it is written, without how it is secured."""
        if self.path:
            return f"{UNIX}{self.path}"
        return f"[{self.host}]:{self.port}" if ":" in self.host else f"{self.host}:{self.port}"


Address = Union[int, str, Tuple[str, int], Place]


def place_of(address: Optional[Address] = None) -> Place:
    """Where a node is: a port of this machine, the forms of `FORMS` as a text, or host and port. None: what HKREP_NODE
    in the environment says, or 127.0.0.1:7420 where that is empty or isn't there. `ValueError`: it is no address, with
    what one is; a wrong one of the environment is named as that."""
    if isinstance(address, Place):
        return address
    if isinstance(address, str):
        return _written(address)
    if isinstance(address, tuple):
        return Place(address[0], _port(address, str(address[1])))
    if isinstance(address, int):
        return Place("127.0.0.1", _port(address, str(address)))
    return _written(usual())


def usual() -> str:
    """The address that counts where none is given. `ValueError`: that of the environment is none."""
    word = os.environ.get(VARIABLE) or USUAL
    try:
        _written(word)
    except ValueError as error:
        raise ValueError(f"{VARIABLE} in the environment: {error}") from None
    return word


def address_word(word: str) -> str:
    """The same word, where it is an address: for commands."""
    _written(word)
    return word


def host_and_port(word: str, least: int = 1) -> Tuple[str, int]:
    """Host and port of HOST:PORT, [IPv6]:PORT, or a port of this machine. `ValueError`: it is none."""
    host, _, port = word.rpartition(":")
    if host.startswith("[") and host.endswith("]") and _is_ipv6(host[1:-1]):
        host = host[1:-1]
    elif ":" in host and _is_ipv6(word.strip("[]")):
        raise _no_address(word, "an IPv6 address has brackets, and a port behind: [::1]:7420")
    elif any(letter in " \t\n/@[]:" for letter in host):
        raise _no_address(word)
    return host or "127.0.0.1", _port(word, port, least)


def _written(word: str) -> Place:
    if word.startswith(UNIX):
        path = word[len(UNIX) :]
        if not 0 < len(os.fsencode(path)) <= MOST_PATH or "\0" in path:
            raise _no_address(word, f"the path of a Unix socket has 1 to {MOST_PATH} bytes")
        return Place("", 0, False, path)
    is_secured = word.startswith(TLS)
    rest = word[len(TLS) :] if is_secured else word
    if "://" in rest:
        meant = rest.partition("://")[2].strip("/") or "HOST:PORT"
        raise _no_address(word, f"write {meant}, or {TLS}{meant} for TLS")
    try:
        return Place(*host_and_port(rest), is_secured)
    except ValueError as error:
        raise error if rest is word else _no_address(word) from None


def _port(address: object, word: str, least: int = 1) -> int:
    if not (word.isascii() and word.isdigit() and len(word) <= 9 and least <= int(word) <= 65_535):
        raise _no_address(address)
    return int(word)


def _is_ipv6(host: str) -> bool:
    try:
        socket.inet_pton(socket.AF_INET6, host.partition("%")[0])
    except (OSError, ValueError):
        return False
    return True


def _no_address(address: object, why: str = f"an address is {FORMS}") -> ValueError:
    return ValueError(f"no address: {address!r}: {why}")
