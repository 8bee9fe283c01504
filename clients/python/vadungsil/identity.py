"""What a log says of itself in table 0: which one it is, and who writes it by now. docs/FORMATS.md, "Table 0"."""
from __future__ import annotations

import struct
from typing import NamedTuple, Tuple

from .errors import VadungsilError

# table 0 is the log's own; the capture of a PostgreSQL has 0, 1 and those from 2^16 on
OWN, IDENTITY, TERM, BEAT = 0, 2, 3, 4
NUMBERS, MICROSECONDS, MOMENTS = 0, 1, 2
KINDS = ("numbers", "a clock's microseconds", "moments of a capture")
VERSION = 1
NAME = b"vadungsil log"

_IDENTITY = struct.Struct(">13sB16sIB")
_TERM = struct.Struct(">BQQH")


class Identity(NamedTuple):
    """Which log it is: 128 random bits, of its birth; how often it beats at least, in milliseconds, 0 where it
    doesn't; and what its times are: 0 numbers, 1 microseconds of a clock, 2 moments of a capture."""

    bits: bytes
    beat: int
    times: int

    def body(self) -> bytes:
        """As the row has it."""
        return _IDENTITY.pack(NAME, VERSION, *self)


class Term(NamedTuple):
    """The writing of one writer, from its opening to its end: its number, from 1 on, 64 random bits, and the last entry
    of each stream before it."""

    number: int
    bits: int
    before: Tuple[int, ...]

    def body(self) -> bytes:
        """As the row has it."""
        numbers = b"".join(it.to_bytes(8, "big") for it in self.before)
        return _TERM.pack(VERSION, self.number, self.bits, len(self.before)) + numbers


def identity_of(body: bytes) -> Identity:
    """`VadungsilError`: it is none, or one of another version."""
    if len(body) >= 14 and body[:13] == NAME and body[13] != VERSION:
        raise VadungsilError(f"an identity of version {body[13]}, and this reads version {VERSION}")
    if len(body) != _IDENTITY.size or body[:13] != NAME:
        raise VadungsilError(f"{body[:40]!r} is no identity of a log")
    _, _, bits, beat, times = _IDENTITY.unpack(body)
    if times not in (NUMBERS, MICROSECONDS, MOMENTS):
        raise VadungsilError(f"an identity with times of kind {times}, and this knows kinds 0 to 2")
    return Identity(bits, beat, times)


def term_of(body: bytes) -> Term:
    """`VadungsilError`: it is none, or one of another version."""
    if body and body[0] != VERSION:
        raise VadungsilError(f"a term of version {body[0]}, and this reads version {VERSION}")
    if len(body) < _TERM.size or len(body) != _TERM.size + 8 * int.from_bytes(body[17:19], "big"):
        raise VadungsilError(f"{body[:40]!r} is no term of a log")
    _, number, bits, _ = _TERM.unpack_from(body)
    numbers = range(_TERM.size, len(body), 8)
    return Term(number, bits, tuple(int.from_bytes(body[at : at + 8], "big") for at in numbers))
