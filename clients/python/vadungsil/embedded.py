"""A replica in this process, by ctypes over libhekaton.so: no node, no connection, no compiler. docs/EMBEDDING.md."""
from __future__ import annotations

import ctypes
import ctypes.util
import os
from typing import Any, List, Optional

from .errors import Fault, Refused
from .link import Link
from .node import Node
from .reading import Bytes
from .values import Row, key_of, number_in, table_of, time_of

ROOM = 4_096


class _Handle(ctypes.Structure):
    _fields_ = [("at", ctypes.c_void_p), ("live", ctypes.c_bool)]


class _Found(ctypes.Structure):
    _fields_ = [("row", ctypes.c_bool), ("tag", ctypes.c_uint32), ("len", ctypes.c_size_t)]


def _signatures(library: Any) -> Any:
    handle, buffer, size, u64, u16 = (
        ctypes.POINTER(_Handle),
        ctypes.c_void_p,
        ctypes.c_size_t,
        ctypes.c_uint64,
        ctypes.c_uint16,
    )
    told = ctypes.POINTER(size)
    for name, kinds, gives in (
        ("open", [handle, u64, u16], ctypes.c_uint8),
        ("close", [handle], None),
        ("merge", [handle, handle], ctypes.c_uint8),
        ("call", [handle, ctypes.c_char_p, size, buffer, size, told], ctypes.c_uint8),
        ("finish", [handle], ctypes.c_uint8),
        ("reply", [handle, size, buffer, size], size),
        ("absorb", [handle, ctypes.c_char_p, size], ctypes.c_uint8),
        ("get", [handle, u64, u16, u64, ctypes.POINTER(_Found), buffer, size], ctypes.c_uint8),
    ):
        function = getattr(library, f"hk_{name}")
        function.argtypes, function.restype = kinds, gives
    return library


_loaded: Any = None


def _library(path: Optional[str]) -> Any:
    """The library at a path, or at HEKATON_LIBRARY, or where the loader finds it."""
    global _loaded
    if path is None and _loaded is not None:
        return _loaded
    library = _signatures(
        ctypes.CDLL(path or os.environ.get("HEKATON_LIBRARY") or ctypes.util.find_library("hekaton") or "libhekaton.so")
    )
    if path is None:
        _loaded = library
    return library


class Replica(Node):
    """A replica of a log of 1 to 64 streams (5), with all that a `Node` can be asked: `Replica(7, 1)`. A conflict (23)
    changes nothing.

    Threads may share it; their calls go one after the other. It is freed by `close`, at the end of a `with`, or with
    the object. It can't be copied or pickled, and is of no use in a forked child."""

    def __init__(self, log: int, streams: int, library: Optional[str] = None) -> None:
        self._handle, self._buffer, self._size = (
            _Handle(None, False),
            ctypes.create_string_buffer(ROOM),
            ctypes.c_size_t(),
        )
        self._library = _library(library)
        super().__init__(1, messages=1)
        self.log, self.count_of_streams = number_in(log, 0, 2**64 - 1, "log"), number_in(
            streams, 0, 2**16 - 1, "streams"
        )
        self._found = _Found()
        self._done(self._library.hk_open(self._handle, log, streams))

    @property
    def name(self) -> str:
        return f"embedded replica of log {self.log}"

    @staticmethod
    def _done(number: int) -> None:
        if number == 255:
            raise ValueError("the replica is closed")
        if number:
            raise Refused(number)

    def _exchange(self, requests: List[bytes]) -> List[bytes]:
        asked = b"".join(requests)
        with self._lock:
            number = self._library.hk_call(self._handle, asked, len(asked), self._buffer, len(self._buffer), self._size)
            size = self._size.value
            if size > len(self._buffer):
                self._buffer = ctypes.create_string_buffer(size)
                self._library.hk_reply(self._handle, 0, self._buffer, size)
            told = ctypes.string_at(self._buffer, size)
        found: List[bytes] = []
        at = 0
        while at + 4 <= len(told) and len(found) < len(requests):
            end = at + 4 + int.from_bytes(told[at : at + 4], "big")
            if end > len(told):
                break
            found.append(told[at + 4 : end])
            at = end
        if len(found) < len(requests):
            self._done(number or 90)
        return found

    def _own_link(self, within: Optional[float] = None) -> Link:
        raise Fault(3, place=f"{self.name}: no node, and without messages of version 2")

    def call(self, requests: Bytes) -> bytes:
        """The bytes of the replies to the bytes of whole request frames, with that of a fault in the last of them."""
        asked = bytes(requests)
        with self._lock:
            if (
                self._library.hk_call(self._handle, asked, len(asked), self._buffer, len(self._buffer), self._size)
                == 255
            ):
                self._done(255)
            size = self._size.value
            if size > len(self._buffer):
                self._buffer = ctypes.create_string_buffer(size)
                self._library.hk_reply(self._handle, 0, self._buffer, size)
            return ctypes.string_at(self._buffer, size)

    def absorb(self, piece: Bytes) -> None:
        """Takes the next piece of a stream of item frames; what is cut off at its end is kept for the next piece."""
        taken = bytes(piece)
        with self._lock:
            self._done(self._library.hk_absorb(self._handle, taken, len(taken)))

    def finish(self) -> None:
        """Ends the stream of item frames, and begins another. 1: a frame was cut off."""
        with self._lock:
            self._done(self._library.hk_finish(self._handle))

    # what nodes send to one another, a replica takes as it is
    def merge(self, peer: "Replica") -> None:  # type: ignore[override]
        """Joins all that another replica in this process holds."""
        if peer is self:
            return
        first, second = sorted((self, peer), key=id)
        with first._lock, second._lock:
            self._done(self._library.hk_merge(self._handle, peer._handle))

    def get(self, table: int, key: int, at: Optional[int] = None) -> Optional[Row]:
        """The row of a key, or None."""
        if at is not None:
            found, time, table, key = self._found, time_of(at), table_of(table), key_of(key)
            with self._lock:
                if self._library.hk_get(self._handle, time, table, key, found, self._buffer, len(self._buffer)) == 0:
                    return Row(found.tag, ctypes.string_at(self._buffer, found.len)) if found.row else None
        return super().get(table, key, at)

    def close(self) -> None:
        """Lets the replica go. Each call from then on is a ValueError."""
        with self._lock:
            self._library.hk_close(self._handle)

    def __del__(self) -> None:
        if "_library" in self.__dict__ and "_lock" in self.__dict__:
            self._library.hk_close(self._handle)

    def __reduce__(self) -> Any:
        raise TypeError("a replica can't be copied")

    def __repr__(self) -> str:
        return f"Replica({self.log}, {self.count_of_streams})"
