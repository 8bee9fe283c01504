"""What is known of a log in a file, as bytes: a line with a name and version, a line of JSON, for each row that stands
a u16 table, a u64 key and a u64 time of birth, and the SHA-256 of all of that. Standard library only."""
from __future__ import annotations

import hashlib
import json
import struct
from typing import Any, Dict, NamedTuple, Optional

from .log_state import LogState

_BIRTH = struct.Struct(">HQQ")


class Packed(NamedTuple):
    """What was read: what the line says, and the rows."""

    said: Dict[str, Any]
    births: bytes

    def fill(self, state: LogState) -> None:
        """Has a state be what this says."""
        said = self.said
        state.number, state.time, state.marked = said["number"], said["time"], said["marked"]
        state.is_retired = said["retired"]
        state.own = {int(key): bytes.fromhex(body) for key, body in said["own"].items()}
        state.born = {(table, key): born for table, key, born in _BIRTH.iter_unpack(self.births)}


def packed(name: bytes, state: LogState, **more: Any) -> bytes:
    """The bytes of a state, with more in its line."""
    said = {
        "number": state.number,
        "time": state.time,
        "marked": state.marked,
        "retired": state.is_retired,
        "own": {str(key): body.hex() for key, body in state.own.items()},
        **more,
    }
    pack = _BIRTH.pack
    births = b"".join([pack(table, key, born) for (table, key), born in state.born.items()])
    body = name + json.dumps(said).encode() + b"\n" + births
    return body + hashlib.sha256(body).digest()


def unpacked(name: bytes, path: str) -> Optional[Packed]:
    """What a file has; None where there is none, or what there is is none."""
    try:
        with open(path, "rb") as file:
            data = file.read()
    except OSError:
        return None
    body, digest = data[:-32], data[-32:]
    end = body.find(b"\n", len(name)) + 1
    if not body.startswith(name) or not end or hashlib.sha256(body).digest() != digest:
        return None
    return Packed(json.loads(body[len(name) : end]), body[end:])
