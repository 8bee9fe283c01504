"""FILE.head-K of a log in a file that begins behind entry K: what has to be known of the log up to there to go on with
it. Standard library only."""
from __future__ import annotations

import os

from .errors import Broken
from .log_state import LogState
from .packed import packed, unpacked

HEAD, NAME = ".head-", b"vadungsil head 1\n"
NEW = ".new"  # of what isn't in its place yet


def read_head(path: str, log: int, number: int, state: LogState) -> None:
    """Has a state be that behind entry `number`. 3: FILE.head-K isn't there, or is corrupt; 4: another log's."""
    head = unpacked(NAME, f"{path}{HEAD}{number}")
    if head is None:
        what = f"{path} begins with entry {number + 1}, and {path}{HEAD}{number} isn't there or is corrupt"
        raise Broken(3, f"{what}: put back that of the same copy")
    if head.said["log"] != log or head.said["number"] != number:
        raise Broken(4, f"{path}{HEAD}{number} is of log {head.said['log']}, entry {head.said['number']}")
    head.fill(state)


def write_head(path: str, log: int, state: LogState) -> None:
    """Writes FILE.head-K: beside its place, then there. Its name is on the disk once the folder is synced."""
    place = f"{path}{HEAD}{state.number}"
    with open(place + NEW, "wb") as file:
        file.write(packed(NAME, state, log=log))
        file.flush()
        os.fdatasync(file.fileno())
    os.rename(place + NEW, place)


def is_compacted(path: str, first: int) -> bool:
    """Whether what lacks before the first entry went by a compaction."""
    return first > 1 and os.path.exists(f"{path}{HEAD}{first - 1}")
