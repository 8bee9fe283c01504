"""FILE.index of a log in a file: what reading the file up to a place gave, so that the next writer needn't read it
again. It may be deleted at any time. It counts only where the file has that place, and there the checksum that it
names, and the block before is what that checksum says; each checksum is made over the one before it, so all that stands
before is the same. Standard library only."""
from __future__ import annotations

import contextlib
import os
from typing import Any, Dict, Optional

from .item_file import ItemFile
from .log_state import LogState
from .packed import Packed, packed, unpacked
from .sums import Line, Sums

SUFFIX, NAME = ".index", b"vadungsil index 1\n"


def read_index(path: str) -> Optional[Packed]:
    """What FILE.index has; None where there is none, or what there is is none."""
    return unpacked(NAME, path + SUFFIX)


def is_of(said: Dict[str, Any], items: ItemFile) -> bool:
    """Whether an index belongs to a file that was opened for writing: its last line stands there, and its block."""
    before, text = said["before"].encode(), said["line"].encode()
    if not items.is_summed or said["log"] != items.log:
        return False
    if (
        os.fstat(items.file).st_size < said["end"]
        or os.pread(items.sums.file, len(text), said["at"] - len(text)) != text
    ):
        return False
    sums = Sums(items.path)
    sums.before, sums.end = before, said["begin"]
    line = Line(said["end"], said["number"], bytes.fromhex(text.split()[2].decode()), text)
    return not sums.wrong(line, items.bytes_of(said["begin"], said["end"]))


def take_index(index: Packed, items: ItemFile, state: LogState) -> None:
    """Goes on behind what an index is of."""
    said = index.said
    items.sums.at, items.sums.end, items.sums.before = said["at"], said["end"], said["line"].encode()
    items.sums.begin, items.sums.earlier = said["begin"], said["before"].encode()
    places = items.places
    places.size, places.first, places.number, places.latest = said["end"], said["first"], said["number"], said["latest"]
    index.fill(state)


def write_index(items: ItemFile, state: LogState) -> None:
    """Writes the index of what a file has by now: beside its place, then there. A disk that is full leaves none."""
    sums, places = items.sums, items.places
    data = packed(
        NAME,
        state,
        log=items.log,
        begin=sums.begin,
        end=sums.end,
        at=sums.at,
        before=sums.earlier.decode(),
        line=sums.before.decode(),
        first=places.first,
        latest=places.latest,
    )
    new = items.path + SUFFIX + ".new"
    try:
        with open(new, "wb") as file:
            file.write(data)
        os.replace(new, items.path + SUFFIX)
    except OSError:
        for it in (new, items.path + SUFFIX):
            with contextlib.suppress(OSError):
                os.unlink(it)
