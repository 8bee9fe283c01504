"""Another log with all that a log in a file has. Standard library only."""
from __future__ import annotations

import contextlib
import errno
import os
from typing import Dict, List, Optional

from .blocks import BLOCK_BYTES, Block, Cutter, Framed, in_blocks
from .identity import IDENTITY, OWN, TERM, Identity, Term
from .item_file import PIECE, ItemFile
from .items import encode
from .heads import HEAD, read_head, write_head
from .log_index import SUFFIX as INDEX
from .log_state import LogState
from .sums import SUFFIX as SUMS
from .values import LAST_TIME
from .writer import LogWriter, Place


def copy_as(
    items: ItemFile, number: int, time: int, born: Dict[Place, int], identity: Optional[Identity], path: str, log: int
) -> None:
    """Writes the log to another file, under another id, and behind it a new identity where it has one. `items` are
    open, with so many entries up to this time, and these rows stand. No file is left where it fails."""
    first = items.places.first
    files = [path, path + SUMS, path + INDEX, f"{path}{HEAD}{first - 1}"]
    for it in files:
        if os.path.exists(it):
            raise FileExistsError(errno.EEXIST, "a log is never forked over another file", it)
    other = ItemFile(path, log, fsync=False)
    try:
        other.prepare()
        copy_items(items, other)
        if first > 1:
            state = LogState(items.path)
            read_head(items.path, items.log, first - 1, state)
            write_head(path, log, state)
        if identity is not None:
            add_identity(other, LogWriter.behind(log, [number], time, born), identity)
        other.sync()
    except BaseException:
        for it in files:
            with contextlib.suppress(OSError):
                os.unlink(it)
        raise
    finally:
        other.drop()


def copy_items(items: ItemFile, other: ItemFile) -> None:
    """All items, but for the mark that retired the stream."""
    cutter, at = Cutter(), 0
    while at < items.places.size:
        piece = items.bytes_of(at, min(at + PIECE, items.places.size))
        at += len(piece)
        add(other, [renamed(it, other.log) for it in cutter.cut(piece) if it.is_entry or it.second < LAST_TIME])


def renamed(it: Framed, log: int) -> Framed:
    """The same item, of another log."""
    return it._replace(log=log, frame=it.frame[:6] + log.to_bytes(8, "big") + it.frame[14:])


def add(other: ItemFile, framed: List[Framed]) -> None:
    for block in in_blocks(framed, other.places.number, BLOCK_BYTES):
        write_parts(other, block)


def write_parts(other: ItemFile, block: Block) -> None:
    for part in other.parts_of(block):
        other.write(part)


def add_identity(other: ItemFile, writer: LogWriter, identity: Identity) -> None:
    """The identity of the other log, and its first term."""
    own = identity._replace(bits=os.urandom(16))
    term = Term(1, int.from_bytes(os.urandom(8), "big"), (writer.number(1),))
    entry = writer.commit([(OWN, IDENTITY, 0, own.body()), (OWN, TERM, 0, term.body())])
    assert entry is not None
    mark = writer.mark(1)
    add(
        other,
        [
            Framed(True, entry.log, 1, entry.number, entry.time, encode(entry)),
            Framed(False, mark.log, 1, mark.n, mark.m, encode(mark)),
        ],
    )
