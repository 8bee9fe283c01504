"""A log in a file without its beginning. FILE begins behind entry K then, and FILE.head-K has what has to be known of
the log up to there to go on with it: above all which rows stand since when, without which no end can be written.
Readers need nothing of it. Standard library only.

FILE and FILE.sums can't be replaced in one step. So FILE goes aside first (FILE.old), and readers wait where it isn't
there; then FILE.sums is replaced, and FILE comes back, each once the disk has the step before. Whoever opens the log
behind a crash sees from what is there which step was the last, and goes the rest of the way, or back."""
from __future__ import annotations

import contextlib
import fcntl
import glob
import os
from typing import Callable, List

from .blocks import Cutter, Framed
from .errors import LogInUse
from .forking import add
from .heads import HEAD, NEW, write_head
from .item_file import PIECE, ItemFile
from .log_state import LogState
from .sums import SUFFIX as SUMS

OLD = ".old"


# ---------------------------------------------------------------- the way there


def compacted(items: ItemFile, state: LogState, before: int, see: Callable[[int], None]) -> int:
    """Makes FILE.new of the entries of a log from a time on, and of the last one at least, and the head of the others:
    the number of the last that goes, 0 where none does. `state` is that before the first entry, and `see` is called
    with the number before anything counts."""
    first = items.places.first
    other = ItemFile(items.path + NEW, items.log, fsync=False)
    try:
        for suffix in ("", SUMS):
            with contextlib.suppress(FileNotFoundError):
                os.unlink(other.path + suffix)
        other.prepare()
        parted(items, other, state, before)
        if state.number < first:
            return 0
        see(state.number)
        os.fdatasync(other.file)
        os.fdatasync(other.sums.file)
        write_head(items.path, items.log, state)
        items.sync_folder()
        return state.number
    finally:
        other.drop()


def parted(items: ItemFile, other: ItemFile, state: LogState, before: int) -> None:
    """Gives the items that go to the state, and the others to the other file."""
    cutter, at, is_kept = Cutter(), 0, False
    while at < items.places.size:
        piece = items.bytes_of(at, min(at + PIECE, items.places.size))
        at += len(piece)
        frames = cutter.cut(piece)
        count = 0 if is_kept else leaving(frames, before, items.places.number)
        state.take(b"".join(it.frame for it in frames[:count]))
        is_kept = is_kept or count < len(frames)
        add(other, frames[count:])


def leaving(frames: List[Framed], before: int, last: int) -> int:
    """How many of these items go: those before the first entry of a later time, or the last one."""
    for count, it in enumerate(frames):
        if it.is_entry and (it.second >= before or it.first == last):
            return count
    return len(frames)


def replace(items: ItemFile) -> ItemFile:
    """Has FILE.new be the log: the file of it, open for writing as `items` was. What fails here is gone on with by the
    next opening."""
    path = items.path
    other = ItemFile(path + NEW, items.log, fsync=items.fsync)
    try:
        other.prepare()
        for source, target in ((path, path + OLD), (path + NEW + SUMS, path + SUMS), (path + NEW, path)):
            os.rename(source, target)
            other.sync_folder()
    except BaseException:
        other.drop()
        raise
    other.path = other.places.path = path
    other.sums.log_path, other.sums.path = path, path + SUMS
    other.taken, other.say = items.taken, items.say
    items.drop()
    return other


# ---------------------------------------------------------------- behind a crash


def recover(path: str) -> None:
    """Where FILE went aside and didn't come back: goes the rest of the way, or back. 1: another program is at it."""
    if os.path.exists(path) or not os.path.exists(path + OLD):
        return
    file = os.open(path + OLD, os.O_RDONLY)
    try:
        fcntl.flock(file, fcntl.LOCK_EX | fcntl.LOCK_NB)
        is_on = os.path.exists(path + NEW) and not os.path.exists(path + NEW + SUMS)
        os.rename(path + (NEW if is_on else OLD), path)
        ItemFile(path, 0).sync_folder()
    except BlockingIOError:
        raise LogInUse(1, f"another program writes to {path}") from None
    finally:
        os.close(file)


def clean(path: str, first: int) -> None:
    """Takes away what a compaction left, and heads of other beginnings."""
    own = f"{path}{HEAD}{first - 1}"
    heads = [it for it in glob.glob(glob.escape(path + HEAD) + "*") if it != own]
    for it in (path + NEW, path + NEW + SUMS, path + OLD, *heads):
        with contextlib.suppress(OSError):
            os.unlink(it)
