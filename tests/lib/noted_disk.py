"""What a disk may have that lost its power, of the notes that tests/faults/noted_disk.c takes of the programs that wrote to it, and what these had sent
to nodes by then. The power goes behind a note.

Of a file stays what a sync brought to the disk before, and of what was changed behind that any part: nothing, all, the first changes with the last one
torn, or any of their sectors, in any order. What a sync failed to bring there may lack for ever, also where a later one goes well. Of the names of a
folder the first ones stay, at least up to its last sync. Standard library only."""
import os
import pathlib
import struct
import subprocess
from typing import NamedTuple

SOURCE = pathlib.Path(__file__).resolve().parents[1] / "faults" / "noted_disk.c"
HEAD = struct.Struct("=IIIIQQ")
SECTOR = 512
WRITTEN, CUT, SYNCING, SYNCED, NAMING, NAMED, MOVED, REMOVED, LINKED, SENT = "wcsdnomrlt"
# what stays of what was changed behind the last sync
WAYS = ("nothing", "all", "first", "any")
# requests that have items: Items and Feed of docs/FORMATS.md
WITH_ITEMS = (16, 58)


def library(folder):
    """The library to preload, built there."""
    built = pathlib.Path(folder) / "noted_disk.so"
    subprocess.run(["cc", "-shared", "-fPIC", "-O1", "-o", str(built), str(SOURCE), "-ldl"], check=True)
    return built


def noting(folder, notes, **more):
    """Has this process note what it does in a folder from now on, and behave there as the words say that noted_disk.c has."""
    os.environ.update({"DISK_FOLDER": str(folder), "DISK_NOTES": str(notes), **{f"DISK_{name.upper()}": str(value) for name, value in more.items()}})


class Note(NamedTuple):
    what: str
    process: int
    first: int
    second: int
    name: str
    data: bytes


def notes_in(path):
    """The notes of a file, in their order; one that isn't whole, of a process that was killed, is none."""
    text, at, found = pathlib.Path(path).read_bytes(), 0, []
    while at + HEAD.size <= len(text):
        name, size, what, process, first, second = HEAD.unpack_from(text, at)
        at += HEAD.size + name + size
        if at > len(text):
            break
        found.append(Note(chr(what), process, first, second, text[at - size - name:at - size].decode(), text[at - size:at]))
    return found


class Change:
    """A write, or a cut where there is no data. `is_kept`: it is on the disk; None: it may never come there."""

    def __init__(self, place, data):
        self.place, self.data, self.is_kept = place, data, False

    def parts(self, chance, how):
        """What of it came to the disk: all, its first bytes, or any of its sectors, as (place, data)."""
        if self.data is None or how == "all":
            return [(self.place, self.data)]
        if how == "first":
            return [(self.place, self.data[:chance.randrange(len(self.data) + 1)])]
        edges = [0, *range(SECTOR - self.place % SECTOR, len(self.data), SECTOR), len(self.data)]
        return [(self.place + begin, self.data[begin:end]) for begin, end in zip(edges, edges[1:]) if chance.random() < 0.5]


def changed(content, place, data):
    """What a file has after a write, or after a cut."""
    if len(content) < place:
        content.extend(bytes(place - len(content)))
    if data is None:
        del content[place:]
    else:
        content[place:place + len(data)] = data


class File:
    def __init__(self, content=b""):
        self.content, self.changes = bytes(content), []

    def synced(self, count, is_kept):
        for it in self.changes[:count]:
            if it.is_kept is False:
                it.is_kept = is_kept

    def left(self, chance, how):
        """What it has where the power goes now."""
        loose = [it for it in self.changes if not it.is_kept]
        how = how or chance.choice(WAYS)
        most = {"nothing": 0, "first": chance.randint(0, len(loose))}.get(how, len(loose))
        there, content = {id(it) for it in loose[:most]}, bytearray(self.content)
        for it in self.changes:
            is_there = it.is_kept or (id(it) in there and (how != "any" or chance.random() < 0.7) and (it.is_kept is False or chance.random() < 0.5))
            is_torn = not it.is_kept and (how == "any" or (how == "first" and it is loose[most - 1]))
            for place, data in it.parts(chance, how if is_torn else "all") if is_there else ():
                changed(content, place, data)
        return bytes(content)


class Disk:
    """The files of a folder and their names, which begin as they are in this folder now, all of it on the disk."""

    def __init__(self, folder):
        found = [it for it in pathlib.Path(folder).iterdir() if it.is_file()]
        self.files = {it.stat().st_ino: File(it.read_bytes()) for it in found}  # a new file may get the number of one that is gone
        self.names = {it.name: self.files[it.stat().st_ino] for it in found}
        self.renamed, self.kept_names, self.syncing, self.naming = [], 0, {}, {}

    def take(self, note):
        """What comes of a note."""
        if note.what in (WRITTEN, CUT):
            self.file(note).changes.append(Change(note.second, note.data if note.what == WRITTEN else None))
        elif note.what == SYNCING:
            self.syncing[note.process, note.first] = len(self.file(note).changes if note.name else self.renamed)
        elif note.what == SYNCED:
            self.sync(note, self.syncing.pop((note.process, note.first)))
        elif note.what == NAMING:
            self.naming[note.process, note.name] = len(self.renamed)
            self.renamed.append(None)
        elif note.what == NAMED:
            self.files[note.first] = File()
            self.renamed[self.naming[note.process, note.name]] = (None, note.name, self.files[note.first])
        elif note.what in (MOVED, REMOVED):
            self.renamed.append((note.name, note.data.decode(), None))

    def file(self, note):
        """The file of a note, which another process may have made that hasn't noted it yet."""
        return self.files.setdefault(note.first, File())

    def sync(self, note, count):
        if note.name:
            self.file(note).synced(count, None if note.second else True)
        elif not note.second:
            self.kept_names = max(self.kept_names, count)

    def left(self, chance, how=None):
        """What stands in the folder where the power goes now: bytes by name. `how` is one of WAYS, for all files."""
        names = dict(self.names)
        for it in self.renamed[:chance.randint(self.kept_names, len(self.renamed))]:
            old, new, file = it or (None, "", None)
            file = names.pop(old, None) if old else file
            if file and new:
                names[new] = file
        return {name: file.left(chance, how) for name, file in sorted(names.items())}


def put_back(folder, left):
    """Makes a folder that has this."""
    pathlib.Path(folder).mkdir()
    for name, data in left.items():
        (pathlib.Path(folder) / name).write_bytes(data)


class Sent:
    """What nodes were sent over all links: the frames of items of each request that was sent whole."""

    def __init__(self):
        self.links, self.frames = {}, []

    def take(self, note):
        link = (note.process, note.first)
        if note.what == LINKED:
            self.links[link] = b""
        elif note.what == SENT:
            rest = self.links.get(link, b"") + note.data
            while len(rest) >= 4 and len(rest) >= (end := 4 + int.from_bytes(rest[:4], "big")):
                if rest[5] in WITH_ITEMS:
                    self.frames += frames_of(rest[10:end])
                rest = rest[end:]
            self.links[link] = rest


def frames_of(data):
    """Whole frames, one behind the other, each by itself."""
    found, at = [], 0
    while at + 4 <= len(data) and (end := at + 4 + int.from_bytes(data[at:at + 4], "big")) <= len(data):
        found.append(data[at:end])
        at = end
    return found
