"""Bad cases of a log in an engine, as a table: what something else than `publish` puts where, what publish, follow and status then say on
standard error, and with which status they end. docs/CONNECTORS.md has the rules ("Bad records"); each line here is a case of one of
them, and each engine's check (tests/checks/connectors.py, tests/checks/engine.py) goes through those that its engine can have, by
tests/lib/bad_records_run.py. The log is 7, of one stream, whose entries 1 to 8 `publish` is given. Needs the package `vadungsil`."""
from __future__ import annotations

import hashlib
import pathlib
import sys
from dataclasses import dataclass
from typing import Optional, Sequence, Tuple, Union

sys.path.append(str(pathlib.Path(__file__).resolve().parents[2] / "clients" / "python"))

from vadungsil import Entry, Mark, encode

LOG, STREAM = 7, 1
REDIS, NATS, FILE, KAFKA = "Redis", "NATS", "a file", "Kafka"
ALL, NUMBERED = (REDIS, NATS, FILE, KAFKA), (REDIS, NATS, KAFKA)  # the latter say of each message how far it goes
LAST_ID = 2**64 - 1


def entry(number: int, text: bytes = b"row", log: int = LOG, stream: int = STREAM, time: int = 0) -> bytes:
    """An entry at the time of its number, if no other is given, with a row of its own."""
    return encode(Entry.of(log, stream, number, time or number, rows=[(1, number, 0, b"%s %d" % (text, number))]))


def mark(number: int, time: int) -> bytes:
    return encode(Mark(LOG, STREAM, number, time))


OURS = {number: entry(number) for number in range(1, 10)}
OTHERS = {number: entry(number, b"another row") for number in range(1, 10)}


def ours(*numbers: int) -> bytes:
    return b"".join(some(*numbers))


def some(*numbers: int) -> Tuple[bytes, ...]:
    return tuple(OURS[number] for number in numbers)


# ---------------------------------------------------------------- what is done to the engine


@dataclass(frozen=True)
class Put:
    """Something else than `publish` puts a message, or bytes at the end of the file. `last` is the last entry that is
    said of it: in Redis the first number of its id, in NATS and Kafka its header; None says nothing."""

    data: bytes
    last: Optional[int] = None
    beside: int = 0  # Redis: the second number of the id
    field: str = "b"  # Redis
    says: Optional[bytes] = None  # NATS: the header, where it is no number
    stream: int = STREAM
    bad: int = 0  # a file: at which of these bytes the item begins that is none
    sum: Optional[bytes] = None  # Redis, NATS: the checksum that is said of it


@dataclass(frozen=True)
class Published:
    """`publish` is given these entries, and each is a message of its own."""

    numbers: Sequence[int]


@dataclass(frozen=True)
class Trimmed:
    """What is below an entry is dropped; all of it, where that entry isn't there."""

    below: int


@dataclass(frozen=True)
class Deleted:
    """A message is taken out by its place."""

    last: int


@dataclass(frozen=True)
class LastIs:
    """XSETID: the last id of the stream is said to be this entry's."""

    number: int


@dataclass(frozen=True)
class NoStream:
    """Where the stream would be, there is something of another type."""


Step = Union[Put, Published, Trimmed, Deleted, LastIs, NoStream]


# ---------------------------------------------------------------- what is said


@dataclass(frozen=True)
class Said:
    """One program's end: its status, and the last line that it says on standard error, in which {at} is the name of the
    message that was put last, {key} the stream's, {engine} the engine's; what stands behind ".." isn't looked at.
    `before` are lines that come before it."""

    side: str
    status: int
    line: str
    kept: int = 0  # publish: the last entry that is confirmed, 0 for none
    node: Sequence[bytes] = ()  # follow: what the node has at the end where the status is 0, else at most
    before: Tuple[str, ...] = ()
    engines: Tuple[str, ...] = ALL


@dataclass(frozen=True)
class Case:
    """`put` is done in its order, then each program runs, as of one stream; a node of its own, of `node_streams`, has
    `fed` before that. `given` are the frames that publish gets."""

    name: str
    put: Tuple[Step, ...]
    said: Tuple[Said, ...]
    engines: Tuple[str, ...] = ALL
    given: Sequence[bytes] = some(*range(1, 9))
    fed: Sequence[bytes] = ()
    node_streams: int = 1


def both(status: int, line: str, node: Sequence[int] = (), engines: Tuple[str, ...] = ALL) -> Tuple[Said, ...]:
    """publish and follow say the same; nothing is confirmed, and the node has no more than these entries."""
    return Said("publish", status, line, engines=engines), Said("follow", status, line, node=some(*node), engines=engines)


FIRST = Put(ours(1, 2), 2)
NO_BLOCK = "stream 1: {at} is no block of this stream: "


def no_block(name: str, put: Put, reason: str, engines: Tuple[str, ...] = ALL) -> Case:
    """Behind entries 1 and 2 stands something that is no block: publish and follow name it, and so does status. Of a
    file a node gets what stands before the item that is none."""
    words, whole = NO_BLOCK + reason, (1, 2, 3) if put.bad else (1, 2)
    said = (*both(3, words, (1, 2), NUMBERED), *both(3, words, whole, (FILE,)), Said("status", 3, words, engines=(REDIS, NATS)))
    return Case(name, (FIRST, put), said, engines)


def corrupt(name: str, put: Put) -> Case:
    """Behind entries 1 and 2 stands a block whose checksum is another: each names it, and no node gets it."""
    own, said = hashlib.sha256(put.data).hexdigest(), (put.sum or b"").hex()
    words = f"stream 1: {{at}}: its checksum is {own}, where it says {said}: it is corrupt"
    engines = (REDIS, NATS)
    return Case(name, (FIRST, put), (*both(3, words, (1, 2), engines), Said("status", 3, words, engines=engines)), engines)


def cut_in(frame: bytes, at: int, byte: bytes) -> bytes:
    """A frame with another byte in one place."""
    return frame[:at] + byte + frame[at + 1 :]


SIZE = len(OURS[3])
LENGTH = SIZE - 4  # which a frame begins with

NO_BLOCKS = (
    no_block("no bytes", Put(b"", 3), "0 bytes are no item frame", NUMBERED),
    no_block("three bytes", Put(b"abc", 3), "3 bytes are no item frame"),
    no_block("a line of text", Put(b"hello\n", 3), "6 bytes are no item frame"),
    no_block("noise", Put(b"?" * 100, 3), "length 1061109567, version 63, kind 63 are no item frame's"),
    no_block("another kind", Put(cut_in(OURS[3], 5, b"\3"), 3), f"length {LENGTH}, version 2, kind 3 are no item frame's"),
    no_block("another version", Put(cut_in(OURS[3], 4, b"\3"), 3), f"length {LENGTH}, version 3, kind 1 are no item frame's"),
    no_block("a message in place of an item", Put(b"\0\0\0\x21\1\x10" + bytes(31), 3), "length 33, version 1, kind 16 are no item frame's"),
    no_block("another log", Put(entry(3, log=8), 3), "a frame of log 8, stream 1"),
    no_block("another stream", Put(entry(3, stream=2), 3), "a frame of log 7, stream 2"),
    no_block("half a frame", Put(OURS[3][:40], 3), "its last frame is cut off", NUMBERED),
    no_block("half a head", Put(OURS[3][:20], 3), "20 bytes are no item frame", NUMBERED),
    no_block("bytes behind a frame", Put(OURS[3] + b"abc", 3, bad=SIZE), "3 bytes are no item frame"),
    no_block("a hole in it", Put(ours(3, 5), 5, bad=SIZE), "entry 5 stands behind entry 3"),
    no_block("an entry twice in it", Put(ours(3, 3), 3, bad=SIZE), "entry 3 stands behind entry 3"),
    no_block("another number", Put(OURS[4], 3), "its last entry is 4, and it says 3", NUMBERED),
    no_block("a mark ahead", Put(OURS[3] + mark(4, 9), 3, bad=SIZE), "a mark counts entries that come behind it"),
    no_block("a mark before its entry", Put(mark(3, 5) + entry(3, time=9), 3), "a mark counts entries that come behind it"),
    no_block("an entry under marks' id", Put(OURS[3], 3, 1), "its id is one of marks alone", (REDIS,)),
    no_block("marks under an entry's id", Put(mark(2, 9), 3), "its id is one of entries", (REDIS,)),
    no_block("no field of ours", Put(OURS[3], 3, field="g"), "it has no field b", (REDIS,)),
    no_block("a field of before that is no frame", Put(b"abc", 3, field="f"), "3 bytes are no item frame", (REDIS,)),
    no_block("the last id of all", Put(OURS[9], LAST_ID), f"its last entry is 9, and it says {LAST_ID}", (REDIS,)),
    no_block("an id of the clock", Put(OURS[3], 1_700_000_000_000), "its last entry is 3, and it says 1700000000000", (REDIS,)),
    no_block("no header", Put(OURS[3]), "it has no header Hk-Last", (NATS,)),
    no_block("a header that is no number", Put(OURS[3], says=b"x"), "its header Hk-Last is no number", (NATS,)),
    no_block("a header below 0", Put(OURS[3], says=b"-3"), "its header Hk-Last is no number", (NATS,)),
    no_block("a header of 30 digits", Put(OURS[3], says=b"9" * 30), "its header Hk-Last is no number", (NATS,)),
)

CORRUPT = (
    corrupt("a checksum of zeros", Put(OURS[3], 3, sum=bytes(32))),
    corrupt("that of another block", Put(OURS[3], 3, sum=hashlib.sha256(OURS[4]).digest())),
    corrupt("half a checksum", Put(OURS[3], 3, sum=bytes(16))),
)

# ---------------------------------------------------------------- what lacks

NEVER = "stream 1: entries {lacks} were never in {{key}}, which begins with entry {first}: something else writes to this stream"
GAP = ("stream 1: entries {lacks} are not in {{key}}, which had higher ones, and were not trimmed: they were deleted, or something else "
       "writes to this stream")
NOT_TRIMMED = ("stream 1: entries {lacks} are not in {{key}}, which begins with entry {first}, and were not trimmed: they were deleted, or "
               "something else writes to this stream")
NO_LONGER = "stream 1: entries {lacks} are no longer in {{engine}}"
GONE = "{added} frames added in {added} blocks, {there} were there, {gone} not compared, as {{engine}} no longer has them"
FED = "{frames} frames in {blocks} blocks, .."


def lacking(publish: str, lacks: str, node: Sequence[int] = (), first: int = 0) -> Tuple[Said, ...]:
    """publish says that these entries lack, and so does follow in its words; the node has no more than `node`."""
    return (Said("publish", 3, publish.format(lacks=lacks, first=first), engines=NUMBERED),
            Said("follow", 3, NO_LONGER.format(lacks=lacks), node=some(*node), engines=NUMBERED))


BEHIND = "stream 1: {{at}} is no block of this stream: entry {entry} stands behind entry {before}"

HOLES = (
    Case("a hole", (FIRST, Put(OURS[5], 5)),
         (*lacking(GAP, "3 to 4", (1, 2)), Said("status", 3, GAP.format(lacks="3 to 4"), engines=(REDIS, NATS)),
          *both(3, BEHIND.format(entry=5, before=2), (1, 2), (FILE,)))),
    Case("a hole before what is published", (FIRST, Put(OURS[5], 5)),
         (Said("publish", 3, GAP.format(lacks="3 to 4"), engines=NUMBERED), Said("publish", 3, BEHIND.format(entry=5, before=2), engines=(FILE,))),
         given=some(6, 7, 8)),
    Case("a hole above all that is published", (Put(OURS[9], 9),), lacking(NEVER, "1 to 8", first=9), NUMBERED),
    Case("a hole at the file's begin", (Put(OURS[9], 9),),
         (Said("publish", 3, NEVER.format(lacks="1 to 8", first=9)), Said("follow", 3, NO_LONGER.format(lacks="1 to 8"))), (FILE,)),
    Case("marks of a later place", (Put(mark(0, 1), LAST_ID, 1),), lacking(NEVER, f"1 to {LAST_ID}", first=LAST_ID + 1), (REDIS,)),
    Case("trimmed", (Published(range(1, 9)), Trimmed(4)),
         (Said("publish", 0, GONE.format(added=0, there=5, gone=3), kept=8), Said("follow", 3, NO_LONGER.format(lacks="1 to 3"))),
         (REDIS, NATS)),
    Case("trimmed, all of it", (Published(range(1, 9)), Trimmed(9)),
         (Said("publish", 0, GONE.format(added=0, there=0, gone=8), kept=8), Said("follow", 3, NO_LONGER.format(lacks="1 to 8"))),
         (REDIS,)),
    Case("trimmed, all of it, and gone on with", (Published(range(1, 9)), Trimmed(9)),
         (Said("publish", 0, GONE.format(added=1, there=0, gone=8), kept=9),), (REDIS,), given=some(*range(1, 10))),
    Case("trimmed, and given by itself", (Published(range(1, 9)), Trimmed(4)), (Said("publish", 0, GONE.format(added=0, there=0, gone=2), kept=2),),
         (REDIS, NATS), given=some(1, 2)),
    Case("trimmed of more than was there", (Put(entry(5000), 5000), Trimmed(5001)), lacking(NOT_TRIMMED, "1 to 5000", first=5001), (REDIS,)),
    Case("deleted between others", (Published(range(1, 9)), Deleted(3), Deleted(4)), lacking(GAP, "3 to 4", (1, 2)), (REDIS,)),
    Case("deleted below others", (Published(range(1, 9)), Deleted(1)), lacking(NOT_TRIMMED, "1 to 1", first=2), (REDIS,)),
    Case("put high, and deleted", (Put(OURS[9], 9), Deleted(9)), lacking(NOT_TRIMMED, "1 to 9", first=10), (REDIS,)),
    Case("put high, and trimmed", (Put(OURS[9], 9), Trimmed(10)),  # it could have held all of them: the limit that the page names
         (Said("publish", 0, GONE.format(added=0, there=0, gone=8), kept=8), Said("follow", 3, NO_LONGER.format(lacks="1 to 9"))),
         (REDIS,)),
    Case("put high behind ours, and deleted", (Published([1, 2]), Put(OURS[9], 9), Deleted(9)),
         (Said("publish", 3, GAP.format(lacks="3 to 9")), Said("follow", 0, FED.format(frames=2, blocks=2), node=some(1, 2))), (REDIS,)),
    Case("put high, deleted, and the last id set back", (Published([1, 2]), Put(OURS[9], 9), Deleted(9), LastIs(2)),
         (Said("publish", 0, "6 frames added in 1 blocks, 2 were there", kept=8),), (REDIS,)),
)

# ---------------------------------------------------------------- another item in a place

FORK = "stream 1: entry {entry} in {{engine}} is another (..): this log is not the one that was published before"
TWICE = "stream 1: {{at}} has another entry {entry} than stands before it: the log forks"
BACK = "stream 1: {at} ends with entry 2, behind one that ends with entry 4: something else writes to this stream"
REFUSED = "the node refuses: stream 1 to {last}: refused 23: a conflict; .."
CLOSED = "entry 3 is of a time that the entries or marks before it have closed"
WITH_OTHER = (OURS[1], OURS[2], OTHERS[3])

FORKS = (
    Case("another entry", (FIRST, Put(OTHERS[3], 3)),
         (Said("publish", 2, FORK.format(entry=3)), Said("follow", 0, FED.format(frames=3, blocks=2), node=WITH_OTHER, engines=NUMBERED),
          Said("follow", 0, FED.format(frames=3, blocks=1), node=WITH_OTHER, engines=(FILE,)))),
    Case("another entry than the node has", (FIRST, Put(OTHERS[3], 3)),
         (Said("follow", 4, REFUSED.format(last=3), node=some(1, 2, 3)),), fed=some(1, 2, 3)),
    Case("less than the node has", (FIRST,),
         (Said("follow", 3, "stream 1: the node at .. has entries to 4, and {engine} to 2 only: it lost its tail after the node was fed, ..",
               node=some(1, 2, 3, 4),
               before=("Behind: stream 1: the node at .. has entries to 4, and {engine} to 2 only; trying again",)),),
         fed=some(1, 2, 3, 4)),
    Case("an entry of a closed time is published", (FIRST, Put(mark(2, 5), 2, 1)), (Said("publish", 2, "stream 1: " + CLOSED),)),
    Case("an entry of a closed time in it", (Put(ours(1, 2) + mark(2, 5), 2), Put(OURS[3], 3)), both(3, NO_BLOCK + CLOSED, (1, 2))),
    Case("a list that is none", (FIRST, Put(OURS[3][:32] + b"\xff" * (len(OURS[3]) - 32), 3)),
         (Said("publish", 2, FORK.format(entry=3)), Said("follow", 4, "the node refuses: stream 1 to 3: ..", node=some(1, 2)))),
)

REPEATS = (
    Case("a repeat", (FIRST, Put(ours(2, 3), 3)),
         (Said("publish", 0, "5 frames added in 1 blocks, 3 were there", kept=8),
          Said("follow", 0, FED.format(frames=4, blocks=2), node=some(1, 2, 3))), NUMBERED),
    Case("a message twice", (FIRST, FIRST),
         (Said("publish", 0, "6 frames added in 1 blocks, 2 were there", kept=8),
          Said("follow", 0, FED.format(frames=4, blocks=2), node=some(1, 2))), (NATS, KAFKA)),
    Case("a repeat of another entry", (FIRST, Put(OTHERS[2] + OURS[3], 3)), both(2, TWICE.format(entry=2), (1, 2)), NUMBERED),
    Case("another entry in a repeat of two messages", (FIRST, Put(ours(3, 4), 4), Put(OTHERS[1] + ours(2, 3, 4, 5), 5)),
         both(2, TWICE.format(entry=1), (1, 2, 3, 4)), NUMBERED),
    Case("a repeat that ends lower", (Put(ours(1, 2, 3, 4), 4), Put(OURS[2], 2)), both(3, BACK, (1, 2, 3, 4)), (NATS, KAFKA)),
    Case("a repeat that ends lower than the node", (Put(ours(1, 2, 3, 4), 4), Put(OURS[2], 2)),
         (Said("follow", 3, BACK, node=some(1, 2, 3, 4)),), (NATS,), fed=some(1, 2, 3, 4)),
    Case("a repeat in the file", (FIRST, Put(OURS[2])), both(3, BEHIND.format(entry=2, before=2), (1, 2)), (FILE,)),
)

# ---------------------------------------------------------------- the file's end, other streams, other types, the input

OTHERWISE = (
    Case("half a frame at the file's end", (FIRST, Put(OURS[3][:40])),
         (Said("publish", 0, "6 frames added in 1 blocks, 2 were there", kept=8, before=("{at}: 40 bytes that are no whole frame are taken away",)),
          Said("follow", 0, FED.format(frames=2, blocks=1), node=some(1, 2), before=("{at}: 40 bytes that are no whole frame",))),
         (FILE,)),
    Case("two bytes of a frame at the file's end", (FIRST, Put(OURS[3][:2])),
         (Said("publish", 0, "6 frames added in 1 blocks, 2 were there", kept=8, before=("{at}: 2 bytes that are no whole frame are taken away",)),),
         (FILE,)),
    Case("a stream more", (FIRST, Put(entry(1, stream=2), 1, stream=2)),
         both(3, "stream 2: {at} is there, and --streams says that the log has 1"), (REDIS, NATS)),
    Case("a node of two streams", (FIRST,), (Said("follow", 4, "the node has 2 streams, and not 1"),), node_streams=2),
    Case("another type", (NoStream(),), both(3, "stream 1: {key} is no stream"), (REDIS,)),
)

CUT_OFF = f"the input ends inside a frame, {SIZE - 1} bytes behind the last whole one: refused 1: the input ends inside a frame; .."
TOO_LONG = f"frame behind byte 0, length {0x3F3F3F3F}: refused 2: the length field is above its limit, .."
LACKS = "stream 1: entry 3 has not come, and 4 and what follows wait for it"

INPUTS = (
    Case("an input of an untrue mark", (), (Said("publish", 2, "stream 1: a mark of the first 1 entries is not true of the entries"),),
         given=(OURS[1], OURS[2], mark(1, 5))),
    Case("an input of another log", (), (Said("publish", 4, "an item of log 8, stream 1"),), given=(OURS[1], entry(2, log=8))),
    Case("an input of another stream", (), (Said("publish", 4, "an item of log 7, stream 2"),), given=(OURS[1], entry(1, stream=2))),
    Case("an input with a hole", (), (Said("publish", 3, LACKS, kept=2),), given=some(1, 2, 4, 5)),
    Case("an input of two entries of a number", (), (Said("publish", 2, "stream 1: the input has two entries 5"),),
         given=(OURS[1], OURS[5], OTHERS[5])),
    Case("an input that is cut off", (), (Said("publish", 4, CUT_OFF, kept=2),), given=(OURS[1], OURS[2], OURS[3][:-1])),
    Case("an input of no frames", (), (Said("publish", 4, TOO_LONG),), given=(b"?" * 100,)),
    Case("an input that repeats", (), (Said("publish", 0, "2 frames added in 1 blocks, 1 were there", kept=2),), given=some(1, 2, 1)),
)

CASES: Tuple[Case, ...] = NO_BLOCKS + CORRUPT + HOLES + FORKS + REPEATS + OTHERWISE + INPUTS

# the example for Kafka takes a second for each, so it has one of each kind
WITH_KAFKA = ("another log", "half a frame", "another number", "a hole", "a hole above all that is published", "another entry", "a repeat",
              "a repeat of another entry", "a repeat that ends lower")


def of(engine: str) -> Tuple[Case, ...]:
    """The cases that an engine can have."""
    return tuple(it for it in CASES if engine in it.engines and (engine != KAFKA or it.name in WITH_KAFKA))
