"""What each number means and what to do, in the words of `hkrep explain`."""
from __future__ import annotations

from typing import Dict, NamedTuple, Tuple


class Reason(NamedTuple):
    """A number's name, the names of its fields, what it means, and what to do."""

    name: str
    fields: Tuple[str, ...]
    meaning: str
    advice: str


def _of(name: str, meaning: str, advice: str, *fields: str) -> Reason:
    return Reason(name, fields, meaning, advice)


REASONS: Dict[int, Reason] = {
    1: _of("Truncated", "the input ends inside a frame", "send the frame to its end"),
    2: _of(
        "TooLong",
        "the length field is above its limit, or a value has no encoding",
        "fix the sender: 4233248 bytes are the most of an item, 268435456 of a message",
    ),
    3: _of(
        "BadVersion",
        "the version byte is not 1, nor 2 where that is read",
        "fix the sender: items have version 1 or 2, messages 1, and 2 for a node with --messages 2",
    ),
    4: _of(
        "BadKind",
        "the kind byte has no meaning there",
        "fix the sender: items have kind 1 or 2, requests 16 to 23 or 48 to 61, replies 32 to 36 or 64 to 76",
    ),
    5: _of("BadStream", "a stream number or count outside 1 to 64", "fix the sender: a log has 1 to 64 streams"),
    6: _of(
        "BadNumber",
        "a number, time, mark, flag or reserved field outside its range",
        "fix the sender: docs/FORMATS.md has the range of each field",
    ),
    7: _of(
        "BadOrder", "a list does not rise strictly", "fix the sender: lists rise by table and key, each at most once"
    ),
    8: _of(
        "BadCount",
        "a count above its limit, both lists of an entry empty, or another number of facts in chunks",
        "fix the sender: an entry has 1 to 1024 ends or rows, and each chunk of a snapshot is sent once",
    ),
    9: _of("BadBody", "a body above 4,096 bytes", "split the row: a body has at most 4096 bytes"),
    10: _of(
        "WrongLength",
        "a field does not fit in the rest, or bytes are left, or the rest is shorter than its least",
        "fix the sender: the length field counts the bytes behind it",
    ),
    20: _of("ForeignLog", "another log id", "feed each log to a replica of its own"),
    21: _of(
        "WrongStreams",
        "a stream above the configured number, or another number of streams",
        "give the replica the number of streams that the log has",
    ),
    22: _of(
        "Gap",
        "a delta begins above the target's resolved time",
        "ask for a delta since the resolved time, or for a snapshot",
        "base",
        "readable",
    ),
    23: _of(
        "Conflict",
        "a conflict",
        (
            "find the wrong feed: the items are not of one log, or it was begun anew under its id. Tested are: of"
            " items, their rows and ends of one version, and closed times where they are absorbed or the node has"
            " --guard; of a fragment, two facts of one version. A node with --guard also tests that answers about the"
            " past don't change (late rows and ends, older rows that would show again), and entries above the oldest"
            " readable time whose number is applied already. No node tests the oldest readable time and the marks that"
            " a sender states"
        ),
    ),
    24: _of("AheadOfMark", "a prune above the resolved time", "prune to the resolved time at most", "readable"),
    25: _of("TooOld", "a time below the oldest readable time", "ask at the oldest readable time or later", "horizon"),
    26: _of(
        "NotYet",
        "a time above the resolved time",
        "ask at the resolved time, or wait for the time (--wait, node.wait); who feeds: send the marks of all streams",
        "readable",
    ),
    30: _of("WriteConflict", "a later commit wrote the key", "begin the transaction again", "table", "key", "at"),
    31: _of(
        "NoRow", "a removed key is absent", "remove only what is there when the transaction begins", "table", "key"
    ),
    32: _of("TwiceWritten", "the transaction wrote the key already", "write each key once"),
    33: _of("TooManyWrites", "a write after 1,024", "commit, and go on in another transaction"),
    34: _of("NoStream", "the primary has no such stream", "name a stream that the log has"),
    35: _of("ClockFull", "the last time is 2^62", "begin a new log: this one is full"),
    36: _of("Retired", "the stream is retired", "commit on another stream", "stream"),
    40: _of(
        "Held",
        "a join or merge would raise the oldest readable time past a pinned time",
        "wait until the reader releases its pin",
        "reader",
        "at",
    ),
    41: _of("Damaged", "the node met a conflict", "build the node anew from one good source"),
    42: _of(
        "Unpublished", "appended, not yet published", "publish again, or make the next change: this one is kept", "ops"
    ),
    43: _of("NodeFull", "the list has 2^62 operations", "start a new node: this one is full"),
    44: _of("NoHold", "no such pin is active", "release each pin once, at its own node"),
    45: _of(
        "NoSuch",
        "no such replica or item in a world",
        "name a replica that the world has, and an item that was emitted",
    ),
    46: _of(
        "LinkFull",
        "what connections keep in chunks would be more than the operator allows",
        "wait until other connections are done, or give the node more bytes for chunks",
        "most",
    ),
    47: _of(
        "NoPart", "nothing is being sent in chunks", "ask for the snapshot first, and for more until its last chunk"
    ),
    90: _of("Memory", "a growth was refused", "free memory, and make the same call again"),
    91: _of(
        "ReadFault",
        "a read failed, or the bound on reads (2^32) was met",
        "look at the device or the connection that is read",
    ),
    92: _of("WriteFault", "a write failed or took 0 bytes", "look at the device or the connection that is written to"),
    93: _of(
        "NetFault",
        "bind, accept or connect failed",
        (
            "where a node is asked, see that one listens on the port; where one is served, that no other program has"
            " the port"
        ),
    ),
}


def explain(number: int) -> str:
    """The line that `hkrep explain NUMBER` prints; a KeyError where no refusal has the number."""
    reason = REASONS[number]
    fields = " {" + ", ".join(reason.fields) + "}" if reason.fields else ""
    return f"{number} {reason.name}{fields}: {reason.meaning}; {reason.advice}"
