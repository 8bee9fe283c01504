"""Requests and replies for the tests, by the package of clients/python. What breaks a rule is spelled field by field (tests/lib/fields.py),
since the package makes no such value. Tests, measures and examples of nodes take their frames from here, but for tests/lib/reference.py."""
import dataclasses
import pathlib
import socket
import sys

sys.path.insert(0, str(pathlib.Path(__file__).resolve().parents[2] / "clients" / "python"))
import fields
import vadungsil
from fields import fields_of_body, fields_of_entry, fields_of_fragment, fields_of_front, fields_of_items, fields_of_new_entry, fields_of_one, framed, message, spelled, u8, u16, u32, u64

FRONT, FULL = b"\x11", b"\x13"


def either(make, spell, *args, **more):
    """What the package makes, or, of values that break a rule, what the fields are."""
    try:
        return make(*args, **more)
    except vadungsil.Fault:
        return spell(*args, **more)


def made_entry(number, time, rows=(), ends=(), stream=1, log=7, version=1):
    puts = tuple((table, key, vadungsil.Row(tag, body)) for table, key, tag, body in rows)
    return vadungsil.encode(vadungsil.Entry(log, stream, number, time, tuple(vadungsil.VersionKey(*it) for it in ends), puts), version)


def entry(*args, **more):
    """rows: (table, key, tag, body); ends: (table, key, born)"""
    return either(made_entry, fields.entry, *args, **more)


def new_entry(*args, **more):
    """The same in version 2."""
    return either(lambda *args, **more: made_entry(*args, **more, version=2), fields.new_entry, *args, **more)


def mark(stream, n, m, log=7, version=1):
    return either(lambda **it: vadungsil.encode(vadungsil.Mark(log, stream, n, m), version), lambda: fields.mark(stream, n, m, log=log, version=version))


def request(it):
    return vadungsil.encode_request(it)


def get(table, key):
    return vadungsil.Get(table, key)


def scan(table, low, high):
    return vadungsil.Range(table, low, high)


def by_tag(table, tag):
    return vadungsil.ByTag(table, tag)


def count(table):
    return vadungsil.Count(table)


# the worked entries of docs/FORMATS.md, and one of another key
E1 = entry(1, 1, [(1, 5, 9, b"A")])
E2 = entry(2, 2, [(1, 5, 9, b"B")], [(1, 5, 1)])
E3 = entry(3, 3, [(1, 6, 9, b"C")])
NEW_E1 = new_entry(1, 1, [(1, 5, 9, b"A")])
NEW_E2 = new_entry(2, 2, [(1, 5, 9, b"B")], [(1, 5, 1)])
# lengths that are below and above those of all frames
TOO_SHORT, TOO_LONG = bytes.fromhex("0000001b"), bytes.fromhex("ffffffff")


def items(*frames):
    return request(vadungsil.Items(frames))


def front():
    return request(vadungsil.AskFront())


def full():
    return request(vadungsil.Full())


def delta(base):
    return request(vadungsil.Delta(base))


def ask(time, query):
    return request(vadungsil.Ask(time, query))


def prune(horizon):
    return request(vadungsil.Prune(horizon))


def made_fragment(base=0, horizon=0, streams=((0, 0, (), ()),), facts=(), log=7):
    known = [vadungsil.Fact(vadungsil.VersionKey(table, key, born), None if row is None else vadungsil.Row(*row), died) for table, key, born, row, died in facts]
    return vadungsil.Fragment(log, base, horizon, tuple(vadungsil.Stream(*it) for it in streams), tuple(known))


def join_this(**parts):
    """streams: (prefix, closed, extra numbers, waiting marks); facts: (table, key, born, row or None, died or None), a row being (tag, body)"""
    return either(lambda **it: request(vadungsil.JoinThis(made_fragment(**it))), fields.join_this, **parts)


def merge_this(**parts):
    return either(lambda **it: request(vadungsil.MergeThis(made_fragment(**it))), fields.merge_this, **parts)


# ---- requests of version 2

def later(it):
    return vadungsil.later.encode_request(it)


def status():
    return later(vadungsil.later.AskStreams())


def latest(query):
    return later(vadungsil.later.AskLatest(query))


def page(*words):
    """time, table, low, high, most rows"""
    return later(vadungsil.later.AskPage(*words))


def whole(base, part_bytes):
    return later(vadungsil.later.Whole(base, part_bytes))


def more():
    return later(vadungsil.later.More())


def add(facts):
    """facts: as those of `join_this`"""
    return later(vadungsil.later.AddPart(made_fragment(facts=facts).facts))


def head_of(count=0, **start):
    """The head of a fragment with so many facts."""
    return dataclasses.replace(vadungsil.later.Head.of(made_fragment(**start)), count=count)


def join_parts(**head):
    return later(vadungsil.later.JoinParts(head_of(**head)))


def merge_parts(**head):
    return later(vadungsil.later.MergeParts(head_of(**head)))


def hold(time):
    return later(vadungsil.later.AskHold(time))


def release(number):
    return later(vadungsil.later.Release(number))


def feed(*frames):
    return later(vadungsil.later.Feed(frames))


def wait(time, milliseconds):
    return later(vadungsil.later.Await(time, milliseconds))


# ---- replies

def done(ops):
    return either(lambda it: vadungsil.encode_reply(vadungsil.Done(it)), fields.done, ops)


def refused(number, first=0, second=0):
    return fields.refused(number, first, second)


def row_of(row):
    return None if row is None else (row.tag, row.body)


def start_of(it):
    return {"log": it.log, "base": it.base, "horizon": it.horizon,
            "streams": [(of.prefix, of.closed, list(of.extra), list(of.waiting)) for of in it.streams]}


def fragment_of(it):
    return {**start_of(it), "facts": known_of(it.facts)}


def known_of(facts):
    return [(it.version.table, it.version.key, it.version.born, row_of(it.row), it.died) for it in facts]


def read_later(it):
    """The same of a reply of version 2."""
    later_ = vadungsil.later
    if isinstance(it, later_.Done):
        return "done", it.operations
    if isinstance(it, later_.Fed):
        return "fed", it.operations, it.new
    if isinstance(it, later_.Held):
        return "held", it.number, it.time
    if isinstance(it, later_.Added):
        return "added", it.count
    if isinstance(it, later_.Ready):
        return "ready", it.horizon, it.readable
    if isinstance(it, later_.Part):
        return "part", known_of(it.facts), it.left
    if isinstance(it, later_.LastPart):
        return "last part", known_of(it.facts), {**start_of(it.head), "count": it.head.count}
    if isinstance(it, vadungsil.Refused):
        return ("refused", it.number, *(*it.values, 0, 0)[:2])
    return type(it).__name__.lower(), it


def read_reply(rest):
    """What the rest of a reply's frame says, as a tuple whose first part names it."""
    try:
        if rest[:1] == b"\2":
            return read_later(vadungsil.later.decode_reply(framed(rest)))
        it = vadungsil.decode_reply(framed(rest))
    except vadungsil.Fault as fault:
        raise ValueError(str(fault)) from fault
    if isinstance(it, vadungsil.Done):
        return "done", it.operations
    if isinstance(it, vadungsil.Front):
        return "front", it.horizon, it.readable
    if isinstance(it, vadungsil.Fragment):
        return "fragment", fragment_of(it)
    if isinstance(it, vadungsil.One):
        return "row", row_of(it.row)
    if isinstance(it, vadungsil.Rows):
        return "rows", [(key, *row_of(row)) for key, row in it.rows]
    if isinstance(it, vadungsil.Number):
        return "number", it.count
    return ("refused", it.number, *(*it.values, 0, 0)[:2])


class Link:
    """A link to a node, byte by byte, which no client of the package opens. Each wait for bytes has a limit."""

    def __init__(self, port, limit=20, address="127.0.0.1"):
        self.socket = socket.create_connection((address, port), timeout=limit)
        self.socket.setsockopt(socket.IPPROTO_TCP, socket.TCP_NODELAY, 1)

    def send(self, data):
        self.socket.sendall(data)

    def half_close(self):
        self.socket.shutdown(socket.SHUT_WR)

    def close(self):
        self.socket.close()

    def read(self, size):
        data = b""
        while len(data) < size:
            piece = self.socket.recv(size - len(data))
            if not piece:
                raise EOFError("the link ended")
            data += piece
        return data

    def read_all(self):
        """All that comes until the node ends the link."""
        data = []
        while piece := self.socket.recv(65536):
            data.append(piece)
        return b"".join(data)

    def fileno(self):
        return self.socket.fileno()

    def rest(self):
        """The rest of the next reply's frame, and None where the link ended between replies."""
        first = self.socket.recv(1)
        return self.read(int.from_bytes(first + self.read(3), "big")) if first else None

    def reply(self):
        """The next reply, and None where the link ended between replies."""
        rest = self.rest()
        return None if rest is None else read_reply(rest)

    def ask(self, it):
        self.send(it)
        return self.reply()

    def __enter__(self):
        return self

    def __exit__(self, *_):
        self.close()
