#!/usr/bin/env python3
"""Writes tests/vectors/*.json: items, requests and replies with their bytes, faults with their numbers, and whole sessions with what a
node replies. All of it is from docs/FORMATS.md, docs/DEFINITIONS.md and docs/PROTOCOL.md, by tests/lib/reference.py and tests/lib/fields.py; the
product is not asked. docs/PROTOCOL.md says how to use them.

    tests/tools/make_vectors.py            writes the files
    tests/tools/make_vectors.py --check    says whether the files are what would be written

Standard library only."""
import json
import pathlib
import sys

sys.dont_write_bytecode = True
sys.path.append(str(pathlib.Path(__file__).resolve().parents[1] / "lib"))
import fields as of
import later_vectors as later
import reference

FOLDER = pathlib.Path(__file__).resolve().parents[1] / "vectors"
LAST, MOST = 2 ** 62, 2 ** 64 - 1
OVER = of.u64(LAST + 1)
QUERIES = {"get": of.get, "range": of.scan, "tag": of.by_tag, "count": of.count}


# ---------------------------------------------------------------- items

def entry(number, time, rows=(), ends=(), stream=1, log=7):
    return reference.Entry(log, stream, number, time, [tuple(it) for it in ends], [((table, key), (tag, body)) for table, key, tag, body in rows])


def value_of(item):
    if isinstance(item, reference.Mark):
        return {"kind": "mark", "log": item.log, "stream": item.stream, "n": item.n, "m": item.m}
    return {"kind": "entry", "log": item.log, "stream": item.stream, "number": item.number, "time": item.time,
            "ends": [list(it) for it in item.ends], "rows": [[*place, tag, body.hex()] for place, (tag, body) in item.rows]}


E1 = entry(1, 1, [(1, 5, 9, b"\x41")])
E2 = entry(2, 2, [(1, 5, 9, b"\x42")], [(1, 5, 1)])
E3 = entry(3, 3, [(1, 6, 9, b"\x43")])
LISTS = entry(9, 9, [(1, 5, 9, b"a"), (1, 7, 9, b""), (2, 1, 8, b"c")], [(1, 5, 1), (1, 7, 2), (2, 1, 8)])
ITEMS = [
    ("an entry", E1), ("an entry with an end", E2), ("an entry of another key", E3), ("lists of two tables", LISTS),
    ("ends alone", entry(4, 9, [], [(1, 5, 1), (3, 5, 8)])), ("an empty body", entry(1, 1, [(0, 0, 0, b"")], log=0)),
    ("the greatest body", entry(1, 1, [(1, 1, 1, bytes(range(256)) * 16)])),
    ("the greatest numbers", entry(LAST, LAST, [(65535, MOST, 2 ** 32 - 1, b"\0")], [(65535, MOST, LAST - 1)], 64, MOST)),
    ("a row of each of 20 tables", entry(3, 5, [(table, 1, 9, b"x") for table in range(20)])),
    ("1,024 rows and ends", entry(3, 5, [(1, key, 9, b"") for key in range(1024)], [(1, key, 4) for key in range(1024)])),
    ("a mark", reference.Mark(7, 1, 1, 1)), ("a mark of nothing", reference.Mark(7, 64, 0, 0)), ("a retiring mark", reference.Mark(MOST, 2, 5, LAST)),
]


def items():
    return [{"name": name, "value": value_of(item), "version1": reference.frame(item, 1).hex(), "version2": reference.frame(item, 2).hex(),
             "line": item.line()} for name, item in ITEMS]


def fault_of(data):
    return reference.items_of(data)[1]


def bytes_turned(name, data):
    """Each byte with other values, where that makes a fault; the first byte of each run of the same fault is enough."""
    found = []
    for place, byte in enumerate(data):
        told = set()
        for value in (0, 1, 2, 3, 4, 5, 0x10, 0x40, 65, 0xff, byte ^ 1):
            turned = data[:place] + bytes([value]) + data[place + 1:]
            number = fault_of(turned)
            if number is not None and number not in told:
                told.add(number)
                found.append({"name": f"{name}, byte {place} is {value}", "bytes": turned.hex(), "number": number})
    return found


def item_faults():
    found = []
    for version in (1, 2):
        for name, item in (("an entry", E2), ("lists", LISTS), ("a mark", reference.Mark(7, 1, 2, 2))):
            data = reference.frame(item, version)
            found += bytes_turned(f"{name} of version {version}", data)
            found += [{"name": f"{name} of version {version}, cut at {end}", "bytes": data[:end].hex(), "number": 1} for end in range(1, len(data))]
            for more in (-1, 1):
                rest = data[4:] + b"\0" if more == 1 else data[4:-1]
                made = reference.num(len(rest), 4) + rest
                found.append({"name": f"{name} of version {version}, {more} bytes", "bytes": made.hex(), "number": fault_of(made)})
    for name, data in (("a length above the most", "00409821"), ("a length below the least", "0000001b"), ("the most, of which nothing comes", "00409820")):
        found.append({"name": name, "bytes": data, "number": fault_of(bytes.fromhex(data))})
    for make, version in ((of.entry, 1), (of.new_entry, 2)):
        for name, data in (("a body of 4,097", make(1, 1, [(1, 1, 9, b"x" * 4097)])), ("1,025 rows", make(1, 1, [(1, key, 9, b"") for key in range(1025)])),
                           ("1,025 ends", make(1, 9, [], [(1, key, 1) for key in range(1025)])), ("neither rows nor ends", make(1, 1)),
                           ("rows that fall", make(1, 1, [(1, 6, 9, b""), (1, 5, 9, b"")])), ("one row twice", make(1, 1, [(1, 5, 9, b"")] * 2)),
                           ("ends that fall", make(1, 9, [], [(1, 6, 1), (1, 5, 1)])), ("tables that fall", make(1, 9, [(2, 1, 9, b""), (1, 2, 9, b"")])),
                           ("born at the time", make(1, 9, [], [(1, 6, 9)])), ("number 0", make(0, 9, [(1, 1, 1, b"")]))):
            found.append({"name": f"{name}, version {version}", "bytes": data.hex(), "number": fault_of(data)})
    assert all(it["number"] for it in found)
    return found


# ---------------------------------------------------------------- messages

FRAGMENTS = [
    ("nothing known", {}),
    ("a delta", {"base": 4, "streams": [(3, 6, [], [])], "facts": [(1, 5, 2, None, 6), (1, 5, 6, (9, b"\x44"), None)]}),
    ("gaps, waiting marks and both kinds of facts", {"streams": [(2, 2, [4, 6], [(4, 4), (6, 7)]), (0, 3, [], [])], "facts": [
        (1, 5, 1, (9, b"a"), 2), (1, 5, 2, (9, b""), None), (2, 1, 1, None, 9)]}),
    ("64 streams, pruned", {"base": 0, "horizon": 3, "streams": [(n, 3 + n, [], []) for n in range(64)], "log": MOST}),
    ("the greatest numbers", {"base": LAST - 1, "horizon": LAST - 1, "streams": [(LAST, LAST, [], [])], "facts": [(65535, MOST, LAST, (2 ** 32 - 1, b"\0"), None)]}),
]


def value_of_fragment(base=0, horizon=0, streams=((0, 0, (), ()),), facts=(), log=7):
    return {"log": log, "base": base, "horizon": horizon, "streams": [
        {"prefix": prefix, "closed": closed, "extra": list(extra), "waiting": [list(it) for it in waiting]} for prefix, closed, extra, waiting in streams],
            "facts": [[table, key, born, None if row is None else [row[0], row[1].hex()], died] for table, key, born, row, died in facts]}


def items_request(items_, version, fields=of.fields_of_items):
    return of.spelled(fields([reference.frame(it, version) for it in items_]))


def items_requests(kind, fields):
    """Requests with the body of Items."""
    return [{"name": name, "value": {"kind": kind, "items": [value_of(it) for it in chosen]}, "bytes": items_request(chosen, 2, fields).hex(),
             "bytes_of_version1_items": items_request(chosen, 1, fields).hex()}
            for name, chosen in ((f"no {kind}", []), ("an entry and its mark", [E1, reference.Mark(7, 1, 1, 1)]), ("many items", [it for _, it in ITEMS[:6]]))]


def requests():
    found = items_requests("items", of.fields_of_items)
    found.append({"name": "front", "value": {"kind": "front"}, "bytes": of.front().hex()})
    found.append({"name": "full", "value": {"kind": "full"}, "bytes": of.full().hex()})
    for time in (0, 4, LAST):
        found.append({"name": f"delta since {time}", "value": {"kind": "delta", "base": time}, "bytes": of.delta(time).hex()})
        found.append({"name": f"prune to {time}", "value": {"kind": "prune", "horizon": time}, "bytes": of.prune(time).hex()})
    for time, query, text in ((1, ["get", 1, 5], of.get(1, 5)), (LAST, ["get", 65535, MOST], of.get(65535, MOST)), (2, ["range", 1, 0, MOST], of.scan(1, 0, MOST)),
                              (2, ["range", 1, 9, 0], of.scan(1, 9, 0)), (3, ["tag", 1, 2 ** 32 - 1], of.by_tag(1, 2 ** 32 - 1)), (0, ["count", 9], of.count(9))):
        found.append({"name": f"ask {query} at {time}", "value": {"kind": "ask", "time": time, "query": query}, "bytes": of.ask(time, text).hex()})
    for name, parts in FRAGMENTS:
        found.append({"name": f"join: {name}", "value": {"kind": "join", "fragment": value_of_fragment(**parts)}, "bytes": of.join_this(**parts).hex()})
        if not parts.get("base"):
            found.append({"name": f"merge: {name}", "value": {"kind": "merge", "fragment": value_of_fragment(**parts)}, "bytes": of.merge_this(**parts).hex()})
    return found


def refusals():
    """Each refusal that a reply may have, with fields of the greatest value."""
    for number in [*range(1, 11), *range(20, 27), *range(40, 46), 90]:
        values = {22: (LAST, 3), 24: (LAST,), 25: (1,), 26: (0,), 40: (MOST, LAST), 42: (MOST,)}.get(number, ())
        names = {22: ("base", "readable"), 24: ("readable",), 25: ("horizon",), 26: ("readable",), 40: ("reader", "at"), 42: ("ops",)}.get(number, ())
        line = " ".join(["refused", str(number), *(f"{name} {value}" for name, value in zip(names, values))])
        yield f"refused {number}", {"kind": "refused", "number": number, "values": list(values)}, of.refused(number, *values), [line]


def replies():
    row, rows = (9, b"\x41"), [(5, 9, b"\x41"), (6, 8, b""), (MOST, 2 ** 32 - 1, b"\0\xff")]
    found = [(f"done {ops}", {"kind": "done", "operations": ops}, of.done(ops), [f"done {ops}"]) for ops in (1, 2, LAST)]
    found += [(f"front {low} {high}", {"kind": "front", "horizon": low, "readable": high}, of.spelled(of.fields_of_front(low, high)),
               [f"front horizon {low} readable {high}"]) for low, high in ((0, 0), (0, 3), (3, 3), (LAST, LAST))]
    found += [("no row", {"kind": "one", "row": None}, of.spelled(of.fields_of_one(None)), ["none"]),
              ("a row", {"kind": "one", "row": [9, "41"]}, of.spelled(of.fields_of_one(row)), ["9 41"]),
              ("an empty row", {"kind": "one", "row": [0, ""]}, of.spelled(of.fields_of_one((0, b""))), ["0 -"]),
              ("no rows", {"kind": "rows", "rows": []}, of.spelled(of.fields_of_rows([])), ["rows 0"]),
              ("rows", {"kind": "rows", "rows": [[key, tag, body.hex()] for key, tag, body in rows]}, of.spelled(of.fields_of_rows(rows)),
               ["5 9 41", "6 8 -", f"{MOST} {2 ** 32 - 1} 00ff", "rows 3"])]
    found += [(f"count {n}", {"kind": "number", "count": n}, of.spelled(of.fields_of_number(n)), [f"count {n}"]) for n in (0, 7, MOST)]
    for name, parts in FRAGMENTS:
        value = value_of_fragment(**parts)
        found.append((f"fragment: {name}", {"kind": "fragment", "fragment": value}, of.spelled(of.message(34, of.fields_of_fragment(**parts))),
                      [f"fragment base {value['base']} horizon {value['horizon']} facts {len(value['facts'])}"]))
    found += refusals()
    return [{"name": name, "value": value, "bytes": data.hex(), "lines": lines} for name, value, data, lines in found]


def fragment_faults(kind):
    """Each fault of a fragment, in a message of this kind."""
    full = of.fields_of_fragment(streams=[(2, 2, [4, 6], [(4, 4), (6, 7)])], facts=[
        (1, 5, 1, (9, b"a"), 2), (1, 5, 2, (9, b"b"), None), (2, 1, 1, (9, b"c"), None)])
    cut = of.fields_of_fragment(base=3, horizon=3, streams=[(3, 3, [], [])], facts=[(1, 5, 1, None, 4)])
    whole, part = of.message(kind, full), of.message(kind, cut)
    turned = lambda name, text, which=0: of.patched(whole, name, text, which)
    return [
        ("no streams", turned("streams", of.u16(0)), 5), ("65 streams", turned("streams", of.u16(65)), 5), ("base", turned("base", OVER), 6),
        ("base below the horizon", of.patched(part, "base", of.u64(2)), 6), ("horizon above closed", turned("horizon", of.u64(3)), 6),
        ("prefix", turned("prefix", OVER), 6), ("closed", turned("closed", OVER), 6),
        ("count of extra numbers", of.ended_by(whole, "count of extra numbers", b"\xff" * 4), 10),
        ("extra number at the prefix", turned("extra number", of.u64(3)), 6), ("extra number", turned("extra number", OVER, 1), 6),
        ("order of extra numbers", turned("extra number", of.u64(4), 1), 7),
        ("count of waiting marks", of.ended_by(whole, "count of waiting marks", b"\xff" * 4), 10), ("n at the prefix", turned("n", of.u64(2)), 6),
        ("order of waiting marks", turned("n", of.u64(4), 1), 7), ("m below n", turned("m", of.u64(3)), 6), ("m", turned("m", OVER), 6),
        ("count of facts", of.ended_by(whole, "count of facts", b"\xff" * 4), 10), ("order of facts", turned("born", of.u64(1), 1), 7),
        ("born at 0", turned("born", of.u64(0)), 6), ("born above the last time", turned("born", OVER, 1), 6), ("no flag", turned("flags", b"\0"), 6),
        ("flags", turned("flags", b"\4"), 6), ("row at the base", of.patched(part, "flags", b"\1"), 6 if kind != 22 else 6),
        ("body of a fact", turned("body length", of.u16(4097)), 9), ("died at its birth", turned("died", of.u64(1)), 6),
        ("died", turned("died", of.u64(MOST)), 6), ("died at the base", of.patched(part, "died", of.u64(3)), 6),
        ("a byte behind", of.spelled(whole + [("more", b"\0")]), 10)]


def heads(kind, other):
    return [("a length above the most", of.u32(2 ** 28 + 1), 2), ("a length below the least", of.u32(1), 10), ("no length", of.u32(0), 10),
            ("version", of.framed(bytes([2, kind])), 3), ("version before kind", of.framed(b"\2\xff"), 3), ("kind 0", of.framed(b"\1\0"), 4),
            ("kind of the other way", of.framed(bytes([1, other])), 4), ("kind above the last", of.framed(b"\1\xff"), 4)]


def request_faults():
    got = of.message(20, [("time", of.u64(1))] + of.get(1, 5))
    one = of.fields_of_entry(2, 2, [(1, 5, 9, b"a"), (1, 7, 9, b"b")], [(1, 5, 1), (1, 7, 1)])
    two = of.fields_of_new_entry(2, 2, [(1, 5, 9, b"a"), (1, 7, 9, b"b"), (2, 1, 9, b"c")], [(1, 5, 1), (1, 7, 1), (2, 1, 1)])
    first = of.entry(1, 1, [(1, 5, 9, b"\x41")])
    inside = lambda name, text, which=0: of.items(of.patched(one, name, text, which))
    within = lambda name, text, which=0: of.items(first, of.patched(two, name, text, which))
    cases = heads(17, 32) + [
        ("front with a byte", of.framed(b"\1\x11\0"), 10), ("full with a byte", of.framed(b"\1\x13\0"), 10), ("delta without a base", of.framed(b"\1\x12"), 10),
        ("base of a delta", of.spelled(of.message(18, [("base", OVER)])), 6), ("horizon of a prune", of.spelled(of.message(23, [("horizon", OVER)])), 6),
        ("time of an ask", of.patched(got, "time", OVER), 6), ("query 0", of.patched(got, "query", b"\0"), 6), ("query 5", of.patched(got, "query", b"\5"), 6),
        ("query with a byte", of.spelled(got + [("more", b"\0")]), 10), ("query that is cut", of.spelled(got[:-1] + [("key", b"\0" * 7)]), 10),
        ("count of items", of.framed(b"\1\x10" + of.u32(65537)), 8), ("items that are not there", of.framed(b"\1\x10" + of.u32(1)), 10),
        ("items and a byte", of.spelled(of.fields_of_items([first]) + [("more", b"\0")]), 10),
        ("item's length above its most", of.framed(b"\1\x10" + of.u32(1) + of.u32(4233249)), 2),
        ("item's length below the least", of.framed(b"\1\x10" + of.u32(1) + of.u32(27)), 10),
        ("item that does not fit", of.framed(b"\1\x10" + of.u32(1) + first[:-1]), 10),
        ("item's version", inside("version", b"\3"), 3), ("item's kind", inside("kind", b"\3"), 4), ("item's stream 0", inside("stream", of.u16(0)), 5),
        ("item's stream 65", inside("stream", of.u16(65)), 5), ("item's number 0", inside("number", of.u64(0)), 6),
        ("item's number above its time", inside("number", of.u64(3)), 6), ("item's time", inside("time", OVER), 6),
        ("count of ends", inside("count of ends", of.u16(1025)), 8), ("order of ends", inside("key", of.u64(5), 1), 7), ("born at 0", inside("born", of.u64(0)), 6),
        ("born at the time", inside("born", of.u64(2)), 6), ("count of rows", inside("count of rows", of.u16(1025)), 8),
        ("order of rows", inside("key", of.u64(5), 3), 7), ("item's body", inside("body length", of.u16(4097)), 9),
        ("mark's n above its m", of.items(of.mark(1, 2, 1)), 6), ("groups of ends", within("groups of ends", of.u16(1025)), 8),
        ("order of tables of ends", within("table of ends", of.u16(1), 1), 7), ("a group without ends", within("count of ends", of.u16(0)), 8),
        ("order of ends in a group", within("key", of.u64(5), 1), 7), ("born in a group", within("born", of.u64(2)), 6),
        ("groups of rows", within("groups of rows", of.u16(1025)), 8), ("order of tables of rows", within("table of rows", of.u16(1), 1), 7),
        ("a group without rows", within("count of rows", of.u16(0), 1), 8), ("order of rows in a group", within("key", of.u64(5), 4), 7),
        ("a body in a group", within("body length", of.u16(4097)), 9),
        ("base of a merge", of.patched(of.message(22, of.fields_of_fragment()), "base", of.u64(1)), 6)]
    cases += [(f"join: {name}", data, number) for name, data, number in fragment_faults(21)]
    cases += [(f"merge: {name}", data, number) for name, data, number in fragment_faults(22)]
    worked = items_request([E1, reference.Mark(7, 1, 1, 1)], 2) + of.ask(1, of.get(1, 5))
    cases += [(f"an ask, cut at {end}", of.spelled(got)[:end], 1) for end in range(1, len(of.spelled(got)))]
    cases += [(f"items, cut at {end}", worked[:end], 1) for end in range(1, worked.index(b"\1\x14") - 4)]
    return [{"name": name, "bytes": data.hex(), "number": number} for name, data, number in cases]


def reply_faults():
    rows = of.fields_of_rows([(5, 9, b"a"), (6, 9, b"b")])
    one, refused = of.fields_of_one((9, b"a")), of.fields_of_refused(1)
    turned = lambda fields, name, text, which=0: of.patched(fields, name, text, which)
    cases = heads(32, 17) + [
        ("done with 0", of.done(0), 6), ("done above the most", of.done(LAST + 1), 6), ("horizon above readable", of.spelled(of.fields_of_front(5, 4)), 6),
        ("readable above the last time", of.spelled(of.fields_of_front(5, LAST + 1)), 6), ("an answer of no kind", turned(one, "kind of answer", b"\4"), 6),
        ("presence 2", turned(one, "presence", b"\2"), 6), ("a body above the most", turned(one, "body length", of.u16(4097)), 9),
        ("a body that is not there", turned(one, "body length", of.u16(2)), 10), ("a row and a byte", of.spelled(one + [("more", b"\0")]), 10),
        ("rows that are not there", of.ended_by(rows, "count of rows", b"\xff" * 4), 10), ("one key twice", turned(rows, "key", of.u64(5), 1), 7),
        ("keys that fall", turned(rows, "key", of.u64(4), 1), 7), ("a body of rows", turned(rows, "body length", of.u16(4097), 1), 9),
        ("no number", of.framed(b"\1\x23\3"), 10)]
    cases += [(f"refusal {number}", turned(refused, "number", of.u8(number)), 6) for number in (0, 11, 19, 27, 30, 36, 39, 46, 89, 91, 92, 93, 255)]
    cases += [("a refusal without its fields", of.framed(b"\1\x24\1"), 10), ("a field that is not 0", of.refused(1, 1), 6),
              ("a second field that is not 0", of.refused(24, 1, 1), 6), ("a base above the last time", of.refused(22, LAST + 1, 1), 6),
              ("a readable above the last time", of.refused(26, LAST + 1), 6), ("a hold above the last time", of.refused(40, 1, LAST + 1), 6)]
    cases += [(f"fragment: {name}", data, number) for name, data, number in fragment_faults(34)]
    data = of.spelled(rows)
    cases += [(f"rows, cut at {end}", data[:end], 1) for end in range(1, len(data))]
    return [{"name": name, "bytes": data.hex(), "number": number} for name, data, number in cases]


# ---------------------------------------------------------------- sessions

class Session:
    """A node as the definitions have it: a set of items, a horizon, and the number of operations; and what goes over one link."""

    def __init__(self, name, log=7, streams=1):
        self.name, self.log, self.streams = name, log, streams
        self.items, self.horizon, self.ops, self.steps, self.ends = [], 0, 1, [], 0

    def step(self, sent, told):
        self.steps.append([sent.hex(), told.hex()])

    def done(self, request):
        self.ops += 1
        self.step(request, of.done(self.ops))

    def readable(self):
        return reference.readable(self.items, self.streams)

    def take(self, *found, version=2):
        self.items += [it for it in found if not any(value_of(it) == value_of(known) for known in self.items)]
        self.done(items_request(found, version))

    def refuse(self, request, *refused):
        self.step(request, of.refused(*refused))

    def front(self):
        self.step(of.front(), of.spelled(of.fields_of_front(self.horizon, self.readable())))

    def unread(self, time):
        """Why a time can't be read: the number of the refusal and its field."""
        return (25, self.horizon) if time < self.horizon else (26, self.readable()) if time > self.readable() else None

    def rows(self, time, table, low=0, high=MOST):
        shown = reference.shown(self.items, time).items()
        return sorted((key, *row) for (of_table, key), row in shown if of_table == table and low <= key <= high)

    def answer(self, time, kind, *words):
        """The message of an answer at a time that can be read."""
        rows = self.rows(time, words[0], *(words[1:] if kind == "range" else ()))
        if kind == "get":
            return of.fields_of_one(next(((tag, body) for key, tag, body in rows if key == words[1]), None))
        if kind == "count":
            return of.fields_of_number(len(rows))
        return of.fields_of_rows([row for row in rows if kind == "range" or row[1] == words[1]])

    def ask(self, time, kind, *words):
        query = QUERIES[kind](*words)
        if self.unread(time):
            return self.refuse(of.ask(time, query), *self.unread(time))
        return self.step(of.ask(time, query), of.spelled(self.answer(time, kind, *words)))

    def prune(self, time):
        if time > self.readable():
            return self.refuse(of.prune(time), 24, self.readable())
        self.horizon = max(self.horizon, time)
        return self.done(of.prune(time))

    def fragment(self, base):
        """The parts of what is held, cut at a base."""
        horizon, rows, ends, streams = reference.content_of(self.items, self.streams, self.horizon)
        keys = sorted({key for key in rows if key[2] > base} | {key for key, died in ends.items() if died > base})
        parts = []
        for taken, closed, waiting in streams:
            prefix = next(n for n in range(len(taken) + 1) if n + 1 not in taken)
            parts.append((prefix, closed, sorted(n for n in taken if n > prefix), sorted(waiting.items())))
        return {"log": self.log, "base": base, "horizon": horizon, "streams": parts,
                "facts": [(*key, rows[key] if key in rows and key[2] > base else None, ends.get(key)) for key in keys]}

    def full(self):
        self.step(of.full(), of.spelled(of.message(34, of.fields_of_fragment(**self.fragment(0)))))

    def delta(self, base):
        if base < self.horizon:
            return self.refuse(of.delta(base), 25, self.horizon)
        return self.step(of.delta(base), of.spelled(of.message(34, of.fields_of_fragment(**self.fragment(base)))))

    def join(self, other, base):
        request = of.join_this(**other.fragment(base))
        if base > self.readable():
            return self.refuse(request, 22, base, self.readable())
        return self._joined(other, request)

    def merge(self, other):
        return self._joined(other, of.merge_this(**other.fragment(0)))

    def _joined(self, other, request):
        self.items += [it for it in other.items if not any(value_of(it) == value_of(known) for known in self.items)]
        self.horizon = max(self.horizon, other.horizon)
        return self.done(request)

    def fault(self, data, number):
        """Bytes that end the link."""
        self.step(data, of.refused(number))
        self.ends = number

    def told(self):
        return {"name": self.name, "log": self.log, "streams": self.streams, "steps": self.steps, "ends": self.ends}


class LaterSession(Session):
    """The same with messages of version 2: what the link gives and took in parts, and its holds."""

    def __init__(self, name, log=7, streams=1):
        super().__init__(name, log, streams)
        self.giving, self.came, self.holds, self.next_hold = None, [], {}, 1

    def later_step(self, request, reply):
        self.step(of.spelled(request), of.spelled(reply))

    def later_refuse(self, request, *refused):
        self.later_step(request, of.fields_of_later_refused(*refused))

    def later_done(self, request):
        self.ops += 1
        self.later_step(request, of.later(64, [("operations", of.u64(self.ops))]))

    def told(self):
        return {**super().told(), "version": 2}

    def status(self):
        known = self.fragment(0)
        streams = [(prefix, closed, len(extra), len(waiting)) for prefix, closed, extra, waiting in known["streams"]]
        least = min(self.holds.values(), default=None)
        self.later_step(of.later(48), of.fields_of_told(self.horizon, self.readable(), self.ops, least, streams, log=self.log))

    def latest(self, kind, *words):
        time = self.readable()
        self.later_step(of.later(49, QUERIES[kind](*words)), of.later(66, [("time", of.u64(time))] + self.answer(time, kind, *words)[2:]))

    def page(self, time, table, low, high, most):
        request = of.fields_of_page_of(time, table, low, high, most)
        if self.unread(time):
            return self.later_refuse(request, *self.unread(time))
        rows = self.rows(time, table, low, high)
        return self.later_step(request, of.fields_of_page(rows[:most], len(rows) > most))

    def whole(self, base, part_bytes):
        request = of.fields_of_whole(base, part_bytes)
        self.giving = None
        if 0 < base < self.horizon:
            return self.later_refuse(request, 25, self.horizon)
        fragment = self.fragment(base)
        self.giving = {**fragment, "count": len(fragment["facts"])}, part_bytes
        return self.next_part(request)

    def more(self):
        if self.giving is None:
            return self.later_refuse(of.later(52), 47)
        return self.next_part(of.later(52))

    def next_part(self, request):
        """The longest front that has at most so many bytes, or one fact; with the last one the head."""
        (fragment, part_bytes), room, count = self.giving, self.giving[1], 0
        for fact in fragment["facts"]:
            room -= sum(len(text) for _, text in of.fields_of_facts([fact])[1:])
            count += room >= 0 or count == 0
            if room < 0:
                break
        part, left = fragment["facts"][:count], fragment["facts"][count:]
        if left:
            self.giving = {**fragment, "facts": left}, part_bytes
            return self.later_step(request, of.fields_of_part(part, len(left)))
        self.giving = None
        return self.later_step(request, of.fields_of_last_part(part, **{name: it for name, it in fragment.items() if name != "facts"}))

    def add(self, facts):
        request = of.later(53, of.fields_of_facts(facts))
        if self.came and facts and facts[0][:3] <= self.came[-1][:3]:
            return self.later_refuse(request, 7)
        self.came += facts
        return self.later_step(request, of.later(70, [("count", of.u64(len(self.came)))]))

    def is_new(self, item):
        """Whether an item tells something new to what is held: a number that isn't taken, or of a mark what changes its stream."""
        before, after = (reference.content_of(items, self.streams, 0) for items in (self.items, [*self.items, item]))
        return before[3] != after[3]

    def feed(self, *found, version=2):
        """Items, each of them compared with what was held before the first."""
        new = sum(map(self.is_new, found))
        self.items += [it for it in found if not any(value_of(it) == value_of(known) for known in self.items)]
        self.ops += 1
        self.later_step(of.fields_of_feed([reference.frame(it, version) for it in found]), of.fields_of_fed(self.ops, new))

    def take_parts(self, other, base, refused=None, is_merge=False, count=None):
        """Joins what another holds, of which all facts came, or is refused. The head tells of as many facts as came, or of another number."""
        head = {name: it for name, it in other.fragment(base).items() if name != "facts"}
        head["count"] = len(self.came) if count is None else count
        request, self.came = of.later(55 if is_merge else 54, of.fields_of_head(**head)), []
        if refused:
            return self.later_refuse(request, *refused)
        self.items += [it for it in other.items if not any(value_of(it) == value_of(known) for known in self.items)]
        self.horizon = max(self.horizon, other.horizon)
        return self.later_done(request)

    def hold(self, time):
        request = of.later(56, [("time", of.u64(time))])
        if time < self.horizon:
            return self.later_refuse(request, 25, self.horizon)
        number, self.next_hold, self.ops = self.next_hold, self.next_hold + 1, self.ops + 1
        self.holds[number] = time
        return self.later_step(request, of.fields_of_held(number, time))

    def release(self, number):
        request = of.later(57, [("number", of.u64(number))])
        if number not in self.holds:
            return self.later_refuse(request, 44)
        del self.holds[number]
        return self.later_done(request)

    def prune(self, time):
        """Up to the time, or to the least hold below it."""
        if time > self.readable():
            return self.refuse(of.prune(time), 24, self.readable())
        self.horizon = max(self.horizon, min(time, *self.holds.values(), time))
        return self.done(of.prune(time))


def day():
    """Every request once or more, on two streams, with both halves of a log."""
    it, other = Session("a day of a node", streams=2), Session("", streams=2)
    mark = lambda stream, n, m: reference.Mark(7, stream, n, m)
    second = entry(1, 4, [(2, 1, 8, b"x")], [(1, 6, 3)], stream=2)
    it.front()
    it.ask(0, "get", 1, 5)
    it.ask(1, "get", 1, 5)
    it.take(E1, E2, E3, mark(1, 3, 3))
    it.front()
    it.ask(3, "count", 1)
    it.take(mark(2, 0, 3))
    for time in range(5):
        it.ask(time, "get", 1, 5)
        it.ask(time, "range", 1, 0, MOST)
        it.ask(time, "tag", 1, 9)
        it.ask(time, "count", 1)
    it.delta(2)
    it.delta(4)
    it.full()
    it.take(E1, E2, version=1)
    it.prune(9)
    it.prune(2)
    it.ask(1, "get", 1, 5)
    it.delta(1)
    it.full()
    other.items = [E1, E2, E3, second, mark(1, 3, 5), mark(2, 1, 5)]
    it.join(other, 4)
    it.join(other, 3)
    it.ask(5, "range", 1, 0, 9)
    it.ask(5, "range", 2, 0, 9)
    other.horizon = 4
    it.merge(other)
    it.ask(3, "count", 1)
    it.front()
    it.take(reference.Mark(7, 1, 3, LAST), reference.Mark(7, 2, 1, LAST))
    it.ask(LAST, "count", 2)
    it.refuse(items_request([reference.Mark(8, 1, 0, 1)], 2), 20)
    it.refuse(items_request([reference.Mark(7, 3, 0, 1)], 2), 21)
    it.refuse(of.join_this(log=8, streams=[(0, 0, [], [])] * 2), 20)
    it.refuse(of.merge_this(), 21)
    return it


def gaps():
    it = Session("entries and marks behind a gap")
    it.take(E2, reference.Mark(7, 1, 3, 3), reference.Mark(7, 1, 2, 2))
    it.front()
    it.full()
    it.take(E1)
    it.front()
    it.full()
    it.take(E3)
    it.ask(3, "range", 1, 0, 9)
    return it


def faulty(name, data, number):
    it = Session(name)
    it.take(E1, reference.Mark(7, 1, 1, 1))
    it.ask(1, "get", 1, 5)
    it.fault(data, number)
    return it


def sessions():
    found = [day(), gaps(), faulty("a fault behind requests", of.framed(b"\2\x11"), 3), faulty("a length above the most", of.u32(2 ** 28 + 1), 2),
             faulty("a reply's kind", of.done(1), 4), faulty("a half of a frame", of.ask(1, of.get(1, 5))[:9], 1)]
    conflict = Session("a conflict damages a node")
    conflict.take(E1, E2, reference.Mark(7, 1, 1, 1))
    conflict.refuse(items_request([entry(3, 3, [], [(1, 5, 1)])], 2), 23)
    for request in (of.front(), of.full(), of.ask(1, of.get(1, 5)), of.prune(0), items_request([E1], 2)):
        conflict.refuse(request, 41)
    return [it.told() for it in [*found, conflict]]


def later_day():
    """Every request of version 2 once or more, between those of version 1, on two streams."""
    it, other = LaterSession("a day in version 2", streams=2), LaterSession("", streams=2)
    mark = lambda stream, n, m: reference.Mark(7, stream, n, m)
    second = entry(1, 4, [(2, 1, 8, b"x")], [(1, 6, 3)], stream=2)
    it.status()
    it.latest("get", 1, 5)
    it.more()
    it.take(E1, E2, E3, mark(1, 3, 3), mark(2, 0, 3))
    for kind, *words in (("get", 1, 5), ("range", 1, 0, MOST), ("tag", 1, 9), ("count", 1), ("get", 2, 5)):
        it.latest(kind, *words)
    for words in ((3, 1, 0, MOST, 1), (3, 1, 6, MOST, 1), (3, 1, 0, MOST, 2), (3, 1, 9, 0, 5), (1, 1, 0, 9, 2 ** 32 - 1), (4, 1, 0, 9, 1)):
        it.page(*words)
    return it, other, mark, second


def later_parts():
    """Parts of one moment, and parts of another node, between changes."""
    it, other, mark, second = later_day()
    # parts of one moment, whatever is changed between them
    it.whole(0, 0)
    it.take(entry(4, 4, [(1, 9, 9, b"new")]))
    it.more()
    it.more()
    it.more()
    it.whole(2, 2 ** 32 - 1)
    it.whole(0, 60)
    it.whole(0, 23)
    it.more()
    it.status()
    other.items = [E1, E2, E3, second, mark(1, 3, 5), mark(2, 1, 5)]
    facts = other.fragment(3)["facts"]
    it.add(facts[:1])
    it.add(facts[:1])
    it.add([])
    it.add(facts[1:])
    it.take_parts(other, 3)
    # a part that was left out, the first or the last, or one too many: nothing is taken
    for some, count in ((facts[1:], len(facts)), (facts[:1], len(facts)), ([], len(facts)), (facts, len(facts) - 1), (facts, 2 ** 64 - 1)):
        it.add(some)
        it.take_parts(other, 3, (8,), count=count)
    it.take_parts(LaterSession("", log=8, streams=2), 0, (20,))
    it.take_parts(LaterSession("", streams=1), 0, (21,))
    it.latest("range", 1, 0, 9)
    # what a head says of the facts that came: born at the base with a row, which no delta has
    it.add([(1, 1, 1, (9, b""), None)])
    it.take_parts(other, 3, (6,))
    it.status()
    return it


def later_holds():
    """Holds, prunes and a merge that would pass one."""
    it, other = LaterSession("holds", streams=1), LaterSession("", streams=1)
    it.take(E1, E2, E3, reference.Mark(7, 1, 3, 3))
    it.hold(2)
    it.hold(1)
    it.prune(3)
    it.status()
    it.release(3)
    it.release(2)
    it.release(2)
    it.prune(3)
    it.hold(1)
    it.hold(9)
    it.ask(1, "get", 1, 5)
    it.page(1, 1, 0, 9, 9)
    it.whole(1, 9)
    other.items, other.horizon = it.items, 3
    it.add(other.fragment(0)["facts"])
    it.take_parts(other, 0, (40, 1, 2), is_merge=True)
    it.release(1)
    it.add(other.fragment(0)["facts"])
    it.take_parts(other, 0, is_merge=True)
    it.status()
    it.release(3)
    it.status()
    return it


def later_feeds():
    """Items of which the feeder is told how many were new: entries that stand, twice in one request, and behind a gap; marks that close more, no
    more, or wait; and items that are refused, in version 2."""
    it, mark = LaterSession("items and how many were new", streams=2), lambda stream, n, m: reference.Mark(7, stream, n, m)
    it.feed()
    it.feed(E1, mark(1, 1, 1))
    it.feed(E1, mark(1, 1, 1))
    it.feed(E1, mark(1, 1, 1), E2, version=1)
    it.feed(mark(1, 2, 2), mark(1, 2, 3), mark(1, 1, 3), mark(2, 0, 0))
    it.take(mark(2, 0, 2))
    it.feed(mark(2, 0, 2), mark(2, 0, 1), mark(2, 0, 3))
    fourth = entry(4, 5, [(1, 9, 9, b"d")])
    it.feed(fourth, fourth, mark(1, 4, 6), mark(1, 4, 6))
    it.feed(fourth, mark(1, 4, 6), mark(1, 4, 5), mark(1, 4, 7), mark(1, 5, 9))
    it.feed(entry(3, 4, [(1, 6, 9, b"c")]))
    it.feed(entry(3, 4, [(1, 6, 9, b"c")]), fourth, mark(1, 4, 7))
    it.status()
    it.prune(3)
    it.feed(E1, E2, mark(1, 1, 1), entry(5, 9, [(1, 5, 9, b"e")], [(1, 5, 2)]))
    it.later_refuse(of.fields_of_feed([reference.frame(reference.Mark(8, 1, 0, 1), 2)]), 20)
    it.later_refuse(of.fields_of_feed([reference.frame(E1, 2), reference.frame(mark(3, 0, 1), 2)]), 21)
    it.status()
    return it


def later_faulty(name, data, number):
    it = LaterSession(name)
    it.take(E1, reference.Mark(7, 1, 1, 1))
    it.hold(1)
    it.fault(data, number)
    return it


def later_sessions():
    """Sessions with a node that reads both versions. A fault of form is told in version 1 in either."""
    found = [later_parts(), later_holds(), later_feeds(), later_faulty("an item of version 3", of.spelled(of.fields_of_feed([of.framed(b"\3\2" + bytes(26))])), 3),
             later_faulty("facts of a part that fall", of.spelled(of.later(53, of.fields_of_facts([FACT, FACT]))), 7),
             later_faulty("a kind of version 1 in version 2", of.framed(b"\2\x11"), 4), later_faulty("a version 3", of.framed(b"\3\x30"), 3),
             later_faulty("a half of a frame", of.spelled(of.later(52))[:5], 1)]
    return [it.told() for it in found]


FACT = (1, 5, 1, (9, b"a"), None)


# ---------------------------------------------------------------- files

FILES = {"items": items, "item_faults": item_faults, "requests": requests, "request_faults": request_faults, "replies": replies,
         "reply_faults": reply_faults, "sessions": sessions,
         "later_requests": lambda: later.requests() + items_requests("feed", of.fields_of_feed), "later_request_faults": later.request_faults,
         "later_replies": later.replies, "later_reply_faults": later.reply_faults, "later_sessions": later_sessions}


def text_of(vectors):
    return "[\n" + ",\n".join(json.dumps(it) for it in vectors) + "\n]\n"


def main(words):
    if words not in ([], ["--check"]):
        print("usage: tests/tools/make_vectors.py [--check]", file=sys.stderr)
        return 2
    status = 0
    FOLDER.mkdir(exist_ok=True)
    for name, make in FILES.items():
        path, text = FOLDER / f"{name}.json", text_of(make())
        if not words:
            path.write_text(text, encoding="utf-8")
        elif not path.exists() or path.read_text(encoding="utf-8") != text:
            print(f"{path.name} is not what tests/tools/make_vectors.py writes")
            status = 1
    return status


if __name__ == "__main__":
    sys.exit(main(sys.argv[1:]))
