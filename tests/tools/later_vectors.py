"""What tests/tools/make_vectors.py writes of messages of version 2: requests, replies, faults and sessions, from docs/FORMATS.md and
docs/PROTOCOL.md alone. Standard library only."""
import pathlib
import sys
sys.path.append(str(pathlib.Path(__file__).resolve().parents[1] / "lib"))
import fields as of
import reference

LAST, MOST = 2 ** 62, 2 ** 64 - 1
OVER = of.u64(LAST + 1)
QUERIES = {"get": of.get, "range": of.scan, "tag": of.by_tag, "count": of.count}
FACTS = [(1, 5, 1, (9, b"a"), 2), (1, 5, 2, (9, b""), None), (2, 1, 1, None, 9)]
HEADS = [
    ("nothing known", {}), ("gaps and waiting marks", {"streams": [(2, 2, [4, 6], [(4, 4), (6, 7)]), (0, 3, [], [])], "count": 3}),
    ("64 streams, pruned", {"horizon": 3, "streams": [(n, 3 + n, [], []) for n in range(64)], "log": MOST, "count": MOST}),
    ("a base", {"base": 4, "horizon": 3, "streams": [(3, 6, [], [])], "count": 2 ** 32})]


def value_of_facts(facts):
    return [[table, key, born, None if row is None else [row[0], row[1].hex()], died] for table, key, born, row, died in facts]


def value_of_head(base=0, horizon=0, streams=((0, 0, (), ()),), log=7, count=0):
    return {"log": log, "base": base, "horizon": horizon, "count": count, "streams": [
        {"prefix": prefix, "closed": closed, "extra": list(extra), "waiting": [list(it) for it in waiting]} for prefix, closed, extra, waiting in streams]}


def value_of_rows(rows):
    return [[key, tag, body.hex()] for key, tag, body in rows]


# ---------------------------------------------------------------- values and their bytes

def requests():
    found = [("streams", {"kind": "streams"}, of.later(48)), ("more", {"kind": "more"}, of.later(52)), ("stats", {"kind": "stats"}, of.later(60)),
             ("tables", {"kind": "tables"}, of.later(61))]
    for query in (["get", 1, 5], ["get", 65535, MOST], ["range", 1, 9, 0], ["tag", 1, 2 ** 32 - 1], ["count", 9]):
        found.append((f"latest {query}", {"kind": "latest", "query": query}, of.later(49, QUERIES[query[0]](*query[1:]))))
    for words in ((0, 1, 0, MOST, 1), (LAST, 65535, 9, 0, 2 ** 32 - 1)):
        found.append((f"page {words}", {"kind": "page", **dict(zip(("time", "table", "low", "high", "most"), words))}, of.fields_of_page_of(*words)))
    for base, size in ((0, 0x800000), (LAST, 0), (4, 2 ** 32 - 1)):
        found.append((f"whole since {base} in parts of {size}", {"kind": "whole", "base": base, "part_bytes": size}, of.fields_of_whole(base, size)))
    for facts in ([], FACTS, [(65535, MOST, LAST, (2 ** 32 - 1, b"\0" * 4096), None)]):
        found.append((f"a part of {len(facts)}", {"kind": "add", "facts": value_of_facts(facts)}, of.later(53, of.fields_of_facts(facts))))
    for name, head in HEADS:
        found.append((f"join parts: {name}", {"kind": "join parts", "head": value_of_head(**head)}, of.later(54, of.fields_of_head(**head))))
        if not head.get("base"):
            found.append((f"merge parts: {name}", {"kind": "merge parts", "head": value_of_head(**head)}, of.later(55, of.fields_of_head(**head))))
    found += [(f"hold {time}", {"kind": "hold", "time": time}, of.later(56, [("time", of.u64(time))])) for time in (0, LAST)]
    found += [(f"release {hold}", {"kind": "release", "number": hold}, of.later(57, [("number", of.u64(hold))])) for hold in (1, MOST)]
    found += [(f"await {time} for {wait}", {"kind": "await", "time": time, "milliseconds": wait}, of.fields_of_await(time, wait))
              for time, wait in ((0, 0), (3, 1_500), (LAST, 600_000))]
    return [{"name": name, "value": value, "bytes": of.spelled(fields).hex()} for name, value, fields in found]


def refusals():
    fields = {22: ("base", "readable"), 24: ("readable",), 25: ("horizon",), 26: ("readable",), 40: ("reader", "at"), 42: ("ops",), 46: ("most",)}
    for number in [*range(1, 11), *range(20, 27), *range(40, 48), 90]:
        values = {22: (LAST, 3), 24: (LAST,), 25: (1,), 26: (0,), 40: (MOST, LAST), 42: (MOST,), 46: (MOST,)}.get(number, ())
        line = " ".join(["refused", str(number), *(f"{name} {value}" for name, value in zip(fields.get(number, ()), values))])
        yield f"refused {number}", {"kind": "refused", "number": number, "values": list(values)}, of.fields_of_later_refused(number, *values), [line]


def streams_replies():
    for name, told in (("a new node", {}), ("a node that is held", {"horizon": 2, "readable": 3, "operations": 9, "hold": 2, "streams": [(3, 3, 0, 0), (0, 4, 1, 2)]}),
                       ("a damaged node", {"damaged": 1, "operations": LAST}),
                       ("64 streams", {"readable": 3, "hold": 0, "streams": [(n, 3 + n, MOST, MOST) for n in range(64)], "log": MOST})):
        it = {"log": 7, "horizon": 0, "readable": 0, "operations": 1, "hold": None, "damaged": 0, "streams": [(0, 0, 0, 0)], **told}
        held = "" if it["hold"] is None else f" held {it['hold']}"
        lines = [f"streams log {it['log']} horizon {it['horizon']} readable {it['readable']} operations {it['operations']}{held}" + " damaged" * it["damaged"]]
        lines += [f"stream {number} prefix {prefix} extra {extra} closed {closed} waiting {waiting}"
                  for number, (prefix, closed, extra, waiting) in enumerate(it["streams"], 1)]
        value = {**it, "kind": "streams", "damaged": bool(it["damaged"]), "streams": [list(stream) for stream in it["streams"]]}
        yield f"streams: {name}", value, of.fields_of_told(**told), lines


# the metrics that docs/FORMATS.md names, by the words of a line, and those that have a label
WORDS = dict(enumerate(("rows ends body_bytes operations guarded failed pins seconds budget reserved memory open opened most_open bytes_read bytes_written requests refusals "
                        "failed_accepts program keys").split(), 1))
LABELLED = (9, 10, 12, 13, 14, 17, 18)
METRICS = [(1, 0, 40), (2, 0, 12), (4, 0, LAST), (5, 0, 1), (6, 0, 0), (9, 0, MOST), (9, 1, 0), (12, 0, 3), (12, 4, 2), (17, 20, 12), (17, 60, 3), (18, 90, 1), (20, 0, 1_002_003),
           (21, 0, 7), (60_000, 5, 1), (2 ** 16 - 1, 2 ** 16 - 1, MOST)]


def line_of_metric(name, label, value):
    word = WORDS.get(name)
    return f"metric {name} {label} {value}" if word is None else f"{word} {label} {value}" if name in LABELLED else f"{word} {value}"


def stats_replies():
    for name, metrics in (("none", []), ("one", METRICS[:1]), ("each", [(name, 0, name) for name in WORDS]), ("labels", METRICS)):
        yield (f"stats: {name}", {"kind": "stats", "metrics": [list(it) for it in metrics]}, of.fields_of_stats(metrics),
               [f"stats {len(metrics)}", *(line_of_metric(*it) for it in metrics)])
    for tables in ([], [0], [1, 2, 2 ** 16 - 1]):
        yield f"tables {tables}", {"kind": "tables", "tables": tables}, of.fields_of_tables(tables), [f"tables {len(tables)}", *(f"table {table}" for table in tables)]


def replies():
    rows = [(5, 9, b"\x41"), (6, 8, b""), (MOST, 2 ** 32 - 1, b"\0\xff")]
    lines = ["5 9 41", "6 8 -", f"{MOST} {2 ** 32 - 1} 00ff"]
    found = [(f"done {ops}", {"kind": "done", "operations": ops}, of.later(64, [("operations", of.u64(ops))]), [f"done {ops}"]) for ops in (1, LAST)]
    found += streams_replies()
    for name, answer, value, told in (("no row", of.fields_of_one(None), {"kind": "one", "row": None}, ["none"]),
                                      ("a row", of.fields_of_one((9, b"\x41")), {"kind": "one", "row": [9, "41"]}, ["9 41"]),
                                      ("rows", of.fields_of_rows(rows), {"kind": "rows", "rows": value_of_rows(rows)}, [*lines, "rows 3"]),
                                      ("a count", of.fields_of_number(MOST), {"kind": "number", "count": MOST}, [f"count {MOST}"])):
        found.append((f"latest: {name}", {"kind": "latest", "time": LAST, "answer": value}, of.later(66, [("time", of.u64(LAST))] + answer[2:]), [f"latest {LAST}", *told]))
    for few, more in (([], 0), (rows, 0), (rows, 1)):
        found.append((f"page of {len(few)}, {more} more", {"kind": "page", "rows": value_of_rows(few), "more": bool(more)}, of.fields_of_page(few, more),
                      [*(lines if few else []), f"page {len(few)} {'more' if more else 'all'}"]))
    for facts, left in ((FACTS, 1), (FACTS[:1], MOST)):
        found.append((f"part of {len(facts)}", {"kind": "part", "facts": value_of_facts(facts), "left": left}, of.fields_of_part(facts, left), [f"part {len(facts)} left {left}"]))
    for name, head in HEADS:
        facts = FACTS if head.get("horizon") is None else []
        found.append((f"last part: {name}", {"kind": "last part", "facts": value_of_facts(facts), "head": value_of_head(**head)}, of.fields_of_last_part(facts, **head),
                      [f"last part {len(facts)} base {head.get('base', 0)}"]))
    found += [(f"added {n}", {"kind": "added", "count": n}, of.later(70, [("count", of.u64(n))]), [f"added {n}"]) for n in (0, MOST)]
    found += [(f"held {n} at {time}", {"kind": "held", "number": n, "time": time}, of.fields_of_held(n, time), [f"held {n} at {time}"]) for n, time in ((1, 0), (MOST, LAST))]
    found += [(f"fed {ops}, {new} new", {"kind": "fed", "operations": ops, "new": new}, of.fields_of_fed(ops, new), [f"fed {ops} new {new}"])
              for ops, new in ((1, 0), (2, 65_536), (LAST, MOST))]
    found += [(f"ready {low} to {high}", {"kind": "ready", "horizon": low, "readable": high}, of.fields_of_ready(low, high), [f"ready horizon {low} readable {high}"])
              for low, high in ((0, 0), (2, 3), (LAST, LAST))]
    found += stats_replies()
    found += refusals()
    return [{"name": name, "value": value, "bytes": of.spelled(fields).hex(), "lines": told} for name, value, fields, told in found]


# ---------------------------------------------------------------- faults

def heads_of_frames(kind, other):
    """Faults before the body; a kind of version 1 has no meaning in version 2, nor the other way round."""
    return [("a length above the most", of.u32(2 ** 28 + 1), 2), ("a length below the least", of.u32(1), 10), ("version 3", of.framed(bytes([3, kind])), 3),
            ("version 0", of.framed(bytes([0, kind])), 3), ("kind 0", of.framed(b"\2\0"), 4), ("kind of the other way", of.framed(bytes([2, other])), 4),
            ("kind above the last", of.framed(b"\2\xff"), 4), ("a kind of version 1", of.framed(b"\2\x11"), 4), ("a reply's kind of version 1", of.framed(b"\2\x20"), 4)]


def part_faults(spell):
    """Each fault of a part's facts, in the message that `spell` makes of their fields."""
    facts = of.fields_of_facts([*FACTS[:2], (2, 1, 1, (9, b"c"), None)])
    turned = lambda name, text, which=0: spell_patched(spell, facts, name, text, which)
    return [("count of facts", spell_ended(spell, facts, "count of facts", b"\xff" * 4), 10), ("order of facts", turned("born", of.u64(1), 1), 7),
            ("facts of one version", turned("table", of.u16(1), 2), 7), ("born at 0", turned("born", of.u64(0)), 6), ("born above the last time", turned("born", OVER, 1), 6),
            ("no flag", turned("flags", b"\0"), 6), ("flags", turned("flags", b"\4"), 6), ("a body", turned("body length", of.u16(4097)), 9),
            ("died at its birth", turned("died", of.u64(1)), 6), ("died", turned("died", of.u64(MOST)), 6)]


def head_faults(spell):
    """Each fault of a head, in the message that `spell` makes of its fields."""
    whole = of.fields_of_head(streams=[(2, 2, [4, 6], [(4, 4), (6, 7)])])
    turned = lambda name, text, which=0: spell_patched(spell, whole, name, text, which)
    return [("no streams", turned("streams", of.u16(0)), 5), ("65 streams", turned("streams", of.u16(65)), 5), ("base", turned("base", OVER), 6),
            ("horizon above closed", turned("horizon", of.u64(3)), 6), ("prefix", turned("prefix", OVER), 6), ("closed", turned("closed", OVER), 6),
            ("count of extra numbers", spell_ended(spell, whole, "count of extra numbers", b"\xff" * 4), 10),
            ("extra number at the prefix", turned("extra number", of.u64(3)), 6), ("order of extra numbers", turned("extra number", of.u64(4), 1), 7),
            ("n at the prefix", turned("n", of.u64(2)), 6), ("order of waiting marks", turned("n", of.u64(4), 1), 7), ("m below n", turned("m", of.u64(3)), 6),
            ("no count of facts", spell_ended(spell, whole, "facts of the whole", b""), 10), ("half a count", spell_ended(spell, whole, "facts of the whole", bytes(4)), 10),
            ("a byte behind", of.spelled(spell(whole) + [("more", b"\0")]), 10)]


def spell_patched(spell, fields, name, text, which):
    places = [place for place, field in enumerate(fields) if field[0] == name]
    changed = list(fields)
    changed[places[which]] = (name, text)
    return of.spelled(spell(changed))


def spell_ended(spell, fields, name, text):
    place = next(place for place, field in enumerate(fields) if field[0] == name)
    return of.spelled(spell(fields[:place]) + [(name, text)])


def cuts(name, data):
    return [(f"{name}, cut at {end}", data[:end], 1) for end in range(1, len(data))]


def listed(cases):
    return [{"name": name, "bytes": data.hex(), "number": number} for name, data, number in cases]


def request_faults():
    asked, page = of.later(49, of.get(1, 5)), of.fields_of_page_of(1, 1, 0, 9, 1)
    hold, whole = of.later(56, [("time", of.u64(1))]), of.fields_of_whole(0, 1)
    entry, mark = of.fields_of_new_entry(1, 2, [(1, 5, 9, b"a")], [(1, 5, 1)]), of.fields_of_mark(1, 1, 1)
    feed, wait = of.fields_of_feed([of.spelled(entry), of.spelled(mark)]), of.fields_of_await(1, 600_000)
    cases = heads_of_frames(48, 64) + [
        ("streams with a byte", of.framed(b"\2\x30\0"), 10), ("more with a byte", of.framed(b"\2\x34\0"), 10), ("query 0", of.patched(asked, "query", b"\0"), 6),
        ("query 5", of.patched(asked, "query", b"\5"), 6), ("query with a byte", of.spelled(asked + [("more", b"\0")]), 10), ("no query", of.framed(b"\2\x31"), 10),
        ("time of a page", of.patched(page, "time", OVER), 6), ("no rows", of.patched(page, "most rows", of.u32(0)), 8),
        ("a page that is cut", of.spelled(page[:-1] + [("most rows", b"\0\0\0")]), 10), ("a page and a byte", of.spelled(page + [("more", b"\0")]), 10),
        ("base of a whole", of.patched(whole, "base", OVER), 6), ("a whole without bytes", of.spelled(whole[:-1]), 10),
        ("base below the horizon", of.spelled(of.later(54, of.fields_of_head(base=2, horizon=3, streams=[(3, 3, [], [])]))), 6),
        ("base of a merge", of.spelled(of.later(55, of.fields_of_head(base=1, streams=[(3, 3, [], [])]))), 6), ("time of a hold", of.patched(hold, "time", OVER), 6),
        ("a hold without a time", of.framed(b"\2\x38"), 10), ("hold 0", of.spelled(of.later(57, [("number", of.u64(0))])), 6),
        ("a number that is cut", of.spelled(of.later(57, [("number", b"\1")])), 10), ("no count of what is fed", of.framed(b"\2\x3a"), 10),
        ("time of a wait", of.patched(wait, "time", OVER), 6), ("a wait above the most", of.patched(wait, "milliseconds", of.u32(600_001)), 6),
        ("the longest wait", of.patched(wait, "milliseconds", b"\xff" * 4), 6), ("a wait without milliseconds", of.spelled(wait[:-1]), 10),
        ("a wait and a byte", of.spelled(wait + [("more", b"\0")]), 10), ("stats with a byte", of.framed(b"\2\x3c\0"), 10), ("tables with a byte", of.framed(b"\2\x3d\0"), 10),
        ("count of what is fed", of.patched(feed, "count", of.u32(65_537)), 8), ("items that are not there", of.patched(feed, "count", of.u32(3)), 10),
        ("items that are not counted", of.patched(feed, "count", of.u32(1)), 10)]
    cases += [(f"feed: {name}", of.spelled(of.fields_of_feed([of.patched(entry, field, text)])), number) for name, field, text, number in (
        ("an item's version", "version", b"\3", 3), ("an item's kind", "kind", b"\3", 4), ("an item's stream", "stream", of.u16(65), 5),
        ("an item's number", "number", of.u64(3), 6), ("an item's time", "time", OVER, 6), ("an item's groups", "groups of rows", of.u16(1_025), 8))]
    cases += [(f"add: {name}", data, number) for name, data, number in part_faults(lambda fields: of.later(53, fields))]
    cases += [("add: a byte behind", of.spelled(of.later(53, of.fields_of_facts(FACTS)) + [("more", b"\0")]), 10)]
    for kind in (54, 55):
        cases += [(f"{'join' if kind == 54 else 'merge'} parts: {name}", data, number) for name, data, number in head_faults(lambda fields: of.later(kind, fields))]
    return listed(cases + cuts("a page", of.spelled(page)) + cuts("a part", of.spelled(of.later(53, of.fields_of_facts(FACTS)))) + cuts("a feed", of.spelled(feed)))


def reply_faults():
    told = of.fields_of_told(1, 3, 9, 2, [(3, 3, 0, 0), (0, 4, 1, 2)])
    page, rows = of.fields_of_page([(5, 9, b"a"), (6, 9, b"b")], 1), [("kind of answer", b"\2")]
    part, refused, fed = of.fields_of_part(FACTS, 1), of.fields_of_later_refused(47), of.fields_of_fed(2, 1)
    ready, stats, tables = of.fields_of_ready(2, 3), of.fields_of_stats([(1, 0, 5), (9, 0, 6), (9, 1, 7)]), of.fields_of_tables([1, 2])
    cases = heads_of_frames(64, 48) + [
        ("done with 0", of.spelled(of.later(64, [("operations", of.u64(0))])), 6), ("done above the most", of.spelled(of.later(64, [("operations", OVER)])), 6),
        ("horizon above readable", of.patched(told, "horizon", of.u64(4)), 6), ("readable above the last time", of.patched(told, "readable", OVER), 6),
        ("damaged 2", of.patched(told, "damaged", b"\2"), 6), ("operations 0", of.patched(told, "operations", of.u64(0)), 6), ("hold 2", of.patched(told, "hold", b"\2"), 6),
        ("a hold above the last time", of.patched(told, "least hold", OVER), 6), ("no streams", of.patched(told, "streams", of.u16(0)), 5),
        ("65 streams", of.patched(told, "streams", of.u16(65)), 5), ("a stream that isn't there", of.patched(told, "streams", of.u16(3)), 10),
        ("closed", of.patched(told, "closed", OVER, 1), 6), ("a byte behind the streams", of.spelled(told + [("more", b"\0")]), 10),
        ("time of the latest", of.spelled(of.later(66, [("time", OVER)] + rows)), 6), ("an answer of no kind", of.spelled(of.later(66, [("time", of.u64(1)), ("kind", b"\4")])), 6),
        ("more 2", of.patched(page, "more", b"\2"), 6), ("one key twice", of.patched(page, "key", of.u64(5), 1), 7), ("keys that fall", of.patched(page, "key", of.u64(4), 1), 7),
        ("rows that are not there", of.ended_by(page, "count of rows", b"\xff" * 4), 10), ("no facts to come", of.patched(part, "facts to come", of.u64(0)), 6),
        ("added without a number", of.framed(b"\2\x46"), 10), ("fed with 0 operations", of.patched(fed, "operations", of.u64(0)), 6),
        ("fed with operations above the most", of.patched(fed, "operations", OVER), 6), ("fed without how many were new", of.spelled(fed[:-1]), 10),
        ("fed and a byte", of.spelled(fed + [("more", b"\0")]), 10), ("hold 0", of.spelled(of.fields_of_held(0, 1)), 6), ("time of a hold", of.spelled(of.fields_of_held(1, LAST + 1)), 6),
        ("ready from above the resolved time", of.patched(ready, "horizon", of.u64(4)), 6), ("ready to above the last time", of.patched(ready, "readable", OVER), 6),
        ("ready without a resolved time", of.spelled(ready[:-1]), 10), ("ready and a byte", of.spelled(ready + [("more", b"\0")]), 10),
        ("metrics of one name that fall", of.patched(stats, "label", of.u16(0), 2), 7), ("names of metrics that fall", of.patched(stats, "name", of.u16(1), 2), 7),
        ("a label that rises under a name that falls", of.spelled(of.fields_of_stats([(9, 0, 6), (8, 9, 7)])), 7),
        ("metrics that are not there", of.ended_by(stats, "count of metrics", b"\xff" * 4), 10), ("a metric without a value", of.spelled(stats[:-1]), 10),
        ("a byte behind metrics", of.spelled(stats + [("more", b"\0")]), 10), ("one table twice", of.patched(tables, "table", of.u16(1), 1), 7),
        ("tables that fall", of.patched(tables, "table", of.u16(0), 1), 7), ("tables that are not there", of.ended_by(tables, "count of tables", b"\xff" * 4), 10),
        ("half a table", of.spelled(tables[:-1] + [("table", b"\0")]), 10), ("a byte behind tables", of.spelled(tables + [("more", b"\0")]), 10),
        ("47 with a field", of.spelled(of.fields_of_later_refused(47, 1)), 6), ("46 with a second field", of.spelled(of.fields_of_later_refused(46, 1, 1)), 6),
        ("a field that is not 0", of.spelled(of.fields_of_later_refused(1, 1)), 6), ("a base above the last time", of.spelled(of.fields_of_later_refused(22, LAST + 1, 1)), 6)]
    cases += [(f"refusal {number}", of.patched(refused, "number", of.u8(number)), 6) for number in (0, 11, 19, 27, 30, 36, 39, 48, 89, 91, 255)]
    cases += [(f"part: {name}", data, number) for name, data, number in part_faults(lambda fields: of.later(68, [("facts to come", of.u64(1))] + fields))]
    cases += [(f"last part: {name}", data, number) for name, data, number in part_faults(lambda fields: of.later(69, fields + of.fields_of_head()))
              if "count" not in name]
    cases += [(f"last part, head: {name}", data, number) for name, data, number in head_faults(lambda fields: of.later(69, of.fields_of_facts(FACTS) + fields))]
    return listed(cases + cuts("streams", of.spelled(told)) + cuts("a page", of.spelled(page)) + cuts("stats", of.spelled(stats)) + cuts("tables", of.spelled(tables)))
