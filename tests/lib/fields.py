"""The frames of docs/FORMATS.md field by field, written from that page alone, for tests/tools/make_vectors.py and for checks that send what no
client would.

A frame is a list of fields until it is spelled, each a pair of a name and its bytes, so that a check can change one field
and say which. Standard library only."""
import struct


def u8(n):
    return struct.pack(">B", n)


def u16(n):
    return struct.pack(">H", n)


def u32(n):
    return struct.pack(">I", n)


def u64(n):
    return struct.pack(">Q", n)


def framed(rest):
    return u32(len(rest)) + rest


def fields_of_body(body):
    return [("body length", u16(len(body))), ("body", body)]


def fields_of_end(key, born):
    return [("key", u64(key)), ("born", u64(born))]


def fields_of_row(key, tag=9, body=b"A", length=None):
    """Another length than the body's may be told."""
    (name, told), text = fields_of_body(body)
    return [("key", u64(key)), ("tag", u32(tag)), (name, told if length is None else u16(length)), text]


def fields_of_entry(number, time, rows=(), ends=(), stream=1, log=7):
    """rows: (table, key, tag, body); ends: (table, key, born)"""
    fields = [("version", u8(1)), ("kind", u8(1)), ("log", u64(log)), ("stream", u16(stream)), ("number", u64(number)),
              ("time", u64(time)), ("count of ends", u16(len(ends)))]
    for table, key, born in ends:
        fields += [("table", u16(table))] + fields_of_end(key, born)
    fields.append(("count of rows", u16(len(rows))))
    for table, key, tag, body in rows:
        fields += [("table", u16(table))] + fields_of_row(key, tag, body)
    return fields


def fields_of_groups(name, groups):
    """Groups as they are given, each a table and the fields of each of its elements."""
    fields = [("groups of " + name, u16(len(groups)))]
    for table, group in groups:
        fields += [("table of " + name, u16(table)), ("count of " + name, u16(len(group)))] + [field for it in group for field in it]
    return fields


def fields_of_grouped(number, time, ends=(), rows=(), stream=1, log=7):
    """An entry of version 2, of groups."""
    fields = [("version", u8(2)), ("kind", u8(1)), ("log", u64(log)), ("stream", u16(stream)), ("number", u64(number)), ("time", u64(time))]
    return fields + fields_of_groups("ends", ends) + fields_of_groups("rows", rows)


def groups_of(elements):
    """Elements, each a table and the fields beside it, in the longest runs of one table."""
    groups = []
    for table, fields in elements:
        if not groups or groups[-1][0] != table:
            groups.append((table, []))
        groups[-1][1].append(fields)
    return groups


def fields_of_new_entry(number, time, rows=(), ends=(), stream=1, log=7):
    """The same in version 2, in as few groups as there can be."""
    return fields_of_grouped(number, time, groups_of([(table, fields_of_end(key, born)) for table, key, born in ends]),
                             groups_of([(table, fields_of_row(key, tag, body)) for table, key, tag, body in rows]), stream, log)


def fields_of_mark(stream, n, m, log=7, version=1):
    return [("version", u8(version)), ("kind", u8(2)), ("log", u64(log)), ("stream", u16(stream)), ("n", u64(n)), ("m", u64(m))]


def spelled(fields):
    return framed(b"".join(text for _, text in fields))


def entry(*args, **more):
    return spelled(fields_of_entry(*args, **more))


def new_entry(*args, **more):
    return spelled(fields_of_new_entry(*args, **more))


def grouped(*args, **more):
    return spelled(fields_of_grouped(*args, **more))


def mark(*args, **more):
    return spelled(fields_of_mark(*args, **more))


def message(kind, fields=()):
    return [("version", u8(1)), ("kind", u8(kind)), *fields]


def fields_of_items(frames):
    return message(16, [("count", u32(len(frames)))] + [("frame", frame) for frame in frames])


def fields_of_start(base=0, horizon=0, streams=((0, 0, (), ()),), log=7):
    """A fragment up to its facts. streams: (prefix, closed, extra numbers, waiting marks)"""
    fields = [("log", u64(log)), ("streams", u16(len(streams))), ("base", u64(base)), ("horizon", u64(horizon))]
    for prefix, closed, extra, waiting in streams:
        fields += [("prefix", u64(prefix)), ("closed", u64(closed)), ("count of extra numbers", u32(len(extra)))]
        fields += [("extra number", u64(n)) for n in extra]
        fields.append(("count of waiting marks", u32(len(waiting))))
        for n, m in waiting:
            fields += [("n", u64(n)), ("m", u64(m))]
    return fields


def fields_of_head(count=0, **start):
    """The head of a fragment with so many facts."""
    return fields_of_start(**start) + [("facts of the whole", u64(count))]


def fields_of_facts(facts):
    """facts: (table, key, born, row or None, died or None), a row being (tag, body)"""
    fields = [("count of facts", u32(len(facts)))]
    for table, key, born, row, died in facts:
        flags = (1 if row is not None else 0) + (2 if died is not None else 0)
        fields += [("table", u16(table)), ("key", u64(key)), ("born", u64(born)), ("flags", u8(flags))]
        if row is not None:
            fields += [("tag", u32(row[0]))] + fields_of_body(row[1])
        if died is not None:
            fields.append(("died", u64(died)))
    return fields


def fields_of_fragment(base=0, horizon=0, streams=((0, 0, (), ()),), facts=(), log=7):
    return fields_of_start(base, horizon, streams, log) + fields_of_facts(facts)


def get(table, key):
    return [("query", u8(1)), ("table", u16(table)), ("key", u64(key))]


def scan(table, low, high):
    return [("query", u8(2)), ("table", u16(table)), ("low", u64(low)), ("high", u64(high))]


def by_tag(table, tag):
    return [("query", u8(3)), ("table", u16(table)), ("tag", u32(tag))]


def count(table):
    return [("query", u8(4)), ("table", u16(table))]


def items(*frames):
    return spelled(fields_of_items(frames))


def front():
    return spelled(message(17))


def delta(base):
    return spelled(message(18, [("base", u64(base))]))


def full():
    return spelled(message(19))


def ask(time, query):
    return spelled(message(20, [("time", u64(time))] + query))


def join_this(**fragment):
    return spelled(message(21, fields_of_fragment(**fragment)))


def merge_this(**fragment):
    return spelled(message(22, fields_of_fragment(**fragment)))


def prune(horizon):
    return spelled(message(23, [("horizon", u64(horizon))]))


def done(ops):
    return spelled(message(32, [("ops", u64(ops))]))


def fields_of_front(horizon, readable):
    return message(33, [("horizon", u64(horizon)), ("readable", u64(readable))])


def fields_of_one(row):
    return message(35, [("kind of answer", u8(1)), ("presence", u8(row is not None))] + ([] if row is None else [("tag", u32(row[0]))] + fields_of_body(row[1])))


def fields_of_list(rows):
    """Rows behind their count."""
    fields = [("count of rows", u32(len(rows)))]
    for key, tag, body in rows:
        fields += fields_of_row(key, tag, body)
    return fields


def fields_of_rows(rows):
    return message(35, [("kind of answer", u8(2))] + fields_of_list(rows))


def fields_of_number(number):
    return message(35, [("kind of answer", u8(3)), ("count", u64(number))])


def fields_of_refused(number, first=0, second=0):
    return message(36, [("number", u8(number)), ("first", u64(first)), ("second", u64(second))])


def refused(number, first=0, second=0):
    return spelled(fields_of_refused(number, first, second))


# ---- messages of version 2

def later(kind, fields=()):
    return [("version", u8(2)), ("kind", u8(kind)), *fields]


def fields_of_page_of(time, table, low, high, most):
    """What a page is asked of."""
    return later(50, [("time", u64(time)), ("table", u16(table)), ("low", u64(low)), ("high", u64(high)), ("most rows", u32(most))])


def fields_of_whole(base, part_bytes):
    return later(51, [("base", u64(base)), ("bytes of a part", u32(part_bytes))])


def fields_of_await(time, milliseconds):
    return later(59, [("time", u64(time)), ("milliseconds", u32(milliseconds))])


def fields_of_told(horizon=0, readable=0, operations=1, hold=None, streams=((0, 0, 0, 0),), damaged=0, log=7):
    """streams: (prefix, closed, how many extra numbers, how many waiting marks)"""
    fields = [("log", u64(log)), ("horizon", u64(horizon)), ("readable", u64(readable)), ("damaged", u8(damaged)), ("operations", u64(operations)),
              ("hold", u8(hold is not None))] + ([] if hold is None else [("least hold", u64(hold))]) + [("streams", u16(len(streams)))]
    for prefix, closed, extra, waiting in streams:
        fields += [("prefix", u64(prefix)), ("closed", u64(closed)), ("extra", u64(extra)), ("waiting", u64(waiting))]
    return later(65, fields)


def fields_of_page(rows, more):
    return later(67, [("more", u8(more))] + fields_of_list(rows))


def fields_of_part(facts, left):
    return later(68, [("facts to come", u64(left))] + fields_of_facts(facts))


def fields_of_last_part(facts, **head):
    return later(69, fields_of_facts(facts) + fields_of_head(**head))


def fields_of_held(hold, time):
    return later(71, [("number", u64(hold)), ("time", u64(time))])


def fields_of_feed(frames):
    """The body of Items, under its own kind."""
    return later(58, fields_of_items(frames)[2:])


def fields_of_fed(operations, new):
    return later(73, [("operations", u64(operations)), ("new items", u64(new))])


def fields_of_ready(horizon, readable):
    return later(74, [("horizon", u64(horizon)), ("readable", u64(readable))])


def fields_of_stats(metrics):
    """metrics: (name, label, value)"""
    fields = [("count of metrics", u32(len(metrics)))]
    for name, label, value in metrics:
        fields += [("name", u16(name)), ("label", u16(label)), ("value", u64(value))]
    return later(75, fields)


def fields_of_tables(tables):
    return later(76, [("count of tables", u32(len(tables)))] + [("table", u16(table)) for table in tables])


def fields_of_later_refused(number, first=0, second=0):
    return later(72, [("number", u8(number)), ("first", u64(first)), ("second", u64(second))])


# ---- frames with a field that is changed

def patched(fields, name, text, which=0):
    """The frame with the bytes of a named field changed; `which` counts the fields of that name from 0."""
    places = [place for place, field in enumerate(fields) if field[0] == name]
    fields = list(fields)
    fields[places[which]] = (name, text)
    return spelled(fields)


def ended_by(fields, name, text):
    """The frame that ends with a named field, whose bytes are these."""
    place = next(place for place, field in enumerate(fields) if field[0] == name)
    return spelled(fields[:place] + [(name, text)])
