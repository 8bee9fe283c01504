#!/usr/bin/env python3
"""A second replica, written from docs/DEFINITIONS.md and docs/FORMATS.md alone, to compare the program with (tests/checks/compare).

It keeps whole sets of items and looks at all of them for each answer, and merges nothing step by step: `played` is what `hkrep world` prints of a
script, `printed` what `items` prints of frames, `asked` what `at` does, and `told` what a node answers to lists of items, prunes and questions, between
which a prune takes rows and ends away. By hand: `tests/lib/reference.py world|items|at ..`.
Standard library only."""
import sys

LAST_TIME = 2 ** 62
LARGEST_REST = 4_233_248


# ---------------------------------------------------------------- items

class Fault(Exception):
    """A fault of form, by its number."""


class Refused(Exception):
    """A refusal: its number, then its fields as they are printed."""

    def __str__(self):
        return " ".join(["refused", *map(str, self.args)])


class Entry:
    """What one transaction did: `ends` are version keys, `rows` pairs of a row key and a row (tag, body)."""

    def __init__(self, log, stream, number, time, ends, rows):
        self.log, self.stream, self.number, self.time, self.ends, self.rows = log, stream, number, time, ends, rows

    def line(self):
        return (f"commit log {self.log} stream {self.stream} number {self.number} time {self.time} "
                f"ends {len(self.ends)} rows {len(self.rows)}")

    def rest(self, version):
        out = bytes([version, 1]) + num(self.log, 8) + num(self.stream, 2) + num(self.number, 8) + num(self.time, 8)
        if version == 2:
            return (out + grouped([(t, num(k, 8) + num(b, 8)) for t, k, b in self.ends])
                    + grouped([(t, num(k, 8) + num(tag, 4) + num(len(body), 2) + body) for (t, k), (tag, body) in self.rows]))
        out += num(len(self.ends), 2) + b"".join(num(t, 2) + num(k, 8) + num(b, 8) for t, k, b in self.ends)
        out += num(len(self.rows), 2)
        return out + b"".join(num(t, 2) + num(k, 8) + num(tag, 4) + num(len(body), 2) + body
                              for (t, k), (tag, body) in self.rows)


class Mark:
    """The entries of the stream with a time of at most m are exactly its first n."""

    def __init__(self, log, stream, n, m):
        self.log, self.stream, self.n, self.m = log, stream, n, m

    def line(self):
        return f"mark log {self.log} stream {self.stream} n {self.n} m {self.m}"

    def rest(self, version):
        return bytes([version, 2]) + num(self.log, 8) + num(self.stream, 2) + num(self.n, 8) + num(self.m, 8)


def num(value, size):
    return value.to_bytes(size, "big")


def grouped(elements):
    """Elements, each a table and the bytes beside it, in the longest runs of one table."""
    groups = []
    for table, beside in elements:
        if not groups or groups[-1][0] != table:
            groups.append((table, []))
        groups[-1][1].append(beside)
    return num(len(groups), 2) + b"".join(num(table, 2) + num(len(group), 2) + b"".join(group) for table, group in groups)


def frame(item, version=1):
    rest = item.rest(version)
    return num(len(rest), 4) + rest


# ---------------------------------------------------------------- reading frames

class Rest:
    """The rest of a frame, read field by field."""

    def __init__(self, data):
        self.data, self.place = data, 0

    def take(self, size):
        if self.place + size > len(self.data):
            raise Fault(10)
        self.place += size
        return self.data[self.place - size:self.place]

    def number(self, size):
        return int.from_bytes(self.take(size), "big")


def check(holds, fault):
    if not holds:
        raise Fault(fault)


def end_of(rest, ends, table, time):
    key, born = rest.number(8), rest.number(8)
    check(not ends or ends[-1][:2] < (table, key), 7)
    check(1 <= born < time, 6)
    ends.append((table, key, born))


def row_of(rest, rows, table):
    place = (table, rest.number(8))
    check(not rows or rows[-1][0] < place, 7)
    tag, length = rest.number(4), rest.number(2)
    check(length <= 4096, 9)
    rows.append((place, (tag, rest.take(length))))


def groups_of(rest, count, elements, table_of, one):
    """So many groups, whose elements `one` reads."""
    for _ in range(count):
        table = rest.number(2)
        check(not elements or table_of(elements[-1]) < table, 7)
        size = rest.number(2)
        check(size >= 1 and len(elements) + size <= 1024, 8)
        for _ in range(size):
            one(table)


def grouped_entry_of(rest, log, stream):
    number, time = rest.number(8), rest.number(8)
    check(1 <= number <= time <= LAST_TIME, 6)
    count, ends, rows = rest.number(2), [], []
    check(count <= 1024, 8)
    groups_of(rest, count, ends, lambda end: end[0], lambda table: end_of(rest, ends, table, time))
    count = rest.number(2)
    check(count <= 1024 and (count or ends), 8)
    groups_of(rest, count, rows, lambda row: row[0][0], lambda table: row_of(rest, rows, table))
    return Entry(log, stream, number, time, ends, rows)


def entry_of(rest, log, stream):
    number, time = rest.number(8), rest.number(8)
    check(1 <= number <= time <= LAST_TIME, 6)
    count = rest.number(2)
    check(count <= 1024, 8)
    ends = []
    for _ in range(count):
        end_of(rest, ends, rest.number(2), time)
    count = rest.number(2)
    check(count <= 1024 and (count or ends), 8)
    rows = []
    for _ in range(count):
        row_of(rest, rows, rest.number(2))
    return Entry(log, stream, number, time, ends, rows)


def mark_of(rest, log, stream):
    n, m = rest.number(8), rest.number(8)
    check(n <= m <= LAST_TIME, 6)
    return Mark(log, stream, n, m)


def item_of(data):
    rest = Rest(data)
    version = rest.number(1)
    check(version in (1, 2), 3)
    kind = rest.number(1)
    check(kind in (1, 2), 4)
    log, stream = rest.number(8), rest.number(2)
    check(1 <= stream <= 64, 5)
    entry = entry_of if version == 1 else grouped_entry_of
    item = entry(rest, log, stream) if kind == 1 else mark_of(rest, log, stream)
    check(rest.place == len(data), 10)
    return item


def items_of(data):
    """The items of the whole frames that the data begins with, and the fault that comes after them, if one does."""
    items, place = [], 0
    try:
        while place < len(data):
            check(place + 4 <= len(data), 1)
            length = int.from_bytes(data[place:place + 4], "big")
            check(length <= LARGEST_REST, 2)
            check(length >= 28, 10)
            check(place + 4 + length <= len(data), 1)
            items.append(item_of(data[place + 4:place + 4 + length]))
            place += 4 + length
    except Fault as fault:
        return items, fault.args[0]
    return items, None


# ---------------------------------------------------------------- what a set of items says

def entries_of(items, stream):
    return {it.number for it in items if isinstance(it, Entry) and it.stream == stream}


def marks_of(items, stream):
    return [it for it in items if isinstance(it, Mark) and it.stream == stream]


def is_covered(taken, n):
    return all(number in taken for number in range(1, n + 1)) if n <= len(taken) else False


def closed(items, stream):
    taken = entries_of(items, stream)
    return max([it.m for it in marks_of(items, stream) if is_covered(taken, it.n)], default=0)


def readable(items, streams):
    return min(closed(items, stream) for stream in range(1, streams + 1))


def rows_of(items):
    found = {}
    for it in items:
        if isinstance(it, Entry):
            for (table, key), row in it.rows:
                found.setdefault((table, key, it.time), row)
    return found


def ends_of(items):
    found = {}
    for it in items:
        if isinstance(it, Entry):
            for version in it.ends:
                found.setdefault(version, it.time)
    return found


def waiting(items, stream):
    taken, found = entries_of(items, stream), {}
    for it in marks_of(items, stream):
        if not is_covered(taken, it.n):
            found[it.n] = max(it.m, found.get(it.n, 0))
    return found


def content_of(items, streams, horizon):
    """The content that stands for a set of items at a horizon."""
    rows, ends = rows_of(items), ends_of(items)
    has_ended = lambda version: version in ends and ends[version] <= horizon
    return (horizon, {it: row for it, row in rows.items() if not has_ended(it)},
            {it: time for it, time in ends.items() if time > horizon},
            [(entries_of(items, it), closed(items, it), waiting(items, it)) for it in range(1, streams + 1)])


def shown_of(rows, ends, time):
    """The tables that rows and ends show at a time: of each row key the newest row born by then, unless it has ended."""
    newest = {}
    for (table, key, born), row in rows.items():
        if born <= time and born > newest.get((table, key), (0, None))[0]:
            newest[table, key] = (born, row)
    return {place: row for place, (born, row) in newest.items() if not ends.get((*place, born), time + 1) <= time}


def shown(items, time):
    """The same of items."""
    return shown_of(rows_of(items), ends_of(items), time)


def conflicts(rows, ends, items, entry):
    return (any(rows.get((*place, entry.time), row) != row for place, row in entry.rows)
            or any(ends.get(version, entry.time) != entry.time for version in entry.ends)
            or entry.time <= closed(items, entry.stream))


def horizon_after(items, streams, horizon, time):
    """The oldest readable time after a prune, or the refusal."""
    mark = readable(items, streams)
    if time > mark:
        raise Refused(24, "readable", mark)
    return max(horizon, time)


def check_readable(items, streams, horizon, time):
    mark = readable(items, streams)
    if time < horizon:
        raise Refused(25, "horizon", horizon)
    if time > mark:
        raise Refused(26, "readable", mark)


class Held:
    """What is held of items that come one by one, with prunes between them: the rows and ends that these left, and of the streams all items."""

    def __init__(self, log, streams, guarded=False):
        self.log, self.streams, self.guarded, self.horizon = log, streams, guarded, 0
        self.items, self.rows, self.ends = [], {}, {}

    def absorb(self, item):
        if item.log != self.log:
            raise Refused(20)
        if item.stream > self.streams:
            raise Refused(21)
        if isinstance(item, Entry):
            if item.number in entries_of(self.items, item.stream):
                return
            if conflicts(self.rows, self.ends, self.items, item):
                raise Refused(23)
            self.rows = {**self.rows, **rows_of([item])}
            self.ends = {**self.ends, **ends_of([item])}
        self.items = [*self.items, item]

    def take(self, *frames):
        """All items of these, or none."""
        before = self.items, self.rows, self.ends
        try:
            for it in items_of(b"".join(frames))[0]:
                self.absorb(it)
        except Refused:
            self.items, self.rows, self.ends = before
            raise
        return ["done"]

    def prune(self, time):
        """A guarded node refuses a prune that lets an older row show."""
        horizon = horizon_after(self.items, self.streams, self.horizon, time)
        gone = {version for version, died in self.ends.items() if died <= horizon}
        rows = {version: row for version, row in self.rows.items() if version not in gone}
        ends = {version: died for version, died in self.ends.items() if version not in gone}
        if self.guarded and shown_of(rows, ends, horizon) != shown_of(self.rows, self.ends, horizon):
            raise Refused(23)
        self.horizon, self.rows, self.ends = horizon, rows, ends
        return ["done"]

    def ask(self, time, *query):
        check_readable(self.items, self.streams, self.horizon, time)
        return answer(shown_of(self.rows, self.ends, time), query)


# ---------------------------------------------------------------- answers

def answer(tables, words):
    """The lines that answer a query on tables."""
    kind, table = words[0], int(words[1])
    keys = sorted(key for at, key in tables if at == table)
    if kind == "count":
        return [f"count {len(keys)}"]
    if kind == "get":
        row = tables.get((table, int(words[2])))
        return ["none" if row is None else row_text(row)]
    if kind == "range":
        keys = [key for key in keys if int(words[2]) <= key <= int(words[3])]
    else:
        keys = [key for key in keys if tables[table, key][0] == int(words[2])]
    return [f"{key} {row_text(tables[table, key])}" for key in keys] + [f"rows {len(keys)}"]


def row_text(row):
    return f"{row[0]} {row[1].hex() or '-'}"


# ---------------------------------------------------------------- the primary

class Primary:
    """A history: transactions (time, stream, writes), each write a row key with its row, or None where it is removed."""

    def __init__(self, log, streams):
        self.log, self.streams, self.history, self.items, self.retired = log, streams, [], [], set()

    def last(self):
        return self.history[-1][0] if self.history else 0

    def readable(self):
        return LAST_TIME if len(self.retired) == self.streams else self.last()

    def tables_at(self, time):
        tables = {}
        for at, _, writes in self.history:
            if at <= time:
                for place, row in writes:
                    if row is None:
                        del tables[place]
                    else:
                        tables[place] = row
        return tables

    def last_write(self, place):
        return max([at for at, _, writes in self.history if place in dict(writes)], default=0)

    def check_stream(self, stream):
        if stream > self.streams:
            raise Refused(34)
        if stream in self.retired:
            raise Refused(36, "stream", stream)

    def commit(self, read_at, writes, stream):
        self.check_stream(stream)
        writes = sorted(writes.items())
        tables = self.tables_at(self.last())
        for (table, key), _ in writes:
            at = self.last_write((table, key))
            if at > read_at:
                raise Refused(30, "table", table, "key", key, "at", at)
        for (table, key), row in writes:
            if row is None and (table, key) not in tables:
                raise Refused(31, "table", table, "key", key)
        if not writes:
            return None
        time = self.last() + 1
        number = 1 + sum(1 for _, of, _ in self.history if of == stream)
        ends = [(*place, self.last_write(place)) for place, _ in writes if place in tables]
        self.items.append(Entry(self.log, stream, number, time, ends, [it for it in writes if it[1] is not None]))
        self.history.append((time, stream, writes))
        return time

    def mark(self, stream):
        return self.close(stream, self.last())

    def retire(self, stream):
        return self.close(stream, LAST_TIME)

    def close(self, stream, time):
        """The mark of all entries of a stream up to a time; at the last time of all it retires the stream."""
        self.check_stream(stream)
        self.items.append(Mark(self.log, stream, sum(1 for _, of, _ in self.history if of == stream), time))
        if time == LAST_TIME:
            self.retired.add(stream)
        return self.items[-1]


# ---------------------------------------------------------------- worlds

class BadCommand(Exception):
    """A line that is no command."""


def number_of(word, least, most):
    if not (word.isascii() and word.isdigit() and least <= int(word) <= most):
        raise BadCommand
    return int(word)


U16, U32, U64, STREAM, SLOT = (0, 2 ** 16 - 1), (0, 2 ** 32 - 1), (0, 2 ** 64 - 1), (1, 64), (1, 16)
TIME = (0, LAST_TIME)
FORMS = {
    "begin": [SLOT], "put": [SLOT, U16, U64, U32, "body"], "remove": [SLOT, U16, U64], "commit": [SLOT, STREAM], "mark": [STREAM],
    "retire": [STREAM],
    "absorb": [U16, U64], "prune": [U16, TIME], "merge": [U16, U16], "delta": [U16, U16, TIME], "front": [U16],
}
QUERIES = {"get": [U16, U64], "range": [U16, U64, U64], "tag": [U16, U32], "count": [U16]}


def body_of(word):
    pairs = set("0123456789abcdef").issuperset(word) and len(word) % 2 == 0 and 2 <= len(word) <= 8192
    if not (word == "-" or pairs):
        raise BadCommand
    return bytes.fromhex(word) if pairs else b""


def values_of(words, form):
    if len(words) != len(form):
        raise BadCommand
    return [body_of(word) if kind == "body" else number_of(word, *kind) for word, kind in zip(words, form)]


class World:
    """A primary, and of each replica the items that it took and its horizon."""

    def __init__(self, log, streams, replicas):
        self.primary, self.streams = Primary(log, streams), streams
        self.replicas = [([], 0) for _ in range(replicas)]
        self.slots = {}

    def replica(self, number):
        if not 1 <= number <= len(self.replicas):
            raise Refused(45)
        return self.replicas[number - 1]

    def item(self, number):
        if not 1 <= number <= len(self.primary.items):
            raise Refused(45)
        return self.primary.items[number - 1]

    def slot(self, number):
        if number not in self.slots:
            raise BadCommand
        return self.slots[number]

    def write(self, slot, place, row):
        _, writes = self.slot(slot)
        if place in writes:
            raise Refused(32)
        if len(writes) == 1024:
            raise Refused(33)
        writes[place] = row
        return ["ok"]

    def begin(self, slot):
        self.slots[slot] = (self.primary.last(), {})
        return [f"begun {slot} at {self.primary.last()}"]

    def put(self, slot, table, key, tag, body):
        return self.write(slot, (table, key), (tag, body))

    def remove(self, slot, table, key):
        return self.write(slot, (table, key), None)

    def commit(self, slot, stream):
        time = self.primary.commit(*self.slot(slot), stream)
        del self.slots[slot]
        return [f"committed {'none' if time is None else time}"]

    def mark(self, stream):
        made = self.primary.mark(stream)
        return [f"mark stream {stream} n {made.n} m {made.m}"]

    def retire(self, stream):
        made = self.primary.retire(stream)
        return [f"mark stream {stream} n {made.n} m {made.m}"]

    def absorb(self, replica, item):
        items, horizon = self.replica(replica)
        after = [*items, self.item(item)]
        is_same = content_of(after, self.streams, horizon) == content_of(items, self.streams, horizon)
        self.replicas[replica - 1] = (after, horizon)
        return ["repeated" if is_same else "taken"]

    def batch(self, replica, *numbers):
        items, horizon = self.replica(replica)
        self.replicas[replica - 1] = (items + [self.item(it) for it in numbers], horizon)
        return ["ok"]

    def prune(self, replica, time):
        items, horizon = self.replica(replica)
        self.replicas[replica - 1] = (items, horizon_after(items, self.streams, horizon, time))
        return ["ok"]

    def merge(self, to, of):
        (items, horizon), (others, other) = self.replica(to), self.replica(of)
        self.replicas[to - 1] = (items + [it for it in others if it not in items], max(horizon, other))
        return ["ok"]

    def delta(self, to, of, base):
        (items, _), (_, horizon) = self.replica(to), self.replica(of)
        if base < horizon:
            raise Refused(25, "horizon", horizon)
        mark = readable(items, self.streams)
        if base > mark:
            raise Refused(22, "base", base, "readable", mark)
        return self.merge(to, of)

    def ask(self, replica, time, *query):
        if replica == 0:
            if time > self.primary.readable():
                raise Refused(26, "readable", self.primary.readable())
        else:
            items, horizon = self.replica(replica)
            check_readable(items, self.streams, horizon, time)
        return answer(self.primary.tables_at(time), query)

    def front(self, replica):
        items, horizon = self.replica(replica)
        return [f"front horizon {horizon} readable {readable(items, self.streams)}"]

    def told(self, words):
        """The lines that a command prints."""
        name, words = words[0], words[1:]
        if name == "ask":
            if len(words) < 3 or words[2] not in QUERIES:
                raise BadCommand
            query = [words[2], *values_of(words[3:], QUERIES[words[2]])]
            return self.ask(number_of(words[0], *U16), number_of(words[1], *TIME), *query)
        if name == "batch":
            if not 2 <= len(words) <= 65:
                raise BadCommand
            return self.batch(number_of(words[0], *U16), *[number_of(it, *U64) for it in words[1:]])
        if name not in FORMS:
            raise BadCommand
        return getattr(self, name)(*values_of(words, FORMS[name]))


def played(script):
    """What a world script prints, and the status."""
    world, out, status = None, [], 0
    for number, line in enumerate(script.split("\n"), 1):
        if not line:
            continue
        words = line.split(" ")
        try:
            if len(line) > 16384:
                raise BadCommand
            if world is not None:
                out += world.told(words)
            else:
                if words[0] != "world":
                    raise BadCommand
                world = World(*values_of(words[1:], [U64, STREAM, SLOT]))
        except Refused as refused:
            out, status = [*out, str(refused)], 1
        except BadCommand:
            return [*out, f"line {number}: bad command"], 1
    return out, status


def printed(data):
    """What `items` prints of the data, and the status."""
    items, fault = items_of(data)
    lines = [it.line() for it in items]
    return (lines, 0) if fault is None else ([*lines, f"refused {fault}"], 1)


def asked(data, log, streams, time, table, key):
    """What `at` prints of the data, and the status."""
    items, fault = items_of(data)
    held = Held(log, streams)
    try:
        for it in items:
            held.absorb(it)
        if fault is not None:
            raise Refused(fault)
        return held.ask(time, "get", table, key), 0
    except Refused as refused:
        return [str(refused)], 1


def told(steps, log, streams, guarded):
    """What a node answers to steps: ("take", frame ..), ("prune", time), ("ask", time, word ..). One that isn't guarded gets nothing that conflicts."""
    held, lines = Held(log, streams, guarded), []
    for name, *words in steps:
        try:
            lines += getattr(held, name)(*words)
        except Refused as refused:
            lines.append(str(refused))
    return lines


def main(words):
    """`world`, `items`, or `at LOG STREAMS TIME TABLE KEY` over standard input: prints what the program is to print."""
    is_at = len(words) == 6 and words[0] == "at" and all(it.isascii() and it.isdigit() for it in words[1:])
    if not is_at and words not in (["world"], ["items"]):
        print("usage: tests/lib/reference.py world | items | at LOG STREAMS TIME TABLE KEY", file=sys.stderr)
        return 2
    data = sys.stdin.buffer.read()
    if is_at:
        lines, status = asked(data, *map(int, words[1:]))
    else:
        lines, status = played(data.decode()) if words == ["world"] else printed(data)
    print("".join(f"{line}\n" for line in lines), end="")
    return status


if __name__ == "__main__":
    sys.exit(main(sys.argv[1:]))
