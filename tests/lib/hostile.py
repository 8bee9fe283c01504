"""Messages that mean ill, made for a node whose whole is known, and questions to it: for tests/checks/final.py. Most of them are the truth but for a
lie or two, since what says nothing that a node knows is refused at once. Standard library only."""
from typing import List, NamedTuple

import messages as say

STREAMS, TABLES, KEYS, TAGS = 2, 2, 3, (8, 9)
LAST = 2 ** 62
# the kinds of changes, each of which a guarded node refuses 23 now and then, and by which another one answers otherwise
CHANGES = ("items", "a join", "a merge", "parts", "a prune")


class Message(NamedTuple):
    """What goes over a port: the kind, what of it is a lie, and its frames."""

    port: str
    name: str
    words: str
    frames: List[bytes]


def whole_of(link):
    """All that a node holds, or None where it says nothing more."""
    reply = link.ask(say.full())
    return reply[1] if reply[0] == "fragment" else None


def readable(whole):
    return min(closed for _, closed, _, _ in whole["streams"])


def question(source, time):
    """A question at a time: its frame, the time, and its words."""
    table, key, tag = source.randint(1, TABLES), source.randint(1, KEYS), source.choice(TAGS)
    kind = source.choice(["Range", "Range", "Get", "ByTag", "Count", "Page"])
    if kind == "Page":
        return say.page(time, table, 0, 9, source.randint(1, KEYS)), time, f"a page of table {table} at {time}"
    query = {"Range": say.scan(table, 0, 9), "Get": say.get(table, key), "ByTag": say.by_tag(table, tag), "Count": say.count(table)}[kind]
    return say.ask(time, query), time, f"{kind} of table {table} at {time}"


# ---------------------------------------------------------------- items

def row(source):
    return source.choice(TAGS), bytes([source.randint(1, 3)])


def standing(whole, place):
    """The version of a key that was born last and has no end, or None."""
    born = [fact[2] for fact in whole["facts"] if fact[:2] == place and fact[3] is not None and fact[4] is None]
    return (*place, max(born)) if born else None


def places(source, count):
    every = [(table, key) for table in range(1, TABLES + 1) for key in range(1, KEYS + 1)]
    return sorted(source.sample(every, count))


def entry_at(source, whole, stream, number, time):
    """An entry that puts and ends what stands there, or forgets to end it."""
    rows, ends, taken = [], [], {fact[:3] for fact in whole["facts"] if fact[3] is not None}
    for place in places(source, source.randint(1, 2)):
        if whole["is_mild"] and (*place, time) in taken:
            continue
        stands = standing(whole, place)
        if stands and stands[2] < time and source.random() < 0.7:
            ends.append(stands)
        if source.random() < 0.8 or not ends:
            rows.append((*place, *row(source)))
    if not rows and not ends:
        rows.append((TABLES, KEYS + 1, *row(source)))
    return say.new_entry(number, time, rows, ends, stream=stream)


def next_items(source, whole):
    """What could come next: an entry above all that is closed, and marks behind it."""
    stream = source.randint(1, STREAMS)
    prefix, closed, _, _ = whole["streams"][stream - 1]
    time = max(closed, prefix, readable(whole)) + source.randint(1, 2)
    items = [entry_at(source, whole, stream, prefix + 1, time)]
    for of, (known, upto, _, _) in enumerate(whole["streams"], 1):
        if upto <= time and source.random() < 0.8:
            items.append(say.mark(of, known + (of == stream), time))
    return "an entry that comes next", items


def late_entry(source, whole):
    stream = source.randint(1, STREAMS)
    prefix = whole["streams"][stream - 1][0]
    time = max(prefix + 1, source.randint(1, max(readable(whole), 1)))
    return "a late entry", [entry_at(source, whole, stream, prefix + 1, time)]


def repeated_entry(source, whole):
    """An entry whose number is taken, with other rows and ends than it had, or the same by chance."""
    stream = source.randint(1, STREAMS)
    number = source.randint(1, max(whole["streams"][stream - 1][0], 1))
    times = [fact[2] for fact in whole["facts"] if fact[2] >= number] or [number]
    return "a repeat with another body", [entry_at(source, whole, stream, number, source.choice(times))]


def entry_ahead(source, whole):
    """An entry behind a gap, which ends something."""
    stream, known = source.randint(1, STREAMS), [fact[:3] for fact in whole["facts"] if fact[4] is None or not whole["is_mild"]]
    table, key, born = source.choice(known or [(1, 1, 1)])
    prefix = whole["streams"][stream - 1][0]
    time = max(prefix + 4, readable(whole), born) + source.randint(1, 4)
    return "an entry ahead that ends a row", [say.new_entry(prefix + source.randint(2, 4), time, [], [(table, key, born)], stream=stream)]


def lying_mark(source, whole):
    stream = source.randint(1, STREAMS)
    prefix, closed, _, _ = whole["streams"][stream - 1]
    count = max(prefix + source.randint(-2, 2), 0)
    return "a mark that says more", [say.mark(stream, count, max(closed + source.randint(-2, 3), count))]


ITEMS = (next_items, next_items, next_items, next_items, late_entry, repeated_entry, entry_ahead, lying_mark)


def items(source, whole):
    words, frames = source.choice(ITEMS)(source, whole)
    if source.random() < 0.2:
        more = source.choice(ITEMS)(source, whole)
        words, frames = f"{words}, and {more[0]}", frames + more[1]
    make = source.choice([say.items, say.feed])
    return words, [make(*frames)]


# ---------------------------------------------------------------- fragments

def late_row(source, it):
    version = (*source.choice(places(source, 2)), source.randint(1, readable(it) + 1))
    it["facts"].append((*version, row(source), source.choice([None, version[2] + 1])))
    return "a late row"


def late_end(source, it):
    at = source.randrange(len(it["facts"]) or 1)
    if it["facts"]:
        table, key, born, put, _ = it["facts"][at]
        it["facts"][at] = (table, key, born, put, source.randint(born + 1, max(readable(it), born) + 1))
    return "an end in the past"


def end_alone(source, it):
    version = (*source.choice(places(source, 2)), source.randint(1, readable(it) + 1))
    it["facts"].append((*version, None, version[2] + source.randint(1, 3)))
    return "an end of a version that isn't known"


def other_row(source, it):
    if it["facts"]:
        at = source.randrange(len(it["facts"]))
        it["facts"][at] = (*it["facts"][at][:3], row(source), it["facts"][at][4])
    return "another row"


def row_without_end(source, it):
    at = source.randrange(len(it["facts"]) or 1)
    it["facts"][at:at + 1] = [(*fact[:4], None) for fact in it["facts"][at:at + 1] if fact[3] is not None]
    return "a row that lost its end"


def fact_left_out(source, it):
    if it["facts"]:
        del it["facts"][source.randrange(len(it["facts"]))]
    return "a fact left out"


def no_facts(_, it):
    it["facts"] = []
    return "no facts"


def horizon_raised(source, it):
    it["horizon"] = max(it["horizon"], source.randint(it["horizon"], readable(it) + (source.random() < 0.2)))
    it["streams"] = [(prefix, max(closed, it["horizon"]), *more) for prefix, closed, *more in it["streams"]]
    return f"the horizon {it['horizon']}"


def horizon_of_all(_, it):
    it["horizon"], it["facts"], it["base"] = LAST, [], 0
    it["streams"] = [(prefix, LAST, *more) for prefix, _, *more in it["streams"]]
    return "the last horizon of all"


def stream_ahead(source, it):
    at = source.randrange(STREAMS)
    prefix, closed, extra, waiting = it["streams"][at]
    it["streams"][at] = source.choice([
        (prefix + source.randint(1, 2), closed, extra, waiting), (prefix, closed + source.randint(1, 2), extra, waiting),
        (prefix, closed, [*extra, prefix + 3], waiting), (prefix, closed, extra, [*waiting, (prefix + 1, max(closed, prefix) + 2)])])
    return "a stream further than it is"


def row_astray(source, it):
    """A whole of a greater horizon which lacks a row that had not ended by then, or has one again that had."""
    it["base"] = 0
    return f"{source.choice([row_without_end, fact_left_out, fact_left_out])(source, it)} and {horizon_raised(source, it)}"


LIES = (late_row, late_row, late_end, late_end, end_alone, other_row, row_without_end, fact_left_out, no_facts, horizon_raised, horizon_raised, stream_ahead, row_astray, row_astray)


def is_fit(fact, base, horizon):
    """What a fragment may say of a version, or None."""
    table, key, born, put, died = fact
    put = put if born > base else None
    died = died if died is not None and died > max(base, horizon, born) else None
    return (table, key, born, put, died) if put is not None or died is not None else None


def fit(it):
    """The same by the rules of fragments, which a frame can't break without a fault of form."""
    it["base"] = it["base"] and max(it["base"], it["horizon"])
    streams = []
    for prefix, closed, extra, waiting in it["streams"]:
        waits = {n: m for n, m in waiting if prefix < n <= m}
        streams.append((prefix, closed, sorted({n for n in extra if n > prefix + 1}), sorted(waits.items())))
    facts = {fact[:3]: is_fit(fact, it["base"], it["horizon"]) for fact in it["facts"]}
    return {**it, "streams": streams, "facts": sorted((fact for fact in facts.values() if fact), key=lambda fact: fact[:3])}


def agreed(facts, whole):
    """The same, but what would say of a version another thing than the node knows."""
    known = {fact[:3]: fact[3:] for fact in whole["facts"]}
    for *version, put, died in facts:
        row_there, end_there = known.get(tuple(version), (None, None))
        yield (*version, put if row_there is None else put and row_there, died if end_there is None else died and end_there)


def fragment(source, whole, is_whole):
    """What the node holds, or what happened since a base, with a lie or two; or with none."""
    it = {**whole, "streams": list(whole["streams"]), "facts": list(whole["facts"])}
    is_mild = it.pop("is_mild")
    if not is_whole:
        it["base"] = source.randint(it["horizon"], readable(it) + 1)
    lies = [horizon_of_all] if source.random() < 0.01 else [source.choice(LIES) for _ in range(source.choice([0, 1, 1, 1, 2]))]
    words = [lie(source, it) for lie in lies]
    if is_mild:
        it["facts"] = list(agreed(it["facts"], whole))
    return " and ".join(words) or "the truth", fit(it)


def join(source, whole):
    words, it = fragment(source, whole, source.random() < 0.5)
    return words, [say.join_this(**it)]


def merge(source, whole):
    words, it = fragment(source, whole, True)
    return words, [say.merge_this(**it)]


def parts(source, whole):
    """A fragment part by part; now and then its head tells of another number of facts."""
    words, it = fragment(source, whole, source.random() < 0.5)
    facts, head = it["facts"], {name: of for name, of in it.items() if name != "facts"}
    cut = source.randint(0, len(facts))
    count = len(facts) + (source.random() < 0.1)
    make = say.merge_parts if it["base"] == 0 and source.random() < 0.5 else say.join_parts
    return words, [*(say.add(some) for some in (facts[:cut], facts[cut:])), make(count=count, **head)]


# ---------------------------------------------------------------- the rest

def prune(source, whole):
    horizon = source.randint(whole["horizon"], readable(whole) + (source.random() < 0.1))
    return f"to {horizon}", [say.prune(horizon)]


def hold(source, whole):
    if source.random() < 0.5:
        number = source.randint(1, 4)
        return f"release {number}", [say.release(number)]
    time = source.randint(max(whole["horizon"] - 1, 0), readable(whole) + 1)
    return f"at {time}", [say.hold(time)]


MAKERS = {"items": items, "a join": join, "a merge": merge, "parts": parts, "a prune": prune, "a hold": hold}
WEIGHTS = (12, 5, 4, 4, 3, 1)


def message(source, whole, is_mild):
    """Any message, over a port that takes its kind, or now and then over another. A mild one seldom says of a version another thing than the
    node knows, which damages one without a guard."""
    whole = {**whole, "is_mild": is_mild}
    name = source.choices(list(MAKERS), WEIGHTS)[0]
    taking = ["first", "feed"] if name == "items" else ["first"]
    port = source.choice(taking if source.random() < 0.92 else ["feed", "read"])
    words, frames = MAKERS[name](source, whole)
    return Message(port, name, f"{name} ({words}) over the {port} port", frames)
