#!/usr/bin/env python3
"""Cost under attack: input that is chosen to be dear, beside honest input of the same size, at two sizes. The processor time of
the dear one grows no faster than that of the honest one, and is at most some times as much.

    tests/checks/attack.py [CHECK ..]      those of the gate; `open` runs those that are known to grow, for a look

Prints a line for each check and ends with 'N passed, M failed'. Standard library only."""
import os
import pathlib
import random
import subprocess
import sys
import tempfile
import threading
import time

sys.dont_write_bytecode = True
sys.path.append(str(pathlib.Path(__file__).resolve().parents[1] / "lib"))
import messages as say
from checks import ended, guarded, is_built, report
from client import free_port
from staying import most_memory

ROOT = pathlib.Path(__file__).resolve().parents[2]
PROGRAM = str(ROOT / "bin" / "hkrep")
LIMIT = 60

# How many times as much the dear input may take as the honest one, and how much that may grow where the input grows fourfold.
# A cost that grows with the square would grow fourfold.
MOST_RATIO = 6.0
MOST_GROWTH = 2.0

# What a run takes that reads nothing, and what is too little to be measured.
LEAST_SECONDS = 0.1

def processor_seconds(child, statuses=(0, 1)):
    """What an ended child took."""
    _, status, used = os.wait4(child.pid, 0)
    child.returncode = os.waitstatus_to_exitcode(status)
    if child.returncode not in statuses:
        raise RuntimeError(f"status {child.returncode}")
    return used.ru_utime + used.ru_stime


def run_seconds(args, data, statuses=(0, 1)):
    """The processor seconds of a run over this input; its output goes nowhere."""
    with tempfile.TemporaryFile() as it:
        it.write(data)
        it.seek(0)
        child = subprocess.Popen([PROGRAM, *args], stdin=it, stdout=subprocess.DEVNULL, stderr=subprocess.DEVNULL)
        return processor_seconds(child, statuses)


def serving(link_does):
    """A node whose one link does this with its link and its process, as it ends."""
    port = free_port()
    words = [PROGRAM, "serve", "--log", "7", "--streams", "1", "--port", str(port), "--links", "1"]
    child = subprocess.Popen(words, stdout=subprocess.PIPE, stderr=subprocess.DEVNULL)
    child.stdout.readline()
    with say.Link(port, LIMIT) as link:
        link_does(link, child)
    child.stdout.close()
    return child


def serve_seconds(data):
    """The processor seconds of a node that one link sends these requests."""
    def send(link, _):
        sender = threading.Thread(target=lambda: (link.send(data), link.half_close()))
        sender.start()
        link.read_all()
        sender.join()

    return processor_seconds(serving(send))


def serve_bytes(requests):
    """The most memory that a node has that one link sends these requests, one after the other."""
    most = []

    def send(link, child):
        for request in requests:
            link.send(request)
            link.reply()
        most.append(most_memory(child.pid))

    processor_seconds(serving(send))
    return most[0]


def best(measure, *what):
    return max(min(measure(*what) for _ in range(2)), LEAST_SECONDS)


def compare(name, measure, dear, honest, size):
    """Inputs of this size and of four times as much."""
    times = {}
    for count in (size, 4 * size):
        for kind, make in (("dear", dear), ("honest", honest)):
            times[kind, count] = best(measure, make(count))
    small, large = (times["dear", it] / times["honest", it] for it in (size, 4 * size))
    told = (f"{times['dear', size]:.2f} s beside {times['honest', size]:.2f} s at {size}, "
            f"{times['dear', 4 * size]:.2f} s beside {times['honest', 4 * size]:.2f} s at {4 * size}")
    problems = []
    if large > MOST_RATIO:
        problems.append(f"{large:.1f} times as much")
    if large > MOST_GROWTH * max(small, 1):
        problems.append(f"{small:.2f} times as much, and {large:.2f} where there is four times as much of it")
    report(name, problems, told)


def at(data):
    """Of `at` over items that are all taken."""
    return run_seconds(["at", "--log", "7", "--streams", "64", "0", "1", "5"], data, (0,))


def entries_of(rows, each=1024):
    """Entries that put these rows (table, key, tag, body), so many in an entry."""
    cut = [rows[place:place + each] for place in range(0, len(rows), each)]
    return b"".join(say.entry(number, number, part) for number, part in enumerate(cut, 1))


# ---------------------------------------------------------------- tags

MULTIPLIER, STATE, MASK = 0x9e3779b97f4a7c15, 0x243f6a8885a308d3, 2 ** 64 - 1


def folded(a, b):
    return (a * b & MASK) ^ (a * b >> 64)


def hash_of(table, tag):
    """What the standard library's map hashes a table and a tag to, with its fixed key."""
    state = folded(STATE ^ (table & 255 | table >> 8 << 8 | table >> 8 << 16), MULTIPLIER ^ 4)
    state = folded(state ^ (tag | tag << 32), MULTIPLIER ^ 8)
    return (state ^ state >> 32) & 0xffffffff


def crowded_tags(count):
    """Tags that all fall in the first sixteenth of the places of a map of so many."""
    places, found, tag = 1, [], 0
    while 9 * places < count:
        places *= 2
    while len(found) < count:
        tag += 1
        if hash_of(1, tag) & (places - 1) < places // 16:
            found.append(tag)
    return found


def rows_of_tags(tags):
    return entries_of([(1, key, tag, b"") for key, tag in enumerate(tags)])


def tags():
    compare("tags that fall together in a map with a fixed key", at, lambda count: rows_of_tags(crowded_tags(count)),
            lambda count: rows_of_tags(random.Random(7).sample(range(2 ** 32), count)), 10_000)


# ---------------------------------------------------------------- keys

TABLE_FACTOR = 0xd6e8feb86659fd93


def crowded_keys(count):
    """Keys of table 1 whose hashes all begin with 28 zeros, so that the guesses at their slots fall in one group."""
    undone = pow(MULTIPLIER, -1, 2 ** 64)
    for number in range(count):
        mixed = (number << 18) * undone & MASK
        yield (mixed ^ mixed >> 32) ^ TABLE_FACTOR


def keys():
    compare("keys whose guesses fall together", at, lambda count: rows_of_keys(crowded_keys(count)),
            lambda count: rows_of_keys(random.Random(7).sample(range(2 ** 62), count)), 10_000)


def one_tag():
    compare("one tag on all keys", at, lambda count: rows_of_tags([9] * count),
            lambda count: rows_of_tags(random.Random(7).sample(range(2 ** 32), count)), 10_000)


# ---------------------------------------------------------------- orders of keys, times and births

def rising(count):
    return range(1, count + 1)


def falling(count):
    return range(count, 0, -1)


def drawn(count):
    return random.Random(7).sample(range(1, count + 1), count)


def in_order(make):
    """Input of a count, beside the order of its numbers."""
    return lambda order: lambda count: make(order(count))


def rows_of_keys(keys):
    return entries_of([(1, key, 9, b"") for key in keys], 1)


def rows_of_times(times):
    """An entry for each; no number is above a time."""
    times = list(times)
    return b"".join(say.entry(n, len(times) + time_of, [(1, n, 9, b"")]) for n, time_of in enumerate(times, 1))


def rows_of_one_key(births):
    return b"".join(say.entry(n, n, [(1, 5, 9, b"")]) for n in births)


def ends_of_times(times):
    """Rows, 1,024 in an entry, and an entry for each row that ends it."""
    times = list(times)
    born = entries_of([(1, key, 9, b"") for key in range(len(times))])
    ended = ((1000 + key, 1000 + len(times) + time_of, (1, key, key // 1024 + 1)) for key, time_of in enumerate(times))
    return born + b"".join(say.entry(number, time_of, [], [version]) for number, time_of, version in ended)


def orders(name, make, size):
    for order in (rising, falling):
        compare(f"{name} in {order.__name__} order", at, in_order(make)(order), in_order(make)(drawn), size)


def orders_of_keys():
    orders("keys", rows_of_keys, 10_000)


def orders_of_times():
    orders("times of entries", rows_of_times, 10_000)


def orders_of_ends():
    orders("times of ends", ends_of_times, 10_000)


def orders_of_births():
    orders("versions of one key", rows_of_one_key, 10_000)


# ---------------------------------------------------------------- numbers and marks

def marks():
    compare("marks that wait, the last one first", at, lambda count: b"".join(say.mark(1, n, n) for n in range(count, 0, -1)),
            lambda count: b"".join(say.mark(1, 0, n) for n in range(count)), 25_000)


def covered_marks():
    def dear(count):
        return b"".join(say.mark(1, n, n) for n in range(count, 0, -1)) + entries(range(count, 0, -1))

    compare("marks that wait until all entries came", at, dear, lambda count: entries(range(1, count + 1)) +
            b"".join(say.mark(1, n, n) for n in range(1, count + 1)), 10_000)


def entries(numbers, stream=1):
    return b"".join(say.entry(n, n, [(1, n, 9, b"")], stream=stream) for n in numbers)


def numbers_():
    compare("numbers in falling order", at, lambda count: entries(range(count, 0, -1)), lambda count: entries(range(1, count + 1)), 10_000)


def numbers_with_gaps():
    compare("numbers of which each second one comes last", at, lambda count: entries([*range(count, 0, -2), *range(count - 1, 0, -2)]),
            lambda count: entries(range(1, count + 1)), 10_000)


def streams():
    def dear(count):
        return b"".join(entries([n], stream) for n in range(count // 64, 0, -1) for stream in range(1, 65))

    compare("64 streams, each in falling order", at, dear, lambda count: entries(range(1, count + 1)), 10_000)


def chains():
    def dear(count):
        return b"".join(say.entry(n, n, [(1, 5, 9, b"")], [(1, 5, n - 1)] if n > 1 else []) for n in range(count, 0, -1))

    def honest(count):
        return b"".join(say.entry(n, n, [(1, n, 9, b"")], [(1, n - 1, n - 1)] if n > 1 else []) for n in range(1, count + 1))

    compare("a chain of one key in falling order", at, dear, honest, 10_000)


# ---------------------------------------------------------------- contradictions

def contradicting(count):
    """Entries that agree, and then two that put different rows of one version."""
    return say.items(*(say.entry(n, n, [(1, n, 9, b"")]) for n in range(1, count - 1)), say.entry(count, count, [(1, 5, 9, b"a")]),
                     say.entry(count, count, [(1, 5, 9, b"b")]))


def contradictions():
    compare("items of which the last two contradict each other", serve_seconds, contradicting,
            lambda count: say.items(*(say.entry(n, n, [(1, n, 9, b"")]) for n in range(1, count + 1))), 4_000)


def all_contradict():
    def dear(count):
        return say.items(*(say.entry(n, 2 ** 40, [(1, n % 2, 9, say.u64(n))]) for n in range(1, count + 1)))

    compare("items that all contradict each other", serve_seconds, dear,
            lambda count: say.items(*(say.entry(n, n, [(1, n, 9, say.u64(n))]) for n in range(1, count + 1))), 4_000)


# ---------------------------------------------------------------- lines and frames

def endless_line():
    compare("one line without an end", lambda data: run_seconds(["world"], data), lambda count: b"world 7 1 1\n" + b"front 1" * count,
            lambda count: b"world 7 1 1\n" + b"front 1\n" * count, 50_000)


def empty_lines():
    compare("lines that are empty", lambda data: run_seconds(["world"], data), lambda count: b"world 7 1 1\n" + b"\n" * 8 * count,
            lambda count: b"world 7 1 1\n" + b"front 1\n" * count, 50_000)


def endless_frame():
    """A message whose length says 2^28 bytes, of which a part comes."""
    compare("a message that does not end", serve_seconds, lambda count: say.u32(2 ** 28) + bytes(count * 40),
            lambda count: say.front() * (count * 40 // 6), 10_000)


# ---------------------------------------------------------------- small requests to a full node

def rows_and_mark(count):
    return say.items(*(say.entry(n, n, [(1, n, 9, b"")]) for n in range(1, count + 1)), say.mark(1, count, count))


def fronts(count):
    return rows_and_mark(count) + say.front() * count


def prunes():
    compare("prunes that each go one further", serve_seconds,
            lambda count: rows_and_mark(count) + b"".join(say.prune(n) for n in range(1, count)), fronts, 1_000)


def put_again(tag_of):
    """Of a count, changes that each put a row over the one before, with the tag that its number has, and prune up to there."""
    def change(n):
        return say.items(say.entry(n, n, [(1, 5, tag_of(n), b"")], [(1, 5, n - 1)] if n > 1 else []), say.mark(1, n, n)) + say.prune(n)

    return lambda count: b"".join(change(n) for n in range(1, count + 1))


def changing_tags():
    compare("a row that is put again and again with other tags, and pruned", serve_seconds, put_again(lambda n: n), put_again(lambda n: 9), 1_000)


def deltas():
    compare("deltas with nothing in them", serve_seconds, lambda count: rows_and_mark(count) + say.delta(count) * count, fronts, 1_000)


def deltas_of_a_chain():
    """A key that each entry writes again, as a heartbeat does, and a delta of the last of them."""
    def dear(count):
        born = (say.entry(n, n, [(1, 5, 9, b"")], [(1, 5, n - 1)] if n > 1 else []) for n in range(1, count + 1))
        return say.items(*born, say.mark(1, count, count)) + say.delta(count - 1) * count

    compare("deltas of the last of a key's versions", serve_seconds, dear, lambda count: rows_and_mark(count) + say.delta(count - 1) * count, 1_000)


def rising_joins():
    def dear(count):
        sent = (say.join_this(base=count, horizon=n, streams=[(count, count, [], [])]) for n in range(1, count))
        return rows_and_mark(count) + b"".join(sent)

    compare("joins of nothing that each raise the horizon", serve_seconds, dear, fronts, 1_000)


def refused_joins():
    """Joins that put rows with early times and are refused at their last one: what was listed for the rows goes with them."""
    def sent(count):
        facts = [(1, key, key, (9, b""), key + 1) for key in range(1, 1_001)]
        held, other = ([(1, 2_000, 2_000, (9, body), None)] for body in (b"a", b"b"))
        join = say.join_this(streams=[(0, 0, [], [])], facts=facts + other)
        return [say.join_this(streams=[(0, 0, [], [])], facts=held)] + [join] * count

    few, many = (serve_bytes(sent(count)) for count in (50, 1_050))
    problems = [f"{many - few} bytes more"] if many - few > 4_000_000 else []
    report("joins that are refused, again and again", problems, "no more memory for a thousand more of 1,000 rows each")


def lone_ends():
    def dear(count):
        ends = [(1, 5, n, None, n + 1) for n in range(1, count)]
        return say.join_this(streams=[(count, count, [], [])], facts=ends) + say.ask(count, say.get(1, 5)) * count

    def honest(count):
        rows = [(1, 5, n, (9, b""), n + 1) for n in range(1, count)]
        return say.join_this(streams=[(count, count, [], [])], facts=rows) + say.ask(count, say.get(1, 5)) * count

    compare("gets of a key whose versions have no rows", serve_seconds, dear, honest, 1_000)


def small_joins():
    def dear(count):
        return say.items(*(say.mark(1, n, n) for n in range(2, count))) + say.items() * count

    compare("small joins behind many waiting marks", serve_seconds, dear, lambda count: rows_and_mark(count) + say.items() * count, 1_000)


# ---------------------------------------------------------------- known to grow

def open_counts():
    compare("counts of a table", serve_seconds, lambda count: rows_and_mark(count) + say.ask(count, say.count(1)) * count,
            fronts, 1_000)


GATE = (tags, keys, one_tag, orders_of_keys, orders_of_times, orders_of_ends, orders_of_births, marks, covered_marks, numbers_, numbers_with_gaps,
        streams, chains, contradictions, all_contradict, endless_line, empty_lines, endless_frame, prunes, changing_tags, deltas, deltas_of_a_chain,
        rising_joins, refused_joins, lone_ends, small_joins)
OPEN = (open_counts,)


def main(words):
    start = time.monotonic()
    if not is_built(pathlib.Path(PROGRAM)):
        return ended()
    checks = OPEN if words == ["open"] else [it for it in (*GATE, *OPEN) if it.__name__ in words] if words else GATE
    for check in checks:
        guarded(check)
    print(f"attack: {time.monotonic() - start:.1f} s")
    return ended()


if __name__ == "__main__":
    sys.exit(main(sys.argv[1:]))
