#!/usr/bin/env python3
"""Checks of `hkrep serve --guard`: each change is tested before it is made, also where items are of no one log, and each repeat is compared.

Lists of random items go to a guarded node, all or nothing, and what it replies and holds is what tests/lib/reference.py says of the same items,
absorbed one after the other. Prints a line for each check and ends with 'N passed, M failed'. Standard library only."""
import pathlib
import random
import subprocess
import sys

sys.path.append(str(pathlib.Path(__file__).resolve().parents[1] / "lib"))
import messages as say
import reference
from checks import differ, ended, is_built, report
from staying import PROGRAM, Staying, free_port

NODES, LISTS, STREAMS, KEYS = 8, 40, 2, 4


def entry(source, time):
    """An entry at about this time, often one that contradicts: of a number that others have, of rows and ends that others have otherwise."""
    time = max(2, time + source.randint(-3, 2))
    keys = sorted(source.sample(range(1, KEYS + 1), source.randint(0, 2)))
    rows = [((1, key), (9, bytes([source.randint(1, 2)]))) for key in keys]
    ended = sorted(source.sample(range(1, KEYS + 1), source.randint(0 if rows else 1, 2)))
    ends = [(1, key, source.randint(1, time - 1)) for key in ended]
    log, stream = source.choice([7] * 30 + [8]), source.choice([1, 2] * 15 + [3])
    return reference.Entry(log, stream, source.randint(1, min(time, 30)), time, ends, rows)


def mark(source, time):
    upto = source.randint(1, time)
    return reference.Mark(7, source.randint(1, STREAMS), source.randint(0, min(upto, 4)), upto)


def facts(items):
    """The rows that the entries insert, by version, and the ends that they state."""
    entries = [it for it in items if isinstance(it, reference.Entry)]
    rows = {(*key, it.time): row for it in entries for key, row in it.rows}
    return rows, {version: it.time for it in entries for version in it.ends}


def taken(held, items):
    """The items held after these, absorbed one after the other, and None; or those held before, and the first refusal's number, or 23 where an
    entry stands otherwise in those after than it is told. The horizon is 0, so each is compared."""
    after = reference.Held(7, STREAMS)
    try:
        for item in held + items:
            after.absorb(item)
    except reference.Refused as refused:
        return held, refused.args[0]
    for known, told in zip(facts(after.items), facts(items)):
        if any(known.get(version) != it for version, it in told.items()):
            return held, 23
    return after.items, None


def rows_at(held, time):
    return sorted((key, tag, body) for (_, key), (tag, body) in reference.shown(held, time).items())


def one_node(seed, told):
    """Lists to a new node; counts what was told of them."""
    source, held, done, problems = random.Random(seed), [], 1, []
    with Staying(2, "-q", streams=STREAMS) as node, node.link() as link, node.link() as other:
        for at in range(LISTS):
            items = [(entry if source.random() < 0.7 else mark)(source, at + 2) for _ in range(source.randint(1, 4))]
            held, number = taken(held, items)
            done += number is None
            told[number] = told.get(number, 0) + 1
            reply = link.ask(say.items(*map(reference.frame, items)))
            wanted = ("done", done) if number is None else ("refused", number)
            readable = reference.readable(held, STREAMS)
            pairs = [("the reply", reply[:2], wanted), ("the front", link.ask(say.front()), ("front", 0, readable)),
                     ("the rows", link.ask(say.ask(readable, say.scan(1, 0, 9))), ("rows", rows_at(held, readable)))]
            if number is not None:
                pairs.append(("another link", other.ask(say.front()), ("front", 0, readable)))
            problems += [f"seed {seed}, list {at}: {it}" for it in differ(pairs)]
    return problems


def beside_the_reference():
    told, problems = {}, []
    for seed in range(NODES):
        problems += one_node(seed, told)
    if not all(told.get(number) for number in (None, 20, 21, 23)):
        problems.append(f"not each outcome came: {told}")
    report("lists of items that may contradict, beside the reference", problems, f"{NODES * LISTS} lists")


def so_many_links():
    """A guarded node that serves so many links and ends."""
    port = free_port()
    conflict = say.join_this(facts=[(1, 5, 1, (9, b"\x43"), None)])
    pushed = say.items(say.entry(1, 1, [(1, 5, 9, b"\x41")]), say.mark(1, 1, 1))
    words = ["serve", "--guard", "--log", "7", "--streams", "1", "--port", str(port), "--links", "1"]
    with subprocess.Popen([str(PROGRAM), *words], stdout=subprocess.PIPE, stderr=subprocess.PIPE, text=True) as node:
        pairs = [("the port", node.stdout.readline(), f"listening {port}\n")]
        with say.Link(port) as link:
            pairs += [("a push", link.ask(pushed), ("done", 2)), ("a conflict", link.ask(conflict)[:2], ("refused", 23)),
                      ("the row", link.ask(say.ask(1, say.get(1, 5))), ("row", (9, b"\x41"))), ("a merge", link.ask(say.merge_this(facts=[(1, 5, 1, (9, b"\x43"), None)]))[:2], ("refused", 23)),
                      ("a prune", link.ask(say.prune(1)), ("done", 3))]
        out, _ = node.communicate(timeout=30)
        pairs.append(("its end", (out, node.returncode), ("ended 0\n", 0)))
    report("a guarded node that serves so many links", differ(pairs))


def main():
    if not is_built(PROGRAM):
        return ended()
    for check in (beside_the_reference, so_many_links):
        check()
    return ended()


if __name__ == "__main__":
    sys.exit(main())
