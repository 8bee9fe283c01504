#!/usr/bin/env python3
"""Mutates valid item frames, requests, replies, scripts and command lines, and gives them to bin/hkrep: it ends by itself with
status 0, 1 or 2, within a bound on time and memory; `items`, `at` and `world` print what tests/lib/reference.py says of the same
bytes; a session's replies are whole messages, of which the last alone tells a fault, with the number with which the link ends.

    tests/checks/fuzz.py [CASES [SEED [KIND ..]]]      so many cases of each kind; the seed says which

Prints a line for each kind and ends with 'N passed, M failed'. Standard library only."""
import concurrent.futures
import contextlib
import importlib.machinery
import importlib.util
import os
import pathlib
import random
import resource
import socket
import struct
import subprocess
import sys
import time
import traceback

sys.dont_write_bytecode = True
sys.path.append(str(pathlib.Path(__file__).resolve().parents[1] / "lib"))
import messages as say
import reference
from client import Node

ROOT = pathlib.Path(__file__).resolve().parents[2]
PROGRAM = str(ROOT / "bin" / "hkrep")
LIMIT = 20

# The most that a run may hold, in bytes; no input here is larger than 64 KB.
MOST_MEMORY = 64 * 2 ** 20
MOST_INPUT = 65_536


def load(name):
    """A script of tests/ that has no ending."""
    loader = importlib.machinery.SourceFileLoader(name, str(ROOT / "tests" / "checks" / name))
    module = importlib.util.module_from_spec(importlib.util.spec_from_loader(name, loader))
    loader.exec_module(module)
    return module


compare = load("compare")


# ---------------------------------------------------------------- mutations

NUMBERS = [0, 1, 2, 7, 63, 64, 65, 255, 256, 1023, 1024, 1025, 4096, 4097, 65535, 65536, 65537, 2 ** 28, 2 ** 28 + 1, 2 ** 31, 2 ** 32 - 1,
           2 ** 62, 2 ** 62 + 1, 2 ** 63, 2 ** 64 - 1]


def turned_bit(source, data):
    place = source.randrange(len(data))
    data[place] ^= 1 << source.randrange(8)


def turned_byte(source, data):
    data[source.randrange(len(data))] = source.choice([0, 1, 2, 3, 64, 65, 127, 128, 254, 255, source.randrange(256)])


def turned_number(source, data):
    size = source.choice([1, 2, 4, 8])
    if len(data) >= size:
        place = source.randrange(len(data) - size + 1)
        old = int.from_bytes(data[place:place + size], "big")
        number = source.choice([source.choice(NUMBERS), old + 1, old - 1, source.getrandbits(8 * size)])
        data[place:place + size] = (number % 2 ** (8 * size)).to_bytes(size, "big")


def cut_out(source, data):
    place = source.randrange(len(data))
    del data[place:place + source.choice([1, 1, 2, 4, 8, 50])]


def put_in(source, data):
    place = source.randrange(len(data) + 1)
    data[place:place] = source.choice([b"\0", b"\xff", bytes(source.choices(range(256), k=source.randint(1, 20)))])


def said_twice(source, data):
    place, size = source.randrange(len(data)), source.choice([1, 2, 8, 18, 32, 53, 200])
    data[place:place] = data[place:place + size]


def cut_short(source, data):
    del data[source.randrange(len(data)):]


MUTATIONS = [turned_bit, turned_byte, turned_number, turned_number, turned_number, cut_out, put_in, said_twice, cut_short]


def mutated(source, data):
    data = bytearray(data)
    for _ in range(source.choice([0, 1, 1, 1, 2, 3, 8])):
        if data:
            source.choice(MUTATIONS)(source, data)
    return bytes(data[:MOST_INPUT])


def mutated_frame(source, frame):
    """A frame whose length field is mostly right again, so that what stands behind it is looked at."""
    data = mutated(source, frame)
    if source.random() < 0.7 and len(data) >= 4:
        data = struct.pack(">I", len(data) - 4) + data[4:]
    return data


def mutated_frames(source, frames):
    """Most frames stay as they are, so that those behind them are reached."""
    frames = [mutated_frame(source, it) if source.random() < 0.15 else it for it in frames]
    if source.random() < 0.2:
        source.shuffle(frames)
    return mutated(source, b"".join(frames)) if source.random() < 0.2 else b"".join(frames)[:MOST_INPUT]


# ---------------------------------------------------------------- kinds of cases

def ran(words, data):
    it = subprocess.run([PROGRAM, *words], input=data, stdout=subprocess.PIPE, stderr=subprocess.DEVNULL, timeout=LIMIT, check=False)
    return it.stdout.decode("latin-1"), it.returncode


def told(lines, status):
    return "".join(f"{line}\n" for line in lines), status


def of_items(source):
    data = mutated_frames(source, compare.Frames.random(source).parts)
    items, fault = reference.items_of(data)
    new = b"".join(reference.frame(it, 2) for it in items).decode("latin-1")
    return [(["items"], data, told(*reference.printed(data))),
            (["rewrite"], data, ("", 1) if fault else (new, 0))]


def of_at(source):
    case = compare.Frames.random(source)
    data = mutated_frames(source, case.parts)
    log, streams, *more = case.question
    return [(["at", "--log", str(log), "--streams", str(streams), *map(str, more)], data, told(*reference.asked(data, *case.question)))]


WORDS = ["begin", "put", "remove", "commit", "mark", "retire", "absorb", "batch", "prune", "merge", "delta", "ask", "front", "world", "get", "range", "tag",
         "count", "-", "41", "0", "1", "00", "16", "17", "64", "65", "x", "", "18446744073709551615", "18446744073709551616", "4611686018427387904",
         "4611686018427387905", "4294967296", "65536", "1 1", "\t", "\r"]


def mutated_line(source, line):
    words = line.split(" ")
    place = source.randrange(len(words))
    kind = source.randrange(5)
    if kind == 0:
        words[place] = source.choice(WORDS)
    elif kind == 1:
        words.insert(place, source.choice(WORDS))
    elif kind == 2:
        del words[place]
    elif kind == 3:
        words[place] = str(source.choice(NUMBERS))
    else:
        return mutated(source, line.encode()).decode("latin-1")
    return " ".join(words)


def of_world(source):
    lines = compare.Script.random(source).parts
    for _ in range(source.choice([0, 0, 1, 1, 2])):
        place = source.randrange(len(lines) // 2, len(lines))
        lines[place] = mutated_line(source, lines[place])
    if source.random() < 0.1:
        source.shuffle(lines)
    text = "\n".join(lines)[:MOST_INPUT]
    return [(["world"], text.encode("latin-1"), told(*reference.played(text)))]


LINES = [["at", "--log", "7", "--streams", "1", "1", "1", "5"], ["items"], ["items", "--json"], ["frames"], ["rewrite"], ["world"], ["--help"], ["--version"], ["push", "--port", "1"], ["ask", "--port", "1", "get", "1", "5"],
         ["feed", "--port", "1", "--batch", "7"],
         ["serve", "--log", "7", "--streams", "1", "--port", "65536", "--links", "1"], ["help", "at"], ["at", "--help"]]


# The commands that ask a node, and where one is that is never there.
ASKING = ("push", "feed", "ask", "front", "status", "save", "load", "pull", "prune", "shell")
os.environ["HKREP_NODE"] = "127.0.0.1:1"


def once(words):
    """The words of a command line, which sees at once that nobody listens on its port or at the environment's address."""
    kept = [word for word in words if not word.startswith("--connect-seconds")]
    if kept and kept[0] in ASKING:
        kept[1:1] = ["--connect-seconds", "0"]
    return kept


def of_lines(source):
    """A command line; what it prints isn't looked at. A node that were started would wait without end, so its port stays none."""
    words = list(source.choice(LINES))
    for _ in range(source.randint(0, 3)):
        place = source.randrange(len(words) + 1)
        word = source.choice([*WORDS, *map(str, NUMBERS), *sum(LINES, []), "--", "-h", "--log=7", "--port=65536", "é", "\udcff", "-" * 100, "9" * 5000])
        kind = source.randrange(4)
        if kind == 0 and place < len(words):
            words[place] = word
        elif kind == 1 and place < len(words):
            del words[place]
        elif kind == 2:
            words.insert(place, word)
        elif place < len(words):
            words[place] = mutated(source, words[place].encode("utf-8", "surrogateescape")).replace(b"\0", b"").decode("utf-8", "surrogateescape")
    place = next((at for at, word in enumerate(words) if word.startswith("--port")), None)
    if "serve" in words and place is not None and "65536" not in "".join(words[place:place + 2]):
        words = ["serve"]
    return [(once(words), (compare.Frames.random(source).parts or [b""])[0] if source.random() < 0.5 else b"", None)]


def problem_of_run(words, data, wanted):
    try:
        got = ran(words, data)
    except subprocess.TimeoutExpired:
        return f"{words}: no end within {LIMIT} s"
    if got[1] not in (0, 1, 2):
        return f"{words}: status {got[1]}"
    if got[1] == 2 and wanted is not None:
        return f"{words}: status 2"
    return None if wanted in (None, got) else f"{words}: printed {got}, wanted {wanted}"


def problems_of_memory():
    """Whether a run that ended held more than it may."""
    held = 1024 * resource.getrusage(resource.RUSAGE_CHILDREN).ru_maxrss
    return [f"{held} bytes held"] if held > MOST_MEMORY else []


def runs(kind, make, cases, seed):
    """That many cases of a kind."""
    for number in range(cases):
        source = random.Random(f"{seed} {kind} {number}")
        for words, data, wanted in make(source):
            problem = problem_of_run(words, data, wanted)
            if problem:
                return [f"case {number} of seed {seed}: {problem[:300]}; input {data[:400].hex()}"]
    return problems_of_memory()


# ---------------------------------------------------------------- sessions

def random_request(source):
    time_ = source.choice([0, 1, 2, 3, 5, 9, 2 ** 62])
    number, key = source.randint(1, 6), source.randint(1, 4)
    frames = [source.choice([say.entry, say.new_entry])(n, n + source.choice([0, 0, 1]), [(1, key, 9, bytes([n]))], [(1, key, n - 1)] if n > 1 else [])
              for n in range(number, number + 3)]
    fragment = {"base": source.choice([0, 0, 0, 1, 3]), "horizon": source.choice([0, 0, 1]),
                "streams": [(source.choice([0, 1, 3]), source.choice([0, 1, 3]), source.choice([(), (6, 8)]), source.choice([(), ((7, 9),)]))],
                "facts": [(1, it, born, (9, bytes([it])), None) for it in range(1, 4) for born in (4, 6)][:source.randint(0, 6)]}
    return source.choice([
        lambda: say.items(*frames, say.mark(1, source.randint(0, 9), 9)), lambda: say.items(*frames), say.front, say.full,
        lambda: say.delta(time_), lambda: say.ask(time_, say.get(1, key)), lambda: say.ask(time_, say.scan(1, 0, key)),
        lambda: say.ask(time_, say.by_tag(1, 9)), lambda: say.ask(time_, say.count(1)), lambda: say.join_this(**fragment),
        lambda: say.merge_this(**{**fragment, "base": 0}), lambda: say.prune(time_)])()


def random_later(source):
    """A request of version 2. What is added is mostly in order, and heads are such as parts of it may have."""
    key, time_, base = source.randint(1, 4), source.choice([0, 1, 2, 9, 2 ** 62]), source.choice([0, 0, 1, 3])
    facts = [(1, it, 4, (9, bytes([it])), source.choice([None, 5])) for it in range(source.randint(1, 3), 6)]
    head = {"base": base, "horizon": source.choice([0, base]), "streams": [(4, 4, source.choice([(), (6, 8)]), source.choice([(), ((7, 9),)]))],
            "count": source.choice([0, 1, len(facts)])}
    return source.choice([
        say.status, lambda: say.latest(say.get(1, key)), lambda: say.latest(say.scan(1, 0, key)), lambda: say.page(time_, 1, 0, key, source.randint(1, 3)),
        lambda: say.whole(base, source.choice([0, 50, 2 ** 32 - 1])), say.more, say.more, lambda: say.add(facts), lambda: say.add(facts[:1]),
        lambda: say.join_parts(**head), lambda: say.merge_parts(**{**head, "base": 0}), lambda: say.hold(time_), lambda: say.release(key),
        lambda: say.feed(say.new_entry(key, key, [(1, key, 9, b"")]), say.mark(1, key, time_))])()


def session_of(source, makes):
    return mutated_frames(source, [source.choice(makes)(source) for _ in range(source.randint(1, 12))])


def replies_to(node, data):
    """What is replied until the node ends the link; of version 2 by its kind, since none of that version ends a link."""
    with node.link() as link:
        link.send(data)
        link.half_close()
        found = []
        while (rest := link.rest()) is not None:
            reply = say.read_reply(rest)
            found.append(reply if rest[0] == 1 else ("version 2", rest[1]))
        return found


def end_of(found):
    """How a link ends whose replies are these."""
    faults = [it[1] for it in found if it[0] == "refused" and 1 <= it[1] <= 10 and it[1] != 2]
    faults += [it[1] for it in found[-1:] if it[0] == "refused" and it[1] == 2]
    return faults[-1] if faults else 0


def problems_of_node(datas, seed, words):
    """Sessions with one node, one after the other."""
    with Node(len(datas), words=words) as node:
        problems, wanted = [], []
        for number, data in enumerate(datas):
            try:
                found = replies_to(node, data)
            except (OSError, EOFError, ValueError) as error:
                return [f"session {number} of {seed}: {type(error).__name__} {error}; input {data.hex()}"]
            early = [it for it in found[:-1] if it[0] == "refused" and it[1] in (1, 3, 4, 5, 6, 7, 8, 9, 10)]
            if early or len(found) > len(data) // 6 + 1:
                problems.append(f"session {number} of {seed}: replies {found}; input {data.hex()}")
            wanted.append(end_of(found))
        ends, status, _ = node.ends()
        if ends != wanted or status not in (0, 1):
            problems.append(f"sessions of {seed}: ends {ends}, wanted {wanted}, status {status}")
        return problems


def sessions(cases, seed, makes=(random_request,), words=()):
    source = random.Random(f"{seed} sessions of {len(makes)}")
    datas = [session_of(source, makes) for _ in range(cases)]
    problems = []
    for at in range(0, cases, 64):
        problems += problems_of_node(datas[at:at + 64], f"seed {seed} from {at}", words)
    return problems + problems_of_memory()


def later_sessions(cases, seed):
    """The same with a node that reads version 2, of requests of both versions."""
    return sessions(cases, seed, (random_request, random_later, random_later), ("--messages", "2", "--parts-bytes", "2000"))


def random_later_reply(source):
    rows = b"\2\x43\1" + say.u32(2) + b"".join(say.u64(key) + say.u32(9) + say.u16(1) + b"x" for key in (5, 6))
    told = say.fields.fields_of_told(1, 3, 9, 2, [(3, 3, 0, 0), (0, 4, 1, 2)])
    facts = [(1, 5, 1, (9, b"a"), 3), (1, 6, 2, None, 4)]
    return source.choice([say.spelled(told), say.framed(rows), say.spelled(say.fields.fields_of_part(facts, 1)), say.framed(b"\2\x46" + say.u64(7)),
                          say.spelled(say.fields.fields_of_last_part(facts, streams=[(1, 1, (4,), ((5, 6),))])), say.spelled(say.fields.fields_of_held(1, 2)),
                          say.framed(b"\2\x42" + say.u64(3) + b"\3" + say.u64(7)), say.spelled(say.fields.fields_of_later_refused(46, 9)), say.spelled(say.fields.fields_of_fed(2, 1))])


def random_reply(source):
    fragment = say.message(34, say.fields_of_fragment(streams=[(1, 1, (4,), ((5, 6),))], facts=[(1, 5, 1, (9, b"a"), 3), (1, 6, 2, None, 4)]))
    rows = b"\1\x23\2" + say.u32(2) + b"".join(say.u64(key) + say.u32(9) + say.u16(1) + b"x" for key in (5, 6))
    return source.choice([say.done(2), say.spelled(say.message(33, [("horizon", say.u64(1)), ("readable", say.u64(3))])), say.spelled(fragment),
                          say.framed(rows), say.framed(b"\1\x23\1\0"), say.framed(b"\1\x23\3" + say.u64(7)), say.refused(26, 3)])


def problem_of_push(source):
    """`push` of a few requests to a peer that replies mutated bytes and ends the link."""
    make, asked = source.choice([(random_reply, say.front()), (random_later_reply, say.status())])
    answer = mutated_frames(source, [make(source) for _ in range(3)])
    request = mutated_frames(source, [asked] * 3)
    with socket.create_server(("127.0.0.1", 0)) as listener:
        listener.settimeout(LIMIT)
        words = [PROGRAM, "push", "--port", str(listener.getsockname()[1])]
        with subprocess.Popen(words, stdin=subprocess.PIPE, stdout=subprocess.PIPE, stderr=subprocess.DEVNULL) as child:
            child.stdin.write(request)
            child.stdin.close()
            link, _ = listener.accept()
            with link:
                # `push` may end the link before all of it was sent
                with contextlib.suppress(OSError):
                    link.sendall(answer)
                    link.shutdown(socket.SHUT_WR)
                out = child.stdout.read().decode()
            status = child.wait(LIMIT)
    refused = [line for line in out.splitlines() if line.startswith("refused")]
    is_right = status == (1 if refused else 0) and (not out or out.endswith("\n"))
    return None if is_right else f"status {status}, printed {out!r}, replies {answer.hex()}, requests {request.hex()}"


def pushes(cases, seed):
    for number in range(cases):
        problem = problem_of_push(random.Random(f"{seed} push {number}"))
        if problem:
            return [f"case {number} of seed {seed}: {problem}"]
    return problems_of_memory()


KINDS = {
    "items": lambda cases, seed: runs("items", of_items, cases, seed),
    "at": lambda cases, seed: runs("at", of_at, cases, seed),
    "world": lambda cases, seed: runs("world", of_world, cases, seed),
    "lines": lambda cases, seed: runs("lines", of_lines, cases, seed),
    "sessions": sessions,
    "later": later_sessions,
    "push": pushes,
}


def guarded(kind, cases, seed):
    try:
        return KINDS[kind](cases, seed)
    except Exception as error:  # pylint: disable=broad-except
        return [f"{type(error).__name__}: {error} ({traceback.extract_tb(error.__traceback__)[-1]})"]


def main(words):
    if any(not (it.isascii() and it.isdigit()) for it in words[:2]) or any(it not in KINDS for it in words[2:]):
        print(f"usage: tests/checks/fuzz.py [CASES [SEED [KIND ..]]], a KIND being one of {', '.join(KINDS)}", file=sys.stderr)
        return 2
    cases, seed = int((words + ["500"])[0]), int((words[1:] + ["1"])[0])
    kinds, start, failed = words[2:] or list(KINDS), time.monotonic(), 0
    # a kind is cut into parts, each in a process, so that all processors have work
    parts = [(kind, cases // 4 + 1, f"{seed}.{part}") for kind in kinds for part in range(4)]
    with concurrent.futures.ProcessPoolExecutor(max_workers=os.cpu_count()) as pool:
        found = list(pool.map(guarded, *zip(*parts)))
    for kind in kinds:
        problems = [it for (of, _, _), problems in zip(parts, found) for it in problems if of == kind]
        failed += 1 if problems else 0
        print(f"FAILED fuzz {kind}" if problems else f"ok {cases} mutated inputs of seed {seed} ({kind})", *problems[:3], sep="\n  ")
    print(f"fuzz: {time.monotonic() - start:.1f} s")
    print(f"{len(kinds) - failed} passed, {failed} failed")
    return 1 if failed else 0


if __name__ == "__main__":
    sys.exit(main(sys.argv[1:]))
