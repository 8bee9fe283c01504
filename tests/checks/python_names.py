"""Checks of the Python package's clocks (clients/python/vadungsil/writer.py) and names for keys (names.py), which tests/checks/python_client.py runs.
Standard library only."""
import asyncio
import datetime
import pathlib
import sys
import time

sys.path.append(str(pathlib.Path(__file__).resolve().parents[1] / "lib"))
from checks import differ, report
from client import Node as Served
from packaged import refusal_of, va
from vadungsil.postgres import key_of

LAST = va.LAST_TIME


class Clock:
    """A clock that stands where it was set, and counts how often it was asked."""

    def __init__(self, now=0):
        self.now, self.asked = now, 0

    def __call__(self):
        self.asked += 1
        return self.now


def raised(kind, call):
    """What of this kind a call raises, or None."""
    try:
        call()
    except kind as error:
        return error
    return None


def state(writer):
    return dict(vars(writer), _born=dict(writer._born), _numbers=list(writer._numbers), _retired=list(writer._retired))


# ---------------------------------------------------------------- times of a clock

def clock_times():
    """A commit takes the clock's time, or one above the last where the clock stands still or fell."""
    clock, put = Clock(), [(1, 5, 9, b"A")]
    writer = va.LogWriter(7, 1, clock=clock)
    times = []
    for clock.now in (100, 100, 50, 103, 200, 0):
        times.append(writer.commit(put).time)
    problems = differ([("it rises, stands, falls, is caught up with", times, [100, 101, 102, 103, 200, 201])])
    problems += differ([("time= overrides", writer.commit(put, time=300).time, 300), ("and stands", refusal_of(lambda: writer.commit(put, time=300)), 6),
                        ("and falls", refusal_of(lambda: writer.commit(put, time=299)), 6), ("behind it", writer.commit(put).time, 301)])
    asked = clock.asked
    problems += differ([("nothing written", writer.commit(), None), ("refused before", refusal_of(lambda: writer.commit([], [(1, 6)])), 31),
                        ("not asked for these, nor for time=", (clock.asked, asked), (7, 7))])
    with writer.transaction() as it:
        it.put(1, 6, 9)
        clock.now = 400
    problems += differ([("a transaction takes the time of its end", it.entry.time, 400)])
    before = time.time_ns() // 1000
    real = va.LogWriter(7, 1, clock=True)
    now, again = real.commit(put).time, real.commit(put).time
    problems += differ([("microseconds since 1970", before <= now < again <= time.time_ns() // 1000 + 1, True)])
    for name, made in (("without", va.LogWriter(7, 1)), ("False", va.LogWriter(7, 1, clock=False))):
        problems += differ([(name, [made.commit(put).time, made.commit(put, time=9).time, made.commit(put).time], [1, 9, 10])])
    report("a clock's times never fall", problems)


def clocks_refused():
    """What is no clock, and what no clock may say; writers that go on with one."""
    clock, put, problems = Clock(5), [(1, 5, 9, b"A")], []
    writer = va.LogWriter(7, 1, clock=clock)
    writer.commit(put)
    before = state(writer)
    for clock.now, number in ((LAST + 1, 6), (-1, 6)):
        problems += differ([(f"a clock at {clock.now}", refusal_of(lambda: writer.commit(put)), number), ("which is named", "of the clock" in str(raised(va.Fault, lambda: writer.commit(put))), True),
                            (f"a beat at {clock.now}", refusal_of(lambda: writer.beat(1, 1)), number)])
    clock.now = 7.0
    problems += differ([("a float", "microseconds" in str(raised(TypeError, lambda: writer.commit(put))), True), ("nothing changed", state(writer), before)])
    clock.now = LAST
    problems += differ([("the last time of all", writer.commit(put).time, LAST), ("and no more", refusal_of(lambda: writer.commit(put)), 35), ("nor a beat", refusal_of(lambda: writer.beat(1, 1)), 35)])
    for bad in (3, None, "now"):
        problems += differ([(f"clock={bad!r}", type(bad).__name__ in str(raised(TypeError, lambda: va.LogWriter(7, 1, clock=bad))), True)])
    whole = va.Fragment(7, 0, 0, (va.Stream(2, 90),), (va.Fact(va.VersionKey(1, 5, 80), va.Row(9, b"")),))
    clock.now = 50
    for name, made, first, second in (("resumed", va.LogWriter.resume(whole, clock=clock), 91, 200), ("resumed without", va.LogWriter.resume(whole), 91, 92),
                                      ("behind", va.LogWriter.behind(7, [2], 90, {}, clock=clock), 91, 200), ("behind without", va.LogWriter.behind(7, [2], 90, {}), 91, 92)):
        clock.now = 50
        told = made.commit(put).time
        clock.now = 200
        problems += differ([(name, (told, made.commit(put).time), (first, second))])
    for name, call in (("resume", lambda: va.LogWriter.resume(whole, clock=3)), ("behind", lambda: va.LogWriter.behind(7, [2], 90, {}, clock=3))):
        problems += differ([(f"{name} with what is no clock", raised(TypeError, call) is None, False)])
    report("what is no clock is refused, and a log is gone on with by one", problems)


def beats():
    """A beat moves the resolved time of a node of two streams up to itself, and no further."""
    clock, problems, Mark, row = Clock(100), [], va.Mark, lambda at: (3, 4, 8, str(at).encode())
    writer = va.LogWriter(7, 2, clock=clock)
    with Served(2, streams=2) as served, va.Node(served.port) as node:
        node.items([writer.commit([(1, 5, 9, b"A")], stream=2), writer.mark(2)])
        problems += differ([("stream 1 holds it back", node.front().readable, 0)])
        clock.now = 200
        told = writer.beat(3, 4, 8)
        problems += differ([("a beat", told, [va.Entry.of(7, 1, 1, 200, [], [row(200)]), Mark(7, 1, 1, 200), Mark(7, 2, 1, 200)])])
        node.items(told)
        problems += differ([("moves it", node.front().readable, 200), ("its row", node.get(3, 4), va.Row(8, b"200")), ("and the other", node.get(1, 5, at=199), va.Row(9, b"A"))])
        told = writer.beat(3, 4, 8, stream=2)
        problems += differ([("a clock that stands", told, [va.Entry.of(7, 2, 2, 201, [(3, 4, 200)], [row(201)]), Mark(7, 1, 1, 201), Mark(7, 2, 2, 201)])])
        node.items(told)
        clock.now, retired = 300, writer.retire(1)
        told = writer.beat(3, 4, 8)
        problems += differ([("by the first that isn't retired", told, [va.Entry.of(7, 2, 3, 300, [(3, 4, 201)], [row(300)]), Mark(7, 2, 3, 300)])])
        node.items([retired, *told])
        problems += differ([("at last", (node.front().readable, node.get(3, 4).body, node.get(3, 4, at=299).body), (300, b"300", b"201"))])
    before = state(writer)
    for name, call, number in (("no such stream", lambda: writer.beat(3, 4, stream=3), 34), ("a retired one", lambda: writer.beat(3, 4, stream=1), 36), ("a table", lambda: writer.beat(2 ** 16, 4), 6),
                               ("a key", lambda: writer.beat(3, -1), 6), ("a tag", lambda: writer.beat(3, 4, 2 ** 32), 6)):
        problems += differ([(name, refusal_of(call), number)])
    problems += differ([("nothing changed", state(writer), before)])
    writer.retire(2)
    plain = va.LogWriter(7, 1)
    problems += differ([("all are retired", refusal_of(lambda: writer.beat(3, 4)), 36),
                        ("without a clock", plain.beat(3, 4), [va.Entry.of(7, 1, 1, 1, [], [(3, 4, 0, b"1")]), Mark(7, 1, 1, 1)])])
    report("a beat moves the resolved time, and no mark is above it", problems)


def asked_by_the_clock():
    """A log of clock times is asked at a time between two commits."""
    clock, problems = Clock(), []
    writer, day = va.LogWriter(7, 1, clock=clock), datetime.datetime(2026, 11, 26, tzinfo=datetime.timezone(datetime.timedelta(hours=1)))
    at = lambda hour, minute: int((day + datetime.timedelta(hours=hour, minutes=minute)).timestamp() * 1e6)
    problems += differ([("14:00 an hour east", at(14, 0), 1_795_698_000_000_000)])
    with Served(1) as served, va.Node(served.port) as node:
        for hour, minute, body in ((13, 59, b"before"), (14, 1, b"after")):
            clock.now = at(hour, minute)
            node.items([writer.commit([(1, 5, 9, body)]), *writer.marks()])
        problems += differ([(f"{hour}:{minute}", node.get(1, 5, at=at(hour, minute)), row) for hour, minute, row in (
            (13, 58, None), (13, 59, va.Row(9, b"before")), (14, 0, va.Row(9, b"before")), (14, 1, va.Row(9, b"after")))])
        problems += differ([("before the next commit", refusal_of(lambda: node.get(1, 5, at=at(14, 2))), 26)])
        clock.now = at(14, 3)
        node.items(writer.beat(2, 1))
        problems += differ([("and behind a beat", node.get(1, 5, at=at(14, 2)), va.Row(9, b"after"))])
    report("a log of a clock's times answers at a time of day", problems)


# ---------------------------------------------------------------- names

# the first 16 digits that `printf '%s' ada | b2sum -l 128` prints
HASHES = {"ada": 0xc6ef43c47f8c2362, "": 0xcae66941d9efbd40, "Zoë": 0x0e8501d04522bf3b, "a" * 4096: 0x74520bf2be15c6f2}

# the keys of before, as `b2sum -l 64` prints them
BEFORE = {"ada": 0x15b0da4321160527, "Zoë": 0x789fb70695ef899a}


class ByLength(va.Names):
    """Names whose hash is their length."""

    @staticmethod
    def key(text):
        return len(text)


def put(text, key=None):
    return va.Put(3, HASHES[text] if key is None else key, va.Row(0, text.encode()))


def names_read_back():
    """Names are written once, beside rows of a transaction, and read back."""
    problems, names, writer = differ([(f"the key of {text[:9]!r}", va.Names.key(text), key) for text, key in HASHES.items()]), va.Names(3), va.LogWriter(7, 1)
    with Served(4, words=("--messages", "2")) as served, va.Node(served.port) as node, va.Nodes([served.port]) as nodes:
        puts = names.puts(["ada", "", "ada"], writer)
        problems += differ([("each once", puts, [put("ada"), put("")]), ("of a transaction that was dropped", names.puts(["ada", ""], writer), puts)])
        node.items([writer.commit([*puts, (1, names.key("ada"), 9, b"A")]), *writer.marks()])
        problems += differ([("both are there", names.puts(["", "ada"], writer), [])])
        with writer.transaction() as it:
            it.put(1, names.key("Zoë"), 9)
            it.puts += names.puts(["Zoë", "ada"], it)
            it.puts += names.puts(["Zoë", "a" * 4096], it)
        node.items([it.entry, *writer.marks()])
        problems += differ([("in a transaction", [row for row in it.entry.rows if row.table == 3], sorted([put("Zoë"), put("a" * 4096)]))])
        problems += differ([(f"{text[:9]!r} by {name}", names.text(of, key), text) for text, key in HASHES.items() for name, of in (("a node", node), ("nodes", nodes), ("a moment", node.at(2)))])
        problems += differ([("a row of the log by its name", [names.text(node, key) for key, _ in node.range(1)], ["Zoë", "ada"]), ("no name", names.text(node, 5), None),
                            ("not yet then", names.text(node, HASHES["Zoë"], at=1), None), ("then", names.text(node.at(1), HASHES["ada"], at=1), "ada"),
                            ("not at this moment", "time 1" in str(raised(ValueError, lambda: names.text(node.at(1), 5, at=2))), True),
                            ("too new", refusal_of(lambda: names.text(node, 5, at=3)), 26), ("a key", refusal_of(lambda: names.text(node, -1)), 6)])
        writer.commit([], [(3, HASHES["ada"])])
        problems += differ([("removed, and put anew", names.puts(["ada"], writer), [put("ada")]), ("without a node", names.text_of(5, None), None)])

        async def read():
            async with va.AsyncNode(served.port) as other:
                return names.text_of(HASHES["Zoë"], await other.get(3, HASHES["Zoë"]))
        problems += differ([("by an asyncio node", asyncio.run(read()), "Zoë")])
    report("names are written once and read back", problems)


def names_loaded():
    """Who goes on with a log loads its names first; before, a row that stands there is told."""
    problems, names, first = [], va.Names(3), va.LogWriter(7, 1)
    with Served(3, words=("--messages", "2")) as served, va.Node(served.port) as node:
        node.items([first.commit(names.puts(["ada"], first)), first.commit(names.puts(["", "Zoë"], first)), *first.marks()])
        writer, again = va.LogWriter.resume(node.whole()), va.Names(3)
        error = raised(va.NotAName, lambda: again.puts(["a" * 4096, "ada"], writer))
        problems += differ([("not loaded", error and (error.table, error.key, "load" in str(error)), (3, HASHES["ada"], True))])
        problems += differ([("of an early time", again.load(node, at=1), 1), ("known", again.puts(["ada", "ada"], writer), []),
                            ("not known", raised(va.NotAName, lambda: again.puts(["Zoë"], writer)) is None, False)])
        problems += differ([("all", again.load(node), 3), ("at a moment", again.load(node.at(2)), 3), ("page by page", va.Names(3).learn(node.rows(3, most=1)), 3),
                            ("of another table", va.Names(4).load(node), 0), ("not at this moment", raised(ValueError, lambda: again.load(node.at(2), at=1)) is None, False)])
        problems += differ([("the one that lacks", again.puts(["", "Zoë", "a" * 4096, "ada"], writer), [put("a" * 4096)])])
    report("names of a log are loaded from a node", problems)


def names_of_before():
    """Names that stand under the keys of before are read, and a captured text has the key of a name."""
    problems, names, writer = differ([(f"the key of {text}", va.Names.key_before(text), key) for text, key in BEFORE.items()]), va.Names(3), va.LogWriter(7, 1)
    with Served(2, words=("--messages", "2")) as served, va.Node(served.port) as node:
        node.items([writer.commit([put(text, key) for text, key in BEFORE.items()]), *writer.marks()])
        problems += differ([("read", [names.text(node, key) for key in BEFORE.values()], list(BEFORE)), ("loaded", names.load(node), 2),
                            ("under the key of now it isn't there", names.text(node, HASHES["ada"]), None), ("so it is put", names.puts(["ada"], writer), [put("ada")])])
        node.items([writer.commit(names.puts(["ada"], writer)), *writer.marks()])
        problems += differ([("both are read", [names.text(node, key) for key in (BEFORE["ada"], HASHES["ada"])], ["ada", "ada"]), ("and loaded", va.Names(3).load(node), 3)])
    problems += differ([("a captured text", key_of("ada"), HASHES["ada"])])
    report("names of before are read, and a captured text has the key of a name", problems)


def names_that_collide():
    """Two texts of one key, by a hash that is the length."""
    problems, names, writer = [], ByLength(3), va.LogWriter(7, 1)
    told = lambda call: (lambda error: error and (error.key, error.texts, [text for text in ("one", "two") if repr(text) in str(error)]))(raised(va.NameCollision, call))
    wanted = (3, ("one", "two"), ["one", "two"])
    problems += differ([("in one call", told(lambda: names.puts(["four", "one", "two"], writer)), wanted), ("which keeps nothing", names.puts(["two"], writer), [put("two", 3)])])
    names = ByLength(3)
    with Served(1) as served, va.Node(served.port) as node:
        node.items([writer.commit(names.puts(["one"], writer)), *writer.marks()])
        problems += differ([("what was put", told(lambda: names.puts(["seven", "two"], writer)), wanted), ("others pass", names.puts(["seven", "one"], writer), [put("seven", 5)])])
        loaded, other = ByLength(3), ByLength(3)
        loaded.load(node)
        other.puts(["two"], va.LogWriter(7, 1))
        problems += differ([("what a node has", told(lambda: loaded.puts(["two"], writer)), wanted), ("and a node's row", told(lambda: other.load(node)), (3, ("two", "one"), ["one", "two"])),
                            ("the name is as it was", names.text(node, 3), "one")])
    report("two texts of one key are told, and the second isn't put", problems)


def rows_that_are_no_names():
    """Foreign rows in the table of names, and texts that no name can be."""
    problems, names, writer = [], va.Names(3), va.LogWriter(7, 1)
    with Served(1) as served, va.Node(served.port) as node:
        node.items([writer.commit([put("ada")._replace(row=va.Row(8, b"ada")), (3, 5, 0, b"ada"), (3, 6, 0, b"\xff")]), *writer.marks()])
        for key, words in ((5, ("'ada'", str(HASHES["ada"]))), (6, ("UTF-8",))):
            for name, call in (("text", lambda: names.text(node, key)), ("learn", lambda: names.learn([*node.range(3, HASHES["ada"]), *node.range(3, key, key)]))):
                error = raised(va.NotAName, call)
                problems += differ([(f"{name} of {key}", error and (error.table, error.key, [it for it in words if it not in str(error)]), (3, key, []))])
        problems += differ([("a load", raised(va.NotAName, lambda: names.load(node)) is None, False), ("keeps nothing", raised(va.NotAName, lambda: names.puts(["ada"], writer)) is None, False),
                            ("whatever its tag is", names.text(node, HASHES["ada"]), "ada"), ("it is learnt alone", names.learn(node.range(3, HASHES["ada"])), 1), ("and known", names.puts(["ada"], writer), [])])
    for name, text, number in (("4,097 bytes", "a" * 4097, 9), ("4,098 of 2,049 letters", "ë" * 2049, 9)):
        problems += differ([(name, (refusal_of(lambda: names.key(text)), refusal_of(lambda: names.puts([text], writer))), (number, number))])
    problems += differ([(name, raised(kind, call) is None, False) for name, kind, call in (
        ("a number", TypeError, lambda: names.key(5)), ("bytes", TypeError, lambda: names.puts([b"ada"], writer)), ("one text", TypeError, lambda: names.puts("ada", writer)),
        ("half a pair", ValueError, lambda: names.key("\ud800")))] + [("a table", refusal_of(lambda: va.Names(2 ** 16)), 6)])
    report("rows that are no names, and texts that none can be, are told", problems)


CHECKS = (clock_times, clocks_refused, beats, asked_by_the_clock, names_read_back, names_loaded, names_of_before, names_that_collide, rows_that_are_no_names)
