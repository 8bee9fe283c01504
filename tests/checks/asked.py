#!/usr/bin/env python3
"""Checks of what a person asks: items as JSON and back, JSON of answers, and the commands with --port and --node, of nodes on 127.0.0.1
and 127.0.0.2.
The lines of JSON are made here, from items that this script makes up. Each node that is started is ended.

Prints a line for each check and ends with 'N passed, M failed'. Standard library only."""
import json
import os
import pathlib
import pty
import random
import re
import socket
import subprocess
import sys
import tempfile
import threading
import time

sys.path.append(str(pathlib.Path(__file__).resolve().parents[1] / "lib"))
import messages as say
from checks import differ, ended, is_built, report
from client import Node, free_port, guarded
from messages import NEW_E1
from packaged import va
from staying import Staying
from telling import METRICS, TABLES, Telling

ROOT = pathlib.Path(__file__).resolve().parents[2]
PROGRAM = ROOT / "bin" / "hkrep"
LIMIT = 60
EMPTY = "stopped: the input is empty; give it by '< FILE', or behind a command and '|'\n"
FIRST = (ROOT / "examples" / "first.bin").read_bytes()


def run(*words, data=b"", **more):
    """What a command printed, its status, and what it told."""
    more.setdefault("stdout", subprocess.PIPE)
    it = subprocess.run([PROGRAM, *map(str, words)], input=data, stderr=subprocess.PIPE, timeout=LIMIT, check=False, **more)
    return it.stdout, it.returncode, it.stderr.decode()


def nobody_at(place):
    """What is told where nobody listens at a place."""
    return f"refused 93: can't connect to {place}: nobody listens there; 'hkrep node' starts a node, and --node or HKREP_NODE names another\n"


def line_of(it):
    """A line of JSON as docs/FORMATS.md has it."""
    return json.dumps(it, separators=(",", ":")) + "\n"


def entry_line(number, stamp, rows=(), ends=(), stream=1, log=7):
    return line_of({"commit": {
        "log": str(log), "stream": stream, "number": str(number), "time": str(stamp),
        "ends": [{"table": table, "key": str(key), "born": str(born)} for table, key, born in ends],
        "rows": [{"table": table, "key": str(key), "tag": tag, "body": body.hex()} for table, key, tag, body in rows]}})


def mark_line(stream, n, m, log=7):
    return line_of({"mark": {"log": str(log), "stream": stream, "n": str(n), "m": str(m)}})


def made_up(source):
    """The frame of an item in version 2, and its line."""
    stream, log, number = source.randint(1, 64), source.choice([0, 7, 2 ** 53 + 1, 2 ** 64 - 1]), source.randint(1, 9)
    stamp = source.choice([9, 2 ** 53 + 1, 2 ** 62])
    if source.random() < 0.3:
        return say.mark(stream, number, stamp, log=log, version=2), mark_line(stream, number, stamp, log)
    places = sorted({(source.randint(0, 3), source.choice([0, 1, 5, 2 ** 53 + 1, 2 ** 64 - 1])) for _ in range(source.randint(1, 6))})
    rows = [(table, key, source.choice([0, 9, 2 ** 32 - 1]), source.randbytes(source.choice([0, 1, 40, 4096]))) for table, key in places]
    ends = [(table, key, source.randint(1, 8)) for table, key in places if source.random() < 0.5]
    return say.new_entry(number, stamp, rows, ends, stream=stream, log=log), entry_line(number, stamp, rows, ends, stream, log)


def there_and_back():
    source = random.Random(40)
    made = [made_up(source) for _ in range(300)]
    frames, lines = b"".join(frame for frame, _ in made), "".join(line for _, line in made).encode()
    pairs = [("items --json", run("items", "--json", data=frames), (lines, 0, "")), ("frames", run("frames", data=lines), (frames, 0, "")),
             ("version 1", run("items", "--json", data=FIRST)[0].decode(), entry_line(1, 1, [(1, 5, 9, b"A")]) + mark_line(1, 1, 1)),
             ("no items", run("items", "--json"), (b"", 0, "")), ("no lines", run("frames"), (b"", 1, EMPTY)), ("empty lines alone", run("frames", data=b"\n\n"), (b"", 1, EMPTY)),
             ("capital digits", run("frames", data=entry_line(1, 1, [(1, 5, 9, b"JZ")]).replace("4a5a", "4A5A").encode()), (say.new_entry(1, 1, [(1, 5, 9, b"JZ")]), 0, "")),
             ("empty lines, and a last one without its end", run("frames", data=b"\n\n" + lines[:-1]), (frames, 0, "")),
             ("spaces, and keys in another order", run("frames", data=b' { "mark" : {"m":"1", "n":"1", "stream":1, "log":"\\u0037"} } ')[0],
              say.mark(1, 1, 1, version=2))]
    cut = run("items", "--json", data=FIRST[:60])
    pairs += [("a cut frame", (cut[0].decode(), cut[1], "refused 1: " in cut[2]), (entry_line(1, 1, [(1, 5, 9, b"A")]) + '{"refused":1}\n', 1, True))]
    report("items in JSON and back, byte for byte", differ(pairs))


GOOD = mark_line(1, 1, 1).rstrip()
GOOD_ENTRY = entry_line(1, 1, [(1, 5, 9, b"A")]).rstrip()

# A line, and what is told of it; a column where it is certain.
BAD_LINES = (
    ("nothing of an object", "7", ""), ("no JSON", "{mark}", ""), ("cut", GOOD[:-1], ""), ("more behind it", GOOD + "7", ""), ("another kind", '{"marks":{}}', "unknown variant"),
    ("a field is missing", GOOD.replace('"n":"1",', ""), "missing field `n`"), ("a field more", GOOD.replace('"n"', '"x":1,"n"'), "unknown field"),
    ("a field twice", GOOD.replace('"n":"1"', '"n":"1","n":"1"'), "duplicate field `n`"),
    ("a number for a string", GOOD.replace('"n":"1"', '"n":1'), "invalid type"), ("a string for a number", GOOD.replace('"stream":1', '"stream":"1"'), "invalid type"),
    ("no digits", GOOD.replace('"n":"1"', '"n":"1x"'), "no string of a 64-bit number"), ("a sign", GOOD.replace('"n":"1"', '"n":"-1"'), "no string of a 64-bit number"),
    ("no number", GOOD.replace('"n":"1"', '"n":""'), "no string of a 64-bit number"), ("65 bits", GOOD.replace('"n":"1"', f'"n":"{2 ** 64}"'), "no string of a 64-bit number"),
    ("a time above the last", GOOD.replace('"m":"1"', f'"m":"{2 ** 62 + 1}"'), "a time is at most 2^62"), ("stream 0", GOOD.replace('"stream":1', '"stream":0'), "a stream is 1 to 64"),
    ("stream 65", GOOD.replace('"stream":1', '"stream":65'), "a stream is 1 to 64"), ("a broken rule", GOOD.replace('"n":"1"', '"n":"2"'), "no item: "),
    ("a table above the last", GOOD_ENTRY.replace('"table":1', '"table":65536'), ""), ("an odd body", GOOD_ENTRY.replace('"41"', '"4"'), "no pairs of 0 to 9 and a to f"),
    ("a letter behind f", GOOD_ENTRY.replace('"41"', '"4G"'), "no pairs of 0 to 9 and a to f"), ("a long body", GOOD_ENTRY.replace('"41"', '"' + "41" * 4097 + '"'), "no pairs"),
    ("an entry of nothing", entry_line(1, 1).rstrip(), "no item: "), ("rows that don't rise", entry_line(1, 1, [(1, 6, 9, b""), (1, 5, 9, b"")]).rstrip(), "no item: "),
    ("deep lists", "[" * 300, ""), ("no text", "\udcff", "its bytes are no text"))


def bad_lines():
    """A bad line is told with its number and column; the frames before it stand, nothing is written for it or behind it."""
    problems = []
    before = say.mark(1, 1, 1, version=2)
    for name, line, what in BAD_LINES:
        out, status, told = run("frames", data=f"{GOOD}\n\n{line}\n{GOOD}\n".encode("utf-8", "surrogateescape"))
        is_told = told.startswith("line 3, column ") and what in told and "; expected: {\"commit\":" in told and told.count("\n") == 1
        problems += differ([(name, (out, status, is_told or told), (before, 1, True))])
    report("a bad line of JSON is told with its number, column and what was expected", problems)
    column = run("frames", data=GOOD.replace('"n":"1"', '"n":"1x"').encode())[2]
    stands = GOOD.index('"n":"1"') + len('"n":') + 1
    report("the column is that of the value that is wrong", [] if f"line 1, column {stands}: " in column else [column])


def json_answers():
    words = ["--log", 7, "--streams", 1, "--json"]
    front = line_of({"front": {"horizon": "0", "readable": "1"}}).encode()
    stream = {"stream": 1, "prefix": "1", "extra": "0", "closed": "1", "waiting": "0", "standing": "open"}
    pairs = [
        ("get", run("ask", *words, 1, "get", 1, 5, data=FIRST), (line_of({"row": {"tag": 9, "body": "41"}}).encode(), 0, "")),
        ("none", run("ask", *words, 1, "get", 1, 6, data=FIRST), (b'{"row":null}\n', 0, "")),
        ("at", run("at", *words, 1, 1, 5, data=FIRST), (line_of({"row": {"tag": 9, "body": "41"}}).encode(), 0, "")),
        ("none at", run("at", *words, 1, 1, 6, data=FIRST), (b'{"row":null}\n', 0, "")),
        ("at too late", run("at", *words, 2, 1, 5, data=FIRST)[:2], (b'{"refused":26,"readable":"1"}\n', 1)),
        ("range", run("ask", *words, 1, "range", 1, 0, 9, data=FIRST), (line_of({"rows": [{"key": "5", "tag": 9, "body": "41"}]}).encode(), 0, "")),
        ("tag", run("ask", *words, 1, "tag", 1, 8, data=FIRST), (b'{"rows":[]}\n', 0, "")),
        ("count", run("ask", *words, 1, "count", 1, data=FIRST), (b'{"count":"1"}\n', 0, "")),
        ("front", run("front", *words, data=FIRST), (front, 0, "")),
        ("status", run("status", *words, data=FIRST)[:2], (line_of({"stream": 1, **stream}).encode() + front, 0))]
    refused = run("ask", *words, 2, "count", 1, data=FIRST)
    pairs += [("not yet", (refused[:2], "refused 26: time 2 is" in refused[2]), ((b'{"refused":26,"readable":"1"}\n', 1), True))]
    report("answers, fronts, streams and refusals in JSON", differ(pairs))


def over_a_link():
    """Each command over a link prints what it prints of the same items on standard input."""
    pairs = []
    rows = [(1, key, 9, bytes([key])) for key in range(9)]
    frames = say.new_entry(1, 1, rows, stream=1) + say.new_entry(1, 2, [(1, 3, 8, b"")], [(1, 3, 1)], stream=2) + say.mark(1, 1, 5, version=2) + say.mark(2, 1, 4, version=2)
    words = ["--log", 7, "--streams", 2]
    with Node(60, streams=2) as node, Node(60, streams=2) as other:
        to = ["--port", node.port]
        fed = run("feed", *to, "--batch", 2, data=frames)
        pairs += [("feed", fed[:2], (b"done 3\n", 0)), ("the rate is told", fed[2].startswith("fed 4 items in ") and fed[2].endswith(" a second\n"), True)]
        for query in (["get", 1, 5], ["range", 1, 0, 9], ["tag", 1, 8], ["count", 1]):
            for more in ([], ["--json"]):
                pairs += [(f"ask {query} {more}", run("ask", *to, *more, 4, *query), run("ask", *words, *more, 4, *query, data=frames)),
                          (f"at the readable mark {query}", run("ask", *to, *more, *query), run("ask", *words, *more, 4, *query, data=frames))]
        for more in ([], ["--json"]):
            pairs += [(f"{it} {more}", run(it, *to, *more), run(it, *words, *more, data=frames)) for it in ("front", "status")]
        pairs += [("not yet", run("ask", *to, 5, "count", 1)[:2], (b"refused 26 readable 4\n", 1)), ("prune", run("prune", *to, 2), (b"done 4\n", 0, "")),
                  ("too old", run("ask", *to, "--json", 1, "count", 1)[:2], (b'{"refused":25,"horizon":"2"}\n', 1)),
                  ("prune above the mark", run("prune", *to, 9)[:2], (b"refused 24 readable 4\n", 1))]
        whole = run("save", *to)
        pairs += [("save", whole[1:], (0, "")), ("load", run("load", "--port", other.port, data=whole[0]), (b"done 2\n", 0, "")),
                  ("the other node has it", run("status", "--port", other.port), run("status", *to)),
                  ("and saves the same", run("save", "--port", other.port), whole)]
        lines = [json.loads(line) for line in run("save", *to, "--json")[0].splitlines()]
        pairs += [("save --json", [next(iter(it)) for it in lines], ["fragment"] + ["fact"] * 9),
                  ("its head", lines[0]["fragment"]["streams"], [{"prefix": "1", "extra": [], "closed": "5", "waiting": []}, {"prefix": "1", "extra": [], "closed": "4", "waiting": []}]),
                  ("a version", lines[4], {"fact": {"table": 1, "key": "3", "born": "2", "row": {"tag": 8, "body": ""}, "died": None}}),
                  ("load of what is no fragment", run("load", "--port", other.port, data=say.front())[:2], (b"refused 4\n", 1))]
        more = say.new_entry(2, 6, [(2, 1, 1, b"x")], stream=1) + say.mark(1, 2, 7, version=2) + say.mark(2, 1, 7, version=2)
        pairs += [("feed on", run("feed", *to, data=more)[0], b"done 5\n"), ("pull", run("pull", "--port", other.port, "--from", node.port), (b"done 3\n", 0, "")),
                  ("what was pulled", run("ask", "--port", other.port, "get", 2, 1), (b"1 78\n", 0, "")),
                  ("a fault of the input", (lambda it: (it[0], it[1], "frame 2: refused 1: " in it[2]))(run("feed", *to, data=more[:70])), (b"refused 1\n", 1, True))]
        with Node(4, streams=2) as third:
            pairs += [("pull of the whole", run("pull", "--port", third.port, "--from", node.port), (b"done 2\n", 0, "")),
                      ("which tells the same", run("status", "--port", third.port), run("status", *to))]
    report("the commands over a link", differ(pairs))


def shell():
    """Lines of a person, of a node with rows of three keys: what is printed, and what is told."""
    frames = say.new_entry(1, 1, [(1, 5, 9, b"A"), (1, 70, 123456, b""), (2, 2 ** 64 - 1, 0, b"BC")]) + say.mark(1, 1, 4, version=2)
    table = "key     tag  body\n  5       9  A\n 70  123456  -\nrows 2\n"
    steps = (
        ("get 1 5", "9 41\n", ""), ("at 1 get 1 6", "none\n", ""), ("  range  1 0 99 ", table, ""), ("at 4 range 1 0 99", table, ""),
        ("range 1 0 99 --at 4", table, ""), ("get 1 5 --at 0", "none\n", ""), ("get 1 5 --at", "", "expected: "), ("get 1 5 --at 0 1", "", "expected: "),
        ("get 1 5 at 0", "", "expected: "), ("at 1 get 1 5 --at 1", "", "expected: "),
        ("range 2 0 18446744073709551615", "                 key  tag  body\n18446744073709551615    0  BC\nrows 1\n".replace("                 key", " " * 17 + "key"), ""),
        ("tag 1 8", "key  tag  body\nrows 0\n", ""), ("count 1", "count 2\n", ""), ("front", "front horizon 0 readable 4\n", ""), ("", "", ""),
        ("status", "stream 1 prefix 1 extra 0 closed 4 waiting 0 open\nfront horizon 0 readable 4\n", ""), ("at 5 count 1", "refused 26 readable 4\n", "refused 26: time 5 is"),
        ("at 0 count 1", "count 0\n", ""), ("bogus", "", "line 1: expected: "), ("get 1", "", "expected: "), ("get 1 5 6", "", "expected: "), ("at get 1 5", "", "expected: "),
        ("get 65536 5", "", "expected: "), ("get 1 -5", "", "expected: "), ("at 9999999999999999999 count 1", "", "expected: "), ("x" * 5000, "", "expected: "))
    pairs = []
    with Node(40) as node:
        run("feed", "--port", node.port, data=frames)
        for line, out, told in steps:
            got = run("shell", "--port", node.port, data=line.encode())
            pairs += [(line[:60], (got[0].decode(), got[1], told in got[2] and bool(told) == bool(got[2])), (out, 1 if told else 0, True))]
        for words in (b"count 1\nquit\ncount 1\n", b"count 1\nexit", b"count 1\n quit \nbogus\n"):
            pairs += [(f"{words}", run("shell", "--port", node.port, data=words), (b"count 2\n", 0, ""))]
        many = [step for step in steps if step[0] != "bogus"]
        got = run("shell", "--port", node.port, data="".join(f"{line}\n" for line, _, _ in many).encode())
        pairs += [("all of them", (got[0].decode(), got[1]), ("".join(out for _, out, _ in many), 1))]
        pairs += [("help", run("shell", "--port", node.port, data=b"help\n")[0].count(b"\n"), 6)]
    report("lines that a person asks", differ(pairs))


# A body, and how a table shows it by itself, with --hex and with --text.
BODIES = (
    (b"", "-", "-", "-"), (b"A b", "A b", "412062", "A b"), ("größe €".encode(), "größe €", "größe €".encode().hex(), "größe €"),
    (b"\xff\x00A", r"\xff0041", "ff0041", r"\xff\u{0}A"), (b"a\nb", r"\x610a62", "610a62", r"a\nb"), (b"\x1b[2J", r"\x1b5b324a", "1b5b324a", r"\u{1b}[2J"),
    ("a\u202eb".encode(), r"\x61e280ae62", "61e280ae62", r"a\u{202e}b"), ("\u200b".encode(), r"\xe2808b", "e2808b", r"\u{200b}"), ("\u2066".encode(), r"\xe281a6", "e281a6", r"\u{2066}"),
    ("\u2028".encode(), r"\xe280a8", "e280a8", r"\u{2028}"), (b"C:\\x", "C:\\x", "433a5c78", r"C:\\x"), (b"\x7f", r"\x7f", "7f", r"\u{7f}"))


def shown_bodies():
    """Tables show bodies as text where that is safe, else in digits, and always one or the other where it is asked for."""
    rows = [(1, key, 9, body) for key, (body, *_) in enumerate(BODIES)]
    pairs = []
    with Node(40) as node:
        run("feed", "--port", node.port, data=say.new_entry(1, 1, rows) + say.mark(1, 1, 1, version=2))
        for column, words in ((1, []), (2, ["--hex"]), (3, ["--text"])):
            lines = "".join(f"{key:3}    9  {row[column]}\n" for key, row in enumerate(BODIES))
            pairs += [(f"shell {words}", run("shell", "--port", node.port, *words, data=b"range 1 0 99\n")[0].decode(), f"key  tag  body\n{lines}rows {len(BODIES)}\n")]
        pairs += [("lines for programs are digits", run("ask", "--port", node.port, "range", 1, 1, 1)[0], b"1 9 412062\nrows 1\n"),
                  ("both", run("shell", "--port", node.port, "--hex", "--text")[1], 2)]
    report("bodies as text and as digits", differ(pairs))


def one_grammar():
    """A query has its time before it or behind it, of frames and of a node."""
    frames = say.new_entry(1, 1, [(1, 5, 9, b"A")]) + say.new_entry(2, 2, [(1, 5, 9, b"B")], [(1, 5, 1)]) + say.mark(1, 2, 2, version=2)
    words = ["--log", 7, "--streams", 1]
    pairs = []
    with Node(40) as node:
        run("feed", "--port", node.port, data=frames)
        for to, data in ((["--port", node.port], b""), (words, frames)):
            for time, row in ((1, b"9 41\n"), (2, b"9 42\n")):
                for asked in ([time, "get", 1, 5], ["get", 1, 5, "--at", time], ["--at", time, "get", 1, 5], ["get", "--at", time, 1, 5]):
                    pairs += [(f"{to} {asked}", run("ask", *to, *asked, data=data), (row, 0, ""))]
            for asked in ([1, "get", 1, 5, "--at", 2], ["--at", 1, "get", 1, 5, "--at", 2], [1, "--at", 1, "count", 1]):
                pairs += [(f"twice {asked}", (lambda it: (it[1], "the time is given twice" in it[2]))(run("ask", *to, *asked, data=data)), (2, True))]
            pairs += [("a range from high to low", (lambda it: (it[:2], "LOW is above HIGH" in it[2]))(run("ask", *to, 1, "range", 1, 9, 3, data=data)), ((b"", 2), True)),
                      ("of one key", run("ask", *to, 1, "range", 1, 5, 5, data=data)[0], b"5 9 41\nrows 1\n")]
        pairs += [("frames without a time", (lambda it: (it[:2], "the time is missing" in it[2]))(run("ask", *words, "get", 1, 5, data=frames)), ((b"", 2), True)),
                  ("behind a query a number above the last", run("ask", "--port", node.port, "get", 1, 5, "--at", 2 ** 62 + 1)[1], 2)]
    report("a question with its time before it and behind it", differ(pairs))


def begun(*words, stdin=subprocess.DEVNULL):
    """A command that was begun, by default with nothing on its input."""
    return subprocess.Popen([PROGRAM, *map(str, words)], stdin=stdin, stdout=subprocess.PIPE, stderr=subprocess.PIPE, text=True)


def connected_later():
    """A command that was begun before its node waits for it, for as long as it is told to; 3 seconds where it isn't told."""
    port = free_port()
    with open(ROOT / "examples" / "first.bin", "rb") as first:
        early = [begun("feed", "--port", port, "--connect-seconds", LIMIT, stdin=first), begun("front", "--port", port, "--connect-seconds", LIMIT)]
    time.sleep(0.5)
    pairs = [("they wait", [it.poll() for it in early], [None, None])]
    node = begun("serve", "--log", 7, "--streams", 1, "--port", port, "--links", 2)
    pairs += [("a node that came later", [re.sub("readable [01]", "readable N", it.communicate(timeout=LIMIT)[0]) for it in (*early, node)],
               ["done 2\n", "front horizon 0 readable N\n", f"listening {port}\nended 0\nended 0\n"])]
    start = time.monotonic()
    out, status, _ = run("front", "--port", free_port())
    pairs += [("nobody comes", (out, status, time.monotonic() - start > 2.9), (b"refused 93\n", 1, True))]
    report("a command waits for its node", differ(pairs))


def silent_nodes():
    """A node that takes a link and says nothing: a command ends after as many seconds as it is told."""
    pairs = []
    with socket.create_server(("127.0.0.1", 0)) as silent:
        port = silent.getsockname()[1]
        for words, sent in ((["front"], b""), (["status"], b""), (["ask", "get", 1, 5], b""), (["save"], b""), (["prune", 1], b""), (["shell"], b"front\n"),
                            (["feed"], FIRST), (["push"], say.front()), (["load"], say.merge_this()), (["pull", "--from", port], b"")):
            out, status, told = run(words[0], "--port", port, "--reply-seconds", 1, *words[1:], data=sent)
            wanted = b"" if words == ["save"] else b"refused 91\n"
            pairs += [(f"a silent node and {words[0]}", (out, status, told.startswith(f"request 1: refused 91: 127.0.0.1:{port} listens, and sent no reply for 1 s; ")), (wanted, 1, True))]
    helped = {command: run("help", command)[0].decode() for command in ("front", "status", "ask", "push", "load", "feed", "pull", "save", "prune", "shell")}
    pairs += [(f"how long {command} waits", "30 where it isn't given" in text, command in ("front", "status", "ask")) for command, text in helped.items()]
    report("a node that replies nothing", differ(pairs))


def dropped():
    """An address that takes no further connection and says nothing is waited for as long as a command tries to connect, in each command."""
    pairs = []
    with Node(2) as node, socket.socket() as full, socket.socket() as first:
        full.bind(("127.0.0.1", 0))
        full.listen(0)
        port = full.getsockname()[1]
        first.connect(("127.0.0.1", port))
        # room for one connection that isn't accepted: the system drops what comes now
        for words in (["front", "--port", port], ["feed", "--node", f"localhost:{port}"], ["pull", "--port", node.port, "--from", port]):
            start = time.monotonic()
            out, status, told = run(*words, "--connect-seconds", 1, data=FIRST)
            took = time.monotonic() - start
            pairs += [(" ".join(map(str, words[:1])), (out, status, told.startswith("refused 93: can't connect to ")), (b"refused 93\n", 1, True)), ("within its time", 0.9 < took < 6, True)]
    report("an address that drops what comes", differ(pairs))


def told_apart():
    """A link that can't be opened, one that is cut, and input that is cut are told apart."""
    pairs, nobody = [], free_port()
    for words in (["front"], ["status"], ["ask", "get", 1, 5], ["save"], ["load"], ["feed"], ["push"], ["shell"]):
        out, status, told = run(words[0], "--port", nobody, "--connect-seconds", 0, *words[1:])
        wanted = b"" if words == ["save"] else b"refused 93\n"
        pairs += [(f"nobody listens to {words}", (out, status, told), (wanted, 1, nobody_at(f"127.0.0.1:{nobody}")))]
    with socket.create_server(("127.0.0.1", 0)) as taken:
        told = run("serve", *["--log", 7, "--streams", 1, "--links", 1, "--port", taken.getsockname()[1]])[2]
        pairs += [("a port in use", (f"refused 93: can't listen on port {taken.getsockname()[1]}: " in told, "; see that no other program has the port\n" in told), (True, True))]
    with Node(1) as node:
        out, status, told = run("push", "--port", node.port, data=say.front() + say.front()[:3])
        pairs += [("the input is cut", (out, status, told.startswith("request 2: refused 1: the input ends")), (b"front horizon 0 readable 0\nrefused 1\n", 1, True))]
    with socket.create_server(("127.0.0.1", 0)) as peer:
        child = subprocess.Popen([PROGRAM, "push", "--port", str(peer.getsockname()[1])], stdin=subprocess.PIPE, stdout=subprocess.PIPE, stderr=subprocess.PIPE)
        child.stdin.write(say.front())
        child.stdin.close()
        link, _ = peer.accept()
        with link:
            link.recv(100)
            link.shutdown(socket.SHUT_WR)
            told = child.stderr.read().decode()
        pairs += [("the link is cut", (child.stdout.read(), child.wait(LIMIT), told.startswith("request 1: refused 1: the connection was cut")), (b"refused 1\n", 1, True))]
        child.stdout.close()
        child.stderr.close()
    report("a link that can't be opened, one that is cut, and cut input", differ(pairs))


def addressed():
    """A node that is named by an address, and names and words that are none."""
    pairs, nobody = [], free_port()
    with Staying(4, "--address", "127.0.0.2", address="127.0.0.2") as node:
        there = f"127.0.0.2:{node.port}"
        pairs += [("feed", run("feed", "--node", there, data=FIRST)[:2], (b"done 2\n", 0))]
        for words, wanted in ((["front"], b"front horizon 0 readable 1\n"), (["ask", "get", 1, 5], b"9 41\n"), (["ask", 1, "get", 1, 5], b"9 41\n")):
            pairs += [(f"{words}", run(words[0], "--node", there, "--reply-seconds", 5, *words[1:])[:2], (wanted, 0))]
        pairs += [("another address", run("front", "--port", node.port, "--connect-seconds", 0)[:2], (b"refused 93\n", 1))]
    with Staying(4) as node:
        pairs += [("a name", run("front", "--node", f"localhost:{node.port}")[:2], (b"front horizon 0 readable 0\n", 0))]
    out, status, told = run("front", "--node", f"127.0.0.1:{nobody}", "--connect-seconds", 0)
    pairs += [("nobody there", (out, status, told), (b"refused 93\n", 1, nobody_at(f"127.0.0.1:{nobody}")))]
    out, status, told = run("front", "--node", f"nobody.invalid:{nobody}", "--connect-seconds", 0)
    pairs += [("a name of nothing", (out, status, f"can't connect to nobody.invalid:{nobody}: " in told, "; see that a node listens there\n" in told), (b"refused 93\n", 1, True, True))]
    for word in ("far", "far:", "far:0", "far:65536", "far:x", ":7426", "7426", "unix:"):
        out, status, told = run("front", "--node", word)
        pairs += [(word, (out, status, f"invalid value '{word}' for '--node <ADDRESS>': an address is HOST:PORT" in told), (b"", 2, True))]
    for words in (["front", "--node", "far:1", "--port", 1], ["front", "--node", "far:1", "--log", 7, "--streams", 1], ["front", "--log", 7], ["front", "--streams", 1],
                  ["front", "--log", 7, "--streams", 1, "--connect-seconds", 1], ["at", "--node", "far:1", "--log", 7, "--streams", 1, 1, 1, 5]):
        pairs += [(f"{words}", run(*words)[1], 2)]
    report("a node that is named by an address", differ(pairs))


def relay(path, port, links):
    """A Unix domain socket whose connections, so many, go on to a port."""
    def pump(come, go):
        with come, go:
            while data := come.recv(65_536):
                go.sendall(data)
            go.shutdown(socket.SHUT_WR)

    def accept():
        with server:
            for _ in range(links):
                come, go = server.accept()[0], socket.create_connection(("127.0.0.1", port))
                threading.Thread(target=pump, args=(come.dup(), go.dup()), daemon=True).start()
                threading.Thread(target=pump, args=(go, come), daemon=True).start()

    server = socket.socket(socket.AF_UNIX)
    server.bind(path)
    server.listen()
    threading.Thread(target=accept, daemon=True).start()


def asked_around(node, *words, data=b""):
    """What a command answers where the environment has this node, and whether what it told names the variable."""
    out, status, told = run(*words, data=data, env={**os.environ, "HKREP_NODE": node})
    return out, status, "HKREP_NODE" in told


def named_around():
    """A node that the environment names, that of a Unix domain socket, and the one that is asked where nothing is named."""
    pairs, nobody = [], free_port()
    readable = b"front horizon 0 readable 1\n"
    with Staying(8) as node, Staying(8) as other, tempfile.TemporaryDirectory() as folder:
        there, path = f"127.0.0.1:{node.port}", f"{folder}/node"
        relay(path, node.port, 3)
        pairs += [("feed", asked_around(there, "feed", data=FIRST)[:2], (b"done 2\n", 0)), ("front", asked_around(there, "front"), (readable, 0, False)),
                  ("an option comes first", asked_around(there, "front", "--port", other.port), (b"front horizon 0 readable 0\n", 0, False)),
                  ("and an address", asked_around(f"127.0.0.1:{nobody}", "front", "--node", there), (readable, 0, False)),
                  ("and a log", asked_around(f"127.0.0.1:{nobody}", "front", "--log", 7, "--streams", 1, data=FIRST), (readable, 0, False)),
                  ("a socket's path", run("front", "--node", f"unix:{path}", "--reply-seconds", 30)[:2], (readable, 0)), ("and around", asked_around(f"unix:{path}", "ask", "get", 1, 5)[:2], (b"9 41\n", 0)),
                  ("pull from an address", run("pull", "--port", other.port, "--from", there), (b"done 2\n", 0, "")), ("and from a path", run("pull", "--port", other.port, "--from", f"unix:{path}")[:2], (b"done 3\n", 0)),
                  ("pull of the environment's node", asked_around(f"127.0.0.1:{other.port}", "pull", "--from", node.port)[:2], (b"done 4\n", 0))]
        for word in ("0", "65536", "far", "unix:", "-1x"):
            out, status, told = run("pull", "--port", other.port, f"--from={word}")
            pairs += [(f"from {word}", (out, status, f"invalid value '{word}' for '--from <Q>': a port is 1 to 65535; an address is HOST:PORT" in told), (b"", 2, True))]
        gone = run("front", "--node", f"unix:{folder}/gone", "--connect-seconds", 0)
        pairs += [("a path without a socket", gone, (b"refused 93\n", 1, nobody_at(f"unix:{folder}/gone")))]
    for word in ("far", "far:0", "7426", "unix:"):
        pairs += [(f"HKREP_NODE={word}", asked_around(word, "front"), (b"", 2, True)), ("no matter where it isn't asked", asked_around(word, "items", data=b""), (b"", 0, False))]
    for words in ({}, {"HKREP_NODE": ""}):
        around = {**{name: word for name, word in os.environ.items() if name != "HKREP_NODE"}, **words}
        out, status, told = run("front", "--connect-seconds", 0, "--reply-seconds", 5, env=around)
        pairs += [(f"nothing is named {words}", status == 0 and out.startswith(b"front ") or "127.0.0.1:7420" in told, True)]
    for command in ("front", "status", "ask", "push", "load", "feed", "pull", "save", "prune", "shell"):
        pairs += [(f"the help of {command}", b"HKREP_NODE" in run("help", command)[0], True)]
    report("a node of the environment, and of a Unix domain socket", differ(pairs))


def answering(reply, *words, data=b""):
    """What a command says of a peer that answers each connection with these bytes."""
    with socket.create_server(("127.0.0.1", 0)) as peer:
        port = peer.getsockname()[1]

        def answer():
            link, _ = peer.accept()
            with link:
                link.recv(4096)
                link.sendall(reply)
                link.shutdown(socket.SHUT_WR)
                link.settimeout(LIMIT)
                while link.recv(4096):
                    pass

        threading.Thread(target=answer, daemon=True).start()
        out, status, told = run(words[0], "--port", port, *words[1:], data=data)
        return out, status, told.replace(str(port), "P")


def no_nodes():
    """What listens and is no node is told as that."""
    pairs = []
    for reply, number, said in ((b"HTTP/1.1 400 Bad Request\r\n\r\n", 2, "it speaks HTTP; "), (bytes.fromhex("15030300020246"), 2, "it speaks TLS, "), (b"-ERR unknown command\r\n", 2, "its bytes are no frame; "),
                                (bytes(8), 10, "its bytes are no frame; ")):
        for words in (["front"], ["status"], ["ask", "count", 1], ["prune", 1]):
            out, status, told = answering(reply, *words)
            pairs += [(f"{reply} {words}", (out, status, told.startswith(f"request 1: refused {number}: 127.0.0.1:P is no node: {said}"), told.count("\n")), (f"refused {number}\n".encode(), 1, True, 1))]
    out, status, told = answering(b"\x00\x00\x00\x02\x09\x21", "front")
    pairs += [("another version is a reply that can't be read", (out, status, "is no node" in told), (b"refused 3\n", 1, False))]
    report("what listens and is no node", differ(pairs))


def other_logs():
    """What is of another log is told with both logs, and where the node is."""
    pairs = []
    foreign = say.new_entry(1, 1, [(1, 5, 9, b"A")], log=9) + say.mark(1, 1, 1, log=9, version=2)
    with Node(20) as node, Node(20, log=9) as other:
        there = f"127.0.0.1:{node.port}"
        run("feed", "--port", other.port, data=foreign)
        saved = run("save", "--port", other.port)[0]
        end = "; a node takes one log alone\n"
        sent = f"refused 20: what was sent has log 9 and {there} has log 7{end}"
        pairs += [("feed", run("feed", "--port", node.port, data=foreign)[:2], (b"refused 20\n", 1)), ("is told", run("feed", "--port", node.port, data=foreign)[2].endswith(sent), True),
                  ("among others", run("feed", "--port", node.port, data=FIRST + foreign)[2].endswith(sent), True),
                  ("load", run("load", "--port", node.port, data=saved), (b"refused 20\n", 1, f"request 1: {sent}")),
                  ("pull", run("pull", "--port", node.port, "--from", other.port),
                   (b"refused 20\n", 1, f"request 2: refused 20: 127.0.0.1:{other.port} has log 9 and {there} has log 7{end}"))]
    report("what is of another log", differ(pairs))


def misplaced():
    """Input that another command is for, and input that isn't there."""
    pairs = []
    load, feed = "this is what 'hkrep save' writes, or other requests: give it to 'hkrep load', or to 'hkrep push'\n", "these are items: give them to 'hkrep feed'\n"
    with Node(30) as node:
        to = ["--port", node.port]
        run("feed", *to, data=FIRST)
        saved = run("save", *to)[0]
        for words in (["feed", *to], ["at", "--log", 7, "--streams", 1, 1, 1, 5], ["items"], ["front", "--log", 7, "--streams", 1]):
            out, status, told = run(*words, data=saved)
            pairs += [(f"what was saved to {words[0]}", (out, status, told.startswith("frame 1: refused 4: "), told.endswith(load)), (b"refused 4\n", 1, True, True))]
        for words in (["load", *to], ["push", *to]):
            for data in (FIRST, NEW_E1):
                out, status, told = run(*words, data=data)
                pairs += [(f"items to {words[0]}", (out.startswith(b"refused "), status, told.endswith(feed)), (True, 1, True))]
        for words in (["feed", *to], ["load", *to], ["frames"]):
            pairs += [(f"nothing to {words[0]}", run(*words), (b"", 1, EMPTY))]
        for words in (["push", *to], ["items"], ["world"], ["shell", *to]):
            pairs += [(f"nothing to {words[0]} is nothing", run(*words), (b"", 0, ""))]
    folder = os.open(ROOT, os.O_RDONLY)
    try:
        told = subprocess.run([PROGRAM, "items"], stdin=folder, capture_output=True, timeout=LIMIT, check=False).stderr
    finally:
        os.close(folder)
    pairs += [("a folder", told.startswith(b"refused 91: the input can't be read: Is a directory"), True)]
    report("input of another command, and none", differ(pairs))


def at_terminal(*words, data=b"", shows=1):
    """What a command prints where its standard input and error are a terminal, up to so many lines, after these bytes were typed."""
    own, other = pty.openpty()
    child = subprocess.Popen([PROGRAM, *map(str, words)], stdin=other, stdout=other, stderr=other)
    os.close(other)
    said, deadline = b"", time.monotonic() + LIMIT
    if data:
        os.write(own, data)
    while time.monotonic() < deadline:
        try:
            more = os.read(own, 65_536)
        except OSError:
            break
        said += more
        if shows and said.count(b"\n") >= shows:
            os.write(own, b"\x04")
            shows = 0
    os.close(own)
    return said.decode(), child.wait(LIMIT)


def terminals():
    """What a person sees on a terminal alone: a banner, a prompt, what is read, and how much has come."""
    pairs = []
    for words in (["at", "--log", 7, "--streams", 1, 0, 1, 5], ["ask", "--log", 7, "--streams", 1, "get", 1, 5, "--at", 0]):
        said, status = at_terminal(*words)
        pairs += [(f"{words[0]} reads a terminal", (said.startswith("reading item frames from this terminal: "), said.endswith("none\r\n"), status), (True, True, 0))]
    rows = [(1, key, 9, bytes(4096)) for key in range(400)]
    with Node(20) as node, Node(20) as other:
        run("feed", "--port", node.port, data=say.new_entry(1, 1, rows) + say.mark(1, 1, 1, version=2))
        said, status = at_terminal("shell", "--port", node.port, data=b"count 1\nquit\n", shows=0)
        pairs += [("a banner", f"node 127.0.0.1:{node.port}; 'help' lists the lines, 'quit' ends. 'rlwrap hkrep shell' edits lines" in said, True),
                  ("a prompt, and an answer", ("hkrep> " in said, "count 400\r\n" in said, status), (True, True, 0))]
        said, status = at_terminal("pull", "--port", other.port, "--from", node.port, shows=0)
        pairs += [("how much has come", ("\x1b[Kreceived 1 MB\r" in said, said.endswith("\x1b[Kdone 2\r\n"), status), (True, True, 0)),
                  ("nothing of that in a file", run("pull", "--port", other.port, "--from", node.port)[2], "")]
    report("what a terminal alone shows", differ(pairs))


def words_that_mislead():
    pairs = []
    for script in ("world 7 1\n", "world 7 1 x\n", "world 7 1 1 1\n", "begin 1\n"):
        told = run("world", data=script.encode())[2]
        pairs += [(script, "; expected: world LOG STREAMS REPLICAS" in told, True)]
    pairs += [("a second opening", "; expected: begin, put, " in run("world", data=b"world 7 1 1\nworld 7 1 1\n")[2], True)]
    out, status, told = run("rewrite", data=FIRST[:60])
    pairs += [("a fault of rewrite", (out, status, told.startswith("refused 1: ")), (b"", 1, True))]
    if os.path.exists("/dev/full"):
        with open("/dev/full", "wb") as full:
            for words in (["--help"], ["help", "ask"], ["explain"]):
                _, status, told = run(*words, stdout=full)
                pairs += [(f"{words} on a full device", (status, told.startswith("stopped: the output can't be written")), (1, True))]
    many = b"".join(say.new_entry(n, n, [(1, n, 9, b"x")]) for n in range(1, 20_001))
    with tempfile.TemporaryFile() as data:
        data.write(many)
        data.seek(0)
        child = subprocess.Popen([PROGRAM, "items"], stdin=data, stdout=subprocess.PIPE, stderr=subprocess.PIPE)
        child.stdout.readline()
        child.stdout.close()
        pairs += [("a reader that goes away", (child.stderr.read(), child.wait(LIMIT)), (b"", 1))]
        child.stderr.close()
    report("messages that tell what is so", differ(pairs))


def how_many_were_new():
    """`feed --messages 2` prints what `feed` prints, and tells how many items the node didn't know; a node that reads version 1 alone refuses it 3."""
    with Node(60, words=("--messages", "2")) as node, Node(60) as plain:
        told = [run("feed", "--port", node.port, "--messages", 2, *more, data=data) for more, data in (([], FIRST), ([], FIRST), (["--batch", 1], FIRST))]
        pairs = [(f"feed {n}", (out, status, why.splitlines()[-1]), wanted) for n, ((out, status, why), wanted) in enumerate(zip(told, (
            (b"done 2\n", 0, "new 2 of 2"), (b"done 3\n", 0, "new 0 of 2"), (b"done 5\n", 0, "new 0 of 2"))))]
        once = run("feed", "--port", node.port, data=FIRST)
        refused = run("feed", "--port", plain.port, "--messages", 2, data=FIRST)
        pairs += [("version 1 tells none", (once[:2], "new" in once[2]), ((b"done 6\n", 0), False)),
                  ("a node of version 1", (refused[:2], refused[2].startswith("request 1: refused 3: ")), ((b"refused 3\n", 1), True))]
    report("how many items were new", differ(pairs))


def waited_fronts():
    """`front --wait` prints the front once its time can be read, by several requests where that is late; a node that reads version 1 alone is told as one."""
    with Staying(4) as node, Node(1) as plain:
        waiting = [begun("front", "--port", node.port, "--wait", 5, *more) for more in ([], ["--json"], ["--reply-seconds", 1])]
        time.sleep(1.2)
        pairs = [("they wait", [it.poll() for it in waiting], [None] * 3)]
        with node.link() as link:
            pairs += [("they are told", (link.ask(say.items(say.E1)), link.ask(say.items(say.mark(1, 1, 5)))), (("done", 2), ("done", 3)))]
        pairs += [("they end", [(*it.communicate(timeout=LIMIT), it.returncode) for it in waiting],
                   [("front horizon 0 readable 5\n", "", 0), ('{"front":{"horizon":"0","readable":"5"}}\n', "", 0), ("front horizon 0 readable 5\n", "", 0)]),
                  ("it can be read already", run("front", "--port", node.port, "--wait", 1), (b"front horizon 0 readable 5\n", 0, ""))]
        out, status, told = run("front", "--port", plain.port, "--wait", 5)
        pairs += [("version 1 alone", (out, status, "--wait needs version 2" in told), (b"refused 3\n", 1, True))]
    for words in (["--log", "7", "--streams", "1", "--wait", "5"], ["--wait", "4611686018427387905"], ["--wait"]):
        out, status, _ = run("front", *words)
        pairs.append((" ".join(words), (out, status), (b"", 2)))
    report("a front that is waited for", differ(pairs))


def told_numbers():
    """`status --stats` and `--tables` print a node's numbers and tables behind what `status` prints, in lines and in JSON; a node that tells none is told of."""
    with Staying(5) as node, Node(4) as plain, Telling(node.port) as telling, Telling(node.port, None) as old, Telling(node.port, (), ()) as empty:
        with node.link() as link:
            link.ask(say.items(say.E1))
        status, in_json = (run("status", "--port", node.port, *words)[0] for words in ((), ("--json",)))
        asked = lambda port, *words: run("status", "--port", port, *words)
        lines = "".join(f"{it}\n" for it in (
            "stats 29", "rows 40", "ends 12", "body_bytes 900", "operations 61", "guarded 1", "failed 0", "pins 1", "seconds 7260", "budget 0 1000000", "budget 1 500000", "reserved 0 900000",
            "reserved 1 0", "memory 47185920", "open 0 3", "open 1 2", "opened 0 70", "opened 1 2", "most_open 0 9", "most_open 1 2", "bytes_read 4096", "bytes_written 65536",
            "requests 20 12", "requests 60 3", "refusals 26 8", "refusals 90 1", "failed_accepts 0", "program 1002003", "keys 7", "metric 60000 5 1")).encode()
        tables = b"tables 3\ntable 1\ntable 2\ntable 65535\n"
        stats = va.later.Stats(METRICS)
        pairs = [("as before", (asked(telling.port), asked(telling.port, "--json")), ((status, 0, ""), (in_json, 0, ""))), ("numbers", asked(telling.port, "--stats"), (status + lines, 0, "")),
                 ("tables", asked(telling.port, "--tables"), (status + tables, 0, "")), ("both", asked(telling.port, "--tables", "--stats"), (status + lines + tables, 0, "")),
                 ("the Python client's lines", stats.line() + "\n" + va.later.Tables(TABLES).line() + "\n", (lines + tables).decode()),
                 ("none", asked(empty.port, "--stats", "--tables"), (status + b"stats 0\ntables 0\n", 0, "")), ("none in JSON", asked(empty.port, "--stats", "--tables", "--json"), (in_json, 0, ""))]
        words = dict(zip(METRICS, (line.split()[0] for line in lines.decode().splitlines()[1:])))
        made = "".join(line_of({"metric": "unknown" if words[it] == "metric" else words[it], "name": it[0], "label": it[1], "value": str(it[2])}) for it in METRICS)
        made += "".join(line_of({"table": table}) for table in TABLES)
        pairs += [("in JSON", asked(telling.port, "--json", "--stats", "--tables"), (in_json + made.encode(), 0, ""))]
        for port, number, said in ((old.port, 4, "of an earlier release"), (plain.port, 3, "--stats and --tables need version 2")):
            before = asked(port)[0]
            for option in ("--stats", "--tables"):
                out, ended_with, told = asked(port, option)
                pairs += [(f"{option}, {said}", (out, ended_with, said in told, f"request 3: refused {number}: " in told), (before + f"refused {number}\n".encode(), 1, True, True))]
    for option in ("--stats", "--tables"):
        out, ended_with, told = run("status", "--log", 7, "--streams", 1, option, data=FIRST)
        pairs.append((f"{option} of frames", (out, ended_with, option in told), (b"", 2, True)))
    report("a node's numbers and tables", differ(pairs))


def waited_answers():
    """`ask --at TIME --wait` answers once its time can be read, whichever of them stands before the query, by several requests where that is late; who can't wait is told why."""
    query = ["get", 1, 5]
    with Staying(5) as node, Node(1) as plain:
        asked = (["--at", 5, "--wait", *query], [*query, "--at", 5, "--wait"], ["--wait", 5, *query], ["--json", "--at", 5, *query, "--wait"])
        with node.link() as link:
            waiting = [begun("ask", "--port", node.port, *words) for words in asked]
            time.sleep(1.2)
            pairs = [("they wait", [it.poll() for it in waiting], [None] * 4),
                     ("they are told", (link.ask(say.items(say.E1)), link.ask(say.items(say.mark(1, 1, 5)))), (("done", 2), ("done", 3)))]
            pairs += [("they end", [(*it.communicate(timeout=LIMIT), it.returncode) for it in waiting], [("9 41\n", "", 0)] * 3 + [('{"row":{"tag":9,"body":"41"}}\n', "", 0)])]
            late = begun("ask", "--port", node.port, "--reply-seconds", 1, "--wait", "count", 1, "--at", 9)
            time.sleep(1.2)
            pairs += [("one by several requests", late.poll(), None), ("it is told", link.ask(say.items(say.mark(1, 1, 9))), ("done", 4)), ("it ends", (*late.communicate(timeout=LIMIT), late.returncode), ("count 1\n", "", 0)),
                      ("it can be read already", run("ask", "--port", node.port, *query, "--at", 1, "--wait"), (b"9 41\n", 0, ""))]
        out, status, told = run("ask", "--port", plain.port, *query, "--at", 5, "--wait")
        pairs += [("version 1 alone", (out, status, "--wait needs version 2" in told), (b"refused 3\n", 1, True))]
    alone = ["--log", "7", "--streams", "1", "1"]
    for words, part in (([*query, "--wait"], "--wait is for a time"), (["--wait", *query], "--wait is for a time"), ([*alone, *query, "--wait"], "--wait is for a node"), ([*alone, "--wait", *query], "--wait is for a node"),
                        ([*query, "--at", 1, "--wait=5"], "--wait"), ([*query, "--at", 1, "--wait", "--wait"], "--wait")):
        out, status, told = run("ask", *words)
        pairs.append((" ".join(map(str, words)), (out, status, part in told), (b"", 2, True)))
    report("answers that are waited for", differ(pairs))


def main():
    if not is_built(PROGRAM):
        return ended()
    start = time.monotonic()
    for check in (there_and_back, bad_lines, json_answers, over_a_link, shell, shown_bodies, one_grammar, connected_later, silent_nodes, dropped, told_apart, addressed, named_around,
                  no_nodes, other_logs, misplaced, terminals, words_that_mislead, how_many_were_new, waited_fronts, waited_answers, told_numbers):
        if not sys.argv[1:] or check.__name__ in sys.argv[1:]:
            guarded(check)
    print(f"asked: {time.monotonic() - start:.1f} s")
    return ended()


if __name__ == "__main__":
    sys.exit(main())
