#!/usr/bin/env python3
"""Checks of the page, /metrics and /api/ (clients/python/vadungsil/web), and of vadungsil.picture, against running nodes. What a node should
show comes from tests/lib/reference.py.

    tests/checks/web.py [CHECK ..]
    tests/checks/web.py --page FILE     writes a picture of the page, as docs/page.png

The checks in a browser (tests/checks/web_page.py) need chromium, chromium-driver and python3-selenium; where one isn't installed they are skipped, and
said so. Prints a line for each check and ends with 'N passed, M failed'. It ends only what it started."""
import concurrent.futures
import json
import os
import pathlib
import re
import shutil
import signal
import socket
import subprocess
import sys
import tempfile
import threading
import time
import xml.etree.ElementTree

sys.dont_write_bytecode = True
DEBIAN = "/usr/bin/python3"
try:
    import selenium
except ImportError:
    # Debian's Python has Debian's modules; another may come first in PATH
    if os.path.exists(DEBIAN) and os.path.realpath(DEBIAN) != os.path.realpath(sys.executable) \
            and not subprocess.run([DEBIAN, "-c", "import selenium"], stderr=subprocess.DEVNULL, check=False).returncode:
        os.execv(DEBIAN, [DEBIAN, *sys.argv])
    selenium = None

sys.path.append(str(pathlib.Path(__file__).resolve().parents[1] / "lib"))
import web_parts
from checks import differ, ended, free_port, guarded, is_built, report, skip, timed
from shown import of
from client import PROGRAM
from telling import OF_TABLES, STATS, Telling
from web_parts import (FRAMES, KEYS, LAST, LIMIT, PACKAGE, ROOT, STREAMS, Served, Web, breaks, changes_of, fed, log_of, nodes, page_of, parsed_metrics,
                       parsed_openmetrics, rows_at, va, waited, web_of)

ENVIRONMENT = {**os.environ, "PYTHONPATH": str(PACKAGE), "PYTHONDONTWRITEBYTECODE": "1"}
HEADS = {"Content-Security-Policy": r"default-src 'none'; script-src 'self'; style-src 'self'; connect-src 'self'; img-src 'self'; base-uri 'none'; "
         r"form-action 'none'; frame-ancestors 'none'", "X-Content-Type-Options": "nosniff", "Referrer-Policy": "no-referrer", "X-Frame-Options": "DENY",
         "Cross-Origin-Resource-Policy": "same-origin", "Cache-Control": "no-store"}


# Checks wait more than they work: so many are made side by side.
SIDE_BY_SIDE = 4


# ---------------------------------------------------------------- answers

def answers():
    """Each question at several times gives the rows of the reference, of two nodes that agree."""
    problems = []
    with nodes(2) as two, web_of([it.port for it in two]) as web:
        for at in (0, 1, 7, 20, 39, LAST):
            rows = rows_at(at)
            problems += differ([(f"range at {at}", web.rows(f"/api/range?table=1&at={at}"), rows),
                                (f"a part at {at}", web.rows(f"/api/range?table=1&low=2&high={2 ** 63}&at={at}"), [it for it in rows if 2 <= it[0] <= 2 ** 63]),
                                (f"tag at {at}", web.rows(f"/api/tag?table=1&tag=1&at={at}"), [it for it in rows if it[1] == 1]),
                                (f"count at {at}", web.json(f"/api/count?table=1&at={at}")[1]["answers"][0]["count"], str(len(rows)))])
            for key in KEYS:
                problems += differ([(f"{key} at {at}", web.rows(f"/api/get?table=1&key={key}&at={at}"), [it for it in rows if it[0] == key])])
        for before, after in ((0, LAST), (10, 30), (30, 10), (7, 7)):
            status, value = web.json(f"/api/changes?table=1&from={before}&to={after}")
            problems += differ([(f"changes from {before} to {after}", (status, value["equal"], value["answers"][0]["until"],
                                 [(int(it["key"]), it["what"]) for it in value["answers"][0]["changes"]]), (200, True, None, changes_of(before, after)))])
        now = web.json("/api/range?table=1")[1]
        problems += differ([("without a time", (now["at"], now["equal"], len(now["answers"])), (str(LAST), True, 2)),
                            ("one node", [it["node"] for it in web.json(f"/api/get?table=1&key=0&node=127.0.0.1:{two[1].port}")[1]["answers"]], [f"127.0.0.1:{two[1].port}"]),
                            ("another table", web.rows("/api/range?table=65535&at=9"), [])])
    report("questions and changes at each time are the reference's", problems)


def many_rows():
    """A table with more rows than are wanted is read in parts; the next part begins behind the last key."""
    writer, problems = va.LogWriter(7, 1), []
    keys = sorted({*range(0, 900, 3), *range(2 ** 40, 2 ** 40 + 300), *(2 ** 64 - 1 - 2 ** at for at in range(40)), 2 ** 64 - 1})
    frames = [va.encode(writer.commit([(1, key, 4, b"%d" % key) for key in keys])), *map(va.encode, writer.marks())]
    with nodes(1, frames, 1) as (node,), web_of([node.port]) as web:
        found, low = [], 0
        while True:
            status, value = web.json(f"/api/range?table=1&low={low}&most=100&at=1")
            part = value["answers"][0]
            found += [int(it["key"]) for it in part["rows"]]
            if not part["more"] or status != 200 or len(found) > 2 * len(keys):
                break
            low = found[-1] + 1
        tagged = web.json("/api/tag?table=1&tag=4&most=10&at=1")[1]["answers"][0]
        changed = web.json("/api/changes?table=1&from=0&to=1&most=50")[1]["answers"][0]
        problems += differ([("all keys", found, keys), ("by tag", (len(tagged["rows"]), tagged["more"]), (10, True)),
                            ("changes", (len(changed["changes"]), changed["until"]), (50, str(keys[49]))),
                            ("a count of all", web.json("/api/count?table=1&at=1")[1]["answers"][0]["count"], str(len(keys)))])
    report("a long answer comes in parts", problems)


def large_bodies():
    """An answer of a node has at most 4 MiB of bodies and goes on behind the last key; a node that is busy is not told as away."""
    writer, problems = va.LogWriter(7, 1), []
    frames = [va.encode(writer.commit([(1, key, 4, bytes(4096)) for key in range(low, low + 400)])) for low in range(0, 1200, 400)]
    frames += map(va.encode, writer.marks())
    with nodes(1, frames, 1) as (node,), web_of([node.port], limit=LIMIT) as web:
        first = web.json("/api/range?table=1&most=10000")[1]["answers"][0]
        rest = web.json(f"/api/range?table=1&most=10000&low={len(first['rows'])}")[1]["answers"][0]
        tagged = web.json("/api/tag?table=1&tag=4&most=10000")[1]["answers"][0]
        problems += differ([("first", (len(first["rows"]), first["more"]), (1024, True)), ("rest", (len(rest["rows"]), rest["more"]), (176, False)),
                            ("by tag", (len(tagged["rows"]), tagged["more"]), (1024, True))])
    with nodes(1) as (node,), web_of([node.port], limit=1.0) as web:
        with web.server.nodes[f"127.0.0.1:{node.port}"]._lock:
            status, value = web.json("/api/get?table=1&key=0&at=1")
            problems += differ([("busy", (status, "busy" in value["answers"][0]["away"]), (503, True)), ("not away", web.node()["up"], True)])
        problems += differ([("asked again", web.json("/api/get?table=1&key=0&at=1")[0], 200)])
    report("large bodies, and a busy node", problems)


def refusals():
    """A refusal has its number, its fields and the words of `hkrep explain`; one node's does not hide what another answers."""
    problems = []
    with nodes(2) as two, web_of([it.port for it in two]) as web:
        with va.Node(two[0].port) as node:
            node.prune(10)
        waited(lambda: web.node()["horizon"] == "10")
        status, early = web.json("/api/get?table=1&key=0&at=99")
        refused = early["answers"][0]["refused"]
        problems += differ([("26", (status, early["equal"], refused["number"], refused["fields"], refused["line"]),
                                    (422, None, 26, {"readable": str(LAST)}, f"refused 26 readable {LAST}")),
                            ("words", (refused["meaning"], refused["advice"], refused["name"]), (va.REASONS[26].meaning, va.REASONS[26].advice, "NotYet"))])
        status, old = web.json("/api/range?table=1&at=3")
        refused = old["answers"][0]["refused"]
        problems += differ([("25", (status, old["equal"], refused["number"], refused["fields"]), (200, None, 25, {"horizon": "10"})),
                            ("the other", len(old["answers"][1]["rows"]), len(rows_at(3))),
                            ("the window", web.json("/api/nodes")[1]["window"], {"from": "10", "to": str(LAST)}),
                            ("changes", [("refused" in it) for it in web.json("/api/changes?table=1&from=3&to=20")[1]["answers"]], [True, False]),
                            ("counted", web.metric("vadungsil_refused_total", node=web.node()["node"], number="25") >= 1, True)])
    report("refusals have their numbers and words, node by node", problems)


def unequal():
    """Nodes of two logs that differ are told as such."""
    other, _ = log_of(seed=2)
    with Served(8, streams=STREAMS) as one, Served(8, streams=STREAMS) as two:
        fed(one.port)
        fed(two.port, other)
        with web_of([one.port, two.port]) as web:
            report("nodes that differ are not equal", differ([("equal", web.json("/api/range?table=1&at=40")[1]["equal"], False)]))


# ---------------------------------------------------------------- requests

def bad_requests():
    """What is no request of this server is answered with its status, and every answer has the strict heads."""
    with nodes(1) as (node,), web_of([node.port], allowed=["looking.example"]) as web:
        here = f"127.0.0.1:{web.port}"
        cases = [
            ("/", "GET", {}, 200), ("/?at=3&kind=get", "GET", {}, 200), ("/page.js", "GET", {}, 200), ("/metrics", "HEAD", {}, 200), ("/api/nodes", "HEAD", {}, 200),
            *[("/api/nodes", method, {}, 405) for method in ("POST", "PUT", "DELETE", "OPTIONS", "PATCH", "TRACE")], ("/", "BREW", {}, 405),
            ("/none", "GET", {}, 404), ("/../page.js", "GET", {}, 404), ("/%2e%2e/server.py", "GET", {}, 404),
            ("/server.py", "GET", {}, 404), ("//host/", "GET", {}, 404),
            ("http://host/", "GET", {}, 421), ("http://[/", "GET", {"Host": here}, 400), ("/api/", "GET", {}, 404), ("/api/none?x=1", "GET", {}, 404),
            ("/metrics?x", "GET", {}, 404), ("/page.js?x", "GET", {}, 404),
            ("/api/nodes?x=1", "GET", {}, 400), ("/api/get?table=1&key=0&node=127.0.0.1:1", "GET", {}, 404),
            *[(f"/api/{words}", "GET", {}, 400) for words in (
                "get", "get?table=1", "get?table=1&key=", "get?table=65536&key=0", "get?table=-1&key=0", "get?table=1&key=18446744073709551616", "get?table=1&key=1e3",
                "get?table=1&key=0x1", "get?table=1&key=+1", "get?table=1&key=%D9%A1", "get?table=1&key=0&key=1", "get?table=1&key=0&low=1", "get?table=1&key=0&at=x",
                "get?table=1&key=0&at=4611686018427387905", "get?table=1&key=0&at=-1", "tag?table=1&tag=4294967296", "range?table=1&low=5&high=1", "range?table=1&most=0", "range?table=1&most=10001",
                "changes?table=1", "changes?table=1&from=x&to=1", "changes?kind=count&table=1&from=0&to=1",
                "count?table=%ff", "count?table", "count?" + "&".join(f"a{it}=1" for it in range(17)),
                "get?table=1&key=" + "0" * 21)],
            ("/" + "a" * 3000, "GET", {}, 414), ("/api/get?table=" + "1" * 100_000, "GET", {}, 414), ("/", "GET", {"X_Long": "a" * 20_000}, 431),
           
            ("/", "GET", {"Host": "evil.example"}, 421), ("/api/nodes", "GET", {"Host": f"evil.example:{web.port}"}, 421), ("/", "GET", {"Host": "127.0.0.1:1"}, 421),
            ("/", "GET", {"Host": f"LOCALHOST:{web.port}"}, 200), ("/", "GET", {"Host": f"looking.example:{web.port}"}, 200),
            ("/", "GET", {"Host": "looking.example"}, 200), ("/", "GET", {"Host": "looking.example:1"}, 421),
            ("/", "GET", {"Host": "127.0.0.1"}, 421), ("/", "GET", {"Host": here}, 200),
            ("/api/nodes", "GET", {"Sec_Fetch_Site": "cross-site", "Sec_Fetch_Mode": "cors"}, 403), ("/api/nodes", "GET", {"Sec_Fetch_Site": "same-origin"}, 200),
            ("/", "GET", {"Sec_Fetch_Site": "cross-site", "Sec_Fetch_Mode": "navigate"}, 200)]
        problems = []
        for path, method, heads, wanted in cases:
            status, got, body = web.asked(path, method, **heads)
            problems += differ([(f"{method} {path[:60]} {heads}"[:120], status, wanted), (f"{path[:60]}: heads", {name: got.get(name) for name in HEADS}, HEADS)])
            if status >= 400 and path.startswith("/api/") and method == "GET" and len(path) < 2000:
                problems += differ([(f"{path[:60]}: words", bool(json.loads(body)["error"]), True)])
        problems += differ([("405 allows", web.asked("/", "POST")[1].get("Allow"), "GET, HEAD"), ("HEAD has no body", web.asked("/", "HEAD")[2], b"")])
        problems += raw_requests(web)
    report(f"bad requests, and the heads of every answer ({len(cases)})", problems)


def raw_requests(web):
    """Bytes that are no HTTP: an answer of 400 or none, and the server goes on."""
    problems = []
    for data in (b"\r\n", b"GET\r\n\r\n", b"\x00\xff\x16\x03\x01\r\n\r\n", b"GET / HTTP/9.9\r\n\r\n", b"GET / HTTP/1.1\r\n\r\n", b"GET / HTTP/1.1\r\nHost\r\n\r\n",
                 b"GET / HTTP/1.1\r\n" + b"a: b\r\n" * 200 + b"\r\n"):
        with socket.create_connection(("127.0.0.1", web.port), timeout=LIMIT) as link:
            link.sendall(data)
            link.shutdown(socket.SHUT_WR)
            got = b""
            while piece := link.recv(65536):
                got += piece
        if got and not re.match(rb"HTTP/1\.1 (4\d\d|505) ", got):
            problems.append(f"{data[:30]!r}: {got[:60]!r}")
    return problems + differ([("goes on", web.asked("/")[0], 200)])


def limits():
    """A client that trickles is closed in time; more than 64 at once are turned away, and the server goes on."""
    problems = []
    with nodes(1) as (node,), web_of([node.port], patience=1.0) as web:
        begin = time.monotonic()
        with socket.create_connection(("127.0.0.1", web.port), timeout=LIMIT) as link:
            got = b"-"
            for letter in b"GET / HTTP/1.1\r\nHost: 1\r\n" * 9:
                try:
                    link.sendall(bytes([letter]))
                    link.settimeout(0.05)
                    got = link.recv(9)
                except socket.timeout:
                    continue
                except OSError:
                    got = b""
                if got == b"":
                    break
        problems += differ([("a trickle is closed", (got, time.monotonic() - begin < 10), (b"", True))])
    with nodes(1) as (node,), web_of([node.port], patience=20.0) as web:
        links = [socket.create_connection(("127.0.0.1", web.port), timeout=LIMIT) for _ in range(70)]
        turned = sum(link.recv(12) == b"HTTP/1.1 503" for link in links[64:])
        problems += differ([("turned away", turned, 6)])
        for link in links:
            link.close()
        waited(lambda: web.asked("/")[0] == 200, 5)
        with concurrent.futures.ThreadPoolExecutor(8) as pool:
            found = list(pool.map(lambda at: web.rows(f"/api/range?table=1&at={at % LAST}") == rows_at(at % LAST), range(80)))
        problems += differ([("many at once", all(found), True), ("on one link", web.metric("vadungsil_links_opened_total", node=web.node()["node"]), 1.0)])
    report("slow and many clients, and one link to a node for all", problems)


# ---------------------------------------------------------------- how nodes stand

def events():
    """The event stream says at once how the nodes stand, then once a second, and at once where one goes; 16 at most."""
    problems = []
    with nodes(1) as (node,), web_of([node.port]) as web:
        links = [opened_stream(web) for _ in range(16)]
        problems += differ([("heads", [next(lines).startswith("HTTP/1.1 200") for _, lines in links], [True] * 16),
                            ("one too many", web.asked("/api/events")[0], 503), ("counted", web.metric("vadungsil_web_event_streams"), 16.0)])
        began = time.monotonic()
        found = [told_next(links[0][1]) for _ in range(3)]
        took = time.monotonic() - began
        problems += differ([("what it says", [it["nodes"][0]["readable"] for it in found], [str(LAST)] * 3), ("a second between", 1.0 < took < 8.0, True)])
        node.child.kill()
        killed = time.monotonic()
        while told_next(links[0][1])["nodes"][0]["up"]:
            pass
        problems += differ([("a killed node is told within 3 s", time.monotonic() - killed < 3, True)])
        for link, _ in links:
            link.shutdown(socket.SHUT_RDWR)
            link.close()
        waited(lambda: web.metric("vadungsil_web_event_streams") == 0.0)
    report("the event stream", problems)


def opened_stream(web):
    link = socket.create_connection(("127.0.0.1", web.port), timeout=LIMIT)
    link.sendall(f"GET /api/events HTTP/1.1\r\nHost: 127.0.0.1:{web.port}\r\n\r\n".encode())
    return link, iter(link.makefile("r", encoding="utf-8", newline="\n"))


def told_next(lines):
    """The next event."""
    for line in lines:
        if line.startswith("data: "):
            return json.loads(line[6:])
    raise EOFError("the event stream ended")


def away_and_back():
    """A killed node is told, its questions are answered 503, and it is found again; one that was never there too."""
    problems, port = [], free_port()
    with web_of([port]) as web:
        problems += differ([("not there", (web.node()["up"], web.node()["horizon"], web.json("/api/nodes")[1]["window"]), (False, None, None)),
                            ("asked", web.json("/api/get?table=1&key=0")[0], 503), ("metric", web.metric("vadungsil_node_up", node=f"127.0.0.1:{port}"), 0.0),
                            ("no mark is told", web.metric("vadungsil_readable", node=f"127.0.0.1:{port}"), None)])
        for _ in range(2):
            with Served(8, streams=STREAMS, port=port):
                problems += differ([("found within 3 s", waited(lambda: web.node()["up"]) < 3, True)])
                fed(port)
                waited(lambda: web.node()["readable"] == str(LAST))
                problems += differ([("answers", web.rows("/api/range?table=1"), rows_at(LAST))])
            problems += differ([("told within 3 s", waited(lambda: not web.node()["up"]) < 3, True), ("words", "127.0.0.1" in web.node()["error"], True),
                                ("asked", web.json("/api/get?table=1&key=0&at=3")[0], 503)])
    report("a node that goes away and comes back", problems)


def damaged():
    """A node that met a conflict is up and damaged, and each answer is refused 41."""
    writer = va.LogWriter(7, 1)
    other = va.LogWriter(7, 1)
    with nodes(1, [va.encode(writer.commit([(1, 5, 9, b"a")])), *map(va.encode, writer.marks())], 1) as (node,), web_of([node.port]) as web:
        before = web.metric("vadungsil_node_damaged", node=web.node()["node"])
        with va.Node(node.port) as link:
            try:
                link.items([other.commit([(1, 5, 9, b"b")])])
            except va.Refused:
                pass
        waited(lambda: web.node()["damaged"])
        found, (status, value) = web.node(), web.json("/api/get?table=1&key=5&at=1")
        report("a damaged node", differ([("before", before, 0.0), ("up", found["up"], True), ("refused", found["refused"]["number"], 41),
                                         ("asked", (status, value["answers"][0]["refused"]["number"]), (422, 41)), ("without a time", web.json("/api/count?table=1")[0], 422),
                                         ("metric", web.metric("vadungsil_node_damaged", node=found["node"]), 1.0),
                                         ("horizon", web.metric("vadungsil_horizon", node=found["node"]), None)]))


def silent_node():
    """A peer that takes a link and says nothing is away after the limit; the other node is answered meanwhile."""
    with socket.socket() as peer, nodes(1) as (node,):
        peer.bind(("127.0.0.1", 0))
        peer.listen()
        port = peer.getsockname()[1]
        with web_of([node.port, port], limit=1.0) as web:
            status, value = web.json("/api/range?table=1&at=9")
            pause = web.server.nodes[f"127.0.0.1:{port}"]._pause
            report("a silent node", differ([("it is tried again later each time", pause in (2.0, 4.0), True),
                                            ("the others", (status, len(value["answers"][0]["rows"])), (200, len(rows_at(9)))), ("away", "away" in value["answers"][1], True),
                                            ("told", (web.node(1)["up"], "no reply within" in web.node(1)["error"]), (False, True))]))


def held_back():
    """Which stream holds the node back, by how much, and what it lacks."""
    items = [va.decode(frame) for frame in FRAMES]
    late = [it for it in items if isinstance(it, va.Entry) and it.stream == 2][-4]
    some = [it for it in items if it != late]
    with nodes(1, some) as (node,), web_of([node.port]) as web:
        first, second = web.node()["streams"]
        import reference
        told, _ = reference.items_of(b"".join(map(va.encode, some)))
        closed = reference.closed(told, 2)
        wanted = {"stream": 2, "closed": str(closed), "prefix": str(late.number - 1), "extra": 3, "waiting": len(reference.waiting(told, 2)), "lag": str(LAST - closed),
                  "holds": True, "lacks": "entries", "retired": False}
        problems = differ([("stream 2", {name: second[name] for name in wanted}, wanted), ("stream 1", (first["holds"], first["lag"], first["lacks"]), (False, "0", "")),
                           ("readable", web.node()["readable"], str(closed)), ("lag", web.metric("vadungsil_stream_lag", node=web.node()["node"], stream="2"), float(LAST - closed))])
        with va.Node(node.port) as link:
            link.items([va.Mark(7, 1, 10 ** 6, 2 ** 62)])
        fed(node.port)
        waited(lambda: web.node()["readable"] == str(LAST))
        problems += differ([("none holds it", [it["holds"] for it in web.node()["streams"]], [False, False]), ("a mark waits", web.node()["streams"][0]["waiting"], 1)])
    report("which stream holds the node back", problems)


# ---------------------------------------------------------------- metrics and the interface

def metrics():
    """/metrics is read by a strict parser (and promtool, where it is there), and says what the node says."""
    with nodes(2) as two, web_of([it.port for it in two]) as web:
        for at in range(5):
            web.asked(f"/api/range?table=1&at={at}")
        web.asked("/api/count?table=1")
        status, heads, body = web.asked("/metrics")
        types, samples = parsed_metrics(body.decode())
        of = lambda name, **labels: samples.get((name, tuple(sorted({"node": f"127.0.0.1:{two[0].port}", **labels}.items()))))
        with va.Node(two[0].port) as node:
            front, streams = node.front(), node.streams()
        problems = differ([("status", (status, heads["Content-Type"]), (200, "text/plain; version=0.0.4; charset=utf-8")),
                           ("front", (of("vadungsil_horizon"), of("vadungsil_readable")), (front.horizon, front.readable)), ("up", of("vadungsil_node_up"), 1.0),
                           ("ranges", of("vadungsil_answer_seconds_count", kind="range"), 5.0),
                           ("counts, one before each wide range", of("vadungsil_answer_seconds_count", kind="count"), 6.0),
                           ("fronts", of("vadungsil_answer_seconds_count", kind="front"), 1.0), ("deltas", of("vadungsil_answer_seconds_count", kind="delta") >= 1, True),
                           ("web", samples.get(("vadungsil_web_answers_total", (("code", "200"),))), 6.0)])
        for number, stream in enumerate(streams, 1):
            problems += differ([(f"stream {number}", (of("vadungsil_stream_prefix", stream=str(number)), of("vadungsil_stream_closed", stream=str(number)),
                                 of("vadungsil_stream_waiting", stream=str(number))), (stream.prefix, stream.closed, len(stream.waiting)))])
        problems += [f"{name} is not told in docs/LOOKING.md" for name in types if f"`{name}`" not in (ROOT / "docs" / "LOOKING.md").read_text()]
        if shutil.which("promtool"):
            got = subprocess.run(["promtool", "check", "metrics"], input=body, stdout=subprocess.PIPE, stderr=subprocess.STDOUT, timeout=LIMIT, check=False)
            problems += differ([("promtool", (got.returncode, got.stdout), (0, b""))])
    for bad in ("a 1", "# TYPE a gauge\na 1\n", "# HELP a b\n# TYPE a gauge\na{x=1} 1\n", "# HELP a b\n# TYPE a gauge\na 1\na 1\n", "# HELP a b\n# TYPE a counter\na 1\n",
                "# HELP a b\n# TYPE a gauge\na x\n"):
        try:
            parsed_metrics(bad)
            problems.append(f"the parser takes {bad!r}")
        except ValueError:
            pass
    report("/metrics", problems)


PLAIN, OPEN = "text/plain; version=0.0.4; charset=utf-8", "application/openmetrics-text; version=1.0.0; charset=utf-8"
# what a request accepts, and what it gets: OpenMetrics where it names that, and weighs plain text no more. The last two are Prometheus's, of 2.42 and of 3.0.
ACCEPTED = (("", PLAIN), ("*/*", PLAIN), ("text/plain", PLAIN), ("text/html, */*;q=0.8", PLAIN), ("application/json", PLAIN), ("application/openmetrics-text", OPEN),
            ("application/openmetrics-text; version=1.0.0", OPEN), ('Application/OpenMetrics-Text;version="1.0.0";charset=utf-8', OPEN),
            ("application/openmetrics-text;version=0.0.1", PLAIN), ("application/openmetrics-text;version=1.0.0;q=0", PLAIN),
            ("application/openmetrics-text;q=0.5, text/plain;q=0.6", PLAIN), ("application/openmetrics-text;q=0.5, text/*;q=0.6", PLAIN),
            ("application/openmetrics-text;q=0.5, text/plain;q=0.5", OPEN), ("application/openmetrics-text;q=0.5, text/plain;q=0.1, */*", OPEN),
            ("application/openmetrics-text;q=x", PLAIN), (";;q=,,=;", PLAIN), ("application/openmetrics-textual", PLAIN),
            ("application/openmetrics-text;version=1.0.0,application/openmetrics-text;version=0.0.1;q=0.75,text/plain;version=0.0.4;q=0.5,*/*;q=0.1", OPEN),
            ("application/openmetrics-text;version=1.0.0;escaping=allow-utf-8;q=0.5,application/openmetrics-text;version=0.0.1;q=0.4,"
             "text/plain;version=1.0.0;escaping=allow-utf-8;q=0.3,text/plain;version=0.0.4;q=0.2,*/*;q=0.1", OPEN))


def forms():
    """/metrics is OpenMetrics where a request asks for it: the same samples, by a strict parser, and by Prometheus's own where promtool is there."""
    problems = []
    with nodes(2) as two, web_of([it.port for it in two]) as web:
        web.json(f"/api/get?table=1&key=0&at={LAST + 1}")
        web.asked("/metrics")       # which the next ones count
        plain, (_, heads, body) = web.asked("/metrics")[2].decode(), web.asked("/metrics", Accept="application/openmetrics-text")
        (kinds, samples), (open_kinds, open_samples) = parsed_metrics(plain), parsed_openmetrics(body.decode())
        ends = {"counter": "_total", "info": "_info"}
        problems += differ([("the form", heads["Content-Type"], OPEN), ("samples", sorted(open_samples), sorted(samples)),
                            ("kinds", {name + ends.get(kind, ""): "gauge" if kind == "info" else kind for name, kind in open_kinds.items()}, kinds),
                            ("infos", [name for name, kind in open_kinds.items() if kind == "info"], ["vadungsil_build"]),
                            ("the version", [dict(labels)["version"] for (name, labels), value in samples.items() if name == "vadungsil_build_info" and value == 1.0], [va.__version__])])
        problems += [f"{line} has no help before it" for before, line in zip(body.decode().splitlines(), body.decode().splitlines()[1:])
                     if line.startswith("# TYPE ") and not before.startswith(f"# HELP {line.split(' ')[2]} ")]
        for accept, wanted in ACCEPTED:
            problems += differ([(f"Accept: {accept}", web.asked("/metrics", Accept=accept)[1]["Content-Type"], wanted)])
        problems += differ([("HEAD", web.asked("/metrics", "HEAD", Accept="application/openmetrics-text")[1]["Content-Type"], OPEN)])
        if shutil.which("promtool"):
            problems += imported(body.decode(), len(open_samples))
    for bad in ("a 1\n# EOF\n", "# HELP a b\n# TYPE a gauge\na 1\n", "# HELP a b\n# TYPE a gauge\na 1\n# EOF", "# HELP a b\n# TYPE a gauge\n# EOF\na 1\n# EOF\n",
                "# HELP a_total b\n# TYPE a_total counter\na_total 1\n# EOF\n", "# HELP a b\n# TYPE a counter\na 1\n# EOF\n", "# HELP a b\n# TYPE a info\na 1\n# EOF\n"):
        try:
            parsed_openmetrics(bad)
            problems.append(f"the parser takes {bad!r}")
        except ValueError:
            pass
    report(f"/metrics in two forms, as a request asks ({len(ACCEPTED)})", problems)


# what is said of a node that tells numbers, by name and labels
SAID = {("memory_bytes",): 47_185_920, ("run_seconds",): 7_260, ("guarded",): 1, ("rows",): 40, ("ends",): 12, ("keys",): 7, ("body_bytes",): 900, ("pins",): 1,
        ("read_bytes_total",): 4_096, ("written_bytes_total",): 65_536, ("failed_accepts_total",): 0, ("budget_bytes", ("of", "shared")): 1_000_000,
        ("budget_bytes", ("of", "readers")): 500_000, ("reserved_bytes", ("of", "shared")): 900_000, ("reserved_bytes", ("of", "readers")): 0, ("connections", ("door", "0")): 3,
        ("connections", ("door", "1")): 2, ("opened_total", ("door", "0")): 70, ("opened_total", ("door", "1")): 2, ("connections_most", ("door", "0")): 9,
        ("connections_most", ("door", "1")): 2, ("requests_total", ("kind", "20")): 12, ("requests_total", ("kind", "60")): 3, ("refusals_total", ("number", "26")): 8,
        ("refusals_total", ("number", "90")): 1, ("tables",): 3, ("version_info", ("version", "1.2.3")): 1}


def numbers():
    """A node's numbers and tables are in /api/ and in /metrics, in both forms; its tables are asked for anew only where it did something. Of a node of an
    earlier release nothing more is said than before, and it is asked once."""
    problems = []
    with nodes(1, words=("--messages", "2")) as (node,), Telling(node.port) as telling, Telling(node.port, None) as old, \
            web_of([telling.port, old.port, node.port], every=0.05, messages=2) as web:
        told, name = web.server.nodes[f"127.0.0.1:{telling.port}"], f"127.0.0.1:{telling.port}"
        waited(lambda: web.node(0)["stats"] is not None and telling.asked[STATS] > 9 and web.node(1)["operations"] is not None)
        for form in ({}, {"Accept": OPEN}):
            _, samples = (parsed_openmetrics if form else parsed_metrics)(web.asked("/metrics", **form)[2].decode())
            new = {name: value for name, value in samples.items() if name[0].startswith("vadungsil_node_") and name[0].split("_", 2)[2] not in ("up", "damaged", "reply_age_seconds")}
            wanted = {(f"vadungsil_node_{it}", tuple(sorted([("node", name), *labels]))): float(value) for (it, *labels), value in SAID.items()}
            problems += differ([(f"metrics {form}, {key}", new.get(key), wanted.get(key)) for key in sorted({*new, *wanted}) if f"127.0.0.1:{node.port}" not in dict(key[1]).values()])
        shown, other = web.node(0), web.node(1)
        problems += differ([("numbers", shown["stats"], {"memory": "47185920", "connections": "5", "most_connections": "11", "version": "1.2.3", "guarded": True, "seconds": "7260",
                                                         "rows": "40", "keys": "7"}),
                            ("tables", (shown["tables"], shown["tables_count"]), ([1, 2, 65535], 3)), ("tables are asked for once", telling.asked[OF_TABLES], 1),
                            ("an earlier release", (other["up"], other["error"], other["stats"], other["tables"], other["tables_count"], other["readable"]), (True, "", None, None, None, str(LAST))),
                            ("it is asked once", (old.asked[STATS], old.asked[OF_TABLES]), (1, 0)), ("no error is counted", dict(web.server.nodes[other["node"]].meters.refused()), {90: 0}),
                            ("the look goes on", waited(lambda: web.metric("vadungsil_answer_seconds_count", node=name, kind="delta") > 9) < LIMIT, True)])
        told._tables_at = (0, 0.0)      # as if it had been asked long ago, and had done something since
        waited(lambda: telling.asked[OF_TABLES] == 2)
    report("a node's numbers and tables, and none of an earlier release", problems)


def imported(text, count):
    """Prometheus's parser takes the text, once each sample has the time that an import wants, and finds as many series."""
    stamped = "".join(line + ("\n" if line.startswith("#") else " 1700000000\n") for line in text.splitlines())
    with tempfile.TemporaryDirectory() as folder:
        (pathlib.Path(folder) / "metrics.txt").write_text(stamped, encoding="utf-8")
        made = run(["promtool", "tsdb", "create-blocks-from", "openmetrics", f"{folder}/metrics.txt", f"{folder}/blocks"])
        (pathlib.Path(folder) / "blocks" / "wal").mkdir()       # what a dump looks for
        listed = run(["promtool", "tsdb", "dump", f"{folder}/blocks"])
        (pathlib.Path(folder) / "metrics.txt").write_text(stamped.removesuffix("# EOF\n"), encoding="utf-8")
        cut = run(["promtool", "tsdb", "create-blocks-from", "openmetrics", f"{folder}/metrics.txt", f"{folder}/more"])
    return differ([("an import", (made.returncode, made.stderr), (0, b"")), ("its series", len(listed.stdout.splitlines()), count), ("one that is cut off", cut.returncode != 0, True)])


def own_process():
    """process_* are of the page's own process: what ps says of it, and what it was started with."""
    problems, began = [], time.time()
    with nodes(1) as (node,), page_of([node.port], before="ulimit -n 200;") as (web, child):
        value = web.metric
        until, ticks = time.time(), 2
        problems += differ([("open files at most", value("process_max_fds"), 200.0),
                            ("its start", began - ticks <= value("process_start_time_seconds") <= until + ticks, True)])
        shown = lambda: [1024 * int(it) for it in run(["ps", "-o", "rss=,vsz=", "-p", child.pid]).stdout.split()]
        for place, name in enumerate(("process_resident_memory_bytes", "process_virtual_memory_bytes")):
            before, told, after = shown()[place], value(name), shown()[place]
            problems += differ([(name, 0.5 * min(before, after) <= told <= 2 * max(before, after), True)])
        # an answered request's socket may be open still: the least of some is without one
        few, spent = min(value("process_open_fds") for _ in range(10)), value("process_cpu_seconds_total")
        links = [opened_stream(web) for _ in range(5)]
        for _, lines in links:
            told_next(lines)
        waited(lambda: value("process_open_fds") == few + 5)
        for link, _ in links:
            link.close()
        while value("process_cpu_seconds_total") == spent:
            pass
        problems += differ([("seconds of processors", 0 < spent < value("process_cpu_seconds_total") <= os.cpu_count() * (time.time() - began + ticks), True)])
    report("the metrics of the page's own process", problems)


def interface():
    """Each path of the OpenAPI file is asked, and each answer, refusals and errors too, has the told fields and no others."""
    problems, count = [], 0
    with nodes(1) as (node,), web_of([node.port, free_port()]) as web:
        document = web.json("/api/openapi.json")[1]
        lone = f"&node=127.0.0.1:{node.port}"
        words = {"/api/nodes": [""], "/api/get": ["?table=1&key=5&at=9", "?table=1&key=5&at=99", "?table=1", "?table=1&key=5" + lone, "?table=1&key=5&node=x"],
                 "/api/range": ["?table=1&at=9&most=2", "?table=1&at=99" + lone], "/api/tag": ["?table=1&tag=1"], "/api/count": ["?table=1&at=3"],
                 "/api/changes": ["?table=1&from=0&to=20", "?kind=get&table=1&key=5&from=3", "?table=1&from=0&to=99", "?kind=tag&table=1&tag=2&from=1&to=40"], "/api/openapi.json": [""]}
        problems += differ([("the paths", sorted(document["paths"]), sorted([*words, "/api/events"]))])
        for path, asked in words.items():
            told = document["paths"][path]["get"]
            for more in asked:
                status, value = web.json(path + more)
                count += 1
                schema = told["responses"].get(str(status), {}).get("content", {}).get("application/json", {}).get("schema")
                problems += breaks(value, schema, document, f"{path}{more}") if schema else [f"{path}{more}: {status} is not told"]
        listed = {path: {it["name"] for it in told["get"].get("parameters", [])} for path, told in document["paths"].items()}
        from vadungsil.web.questions import PARAMETERS
        problems += differ([(kind, listed[f"/api/{kind}"], {*names, "at", "most", "node"}) for kind, names in PARAMETERS.items()])
        link, lines = opened_stream(web)
        problems += breaks(told_next(lines), document["components"]["schemas"]["Standing"], document, "/api/events")
        link.close()
    report(f"each path of the OpenAPI file ({count} answers)", problems)


# ---------------------------------------------------------------- commands and files

def run(words, data=b"", **more):
    return subprocess.run([str(it) for it in words], input=data, stdout=subprocess.PIPE, stderr=subprocess.PIPE, timeout=60, check=False, env=ENVIRONMENT, **more)


def command():
    """`python3 -m vadungsil.web` listens, answers and ends by Ctrl-C and SIGTERM with 0; bad words are 2, a port that is taken 1."""
    problems = []
    with nodes(1) as (node,):
        for number in (signal.SIGINT, signal.SIGTERM):
            child = subprocess.Popen([sys.executable, "-m", "vadungsil.web", "--node", str(node.port), "--http", "127.0.0.1:0"], stdout=subprocess.PIPE, stderr=subprocess.PIPE,
                                     text=True, env=ENVIRONMENT)
            try:
                line = child.stdout.readline()
                port = int(re.fullmatch(r"listening http://127\.0\.0\.1:(\d+)/\n", line)[1])
                problems += differ([("answers", Web(port=port).asked("/")[0], 200)])
                taken = run([sys.executable, "-m", "vadungsil.web", "--node", node.port, "--http", f"127.0.0.1:{port}"])
                problems += differ([("a port that is taken", (taken.returncode, b"can't listen" in taken.stderr), (1, True))])
                child.send_signal(number)
                out, err = child.communicate(timeout=LIMIT)
                problems += differ([(f"signal {number}", (child.returncode, out, err), (0, "", ""))])
            finally:
                if child.poll() is None:
                    child.kill()
                    child.communicate()
    for words in (["--table", "1"], ["--table", "65536=a"], ["--stream", "1=2"], ["--node", "x"], ["--node", "1", "--http", "x"], ["--node", "1", "--node", "127.0.0.1:1"], ["--node", "1", "--every", "0"], ["--node", "1", "--limit", "0"]):
        problems += differ([(" ".join(words), run([sys.executable, "-m", "vadungsil.web", *words]).returncode, 2)])
    report("the command `python3 -m vadungsil.web`", problems)


def files():
    """The page's files hold no script or style inside, take nothing from elsewhere, and never make markup of text; modules are short."""
    web, problems = PACKAGE / "vadungsil" / "web", []
    page = (web / "page.html").read_text()
    problems += [f"page.html: {it}" for it in re.findall(r"<script>|<style|\son\w+=|\sstyle=", page)]
    for path in web.iterdir():
        if path.suffix in (".js", ".html", ".css", ".svg"):
            text = path.read_text().replace("http://www.w3.org/2000/svg", "")
            problems += [f"{path.name}: {it}" for it in re.findall(r"https?://|innerHTML|outerHTML|insertAdjacent|document\.write|eval\(|setTimeout\(['\"]|url\(|@import", text)]
    for path in [*web.glob("*"), PACKAGE / "vadungsil" / "picture.py"]:
        if path.is_file() and len(path.read_text().splitlines()) > 300:
            problems.append(f"{path.name} has more than 300 lines")
    report("the files of the page", problems)


def pictures():
    """vadungsil.picture draws frames and a node; README's picture is what it writes; what can't be drawn is refused."""
    docs, problems = ROOT / "docs", []
    picture = [sys.executable, "-m", "vadungsil.picture"]
    story, late = (docs / "streams.bin").read_bytes(), docs / "streams-late.bin"
    drawn = run([*picture, "--horizon", "2", "--missing", late], story)
    committed = (docs / "streams.svg").read_text()
    for line in drawn.stdout.decode().splitlines()[2:-1]:
        if line not in committed:
            problems.append(f"docs/streams.svg lacks {line}")
    texts = [it.text for it in xml.etree.ElementTree.fromstring(drawn.stdout).iter("{http://www.w3.org/2000/svg}text")]
    import reference
    items, _ = reference.items_of(story)
    problems += differ([("marks", {f"resolved time {reference.readable(items, 2)}", "oldest readable 2", *(f"closed {reference.closed(items, it)}" for it in (1, 2))} - set(texts), set()),
                        ("lacks", "lacks 2" in texts, True), ("the late entry", drawn.stdout.count(b'stroke="#c05621"'), 1)])
    with Served(4, streams=2) as node:
        fed(node.port, va.Feeder().feed(story))
        whole = run([*picture, "--node", f"127.0.0.1:{node.port}", "--keys", "1:5,1:6,9:9"])
        texts = [it.text for it in xml.etree.ElementTree.fromstring(whole.stdout).iter("{http://www.w3.org/2000/svg}text")]
        problems += differ([("of a node", {"prefix 4, closed 7", "prefix 1, closed 4", "1:5", "1:6", "9:9", "A", "C", "resolved time 4", "lacks 2"} - set(texts), set())])
    writer = va.LogWriter(7, 1)
    frames = b"".join([*(va.encode(writer.commit([(1, at % 9, 1, b"<&\x00" if at % 2 else b"<b>&")])) for at in range(1, 400)), *map(va.encode, writer.marks())])
    many = run([*picture, "--horizon", "100", "--caption", "<i>&"], frames)
    texts = [it.text for it in xml.etree.ElementTree.fromstring(many.stdout).iter("{http://www.w3.org/2000/svg}text")]
    problems += differ([("text", ("<i>&" in texts, many.returncode), (True, 0))])
    with tempfile.TemporaryDirectory() as folder:
        path = pathlib.Path(folder) / "it.svg"
        problems += differ([("--out", (run([*picture, "--out", path], story).stdout, path.read_bytes() == run(picture, story).stdout), (b"", True))])
    for name, words, data, wanted in (
            ("a prune above the mark", ["--horizon", "9"], story, (1, b"refused 24 readable 4\n")), ("a stream above", ["--streams", "1"], story, (1, b"refused 21\n")),
            ("two logs", [], story + va.encode(va.Mark(8, 1, 0, 0)), (1, b"refused 20\n")), ("cut off", [], story[:-1], (1, b"refused 1\n")),
            ("no node", ["--node", f"127.0.0.1:{free_port()}"], b"", (1, b"refused 93\n")), ("keys", ["--keys", "1-5"], story, (2, b"")),
            ("no file", ["--missing", "none.bin"], story, (2, b"")), ("streams", ["--streams", "65"], story, (1, b"refused 5\n")), ("nothing", [], b"", (0, None))):
        got = run([*picture, *words], data)
        problems += differ([(name, (got.returncode, got.stdout if wanted[1] is not None else None), wanted)])
    report("pictures of frames and of a node", problems)


def look():
    """`make look` runs a node, two feeders with a slow stream and the page; it ends after --seconds, or by Ctrl-C."""
    recipe = re.search(r"^look:.*\n\t(.*)$", (ROOT / "Makefile").read_text(), re.M)[1]
    short = run([sys.executable, *recipe.replace("$(LOOK)", "--seconds 0.5 --http 127.0.0.1:0").split()], cwd=ROOT)
    problems = differ([("ends", (short.returncode, short.stderr), (0, b""))])
    child = subprocess.Popen([sys.executable, *recipe.replace("$(LOOK)", "--http 127.0.0.1:0").split()], cwd=ROOT, stdout=subprocess.PIPE, stderr=subprocess.PIPE, text=True)
    try:
        web = Web(port=int(re.search(r"http://127\.0\.0\.1:(\d+)/", child.stdout.readline())[1]))
        waited(lambda: any(it["holds"] and int(it["lag"]) > 0 for it in web.node()["streams"]) and int(web.node()["readable"]) > 0)
        at = int(web.node()["readable"])
        problems += differ([("rows", bool(web.json(f"/api/range?table=1&at={at}")[1]["answers"][0]["rows"]), True)])
        child.send_signal(signal.SIGINT)
        _, err = child.communicate(timeout=4 * LIMIT)
        problems += differ([("ends by Ctrl-C", (child.returncode, err), (0, ""))])
    finally:
        if child.poll() is None:
            child.send_signal(signal.SIGINT)        # so that it ends its node too
            child.communicate(timeout=4 * LIMIT)
    report("make look", problems)


def served_until_interrupted(words):
    """Whether a command said that it listens, and its status after Ctrl-C."""
    child = subprocess.Popen(["bash", "-c", f"exec {words}"], stdout=subprocess.PIPE, text=True, env=ENVIRONMENT)
    try:
        line = child.stdout.readline()
        child.send_signal(signal.SIGINT)
        child.communicate(timeout=LIMIT)
        return line.startswith("listening http://127.0.0.1:"), child.returncode
    finally:
        if child.poll() is None:
            child.kill()
            child.communicate()


def page():
    """Each command and address that docs/LOOKING.md shows works as it stands there, on other ports."""
    problems, shown = [], of("web.py commands")
    with nodes(2) as two, tempfile.TemporaryDirectory() as folder, web_of([it.port for it in two]) as web:
        ports = {"7420": str(two[0].port), "7421": str(two[1].port), "8080": str(web.port), "picture.svg": f"{folder}/picture.svg"}
        for line in shown:
            words, said = line.text if ".web" not in line.text or "--http" in line.text else f"{line.text} --http 127.0.0.1:8080", line.printed
            for word, stands_for in ports.items():
                words = words.replace(word, stands_for)
            words = words.replace("python3", sys.executable)
            if "vadungsil.web" in words:
                problems += differ([(line.text, served_until_interrupted(words.replace(str(web.port), "0")), (True, 0))])
                continue
            got = run(["bash", "-c", words], cwd=ROOT)
            if got.returncode or (said and said not in got.stdout.decode()):
                problems.append(f"{line.text}: status {got.returncode}, {got.stdout[-200:]!r}, {got.stderr[-200:]!r}")
        problems += [] if len(shown) >= 5 else [f"only {len(shown)} commands"]
    report(f"the commands of docs/LOOKING.md ({len(shown)})", problems)


# the longest first
CHECKS = (look, large_bodies, pictures, away_and_back, events, page, command, limits, answers, many_rows, refusals, unequal, bad_requests, damaged, silent_node, held_back, metrics,
          forms, numbers, own_process, interface, files)


def browser(words):
    """The checks in Chromium, or why they are skipped."""
    lacks = [name for name, there in (("chromium", shutil.which("chromium")), ("chromium-driver", shutil.which("chromedriver")), ("python3-selenium", selenium)) if not there]
    if lacks:
        skip(f"the page in a browser: {', '.join(lacks)} not installed")
        return
    try:
        import web_page
        web_page.run(words)
    except Exception as error:  # pylint: disable=broad-except
        report("the page in a browser", [f"{type(error).__name__}: {error}"])


def main(words):
    start = time.monotonic()
    if not is_built(pathlib.Path(PROGRAM)):
        return ended()
    if words[:1] == ["--page"]:
        import web_page
        web_page.write_page(pathlib.Path(words[1]))
        return 0
    with concurrent.futures.ThreadPoolExecutor(1 if words else SIDE_BY_SIDE) as pool:
        list(pool.map(timed if words else guarded, [check for check in CHECKS if not words or check.__name__ in words]))
    print(f"web without a browser: {time.monotonic() - start:.1f} s", flush=True)
    if not words or any(word.startswith("browser") for word in words):
        browser([word for word in words if word.startswith("browser_")])
    print(f"web: {time.monotonic() - start:.1f} s")
    return ended()


if __name__ == "__main__":
    sys.exit(main(sys.argv[1:]))
