"""Checks of where a node is, which tests/checks/python_client.py runs: addresses as they are written, that of the environment, a Unix socket, what is
told where no node answers, and bodies as people read them. Standard library only."""
import asyncio
import contextlib
import os
import pathlib
import pickle
import re
import socket
import sys
import tempfile
import threading

sys.path.append(str(pathlib.Path(__file__).resolve().parents[1] / "lib"))
from checks import differ, free_port, report
from client import Node as Served
from packaged import LIMIT, PACKAGE, ROOT, command, run, va
from python_servers import Peer
from vadungsil.address import place_of
from vadungsil.bodies import shown, table_of

FIRST = (ROOT / "examples" / "first.bin").read_bytes()
ENTRY = FIRST[:4 + int.from_bytes(FIRST[:4], "big")]
FOLLOW = ROOT / "connectors" / "file" / "follow"


def environment(address=None):
    """That of this process, with an address or none."""
    kept = {name: value for name, value in os.environ.items() if name != "HKREP_NODE"}
    return {**kept, **({} if address is None else {"HKREP_NODE": str(address)})}


@contextlib.contextmanager
def named(address):
    """HKREP_NODE in this process."""
    before = dict(os.environ)
    os.environ.clear()
    os.environ.update(environment(address))
    try:
        yield
    finally:
        os.environ.clear()
        os.environ.update(before)


# ---------------------------------------------------------------- as they are written

WRITTEN = ((7421, ("127.0.0.1", 7421), "127.0.0.1:7421"), ("7421", ("127.0.0.1", 7421), "127.0.0.1:7421"), ("far.example:1", ("far.example", 1), "far.example:1"),
           ("10.0.0.7:65535", ("10.0.0.7", 65535), "10.0.0.7:65535"), ("[::1]:7420", ("::1", 7420), "[::1]:7420"), ("[fe80::1%eth0]:7", ("fe80::1%eth0", 7), "[fe80::1%eth0]:7"),
           (("far", 7), ("far", 7), "far:7"), ("tls://far:7429", ("far", 7429, True), "far:7429"), ("tls://[::1]:7429", ("::1", 7429, True), "[::1]:7429"),
           ("unix:/run/node.sock", ("", 0, False, "/run/node.sock"), "unix:/run/node.sock"), ("unix:a b:c", ("", 0, False, "a b:c"), "unix:a b:c"))
FORMS = "an address is PORT, HOST:PORT, [::1]:PORT, tls://HOST:PORT or unix:PATH"
WRONG = (*((word, FORMS) for word in ("", "x", "a:b", "far:0", "far:65536", "far:+7", "a b:7", "far/7:7", "[far]:7", "1" * 30, "00000199999", 0, 70000, ("far", 0), "tls://far", "tls://:x")),
         ("::1", "brackets, and a port behind: [::1]:7420"), ("[::1]", "brackets, and a port"), ("::1:7420", "brackets, and a port"),
         ("tcp://far:7420", "write far:7420, or tls://far:7420 for TLS"), ("http://far:7420/", "write far:7420, or"), ("unix:", "1 to 107 bytes"), ("unix:" + "a" * 108, "1 to 107 bytes"))


def told_of(call):
    try:
        return call()
    except ValueError as error:
        return str(error)


def addresses():
    """Each form by every client, and what is no address."""
    problems = []
    for word, place, name in WRITTEN:
        place = (*place, False, "")[:4] if len(place) == 2 else (*place, "")[:4]
        problems += differ([(word, (tuple(place_of(word)), place_of(word).name), (place, name)), (f"{word} by name", [kind(word).name for kind in (va.Node, va.AsyncNode)], [name] * 2)])
    for word, why in WRONG:
        for make in (va.Node, va.AsyncNode, lambda it: va.Nodes([it])):
            told = told_of(lambda: make(word))
            problems += differ([(f"{word!r}: {told}", isinstance(told, str) and told.startswith(f"no address: {word!r}: ") and why in told, True)])
    for words in (["--node", "tcp://far:7420", "front"], ["--port", "70000", "front"]):
        out, status, told = command(words)
        problems += differ([(words, (out, status, told.startswith("vadungsil: no address: ")), ("", 2, True))])
    got = run([FOLLOW, "--file", "x", "--log", "7", "--streams", "1", "--node", "tcp://far:7420"])
    problems += differ([("a connector", (got.returncode, b"write far:7420, or tls://far:7420 for TLS" in got.stderr), (64, True))])
    report(f"addresses in each form ({len(WRITTEN)}), and what is none ({len(WRONG)})", problems)


def of_the_environment():
    """Where none is given HKREP_NODE counts, and without that 127.0.0.1:7420."""
    problems = []
    for word, name in ((None, "127.0.0.1:7420"), ("", "127.0.0.1:7420"), ("far:7421", "far:7421"), ("unix:/a", "unix:/a")):
        with named(word):
            problems += differ([(f"by {word!r}", [kind().name for kind in (va.Node, va.AsyncNode)], [name] * 2)])
    with named("tls://far"):
        problems += differ([("a wrong one", [told_of(kind) for kind in (va.Node, va.AsyncNode)], [f"HKREP_NODE in the environment: no address: 'tls://far': {FORMS}"] * 2),
                            ("which isn't asked for", va.Node(7421).name, "127.0.0.1:7421")])
    with Served(4) as served, tempfile.TemporaryDirectory() as folder:
        with named(served.port), va.Node() as node:
            problems += differ([("a node", node.front(), va.Front(0, 0))])
        problems += differ([("the command", command(["feed"], FIRST, env=environment(served.port))[:2], ("done 2\n", 0)),
                            ("given", command(["--port", str(served.port), "get", "1", "5"], env=environment("far:1"))[:2], ("9 41\n", 0))])
        log = pathlib.Path(folder) / "log"
        log.write_bytes(FIRST)
        words = [FOLLOW, "--file", log, "--log", "7", "--streams", "1", "--once"]
        problems += differ([("a follower", (lambda got: (got.returncode, got.stderr[-200:]) if got.returncode else 0)(run(words, env=environment(f"127.0.0.1:{served.port}"))), 0)])
        wrong = (command(["front"], env=environment("far"))[1:], *((got.returncode, got.stderr.decode()) for got in (
            run([sys.executable, "-m", "vadungsil.web"], cwd=PACKAGE, env=environment("far")), run(words, env=environment("far")))))
        problems += differ([("a wrong one by a command", [(status, "HKREP_NODE in the environment: no address: 'far'" in told) for status, told in wrong], [(2, True), (2, True), (64, True)])])
    report("the address of the environment", problems)


# ---------------------------------------------------------------- a Unix socket

def passed_on(one, other):
    with contextlib.suppress(OSError):
        for piece in iter(lambda: one.recv(65_536), b""):
            other.sendall(piece)
    with contextlib.suppress(OSError):
        other.shutdown(socket.SHUT_WR)


@contextlib.contextmanager
def relay(path, port):
    """A Unix socket behind which the node of a port is."""
    listener = socket.socket(socket.AF_UNIX)
    listener.bind(path)
    listener.listen()

    def serve():
        with contextlib.suppress(OSError):
            while True:
                link = listener.accept()[0]
                other = socket.create_connection(("127.0.0.1", port), timeout=LIMIT)
                for pair in ((link, other), (other, link)):
                    threading.Thread(target=passed_on, args=pair, daemon=True).start()

    threading.Thread(target=serve, daemon=True).start()
    try:
        yield
    finally:
        listener.shutdown(socket.SHUT_RDWR)
        listener.close()


def unix_sockets():
    """Every client over a Unix socket; one that isn't there yet is waited for."""
    problems = []

    async def read(address):
        async with va.AsyncNode(address) as node:
            return await node.get(1, 5)

    with tempfile.TemporaryDirectory() as folder, Served(12, words=("--messages", "2")) as served:
        path = f"{folder}/node.sock"
        address = f"unix:{path}"
        try:
            va.Node(address, wait=0).front()
            problems.append("no socket answers")
        except va.LinkBroken as broken:
            problems += differ([("not there", str(broken).startswith(f"{address}: nobody listens there: "), True)])
        with va.Node(address, wait=LIMIT) as early:
            timer = threading.Timer(0.2, lambda: stack.enter_context(relay(path, served.port)))
            with contextlib.ExitStack() as stack:
                timer.start()
                problems += differ([("waited for", early.front(), va.Front(0, 0))])
                timer.join()
                log = pathlib.Path(folder) / "log"
                log.write_bytes(FIRST)
                got = run([FOLLOW, "--file", log, "--log", "7", "--streams", "1", "--node", address, "--once"])
                problems += differ([("a follower", (got.returncode, got.stderr[-200:] if got.returncode else b""), (0, b"")), ("a node", early.get(1, 5), va.Row(9, b"A")),
                                    ("a long request", early.items([ENTRY] * 3_000), 3),
                                    ("chunks", len(list(early.parts())), 1), ("asyncio", asyncio.run(read(address)), va.Row(9, b"A")),
                                    ("the command", command(["--node", address, "get", "1", "5"])[:2], ("9 41\n", 0))])
                with va.Nodes([address, served.port]) as nodes:
                    problems += differ([("many", (nodes.count(1), sorted(it.address for it in nodes.members())), (1, sorted([address, f"127.0.0.1:{served.port}"])))])
    report("nodes behind a Unix socket", problems)


# ---------------------------------------------------------------- where no node answers

class Says:
    """A server that says the same to each who comes, whatever it is sent."""

    def __init__(self, data):
        self.listener, self.data = socket.create_server(("127.0.0.1", 0)), data
        self.port = self.listener.getsockname()[1]
        threading.Thread(target=self.serve, daemon=True).start()

    def serve(self):
        with contextlib.suppress(OSError):
            while True:
                link = self.listener.accept()[0]
                with link, contextlib.suppress(OSError):
                    link.recv(64)
                    link.sendall(self.data)
                    link.shutdown(socket.SHUT_WR)
                    link.settimeout(1.0)
                    while link.recv(64):
                        pass

    def __enter__(self):
        return self

    def __exit__(self, *_):
        self.listener.shutdown(socket.SHUT_RDWR)
        self.listener.close()


STRANGERS = (("HTTP", b"HTTP/1.1 400 Bad Request\r\nServer: proxy\r\n\r\n", 2, "one who speaks HTTP: 'HTTP/1.1 400 Bad Request'; name the node's own port, without a proxy"),
             ("a TLS alert", bytes.fromhex("15030300020246"), 2, "one who speaks TLS, and sends an alert; write tls://HOST:PORT"),
             ("Redis", b"-ERR unknown command\r\n", 2, "another server: '-ERR unknown command'; name the port of a node"))


def raised_by(call):
    try:
        call()
    except va.VadungsilError as error:
        return error
    return None


def strangers():
    """What answers there is no node: it is told what it seems to be, by its first line."""
    problems = []
    for name, data, number, told in STRANGERS:
        with Says(data) as peer, va.Node(peer.port) as node:
            async def ask():
                async with va.AsyncNode(peer.port) as other:
                    await other.front()

            for way, call in (("a node", node.front), ("asyncio", lambda: asyncio.run(ask()))):
                error = raised_by(call)
                wanted = f"127.0.0.1:{peer.port}: refused {number}: no node answers there, but {told}"
                problems += differ([(f"{name} by {way}", (type(error), error and error.number, str(error)[:len(wanted)]), (va.NotANode, number, wanted)),
                                    ("and copied", str(pickle.loads(pickle.dumps(error))), str(error))])
            out, status, said = command(["--port", str(peer.port), "front"])
            problems += differ([(f"{name} by the command", (out, status, told in said), (f"refused {number}\n", 1, True))])
            got = run([FOLLOW, "--file", os.devnull, "--log", "7", "--streams", "1", "--node", peer.port, "--once"])
            problems += differ([(f"{name} by a follower", (got.returncode, told in got.stderr.decode()), (1, True))])
    report("who answers and is no node is told as what it seems to be", problems)


def no_answer():
    """Nobody listens; one listens and doesn't reply, at first or later; a name is unknown."""
    problems, nobody = [], free_port()

    async def ask(address):
        async with va.AsyncNode(address, limit=0.3, wait=0) as node:
            await node.front()

    for name in (f"127.0.0.1:{nobody}", f"localhost:{nobody}"):
        problems += differ([(f"nobody, by {way}", str(raised_by(call)), f"{name}: nobody listens there: Connection refused") for way, call in (
            ("a node", va.Node(name, wait=0).front), ("asyncio", lambda: asyncio.run(ask(name))))])
    problems += differ([("by a follower", (lambda got: (got.returncode, b"nobody listens there: " in got.stderr))(
        run([FOLLOW, "--file", os.devnull, "--log", "7", "--streams", "1", "--node", nobody, "--once"])), (1, True))])
    told = str(raised_by(va.Node("nobody.invalid:7420", wait=0).front))
    problems += differ([(f"no such name: {told}", told.startswith("nobody.invalid:7420: no address is found for this name: "), True)])
    with socket.create_server(("127.0.0.1", 0)) as silent:
        port = silent.getsockname()[1]
        for way, call in (("a node", va.Node(port, limit=0.3).front), ("asyncio", lambda: asyncio.run(ask(port)))):
            told = raised_by(call)
            problems += differ([(f"silent, by {way}", (type(told), str(told)), (
                va.TimeLimit, f"127.0.0.1:{port}: no reply within 0.3 s, though it listens: all connections of the node may be taken, or it is stopped"))])
        out, status, said = command(["--port", str(port), "--limit", "0.3", "front"])
        problems += differ([("silent, by the command", (out, status, "though it listens" in said), ("refused 91\n", 1, True))])
    with Peer([(1, 0, True)]) as peer, va.Node(peer.port, limit=0.3) as node:
        node.front()
        problems += differ([("silent behind a reply", "no reply within 0.3 s: the node is stopped, or takes longer" in str(raised_by(node.front)), True)])
    report("nobody who listens and one who doesn't reply are told apart", problems)


def other_logs():
    """What is of another log is told with both logs and the node."""
    problems, foreign = [], va.Mark(9, 1, 0, 0)
    with Served(16, words=("--messages", "2")) as served, Served(2, words=("--messages", "2")) as other, va.Node(served.port) as node:
        fragment = va.Fragment(9, 0, 0, (va.Stream(),))

        async def give(call):
            async with va.AsyncNode(served.port) as own:
                await call(own)

        wanted = f"127.0.0.1:{served.port} has log 7, and was given log 9: refused 20: {va.REASONS[20].meaning}; "
        for name, call in (("items", lambda: node.items([va.Mark(7, 1, 0, 0), foreign])), ("items as bytes", lambda: node.items([ENTRY, va.encode(foreign, 1)])), ("join", lambda: node.join(fragment)),
                           ("merge", lambda: node.merge(fragment)), ("chunks", lambda: node.take_parts([va.later.LastPart((), va.later.Head(9, 0, 0, (va.Stream(),), 0))])),
                           ("asyncio", lambda: asyncio.run(give(lambda own: own.items([foreign])))), ("asyncio, a join", lambda: asyncio.run(give(lambda own: own.join(fragment))))):
            error = raised_by(call)
            problems += differ([(name, (error and error.number, str(error)[:len(wanted)]), (20, wanted))])
        with tempfile.TemporaryDirectory() as folder:
            log = pathlib.Path(folder) / "log"
            log.write_bytes(va.encode(foreign))
            got = run([FOLLOW, "--file", log, "--log", "9", "--streams", "1", "--node", served.port, "--once"])
        problems += differ([("the command", (lambda got: (got[:2], wanted in got[2]))(command(["--port", str(served.port), "feed"], va.encode(foreign))), (("refused 20\n", 1), True)),
                            ("a follower", (got.returncode, f"127.0.0.1:{served.port} has log 7, and not 9: refused 20" in got.stderr.decode()), (4, True)),
                            ("of two streams", raised_by(lambda: va.Node(other.port).items([va.Mark(7, 2, 0, 0)])).number, 21)])
    report("what is of another log is told with both logs", problems)


# ---------------------------------------------------------------- bodies

BODIES = ((b"", "-", "-", "-"), (b"plain", "plain", "plain", "706c61696e"), ("Zoë 東".encode(), "Zoë 東", "Zoë 東", "5a6fc3ab20e69db1"), (b"a\\b", "a\\b", "a\\\\b", "615c62"),
          (b"a\nb", "\\x610a62", "a\\nb", "610a62"), (b"\x1b[2J", "\\x1b5b324a", "\\u{1b}[2J", "1b5b324a"), (b"a\xff\x00\n", "\\x61ff000a", "a\\xff\\u{0}\\n", "61ff000a"),
          ("ë".encode() + b"\xff", "\\xc3abff", "\\xc3\\xab\\xff", "c3abff"), ("a\u202eb".encode(), "\\x61e280ae62", "a\\u{202e}b", "61e280ae62"),
          ("\u2066".encode(), "\\xe281a6", "\\u{2066}", "e281a6"), ("\u200f".encode(), "\\xe2808f", "\\u{200f}", "e2808f"), ("a\u2028b".encode(), "\\x61e280a862", "a\\u{2028}b", "61e280a862"),
          ("\u00ad".encode(), "\\xc2ad", "\\u{ad}", "c2ad"), ("\ue000".encode(), "\\xee8080", "\\u{e000}", "ee8080"), ("\U0001f600".encode(), "\U0001f600", "\U0001f600", "f09f9880"))


def bodies():
    """Bodies as text where they are plain, else in hexadecimal; always one or the other; and the tables of the command."""
    problems = [problem for body, *wanted in BODIES for problem in differ([(body, [shown(body, way) for way in ("plain", "text", "hex")], wanted)])]
    rows = [va.KeyRow(5, va.Row(9, b"A")), va.KeyRow(12, va.Row(10, b"\xff"))]
    problems += differ([("a table", table_of(rows), "key  tag  body\n  5    9  A\n 12   10  \\xff\nrows 2"), ("an empty one", table_of([]), "key  tag  body\nrows 0")])
    with Served(12) as served, va.Node(served.port) as node:
        log = va.LogWriter(7, 1)
        node.items([log.commit([(1, 5, 9, b"A"), (1, 12, 10, b"\xff")]), *log.marks()])
        problems += differ([(words, command(["--port", str(served.port), *words])[:2], (out, 0)) for words, out in (
            (["range", "1", "0", "99"], "5 9 41\n12 10 ff\nrows 2\n"), (["range", "1", "0", "99", "--table"], "key  tag  body\n  5    9  A\n 12   10  \\xff\nrows 2\n"),
            (["tag", "1", "10", "--text"], "key  tag  body\n 12   10  \\xff\nrows 1\n"), (["get", "1", "5", "--hex"], "key  tag  body\n  5    9  41\nrows 1\n"),
            (["get", "1", "6", "--table"], "key  tag  body\nrows 0\n"), (["1", "get", "1", "5"], "9 41\n"), (["get", "1", "5", "--at", "1"], "9 41\n"), (["0", "count", "1"], "count 0\n"))])
        problems += differ([("both", command(["--port", str(served.port), "get", "1", "5", "--hex", "--text"])[1], 2)])
    report("bodies as people read them, and the tables of the command", problems)


def words_told():
    """Wrong words of the command and of calls are told by their name, and sent to nobody."""
    problems, nobody = [], str(free_port())
    for words, told in ((["get", "1", "-1"], "key must be 0 to 2^64 - 1, and is '-1'"), (["get", "70000", "1"], "table must be 0 to 65535"), (["tag", "1", "4294967296"], "tag must be 0 to 2^32 - 1"),
                        (["get", "1", "5", "--at", "x"], "time must be 0 to 2^62"), (["delta", "-1"], "base must be 0 to 2^62"), (["prune", "x"], "horizon must be 0 to 2^62"),
                        (["range", "1", "9", "3"], "low is 9, above high, 3"), (["export", "--tables", "1,x"], "table must be 0 to 65535"), (["explain", "Nothing"], "no refusal has the number or the name 'Nothing'")):
        out, status, said = command(["--port", nobody, *words])
        problems += differ([(f"{words}: {said}", (out, status, told in said), ("", 2, True))])
    problems += differ([("a name of a refusal", command(["explain", "notyet"])[0], f"{va.explain(26)}\n")])
    node, log = va.Node(int(nobody)), va.LogWriter(7, 1)
    for name, call, told in (("range", lambda: node.range(1, 9, 3), "low is 9, above high, 3"), ("a page", lambda: node.page(1, 9, 3, at=1), "low is 9"), ("rows", lambda: list(node.rows(1, 9, 3)), "low is 9"),
                             ("a moment", lambda: va.NodeMoment(node, 1).range(1, 9, 3), "low is 9"), ("a put of two", lambda: log.commit(puts=[(1, 5, 9, b""), (1, 2)]), "(1, 2) is no put: it wants (table, key, tag, body)"),
                             ("a put of three", lambda: log.commit(puts=[(1, 2, b"")]), "(1, 2, b'') is no put"), ("a text", lambda: log.commit(puts=["abcd"]), "'abcd' is no put"),
                             ("a removal", lambda: log.commit(removes=[(1, 2, 3)]), "(1, 2, 3) can't be removed: a place is (table, key)")):
        problems += differ([(name, told in str(told_of(call)), True)])
    problems += differ([("nothing was committed", (log.time, log.number(1)), (0, 0))])
    report("wrong words of the command and of calls", problems)


def feeds():
    """`feed` takes any number of items, and `push` is its old name; a terminal is shown how many went."""
    problems, log = [], va.LogWriter(7, 1)
    many = b"".join(va.encode(it) for it in [va.Mark(7, 1, 0, 0)] * 65_537) + va.encode(log.commit([(1, 5, 9, b"A")])) + va.encode(log.mark(1))
    with Served(8, words=("--messages", "2")) as served:
        port = ["--port", str(served.port)]
        problems += differ([("more than a request has", command([*port, "feed"], many)[:2], ("done 3\n", 0)), ("counted", command([*port, "feed", "--messages", "2"], many), ("done 5\n", 0, "new 0 of 65539\n")),
                            ("its old name", command([*port, "push"], FIRST), ("done 6\n", 0, "vadungsil: push is feed now\n")),
                            ("nothing", command([*port, "feed"])[:2], ("done 7\n", 0)), ("read", command([*port, "get", "1", "5"])[0], "9 41\n")])
        typed = run(["script", "-qec", f"{sys.executable} -m vadungsil --port {served.port} feed < '{ROOT}/examples/first.bin'", os.devnull], cwd=PACKAGE).stdout.decode()
        problems += differ([("on a terminal", re.sub(r"\r\n", "\n", typed), "\r2 items\r\x1b[Kdone 8\n")])
    shown_words = command(["--help"])[0]
    problems += differ([("help", ("feed" in shown_words, "push" in shown_words), (True, False))])
    report("item frames are fed by the command", problems)


CHECKS = (addresses, of_the_environment, unix_sockets, strangers, no_answer, other_logs, bodies, words_told, feeds)
