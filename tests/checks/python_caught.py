"""Checks of what the Python package catches before it is a wrong answer or a second history, which tests/checks/python_client.py runs: a writer that
resumes from too little, a question before anything can be read, a latest time that would go back, a file of another form than its name says.
Standard library only."""
import asyncio
import contextlib
import pathlib
import socket
import sys
import threading
import time

sys.path.append(str(pathlib.Path(__file__).resolve().parents[1] / "lib"))
from checks import differ, report
from client import Node as Served
from packaged import command, va
from vadungsil.export import form_named

NOT_YET = "nothing is readable yet: no marks came"


def raised(kind, call):
    """The error of this kind that a call raises, or what it gave."""
    try:
        return call()
    except kind as error:
        return error


def resumed_from_too_little():
    """A whole without an entry, or with fewer than are known to be written, is no place to go on from."""
    stream, resume = va.Stream, va.LogWriter.resume
    empty, some = va.Fragment(7, 0, 0, (stream(0, 0), stream(0, 0))), va.Fragment(7, 0, 0, (stream(3, 5), stream(2, 5)))
    pairs = []
    for name, whole, words, error, part in (
            ("nothing", empty, {}, va.NothingToResume, "log 7 has no entry there"), ("marks alone", va.Fragment(7, 0, 0, (stream(0, 4), stream(0, 4))), {}, va.NothingToResume, "empty=True"),
            ("a number less", some, {"at_least": [3, 3]}, va.NotResumable, "stream 2 ends with entry 2 there, and 3 were written"), ("a time less", some, {"at_least": 6}, va.NotResumable, "it ends with time 5, and time 6 was committed"),
            ("nothing, where something was", empty, {"empty": True, "at_least": [1, 0]}, va.NotResumable, "stream 1 ends with entry 0"), ("a number too many", some, {"at_least": [3]}, ValueError, "1 numbers, for 2 streams"),
            ("a negative time", some, {"at_least": -1}, va.Fault, "time")):
        got = raised(error, lambda whole=whole, words=words: resume(whole, **words))
        pairs += [(name, type(got), error), (f"{name}: says", part in str(got), True)]
    for name, whole, words, wanted in (("empty", empty, {"empty": True}, (1, 1)), ("so many", some, {"at_least": [3, 2]}, (4, 6)), ("fewer are known", some, {"at_least": (1, 0)}, (4, 6)),
                                       ("the time", some, {"at_least": 5}, (4, 6)), ("an earlier one", some, {"at_least": 0}, (4, 6))):
        entry = resume(whole, **words).commit([(1, 5, 9, b"A")])
        pairs += [(name, (entry.number, entry.time), wanted)]
    pairs += [("is a kind of the other", issubclass(va.NothingToResume, va.NotResumable), True)]
    report("a writer can't go on from less than was written", differ(pairs))


def before_anything():
    """Without marks nothing can be read: a question without a time says so, in place of None; one item needs no list."""
    log = va.LogWriter(7, 1)
    with Served(4) as served, va.Node(served.port) as node, va.Nodes([served.port], limit=1) as nodes:
        entry = log.commit([(1, 5, 9, b"A")])
        told = [node.items(entry), node.items(va.encode(entry)), node.items(None), node.items([])]

        def in_a_pipeline():
            with node.pipeline() as pipe:
                return pipe.get(1, 5).result()

        async def other():
            async with va.AsyncNode(served.port) as it:
                return await it.get(1, 5)

        pairs = [("one item, its frame, nothing", [int(it) > 0 for it in told], [True] * 4), ("at time 0", node.get(1, 5, at=0), None)]
        for name, call in (("get", lambda: node.get(1, 5)), ("range", lambda: node.range(1)), ("count", lambda: node.count(1)), ("a moment", node.at), ("rows", lambda: list(node.rows(1))),
                           ("a pipeline", in_a_pipeline), ("asyncio", lambda: asyncio.run(other())), ("Nodes", lambda: nodes.get(1, 5)), ("a moment of Nodes", nodes.at)):
            got = raised(va.NotYet, call)
            pairs += [(name, (type(got), getattr(got, "number", None), getattr(got, "readable", None)), (va.NotYet, 26, 0)), (f"{name}: says", NOT_YET in str(got), True)]
        out, code, said = command(["--port", str(served.port), "get", "1", "5"], b"")
        pairs += [("the command", (code, out, NOT_YET in said), (1, "refused 26 readable 0\n", True))]
        node.items(log.marks()[0])
        got = raised(va.NotYet, lambda: node.get(1, 5, at=2))
        pairs += [("with its mark", node.get(1, 5), va.Row(9, b"A")), ("a later time", (type(got), got.readable, NOT_YET in str(got)), (va.NotYet, 1, False))]
    report("nothing can be read before marks came, and that is said", differ(pairs))


def never_back():
    """`Nodes` gives no latest time below one that it gave: where the member that had it is gone, it waits for another that has it."""
    log = va.LogWriter(7, 1)
    first, second = [log.commit([(1, 5, 9, b"A")]), *log.marks()], [log.commit([(1, 5, 9, b"B")]), *log.marks()]
    pairs = []
    with contextlib.ExitStack() as until, Served(20) as behind:
        ahead = until.enter_context(Served(20))
        for served, items in ((ahead, [*first, *second]), (behind, first)):
            with va.Node(served.port) as node:
                node.items(items)
        with va.Nodes([ahead.port, behind.port], limit=1.0) as nodes:
            pairs += [("the latest", nodes.latest(), 2), ("its row", nodes.get(1, 5), va.Row(9, b"B"))]
            until.close()
            begin = time.monotonic()
            got = raised(va.NotYet, lambda: nodes.get(1, 5))
            pairs += [("the member that had it is gone", (type(got), getattr(got, "readable", None)), (va.NotYet, 1)), ("it is waited for", 0.9 < time.monotonic() - begin < 4, True),
                      ("at a time of one's own", nodes.get(1, 5, at=1), va.Row(9, b"A"))]

            def later():
                time.sleep(0.3)
                with va.Node(behind.port) as node:
                    node.items(second)

            feeder = threading.Thread(target=later)
            feeder.start()
            pairs += [("another member gets it", nodes.get(1, 5), va.Row(9, b"B")), ("and the latest", nodes.latest(), 2)]
            feeder.join()
    report("the latest time of many nodes never goes back", differ(pairs))


def forms_of_files():
    """A file's ending names its form; another is refused by name, and nothing is written."""
    pairs = [(path, form_named(path), form) for path, form in (("a.csv", "csv"), ("b/a.jsonl", "jsonl"), ("a.db", "sqlite"), ("a.sqlite", "sqlite"), ("a.sqlite3", "sqlite"), ("a", "sqlite"), ("-", "jsonl"))]
    for path in ("a.parquet", "a.xlsx", "a.json"):
        got = raised(ValueError, lambda path=path: form_named(path))
        pairs += [(path, (type(got), path in str(got), "--form" in str(got)), (ValueError, True, True))]
    with Served(4) as served:
        with va.Node(served.port) as node:
            log = va.LogWriter(7, 1)
            node.items([log.commit([(1, 5, 9, b"A")]), *log.marks()])
        place = pathlib.Path("/dev/shm") / f"vadungsil.{served.port}.parquet"
        out, code, said = command(["--port", str(served.port), "export", "--tables", "1", "--out", str(place)], b"")
        pairs += [("the command", (code, out, ".parquet" in said, place.exists()), (2, "", True, False))]
        out, code, said = command(["--port", str(served.port), "export", "--tables", "1", "--form", "csv", "--out", str(place)], b"")
        pairs += [("with --form", (code, out, place.exists()), (0, "rows 1\n", True))]
        place.unlink(missing_ok=True)
    report("a file's ending names its form", differ(pairs))


def refused_over_tls():
    """What TLS refuses is no matter of starting a node."""
    with socket.create_server(("127.0.0.1", 0)) as door:
        def serve():
            with contextlib.suppress(OSError):
                while True:     # each try of the client
                    link, _ = door.accept()
                    with link:
                        link.recv(4_096)
                        link.sendall(bytes.fromhex("15030100020228"))  # an alert: the handshake failed

        threading.Thread(target=serve, daemon=True).start()
        out, code, said = command(["--node", f"tls://127.0.0.1:{door.getsockname()[1]}", "front"], b"")
    report("what TLS refuses is said as that", differ([("status", (out, code), ("refused 93\n", 1)), ("says", ("--cacert" in said, "starts a node" in said), (True, False))]))


CHECKS = (resumed_from_too_little, before_anything, never_back, forms_of_files, refused_over_tls)
