"""Checks of the Python package's `Nodes` with members that are no honest nodes of the log, which tests/checks/python_client.py runs:
silent, garbage, another log, a resolved time that isn't true, away and back. Standard library only."""
import contextlib
import pathlib
import socket
import sys
import threading
import time

sys.path.append(str(pathlib.Path(__file__).resolve().parents[1] / "lib"))
from checks import differ, report
from packaged import LIMIT, refusal_of, va
from client import Node as Served
from client import free_port

LOG = 7
AHEAD = 1_000

# a member that is away costs a question less than this, in seconds; it waits for LIMIT where it goes on as before
SOON = 0.9


class Fake:
    """A server on a port of its own that replies to each request by a function of its value: a reply, bytes as they are, or None, and then it
    is silent. `asked` has the requests."""

    def __init__(self, reply):
        self.reply, self.asked, self.stop = reply, [], threading.Event()
        self.listener = socket.create_server(("127.0.0.1", 0))
        self.port = self.listener.getsockname()[1]
        threading.Thread(target=self.serve, daemon=True).start()

    def serve(self):
        with contextlib.suppress(OSError):
            while True:
                link, _ = self.listener.accept()
                threading.Thread(target=self.talk, args=(link,), daemon=True).start()

    def talk(self, link):
        with link, contextlib.suppress(OSError):
            while not self.stop.is_set():
                head = link.recv(4, socket.MSG_WAITALL)
                if len(head) < 4:
                    return
                rest = link.recv(int.from_bytes(head, "big"), socket.MSG_WAITALL)
                self.asked.append(va.decode_request(head + rest))
                reply = self.reply(self.asked[-1])
                if reply is None:
                    self.stop.wait(LIMIT)
                    return
                link.sendall(reply if isinstance(reply, bytes) else va.encode_reply(reply))

    def __enter__(self):
        return self

    def __exit__(self, *_):
        self.stop.set()
        self.listener.close()


def replies(readable, other, log=LOG, streams=1):
    """What a node of this log and resolved time says of itself; what it says to a question is `other` of that."""
    said = {va.Delta: va.Fragment(log, va.LAST_TIME, 0, (va.Stream(readable, readable),) * streams), va.AskFront: va.Front(0, readable)}
    return lambda request: said[type(request)] if type(request) in said else other(request)


def body(at):
    return va.Row(9, b"row %d" % at)


def fill(port, last=10, mark=None):
    """At each time up to the last the key 1 has a row that tells it; `mark` is a resolved time that isn't true."""
    writer = va.LogWriter(LOG, 1)
    entries = [writer.commit([(1, 1, body(at).tag, body(at).body)]) for at in range(1, last + 1)]
    with va.Node(port) as node:
        node.items([*entries, va.Mark(LOG, 1, last, mark or last)])


@contextlib.contextmanager
def filled(count, *others, last=10, **words):
    """So many good nodes, with the ports of others behind them or, where `is_first`, before them; and `Nodes` of all."""
    is_first = words.pop("is_first", False)
    with contextlib.ExitStack() as stack:
        served = [stack.enter_context(Served(60)) for _ in range(count)]
        for node in served:
            fill(node.port, last)
        good = [it.port for it in served]
        ports = [*others, *good] if is_first else [*good, *others]
        yield served, stack.enter_context(va.Nodes(ports, LIMIT, **words))


def states(nodes):
    return [it.state for it in nodes.members()]


def took(ask):
    began = time.monotonic()
    answer = ask()
    return answer, time.monotonic() - began


def until(is_so, seconds=10.0):
    """Whether it comes to be so, tried again and again."""
    end = time.monotonic() + seconds
    while time.monotonic() < end:
        if is_so():
            return True
        time.sleep(0.05)
    return False


def no_node(ask):
    """What a question without an answer raises, as words."""
    try:
        return f"answered {ask()}"
    except va.NoNode as error:
        return str(error)


# ---------------------------------------------------------------- away

def silent_members():
    """One that takes connections and says nothing, from the first or later, costs a question no wait but the first."""
    problems, calls = [], []
    with Fake(lambda request: None) as fake, filled(2, fake.port, is_first=True) as (_, nodes):
        first, spent = took(nodes.latest)
        problems += differ([("the latest", first, 10), ("the first question ends", spent < 5, True), ("states", states(nodes), ["away", "up", "up"])])
        end = time.monotonic() + 4.5
        while time.monotonic() < end:
            for ask, wanted in ((lambda: nodes.get(1, 1), body(10)), (lambda: nodes.get(1, 1, at=3), body(3)), (lambda: nodes.at().count(1), 1)):
                got, spent = took(ask)
                calls.append(spent)
                problems += differ([("an answer", got, wanted)])
            time.sleep(0.1)
        problems += differ([("the longest wait", max(calls) < SOON or max(calls), True), ("is not spoken to by each question", 2 <= len(fake.asked) <= 4 or len(fake.asked), True)])
    report(f"a silent member beside two good ones: {len(calls)} questions, each answered at once", problems)


def turns_silent():
    """A member that falls silent on a question costs its limit once; one that speaks and never answers, a second now and then."""
    problems = []
    with Fake(replies(10, lambda request: None)) as fake, filled(1) as (served, _):
        with va.Nodes([fake.port, served[0].port], 1.5) as nodes:
            got = [took(lambda: nodes.get(1, 1, at=3)) for _ in range(12)]
            problems += differ([("answers", {it for it, _ in got}, {body(3)}), ("waits", sum(spent > SOON for _, spent in got), 1), ("states", states(nodes), ["away", "up"])])
            problems += differ([("it speaks again", until(lambda: states(nodes)[0] == "up" or not nodes.get(1, 1, at=3)), True)])
            got = [took(lambda: nodes.get(1, 1)) for _ in range(12)]
            problems += differ([("again", {it for it, _ in got}, {body(10)}), ("no longer than a second", max(spent for _, spent in got) < 1.4, True)])
    report("a member that falls silent is waited for once", problems)


def all_away():
    problems = []
    with Fake(lambda request: None) as one, Fake(lambda request: None) as two, va.Nodes([one.port, two.port, free_port()], LIMIT) as nodes:
        for ask in (nodes.latest, lambda: nodes.get(1, 1, at=3), lambda: nodes.at(3).counts([1])):
            said, spent = took(lambda: no_node(ask))
            problems += differ([("each is told", [f":{it}: " in said for it in (one.port, two.port)], [True] * 2), ("in a second for all", spent < 3 or spent, True)])
        problems += differ([("states", states(nodes), ["away"] * 3)])
    report("all members away: told of each, in a second for all", problems)


def comes_back():
    problems, port = [], free_port()
    with filled(1, port) as (served, nodes):
        problems += differ([("without it", nodes.get(1, 1), body(10)), ("away", states(nodes), ["up", "away"]), ("and told", "refused" in nodes.members()[1].reason, True)])
        with Served(60, port=port):
            fill(port, 12)
            problems += differ([("is up again", until(lambda: nodes.get(1, 1, at=3) and states(nodes) == ["up", "up"]), True), ("and counts", nodes.latest(), 12),
                                ("and is asked", nodes.get(1, 1), body(12)), ("what is known", nodes.members()[1], va.Member(f"127.0.0.1:{port}", "up", "", 0, 12))])
            served[0].child.kill()
            served[0].child.wait()
            problems += differ([("alone", [nodes.get(1, 1, at=at) for at in (3, 12)], [body(3), body(12)]), ("the other", states(nodes), ["away", "up"])])
        with Served(60, port=port):
            fill(port, 12)
            problems += differ([("none but one that was started anew", nodes.get(1, 1, at=12), body(12))])
    report("a member that was away comes back, and answers alone", problems)


# ---------------------------------------------------------------- bad

def bad_members():
    """Bytes that are no reply, and another log: asked no more, told, and the question goes on elsewhere."""
    number, long = va.encode_reply(va.Number(3)), b"\xff\xff\xff\xff garbage"
    kinds = (("garbage", lambda request: long), ("no reply", lambda request: b"\0\0\0\3\1\x99\0"), ("a reply of another kind", lambda request: number),
             ("garbage to questions", replies(10, lambda request: long)), ("another kind to questions", replies(10, lambda request: va.Done(3))),
             ("another log", replies(10, lambda request: va.One(None), log=8)), ("more streams", replies(10, lambda request: va.One(None), streams=2)),
             ("20", lambda request: va.Refused(20)), ("21 to questions", replies(10, lambda request: va.Refused(21))))
    problems = []
    with filled(1) as (served, _):
        for name, reply in kinds:
            with Fake(reply) as fake, va.Nodes([served[0].port, fake.port], LIMIT) as nodes:
                nodes.latest()  # this waits until each has been spoken to
                got = [nodes.get(1, 1, at=3) for _ in range(4)] + [nodes.get(1, 1)]
                asked, told = len(fake.asked), nodes.members()[1]
                problems += differ([(f"{name}: answers", got, [body(3)] * 4 + [body(10)]), (f"{name}: states", states(nodes), ["up", "bad"]), (f"{name}: told", len(told.reason) > 20, True)])
                nodes._members.greet(True)
                nodes.get(1, 1)
                problems += differ([(f"{name}: asked again", len(fake.asked) - asked, 0)])
            with Fake(reply) as fake, va.Nodes([fake.port], LIMIT, log=LOG, streams=1) as nodes:
                problems += differ([(f"{name}: alone", f":{fake.port}: " in no_node(lambda: nodes.get(1, 1, at=3)), True), (f"{name}: alone, its state", states(nodes), ["bad"])])
    report(f"members whose bytes are no reply, or of another log, are asked no more ({len(kinds)})", problems)


def other_refusals():
    """3 and 4 send one call elsewhere; 2, 6, 7 and 8 go to the caller, and 25 and 26 where no other answers."""
    problems = []
    with filled(1) as (served, _):
        for number in (3, 4, 25, 26, 41, 90, 2, 6, 7, 8):
            goes_on, words = number not in (2, 6, 7, 8), (5,) if number in (25, 26) else ()
            with Fake(replies(10, lambda request: va.Refused(number, *words))) as fake, va.Nodes([fake.port, served[0].port], LIMIT) as nodes:
                nodes.latest()
                found = [refusal_of(lambda: nodes.get(1, 1, at=3)) for _ in range(2)]
                problems += differ([(number, found, [0 if goes_on else number, 0]), (f"{number}: states", states(nodes)[0], "up")])
            with Fake(replies(10, lambda request: va.Refused(number, *words))) as fake, va.Nodes([fake.port], LIMIT) as nodes:
                problems += differ([(f"{number}, alone", refusal_of(lambda: nodes.get(1, 1, at=3)), number)])
    report("refusals that go elsewhere, and those of the caller", problems)


def given_logs():
    """The log that counts is the given one, or the first's; with `agree` the first that so many tell."""
    problems = []
    with contextlib.ExitStack() as stack:
        ports = {name: stack.enter_context(Served(60, log=log, streams=streams)).port for name, log, streams in (("one", 7, 1), ("two", 7, 1), ("other", 8, 1), ("wide", 7, 2))}
        for names, words, wanted in (("other one two", {}, "up bad bad"), ("one other wide two", {}, "up bad bad up"), ("other one two", {"log": 7}, "bad up up"),
                                     ("wide one two", {"streams": 1}, "bad up up"), ("other wide one two", {"agree": 2}, "bad bad up up"), ("other one", {"agree": 2}, "away away"),
                                     ("one two", {"log": 9}, "bad bad"), ("other one two", {"log": 7, "streams": 1, "agree": 2}, "bad up up")):
            with va.Nodes([ports[it] for it in names.split()], LIMIT, **words) as nodes:
                no_node(nodes.latest)
                problems += differ([(f"{names} {words}", " ".join(states(nodes)), wanted)])
    for name, make, number in (("a log", lambda: va.Nodes([1], log=-1), 6), ("streams", lambda: va.Nodes([1], streams=65), 5)):
        problems += differ([(name, refusal_of(make), number)])
    for name, make in (("agree 0", lambda: va.Nodes([1], agree=0)), ("more than there are", lambda: va.Nodes([1, 2], agree=3)), ("one twice", lambda: va.Nodes([1, "127.0.0.1:1"], agree=2)), ("none", lambda: va.Nodes([]))):
        with contextlib.suppress(ValueError):
            make()
            problems.append(f"{name} passes")
    report("each member's log and number of streams are compared", problems)


# ---------------------------------------------------------------- liars

def liars():
    """A node with a mark that isn't true, and a server that says anything: with agree=2 no row is wrong, wherever the liar stands."""
    problems, wrong, lie = [], 0, va.Row(9, b"a lie")
    with Served(60) as marked, Served(60) as first, Served(60) as second, Fake(replies(AHEAD, lambda request: va.One(lie) if isinstance(request.query, va.Get) else va.Number(9))) as fake:
        fill(marked.port, 5, mark=AHEAD)
        fill(first.port)
        fill(second.port)
        for liar in (marked.port, fake.port):
            for place in range(3):
                ports = [first.port, second.port]
                ports.insert(place, liar)
                with va.Nodes(ports, LIMIT, agree=2) as nodes:
                    name = f"{'marks' if liar == marked.port else 'a fake'} at {place}"
                    problems += differ([(f"{name}: latest", nodes.latest(), 10), (f"{name}: rows", {nodes.get(1, 1) for _ in range(6)}, {body(10)}),
                                        (f"{name}: past", [nodes.get(1, 1, at=at) for at in range(6, 11)], [body(at) for at in range(6, 11)]),
                                        (f"{name}: counts", nodes.at().counts([1, 2]), [1, 0]), (f"{name}: state", nodes.members()[place].state, "bad"),
                                        (f"{name}: ahead", refusal_of(lambda: nodes.get(1, 1, at=11)), 26)])
                with va.Nodes(ports, LIMIT) as nodes:
                    wrong += nodes.latest() == AHEAD and nodes.get(1, 1) in (lie, body(5))
        # agree=1 believes the liar, as docs/PYTHON.md says
        problems += differ([("with agree=1", wrong, 6)])
        with va.Nodes([first.port, fake.port], LIMIT, agree=2) as nodes:
            said = no_node(lambda: nodes.get(1, 1))
            problems += differ([("one and a liar", "no 2 members give the same answer" in said or said, True), ("a time that one has", nodes.latest(), 10)])
    report("a liar is harmless with agree=2", problems)


def too_few():
    problems = []
    with filled(1, free_port(), agree=2) as (_, nodes):
        for ask in (nodes.latest, lambda: nodes.get(1, 1, at=3), lambda: nodes.get(1, 1)):
            said = no_node(ask)
            problems += differ([("said", "2 members have to agree, and 1 can be reached" in said or said, True)])
    with filled(2, free_port(), agree=2) as (_, nodes):
        problems += differ([("enough", (nodes.latest(), nodes.get(1, 1), nodes.get(1, 2)), (10, body(10), None))])
    with contextlib.ExitStack() as stack:
        served = [stack.enter_context(Served(60)) for _ in range(3)]
        for node, last in zip(served, (4, 9, 6)):
            fill(node.port, last)
        for agree, wanted in ((1, 9), (2, 6), (3, 4)):
            with va.Nodes([it.port for it in served], LIMIT, agree=agree) as nodes:
                problems += differ([(f"agree={agree}", (nodes.latest(), nodes.get(1, 1)), (wanted, body(wanted)))])
    report("the resolved time is one that so many members report, and too few are told", problems)


CHECKS = (silent_members, turns_silent, all_away, comes_back, bad_members, other_refusals, given_logs, liars, too_few)
