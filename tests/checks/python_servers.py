"""Checks of the Python package against servers that are no nodes, which tests/checks/python_client.py runs: replies in small pieces, and replies
without an end. Standard library only."""
import asyncio
import contextlib
import pathlib
import socket
import sys
import threading
import time

sys.path.append(str(pathlib.Path(__file__).resolve().parents[1] / "lib"))
from checks import differ, report
from packaged import LIMIT, refusal_of, va

FRONT = va.encode_reply(va.Front(0, 3))
later, Row, KeyRow = va.later, va.Row, va.KeyRow


class Peer:
    """A server that takes links one after the other: each is given so many replies and is then closed, or left silent. A reply may be one
    for all, or a function of the number of the request; `seen` has how many requests each link made."""

    def __init__(self, plans, reply=FRONT):
        self.listener = socket.create_server(("127.0.0.1", 0))
        self.port, self.seen, self.stop = self.listener.getsockname()[1], [], threading.Event()
        self.reply = reply if callable(reply) else lambda number: reply
        self.thread = threading.Thread(target=self.serve, args=(plans,), daemon=True)
        self.thread.start()

    def serve(self, plans):
        for count, cut, is_silent in plans:
            with contextlib.suppress(OSError):
                link, _ = self.listener.accept()
                with link:
                    self.seen.append(0)
                    for number in range(count):
                        size = int.from_bytes(link.recv(4, socket.MSG_WAITALL), "big")
                        if not size or len(link.recv(size, socket.MSG_WAITALL)) < size:
                            break
                        self.seen[-1] += 1
                        link.sendall(self.reply(number))
                    link.sendall(self.reply(count)[:cut])
                    if is_silent:
                        self.stop.wait(LIMIT)

    def __enter__(self):
        return self

    def __exit__(self, *_):
        self.stop.set()
        self.listener.close()


# ---------------------------------------------------------------- in pieces

def in_pieces():
    """Frames of 8 MB in pieces of 4 KB: what a feeder has kept isn't gone through again with each piece. By the processor's time."""
    body, version = bytes(4_096), lambda at: va.VersionKey(1, at, 1)
    items = [va.Entry.of(7, 1, number, number, rows=[(1, key, 9, body) for key in range(1_000)]) for number in (1, 2)]
    rows, facts = [KeyRow(key, Row(9, body)) for key in range(2_000)], [va.Fact(version(key), Row(9, body)) for key in range(2_000)]
    cases = ((va.Feeder, items, va.encode), (va.RequestFeeder, [va.Items(items)], va.encode_request),
             (va.ReplyFeeder, [va.Rows(rows)], va.encode_reply), (later.RequestFeeder, [later.AddPart(facts)], later.encode_request),
             (later.ReplyFeeder, [later.Page(rows, False)], later.encode_reply))
    texts, problems = [b"".join(map(encode, values)) for _, values, encode in cases], []
    began = time.process_time()
    for (make, values, _), text in zip(cases, texts):
        feeder, found = make(), []
        for at in range(0, len(text), 4_096):
            found += feeder.feed(text[at:at + 4_096])
        feeder.finish()
        problems += differ([(f"{make.__module__}.{make.__name__}", found == values, True)])
    took = time.process_time() - began
    report("feeders take 8 MB in pieces of 4 KB within a second each", problems + ([f"{took:.1f} s for five of them"] if took > 5 else []))


# ---------------------------------------------------------------- without an end

def row(key):
    return KeyRow(key, Row(9, b""))


def fact(key):
    return va.Fact(va.VersionKey(1, key, 1), Row(9, b""))


def head(count):
    return later.Head(7, 0, 0, (va.Stream(3, 3),), count)


def page(rows, more):
    return later.encode_reply(later.Page(tuple(map(row, rows)), more))


def part(keys, left):
    return later.encode_reply(later.Part(tuple(map(fact, keys)), left))


def last_part(keys, count):
    return later.encode_reply(later.LastPart(tuple(map(fact, keys)), head(count)))


def asked_without_end(reply, ask):
    """The number that a call is refused where each request is replied so, and how many requests it made: -1 where that goes on."""
    with Peer([(100, 0, False)], reply) as peer:
        node = va.Node(peer.port, limit=LIMIT, tries=1)
        with contextlib.closing(node):
            try:
                number = refusal_of(lambda: ask(node))
            except va.LinkBroken:
                number = -1
        return number, sum(peer.seen)


def pages_without_end():
    """Pages that can't be those of the keys that were asked for, or that never come to an end."""
    rows = lambda node: list(node.rows(1, 5, 90, at=3, most=2))
    cases = (("no rows, and more", lambda number: page([], True), 8, 1), ("the same page again", lambda number: page([5, 6], True), 6, 2),
             ("the last row again", lambda number: page([5 + number, 6 + number], True), 6, 2),
             ("keys below", lambda number: page([4], False), 6, 1), ("keys above", lambda number: page([91], False), 6, 1),
             ("more rows than asked", lambda number: page([5, 6, 7], False), 8, 1),
             ("more behind the last key", lambda number: page([89, 90], True), 8, 1))
    problems = differ([(name, asked_without_end(reply, rows), (number, requests)) for name, reply, number, requests in cases])
    ends = lambda number: page([5 + 2 * number, 6 + 2 * number], number < 9)
    found = []
    problems += differ([("pages that end", asked_without_end(ends, lambda node: found.extend(rows(node))), (0, 10))])
    problems += differ([("their rows", [it.key for it in found], list(range(5, 25)))])

    async def told(port):
        async with va.AsyncNode(port, tries=1) as node:
            await node.page(1, 5, 90, at=3, most=2)

    def of_pipeline(node):
        with node.pipeline() as pipe:
            told = pipe.page(1, 5, 90, at=3, most=2)
        told.result()

    with Peer([(1, 0, False)], page([4], True)) as peer:
        problems += differ([("asyncio", refusal_of(lambda: asyncio.run(told(peer.port))), 6)])
    problems += differ([("a pipeline", asked_without_end(lambda number: page([], True), of_pipeline), (8, 1))])
    report("pages that break their rules are told, and those of a server that goes on for ever end", problems)


def parts_without_end():
    """Parts that never come to an end, or are others than their counts say; by parts and by the whole of them."""
    cases = (("no facts", lambda number: part([], 5), 8, 1), ("none, and fewer to come", lambda number: part([], 10 ** 6 - number), 8, 1),
             ("as many to come as before", lambda number: part([number], 5), 8, 2),
             ("more to come than before", lambda number: part([number], 5 + number), 8, 2),
             ("the same facts again", lambda number: part([1, 2], 1_000 - 2 * number), 7, 2),
             ("facts that fall", lambda number: part([1_000 - number], 500 - number), 7, 2),
             ("more than the head tells", lambda number: last_part([1, 2], 1), 8, 1),
             ("fewer than the head tells", lambda number: last_part([], 3), 8, 1),
             ("an end that comes early", lambda number: last_part([2], 3) if number else part([1], 5), 8, 2),
             ("a head of another count", lambda number: last_part([2], 3) if number else part([1], 1), 8, 2))
    problems = []
    for ask in (lambda node: list(node.parts()), lambda node: node.whole(part_bytes=64)):
        problems += differ([(name, asked_without_end(reply, ask), (number, requests)) for name, reply, number, requests in cases])
    ends = lambda number: part([number], 9 - number) if number < 9 else last_part([9], 10)
    problems += differ([("parts that end", asked_without_end(ends, lambda node: node.whole(part_bytes=64)), (0, 10))])
    report("parts that are others than they say are told, and those of a server that goes on for ever end", problems)


def answers_of_other_kinds():
    """An answer of another kind than the question's is 4, also at the readable mark."""
    answers = (va.One(None), va.Rows(()), va.Number(3))
    queries = ((va.Get(1, 5), 0), (va.Range(1, 0, 9), 1), (va.ByTag(1, 9), 1), (va.Count(1), 2))
    problems = []
    for query, wanted in queries:
        for kind, answer in enumerate(answers):
            got = asked_without_end(later.encode_reply(later.Latest(3, answer)), lambda node: node.latest(query))
            problems += differ([(f"{query}, answered {answer}", got, (0 if kind == wanted else 4, 1))])
    report("an answer of another kind than the question's is told", problems)


CHECKS = (in_pieces, pages_without_end, parts_without_end, answers_of_other_kinds)
