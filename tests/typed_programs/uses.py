"""A program as a user writes it, whose types are looked at and which is never run (tests/checks/typed.py)."""
from __future__ import annotations

import asyncio
from typing import Dict, Iterator, List, Optional, Tuple, Union

import vadungsil
from vadungsil import (AsyncChanges, AsyncLogFile, AsyncNode, Broken, Change, Changes, Count, Entry, Feeder, Fragment, Front, Get, Hold, Identity, Item, KeyRow, LinkBroken, Later, LogFile, LogInUse,
                       LogWriter, Mark, Member, NameCollision, Names, Node, Nodes, NotANode, NotAName, NotKept, NotWritten, Operations, Range, Refused, Row, Stream, Term, TooOld, export, later)
from vadungsil.address import Place, place_of
from vadungsil.bodies import shown, table_of
from vadungsil.embedded import Replica
from vadungsil.web import Server


def written(log: LogWriter, node: Node) -> int:
    entry: Optional[Entry] = log.commit(puts=[(1, 5, 9, b"A")], removes=[(1, 6)])
    with log.transaction() as it:
        it.put(1, 5, 9, b"C")
        it.remove(1, 6)
    marks: List[Mark] = log.marks()
    operations: int = node.items([entry, it.entry, *marks])
    if entry is not None:
        operations += node.items([vadungsil.encode(entry)])
    told: Operations = node.items(marks)
    new: Optional[int] = told.new
    return operations + (new or 0)


def clocked(node: Node) -> List[Item]:
    log = LogWriter(7, 2, clock=True)
    other = LogWriter.resume(node.whole(), clock=lambda: 1_795_698_000_000_000)
    beat: List[Item] = log.beat(2, 1)
    node.items([*beat, *other.beat(2, 1, tag=9, stream=2)])
    return LogWriter.behind(7, [3], 9, {}, clock=False).beat(2, 1)


def kept(path: str) -> int:
    try:
        with LogFile(path, log=7, beat_seconds=1, sync="group", identity=None) as log:
            entry: Optional[Entry] = log.commit(puts=[(1, 5, 9, b"A")], removes=[(1, 6)])
            with log.transaction() as it:
                it.puts += Names(3).puts(["ada"], it)
            marks: List[Mark] = [*log.marks(), log.mark(1), log.retire(1)]
            log.flush()
            log.fork(path + ".other", 8)
            gone: int = log.compact(9, nodes=[7420, "unix:/tmp/node"]) + log.compact(before=9)
            term: Optional[Term] = log.term
            identity: Optional[Identity] = log.identity
            return gone + len(Names(3).puts(["bob"], log)) + (term.number if term else 0) + len(identity.bits if identity else b"") + len(marks) + (entry.number if entry else 0)
    except LogInUse as error:
        return error.status
    except (Broken, NotWritten, NotKept) as error:
        return len(str(error))


async def kept_by_tasks(path: str) -> Tuple[Optional[Entry], List[Item]]:
    async with AsyncLogFile(path, log=7, clock=lambda: 5) as log:
        async with log.transaction() as it:
            it.put(1, 5, 9, b"C")
        await log.flush()
        return await log.commit([(1, 5, 9, b"A")]) or it.entry, await log.beat(2, 1)


def named(log: LogWriter, node: Node, nodes: Nodes) -> Optional[str]:
    names, key = Names(3), Names.key("ada")
    count: int = names.load(node) + names.load(nodes, at=1) + names.load(node.at(1)) + names.learn(node.rows(names.table))
    try:
        log.commit([*names.puts(["ada", "bob"], log), (1, key + count, 9, b"A")])
        with log.transaction() as it:
            it.puts += names.puts({"cyd"}, it)
    except NameCollision as collision:
        return collision.texts[0] + str(collision.key)
    except NotAName as error:
        return error.why + str(error.table + error.key)
    found: Optional[str] = names.text(node, key) or names.text(nodes, key, at=1) or names.text(nodes.at(1), key)
    return found or names.text(Replica(7, 1), key) or names.text_of(key, node.get(3, key))


def read(node: Node) -> Tuple[Optional[Row], List[KeyRow], int]:
    front: Front = node.front()
    row: Optional[Row] = node.get(1, 5)
    if row is not None:
        print(row.tag + 1, row.body.hex())
    with node.at(front.readable) as moment:
        rows: List[KeyRow] = moment.range(1, 0, 9) + moment.by_tag(1, 9)
        count: int = moment.count(1) + sum(moment.counts([1, 2]))
    for key, each in rows:
        print(key + 1, each.body.decode())
    return row, rows, count


def between(one: Node, other: Node) -> int:
    delta: Fragment = one.delta(1)
    streams: Tuple[Stream, ...] = one.streams()
    print(delta.base + streams[0].prefix, len(delta.facts), delta.facts[0].version.key)
    return other.join(delta) + other.merge(one.whole()) + other.prune(2)


def later_version(node: Node, other: Node) -> Optional[Row]:
    status: later.Streams = node.status()
    held: Optional[int] = status.least_hold
    stats: later.Stats = node.stats()
    memory: Optional[int] = stats.memory
    door: Dict[int, int] = stats.most_open
    unknown: Dict[int, Dict[int, int]] = stats.other
    tables: List[int] = node.tables()
    print((memory or 0) + door.get(0, 0) + len(unknown) + sum(tables), stats.version, stats.guarded)
    time, row = node.latest(Get(1, 5))
    _, rows = node.latest(Range(1))
    _, count = node.latest(Count(1))
    later.encode_request(later.Feed(()))
    page: later.Page = node.page(1, at=time, most=3)
    each: Iterator[KeyRow] = node.rows(1, at=time)
    keys: List[int] = [it.key for it in each] + [it.key for it in page.rows] + [it.key for it in rows]
    hold: Hold
    with node.hold(time) as hold:
        print(hold.number + hold.time, held, count + len(keys))
    other.take_parts(node.parts(part_bytes=40))
    return row


def waited(node: Node, nodes: Nodes) -> List[Change]:
    front: Front = node.wait(3) if node.front().readable < 3 else node.wait(3, timeout=0.5)
    found: List[Change] = []
    try:
        with node.changes(since=front.horizon) as changes:
            for at, table, key, row in changes:
                print(at + table + key, "removed" if row is None else row.tag + 1)
            found.append(next(changes))
    except TooOld as pruned:
        found += nodes.changes(pruned.horizon)
    feed: Changes = nodes.changes(found[-1].time)
    later.encode_request(later.Await(feed.time, 1_000))
    later.encode_reply(later.Ready(front.horizon, front.readable))
    feed.close()
    return found


async def counted(node: AsyncNode) -> int:
    stats: later.Stats = await node.stats()
    tables: List[int] = await node.tables()
    return (stats.seconds or 0) + len(tables)


async def awaited(node: AsyncNode) -> Optional[Row]:
    front: Front = await node.wait(3, timeout=2)
    async with node.changes(front.readable) as changes:
        async for change in changes:
            return change.row
        last: Change = await changes.__anext__()
    feed: AsyncChanges = node.changes(last.time)
    await feed.close()
    return last.row


def many(node: Node) -> List[Optional[Row]]:
    with node.pipeline() as pipe:
        asked = [pipe.get(1, key) for key in range(5, 8)]
        counts: List[Later[int]] = [pipe.count(1), pipe.items([])]
    print(counts[0].result() + 1)
    nodes = Nodes([7421, "other:7421"], agree=2, log=7, streams=1)
    members: List[Member] = nodes.members()
    print([it.address for it in members if it.state == "bad"], (members[0].readable or 0) + 1)
    print(nodes.latest() + nodes.at().count(1), export(nodes, "rows.csv", "csv", 1, [1]) + 1)
    return [it.result() for it in asked]


async def side_by_side() -> Tuple[Optional[Row], int]:
    async with AsyncNode(7421) as node:
        row, count = await asyncio.gather(node.get(1, 5), node.count(1))
        count += (await node.items([])).new or 0
        time, newest = await node.latest(Get(1, 5))
        async with node.at(time) as moment:
            rows: List[KeyRow] = await moment.range(1)
    return row or newest, count + len(rows)


def refused(node: Node) -> Union[int, str]:
    try:
        node.get(1, 5, at=9)
    except NotANode as stranger:
        return f"{stranger.what}, {stranger.hint}"
    except Refused as error:
        number: int = error.number
        return number + sum(error.values)
    except LinkBroken as broken:
        return str(broken)
    feeder = Feeder()
    for item, frame in feeder.feed_frames(b""):
        print(item.log + item.stream, len(frame))
    return vadungsil.explain(26)


def beside() -> Optional[Row]:
    print(Server([7421], ("127.0.0.1", 0), messages=2, names={"tables": {1: "orders"}}).address)
    places: List[Place] = [Node().address, AsyncNode().address, Node("unix:/run/node.sock").address, place_of("[::1]:7420")]
    print([it.name for it in places], shown(b"A"), table_of(Node().range(1)))
    return Replica(7, 1).get(1, 5)
