#!/usr/bin/env python3
"""A primary's log through three nats-servers into two nodes, with faults: tests/checks/engine.py [ENTRIES] [STORY ..]

Each story starts three servers on this machine, two nodes and a follower of each, publishes a log of that many entries in four streams,
and breaks something in the middle of the work. At its end the log is read back from the servers: its entries are 1 to n without hole or
repeat, all that was confirmed is there, the rows that tests/lib/reference.py makes of it at 12 times are both nodes', and all servers hold
the same. Faults come by how far the work is, but for a server that is stopped for 15 seconds. Needs bin/hkrep and a nats-server from
2.10.27 on, in NATS_SERVER or PATH (connectors/nats/get-server fetches one); else that is said as skipped. It ends only what it
started."""
import contextlib
import json
import os
import pathlib
import re
import shlex
import socket
import subprocess
import sys
import threading
import time
from concurrent.futures import ThreadPoolExecutor

sys.dont_write_bytecode = True
ROOT = pathlib.Path(__file__).resolve().parents[2]
CONNECTORS = ROOT / "connectors" / "nats"
sys.path[:0] = [str(ROOT / "tests" / "lib"), str(CONNECTORS)]

import bad_records
import journeys
import records_tried
from checks import ended, free_port, is_built, report, skip
from journeys import (HKREP, LOG, PATIENCE, STREAMS, WORDS, demonstration, holds, is_entry, kill, log_of, number_of, play, status, stream_of,
                      tables_of, waited)
from engine_log import Moved
from feeding import Feed
from jetstream import ApiError, Nats
from log_in_nats import LogInNats
from servers import HOSTS, Servers, program
from shown import of
from vadungsil import Entry, Mark, encode
from vadungsil.blocks import walked

SIDE_BY_SIDE = 4
KEYS = [f"hekaton_{LOG}_{stream}" for stream in range(1, STREAMS + 1)]


def frames_of(data):
    """The frames of a message, as docs/FORMATS.md says."""
    at = 0
    while at < len(data):
        end = at + 4 + int.from_bytes(data[at:at + 4], "big")
        yield data[at:end]
        at = end


class Bench(journeys.Bench):
    """Three servers, two nodes with a follower each, and what runs beside them."""

    count = 3

    def __init__(self, folder, entries, frames, tables):
        super().__init__(folder, entries, frames, tables)
        self.servers = Servers(folder, lambda _: ("127.0.0.1", free_port(), free_port(), free_port()), self.on_host, self.count)
        self.ports, self.followers, self.writers = {}, {}, 0
        self.cut = next(at for at, frame in enumerate(frames) if is_entry(frame) and int.from_bytes(frame[24:32], "big") > entries // 2)

    def __enter__(self):
        try:
            self.servers.begin()
            for name in ("one", "two"):
                self.add_node(name)
                self.followers[name] = self.follow(name)
        except BaseException:
            self.__exit__()
            raise
        return self

    def on_host(self, _, words):
        return self.start(*words)

    def inside(self, _):
        """Where a node can be reached, or, without its name, the servers."""
        return contextlib.nullcontext()

    def add_node(self, name):
        self.ports[name] = free_port()
        return self.start_node(self.ports[name], "-q")

    # ------------------------------------------------------------ connectors

    def url(self):
        return ["--nats", self.servers.urls()]

    def ran(self, name, *more, **options):
        return self.start(CONNECTORS / name, *self.url(), *WORDS, *more, **options)

    def follow(self, name, *more):
        return self.ran("follow", "--node", self.ports[name], "--patience", 5, *more)

    def publish(self, *more, name=""):
        """A publisher of a file, or of what is written to it."""
        self.writers += 1
        with open(self.folder / f"kept{self.writers}", "ab") as kept:
            source = open(self.folder / name, "rb") if name else subprocess.PIPE
            return self.ran("publish", "--confirm", "--block", 2000, *more, stdin=source, stdout=kept)

    @staticmethod
    def give(child, frames, ends=False):
        """Writes frames to a publisher, side by side with what comes next."""
        def run():
            try:
                child.stdin.write(b"".join(frames))
                child.stdin.flush()
                if ends:
                    child.stdin.close()
            except (BrokenPipeError, ValueError):
                pass
        threading.Thread(target=run, daemon=True).start()

    # ------------------------------------------------------------ how far it is

    def confirmed(self):
        """The greatest number of each stream that a publisher called kept."""
        most = dict.fromkeys(range(1, STREAMS + 1), 0)
        for path in self.folder.glob("kept*"):
            for line in path.read_text().splitlines():
                _, stream, number = line.split()
                most[int(stream)] = max(most[int(stream)], int(number))
        return most

    def kept(self, count):
        """Waits until so many entries are confirmed."""
        waited(lambda: sum(self.confirmed().values()) >= count,
               lambda: f"publish doesn't come to {count}: {self.confirmed()}: {self.said()}")

    def feed(self, name):
        with self.inside(name):
            return Feed(self.ports[name])

    def taken(self, name):
        feed = self.feed(name)
        try:
            return sum(stream.prefix for stream in feed.streams(7))
        finally:
            feed.close()

    def fed(self, count, *names):
        for name in names or self.followers:
            waited(lambda: self.taken(name) >= count or self.followers[name].poll() is not None,
                   lambda: f"node {name} doesn't come to {count}")
            holds(self.followers[name].poll() is None, f"the follower of node {name} ended: {self.said()}")

    def half_written(self, *more):
        """A publisher that was given the first half of the log, all of which is confirmed."""
        child = self.publish(*more)
        self.give(child, self.frames[:self.cut])
        self.kept(self.entries // 2)
        return child

    def leader(self):
        """The host that leads most streams."""
        leaders = list(waited(lambda: self.all_led(), "not all streams have a leader").values())
        return max(HOSTS, key=leaders.count)

    def all_led(self):
        leaders = self.servers.leaders(KEYS)
        return leaders if len(leaders) == STREAMS and all(leaders.values()) else None

    # ------------------------------------------------------------ how it ends

    def read_back(self):
        """The frames of all messages, by stream; each message says how far it goes."""
        nats, found = self.any_link(), {}
        for stream, key in enumerate(KEYS, 1):
            state, found[stream] = nats.ask(f"$JS.API.STREAM.INFO.{key}")["state"], []
            for sequence in range(max(1, state["first_seq"]), state["last_seq"] + 1):
                message = waited(lambda: self.answered(nats, key, sequence), f"message {sequence} of {key} isn't there")
                frames = list(frames_of(message.data))
                entries = [number_of(it) for it in frames if is_entry(it)]
                holds(not entries or int(message.header(b"Hk-Last")) == entries[-1], f"message {sequence} of {key} says otherwise")
                found[stream] += frames
        nats.close()
        return found

    def any_link(self):
        with self.inside(""):
            return Nats(self.servers.urls().split(","))

    @staticmethod
    def answered(nats, key, sequence):
        message = nats.ask_again(b"$JS.API.DIRECT.GET.%s" % key.encode(), b'{"seq":%d}' % sequence)
        return None if message.status else message

    def held(self):
        """What each server holds."""
        return [self.servers.held(host) for host in HOSTS]

    def alike(self):
        """All servers hold the same. One that was killed and isn't filled again in a minute is started anew, as who looks after servers
        would: now and then 2.10.27 has one stand still behind the others for minutes, with half of a stream."""
        def look():
            held = self.held()
            return held if held[0] and all(it == held[0] for it in held) else None
        if not self.servers.wait(look, PATIENCE / 2):
            held = self.held()
            most = max(held, key=lambda it: sum(messages for messages, _, _, _ in it.values()))
            for host in HOSTS:
                if held[host - 1] != most:
                    self.servers.kill(host)
                    self.servers.serve(host)
        waited(look, lambda: f"not all servers hold the same: {self.held()}")

    def finished(self, frames=None, first=1):
        """All of the log is there once, and both nodes show it; `first` is the first entry that is still there."""
        self.alike()      # before it is read: a server that was cut off answers from an old state
        frames, there = frames or self.frames, self.read_back()
        for stream in range(1, STREAMS + 1):
            wanted = [frame for frame in frames if is_entry(frame) and stream_of(frame) == stream]
            got = [frame for frame in there[stream] if is_entry(frame)]
            holds(got == wanted if first == 1 else got == wanted[len(wanted) - len(got):], f"stream {stream} in NATS isn't the log's: "
                  f"{len(got)} entries, wanted {len(wanted)}: {[number_of(it) for it in got][-5:]}, {len(set(got))} different")
            holds(self.confirmed()[stream] <= len(wanted), f"confirmed are {self.confirmed()}")
        tables = tables_of([it for its in there.values() for it in its], self.entries) if first == 1 else self.tables
        for name in self.followers:
            self.fed(self.entries, name)
            self.shows(name, tables)

    def readable(self, name):
        feed = self.feed(name)
        waited(lambda: feed.front().readable >= self.entries, "the last entry can't be read")
        feed.close()

    def shows(self, name, tables=None):
        """A node has come to the end, and its rows are the log's."""
        self.readable(name)
        with self.inside(name):
            self.same(self.ports[name], tables)


class Alone(Bench):
    """One server, for what needs no cluster."""

    count = 1

    def ran(self, name, *more, **options):
        return super().ran(name, *(("--replicas", 1) if name == "publish" else ()), *more, **options)


# ---------------------------------------------------------------- the stories

def killed_leader(it):
    """kill -9 of the server that leads most streams, in the middle of a publish; it comes back."""
    writer = it.half_written()
    victim, before = it.leader(), it.confirmed()
    it.servers.kill(victim)
    begin = time.monotonic()
    it.give(writer, it.frames[it.cut:], ends=True)
    waited(lambda: all(it.confirmed()[stream] > before[stream] for stream in before), "publish doesn't go on")
    pause = time.monotonic() - begin
    status(writer)
    it.servers.serve(victim)
    it.finished()
    return f"all streams go on {pause:.1f} s after the kill" if os.environ.get("TIMES") else ""


def all_killed(it):
    """kill -9 of all three servers in the middle, and all started anew."""
    writer = it.half_written()
    for host in HOSTS:
        it.servers.kill(host)
    it.give(writer, it.frames[it.cut:], ends=True)
    for host in HOSTS:
        it.servers.serve(host)
    status(writer)
    it.finished()


def each_in_turn(it):
    """Each server is killed and started anew in turn, while publisher and followers work."""
    writer, before = it.publish(), 0
    for host in HOSTS:
        upto = it.cut * host // 3
        it.give(writer, it.frames[before:upto])
        it.kept(sum(is_entry(frame) for frame in it.frames[:upto]))
        it.servers.kill(host)
        it.give(writer, it.frames[upto:upto + 100])
        it.servers.serve(host)
        it.kept(sum(is_entry(frame) for frame in it.frames[:upto + 100]))
        before = upto + 100
    it.give(writer, it.frames[before:], ends=True)
    status(writer)
    it.finished()


def killed_publishers(it):
    """Two publishers of one log at once, killed in turn and started anew with the whole log: one log comes of it."""
    for part in (0.1, 0.3, 0.6):
        both = [it.publish(name="log.bin") for _ in range(2)]
        it.kept(part * it.entries)
        for child in both:
            kill(child)
    both = [it.publish(name="log.bin") for _ in range(2)]
    for child in both:
        status(child)
    it.finished()


def lost_disk(it):
    """A server loses its disk and comes back empty: it is filled again. Then another one is killed, and what was confirmed is there."""
    writer = it.half_written()
    it.servers.lose_disk(2)
    it.servers.serve(2)
    it.alike()
    it.servers.kill(3)
    it.give(writer, it.frames[it.cut:], ends=True)
    status(writer)
    it.servers.serve(3)
    it.finished()


def trimmed(it):
    """What both nodes have is dropped but for some blocks. A new node is told by number (3), comes from another one (--from), and goes
    on; the whole log may be published again."""
    writer = it.half_written()
    it.fed(it.entries // 2)
    nodes = [word for port in it.ports.values() for word in ("--node", port)]
    trim = it.ran("trim", "--keep", 3, *nodes, stdout=subprocess.PIPE, text=True)
    told = trim.communicate(timeout=PATIENCE)[0].splitlines()
    holds(trim.returncode == 0 and all(re.search(" [45] left, from entry ", line) for line in told), f"{told}: {it.said()}")
    first = int(told[0].split()[-2])
    it.add_node("three")
    late = it.follow("three")
    status(late, 3)
    holds(f"stream 1: entries 1 to {first - 1} are no longer in NATS" in it.said(), it.said())
    it.followers["three"] = it.follow("three", "--from", it.ports["one"])
    it.give(writer, it.frames[it.cut:], ends=True)
    status(writer)
    it.finished(first=2)
    status(it.publish(name="log.bin"))
    holds("not compared, as NATS no longer has them" in it.said(), it.said())


def minority(it):
    """Two of three servers are away: nothing is confirmed, and what is there can be read of the third, one by one. They come back."""
    writer = it.half_written()
    it.alike()
    for host in (1, 2):
        it.servers.kill(host)
    before = it.confirmed()
    it.give(writer, it.frames[it.cut:], ends=True)
    it.add_node("three")
    it.followers["three"] = it.follow("three", "--by", "get")
    it.fed(it.entries // 2, "three")
    holds(it.confirmed() == before, f"confirmed without a majority: {it.confirmed()}")
    for host in (1, 2):
        it.servers.serve(host)
    status(writer)
    it.finished()


def forked(it):
    """The log's primary writes on where no majority is, and dies; its other history goes on behind what was confirmed, over the other two
    servers. What the third one alone was given is gone, and the first history is refused (2)."""
    writer = it.half_written()
    other = log_of(it.entries, 5, it.entries // 2)
    lone = it.leader()
    many = [host for host in HOSTS if host != lone]
    it.alike()
    for host in many:
        it.servers.kill(host)
    it.give(writer, it.frames[it.cut:it.cut + 200])
    time.sleep(1)
    kill(writer)
    it.servers.kill(lone)
    holds(sum(it.confirmed().values()) == it.entries // 2, f"confirmed without a majority: {it.confirmed()}")
    for host in many:
        it.servers.serve(host)
    it.write("other.bin", other)
    it.write("first.bin", it.frames)
    status(it.publish(name="other.bin"))
    it.servers.serve(lone)
    status(it.publish(name="first.bin"), 2)
    holds("in NATS is another" in it.said(), it.said())
    it.finished(other)


def slow_server(it):
    """The server that leads most streams is stopped for 15 seconds, and goes on: it may take itself for the leader still."""
    writer = it.half_written()
    victim = it.leader()
    it.servers.stop(victim)
    it.give(writer, it.frames[it.cut:], ends=True)
    time.sleep(15)
    it.servers.go_on(victim)
    status(writer)
    it.finished()


def lost_all(it):
    """Followers wait where NATS has less than their node, for so long as --patience says, and then say so (3); so does a publisher that
    was confirmed more."""
    writer = it.half_written("--patience", 3)
    it.fed(it.entries // 2)
    nats = it.any_link()
    for key in KEYS:
        nats.ask(f"$JS.API.STREAM.DELETE.{key}")
    nats.close()
    empty = it.publish("--patience", 3, name="/dev/null")
    status(empty)
    for name in it.followers:
        status(it.followers[name], 3)
    holds("it lost its tail after the node was fed" in it.said(), it.said())
    it.give(writer, it.frames[it.cut:], ends=True)
    status(writer, 3)
    holds(f"NATS has entries to 0 only" in it.said(), it.said())


def greatest_frame(it):
    """An entry of the greatest size is a block by itself; where servers take less, that is told (1)."""
    rows = [(1, key, 0, bytes(4_096)) for key in range(1_023)]
    frame = encode(Entry.of(LOG, 1, 1, 1, rows=rows))
    it.write("great.bin", [frame, *(encode(Mark(LOG, stream, int(stream == 1), it.entries)) for stream in range(1, STREAMS + 1))])
    status(it.publish(name="great.bin"))
    for name in it.ports:
        it.readable(name)
    it.servers.kill(1)
    it.servers.payload = 1_048_576
    it.servers.serve(1)
    it.write("more.bin", [encode(Entry.of(LOG, 1, 2, it.entries + 1, rows=rows))])
    status(it.publish(name="more.bin"), 1)
    holds("is more than" in it.said() and "set max_payload to 8388608" in it.said(), it.said())


def several_nodes(it):
    """One follower feeds three nodes, of which one is killed and comes back empty: each block is read once, the others are fed on."""
    for child in it.followers.values():
        kill(child)
    third = it.add_node("three")
    nodes = [word for port in it.ports.values() for word in ("--node", port)]
    writer, one = it.half_written(), it.ran("follow", *nodes)
    it.followers = dict.fromkeys(it.ports, one)
    it.fed(it.entries // 2)
    kill(third)
    it.give(writer, it.frames[it.cut:], ends=True)
    status(writer)
    it.fed(it.entries, "one", "two")
    it.start_node(it.ports["three"], "-q")
    it.fed(it.entries, "three")
    it.finished()


class Records(records_tried.Engine):
    """The bad cases of a log in NATS, on one server."""

    name = bad_records.NATS

    def __init__(self, bench):
        super().__init__(bench.folder, records_tried.Programs(bench.start))
        self.bench, self.nats = bench, bench.any_link()

    def begin(self):
        for stream in (1, 2):
            try:
                self.nats.ask(f"$JS.API.STREAM.DELETE.hekaton_{bad_records.LOG}_{stream}")
            except ApiError:
                pass
        self.made_streams(1)

    def made_streams(self, count):
        store = LogInNats(self.bench.servers.urls().split(","), bad_records.LOG, count, replicas=1)
        store.prepare()
        store.drop()

    def words(self, side):
        return [CONNECTORS / side, *self.bench.url(), *(("--replicas", 1) if side == "publish" else ())]

    def key(self):
        return f"hekaton_{bad_records.LOG}_1"

    def put(self, step):
        if step.stream > 1:
            self.made_streams(step.stream)
        head = step.says if step.last is None else b"%d" % step.last
        place = put_by_another(self.nats, bad_records.LOG, step.data, head, step.stream, step.sum)
        return f"message {place} of {self.key()}" if step.stream == 1 else f"hekaton_{bad_records.LOG}_{step.stream}"

    def do(self, step):
        holds(isinstance(step, bad_records.Trimmed), f"{step} is nothing for NATS")
        self.nats.ask(f"$JS.API.STREAM.PURGE.{self.key()}", {"seq": step.below})


def put_by_another(nats, log, data, last, stream=1, its_sum=None):
    """Something else than `publish` adds a message; gives its sequence."""
    head = (b"" if last is None else b"Hk-Last: %s\r\n" % last) + (b"Hk-Sum: %s\r\n" % its_sum.hex().encode() if its_sum else b"")
    token, text = nats.put(b"hekaton.%d.%d" % (log, stream), data, head)
    nats.send(text)
    told = json.loads(nats.take(token).data)
    holds("error" not in told, f"not added: {told}")
    return told["seq"]


def bad_records_in_nats(it):
    """The bad cases of tests/lib/bad_records.py: whatever something else puts into NATS is named, and nothing wrong gets to a node. `trim`
    names it, too."""
    engine = Records(it)
    problems, count = records_tried.tried(engine)
    holds(not problems, f"{len(problems)} of {count} cases: " + "; ".join(problems[:3]))
    case = next(case for case in bad_records.NO_BLOCKS if case.name == "noise")
    named, node = engine.made(case), it.start(HKREP, "serve", "--log", LOG, "--streams", 1, "--port", free_port(), "--links", 4, stdout=subprocess.PIPE)
    code, out, lines = engine.programs.ran(*engine.words("trim"), "--log", LOG, "--streams", 1, "--node", node.stdout.readline().split()[1].decode())
    wanted = f"trim: {case.said[0].line.format(at=named)}"
    holds((code, out, lines) == (3, "", [wanted]), f"trim: {code}, {out!r}, {lines}")
    kill(node)
    return f"{count} cases"


def another_between(it):
    """Somebody else's block takes the place for which a publisher has some: none of them is stored, not even the one
    whose own place is still free, for it would stand behind a hole. Who publishes the log then goes on behind the
    other's block."""
    engine, nats, kept = Records(it), it.any_link(), []
    engine.begin()
    store = LogInNats(it.servers.urls().split(","), LOG, 1, replicas=1)
    place, _, _ = store.end(1)
    put_by_another(nats, LOG, bad_records.OURS[1], b"1")
    nats.close()
    blocks = [walked(bad_records.ours(first, last), last, LOG, 1, "a block") for first, last in ((1, 2), (3, 4))]
    try:
        store.append(1, place, blocks, kept.append)
        store.settle()
        holds(False, "the blocks were taken")
    except Moved:
        pass
    holds(not kept and store.end(1)[:2] == (1, 1), f"{kept} are called kept, and the stream ends at {store.end(1)[:2]}")
    store.drop()
    holds(engine.publish([bad_records.OURS[number] for number in range(1, 9)], "--confirm")[:2] == (0, "kept 1 8\n"), it.said())


def late_and_forked(it):
    """Another log under the same id, an entry of a closed time and a mark that isn't true are stopped at the publisher (2); an input that
    lacks an entry, is cut off or of another log, too (3, 4). Items may come in any order, and twice."""
    twice = it.frames * 2
    it.rand.shuffle(twice)
    for name, frames, wanted in (("shuffled.bin", twice, 0), ("again.bin", it.frames, 0), ("other.bin", log_of(it.entries, 6), 2)):
        it.write(name, frames)
        status(it.publish(name=name), wanted)
    number = it.confirmed()[1]
    late, untrue = Entry.of(LOG, 1, number + 1, it.entries, rows=[(1, 5, 0, b"late")]), Mark(LOG, 1, number - 1, it.entries + 5)
    lacking = Entry.of(LOG, 1, number + 2, it.entries + 9, rows=[(1, 5, 0, b"")])
    for item, wanted in ((late, 2), (untrue, 2), (lacking, 3), (Mark(LOG + 1, 1, 0, 1), 4)):
        it.write("bad.bin", [encode(item)])
        status(it.publish(name="bad.bin"), wanted)
    (it.folder / "cut.bin").write_bytes(b"".join(it.frames)[:-5])
    status(it.publish(name="cut.bin"), 4)
    it.finished()


def secured(it):
    """TLS with certificates of both sides, a user that may only publish and one that may only read, with the rights that the page names.
    What is refused is told in a line (1); no password on the command line."""
    folder = it.folder
    subprocess.run(["openssl", "req", "-x509", "-newkey", "rsa:2048", "-nodes", "-keyout", folder / "key.pem", "-out", folder / "cert.pem",
                    "-days", "2", "-subj", "/CN=localhost", "-addext", "subjectAltName=DNS:localhost"], check=True,
                   stderr=subprocess.DEVNULL)
    for child in it.followers.values():
        kill(child)
    it.servers.kill(1)
    rights = of("engine.py rights")[0].text.replace("PASSWORD", "secret")
    it.servers.more = (f'{rights}\ntls {{ cert_file: "{folder}/cert.pem", key_file: "{folder}/key.pem", ca_file: "{folder}/cert.pem", '
                       'verify: true }\n')
    it.servers.serve(1)
    port, env = it.servers.places[1][1], {**os.environ, "NATS_PASSWORD": "secret"}
    trust, own = ["--cacert", folder / "cert.pem"], ["--cert", folder / "cert.pem", "--key", folder / "key.pem"]

    def run(name, user, *more, wanted=0, told="", host="localhost", tls=(*trust, *own), **options):
        before = len((folder / "said").read_text()) if (folder / "said").exists() else 0
        first = {"publish": ["--replicas", 1, "--block", 2000, folder / "log.bin"], "follow": ["--node", it.ports["one"]]}.get(name, [])
        words = [*first, *more]
        child = it.start(CONNECTORS / name, "--nats", f"tls://{user}@{host}:{port}", *WORDS, *tls, *words, **{"env": env, **options})
        status(child, wanted)
        said = (folder / "said").read_text()[before:]
        holds(told in said and all(len(line) < 420 for line in said.splitlines()), f"{name} of {user}: {said!r}")

    run("publish", "writer")
    run("follow", "reader", "--until", it.entries)
    run("follow", "reader", "--once", "--by", "get")
    run("status", "reader")
    run("publish", "reader", wanted=1, told="Permissions Violation")
    run("follow", "writer", "--once", wanted=1, told="Permissions Violation")
    run("trim", "reader", "--keep", 1, "--node", it.ports["one"], wanted=1, told="Permissions Violation")
    run("publish", "writer", wanted=1, told="Authorization Violation", env={**env, "NATS_PASSWORD": "wrong"})
    run("publish", "writer", wanted=1, told="certificate", tls=())
    run("publish", "writer", wanted=1, told="certificate", tls=trust)
    run("publish", "writer", wanted=1, told="certificate", host="127.0.0.1")
    run("publish", "writer:secret", wanted=64)
    it.same(it.ports["one"])


def old_server(it):
    """A server that loses acknowledged messages is refused by its version, wherever it stands among the others."""
    with socket.create_server(("127.0.0.1", 0)) as old:
        def serve():
            while True:
                try:
                    link, _ = old.accept()
                    link.sendall(b'INFO {"server_name":"old","version":"2.9.10","max_payload":1048576}\r\n')
                    link.close()
                except OSError:
                    return
        threading.Thread(target=serve, daemon=True).start()
        urls = ["--nats", f"{it.servers.urls()},127.0.0.1:{old.getsockname()[1]}"]
        node = ["--node", it.ports["one"]]
        for words in (["publish", "--replicas", 1, it.folder / "log.bin"], ["follow", *node], ["trim", *node]):
            child = it.start(CONNECTORS / words[0], *urls, *WORDS, *words[1:])
            status(child, 1)
            holds("is nats-server 2.9.10, which loses acknowledged messages after a partition: 2.10.27 or later" in it.said(), it.said())
        child = it.start(CONNECTORS / "status", *urls, *WORDS, stdout=subprocess.PIPE, text=True)
        out = child.communicate(timeout=PATIENCE)[0]
        holds(child.returncode == 1 and "2.9.10" in out, out)


class Paged(Bench):
    """Three servers with the configuration of the page, where what is a machine's own stands for a place on this one."""

    def __init__(self, *words):
        super().__init__(*words)
        self.servers.config = self.config

    def config(self, host):
        text, (_, port, route, monitor) = of("engine.py servers")[0].text, self.servers.places[host]
        others = [self.servers.places[it][2] for it in HOSTS if it != host]
        mine_of = {"n1": f"n{host}", "0.0.0.0:4222": f"127.0.0.1:{port}", "127.0.0.1:8222": f"127.0.0.1:{monitor}",
                   "0.0.0.0:6222": f"127.0.0.1:{route}", "B:6222": f"127.0.0.1:{others[0]}", "C:6222": f"127.0.0.1:{others[1]}",
                   "/var/lib/nats": str(self.folder / f"js{host}")}
        for word, mine in mine_of.items():
            holds(word in text, f"the page's configuration has no {word}")
            text = text.replace(word, mine, 1)
        return text


def as_in_the_page(it):
    """The commands of the page, typed one after the other, over servers that are configured as it says."""
    env = {**os.environ, "NATS_URL": it.servers.urls()}
    for shown in of("engine.py typed"):
        line = shown.text.replace("LOG.bin", shlex.quote(str(it.folder / "log.bin"))).replace("A:4222,B:4222,C:4222", it.servers.urls())
        line = line.replace("7420", str(it.ports["one"])).replace("7421", str(it.ports["two"]))
        for host, monitor in zip("ABC", it.servers.monitors()):
            line = line.replace(f"{host}:8222", monitor)
        child = it.start("bash", "-c", f"exec {line}", cwd=ROOT, env=env, stdout=subprocess.PIPE)
        if "/follow" in line:
            waited(lambda: it.taken("one") >= it.entries, "the follower doesn't come to the end")
            kill(child)
        elif "--watch" in line:
            holds(child.stdout.readline(), "--watch tells nothing")
            kill(child)
        else:
            out = child.communicate(timeout=PATIENCE)[0]
            status(child)
            holds("status" not in line or out.count(b"server") >= 3, f"{line}: {out}")
    it.finished()


def demonstrated():
    """`make nats-demo`, as its recipe is typed, in small: the leader is killed in the middle, and both nodes show the primary's rows."""
    begin = time.monotonic()
    problems = [] if all(it.text == "make nats-demo" for it in of("engine.py demonstrated")) else ["another make"]
    told, code = demonstration(CONNECTORS / "demo", 400)
    problems += [] if code == 0 and told.count("equal") == 24 else [told]
    return f"make nats-demo ({time.monotonic() - begin:.1f} s)", problems, ""


STORIES = [as_in_the_page, slow_server, demonstrated, killed_leader, all_killed, each_in_turn, lost_disk, minority, forked, trimmed,
           killed_publishers, lost_all, greatest_frame, several_nodes, late_and_forked, another_between,
           bad_records_in_nats, secured, old_server]
ALONE = (greatest_frame, another_between, bad_records_in_nats, secured, old_server)
BENCHES = {as_in_the_page: Paged, **dict.fromkeys(ALONE, Alone)}


def main(words):
    if not program():
        skip("no nats-server from 2.10.27 on is here: stories of an engine of several machines (connectors/nats/get-server fetches one)",
             needed=False)
        return ended()
    if not is_built(HKREP):
        return ended()
    entries = int(words.pop(0)) if words and words[0].isdigit() else 1000
    frames = log_of(entries, 5)
    log = (entries, frames, tables_of(frames, entries))
    def once(story):
        return story() if story is demonstrated else play(story, lambda folder: BENCHES.get(story, Bench)(folder, *log))

    def run(story):
        """A story that fails is played once more, and both times are told, unless ONCE is set: now and then the servers, which aren't ours, find no
        cluster, elect nobody, or leave one behind. What fails twice fails."""
        name, problems, told = once(story)
        if not problems or os.environ.get("ONCE"):
            return name, problems, told
        name, again, told = once(story)
        return name, again and problems + again, told if again else f"the second time; the first: {problems[0][:300]}"

    chosen = [story for story in STORIES if not words or story.__name__ in words]
    with ThreadPoolExecutor(SIDE_BY_SIDE) as pool:
        for name, problems, told in pool.map(run, chosen):
            report(name, problems, told)
    return ended()


if __name__ == "__main__":
    sys.exit(main(sys.argv[1:]))
