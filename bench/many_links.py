"""What many connections cost a node, beside redis-server where it is installed, for bench/links. The client is in C (many_links.c); server and client have
a processor each, where there are several, and of the node one worker. Prints a JSON line a measure: the median of the rounds, by turns."""
import contextlib
import json
import os
import pathlib
import resource
import shutil
import statistics
import subprocess
import sys
import tempfile
import threading
import time

HERE = pathlib.Path(__file__).resolve().parent
sys.path.insert(0, str(HERE.parent / "tests" / "lib"))
import messages as say
from checks import free_port
from staying import PROGRAM

# how many links, and beyond them what else opens one
LINKS, OTHERS = (1, 64, 1_000, 10_000), 50
BODY = b"\xab" * 60
# entries of a whole have so many rows
ROWS = 100
WAITING = 1_000


class Sizes:
    """How large the measures are, by a number: 10,000 where nothing is said."""

    def __init__(self, asks):
        self.keys, self.seconds, self.rounds = max(min(20 * asks, 200_000), ROWS), min(asks / 20_000, 0.5), 9 if asks >= 1_000 else 1
        soft, hard = resource.getrlimit(resource.RLIMIT_NOFILE)
        most = (hard if asks >= 1_000 else 200) - OTHERS
        resource.setrlimit(resource.RLIMIT_NOFILE, (max(soft, hard), hard))
        self.links = [it for it in LINKS if it <= most]


def processors():
    """One for the server, and one for the client; None where there aren't several."""
    known = sorted(os.sched_getaffinity(0))
    return ([known[-1]], known[-2:-1]) if len(known) > 1 else (known, known)


def on(processor, words):
    return ["taskset", "-c", ",".join(map(str, processor)), *map(str, words)] if shutil.which("taskset") else list(map(str, words))


def word(text):
    return b"$%d\r\n%s\r\n" % (len(text), text)


class Server:
    """A node or a redis with these rows, on one processor, or where it `is_free` on all."""

    def __init__(self, name, sizes, is_free=False):
        self.name, self.port, self.time = name, free_port(), 0
        words = {"node": [PROGRAM, "node", "-q", "--log", 7, "--streams", 1, "--port", self.port, "--links", max(sizes.links) + OTHERS, *([] if is_free else ["--workers", 1])],
                 "redis": ["redis-server", "--port", self.port, "--save", "", "--appendonly", "no", "--bind", "127.0.0.1", "--maxclients", max(sizes.links) + OTHERS]}[name]
        self.child = subprocess.Popen(on(sorted(os.sched_getaffinity(0)) if is_free else processors()[0], words), stdout=subprocess.DEVNULL, stderr=subprocess.DEVNULL)
        with self.opened() as link:
            (self.fill if name == "node" else self.fill_redis)(link, sizes.keys)

    def opened(self):
        for _ in range(200):
            with contextlib.suppress(OSError):
                return say.Link(self.port, 60)
            time.sleep(0.05)
        raise SystemExit(f"{self.name} doesn't listen")

    def fill(self, link, keys):
        for first in range(0, keys, 100 * ROWS):
            frames = []
            for low in range(first, min(first + 100 * ROWS, keys), ROWS):
                self.time += 1
                frames.append(say.entry(self.time, self.time, [(1, key, 9, BODY + say.u32(key)) for key in range(low + 1, min(low + ROWS, keys) + 1)]))
            assert link.ask(say.items(*frames, say.mark(1, self.time, self.time)))[0] == "done"

    def fill_redis(self, link, keys):
        for first in range(1, keys + 1, 1_000):
            some = range(first, min(first + 1_000, keys + 1))
            link.send(b"".join(b"*3\r\n" + word(b"SET") + word(b"%07d" % key) + word(BODY + say.u32(key)) for key in some))
            assert link.read(5 * len(some)) == b"+OK\r\n" * len(some)

    def __enter__(self):
        return self

    def __exit__(self, *_):
        self.child.terminate()
        self.child.wait()


class Client:
    """The client in C, once it is compiled."""

    def __init__(self, folder, sizes):
        self.program, self.sizes, self.wrong = pathlib.Path(folder) / "many_links", sizes, 0
        subprocess.run(["gcc", "-O2", "-o", self.program, HERE / "many_links.c"], check=True)

    def run(self, work, server, links, active, batch, seconds=None):
        """What one run says."""
        words = [self.program, work, server.name, server.port, server.child.pid, links, active, batch, seconds or self.sizes.seconds, self.sizes.keys, server.time]
        done = subprocess.run(on(processors()[1], words), stdout=subprocess.PIPE, stderr=subprocess.PIPE, text=True, check=False)
        if not done.stdout:
            raise SystemExit(f"{work}, {server.name}, {links} links: {done.stderr}")
        told = json.loads(done.stdout)
        self.wrong += told["wrong"]
        server.time += told.get("asks", 0) + links if work == "change" else told.get("rounds", 0)
        return told

    def medians(self, work, servers, links, active, batch, name):
        """Each server by turns, and of each number of the rounds the median."""
        runs = {it.name: [] for it in servers}
        for _ in range(self.sizes.rounds):
            for it in servers:
                runs[it.name].append(self.run(work, it, links, active, batch))
        for server, told in runs.items():
            numbers = {key: statistics.median(it[key] for it in told) for key in told[0] if key not in ("work", "server", "bytes_a_link")}
            print(json.dumps({"measure": name, "server": server, **{key: round(number, 3) for key, number in numbers.items()}}), flush=True)


@contextlib.contextmanager
def both(sizes):
    """A node, and a redis where it is installed."""
    with contextlib.ExitStack() as stack:
        names = ["node", "redis"] if shutil.which("redis-server") else ["node"]
        yield [stack.enter_context(Server(name, sizes)) for name in names]


def gets(client, sizes):
    """Each link has 16 Gets on its way, or one; then of so many open links one asks at a time."""
    with both(sizes) as servers:
        for links in sizes.links:
            for batch in (16, 1):
                client.medians("get", servers, links, links, batch, f"Get, {batch} at a time")
            if links > 1:
                client.medians("get", servers, links, 1, 1, "Get, of one link at a time")


def silent(client, sizes):
    """What a link that asked once takes of the memory of a new server, beyond that of one link."""
    with both(sizes) as servers:
        for server in servers:
            client.run("get", server, 1, 1, 1, 0.01)
            told = client.run("get", server, max(sizes.links), 1, 1, 0.01)
            print(json.dumps({"measure": "silent links", "server": server.name, "links": told["links"], "bytes_a_link": told["bytes_a_link"]}), flush=True)


def changes(client, sizes):
    """Each link sends a change of one entry, and the next once it has its reply; beside one link that has 64 on their way."""
    with both(sizes) as servers:
        for links, batch in ((1, 64), *((it, 1) for it in sizes.links if it <= 1_000)):
            client.medians("change", servers, links, links, batch, "change")


def waits(client, sizes):
    """All links wait for one change: how long after its sending each sees it."""
    with both(sizes) as servers:
        client.medians("wait", servers, min(WAITING, max(sizes.links)), 1, 1, "seen by who waits")


class Snapshots:
    """A link that asks for full snapshots again and again, in a thread."""

    def __init__(self, server):
        self.link, self.count, self.bytes, self.is_over = server.opened(), 0, 0, False
        self.thread = threading.Thread(target=self.ask)

    def ask(self):
        room = bytearray(1 << 20)
        while not self.is_over:
            self.link.send(say.full())
            left = self.bytes = int.from_bytes(self.link.read(4), "big")
            while left:
                left -= self.link.socket.recv_into(room, min(left, len(room)))
            self.count += 1

    def __enter__(self):
        self.thread.start()
        return self

    def __exit__(self, *_):
        self.is_over = True
        self.thread.join()
        self.link.close()


def snapshots(client, sizes):
    """One of 60 links asks at a time, alone and beside one that asks for snapshots; on one processor, and on all."""
    for is_free in (False, True):
        with Server("node", sizes, is_free) as server:
            told = {"alone": client.run("get", server, 60, 1, 1)}
            with Snapshots(server) as beside:
                time.sleep(0.2)
                told["beside"] = client.run("get", server, 60, 1, 1)
            print(json.dumps({"measure": "Get beside snapshots", "processors": "all" if is_free else 1, "snapshots": beside.count, "bytes": beside.bytes,
                              **{f"{name}_{key}": it[key] for name, it in told.items() for key in ("per_second", "p50_us", "p99_us")}}), flush=True)


PARTS = {"gets": gets, "silent": silent, "changes": changes, "waits": waits, "snapshots": snapshots}


def measure(asks, parts=()):
    """Makes these measures, or all; gives how many replies were wrong."""
    if shutil.which("gcc") is None:
        print(json.dumps({"measure": "many links", "missing": "gcc"}), flush=True)
        return 0
    sizes = Sizes(asks)
    with tempfile.TemporaryDirectory() as folder:
        client = Client(folder, sizes)
        for name in parts or PARTS:
            PARTS[name](client, sizes)
    return client.wrong
