"""What the checks of tests/checks/postgres.py share: a PostgreSQL with tables and what is captured of them, writers, and
kills. Needs python3-psycopg2 and python3-redis."""
import os
import pathlib
import random
import subprocess
import sys
import threading
import time

ROOT = pathlib.Path(__file__).resolve().parents[2]
sys.path[:0] = [str(ROOT / "tests" / "lib"), str(ROOT / "examples" / "shop")]

import psycopg2
import redis

import snapshots
import vadungsil as va
from checks import free_port
from servers import CAPTURE, HKREP, Postgres, Programs, kill, waited
from vadungsil import Node
from vadungsil.postgres import NotCaptured, last_time

LOG, LIMIT = 7, 90


def patience():
    """How long is waited for what comes by itself: LIMIT, and as much longer as the machine has more to do than cores."""
    return LIMIT * max(1, os.getloadavg()[0] / os.cpu_count())


class Story(AssertionError):
    """What went otherwise than it should."""


def holds(condition, text):
    if not condition:
        raise Story(text)


TABLES = {"accounts": ["id", "owner", "branch", "balance"], "notes": ["id::text", "about", "body"],
          "files": ["name", "size", "body"],
          "ticker": ["id", "tick"]}

SCHEMA = """create table accounts(id bigint primary key, owner text, branch int, balance bigint);
create table notes(id uuid primary key, about text, body text);
create table files(name text primary key, size int, body text);
create table ticker(id bigint primary key, tick bigint);
alter table notes alter body set storage external;
alter table files replica identity full;
insert into accounts select i, 'owner ' || i, i % 5, 100 from generate_series(-20, 2500) i;
insert into notes select md5(i::text)::uuid, 'note ' || i, repeat(md5(i::text), i * 9) from generate_series(1, 40) i;
insert into files select 'file ' || i, i, repeat('x', i * 500) from generate_series(1, 40) i;
insert into ticker values (1, 0);
create role capture login replication;
grant select on all tables in schema public to capture;
alter default privileges grant select on tables to capture;
grant execute on function pg_replication_origin_create(text), pg_replication_origin_drop(text),
pg_replication_origin_oid(text), pg_replication_origin_progress(text, boolean),
pg_replication_origin_advance(text, pg_lsn) to capture;
create publication shop for table accounts, notes, files, ticker;"""

CONFIGURATION = """log = 7
dsn = "{dsn}"
publication = "shop"

[[table]]
number = 1
name = "accounts"
key = "id"
tag = "branch"

[[table]]
number = 2
name = "notes"
key = "id"

[[table]]
number = 3
name = "public.files"
key = "name"
tag = "size"

[[table]]
number = 4
name = "ticker"
key = "id"
"""


class Shop:
    """A PostgreSQL with the tables above, a folder, and what is started beside it."""

    def __init__(self, folder):
        self.folder = folder
        self.programs = Programs(folder)
        self.postgres = Postgres(self.programs).make().start()
        self.link = self.postgres.connect()
        self.sql(SCHEMA)
        self.configuration = folder / "shop.toml"
        self.configuration.write_text(CONFIGURATION.format(dsn=self.postgres.dsn.replace("user=postgres",
                                                                                         "user=capture")))
        self.file = folder / "shop.log"

    def sql(self, text, *values):
        with self.link.cursor() as cursor:
            cursor.execute(text, values or None)
            return cursor.fetchall() if cursor.description else []

    def place(self):
        return self.sql("select pg_current_wal_insert_lsn()::text")[0][0]

    def confirmed(self, place):
        """Whether PostgreSQL was told of a place behind this one."""
        found = self.sql("select confirmed_flush_lsn > %s from pg_replication_slots", place)
        return bool(found and found[0][0])

    def capture(self, *words, **more):
        return self.programs.start(CAPTURE, self.configuration, *words, **more)

    def captured(self, *words, wanted=0, said="", limit=LIMIT):
        """Captures all that there is by now; sees the status and what is said."""
        done = subprocess.run([str(it) for it in (CAPTURE, self.configuration, *(words or ("--file", self.file)),
                                                  "--until", self.place())],
                              stderr=subprocess.PIPE, text=True, timeout=limit, check=False)
        holds(done.returncode == wanted, f"capture: status {done.returncode}, wanted {wanted}: {done.stderr[-600:]}")
        holds(said in done.stderr, f"capture said {done.stderr[-600:]!r}, wanted {said!r}")
        return done.stderr

    def lost(self, size, limit=LIMIT):
        """Told as lost (3) is what the file has behind so many bytes, also without the checksums that would show it. Then it has
        all again."""
        sums = self.file.with_name(f"{self.file.name}.sums")
        whole, lines = self.file.read_bytes(), sums.read_bytes()
        self.file.write_bytes(whole[:size])
        sums.unlink()
        self.captured(wanted=3, said="lost its tail, and those transactions can't be had again", limit=limit)
        self.file.write_bytes(whole)
        sums.write_bytes(lines)

    def node(self, file=None):
        """A node with the log of a file."""
        port = free_port()
        self.programs.node(port, LOG)
        node = Node(port, limit=patience())
        data = (file or self.file).read_bytes()
        if data:
            fed = subprocess.run([HKREP, "feed", "--port", str(port)], input=data, stdout=subprocess.PIPE,
                                 stderr=subprocess.PIPE, timeout=patience(),
                                 check=False)
            holds(fed.returncode == 0, f"feed: {fed.stderr[-300:]}")
        return node

    def same(self, node=None, tables=None):
        """The node's rows at its readable mark are PostgreSQL's."""
        with node or self.node() as it:
            wanted = snapshots.taken(self.link, tables or TABLES)
            if "ticker" in wanted.rows:      # the tick behind the snapshot isn't captured yet
                wanted.rows["ticker"] = {1: {"id": 1, "tick": wanted.tick - 1}}
            found = snapshots.differences(it, wanted, it.front().readable)
        holds(not found, "; ".join(found[:3]))


def places_of(data):
    """Where each whole entry of a log begins and ends, with its time; marks are left out."""
    at, found = 0, []
    while at + 32 <= len(data):
        end = at + 4 + int.from_bytes(data[at:at + 4], "big")
        if end > len(data):
            break
        if data[at + 5] == 1:
            found.append((at, end, int.from_bytes(data[at + 24:at + 32], "big")))
        at = end
    return found


# ---------------------------------------------------------------- kills

# what a writer does, and how often
STATEMENTS = {
    "update accounts set balance = balance + %(branch)s where id = %(key)s": 400,
    "insert into accounts values (%(other)s, %(short)s, %(branch)s, 0) on conflict (id) do update set owner = "
    "excluded.owner": 100,
    "update accounts set id = %(other)s where id = %(key)s and not exists "
    "(select from accounts where id = %(other)s)": 80,
    "delete from accounts where id between %(other)s and %(other)s + 90": 60,
    "update notes set about = %(short)s where id in "
    "(select id from notes order by md5(id::text || %(text)s) limit 2)": 120,
    "insert into notes values (gen_random_uuid(), 'new', repeat(%(text)s, 3))": 80,
    "delete from notes where id in (select id from notes order by md5(id::text || %(text)s) limit 3)": 40,
    "insert into files values (%(name)s, %(key)s, %(text)s) on conflict (name) do update set size = files.size + 1": 90,
    "update accounts set balance = balance + 1": 4,
    "truncate files": 10}


class Writer(threading.Thread):
    """Writes at random until it is ended, also where PostgreSQL is killed under it."""

    def __init__(self, shop, seed):
        super().__init__(daemon=True)
        self.shop, self.rand, self.is_over, self.count = shop, random.Random(seed), False, 0

    def run(self):
        link = None
        while not self.is_over:
            try:
                link = link or psycopg2.connect(self.shop.postgres.dsn)
                with link.cursor() as cursor:
                    cursor.execute("set statement_timeout = 20000")
                    for _ in range(self.rand.randint(1, 4)):
                        cursor.execute(*self.statement())
                    (link.commit if self.rand.random() < 0.9 else link.rollback)()
                self.count += 1
                time.sleep(self.rand.random() * 0.2)
            except psycopg2.Error:
                link = self.again(link)

    def again(self, link):
        """A link that can be used on, or none."""
        try:
            link.rollback()
            return link
        except (psycopg2.Error, AttributeError):
            time.sleep(0.02)
            return None

    def statement(self):
        """A statement and its values."""
        rand = self.rand
        key, other = rand.randrange(-20, 2500), rand.randrange(2500, 90_000)
        text = rand.randbytes(rand.choice([9, 9, 900, 3000])).hex()
        values = {"key": key, "other": other, "branch": key % 5, "text": text, "short": text[:15],
                  "name": f"file {key % 60}"}
        return rand.choices(list(STATEMENTS), STATEMENTS.values())[0], values


class Kills:
    """A PostgreSQL with writers, a capture into Redis or into a file, and a node behind it."""

    def __init__(self, shop, seed, is_file=False):
        self.shop, self.rand = shop, random.Random(seed)
        self.redis_port, self.port = free_port(), free_port()
        self.engine, self.url = "file", ["--file", shop.file]
        self.redis, self.victims = None, ["capture", "postgres", "node", "follower"]
        if not is_file:
            self.engine, self.url = "redis", ["--redis", f"redis://127.0.0.1:{self.redis_port}"]
            self.victims.append("redis")
            self.redis = shop.programs.redis(self.redis_port)
        self.moments, self.skipped, self.compared, self.longest = snapshots.Moments(), 0, 0, 0.0
        self.node = shop.programs.node(self.port, LOG)
        self.follower, self.capture = self.follow(), shop.capture(*self.url)
        self.writers = [Writer(shop, seed + number) for number in range(4)]

    def follow(self):
        return self.shop.programs.start(ROOT / "connectors" / self.engine / "follow", *self.url, "--log", LOG,
                                        "--streams", 1, "--node", self.port)

    def taken(self):
        """How far the node is: its last transaction."""
        try:
            with Node(self.port, limit=5, tries=1, wait=0) as node:
                return (node.front().readable + 1) // 2 ** 20
        except va.VadungsilError:
            return 0

    def alive(self):
        for name, child in (("capture", self.capture), ("follow", self.follower)):
            if child.poll() is not None:
                said = self.shop.programs.said().splitlines()
                raise Story(f"{name} ended with {child.returncode}: {' '.join(said[-3:])}")
        return True

    def come(self, look, what):
        """Waits, beside what was killed and goes on, and remembers what took longest."""
        begin = time.monotonic()
        waited(lambda: self.alive() and look(), lambda: self.far(what), patience())
        self.longest = max(self.longest, time.monotonic() - begin)

    def kill(self, victim):
        """kill -9, and what was killed is started anew."""
        if victim == "capture":
            kill(self.capture)
            self.capture = self.shop.capture(*self.url)
        elif victim == "postgres":
            self.shop.postgres.kill()
            self.shop.postgres.start()
            self.shop.link = self.shop.postgres.connect()
        elif victim == "redis":
            kill(self.redis)
            self.redis = self.shop.programs.redis(self.redis_port)
        elif victim == "follower":
            kill(self.follower)
            self.follower = self.follow()
        else:
            kill(self.node)
            self.node = self.shop.programs.node(self.port, LOG)

    def round(self, victim):
        """A kill once the log went on by a drawn number of transactions, and a moment compared behind it."""
        place = self.taken() + self.rand.randint(1, 25)
        self.come(lambda: self.taken() >= place, f"transaction {place}")
        self.kill(victim)
        self.compare()

    def far(self, what):
        """How far all are, where something doesn't come."""
        kept = self.shop.sql("select confirmed_flush_lsn, pg_current_wal_lsn(), active from pg_replication_slots")
        asks = self.shop.sql("select backend_type, state, wait_event, left(query, 60) from pg_stat_activity where "
                             "state is distinct from 'idle' and backend_type in ('client backend', 'walsender')")
        told = self.shop.file.stat().st_size if self.engine == "file" else redis.Redis(
            "127.0.0.1", self.redis_port).xinfo_stream(f"hekaton:{LOG}:1")["last-generated-id"]
        return (f"{what} doesn't come at a load of {os.getloadavg()[0]:.0f}: slot {kept}, {self.engine} {told}, "
                f"node at {self.taken()}; {asks}")

    def compare(self):
        """Compares a snapshot with its moment; another one where it is none."""
        for _ in range(50):
            wanted = snapshots.taken(self.shop.link, TABLES)
            with Node(self.port, limit=LIMIT) as node:
                self.come(lambda: has_come(node, wanted), f"tick {wanted.tick}")
                self.moments.learn(node)
                at = self.moments.of(wanted)
                if at is not None:
                    found = snapshots.differences(node, wanted, last_time(at))
                    holds(not found, "; ".join(found))
                    self.compared += 1
                    return
            self.skipped += 1
        raise Story("no snapshot of 50 is a moment")


def has_come(node, wanted):
    """Whether a node has what a snapshot can show; a node that is killed meanwhile hasn't."""
    try:
        return snapshots.has_come(node, wanted)
    except (va.VadungsilError, NotCaptured):
        return False
