"""Tails of a log that are lost, and that only look so: the stories of tests/checks/postgres.py, with a transaction of so many rows in which PostgreSQL asks
whether the capture lives, and psycopg2 confirms by itself. Needs python3-psycopg2 and python3-redis."""
import os
import pathlib
import signal
import time
from typing import NamedTuple

from captured_shop import LIMIT, LOG, ROOT, holds, places_of
from checks import free_port
from journeys import status
from servers import kill, waited
from vadungsil.postgres import Database, lsn_of

# after how many seconds without a word PostgreSQL ends a connection, where no more are asked for; after half of it, it asks
TIMEOUT = 4.0


class Story(NamedTuple):
    """`early`: a small transaction is confirmed before the large one comes; else it is read with it, and not kept. `crashes`: PostgreSQL is killed with
    the capture. `pauses`: what stands still meanwhile, the capture or Redis."""
    name: str
    is_early: bool
    crashes: bool
    pauses: str


STORIES = (Story("kept before it", True, False, "capture"), Story("read and not kept", False, False, "capture"),
           Story("PostgreSQL crashes too", True, True, "capture"), Story("read and not kept, PostgreSQL crashes too", False, True, "capture"),
           Story("Redis stands still", True, False, "redis"))


class Tail:
    """A story over a PostgreSQL of its own."""

    def __init__(self, shop, story, count, timeout):
        self.shop, self.story, self.count, self.limit, self.timeout = shop, story, count, LIMIT + count / 500, timeout
        self.where, self.redis = ["--file", shop.file], None
        if story.pauses == "redis":
            port = free_port()
            self.redis, self.where = shop.programs.redis(port), ["--redis", f"redis://127.0.0.1:{port}"]
        shop.sql(f"alter system set wal_sender_timeout = '{timeout:.0f}s'")
        shop.sql("select pg_reload_conf()")
        shop.sql("create table t(id bigint primary key, a text); create table elsewhere(i int)")
        shop.sql("alter publication shop add table t")
        with open(shop.configuration, "a", encoding="utf-8") as file:
            file.write('[[table]]\nnumber = 5\nname = "t"\nkey = "id"\n')
        self.confirmed, self.next = 0, 0

    def insert(self, link, count, text="s"):
        with link.cursor() as cursor:
            cursor.execute("insert into t select i, %s || i from generate_series(%s, %s) i", (text, self.next, self.next + count - 1))
        self.next += count

    def slot(self):
        return lsn_of(self.shop.sql("select confirmed_flush_lsn::text from pg_replication_slots where slot_name = 'vadungsil_7'")[0][0])

    def origin(self):
        return lsn_of(self.shop.sql("select pg_replication_origin_progress('vadungsil_7', false)::text")[0][0])

    def small(self):
        """A transaction of one row, which is confirmed."""
        self.insert(self.shop.link, 1)
        place = self.shop.place()
        waited(lambda: self.slot() >= lsn_of(place) - 200, "a small transaction isn't confirmed", self.limit)

    def round(self):
        """Kills a capture inside a large transaction, once psycopg2 confirmed a place by itself: whether it did."""
        child = self.shop.capture(*self.where)
        waited(lambda: child.poll() is not None or self.shop.sql("select 1 from pg_replication_slots where active"), "no capture reads", self.limit)
        large = self.shop.postgres.connect()
        large.autocommit = False
        self.insert(large, self.count, "z" * 100)
        self.small()
        paused = child if self.story.pauses == "capture" else self.redis
        if not self.story.is_early or self.redis:
            paused.send_signal(signal.SIGSTOP)
            self.insert(self.shop.link, 1)
        self.shop.sql("insert into elsewhere values (1)")
        before = lsn_of(self.shop.place())
        large.commit()
        time.sleep(0.1)
        paused.send_signal(signal.SIGSTOP)
        time.sleep(self.timeout * 0.7)
        paused.send_signal(signal.SIGCONT)
        waited(lambda: child.poll() is not None or self.slot() > self.origin() or self.origin() > before, "nothing comes", self.limit)
        is_ahead = self.slot() > self.origin()
        kill(child)
        if self.story.crashes:
            self.shop.postgres.kill()
            self.shop.postgres.start()
            self.shop.link = self.shop.postgres.connect()
        return is_ahead

    def whole(self):
        """Goes on, and the node has what PostgreSQL has."""
        self.shop.captured(*self.where, limit=self.limit)
        wanted = self.shop.sql("select count(*), sum(id), sum(length(a)) from t")[0]
        with self.shop.node(pathlib.Path(os.devnull) if self.redis else self.shop.file) as node:
            if self.redis:
                follow = [ROOT / "connectors" / "redis" / "follow", *self.where, "--log", LOG, "--streams", 1, "--node", node.address[1], "--once"]
                status(self.shop.programs.start(*follow))
            rows = list(Database(node).rows("t"))
        got = (len(rows), sum(row["id"] for row in rows), sum(len(row["a"]) for row in rows))
        holds(got == tuple(int(it) for it in wanted), f"the node has {got}, PostgreSQL {wanted}")

    def cut(self):
        """The last transaction of the file cut off is told, and nothing else is."""
        places = places_of(self.shop.file.read_bytes())
        last = max(place[2] // 2 ** 20 for place in places if (place[2] + 1) % 2 ** 20 == 0)
        self.shop.lost(min(place[0] for place in places if place[2] // 2 ** 20 == last), self.limit)


def played(shop, story, count, rounds=3, timeout=TIMEOUT):
    """Rounds until psycopg2 confirmed by itself in one of them: how many these were, and in how many it did."""
    it, ahead = Tail(shop, story, count, timeout), 0
    shop.captured(*it.where)
    at = 0
    for at in range(1, rounds + 1):
        is_ahead = it.round()
        if is_ahead and not it.redis:
            it.cut()
        it.whole()
        ahead += is_ahead
        if ahead and rounds == 3:
            break
    return at, ahead
