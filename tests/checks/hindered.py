"""Captures that are hindered: by transactions that are open, by rights that lack, by a full disk, and by what takes long, each over a shop of
tests/checks/captured_shop.py. They say by what, lose nothing, and go on where they can. Needs python3-psycopg2, unshare and nsenter."""
import os
import pathlib
import re
import shutil
import signal
import subprocess
import threading
import time

import capturing
import catalog
import configuration
import confirming
import psycopg2
import source
import waiting
from captured_shop import LIMIT, LOG, TABLES, holds, patience, places_of
from checks import differ, skip
from keeping import KeptByEngine
from log import Changes
from log_in_file import LogInFile
from servers import CAPTURE, kill, waited
from vadungsil.postgres import lsn_of

OPEN = "the load waits for transactions that are open: "


def said_by(shop, what, count=1):
    """Waits until something was said so many times."""
    waited(lambda: shop.programs.said().count(what) >= count, f"not said {count} times: {what}", patience())
    return shop.programs.said()


# ---------------------------------------------------------------- open transactions

def opened(shop, database="postgres", user="postgres"):
    """A connection with a transaction that has written, and the number of its process."""
    link = psycopg2.connect(shop.postgres.dsn.replace("=postgres dbname=postgres", f"={user} dbname={database}"))
    with link.cursor() as cursor:
        cursor.execute("select txid_current()")
    return link, link.info.backend_pid


def open_transactions(shop):
    """What the load waits for is named after two seconds and then each minute, with its age where the user may see it, and is captured once it ends."""
    shop.sql("create database elsewhere")
    prepared, _ = opened(shop)
    with prepared.cursor() as cursor:
        cursor.execute("insert into files values ('prepared', 1, ''); prepare transaction 'held'")
    own, own_pid = opened(shop, "elsewhere", "capture")
    other, pid = opened(shop)
    with other.cursor() as cursor:
        cursor.execute("insert into files values ('open', 1, '')")
    child = shop.capture("--file", shop.file)
    told = said_by(shop, OPEN).split(OPEN)[1].splitlines()[0]
    wanted = rf"prepared 'held' for \d+ s, pid {own_pid} for \d+ s, pid {pid}"
    holds(re.fullmatch(wanted, told), f"said {told!r}, wanted {wanted!r}")
    each_minute(shop, [f"pid {own_pid}", f"pid {pid}", "prepared 'held'"])
    holds(shop.programs.said().count(OPEN) == 1, shop.programs.said())
    own.rollback()
    other.commit()
    shop.sql("commit prepared 'held'")
    # PostgreSQL notes what runs each 15 seconds, and at each checkpoint
    waited(lambda: "loaded " in shop.programs.said() or shop.sql("checkpoint"), "it isn't loaded", patience())
    kill(child)
    for link in (own, other, prepared):
        link.close()
    shop.captured()
    shop.same()


def each_minute(shop, names):
    """The same words again and again, as the thread says them that does it each minute: here each fifth of a second, to a user who sees all ages."""
    problems = differ([("seconds until the first word, and between two", (waiting.FIRST, waiting.EVERY), (2, 60))])
    before, waiting.FIRST, waiting.EVERY, said = (waiting.FIRST, waiting.EVERY), 0.2, 0.2, []
    usual = configuration.read(str(shop.configuration))
    try:
        with waiting.Waiting(usual._replace(dsn=shop.postgres.dsn), 0, said.append):
            waited(lambda: len(said) >= 4, "not said four times", patience())
    finally:
        waiting.FIRST, waiting.EVERY = before
    problems += [f"{text} lacks {name}" for text in said for name in names if f"{name} for " not in text or not text.startswith(OPEN)]
    seven = waiting.told_of([(f"pid {number}", 60.6 - number) for number in range(7)])
    problems += differ([("of seven", seven, f"{OPEN}pid 0 for 61 s, pid 1 for 60 s, pid 2 for 59 s, pid 3 for 58 s, pid 4 for 57 s, 2 more")])
    holds(not problems, "; ".join(problems))


# ---------------------------------------------------------------- rights that lack

ORIGINS = ("pg_replication_origin_create(text)", "pg_replication_origin_drop(text)", "pg_replication_origin_oid(text)",
           "pg_replication_origin_progress(text, boolean)", "pg_replication_origin_advance(text, pg_lsn)")
NO_ORIGIN = "this user may not use replication origins, so a lost tail may be reported where none is: grant execute on function "

# what is taken away from the user beside what the check of refused tables does, how it is given back, and what is said (4) before anything is written
RIGHTS = (
    ("revoke select on accounts from capture; grant select (id, owner, branch) on accounts to capture",
     "grant select on accounts to capture", "line 7: this user may not read column balance of public.accounts: grant select on public.accounts"),
    ("revoke usage on schema public from public; revoke usage on schema public from capture", "grant usage on schema public to capture",
     "line 7: this user may not use the schema public: grant usage on schema public"),
)


def lacking_rights(shop):
    """Each right that docs/POSTGRESQL.md asks for is named where it lacks: 4 before anything is written, and without those of the origin it goes on."""
    holds(set(ORIGINS) == set(confirming.RIGHTS), f"{confirming.RIGHTS}")
    shop.sql("revoke usage on schema public from public; grant usage on schema public to capture")
    for taken, given, said in RIGHTS:
        shop.sql(taken)
        shop.captured(wanted=4, said=said)
        shop.sql(given)
    left = shop.sql("select count(*) from pg_replication_slots")[0][0], shop.file.stat().st_size
    holds(left == (0, 0), f"slots and bytes that are left: {left}")
    said = configuration.read(str(shop.configuration))
    asked = catalog.Catalog(said)
    for function in ORIGINS:
        shop.sql(f"revoke execute on function {function} from capture")
        lacking = confirming.Origin(said, asked).lacking
        holds(lacking == [function], f"{lacking} without {function}")
        shop.sql(f"grant execute on function {function} to capture")
    asked.close()
    shop.sql(f"revoke execute on function {', '.join(ORIGINS)} from capture")
    shop.captured(said=f"{NO_ORIGIN}{', '.join(ORIGINS)}\n")
    shop.sql(f"grant execute on function {', '.join(ORIGINS)} to capture")
    taken_meanwhile(shop)


def taken_meanwhile(shop):
    """A right that goes while a capture runs ends it (1) with its name, and one that comes is used from the next start on; nothing is lost, and a lost
    tail is told without the right too."""
    child = shop.capture("--file", shop.file)
    before = shop.place()
    shop.sql("insert into files values ('with it', 1, '')")
    waited(lambda: shop.confirmed(before), "nothing is confirmed", patience())
    shop.sql("revoke execute on function pg_replication_origin_advance(text, pg_lsn) from capture")
    shop.sql("insert into files values ('without it', 1, '')")
    holds((child.wait(patience()), "permission denied for function pg_replication_origin_advance" in shop.programs.said()) == (1, True), shop.programs.said())
    size = shop.file.stat().st_size
    shop.sql("insert into files values ('behind it', 1, '')")
    shop.captured(said=f"{NO_ORIGIN}{ORIGINS[4]}\n")
    shop.lost(size)
    shop.sql(f"grant execute on function {', '.join(ORIGINS)} to capture; update files set size = size + 1")
    holds("may not use" not in shop.captured(), "it still says that a right lacks")
    shop.same(tables={name: TABLES[name] for name in ("files", "accounts")})
    behind = shop.sql("select pg_replication_origin_progress('vadungsil_7', false) = confirmed_flush_lsn + 1 from pg_replication_slots")
    holds(behind == [(True,)], "the origin isn't where the slot is")


# ---------------------------------------------------------------- a full disk

class Disk:
    """A file system of some megabytes in memory, in a mount namespace of its own, which a program that sleeps holds."""

    def __init__(self, shop, size):
        self.shop, self.place = shop, shop.folder / "disk"
        self.place.mkdir()
        mount = f"mount -t tmpfs -o size={size},mode=755 none '{self.place}' && echo mounted && exec sleep {10 * LIMIT}"
        self.holder = shop.programs.start("unshare", *own_user("--map-root-user"), "--mount", "sh", "-c", mount, stdout=subprocess.PIPE)
        assert self.holder.stdout.readline() == b"mounted\n"
        self.inside = pathlib.Path(f"/proc/{self.holder.pid}/root{self.place}")

    def capture(self, *words):
        enter = ["nsenter", *own_user("-U", "--preserve-credentials"), "-m", "-t", self.holder.pid, "--"]
        return self.shop.programs.start(*enter, CAPTURE, self.shop.configuration, "--file", self.place / "shop.log", *words)

    def fill(self):
        """Leaves room for nothing."""
        with open(self.inside / "other", "ab", 0) as other:
            try:
                while other.write(bytes(4096)):
                    pass
            except OSError:
                pass

    def free(self):
        (self.inside / "other").unlink()


def own_user(*words):
    """Words that are needed where one isn't root."""
    return words if os.geteuid() else ()


def may_mount():
    """Whether this user may mount something in a namespace of its own."""
    words = ["unshare", *own_user("--map-root-user"), "--mount", "mount", "-t", "tmpfs", "none", "/mnt"]
    return bool(shutil.which("unshare") and shutil.which("nsenter")) and subprocess.run(words, stderr=subprocess.DEVNULL, check=False).returncode == 0


def full_disk(shop):
    """Where the disk of the file is full a capture says so once and waits, also one that is begun then; once there is room nothing lacks."""
    if not may_mount():
        skip("no file system can be mounted here: a capture on a full disk", needed=False)
        return
    disk, full = Disk(shop, "24m"), "OSError: [Errno 28] No space left on device; trying again"
    child = disk.capture()
    said_by(shop, "loaded ")
    for turn in (1, 2):
        if turn == 2:
            kill(child)
            disk.free()
            disk.fill()
            child = disk.capture()
        else:
            disk.fill()
        before = shop.place()
        shop.sql("update notes set body = body || repeat(md5(about), 99); update accounts set balance = balance + 1")
        said_by(shop, full, turn)
        time.sleep(1)
        holds(child.poll() is None and not shop.confirmed(before) and shop.programs.said().count(full) == turn, shop.programs.said())
    disk.free()
    place = shop.place()
    waited(lambda: shop.confirmed(place) or shop.sql("select pg_logical_emit_message(true, 'vadungsil', 'vadungsil_7')") is None, "it doesn't go on", patience())
    kill(child)
    child = disk.capture("--until", shop.place())
    holds(child.wait(patience()) == 0, shop.programs.said())
    with shop.node(disk.inside / "shop.log") as node:
        shop.same(node)


# ---------------------------------------------------------------- what takes long

class SlowRows(dict):
    """Rows that a slow machine hands on, a thousand in a second."""

    def items(self):
        for at, it in enumerate(super().items()):
            if at % 100 == 0:
                time.sleep(0.1)
            yield it


def silence(shop, seconds):
    """Has PostgreSQL end a connection after so long without a word."""
    shop.sql(f"alter system set wal_sender_timeout = '{seconds}s'")
    shop.sql("select pg_reload_conf()")


def slow_spills(shop):
    """A transaction that goes into its file for longer than PostgreSQL waits for a word is captured at the first try."""
    holds([source.silence(it) for it in (0, 4, 30, 60)] == [10, 1, 7.5, 10], "not each 10 seconds, or a quarter of the timeout")
    silence(shop, 4)
    shop.captured()
    shop.sql("insert into accounts select i, 'new', 0, 0 from generate_series(10001, 17000) i")
    place = lsn_of(shop.place())
    store, tries = LogInFile(str(shop.file), LOG, False), []
    capture = capturing.Capture(configuration.read(str(shop.configuration)), KeptByEngine(store, 60), place)

    def slow():
        changes = Changes(capture.source.live)
        changes.rows.rows, changes.rows.most = SlowRows(), 6000
        return changes

    capture.none, capture.patience.wait = slow, tries.append
    child = threading.Thread(target=capture.run, daemon=True)
    try:
        capture.begin()
        waited(lambda: shop.sql("select current_setting('wal_sender_timeout')") == [("4s",)], "the setting doesn't come", patience())
        child.start()
        waited(lambda: tries or not child.is_alive(), "it isn't captured", patience())
    finally:
        capture.until = 1
        if child.ident:
            child.join(LIMIT)
        capture.source.drop()
        store.drop()
    holds(not tries and capture.log.standing.lsn >= place, f"tried again: {tries}")
    shop.same()


def stopped_inside(shop, child):
    """Has a capture stand still while it writes an UPDATE of more than forty entries, before the thirtieth: behind how many."""
    for _ in range(20):
        size, place = shop.file.stat().st_size, shop.place()
        shop.sql("update accounts set balance = balance + 1")
        waited(lambda at=size: shop.file.stat().st_size > at or child.poll() is not None, "it doesn't write", patience())
        child.send_signal(signal.SIGSTOP)
        last = places_of(shop.file.read_bytes())[-1][2] % 2 ** 20
        if last < 30:
            return last + 1
        child.send_signal(signal.SIGCONT)
        waited(lambda at=place: shop.confirmed(at) or child.poll() is not None, "it isn't captured", patience())
    raise AssertionError("it never stands still inside a transaction")


def ticks(child):
    """How much of a processor a process had, in hundredths of a second."""
    return sum(map(int, pathlib.Path(f"/proc/{child.pid}/stat").read_text().rpartition(")")[2].split()[11:13]))


def gone_while_written(shop):
    """PostgreSQL is killed while a transaction is written, and started anew: the capture writes the rest of it, and goes on."""
    silence(shop, 4)
    shop.sql("insert into accounts select i, 'owner ' || i, i % 5, 100 from generate_series(10001, 50000) i")
    shop.captured()
    child = shop.capture("--file", shop.file)
    waited(lambda: shop.sql("select 1 from pg_replication_slots where active"), "no capture reads", patience())
    entries = stopped_inside(shop, child)
    shop.postgres.kill()
    shop.postgres.start()
    shop.link = shop.postgres.connect()
    # a word that fails is told by libpq only behind what PostgreSQL sent before it went, so several are due
    for _ in range(3):
        time.sleep(1.2)
        before = ticks(child)
        child.send_signal(signal.SIGCONT)
        waited(lambda at=before: child.poll() is not None or ticks(child) > at + 2, "it has no processor", patience())
        child.send_signal(signal.SIGSTOP)
    child.send_signal(signal.SIGCONT)
    place = shop.place()
    shop.sql("update files set size = 0")
    waited(lambda: shop.confirmed(place) or child.poll() is not None, "it doesn't go on", patience())
    holds(child.poll() is None, f"status {child.poll()}: {shop.programs.said()}")
    kill(child)
    shop.captured()
    shop.same()
    return f"it stood still behind {entries} entries"


CHECKS = (open_transactions, lacking_rights, full_disk, slow_spills, gone_while_written)
