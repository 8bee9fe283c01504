#!/usr/bin/env python3
"""Tables of a PostgreSQL in nodes (connectors/postgres), with faults: tests/checks/postgres.py [KILLS [SEED]] [CHECK ..]

Each check starts a PostgreSQL of its own in a folder, over a socket there, and captures its tables. Wanted rows are
PostgreSQL's own: of a snapshot where its transactions are a beginning of the log, or of the end. The kills (twenty, or
as many as are asked for) are kill -9 of the capture, PostgreSQL, Redis, the follower or the node, at places of the log
that a seed draws; after each, a snapshot's moment is compared. Needs bin/hkrep, postgresql, python3-psycopg2, redis-server and
python3-redis; where one isn't installed, that is said as skipped. It ends only what it started."""
import contextlib
import errno
import importlib.util
import os
import pathlib
import random
import re
import shutil
import signal
import sys
import tempfile
import time
import uuid
from concurrent.futures import ThreadPoolExecutor

sys.dont_write_bytecode = True
DEBIAN = "/usr/bin/python3"
ROOT = pathlib.Path(__file__).resolve().parents[2]
try:
    import psycopg2
    import redis
except ImportError:
    # Debian's Python has Debian's modules; another may come first in PATH
    if os.path.exists(DEBIAN) and os.path.realpath(DEBIAN) != os.path.realpath(sys.executable):
        os.execv(DEBIAN, [DEBIAN, *sys.argv])
    psycopg2 = redis = None
sys.path[:0] = [str(ROOT / "tests" / "lib"), str(ROOT / "examples" / "shop"), str(ROOT / "connectors" / "postgres"),
                str(ROOT / "connectors" / "file")]

import pasted
import servers
from checks import differ, ended, free_port, is_built, report, skip
from journeys import demonstration, status
from servers import HKREP, kill, waited
from shown import of

if psycopg2 is not None and redis is not None:
    import altered_tables
    import capturing
    import catalog
    import configuration
    import hindered
    import keeping
    import log
    import lost_tails
    import reference
    import shapes
    import source
    import spilling
    import vadungsil
    import vadungsil.item_file
    import vadungsil.postgres as va
    from captured_shop import (LIMIT, LOG, TABLES, Kills, Shop, holds, places_of)
    from configuration import Broken
    from keys import Keys
    from log_in_file import LogInFile

KILLS, SEED = 20, 69
STORY = os.environ.get("STORY", "")      # what is in the name of a story, where only some are to be played


# ---------------------------------------------------------------- without a server

def keys_of_a_table():
    """The map of keys beside a dictionary, its keys in a row and far apart; and what it takes."""
    problems = []
    for is_hashed, most in ((False, 40), (True, 50)):
        rand, keys, wanted = random.Random(1), Keys(is_hashed), {}
        for _ in range(60_000):
            key = rand.randrange(15_000) * rand.choice([1, 1, 1, 2 ** 20, 2 ** 48])
            if rand.random() < 0.25:
                keys.discard(key)
                wanted.pop(key, None)
            else:
                keys.put(key, wanted.setdefault(key, rand.randrange(2 ** 62)))
        size = sum(sys.getsizeof(it) + 8 for it in keys.buckets) / len(wanted)
        problems += differ([("count", len(keys), len(wanted)), ("keys", set(keys), set(wanted)),
                            ("hits", [keys.get(it) for it in wanted], list(wanted.values())),
                            ("misses", [keys.get(it) for it in range(2 ** 40, 2 ** 40 + 100)], [None] * 100)])
        problems += [f"{size:.0f} bytes a key"] if size > most else []
    return problems


def spilled_transactions():
    """A transaction that goes through a file is written as one that fits into memory, in order of table and key."""
    rand, frames, seen = random.Random(3), {}, {}
    changes = [{(1, rand.randrange(3000)): rand.choice([None, rand.randbytes(rand.choice([9, 9, 5000]))])
                for _ in range(2600)}
               for _ in range(4)]
    for most in (7, spilling.MOST):
        frames[most], it = [], None
        it = log.Log(LOG, 65535, (), frames[most].append)
        it.load_begin({1: b"x"})
        it.load_end(1, 1)
        for lsn, rows in enumerate(changes, 2):
            one = log.Changes()
            one.rows = spilling.Spilling(shapes.Written, most)
            for (table, key), body in rows.items():
                one.put(table, shapes.Written(key, 0, 5, body, "")) if body else one.remove(table, key)
            it.commit(lsn, lsn, lsn, one)
        seen[most] = {place: entry_body for place, entry_body in rows_of(frames[most]).items() if place[0] == 1}
    problems = [] if frames[7] == frames[spilling.MOST] else ["other bytes"]
    wanted = {}
    for rows in changes:
        wanted.update(rows)
    wanted = {place: body for place, body in wanted.items() if body is not None}
    return problems + differ([("keys", set(seen[7]), set(wanted)),
                              ("short rows", [place for place, body in wanted.items() if len(body) < 99
                                                                                   and seen[7].get(place) != body],
                               [])])


def full_spills():
    """A transaction whose file has no room is told with TMPDIR, and while it goes there and comes back PostgreSQL is told that the capture lives."""
    problems, lives = [], []
    it = spilling.Spilling(most=5000, alive=lambda: lives.append(len(it.rows)))
    for key in range(10_001):
        it.put((1, key), (b"x" * 100,))
    problems += differ([("said while 5,001 rows were spilled", len(lives), 5), ("rows that are read", sum(1 for _ in it.ordered()), 10_001),
                        ("said by then", len(lives), 5 + 5 + 10)])
    it.base.execute("pragma max_page_count = 500")
    try:
        for key in range(20_000, 40_000):
            it.put((1, key), (b"x" * 100,))
        problems.append("a full disk is not told")
    except OSError as error:
        problems += differ([("what is told", str(error), "the temporary file of a large transaction (TMPDIR): database or disk is full")])
    return problems


def rows_of(frames):
    """The rows at the end of a log, by the reference's reading of it."""
    items, _ = reference.items_of(b"".join(frames))
    return {place: row[1] for place, row in reference.shown(items, items[-1].m).items()}


def times_and_tags():
    """moment, lsn_of and their like, by hand."""
    half = 5 * 2 ** 20 + 7
    return differ([("moment", [va.moment(it) for it in (0, 1, 2 ** 21 - 2, 2 ** 21 - 1, 2 ** 21, half)],
                    [0, 0, 2 ** 20 - 1, 2 ** 21 - 1, 2 ** 21 - 1, 5 * 2 ** 20 - 1]),
                   ("last_time", va.last_time(5), 6 * 2 ** 20 - 1), ("lsn_of", va.lsn_of("1/16B3748"), 0x1016B3748),
                   ("place_of", va.place_of(0x1016B3748), "1/16B3748"),
                   ("key_of", [va.key_of(5), va.key_of(-1)], [5, 2 ** 64 - 1]),
                   ("tag_of", [va.tag_of(7), va.tag_of(True), va.tag_of(None), va.tag_of(-1)], [7, 1, 0, 2 ** 32 - 1]),
                   ("COPY", source.plain(r"a\tb\\\nc"), "a\tb\\\nc"), ("NULL of COPY", source.plain(r"\N"), None)])


def bad_files():
    """What a configuration may not say is told with its line."""
    table = '[[table]]\nnumber = 1\nname = "a"\nkey = "id"\n'
    head = 'log = 7\npublication = "p"\n'
    cases = {"log = \n": "line 1", 'publication = "p"\n' + table: "log is missing", 'log = "7"\n': "line 1: log is a "
                                                                                                   "whole number",
             head + "colour = 1\n" + table: "line 3: colour means nothing here", head: "no [[table]]",
             "log = 7\n" + table: "publication is missing", head + 'slot = "A-b"\n' + table: "line 3: slot A-b",
             head + table.replace("1", "0"): "line 4: number 0 is not in 1 to 65535",
             head + table + table.replace('"a"', '"b"'): "line 8: number 1 of public.b is another table's too",
             head + table + table.replace("1", "2"): "line 9: public.a stands twice",
             head + table.replace("1", "65535"): "line 4: number 65535 of public.a is the table of parts'",
             head + table.replace("key", "kee"): "line 6: kee means nothing here",
             head + table + 'columns = ["x"]\n': "line 7: columns of a lacks id, which is its key",
             head + table + 'tag = "t"\ncolumns = ["id"]\n': "line 8: columns of a lacks t, which is its tag"}
    problems = []
    with tempfile.TemporaryDirectory() as folder:
        for text, wanted in cases.items():
            path = pathlib.Path(folder) / "a.toml"
            path.write_text(text)
            try:
                configuration.read(str(path))
                problems.append(f"taken: {text!r}")
            except Broken as broken:
                problems += [f"{text!r}: {broken}"] if wanted not in str(broken) or broken.status != 4 else []
    return problems


def texts_of_one_hash():
    """Two texts of one hash are told; a hash that gives one number for all stands for a search of such texts."""
    names = shapes.key_and_check
    table = configuration.Table(3, "public.files", "name", None, None, "a.toml, line 1")
    shapes.key_and_check = lambda text: (0, names(text)[0])
    try:
        shape = shapes.Shape(table, 1, ["name"], [shapes.Type("text", "b")])
        one, other = shape.written(["one"]), shape.written(["other"])
        problems = [collision(shape, *them) for them in ((one, other), (other, one), (one, one))]
    finally:
        shapes.key_and_check = names
    wanted = 'public.files: name "{}" has the hash 0, which another name has too; such a table can\'t be captured'
    return differ([("two texts of one hash", problems, [wanted.format("other"), wanted.format("one"), ""])])


def full_disks():
    """A disk that is full is waited for, and nothing of a part of a block is left, nor of a line of its checksums."""
    frame, write, truncated = vadungsil.encode(vadungsil.Entry.of(LOG, 1, 1, 5, rows=[(1, 1, 0, b"x" * 99)])), os.write, []
    with tempfile.TemporaryDirectory() as folder:
        path = pathlib.Path(folder) / "a.log"
        store, tries, lines = LogInFile(str(path), LOG), [], []

        def full(file, data):
            """Of the log it takes a part, then nothing, and all once it was tried three times; of the checksums a part, then nothing, then all."""
            is_log = os.fstat(file).st_ino == path.stat().st_ino
            (tries if is_log else lines).append(len(data))
            if len(tries) in (2, 3, 4) or (not is_log and len(lines) == 2):
                truncated.append((path.stat().st_size, path.with_suffix(".log.sums").stat().st_size))
                raise OSError(errno.ENOSPC, "No space left on device")
            return write(file, data[:10] if len(tries) == 1 or (not is_log and len(lines) == 1) else data)
        kept = keeping.KeptByEngine(store, 60)
        kept.publisher.patience.say = lambda text: said.append(text)
        said = []
        vadungsil.item_file.os.write = full
        try:
            kept.put(frame)
            kept.flush()
        finally:
            vadungsil.item_file.os.write = write
        again = LogInFile(str(path), LOG)
        return differ([("the file", path.read_bytes(), frame), ("tries", (len(tries), len(lines)), (6, 3)),
                       ("what stood before each", truncated, [(10, 0), (0, 0), (0, 0), (len(frame), 10)]),
                       ("what its checksums keep", (again.see().number, again.rest), (1, 0)),
                       ("what is said", said, ["OSError: [Errno 28] No space left on device; trying again"])])


def told_stories():
    """docs/POSTGRESQL.md has each story of an altered table, with what comes of it, and no other."""
    page = (ROOT / "docs" / "POSTGRESQL.md").read_text()
    head, _, *rows = page[page.index("| Altered |"):].split("\n\n")[0].splitlines()
    return differ([("the columns of the page", head, "| Altered | Goes on | Stops if away | Stops |"),
                   ("the rows of the page", rows, altered_tables.rows())])


def collision(shape, first, second):
    """What is said of a row beside another that came in the same transaction, and that stands."""
    told = []
    for is_standing in (False, True):
        it = capturing.Capture.__new__(capturing.Capture)
        it.log, changes = log.Log(LOG, 65535, (3,), lambda _: None), log.Changes()
        it.place(changes, shape, first)
        if is_standing:
            it.log.load(changes)
            changes = log.Changes()
        try:
            it.place(changes, shape, second)
            told.append("")
        except Broken as broken:
            told.append(str(broken))
    return told[0] if told[0] == told[1] else f"otherwise: {told}"


# ---------------------------------------------------------------- with a server

def all_changes(shop):
    """Inserts, updates, deletes, of keys too, TRUNCATE, columns that come, long values that did not change, values of
    each type."""
    shop.captured()
    for step in (
            "update accounts set balance = balance + 1; delete from accounts where id between 100 and 200",
            "update accounts set id = id + 100000 where id % 7 = 0; update accounts set id = 500000 - id where id < 0",
            "update notes set about = 'long'; update notes set id = md5(about || id)::uuid where length(body) > 6000",
            "begin; insert into notes values ('00000000-0000-0000-0000-000000000001', 'new', repeat('z', 9000)); "
            "update notes set about = 'twice' "
            "where about = 'new'; update notes set id = '00000000-0000-0000-0000-000000000002' where about = 'twice'; "
            "commit",
            "begin; delete from files where size < 5; insert into files values ('file 1', 7, 'again'), ('gone', 1, "
            "''); "
            "delete from files where name = 'gone'; savepoint a; truncate files; rollback to a; update files set name "
            "= name || 'x'; commit",
            "begin; insert into files values ('in between', 1, ''); truncate files, notes; insert into files values "
            "('behind', 2, repeat('y', 30000)); commit",
            "insert into notes select md5(i::text)::uuid, null, repeat(md5(i::text), 900) from generate_series(1, 30) "
            "i; update notes set about = 'a'",
            "alter table accounts add n int default 7; update accounts set balance = 0 where id < 50; insert into "
            "accounts values (7000, null, null, null)"):
        shop.sql(step)
        shop.captured()
        shop.same(tables={name: columns for name, columns in TABLES.items() if name != "accounts"
                          or " add n " not in step})
    shop.sql("update accounts set n = id % 3")
    shop.captured()
    shop.same(tables={**TABLES, "accounts": [*TABLES["accounts"], "n"]})
    return f"{len(places_of(shop.file.read_bytes()))} entries"


KINDS = """create table kinds(k smallint primary key, b bool, f float8, n numeric(12, 2), t text, c char(5), d date,
z timestamptz, i interval, j jsonb, y bytea, a int[], e inet, r float4, m numeric, s float8[]);
insert into kinds values
(-1, true, 0.1, 12.50, E'tab\\t nl\\n bs\\\\ q" ü €', 'ab', '2020-02-29', '2020-02-29 12:00:00+02', '1 day 2:03',
'[1, null]', '\\x00ff', '{1,2}', '10.0.0.1/8'),
(2, false, 'NaN', 'NaN', '', '', '-infinity', 'infinity', '-1 mon', 'null', '', '{}', '::1/64');
insert into kinds(k) values (3);
insert into kinds(k, f, r, m, s) values (4, '-0', '-0', '-0', '{-0,NaN,-Infinity,null,0.5}'),
(5, 'Infinity', 'Infinity', 'Infinity', '{}'), (6, '-Infinity', '-Infinity', '-Infinity', null),
(7, '5e-324', '1e-45', '1e-400', '{1e300}'), (8, '-1.7976931348623157e308', '-3.4028235e38', '-1e400', '{-1e-300}'),
(30, '0', '0', '0.000', '{0}'), (10, '1e15', 'NaN', 'NaN', '{{1},{2}}'), (11, '0.30000000000000004', '0.1', '1e2', '{0.1}');
alter publication shop add table kinds"""


def kinds_of(shop):
    """The rows of `kinds` as PostgreSQL prints them; its blanks behind a char(5) stay in a body."""
    shop.sql("set timezone = 'UTC'; set intervalstyle = 'iso_8601'")
    wanted = {}
    for row in shop.sql("select k, b, f::text, n::text, t, rpad(c::text, 5), d::text, z::text, i::text, j::text, y::text, "
                        "a::text, e::text, r::text, m::text, s::text from kinds"):
        it = dict(zip("kbfntcdzijyaerms", row))
        wanted[row[0]] = {**it, "f": float_of(it["f"]), "r": float_of(it["r"])}
    return wanted


def float_of(text):
    """A float as a body has it: a number of JSON, and what JSON doesn't carry as the text that PostgreSQL prints."""
    return text if text in (None, "NaN", "Infinity", "-Infinity", "-0") else float(text)


def last_by_clock(base, clock):
    """The last moment with no commit behind a time of the clock, found by asking for each. It is that of the load itself, unless the machine's clock
    was set back between the load's end and the next commit."""
    ends = range(va.last_time(1), base.moment() + 1, va.last_time(2) - va.last_time(1))
    return max(end for end in ends if base.commit(end).latest <= clock)


def values_and_moments(shop):
    """A value of each kind, beside what PostgreSQL prints; moments by place and clock; rows by tag."""
    shop.sql(KINDS)
    with open(shop.configuration, "a", encoding="utf-8") as file:
        file.write('[[table]]\nnumber = 5\nname = "kinds"\nkey = "k"\n')
    shop.captured()
    shop.sql("update kinds set k = k + 10")
    shop.captured()
    wanted = kinds_of(shop)
    with shop.node() as node:
        base = va.Database(node)
        first, last = va.last_time(1), base.moment()
        commit, load = base.commit(), base.commit(first)
        got = {row["k"]: row for row in base.rows("kinds")}
        before = {row["k"] + 10: {**row, "k": row["k"] + 10} for row in base.rows("kinds", at=first)}
        problems = [f"{name} of {key}: {rows.get(key, {}).get(name)!r}, wanted {value!r}" for rows in (got, before)
                    for key, row in wanted.items() for name, value in row.items()
                    if repr(rows.get(key, {}).get(name)) not in (repr(value), repr(value).removesuffix(".0"))]
        problems += differ([
            ("keys", (set(got), set(before)), (set(wanted), set(wanted))),
            ("by lsn", va.moment_of(node, va.place_of(commit.lsn)), last),
            ("by the lsn before", base.moment_of(commit.lsn - 1), va.last_time(commit.transaction - 1)),
            ("by clock", base.moment_of(commit.latest), last),
            ("by the load's clock", base.moment_of(load.latest), last_by_clock(base, load.latest)),
            ("in between", base.commit(last + 5).transaction, commit.transaction),
            ("a text that isn't there", base.get("files", "nothing"), None),
            ("a text", base.get("files", "file 7")["size"], 7),
            ("a uuid", base.get("notes", uuid.UUID(shop.sql("select md5('3')")[0][0]))["about"], "note 3"),
            ("by tag", sorted(row["id"] for row in base.by_tag("accounts", 3)), list(range(3, 2501, 5)))])
        with contextlib.suppress(va.NotCaptured):
            base.moment_of(load.lsn - 1)
            problems.append("a place before the load has a moment")
    holds(not problems, "; ".join(problems[:5]))


BAD_TABLES = """create table bad(id bigint, k numeric primary key, u uuid unique,
g int generated always as (1) stored, x point, f float8);
create view seen as select 1 as id;
create table parted(id int primary key) partition by range (id);
create table kept(id int primary key, other int not null unique);
alter publication shop add table bad, kept"""

# what a [[table]] may not name, and what is told of it
REFUSED = {
    'name = "missing"\nkey = "id"': "no table public.missing", 'name = "seen"\nkey = "id"': "public.seen is no plain "
                                                                                            "table",
    'name = "parted"\nkey = "id"': "public.parted is no plain table",
    'name = "bad"\nkey = "id"': "column g of public.bad is generated",
    'name = "bad"\nkey = "id"\ncolumns = ["id", "x"]': "column x of public.bad has the type point",
    'name = "bad"\nkey = "k"\ncolumns = ["k"]': "the key k of public.bad has the type numeric",
    'name = "bad"\nkey = "u"\ncolumns = ["u"]': "the key u of public.bad needs to be not null and unique",
    'name = "bad"\nkey = "nothing"\ncolumns = ["nothing"]': "public.bad has no column nothing",
    'name = "bad"\nkey = "id"\ntag = "f"\ncolumns = ["id", "f"]': "the tag f of public.bad has the type float8",
    'name = "kept"\nkey = "other"': "PostgreSQL doesn't send other alone"}

# what may not be so of the publication and the tables, how it is put back, and what is told
UNFIT = (
    ("alter publication shop drop table files", "alter publication shop add table files",
     "publication shop has no public.files"),
    ("alter publication shop set (publish = 'insert')", "alter publication shop set (publish = 'insert, update, "
                                                        "delete, truncate')",
     "publication shop leaves out"),
    ("alter publication shop set table accounts(id, owner, branch), notes, files, ticker",
     "alter publication shop set table accounts, notes, files, ticker", "leaves out column balance of public.accounts"),
    ("alter publication shop set table accounts where (id > 0), notes, files, ticker",
     "alter publication shop set table accounts, notes, files, ticker", "leaves out rows of public.accounts"),
    ("revoke select on files from capture", "grant select on files to capture", "this user may not read public.files"),
    ("alter role capture noreplication", "alter role capture replication", "this user may not replicate"),
    ("alter table files replica identity nothing", "alter table files replica identity full",
     "PostgreSQL doesn't send name alone"),
    ("alter publication shop rename to other", "alter publication other rename to shop",
     "there is no publication shop"))


def refused_tables(shop):
    """Tables, columns and settings that can't be captured are told by name, and nothing is written."""
    shop.sql(BAD_TABLES)
    usual, problems = shop.configuration.read_text(), []
    for text, wanted in REFUSED.items():
        shop.configuration.write_text(f"{usual}[[table]]\nnumber = 9\n{text}\n")
        problems += refusal_of(shop, wanted, "line 28")
    shop.captured(wanted=4, said="line 28: of a row of public.kept that goes, PostgreSQL doesn't send other alone")
    shop.configuration.write_text(usual)
    for change, back, wanted in UNFIT:
        shop.sql(change)
        problems += refusal_of(shop, wanted, "")
        shop.sql(back)
    slots = shop.sql("select count(*) from pg_replication_slots")[0][0]
    problems += differ([("bytes that were written", shop.file.stat().st_size, 0), ("slots", slots, 0)])
    holds(not problems, "; ".join(problems[:3]))
    return f"{len(REFUSED) + len(UNFIT)}"


def refusal_of(shop, wanted, line):
    """What is wrong with how a configuration is refused."""
    try:
        asked = catalog.Catalog(configuration.read(str(shop.configuration)))
        asked.see_settings(asked.shapes())
    except Broken as broken:
        is_told = wanted in str(broken) and line in str(broken) and broken.status == 4
        return [] if is_told else [f"{broken}, wanted {wanted}"]
    return [f"taken, wanted {wanted}"]


def changes_that_stop(shop):
    """A key that goes stops the capture, which tells its name, and what came before is kept."""
    shop.captured()
    child = shop.capture("--file", shop.file)
    before = shop.place()
    shop.sql("insert into files values ('first', 3, '')")
    waited(lambda: shop.confirmed(before), "nothing is confirmed")
    shop.sql("insert into files values ('last', 3, '')")
    shop.sql("alter table notes rename id to number; insert into notes values (gen_random_uuid(), 'x', '')")
    holds((child.wait(LIMIT), "table public.notes has no column id" in shop.programs.said()) == (4, True),
          shop.programs.said())
    shop.same(tables={"files": TABLES["files"]})
    shop.captured(wanted=4, said="table public.notes has no column id")
    shop.sql("alter table notes rename number to id")
    shop.captured(wanted=4, said="no column id")      # what was logged under the other name is there for good


def another_table(shop):
    """A table under the name of another, and one with another name, are told (4)."""
    shop.captured()
    shop.sql("alter table notes rename to other; insert into other values (gen_random_uuid(), 'x', ''); alter table "
             "other rename to notes")
    shop.captured(wanted=4, said="public.notes is another table from here on, or has another name: public.other")
    shop.sql("alter table files rename to before; create table files(like before including all); alter publication "
             "shop add table files; "
             "alter table files replica identity full")
    shop.captured(wanted=4, said="begin a log with a new id")


def altered(shop):
    """Each story of altered_tables.py, beside the capture and behind it."""
    shop.sql("create role other_owner superuser")
    shop.sql("drop publication shop")
    wanted = [it for it in altered_tables.STORIES if not STORY or STORY in it.name]
    with ThreadPoolExecutor(6) as pool:
        played = [(it.name, way, pool.submit(altered_tables.told_of, shop, shop.folder, it, f"{way}{at}", way))
                  for at, it in enumerate(wanted) for way in it.ways()]
        problems = [f"{name}, {way}: {told}" for name, way, it in played for told in it.result()]
    if os.environ.get("TOLD"):
        pathlib.Path(os.environ["TOLD"]).write_text("\n".join(problems))
    holds(not problems, "; ".join(problems[:3]))
    return f"{len(wanted)} stories, each in two ways at least"


def tails(shop, story=None, count=20_000, rounds=3, *timeout):
    """A tail that only looks lost is told by nobody, and one that is lost is."""
    at, ahead = lost_tails.played(shop, story, count, rounds, *timeout)
    return f"{story.name}, {at} rounds of {count} rows, in {ahead} of them psycopg2 confirmed by itself"


def cut_in_half(shop, count):
    """Kills a capture between two entries of an UPDATE of so many rows: what stands then under checksums, up to its last
    whole entry, and the places of its entries. What has no checksum yet is dropped by the next capture."""
    shop.sql("insert into accounts select i, 'owner ' || i, i %% 5, 100 from generate_series(10000, %s) i",
             9_999 + count)
    shop.captured()
    for turn in range(20):
        shop.sql("update accounts set balance = balance + 1, owner = owner || %s", f" of the turn {turn}")
        size, child = shop.file.stat().st_size, shop.capture("--file", shop.file)
        waited(lambda: shop.file.stat().st_size > size or child.poll() is not None, "the capture doesn't write")
        kill(child)
        data = shop.file.read_bytes()[:LogInFile(str(shop.file), LOG).see().size]
        places = places_of(data)
        if (places[-1][2] + 1) % 2 ** 20:
            return data[:places[-1][1]], places
    raise AssertionError("no kill came in the middle of a transaction")


def halves(shop):
    """Killed between two entries of one transaction it goes on with the same bytes, into a file and into a node;
    another entry in their place stops it (2)."""
    shop.captured()
    data, places = cut_in_half(shop, 40_000)
    part = [it for it in places if it[2] // 2 ** 20 == places[-1][2] // 2 ** 20]
    end = part[0][1]
    other = shop.folder / "other.log"
    other.write_bytes(data[:end - 1] + bytes([data[end - 1] ^ 1]) + data[end:])
    shop.captured("--file", other, wanted=2, said="is another")
    shop.sql("select pg_copy_logical_replication_slot('vadungsil_7', 'saved')")
    half = shop.folder / "half.log"
    half.write_bytes(data)
    with shop.node(half) as node:
        shop.captured("--node", node.address[1])
        shop.same(node)
    shop.captured(wanted=3, said="lost its tail")
    shop.sql("select pg_drop_replication_slot('vadungsil_7'); select pg_copy_logical_replication_slot('saved', "
             "'vadungsil_7'); select pg_replication_origin_drop('vadungsil_7')")
    shop.captured()
    shop.same()
    whole = shop.file.read_bytes()
    holds(whole.startswith(data), "other bytes stand where the transaction was cut off")
    times = [it[2] for it in places_of(whole)]
    holds(times == sorted(set(times)), "times don't rise")
    return f"killed behind {len(part)} entries of a transaction"


def cut_off(shop, data):
    """Has a log be these bytes, and without checksums, as where both were lost."""
    shop.file.write_bytes(data)
    shop.file.with_name(f"{shop.file.name}.sums").unlink(missing_ok=True)


def losses(shop):
    """A log and a slot that lost something are told (3), and so is a file that somebody else wrote to, which stays as
    it is, and a log that was begun with another configuration (4)."""
    shop.captured()
    before = shop.file.stat().st_size
    shop.sql("insert into files values ('lost', 1, '')")
    shop.captured()
    whole = shop.file.read_bytes()
    shop.file.write_bytes(whole[:before])
    shop.captured(wanted=3, said="it lost its tail: it is corrupt")
    cut_off(shop, whole[:before])
    shop.captured(wanted=3, said="lost its tail, and those transactions can't be had again")
    cut_off(shop, b"")
    shop.captured(wanted=3, said="slot vadungsil_7 is there")
    cut_off(shop, whole + b"a line\n")
    shop.captured(wanted=3, said=f"byte {len(whole)} of {shop.file} is no block of this stream: 7 bytes are no")
    holds(shop.file.read_bytes() == whole + b"a line\n", "the line was taken away")
    cut_off(shop, whole)
    said = shop.configuration.read_text()
    for other in (said.replace('tag = "size"\n', ""), said[:said.rindex("[[table]]")]):
        shop.configuration.write_text(other)
        shop.captured(wanted=4, said="begin a log with a new id")
    shop.configuration.write_text(said)
    shop.captured()
    shop.sql("select pg_drop_replication_slot('vadungsil_7')")
    shop.captured(wanted=3, said="slot vadungsil_7 is gone")


def loads_cut_off(shop):
    """A load that was cut off is begun anew behind what stands, and no time shows a part of it."""
    shop.captured()
    for turn in range(3):
        whole = shop.file.read_bytes()
        load = [it for it in places_of(whole) if it[2] < 2 ** 21]
        part = shop.folder / "part.log"
        part.write_bytes(whole[:load[-2][1]])
        with shop.node(part) as node:
            holds(node.front().readable == 0 and sum(it.prefix for it in node.streams()) > 1,
                  "a part of a load can be read")
        cut_off(shop, whole[:(load[0][1], load[1][1] + 100, load[-2][1])[turn]])
        shop.sql("delete from accounts where id %% 11 = %s; update notes set about = about || 'x', body = body || "
                 "body where id::text < '8'", turn)
        shop.sql("insert into files values (%s, 1, repeat('w', 5000))", f"at turn {turn}")
        shop.captured()
        shop.same()
    return f"{len(load)} entries in the last"


def own_of(data, *keys):
    """The bodies of rows of table 0 by key, each with the number of the entry that put it."""
    found = {key: [] for key in keys}
    for begin, end, _ in places_of(data):
        frame = data[begin:end]
        for table, key, body in log.lists_of(frame):
            if table == 0 and key in found and body is not None:
                found[key].append((log.number_of(frame), bytes(body)))
    return found


def terms(shop):
    """A log that a capture begins has an identity, which stays, and a term of each start that writes; a log of before has neither, and goes on without."""
    begun = log.Log.load_begin
    log.Log.load_begin = lambda it, rows: begun(it, {key: body for key, body in rows.items() if key not in (2, 3)})
    child = altered_tables.Captured(shop.configuration, shop.file, va.lsn_of(shop.place()))
    try:
        child.run()
    finally:
        log.Log.load_begin = begun
    shop.sql("insert into files values ('of before', 1, '')")
    shop.captured()
    shop.same()
    of_before = own_of(shop.file.read_bytes(), 2, 3)
    shop.sql("select pg_drop_replication_slot('vadungsil_7'); select pg_replication_origin_drop('vadungsil_7')")
    cut_off(shop, b"")
    shop.captured()
    load = own_of(shop.file.read_bytes(), 2, 3)
    for turn in range(2):
        shop.sql("insert into files values (%s, 1, '')", f"turn {turn}")
        shop.captured()
    shop.same()
    found = own_of(shop.file.read_bytes(), 2, 3)
    bits = found[2][0][1][14:30]
    term = lambda number, at: bytes([1]) + number.to_bytes(8, "big") + found[3][number - 1][1][9:17] + b"\x00\x01" + (at - 1).to_bytes(8, "big")
    problems = differ([("of before", (child.told, of_before), ((0, ""), {2: [], 3: []})), ("begun with", (load[2], load[3]), (found[2], found[3][:1])),
                       ("the identity", [body for _, body in found[2]], [b"vadungsil log\x01" + bits + bytes(4) + b"\x02"]),
                       ("the terms", [body for _, body in found[3]], [term(number, at) for number, (at, _) in enumerate(found[3], 1)]), ("how many", len(found[3]), 3),
                       ("drawn", len({body[9:17] for _, body in found[3]}), 3)])
    holds(not problems, "; ".join(problems))


def over_nats(shop):
    """A capture into NATS, killed in the middle, and a node behind it; with one server, and no replicas."""
    port = free_port()
    url = ["--nats", f"127.0.0.1:{port}"]
    words = [*url, "--replicas", 1]
    shop.programs.start(nats_program(), "-a", "127.0.0.1", "-p", port, "--jetstream", "--store_dir",
                        shop.folder / "nats")
    waited(lambda: servers.listens(port), "NATS doesn't listen")
    shop.captured(*words)
    child = shop.capture(*words)
    before = shop.place()
    shop.sql("update accounts set balance = balance + 1; update notes set about = 'here'")
    waited(lambda: shop.confirmed(before), "nothing is confirmed")
    kill(child)
    shop.sql("update accounts set owner = owner || 'x'; delete from notes where body like '%7'")
    shop.captured(*words)
    with shop.node(pathlib.Path("/dev/null")) as node:
        follow = [ROOT / "connectors" / "nats" / "follow", *url, "--log", LOG, "--streams", 1, "--node",
                  node.address[1]]
        status(shop.programs.start(*follow, "--once"))
        shop.same(node)


def nats_program():
    """A nats-server that is new enough, or nothing."""
    sys.path.append(str(ROOT / "connectors" / "nats"))
    spec = importlib.util.spec_from_file_location("nats_servers", ROOT / "connectors" / "nats" / "servers.py")
    module = importlib.util.module_from_spec(spec)
    spec.loader.exec_module(module)
    return module.program()


def idle_places(shop):
    """Where only other tables are written PostgreSQL's log can be dropped all the same, and it is shut down as fast as
    without a capture."""
    shop.captured()
    shop.sql("create table elsewhere(t text)")
    child = shop.capture("--file", shop.file)
    for _ in range(3):
        before = shop.place()
        shop.sql("insert into elsewhere select repeat(md5(i::text), 20) from generate_series(1, 40000) i")
        waited(lambda place=before: shop.confirmed(place), "nothing is confirmed")
    shop.postgres.server.send_signal(signal.SIGINT)
    shop.postgres.server.wait(LIMIT)
    shop.postgres.start()
    shop.link = shop.postgres.connect()
    shop.sql("insert into files values ('behind', 3, '')")
    kill(child)
    shop.captured()
    shop.same()
    with shop.node() as node:
        commit = va.Database(node).commit()
    confirmed = int(shop.sql("select confirmed_flush_lsn - '0/0' from pg_replication_slots")[0][0])
    holds(confirmed == commit.lsn - 1 and commit.transaction < 20, f"confirmed {confirmed}, and {commit}")


def page(shop):
    """docs/POSTGRESQL.md, pasted as it stands: into one shell, in a folder of a reader."""
    shop.sql("drop publication shop")
    blocks = of("postgres.py page")
    script = f"export PGHOST={shop.postgres.folder} PGUSER=postgres PGDATABASE=postgres\n"
    for at, it in enumerate(blocks):
        if it.how != "text":
            script += f"python3 - <<'END'\n{it.text}END\n" if it.how == "python" else it.text
            script += f"echo '<end {at}>'\n"
    folder = shop.folder / "reader"
    folder.mkdir()
    pasted.reader(folder, HKREP)
    printed, told = pasted.run_in(folder, pasted.with_ports(script))
    pieces = re.findall(r"(.*?)<end (\d+)>\n", pasted.without_nodes(printed), re.S)
    wanted = {at - 1: it.text for at, it in enumerate(blocks) if it.how == "text"}
    problems = differ([(blocks[int(at)].text[:40], said, wanted[int(at)]) for said, at in pieces if int(at) in wanted])
    holds(len(pieces) == len(blocks) - len(wanted) >= 8 and not problems, f"{problems} {len(pieces)} pieces: "
                                                                          f"{told[-500:]}")
    left = shop.sql("select count(*) from pg_replication_slots")[0][0]
    holds(left == 0, "the slot is still there")


def demonstrated(shop):
    """make shop-demo, with fewer accounts."""
    (line,) = {it.text for it in of("postgres.py demonstrated")}
    holds(line == "make shop-demo"
          and "examples/shop/demo" in (ROOT / "Makefile").read_text().split("shop-demo:")[1].split("\n\n")[0], line)
    shop.postgres.kill()
    said, status = demonstration(ROOT / "examples" / "shop" / "demo", "2000")
    holds(status == 0 and "20 moments compared, 0 with others" in said and "the same in 2 nodes" in said, said[-1500:])
    return said.splitlines()[-2]


def kills(shop, count=KILLS, seed=SEED, is_file=False):
    """kill -9 of the capture, PostgreSQL, Redis, the follower and the node at drawn places, beside four writers."""
    it = Kills(shop, seed, is_file)
    it.come(lambda: it.taken() >= 1, "the load")
    for writer in it.writers:
        writer.start()
    victims = [it.victims[at % len(it.victims)] for at in range(count)]
    it.rand.shuffle(victims)
    try:
        for victim in victims:
            it.round(victim)
    finally:
        for writer in it.writers:
            writer.is_over = True
    for writer in it.writers:
        writer.join(LIMIT)
    it.compare()
    return (f"seed {seed}: {count} kills, {it.compared} moments compared, {it.skipped} snapshots were none, "
            f"{len(it.moments.xids)} transactions, {it.longest:.0f} s waited at most")


def kills_of_a_file(shop, count=KILLS, seed=SEED):
    """The same without Redis: the log is a file, and the capture its writer."""
    return kills(shop, count, seed, True)


# ---------------------------------------------------------------- all of it

def play(check, words=()):
    """Plays a check on a shop of its own: its name, what is wrong, what it told."""
    begin, problems, told = time.monotonic(), [], ""
    folder = pathlib.Path(tempfile.mkdtemp(prefix="postgres"))
    shop = None
    try:
        shop = Shop(folder)
        told = check(shop, *words) or ""
    except Exception as error:      # whatever it is, this check failed, and the others go on
        problems = [f"{type(error).__name__}: {error}", shop.programs.said() if shop else ""]
    finally:
        if shop is not None:
            shop.postgres.kill()
            shop.programs.end()
        if not os.environ.get("KEEP"):
            shutil.rmtree(folder, ignore_errors=True)
    return f"{check.__name__.replace('_', ' ')} ({time.monotonic() - begin:.1f} s)", problems, told


ALONE = (keys_of_a_table, spilled_transactions, full_spills, times_and_tags, bad_files, texts_of_one_hash, full_disks, told_stories)
SERVED = (kills, kills_of_a_file, altered, tails, halves, losses, another_table, demonstrated, all_changes, values_and_moments, refused_tables,
          changes_that_stop, loads_cut_off, terms, idle_places, over_nats, page)
if psycopg2 is not None and redis is not None:
    SERVED += hindered.CHECKS


def lacking():
    """What isn't installed that the checks need."""
    if psycopg2 is None:
        return "python3-psycopg2 and python3-redis"
    return "postgresql" if servers.postgres_folder() is None else "" if shutil.which("redis-server") else "redis-server"


def checks_of(chosen, numbers):
    """The checks that were chosen, with their words: numbers are those of the kills, or how many rows and rounds the tails have,
    and after how many seconds PostgreSQL ends a silent connection."""
    for it in SERVED:
        if it.__name__ in chosen and it is tails:
            yield from ((it, (story, *numbers)) for story in lost_tails.STORIES if STORY in story.name)
        elif it.__name__ in chosen:
            yield it, numbers if it in (kills, kills_of_a_file) else ()


def main(words):
    if not is_built(HKREP):
        return ended()
    if lacking():
        skip(f"{lacking()} isn't installed: tables of PostgreSQL in nodes")
        return ended()
    numbers = [int(it) for it in words if it.isdecimal()]
    chosen = [it for it in words if not it.isdecimal()] or (["kills"] if numbers
                                                            else [it.__name__ for it in ALONE + SERVED])
    for check in ALONE:
        if check.__name__ in chosen:
            report(check.__doc__.splitlines()[0].rstrip("."), check())
    if "over_nats" in chosen and not nats_program():
        skip("no nats-server from 2.10.27 on is here: a capture into NATS", needed=False)
        chosen.remove("over_nats")
    with ThreadPoolExecutor(3) as pool:
        played = [pool.submit(play, it, words) for it, words in checks_of(chosen, numbers)]
        for it in played:
            report(*it.result())
    return ended()


if __name__ == "__main__":
    sys.exit(main(sys.argv[1:]))
