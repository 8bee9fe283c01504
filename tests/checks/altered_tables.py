"""Tables that are altered while they are captured: the stories of tests/checks/postgres.py, each a row of what is done, and what comes of it.

A story has a table `t` and a publication `p` of it, is captured, then its steps are done, and it is captured on: once `beside` the capture, which has
come to each step before the next is done, and once `behind` it, which comes only when all is done. At the end the node has the rows of PostgreSQL, or the
capture ended with 4 and said why. Captures are threads of this process. Needs python3-psycopg2."""
import re
import threading
import time
from typing import NamedTuple, Tuple

import capturing
import catalog
import configuration
import feeding
import psycopg2
from captured_shop import LIMIT, LOG, holds
from configuration import Broken
from keeping import KeptByEngine
from log_in_file import LogInFile
from servers import waited
from vadungsil.postgres import Database, lsn_of

LONG = "(select string_agg(md5((%s + g)::text), '') from generate_series(1, 300) g)"
ROWS = (f"create table t(id bigint primary key, n int, big text, big2 text); alter table t alter big set storage external, alter big2 set storage external; "
        f"insert into t select i, i, {LONG % 'i'}, {LONG % 'i + 5000'} from generate_series(1, 5) i")
SHORT = "create table t(id bigint primary key, a text, b int); insert into t select i, 'a', i from generate_series(1, 3) i"
TEXTS = "create table t(k text primary key, v int); insert into t values ('A', 1), ('B', 2)"
LEAF = ("create table pt(id int primary key, a int) partition by range(id); create table t partition of pt for values from (0) to (100); "
        "create table t2 partition of pt for values from (100) to (200); insert into pt values (1, 1), (150, 2)")
TOUCH = "update t set n = n + 1"
# what is told of a long value that can't be told any more, of a key, of a publication
GONE, KEY, NOT = "did not change and isn't sent, and since the row was written the table was altered", "the key id of", "can be relied on"


class Story(NamedTuple):
    """`said`: what a capture says that ends with 4, "" where it goes on; `behind`: the same where all is done before it comes, None for the same.
    `adopts`: what is done first where the log is one of before, which remembers nothing. `of` and `told`: what is altered, a row of the page, and how; several
    may be told by the same words there, and differ by `how`. Where nothing is altered `of` is ""."""
    of: str
    told: str
    made: str
    steps: Tuple[str, ...]
    said: str = ""
    key: str = "id"
    publication: str = "for table t"
    more: str = ""
    behind: object = None
    adopts: str = ""
    how: str = ""

    @property
    def name(self):
        return ": ".join(it for it in (self.of, self.told, self.how) if it)

    def outcome(self):
        """The column of the page."""
        if self.said:
            return "Stops"
        return "Goes on" if self.behind is None else "Stops if away"

    def ways(self):
        return ["beside", "behind", *(["adopted"] if self.adopts else [])]


def rows():
    """The rows of the page: what is altered, and the stories of each outcome, each told once."""
    told = {}
    for it in STORIES:
        if it.of:
            cell = told.setdefault(it.of, {"Goes on": [], "Stops if away": [], "Stops": []})[it.outcome()]
            cell += [it.told] if it.told not in cell else []
    return [("| " + " | ".join([of, *("; ".join(cell) for cell in cells.values())]) + " |").replace("  ", " ") for of, cells in told.items()]


STORIES = (
    # long values, which PostgreSQL doesn't send where they did not change
    Story("", "long values that did not change", ROWS, (TOUCH, "update t set id = id + 100 where id <= 2", "update t set n = 0, big = 'x' where id = 3", TOUCH)),
    Story("a long column", "renamed", ROWS, ("alter table t rename big to grown", TOUCH), adopts=TOUCH),
    Story("a long column", "renamed", ROWS,
          ("alter table t rename big to grown", TOUCH + " where id < 3", "alter table t rename grown to large", TOUCH), how="twice, rows in between"),
    Story("a long column", "swapped with another", ROWS,
          ("alter table t rename big to tmp", "alter table t rename big2 to big", "alter table t rename tmp to big2", TOUCH), adopts=TOUCH),
    Story("a long column", "swapped with another", ROWS,
          ("begin; alter table t rename big to tmp; alter table t rename big2 to big; alter table t rename tmp to big2; commit", TOUCH + " where id < 3",
           "begin; alter table t rename big to tmp; alter table t rename big2 to big; alter table t rename tmp to big2; commit", TOUCH), how="and back"),
    Story("a long column", "swapped with another", ROWS,
          ("begin; update t set n = 7, big = big || 'x' where id < 3; alter table t rename big to tmp; alter table t rename big2 to big; "
           "alter table t rename tmp to big2; update t set n = n + 1; commit", TOUCH), how="in the transaction of the rows"),
    Story("a long column", "`using`, then a row that doesn't set it", ROWS, ("alter table t alter big type text using upper(big)", TOUCH), GONE,
          adopts=TOUCH),
    Story("a long column", "`using`, then a row that doesn't set it", ROWS, (TOUCH, "alter table t alter big type text using upper(big)", TOUCH), GONE, how="rows before it"),
    Story("a long column", "`using`, then set in each row", ROWS,
          ("alter table t alter big type text using upper(big)", "update t set big = big || 'x'")),
    Story("a long column", "`using` with replica identity full", ROWS,
          ("alter table t replica identity full", TOUCH, "alter table t alter big type text using upper(big)", TOUCH)),
    Story("a long column", "from text to varchar", ROWS, ("alter table t alter big type varchar using big::varchar", TOUCH)),
    Story("a long column", "dropped and added", ROWS, ("alter table t drop big, add big text", TOUCH)),
    Story("a long column", "dropped, another renamed to its name, one added, no row in between", ROWS,
          ("alter table t drop big", "alter table t rename big2 to big", "alter table t add big2 text", TOUCH), GONE),
    Story("a long column", "dropped", ROWS, (TOUCH + " where id < 3", "alter table t drop big", TOUCH)),
    Story("a long column", "added and filled", ROWS,
          ("alter table t add doc text", f"update t set doc = {LONG % 'id'}", "alter table t add other int", TOUCH), how="then another added"),
    Story("a long column", "added and filled", ROWS, (f"begin; alter table t add doc text; update t set doc = {LONG % 'id'}; {TOUCH}; commit", TOUCH), how="in one transaction"),
    Story("a long column", "default and not null", ROWS, ("alter table t alter big set default 'x', alter big set not null", TOUCH)),
    Story("the table", "VACUUM FULL", ROWS, (TOUCH, "vacuum full t", TOUCH)),
    Story("a long column", "renamed behind VACUUM FULL and rows", ROWS, ("vacuum full t", TOUCH, "alter table t rename big to grown", TOUCH), "", behind=GONE),
    Story("another column", "`using`", ROWS, ("alter table t alter n type bigint using n * 2", TOUCH)),
    Story("the table", "TRUNCATE, a default, new rows", ROWS,
          ("truncate t", "alter table t alter n set default 5", f"insert into t values (1, 1, {LONG % '1'}, null)", TOUCH)),
    # short values come with each row
    Story("another column", "renamed", SHORT, ("alter table t rename a to c", "update t set b = 7", "alter table t rename b to a", "update t set c = 'y'")),
    Story("another column", "dropped and added", SHORT, ("alter table t drop a, add a int default 7", "update t set b = b + 1")),
    Story("another column", "`using`", SHORT, ("alter table t alter b type text using 'v' || b", "update t set a = 'x'"), how="short, then each row"),
    Story("another column", "added with a drawn default", SHORT, ("alter table t add r float8 default random()", "update t set a = 'b'")),
    Story("another column", "a generated one added, without `columns`", SHORT, ("alter table t add g int generated always as (b * 2) stored", "update t set b = b + 1"),
          behind="column g of {s}.t is generated"),
    # keys
    Story("the key", "`using`", "create table t(id int primary key, n int); insert into t values (1, 1), (2, 2)",
          ("alter table t alter id type bigint using id + 100", TOUCH), KEY, how="from integer to bigint, id + 100"),
    Story("the key", "`using`", "create table t(id bigint primary key, n int); insert into t values (1, 1), (2, 2)",
          ("alter table t alter id type bigint using id + 100", TOUCH), KEY, how="id + 100"),
    Story("the key", "from integer to bigint", "create table t(id int primary key, n int); insert into t values (1, 1), (2, 2)",
          ("alter table t alter id type bigint", TOUCH), KEY),
    Story("the key", "from text to uuid", "create table t(k text primary key, v int); insert into t values ('AAAAAAAA-0000-0000-0000-000000000001', 1)",
          ("alter table t alter k type uuid using k::uuid", "update t set v = 2"), "the key k of", "k"),
    Story("the key", "from char to text", "create table t(k char(5) primary key, v int); insert into t values ('ab', 1), ('cd', 2)",
          ("alter table t alter k type text", "update t set v = v + 1"), "the key k of", "k"),
    Story("the key", "`using`", TEXTS, ("alter table t alter k type text using lower(k)", "update t set v = 2"), "the key k of", "k", how="lower(k)"),
    Story("the key", "from text to varchar", TEXTS, ("alter table t alter k type varchar", "update t set v = 2"), "", "k"),
    Story("the key", "varchar made longer", "create table t(k varchar(5) primary key, v int); insert into t values ('ab', 1), ('cd', 2)",
          ("alter table t alter k type varchar(9)", "update t set v = v + 1"), "", "k"),
    Story("the key", "char made longer", "create table t(k char(5) primary key, v int); insert into t values ('ab', 1), ('cd', 2)",
          ("alter table t alter k type char(9)", "update t set v = v + 1"), "the key k of", "k"),
    Story("the key", "renamed", SHORT, ("alter table t rename id to number", "update t set b = 7"), "table {s}.t has no column id"),
    Story("the key", "renamed and back", SHORT, ("alter table t rename id to number", "alter table t rename number to id", "update t set b = 7")),
    Story("the key", "swapped with another", "create table t(id int primary key, n int unique not null); insert into t values (1, 7), (2, 8)",
          ("alter table t replica identity full; alter table t rename id to x; alter table t rename n to id; alter table t rename x to n", "update t set n = n + 10"),
          "the key id of {s}.t may be another column than it was"),
    Story("the key", "dropped and added", "create table t(id int primary key, n int); insert into t values (1, 1)",
          ("alter table t drop id, add id serial primary key", TOUCH), KEY),
    Story("the key", "default, rows, VACUUM FULL", SHORT,
          ("alter table t alter id set default 5", "update t set b = 7", "vacuum full t", "update t set b = 8"), "", behind=KEY),
    Story("the key", "from a number to text", SHORT, ("alter table t alter id type text", "update t set b = 7"), "the key id of {s}.t has the type text",
          behind="the log was begun with"),
    Story("", "keys swapped", SHORT, ("begin; update t set id = -1 where id = 1; update t set id = 1 where id = 2; update t set id = 2 where id = -1; commit",
                                  "update t set id = 9223372036854775807 where id = 1", "update t set id = -9223372036854775808 where id = 2")),
    Story("", "keys that are texts", TEXTS, ("update t set k = k || 'x'", "delete from t", "insert into t values ('', 1), (E'\\n\\t\\\\', 2), ('ünï ☃ 𝄞', 3)"),
          key="k"),
    Story("the key", "its index dropped", "create table t(id int not null, a text); create unique index ti on t(id); alter table t replica identity using index ti",
          ("insert into t values (1, null)", "update t set id = 2", "drop index ti", "insert into t values (2, 'dup')"), "PostgreSQL doesn't send id alone any more",
          behind="the key id of {s}.t needs to be not null and unique by itself"),
    Story("the key", "replica identity full and back", SHORT, ("alter table t replica identity full", "update t set id = 5 where id = 1",
                                                     "alter table t replica identity default", "update t set id = 6 where id = 5")),
    # tables
    Story("the table", "renamed", SHORT, ("alter table t rename to u", "update u set b = 7", "alter table u rename to t"),
          "{s}.t is another table from here on, or has another name"),
    Story("the table", "another under its name", SHORT,
          ("drop table t; create table t(id bigint primary key, a text, b int); alter publication {p} add table t; insert into t values (2, 'x', 2)",), "is another table from here on|is gone",
          behind="the log was begun with"),
    Story("the table", "a partition detached, then TRUNCATE", LEAF, ("update pt set id = 160 where id = 1", "update pt set id = 2 where id = 150", "alter table pt detach partition t",
                                         "update t set a = 9", "truncate t"), behind=KEY),
    Story("", "a table that inherits", "create table t(id int primary key, a int); create table ch() inherits (t); alter table ch replica identity full; insert into t values (1, 1); "
                                   "insert into ch values (2, 2)", ("update t set a = a + 1", "truncate only t"), publication="for table only t"),
    Story("", "TRUNCATE, rolled back and not", SHORT,
          ("begin; insert into t values (50, 'q', 1); truncate t; insert into t values (1, 'b', 2); commit",
           "begin; insert into t select i, 'n', 1 from generate_series(100, 900) i; savepoint a; truncate t; rollback to a; commit")),
    Story("", "a transaction in two phases", SHORT,
          ("begin; insert into t values (10, 'p', 1); savepoint s; insert into t values (11, 'r', 1); rollback to s; prepare transaction '{s}'",
           "insert into t values (20, 'z', 2)", "commit prepared '{s}'")),
    # what isn't published
    Story("the table", "unlogged and logged again", SHORT, ("alter table t set unlogged", "insert into t values (9, 'lost', 1)"), "{s}.t is unlogged",
          publication="for all tables", behind="publication {p} has no {s}.t"),
    Story("the publication", "the table taken out and put back", SHORT,
          ("alter publication {p} drop table t", "insert into t values (9, 'lost', 1)", "alter publication {p} add table t"), "publication {p} has {s}.t otherwise"),
    Story("the publication", "a row filter", SHORT, ("alter publication {p} set table t where (id > 5)", "insert into t values (2000, 'seen', 1)"), "publication {p} has {s}.t otherwise",
          behind="publication {p} leaves out rows of {s}.t"),
    Story("the publication", "a column list", SHORT, ("alter publication {p} set table t (id, a)", "update t set a = 'x'"), "publication {p} has {s}.t otherwise",
          behind="publication {p} leaves out column b of {s}.t"),
    Story("the publication", "updates left out", SHORT, ("alter publication {p} set (publish = 'insert')", "update t set a = 'lost'"), "publication {p} has updates = false",
          behind="publication {p} leaves out inserts, updates"),
    Story("the publication", "updates left out and set back", SHORT, ("begin; alter publication {p} set (publish = 'insert'); update t set a = 'lost'; "
                                                    "alter publication {p} set (publish = 'insert, update, delete, truncate'); commit",),
          "publication {p} was altered, and perhaps set back"),
    Story("the publication", "a partition published as its root", LEAF, ("alter publication {p} set (publish_via_partition_root = true)", "insert into pt values (2, 2)"),
          "publication {p} has publish_via_partition_root = true", publication="for table pt", behind="publication {p} has no {s}.t"),
    Story("the publication", "dropped", SHORT, ("drop publication {p}",), "publication {p} is gone", behind="there is no publication {p}"),
    Story("the publication", "another owner, another table added", SHORT,
          ("create table other(i int primary key); alter publication {p} add table other", "alter publication {p} owner to other_owner", "update t set b = 7")),
)


class Played:
    """A story over a server, in a schema of its own."""

    def __init__(self, postgres, folder, story, name):
        self.story, self.name, self.folder = story, name, folder
        self.log = LOG
        self.link = postgres.connect()
        self.names = {"s": name, "p": f"p_{name}"}
        self.sql(f"create schema {name}; set search_path = {name}")
        self.sql(story.made)
        self.sql(f"create publication p_{name} {story.publication}")
        self.file, self.configuration = folder / f"{name}.log", folder / f"{name}.toml"
        self.configuration.write_text(f'log = {LOG}\ndsn = "{postgres.dsn}"\npublication = "p_{name}"\nslot = "{name}"\n[[table]]\nnumber = 1\n'
                                      f'name = "{name}.t"\nkey = "{story.key}"\n{story.more}')

    def sql(self, text):
        """Each statement by itself, but for a transaction."""
        with self.link.cursor() as cursor:
            for name, word in self.names.items():
                text = text.replace("{" + name + "}", word)
            for it in [text] if text.startswith("begin") else text.split("; "):
                cursor.execute(it)
            return cursor.fetchall() if cursor.description else []

    def place(self):
        return lsn_of(self.sql("select pg_current_wal_insert_lsn()::text")[0][0])

    def is_dropped(self):
        """Takes away the slot, once nobody reads it any more."""
        try:
            self.sql(f"select pg_drop_replication_slot(slot_name) from pg_replication_slots where slot_name = '{self.name}'")
            return True
        except psycopg2.Error:
            self.sql(f"select pg_terminate_backend(active_pid) from pg_replication_slots where slot_name = '{self.name}' and active")
            return False

    def end(self):
        """Leaves neither slot nor origin."""
        waited(self.is_dropped, "the slot is in use", 10)
        self.sql(f"select pg_replication_origin_drop(roname) from pg_replication_origin where roname = '{self.name}'")
        self.link.close()


feeding.Patience.say = lambda self, text: None      # of captures of this process, what they raise is what counts


class Captured(threading.Thread):
    """A capture into a file, up to a place that may be set later. `told`: its status and what it said."""

    def __init__(self, configured, file, until=2 ** 63, remembers=True):
        super().__init__(daemon=True)
        self.remembers = remembers
        self.configured, self.file, self.until, self.capture, self.told = configured, file, until, None, None

    def run(self):
        while self.told is None:
            store = LogInFile(str(self.file), LOG, False)
            try:
                self.capture = None
                capture = capturing.Capture(configuration.read(str(self.configured)), KeptByEngine(store, 60), self.until)
                if not self.remembers:
                    capture.schemas.rows = lambda own: {}
                capture.begin()
                self.capture = capture
                capture.run()
                self.told = (0, "")
            except Broken as broken:
                self.told = (broken.status, str(broken))
            except psycopg2.Error as error:
                if not catalog.is_passing(error):
                    self.told = (1, str(error))
                time.sleep(0.05)
            finally:
                store.drop()
                if self.capture is not None:
                    self.capture.source.drop()

    def come(self, place):
        """Waits until it has a place, or has ended."""
        waited(lambda: self.told or (self.capture and self.capture.log.standing.lsn >= place), f"the capture of {self.file.name} doesn't come", LIMIT)

    def ended(self, place):
        """Has it end at a place: its status, and what it said."""
        self.until = place
        if self.capture is not None:
            self.capture.until = place
        self.join(LIMIT / 3)
        if not self.told:
            self.told, self.capture.until = (None, "it goes on"), 1
        return self.told


def beat(it):
    """A place that comes: behind a message of the capture's own."""
    return it.sql(f"select pg_logical_emit_message(true, 'vadungsil', '{it.name}') - '0/0'::pg_lsn")[0][0]


def captured_beside(it):
    """A capture that has come to each step before the next is done."""
    child = Captured(it.configuration, it.file)
    child.start()
    place = 0
    for step in ("", *it.story.steps):
        if step:
            it.sql(step)
        place = beat(it) if step or child.is_alive() else place
        child.come(place)
        if child.told:
            break
    return child.ended(place)


def captured_up(it, place, remembers=True):
    """A capture up to a place."""
    child = Captured(it.configuration, it.file, place, remembers)
    child.start()
    return child.ended(place)


def captured_behind(it, remembers=True):
    """A capture that ends once the rows are loaded, and another one when all is done. Where the first remembers nothing, as those of before, one in between
    adopts what is."""
    told = captured_up(it, 1, remembers)
    holds(told[0] == 0, f"the load: {told}")
    if not remembers:
        it.sql(it.story.adopts)
        told = captured_up(it, beat(it))
        holds(told[0] == 0, f"what adopts: {told}")
    for step in it.story.steps:
        it.sql(step)
    return captured_up(it, beat(it))


def captured_adopted(it):
    return captured_behind(it, False)


WAYS = {"beside": captured_beside, "behind": captured_behind, "adopted": captured_adopted}


def differences_of(it, node):
    """What a node has otherwise than PostgreSQL."""
    columns = [row[0] for row in it.sql("select attname from pg_attribute where attrelid = 't'::regclass and attnum > 0 and not attisdropped and "
                                        "attgenerated = '' order by attnum")]
    with it.link.cursor() as cursor:
        cursor.execute(f"select {', '.join(columns)} from only t")
        wanted = sorted((dict(zip(columns, row)) for row in cursor.fetchall()), key=str)
    got = sorted(({name: row[name] for name in columns if name in row} for row in Database(node).rows(f"{it.name}.t")), key=str)
    return [f"the node has {str(one)[:300]}, PostgreSQL {str(other)[:300]}" for one, other in zip(got + [None] * 9, wanted + [None] * 9) if one != other][:2]


def told_of(shop, folder, story, name, way):
    """What went otherwise than a story says, one way."""
    it = Played(shop.postgres, folder, story, name)
    try:
        status, said = WAYS[way](it)
        wanted = story.said if way == "beside" or story.behind is None else story.behind
        wanted = wanted.replace("{s}", it.names["s"]).replace("{p}", it.names["p"])
        if wanted:
            return [] if status == 4 and re.search(wanted.replace("(", "\\("), said) else [f"status {status}: {said}, wanted 4: {wanted}"]
        if status:
            return [f"status {status}: {said}"]
        with shop.node(it.file) as node:
            return differences_of(it, node)
    except Exception as error:      # what else goes wrong is told with the story
        return [f"{type(error).__name__}: {error}"]
    finally:
        it.end()
