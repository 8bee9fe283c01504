"""What PostgreSQL says of the tables, the publication and the slot of a capture; what doesn't fit is reported by name
before anything is written. Needs python3-psycopg2."""
from __future__ import annotations

import select
from typing import Any, Dict, List, Optional, Sequence, Tuple

import psycopg2
import psycopg2.extras
from psycopg2 import sql

from configuration import BAD, Broken, Configuration, Table
from pgoutput import Relation
from remembering import Look, Seen
from shapes import Shape, Type

# The texts of values have to be the same in each session: of the load, of the changes, and after each start.
SETTINGS = " ".join(
    f"-c {name}={value}"
    for name, value in {
        "TimeZone": "UTC",
        "DateStyle": "ISO",
        "IntervalStyle": "iso_8601",
        "bytea_output": "hex",
        "extra_float_digits": "1",
        "client_encoding": "UTF8",
        "xmloption": "content",
        "search_path": "pg_catalog",
        "synchronous_commit": "on",
    }.items()
)

_TYPE = """select t.oid, b.typname, case when b.typelem <> 0 and b.typlen = -1 then 'a' else b.typtype end, e.typname
from pg_type t join pg_type b on b.oid = case when t.typtype = 'd' then t.typbasetype else t.oid end
left join pg_type e on e.oid = b.typelem where t.oid = any(%s)"""

_COLUMNS = """select attname, atttypid, attgenerated <> '', attnotnull from pg_attribute
where attrelid = %s and attnum > 0 and not attisdropped order by attnum"""

# what a column list leaves out isn't sent; the place is asked for behind what is seen
_LOOK = """select pg_current_wal_insert_lsn() - '0/0'::pg_lsn, relfilenode::bigint, relnatts, attnum, attname,
atttypid::bigint, atttypmod, a.xmin::text::bigint, attgenerated = '' and not exists (
    select from pg_publication_rel r join pg_publication p on p.oid = prpubid
    where pubname = %s and prrelid = c.oid and not attnum = any(prattrs::int2[]))
from pg_class c join pg_attribute a on attrelid = c.oid
where c.oid = %s and attnum > 0 and not attisdropped order by attnum"""

_UNREAD = """select attname from pg_attribute where attrelid = %s and attname = any(%s::name[])
and not has_column_privilege(attrelid, attnum, 'select') order by attnum"""

_INDEXES = """select i.indisprimary, i.indisreplident, a.attname from pg_index i
join pg_attribute a on a.attrelid = i.indrelid and a.attnum = i.indkey[0]
where i.indrelid = %s and i.indisunique and i.indisvalid and i.indimmediate
and i.indnkeyatts = 1 and i.indpred is null and i.indkey[0] <> 0"""


def connected(dsn: str, **more: Any) -> Any:
    return psycopg2.connect(dsn, options=SETTINGS, application_name="vadungsil", **more)


def is_ready(link: Any, seconds: float) -> bool:
    """Whether something has come over a connection, or it has ended, within so long. Where libpq gave up its socket,
    that is an InterfaceError."""
    try:
        return bool(select.select([link], [], [], seconds)[0])
    except (ValueError, OSError):
        raise psycopg2.InterfaceError("the connection has no socket any more") from None


# the slot is read by another, and the server is being shut down, has crashed or starts
PASSING = ("55006", "57P01", "57P02", "57P03")


def is_passing(error: psycopg2.Error) -> bool:
    """Whether PostgreSQL is away, starts, or still has the connection of a capture that was killed; or says
    behind a crash, now and then, that it finds no file or no name of a table that it had: a new connection
    goes on."""
    is_link = isinstance(error, (psycopg2.OperationalError, psycopg2.InterfaceError, psycopg2.InternalError))
    return is_link or error.pgcode in PASSING or (error.pgcode is None and isinstance(error, psycopg2.DatabaseError))


class Catalog:
    """Asks over a connection of its own, which is opened anew where it broke."""

    def __init__(self, said: Configuration) -> None:
        self.said, self.types = said, {}  # type: Configuration, Dict[int, Type]
        self.link: Any = None
        self.has_ended = False

    def close(self) -> None:
        if self.link is not None:
            self.link.close()
        self.link = None

    def ask(self, text: str, *values: Any) -> List[Tuple[Any, ...]]:
        """What PostgreSQL answers; over another connection where the one that stood has ended."""
        if self.link is not None:
            try:
                return self.asked(text, *values)
            except psycopg2.Error as error:
                if not is_passing(error):
                    raise
        try:
            self.link = connected(self.said.dsn)
        except psycopg2.Error:
            self.has_ended = True
            raise
        self.link.autocommit, self.has_ended = True, False
        return self.asked(text, *values)

    def asked(self, text: str, *values: Any) -> List[Tuple[Any, ...]]:
        try:
            with self.link.cursor() as cursor:
                cursor.execute(text, values)
                found: List[Tuple[Any, ...]] = cursor.fetchall()
                return found
        except psycopg2.Error:
            self.close()
            raise

    def tried(self, text: str, *values: Any) -> Optional[List[Tuple[Any, ...]]]:
        """The same; None where PostgreSQL is away or ends."""
        try:
            return self.ask(text, *values)
        except psycopg2.Error as error:
            if not is_passing(error):
                raise
            return None

    def is_ended(self) -> bool:
        """Whether PostgreSQL ended the connection, which it does first where it is shut down, and takes no other."""
        if self.link is not None and is_ready(self.link, 0):
            self.tried("select 1")
        return self.has_ended

    def types_of(self, numbers: Sequence[int]) -> List[Type]:
        """The types of these numbers of pg_type."""
        lacking = [number for number in numbers if number not in self.types]
        if lacking:
            for number, name, kind, element in self.ask(_TYPE, lacking):
                self.types[number] = Type(element or name, "a") if kind == "a" else Type(name, kind)
        return [self.types.get(number, Type(str(number), "b")) for number in numbers]

    # ------------------------------------------------------------ tables

    def shapes(self) -> Dict[str, Shape]:
        """The tables of the configuration as they are, each held against what a capture needs of it."""
        return {table.name: self.shape(table) for table in self.said.tables}

    def shape(self, table: Table) -> Shape:
        schema, _, name = table.name.partition(".")
        found = self.ask(
            (
                "select c.oid, relkind, relreplident, row_security_active(c.oid), "
                "has_table_privilege(c.oid, 'select') or has_any_column_privilege(c.oid, 'select') from "
                "pg_class c "
                "join pg_namespace n on n.oid = relnamespace where nspname = %s and relname = %s"
            ),
            schema,
            name,
        )
        if not found:
            raise Broken(BAD, f"{table.place}: there is no table {table.name}")
        number, kind, identity, is_hidden, may_read = found[0]
        if kind != "r":
            raise Broken(
                BAD,
                (
                    f"{table.place}: {table.name} is no plain table: partitions are named one by one, views "
                    "aren't captured"
                ),
            )
        if not may_read:
            raise Broken(BAD, f"{table.place}: this user may not read {table.name}: grant select on {table.name}")
        if is_hidden:
            raise Broken(BAD, f"{table.place}: row security hides rows of {table.name} from this user")
        columns = self.ask(_COLUMNS, number)
        for column, _, is_generated, _ in columns:
            if is_generated and (table.columns is None or column in table.columns):
                raise Broken(
                    BAD,
                    (
                        f"{table.place}: column {column} of {table.name} is generated, which PostgreSQL "
                        "doesn't send; leave it out by "
                        "`columns`"
                    ),
                )
        shape = Shape(
            table, number, [it[0] for it in columns if not it[2]], self.types_of([it[1] for it in columns if not it[2]])
        )
        self.see_identity(table, identity, self.ask(_INDEXES, number), [it[0] for it in columns if it[3]])
        return shape

    def see_rights(self, shape: Shape) -> None:
        """This user may read all that a load reads of a table."""
        table, (schema, _, _) = shape.table, shape.table.name.partition(".")
        if not self.ask("select has_schema_privilege(%s, 'usage')", schema)[0][0]:
            raise Broken(
                BAD, f"{table.place}: this user may not use the schema {schema}: grant usage on schema {schema}"
            )
        for column in self.ask(_UNREAD, shape.number, shape.names):
            raise Broken(
                BAD,
                f"{table.place}: this user may not read column {column[0]} of {table.name}: grant select on "
                f"{table.name}",
            )

    def look(self, shape: Shape, cursor: Any = None) -> Look:
        """A table as it is by now, or as the snapshot of a cursor has it."""
        words = (self.said.publication, shape.number)
        if cursor is None:
            rows = self.ask(_LOOK, *words)
        else:
            cursor.execute(_LOOK, words)
            rows = cursor.fetchall()
        if not rows:
            raise Broken(BAD, f"{shape.table.place}: {shape.table.name} is no longer there: begin a log with a new id")
        place, file, most = rows[0][:3]
        columns = {it[3]: Seen(*it[4:8]) for it in rows if it[8]}
        return Look(int(place), file, most, frozenset(it[3] for it in rows), columns)

    def alike(self, one: int, other: int) -> bool:
        """Whether a value that isn't written anew is printed the same as of either type."""
        types = self.types_of([one, other])
        return types[0] == types[1] or all(it.kind == "b" and it.name in ("text", "varchar") for it in types)

    @staticmethod
    def see_identity(table: Table, identity: str, indexes: List[Tuple[Any, ...]], not_null: List[str]) -> None:
        """The key has to be unique and never NULL, and PostgreSQL has to send it of a row that goes."""
        unique = [it for it in indexes if it[2] == table.key and table.key in not_null]
        if not unique:
            raise Broken(
                BAD, f"{table.place}: the key {table.key} of {table.name} needs to be not null and unique by itself"
            )
        is_sent = identity == "f" or any(
            (identity == "d" and primary) or (identity == "i" and chosen) for primary, chosen, _ in unique
        )
        if not is_sent:
            raise Broken(
                BAD,
                (
                    f"{table.place}: of a row of {table.name} that goes, PostgreSQL doesn't send "
                    f"{table.key} alone: it has to be the "
                    f"primary key, or `alter table {table.name} replica identity full`"
                ),
            )

    def relation(self, table: Table, relation: Relation) -> Shape:
        """The shape of a table as a message says it is from here on."""
        shape = Shape(
            table,
            relation.number,
            [it.name for it in relation.columns],
            self.types_of([it.type for it in relation.columns]),
        )
        keys = [it.name for it in relation.columns if it.is_key]
        if relation.identity == "n" or (relation.identity != "f" and keys != [table.key]):
            raise Broken(
                BAD,
                (
                    f"{table.place}: of a row of {table.name} that goes, PostgreSQL doesn't send "
                    f"{table.key} alone any more"
                ),
            )
        return shape

    # ------------------------------------------------------------ what is set

    def see_settings(self, shapes: Dict[str, Shape]) -> None:
        """The server decodes, and the publication has each table, whole and with all that happens to it."""
        said = self.said
        level = self.ask("show wal_level")[0][0]
        if level != "logical":
            raise Broken(
                BAD,
                f"wal_level is {level} in this PostgreSQL, and has to be logical (postgresql.conf, and a restart)",
            )
        if not self.ask("select rolreplication or rolsuper from pg_roles where rolname = current_user")[0][0]:
            raise Broken(BAD, "this user may not replicate: alter role .. replication")
        if self.ask("show server_encoding")[0][0] == "SQL_ASCII":
            raise Broken(BAD, "server_encoding is SQL_ASCII: what its texts are, PostgreSQL doesn't know")
        found = self.ask(
            "select pubinsert and pubupdate and pubdelete and pubtruncate from pg_publication where pubname = %s",
            said.publication,
        )
        names = ", ".join(table.name for table in said.tables)
        if not found:
            raise Broken(
                BAD,
                f"there is no publication {said.publication}: create publication {said.publication} for table {names}",
            )
        if not found[0][0]:
            raise Broken(BAD, f"publication {said.publication} leaves out inserts, updates, deletes or truncates")
        has = {
            f"{schema}.{name}": (columns, rows)
            for schema, name, columns, rows in self.ask(
                (
                    "select schemaname, tablename, attnames::text[], rowfilter from pg_publication_tables where pubname"
                    " = %s"
                ),
                said.publication,
            )
        }
        for table in said.tables:
            if table.name not in has:
                raise Broken(
                    BAD,
                    (
                        f"{table.place}: publication {said.publication} has no {table.name}: "
                        f"alter publication {said.publication} add table {table.name}"
                    ),
                )
            if has[table.name][1] is not None:
                raise Broken(BAD, f"{table.place}: publication {said.publication} leaves out rows of {table.name}")
            lacking = [it for it in table.columns or shapes[table.name].names if it not in has[table.name][0]]
            if lacking:
                raise Broken(
                    BAD,
                    f"{table.place}: publication {said.publication} leaves out column {lacking[0]} of {table.name}",
                )

    def slot(self) -> Optional[Tuple[str, int]]:
        """The database of the slot, and up to where all was confirmed to PostgreSQL; None where there is no slot."""
        found = self.ask(
            (
                "select database, plugin, confirmed_flush_lsn - '0/0'::pg_lsn from pg_replication_slots "
                "where slot_name = %s"
            ),
            self.said.slot,
        )
        if not found:
            return None
        if found[0][1] != "pgoutput":
            raise Broken(BAD, f"slot {self.said.slot} is none of pgoutput's")
        return found[0][0], int(found[0][2] or 0)

    def drop_slot(self) -> None:
        self.ask("select pg_drop_replication_slot(%s)", self.said.slot)

    def name(self) -> Tuple[str, str]:
        """What this PostgreSQL and its database are known by."""
        number, database = self.ask("select system_identifier::text, current_database() from pg_control_system()")[0]
        return str(number), str(database)


def names_of(table: Table) -> sql.Identifier:
    return sql.Identifier(*table.name.split(".", 1))
