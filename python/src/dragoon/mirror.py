"""A notarized history of tables of a SQLite or PostgreSQL database, which continues as it is.

Triggers write each change of an attached table into an outbox, in the site's own transaction; `drain` carries the outbox into a
store, in order, each change once, crash or not. No insert of the site fails for the mirror's sake: a value that no statement spells
(a text with a line end, a number that is no int, more columns than a store has) goes into the column `other`, as JSON in UTF-8.
"""
from __future__ import annotations

import contextlib
import hashlib
import json
import sqlite3
import time
from itertools import accumulate
from pathlib import Path
from typing import Any, Iterator, NamedTuple, Sequence, Union

from . import language
from .csvio import names_of
from .database import Database, Session
from .errors import Error, NoRow, RowExists, TableExists
from .tables import kind_of

OUTBOX, TABLES = "dragoon_outbox", "dragoon_mirrored"  # in the database
MARK, KEY, OTHER = "dragoon_mirror", "dragoon_key", "other"  # in the store
MOST_COLUMNS, MOST_CHANGES, MOST_BYTES, MOST_ROW, MOST_VALUE = 30, 120, 28_000, 24_000, 8_000
Row = dict[str, Any]


class Column(NamedTuple):
    name: str
    to: str  # in the store
    kind: str


class Table(NamedTuple):
    """A table that is mirrored. Its key in the store is the int that it is, if it can be nothing else; or all values of the key, as a JSON list."""

    name: str
    to: str
    columns: tuple[Column, ...]
    key: tuple[str, ...]
    has_int_key: bool

    @property
    def kept(self) -> list[Column]:
        """The columns that the store has, the key first, but for `other`."""
        keys = [it for it in self.columns if self.has_int_key and it.name in self.key]
        rest = [it for it in self.columns if it not in keys]
        return [*(keys or [Column("", KEY, "text")]), *rest][:MOST_COLUMNS]

    def key_of(self, row: Row) -> Any:
        found = [row.get(name) for name in self.key]
        if self.has_int_key:
            return found[0]
        text = json.dumps([plain(it) for it in found]).replace("\x7f", "\\u007f")
        return text if len(text) <= MOST_VALUE else f"sha256 {digest(text.encode())}"

    def row(self, row: Row) -> list[Any]:
        """The values of the row in the store. What does not fit its column, or the room of a row, is in `other`."""
        kinds, left = {it.name: it.kind for it in self.kept[1:]}, MOST_ROW
        found, other = {}, {}  # type: Row, Row
        for name in sorted(row, key=lambda it: len(content_of(row[it]))):
            value, content = row[name], content_of(row[name])
            is_short = len(content) <= min(left, MOST_VALUE)
            if is_short and name in kinds and fits(kinds[name], value):
                found[name] = value
            elif name != self.kept[0].name:
                long = {"sha256": digest(content), "bytes": len(content)}
                other[name] = plain(value) if is_short else long
            left -= len(content) if is_short else 150
        more = json.dumps(other).encode() if other else None
        return [self.key_of(row), *(found.get(it) for it in kinds), more]


class Change(NamedTuple):
    """A change of the outbox. Those of one transaction of the database have one group, if the database says which."""

    number: int
    group: str | None
    table: str
    old: Row | None
    new: Row | None


def digest(content: bytes) -> str:
    return hashlib.sha256(content).hexdigest()


def content_of(value: Any) -> bytes:
    return value if isinstance(value, bytes) else str(value).encode()


def plain(value: Any) -> Any:
    """A value as JSON takes it."""
    return {"bytes": value.hex()} if isinstance(value, bytes) else value


def fits(kind: str, value: Any) -> bool:
    """Whether a column of the kind takes the value."""
    with contextlib.suppress(ValueError):
        return value is None or kind_of(value) == kind and bool(language.literal(value))
    return False


def quoted(name: str, sign: str = '"') -> str:
    return sign + name.replace(sign, 2 * sign) + sign


def text(value: str) -> str:
    return quoted(value, "'")


# ---- the database


class SQLite:
    """A file of SQLite, by the standard library."""

    fault = sqlite3.Error
    setup = f"create table if not exists {OUTBOX} (number integer primary key autoincrement, source text, old text, new text)"
    waiting = f"select number, null, source, old, new from {OUTBOX} order by number"

    def __init__(self, path: str) -> None:
        try:
            uri = f"{Path(path).absolute().as_uri()}?mode=rw"
            self.db = sqlite3.connect(uri, uri=True, isolation_level=None)
            self.db.execute("select * from sqlite_master").fetchone()
        except sqlite3.Error as why:
            raise Error(f"{path} is no database of SQLite that can be written: {why}") from why

    @contextlib.contextmanager
    def transaction(self) -> Iterator[sqlite3.Cursor]:
        with self.db:
            yield self.db.execute("begin immediate")

    def describe(self, name: str) -> tuple[list[tuple[str, str]], list[str], bool]:
        """The columns with their kinds by declaration, the primary key, and whether that is the rowid, which is an int always."""
        rows = run(self, f"pragma table_info({quoted(name)})")
        kinds = (("INT", "int"), ("BOOL", "int"), ("BLOB", "bytes"), ("", "text"))
        columns = [
            (it[1], next(kind for part, kind in kinds if part in it[2].upper())) for it in rows
        ]
        key = [it[1] for it in sorted(rows, key=lambda it: int(it[5])) if it[5]]
        has_index = any(it[3] == "pk" for it in run(self, f"pragma index_list({quoted(name)})"))
        return columns, key, len(key) == 1 and not has_index

    def triggers(self, table: Table) -> Iterator[str]:
        """What makes the triggers, and puts the rows that are there into the outbox."""
        into, source = f"insert into {OUTBOX} (source, old, new)", text(table.name)
        old, new, there = (spelled(table, of) for of in ("old", "new", "it"))
        for verb, both in {
            "insert": ("null", new),
            "update": (old, new),
            "delete": (old, "null"),
        }.items():
            name, of = quoted(f"dragoon_{verb}_{table.name}"), quoted(table.name)
            values = ", ".join((source, *both))
            yield f"create trigger {name} after {verb} on {of} begin {into} values ({values}); end"
        yield f"{into} select {source}, null, {there} from {quoted(table.name)} it"

    def drops(self, table: Table) -> list[str]:
        verbs = ("insert", "update", "delete")
        return [f"drop trigger if exists {quoted(f'dragoon_{it}_{table.name}')}" for it in verbs]

    def row(self, table: Table, spelled: str) -> Row:
        values = (value_of(*it.split(":", 1)) for it in spelled.split(","))
        return dict(zip((it.name for it in table.columns), values))


def spelled(table: Table, of: str) -> str:
    """An expression for all values of a row, each as KIND:SPELLING, with commas between them."""
    values = (f"{of}.{quoted(it.name)}" for it in table.columns)
    cases = "when 'null' then '' when 'integer' then {0} when 'real' then quote({0}) else hex({0})"
    one = f"typeof({{0}}) || ':' || case typeof({{0}}) {cases} end"
    return " || ',' || ".join(one.format(it) for it in values)


def value_of(kind: str, spelled: str) -> Any:
    if kind in ("null", "integer"):
        return int(spelled) if spelled else None
    if kind == "real":
        return spelled
    content = bytes.fromhex(spelled)
    with contextlib.suppress(UnicodeDecodeError):  # a text of SQLite need not be UTF-8
        return content if kind == "blob" else content.decode()
    return content


class PostgreSQL:
    """A database of PostgreSQL, by psycopg. `url` is what psycopg connects to."""

    setup = f"""create table if not exists {OUTBOX}
            (number bigserial primary key, xid xid8 default pg_current_xact_id(), source text, old text, new text);
        create or replace function dragoon_write() returns trigger language plpgsql security definer set bytea_output to hex as $$ begin
            insert into {OUTBOX} (source, old, new) values (tg_argv[0],
                case when tg_op <> 'INSERT' then to_jsonb(old)::text end, case when tg_op <> 'DELETE' then to_jsonb(new)::text end);
            return null; end $$"""
    # only what no transaction that is still open can come before
    waiting = f"select number, xid::text, source, old, new from {OUTBOX} where xid < pg_snapshot_xmin(pg_current_snapshot()) order by number"

    def __init__(self, url: str) -> None:
        import psycopg

        self.fault = psycopg.Error
        try:
            self.db = psycopg.connect(url)
        except psycopg.Error as why:
            raise Error(f"{url} cannot be connected to: {str(why).strip()}") from why

    @contextlib.contextmanager
    def transaction(self) -> Iterator[Any]:
        with self.db.transaction(), self.db.cursor() as cursor:
            yield cursor

    def describe(self, name: str) -> tuple[list[tuple[str, str]], list[str], bool]:
        """The columns with their kinds, the primary key, and whether that is an int."""
        kinds = dict.fromkeys(("smallint", "integer", "bigint"), "int")
        kinds.update(boolean="bool", bytea="bytes")
        of = f"to_regclass({text(name)})"
        columns = f"select attname, format_type(atttypid, null) from pg_attribute where attrelid = {of} and attnum > 0 and not attisdropped order by attnum"
        key = f"""select a.attname from pg_index i, unnest(i.indkey) with ordinality k(number, at), pg_attribute a
            where i.indrelid = {of} and i.indisprimary and a.attrelid = i.indrelid and a.attnum = k.number order by k.at"""
        found = {it[0]: kinds.get(it[1], "text") for it in run(self, columns)}
        names = [it[0] for it in run(self, key)]
        return [*found.items()], names, [found[it] for it in names] == ["int"]

    def triggers(self, table: Table) -> Iterator[str]:
        name, source = table.name, text(table.name)
        yield f"lock table {name} in share row exclusive mode"
        yield f"create trigger dragoon_write after insert or update or delete on {name} for each row execute function dragoon_write({source})"
        yield f"insert into {OUTBOX} (source, new) select {source}, to_jsonb(it)::text from {name} it"

    def drops(self, table: Table) -> list[str]:
        return [f"drop trigger if exists dragoon_write on {table.name}"]

    def row(self, table: Table, spelled: str) -> Row:
        found: Row = json.loads(spelled, parse_float=str)
        for name, kind in ((it.name, it.kind) for it in table.columns):
            value = found.get(name)
            if kind == "bytes" and isinstance(value, str):
                found[name] = bytes.fromhex(value[2:])
            elif kind == "text" and isinstance(value, (dict, list)):
                found[name] = json.dumps(value)
            elif kind == "text" and type(value) is int:
                found[name] = str(value)
        return found


Site = Union[SQLite, PostgreSQL]


def site(database: str) -> Site:
    """The database of a URL of PostgreSQL, or of a path of a file of SQLite."""
    return PostgreSQL(database) if database.startswith("postgresql:") else SQLite(database)


def run(of: Site, *statements: str) -> list[tuple[Any, ...]]:
    """Executes statements as one transaction, and answers the rows of the last one."""
    try:
        with of.transaction() as cursor:
            for it in statements:
                cursor.execute(it)
            return list(cursor.fetchall()) if cursor.description else []
    except of.fault as why:
        raise Error(f"the database answers: {str(why).strip()}") from why


def tables_of(of: Site) -> dict[str, Table]:
    run(of, of.setup, f"create table if not exists {TABLES} (name text primary key, said text)")
    found = {}
    for (said,) in run(of, f"select said from {TABLES}"):
        name, to, columns, key, has_int_key = json.loads(said)
        columns = tuple(Column(*it) for it in columns)
        found[name] = Table(name, to, columns, tuple(key), has_int_key)
    return found


def forget(of: Site, numbers: Sequence[int]) -> None:
    if numbers:
        run(of, f"delete from {OUTBOX} where number in ({', '.join(map(str, numbers))})")


# ---- calls


def attach(of: Site, names: Sequence[str], keys: dict[str, Sequence[str]]) -> list[Table]:
    """Mirrors tables from now on, beginning with the rows that are there. All of them, or none."""
    tables = tables_of(of)
    statements: list[str] = []
    for name in names:
        if name in tables:
            raise Error(f"{name} is mirrored already")
        columns, primary, is_int = of.describe(name)
        key = [*keys.get(name, primary)]
        if not columns:
            raise Error(f"the database has no table {name}")
        if not key or not {*key} <= {it for it, _ in columns}:
            raise Error(f"{name} needs a key: name the columns, by --key {name}=COLUMN,COLUMN")
        *_, to = names_of([MARK, *(it.to for it in tables.values()), name])
        named = names_of([KEY, OTHER, *(it for it, _ in columns)])[2:]
        there = tuple(Column(it, to, kind) for (it, kind), to in zip(columns, named))
        table = tables[name] = Table(name, to, there, tuple(key), is_int and key == primary)
        values = f"{text(name)}, {text(json.dumps(table))}"
        statements += [f"insert into {TABLES} values ({values})", *of.triggers(table)]
    run(of, *statements)
    return [tables[name] for name in names]


def detach(of: Site) -> list[str]:
    """Takes away all that the mirror made. What still waits is lost: drain before."""
    tables = tables_of(of)
    drops = (it for table in tables.values() for it in of.drops(table))
    run(of, *drops, f"drop table {OUTBOX}", f"drop table {TABLES}")
    return list(tables)


def drain(of: Site, store: Database) -> int:
    """Carries what waits into the store. Answers how many changes. If it is stopped anywhere, the next call continues there, and takes none twice."""
    tables, count = tables_of(of), 0
    with contextlib.suppress(TableExists):
        store.create(MARK, {"name": str, "numbers": str})
    for table in tables.values():
        with contextlib.suppress(TableExists):
            store.create(table.to, [*((it.to, it.kind) for it in table.kept), (OTHER, "bytes")])
    if done := store.get(MARK, "last"):
        forget(of, [int(it) for it in done[1].split()])
    while rows := run(of, f"{of.waiting} limit {MOST_CHANGES}"):
        changes = [
            Change(number, group, name, *(it and of.row(tables[name], it) for it in both))
            for number, group, name, *both in rows
        ]
        taken = whole(changes)
        store.transact(lambda session: carry(session, tables, taken))
        forget(of, [it.number for it in taken])
        count += len(taken)
    return count


def whole(changes: list[Change]) -> list[Change]:
    """As many as one transaction of the store takes; transactions of the database whole, if that can be."""
    sizes = accumulate(sum(len(repr(row)) for row in it[3:] if row) for it in changes)
    fit = max(1, sum(size <= MOST_BYTES for size in sizes))
    ends = [at for at in range(1, fit) if changes[at - 1].group != changes[at].group]
    is_part = fit < len(changes) or len(changes) == MOST_CHANGES
    return changes[: ends[-1] if is_part and ends and changes[0].group else fit]


def carry(session: Session, tables: dict[str, Table], changes: list[Change]) -> None:
    """The changes, and the mark that says which: both are stored, or neither."""
    for it in changes:
        table = tables[it.table]
        key = it.old and table.key_of(it.old)
        if it.old and not (it.new and table.key_of(it.new) == key):
            with contextlib.suppress(NoRow):
                session.delete(table.to, key)
        if it.new:
            put(session, table.to, table.row(it.new))
    put(session, MARK, ["last", " ".join(str(it.number) for it in changes)])


def put(session: Session, table: str, values: list[Any]) -> None:
    try:
        session.insert(table, *values)
    except RowExists:
        session.update(table, *values)


def follow(of: Site, store: Database, every: float | None) -> Iterator[int]:
    """Drains once, or again and again after so many seconds. Answers how many changes each time there were any."""
    while True:
        if count := drain(of, store):
            yield count
        if every is None:
            return
        time.sleep(every)
