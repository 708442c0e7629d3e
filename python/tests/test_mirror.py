"""The mirror, against the history that the database itself keeps by triggers, in SQLite and in PostgreSQL."""
import itertools
import json
import os
import random
import shutil
import sqlite3
import subprocess
import tempfile
from pathlib import Path

import pytest

import dragoon
from conftest import PROGRAM, needs_program
from dragoon import mirror
from dragoon.errors import Error
from dragoon.formats import Create, Remove, Store

pytestmark = needs_program
CHANGES = int(os.environ.get("MIRROR_CHANGES", 120))
POSTGRES = next(iter(sorted(Path("/usr/lib/postgresql").glob("*/bin"))), None)


@pytest.fixture(scope="module")
def postgres():
    """A server of its own: the URL of an empty database for each call."""
    psycopg = pytest.importorskip("psycopg")
    if POSTGRES is None:
        pytest.skip("no PostgreSQL is installed")
    folder, count = Path(tempfile.mkdtemp(dir="/var/tmp")), itertools.count()
    user = ["runuser", "-u", "postgres", "--"] if os.geteuid() == 0 else []
    if user:
        shutil.chown(folder, "postgres")

    def call(name, *words):
        line = [*user, POSTGRES / name, "-D", folder / "data", *words]
        subprocess.run(line, check=True, stdout=subprocess.DEVNULL, cwd="/")

    def url():
        base = f"postgresql://postgres@/{{}}?host={folder}"
        with psycopg.connect(base.format("postgres"), autocommit=True) as db:
            db.execute(f"create database site{next(count)}")
            return base.format(f"site{next(count) - 1}")

    call("initdb", "-A", "trust", "-U", "postgres")
    options = f"-c listen_addresses= -c unix_socket_directories={folder} -c fsync=off"
    call("pg_ctl", "-o", options, "-w", "-l", folder / "log", "start")
    yield url
    call("pg_ctl", "-m", "immediate", "stop")
    shutil.rmtree(folder)


@pytest.fixture(params=["sqlite", "postgresql"])
def database(request, tmp_path):
    if request.param == "postgresql":
        return request.getfixturevalue("postgres")()
    sqlite3.connect(tmp_path / "site.db").close()
    return str(tmp_path / "site.db")


def sql(database, *statements):
    """Statements of the site, each its own transaction unless it is a list. Answers the rows of the last one."""
    if database.startswith("postgresql:"):
        import psycopg as driver
    else:
        driver = sqlite3
    db = driver.connect(database)
    for it in statements:
        for one in it if isinstance(it, list) else [it]:
            cursor = db.execute(one)
            rows = cursor.fetchall() if cursor.description else []
        db.commit()
    db.close()
    return rows


TABLES = [
    "create table account (id integer primary key, owner text, cents bigint)",
    "create table place (shop text, shelf integer, goods text, primary key (shop, shelf))",
    "create table note (line text, many integer)",
]
COLUMNS = {"account": ("id", "owner", "cents"), "place": ("shop", "shelf", "goods")}


def logging(database):
    """The database's own history of its tables. A key that changes is a removal, and a row that comes."""
    is_sqlite = not database.startswith("postgresql:")
    kind = "integer primary key autoincrement" if is_sqlite else "bigserial primary key"
    yield f"create table log (n {kind}, source text, gone integer, a text, b text, c text)"
    for name, columns in COLUMNS.items():
        into = f"insert into log (source, gone, a, b, c) select '{name}'"
        old, new = (", ".join(f"{of}.{it}" for it in columns) for of in ("old", "new"))
        moved = f"{into}, 1, {old} where old.{columns[0]} <> new.{columns[0]}"
        bodies = {"insert": f"{into}, 0, {new}", "delete": f"{into}, 1, {old}"}
        for verb, body in {**bodies, "update": f"{moved}; {into}, 0, {new}"}.items():
            head = f"create trigger log_{verb}_{name} after {verb} on {name}"
            if is_sqlite:
                yield f"{head} begin {body}; end"
            else:
                call = f"log_{verb}_{name}()"
                yield f"create function {call} returns trigger language plpgsql as $$ begin {body}; return null; end $$"
                yield f"{head} for each row execute function {call}"


def random_statement(rng):
    word = rng.choice(["", "it''s", "a\nrows 1\n", "tab\there", "ø → ☃", "x" * 9_000])
    key, shop, cents = rng.randrange(40), rng.choice("a b\nc d''e".split(" ")), rng.getrandbits(60)
    account = f"insert into account values ({key}, '{word}', {cents - (1 << 59)})"
    place = f"insert into place values ('{shop}', {key}, '{word}')"
    return rng.choice(
        [
            f"{account} on conflict (id) do update set owner = excluded.owner",
            f"{place} on conflict (shop, shelf) do update set goods = excluded.goods",
            f"delete from account where id = {key}",
            f"update account set id = {cents >> 30} where id = {key}",
            f"delete from place where shop = '{shop}' and shelf = {key}",
        ]
    )


def opened(tmp_path):
    path = tmp_path / "m.store"
    if not path.exists():
        dragoon.make(path, 7, program=PROGRAM)
    return dragoon.connect(path, program=PROGRAM)


def stored_changes(tmp_path):
    """Each change that the store has: the table, whether the row is gone, and its key or its values."""
    for transaction in Store.read(str(tmp_path / "m.store")).transactions():
        for it in transaction.operations:
            if it.table in COLUMNS and isinstance(it, Remove):
                yield it.table, 1, json.loads(it.key) if it.table == "place" else [it.key]
            elif it.table in COLUMNS and not isinstance(it, Create):
                other = json.loads(it.row[-1] or "{}")
                named = zip(COLUMNS[it.table], it.row[-4:-1])
                yield it.table, 0, [other.get(name, value) for name, value in named]


def logged_changes(database):
    """The same, as the database has logged it."""
    for source, gone, *row in sql(database, "select source, gone, a, b, c from log order by n"):
        for at in (0, 2) if source == "account" else (1,):
            row[at] = int(row[at])
        for at, it in enumerate(row):
            if isinstance(it, str) and len(it) > mirror.MOST_VALUE:
                row[at] = {"sha256": mirror.digest(it.encode()), "bytes": len(it)}
        yield source, gone, row[: 1 if source == "account" else 2] if gone else row


def test_random_changes_are_those_of_the_databases_own_history(database, tmp_path, monkeypatch):
    """Also if a drain is stopped between storing a batch and forgetting it."""
    sql(database, *TABLES, *logging(database))
    site, rng, forget = mirror.site(database), random.Random(7), mirror.forget
    mirror.attach(site, ["account", "place"], {})

    def may_stop(*words):
        if rng.random() < 0.3:
            raise KeyboardInterrupt
        forget(*words)

    left = CHANGES
    with opened(tmp_path) as db:
        while left > 0:
            piece = [random_statement(rng) for _ in range(rng.randrange(1, 30))]
            left -= len(piece)
            sql(database, *([piece] if rng.random() < 0.5 else piece))
            if rng.random() < 0.3:
                monkeypatch.setattr(mirror, "forget", may_stop)
                try:
                    mirror.drain(site, db)
                except KeyboardInterrupt:
                    pass
                monkeypatch.undo()
        mirror.drain(site, db)
        assert mirror.drain(site, db) == 0
    assert list(stored_changes(tmp_path)) == list(logged_changes(database))


def test_rows_that_are_there_and_tables_without_a_key(database, tmp_path):
    sql(database, *TABLES, "insert into account values (1, 'Ada', 5)")
    sql(database, "insert into note values ('a', 1)")
    site = mirror.site(database)
    for names, words in (("account note", "--key note=COLUMN"), ("none", "no table none")):
        with pytest.raises(Error, match=words):
            mirror.attach(site, names.split(), {})
    mirror.attach(site, ["account", "note"], {"note": ["line", "many"]})
    with pytest.raises(Error, match="mirrored already"):
        mirror.attach(site, ["account"], {})
    with opened(tmp_path) as db:
        assert mirror.drain(site, db) == 2
        assert tuple(db.get("account", 1)) == (1, "Ada", 5, None)
        assert tuple(db.get("note", '["a", 1]')) == ('["a", 1]', "a", 1, None)
        sql(database, "update account set owner = 'a\nrows 1' where id = 1")
        mirror.drain(site, db)
        assert json.loads(db.get("account", 1)[-1]) == {"owner": "a\nrows 1"}
    assert mirror.detach(site) == ["account", "note"]
    sql(database, "insert into account values (2, 'x', 1)")


def test_a_key_of_sqlite_may_be_of_another_kind_than_it_is_declared(tmp_path):
    path = str(tmp_path / "site.db")
    sql(path, "create table t (k int primary key, v int)", "insert into t values ('x', 'y')")
    mirror.attach(mirror.site(path), ["t"], {})
    with opened(tmp_path) as db:
        assert mirror.drain(mirror.site(path), db) == 1
        key, *rest, other = db.get("t", '["x"]')
        assert rest == [None, None] and json.loads(other) == {"k": "x", "v": "y"}


def test_a_change_of_a_transaction_that_is_still_open_is_waited_for(postgres, tmp_path):
    psycopg, database = pytest.importorskip("psycopg"), postgres()
    sql(database, *TABLES)
    site = mirror.site(database)
    mirror.attach(site, ["account"], {})
    with psycopg.connect(database) as first, opened(tmp_path) as db:
        first.execute("insert into account values (1, 'first', 1)")
        sql(database, "insert into account values (2, 'second', 2)")
        assert mirror.drain(site, db) == 0
        first.commit()
        assert mirror.drain(site, db) == 2
    assert [row[0] for _, _, row in stored_changes(tmp_path)] == [1, 2]
