"""The client over a program: values, refusals, sessions, batches, threads, and what goes wrong."""
import dataclasses
import datetime
import os
import pickle
import random
import threading
import time
from concurrent.futures import ThreadPoolExecutor
from decimal import Decimal
from pathlib import Path
from typing import NamedTuple, Optional

import pytest

import damaged
import dragoon
from conftest import PROGRAM, drill_file, needs_program, put, run
from dragoon import InvalidStatement, Scale, client, database, errors, transport
from dragoon.formats import Book
from dragoon.witness import laid_out

pytestmark = needs_program
UTC = datetime.timezone.utc


@dataclasses.dataclass
class Account:
    id: int
    owner: str
    photo: Optional[bytes]
    is_open: bool


class Entry(NamedTuple):
    id: int
    cents: int


class Unmade:
    """Columns, and no way to make a row of them."""

    id: int


class Unnamed(NamedTuple):
    id: "Nowhere"  # noqa: F821


PAYMENT = {"id": int, "amount": Scale(2), "booked": datetime.date, "at": datetime.datetime}


@pytest.fixture
def past(tmp_path):
    """A scripted connection."""
    store, book = tmp_path / "p.store", tmp_path / "p.book"
    dragoon.make(store, 7, program=PROGRAM)
    with dragoon.connect(store, notary=book, program=PROGRAM, scripted=True) as it:
        yield it


@pytest.fixture(scope="module")
def shared(tmp_path_factory):
    """A connection for what changes nothing: the table t has the columns k and v, and a row (1, 1)."""
    path = tmp_path_factory.mktemp("shared") / "s.store"
    dragoon.make(path, 7, program=PROGRAM)
    with dragoon.connect(path, program=PROGRAM) as it:
        it.create("t", {"k": int, "v": int})
        it.insert("t", 1, 1)
        it.declare("pay", PAYMENT)
        yield it


# ---- values


def test_values_come_back_as_they_were(db):
    db.create("account", Account)
    rows = [
        Account(-1 << 63, "it's 'quoted' ''", b"'\x00\n", True),
        Account((1 << 63) - 1, "rows 3", None, False),
        Account(0, "\u00e9\u200b\u6f22\x85\u2028\U0001f600", b"", True),
        Account(1, "", bytes(range(256)), False),
    ]
    for row in rows:
        db.insert("account", row)
    assert db.scan("account").all() == sorted(rows, key=lambda it: it.id)
    assert db.get("account", 0) == rows[2] and db.get("account", 5) is None
    db.update("account", dataclasses.replace(rows[3], owner="Bob"))
    assert [it.row.owner for it in db.history("account", 1)] == ["", "Bob"]


def test_kinds_of_an_application(db):
    """Amounts and dates come back as they were, and are compared as what they are."""
    db.create("payment", PAYMENT)
    zone = datetime.timezone(datetime.timedelta(hours=-8))
    day, before = datetime.date, datetime.datetime(1969, 12, 31, 9, tzinfo=zone)
    rows = [
        (1, Decimal("-0.01"), day(1, 1, 1), before),
        (2, Decimal("92233720368547758.07"), day(9999, 12, 31), None),
        (3, Decimal("1E+3"), None, datetime.datetime(2026, 12, 1, 8, 0, 0, 123456, tzinfo=UTC)),
        (4, None, day(2026, 2, 28), None),
    ]
    assert db.insert_many("payment", rows[:2]).rows == 2
    with db.session() as s:
        assert s.insert_many("payment", rows[2:]) == 2
    assert db.scan("payment").all() == rows
    late = db.scan("payment", ("booked", ">", day(2026, 1, 1)))
    assert [it.id for it in late] == [2, 4]
    assert [it.id for it in db.scan("payment", ("amount", "=", 1000))] == [3]
    assert db.scan("payment", ("amount", "=", None)).all() == [rows[3]]
    start = db.moment(datetime.datetime.now(UTC))
    assert len(db.over("payment", start, start + 9).all()) == 4
    db.create("other", {"id": int, "amount": Scale(2)})
    db.insert("other", 9, Decimal("-0.01"))
    pieces = db.join("payment", "other", ("amount", "amount"), start, start + 9)
    assert [it.row[5] for it in pieces] == [Decimal("-0.01")]
    db.declare("payment", {"id": int, "amount": Scale(3), "booked": int, "at": datetime.date})
    assert db.get("payment", 2).amount == Decimal("9223372036854775.807")
    with pytest.raises(dragoon.Error, match="column at of table payment"):
        db.get("payment", 3)
    db.declare("payment", {"id": int})
    with pytest.raises(dragoon.Error, match="4 columns, and 1 are declared"):
        db.scan("payment").all()


NOW = 1 << 40
INVALID = [  # what no statement can spell, or what has no answer yet
    (lambda db: db.insert("t", 1.5, 1), "float"),
    (lambda db: db.insert("t", 1, "rent\ndelete t 1"), "U\\+000A"),
    (lambda db: db.insert("t", 1, "\ud800"), "surrogate"),
    (lambda db: db.insert("t", 1 << 63, 1), "a store's has 64"),
    (lambda db: db.insert("t", -(1 << 63) - 1, 1), "a store's has 64"),
    (lambda db: db.insert("t", 1, Decimal(1)), "no Decimal"),
    (lambda db: db.insert("t", 1, datetime.date(2026, 1, 1)), "declare"),
    (lambda db: db.insert("t", 1, [1]), "no list"),
    (lambda db: db.insert("t"), "1 to 32 values"),
    (lambda db: db.insert("t", *range(33)), "1 to 32 values"),
    (lambda db: db.insert("t", 1, "x" * 70_000), "65,536"),
    (lambda db: db.insert("t", 1, b"x" * 33_000), "65,536"),
    (lambda db: db.create("v", {"k": float}), "no kind"),
    (lambda db: db.create("v", {"k": Decimal}), "scale"),
    (lambda db: db.create("v", {}), "1 to 32 columns"),
    (lambda db: db.create("v", "k int"), "neither columns"),
    (lambda db: db.create("v", 5), "neither columns"),
    (lambda db: db.create("v", int), "neither columns"),
    (lambda db: db.create("v", Unmade), "neither columns"),
    (lambda db: db.declare("v", Unnamed), "neither columns"),
    (lambda db: db.create("v", [("k", int), ("k", int)]), "no two"),
    (lambda db: db.create("v", {"a b": int}), "no name"),
    (lambda db: db.get("t", 1, as_of=datetime.datetime(2025, 1, 1, tzinfo=UTC)), "no moment"),
    (lambda db: db.get("t", 1, as_of=int(time.time())), "still to come.*since 1970 it is"),
    (lambda db: db.scan("t", as_of=datetime.datetime(2999, 1, 1, tzinfo=UTC)), "still to come"),
    (lambda db: db.over("t", int(time.time()), NOW - 1), "still to come"),
    (lambda db: db.insert_many("t", ["ab"]), "no row"),
    (lambda db: db.insert_many("t", [{"k": 1}]), "no row"),
    (lambda db: db.insert_many("t", [7]), "no row"),
    (lambda db: db.insert_many("t", [()]), "1 to 32"),
    (lambda db: db.insert("pay", 1, Decimal("0.001")), "more than 2 places"),
    (lambda db: db.insert("pay", 1, Decimal("1E+999999")), "64 bits"),
    (lambda db: db.insert("pay", 1, Decimal("1E-999999")), "places"),
    (lambda db: db.insert("pay", 1, Decimal("NaN")), "finite"),
    (lambda db: db.insert("pay", 1, 0.5), "finite"),
    (lambda db: db.insert("pay", 1, True), "finite"),
    (lambda db: db.insert("pay", 1, 1, datetime.datetime(2026, 1, 1)), "no date"),
    (lambda db: db.insert("pay", 1, 1, None, datetime.datetime(2026, 1, 1)), "time zone"),
    (lambda db: dragoon.connect(), "store, or a socket"),
    (lambda db: dragoon.connect("x", socket="y"), "store, or a socket"),
    (lambda db: dragoon.connect(db._transport.files[0], notary="a,"), "book is empty"),
]


@pytest.mark.parametrize("at", range(len(INVALID)))
def test_what_no_statement_spells_is_refused_before_anything_is_sent(shared, at):
    work, words = INVALID[at]
    sent = shared._transport.sent
    with pytest.raises(InvalidStatement, match=words) as found:
        work(shared)
    assert shared._transport.sent == sent and isinstance(found.value, (ValueError, dragoon.Error))
    assert shared.get("t", 1) == (1, 1) and len(shared._free) == 16


NO_NAMES = ("", "9a", "a b", "a\n", "A", "a" * 33, 5, None, b"t", ["t"])
NO_MOMENTS = (-1, 1 << 40, True, 1.0, "now", None, datetime.datetime(2026, 1, 1), datetime.date.max)
NO_COUNTS = (-1, "3", 3.0, True, None, 1 << 64, [3])
NO_PATHS = ("", "a\0b", 5, b"x", True)
NO_ALGORITHMS = ("", "x", "ta ", 5, None, ["m"])
NO_SERIES = (None, 5, "ab", b"ab", {"k": 1}, int)
NO_FILTERS = (5, (), ("v", "="), ["v", "=", 1], ("v", "like", 1), ("V", "=", 1), ("v", ["="], 1))
WRONG = [  # a call with one argument that is none, and values that it can't be
    ("table", NO_NAMES, lambda db, it: db.insert(it, 1)),
    ("table", NO_NAMES, lambda db, it: db.create(it, {"k": int})),
    ("table", NO_NAMES, lambda db, it: db.declare(it, {"k": int})),
    ("table", NO_NAMES, lambda db, it: db.scan(table=it)),
    ("table", NO_NAMES, lambda db, it: db.history(it, 1)),
    ("table", NO_NAMES, lambda db, it: db.insert_many(it, [(1, 1)])),
    ("table", NO_NAMES, lambda db, it: db.session().insert_many(it, [(1, 1)])),
    ("left", NO_NAMES, lambda db, it: db.join(it, "t", ("k", "k"), 0, 1)),
    ("right", NO_NAMES, lambda db, it: db.join("t", it, ("k", "k"), 0, 1)),
    ("on", ("kk", 5, None, ("k",), ("k", 5)), lambda db, it: db.join("t", "t", it, 0, 1)),
    ("as_of", NO_MOMENTS[:5], lambda db, it: db.get("t", 1, it)),
    ("start", NO_MOMENTS, lambda db, it: db.over("t", it, 1)),
    ("stop", NO_MOMENTS, lambda db, it: db.over("t", 0, it)),
    ("when", NO_MOMENTS, lambda db, it: db.past(it)),
    ("moment", NO_MOMENTS, lambda db, it: db.now(it)),
    ("seconds", NO_COUNTS, lambda db, it: db.date(it)),
    ("where", NO_FILTERS, lambda db, it: db.scan("t", it)),
    ("rows", NO_SERIES, lambda db, it: db.insert_many("t", it)),
    ("rows", NO_SERIES, lambda db, it: db.session().insert_many("t", it)),
    ("keys", NO_SERIES, lambda db, it: db.delete_many("t", it)),
    ("most", (0, 257, *NO_COUNTS), lambda db, it: db.update_many("t", [], it)),
    ("retries", NO_COUNTS, lambda db, it: db.transact(print, it)),
    ("work", (None, 5, "work"), lambda db, it: db.transact(it)),
    ("exponent", (11, *NO_COUNTS), lambda db, it: db.policy(it, "m")),
    ("algorithms", NO_ALGORITHMS, lambda db, it: db.policy(3, it)),
    ("algorithm", NO_ALGORITHMS, lambda db, it: db.analyse(it)),
    ("kappa", (0, 1_025, -1, "3", 3.0, True), lambda db, it: db.analyse("tiled", it)),
    ("era", (1 << 32, -1, "x", 3.0, True), lambda db, it: db.analyse(era=it)),
    ("places", (19, *NO_COUNTS), lambda db, it: Scale(it)),
    ("store", NO_PATHS, lambda db, it: dragoon.connect(it)),
    ("socket", NO_PATHS, lambda db, it: dragoon.connect(socket=it)),
    ("notary", (*NO_PATHS, None, [5]), lambda db, it: dragoon.connect("x", notary=it)),
    ("program", NO_PATHS, lambda db, it: dragoon.connect("x", program=it)),
    ("id", (-1, "3", 3.0, True, 1 << 64), lambda db, it: dragoon.connect("x", it)),
    ("scripted", (None, 1, "no"), lambda db, it: dragoon.connect("x", scripted=it)),
    ("stderr", ("x", 1.5), lambda db, it: dragoon.connect("x", stderr=it)),
    ("id", NO_COUNTS, lambda db, it: dragoon.make("x", it)),
    ("granule", (0, 86_401, *NO_COUNTS), lambda db, it: dragoon.make("x", 1, it)),
    ("exponent", (11, *NO_COUNTS), lambda db, it: dragoon.make("x", 1, 60, it)),
    ("algorithms", NO_ALGORITHMS, lambda db, it: dragoon.make("x", 1, algorithms=it)),
]


@pytest.mark.parametrize("argument, values, call", WRONG)
def test_an_argument_that_is_none_is_named(shared, argument, values, call):
    sent = shared._transport.sent
    for value in values:
        with pytest.raises(InvalidStatement, match=f"^{argument} is .*, and has to be "):
            call(shared, value)
    assert shared._transport.sent == sent and len(shared._free) == 16


def test_a_call_with_an_argument_that_is_in_no_table_cannot_be_defined():
    with pytest.raises(KeyError, match="more"):
        type("Newer", (database.Database,), {"get": lambda self, table, more: None})


# ---- refusals


def full_store(tmp_path):
    """A store with room for less than a segment: rows of 32,700 bytes under the keys 2 to 2,047."""
    path = tmp_path / "full.store"
    dragoon.make(path, 7, program=PROGRAM)
    items = [damaged.transaction(1, 0, damaged.create("t", ("k", 1), ("v", 3)))]
    for number in range(2, 2_048):
        row = damaged.put("t", number, bytes(32_700))
        items.append(damaged.transaction(number, 0, row))
    path.write_bytes(laid_out(path.read_bytes()[9:31], items))
    return dragoon.connect(store=path, program=PROGRAM)


def filed(tmp_path, change=None, algorithms="ta"):
    """A connection over a store of eight granules that was filed, after its files were changed."""
    store, book = drill_file(tmp_path / "s.store", algorithms), tmp_path / "s.book"
    words = f"store={store}", f"notary={book}", "run", 7, "scripted"
    run(*words, given="now 480\nnotarize\n")
    if change:
        change(store, book)
    it = dragoon.connect(store, notary=book, program=PROGRAM, scripted=True)
    it.now(500)
    return it


def unchained(_, book):
    """A book whose tile 0 has no chain under its name."""
    content = book.read_bytes()
    spelled = Book(content).batches(7)[1].spelled
    other = spelled.replace(b"\1\0\0\0\0", b"\4\0\0\0\0", 1)
    book.write_bytes(content.replace(spelled, other))


def full_book(store, book):
    """A book with 65,536 marks."""
    marks = damaged.record(damaged.mark(7, 480, 1)) * 65_536
    book.write_bytes(book.read_bytes()[:-1] + marks + b"\0")


def altered(store, _):
    put(store, 345, b"\1")


def stale(db):
    """A session that read what is changed before it commits."""
    db.create("t", {"k": int})
    with db.session() as s:
        s.get("t", 1)
        s.insert("t", 2)
        db.insert("t", 1)


def many_policies(db):
    for _ in range(300):
        db.policy(3, "ta")


def too_many(db):
    db.create("t", {"k": int})
    with db.session() as s:
        s.insert_many("t", [(k,) for k in range(300)])


REFUSED = [  # name, detail, what raises it, and the hint
    ("Syntax", "", lambda db: db._ask("nonsense"), ""),
    ("NumberTooWide", "", lambda db: db._ask(f"get t {1 << 70}"), ""),
    ("NotScripted", "", lambda db: db.now(5), ""),
    ("NoSpan", "", lambda db: db.over("t", 0, 0), ""),
    ("NoTable", "", lambda db: db.insert("w", 2, 2), ""),
    ("NoTable", "", lambda db: db.scan("w"), ""),
    ("TableExists", "", lambda db: db.create("t", {"k": int}), ""),
    ("BadCount", "", lambda db: db.insert("t", 2), "1 values are given, and t has 2 columns"),
    ("NullKey", "", lambda db: db.insert("t", None, 1), ""),
    ("BadType", "2", lambda db: db.insert("t", 2, "x"), "column v takes int, and 'x' is text"),
    ("BadType", "1", lambda db: db.get("t", b"x"), "column k takes int, and x'78' is bytes"),
    ("BadType", "2", lambda db: db.scan("t", ("v", "=", "x")), "column v takes int"),
    ("NoRow", "", lambda db: db.update("t", 9, 9), ""),
    ("NoRow", "", lambda db: db.delete("t", 9), ""),
    ("RowExists", "", lambda db: db.insert("t", 1, 1), ""),
    ("NoColumn", "", lambda db: db.scan("t", ("w", "=", 1)), "the columns of t are k, v"),
    ("NoSession", "", lambda db: db._ask("s3 commit"), ""),
    ("SessionOpen", "", lambda db: [db._ask("s3 begin"), db._ask("s3 begin")], ""),
    ("TooLong", "", lambda db: db.create("u", {"k": str}) and db.insert("u", "x" * 32_760), ""),
]
REACHED = [  # name, detail, how a connection is made, and what raises it
    ("Conflict", "2", None, stale),
    ("TooManyOps", "", None, too_many),
    ("ClockBack", "480", filed, lambda db: [db.now(0), db.insert("t", 9, 9)]),
    ("TooLate", "", filed, lambda db: [db.now(60 << 20), db.insert("t", 9, 9)]),
    ("Full", "", lambda path: filed(path, full_book), lambda db: db.validate()),
    ("Broken", "", lambda path: filed(path, altered), lambda db: db.notarize()),
    ("TooManyEras", "", filed, many_policies),
    ("SealMissing", "cum 0", lambda path: filed(path, unchained), lambda db: db.validate()),
    ("NoEra", "", filed, lambda db: db.analyse("a3d", era=5)),
    ("NotSealedSo", "", lambda path: filed(path, algorithms="m"), lambda db: db.analyse("a3d")),
]
ELSEWHERE = {"StoreFull"}  # test_a_full_store_ends_a_batch
OF_SERVICES = {"Busy", "NotAllowed", "ClockAhead"}  # test_serve
ONLY_MAPPED = {"OldFormat", "OutOfTurn", "NotaryInconsistent"}  # a drill, a race, a forged book


@pytest.mark.parametrize("name, detail, work, hint", REFUSED)
def test_refused(shared, name, detail, work, hint):
    with pytest.raises(getattr(dragoon, name)) as found:
        work(shared)
    why = found.value
    assert (why.detail, why.name, why.hint) == (detail, name, hint) and why.reason and why.line
    assert shared.get("t", 1) == (1, 1)  # the connection continues
    copy = pickle.loads(pickle.dumps(why))
    assert type(copy) is type(why) and str(copy) == str(why) and why.line[:99] in str(why)


@pytest.mark.parametrize("name, detail, opened, work", REACHED)
def test_reached(request, tmp_path, name, detail, opened, work):
    with opened(tmp_path) if opened else request.getfixturevalue("db") as db:
        with pytest.raises(getattr(dragoon, name)) as found:
            work(db)
        assert found.value.detail == detail and db.get("t", 12_345) is None


def test_each_refusal_of_the_page_is_reached_and_has_a_class():
    page = Path(__file__).parents[2] / "docs" / "LANGUAGE.md"
    table = page.read_text().split("| Refusal | When |\n")[1].split("\n\n")[0].splitlines()[1:]
    names = {line.split("|")[1].split(",")[0].split()[0] for line in table}
    assert names == {it[0] for it in [*REFUSED, *REACHED]} | ELSEWHERE | ONLY_MAPPED
    assert names | OF_SERVICES | {"NotAStore"} == set(errors.BY_NAME)


# ---- the past


def test_past(past):
    past.create("t", Entry)
    past.create("u", Entry)
    for moment, work in ((10, past.insert), (20, past.update)):
        past.now(moment)
        work("t", 5, moment)
    past.insert("u", 1, 20)
    past.now(30)
    past.delete("t", 5)
    then = [past.get("t", 5, as_of=it) for it in (9, 10, 29, past.date(15))]
    assert then == [None, Entry(5, 10), Entry(5, 20), Entry(5, 10)]
    assert past.history("t", 5).all() == [(10, 20, Entry(5, 10)), (20, 30, Entry(5, 20))]
    assert past.over("t", 0, 100, ("cents", ">", 15)).all() == [(20, 30, Entry(5, 20))]
    assert past.join("t", "u", ("cents", "cents"), 0, 100).all() == [(20, 30, (5, 20, 1, 20))]
    assert past.scan("t", as_of=12).all() == [Entry(5, 10)] and past.scan("t").all() == []
    words = "31 is still to come: now is moment 30"
    with past.session() as s, pytest.raises(InvalidStatement, match=words):
        s.get("t", 5, as_of=31)


def test_now_is_known_by_the_clock(db):
    db.create("t", Entry)
    db.insert("t", 1, 1)
    assert db.get("t", 1, as_of=datetime.datetime.now(UTC)) == (1, 1)
    assert db.get("t", 1, as_of=db.clock()) == (1, 1)
    assert abs(db.date(db.clock()).timestamp() - time.time()) < 2


# ---- sessions


def test_a_session_is_one_transaction(db):
    db.create("t", Entry)
    with db.session() as s:
        assert s.insert("t", 1, 1) is None and s.insert_many("t", [(2, 2), Entry(3, 3)]) == 2
        assert db.get("t", 1) is None and s.get("t", 1) == Entry(1, 1)
    assert s.transaction == 2 and len(db.scan("t").all()) == 3
    with pytest.raises(ZeroDivisionError):
        with db.session() as s:
            s.delete("t", 1)
            raise ZeroDivisionError
    with pytest.raises(dragoon.NoRow):
        with db.session() as s:
            s.insert("t", 9, 9)
            s.update("t", 8, 8)
    assert db.get("t", 1) == Entry(1, 1) and db.get("t", 9) is None
    for work in (lambda: s.get("t", 1), s.commit, s.abort, lambda: s.insert_many("t", [(1, 1)])):
        with pytest.raises(dragoon.Error, match="has ended"):
            work()
    assert len(db._free) == 16


def test_conflict_and_retry(db):
    db.create("t", Entry)
    db.insert("t", 1, 1)
    calls = []

    def work(s):
        calls.append(s)
        s.update("t", 1, s.get("t", 1).cents + 1)
        if len(calls) < 3:
            db.update("t", 1, 50)
        return "done"

    assert db.transact(work) == "done" and len(calls) == 3 and db.get("t", 1) == (1, 51)
    calls.clear()
    with pytest.raises(dragoon.Conflict) as found:
        db.transact(work, retries=1)
    assert len(calls) == 2 and found.value.detail.isdigit() and len(db._free) == 16


def test_a_seventeenth_session_waits(db, monkeypatch):
    db.create("t", Entry)
    sessions = [db.session() for _ in range(16)]
    [it.begin() for it in sessions]
    threading.Timer(0.2, sessions[3].abort).start()
    with db.session() as s:
        s.insert("t", 1, 1)
    monkeypatch.setattr(client, "PATIENCE", 0.1)
    with db.session(), pytest.raises(dragoon.Error, match="no session is free"):
        db.insert_many("t", [(2, 2)])


def test_transact_under_threads(db):
    """Twenty threads move money: the sum stays, and each had all its transfers."""
    db.create("t", Entry)
    db.insert_many("t", [(k, 100) for k in range(10)])

    def move(seed):
        chance = random.Random(seed)
        for _ in range(5):
            one, other = chance.sample(range(10), 2)

            def work(s):
                s.update("t", one, s.get("t", one).cents - 1)
                s.update("t", other, s.get("t", other).cents + 1)

            db.transact(work, retries=1_000)
            assert sum(row.cents for row in db.scan("t")) == 1_000

    with ThreadPoolExecutor(20) as pool:
        list(pool.map(move, range(20)))
    assert sum(len(db.history("t", k).all()) - 1 for k in range(10)) == 20 * 5 * 2


# ---- batches

BATCHES = [  # rows; how many are stored, in how many transactions; the place that is refused
    ([], 0, 0, None),
    ([(k, 0) for k in range(256)], 256, 1, None),
    ([(k, 0) for k in range(3_000)], 3_000, 12, None),
    ([(k, 0) for k in range(300)] + [(5, 0)], 256, 1, 300),
    ([(k, 0) for k in range(1_500)] + [(5, 0)], 1_280, 5, 1_500),
    ([(k, 0) for k in range(700)] + [(700,), (701, 0)], 512, 2, 700),
    ([(0, 0), (0, 0)], 0, 0, 1),
    ([(k, "x") for k in range(300)], 0, 0, 0),
]


@pytest.mark.parametrize("rows, stored, transactions, at", BATCHES)
def test_batches(db, rows, stored, transactions, at):
    db.create("t", {"k": int, "v": int})
    if at is None:
        assert db.insert_many("t", iter(rows))[:2] == (stored, transactions)
    else:
        words = f"row {at} of the batch; {stored} stored"
        with pytest.raises(dragoon.Refused, match=words) as found:
            db.insert_many("t", iter(rows))
        assert (found.value.at, found.value.stored) == (at, stored)
    assert len(db.scan("t").all()) == stored and len(db._free) == 16
    assert db.insert("t", 5_000, 1) == transactions + 2


def test_the_commits_of_a_group_reach_the_program_together(db, monkeypatch):
    """So that one sync can do for all of them, if the program groups what is at hand."""
    db.create("t", Entry)
    sent, write = [], db._transport.write
    monkeypatch.setattr(db._transport, "write", lambda data: [sent.append(data), write(data)])
    db.insert_many("t", [(k, k) for k in range(2_048)])
    commits = "".join(f"s{number} commit\n" for number in range(4)).encode()
    assert [data.startswith(commits) for data in sent] == [False, True, True]


@pytest.mark.parametrize("seed", range(20))
def test_a_batch_leaves_what_a_loop_would(db, seed):
    """Keys that come again at random, sizes at random, few sessions or many, and a row that is not there."""
    chance = random.Random(seed)
    db.create("t", Entry)
    db.insert_many("t", [(k, 0) for k in range(1_000)])
    others = [db.session() for _ in range(chance.choice((0, 3, 13, 15)))]
    [it.begin() for it in others]
    few, size = chance.choice((1_000, 5)), chance.choice((1, 3, 50, 256))
    count = min(1_500, 20 * size)
    rows = [(chance.randrange(few), cents) for cents in range(count)]
    if seed % 5 == 4:
        rows[chance.randrange(count)] = (9_999, 0)
    expected = {k: 0 for k in range(1_000)}
    try:
        assert db.update_many("t", iter(rows), most=size).rows == count
        stored = count
    except dragoon.NoRow as why:
        assert rows[why.at][0] == 9_999 and why.stored == why.at - why.at % size
        stored = why.stored
    expected.update(rows[:stored])
    assert {row.id: row.cents for row in db.scan("t")} == expected
    [it.abort() for it in others]
    assert len(db._free) == 16


def test_long_rows_are_parted(db):
    db.create("t", {"k": int, "v": str})
    rows = [(k, "\u00e9'" * 5_000) for k in range(9)]
    assert db.insert_many("t", rows).transactions > 1 and db.scan("t").all() == rows
    with pytest.raises(dragoon.TooLong) as found:
        db.insert_many("t", [(100, "short"), (101, "x" * 33_000)])
    assert found.value.at == 1 and db.get("t", 100) is not None


def test_rows_of_a_batch_that_fail_to_come(db):
    db.create("t", Entry), db.create("u", Entry)
    db.insert_many("t", [(k, k) for k in range(2_000)])
    assert db.insert_many("u", db.scan("t")).rows == 2_000
    with pytest.raises(dragoon.Error, match="make a list"):
        db.update_many("u", ((k, db.get("t", k).cents) for k in range(3_000)))
    with pytest.raises(InvalidStatement) as found:
        db.update_many("u", [(k, -1) for k in range(1_500)] + [(2, "a\nb")])
    assert (found.value.at, found.value.stored) == (1_500, 1_280)
    with pytest.raises(ZeroDivisionError):
        db.update_many("u", ((k, -2 // (1_500 - k)) for k in range(2_000)))
    assert [db.get("u", k).cents for k in (1, 1_279, 1_280)] == [-1, -1, 1_280]
    with pytest.raises(InvalidStatement):
        db.update_many("u", [("a\nb", 1)])
    assert db.get("u", 1) == Entry(1, -1) and len(db._free) == 16


def test_a_full_store_ends_a_batch(tmp_path):
    """The rows that are stored are the first ones, also where several transactions are on their way."""
    with full_store(tmp_path) as db:
        with pytest.raises(dragoon.StoreFull) as found:
            rows = ((9_000 + k, b"x" * (40 if k % 2 else 15_000)) for k in range(50))
            db.insert_many("t", rows, most=1)
        at = found.value.at
        assert 0 < at == found.value.stored < 50
        there = [bool(db.get("t", 9_000 + it)) for it in (at - 1, at, at + 1)]
        assert there == [True, False, False]


# ---- answers


def test_an_answer_left_in_the_middle(db):
    db.create("t", Entry)
    db.insert_many("t", [(k, k) for k in range(5_000)])
    rows = db.scan("t")
    assert [next(rows).id for _ in range(3)] == [0, 1, 2]
    assert db.get("t", 7) == Entry(7, 7)
    assert sum(1 for _ in rows) == 4_997 and list(rows) == []
    next(db.scan("t"))
    assert db.insert("t", 9_999, 1)


HIDDEN = ["a\nrows 1", "rows 1\n\n'", "\n" * 30_000 + "refused x", "'\nok 5"]


@pytest.mark.parametrize("text", HIDDEN)
def test_an_attackers_line_feed(made, text):
    """A text may hold what no statement spells: a reply continues to the end of its quotes."""
    store, _ = made
    content = store.read_bytes()[:-1]
    for number, it in (10, damaged.create("x", ("k", 2))), (11, damaged.put("x", text)):
        content += damaged.record(damaged.transaction(number, 480, it))
    store.write_bytes(content + b"\0")
    with dragoon.connect(store, program=PROGRAM) as db:
        assert db.scan("x").all() == [(text,)]
        assert [it.row for it in db.over("x", 0, 500)] == [(text,)]
        assert db.get("t", 1) == (1, 1)


# ---- what goes wrong


def test_another_run_is_opened_before_one_takes_no_more(db, monkeypatch):
    monkeypatch.setattr(transport, "INPUT_LIMIT", 90_000)
    monkeypatch.setattr(client, "LONGEST_SESSION", 60_000)
    db.create("t", Entry)
    first = db._transport.process.pid
    assert db.insert_many("t", [(k, k) for k in range(5_000)]).rows == 5_000
    second = db._transport.process.pid

    def many(seed):
        for k in range(20):
            db.transact(lambda s: s.insert("t", 10_000 + 100 * seed + k, int("9" * 18)), retries=99)

    with ThreadPoolExecutor(18) as pool:
        list(pool.map(many, range(18)))
    assert db._transport.process.pid not in (first, second)
    assert len(db.scan("t").all()) == 5_000 + 18 * 20


def test_a_scripted_run_keeps_its_moment(past, monkeypatch):
    past.create("t", Entry)
    past.now(1_000)
    monkeypatch.setattr(transport, "INPUT_LIMIT", past._transport.sent)
    past.insert("t", 1, 1)
    assert past.history("t", 1).all()[0].start == 1_000


FAULTS = {"NotAStore": {"id": 8}, "NotaryFault": {"notary": "/dev/null/x"}}


@pytest.mark.parametrize("name, words", FAULTS.items())
def test_faults(made, name, words):
    with pytest.raises(dragoon.Fault, match=name) as found:
        with dragoon.connect(store=made[0], program=PROGRAM, **words) as db:
            db.validate()
    assert found.value.name == name and found.value.reason


def test_no_store(tmp_path):
    with pytest.raises(FileNotFoundError):
        dragoon.connect(store=str(tmp_path / "none"), program=PROGRAM)
    (tmp_path / "text").write_text("no store" * 20)
    with pytest.raises(dragoon.Error, match="no store"):
        dragoon.connect(store=str(tmp_path / "text"), program=PROGRAM)
    dragoon.make(str(tmp_path / "s"), 7, program=PROGRAM)
    with pytest.raises(dragoon.Fault, match="AlreadyThere"):
        dragoon.make(drill_file(tmp_path / "t"), 7, program=PROGRAM)
    with pytest.raises(FileNotFoundError):
        dragoon.connect(store=str(tmp_path / "s"), program="/nowhere/dragoon")
    with pytest.raises(FileNotFoundError, match="no service"):
        dragoon.connect(socket=str(tmp_path / "socket"))


def test_a_program_that_is_killed(db):
    db.create("t", Entry)
    db.insert_many("t", [(k, k) for k in range(600)])

    def rows():
        for k in range(600, 9_000):
            if k == 4_000:
                db._transport.process.kill()
            yield k, k

    with pytest.raises(dragoon.Fault, match="Ended .status -9."):
        db.insert_many("t", rows())
    for work in (lambda: db.get("t", 7), lambda: db.scan("t"), db.session().begin):
        with pytest.raises(dragoon.Fault):
            work()
    db.close()
    with dragoon.connect(store=db._transport.files[0], program=PROGRAM) as again:
        stored = len(again.scan("t").all())
        assert 600 <= stored < 4_000 and stored % 256 == 600 % 256


def test_a_locked_file(made):
    store, book = map(str, made)
    with dragoon.connect(store=store, notary=book, program=PROGRAM) as db:
        assert str(db.validate()).startswith("clean")
        for file in (store, book):
            with pytest.raises(dragoon.Locked, match=f"{file} is open in another process"):
                copy = store if file == store else store + ".copy"
                Path(copy).write_bytes(Path(store).read_bytes()) if file == book else None
                with dragoon.connect(store=copy, notary=book, program=PROGRAM) as other:
                    other.validate()


def test_what_is_cut_off_ends_the_connection(db):
    """After Ctrl-C amid an exchange no one knows which reply is whose; closing ends the run, and frees the store."""
    db.create("t", Entry)

    def interrupted(*_):
        raise KeyboardInterrupt

    read, db._transport.read = db._transport.read, interrupted
    with pytest.raises(KeyboardInterrupt):
        db.insert("t", 1, 1)
    db._transport.read = read
    with pytest.raises(dragoon.Error, match="cut off by KeyboardInterrupt"):
        db.get("t", 1)
    db.close(), db.close()
    with pytest.raises(dragoon.Error):
        db.get("t", 1)
    with dragoon.connect(store=db._transport.files[0], program=PROGRAM) as again:
        again.create("u", Entry)


@pytest.mark.filterwarnings("ignore:This process:DeprecationWarning")
def test_a_fork(db):
    """The child may not use its parent's connection; it holds nothing of it, also where a thread had the lock."""
    db.create("t", Entry)
    ready, done = os.pipe(), os.pipe()
    with db._lock:
        child = os.fork()
        if not child:
            try:
                db.get("t", 1)
                said = b"answered"
            except dragoon.Error as why:
                said = str(why).encode()
            db.close()
            os.write(ready[1], said)
            os.read(done[0], 1)
            os._exit(0)
    assert b"before the fork" in os.read(ready[0], 100)
    assert db.insert("t", 1, 1) == 2
    db.close()  # the child lives, and holds no end of the pipes
    os.write(done[1], b"x")
    assert os.waitpid(child, 0)[1] == 0


# ---- the notary


def test_notary(made):
    store, book = map(str, made)
    with dragoon.connect(store=store, notary=book, program=PROGRAM, scripted=True) as db:
        db.now(480)
        assert (db.notarize(), str(db.validate()), db.policy(2, "a")) == (1, "clean 1", (1, 1))
        assert str(db.audit()) == "clean 1" and db.analyse("a3d", era=0).verdict == "clean"
    put(store, 345, b"\1")
    with dragoon.connect(store=store, notary=[book], program=PROGRAM, scripted=True) as db:
        db.now(500)
        assert str(db.validate()) == "altered 1 from 0"
        assert db.analyse("a3d").granules == (5,)
        assert db.analyse("tiled", era=0).granules == (5, 7)
        assert db.analyse("tiled", kappa=1).granules == (5,)
        assert db.analyse("mono").granules == tuple(range(8))
        with pytest.raises(dragoon.Broken):
            db.notarize()
