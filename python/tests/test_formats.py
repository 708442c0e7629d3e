"""The reader of files, and what is made of it: tables, dumps, looks, differences, and that damaged files are answered."""
import doctest
from pathlib import Path

import pytest

import damaged
import dragoon
from conftest import PROGRAM, drill_file, needs_program, put, run
from damaged import laid, record
from damaged import transaction as txn
from dragoon import formats, look, tables, verify, witness
from dragoon.formats import (
    Book,
    Create,
    Era,
    Evidence,
    FormatError,
    Frontier,
    Put,
    Remove,
    Store,
    Transaction,
)
from findings import NAMES, findings

HEAD = b"\xa7DRAGOON2" + b"".join(map(damaged.big, (7, 0, 60, 3, 3), (8, 8, 4, 1, 1))) + bytes(33)


ROW = b"\2\1t\1\1" + (5).to_bytes(8, "big")
ITEMS = [  # a payload, and what it spells, or None
    (
        txn(1, 2, b"\1\1t\2\1k\1\1v\2"),
        Transaction(
            1, 2, (Create("t", (("k", "int"), ("v", "text"))),), txn(1, 2, b"\1\1t\2\1k\1\1v\2")
        ),
    ),
    (txn(1, 2, ROW), Transaction(1, 2, (Put("t", (5,)),), txn(1, 2, ROW))),
    (txn(1, 2, b"\3\1t\4\1"), Transaction(1, 2, (Remove("t", True),), txn(1, 2, b"\3\1t\4\1"))),
    (
        txn(1, 2, b"\2\1t\3\0\2\0\1a\3\0\1\xff"),
        Transaction(
            1, 2, (Put("t", (None, "a", b"\xff")),), txn(1, 2, b"\2\1t\3\0\2\0\1a\3\0\1\xff")
        ),
    ),
    (b"\2" + (9).to_bytes(8, "big"), Frontier(9)),
    (b"\3" + bytes(7) + b"\4\2\1", Era(0, 4, 2, 1)),
    (b"", None),
    (b"\2", None),
    (b"\2" + bytes(9), None),
    (b"\3" + bytes(8) + b"\x0b\1", None),
    (b"\3" + bytes(8) + b"\1\4", None),
    (b"\4" + bytes(8), None),
    (txn(1, 2), None),
    (txn(1, 2, ROW) + b"\0", None),
    (txn(1, 2, ROW)[:-1], None),
    (txn(1, 2, b"\2\1T\1\0"), None),
    (txn(1, 2, b"\2\0\1\0"), None),
    (txn(1, 2, b"\2\1t\1\4\2"), None),
    (txn(1, 2, b"\2\1t\1\2\0\1\xff"), None),
    (txn(1, 2, b"\1\1t\1\1k\5"), None),
    (txn(1, 2, b"\2\1t\0"), None),
    (txn(1, 2, b"\2\1t\x21" + bytes(33)), None),
]


@pytest.mark.parametrize("payload, item", ITEMS, ids=range(len(ITEMS)))
def test_items(payload, item):
    if item is None:
        with pytest.raises(ValueError):
            formats.item_of(payload)
    else:
        assert formats.item_of(payload) == item


WHOLE = laid(HEAD, [txn(1, 2, b"\1\1t\1\1k\1"), txn(2, 2, ROW)])
MORE = record(txn(3, 3, ROW))
ONE = WHOLE.replace(b"DRAGOON2", b"DRAGOON1")
SEGMENT = WHOLE.ljust(65_536, b"\0")
TRAILING = [  # the bytes of a store; the trailing bytes: how many, how many records, whether a crash leaves them
    (WHOLE, None),
    (WHOLE + bytes(40_000), None),
    (WHOLE + MORE[1:9], (5, 0, True)),
    (WHOLE + MORE[1:] + b"\0", (len(MORE) - 1, 1, True)),
    (WHOLE + MORE[1:] + MORE + MORE[:9] + b"\0", (2 * len(MORE) + 5, 2, True)),
    (WHOLE[:-1] + b"\1" + MORE[1:] + b"\0", (len(MORE) - 1, 1, True)),
    (WHOLE + MORE[9:] + b"\0", (len(MORE) - 9, 0, True)),
    (WHOLE[:-1] + b"\xa7", (0, 0, False)),
    (WHOLE[:-1] + b"\xa7" + MORE[1:9], (5, 0, False)),
    (WHOLE[:-1] + MORE, (len(MORE) - 1, 0, False)),
    (WHOLE + bytes(60_000) + b"\1", (60_001, 0, True)),
    (ONE + bytes(60_000) + b"\1", (60_001, 0, False)),
    (ONE + bytes(30_000) + b"\1", (30_001, 0, True)),
    (SEGMENT + b"\xa7", None),
    (SEGMENT + b"\xa7\1", (1, 0, False)),
    (WHOLE + MORE[1:] + SEGMENT[len(WHOLE + MORE) - 1 :] + b"\0", (len(MORE) - 1, 1, True)),
]


@pytest.mark.parametrize("content, found", TRAILING, ids=range(len(TRAILING)))
def test_trailing(content, found):
    it = Store(content).trailing()
    assert [(one.length, one.records, one.torn) for one in it] == ([] if found is None else [found])


NO_STORES = [  # bytes; what is said of them, and which byte is the first that no store has
    (b"", "empty", 0),
    (HEAD, "ends within", 64),
    (HEAD[:20], "ends within", 20),
    (b"\0" + WHOLE[1:], "gate is closed", 0),
    (WHOLE[:40] + b"\1" + WHOLE[41:], "damaged", 40),
    (WHOLE[:18] + b"\1" + WHOLE[19:], "damaged", 18),
    (WHOLE[:25] + b"\0\1\x51\x81" + WHOLE[29:], "damaged", 28),
    (WHOLE[:25] + bytes(4) + WHOLE[29:], "damaged", 28),
    (WHOLE[:29] + b"\x0b\4" + WHOLE[31:], "damaged", 29),
    (b"\xa7DRAGOOM2" + WHOLE[9:], "letters is damaged", 7),
    (b"\xa7DRAGBOK1" + bytes(56), "notary's book", 5),
    (b"hello", "don't begin", 0),
]


@pytest.mark.parametrize("content, words, byte", NO_STORES)
def test_no_store(content, words, byte):
    with pytest.raises(FormatError, match=words) as raised:
        Store(content, "f")
    assert raised.value.byte == byte and verify.header_of(content) is None


@needs_program
def test_a_book(made):
    book = Book.read(str(made[1]))
    batches = book.batches(7)
    assert [(it.index, it.count) for it in batches] == [(0, 1), (1, 20)]
    assert (book.ids(), book.tiles(7), book.trailing()) == ([7], 1, [])
    assert list(batches[1].seals)[:3] == ["cum 0", "tile 0 whole", "tile 0 bit 0"]
    assert "node 3 0" in batches[1].seals and [str(it) for it in book.marks(7)] == ["clean 1"]
    assert Book(b"").filings == Book(bytes(65)).filings == []
    with pytest.raises(FormatError, match="record 1: .* out of turn") as raised:
        Book(book.content[:64] + book.content[125:])
    assert raised.value.record == 1


@needs_program
def test_evidence(tmp_path, made):
    store, book = made
    copy = store.read_bytes()
    put(store, 345, b"\1")
    content = witness.gather(store.read_bytes(), copy, book.read_bytes(), 7)[2]
    (entry,) = Evidence(content).entries
    assert entry.granule == 5
    assert entry.shown[0].operations == (Put("t", (5, 1)),)
    assert entry.original[0].operations == (Put("t", (5, 5)),)
    for wrong in (
        content[:-1],
        content + b"\0",
        b"x" + content[1:],
        content[:-46] + b"\2" + content[-45:],
    ):
        with pytest.raises(FormatError):
            Evidence(wrong)


# ---- tables, dumps, differences


@pytest.fixture
def history(tmp_path):
    """A store with a history, and the connection that wrote it is closed."""
    path = str(tmp_path / "h")
    dragoon.make(path, 7, program=PROGRAM)
    with dragoon.connect(store=path, program=PROGRAM, scripted=True) as db:
        db.create("t", {"k": int, "v": str})
        db.create("u", {"k": bytes, "v": bool})
        for moment in range(10, 400, 7):
            db.now(moment)
            with db.session() as s:
                key = moment % 5
                (s.update if s.get("t", key) else s.insert)("t", key, f"it's {moment}")
                if moment % 3 == 0 and s.get("t", 1):
                    s.delete("t", 1)
            if moment % 2:
                db.insert("u", bytes([moment % 256]), moment % 4 == 1)
    return path


@needs_program
def test_tables_are_those_of_the_program(history):
    store = Store.read(history)
    with dragoon.connect(store=history, program=PROGRAM, scripted=True) as db:
        for moment in [*range(0, 400, 13), None]:
            found, misfits = tables.tables_of(store, moment)
            for name in ("t", "u"):
                rows = [tuple(it) for it in db.scan(name, as_of=moment)]
                assert not misfits and sorted(found[name].rows.values()) == rows
        for key, versions in tables.versions_of(store, "t").items():
            assert versions == db.history("t", key).all()


@needs_program
def test_a_dump_makes_the_store_anew(tmp_path, history):
    anew = tmp_path / "anew"
    anew.write_bytes(Path(history).read_bytes()[:64] + b"\0")
    lines = list(tables.statements(Store.read(history)))
    run(f"store={anew}", "run", 7, "scripted", given="\n".join([*lines, ""]), expect=0)
    assert anew.read_bytes() == Path(history).read_bytes()
    parts = [[*tables.statements(Store.read(history), *it)] for it in ((0, 200), (201, None))]
    assert parts[0] + parts[1] == lines


LEFT = [  # what no honest writer leaves, after a table `t k int`; why a dump has it as a comment
    (txn(2, 0, ROW, ROW.replace(b"t", b"u")), "an operation doesn't fit the tables (NoTable)"),
    (txn(2, 0, damaged.put("t", "x")), "an operation doesn't fit the tables (BadType 1)"),
    (txn(2, 0, damaged.put("t", None)), "an operation doesn't fit the tables (NullKey)"),
    (txn(2, 0, damaged.put("t", 1, 2)), "an operation doesn't fit the tables (BadCount)"),
    (txn(2, 0, damaged.remove("t", True)), "an operation doesn't fit the tables (NoRow)"),
    (txn(2, 0, damaged.create("t", ("k", 1))), "an operation doesn't fit the tables (TableExists)"),
    (
        txn(2, 0, damaged.create("w", ("k", 1), ("k", 1))),
        "an operation doesn't fit the tables (Syntax)",
    ),
    (
        txn(2, 0, damaged.create("w", ("k", 2)), damaged.put("w", "\n")),
        "no statement can spell its text",
    ),
    (txn(3, 0, ROW), "its number isn't 2"),
    (txn(2, 60 << 20, ROW), "its moment is too late"),
]


@pytest.mark.parametrize("item, why", LEFT, ids=range(len(LEFT)))
def test_what_no_statement_stores(item, why):
    store = Store(laid(HEAD, [txn(1, 0, damaged.create("t", ("k", 1))), item]))
    lines = list(tables.statements(store))
    assert lines[:2] == ["now 0", "create t k int"] and lines[2].endswith(f": {why}")
    assert all(it.startswith("# ") and "\n" not in it for it in lines[2:])


def row(number, moment, key, value="a"):
    return txn(number, moment, damaged.put("t", key, value))


FIRST = [txn(1, 0, damaged.create("t", ("k", 1), ("v", 2)))]
FIRST += (row(at, 60 * at, at) for at in range(2, 6))
LATER, POLICY = row(6, 400, 6), damaged.policy(1, 8, 2, 1)
OTHERS = [*FIRST[:3], row(4, 240, 4, "b"), FIRST[4]]
ONE_IN_3 = "1 of 6 transactions differ, in granule 3"
DIFFERENT = [  # items of the store and of its copy; the last line; how many it has since; and a line before it
    (FIRST, FIRST, "0 of 5 transactions differ", 0, None),
    ([*FIRST, LATER], FIRST, "0 of 5 transactions differ", 1, None),
    ([*FIRST, row(6, 200, 6)], FIRST, ONE_IN_3, 0, "    copy  has none"),
    (FIRST, [*FIRST, row(6, 200, 6)], ONE_IN_3, 0, "    store has none"),
    (
        OTHERS,
        FIRST,
        "1 of 5 transactions differ, in granule 4",
        0,
        "        v: 'b' in the store, 'a' in the copy",
    ),
    (
        [*FIRST[:2], *FIRST[3:]],
        FIRST,
        "1 of 5 transactions differ, in granule 3",
        0,
        "    store has none",
    ),
    ([*FIRST, FIRST[2]], FIRST, ONE_IN_3, 0, "    copy  has none"),
    (
        [*FIRST[:4], row(5, 300, 5, "b")],
        FIRST,
        "1 of 5 transactions differ, in granule 5",
        0,
        "transaction 5",
    ),
    (
        [*FIRST[:3], FIRST[4], FIRST[3]],
        FIRST,
        "0 of 5 transactions differ",
        0,
        "what both have is in another order",
    ),
    ([*FIRST, damaged.frontier(480)], FIRST, "0 of 5 transactions differ", 0, None),
    (
        [*FIRST[:2], damaged.frontier(150), *FIRST[2:]],
        FIRST,
        "0 of 5 transactions differ",
        0,
        "Frontier: moment 150, 1970-01-01 00:02:30 UTC, in the store alone",
    ),
    ([*FIRST, POLICY], FIRST, "0 of 5 transactions differ", 0, None),
    (
        FIRST,
        [*FIRST, POLICY],
        "0 of 5 transactions differ",
        0,
        "policy: from tile 1 on, in the copy alone",
    ),
]


@pytest.mark.parametrize("ours, theirs, summary, since, line", DIFFERENT)
def test_difference(ours, theirs, summary, since, line):
    found = look.Difference(Store(laid(HEAD, ours)), Store(laid(HEAD, theirs)))
    assert found.summary() == f"{summary}; the store has {since} more since"
    assert line in found.lines if line else not found.lines


def test_difference_of_a_granule():
    store, copy = Store(laid(HEAD, [*FIRST[:3], row(4, 240, 9)])), Store(laid(HEAD, FIRST))
    found = {it: look.Difference(store, copy, it).summary() for it in (2, 4, 9)}
    assert found[2].startswith("0 of 1 transaction differ;")
    assert found[4].startswith("1 of 1 transaction differ, in granule 4;")
    assert found[9].startswith("no transaction of granule 9 was compared")


# ---- what is said of files


@needs_program
def test_look(made):
    found = look.look(Store.read(str(made[0])), Book.read(str(made[1])))
    assert found["tables"] == {"t": {"rows": 8, "columns": {"k": "int", "v": "int"}}}
    assert found["book"]["tiles_sealed"] == 1 and not found["trailing"]
    text = "\n".join(look.lines_of(found))
    assert "1 tile, before moment 480" in text and "clean 1" in text and "8 rows: k int" in text


def test_sound_files_have_no_alarm():
    """Whatever an honest writer does, nothing but a notice of the format is found."""
    for seed in range(40):
        it = damaged.sound(seed)
        store = laid(it.head(), it.items, it.format == 2)
        book = laid(damaged.BOOK_HEAD, it.filings(), False)
        *found, last = findings(store, [book] * (seed % 4 + 1), it.id, it.epoch + it.now)
        first = "" if it.batches else "notice no-book"
        assert all(
            line.startswith(("notice format-1", first or "notice format-1")) for line in found
        )
        assert verify.compare(store, book, it.id).verdict.startswith(("clean", "unsealed"))


def test_each_finding_is_made():
    """The damaged pairs reach all of them."""
    found = set()
    for seed in range(400):
        it = damaged.damaged(seed)
        found |= {line.split(" ")[1] for line in findings(it.store, it.books, it.id, it.clock)[:-1]}
    assert found == set(NAMES)


@pytest.mark.parametrize("module", [formats, look, tables])
def test_examples_of_docstrings(module):
    assert not doctest.testmod(module).failed
