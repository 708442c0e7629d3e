"""CSV in and out, as tables: what is read, what is noted, what is refused."""
import datetime

import pytest

import dragoon
from conftest import PROGRAM, drill_file, needs_program, run
from dragoon import cli, csvio
from dragoon.csvio import CsvError
from dragoon.formats import Store

READ = [  # the text, options; the columns, the rows
    (
        "id,name,ok\n1,Ada,true\n2,,false\n",
        {},
        "id int name text ok bool",
        [(1, "Ada", True), (2, None, False)],
    ),
    ("name,id\r\nAda,1\r\n\r\n", {"key": "id"}, "id int name text", [(1, "Ada")]),
    ("id;v\n1;7\n", {"delimiter": ";"}, "id int v int", [(1, 7)]),
    ("id,v\n1,+007\n", {"kinds": {"v": "int"}}, "id int v int", [(1, 7)]),
    ("id,v\n1,TRUE\n", {"kinds": {"v": "bool"}}, "id int v bool", [(1, True)]),
    ('id,v\n1,"a\nb"\n', {"kinds": {"v": "utf8"}}, "id int v bytes", [(1, b"a\nb")]),
    ("id,v\n1,00ff\n", {"kinds": {"v": "bytes"}}, "id int v bytes", [(1, b"\0\xff")]),
    ("id,t\n1,\n", {"empty_text": True, "kinds": {"t": "text"}}, "id int t text", [(1, "")]),
    ("\ufeffa,b\n1,2\n", {"names": ["x", "y"]}, "x int y int", [(1, 2)]),
    (
        "v,k\n1,00\n",
        {"like": [("k", "bytes"), ("v", "int")], "kinds": {"k": "utf8"}},
        "k bytes v int",
        [(b"00", 1)],
    ),
    (
        "id,d\n1,31.12.2026\n2,\n",
        {"kinds": {"d": "date %d.%m.%Y"}},
        "id int d int",
        [(1, 20261231), (2, None)],
    ),
]


@pytest.mark.parametrize("text, options, columns, rows", READ)
def test_read(text, options, columns, rows):
    sheet = csvio.read(text.encode(), **options)
    assert (
        " ".join(map(" ".join, sheet.columns)) == columns and sheet.rows == rows and not sheet.notes
    )


SCALES = [  # places, the fields of a column, their whole units; or None if they are refused
    (2, ["1", "-1.5", "+0.05", ".5"], None),
    (2, ["1", "-1.5", "+0.05", "1234.50"], [100, -150, 5, 123450]),
    (2, ["1.234,50", "7"], [123450, 700]),
    (2, ["1,234,567.8"], [123456780]),
    (2, ["1'234.50", "1 234.50"], None),
    (2, ["1\u202f234,5"], [123450]),
    (2, ["1,234"], [123400]),
    (2, ["1,234", "1,5"], None),
    (2, ["0,500"], None),
    (3, ["1,234"], None),
    (3, ["1,234", "0,5"], [1234, 500]),
    (0, ["1,234", "7"], [1234, 7]),
    (2, ["1.005"], [100500]),
    (2, ["12.50 EUR"], None),
    (2, ["1e5"], None),
    (18, ["99"], None),
]


@pytest.mark.parametrize("places, fields, units", SCALES)
def test_scale(places, fields, units):
    text = "id,v\n" + "".join(f'{at},"{field}"\n' for at, field in enumerate(fields))
    if units is None:
        with pytest.raises(CsvError, match="column v|64 bits"):
            csvio.read(text, kinds={"v": f"scale {places}"})
    else:
        rows = csvio.read(text, kinds={"v": f"scale {places}"}).rows
        assert [value for _, value in rows] == units


NOTED = [  # the fields of a column, a word of the only note
    (["TRUE", "False"], "--kind v=bool"),
    (["yes", "No"], "would be bool"),
    (["Dec 31, 2026"], "%b %d, %Y"),
    (["31.12.2026", "1/2/27"], "--date v="),
    (["1 Dec 2026"], "--date v="),
    (["2026-12-31", "2026-12-31 10:00"], "--date v=%Y-%m-%d"),
    (["10:30", "9:15 PM"], "times of day"),
    (["1,234", "1,234,567"], "--scale v=0"),
    (["12,50", "7"], "--scale v=2"),
    (["1e5"], "exponent"),
    (["0x1F", "\\x00ff"], "hexadecimal"),
    (["5 ", "7"], "blanks"),
    (["12 EUR", "$7"], "unit"),
    (["'a'", "'b'"], "MySQL"),
    (["'a", "'b"], "spreadsheet's mark"),
    (['="1"'], "Excel"),
    (["007"], "--kind v=int"),
    (["99999999999999999999", "9" * 5_000], "wider than 64"),
    (["1", "2", "x"], "1 of 3 fields are no whole numbers, as 'x'"),
    (["2026-01-01", "2026-01-02", "soon"], "1 of 3 is not like the others, 'soon'"),
    (["2026-01-01", "12.5"], "several forms"),
    (["NULL", "a"], "'NULL' goes in as a text"),
    (["a", "#REF!"], "'#REF!' goes in as a text"),
    (["", ""], "is empty, and becomes text"),
    (["a\ufffd"], "lost a letter"),
    (["a\x85"], "CP1252"),
    (["\u3164"], "no letter that can be seen"),
    (["a\u202eb"], "turns others round"),
    (["M\u00c3\u00bcller"], "taken for Latin letters"),
    (["M\u00fcller", "caf\u00e9", "\u6f22", "a-b"], None),
]


@pytest.mark.parametrize("fields, note", NOTED)
def test_notes_of_a_column(fields, note):
    text = "id,v\n" + "".join(
        '%d,"%s"\n' % (at, it.replace('"', '""')) for at, it in enumerate(fields)
    )
    notes = csvio.read(text).notes
    assert len(notes) == bool(note) and (not note or note in notes[0]), notes


FILES = [  # the text of a file, a word of a note
    ("id\n1\n2", "no line end"),
    ("Id No,\u00c4rger\n1,2\n", "named id_no, arger"),
    ("1,2\n3,4\n", "looks like a row"),
    ("id,v\n1,a\nid,v\n", "row 3 is the heading again"),
    ('id,v\n1, "a"\n', "row 2: a blank is before the quote"),
    ("id,v\n1;2,a;b\n2;3,c;d\n".replace("id,v", "i;d,v;w"), "each row has ';'"),
    ("k,v\na,1\na ,2\n", "rows 2 and 3: their keys look the same"),
]


@pytest.mark.parametrize("text, note", FILES)
def test_notes_of_a_file(text, note):
    assert note in " ".join(csvio.read(text).notes)


REFUSED = [  # the content, options, words
    (b"", {}, "empty"),
    (b"id,id\n1,2\n", {"names": ["id", "id"]}, "twice"),
    (b"id,v\n1\n", {}, "row 2: 1 fields for 2"),
    (b"id,v\n1,a\n\x1a\n", {}, "Ctrl-Z"),
    (b"id,v\n1,a\n1,b\n", {}, "row 3 has the key of row 2"),
    (b"id,v\n,a\n", {}, "row 2 has no key"),
    (b'id,v\n1,"a\nb"\n', {}, "row 2, column v.*U\\+000A"),
    (b'id,v\n1,"a\n', {}, "line 2: unexpected end"),
    (b"id,v\n1,x\n", {"kinds": {"v": "int"}}, "no whole number"),
    (b"id,v\n1,1_0\n", {"kinds": {"v": "int"}}, "no whole number"),
    (b"id,v\n1,xy\n", {"kinds": {"v": "bytes"}}, "hexadecimal"),
    (b"id,v\n1,yes\n", {"kinds": {"v": "bool"}}, "neither true"),
    (b"id,v\n1,31.12.2026\n", {"kinds": {"v": "date %Y-%m-%d"}}, "row 2, column v"),
    (b"id,v\n1,10:30\n", {"kinds": {"v": "date %H:%M"}}, "more than a day"),
    (b"id,v\n1,2\n", {"kinds": {"v": "float"}}, "float is no kind"),
    (b"id,v\n1,2\n", {"kinds": {"v": "scale x"}}, "no kind"),
    (b"id,v\n1,2\n", {"kinds": {"w": "int"}}, "no column w: the columns are id, v"),
    (b"id,v\n1,2\n", {"key": "w"}, "no column w"),
    (b"id,v\n1,2\n", {"like": [("id", "int")]}, "the table has id, and the file id, v"),
    (
        b"id,v\n1,2\n",
        {"like": [("id", "int"), ("v", "text")], "kinds": {"v": "int"}},
        "text in the store",
    ),
    (b"id,v\n1,2\n", {"names": ["id"]}, "1 names for 2"),
    (b"id,v\n1,2\n", {"names": ["id", "V!"]}, "no name"),
    (b",".join(b"c%d" % at for at in range(33)) + b"\n", {}, "33 names"),
    (b"id;v\n1;2,5\n", {}, "--delimiter ';'"),
    (b"id,v\n1,2\n", {"delimiter": "ab"}, "delimiter"),
    (b"id,v\n1,M\xfcller\n", {}, "line 2 is no UTF-8.*CP1252"),
    (b"\xa7DRAGOON2", {}, "a store"),
    ("id".encode("utf-32-be"), {}, "UTF-32BE"),
    ("id".encode("utf-32-le"), {}, "UTF-32LE"),
    ("id".encode("utf-16"), {}, "UTF-16LE"),
    ("id".encode("utf-16-be"), {}, "UTF-16BE"),
    (bytes(9), {}, "0x00"),
    (b"PK\3\4", {}, "spreadsheet or another"),
    (b"\xd0\xcf\x11\xe0", {}, "spreadsheet: save"),
    (b"\x1f\x8b\x08", {}, "compressed"),
    (b"%PDF-1.4", {}, "PDF"),
    (b"\n<!DOCTYPE html>", {}, "HTML"),
    (b'[{"id": 1}]', {}, "JSON"),
    (b"sep=;\r\nid;v\r\n", {}, "Excel"),
]


@pytest.mark.parametrize("content, options, words", REFUSED)
def test_refused(content, options, words):
    with pytest.raises((CsvError, dragoon.InvalidStatement), match=words):
        csvio.read(content, **options)


CSV = b'k,name,raw,amount,booked\r\n1,"it\'s ""x"", yes",00ff,-12.50,31.12.2026\r\n2,,,,\r\n'
FORMS = ["--kind", "raw=bytes", "--scale", "amount=2", "--date", "booked=%d.%m.%Y"]


@needs_program
def test_there_and_back(tmp_path, monkeypatch, capfdbinary):
    """By the client and by statements; then more rows by name; then each version."""
    monkeypatch.setenv("DRAGOON", PROGRAM)
    store, other, given = str(tmp_path / "s"), str(tmp_path / "o"), tmp_path / "g.csv"
    given.write_bytes(CSV)
    for path in (store, other):
        dragoon.make(path, 7, program=PROGRAM)
    words = ["csv-in", *FORMS, "t", str(given)]
    assert cli.main([*words, "--store", store]) == 0 and cli.main(words) == 0
    lines = capfdbinary.readouterr().out.decode().split("transactions\n")[1]
    assert run(f"store={other}", "run", 7, given=lines, expect=0).splitlines()[-1] == "ok 2"
    for path in (store, other):
        assert cli.main(["csv-out", path, "t", *FORMS[2:]]) == 0
        assert capfdbinary.readouterr().out == CSV
    given.write_text("name,amount,k,booked,raw\nBob,1.5,3,,\n")
    assert cli.main([*words, "--store", store, "--add"]) == 0
    assert cli.main(["csv-out", store, "t", "--history", *FORMS[2:]]) == 0
    assert capfdbinary.readouterr().out.splitlines()[-1].endswith(b",,3,Bob,,1.50,")
    assert cli.main([*words, "--store", store, "--add"]) == 3
    assert b"row 2: RowExists" in capfdbinary.readouterr().err
    assert (
        cli.main([*words, "--like", other]) == 0
        and b"s0 insert t 3" in capfdbinary.readouterr().out
    )
    for more in (["u", "--add"], ["t"], ["u", "--scale", "amount=x"]):
        assert cli.main(["csv-in", *more, str(given), "--store", store]) == 3
        assert capfdbinary.readouterr().err.count(b"dragoonctl: ") == 1


OUT = [  # options of csv-out, words of what is refused
    ({"table": "u"}, "no table u"),
    ({"as_of": 1 << 33}, "still to come"),
    ({"kinds": {"w": "utf8"}}, "no column w"),
    ({"kinds": {"v": "date %Y"}}, "column v, 0"),
    ({"kinds": {"v": "scale x"}}, "column v"),
]


@needs_program
def test_out(tmp_path):
    store = Store.read(str(drill_file(tmp_path / "s", more=["now 430", "update t 7 70"])))
    assert csvio.write(store, "t").splitlines()[-1] == "7,70"
    assert csvio.write(store, "t", 425).splitlines()[-1] == "7,7"
    assert csvio.write(store, "t", history=True).splitlines()[-2:] == ["420,430,7,7", "430,,7,70"]
    for options, words in OUT:
        with pytest.raises(CsvError, match=words):
            csvio.write(store, **{"table": "t", **options})


@needs_program
def test_a_refused_row_ends_the_import(db):
    sheet = csvio.read("id,v\n" + "".join(f"{k},{k}\n" for k in range(600)))
    assert csvio.store(db, "t", sheet).rows == 600
    db.delete_many("t", range(300))
    with pytest.raises(CsvError, match="row 302: RowExists.*256 of 600 rows are stored"):
        csvio.store(db, "t", sheet, is_there=True)
    long = csvio.read("id,v\n1,a\n2," + "x" * 70_000 + "\n")
    with pytest.raises(CsvError, match="row 3: .*65,536.*0 of 2"):
        csvio.store(db, "u", long)
