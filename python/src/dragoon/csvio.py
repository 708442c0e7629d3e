"""CSV into a table, and a table into CSV.

A kind that is not named is found: int if each field is a number as it would be printed, bool if each is `true` or `false`, else text. An empty
field is null. The other kinds are named: `utf8` (a text as bytes), `bytes` (hexadecimal), `scale 2` (an amount as whole units: 12.50 is 1250), `date
%d.%m.%Y` (a day as an int: 20261231). What a person should look at is a note; what cannot be stored is refused with its row, and nothing is
stored then.

>>> sheet = read("Id No,Wert\\n1,12.50\\n2,\\n", kinds={"wert": "scale 2"})
>>> sheet.columns, sheet.rows
([('id_no', 'int'), ('wert', 'int')], [(1, 1250), (2, None)])
>>> sheet.notes
['row 1: the columns are named id_no, wert']
"""
from __future__ import annotations

import csv
import datetime
import io
import re
import time
import unicodedata
from decimal import Decimal
from itertools import islice
from typing import Any, Callable, Iterator, Mapping, NamedTuple, Sequence

from . import language
from .database import Database, Loaded
from .errors import Error, InvalidStatement, Refused, TableExists
from .formats import Store
from .language import Value, Version
from .loading import batches
from .tables import tables_of, versions_of

csv.field_size_limit(1 << 26)
Rows = list[tuple[int, list[str]]]  # the rows of a file with their numbers
Fields = Sequence[tuple[int, str]]  # the fields of a column, with the same


class CsvError(Error):
    """A CSV that cannot be taken, and where."""


class Sheet(NamedTuple):
    """A table that was read: its columns with their kinds, the key first, its rows, their numbers in the file, and notes."""

    columns: list[tuple[str, str]]
    rows: list[tuple[Value, ...]]
    numbers: list[int]
    notes: list[str]


# ---- what files, texts and columns look like, and what there is to do

FRONTS = [  # how files begin that are no CSV
    (rb".DRAG(OON|BOK)", "a store or a book: csv-out makes a CSV of a store's table"),
    (rb"\0\0(\xfe\xff|\0[^\0\n])", "UTF-32: `iconv -f UTF-32BE -t UTF-8` makes UTF-8 of it"),
    (rb"\xff\xfe\0\0|[^\0]\0{3}[^\0]", "UTF-32: `iconv -f UTF-32LE -t UTF-8` makes UTF-8 of it"),
    (rb"\xff\xfe|[^\0]\0", "UTF-16: `iconv -f UTF-16LE -t UTF-8` makes UTF-8 of it"),
    (rb"\xfe\xff|\0[^\0]", "UTF-16: `iconv -f UTF-16BE -t UTF-8` makes UTF-8 of it"),
    (rb"\0", "bytes 0x00, as a crash may leave of a file: look for a whole one"),
    (rb"PK\x03\x04", "a spreadsheet or another archive: save it as CSV, or unpack it"),
    (rb"\xd0\xcf\x11", "a spreadsheet: save it as CSV"),
    (rb"\x1f\x8b|BZh[0-9]|\xfd7zXZ|[(]\xb5/\xfd", "compressed: unpack it first"),
    (rb"%PDF-", "a PDF, and no CSV"),
    (rb"\s*<(!doctype|html|\?xml)\b", "a page of HTML or XML, and no CSV"),
    (rb"\s*[\[{]\s*[\[{\"]", "JSON, and no CSV"),
    (rb"sep=.\r?\n", "for Excel in its line `sep=`: take that out, and say --delimiter"),
]
SPOILED = [  # what an earlier conversion leaves in a text, and what of one cannot be seen
    ("\ufffd", "U+FFFD: a conversion has lost a letter there"),
    ("[\x80-\x9f]", "U+0080 to U+009F: of a file from Windows `iconv -f CP1252` makes better ones"),
    (r"^[\s\u00ad\u200b-\u200f\u2060-\u2064\u2800\u3164\ufeff]+$", "no letter that can be seen"),
    ("[\u200b\u202a-\u202e\u2066-\u2069]", "a letter that cannot be seen, or turns others round"),
    ("[\u00c2-\u00f4][\u0080-\u00bf\u0152-\u2122]", "UTF-8 that was taken for Latin letters"),
]
FRACTION = r"(?=.*[0-9])[+-]?([0-9]+|[0-9]{1,3}([.,' _][0-9]{3})+)?([.,][0-9]+)?"
DAY = r"[0-9]{1,2}[./-][0-9]{1,2}[./-]([0-9]{2}|[0-9]{4})([ T].*)?"
MONTH = r"([a-z]{3,9},? )?[0-9]{1,2}[. /-]{1,2}[a-z]{3,9}[. ,/-]{1,2}[0-9]{2,4}([ T].*)?"
UNIT = r"(?=.*[^0-9.,' +-])[+-]?[^0-9a-z]? ?[+-]?[0-9][0-9.,' ]* ?([^0-9a-z]|[a-z]{3})?"
# what all fields of a column look like that becomes text; the first one that fits is said
LOOKS = [
    ("true|false", "`true` in capitals stays text: --kind {0}=bool takes it"),
    ("yes|no|y|n|t|f|on|off", "words stay text: as `true` and `false` they would be bool"),
    (DAY, "dates stay text: --date {0}=%d.%m.%Y, or as they are written, makes ints of days"),
    (MONTH, "dates stay text: --date {0}='%d %b %Y', or as they are written, makes ints of days"),
    ("[a-z]{3,9}[.]? [0-9]{1,2},? [0-9]{4}.*", "dates stay text: see --date {0}='%b %d, %Y'"),
    ("[0-9]{4}([./-][0-9]{1,2}){2}([ T].*)?", "dates stay text: --date {0}=%Y-%m-%d makes ints"),
    ("[0-9]{1,2}(:[0-9]{2}){1,2}([.,][0-9]+)?( ?[ap][.]?m[.]?)?", "times of day stay text"),
    ("[+-]?[0-9]{1,3}([.,' _][0-9]{3})+", "grouped numbers stay text: --scale {0}=0 takes them"),
    (FRACTION, "numbers with a fraction stay text: --scale {0}=2 makes whole cents of them"),
    (FRACTION + "(e[+-]?[0-9]+)?", "numbers with an exponent stay text: an int has digits alone"),
    (r"(0|\\)x([0-9a-f]+)?", "hexadecimal stays text: --kind {0}=bytes takes it without 0x or \\x"),
    (" *[+-]?[0-9]+ *", "whole numbers stay text, since blanks are beside some: take these out"),
    (UNIT, "numbers with a sign or a unit beside them stay text: take these out"),
    ("'.*'", "MySQL's quotes are round each text, and are part of it: take them out"),
    ("'.*", "a spreadsheet's mark `'` is before each text, and is part of it: take it out"),
    ('=".*"', 'each text is in `="` and `"`, as Excel takes a formula, and these are part of it'),
]
WHOLE = "[+-]?[0-9]+"
NO_VALUES = r"null|\(null\)|\[null\]|\\N|#?n/a|NA|None|NaN|#[A-Z/0]+[!?]|###+|Err:[0-9]+"
SIGNS = ((";", "';'"), ("\t", "tab"), ("|", "'|'"), (",", "','"))


def _fits(pattern: str, field: str) -> bool:
    return re.fullmatch(pattern, field, re.IGNORECASE) is not None


# ---- fields as values

Take = Callable[[str], Value]


def _day(form: str, field: str) -> Value:
    found = datetime.datetime.strptime(field, form)
    if found.time() != datetime.time() or found.tzinfo:
        raise ValueError("it is more than a day")
    return found.year * 10_000 + found.month * 100 + found.day


def _amounts(places: int, fields: Sequence[str]) -> dict[str, Value]:
    """The whole units of the amounts of a column, by the one sign that can begin their fractions."""
    found: list[dict[str, Value]] = []
    fraction = f"[0-9]{{1,{places}}}" if places else "(?!)"
    for sign, groups in ((".", ",'_ "), (",", ".'_ ")):
        grouped = rf"[1-9][0-9]{{0,2}}([{groups}\u00a0\u202f])[0-9]{{3}}(?:\3[0-9]{{3}})*"
        form = re.compile(rf"([+-]?)([0-9]+|{grouped})(?:[{sign}]({fraction}))?")
        taken = [it for it in map(form.fullmatch, fields) if it]
        if len(taken) == len(fields) and len({it[3] for it in taken if it[3]}) <= 1:
            units = (re.sub("[^0-9]", "", it[2]) + (it[4] or "").ljust(places, "0") for it in taken)
            found.append({it[0]: int(it[1] + unit) for it, unit in zip(taken, units)})
    if not found or found[0] != found[-1]:
        raise ValueError(f"they are no amounts of {places} places, or can be read in two ways")
    return found[0]


# of a kind: the store's, how a field is spelled, how it is read, and what another one is
FORMS: dict[str, tuple[str, str, Take, str]] = {
    "int": ("int", WHOLE, int, "no whole number"),
    "bool": ("bool", "(?i:true|false)", lambda it: it.lower() == "true", "neither true nor false"),
    "bytes": ("bytes", "([0-9a-fA-F]{2})*", bytes.fromhex, "no even number of hexadecimal digits"),
    "text": ("text", "(?s:.*)", str, ""),
    "utf8": ("bytes", "(?s:.*)", str.encode, ""),
}


def stored(kind: str, fields: Sequence[str] = ()) -> tuple[str, Take]:
    """The store's kind of a kind, and how these fields of a column become values."""
    word, _, form = kind.partition(" ")
    if word == "scale" and form.isdigit() and int(form) <= 18:
        return "int", _amounts(int(form), fields).__getitem__
    if word == "date" and form:
        return "int", lambda field: _day(form, field)
    if kind not in FORMS:
        raise ValueError(f"{kind} is no kind: int, text, bool, bytes, utf8, a scale or a date")
    stands, pattern, convert, other = FORMS[kind]

    def take(field: str) -> Value:
        if not re.fullmatch(pattern, field):
            raise ValueError(f"it is {other}")
        return convert(field)

    return stands, take


# ---- notes


def looks(name: str, fields: Sequence[str]) -> str | None:
    """What the fields of a column look like that becomes text, or None."""
    fields = [re.sub("[\u00a0\u202f]", " ", field) for field in fields]
    others = [field for field in fields if not _fits(WHOLE, field)]
    if not others:
        if any(not -(1 << 63) <= int(field[:99]) < 1 << 63 for field in fields):
            return "whole numbers stay text, since some are wider than 64 bits"
        return f"numbers with `+` or zeros before them stay text: --kind {name}=int drops these"
    for pattern, note in LOOKS:
        if all(_fits(pattern, field) for field in fields):
            return note.format(name)
    count = f"it stays text, since {len(others)} of {len(fields)} fields"
    if len(others) < len(fields):
        return f"{count} are no whole numbers, as {others[0][:20]!r}"
    if all(any(_fits(pattern, field) for pattern, _ in LOOKS) for field in fields):
        return f"it stays text, since its fields are of several forms, as {fields[0][:20]!r}"
    for pattern, _ in LOOKS[2:]:
        others = list(islice((field for field in fields if not _fits(pattern, field)), 2))
        if len(others) == 1 and len(fields) > 2:
            return f"it stays text, since 1 of {len(fields)} is not like the others, {others[0][:20]!r}"
    return None


def notes_of_file(text: str, heading: list[str], rows: Rows, delimiter: str) -> Iterator[str]:
    every = [(1, heading), *rows]
    if not text.endswith(("\n", "\r")):
        yield "the last row has no line end: if the file was cut off, look at it"
    if any(re.search("[0-9]", it) and not re.search(r"[^\W\d_]", it) for it in heading):
        yield "row 1 is taken as the heading, and looks like a row: a file without one needs one"
    for at, row in rows:
        if [row[0].lstrip("\ufeff"), *row[1:]] == heading:
            yield f"row {at} is the heading again: were files put together?"
            break
    for at, field in ((at, it) for at, row in every for it in row if re.match(r'\s+"', it)):
        yield f"row {at}: a blank is before the quote in {field[:40]!r}, so quotes are part of it"
        break
    for sign, name in SIGNS if rows and (len(heading) == 1 or delimiter == ",") else ():
        counts = {sum(field.count(sign) for field in row) for _, row in every[len(heading) == 1 :]}
        if len(counts) == 1 and counts != {0}:
            yield f"each row has {name} in its fields: if fields end there, --delimiter {name} cuts"


def notes_of_column(name: str, fields: Fields, kind: str, is_found: bool) -> Iterator[str]:
    said = [field for _, field in fields if field]
    note = looks(name, said) if is_found and kind == "text" and said else None
    if note:
        yield f"column {name}: {note}"
    if is_found and fields and not said:
        yield f"column {name} is empty, and becomes text: --kind {name}=KIND says otherwise"
    if kind not in ("text", "utf8"):
        return
    empty = next((field for field in said if _fits(NO_VALUES, field)), None)
    if empty and repr(empty) not in (note or ""):
        yield f"column {name}: {empty!r} goes in as a text: an empty field is null"
    for pattern, what in SPOILED:
        found = next(((at, it) for at, it in fields if re.search(pattern, it)), None)
        if found:
            yield f"row {found[0]}, column {name}: {found[1][:40]!r} has {what}"


# ---- in


def text_of(content: str | bytes) -> str:
    """The text of a file, if it is one of text in UTF-8."""
    if isinstance(content, str):
        return content.lstrip("\ufeff")
    for front, what in FRONTS:
        if re.match(front, content, re.IGNORECASE | re.DOTALL):
            raise CsvError(f"this is {what}")
    try:
        return content.decode("utf-8-sig")
    except UnicodeDecodeError as why:
        line = content.count(b"\n", 0, why.start) + 1
        said = "of a file from Windows `iconv -f CP1252 -t UTF-8` makes it"
        raise CsvError(f"line {line} is no UTF-8: {said}") from None


def rows_of(text: str, delimiter: str) -> tuple[list[str], Rows]:
    """The heading, and the rows with their numbers. Empty lines are passed over."""
    try:
        reader = csv.reader(io.StringIO(text, newline=""), delimiter=delimiter, strict=True)
        rows = [(at, row) for at, row in enumerate(reader, 1) if row]
    except csv.Error as why:
        raise CsvError(f"line {reader.line_num}: {why}") from None
    except TypeError as why:
        raise CsvError(str(why)) from None
    if not rows:
        raise CsvError("it is empty: a heading is needed")
    heading = rows[0][1]
    signs = [name for sign, name in SIGNS if len(heading) == 1 and sign in heading[0]]
    if signs:
        raise CsvError(f"row 1 is one column with {signs[0]} in its name: --delimiter {signs[0]}")
    for at, row in rows:
        if len(row) != len(heading):
            dos = ": take out the Ctrl-Z (0x1a) of DOS" if row == ["\x1a"] else ""
            raise CsvError(f"row {at}: {len(row)} fields for {len(heading)} columns{dos}")
    return heading, rows[1:]


def names_of(heading: Sequence[str]) -> list[str]:
    """For each column of a heading a name that a table takes, and that is there once.

    >>> names_of(["Id No", "\u00c4rger", "", "2nd", "id no"])
    ['id_no', 'arger', 'column_3', 'c_2nd', 'id_no_5']
    """
    names: list[str] = []
    for number, word in enumerate(heading, 1):
        plain = unicodedata.normalize("NFKD", word).encode("ascii", "ignore").decode().lower()
        plain = word if re.fullmatch("[a-z_][a-z0-9_]*", word) else plain
        plain = re.sub("[^a-z0-9_]+", "_", plain).strip("_" if plain != word else "")
        plain = (plain or f"column_{number}")[:32]
        name = plain = plain if not plain[0].isdigit() else f"c_{plain}"[:32]
        while name in names:
            name, number = f"{plain[:25]}_{number}", number + 1
        names.append(name)
    return names


def read(
    content: str | bytes,
    key: str | None = None,
    kinds: Mapping[str, str] | None = None,
    names: list[str] | None = None,
    delimiter: str = ",",
    empty_text: bool = False,
    like: Sequence[tuple[str, str]] = (),
) -> Sheet:
    """Reads a CSV with a heading. With `like`, the columns of a table that is there, fields go by name, in its order and by its kinds."""
    text = text_of(content)
    heading, rows = rows_of(text, delimiter)
    notes = list(notes_of_file(text, heading, rows, delimiter))
    kinds, has = kinds or {}, dict(like)
    taken = names_of(heading) if names is None else names
    if names is None and taken != heading:
        notes.append(f"row 1: the columns are named {', '.join(taken)}")
    order = list(has) or sorted(taken, key=lambda it: it != (key or taken[0]))
    _hold_names(heading, taken, [*kinds, *([key] if key else [])], order)
    columns, values = [], []
    for name in order:
        fields = [(at, row[taken.index(name)]) for at, row in rows]
        kind = kinds.get(name) or has.get(name) or _kind([field for _, field in fields if field])
        notes += notes_of_column(name, fields, kind, not has and name not in kinds)
        if has.get(name) == "bytes" and name not in kinds:
            notes.append(f"column {name} is taken as hexadecimal: of texts say --kind {name}=utf8")
        columns.append((name, FORMS[kind][0] if kind in FORMS else "int"))
        values.append(list(_values(name, fields, kind, empty_text)))
        if has and columns[-1][1] != has[name]:
            raise CsvError(f"column {name}: its kind is {has[name]} in the store")
    numbers = [at for at, _ in rows]
    notes += _notes_of_keys(numbers, values[0])
    return Sheet(columns, list(zip(*values)), numbers, notes)


def _values(name: str, fields: Fields, kind: str, empty_text: bool) -> Iterator[Value]:
    place = f"column {name}"
    try:
        stands, take = stored(kind, [field for _, field in fields if field])
        is_text = empty_text and stands in ("text", "bytes")
        for at, field in fields:
            place = f"row {at}, column {name}, {field[:40]!r}"
            value = take(field) if field or is_text else None
            language.literal(value)
            yield value
    except ValueError as why:
        raise CsvError(f"{place}: {why}") from None


def _notes_of_keys(numbers: Sequence[int], keys: Sequence[Value]) -> Iterator[str]:
    """The first two keys that look the same. Two that are the same are refused, and so is none."""
    seen: dict[Value, int] = {}
    plain: dict[str, int] = {}
    alike = []
    for at, key in zip(numbers, keys):
        if key is None:
            raise CsvError(f"row {at} has no key")
        if seen.setdefault(key, at) != at:
            raise CsvError(f"row {at} has the key of row {seen[key]}")
        if isinstance(key, str):
            other = plain.setdefault(unicodedata.normalize("NFC", key.strip()), at)
            alike += [(other, at)] if other != at else []
    if alike:
        yield "rows {} and {}: their keys look the same: see blanks, and accents".format(*alike[0])


def _hold_names(heading: list[str], names: list[str], named: list[str], order: list[str]) -> None:
    if len(names) != len(heading) or not 1 <= len(names) <= language.MOST_COLUMNS:
        count = f"{len(names)} names for {len(heading)} columns"
        raise CsvError(f"{count}, of which a table has 1 to 32")
    for name in names:
        if language.name(name) and names.count(name) > 1:
            raise CsvError(f"column {name} is there twice: --names gives each its own")
    for name in named:
        if name not in names:
            raise CsvError(f"there is no column {name}: the columns are {', '.join(names)}")
    if sorted(order) != sorted(names):
        raise CsvError(f"the table has {', '.join(order)}, and the file {', '.join(names)}")


def _kind(said: Sequence[str]) -> str:
    if said and all(re.fullmatch("0|-?[1-9][0-9]{0,18}", it) for it in said):
        return "int" if all(-(1 << 63) <= int(it) < 1 << 63 for it in said) else "text"
    return "bool" if said and all(it in ("true", "false") for it in said) else "text"


def store(db: Database, table: str, sheet: Sheet, is_there: bool = False) -> Loaded:
    """Stores a sheet in a new table, or in one that is there. It ends at the first row that is refused, as by StoreFull."""
    try:
        if not is_there:
            db.create(table, sheet.columns)
        return db.insert_many(table, sheet.rows)
    except TableExists:
        raise CsvError(f"there is a table {table}: --add stores the rows in it") from None
    except (Refused, InvalidStatement) as why:
        at = "" if why.at is None else f"row {sheet.numbers[why.at]}: "
        raise CsvError(f"{at}{why}; {why.stored} of {len(sheet.rows)} rows are stored") from why


def statements(sheet: Sheet, table: str, is_there: bool = False) -> Iterator[str]:
    """The statements that make the table, in transactions of up to 256 rows."""
    if not is_there:
        columns = " ".join(f"{name} {kind}" for name, kind in sheet.columns)
        yield f"create {language.name(table)} {columns}"
    for batch in batches(f"s0 insert {language.name(table)} ", sheet.rows):
        yield from ["s0 begin", *batch.lines, "s0 commit"]


# ---- out


def write(
    store: Store,
    table: str,
    as_of: int | None = None,
    kinds: Mapping[str, str] | None = None,
    history: bool = False,
) -> str:
    """A table of a store as CSV (RFC 4180), as it is now or at a moment. A null is an empty field, and an empty text is `""`.

    `kinds` are `utf8`, a scale or a date. With `history` it has all versions, each with the moments at which it began and ended.
    """
    if as_of is not None and as_of > max(time.time() - store.header.epoch, store.last_moment):
        raise CsvError(f"moment {as_of} is still to come")
    found = tables_of(store, as_of)[0].get(table)
    if found is None:
        at = "" if as_of is None else f" at moment {as_of}"
        raise CsvError(f"there is no table {table}{at}")
    names, kinds = found.names, kinds or {}
    _hold_names(names, names, list(kinds), names)
    lines = [["start", "stop"] * history + names]
    if history:
        versions = versions_of(store, table)
        every = [it for key in sorted(versions) for it in versions[key]]
    else:
        every = [Version(0, None, found.rows[key]) for key in sorted(found.rows)]
    for start, stop, row in every:
        times = [str(start), "" if stop is None else str(stop)] * history
        fields = (_field(name, kinds.get(name, ""), it) for name, it in zip(names, row))
        lines.append([*times, *fields])
    return "".join(",".join(line) + "\r\n" for line in lines)


def _field(name: str, kind: str, value: Any) -> str:
    """A value as a field. Quotes are round a text that needs them, or is empty."""
    if value is None:
        return ""
    if isinstance(value, bool):
        return str(value).lower()
    word, _, form = kind.partition(" ")
    try:
        if word == "scale":
            return f"{Decimal(f'{int(value)}E-{int(form)}'):f}"
        if word == "date":
            value = datetime.date(value // 10_000, value // 100 % 100, value % 100).strftime(form)
        elif isinstance(value, bytes):
            value = value.decode() if word == "utf8" else value.hex()
    except (ValueError, TypeError) as why:
        raise CsvError(f"column {name}, {value!r}: {why}") from None
    text = str(value)
    if not text or text != text.strip() or re.search('[",\r\n]', text):
        return '"' + text.replace('"', '""') + '"'
    return text
