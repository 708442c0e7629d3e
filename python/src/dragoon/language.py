"""The language of a run: how values and statements are spelled, and how replies are read. (docs/COMMANDS.md, Statements and Replies)

Everything that is quoted is quoted here, once. What no statement can spell is an `InvalidStatement`, which is a ValueError. Nothing here knows
of files, pipes or sockets.
"""
from __future__ import annotations

import dataclasses
import re
from dataclasses import dataclass
from typing import Any, Callable, Mapping, NamedTuple, Optional, Sequence, Union

from .errors import InvalidStatement

Value = Union[int, str, bytes, bool, None]
Where = Optional[tuple[str, str, Any]]
COMPARISONS = frozenset(("=", "!=", "<", "<=", ">", ">="))
MOST_COLUMNS, LONGEST_LINE, LAST_MOMENT = 32, 65_536, 1_099_511_627_775
_LEAST, _MOST = -(1 << 63), (1 << 63) - 1
_NAME = re.compile(r"[a-z_][a-z0-9_]{0,31}\Z")
_UNSPELLED = re.compile("[\x00-\x1f\x7f\ud800-\udfff]")


# ---- what is sent


def _int(value: int) -> str:
    if _LEAST <= value <= _MOST:
        return int.__repr__(value)
    raise InvalidStatement(
        f"an int of {value.bit_length() + 1} bits: a store's has 64, with the sign"
    )


def _text(value: str) -> str:
    if not value.isprintable() and (found := _UNSPELLED.search(value)):
        what = "half of a surrogate pair" if ord(found[0]) > 0x7F else "control character"
        raise InvalidStatement(
            f"a text with the {what} U+{ord(found[0]):04X} cannot be spelled: store it as bytes"
        )
    return "'" + (value.replace("'", "''") if "'" in value else value) + "'"


def _bytes(value: bytes) -> str:
    return f"x'{value.hex()}'"


SPELL: dict[type, Callable[[Any], str]] = {
    int: _int,
    str: _text,
    bytes: _bytes,
    bool: lambda value: "true" if value else "false",
    type(None): lambda value: "null",
}


def literal(value: Any) -> str:
    """A value as statements spell it.

    >>> literal("it's"), literal(b"\\0"), literal(None)
    ("'it''s'", "x'00'", 'null')
    """
    spell = SPELL.get(type(value))
    if spell:
        return spell(value)
    for kind in (bool, int, str, bytes):  # subclasses, as of IntEnum
        if isinstance(value, kind):
            return SPELL[kind](kind.__new__(kind, value))
    if isinstance(value, (bytearray, memoryview)):
        return _bytes(bytes(value))
    what = type(value).__name__
    if isinstance(value, float):
        raise InvalidStatement(f"a store has no float, as {value!r}: declare a column of Scale(2)")
    raise InvalidStatement(
        f"a store holds int, str, bytes, bool and None, and no {what}: declare the column's kind"
    )


def is_name(word: Any) -> bool:
    return isinstance(word, str) and _NAME.match(word) is not None


def name(word: Any) -> str:
    """The name of a table or a column, if it is one.

    >>> name("account")
    'account'
    """
    if not is_name(word):
        raise InvalidStatement(
            f"{word!r} is no name: 1 to 32 lower-case letters, digits or _, and no digit first"
        )
    return str(word)


def fits(line: str, values: Sequence[Any] = (None,)) -> str:
    """The line, if it is no longer than a line may be, nor has it too many values."""
    if not 1 <= len(values) <= MOST_COLUMNS:
        raise InvalidStatement(f"a row has 1 to 32 values, and this one {len(values)}")
    if len(line) > LONGEST_LINE // 4 and len(line.encode()) > LONGEST_LINE:
        raise InvalidStatement("a statement takes at most 65,536 bytes: part the value")
    return line


def row_line(verb: str, table: str, values: Sequence[Any]) -> str:
    return fits(f"{verb} {name(table)} {' '.join([literal(it) for it in values])}", values)


def row_values(row: Any) -> Sequence[Any]:
    """The values of a row: a sequence of them, or a dataclass."""
    if type(row) in (tuple, list):
        return row  # type: ignore[no-any-return]
    if dataclasses.is_dataclass(row) and not isinstance(row, type):
        return [getattr(row, it.name) for it in dataclasses.fields(row)]
    if isinstance(row, (str, bytes, Mapping)) or not hasattr(row, "__iter__"):
        raise InvalidStatement(f"{row!r} is no row: a sequence of its values, or a dataclass")
    return list(row)


# ---- what is replied

_TOKEN = re.compile(r"(-?[0-9]+)|'((?:[^']|'')*)'|x'([0-9a-f]*)'|(true|false|null)", re.DOTALL)
_WORDS: dict[str, Value] = {"true": True, "false": False, "null": None}


def values(text: str) -> tuple[Value, ...]:
    """The values of a reply.

    >>> values("5 'it''s' x'00' true null")
    (5, "it's", b'\\x00', True, None)
    """
    found: list[Value] = []
    place, end = 0, len(text)
    while place < end:
        token = _TOKEN.match(text, place)
        if token is None:
            raise ValueError(f"no value begins at {text[place:place + 40]!r}")
        which = token.lastindex
        if which == 1:
            found.append(int(token[1]))
        elif which == 2:
            found.append(token[2].replace("''", "'"))
        elif which == 3:
            found.append(bytes.fromhex(token[3]))
        else:
            found.append(_WORDS[token[4]])
        place = token.end() + 1
    return tuple(found)


def leading_values(text: str) -> tuple[Value, ...]:
    """The values that a part of a statement begins with, up to its next word."""
    place, token = 0, _TOKEN.match(text)
    while token:
        place = token.end() + 1
        token = _TOKEN.match(text, place)
    return values(text[: max(0, place - 1)])


class Version(NamedTuple):
    """A row, and the moments from `start` up to, and not with, `stop`. `stop` is None for the version of now."""

    start: int
    stop: int | None
    row: Any


def version_maker(make: Callable[[tuple[Value, ...]], Any]) -> Callable[[str], Version]:
    """The reader of lines `version START STOP row ..` and `during START STOP row ..`, of that of rows."""

    def version(reply: str) -> Version:
        _, start, stop, _, row = reply.split(" ", 4)
        return Version(int(start), None if stop == "-" else int(stop), make(values(row)))

    return version


VERDICTS = ("unsealed", "clean", "altered", "header altered")


@dataclass(frozen=True)
class Verdict:
    """What a validation says. `name` is unsealed, clean, altered or header altered; `tiles` are sealed; the first bad one is `first_bad`."""

    name: str
    tiles: int = 0
    first_bad: int | None = None

    @property
    def is_altered(self) -> bool:
        return "altered" in self.name

    def __str__(self) -> str:
        bad = "" if self.first_bad is None else f" from {self.first_bad}"
        return self.name if self.name == "unsealed" else f"{self.name} {self.tiles}{bad}"


def verdict(text: str) -> Verdict:
    """The verdict that a reply spells.

    >>> verdict("altered 8 from 5")
    Verdict(name='altered', tiles=8, first_bad=5)
    """
    numbers = [int(word) for word in text.split(" ") if word.isdigit()]
    name = next((it for it in VERDICTS if text.startswith(it)), "")
    found = Verdict(name, *numbers[:2])
    if not name or str(found) != text or (name == "altered") != (len(numbers) == 2):
        raise ValueError(f"{text!r} is no verdict")
    return found


class Span(NamedTuple):
    """What is altered, and between which clock seconds it was. `candidates` are of the algorithm `tiled` alone."""

    granules: tuple[int, ...]
    since: int
    until: int
    tile: int | None = None


@dataclass(frozen=True)
class Report:
    """An analysis. `text` is the whole of it, as the program prints it."""

    algorithm: str
    id: int
    tiles: int
    verdict: str
    spans: tuple[Span, ...]
    first_tile: int | None
    first_span: tuple[int, int] | None
    diagram: tuple[str, ...]
    text: str
    era: int | None = None

    @property
    def granules(self) -> tuple[int, ...]:
        """The granules that are named, ascending. Of `tiled` they are candidates."""
        return tuple(sorted({granule for span in self.spans for granule in span.granules}))


_REPORT = re.compile(
    r"report (mono|tiled|a3d) id (\d+)(?: era (\d+))? tiles (\d+) (unsealed|clean|altered|header altered)"
)
_LINES = {
    "mono": re.compile(r"tiles \d+ to \d+ granules (\d{1,7}) to (\d{1,7}) when (\d+) to (\d+)"),
    "tiled": re.compile(r"tile (\d+) target [01-]+ candidates ([\d ]+|none) when (\d+) to (\d+)"),
    "a3d": re.compile(r"granule (\d+) when (\d+) to (\d+)"),
}
_DIAGRAM = re.compile(r" *\d+ [Nvx?HX.]+")
_FIRST = re.compile(r"first change in tile (\d+) when (\d+) to (\d+)")


def _head(first: str) -> "re.Match[str]":
    head = _REPORT.fullmatch(first)
    if head is None:
        raise ValueError(f"{first[:40]!r} begins no report")
    return head


def report_ends(first: str, last: str, count: int) -> bool:
    """Whether a report that begins with one line, and has so many up to another one, is whole."""
    head = _head(first)
    if head[5] == "altered":
        # the diagram's last line is that of the analysis, the only one with an X
        return last == "diagram left out" or last[:1] in " 0123456789" and "X" in last
    return count == (2 if head[5] == "header altered" and head[4] != "0" else 1)


def report(text: str) -> Report:
    lines = text.splitlines() or [""]
    head = _head(lines[0])
    spans: list[Span] = []
    for found in filter(None, map(_LINES[head[1]].fullmatch, lines[1:])):
        numbers = found.groups()
        since, until = int(numbers[-2]), int(numbers[-1])
        if head[1] == "mono":
            spans.append(Span(tuple(range(int(numbers[0]), int(numbers[1]) + 1)), since, until))
        elif head[1] == "tiled":
            named = () if numbers[1] == "none" else tuple(map(int, numbers[1].split()))
            spans.append(Span(named, since, until, int(numbers[0])))
        else:
            spans.append(Span((int(numbers[0]),), since, until))
    first = next(filter(None, map(_FIRST.fullmatch, lines)), None)
    diagram = tuple(lines[lines.index("diagram") + 1 :]) if "diagram" in lines else ()
    if not all(map(_DIAGRAM.fullmatch, diagram)):
        raise ValueError("a line of the report's diagram is none")
    number, span = None, None
    if first:
        number, span = int(first[1]), (int(first[2]), int(first[3]))
    era, numbered = int(head[3]) if head[3] else None, (int(head[2]), int(head[4]))
    return Report(head[1], *numbered, head[5], tuple(spans), number, span, diagram, text, era)
