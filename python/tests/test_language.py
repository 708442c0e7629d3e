"""Spelling and reading, as tables. No program is needed."""
import enum

import pytest

from dragoon import errors, language
from dragoon.language import Span, Verdict
from dragoon.transport import Lines


class Colour(enum.IntEnum):
    RED = 3


SPELLED = {  # what a statement says, and the value; all but the last two are read back
    "0": 0,
    "-9223372036854775808": -(1 << 63),
    "true": True,
    "false": False,
    "null": None,
    "''": "",
    "'it''s'": "it's",
    "'x''27'''": "x'27'",
    "'é 漢\u200b\x85'": "é 漢\u200b\x85",
    "x''": b"",
    "x'0027ff'": b"\x00'\xff",
    "x'61'": bytearray(b"a"),
    "3": Colour.RED,
}


@pytest.mark.parametrize("spelled, value", SPELLED.items())
def test_a_value_there_and_back(spelled, value):
    assert language.literal(value) == spelled
    (found,) = language.values(spelled)
    assert found == value and type(found) in (type(value), int, bytes)


def test_values_of_a_line():
    found = language.values("5 'a\nb' 'rows 3' x'00' true null")
    assert found == (5, "a\nb", "rows 3", b"\0", True, None)
    with pytest.raises(ValueError, match="no value begins at 'rows"):
        language.values("5 rows")


VERDICTS = {
    "unsealed": Verdict("unsealed"),
    "clean 0": Verdict("clean", 0),
    "altered 9 from 4": Verdict("altered", 9, 4),
    "header altered 2": Verdict("header altered", 2),
    "altered 9": None,
    "clean 0 from 3": None,
    "all is well": None,
}


@pytest.mark.parametrize("text, verdict", VERDICTS.items())
def test_verdict(text, verdict):
    if verdict is None:
        with pytest.raises(ValueError, match="no verdict"):
            language.verdict(text)
    else:
        found = language.verdict(text)
        assert (found, str(found), found.is_altered) == (verdict, text, "altered" in text)


REPORTS = [  # a report; its spans; the first change
    ("report a3d id 7 tiles 0 unsealed\n", (), None),
    ("report mono id 7 tiles 2 header altered\nevery granule of tiles 0 to 1\n", (), None),
    ("report mono id 7 tiles 0 header altered\n", (), None),
    (
        "report tiled id 7 tiles 1 altered\ntile 0 target 101 candidates 5 7 when 480 to 500\n"
        "first change in tile 0 when 480 to 500\ndiagram\n         480 N\n         500 X\n",
        (Span((5, 7), 480, 500, 0),),
        (0, (480, 500)),
    ),
    (
        "report a3d id 7 era 1 tiles 9 altered\ngranule 5 when 1 to 2\ngranule 9 when 1 to 2\n"
        "checks 12\nfirst change in tile 1 when 1 to 2\ndiagram left out\n",
        (Span((5,), 1, 2), Span((9,), 1, 2)),
        (1, (1, 2)),
    ),
    (
        "report mono id 7 tiles 8 altered\ntiles 5 to 7 granules 5 to 7 when 480 to 510\n"
        "first change in tile 5 when 480 to 500\ndiagram\n"
        "         500 vvvvvx??\n         510 .....XXX\n",
        (Span((5, 6, 7), 480, 510),),
        (5, (480, 500)),
    ),
]


@pytest.mark.parametrize("text, spans, first", REPORTS)
def test_report(text, spans, first):
    found, given = language.report(text), text.splitlines()
    assert found.spans == spans
    assert first == (None if found.first_tile is None else (found.first_tile, found.first_span))
    ends = [language.report_ends(given[0], it, count) for count, it in enumerate(given, 1)]
    assert ends == [False] * (len(given) - 1) + [True]


NO_REPORTS = [
    "report b3d id 7 tiles 2 altered\n",
    "report a3d id x tiles 2 altered\n",
    "report mono id 7 tiles 2 altered\ndiagram\n  480 NL\n",
    "report mono id 7 tiles 2 altered\ndiagram\n  NN\n",
]


@pytest.mark.parametrize("text", NO_REPORTS)
def test_no_report(text):
    with pytest.raises(ValueError, match="begins no report|diagram is none"):
        language.report(text)


REFUSALS = {
    "refused Conflict 3": (errors.Conflict, "3"),
    "refused BadType 2 # in words": (errors.BadType, "2"),
    "refused SealMissing cum 4": (errors.SealMissing, "cum 4"),
    "refused Newer 1": (errors.Refused, "1"),
}


@pytest.mark.parametrize("reply, kind", REFUSALS.items())
def test_refusal(reply, kind):
    found = errors.refusal(reply, "a line")
    assert (type(found), found.detail) == kind and "a line" in str(found)


def test_each_refusal_has_a_reason():
    for it in errors.BY_NAME.values():
        assert (
            it.__doc__ and it.__doc__[0] in "`abcdefghijklmnopqrstuvwxyz" and "\n" not in it.__doc__
        )


PIECES = [  # what comes, piece by piece; the lines
    ([b"ok 1\nok", b" 2\n"], [b"ok 1", b"ok 2"]),
    ([b"row 'a\n", b"\nb'\nok\n"], [b"row 'a\n\nb'", b"ok"]),
    ([b"row 'a''\nb' 'c\n", b"'\n"], [b"row 'a''\nb' 'c\n'"]),
    ([b"refused Busy # the store's\nok\n"], [b"refused Busy # the store's", b"ok"]),
    ([b"ok\nro", b""], [b"ok"]),
    ([b"row 'a\n", b""], []),
]


@pytest.mark.parametrize("pieces, lines", PIECES)
def test_lines(pieces, lines):
    left = iter([*pieces, b""])
    read = Lines(lambda _: next(left, b"")).line
    assert [read() for _ in range(len(lines) + 1)] == [*lines, b""]
