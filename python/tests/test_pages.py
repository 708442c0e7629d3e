"""Pages: colours, and that what comes from a store is shown and never run."""
import html.parser
import re

import pytest

from conftest import drill_file, needs_program, put, run
from dragoon import cli
from dragoon.errors import Error
from dragoon.formats import Book, Evidence, Store

pages = pytest.importorskip("dragoon.pages")  # needs jinja2
pytestmark = needs_program


class Checked(html.parser.HTMLParser):
    """Reads a page: each element is closed, none loads or runs anything."""

    def __init__(self, text):
        super().__init__()
        self.open, self.text = [], ""
        self.feed(text)
        assert not self.open
        self.colour = re.search('class="verdict (.*?)"', text)[1]

    def handle_starttag(self, tag, attributes):
        names = {name for name, _ in attributes}
        assert tag not in ("script", "img", "link", "iframe")
        assert not names & {"src", "href", "onclick", "onload"}
        self.open += [tag] if tag not in ("meta", "br") else []

    def handle_endtag(self, tag):
        assert self.open.pop() == tag, (tag, self.open)

    def handle_data(self, data):
        if "style" not in self.open:
            self.text += data


def analysed(store, book, algorithm):
    return run(f"store={store}", f"notary={book}", "analyse", 7, *algorithm.split())


def read(store, book):
    return Store.read(str(store)), Book.read(str(book))


REPORTS = [  # an algorithm, whether the store was altered; the colour, and words of the page
    ("a3d", True, "bad", "Granule 5"),
    ("tiled", True, "bad", "candidates 5 7"),
    ("mono", True, "bad", "Granules 0 1"),
    ("a3d", False, "good", "What was filed"),
]


@pytest.mark.parametrize("algorithm, is_altered, colour, words", REPORTS)
def test_reports(made, algorithm, is_altered, colour, words):
    if is_altered:
        put(made[0], 345, b"\1")
    text = pages.report(analysed(*made, algorithm), *read(*made))
    found = Checked(text)
    assert found.colour == colour and words in found.text
    assert "U+000A" not in text  # a line end of the page is none of the store


def test_a_clean_report_over_an_altered_store_is_not_green(made):
    clean = analysed(*made, "a3d")
    put(made[0], 345, b"\1")
    store, book = read(*made)
    found = Checked(pages.report(clean, store, book))
    assert found.colour == "bad" and "cum 0" in found.text
    assert Checked(pages.report(clean, store)).colour == "open"


@pytest.mark.parametrize("is_altered", [False, True])
@pytest.mark.parametrize("has_book", [False, True])
def test_timelines(made, capfd, is_altered, has_book):
    lines = "now 500\nupdate t 5 6\nnow 510\ndelete t 5\nnow 520\ninsert t 5 7\n"
    run(f"store={made[0]}", "run", 7, "scripted", given=lines, expect=0)
    if is_altered:
        put(made[0], 345, b"\1")
    more = ["--book", str(made[1])] if has_book else []
    assert cli.main(["page", "timeline", str(made[0]), "t", "5", *more]) == 0
    text = capfd.readouterr().out
    found = Checked(text)
    assert found.colour == ("open" if not has_book else "bad" if is_altered else "good")
    assert "3 versions. The row is there now." in found.text and text.count('class="bar"') == 3
    with pytest.raises(Error, match="is no key"):
        pages.timeline(Store.read(str(made[0])), "t", "x", None)


def test_evidence(tmp_path, made):
    store, book = made
    copy, target = tmp_path / "copy", tmp_path / "e"
    copy.write_bytes(store.read_bytes())
    put(store, 345, b"\1")
    files = f"store={store}", f"copy={copy}", f"notary={book}", f"target={target}"
    run(*files, "evidence", 7, expect=0)
    found = Checked(pages.evidence(Evidence.read(str(target)), Book.read(str(book))))
    assert found.colour == "bad"
    for words in (
        "1 of 1 granule that the file shows: not what was filed",
        "The store, 1 transaction: another digest was filed",
        "The copy, 1 transaction: this is the digest that was filed",
    ):
        assert words in found.text
    other, others = drill_file(tmp_path / "other", width=30), tmp_path / "b"
    words = f"store={other}", f"notary={others}", "run", 7, "scripted"
    run(*words, given="now 480\nnotarize\n", expect=0)
    text = pages.evidence(Evidence.read(str(target)), Book.read(str(others)))
    assert "Another header" in text


def test_what_a_store_holds_is_never_run(tmp_path):
    row = "<script>alert(1)</script>&lt;\u202e" + "x" * 400
    lines = ["create u k text v text", f"insert u '<b>' '{row}'"]
    text = pages.timeline(Store.read(str(drill_file(tmp_path / "s", more=lines))), "u", "<b>")
    found = Checked(text).text
    assert "<script>alert(1)</script>&lt;" in found and "U+202E" in found and "\u202e" not in text
