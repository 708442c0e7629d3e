"""Cases and sealed bundles: what they have, and that each change of a bundle is named."""
import re
import shutil
from pathlib import Path

import pytest

from conftest import PROGRAM, needs_program, put, run
from dragoon.errors import Error

court = pytest.importorskip("dragoon.court")  # needs jinja2
pytestmark = needs_program


@pytest.fixture
def altered(made, tmp_path):
    """A store of which one byte was changed, a copy from before, and the book."""
    store, book = made
    copy = tmp_path / "copy.store"
    shutil.copy(store, copy)
    content = store.read_bytes()
    put(
        store,
        content.index((5).to_bytes(8, "big") + b"\x01" + (5).to_bytes(8, "big")) + 16,
        b"\x09",
    )
    return str(store), str(copy), str(book)


@pytest.fixture
def bundle(altered, tmp_path):
    said, total = court.seal(str(tmp_path / "sealed"), *altered, 7, PROGRAM, "A. Name")
    assert said.endswith("examined 1 confirmed 1\n")
    return tmp_path / "sealed", total


def test_a_bundle_is_judged_by_this_installation(bundle):
    folder, total = bundle
    lines, status = court.sealed(str(folder), total)
    assert status == 0 and lines[-1] == f"SHA-256 of SHA256SUMS {total} is the one that was given"
    page = (folder / "page.html").read_text()
    assert "A. Name" in page and "sha256sum -c" in page and "does not confirm" in page
    assert not any(it.stat().st_mode & 0o222 for it in folder.iterdir())


def resummed(folder, name, content):
    """A file is changed, and all sums with it: what a forger does."""
    for path in (folder, *folder.iterdir()):
        path.chmod(0o755)
    (folder / name).write_bytes(content)
    (folder / court.SUMS).write_text(court.sums_of(folder))


FORGED = [
    ("examined", lambda it: it.replace(b"granule 5", b"granule 3"), "examined is not what"),
    ("page.html", lambda it: it.replace(b"Granule 5", b"Granule 3"), "page.html is not what"),
    ("verified", lambda it: it.replace(b"altered", b"clean"), "verified is not what"),
    ("evidence", lambda it: it[:-1] + b"\1", "evidence is not what"),
    ("store", lambda it: it[:-1], "store is not the file that asked names"),
    ("verify.py", lambda it: b"import os\n", "verify.py is not what"),
    ("check", lambda it: b"echo all is well\n", "check is missing, or no file of a bundle"),
    ("asked", lambda it: b"[]", "it is not what `seal` makes"),
    ("asked", lambda it: it.replace(b'"copy"', b'"cope"'), "it names other files"),
    ("asked", lambda it: re.sub(rb"445", b"444", it), "store is not the file that asked names"),
    *(
        ("asked", lambda it, to=to: it.replace(b'"id": 7', b'"id": ' + to), "it is not what")
        for to in (b'"x"', b"Infinity", b"[" * 100_000)
    ),
]


@pytest.mark.parametrize("name, change, said", FORGED)
def test_a_forged_bundle_is_found_without_its_sum(bundle, name, change, said):
    folder, total = bundle
    there = folder / name
    resummed(folder, name, change(there.read_bytes() if there.exists() else b""))
    lines, status = court.sealed(str(folder), None)
    assert status == 1 and (any(said in it for it in lines)), lines
    assert court.sealed(str(folder), total)[0][0].startswith("SHA256SUMS has the SHA-256")


OF_ANOTHER_VERSION = [  # what a holder of the signing key writes over, beside the version in asked; what is said, and the status
    ({}, "all others are what this installation makes", 0),
    ({"page.html": b"<p>All is well"}, "nothing vouches for page.html: don't open them", 4),
    ({"verify.py": b"print('clean 1')"}, "nothing vouches for verify.py: don't open them", 4),
    ({"page.html": b"", "verify.py": b""}, "nothing vouches for page.html and verify.py", 4),
    ({"page.html": b"", "examined": b""}, "examined is not what this installation makes", 1),
]


@pytest.mark.parametrize("written, said, status", OF_ANOTHER_VERSION)
def test_another_version_is_no_way_to_forge_a_page(bundle, written, said, status):
    folder, _ = bundle
    asked = (folder / "asked").read_bytes().replace(b'"version": "', b'"version": "9')
    for name, content in {"asked": asked, **written}.items():
        resummed(folder, name, content)
    lines, ended = court.sealed(str(folder), court.digest_of(folder / court.SUMS))
    assert ended == status and any(it.startswith(said) for it in lines), lines


def add_check(folder):
    folder.chmod(0o755)
    (folder / "check").write_text("echo all is well\n")


def drop(folder):
    (folder / "book").unlink()


def link(folder):
    drop(folder)
    (folder / "book").symlink_to("/dev/null")


@pytest.mark.parametrize(
    "change, said",
    [
        (add_check, "check is here, and SHA256SUMS does not name it"),
        (drop, "book is missing"),
        (link, "is no plain file"),
        (lambda it: (it / court.SUMS).unlink(), "is no plain file"),
        (lambda it: put_over(it / "verify.py", b"import os\n"), "verify.py is another file"),
    ],
)
def test_what_was_added_or_taken_away_is_named(bundle, change, said):
    folder, _ = bundle
    change(folder)
    lines, status = court.sealed(str(folder), None)
    assert status == 1 and any(said in it for it in lines), lines


def put_over(path, content):
    path.chmod(0o644)
    path.write_bytes(content)


def test_a_case_has_reports_differences_and_sums(altered, tmp_path):
    store, copy, book = altered
    verdict, status, total = court.case(str(tmp_path / "case"), store, book, 7, [copy], PROGRAM)
    folder = tmp_path / "case"
    assert (verdict, status) == ("altered 1 from 0", 1)
    assert total == court.digest_of(folder / court.SUMS)
    assert "granule 5" in (folder / "reports/store.a3d").read_text()
    assert (folder / "reports/copy_1.verify").read_text() == "clean 1\n"
    assert "the copy is clean 1" in (folder / "differs.txt").read_text()
    assert "Granule 5" in (folder / "report.html").read_text()


def test_nothing_is_left_of_a_folder_that_cannot_be_made(altered, tmp_path):
    store, copy, book = altered
    with pytest.raises(Error, match="no evidence can be gathered"):
        court.seal(str(tmp_path / "x"), store, copy, book, 8, PROGRAM)
    with pytest.raises(OSError):
        court.case(str(tmp_path / "x"), store, str(tmp_path / "none"), 7, [], PROGRAM)
    (tmp_path / "there").mkdir()
    with pytest.raises(Error, match="is there already"):
        court.case(str(tmp_path / "there"), store, book, 7, [], PROGRAM)
    assert not (tmp_path / "x").exists() and not list(tmp_path.glob(".*"))
