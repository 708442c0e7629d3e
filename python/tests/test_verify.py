"""verify.py against the program, and against the reader of `dragoon.formats`, on made and damaged files."""
import random
import shutil
import subprocess
import sys
from pathlib import Path

import pytest

import damaged
from conftest import drill_file, needs_program, put, run
from dragoon import formats, verify

pytestmark = needs_program


@pytest.fixture
def told(capsys):
    """The lines, the status and the notes of verify.py."""

    def call(*words):
        status = verify.main([*map(str, words)])
        said = capsys.readouterr()
        return said.out.splitlines(), status, said.err

    return call


def validated(tmp_path, store, book, id=7):
    """What the program says, over copies: `validate` adds a mark to the book."""
    shutil.copy(book, tmp_path / "kept.book")
    return run(f"store={store}", f"notary={tmp_path / 'kept.book'}", "validate", id).strip()


DAMAGED = [  # place and bytes; the verdict
    (0, b"\xa7", "clean 1"),
    (8, b"1", "clean 1"),
    (9, b"\1", "header altered 1"),
    (30, b"\1", "header altered 1"),
    (50, b"\1", "header altered 1"),
    (135, b"\1", "altered 1 from 0"),
    (220, b"\0", "altered 1 from 0"),
    (221, b"\1", "altered 1 from 0"),
    (0, b"\0", "header altered 1"),
    (430, b"\0", "clean 1"),
    (444, b"\xa7", "clean 1"),
]


@pytest.mark.parametrize("place, data, verdict", DAMAGED)
def test_damaged_stores(tmp_path, told, made, place, data, verdict):
    store, book = made
    put(store, place, data)
    lines, status, _ = told(store, book, 7)
    assert lines[0] == verdict == validated(tmp_path, store, book)
    assert status == ("altered" in verdict)


def test_names_that_differ(told, made):
    put(made[0], 345, b"\1")
    names = "cum 0,tile 0 whole,tile 0 bit 1,node 0 5,node 1 2,node 2 1,node 3 0"
    assert told(*made, 7)[0] == ["altered 1 from 0", *names.split(",")]


OTHER = [  # words; the verdict or None; the status
    (("/dev/null", "BOOK", "7"), "header altered 1", 1),
    (("STORE", "/dev/null", "7"), "unsealed", 0),
    (("STORE", "BOOK", "8"), "unsealed", 0),
    (("STORE", "STORE", "7"), None, 3),
    (("STORE", "/nowhere", "7"), None, 3),
    (("STORE", "/", "7"), None, 3),
    (("STORE", "BOOK"), None, 2),
    (("STORE", "BOOK", "07"), None, 2),
    (("STORE", "BOOK", str(1 << 64)), None, 2),
    (("BOOK", "BOOK", "7"), "header altered 1", 1),
]


@pytest.mark.parametrize("words, verdict, status", OTHER)
def test_other_words(told, made, words, verdict, status):
    named = {"STORE": made[0], "BOOK": made[1]}
    lines, ended, notes = told(*(named.get(it, it) for it in words))
    assert ((lines or [None])[0], ended) == (verdict, status)
    assert bool(notes) == (verdict is None or verdict == "unsealed")


def test_a_copy_runs_alone(tmp_path, made):
    """As the auditor has it: without this package, and without what is installed."""
    shutil.copy(verify.__file__, tmp_path / "v.py")
    words = [sys.executable, "-I", "-S", "-W", "error", tmp_path / "v.py", *made, "7"]
    done = subprocess.run(words, capture_output=True, text=True, cwd=tmp_path)
    assert (done.stdout, done.stderr, done.returncode) == ("clean 1\n", "", 0)
    assert len(Path(verify.__file__).read_text().splitlines()) <= 350


ERAS = [  # the lines that change tiles; how many tiles are sealed then
    (["policy 2 a"], 3),
    (["policy 0 m", "policy 1 ta"], 5),
    (["policy 3 t"], 2),
    (["policy 2 a", "now 720", "insert t 9 9", "notarize", "policy 1 t", "now 960", "notarize"], 4),
]


@pytest.mark.parametrize("algorithms", ["m", "t", "a", "ta"])
@pytest.mark.parametrize("lines, tiles", ERAS)
def test_eras(tmp_path, told, algorithms, lines, tiles):
    store, book = tmp_path / "s", tmp_path / "b"
    drill_file(store, algorithms)
    given = "\n".join(["now 480", "notarize", *lines, "now 960", "notarize", ""])
    run(f"store={store}", f"notary={book}", "run", 7, "scripted", given=given, expect=0)
    assert told(store, book, 7)[0] == [f"clean {tiles}"]
    assert validated(tmp_path, store, book) == f"clean {tiles}"
    content = store.read_bytes()
    policy = content.index(b"\xa7\0\0\0\x0b\3")
    put(store, policy + 14, bytes([content[policy + 14] ^ 1]))  # its exponent
    assert told(store, book, 7)[0] == [f"header altered {tiles}"]
    assert validated(tmp_path, store, book) == f"header altered {tiles}"


# ---- random pairs


def both_read(content, book, id):
    """Whether verify.py and `formats` find the same in a store and in a book."""
    header = verify.header_of(content)
    try:
        store = formats.Store(content)
    except formats.FormatError:
        assert header is None
    else:
        payloads, items = list(verify.payloads_of_store(content)), list(store.items())
        spelled = [it.spelled for it in items if isinstance(it, formats.Transaction)]
        assert spelled == [it for it in payloads if it[0] == 1] and len(items) == len(payloads)
        eras = verify.eras_of(header, payloads)
        assert [tuple(it) for it in store.eras] == [tuple(it) for it in eras]
    try:
        batches = verify.batches_of(book, id)
    except ValueError:
        with pytest.raises(formats.FormatError):
            formats.Book(book)
    else:
        seals = [it.seals for it in formats.Book(book).batches(id)]
        assert seals == list(map(verify.seals_of, batches))


def is_same_verdict(mine, program, is_sound_book):
    """The program compares fewer digests. So over a damaged book it may miss some, or meet one that is missing."""
    if mine == program:
        return True
    others = ("clean", "altered", "fault SealMissing")
    return not is_sound_book and mine.startswith("altered") and program.startswith(others)


def pair_is_told_alike(tmp_path, pair):
    store, book = tmp_path / "s", tmp_path / "b"
    content = pair.books[0] if pair.books else b""
    both_read(pair.store, content, pair.id)
    store.write_bytes(pair.store)
    book.write_bytes(content)
    program = validated(tmp_path, store, book, pair.id)
    try:
        mine = verify.compare(pair.store, content, pair.id).verdict
    except ValueError:
        mine = "fault NotaryFault"
    is_sound_book = bool(pair.books) and not pair.done[2]
    assert is_same_verdict(mine, program, is_sound_book), (pair.done, mine, program)


@pytest.mark.parametrize("kind", [it.__name__ for it in damaged.WORKS])
def test_random_pairs(tmp_path, kind):
    """Each kind of damage, to the store or the book: the verdict is the program's, or both take the book for none."""
    for seed in range(6):
        pair_is_told_alike(tmp_path, damaged.damaged(f"{kind} {seed}", kind))


def test_pairs_over_several_segments(tmp_path):
    """Stores that are long enough, of either format."""
    long = [it for it in range(300) if len(damaged.damaged(it).store) > 140_000]
    for seed in random.Random(0).sample(long, 4):
        pair_is_told_alike(tmp_path, damaged.damaged(seed))
