"""The second opinion against the program: lines, statuses, and what is written, byte by byte; and which of two was altered."""
import random
import subprocess

import pytest

import damaged
from conftest import PROGRAM, drill_file, needs_program, put, run
from dragoon import verify, witness

pytestmark = needs_program


def call(*words, given=b""):
    done = subprocess.run([PROGRAM, *map(str, words)], input=given, capture_output=True)
    return done.stdout.decode().splitlines(), done.returncode


def are_told_alike(folder, files, id, chance):
    """Whether `restore`, `evidence` and `examine` say and write the same by the program and by the witness."""
    names = ("store", "copy", "notary")
    for name, content in zip(names, files):
        (folder / name).write_bytes(content)
    devices = [f"{name}={folder / name}" for name in names]
    for command, make in (("restore", witness.restore), ("evidence", witness.gather)):
        target = folder / command
        target.unlink(missing_ok=True)
        said = call(*devices, f"target={target}", command, id)
        lines, status, made = make(*files, id)
        assert (lines, status) == said
        assert (made or b"") == (target.read_bytes() if target.exists() else b"")
    spoiled = bytearray(made or b"DRAGEVD1")
    spoiled[chance.randrange(len(spoiled))] ^= chance.choice((0, 1, 16))
    for given in (made or b"", bytes(spoiled)):
        said = call(devices[2], "examine", id, given=given)
        assert witness.examine(given, files[2], id) == said


@pytest.mark.parametrize("algorithms", [2, 3])
@pytest.mark.parametrize("kind", ["nothing", *(it.__name__ for it in damaged.WORKS)])
def test_random_files(tmp_path, kind, algorithms):
    """A store and its copy, each damaged or not, and the book, which mostly isn't."""
    chance = random.Random(f"{kind} {algorithms}")
    tried = 0
    while tried < 3:
        seed = chance.randrange(1_000_000)
        if damaged.sound(seed).algorithms == algorithms and damaged.sound(seed).sealed:
            pair = damaged.damaged(seed, kind)
            book = damaged.laid(damaged.BOOK_HEAD, damaged.sound(seed).filings(), False)
            book = pair.books[0] if pair.books and chance.random() < 0.3 else book
            are_told_alike(tmp_path, (pair.store, pair.copy, book), pair.id, chance)
            tried += 1


@pytest.mark.parametrize(
    "store, copy, book, line",
    [
        ("s", "s", "", "unsealed"),
        ("", "", "b", "fault HeaderLost"),
        ("s", "s", "s", "fault NotaryFault"),
        ("", "s", "b", "restored 8 lost 0"),
    ],
)
def test_ends(made, store, copy, book, line):
    files = [
        {"s": made[0].read_bytes(), "b": made[1].read_bytes()}.get(it, b"")
        for it in (store, copy, book)
    ]
    assert witness.restore(*files, 7)[0] == [line]


# ---- which of the two was altered


def test_a_store_alone_is_never_said_to_be_the_book(made):
    """One row of the store is altered, and another one before it: digests over it differ, all of them."""
    content, book = made[0].read_bytes(), made[1].read_bytes()
    for place in range(135, 420):
        altered = content[:place] + bytes([content[place] ^ 1]) + content[place + 1 :]
        assert witness.doubt(altered, book, 7) is None


def test_a_digest_of_the_book(made):
    """One digest of the book is altered: it contradicts the others, but for the chain, which a row before could explain."""
    store, book = made[0].read_bytes(), made[1].read_bytes()
    for name, digest in verify.seals_of(verify.batches_of(book, 7)[1]).items():
        place = book.index(digest)
        found = witness.doubt(store, book[:place] + bytes(32) + book[place + 32 :], 7)
        assert found.is_certain == (name != "cum 0"), name
    place = book.index(verify.seals_of(verify.batches_of(book, 7)[0])["header"])
    found = witness.doubt(store, book[:place] + bytes(32) + book[place + 32 :], 7)
    assert not found.is_certain and "chain up to tile 0" in found.said


@pytest.mark.parametrize("exponent, tiles", [(3, 1), (2, 2)])
@pytest.mark.parametrize("algorithms", range(4))
def test_every_way_in_which_digests_differ(exponent, tiles, algorithms):
    """The book is said to be altered exactly if no alteration of some of eight rows explains which digests of a filing differ."""
    fields = damaged.big(7, 8) + bytes(8) + damaged.big(60, 4) + bytes([exponent, algorithms])
    header = verify.Header(fields, 7, 60, exponent, algorithms)
    eras = [verify.Era(0, 0, exponent, algorithms)]

    def planned(altered):
        rows = [damaged.remove("u" if at in altered else "t", None) for at in range(8)]
        items = [damaged.transaction(at + 1, 60 * at, row) for at, row in enumerate(rows)]
        return list(verify.planned(header, eras, items, tiles))

    *before, whole = planned(())
    each = [
        {name for name, digest in planned((at,))[-1].items() if digest != whole[name]}
        for at in range(8)
    ]
    sets = [[at for at in range(8) if of >> at & 1] for of in range(256)]
    by_rows = {frozenset().union(*(each[at] for at in of)) for of in sets}
    of_last = {
        frozenset().union(*(each[at] for at in of))
        for of in sets
        if not of or of[0] >> exponent == tiles - 1
    }
    by_filing = by_rows | {it | {f"cum {tiles - 1}"} for it in by_rows}
    chance = random.Random(0)
    some = [frozenset(it for it in whole if chance.random() < 0.5) for _ in range(99)]
    for differing in [*by_filing, *some, *(frozenset([it]) for it in whole)]:
        filed = {name: bytes(32) if name in differing else it for name, it in whole.items()}
        found = witness.doubt_of_book(eras, [*((it, it) for it in before), (filed, whole)])
        wanted = None if differing in of_last else differing not in by_filing
        assert (found and found.is_certain) == wanted, sorted(differing)
