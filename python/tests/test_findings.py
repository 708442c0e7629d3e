"""`inspect` against an independent reader, and the page of the findings against the program.

    python3 tests/test_findings.py     writes docs/FINDINGS.md anew, by the program that DRAGOON names
"""
import os
import subprocess
import time
from pathlib import Path

import pytest

import damaged
from conftest import PROGRAM, drill_file, needs_program, run
from findings import NAMES, findings
from histories import History

PAGE = Path(__file__).resolve().parents[2] / "docs" / "FINDINGS.md"
HEAD = """# Findings

What `inspect` may find in a store and its books, in the order in which it lists them. It reads the files alone: what each finding means is proved over their bytes.

    RANK NAME of DEVICE WORDS
    inspected store ITEMS book ENTRIES findings N

RANK is `alarm` if only an attacker, a broken disk, or a file that was replaced leaves it so, and `notice` if a clock, a crash, or a step that is still to come may. DEVICE is `store`, `book`, or `book K` of several, from 1. WORDS are pairs of a word and a number. Items, operations, entries and marks count from 1, batches, tiles, eras and segments from 0. Of each name at most 100 are listed, then `more NAME N`. The status is 25 if there is any finding, else 0.

A store that is in use may be inspected: a record that is being written is what a crash leaves, and no alarm. `dragoon inspect --explain NAME` prints a section of this page.
"""
pytestmark = needs_program


def explained(name):
    """What the program says of a finding, line by line: name, rank, words, means, next, page."""
    text = run("inspect", "--explain", name, expect=0)
    return dict(line.split(" ", 1) if " " in line else (line, "") for line in text.splitlines())


def page():
    parts = [HEAD]
    for name in NAMES:
        said = explained(name)
        words = (
            f" Words: {', '.join(f'`{it}`' for it in said['words'].split())}."
            if said["words"]
            else ""
        )
        words = words.replace(", `or`, ", " or ")
        parts.append(
            f"\n## {name}\n\nRank: {said['rank']}.{words}\n\n{said['means']}\n\n{said['next']}\n"
        )
    return "".join(parts)


@pytest.fixture(autouse=True)
def has_inspect():
    if subprocess.run(
        [PROGRAM, "inspect", "--explain", "trailing"], capture_output=True
    ).returncode:
        pytest.skip("this program has no inspect")


def test_the_page_is_what_the_program_explains():
    assert PAGE.read_text() == page()


def inspected(folder, pair):
    """The lines and the status of the program, and those of the reader at the clock's seconds meanwhile."""
    (folder / "store").write_bytes(pair.store)
    books = [folder / f"book{at}" for at in range(len(pair.books))]
    for path, content in zip(books, pair.books):
        path.write_bytes(content)
    notary = [f"notary={','.join(map(str, books))}"] if books else []
    begun = int(time.time())
    done = subprocess.run(
        [PROGRAM, f"store={folder / 'store'}", *notary, "inspect", str(pair.id)],
        capture_output=True,
        text=True,
    )
    clocks = range(begun, int(time.time()) + 1)
    wanted = [list(findings(pair.store, pair.books, pair.id, clock)) for clock in clocks]
    return done.stdout.splitlines(), done.returncode, wanted


@pytest.mark.parametrize("first", range(0, 200, 25))
def test_random_damage_is_found_as_an_independent_reader_finds_it(first, tmp_path):
    for seed in range(first, first + 25):
        lines, status, wanted = inspected(tmp_path, damaged.damaged(seed))
        assert lines in wanted, seed
        assert status == (0 if lines[-1].endswith(" findings 0") else 25)


def test_an_honest_first_day_has_no_alarm(tmp_path):
    store, book = tmp_path / "s.store", tmp_path / "s.book"
    devices = [f"store={store}", f"notary={book}"]

    def alarms():
        said = subprocess.run([PROGRAM, *devices, "inspect"], capture_output=True, text=True).stdout
        return [it for it in said.splitlines() if it.startswith("alarm ")]

    assert alarms() == []
    for words in (["init", 7, 1, 0, "ta"], ["make", 7, 1, 50], ["notarize", 7], ["validate", 7]):
        run(*devices, *words)
        assert alarms() == [], words


def without_alarm(history, *but):
    """Inspects what a history left; its calls are told if there is an alarm, but for these."""
    alarms = [it for it in history.alarms() if it.split()[1] not in but]
    calls = "\n".join(f"{call} <<< {given!r}" for call, given in history.calls)
    assert alarms == [], calls


def some(few, all, each):
    """A few seeds in a plain run, and all with -m faults, in parts of so many."""
    rest = (range(at, min(all, at + each)) for at in range(few, all, each))
    return [range(few), *(pytest.param(it, marks=pytest.mark.faults) for it in rest)]


def histories(folder, seeds, books=None):
    for seed in seeds:
        (folder / str(seed)).mkdir()
        yield History(seed, folder / str(seed), books)


@pytest.mark.parametrize("seeds", some(10, 1_000, 30), ids=lambda it: f"from {it[0]}")
def test_plain_work_leaves_no_alarm(seeds, tmp_path):
    for history in histories(tmp_path, seeds):
        for _ in range(8):
            history.step()
            without_alarm(history)


# A kill between two books of a quorum leaves them different: what follows is more than plain work.
@pytest.mark.parametrize("books, but", [(1, ()), (3, ("book-differs", "book-behind"))])
@pytest.mark.parametrize("seeds", some(2, 50, 8), ids=lambda it: f"from {it[0]}")
def test_kills_during_runs_and_filings_leave_no_alarm(seeds, books, but, tmp_path):
    for history in histories(tmp_path, seeds, books):
        for _ in range(4):
            history.kill()
            without_alarm(history, *but)
            if history.alarms():
                break
            history.step()
            without_alarm(history)


@pytest.mark.parametrize("change", [lambda it: it.unlink(), lambda it: it.write_bytes(b"")])
def test_a_store_that_was_filed_and_is_gone_is_an_alarm(made, change):
    store, book = made
    change(store)
    call = [PROGRAM, f"store={store}", f"notary={book}", "inspect", "7"]
    done = subprocess.run(call, capture_output=True, text=True)
    assert done.returncode == 25 and "alarm no-store of store" in done.stdout


def test_inspect_changes_nothing_and_needs_no_right_to_write(tmp_path):
    store = drill_file(tmp_path / "s.store")
    before, inode = store.read_bytes(), os.stat(store)
    store.chmod(0o444)
    run(f"store={store}", f"notary={tmp_path / 'none'}", "inspect", 7, expect=25)
    after = os.stat(store)
    assert store.read_bytes() == before and after.st_mtime_ns == inode.st_mtime_ns
    assert not (tmp_path / "none").exists()


if __name__ == "__main__":
    PAGE.write_text(page())
