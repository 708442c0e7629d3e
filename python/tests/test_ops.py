"""Jobs, alarms, checks and metrics over real files; and the table of faults: what each does to the alarms, in three layouts."""

import contextlib
import hashlib
import io
import os
import random
import re
import shutil
import signal
import subprocess
import sys
import time
from pathlib import Path

import pytest

import dragoon
from conftest import PROGRAM, needs_program, put, run
from dragoon import cli
from dragoon.formats import Book, Era, Frontier, Store
from dragoon.ops import alarms, conf, files, machine, quorum, state, watch

pytestmark = needs_program
ENVIRONMENT = {**os.environ, "PYTHONPATH": str(Path(dragoon.__file__).parents[1])}
LAYOUTS = {"one": 1, "two": 1, "three": 3}  # one account, two accounts, three books


class Bank:
    """A store that is looked after, in a folder of its own."""

    def __init__(self, folder, layout="one"):
        self.folder, self.keep = Path(folder), Path(folder) / ("keep" if layout == "two" else "")
        self.keep.mkdir(exist_ok=True)
        self.store, self.path = str(self.folder / "s.store"), str(self.folder / "s.conf")
        self.books = [str(self.keep / f"s{at}.book") for at in range(LAYOUTS[layout])]
        self.said, self.named = "", {}

    def write_conf(self, **more):
        self.named = more
        named = {"STORE": self.store, "BOOK": ",".join(self.books), "ID": 7, "STATE": self.keep}
        named = {**named, "ALG": "a3d", "PROGRAM": PROGRAM, **more}
        Path(self.path).write_text("".join(f"{key}={it}\n" for key, it in named.items()))

    @property
    def conf(self):
        return conf.read_conf(self.path)

    @property
    def names(self):
        return [f"store={self.store}", f"notary={','.join(self.books)}"]

    def job(self, command, *more):
        """The status of a job. What it told is in `said`."""
        told = io.StringIO()
        with contextlib.redirect_stdout(io.StringIO()), contextlib.redirect_stderr(told):
            status = cli.main(["job", command, self.path, *more, "--wait", "0"])
        self.said = told.getvalue()
        for line in self.said.splitlines():
            assert len(line) <= 163 and ("RUNBOOK" in line or line.startswith("<6>")), line
        return status

    def job_at(self, offset, command):
        """The status of a job under a clock that is set off by so much."""
        environment = {**ENVIRONMENT, "FAKETIME_DONT_FAKE_MONOTONIC": "1"}
        call = ["faketime", "-f", offset, sys.executable, "-m", "dragoon.cli", "job", command]
        done = subprocess.run([*call, self.path], env=environment, capture_output=True, text=True)
        self.said = done.stderr
        return done.returncode

    def alarms(self, rank="alarm"):
        kept = state.load(self.conf)
        return {it for it in kept.alarms if alarms.sort_of(it).rank == rank} if kept else set()

    @property
    def is_quiet(self):
        return not self.alarms() and not self.alarms("notice")

    def acknowledge(self, *finding):
        assert quiet("acknowledge", self.path, "--who", "ann", "--why", "seen", *finding) == 0

    def edit_state(self, **more):
        kept = state.load(self.conf)
        for key, it in more.items():
            setattr(kept, key, getattr(kept, key) + it)
        state.write(self.conf, kept)

    def rows(self, first, count=1):
        lines = "".join(f"insert t {k} {1000 + k} 'x'\n" for k in range(first, first + count))
        run(f"store={self.store}", "run", 7, given=lines, expect=0)

    def gates(self, kind=object):
        """Where the records begin that spell this kind of item."""
        store = Store.read(self.store)
        walks = [store.walk(*it) for it in store.ranges()]
        return [gate for walk in walks for gate, item, _ in walk if isinstance(item, kind)]

    @property
    def end(self):
        return Store.read(self.store).end


def quiet(*words):
    with contextlib.redirect_stdout(io.StringIO()), contextlib.redirect_stderr(io.StringIO()):
        return cli.main(list(words))


@pytest.fixture(scope="module")
def base(tmp_path_factory):
    """A store of two segments, filed in a book. It began 20 minutes ago, and has a policy; early.* are those of 15 minutes ago."""
    folder = tmp_path_factory.mktemp("base")
    store, book = folder / "s.store", folder / "s0.book"
    names = [f"store={store}", f"notary={book}"]
    run(names[0], "init", 7, 20, 0, "ta", expect=0)
    put(store, 17, (int(time.time()) - 1_200).to_bytes(8, "big"))
    lines = ["create t k int v int w text"]
    for k in range(15):
        lines += [f"now {k * 60}", f"insert t {k} {k + 77} '{'x' * 5_000}'"]
    lines.insert(-16, "notarize")
    run(*names, "run", 7, "scripted", given="\n".join(lines) + "\n", expect=0)
    shutil.copy(store, folder / "early.store"), shutil.copy(book, folder / "early.book")
    run(*names, "notarize", 7, expect=0)
    run(*names, "policy", 7, 0, "ta", expect=0)
    return folder


@pytest.fixture(scope="module")
def looked_after(base, tmp_path_factory):
    """One of each layout after the first jobs, which are acknowledged; some rows aren't filed yet."""
    found = {}
    for layout in LAYOUTS:
        found[layout] = it = Bank(tmp_path_factory.mktemp(layout), layout)
        it.write_conf()
        shutil.copy(base / "s.store", it.store)
        for book in it.books:
            shutil.copy(base / "s0.book", book)
        it.rows(100, 5)
        assert it.job("notarize") == 0 and it.job("validate") == 0
        assert it.alarms("notice") == {f"believed of {device}" for device in it.conf.devices}
        it.acknowledge()
        assert it.is_quiet
    return found


@pytest.fixture
def bank(looked_after, base, tmp_path, request):
    layout = getattr(request, "param", "one")
    of = looked_after[layout]
    shutil.copytree(of.folder, tmp_path, dirs_exist_ok=True)
    it = Bank(tmp_path, layout)
    for path in (it.path, it.keep / "s.json"):
        text = Path(path).read_text().replace(str(of.folder), str(tmp_path))
        Path(path).write_text(text)
    it.base = base
    return it


def test_a_plain_day(bank):
    for hour in range(2):
        bank.rows(200 + hour * 10, 9)
        assert bank.job("notarize") == 0 and not bank.said
    assert [bank.job(it) for it in ("validate", "analyse")] == [0, 0] and not bank.said
    kept = state.load(bank.conf)
    assert bank.is_quiet and kept.ended["validate"]["answer"].startswith("clean ")
    assert kept.store["bytes"] == bank.end and kept.store["eras"] and kept.clock >= kept.since


# ---- the table of faults: edits of the store


def flip(place, to=None):
    """One byte changed, at a place or at what a function says of the bank."""

    def edit(bank, content):
        at = place(bank) if callable(place) else place
        content[at] = content[at] ^ 0x10 if to is None else to

    return edit


def of(kind, which, more):
    return lambda bank: bank.gates(kind)[which] + more


def cut(length):
    def edit(bank, content):
        del content[length(bank) if callable(length) else length :]

    return edit


def after_end(data):
    def edit(bank, content):
        last = bytes(content[bank.gates()[-1] + 1 : bank.end])  # a record without its gate
        content[bank.end + 1 :] = data(last) if callable(data) else data

    return edit


def end_is(data):
    return lambda bank, content: content.__setitem__(slice(bank.end, None), data)


def whole(name):
    return lambda bank, content: content.__setitem__(slice(None), (bank.base / name).read_bytes())


POLICY = bytes([3]) + (40).to_bytes(4, "big") * 2 + bytes([10, 0])
FIELDS = {"gate": 0, "length": 4, "kind": 5, "number": 9, "moment": 17, "count": 19}
HEADER = (0, 1, 8, 9, 16, 17, 24, 25, 28, 29, 30, 31, 63)
ITEMS = {"first": 0, "middle": 8, "last": -1}
CUTS = {"nothing": 0, "a byte": 1, "64": 64, "65": 65, "a segment": 65_536, "half": 40_000}
LOUD = {
    **{f"byte {at} of the header": flip(at) for at in HEADER},
    **{
        f"{field} of the {item} item": flip(of(object, which, at))
        for item, which in ITEMS.items()
        for field, at in FIELDS.items()
    },
    "a header of zeros": lambda bank, content: content.__setitem__(slice(0, 64), bytes(64)),
    "format 1": flip(8, ord("1")),
    "a value that is filed": flip(of(object, 3, 40)),
    "a value that is not filed": flip(of(object, -3, 40)),
    "a gate of the first segment": flip(of(object, 5, 0), 0),
    "the last gate": flip(of(object, -1, 0), 0),
    "the policy": flip(of(Era, 0, 14)),
    "the Frontier": flip(of(Frontier, 0, 13)),
    "unused bytes of a segment": flip(65_530),
    "the gate of the end opened": flip(lambda bank: bank.end, 0xA7),
    "the gate of the end": flip(lambda bank: bank.end, 0x55),
    **{f"cut to {name}": cut(length) for name, length in CUTS.items()},
    "cut to the policy": cut(of(Era, 0, 0)),
    "cut to the last item": cut(of(object, -1, 1)),
    "cut in the last item": cut(of(object, -1, 9)),
    "cut to the end": cut(lambda bank: bank.end),
    "yesterday's": whole("early.store"),
    "a book": whole("s0.book"),
    "a policy planted": end_is(b"\xa7\0\0\0\x0b" + POLICY + b"\0"),
    "a record hidden far off": after_end(lambda last: b"\1" * 200_000 + b"\xa7" + last),
}
QUIET = {  # what a crash leaves, too
    "a byte after the end": after_end(b"\xff"),
    "zeros after the end": after_end(bytes(40_000)),
    "a record cut off": after_end(lambda last: last[:-3]),
    "a record behind a closed gate": after_end(lambda last: last + b"\0"),
}
FEW = ["a value that is filed", "the gate of the end opened", "a record cut off"]
MANY = [it for it in {**LOUD, **QUIET} if it not in FEW]


def edited(bank, name):
    """What the store was, before it is edited so."""
    was = Path(bank.store).read_bytes()
    content = bytearray(was)
    {**LOUD, **QUIET}[name](bank, content)
    assert bytes(content) != was
    Path(bank.store).write_bytes(content)
    return was


def test_a_look_sees_each_edit_of_the_store(bank, monkeypatch):
    monkeypatch.setattr(files, "MOMENT", 0)
    kept, was = state.load(bank.conf), Path(bank.store).read_bytes()
    for name in {**LOUD, **QUIET}:
        edited(bank, name)
        assert bool(files.look(bank.conf, kept).found) == (name in LOUD), name
        Path(bank.store).write_bytes(was)


@pytest.mark.parametrize("bank", LAYOUTS, indirect=True)
@pytest.mark.parametrize("name", FEW + [pytest.param(it, marks=pytest.mark.faults) for it in MANY])
def test_an_edit_of_the_store(bank, name):
    was = edited(bank, name)
    status = bank.job("notarize")
    if name in QUIET:
        assert status == 0 and bank.is_quiet
        return
    found = bank.alarms() - {"altered"}
    names = {it.replace(" of store", "") for it in found}
    assert status == 5 and names <= {"rewritten", "replaced", "shorter", "trailing", "policy"}
    Path(bank.store).write_bytes(was)  # what was put back has been altered still
    assert bank.job("notarize") == 0 and bank.alarms() >= found
    bank.acknowledge()
    assert bank.job("notarize") == 0 and bank.is_quiet


@pytest.mark.parametrize("place", ["few", pytest.param("all", marks=pytest.mark.faults)])
def test_bits_and_cuts_of_a_book(bank, tmp_path, place):
    """Each bit of a book, and each length of it. The gate that ends it has no bit that a writer leaves otherwise."""
    path = str(tmp_path / "b.book")
    good = (bank.base / "early.book").read_bytes()
    gates = [gate for gate, *_ in Book(good).walk(64, len(good))]
    good = good[: gates[3]] + b"\0"
    Path(path).write_bytes(good)
    _, front = files.look_at("book", path, 7, {})
    places = range(len(good)) if place == "all" else random.Random(7).sample(range(len(good)), 40)
    for at in places:
        for bit in range(8):
            changed = bytearray(good)
            changed[at] ^= 1 << bit
            Path(path).write_bytes(changed)
            assert files.look_at("book", path, 7, front)[0], (at, bit)
        Path(path).write_bytes(good[:at])
        assert files.look_at("book", path, 7, front)[0], at


# ---- files that are lost, older, swapped, or another's


def other(bank):
    """Another store of another id, and its book."""
    store, book = bank.store + ".x", bank.store + ".y"
    run(f"store={store}", "init", 9, 60, 0, "ta", expect=0)
    run(f"store={store}", f"notary={book}", "notarize", 9, expect=0)
    return store, book


def swapped(bank):
    one, two = Path(bank.store).read_bytes(), Path(bank.books[0]).read_bytes()
    Path(bank.store).write_bytes(two), Path(bank.books[0]).write_bytes(one)


def instead(path, make):
    os.unlink(path), make(path)


def another(bank, key, path):
    """A copy of a file, which the config file names."""
    shutil.copy(path, path + "1")
    bank.write_conf(**{key: path + "1"})


FILES = {  # what is done to the files; the status of the next filing, and the alarms then
    "no store": (lambda it: os.unlink(it.store), 5, "missing of store"),
    "no book": (lambda it: os.unlink(it.books[0]), 6, "missing of book"),
    "an empty store": (lambda it: os.truncate(it.store, 0), 5, "replaced of store"),
    "an empty book": (lambda it: os.truncate(it.books[0], 0), 6, "replaced of book"),
    "another store": (lambda it: shutil.copy(other(it)[0], it.store), 5, "replaced of store"),
    "another book": (lambda it: shutil.copy(other(it)[1], it.books[0]), 6, "shorter of book"),
    "a folder": (lambda it: instead(it.store, os.mkdir), 5, "damaged of store"),
    "a link": (
        lambda it: instead(it.store, lambda at: os.symlink("/no", at)),
        5,
        "missing of store",
    ),
    "both swapped": (swapped, 6, "replaced of book", "replaced of store"),
    "older": (lambda it: shutil.copy(it.base / "early.book", it.books[0]), 6, "shorter of book"),
    "a byte": (lambda it: put(it.books[0], 90, b"\x55"), 6, "rewritten of book"),
    "a copy named": (lambda it: another(it, "STORE", it.store), 5, "moved of store"),
    "its book named": (lambda it: another(it, "BOOK", it.books[0]), 6, "moved of book"),
    "format 1": (lambda it: put(it.store, 8, b"1"), 5, "replaced of store"),
    "another id named": (lambda it: it.write_conf(ID=8), 70),
}


@pytest.mark.parametrize("name", FILES)
def test_files(bank, name):
    work, status, *wanted = FILES[name]
    kept, called = bank.conf.file("json").read_bytes(), bank.folder / "called"
    work(bank)
    program_of(bank, f'echo "$3" >>{called}; exec {PROGRAM} "$@"', **bank.named)
    there = {it: Path(it).read_bytes() for it in (bank.store, *bank.books) if os.path.isfile(it)}
    assert bank.job("notarize") == status
    if status == 70:
        assert "alarm=fault" in bank.said and "of the id 7" in bank.said
        assert bank.conf.file("json").read_bytes() == kept
        return
    assert name != "format 1" or "went from format 2 to 1" in bank.said
    assert bank.alarms() == set(wanted) and called.read_text() == "inspect\n"
    for path in (bank.store, *bank.books):  # nothing was made, and nothing was added
        assert not os.path.isfile(path) or Path(path).read_bytes() == there[path]


def test_a_store_that_was_moved(bank):
    os.rename(bank.store, bank.store + "1")
    bank.write_conf(STORE=bank.store + "1")
    assert bank.job("notarize") == 0 and bank.is_quiet


@pytest.mark.parametrize("lost", range(4))
@pytest.mark.parametrize("bank", ["three"], indirect=True)
def test_lost_books_of_three(bank, lost):
    for path in bank.books[:lost]:
        os.unlink(path)
    bank.rows(200)
    assert bank.job("notarize") == (0 if lost < 2 else 6)
    assert bank.alarms() == {f"missing of book {at + 1}" for at in range(lost)}
    assert not any(map(os.path.exists, bank.books[:lost]))


def test_the_first_book_is_made_by_hand(bank):
    os.unlink(bank.books[0]), os.unlink(bank.conf.file("json"))
    assert bank.job("notarize") == 6 and bank.job("validate") == 6
    assert not os.path.exists(bank.books[0]) and bank.alarms() == {"missing of book"}
    Path(bank.books[0]).touch()
    assert bank.job("validate") == 6 and bank.alarms() == {"empty of book"}


# ---- what stays


def change(bank):
    """Changes a value that is filed, or changes it back."""
    place = bank.gates()[3] + 40
    put(bank.store, place, bytes([Path(bank.store).read_bytes()[place] ^ 1]))


def test_what_was_put_back_has_been_altered_still(bank):
    both = {"rewritten of store", "altered"}
    change(bank)
    assert bank.job("notarize") == 5 and bank.alarms() == both
    kept = state.load(bank.conf)
    assert kept.ended["validate"]["status"] == 1
    assert kept.ended["analyse"]["answer"].startswith("first change in tile ")
    assert kept.alarms["altered"].text.startswith("validate: altered 6")
    change(bank)
    assert [bank.job(it) for it in ("notarize", "validate")] == [0, 0] and bank.alarms() == both
    assert quiet("alarms", bank.path) == 1
    assert quiet("acknowledge", bank.path, "--who", " ", "--why", "x") == 3
    assert quiet("acknowledge", bank.path, "--who", "a", "--why", "x", "nothing") == 3
    bank.acknowledge("altered")
    assert bank.alarms() == {"rewritten of store"}
    bank.acknowledge("rewritten", "of", "store")
    kept = state.load(bank.conf).acknowledged[-1]
    assert bank.is_quiet and kept["text"] and quiet("alarms", bank.path) == 0
    assert [kept[it] for it in ("who", "why", "finding")] == ["ann", "seen", "rewritten of store"]


def test_a_filing_that_finds_broken(bank):
    """Where nothing is kept of the bytes the program finds it; the mark and the report are there at once."""
    os.unlink(bank.conf.file("json"))
    change(bank)
    marks = len(Book.read(bank.books[0]).marks(7))
    assert bank.job("notarize") == 10 and bank.alarms() == {"altered"}
    assert len(Book.read(bank.books[0]).marks(7)) == marks + 1
    kept = state.load(bank.conf)
    assert set(kept.ended) == {"notarize", "validate", "analyse"}
    assert kept.alarms["altered"].text.startswith("validate: altered 6")
    assert bank.alarms("notice") == {"believed of store", "believed of book"}


@pytest.mark.parametrize("bank", LAYOUTS, indirect=True)
def test_one_event_is_one_alarm(bank):
    """The mark that a verdict leaves in each book belongs to its event; a mark that no verdict explains is one of its own."""

    def validated_by_hand():
        change(bank)
        run(*bank.names, "validate", 7, expect=1)
        change(bank)

    validated_by_hand()
    assert bank.job("validate") == 0 and bank.alarms() == {"altered-mark"}
    assert "alarm=altered" in bank.said and "altered-mark of book" in bank.said
    bank.acknowledge("altered-mark")
    assert bank.job("validate") == 0 and bank.is_quiet
    validated_by_hand()
    assert bank.job("validate") == 0 and bank.alarms() == {"altered-mark"}
    change(bank)
    assert bank.job("validate") == 1 and bank.alarms() == {"altered", "rewritten of store"}
    assert len(state.load(bank.conf).alarms["altered"].lines) == 2 * len(bank.books)
    change(bank)
    bank.acknowledge("altered"), bank.acknowledge("rewritten", "of", "store")
    assert bank.job("validate") == 0 and bank.is_quiet


def test_the_first_look_after_state_is_lost_stays_a_notice(bank):
    os.unlink(bank.conf.file("json"))
    for command in ("notarize", "validate", "notarize"):
        assert bank.job(command) == 0 and not bank.alarms()
        assert bank.alarms("notice") == {"believed of store", "believed of book"}
    bank.acknowledge()
    assert bank.job("notarize") == 0 and bank.is_quiet


def test_policies(bank):
    assert bank.job("policy", "3", "m") == 0 and bank.is_quiet and bank.job("notarize") == 0
    run(*bank.names, "policy", 7, 2, "ta", expect=0)
    assert bank.job("notarize") == 5 and bank.alarms() == {"policy of store"}
    bank.acknowledge()
    assert bank.job("notarize") == 0 and bank.is_quiet


def test_a_file_is_believed_once_that_is_acknowledged(bank):
    shutil.copy(bank.base / "s.store", bank.store)
    assert bank.job("notarize") == 5 and bank.alarms() == {"shorter of store"}
    bank.acknowledge()
    assert bank.job("notarize") == 0 and bank.is_quiet


def test_what_was_acknowledged_is_no_leave_for_the_next(bank):
    """The same alarm of the same place comes again, if it is another change."""
    for _ in range(3):
        change(bank)
        assert bank.job("notarize") in (5, 10) and "rewritten of store" in bank.alarms()
        bank.acknowledge()
    put(bank.books[0], 90, b"\x55")
    assert bank.job("notarize") == 6 and bank.alarms() == {"rewritten of book"}
    bank.acknowledge()
    put(bank.books[0], 90, b"\x56")
    assert bank.job("notarize") == 6 and bank.alarms() == {"rewritten of book"}


def test_acknowledged_while_a_job_runs(bank):
    change(bank)
    bank.job("notarize")
    with state.alone(bank.conf, 0):
        running = watch.Watch(bank.conf)
        bank.acknowledge("altered")
        running.save()
    assert bank.alarms() == {"rewritten of store"}
    assert state.load(bank.conf).acknowledged[-1]["finding"] == "altered"


# ---- clocks, locks, kills, disks


AHEAD = [(3_500, 3_600, 0), (4_000, 3_600, 15), (31_536_000, 3_600, 15), (-4_000, 3_600, 0)]


@pytest.mark.parametrize("ahead, most, status", [*AHEAD, (200, 100, 15), (4_000, 5_000, 0)])
def test_clocks(bank, ahead, most, status):
    bank.write_conf(AHEAD=most)
    bank.edit_state(clock=-ahead)
    tiles = Book.read(bank.books[0]).tiles(7)
    assert bank.job("notarize") == status and bank.alarms() == ({"clock"} if status else set())
    if status:
        assert Book.read(bank.books[0]).tiles(7) == tiles and "--accept-clock" in bank.said
        assert bank.job("validate") == 0 and bank.job("notarize") == status
    assert bank.job("notarize", "--accept-clock") == 0 and bank.is_quiet


# how far the clock is off, and how a filing ends then; how one ends under the right clock afterwards
OFF = {
    "a year ahead": ("+365d", 15, {"clock"}, 0, set()),
    "an hour ahead, nearly": ("+3500s", 0, set(), 14, {"ClockBack"}),
    "an hour back": ("-3600s", 14, {"ClockBack"}, 0, set()),
}


@pytest.mark.skipif(not shutil.which("faketime"), reason="no faketime")
@pytest.mark.parametrize("bank", LAYOUTS, indirect=True)
@pytest.mark.parametrize("name", OFF)
def test_clocks_that_are_off(bank, name):
    offset, status, found, later, then = OFF[name]
    was = Path(bank.store).read_bytes(), [Path(it).read_bytes() for it in bank.books]
    assert bank.job_at(offset, "notarize") == status and bank.alarms() == found
    assert not found or "alarm=fault" in bank.said
    there = Path(bank.store).read_bytes(), [Path(it).read_bytes() for it in bank.books]
    assert (there == was) == bool(status)
    assert bank.job("notarize") == later and bank.alarms() == then


@pytest.mark.parametrize("is_kept, status", [(False, 15), (True, 0)])
def test_a_clock_after_a_start_of_the_machine(bank, monkeypatch, is_kept, status):
    bank.edit_state(clock=-86_400, boot="x")
    monkeypatch.setattr(machine, "clock_is_kept", lambda: is_kept)
    assert bank.job("notarize") == status


def test_a_file_that_is_in_use(bank):
    with dragoon.connect(store=bank.store, program=PROGRAM) as db:
        db.get("t", 1)
        assert bank.job("notarize") == 5 and bank.alarms("notice") == {"busy"}
        assert "has the store open" in bank.said and "process " in bank.said and not bank.alarms()
        ended = state.load(bank.conf).ended
        ended["notarize"]["well"] -= 9_000
        kept = state.load(bank.conf)
        kept.ended = ended
        state.write(bank.conf, kept)
        assert bank.job("notarize") == 5 and bank.alarms() == {"late"}
    assert bank.job("notarize") == 0 and bank.is_quiet


def test_a_job_without_a_config_file(bank):
    Path(bank.path).write_text("STORE=x\n")
    assert bank.job("notarize") == 2 and "alarm=fault store=s.conf " in bank.said


def test_two_jobs(bank):
    with state.alone(bank.conf, 0):
        assert bank.job("notarize") == 70 and "another process looks after" in bank.said
    assert bank.job("notarize") == 0 and bank.is_quiet


KILLED = {  # what is killed, and after how many seconds at most
    "run": (lambda it: [PROGRAM, f"store={it.store}", "run", "7"], 0.05),
    "notarize": (lambda it: [PROGRAM, *it.names, "notarize", "7"], 0.02),
    "job": (lambda it: [sys.executable, "-m", "dragoon.cli", "job", "notarize", it.path], 0.4),
}


@pytest.mark.parametrize("count", [2, pytest.param(12, marks=pytest.mark.faults)])
@pytest.mark.parametrize("bank", LAYOUTS, indirect=True)
@pytest.mark.parametrize("what", KILLED)
def test_kills(bank, what, count):
    """Whatever is killed, the next job has no alarm."""
    call, seconds = KILLED[what]
    pipe, nothing = subprocess.PIPE, subprocess.DEVNULL
    for at in range(count):
        lines = [f"insert t {1_000 + at * 900 + k} 1 '{'y' * 900}'\n" for k in range(70)]
        to = {"stdin": pipe, "stdout": nothing, "stderr": nothing, "env": ENVIRONMENT}
        with subprocess.Popen(call(bank), bufsize=0, **to) as process:
            with contextlib.suppress(BrokenPipeError):  # some read nothing
                process.stdin.write("".join(lines).encode())
            time.sleep(random.random() * seconds)
            process.send_signal(signal.SIGKILL)
        assert bank.job("notarize") == 0 and bank.is_quiet, bank.said


@pytest.mark.faults
@pytest.mark.parametrize("is_full", (True, False))
@pytest.mark.parametrize("what", ["store", "book", "keep"])
def test_disks(base, disk, tmp_path, what, is_full):
    bank, on = Bank(tmp_path), disk.path
    there = {"store": str(on / "s.store"), "book": [str(on / "s.book")], "keep": on}[what]
    setattr(bank, "books" if what == "book" else what, there)
    bank.write_conf()
    shutil.copy(base / "early.store", bank.store), shutil.copy(base / "early.book", bank.books[0])
    assert bank.job("validate") == 0
    bank.acknowledge()
    disk.fill() if is_full else disk.fail()
    status = bank.job("notarize")
    assert status in {"store": (0, 5), "book": (6,), "keep": (70,)}[what]
    assert not status or "alarm=" in bank.said
    assert what == "keep" or not is_full or not status or "its disk is full" in bank.said
    disk.repair()
    assert bank.job("notarize") == 0 and bank.job("validate") == 0 and bank.is_quiet


# ---- what `inspect` finds, and programs that are none


def program_of(bank, script, **more):
    """A program in the place of the real one, which it may call."""
    fake = bank.folder / "fake"
    fake.write_text(f"#!/bin/sh\n{script}\n")
    fake.chmod(0o755)
    bank.write_conf(PROGRAM=fake, **more)


def test_findings(bank):
    def finds(*found):
        text = "\n".join([*found, f"inspected store 9 book 3 findings {len(found)}"])
        inspect = f'case "$3" in inspect) echo "{text}"; exit {25 if found else 0};; esac'
        program_of(bank, f'{inspect}\nexec {PROGRAM} "$@"')

    gaps = [f"alarm number-gap of store item {it} before 8 this 10" for it in (12, 14)]
    early = "notice batch-early of book 2 batch 1 second 5 end 9"
    finds(*gaps, early)
    assert bank.job("validate") == 0 and bank.alarms() == {"number-gap of store"}
    assert "item 12 before 8 this 10 (and 1 more)" in bank.said and not bank.alarms("notice")
    bank.acknowledge()
    assert bank.job("validate") == 0 and bank.is_quiet and not bank.said
    finds(*gaps, early, "alarm moment-falls of store item 3 before 9 this 8")
    assert bank.job("validate") == 0 and bank.alarms() == {"moment-falls of store"}


ANSWERS = {  # what a program does; the status, and the alarm then, which ends by itself or not
    **dict.fromkeys(("exit 0", "exit 1", "echo hello", "echo clean; exit 5"), (70, "program")),
    "kill -9 $$": (137, "program"),
    "exit 139": (139, "program"),
    "echo unsealed": (6, "unsealed"),
    **{
        f"echo fault {name}; exit {status}": (status, name)
        for status, name in alarms.STATUSES.items()
        if name not in ("altered", "conf")
    },
}


@pytest.mark.parametrize("script", ANSWERS)
def test_answers_of_a_program(bank, script):
    status, event = ANSWERS[script]
    program_of(bank, f'case "$3" in validate) {script};; *) exec {PROGRAM} "$@";; esac')
    assert bank.job("validate") == status and bank.alarms() == {event}
    sort = alarms.sort_of(event)
    assert f"alarm={sort.kind} " in bank.said and sort.action in bank.said
    bank.write_conf()
    assert bank.job("notarize") == 0
    assert bank.alarms() == (set() if sort.until == "call" else {event})
    assert bank.job("validate") == 0
    assert bank.alarms() == ({event} if sort.until == "person" else set())


def test_a_fault_stays_until_its_command_ends_well(bank):
    program_of(
        bank, f'case "$3" in validate) echo fault Full; exit 16;; *) exec {PROGRAM} "$@";; esac'
    )
    assert bank.job("validate") == 16 and bank.job("notarize") == 0 and bank.alarms() == {"Full"}
    bank.write_conf()
    with dragoon.connect(store=bank.store, program=PROGRAM) as db:
        db.get("t", 1)
        assert bank.job("validate") == 5 and bank.alarms() == {"Full"}
    assert bank.job("validate") == 0 and bank.is_quiet


def test_the_runbook_has_each_alarm():
    """Its name is in the section that its line names, and the line has room for what happened, however long the names are."""
    top = Path(__file__).resolve().parents[2]
    _, *parts = re.split("(?m)^###? (.*)$", (top / "docs" / "RUNBOOK.md").read_text())
    sections = dict(zip(parts[::2], parts[1::2]))
    rules = (top / "python" / "deploy" / "alerts.yml").read_text()
    assert set(re.findall(r"\(RUNBOOK, ([^)]*)\)", rules)) <= {*sections}
    for name, sort in alarms.SORTS.items():
        for event in [name] if sort.kind else [f"{name} of store", f"{name} of book"]:
            assert f"`{name}`" in sections[alarms.sort_of(event).section], event
            line = alarms.line_of("s" * 99, event, "w" * 999)
            assert len(line) <= 160 and line.count("w") > 12, line


# ---- several books


def test_compare_and_mend(bank, tmp_path):
    good, paths = Path(bank.books[0]).read_bytes(), [str(tmp_path / f"{at}.b") for at in range(3)]
    gates = [gate for gate, *_ in Book(good).walk(64, len(good))]
    altered = good[: gates[5] + 40] + b"\x99" + good[gates[5] + 41 :]
    last = good[gates[-1] + 1 : -1]
    cases = {  # how the third book differs, and what it is
        "the same": good,
        "behind: lacks": good[: gates[9]] + b"\0",
        "behind: lacks 6": good[:64] + b"\0",
        "behind": b"",
        "is out of turn": good[: gates[9]] + good[gates[10] :],
        "differs from entry 6 on": altered,
        "goes on alone: 0 batches and 1 marks more": good[:-1] + b"\xa7" + last + b"\0",
        "bytes follow": good[: gates[-1]] + b"\0" + b"\x01" * 300_000 + b"\xa7" + last + b"\0",
        "is no notary's book": good[:9] + b"x" + good[10:],
    }
    for said, content in cases.items():
        for path, it in zip(paths, (good, good, content)):
            Path(path).write_bytes(it)
        found = quorum.compare(paths)
        assert found.agree >= 2 and said in found.standings[2].said, found.standings
        assert quiet("compare", *paths) == (content != good)
        assert quiet("mend", paths[2], *paths[:2]) == (3 if content == good else 0)
        if content != good:
            assert Path(paths[2] + ".mended").read_bytes() == good
            assert quiet("mend", paths[2], *paths[:2]) == 3  # it writes over nothing
            os.unlink(paths[2] + ".mended")
    Path(paths[1]).write_bytes(altered)
    Path(paths[2]).write_bytes(good[: gates[3]] + good[gates[-1] :])
    assert quiet("compare", *paths) == 3 and quiet("mend", paths[2], *paths[:2]) == 3
    for path in paths[1:]:  # a majority that was put back is no reason to drop what the other has
        Path(path).write_bytes(good[: gates[9]] + b"\0")
    assert "goes on alone" in quorum.compare(paths).standings[0].said
    with pytest.raises(dragoon.Error, match="look at anchors"):
        quorum.mend(paths)


@pytest.mark.parametrize("bank", ["three"], indirect=True)
def test_nightly_all_books_are_compared(bank):
    put(bank.books[1], 200, b"\x55")
    assert bank.job("validate") == 0
    assert bank.alarms() == {
        "rewritten of book 2"
    }  # one event, though it differs from the others, too
    assert quiet("mend", bank.books[1], bank.books[0], bank.books[2]) == 0
    os.rename(bank.books[1] + ".mended", bank.books[1])
    bank.acknowledge()
    assert bank.job("validate") == 0 and bank.is_quiet


# ---- what earlier versions left


EARLIER = [  # what the files say besides, what is done meanwhile, and the alarms and notices then
    ({}, lambda it: it.rows(300), set(), set()),
    ({}, change, {"altered"}, set()),
    ({}, lambda it: os.truncate(it.store, it.gates()[-1] + 1), {"shorter of store"}, set()),
    ({}, lambda it: put(it.books[0], 90, b"\x55"), {"rewritten of book"}, set()),
    ({"book": ""}, FILES["older"][0], {"shorter of book"}, set()),
    ({"book": ""}, lambda it: None, set(), {"believed of book"}),
    ({"validate": "1 1796112000 altered 3 from 0"}, lambda it: None, {"altered"}, set()),
    ({"book": "garbled", "known": "x"}, lambda it: None, set(), {"believed of book"}),
    (
        {"behind": "bytes", "hidden": "more", "odd": "one\ntwo"},
        lambda it: None,
        set(),
        {"earlier-behind of store", "earlier-hidden of book", "earlier-odd of store"},
    ),
]


@pytest.mark.parametrize("at", range(len(EARLIER)))
def test_what_earlier_versions_left(bank, at):
    said, work, wanted, noticed = EARLIER[at]
    book, tiles = Book.read(bank.books[0]), Book.read(bank.books[0]).tiles(7)
    digest = hashlib.sha256(book.content[: book.end]).hexdigest()
    left = {
        "book": f"7 {tiles} {book.end} {digest} 1796112000 {bank.books[0]}",
        "sealed": f"7 {tiles} 1796112000",
        "length": f"7 {bank.end + 1} 1796112000 0123456789abcdef {bank.store}",
    }
    os.unlink(bank.conf.file("json"))
    for name, text in {**left, **said}.items():
        if text:
            bank.conf.file(name).write_text(text + "\n")
    work(bank)
    bank.job("notarize")
    assert (bank.alarms(), bank.alarms("notice")) == (wanted, noticed)
    assert not bank.conf.file("length").exists()


# ---- confs, STATE, checks, metrics


WHOLE = "STORE=/a\nBOOK=/b\nID=7\nSTATE=/tmp\n"
CONFS = {
    "STORE": "not KEY=VALUE",
    "NAME=x": "none of",
    "ID=07": "a number",
    "ID=7\nID=8": "there twice",
    "ID= 7": "blanks",
    "ID=": "has no value",
    "STORE=a": "from / on",
    "BOOK=/a,b": "from / on",
    "ALG=tiled 1025": "mono, tiled",
    "AHEAD=1h": "seconds",
    "STORE=/x": "no line BOOK=",
    WHOLE.replace("tmp", "nowhere"): "no folder",
    WHOLE.replace("/b", "/a"): "one file twice",
    WHOLE.replace("/b", "/tmp/c.json"): "STATE keeps",
    WHOLE.replace("7", "18446744073709551616"): "too great",
}


@pytest.mark.parametrize("text", CONFS)
def test_confs(tmp_path, text):
    path = tmp_path / "c.conf"
    path.write_text(text + "\n")
    with pytest.raises(conf.ConfError, match=CONFS[text]):
        conf.read_conf(str(path))


GARBLED = [
    lambda text: "",
    lambda text: "[]",
    lambda text: "[" * 100_000,
    lambda text: text[: len(text) // 2],
    lambda text: text.replace('"version": 1', '"version": 2'),
    lambda text: text.replace('"bytes": ', '"bytes": "x", "x": '),
    lambda text: text.replace('"known": []', '"known": [7]'),
]


@pytest.mark.parametrize("edit", GARBLED)
def test_garbled_state(bank, edit):
    path = bank.conf.file("json")
    text = edit(path.read_text())
    path.write_text(text)
    assert bank.job("notarize") == 70 and path.read_text() == text and "garbled" in bank.said


def test_state_is_written_whole(bank, monkeypatch):
    def fails(*_):
        raise OSError(28, "No space left on device")

    before, names = bank.conf.file("json").read_bytes(), os.listdir(bank.keep)
    monkeypatch.setattr(os, "replace", fails)
    assert bank.job("notarize") == 70 and "No space left" in bank.said
    assert bank.conf.file("json").read_bytes() == before and os.listdir(bank.keep) == names


def checked(bank, kind, *more):
    plugin, told = pytest.importorskip("nagiosplugin"), io.StringIO()
    plugin.runtime.Runtime.instance = None
    plugin.runtime.Runtime().stdout = told
    with pytest.raises(SystemExit) as ended:
        cli.main(["check", kind, bank.path, *more])
    return ended.value.code, told.getvalue().splitlines()[0]


def all_checks(bank):
    return [checked(bank, kind)[0] for kind in ("altered", "store", "notary", "fault")]


def test_check_and_metrics(bank, tmp_path):
    pytest.importorskip("prometheus_client")
    out = tmp_path / "m.prom"
    assert all_checks(bank) == [0, 0, 0, 0] and " OK - clean 6" in checked(bank, "altered")[1]
    assert checked(bank, "store", "--room", "99999999:")[0] == 1
    assert checked(bank, "notary", "--late", "0")[0] == 1
    assert quiet("metrics", str(tmp_path), str(out)) == 0
    assert 'dragoon_alarms{kind="store",store="s"} 0.0' in out.read_text()
    change(bank)  # a check sees it before any job does
    status, said = checked(bank, "store")
    assert status == 2 and "isn't what it was" in said and "RUNBOOK, Store" in said
    assert bank.job("validate") == 1 and all_checks(bank) == [2, 2, 0, 0]
    assert "altered 6" in checked(bank, "altered")[1]
    (tmp_path / "x.conf").write_text("nonsense")
    shutil.copy(bank.path, tmp_path / "y.conf")
    assert quiet("metrics", str(tmp_path), str(out)) == 1
    assert "dragoon_wrong_confs 2.0" in out.read_text()
    change(bank)
    bank.acknowledge()
    assert bank.job("validate") == 0 and all_checks(bank) == [0, 0, 0, 0]
    os.unlink(bank.conf.file("json"))
    assert all_checks(bank) == [3, 3, 3, 3] and bank.job("notarize") == 0
    assert checked(bank, "store")[0] == 1
    bank.conf.file("json").write_text("{")
    assert checked(bank, "fault")[0] == 3 and quiet("metrics", str(tmp_path), str(out)) == 1
    assert 'dragoon_looked_after{store="s"} 0.0' in out.read_text()
