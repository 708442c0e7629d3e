"""A ledger answers as one store without a limit, goes on after a kill, and names what is wrong with its files."""
import contextlib
import os
import random
import shutil
import signal
import subprocess
import sys
import threading
import time

import pytest
from conftest import PROGRAM, needs_program

import dragoon
from dragoon import cli, ledger, witness
from dragoon.errors import Broken, Conflict, Error, Fault, InvalidStatement, Locked, Refused
from dragoon.errors import StoreFull
from dragoon.ledger import folder as folders

pytestmark = needs_program
TABLES = {
    "t": (("k", int), ("v", int)),
    "u": (("name", str), ("t", int), ("is_open", bool)),
    "w": (("key", bytes), ("t", int)),
}
MOST_STORES = 9


def keys_of(table):
    return {"t": range(4), "u": ["", "it's", "zwölf"], "w": [b"", b"\0a"]}[table]


class Pair:
    """A ledger, and a store without a limit that gets the same statements."""

    def __init__(self, folder, rng):
        self.rng, self.moment = rng, 0
        self.width, most = rng.choice((1, 5, 60)), rng.choice((150, 300, 700))
        given = self.width, rng.choice((0, 1, 3)), rng.choice(("m", "t", "a", "ta"))
        ledger.make(folder / "many", 7, *given, epoch=1_000, most_bytes=most)
        if rng.random() < 0.3:
            with open(folder / "many" / "ledger.conf", "a") as file:
                file.write(f"PERIOD={rng.choice((20, 90, 'day'))}\n")
        header = folders.header_of(7, 1_000, *given)
        (folder / "one").write_bytes(witness.laid_out(header.fields, []))
        self.path = folder / "many"
        self.many = ledger.connect(self.path, scripted=True, stderr=-3)
        self.one = dragoon.connect(
            folder / "one", notary=folder / "one.book", scripted=True, stderr=-3
        )
        self.one.notarize()

    def close(self):
        self.many.close(), self.one.close()

    def both(self, ask):
        """Asks both the same, and compares what they answer or refuse."""
        found = []
        for db in (self.one, self.many):
            try:
                found.append(ask(db))
            except Refused as why:
                found.append((why.name, why.detail))
        assert found[0] == found[1]
        return found[0]

    def step(self):
        rng = self.rng
        kind = rng.randrange(20)
        if kind < 6:
            self.moment += rng.choice((0, 1, 1, 3, 7, 30))
            self.both(lambda db: db.now(self.moment))
        elif kind < 14:
            self.both(self.change())
        elif kind < 17:
            self.session()
        elif kind < 18:
            self.both(lambda db: [db.notarize()] and None)
        elif kind < 19:
            table = rng.choice(list(TABLES))
            rows = [self.row(table) for _ in range(rng.randrange(6))]
            verb = rng.choice(("insert_many", "update_many"))
            self.both(lambda db: getattr(db, verb)(table, rows, most=2)[:2])
        elif rng.random() < 0.3:
            self.many.roll()
        else:
            self.ask()

    def row(self, table):
        key, rng = self.rng.choice(keys_of(table)), self.rng
        return {"t": (key, rng.choice((None, 0, 1))), "w": (key, rng.randrange(4))}.get(
            table, (key, rng.randrange(4), rng.choice((True, None)))
        )

    def change(self):
        """A statement that stores something, or is refused."""
        verb = self.rng.choice(("create", "insert", "insert", "update", "update", "delete"))
        table = self.rng.choice(list(TABLES))
        row = self.row(table)
        if verb == "create":
            return lambda db: db.create(table, TABLES[table])
        if verb == "delete":
            return lambda db: db.delete(table, row[0])
        return lambda db: getattr(db, verb)(table, *row)

    def session(self):
        work = [self.change() for _ in range(self.rng.randrange(4))]
        table, moment = self.rng.choice(list(TABLES)), self.rng.randrange(self.moment + 1)
        asked = self.rng.choice(
            (
                lambda s: s.scan(table, as_of=moment).all(),
                lambda s: s.history(table, keys_of(table)[0]).all(),
                lambda s: s.over(table, 0, self.moment + 1).all(),
                lambda s: s.get(table, keys_of(table)[0], as_of=moment),
            )
        )
        between = self.change() if self.rng.random() < 0.3 else None
        commits = self.rng.random() < 0.9
        opened = [db.session() for db in (self.one, self.many)]
        pairs = dict(zip((self.one, self.many), opened))

        def then(ask):
            self.both(lambda db: ask(pairs[db]))

        self.both(lambda db: pairs[db].begin())
        then(asked)
        for each in work:
            then(each)
        if between:
            self.both(between)
        then(lambda s: s.commit() if commits else s.abort())
        for each in opened:
            if each.is_open:
                each.abort()

    # ---- questions

    def ask(self):
        table, rng = self.rng.choice(list(TABLES)), self.rng
        key, start = rng.choice(keys_of(table)), rng.randrange(self.moment + 2)
        column, kind = rng.choice(TABLES[table])
        where = (column, rng.choice(("=", "<", ">=")), rng.choice((None, 0, 1, "it's", True)))
        other = rng.choice(list(TABLES))
        span = start, start + rng.choice((-1, 1, 9, 90, 500))
        on = rng.choice(TABLES[table])[0], rng.choice(TABLES[other])[0]
        if span[1] >= 0 and start <= self.moment:
            self.both(lambda db: db.over(table, *span).all())
            self.both(lambda db: db.over(table, *span, where).all())
            self.both(lambda db: db.join(table, other, on, *span).all())
            self.both(lambda db: db.join("u", "t", ("t", "k"), *span).all())
        self.both(lambda db: db.scan(table, where).all())
        self.both(lambda db: db.history(table, key).all())

    def ask_all(self):
        """Every question at every moment."""
        for table in TABLES:
            self.both(lambda db: db.scan(table).all())
            self.both(lambda db: db.over(table, 0, self.moment + 9).all())
            for moment in range(self.moment + 1):
                self.both(lambda db: db.scan(table, as_of=moment).all())
            for key in keys_of(table):
                self.both(lambda db: db.history(table, key).all())
                self.both(lambda db: db.get(table, key))
                for moment in self.rng.sample(range(self.moment + 1), min(9, self.moment + 1)):
                    self.both(lambda db: db.get(table, key, as_of=moment))
        for _ in range(20):
            self.ask()


def answers_as_one(folder, seed):
    rng = random.Random(seed)
    pair = Pair(folder, rng)
    try:
        pair.both(lambda db: db.now(0))
        for _ in range(rng.randrange(20, 160)):
            pair.step()
            if len(pair.many.folder.members) == MOST_STORES:
                break
        pair.ask_all()
    finally:
        pair.close()
    return len(pair.many.folder.members)


@pytest.mark.parametrize("tens", range(10))
def test_answers_are_those_of_one_store_without_a_limit(tmp_path, tens):
    for seed in range(10 * tens, 10 * tens + 10):
        (tmp_path / str(seed)).mkdir()
        answers_as_one(tmp_path / str(seed), seed)


@pytest.mark.faults
@pytest.mark.parametrize("tens", range(10, 100))
def test_a_thousand_ledgers_answer_as_one_store(tmp_path, tens):
    test_answers_are_those_of_one_store_without_a_limit(tmp_path, tens)


# ---- a kill at each step


@pytest.fixture
def bank(tmp_path):
    """A ledger of two stores, whose last one has rows of its own."""
    path = tmp_path / "bank"
    ledger.make(path, 7, 5, 1, epoch=1_000)
    with ledger.connect(path, scripted=True) as db:
        db.create("t", {"k": int, "v": str})
        db.create("empty", {"k": int})
        db.insert_many("t", ((k, f"first {k}") for k in range(300)))
        db.now(30)
        db.roll()
        db.now(40)
        db.update("t", 3, "second")
        db.delete("t", 4)
        db.insert("t", 900, "own")
        db.now(60)
        db.notarize()
    return path


def held(path):
    """What a ledger says of its rows. The last process may still be ending."""
    with patient(path) as db:
        rows = db.scan("t").all()
        found = [db.history("t", k).all() for k in (3, 4, 5, 900)], db.over("t", 0, 90).all()
        return rows, found, [db.scan("t", as_of=it).all() for it in (0, 39, 40)]


def patient(path):
    until = time.monotonic() + 60
    while True:
        try:
            return ledger.connect(path, scripted=True)
        except Locked:
            assert time.monotonic() < until
            time.sleep(0.01)


def roll_and_die(path, step):
    """Rolls over in a process that is killed before its call of this number. The answer is whether it was, and how many calls there were."""
    reading, writing = os.pipe()
    child = os.fork()
    if not child:
        db, count = ledger.connect(path, scripted=True), 0

        def profile(frame, event, what):
            nonlocal count
            if event in ("call", "c_call") and "dragoon" in frame.f_code.co_filename:
                count += 1
                if count == step:
                    os.kill(os.getpid(), signal.SIGKILL)

        sys.setprofile(profile)
        db.roll()
        sys.setprofile(None)
        os.write(writing, str(count).encode())
        os._exit(0)
    os.close(writing)
    with os.fdopen(reading) as file:
        count = file.read()
    return os.WIFSIGNALED(os.waitpid(child, 0)[1]), int(count or 0)


def goes_on(path, before):
    """After whatever happened to a rollover: all is there once, and the ledger goes on."""
    assert held(path) == before
    with patient(path) as db:
        count = len(db.folder.members)
        db.now(70)
        number = db.insert("t", 901, "after")
        db.roll()
        assert len(db.folder.members) == count + 1 and count in (2, 3)
        assert db.insert("t", 902, "more") == number + 1
        db.now(99)
        db.notarize()
    assert ledger.validate(path).status == 0
    assert not list(path.glob("*.new"))


def kills(bank, steps_of):
    before = held(bank)
    shutil.copytree(bank, bank.parent / "kept")
    killed, count = roll_and_die(bank, -1)
    assert not killed and count > 500
    for step in steps_of(count):
        shutil.rmtree(bank)
        shutil.copytree(bank.parent / "kept", bank)
        killed, count = roll_and_die(bank, step)
        assert killed or count < step  # how many calls there are differs a little
        goes_on(bank, before)


@pytest.mark.parametrize("part", range(10))
def test_a_kill_in_a_rollover_loses_nothing(bank, part):
    kills(bank, lambda count: [1 + (part * count + count // 2) // 10])


@pytest.mark.faults
@pytest.mark.parametrize("part", range(20))
def test_a_kill_at_each_step_of_a_rollover(bank, part):
    kills(bank, lambda count: range(1 + part, count, 20))


def test_a_program_that_ends_in_a_rollover(bank, tmp_path):
    """Each process that a rollover starts ends at once, in turn."""
    before = held(bank)
    for count in range(1, 6):
        program, tally = tmp_path / f"program{count}", tmp_path / f"tally{count}"
        program.write_text(
            f'#!/bin/sh\necho >>{tally}\n[ "$(wc -l <{tally})" -ne {count + 1} ] || exit 9\n'
            f'exec {PROGRAM} "$@"\n'
        )
        program.chmod(0o755)
        with contextlib.suppress(Error):
            ledger.roll(bank, scripted=True, program=str(program))
        assert len(tally.read_text()) >= min(count, 4)
        assert held(bank) == before
    assert len(ledger.folder.read(str(bank)).members) >= 3 and ledger.validate(bank).status != 1


def test_a_rollover_that_is_refused_changes_nothing(bank, monkeypatch):
    before = held(bank)
    with ledger.connect(bank, scripted=True) as db:
        monkeypatch.setattr("dragoon.ledger.database.NEARLY_FULL", 1_000)
        with pytest.raises(StoreFull, match="the rows of now fill a store"):
            db.roll()
        monkeypatch.undo()
    assert held(bank) == before
    changed("0002.store", b"second", b"secund")(bank)
    with pytest.raises(Broken):
        ledger.roll(bank, scripted=True)
    assert sorted(content(bank)) == ["0001.store", "0002.store", "ledger.book", "ledger.conf"]


ROLLER = """
import sys
from dragoon import ledger
from dragoon.errors import Locked
first, path = int(sys.argv[1]), sys.argv[2]
for key in range(first, first + 8):
    while True:
        try:
            with ledger.connect(path) as db:
                db.insert("t", key, "mine")
                if key % 3 == 0:
                    db.roll()
                break
        except Locked:
            pass
"""


def test_processes_that_roll_over_and_store_at_once(tmp_path):
    path = tmp_path / "bank"
    ledger.make(path, 7)
    with ledger.connect(path) as db:
        db.create("t", {"k": int, "v": str})
        with pytest.raises(Locked):
            ledger.roll(path)
    environment = {**os.environ, "PYTHONPATH": os.path.dirname(os.path.dirname(dragoon.__file__))}
    all = [
        subprocess.Popen([sys.executable, "-c", ROLLER, str(first), path], env=environment)
        for first in (0, 100, 200)
    ]
    assert [it.wait(120) for it in all] == [0, 0, 0]
    with ledger.connect(path) as db:
        keys = sorted(row[0] for row in db.scan("t"))
        assert keys == [first + at for first in (0, 100, 200) for at in range(8)]
        assert len(db.folder.members) == 9
        assert all_once(db, keys)


def all_once(db, keys):
    return all(len(db.history("t", key).all()) == 1 for key in keys)


def test_threads_store_while_it_rolls_over(tmp_path):
    ledger.make(tmp_path / "bank", 7, most_bytes=2_000)
    failed = []
    with ledger.connect(tmp_path / "bank") as db:
        db.create("t", {"k": int, "v": str})

        def work(first):
            try:
                for key in range(first, first + 30):
                    db.transact(lambda s: (s.get("t", key), s.insert("t", key, "x" * 50)), 99)
                    db.history("t", first)
                    db.insert_many("t", [(key + 1_000, "y"), (key + 2_000, "z")])
            except BaseException as why:
                failed.append(why)

        threads = [threading.Thread(target=work, args=(100 * at,)) for at in range(4)]
        [it.start() for it in threads]
        [it.join() for it in threads]
        assert not failed and len(db.folder.members) > 3
        keys = [
            100 * at + n + more for at in range(4) for n in range(30) for more in (0, 1_000, 2_000)
        ]
        assert sorted(row[0] for row in db.scan("t")) == sorted(keys)
        assert all_once(db, keys[::17])


# ---- files that aren't as they have to be


def moved(name, to):
    return lambda path: (path / name).rename(path / to)


def copied(name, to):
    return lambda path: shutil.copyfile(path / name, path / to)


def written(name, data=b""):
    return lambda path: (path / name).write_bytes(data)


def swapped(path):
    moved("0001.store", "x")(path), moved("0002.store", "0001.store")(path)
    moved("x", "0002.store")(path)


WRONG = {
    "no conf": (moved("ledger.conf", "../x"), "missing ledger.conf"),
    "an empty conf": (written("ledger.conf"), "ConfError"),
    "a damaged conf": (written("ledger.conf", b"ID=7\nBYTES=x\n"), "ConfError"),
    "a conf of another id": (written("ledger.conf", b"ID=8\n"), "other-id 0001.store"),
    "no first store": (moved("0001.store", "../x"), "missing 0001.store"),
    "no store between": (moved("0002.store", "0003.store"), "missing 0002.store"),
    "an empty store": (written("0002.store"), "empty 0002.store"),
    "a damaged store": (written("0002.store", b"\xa7DRAGOON2" + bytes(60)), "damaged 0002.store"),
    "another store": (
        written("0002.store", b"\xa7DRAGOON2" + bytes(18) + b"\1" + bytes(37)),
        "other-id 0002.store",
    ),
    "stores that are swapped": (swapped, "twice 0001.store"),
    "a store twice": (copied("0002.store", "0003.store"), "twice 0003.store"),
    "a store under two names": (copied("0002.store", "00002.store"), "stranger 00002.store"),
    "a copy": (copied("0001.store", "0001.store.bak"), "stranger 0001.store.bak"),
    "a folder": (lambda path: (path / "notes").mkdir(), "stranger notes"),
    "store 0": (copied("0001.store", "0000.store"), "stranger 0000.store"),
    "no book": (moved("ledger.book", "../x"), "missing ledger.book"),
    "an empty book": (written("ledger.book"), "empty ledger.book"),
    "a damaged book": (written("ledger.book", b"\xa7DRAGBOK2" * 20), "damaged ledger.book"),
    "a store as book": (copied("0001.store", "ledger.book"), "damaged ledger.book"),
    "no end of the border": (
        lambda path: os.truncate(path / "0002.store", 200),
        "damaged 0002.store",
    ),
}


def content(path):
    return {it.name: it.read_bytes() for it in path.iterdir() if it.is_file()}


@pytest.mark.parametrize("what", WRONG)
def test_what_is_wrong_is_named_and_nothing_is_changed(bank, what):
    harm, named = WRONG[what]
    kept, before = content(bank), held(bank)
    harm(bank)
    harmed = content(bank)
    with pytest.raises(Error) as caught:
        ledger.connect(bank)
    why = caught.value
    said = f"{why.name} {why.file}" if isinstance(why, ledger.Unfit) else type(why).__name__
    assert said.startswith(named)
    assert content(bank) == harmed
    if isinstance(why, ledger.Unfit) and why.file != "ledger.conf":
        proof = ledger.validate(bank)
        assert proof.status in (1, 3) and why.file[:4] in "\n".join(proof.lines)
    for it in bank.iterdir():
        it.rmdir() if it.is_dir() else it.unlink()
    for name, data in kept.items():
        (bank / name).write_bytes(data)
    assert held(bank) == before


def test_what_make_refuses(tmp_path):
    (tmp_path / "full").mkdir()
    (tmp_path / "full" / "x").write_text("x")
    for wrong in (
        {"granule": 0},
        {"exponent": 11},
        {"algorithms": "x"},
        {"id": (1 << 64) - 9_999},
        {"epoch": 1 << 40},
        {"most_bytes": 0},
    ):
        with pytest.raises(InvalidStatement):
            ledger.make(tmp_path / "new", **{"id": 7, **wrong})
    with pytest.raises(Fault, match="AlreadyThere"):
        ledger.make(tmp_path / "full", 7)
    assert sorted(it.name for it in tmp_path.iterdir()) == ["full"]


def test_the_tables_of_a_border_are_the_ledgers(bank):
    with ledger.connect(bank, scripted=True) as db:
        for call in (
            lambda: db.create("dragoon_before", {"k": int}),
            lambda: db.delete("dragoon_carried", 1),
        ):
            with pytest.raises(InvalidStatement, match="own"):
                call()
        with db.session() as session, pytest.raises(InvalidStatement):
            session.insert("dragoon_before", "1", 2, "")


# ---- proving


def changed(name, old, new, last=False):
    def change(path):
        data = (path / name).read_bytes()
        at = data.rindex(old) if last else data.index(old)
        (path / name).write_bytes(data[:at] + new + data[at + len(old) :])

    return change


def other_chain(path):
    data = (path / "0002.store").read_bytes()
    at = data.index(b"\2\0\x40") + 3  # the first text of 64 letters
    other = b"1" if data[at : at + 1] == b"0" else b"0"
    (path / "0002.store").write_bytes(data[:at] + other + data[at + 1 :])


ALTERED = {
    "a row of a closed store": (changed("0001.store", b"first 9", b"first X"), "0001 id 7 altered"),
    "a row that is carried over": (
        changed("0002.store", b"first 9", b"first X"),
        "carries otherwise than 0001.store has at its end: row 9 of table t",
    ),
    "a tie's chain": (other_chain, "isn't tied to 0001.store"),
    "how many rows a border has": (changed("0002.store", b"\0\0\1\x2c", b"\0\0\1\x2d"), "its end"),
    "a closed store that is an older copy": (copied("../older", "0001.store"), "0001 id 7 altered"),
}


@pytest.mark.parametrize("what", ALTERED)
@pytest.mark.parametrize("is_filed", [True, False])
def test_what_is_altered_is_named(tmp_path, what, is_filed):
    path = tmp_path / "bank"
    ledger.make(path, 7, 5, 1, epoch=1_000)
    shutil.copyfile(path / "0001.store", tmp_path / "older")
    with ledger.connect(path, scripted=True) as db:
        db.create("t", {"k": int, "v": str})
        db.insert_many("t", ((k, f"first {k}") for k in range(300)))
        db.now(30)
        db.roll()
        db.now(90 if is_filed else 31)
        db.insert("t", 900, "own")
        db.notarize()
    assert ledger.validate(path).status == 0
    harm, named = ALTERED[what]
    harm(path)
    proof = ledger.validate(path, jobs=2)
    assert proof.status == 1 and named in "\n".join(proof.lines), proof


def test_a_last_store_that_is_gone_is_missed(bank):
    (bank / "0002.store").unlink()
    proof = ledger.validate(bank)
    assert proof.status == 3 and "missing: 0002.store" in proof.lines[0]


def test_what_was_clean_is_known(bank, tmp_path, monkeypatch):
    (tmp_path / "state").mkdir()
    whole = ledger.validate(bank, state=str(tmp_path / "state"))
    assert whole.status == 0
    calls = []
    call = ledger.proving.Task.call
    monkeypatch.setattr(
        ledger.proving.Task,
        "call",
        lambda it, *given: calls.append(it.member.number) or call(it, *given),
    )
    assert ledger.validate(bank, state=str(tmp_path / "state")) == whole
    assert set(calls) == {2}
    assert ledger.validate(bank, state=str(tmp_path / "state"), again=True) == whole
    assert 1 in calls
    changed("0001.store", b"first 9", b"first X")(bank)
    assert ledger.validate(bank, state=str(tmp_path / "state")).status == 1


def test_a_closed_store_that_is_not_filed_to_its_end_is_no_clean_one(tmp_path):
    ledger.make(tmp_path / "bank", 7, 60, 3, epoch=1_000)
    with ledger.connect(tmp_path / "bank", scripted=True) as db:
        db.now(10)
        db.create("t", {"k": int})
        db.roll()
        proof = ledger.validate(tmp_path / "bank")
        assert proof.status == 3 and "tile 0 isn't filed" in proof.lines[0]
        db.now(479)
        db.notarize()
        assert ledger.validate(tmp_path / "bank").status == 3
        db.now(480)
        db.notarize()
        assert ledger.validate(tmp_path / "bank").status == 0


def test_what_the_commands_print(tmp_path, capfd):
    path = str(tmp_path / "bank")

    def said(*words, status=0):
        assert cli.main(["ledger", *words]) == status
        return capfd.readouterr().out.splitlines()

    assert said("make", path, "7", "--granule", "1", "--exponent", "0", "--epoch", "0") == [
        "ready 7"
    ]
    shutil.rmtree(path)
    assert said("make", path, "7", "--granule", "1", "--exponent", "0") == ["ready 7"]
    create, insert = "create t k int v int", "insert t 1 5"
    assert said("ask", path, create, insert, insert, status=3) == [
        "ok 1",
        "ok 2",
        "refused RowExists",
    ]
    assert said("roll", path, "--granule", "60") == ["store 2 id 8"]
    asked = said(
        "ask", path, "update t 1 6", "get t 1", "scan t", "history t 1", "get u 1", status=3
    )
    assert asked[:4] == ["ok 3", "row 1 6", "row 1 6", "rows 1"] and asked[-1] == "refused NoTable"
    assert [it.split()[4:] for it in asked[4:6]] == [["1", "5"], ["1", "6"]]
    time.sleep(1.1)
    assert said("notarize", path) == ["sealed 0"]
    state = ["--state", str(tmp_path), "--jobs", "2"]
    proved = said("validate", path, *state)
    assert proved[1:] == ["0002 id 8 clean 0", proved[2]] and " clean: 2 stores" in proved[2]
    assert said("validate", path, *state, "--only", "1")[0] == proved[0]
    assert said("link", path)[0] == "0001 txns 2"
    assert said("inspect", path)[0].startswith("0001 inspected store 3 ")
    assert said("analyse", path, "a3d")[1] == "0002 report a3d id 8 tiles 0 clean"
    assert said("validate", str(tmp_path), status=3) == []


def test_a_ledger_that_nothing_was_stored_in_for_long(tmp_path):
    """Its first store has had its last granule."""
    ledger.make(tmp_path / "bank", 7, 1, 10, "m", epoch=int(time.time()) - 2_000_000)
    with ledger.connect(tmp_path / "bank") as db:
        assert db.create("t", {"k": int}) == 1
        assert len(db.folder.members) == 2 and db.get("t", 1) is None
    assert ledger.validate(tmp_path / "bank").status == 0


# ---- the service


def test_the_service_of_a_ledger(tmp_path):
    path, conf = tmp_path / "bank", tmp_path / "b.conf"
    ledger.make(path, 7, 1, 0, most_bytes=400)
    first = f"STORE={path} BOOK={path}/ledger.book ID=7 STATE={tmp_path} PROGRAM={PROGRAM}"
    conf.write_text(first.replace(" ", "\n") + "\n")
    environment = {**os.environ, "PYTHONPATH": os.path.dirname(os.path.dirname(dragoon.__file__))}
    call = [sys.executable, "-m", "dragoon.cli", "serve", str(conf)]

    def serving():
        process = subprocess.Popen(call, env=environment, stderr=subprocess.DEVNULL)
        while True:
            with contextlib.suppress(OSError):
                return process, dragoon.connect(socket=str(tmp_path / "b.socket"))
            assert process.poll() is None
            time.sleep(0.05)

    process, db = serving()
    try:
        assert db.id == 7 and db.create("t", {"k": int, "v": str}) == 1
        for key in range(20):
            assert db.insert("t", key, "it's") == 2 * key + 2
            assert db.update("t", key, f"{key}") == 2 * key + 3
        assert len(ledger.folder.read(str(path)).members) > 3
        with db.session() as session:
            assert len(session.history("t", 0).all()) == 2
            assert len(session.scan("t", as_of=db.clock()).all()) == 20
            session.insert("t", 100, "in a session")
        assert session.transaction == 42
        with pytest.raises(Conflict, match="43"), db.session() as session:
            session.over("t", 0, 1).all()
            db.insert("t", 101, "meanwhile")
            session.insert("t", 102, "too late")
        assert db.notarize() >= 0 and not db.validate().is_altered
        db.close()
        process.terminate()
        assert process.wait(60) == 0
        ledger.roll(path)
        process, db = serving()
        found = [tuple(it) for it in db.over("t", 0, 1 << 30)], db.history("t", 7).all()
        assert db.insert("t", 103, "later") == 44
    finally:
        db.close()
        process.terminate()
    assert process.wait(60) == 0
    with ledger.connect(path) as db:
        assert ([tuple(it) for it in db.over("t", 0, 1 << 30)][:20], db.history("t", 7).all()) == (
            found[0][:20],
            found[1],
        )
        assert len(db.scan("t").all()) == 23
    time.sleep(1.1)
    with ledger.connect(path) as db:
        db.notarize()
    assert ledger.validate(path).status == 0
