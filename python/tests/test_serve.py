"""The service: connections, sessions, rights, slow and hostile clients, faults. Each test has a service of its own."""
import contextlib
import json
import os
import random
import shutil
import signal
import subprocess
import sys
import tempfile
import threading
import time
from pathlib import Path

import pytest

import dragoon
from conftest import PROGRAM, needs_program, put, run
from dragoon.formats import Book, Store
from dragoon.transport import Socket, is_locked

pytestmark = needs_program
ENVIRONMENT = {**os.environ, "PYTHONPATH": str(Path(dragoon.__file__).parents[1])}
START = """
import sys
from dragoon.ops import connection, serve
from dragoon.cli import main
{}
sys.exit(main(sys.argv[1:]))
"""


class Service:
    """A service of a store. `lines` are more lines of its config file, and `code` changes its limits."""

    def __init__(self, folder, *options, lines=(), code="", program=PROGRAM, **files):
        self.store, self.book = (files.get(it, folder / f"s.{it}") for it in ("store", "book"))
        self.conf = folder / "s.conf"
        if not self.store.exists():
            dragoon.make(str(self.store), 7, granule=1, exponent=0, program=PROGRAM)
            run(f"store={self.store}", f"notary={self.book}", "notarize", 7, expect=0)
        first = f"STORE={self.store} BOOK={self.book} ID=7 STATE={folder} ALG=a3d PROGRAM={program}"
        self.conf.write_text("\n".join([*first.split(" "), *lines, ""]))
        self.path = str(folder / "s.socket")
        self.call = [sys.executable, "-c", START.format(code), "serve", str(self.conf), *options]

    def start(self):
        more = {"env": ENVIRONMENT, "stderr": subprocess.PIPE, "text": True}
        self.process = subprocess.Popen(self.call, **more)
        return self

    def begin(self):
        self.start()
        while self.process.poll() is None:
            with contextlib.suppress(OSError), contextlib.closing(self.connect()) as it:
                if it.ask(".hello"):
                    break
            time.sleep(0.02)
        return self

    def connect(self, *lines):
        it = Connection(self.path)
        for line in lines:
            it.ask(line)
        return it

    def database(self):
        return dragoon.connect(socket=self.path)

    def figures(self):
        with contextlib.closing(self.connect()) as it:
            words = it.ask(".metrics").split()
        return dict(zip(words[1::2], words[2::2]))

    def end(self, *statuses):
        """What it said, once it has ended with one of these statuses. Without any it is stopped."""
        if not statuses and self.process.poll() is None:
            self.process.send_signal(signal.SIGTERM)
        _, said = self.process.communicate(timeout=60)
        assert self.process.returncode in (statuses or (0,)) and "Traceback" not in said, said
        return said


class Connection(Socket):
    def __init__(self, path):
        super().__init__(path)
        self.socket.settimeout(30)

    def send(self, *lines):
        self.socket.sendall("".join(f"{line}\n" for line in lines).encode())

    def ask(self, *lines):
        self.send(*lines)
        replies = [self.read().decode() for _ in lines]
        return replies if lines[1:] else replies[0]

    def talk(self, *table):
        """Sends a line, then comes its reply, then another line, and so on. All lines are sent at once."""
        self.send(*table[::2])
        wanted, found = "".join(f"{it}\n" for it in table[1::2]), b""
        while len(found) < len(wanted.encode()) and (data := self.socket.recv(1 << 16)):
            found += data
        assert found.decode() == wanted


@pytest.fixture
def service(tmp_path):
    it = Service(tmp_path).begin()
    yield it
    it.end()


def at_once(count, work):
    """Calls it in so many threads, each with its number."""
    threads = [threading.Thread(target=work, args=(at,)) for at in range(count)]
    [it.start() for it in threads]
    [it.join() for it in threads]


# ---- lines and replies

SYNTAX = "refused Syntax", "the line is not in the grammar"
REPLIES = [
    ("create t k int v text", "ok 1", ""),
    ("insert t 1 'rows 3'", "ok 2", ""),
    ("  get  t 1", "row 1 'rows 3'", ""),
    ("get t 2\r", "none", ""),
    ("insert t 1 'x'", "refused RowExists", "a row with this key exists"),
    ("insert t 'x' 'x'", "refused BadType 1", "the value of column 1"),
    *((it, *SYNTAX) for it in ("s16 begin", "begin", "s1 validate", ".nonsense", "get\tt 1")),
    *((it, *SYNTAX) for it in ("x" * 65_537, "insert t 2 '" + "x" * 65_000, "insert t 3 'a\0b'")),
    ("now 5", "refused NotScripted", "`now` is taken only by"),
    ("s3 get t 1", "refused NoSession", "the session has not begun"),
    (".columns none", "refused NoTable", "there is no table"),
    ("scan none", "refused NoTable", "there is no table"),
    ("scan t", "row 1 'rows 3'\nrows 1", ""),
    ("over 9 to 9 select t", "refused NoSpan", "the span has no moment"),
    (".tables", "tables t", ""),
    (".columns t", "columns k int v text", ""),
]


@pytest.mark.parametrize("is_verbose", [False, True])
def test_replies(service, is_verbose):
    one = service.connect(*[".verbose"] * is_verbose)
    one.send(*(f"\n# \0 no line\n{line}" for line, _, _ in REPLIES))
    for line, replies, reason in REPLIES:
        for reply in replies.split("\n"):
            found, _, said = one.read().decode().partition(" # ")
            if is_verbose and found.startswith("ok "):
                found, _, moment = found.partition(" at ")
                stored = list(Store.read(service.store).transactions())
                assert moment == str(stored[int(found[3:]) - 1].moment)
            assert found == reply, line
            assert said.startswith(reason) if is_verbose else not said


def test_what_is_no_line_does_nothing(service):
    """Half lines, a megabyte without an end, random bytes, and closing amid a reply, by 200 connections at once."""
    one, chance = service.connect("create t k int v bytes"), random.Random(1)
    sent = [b"insert t 1 x'", b"x" * (1 << 20), chance.randbytes(5_000), b"scan t\nget t"]
    others = [service.connect() for _ in range(200)]
    for at, other in enumerate(others):
        other.socket.settimeout(0.001)
        with contextlib.suppress(OSError):
            other.socket.sendall(sent[at % 4])
        if at % 2:
            other.close()
    one.talk("insert t 1 x'00'", "ok 2", "get t 1", "row 1 x'00'")
    others[0].socket.settimeout(30)
    assert others[0].ask("01'") == "refused RowExists"
    while int(service.figures()["connections"]) > 102:
        time.sleep(0.02)


def test_a_planted_line_feed_shifts_no_reply(tmp_path):
    it = Service(tmp_path).begin()
    it.connect("create t k int", "insert t 1", "create x k text", "insert x 'z'")
    it.end()
    content, header = it.store.read_bytes(), Store.read(it.store).header
    moment = (int(time.time()) - header.epoch).to_bytes(8, "big")
    for at, text in enumerate((b"a\nrows 1", b"b\nrows 9\n", b"fault x\nfault DiskFault")):
        row = b"\0\1\2\1x\1\2" + len(text).to_bytes(2, "big") + text
        item = b"\1" + (5 + at).to_bytes(4, "big") + moment + row
        content = content[:-1] + b"\xa7" + len(item).to_bytes(4, "big") + item + b"\0"
    it.store.write_bytes(content)
    one, other = it.begin().connect(), it.connect()
    rows = "row 'a\nrows 1'\nrow 'b\nrows 9\n'\nrow 'fault x\nfault DiskFault'\nrow 'z'\nrows 4"
    one.talk("scan x", rows, "get t 1", "row 1", "get t 2", "none")
    assert other.ask("get t 1") == "row 1"
    it.end()


# ---- sessions


def test_sessions_belong_to_connections(service):
    one, other = service.connect("create t k int", "s0 begin"), service.connect("s0 begin")
    assert one.ask("s0 insert t 1") == "ok" and other.ask("s0 insert t 2") == "ok"
    other.talk("s1 commit", "refused NoSession", "s0 get t 1", "none", "s0 abort", "ok")
    one.talk("s0 commit", "ok 2", "scan t", "row 1\nrows 1")
    for at in range(4):
        gone = service.connect()
        assert gone.ask(*(f"s{it} begin" for it in range(16))) == ["ok"] * 16
        gone.send(*["s0 create x k int"] * (at % 2))
        gone.close()
    service.connect().talk("s0 begin", "ok", "get x 1", "refused NoTable")


def test_a_session_that_ends_is_free(service):
    """Each way in which one ends, forty times: sixteen would not do if one was lost."""
    one, ways = service.connect("create t k int v int"), []
    for at in range(40):
        ways += [f"s{at % 16} begin now", "refused Syntax", "s0 begin", "ok"]
        ways += [f"s0 insert t {at} 1", "ok", "s0 commit", f"ok {2 * at + 2}"]
        ways += ["s1 begin", "ok", "s1 begin", "refused SessionOpen", "s1 abort", "ok"]
        ways += ["s2 begin", "ok", f"s2 update t {at} 2", "ok"]
        ways += [f"update t {at} 3", f"ok {2 * at + 3}"]
        ways += ["s2 commit", f"refused Conflict {2 * at + 3}"]
    one.talk(*ways)
    assert service.figures()["sessions"] == "0"


def test_a_begin_waits_for_a_session(tmp_path):
    it = Service(tmp_path, code="serve.SESSION_WAIT, serve.IDLE = 1, 3").begin()
    one, other = it.connect(*(f"s{at} begin" for at in range(16))), it.connect()
    other.send("s5 begin")
    assert it.connect().ask("get t 1") == "refused NoTable"  # others go on meanwhile
    assert one.ask("s3 abort") == "ok" and other.read() == b"ok"
    assert other.ask("s6 begin") == "refused Busy"
    time.sleep(3)  # from now on those without a line for so long may be taken
    other.talk("s5 get t 1", "refused NoTable", "s6 begin", "ok")
    assert one.ask("s0 abort", "s1 abort", "s2 abort").count("refused NoSession") == 1
    it.end()


def test_the_client_while_runs_are_renewed(tmp_path):
    """A run takes so much input. Another one is begun meanwhile, and no session is dropped that ends soon."""
    it = Service(tmp_path, code="serve.INPUT_LIMIT = 80_000").begin()
    filled(it, 100)

    def add(seed):
        with it.database() as db:
            for at in range(20):
                key, text = (seed + at) % 10, f"{seed} {at} " + "x" * 300
                db.transact(lambda s: s.update("t", s.get("t", key)[0], text), retries=1_000)

    at_once(16, add)
    with it.database() as db:
        assert sum(len(db.history("t", key).all()) - 1 for key in range(10)) == 320
        assert int(it.figures()["runs"]) > 1
        with pytest.raises(dragoon.RowExists) as found:
            db.insert_many("t", [(9_000, "y"), (5, "y")])
        assert found.value.at == 1 and db.get("t", 9_000) is None
    it.end()


# ---- no client delays another


def filled(service, rows):
    with service.database() as db:
        db.create("t", {"k": int, "v": str})
        assert db.insert_many("t", [(k, "x" * 100) for k in range(rows)]).rows == rows


def longest(db, count=20):
    """The seconds of the longest of some reads of a row."""
    found = []
    for _ in range(count):
        begin = time.monotonic()
        assert db.get("t", 5)
        found.append(time.monotonic() - begin)
    return max(found)


def test_a_client_that_reads_nothing_delays_no_one(tmp_path):
    it = Service(tmp_path, code="connection.READER_WAIT = 2").begin()
    filled(it, 3_000)
    with it.database() as db:
        before, slow = longest(db), it.connect()
        slow.socket.setblocking(False)
        with pytest.raises(BlockingIOError):
            for _ in range(100_000):
                slow.socket.send(b"scan t\n")
        assert longest(db) < before + 1
        time.sleep(4)
        assert it.figures()["connections"] == "2" and db.get("t", 5)
    it.end()


@pytest.mark.parametrize("reads", [True, False])
def test_a_scan_delays_others_by_its_own_work_alone(tmp_path, reads):
    it = Service(tmp_path).begin()
    filled(it, 25_000)
    it.end()

    def seconds(*lines):
        begin = time.monotonic()
        run(f"store={it.store}", "run", 7, given="".join(f"{line}\n" for line in lines), expect=0)
        return time.monotonic() - begin

    own = seconds("scan t", "get t 5") - seconds("get t 5")
    with it.begin().database() as db:
        before, one = longest(db), it.connect()
        one.send("scan t")
        if reads:
            threading.Thread(target=lambda: [one.read() for _ in range(25_001)]).start()
        assert longest(db) < before + max(own, 0) + 1
    it.end()


# ---- who may do what

LINES = {
    "ask": ["get t 1", "s0 begin", "s0 commit", ".tables"],
    "write": ["insert t 1", "s0 update t 1", "  delete  t 1"],
    "create": ["create t k int", "s0 create t k int"],
    "file": ["notarize", "validate", "audit", "analyse a3d"],
    "policy": ["policy 0 ta"],
}
# lines of the config file; and what accounts with these groups may do then
FEW, MORE = ["MAY_ASK=bin", "MAY_WRITE=-"], ["MAY_CREATE=@", "MAY_FILE=man @news"]
RIGHTS = [
    ([], "daemon nogroup", "ask write create file policy"),
    ([], "bin games", "ask write"),
    ([], "bin nogroup games", "ask write"),
    ([], "bin nogroup", ""),
    ([], "root root", ""),
    (FEW, "bin nogroup", "ask"),
    (FEW, "man games", ""),
    (MORE, "bin games", "ask write create"),
    (MORE, "man nogroup", "file"),
    (MORE, "bin nogroup news", "file"),
]
AS_ACCOUNT = """
import sys
from dragoon.transport import Socket
it, lines = Socket(sys.argv[1]), sys.stdin.buffer.readlines()
it.write(b"".join(lines))
for _ in lines:
    print(it.read().decode())
"""


@pytest.mark.skipif(os.geteuid() != 0, reason="only root can be other accounts")
@pytest.mark.parametrize("lines", [[], FEW, MORE])
def test_rights_depend_on_the_account(lines):
    folder = Path(tempfile.mkdtemp())
    folder.chmod(0o755)
    it = Service(folder, lines=lines)
    shutil.chown(it.conf, "daemon", "games")
    it.begin()
    for account, allowed in [row[1:] for row in RIGHTS if row[0] == lines]:
        user, group, *more = account.split()
        who = {"user": user, "group": group, "extra_groups": more, "cwd": "/"}
        given = "".join(f"{line}\n" for asked in LINES.values() for line in asked).encode()
        call = [sys.executable, "-c", AS_ACCOUNT, it.path]
        done = subprocess.run(call, input=given, env=ENVIRONMENT, capture_output=True, **who)
        replies = done.stdout.decode().splitlines()
        if not allowed:
            assert replies[0] == "refused NotAllowed connect"
        for right, asked in LINES.items() if allowed else ():
            found = {replies.pop(0).startswith("refused NotAllowed") for _ in asked}
            assert found == {right not in allowed.split()}, (account, right)
    it.end()
    shutil.rmtree(folder)


def test_each_commit_has_a_row_of_who(tmp_path):
    it = Service(tmp_path, lines=["WHO=yes"]).begin()
    one, no = it.connect("create t k int v int"), "refused NotAllowed write dragoon_who"
    one.talk("insert t 1 0", "ok 3", "insert t 1 0", "refused RowExists")
    one.talk("s0 begin", "ok", "s0 insert t 2 0", "ok", "s0 insert t 3 0", "ok")
    one.talk("s0 commit", "ok 4", "s0 begin", "ok", "s0 get t 1", "row 1 0", "s0 commit", "ok")
    rows = [it for at in range(100, 356) for it in (f"s0 insert t {at} 0", "ok")]
    one.talk("s0 begin", "ok", *rows, "s0 commit", "refused TooManyOps", "s0 abort", "ok")
    one.talk("insert  dragoon_who 1 'root'", no, "s1 begin", "ok", "s1 delete dragoon_who 1", no)
    one.talk(".tables", "tables dragoon_who t")

    def update(seed):
        one = it.connect()
        assert all(one.ask(f"update t 1 {seed * 10 + at}")[:3] == "ok " for at in range(10))

    at_once(20, update)
    with it.database() as db:  # 255 rows to a transaction, by `.hello`
        assert db.insert_many("t", ((at, 0) for at in range(1_000, 1_300))).transactions == 2
    it.end()
    _, *stored = Store.read(it.store).transactions()
    assert len(stored) == 205 and {txn.operations[-1].table for txn in stored} == {"dragoon_who"}
    account = subprocess.run(["id", "-un"], capture_output=True, text=True).stdout.strip()
    assert {txn.operations[-1].row[1] for txn in stored} == {account}
    assert [len(txn.operations) for txn in stored[:4]] == [2, 2, 3, 2]


def test_a_fresh_verdict_is_repeated(tmp_path):
    it = Service(tmp_path, code="serve.FRESH = 3").begin()
    one, marks = it.connect(), len(Book.read(it.book).marks(7))
    found = one.ask(*["validate", "audit"] * 100)
    assert set(found) == {found[0]} and found[0].startswith("clean ")
    time.sleep(3)
    one.ask("validate")
    assert len(Book.read(it.book).marks(7)) == marks + 2
    it.end()


# ---- filing, and what ends a service


def test_it_files_and_audits(tmp_path):
    it = Service(tmp_path, "--filing", "0.5", "--auditing", "0.5").begin()
    one = it.connect("create t k int")
    for at in range(100):
        one.ask(f"insert t {at}")
        figures = it.figures()
        if int(figures["sealed"]) > 1 and figures["verdict"][:6] == "clean_":
            break
        time.sleep(0.1)
    words = [sys.executable, "-m", "dragoon.cli", "serve", "--metrics", str(it.conf)]
    told = subprocess.run(words, env=ENVIRONMENT, capture_output=True, text=True).stdout
    assert at < 99 and 'dragoon_serve_connections{store="s"} 2' in told.splitlines()
    it.end()
    # a clock that has gone ahead of the machine, as far as STATE says
    kept = json.loads((tmp_path / "s.json").read_text())
    (tmp_path / "s.json").write_text(json.dumps({**kept, "clock": kept["clock"] - 7_200}))
    it.begin()
    assert it.connect().ask("notarize") == "refused ClockAhead" and "hours ahead" in it.end()


def test_it_ends_if_the_store_is_altered(tmp_path):
    it = Service(tmp_path, "--filing", "0.3").begin()
    one = it.connect("create t k int v int", "insert t 1 77")
    sealed = int(it.figures()["sealed"])
    while int(it.figures()["sealed"]) < sealed + 2:
        time.sleep(0.1)
    content = it.store.read_bytes()
    put(it.store, content.index((77).to_bytes(8, "big")) + 7, b"\x4e")
    assert "alarm=" in it.end(1, 5, 10) and one.read().startswith(b"fault ")
    assert "isn't what it was in its first" in it.start().end(5)


def another_store(it):
    (it.store.parent / "copy").write_bytes(it.store.read_bytes())
    os.replace(it.store.parent / "copy", it.store)


def no_book(it):
    os.unlink(it.book)


def no_program(it):
    words = ["pgrep", "-P", str(it.process.pid)]
    child = subprocess.run(words, capture_output=True, text=True).stdout.split()[0]
    os.kill(int(child), signal.SIGKILL)


@pytest.mark.parametrize("change, status", [(another_store, 5), (no_book, 6), (no_program, 137)])
def test_what_ends_a_service(tmp_path, change, status):
    """It ends within a second, says so to its clients, and saves what only the run still had."""
    it = Service(tmp_path).begin()
    one = it.connect("create t k int", "insert t 1")
    change(it)
    it.end(status)
    assert one.read().startswith(b"fault ")
    kept = [path.read_bytes() for path in tmp_path.glob("s.store.*")]
    assert [b"\2\1t\1" in content for content in kept] == [True] * (change is another_store)


def limited(tmp_path):
    """The program, which may write no file that is longer than 20 KiB."""
    small = tmp_path / "small"
    small.write_text(f"#!/bin/sh\ntrap '' XFSZ\nulimit -f 40\nexec {PROGRAM} \"$@\"\n")
    small.chmod(0o755)
    return str(small)


MOUNTED = [(it, how) for it in ("store", "book") for how in ("fill", "fail")]
DISKS = [("store", "limit"), *(pytest.param(*it, marks=pytest.mark.faults) for it in MOUNTED)]


@pytest.mark.parametrize("what, how", DISKS)
def test_a_disk_that_takes_nothing(tmp_path, what, how, request):
    """The reply names the fault, what was acknowledged is there, and the next service goes on."""
    if how == "limit":
        it = Service(tmp_path, program=limited(tmp_path)).begin()
    else:
        disk = request.getfixturevalue("disk")
        it = Service(tmp_path, **{what: disk.path / f"s.{what}"}).begin()
    one, count = it.connect("create t k int v text"), 0
    if how != "limit":
        getattr(disk, how)()
    line = "insert t {} '" + "x" * 1_000 + "'" if what == "store" else "notarize"
    while (reply := one.ask(line.format(count))).startswith(("ok ", "sealed ")):
        count += reply.startswith("ok ")
        time.sleep(0.5 * (what == "book"))
    assert reply == {"store": "fault DiskFault", "book": "fault NotaryFault"}[what]
    assert "alarm=" in it.end({"store": 5, "book": 6}[what])
    if how == "limit":
        it = Service(tmp_path)
    else:
        disk.repair()
    with it.begin().database() as db:
        assert len(db.scan("t").all()) in (count, count + 1)
        assert it.connect().ask("notarize").startswith("sealed ")
    it.end()


def test_what_keeps_a_service_from_beginning(tmp_path):
    it, deep = Service(tmp_path).begin(), tmp_path / ("d" * 80) / ("e" * 40)
    again = Service(tmp_path, code="serve.PATIENCE = 0.1").start()
    assert "another process looks after this store" in again.end(70)
    assert it.connect().ask("get t 1") == "refused NoTable"  # the first one goes on
    it.end()
    held = subprocess.Popen([PROGRAM, f"store={it.store}", "run", "7"], stdin=subprocess.PIPE)
    while not is_locked(str(it.store)):
        time.sleep(0.02)
    assert "has the store open" in it.start().end(5)
    held.communicate()
    for line, said in [("MAY_ASK=me@here", "is no such account"), ("MAY_FILE=@none", "no such g")]:
        assert said in Service(tmp_path, lines=[line]).start().end(70)
    Path(it.path).write_text("mine")
    assert "is no socket" in Service(tmp_path).start().end(70) and Path(it.path).exists()
    deep.mkdir(parents=True)
    it.conf.write_text(it.conf.read_text().replace(f"STATE={tmp_path}", f"STATE={deep}"))
    assert "has at most 107 bytes" in it.start().end(70)


@pytest.mark.parametrize("number", [signal.SIGTERM, signal.SIGINT, signal.SIGKILL])
def test_what_was_acknowledged_is_there(tmp_path, number):
    it, acknowledged = Service(tmp_path).begin(), set()
    it.connect("create t k int")

    def store(seed):
        one, at = it.connect(), seed * 100_000
        with contextlib.suppress(OSError):
            while one.ask(f"insert t {at}").startswith("ok "):
                acknowledged.add(at)
                at += 1

    threading.Timer(1, it.process.send_signal, [number]).start()
    at_once(16, store)
    it.end(0, -9)
    with it.begin().database() as db:
        assert acknowledged and acknowledged <= {row[0] for row in db.scan("t")}
    it.end()


FAKE = f"""#!{sys.executable}
import os, subprocess, sys, time
if sys.argv[3] != "run":
    sys.exit(subprocess.call(["{PROGRAM}", *sys.argv[1:]]))
assert sys.argv[3:] == ["run", "7", "grouped"]
while lines := os.read(0, 65536).splitlines():
    os.write(1, b"".join(b"ok\\n" if it[:1] == b"s" else b"ok %d\\n" % len(lines) for it in lines))
    time.sleep(1)
"""


def test_a_grouped_run_gets_the_lines_of_all_connections_at_once(tmp_path):
    """The program says how many lines one read of its input gave it."""
    fake = tmp_path / "fake"
    fake.write_text(FAKE)
    fake.chmod(0o755)
    it = Service(tmp_path, lines=["GROUPED=yes"], program=fake).begin()
    ones = [it.connect() for _ in range(16)]
    [one.send("insert t 1") for one in ones * 2]
    assert max(int(one.read()[3:]) for one in ones * 2) >= 8
    it.process.kill()
