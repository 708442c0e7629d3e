"""What the scripts share: a workload, a process and what it costs, ways that take turns, and the rows that are printed.

A script yields a Figure for each row of bench/FIGURES.md, and a Wanted for each bound, from a function that `script` calls.
"""
from __future__ import annotations

import argparse
import array
import contextlib
import itertools
import json
import os
import pathlib
import re
import shutil
import sqlite3
import struct
import subprocess
import sys
import tempfile
import time
import types
from typing import Iterable, NamedTuple

sys.dont_write_bytecode = True
import program
from laid import laid_out
from program import BENCH, PROGRAM, fail

LIMIT = 67_108_864
CREATE = b"\x01\x01t\x02\x01k\x01\x01v\x01"  # create t k int v int
put = struct.Struct(">BB1sBBqBq").pack


# ---- what is printed


class Figure(NamedTuple):
    """What a row of the table shows, and the same of others beside it."""

    what: str
    unit: str
    value: float
    beside: dict = {}

    def row(self, script):
        beside = "; ".join(f"{name}: {spelled(value)}" for name, value in self.beside.items())
        return f"| {self.what}, {self.unit} | {spelled(self.value)} | {beside or '–'} | `bench/{script}` |"


class Wanted(NamedTuple):
    """A bound on what was measured."""

    what: str
    found: float
    most: float


HEAD = "| Measured | `dragoon` | Beside | Script |\n|---|---|---|---|"


def spelled(value):
    return f"{value:,.0f}" if value >= 100 else f"{value:,.1f}" if value >= 10 else f"{value:.2f}"


def existing(folder):
    if not pathlib.Path(folder).is_dir():
        raise argparse.ArgumentTypeError(f"{folder} is no folder")
    return folder


def positive(number):
    if not number.isdecimal() or int(number) < 1:
        raise argparse.ArgumentTypeError(f"{number} is no count of rounds")
    return int(number)


def words_of(doc):
    return argparse.ArgumentParser(
        description=doc, formatter_class=argparse.RawDescriptionHelpFormatter
    )


def script(doc, measure, rounds=3, counts=False, more=()):
    """Prints the rows that `measure(given)` yields, in a folder of its own; ends with 1 if a bound is missed."""
    words = words_of(doc)
    words.add_argument("--rounds", type=positive, default=rounds, help=f"{rounds} if none is said")
    words.add_argument(
        "--json", action="store_true", help="the figures alone, as bench/all reads them"
    )
    if counts:
        words.add_argument(
            "--count", action="store_true", help="by instructions, which callgrind counts"
        )
    for names, options in more:
        words.add_argument(*names, **options)
    words.add_argument("folder", nargs="?", default="/var/tmp", type=existing, metavar="FOLDER")
    given = words.parse_args()
    if counts and given.count and not shutil.which("valgrind"):
        words.error("--count needs valgrind, of Debian's package of that name")
    program.prove()
    name, figures, missed = os.path.basename(sys.argv[0]), [], 0
    with tempfile.TemporaryDirectory(prefix="bench-", dir=given.folder) as work:
        given.work = pathlib.Path(work)
        given.json or print(HEAD)
        for it in measure(given):
            if isinstance(it, Figure):
                figures.append(it)
                given.json or print(it.row(name), flush=True)
            else:
                missed |= it.found > it.most
                print(f"wanted: {it.what}: {it.found:,.2f}, at most {it.most:,}", file=sys.stderr)
    if given.json:
        print(json.dumps([it._asdict() for it in figures]))
    sys.exit(missed)


# ---- what a process costs


class Cost(NamedTuple):
    """Seconds, and the most memory that is resident, or instructions."""

    clock: float
    processor: float
    user: float
    mib: float
    instructions: int
    said: str

    def beyond(self, other):
        """What it costs more than another one does."""
        return Cost(*(mine - theirs for mine, theirs in zip(self[:5], other[:5])), self.said)


def spend(call, lines="", counts=False, statuses=(0,)):
    """What a call costs; its input and its output are files, and its status has to be one of these."""
    with contextlib.ExitStack() as stack:
        source, said = (stack.enter_context(tempfile.TemporaryFile()) for _ in range(2))
        noted = stack.enter_context(tempfile.NamedTemporaryFile("r"))
        # (the memory that wait4 says is at least this process's own)
        before = ["/usr/bin/time", "-q", "-f", "%M", "-o", noted.name]
        if counts:
            before = ["valgrind", "--tool=callgrind", f"--callgrind-out-file={noted.name}"]
        source.write(lines.encode())
        source.seek(0)
        pipes = dict(stdin=source, stdout=said, stderr=subprocess.DEVNULL)
        begin = time.perf_counter()
        process = subprocess.Popen([*before, *map(str, call)], **pipes)
        _, ended, used = os.wait4(process.pid, 0)
        clock = time.perf_counter() - begin
        process.returncode = os.waitstatus_to_exitcode(ended)
        said.seek(0)
        text = said.read().decode(errors="replace")
        if process.returncode not in statuses:
            fail(f"{call} ended with {process.returncode}: {text[-300:]}")
        note = re.search(r"^(?:summary: |totals: |)(\d+)$", noted.read(), re.MULTILINE)
    count, busy = int(note[1]), used.ru_utime + used.ru_stime
    return Cost(clock, busy, used.ru_utime, count / 1024, count, text)


def call(*words, **devices):
    return [PROGRAM, *(f"{name}={path}" for name, path in devices.items()), *map(str, words)]


def dragoon(*words, says="", lines="", counts=False, statuses=(0,), **devices):
    """What a command over these devices costs; its output has to begin so."""
    cost = spend(call(*words, **devices), lines, counts, statuses)
    if not cost.said.startswith(says):
        fail(cost.said[:300])
    return cost


def scripted(store, lines, counts=False, **devices):
    """What a run costs whose lines are all executed."""
    text = "".join(f"{line}\n" for line in lines)
    return dragoon("run", 7, "scripted", lines=text, counts=counts, store=store, **devices)


def new_store(path, width=60, exponent=3, chains="ta"):
    path.unlink(missing_ok=True)
    dragoon("init", 7, width, exponent, chains, store=path, says="ready 7")
    return path


def system_calls(names, words):
    """The calls of the system of these names that a process makes, a line of strace each."""
    with tempfile.NamedTemporaryFile("r") as out:
        spend(["strace", "-f", "-o", out.name, "-e", f"trace={names}", *words], statuses=range(26))
        return out.read().splitlines()


def least(costs):
    if not isinstance(costs[0], tuple):
        return min(costs)
    if not isinstance(costs[0], Cost):
        return tuple(map(min, zip(*costs)))
    return Cost(*map(min, *(it[:5] for it in costs), costs[0][:5]), costs[-1].said)._replace(
        mib=max(it.mib for it in costs)
    )


def best(rounds, **ways):
    """The least of the rounds that each way costs, by its name. They take turns."""
    found = [[way() for way in ways.values()] for _ in range(rounds)]
    return types.SimpleNamespace(**{name: least(it) for name, it in zip(ways, zip(*found))})


# ---- what is measured over


def transaction(number, moment, rows):
    rows = b"".join(put(2, 1, b"t", 2, 1, key, 1, value) for key, value in rows)
    return struct.pack(">BIQH", 1, number, moment, len(rows) // 22) + rows


class Workload(NamedTuple):
    """A table t of two integers, and rows (moment, key, value), so many in a transaction; or payloads as they are."""

    rows: Iterable
    width: int = 60
    exponent: int = 3
    chains: int = 3
    epoch: int = 0
    limit: int = LIMIT - 100  # room for a Frontier
    each: int = 1

    def payloads(self):
        yield struct.pack(">BIQH", 1, 1, 0, 1) + CREATE
        rows, number = iter(self.rows), 1
        while some := list(itertools.islice(rows, self.each)):
            if isinstance(some[0], bytes):
                yield some[0]
                continue
            number += 1
            yield transaction(number, some[0][0], [it[1:] for it in some])

    def write(self, path, format=2):
        """Lays out the store, and says where each record ends."""
        fields = struct.pack(">QQIBB", 7, self.epoch, self.width, self.exponent, self.chains)
        size, ends = 0, array.array("L")
        with open(path, "wb") as file:
            for piece in laid_out(fields, self.payloads(), format, self.limit):
                size += file.write(piece)
                ends.append(size - 1)
        # not the header, the table and the gate at the end
        return ends[2:-1]


def busy():
    """27 rows a second, each with a key of its own."""
    return ((row // 27, row, 0) for row in itertools.count())


def versions(step=60, keys=1_000, rounds=100):
    """Each key put in each round."""
    return ((turn * step, key, turn) for turn in range(rounds) for key in range(keys))


def spread(rows, granules, width=60):
    """As many rows in each granule."""
    return ((row * granules // rows * width, row % 1_000, row) for row in range(rows))


def ago(seconds):
    return int(time.time()) - seconds


def alter(path, rows, ends, count):
    """Changes the value of the first row in so many of the granules."""
    granule, firsts = None, []
    for (moment, *_), end in zip(rows, ends):
        if moment != granule:
            firsts.append(end)
            granule = moment
    with open(path, "r+b") as file:
        for at in range(count):
            flip(file, firsts[(2 * at + 1) * len(firsts) // (2 * count)])


def flip(file, place, bit=0):
    file.seek(place)
    byte = file.read(1)[0]
    file.seek(place)
    file.write(bytes([byte ^ 1 << bit]))


# ---- what stands beside it


def sqlite(path, transactions):
    """The seconds that transactions of these keys take (WAL, synchronous FULL)."""
    for end in ("", "-wal", "-shm"):
        pathlib.Path(f"{path}{end}").unlink(missing_ok=True)
    db = sqlite3.connect(path, isolation_level=None)
    db.execute("pragma journal_mode = wal")
    db.execute("pragma synchronous = full")
    db.execute("create table t (k integer primary key, v integer)")
    begin = time.perf_counter()
    for keys in transactions:
        db.execute("begin")
        db.executemany("insert into t values (?, 0)", ((key,) for key in keys))
        db.execute("commit")
    seconds = time.perf_counter() - begin
    db.close()
    return seconds


def made_floor(work):
    """How long the bare writes and syncs of a store take: a program of C that makes them, and nothing else."""
    subprocess.run(["cc", "-O2", "-o", work / "floor", BENCH / "floor.c"], check=True)

    def floor(store):
        said = spend([work / "floor", store, work / "bare"]).said
        if (work / "bare").read_bytes() != store.read_bytes():
            sys.exit("bench: the floor wrote another store")
        return float(said)

    return floor


def as_source(file, copy):
    """No crate of the repository has these sources, so their names end in .txt there, and no check looks for them."""
    shutil.copyfile(file, copy.removesuffix(".txt"))


def alone(work, name, *libraries):
    """A program of bench/alone over libraries of the repository, built in the folder."""
    folder = work / f"{name}_alone"
    shutil.copytree(BENCH / "alone" / name, folder, copy_function=as_source)
    if subprocess.run([sys.executable, BENCH / "prove.py", folder, *libraries]).returncode:
        sys.exit(f"bench: {name} is not built")
    return lambda *words: [*map(int, spend([folder / "program", *words]).said.split())]
