#!/usr/bin/env python3
"""Proves and builds the libraries of the program, or of the crates named, with as many crates side by side as there are
processors and memory.

    build.py [CRATE ..]
    build.py --program     the program, too
    build.py --kept        no proof: takes the program that rt ci has proved of the same sources on this machine, or ends with 1

One run of rt locks all crates that it stands on, so each lane works in a tree of its own: the sources, and by hard links what
is built already. A crate is begun once those below it are done, the one with the longest way above it first. What a lane has
proved goes to crates/*/out at once, so a run that was stopped goes on where it was.
"""
import hashlib
import importlib.machinery
import importlib.util
import json
import os
import pathlib
import re
import shutil
import subprocess
import sys
import tempfile
import time
import types

ROOT = pathlib.Path(__file__).resolve().parent
# What a proof takes in memory, and what each further job of it takes, in GiB.
PROOF, JOB = 2.5, 1.0
# How often a line says how far the build is, in seconds.
PAUSE = 20
PROGRAM = ROOT / "crates/dragoon_cli/out/dragoon_cli"


def crates_below(names):
    """These crates of the repository and those that they stand on, each with the libraries that its line of crates.txt names."""
    listed = {}
    for line in (ROOT / "crates.txt").read_text().splitlines():
        head, colon, below = line.partition("#")[0].partition(":")
        if colon:
            listed[head.split()[0]] = below.split()
    needed, left = {}, list(names)
    while left:
        name = left.pop()
        if name in listed and name not in needed:
            needed[name] = listed[name]
            left += listed[name]
    return needed


def all_below(name, crates):
    """The crates of the repository that this one stands on."""
    found = set()
    for it in crates[name]:
        if it in crates:
            found |= {it, *all_below(it, crates)}
    return found


def ways_above(crates):
    """For each crate how much source the longest chain has that begins with it and goes up."""
    size = {it: sum(file.stat().st_size for file in (ROOT / "crates" / it).glob("*/**/*.*t*") if "out" not in file.parts) for it in crates}
    ways = {}

    def way(name):
        if name not in ways:
            ways[name] = size[name] + max((way(it) for it in crates if name in crates[it]), default=0)
        return ways[name]

    return {it: way(it) for it in crates}


def link(old, new):
    try:
        os.link(old, new)
    except OSError:
        shutil.copy2(old, new)


class Lane:
    """A tree of its own, in which one crate at a time is proved."""

    def __init__(self, folder, crates):
        self.crates = folder / "crates"
        self.name, self.call, self.jobs = None, None, 0
        for it in crates:
            for part in ("src", "specs", "proofs"):
                if (ROOT / "crates" / it / part).is_dir():
                    shutil.copytree(ROOT / "crates" / it / part, self.crates / it / part)
        lines = [f"{it}: {' '.join(libraries)}\n" for it, libraries in crates.items()]
        (folder / "crates.txt").write_text("".join(lines))

    def stand_on(self, below):
        for it in below:
            if not (self.crates / it / "out" / "rlib").exists():
                shutil.copytree(ROOT / "crates" / it / "out" / "rlib", self.crates / it / "out" / "rlib", copy_function=link)

    def begin(self, name, below, jobs):
        self.stand_on(below)
        kept = ROOT / "crates" / name / "out"
        for part in ("rlib", "incremental"):
            if (kept / part).is_dir():
                shutil.copytree(kept / part, self.crates / name / "out" / part)
        self.log = tempfile.TemporaryFile("w+", errors="replace")
        how = {"stdin": subprocess.DEVNULL, "stdout": self.log, "stderr": subprocess.STDOUT}
        self.name, self.jobs = name, jobs
        self.call = subprocess.Popen(["rt", "lib", "--jobs", str(jobs)], cwd=self.crates / name, **how)

    def tell(self):
        """The crate's name, with how many of its functions are checked where rattle has said that."""
        return self.name + how_far(self.log)

    def end(self):
        """Brings home what was proved, and answers what was said where it wasn't."""
        name, self.name, self.jobs = self.name, None, 0
        if self.call.returncode:
            self.log.seek(0)
            return "".join(self.log.readlines()[-40:])
        home, made = ROOT / "crates" / name / "out", self.crates / name / "out"
        home.mkdir(exist_ok=True)
        for part in ("incremental", "rlib"):
            if (made / part).is_dir():
                shutil.rmtree(home / part, ignore_errors=True)
                os.rename(made / part, home / part)
        return None


def free_memory():
    """In GiB."""
    for line in pathlib.Path("/proc/meminfo").read_text().splitlines():
        if line.startswith("MemAvailable:"):
            return int(line.split()[1]) / 2**20
    return PROOF


def tell(text):
    print(f"dragoon: {text}", file=sys.stderr, flush=True)


def since(begun):
    passed = int(time.monotonic() - begun)
    return f"{passed // 60} min {passed % 60:02} s"


def how_far(log):
    """What the last line of progress in this log says, in brackets."""
    said = re.findall(rb"^so far: (\d+ of \d+) functions", os.pread(log.fileno(), 1 << 24, 0), re.MULTILINE)
    return f" ({said[-1].decode()} functions)" if said else ""


def build(names, room):
    crates = crates_below(names)
    unknown = [it for it in names if it not in crates]
    if unknown:
        tell(f"crates.txt has no crate {', '.join(unknown)}")
        return 2
    ways, below = ways_above(crates), {it: all_below(it, crates) for it in crates}
    processors, memory = len(os.sched_getaffinity(0)), free_memory()
    lanes = [Lane(room / str(it), crates) for it in range(max(1, min(processors, int(memory / PROOF))))]
    left, done = sorted(crates, key=lambda it: -ways[it]), set()
    begun = told = time.monotonic()
    while len(done) < len(crates):
        ready = [it for it in left if below[it] <= done]
        for at, name in enumerate(ready):
            busy = [it for it in lanes if it.name]
            room_left = memory - sum(PROOF + JOB * (it.jobs - 1) for it in busy)
            free = [it for it in lanes if it.name is None]
            if not free or busy and room_left < PROOF:
                break
            # all wait for the crate with the longest way above it, so it gets a job for each processor; others share what is idle
            is_first = all(ways[name] >= ways[it] for it in crates if it not in done)
            jobs = processors if is_first else (processors - len(busy)) // (len(ready) - at)
            jobs = max(1, min(4, jobs, 1 + int((room_left - PROOF) / JOB)))
            left.remove(name)
            free[0].begin(name, below[name], jobs)
        time.sleep(0.1)
        for lane in lanes:
            if lane.name and lane.call.poll() is not None:
                name, why = lane.name, lane.end()
                if why is not None:
                    for other in lanes:
                        if other.name:
                            other.call.terminate()
                    tell(f"{name} is not proved:\n{why}")
                    return 1
                done.add(name)
        if time.monotonic() - told >= PAUSE:
            told = time.monotonic()
            tell(f"{len(done)} of {len(crates)} libraries proved in {since(begun)}; now {', '.join(it.tell() for it in lanes if it.name)}")
    return 0


def build_program():
    """Proves and builds the program itself, over its libraries."""
    begun = told = time.monotonic()
    with tempfile.TemporaryFile("w+", errors="replace") as log:
        # `link` over no store ends with 4 once the program is built; rt itself ends with 1, 2 or 3.
        call = subprocess.Popen(["rt", "run", "--", "link"], cwd=PROGRAM.parents[1], stdin=subprocess.DEVNULL, stdout=log, stderr=subprocess.STDOUT)
        while call.poll() is None:
            time.sleep(0.1)
            if time.monotonic() - told >= PAUSE:
                told = time.monotonic()
                tell(f"all libraries are proved; the program itself, for {since(begun)}{how_far(log)}")
        if call.returncode == 4 and PROGRAM.exists():
            return 0
        log.seek(0)
        tell(f"the program is not proved:\n{''.join(log.readlines()[-40:])}")
        return 1


def kept_program():
    """The file in which this machine keeps the program that rt ci proved of these sources, with its sum; an error where there is none.

    What rt ci proved of a crate it keeps under a sum of all that the proof read: the kit, the sources, and the libraries below as they
    were built. Its own functions take these sums here, lowest crate first."""
    sys.dont_write_bytecode = True
    loader = importlib.machinery.SourceFileLoader("rt", os.path.realpath(shutil.which("rt")))
    rt = importlib.util.module_from_spec(importlib.util.spec_from_loader("rt", loader))
    loader.exec_module(rt)
    # as rt ci has them
    rt.Crate.cuts_libraries = True
    rt.Crate.allowed = rt.handles_of(str(ROOT))
    rt.rtlib.Crate = rt.Crate
    needed = crates_below(["dragoon_cli"])
    sums = types.SimpleNamespace(rlibs={}, at=rt.STORE)
    for crate in rt.rtlib.crates_below(str(ROOT)):
        if crate.name in needed:
            key = rt.Kept.key(sums, crate)
            place = pathlib.Path(rt.Kept.place(sums, crate, False, key))
            files = [(path, sum) for path, sum in json.loads((place / "made.json").read_text())["files"]]
            sums.rlibs[crate.name] = hashlib.sha256(repr([] if crate.is_program else files).encode()).hexdigest()
            if crate.name == PROGRAM.name:
                return next((place / str(number), sum) for number, (path, sum) in enumerate(files) if path == PROGRAM.name)
    raise LookupError(PROGRAM.name)


def take_kept():
    """Puts that program in its place, where there is one."""
    try:
        file, sum = kept_program()
        made = file.read_bytes()
        if hashlib.sha256(made).hexdigest() != sum:
            return False
        PROGRAM.parent.mkdir(exist_ok=True)
        part = PROGRAM.with_name(f"{PROGRAM.name}.{os.getpid()}")
        part.write_bytes(made)
        part.chmod(0o755)
        part.replace(PROGRAM)
        return True
    # (none is kept, or the functions are those of another kit)
    except (Exception, SystemExit):
        return False


def build_libraries(names):
    git = ROOT / ".git"
    room = tempfile.mkdtemp(prefix="build-", dir=git if git.is_dir() else None)
    try:
        return build(names, pathlib.Path(room))
    finally:
        shutil.rmtree(room, ignore_errors=True)


def main(names):
    libraries = crates_below(["dragoon_cli"])["dragoon_cli"]
    if names == ["--kept"]:
        return 0 if take_kept() else 1
    if names != ["--program"]:
        return build_libraries(names or libraries)
    if take_kept():
        tell("rt ci has proved and built the program of these sources on this machine: it is taken from there")
        return 0
    begun = time.monotonic()
    tell(f"proving and building the program; every {PAUSE} seconds a line says how far this is")
    status = build_libraries(libraries) or build_program()
    if status == 0:
        tell(f"proved and built in {since(begun)}")
    return status


if __name__ == "__main__":
    sys.exit(main(sys.argv[1:]))
