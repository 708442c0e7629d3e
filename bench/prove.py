"""Proves and builds a program that measures something, over libraries of the repository, which are built first if they aren't.

    python3 bench/prove.py FOLDER LIBRARY..

FOLDER has its src/ and perhaps its proofs/, and its name is the crate's. The program is left at FOLDER/program. If DRAGOON names
the program that is measured, nothing is proved: bench/unproved compiles this one, too. bench/all names a folder in
BENCH_PROGRAMS, where each program is kept under a sum of its sources and those of all crates. So it is built once for all rounds.
"""
import hashlib
import os
import pathlib
import shutil
import subprocess
import sys
import tempfile

ROOT = pathlib.Path(__file__).resolve().parent.parent
sys.path.insert(0, str(ROOT))
sys.dont_write_bytecode = True
import build


def prove(folder, libraries, room):
    """The log of rt if the program isn't proved."""
    crates = build.crates_below(libraries)
    if subprocess.run([sys.executable, ROOT / "build.py", *libraries]).returncode:
        return "the libraries are not built\n"
    subprocess.run(["git", "init", "-q", room], check=True)
    tree = build.Lane(room, {**crates, folder.name: libraries})
    tree.stand_on(crates)
    crate = tree.crates / folder.name
    for part in ("src", "proofs"):
        if (folder / part).is_dir():
            shutil.copytree(folder / part, crate / part)
    (crate / "stdin").write_bytes(b"")
    pipes = dict(stdout=subprocess.PIPE, stderr=subprocess.STDOUT, text=True, errors="replace")
    done = subprocess.run(["rt", "run"], cwd=crate, **pipes)
    if done.returncode:
        return done.stdout
    shutil.copy2(crate / "out" / folder.name, folder / "program")
    return None


def compiled(folder, libraries, room):
    """The log if it isn't compiled unproved, in the place of the program in a copy of the tree."""
    (room / "bench").mkdir()
    for file in ("bench/unproved", "build.py"):
        shutil.copy2(ROOT / file, room / file)
    lines = (ROOT / "crates.txt").read_text().splitlines()
    others = [it for it in lines if not it.startswith("dragoon_cli:")]
    own = f"dragoon_cli: {' '.join(libraries)}"
    (room / "crates.txt").write_text("\n".join([*others, own, ""]))
    for it in build.crates_below(libraries):
        crate = room / "crates" / it
        shutil.copytree(ROOT / "crates" / it, crate, ignore=shutil.ignore_patterns("out"))
    shutil.copytree(folder, room / "crates/dragoon_cli")
    words = [sys.executable, room / "bench/unproved", ".", folder / "program"]
    done = subprocess.run(words, stdout=subprocess.PIPE, stderr=subprocess.STDOUT, text=True)
    return done.stdout if done.returncode else None


def sum_of(folder, how):
    """A sum of all that a program is made from."""
    parts = [it for it in ROOT.glob("crates/*/*") if it.name in ("src", "specs", "proofs")]
    files = (file for part in [*parts, folder] for file in part.rglob("*"))
    told = hashlib.sha256(how.__name__.encode())
    for file in [ROOT / "crates.txt", *sorted(it for it in files if it.suffix in (".rt", ".antt"))]:
        told.update(repr((file.name, file.read_bytes())).encode())
    return told.hexdigest()[:16]


def main(folder, libraries):
    program, kept = folder / "program", os.environ.get("BENCH_PROGRAMS")
    how = compiled if os.environ.get("DRAGOON") else prove
    kept = kept and pathlib.Path(kept) / f"{folder.name}-{sum_of(folder, how)}"
    if kept and kept.is_file():
        shutil.copy2(kept, program)
        return 0
    with tempfile.TemporaryDirectory(prefix="bench-") as room:
        why = how(folder, libraries, pathlib.Path(room))
    if why is not None:
        print("\n".join(why.splitlines()[-40:]), file=sys.stderr)
        return 1
    if kept:
        shutil.copy2(program, kept)
    return 0


if __name__ == "__main__":
    if sys.argv[1:] == ["--help"]:
        sys.exit(print(__doc__.strip()))
    if len(sys.argv) < 3 or not (pathlib.Path(sys.argv[1]) / "src").is_dir():
        print(f"usage: {__doc__.splitlines()[2].strip()}", file=sys.stderr)
        sys.exit(2)
    sys.exit(main(pathlib.Path(sys.argv[1]), sys.argv[2:]))
