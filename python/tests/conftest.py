import contextlib
import os
import shutil
import subprocess
import time
from pathlib import Path

import pytest

import dragoon

PROGRAM = os.environ.get("DRAGOON") or shutil.which("dragoon")
needs_program = pytest.mark.skipif(not PROGRAM, reason="DRAGOON names no program")


def run(*words, given="", expect=None):
    """One call of the program: its output; and its status is the one expected, if one is."""
    done = subprocess.run([PROGRAM, *map(str, words)], input=given, capture_output=True, text=True)
    assert expect is None or done.returncode == expect, (
        words,
        done.returncode,
        done.stdout,
        done.stderr,
    )
    return done.stdout


def drill_file(path, algorithms="ta", width=60, exponent=3, more=()):
    """A store with the rows 0 to 7 of the table t, one in each of its first eight granules, by a scripted run."""
    run(f"store={path}", "init", 7, width, exponent, algorithms, expect=0)
    lines = ["create t k int v int"]
    for k in range(8):
        lines += [f"now {k * width}", f"insert t {k} {k}"]
    run(f"store={path}", "run", 7, "scripted", given="\n".join([*lines, *more]) + "\n", expect=0)
    return path


@pytest.fixture
def made(tmp_path):
    """A store of eight granules, filed in a book: (store, book)."""
    store, book = tmp_path / "s.store", tmp_path / "s.book"
    drill_file(store)
    run(
        f"store={store}",
        f"notary={book}",
        "run",
        7,
        "scripted",
        given="now 480\nnotarize\nvalidate\n",
        expect=0,
    )
    return store, book


@pytest.fixture
def db(tmp_path):
    store = str(tmp_path / "c.store")
    dragoon.make(store, 7, program=PROGRAM)
    with dragoon.connect(store=store, id=7, notary=str(tmp_path / "c.book"), program=PROGRAM) as it:
        yield it


class Disk:
    """A small disk of its own, which is full, or read-only as after an error of the drive."""

    def __init__(self, folder):
        self.image, self.path = folder / "disk.image", folder / "disk"
        self.path.mkdir()
        self.image.write_bytes(bytes(4 << 20))
        self.call("mkfs.ext4", "-q", "-m", "0", self.image)
        self.mount()

    def call(self, *words, expect=(0, 1)):
        done = subprocess.run([str(it) for it in words], capture_output=True, text=True)
        assert done.returncode in expect, (words, done.stderr)
        return done.stdout

    def mount(self):
        call = ["mount", "-o", "loop,errors=remount-ro", self.image, self.path]
        for _ in range(10):  # another test may take the loop device that was free
            if not subprocess.run(call, capture_output=True).returncode:
                return
            time.sleep(0.2)
        raise OSError("nothing can be mounted")

    def fill(self):
        with contextlib.suppress(OSError), open(self.path / "filler", "wb", buffering=0) as file:
            while file.write(bytes(512)):
                pass

    def fail(self):
        os.sync()  # what a test has copied to it
        loop = Path(self.call("findmnt", "-n", "-o", "SOURCE", self.path).strip()).name
        Path(f"/sys/fs/ext4/{loop}/trigger_fs_error").write_text("tested")

    def repair(self):
        (self.path / "filler").exists() and (self.path / "filler").unlink()
        self.call("umount", self.path)
        self.call("e2fsck", "-p", self.image)
        self.mount()


@pytest.fixture
def disk(tmp_path):
    try:
        it = Disk(tmp_path)
    except (AssertionError, OSError) as why:
        pytest.skip(f"no disk can be mounted: {why}")
    yield it
    it.call("umount", "-l", it.path)


def put(path, place, data):
    with open(path, "r+b") as file:
        file.seek(place)
        file.write(data)
    return Path(path)
