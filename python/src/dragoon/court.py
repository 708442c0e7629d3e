"""Folders for people who judge: `case` gathers what an altered store leaves, `seal` what shows that it was altered, and
`sealed` judges such a bundle by this installation alone. Nothing that lies in a bundle is ever run.
"""
from __future__ import annotations

import contextlib
import datetime
import getpass
import hashlib
import json
import os
import platform
import re
import shutil
import subprocess
import tempfile
from pathlib import Path
from typing import Iterator, NamedTuple, Sequence

from . import __version__, look, pages, verify, witness
from .errors import Error
from .formats import Book, Evidence, FormatError, Store

SUMS = "SHA256SUMS"
NAMED, OF_VERSION = {SUMS, "asked", "store", "copy", "book"}, {"verify.py", "page.html"}
WRONG, NOT_VOUCHED = 1, 4  # statuses of `sealed`
ALGORITHMS = ("mono", "tiled", "a3d")
_SUM_LINE = re.compile(r"([0-9a-f]{64})  ([A-Za-z0-9_./]+)")


class Asked(NamedTuple):
    """Who asked for a folder, when and where, and of which files."""

    when: str
    who: str
    machine: str
    version: str
    id: int
    files: tuple[tuple[str, int, str, str], ...]
    """the name in the folder, its bytes, its SHA-256, and the path that it was read from"""

    @property
    def facts(self) -> list[tuple[str, str]]:
        named = [
            (name.capitalize(), f"{path}, {size:,} bytes, SHA-256 {digest}")
            for name, size, digest, path in self.files
        ]
        return [("Asked", f"{self.when} by {self.who} on {self.machine}"), *named]


def copied(folder: Path, id: int, who: str, files: dict[str, str]) -> Asked:
    """Copies files into a folder, and writes down who asked. (Of a book that is older than the store nothing false is said: it comes first.)"""
    found = []
    for name, path in files.items():
        shutil.copyfile(path, folder / name)
        size = (folder / name).stat().st_size
        digest = digest_of(folder / name)
        found.append((Path(name).name, size, digest, os.path.realpath(path)))
    when = datetime.datetime.now(datetime.timezone.utc).strftime("%Y-%m-%d %H:%M:%S UTC")
    who = "".join(it if it.isprintable() else " " for it in who or getpass.getuser())
    asked = Asked(when, who, platform.node(), __version__, id, tuple(found))
    (folder / "asked").write_text(json.dumps(asked._asdict(), indent=1) + "\n")
    return asked


@contextlib.contextmanager
def new_folder(path: str) -> Iterator[Path]:
    """A folder that is there only once it is whole."""
    to = Path(path).absolute()
    if to.exists() or to.is_symlink():
        raise Error(f"{path} is there already, and stays as it is")
    part = Path(tempfile.mkdtemp(prefix=".", dir=to.parent))
    try:
        yield part
        for file in part.rglob("*"):
            file.chmod(0o755 if file.is_dir() else 0o444)
        os.sync()
        part.chmod(0o755)
        part.rename(to)
    finally:
        if part.exists():
            shutil.rmtree(part)


def sums_of(folder: Path) -> str:
    names = sorted(
        str(it.relative_to(folder)) for it in folder.rglob("*") if it.is_file() and it.name != SUMS
    )
    return "".join(f"{digest_of(folder / name)}  {name}\n" for name in names)


def digest_of(path: Path) -> str:
    return hashlib.sha256(path.read_bytes()).hexdigest()


def write_sums(folder: Path) -> str:
    """Writes the sum of each file, and answers the sum of these sums."""
    (folder / SUMS).write_text(sums_of(folder))
    return digest_of(folder / SUMS)


class Called(NamedTuple):
    output: str
    status: int


def call(program: str, *words: str, given: bytes = b"") -> Called:
    """A call of the program. What it says on standard error is for the person who asks."""
    done = subprocess.run([program, *words], input=given, stdout=subprocess.PIPE, check=False)
    if done.returncode in (70, 126, 127):
        raise Error(f"{program} cannot be run")
    return Called(done.stdout.decode(errors="replace"), done.returncode)


# ---- a case


def case(
    to: str, store: str, book: str, id: int, copies: Sequence[str], program: str, who: str = ""
) -> tuple[str, int, str]:
    """Gathers reports, page and differences of copies of all files. Answers the verdict, 1 if the store is altered, and the sum to sign."""
    with new_folder(to) as folder:
        (folder / "evidence").mkdir()
        (folder / "reports").mkdir()
        others = {f"evidence/copy_{at}": path for at, path in enumerate(copies, 1)}
        copied(folder, id, who, {"evidence/book": book, "evidence/store": store, **others})
        verdict, is_altered = reported(folder, "store", id, program)
        for name in others:
            reported(folder, Path(name).name, id, program)
        (folder / "differs.txt").write_text(differences(folder, list(others), id))
        return verdict, int(is_altered), write_sums(folder)


def reported(folder: Path, name: str, id: int, program: str) -> tuple[str, bool]:
    """All that can be said of a store: by the program and by verify. Answers the verdict, and whether any of them says altered."""
    store, book, kept = folder / "evidence" / name, folder / "evidence" / "book", folder / "reports"
    devices = f"store={store}", f"notary={book}"
    found = {it: call(program, *devices, "analyse", str(id), it) for it in ALGORITHMS}
    is_altered = any(it.status == 1 for it in found.values())
    for report in (it.output for it in reversed(found.values())):
        if name == "store" and report.startswith("report "):  # the sharpest one that there is
            paged(store, book, report, folder / "report.html")
            break
    found["link"] = call(program, devices[0], "link")
    found["inspect"] = call(program, *devices, "inspect", str(id))
    for said, done in found.items():
        if done.status not in (2, 18):  # not a command of this program; the eras lack the chains
            ending = "" if done.status <= 1 else f"status {done.status}\n"
            (kept / f"{name}.{said}").write_text(done.output + ending)
    verdict, lines = verified(store, book, id)
    with contextlib.suppress(ValueError):
        if doubt := witness.doubt(store.read_bytes(), book.read_bytes(), id):
            lines += f"{doubt.said}\n"
    (kept / f"{name}.verify").write_text(lines)
    with contextlib.suppress(Error):
        looked = look.look(Store.read(str(store)), Book.read(str(book)))
        (kept / f"{name}.look").write_text("\n".join([*look.lines_of(looked), ""]))
    return verdict, is_altered or "altered" in verdict


def paged(store: Path, book: Path, report: str, to: Path) -> None:
    with contextlib.suppress(Error, ValueError):
        to.write_text(pages.report(report, Store.read(str(store)), Book.read(str(book))))


def verified(store: Path, book: Path, id: int) -> tuple[str, str]:
    """The verdict of verify.py, and all lines that it prints."""
    try:
        found = verify.compare(store.read_bytes(), book.read_bytes(), id)
    except ValueError as why:
        return f"no verdict: {why}", f"no verdict: {why}\n"
    return found.verdict, "\n".join([found.verdict, *found.differing, ""])


def differences(folder: Path, copies: Sequence[str], id: int) -> str:
    """Whether each copy is what was filed, and where the store differs from it."""
    store, book = folder / "evidence" / "store", (folder / "evidence" / "book").read_bytes()
    parts = []
    for name in copies:
        lines = [f"the store beside {Path(name).name}:"]
        try:
            verdict = verify.compare((folder / name).read_bytes(), book, id).verdict
            lines.append(f"the copy is {verdict}")
            found = look.Difference(Store.read(str(store)), Store.read(str(folder / name)))
            lines += [*found.lines, found.summary()]
        except (Error, ValueError) as why:
            lines.append(f"no comparison: {why}")
        parts.append("\n".join(lines) + "\n")
    return "\n".join(parts)


# ---- a sealed bundle


def seal(
    to: str, store: str, copy: str, book: str, id: int, program: str, who: str = ""
) -> tuple[str, str]:
    """Makes a bundle that others judge by `sealed`. Answers what the examination says, and the sum to sign."""
    with new_folder(to) as folder:
        asked = copied(folder, id, who, {"book": book, "store": store, "copy": copy})
        devices = [f"store={folder / 'store'}", f"copy={folder / 'copy'}"]
        notary, target = f"notary={folder / 'book'}", folder / "evidence"
        done = call(program, *devices, notary, f"target={target}", "evidence", str(id))
        if done.status or not target.exists():
            raise Error(f"no evidence can be gathered: {done.output.strip()}; make a case instead")
        examined = call(program, notary, "examine", str(id), given=target.read_bytes())
        if examined.status:
            raise Error(f"the evidence cannot be examined: {examined.output.strip()}")
        (folder / "examined").write_text(examined.output)
        for name, content in made_of(folder, asked).items():
            if not (folder / name).exists():
                (folder / name).write_bytes(content)
        total = write_sums(folder)
        lines, status = sealed(str(folder), total)
        if status:
            raise Error(f"the program and this package do not say the same: {lines[0]}")
        return examined.output, total


def made_of(folder: Path, asked: Asked) -> dict[str, bytes]:
    """What this installation makes of the store, the copy, the book and what was asked: all other files of a bundle."""
    store, copy, book = ((folder / it).read_bytes() for it in ("store", "copy", "book"))
    evidence = witness.gather(store, copy, book, asked.id)[-1] or b""
    lines, _ = witness.examine(evidence, book, asked.id)
    named: Store | None = None  # the columns of its tables
    with contextlib.suppress(FormatError):
        named = Store(store)
    page = pages.evidence(Evidence(evidence), Book(book, "book"), asked.facts, named)
    return {
        "evidence": evidence,
        "examined": "\n".join([*lines, ""]).encode(),
        "verified": verified(folder / "store", folder / "book", asked.id)[1].encode(),
        "verify.py": Path(verify.__file__).read_bytes(),
        "page.html": page.encode(),
    }


def asked_in(folder: Path) -> Asked:
    """What the file `asked` of a bundle says."""
    try:
        found = Asked(**json.loads((folder / "asked").read_text()))
        files = tuple((str(a), int(b), str(c), str(d)) for a, b, c, d in found.files)
        if [it[0] for it in files] != ["book", "store", "copy"]:
            raise ValueError("it names other files")
        return found._replace(id=int(found.id), version=str(found.version), files=files)
    except (TypeError, ValueError, OverflowError, RecursionError) as why:
        raise Error(f"asked is not what `seal` writes: {why}") from None


def sealed(bundle: str, total: str | None) -> tuple[list[str], int]:
    """Judges a bundle: what is wrong with it, else what it shows.

    0: this installation makes the same files, byte by byte, of what was asked and of store, copy and book. NOT_VOUCHED: it makes another
    verify.py or page.html, and `asked` says that another version made these. Anyone can write that there, so nothing vouches for them.
    """
    folder = Path(bundle)
    if wrong := list(wrong_sums(folder, total)):
        return wrong, WRONG
    try:
        asked = asked_in(folder)
        made = made_of(folder, asked)
        there = {it.name: it.read_bytes() for it in folder.iterdir()}
    except (Error, ValueError, OSError) as why:
        return [f"it is not what `seal` makes: {why}"], WRONG
    others = {name for name in made if there.get(name) != made[name]}
    left = others & OF_VERSION if asked.version != __version__ else set()
    if wrong := list(wrong_files(asked, there, {*made} | NAMED, others - left)):
        return wrong, WRONG
    lines = there["examined"].decode().splitlines()
    lines.append(f"the folder has the {len(there) - 1} files that {SUMS} names, and nothing else")
    found = digest_of(folder / SUMS)
    same = "is the one that was given" if total else "has to be the one that was signed"
    if not left:
        lines.append("all others are what this installation makes of asked, store, copy and book")
        return [*lines, f"SHA-256 of {SUMS} {found} {same}"], 0
    lines.append(f"nothing vouches for {' and '.join(sorted(left))}: don't open them")
    lines.append(f"asked says that version {asked.version!r} made them; this is {__version__}")
    return [*lines, f"SHA-256 of {SUMS} {found} {same}"], NOT_VOUCHED


def wrong_files(
    asked: Asked, there: dict[str, bytes], names: set[str], others: set[str]
) -> Iterator[str]:
    for name, size, digest, _ in asked.files:
        content = there.get(name, b"")
        if (len(content), hashlib.sha256(content).hexdigest()) != (size, digest):
            yield f"{name} is not the file that asked names"
    yield from (f"{name} is missing, or no file of a bundle" for name in sorted({*there} ^ names))
    yield from (f"{it} is not what this installation makes of the files" for it in sorted(others))


def wrong_sums(folder: Path, total: str | None) -> Iterator[str]:
    """What is wrong with the sums. If anything is, nothing is said of other files."""
    odd = next((it for it in folder.rglob("*") if it.is_symlink() or not it.is_file()), None)
    if odd or not (folder / SUMS).is_file():
        yield f"{odd or folder / SUMS} is no plain file"
        return
    if total and digest_of(folder / SUMS) != total.lower():
        yield f"{SUMS} has the SHA-256 {digest_of(folder / SUMS)}, and not the one that was given"
        return
    text = (folder / SUMS).read_text(errors="replace")
    if text == sums_of(folder):
        return
    named = {it[2]: it[1] for it in map(_SUM_LINE.fullmatch, text.splitlines()) if it}
    there = {str(it.relative_to(folder)): it for it in folder.rglob("*") if it.name != SUMS}
    yield from (f"{it} is here, and {SUMS} does not name it" for it in sorted({*there} - {*named}))
    yield from (f"{it} is missing" for it in sorted({*named} - {*there}))
    both = [it for it in sorted(there) if it in named and digest_of(there[it]) != named[it]]
    yield from (f"{it} is another file than {SUMS} says" for it in both)
    if {*named} == {*there} and not both:
        yield f"{SUMS} is not as `sha256sum` writes it, sorted by name"
