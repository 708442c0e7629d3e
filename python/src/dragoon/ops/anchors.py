"""Anchors: how a notary's book was on a day, signed and stamped, so that others can compare today's book with it.

A book only grows: what is before its closing gate stays. `add` writes the length of that prefix, its SHA-256 and the date as the
next line of FOLDER/anchors, signs all lines so far by an ssh key (FOLDER/N.sig), and has them stamped by an authority of RFC 3161
(FOLDER/N.tsr) if a URL names one. `take` is for another machine: it takes a list that only grew. `check` compares the book with
each line. ssh-keygen and openssl sign, stamp and verify; nothing here does.
"""
from __future__ import annotations

import calendar
import contextlib
import hashlib
import os
import re
import subprocess
import tempfile
import time
import urllib.request
from pathlib import Path
from typing import Any, Iterator, List, NamedTuple, Optional, Tuple

from ..errors import Error
from ..formats import Book
from .whole import locked, placed, replace, written

NAMESPACE, SIGNER, HOUR, DATE = "dragoon-anchor", "notary", 3_600, "%Y-%m-%dT%H:%M:%SZ"
_LINE = re.compile(r"([1-9][0-9]{1,9}) ([0-9a-f]{64}) ([0-9T:Z-]{20})\n")
_STAMPED = re.compile(r"^Time stamp: (\w+ +\d+ [\d:]+)(?:\.\d+)? (\d{4}) GMT$", re.MULTILINE)


class Differs(Error):
    """Something that was anchored no longer holds."""


class Anchor(NamedTuple):
    number: int
    length: int
    digest: str
    date: str
    lines: bytes
    """all lines up to this one, which its signature is of"""

    @property
    def name(self) -> str:
        return f"anchor {self.number} of {self.date}"

    @property
    def second(self) -> int:
        return second_of(self.date, DATE)


def second_of(text: str, layout: str) -> int:
    return calendar.timegm(time.strptime(text, layout))


def called(*words: Any, given: bytes = b"") -> Tuple[int, str]:
    """The status of a command, and all that it says."""
    try:
        done = subprocess.run(
            [str(it) for it in words], input=given, stdout=-1, stderr=subprocess.STDOUT, check=False
        )
    except OSError as why:
        raise Error(f"{words[0]} cannot be run: {why.strerror}") from why
    return done.returncode, done.stdout.decode(errors="replace").strip()


def must(*words: Any, given: bytes = b"") -> str:
    status, said = called(*words, given=given)
    if status:
        raise Error(f"{' '.join(map(str, words[:3]))} ends with {status}: {said}")
    return said


# ---- a list


def anchors_in(folder: Path) -> List[Anchor]:
    """The anchors of a list. A signature that no line goes with shows that the list was cut."""
    found: List[Anchor] = []
    listed = read(folder / "anchors") if (folder / "anchors").exists() else b""
    lines = b""
    for number, line in enumerate(listed.splitlines(keepends=True), 1):
        lines += line
        parts = _LINE.fullmatch(line.decode(errors="replace"))
        try:
            found.append(Anchor(number, int(parts[1]), parts[2], parts[3], lines))  # type: ignore
            assert found[-1].second
        except (TypeError, ValueError):
            raise Differs(f"line {number} of {folder / 'anchors'} is no anchor") from None
    signed = max((int(it.stem) for it in folder.glob("*.sig") if it.stem.isdecimal()), default=0)
    if signed > len(found) and not was_stopped(folder / "anchors.new", listed, signed):
        raise Differs(
            f"{folder / 'anchors'} was cut: it has {len(found)} anchors, and {signed}.sig signs {signed}"
        )
    return found


def was_stopped(new: Path, lines: bytes, signed: int) -> bool:
    """Whether a call was stopped after this signature: the longer list, a line of which it signs, is left."""
    longer = read(new) if new.exists() else b""
    return longer.startswith(lines) and lines.count(b"\n") < signed <= longer.count(b"\n")


def read(path: Path) -> bytes:
    if not path.is_file():
        raise Error(f"{path} is no file that can be read")
    return path.read_bytes()


@contextlib.contextmanager
def alone(folder: Path) -> Iterator[None]:
    """Only one process writes a list at a time."""
    if not folder.is_dir():
        raise Error(f"{folder} is no folder")
    with locked(folder / "lock", 600):
        yield


def compare(anchor: Anchor, path: str, content: bytes) -> None:
    """The book has to begin with the prefix that was anchored, and to have its gate after that."""
    if len(content) <= anchor.length:
        has = f"it has {len(content)} bytes, and had more than {anchor.length}"
        raise Differs(f"{path} was cut: {has} at {anchor.name}")
    if hashlib.sha256(content[: anchor.length]).hexdigest() != anchor.digest:
        raise Differs(
            f"{path} was rewritten: its first {anchor.length} bytes are not those of {anchor.name}"
        )


# ---- add


def sign(lines: bytes, key: str, room: Path) -> bytes:
    (room / "lines").write_bytes(lines)
    must("ssh-keygen", "-Y", "sign", "-q", "-f", key, "-n", NAMESPACE, room / "lines")
    return (room / "lines.sig").read_bytes()


def stamp(lines: bytes, url: str, room: Path) -> bytes:
    """What the stamping authority answers, if it grants the stamp."""
    (room / "lines").write_bytes(lines)
    query, reply = room / "query", room / "reply"
    must("openssl", "ts", "-query", "-data", room / "lines", "-sha256", "-cert", "-out", query)
    try:
        kind = {"Content-Type": "application/timestamp-query"}
        asked = urllib.request.Request(url, query.read_bytes(), kind)
        with urllib.request.urlopen(asked, timeout=60) as answer:
            reply.write_bytes(answer.read(1 << 20))
    except (OSError, ValueError) as why:
        raise Error(f"{url} stamps nothing: {getattr(why, 'reason', why)}") from why
    token = ("-token_out", "-out", room / "token")
    if called("openssl", "ts", "-reply", "-in", reply, *token)[0]:
        raise Error(f"{url} stamps nothing: what it answers is no stamp")
    return reply.read_bytes()


def add(path: str, to: str, key: str, url: Optional[str] = None) -> str:
    """Anchors a book, if it has grown since the last anchor."""
    folder, book = Path(to), Book.read(path)
    prefix = book.content[: book.end]
    with alone(folder), tempfile.TemporaryDirectory() as made:
        anchors = anchors_in(folder)
        for it in anchors:
            signature_of(it, folder)
        if anchors:
            compare(anchors[-1], path, prefix + b"\0")
            if anchors[-1].length == len(prefix):
                return f"nothing is new since {anchors[-1].name}"
        number, date = len(anchors) + 1, time.strftime(DATE, time.gmtime())
        line = f"{len(prefix)} {hashlib.sha256(prefix).hexdigest()} {date}\n".encode()
        lines = (anchors[-1].lines if anchors else b"") + line
        signature = sign(lines, key, Path(made))
        stamped = stamp(lines, url, Path(made)) if url else None
        # The line comes last: after a call that was stopped before, the next anchor replaces what it left.
        new = written(folder / "anchors", lines)
        replace(folder / f"{number}.sig", signature)
        if stamped is not None:
            replace(folder / f"{number}.tsr", stamped)
        placed(new, folder / "anchors")
    return f"anchor {number}: {len(prefix)} bytes{first_word(number)}"


def first_word(number: int) -> str:
    """A list that begins vouches for nothing before: that is a notice to whoever had one."""
    return ". A list begins, and vouches for nothing before" if number == 1 else ""


# ---- take


def take(source: str, to: str) -> str:
    """Takes a list that came from the notary's machine, if the one that is kept is a prefix of it."""
    folder, vault = Path(source), Path(to)
    if folder.resolve() == vault.resolve():
        raise Error(f"{source} and {to} are one folder")
    with alone(vault):
        kept = anchors_in(vault)
        try:
            anchors = anchors_in(folder)
            grown(anchors, folder, kept, vault)
        except Differs as why:
            raise Differs(
                f"{why}. {vault} stays as it is, and {aside(folder, vault)} has what came"
            )
        if not anchors:
            raise Error(f"{folder} has no anchor")
        if len(anchors) == len(kept):
            return f"nothing is new since {anchors[-1].name}"
        files = [signature_of(it, folder) for it in anchors[len(kept) :]]
        files += [it for it in folder.glob("*.tsr") if not (vault / it.name).exists()]
        new = written(vault / "anchors", anchors[-1].lines)
        for it in files:
            replace(vault / it.name, read(it))
        placed(new, vault / "anchors")
    return f"taken {len(anchors)}: {vault} had {len(kept)} of them{first_word(len(kept) + 1)}"


def grown(anchors: List[Anchor], folder: Path, kept: List[Anchor], vault: Path) -> None:
    for mine, other in zip(kept, anchors):
        if mine.lines != other.lines:
            raise Differs(f"{folder} has another {mine.name} than {vault}: the list was changed")
    if len(anchors) < len(kept):
        has = f"{folder} has {len(anchors)} anchors, and {vault} has {len(kept)}"
        raise Differs(f"{has}: the list was cut, or is an older copy")


def aside(folder: Path, vault: Path) -> Path:
    """Keeps a list that is not taken in a folder of its own, once."""
    came = {it.name: read(it) for it in folder.iterdir() if it.suffix in ("", ".sig", ".tsr")}
    came.pop("lock", None)
    digest = hashlib.sha256(repr(sorted(came.items())).encode()).hexdigest()[:12]
    room = vault / f"refused.{digest}"
    room.mkdir(exist_ok=True)
    for name, content in came.items():
        replace(room / name, content)
    return room


# ---- check


def signature_of(anchor: Anchor, folder: Path) -> Path:
    path = folder / f"{anchor.number}.sig"
    if not path.is_file() or not path.stat().st_size:
        raise Differs(f"{anchor.name} is not signed: {path} is missing or empty")
    return path


def is_signed(anchor: Anchor, folder: Path, signers: str) -> None:
    signature = signature_of(anchor, folder)
    words = ("-f", signers, "-I", SIGNER, "-n", NAMESPACE, "-s", signature)
    status, said = called("ssh-keygen", "-Y", "verify", *words, given=anchor.lines)
    if status:
        why = said.splitlines()[-1:] or [f"ssh-keygen ends with {status}"]
        raise Differs(f"{anchor.name} is not signed by `{SIGNER}` of {signers}: {why[0]}")


def is_stamped(anchor: Anchor, folder: Path, authority: str, room: Path) -> None:
    """Certificates have to be good at the stamp's own time, so that it holds when they have expired."""
    path, lines = folder / f"{anchor.number}.tsr", room / "lines"
    lines.write_bytes(anchor.lines)
    shown = _STAMPED.search(called("openssl", "ts", "-reply", "-in", path, "-text")[1])
    if not shown:
        raise Differs(f"{anchor.name} is not stamped: {path} is no stamp")
    second = second_of(f"{shown[1]} {shown[2]}", "%b %d %H:%M:%S %Y")
    words = ("-data", lines, "-in", path, "-CAfile", authority, "-attime", second)
    status, said = called("openssl", "ts", "-verify", *words)
    if status:
        raise Differs(f"{anchor.name} is not stamped by {authority}: {said.splitlines()[-1]}")
    if abs(second - anchor.second) > HOUR:
        raise Differs(f"{anchor.name} was stamped at {time.strftime(DATE, time.gmtime(second))}")


def check(
    path: str, source: str, signers: str, authority: Optional[str], most: Optional[int]
) -> str:
    """Compares a book with each anchor. Of more than one that fails the first is named."""
    folder, content = Path(source), Book.read(path).content
    anchors = anchors_in(folder)
    if not anchors:
        raise Error(f"{folder} has no anchor")
    read(Path(signers))
    with tempfile.TemporaryDirectory() as room:
        for it in anchors:
            is_signed(it, folder, signers)
            if authority:
                is_stamped(it, folder, authority, Path(room))
            compare(it, path, content)
    last, age = anchors[-1], int(time.time()) - anchors[-1].second
    if most is not None and not -HOUR <= age <= most:
        why = "nothing was anchored since, or the list was cut" if age > 0 else "a clock is wrong"
        raise Error(f"the last anchor of {folder} is {age} seconds old: {why}")
    kinds = "signed and stamped" if authority else "signed"
    span = f"from {anchors[0].date} to {last.date}"
    return f"clean {len(anchors)}: {kinds}, {span}, {last.length} of {len(content)} bytes"
