"""A vault: copies of a store on a second machine, which files and validates them there, under an account of its own.

A folder has ID.store, the copy that came last; ID.clean, the last one that was clean; ID.book, the notary's; ID.json, what is kept
of both files; and ID.refused.N, each copy that was not taken. A store only grows, so a copy has to begin with all that the last
clean one holds. What has ended is filed by the copy's own last moment: this machine's clock may be past the end of a tile that
the copy has only a part of.
"""
from __future__ import annotations

import hashlib
import itertools
import os
import subprocess
from pathlib import Path
from typing import BinaryIO, List, Optional, Sequence

from ..errors import Error
from ..formats import FormatError, Store, content_of
from .alarms import CANNOT, REFUSALS
from .conf import Conf
from .state import alone
from .watch import Ended, Watch, in_turn, is_kept
from .whole import replace, written

MOST = 67_108_864


class Vault(Watch):
    def call(self, command: str, *words: str, wait: float = 0) -> Ended:
        """Files by a scripted run, whose moment is the store's last one."""
        if command != "notarize":
            return super().call(command, *words, wait=wait)
        call = self.conf.call("run", str(self.conf.id), "scripted")
        done = subprocess.run(call, input=b"notarize\n", stdout=subprocess.PIPE, check=False)
        output = done.stdout.decode(errors="replace")
        name = output.split()[1] if output.startswith("refused ") else ""
        answer = f"fault {output[len('refused '):]}" if name else output
        return self.judged(command, REFUSALS.get(name, done.returncode), answer)


def send(path: str, command: Sequence[str]) -> int:
    """Gives a copy of a store to a command, with its SHA-256 before it. The store may be in use: a copy is crash-consistent."""
    if not command:
        raise Error("a command is missing that receives the copy, as ssh notary@vault ..")
    with open(path, "rb") as file:
        os.fsync(file.fileno())
    content = content_of(path)
    digest = hashlib.sha256(content).hexdigest()
    return subprocess.run(list(command), input=f"{digest}\n".encode() + content).returncode


def receive(folder: str, id: int, stream: BinaryIO) -> int:
    """Takes a copy that `send` gives, files what has ended of it, and validates it. 1 if it is altered or did not grow."""
    if not os.path.isdir(folder):
        raise Error(f"{folder} is no folder")
    base = Path(folder).absolute()
    books, store = (f"{base}/{id}.book",), base / f"{id}.store"
    conf = Conf(str(id), str(store), books, id, str(base), path=f"{base}/{id}")
    with alone(conf):
        copy, clean = taken(base, stream), base / f"{id}.clean"
        try:
            if wrong := not_grown(clean, copy):
                refuse(base, id, copy)
                watch = Vault(conf)
                watch.alarm("rewritten of store", f"a copy was refused: {wrong}")
                is_kept(watch)
                print(f"refused: {wrong}")
                return 1
            is_first = not Path(books[0]).exists() and not clean.exists()
            os.replace(copy, store)
            if is_first:
                Vault(conf).call("notarize")  # no job makes a book: a lost one must not come back
        finally:
            copy.unlink(missing_ok=True)
        return filed(conf, store, clean)


def filed(conf: Conf, store: Path, clean: Path) -> int:
    watch, statuses = Vault(conf), []
    for command in ("notarize", "validate"):
        ended = in_turn(watch, command, (), 0)
        print((ended.output or ended.answer).rstrip("\n"), flush=True)
        statuses.append(ended.status)
        if command == "validate" and not ended.status and not statuses[0]:
            replace(clean, store.read_bytes())
    worst = 1 if 1 in statuses or 10 in statuses else max(statuses)
    return worst if is_kept(watch) else worst or CANNOT


def taken(folder: Path, stream: BinaryIO) -> Path:
    """What came, in a file of its own, if it is what its SHA-256 says."""
    digest, content = stream.readline(66).strip(), stream.read(MOST)
    if hashlib.sha256(content).hexdigest().encode() != digest:
        raise Error("what came was cut off, or is not what `dragoonctl vault send` gives")
    return written(folder / ".came", content)


def not_grown(clean: Path, copy: Path) -> Optional[str]:
    """What of the last clean copy a new one lacks, or None. A store that was migrated holds all of its items."""
    try:
        new = Store.read(str(copy))
        if not clean.exists():
            return None
        old = Store.read(str(clean))
    except FormatError as why:
        return f"it is no store: {why}"
    if new.content[: old.end] == old.content[: old.end]:
        return None
    if new.header.fields != old.header.fields:
        return "its header is another one"
    items, had = list(new.items()), list(old.items())
    if new.header.format == old.header.format or items[: len(had)] != had:
        return "it lacks what an earlier copy had, or has something else in its place"
    return None


def refuse(folder: Path, id: int, copy: Path) -> None:
    for number in itertools.count(1):
        to = folder / f"{id}.refused.{number}"
        if not to.exists():
            os.replace(copy, to)
            return
