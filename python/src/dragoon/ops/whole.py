"""Files that are written whole or not at all, and locks: whatever stops a process, each file is the old one or the new one."""

from __future__ import annotations

import contextlib
import fcntl
import os
import time
from pathlib import Path
from typing import Iterator

from ..errors import Error


class Busy(Error):
    """Another process has the lock."""


def synced(path: str | os.PathLike[str]) -> None:
    """Has a file, or the names of a folder, on the disk."""
    number = os.open(path, os.O_RDONLY)
    try:
        os.fsync(number)
    finally:
        os.close(number)


@contextlib.contextmanager
def _removed_on_failure(new: Path) -> Iterator[None]:
    try:
        yield
    except BaseException:
        with contextlib.suppress(OSError):
            new.unlink()
        raise


def written(path: Path, content: bytes) -> Path:
    """The content is on the disk, beside the file whose place it will take."""
    new = path.with_name(path.name + ".new")
    new.unlink(missing_ok=True)
    with _removed_on_failure(new), open(new, "xb") as file:
        file.write(content)
        file.flush()
        os.fsync(file.fileno())
    return new


def placed(new: Path, path: Path) -> None:
    """What was written takes the place of the file: it and its name are on the disk when this returns."""
    with _removed_on_failure(new):
        os.replace(new, path)
    synced(path.parent)


def replace(path: Path, content: bytes) -> None:
    placed(written(path, content), path)


@contextlib.contextmanager
def locked(path: Path, wait: float) -> Iterator[None]:
    """While this process alone has the lock."""
    until = time.monotonic() + wait
    with open(path, "a") as file:
        while True:
            try:
                fcntl.flock(file, fcntl.LOCK_EX | fcntl.LOCK_NB)
                break
            except BlockingIOError:
                if time.monotonic() >= until:
                    raise Busy(f"another process looks after this store ({path.name})") from None
            time.sleep(0.05)
        yield
