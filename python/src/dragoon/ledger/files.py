"""Files that a ledger makes in memory."""
from __future__ import annotations

import contextlib
import glob
import os
import shutil
import tempfile
from typing import Iterator

from ..formats import Store

MEMORY = "/dev/shm"


@contextlib.contextmanager
def in_memory(content: bytes) -> Iterator[str]:
    """The path of a file that is gone with the block, or with this process. A program may read it, and lock it alone."""
    number = os.memfd_create("dragoon")
    with open(number, "wb", buffering=0) as file:
        left = memoryview(content)
        while left:
            left = left[file.write(left) :]
        yield f"/proc/{os.getpid()}/fd/{number}"


@contextlib.contextmanager
def workshop(name: str) -> Iterator[str]:
    """A folder in memory, if there is room for two stores: what is made there needs no sync. What a killed call left under the name is removed."""
    has_room = os.path.isdir(MEMORY) and shutil.disk_usage(MEMORY).free > 2 * Store.whole_limit
    place = MEMORY if has_room else tempfile.gettempdir()
    for each in glob.glob(os.path.join(place, f"dragoon-{name}-*")):
        shutil.rmtree(each, ignore_errors=True)
    with tempfile.TemporaryDirectory(prefix=f"dragoon-{name}-", dir=place) as made:
        yield made
