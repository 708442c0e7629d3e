"""Takes over what jobs of earlier versions left in STATE: seven files a store, and the files of how each command ended, for what was altered."""

from __future__ import annotations

import contextlib
import hashlib
import os
import time
from typing import Dict, List, Optional

from .alarms import text_of
from .conf import Conf
from .state import State, failing

ENDS = ("notarize", "validate", "run", "analyse")
FILES = ("book", "sealed", "length", "behind", "hidden", "odd", "known", *ENDS)


def left(conf: Conf) -> Dict[str, str]:
    """What the files say, by their endings. STATE/NAME.book may be the book itself, which is none of them."""
    found: Dict[str, str] = {}
    devices = [os.path.realpath(it) for it in conf.devices.values()]
    for ending in FILES:
        path = conf.file(ending)
        if os.path.realpath(path) not in devices and path.exists():
            with failing(path), contextlib.suppress(UnicodeDecodeError):  # as of a book
                found[ending] = path.read_text(encoding="utf-8").strip()
    return found


def taken_over(conf: Conf) -> Optional[State]:
    """What they say, or None if there are none."""
    said, state = left(conf), State(conf.id, int(time.time()))
    for ending in ("sealed", "book", "length"):
        with contextlib.suppress(ValueError, IndexError):
            words = said.get(ending, "").split(" ", 5 if ending == "book" else 4)
            if int(words[0]) == conf.id:
                _take(conf, state, ending, words)
    for ending, device in (("behind", "store"), ("hidden", "book"), ("odd", "store")):
        if ending in said:
            key = f"earlier-{ending} of {device}"
            state.alarm(key, text_of(conf.name, key, said[ending].split("\n")[0]), [])
    state.known = said.get("known", "").splitlines()
    for command in ENDS:
        for line in said.get(command, "").splitlines():
            if line.startswith(("1 ", "10 ")):
                state.alarm("altered", text_of(conf.name, "altered", f"{command}: {line}"), [])
    return state if said else None


def _take(conf: Conf, state: State, ending: str, words: List[str]) -> None:
    """`book` is ID TILES END SHA256 MOMENT [PATH], `sealed` ID TILES MOMENT, `length` ID BYTES MOMENT ITEM [PATH]."""
    front = {"path": "", "bytes": 0, "sha256": hashlib.sha256().hexdigest()}
    if ending == "length":
        path = (words[4:] + [conf.store])[0]
        state.store = {**front, "path": path, "least": int(words[1]) - 1}
        return
    if ending == "book":
        path = (words[5:] + [conf.books[0]])[0]
        front.update(path=path, bytes=int(words[2]), sha256=words[3])
    least = max(int(words[1]), state.kept("book").get("least", 0))
    state.books["book"] = {**front, "least": least}


def clear(conf: Conf) -> None:
    """Removes the files once what they said is kept."""
    for ending in left(conf) if conf.file("json").exists() else ():
        with contextlib.suppress(OSError):
            conf.file(ending).unlink()
