"""A look at the files of a store: what is wrong with them, by their bytes and by what was kept of them. It changes nothing.

A job, a service, a check and the metrics all look by `look`. What was read once isn't read again: of a file that begins as it did only what follows.
"""

from __future__ import annotations

import hashlib
import os
import time
from typing import Any, Dict, List, NamedTuple, Optional, Tuple

from ..formats import (
    MOST_MARKS,
    MOST_SEALS,
    OPEN,
    SEGMENT,
    Book,
    Era,
    Eras,
    FormatError,
    Header,
    Mark,
    Store,
)
from ..formats import content_of, eras_of
from .conf import Conf
from .state import Front, State

MOMENT = 0.3  # seconds between two reads of what follows the end of a file
FIGURES = ("batches", "seals", "marks", "filed", "marked")


class Found(NamedTuple):
    """What a look finds wrong, or a line of `inspect`: `alarm number-gap of store item 12 before 8 this 10`. Only what has `words`, which say all of it,
    can be known once it was acknowledged."""

    name: str
    device: str
    what: str
    words: str = ""
    rank: str = "alarm"

    @property
    def event(self) -> str:
        return f"{self.name} of {self.device}"

    @property
    def line(self) -> str:
        return f"{self.event} {self.words or self.what}"


class Look(NamedTuple):
    """What is wrong, and how each file is now that can be read."""

    found: List[Found]
    fronts: Dict[str, Front]

    @property
    def wrong(self) -> Dict[str, str]:
        """What is wrong first with each file that something is wrong with."""
        return {it.device: it.what for it in reversed(self.found)}

    def book(self, state: Optional[State] = None) -> Front:
        """The front of a book of which more than half of the books say at least as much; what was kept if none can be read."""
        fronts = [it for device, it in self.fronts.items() if device != "store"]
        fronts = [it for it in fronts or (state.books.values() if state else []) if "mark" in it]
        fronts.sort(key=lambda it: int(it["batches"]))
        return fronts[(len(fronts) - 1) // 2] if fronts else {}

    def figures(self, state: Optional[State] = None) -> Dict[str, float]:
        """What the files have left, and when they were last written, by the names of metrics. What can't be told has no figure."""
        found: Dict[str, float] = {}
        if store := self.fronts.get("store"):
            found["store_bytes_left"] = max(0, Store.whole_limit - 1 - store["bytes"])
            found["store_full_seconds"], found["tile_seconds"] = store["full_at"], store["tile"]
            found["last_moment_seconds"] = store["last_second"]
        if book := self.book(state):
            found["sealed_tiles"] = max(0, book["batches"] - 1)
            found["last_filing_seconds"] = book["filed"]
            found["last_mark_seconds"] = book["marked"]
            found["last_mark_altered"] = "altered" in book["mark"]
            found["book_seals_left"] = MOST_SEALS - book["seals"]
            found["book_marks_left"] = MOST_MARKS - book["marks"]
        return found


def look(conf: Conf, state: Optional[State], expects_era: bool = False) -> Look:
    """How the files are. What follows an end counts if it is there a moment later, too: a writer may be at it."""
    first = second = _look(conf, state, expects_era)
    if any(it.name == "trailing" for it in first.found):
        time.sleep(MOMENT)
        second = _look(conf, state, expects_era)
    known = state.known if state else []
    found = [it for it in second.found if it.name != "trailing" or it in first.found]
    return Look([it for it in found if not it.words or it.line not in known], second.fronts)


def _look(conf: Conf, state: Optional[State], expects_era: bool) -> Look:
    seen = Look([], {})
    for device, path in conf.devices.items():
        kept = state.kept(device) if state else {}
        wrong, front = look_at(device, path, conf.id, kept, expects_era)
        seen.found.extend(wrong)
        if front:
            seen.fronts[device] = front
    return seen


def look_at(
    device: str, path: str, id: int, kept: Front, expects_era: bool = False
) -> Tuple[List[Found], Optional[Front]]:
    """What is wrong with a file; and how it is now, if it can be read and begins as it did."""

    def wrong(name: str, what: str) -> Tuple[List[Found], None]:
        return [Found(name, device, f"{os.path.basename(path)} {what}")], None

    old = kept.get("path", path)
    if os.path.isfile(old) and not (os.path.exists(path) and os.path.samefile(old, path)):
        return wrong("moved", f"is the {device}, and {os.path.basename(old)} is there still")
    try:
        content = content_of(path)
    except FileNotFoundError:
        return wrong("missing", "is not there")
    except OSError as why:
        return wrong("unreadable", f"can't be read: {why.strerror}")
    except FormatError:
        return wrong("damaged", "is no plain file")
    had = kept.get("bytes", 0)
    digest = hashlib.sha256(memoryview(content)[:had])
    is_shorter = bool(kept) and len(content) <= had
    if is_shorter or kept and digest.hexdigest() != kept["sha256"]:
        if said := _other(content, device, id, kept):
            return wrong("replaced", said)
        if is_shorter:
            return wrong("shorter", f"has {len(content)} bytes, and had more than {had}")
        return wrong("rewritten", f"isn't what it was in its first {had} bytes")
    try:
        read = _store if device == "store" else _book
        front, odd = read(content, device, path, id, kept)
    except FormatError as why:
        return wrong("damaged" if content else "empty", f"is no {device}: {why}")
    if expects_era:
        odd = [it for it in odd if it.name != "policy"]
    digest.update(memoryview(content)[had : front["bytes"]])
    return odd, {"path": path, "sha256": digest.hexdigest(), **front}


def _other(content: bytes, device: str, id: int, kept: Front) -> Optional[str]:
    """What a file is that isn't the kind of file any more that it was, in words."""
    try:
        if device != "store":
            return "is empty" if Book(content).is_empty else None
        header = Header.of(content)
    except FormatError:
        return f"is no {device} any more" if content else "is empty"
    if header.id != id:
        return f"has the id {header.id} now"
    was = kept.get("format", header.format)
    return f"went from format {was} to {header.format}" if header.format != was else None


def _store(
    content: bytes, device: str, path: str, id: int, kept: Front
) -> Tuple[Front, List[Found]]:
    header, is_first = Header.of(content, path), "eras" not in kept
    store = Store(content, path, 0 if is_first else kept["bytes"])
    eras = eras_of(header, ()) if is_first else Eras(Era(*it) for it in kept["eras"])
    last, policies = kept.get("last", 0), []
    for item in store.items():
        if isinstance(item, Era):
            policies.append(item)
            eras.take(item)
        else:
            last = item.moment
    odd = _after_end(store, device)
    if header.id != id:
        odd = [Found("other-id", device, f"the store has the id {header.id}, and not {id}")]
    elif store.end < kept.get("least", 0):
        odd = [Found("shorter", device, f"the store ends at {store.end}, not at {kept['least']}")]
    elif policies and not is_first:
        tile, _, exponent, algorithms = policies[0]
        said = f"no one asked for tiles of 2^{exponent} granules, chains {algorithms}, from {tile}"
        odd.append(Found("policy", device, said))
    return {
        "bytes": store.end,
        "format": header.format,
        "eras": [list(it) for it in eras],
        "last": last,
        "last_second": header.epoch + last,
        "epoch": header.epoch,
        "full_at": header.full_at,
        "tile": header.width << eras[-1].exponent,
    }, odd


def _book(
    content: bytes, device: str, path: str, id: int, kept: Front
) -> Tuple[Front, List[Found]]:
    book = Book(content, path, kept["bytes"] if "mark" in kept else 0)
    if book.is_empty:
        return {"bytes": 0}, [Found("empty", device, f"nothing is filed in the {device} yet")]
    front: Front = {**{it: kept.get(it, 0) for it in FIGURES}, "mark": kept.get("mark", "")}
    others = set(kept.get("others", []))
    for filing in book.filings:
        is_mark = isinstance(filing, Mark)
        front["marks"] += is_mark
        front["seals"] += 0 if isinstance(filing, Mark) else filing.count
        if filing.id != id:
            others.add(filing.id)
        elif isinstance(filing, Mark):
            front["marked"], front["mark"] = filing.moment, str(filing)
        elif filing.index != front["batches"]:
            raise FormatError(f"batch {filing.index} is out of turn")
        else:
            front["batches"], front["filed"] = front["batches"] + 1, filing.moment
    odd, tiles = _after_end(book, device), front["batches"] - 1
    if tiles < kept.get("least", -1):
        said = f"the {device} has {tiles} sealed tiles, and had {kept['least']}"
        odd = [Found("shorter", device, said)]
    elif tiles < 0:
        said = f"the {device} is of the id {min(others)}" if others else "nothing is filed"
        odd = [Found("other-id" if others else "empty", device, f"{said}: none of the id {id}")]
    return {**front, "bytes": book.end, "others": sorted(others)[:9]}, odd


def _after_end(file: Any, device: str) -> List[Found]:
    """What no writer that was cut off leaves at an end, or after it."""
    gates = [
        it for it in file.ends() if file.content[it] not in (0, OPEN) and not file.is_begun(it)
    ]
    odd = [(it.place, it.length, it.records) for it in file.trailing() if not it.torn]
    found = []
    for place, length, records in odd + [(it, 0, 0) for it in gates]:
        segment = place // SEGMENT if device == "store" else 0
        words = f"segment {segment} byte {place} bytes {length} records {records}"
        said = f"no crash leaves what is at the end, byte {place}: {length} bytes follow"
        found.append(Found("trailing", device, said, words))
    return found
