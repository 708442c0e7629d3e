"""What is kept of a store between two looks: one JSON file, STATE/NAME.json, replaced whole or not at all.

    {"version": 1, "id": 7, "since": 1796112000, "clock": 1796115600, "uptime": 3600.5, "boot": "fa7cc1ba-..",
     "store": {"path": "...", "bytes": 13591, "sha256": "...", "format": 2, "eras": [[0, 0, 3, 3]], ..},
     "books": {"book": {"path": "...", "bytes": 14172, "sha256": "...", "batches": 4, ..}},
     "ended": {"notarize": {"status": 0, "at": 1796115600, "well": 1796115600, "answer": "sealed 3", "events": []}},
     "alarms": {"altered": {"text": "...", "first": 1796115600, "last": 1796115600, "count": 1, "lines": []}},
     "known": ["number-gap of store item 12 before 8 this 10"],
     "acknowledged": [{"at": 1796115700, "who": "...", "why": "...", "finding": "altered", "text": "...", ..}]}

`store` and `books` say how long each file was, up to the gate that ends it, and the SHA-256 of that prefix: a file that only grows keeps it, so whatever
a look saw can't be changed unseen, filed or not. `clock`, `uptime` and `boot` say when the last call ended, by the clock and by the machine. An alarm
that ends with a person alone stays whatever ends well afterwards: what was altered and put back has still been altered.
"""

from __future__ import annotations

import contextlib
import json
import time
from dataclasses import asdict, dataclass, field
from pathlib import Path
from typing import Any, Callable, Dict, Iterator, List, Optional

from ..errors import Error
from .alarms import event_of, sort_of
from .conf import Conf
from .whole import locked, replace

VERSION, MOST_LINES = 1, 300
Front = Dict[str, Any]


class StateError(Error):
    """What is kept can't be read, or can't be written."""


@dataclass
class Alarm:
    text: str
    first: int
    last: int
    count: int = 1
    lines: List[str] = field(default_factory=list)  # what is known once it was acknowledged

    def take(self, lines: List[str]) -> None:
        self.lines = (lines + [it for it in self.lines if it not in lines])[:MOST_LINES]


_FRONT = {"path": str, "bytes": int, "sha256": str}
_SHAPE: Dict[str, Any] = {
    "version": int,
    "id": int,
    "since": int,
    "clock": int,
    "uptime": float,
    "boot": str,
    "store": _FRONT,
    "books": {"*": _FRONT},
    "ended": {"*": {"status": int, "at": int, "well": int, "answer": str, "events": [str]}},
    "alarms": {"*": {"text": str, "first": int, "last": int, "count": int, "lines": [str]}},
    "known": [str],
    "notices": [str],
    "acknowledged": [{"at": int, "who": str, "why": str, "finding": str, "text": str}],
}


def fits(value: Any, shape: Any) -> bool:
    """Whether a value read from JSON has this shape. A dictionary may hold more, and may be empty.

    >>> fits({"a": [1, 2]}, {"*": [int]}), fits({"a": ["1"]}, {"*": [int]})
    (True, False)
    """
    if isinstance(shape, type):
        return type(value) is shape
    if isinstance(shape, list):
        return isinstance(value, list) and all(fits(it, shape[0]) for it in value)
    if not isinstance(value, dict):
        return False
    if "*" in shape:
        return all(fits(it, shape["*"]) for it in value.values())
    return not value or all(key in value and fits(value[key], it) for key, it in shape.items())


@dataclass
class State:
    id: int
    since: int
    version: int = VERSION
    clock: int = 0
    uptime: float = 0.0
    boot: str = ""
    store: Front = field(default_factory=dict)
    books: Dict[str, Front] = field(default_factory=dict)
    ended: Dict[str, Dict[str, Any]] = field(default_factory=dict)
    alarms: Dict[str, Alarm] = field(default_factory=dict)
    known: List[str] = field(default_factory=list)
    notices: List[str] = field(default_factory=list)
    acknowledged: List[Dict[str, Any]] = field(default_factory=list)

    def kept(self, device: str) -> Front:
        return self.store if device == "store" else self.books.get(device, {})

    def keep(self, device: str, front: Front) -> None:
        if device == "store":
            self.store = front
        else:
            self.books[device] = front

    def alarm(self, event: str, text: str, lines: List[str]) -> None:
        """Opens an event, or keeps that it came once more. What is evidence of it, and was an event of its own, belongs to it from now on."""
        now = int(time.time())
        there = self.alarms.setdefault(event, Alarm(text, now, now, 0))
        there.text, there.last, there.count = text, now, there.count + 1
        there.take(lines)
        for part in [it for it in self.alarms if event_of(it, [event]) == event != it]:
            there.take(self.alarms.pop(part).lines)

    def end(self, until: str, is_over: Callable[[str], bool]) -> None:
        """Ends the alarms that this ends, and that are over."""
        for event in [it for it in self.alarms if sort_of(it).until == until and is_over(it)]:
            del self.alarms[event]

    def acknowledge(self, entry: Dict[str, Any]) -> None:
        """Takes what a person acknowledged. An alarm that came once more since then stays."""
        alarm = self.alarms.get(entry["finding"])
        if alarm and alarm.last <= entry["at"]:
            self.known += [it for it in alarm.lines if it not in self.known]
            del self.alarms[entry["finding"]]
        for device, front in entry.get("fronts", {}).items():
            self.keep(device, front)
        self.acknowledged.append(entry)


def load(conf: Conf) -> Optional[State]:
    """What is kept of this store, or None if nothing is."""
    path = conf.file("json")
    try:
        read = json.loads(path.read_text(encoding="utf-8"))
        if not fits(read, _SHAPE) or read["version"] != VERSION:
            raise ValueError("another shape")
        read["alarms"] = {key: Alarm(**it) for key, it in read["alarms"].items()}
        found = State(**read)
    except FileNotFoundError:
        return None
    except OSError as why:
        raise StateError(f"{path.name}: {why.strerror}") from why
    except (ValueError, TypeError, KeyError, RecursionError) as why:
        raise StateError(f"{path.name} is garbled") from why
    if found.id != conf.id:
        raise StateError(f"{path.name} is of the id {found.id}, and the config file of {conf.id}")
    return found


def save(conf: Conf, state: State) -> None:
    """Replaces the file at once, with what was acknowledged meanwhile. A StateError says that it is the old one still."""
    with changing(conf) as there:
        for entry in there.acknowledged if there else ():
            if entry not in state.acknowledged:
                state.acknowledge(entry)
        write(conf, state)


@contextlib.contextmanager
def changing(conf: Conf) -> Iterator[Optional[State]]:
    """What is kept, while nothing else changes it."""
    with failing(conf.file("saving")), locked(conf.file("saving"), 60):
        yield load(conf)


def write(conf: Conf, state: State) -> None:
    with failing(conf.file("json")):
        replace(conf.file("json"), (json.dumps(asdict(state), indent=1) + "\n").encode())


@contextlib.contextmanager
def failing(path: Path) -> Iterator[None]:
    try:
        yield
    except OSError as why:
        raise StateError(f"{path.name}: {why.strerror}") from why


def alone(conf: Conf, wait: float = 600) -> "contextlib._GeneratorContextManager[None]":
    """While nothing else looks after this store. A Busy says that something does, still."""
    return locked(conf.file("lock"), wait)
