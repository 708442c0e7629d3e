"""One alarm of a store for Nagios and Icinga, by nagiosplugin: 0 OK, 1 WARNING, 2 CRITICAL, 3 UNKNOWN, and one short line.

    dragoonctl check store|notary|altered|fault CONF [--late RANGE] [--room RANGE] [--days RANGE]

It is CRITICAL if an alarm of this kind is kept, or the files say one now, and WARNING if something is late or runs out, or a notice waits to be
acknowledged. Each of the four can have its own contacts. It changes nothing.
"""

from __future__ import annotations

import contextlib
import time
from typing import Any, Dict, Iterator, List

import nagiosplugin

from ..errors import Error
from .alarms import is_of, text_of
from .conf import Conf, read_conf
from .files import look
from .state import Front, load
from .watch import LATE


CONTEXTS = {  # of each check its figures, and the range that each has to be in
    "store": {"store_bytes_left": "room", "days_left": "days", "ahead": "ahead"},
    "notary": {"since_filing": "filing", "book_marks_left": "marks", "book_seals_left": "seals"},
    "altered": {"since_mark": "validation", "last_mark_altered": "alarms"},
    "fault": {"since_notarize": "filing", "since_validate": "validation"},
}


class Watched(nagiosplugin.Resource):  # type: ignore[misc]
    def __init__(self, conf: Conf, kind: str) -> None:
        self.conf, self.kind = conf, kind
        self.texts: List[str] = []
        self.good = ""

    @property
    def name(self) -> str:
        return f"DRAGOON {self.kind} of {self.conf.name}"

    def probe(self) -> Iterator[Any]:
        try:
            state = load(self.conf)
        except Error as why:
            raise nagiosplugin.CheckError(str(why)) from why
        if state is None:
            raise nagiosplugin.CheckError(f"no job has looked after {self.conf.name} yet")
        seen = look(self.conf, state)
        texts = {key: it.text for key, it in state.alarms.items()}
        texts.update({it.event: text_of(self.conf.name, it.event, it.what) for it in seen.found})
        for rank in ("alarm", "notice"):
            mine = [it for key, it in texts.items() if is_of(key, self.kind, rank)]
            self.texts += mine
            yield _metric(f"{rank}s", len(mine), f"{rank}s")
        figures, book = seen.figures(state), seen.book(state)
        self.good = (
            f"{book.get('mark') or 'no mark'}, {figures.get('sealed_tiles', 0)} tiles sealed"
        )
        is_unsure = not book.get("mark") or all(it in seen.wrong for it in state.books)
        if self.kind == "altered" and is_unsure and not self.texts:
            raise nagiosplugin.CheckError("no one can tell: no validation yet, or a wrong book")
        now = time.time()
        if "store_bytes_left" in figures:
            figures["days_left"] = (figures["store_full_seconds"] - now) / 86_400
            figures["ahead"] = max(0, figures["last_moment_seconds"] - now)
        if "sealed_tiles" in figures:
            figures["since_filing"] = now - figures["last_filing_seconds"]
            figures["since_mark"] = now - figures["last_mark_seconds"]
        for command in LATE:
            well = state.ended.get(command, {}).get("well") or state.since
            figures[f"since_{command}"] = now - well
        for name, context in CONTEXTS[self.kind].items():
            if name in figures:
                yield _metric(name, figures[name], context)


def _metric(name: str, value: float, context: str) -> Any:
    return nagiosplugin.Metric(name, int(value), context=context)


class Said(nagiosplugin.Summary):  # type: ignore[misc]
    def ok(self, results: Any) -> str:
        return str(results.first_significant.resource.good)

    def problem(self, results: Any) -> str:
        first = results.first_significant
        texts: List[str] = getattr(first.resource, "texts", [])
        is_alarm = first.metric is not None and first.metric.name in ("alarms", "notices")
        return texts[0] if is_alarm and texts else str(super().problem(results))


def ranges(conf: Conf, given: Dict[str, str]) -> Dict[str, str]:
    """When a figure is a WARNING. The days go by the store's life: one of one-second granules has twelve. A filing is late after a tile and two hours."""
    store: Front = {}
    with contextlib.suppress(Error):  # the check itself says so
        state = load(conf)
        store = state.store if state else {}
    life = store["full_at"] - store["epoch"] if "epoch" in store else 1 << 32
    found = {"room": "4194304:", "marks": "4096:", "seals": "262144:", "ahead": "60"}
    found["days"] = f"{min(14, life / 86_400 / 8):.1f}:"
    found["filing"] = given.get("late") or str(LATE["notarize"] + store.get("tile", 0))
    found["validation"] = given.get("late") or str(LATE["validate"])
    return {**found, **{key: it for key, it in given.items() if it and key in found}}


def check(path: str, kind: str, **given: str) -> int:
    """Prints the line and ends the process, as nagiosplugin does."""
    try:
        conf = read_conf(path)
        rows = [nagiosplugin.ScalarContext(key, it) for key, it in ranges(conf, given).items()]
    except (Error, ValueError) as why:
        print(f"DRAGOON UNKNOWN - {why}")
        return 3
    alarms = nagiosplugin.ScalarContext("alarms", critical="0:0")
    notices = nagiosplugin.ScalarContext("notices", warning="0:0")
    nagiosplugin.Check(Watched(conf, kind), alarms, notices, *rows, Said()).main(timeout=300)
    return 3
