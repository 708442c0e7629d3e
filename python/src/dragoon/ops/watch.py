"""Looks after a store: compares the files with what was kept of them, calls the program, and keeps how that ended.

Nothing here reads standard error. It goes by statuses, by answers, by the bytes of the files, and by the findings of `inspect`, which have names.
"""

from __future__ import annotations

import contextlib
import os
import subprocess
import sys
import time
from typing import Any, Dict, List, NamedTuple, Optional, Sequence, Tuple

from ..errors import Error
from ..tables import plain
from . import quorum
from .alarms import ALTERED, CANNOT, NOTARY_FAULT, ODD, STORE_FAULT, TOO_LATE, USAGE
from .alarms import PART_OF, event_of, event_of_status, head_of, line_of, sort_of, text_of
from .conf import Conf, ConfError, read_conf
from .files import Found, Look, look, look_at
from .machine import ahead_of, holder_of, now_of_machine, trouble_of
from .state import Front, State, StateError, alone, changing, load, save, write
from .takeover import clear, taken_over
from .whole import Busy

LATE = {"notarize": 7_200, "validate": 93_600}  # seconds after which a command is late
AFTER = {"notarize": ("validate", "analyse"), "validate": ("analyse",)}  # if it finds altered
# how the answers begin that a command gives with this status; anything else is no answer of this program
ANSWERS = {
    ("notarize", 0): ("sealed ",),
    ("validate", 0): ("clean ", "unsealed"),
    ("analyse", 0): ("report ",),
    ("policy", 0): ("era ",),
    ("validate", 1): ("altered ", "header altered "),
    ("analyse", 1): ("report ",),
}


class Ended(NamedTuple):
    """How a call ended. `event` is what it opens, if that isn't the one of the status."""

    status: int
    answer: str
    event: str = ""
    output: str = ""


# ---- keeping


class Watch:
    """What looks after a store, for as long as it is alone with it."""

    def __init__(self, conf: Conf) -> None:
        self.conf = conf
        self.expects_era = False  # whether a `policy` of our own came after the last look
        self.accepts_clock = False  # whether a person says that the clock is right
        self.told: Dict[str, str] = {}
        self.seen = Look([], {})
        self.state = load(conf) or taken_over(conf) or State(conf.id, int(time.time()))

    def alarm(self, event: str, what: str, lines: Sequence[str] = ()) -> None:
        """Keeps an alarm, and tells it once in the life of a process."""
        said = text_of(self.conf.name, event, what)
        self.state.alarm(event, said, list(lines))
        if self.told.get(event) != said:
            self.told[event] = said
            tell(self.conf, event, said)

    # ---- looking

    def look(self) -> Optional[Ended]:
        """Compares the files with what was kept of them, and keeps how they are. What is wrong is an alarm; if nothing may be filed for it, the
        status and the words to end with."""
        self.seen = seen = look(self.conf, self.state, self.expects_era)
        self.expects_era = False
        for it in seen.found:
            self.alarm(it.event, it.what, [it.line] if it.words else [])
        there = {it.event for it in seen.found}
        self.state.end("look", lambda event: event not in there)
        for device in self.conf.devices:
            if device not in seen.wrong:
                if not self.state.kept(device).get("path"):
                    said = f"nothing was kept of the {device}: it is believed as it is"
                    self.alarm(f"believed of {device}", said)
                self.state.keep(device, seen.fronts[device])
        if 2 * len(self.good_books()) <= len(self.conf.books):
            said = next(what for it, what in seen.wrong.items() if it != "store")
            return Ended(NOTARY_FAULT, said)
        return Ended(STORE_FAULT, seen.wrong["store"]) if "store" in seen.wrong else None

    def good_books(self) -> List[str]:
        named = self.conf.devices.items()
        return [path for it, path in named if it != "store" and it not in self.seen.wrong]

    def inspect(self) -> None:
        """Asks the program what is odd about the files. What a verdict explains goes to its event, and of what a look has found nothing more is said."""
        with contextlib.suppress(OSError):
            done = self._run(self.conf.call("inspect", str(self.conf.id)), subprocess.DEVNULL)
            if done.returncode not in (0, ODD):
                return
            said = findings_of(done.stdout.decode(errors="replace"))
            found = [it for it in said if it.device not in self.seen.wrong]
            events: Dict[str, List[Found]] = {}
            for it in found:
                if it.rank == "alarm":
                    events.setdefault(event_of(it.event, self.state.alarms), []).append(it)
            for event, all in events.items():
                lines = [it.line for it in all]
                new = [it for it in lines if it not in self.state.known]
                if event in PART_OF.values():
                    self.state.alarms[event].take(lines)
                elif new:
                    more = f" (and {len(new) - 1} more)" if len(new) > 1 else ""
                    self.alarm(event, new[0] + more, new)
            notices = [it.line for it in found if it.rank != "alarm"]
            for line in notices:
                if line not in self.state.notices:
                    tell(self.conf, "", line)
            self.state.notices = notices

    # ---- calling

    def _run(self, call: List[str], to: Any = None) -> "subprocess.CompletedProcess[bytes]":
        """One run of the program. What it says to people goes where ours does."""
        nothing, pipe = subprocess.DEVNULL, subprocess.PIPE
        environment = self.conf.environment
        return subprocess.run(call, env=environment, stdin=nothing, stdout=pipe, stderr=to)

    def call(self, command: str, *words: str, wait: float = 0) -> Ended:
        """One call of the program over the store and the books that are right. While another process has a file locked it is tried again, and once
        more after a fault of a file, or if it was killed."""
        until, again = time.monotonic() + wait, True
        while True:
            try:
                call = self.conf.call(command, str(self.conf.id), *words)
                call[2] = f"notary={','.join(self.good_books() or self.conf.books)}"
                done = self._run(call)
            except OSError as why:
                return Ended(CANNOT, f"the program can't be run: {why.strerror or why}")
            output = done.stdout.decode(errors="replace")
            status = done.returncode if done.returncode >= 0 else 128 - done.returncode
            is_fault = status in (STORE_FAULT, NOTARY_FAULT)
            busy = self.busy() if is_fault else ""
            if busy and time.monotonic() >= until:
                return Ended(status, busy, "late" if self.is_late(command) else "busy", output)
            if not busy and not (again and (is_fault or status > 128)):
                return self.judged(command, status, output)
            again = bool(busy)
            time.sleep(1 if wait else 0.05)

    def busy(self) -> str:
        """Which other process has a file open, or nothing."""
        holders = ((holder_of(path), device) for device, path in self.conf.devices.items())
        return next((f"{holder} has the {device} open" for holder, device in holders if holder), "")

    def judged(self, command: str, status: int, output: str) -> Ended:
        """How a call ended, if its answer is one of this command."""
        answer = essence(output)
        begins = ("fault ",) if status < 126 else ("",)
        if not output.startswith(ANSWERS.get((command, status), ()) if status < 2 else begins):
            return Ended(CANNOT, f"the program ended with {status}, and answers {answer}")
        if status in (STORE_FAULT, NOTARY_FAULT):
            files = [self.conf.store] if status == STORE_FAULT else self.conf.books
            answer += next(filter(None, map(trouble_of, files)), "")
        if answer == "unsealed":
            return Ended(NOTARY_FAULT, answer, answer, output)
        return Ended(status, answer, "", output)

    def is_late(self, command: str) -> bool:
        well = self.state.ended.get(command, {}).get("well") or self.state.since
        return time.time() - well > LATE.get(command, 1 << 62)

    def ended(self, command: str, ended: Ended, is_told: bool = False) -> None:
        """Keeps how a command ended, and ends what that shows to be over. With `is_told` another alarm says why. After a verdict the program is asked
        once more what is odd, so that the mark that the verdict left belongs to its event."""
        now, is_well = int(time.time()), not ended.status and not ended.event
        event = "" if is_well else ended.event or event_of_status(ended.status)
        was = self.state.ended.get(command, {"well": 0, "events": []})
        events = [] if is_well else sorted({*was["events"], event})
        well = now if is_well else was["well"]
        entry = {"status": ended.status, "at": now, "well": well, "answer": ended.answer}
        self.state.ended[command] = {**entry, "events": events}
        if self.accepts_clock or not self.clock_is_odd():
            self.state.clock = now
            self.state.boot, self.state.uptime = now_of_machine()
        if is_well:
            self.state.end("call", lambda event: True)
            if command == "validate":
                self.state.ended.pop("analyse", None)  # what is clean needs none
        there = {event for it in self.state.ended.values() for event in it["events"]}
        self.state.end("well", lambda event: event not in there)
        if event and not is_told and not (command == "analyse" and event in self.state.alarms):
            code = "" if ended.event or event == "altered" else f" ({ended.status})"
            self.alarm(event, f"{command}: {ended.answer}{code}")
        if event == "altered":
            self.inspect()

    def clock_is_odd(self) -> Optional[Ended]:
        """How a filing ends if the clock is too far ahead for it, or None."""
        ahead = ahead_of(self.state)
        if ahead <= self.conf.ahead + 2:  # seconds are whole ones
            return None
        return Ended(TOO_LATE, f"the clock is {ahead / 3600:.1f} hours ahead of STATE", "clock")

    def save(self) -> None:
        save(self.conf, self.state)


def tell(conf: Conf, event: str, text: str) -> None:
    """One line, with the level that the journal reads."""
    level = {"alarm": 2, "notice": 5}[sort_of(event).rank] if event else 6
    print(f"<{level}>{head_of(conf.name, event)}{plain(text)}", file=sys.stderr, flush=True)


def findings_of(output: str) -> List[Found]:
    """The findings of `inspect`.

    >>> findings_of("alarm mark-over of book 2 mark 3 tiles 9 sealed 8\\n")[0].line
    'mark-over of book 2 mark 3 tiles 9 sealed 8'
    """
    found = []
    for line in output.splitlines():
        rank, _, rest = line.partition(" ")
        name, _, rest = rest.partition(" of ")
        words = rest.split(" ")
        length = 2 if words[0] == "book" and words[1:2] and words[1].isdigit() else 1
        said = " ".join(words[length:])
        if rank in ("alarm", "notice"):
            found.append(Found(name, " ".join(words[:length]), said, said, rank))
    return found


def essence(output: str) -> str:
    """The line of an answer that says most: of a report that of the first change, else the first one."""
    lines = output.splitlines() or ["nothing"]
    return next((line for line in lines if line.startswith("first change ")), lines[0])


# ---- a job


def job(path: str, command: str, *words: str, wait: float = 600, accept_clock: bool = False) -> int:
    """What a timer does: look, ask what is odd, call the program, look again, and keep all that. If the store was altered a validation and an
    analysis follow at once: the mark says when, and the report where."""
    try:
        conf = read_conf(path)
    except ConfError as why:
        print(f"<2>{line_of(os.path.basename(path), 'conf', str(why))}", file=sys.stderr)
        return USAGE
    try:
        with alone(conf, wait):
            watch = Watch(conf)
            watch.accepts_clock = accept_clock
            first = ended = in_turn(watch, command, words, wait)
            outputs = [ended.output or ended.answer]
            lost = {it.name for it in watch.seen.found if it.device == "store"}
            is_lost = command == "notarize" and lost & {"rewritten", "shorter"}
            for then in AFTER.get(command, ()) if is_lost or first.status in ALTERED else ():
                ended = in_turn(watch, then, (), wait)
                outputs.append(ended.output or ended.answer)
            kept = is_kept(watch)
            clear(conf)
        print("\n".join(it.rstrip("\n") for it in outputs), flush=True)
    except (Error, OSError) as why:
        event = "busy" if isinstance(why, Busy) else "state"
        name = os.path.basename(getattr(why, "filename", None) or "")
        said = f"{name}: {getattr(why, 'strerror', why)}" if name else str(why)
        tell(conf, event, text_of(conf.name, event, said))
        return CANNOT
    return first.status if kept else first.status or CANNOT


def in_turn(watch: Watch, command: str, words: Sequence[str], wait: float) -> Ended:
    """One call between two looks."""
    before = len(watch.state.alarms)
    wrong = watch.look()
    watch.inspect()
    if len(watch.state.alarms) > before:
        is_kept(watch)  # whatever happens in the call
    ended, is_told = _barred(watch, command, wrong), True
    if ended is None:
        if command == "analyse":
            words = watch.conf.algorithm.split()
        ended, is_told = watch.call(command, *words, wait=wait), False
        if not ended.status:
            watch.expects_era = command == "policy"
            wrong = watch.look() or wrong
            ended, is_told = wrong or ended, wrong is not None
        if command == "validate":
            compared(watch)
    watch.ended(command, ended, is_told and ended.event != "clock")
    return ended


def _barred(watch: Watch, command: str, wrong: Optional[Ended]) -> Optional[Ended]:
    """Why the program isn't called: nothing is filed over what is wrong, and nothing is added to a book that was rewritten."""
    names = {it.name for it in watch.seen.found if it.device == "store"}
    is_readable = names <= {"rewritten", "shorter", "trailing", "policy"}
    is_filing = command in ("notarize", "policy")
    if wrong and (wrong.status == NOTARY_FAULT or is_filing or not is_readable):
        return wrong
    return watch.clock_is_odd() if command == "notarize" and not watch.accepts_clock else None


def compared(watch: Watch) -> None:
    """Compares all books of a quorum. Of one that a look finds wrong this says nothing more."""
    books = watch.conf.books if len(watch.conf.books) > 1 else ()
    watch.state.end("comparison", lambda event: True)
    for device, it in zip(watch.conf.devices, quorum.compare(books).standings):
        if not it.is_same and device not in watch.seen.wrong:
            event = f"book-{'behind' if it.is_behind else 'differs'} of {device}"
            watch.alarm(event, f"{device} {it.said}")


def is_kept(watch: Watch) -> bool:
    """Whether STATE could be written. If not, that is told."""
    try:
        watch.save()
        return True
    except (StateError, Busy) as why:
        tell(watch.conf, "state", text_of(watch.conf.name, "state", str(why)))
        return False


# ---- a person's word


def acknowledge(conf: Conf, who: str, why: str, event: str = "") -> List[str]:
    """Ends an alarm that stays, or all of them; who did it and why is kept. A file that isn't what it was is believed as it is from now on."""
    if not who.strip() or not why.strip():
        raise Error("an acknowledgement has who it is by, and why")
    with changing(conf) as state:
        if state is None:
            raise Error(f"nothing is kept of {conf.name} yet: no job has looked at it")
        if event and event not in state.alarms:
            there = ", ".join(state.alarms) or "none"
            raise Error(f"there is no alarm `{event}` of {conf.name}; there is: {there}")
        events = [event] if event else list(state.alarms)
        for it in events:
            entry = {"at": int(time.time()), "uid": os.getuid(), "who": who, "why": why}
            more = {"text": state.alarms[it].text, "fronts": _believed(conf, state, it)}
            state.acknowledge({**entry, "finding": it, **more})
        write(conf, state)
    return events


def _believed(conf: Conf, state: State, event: str) -> Dict[str, Front]:
    """How the file of an alarm is now, if that is what the alarm is about, and nothing else is wrong with it."""
    device = event.partition(" of ")[2]
    if device in conf.devices:
        path = conf.devices[device]
        was, _ = look_at(device, path, conf.id, state.kept(device))
        odd, front = look_at(device, path, conf.id, {})
        if front and event in {it.event for it in was} and {it.name for it in odd} <= {"trailing"}:
            return {device: front}
    return {}
