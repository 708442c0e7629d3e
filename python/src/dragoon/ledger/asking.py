"""What is asked across the stores of a ledger, line by line, and how their replies make one.

Moments of a ledger are seconds since its first store began, and each store has its own time: from its offset up to that of the next one.
So `as of M` is a question to one store, and a part of a span is asked of each store that has it.

**When pieces are one.** A version that a closed store has to its end was carried over: the next store's first version of that key goes on
with it. Pieces of an `over` are one if they meet, and their rows are the same.
"""
from __future__ import annotations

import contextlib
import heapq
import re
import threading
from collections import OrderedDict
from typing import Any, Callable, Iterable, Iterator, List, NamedTuple, Optional, Tuple, TypeVar

from ..client import Connection
from ..database import Rows
from ..errors import Error, NoTable, Refused
from ..formats import content_of
from ..language import values
from ..transport import Stderr
from .border import Contents
from .files import in_memory
from .folder import Folder, Member, opened

T = TypeVar("T")
KEPT = 8  # closed stores that stay open once they were asked
AS_OF = re.compile(r"(.*) +as +of +([0-9]+) *", re.DOTALL)
OVER = re.compile(r"over +([0-9]+) +to +([0-9]+) +((?:select|join) .*)", re.DOTALL)


class Piece(NamedTuple):
    """A row and its moments, as a reply spells it: `version` or `during`, START, STOP or `-`, and the row's values."""

    word: str
    start: int
    stop: Optional[int]
    row: str

    @classmethod
    def of(cls, reply: str, offset: int) -> "Piece":
        word, start, stop, _, row = reply.split(" ", 4)
        return cls(word, int(start) + offset, None if stop == "-" else int(stop) + offset, row)

    def __str__(self) -> str:
        stop = "-" if self.stop is None else self.stop
        return f"{self.word} {self.start} {stop} row {self.row}"


def continued(histories: Iterable[List[Piece]]) -> List[Piece]:
    """The versions of a row, of those that each store has."""
    whole: List[Piece] = []
    for versions in histories:
        if whole and whole[-1].stop is None:
            if not versions or versions[0].row != whole[-1].row:
                raise Error("a row isn't carried over as it was: `dragoonctl ledger validate`")
            first, *versions = versions
            whole[-1] = whole[-1]._replace(stop=first.stop)
        whole += versions
    return whole


def joined(streams: Iterable[Iterable[Piece]], keys: Tuple[int, ...]) -> Iterator[Piece]:
    """The pieces of a span, of those that each store has of it, which are sorted by the values at these places and then by their moments."""

    def place(piece: Piece) -> Any:
        row = values(piece.row)
        return [row[at] for at in keys], piece.start

    held: Optional[Piece] = None
    for piece in heapq.merge(*streams, key=place):
        if held and held.row == piece.row and held.stop == piece.start:
            held = held._replace(stop=piece.stop)
        else:
            if held:
                yield held
            held = piece
    if held:
        yield held


class Across:
    """What is asked across the stores of a folder. Whoever asks has the last store open, and gives it as `own`."""

    folder: Folder
    contents: Contents

    def __init__(self, program: Optional[str], stderr: Stderr) -> None:
        self._program, self._stderr = program, stderr
        self._past = threading.RLock()
        self._kept: "OrderedDict[int, Tuple[Connection, contextlib.ExitStack]]" = OrderedDict()

    @property
    def member(self) -> Member:
        """The last store."""
        return self.folder.members[-1]

    def _of(self, member: Member, ask: Callable[[Any], T], own: Any) -> T:
        """What a store answers. Within a session the last one is asked by its part there."""
        if member.number == self.member.number:
            return ask(own)
        with self._past:
            return ask(self._opened(member))

    def _opened(self, member: Member) -> Connection:
        """A run of a closed store. The file itself is neither locked nor written."""
        if member.number not in self._kept:
            with contextlib.ExitStack() as stack:
                path = stack.enter_context(in_memory(content_of(member.path)))
                run = opened(member, (), True, self._program, self._stderr, path)
                stack.callback(lambda: settled(run).close())
                self._kept[member.number] = run, stack.pop_all()
            if len(self._kept) > KEPT:
                self._kept.popitem(last=False)[1][1].close()
        self._kept.move_to_end(member.number)
        return self._kept[member.number][0]

    def at(self, moment: int) -> Member:
        """The store whose time a moment is in."""
        return next(it for it in reversed(self.folder.members) if it.offset <= moment)

    def reply(self, line: str, own: Any = None) -> str:
        """The reply of one line to a line that stores nothing; within a session, if it has an own part in the last store."""
        member, here = self._placed(line)
        if own and member.number != self.member.number:
            with contextlib.suppress(Refused):
                own._ask(as_of(line, 0))  # so the session has read it
        return self._of(member, lambda it: str(it._ask(here)), own)

    def replies(self, line: str, end: str, make: Callable[[str], T], own: Any = None) -> Rows[T]:
        """The same of a line that has replies up to one that begins with `end`."""
        if line.startswith("history "):
            return Rows(make(str(it)) for it in self._history(line, own))
        if span := OVER.fullmatch(line):
            return Rows(
                make(str(it)) for it in self._over(int(span[1]), int(span[2]), span[3], own)
            )
        member, here = self._placed(line)
        if own and member.number != self.member.number:
            all_of(own._rows(as_of(line, 0), end, str))
        return self._of(member, lambda it: it._rows(here, end, make), own)  # type: ignore[no-any-return]

    def _placed(self, line: str) -> Tuple[Member, str]:
        """The store that a line asks about one moment, and the line by its own moments."""
        found = AS_OF.fullmatch(line)
        if not found:
            return self.member, line
        member = self.at(int(found[2]))
        return member, as_of(line, int(found[2]) - member.offset)

    def _history(self, line: str, own: Any) -> Iterable[Piece]:
        *closed, last = self.folder.members
        newest = self._pieces(last, line, "versions ", own)  # what this refuses is refused
        if not closed:
            return newest
        histories = []
        for member in closed:
            with contextlib.suppress(NoTable):  # it was created later
                histories.append(list(self._pieces(member, line, "versions ", None)))
        return continued([*histories, list(newest)])

    def _over(self, start: int, stop: int, what: str, own: Any) -> Iterable[Piece]:
        *closed, last = self.folder.members

        def asked(member: Member, begin: int, end: int) -> Iterable[Piece]:
            line = f"over {begin - member.offset} to {end - member.offset} {what}"
            return self._pieces(member, line, "pieces ", own)

        if start >= stop or not closed:
            return asked(last._replace(offset=0), start, stop)
        parts: List[Iterable[Piece]] = []
        is_asked = own is not None or stop > last.offset  # what the last one refuses is refused
        if stop > last.offset:
            parts.append(asked(last, max(start, last.offset), stop))
        elif is_asked:
            all_of(asked(last, last.offset, last.offset + 1))
        for member, end in zip(closed, [it.offset for it in (*closed[1:], last)]):
            if max(start, member.offset) < min(stop, end):
                try:
                    parts.append(asked(member, max(start, member.offset), min(stop, end)))
                except NoTable:  # it was created later, if it is there at all
                    if not is_asked:
                        all_of(asked(last, last.offset, last.offset + 1))
                    is_asked = True
        return joined(parts, self._keys(what)) if len(parts) > 1 else parts[0] if parts else ()

    def _keys(self, what: str) -> Tuple[int, ...]:
        """Which values of a piece are keys."""
        verb, left = what.split()[:2]
        return (0,) if verb == "select" else (0, len(self.contents.columns[left]))

    def _pieces(self, member: Member, line: str, end: str, own: Any) -> Iterable[Piece]:
        def piece(reply: str) -> Piece:
            return Piece.of(reply, member.offset)

        return self._of(member, lambda it: it._rows(line, end, piece), own)  # type: ignore[no-any-return]

    def forget(self) -> None:
        """Closes the closed stores that are open."""
        with self._past:
            while self._kept:
                self._kept.popitem()[1][1].close()


def as_of(line: str, moment: int) -> str:
    found = AS_OF.fullmatch(line)
    return f"{found[1]} as of {moment}" if found else line


def all_of(rows: Iterable[Any]) -> None:
    for _ in rows:
        pass


def settled(run: Connection) -> Connection:
    """The connection, after what is left of its answers was read into memory."""
    with run._exchange():
        if run._reading:
            run._reading.drain()
    return run
