"""Batches: many rows, as transactions on their way to the program while the next ones are spelled."""
from __future__ import annotations

from typing import TYPE_CHECKING, Any, Callable, Iterable, Iterator, NamedTuple, Sequence

from . import language
from .errors import InvalidStatement, Refused
from .database import Loaded
from .language import MOST_COLUMNS, fits, literal, row_values

if TYPE_CHECKING:
    from .client import Connection

MOST_ROWS, MOST_BYTES, WINDOW = 256, 32_000, 4


class Batch(NamedTuple):
    """The lines of one transaction, and the keys that they name."""

    lines: list[str]
    keys: set[str]


def batches(
    front: str,
    rows: Iterable[Any],
    most: int = MOST_ROWS,
    stored: Callable[[Sequence[Any]], Sequence[Any]] | None = None,
) -> Iterator[Batch]:
    """Rows as lines, in batches of which each fits into one transaction."""
    return packed(_spelled(front, rows, stored), most)


def _spelled(
    front: str, rows: Iterable[Any], stored: Callable[[Sequence[Any]], Sequence[Any]] | None
) -> Iterator[tuple[str, str, int]]:
    """The line of each row, its key, and how many values it has."""
    spell = language.SPELL
    for at, row in enumerate(rows):
        try:
            given = row if type(row) is tuple else row_values(row)
            values = [
                spell.get(type(it), literal)(it) for it in (stored(given) if stored else given)
            ]
            line = front + " ".join(values)
            if not 1 <= len(values) <= MOST_COLUMNS or len(line) > MOST_BYTES:
                fits(line, values)
        except InvalidStatement as why:
            why.at = at
            raise
        yield line, values[0], len(values)


def packed(lines: Iterable[tuple[str, str, int]], most: int = MOST_ROWS) -> Iterator[Batch]:
    """Lines with their keys and counts of values, in batches. A value takes no more bytes in a transaction than its literal and nine."""
    held: list[str] = []
    keys: set[str] = set()
    size = 0
    for line, key, count in lines:
        length = 9 * count + len(line if line.isascii() else line.encode())
        if held and (len(held) == most or size + length > MOST_BYTES):
            yield Batch(held, keys)
            held, keys, size = [], set(), 0
        held.append(line)
        keys.add(key)
        size += length
    if held:
        yield Batch(held, keys)


class Loading:
    """Groups of transactions, each in a session of its own, so that the commits of a group reach the program together.

    The transactions of a group have no key in common, so none conflicts with another. Each is checked before any of the group is committed.
    """

    def __init__(self, connection: "Connection", prepared: Iterator[Batch]) -> None:
        self._connection, self._prepared = connection, prepared
        self._sessions: list[int] = []
        self._held: Batch | None = None  # it has a key of the group before it
        self._numbers: list[int] = []
        self._stored = 0
        self.failed: BaseException | None = None  # what the rows themselves raised

    def run(self) -> Loaded:
        self._sessions = self._connection._take_sessions(WINDOW)
        try:
            group, is_sent = self._group(), False
            while group:
                if not is_sent:
                    self._connection._send(self._starts(group))
                ahead = self._group()  # while the program executes this one
                self._check(group)
                is_sent = self._commit(group, ahead)
                group = ahead
                if group and not is_sent:  # this run takes no more input
                    self._connection._give_sessions(self._sessions)
                    self._sessions = self._connection._take_sessions(WINDOW)
        finally:
            self._connection._give_sessions(self._sessions)
        first, last = (self._numbers[0], self._numbers[-1]) if self._numbers else (None, None)
        return Loaded(self._stored, len(self._numbers), first, last)

    def _group(self) -> list[Batch]:
        """The next transactions that have no key in common."""
        group: list[Batch] = []
        keys: set[str] = set()
        most = min(len(self._sessions), self._connection._transport.window)
        while len(group) < most:
            batch, self._held = self._held or self._next(), None
            if batch is None:
                break
            if not keys.isdisjoint(batch.keys):
                self._held = batch
                break
            keys |= batch.keys
            group.append(batch)
        return group

    def _next(self) -> Batch | None:
        """The next transaction. If a row of it fails to come, it is not stored, and those before it are."""
        self._connection._is_spelling = True
        try:
            return next(self._prepared, None)
        except BaseException as why:
            self.failed = why
            return None
        finally:
            self._connection._is_spelling = False

    def _starts(self, group: list[Batch]) -> str:
        named = zip(self._sessions, group)
        return "\n".join(f"s{n} begin\ns{n} " + f"\ns{n} ".join(it.lines) for n, it in named)

    def _replies(self, group: list[Batch]) -> list[Refused | None]:
        """The first refusal of each transaction, with the place of its row."""
        found: list[Refused | None] = []
        for batch in group:
            refused = self._connection._replies(["begin", *batch.lines])
            if refused:
                refused[1].at = max(0, refused[0] - 1)
            found.append(refused[1] if refused else None)
        return found

    def _check(self, group: list[Batch]) -> None:
        """Raises the first refusal, after the transactions before it are stored."""
        found = self._replies(group)
        first = next((at for at, refused in enumerate(found) if refused), None)
        if first is None:
            return
        refused = found[first]
        assert refused is not None and refused.at is not None
        if first:
            self._commit(group[:first], [])
        self._drop()
        refused.at, refused.stored = self._stored + refused.at, self._stored
        raise refused

    def _commit(self, group: list[Batch], ahead: list[Batch]) -> bool:
        """Commits a group, and says whether the next one is sent already."""
        connection, place, refused = self._connection, self._stored, None
        goes_on = bool(ahead) and connection._has_room_for_session()
        lines = [f"s{number} commit" for number, _ in zip(self._sessions, group)]
        connection._send("\n".join(lines + ([self._starts(ahead)] if goes_on else [])))
        for line, batch in zip(lines, group):
            try:
                self._numbers.append(int(connection._reply(line)[3:]))
                self._stored += len(batch.lines)
            except Refused as why:
                why.at = place
                refused = refused or why
            place += len(batch.lines)
        if refused:
            if goes_on:
                self._replies(ahead)
            self._drop()
            refused.stored = self._stored
            raise refused
        return goes_on

    def _drop(self) -> None:
        """Aborts the sessions that have begun."""
        for number in self._sessions:
            try:
                self._connection._ask(f"s{number} abort")
            except Refused:
                pass
