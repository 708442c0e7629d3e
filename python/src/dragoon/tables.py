"""What the items of a store make: tables of now or of a past moment, the versions of rows, and statements that say the same."""
from __future__ import annotations

from typing import Any, Iterable, Iterator, NamedTuple, Optional

from .formats import ALGORITHMS, GRANULES, LAST_SECOND, Create, Era, Frontier, Operation, Put
from .formats import Remove, Store, Transaction
from .language import LONGEST_LINE, Value, Version, literal

KIND_OF = {int: "int", str: "text", bytes: "bytes", bool: "bool"}


class Misfit(NamedTuple):
    """An operation that a statement would refuse where it stands. It changes nothing."""

    transaction: int
    refusal: str
    operation: Operation


def kind_of(value: Any) -> str | None:
    """The kind of columns that take a value; of null none."""
    return KIND_OF.get(type(value))


class Table:
    def __init__(self, columns: tuple[tuple[str, str], ...]) -> None:
        self.columns = columns
        self.rows: dict[Any, tuple[Any, ...]] = {}
        self.fitting: set[tuple[type, ...]] = set()  # the types of rows that were found to fit

    @property
    def names(self) -> list[str]:
        return [name for name, _ in self.columns]

    def misfit(self, row: tuple[Value, ...]) -> str | None:
        if len(row) != len(self.columns):
            return "BadCount"
        if row[0] is None:
            return "NullKey"
        for at, (value, (_, kind)) in enumerate(zip(row, self.columns), 1):
            if value is not None and kind_of(value) != kind:
                return f"BadType {at}"
        if len(self.fitting) < 1_000:
            self.fitting.add(tuple(map(type, row)))
        return None


class Tables(dict[str, Table]):
    """The tables by their names, after the operations that were applied."""

    def misfit(self, operation: Operation) -> str | None:
        """Why the operation does not fit, by the name of the refusal; or None."""
        table = self.get(operation.table)
        if isinstance(operation, Create):
            if table is not None:
                return "TableExists"
            return "Syntax" if len(dict(operation.columns)) < len(operation.columns) else None
        if table is None:
            return "NoTable"
        if isinstance(operation, Put):
            return table.misfit(operation.row)
        is_key = kind_of(operation.key) == table.columns[0][1]
        return None if is_key and operation.key in table.rows else "NoRow"

    def apply(self, operation: Operation) -> str | None:
        """Carries it out where it fits; else answers why it does not."""
        if type(operation) is Put and operation.table in self:  # as most are
            table, row = self[operation.table], operation.row
            if tuple(map(type, row)) in table.fitting:
                table.rows[row[0]] = row
                return None
        if misfit := self.misfit(operation):
            return misfit
        if isinstance(operation, Create):
            self[operation.table] = Table(operation.columns)
        elif isinstance(operation, Put):
            self[operation.table].rows[operation.row[0]] = operation.row
        else:
            del self[operation.table].rows[operation.key]
        return None

    def statement(self, operation: Operation) -> str:
        """The statement that does to these tables what the operation does."""
        if isinstance(operation, Create):
            columns = (f"{name} {kind}" for name, kind in operation.columns)
            return f"create {operation.table} {' '.join(columns)}"
        if isinstance(operation, Remove):
            return f"delete {operation.table} {literal(operation.key)}"
        is_there = operation.table in self and operation.row[0] in self[operation.table].rows
        verb = "update" if is_there else "insert"
        return f"{verb} {operation.table} {' '.join(map(literal, operation.row))}"


def by_moment(store: Store) -> Iterable[Transaction]:
    """The transactions as tables take them: by their moments, and in file order within one."""
    if not store.survey.falls:
        return store.transactions()
    return sorted(store.transactions(), key=lambda it: it.moment)


def tables_of(store: Store, as_of: int | None = None) -> tuple[Tables, list[Misfit]]:
    """The tables at a moment, or those of now; and what fits none."""
    tables, misfits = Tables(), []
    for transaction in by_moment(store):
        if as_of is not None and transaction.moment > as_of:
            break
        for operation in transaction.operations:
            if why := tables.apply(operation):
                misfits.append(Misfit(transaction.number, why, operation))
    return tables, misfits


def versions_of(store: Store, table: str) -> dict[Any, list[Version]]:
    """All versions of each row of a table, by its key, in the order in which they were made."""
    tables, found = Tables(), {}  # type: tuple[Tables, dict[Any, list[Version]]]
    for transaction in by_moment(store):
        for operation in transaction.operations:
            if tables.apply(operation) or operation.table != table or isinstance(operation, Create):
                continue
            key = operation.row[0] if isinstance(operation, Put) else operation.key
            versions = found.setdefault(key, [])
            if versions and versions[-1].stop is None:
                versions[-1] = versions[-1]._replace(stop=transaction.moment)
            if isinstance(operation, Put):
                versions.append(Version(transaction.moment, None, operation.row))
    return found


def statements(store: Store, first: int = 0, last: int | None = None) -> Iterator[str]:
    """The history as lines of a scripted run: `now M` before the first of each moment. A transaction of several rows is a session.

    Into a store that has all before it, these make the same transactions. What no statement stores is a comment: Frontiers and policies,
    and what no honest writer leaves. That begins with `# transaction N at moment M:`, and says why.
    """
    tables, now, latest, count = Tables(), None, 0, 0
    for item in store.items():
        moment = latest if isinstance(item, Era) else item.moment
        is_wanted = first <= moment and (last is None or moment <= last)
        if isinstance(item, Transaction):
            count += 1
            why = _place_misfit(store, item, latest, count)
            lines, misfit = _lines_of(item, tables)
            if why or misfit:
                lines = [f"# transaction {item.number} at moment {moment}: {why or misfit}"]
                lines += (f"#     {shown(it)}" for it in item.operations)
            elif is_wanted and now != moment:
                now = moment
                yield f"now {now}"
        elif isinstance(item, Frontier):
            lines = [f"# Frontier {moment}"]
        else:
            algorithms = ALGORITHMS[item.algorithms]
            lines = [f"# policy from tile {item.tile} on: {item.exponent} {algorithms}"]
        latest = max(latest, moment)
        if is_wanted:
            yield from lines


def _place_misfit(store: Store, it: Transaction, latest: int, count: int) -> str | None:
    """Why a transaction can't be the one of this count, after others whose last moment is this one."""
    if it.moment < latest:
        return f"its moment is before {latest}"
    if it.moment > LAST_SECOND or store.granule(it.moment) >= GRANULES:
        return "its moment is too late"
    return None if it.number == count else f"its number isn't {count}"


def _lines_of(transaction: Transaction, tables: Tables) -> tuple[list[str], str | None]:
    """The statements that store a transaction, and why there are none. The tables then have what fits."""
    lines, why = [], None  # type: tuple[list[str], Optional[str]]
    for operation in transaction.operations:
        try:
            lines.append(tables.statement(operation))
        except ValueError:
            why = why or "no statement can spell its text"
        if misfit := tables.apply(operation):
            why = why or f"an operation doesn't fit the tables ({misfit})"
    if len(transaction.operations) > 1:
        lines = ["s0 begin", *(f"s0 {line}" for line in lines), "s0 commit"]
    if any(len(line.encode()) > LONGEST_LINE for line in lines):
        why = why or "its line would be too long"
    return lines, why


def shown(operation: Operation) -> str:
    """An operation as a person reads it, on a line that steers no terminal."""
    if isinstance(operation, Create):
        columns = ", ".join(f"{name} {kind}" for name, kind in operation.columns)
        return f"create {operation.table} ({columns})"
    if isinstance(operation, Remove):
        return f"remove {operation.table} {plain_literal(operation.key)}"
    return f"put {operation.table} ({', '.join(map(plain_literal, operation.row))})"


def quoted(value: Any) -> str:
    """A value as statements spell it, also a text that none can spell."""
    return "'" + value.replace("'", "''") + "'" if isinstance(value, str) else literal(value)


def plain_literal(value: Any) -> str:
    """The same; what would steer a terminal is spelled out."""
    return plain(quoted(value))


def plain(text: str) -> str:
    return "".join(it if it.isprintable() else f"\\u{{{ord(it):x}}}" for it in text)
