"""Kinds of columns that applications have, as values of the four kinds that a store has. They are declared on the client's side alone.

    Python                                      in the store
    int, str, bytes, bool                       int, text, bytes, bool
    Decimal, as `Scale(2)`                      int: 12.34 is 1234
    datetime.date                               int: 2026-12-31 is 20261231
    datetime.datetime with a time zone          int: microseconds since 1970, by UTC

So amounts and dates are compared and sorted by the program as they should be.
"""
from __future__ import annotations

import dataclasses
import datetime
import inspect
import reprlib
import typing
from collections import namedtuple
from decimal import Context, Decimal, Inexact
from typing import Any, Callable, Iterable, Mapping, Optional, Sequence, Union

from .arguments import checked
from .errors import Error, InvalidStatement
from .language import MOST_COLUMNS, Value, leading_values, literal, name

Columns = Union[Mapping[str, Any], Iterable[tuple[str, Any]], type]
EPOCH = datetime.datetime(1970, 1, 1, tzinfo=datetime.timezone.utc)
MICROSECOND = datetime.timedelta(microseconds=1)
EXACT = Context(prec=60, traps=[Inexact])


@dataclasses.dataclass(frozen=True)
class Kind:
    """A kind of column: which of the store's kinds holds it, and the way there and back, where there is one to go."""

    stored: str
    to_store: Callable[[Any], Value] | None = None
    from_store: Callable[[Any], Any] | None = None


@checked
def Scale(places: int) -> Kind:
    """The kind of exact amounts with so many places behind the point, stored as whole units of the last one.

    >>> Scale(2).to_store(Decimal("12.5")), Scale(2).from_store(1250)
    (1250, Decimal('12.50'))
    """

    def to_store(value: Any) -> int:
        if isinstance(value, int) and not isinstance(value, bool):
            value = Decimal(value)
        if not isinstance(value, Decimal) or not value.is_finite():
            raise InvalidStatement(f"{value!r} is no finite Decimal")
        if value and value.adjusted() > 18:
            raise InvalidStatement(f"{value} has more than 64 bits at a scale of {places}")
        try:
            return int(value.scaleb(places, EXACT).to_integral_exact(context=EXACT))
        except Inexact:
            raise InvalidStatement(f"{value} has more than {places} places: round it") from None

    return Kind("int", to_store, lambda value: Decimal(f"{value}E-{places}"))


def _of_date(value: Any) -> int:
    if not isinstance(value, datetime.date) or isinstance(value, datetime.datetime):
        raise InvalidStatement(f"{value!r} is no date")
    return value.year * 10_000 + value.month * 100 + value.day


def _to_date(value: int) -> datetime.date:
    return datetime.date(value // 10_000, value // 100 % 100, value % 100)


def _of_datetime(value: Any) -> int:
    if not isinstance(value, datetime.datetime) or value.tzinfo is None:
        raise InvalidStatement(f"{value!r} is no datetime with a time zone")
    return int((value - EPOCH) // MICROSECOND)


DATE = Kind("int", _of_date, _to_date)
DATETIME = Kind("int", _of_datetime, lambda value: EPOCH + value * MICROSECOND)
KINDS: dict[Any, Kind] = {int: Kind("int"), str: Kind("text"), bytes: Kind("bytes")}
KINDS[bool] = Kind("bool")
KINDS.update({kind.stored: kind for kind in list(KINDS.values())})
KINDS.update({datetime.date: DATE, datetime.datetime: DATETIME})


def kind_of(hint: Any) -> Kind:
    """The kind of a column, of a Python type, of the store's own name of it, or of a hint as `Optional[int]`.

    >>> kind_of("text").stored, kind_of(typing.Optional[datetime.date]).stored
    ('text', 'int')
    """
    if isinstance(hint, Kind):
        return hint
    marks = [it for it in getattr(hint, "__metadata__", ()) if isinstance(it, Kind)]
    if marks:
        return marks[0]
    if hasattr(hint, "__metadata__"):
        return kind_of(hint.__origin__)
    types = [it for it in typing.get_args(hint) if it is not type(None)]
    if len(types) == 1:
        return kind_of(types[0])
    if hint is Decimal:
        raise InvalidStatement("a column of Decimal has a scale: Scale(2), or Annotated[..] of it")
    try:
        return KINDS[hint]
    except (KeyError, TypeError):
        raise InvalidStatement(
            f"{hint!r} is no kind of column: int, str, bytes, bool, Scale(2), date or datetime"
        ) from None


def columns_of(columns: Columns) -> list[tuple[str, Kind]]:
    """The names and kinds of a mapping, of pairs, or of a dataclass or NamedTuple."""
    try:
        pairs: Any = columns.items() if isinstance(columns, Mapping) else columns
        if isinstance(columns, type):
            hints = typing.get_type_hints(columns, include_extras=True)
            fields = getattr(columns, "_fields", ()) or [
                it.name for it in dataclasses.fields(columns)
            ]
            inspect.signature(columns).bind(*fields)  # as each row is made
            pairs = [(column, hints[column]) for column in fields]
        found = [(name(column), kind_of(hint)) for column, hint in pairs]
    except InvalidStatement:
        raise
    except (TypeError, ValueError, NameError, LookupError, AttributeError):
        said = f"{reprlib.repr(columns)} is neither columns nor a dataclass"
        raise InvalidStatement(said) from None
    if not 1 <= len(found) <= MOST_COLUMNS or len(dict(found)) < len(found):
        raise InvalidStatement("a table has 1 to 32 columns, and no two of one name")
    return found


class Table:
    """A table as it was declared: its columns, and of what its rows are made."""

    def __init__(self, table: str, columns: Columns) -> None:
        self.name, self.columns = name(table), columns_of(columns)
        names = [it for it, _ in self.columns]
        made: Any = namedtuple(f"{table}_row", names, rename=True)  # type: ignore[misc]
        self._build: Callable[..., Any] = columns if isinstance(columns, type) else made
        self._to = [(at, it.to_store) for at, (_, it) in enumerate(self.columns) if it.to_store]
        self._from = [
            (at, it.from_store) for at, (_, it) in enumerate(self.columns) if it.from_store
        ]

    @property
    def converts(self) -> bool:
        """Whether some column has another kind than in the store."""
        return bool(self._to)

    def row(self, values: Sequence[Value]) -> Any:
        """The row of the values that the store has."""
        if self._from or len(values) != len(self.columns):
            values = self.converted(values)
        return self._build(*values)

    def converted(self, values: Sequence[Value]) -> Sequence[Any]:
        """The values of the store as the declared ones."""
        if len(values) != len(self.columns):
            raise Error(
                f"table {self.name} has {len(values)} columns, and {len(self.columns)} are declared"
            )
        found: list[Any] = list(values)
        for at, convert in self._from:
            try:
                found[at] = None if found[at] is None else convert(found[at])
            except (ValueError, ArithmeticError, TypeError):
                column = self.columns[at][0]
                raise Error(
                    f"column {column} of table {self.name}: {found[at]!r} is none of its kind"
                ) from None
        return found

    def stored(self, row: Sequence[Any]) -> Sequence[Any]:
        """The values of a row as the store has them."""
        if self._to:
            row = list(row)
            for at, convert in self._to:
                if at < len(row) and row[at] is not None:
                    row[at] = convert(row[at])
        return row

    def compared(self, column: str, value: Any) -> Any:
        """A value that a filter compares with a column, as the store has it."""
        convert = dict((it, kind.to_store) for it, kind in self.columns).get(column)
        return convert(value) if convert and value is not None else value


def hint(name: str, detail: str, line: str, tables: Mapping[str, Table]) -> str:
    """What the client knows of a refusal: the value that is wrong, and what its column takes.

    >>> hint("BadType", "2", "s0 insert t 1 'x'", {"t": Table("t", {"k": int, "cents": int})})
    "column cents takes int, and 'x' is text"
    """
    first, _, others = line.partition(" ")
    if first[:1] == "s" and first[1:].isdigit():
        line = others
    _, table, rest = (line.split(" ", 2) + ["", ""])[:3]
    columns = tables[table].columns if table in tables else []
    given = leading_values(rest)
    if name == "BadCount":
        has = f", and {table} has {len(columns)} columns" if columns else ""
        return f"{len(given)} values are given{has}"
    if name == "NoColumn" and columns:
        return f"the columns of {table} are {', '.join(column for column, _ in columns)}"
    if name != "BadType" or not detail.isdigit():
        return ""
    at = int(detail) - 1
    says = [f"column {it} takes {kind.stored}" for it, kind in columns[at : at + 1]]
    says += [f"{literal(it)[:40]} is {KINDS[type(it)].stored}" for it in given[at : at + 1]]
    return ", and ".join(says)
