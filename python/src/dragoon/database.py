"""What an application asks, whoever answers: a run of its own, a service, or a ledger of many stores. `dragoon.connect` opens one.

>>> import dragoon
>>> dragoon.make("shop.store", id=7)
>>> db = dragoon.connect(store="shop.store", notary="shop.book")
>>> db.create("account", {"id": int, "owner": str, "amount": dragoon.Scale(2)})   # the first column is the key
1
>>> db.insert("account", 1, "Ada", Decimal("100.00"))                     # answers the transaction's number
2
>>> with db.session() as s:                                               # commits, or raises Conflict
...     row = s.get("account", 1)
...     s.update("account", 1, row.owner, row.amount - 30)
>>> db.get("account", 1)
account_row(id=1, owner='Ada', amount=Decimal('70.00'))
>>> db.insert("account", 1, "Bob", Decimal(0))
Traceback (most recent call last):
    ...
dragoon.errors.RowExists: RowExists: a row with this key exists [insert account 1 'Bob' 0]
>>> db.close()

Once you have a number back from `insert`, `update`, `delete` or `commit`, the transaction is on the disk. What no statement can spell (a float, a
text with a line end, a number of more than 64 bits, a name outside the grammar) is a ValueError, and nothing was sent. What the program refuses is
an exception of the refusal's name.

A moment is a number of seconds since the store's first one, or a datetime with a time zone. One that is still to come has no answer yet, and is a
ValueError, too.
"""
from __future__ import annotations

import datetime
import random
import time
from abc import ABC, abstractmethod
from dataclasses import is_dataclass
from typing import Any, Callable, Generic, Iterable, Iterator, NamedTuple, Sequence, TypeVar
from typing import Union

from . import language
from .arguments import Checked
from .errors import Conflict, Error, InvalidStatement
from .kinds import Columns, Table
from .language import LAST_MOMENT, Report, Value, Verdict, Version, Where, literal, name
from .language import row_line, row_values

T = TypeVar("T")
Moment = Union[int, datetime.datetime]


class Loaded(NamedTuple):
    """What a batch has stored: so many rows, in transactions from `first` to `last`."""

    rows: int
    transactions: int
    first: int | None
    last: int | None


class Era(NamedTuple):
    """What `policy` began: era `number`, from tile `tile` on."""

    number: int
    tile: int


class Rows(Iterator[T], Generic[T]):
    """The rows of an answer, one by one as they come."""

    def __init__(self, rows: Iterator[T]) -> None:
        self._rows = rows

    def __iter__(self) -> "Rows[T]":
        return self

    def __next__(self) -> T:
        return next(self._rows)

    def all(self) -> list[T]:
        """What is left of them, as a list."""
        return list(self)


class Statements(Checked, ABC):
    """The statements that a database and a session share. Those that write answer the transaction's number, or None within a session."""

    @property
    @abstractmethod
    def _database(self) -> "Database":
        """The database that is asked."""

    @abstractmethod
    def _ask(self, line: str) -> str:
        """The reply to a line whose reply is one line."""

    @abstractmethod
    def _rows(self, line: str, end: str, make: Callable[[str], T]) -> Rows[T]:
        """The replies to a line, up to the one that begins with `end`."""

    def _write(self, line: str) -> int | None:
        reply = self._ask(line)
        return int(reply[3:]) if reply.startswith("ok ") else None

    def _line(self, verb: str, table: str, row: Sequence[Any]) -> str:
        declared = self._database.tables.get(table)
        return row_line(verb, table, declared.stored(row) if declared else row)

    def _change(self, verb: str, table: str, row: Sequence[Any]) -> int | None:
        if len(row) == 1 and (isinstance(row[0], (tuple, list)) or is_dataclass(row[0])):
            row = row_values(row[0])
        return self._write(self._line(verb, table, row))

    def create(self, table: str, columns: Columns) -> int | None:
        """Makes a table. `columns` is a mapping or pairs of names and kinds (see `dragoon.kinds`), or a dataclass or NamedTuple.

        >>> class Entry(NamedTuple):
        ...     id: int
        ...     booked: datetime.date
        >>> number = db.create("entry", Entry)
        >>> number = db.insert("entry", Entry(5, datetime.date(2026, 12, 31)))
        >>> db.scan("entry", ("booked", ">=", datetime.date(2026, 1, 1))).all()
        [Entry(id=5, booked=datetime.date(2026, 12, 31))]
        """
        declared = Table(table, columns)
        spelled = " ".join(f"{column} {kind.stored}" for column, kind in declared.columns)
        number = self._write(f"create {table} {spelled}")
        self._database.tables[table] = declared
        return number

    def insert(self, table: str, *row: Any) -> int | None:
        """Stores a new row, given by its values, or as one sequence or dataclass."""
        return self._change("insert", table, row)

    def update(self, table: str, *row: Any) -> int | None:
        """Stores a whole row in the place of the one with its key."""
        return self._change("update", table, row)

    def delete(self, table: str, key: Any) -> int | None:
        """Removes a row from the tables of now. Its history stays."""
        return self._write(self._line("delete", table, (key,)))

    def get(self, table: str, key: Any, as_of: Moment | None = None) -> Any:
        """The row with a key, or None."""
        reply = self._ask(self._line("get", table, (key,)) + self._as_of(as_of))
        return None if reply == "none" else self._maker(table)(language.values(reply[4:]))

    def scan(self, table: str, where: Where = None, as_of: Moment | None = None) -> Rows[Any]:
        """The rows by their keys; with `where=(column, comparison, value)` some of them. A null is smaller than each value.

        >>> [row.id for row in db.scan("account", ("owner", "=", "Ada"))]
        [1]
        """
        make = self._maker(table)
        line = f"scan {name(table)}{self._filter(table, where)}{self._as_of(as_of)}"
        return self._rows(line, "rows ", lambda reply: make(language.values(reply[4:])))

    def history(self, table: str, key: Any) -> Rows[Version]:
        """All versions of a row, in the order in which they were made.

        >>> [version.row.owner for version in db.history("account", 1)]
        ['Ada']
        """
        line = self._line("history", table, (key,))
        return self._rows(line, "versions ", language.version_maker(self._maker(table)))

    def over(self, table: str, start: Moment, stop: Moment, where: Where = None) -> Rows[Version]:
        """What `scan` answers at each moment from `start` up to, and not with, `stop`: each row with its moments.

        A row of now counts up to `stop`, also if that is still to come.
        """
        line = f"{self._span(start, stop)} select {name(table)}{self._filter(table, where)}"
        return self._rows(line, "pieces ", language.version_maker(self._maker(table)))

    def join(
        self, left: str, right: str, on: tuple[str, str], start: Moment, stop: Moment
    ) -> Rows[Version]:
        """The rows of two tables whose columns are equal, with their moments. A row has the values of the left one, then of the right one."""
        tables = f"{name(left)} {name(right)} on {name(on[0])} {name(on[1])}"
        one, other = (self._database.tables.get(it) for it in (left, right))

        def both(values: tuple[Value, ...]) -> tuple[Any, ...]:
            if one is None or other is None:
                return values
            width = len(one.columns)
            return (*one.converted(values[:width]), *other.converted(values[width:]))

        line = f"{self._span(start, stop)} join {tables}"
        return self._rows(line, "pieces ", language.version_maker(both))

    def _maker(self, table: str) -> Callable[[tuple[Value, ...]], Any]:
        declared = self._database.tables.get(table)
        return declared.row if declared else lambda values: values

    def _as_of(self, when: Moment | None) -> str:
        return "" if when is None else f" as of {self._database.past(when)}"

    def _filter(self, table: str, where: Where) -> str:
        if where is None:
            return ""
        column, comparison, value = where
        declared = self._database.tables.get(table)
        value = declared.compared(column, value) if declared else value
        return f" {column} {comparison} {literal(value)}"

    def _span(self, start: Moment, stop: Moment) -> str:
        return f"over {self._database.past(start)} to {self._database.moment(stop)}"


class Session(Statements):
    """Statements that are stored as one transaction by `commit`, if nothing that they read was changed meanwhile.

    As a context manager it begins, and commits at the end of the block, or aborts if an exception leaves it.
    """

    transaction: int | None = None

    @abstractmethod
    def begin(self) -> None:
        """Begins the session; what it reads and stores counts from here on."""

    @abstractmethod
    def commit(self) -> int | None:
        """The number of the transaction, or None if there was nothing to store. A Conflict ends the session; another refusal leaves it."""

    @abstractmethod
    def abort(self) -> None:
        """Drops the session."""

    @abstractmethod
    def insert_many(self, table: str, rows: Iterable[Any]) -> int:
        """Keeps these rows with the session, by one exchange. Answers how many."""

    @property
    @abstractmethod
    def is_open(self) -> bool:
        """Whether it has begun, and not ended."""

    def __enter__(self) -> "Session":
        self.begin()
        return self

    def __exit__(self, kind: Any, error: Any, trace: Any) -> None:
        try:
            if kind is None and self.is_open:
                self.commit()
        finally:
            if self.is_open:
                try:
                    self.abort()
                except Error:
                    pass  # the exception that is raised already says more


class Database(Statements):
    """An open store, or a ledger of many. `epoch` is the clock's second of moment 0."""

    id: int
    epoch: int
    tables: dict[str, Table]  # as they were created or declared here

    @property
    def _database(self) -> "Database":
        return self

    @abstractmethod
    def session(self) -> Session:
        """A session, which `with` begins. Sixteen can be open at once; a seventeenth waits for one of them."""

    def transact(self, work: Callable[[Session], T], retries: int = 10) -> T:
        """Calls `work` with a session and commits. After a Conflict it is called again, `retries` times at most.

        >>> def raised(s):
        ...     row = s.get("account", 1)
        ...     s.update("account", row._replace(amount=row.amount + 5))
        ...     return row.amount + 5
        >>> db.transact(raised)
        Decimal('105.00')
        """
        for attempt in range(retries + 1):
            try:
                with self.session() as session:
                    return work(session)
            except Conflict:
                if attempt >= retries:
                    raise
                time.sleep(random.random() * min(0.2, 0.001 * 2 ** min(attempt, 9)))
        raise AssertionError("the last attempt returns or raises")

    def insert_many(self, table: str, rows: Iterable[Any], most: int = 256) -> Loaded:
        """Stores rows in transactions of up to `most` rows. The transactions are pipelined, so the program never waits for you.

        If a row is refused, its whole transaction is not stored, and no later one. The exception has `at`, the row's place in `rows`, and
        `stored`, the number of rows that are stored.

        >>> db.insert_many("account", ((k, "Bob", Decimal(k)) for k in range(10, 1_010))).rows
        1000
        """
        return self._many("insert", table, rows, most)

    def update_many(self, table: str, rows: Iterable[Any], most: int = 256) -> Loaded:
        """As `insert_many`, for rows that are there."""
        return self._many("update", table, rows, most)

    def delete_many(self, table: str, keys: Iterable[Any], most: int = 256) -> Loaded:
        """As `insert_many`, for the keys of rows that are to be removed."""
        return self._many("delete", table, ((key,) for key in keys), most)

    @abstractmethod
    def _many(self, verb: str, table: str, rows: Iterable[Any], most: int) -> Loaded:
        ...

    def declare(self, table: str, columns: Columns) -> None:
        """Says how the rows of a table that is there are made, and of which kinds its columns are. Rows of other tables are plain tuples."""
        self.tables[table] = Table(table, columns)

    # ---- moments

    @abstractmethod
    def clock(self) -> int | None:
        """The moment of now, or None of a scripted connection before its first `now`."""

    def moment(self, when: Moment) -> int:
        """Seconds since the first one, of a moment or of a date with a time zone."""
        if not isinstance(when, datetime.datetime):
            return when
        moment = int(when.timestamp() // 1) - self.epoch
        if not 0 <= moment <= LAST_MOMENT:
            raise InvalidStatement(f"{when} is no moment of this store")
        return moment

    def past(self, when: Moment) -> int:
        """The same of a moment that is not still to come: what will be there then is not known yet."""
        moment, now = self.moment(when), self.clock()
        if now is not None and moment > now:
            is_unix = 0 <= moment - self.epoch <= now
            hint = f"; as seconds since 1970 it is {moment - self.epoch}" if is_unix else ""
            raise InvalidStatement(f"moment {moment} is still to come: now is moment {now}{hint}")
        return moment

    def date(self, seconds: int) -> datetime.datetime:
        """The date of a moment, by UTC."""
        try:
            return datetime.datetime.fromtimestamp(self.epoch + seconds, datetime.timezone.utc)
        except (OverflowError, ValueError, OSError):
            raise InvalidStatement(f"moment {seconds} has no date") from None

    @abstractmethod
    def now(self, moment: Moment) -> None:
        """Sets the moment of a scripted connection."""

    # ---- the notary

    def notarize(self) -> int:
        """Files the digests of the tiles that have ended. Answers how many tiles are sealed."""
        return int(self._ask("notarize")[len("sealed ") :])

    def validate(self) -> Verdict:
        """Compares what is stored with what was filed, and marks the verdict."""
        return language.verdict(self._ask("validate"))

    def audit_step(self) -> Verdict | None:
        """The next step of an audit: None, or the verdict with the last one."""
        reply = self._ask("audit")
        return None if reply.startswith("auditing ") else language.verdict(reply)

    def audit(self) -> Verdict:
        """Validates in steps, between which other threads are answered."""
        while (found := self.audit_step()) is None:
            pass
        return found

    def policy(self, exponent: int, algorithms: str) -> Era:
        """From the next tile on each tile has 2^exponent granules and these chains (`m`, `t`, `a` or `ta`)."""
        words = self._ask(f"policy {exponent:d} {algorithms}").split(" ")
        return Era(int(words[1]), int(words[4]))

    @abstractmethod
    def analyse(
        self, algorithm: str = "a3d", kappa: int | None = None, era: int | None = None
    ) -> Report:
        """Finds which granules are altered, and when that was."""

    @abstractmethod
    def close(self) -> None:
        """Ends the connection. Sessions that are open are dropped."""

    def __enter__(self: "D") -> "D":
        return self

    def __exit__(self, *_: Any) -> None:
        self.close()


D = TypeVar("D", bound=Database)
