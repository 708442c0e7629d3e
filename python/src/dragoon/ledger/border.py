"""A border: what a store of a ledger begins with, so that it goes on with the store before it. (docs/OPERATING.md, A ledger)

    dragoon_before     one row: the id of the store before, how many transactions it has, and its chain, as `link` says
    each table         as it is there: `create`, by their names
    each present row   in transactions of up to 256, table by table, by their keys
    dragoon_carried    one row, the end: how many rows were carried over, how many transactions all this takes, how many the ledger
                       had before (without those of its borders), the bytes of the file here, and the digest of what was carried

The digest is SHA-256 of the statements `create` and `insert` that carry, each with a line end. All of it has the moment 0.
"""
from __future__ import annotations

import hashlib
import os
from typing import Any, Dict, Iterable, Iterator, NamedTuple, Optional, Tuple

from ..client import Connection
from ..database import Loaded
from ..errors import Error
from ..formats import Create, Era, Put, Store, Transaction, eras_of, items_after
from ..loading import Loading, packed
from ..tables import Tables, by_moment, tables_of
from .folder import Member

BEFORE, CARRIED = "dragoon_before", "dragoon_carried"
OWN = (BEFORE, CARRIED)
Columns = Tuple[Tuple[str, str], ...]


class Tie(NamedTuple):
    """The store before: its id, its transactions, and its chain."""

    id: str
    transactions: int
    chain: str


class Mark(NamedTuple):
    """The end of a border."""

    rows: int
    transactions: int
    before: int
    size: int
    digest: str


FIRST = Mark(0, 0, 0, 0, "")  # of the first store, which has no border
TIE_COLUMNS = (("id", str), ("transactions", int), ("chain", str))
MARK_COLUMNS = (
    *((name, int) for name in ("rows", "transactions", "before", "size")),
    ("digest", str),
)


class Contents:
    """The tables that a store has, and how its tiles are, read as far as it is written."""

    def __init__(self, member: Member) -> None:
        self._path, self._place = member.path, 0
        self._columns: Dict[str, Columns] = {}
        self._eras = eras_of(member.header, ())

    def _read(self) -> None:
        for item, self._place in items_after(self._path, self._place):
            if isinstance(item, Era):
                self._eras.take(item)
            for it in item.operations if isinstance(item, Transaction) else ():
                if isinstance(it, Create):
                    self._columns.setdefault(it.table, it.columns)

    @property
    def columns(self) -> Dict[str, Columns]:
        self._read()
        return self._columns

    @property
    def era(self) -> Era:
        """The last era."""
        self._read()
        return self._eras[-1]

    def end_of_tile(self, moment: int, width: int) -> int:
        """When the tile has ended that a moment is in."""
        self._read()
        tiles = self._eras.tiles_before(moment // width) + 1
        return self._eras.first_granule(tiles) * width


def carry(
    new: Connection, path: str, tie: Tie, before: int, last: Connection, columns: Dict[str, Columns]
) -> Mark:
    """Fills a new store with its border. The rows are those that the last one has now."""
    digest, names = hashlib.sha256(), sorted(set(columns) - set(OWN))

    def lines(creating: bool) -> Iterator[Tuple[str, str, int]]:
        for name in names:
            for line in [created(name, columns[name])] if creating else _inserts(last, name):
                digest.update(line.encode() + b"\n")
                yield line, line, len(columns[name])

    new.create(BEFORE, TIE_COLUMNS)
    new.insert(BEFORE, *tie)
    new.create(CARRIED, MARK_COLUMNS)
    tables, rows = (_stored(new, lines(creating)) for creating in (True, False))
    count = 3 + tables.transactions + rows.transactions + 1
    mark = Mark(rows.rows, count, before, os.path.getsize(path), digest.hexdigest())
    if new.insert(CARRIED, *mark) != count:
        raise Error(f"{path} isn't what was stored there: another process writes it")
    return mark


def _stored(new: Connection, lines: Iterable[Tuple[str, str, int]]) -> Loaded:
    loading = Loading(new, packed(lines))
    with new._exchange():
        loaded = loading.run()
    if loading.failed:
        raise loading.failed
    return loaded


def created(table: str, columns: Columns) -> str:
    return f"create {table} " + " ".join(f"{name} {kind}" for name, kind in columns)


def _inserts(last: Connection, table: str) -> Iterator[str]:
    """The statements that store a table's rows: a reply spells them as a statement does."""
    for row in last._rows(f"scan {table}", "rows ", str):
        if "\n" in row:
            raise Error(f"a row of {table} was altered, and no statement spells it: {row[4:60]!r}")
        yield f"insert {table} {row[4:]}"


# ---- what a border says, by the file alone


class Seen(NamedTuple):
    """What a store says of its border, what was carried over it, and what is to be carried over the next one."""

    last: Optional[int]  # the moment of the last transaction
    tie: Optional[Tie]
    mark: Optional[Mark]
    length: int  # how many transactions the border takes
    carried: Tuple[int, str]  # how many rows, and the digest
    present: Tuple[int, str]

    @classmethod
    def of(cls, read: Any) -> "Seen":
        """The same, read from JSON."""
        last, tie, mark, length, carried, present = read
        return cls(last, made(Tie, tie), made(Mark, mark), length, (*carried,), (*present,))  # type: ignore[arg-type]


class Seeing:
    """What is seen of a store, transaction by transaction."""

    def __init__(self) -> None:
        self.tables, self.tie, self.mark = Tables(), None, None  # type: Tables, Any, Any
        self.last: Optional[int] = None
        self.carried, self.count, self.length = (0, ""), 0, 0

    def visit(self, transaction: Transaction) -> None:
        self.last, self.count = transaction.moment, self.count + 1
        for it in transaction.operations:
            self.tables.apply(it)
            if self.mark is None and it.table in OWN and isinstance(it, Put):
                if it.table == BEFORE:
                    self.tie = it.row
                else:
                    self.mark, self.length = it.row, self.count
                    self.carried = spelled(self.tables)


def seen(store: Store) -> Seen:
    it = Seeing()
    if store.surveyed(it.visit).falls:
        it = Seeing()
        for transaction in by_moment(store):
            it.visit(transaction)
    tie, mark = made(Tie, it.tie), made(Mark, it.mark)
    return Seen(it.last, tie, mark, it.length, it.carried, spelled(it.tables))


def made(kind: Any, row: Any) -> Any:
    return kind(*row) if row and len(row) == len(kind._fields) else None


def spelled(tables: Tables) -> Tuple[int, str]:
    """How many rows tables have, and the digest of the statements that carry them over."""
    names, digest, count = sorted(set(tables) - set(OWN)), hashlib.sha256(), 0
    for name in names:
        digest.update(created(name, tables[name].columns).encode() + b"\n")
    for name in names:
        for line in rows_of(tables, name):
            digest.update(line)
            count += 1
    return count, digest.hexdigest()


def rows_of(tables: Tables, name: str) -> Iterator[bytes]:
    nothing, rows = Tables(), tables[name].rows
    for key in sorted(rows):
        try:
            yield nothing.statement(Put(name, rows[key])).encode() + b"\n"
        except ValueError:
            yield repr(rows[key]).encode() + b"\n"  # altered: no statement spells it


def differences(before: Store, after: Store, most: int = 9) -> Iterator[str]:
    """Which rows were carried over otherwise than they are at the end of the store before."""
    left, right = tables_of(before)[0], Tables()
    for transaction in by_moment(after):
        if any(it.table == CARRIED and isinstance(it, Put) for it in transaction.operations):
            break
        for it in transaction.operations:
            right.apply(it)
    for name in sorted({*left, *right} - set(OWN)):
        ours, theirs = (it[name].rows if name in it else {} for it in (left, right))
        for key in sorted({*ours, *theirs}):
            if most and repr(ours.get(key)) != repr(theirs.get(key)):
                most -= 1
                yield f"row {key!r} of table {name}"
