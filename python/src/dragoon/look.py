"""What a store is and holds, what a notary has of it, and where two stores differ. Read from the files alone: nothing is compared with a digest."""
from __future__ import annotations

import datetime
import itertools
from array import array
from collections import Counter, defaultdict
from typing import Any, Iterator, Optional, Union

from .errors import Error
from .formats import ALGORITHMS, GRANULES, MOST_MARKS, MOST_SEALS, Book, Create, Era, Frontier, Item
from .formats import Mark, Operation, Put, Store, Trailing, Transaction, item_of
from .tables import Tables, plain, plain_literal, shown, tables_of

UTC = datetime.timezone.utc
CHAINS = dict(zip(ALGORITHMS, ("mono", "tiled", "tree", "tiled and tree")))


# ---- a store and its book


def look(store: Store, book: Book | None = None) -> dict[str, Any]:
    """In numbers and names, as JSON takes them."""
    header, tables, moments, misfits = store.header, Tables(), array("Q"), 0

    def visit(transaction: Transaction) -> None:
        nonlocal misfits
        moments.append(transaction.moment)
        for it in transaction.operations:
            if tables.apply(it):
                misfits += 1

    survey = store.surveyed(visit)
    if survey.falls:
        tables, found_misfits = tables_of(store)
        misfits = len(found_misfits)
    found: dict[str, Any] = {
        "store": store.path,
        "bytes": len(store.content),
        "format": header.format,
        "id": header.id,
        "epoch": header.epoch,
        "last_moment": survey.latest,
        "granule_seconds": header.width,
        "eras": [
            {
                "tile": it.tile,
                "granule": it.granule,
                "granules": 1 << it.exponent,
                "algorithms": ALGORITHMS[it.algorithms],
            }
            for it in store.eras
        ],
        "transactions": survey.transactions,
        "frontiers": survey.frontiers,
        "policies": survey.policies,
        "misfits": misfits,
        "tables": {
            name: {"rows": len(it.rows), "columns": dict(it.columns)}
            for name, it in sorted(tables.items())
        },
        "bytes_left": max(0, store.whole_limit - 1 - store.end),
        "granules_left": max(0, GRANULES - 1 - survey.latest // header.width),
        "full_at": header.full_at,
        "trailing": [it._asdict() for it in store.trailing()],
    }
    if book is not None:
        found["book"] = _of_book(store, book, moments)
    return found


def _of_book(store: Store, book: Book, moments: "array[int]") -> dict[str, Any]:
    batches, marks = book.batches(store.header.id), book.marks(store.header.id)
    tiles = max(0, len(batches) - 1)
    until = store.end_of_tiles(tiles)
    altered = [it for it in marks if it.outcome != "clean"]

    def said(mark: Mark) -> dict[str, Any]:
        return {"second": mark.moment, "says": str(mark)}

    return {
        "book": book.path,
        "bytes": len(book.content),
        "batches": len(batches),
        "tiles_sealed": tiles,
        "sealed_before_moment": until,
        "last_filing": batches[-1].moment if batches else None,
        "transactions_not_sealed": sum(moment >= until for moment in moments),
        "marks": len(marks),
        "last_mark": said(marks[-1]) if marks else None,
        "altered_marks": len(altered),
        "last_altered_mark": said(altered[-1]) if altered else None,
        "other_ids": [it for it in book.ids() if it != store.header.id],
        "seals_left": MOST_SEALS - book.seals,
        "marks_left": MOST_MARKS - sum(isinstance(it, Mark) for it in book.filings),
        "trailing": [it._asdict() for it in book.trailing()],
    }


def date(second: int, zone: datetime.tzinfo = UTC) -> str:
    """The date of a second, or the second where no calendar goes so far.

    >>> date(0)
    '1970-01-01 00:00:00 UTC'
    """
    try:
        return datetime.datetime.fromtimestamp(second, zone).strftime("%Y-%m-%d %H:%M:%S %Z")
    except (OverflowError, ValueError, OSError):
        return f"second {second}"


def zone_of(name: str) -> datetime.tzinfo:
    """A time zone by its name, as Europe/Zurich."""
    import zoneinfo

    try:
        return UTC if name == "UTC" else zoneinfo.ZoneInfo(name)
    except (zoneinfo.ZoneInfoNotFoundError, ValueError, OSError):
        raise Error(f"{ascii(name)} is no time zone that this machine knows") from None


def length(seconds: int) -> str:
    """A length of time in its two largest units.

    >>> length(90)
    '1 minute 30 seconds'
    """
    said = []
    for size, name in ((86_400, "day"), (3_600, "hour"), (60, "minute"), (1, "second")):
        count, seconds = divmod(seconds, size)
        if count:
            said.append(counted(count, name))
    return " ".join(said[:2]) or "no time"


def counted(count: int, name: str) -> str:
    """
    >>> counted(1_000, "row")
    '1,000 rows'
    """
    return f"{count:,} {name}{'s' * (count != 1)}"


def lines_of(found: dict[str, Any], zone: datetime.tzinfo = UTC) -> Iterator[str]:
    """The same for a person."""
    pairs = itertools.chain(_store_lines(found, zone), _book_lines(found, zone))
    return (f"{name:16}{plain(str(said))}" for name, said in pairs)


def _store_lines(it: dict[str, Any], zone: datetime.tzinfo) -> Iterator[tuple[str, Any]]:
    epoch, width = it["epoch"], it["granule_seconds"]
    yield "store", f"{it['store']}, {counted(it['bytes'], 'byte')}, format {it['format']}"
    yield "id", it["id"]
    yield "begins", f"{date(epoch, zone)}, second {epoch}"
    yield "last moment", f"{it['last_moment']}, {date(epoch + it['last_moment'], zone)}"
    eras = it["eras"]
    for at, (era, behind) in enumerate(zip(eras, [*eras[1:], None])):
        tile = f"{counted(era['granules'], 'granule')} of {length(width)} to a tile"
        is_empty = behind and behind["tile"] == era["tile"]
        yield f"era {at}", f"from tile {era['tile']}, granule {era['granule']}: {tile} of " + (
            f"{length(era['granules'] * width)}; chains {CHAINS[era['algorithms']]}"
            + ("; no tile: the next era begins at the same one" if is_empty else "")
        )
    yield "transactions", f"{it['transactions']:,}"
    if it["misfits"]:
        operations = counted(it["misfits"], "operation")
        yield "misfits", f"{operations} that no statement could make. `inspect` lists them"
    room = f"{counted(it['bytes_left'], 'byte')}; {counted(it['granules_left'], 'granule')}"
    yield "room left", f"{room}, until {date(it['full_at'], zone)}"
    for name, table in it["tables"].items():
        columns = ", ".join(f"{column} {kind}" for column, kind in table["columns"].items())
        yield "table", f"{name}, {counted(table['rows'], 'row')}: {columns}"
    yield from (("trailing", said_of(Trailing(**one))) for one in it["trailing"])


def _book_lines(found: dict[str, Any], zone: datetime.tzinfo) -> Iterator[tuple[str, Any]]:
    if "book" not in found:
        return
    it, epoch = found["book"], found["epoch"]
    yield "book", f"{it['book']}, {counted(it['bytes'], 'byte')}"
    if it["batches"]:
        until = it["sealed_before_moment"]
        before = f"before moment {until}, {date(epoch + until, zone)}" if until else "no moment yet"
        yield "sealed", f"{counted(it['tiles_sealed'], 'tile')}, {before}"
        yield "last filing", date(it["last_filing"], zone)
    else:
        yield "sealed", "nothing under this id"
    yield "not sealed", counted(it["transactions_not_sealed"], "transaction")
    for name, mark in (("last mark", it["last_mark"]), ("altered", it["last_altered_mark"])):
        if mark:
            yield name, f"{mark['says']}, {date(mark['second'], zone)}"
    if it["last_mark"]:
        yield "marks", f"{it['marks']:,}; {it['altered_marks']:,} say altered"
    if it["other_ids"]:
        yield "other ids", ", ".join(map(str, it["other_ids"]))
    yield from (("trailing", said_of(Trailing(**one))) for one in it["trailing"])


def said_of(trailing: Trailing) -> str:
    """The one sentence on bytes after an end."""
    who = "a torn write leaves this" if trailing.torn else "no crash leaves this: keep the file"
    whole = f", {counted(trailing.records, 'whole record')} among them" if trailing.records else ""
    return (
        f"{counted(trailing.length, 'byte')} after the gate at byte {trailing.place}{whole}: {who}"
    )


# ---- two stores

Key = Union[bytes, Frontier, Era]  # an item: a transaction as it is spelled, any other as it is
Ours = Optional[Transaction]


class Side:
    """One of two stores, read once: its items, the columns of its tables, the greatest number and the greatest moment."""

    def __init__(self, name: str, store: Store) -> None:
        self.name, self.store, self.header = name, store, store.header
        self.columns: dict[str, list[str]] = {}
        self.most = self.last = 0
        self.keys = [self._key(it) for it in store.items()]

    def _key(self, item: Item) -> Key:
        if not isinstance(item, Era):
            self.last = max(self.last, item.moment)
        if not isinstance(item, Transaction):
            return item
        self.most = max(self.most, item.number)
        for it in item.operations:
            if type(it) is Create:
                self.columns.setdefault(it.table, [name for name, _ in it.columns])
        return item.spelled

    def part(self, other: "Side") -> None:
        """The keys that both have, and those that this side has alone, or more often: before the last shared one, and after it."""
        left = Counter(other.keys)
        self.shared: list[Key] = []
        self.alone: list[Key] = []
        place = 0
        for key in self.keys:
            left[key] -= 1
            if left[key] < 0:
                self.alone.append(key)
            else:
                self.shared.append(key)
                place = len(self.alone)
        self.alone, self.after = self.alone[:place], self.alone[place:]

    def date(self, moment: int, zone: datetime.tzinfo) -> str:
        return f"moment {moment}, {date(self.header.epoch + moment, zone)}"


class Difference:
    """How a store differs from a copy that is not in doubt. `lines` show each difference.

    What the store may have stored since counts alone: it follows all that both have, has new numbers, and no moment before the copy's last
    one. With a granule only transactions count that have a moment of it in one of the two.
    """

    def __init__(
        self, store: Store, copy: Store, granule: int | None = None, zone: datetime.tzinfo = UTC
    ) -> None:
        self.sides = ours, theirs = Side("store", store), Side("copy", copy)
        self.granule, self.zone, self.is_same = granule, zone, store.content == copy.content
        ours.part(theirs)
        theirs.part(ours)
        new: list[Key] = []
        for it in ours.after:
            (new if self._is_new(it, theirs) else ours.alone).append(it)
        theirs.alone += theirs.after
        self.same, self.since = (sum(map(self._counts, keys)) for keys in (ours.shared, new))
        self.lines, pairs = [*self._front()], [*self._pairs()]
        self.differ = len(pairs)
        both = [(side, it) for pair in pairs for side, it in zip(self.sides, pair) if it]
        self.granules = sorted({side.store.granule(it.moment) for side, it in both})
        self.lines += itertools.chain.from_iterable(itertools.starmap(self._pair, pairs))
        if ours.shared != theirs.shared:
            self.lines.append("what both have is in another order")

    def _is_new(self, key: Key, copy: Side) -> bool:
        if isinstance(key, bytes):
            return _number(key) > copy.most and _moment(key) >= copy.last
        return isinstance(key, Era) or key.moment >= copy.last

    def _counts(self, key: Key) -> bool:
        """Whether it is a transaction, and of the granule that is asked for, if one is."""
        if not isinstance(key, bytes) or self.granule is None:
            return isinstance(key, bytes)
        return self.granule in {it.store.granule(_moment(key)) for it in self.sides}

    def _front(self) -> Iterator[str]:
        headers = [it.header for it in self.sides]
        for name in ("id", "epoch", "width", "exponent", "algorithms"):
            ours, theirs = (getattr(it, name) for it in headers)
            if ours != theirs:
                yield f"header: {name} {ours} in the store, {theirs} in the copy"
        for side in self.sides if self.granule is None else ():
            for it in side.alone:
                if isinstance(it, Frontier):
                    yield f"Frontier: {side.date(it.moment, self.zone)}, in the {side.name} alone"
                elif isinstance(it, Era):
                    yield f"policy: from tile {it.tile} on, in the {side.name} alone"

    def _pairs(self) -> Iterator[tuple[Ours, Ours]]:
        """The transactions that one has alone, beside those of the same number in the other."""
        found: tuple[Any, Any] = defaultdict(list), defaultdict(list)
        for side, of in zip(self.sides, found):
            for it in side.alone:
                if isinstance(it, bytes):
                    of[_number(it)].append(item_of(it))
        for number in sorted({*found[0], *found[1]}):
            for pair in itertools.zip_longest(found[0][number], found[1][number]):
                if any(self._counts(it.spelled) for it in pair if it):
                    yield pair

    def _pair(self, one: Ours, other: Ours) -> Iterator[str]:
        number = next(it.number for it in (one, other) if it)
        yield f"transaction {number}"
        for side, it in zip(self.sides, (one, other)):
            if it is None:
                yield f"    {side.name:6}has none"
            else:
                when = f"granule {side.store.granule(it.moment)}, {side.date(it.moment, self.zone)}"
                yield f"    {side.name:6}{when}"
        for ours, theirs in itertools.zip_longest(
            *(it.operations if it else () for it in (one, other))
        ):
            if repr(ours) != repr(theirs):  # 1 is True, but for its kind
                said = zip(("store", "copy"), (ours, theirs))
                yield from (f"        {name:6}{shown(it)}" for name, it in said if it)
                yield from self._changes(ours, theirs)

    def _changes(self, ours: Operation | None, theirs: Operation | None) -> Iterator[str]:
        """What differs value by value, if both put a row of one width."""
        if not (isinstance(ours, Put) and isinstance(theirs, Put) and ours.table == theirs.table):
            return
        names = {**self.sides[0].columns, **self.sides[1].columns}.get(ours.table, [])
        if len(ours.row) == len(theirs.row):
            for at, (mine, its) in enumerate(zip(ours.row, theirs.row)):
                if (type(mine), mine) != (type(its), its):
                    column = names[at] if at < len(names) else f"column {at + 1}"
                    mine, its = plain_literal(mine), plain_literal(its)
                    yield f"        {column}: {mine} in the store, {its} in the copy"

    def summary(self) -> str:
        """What was compared, in a line."""
        count = counted(self.differ + self.same, "transaction")
        compared = f"{self.differ:,} of {count} differ"
        if not self.differ + self.same:
            which = "" if self.granule is None else f" of granule {self.granule}"
            compared = f"no transaction{which} was compared: the copy has none"
        if self.granules:
            several = "s" * (len(self.granules) > 1)
            compared += f", in granule{several} {' '.join(map(str, self.granules))}"
        return f"{compared}; the store has {self.since:,} more since"


def _number(payload: bytes) -> int:
    return int.from_bytes(payload[1:5], "big")


def _moment(payload: bytes) -> int:
    return int.from_bytes(payload[5:13], "big")
