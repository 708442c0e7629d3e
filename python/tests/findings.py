"""What `inspect` finds, by a reader that shares nothing with it: a test aid.

    findings(store, [book, ..], id, clock) -> the lines of `inspect`

`store` is None if none is named, and b"" if it is missing; `id` is None if none is given; `clock` is the clock's second. The choices that the
page of `inspect` leaves open:

- Lines are sorted by name, then by device (the store, book 1, book 2, ..), then by place. Of each name the first 100 are listed, over all
  devices, then `more NAME N`, N of them more. `inspected`: the items of the store, the entries of all books, and all findings.
- A file is missing or empty also if its making was cut off (at most one byte, or at most 65 without an open gate in front). `no-store` is an
  alarm if a book has a batch under ID, else a notice; `no-book` is always a notice.
- `damaged`, `byte`: the first one with which no header (no head of a book) begins; the file's length if it is too short. `record`: the first
  batch of a book whose index isn't the number of batches of its id before it, as an entry from 1. All else is asked of such a book, too.
- `other-id`: the header's; the first entry's. All else is asked of such a file, too. Without ID it is that of the header, else that of the first
  entry of the first book that has one, else 0.
- `trailing`: see `Trailing` of dragoon.formats. `byte` is the first one after the gate. A notice if `torn`.
- The last moment is the greatest. `store-ahead`: it is after the clock's moment, which is 0 before the epoch.
- `misfit`, `unsayable`: a line for each operation, in file order. A misfit changes no table.
- `store-behind` is of the store, by the book that has sealed most; what of eras and Frontiers is not sealed is of each book. Tiles from 0.
- `book-ahead`: the latest second under ID. `seconds-fall`, `entry`: among all entries of the book, from 1. A batch is compared with batches
  alone, since a filing may use the store's last moment, which is before the clock that a mark has.
- Several books: each is compared with the lists under ID that more than half of those with a head have; else with the first that has others.
  `book-differs`: its first entry that isn't the other's batch or mark of the same number. `book-behind`: none is, and it lacks some.
"""
from __future__ import annotations

import re
from collections import defaultdict

from dragoon.formats import GRANULES, Book, Create, Era, FormatError, Frontier, Mark, Put, Store
from dragoon.formats import eras_of, is_free
from dragoon.tables import Tables

NAMES = """no-store no-book damaged other-id format-1 trailing number-gap moment-falls misfit unsayable
idle-policy odd-frontier beyond store-ahead store-behind unsealed-era unsealed-frontier seal-missing batch-early
mark-over seconds-fall altered-mark book-ahead book-differs book-behind""".split()
NOTICES = {"no-store", "no-book", "format-1", "store-ahead", "unsealed-frontier", "batch-early"}
NOTICES |= {"seconds-fall", "book-ahead"}
LISTED, GREATEST = 100, (1 << 64) - 1


class Device:
    """A file, and what is found of it, by names."""

    def __init__(self, name):
        self.name, self.found = name, defaultdict(list)

    def find(self, name, rank=None, **words):
        rank = rank or ("notice" if name in NOTICES else "alarm")
        said = "".join(f" {word} {number}" for word, number in words.items())
        self.found[name].append(f"{rank} {name} of {self.name}{said}")

    def read(self, kind, content, missing):
        """The file as formats read it; or what is found of it instead."""
        if is_free(content):
            return self.find(missing)
        try:
            file = kind(content)
        except FormatError as why:
            return self.find("damaged", byte=why.byte)
        for it in file.trailing():
            words = dict(segment=it.segment, byte=it.place + 1, bytes=it.length, records=it.records)
            self.find("trailing", "notice" if it.torn else "alarm", **words)
        return file


def findings(store, books, id, clock):
    of_store = StoreDevice(store)
    names = ["book"] if len(books) == 1 else [f"book {at}" for at in range(1, len(books) + 1)]
    of_books = [BookDevice(name, content) for name, content in zip(names, books)]
    if id is None:
        entries = (it.entries[0].id for it in of_books if it.entries)
        id = of_store.header.id if of_store.header else next(entries, 0)
    for it in of_books:
        it.walk(id, clock)
    if store is not None:
        of_store.judge(id, clock, of_books)
    for it in of_books if of_store.header else ():
        it.with_store(of_store)
    if len(books) > 1:
        compare([it for it in of_books if it.file])
    devices = [of_store, *of_books]
    lines = []
    for name in NAMES:
        found = [line for device in devices for line in device.found[name]]
        more = [f"more {name} {len(found) - LISTED}"] if len(found) > LISTED else []
        lines += [*found[:LISTED], *more]
    total = sum(len(found) for device in devices for found in device.found.values())
    entries = sum(len(it.entries) for it in of_books)
    return [*lines, f"inspected store {of_store.items} book {entries} findings {total}"]


# ---- the store


class StoreDevice(Device):
    def __init__(self, content):
        super().__init__("store")
        self.file = self.read(Store, content, "no-store") if content is not None else None
        self.header = self.file and self.file.header
        self.items = self.last = self.latest = self.number = 0
        self.tables, self.filings = Tables(), []
        if self.header:
            self.eras = eras_of(self.header, ())
            for self.items, item in enumerate(self.file.items(), 1):
                self.take(self.items, item)

    def take(self, place, item):
        if isinstance(item, Era):
            if not self.eras.take(item):
                self.find("idle-policy", item=place)
            return
        if isinstance(item, Frontier):
            self.take_frontier(place, item.moment)
        else:
            self.take_transaction(place, item)
        if item.moment < self.last:
            self.find("moment-falls", item=place, before=self.last, this=item.moment)
        self.last, self.latest = item.moment, max(self.latest, item.moment)

    def take_frontier(self, place, moment):
        """A restoring stores one of the last moment, and a filing each other, at the end of a tile."""
        if moment != self.last:
            tiles = self.eras.tiles_before(min(moment // self.header.width, GRANULES))
            if self.eras.first_granule(tiles) * self.header.width == moment:
                self.filings.append(tiles)
            else:
                self.find("odd-frontier", item=place, moment=moment)

    def take_transaction(self, place, item):
        if item.number != self.number + 1:
            self.find("number-gap", item=place, before=self.number, this=item.number)
        self.number = item.number
        if item.moment // self.header.width >= GRANULES:
            self.find("beyond", item=place, moment=item.moment)
        for at, operation in enumerate(item.operations, 1):
            if self.tables.apply(operation):
                self.find("misfit", item=place, operation=at)
            if any(
                isinstance(it, str) and re.search("[\0-\x1f\x7f]", it) for it in values(operation)
            ):
                self.find("unsayable", item=place, operation=at)

    def end_of(self, tiles):
        return min(self.eras.first_granule(tiles) * self.header.width, GREATEST)

    def judge(self, id, clock, books):
        if any(it.batches for it in books) and self.found["no-store"]:
            self.found["no-store"] = ["alarm no-store of store"]
        if not self.header:
            return
        if self.header.id != id:
            self.find("other-id", id=self.header.id)
        if self.header.format == 1:
            self.find("format-1")
        if self.header.epoch + self.latest > clock:
            self.find("store-ahead", moment=self.latest, clock=max(0, clock - self.header.epoch))
        sealed = max((it.sealed for it in books), default=0)
        if self.latest < self.end_of(sealed):
            words = dict(tile=sealed - 1, end=self.end_of(sealed), last=self.latest)
            self.find("store-behind", **words)


def values(operation):
    if isinstance(operation, Create):
        return ()
    return operation.row if isinstance(operation, Put) else [operation.key]


# ---- a book


class Entries(Book):
    """A book whose batches needn't follow one another."""

    def _hold(self):
        pass


class BookDevice(Device):
    def __init__(self, name, content):
        super().__init__(name)
        self.file = self.read(Entries, content, "no-book")
        self.entries = self.file.filings if self.file else []
        self.batches, self.marks, self.sealed = [], [], 0
        self.filed = self.marked = 0  # the latest seconds

    def walk(self, id, clock):
        counts, altered = defaultdict(int), []
        for entry, it in enumerate(self.entries, 1):
            if not isinstance(it, Mark):
                if it.index != counts[it.id] and not self.found["damaged"]:
                    self.find("damaged", record=entry)
                counts[it.id] += 1
            if it.id == id:
                self.take(entry, it)
        altered = [(at, it) for at, it in enumerate(self.marks, 1) if it.outcome != "clean"]
        for mark, it in altered[-1:]:
            self.find("altered-mark", mark=mark, second=it.moment, marks=len(altered))
        if self.entries and not self.batches + self.marks:
            self.find("other-id", id=self.entries[0].id)
        latest = max(self.filed, self.marked)
        if latest > clock:
            self.find("book-ahead", second=latest, clock=clock)

    def take(self, entry, it):
        latest = max(self.filed, self.marked) if isinstance(it, Mark) else self.filed
        if it.moment < latest:
            self.find("seconds-fall", entry=entry, before=latest, this=it.moment)
        if isinstance(it, Mark):
            self.marks.append(it)
            self.marked = max(self.marked, it.moment)
            if it.tiles > self.sealed or it.first_bad is not None and it.first_bad >= it.tiles:
                self.find("mark-over", mark=len(self.marks), tiles=it.tiles, sealed=self.sealed)
        else:
            self.sealed = len(self.batches)
            if (f"cum {self.sealed - 1}" if self.sealed else "header") not in it.seals:
                self.find("seal-missing", batch=self.sealed)
            self.batches.append(it)
            self.filed = max(self.filed, it.moment)

    def with_store(self, store):
        if not self.file:
            return
        for era, it in enumerate(store.eras):
            if it.tile > self.sealed:
                self.find("unsealed-era", era=era, tile=it.tile, sealed=self.sealed)
        for tiles in store.filings:
            if tiles > self.sealed:
                self.find("unsealed-frontier", tile=tiles - 1, sealed=self.sealed)
        for index, it in enumerate(self.batches):
            end = min(store.header.epoch + store.end_of(index), GREATEST) if index else 0
            if it.moment < end:
                self.find("batch-early", batch=index, second=it.moment, end=end)


def compare(books):
    """Which of several books don't hold what the others do."""
    lists = [(it.batches, it.marks) for it in books]
    for book, own in zip(books, lists):
        others = [it for it in lists if 2 * lists.count(it) > len(lists)]
        other = next(iter(others or [it for it in lists if it != own]), own)
        if own != other:
            compare_with(book, *map(iter, other), most=max(0, len(other[0]) - 1))


def compare_with(book, batches, marks, most):
    own = {id(it) for it in book.batches + book.marks}
    for entry, it in enumerate(book.entries, 1):
        if id(it) in own and next(marks if isinstance(it, Mark) else batches, None) != it:
            return book.find("book-differs", entry=entry)
    return book.find("book-behind", sealed=book.sealed, most=most)
