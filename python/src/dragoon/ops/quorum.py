"""The books of several notaries: the one that more than half of them have, and how each differs from it. (dragoonctl compare, mend)

A book only grows, so one that is behind has a prefix of the majority's. A book in which records may be hidden or cut off has no vote.
"""

from __future__ import annotations

import itertools
import os
import tempfile
from typing import List, NamedTuple, Optional, Sequence, Tuple, Union

from ..errors import Error
from ..formats import Batch, Book, FormatError, Mark

Filings = List[Union[Batch, Mark]]


class Standing(NamedTuple):
    path: str
    said: str
    is_same: bool = False
    is_behind: bool = False

    def __str__(self) -> str:
        return f"{self.path}: {self.said}"


class Comparison(NamedTuple):
    """What more than half have, as a book, None if there is no such; how many begin with that; and how each differs."""

    majority: Optional[Book]
    agree: int
    standings: List[Standing]


class Read(NamedTuple):
    """A book, and why it has no vote."""

    path: str
    filings: Filings
    book: Optional[Book] = None
    why: str = ""


def read(path: str) -> Read:
    try:
        book: Book = Book.read(path)
    except (OSError, FormatError) as why:
        return Read(path, [], None, getattr(why, "strerror", None) or str(why))
    hides = [f"{it.length} bytes follow byte {it.place}" for it in book.trailing() if not it.torn]
    return Read(path, book.filings, book, "".join(hides[:1]))


def begins(book: Filings, prefix: Filings) -> bool:
    return book[: len(prefix)] == prefix


def majority_of(books: Sequence[Read]) -> Optional[Read]:
    """The longest book with which more than half begin. None if those that go on after it differ, unless more than half end with it."""
    voters, most = [it for it in books if it.book and not it.why], len(books) // 2 + 1
    agreed = [
        it for it in voters if sum(begins(other.filings, it.filings) for other in voters) >= most
    ]
    if not agreed:
        return None
    longest = max(agreed, key=lambda it: len(it.filings))
    beyond = [it.filings for it in voters if begins(it.filings, longest.filings)]
    pairs = itertools.combinations(beyond, 2)
    is_split = any(not begins(one, other) and not begins(other, one) for one, other in pairs)
    return None if is_split and beyond.count(longest.filings) < most else longest


def own_batches(book: Filings, majority: Filings) -> int:
    """How many batches of a book the majority lacks, or filed later: as if the others were put back, or begun once more."""
    theirs = {(it.id, it.index): it.moment for it in majority if isinstance(it, Batch)}
    mine = [it for it in book if isinstance(it, Batch)]
    return sum(theirs.get((it.id, it.index), it.moment + 1) > it.moment for it in mine)


def counted(filings: Filings) -> str:
    batches = sum(isinstance(it, Batch) for it in filings)
    return f"{batches} batches and {len(filings) - batches} marks"


def standing_of(it: Read, majority: Optional[Read]) -> Standing:
    if it.why:
        return Standing(it.path, it.why)
    if majority is None:
        return Standing(it.path, f"has {counted(it.filings)}")
    mine, theirs = it.filings, majority.filings
    if mine == theirs:
        return Standing(it.path, "the same", True)
    if begins(theirs, mine):
        return Standing(it.path, f"behind: lacks {counted(theirs[len(mine):])}", is_behind=True)
    if begins(mine, theirs):
        return Standing(it.path, f"goes on alone: {counted(mine[len(theirs):])} more")
    at = next(at for at, pair in enumerate(zip(mine, theirs), 1) if pair[0] != pair[1])
    more = own_batches(mine, theirs)
    said = f"; {more} batches the majority lacks or filed later: look at anchors" if more else ""
    rest = iter(theirs)
    is_behind = all(one in rest for one in mine)
    how = "lacks some entries, from" if is_behind else "differs from"
    return Standing(it.path, f"{how} entry {at} on{said}", is_behind=is_behind)


def read_all(paths: Sequence[str]) -> List[Read]:
    if len({os.path.realpath(it) for it in paths}) < len(paths):
        raise Error("two of the books are one file")
    return [read(it) for it in paths]


def compare(paths: Sequence[str]) -> Comparison:
    """How the books of a quorum differ from the one that more than half of them have."""
    books = read_all(paths)
    majority = majority_of(books)
    agree = [it for it in books if majority and not it.why and begins(it.filings, majority.filings)]
    standings = [standing_of(it, majority) for it in books]
    return Comparison(majority.book if majority else None, len(agree), standings)


def mend(paths: Sequence[str]) -> Tuple[str, str]:
    """Writes the majority's book beside the first one, as PATH.mended: the path, and what it has. An Error says why nothing is written."""
    books = read_all(paths)
    broken, majority = books[0], majority_of(books)
    if majority is None or majority.book is None:
        raise Error(f"no book is what more than half of {len(paths)} have")
    if not majority.filings:
        raise Error("the book that more than half have has no entry")
    if broken.filings == majority.filings and not broken.why:
        raise Error(f"{broken.path} is the majority's already")
    hides = broken.book and broken.why and begins(broken.filings, majority.filings)
    if hides or own_batches(broken.filings, majority.filings):
        raise Error(
            f"{broken.path} has, or hides, what the majority lacks: keep it, look at anchors"
        )
    made = f"{broken.path}.mended"
    with tempfile.NamedTemporaryFile(dir=os.path.dirname(made) or ".") as file:
        file.write(majority.book.content[: majority.book.end] + b"\0")
        file.flush()
        os.fsync(file.fileno())
        os.link(file.name, made)  # it is there whole, and writes over nothing
    return made, counted(majority.filings)
