"""The folder of a ledger: ledger.conf, the stores 0001.store, 0002.store, .., a book if it is kept here, and nothing else.

    ID=7                   store N has the id ID + N - 1
    BOOK=ledger.book       relative to the folder, or from / on; several with commas between them: a quorum
    BYTES=66060288         how many bytes of its own a store takes, beside those that were carried over
    PERIOD=none            the longest time of a store: day, month, or a number of seconds
"""
from __future__ import annotations

import datetime
import os
import pathlib
import re
import struct
import subprocess
import time
from dataclasses import dataclass
from typing import Callable, Dict, Iterator, List, NamedTuple, Optional, Sequence, Tuple, Union

from ..arguments import checked
from ..client import Connection, Path, run_of
from ..errors import Error, Fault, InvalidStatement
from ..formats import ALGORITHMS, HEAD, Book, FormatError, Header, content_of, is_free
from ..ops.conf import ConfError, Key, fields_of
from ..ops.whole import replace
from ..transport import NEARLY_FULL, Stderr
from ..witness import laid_out

CONF, NEW, BOOK = "ledger.conf", ".new", "ledger.book"
LAST_ID = (1 << 64) - 10_000  # of a first store, so that the others have ids, too
KEYS = {
    "ID": Key("id", int, "0|[1-9][0-9]{0,19}", "a number"),
    "BOOK": Key("book", str, "[^,]+(,[^,]+)*", "paths, with commas between them"),
    "BYTES": Key("most_bytes", int, "[1-9][0-9]{0,9}", "a number of bytes"),
    "PERIOD": Key("period", str, "none|day|month|[1-9][0-9]{0,9}", "none, day, month or seconds"),
}
PERIODS = {"day": "%Y-%m-%d", "month": "%Y-%m"}


@dataclass(frozen=True)
class Conf:
    """What ledger.conf says."""

    id: int
    book: str = BOOK
    most_bytes: int = NEARLY_FULL
    period: str = "none"


class Unfit(Error):
    """A file of the folder isn't what it has to be: `name` is missing, empty, damaged, other-id, twice, stranger or falls."""

    def __init__(self, name: str, file: str, said: str) -> None:
        super().__init__(name, file, said)
        self.name, self.file, self.said = name, file, said

    def __str__(self) -> str:
        return f"{self.name}: {self.file} {self.said}"


class Member(NamedTuple):
    """A store of a ledger, which begins so many seconds after the first one."""

    number: int
    path: str
    header: Header
    offset: int

    @property
    def name(self) -> str:
        return os.path.basename(self.path)


class Folder(NamedTuple):
    path: str
    id: int
    books: Tuple[str, ...]
    most_bytes: int
    period: str
    members: Tuple[Member, ...]
    wrong: Tuple[Unfit, ...]

    @property
    def epoch(self) -> int:
        return self.members[0].header.epoch

    def store(self, number: int) -> str:
        return os.path.join(self.path, f"{number:04}.store")

    def period_of(self, second: int, begun: int) -> object:
        """What differs between two seconds that no store has both, of a store that began then."""
        if self.period == "none":
            return None
        if self.period.isdigit():
            return (second - begun) // int(self.period)
        date = datetime.datetime.fromtimestamp(second, datetime.timezone.utc)
        return date.strftime(PERIODS[self.period])

    def after(self, last: Member, header: Header) -> Member:
        """The member after the last one."""
        offset = last.offset + header.epoch - last.header.epoch
        return Member(last.number + 1, self.store(last.number + 1), header, offset)


def header_of(id: int, epoch: int, granule: int, exponent: int, algorithms: str) -> Header:
    chains = ALGORITHMS.index(algorithms)
    return Header.of_fields(struct.pack(">QQIBB", id, epoch, granule, exponent, chains))


@checked
def make(
    folder: Path,
    id: int,
    granule: int = 60,
    exponent: int = 3,
    algorithms: str = "ta",
    epoch: Optional[int] = None,
    most_bytes: int = NEARLY_FULL,
    book: Union[Path, Sequence[Path]] = BOOK,
    program: Optional[str] = None,
) -> None:
    """Makes a ledger in a folder of its own that isn't there yet, or is empty: its first store begins now, or at the second `epoch`.

    The header is filed at once. So a book that is missing or empty later is known to be a wrong one.
    """
    path = os.path.abspath(os.fspath(folder))
    header = header_of(
        id, int(time.time()) if epoch is None else epoch, granule, exponent, algorithms
    )
    given = [book] if isinstance(book, (str, os.PathLike)) else book
    said = {
        "ID": str(id),
        "BOOK": ",".join(os.fspath(it) for it in given),
        "BYTES": str(most_bytes),
    }
    if id > LAST_ID:
        raise InvalidStatement(f"id is {id}, and has to be at most {LAST_ID:,}")
    for key, value in said.items():
        if not re.fullmatch(KEYS[key].fits, value) or not value.isprintable():
            raise InvalidStatement(f"{key}={value}: it has to be {KEYS[key].wanted}")
    if os.path.exists(path) and (not os.path.isdir(path) or os.listdir(path)):
        raise Fault("AlreadyThere", 13, f"{path} has content, and stays as it is")
    new = path + NEW
    try:
        os.mkdir(new)
    except FileExistsError:
        raise Fault(
            "AlreadyThere", 13, f"{new} is what a call left that was cut off: remove it"
        ) from None
    with open(os.path.join(new, "0001.store"), "xb") as file:
        file.write(laid_out(header.fields, []))
        file.flush()
        os.fsync(file.fileno())
    lines = "".join(f"{key}={value}\n" for key, value in said.items())
    replace(pathlib.Path(new, CONF), lines.encode())
    member = Member(1, os.path.join(new, "0001.store"), header, 0)
    books = books_of(new, said["BOOK"])
    connection = opened(member, books, True, program, subprocess.DEVNULL)
    try:
        connection.notarize()
    finally:
        connection.close()
    os.rename(new, path)


def books_of(path: str, said: str) -> Tuple[str, ...]:
    return tuple(os.path.join(path, it) for it in said.split(","))


def opened(
    member: Member,
    books: Sequence[str],
    scripted: bool,
    program: Optional[str] = None,
    stderr: Stderr = None,
    path: Optional[str] = None,
) -> Connection:
    """A run of a store, or of what is at another path."""
    return run_of(path or member.path, member.header, books, scripted, program, stderr)


def read(path: str) -> Folder:
    """What the folder has, if all of it is as it has to be. An Unfit names the first file that isn't."""
    found = look(path)
    if found.wrong:
        raise found.wrong[0]
    return found


def look(path: str) -> Folder:
    """What the folder has, and what is wrong with it. Only the headers of the stores are read."""
    conf = os.path.join(path, CONF)
    if not os.path.isfile(conf):
        raise Unfit("missing", CONF, f"is not in {path}: a ledger's folder has it")
    said = Conf(**fields_of(conf, KEYS, ["ID"]))
    if said.id > LAST_ID:
        raise ConfError(f"{conf}: ID={said.id} is too great")
    books = books_of(path, said.book)
    own = {CONF, *(os.path.basename(it) for it in books)}
    paths, wrong = {}, []  # type: Dict[int, str], List[Unfit]
    for name in sorted(os.listdir(path)):
        number = int(name[:-6]) if re.fullmatch("[0-9]{4,9}[.]store", name) else 0
        if number and name == f"{number:04}.store":
            paths[number] = os.path.join(path, name)
        elif name not in own and not re.fullmatch("[0-9]{4,9}[.]store[.]new", name):
            wrong.append(
                Unfit("stranger", name, "is no file of a ledger: move it out of the folder")
            )
    members = tuple(members_of(paths, said.id, wrong.append))
    wrong += wrong_books(books)
    return Folder(path, said.id, books, said.most_bytes, said.period, members, tuple(wrong))


def members_of(paths: Dict[int, str], id: int, found: Callable[[Unfit], None]) -> Iterator[Member]:
    """The stores by their numbers. What is wrong with them is `found`."""
    names = {id + number - 1: os.path.basename(path) for number, path in paths.items()}
    first, last = None, 0  # type: Optional[Header], int
    for number in range(1, max(paths, default=1) + 1):
        name = f"{number:04}.store"
        if number not in paths:
            found(Unfit("missing", name, "is not there: put a copy of it in its place"))
            continue
        try:
            header = Header.of_file(paths[number])
        except (FormatError, OSError) as why:
            is_empty = os.path.isfile(paths[number]) and not os.path.getsize(paths[number])
            found(Unfit("empty" if is_empty else "damaged", name, f"can't be taken: {why}"))
            continue
        first = first or header
        if header.id != id + number - 1:
            is_ours = header.id in names
            said = f"has the id of {names[header.id]}" if is_ours else f"has the id {header.id}"
            found(
                Unfit(
                    "twice" if is_ours else "other-id", name, f"{said}, and not {id + number - 1}"
                )
            )
        elif header.epoch < last:
            found(Unfit("falls", name, "begins before the store before it"))
        else:
            last = header.epoch
            yield Member(number, paths[number], header, header.epoch - first.epoch)


def wrong_books(books: Sequence[str]) -> List[Unfit]:
    """What is wrong with the books, if half of them or more can't be taken: `make` has filed the first header, so none is empty."""
    wrong = []
    for path in books:
        name = os.path.basename(path)
        try:
            head = content_of(path, HEAD + 1)
            if is_free(head):
                wrong.append(
                    Unfit("empty", name, "is empty, and was filed: put a copy in its place")
                )
            else:
                Book(head, path)
        except FileNotFoundError:
            wrong.append(Unfit("missing", name, "is not there: put a copy in its place"))
        except (FormatError, OSError) as why:
            wrong.append(Unfit("damaged", name, f"can't be taken: {why}"))
    return wrong if 2 * len(wrong) >= len(books) else []
