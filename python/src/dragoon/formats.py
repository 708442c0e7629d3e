"""The one reader of the files: stores of both formats, notary's books and evidence files. (docs/FORMATS.md)

    store = Store.read("ledger.store")
    store.header.id, store.eras, store.end
    for item in store.items(): ...          # Transaction, Frontier or Era (a policy)
    book = Book.read("ledger.book")
    book.batches(7), book.marks(7)
    evidence = Evidence.read("e.evd")

Everything that this package says of a file goes by these classes. They read and compare no digest: `dragoon.verify` does that, alone and
without them, so that two readers can be held against each other. A FormatError says that bytes are not such a file, and why.
"""
from __future__ import annotations

import os
import re
import stat
import struct
from collections import Counter
from dataclasses import dataclass
from typing import Any, Callable, ClassVar, Iterator, NamedTuple, Sequence, Union

from .errors import Error
from .language import Value

OPEN, HEAD = 0xA7, 64
SEGMENT, SEGMENTS = 65_536, 1_024
GRANULES, MOST_ERAS, LAST_SECOND = 1_048_576, 256, 1_099_511_627_775
MOST_SEALS, MOST_MARKS = 16_777_216, 65_536
LETTERS = {b"DRAGOON1": 1, b"DRAGOON2": 2}
KINDS = {1: "int", 2: "text", 3: "bytes", 4: "bool"}
ALGORITHMS = ("m", "t", "a", "ta")


class FormatError(Error, ValueError):
    """These bytes are no file of this kind: from the field at `byte` on, or by the record of this number (from 1)."""

    def __init__(self, said: str, byte: int | None = None, record: int | None = None) -> None:
        super().__init__(said)
        self.byte, self.record = byte, record


def content_of(path: str, most: int = 1 << 31) -> bytes:
    """The bytes of a plain file, and no more of them. (To open a pipe or a device may wait for ever.)"""
    found = os.stat(path)
    if not stat.S_ISREG(found.st_mode):
        raise FormatError(f"{path} is no plain file")
    with open(path, "rb") as file:
        return file.read(min(most, found.st_size))


# ---- what items say


class Create(NamedTuple):
    table: str
    columns: tuple[tuple[str, str], ...]


class Put(NamedTuple):
    table: str
    row: tuple[Value, ...]


class Remove(NamedTuple):
    table: str
    key: Value


Operation = Union[Create, Put, Remove]


class Transaction(NamedTuple):
    number: int
    moment: int
    operations: tuple[Operation, ...]
    spelled: bytes


class Frontier(NamedTuple):
    moment: int


class Era(NamedTuple):
    """From a tile on, which begins at a granule, each tile has 2^exponent granules and these algorithms. A policy is an item that says so."""

    tile: int
    granule: int
    exponent: int
    algorithms: int


Item = Union[Transaction, Frontier, Era]

_TXN, _POLICY = struct.Struct(">IQH"), struct.Struct(">IIBB")
_int = struct.Struct(">q").unpack_from
_new: Any = tuple.__new__  # of a named tuple, three times as fast as its call
_WORD = re.compile(rb"[a-z_][a-z0-9_]*")


class _Words(dict[bytes, str]):
    """The words that were read, by how they are spelled with their length. There are few."""

    def __missing__(self, spelled: bytes) -> str:
        if spelled[0] != len(spelled) - 1 or not 1 <= spelled[0] <= 32:
            raise ValueError("no word")
        if not _WORD.fullmatch(spelled, 1):
            raise ValueError("no word")
        if len(self) > 10_000:
            self.clear()
        self[spelled] = word = spelled[1:].decode()
        return word


_words = _Words()


def _value(payload: bytes, at: int) -> tuple[Value, int]:
    """A value, and where it ends: maybe after the payload, and then the payload is no item."""
    kind = payload[at]
    if kind == 1:
        return _int(payload, at + 1)[0], at + 9
    if kind in (2, 3):
        end = at + 3 + (payload[at + 1] << 8 | payload[at + 2])
        found = payload[at + 3 : end]
        return (found.decode() if kind == 2 else found), end
    if kind == 0:
        return None, at + 1
    if kind == 4 and payload[at + 1] <= 1:
        return payload[at + 1] == 1, at + 2
    raise ValueError("no value")


def _operation(payload: bytes, at: int) -> tuple[Operation, int]:
    kind, behind = payload[at], at + 2 + payload[at + 1]
    table, at = _words[payload[at + 1 : behind]], behind
    if kind == 3:
        key, at = _value(payload, at)
        return Remove(table, key), at
    count, at = payload[at], at + 1
    if not 1 <= count <= 32 or kind not in (1, 2):
        raise ValueError("no operation")
    found: list[Any] = []
    for _ in range(count):
        if kind == 1:
            behind = at + 1 + payload[at]
            found.append((_words[payload[at:behind]], KINDS[payload[behind]]))
            at = behind + 1
        elif payload[at] == 1:  # an int, as most are
            found += _int(payload, at + 1)
            at += 9
        else:
            value, at = _value(payload, at)
            found.append(value)
    return _new(Put if kind == 2 else Create, (table, tuple(found))), at


def item_of(payload: bytes) -> Item:
    """The item that a payload spells. A ValueError says that it spells none.

    >>> item_of(b"\\2" + (240).to_bytes(8, "big"))
    Frontier(moment=240)
    """
    try:
        kind = payload[0]
        if kind == 1:
            number, moment, count = _TXN.unpack_from(payload, 1)
            at, operations = 15, []
            for _ in range(count):
                operation, at = _operation(payload, at)
                operations.append(operation)
            if at == len(payload) and 1 <= count <= 256:
                it: Transaction = _new(Transaction, (number, moment, tuple(operations), payload))
                return it
        elif kind == 2 and len(payload) == 9:
            return Frontier(int.from_bytes(payload[1:], "big"))
        elif kind == 3 and len(payload) == 11:
            policy = Era(*_POLICY.unpack_from(payload, 1))
            if policy.exponent <= 10 and policy.algorithms <= 3:
                return policy
    except (IndexError, KeyError, struct.error, UnicodeDecodeError) as why:
        raise ValueError("no item") from why
    raise ValueError("no item")


# ---- gated files


class Trailing(NamedTuple):
    """Bytes after the gate at `place` that ends a segment or a file: so many up to the last that is not 0, and so many whole records if that
    gate is read as an open one. `torn`: no more than an append or a group that was cut off leaves. Else no crash leaves them.
    """

    segment: int
    place: int
    length: int
    records: int
    torn: bool


_RECORD = struct.Struct(">BI")


class Gated:
    """A file of gates and records: a store or a book. With `since`, a gate that is known, only what follows is read."""

    payload_limit: ClassVar[int]
    whole_limit: ClassVar[int]
    decode: ClassVar[Any]

    def __init__(self, content: bytes, path: str = "", since: int = 0) -> None:
        self.content, self.path, self.since = content, path, since
        self._ends: dict[int, int] = {}

    @classmethod
    def read(cls, path: str) -> Any:
        """Of a file that is longer than any of its kind only what may count, and a little more."""
        return cls(content_of(path, cls.whole_limit + SEGMENT), path)

    def ranges(self) -> Sequence[tuple[int, int]]:
        """Where records follow one another: the first gate, and the place that no gate reaches."""
        return [(max(HEAD, self.since), min(len(self.content), self.whole_limit))]

    def record(self, gate: int, limit: int) -> tuple[Any, int] | None:
        """What stands whole behind a gate, whatever that gate is, and the next gate; or None."""
        if gate + 5 >= limit:
            return None
        end = gate + 5 + _RECORD.unpack_from(self.content, gate)[1]
        if end - gate - 5 > self.payload_limit or end >= limit:
            return None
        try:
            return type(self).decode(self.content[gate + 5 : end]), end
        except ValueError:
            return None

    def walk(self, begin: int, limit: int) -> Iterator[tuple[int, Any, int]]:
        """The longest prefix of valid records of a range: each one's gate, what it spells, and the next gate."""
        content, decode, most, head = self.content, type(self).decode, self.payload_limit, _RECORD
        gate, last = begin, limit - 6
        while gate <= last:
            is_open, length = head.unpack_from(content, gate)
            end = gate + 5 + length
            if is_open != OPEN or length > most or end >= limit:
                break
            try:
                found = decode(content[gate + 5 : end])
            except ValueError:
                break
            yield gate, found, end
            gate = end
        self._ends[begin] = gate

    def entries(self) -> Iterator[Any]:
        """What the records of the file spell, in order."""
        for begin, limit in self.ranges():
            for _, found, _ in self.walk(begin, limit):
                yield found

    def end_of(self, begin: int, limit: int) -> int:
        """The gate that ends a range."""
        if begin not in self._ends:
            for _ in self.walk(begin, limit):
                pass
        return self._ends[begin]

    def ends(self) -> list[int]:
        """Of each range the gate that ends it."""
        return [self.end_of(*it) for it in self.ranges()]

    @property
    def end(self) -> int:
        """The gate that ends the file: all bytes before it stay as they are, whatever is stored later."""
        return self.end_of(*self.ranges()[-1])

    def reach(self, gate: int) -> int:
        """The last place that an append which was cut off writes after the gate at the end."""
        return gate + 5 + self.payload_limit

    def is_begun(self, gate: int) -> bool:
        """Whether this gate is all that a segment has, which was only begun: then it may be any byte."""
        return False

    def trailing(self) -> list[Trailing]:
        """Where bytes other than 0 follow the gate at an end, and where that gate is an open one."""
        found = []
        for begin, limit in self.ranges():
            gate = self.end_of(begin, limit)
            length = len(self.content[gate + 1 : limit].rstrip(b"\0"))
            is_open = self.content[gate] == OPEN and not self.is_begun(gate)
            if length or is_open:
                torn = not is_open and gate + length <= self.reach(gate)
                segment = begin // SEGMENT
                found.append(Trailing(segment, gate, length, self._hidden(gate, limit), torn))
        return found

    def _hidden(self, gate: int, limit: int) -> int:
        """How many whole records follow a gate, if it is read as an open one."""
        count = 0
        while (not count or self.content[gate] == OPEN) and (it := self.record(gate, limit)):
            count, gate = count + 1, it[1]
        return count


def first_wrong(content: bytes, least: bytes, is_head: Callable[[bytes], bool]) -> int | None:
    """The first byte with which no head begins, or where the file ends before one does. (Some head begins so if the least one goes on so.)"""
    head = content[:HEAD]
    if len(content) > HEAD and is_head(head):
        return None
    wrong = (at for at in range(len(head)) if not is_head(head[: at + 1] + least[at + 1 :]))
    return next(wrong, len(head))


def is_free(content: bytes) -> bool:
    """Whether the making of a file was cut off, if it ever began: a writer takes such bytes for an empty file."""
    return len(content) <= 1 or len(content) <= HEAD + 1 and content[0] != OPEN


# ---- the store


@dataclass(frozen=True)
class Header:
    id: int
    epoch: int
    width: int
    exponent: int
    algorithms: int
    format: int
    fields: bytes

    @classmethod
    def of(cls, content: bytes, path: str = "these bytes") -> "Header":
        """The header of a store. Of a longer file the first 65 bytes do."""
        wrong = first_wrong(content, _LEAST, _is_head)
        if wrong is not None:
            raise FormatError(f"{path or 'this'} is no store: {what_is(content)}", byte=wrong)
        return cls.of_fields(content[9:31], LETTERS[content[1:9]])

    @classmethod
    def of_fields(cls, fields: bytes, format: int = 2) -> "Header":
        id, epoch, width, exponent, algorithms = struct.unpack(">QQIBB", fields)
        if epoch > LAST_SECOND or not 1 <= width <= 86_400 or exponent > 10 or algorithms > 3:
            raise FormatError("a field of its header is out of its range")
        return cls(id, epoch, width, exponent, algorithms, format, fields)

    @classmethod
    def of_file(cls, path: str) -> "Header":
        return cls.of(content_of(path, HEAD + 1), path)

    @property
    def full_at(self) -> int:
        """The clock's second at which the last granule has passed."""
        return self.epoch + GRANULES * self.width


_LEAST = b"\xa7DRAGOON2" + bytes(19) + b"\1" + bytes(35)


def _is_head(head: bytes) -> bool:
    try:
        Header.of_fields(head[9:31])
    except FormatError:
        return False
    return head[0] == OPEN and head[1:9] in LETTERS and not any(head[31:])


class Eras(list[Era]):
    """The eras of a store, in order, from those of its header on."""

    def take(self, policy: Era) -> bool:
        """Whether this policy begins the next era, which it then does."""
        is_later = len(self) < MOST_ERAS and self[-1].tile <= policy.tile
        is_next = is_later and policy.granule == self.first_granule(policy.tile)
        if is_next:
            self.append(policy)
        return is_next

    def first_granule(self, tile: int) -> int:
        era = next(era for era in reversed(self) if era.tile <= tile)
        return era.granule + (tile - era.tile << era.exponent)

    def tiles_before(self, granule: int) -> int:
        """How many tiles have ended where a granule begins."""
        era = next(era for era in reversed(self) if era.granule <= granule)
        return era.tile + (granule - era.granule >> era.exponent)


class Store(Gated):
    payload_limit, whole_limit = 32_768, 67_108_864
    decode = staticmethod(item_of)

    def __init__(self, content: bytes, path: str = "", since: int = 0) -> None:
        super().__init__(content, path, since)
        self.header = Header.of(content, path)
        self._survey: Survey | None = None

    def ranges(self) -> Sequence[tuple[int, int]]:
        if self.header.format == 1:
            return super().ranges()
        count = min(SEGMENTS, (len(self.content) - 1) // SEGMENT + 1)
        ends = (min(len(self.content), (at + 1) * SEGMENT) for at in range(count))
        ranges = [(at * SEGMENT or HEAD, end) for at, end in enumerate(ends)]
        return [(max(begin, self.since), end) for begin, end in ranges if end > self.since]

    def reach(self, gate: int) -> int:
        """Of format 2 the end of the segment: a group goes up to there."""
        return super().reach(gate) if self.header.format == 1 else gate + SEGMENT

    def is_begun(self, gate: int) -> bool:
        return self.header.format != 1 and gate % SEGMENT == 0 and gate + 1 == len(self.content)

    def trailing(self) -> list[Trailing]:
        beyond = len(self.content) - self.whole_limit
        last = Trailing(SEGMENTS, self.whole_limit - 1, beyond, 0, False)
        return super().trailing() + ([last] if beyond > 0 else [])

    def items(self) -> Iterator[Item]:
        return self.entries()

    def transactions(self) -> Iterator[Transaction]:
        return (item for item in self.entries() if isinstance(item, Transaction))

    @property
    def survey(self) -> "Survey":
        """What one walk over all items says. It is made once."""
        return self._survey or self.surveyed(lambda transaction: None)

    def surveyed(self, visit: Callable[["Transaction"], None]) -> "Survey":
        """The same, by a walk that hands out each transaction on its way."""
        self._survey = Survey.of(self, visit)
        return self._survey

    @property
    def eras(self) -> Eras:
        return self.survey.eras

    @property
    def last_moment(self) -> int:
        """The greatest moment of any item."""
        return self.survey.latest

    @property
    def last_item(self) -> Transaction | Frontier | None:
        """The last transaction or Frontier, by the last segments alone."""
        for begin, limit in reversed(self.ranges()):
            items = [it for _, it, _ in self.walk(begin, limit) if not isinstance(it, Era)]
            if items:
                return items[-1]  # type: ignore[no-any-return]
        return None

    @property
    def moment_of_last_item(self) -> int:
        """The greatest moment of a store that an honest writer left."""
        return self.last_item.moment if self.last_item else 0

    def granule(self, moment: int) -> int:
        return moment // self.header.width

    def end_of_tiles(self, tiles: int) -> int:
        """The moment at which so many tiles have ended."""
        return self.eras.first_granule(tiles) * self.header.width


@dataclass
class Survey:
    """The eras of a store, how many items of each kind it has, the greatest moment, and whether moments fall somewhere."""

    eras: Eras
    transactions: int = 0
    frontiers: int = 0
    policies: int = 0
    latest: int = 0
    falls: bool = False

    @classmethod
    def of(cls, store: Store, visit: Callable[[Transaction], None]) -> "Survey":
        found, last = cls(eras_of(store.header, ())), 0
        for item in store.items():
            if type(item) is Transaction:
                found.transactions += 1
                visit(item)
            elif isinstance(item, Era):
                found.policies += 1
                found.eras.take(item)
                continue
            else:
                found.frontiers += 1
            if item.moment < last:
                found.falls = True
            last = item.moment
            if last > found.latest:
                found.latest = last
        return found


class _Segment(Gated):
    payload_limit, decode = Store.payload_limit, staticmethod(item_of)


def items_after(path: str, place: int = 0) -> Iterator[tuple[Item, int]]:
    """The items of a store of format 2 from a place on, each with the place after it, also while the program stores more."""
    with open(path, "rb") as file:
        while True:
            size = os.fstat(
                file.fileno()
            ).st_size  # once a file has grown past a segment, that takes no more
            begin = place // SEGMENT * SEGMENT
            file.seek(begin)
            segment = _Segment(file.read(SEGMENT))
            if segment.content:
                gate = max(place, HEAD) - begin
                for _, item, stop in segment.walk(gate, len(segment.content)):
                    yield item, begin + stop
            place = begin + SEGMENT
            if size <= place:
                return


def eras_of(header: Header, policies: Any) -> Eras:
    eras = Eras([Era(0, 0, header.exponent, header.algorithms)])
    for policy in policies:
        eras.take(policy)
    return eras


# ---- the notary's book


class Mark(NamedTuple):
    """What a validation found: of so many tiles clean, altered from the tile `first_bad` on, or another header."""

    id: int
    moment: int
    tiles: int
    outcome: str
    first_bad: int | None

    def __str__(self) -> str:
        bad = "" if self.first_bad is None else f" from {self.first_bad}"
        return f"{self.outcome} {self.tiles}{bad}"


@dataclass(frozen=True)
class Batch:
    """The digests that were filed at once: those of the header (index 0), or those of tile index - 1."""

    id: int
    index: int
    moment: int
    count: int
    spelled: bytes

    @property
    def seals(self) -> dict[str, bytes]:
        """The digests under their printed names. If a name is there twice the first one counts."""
        found: dict[str, bytes] = {}
        for name, digest in _SEAL.findall(self.spelled):
            found.setdefault(printed(name), digest)
        return found


OUTCOMES = ("clean", "altered", "header altered")
_SEAL = re.compile(
    b"(?s)(\0|[\1\4].{4}|\2.{4}[\0-\x09\xff]|\3[\0-\x14].{4}|\5.{4}[\0-\x14].{4})(.{32})"
)
# how a name is spelled, and printed, by its first byte
_FORMS = [struct.Struct(it) for it in (">x", ">xI", ">xIB", ">xBI", ">xI", ">xIBI")]
_NAMES = ("header", "cum %d", "tile %d bit %d", "node %d %d", "era %d", "node %d %d %d")


def printed(name: bytes) -> str:
    """A name of a seal, as the program prints it."""
    text = _NAMES[name[0]] % _FORMS[name[0]].unpack(name)
    return text.replace("bit 255", "whole")


def filing_of(payload: bytes) -> Batch | Mark:
    """The batch or the mark that a payload spells. A ValueError says that it spells none."""
    try:
        if payload[0] == 1:
            id, index, moment, count = struct.unpack_from(">QIQH", payload, 1)
            spelled = payload[23:]
            names = [name for name, _ in _SEAL.findall(spelled)]
            is_whole = sum(map(len, names)) + 32 * count == len(spelled)
            if is_whole and len(names) == count and 1 <= count <= 4_096:
                return Batch(id, index, moment, count, spelled)
        elif payload[0] == 2 and len(payload) == 26:
            id, moment, tiles, outcome, bad = struct.unpack_from(">QQIBI", payload, 1)
            if outcome == 1 or outcome in (0, 2) and bad == 0:
                return Mark(id, moment, tiles, OUTCOMES[outcome], bad if outcome == 1 else None)
    except (struct.error, IndexError) as why:
        raise ValueError("no filing") from why
    raise ValueError("no filing")


_BOOK_HEAD = b"\xa7DRAGBOK1" + bytes(55)


class Book(Gated):
    payload_limit, whole_limit = 262_144, 2_147_483_648
    decode = staticmethod(filing_of)

    def __init__(self, content: bytes, path: str = "", since: int = 0) -> None:
        super().__init__(content, path, since)
        self.is_empty = is_free(content)
        wrong = None if self.is_empty else first_wrong(content, _BOOK_HEAD, _BOOK_HEAD.__eq__)
        if wrong is not None:
            said = f"{path or 'this'} is no notary's book: {what_is(content)}"
            raise FormatError(said, byte=wrong)
        self.filings: list[Batch | Mark] = [] if self.is_empty else list(self.entries())
        self.seals = sum(it.count for it in self.filings if isinstance(it, Batch))
        if not since:
            self._hold()

    def _hold(self) -> None:
        counts: dict[int, int] = Counter()
        seals = marks = 0
        for record, filing in enumerate(self.filings, 1):
            if isinstance(filing, Mark):
                marks += 1
            elif filing.index == counts[filing.id]:
                counts[filing.id] += 1
                seals += filing.count
            else:
                raise self._none(f"a batch under the id {filing.id} is out of turn", record)
            if seals > MOST_SEALS or marks > MOST_MARKS:
                raise self._none("it has more seals or marks than a book may have", record)

    def _none(self, why: str, record: int) -> FormatError:
        said = f"{self.path or 'this'} is no notary's book: record {record}: {why}"
        return FormatError(said, record=record)

    def trailing(self) -> list[Trailing]:
        return [] if self.is_empty else super().trailing()

    @property
    def end(self) -> int:
        return max(0, len(self.content) - 1) if self.is_empty else super().end

    def batches(self, id: int) -> list[Batch]:
        return [it for it in self.filings if isinstance(it, Batch) and it.id == id]

    def marks(self, id: int) -> list[Mark]:
        return [it for it in self.filings if isinstance(it, Mark) and it.id == id]

    def ids(self) -> list[int]:
        return sorted({it.id for it in self.filings})

    def tiles(self, id: int) -> int:
        """How many tiles are sealed under an id."""
        return max(0, len(self.batches(id)) - 1)


# ---- evidence


class Entry(NamedTuple):
    """A granule: what the store holds of it, and what the copy holds, if that is what was filed."""

    granule: int
    shown: tuple[Transaction, ...]
    original: tuple[Transaction, ...] | None


class Evidence:
    def __init__(self, content: bytes, path: str = "") -> None:
        self.path, self._content, self._at = path, content, 0
        try:
            self._parse()
        except (ValueError, IndexError, struct.error) as why:
            raise FormatError(f"{path or 'this'} is no evidence file: {why}") from why

    @classmethod
    def read(cls, path: str) -> "Evidence":
        return cls(content_of(path, Store.whole_limit), path)

    def _take(self, length: int) -> bytes:
        found = self._content[self._at : self._at + length]
        if len(found) < length:
            raise ValueError("it ends too early")
        self._at += length
        return found

    def _number(self, length: int) -> int:
        return int.from_bytes(self._take(length), "big")

    def _parse(self) -> None:
        if self._take(8) != b"DRAGEVD1":
            raise ValueError(what_is(self._content))
        self.header = Header.of_fields(self._take(22))
        self.eras = eras_of(self.header, ())
        for _ in range(self._number(4)):
            policy = Era(*_POLICY.unpack(self._take(10)))
            if policy.exponent > 10 or policy.algorithms > 3 or not self.eras.take(policy):
                raise ValueError("an era doesn't follow those before it")
        self.entries: list[Entry] = []
        for _ in range(self._number(4)):
            granule = self._number(4)
            if granule >= GRANULES or self.entries and granule <= self.entries[-1].granule:
                raise ValueError("its granules don't ascend")
            shown = self._list(granule)
            has_original = self._number(1)
            if has_original > 1:
                raise ValueError("neither an original nor none")
            original = self._list(granule) if has_original else None
            self.entries.append(Entry(granule, shown, original))
        if self._at != len(self._content):
            raise ValueError("bytes stand after its last entry")

    def _list(self, granule: int) -> tuple[Transaction, ...]:
        found = []
        for _ in range(self._number(4)):
            item = item_of(self._take(self._number(4)))
            if not isinstance(item, Transaction) or len(item.spelled) > Store.payload_limit:
                raise ValueError("an item is no transaction")
            if item.moment // self.header.width != granule:
                raise ValueError("a transaction is of another granule")
            found.append(item)
        return tuple(found)


# ---- in words


def what_is(content: bytes) -> str:
    """What a file is by its front, in words."""
    letters = content[1:9]
    if not content:
        return "it is empty"
    if letters in LETTERS and content[0] != OPEN:
        return "it is a store whose header's gate is closed"
    if letters in LETTERS:
        if len(content) <= HEAD:
            return "it begins as a store, and ends within the header"
        is_whole = first_wrong(content, _LEAST, _is_head) is None
        return "it is a store" if is_whole else "it begins as a store, and its header is damaged"
    if letters == b"DRAGBOK1":
        return "it begins as a notary's book"
    if content[:8] == b"DRAGEVD1":
        return "it begins as an evidence file"
    for kind, word in (("store", b"DRAGOON"), ("notary's book", b"DRAGBOK")):
        if len(letters) == 8 and sum(map(int.__ne__, letters, word)) == 1:
            return f"it begins as a {kind}, and one of its letters is damaged"
    return f"its {len(content)} bytes don't begin as those of a store or a book"
