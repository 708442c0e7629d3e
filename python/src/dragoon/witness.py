"""A second opinion on what the program makes of files, over `verify`: `examine`, `evidence` and `restore`; and which of two was altered.

The first three answer the lines that the program prints, and its status; the last two of them also the very bytes that it writes. Written
from docs/FORMATS.md and docs/COMMANDS.md alone.
"""
from __future__ import annotations

import struct
from bisect import bisect
from itertools import chain, groupby, repeat
from typing import Any, Iterable, Iterator, NamedTuple, Optional, Sequence

from . import verify
from .formats import Evidence, FormatError, Transaction

LIMIT = verify.STORE_LIMIT  # of a store, of an evidence file that is written, and of an input
STATUS = {"NotaryFault": 6, "SealMissing": 11, "Full": 16, "InputLimit": 17, "NotSealedSo": 18}
STATUS.update({"NotaryInconsistent": 19, "NotEvidence": 23, "HeaderLost": 24})
Answer = tuple[list[str], int]
Made = tuple[list[str], int, Optional[bytes]]
Ranges = list[tuple[int, int]]


class Fault(Exception):
    """The line that a call ends with, `fault NAME`, where it has no answer."""

    def __init__(self, name: str, *detail: str) -> None:
        super().__init__(" ".join(("fault", name, *detail)))
        self.status = STATUS[name]


class Notary:
    """What a book has under an id. Of a name that is filed twice the first seal counts."""

    def __init__(self, book: bytes, id: int) -> None:
        try:
            self.batches = verify.batches_of(book, id)
        except ValueError:
            raise Fault("NotaryFault") from None
        self.id, self.tiles = id, len(self.batches) - 1
        self.seals: verify.Seals = {}
        for batch in reversed(self.batches):
            self.seals.update(verify.seals_of(batch))

    def is_same(self, name: str, digest: bytes) -> bool:
        if name not in self.seals:
            raise Fault("SealMissing", name)
        return self.seals[name] == digest

    def passes(self, header: Any, eras: Sequence[Any]) -> bool:
        """Whether these are the header and the eras that were filed."""
        is_filed = self.seals.get("header") == verify.sha(b"\x05", header.fields)
        as_filed = [verify.Era(*it) for it in eras]
        is_filed = is_filed and verify.are_filed(as_filed, self.tiles, self.batches)
        return header.id == self.id and is_filed

    def tiles_within(self, eras: list[verify.Era]) -> int:
        """The number of the sealed tiles. None of them may end after the last granule."""
        within = verify.whole_tiles(eras)
        if within < self.tiles:
            raise Fault("SealMissing", f"cum {within}")
        return self.tiles


def node(era: int, level: int, index: int) -> str:
    return f"node {era} {level} {index}" if era else f"node {level} {index}"


def leaf(eras: Sequence[Any], granule: int) -> str:
    """The name under which the digest of a granule is filed, where its era has the tree."""
    at = next(at for at in reversed(range(len(eras))) if eras[at].granule <= granule)
    return node(at, 0, granule - eras[at].granule)


def listed(granule: int, items: Iterable[Transaction]) -> bytes:
    """The digest of a list of an evidence file."""
    return verify.granule_digest(granule, [it.spelled for it in items])


class Source:
    """A store: what it holds, granule by granule."""

    def __init__(self, content: bytes) -> None:
        self.header: Any = verify.header_of(content)
        if self.header is None:
            return
        self.payloads = list(verify.payloads_of_store(content))
        self.eras = verify.eras_of(self.header, self.payloads)

    def passes(self, notary: Notary) -> bool:
        return self.header is not None and notary.passes(self.header, self.eras)

    def granules(self) -> dict[int, list[bytes]]:
        """The transactions of each granule, in file order."""
        held: dict[int, list[bytes]] = {}
        for it in self.payloads:
            if it[0] == 1:
                held.setdefault(verify.number(it, 5, 13) // self.header.width, []).append(it)
        return held

    def digests(self, tiles: int) -> verify.Seals:
        """All that is planned for so many tiles, under their names."""
        planned = verify.planned(self.header, self.eras, self.payloads, tiles)
        return {name: digest for batch in planned for name, digest in batch.items()}

    @property
    def last(self) -> int:
        """The greatest moment of any item."""
        places = {1: (5, 13), 2: (1, 9)}
        moments = (verify.number(it, *places[it[0]]) for it in self.payloads if it[0] in places)
        return max(moments, default=0)


# ---- examine


def examine(content: bytes, book: bytes, id: int) -> Answer:
    """Which lists of an evidence file are as notarized: the lines of `examine`, and its status."""
    try:
        if len(content) >= LIMIT:
            raise Fault("InputLimit")
        try:
            found = Evidence(content)
        except FormatError:
            raise Fault("NotEvidence") from None
        if found.header.id != id:
            return ["other header"], 1
        notary = Notary(book, id)
        if not notary.passes(found.header, found.eras):
            return ["other header"], 1
        lines, confirmed = [], 0
        for entry in found.entries:
            shown = _said(entry.granule, entry.shown, found, notary)
            line = f"granule {entry.granule} {shown} shown {len(entry.shown)}"
            if entry.original is not None:
                said = _said(entry.granule, entry.original, found, notary)
                line += f" original {len(entry.original)} {said}"
            lines.append(line)
            confirmed += shown != "as notarized"
        return [*lines, f"examined {len(lines)} confirmed {confirmed}"], 0
    except Fault as fault:
        return [str(fault)], fault.status


def _said(granule: int, items: tuple[Transaction, ...], found: Evidence, notary: Notary) -> str:
    is_filed = notary.is_same(leaf(found.eras, granule), listed(granule, items))
    return "as notarized" if is_filed else "not as notarized"


# ---- evidence


def gather(store: bytes, copy: bytes, book: bytes, id: int) -> Made:
    """What `evidence` prints, its status, and the evidence file."""
    try:
        notary = Notary(book, id)
        if not notary.batches:
            return ["unsealed"], 0, None
        source, other = Source(store), Source(copy)
        if not source.passes(notary):
            return [f"header altered {notary.tiles}"], 1, None
        for at, era in enumerate(source.eras):
            if not era.algorithms & 2 and _tiles_of(source.eras, notary.tiles, at):
                raise Fault("NotSealedSo")
        granules = list(_altered(source, notary))
        shown, original = source.granules(), other.granules() if other.passes(notary) else None
        entries = []
        for granule in granules:
            its = original.get(granule, []) if original is not None else []
            digest, name = verify.granule_digest(granule, its), leaf(source.eras, granule)
            is_filed = original is not None and notary.is_same(name, digest)
            behind = b"\1" + _spelled(its) if is_filed else b"\0"
            entries.append(verify.big(granule, 4) + _spelled(shown.get(granule, [])) + behind)
        eras = [struct.pack(">IIBB", *it) for it in source.eras[1:]]
        counts = verify.big(len(eras), 4), verify.big(len(entries), 4)
        head = b"DRAGEVD1" + source.header.fields
        made = b"".join([head, counts[0], *eras, counts[1], *entries])
        if len(made) >= LIMIT:
            raise Fault("Full")
        return [f"evidence {len(entries)}"], 0, made
    except Fault as fault:
        return [str(fault)], fault.status, None


def _spelled(items: list[bytes]) -> bytes:
    return verify.big(len(items), 4) + b"".join(verify.big(len(it), 4) + it for it in items)


def _tiles_of(eras: list[verify.Era], tiles: int, at: int) -> int:
    """How many of the sealed tiles an era has."""
    end = int(min([tiles, *(era.tile for era in eras[at + 1 : at + 2])]))
    return max(0, end - int(eras[at].tile))


def _altered(source: Source, notary: Notary) -> Iterator[int]:
    """The granules that `analyse a3d` names: the leaves that differ, below roots and nodes that do."""
    planned = source.digests(notary.tiles_within(source.eras))

    def differs(name: str) -> bool:
        return not notary.is_same(name, planned[name])

    def below(era: int, level: int, index: int) -> list[int]:
        if level == 0:
            return [source.eras[era].granule + index]
        children = (2 * index, 2 * index + 1)
        found = [it for it in children if differs(node(era, level - 1, it))]
        if not found:
            raise Fault("NotaryInconsistent", node(era, level, index))
        return [granule for it in found for granule in below(era, level - 1, it)]

    for at, era in enumerate(source.eras):
        count = _tiles_of(source.eras, notary.tiles, at) << era.exponent
        first = 0
        for level in reversed(range(count.bit_length())):  # the roots, from the left
            if count >> level & 1:
                if differs(node(at, level, first >> level)):
                    yield from below(at, level, first >> level)
                first += 1 << level


# ---- restore


def restore(store: bytes, copy: bytes, book: bytes, id: int) -> Made:
    """What `restore` prints, its status, and the new store."""
    try:
        notary = Notary(book, id)
        if not notary.batches:
            return ["unsealed"], 0, None
        sources = [it for it in map(Source, (store, copy)) if it.passes(notary)]
        if not sources:
            raise Fault("HeaderLost")
        first = sources[0]
        tiles = notary.tiles_within(first.eras)
        held = [(it.digests(tiles), it.granules()) for it in sources]
        kept, lost = [], []  # type: list[bytes], list[int]
        for name, granules in _units(first.eras, tiles):
            found = next((its for own, its in held if notary.is_same(name, own[name])), None)
            if found is None:
                lost += granules
            else:
                kept += chain.from_iterable(found.get(granule, ()) for granule in granules)
        end = verify.first_granule(first.eras, tiles)
        since = sorted((it, its) for it, its in held[0][1].items() if it >= end)
        kept += chain.from_iterable(its for _, its in since)
        policies = [it for it in first.payloads if it[0] == 3]
        frontier = b"\x02" + verify.big(max(first.last, end * first.header.width), 8)
        made = laid_out(first.header.fields, [*policies, *kept, frontier])
        lines = [f"restored {end - len(lost)} lost {len(lost)}"]
        lines += (f"lost granules {begin} to {stop}" for begin, stop in _runs(lost))
        return lines, 0, made
    except Fault as fault:
        return [str(fault)], fault.status, None


def _units(eras: list[verify.Era], tiles: int) -> Iterator[tuple[str, range]]:
    """What one digest confirms: its name, and the granules that are kept or lost together."""
    at = first = 0
    for tile in range(tiles):
        while at + 1 < len(eras) and eras[at + 1].tile <= tile:
            at += 1
        era, granules = eras[at], range(first, first + (1 << eras[at].exponent))
        if era.algorithms & 2:
            yield from ((node(at, 0, it - era.granule), range(it, it + 1)) for it in granules)
        else:
            yield (f"tile {tile} whole" if era.algorithms & 1 else f"cum {tile}"), granules
        first = granules.stop


def _runs(numbers: list[int]) -> Iterator[tuple[int, int]]:
    """The longest runs of ascending numbers, each by its first and its last one."""
    for _, group in groupby(enumerate(numbers), key=lambda it: it[1] - it[0]):
        run = [number for _, number in group]
        yield run[0], run[-1]


def laid_out(fields: bytes, payloads: list[bytes]) -> bytes:
    """A store of format 2 with these items, as a writer lays them out."""
    pieces, place = [b"\xa7DRAGOON2" + fields + bytes(33)], verify.HEAD
    for payload in payloads:
        record = b"\xa7" + verify.big(len(payload), 4) + payload
        fits = place % verify.SEGMENT + len(record) < verify.SEGMENT
        unused = 0 if fits else -place % verify.SEGMENT
        place += unused + len(record)
        if place >= LIMIT:
            raise Fault("Full")
        pieces += (bytes(unused), record)
    return b"".join(pieces) + b"\0"


# ---- which of the two was altered


class Doubt(NamedTuple):
    """That it may be the book that was altered, and why. `is_certain`: no store explains what the book holds."""

    is_certain: bool
    said: str


COMPARE = "Compare the book with its copies"


def doubt(store: bytes, book: bytes, id: int) -> Doubt | None:
    """Whether the book contradicts itself by what the store gives; or None, also where nothing differs.

    If a digest is the same in both, the transactions of its granules are those that were filed, barring a collision. So each other digest
    over these granules alone should be the same, too. If one of them differs, one of the two was altered in the book. A filing puts all
    digests of a tile into it at once. Between two filings the store may have been altered; and a chain hashes the header, too.
    """
    source, batches = Source(store), verify.batches_of(book, id)
    if not batches or source.header is None or source.header.id != id:
        return None
    tiles = min(len(batches) - 1, verify.whole_tiles(source.eras))
    plans = verify.planned(source.header, source.eras, source.payloads, tiles)
    nothing: verify.Seals = {}
    both = list(zip(map(verify.seals_of, batches[1:]), chain(plans, repeat(nothing))))
    if verify.seals_of(batches[0]).get("header") != verify.sha(b"\x05", source.header.fields):
        return _doubt_of_header(both)
    if verify.are_filed(source.eras, len(batches) - 1, batches):
        return doubt_of_book(source.eras, both)
    return _doubt_of_eras(both)


Both = list[tuple[verify.Seals, verify.Seals]]


def doubt_of_book(eras: list[verify.Era], both: Both) -> Doubt | None:
    """The same of the digests that were filed with each tile, and those that are planned for it."""
    sides = []
    for tile, (filed, plan) in enumerate(both):
        same = [name for name, digest in plan.items() if filed.get(name) == digest]
        differing = [name for name, digest in plan.items() if filed.get(name) != digest]
        sides.append((tile, same, differing))
    bad = [it for it in sides if it[2]]
    for tile, same, differing in bad:
        others = [name for name in differing if not name.startswith("cum ")]
        if _goes_by(_covered(same, eras), others, eras):
            said = f"the book was altered: some digests of tile {tile} differ, and others of the same filing over the same transactions do not"
            return Doubt(
                True, f"{said}. Whether the store was altered too, these two cannot show. {COMPARE}"
            )
    wide = _covered([name for _, same, _ in sides for name in same], eras) if bad else []
    for tile, _, differing in bad:
        if _goes_by(wide, differing, eras):
            said = f"some digests that were filed with tile {tile} differ, and others over the same transactions do not"
            why = "the book was altered, or the store was between two filings, and the later filing did not compare"
            return Doubt(False, f"{said}: {why}. {COMPARE}")
    return None


def _doubt_of_header(both: Both) -> Doubt | None:
    """Every chain begins with the header."""
    for tile, (filed, plan) in enumerate(both):
        if plan and filed.get(f"cum {tile}") == plan[f"cum {tile}"]:
            said = f"the chain up to tile {tile} hashes this header, and is the one that was filed"
            why = f"the book was altered, or the header was before tile {tile} was filed"
            return Doubt(False, f"{said}: {why}, and that filing did not compare. {COMPARE}")
    return None


def _doubt_of_eras(both: Both) -> Doubt | None:
    is_same = all(
        plan == {name: digest for name, digest in filed.items() if not name.startswith("era ")}
        for filed, plan in both
    )
    said = "every digest that was filed with a tile is what the store gives, but for that of an era"
    why = "the book was altered there, or a policy was that changes nothing else"
    return Doubt(False, f"{said}: {why}. {COMPARE}") if both and is_same else None


def _granules_of(name: str, eras: list[verify.Era]) -> Ranges:
    """The granules whose transactions a digest hashes: ranges, each by its first one and the one after its last."""
    kind, *said = name.replace("whole", "bit 255").replace("bit ", "").split()
    numbers = list(map(int, said))
    if kind == "node":
        at, level, index = [0, *numbers][-3:]
        first = eras[at].granule + (index << level)
        return [(first, first + (1 << level))]
    begin, end = (verify.first_granule(eras, numbers[0] + more) for more in (0, 1))
    if kind == "cum" or numbers[1] == 255:
        return [(0 if kind == "cum" else begin, end)]
    bit = numbers[1]
    return [(it, it + (1 << bit)) for it in range(begin, end, 2 << bit)]


def _covered(names: list[str], eras: list[verify.Era]) -> Ranges:
    """The granules whose transactions one of these digests hashes at least, in rising ranges that don't touch."""
    found: Ranges = []
    for first, end in sorted(it for name in names for it in _granules_of(name, eras)):
        if found and first <= found[-1][1]:
            found[-1] = found[-1][0], max(found[-1][1], end)
        else:
            found.append((first, end))
    return found


def _goes_by(wide: Ranges, names: list[str], eras: list[verify.Era]) -> bool:
    """Whether one of these digests hashes transactions of such granules alone."""

    def is_within(first: int, end: int) -> bool:
        at = bisect(wide, (first, 1 << 64)) - 1
        return at >= 0 and end <= wide[at][1]

    return any(all(is_within(*it) for it in _granules_of(name, eras)) for name in names)
