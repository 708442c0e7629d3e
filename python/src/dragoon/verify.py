#!/usr/bin/env python3
"""Compares a store with a notary's book: a second opinion, for anyone who trusts no one.

    python3 verify.py STORE BOOK ID

It was written from docs/FORMATS.md alone, needs Python 3.9, and is meant to be read before it is
run. It reads both files, computes every digest that is planned for the sealed tiles, and compares
each one with what was filed under ID. It writes nothing.

The first line is the verdict: `unsealed`, `clean N`, `altered N from P` or `header altered N`. N is
the number of sealed tiles, and P is the first one with a digest that differs. After `altered` each
such digest has a line. The status is 0 if nothing differs, 1 if something does, 2 for other
arguments, and 3 if a file cannot be read or is no book.

What to read, in order: records (how bytes become payloads), items and batches (what payloads say),
eras (where tiles begin), planned (what is hashed), compare (the verdict).
"""
import hashlib
import re
import signal
import struct
import sys
from collections import namedtuple
from itertools import chain, repeat
from typing import Callable, Dict, Iterator, List, Optional, Tuple

OPEN = 0xA7  # an open gate
HEAD = 64  # the place of the first record's gate
SEGMENT, SEGMENTS = 65_536, 1_024  # format 2 is read in segments of so many bytes
STORE_PAYLOAD, STORE_LIMIT, BOOK_PAYLOAD, BOOK_LIMIT = 32_768, 67_108_864, 262_144, 2_147_483_648
GRANULES, MOST_ERAS, MOST_SEALS, MOST_MARKS = 1_048_576, 256, 16_777_216, 65_536
Valid = Callable[[bytes], bool]


def big(value: int, length: int) -> bytes:
    return value.to_bytes(length, "big")


def number(content: bytes, begin: int, end: int) -> int:
    return int.from_bytes(content[begin:end], "big")


def sha(*parts: bytes) -> bytes:
    return hashlib.sha256(b"".join(parts)).digest()


# ---- records


def records(content: bytes, gate: int, limit: int, most: int, is_valid: Valid) -> Iterator[bytes]:
    """The payloads of the longest prefix of valid records from a gate on. No gate reaches the limit."""
    while content[gate] == OPEN:
        begin = gate + 5
        end = begin + number(content, gate + 1, begin)
        if end - begin > most or end >= limit or not is_valid(content[begin:end]):
            return
        yield content[begin:end]
        gate = end


def payloads_of_store(content: bytes) -> Iterator[bytes]:
    """The items of a store that has a header, as they are spelled."""
    length = len(content)
    if content[1:9] == b"DRAGOON1":
        ranges = [(HEAD, min(length, STORE_LIMIT))]
    else:
        count = min(SEGMENTS, (length - 1) // SEGMENT + 1)
        ranges = [(q * SEGMENT or HEAD, min(length, (q + 1) * SEGMENT)) for q in range(count)]
    for gate, limit in ranges:
        yield from records(content, gate, limit, STORE_PAYLOAD, is_item)


# ---- items

WORD = re.compile(rb"[a-z_][a-z0-9_]{0,31}")
# a Frontier: moment; and a policy: tile, granule, exponent, algorithms
OTHER = re.compile(b"(?s)\2.{8}|\3.{8}[\0-\x0a][\0-\3]")


def is_item(it: bytes) -> bool:
    """What ends too early has an IndexError, or ends after the payload; a ValueError is out of range."""
    if it[:1] != b"\1":
        return OTHER.fullmatch(it) is not None
    try:  # a transaction: number, moment, count, operations
        at = 15
        for _ in range(within(number(it, 13, 15), 1, 256)):
            at = operation_end(it, at)
        return at == len(it)
    except (IndexError, ValueError):
        return False


def operation_end(it: bytes, at: int) -> int:
    kind, at = within(it[at], 1, 3), word_end(it, at + 1)
    if kind == 3:  # remove: the key
        return value_end(it, at)
    count, at = within(it[at], 1, 32), at + 1
    for _ in range(count):
        if kind == 2:  # put: the values of the row
            at = value_end(it, at)
        else:  # create: names and kinds
            at = word_end(it, at) + 1
            within(it[at - 1], 1, 4)
    return at


def word_end(it: bytes, at: int) -> int:
    end = at + 1 + it[at]
    if not WORD.fullmatch(it, at + 1, end):
        raise ValueError("no word")
    return end


def value_end(it: bytes, at: int) -> int:
    kind = within(it[at], 0, 4)
    if kind == 2 or kind == 3:  # a text or bytes
        end = at + 3 + number(it, at + 1, at + 3)
        it[at + 3 : end if kind == 2 else 0].decode()  # a UnicodeDecodeError is a ValueError
        return end
    if kind == 4:
        within(it[at + 1], 0, 1)
    return at + (1, 9, 0, 0, 2)[kind]  # null, an int, and a bool


def within(value: int, least: int, most: int) -> int:
    if not least <= value <= most:
        raise ValueError("out of its range")
    return value


# ---- header and eras

# `fields` are the 22 bytes that are hashed
Header = namedtuple("Header", "fields id width exponent algorithms")
Era = namedtuple("Era", "tile granule exponent algorithms")


def header_of(content: bytes) -> Optional[Header]:
    is_head = len(content) > HEAD and re.match(b"\xa7DRAGOON[12]", content)
    if not is_head or any(content[31:HEAD]):
        return None
    id, epoch, width, exponent, algorithms = struct.unpack(">QQIBB", content[9:31])
    is_within = epoch < 1 << 40 and 1 <= width <= 86_400 and exponent <= 10 and algorithms <= 3
    return Header(content[9:31], id, width, exponent, algorithms) if is_within else None


def eras_of(header: Header, payloads: List[bytes]) -> List[Era]:
    eras = [Era(0, 0, header.exponent, header.algorithms)]
    for policy in (Era(*struct.unpack(">xIIBB", it)) for it in payloads if it[0] == 3):
        is_later = len(eras) < MOST_ERAS and eras[-1].tile <= policy.tile
        if is_later and policy.granule == first_granule(eras, policy.tile):
            eras.append(policy)
    return eras


def first_granule(eras: List[Era], tile: int) -> int:
    era = next(era for era in reversed(eras) if era.tile <= tile)
    return int(era.granule + (tile - era.tile << era.exponent))


def whole_tiles(eras: List[Era]) -> int:
    """How many tiles there are: none ends after the last granule."""
    last = next(era for era in reversed(eras) if era.granule <= GRANULES)
    return int(last.tile + (GRANULES - last.granule >> last.exponent))


# ---- the book

Digest = Tuple[str, bytes]  # with its name, as it is printed
Seals = Dict[str, bytes]

# a name and a digest; and by the first byte of a name its numbers, and how it is printed
SEAL = re.compile(
    b"(?s)(\0|[\1\4].{4}|\2.{4}[\0-\x09\xff]|\3[\0-\x14].{4}|\5.{4}[\0-\x14].{4})(.{32})"
)
FORMS = (">x", ">xI", ">xIB", ">xBI", ">xI", ">xIBI")
NAMES = ("header", "cum %d", "tile %d bit %d", "node %d %d", "era %d", "node %d %d %d")


def seals_of(batch: bytes) -> Seals:
    """If a name is twice in a batch the first digest counts."""
    return {printed(name): digest for name, digest in reversed(SEAL.findall(batch, 23))}


def printed(name: bytes) -> str:
    text = NAMES[name[0]] % struct.unpack(FORMS[name[0]], name)
    return text.replace("bit 255", "whole")


def is_filing(it: bytes) -> bool:
    """Whether a payload spells a batch or a mark."""
    if it[:1] == b"\2":  # a mark: id, moment, tiles, outcome, first bad tile
        return len(it) == 26 and it[21] <= 2 and (it[21] == 1 or not any(it[22:]))
    seals, count = SEAL.findall(it, 23), number(it, 21, 23)  # a batch: id, index, moment, seals
    is_whole = 23 + sum(len(name) + 32 for name, _ in seals) == len(it)
    return it[:1] == b"\1" and is_whole and len(seals) == count and 1 <= count <= 4_096


def batches_of(content: bytes, id: int) -> List[bytes]:
    """The batches that are filed under an id, as they are spelled. A ValueError: it is no book."""
    if len(content) <= 1 or len(content) <= HEAD + 1 and content[0] != OPEN:
        return []  # a book that is still empty
    if len(content) <= HEAD or content[:HEAD] != b"\xa7DRAGBOK1" + bytes(55):
        swapped = ", but a store: STORE comes before BOOK" if content[1:8] == b"DRAGOON" else ""
        raise ValueError(f"it is no notary's book{swapped}")
    counts: Dict[int, int] = {}
    found, seals, marks = [], 0, 0
    for it in records(content, HEAD, min(len(content), BOOK_LIMIT), BOOK_PAYLOAD, is_filing):
        if it[0] == 2:
            marks += 1
            continue
        of, index = struct.unpack(">QI", it[1:13])
        if index != counts.get(of, 0):
            raise ValueError(f"it is no notary's book: a batch under the id {of} is out of turn")
        counts[of], seals = index + 1, seals + number(it, 21, 23)
        if of == id:
            found.append(it)
    if seals > MOST_SEALS or marks > MOST_MARKS:
        raise ValueError("it is no notary's book: it has too many seals or marks")
    return found


# ---- what is hashed


def era_digest(at: int, era: Era) -> bytes:
    return sha(b"\x06", struct.pack(">IIIBB", at, *era))


def granule_digest(granule: int, transactions: List[bytes]) -> bytes:
    return sha(b"\x02", big(granule, 4), *[big(len(it), 4) + it for it in transactions])


def tile_digests(tile: int, exponent: int, granules: List[bytes]) -> Iterator[Digest]:
    """Over a tile's granules, and for each bit over those whose number in the tile has it 0."""
    yield f"tile {tile} whole", sha(b"\x03", big(tile, 4), b"\xff", *granules)
    for bit in range(exponent):
        part = (it for at, it in enumerate(granules) if not at >> bit & 1)
        yield f"tile {tile} bit {bit}", sha(b"\x03", big(tile, 4), big(bit, 1), *part)


def nodes_ending_at(era: int, index: int, node: bytes, left: List[bytes]) -> Iterator[Digest]:
    """The nodes of an era's tree whose last granule is this one, from its leaf up. `left` holds the
    nodes that have no right sibling yet, the lowest last."""
    front, level = f"node {era}" if era else "node", 0
    yield f"{front} 0 {index}", node
    while index % 2:
        level, index = level + 1, index // 2
        node = sha(b"\x04", big(level, 1), big(index, 4), left.pop(), node)
        yield f"{front} {level} {index}", node
    left.append(node)


def planned(header: Header, eras: List[Era], payloads: List[bytes], tiles: int) -> Iterator[Seals]:
    """What is planned for the batch of each tile, but for the digests of eras: the chain at its end,
    and as its era has it the tile's digests and the nodes of the tree."""
    granules: Dict[int, List[bytes]] = {}
    for it in payloads:
        if it[0] == 1:
            granules.setdefault(number(it, 5, 13) // header.width, []).append(it)
    link, at, first = sha(b"\x00", header.fields), 0, 0
    left: List[bytes] = []
    for tile in range(tiles):
        while at + 1 < len(eras) and eras[at + 1].tile <= tile:
            at, left = at + 1, []
        era, leaves, nodes = eras[at], [], {}  # type: Tuple[Era, List[bytes], Seals]
        for granule in range(first, first + (1 << era.exponent)):
            transactions = granules.get(granule, [])
            for transaction in transactions:
                link = sha(b"\x01", link, transaction)
            leaves.append(granule_digest(granule, transactions))
            if era.algorithms & 2:
                nodes.update(nodes_ending_at(at, granule - era.granule, leaves[-1], left))
        first += len(leaves)
        wholes = dict(tile_digests(tile, era.exponent, leaves)) if era.algorithms & 1 else {}
        yield {f"cum {tile}": link, **wholes, **nodes}


# ---- the comparison

# `differing` has the name of each digest that differs, or that should not be filed
Comparison = namedtuple("Comparison", "verdict tiles differing")


def compare(store: bytes, book: bytes, id: int) -> Comparison:
    batches = batches_of(book, id)
    tiles = len(batches) - 1
    if not batches:
        return Comparison("unsealed", 0, [])
    header, other = header_of(store), Comparison(f"header altered {tiles}", tiles, [])
    filed = seals_of(batches[0]).get("header")
    if header is None or header.id != id or filed != sha(b"\x05", header.fields):
        return other
    payloads = list(payloads_of_store(store))
    eras = eras_of(header, payloads)
    if not are_filed(eras, tiles, batches):
        return other
    nothing: Seals = {}
    plans = planned(header, eras, payloads, min(tiles, whole_tiles(eras)))
    both = zip(chain(plans, repeat(nothing)), map(seals_of, batches[1:]))
    found = [list(differences(plan, filed)) for plan, filed in both]
    bad = [tile for tile, names in enumerate(found) if names]
    verdict = f"altered {tiles} from {bad[0]}" if bad else f"clean {tiles}"
    return Comparison(verdict, tiles, list(chain.from_iterable(found)))


def differences(plan: Seals, filed: Seals) -> Iterator[str]:
    """The names of a tile's digests that differ. What else is filed is compared with nothing, but if
    nothing is planned: such a tile ends after the last granule, and should not be filed."""
    for name, digest in plan.items():
        if filed.get(name) != digest:
            yield name if name in filed else f"{name} is not filed"
    if not plan:
        yield from (f"{name} is not planned" for name in filed)


def are_filed(eras: List[Era], tiles: int, batches: List[bytes]) -> bool:
    """Whether each era that begins at a sealed tile is the one that was filed, and none is filed after
    them. All batches are searched, and if a name is filed twice the first digest counts."""
    seals = [seal for batch in batches for seal in SEAL.findall(batch, 23) if seal[0][0] == 4]
    filed = {printed(name): digest for name, digest in reversed(seals)}
    begun = [at for at, era in enumerate(eras) if at and era.tile < tiles]
    is_last = f"era {len(begun) + 1}" not in filed
    return is_last and all(filed.get(f"era {at}") == era_digest(at, eras[at]) for at in begun)


def main(words: List[str]) -> int:
    is_help = words in (["--help"], ["-h"])
    is_id = len(words) == 3 and re.fullmatch("0|[1-9][0-9]{0,19}", words[2])
    if is_help or not is_id or int(words[2]) >= 1 << 64:
        print(__doc__, file=sys.stdout if is_help else sys.stderr)
        return 0 if is_help else 2
    try:
        with open(words[0], "rb") as store, open(words[1], "rb") as book:
            found = compare(store.read(), book.read(), int(words[2]))
    except (OSError, ValueError, MemoryError) as why:
        of = getattr(why, "filename", words[1]) or "a file"
        print(f"verify: {of}: {getattr(why, 'strerror', why) or 'out of memory'}", file=sys.stderr)
        return 3
    print(found.verdict, *found.differing, sep="\n", flush=True)
    is_altered = "altered" in found.verdict
    if not found.tiles and not is_altered:
        print("verify: no tile is sealed under this id, so nothing was compared", file=sys.stderr)
    return 1 if is_altered else 0


if __name__ == "__main__":
    if hasattr(signal, "SIGPIPE"):
        signal.signal(signal.SIGPIPE, signal.SIG_DFL)  # as `verify.py .. | head -1` wants it
    sys.exit(main(sys.argv[1:]))
