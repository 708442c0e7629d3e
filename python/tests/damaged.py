"""Random stores with their books, sound and damaged, from a seed. No program is needed.

    pair = damaged(seed)          # .store, .copy, .books, .id, .clock: bytes, and what was done to them in .done
    python3 tests/damaged.py FOLDER FIRST LAST     # writes them, and what `inspect` finds, as files

`sound` makes what an honest writer leaves: tables, rows, filings, policies, validations, in either format, sometimes over several segments.
`damaged` does nothing, or up to three things, to each file: to records before they are laid out, or to bytes afterwards.
"""
from __future__ import annotations

import random
import sys
from pathlib import Path
from typing import NamedTuple

from dragoon import verify
from dragoon.formats import GRANULES, Era, Eras

SEGMENT = 65_536


class Pair(NamedTuple):
    store: bytes
    copy: bytes
    books: list
    id: int
    clock: int
    done: list


def big(value, length):
    return (value % (1 << 8 * length)).to_bytes(length, "big")


# ---- how things are spelled


def word(text):
    return big(len(text), 1) + text.encode()


def value(it):
    if it is None:
        return b"\0"
    if isinstance(it, bool):
        return b"\4" + big(it, 1)
    if isinstance(it, int):
        return b"\1" + big(it, 8)
    content = it.encode() if isinstance(it, str) else it
    return (b"\2" if isinstance(it, str) else b"\3") + big(len(content), 2) + content


def create(table, *columns):
    spelled = (word(name) + big(kind, 1) for name, kind in columns)
    return b"\1" + word(table) + big(len(columns), 1) + b"".join(spelled)


def put(table, *row):
    return b"\2" + word(table) + big(len(row), 1) + b"".join(map(value, row))


def remove(table, key):
    return b"\3" + word(table) + value(key)


def transaction(number, moment, *operations):
    return b"\1" + big(number, 4) + big(moment, 8) + big(len(operations), 2) + b"".join(operations)


def frontier(moment):
    return b"\2" + big(moment, 8)


def policy(tile, granule, exponent, algorithms):
    return b"\3" + big(tile, 4) + big(granule, 4) + big(exponent, 1) + big(algorithms, 1)


def batch(id, index, second, seals):
    head = b"\1" + big(id, 8) + big(index, 4) + big(second, 8)
    return head + big(len(seals), 2) + b"".join(seals)


def mark(id, second, tiles, outcome=0, bad=0):
    return b"\2" + big(id, 8) + big(second, 8) + big(tiles, 4) + big(outcome, 1) + big(bad, 4)


def seal(name, digest):
    """A seal, by the name as it is printed."""
    kind, *numbers = name.replace("whole", "bit 255").replace("bit ", "").split()
    shapes = {"header": [0], "cum": [1, 4], "tile": [2, 4, 1], "node": [3, 1, 4], "era": [4, 4]}
    first, *lengths = [5, 4, 1, 4] if kind == "node" and len(numbers) == 3 else shapes[kind]
    return big(first, 1) + b"".join(map(big, map(int, numbers), lengths)) + digest


def record(payload):
    return b"\xa7" + big(len(payload), 4) + payload


def laid(head, payloads, segmented=True):
    """A file of gated records, as a writer lays them out."""
    out = bytearray(head)
    for payload in payloads:
        if segmented and len(out) % SEGMENT + 5 + len(payload) >= SEGMENT:
            out += bytes(-len(out) % SEGMENT)
        out += record(payload)
    return bytes(out + b"\0")


BOOK_HEAD = b"\xa7DRAGBOK1" + bytes(55)


# ---- an honest writer


class Writer:
    """A store and its book, as calls make them."""

    def __init__(self, chance):
        self.chance, self.format = chance, chance.choice((1, 2, 2, 2))
        self.id = chance.choice((0, 7, 7, 9, (1 << 64) - 1))
        self.epoch, self.width = chance.choice((0, 1_600_000_000)), chance.choice((1, 60, 86_400))
        self.exponent, self.algorithms = chance.randrange(4), chance.randrange(4)
        self.eras = Eras([Era(0, 0, self.exponent, self.algorithms)])
        self.items, self.entries, self.rows = [], [], {}
        self.number = self.now = self.last = self.sealed = self.batches = 0
        self.size = chance.choice((3, 3, 3, 3, 600, 6_000))

    @property
    def fields(self):
        numbers = self.id, self.epoch, self.width, self.exponent, self.algorithms
        return b"".join(map(big, numbers, (8, 8, 4, 1, 1)))

    def head(self):
        return b"\xa7DRAGOON%d" % self.format + self.fields + bytes(33)

    def commit(self):
        operations = []
        for _ in range(self.chance.choice((1, 1, 2, 5))):
            table = self.chance.choice("tu")
            key = self.chance.randrange(9)
            if table not in self.rows:
                self.rows[table] = set()
                kind = self.chance.choice((3, 4))
                operations.append(create(table, ("k", 1), ("v", 2), ("w", kind)))
            elif key in self.rows[table] and self.chance.random() < 0.3:
                self.rows[table].remove(key)
                operations.append(remove(table, key))
            else:
                self.rows[table].add(key)
                operations.append(put(table, key, "x" * self.chance.randrange(self.size), None))
        self.number, self.last = self.number + 1, self.now
        self.items.append(transaction(self.number, self.now, *operations))

    def file(self):
        tiles = self.eras.tiles_before(min(GRANULES, self.now // self.width))
        end = self.eras.first_granule(tiles) * self.width
        if end > self.last:
            self.items.append(frontier(end))
            self.last = end
        self.entries += [(self.epoch + self.now, at) for at in range(self.batches, tiles + 1)]
        self.sealed, self.batches = tiles, tiles + 1

    def turn(self):
        self.file()
        granule = self.eras.first_granule(self.sealed)
        era = Era(self.sealed, granule, self.chance.randrange(4), self.chance.randrange(4))
        assert self.eras.take(era)
        self.items.append(policy(*era))

    def validate(self):
        if self.batches:
            self.entries.append(mark(self.id, self.epoch + self.now, self.sealed))

    def step(self):
        self.now += self.chance.choice((0, 0, 1, self.width // 2, self.width, 3 * self.width))
        self.chance.choice([self.commit] * 6 + [self.file, self.file, self.turn, self.validate])()

    def filings(self):
        """The payloads of the book."""
        header = verify.Header(self.fields, self.id, self.width, self.exponent, self.algorithms)
        eras = [verify.Era(*it) for it in self.eras]
        plans = [{"header": verify.sha(b"\5", self.fields)}]
        for tile, plan in enumerate(verify.planned(header, eras, self.items, self.sealed)):
            begun = [at for at, era in enumerate(eras) if at and era.tile == tile]
            plans.append({**{f"era {at}": verify.era_digest(at, eras[at]) for at in begun}, **plan})
        for entry in self.entries:
            if isinstance(entry, bytes):
                yield entry
            else:
                second, index = entry
                yield batch(self.id, index, second, [seal(*it) for it in plans[index].items()])


# ---- what is done to records, before they are laid out

# where the fields of a payload begin and end, by the kind of file and of payload
FIELDS = {
    ("store", 1): [(0, 1), (1, 5), (5, 13), (13, 15), (15, 16), (17, 18), (18, 19)],
    ("store", 2): [(0, 1), (1, 9)],
    ("store", 3): [(0, 1), (1, 5), (5, 9), (9, 10), (10, 11)],
    ("book", 1): [(0, 1), (1, 9), (9, 13), (13, 21), (21, 23), (23, 24), (24, 28)],
    ("book", 2): [(0, 1), (1, 9), (9, 17), (17, 21), (21, 22), (22, 26)],
}


def edited(chance, content, begin, end):
    """Bytes with another number in a field."""
    old, length = int.from_bytes(content[begin:end], "big"), end - begin
    near = (0, 1, old + 1, old - 1, old + 60, old - 60, old * 2, -1)
    new = chance.choice((*near, chance.getrandbits(8 * length)))
    return content[:begin] + big(new, length) + content[end:]


def edit_record(chance, kind, payloads):
    at = chance.randrange(len(payloads))
    begin, end = chance.choice(FIELDS.get((kind, payloads[at][0]), [(0, 1)]))
    payloads[at] = edited(chance, payloads[at], begin, end)


def drop_records(chance, kind, payloads):
    at = chance.randrange(len(payloads))
    del payloads[at : at + chance.choice((1, 1, 2, 99))]


def repeat_record(chance, kind, payloads):
    payloads.insert(chance.randrange(len(payloads) + 1), chance.choice(payloads))


def move_record(chance, kind, payloads):
    it = payloads.pop(chance.randrange(len(payloads)))
    payloads.insert(chance.randrange(len(payloads) + 1), it)


def put_in_record(chance, kind, payloads):
    second, tile = chance.randrange(2_000), chance.randrange(5)
    rows = [put("t", 1, "a\nb", None), put("t", "x"), remove("u", "\x7f"), put("w", 1)]
    rows.append(create("t", ("k", 1), ("k", 2)))
    if kind == "store":
        made = [transaction(chance.randrange(30), second, *chance.sample(rows, 2))]
        made += [frontier(second), policy(tile, tile << 1, 1, chance.randrange(4))]
        made.append(transaction(1, 86_400 << 20, rows[0]))
    else:
        made = [mark(7, second, tile, chance.randrange(3))]
        made.append(mark(7, second, tile, 1, tile + chance.randrange(-1, 2)))
        made.append(batch(9, 0, second, [seal("header", bytes(32))]))
        made.append(batch(7, tile, second, [seal(f"cum {tile}", bytes(32))]))
    payloads.insert(chance.randrange(len(payloads) + 1), chance.choice(made))


# ---- what is done to bytes


def gates(content):
    """Where the gates of a sound file are."""
    place, found = 64, [0, 64]
    while place + 5 < len(content):
        place += 5 + int.from_bytes(content[place + 1 : place + 5], "big")
        if place < len(content) and content[place] != 0xA7:
            place += -place % SEGMENT
        found.append(place)
    return [it for it in found if it < len(content)]


def flip(chance, content):
    content[chance.randrange(len(content))] ^= 1 << chance.randrange(8)


def cut(chance, content):
    del content[chance.choice((chance.randrange(len(content)), chance.choice(gates(content)))) :]


def insert(chance, content):
    at = chance.randrange(len(content) + 1)
    content[at:at] = chance.choice((b"\0", b"\xa7", chance.randbytes(9)))


def turn_gate(chance, content):
    content[chance.choice(gates(content))] = chance.choice((0, 0, 0xA7, 1, 0xFF))


def edit_head(chance, content):
    ends = (0, 1, 8, 9, 17, 25, 29, 30, 31)
    begin, end = chance.choice((*zip(ends, ends[1:]), (40, 41)))
    content[begin:end] = edited(chance, bytes(content[begin:end]), 0, end - begin)


def edit_length(chance, content):
    at = chance.choice(gates(content)[1:] or [0])
    content[at + 1 : at + 5] = edited(chance, bytes(content[at + 1 : at + 5]).ljust(4, b"\0"), 0, 4)


def tear(chance, content):
    """An append or a group that was cut off, maybe with a shorter append over it; or what only looks so."""
    row = transaction(5, 9, put("t", 1, "y" * chance.randrange(99), None))
    some = chance.choices([row, frontier(60), mark(7, 9, 0)], k=chance.randrange(1, 4))
    group = b"".join(map(record, some)) + b"\0"
    part = group[1 : chance.randrange(1, len(group))]
    left = chance.choice((group[1:], part, group[9:], b"\1" + group, bytes(5) + group))
    content += left + bytes(chance.choice((0, 0, 7, 40_000)))


def swap(chance, content):
    heads = BOOK_HEAD + b"\0", b"\xa7DRAGOON2" + bytes(56), bytes(content[:70])
    content[:] = chance.choice((b"", b"\0", bytes(65), b"hello", *heads))


ON_RECORDS = (edit_record, drop_records, repeat_record, move_record, put_in_record)
ON_BYTES = (flip, cut, insert, turn_gate, edit_head, edit_length, tear, swap)
WORKS = (*ON_RECORDS, *ON_BYTES)
WEIGHTS = (4, 2, 2, 2, 2, 3, 1, 1, 3, 1, 1, 2, 0.3)


def spoiled(chance, kind, head, payloads, segmented, only, done):
    """A file of these payloads, to which something is done, or nothing."""
    payloads, count = list(payloads), chance.choice((0, 1, 1, 2, 3))
    works = chance.choices(WORKS, WEIGHTS, k=count)
    if only:
        works = [it for it in WORKS if it.__name__ == only] * min(count, 1)
    done.append([it.__name__ for it in works])
    for work in works:
        if work in ON_RECORDS and payloads:
            work(chance, kind, payloads)
    content = bytearray(laid(head, payloads, segmented))
    for work in works:
        if work not in ON_RECORDS and len(content) > 64:
            work(chance, content)
    return bytes(content)


def sound(seed):
    """An honest writer, after some steps."""
    writer = Writer(random.Random(seed))
    for _ in range(writer.chance.choice((2, 10, 30, 60))):
        writer.step()
    return writer


def damaged(seed, only=None):
    """A pair in which something is done to some files: anything, or only what has this name."""
    it = sound(seed)
    chance, done, filings = it.chance, [], list(it.filings())
    store, copy = (
        spoiled(chance, "store", it.head(), it.items, it.format == 2, only, done) for _ in range(2)
    )
    count = chance.choice((1, 1, 1, 0, 2, 3))
    whole = [filings[: len(filings) - chance.choice((0, 0, 0, 1, 2))] for _ in range(count)]
    books = [spoiled(chance, "book", BOOK_HEAD, payloads, False, only, done) for payloads in whole]
    id = it.id if chance.random() < 0.95 else 8
    return Pair(store, copy, books, id, it.epoch + it.now + chance.choice((0, 5, 5, 5, -70)), done)


def main(folder, first, last):
    from findings import findings

    for seed in range(int(first), int(last)):
        it, front = damaged(seed), Path(folder) / str(seed)
        Path(f"{front}.store").write_bytes(it.store)
        for at, book in enumerate(it.books, 1):
            Path(f"{front}.book{at}").write_bytes(book)
        Path(f"{front}.call").write_text(f"{it.id} {it.clock} {len(it.books)}\n")
        lines = findings(it.store, it.books, it.id, it.clock)
        Path(f"{front}.stdout").write_text("\n".join(lines) + "\n")


if __name__ == "__main__":
    main(*sys.argv[1:])
