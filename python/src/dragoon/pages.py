"""Pages for a person: the report of an analysis, the history of a row, evidence. Each is one file that loads nothing and runs nothing.

A page is green only where everything that is filed was compared, here, and is the same: without a book none is.
"""
from __future__ import annotations

import hashlib
from typing import Any, Callable, Iterator, NamedTuple, Sequence

import jinja2
from markupsafe import Markup, escape

from . import language, verify, witness
from .errors import Error
from .formats import ALGORITHMS, Batch, Book, Create, Entry, Evidence, Store, Transaction
from .look import counted
from .look import date as date_of
from .tables import kind_of, quoted, tables_of, versions_of

MOST_CARDS, MOST_TRANSACTIONS, MOST_VERSIONS, MOST_NAMES = 50, 50, 400, 100


class Verdict(NamedTuple):
    colour: str  # good, bad or open
    title: str
    said: str


def shown(text: Any) -> Markup:
    """Any text: a letter that steers or can't be seen is shown by its number, in a box."""
    box = Markup('<span class="odd">U+{:04X}</span>')
    found = (escape(it) if it.isprintable() else box.format(ord(it)) for it in str(text))
    return Markup("").join(found)


def page(template: str, **given: Any) -> str:
    loaded = jinja2.Environment(
        loader=jinja2.PackageLoader("dragoon"),
        autoescape=True,
        undefined=jinja2.StrictUndefined,
        trim_blocks=True,
        lstrip_blocks=True,
        keep_trailing_newline=True,
    )
    loaded.filters.update(shown=shown, literal=quoted, counted=counted)
    loaded.globals.update(clock=date_of, between=between, same=is_same)
    return loaded.get_template(template).render(**given)


def is_same(one: Any, other: Any) -> bool:
    return (kind_of(one), one) == (kind_of(other), other)


def dates(epoch: int) -> Callable[[int], str]:
    return lambda moment: date_of(epoch + moment)


def file_fact(content: bytes, path: str) -> str:
    return f"{path}, {len(content):,} bytes, SHA-256 {hashlib.sha256(content).hexdigest()}"


def compared(store: Store, book: Book | None) -> tuple[Verdict, list[str]]:
    """What the whole comparison says, as a verdict of a page; and the names of the digests that differ."""
    if book is None:
        said = "No book was named, so nothing was compared with what was filed."
        return Verdict("open", "Not compared", said), []
    try:
        found = verify.compare(store.content, book.content, store.header.id)
    except ValueError as why:
        return Verdict("open", "Not compared", f"The book cannot be read: {why}."), []
    if "altered" in found.verdict:
        said = f"The comparison says: {found.verdict}."
        return Verdict("bad", "Not what was filed", said), found.differing[:MOST_NAMES]
    if found.verdict == "unsealed":
        return Verdict("open", "Nothing was filed", "The book has nothing under this id."), []
    if not found.tiles:
        said = "No tile is sealed yet: the header alone was compared."
        return Verdict("open", "Nothing was compared", said), []
    said = f"All digests of {counted(found.tiles, 'sealed tile')} are those that were filed."
    return Verdict("good", "What was filed", said), []


def columns_of(store: Store) -> dict[str, list[str]]:
    return {name: it.names for name, it in tables_of(store)[0].items()}


# ---- the report of an analysis


def report(text: str, store: Store, book: Book | None = None) -> str:
    found, (verdict, differing) = language.report(text), compared(store, book)
    if "altered" in found.verdict:
        named = counted(len(found.granules), "granule") if found.granules else "no granule"
        said = f"Of {counted(found.tiles, 'sealed tile')} the report names {named}."
        title = "Altered" if found.verdict == "altered" else "Another header"
        verdict = Verdict("bad", title, said)
    elif verdict.colour == "bad":
        said = f"The report says {found.verdict}, and the whole comparison differs: {verdict.said}"
        verdict = Verdict("bad", "Altered", said)
    return page(
        "report.html",
        title=f"{store.path}: is it what was filed?",
        verdict=verdict,
        report=found,
        facts=list(facts_of(found, store, book)),
        cards=list(cards_of(found, store)) if found.verdict == "altered" else [],
        columns=columns_of(store),
        date=dates(store.header.epoch),
        differing=differing,
    )


def facts_of(found: language.Report, store: Store, book: Book | None) -> Iterator[tuple[str, Any]]:
    yield "Store", file_fact(store.content, store.path)
    if book:
        yield "Book", file_fact(book.content, book.path)
    yield "Id", found.id
    yield "Algorithm", found.algorithm
    yield "Begins", date_of(store.header.epoch)
    yield "Granules", f"{store.header.width} s each"
    for at, era in enumerate(store.eras):
        tile = f"{1 << era.exponent} granules to a tile, chains {ALGORITHMS[era.algorithms]}"
        yield f"Era {at}", f"from tile {era.tile}: {tile}"


def between(since: int, until: int) -> str:
    """A span of the clock. One that ends before it begins is flagged."""
    odd = " (the clock went back: `inspect` says where)" if until < since else ""
    return f"between {date_of(since)} and {date_of(until)}{odd}"


def cards_of(found: language.Report, store: Store) -> Iterator[dict[str, Any]]:
    """What the report names, each with the transactions that its granules have now."""
    held: dict[int, list[Transaction]] = {granule: [] for granule in found.granules}
    for it in store.transactions():
        if (granule := store.granule(it.moment)) in held:
            held[granule].append(it)
    for span in found.spans[:MOST_CARDS]:
        items = [it for granule in span.granules for it in held[granule]]
        named = " ".join(map(str, span.granules[:20])) + (" ..." if span.granules[20:] else "")
        title = f"Granule{'s' * (len(span.granules) != 1)} {named}"
        if span.tile is not None:
            title = f"Tile {span.tile}: candidates {named or 'none'}"
        yield {
            "title": title,
            "facts": [("Changed", between(span.since, span.until))],
            "transactions": items[:MOST_TRANSACTIONS],
            "more": len(items[MOST_TRANSACTIONS:]),
        }


# ---- the history of a row


def timeline(store: Store, table: str, key: str, book: Book | None = None) -> str:
    found = tables_of(store)[0].get(table)
    if found is None:
        raise Error(f"{store.path} has no table {table}")
    wanted = parse_key(key, found.columns[0][1])
    versions = versions_of(store, table).get(wanted, [])
    skipped = max(0, len(versions) - MOST_VERSIONS)
    state = "The store shows no such row."
    if versions:
        state = f"The row is {'' if versions[-1].stop is None else 'not '}there now."
    verdict, _ = compared(store, book)
    return page(
        "timeline.html",
        title=f"{table} {quoted(wanted)}: its history",
        verdict=verdict._replace(
            said=f"{counted(len(versions), 'version')}. {state} {verdict.said}"
        ),
        versions=versions[skipped:],
        skipped=skipped,
        lanes=list(lanes_of(store, versions[skipped:], skipped, book)),
        names=found.names,
        before=[None, *(it.row for it in versions)][skipped:],
        date=dates(store.header.epoch),
    )


class Sign(NamedTuple):
    """What is in a lane: a bar or a tick, its place from the left and its width in percent, its text, and what is said of it."""

    kind: str
    left: float
    width: float
    text: str
    said: str


def lanes_of(
    store: Store, versions: list[language.Version], skipped: int, book: Book | None
) -> Iterator[tuple[str, list[Sign]]]:
    epoch, date = store.header.epoch, dates(store.header.epoch)
    filings = [it for it in book.filings if it.id == store.header.id] if book else []
    end = max([store.last_moment, *(it.moment - epoch for it in filings)]) * 31 // 30 + 1
    ticks: dict[str, list[Sign]] = {"filings": [], "validations": []}
    for it in filings:
        lane, kind, said = "filings", "tick", ""
        if isinstance(it, Batch):
            said = f"batch {it.index}"
        else:
            lane, said = "validations", str(it)
            kind = f"tick {'good' if it.outcome == 'clean' else 'bad'}"
        place = 100 * max(0, it.moment - epoch) / end
        ticks[lane].append(Sign(kind, place, 0, "", f"{date_of(it.moment)}: {said}"))
    for name, signs in ticks.items() if book else ():
        yield f"{len(signs)} {name}", signs[-MOST_VERSIONS:]
    bars = []
    for at, version in enumerate(versions, skipped + 1):
        stop, until = (end, "now") if version.stop is None else (version.stop, date(version.stop))
        place, width = 100 * version.start / end, 100 * (stop - version.start) / end
        bars.append(Sign("bar", place, width, str(at), f"{date(version.start)} to {until}"))
    yield "the row", bars


def parse_key(word: str, kind: str) -> Any:
    """The key that a word spells: as in a statement; a text may do without its quotes."""
    if kind == "text" and not word.startswith("'"):
        return word
    try:
        (value,) = language.values(word)
    except ValueError:
        value = None
    if kind_of(value) != kind:
        raise Error(f"{word!r} is no key of this table: its keys are of the kind {kind}")
    return value


# ---- evidence


def evidence(
    found: Evidence,
    book: Book,
    asked: Sequence[tuple[str, str]] = (),
    store: Store | None = None,
) -> str:
    """The page of an evidence file. `asked` says of a sealed bundle who asked, and of which files; `store` names the columns."""
    id = found.header.id
    notary = witness.Notary(book.content, id)
    is_ours = bool(notary.batches) and notary.passes(found.header, found.eras)
    cards = [card_of(entry, found, notary) for entry in found.entries] if is_ours else []
    altered = sum(not card["lists"][0][1] for card in cards)
    said = "The file shows none, and says nothing of others."
    verdict = Verdict("open", "No altered granule is shown", said)
    if not is_ours:
        said = "The book has another header or other eras under this id: nothing was compared."
        verdict = Verdict("bad", "Another header", said)
    elif altered:
        said = f"{altered} of {counted(len(cards), 'granule')} that the file shows: not what was filed."
        verdict = Verdict("bad", "Altered", said)
    files = asked or [("Evidence", found.path), ("Book", file_fact(book.content, book.path))]
    return page(
        "evidence.html",
        title=f"Evidence of the store {id}",
        verdict=verdict,
        facts=[*files, ("Id", id), ("Sealed", counted(book.tiles(id), "tile"))],
        cards=cards,
        columns={**(columns_of(store) if store else {}), **dict(created_in(found))},
        date=dates(found.header.epoch),
        is_sealed=bool(asked),
        examined=len(cards),
        confirmed=altered,
    )


def card_of(entry: Entry, found: Evidence, notary: witness.Notary) -> dict[str, Any]:
    name, width = witness.leaf(found.eras, entry.granule), found.header.width
    begin = found.header.epoch + entry.granule * width
    lists = []
    for of, items in (("The store", entry.shown), ("The copy", entry.original)):
        if items is not None:
            is_filed = notary.seals.get(name) == witness.listed(entry.granule, items)
            said = f"{of}, {counted(len(items), 'transaction')}"
            lists.append((said, is_filed, items[:MOST_TRANSACTIONS]))
    facts = [("Holds", f"{date_of(begin)} to {date_of(begin + width)}"), ("Filed as", name)]
    return {"title": f"Granule {entry.granule}", "facts": facts, "lists": lists}


def created_in(found: Evidence) -> Iterator[tuple[str, list[str]]]:
    """The columns of the tables that are created in what is shown."""
    for entry in found.entries:
        for transaction in (*entry.shown, *(entry.original or ())):
            for it in transaction.operations:
                if isinstance(it, Create):
                    yield it.table, [name for name, _ in it.columns]
