"""Events: what can be wrong with a store, each one alarm. Nothing else knows these names.

An event has a name, and the file that it is about if it is about one: `shorter of store`, `book-behind of book 2`, `altered`. What a look finds, what
`inspect` finds and how a call ends each open the event of that name. But a finding that PART_OF names is evidence of what a verdict says: while the
verdict's event is open it belongs to that, and only what no verdict explains is an event of its own.

An alarm's line says what, one action, and the section of RUNBOOK, in at most 160 letters.
"""

from __future__ import annotations

from typing import Collection, Dict, NamedTuple

from ..tables import plain

SECTIONS = {  # who is called, each with a check and a row of its own; and the section that one of these has in RUNBOOK
    "altered": "The store was altered",
    "store": "Store",
    "notary": "Notary",
    "fault": "Fault",
}
LONGEST = 160
USAGE, STORE_FAULT, NOTARY_FAULT, TOO_LATE, ODD, CANNOT = 2, 5, 6, 15, 25, 70
ALTERED = (1, 10)
# the event that a call opens by its status
STATUSES = {
    **{1: "altered", 2: "conf", 4: "NotAStore", 5: "DiskFault", 6: "NotaryFault", 9: "NoMemory"},
    **{10: "altered", 11: "SealMissing", 12: "OutOfTurn", 14: "ClockBack", 15: "TooLate"},
    **{16: "Full", 18: "NotSealedSo", 19: "NotaryInconsistent", 20: "OldFormat"},
}
# the status that a command has for what is refused as a line, if that isn't the asker's own affair
REFUSALS = {"Broken": 10, "StoreFull": 16, **{name: it for it, name in STATUSES.items()}}
del REFUSALS["NotSealedSo"]
# the verdict's event that a finding of `inspect` is evidence of
PART_OF = {"altered-mark": "altered", "seal-missing": "SealMissing"}


class Sort(NamedTuple):
    """What an event is. `kind` is empty if the file says it. `until` says what ends it: a `person` who acknowledges it, a `look` at the file, a
    `comparison` of the books, any `call` that ends well, or that the command which opened it ends `well`.
    """

    kind: str
    until: str
    action: str
    section: str = ""
    rank: str = "alarm"


_RIGHT_FILE = "keep it, look for the right file"
_STOP = "stop what writes to it"
_COPIES = "compare it with its copies"
_DISK = "see its disk and its rights"
SORTS: Dict[str, Sort] = {
    # the history
    "altered": Sort("altered", "person", _STOP),
    "altered-mark": Sort("altered", "person", "find out who validated"),
    # a file
    "missing": Sort("", "look", "look for it; make no new one"),
    "unreadable": Sort("", "look", _DISK),
    "empty": Sort("", "look", "look for its copies"),
    "damaged": Sort("", "look", _RIGHT_FILE),
    "other-id": Sort("", "look", _RIGHT_FILE),
    "moved": Sort("", "look", "set the config file right"),
    "shorter": Sort("", "person", _RIGHT_FILE),
    "replaced": Sort("", "person", _RIGHT_FILE),
    "rewritten": Sort("", "person", _STOP),
    "trailing": Sort("", "person", _COPIES),
    "policy": Sort("store", "person", "ask who did it; nothing is filed till then"),
    "book-differs": Sort("notary", "person", "keep it, see `dragoonctl compare`"),
    "book-behind": Sort("notary", "comparison", "`dragoonctl mend`"),
    "believed": Sort("", "person", "compare it with copies, acknowledge it", "Warnings", "notice"),
    "seal-missing": Sort("notary", "person", "see `inspect --explain`"),
    # a call
    "NotAStore": Sort("store", "call", _RIGHT_FILE),
    "DiskFault": Sort("store", "call", _DISK),
    "NotaryFault": Sort("notary", "call", _DISK),
    "unsealed": Sort("notary", "call", "look for the right book"),
    "SealMissing": Sort("notary", "person", _COPIES),
    "OutOfTurn": Sort("notary", "person", "find out who else files"),
    "NotaryInconsistent": Sort("notary", "person", _COPIES),
    "NoMemory": Sort("fault", "call", "give it more memory"),
    "program": Sort("fault", "call", "see the program and the journal"),
    "state": Sort("fault", "call", "look at the folder STATE"),
    "busy": Sort("fault", "call", "let that process end", "Warnings", "notice"),
    "late": Sort("fault", "call", "let that process end"),
    "conf": Sort("fault", "well", "set the config file right"),
    "clock": Sort("fault", "well", "if `date` is right: `dragoonctl job notarize --accept-clock`"),
    "ClockBack": Sort("fault", "well", "look at `date` first"),
    "TooLate": Sort("fault", "well", "look at `date`, else make it a ledger"),
    "Full": Sort("fault", "well", "open the successor, with a book of its own"),
    "NotSealedSo": Sort("fault", "well", "write ALG=mono into the config file"),
    "OldFormat": Sort("fault", "well", "migrate it"),
}
for _name in ("earlier-behind", "earlier-hidden", "earlier-odd"):
    SORTS[_name] = Sort("", "person", _COPIES, "Warnings", "notice")
_ODDITY = Sort("", "person", "see `inspect --explain`")  # any other finding of `inspect`


def sort_of(event: str) -> Sort:
    """What an event is: `missing of book 2`, `altered`, or `number-gap of store`, which `inspect` found."""
    name, _, device = event.partition(" of ")
    sort = SORTS.get(name, _ODDITY)
    kind = sort.kind or ("store" if device == "store" else "notary")
    return sort._replace(kind=kind, section=sort.section or SECTIONS[kind])


def event_of(finding: str, there: Collection[str]) -> str:
    """The event that a finding belongs to, if these are open. The same mark in several books is one event.

    >>> event_of("altered-mark of book 2", ["altered"]), event_of("altered-mark of book 2", [])
    ('altered', 'altered-mark')
    """
    name = finding.partition(" of ")[0]
    verdict = PART_OF.get(name)
    return finding if verdict is None else verdict if verdict in there else name


def event_of_status(status: int) -> str:
    return STATUSES.get(status, "program")


def is_of(event: str, kind: str, rank: str) -> bool:
    sort = sort_of(event)
    return (sort.kind, sort.rank) == (kind, rank)


def head_of(store: str, event: str) -> str:
    """How the line begins in the journal."""
    said = sort_of(event) if event else None
    kind = "note" if said is None else said.kind if said.rank == "alarm" else "notice"
    return f"dragoon alarm={kind} store={clipped(store, 32)} "


def text_of(store: str, event: str, what: str) -> str:
    """What, with the word under which RUNBOOK has it, one action, and the section. What there is no room for is left out of `what` alone.

    >>> text_of("ledger", "shorter of store", "ledger.store has 120 bytes, and had 400")
    'shorter of store: ledger.store has 120 bytes, and had 400: keep it, look for the right file (RUNBOOK, Store)'
    """
    sort, word = sort_of(event), event.partition(" ")[0]
    what = what if word in what else f"{event}: {what}"
    rest = f": {sort.action} (RUNBOOK, {sort.section})"
    return clipped(plain(what), LONGEST - len(head_of(store, event)) - len(rest)) + rest


def line_of(store: str, event: str, what: str) -> str:
    return head_of(store, event) + text_of(store, event, what)


def clipped(text: str, room: int) -> str:
    return text if len(text) <= room else text[: room - 2] + ".."
