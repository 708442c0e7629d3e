"""`dragoonctl ledger ..`: each a few lines over `dragoon.ledger`, which is loaded when it is asked for."""
from __future__ import annotations

from typing import Any

from .errors import Refused
from .formats import ALGORITHMS
from .transport import NEARLY_FULL

ENDS = {"scan": "rows", "history": "versions", "over": "pieces"}


def to_make(given: Any) -> int:
    """make a ledger of many stores, in a new folder"""
    from . import ledger

    tiles = given.granule, given.exponent, given.algorithms
    ledger.make(given.folder, given.id, *tiles, given.epoch, given.bytes, given.book)
    print(f"ready {given.id}")
    return 0


def to_roll(given: Any) -> int:
    """close the last store of a ledger, and make the next one"""
    from . import ledger

    with ledger.connect(given.folder) as db:
        db.roll(given.granule)
        print(f"store {db.member.number} id {db.member.header.id}")
    return 0


def to_notarize(given: Any) -> int:
    """file what has ended of each store"""
    from . import ledger

    with ledger.connect(given.folder) as db:
        print(f"sealed {db.notarize()}")
    return 0


def to_ask(given: Any) -> int:
    """execute statements over all stores of a ledger, which reply as a run does"""
    from . import ledger

    status = 0
    with ledger.connect(given.folder) as db:
        for line in given.line:
            end = ENDS.get(line.split(" ", 1)[0])
            try:
                if end is None:
                    print(db._ask(line))
                    continue
                count = 0
                for reply in db._rows(line, f"{end} ", str):
                    count += 1
                    print(reply)
                print(f"{end} {count}")
            except Refused as why:
                status = 3
                print(" ".join(filter(None, ("refused", why.name, why.detail))))
    return status


def to_validate(given: Any) -> int:
    """validate each store of a ledger, and compare each border"""
    from . import ledger

    how = given.jobs, given.all, given.state, given.only
    proof = ledger.validate(given.folder, *how)
    print(*proof.lines, sep="\n")
    return proof.status


def to_inspect(given: Any) -> int:
    """report what is odd about each store"""
    return of_each(given, "inspect")


def to_link(given: Any) -> int:
    """the chain of each store"""
    return of_each(given, "link")


def to_analyse(given: Any) -> int:
    """find what is altered of each store"""
    return of_each(given, "analyse", *given.algorithm)


def of_each(given: Any, *words: str) -> int:
    """Its words, with the number of each store before them."""
    from . import ledger

    worst = 0
    for member, status, said in ledger.each(given.folder, *words, jobs=given.jobs):
        worst = max(worst, status)
        print(*(f"{member.number:04} {line}" for line in said.splitlines()), sep="\n", flush=True)
    return worst


def count(said: str, default: int | None = None) -> dict[str, Any]:
    return {"type": int, "default": default, "metavar": "N", "help": said}


COMMANDS = [
    (
        "ledger make",
        "folder id --granule= --exponent= --algorithms= --epoch= --bytes= --book=",
        to_make,
    ),
    ("ledger roll", "folder --granule=", to_roll),
    ("ledger notarize", "folder", to_notarize),
    ("ledger ask", "folder line+", to_ask),
    ("ledger validate", "folder --jobs= --state= --all --only=", to_validate),
    ("ledger inspect", "folder --jobs=", to_inspect),
    ("ledger link", "folder --jobs=", to_link),
    ("ledger analyse", "folder algorithm+ --jobs=", to_analyse),
]
OF = {
    "--jobs": count("how many stores at once", 1),
    "ledger make --granule": count("seconds of a granule", 60),
    "ledger make --exponent": count("a tile has 2^N granules", 3),
    "ledger make --algorithms": {"default": "ta", "choices": ALGORITHMS},
    "ledger make --epoch": count("the second at which it begins, if not now"),
    "ledger make --bytes": count("how many of its own a store takes", NEARLY_FULL),
    "ledger make --book": {
        "default": "ledger.book",
        "help": "several with commas between them: a quorum",
    },
    "ledger roll --granule": count("seconds of a granule from then on"),
    "ledger validate --state": {"metavar": "FOLDER", "help": "where it is kept what was clean"},
    "ledger validate --all": {"help": "also what was clean, and is as it was"},
    "ledger validate --only": count("store N alone, without its borders"),
}
