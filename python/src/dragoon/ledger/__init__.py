"""A ledger of many stores, which answers as one without a limit. (docs/OPERATING.md, A ledger)

>>> from dragoon import ledger
>>> ledger.make("bank", id=7)
>>> db = ledger.connect("bank")

- **A border** is what each store but the first begins with (`border`): the tie to the store before, its tables, its present rows, and an
  end with their number and digest, all at the store's moment 0. It is made from a store that is locked, filed and validated.
- **A crash** leaves the old store as the last one, or both: the next store is made whole under another name, synced, locked and then renamed.
  The next call goes on with the last store that is there, and makes a border anew if none was renamed. (`database`)
- **One writer**: whoever has the lock of the last store, and after that sees no store behind it. A rollover holds the lock of the old store
  until it has that of the next one, so there is no moment at which both or neither may be written.
- **One history**: a version that a closed store has to its end, and the next store's first version of that key, are one (`asking`).
- **A proof** needs each store, its part of the books, and each border, by the files alone (`proving`).
"""
from __future__ import annotations

import os
from typing import Optional

from ..arguments import checked
from ..client import Path
from ..transport import Stderr
from .database import Ledger
from .folder import Unfit, make
from .proving import Proof, each, validate

__all__ = ["Ledger", "Proof", "Unfit", "connect", "each", "make", "roll", "validate"]


@checked
def connect(
    folder: Path, scripted: bool = False, program: Optional[str] = None, stderr: Stderr = None
) -> Ledger:
    """Opens a ledger: a Database like that of one store. `scripted`: at the moments that `now` sets, seconds since the first store began."""
    return Ledger(os.path.abspath(os.fspath(folder)), scripted, program, stderr)


@checked
def roll(
    folder: Path,
    granule: Optional[int] = None,
    scripted: bool = False,
    program: Optional[str] = None,
    stderr: Stderr = None,
) -> None:
    """Closes the last store and makes the next one, maybe with granules of another width."""
    with connect(folder, scripted, program, stderr) as ledger:
        ledger.roll(granule)
