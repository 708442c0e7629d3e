"""What can go wrong, as exceptions.

`Error` is the base class of all. `InvalidStatement` is what no statement can spell; nothing was sent. `Refused` is one line that the program
refused: it changed nothing, and the connection continues. Each refusal has a class of its own, whose docstring is the reason that a person
reads. `Fault` ends the connection: a file failed, or the program did.
"""
from __future__ import annotations


class Error(Exception):
    """Base class of everything that this package raises about a store."""


class InvalidStatement(Error, ValueError):
    """An argument that a call doesn't take, or a value that no statement can spell; nothing was sent. Of a batch `at` is the place of its row, and `stored` as for `Refused`."""

    at: int | None = None
    stored: int = 0


class Fault(Error):
    """The run has ended. `name` is the program's name of the fault, `reason` what it means, `status` how the program ended.

    What was acknowledged is stored. Whether a transaction that was not yet acknowledged is stored, you see by asking for it.
    """

    def __init__(self, name: str, status: int | None = None, reason: str = "") -> None:
        super().__init__(name, status, reason)
        self.name, self.status, self.reason = name, status, reason or FAULTS.get(name, "")

    def __str__(self) -> str:
        status = "" if self.status is None else f" (status {self.status})"
        return f"{self.name}{status}" + (f": {self.reason}" if self.reason else "")


class Locked(Fault):
    """Another process has the store or a book open. Try again when it has ended, or connect to its service."""


FAULTS = {
    "DiskFault": "the store cannot be opened, read or written: see its folder, its owner and the room on its disk",
    "NotaryFault": "a book cannot be opened, read or written, or is no book, or the books of a quorum differ",
    "NotAStore": "the file is no store of this id",
    "AlreadyThere": "a file with content is there already, and stays as it is",
    "OldFormat": "the store is of format 1, which is only read: `migrate` it",
    "InputLimit": "one run takes 67,108,863 bytes of input",
    "Usage": "the program does not know a word of this call: it may be an older one",
    "Ended": "the program ended without a word: it was killed, or its output was cut off",
    "Closed": "the service has closed the connection",
}


class Refused(Error):
    """The program refused a line. `reason` says why in words, `detail` is the program's, and `hint` is what the client knows of it.

    Of a batch `at` is the place of the first row that is not stored for it, counted from 0, and `stored` says how many rows are stored.
    """

    at: int | None = None
    stored: int = 0

    def __init__(self, detail: str = "", line: str = "", name: str = "", hint: str = "") -> None:
        super().__init__(detail, line, name, hint)
        self.name = name or type(self).__name__
        self.detail, self.line, self.hint = detail, line, hint
        self.reason = (type(self).__doc__ or "").strip().replace("{detail}", detail)

    def __str__(self) -> str:
        shown = self.line if len(self.line) <= 120 else self.line[:117] + "..."
        place = "" if self.at is None else f" (row {self.at} of the batch; {self.stored} stored)"
        hint = f": {self.hint}" if self.hint else ""
        return f"{self.name}: {self.reason}{hint}{place}" + (f" [{shown}]" if shown else "")


def _refusal(name: str, reason: str) -> type[Refused]:
    """A class of its own for a refusal. `reason` is its docstring."""
    return type(name, (Refused,), {"__doc__": reason, "__module__": __name__})


Syntax = _refusal("Syntax", "the line is not in the grammar of statements")
NumberTooWide = _refusal(
    "NumberTooWide", "a number is out of its range (integers have 64 bits with sign)"
)
NotScripted = _refusal("NotScripted", "`now` is taken only by a scripted connection")
NoSpan = _refusal("NoSpan", "the span has no moment: its end is not after its start")
NoTable = _refusal("NoTable", "there is no table of this name at the moment that is read")
TableExists = _refusal("TableExists", "a table of this name exists")
BadCount = _refusal("BadCount", "the row has not as many values as the table has columns")
NullKey = _refusal("NullKey", "the key, which is the first column, is null")
BadType = _refusal(
    "BadType", "the value of column {detail}, counted from 1, is not of the column's kind"
)
NoRow = _refusal("NoRow", "there is no row with this key")
RowExists = _refusal("RowExists", "a row with this key exists")
NoColumn = _refusal("NoColumn", "there is no column of this name")
NoSession = _refusal("NoSession", "the session has not begun, or has ended")
SessionOpen = _refusal("SessionOpen", "the session has begun already")
Busy = _refusal(
    "Busy", "all sessions, or all connections of this account, are in use: try again a little later"
)
NotAllowed = _refusal("NotAllowed", "this account may not {detail} (lines MAY_ of the config file)")
Conflict = _refusal(
    "Conflict",
    "transaction {detail} changed, after this session began, something that the session read",
)
ClockAhead = _refusal(
    "ClockAhead",
    "the clock is far ahead of the last call: nothing is filed before a person has looked at it",
)
ClockBack = _refusal("ClockBack", "the clock is before moment {detail}, the last one of the store")
TooLate = _refusal("TooLate", "the last granule has passed: make it a ledger")
TooManyOps = _refusal("TooManyOps", "a transaction takes at most 256 operations")
TooLong = _refusal("TooLong", "a transaction takes at most 32,768 bytes")
StoreFull = _refusal("StoreFull", "the store has no room left: make it a ledger")
OldFormat = _refusal("OldFormat", "the store is of format 1, which is only read: `migrate` it")
NotAStore = _refusal("NotAStore", "the file is no store of this id")
Full = _refusal("Full", "the book has no room left")
Broken = _refusal(
    "Broken",
    "what is stored is not what was filed: keep both files as they are, and `analyse` copies",
)
TooManyEras = _refusal("TooManyEras", "the store has 256 eras, and takes no more")
SealMissing = _refusal(
    "SealMissing", "the notary has no seal `{detail}`, though its tile is sealed"
)
OutOfTurn = _refusal(
    "OutOfTurn", "another process filed meanwhile: the notary has {detail} batches"
)
NoEra = _refusal("NoEra", "the store has no era of this number")
NotSealedSo = _refusal("NotSealedSo", "a tile lacks the chains that this algorithm needs")
NotaryInconsistent = _refusal("NotaryInconsistent", "the notary contradicts itself at {detail}")
BY_NAME: dict[str, type[Refused]] = {it.__name__: it for it in Refused.__subclasses__()}


def refusal(reply: str, line: str = "", hint: str = "") -> Refused:
    """The exception of a reply `refused NAME [DETAIL]`. (What `serve` adds after ` # ` is its reason in words.)

    >>> refusal("refused Conflict 3", "s0 commit").detail
    '3'
    """
    name, _, detail = reply.split(" # ", 1)[0][len("refused ") :].partition(" ")
    return BY_NAME.get(name, Refused)(detail, line, name, hint)
