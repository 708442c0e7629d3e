"""`Ledger`: a Database over the stores of a folder. The last store has a run of its own; a closed one is asked by a run over a copy in memory.

Whoever has the last store's lock, and sees no store after it, is the one writer. Another process that opens the store while the next one is
made looks again once it has the lock, and goes on with the next one.
"""
from __future__ import annotations

import contextlib
import os
import shutil
import subprocess
import threading
import time
from typing import Any, Callable, Dict, Iterable, Iterator, Optional, Tuple, TypeVar

from ..client import PATIENCE, Connection
from ..database import Database, Loaded, Moment, Rows, Session
from ..errors import Broken, ClockBack, Conflict, Error, Fault, InvalidStatement, Locked, NoTable
from ..errors import Refused, StoreFull, TooLate
from ..formats import ALGORITHMS, GRANULES, SEGMENT, Frontier, Header, Store, content_of
from ..language import Report, values
from ..ops.whole import synced
from ..transport import NEARLY_FULL, Pipe, Stderr, find_program
from ..witness import laid_out
from . import folder as folders
from .asking import Across, settled
from .border import CARRIED, FIRST, OWN, Contents, Mark, Tie, carry
from .files import in_memory, workshop
from .folder import NEW, Folder, Member, Unfit, header_of, opened

T = TypeVar("T")
LONGEST = Store.whole_limit - 4 * SEGMENT  # bytes in which each transaction still has room
LAST_TILES = 2_048  # granules that stay free, so that the last tile can be filed
WRITES = ("insert", "update", "delete", "create")


def due(folder: Folder, mark: Mark, now: int) -> int:
    """1 if the next store is to be made once no session is open, 2 if nothing more can be stored before."""
    member = folder.members[-1]
    size, here = os.path.getsize(member.path), max(0, now - member.offset)
    granule, begun = here // member.header.width, member.header.epoch
    if size > LONGEST or granule >= GRANULES:
        return 2
    is_over = folder.period_of(begun + here, begun) != folder.period_of(begun, begun)
    is_long = size > NEARLY_FULL or size - mark.size >= folder.most_bytes
    return int(is_over or is_long or granule >= GRANULES - LAST_TILES)


class Ledger(Across, Database):
    def __init__(
        self, path: str, scripted: bool, program: Optional[str] = None, stderr: Stderr = None
    ) -> None:
        super().__init__(program, stderr)
        self._scripted, self._now = scripted, None  # type: bool, Optional[int]
        self.tables = {}
        self._turn = threading.Condition(threading.RLock())  # of the last store
        self._tails: Dict[int, int] = {}  # when a closed store's last tile ends; 0: it is filed
        self._sessions = 0
        self.folder = folders.read(path)
        self.id, self.epoch = self.folder.id, self.folder.epoch
        self._open()

    # ---- the last store

    def _open(self, patience: float = 0) -> None:
        """Opens the last store; or the next one, if another process has made that meanwhile."""
        until = time.monotonic() + patience
        while True:
            try:
                self.last = self._opened_last(self.member.path)
            except Locked:
                if time.monotonic() >= until:
                    raise
                time.sleep(0.05)
                continue
            now = folders.read(self.folder.path)
            if len(now.members) == len(self.folder.members):
                break
            self.last.close()
            self.folder = now
        self.contents, self._mark = Contents(self.member), FIRST
        if self.member.number > 1:
            try:
                (row,) = self.last._rows(f"scan {CARRIED}", "rows ", str)
                self._mark = Mark(*values(row[4:]))  # type: ignore[arg-type]
            except (ValueError, TypeError, NoTable):
                said = "has no end of what was carried over: `dragoonctl ledger validate`"
                raise Unfit("damaged", self.member.name, said) from None

    def _opened_last(self, path: str) -> Connection:
        """A run of the last store, which has the lock of the file."""
        books, last = self.folder.books, self.member
        run = opened(last, books, self._scripted, self._program, self._stderr, path)
        try:
            run._ask("s0 begin")
        except Fault as why:
            if why.name == "DiskFault" and os.access(path, os.W_OK):  # it was locked until now
                raise Locked(why.name, why.status, f"{path} was open in another process") from None
            raise
        run._ask("s0 abort")
        run.tables = self.tables
        if self._now is not None and self._now >= last.offset:
            run.now(self._now - last.offset)
        return run

    def _of(self, member: Member, ask: Callable[[Any], T], own: Any = None) -> T:
        with self._turn:
            if member.number == self.member.number:
                return ask(own or self.last)
        return super()._of(member, ask, own)

    # ---- lines

    @property
    def _database(self) -> Database:
        return self

    def _ask(self, line: str) -> str:
        if not line.startswith(WRITES):
            return self.reply(line)
        hold_own(line)
        with self._turn:
            self._make_room()
            with self._told():
                reply = self.last._ask(line)
            return f"ok {self._number(int(reply[3:]))}"

    def _rows(self, line: str, end: str, make: Callable[[str], T]) -> Rows[T]:
        return self.replies(line, end, make)

    def _number(self, number: int) -> int:
        """The number that a transaction of the last store has in the ledger."""
        return number + self._mark.before - self._mark.transactions

    @contextlib.contextmanager
    def _told(self) -> Iterator[None]:
        """What the last store refuses, by the moments and numbers of the ledger."""
        try:
            yield
        except ClockBack as why:
            why.detail = str(int(why.detail) + self.member.offset)
            raise
        except Conflict as why:
            why.detail = str(self._number(int(why.detail)))
            raise

    # ---- moments

    def clock(self) -> Optional[int]:
        return self._now if self._scripted else int(time.time()) - self.epoch

    def now(self, moment: Moment) -> None:
        when = self.moment(moment)
        with self._turn:
            here = max(0, when - self.member.offset)
            self.last.now(here)
            self._now = when

    # ---- rolling over

    def roll(self, granule: Optional[int] = None) -> None:
        """Closes the last store and makes the next one, after all sessions have ended. `granule`: of another width from then on."""
        with self._turn:
            self._wait_for_sessions()
            self._roll(granule)

    def _due(self) -> int:
        return due(self.folder, self._mark, self.clock() or 0)

    def _wait_for_sessions(self) -> None:
        if not self._turn.wait_for(lambda: not self._sessions, PATIENCE):
            raise StoreFull(
                "", name="StoreFull", hint="end the open sessions, so the next store can be made"
            )

    def _make_room(self) -> None:
        """Makes the next store if it is time."""
        due = self._due()
        if due == 2:
            self._wait_for_sessions()
        if due and not self._sessions and self._due():
            self._roll()
        self._hold_clock()

    def _hold_clock(self) -> None:
        """No store but the last one takes anything more."""
        if self._now is not None and self._now < self.member.offset:
            last = Store.read(self.member.path).moment_of_last_item
            raise ClockBack(str(last + self.member.offset))

    def _roll(self, granule: Optional[int] = None) -> None:
        last, member = self.last, self.member
        with contextlib.suppress(TooLate):
            last.notarize()
        if (verdict := last.validate()).is_altered:
            raise Broken("", "validate", "Broken", f"{member.name} is {verdict}")
        latest = member.header.epoch + Store.read(member.path).moment_of_last_item
        clock = self.clock()
        epoch, era = max(latest, 0 if clock is None else self.epoch + clock), self.contents.era
        width, chains = granule or member.header.width, ALGORITHMS[era.algorithms]
        after = header_of(member.header.id + 1, epoch, width, era.exponent, chains)
        mark, path = self._make(after), self.folder.store(member.number + 1)
        next, folder = self.folder.after(member, after), self.folder
        self.folder = folder._replace(members=(*folder.members, next))
        try:
            self.last = self._opened_last(path + NEW)  # so it is locked before it is there
            if os.path.exists(path):
                raise Unfit("twice", next.name, "is there, and wasn't made by this ledger")
            os.rename(path + NEW, path)
        except BaseException:
            self.folder, self.last = folder, last
            raise
        synced(folder.path)
        assert isinstance(self.last._transport, Pipe)
        self.last._transport.is_at(path)
        self.contents, self._mark = Contents(next), mark
        settled(last).close()
        self._file_tails()
        self.last.notarize()

    def _make(self, header: Header) -> Mark:
        """Makes the next store: in memory, then under a name that isn't a store's, and at last under its own."""
        folder, member = self.folder, self.member
        path = folder.store(member.number + 1)
        transactions, chain = self._link(member.path)
        tie = Tie(str(member.header.id), transactions, chain)
        place = os.stat(folder.path)
        with workshop(f"{place.st_dev}-{place.st_ino}") as work:
            made = os.path.join(work, "store")
            with open(made, "wb") as file:
                file.write(laid_out(header.fields, []))
            new = opened(
                member._replace(path=made, header=header), (), True, self._program, self._stderr
            )
            try:
                mark = carry(
                    new, made, tie, self._number(transactions), self.last, self.contents.columns
                )
            finally:
                new.close()
            if os.path.getsize(made) > NEARLY_FULL:
                raise StoreFull("", name="StoreFull", hint="the rows of now fill a store")
            with contextlib.suppress(FileNotFoundError):
                os.unlink(path + NEW)  # what a call left that was cut off
            shutil.copyfile(made, path + NEW)
        synced(path + NEW)
        return mark

    def _link(self, path: str) -> Tuple[int, str]:
        """How many transactions a store has, and its chain, also while it is open."""
        with in_memory(content_of(path)) as copy:
            call = [find_program(self._program), f"store={copy}", "link"]
            done = subprocess.run(call, stdout=subprocess.PIPE, stderr=self._stderr, text=True)
        words = done.stdout.split()
        if done.returncode or words[::2] != ["txns", "link"]:
            raise Fault(words[-1] if words else "Ended", done.returncode)
        return int(words[1]), words[3]

    # ---- the notary

    def notarize(self) -> int:
        """Files what has ended of each store. Answers how many tiles of the last one are sealed."""
        with self._turn:
            if not self._sessions and any(self._tails_to_file()):
                settled(self.last).close()  # it holds the book
                try:
                    self._file_tails()
                finally:
                    self._open(PATIENCE)
            return int(self.last.notarize())

    def _tails_to_file(self) -> Iterator[Tuple[Member, int]]:
        """The closed stores whose last tile has ended and isn't filed, and the moment there: no filing is after the last granule."""
        clock = self.clock()
        for member in self.folder.members[:-1]:
            width = member.header.width
            if member.number not in self._tails:
                item = Store.read(member.path).last_item
                is_filed = item is None or isinstance(item, Frontier)
                end = 0 if is_filed else Contents(member).end_of_tile(item.moment, width)
                self._tails[member.number] = end
            end = self._tails[member.number]
            if end and clock is not None and end <= clock - member.offset:
                yield member, min(clock - member.offset, GRANULES * width - 1)

    def _file_tails(self) -> None:
        for member, moment in self._tails_to_file():
            run = opened(member, self.folder.books, True, self._program, self._stderr)
            try:
                run.now(moment)
                run.notarize()
            finally:
                run.close()
            self._tails[member.number] = 0

    def analyse(
        self, algorithm: str = "a3d", kappa: Optional[int] = None, era: Optional[int] = None
    ) -> Report:
        """Finds what is altered of the last store. `dragoon.ledger.analyse` asks of all."""
        with self._turn:
            return self.last.analyse(algorithm, kappa, era)

    # ---- batches and sessions

    def session(self) -> Session:
        return Part(self)

    def _many(self, verb: str, table: str, rows: Iterable[Any], most: int) -> Loaded:
        hold_own(f"{verb} {table}")
        left, whole, is_done = iter(rows), Loaded(0, 0, None, None), False

        def fitting() -> Iterator[Any]:
            nonlocal is_done
            for at, row in enumerate(left, 1):
                yield row
                if at % most == 0 and self._due():
                    return
            is_done = True

        while not is_done:
            with self._in_store(), self._told():
                try:
                    part = self.last._many(verb, table, fitting(), most)
                except (Refused, InvalidStatement) as why:
                    why.stored += whole.rows
                    why.at = why.at if why.at is None else why.at + whole.rows
                    raise
                first, last = (it and self._number(it) for it in (part.first, part.last))
            count = whole.rows + part.rows, whole.transactions + part.transactions
            whole = Loaded(*count, whole.first or first, last or whole.last)
        return whole

    def _begin(self) -> None:
        """Keeps the last store the last one, until `_end`. If the next one is due, those that are in this one end before."""
        with self._turn:
            if self._due():
                self._turn.wait_for(lambda: not self._sessions or not self._due(), PATIENCE)
            self._make_room()
            self._sessions += 1

    def _end(self) -> None:
        with self._turn:
            self._sessions -= 1
            self._turn.notify_all()

    @contextlib.contextmanager
    def _in_store(self) -> Iterator[None]:
        self._begin()
        try:
            yield
        finally:
            self._end()

    def close(self) -> None:
        with self._turn:
            self.last.close()
            self.forget()


class Part(Session):
    """A session of a ledger: it stores in the last store, and reads in all."""

    def __init__(self, ledger: Ledger) -> None:
        self._ledger = ledger
        self._inner: Optional[Session] = None

    @property
    def _database(self) -> Database:
        return self._ledger

    @property
    def is_open(self) -> bool:
        return self._inner is not None and self._inner.is_open

    def _own(self) -> Any:
        if self._inner is None:
            raise Error("this session has ended, or has not begun")
        return self._inner

    def _ask(self, line: str) -> str:
        if line.startswith(WRITES):
            hold_own(line)
            return str(self._own()._ask(line))
        return self._ledger.reply(line, self._own())

    def _rows(self, line: str, end: str, make: Callable[[str], T]) -> Rows[T]:
        return self._ledger.replies(line, end, make, self._own())

    def begin(self) -> None:
        if self._inner is not None:
            raise Error("this session has begun already")
        self._ledger._begin()
        try:
            self._inner = self._ledger.last.session()
            self._inner.begin()
        finally:
            self._release()

    def commit(self) -> Optional[int]:
        try:
            self._ledger._hold_clock()
            with self._ledger._told():
                number = self._own().commit()
            self.transaction = number and self._ledger._number(number)
        finally:
            self._release()
        return self.transaction

    def abort(self) -> None:
        try:
            self._own().abort()
        finally:
            self._release()

    def _release(self) -> None:
        """Lets the ledger roll over, once the part in the last store has ended."""
        if self._inner is not None and not self._inner.is_open:
            self._inner = None
            self._ledger._end()

    def insert_many(self, table: str, rows: Iterable[Any]) -> int:
        hold_own(f"insert {table}")
        return int(self._own().insert_many(table, rows))


def hold_own(line: str) -> None:
    """The tables of a border are the ledger's own."""
    if (table := line.split(" ", 2)[1]) in OWN:
        raise InvalidStatement(f"{table} is a table of the ledger's own: take another name")
