"""A connection: `Database` (see `dragoon.database`) over a run of one's own, or over a service.

**Threads.** Any number of threads may share a connection: each statement is one exchange under a lock, and each session belongs to its caller. A
`Session` and a `Rows` are for one thread each. Statements of one connection are executed one after the other, so threads gain no parallel
writes; a batch (`insert_many`) holds the connection until it is done. From asyncio call it by `asyncio.to_thread`. After a fork the
connection is the parent's: the child connects again.
"""
from __future__ import annotations

import contextlib
import os
import subprocess
import threading
import time
import weakref
from collections import deque
from typing import Any, Callable, Iterable, Iterator, Optional, Sequence, TypeVar, Union

from . import language
from .errors import Conflict, Error, Fault, InvalidStatement, Refused, refusal
from .arguments import checked
from .database import Database, Loaded, Moment, Rows, Session
from .formats import Header
from .kinds import Table, hint
from .language import Report, fits, name, row_values
from .loading import MOST_ROWS, Loading, batches
from .transport import Pipe, Socket, Stderr, fault_of, find_program

T = TypeVar("T")
Path = Union[str, "os.PathLike[str]"]
SESSIONS = 16
LONGEST_SESSION = MOST_ROWS * 65_536  # bytes of input
PATIENCE = 30.0  # seconds for which a session waits until it may begin


class Answer(Rows[T]):
    """Rows as they come. Another statement on the connection first reads what is left of them into memory."""

    def __init__(
        self, connection: "Connection", line: str, end: str, make: Callable[[str], T]
    ) -> None:
        self._connection, self._line, self._end, self._make = connection, line, end, make
        self._kept: deque[str] = deque()
        self._is_done = False
        with connection._exchange():
            connection._send(line)
            connection._reading = self
            self._take()  # so a refusal is raised by the call that asked

    def _take(self) -> bool:
        """Reads a line more; False if it was the last one."""
        try:
            line = self._connection._reply(self._line)
        except BaseException as why:
            self._stop()
            if not isinstance(why, Error):
                self._connection._cut_off(why)
            raise
        if line.startswith(self._end):
            self._stop()
        else:
            self._kept.append(line)
        return not self._is_done

    def _stop(self) -> None:
        self._is_done, self._connection._reading = True, None

    def drain(self) -> None:
        while not self._is_done:
            self._take()

    def __next__(self) -> T:
        if not self._kept:
            with self._connection._lock:
                if not self._kept and (self._is_done or not self._take()):
                    raise StopIteration
        return self._make(self._kept.popleft())


class Conversation(Session):
    """A session of a connection."""

    def __init__(self, connection: "Connection") -> None:
        self._connection = connection
        self._number: int | None = None

    @property
    def _database(self) -> Database:
        return self._connection

    @property
    def is_open(self) -> bool:
        return self._number is not None

    def _ask(self, line: str) -> str:
        return self._connection._ask(self._named(line))

    def _rows(self, line: str, end: str, make: Callable[[str], T]) -> Rows[T]:
        return self._connection._rows(self._named(line), end, make)

    def _named(self, line: str) -> str:
        if self._number is None:
            raise Error("this session has ended, or has not begun")
        return fits(f"s{self._number} {line}")

    def begin(self) -> None:
        if self._number is not None:
            raise Error("this session has begun already")
        (self._number,) = self._connection._take_sessions()
        try:
            self._ask("begin")
        except BaseException:
            self._end()
            raise

    def commit(self) -> int | None:
        try:
            self.transaction = self._write("commit")
        except (Conflict, Fault):
            self._end()
            raise
        self._end()
        return self.transaction

    def abort(self) -> None:
        try:
            self._ask("abort")
        finally:
            self._end()

    def _end(self) -> None:
        if self._number is not None:
            self._connection._give_sessions([self._number])
        self._number = None

    def insert_many(self, table: str, rows: Iterable[Any]) -> int:
        lines = [self._named(self._line("insert", table, row_values(row))) for row in rows]
        with self._connection._exchange():
            for start in range(0, len(lines), MOST_ROWS):
                piece = lines[start : start + MOST_ROWS]
                self._connection._send("\n".join(piece))
                if refused := self._connection._replies(piece):
                    refused[1].at = start + refused[0]
                    raise refused[1]
        return len(lines)


class Connection(Database):
    """A database over a run of its own, or a service."""

    def __init__(
        self, transport: Pipe | Socket, id: int = 0, epoch: int = 0, scripted: bool = False
    ) -> None:
        self._transport, self.id, self.epoch = transport, id, epoch
        self._is_scripted, self._now = scripted, None  # type: bool, Optional[int]
        self._reading: Answer[Any] | None = None
        self._ended: Error | None = None
        self._is_spelling, self._is_closed, self._most = False, False, MOST_ROWS
        self.tables: dict[str, Table] = {}
        self._free = list(range(SESSIONS))
        self._new_lock()
        _CONNECTIONS.add(self)

    def _new_lock(self) -> None:
        self._lock = threading.RLock()
        self._session_ended = threading.Condition(self._lock)

    # ---- exchanges

    @contextlib.contextmanager
    def _exchange(self) -> Iterator[None]:
        """Holds the connection. What is cut off, as by KeyboardInterrupt, ends it: no one knows any more which reply is whose."""
        with self._lock:
            try:
                yield
            except Error:
                raise
            except BaseException as why:
                self._cut_off(why)
                raise

    def _cut_off(self, why: BaseException) -> None:
        self._ended = self._ended or Error(f"the connection was cut off by {type(why).__name__}")

    def _send(self, text: str) -> None:
        """Sends lines, of which the last one has no end yet."""
        self._hold_open()
        if self._is_spelling:
            raise Error("the rows of a batch may not ask its connection: make a list of them first")
        if self._reading:
            self._reading.drain()
        data = text.encode() + b"\n"
        if not self._transport.has_room(len(data)):
            if len(self._free) < SESSIONS:
                raise Error("this run takes no more input: end all sessions, so another can start")
            self._reopen()
        self._transport.write(data)

    def _hold_open(self) -> None:
        if self._ended:
            raise self._ended.with_traceback(None)

    def _reopen(self) -> None:
        """Starts another run, since one takes so much input and no more. No session is open."""
        assert isinstance(self._transport, Pipe)
        if self._reading:
            self._reading.drain()
        self._transport.close()
        self._transport.open()
        if self._now is not None:
            self._transport.write(b"now %d\n" % self._now)
            self._reply(f"now {self._now}")

    def _reply(self, line: str) -> str:
        """A line of the reply to a line. A refusal is raised, and so is a fault, which ends the connection."""
        return self._taken(self._read(), line)

    def _read(self) -> bytes:
        if self._ended:
            self._hold_open()
        return self._transport.read()

    def _taken(self, data: bytes, line: str) -> str:
        reply = data.decode(errors="replace")
        if reply.startswith("refused "):
            raise refusal(reply, line, self._hint(reply, line))
        if not data or reply.startswith("fault "):
            self._ended = self._transport.fault(reply)
            raise self._ended
        return reply

    def _hint(self, reply: str, line: str) -> str:
        name, _, detail = reply[len("refused ") :].partition(" ")
        if name == "ClockBack":
            with contextlib.suppress(Error):
                return f"that is {self.date(int(detail.split(' ')[0]))}"
        return hint(name, detail.split(" ")[0], line, self.tables)

    def _ask(self, line: str) -> str:
        with self._exchange():
            self._send(fits(line))
            return self._reply(line)

    def _rows(self, line: str, end: str, make: Callable[[str], T]) -> Rows[T]:
        return Answer(self, fits(line), end, make)

    def _replies(self, lines: Sequence[str]) -> tuple[int, Refused] | None:
        """Reads a reply of one line for each of these, and answers the first one that was refused, with its place."""
        first: tuple[int, Refused] | None = None
        for at, line in enumerate(lines):
            data = self._read()
            if data != b"ok":
                try:
                    self._taken(data, line)
                except Refused as refused:
                    first = first or (at, refused)
        return first

    # ---- moments and rows

    def clock(self) -> int | None:
        if self._is_scripted:
            return self._now
        return int(time.time()) - self.epoch

    def now(self, moment: Moment) -> None:
        when = self.moment(moment)
        self._ask(f"now {when}")
        self._now = when

    # ---- sessions

    def session(self) -> Session:
        return Conversation(self)

    def _may_begin(self) -> bool:
        """Whether a session is free. Near the end of a run's input none begins until all have ended, and another run can start."""
        return bool(self._free) and (self._has_room_for_session() or len(self._free) == SESSIONS)

    def _has_room_for_session(self) -> bool:
        return self._transport.has_room(LONGEST_SESSION)

    def _take_sessions(self, most: int = 1) -> list[int]:
        with self._session_ended:
            if not self._session_ended.wait_for(self._may_begin, PATIENCE):
                raise Error(f"no session is free, and none has ended for {PATIENCE:.0f} seconds")
            if not self._has_room_for_session():
                self._reopen()
            taken, self._free = self._free[:most], self._free[most:]
            return taken

    def _give_sessions(self, numbers: Sequence[int]) -> None:
        with self._session_ended:
            self._free += numbers
            self._session_ended.notify_all()

    # ---- batches

    def _many(self, verb: str, table: str, rows: Iterable[Any], most: int) -> Loaded:
        front, declared = f"{verb} {name(table)} ", self.tables.get(table)
        stored = declared.stored if declared and declared.converts else None
        loading = Loading(self, batches(front, rows, min(most, self._most), stored))
        with self._exchange():
            loaded = loading.run()
        if loading.failed:
            if isinstance(loading.failed, InvalidStatement):
                loading.failed.stored = loaded.rows
            raise loading.failed
        return loaded

    # ---- the notary

    def analyse(
        self, algorithm: str = "a3d", kappa: int | None = None, era: int | None = None
    ) -> Report:
        words = [algorithm] + ([] if kappa is None else [f"{kappa:d}"])
        line = " ".join(["analyse", *words] + ([] if era is None else [f"era {era:d}"]))
        with self._exchange():
            self._send(line)
            lines = [self._reply(line)]
            while not language.report_ends(lines[0], lines[-1], len(lines)):
                lines.append(self._reply(line))
        return language.report("\n".join(lines) + "\n")

    # ---- the end

    def close(self) -> None:
        with self._lock:
            self._ended = self._ended or Error("the connection is closed")
            if not self._is_closed:
                self._is_closed, self._reading = True, None
                self._transport.close()


_CONNECTIONS: "weakref.WeakSet[Connection]" = weakref.WeakSet()


def _after_fork() -> None:
    """In the child of a fork: the runs are the parent's."""
    for it in list(_CONNECTIONS):
        it._ended = Error("this connection is of the process before the fork")
        it._is_closed = True
        it._new_lock()
        it._transport.forget()


if hasattr(os, "register_at_fork"):
    os.register_at_fork(after_in_child=_after_fork)


@checked
def connect(
    store: Path | None = None,
    id: int | None = None,
    notary: Path | Sequence[Path] = (),
    program: str | None = None,
    *,
    socket: Path | None = None,
    scripted: bool = False,
    stderr: Stderr = None,
) -> Database:
    """Opens a store by a run of its own, or a connection to a service by `socket`.

    `notary` is the path of a book, or a list of them. `id` is that of the store's header if none is given. `program` is `dragoon` on the PATH,
    or what DRAGOON names. With `scripted` the moments are those that `now` sets. The program writes notes for people to `stderr`, as of
    `subprocess.Popen`.
    """
    if (store is None) == (socket is None):
        raise InvalidStatement("name a store, or a socket, and not both")
    if socket is not None:
        return _connect_service(Socket(os.fspath(socket)), id)
    assert store is not None
    store = os.fspath(store)
    header = Header.of_file(store)
    if id is not None and header.id != id:
        raise Fault("NotAStore", 4, f"{store} has the id {header.id}, and not {id}")
    given = [notary] if isinstance(notary, (str, os.PathLike)) else notary
    books = [book for path in given for book in os.fspath(path).split(",")]
    if "" in books:
        raise InvalidStatement("the path of a book is empty: they have commas between them")
    return run_of(store, header, books, scripted, program, stderr)


def run_of(
    store: str,
    header: Header,
    books: Sequence[str],
    scripted: bool,
    program: str | None,
    stderr: Stderr,
) -> Connection:
    """A connection over a run of one's own."""
    words = [find_program(program), f"store={store}"] + [f"notary={','.join(books)}"] * bool(books)
    words += ["run", str(header.id)] + ["scripted"] * scripted
    pipe = Pipe(words, [store, *books], stderr)
    return Connection(pipe, header.id, header.epoch, scripted)


def _connect_service(service: Socket, id: int | None) -> Connection:
    made = Connection(service)
    try:
        words = made._ask(".hello").split(" ")
        told = dict(zip(words[1::2], words[2::2]))
        made.id, made.epoch, made._most = (int(told[it]) for it in ("id", "epoch", "operations"))
    except (KeyError, ValueError):
        raise Error(f"what answers at {service.path} is no service of dragoon") from None
    if id not in (None, made.id):
        said = f"the store of {service.path} has the id {made.id}, and not {id}"
        raise Fault("NotAStore", 4, said)
    return made


@checked
def make(
    store: Path,
    id: int,
    granule: int = 60,
    exponent: int = 3,
    algorithms: str = "ta",
    program: str | None = None,
    stderr: Stderr = None,
) -> None:
    """Makes an empty store that begins now: granules of so many seconds, and 2^exponent of them to a tile."""
    words = [f"store={os.fspath(store)}", "init", str(id), str(granule), str(exponent), algorithms]
    call = [find_program(program), *words]
    done = subprocess.run(call, stdout=subprocess.PIPE, stderr=stderr, text=True)
    if done.returncode:
        raise fault_of(done.stdout.strip(), done.returncode, [os.fspath(store)])
