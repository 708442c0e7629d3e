"""Keeps one run of a store open for many connections, and files and audits between their lines.

A client connects to the socket STATE/NAME.socket and sends lines of a run (docs/COMMANDS.md). It gets the reply to each, in order.

- A session belongs to the connection that began it, and so do its names, s0 to s15. Sixteen can be open at once, of all connections together. A
  `begin` waits up to ten seconds for one, and one without a line for a minute is aborted if another client waits for it.
- What a client may do depends on its account (`dragoon.ops.rights`). docs/SETUP.md has the lines that it may send besides.
- With WHO=yes each commit has a row in the table `dragoon_who`, which counts as one of the 256 operations of a transaction.
- A client that doesn't read its replies delays no one else, and is disconnected after a minute.
- `validate` and `audit` repeat the last verdict while that is younger than a minute, since each adds a mark to the book.

The program executes one line after the other. The service ends with 1 or 10 if the store isn't what was filed, so that nothing
more is written to it; with 5 or 6 if a file isn't what it was, or if another one is at its path; with the program's status if that
ended; with 70 if STATE or the socket can't be used; and with 0 for SIGTERM and SIGINT.
"""
from __future__ import annotations

import asyncio
import contextlib
import os
import resource
import shutil
import signal
import stat
import sys
import time
from typing import Any, AsyncIterator, Dict, List, Optional, Tuple

from ..errors import Error
from ..formats import SEGMENT, Create, Header, Transaction, items_after
from ..transport import INPUT_LIMIT, Socket
from .alarms import ALTERED, CANNOT, NOTARY_FAULT, REFUSALS, STORE_FAULT, text_of
from .conf import Conf
from .connection import SESSIONS, WHO, Connection
from .rights import Rights
from .run import Run, RunEnded
from .state import alone
from .takeover import clear
from .watch import Ended, Watch, compared, essence, tell
from .whole import Busy

Columns = Tuple[Tuple[str, str], ...]
PATH_LIMIT, CONNECTIONS, UNREAD = 107, 256, 1 << 28  # bytes; of one account; bytes of all replies
SESSION_WAIT, IDLE, FRESH, STOPPING, PATIENCE = 10.0, 60.0, 60.0, 2.0, 60.0  # seconds
PAUSE = 0.05  # seconds between two pieces of an audit


class Contents:
    """What the store itself says of its tables, and of the moments of its last transactions."""

    def __init__(self, store: str) -> None:
        self._store, self._lock = store, asyncio.Lock()
        self._tables: Dict[str, Columns] = {}
        self._moments: Dict[int, int] = {}
        self._read, self._last = 0, max(0, os.path.getsize(store) // SEGMENT - 1) * SEGMENT

    def moment(self, transaction: int) -> Optional[int]:
        for item, self._last in items_after(self._store, self._last):
            if isinstance(item, Transaction):
                self._moments[item.number] = item.moment
        while len(self._moments) > 1 << 16:
            del self._moments[next(iter(self._moments))]
        return self._moments.get(transaction)

    async def tables(self) -> Dict[str, Columns]:
        """Reads what was stored since the last call, and lets others in every two milliseconds."""
        async with self._lock:
            begin = time.monotonic()
            for item, self._read in items_after(self._store, self._read):
                for it in item.operations if isinstance(item, Transaction) else ():
                    if isinstance(it, Create):
                        self._tables.setdefault(it.table, it.columns)
                if time.monotonic() > begin + 0.002:
                    await asyncio.sleep(0)
                    begin = time.monotonic()
        return self._tables


class Service:
    def __init__(self, conf: Conf, watch: Watch, filing: float, auditing: float) -> None:
        self.conf, self.watch, self.filing, self.auditing = conf, watch, filing, auditing
        header = Header.of_file(conf.store)
        self.hello = f"hello id {header.id} epoch {header.epoch}"
        self.rights, self.contents = Rights(conf), Contents(conf.store)
        self.books = watch.good_books()
        self.files = {path: open(path, "rb") for path in (conf.store, *self.books)}
        self.connections: Dict[Connection, Any] = {}
        self.free: asyncio.Queue[int] = asyncio.Queue()
        for number in range(SESSIONS):
            self.free.put_nowait(number)
        self.long = asyncio.Semaphore(1)  # for a line that may have a long reply
        self._is_open, self._alone = asyncio.Event(), asyncio.Lock()
        self._patience, self._key = 0.0, 0
        self.counts = {"lines": 0, "refused": 0, "conflicts": 0, "runs": 0}
        self.begun, self.verdict, self.verdict_at, self.sealed = time.monotonic(), "none", 0.0, -1
        self.stopped: asyncio.Future[Ended] = asyncio.get_running_loop().create_future()

    # ---- lines to the program

    async def _begin_run(self) -> None:
        self.counts["runs"] += 1
        call = self.conf.call("run", str(self.conf.id), *["grouped"] * self.conf.is_grouped)
        call[2] = f"notary={','.join(self.books)}"
        self.run = Run(self.end)
        await self.run.open(call, self.conf.environment)

    async def turn(self, length: int) -> None:
        """Waits until the program can take a line. It takes so much input, and no more: then another run is begun."""
        while not self._is_open.is_set() or self._is_used_up(length):
            await self._is_open.wait()
            if self._is_used_up(length):
                await self._renew(length)

    def _is_used_up(self, length: int) -> bool:
        are_sessions_open = self.free.qsize() < SESSIONS
        return self.run.sent + length + 8 > (INPUT_LIMIT if are_sessions_open else INPUT_LIMIT // 2)

    async def ask(self, *lines: bytes) -> List[str]:
        """The replies to lines of the service's own."""
        await self.turn(sum(map(len, lines)) + len(lines))
        return list(await asyncio.gather(*map(self.run.ask, lines)))

    @contextlib.asynccontextmanager
    async def _quiet(self) -> AsyncIterator[None]:
        """While the program has nothing to do, and gets nothing from others."""
        async with self._alone:
            self._is_open.clear()
            try:
                await self.run.idle()
                yield
            finally:
                if not self.stopped.done():
                    self._is_open.set()

    async def _renew(self, length: int) -> None:
        """Begins another run. Sessions that are open are dropped."""
        async with self._quiet():
            if self._is_used_up(length):
                for connection in self.connections:
                    connection.forget_sessions()
                status = await self.run.close()
                if status not in (0, 3):
                    raise RunEnded(status, f"fault the run ended with {status}")
                self.check_paths()
                self._patience = 0.0
                await self._begin_run()

    async def allot(self) -> Optional[int]:
        """The number of a session that is free, or None if none is in time. Before the program's input is used up a session that begins waits for
        those that are open, so that no one is dropped who ends soon."""
        while self.run.sent > INPUT_LIMIT // 4 * 3:
            self._patience = self._patience or time.monotonic() + SESSION_WAIT
            if self.free.qsize() == SESSIONS:
                await self.turn(0)
            elif time.monotonic() > self._patience:
                break
            await asyncio.sleep(0.01)
        with contextlib.suppress(asyncio.TimeoutError):
            return await asyncio.wait_for(self.free.get(), SESSION_WAIT)
        since = time.monotonic() - IDLE
        idle = [
            (it.last, it.number, connection, it.name)
            for connection in self.connections
            for it in connection.sessions.values()
            if it.last < since and not it.in_progress
        ]
        if not idle:
            return None
        _, number, connection, name = min(idle)
        del connection.sessions[name]
        await self.ask(b"s%d abort" % number)
        return number

    # ---- figures

    def count(self, reply: bytes) -> None:
        self.counts["lines"] += 1
        if reply.startswith(b"refused "):
            self.counts["refused"] += 1
            self.counts["conflicts"] += reply.startswith(b"refused Conflict")

    def limit_unread(self) -> None:
        """Disconnects the client with the most unread replies, if all of them together take too much memory."""
        sizes = {it: it.transport.get_write_buffer_size() for it in self.connections}
        if sum(sizes.values()) > UNREAD:
            max(sizes, key=lambda it: sizes[it]).transport.abort()

    def next_key(self) -> int:
        """A key for dragoon_who: microseconds of the clock, but more than the last one."""
        self._key = max(self._key + 1, time.time_ns() // 1_000)
        return self._key

    def metrics(self) -> str:
        pairs = {
            "connections": len(self.connections),
            "sessions": SESSIONS - self.free.qsize(),
            **self.counts,
            "input": self.run.sent,
            "uptime": int(time.monotonic() - self.begun),
            "sealed": self.sealed,
            "verdict": self.verdict.replace(" ", "_"),
            "alarms": len(self.watch.state.alarms),
        }
        return " ".join(["metrics", *(f"{key} {value}" for key, value in pairs.items())])

    # ---- the notary

    async def own(self, verb: bytes, line: bytes) -> str:
        """The reply to a client's line that files or validates."""
        is_fresh = self.verdict_at and time.monotonic() - self.verdict_at < FRESH
        return (
            self.verdict if is_fresh and line in (b"validate", b"audit") else await self._tend(line)
        )

    async def _tend(self, line: bytes) -> str:
        """Executes such a line alone, and saves how it ended. After a verdict `altered` nothing more is executed."""
        async with self._quiet():
            self.check_paths()
            command = line.split(b" ", 1)[0].decode().replace("audit", "validate")
            ended = None
            if command == "notarize":
                await self._look()
                ended = self.watch.clock_is_odd()
            reply = "refused ClockAhead" if ended else await self.run.ask(line)
            ended = ended or self.judged(command, reply)
            if ended.status in ALTERED:
                self.end(RunEnded(*ended[:2]))
            elif reply.startswith(("sealed ", "era ")):
                await self._look()
        if not reply.startswith(("auditing ", "refused Syntax", "refused NumberTooWide")):
            if command == "validate":
                await in_thread(compared, self.watch)
            self.watch.ended(command, ended)
            await in_thread(self.watch.save)
        return reply

    async def _look(self) -> None:
        """Compares the files with what was saved of them."""
        if wrong := await in_thread(self.watch.look):
            raise RunEnded(*wrong[:2])

    def judged(self, command: str, reply: str) -> Ended:
        """How a command ended that answers so."""
        words = reply.split("\n", 1)[0].split(" ")
        if words[0] == "refused":
            return Ended(REFUSALS.get(words[1], 0), reply)
        if command == "validate" and words[0] != "auditing":
            self.verdict, self.verdict_at = reply, time.monotonic()
            return Ended(int("altered" in words), reply, "unsealed" if reply == "unsealed" else "")
        if words[0] == "sealed":
            self.sealed = int(words[1])
        self.watch.expects_era = words[0] == "era"
        return Ended(0, essence(reply))

    def check_paths(self) -> None:
        """Ends the service if another file is at a path: the run stores in the one that was there."""
        for path, file in self.files.items():
            was = os.fstat(file.fileno())
            with contextlib.suppress(OSError):
                if os.path.samestat(os.stat(path), was):
                    continue
            said = f"another file than the run has open is at {path}, or none"
            if not was.st_nlink:  # it has no name any more
                kind = "store" if path == self.conf.store else "book"
                copy = self.conf.file(f"{kind}.{int(time.time())}")
                shutil.copyfile(f"/proc/self/fd/{file.fileno()}", copy)
                said += f": what it held is in {copy}"
            raise RunEnded(STORE_FAULT if path == self.conf.store else NOTARY_FAULT, said)

    # ---- a ledger of many stores (dragoon.ledger.serving)

    def is_across(self, verb: bytes, line: bytes) -> bool:
        """Whether a line asks about the past of several stores."""
        return False

    async def across(self, session: Optional[int], line: bytes) -> str:
        raise NotImplementedError

    def told(self, reply: str) -> str:
        """A commit's reply or a refusal, by the numbers and moments that clients know."""
        return reply

    async def _look_after(self) -> None:
        """Files and audits when that is due. An audit comes in pieces, and between them other lines are executed."""
        due = {b"notarize": 0.0, b"audit": time.monotonic() + self.auditing}
        while True:
            line = min(due, key=lambda it: due[it])
            if (wait := due[line] - time.monotonic()) > 0:
                await asyncio.sleep(min(1.0, wait))
                self.check_paths()
            else:
                reply = await self._tend(line)
                pause = self.filing if line == b"notarize" else self.auditing
                due[line] = time.monotonic() + (PAUSE if reply.startswith("auditing ") else pause)

    # ---- the service's life

    def end(self, why: RunEnded) -> None:
        if not self.stopped.done():
            self._is_open.clear()
            self.stopped.set_result(Ended(why.status, why.said))

    async def until_stopped(self) -> Ended:
        """Serves until something ends that."""
        await self._begin_run()
        await self._first()
        server = await listening(self.conf, self._connected)
        loop = asyncio.get_running_loop()
        for number in (signal.SIGTERM, signal.SIGINT):
            loop.add_signal_handler(number, self.end, RunEnded(0, "ended"))
        self._is_open.set()
        tending = asyncio.ensure_future(self._guarded(self._look_after()))
        try:
            return await self.stopped
        finally:
            tending.cancel()
            server.close()
            await self._close()
            self.conf.file("socket").unlink(missing_ok=True)

    async def _first(self) -> None:
        """Sees that the program has the store, and with WHO=yes that this has the table dragoon_who."""
        ask, row = self.run.ask, b"s0 insert %s 0 'a'" % WHO
        await ask(b"s0 begin")
        tried = await ask(row) if self.conf.has_who else "ok"
        await ask(b"s0 abort")
        if tried == "refused NoTable":
            await ask(b"create %s number int account text" % WHO)
        elif tried not in ("ok", "refused RowExists"):
            raise Error(f"the columns of {WHO.decode()} aren't number int account text")
        self.watch.ended("run", Ended(0, "open"))
        await in_thread(self.watch.save)

    async def _close(self) -> None:
        """Ends the connections after their replies, and the run."""
        with contextlib.suppress(RunEnded, asyncio.TimeoutError):
            await asyncio.wait_for(self.run.idle(), PATIENCE)
        for connection in self.connections:
            connection.reader.feed_eof()
        if self.connections:
            await asyncio.wait(self.connections.values(), timeout=STOPPING)
        for task in self.connections.values():
            task.cancel()
        await self.run.close()

    async def _guarded(self, work: Any) -> None:
        """Some work of the service. A fault of a file, STATE or the program ends the service, and a client that is gone does not."""
        try:
            await work
        except ConnectionError:
            pass
        except RunEnded as why:
            self.end(why)
        except (Error, OSError) as why:
            self.end(RunEnded(CANNOT, str(why)))

    async def _connected(self, reader: asyncio.StreamReader, writer: asyncio.StreamWriter) -> None:
        connection = Connection(self, reader, writer)
        count = sum(it.peer.uid == connection.peer.uid for it in self.connections)
        if not connection.rights or count >= CONNECTIONS:
            said = "Busy" if connection.rights else "NotAllowed connect"
            writer.write(f"refused {said}\n".encode())
            return writer.close()
        self.connections[connection] = asyncio.current_task()
        try:
            await self._guarded(connection.serve())
            if self.stopped.done() and self.stopped.result().status:
                connection.ended(RunEnded(*self.stopped.result()[:2]))
        finally:
            connection.flush()
            del self.connections[connection]
            writer.close()


async def in_thread(work: Any, *given: Any) -> Any:
    return await asyncio.get_running_loop().run_in_executor(None, work, *given)


async def listening(conf: Conf, connected: Any) -> asyncio.AbstractServer:
    """The socket. Every account may connect; what it may do then is another matter."""
    path = conf.file("socket")
    if len(os.fsencode(path)) > PATH_LIMIT:
        raise Error(f"the path of a socket has at most {PATH_LIMIT} bytes: use a shorter STATE")
    if path.exists() and not stat.S_ISSOCK(path.stat().st_mode):
        raise Error(f"{path.name} in STATE is no socket: see what it is")
    path.unlink(missing_ok=True)
    server = await asyncio.start_unix_server(connected, str(path), backlog=CONNECTIONS)
    os.chmod(path, 0o666)
    return server


async def served(kind: Any, conf: Conf, watch: Watch, filing: float, auditing: float) -> Ended:
    loop = asyncio.get_running_loop()
    loop.set_exception_handler(lambda _, it: print(f"dragoon: {it['message']}", file=sys.stderr))
    try:
        return await kind(conf, watch, filing, auditing).until_stopped()  # type: ignore[no-any-return]
    except RunEnded as why:
        busy = watch.busy()
        return Ended(why.status, busy or why.said, "busy" if busy else "")
    except (OSError, Error) as why:
        return Ended(CANNOT, str(why))


def serve(conf: Conf, filing: float = 3_600, auditing: float = 3_600) -> int:
    """Serves until it is asked to stop, or something is wrong. The answer is the status."""
    _, most = resource.getrlimit(resource.RLIMIT_NOFILE)
    resource.setrlimit(resource.RLIMIT_NOFILE, (most, most))
    kind: Any = Service
    try:
        if os.path.isdir(conf.store):
            from ..ledger import serving

            conf, kind = serving.last_of(conf), serving.LedgerService
        with alone(conf, PATIENCE):
            watch = Watch(conf)
            wrong = watch.look()
            watch.inspect()
            watch.save()
            ended = wrong or asyncio.run(served(kind, conf, watch, filing, auditing))
            if not ended.status:
                ended = watch.look() or ended
            is_told = ended.status in ALTERED or ended.answer in watch.seen.wrong.values()
            watch.ended("run", ended, is_told)
            watch.save()
            clear(conf)
    except (Error, OSError) as why:
        event = "late" if isinstance(why, Busy) else "state"
        tell(conf, event, text_of(conf.name, event, str(why)))
        return CANNOT
    return ended.status


def figures(conf: Conf) -> str:
    """How a service that is open does, for Prometheus."""
    asked = Socket(str(conf.file("socket")))
    asked.write(b".metrics\n")
    words = asked.read().decode().split(" ")
    asked.close()
    if words[0] != "metrics":
        raise Error(f"the service answers {' '.join(words) or 'nothing'}")
    pairs = [it for it in zip(words[1::2], words[2::2]) if it[1].lstrip("-").isdigit()]
    return "".join(f'dragoon_serve_{key}{{store="{conf.name}"}} {it}\n' for key, it in pairs)
