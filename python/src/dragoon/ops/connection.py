"""One connection to the service: its lines, its sessions, and what it may."""
from __future__ import annotations

import asyncio
import time
from collections import deque
from dataclasses import dataclass
from typing import TYPE_CHECKING, AsyncIterator, Deque, Dict, List, Optional, Tuple

from ..errors import refusal
from ..language import literal
from .rights import NEEDS, peer_of
from .run import LAST, Asker, RunEnded

if TYPE_CHECKING:
    from .serve import Service

LONGEST_LINE, SESSIONS = 65_536, 16
READER_WAIT = 60.0  # seconds in which whoever is connected reads something, or is closed
UNREAD = 1 << 16  # bytes of replies that may wait, before no more lines are taken
# what one connection may have in progress in the program: a line counts 1, one that stores 16, and 1 more for each KiB
LOAD, STORES = 256, 16
WRITES = {b"insert", b"update", b"delete", b"create"}
OF_SESSIONS = {b"begin", b"commit", b"abort"}
OF_NOTARY = {b"notarize", b"validate", b"audit", b"policy", b"analyse"}
NAMES = {b"s%d" % at for at in range(SESSIONS)}
WHO = b"dragoon_who"
OWN = {b".hello", b".verbose", b".metrics", b".tables", b".columns"}


@dataclass
class Session:
    """A session: its name on the connection, its number in the run, and what is known of it."""

    name: bytes
    number: int
    is_open: bool = False
    in_progress: int = 0
    stores: bool = False
    has_who: bool = False
    last: float = 0.0

    def note(self, verb: bytes, reply: bytes) -> None:
        """Keeps what a reply says of it."""
        self.last = time.monotonic()
        if reply.startswith(b"refused "):
            if reply.startswith((b"refused NoSession", b"refused Conflict")):
                self.is_open = False
        elif verb == b"begin":
            self.is_open, self.stores, self.has_who = True, False, False
        elif verb in OF_SESSIONS:
            self.is_open = False
        elif verb in WRITES:
            self.stores = True


async def lines_of(reader: asyncio.StreamReader) -> AsyncIterator[List[bytes]]:
    """The lines that came together. What has no end is none, and of a line that is too long no more is kept than shows this."""
    rest = b""
    while data := await reader.read(1 << 16):
        *whole, rest = (rest + data).split(b"\n")
        lines = [it[:-1] if it.endswith(b"\r") else it for it in whole]
        yield [it for it in lines if it.strip(b" ") and not it.startswith(b"#")]
        rest = rest[: LONGEST_LINE + 2]


def unquoted(said: str) -> str:
    """The same without a quote, since a line goes on until its quotes are closed.

    >>> unquoted("the column's kind")
    'the column’s kind'
    """
    return said.replace("'", "’")


class Connection(Asker):
    def __init__(
        self, service: Service, reader: asyncio.StreamReader, writer: asyncio.StreamWriter
    ) -> None:
        self.service, self.reader, self.writer = service, reader, writer
        self.transport: asyncio.WriteTransport = writer.transport
        self.peer = peer_of(writer.get_extra_info("socket"))
        self.rights = service.rights.of(self.peer)
        self.sessions: Dict[bytes, Session] = {}  # by the connection's own names
        self.is_verbose = False
        self.why: Optional[RunEnded] = None
        self._in_progress: Deque[Tuple[Optional[Session], int]] = deque()
        self._load, self._woken = 0, asyncio.Event()
        self._out: List[bytes] = []

    async def serve(self) -> None:
        """Takes one line after the other, until whoever is connected has said all. Sessions that are open then are aborted."""
        try:
            async for lines in lines_of(self.reader):
                self.service.check_paths()
                for line in lines:
                    await self._take(line)
            await self._until(0)
            await self._are_read(0)
        finally:
            await self._until(0)
            numbers = [it.number for it in self.sessions.values()]
            if numbers:
                await self.service.ask(*(b"s%d abort" % it for it in numbers))
            self.forget_sessions()

    # ---- lines

    async def _take(self, line: bytes) -> None:
        name, _, rest = line.strip(b" ").partition(b" ")
        if name not in NAMES or not rest:
            name, rest = b"", line.strip(b" ")
        rest = rest.strip(b" ")
        verb, _, more = rest.partition(b" ")
        right = NEEDS.get(verb)
        is_own = verb in OF_NOTARY or verb.startswith(b".")
        if right is None or len(line) > LONGEST_LINE or is_own and name:
            await self._say("refused Syntax")
        elif right and right not in self.rights:
            await self._say(f"refused NotAllowed {right}")
        elif verb in WRITES and more.split(None, 1)[:1] == [WHO]:
            await self._say(f"refused NotAllowed write {WHO.decode()}")
        elif is_own:
            await self._until(0)
            own = self._own(verb, rest) if verb in OWN else self.service.own(verb, rest)
            await self._say(await own)
        elif self.service.conf.has_who and verb in WRITES and not name:
            await self._until(0)
            await self._say(await self._store_with_who(rest))
        elif self.service.is_across(verb, rest):
            session = self.sessions.get(name)
            await self._until(0)
            if name and not session:
                return await self._say("refused NoSession")
            await self._say(await self.service.across(session.number if session else None, rest))
        else:
            await self._hand(name, verb, rest)

    async def _hand(self, name: bytes, verb: bytes, line: bytes) -> None:
        """Hands a line on to the program, once it has room for it. Until the reply its session keeps its number."""
        session, number = self.sessions.get(name), None
        if name and not session:
            if verb == b"begin":
                number = await self.service.allot()
            if number is None:
                return await self._say("refused " + ("Busy" if verb == b"begin" else "NoSession"))
            session = self.sessions[name] = Session(name, number, last=time.monotonic())
        if session:
            session.in_progress += 1
            if verb == b"commit" and (refused := await self._put_who(session)):
                self._leave(session)
                return await self._say(refused)
        weight = 1 + len(line) // 1_024
        if verb == b"commit" or verb in WRITES and not name:
            weight += STORES
        await self._until(LOAD - weight)
        await self._are_read(UNREAD)
        if verb in LAST:
            await self.service.long.acquire()
        await self.service.turn(len(line))
        if session and self.sessions.get(name) is not session:  # another run has begun meanwhile
            if verb in LAST:
                self.service.long.release()
            again = self._hand(name, verb, line) if verb == b"begin" else None
            return await (again or self._say("refused NoSession"))
        if session:
            line = b"s%d %s" % (session.number, line)
        self._in_progress.append((session, weight))
        self._load += weight
        self.service.run.send(line, verb, self)

    def _leave(self, session: Session) -> None:
        """Gives back the number of a session that is over."""
        session.in_progress -= 1
        if not session.is_open and not session.in_progress:
            if self.sessions.get(session.name) is session:
                self.forget_sessions(session)

    # ---- replies

    def replied(self, verb: bytes, piece: bytes, is_last: bool) -> None:
        if is_last:
            session, weight = self._in_progress.popleft()
            self._load -= weight
            self._woken.set()
            if session:
                session.note(verb, piece)
                self._leave(session)
            if verb in LAST:
                self.service.long.release()
            self.service.count(piece)
            if piece.startswith((b"refused ", b"ok ")):
                piece = self._told(piece[:-1].decode()).encode() + b"\n"
        self._write(piece)

    def ended(self, why: RunEnded) -> None:
        if not self.why:
            self.why, self._load = why, 0
            said = why.said if why.said.startswith("fault ") else f"fault {why.said}"
            self._write(unquoted(said).encode() + b"\n")
            self._woken.set()

    async def _until(self, load: int) -> None:
        """Waits until no more than this of the connection is in progress in the program."""
        while self._load > load:
            self._woken.clear()
            await self._woken.wait()
        if self.why:
            raise self.why

    async def _say(self, reply: str) -> None:
        """A reply that the service gives itself, after all those before it."""
        await self._until(0)
        self.service.count(reply.encode())
        self._write(self._told(reply).encode() + b"\n")

    def _told(self, reply: str) -> str:
        """A reply as this client gets it: if it wants so, a refusal with its reason and a commit with its moment."""
        if reply.startswith("refused "):
            reply = self.service.told(reply)
            return f"{reply} # {unquoted(refusal(reply).reason)}" if self.is_verbose else reply
        if reply.startswith("ok ") and self.is_verbose:
            reply = f"{reply} at {self.service.contents.moment(int(reply[3:]))}"
        return self.service.told(reply) if reply.startswith("ok ") else reply

    def _write(self, data: bytes) -> None:
        if not self._out:
            asyncio.get_running_loop().call_soon(self.flush)
        self._out.append(data)

    def flush(self) -> None:
        data, self._out = b"".join(self._out), []
        if data and not self.transport.is_closing():
            self.transport.write(data)
            self.service.limit_unread()

    async def _are_read(self, most: int) -> None:
        """Waits until at most so many bytes of replies are unread. Whoever reads nothing for a minute is closed."""
        self.flush()
        self.transport.set_write_buffer_limits(most)
        while (unread := self.transport.get_write_buffer_size()) > most:
            try:
                await asyncio.wait_for(self.writer.drain(), READER_WAIT)
            except asyncio.TimeoutError:
                if self.transport.get_write_buffer_size() >= unread:
                    self.transport.abort()
                    raise ConnectionResetError from None

    # ---- what the service does itself

    def forget_sessions(self, *those: Session) -> None:
        """Gives back the numbers of these sessions, or of all."""
        for it in those or tuple(self.sessions.values()):
            del self.sessions[it.name]
            self.service.free.put_nowait(it.number)

    async def _own(self, verb: bytes, line: bytes) -> str:
        if verb == b".hello":
            may, most = ",".join(sorted(self.rights)), 256 - self.service.conf.has_who
            account = unquoted(self.peer.account)
            return f"{self.service.hello} operations {most} account {account} may {may}"
        if verb == b".verbose":
            self.is_verbose = True
            return "ok"
        if verb == b".metrics":
            return self.service.metrics()
        tables = await self.service.contents.tables()
        if verb == b".tables":
            return " ".join(["tables", *sorted(tables)])
        columns = tables.get(line[len(verb) :].strip().decode(errors="replace"))
        if columns is None:
            return "refused NoTable"
        return " ".join(["columns", *(f"{name} {kind}" for name, kind in columns)])

    def _who(self, session: int) -> bytes:
        """The line that says within a session whose it is."""
        key = self.service.next_key()
        return b"s%d insert %s %d %s" % (session, WHO, key, literal(self.peer.account).encode())

    async def _put_who(self, session: Session) -> str:
        """Adds to a session whose it is, before it commits something. The answer is a refusal, or empty."""
        if not self.service.conf.has_who:
            return ""
        await self._until(0)
        if session.stores and not session.has_who:
            (reply,) = await self.service.ask(self._who(session.number))
            session.has_who = reply == "ok"
            return "" if session.has_who else reply
        return ""

    async def _store_with_who(self, line: bytes) -> str:
        """Stores a statement together with whose it is. Where others came in between it is tried again, as they would wait."""
        number = await self.service.allot()
        if number is None:
            return "refused Busy"
        front = b"s%d " % number
        try:
            while True:
                replies = await self.service.ask(front + b"begin", front + line, self._who(number))
                refused = next((it for it in replies if it != "ok"), None)
                reply = refused or (await self.service.ask(front + b"commit"))[0]
                if reply.startswith(("refused Conflict", "refused NoSession")):
                    continue
                if not reply.startswith("ok "):
                    await self.service.ask(front + b"abort")
                return reply
        finally:
            self.service.free.put_nowait(number)
