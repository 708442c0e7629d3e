"""`dragoonctl serve` over a ledger: the service of its last store, which makes the next one when it is time, and asks all of them.

The config file is that of a store, but STORE is the ledger's folder, and ID and BOOK are the ledger's. Lines without a moment go to the
program at once; a question across stores is asked in a thread. Before the next store is made, sessions may end; lines wait meanwhile.
"""
from __future__ import annotations

import asyncio
import dataclasses
import io
import json
import os
import time
from typing import Any, Callable, List, Optional

from ..errors import Error, Refused, refusal
from ..formats import Store, Transaction
from ..language import values
from ..ops.conf import Conf, ConfError
from ..ops.connection import SESSIONS
from ..ops.files import look_at
from ..ops.run import Answer
from ..ops.serve import Contents, Service, in_thread
from ..ops.state import changing, load, write
from ..ops.watch import Watch, tell
from ..transport import Lines
from . import folder as folders
from .asking import AS_OF, Across
from .border import CARRIED, FIRST, Mark
from .border import Contents as Tables
from .database import Ledger, due

ENDS = {b"scan": "rows", b"history": "versions", b"over": "pieces"}


def last_of(conf: Conf) -> Conf:
    """The config file of the last store. If STATE is of a closed one, it goes on with the last one, unless a book isn't what it was."""
    folder = folders.read(conf.store)
    ours, theirs = ([os.path.realpath(it) for it in has] for has in (folder.books, conf.books))
    if folder.id != conf.id or ours != theirs:
        raise ConfError(f"{conf.path}: ID and BOOK aren't those of {conf.store}/{folders.CONF}")
    member = folder.members[-1]
    last = dataclasses.replace(conf, store=member.path, id=member.header.id)
    try:
        kept = json.loads(conf.file("json").read_text(encoding="utf-8"))["id"]
    except (OSError, ValueError, KeyError, TypeError):
        return last
    if kept in range(folder.id, last.id):
        with changing(dataclasses.replace(conf, id=kept)) as state:
            assert state is not None
            for device, path in last.devices.items():
                was_wrong, _ = look_at(device, path, kept, state.books.get(device, {}))
                wrong, front = look_at(device, path, last.id, {})
                if wrong or device != "store" and was_wrong:
                    raise Error((wrong or was_wrong)[0].what)
                state.keep(device, front or {})
            state.id = last.id
            write(last, state)
    return last


class OfRun:
    """The last store, or a session there, as a thread asks it."""

    def __init__(self, service: "LedgerService", front: bytes = b"") -> None:
        self._service, self._front = service, front

    async def _asked(self, line: bytes) -> str:
        answer = Answer()
        await self._service.turn(len(self._front + line))
        self._service.run.send(self._front + line, line.split(b" ", 1)[0], answer)
        return await answer.text

    def _reply(self, line: str) -> str:
        asked = self._asked(line.encode())
        reply = asyncio.run_coroutine_threadsafe(asked, self._service.loop).result()
        if reply.startswith("refused "):
            raise refusal(reply, line)
        return reply

    _ask = _reply

    def _rows(self, line: str, end: str, make: Callable[[str], Any]) -> List[Any]:
        read = Lines(io.BytesIO(self._reply(line).encode() + b"\n").read).line
        *rows, _ = iter(lambda: read().decode(), "")
        return [make(row) for row in rows]


class Asking(Across):
    """Questions of a service."""

    def __init__(self, service: "LedgerService") -> None:
        super().__init__(service.conf.program or None, None)
        self._run = OfRun(service)

    def _of(self, member: Any, ask: Any, own: Any) -> Any:
        return super()._of(member, ask, own or self._run)


class LedgerService(Service):
    def __init__(self, conf: Conf, watch: Watch, filing: float, auditing: float) -> None:
        super().__init__(conf, watch, filing, auditing)
        self.loop, self._folder = asyncio.get_running_loop(), os.path.dirname(conf.store)
        self._asking, self._mark = Asking(self), FIRST
        self._work: Optional[Callable[[Ledger], Any]] = None  # what needs the ledger without a run
        self._take_over()
        has = self._asking.folder
        self.hello = f"hello id {has.id} epoch {has.epoch}"

    def _take_over(self) -> None:
        """Goes on with the last store."""
        has = self._asking.folder = folders.read(self._folder)
        self.conf = last_of(dataclasses.replace(self.conf, store=self._folder, id=has.id))
        self.watch.conf = self.conf
        self.watch.state = load(self.conf) or self.watch.state
        self.contents, self._asking.contents = Contents(self.conf.store), Tables(has.members[-1])
        for path in set(self.files) - {self.conf.store, *self.books}:
            self.files.pop(path).close()
        if self.conf.store not in self.files:
            self.files[self.conf.store] = open(self.conf.store, "rb")

    # ---- runs

    async def _begin_run(self) -> None:
        if self._work:
            await in_thread(self._execute, self._work)
            self._work = None
        await super()._begin_run()
        if self._asking.member.number > 1:
            row = (await self.run.ask(f"scan {CARRIED}".encode())).split("\n")[0]
            self._mark = Mark(*values(row[4:]))  # type: ignore[arg-type]

    def _execute(self, work: Callable[[Ledger], Any]) -> None:
        self.watch.save()
        with Ledger(self._folder, False, self.conf.program or None) as ledger:
            work(ledger)
        self._take_over()
        tell(self.conf, "", f"{os.path.basename(self.conf.store)} is the last store")

    def _is_used_up(self, length: int) -> bool:
        has, now = self._asking.folder, int(time.time()) - self._asking.folder.epoch
        level = due(has, self._mark, now)
        if level == 2 or level and self.free.qsize() == SESSIONS:
            self._work = Ledger.roll
        return self._work is not None or super()._is_used_up(length)

    async def _tend(self, line: bytes) -> str:
        """Files a closed store to its end, too, when no session is open."""
        closed = self._asking.folder.members[-2:-1]
        if line == b"notarize" and closed and self.free.qsize() == SESSIONS:
            item = (await in_thread(Store.read, closed[0].path)).last_item
            if isinstance(item, Transaction):
                self._work = Ledger.notarize
                await self.turn(0)
        return await super()._tend(line)

    # ---- questions

    def is_across(self, verb: bytes, line: bytes) -> bool:
        is_past = verb in (b"get", b"scan") and AS_OF.fullmatch(line.decode(errors="replace"))
        return self._asking.member.number > 1 and (bool(is_past) or verb in (b"history", b"over"))

    async def across(self, session: Optional[int], line: bytes) -> str:
        own = None if session is None else OfRun(self, b"s%d " % session)
        return str(await in_thread(self._answer, own, line))

    def _answer(self, own: Optional[OfRun], line: bytes) -> str:
        try:
            asked, end = line.decode(), ENDS.get(line.split(b" ", 1)[0])
            if not end:
                return self._asking.reply(asked, own)
            rows = list(self._asking.replies(asked, f"{end} ", str, own))
            return "\n".join([*rows, f"{end} {len(rows)}"])
        except UnicodeDecodeError:
            return "refused Syntax"
        except Refused as why:
            return f"refused {why.name} {why.detail}".rstrip(" ")

    def told(self, reply: str) -> str:
        offset, number = self._asking.member.offset, self._mark.before - self._mark.transactions
        shifts = {"ok": number, "Conflict": number, "ClockBack": offset, "at": offset}
        words = reply.split(" ")
        for at, word in enumerate(words[:-1], 1):
            if word in shifts and words[at].isdigit():
                words[at] = str(int(words[at]) + shifts[word])
        return " ".join(words)
