"""The program as a service holds it: lines go in as they come, and each reply goes to whoever asked, as it comes out.

Lines of all connections that came together are written together, so a program that stores them in groups (`run ID grouped`)
has them at hand. A reply line ends outside quotes: a text that an intruder stored may hold line feeds, and shifts no reply.
A reply of many lines is handed on in the pieces in which it comes, and no line of it is looked at but the last.
"""
from __future__ import annotations

import asyncio
import contextlib
import fcntl
from collections import deque
from typing import Any, Callable, Deque, Dict, List, Optional, Tuple

from ..language import report_ends

F_SETPIPE_SZ, PIPE = 1031, 1 << 20
LAST = {b"scan": b"\nrows ", b"history": b"\nversions ", b"over": b"\npieces "}
CLOSING = 60.0  # seconds for which the program may end by itself


class RunEnded(Exception):
    """Nothing more is carried out: a status, and the words that say why."""

    def __init__(self, status: int, said: str) -> None:
        super().__init__(status, said)
        self.status, self.said = status, said


class Asker:
    """Whoever sent a line. `replied` gets the reply in pieces, and with `ended` none comes any more."""

    def replied(self, verb: bytes, piece: bytes, is_last: bool) -> None:
        raise NotImplementedError

    def ended(self, why: RunEnded) -> None:
        raise NotImplementedError


class Answer(Asker):
    """The reply to a line of the service's own, as a text without its last line's end."""

    def __init__(self) -> None:
        self.text: asyncio.Future[str] = asyncio.get_running_loop().create_future()
        self._pieces: List[bytes] = []

    def replied(self, verb: bytes, piece: bytes, is_last: bool) -> None:
        self._pieces.append(piece)
        if is_last and not self.text.done():
            self.text.set_result(b"".join(self._pieces)[:-1].decode(errors="replace"))

    def ended(self, why: RunEnded) -> None:
        if not self.text.done():
            self.text.set_exception(why)


class Run(asyncio.SubprocessProtocol):
    """One process of the program, and the lines whose replies are still to come, in order."""

    def __init__(self, when_ended: Callable[[RunEnded], None]) -> None:
        self.sent, self._when_ended = 0, when_ended
        self.why: Optional[RunEnded] = None
        self._waiting: Deque[Tuple[bytes, Asker]] = deque()
        self._is_idle, self._over, self._is_closing = asyncio.Event(), asyncio.Event(), False
        self._rest, self._is_within, self._odd = b"", False, 0
        self._handed: List[bytes] = []
        self._report: List[str] = []

    async def open(self, call: List[str], environment: Dict[str, str]) -> None:
        """Starts the program, in a session of its own: Ctrl-C at a terminal is for the service."""
        more: Any = {"stderr": None, "env": environment, "start_new_session": True}
        loop = asyncio.get_running_loop()
        self.process, _ = await loop.subprocess_exec(lambda: self, *call, **more)
        pipes: Any = self.process.get_pipe_transport
        with contextlib.suppress(OSError):
            fcntl.fcntl(pipes(1).get_extra_info("pipe"), F_SETPIPE_SZ, PIPE)
        self._input: asyncio.WriteTransport = pipes(0)
        self._is_idle.set()

    # ---- lines

    def send(self, line: bytes, verb: bytes, asker: Asker) -> None:
        if self.why:
            raise self.why
        self._waiting.append((verb, asker))
        self._is_idle.clear()
        self.sent += len(line) + 1
        if not self._handed:
            asyncio.get_running_loop().call_soon(self._write)
        self._handed.append(line)

    def ask(self, line: bytes) -> asyncio.Future[str]:
        """The reply to a line of no session."""
        answer = Answer()
        self.send(line, line.split(b" ", 1)[0], answer)
        return answer.text

    def _write(self) -> None:
        """Hands on what has come since the last time, by one write."""
        data, self._handed = b"\n".join(self._handed) + b"\n", []
        if not self._input.is_closing():
            self._input.write(data)

    async def idle(self) -> None:
        """Waits until all that was sent is replied to."""
        await self._is_idle.wait()
        if self.why:
            raise self.why

    # ---- replies

    def pipe_data_received(self, fd: int, data: bytes) -> None:
        try:
            self._feed(b"\n" + self._rest + data)
        except ValueError as why:
            self._rest = f"fault {why}".encode()
            self.process.kill()

    def connection_lost(self, why: Optional[Exception]) -> None:
        """Nothing more comes, and the program has ended."""
        status = self.process.get_returncode() or 0
        status = status if status >= 0 else 128 - status
        said = self._rest.decode(errors="replace").split("\n")[0]
        if not said.startswith("fault "):
            said = f"fault the program ended with status {status}"
        self.why = RunEnded(status, said)
        for _, asker in self._waiting:
            asker.ended(self.why)
        self._is_idle.set()
        self._over.set()
        if not self._is_closing:
            self._when_ended(self.why)

    def _feed(self, data: bytes) -> None:
        """Hands on what has come whole. The first byte of the data is the line feed in front of them."""
        place = 1
        while place < len(data):
            if not self._is_within and data.startswith(b"fault ", place):
                break  # the last line, which belongs to nobody
            if not self._waiting:
                raise ValueError("the program wrote a line that nobody had asked for")
            verb, asker = self._waiting[0]
            stop, is_last = self._piece(data, place, verb)
            if stop <= place:
                break
            piece, place, self._is_within = data[place:stop], stop, not is_last
            if is_last:
                self._waiting.popleft()
                self._odd, self._report = 0, []
            asker.replied(verb, piece, is_last)
        self._rest = data[place:]
        if not self._waiting:
            self._is_idle.set()

    def _piece(self, data: bytes, place: int, verb: bytes) -> Tuple[int, bool]:
        """Where the piece ends that begins at a place and may be handed on, and whether it is the reply's last one."""
        is_refused = not self._is_within and data.startswith(b"refused ", place)
        if verb in LAST and not is_refused and data.find(b"\n", place) >= 0:
            return self._piece_of_many(data, place, LAST[verb])
        stop, is_last = end_of_line(data, place), True
        if verb == b"analyse" and stop and not is_refused:
            self._report.append(data[place : stop - 1].decode())
            is_last = report_ends(self._report[0], self._report[-1], len(self._report))
        return stop, is_last

    def _piece_of_many(self, data: bytes, place: int, mark: bytes) -> Tuple[int, bool]:
        """The same of a reply of many lines, which ends with the first line outside quotes that begins so."""
        start = place - 1
        while True:
            at = data.find(mark, start)
            stop = at if at >= 0 else data.rfind(b"\n")
            self._odd ^= data.count(b"'", start, stop) & 1
            if at < 0:
                return stop + 1, False
            if not self._odd:
                end = data.find(b"\n", at + 1)
                return (end + 1, True) if end >= 0 else (at + 1, False)
            start = at + 1

    # ---- the end

    async def close(self) -> int:
        """Ends the input, and the program with it. The answer is its status."""
        self._is_closing = True
        self._input.close()
        with contextlib.suppress(asyncio.TimeoutError):
            await asyncio.wait_for(self._over.wait(), CLOSING)
        if not self.why:
            self.process.kill()
            await self._over.wait()
        assert self.why
        return self.why.status


def end_of_line(data: bytes, place: int) -> int:
    """Where the line after the one that begins at a place begins, or 0 where it has no end yet.

    >>> end_of_line(b"row 'a\\nb' 1\\nnone\\n", 0)
    13
    """
    odd, start = 0, place
    while (end := data.find(b"\n", start)) >= 0:
        odd ^= data.count(b"'", start, end) & 1
        if not odd:
            return end + 1
        start = end + 1
    return 0
