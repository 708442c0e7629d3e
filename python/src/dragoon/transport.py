"""How lines reach a run and replies come back: over pipes to a program of one's own, or over the socket of `dragoonctl serve`.

A reply line ends at the first line feed outside quotes, because a text that an attacker stored may hold line feeds, and is printed as it is.
"""
from __future__ import annotations

import contextlib
import os
import shutil
import socket
import subprocess
from collections import deque
from typing import IO, Any, Callable, Sequence, Union

from .errors import Fault, Locked

INPUT_LIMIT = 67_108_863  # bytes of input that one run takes
NEARLY_FULL = 67_108_864 - (1 << 20)  # bytes of a store, after which transactions go one by one
_WITH_VALUES = (b"row ", b"version ", b"during ")
Stderr = Union[None, int, IO[bytes], IO[str]]


class Lines:
    """The lines of replies, out of pieces as they come.

    >>> pieces = iter([b"row 'a\\n", b"rows 1'\\nrows 1\\n", b""])
    >>> read = Lines(lambda most: next(pieces)).line
    >>> read(), read(), read()
    (b"row 'a\\nrows 1'", b'rows 1', b'')
    """

    def __init__(self, more: Callable[[int], bytes]) -> None:
        self._more, self._rest = more, b""
        self._lines: deque[bytes] = deque()

    def _piece(self) -> bytes | None:
        while not self._lines:
            data = self._more(65_536)
            if not data:
                return None
            *whole, self._rest = (self._rest + data).split(b"\n")
            self._lines.extend(whole)
        return self._lines.popleft()

    def line(self) -> bytes:
        """One reply line without its end, or b"" if nothing more comes."""
        line = self._piece() or b""
        if b"'" in line and line.startswith(_WITH_VALUES) and line.count(b"'") & 1:
            pieces, is_open = [line], True
            while is_open:
                more = self._piece()
                if more is None:
                    return b""
                pieces.append(more)
                is_open ^= bool(more.count(b"'") & 1)
            line = b"\n".join(pieces)
        return line


def find_program(program: str | None = None) -> str:
    """The path of the program: the one that is named, that of DRAGOON in the environment, or `dragoon` on the PATH."""
    found = program or os.environ.get("DRAGOON") or shutil.which("dragoon")
    if not found:
        raise FileNotFoundError(
            "no program `dragoon` is on the PATH: name it by program=, or by DRAGOON in the environment"
        )
    return found


def fault_of(output: str, status: int, files: Sequence[str]) -> Fault:
    """Why a call of the program over these files has ended: by its last line, and by who has them open."""
    name = output[len("fault ") :] if output.startswith("fault ") else "Ended"
    locked = [path for path in files if name in ("DiskFault", "NotaryFault") and is_locked(path)]
    if locked:
        return Locked(name, status, f"{locked[0]} is open in another process or connection")
    return Fault(name, status)


def is_locked(path: str) -> bool:
    """Whether another process has a file of the program open."""
    try:
        import fcntl

        with open(path, "rb") as file:
            fcntl.flock(file, fcntl.LOCK_SH | fcntl.LOCK_NB)
    except BlockingIOError:
        return True
    except (OSError, ImportError):
        pass
    return False


class Pipe:
    """A run of one's own. It locks the store and the books, so it is the only writer as long as it is open."""

    def __init__(self, words: Sequence[str], files: Sequence[str], stderr: Stderr) -> None:
        self.words, self.files, self.stderr = list(words), list(files), stderr
        self.open()

    def open(self) -> None:
        # a session of its own: Ctrl-C at a terminal is for the application, which then closes the run
        pipes: Any = {"stdin": subprocess.PIPE, "stdout": subprocess.PIPE, "stderr": self.stderr}
        self.process: subprocess.Popen[bytes] = subprocess.Popen(
            self.words, bufsize=0, start_new_session=True, **pipes
        )
        assert self.process.stdin and self.process.stdout
        self.input, self.output, self.sent = self.process.stdin, self.process.stdout, 0
        self.read = Lines(self.output.read).line

    def is_at(self, store: str) -> None:
        """Says that the store's file has another name now."""
        self.files[0], self.words[1] = store, f"store={store}"

    def has_room(self, length: int) -> bool:
        """Whether this run takes so many bytes of input more. Another one can be opened between sessions."""
        return self.sent + length <= INPUT_LIMIT

    @property
    def window(self) -> int:
        """How many transactions may be on their way at once. One alone near the store's end, so that none follows one that is refused."""
        return 4 if os.stat(self.files[0]).st_size < NEARLY_FULL else 1

    def write(self, data: bytes) -> None:
        self.sent += len(data)
        left = memoryview(data)
        with contextlib.suppress(
            BrokenPipeError
        ):  # the fault line that says why is still to be read
            while left:
                left = left[self.input.write(left) :]

    def fault(self, line: str) -> Fault:
        """Why the run has ended: its last line, or none."""
        return fault_of(line, self.close(), self.files)

    def close(self) -> int:
        with contextlib.suppress(OSError):
            self.input.close()
        if not self.output.closed:
            while self.output.read(65_536):
                pass
            self.output.close()
        return self.process.wait()

    def __del__(self) -> None:
        with contextlib.suppress(AttributeError):  # as of a program that is not there
            self.close()

    def forget(self) -> None:
        """Closes what this process has of the run, which after a fork is its parent's."""
        self.input.close()
        self.output.close()
        self.process.returncode = 0


def received(opened: socket.socket, most: int) -> bytes:
    """What has come, or b"" if nothing more comes."""
    try:
        return opened.recv(most)
    except ConnectionResetError:
        return b""


class Socket:
    """A connection to `dragoonctl serve`. Others use the same store meanwhile."""

    window = 1

    def __init__(self, path: str) -> None:
        self.path = path
        opened = self.socket = socket.socket(socket.AF_UNIX)
        try:
            self.socket.connect(path)
        except OSError as why:
            self.socket.close()
            raise type(why)(why.errno, f"no service: {why.strerror}", path) from None
        self.read = Lines(lambda most: received(opened, most)).line

    def has_room(self, length: int) -> bool:
        return True

    def write(self, data: bytes) -> None:
        with contextlib.suppress(BrokenPipeError, ConnectionResetError):
            self.socket.sendall(data)

    def fault(self, line: str) -> Fault:
        self.close()
        return Fault(line[len("fault ") :] or "Closed")

    def close(self) -> int:
        self.socket.close()
        return 0

    forget = close
