"""What the machine says: how far its clock has gone, which process has a file open, and why one can't be written."""

from __future__ import annotations

import contextlib
import ctypes
import os
import time
from typing import Optional, Tuple

from .state import State


def now_of_machine() -> Tuple[str, float]:
    """Which start of the machine this is, and the seconds since then, as no clock can set them."""
    try:
        with open("/proc/sys/kernel/random/boot_id") as boot, open("/proc/uptime") as uptime:
            return boot.read().strip(), float(uptime.read().split()[0])
    except OSError:
        return "", 0.0


def clock_is_kept() -> bool:
    """Whether the kernel says that the clock is kept by another one (NTP)."""
    with contextlib.suppress(AttributeError, OSError):
        kept: int = ctypes.CDLL(None).adjtimex(ctypes.create_string_buffer(1024))
        return 0 <= kept < 5
    return False


def ahead_of(state: State) -> float:
    """How many seconds the clock has gone on more than the machine did since the last call ended. After a start of the machine that is all of the time
    that has gone by, unless the clock is kept."""
    boot, uptime = now_of_machine()
    gone = time.time() - state.clock
    if not state.clock:
        return 0.0
    if boot and boot == state.boot:
        return gone - (uptime - state.uptime)
    return 0.0 if clock_is_kept() else gone


def holder_of(path: str) -> Optional[str]:
    """Which process has this file locked, as far as /proc tells."""
    try:
        inode = f":{os.stat(path).st_ino}"
        with open("/proc/locks") as locks:
            words = [line.split() for line in locks]
        pid = next(it[at - 1] for it in words for at in range(len(it)) if it[at].endswith(inode))
        with open(f"/proc/{pid}/comm") as name:
            return f"process {pid} ({name.read().strip()})"
    except (OSError, StopIteration):
        return None


def trouble_of(path: str) -> str:
    """Why a file can't be written, as far as its disk and its rights tell."""
    with contextlib.suppress(OSError):
        disk = os.statvfs(path)
        if disk.f_flag & os.ST_RDONLY:
            return ", its disk is read-only"
        if disk.f_bavail * disk.f_frsize < 65_536:
            return ", its disk is full"
        return "" if os.access(path, os.R_OK | os.W_OK) else ", this account may not write it"
    return ""
