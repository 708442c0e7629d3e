"""Who may do what over a service: the kernel says whose the other end of a socket is, and the config file what that account may.

The lines MAY_ASK, MAY_WRITE, MAY_CREATE and MAY_FILE name accounts, and groups behind an `@`; an `@` alone is the group of the
config file. Its owner may do all, and `policy` nobody else.
"""
from __future__ import annotations

import array
import functools
import grp
import os
import pwd
import socket
import struct
from typing import FrozenSet, NamedTuple, Tuple

from .conf import MAY, Conf, ConfError

ALL = (*MAY, "policy")
SO_PEERGROUPS, MOST_GROUPS = 59, 1_024 // 4
# the right that a line needs, by its first word
NEEDS = {
    **dict.fromkeys((b"get", b"scan", b"history", b"over", b"begin", b"commit", b"abort"), "ask"),
    **dict.fromkeys((b"now", b".metrics", b".tables", b".columns"), "ask"),
    **dict.fromkeys((b"insert", b"update", b"delete"), "write"),
    **dict.fromkeys((b"notarize", b"validate", b"audit", b"analyse"), "file"),
    **dict.fromkeys((b".hello", b".verbose"), ""),
    b"create": "create",
    b"policy": "policy",
}


class Peer(NamedTuple):
    """Whoever is connected."""

    account: str
    uid: int
    groups: FrozenSet[int]


@functools.lru_cache(1_024)
def account_of(uid: int) -> str:
    try:
        return pwd.getpwuid(uid).pw_name
    except KeyError:
        return f"#{uid}"


def peer_of(connected: socket.socket) -> Peer:
    """The account at the other end, as it was when that connected."""
    told = connected.getsockopt(socket.SOL_SOCKET, socket.SO_PEERCRED, 12)
    _, uid, gid = struct.unpack("iII", told)
    account = account_of(uid)
    try:
        groups = connected.getsockopt(socket.SOL_SOCKET, SO_PEERGROUPS, 4 * MOST_GROUPS)
    except OSError:  # more groups than fit, or a kernel before 4.13
        return Peer(account, uid, frozenset(os.getgrouplist(account, gid)))
    return Peer(account, uid, frozenset((gid, *array.array("I", groups))))


class Rights:
    """What each account may do. The names are looked up once."""

    def __init__(self, conf: Conf) -> None:
        there = os.stat(conf.path)
        self._owner, self._group = there.st_uid, there.st_gid
        may = {it: getattr(conf, f"may_{it}") for it in MAY}
        self._of = {right: set(map(self._id, names.split())) for right, names in may.items()}

    def _id(self, name: str) -> Tuple[str, int]:
        """An account or a group by its number."""
        try:
            if name.startswith("@"):
                return "group", grp.getgrnam(name[1:]).gr_gid if name[1:] else self._group
            return "account", -1 if name == "-" else pwd.getpwnam(name).pw_uid
        except KeyError:
            what = "group" if name.startswith("@") else "account"
            raise ConfError(f"a line MAY_ names {name}, and there is no such {what}") from None

    def of(self, peer: Peer) -> FrozenSet[str]:
        if peer.uid == self._owner:
            return frozenset(ALL)
        ids = {("account", peer.uid), *(("group", it) for it in peer.groups)}
        return frozenset(right for right, may in self._of.items() if may & ids)
