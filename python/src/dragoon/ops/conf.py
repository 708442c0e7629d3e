"""A config file: one store that is looked after, in lines `KEY=VALUE`. The file's name without `.conf` is the store's name.

    STORE=/srv/dragoon/ledger.store
    BOOK=/srv/notary/ledger.book        several with commas between them: a quorum
    ID=7
    STATE=/var/lib/dragoon              the folder of what is kept between two looks
    ALG=a3d                             what an analysis uses
    AHEAD=3600                          how many seconds the clock may be ahead before a filing is refused

For `serve` it also says who may do what (MAY_ASK, MAY_WRITE, MAY_CREATE, MAY_FILE: `dragoon.ops.rights`), with WHO=yes that each
commit has a row of who made it, and with GROUPED=yes that the program stores in groups.
"""

from __future__ import annotations

import os
import re
from dataclasses import dataclass
from pathlib import Path
from typing import Any, Callable, Dict, List, NamedTuple, Optional, Sequence, Tuple

from ..errors import Error
from ..transport import find_program

FOLDER = "/etc/dragoon"
KEPT = ("json", "lock", "saving", "socket")  # how the names end of what STATE keeps of a store


class ConfError(Error):
    """A config file that can't be taken, and why."""


MAY = ("ask", "write", "create", "file")  # rights over a service that a line can give


class Key(NamedTuple):
    """A key: the field that it sets, what makes that of its value, which values it takes, and that in words."""

    field: str
    take: Callable[[str], Any]
    fits: str
    wanted: str


def _is_yes(value: str) -> bool:
    return value == "yes"


_PATH, _ACCOUNTS, _YES = ("/.*", "a path from / on"), (".+", "accounts"), ("yes|no", "yes or no")
_BOOKS = ("/[^,]*(,/[^,]*)*", "paths from / on, with commas between them")
_ALGORITHM = "mono|a3d|tiled( (?!0)(10[01][0-9]|102[0-4]|[0-9]{1,3}))?"
NEEDED = ("STORE", "BOOK", "ID", "STATE")
KEYS: Dict[str, Key] = {
    "STORE": Key("store", str, *_PATH),
    "BOOK": Key("books", lambda it: tuple(it.split(",")), *_BOOKS),
    "ID": Key("id", int, "0|[1-9][0-9]{0,19}", "a number"),
    "STATE": Key("state", str, *_PATH),
    "ALG": Key("algorithm", str, _ALGORITHM, "mono, tiled [KAPPA] or a3d"),
    "AHEAD": Key("ahead", int, "[0-9]{1,9}", "a number of seconds"),
    "PROGRAM": Key("program", str, *_PATH),
    **{f"MAY_{it.upper()}": Key(f"may_{it}", str, *_ACCOUNTS) for it in MAY},
    "WHO": Key("has_who", _is_yes, *_YES),
    "GROUPED": Key("is_grouped", _is_yes, *_YES),
}


@dataclass(frozen=True)
class Conf:
    name: str
    store: str
    books: Tuple[str, ...]
    id: int
    state: str
    algorithm: str = "mono"
    program: str = ""
    ahead: int = 3600
    path: str = ""
    may_ask: str = "@"
    may_write: str = "@"
    may_create: str = "-"
    may_file: str = "-"
    has_who: bool = False
    is_grouped: bool = False

    @property
    def book(self) -> str:
        """The books as a call of the program names them."""
        return ",".join(self.books)

    @property
    def devices(self) -> Dict[str, str]:
        """The files by their names in alarms: `book` or, of several, `book 1` and so on; and `store`."""
        several = len(self.books) > 1
        named = {f"book {at}" if several else "book": it for at, it in enumerate(self.books, 1)}
        return {**named, "store": self.store}

    def file(self, ending: str) -> Path:
        """A file that is kept in the folder STATE."""
        return Path(self.state) / f"{self.name}.{ending}"

    def call(self, *words: str) -> List[str]:
        """A call of the program over the files."""
        program = find_program(self.program or None)
        return [program, f"store={self.store}", f"notary={self.book}", *words]

    @property
    def environment(self) -> Dict[str, str]:
        """With it ./dragoon of a checkout runs what is proved, or nothing."""
        return {**os.environ, "DRAGOON_PROVED": "1"}


def read_conf(path: str) -> Conf:
    """The config file at a path, or that of a store's name in /etc/dragoon. A ConfError names the line that can't be taken."""
    if "/" not in path and not os.path.exists(path):
        path = f"{FOLDER}/{path}.conf"
    conf = Conf(name=Path(path).stem, path=path, **fields_of(path, KEYS, NEEDED))
    named = [os.path.realpath(it) for it in conf.devices.values()]
    if conf.id >> 64:
        raise ConfError(f"{path}: ID={conf.id} is too great")
    if not os.path.isdir(conf.state):
        raise ConfError(f"{path}: STATE={conf.state} is no folder")
    if len({*named, *(os.path.realpath(conf.file(it)) for it in KEPT)}) < len(named) + len(KEPT):
        raise ConfError(f"{path}: STORE and BOOK name one file twice, or one that STATE keeps")
    return conf


def fields_of(path: str, keys: Dict[str, Key], needed: Sequence[str]) -> Dict[str, Any]:
    """The fields that the lines of a file set."""
    said = lines_of(path, keys)
    if lacks := [key for key in needed if key not in said]:
        raise ConfError(f"{path}: there is no line {lacks[0]}=")
    return {keys[key].field: keys[key].take(value) for key, value in said.items()}


def lines_of(path: str, keys: Dict[str, Key]) -> Dict[str, str]:
    """What the lines of a file say, each of a known key, once, with a value that the key takes."""
    said: Dict[str, str] = {}
    try:
        text = Path(path).read_text(encoding="utf-8")
    except (OSError, UnicodeDecodeError) as why:
        raise ConfError(f"{path}: {getattr(why, 'strerror', None) or 'it is not UTF-8'}") from why
    for number, line in enumerate(text.splitlines(), 1):
        if line.strip() and not line.startswith("#"):
            key, equals, value = line.partition("=")
            if wrong := wrong_line(key, equals, value, said, keys):
                raise ConfError(f"{path}: line {number}: {wrong}")
            said[key] = value
    return said


def wrong_line(
    key: str, equals: str, value: str, said: Dict[str, str], keys: Dict[str, Key]
) -> Optional[str]:
    """Why a line can't be taken, or None."""
    if not equals:
        return "it is not KEY=VALUE"
    if key not in keys or key in said:
        return f"{key} is there twice" if key in said else f"{key} is none of {', '.join(keys)}"
    if not value or value != value.strip() or value[0] in "'\"" or not value.isprintable():
        return f"{key} has no value, or quotes, blanks around it, or letters that can't be seen"
    is_taken = re.fullmatch(keys[key].fits, value)
    return None if is_taken else f"{key}={value}: it has to be {keys[key].wanted}"
