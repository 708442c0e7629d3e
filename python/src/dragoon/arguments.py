"""What each argument of a public call may be: one table, by its name. Any other value is an `InvalidStatement`, before anything is done.

A call whose argument has no row here cannot be defined: `checked` raises KeyError for it at once.
"""
from __future__ import annotations

import datetime
import functools
import os
import reprlib
from inspect import isfunction, signature
from typing import Any, Callable, NamedTuple, TypeVar, cast

from .errors import InvalidStatement
from .formats import ALGORITHMS, LAST_SECOND
from .language import COMPARISONS, LAST_MOMENT, is_name

Call = TypeVar("Call", bound=Callable[..., Any])


class Allowed(NamedTuple):
    """What an argument has to be, in words, and the test."""

    said: str
    takes: Callable[[Any], bool]


def whole(least: int, most: int) -> Allowed:
    def takes(it: Any) -> bool:
        return isinstance(it, int) and not isinstance(it, bool) and least <= it <= most

    return Allowed(f"a whole number from {least:,} to {most:,}", takes)


def one_of(*words: str) -> Allowed:
    return Allowed(f"one of {', '.join(words)}", lambda it: isinstance(it, str) and it in words)


def is_path(it: Any) -> bool:
    if isinstance(it, os.PathLike):
        it = os.fspath(it)
    return isinstance(it, str) and it != "" and "\0" not in it


def are_paths(it: Any) -> bool:
    return is_path(it) or isinstance(it, (list, tuple)) and all(map(is_path, it))


def is_moment(it: Any) -> bool:
    if isinstance(it, datetime.datetime):
        return it.utcoffset() is not None
    return whole(0, LAST_MOMENT).takes(it)


def is_filter(it: Any) -> bool:
    is_one = isinstance(it, tuple) and len(it) == 3 and is_name(it[0])
    return is_one and isinstance(it[1], str) and it[1] in COMPARISONS


def is_series(it: Any) -> bool:
    return hasattr(it, "__iter__") and not isinstance(it, (str, bytes, dict))


def is_output(it: Any) -> bool:
    return hasattr(it, "fileno") or whole(-3, 1 << 31).takes(it)


def are_names(it: Any) -> bool:
    return isinstance(it, (list, tuple)) and len(it) == 2 and all(map(is_name, it))


NAME = Allowed("a name: 1 to 32 lower-case letters, digits or _, and no digit first", is_name)
MOMENT = Allowed("a moment, seconds from 0 on, or a datetime with a time zone", is_moment)
PATH = Allowed("a path", is_path)
SERIES = Allowed("an iterable", is_series)
BOOKS = Allowed("the path of a book, or several", are_paths)
SPELLED = Allowed("a value", lambda it: True)  # `literal` and `Table` refuse others
ARGUMENTS: dict[str, Allowed] = {
    "algorithm": one_of("mono", "tiled", "a3d"),
    "algorithms": one_of(*ALGORITHMS),
    "as_of": MOMENT,
    "book": BOOKS,
    "columns": SPELLED,
    "epoch": whole(0, LAST_SECOND),
    "era": whole(0, (1 << 32) - 1),
    "exponent": whole(0, 10),
    "folder": PATH,
    "granule": whole(1, 86_400),
    "id": whole(0, (1 << 64) - 1),
    "kappa": whole(1, 1_024),
    "key": SPELLED,
    "keys": SERIES,
    "left": NAME,
    "moment": MOMENT,
    "most": whole(1, 256),
    "most_bytes": whole(1, 9_999_999_999),
    "notary": BOOKS,
    "on": Allowed("two names of columns", are_names),
    "places": whole(0, 18),
    "program": PATH,
    "retries": whole(0, 1 << 31),
    "right": NAME,
    "row": SPELLED,
    "rows": SERIES,
    "scripted": Allowed("True or False", lambda it: isinstance(it, bool)),
    "seconds": whole(0, LAST_MOMENT),
    "socket": PATH,
    "start": MOMENT,
    "stderr": Allowed("a file, or the number of one", is_output),
    "stop": MOMENT,
    "store": PATH,
    "table": NAME,
    "when": MOMENT,
    "where": Allowed("a filter, (column, comparison, value)", is_filter),
    "work": Allowed("a function of a session", callable),
}


def checked(call: Call) -> Call:
    """The call, which checks its arguments first. One may be None if that is its default."""
    parameters = signature(call).parameters
    allowed = {name: ARGUMENTS[name] for name in parameters if name != "self"}
    names = list(parameters)

    @functools.wraps(call)
    def checking(*values: Any, **named: Any) -> Any:
        for name, value in (*zip(names, values), *named.items()):
            if name not in allowed or value is None and parameters[name].default is None:
                continue
            if not allowed[name].takes(value):
                said = f"{reprlib.repr(value)}, and has to be {allowed[name].said}"
                raise InvalidStatement(f"{name} is {said}")
        return call(*values, **named)

    return cast(Call, checking)


class Checked:
    """A class whose public calls check their arguments, in each of its subclasses."""

    def __init_subclass__(cls) -> None:
        super().__init_subclass__()
        for name, call in list(vars(cls).items()):
            if isfunction(call) and not name.startswith("_"):
                setattr(cls, name, checked(call))
