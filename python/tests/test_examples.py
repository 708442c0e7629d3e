"""The examples of the docstrings run. Those that ask a database are skipped if DRAGOON names no program."""
import doctest
import inspect
from decimal import Decimal

import pytest

import dragoon
from conftest import PROGRAM
from dragoon import client, csvio, database, errors, kinds, language, transport

PAGES = (client, csvio, database, errors, kinds, language, transport)


class Finder(doctest.DocTestFinder):
    """Also finds the examples of calls that check their arguments."""

    def _from_module(self, module, it):
        return super()._from_module(module, inspect.unwrap(it) if callable(it) else it)


EXAMPLES = [it for page in PAGES for it in Finder().find(page) if it.examples]


@pytest.mark.parametrize("example", EXAMPLES, ids=lambda it: it.name)
def test_example(example, tmp_path, monkeypatch):
    """Each begins with the database that the first page makes."""
    monkeypatch.chdir(tmp_path)
    example.globs.update(dragoon=dragoon, Decimal=Decimal)
    db = None
    if any("db" in it.source for it in example.examples):
        if not PROGRAM:
            pytest.skip("DRAGOON names no program")
        monkeypatch.setenv("DRAGOON", PROGRAM)
        if example.name != "dragoon.database":
            dragoon.make("shop.store", id=7)
            db = example.globs["db"] = dragoon.connect(store="shop.store")
            db.create("account", {"id": int, "owner": str, "amount": kinds.Scale(2)})
            db.insert("account", 1, "Ada", 100)
    flags = doctest.ELLIPSIS | doctest.IGNORE_EXCEPTION_DETAIL
    assert doctest.DocTestRunner(optionflags=flags).run(example).failed == 0
    if db:
        db.close()
