"""A vault: a copy that grew is filed and validated, and anything else is refused or an alarm."""
import io
import shutil
import subprocess
import sys

import pytest

from conftest import PROGRAM, drill_file, needs_program, put, run
from dragoon.errors import Error
from dragoon.ops import vault

pytestmark = needs_program
LATER = [f"now {60 * k}\ninsert t {k} {k}" for k in range(8, 20)]


@pytest.fixture(autouse=True)
def program(monkeypatch):
    monkeypatch.setenv("DRAGOON", PROGRAM)


def sent(path, folder):
    """What arrives of a store at the vault: the status there."""
    call = [sys.executable, "-m", "dragoon.cli", "vault", "send", str(path), "cat"]
    made = subprocess.run(call, capture_output=True, check=True)
    return vault.receive(str(folder), 7, io.BytesIO(made.stdout))


@pytest.fixture
def there(tmp_path, monkeypatch):
    monkeypatch.setenv("PYTHONPATH", "src")
    folder, store = tmp_path / "vault", tmp_path / "s.store"
    folder.mkdir()
    drill_file(store)
    assert sent(store, folder) == 0
    return store, folder


def grow(store):
    run(f"store={store}", "run", 7, "scripted", given="\n".join(LATER) + "\n", expect=0)


def test_a_copy_that_grew_is_filed_by_its_own_last_moment(there, capfd):
    store, folder = there
    grow(store)
    assert sent(store, folder) == 0
    assert capfd.readouterr().out.splitlines()[-2:] == ["sealed 2", "clean 2"]
    assert (folder / "7.clean").read_bytes() == store.read_bytes()


def alter(store):
    content = store.read_bytes()
    put(
        store,
        content.index((5).to_bytes(8, "big") + b"\x01" + (5).to_bytes(8, "big")) + 16,
        b"\x09",
    )


def test_a_copy_that_lacks_or_changed_something_is_refused(there, tmp_path):
    store, folder = there
    older = tmp_path / "older"
    shutil.copy(store, older)
    grow(store)
    assert sent(store, folder) == 0
    before = store.read_bytes()
    assert sent(older, folder) == 1
    alter(store)
    assert sent(store, folder) == 1
    assert (folder / "7.store").read_bytes() == before
    assert len(list(folder.glob("7.refused.*"))) == 2
    store.write_bytes(before)
    assert sent(store, folder) == 0  # that something was refused stays an alarm
    assert '"rewritten of store": {' in (folder / "7.json").read_text()


def test_what_was_cut_off_or_is_no_store_is_not_taken(there):
    store, folder = there
    with pytest.raises(Error, match="cut off"):
        vault.receive(str(folder), 7, io.BytesIO(b"0" * 64 + b"\n" + store.read_bytes()))
    assert sorted(it.name for it in folder.iterdir() if "." == it.name[0]) == []
    (folder / "7.store").unlink()
    store.write_bytes(b"nothing")
    assert sent(store, folder) == 1
