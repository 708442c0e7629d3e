"""The commands: that each word reaches its module, and that no user ever sees a traceback."""
import json
import os
import random
import shutil
import subprocess
import sys
from hashlib import sha256
from pathlib import Path

import pytest

import damaged
import dragoon
from conftest import needs_program, put
from dragoon import cli, witness

court = pytest.importorskip("dragoon.court")  # needs jinja2


@needs_program
def test_commands(made, tmp_path, capfd):
    store, book = map(str, made)
    copy = str(tmp_path / "copy")
    Path(copy).write_bytes(Path(store).read_bytes())

    def said(*words, status=0):
        assert cli.main(list(words)) == status
        return capfd.readouterr().out

    assert said("verify", store, book, "7") == "clean 1\n"
    assert "1 tile" in said("look", store, book)
    assert json.loads(said("look", "--json", store))["id"] == 7
    assert said("dump", "--from", "60", "--to", "70", store) == "now 60\ninsert t 1 1\n"
    said("differ", store, copy)
    put(store, 345, b"\1")
    assert "granule 5" in said("differ", store, copy, status=1)
    assert said("sealed", str(tmp_path), status=1).endswith("SHA256SUMS is no plain file\n")


WRONG = [
    (["look", "/nowhere"], "dragoonctl: /nowhere: No such file or directory"),
    (["look", "BOOK"], "is no store"),
    (["verify", "STORE", "STORE", "7"], "it is no notary's book"),
    (["mirror", "drain", "STORE", "--store", "STORE"], "is no database of SQLite"),
    (["mirror", "detach", "/dev/null"], "the database answers"),
    (["page", "report", "BOOK", "STORE"], "begins no report"),
    (["anchor", "take", "/nowhere", "/nowhere"], "one folder"),
    (["vault", "send", "STORE"], "a command is missing"),
    (["page", "timeline", "STORE", "none", "1"], "no table"),
]


@needs_program
@pytest.mark.parametrize("words, said", WRONG, ids=[" ".join(it[0]) for it in WRONG])
def test_what_cannot_be_done_is_one_sentence_and_status_3(made, words, said, capfd):
    files = {"STORE": str(made[0]), "BOOK": str(made[1])}
    assert cli.main([files.get(it, it) for it in words]) == 3
    err = capfd.readouterr().err
    assert said in err and "Traceback" not in err


READERS = """verify STORE BOOK 7
examine EVIDENCE BOOK 7
evidence STORE COPY BOOK 7 TARGET
restore STORE COPY BOOK 7 TARGET
look STORE BOOK
look --json BOOK
dump STORE
differ STORE COPY --book BOOK
csv-out STORE t --history
csv-out COPY u --kind v=utf8
csv-in t CSV
csv-in --like STORE t CSV
page report REPORT STORE BOOK
page timeline STORE t 1 --book BOOK
page evidence EVIDENCE BOOK
compare BOOK BOOK2 STORE
mend BOOK BOOK2 STORE
sealed BUNDLE
mirror attach STORE t
vault send STORE false"""
REPORT = b"report a3d id 7 tiles 2 altered\ngranule 5 when 1 to 2\nchecks 9\nfirst change in tile 1 when 1 to 2\ndiagram\n  480 NN\n  500 vX\n"
DAMAGED = int(os.environ.get("DAMAGED", 10))  # pairs of files; four files a pair


def damaged_files(folder, seed):
    """A damaged store, a copy, a book, evidence, a report, a table and a bundle."""
    chance, pair = random.Random(seed), damaged.damaged(seed)
    books = [*pair.books, b"", b""]
    evidence = witness.gather(pair.store, pair.copy, books[0], pair.id)[-1] if seed % 2 else None
    evidence = evidence or b"DRAGEVD1" + pair.store[9:31] + bytes(8)
    contents = {"STORE": pair.store, "COPY": pair.copy, "BOOK": books[0], "BOOK2": books[1]}
    for name, content in {"EVIDENCE": evidence, "REPORT": REPORT, "CSV": b"k,v\n1,a\n2,\n"}.items():
        contents[name] = bytearray(content)
        chance.choice((damaged.flip, damaged.cut, damaged.insert))(chance, contents[name])
    bundle = folder / "BUNDLE"
    shutil.rmtree(bundle, ignore_errors=True)
    bundle.mkdir()
    names = ("book", "BOOK"), ("store", "STORE"), ("copy", "COPY")
    files = [(it, len(contents[of]), sha256(contents[of]).hexdigest(), "/") for it, of in names]
    asked = court.Asked("now", "I", "here", dragoon.__version__, pair.id, files)._asdict()
    contents.update({"asked": json.dumps(asked).encode(), "verified": b"", "examined": b""})
    for name, content in contents.items():
        (folder / name if name.isupper() else bundle / name).write_bytes(content)
        if name in ("STORE", "COPY", "BOOK", "EVIDENCE"):
            (bundle / name.lower()).write_bytes(content)
    court.write_sums(bundle)


def test_damaged_files_are_answered_by_each_command_that_reads_them(tmp_path, capfd):
    """Or refused, by one sentence and status 3."""
    for seed in range(DAMAGED):
        damaged_files(tmp_path, seed)
        for line in READERS.splitlines():
            names = [str(tmp_path / it) if it.isupper() else it for it in line.split()]
            (tmp_path / "TARGET").unlink(missing_ok=True)
            (tmp_path / "BOOK.mended").unlink(missing_ok=True)
            status, said = cli.main(names), capfd.readouterr().err
            assert "Traceback" not in said, (seed, line)
            if status == 3 and line.split()[0] != "compare":
                assert said.startswith(("dragoonctl: ", "verify: ")), (seed, line, said)
                assert said.count("\n") == 1 and len(said) < 300, (seed, line, said)


def test_help_lists_every_command():
    environment = {**os.environ, "PYTHONPATH": str(Path(dragoon.__file__).parents[1])}
    call = [sys.executable, "-m", "dragoon.cli", "--help"]
    done = subprocess.run(call, env=environment, capture_output=True, text=True)
    assert done.returncode == 0
    assert all(it.name.split(" ")[0] in done.stdout for it in cli.COMMANDS)


def test_the_release_has_one_version():
    changelog = Path(__file__).parents[2] / "debian" / "changelog"
    assert changelog.read_text().startswith(f"dragoon ({dragoon.__version__}) ")
