"""`dragoonctl`: each command is a function of a few lines over the module that says what it does.

What `command` names is its page: the words that it takes, `word?` at most one, `word*` any number, `word+` one or more, `--option=` with a
value; and the docstring. OF says what argparse is to know of a word, of all commands or of one.
"""
from __future__ import annotations

import argparse
import json
import os
import re
import subprocess
import sys
from typing import Any, Callable, NamedTuple, Sequence

from . import __version__, cli_ledger, client, csvio, look, mirror, verify, witness
from .errors import Error
from .formats import Book, Evidence, Store, content_of
from .ops import anchors, conf, quorum, state, vault, watch
from .tables import statements, tables_of
from .transport import find_program

PACKAGES = "python3-jinja2, python3-nagiosplugin, python3-prometheus-client, python3-psycopg"


class Command(NamedTuple):
    name: str
    words: str
    run: Callable[[Any], int]


COMMANDS: list[Command] = []


def command(name: str, words: str) -> Callable[[Callable[[Any], int]], Callable[[Any], int]]:
    def listed(run: Callable[[Any], int]) -> Callable[[Any], int]:
        COMMANDS.append(Command(name, words, run))
        return run

    return listed


def say(*lines: str, status: int = 0) -> int:
    text = "\n".join(lines)
    sys.stdout.write(text if text.endswith("\n") or not text else text + "\n")
    sys.stdout.flush()
    return status


def note(text: str) -> None:
    print(text, file=sys.stderr)


# ---- words


def number(word: str) -> int:
    """An id."""
    if not (word.isascii() and word.isdigit() and str(int(word)) == word and int(word) < 1 << 64):
        raise argparse.ArgumentTypeError(f"{word!r} is no id: a number of 64 bits")
    return int(word)


def seconds(word: str) -> float:
    """A span of time."""
    if not 0 <= (found := float(word)) < 1e9:
        raise ValueError
    return found


def pair(word: str) -> list[str]:
    """What an option says of a column or a table."""
    if not re.fullmatch("(?s)[^=]+=.+", word):
        raise argparse.ArgumentTypeError(f"{word!r} isn't NAME=..")
    return word.split("=", 1)


def book_of(path: str | None) -> Book | None:
    return Book.read(path) if path else None


def pairs(form: str, said: str) -> dict[str, Any]:
    return {"type": pair, "action": "append", "default": [], "metavar": form, "help": said}


def span(said: str, default: float | None = None) -> dict[str, Any]:
    return {"type": seconds, "default": default, "metavar": "SECONDS", "help": said}


def moment(dest: str, default: int | None = None) -> dict[str, Any]:
    return {"dest": dest, "type": int, "default": default, "metavar": "MOMENT"}


COLUMNS = "--kind= --scale= --date="
OF: dict[str, dict[str, Any]] = {
    "id": {"type": number},
    "conf": {"help": "a config file, or its name in /etc/dragoon"},
    "sum": {"help": "the SHA-256 that was signed"},
    "--who": {"default": "", "help": "who asks, if not the account"},
    "--zone": {"default": "UTC", "help": "of dates, as Europe/Zurich"},
    "--granule": {"type": int, "metavar": "G", "help": "only what is of this granule"},
    "--kind": pairs("NAME=KIND", "int, text, bool, bytes (hexadecimal) or utf8 (a text as bytes)"),
    "--scale": pairs("NAME=PLACES", "an amount with so many places, stored as whole units"),
    "--date": pairs("NAME=FORM", "a day, as %%d.%%m.%%Y, stored as an int"),
    "dump --from": moment("first", 0),
    "dump --to": moment("last"),
    "differ --book": {"help": "also verify the copy"},
    "csv-in file": {"help": "`-` is standard input"},
    "csv-in --store": {"help": "store the rows here, and print no statements"},
    "csv-in --key": {"help": "the column that is the key, if not the first"},
    "csv-in --names": {"help": "the columns, with commas between them"},
    "csv-in --delimiter": {"default": ",", "help": "one letter, or `tab`"},
    "csv-in --empty-text": {"help": "an empty field of a text is an empty text, and no null"},
    "csv-in --add": {"help": "the table is there already"},
    "csv-in --like": {"metavar": "STORE", "help": "the table is there, in this store"},
    "csv-out --as-of": moment("as_of"),
    "csv-out --history": {"help": "all versions, with moments"},
    "job command": {"choices": ("notarize", "validate", "analyse", "policy")},
    "job words": {"help": "of `policy`: K ALGS"},
    "job --wait": span("for a file that another process has locked", 600),
    "job --accept-clock": {"help": "file though the clock has gone far ahead since the last check"},
    "acknowledge finding": {"help": "as `alarms` lists it; without it all of them"},
    "acknowledge --who": {"required": True},
    "acknowledge --why": {"required": True},
    "check kind": {"choices": ("store", "notary", "altered", "fault")},
    "serve --filing": span("from one filing to the next", 3_600),
    "serve --auditing": span("from one audit to the next", 3_600),
    "serve --metrics": {"help": "print how the service does, for Prometheus, and end"},
    "anchor check --late": {"type": int, "metavar": "SECONDS"},
    "vault send command": {"nargs": argparse.REMAINDER},
    "mirror attach --key": pairs("TABLE=COLUMN,..", "of a table that has no primary key"),
    "mirror drain --every": span("continue, and drain again after so long"),
}


def argument(of: str, word: str) -> tuple[str, dict[str, Any]]:
    """A word of a command, as argparse takes it."""
    name = word.rstrip("?*+=")
    options: dict[str, Any] = {"nargs": word[-1]} if word[-1] in "?*+" else {}
    if word.startswith("--") and not word.endswith("="):
        options["action"] = "store_true"
    return name, {**options, **OF.get(f"{of} {name}", OF.get(name, {}))}


# ---- files, and the past


@command("verify", "store book id")
def to_verify(given: Any) -> int:
    """compare a store with a notary's book, without the program"""
    status = verify.main([given.store, given.book, str(given.id)])
    if status == 1:
        if found := witness.doubt(content_of(given.store), content_of(given.book), given.id):
            note(f"verify: {found.said}")
    return status


@command("examine", "evidence book id")
def to_examine(given: Any) -> int:
    """judge the lists of an evidence file by a book, without the program"""
    content, book = content_of(given.evidence), content_of(given.book)
    lines, status = witness.examine(content, book, given.id)
    return say(*lines, status=status)


@command("evidence", "store copy book id target")
def to_gather(given: Any) -> int:
    """show what a store and its copy hold where the store is altered, without the program"""
    return made_by(witness.gather, given)


@command("restore", "store copy book id target")
def to_restore(given: Any) -> int:
    """make a new store of a store and its copy, without the program"""
    return made_by(witness.restore, given)


def made_by(make: Callable[[bytes, bytes, bytes, int], Any], given: Any) -> int:
    """Writes what is made of a store, its copy and a book, and says how it went."""
    if os.path.exists(given.target):
        raise Error(f"{given.target} is there already, and stays as it is")
    store, copy, book = (content_of(it) for it in (given.store, given.copy, given.book))
    lines, status, made = make(store, copy, book, given.id)
    if made is not None:
        with open(given.target, "xb") as file:
            file.write(made)
            file.flush()
            os.fsync(file.fileno())
    return say(*lines, status=status)


@command("look", "store book? --json --zone=")
def to_look(given: Any) -> int:
    """report what a store is and holds, and what a book has of it"""
    found = look.look(Store.read(given.store), book_of(given.book))
    lines = look.lines_of(found, look.zone_of(given.zone))
    return say(*([json.dumps(found, indent=2)] if given.json else lines))


@command("dump", "store --from= --to= --granule=")
def to_dump(given: Any) -> int:
    """write the history as lines of a scripted run"""
    store, first, last, left = Store.read(given.store), given.first, given.last, 0
    if given.granule is not None:
        first = given.granule * store.header.width
        last = first + store.header.width - 1
    for line in statements(store, first, last):
        left += line.startswith("# transaction ")
        sys.stdout.write(f"{line}\n")
    if left:
        note(f"dump: {left} transactions are comments: no statement stores them")
    return say(status=1 if left else 0)


@command("differ", "store copy --book= --granule= --zone=")
def to_differ(given: Any) -> int:
    """show where a store differs from a copy, transaction by transaction"""
    if os.path.samefile(given.store, given.copy):
        raise Error("both are one file: name the store and a copy of it")
    store, copy = Store.read(given.store), Store.read(given.copy)
    found = look.Difference(store, copy, given.granule, look.zone_of(given.zone))
    said = ["both files are the same, byte by byte"] if found.is_same else []
    if given.book:
        verdict = verify.compare(copy.content, content_of(given.book), copy.header.id).verdict
        said.append(f"the copy by the book: {verdict}")
    is_other = found.lines or "altered" in "".join(said)
    return say(*said, *found.lines, found.summary(), status=1 if is_other else 0)


def kinds_of(given: Any) -> dict[str, str]:
    """The kinds of columns that options name."""
    named = ("", given.kind), ("scale ", given.scale), ("date ", given.date)
    return {name: word + form for word, pairs in named for name, form in pairs}


@command(
    "csv-in",
    f"table file --store= --key= --names= --delimiter= --empty-text --add --like= {COLUMNS}",
)
def to_csv_in(given: Any) -> int:
    """make a table of a CSV: its statements, or with --store the table"""
    content = sys.stdin.buffer.read() if given.file == "-" else content_of(given.file)
    like = given.like or (given.store if given.add else None)
    found = tables_of(Store.read(like))[0].get(given.table) if like else None
    if like and found is None:
        raise Error(f"{like} has no table {given.table}")
    names = given.names.split(",") if given.names else None
    delimiter = "\t" if given.delimiter == "tab" else given.delimiter
    columns, kinds = found.columns if found else (), kinds_of(given)
    sheet = csvio.read(content, given.key, kinds, names, delimiter, given.empty_text, columns)
    for it in sheet.notes:
        note(f"csv-in: {it}")
    if not given.store:
        return say(*csvio.statements(sheet, given.table, bool(found)))
    with client.connect(store=given.store, stderr=subprocess.DEVNULL) as db:
        loaded = csvio.store(db, given.table, sheet, bool(found))
    return say(f"{loaded.rows} rows in {loaded.transactions} transactions")


@command("csv-out", f"store table --as-of= --history {COLUMNS}")
def to_csv_out(given: Any) -> int:
    """write a table as CSV, as it is now or at a moment"""
    store = Store.read(given.store)
    text = csvio.write(store, given.table, given.as_of, kinds_of(given), given.history)
    sys.stdout.buffer.write(text.encode())
    return 0


# ---- pages and folders for people


@command("page report", "report store book?")
def to_report(given: Any) -> int:
    """make a page of an analysis"""
    from . import pages

    text = content_of(given.report).decode(errors="replace")
    return say(pages.report(text, Store.read(given.store), book_of(given.book)))


@command("page timeline", "store table key --book=")
def to_timeline(given: Any) -> int:
    """make a page of a row's history"""
    from . import pages

    store, book = Store.read(given.store), book_of(given.book)
    return say(pages.timeline(store, given.table, given.key, book))


@command("page evidence", "evidence book")
def to_evidence(given: Any) -> int:
    """make a page of an evidence file"""
    from . import pages

    return say(pages.evidence(Evidence.read(given.evidence), Book.read(given.book)))


@command("case", "folder store book id copy* --who=")
def to_case(given: Any) -> int:
    """gather what an altered store leaves, in a new folder"""
    from . import court

    files = given.folder, given.store, given.book, given.id, given.copy
    verdict, status, total = court.case(*files, find_program(), given.who)
    return say(verdict, f"SHA-256 of {court.SUMS} {total}", status=status)


@command("seal", "folder store copy book id --who=")
def to_seal(given: Any) -> int:
    """make a bundle for a court, in a new folder"""
    from . import court

    files = given.folder, given.store, given.copy, given.book, given.id
    examined, total = court.seal(*files, find_program(), given.who)
    return say(examined.rstrip("\n"), f"SHA-256 of {court.SUMS} {total}")


@command("sealed", "folder sum?")
def to_sealed(given: Any) -> int:
    """judge a bundle by this installation alone: 0 if it makes the same files, 1 if anything is wrong, 4 if another version made its pages"""
    from . import court

    lines, status = court.sealed(given.folder, given.sum)
    return say(*lines, status=status)


# ---- looking after stores


@command("job", "command conf words* --wait= --accept-clock")
def to_job(given: Any) -> int:
    """what a timer does: look, call the program, keep how it ended"""
    if given.words and given.command != "policy":
        raise Error(f"{given.command} takes no more words than the config file")
    wait, accept = given.wait, given.accept_clock
    return watch.job(given.conf, given.command, *given.words, wait=wait, accept_clock=accept)


@command("serve", "conf --filing= --auditing= --metrics")
def to_serve(given: Any) -> int:
    """keep a run open for connections, and file and audit it"""
    from .ops import serve

    it = conf.read_conf(given.conf)
    if given.metrics:
        return say(serve.figures(it))
    return serve.serve(it, given.filing, given.auditing)


@command("alarms", "conf")
def to_alarms(given: Any) -> int:
    """list the alarms of a store"""
    kept = state.load(conf.read_conf(given.conf))
    alarms = kept.alarms if kept else {}
    lines = (f"{key}\t{it.count}\t{it.text}" for key, it in alarms.items())
    return say(*lines, status=1 if alarms else 0)


@command("acknowledge", "conf finding* --who= --why=")
def to_acknowledge(given: Any) -> int:
    """end an alarm that stays, with who says so and why"""
    it = conf.read_conf(given.conf)
    keys = watch.acknowledge(it, given.who, given.why, " ".join(given.finding))
    return say(*(f"acknowledged {key}" for key in keys))


@command("check", "kind conf --late= --room= --days=")
def to_check(given: Any) -> int:
    """one alarm for Nagios and Icinga"""
    from .ops import check

    return check.check(given.conf, given.kind, late=given.late, room=given.room, days=given.days)


@command("metrics", "folder out")
def to_metrics(given: Any) -> int:
    """write a text file for Prometheus' node exporter"""
    from .ops.metrics import metrics

    count, wrong = metrics(given.folder, given.out)
    return 1 if wrong or not count else 0


# ---- books


@command("compare", "book+")
def to_compare(given: Any) -> int:
    """report how the books of a quorum differ from each other"""
    found = quorum.compare(given.book)
    has = quorum.counted(found.majority.filings) if found.majority else "no majority"
    head = f"majority {found.agree} of {len(given.book)}: {has}"
    status = 3 if found.majority is None else int(not all(it.is_same for it in found.standings))
    return say(head, *map(str, found.standings), status=status)


@command("mend", "broken book+")
def to_mend(given: Any) -> int:
    """write what more than half of a quorum have, as BROKEN.mended"""
    path, has = quorum.mend([given.broken, *given.book])
    return say(f"{path}: {has}")


def anchored(call: Callable[..., str], *words: Any) -> int:
    try:
        return say(call(*words))
    except anchors.Differs as why:
        return say(str(why), status=1)


@command("anchor add", "book folder key url?")
def to_anchor_add(given: Any) -> int:
    """sign how a book is, and have it stamped"""
    return anchored(anchors.add, given.book, given.folder, given.key, given.url)


@command("anchor take", "folder vault")
def to_anchor_take(given: Any) -> int:
    """take a list of anchors that has grown into a folder of one's own"""
    return anchored(anchors.take, given.folder, given.vault)


@command("anchor check", "book folder signers authority? --late=")
def to_anchor_check(given: Any) -> int:
    """compare a book with each anchor"""
    by = given.signers, given.authority, given.late
    return anchored(anchors.check, given.book, given.folder, *by)


@command("vault receive", "folder id")
def to_receive(given: Any) -> int:
    """take a copy of a store from standard input, file and validate it"""
    return vault.receive(given.folder, given.id, sys.stdin.buffer)


@command("vault send", "store command")
def to_send(given: Any) -> int:
    """send a copy of a store to the command that receives it"""
    return vault.send(given.store, given.command)


# ---- another database


@command("mirror attach", "database table+ --key=")
def to_attach(given: Any) -> int:
    """write each change of tables of SQLite or PostgreSQL into an outbox from now on"""
    keys = {table: columns.split(",") for table, columns in given.key}
    made = mirror.attach(mirror.site(given.database), given.table, keys)
    return say(*(f"{it.name} is mirrored as {it.to}" for it in made))


@command("mirror drain", "database --store= --notary= --socket= --every=")
def to_drain(given: Any) -> int:
    """carry the outbox into a store, each change once"""
    site = mirror.site(given.database)
    by = {"socket": given.socket} if given.socket else {"store": given.store}
    with client.connect(notary=given.notary or (), **by) as db:
        for count in mirror.follow(site, db, given.every):
            say(f"{count} changes")
    return 0


@command("mirror detach", "database")
def to_detach(given: Any) -> int:
    """take the outbox away; drain it before"""
    return say(*(f"{it} is mirrored no more" for it in mirror.detach(mirror.site(given.database))))


# ---- all of them

COMMANDS += [Command(*it) for it in cli_ledger.COMMANDS]
OF.update(cli_ledger.OF)


def parser() -> argparse.ArgumentParser:
    said = "Tools over stores of dragoon and notaries' books. docs/ of the repository, or /usr/share/doc/dragoon, has their pages."
    top = argparse.ArgumentParser("dragoonctl", description=said)
    top.add_argument("--version", action="version", version=f"dragoonctl {__version__}")
    groups = {"": top.add_subparsers(metavar="COMMAND", required=True)}
    for it in COMMANDS:
        group, _, name = it.name.rpartition(" ")
        if group not in groups:
            others = (
                it.name[len(group) + 1 :] for it in COMMANDS if it.name.startswith(group + " ")
            )
            made = groups[""].add_parser(group, help=", ".join(others))
            groups[group] = made.add_subparsers(metavar="WHAT", required=True)
        page = it.run.__doc__ or ""
        found = groups[group].add_parser(name, help=page, description=page)
        found.set_defaults(run=it.run)
        for word in it.words.split():
            word, options = argument(it.name, word)
            found.add_argument(word, **options)
    return top


def main(given: Sequence[str] | None = None) -> int:
    made = parser()
    try:
        import argcomplete

        argcomplete.autocomplete(made)
    except ImportError:
        pass
    it, more = made.parse_known_args(given)
    if more and (not hasattr(it, "finding") or any(each.startswith("-") for each in more)):
        made.error(f"unrecognized arguments: {' '.join(more)}")
    if more:
        it.finding += more  # argparse takes no optional word after an option
    try:
        return int(it.run(it) or 0)
    except BrokenPipeError:
        os.dup2(os.open(os.devnull, os.O_WRONLY), 1)
        return 3
    except ImportError as why:
        return failed(f"{why.name} is not installed (Debian: {PACKAGES})")
    except OSError as why:
        return failed(f"{why.filename}: {why.strerror}" if why.filename else str(why))
    except (Error, ValueError, MemoryError) as why:
        return failed(str(why) or "out of memory")


def failed(why: str) -> int:
    print(f"dragoonctl: {why}", file=sys.stderr)
    return 3


if __name__ == "__main__":
    sys.exit(main())
