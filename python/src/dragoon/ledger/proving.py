"""What is proved of a ledger: each store by its part of the books, and each border by the two stores that it ties together.

A store is read once, and no file is locked: the program gets copies in memory, also of what another process writes. A store's part of a
book is what is filed under its id. So a validation of a closed store that is clean leaves no mark, since a book takes 65,536 of them.

With a folder `state` it is kept of each closed store that was clean, and filed to its end, what was found, with the SHA-256 of the file and
of its part of the books. As long as these stay, nothing of it is read by the program again. Who can write that folder can forge a verdict.
"""
from __future__ import annotations

import hashlib
import json
import os
import pathlib
import subprocess
from collections import defaultdict
from concurrent.futures import ProcessPoolExecutor
from dataclasses import asdict, dataclass
from functools import partial
from typing import Any, Callable, Dict, Iterator, List, NamedTuple, Optional, Sequence, Tuple

from ..errors import Error
from ..formats import HEAD, Book, FormatError, Mark, Store, content_of
from ..language import verdict
from ..ops.whole import replace
from ..transport import find_program
from . import folder as folders
from .border import FIRST, Seen, differences, seen
from .files import in_memory, workshop
from .folder import Folder, Member, Unfit

CLEAN, ALTERED, OPEN = 0, 1, 3


class Task(NamedTuple):
    """A store, its part of each book, and where it is kept what was found of it, if it is."""

    member: Member
    books: Tuple[bytes, ...]
    paths: Tuple[str, ...]
    is_closed: bool
    program: str
    kept: str = ""
    again: bool = False

    @property
    def id(self) -> str:
        return str(self.member.header.id)

    def call_on_files(self, *words: str) -> Tuple[int, str]:
        """A call of the program over the files themselves: its status, and what it prints."""
        return self._call(self.member.path, self.paths, *words)

    def call(self, content: bytes, *words: str) -> Tuple[int, str]:
        """The same over copies in memory."""
        with in_memory(content) as store, workshop(os.urandom(8).hex()) as work:
            paths = [os.path.join(work, str(at)) for at in range(len(self.books))]
            for path, book in zip(paths, self.books):
                pathlib.Path(path).write_bytes(book)
            return self._call(store, paths, *words)

    def _call(self, store: str, books: Sequence[str], *words: str) -> Tuple[int, str]:
        call = [self.program, f"store={store}", f"notary={','.join(books)}", *words]
        done = subprocess.run(call, stdout=subprocess.PIPE, stderr=subprocess.DEVNULL, text=True)
        return done.returncode, done.stdout


@dataclass
class Found:
    """What was found of a store. `short` is the first tile with a transaction that isn't filed."""

    files: List[str]
    verdict: str
    link: List[str]
    seen: Seen
    short: Optional[int] = None
    status: int = CLEAN


class Proof(NamedTuple):
    """The lines to print, and the status: 0 if all is clean, 1 if something is altered, 3 if something has no verdict."""

    lines: List[str]
    status: int


def tasks(folder: Folder, program: Optional[str]) -> List[Task]:
    """The stores with their parts of the books. The books are read before any store, since an older book says nothing false."""
    parts = [parts_of(path) for path in folder.books]
    last, found = folder.members[-1:], find_program(program)
    return [
        Task(it, tuple(part[it.header.id] for part in parts), folder.books, it not in last, found)
        for it in folder.members
    ]


def parts_of(path: str) -> Dict[int, bytes]:
    """What a book has under each id, as a book. One that can't be taken stays what it is."""
    try:
        content = content_of(path)
        book = Book(content, path)
    except (FormatError, OSError):
        return defaultdict(lambda: b"no book")
    head, place = content[:HEAD], HEAD
    parts: Dict[int, List[bytes]] = defaultdict(lambda: [head])
    for it in book.filings:
        end = place + 5 + (26 if isinstance(it, Mark) else 23 + len(it.spelled))
        parts[it.id].append(content[place:end])
        place = end
    found = {id: b"".join(pieces) + b"\0" for id, pieces in parts.items()}
    return defaultdict(bytes, found)


def look_at(task: Task) -> Found:
    """What is found of a store, or what was kept of it."""
    content = content_of(task.member.path)
    files = [hashlib.sha256(it).hexdigest() for it in (content, *task.books)]
    kept = load(task.kept) if task.kept and not task.again else None
    if kept and kept.files == files:
        return kept
    status, said = task.call(content, "validate", task.id)
    _, link = task.call(content, "link")
    store = Store(content, task.member.path)
    found = Found(files, said.strip() or "no answer", link.split()[1::2], seen(store))
    found.status = status if status in (CLEAN, ALTERED) else OPEN
    if status == CLEAN:
        last, tiles = found.seen.last, verdict(found.verdict).tiles
        is_filed = last is None or tiles and store.end_of_tiles(tiles) > last
        if not is_filed or found.verdict == "unsealed":
            found.short = tiles
        if task.kept and task.is_closed and found.short is None:
            replace(pathlib.Path(task.kept), json.dumps(asdict(found)).encode() + b"\n")
    return found


def load(path: str) -> Optional[Found]:
    try:
        read: Dict[str, Any] = json.loads(pathlib.Path(path).read_text())
        read["seen"] = Seen.of(read["seen"])
        return Found(**read)
    except FileNotFoundError:
        return None
    except (ValueError, TypeError, KeyError) as why:
        raise Error(f"{path} is garbled: remove it") from why


def over_all(run: Callable[[Task], Any], given: Sequence[Task], jobs: int) -> Iterator[Any]:
    if jobs == 1:
        yield from map(run, given)
        return
    with ProcessPoolExecutor(jobs) as pool:
        yield from pool.map(run, given)


def validate(
    folder: str,
    jobs: int = 1,
    again: bool = False,
    state: Optional[str] = None,
    only: Optional[int] = None,
    program: Optional[str] = None,
) -> Proof:
    """Validates each store, and compares each border. `only`: one store, without its borders, for a machine among several."""
    path = os.path.abspath(folder)
    has = folders.look(path)
    given = [
        it._replace(
            kept=state and os.path.join(state, f"{has.id}-{it.member.number}.json") or "",
            again=again,
        )
        for it in tasks(has, program)
        if only in (None, it.member.number)
    ]
    lines = [f"wrong {it}" for it in (*has.wrong, *unowned(has))]
    status = OPEN if lines else CLEAN
    before: Optional[Tuple[Task, Found]] = None
    tiles = 0
    for task, found in zip(given, over_all(look_at, given, jobs)):
        said = [f"{task.member.number:04} id {task.id} {found.verdict}"]
        statuses = [status, found.status]
        if found.status == ALTERED:
            task.call_on_files("validate", task.id)  # so the mark says when it was found
        if found.status == CLEAN:
            tiles += verdict(found.verdict).tiles
        if found.short is not None and task.is_closed:
            said.append(f"its tile {found.short} isn't filed: `dragoonctl ledger notarize`")
            statuses.append(OPEN)
        if only is None:
            wrong = list(broken(before, (task, found)))
            said += [f"border {it}" for it in wrong]
            statuses += [ALTERED] * bool(wrong)
        lines.append(", ".join(said))
        status = ALTERED if ALTERED in statuses else max(statuses)
        before = task, found
    word = {CLEAN: "clean", ALTERED: "altered"}.get(status, "without a verdict")
    lines.append(f"ledger {has.id} {word}: {len(given)} stores, {tiles} tiles clean")
    return Proof(lines, status)


def unowned(folder: Folder) -> Iterator[Unfit]:
    """The ids of the ledger that are filed, and have no store."""
    ids = {it.header.id for it in folder.members}
    for path in folder.books:
        try:
            filed = Book.read(path).ids()
        except (FormatError, OSError):
            continue
        for id in filed:
            name = os.path.basename(folder.store(id - folder.id + 1))
            if folder.id <= id < folder.id + 9_999 and id not in ids:
                yield Unfit("missing", name, f"is not there, and the id {id} is filed in {path}")


def broken(before: Optional[Tuple[Task, Found]], after: Tuple[Task, Found]) -> Iterator[str]:
    """What doesn't hold of a border, in words."""
    (task, found), it = after, after[1].seen
    if before is None and task.member.number == 1:
        if it.tie or it.mark:
            yield "is there before the first store"
        return
    if it.tie is None or it.mark is None:
        yield "has no tie, or no end"
        return
    if it.carried != (it.mark.rows, it.mark.digest) or it.length != it.mark.transactions:
        yield "isn't what its end says"
    if before is None or before[0].member.number != task.member.number - 1:
        return  # that store is missing, which is named
    ours, so_far = before[1].seen, before[1].seen.mark or FIRST
    name = before[0].member.name
    if [it.tie.id, str(it.tie.transactions), it.tie.chain] != [before[0].id, *before[1].link]:
        yield f"isn't tied to {name}: that has {' and '.join(before[1].link)}"
    if it.mark.before != so_far.before + int(before[1].link[0]) - so_far.transactions:
        yield f"counts other transactions than {name} has"
    if before[0].member.header.epoch + (ours.last or 0) > task.member.header.epoch:
        yield f"is before the end of {name}"
    if it.carried != ours.present:
        stores = (Store.read(each.member.path) for each in (before[0], task))
        rows = ", ".join(differences(*stores)) or "tables"
        yield f"carries otherwise than {name} has at its end: {rows}"


def each(
    folder: str, *words: str, jobs: int = 1, program: Optional[str] = None
) -> Iterator[Tuple[Member, int, str]]:
    """What a command answers of each store: `inspect`, `analyse ALG` or `link`."""
    given = tasks(folders.read(os.path.abspath(folder)), program)
    for task, (status, said) in zip(given, over_all(partial(answered, words), given, jobs)):
        yield task.member, status, said


def answered(words: Sequence[str], task: Task) -> Tuple[int, str]:
    command, *more = words
    if command == "inspect":
        return task.call_on_files(command, task.id)
    id = [] if command == "link" else [task.id]
    return task.call(content_of(task.member.path), command, *id, *more)
