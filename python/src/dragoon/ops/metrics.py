"""What Prometheus' node exporter takes from its text files, by prometheus-client: rows for each store that a folder of config files names.

What can't be told has no row.
"""

from __future__ import annotations

import contextlib
import glob
import os
from typing import Dict, List, Optional, Tuple

from prometheus_client import CollectorRegistry, Gauge, write_to_textfile

from ..errors import Error
from .alarms import SECTIONS, is_of
from .conf import Conf, ConfError, read_conf
from .files import look
from .state import load

ROWS = {  # the name, its labels besides the store, and what it says
    "alarms": ("kind", "alarms, by kind: altered, store, notary, fault"),
    "notices": ("kind", "what waits for an acknowledgement, and wakes no one"),
    "looked_after": ("", "1 if a job has looked after the store, and what it kept can be read"),
    "right": ("device", "1 if the file is readable, and begins as the last job saw it"),
    "store_bytes_left": ("", "bytes that the store still takes"),
    "store_full_seconds": ("", "the clock's second from which on the store takes nothing"),
    "last_moment_seconds": ("", "the clock's second of the store's last moment"),
    "tile_seconds": ("", "the length of a tile"),
    "sealed_tiles": ("", "tiles whose digests are filed"),
    "last_filing_seconds": ("", "the clock's second of the last batch"),
    "last_mark_seconds": ("", "the clock's second of the last validation"),
    "last_mark_altered": ("", "1 if the last validation found another history or header"),
    "book_seals_left": ("", "seals that the book still takes"),
    "book_marks_left": ("", "marks that the book still takes"),
    "job_status": ("command", "the status with which a job ended"),
    "job_well_seconds": ("command", "the clock's second at which a job last ended well"),
}


class Metrics:
    def __init__(self) -> None:
        self.registry = CollectorRegistry()
        self.rows = {
            name: self.gauge(name, said, ["store", label] if label else ["store"])
            for name, (label, said) in ROWS.items()
        }

    def gauge(self, name: str, said: str, labels: List[str]) -> Gauge:
        return Gauge(f"dragoon_{name}", said, labels, registry=self.registry)

    def take(self, conf: Conf) -> None:
        """Sets the rows of a store."""

        def row(name: str, value: float, *labels: str) -> None:
            self.rows[name].labels(conf.name, *labels).set(value)

        try:
            state = load(conf)
        except Error:
            state = None
        row("looked_after", state is not None)
        seen = look(conf, state)
        for device in conf.devices:
            row("right", device not in seen.wrong, device)
        keys = {it.event for it in seen.found} | set(state.alarms if state else ())
        for kind in SECTIONS:
            row("alarms", sum(is_of(it, kind, "alarm") for it in keys), kind)
            row("notices", sum(is_of(it, kind, "notice") for it in keys), kind)
        for command, ended in (state.ended if state else {}).items():
            row("job_status", ended["status"], command)
            row("job_well_seconds", ended["well"], command)
        for name, figure in seen.figures(state).items():
            row(name, figure)


def metrics(folder: str, out: str) -> Tuple[int, int]:
    """Replaces the file at once. How many config files there are, and how many of them can't be taken or name the store of another one."""
    with contextlib.suppress(FileNotFoundError), open(out, "rb") as file:
        if file.read(14) != b"# HELP dragoon":
            raise Error(f"{out} is there already, and is no file of metrics")
    found, wrong = Metrics(), 0
    stores: Dict[str, Conf] = {}
    paths = sorted(glob.glob(os.path.join(glob.escape(folder), "*.conf")))
    for path in paths:
        conf = _conf(path)
        if conf is None or os.path.realpath(conf.store) in stores:
            wrong += 1
        else:
            stores[os.path.realpath(conf.store)] = conf
            found.take(conf)
    kept = {it for conf in stores.values() for it in glob.glob(os.path.join(conf.state, "*.json"))}
    alone = kept - {str(conf.file("json")) for conf in stores.values()}
    found.gauge("confs", "config files in the folder", []).set(len(paths))
    found.gauge("wrong_confs", "those that can't be taken, or name another one's store", []).set(
        wrong
    )
    found.gauge("states_alone", "stores that STATE knows and that have no config file", []).set(
        len(alone)
    )
    write_to_textfile(out, found.registry)
    return len(paths), wrong


def _conf(path: str) -> Optional[Conf]:
    try:
        return read_conf(path)
    except ConfError:
        return None
