"""Random plain work on real files, from a seed: what accepted commands, and kills during them, leave.

    History(seed, folder).step()    # one command or script, accepted or refused; what it was is the last of .calls
"""
from __future__ import annotations

import random
import subprocess
import time

from damaged import laid

from conftest import PROGRAM
from dragoon.verify import payloads_of_store

CHAINS = ("m", "t", "a", "ta")
# what a run may say of the notary, and what is refused whatever is stored
OTHERS = (
    "validate",
    "validate",
    "audit",
    "analyse mono",
    "analyse tiled",
    "analyse a3d era 1",
    "?",
)


class History:
    """A store of the id 7 with one book or three."""

    def __init__(self, seed, folder, books=None):
        self.chance, self.folder = random.Random(seed), folder
        self.calls, self.number, self.moment, self.keys = [], 0, 0, 40
        self.store = folder / "0.store"
        count = books or self.chance.choice((1, 1, 1, 3))
        self.book = ",".join(str(folder / f"{at}.book") for at in range(count))
        self.size = self.chance.choice((3, 3, 300, 9_000, 30_000))
        width = self.chance.choice((1, 1, 60, 3_600))
        self.call("init", 7, width, self.chance.randrange(4), self.chance.choice(CHAINS))
        self.widths = (0, 0, 1, width // 2, width, 3 * width, 20 * width)
        self.call("run", 7, "scripted", given="create t k int v text w bytes\n")

    def call(self, *words, given="", **devices):
        """A command over the store, its books and further devices; its status."""
        named = {"store": self.store, "notary": self.book, **devices}
        call = [*(f"{name}={path}" for name, path in named.items()), *map(str, words)]
        self.calls.append((" ".join(call), given))
        return subprocess.run([PROGRAM, *call], input=given.encode(), capture_output=True)

    def alarms(self):
        """What `inspect` has alarms of."""
        call = [PROGRAM, f"store={self.store}", f"notary={self.book}", "inspect", "7"]
        done = subprocess.run(call, capture_output=True, text=True)
        assert done.returncode in (0, 25), (self.calls, done.stdout)
        return [line for line in done.stdout.splitlines() if line.startswith("alarm ")]

    # ---- the lines of a run

    def value(self):
        text = "'" + "x" * self.chance.randrange(self.size) + "'"
        return f"{self.chance.choice((text, text, 'null'))} " + self.chance.choice(
            ("null", "x'00ff'")
        )

    def statement(self):
        table, key = self.chance.choice("tttu"), self.chance.randrange(self.keys)
        verb = self.chance.choice(
            ("insert",) * 5 + ("update", "update", "delete", "get", "create", "scan")
        )
        if verb == "create":
            return f"create {table} k int v text w bytes"
        if verb == "scan":
            return f"scan {table}"
        return f"{verb} {table} {key}" + (
            f" {self.value()}" if verb in ("insert", "update") else ""
        )

    def line(self):
        kind = self.chance.randrange(12)
        if kind < 2:
            self.moment += self.chance.choice(self.widths)
            return f"now {self.moment}"
        if kind < 5:
            verbs = ("begin", "begin", "begin", "commit", "commit", "abort")
            session, verb = self.chance.choice("01"), self.chance.choice(verbs)
            return f"s{session} " + self.chance.choice((verb, self.statement(), self.statement()))
        if kind == 5:
            return "notarize"
        if kind == 6:
            policy = f"policy {self.chance.randrange(4)} {self.chance.choice(CHAINS)}"
            return self.chance.choice((policy, *OTHERS))
        return self.statement()

    def lines(self):
        return "".join(f"{self.line()}\n" for _ in range(self.chance.choice((1, 5, 20, 60))))

    # ---- steps

    def scripted(self):
        self.call("run", 7, "scripted", given=self.lines())

    def by_the_clock(self):
        self.call("run", 7, given=self.lines())

    def make(self):
        self.call("make", 7, self.chance.randrange(9), self.chance.randrange(1, 40))

    def command(self):
        policy = ("policy", 7, self.chance.randrange(4), self.chance.choice(CHAINS))
        some = [("notarize", 7)] * 3 + [("validate", 7), ("analyse", 7, "mono"), ("link",), policy]
        self.call(*self.chance.choice(some))

    def sleep(self):
        if self.chance.random() < 0.05:
            time.sleep(1)

    def new(self, end):
        self.number += 1
        return self.folder / f"{self.number}.{end}"

    def evidence(self):
        copy = self.new("copy")
        copy.write_bytes(self.store.read_bytes())
        self.call("evidence", 7, copy=copy, target=self.new("evidence"))

    def restore(self):
        """From a sound store or a sound copy, where the other one may be cut or missing."""
        content, copy, target = self.store.read_bytes(), self.new("copy"), self.new("store")
        left = self.chance.choice((content, content[: self.chance.randrange(len(content))], b""))
        store, copied = self.chance.sample((content, left), 2)
        other = self.new("cut")
        other.write_bytes(store)
        copy.write_bytes(copied)
        self.calls.append((f"{other} has {len(store)} and {copy} {len(copied)} bytes", ""))
        if not self.call("restore", 7, store=other, copy=copy, target=target).returncode:
            self.store = target if target.exists() else self.store

    def migrate(self):
        """From the same store in format 1."""
        content, old, target = self.store.read_bytes(), self.new("old"), self.new("store")
        head = content[:8] + b"1" + content[9:64]
        old.write_bytes(laid(head, list(payloads_of_store(content)), segmented=False))
        if not self.call("migrate", 7, store=old, target=target).returncode:
            self.store = target

    STEPS = (scripted, scripted, scripted, scripted, by_the_clock, make, command, command, command)
    STEPS += (sleep, evidence, restore, migrate)

    def step(self):
        self.chance.choice(self.STEPS)(self)

    def kill(self):
        """A run that files, killed within the time that one takes."""
        lines = "".join(
            f"now {self.moment + at * self.widths[4]}\ninsert t {self.keys + at} 'x' null\nnotarize\n"
            for at in range(40)
        )
        self.moment, self.keys = self.moment + 40 * self.widths[4], self.keys + 40
        call = [f"store={self.store}", f"notary={self.book}", "run", "7", "scripted"]
        self.calls.append((" ".join(call) + "  # killed", lines))
        pipes = dict(stdin=subprocess.PIPE, stdout=subprocess.DEVNULL, stderr=subprocess.DEVNULL)
        with subprocess.Popen([PROGRAM, *call], **pipes) as process:
            process.stdin.write(lines.encode())
            process.stdin.flush()
            time.sleep(self.chance.random() * 0.03)
            process.kill()
            process.stdin.close()
        return process.returncode == -9
