"""The program that the scripts measure: that of ./dragoon, or the one that DRAGOON names. And a run of it, whose lines are timed."""
import os
import pathlib
import subprocess
import sys
import threading
import time

BENCH = pathlib.Path(__file__).resolve().parent
ROOT = BENCH.parent
PROGRAM = os.environ.get("DRAGOON") or ROOT / "crates/dragoon_cli/out/dragoon_cli"


def prove():
    """Proves and builds it first, if no other is named."""
    if not os.environ.get("DRAGOON") and subprocess.run([ROOT / "dragoon", "--prove"]).returncode:
        sys.exit(70)


def fail(answer):
    sys.exit(f"bench: a wrong answer: {answer!r}")


class Run:
    """A scripted run. `opening` is the seconds until its first line is replied."""

    def __init__(self, store, book=os.devnull):
        words = [PROGRAM, f"store={store}", f"notary={book}", "run", "7", "scripted"]
        pipes = dict(stdin=subprocess.PIPE, stdout=subprocess.PIPE, stderr=subprocess.DEVNULL)
        self.process = subprocess.Popen(words, text=True, **pipes)
        self.opening, _ = self.ask("get t 0")

    def __enter__(self):
        return self

    def __exit__(self, *_):
        self.process.stdin.close()
        self.process.wait()

    def ask(self, *lines):
        """The seconds until the last line is replied, each sent once the one before is; and that reply."""
        begin = time.perf_counter()
        for line in lines:
            self.process.stdin.write(line + "\n")
            self.process.stdin.flush()
            reply = self.process.stdout.readline().rstrip("\n")
        if reply.startswith("fault") or not reply:
            fail(reply)
        return time.perf_counter() - begin, reply

    def stream(self, lines, refused=0):
        """The seconds that lines take, sent all at once. Each has one reply, and so many are to be refused."""

        def send():
            self.process.stdin.write("".join(line + "\n" for line in lines))
            self.process.stdin.flush()

        begin = time.perf_counter()
        threading.Thread(target=send).start()
        replies = [self.process.stdout.readline() for _ in lines]
        seconds = time.perf_counter() - begin
        found = [it for it in replies if not it.startswith(("ok", "row", "none"))]
        if len(found) != refused:
            fail(f"{len(found)} lines were refused, and not {refused}: {found[:1]}")
        return seconds
