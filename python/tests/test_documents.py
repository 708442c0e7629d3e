"""The commands and programs of the pages run, and print what is shown beside them."""
import re
import subprocess
import sys
from pathlib import Path

import pytest

from conftest import PROGRAM, needs_program, run

TOP = Path(__file__).resolve().parents[2]
PAGES = [TOP / "README.md", TOP / "python/README.md", *sorted((TOP / "docs").glob("*.md"))]
# its commands are of root, and have a test of their own
SETUP = TOP / "docs/SETUP.md"
ELSEWHERE = ("$ systemctl", "$ ./dragoon --prove", "$ dpkg-buildpackage", "$ apt-get")
REPLIED = re.compile(
    r"((?:^    .+\n)+)\n[^`]*is replied ((?:`[^`\n]+`(?:, | and )?)+)", re.MULTILINE
)


def blocks(page):
    """Commands after a dollar sign in an indented block, each with the output that follows it."""
    for block in re.findall(r"(?:^    .+\n)+", page.read_text(), re.MULTILINE):
        lines = [line[4:] for line in block.splitlines()]
        if lines[0].startswith("$ "):
            yield lines


def named(cases):
    return [pytest.param(*it, id=f"{it[0].name}-{number}") for number, it in enumerate(cases)]


@needs_program
@pytest.mark.parametrize(
    "page, lines", named((it, lines) for it in PAGES if it != SETUP for lines in blocks(it))
)
def test_commands(page, lines, tmp_path):
    script = "\n".join(it[2:] for it in lines if it.startswith("$ "))
    script = script.replace("/tmp/", f"{tmp_path}/").replace("./dragoon ", f"{PROGRAM} ")
    done = subprocess.run(["bash"], input=script, cwd=TOP, capture_output=True, text=True)
    assert done.stdout.splitlines() == [it for it in lines if not it.startswith("$ ")], done.stderr


@needs_program
def test_the_first_day(tmp_path):
    """SETUP's commands, but for those of systemd and of the package, as this account and below a folder of the test."""
    lines = [it for lines in blocks(SETUP) for it in lines if not it.startswith(ELSEWHERE)]
    script = "\n".join(it[2:] for it in lines if it.startswith("$ "))
    for was, now in (
        (r"runuser -u dragoon -- | -[og] dragoon\b", ""),
        (r"/usr/share/dragoon/", f"{TOP}/python/deploy/"),
        (r"(?<![\w./])/(?=srv|var|etc|root)", f"{tmp_path}/"),
        (r"\b(job \w+|acknowledge) ledger\b", rf"\1 {tmp_path}/etc/dragoon/ledger.conf"),
        (r"(?<![\w/])dragoon (?=store)", f"{PROGRAM} "),
        (r"(?<![\w/])dragoonctl ", f"{sys.executable} {TOP}/dragoonctl "),
        (
            r"^cd /tmp",
            f"mkdir {tmp_path}/root; sed -i 's:=/:={tmp_path}/:' {tmp_path}/etc/dragoon/ledger.conf",
        ),
    ):
        script = re.sub(was, now, script, flags=re.MULTILINE)
    done = subprocess.run(["bash"], input=script, cwd=TOP, capture_output=True, text=True)
    assert done.stdout.splitlines() == [it for it in lines if not it.startswith("$ ")], done.stderr


@needs_program
@pytest.mark.parametrize(
    "page, lines, replies",
    named((it, *found) for it in PAGES for found in REPLIED.findall(it.read_text())),
)
def test_drills(page, lines, replies):
    told = run("drill", given=re.sub("^    ", "", lines, flags=re.MULTILINE)).splitlines()
    assert told == re.findall(r"`([^`]+)`", replies)


@needs_program
@pytest.mark.parametrize(
    "page, program",
    named(
        (it, code)
        for it in PAGES
        for code in re.findall(r"```python\n(.*?)```", it.read_text(), re.DOTALL)
        if "socket=" not in code
    ),
)
def test_programs(page, program, tmp_path, monkeypatch):
    monkeypatch.setenv("DRAGOON", PROGRAM)
    monkeypatch.setenv("PYTHONPATH", str(TOP / "python" / "src"))
    subprocess.run([sys.executable, "-c", program], cwd=tmp_path, check=True)
