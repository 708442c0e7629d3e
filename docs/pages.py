#!/usr/bin/env python3
"""Prints what pages have of the sources, between two marks: the definitions that the contract of `dragoon` reaches, by name, and all
laws, into docs/DEFINITIONS.md; a line for each crate, from the first lines of its first page, into docs/ARCHITECTURE.md.

    python3 docs/pages.py            writes them anew
    python3 docs/pages.py --check    says which is out of date, and changes nothing

The list of definitions begins at the clauses of the top call and of the devices' traits, and follows each name through specs/ to the
definition that it means: aliases, lists in braces, constructors and fields of data. A law is a public function with an empty body in
a file src/laws.rt, and its comment says what it shows.
"""
import collections
import pathlib
import re
import sys

ROOT = pathlib.Path(__file__).resolve().parent.parent
CRATES = ROOT / "crates"
ROOTS = [
    "dragoon_app/src/top.rt",
    "disk_model/src/disk.rt",
    "notary_link/src/notary.rt",
    "outside_io/src/clock.rt",
    "outside_io/src/source.rt",
    "outside_io/src/sink.rt",
]
BEGIN, END = "<!-- begin: docs/pages.py -->\n", "<!-- end -->\n"
WORD = re.compile(r"[A-Za-z_][A-Za-z0-9_']*(?:\.[A-Za-z_][A-Za-z0-9_']*)*")
MARKS = {"abbrev", "unfoldable", "foldable", "opaque", "inline", "private", "rec", "pub", "record", "data"}
HEADS = MARKS | {"infix", "infixl", "infixr"}
LAW = re.compile(r"^pub fn (\w+)", re.MULTILINE)


def crates_in_order():
    lines = (ROOT / "crates.txt").read_text().splitlines()
    return [line.split(":")[0].strip() for line in lines if ":" in line.partition("#")[0]]


def imports(text, line_end):
    """What each imported name means: of names (crate, module, own name), of aliases of modules (crate, module)."""
    names, modules = {}, {}
    pattern = r"^\s*(?:ghost )?use\s+Rattle\.([\w.]+?)(?:\.\{([^}]*)\}|\s+as\s+(\w+))\s*" + line_end
    for path, braces, alias in re.findall(pattern, text, re.MULTILINE):
        crate, _, rest = path.partition(".")
        if rest.startswith("specs"):
            module = rest.partition(".")[2]
            if alias:
                modules[alias] = (crate, module)
            for own, _, other in (it.strip().partition(" as ") for it in braces.split(",")):
                names[(other or own).strip()] = (crate, module, own.strip())
    return names, modules


class Specs:
    """The definitions of all crates: the text of each, by crate, module and name."""

    def __init__(self):
        self.text, self.imported, self.inside = {}, {}, collections.defaultdict(dict)
        for file in sorted(CRATES.glob("*/specs/**/*.antt")):
            crate, _, *parts = file.relative_to(CRATES).with_suffix("").parts
            self.read(crate, ".".join(parts), file.read_text())

    def read(self, crate, module, text):
        self.imported[crate, module] = imports(text, "$")
        key = None
        for line in text.splitlines():
            if not line.strip() or line.startswith("--"):
                continue
            if not line[0].isspace():
                words = [it for it in line.split() if it not in MARKS]
                is_head = line.split()[0] in HEADS
                key = (crate, module, re.split(r"[:({]", words[0])[0]) if is_head else None if line.startswith("use ") else key
                if is_head:
                    self.text[key] = []
                    self.inside[crate, module][key[2]] = key
            if key:
                self.text[key].append(line)
                part = re.match(r"\s+(\w+)\s*:", line)
                if part and " data " in f" {self.text[key][0]} ":
                    self.inside[crate, module].setdefault(part[1], key)

    def meant(self, text, names, modules, inside):
        """The definitions that a text names."""
        for word in WORD.findall(re.sub(r"--.*|//.*", "", text)):
            first, _, rest = word.partition(".")
            if rest and first in modules:
                yield self.inside[modules[first]].get(rest.split(".")[0])
            elif first in inside:
                yield inside[first]
            elif first in names:
                *module, own = names[first]
                yield self.inside[tuple(module)].get(own)

    def reached(self):
        seen, left = set(), []
        for root in ROOTS:
            text = (CRATES / root).read_text()
            left += self.meant(re.sub(r"ghost use[^;]*;", "", text), *imports(text, ";"), {})
        while left:
            key = left.pop()
            if key and key not in seen:
                seen.add(key)
                module = key[:2]
                left += self.meant("\n".join(self.text[key]), *self.imported[module], self.inside[module])
        return seen


def definitions():
    specs = Specs()
    found = specs.reached()
    lines = sum(len(specs.text[key]) for key in found)
    by_module = collections.defaultdict(list)
    for key in specs.text:
        if key in found:
            by_module[key[:2]].append(key[2])
    yield f"{len(found):,} definitions, {lines:,} lines, in {len(by_module)} files.\n"
    for crate in crates_in_order():
        modules = [(module, names) for (of, module), names in by_module.items() if of == crate]
        if modules:
            yield f"\n**{crate}**\n"
            yield from (f"- `{module.replace('.', '/')}`: {' '.join(names)}" for module, names in modules)
    yield "\n## Laws\n"
    for crate in crates_in_order():
        yield from laws(crate)


def laws(crate):
    file = CRATES / crate / "src" / "laws.rt"
    names = LAW.findall(file.read_text()) if file.is_file() else ()
    if names:
        yield f"- `{crate}`: {' '.join(f'`{name}`' for name in names)}"


def first_sentence(crate):
    folder = CRATES / crate / "src"
    root = folder / ("lib.rt" if (folder / "lib.rt").is_file() else "main.rt")
    lines = []
    for line in root.read_text().splitlines():
        if not line.startswith("//! "):
            break
        lines.append(line[4:].strip())
    return re.split(r"(?<=[.:]) ", " ".join(lines) + " ")[0].rstrip(".:")


def crates():
    yield from (f"- `{crate}`: {first_sentence(crate)}" for crate in crates_in_order())


def main(words):
    if words not in ([], ["--check"]):
        sys.exit(f"usage: {__doc__.splitlines()[3].strip()} [--check]")
    for name, lines in (("DEFINITIONS.md", definitions()), ("ARCHITECTURE.md", crates())):
        page = ROOT / "docs" / name
        before, _, rest = page.read_text().partition(BEGIN)
        made = f"{before}{BEGIN}{chr(10).join(lines)}\n{END}{rest.partition(END)[2]}"
        if made != page.read_text():
            if words:
                sys.exit(f"{page.name} is out of date: python3 docs/pages.py")
            page.write_text(made)


if __name__ == "__main__":
    main(sys.argv[1:])
