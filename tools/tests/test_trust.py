"""docs/TRUST.md lists the files that must be read, and how many lines of them the entry points' contracts rest on.

A line counts if it belongs to a definition that a contract cites, or that such a definition cites, and so on; comments, imports and
blank lines don't count."""

import re
import unittest
from pathlib import Path

ROOT = Path(__file__).resolve().parents[2]
TRUST = (ROOT / "docs" / "TRUST.md").read_text()

# A name, or an operator, as the language splits its text.
TOKEN = re.compile(r"[^\s(){}\[\],;:λ.⌜⌝]+")

# The entry points of each crate with code; in the others every public method counts, and no function.
ENTRIES = {
    "refusal": (),
    "graph": ("check",),
    "model": ("check",),
    "syntax": (),
    "formula": ("check",),
    "turns": (),
    "rounds": ("solve",),
    "claims": ("check",),
    "ranks": ("write",),
    "text": ("text",),
    "entries": ("returned",),
    "lines": ("report",),
    "tally": (),
    "build": (),
    "settling": (),
    "states": ("settle", "graph", "nodes"),
    "verdict": ("decide",),
    "report": ("report", "program"),
    "export": None,
}


def imported(line):
    """The file that a `use` line names, and the names it brings in: {name: file}, {alias: file}."""
    line = re.sub(r"^(?:ghost |pub |unfoldable )*use ", "", " ".join(line.split())).rstrip(";")
    match = re.match(r"Rattle\.(\w+)\.specs\.(\w+)(?:\.\{(.*)\}| as (\S+))$", line)
    if not match:
        return {}, {}
    crate, module, names, alias = match.groups()
    file = (crate, module)
    return ({name.strip(): file for name in names.split(",")}, {}) if names else ({}, {alias: file})


class File:
    """A file of definitions: the lines of each, and what its imports bring in."""

    def __init__(self, text):
        self.lines, self.names, self.aliases = {}, {}, {}
        current = []
        # an import may take several lines
        for line in re.sub(r"(?m)^((?:pub |unfoldable )*use [^\n{]*\{[^}]*)\}", lambda found: " ".join(found[0].split()), text).splitlines():
            line = line.strip()
            if not line or line.startswith("--") or re.match(r"(?:pub )?mod |module |infix", line):
                continue
            if re.match(r"(?:pub |unfoldable )*use ", line):
                names, aliases = imported(line)
                self.names.update(names)
                self.aliases.update(aliases)
                continue
            start = re.match(r"(?:unfoldable |abbrev )?(?:pub )?(?:record |data )?(\S+)(?: [({].*)? :(?: |$)", line)
            if start and re.match(r"(?:unfoldable |abbrev )|(?:pub )?(?:record |data )", line):
                current = self.lines.setdefault(start.group(1), [])
            current.append(line)


FILES = {(path.parts[-3], path.stem): File(path.read_text()) for path in ROOT.glob("crates/*/specs/*.antt")}


def cited(text, names, aliases):
    """The definitions that a text names, as (file, name)."""
    found = {(names[token], token) for token in TOKEN.findall(text) if token in names}
    for alias, name in re.findall(r"([\w-]+)\.([^\s(){}\[\],;.]+)", text):
        if alias in aliases:
            found.add((aliases[alias], name))
    for name, file in names.items():
        if name.startswith("◌") and name.strip("◌") in TOKEN.findall(text):
            found.add((file, name))
    if "= do" in text:
        found |= {(("wire", "Read"), "◌>>=◌"), (("wire", "Read"), "◌>>◌")}
    return found


def contracts():
    """What the contracts of entry points and public methods cite."""
    for crate, entries in ENTRIES.items():
        for path in (ROOT / "crates" / crate / "src").glob("*.rt"):
            text = path.read_text()
            names, aliases = {}, {}
            for line in re.findall(r"^ghost use [^;]*;", text, re.M):
                brought = imported(line)
                names.update(brought[0])
                aliases.update(brought[1])
            for indent, name, contract in re.findall(r"^( *)pub (?:extern \"C\" )?fn (\w+)(.*?)^ *\{$", text, re.M | re.S):
                if indent or entries is None or name in entries:
                    yield from cited(contract, names, aliases)


def read():
    """How many lines of each file the contracts rest on."""
    seen, left = set(), set(contracts())
    while left:
        file, name = left.pop()
        definitions = FILES.get(file)
        if (file, name) in seen or not definitions or name not in definitions.lines:
            continue
        seen.add((file, name))
        names = {**{own: file for own in definitions.lines}, **definitions.names}
        left |= cited("\n".join(definitions.lines[name]), names, definitions.aliases)
    counts = {}
    for file, name in seen:
        counts[file] = counts.get(file, 0) + len(FILES[file].lines[name])
    return counts


def listed():
    """The rows of the table: the files of each, and its number of lines."""
    for files, lines in re.findall(r"^\| \d+ \| (.*?) \| (\d+) \|", TRUST, re.M):
        row = []
        for crate, modules in re.findall(r"(\w+)/specs/(\w+|\{[^}]*\})", files):
            row += [(crate, module) for module in re.findall(r"\w+", modules)]
        yield row, int(lines)


class Trust(unittest.TestCase):
    def test_each_file_that_is_cited_is_listed(self):
        self.assertEqual(sorted(set(read()) ^ {file for row, _ in listed() for file in row}), [])

    def test_the_lines_are_counted(self):
        counts = read()
        self.assertEqual([lines for _, lines in listed()], [sum(counts.get(file, 0) for file in row) for row, _ in listed()])
        total = re.search(r"blank lines, ([\d,]+) in all", TRUST).group(1)
        self.assertEqual(int(total.replace(",", "")), sum(counts.values()))
