"""docs/PROMISES.md cites only what exists, and every must-fail edit; docs/ARCHITECTURE.md lists every public function that asks something."""

import re
import unittest
from pathlib import Path

ROOT = Path(__file__).resolve().parents[2]
PROMISES = (ROOT / "docs" / "PROMISES.md").read_text()

# Stand for each message's own name, or for several names.
PATTERNS = {"read_X", "write_X", "front_of_"}


def sources():
    for pattern in ("crates/*/specs/**/*.antt", "crates/*/proofs/**/*.antt", "crates/*/src/*.rt"):
        yield from ROOT.glob(pattern)


class Promises(unittest.TestCase):
    def test_each_name_stands_in_a_crate(self):
        known = {path.name for path in (ROOT / "crates").iterdir()}
        for path in sources():
            known.update(re.findall(r"[^\s(){}\[\];,.:⌜⌝`]+", path.read_text()))
        cited = {word for code in re.findall(r"`([^`]+)`", PROMISES) for word in re.findall(r"[A-Za-z][\w·′-]*", code)}
        self.assertGreater(len(cited), 100)
        self.assertEqual(sorted(cited - known - PATTERNS), [])

    def test_each_file_exists(self):
        cited = set(re.findall(r"\b[a-z]+/(?:specs|proofs)/\w+\.antt", PROMISES))
        self.assertGreater(len(cited), 20)
        self.assertEqual(sorted(file for file in cited if not (ROOT / "crates" / file).exists()), [])

    def test_each_edit_is_cited(self):
        crates = "|".join(sorted(path.name for path in (ROOT / "crates").iterdir()))
        edits = {f"{path.parts[-3]}/{path.stem}" for path in ROOT.glob("crates/*/must-fail/*.edit")}
        cited = {edit for edit in re.findall(rf"\b(?:{crates})/\w+", PROMISES) if edit.split("/")[1] not in ("specs", "proofs", "src")}
        self.assertEqual(sorted(edits ^ cited), [])


class Leaves(unittest.TestCase):
    def test_public_functions_with_requires_are_listed(self):
        asking = set()
        for path in ROOT.glob("crates/*/src/*.rt"):
            library = path.with_name("lib.rt")
            if library.exists() and f"\nmod {path.stem};" in library.read_text():
                continue  # a private module of a library: public between its modules only
            for name, contract in re.findall(r"\bpub (?:extern \"C\" )?fn (\w+)(.*?)^\s*\{$", path.read_text(), re.M | re.S):
                if re.search(r"^\s*requires\b", contract, re.M):
                    asking.add(name)
        table = (ROOT / "docs" / "ARCHITECTURE.md").read_text().split("| leaf | asks |")[1].split("\n\n")[0]
        listed = set()
        for cell in re.findall(r"^\| (`.*?`) ?[^|]*\|", table, re.M) + re.findall(r"^\| (`.*?) \|", table, re.M):
            for code in re.findall(r"`([^`]+)`", cell):
                listed.update(re.findall(r"\w+", code.split("::")[-1]))
        self.assertGreater(len(asking), 5)
        self.assertEqual(asking ^ (listed - {"trials"}), set())
