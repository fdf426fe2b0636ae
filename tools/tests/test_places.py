"""Facts of a function's proof are found by named places: a chain of five and more steps back stands only where a place is defined."""

import re
import unittest
from pathlib import Path

ROOT = Path(__file__).resolve().parents[2]

# Steps back, also over the end of a line.
CHAIN = re.compile(r"(?:\.before\s*){5,}")

# The definition of a place: its type leads from a place, or from a place and what it needs, to another.
DEFINED = re.compile(r"^\s*abbrev (?:pub )?(\S+) : .*→ (?:goal|tie|lts)\.\S+.*\n\s*\1 .*=", re.MULTILINE)


def chains(text):
    """The lines, counted from 1, in which a long chain starts outside the definition of a place."""
    defined = {text.count("\n", 0, match.end()) + 1 for match in DEFINED.finditer(text)}
    lines = (text.count("\n", 0, match.start()) + 1 for match in CHAIN.finditer(text))
    return [line for line in lines if line not in defined]


class Places(unittest.TestCase):
    def test_chains_are_found(self):
        place = "abbrev start : tie.After-a → tie.Start\nstart c = c .before .before .before .before .before\n"
        self.assertEqual(chains(place), [])
        self.assertEqual(chains("need c = c .before .before .before .before .args"), [])
        self.assertEqual(chains(place + "need c = c .before .before .before .before .before .args"), [3])
        self.assertEqual(chains("need c =\n    c .before .before .before\n    .before .before .args"), [2])
        self.assertEqual(chains("abbrev n : tie.After-a → ℕ\nn c = c .before .before .before .before .before .args"), [2])

    def test_places_have_names(self):
        found = []
        for path in sorted(ROOT.glob("crates/*/proofs/**/*.antt")):
            found += [f"{path.relative_to(ROOT)}:{line}" for line in chains(path.read_text())]
        self.assertEqual(found, [])


if __name__ == "__main__":
    unittest.main()
