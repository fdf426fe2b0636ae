"""The pictures of bench/: the stored ones are those of the stored tables, and have every row of them."""

import importlib.util
import re
import sys
import unittest
from xml.etree import ElementTree

from .common import ROOT

BENCH = ROOT / "bench"
SVG = "{http://www.w3.org/2000/svg}"


def load():
    """bench/picture.py, which is no package's."""
    spec = importlib.util.spec_from_file_location("picture", BENCH / "picture.py")
    module = importlib.util.module_from_spec(spec)
    sys.modules[spec.name] = module
    spec.loader.exec_module(module)
    return module


picture = load()


def stored(name):
    return (BENCH / name).read_text(encoding="utf-8")


def titles(drawn):
    return "\n".join(title.text for title in ElementTree.fromstring(drawn).iter(f"{SVG}title"))


def rows(text):
    """The rows of all tables that have the library's time, read anew: titles and cells, the workload's name in each."""
    head, name = [], ""
    for line in text.splitlines():
        cells = [cell.strip() for cell in line.split("|")[1:-1]]
        if not cells or not line.startswith("|"):
            head = []
        elif not head:
            head = cells
        elif "(a) µs" in head and "---" not in cells:
            name = cells[0] or name
            yield dict(zip(head, [name] + cells[1:]))


SMALL = """
## x86-64: on this processor itself

| workload | size | bytes | rounds | (a) µs | (b) µs | (e) µs | (f) µs | a/b | a/e | a/f | growth of a, b, d |
|---|---|---|---|---|---|---|---|---|---|---|---|
| rounds: one & two | 8 nodes | 71 | 3 | 2.00 | 4.00 (gcc) | 1.00 (clang) |  | 0.50 | 2.00 |  | |
|  | 16 nodes | 135 | 3 | 9.00 | 100.00 (gcc) | 1.00 (gcc) |  | 0.09 | 9.00 |  | 4.50, 25.00 |
| verdict: three | 4 states | 71 | 1 | 2.00 | 1.00 (gcc) |  | 2.00 (gcc) | 2.00 |  | 1.00 | |

| workload | check | pass |
|---|---|---|
| no time of the library | 1 | 2 |
"""


class BenchPicture(unittest.TestCase):
    def test_stored_pictures_are_those_of_the_stored_tables(self):
        for name, drawn in picture.pictures(stored("RESULTS.md")).items():
            self.assertTrue(drawn == stored(name), f"bench/{name} is another one: python3 bench/picture.py bench/RESULTS.md bench")

    def test_every_row_is_in_the_pictures(self):
        drawn = {name: titles(stored(name)) for name in ("ratios.svg", "growth.svg")}
        found = list(rows(stored("RESULTS.md")))
        self.assertGreater(len(found), 100)
        for row in found:
            name, size = list(row.values())[:2]
            for title, cell in row.items():
                of = "ratios.svg" if title.startswith("a/") else "growth.svg"
                if not cell or not (title.startswith("a/") or title.endswith("µs")) or (of == "growth.svg" and name.startswith("program:")):
                    continue
                entry = rf"{re.escape(name)}; (a/)?\w+: (.*, )?{size.split()[0]} \w+ {re.escape(cell.split()[0])}( µs)?(,|$)"
                self.assertTrue(re.search(entry, drawn[of], re.MULTILINE), f"{of} lacks {title} of {name}, {size}: {cell}")

    def test_pictures_are_drawings_without_scripts_in_900_pixels(self):
        for name in ("ratios.svg", "growth.svg"):
            drawn = ElementTree.fromstring(stored(name))
            self.assertEqual((drawn.tag, drawn.get("width")), (f"{SVG}svg", "900"))
            self.assertEqual({part.tag.removeprefix(SVG) for part in drawn.iter()}, {"svg", "title", "style", "rect", "text", "g", "path"})
            self.assertNotIn("href", stored(name))
            for part in drawn.iter(f"{SVG}text"):
                self.assertTrue(0 <= float(part.get("x")) <= 900 and 0 <= float(part.get("y")) <= float(drawn.get("height")), part.text)

    def test_names_of_workloads_are_text(self):
        for name, drawn in picture.pictures(stored("RESULTS.md")).items():
            shown = {part.text for part in ElementTree.fromstring(drawn).iter(f"{SVG}text")}
            for row in rows(stored("RESULTS.md")):
                if name == "ratios.svg" or "size" in row:
                    self.assertTrue({row.get("workload"), f"search: {row.get('search')}"} & shown, row)

    def test_cells_may_be_empty_and_tables_without_the_library_are_no_workloads(self):
        two, three = picture.read(SMALL)
        self.assertEqual((two.section, two.name, two.unit, three.name), ("x86-64", "rounds: one & two", "nodes", "verdict: three"))
        self.assertEqual(two.of("times", "e"), [(8, "1.00"), (16, "1.00")])
        self.assertEqual((two.versions("ratios"), three.versions("ratios")), (["b", "e"], ["b", "f"]))
        self.assertEqual(three.of("ratios", "f"), [(4, "1.00")])

    def test_ratios_beyond_the_scale_are_arrows(self):
        drawn = picture.pictures(SMALL)["ratios.svg"]
        self.assertIn("x86-64; rounds: one &amp; two; a/b: 8 nodes 0.50, 16 nodes 0.09", drawn)
        self.assertEqual(drawn.count("one &amp; two</text>"), 1)
        wide = picture.Panel("x86-64", 100, 200)
        self.assertEqual((wide.x(0.01), wide.x(picture.LEAST), wide.x(picture.MOST), wide.x(99)), (100, 100, 200, 200))
        self.assertEqual(len(picture.beyond(wide, "b", ["0.50", "0.09"], 0)), 1)
        self.assertIn("0.01 to 0.09", "".join(picture.beyond(wide, "b", ["0.09", "0.01"], 0)))

    def test_results_end_in_why(self):
        self.assertTrue(stored("RESULTS.md").endswith(stored("why.md")), "bench/run.sh writes bench/why.md behind the tables")


if __name__ == "__main__":
    unittest.main()
