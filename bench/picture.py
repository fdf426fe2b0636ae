#!/usr/bin/env python3
"""Draws the tables of bench/RESULTS.md: ratios.svg has the library's time divided by each other version's, a row for each workload;
growth.svg has the times by size. Nothing is read but that file, so that the pictures show the numbers of the tables.

Words: the file with the tables, and the folder that the pictures go to."""

import math
import re
import sys
from dataclasses import dataclass, field
from pathlib import Path
from xml.sax.saxutils import escape

# How a version is shown: its shape, whether it is filled, its colours on light and on dark paper (told apart by those who don't see red or
# green), and its words. The letters are those of the tables.
VERSIONS = {
    "a": ("circle", True, "#1b1b1b", "#f2f2f2", "(a) the library"),
    "b": ("circle", True, "#0072b2", "#56b4e9", "(b) plain C"),
    "c": ("square", True, "#d55e00", "#ff9a4d", "(c) plain Rust"),
    "d": ("triangle", True, "#00785a", "#2fcf9f", "(d) C on decoded arrays"),
    "e": ("diamond", True, "#a8437d", "#e79ac4", "(e) plain C that skips as the library does"),
    "f": ("circle", False, "#0072b2", "#56b4e9", "(f) plain C that checks first"),
    "g": ("square", False, "#d55e00", "#ff9a4d", "(g) plain Rust that checks first"),
    "rounds": ("cross", False, "#6b6b6b", "#a8a8a8", "the library's rounds on the same graph"),
    "writer": ("plus", False, "#6b6b6b", "#a8a8a8", "the library's writer of claims"),
}
OTHER_NAMES = {"b behind a check": "f"}


# ---- what the tables say


@dataclass
class Row:
    """What a row of a table says; numbers are kept as the table writes them."""

    size: int
    times: dict = field(default_factory=dict)  # microseconds of each version
    ratios: dict = field(default_factory=dict)  # the library's time divided by each version's


@dataclass
class Workload:
    section: str
    name: str
    unit: str
    rows: list = field(default_factory=list)

    def of(self, held, version):
        """The sizes of a version's times or ratios, with those."""
        return [(row.size, getattr(row, held)[version]) for row in self.rows if version in getattr(row, held)]

    def versions(self, held):
        return [version for version in VERSIONS if self.of(held, version)]


def column(title):
    """What a column holds: times or ratios, and of which version; None where it holds anything else."""
    time = re.fullmatch(r"\(?(\w+)\)?( behind a check)?,? µs", title)
    ratio = re.fullmatch(r"a/\(?(\w+)( behind a check)?\)?", title)
    found = time or ratio
    if not found:
        return None
    version = found[1] + (found[2] or "")
    return "times" if time else "ratios", OTHER_NAMES.get(version, version)


def read_row(titles, cells):
    row = Row(int(cells[1].split()[0]))
    for title, cell in zip(titles, cells):
        held = column(title)
        if held and cell:
            getattr(row, held[0])[held[1]] = cell.split()[0]
    return row


def read_table(section, lines):
    """The workloads of a table; a row without a name is of the one above. A table without the library's time has none."""
    titles, _, *rows = [[cell.strip() for cell in line.strip()[1:-1].split("|")] for line in lines]
    workloads = []
    for cells in rows if "(a) µs" in titles else []:
        if cells[0]:
            name = cells[0] if titles[0] == "workload" else f"{titles[0]}: {cells[0]}"
            workloads.append(Workload(section, name, (cells[1].split() + [titles[1]])[1]))
        workloads[-1].rows.append(read_row(titles, cells))
    return workloads


def read(text):
    """The workloads of all tables, each with its section: the heading up to where it explains itself."""
    workloads, section, table = [], "", []
    for line in text.splitlines() + [""]:
        if line.startswith("|"):
            table.append(line)
            continue
        if table:
            workloads += read_table(section, table)
        table = []
        if line.startswith("## "):
            section = re.split(r" \(|:", line[3:])[0]
    return workloads


def sections(workloads):
    return list(dict.fromkeys(w.section for w in workloads))


def names(workloads):
    """Each name once, in the order of the section that has the most."""
    most = max(sections(workloads), key=lambda section: sum(w.section == section for w in workloads))
    return list(dict.fromkeys(w.name for w in sorted(workloads, key=lambda w: w.section != most)))


def shown_versions(workloads, held):
    return [version for version in VERSIONS if any(w.of(held, version) for w in workloads)]


# ---- what a picture is made of

WIDTH, EDGE = 900, 12
INK, PALE, GRID, PAPER = ("#1b1b1b", "#f2f2f2"), ("#5c5c5c", "#b4b4b4"), ("#dddddd", "#3a3f46"), ("#ffffff", "#15181c")


def style():
    """The colours on light paper, and on dark paper for those who ask for it: the picture has its own paper."""

    def rules(i):
        kinds = [f".paper{{fill:{PAPER[i]}}}text{{fill:{INK[i]}}}.pale{{fill:{PALE[i]}}}.halo{{stroke:{PAPER[i]}}}.goal{{stroke:{INK[i]}}}.grid{{stroke:{GRID[i]}}}"]
        return "".join(kinds + [f".{v}{{stroke:{shown[2 + i]}}}.{v}.full{{fill:{shown[2 + i]}}}" for v, shown in VERSIONS.items()])

    fixed = "text{font:11px Helvetica,Arial,'DejaVu Sans',sans-serif}.name{font-size:10px}.small{font-size:9px}.head{font-size:13px;font-weight:bold}"
    fixed += ".halo{paint-order:stroke;stroke-width:3}path{fill:none;stroke-width:1.2}.dash{stroke-dasharray:4 3}.dots{stroke-dasharray:1 3}.thick{stroke-width:2.4}"
    return f"<style>{fixed}{rules(0)}@media (prefers-color-scheme:dark){{{rules(1)}}}</style>"


def words(x, y, text, kind="", anchor="start"):
    return f'<text x="{x:.1f}" y="{y:.1f}" class="{kind}" text-anchor="{anchor}">{escape(text)}</text>'


def stroke(points, kind):
    return f'<path class="{kind}" d="M{"L".join(f"{x:.1f} {y:.1f}" for x, y in points)}"/>'


CORNERS = {
    "square": [(-1, -1), (1, -1), (1, 1), (-1, 1)],
    "triangle": [(0, -1.2), (1.2, 1), (-1.2, 1)],
    "diamond": [(0, -1.4), (1.4, 0), (0, 1.4), (-1.4, 0)],
    "cross": [(-1, -1), (1, 1), (0, 0), (-1, 1), (1, -1), (0, 0)],
    "plus": [(-1.2, 0), (1.2, 0), (0, 0), (0, -1.2), (0, 1.2), (0, 0)],
}


def outline(shape, x, y, r):
    if shape == "circle":
        return f"M{x - r:.1f} {y:.1f}a{r:.1f} {r:.1f} 0 1 0 {2 * r:.1f} 0a{r:.1f} {r:.1f} 0 1 0 {-2 * r:.1f} 0Z"
    return "M" + "L".join(f"{x + r * dx:.1f} {y + r * dy:.1f}" for dx, dy in CORNERS[shape]) + "Z"


def marks(version, places):
    """The marks of a version; a place is across, down and how large."""
    shape, filled = VERSIONS[version][:2]
    return f'<path class="{version}{" full" if filled else ""}" d="{"".join(outline(shape, *place) for place in places)}"/>'


def titled(title, parts):
    """Parts with a title, which a viewer shows where the pointer rests and a reader of text can find."""
    return f"<g><title>{escape(title)}</title>{''.join(parts)}</g>"


def legend(versions, y):
    """Each version's mark and words, as many to a line as fit; and where the next line would stand."""
    parts, x = [], EDGE
    for version in versions:
        wide = 26 + 6.2 * len(VERSIONS[version][4])
        if x + wide > WIDTH:
            x, y = EDGE, y + 17
        parts += [marks(version, [(x + 5, y - 4, 4)]), words(x + 14, y, VERSIONS[version][4])]
        x += wide
    return parts, y + 17


def picture(title, notes, versions, body):
    """A whole picture; the body is given where it starts, and gives its parts and where it ends."""
    parts = [words(EDGE, 24, title, "head")] + [words(EDGE, 43 + 16 * i, note) for i, note in enumerate(notes)]
    shown, y = legend(versions, 47 + 16 * len(notes))
    drawn, end = body(y)
    height = math.ceil(end + EDGE)
    head = f'<svg xmlns="http://www.w3.org/2000/svg" viewBox="0 0 {WIDTH} {height}" width="{WIDTH}" height="{height}" role="img">'
    paper = f'<rect class="paper" width="{WIDTH}" height="{height}"/>'
    return "\n".join([head, f"<title>{escape(title)}</title>", style(), paper, *parts, *shown, *drawn, "</svg>", ""])


# ---- ratios

LABELS, GAP, LANE, SPACE = 250, 18, 9, 9
LEAST, MOST = 0.1, 5
TICKS = ((0.1, "grid", "start"), (0.2, "grid", "middle"), (0.5, "grid", "middle"), (1.0, "goal", "end"), (1.2, "goal dash", "start"),
         (2, "grid", "middle"), (5, "grid", "end"))


@dataclass
class Panel:
    section: str
    left: float
    right: float

    def x(self, ratio):
        part = math.log(min(max(ratio, LEAST), MOST) / LEAST) / math.log(MOST / LEAST)
        return self.left + part * (self.right - self.left)


def panels(named):
    wide = (WIDTH - EDGE - LABELS - GAP * (len(named) - 1)) / len(named)
    return [Panel(section, LABELS + i * (wide + GAP), LABELS + i * (wide + GAP) + wide) for i, section in enumerate(named)]


def beyond(panel, version, values, y):
    """Arrows for ratios that the scale has no place for, with the numbers where no mark is in their way."""
    parts = []
    for edge, turn, anchor, out in ((panel.left, 1, "start", [v for v in values if float(v) < LEAST]),
                                    (panel.right, -1, "end", [v for v in values if float(v) > MOST])):
        if not out:
            continue
        parts.append(stroke([(edge + 5 * turn, y - 3), (edge, y), (edge + 5 * turn, y + 3)], version))
        if len(out) == len(values):
            least, most = min(out, key=float), max(out, key=float)
            parts.append(words(edge + 9 * turn, y + 3, least if least == most else f"{least} to {most}", "small halo", anchor))
    return parts


def lane(panel, workload, version, y):
    """The ratios to one version: a mark for each size, the larger the larger."""
    held = workload.of("ratios", version)
    xs = [panel.x(float(ratio)) for _, ratio in held]
    parts = [stroke([(min(xs), y), (max(xs), y)], version)] if min(xs) < max(xs) else []
    larger = 0.6 if len(held) > 1 else 0
    parts.append(marks(version, [(x, y, 3.5 - larger * (len(held) - 1 - i)) for i, x in enumerate(xs) if LEAST <= float(held[i][1]) <= MOST]))
    parts += beyond(panel, version, [ratio for _, ratio in held], y)
    listed = ", ".join(f"{size} {workload.unit} {ratio}" for size, ratio in held)
    return titled(f"{workload.section}; {workload.name}; a/{version}: {listed}", parts)


def scale(panel, top, bottom):
    """The lines of the scale with their numbers, and the goals."""
    parts = [words(panel.left, top - 20, panel.section, "head")]
    for tick, kind, anchor in TICKS:
        x = panel.x(tick)
        parts.append(stroke([(x, top), (x, bottom)], kind))
        pale = "small" if "goal" in kind else "small pale"
        parts += [words(x + {"end": 2, "start": -1}.get(anchor, 0), y, f"{tick}", pale, anchor) for y in (top - 4, bottom + 10)]
    return parts


def ratio_rows(shown, workloads, y):
    """A row for each workload, with a lane for each version, side by side for each section."""
    parts, before = [], ""
    for name in names(workloads):
        alike = [w for w in workloads if w.name == name]
        versions = shown_versions(alike, "ratios")
        high = SPACE + LANE * len(versions)
        first = name.split(":")[0] if ":" in name else name.split()[0]
        parts += [stroke([(EDGE, y), (WIDTH - EDGE, y)], "goal" if first != before else "grid"), words(EDGE, y + high / 2 + 4, name)]
        for panel in shown:
            own = [w for w in alike if w.section == panel.section]
            parts += [lane(panel, w, v, y + SPACE / 2 + LANE * (versions.index(v) + 0.5)) for w in own for v in w.versions("ratios")]
            if not own:
                parts.append(words(panel.left + 9, y + high / 2 + 4, "not measured here", "pale small"))
        y, before = y + high, first
    return parts, y


def ratios(workloads):
    shown = panels(sections(workloads))

    def body(y):
        top = y + 26
        rows, bottom = ratio_rows(shown, workloads, top)
        return [part for panel in shown for part in scale(panel, top, bottom)] + rows, bottom + 10

    notes = ["Left of 1.0 the library is faster. A mark is a size: the larger the mark, the larger the input. Lines: the goals, 1.0 and 1.2.",
             f"An arrow is a ratio below {LEAST:g} or above {MOST:g}."]
    return picture("The library's time divided by that of other versions, on the same inputs", notes, shown_versions(workloads, "ratios"), body)


# ---- growth

COLUMNS, CELL, LEFT, TOP, BOTTOM = 4, 142, 42, 22, 18


@dataclass
class Cell:
    """A place for a workload's times by size, both on scales of powers."""

    x: float
    y: float
    sizes: tuple
    times: tuple

    def at(self, size, time):
        right, low = self.x + (WIDTH - 2 * EDGE) / COLUMNS - 14, self.y + CELL - BOTTOM
        across = math.log(size / self.sizes[0]) / math.log(self.sizes[1] / self.sizes[0])
        up = math.log(time / self.times[0]) / math.log(self.times[1] / self.times[0])
        return self.x + LEFT + 6 + across * (right - self.x - LEFT - 12), low - up * (low - self.y - TOP)


def duration(micros):
    for unit, name in ((1e6, "s"), (1e3, "ms"), (1, "µs")):
        if micros >= unit or name == "µs":
            return f"{micros / unit:g} {name}"


def ticks(least, most):
    """Powers of ten between two times, and where there are fewer than two also their double and five times."""
    for factors in ((1,), (1, 2, 5)):
        found = [f * 10.0**k for k in range(-3, 9) for f in factors if least <= f * 10.0**k <= most]
        if len(found) > 1:
            return found
    return found


def frame(cell, workload):
    """The name, the sizes and the times beside the lines."""
    parts = [words(cell.x, cell.y + 11, workload.name, "name")]
    left, right = cell.sizes
    for time in ticks(*cell.times):
        (x, y), (end, _) = cell.at(left, time), cell.at(right, time)
        parts += [stroke([(x - 6, y), (end + 6, y)], "grid"), words(x - 9, y + 3, duration(time), "pale small", "end")]
    for row in workload.rows:
        x, y = cell.at(row.size, cell.times[0])
        parts.append(stroke([(x, y - 2), (x, y + 2)], "goal"))
        if row.size == left:
            parts.append(words(x, y + 12, f"{left}", "pale small", "middle"))
        if row.size == right:
            parts.append(words(x + 6, y + 12, f"{right} {workload.unit}", "pale small", "end"))
    return parts


def curve(cell, workload, version):
    held = workload.of("times", version)
    points = [cell.at(size, float(time)) for size, time in held]
    parts = [stroke(points, version + (" thick" if version == "a" else ""))] + [marks(version, [(x, y, 2.4) for x, y in points])]
    return titled(f"{workload.section}; {workload.name}; {version}: " + ", ".join(f"{size} {workload.unit} {time} µs" for size, time in held), parts)


def growing(workload, x, y):
    sizes = workload.rows[0].size, workload.rows[-1].size
    held = [float(time) for row in workload.rows for time in row.times.values()]
    cell = Cell(x, y, sizes, (min(held) / 1.25, max(held) * 1.25))
    start = float(workload.rows[0].times["a"])
    most = min(sizes[1], sizes[0] * cell.times[1] / start)
    guide = stroke([cell.at(sizes[0], start), cell.at(most, start * most / sizes[0])], "goal dots")
    curves = [curve(cell, workload, v) for v in reversed(workload.versions("times"))]
    return frame(cell, workload) + [guide] + curves


def growth(workloads):
    workloads = [w for w in workloads if len(w.rows) > 1]

    def body(y):
        parts = []
        for section in sections(workloads):
            parts.append(words(EDGE, y + 14, section, "head"))
            y += 24
            own = [w for w in workloads if w.section == section]
            for i, workload in enumerate(own):
                row, place = divmod(i, COLUMNS)
                parts += growing(workload, EDGE + place * (WIDTH - 2 * EDGE) / COLUMNS, y + row * CELL)
            y += math.ceil(len(own) / COLUMNS) * CELL + 6
        return parts, y

    notes = ["Time of a call by the size of its input, which doubles from tick to tick. Dotted: where twice the size takes twice the time."]
    return picture("How the time grows with the size", notes, shown_versions(workloads, "times"), body)


def pictures(text):
    """The pictures of a file of tables, by their names."""
    workloads = read(text)
    return {"ratios.svg": ratios(workloads), "growth.svg": growth(workloads)}


def main(results, folder):
    for name, drawn in pictures(Path(results).read_text(encoding="utf-8")).items():
        (Path(folder) / name).write_text(drawn, encoding="utf-8")


if __name__ == "__main__":
    if len(sys.argv) != 3:
        sys.exit(__doc__)
    main(*sys.argv[1:])
