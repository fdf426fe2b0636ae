"""A model as Graphviz DOT text, and as a picture where Graphviz is installed."""

from __future__ import annotations

import shutil
import subprocess
from pathlib import Path
from typing import List, Optional

from .mistakes import Mistake, Place
from .model import Model
from .runs import Run

PICTURES = ("svg", "png", "pdf")


def _quoted(*lines: str) -> str:
    """A DOT string of one or more lines. Names have no quotes; a file's name may."""
    return '"' + "\\n".join(line.replace("\\", "\\\\").replace('"', '\\"') for line in lines) + '"'


def draw(model: Model, run: Optional[Run] = None) -> str:
    """States as boxes with their propositions below their names, transitions with their weights and actions; a run in bold."""
    states, steps = (set(run.states), set(run.steps)) if run else (set(), set())
    lines: List[str] = [f"digraph {_quoted(Path(model.path).stem)} {{", "    rankdir=LR;", "    node [shape=box, style=rounded];"]
    for state, name in enumerate(model.states):
        # a state's own name would only be said twice
        labels = [label for label in model.label_names(state) if label != name]
        shown = [name] + ([", ".join(labels)] if labels else [])
        bold = ', style="rounded,bold"' if state in states else ""
        lines.append(f"    {_quoted(name)} [label={_quoted(*shown)}{bold}];")
    for step in model.transitions:
        source, target = model.states[step.source], model.states[step.target]
        bold = ", style=bold, penwidth=3" if step in steps else ""
        lines.append(f'    {_quoted(source)} -> {_quoted(target)} [label={_quoted(f"{step.weight}{model.by(step)}")}{bold}];')
    lines.append("}")
    return "".join(line + "\n" for line in lines)


def picture(text: str, kind: str, path: str) -> bytes:
    """DOT text as a picture, by Graphviz."""
    dot = shutil.which("dot")
    if dot is None:
        raise Mistake(Place(path), "a picture needs Graphviz, and there is no 'dot' on the path: install it (apt-get install graphviz, brew install graphviz), or write DOT text to a file that ends in .dot")
    done = subprocess.run([dot, f"-T{kind}"], input=text.encode(), capture_output=True)
    if done.returncode != 0:
        raise Mistake(Place(path), f"'dot' ended with status {done.returncode}: {done.stderr.decode(errors='replace').strip()}")
    return done.stdout


def drawn(text: str, path: str) -> bytes:
    """What goes into a file, by its name's ending: a picture, else DOT text."""
    kind = Path(path).suffix.lower().lstrip(".")
    return picture(text, kind, path) if kind in PICTURES else text.encode()
