"""From models and formulas to message bytes."""

from __future__ import annotations

import struct

from .formula import Formula
from .mistakes import Mistake, Place
from .model import Model
from .paper import FORMULA_HEADER, FORMULA_KIND, FORMULA_VERSION, LABEL, MODEL_HEADER, MODEL_KIND, MODEL_VERSION, ROW, TRANSITION


def _fits(what: str, count: int, size: int, place: Place) -> None:
    """A count that its field can't hold is a mistake even where the program is to refuse."""
    if count >= 256**size:
        raise Mistake(place, f"{count:,} {what} can't be written: their count has {size} byte{'s' if size > 1 else ''}")


def compile_model(model: Model) -> bytes:
    """A model message. Transitions are sorted by source; the file's order stays within a state."""
    place = Place(model.path)
    _fits("states", len(model.states), 2, place)
    _fits("propositions", len(model.propositions), 1, place)
    body = bytearray()
    for label in model.labels:
        # a proposition past the label's 32 bits has no bit; the program refuses the count before it
        body += struct.pack(LABEL, sum(1 << i for i in label if i < 32))
    for step in sorted(model.transitions, key=lambda step: step.source):
        body += struct.pack(TRANSITION, step.source, step.weight, step.action, step.target)
    counts = (len(model.states), len(model.propositions), len(model.transitions))
    length = struct.calcsize(MODEL_HEADER) + len(body)
    return struct.pack(MODEL_HEADER, length, MODEL_VERSION, MODEL_KIND, *counts) + bytes(body)


def compile_formula(formula: Formula, place: Place = Place("formula")) -> bytes:
    """A formula message, its rows in post-order."""
    rows = formula.rows()
    _fits("rows", len(rows), 1, place)
    body = b"".join(struct.pack(ROW, row.operator, row.left, row.right, 0, row.bound) for row in rows)
    length = struct.calcsize(FORMULA_HEADER) + len(body)
    return struct.pack(FORMULA_HEADER, length, FORMULA_VERSION, FORMULA_KIND, len(rows)) + body
