"""What the program would refuse, found before it is asked and said with the person's own names.

Each complaint has document 01's number, so that a refusal of the program can be explained by it.
"""

from __future__ import annotations

from typing import Iterator, List, NamedTuple

from .formula import Formula
from .mistakes import Mistake, Place
from .model import Model
from .paper import LENGTH, LIMIT, LIMITS, NAME, PROGRAM_INPUT, PROPOSITIONS


class Complaint(NamedTuple):
    """The number that the program would give, and the mistake in words."""

    number: int
    mistake: Mistake


def _outside(what: str, count: int, place: Place, more: str = "") -> Iterator[Complaint]:
    least, most = LIMITS[what]
    if not least <= count <= most:
        yield Complaint(LIMIT, Mistake(place, f"{count} {what}: {least} to {most:,} are allowed{more}"))


def of_model(model: Model, named: int = 0) -> Iterator[Complaint]:
    """Counts outside their limits. So many of the propositions are states that the formula names."""
    place = Place(model.path)
    yield from _outside("states", len(model.states), place)
    yield from _outside("propositions", len(model.propositions), place, f" ({named} for states that the formula names)" if named else "")
    yield from _outside("transitions", len(model.transitions), place)


def of_formula(formula: Formula, propositions: int, place: Place) -> Iterator[Complaint]:
    """Too many rows, and propositions by number that don't exist."""
    rows = formula.rows()
    yield from _outside("rows", len(rows), place)
    for row in rows:
        if row.operator in PROPOSITIONS and row.left >= propositions:
            yield Complaint(NAME, Mistake(place, f"there is no proposition p{row.left}: the model has {propositions}"))


def of_input(length: int, place: Place) -> Iterator[Complaint]:
    """More bytes than the program takes."""
    if length > PROGRAM_INPUT:
        yield Complaint(LENGTH, Mistake(place, f"model and formula take {length:,} bytes together: the program takes {PROGRAM_INPUT:,}"))


class Complaints(Exception):
    """All that was found wrong; ends a command with status 2."""

    def __init__(self, complaints: List[Complaint]) -> None:
        super().__init__("\n".join(str(complaint.mistake) for complaint in complaints))


def insist(complaints: Iterator[Complaint]) -> None:
    """Raises all complaints together, if there is one."""
    found = list(complaints)
    if found:
        raise Complaints(found)
