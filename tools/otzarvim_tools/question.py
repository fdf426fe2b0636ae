"""A model and a formula over it, read together."""

from __future__ import annotations

from dataclasses import dataclass, replace
from typing import Optional

from .formula import Formula
from .formula_text import read_formula
from .mistakes import Place
from .model import Model
from .names import Names


@dataclass
class Question:
    """`names.model` is the model with a proposition for each state that the formula names."""

    names: Names
    formula: Formula
    place: Place

    @property
    def model(self) -> Model:
        return self.names.model

    def at(self, bound: Optional[int]) -> "Question":
        """The question with a bound, or none, in place of the ?."""
        return replace(self, formula=self.formula.at(bound))

    def text(self) -> str:
        return self.said(self.formula)

    def said(self, formula: Formula) -> str:
        """The text of a formula over the same model, in its names."""
        return formula.text(self.names.name, self.model.action_name)


def read_question(model: Model, text: str, path: str, raw: bool = False, unknowns: int = 0) -> Question:
    """Reads the text of a formula over a model's names. Raw: the program is to find what is wrong."""
    names = Names(model, raw)
    return Question(names, read_formula(text, path, names.number, unknowns, names.action), Place(path))
