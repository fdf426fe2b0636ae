"""What the library's settled values say of each part of a formula in each state."""

from __future__ import annotations

from typing import Dict, List, Optional

from .formula import Formula
from .library import Settled
from .paper import INFINITE, UNTILS
from .question import Question


class Values:
    """State a and row r have node a + s·r; the j-th until row has also the helper node a + s·(f + j)."""

    def __init__(self, question: Question, settled: Settled) -> None:
        self.question = question
        self.settled = settled
        self.states = len(question.model.states)
        self.parts: List[Formula] = question.formula.parts()
        untils = [row for row, part in enumerate(self.parts) if part.operator in UNTILS]
        self.helpers: Dict[int, int] = {row: self.states * (len(self.parts) + j) for j, row in enumerate(untils)}

    @property
    def root(self) -> int:
        return len(self.parts) - 1

    def operands(self, row: int) -> List[int]:
        """The rows of a row's operands."""
        fields = self.question.formula.rows()[row]
        return [fields.left, fields.right][: len(self.parts[row].operands)]

    def holds(self, row: int, state: int) -> bool:
        return self.settled.values[state + self.states * row] == 0

    def cost(self, row: int, state: int) -> Optional[int]:
        """The value of an until's helper: the least bound with which the until holds; none where no bound will do."""
        value = self.settled.values[state + self.helpers[row]]
        return None if value == INFINITE else value
