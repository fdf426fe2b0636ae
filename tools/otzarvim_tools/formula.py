"""A formula as a tree, its text, and its rows."""

from __future__ import annotations

from dataclasses import dataclass, replace
from typing import Callable, List, NamedTuple, Optional, Tuple

from .model import Transition
from .names import plain_name
from .paper import ACTIONS, BOUNDED, NEXTS, NO_BOUND, PROPOSITIONS, SOME_NEXTS, Operator


class Row(NamedTuple):
    """The fields of a row; the one that is always zero is left out."""

    operator: int
    left: int
    right: int
    bound: int

    def sees(self, step: Transition) -> bool:
        """Whether EX or AX looks at a transition: it is within the bound, and of the action if one is asked for."""
        return (self.bound == NO_BOUND or step.weight <= self.bound) and (self.operator not in ACTIONS or step.action == self.right)


@dataclass(frozen=True)
class Formula:
    """An operator over its operands. `action` none means all. `bound` none means no bound. `unknown`: a ? stands in the bound's place."""

    operator: Operator
    operands: Tuple["Formula", ...] = ()
    proposition: int = 0
    bound: Optional[int] = None
    unknown: bool = False
    action: Optional[int] = None

    def text(self, name: Callable[[int], str] = plain_name, action: Callable[[int], str] = str) -> str:
        """Document 01's text, with the propositions as `name` gives them and the actions as `action` does."""
        inner = [operand.text(name, action) for operand in self.operands]
        bound = "<=?" if self.unknown else "" if self.bound is None else f"<={self.bound}"
        operator = self.operator
        if operator is Operator.TRUE:
            return "true"
        if operator is Operator.FALSE:
            return "false"
        if operator is Operator.PROPOSITION:
            return name(self.proposition)
        if operator is Operator.NOT_PROPOSITION:
            return "!" + name(self.proposition)
        if operator is Operator.AND:
            return f"({inner[0]} & {inner[1]})"
        if operator is Operator.OR:
            return f"({inner[0]} | {inner[1]})"
        if operator in NEXTS:
            by = "" if self.action is None else f"#{action(self.action)}"
            return f"{'EX' if operator in SOME_NEXTS else 'AX'}{by}{bound} {inner[0]}"
        quantifier = "E" if operator is Operator.E_UNTIL else "A"
        return f"{quantifier}[{inner[0]} U{bound} {inner[1]}]"

    def parts(self) -> List["Formula"]:
        """The formula of each row, in the order of the rows."""
        return [part for operand in self.operands for part in operand.parts()] + [self]

    def at(self, bound: Optional[int]) -> "Formula":
        """The formula with a bound, or none, in place of each ?."""
        if self.unknown:
            return replace(self, bound=bound, unknown=False, operands=tuple(operand.at(bound) for operand in self.operands))
        return replace(self, operands=tuple(operand.at(bound) for operand in self.operands))

    def rows(self) -> List[Row]:
        """The rows, operands before what uses them, each but the last an operand exactly once."""
        rows: List[Row] = []
        self._add_rows(rows)
        return rows

    def _add_rows(self, rows: List[Row]) -> int:
        places = [operand._add_rows(rows) for operand in self.operands] + [0, 0]
        left = self.proposition if self.operator in PROPOSITIONS else places[0]
        right = places[1] if len(self.operands) == 2 else self.action or 0
        bound = 0
        if self.operator in BOUNDED:
            bound = NO_BOUND if self.bound is None else self.bound
        rows.append(Row(int(self.operator), left, right, bound))
        return len(rows) - 1
