"""How much: the bound that stands for a ?.

A formula has no negation but of propositions, so a larger bound never makes an until or an EX fail, nor an AX hold: there is a
least bound that will do, and for AX a greatest. At a ? in the root until, the settled value of its helper node is the answer.
Elsewhere the truth can change only at a value of the helper in some state, or at a weight; between those it is searched.
Each answer is confirmed by the proved checker, asked with that bound and with the next one that must not do.
"""

from __future__ import annotations

from dataclasses import dataclass
from typing import Dict, List, Optional

from .asking import Asker
from .mistakes import Mistake, Place
from .paper import ALL_NEXTS, LARGEST_BOUND, UNTILS
from .progress import Progress
from .question import Question
from .settled import Values


@dataclass(frozen=True)
class Found:
    """The bound that was found for a state; none where no number will do."""

    state: int
    bound: Optional[int]
    unbounded: bool = False  # it holds without a bound all the same
    cost: Optional[int] = None  # and this is what it takes then, where that is known


class Search:
    """The bounds of one question, whose verdicts are asked for once each."""

    def __init__(self, asker: Asker, question: Question, progress: Optional[Progress] = None) -> None:
        self.asker = asker
        self.question = question
        self.progress = progress
        self.unbounded = question.at(None)
        self.values = Values(self.unbounded, asker.settle(self.unbounded))
        self.row = next(row for row, part in enumerate(question.formula.parts()) if part.unknown)
        self.operator = self.values.parts[self.row].operator
        self.asked: Dict[int, List[bool]] = {}

    @property
    def falls(self) -> bool:
        """Whether a larger bound may make it fail."""
        return self.operator in ALL_NEXTS

    def will_do(self, bound: int, state: int) -> bool:
        """What the proved checker says with a bound."""
        if bound not in self.asked:
            self.asked[bound] = self.asker.verdicts(self.question.at(bound))
        return self.asked[bound][state]

    def candidates(self) -> List[int]:
        """The bounds at which the truth can change, rising; the first and the last of all among them."""
        if self.operator in UNTILS:
            costs = (self.values.cost(self.row, state) for state in range(self.values.states))
            found = {cost for cost in costs if cost is not None}
        elif self.falls:
            # the last bound before a transition is looked at
            found = {step.weight - 1 for step in self.question.model.transitions if step.weight} | {LARGEST_BOUND}
        else:
            found = {step.weight for step in self.question.model.transitions}
        return sorted(bound for bound in found | {0} if bound <= LARGEST_BOUND)

    def find(self, state: int) -> Found:
        """The bound for a state, confirmed."""
        found = self._greatest(state) if self.falls else self._least(state)
        self._confirm(found)
        if self.progress:
            self.progress.step(self.question.model.states[state])
        return found

    def _least(self, state: int) -> Found:
        if not self.values.holds(self.values.root, state):
            return Found(state, None)
        if self.row == self.values.root and self.operator in UNTILS:
            cost = self.values.cost(self.row, state)
            assert cost is not None  # the until holds without a bound
            return Found(state, cost) if cost <= LARGEST_BOUND else Found(state, None, True, cost)
        candidates = self.candidates()
        if not self.will_do(candidates[-1], state):
            return Found(state, None, True)
        low, high = 0, len(candidates) - 1
        while low < high:
            middle = (low + high) // 2
            low, high = (low, middle) if self.will_do(candidates[middle], state) else (middle + 1, high)
        return Found(state, candidates[high])

    def _greatest(self, state: int) -> Found:
        if self.values.holds(self.values.root, state):
            return Found(state, LARGEST_BOUND, True)
        candidates = self.candidates()
        if not self.will_do(0, state):
            return Found(state, None)
        low, high = 0, len(candidates) - 1
        while low < high:
            middle = (low + high + 1) // 2
            low, high = (middle, high) if self.will_do(candidates[middle], state) else (low, middle - 1)
        return Found(state, candidates[low])

    def _confirm(self, found: Found) -> None:
        """The proved checker must say yes to the bound, and no to the next one that must not do."""
        wrong: Optional[int] = None
        if found.bound is None:
            must_not = 0 if self.falls else LARGEST_BOUND
            wrong = must_not if self.will_do(must_not, found.state) else None
        elif not self.will_do(found.bound, found.state):
            wrong = found.bound
        else:
            beyond = found.bound + 1 if self.falls else found.bound - 1
            wrong = beyond if 0 <= beyond <= LARGEST_BOUND and self.will_do(beyond, found.state) else None
        if wrong is not None:
            name = self.question.model.states[found.state]
            raise Mistake(Place("otzarvim"), f"the bound found for {name} isn't confirmed: asked with {wrong}, the checker says otherwise")


def words(found: Found, search: Search) -> str:
    """A bound as it is told."""
    if found.bound is not None and search.falls:
        return "any bound will do" if found.unbounded else f"at most {found.bound}"
    if found.bound is not None:
        return str(found.bound)
    if found.unbounded:
        takes = f"{found.cost}" if found.cost is not None else "more"
        return f"no number will do, but without a bound it holds: it takes {takes}, and a bound is at most {LARGEST_BOUND}"
    return "no bound will do" + (", not even 0" if search.falls else "")


def render(search: Search, found: List[Found]) -> str:
    """The formula, what was asked, and the bound of each state."""
    states = search.question.model.states
    width = max(len(states[each.state]) for each in found)
    asked = sorted(search.asked)
    shown = ", ".join(map(str, asked)) if len(asked) <= 8 else f"{len(asked)} bounds from {asked[0]} to {asked[-1]}"
    lines = [
        f"formula  {search.question.text()}",
        f"rounds   {search.values.settled.rounds} without a bound, by the library",
        f"asked    with {shown}, by the {search.asker.said}",
        "",
    ]
    lines += [f"{states[each.state]:{width}}  {words(each, search)}" for each in found]
    return "".join(line + "\n" for line in lines)
