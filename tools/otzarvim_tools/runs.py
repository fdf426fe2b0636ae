"""Runs of a model that show why an until holds or doesn't: found here, and checked against the model before they are shown."""

from __future__ import annotations

import heapq
from dataclasses import dataclass
from typing import Dict, List, Optional, Tuple

from .mistakes import Mistake, Place
from .model import Model, Transition
from .settled import Values


@dataclass(frozen=True)
class Run:
    """The front of a run: where it starts and its transitions. `again`: the position to which the last comes back, and so for ever."""

    start: int
    steps: Tuple[Transition, ...] = ()
    again: Optional[int] = None

    @property
    def states(self) -> List[int]:
        """The state at each position."""
        return [self.start, *(step.target for step in self.steps)]

    @property
    def cost(self) -> int:
        return sum(step.weight for step in self.steps)


class Runs:
    """The runs of a model by which an until row is explained."""

    def __init__(self, values: Values, row: int) -> None:
        self.values = values
        self.row = row
        self.model: Model = values.question.model
        self.left, self.right = values.operands(row)
        self.leads: List[List[Transition]] = [[] for _ in self.model.states]
        for step in self.model.transitions:
            self.leads[step.source].append(step)

    def _left(self, state: int) -> bool:
        return self.values.holds(self.left, state)

    def _right(self, state: int) -> bool:
        return self.values.holds(self.right, state)

    def cheapest(self, start: int) -> Optional[Run]:
        """The run that comes to right, by way of left, at the least cost; of those the one of fewest steps. None if none does."""
        best: Dict[int, Tuple[int, int]] = {start: (0, 0)}
        by: Dict[int, Transition] = {}
        waiting = [(0, 0, start)]
        while waiting:
            cost, steps, state = heapq.heappop(waiting)
            if (cost, steps) > best[state]:
                continue
            if self._right(state):
                return Run(start, self._back(start, state, by))
            for step in self.leads[state] if self._left(state) else ():
                found = (cost + step.weight, steps + 1)
                if step.target not in best or found < best[step.target]:
                    best[step.target], by[step.target] = found, step
                    heapq.heappush(waiting, (*found, step.target))
        return None

    @staticmethod
    def _back(start: int, state: int, by: Dict[int, Transition]) -> Tuple[Transition, ...]:
        steps: List[Transition] = []
        while state != start:
            steps.append(by[state])
            state = by[state].source
        return tuple(reversed(steps))

    def costliest(self, start: int) -> Run:
        """Where every run comes to right: the one that comes there at the greatest cost. Such runs meet no state twice."""
        steps: List[Transition] = []
        state = start
        while not self._right(state) and self.leads[state] and len(steps) <= len(self.model.states):
            step = max(self.leads[state], key=lambda step: step.weight + (self.values.cost(self.row, step.target) or 0))
            steps.append(step)
            state = step.target
        return Run(start, tuple(steps))

    def failing(self, start: int) -> Run:
        """Where some run never comes to right by way of left: one that leaves left, one that ends, else one that is endless."""
        return self._stopping(start) or self._endless(start)

    def _lost(self, state: int) -> bool:
        return self.values.cost(self.row, state) is None

    def _stopping(self, start: int) -> Optional[Run]:
        """The shortest to a state where left fails or nothing follows, through states from which right can be missed."""
        by: Dict[int, Transition] = {}
        seen, waiting = {start}, [start]
        for state in waiting:
            if not self._left(state) or not self.leads[state]:
                return Run(start, self._back(start, state, by))
            for step in self.leads[state]:
                if self._lost(step.target) and step.target not in seen:
                    seen.add(step.target)
                    by[step.target] = step
                    waiting.append(step.target)
        return None

    def _endless(self, start: int) -> Run:
        """Goes on through such states, and back to one of its own as soon as it can."""
        states, steps = [start], []
        while True:
            onward = [step for step in self.leads[states[-1]] if self._lost(step.target)]
            back = [step for step in onward if step.target in states]
            if not onward:
                raise Mistake(Place("otzarvim"), f"the values say that a run from {self.model.states[states[-1]]} misses the goal, and none does")
            step = back[0] if back else onward[0]
            steps.append(step)
            if back:
                return Run(start, tuple(steps), states.index(step.target))
            states.append(step.target)

    # What a run must be, before it is shown. Each looks at the model's transitions and at the verdicts on left and right alone.

    def check_walk(self, run: Run) -> None:
        """That it goes along transitions of the model, each from where the one before it led."""
        known, at = set(self.model.transitions), run.start
        for step in run.steps:
            self._insist(step in known and step.source == at, run)
            at = step.target
        self._insist(run.again is None or run.states[run.again] == at and run.again < len(run.steps), run)

    def check_reaches(self, run: Run, cost: int) -> None:
        """That it comes to right at its end, at that cost, by way of left, and not before."""
        self.check_walk(run)
        *before, last = run.states
        self._insist(self._right(last) and all(self._left(state) and not self._right(state) for state in before), run)
        self._insist(run.cost == cost and run.again is None, run)

    def check_fails(self, run: Run) -> None:
        """That right is at none of its positions, and that it leaves left at its end, or ends, or goes on so for ever."""
        self.check_walk(run)
        last = run.states[-1]
        self._insist(not any(self._right(state) for state in run.states), run)
        self._insist(run.again is not None or not self._left(last) or not self.leads[last], run)

    def _insist(self, fine: bool, run: Run) -> None:
        if not fine:
            names = " ".join(self.model.states[state] for state in run.states)
            raise Mistake(Place("otzarvim"), f"the run that was found doesn't show what it should, and isn't shown as a reason: {names}")
