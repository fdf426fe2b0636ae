"""Why: the reason for a verdict, step by step. A step is a claim about a part of the formula in a state; it is explained by a run, a
transition, or the states that decide it, and by further claims, which are the next steps."""

from __future__ import annotations

from dataclasses import dataclass, field
from typing import List, Optional, Tuple

from .mistakes import Mistake, Place
from .paper import ALL_NEXTS, NEXTS, SOME_NEXTS, Operator
from .model import Model, Transition
from .runs import Run, Runs
from .settled import Values

Claim = Tuple[int, int]  # a row and a state


@dataclass
class Step:
    """A claim, the words that explain it, the run that shows it, and the claims that it rests on."""

    claim: Claim
    words: str
    run: Optional[Run] = None
    ending: str = ""  # said below the run
    needs: List[Claim] = field(default_factory=list)


class Explainer:
    """Explains what the settled values say."""

    def __init__(self, values: Values) -> None:
        self.values = values
        self.question = values.question
        self.names = values.question.model.states
        self.rows = values.question.formula.rows()
        self.leads: List[List[Transition]] = [[] for _ in self.names]
        for step in self.question.model.transitions:
            self.leads[step.source].append(step)

    def text(self, row: int) -> str:
        return self.question.said(self.values.parts[row])

    def steps(self, state: int) -> List[Step]:
        """The steps from the root on, each claim once; claims that can be read off a state's label are no steps but the first."""
        waiting, seen, found = [(self.values.root, state)], {(self.values.root, state)}, []
        for claim in waiting:
            step = self.explain(claim)
            found.append(step)
            for need in step.needs:
                if need not in seen and self.values.parts[need[0]].operator > Operator.NOT_PROPOSITION:
                    seen.add(need)
                    waiting.append(need)
        return found

    def explain(self, claim: Claim) -> Step:
        row, state = claim
        operator = self.values.parts[row].operator
        if operator <= Operator.NOT_PROPOSITION:
            return self._label(row, state)
        if operator in (Operator.AND, Operator.OR):
            return self._both(row, state)
        if operator in NEXTS:
            return self._next(row, state)
        return self._exists(row, state) if operator is Operator.E_UNTIL else self._always(row, state)

    def _label(self, row: int, state: int) -> Step:
        name, operator = self.names[state], self.values.parts[row].operator
        if operator in (Operator.TRUE, Operator.FALSE):
            return Step((row, state), f"{self.text(row)} holds {'everywhere' if operator is Operator.TRUE else 'nowhere'}")
        labels = ", ".join(self.question.model.label_names(state))
        return Step((row, state), f"{name} has {f'the propositions {labels}' if labels else 'no proposition'}")

    def _both(self, row: int, state: int) -> Step:
        """Of (x & y) and (x | y): one operand where one is enough, else both."""
        holds = self.values.holds(row, state)
        operands = self.values.operands(row)
        fitting = [operand for operand in operands if self.values.holds(operand, state) == holds]
        enough = holds == (self.values.parts[row].operator is Operator.OR)
        shown = fitting[:1] if enough else operands
        self._insist(len(fitting) >= (1 if enough else 2), f"{self.text(row)} is otherwise in {self.names[state]} than its parts")
        what = " and ".join(self.text(operand) for operand in shown)
        verb = ("holds" if len(shown) == 1 else "hold") if holds else ("doesn't hold" if len(shown) == 1 else "don't hold")
        return Step((row, state), f"{what} {verb} here", needs=[(operand, state) for operand in shown])

    def _next(self, row: int, state: int) -> Step:
        """Of EX and AX: one transition where one is enough, else all that they look at."""
        part, (operand,) = self.values.parts[row], self.values.operands(row)
        holds, name, inner = self.values.holds(row, state), self.names[state], self.text(operand)
        within = [step for step in self.leads[state] if self.rows[row].sees(step)]
        by = "" if part.action is None else f" #{self.question.model.action_name(part.action)}"
        limit = "" if part.bound is None else f" of weight at most {part.bound}"
        if not within:
            self._insist(holds == (part.operator in ALL_NEXTS), f"{self.text(row)} is otherwise in {name}, which has no transition for it")
            return Step((row, state), f"{name} has no transition{by}{limit}")
        is_one = holds == (part.operator in SOME_NEXTS)  # one transition decides
        if is_one:
            step = next((step for step in within if self.values.holds(operand, step.target) == holds), None)
            self._insist(step is not None, f"a transition from {name} decides {self.text(row)}, and none does")
            assert step is not None
            run = Run(state, (step,))
            self._check_step(run)
            return Step((row, state), f"this transition leads to where {inner} {'holds' if holds else 'does not hold'}", run, needs=[(operand, step.target)])
        targets = list(dict.fromkeys(step.target for step in within))
        self._insist(all(self.values.holds(operand, target) == holds for target in targets), f"all transitions from {name} decide {self.text(row)}, and one doesn't")
        words = f"{'each' if holds else 'no'} transition{by} from {name}{limit} leads to where {inner} holds: {', '.join(self.names[target] for target in targets)}"
        return Step((row, state), words, needs=[(operand, target) for target in targets])

    def _check_step(self, run: Run) -> None:
        if run.steps[0] not in self.question.model.transitions or run.steps[0].source != run.start:
            raise Mistake(Place("otzarvim"), "the transition that was found isn't one of the model")

    def _along(self, row: int, run: Run, reaches: bool) -> List[Claim]:
        """What a run that comes to right rests on: left before, right at the end. For one that doesn't: that right fails on it."""
        left, right = self.values.operands(row)
        *before, last = run.states
        if reaches:
            return [*((left, state) for state in before), (right, last)]
        fails = [(right, state) for state in run.states]
        return fails if run.again is not None or self.values.holds(left, last) else [*fails, (left, last)]

    def _comes(self, row: int, run: Run, words: str) -> Step:
        """`words` has a place for right's text."""
        right = self.text(self.values.operands(row)[1])
        return Step((row, run.start), words.replace("*", right), run, f"{right} holds in {self.names[run.states[-1]]}, at a cost of {run.cost}", self._along(row, run, True))

    def _exists(self, row: int, state: int) -> Step:
        """Of E until: the cheapest run to right, which shows it, or shows that it costs too much; else the states that are reached."""
        part, runs, cost = self.values.parts[row], Runs(self.values, row), self.values.cost(row, state)
        run = runs.cheapest(state)
        if (run is None) != (cost is None):
            raise Mistake(Place("otzarvim"), f"the values say that {self.text(row)} takes {cost} from {self.names[state]}, and the runs say otherwise")
        if run is None or cost is None:
            return self._unreached(row, state)
        runs.check_reaches(run, cost)
        if self.values.holds(row, state):
            self._within(part.bound is None or cost <= part.bound)
            return self._comes(row, run, "this run comes to *" if part.bound is None else f"this run comes to * at a cost of at most {part.bound}")
        self._within(part.bound is not None and cost > part.bound)
        return self._comes(row, run, f"even the cheapest run to * costs more than {part.bound}")

    def _unreached(self, row: int, state: int) -> Step:
        left, right = self.values.operands(row)
        reached = [state]
        for at in reached:
            if self.values.holds(right, at):
                raise Mistake(Place("otzarvim"), f"the values say that no run comes to {self.text(right)}, and one does")
            for step in self.leads[at] if self.values.holds(left, at) else ():
                if step.target not in reached:
                    reached.append(step.target)
        names = ", ".join(self.names[at] for at in reached)
        outside = [at for at in reached if not self.values.holds(left, at)]
        so = f"; {self.text(left)} doesn't hold in {', '.join(self.names[at] for at in outside)}" if outside else ""
        words = f"these states are reached while {self.text(left)} holds, and {self.text(right)} holds in none of them: {names}{so}"
        return Step((row, state), words, needs=[*((right, at) for at in reached), *((left, at) for at in outside)])

    def _always(self, row: int, state: int) -> Step:
        """Of A until: the costliest run, which shows it or comes too late; else a run that never comes there."""
        part, runs, cost = self.values.parts[row], Runs(self.values, row), self.values.cost(row, state)
        if cost is not None:
            run = runs.costliest(state)
            runs.check_reaches(run, cost)
            if self.values.holds(row, state):
                self._within(part.bound is None or cost <= part.bound)
                return self._comes(row, run, "every run comes to *, and none at a greater cost than this one")
            self._within(part.bound is not None and cost > part.bound)
            step = self._comes(row, run, f"this run comes to * only at a cost of more than {part.bound}")
            step.needs = [(self.values.operands(row)[1], at) for at in run.states[:-1]]
            return step
        run = runs.failing(state)
        runs.check_fails(run)
        last = self.names[run.states[-1]]
        left, right = (self.text(operand) for operand in self.values.operands(row))
        if run.again is not None:
            ending = f"and so for ever, from {last} to {last}: {right} never holds"
        elif not self.values.holds(self.values.operands(row)[0], run.states[-1]):
            ending = f"neither {left} nor {right} holds in {last}"
        else:
            ending = f"nothing follows {last}, and {right} has not held"
        return Step((row, state), "this run breaks it", run, ending, self._along(row, run, False))

    def _within(self, fine: bool) -> None:
        self._insist(fine, "an until is otherwise than its helper")

    @staticmethod
    def _insist(fine: bool, said: str) -> None:
        """A reason is given only where what the library says fits together."""
        if not fine:
            raise Mistake(Place("the library"), f"its values contradict each other: they say that {said}")


def table(run: Run, model: Model) -> List[str]:
    """A run as a table: the state at each position, the weight that led there, and the sum so far; -> marks where it starts again. Where a
    step has an action, the actions stand behind."""
    rows = [("state", "weight", "sum", "by"), (model.states[run.start], "", "0", "")]
    total = 0
    for step in run.steps:
        total += step.weight
        rows.append((model.states[step.target], str(step.weight), str(total), model.by(step).strip()))
    widths = [max(len(row[column]) for row in rows) for column in range(3)]
    again = None if run.again is None else run.again + 1
    acts = any(step.action for step in run.steps)
    lines = []
    for number, (state, weight, so_far, by) in enumerate(rows):
        line = f"{'->' if number == again else '  '} {state:{widths[0]}}  {weight:>{widths[1]}}  {so_far:>{widths[2]}}"
        lines.append(f"{line}  {by}" if acts else line)
    return lines


def render(explainer: Explainer, state: int, steps: List[Step], most: Optional[int]) -> str:
    """The verdict, and the steps, or so many of them."""
    values, names = explainer.values, explainer.names
    lines = [
        f"formula  {explainer.text(values.root)}",
        f"rounds   {values.settled.rounds}",
        "by       the library",
        "",
        f"{names[state]}  {'yes' if values.holds(values.root, state) else 'no'}",
    ]
    for number, step in enumerate(steps[:most], 1):
        row, at = step.claim
        says = "satisfies" if values.holds(row, at) else "doesn't satisfy"
        lines += ["", f"{number}. {names[at]} {says} {explainer.text(row)}: {step.words}"]
        if step.run is not None:
            lines += [f"   {line}".rstrip() for line in table(step.run, explainer.question.model)]
        if step.ending:
            lines.append(f"      {step.ending}")
    if most is not None and len(steps) > most:
        lines += ["", f"and {len(steps) - most} more steps, which --all shows"]
    return "".join(line + "\n" for line in lines)
