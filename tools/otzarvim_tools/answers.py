"""What the program wrote, and the same in a person's names."""

from __future__ import annotations

import re
from dataclasses import dataclass
from typing import Iterator, List, Optional, Union

from .checks import Complaint
from .formula_text import read_formula
from .mistakes import Mistake, Place
from .names import plain_number
from .paper import REFUSALS, ROOM, SIZE
from .question import Question
from .sizes import graph_size


@dataclass(frozen=True)
class Answer:
    """The text of the formula, the count of rounds, and a verdict for each state."""

    text: str
    rounds: int
    verdicts: List[bool]


@dataclass(frozen=True)
class Refused:
    """The number of a refusal, and the offset of the field that is wrong; 0 where there is none."""

    number: int
    offset: int = 0


def read_answer(output: str, states: int) -> Union[Answer, Refused]:
    """Reads what the program wrote, to the last line feed."""
    refused = re.fullmatch(r"refused ([0-9]+)(?: at ([1-9][0-9]*))?\n", output)
    if refused:
        return Refused(int(refused.group(1)), int(refused.group(2) or 0))
    answered = re.fullmatch(r"(.+)\nrounds ([0-9]+)\n((?:[0-9]+ (?:yes|no)\n)+)", output)
    if answered:
        lines = [line.split(" ") for line in answered.group(3).splitlines()]
        if [line[0] for line in lines] == [str(state) for state in range(states)]:
            return Answer(answered.group(1), int(answered.group(2)), [line[1] == "yes" for line in lines])
    raise Mistake(Place("otzarvim"), f"the program wrote what isn't an answer:\n{output}")


def understood(answer: Answer, question: Question) -> str:
    """The text of what was answered, in names, once it is what was asked."""
    formula = read_formula(answer.text, "the program's text", plain_number)
    if formula != question.formula:
        raise Mistake(Place("otzarvim"), f"the program answered another formula: {answer.text}")
    return question.said(formula)


def render_answer(answer: Answer, question: Question, by: str, state: Optional[int] = None) -> str:
    """The answer in names, for one state or for all, and who gave it.

    The formula is put into names from the program's own text, so that a person sees what was answered.
    """
    states = range(len(answer.verdicts)) if state is None else [state]
    width = max(len(question.model.states[i]) for i in states)
    lines = [
        f"formula  {understood(answer, question)}",
        f"message  {answer.text}",
        f"rounds   {answer.rounds}",
        f"by       the {by}",
        "",
    ]
    lines += [f"{question.model.states[i]:{width}}  {'yes' if answer.verdicts[i] else 'no'}" for i in states]
    return "".join(line + "\n" for line in lines)


def render_refusal(refused: Refused, reasons: List[str]) -> str:
    """The number, its name and its meaning, then where it is and what in this question it is about."""
    refusal = REFUSALS.get(refused.number)
    known = f"{refusal.name}: {refusal.meaning}" if refusal else "a number that document 01 doesn't have"
    at = f" at {refused.offset}" if refused.offset else ""
    return "".join(line + "\n" for line in [f"refused {refused.number}{at}, {known}", *reasons])


def reasons(number: int, question: Question, complaints: Iterator[Complaint]) -> List[str]:
    """What in a question a refusal is about, as far as it can be seen from here."""
    found = [str(complaint.mistake) for complaint in complaints if complaint.number == number]
    if number in (SIZE, ROOM):
        size = graph_size(question.model, question.formula)
        found += size.over() if number == SIZE else size.too_long()
    return found
