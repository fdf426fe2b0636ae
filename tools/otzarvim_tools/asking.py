"""Who is asked: the program, and beyond what it takes the library."""

from __future__ import annotations

from itertools import chain
from typing import Iterator, List, NamedTuple, Optional, Union

from . import checks
from .answers import Answer, Refused, read_answer, reasons, render_refusal
from .checks import Complaint
from .compiler import compile_formula, compile_model
from .decoder import stands_at
from .library import Library, Settled, open_library
from .mistakes import Mistake, Place
from .paper import PROGRAM_GRAPH_ROOM, PROGRAM_INPUT
from .question import Question
from .running import find_program, run
from .sizes import graph_size

PROGRAM, LIBRARY = "program", "library"


class Refusal(Exception):
    """A question that was refused, in words; ends a command with status 1."""


class Answered(NamedTuple):
    """An answer or a refusal, and who gave it."""

    answer: Union[Answer, Refused]
    by: str


def complaints(question: Question) -> Iterator[Complaint]:
    """What would be refused, whoever is asked."""
    propositions = len(question.model.propositions)
    return chain(
        checks.of_model(question.model, propositions - question.names.own),
        checks.of_formula(question.formula, propositions, question.place),
    )


def refusal(refused: Refused, question: Question, by: str) -> str:
    """A refusal in words: its meaning, what stands at its offset, and what it is about."""
    data = message(question)
    about = stands_at(refused.number, refused.offset, data, question.model) if refused.offset else []
    too_long = checks.of_input(len(data), Place(question.model.path)) if by == PROGRAM else iter(())
    about += reasons(refused.number, question, chain(complaints(question), too_long))
    return render_refusal(refused, about)


def message(question: Question) -> bytes:
    """A model followed by a formula."""
    return compile_model(question.model) + compile_formula(question.formula, question.place)


class Asker:
    """The program and the library, each found, or built, when it is first needed. `by` names one that alone is asked."""

    def __init__(self, program: Optional[str] = None, library: Optional[str] = None, by: Optional[str] = None, raw: bool = False) -> None:
        self.program_path = program
        self.library_path = library
        self.by = by or (PROGRAM if program else LIBRARY if library else None)
        self.raw = raw
        self._library: Optional[Library] = None
        self._answered: List[str] = []

    @property
    def library(self) -> Library:
        if self._library is None:
            self._library = open_library(self.library_path)
        return self._library

    @property
    def said(self) -> str:
        """Who has answered so far."""
        return " and the ".join(self._answered)

    def chosen(self, question: Question, length: int) -> str:
        """The program where it has room for the question, else the library."""
        if self.by:
            return self.by
        small = length <= PROGRAM_INPUT and graph_size(question.model, question.formula).message <= PROGRAM_GRAPH_ROOM
        return PROGRAM if small else LIBRARY

    def ask(self, question: Question) -> Answered:
        """The answer for all states."""
        if not self.raw:
            checks.insist(complaints(question))
        data = message(question)
        by = self.chosen(question, len(data))
        if by not in self._answered:
            self._answered.append(by)
        if by == LIBRARY:
            settled = self._settle(question)
            return Answered(settled.answer() if isinstance(settled, Settled) else settled, by)
        if not self.raw:
            checks.insist(checks.of_input(len(data), Place(question.model.path)))
        return Answered(read_answer(run(find_program(self.program_path), data), len(question.model.states)), by)

    def verdicts(self, question: Question) -> List[bool]:
        """The answer for all states; a refusal is raised."""
        answer, by = self.ask(question)
        if isinstance(answer, Refused):
            raise Refusal(refusal(answer, question, by))
        return answer.verdicts

    def settle(self, question: Question) -> Settled:
        """The library's answer with all its values; a refusal is raised."""
        checks.insist(complaints(question))
        settled = self._settle(question)
        if isinstance(settled, Refused):
            raise Refusal(refusal(settled, question, LIBRARY))
        return settled

    def _settle(self, question: Question) -> Union[Settled, Refused]:
        settled = self.library.settle(compile_model(question.model), compile_formula(question.formula, question.place))
        if isinstance(settled, Settled) and settled.states != len(question.model.states):
            raise Mistake(Place("the library"), f"answered for {settled.states} states of {len(question.model.states)}")
        return settled
