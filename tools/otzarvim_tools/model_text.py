"""The text of models: read into a Model, and written from one.

    propositions idle, safe      # optional; if it stands, it lists them all
    state cold: idle, safe       # or: cold: idle, safe
    cold -> hot 12               # from, to, weight
    cold -> hot 12 #compile      # and an action, by its name or its number
    question soon: E[true U<=12 safe]
    expect cold: soon            # or a formula; expect not hot: ..; expect cold, hot: ..; expect *: ..
"""

from __future__ import annotations

import re
from dataclasses import dataclass, field, replace
from itertools import count
from typing import Dict, List, Optional, Tuple

from .mistakes import Mistake, Place
from .model import Model, Transition
from .names import by_digits, check_name, check_proposition_name, check_state_name, hint, read_number
from .paper import LARGEST_ACTION, LARGEST_WEIGHT

# A name of its own is expected behind the word, so that a state may be called expect or question.
_ASKED = re.compile(r"(question|expect)\s+(?!->)([^:]*?)\s*:(.*)", re.S)
_EVERY = "*"
_STATE = re.compile(r"(?:state\s+)?([^\s:]+)\s*(?::(.*))?")
# What stands before a # that is no comment's, if a name or a number follows it at once.
_WEIGHED = re.compile(r"[^#]*->\s*[^\s#]+\s+[^\s#]+\s*(#.*)?", re.S)
_NEXT = re.compile(r".*(?<![A-Za-z0-9_])[EA]X", re.S)
_ACTION = re.compile(r"[A-Za-z0-9_]+", re.ASCII)


@dataclass(frozen=True)
class Written:
    """A formula as it stands in a model's file: its text, its line, and in which column it starts."""

    text: str
    line: int
    column: int
    whole: str  # the line that it stands on

    def in_place(self) -> str:
        """The text behind so many lines and blanks that each place in it is that in the file."""
        return "\n" * (self.line - 1) + " " * (self.column - 1) + self.text


@dataclass(frozen=True)
class Expectation:
    """That a state satisfies a formula, or doesn't; with the name of the question, if it has one."""

    state: int
    holds: bool
    formula: Written
    name: Optional[str] = None


@dataclass
class Sheet:
    """All that a model's file has: the model, its questions by name, and what is expected."""

    model: Model
    questions: Dict[str, Written] = field(default_factory=dict)
    expectations: List[Expectation] = field(default_factory=list)


class _Reader:
    """The model so far, and what later lines are held against."""

    def __init__(self, path: str) -> None:
        self.model = Model(path=path)
        self.numbers: Dict[str, int] = {}  # of the states
        self.declared = False  # a propositions line stood above
        self.labelled: Dict[str, int] = {}  # the line of each state's own line
        self.label_lines: List[Tuple[int, int, int]] = []  # state, proposition, line
        self.questions: Dict[str, Written] = {}
        self.expected: List[Tuple[str, Written]] = []  # the words before the colon, and those behind it
        self.acting: List[Tuple[int, str, int]] = []  # each transition whose action has a name, that name, its line

    def place(self, line: int) -> Place:
        return Place(self.model.path, line)

    def state(self, name: str, line: int) -> int:
        """The number of a state, which is new at its first mention."""
        check_state_name(name, self.place(line))
        if name not in self.numbers:
            self.numbers[name] = len(self.model.states)
            self.model.states.append(name)
            self.model.labels.append(frozenset())
        return self.numbers[name]

    def add_proposition(self, name: str, line: int) -> int:
        number = len(self.model.propositions)
        check_proposition_name(name, number, self.place(line))
        self.model.propositions.append(name)
        return number

    def list_of(self, words: str, line: int) -> List[str]:
        """The names of a comma-separated list, each once."""
        if not words:
            raise Mistake(self.place(line), "the list is empty")
        names = [word.strip() for word in words.split(",")]
        for i, name in enumerate(names):
            if not name:
                raise Mistake(self.place(line), "a name is missing beside a comma")
            if name in names[:i]:
                raise Mistake(self.place(line), f"{name} stands twice")
        return names

    def propositions_line(self, words: str, line: int) -> None:
        if self.labelled:
            raise Mistake(self.place(line), "propositions are listed before the first state's line")
        self.declared = True
        for name in self.list_of(words, line):
            if name in self.model.propositions:
                raise Mistake(self.place(line), f"{name} stands twice")
            self.add_proposition(name, line)

    def state_line(self, text: str, line: int) -> None:
        found = _STATE.fullmatch(text)
        if found is None:
            raise Mistake(self.place(line), f"not a state's line: '{text}' (as: state cold: idle, safe)")
        name, labels = found.group(1), (found.group(2) or "").strip()
        state = self.state(name, line)
        if name in self.labelled:
            raise Mistake(self.place(line), f"state {name} has its line already, line {self.labelled[name]}")
        self.labelled[name] = line
        for label in self.list_of(labels, line) if labels else []:
            number = self.label(label, line)
            self.label_lines.append((state, number, line))
            self.model.labels[state] |= {number}

    def label(self, name: str, line: int) -> int:
        """The number of a proposition, which is new at its first mention unless all are listed."""
        known = self.model.propositions
        if name in known:
            return known.index(name)
        if self.declared:
            raise Mistake(self.place(line), f"{name} isn't among the propositions listed above{hint(name, known, known)}")
        return self.add_proposition(name, line)

    def transition_line(self, text: str, line: int) -> None:
        left, _, right = text.partition("->")
        right, has_action, action = right.partition("#")
        words = right.split()
        if not left.strip() or len(words) != 2:
            missing = " (its weight is missing)" if left.strip() and len(words) == 1 else ""
            raise Mistake(self.place(line), f"not a transition: '{text}'{missing} (as: cold -> hot 12)")
        source = self.state(left.strip(), line)
        target = self.state(words[0], line)
        weight = read_number(words[1], "weight", LARGEST_WEIGHT, self.place(line))
        number = self.action(action.strip(), text, line) if has_action else 0
        self.model.transitions.append(Transition(source, weight, target, number))

    def action(self, word: str, text: str, line: int) -> int:
        """The number of an action; 0 for now where it has a name."""
        place = self.place(line)
        if not _ACTION.fullmatch(word):
            raise Mistake(place, f"not a transition: '{text}' (one action can stand behind the weight, as: cold -> hot 12 #compile; a comment has a blank behind its #)")
        if by_digits(word):
            return read_number(word, "action", LARGEST_ACTION, place)
        check_name(word, "an action", place)
        self.acting.append((len(self.model.transitions), word, line))
        return 0

    def number_actions(self) -> None:
        """Names are numbered from 1, as they are first mentioned; numbers that the file gives by themselves are passed over."""
        steps = self.model.transitions
        given = {step.action for step in steps}
        free = (number for number in count(1) if number not in given)
        numbers: Dict[str, int] = {}
        for at, name, line in self.acting:
            number = numbers[name] = numbers.get(name) or next(free)
            if number > LARGEST_ACTION:
                raise Mistake(self.place(line), f"the action {name} would have the number {number}: at most {LARGEST_ACTION}")
            steps[at] = replace(steps[at], action=number)
        self.model.actions = {number: name for name, number in numbers.items()}

    def asked_line(self, kind: str, named: str, formula: Written) -> None:
        """A question or an expectation. What it names may stand below it, so it is looked at in the end."""
        place = self.place(formula.line)
        if not formula.text:
            raise Mistake(place, f"a formula is missing behind the colon (as: {kind} cold: EX idle)")
        if kind == "expect":
            self.expected.append((named, formula))
            return
        check_name(named, "a question", place)
        if named in self.questions:
            raise Mistake(place, f"question {named} stands already, line {self.questions[named].line}")
        self.questions[named] = formula

    def expectations(self, named: str, formula: Written) -> List[Expectation]:
        """One for each state that is named before the colon; behind it stands a question's name or a formula."""
        place, states = self.place(formula.line), self.model.states
        first, _, rest = named.partition(" ")
        holds = first != "not" or not rest.strip()
        names = self.list_of(named if holds else rest.strip(), formula.line)
        asked = self.questions.get(formula.text, formula)
        found = []
        for name in states if names == [_EVERY] else names:
            if name not in self.numbers:
                raise Mistake(place, f"there is no state {name}{hint(name, states, states)}")
            found.append(Expectation(self.numbers[name], holds, asked, formula.text if formula.text in self.questions else None))
        return found

    def sheet(self) -> Sheet:
        """The model with its questions and all that is expected."""
        model = self.end()
        for name, question in self.questions.items():
            if name in self.numbers or name in model.propositions:
                raise Mistake(self.place(question.line), f"{name} is a {'state' if name in self.numbers else 'proposition'}, and no question can have its name")
        return Sheet(model, self.questions, [each for named, formula in self.expected for each in self.expectations(named, formula)])

    def line(self, text: str, line: int, whole: str) -> None:
        words = text.split(None, 1)
        asked = _ASKED.fullmatch(text)
        if asked:
            column = whole.index(":") + 2 + len(asked.group(3)) - len(asked.group(3).lstrip())
            self.asked_line(asked.group(1), asked.group(2), Written(asked.group(3).strip(), line, column, whole))
        elif words[0] in ("expect", "question") and len(words) > 1 and "->" not in text and not words[1].startswith(":"):
            raise Mistake(self.place(line), f"'{text}' has no colon (as: {words[0]} cold: EX idle)")
        elif "->" in text:
            self.transition_line(text, line)
        elif words[0].rstrip(":") == "propositions":
            self.propositions_line(text[len("propositions"):].lstrip(" \t:"), line)
        elif words[0] == "state" or ":" in text:
            self.state_line(text, line)
        else:
            raise Mistake(self.place(line), f"not a line of a model: '{text}' (as: state cold: idle, or: cold -> hot 12)")

    def end(self) -> Model:
        """A state's name holds in that state alone, so labels that say otherwise are mistakes."""
        model = self.model
        self.number_actions()
        for state, number, line in self.label_lines:
            name = model.propositions[number]
            if name in self.numbers and name != model.states[state]:
                raise Mistake(self.place(line), f"{name} is a state, and its name holds in that state alone; {model.states[state]} can't have it as a proposition")
        for number, name in enumerate(model.propositions):
            if name in self.numbers:
                model.labels[self.numbers[name]] |= {number}
        return model


def _content(line: str) -> str:
    """A line without its comment. A # starts one, but where a name or a number follows it at once behind a transition's weight, or
    between EX or AX and that name or number."""
    for found in re.finditer("#", line):
        before, behind = line[: found.start()], line[found.end():]
        if not (_ACTION.match(behind) and (_WEIGHED.fullmatch(before) or _NEXT.fullmatch(before))):
            return before
    return line


def read_sheet(text: str, path: str) -> Sheet:
    """Reads a model's file; the first mistake is raised with its line. Formulas are left as text."""
    reader = _Reader(path)
    for line, whole in enumerate(text.split("\n"), 1):
        content = _content(whole).strip()
        if content:
            reader.line(content, line, whole)
    return reader.sheet()


def read_model(text: str, path: str) -> Model:
    """Reads the model of a file alone."""
    return read_sheet(text, path).model


def write_model(model: Model) -> str:
    """The text that `read_model` reads back as the same model."""
    lines: List[str] = []
    if model.propositions:
        lines.append("propositions " + ", ".join(model.propositions))
    for state, name in enumerate(model.states):
        labels = ", ".join(model.label_names(state))
        lines.append(f"state {name}: {labels}" if labels else f"state {name}")
    for step in model.transitions:
        lines.append(f"{model.states[step.source]} -> {model.states[step.target]} {step.weight}{model.by(step)}")
    return "".join(line + "\n" for line in lines)
