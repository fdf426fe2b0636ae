"""What may be a name, and which proposition a name in a formula means."""

from __future__ import annotations

import difflib
import re
from dataclasses import replace
from typing import Iterable, Optional

from .mistakes import Mistake, Place
from .model import Model
from .paper import LARGEST_ASKED

_WORD = re.compile(r"[A-Za-z_][A-Za-z0-9_]*", re.ASCII)
_BY_NUMBER = re.compile(r"p(0|[1-9][0-9]*)", re.ASCII)
_LIKE_BY_NUMBER = re.compile(r"p[0-9]+", re.ASCII)
_NUMBER = re.compile(r"0|[1-9][0-9]*", re.ASCII)

FORMULA_WORDS = ("true", "false", "E", "A", "U", "EX", "AX")
MODEL_WORDS = ("state", "propositions")
RESERVED = FORMULA_WORDS + MODEL_WORDS

# What people from other checkers write, and how it is said here.
_ELSEWHERE = {
    "EF": "EF x is written E[true U x]",
    "AF": "AF x is written A[true U x]",
    "EG": "EG can't be said in this language",
    "AG": "AG can't be said in this language",
    "X": "X is written EX or AX",
    "F": "F x is written E[true U x] or A[true U x]",
    "G": "G can't be said in this language",
    "not": "not x is written !x",
    "and": "x and y is written (x & y)",
    "or": "x or y is written (x | y)",
}
_LISTED = 12  # so many names are listed where none is near


def check_name(word: str, what: str, place: Place) -> None:
    """Refuses a word that can't name a state or a proposition."""
    if not _WORD.fullmatch(word):
        several = all(_WORD.fullmatch(part) for part in word.split()) and what == "a proposition"
        more = " (several have commas between them)" if several and word else ""
        raise Mistake(place, f"'{word}' can't name {what}: a name has letters, digits and _, and starts with no digit{more}")
    if word in RESERVED:
        raise Mistake(place, f"'{word}' is a word of the language and can't name {what}")


def by_number(word: str) -> Optional[int]:
    """The number in `p0`, `p1` and so on; none for another word."""
    found = _BY_NUMBER.fullmatch(word)
    return int(found.group(1)) if found else None


def check_state_name(word: str, place: Place) -> None:
    """A state's name can also stand in formulas, so it isn't of the form p0."""
    check_name(word, "a state", place)
    if _LIKE_BY_NUMBER.fullmatch(word):
        raise Mistake(place, f"'{word}' can't name a state: p0, p1 and so on mean propositions by number")


def check_proposition_name(word: str, number: int, place: Place) -> None:
    """The name p3 is free for proposition 3 alone."""
    check_name(word, "a proposition", place)
    if _LIKE_BY_NUMBER.fullmatch(word) and by_number(word) != number:
        raise Mistake(place, f"'{word}' would be proposition {number}, which is p{number}: p0, p1 and so on mean propositions by number")


def read_number(word: str, what: str, most: int, place: Place) -> int:
    """A decimal number without leading zeros, at most `most`."""
    if not _NUMBER.fullmatch(word):
        raise Mistake(place, f"'{word}' is no {what}: a whole number, decimal, without leading zeros")
    # the length is looked at first, because Python refuses to convert very long numbers
    if len(word) > len(str(most)) or int(word) > most:
        raise Mistake(place, f"the {what} {word} is too large: at most {most}")
    return int(word)


def by_digits(word: str) -> bool:
    """Whether a word behind # gives an action by its number."""
    return word[0] in "0123456789"


def hint(word: str, known: Iterable[str], listed: Iterable[str]) -> str:
    """' (did you mean ..?)' where a known name is near, whatever its capitals; else what there is."""
    by_small = {name.lower(): name for name in known}
    near = difflib.get_close_matches(word.lower(), list(by_small), n=1)
    if near:
        return f" (did you mean {by_small[near[0]]}?)"
    names = list(dict.fromkeys(listed))
    more = f" and {len(names) - _LISTED} more" if len(names) > _LISTED else ""
    return f" (there are {', '.join(names[:_LISTED])}{more})" if names else ""


class Names:
    """The propositions that a formula may name: those of the model, p0 and so on, and its states.

    A state's name holds in that state alone. It takes the next free proposition when a formula first
    uses it; `model` is the model with those added.
    """

    def __init__(self, model: Model, raw: bool = False) -> None:
        self.own = len(model.propositions)
        self.raw = raw
        self.model = replace(model, propositions=list(model.propositions), labels=list(model.labels))

    def number(self, word: str, place: Place, excerpt: Optional[str] = None) -> int:
        """The number of the proposition that a word in a formula means."""
        model = self.model
        given = by_number(word)
        if given is not None:
            # raw: the program is to refuse it, as long as it fits its byte
            if given < self.own or (self.raw and given <= 255):
                return given
            raise Mistake(place, f"there is no proposition {word}: the model has {self.own} of its own, counted from p0", excerpt)
        if word in model.propositions:
            return model.propositions.index(word)
        if word in model.states:
            state = model.states.index(word)
            model.propositions.append(word)
            model.labels[state] |= {len(model.propositions) - 1}
            return len(model.propositions) - 1
        words = f"no proposition or state has the name {word}"
        if word in _ELSEWHERE:
            raise Mistake(place, f"{words} ({_ELSEWHERE[word]})", excerpt)
        names = model.propositions + model.states
        raise Mistake(place, words + hint(word, ["true", "false"] + names, names), excerpt)

    def action(self, word: str, place: Place, excerpt: Optional[str] = None) -> int:
        """The number of the action that a word behind EX# or AX# means."""
        if by_digits(word):
            return plain_action(word, place, excerpt)
        numbers = {name: number for number, name in self.model.actions.items()}
        if word not in numbers:
            raise Mistake(place, f"no transition has the action {word}{hint(word, numbers, numbers)}", excerpt)
        if numbers[word] > LARGEST_ASKED:
            raise Mistake(place, f"the action {word} has the number {numbers[word]}, and a formula can ask for 0 to {LARGEST_ASKED} only (mention it earlier in the model)", excerpt)
        return numbers[word]

    def name(self, number: int) -> str:
        """The name of a proposition; p and the number for one that the model doesn't have."""
        if number < len(self.model.propositions):
            return self.model.propositions[number]
        return plain_name(number)


def plain_name(number: int) -> str:
    """Document 01's text of a proposition."""
    return f"p{number}"


def plain_action(word: str, place: Place, excerpt: Optional[str] = None) -> int:
    """Reads the number of an action in a formula."""
    try:
        return read_number(word, "action", LARGEST_ASKED, place)
    except Mistake as mistake:
        raise Mistake(place, mistake.words, excerpt) from None


def plain_number(word: str, place: Place, excerpt: Optional[str] = None) -> int:
    """Reads document 01's text of a proposition."""
    number = by_number(word)
    if number is None:
        raise Mistake(place, f"'{word}' is no proposition by number", excerpt)
    return number
