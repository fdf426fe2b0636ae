"""Reads document 01's text of formulas, with names for propositions.

    true  false  idle  !idle  (x & y)  (x | y)  EX<=3 x  AX x  EX#compile<=3 x  E[x U<=2 y]  A[x U y]
"""

from __future__ import annotations

import re
from typing import Callable, List, NamedTuple, Optional, Tuple

from .formula import Formula
from .mistakes import Mistake, Place
from .names import FORMULA_WORDS, plain_action, read_number
from .paper import LARGEST_BOUND, Operator

_TOKEN = re.compile(r"[0-9]+|[A-Za-z_][A-Za-z0-9_]*|<=|[()\[\]&|!?]", re.ASCII)
_ACTION = re.compile(r"#[A-Za-z0-9_]+", re.ASCII)
# Signs from elsewhere, and how they are written here.
_SIGNS = {
    "#": "an action stands at once behind EX or AX, as EX#compile; a comment has a line of its own",
    **dict.fromkeys("<>=≤", "a bound is written <=3"),
    **dict.fromkeys("¬~", "a negation is written !idle"),
    "∧": "written (x & y)",
    "∨": "written (x | y)",
    **dict.fromkeys(("->", "→", "⇒"), "x -> y is written (!x | y), where x is a proposition"),
}
_UNKNOWN = -1
_DEEPEST = 255  # a row's number is one byte, so nothing deeper can be written

NumberOf = Callable[[str, Place, Optional[str]], int]


class _Token(NamedTuple):
    word: str  # empty at the end
    place: Place
    excerpt: str


def _behind_next(found: List[_Token], line: int, at: int) -> bool:
    """Whether the last word is EX or AX and ends right there."""
    return bool(found) and found[-1].word in ("EX", "AX") and (found[-1].place.line, found[-1].place.column) == (line, at - 1)


def _tokens(text: str, path: str) -> List[_Token]:
    found: List[_Token] = []
    lines = text.split("\n")
    for number, line in enumerate(lines, 1):
        if line.lstrip().startswith("#"):
            continue
        at = 0
        while at < len(line):
            if line[at].isspace():
                at += 1
                continue
            place = Place(path, number, at + 1)
            match = (_ACTION if _behind_next(found, number, at) and line[at] == "#" else _TOKEN).match(line, at)
            if match is None:
                sign = "->" if line.startswith("->", at) else line[at]
                more = f" ({_SIGNS[sign]})" if sign in _SIGNS else ""
                raise Mistake(place, f"'{sign}' has no place in a formula{more}", line)
            found.append(_Token(match.group(), place, line))
            at = match.end()
    # the end is told as the place behind the last word
    end = (found[-1].place, found[-1].excerpt, len(found[-1].word)) if found else (Place(path, 1, 1), "", 0)
    found.append(_Token("", Place(path, end[0].line, (end[0].column or 0) + end[2]), end[1]))
    return found


class _Parser:
    def __init__(self, tokens: List[_Token], number_of: NumberOf, unknowns: int, action_of: NumberOf) -> None:
        self.tokens = tokens
        self.at = 0
        self.number_of = number_of
        self.action_of = action_of
        self.unknowns = unknowns  # how many more ? may stand in place of a bound
        self.unknown_seen = False

    def next(self) -> _Token:
        token = self.tokens[self.at]
        self.at = min(self.at + 1, len(self.tokens) - 1)
        return token

    def peek(self) -> str:
        return self.tokens[self.at].word

    def fail(self, token: _Token, words: str) -> Mistake:
        return Mistake(token.place, words, token.excerpt)

    def expect(self, word: str, after: str) -> None:
        token = self.next()
        if token.word in ("&", "|"):
            raise self.fail(token, _brackets(token.word))
        if token.word != word:
            raise self.fail(token, f"'{word}' is expected after {after}, {_found(token)}")

    def bound(self) -> Optional[int]:
        """A bound; none where none is written, and _UNKNOWN for a ?."""
        if self.peek() != "<=":
            return None
        self.next()
        token = self.next()
        if token.word == "?":
            if self.unknowns == 0:
                raise self.fail(token, "one bound at most can be asked for by ?" if self.unknown_seen else "a ? in place of a bound is found by 'otz least'; here a number is expected")
            self.unknowns, self.unknown_seen = self.unknowns - 1, True
            return _UNKNOWN
        try:
            return read_number(token.word, "bound", LARGEST_BOUND, token.place)
        except Mistake as mistake:
            raise self.fail(token, f"{mistake.words} (for no bound, leave <= out)") from None

    def action(self) -> Optional[int]:
        """The action behind EX or AX; none where none is written."""
        if not self.peek().startswith("#"):
            return None
        token = self.next()
        place = Place(token.place.path, token.place.line, (token.place.column or 0) + 1)
        return self.action_of(token.word[1:], place, token.excerpt)

    def proposition(self, token: _Token) -> int:
        return self.number_of(token.word, token.place, token.excerpt)

    def formula(self, depth: int = 1) -> Formula:
        token = self.next()
        word = token.word
        if depth > _DEEPEST:
            raise self.fail(token, "the formula is too deep for its rows to be numbered")
        if word == "true":
            return Formula(Operator.TRUE)
        if word == "false":
            return Formula(Operator.FALSE)
        if word == "!":
            return self.negation()
        if word == "(":
            return self.both(depth)
        if word in ("EX", "AX"):
            action, bound = self.action(), self.bound()
            operator = Operator[word if action is None else f"{word}_ACTION"]
            return _bounded(operator, (self.formula(depth + 1),), bound, action)
        if word in ("E", "A"):
            return self.until(word, depth)
        if word and (word[0].isalpha() or word[0] == "_") and word != "U":
            return Formula(Operator.PROPOSITION, proposition=self.proposition(token))
        raise self.fail(token, f"a formula is expected here, {_found(token)}")

    def negation(self) -> Formula:
        token = self.next()
        if not token.word or not (token.word[0].isalpha() or token.word[0] == "_") or token.word in FORMULA_WORDS:
            raise self.fail(token, "only a proposition can be negated, as !idle: !(x & y) is (!x | !y), !(x | y) is (!x & !y), !EX x is AX !x")
        return Formula(Operator.NOT_PROPOSITION, proposition=self.proposition(token))

    def both(self, depth: int) -> Formula:
        left = self.formula(depth + 1)
        token = self.next()
        if token.word not in ("&", "|"):
            raise self.fail(token, f"'&' or '|' is expected, {_found(token)}: brackets stand around (x & y) and (x | y) alone")
        right = self.formula(depth + 1)
        end = self.next()
        if end.word in ("&", "|"):
            raise self.fail(end, f"each {end.word} has brackets of its own, as ((x {token.word} y) {end.word} z)")
        if end.word != ")":
            raise self.fail(end, f"')' is expected after (x {token.word} y, {_found(end)}")
        return Formula(Operator.AND if token.word == "&" else Operator.OR, (left, right))

    def until(self, quantifier: str, depth: int) -> Formula:
        self.expect("[", quantifier)
        left = self.formula(depth + 1)
        self.expect("U", f"{quantifier}[x")
        bound = self.bound()
        right = self.formula(depth + 1)
        self.expect("]", f"{quantifier}[x U y")
        operator = Operator.E_UNTIL if quantifier == "E" else Operator.A_UNTIL
        return _bounded(operator, (left, right), bound)


def _bounded(operator: Operator, operands: Tuple[Formula, ...], bound: Optional[int], action: Optional[int] = None) -> Formula:
    return Formula(operator, operands, bound=None if bound == _UNKNOWN else bound, unknown=bound == _UNKNOWN, action=action)


def _brackets(sign: str) -> str:
    return f"x {sign} y is written with brackets, (x {sign} y)"


def _found(token: _Token) -> str:
    return f"not '{token.word}'" if token.word else "and the text ends"


def read_formula(text: str, path: str, number_of: NumberOf, unknowns: int = 0, action_of: NumberOf = plain_action) -> Formula:
    """Reads a formula; `number_of` gives the proposition that a word means, `action_of` the action. So many ? may stand for bounds.

    Lines that start with # are comments. The first mistake is raised with its line and column.
    """
    parser = _Parser(_tokens(text, path), number_of, unknowns, action_of)
    formula = parser.formula()
    token = parser.next()
    if token.word in ("&", "|"):
        raise parser.fail(token, _brackets(token.word))
    if token.word:
        raise parser.fail(token, f"the formula is complete before '{token.word}'")
    return formula
