"""The numbers and names that document 01 fixes, each written once."""

from __future__ import annotations

from enum import IntEnum
from typing import Dict, NamedTuple, Tuple

MODEL_VERSION = 2  # since transitions carry an action
FORMULA_VERSION = 1
MODEL_KIND = 2
FORMULA_KIND = 3

# The layout of each record, and the names of its fields.
MODEL_HEADER = ">IBBHBI"
MODEL_HEADER_FIELDS = ("length", "version", "kind", "states", "propositions", "transitions")
LABEL = ">I"
LABEL_FIELDS = ("label",)
TRANSITION = ">HIHH"
TRANSITION_FIELDS = ("from", "weight", "action", "to")
FORMULA_HEADER = ">IBBB"
FORMULA_HEADER_FIELDS = ("length", "version", "kind", "rows")
ROW = ">BBBBI"
ROW_FIELDS = ("operator", "left", "right", "zero", "bound")

NO_BOUND = 4_294_967_295
LARGEST_WEIGHT = 4_294_967_295
LARGEST_BOUND = NO_BOUND - 1
LARGEST_ACTION = 65_535
LARGEST_ASKED = 255  # the largest action that a row can ask for

# Each count, the least and the most that is allowed.
LIMITS: Dict[str, Tuple[int, int]] = {
    "states": (1, 256),
    "propositions": (0, 32),
    "transitions": (0, 65_535),
    "rows": (1, 64),
}

# The limits of the graph that the program builds, and what the program lends.
GRAPH_NODES = 4_096
GRAPH_HYPEREDGES = 65_535
GRAPH_TARGETS = 262_144
GRAPH_TARGETS_OF_ONE = 65_535
GRAPH_COVERS = 4_096
PROGRAM_INPUT = 8_192
PROGRAM_GRAPH_ROOM = 65_536

# What the library is lent: a graph and a text of any size; and how it stores infinity.
MOST_GRAPH = 14 + 4 * GRAPH_HYPEREDGES + 6 * GRAPH_TARGETS + 8 * GRAPH_COVERS
MOST_TEXT = 2_048
INFINITE = 18_446_744_073_709_551_615


class Operator(IntEnum):
    """A row's operator byte."""

    TRUE = 0
    FALSE = 1
    PROPOSITION = 2
    NOT_PROPOSITION = 3
    AND = 4
    OR = 5
    EX = 6
    AX = 7
    E_UNTIL = 8
    A_UNTIL = 9
    EX_ACTION = 10
    AX_ACTION = 11


PROPOSITIONS = (Operator.PROPOSITION, Operator.NOT_PROPOSITION)
SOME_NEXTS = (Operator.EX, Operator.EX_ACTION)
ALL_NEXTS = (Operator.AX, Operator.AX_ACTION)
NEXTS = SOME_NEXTS + ALL_NEXTS
ACTIONS = (Operator.EX_ACTION, Operator.AX_ACTION)  # right holds the action
UNTILS = (Operator.E_UNTIL, Operator.A_UNTIL)
BOUNDED = NEXTS + UNTILS

# How many operand rows stand in left and right.
OPERANDS: Dict[Operator, int] = {
    Operator.TRUE: 0,
    Operator.FALSE: 0,
    Operator.PROPOSITION: 0,
    Operator.NOT_PROPOSITION: 0,
    Operator.AND: 2,
    Operator.OR: 2,
    Operator.EX: 1,
    Operator.AX: 1,
    Operator.E_UNTIL: 2,
    Operator.A_UNTIL: 2,
    Operator.EX_ACTION: 1,
    Operator.AX_ACTION: 1,
}


class Refusal(NamedTuple):
    """A number given back, its name, and what it says to a person."""

    number: int
    name: str
    meaning: str


OK, BUDGET, LENGTH, VERSION_FAULT, LIMIT, ORDER, NAME, DEAD, SIZE, ROOM, FORM = range(11)

REFUSALS: Dict[int, Refusal] = {
    row.number: row
    for row in (
        Refusal(BUDGET, "BUDGET", "the count of rounds is greater than the budget"),
        Refusal(
            LENGTH,
            "LENGTH",
            "too few bytes for the header or a record, a wrong length field, or bytes left over;"
            f" or the input is longer than {PROGRAM_INPUT:,} bytes",
        ),
        Refusal(VERSION_FAULT, "VERSION", "wrong version or kind byte"),
        Refusal(LIMIT, "LIMIT", "a count is outside what is allowed"),
        Refusal(ORDER, "ORDER", "a transition starts at a state below that of the one before it"),
        Refusal(NAME, "NAME", "a state, proposition or operand that doesn't exist"),
        Refusal(DEAD, "DEAD", "a state has no transition; no longer given, since runs may stop"),
        Refusal(
            SIZE,
            "SIZE",
            "the graph to be built would pass a limit on its nodes, hyperedges, cover edges or targets",
        ),
        Refusal(ROOM, "ROOM", "the room for the graph, the text or the values is too small"),
        Refusal(
            FORM,
            "FORM",
            "a formula or label that breaks the rules: an unknown operator, an unused field that"
            " isn't zero, a row that isn't an operand exactly once, or a label of a proposition"
            " that doesn't exist",
        ),
    )
}
