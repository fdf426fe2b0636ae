"""Claims about the graph of a question: the graph's message, its settled values with ranks, and what the proved checker says of claims.

Nothing here is trusted: whatever this module works out, `verdict` asks the checker, by the program `trials`."""

from __future__ import annotations

import os
import struct
from pathlib import Path
from typing import List, Optional, Tuple

from .formula import Formula, Row
from .mistakes import Mistake, Place
from .model import Model, Transition
from .paper import ALL_NEXTS, NO_BOUND, PROPOSITIONS, SOME_NEXTS, UNTILS, Operator
from .running import ROOT, WORDS, built, run, said_of

INFINITE = 2**64 - 1
CLAIM = 16
MOST_MESSAGE = 65_536
TRIALS = "trials"
VARIABLE = "TRIALS"

Target = Tuple[int, int]
Hyperedge = Tuple[int, List[Target]]
Cover = Tuple[int, int, int]


class Graph:
    """The graph that document 01 builds from a model and a formula."""

    def __init__(self, model: Model, formula: Formula) -> None:
        self.rows = formula.rows()
        self.states = len(model.states)
        self.model = model
        self.out: List[List[Transition]] = [[] for _ in model.states]
        for step in model.transitions:
            self.out[step.source].append(step)
        untils = [number for number, row in enumerate(self.rows) if row.operator in UNTILS]
        self.nodes = self.states * (len(self.rows) + len(untils))
        self.hyperedges: List[Hyperedge] = []
        self.covers: List[Cover] = []
        for number, row in enumerate(self.rows):
            helper = len(self.rows) + untils.index(number) if number in untils else 0
            for state in range(self.states):
                self._row(row, number, helper, state)
        for place, number in enumerate(untils):
            for state in range(self.states):
                self._helper(self.rows[number], len(self.rows) + place, state)

    def node(self, state: int, place: int) -> int:
        return state + self.states * place

    def _row(self, row: Row, number: int, helper: int, state: int) -> None:
        source, operator = self.node(state, number), row.operator
        left, right = (0, self.node(state, row.left)), (0, self.node(state, row.right))
        near = [(0, self.node(step.target, row.left)) for step in self.out[state] if row.sees(step)]
        if operator == Operator.TRUE or operator in PROPOSITIONS and (row.left in self.model.labels[state]) == (operator == Operator.PROPOSITION):
            self.hyperedges.append((source, []))
        elif operator == Operator.AND:
            self.hyperedges.append((source, [left, right]))
        elif operator == Operator.OR:
            self.hyperedges += [(source, [left]), (source, [right])]
        elif operator in SOME_NEXTS:
            self.hyperedges += [(source, [target]) for target in near]
        elif operator in ALL_NEXTS:
            self.hyperedges.append((source, near))
        elif operator in UNTILS:
            self.covers.append((source, row.bound, self.node(state, helper)))

    def _helper(self, row: Row, place: int, state: int) -> None:
        source = self.node(state, place)
        left = (0, self.node(state, row.left))
        steps = [(step.weight, self.node(step.target, place)) for step in self.out[state]]
        self.hyperedges.append((source, [(0, self.node(state, row.right))]))
        if row.operator == Operator.E_UNTIL:
            self.hyperedges += [(source, [left, step]) for step in steps]
        elif steps:
            self.hyperedges.append((source, [left, *steps]))

    def message(self) -> bytes:
        """The graph message."""
        records = [struct.pack(">HH", source, len(targets)) + b"".join(struct.pack(">IH", *target) for target in targets) for source, targets in self.hyperedges]
        records += [struct.pack(">HIH", *cover) for cover in self.covers]
        body = b"".join(records)
        return struct.pack(">IBBHIH", 14 + len(body), 1, 1, self.nodes, len(self.hyperedges), len(self.covers)) + body


def _gives(targets: List[Target], values: List[int]) -> int:
    return max((INFINITE if values[node] == INFINITE else values[node] + weight for weight, node in targets), default=0)


def _holds(cover: Cover, values: List[int]) -> bool:
    return values[cover[2]] != INFINITE and (cover[1] == NO_BOUND or values[cover[2]] <= cover[1])


def settled(graph: Graph) -> List[int]:
    """The settled values, by rounds."""
    values = [INFINITE] * graph.nodes
    while True:
        after = [INFINITE] * graph.nodes
        for source, targets in graph.hyperedges:
            after[source] = min(after[source], _gives(targets, values))
        for cover in graph.covers:
            if _holds(cover, values):
                after[cover[0]] = 0
        if after == values:
            return values
        values = after


def certificate(graph: Graph) -> bytes:
    """Claims: the settled values, and the pass in which each node got a support whose targets were ranked."""
    values = settled(graph)
    ranks = [INFINITE] * graph.nodes
    rank = 0
    while True:
        fresh = {source for source, targets in graph.hyperedges if _gives(targets, values) == values[source] and all(ranks[node] < INFINITE for _, node in targets)}
        fresh |= {cover[0] for cover in graph.covers if _holds(cover, values) and ranks[cover[2]] < INFINITE}
        fresh = {node for node in fresh if ranks[node] == INFINITE}
        if not fresh:
            break
        for node in fresh:
            ranks[node] = rank
        rank += 1
    return b"".join(struct.pack(">QQ", value, rank) for value, rank in zip(values, ranks))


def verdict(message: bytes, claims: bytes, program: Optional[str] = None) -> Tuple[int, str]:
    """The number and the verdict that the proved checker gives: a call C of the program `trials`."""
    for what, data in (("graph", message), ("claims", claims)):
        if len(data) > MOST_MESSAGE:
            raise Mistake(Place(what), f"{len(data):,} bytes: the program {TRIALS} takes {MOST_MESSAGE:,}")
    given = program or os.environ.get(VARIABLE)
    found = Path(given) if given else built(ROOT, TRIALS, TRIALS)
    if not found.is_file():
        raise Mistake(Place(str(found)), f"there is no program here: {said_of(WORDS, TRIALS)} builds it")
    body = b"".join(struct.pack(">I", len(data)) + data for data in (message, claims))
    answer = run(found, b"C" + struct.pack(">I", len(body)) + body).split()
    # from request 4 on an offset stands behind the number
    if len(answer) < 3 or answer[0] != "C":
        raise Mistake(Place(str(found)), "the program does not know the call C")
    return int(answer[1]), answer[-1]
