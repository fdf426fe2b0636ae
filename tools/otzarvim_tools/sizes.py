"""How large the graph of a question is, so that SIZE and ROOM can be explained."""

from __future__ import annotations

from dataclasses import dataclass
from typing import Iterator, List

from .formula import Formula
from .model import Model, Transition
from .paper import (
    GRAPH_COVERS,
    GRAPH_HYPEREDGES,
    GRAPH_NODES,
    GRAPH_TARGETS,
    GRAPH_TARGETS_OF_ONE,
    ALL_NEXTS,
    PROGRAM_GRAPH_ROOM,
    PROPOSITIONS,
    SOME_NEXTS,
    UNTILS,
    Operator,
)


@dataclass
class Size:
    """The counts of a graph."""

    nodes: int = 0
    hyperedges: int = 0
    targets: int = 0
    widest: int = 0
    covers: int = 0

    def add(self, *widths: int) -> None:
        """Hyperedges with so many targets each."""
        self.hyperedges += len(widths)
        self.targets += sum(widths)
        self.widest = max(self.widest, *widths)

    @property
    def message(self) -> int:
        """The bytes of the graph message."""
        return 14 + 4 * self.hyperedges + 6 * self.targets + 8 * self.covers

    def over(self) -> Iterator[str]:
        """Each limit that is passed, in words."""
        for what, count, most in (
            ("nodes", self.nodes, GRAPH_NODES),
            ("hyperedges", self.hyperedges, GRAPH_HYPEREDGES),
            ("cover edges", self.covers, GRAPH_COVERS),
            ("targets", self.targets, GRAPH_TARGETS),
            ("targets of one hyperedge", self.widest, GRAPH_TARGETS_OF_ONE),
        ):
            if count > most:
                yield f"the graph would have {count:,} {what}: at most {most:,} are allowed"

    def too_long(self) -> Iterator[str]:
        """That the program has no room for the graph, in words."""
        if self.message > PROGRAM_GRAPH_ROOM:
            yield f"the graph would take {self.message:,} bytes: the program has {PROGRAM_GRAPH_ROOM:,}"


def graph_size(model: Model, formula: Formula) -> Size:
    """The counts of the graph that document 01 builds from a model and a formula."""
    rows = formula.rows()
    states = range(len(model.states))
    leads: List[List[Transition]] = [[] for _ in states]
    for step in model.transitions:
        leads[step.source].append(step)
    untils = sum(row.operator in UNTILS for row in rows)
    size = Size(nodes=len(model.states) * (len(rows) + untils))
    for row in rows:
        for state in states:
            seen = sum(map(row.sees, leads[state]))
            degree = len(leads[state])
            if row.operator == Operator.TRUE:
                size.add(0)
            elif row.operator in PROPOSITIONS:
                if (row.left in model.labels[state]) == (row.operator == Operator.PROPOSITION):
                    size.add(0)
            elif row.operator == Operator.AND:
                size.add(2)
            elif row.operator == Operator.OR:
                size.add(1, 1)
            elif row.operator in SOME_NEXTS and seen:
                size.add(*[1] * seen)
            elif row.operator in ALL_NEXTS:
                size.add(seen)
            elif row.operator == Operator.E_UNTIL:
                size.covers += 1
                size.add(1, *[2] * degree)
            elif row.operator == Operator.A_UNTIL:
                size.covers += 1
                # at a state without transitions the helper has its first hyperedge only
                size.add(1, *[1 + degree] * bool(degree))
    return size
