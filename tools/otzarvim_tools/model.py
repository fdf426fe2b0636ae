"""A model: states, propositions, labels and transitions, by number, with their names."""

from __future__ import annotations

from dataclasses import dataclass, field
from typing import Dict, FrozenSet, List


@dataclass(frozen=True)
class Transition:
    """A step from one state to another at a cost, by an action; 0 where none is named."""

    source: int
    weight: int
    target: int
    action: int = 0


@dataclass
class Model:
    """State i is named `states[i]` and has the propositions `labels[i]`. Action i is named `actions[i]`, if it has a name.

    Transitions stand in the order of the file. A state may have none.
    """

    states: List[str] = field(default_factory=list)
    propositions: List[str] = field(default_factory=list)
    labels: List[FrozenSet[int]] = field(default_factory=list)
    transitions: List[Transition] = field(default_factory=list)
    actions: Dict[int, str] = field(default_factory=dict)
    path: str = field(default="model", compare=False)

    def label_names(self, state: int) -> List[str]:
        """The propositions of a state by name, in the order of their numbers."""
        return [self.propositions[i] for i in sorted(self.labels[state])]

    def action_name(self, action: int) -> str:
        """An action by its name, or by its number."""
        return self.actions.get(action, str(action))

    def by(self, step: Transition) -> str:
        """A transition's action as it stands behind the weight, ' #compile'; empty for none."""
        return f" #{self.action_name(step.action)}" if step.action else ""
