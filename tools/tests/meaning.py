"""Untils by maximal runs, straight from the words of document 01 and of request 1: no graph, no rounds, nothing of the package.

A model is a dict from a state to its (weight, next state) pairs; `left` and `right` are sets of states.
A place on a run is a state and the cost so far; without a bound the cost doesn't matter and stays 0.
"""


def _places(leads, bound):
    costs = [0] if bound is None else range(bound + 1)
    return {(state, cost) for state in leads for cost in costs}


def _steps(leads, place, bound):
    """The next places; None stands for a cost past the bound."""
    state, cost = place
    for weight, after in leads[state]:
        if bound is None:
            yield after, 0
        else:
            yield (after, cost + weight) if cost + weight <= bound else None


def e_until(leads, left, right, bound=None):
    """The states with some run that comes to right in time: the places that lead there, grown step by step."""
    good = set()
    while True:
        more = {
            place
            for place in _places(leads, bound) - good
            if place[0] in right or (place[0] in left and any(after in good for after in _steps(leads, place, bound)))
        }
        if not more:
            return {state for state in leads if (state, 0) in good}
        good |= more


def a_until(leads, left, right, bound=None):
    """The states without a run that fails: from all places short of right, those with no way to fail are struck. A run that ends there fails."""
    bad = {place for place in _places(leads, bound) if place[0] not in right}
    while True:
        fewer = {
            place
            for place in bad
            if place[0] not in left or not leads[place[0]] or any(after is None or after in bad for after in _steps(leads, place, bound))
        }
        if fewer == bad:
            return {state for state in leads if (state, 0) not in bad}
        bad = fewer
