"""Formulas by brute force over runs: every run is walked until it meets a state again. For models that are too large for that, the
shortest and the longest paths. No graph, no rounds, no values; only the tree of a formula is the package's.

A model is a dict from a state to its (weight, next state) pairs. A cost of None: never.
"""

from otzarvim_tools.paper import ALL_NEXTS, SOME_NEXTS, Operator as O


def cheapest(leads, left, right, state, seen=()):
    """The least cost of a run that comes to right by way of left. One that meets a state twice is never the cheapest alone."""
    if state in right:
        return 0
    if state not in left or state in seen:
        return None
    costs = [(weight, cheapest(leads, left, right, after, (*seen, state))) for weight, after in leads[state]]
    return min((weight + cost for weight, cost in costs if cost is not None), default=None)


def costliest(leads, left, right, state, seen=()):
    """The greatest cost at which a run comes to right by way of left; None if one doesn't: it leaves left, ends, or meets a state again."""
    if state in right:
        return 0
    if state not in left or state in seen or not leads[state]:
        return None
    costs = [(weight, costliest(leads, left, right, after, (*seen, state))) for weight, after in leads[state]]
    return None if any(cost is None for _, cost in costs) else max(weight + cost for weight, cost in costs)


def shortest_paths(leads, left, right):
    """The same as cheapest for every state, edge by edge as often as there are states (Bellman and Ford)."""
    far = {state: 0 if state in right else None for state in leads}
    for _ in leads:
        for state in left - right:
            for weight, after in leads[state]:
                if far[after] is not None and (far[state] is None or weight + far[after] < far[state]):
                    far[state] = weight + far[after]
    return far


def longest_paths(leads, left, right):
    """The same as costliest for every state: backwards from right, a state as soon as all that follows it is known."""
    far = {state: 0 for state in right}
    while True:
        more = [state for state in left if state not in far and leads[state] and all(after in far for _, after in leads[state])]
        if not more:
            return {state: far.get(state) for state in leads}
        for state in more:
            far[state] = max(weight + far[after] for weight, after in leads[state])


def until(formula):
    return cheapest if formula.operator is O.E_UNTIL else costliest


def satisfying(model, formula):
    """The states that satisfy a formula. EX and AX of an action: on the model that has the transitions of that action alone."""
    inner = [satisfying(model, operand) for operand in formula.operands]
    operator, bound, labels = formula.operator, formula.bound, model.labels
    leads = leads_of(model, formula.action)

    def within(cost):
        return cost is not None and (bound is None or cost <= bound)

    if operator is O.TRUE:
        return set(leads)
    if operator is O.FALSE:
        return set()
    if operator is O.PROPOSITION:
        return {state for state in leads if formula.proposition in labels[state]}
    if operator is O.NOT_PROPOSITION:
        return {state for state in leads if formula.proposition not in labels[state]}
    if operator is O.AND:
        return inner[0] & inner[1]
    if operator is O.OR:
        return inner[0] | inner[1]
    if operator in SOME_NEXTS:
        return {state for state in leads if any(within(weight) and after in inner[0] for weight, after in leads[state])}
    if operator in ALL_NEXTS:
        return {state for state in leads if all(not within(weight) or after in inner[0] for weight, after in leads[state])}
    return {state for state in leads if within(until(formula)(leads, *inner, state))}


def leads_of(model, action=None):
    """All transitions, or those of an action."""
    leads = {state: [] for state in range(len(model.states))}
    for step in model.transitions:
        if action is None or step.action == action:
            leads[step.source].append((step.weight, step.target))
    return leads
