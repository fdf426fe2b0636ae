#!/usr/bin/env python3
"""A stand-in for the program, written from document 01 and requests 1, 4 and 7 alone; it shares nothing with the package.

It gives every refusal that the program can give but those of its text and value rooms and its budget, which suffice.
"""

import sys

INFINITY = float("inf")
NO_BOUND = 2**32 - 1


def number(data, at, size):
    return int.from_bytes(data[at:at + size], "big")


def read(data):
    """States' labels, transitions of each state, and rows."""
    end = number(data, 0, 4)
    count, steps = number(data, 6, 2), number(data, 9, 4)
    labels = [number(data, 13 + 4 * a, 4) for a in range(count)]
    leads = [[] for _ in range(count)]
    for i in range(steps):
        at = 13 + 4 * count + 10 * i
        leads[number(data, at, 2)].append((number(data, at + 2, 4), number(data, at + 6, 2), number(data, at + 8, 2)))
    rows = []
    for r in range(data[end + 6]):
        at = end + 7 + 8 * r
        rows.append((data[at], data[at + 1], data[at + 2], number(data, at + 4, 4)))
    return labels, leads, rows


def fault_of_model(data):
    """The number and the offset of the first fault, or None."""
    if len(data) < 13 or number(data, 0, 4) != len(data):
        return 2, 0
    states, propositions, transitions = number(data, 6, 2), data[8], number(data, 9, 4)
    for wrong, refused, at in (
        (data[4] != 2, 3, 4), (data[5] != 2, 3, 5), (not 1 <= states <= 256, 4, 6), (propositions > 32, 4, 8), (transitions > 65535, 4, 9),
        (len(data) != 13 + 4 * states + 10 * transitions, 2, 0),
    ):
        if wrong:
            return refused, at
    for at in range(13, 13 + 4 * states, 4):
        if number(data, at, 4) >> propositions:
            return 10, at
    before = 0
    for at in range(13 + 4 * states, len(data), 10):
        source = number(data, at, 2)
        for wrong, refused, place in ((source >= states, 6, at), (source < before, 5, at), (number(data, at + 8, 2) >= states, 6, at + 8)):
            if wrong:
                return refused, place
        before = source
    return None


def fault_of_formula(data, propositions):
    """The same for a formula over so many propositions."""
    if len(data) < 7 or number(data, 0, 4) != len(data):
        return 2, 0
    for wrong, refused, at in ((data[4] != 1, 3, 4), (data[5] != 3, 3, 5), (not 1 <= data[6] <= 64, 4, 6), (len(data) != 7 + 8 * data[6], 2, 0)):
        if wrong:
            return refused, at
    uses = [0] * data[6]
    for r in range(data[6]):
        at = 7 + 8 * r
        operator, left, right, zero = data[at:at + 4]
        binary = operator in (4, 5, 8, 9)
        for wrong, refused, place in (
            (operator > 11, 10, at),
            (operator < 2 and left, 10, at + 1),
            (operator < 10 and not binary and right, 10, at + 2),
            (zero, 10, at + 3),
            (operator < 6 and number(data, at + 4, 4), 10, at + 4),
            (operator in (2, 3) and left >= propositions, 6, at + 1),
            (operator >= 4 and left >= r, 6, at + 1),
            (binary and right >= r, 6, at + 2),
        ):
            if wrong:
                return refused, place
        for row in ([left] if operator >= 4 else []) + ([right] if binary else []):
            uses[row] += 1
    return None if all(times == 1 for times in uses[:-1]) else (10, 0)


def text(rows, r):
    operator, left, right, bound = rows[r]
    within = "" if bound == NO_BOUND else "<=%d" % bound
    if operator < 4:
        return ["true", "false", "p%d" % left, "!p%d" % left][operator]
    if operator < 6:
        return "(%s %s %s)" % (text(rows, left), "&|"[operator - 4], text(rows, right))
    if operator in (6, 7, 10, 11):
        by = "#%d" % right if operator >= 10 else ""
        return "%sX%s%s %s" % ("EA"[operator % 2], by, within, text(rows, left))
    return "%s[%s U%s %s]" % ("EA"[operator - 8], text(rows, left), within, text(rows, right))


def graph(labels, leads, rows):
    """For each node its hyperedges, lists of (weight, node), and its cover edge (bound, node) or None."""
    s = len(labels)
    untils = [r for r, row in enumerate(rows) if row[0] in (8, 9)]
    hypers = [[] for _ in range(s * (len(rows) + len(untils)))]
    covers = [None] * len(hypers)
    for r, (operator, left, right, bound) in enumerate(rows):
        for a in range(s):
            near = [b for w, by, b in leads[a] if (bound == NO_BOUND or w <= bound) and (operator < 10 or by == right)]
            node, l, q = a + s * r, a + s * left, a + s * right
            if operator < 4:
                holds = [True, False, labels[a] >> left & 1, not labels[a] >> left & 1][operator]
                hypers[node] = [[]] if holds else []
            elif operator == 4:
                hypers[node] = [[(0, l), (0, q)]]
            elif operator == 5:
                hypers[node] = [[(0, l)], [(0, q)]]
            elif operator in (6, 10):
                hypers[node] = [[(0, b + s * left)] for b in near]
            elif operator in (7, 11):
                hypers[node] = [[(0, b + s * left) for b in near]]
            else:
                base = s * (len(rows) + untils.index(r))
                covers[node] = (bound, a + base)
                steps = [(w, b + base) for w, _, b in leads[a]]
                rest = [[(0, l), step] for step in steps] if operator == 8 else [[(0, l)] + steps]
                # where nothing follows, the first stands alone
                hypers[a + base] = [[(0, q)]] + (rest if steps else [])
    return hypers, covers


def next_round(hypers, covers, values):
    result = []
    for node, edges in enumerate(hypers):
        cover = covers[node]
        if cover and values[cover[1]] < INFINITY and (cover[0] == NO_BOUND or values[cover[1]] <= cover[0]):
            result.append(0)
        else:
            worst = [max([w + values[v] for w, v in edge], default=0) for edge in edges]
            result.append(min(worst, default=INFINITY))
    return result


def settle(model, formula):
    """What the library gives: a refusal's number and offset, or the text, the count, the values, and the place of the verdicts."""
    fault = fault_of_model(model) or fault_of_formula(formula, model[8])
    if fault:
        return fault
    labels, leads, rows = read(model + formula)
    hypers, covers = graph(labels, leads, rows)
    widths = [len(edge) for edges in hypers for edge in edges]
    if len(hypers) > 4096 or len(widths) > 65535 or sum(widths) > 262144 or max(widths, default=0) > 65535:
        return 8, 0
    values, count = [INFINITY] * len(hypers), 0
    while True:
        after = next_round(hypers, covers, values)
        if after == values:
            break
        values, count = after, count + 1
    # the length of the graph's message comes last
    return text(rows, len(rows) - 1), count, values, len(labels) * (len(rows) - 1), len(labels), 14 + 4 * len(widths) + 6 * sum(widths) + 8 * sum(map(bool, covers))


def answer(data):
    end = number(data, 0, 4)
    if not 4 <= len(data) <= 8192 or end > len(data):
        return "refused 2\n"
    settled = settle(data[:end], data[end:])
    if len(settled) == 2:
        return "refused %d at %d\n" % settled if settled[1] else "refused %d\n" % settled[0]
    words, count, values, root, states, length = settled
    # the room that the program lends
    if length > 65536:
        return "refused 9\n"
    verdicts = ["%d %s\n" % (a, "yes" if values[root + a] == 0 else "no") for a in range(states)]
    return "%s\nrounds %d\n%s" % (words, count, "".join(verdicts))


if __name__ == "__main__":
    sys.stdout.write(answer(sys.stdin.buffer.read()))
