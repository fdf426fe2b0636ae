#!/usr/bin/env python3
"""A stand-in for the program `trials`: its call C, written from request 6 alone; it shares nothing with the package.

It takes the graph as it is, and checks the claims: their length, the rules, and a support for each finite node.
"""

import sys

INFINITE = 2**64 - 1
NO_BOUND = 2**32 - 1


def number(data, at, size):
    return int.from_bytes(data[at:at + size], "big")


def edges(graph):
    """Hyperedges (source, [(weight, node)]) and cover edges (source, bound, node)."""
    hypers, at = [], 14
    for _ in range(number(graph, 8, 4)):
        count = number(graph, at + 2, 2)
        hypers.append((number(graph, at, 2), [(number(graph, p, 4), number(graph, p + 4, 2)) for p in range(at + 4, at + 4 + 6 * count, 6)]))
        at += 4 + 6 * count
    return hypers, [(number(graph, p, 2), number(graph, p + 2, 4), number(graph, p + 6, 2)) for p in range(at, len(graph), 8)]


def accepts(graph, claims):
    """Whether the claims obey the rules, and each finite node has a support."""
    pairs = [(number(claims, p, 8), number(claims, p + 8, 8)) for p in range(0, len(claims), 16)]
    values = [float("inf") if value == INFINITE else value for value, _ in pairs]
    hypers, covers = edges(graph)
    given = [(source, max((weight + values[node] for weight, node in targets), default=0), [node for _, node in targets]) for source, targets in hypers]
    given += [(source, 0, [node]) for source, bound, node in covers if values[node] < INFINITE and (bound == NO_BOUND or values[node] <= bound)]
    supported = {source for source, value, nodes in given if value == values[source] and all(pairs[node][1] < pairs[source][1] for node in nodes)}
    return all(values[source] <= value for source, value, _ in given) and all(v in supported for v in range(len(values)) if values[v] < INFINITE)


def answer(data):
    if data[:1] != b"C":
        return ""
    end = 9 + number(data, 5, 4)
    graph, claims = data[9:end], data[end + 4:]
    if len(claims) != 16 * number(graph, 6, 2):
        return "C 2 0 none\n"
    return "C 0 0 %s\n" % ("yes" if accepts(graph, claims) else "no")


if __name__ == "__main__":
    sys.stdout.write(answer(sys.stdin.buffer.read()))
