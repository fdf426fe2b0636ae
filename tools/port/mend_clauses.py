#!/usr/bin/env python3
"""Writes the clauses that a check asks for, above the first clause of their lemma.

usage: mend_clauses.py LOG      in the crate's folder; LOG is what the check printed
"""

import re
import sys

ASK = re.compile(r"(?m)^(\./\S+\.antt):(\d+):\d+: error: `[^`]*`: write the clause `([^`]+)`")


def main(log):
    asks = {}
    for m in ASK.finditer(open(log, encoding="utf-8").read()):
        asks.setdefault(m[1], []).append((int(m[2]), m[3]))
    for path, each in asks.items():
        lines = open(path, encoding="utf-8").read().split("\n")
        for at, clause in sorted(each, reverse=True):
            indent = re.match(r" *", lines[at - 1])[0]
            lines.insert(at - 1, indent + clause)
        open(path, "w", encoding="utf-8").write("\n".join(lines))
        print(path, *(c for _, c in each), sep="\n  ")


main(sys.argv[1])
