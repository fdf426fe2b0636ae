#!/usr/bin/env python3
"""A stand-in for the bridge to the library, by the words in bridge.c; what it answers is fake_otzarvim's."""

import os
import struct
import sys

sys.path.insert(0, os.path.dirname(os.path.abspath(__file__)))

import fake_otzarvim  # noqa: E402  (the folder must be on the path first)


def stored(value):
    return 2**64 - 1 if value == fake_otzarvim.INFINITY else value


def answer(model, formula):
    settled = fake_otzarvim.settle(model, formula)
    if len(settled) == 2:
        return struct.pack(">BQIIIII", *settled, 0, 0, 0, 0, 0)
    text, count, values, first, states, _ = settled
    header = struct.pack(">BQIIIII", 0, 0, count, first, states, len(values), len(text))
    return header + b"".join(struct.pack(">Q", stored(value)) for value in values) + text.encode()


def main():
    asked, answered = sys.stdin.buffer, sys.stdout.buffer
    while True:
        header = asked.read(12)
        if len(header) < 12:
            return
        model, formula, _ = struct.unpack(">III", header)
        answered.write(answer(asked.read(model), asked.read(formula)))
        answered.flush()


if __name__ == "__main__":
    main()
