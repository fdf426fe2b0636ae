"""From message bytes back to models and formulas.

Faults are looked for in document 01's order and the first is raised, with its number and, by request 4,
the offset of the field that is wrong. Raw passes over what text can say too: counts outside their limits,
propositions by number.
"""

from __future__ import annotations

import struct
from dataclasses import dataclass
from typing import List, Optional, Tuple

from .fields import spot
from .formula import Formula
from .mistakes import Mistake, Place
from .model import Model, Transition
from .names import plain_name
from .paper import (
    ACTIONS,
    BOUNDED,
    FORM,
    FORMULA_HEADER,
    FORMULA_KIND,
    FORMULA_VERSION,
    LABEL,
    LENGTH,
    LIMIT,
    LIMITS,
    MODEL_HEADER,
    MODEL_KIND,
    MODEL_VERSION,
    NAME,
    NO_BOUND,
    OPERANDS,
    ORDER,
    PROPOSITIONS,
    REFUSALS,
    ROW,
    TRANSITION,
    VERSION_FAULT,
    Operator,
)


class Fault(Mistake):
    """The first fault of a message: its number, and its offset in the message, 0 where no field is wrong."""

    def __init__(self, message: "_Message", number: int, offset: int, words: str) -> None:
        self.number = number
        self.offset = offset
        self.spot = spot(message.what, message.data, offset, message.named) if offset else None
        super().__init__(Place(message.path), f"{self.where(message)}: {words} (refusal {number}, {REFUSALS[number].name})")

    def where(self, message: "_Message") -> str:
        if self.spot is None:
            return f"in the {message.what}"
        in_file = f" ({message.start + self.offset} of the file)" if message.start else ""
        return f"byte {self.offset} of the {message.what}{in_file}, {self.spot}"

    def __str__(self) -> str:
        """The fault, and the record's bytes with a mark under the field."""
        lines = self.spot.marked().splitlines() if self.spot else []
        return "\n    ".join([super().__str__(), *lines])


@dataclass(frozen=True)
class _Message:
    """One message within a file, and how its faults are told."""

    data: bytes
    what: str
    path: str
    start: int
    raw: bool
    named: Optional[Model]

    def fault(self, number: int, offset: int, words: str) -> Fault:
        return Fault(self, number, offset, words)

    def header(self, layout: str, right_version: int, kind: int) -> Tuple[int, ...]:
        """The counts of the header, once length, version and kind are right."""
        if len(self.data) < struct.calcsize(layout):
            raise self.fault(LENGTH, 0, f"{len(self.data)} bytes are too few for its header")
        length, version, found, *counts = struct.unpack_from(layout, self.data)
        if length != len(self.data):
            raise self.fault(LENGTH, 0, f"the length field says {length} and there are {len(self.data)} bytes")
        if version != right_version:
            raise self.fault(VERSION_FAULT, 4, f"version {version}, not {right_version}")
        if found != kind:
            raise self.fault(VERSION_FAULT, 5, f"kind {found}, not {kind}")
        return tuple(counts)

    def limit(self, what: str, count: int, at: int) -> None:
        least, most = LIMITS[what]
        if not self.raw and not least <= count <= most:
            raise self.fault(LIMIT, at, f"{count} {what}: {least} to {most:,} are allowed")

    def exactly(self, length: int) -> None:
        if len(self.data) != length:
            raise self.fault(LENGTH, 0, f"its counts ask for {length} bytes and there are {len(self.data)}")


def decode_model(data: bytes, path: str = "message", raw: bool = False, named: Optional[Model] = None) -> Model:
    """A model with the names s0, s1 .. for its states and p0, p1 .. for its propositions. Faults are told in
    the names of another, if one is given."""
    message = _Message(data, "model", path, 0, raw, named)
    states, propositions, transitions = message.header(MODEL_HEADER, MODEL_VERSION, MODEL_KIND)
    message.limit("states", states, 6)
    message.limit("propositions", propositions, 8)
    message.limit("transitions", transitions, 9)
    at, label, record = (struct.calcsize(layout) for layout in (MODEL_HEADER, LABEL, TRANSITION))
    message.exactly(at + label * states + record * transitions)
    model = Model([f"s{i}" for i in range(states)], [plain_name(i) for i in range(propositions)], path=path)
    for state in range(states):
        (bits,) = struct.unpack_from(LABEL, data, at)
        if bits >> propositions:
            raise message.fault(FORM, at, f"the label of state {state} has a proposition of {propositions} or above")
        model.labels.append(frozenset(i for i in range(32) if bits >> i & 1))
        at += label
    before = 0
    for _ in range(transitions):
        source, weight, action, target = struct.unpack_from(TRANSITION, data, at)
        if source >= states:
            raise message.fault(NAME, at, f"a transition from state {source} of {states}")
        if source < before:
            raise message.fault(ORDER, at, f"a transition from state {source} after one from state {before}")
        if target >= states:
            raise message.fault(NAME, at + 8, f"a transition to state {target} of {states}")
        model.transitions.append(Transition(source, weight, target, action))
        before = source
        at += record
    return model


def decode_formula(data: bytes, propositions: int, path: str = "message", start: int = 0, raw: bool = False, named: Optional[Model] = None) -> Formula:
    """A formula over so many propositions."""
    message = _Message(data, "formula", path, start, raw, named)
    (count,) = message.header(FORMULA_HEADER, FORMULA_VERSION, FORMULA_KIND)
    message.limit("rows", count, 6)
    at, record = struct.calcsize(FORMULA_HEADER), struct.calcsize(ROW)
    message.exactly(at + record * count)
    if count == 0:
        raise message.fault(LIMIT, 6, "a formula without rows has no text")
    trees: List[Formula] = []
    uses = [0] * count
    for _ in range(count):
        trees.append(_row(message, at, trees, uses, propositions))
        at += record
    for row, times in enumerate(uses[:-1]):
        if times != 1:
            raise message.fault(FORM, 0, f"row {row} is an operand {times} times, not once")
    return trees[-1]


def _row(message: _Message, at: int, earlier: List[Formula], uses: List[int], propositions: int) -> Formula:
    code, left, right, zero, bound = struct.unpack_from(ROW, message.data, at)
    if code not in OPERANDS:
        raise message.fault(FORM, at, f"there is no operator {code}")
    operator = Operator(code)
    operands = OPERANDS[operator]
    named = operator in PROPOSITIONS
    bounded, acting = operator in BOUNDED, operator in ACTIONS
    for used, value, offset in ((operands > 0 or named, left, 1), (operands > 1 or acting, right, 2), (False, zero, 3), (bounded, bound, 4)):
        if not used and value:
            raise message.fault(FORM, at + offset, f"row {len(earlier)} has {value} in a field that it doesn't use")
    if named and left >= propositions and not message.raw:
        raise message.fault(NAME, at + 1, f"row {len(earlier)} is about proposition {left} of {propositions}")
    for row, offset in ((left, 1), (right, 2))[:operands]:
        if row >= len(earlier):
            raise message.fault(NAME, at + offset, f"row {len(earlier)} has row {row} as operand, which isn't an earlier one")
        uses[row] += 1
    return Formula(
        operator,
        tuple(earlier[row] for row in (left, right)[:operands]),
        proposition=left if named else 0,
        bound=bound if bounded and bound != NO_BOUND else None,
        action=right if acting else None,
    )


def _end_of_model(data: bytes) -> int:
    """Where a model at the front ends by its length field; the end of all where that can't be."""
    (length,) = struct.unpack_from(">I", data) if len(data) >= 4 else (0,)
    return length if struct.calcsize(MODEL_HEADER) <= length <= len(data) else len(data)


def decode(data: bytes, path: str, raw: bool = False, named: Optional[Model] = None) -> Tuple[Optional[Model], Optional[Formula]]:
    """A model, a formula, or a model followed by a formula."""
    if len(data) >= 6 and data[5] == FORMULA_KIND:
        # alone, a formula may speak of any proposition that a model could have
        return None, decode_formula(data, LIMITS["propositions"][1], path, raw=raw, named=named)
    end = _end_of_model(data)
    model = decode_model(data[:end], path, raw, named)
    if end == len(data):
        return model, None
    return model, decode_formula(data[end:], len(model.propositions), path, end, raw, named)


def stands_at(number: int, offset: int, data: bytes, named: Model) -> List[str]:
    """What stands at the offset of a refusal, for a model followed by a formula. The program doesn't say in which of the two it
    is: where the first fault found here isn't the program's, both are told."""
    end = _end_of_model(data)
    spots = {what: spot(what, message, offset, named) for what, message in (("model", data[:end]), ("formula", data[end:]))}
    try:
        decode(data, "", named=named)
    except Fault as fault:
        if (fault.number, fault.offset) == (number, offset):
            spots = {what: found for what, found in spots.items() if found == fault.spot}
    return [f"byte {offset} of the {what}: {found}, is {found.field.value}" for what, found in spots.items() if found]
