"""What stands at an offset of a message: its record and its field there.

A message may be damaged. Its records are counted as its own header says, as far as its bytes go.
"""

from __future__ import annotations

import struct
from typing import Iterator, NamedTuple, Optional, Tuple

from .formula import Formula
from .model import Model, Transition
from .names import plain_name
from .paper import (
    ACTIONS,
    BOUNDED,
    FORMULA_HEADER,
    FORMULA_HEADER_FIELDS,
    LABEL,
    LABEL_FIELDS,
    MODEL_HEADER,
    MODEL_HEADER_FIELDS,
    NO_BOUND,
    OPERANDS,
    PROPOSITIONS,
    ROW,
    ROW_FIELDS,
    TRANSITION,
    TRANSITION_FIELDS,
    Operator,
)


class Field(NamedTuple):
    """A field: its offset in the message, its bytes, and its name."""

    at: int
    data: bytes
    name: str

    @property
    def value(self) -> int:
        return int.from_bytes(self.data, "big")


class Record(NamedTuple):
    """A record: what it is, and its fields."""

    title: str
    fields: Tuple[Field, ...]


class Spot(NamedTuple):
    """A field in its record."""

    record: Record
    field: Field

    def __str__(self) -> str:
        return f"{self.record.title}, field {self.field.name}"

    def marked(self) -> str:
        """The record's offset and bytes, field by field, and below them a mark under the field."""
        before = f"{self.record.fields[0].at}  "
        shown, mark = before, ""
        for field in self.record.fields:
            if field is self.field:
                mark = " " * len(shown) + "^" * len(field.data.hex())
            shown += field.data.hex().upper() + " "
        return f"{shown.rstrip()}\n{mark}"


def _record(title: str, data: bytes, at: int, layout: str, names: Tuple[str, ...]) -> Record:
    fields = []
    for code, name in zip(layout[1:], names):
        width = struct.calcsize(">" + code)
        fields.append(Field(at, data[at:at + width], name))
        at += width
    return Record(title, tuple(fields))


def _state(number: int, states: int, named: Optional[Model]) -> str:
    """A state's name, as the model's text or as `otz show` has it; ? for one that doesn't exist."""
    if number >= states:
        return "?"
    return named.states[number] if named and number < len(named.states) else f"s{number}"


def _model_records(data: bytes, named: Optional[Model]) -> Iterator[Record]:
    at, label, step = (struct.calcsize(layout) for layout in (MODEL_HEADER, LABEL, TRANSITION))
    if len(data) < at:
        return
    yield _record("header", data, 0, MODEL_HEADER, MODEL_HEADER_FIELDS)
    _, _, _, states, _, transitions = struct.unpack_from(MODEL_HEADER, data)
    for number in range(min(states, (len(data) - at) // label)):
        yield _record(f"state {number} ({_state(number, states, named)})", data, at, LABEL, LABEL_FIELDS)
        at += label
    for number in range(min(transitions, (len(data) - at) // step)):
        source, weight, action, target = struct.unpack_from(TRANSITION, data, at)
        by = (named or Model()).by(Transition(source, weight, target, action))
        title = f"transition {number} ({_state(source, states, named)} -> {_state(target, states, named)}{by})"
        yield _record(title, data, at, TRANSITION, TRANSITION_FIELDS)
        at += step


def _row_text(data: bytes, at: int, named: Optional[Model]) -> str:
    """A row's text, with its operands as the rows that they are; ? for an operator that doesn't exist."""
    code, left, right, _, bound = struct.unpack_from(ROW, data, at)
    if code not in OPERANDS:
        return "?"
    operator = Operator(code)
    operands = tuple(Formula(Operator.PROPOSITION, proposition=row) for row in (left, right)[:OPERANDS[operator]])
    proposition = left if operator in PROPOSITIONS else 0
    action = right if operator in ACTIONS else None
    row = Formula(operator, operands, proposition, bound if operator in BOUNDED and bound != NO_BOUND else None, action=action)
    known = named.propositions if named else []

    def name(number: int) -> str:
        if operands:
            return f"row {number}"
        return known[number] if number < len(known) else plain_name(number)

    return row.text(name, (named or Model()).action_name)


def _formula_records(data: bytes, named: Optional[Model]) -> Iterator[Record]:
    at, row = struct.calcsize(FORMULA_HEADER), struct.calcsize(ROW)
    if len(data) < at:
        return
    yield _record("header", data, 0, FORMULA_HEADER, FORMULA_HEADER_FIELDS)
    for number in range(min(data[at - 1], (len(data) - at) // row)):
        yield _record(f"row {number} ({_row_text(data, at, named)})", data, at, ROW, ROW_FIELDS)
        at += row


RECORDS = {"model": _model_records, "formula": _formula_records}


def spot(what: str, data: bytes, offset: int, named: Optional[Model] = None) -> Optional[Spot]:
    """The field that starts at an offset of a model or a formula; none where none does."""
    for record in RECORDS[what](data, named):
        for field in record.fields:
            if field.at == offset:
                return Spot(record, field)
    return None
