"""Message bytes: known ones, there and back, and the decoder's faults."""

import random
from collections.abc import Iterator

from otzarvim_tools import checks
from otzarvim_tools.compiler import compile_formula, compile_model
from otzarvim_tools.decoder import Fault, decode
from otzarvim_tools.formula import Formula
from otzarvim_tools.formula_text import read_formula
from otzarvim_tools.mistakes import Mistake, Place
from otzarvim_tools.model import Model, Transition
from otzarvim_tools.model_text import read_model, write_model
from otzarvim_tools.names import plain_number
from otzarvim_tools.paper import ACTIONS, OPERANDS, PROPOSITIONS, BOUNDED, Operator
from otzarvim_tools.sizes import graph_size

from . import fake_otzarvim
from .common import M, Case, formula, model

M_BYTES = bytes.fromhex(
    "00000033 02 02 0002 02 00000003"
    "00000001 00000002"
    "0000 00000003 0000 0000"
    "0000 00000002 0000 0001"
    "0001 00000000 0000 0001"
)
UNTIL_BYTES = bytes.fromhex("0000001F 01 03 03  02 00 00 00 00000000  02 01 00 00 00000000  08 00 01 00 00000002")


# Those of transitions: some that a row can ask for, and some that are alike in their low byte.
ACTED = (0, 0, 1, 1, 2, 255, 256, 257, 511, 65535)
ASKED = (0, 1, 2, 255)


def random_model(chance: random.Random) -> Model:
    states, propositions = chance.randint(1, 6), chance.randint(1, 4)
    steps = [Transition(a, chance.randint(0, 9), chance.randrange(states), chance.choice(ACTED)) for a in range(states) for _ in range(chance.randint(0, 3))]
    labels = [frozenset(i for i in range(propositions) if chance.random() < 0.5) for _ in range(states)]
    return Model([f"s{a}" for a in range(states)], [f"p{i}" for i in range(propositions)], labels, steps)


def random_formula(chance: random.Random, propositions: int, depth: int = 3) -> Formula:
    operator = chance.choice([op for op in Operator if depth or not OPERANDS[op]])
    operands = tuple(random_formula(chance, propositions, depth - 1) for _ in range(OPERANDS[operator]))
    bound = chance.choice([None, chance.randint(0, 20)]) if operator in BOUNDED else None
    action = chance.choice(ASKED) if operator in ACTIONS else None
    return Formula(operator, operands, chance.randrange(propositions) if operator in PROPOSITIONS else 0, bound, action=action)


def random_questions(seed: int, many: int) -> Iterator[tuple[Model, Formula]]:
    chance = random.Random(seed)
    for _ in range(many):
        over = random_model(chance)
        yield over, random_formula(chance, len(over.propositions))


def damaged_questions(seed: int, many: int) -> Iterator[bytes]:
    """A model and a formula, a byte or two of which are changed; the model still ends where it did, and has its kind."""
    chance = random.Random(seed)
    for over, asked in random_questions(seed, many):
        data = bytearray(compile_model(over) + compile_formula(asked))
        for _ in range(chance.randint(1, 2)):
            data[chance.choice([at for at in range(4, len(data)) if at != 5])] = chance.choice((0, 1, 2, 3, 4, 9, 10, 11, 12, 33, 64, 65, 255))
        yield bytes(data)


class Compiling(Case):
    def test_known_bytes(self):
        self.assertEqual(compile_model(model(M)), M_BYTES)
        self.assertEqual(compile_formula(formula("E[p0 U<=2 p1]")), UNTIL_BYTES)

    def test_transitions_are_sorted_and_keep_their_order(self):
        shuffled = model("state a\nstate b\nb -> b 7\na -> b 5\nb -> a 3\na -> a 9")
        decoded, _ = decode(compile_model(shuffled), "x")
        self.assertEqual([(t.source, t.weight) for t in decoded.transitions], [(0, 5), (0, 9), (1, 7), (1, 3)])

    def test_every_operator(self):
        rows = compile_formula(formula("A[(true & !p1) U (false | E[p0 U<=5 AX<=6 EX p1])]"))[7:]
        acting = compile_formula(formula("AX#255 EX#7<=3 p1"))[7:]
        self.assertEqual(acting.hex(), "0201000000000000" "0a00070000000003" "0b01ff00ffffffff")
        records = [rows[at:at + 8].hex() for at in range(0, len(rows), 8)]
        self.assertEqual(
            records,
            ["0000000000000000", "0301000000000000", "0400010000000000", "0100000000000000", "0200000000000000",
             "0201000000000000", "06050000ffffffff", "0706000000000006", "0804070000000005", "0503080000000000",
             "09020900ffffffff"],
        )

    def test_what_no_field_can_hold(self):
        large = Model(states=["s"] * 65536, labels=[frozenset()] * 65536)
        self.mistake(lambda: compile_model(large), "65,536 states")
        wide = Formula(Operator.TRUE)
        for _ in range(128):
            wide = Formula(Operator.AND, (wide, Formula(Operator.TRUE)))
        self.mistake(lambda: compile_formula(wide), "257 rows")


class ThereAndBack(Case):
    def test_text_to_bytes_to_text_to_bytes(self):
        for original, asked in random_questions(8, 200):
            data = compile_model(original) + compile_formula(asked)
            shown, understood = decode(data, "x")
            self.assertEqual((shown, understood), (original, asked))
            again = read_model(write_model(shown), "x")
            asked_again = read_formula(understood.text(), "x", plain_number)
            self.assertEqual(compile_model(again) + compile_formula(asked_again), data)

    def test_one_message_alone(self):
        self.assertEqual(decode(M_BYTES, "x")[1], None)
        self.assertEqual(decode(UNTIL_BYTES, "x")[0], None)
        self.assertEqual(decode(UNTIL_BYTES, "x")[1].text(), "E[p0 U<=2 p1]")


class Faults(Case):
    def change(self, data, at, *values):
        return data[:at] + bytes(values) + data[at + len(values):]

    def test_first_fault_of_a_model(self):
        for data, said in (
            (b"", "in the model: 0 bytes are too few for its header (refusal 2, LENGTH)"),
            (M_BYTES[:12], "LENGTH"),
            (M_BYTES[:50], "in the model: the length field says 51 and there are 50 bytes"),
            (M_BYTES + b"\0", "in the formula: 1 bytes are too few"),
            (self.change(M_BYTES, 4, 1), "byte 4 of the model, header, field version: version 1, not 2 (refusal 3, VERSION)"),
            (self.change(M_BYTES, 5, 1), "byte 5 of the model, header, field kind: kind 1"),
            (self.change(M_BYTES, 6, 0, 0), "byte 6 of the model, header, field states: 0 states: 1 to 256 are allowed (refusal 4, LIMIT)"),
            (self.change(M_BYTES, 8, 33), "byte 8 of the model, header, field propositions: 33 propositions"),
            (self.change(M_BYTES, 9, 0, 1, 0, 0), "byte 9 of the model, header, field transitions: 65536 transitions"),
            (self.change(M_BYTES, 12, 4), "in the model: its counts ask for 61 bytes"),
            (self.change(M_BYTES, 16, 4), "byte 13 of the model, state 0 (s0), field label: the label of state 0"),
            (self.change(M_BYTES, 22, 2), "byte 21 of the model, transition 0 (? -> s0), field from: a transition from state 2 of 2 (refusal 6, NAME)"),
            (self.change(M_BYTES, 22, 1), "byte 31 of the model, transition 1 (s0 -> s1), field from: a transition from state 0 after one from state 1 (refusal 5, ORDER)"),
            (self.change(M_BYTES, 30, 2), "byte 29 of the model, transition 0 (s0 -> ?), field to: a transition to state 2 of 2"),
            (self.change(M_BYTES, 28, 7, 0, 2), "byte 29 of the model, transition 0 (s0 -> ? #7), field to: a transition to state 2 of 2"),
        ):
            self.mistake(lambda: decode(data, "x.bin"), "x.bin: ", said)

    def test_first_fault_of_a_formula(self):
        for at, value, said in (
            (4, 2, "byte 4 of the formula (55 of the file), header, field version: version 2, not 1"),
            (6, 0, "byte 6 of the formula (57 of the file), header, field rows: 0 rows"),
            (6, 2, "in the formula: its counts ask for 23 bytes"),
            (7, 12, "byte 7 of the formula (58 of the file), row 0 (?), field operator: there is no operator 12 (refusal 10, FORM)"),
            (9, 1, "byte 9 of the formula (60 of the file), row 0 (p0), field right: row 0 has 1 in a field"),
            (10, 1, "byte 10 of the formula (61 of the file), row 0 (p0), field zero: row 0 has 1 in a field"),
            (14, 1, "byte 11 of the formula (62 of the file), row 0 (p0), field bound: row 0 has 1 in a field"),
            (8, 2, "byte 8 of the formula (59 of the file), row 0 (p2), field left: row 0 is about proposition 2 of 2 (refusal 6, NAME)"),
            (7, 10, "byte 8 of the formula (59 of the file), row 0 (EX#0<=0 row 0), field left: row 0 has row 0 as operand"),
            (24, 2, "byte 24 of the formula (75 of the file), row 2 (E[row 2 U<=2 row 1]), field left: row 2 has row 2 as operand"),
            (25, 7, "byte 25 of the formula (76 of the file), row 2 (E[row 0 U<=2 row 7]), field right: row 2 has row 7 as operand"),
            # right is the action then, and uses no row
            (23, 11, "in the formula: row 1 is an operand 0 times"),
            (25, 0, "in the formula: row 0 is an operand 2 times"),
        ):
            data = M_BYTES + self.change(UNTIL_BYTES, at, value)
            self.mistake(lambda: decode(data, "x.bin"), said)

    def test_faults_are_the_programs(self):
        for data in damaged_questions(5, 3000):
            said = fake_otzarvim.answer(data)
            try:
                understood = decode(data, "x")[1]
            except Fault as fault:
                at = f" at {fault.offset}" if fault.offset else ""
                self.assertEqual(said, f"refused {fault.number}{at}\n", data.hex())
                self.assertEqual(fault.spot is None, fault.offset == 0)
            else:
                # the program wants both messages
                self.assertEqual(said.split("\n")[0], understood.text() if understood else "refused 2", data.hex())

    def test_changed_bytes_are_a_fault_or_another_message(self):
        chance = random.Random(3)
        whole = M_BYTES + UNTIL_BYTES
        for _ in range(1000):
            data = self.change(whole, chance.randrange(len(whole)), chance.choice((0, 1, 2, 3, 9, 10, 11, 12, 255)))
            try:
                shown, understood = decode(data, "x")
            except Mistake:
                continue
            self.assertEqual(compile_model(shown) + compile_formula(understood), data)

    def test_raw_passes_over_what_text_can_say(self):
        far = M_BYTES + self.change(UNTIL_BYTES, 8, 200)
        self.assertEqual(decode(far, "x", raw=True)[1].text(), "E[p200 U<=2 p1]")


class Limits(Case):
    def numbers(self, complaints):
        return [complaint.number for complaint in complaints]

    def test_of_models(self):
        loop = [Transition(0, 0, 0)]
        self.assertEqual(self.numbers(checks.of_model(model(M))), [])
        self.assertEqual(self.numbers(checks.of_model(Model())), [4])
        for count, found in ((256, []), (257, [4])):
            states = [f"s{i}" for i in range(count)]
            steps = [Transition(i, 0, i) for i in range(count)]
            self.assertEqual(self.numbers(checks.of_model(Model(states, [], [frozenset()] * count, steps))), found)
        for count, found in ((32, []), (33, [4])):
            self.assertEqual(self.numbers(checks.of_model(Model(["a"], [f"x{i}" for i in range(count)], [frozenset()], loop))), found)
        for count, found in ((65535, []), (65536, [4])):
            self.assertEqual(self.numbers(checks.of_model(Model(["a"], [], [frozenset()], loop * count))), found)

    def test_states_without_transitions_are_taken(self):
        for text in ("a -> a 1\na -> b 2", "state a", "state a\nstate b\nb -> a 0"):
            self.assertEqual(self.numbers(checks.of_model(model(text))), [])
            data = compile_model(model(text))
            self.assertEqual(compile_model(decode(data, "x")[0]), data)

    def test_of_formulas(self):
        for count, found in ((64, []), (65, [4])):
            deep = formula("EX " * (count - 1) + "p0")
            self.assertEqual(self.numbers(checks.of_formula(deep, 1, Place("f"))), found)
        self.assertEqual(self.numbers(checks.of_formula(formula("p1"), 1, Place("f"))), [6])

    def test_of_the_program(self):
        self.assertEqual(self.numbers(checks.of_input(8192, Place("f"))), [])
        self.assertEqual(self.numbers(checks.of_input(8193, Place("f"))), [2])


class Sizes(Case):
    def test_against_the_graph_itself(self):
        for over, asked in random_questions(12, 200):
            hypers, covers = fake_otzarvim.graph(*fake_otzarvim.read(compile_model(over) + compile_formula(asked)))
            widths = [len(edge) for edges in hypers for edge in edges]
            size = graph_size(over, asked)
            self.assertEqual(
                (size.nodes, size.hyperedges, size.targets, size.widest, size.covers),
                (len(hypers), len(widths), sum(widths), max(widths, default=0), sum(map(bool, covers))),
            )
