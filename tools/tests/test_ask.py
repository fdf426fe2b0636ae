"""The commands: answers and refusals in names, mistakes, exit statuses."""

import subprocess
import sys
from unittest import mock

from otzarvim_tools.answers import Answer, Refused, read_answer
from otzarvim_tools.paper import REFUSALS

from .common import FAKE, M, ROOT, Case

NAMES = "BUDGET LENGTH VERSION LIMIT ORDER NAME DEAD SIZE ROOM FORM".split()


class Reading(Case):
    def test_answers(self):
        self.assertEqual(read_answer("E[p0 U<=2 p1]\nrounds 4\n0 yes\n1 no\n", 2), Answer("E[p0 U<=2 p1]", 4, [True, False]))
        self.assertEqual(read_answer("refused 10\n", 2), Refused(10))
        self.assertEqual(read_answer("refused 6 at 21\n", 2), Refused(6, 21))

    def test_what_is_no_answer(self):
        for output in ("", "refused\n", "refused 3", "refused 3 at\n", "refused 3 at 0\n", "refused 3 at 04\n", "refused 3 4\n", "refused 3 at 4", "p0\nrounds 1\n0 yes\n", "p0\nrounds 1\n1 yes\n0 no\n", "p0\nrounds 1\n0 yes\n1 no\n2 no\n", "p0\nrounds x\n0 yes\n1 yes\n", "p0\nrounds 1\n0 yes\n1 no"):
            self.mistake(lambda: read_answer(output, 2), "isn't an answer")


class Asking(Case):
    def setUp(self):
        super().setUp()
        self.model = self.write("m.otz", M)

    def says(self, output):
        return self.script("canned", f"#!/bin/sh\ncat >/dev/null\nprintf '{output}'\n")

    def test_document_01s_questions(self):
        for formula, rounds, zero, one in (("E[p0 U<=2 p1]", 4, "yes", "yes"), ("E[p0 U<=1 p1]", 3, "no", "yes"), ("A[p0 U p1]", 3, "no", "yes")):
            status, out, _ = self.otz("ask", self.model, formula, "--program", FAKE)
            self.assertEqual((status, out), (0, f"formula  {formula}\nmessage  {formula}\nrounds   {rounds}\nby       the program\n\nzero  {zero}\none   {one}\n"))

    def test_the_command_and_a_program_as_processes(self):
        words = [sys.executable, ROOT / "tools" / "otz", "ask", self.model, "E[zero U<=2 p1]", "--program", FAKE]
        done = subprocess.run([str(word) for word in words], stdout=subprocess.PIPE, text=True)
        self.assertEqual((done.returncode, done.stdout), (0, "formula  E[zero U<=2 p1]\nmessage  E[p2 U<=2 p1]\nrounds   4\nby       the program\n\nzero  yes\none   yes\n"))

    def test_names_and_one_state(self):
        canned = self.says("AX<=3 p2\\nrounds 7\\n0 no\\n1 yes\\n")
        status, out, _ = self.otz("ask", self.model, "AX<=3 one", "--state", "one", "--program", canned)
        self.assertEqual((status, out), (0, "formula  AX<=3 one\nmessage  AX<=3 p2\nrounds   7\nby       the program\n\none  yes\n"))

    def test_another_formula_is_no_answer(self):
        canned = self.says("AX p0\\nrounds 7\\n0 no\\n1 yes\\n")
        status, out, err = self.otz("ask", self.model, "AX p1", "--program", canned)
        self.assertEqual((status, out), (2, ""))
        self.assertIn("answered another formula: AX p0", err)

    def test_a_formula_from_a_file(self):
        path = self.write("q.txt", "# in the end\nE[true U\n  p1]\n")
        status, out, _ = self.otz("ask", self.model, "@" + path, "--program", FAKE)
        self.assertEqual((status, out.splitlines()[0]), (0, "formula  E[true U p1]"))
        bad = self.write("bad.txt", "E[true U\n  x]\n")
        status, _, err = self.otz("ask", self.model, "@" + bad, "--program", FAKE)
        self.assertEqual((status, err.splitlines()[0]), (2, f"{bad}:2:3: no proposition or state has the name x (there are p0, p1, zero, one)"))
        status, _, err = self.otz("ask", self.model, path, "--program", FAKE)
        self.assertEqual(status, 2)
        self.assertIn(f"(a formula in a file is given as @{path})", err)

    def test_a_formula_before_its_model(self):
        for words in (("ask", "p0", self.model), ("compile", "p0", self.model, "-o", "-")):
            status, out, err = self.otz(*words)
            self.assertEqual((status, out, err), (2, "", f"p0: there is no such file; the model's file, {self.model}, comes before the formula\n"))

    def test_a_state_that_is_not_there(self):
        many = self.write("many.otz", "".join(f"s{i} -> s{i} 0\n" for i in range(15)))
        for model, state, said in (
            (self.model, "two", "(there are zero, one)"),
            (self.model, "ONE", "(did you mean one?)"),
            (many, "x", "(there are s0, s1, s2, s3, s4, s5, s6, s7, s8, s9, s10, s11 and 3 more)"),
        ):
            status, out, err = self.otz("ask", model, "true", "--state", state, "--program", FAKE)
            self.assertEqual((status, out, err), (2, "", f"{model}: there is no state {state} {said}\n"))

    def test_without_words_all_commands_are_told(self):
        status, out, err = self.otz()
        self.assertEqual((status, out), (2, ""))
        for command in ("ask", "check", "least", "why", "draw", "compile", "show"):
            self.assertRegex(err, rf"(?m)^ +{command} ")

    def test_stopped_by_the_keyboard(self):
        with mock.patch("otzarvim_tools.asking.find_program", side_effect=KeyboardInterrupt):
            self.assertEqual(self.otz("ask", self.model, "p0"), (130, "", "stopped\n"))

    def test_refusals_in_words(self):
        self.assertEqual([REFUSALS[number].name for number in range(1, 11)], NAMES)
        for number, name in enumerate(NAMES, 1):
            status, out, err = self.otz("ask", self.model, "p0", "--program", self.says(f"refused {number}\\n"))
            self.assertEqual((status, out, err), (1, f"refused {number}, {name}: {REFUSALS[number].meaning}\n", ""))

    def test_a_number_that_nobody_knows(self):
        status, out, _ = self.otz("ask", self.model, "p0", "--program", self.says("refused 99\\n"))
        self.assertEqual((status, out), (1, "refused 99, a number that document 01 doesn't have\n"))

    def test_mistakes_end_with_2_and_their_place(self):
        bad = self.write("bad.otz", "a -> b 1\nb -> c 1\nb -> 3\n")
        binary = self.write("binary", b"\xff")
        for words, said in (
            ((bad, "true"), f"{bad}:3: not a transition"),
            ((binary, "true"), f"{binary}: not text"),
            ((self.folder / "none", "true"), "none: No such file"),
            ((self.model, "(p0 &"), "formula:1:6: "),
            ((self.model, "p9"), "formula:1:1: "),
            ((self.model, "p0", "--state", "on"), "there is no state on (did you mean one?)"),
            ((self.model, "EX " * 64 + "p0"), "formula: 65 rows"),
            ((self.model,), "usage:"),
        ):
            status, out, err = self.otz("ask", *words, "--program", FAKE)
            self.assertEqual((status, out), (2, ""), words)
            self.assertIn(said, err)

    def test_too_long_for_the_program(self):
        long = self.write("long.otz", "a -> a 1\n" * 1100)
        status, _, err = self.otz("ask", long, "true", "--program", FAKE)
        self.assertEqual((status, err), (2, f"{long}: model and formula take 11,032 bytes together: the program takes 8,192\n"))
        status, out, _ = self.otz("ask", long, "true", "--program", FAKE, "--raw")
        self.assertEqual(status, 1)
        self.assertIn("refused 2, LENGTH: ", out)
        self.assertIn("11,032 bytes together", out)

    def test_states_in_a_formula_count_as_propositions(self):
        full = self.write("full.otz", "a: " + ", ".join(f"x{i}" for i in range(32)) + "\na -> a 1\n")
        status, _, err = self.otz("ask", full, "a", "--program", FAKE)
        self.assertEqual((status, err), (2, f"{full}: 33 propositions: 0 to 32 are allowed (1 for states that the formula names)\n"))
        self.assertEqual(self.otz("ask", full, "p31", "--program", FAKE)[0], 0)

    def test_states_without_transitions_are_asked_about(self):
        model = self.write("ends.otz", "a -> b 1\na -> a 2")
        for asked, a, b in (
            ("EX true", "yes", "no"), ("AX false", "no", "yes"), ("E[true U<=1 b]", "yes", "yes"), ("A[true U b]", "no", "yes"), ("A[true U a]", "yes", "no"),
        ):
            status, out, _ = self.otz("ask", model, asked, "--program", FAKE)
            self.assertEqual((status, out.split("\n\n")[1]), (0, f"a  {a}\nb  {b}\n"), asked)
        alone = self.write("alone.otz", "state a")
        self.assertEqual(self.otz("ask", alone, "A[true U !a]", "--program", FAKE)[1].splitlines()[-1], "a  no")

    def test_raw_leaves_refusing_to_the_program(self):
        full = self.write("full.otz", "a: " + ", ".join(f"x{i}" for i in range(33)))
        for model, formula, refused, at, said in (
            (self.model, "p9", "refused 6 at 8, NAME: ", "byte 8 of the formula: row 0 (p9), field left, is 9", "formula: there is no proposition p9: the model has 2"),
            (self.model, "EX " * 64 + "p0", "refused 4 at 6, LIMIT: ", "byte 6 of the formula: header, field rows, is 65", "formula: 65 rows: 1 to 64 are allowed"),
            (self.write("empty.otz", ""), "true", "refused 4 at 6, LIMIT: ", "byte 6 of the model: header, field states, is 0", "0 states: 1 to 256 are allowed"),
            (full, "true", "refused 4 at 8, LIMIT: ", "byte 8 of the model: header, field propositions, is 33", "33 propositions: 0 to 32 are allowed"),
        ):
            status, out, _ = self.otz("ask", model, formula, "--raw", "--program", FAKE)
            first, *rest = out.splitlines()
            self.assertEqual((status, first[:len(refused)]), (1, refused))
            self.assertEqual(rest[0], at)
            self.assertTrue(rest[1].endswith(said), out)
            self.assertEqual(len(rest), 2)

    def test_a_place_is_told_in_names(self):
        # a program that finds a fault where there is none: what stands there in each message is told
        for offset, said in (
            (13, ["byte 13 of the model: state 0 (zero), field label, is 5"]),
            (37, ["byte 37 of the model: transition 1 (zero -> one), field action, is 0"]),
            (39, ["byte 39 of the model: transition 1 (zero -> one), field to, is 1"]),
            (25, ["byte 25 of the formula: row 2 (E[row 0 U<=2 row 1]), field right, is 1"]),
            (8, ["byte 8 of the model: header, field propositions, is 3", "byte 8 of the formula: row 0 (zero), field left, is 2"]),
            (22, []),
            (4000, []),
        ):
            status, out, _ = self.otz("ask", self.model, "E[zero U<=2 !p1]", "--program", self.says(f"refused 6 at {offset}\\n"))
            self.assertEqual((status, out.splitlines()), (1, [f"refused 6 at {offset}, NAME: {REFUSALS[6].meaning}", *said]))

    def test_graphs_that_are_too_large(self):
        ring = self.write("ring.otz", "".join(f"s{i} -> s{(i + 1) % 256} 1\n" for i in range(256)))
        status, out, _ = self.otz("ask", ring, "EX " * 16 + "s0", "--program", FAKE)
        self.assertEqual((status, out.splitlines()[1:]), (1, ["the graph would have 4,352 nodes: at most 4,096 are allowed"]))
        status, out, _ = self.otz("ask", ring, "EX " * 15 + "s0", "--program", FAKE)
        self.assertEqual((status, out.splitlines()[-1]), (0, "s255  no"))
        crowd = self.write("crowd.otz", "s0 -> s0 1\n" * 750)
        status, out, _ = self.otz("ask", crowd, "E[E[E[E[E[E[true U s0] U s0] U s0] U s0] U s0] U s0]", "--program", FAKE)
        self.assertEqual((status, out.splitlines()), (1, [
            "refused 9, ROOM: the room for the graph, the text or the values is too small",
            "the graph would take 72,150 bytes: the program has 65,536",
        ]))


class Files(Case):
    def test_compile_and_show(self):
        path, out = self.write("m.otz", M), self.folder / "m.bin"
        self.assertEqual(self.otz("compile", path, "E[p0 U<=2 one]", "-o", out)[0], 0)
        _, text, _ = self.otz("show", out)
        self.assertEqual(text, "propositions p0, p1, p2\nstate s0: p0\nstate s1: p1, p2\ns0 -> s0 3\ns0 -> s1 2\ns1 -> s1 0\n# formula: E[p0 U<=2 p2]\n")
        shown = self.write("shown.otz", self.otz("show", out, "--only", "model")[1])
        formula = self.otz("show", out, "--only", "formula")[1]
        self.assertEqual(formula, "E[p0 U<=2 p2]\n")
        again = self.folder / "again.bin"
        self.otz("compile", shown, formula, "-o", again)
        self.assertEqual(again.read_bytes(), out.read_bytes())
        # the text of both is a model's text as well, because the formula is a comment
        self.otz("compile", self.write("both.otz", text), "-o", again)
        self.assertTrue(out.read_bytes().startswith(again.read_bytes()))

    def test_actions_come_back_as_numbers(self):
        path, out = self.write("m.otz", "a -> b 3 #go\nb -> a 2\nb -> b 1 #300\n"), self.folder / "m.bin"
        self.otz("compile", path, "EX#go<=3 AX#255 true", "-o", out)
        _, text, _ = self.otz("show", out)
        self.assertEqual(text, "state s0\nstate s1\ns0 -> s1 3 #1\ns1 -> s0 2\ns1 -> s1 1 #300\n# formula: EX#1<=3 AX#255 true\n")
        again = self.folder / "again.bin"
        self.otz("compile", self.write("shown.otz", text), "EX#1<=3 AX#255 true", "-o", again)
        self.assertEqual(again.read_bytes(), out.read_bytes())

    def test_the_programs_text_is_told_in_the_names_of_actions(self):
        path = self.write("m.otz", "a -> b 3 #go\nb -> a 2 #back\n")
        for asked, plain in (("EX#back a", "EX#2 p0"), ("AX#go<=3 b", "AX#1<=3 p0"), ("EX#9 true", "EX#9 true")):
            status, out, _ = self.otz("ask", path, asked, "--program", FAKE)
            self.assertEqual((status, out.splitlines()[:2]), (0, [f"formula  {asked}", f"message  {plain}"]))
        canned = self.script("other", "#!/bin/sh\ncat >/dev/null\nprintf 'EX#1 p0\\nrounds 1\\n0 no\\n1 no\\n'\n")
        status, _, err = self.otz("ask", path, "EX#back a", "--program", canned)
        self.assertEqual(status, 2)
        self.assertIn("answered another formula: EX#1 p0", err)

    def test_damaged_bytes_are_marked(self):
        names, out = self.write("m.otz", "cold -> hot 12 #warm\nhot -> cold 3\ncold: idle\n"), self.folder / "m.bin"
        self.otz("compile", names, "AX#warm idle", "-o", out)
        good = out.read_bytes()
        for at, byte, words, said in (
            (30, 2, (), "byte 29 of the model, transition 0 (s0 -> ? #1), field to: a transition to state 2 of 2 (refusal 6, NAME)\n    21  0000 0000000C 0001 0002\n                           ^^^^\n"),
            (30, 2, ("--names", names), "byte 29 of the model, transition 0 (cold -> ? #warm), field to: a transition to state 2 of 2 (refusal 6, NAME)\n    21  0000 0000000C 0001 0002\n                           ^^^^\n"),
            (40, 2, ("--names", names), "byte 39 of the model, transition 1 (hot -> ?), field to: a transition to state 2 of 2 (refusal 6, NAME)\n    31  0001 00000003 0000 0002\n                           ^^^^\n"),
            (4, 1, (), "byte 4 of the model, header, field version: version 1, not 2 (refusal 3, VERSION)\n    0  00000029 01 02 0002 01 00000002\n                ^^\n"),
            (41 + 11, 1, ("--names", names), "byte 11 of the formula (52 of the file), row 0 (idle), field bound: row 0 has 16777216 in a field that it doesn't use (refusal 10, FORM)\n    7  02 00 00 00 01000000\n                   ^^^^^^^^\n"),
            (41 + 18, 1, ("--names", names), "byte 18 of the formula (59 of the file), row 1 (AX#warm row 0), field zero: row 1 has 1 in a field that it doesn't use (refusal 10, FORM)\n    15  0B 00 01 01 FFFFFFFF\n                 ^^\n"),
            (3, 40, (), "in the model: its counts ask for 41 bytes and there are 40 (refusal 2, LENGTH)\n"),
        ):
            damaged = self.write("damaged", good[:at] + bytes([byte]) + good[at + 1:])
            self.assertEqual(self.otz("show", damaged, *words), (2, "", f"{damaged}: {said}"), at)

    def test_one_part_that_is_not_there(self):
        path, out = self.write("m.otz", M), self.folder / "m.bin"
        self.otz("compile", path, "-o", out)
        self.assertEqual(self.otz("show", out, "--only", "formula")[::2], (2, f"{out}: there is no formula here\n"))

    def test_mistakes(self):
        none, out = self.write("none.otz", ""), self.folder / "out"
        self.assertEqual(self.otz("compile", none, "-o", out)[0], 2)
        self.assertFalse(out.exists())
        self.assertEqual(self.otz("compile", none, "-o", out, "--raw")[0], 0)
        self.assertIn("refusal 4, LIMIT", self.otz("show", out)[2])
        self.assertEqual(self.otz("show", out, "--raw")[1], "")
        self.assertEqual(self.otz("compile", none, "-o", self.folder / "no" / "out", "--raw")[0], 2)
        self.assertEqual(self.otz("nonsense")[0], 2)
