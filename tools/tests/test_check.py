"""Files with their expected answers: what is read, what is said, exit statuses and JUnit's XML."""

import io
import sys
from unittest import mock
from xml.etree import ElementTree

from otzarvim_tools.model_text import read_model, read_sheet
from otzarvim_tools.progress import Progress

from .common import FAKE, M, ROOT, Case
from .test_examples import timeless


class Sheets(Case):
    def expected(self, text):
        sheet = read_sheet(text, "m.otz")
        return [(sheet.model.states[each.state], each.holds, each.name, each.formula.text) for each in sheet.expectations]

    def test_lines(self):
        text = M + "question soon: E[p0 U<=2 p1] # in time\nexpect zero: soon\nexpect not zero , one :  EX p0 # both\nexpect *: true\n"
        self.assertEqual(self.expected(text), [
            ("zero", True, "soon", "E[p0 U<=2 p1]"), ("zero", False, None, "EX p0"), ("one", False, None, "EX p0"), ("zero", True, None, "true"), ("one", True, None, "true"),
        ])
        self.assertEqual(read_model(text, "m"), read_model(M, "m"))

    def test_what_stands_below_may_be_named(self):
        self.assertEqual(self.expected("expect b: q\nquestion q: EX a\na -> b 1"), [("b", True, "q", "EX a")])

    def test_the_words_stay_free_for_states(self):
        text = "expect: x\nquestion -> expect 3\nstate not\nexpect -> question 1\nexpect not: x\nexpect not not: x\nexpect expect: x\n"
        self.assertEqual(self.expected(text), [("not", True, None, "x"), ("not", False, None, "x"), ("expect", True, None, "x")])
        self.assertEqual(len(read_model(text, "m").transitions), 2)

    def test_mistakes_have_their_line(self):
        for text, line, said in (
            ("a -> a 1\nexpect b: true", 2, "there is no state b (there are a)"),
            ("a -> a 1\nexpect a:", 2, "a formula is missing"),
            ("a -> a 1\nexpect : true", 2, "the list is empty"),
            ("a -> a 1\nexpect not : true", 2, "there is no state not"),
            ("a -> a 1\nexpect a true", 2, "has no colon"),
            ("a -> a 1\nexpect a, a: true", 2, "a stands twice"),
            ("a -> a 1\nquestion EX: true", 2, "a word of the language"),
            ("a -> a 1\nquestion q: true\n\nquestion q: false", 4, "question q stands already, line 2"),
            ("a -> a 1\nquestion a: true", 2, "a is a state, and no question"),
            ("a: x\na -> a 1\nquestion x: true", 3, "x is a proposition, and no question"),
        ):
            found = self.mistake(lambda: read_sheet(text, "m.otz"), said)
            self.assertEqual((found.place.path, found.place.line), ("m.otz", line), text)


class Checking(Case):
    def check(self, *words):
        return self.otz("check", *words, "--program", FAKE)

    def test_as_expected(self):
        path = self.write("m.otz", M + "question soon: E[p0 U<=2 p1]\nexpect zero, one: soon\nexpect not zero: A[p0 U p1]\n")
        status, out, err = self.check(path)
        self.assertEqual((status, err), (0, ""))
        self.assertEqual([line.split() for line in timeless(out).splitlines()], [
            [path], "ok zero: soon 4 rounds 0 ms".split(), "ok one: soon 4 rounds 0 ms".split(), "ok not zero: A[p0 U p1] 3 rounds 0 ms".split(),
            "3 expected: 3 ok, 0 not (by the program, 0 ms)".split(),
        ])

    def test_not_as_expected(self):
        path = self.write("m.otz", M + "expect zero: E[p0 U<=1 p1]\nexpect one: p1\nexpect not one: p1\n")
        status, out, _ = self.check(path)
        self.assertEqual(status, 1)
        lines = out.splitlines()
        self.assertEqual([line.split()[0] for line in lines[1:-1]], ["NOT", "zero", "ok", "NOT", "one"])
        self.assertEqual((lines[2].strip(), lines[5].strip()), ("zero no, expected yes: E[p0 U<=1 p1]", "one yes, expected no: p1"))
        self.assertTrue(lines[-1].startswith("3 expected: 1 ok, 2 not (by the program, "))

    def test_a_refusal_is_not_as_expected(self):
        ring = self.write("ring.otz", "".join(f"s{i} -> s{(i + 1) % 256} 1\n" for i in range(256)) + f"expect s0: {'EX ' * 16}s0\n")
        status, out, _ = self.check(ring)
        self.assertEqual(status, 1)
        self.assertIn("       refused 8, SIZE: ", out)
        self.assertIn("       the graph would have 4,352 nodes: at most 4,096 are allowed\n", out)

    def test_many_files_and_those_with_mistakes(self):
        good = self.write("good.otz", M + "expect one: p1\n")
        bad = self.write("bad.otz", M + "expect one: EX won  # a slip\nexpect zero: true\n")
        nothing = self.write("nothing.otz", M)
        many = self.write("many.otz", "a: " + ", ".join(f"x{i}" for i in range(32)) + "\na -> a 1\nexpect a: a\n")
        status, out, _ = self.check(bad, good, nothing, self.folder / "none", many)
        self.assertEqual(status, 2)
        self.assertIn(f"{bad}\n  {bad}:8:16: no proposition or state has the name won (did you mean one?)\n      expect one: EX won  # a slip\n                     ^\n", out)
        self.assertIn("  ok   one: p1", out)
        self.assertIn(f"  {nothing}: nothing is expected here", out)
        self.assertIn("none: No such file", out)
        self.assertIn("33 propositions: 0 to 32 are allowed", out)
        self.assertTrue(out.splitlines()[-1].startswith("1 expected: 1 ok, 0 not, 4 files with a mistake"))
        self.assertEqual(self.check(bad)[0], 2)

    def test_junit(self):
        good = self.write("good.otz", M + "expect one: p1\nexpect zero: (p1 & p0)\n")
        bad = self.write("bad.otz", "a -> b")
        xml = self.folder / "out.xml"
        self.assertEqual(self.check(good, bad, "--junit", xml)[0], 2)
        suites = ElementTree.parse(xml).getroot()
        self.assertEqual([(suite.get("name"), suite.get("tests"), suite.get("failures"), suite.get("errors")) for suite in suites], [(good, "2", "1", "0"), (bad, "1", "0", "1")])
        cases = list(suites.iter("testcase"))
        self.assertEqual([case.get("name") for case in cases], ["one: p1", "zero: (p1 & p0)", "the file"])
        self.assertEqual([[(each.tag, each.get("message")) for each in case] for case in cases], [
            [], [("failure", "zero no, expected yes: (p1 & p0)")], [("error", f"{bad}:1: not a transition: 'a -> b' (its weight is missing) (as: cold -> hot 12)")],
        ])
        self.assertEqual(self.check(good, "--junit", self.folder / "no" / "out.xml")[0], 2)

    def test_a_question_by_its_name(self):
        path = self.write("m.otz", M + "question soon: E[p0 U<=2 p1]\nquestion much: E[p0 U<=? p1]\nquestion wrong: EX (p0\n")
        self.assertEqual(self.otz("ask", path, "soon", "--program", FAKE)[1].splitlines()[0], "formula  E[p0 U<=2 p1]")
        self.assertEqual(self.otz("least", path, "much", "--state", "zero", "--program", FAKE)[1].splitlines()[-1], "zero  2")
        unused = self.write("unused.otz", M + "question much: E[p0 U<=? p1]\nexpect one: p1\n")
        self.assertEqual(self.check(unused)[0], 0)
        used = self.write("used.otz", M + "question much: E[p0 U<=? p1]\nexpect one: much\n")
        self.assertIn(f"{used}:8:24: a ? in place of a bound is found by 'otz least'", self.check(used)[1])
        self.assertEqual(self.otz("why", path, "soon", "--state", "zero")[0], 0)
        self.assertIn(f"{path}:10:23: ", self.otz("ask", path, "wrong", "--program", FAKE)[2])

    def test_the_examples(self):
        for name, least in (("formula_life.otz", 10), ("scheduler.otz", 6)):
            status, out, _ = self.otz("check", ROOT / "examples" / name, "--by", "library")
            self.assertEqual(status, 0, out)
            self.assertGreaterEqual(out.count("  ok   "), least)


class Long(Case):
    def test_a_line_on_a_terminal_and_elsewhere(self):
        for terminal, said in ((True, "\r2 of 3 states: b\r3 of 3 states: c\r                \r"), (False, "3 of 3 states: c\n")):
            err = io.StringIO()
            err.isatty = lambda: terminal
            with mock.patch.object(sys, "stderr", err), mock.patch("time.monotonic", side_effect=[0.0, 0.5, 2.0, 12.0]):
                progress = Progress("states", 3)
                for about in "abc":
                    progress.step(about)
                progress.clear()
            self.assertEqual(err.getvalue(), said)
