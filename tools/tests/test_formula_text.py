"""Reading and writing the text of formulas."""

import random

from otzarvim_tools.formula import Row
from otzarvim_tools.mistakes import Mistake
from otzarvim_tools.question import read_question

from .common import FAKE, M, Case, formula, model

TEXTS = (
    "true",
    "false",
    "p0",
    "!p1",
    "(p0 & !p1)",
    "(p0 | (p1 & true))",
    "EX<=3 p0",
    "AX p0",
    "EX EX<=0 AX<=4294967294 p1",
    "EX#7<=3 p0",
    "AX#0 EX#255 AX#10<=4294967294 p1",
    "E[p0 U<=2 p1]",
    "A[p0 U p1]",
    "A[(p0 | false) U<=7 E[!p0 U EX p1]]",
)


class Actions(Case):
    """Actions of formulas, over a model whose transitions have some."""

    OVER = "a -> b 1 #compile\nb -> a 2 #retire\nb -> b 3 #7\na -> a 4\n"

    def read(self, text, over=OVER):
        return read_question(model(over), text, "formula")

    def test_a_name_means_its_number(self):
        for text, plain in (("EX#compile<=3 a", "EX#1<=3 p0"), ("AX#retire a", "AX#2 p0"), ("EX#7 a", "EX#7 p0"), ("AX#0 a", "AX#0 p0"), ("EX#200 a", "EX#200 p0")):
            question = self.read(text)
            self.assertEqual(question.formula.text(), plain)
            self.assertEqual(question.text(), text)

    def test_a_number_is_told_by_its_name(self):
        self.assertEqual(self.read("EX#1 AX#2 a").text(), "EX#compile AX#retire a")

    def test_a_name_that_no_transition_has(self):
        for text, column, said in (
            ("EX#compil a", 4, "no transition has the action compil (did you mean compile?)"),
            ("(a & AX#x a)", 9, "no transition has the action x (there are compile, retire)"),
            # names of states and propositions are no actions
            ("EX#a a", 4, "no transition has the action a (there are compile, retire)"),
        ):
            found = self.mistake(lambda: self.read(text), said)
            self.assertEqual(found.place.column, column)

    def test_a_number_that_no_row_can_ask_for(self):
        many = "".join(f"a -> a 0 #n{i}\n" for i in range(1, 257))
        self.assertEqual(self.read("EX#n255 a", many).formula.text(), "EX#255 p0")
        self.mistake(lambda: self.read("EX#n256 a", many), "formula:1:4: the action n256 has the number 256, and a formula can ask for 0 to 255 only")

    def test_questions_of_a_file(self):
        over = self.OVER + "question q: EX#compile<=3 b   # a comment\nexpect a: q #too\nexpect not b: AX#retire (EX#compile true & b)#and this\nexpect a: EX#1 true\n"
        path = self.write("m.otz", over)
        status, out, err = self.otz("check", path, "--program", FAKE)
        self.assertEqual((status, err), (0, ""))
        self.assertEqual([line.split("  ")[1].strip() + " " + line.split("   ")[1].split("  ")[0] for line in out.splitlines()[1:-1]], ["ok a: q", "ok not b: AX#retire (EX#compile true & b)", "ok a: EX#compile true"])
        bad = self.write("bad.otz", self.OVER + "expect a: EX#compil b\n")
        self.assertEqual(self.otz("check", bad, "--program", FAKE)[1].splitlines()[1:4], [
            f"  {bad}:5:14: no transition has the action compil (did you mean compile?)", "      expect a: EX#compil b", "                   ^",
        ])


class Reading(Case):
    def test_text_is_written_back(self):
        for text in TEXTS:
            self.assertEqual(formula(text).text(), text)

    def test_blanks_lines_and_comments(self):
        self.assertEqual(formula("# why\n A [p0\n\tU <= 2(p1&p0) ]\n  # end").text(), "A[p0 U<=2 (p1 & p0)]")

    def test_rows_are_in_post_order(self):
        self.assertEqual(
            formula("A[(p0 & !p1) U<=7 EX p1]").rows(),
            [Row(2, 0, 0, 0), Row(3, 1, 0, 0), Row(4, 0, 1, 0), Row(2, 1, 0, 0), Row(6, 3, 0, 4294967295), Row(9, 2, 4, 7)],
        )

    def test_every_row_but_the_last_is_used_once(self):
        for text in TEXTS:
            rows = formula(text).rows()
            uses = [row.left for row in rows if row.operator > 3] + [row.right for row in rows if row.operator in (4, 5, 8, 9)]
            self.assertEqual(sorted(uses), list(range(len(rows) - 1)), text)

    def test_an_action_stands_between_next_and_its_bound(self):
        self.assertEqual(formula("EX#7<=3 p0").rows(), [Row(2, 0, 0, 0), Row(10, 0, 7, 3)])
        self.assertEqual(formula("AX#0 p0").rows(), [Row(2, 0, 0, 0), Row(11, 0, 0, 4294967295)])
        self.assertEqual(formula("EX#7 <= 3 p0"), formula("EX#7<=3 p0"))
        self.assertEqual(formula("# a comment\nEX#7\n  # another\n p0"), formula("EX#7 p0"))

    def test_mistakes_have_their_column(self):
        for text, column, said in (
            ("EX #7 p0", 4, "'#' has no place in a formula (an action stands at once behind EX or AX, as EX#compile; a comment has a line of its own)"),
            ("EX# 7 p0", 3, "'#' has no place in a formula"),
            ("EX<=3#7 p0", 6, "'#' has no place in a formula"),
            ("EX##7 p0", 3, "'#' has no place in a formula"),
            ("E#7[p0 U p1]", 2, "'#' has no place in a formula"),
            ("E[p0 U#7 p1]", 7, "'#' has no place in a formula"),
            ("p0#7", 3, "'#' has no place in a formula"),
            ("EX#7", 5, "a formula is expected here, and the text ends"),
            ("EX#256 p0", 4, "the action 256 is too large: at most 255"),
            ("EX#07 p0", 4, "'07' is no action: a whole number"),
            ("AX EX#7up p0", 7, "'7up' is no action: a whole number"),
            ("EX#go p0", 4, "no transition has the action go"),
            ("", 1, "the text ends"),
            ("p0 &", 4, "(x & y)"),
            ("p0 p1", 4, "complete before 'p1'"),
            ("(p0)", 4, "'&' or '|' is expected"),
            ("(p0 & p1 | p0)", 10, "((x & y) | z)"),
            ("(p0 & p1", 9, "')' is expected"),
            ("!(p0 & p1)", 2, "only a proposition can be negated"),
            ("!!p0", 2, "only a proposition can be negated"),
            ("!true", 2, "only a proposition can be negated"),
            ("EX<3 p0", 3, "a bound is written <=3"),
            ("EX<= p0", 6, "no bound"),
            ("EX<=03 p0", 5, "no bound"),
            ("EX<=4294967295 p0", 5, "at most 4294967294"),
            ("E p0", 3, "'[' is expected after E"),
            ("E[p0 p1]", 6, "'U' is expected"),
            ("E[p0 & p1 U p1]", 6, "(x & y)"),
            ("A[p0 U p1", 10, "']' is expected"),
            ("p0 + p1", 4, "has no place in a formula"),
            ("p2", 1, "the model has 2 of its own"),
            ("p00", 1, "no proposition or state"),
            ("E[p0 U onne]", 8, "did you mean one?"),
            ("EF one", 1, "E[true U x]"),
            ("not one", 1, "not x is written !x"),
            ("(zero and one)", 7, "'&' or '|' is expected"),
            ("TRUE", 1, "did you mean true?"),
            ("xyz", 1, "(there are p0, p1, zero, one)"),
            ("¬one", 1, "a negation is written !idle"),
            ("p0 -> p1", 4, "'->' has no place in a formula (x -> y is written (!x | y)"),
            ("p0 - p1", 4, "'-' has no place in a formula"),
            ("EX<=4294967296 p0", 5, "for no bound, leave <= out"),
            ("U", 1, "a formula is expected"),
            ("EX " * 300 + "p0", 3 * 255 + 1, "too deep"),
        ):
            found = self.mistake(lambda: formula(text), said)
            self.assertEqual((found.place.line, found.place.column), (1, column), text)

    def test_a_mistake_shows_its_place(self):
        found = self.mistake(lambda: formula("(p0 &\n\tonne)"))
        self.assertEqual(str(found), "formula:2:2: no proposition or state has the name onne (did you mean one?)\n    \tonne)\n    \t^")


    def test_the_end_is_behind_the_last_word(self):
        found = self.mistake(lambda: formula("E[p0 U\n  p1\n\n"), "']' is expected")
        self.assertEqual((found.place.line, found.place.column), (2, 5))

    def test_no_text_is_worse_than_a_mistake(self):
        chance = random.Random(5)
        words = "true false p0 p7 one x E A [ ] U <= 3 ( ) & | ! EX AX \n # @ é".split(" ")
        for _ in range(1000):
            text = chance.choice(("", " ")).join(chance.choice(words) for _ in range(chance.randint(0, 9)))
            try:
                self.assertEqual(formula(formula(text).text().replace("p2", "one")), formula(text))
            except Mistake:
                pass


class Named(Case):
    def test_a_states_name_takes_the_next_proposition(self):
        question = read_question(model(M), "(zero | E[!one U zero])", "formula")
        self.assertEqual(question.formula.text(), "(p2 | E[!p3 U p2])")
        self.assertEqual(question.formula.text(question.names.name), "(zero | E[!one U zero])")
        self.assertEqual(question.model.propositions, ["p0", "p1", "zero", "one"])
        self.assertEqual(question.model.labels, [{0, 2}, {1, 3}])

    def test_the_model_read_is_left_as_it_was(self):
        read = model(M)
        read_question(read, "zero", "formula")
        self.assertEqual(read, model(M))

    def test_numbers_come_back_as_names(self):
        question = read_question(model("a: idle\na -> a 1"), "AX p0", "formula")
        self.assertEqual(question.formula.text(question.names.name), "AX idle")
