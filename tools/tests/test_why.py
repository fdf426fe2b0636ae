"""Reasons: each run is walked again here, and each claim compared with brute force over runs, on random models."""

import random
from dataclasses import replace

from otzarvim_tools.formula import Formula
from otzarvim_tools.mistakes import Mistake, Place
from otzarvim_tools.model import Transition
from otzarvim_tools.names import Names
from otzarvim_tools.paper import NEXTS, UNTILS, Operator
from otzarvim_tools.question import Question, read_question
from otzarvim_tools.compiler import compile_formula, compile_model
from otzarvim_tools.runs import Run, Runs
from otzarvim_tools.settled import Values
from otzarvim_tools.why import Explainer, table

from .brute import leads_of, satisfying, until
from .common import ROOT, Case, QuickLibrary, model, quick_library
from .test_messages import random_formula, random_model

LIFE = ROOT / "examples" / "formula_life.otz"


def values_of(question):
    return Values(question, quick_library().settle(compile_model(question.model), compile_formula(question.formula)))


def far(chance):
    """A model with few goals, and an until whose bound is often too small."""
    over = random_model(chance)
    over.labels[:] = [frozenset({0} if chance.random() < 0.2 else ()) for _ in over.states]
    operator = chance.choice(UNTILS)
    return over, Formula(operator, (Formula(Operator.TRUE), Formula(Operator.PROPOSITION)), bound=chance.randint(0, 4))


def explained(seed, many):
    """Questions, more of them with an until at the root than by chance, and their explainers."""
    chance = random.Random(seed)
    for number in range(many):
        over, formula = far(chance)
        if number % 3 < 2:
            over = random_model(chance)
            formula = random_formula(chance, len(over.propositions))
        while number % 3 == 1 and formula.operator not in UNTILS:
            formula = random_formula(chance, len(over.propositions))
        question = Question(Names(over), formula, Place("formula"))
        yield question, Explainer(values_of(question))


class Reasons(Case):
    def setUp(self):
        super().setUp()
        self.kinds = {}

    def saw(self, kind):
        self.kinds[kind] = self.kinds.get(kind, 0) + 1

    def walk(self, question, run):
        """The states and the sums at the positions of a run, along transitions of the model."""
        states, sums = [run.start], [0]
        for step in run.steps:
            self.assertIn(step, question.model.transitions)
            self.assertEqual(step.source, states[-1])
            states.append(step.target)
            sums.append(sums[-1] + step.weight)
        return states, sums

    def until_step(self, question, part, step, holds, left, right, leads):
        state = step.claim[1]
        cost = until(part)(leads, left, right, state)
        kind = f"{part.operator.name} {'yes' if holds else 'no'}"
        if step.run is None:
            # only where no run at all comes to right
            self.assertEqual((kind, cost), ("E_UNTIL no", None))
            return self.saw(kind + ", states")
        states, sums = self.walk(question, step.run)
        self.assertEqual(states[0], state)
        if states[-1] in right:
            # it comes to right by way of left, at exactly the least or the greatest cost, and that decides
            self.assertTrue(all(each in left and each not in right for each in states[:-1]))
            self.assertEqual((sums[-1], step.run.again), (cost, None))
            self.assertEqual(holds, part.bound is None or cost <= part.bound)
            return self.saw(kind + ", cost")
        # a run that breaks an A until: right is nowhere on it
        self.assertEqual((kind, cost), ("A_UNTIL no", None))
        self.assertFalse(set(states) & right)
        if step.run.again is not None:
            self.assertEqual(states[step.run.again], states[-1])
            self.assertLess(step.run.again, len(states) - 1)
            return self.saw(kind + ", endless")
        if leads[states[-1]]:
            self.assertNotIn(states[-1], left)
            return self.saw(kind + ", left")
        return self.saw(kind + ", ends")

    def test_against_brute_force(self):
        for question, explainer in explained(21, 1000):
            leads = leads_of(question.model)
            satisfied = [satisfying(question.model, part) for part in explainer.values.parts]
            for state in leads:
                steps = explainer.steps(state)
                claims = [step.claim for step in steps]
                self.assertEqual(claims[0], (explainer.values.root, state))
                self.assertEqual(len(claims), len(set(claims)))
                for step in steps:
                    row, at = step.claim
                    part, holds = explainer.values.parts[row], at in satisfied[row]
                    self.assertEqual(explainer.values.holds(row, at), holds)
                    self.decided(explainer, step, satisfied)
                    if part.operator in UNTILS:
                        left, right = (satisfied[operand] for operand in explainer.values.operands(row))
                        self.until_step(question, part, step, holds, left, right, leads)
                    for need in step.needs:
                        self.assertTrue(need in claims or explainer.values.parts[need[0]].operator <= Operator.NOT_PROPOSITION)
        for kind in ("EX_ACTION", "AX_ACTION", "EX_ACTION, no transition", "AX_ACTION, no transition", "E_UNTIL yes, cost", "E_UNTIL no, cost", "E_UNTIL no, states", "A_UNTIL yes, cost", "A_UNTIL no, cost", "A_UNTIL no, endless", "A_UNTIL no, left", "A_UNTIL no, ends"):
            self.assertGreater(self.kinds.get(kind, 0), 25, kind)

    def decided(self, explainer, step, satisfied):
        """Of and, or, EX, AX: what a step rests on decides it."""
        row, at = step.claim
        part, holds = explainer.values.parts[row], at in satisfied[row]
        said = [state in satisfied[need] for need, state in step.needs]
        if part.operator in (Operator.AND, Operator.OR):
            self.assertEqual({state for _, state in step.needs}, {at})
            self.assertEqual(set(said), {holds})
            self.assertEqual(len(said), 1 if holds == (part.operator is Operator.OR) else 2)
        elif part.operator in NEXTS:
            leads = leads_of(explainer.question.model, part.action)
            near = {after for weight, after in leads[at] if part.bound is None or weight <= part.bound}
            self.saw(f"{part.operator.name}{'' if near else ', no transition'}")
            if step.run is None:
                self.assertEqual({state for _, state in step.needs}, near)
                self.assertTrue(all(each == holds for each in said))
            else:
                states, _ = self.walk(explainer.question, step.run)
                self.assertEqual((states[0], said), (at, [holds]))
                self.assertIn(states[1], near)
                self.assertIn(part.action, (None, step.run.steps[0].action))

    def test_runs_that_show_nothing_are_caught(self):
        over = model("a: l\nb: l\nc: r\na -> b 2\nb -> c 3\nb -> a 1\nc -> d 1\na -> d 9")
        question = read_question(over, "A[l U<=4 r]", "formula")
        runs = Runs(values_of(question), 2)
        ab, bc, ba, cd, ad = over.transitions
        runs.check_reaches(Run(0, (ab, bc)), 5)
        runs.check_fails(Run(0, (ab, ba), 0))
        runs.check_fails(Run(0, (ad,)))
        for run, cost in (
            (Run(0, (ab, replace(bc, weight=2))), 4), (Run(0, (ab, bc)), 4), (Run(0, (bc,)), 3), (Run(1, (ab, bc)), 5), (Run(0, (ab, bc, cd)), 6), (Run(0, (ab,)), 2), (Run(0, (ad,)), 9),
            (Run(0, (Transition(0, 5, 2),)), 5), (Run(0, (ab, bc), 0), 5),
        ):
            self.mistake(lambda: runs.check_reaches(run, cost), "isn't shown as a reason")
        for run in (Run(0, (ab, bc)), Run(0, (ab, ba)), Run(0, (ab, ba), 1), Run(0, (ab, ba), 2), Run(0), Run(0, (ab, bc, cd))):
            self.mistake(lambda: runs.check_fails(run), "isn't shown as a reason")

    def test_values_that_lie_are_caught(self):
        """A library that says something else of one node: no reason is given that the model doesn't bear."""
        chance, caught, given = random.Random(5), 0, 0
        for question, explainer in explained(22, 150):
            values = explainer.values
            leads = leads_of(question.model)
            node = chance.randrange(len(values.settled.values))
            lied = list(values.settled.values)
            lied[node] = 0 if lied[node] else 2**64 - 1
            liar = Explainer(Values(question, replace(values.settled, values=lied)))
            for state in leads:
                try:
                    steps = liar.steps(state)
                except Mistake:
                    caught += 1
                    continue
                given += 1
                for step in steps:
                    if step.run is not None:
                        self.walk(question, step.run)
        self.assertGreater(min(caught, given), 10)


class Said(Case):
    def why(self, formula, state, *words):
        status, out, err = self.otz("why", LIFE, formula, "--state", state, *words)
        self.assertEqual((status, err), (0, ""))
        return out

    def test_a_run_that_comes_too_late(self):
        self.assertEqual(self.why("A[true U<=41 interpreted]", "guard_failed"), (
            "formula  A[true U<=41 interpreted]\nrounds   4\nby       the library\n\nguard_failed  no\n\n"
            "1. guard_failed doesn't satisfy A[true U<=41 interpreted]: this run comes to interpreted only at a cost of more than 41\n"
            "      state         weight  sum  by\n"
            "      guard_failed            0\n"
            "      cold              12   12  #discard\n"
            "      interpreted       30   42  #load\n"
            "      interpreted holds in interpreted, at a cost of 42\n"
        ))

    def test_an_endless_run(self):
        self.assertTrue(self.why("A[true U interpreted]", "speculated").endswith(
            "this run breaks it\n      state       weight  sum  by\n   -> speculated            0\n      speculated       4    4  #stay\n      and so for ever, from speculated to speculated: interpreted never holds\n"
        ))

    def test_a_run_that_ends_and_one_that_leaves(self):
        self.assertIn("retired       6    6  #retire\n      nothing follows retired, and (compiled | interpreted) has not held\n", self.why("A[true U (compiled | interpreted)]", "hot"))
        self.assertTrue(self.why("A[!compiled U interpreted]", "hot").endswith("neither !compiled nor interpreted holds in speculated\n"))

    def test_states_that_decide(self):
        self.assertIn("these states are reached while true holds, and interpreted holds in none of them: retired", self.why("E[true U interpreted]", "retired"))
        self.assertIn("no transition from cold leads to where compiled holds: interpreted", self.why("EX compiled", "cold"))
        self.assertIn("retired has no transition", self.why("AX false", "retired"))
        self.assertIn("speculated has the propositions compiled", self.why("compiled", "speculated"))
        self.assertIn("cold has no proposition", self.why("!compiled", "cold"))
        self.assertIn("true holds everywhere", self.why("true", "cold"))

    def test_of_an_action_only_its_transitions_decide(self):
        self.assertIn("each transition #fail from speculated leads to where !compiled holds: guard_failed", self.why("AX#fail !compiled", "speculated"))
        self.assertIn("no transition #fail from speculated of weight at most 9 leads to where compiled holds: guard_failed", self.why("EX#fail<=9 compiled", "speculated"))
        self.assertIn("hot has no transition #compile of weight at most 89\n", self.why("EX#compile<=89 true", "hot"))
        self.assertIn("cold has no transition #compile\n", self.why("AX#compile false", "cold"))
        self.assertIn("cold has no transition #77\n", self.why("AX#77 false", "cold"))
        self.assertTrue(self.why("EX#compile compiled", "hot").endswith("leads to where compiled holds\n      state       weight  sum  by\n      hot                   0\n      speculated      90   90  #compile\n"))

    def test_a_run_without_actions_has_no_column_for_them(self):
        path = self.write("m.otz", "a -> b 1\nb -> c 2\nc -> c 0 #stay")
        self.assertIn("      state  weight  sum\n      a                0\n      b           1    1\n      c           2    3\n", self.otz("why", path, "E[true U c]", "--state", "a")[1])

    def test_step_by_step(self):
        said = [line for line in self.why("(compiled | EX E[AX<=30 !compiled U compiled])", "cold").splitlines() if line[:1].isdigit()]
        self.assertEqual([line.split(":")[0] for line in said], [
            "1. cold satisfies (compiled | EX E[AX<=30 !compiled U compiled])", "2. cold satisfies EX E[AX<=30 !compiled U compiled]", "3. interpreted satisfies E[AX<=30 !compiled U compiled]",
            "4. interpreted satisfies AX<=30 !compiled", "5. hot satisfies AX<=30 !compiled",
        ])

    def test_many_steps_are_cut_short(self):
        ring = self.write("ring.otz", "".join(f"s{i} -> s{(i + 1) % 30} 1\n" for i in range(30)))
        words = ("why", ring, "E[EX true U s29]", "--state", "s0")
        self.assertTrue(self.otz(*words)[1].endswith("and 10 more steps, which --all shows\n"))
        self.assertIn("\n30. s28 satisfies EX true", self.otz(*words, "--all")[1])

    def test_drawn(self):
        out = self.why("A[true U<=41 interpreted]", "guard_failed", "--draw", "-")
        self.assertTrue(out.startswith("digraph "))
        self.assertEqual([line.strip() for line in out.splitlines() if "penwidth" in line], [
            '"cold" -> "interpreted" [label="30 #load", style=bold, penwidth=3];', '"guard_failed" -> "cold" [label="12 #discard", style=bold, penwidth=3];',
        ])
        path = self.folder / "run.dot"
        table_too = self.why("A[true U<=41 interpreted]", "guard_failed", "--draw", path)
        self.assertIn("      cold              12   12  #discard\n", table_too)
        self.assertEqual(path.read_text(), out)

    def test_mistakes(self):
        for words, said in ((("why", LIFE, "true"), "--state"), (("why", LIFE, "true", "--state", "gone"), "there is no state gone"), (("why", LIFE, "A[true U x]", "--state", "hot"), "formula:1:10: ")):
            status, out, err = self.otz(*words)
            self.assertEqual((status, out), (2, ""))
            self.assertIn(said, err)

    def test_the_stand_in_is_a_library(self):
        self.assertIsInstance(quick_library(str(ROOT / "tools/tests/fake_library.py")), QuickLibrary)
        self.assertEqual(table(Run(0), model("state a")), ["   state  weight  sum", "   a                0"])
