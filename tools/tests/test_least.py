"""The least bound: on the page's examples, and on random models against brute force over runs."""

import random
from dataclasses import replace
from unittest import mock

from otzarvim_tools import asking, least
from otzarvim_tools.asking import LIBRARY, Asker
from otzarvim_tools.formula import Formula
from otzarvim_tools.mistakes import Mistake, Place
from otzarvim_tools.names import Names
from otzarvim_tools.model import Model, Transition
from otzarvim_tools.paper import BOUNDED, LARGEST_BOUND, UNTILS, Operator
from otzarvim_tools.question import Question

from .brute import leads_of, longest_paths, satisfying, shortest_paths, until
from .common import FAKE, M, ROOT, Case, quick_library
from .test_messages import random_formula, random_model

LIFE = ROOT / "examples" / "formula_life.otz"
MOST = 60  # six states, weights up to 9


def with_unknown(chance, formula):
    """The formula with a ? in one bound; none where it has none."""
    places = [row for row, part in enumerate(formula.parts()) if part.operator in BOUNDED]
    if not places:
        return None
    chosen, at = chance.choice(places), [-1]

    def copy(part):
        operands = tuple(copy(operand) for operand in part.operands)
        at[0] += 1
        return replace(part, operands=operands, **({"bound": None, "unknown": True} if at[0] == chosen else {}))

    return copy(formula)


def random_searches(seed, many, root_until=False):
    chance = random.Random(seed)
    while many:
        model = random_model(chance)
        formula = random_formula(chance, len(model.propositions), 2 if root_until else 3)
        if root_until and formula.operator not in UNTILS:
            continue
        formula = replace(formula, bound=None, unknown=True) if root_until else with_unknown(chance, formula)
        if formula is not None:
            many -= 1
            yield Question(Names(model), formula, Place("formula"))


class Searching(Case):
    def setUp(self):
        super().setUp()
        patch = mock.patch.object(asking, "open_library", quick_library)
        patch.start()
        self.addCleanup(patch.stop)

    def search(self, question):
        return least.Search(Asker(by=LIBRARY), question)

    def test_a_root_until_against_runs(self):
        numbers = nothing = 0
        for question in random_searches(11, 400, root_until=True):
            leads, formula = leads_of(question.model), question.formula
            left, right = (satisfying(question.model, operand) for operand in formula.operands)
            search = self.search(question)
            for state in leads:
                expected = until(formula)(leads, left, right, state)
                self.assertEqual(search.find(state).bound, expected, (question.model, question.text(), state))
                numbers, nothing = numbers + (expected is not None), nothing + (expected is None)
        self.assertGreater(min(numbers, nothing), 300)

    def test_any_place_against_runs(self):
        found = {"least": 0, "greatest": 0, "none": 0}
        for question in random_searches(12, 250):
            leads = leads_of(question.model)
            holds = [satisfying(question.model, question.formula.at(bound)) for bound in range(MOST)]
            ever = satisfying(question.model, question.formula.at(None))
            search = self.search(question)
            for state in leads:
                fitting = [bound for bound in range(MOST) if state in holds[bound]]
                answer = search.find(state)
                if search.falls:
                    self.assertEqual(answer.bound, LARGEST_BOUND if state in ever else max(fitting, default=None), (question.model, question.text(), state))
                    self.assertEqual(answer.unbounded, state in ever)
                else:
                    self.assertEqual(answer.bound, min(fitting, default=None), (question.model, question.text(), state))
                found["none" if answer.bound is None else "greatest" if search.falls else "least"] += 1
        self.assertGreater(min(found.values()), 100)

    def test_larger_models_against_paths(self):
        chance, seen = random.Random(13), {True: 0, False: 0}
        for number in range(24):
            size = chance.randint(20, 60)
            # rising, or mostly so: otherwise hardly any A until holds
            steps = [Transition(a, chance.choice((0, chance.randint(0, 9), 4294967295)), min(size - 1, a + chance.randint(1 - number % 4 // 3, 9))) for a in range(size - 1) for _ in range(chance.randint(1, 4))]
            over = Model([f"s{a}" for a in range(size)], ["p0", "p1"], [frozenset({0} if chance.random() < 0.97 else ()) | ({1} if a == size - 1 else frozenset()) for a in range(size)], steps)
            leads = leads_of(over)
            left, right = ({a for a in leads if p in over.labels[a]} for p in (0, 1))
            for operator, paths in ((Operator.E_UNTIL, shortest_paths), (Operator.A_UNTIL, longest_paths)):
                formula = Formula(operator, (Formula(Operator.PROPOSITION, proposition=0), Formula(Operator.PROPOSITION, proposition=1)), unknown=True)
                search = self.search(Question(Names(over), formula, Place("formula")))
                expected = paths(leads, left, right)
                for state in chance.sample(range(size), 5):
                    answer = search.find(state)
                    said = answer.bound if answer.bound is not None else answer.cost
                    self.assertEqual(said, expected[state], (over, operator, state))
                    seen[said is None] += 1
        self.assertGreater(min(seen.values()), 30)

    def test_beyond_what_a_bound_can_say(self):
        far = self.write("far.otz", "a -> b 4294967295\nb -> c 4294967295\nc: goal")
        for formula, state, said in (
            ("E[true U<=? goal]", "a", "no number will do, but without a bound it holds: it takes 8589934590, and a bound is at most 4294967294"),
            ("EX E[true U<=? goal]", "a", "no number will do, but without a bound it holds: it takes more, and a bound is at most 4294967294"),
            ("EX<=? true", "a", "no number will do, but without a bound it holds: it takes more, and a bound is at most 4294967294"),
            ("EX<=? true", "c", "no bound will do"),
            ("AX<=? goal", "a", "at most 4294967294"),
            ("AX<=? goal", "b", "any bound will do"),
            ("(AX<=? goal & goal)", "a", "no bound will do, not even 0"),
        ):
            status, out, err = self.otz("least", far, formula, "--state", state, "--by", "library")
            self.assertEqual((status, out.splitlines()[-1], err), (0, f"{state}  {said}", ""))

    def test_what_isnt_confirmed_isnt_said(self):
        question = next(random_searches(11, 1, root_until=True))
        search = self.search(question)
        for lie in (True, False):
            with mock.patch.object(search, "will_do", lambda bound, state: lie):
                with self.assertRaises(Mistake):
                    search._confirm(least.Found(0, 3))

    def test_the_command(self):
        status, out, _ = self.otz("least", LIFE, "A[true U<=? interpreted]", "--state", "guard_failed", "--program", FAKE)
        self.assertEqual((status, out), (0, "formula  A[true U<=? interpreted]\nrounds   5 without a bound, by the library\nasked    with 41, 42, by the program\n\nguard_failed  42\n"))
        _, out, _ = self.otz("least", LIFE, "A[true U<=? interpreted]", "--by", "library")
        self.assertEqual([line.split(None, 1) for line in out.split("\n\n")[1].splitlines()], [
            ["cold", "30"], ["hot", "no bound will do"], ["speculated", "no bound will do"], ["guard_failed", "42"], ["interpreted", "0"], ["retired", "no bound will do"],
        ])

    def test_of_an_action_its_own_weights_decide(self):
        model = self.write("m.otz", "a -> b 5 #go\na -> b 2\na -> c 7 #go\na -> c 9 #stay\nb: goal\n")
        for formula, said in (
            ("EX<=? goal", "2"), ("EX#go<=? goal", "5"), ("EX#stay<=? goal", "no bound will do"), ("EX#0<=? goal", "2"), ("EX#77<=? goal", "no bound will do"),
            ("AX<=? goal", "at most 6"), ("AX#go<=? goal", "at most 6"), ("AX#stay<=? goal", "at most 8"), ("AX#0<=? goal", "any bound will do"), ("AX#77<=? goal", "any bound will do"),
        ):
            status, out, err = self.otz("least", model, formula, "--state", "a", "--by", "library")
            self.assertEqual((status, out.splitlines()[0], out.splitlines()[-1], err), (0, f"formula  {formula}", f"a  {said}", ""))

    def test_mistakes(self):
        model = self.write("m.otz", M)
        for formula, said in (
            ("A[true U<=3 p0]", "formula: a ? is missing"),
            ("A[EX<=? p0 U<=? p1]", "formula:1:15: one bound at most"),
            ("A[true U ? p0]", "formula:1:10: a formula is expected here, not '?'"),
            ("(p0 & ?)", "formula:1:7: "),
        ):
            status, out, err = self.otz("least", model, formula, "--by", "library")
            self.assertEqual((status, out), (2, ""))
            self.assertIn(said, err)
        status, _, err = self.otz("ask", model, "A[true U<=? p0]", "--program", FAKE)
        self.assertEqual((status, err.splitlines()[0]), (2, "formula:1:11: a ? in place of a bound is found by 'otz least'; here a number is expected"))

    def test_a_refusal(self):
        ring = self.write("ring.otz", "".join(f"s{i} -> s{(i + 1) % 256} 1\n" for i in range(256)))
        status, out, _ = self.otz("least", ring, "EX<=? " + "EX " * 15 + "s0", "--state", "s0")
        self.assertEqual((status, out.splitlines()[1:]), (1, ["the graph would have 4,352 nodes: at most 4,096 are allowed"]))
