"""Reading and writing the text of models."""

from otzarvim_tools.model import Transition
from otzarvim_tools.model_text import write_model

from .common import M, Case, model


class Actions(Case):
    """What stands behind # in a model's text."""

    def acted(self, text):
        return [step.action for step in model(text).transitions]

    def test_names_are_numbered_from_1_by_first_mention(self):
        read = model("a -> b 1 #go\nb -> a 2\nb -> b 3 #stay\na -> a 4 #go\n")
        self.assertEqual(read.transitions, [Transition(0, 1, 1, 1), Transition(1, 2, 0, 0), Transition(1, 3, 1, 2), Transition(0, 4, 0, 1)])
        self.assertEqual(read.actions, {1: "go", 2: "stay"})

    def test_numbers_are_given_and_names_pass_over_them(self):
        # 1 and 3 are given, the second of them below the names
        self.assertEqual(self.acted("a -> a 0 #x\na -> a 0 #1\na -> a 0 #y\na -> a 0 #z\na -> a 0 #3\na -> a 0 #y"), [2, 1, 4, 5, 3, 4])
        self.assertEqual(self.acted("a -> a 0 #0\na -> a 0 #65535\na -> a 0"), [0, 65535, 0])

    def test_an_action_stands_at_once_behind_its_sign(self):
        for line, acted in (
            ("a -> b 12 #go", 1), ("a -> b 12#go", 1), ("a->b 12\t#go  ", 1), ("a -> b 12 #_", 1), ("a -> b 12 #7", 7), ("a -> b 12 #go # and a comment #7", 1), ("a -> b 12 #go#", 1),
            ("a -> b 12 # go", 0), ("a -> b 12 #", 0), ("a -> b 12 ##go", 0), ("a -> b 12 #-go", 0), ("a -> b 12 #é", 0), ("a -> b 12 # go #7", 0),
        ):
            self.assertEqual(self.acted(line), [acted], line)

    def test_elsewhere_it_starts_a_comment(self):
        self.assertEqual(model("#a -> b 1 #go\na: x #y\na -> a 1").propositions, ["x"])
        self.assertEqual(model("propositions x #y\nstate a#b\na -> a 1").states, ["a"])
        self.mistake(lambda: model("a -> b #go"), "m.otz:1: not a transition: 'a -> b' (its weight is missing)")

    def test_an_action_may_have_any_name(self):
        read = model("a: x\na -> b 1 #a\nb -> a 1 #x\nb -> b 1 #p0")
        self.assertEqual(read.actions, {1: "a", 2: "x", 3: "p0"})

    def test_there_and_back(self):
        for text in ("state a\na -> a 1 #go\na -> a 2 #7\na -> a 3\na -> a 4 #stay\na -> a 5 #1\n", "state a\nstate b\na -> b 0 #65535\n"):
            self.assertEqual(write_model(model(text)), text)
            self.assertEqual(model(write_model(model(text))), model(text))

    def test_as_many_as_there_can_be(self):
        read = model("".join(f"a -> a 0 #n{i}\n" for i in range(65535)))
        self.assertEqual((read.transitions[-1].action, read.actions[65535]), (65535, "n65534"))

    def test_mistakes(self):
        for text, line, said in (
            ("a -> b 1 #7up", 1, "'7up' is no action: a whole number, decimal, without leading zeros"),
            ("\na -> b 1 #07", 2, "'07' is no action"),
            ("a -> b 1 #65536", 1, "the action 65536 is too large: at most 65535"),
            ("a -> b 1 #true", 1, "'true' is a word of the language and can't name an action"),
            ("a -> b 1 #two words", 1, "not a transition: 'a -> b 1 #two words' (one action can stand behind the weight, as: cold -> hot 12 #compile; a comment has a blank behind its #)"),
            ("a -> b 1 #go #on", 1, "one action can stand behind the weight"),
            ("a -> b 1 #go-on", 1, "one action can stand behind the weight"),
            ("".join(f"a -> a 0 #n{i}\n" for i in range(65536)), 65536, "the action n65535 would have the number 65536: at most 65535"),
        ):
            self.mistake(lambda: model(text), f"m.otz:{line}: ", said)


class Reading(Case):
    def test_numbers_by_first_mention(self):
        read = model("a -> c 1\nstate b: y, x\nc: x\nb -> a 0\nc -> b 2 # the end\n")
        self.assertEqual(read.states, ["a", "c", "b"])
        self.assertEqual(read.propositions, ["y", "x"])
        self.assertEqual(read.labels, [frozenset(), {1}, {0, 1}])
        self.assertEqual(read.transitions, [Transition(0, 1, 1), Transition(2, 0, 0), Transition(1, 2, 2)])

    def test_listed_propositions_come_first(self):
        read = model("propositions: x, y\npropositions z\na: z, x\na -> a 1")
        self.assertEqual(read.propositions, ["x", "y", "z"])
        self.assertEqual(read.labels, [{0, 2}])

    def test_a_state_without_labels(self):
        for line in ("state a", "state a:", "a:", "state  a : "):
            self.assertEqual(model(line + "\na -> a 4294967295").labels, [frozenset()], line)

    def test_a_listed_state_holds_in_itself(self):
        read = model("propositions x, b\na: x\na->b 1\nb->a 1")
        self.assertEqual(read.labels, [{0}, {1}])
        self.assertEqual(model("a: x\nb: b\na->b 1\nb->a 1").labels, [{0}, {1}])

    def test_windows_and_empty_lines(self):
        self.assertEqual(model("\r\na: x\r\n\r\na -> a 1\r\n").transitions, [Transition(0, 1, 0)])

    def test_mistakes_have_their_line(self):
        for text, line, said in (
            ("a -> b", 1, "its weight is missing"),
            ("\n-> b 3", 2, "not a transition"),
            ("a -> b 3 4", 1, "not a transition"),
            ("a -> b 03", 1, "no weight"),
            ("a -> b -3", 1, "no weight"),
            ("a -> b 4294967296", 1, "at most 4294967295"),
            ("a -> b " + "9" * 9000, 1, "at most 4294967295"),
            ("a b c", 1, "not a line of a model"),
            ("state a b: x", 1, "not a state's line"),
            ("1a: x", 1, "can't name a state"),
            ("a: x y", 1, "can't name a proposition: a name has letters, digits and _, and starts with no digit (several have commas between them)"),
            ("a: x-y", 1, "starts with no digit"),
            ("a: x,, y", 1, "a name is missing"),
            ("a: x, x", 1, "x stands twice"),
            ("a: x\n\na: y", 3, "line already, line 1"),
            ("EX: x", 1, "a word of the language"),
            ("a: true", 1, "a word of the language"),
            ("p1 -> a 3", 1, "propositions by number"),
            ("a: p1", 1, "would be proposition 0"),
            ("a: p00", 1, "would be proposition 0"),
            ("propositions x\na: x, z", 2, "isn't among the propositions listed above (there are x)"),
            ("propositions idle\na: idel", 2, "did you mean idle?"),
            ("a: x\npropositions x", 2, "before the first state"),
            ("propositions x, y\npropositions x", 2, "x stands twice"),
            ("propositions", 1, "the list is empty"),
            ("a: b\na -> b 1\nb -> a 1", 1, "b is a state"),
        ):
            found = self.mistake(lambda: model(text), said)
            self.assertEqual((found.place.path, found.place.line), ("m.otz", line), text)


class Writing(Case):
    def test_reads_back_as_the_same(self):
        for text in (M, "a: x\nb: b, x\nc -> a 1\na -> c 2\nb -> a 3\nc->c 0", "a -> a 1", ""):
            read = model(text)
            self.assertEqual(model(write_model(read)), read)
