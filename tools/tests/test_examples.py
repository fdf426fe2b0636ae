"""The examples: what they say, and answers worked out by runs alone."""

import contextlib
import os
import re
import shlex
import subprocess
import sys
from unittest import mock

from otzarvim_tools import checks, claims
from otzarvim_tools.compiler import compile_model
from otzarvim_tools.library import VARIABLE as LIBRARY_VARIABLE
from otzarvim_tools.model_text import read_model
from otzarvim_tools.running import VARIABLE

from .brute import leads_of
from .common import FAKE, ROOT, Case, program, the_library, trials
from .meaning import a_until, e_until

LIFE = ROOT / "examples" / "formula_life.otz"

# The example again, by hand.
LEADS = {
    "cold": [(30, "interpreted")],
    "hot": [(90, "speculated"), (25, "interpreted"), (6, "retired")],
    "speculated": [(4, "speculated"), (7, "guard_failed")],
    "guard_failed": [(35, "interpreted"), (12, "cold")],
    "interpreted": [(20, "interpreted"), (1, "cold"), (2, "hot")],
    "retired": [],
}
ALL = set(LEADS)
EVENTS = {
    "load": ("cold", "interpreted"), "compile": ("hot", "speculated"), "give_up": ("hot", "interpreted"), "retire": ("hot", "retired"),
    "stay": ("speculated", "speculated"), "fail": ("speculated", "guard_failed"), "rebuild": ("guard_failed", "interpreted"), "discard": ("guard_failed", "cold"),
    "interpret": ("interpreted", "interpreted"), "put_away": ("interpreted", "cold"), "heat": ("interpreted", "hot"),
}
INTERPRETED, COMPILED, RETIRED = {"interpreted"}, {"speculated"}, {"retired"}


class Life(Case):
    def answer(self, formula):
        """The states with yes, as the stand-in says."""
        status, out, _ = self.otz("ask", LIFE, formula, "--program", FAKE)
        self.assertEqual(status, 0)
        verdicts = [line.split() for line in out.split("\n\n")[1].splitlines()]
        self.assertEqual([state for state, _ in verdicts], list(LEADS))
        return {state for state, verdict in verdicts if verdict == "yes"}

    def test_the_file_says_what_stands_above(self):
        model = read_model(LIFE.read_text(), "life")
        leads = {name: [] for name in model.states}
        for step in model.transitions:
            leads[model.states[step.source]].append((step.weight, model.states[step.target]))
        self.assertEqual(leads, LEADS)
        self.assertEqual(list(leads), list(LEADS))
        self.assertEqual({name for i, name in enumerate(model.states) if model.label_names(i) == ["compiled"]}, COMPILED)
        self.assertEqual({model.action_name(step.action): (model.states[step.source], model.states[step.target]) for step in model.transitions}, EVENTS)

    def test_back_in_the_interpreter(self):
        # by hand: 35 at once, or 12 and 30 by way of cold, so 42 is enough and 41 is not
        for bound, by_hand in ((42, {"cold", "guard_failed", "interpreted"}), (41, {"cold", "interpreted"})):
            by_runs = a_until(LEADS, ALL, INTERPRETED, bound)
            self.assertEqual(by_runs, by_hand)
            self.assertEqual(self.answer(f"A[true U<={bound} interpreted]"), by_hand)

    def test_a_lucky_run_from_speculation(self):
        # by hand: 7 for the failed guard, then 35
        for bound, by_hand in ((42, ALL - RETIRED), (41, ALL - RETIRED - {"speculated"})):
            by_runs = e_until(LEADS, ALL, INTERPRETED, bound)
            self.assertEqual(by_runs, by_hand)
            self.assertEqual(self.answer(f"E[true U<={bound} interpreted]"), by_hand)

    def test_how_soon_native_code_can_run(self):
        # by hand: 30, 2 and 90 from cold; 35 and then 92 from a failed guard
        alive = ALL - RETIRED
        for bound, by_hand in ((122, alive - {"guard_failed"}), (121, alive - {"guard_failed", "cold"}), (127, alive), (126, alive - {"guard_failed"})):
            by_runs = e_until(LEADS, ALL, COMPILED, bound)
            self.assertEqual(by_runs, by_hand)
            self.assertEqual(self.answer(f"E[true U<={bound} compiled]"), by_hand)

    def test_no_native_code_before_the_interpreter(self):
        by_hand = {"cold", "guard_failed", "interpreted"}
        self.assertEqual(a_until(LEADS, ALL - COMPILED, INTERPRETED), by_hand)
        self.assertEqual(self.answer("A[!compiled U interpreted]"), by_hand)

    def test_cheap_steps_of_native_code(self):
        for bound in (4, 7):
            by_runs = {state for state in ALL if all(after in COMPILED for weight, after in LEADS[state] if weight <= bound)}
            self.assertEqual("speculated" in by_runs, bound == 4)
            self.assertEqual(self.answer(f"AX<={bound} compiled"), by_runs)

    def test_steps_of_one_event(self):
        """EX and AX of an event by the table above, on the operands that are asked about."""
        back = a_until(LEADS, ALL, INTERPRETED, 42)
        for event, (source, target) in EVENTS.items():
            self.assertEqual(self.answer(f"EX#{event} interpreted"), {source} if target == "interpreted" else set())
            self.assertEqual(self.answer(f"AX#{event} A[true U<=42 interpreted]"), ALL if target in back else ALL - {source})
        self.assertEqual(self.answer("AX#fail A[true U<=41 interpreted]"), ALL - {"speculated"})
        for bound, by_hand in ((90, {"hot"}), (89, set())):
            self.assertEqual(self.answer(f"EX#compile<={bound} compiled"), by_hand)
        self.assertEqual(self.answer("EX#0 true"), set())

    def test_runs_that_end(self):
        # by hand: from hot a run may end before the formula runs again, from retired it has ended
        by_hand = ALL - RETIRED - {"hot"}
        self.assertEqual(a_until(LEADS, ALL, COMPILED | INTERPRETED), by_hand)
        self.assertEqual(self.answer("A[true U (compiled | interpreted)]"), by_hand)
        self.assertEqual(a_until(LEADS, ALL, COMPILED | INTERPRETED | RETIRED), ALL)
        self.assertEqual(self.answer("A[true U (retired | (compiled | interpreted))]"), ALL)
        # 30, 2 and 6 from cold
        for bound, by_hand in ((38, ALL - {"speculated", "guard_failed"}), (37, ALL - {"speculated", "guard_failed", "cold"})):
            self.assertEqual(e_until(LEADS, ALL, RETIRED, bound), by_hand)
            self.assertEqual(self.answer(f"E[true U<={bound} retired]"), by_hand)
        self.assertEqual(self.answer("AX false"), RETIRED)
        self.assertEqual(self.answer("EX true"), ALL - RETIRED)


class Scheduler(Case):
    def test_the_file_is_what_the_script_writes(self):
        script = ROOT / "examples" / "scheduler.py"
        written = subprocess.run([sys.executable, str(script)], stdout=subprocess.PIPE, text=True, check=True).stdout
        self.assertEqual((ROOT / "examples" / "scheduler.otz").read_text(), written)

    def test_it_is_what_the_page_says(self):
        path = ROOT / "examples" / "scheduler.otz"
        model = read_model(path.read_text(), "scheduler")
        self.assertIn(f"has {len(model.states)} states and {len(model.transitions):,} transitions", (ROOT / "examples" / "README.md").read_text())
        self.assertIn(f"Its message has {len(compile_model(model)):,} bytes", (ROOT / "examples" / "README.md").read_text())

    def test_closing_by_cheapest_and_costliest_steps(self):
        """From 13 requests, by hand: each is taken at 1 and costs 40 or 12; and by runs, on the part that is closing."""
        model = read_model((ROOT / "examples" / "scheduler.otz").read_text(), "scheduler")
        start = model.states.index("q13_idle_idle_closing")
        rest = {state for state in range(len(model.states)) if {"empty", "idle"} <= set(model.label_names(state))}
        leads = leads_of(model)
        longest = {state: 0 for state in rest}
        while start not in longest:  # what only leads to states that are known is known
            longest.update({a: max(w + longest[b] for w, b in leads[a]) for a in leads if a not in longest and all(b in longest for _, b in leads[a])})
        self.assertEqual(longest[start], 13 * (1 + 40))
        _, out, _ = self.otz("least", ROOT / "examples" / "scheduler.otz", "A[true U<=? (empty & idle)]", "--state", "q13_idle_idle_closing")
        self.assertEqual(out.splitlines()[-1], f"q13_idle_idle_closing  {longest[start]}")


class Pages(Case):
    """Each command on a page is run, and what the page shows below it is what it writes."""

    def test_pages(self):
        for page, least in (("tools/README.md", 10), ("examples/README.md", 20)):
            text = (ROOT / page).read_text()
            shown = 0
            for block in re.findall(r"^```\n(\$ .*?)^```$", text, re.M | re.S):
                for command, output in re.findall(r"^\$ ([^\n]*)\n((?:(?!\$ ).*\n)*)", block, re.M):
                    self.assertEqual(timeless(self.written(command)), timeless(output), f"{page}: {command}")
                    shown += 1
            self.assertGreaterEqual(shown, least, page)

    def test_the_first_page(self):
        text = (ROOT / "README.md").read_text()
        command = re.search(r"^(tools/otz ask .*?) *(#.*)?$", text, re.M).group(1)
        ends = re.search(r"ends in `(.*?)`; with (\d+) in place of (\d+) it ends in `(.*?)`", text)
        last, other, number, last_of_other = ends.groups()
        self.assertEqual(self.written(command).splitlines()[-1], last)
        self.assertEqual(command.count(number), 1)
        self.assertEqual(self.written(command.replace(number, other)).splitlines()[-1], last_of_other)

    def test_the_model_on_the_page(self):
        text = (ROOT / "tools/README.md").read_text()
        block = re.search(r"^```\n(propositions .*?)^```$", text, re.M | re.S).group(1)
        model = read_model(block, "page")
        self.assertEqual((model.states, model.propositions, model.actions), (["cold", "hot", "spent"], ["idle", "warm"], {1: "burn", 2: "refill"}))
        self.assertEqual(list(checks.of_model(model)), [])

    def written(self, command):
        """What a command writes. Pipelines go to a shell; the others run here, which is faster."""
        with mock.patch.dict(os.environ, {VARIABLE: program(), LIBRARY_VARIABLE: the_library(), claims.VARIABLE: trials()}), in_folder(ROOT):
            if "|" in shlex.split(command):
                return subprocess.run(["sh", "-c", command], stdout=subprocess.PIPE, stderr=subprocess.STDOUT, text=True).stdout
            name, *words = shlex.split(command)
            self.assertEqual(name, "tools/otz")
            _, out, err = self.otz(*words)
            return out + err


def timeless(text):
    """Without what differs from time to time: times, and on a slow machine a line that says how far it has come."""
    return re.sub(r"^\d+ of \d+ (?:questions|states)\b.*\n", "", re.sub(r" *\d+ ms", " 0 ms", text), flags=re.M)


@contextlib.contextmanager
def in_folder(folder):
    before = os.getcwd()
    os.chdir(folder)
    try:
        yield
    finally:
        os.chdir(before)
