"""The language of models and formulas, case by case. web/test.mjs runs the same cases through the page's reading of it."""

import json

from otzarvim_tools import checks
from otzarvim_tools.asking import complaints as of_question
from otzarvim_tools.compiler import compile_formula, compile_model
from otzarvim_tools.mistakes import Mistake
from otzarvim_tools.model_text import read_model
from otzarvim_tools.question import read_question

from .common import ROOT, Case

CASES = ROOT / "tools" / "tests" / "language.json"


def told(model, formula):
    """The two messages of a question, in hex, or all mistakes with their places."""
    try:
        question = read_question(read_model(model, "model"), formula, "formula")
        checks.insist(of_question(question))
        messages = compile_model(question.model), compile_formula(question.formula)
        return {"messages": [message.hex() for message in messages]}
    except Mistake as mistake:
        return {"mistakes": [f"{mistake.place}: {mistake.words}"]}
    except checks.Complaints as complaints:
        return {"mistakes": str(complaints).split("\n")}


class Language(Case):
    def test_every_case(self):
        for case in json.loads(CASES.read_text()):
            model, formula = case.pop("model"), case.pop("formula")
            self.assertEqual(told(model, formula), case, (model, formula))
