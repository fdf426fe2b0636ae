"""The program itself against the stand-in. Only where the variable OTZARVIM names the program:

    OTZARVIM=crates/otzarvim/out/otzarvim python3 -m unittest discover -s tools
"""

import os
import unittest
from pathlib import Path

from otzarvim_tools.compiler import compile_formula, compile_model
from otzarvim_tools.running import VARIABLE, run

from . import fake_otzarvim
from .common import Case
from .test_messages import damaged_questions, random_questions


@unittest.skipUnless(os.environ.get(VARIABLE), f"the variable {VARIABLE} doesn't name the program")
class Program(Case):
    def test_answers_as_the_stand_in(self):
        for model, asked in random_questions(2, 60):
            data = compile_model(model) + compile_formula(asked)
            self.assertEqual(run(Path(os.environ[VARIABLE]), data), fake_otzarvim.answer(data), data.hex())

    def test_refuses_as_the_stand_in(self):
        for data in damaged_questions(6, 60):
            self.assertEqual(run(Path(os.environ[VARIABLE]), data), fake_otzarvim.answer(data), data.hex())

    def test_input_that_is_too_long(self):
        self.assertEqual(run(Path(os.environ[VARIABLE]), bytes(8193)), "refused 2\n")
