"""What the tests share."""

import contextlib
import functools
import io
import os
import stat
import tempfile
import unittest
from pathlib import Path
from unittest import mock

from otzarvim_tools import claims
from otzarvim_tools.cli import main
from otzarvim_tools import library
from otzarvim_tools.answers import Refused
from otzarvim_tools.formula import Formula
from otzarvim_tools.mistakes import Mistake
from otzarvim_tools.model_text import read_model
from otzarvim_tools.paper import INFINITE
from otzarvim_tools.question import read_question
from otzarvim_tools.running import VARIABLE, run

from . import fake_otzarvim

ROOT = Path(__file__).resolve().parents[2]
FAKE = Path(__file__).resolve().parent / "fake_otzarvim.py"
FAKE_LIBRARY = FAKE.with_name("fake_library.py")
FAKE_TRIALS = FAKE.with_name("fake_trials.py")

M = """
propositions p0, p1
state zero: p0
state one: p1
zero -> zero 3
zero -> one 2
one -> one 0
"""


def program():
    """The program that OTZARVIM names, or else the stand-in."""
    given = os.environ.get(VARIABLE)
    return str(Path(given).resolve() if given else FAKE)


def trials():
    """The program that TRIALS names, or else its stand-in."""
    given = os.environ.get(claims.VARIABLE)
    return str(Path(given).resolve() if given else FAKE_TRIALS)


def quick_run(path, data):
    """Runs a program, but the stand-in within this process: starting Python each time is slow."""
    return fake_otzarvim.answer(data) if path == FAKE else run(path, data)


class QuickLibrary(library.Library):
    """The stand-in for the library, within this process."""

    def settle(self, model, formula, budget=4096):
        settled = fake_otzarvim.settle(model, formula)
        if len(settled) == 2:
            return Refused(*settled)
        text, rounds, values, first, states, _ = settled
        return library.Settled(text, rounds, [INFINITE if value == fake_otzarvim.INFINITY else value for value in values], first, states)


def the_library():
    """The library that OTZARVIM_LIBRARY names, or else the stand-in."""
    given = os.environ.get(library.VARIABLE)
    return str(Path(given).resolve() if given else FAKE_LIBRARY)


@functools.lru_cache(maxsize=None)
def opened(path):
    """A library, opened once for all tests."""
    return library.open_library(path)


def quick_library(option=None):
    """Opens a library, but the stand-in within this process, which is also there where none is named."""
    given = option or the_library()
    return QuickLibrary() if given == str(FAKE_LIBRARY) else opened(given)


class Case(unittest.TestCase):
    """A test with a folder of its own."""

    def setUp(self):
        folder = tempfile.TemporaryDirectory()
        self.addCleanup(folder.cleanup)
        self.folder = Path(folder.name)

    def write(self, name, content):
        path = self.folder / name
        path.parent.mkdir(parents=True, exist_ok=True)
        path.write_bytes(content if isinstance(content, bytes) else content.encode())
        return str(path)

    def script(self, name, content):
        path = self.write(name, content)
        os.chmod(path, os.stat(path).st_mode | stat.S_IXUSR)
        return path

    def otz(self, *words):
        """Status, standard output and standard error of a command."""
        out, err = io.StringIO(), io.StringIO()
        with contextlib.redirect_stdout(out), contextlib.redirect_stderr(err), mock.patch("otzarvim_tools.asking.run", quick_run), mock.patch("otzarvim_tools.asking.open_library", quick_library):
            try:
                status = main([str(word) for word in words])
            except SystemExit as end:
                status = end.code
        return status, out.getvalue(), err.getvalue()

    def mistake(self, act, *said):
        """The mistake that `act` raises, which says all of `said`."""
        with self.assertRaises(Mistake) as raised:
            act()
        for words in said:
            self.assertIn(words, str(raised.exception))
        return raised.exception


def model(text):
    return read_model(text, "m.otz")


def formula(text, over=M) -> Formula:
    return read_question(model(over), text, "formula").formula
