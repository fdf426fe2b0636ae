"""The commands: ask, check, least, why, draw, compile, certify, verify, show."""

from __future__ import annotations

import argparse
import os
import sys
from typing import Callable, Dict, List, Optional, Tuple

from . import checks, claims, least, release, why
from .answers import Answer, render_answer
from .asking import LIBRARY, PROGRAM, Asker, Refusal, complaints, message, refusal
from .checks import Complaints
from .compiler import compile_model
from .decoder import decode
from .drawing import draw, drawn
from .library import VARIABLE as LIBRARY_VARIABLE
from .mistakes import Mistake, Place
from .model import Model
from .model_text import Sheet, Written, read_sheet, write_model
from .names import hint
from .progress import Progress
from .question import Question, read_question
from .running import VARIABLE
from .settled import Values

ANSWERED, REFUSED, WRONG, STOPPED = 0, 1, 2, 130
UNEXPECTED = REFUSED
STEPS = 20  # so many steps of a reason are shown unless all are asked for


def _read_bytes(path: str) -> bytes:
    try:
        if path == "-":
            return sys.stdin.buffer.read()
        with open(path, "rb") as file:
            return file.read()
    except OSError as error:
        raise Mistake(Place(path), error.strerror or "can't be read") from None


def _read_text(path: str) -> str:
    try:
        return _read_bytes(path).decode("utf-8").replace("\r\n", "\n")
    except UnicodeDecodeError:
        raise Mistake(Place(path), "not text in UTF-8") from None


def _called(path: str) -> str:
    return "standard input" if path == "-" else path


def _write_bytes(path: str, data: bytes) -> None:
    if path == "-":
        sys.stdout.flush()
        sys.stdout.buffer.write(data)
        return
    try:
        with open(path, "wb") as file:
            file.write(data)
    except OSError as error:
        raise Mistake(Place(path), error.strerror or "can't be written") from None


def _write_drawing(path: str, text: str) -> None:
    if path == "-":
        sys.stdout.write(text)
    else:
        _write_bytes(path, drawn(text, path))


def _sheet(path: str) -> Sheet:
    return read_sheet(_read_text(path), _called(path))


def _model(path: str) -> Model:
    return _sheet(path).model


def _question(sheet: Sheet, formula: str, raw: bool = False, unknowns: int = 0) -> Question:
    """A formula is given as text, as @FILE, or by the name of a question in the model's file."""
    model = sheet.model
    if formula.startswith("@"):
        return read_question(model, _read_text(formula[1:]), formula[1:], raw, unknowns)
    if formula.strip() in sheet.questions:
        return release.read_written(model, sheet.questions[formula.strip()], unknowns)
    try:
        return read_question(model, formula, "formula", raw, unknowns)
    except Mistake as mistake:
        if os.path.isfile(formula):
            raise Mistake(mistake.place, f"{mistake.words} (a formula in a file is given as @{formula})", mistake.excerpt) from None
        raise


def _in_order(model: str, formula: Optional[str]) -> None:
    """Refuses a model and a formula that stand in each other's place."""
    if formula is not None and model != "-" and not os.path.exists(model) and os.path.isfile(formula):
        raise Mistake(Place(model), f"there is no such file; the model's file, {formula}, comes before the formula")


def _state(model: Model, name: str) -> int:
    if name not in model.states:
        raise Mistake(Place(model.path), f"there is no state {name}{hint(name, model.states, model.states)}")
    return model.states.index(name)


def _asker(words: argparse.Namespace) -> Asker:
    return Asker(words.program, words.library, words.by, getattr(words, "raw", False))


def ask(words: argparse.Namespace) -> int:
    """Compiles a model and a formula, asks the program or the library and says its answer in names."""
    _in_order(words.model, words.formula)
    sheet = _sheet(words.model)
    question = _question(sheet, words.formula, words.raw)
    state = None if words.state is None else _state(sheet.model, words.state)
    answer, by = _asker(words).ask(question)
    if isinstance(answer, Answer):
        sys.stdout.write(render_answer(answer, question, by, state))
        return ANSWERED
    raise Refusal(refusal(answer, question, by))


def check(words: argparse.Namespace) -> int:
    """Asks the questions of files, and compares the answers with what is expected."""
    sheets: List[Tuple[release.Report, Optional[Sheet], Dict[Written, Question]]] = []
    for path in words.files:
        try:
            sheet = _sheet(path)
            if not sheet.expectations:
                raise Mistake(Place(sheet.model.path), "nothing is expected here (as: expect cold: EX idle)")
            sheets.append((release.Report(path), sheet, release.read_questions(sheet)))
        except (Mistake, Complaints) as mistake:
            sheets.append((release.Report(path, mistake=str(mistake)), None, {}))
    asker = _asker(words)
    progress = Progress("questions", sum(len(sheet.expectations) for _, sheet, _ in sheets if sheet))
    reports = []
    for report, sheet, questions in sheets:
        if sheet is not None:
            try:
                report = release.run_sheet(sheet, questions, asker, progress)
            except Complaints as mistake:
                report = release.Report(sheet.model.path, mistake=str(mistake))
        progress.clear()
        sys.stdout.write(release.render(report))
        sys.stdout.flush()
        reports.append(report)
    sys.stdout.write(release.summary(reports))
    if words.junit:
        _write_bytes(words.junit, release.junit(reports))
    if any(report.mistake for report in reports):
        return WRONG
    return UNEXPECTED if any(report.failures for report in reports) else ANSWERED


def least_command(words: argparse.Namespace) -> int:
    """Finds the bound that stands for a ?, for one state or for all."""
    _in_order(words.model, words.formula)
    sheet = _sheet(words.model)
    question = _question(sheet, words.formula, unknowns=1)
    if not any(part.unknown for part in question.formula.parts()):
        raise Mistake(question.place, "a ? is missing, in place of the bound that is to be found (as: A[true U<=? idle])")
    states = range(len(sheet.model.states)) if words.state is None else [_state(sheet.model, words.state)]
    checks.insist(complaints(question))
    progress = Progress("states", len(states))
    search = least.Search(_asker(words), question, progress)
    found = [search.find(state) for state in states]
    progress.clear()
    sys.stdout.write(least.render(search, found))
    return ANSWERED


def why_command(words: argparse.Namespace) -> int:
    """Explains the verdict on a state, by runs that are checked before they are shown."""
    _in_order(words.model, words.formula)
    sheet = _sheet(words.model)
    question = _question(sheet, words.formula)
    state = _state(sheet.model, words.state)
    explainer = why.Explainer(Values(question, Asker(library=words.library).settle(question)))
    steps = explainer.steps(state)
    if words.draw != "-":
        sys.stdout.write(why.render(explainer, state, steps, None if words.all else STEPS))
    if words.draw:
        run = next((step.run for step in steps if step.run), None)
        _write_drawing(words.draw, draw(sheet.model, run))
    return ANSWERED


def draw_command(words: argparse.Namespace) -> int:
    """Writes a model as DOT text, or as a picture."""
    _write_drawing(words.output, draw(_model(words.model)))
    return ANSWERED


def compile_command(words: argparse.Namespace) -> int:
    """Writes the message of a model, followed by that of a formula if one is given."""
    _in_order(words.model, words.formula)
    sheet = _sheet(words.model)
    model = sheet.model
    if words.formula is None:
        found, build = checks.of_model(model), lambda: compile_model(model)
    else:
        question = _question(sheet, words.formula, words.raw)
        found, build = complaints(question), lambda: message(question)
    if not words.raw:
        checks.insist(found)
    _write_bytes(words.output, build())
    return ANSWERED


def _claimed(words: argparse.Namespace) -> bytes:
    """The message of a question's graph."""
    _in_order(words.model, words.formula)
    question = _question(_sheet(words.model), words.formula)
    checks.insist(complaints(question))
    words.graph = claims.Graph(question.model, question.formula)
    return words.graph.message()


def certify(words: argparse.Namespace) -> int:
    """Writes claims about a question's graph, once the proved checker has accepted them."""
    message = _claimed(words)
    claimed = claims.certificate(words.graph)
    number, word = claims.verdict(message, claimed, words.program)
    if (number, word) != (0, "yes"):
        print(f"not accepted: {number} {word}", file=sys.stderr)
        return REFUSED
    _write_bytes(words.output, claimed)
    print(f"accepted: {len(claimed):,} bytes for {words.graph.nodes:,} nodes", file=sys.stderr if words.output == "-" else sys.stdout)
    return ANSWERED


def verify(words: argparse.Namespace) -> int:
    """Says what the proved checker says of claims about a question's graph."""
    number, word = claims.verdict(_claimed(words), _read_bytes(words.claims), words.program)
    if number:
        print(f"refused {number}")
        return REFUSED
    print("accepted" if word == "yes" else "not accepted")
    return ANSWERED if word == "yes" else REFUSED


def show(words: argparse.Namespace) -> int:
    """Writes messages as text: a model, a formula, or both, the formula then as a comment."""
    named = _model(words.names) if words.names else None
    model, formula = decode(_read_bytes(words.file), _called(words.file), words.raw, named)
    if words.only == "model":
        if model is None:
            raise Mistake(Place(words.file), "there is no model here")
        sys.stdout.write(write_model(model))
    elif words.only == "formula":
        if formula is None:
            raise Mistake(Place(words.file), "there is no formula here")
        sys.stdout.write(formula.text() + "\n")
    else:
        if model is not None:
            sys.stdout.write(write_model(model))
        if formula is not None:
            sys.stdout.write(f"{'# formula: ' if model else ''}{formula.text()}\n")
    return ANSWERED


Add = Callable[[str, str, object], argparse.ArgumentParser]  # a command's name, what it does, and its function

_RAW = "check no limits: the program is to refuse what it must"
_GIVEN = "the formula's text, @FILE, or the name of a question in MODEL"


def _add_model(command: argparse.ArgumentParser) -> None:
    command.add_argument("model", metavar="MODEL", help="a model's text; - for standard input")


def _add_question(command: argparse.ArgumentParser, formula: str = _GIVEN) -> None:
    _add_model(command)
    command.add_argument("formula", metavar="FORMULA", help=formula)


def _add_library(command: argparse.ArgumentParser) -> None:
    command.add_argument("--library", metavar="PATH", help=f"ask this library, a shared object or a bridge (else the variable {LIBRARY_VARIABLE} names it, else it is built from the archive)")


def _add_asked(command: argparse.ArgumentParser) -> None:
    command.add_argument("--program", metavar="PATH", help=f"ask this program (else the variable {VARIABLE} names it, else it is crates/otzarvim/out/otzarvim, built if it is missing)")
    _add_library(command)
    command.add_argument("--by", choices=(PROGRAM, LIBRARY), help="who is to answer (else the program, and the library what the program has no room for)")


def _add_asking(add: Add) -> None:
    """The commands that ask."""
    asks = add("ask", "ask the checker, and say its answer in names", ask)
    _add_question(asks)
    asks.add_argument("--state", metavar="NAME", help="say the verdict of this state alone")
    _add_asked(asks)
    asks.add_argument("--raw", action="store_true", help=_RAW)

    checking = add("check", "ask the questions of files, and compare the answers with what they expect", check)
    checking.add_argument("files", metavar="FILE", nargs="+", help="a model's text with lines as: expect cold: EX idle")
    checking.add_argument("--junit", metavar="FILE", help="write the results as JUnit's XML too")
    _add_asked(checking)

    leasts = add("least", "find the least bound with which a formula holds", least_command)
    _add_question(leasts, _GIVEN + ", with ? in place of one bound")
    leasts.add_argument("--state", metavar="NAME", help="for this state alone")
    _add_asked(leasts)

    whys = add("why", "say why a state satisfies a formula, or doesn't", why_command)
    _add_question(whys)
    whys.add_argument("--state", metavar="NAME", required=True, help="the state")
    whys.add_argument("--all", action="store_true", help=f"show all steps of the reason, not {STEPS} at most")
    whys.add_argument("--draw", metavar="FILE", help="write the model with the run in bold: a picture if it ends in .svg, else DOT text; - for standard output, and then nothing else")
    _add_library(whys)


def _add_files(add: Add) -> None:
    """The commands that make one file of another."""
    draws = add("draw", "write a model as Graphviz DOT text, or as a picture", draw_command)
    _add_model(draws)
    draws.add_argument("-o", dest="output", metavar="FILE", default="-", help="where it goes: a picture if it ends in .svg (Graphviz draws it), else DOT text")

    compiles = add("compile", "write the message bytes of a model and a formula", compile_command)
    _add_model(compiles)
    compiles.add_argument("formula", metavar="FORMULA", nargs="?", help=_GIVEN)
    compiles.add_argument("-o", dest="output", metavar="FILE", required=True, help="where the bytes go; - for standard output")
    compiles.add_argument("--raw", action="store_true", help=_RAW)

    trials = f"the program trials to ask (else the variable {claims.VARIABLE}, else crates/{claims.TRIALS}/out/{claims.TRIALS})"
    certifies = add("certify", "write claims about a question's graph that the checker accepts: a value and a rank for each node", certify)
    verifies = add("verify", "ask the checker whether it accepts such claims", verify)
    for command in (certifies, verifies):
        _add_question(command)
        command.add_argument("--program", metavar="PATH", help=trials)
    certifies.add_argument("-o", dest="output", metavar="FILE", required=True, help="where the claims go; - for standard output")
    verifies.add_argument("claims", metavar="CLAIMS", help="the file with the claims; - for standard input")

    shows = add("show", "write messages as text again", show)
    shows.add_argument("file", metavar="FILE", help="a model, a formula, or a model followed by a formula; - for standard input")
    shows.add_argument("--only", choices=("model", "formula"), help="write this part alone")
    shows.add_argument("--names", metavar="MODEL", help="tell a fault in the names of this model's text")
    shows.add_argument("--raw", action="store_true", help="check no limits")


def _parser() -> argparse.ArgumentParser:
    parser = argparse.ArgumentParser(
        prog="otz",
        description="Ask the proved checker about models and formulas that are written with names (tools/README.md).",
        epilog="Exit status: 0 done or answered (check: all as expected), 1 refused (check: not as expected), 2 wrong usage or a mistake in a file.",
    )
    commands = parser.add_subparsers(dest="command", required=True, metavar="COMMAND")

    def add(name: str, does: str, act: object) -> argparse.ArgumentParser:
        command = commands.add_parser(name, help=does, description=does)
        command.set_defaults(act=act)
        return command

    _add_asking(add)
    _add_files(add)
    return parser


def main(arguments: Optional[List[str]] = None) -> int:
    """Runs a command and gives its exit status."""
    parser = _parser()
    if not (sys.argv[1:] if arguments is None else arguments):
        parser.print_help(sys.stderr)
        return WRONG
    words = parser.parse_args(arguments)
    try:
        status: int = words.act(words)
        sys.stdout.flush()
        return status
    except (Mistake, Complaints) as mistake:
        print(mistake, file=sys.stderr)
        return WRONG
    except Refusal as refused:
        sys.stdout.write(str(refused))
        return REFUSED
    except KeyboardInterrupt:
        print("stopped", file=sys.stderr)
        return STOPPED
    except BrokenPipeError:
        # the reader of the output has gone; nothing more is to be said to it
        os.dup2(os.open(os.devnull, os.O_WRONLY), sys.stdout.fileno())
        return WRONG
