"""The questions of a file with their expected answers, and the report that continuous integration reads."""

from __future__ import annotations

import time
from dataclasses import dataclass, field
from typing import Dict, List, Optional
from xml.etree import ElementTree

from .answers import Refused, understood
from .asking import Answered, Asker, refusal
from .mistakes import Mistake
from .model import Model
from .model_text import Expectation, Sheet, Written
from .progress import Progress
from .question import Question, read_question


@dataclass(frozen=True)
class Result:
    """How an expectation came out: the verdict, or why there is none."""

    expectation: Expectation
    state: str
    text: str
    verdict: Optional[bool]
    refused: str
    rounds: int
    seconds: float

    @property
    def ok(self) -> bool:
        return self.verdict is self.expectation.holds

    @property
    def title(self) -> str:
        """What is expected, in one line."""
        return f"{'' if self.expectation.holds else 'not '}{self.state}: {self.expectation.name or self.text}"

    @property
    def failure(self) -> str:
        """What is not as expected."""
        if self.verdict is None:
            return self.refused
        said, other = ("yes", "no") if self.verdict else ("no", "yes")
        return f"{self.state} {said}, expected {other}: {self.text}"


@dataclass
class Report:
    """The results of a file, or the mistake that it has."""

    path: str
    results: List[Result] = field(default_factory=list)
    by: List[str] = field(default_factory=list)
    mistake: Optional[str] = None
    seconds: float = 0.0

    @property
    def failures(self) -> int:
        return sum(not result.ok for result in self.results)


def read_written(model: Model, written: Written, unknowns: int = 0) -> Question:
    """Reads a formula of a model's file; a mistake has its place in that file."""
    try:
        return read_question(model, written.in_place(), model.path, unknowns=unknowns)
    except Mistake as mistake:
        raise Mistake(mistake.place, mistake.words, written.whole) from None


def read_questions(sheet: Sheet) -> Dict[Written, Question]:
    """Every formula of a file, so that a mistake in one is told before the first is asked. A question of which nothing is expected may
    have a ?, for `otz least`."""
    expected = {each.formula for each in sheet.expectations}
    written = [*sheet.questions.values(), *(each.formula for each in sheet.expectations)]
    return {each: read_written(sheet.model, each, 0 if each in expected else 1) for each in dict.fromkeys(written)}


def run_sheet(sheet: Sheet, questions: Dict[Written, Question], asker: Asker, progress: Progress) -> Report:
    """Asks each question once, whatever the number of states that something is expected of."""
    report, started = Report(sheet.model.path), time.monotonic()
    answers: Dict[str, Answered] = {}  # by the question's text
    for each in sheet.expectations:
        question, state = questions[each.formula], sheet.model.states[each.state]
        before, text = time.monotonic(), question.text()
        if text not in answers:
            answers[text] = asker.ask(question)
        (answer, by), seconds = answers[text], time.monotonic() - before
        if isinstance(answer, Refused):
            report.results.append(Result(each, state, text, None, refusal(answer, question, by).strip(), 0, seconds))
        else:
            report.results.append(Result(each, state, understood(answer, question), answer.verdicts[each.state], "", answer.rounds, seconds))
        if by not in report.by:
            report.by.append(by)
        progress.step(f"{sheet.model.path}, {report.results[-1].title}")
    report.seconds = time.monotonic() - started
    return report


def render(report: Report) -> str:
    """A line for each expectation, and what isn't as expected below it."""
    lines = [report.path]
    width = max((len(result.title) for result in report.results), default=0)
    for result in report.results:
        rounds = f"{result.rounds} round{'' if result.rounds == 1 else 's'}"
        lines.append(f"  {'ok ' if result.ok else 'NOT'}  {result.title:{width}}  {rounds:>9}  {1000 * result.seconds:5.0f} ms")
        if not result.ok:
            lines += [f"       {line}" for line in result.failure.splitlines()]
    if report.mistake:
        lines += [f"  {line}" for line in report.mistake.splitlines()]
    return "".join(line + "\n" for line in lines)


def summary(reports: List[Report]) -> str:
    """How many are as expected, in one line."""
    results = [result for report in reports for result in report.results]
    failures, mistakes = sum(report.failures for report in reports), sum(report.mistake is not None for report in reports)
    asked = sorted({by for report in reports for by in report.by}, reverse=True)
    said = f"{len(results)} expected: {len(results) - failures} ok, {failures} not"
    if mistakes:
        said += f", {mistakes} file{'' if mistakes == 1 else 's'} with a mistake"
    if asked:
        said += f" (by the {' and the '.join(asked)}, {1000 * sum(report.seconds for report in reports):.0f} ms)"
    return said + "\n"


def junit(reports: List[Report]) -> bytes:
    """The XML of JUnit: a suite for each file, a case for each expectation."""
    suites = ElementTree.Element("testsuites", name="otz check")
    for report in reports:
        suite = ElementTree.SubElement(
            suites, "testsuite", name=report.path, tests=str(len(report.results) + (report.mistake is not None)),
            failures=str(report.failures), errors=str(int(report.mistake is not None)), time=f"{report.seconds:.3f}",
        )
        for result in report.results:
            case = ElementTree.SubElement(suite, "testcase", classname=report.path, name=result.title, time=f"{result.seconds:.3f}")
            if not result.ok:
                ElementTree.SubElement(case, "failure", message=result.failure.splitlines()[0]).text = result.failure
        if report.mistake:
            case = ElementTree.SubElement(suite, "testcase", classname=report.path, name="the file", time="0.000")
            ElementTree.SubElement(case, "error", message=report.mistake.splitlines()[0]).text = report.mistake
    data: bytes = ElementTree.tostring(suites, encoding="utf-8", xml_declaration=True)
    return data + b"\n"
