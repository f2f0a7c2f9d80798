"""Audits test cases: one legal order of all calls that the logs show, or what keeps it from being one. The script of it, for `ttrun explore`."""
import re
from dataclasses import dataclass, field
from typing import Iterator, List, Optional, Tuple

from .cases import TestCase
from .histories import Finding, block_of, call, first_said, why_none
from .limits import MOST_NEXT, MOST_REMARKS
from .playing import played
from .search import FOUND, NONE, UNDECIDED, Answer, search

LEGAL, PART, DISAGREE, HIDDEN, OTHER_VERDICT, NO_ORDER, OPEN, REFUSED = (
    "legal", "legal as far as the logs go", "the logs disagree", "not judged", "another verdict", "no order was found", "undecided", "check refuses")
# What a test case has next to its outcome: what it means for the status.
STATUS = {LEGAL: 0, PART: 1, DISAGREE: 1, HIDDEN: 3, OTHER_VERDICT: 1, NO_ORDER: 1, OPEN: 3, REFUSED: 3}
# What is counted in the last line, and the columns of the table.
COUNTED, COLUMNS = {it: it for it in STATUS}, ("test case", "log", "outcome", "calls", "states")
# The line of a script above a step for a dynamic error. Titan ends only the component by it, and gives the test case the verdict error.
ERROR = "  # a dynamic error of this component, which no script has: Titan's verdict is error"
NO_MODEL = re.compile(r"ttrun: line (\d+): (no model of \w+: .*)")


@dataclass
class Audit(Finding):
    """What the audit of a test case came to. The history of its order has no verdict as its key."""

    answer: Answer = field(default_factory=lambda: Answer(NONE))
    overall: Optional[str] = None

    @property
    def head(self) -> str:
        return f"{self.case.title}: {self.outcome}"

    def row(self) -> Tuple[str, ...]:
        return self.case.title, self.case.verdict or "no end", self.outcome, str(self.case.total), str(self.answer.states)

    def details(self, *_: str) -> List[str]:
        return self.remarks


def outcome_of(case: TestCase, answer: Answer, overall: Optional[str]) -> str:
    """What comes first about a test case: a fault of the logs explains what the search cannot."""
    if case.faults:
        return HIDDEN if case.hidden else DISAGREE
    if answer.outcome == UNDECIDED:
        return OPEN
    if answer.outcome != FOUND:
        return NO_ORDER
    if case.verdict is not None and overall != case.verdict:
        return PART if case.missing else OTHER_VERDICT
    return PART if case.missing else LEGAL


def remarks_on(case: TestCase, answer: Answer, overall: Optional[str]) -> Iterator[str]:
    is_hidden = bool(case.faults and case.hidden)
    faults = case.hidden if is_hidden else case.faults
    yield from faults[:MOST_REMARKS]
    if len(faults) > MOST_REMARKS:
        yield f"{len(faults) - MOST_REMARKS} more faults of the logs"
    yield from case.missing[:MOST_REMARKS]
    if len(case.missing) > MOST_REMARKS:
        yield f"{len(case.missing) - MOST_REMARKS} more are missing"
    if answer.outcome == FOUND and not is_hidden and overall != case.verdict and case.verdict is not None:
        yield f"the log says {case.verdict}, and this order gives {overall}"
    ends = played(case, answer.entries).overall()
    if answer.outcome == FOUND and case.errors and ends != overall:
        yield (f"{case.errors} dynamic error{'s' * (case.errors > 1)} of a component, which ends only that component in Titan, is written"
               f" as its kill: the history ends with {ends}, Titan with {case.verdict}")


def why_not(answer: Answer) -> Iterator[str]:
    """How far an order goes, and which calls could not be next there."""
    yield f"no order was found beyond {len(answer.steps)} of the calls; there could not be next"
    for call, reason in answer.stuck[:MOST_NEXT]:
        yield f"  {call.text()}: {reason} ({call.line})"


def audited(case: TestCase, states: int) -> Audit:
    """The audit of one test case, whose order is not yet shown to `ttrun check`."""
    answer = search(case, states)
    # The errors of parallel components count to the overall verdict.
    overall = None if answer.outcome != FOUND else "error" if case.errors else played(case, answer.entries).overall()
    found = Audit(case, outcome_of(case, answer, overall), {}, [*remarks_on(case, answer, overall)], answer, overall)
    why = why_none(case)
    if answer.outcome != FOUND:
        found.remarks += why_not(answer)
    elif why:
        found.remarks.append(f"its order is not shown to ttrun check: {why}")
    else:
        found.blocks[""] = block_of(case, answer.entries)
    return found


def behaviour(number: int) -> str:
    return f"r{number}" if number else "main"


def errors_in(case: TestCase) -> List[str]:
    """The behaviours that ended with a dynamic error of their component."""
    return [behaviour(run.number) for run in case.runs if any(it.is_error for it in run.calls)]


def marked(lines: List[str], errors: List[str]) -> Iterator[str]:
    """The lines of a script, with one above the last step of each behaviour that ended with a dynamic error."""
    name = ""
    for line in lines:
        name = line.split()[1] if line.startswith("behaviour ") else name
        yield from [ERROR] * (name in errors and line == "  kill self")
        yield line


def script_of(case: TestCase, states: int, program: str) -> Tuple[str, str]:
    """What `ttrun model` writes of an order; or nothing, and why there is none: no order, no history of it, or a line that no script has."""
    answer, why = search(case, states), why_none(case)
    if why or answer.outcome != FOUND:
        return "", why or f"no order was found beyond {len(answer.steps)} of the calls"
    calls = [(entry, step.call) for step in answer.steps for entry in step.entries if not step.call.seen]
    names = [f"behaviour {it.number} {behaviour(it.number)}" for it in case.runs]
    head, *lines = block_of(case, [entry for entry, _ in calls]).splitlines()
    ran = call(program, ["model"], "".join(f"{it}\n" for it in [head.replace("history 2", "evidence 1", 1), *names, *lines]))
    none = NO_MODEL.fullmatch(ran.stderr.strip())
    if none is None:
        return "".join(f"{it}\n" for it in marked(ran.stdout.splitlines(), errors_in(case))), "" if ran.returncode == 0 else first_said(ran)
    at = int(none[1]) - 2 - len(names)
    return "", f"{none[2]}: {lines[at]}" + (f" ({calls[at][1].line})" if at < len(calls) else "")
