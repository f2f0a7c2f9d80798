"""Finds test cases whose verdict depended on luck: another order of the same calls gives another verdict."""
import re
from dataclasses import dataclass, field
from typing import Dict, Iterator, List, Sequence, Set, Tuple

from .cases import Call, Run, TestCase
from .histories import Finding, block_of, side_by_side, why_none
from .limits import MOST_REMARKS
from .playing import Entry, played
from .search import Verdicts, verdicts_of
from .table import VERDICTS

LUCK, STEADY, OPEN, UNEXPLAINED = "luck", "one verdict", "undecided", "not judged"
# What the last line counts.
COUNTED = {LUCK: "with luck", STEADY: "without", OPEN: OPEN, UNEXPLAINED: UNEXPLAINED}
STATUS = {LUCK: 1, STEADY: 0, OPEN: 3, UNEXPLAINED: 3}
COLUMNS = ("test case", "log", "also", "search", "cut off")


@dataclass
class Luck(Finding):
    """What was found of one test case: its histories, the log's verdict first, and the other verdicts."""

    found: Verdicts = field(default_factory=Verdicts)
    others: List[str] = field(default_factory=list)

    @property
    def head(self) -> str:
        """The first line of a test case."""
        said = f"{' or '.join(self.others)} in another order of the same calls" if self.outcome == LUCK else self.outcome
        return f"{self.case.title}: {self.case.verdict or 'no end'} in the log, {said}"

    def row(self) -> Tuple[str, ...]:
        cut = sum(it.is_cut for it in self.case.runs)
        return (self.case.title, self.case.verdict or "no end", " ".join(self.others) if self.outcome == LUCK else "-",
                f"{self.found.states} states" if self.outcome in (LUCK, STEADY) else self.outcome, str(cut or "-"))

    def details(self, *links: str) -> List[str]:
        """The lines below the first one, with where a page compares the histories, if one is wanted."""
        compared = [f"compare {self.case.verdict} and {it}: {link}" for it, link in zip(self.others, links[1:]) if self.outcome == LUCK]
        return [*parting(self), *compared, *self.remarks]


def about(case: TestCase, run: Run) -> str:
    """A run, for a reader who knows the test and its logs: its function, its component, and Titan's reference of it."""
    if run.component == 0:
        return f"run {run.number}, the main component's behaviour,"
    reference = next((it for it, number in case.numbers.items() if number == run.component), 0)
    return f"run {run.number}, {run.function[:60]} on component {run.component}, which Titan calls {reference},"


def cut_off(case: TestCase) -> Iterator[str]:
    """The behaviours that others halted, or the end of the test case: what they would have called is in no log."""
    cut = [it for it in case.runs if it.is_cut]
    for run in cut[:MOST_REMARKS]:
        calls = sum(not it.seen for it in run.calls)
        yield f"{about(case, run)} was cut off after {calls} call{'s' * (calls != 1)}: what it would have called is in no log"
    if len(cut) > MOST_REMARKS:
        yield f"{len(cut) - MOST_REMARKS} more behaviours were cut off"


def outcome_of(case: TestCase, found: Verdicts, others: Sequence[str]) -> str:
    """What is said about a test case: another verdict that was found counts, however the search ended, and whatever is missing."""
    is_judged = not (case.faults or case.is_shot or case.is_stopped or case.verdict is None or case.verdict not in found.witnesses)
    if is_judged and others:
        return LUCK
    if not found.is_complete:
        return OPEN
    return STEADY if is_judged and not case.missing else UNEXPLAINED


def remarks_on(case: TestCase, found: Verdicts, others: Sequence[str]) -> Iterator[str]:
    if case.faults:
        yield case.hidden[0] if case.hidden else f"the logs disagree, ttrun-titan audit says how: {case.faults[0]}"
    yield from case.missing[:MOST_REMARKS]
    if not case.faults and case.verdict is not None and case.verdict not in found.witnesses and found.is_complete:
        yield f"no order that was found gives {case.verdict}, as the log says: ttrun-titan audit says more"
    if not found.is_complete:
        yield f"the search met its limit after {found.states} states: other verdicts may exist"
    yield from case.remarks if others else ()
    if others and case.errors and "error" in found.witnesses:
        ends = played(case, found.witnesses["error"]).overall()
        yield f"the error of a component is written as its kill: the history of error ends with {ends}"
    yield from cut_off(case)


def looked_at(case: TestCase, states: int) -> Luck:
    """What the orders of one test case give, not yet shown to `ttrun check`."""
    found = verdicts_of(case, states)
    others = sorted(set(found.witnesses) - {case.verdict}, key=VERDICTS.index)
    one = Luck(case, outcome_of(case, found, others), {}, [*remarks_on(case, found, others)], found, others)
    why = why_none(case)
    if others and why:
        one.remarks.append(f"its orders are not shown to ttrun check: {why}")
    if not why:
        one.blocks = {it: block_of(case, found.witnesses[it]) for it in (case.verdict or "", *others) if it in found.witnesses}
    return one


def call_of(case: TestCase, entries: List[Entry], at: int) -> Call:
    """The call of an entry of a witness: each call but a message is one entry."""
    run = entries[at].run
    place = sum(it.run == run for it in entries[:at])
    return [it for it in case.runs[run].calls if not it.seen and it.channel is None][place]


def apart(case: TestCase, mine: List[Entry], other: List[Entry]) -> Iterator[str]:
    """How far apart in time the two calls are in the log with which the schedules part."""
    at = next((at for at, (one, two) in enumerate(zip(mine, other)) if one != two), None)
    if at is not None:
        one, two = call_of(case, mine, at), call_of(case, other, at)
        distance = abs(one.line.stamp - two.line.stamp) / 1000
        yield f"{one.run} {one.op.text()} and {two.run} {two.op.text()} are {distance:.3f} ms apart in the log, by their stamps"


def parting(one: Luck) -> Iterator[str]:
    """The schedule of the log's verdict next to that of each other one."""
    witnesses: Dict[str, List[Entry]] = one.found.witnesses
    mine = one.case.verdict
    if one.outcome != LUCK or mine is None:
        return
    shown: Set[int] = set()
    for other in one.others:
        alike, *rows = side_by_side(witnesses[mine], witnesses[other], (mine, other))
        yield f"{mine} and {other}: {alike}"
        yield from rows
        yield from apart(one.case, witnesses[mine], witnesses[other])
        shown |= {int(it) for row in rows[1:] for it in re.findall(r"(?:^|\| )(\d+) ", row)}
    for run in [it for it in sorted(shown - {0}) if not one.case.runs[it].is_cut][:MOST_REMARKS]:
        yield about(one.case, one.case.runs[run])[:-1]
