"""The test cases of a session, and the model of what a log shows of each: runs, and their calls."""
from bisect import bisect_right
from dataclasses import dataclass, field
from typing import Dict, Iterator, List, Optional, Tuple

from .lines import Line
from .sessions import CALLS, MAIN, Process, Session
from .table import Op

FOREVER = 1 << 62
# The way of a message: sender, receiver, what it is.
Channel = Tuple[int, int, str]


@dataclass
class Call:
    """A call of a run. Without a reply the log has no answer to it. `begin` and `end` are the stamps between which it was made.

    `seen` is an observation that is no call of its own, as the old verdict in the line of a setverdict. `faulty` is the call
    with which a parallel component met a dynamic error, and `fault` the table's name of it, empty if the table has none.
    The call itself is then the kill by which the error ends its component. `channel` and `place` are those of a message."""

    run: int
    op: Op
    reply: Optional[str]
    line: Line
    begin: int
    end: int
    guess: int
    seen: bool = False
    faulty: Optional[Op] = None
    fault: str = ""
    channel: Optional[Channel] = None
    place: int = 0
    is_sent: bool = False

    @property
    def is_error(self) -> bool:
        return self.faulty is not None

    def text(self) -> str:
        if self.channel is not None:
            return f"{self.run} {'sends to' if self.is_sent else 'receives from'} another"
        return f"{self.run} {self.op.text()} -> {self.reply or '?'}"


@dataclass
class Run:
    """A behaviour of a test case: its component, its function, its calls, and how its log ends."""

    number: int
    component: int
    function: str
    calls: List[Call] = field(default_factory=list)
    is_cut: bool = False


@dataclass
class TestCase:
    """One execution of a test case, as its logs have it."""

    name: str
    begin: int
    end: int = FOREVER
    verdict: Optional[str] = None
    main: List[Line] = field(default_factory=list)
    logs: Dict[int, List[Line]] = field(default_factory=dict)
    # The number of each component by its reference, and its name, in the order of their creation.
    numbers: Dict[int, int] = field(default_factory=dict)
    runs: List[Run] = field(default_factory=list)
    # What is wrong with the logs, which of it is due to their settings, what is missing, and what is worth a remark.
    faults: List[str] = field(default_factory=list)
    hidden: List[str] = field(default_factory=list)
    missing: List[str] = field(default_factory=list)
    remarks: List[str] = field(default_factory=list)
    # How many dynamic errors of parallel components there are, and whether one of these components was shot.
    errors: int = 0
    is_shot: bool = False
    # Whether it was stopped by no call that a log has.
    is_stopped: bool = False
    # Which execution of the test case it is, among all that are read.
    execution: int = 1

    @property
    def title(self) -> str:
        return self.name if self.execution == 1 else f"{self.name}#{self.execution}"

    @property
    def total(self) -> int:
        return sum(len(it.calls) for it in self.runs)

    def lines_of(self, role: int) -> List[Line]:
        return self.main if role == MAIN else self.logs.get(role, [])


def cut(session: Session) -> Iterator[TestCase]:
    """The test cases of the main component's log, each with its lines."""
    case: Optional[TestCase] = None
    for line in session.main.lines:
        name, words = line.phrase
        if name == "case_started":
            if case is not None:
                case.end = line.stamp
                yield case
            case = TestCase(words[0] or "", line.stamp)
        elif name == "case_finished":
            if case is not None and words[0] == case.name:
                case.verdict, case.end = words[1], line.stamp
                yield case
                case = None
            else:
                session.remarks.append(f"{line}: the beginning of this test case is missing")
        elif case is not None:
            case.main.append(line)
    if case is not None:
        yield case


def claim(case: TestCase, components: Dict[int, Process], owned: Dict[int, TestCase]) -> None:
    """Gives a test case the components that it created, and that those created."""
    waiting = [case.main]
    while waiting:
        for line in waiting.pop():
            if line.phrase.name == "created":
                reference = int(line.phrase.words[0] or 0)
                if reference not in owned:
                    owned[reference] = case
                    if reference in components:
                        case.logs[reference] = components[reference].lines
                        waiting.append(case.logs[reference])


def cases_of(session: Session) -> List[TestCase]:
    """The test cases with the logs of their components; one that no log creates belongs to a test case only by its time."""
    cases, owned = list(cut(session)), {}
    for case in cases:
        claim(case, session.components, owned)
    begins, names = [it.begin for it in cases], {it.name for it in cases}
    for reference, process in session.components.items():
        at = bisect_right(begins, process.first) - 1
        if reference not in owned and at >= 0 and (process.case not in names or process.case == cases[at].name):
            cases[at].logs[reference] = process.lines
        elif reference not in owned:
            session.remarks.append(f"{process.file}: this component belongs to no test case that the log has")
    hidden = session.left_out(CALLS)
    for case in cases:
        case.hidden = [text for _, text in hidden]
        case.faults += [text for name, text in hidden if name == "PARALLEL"]
        if case.verdict is None:
            case.missing.append("the log has no end of this test case: its main component crashed, or the log is cut")
    return cases
