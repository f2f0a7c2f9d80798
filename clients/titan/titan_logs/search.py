"""Searches through orders of the calls of a test case: for one of all calls that the component table gives, and for every overall
verdict that they could have had in another order. Each process's own order is the law, the stamps are a guess at what to try first."""
from bisect import bisect_left
from collections import defaultdict
from dataclasses import dataclass, field
from typing import Dict, Iterable, Iterator, List, Set, Tuple

from .cases import Call, TestCase
from .playing import Entry, Step, Trail, entries_of, is_over
from .table import STATUSES, VERDICTS, Op

FOUND, NONE, UNDECIDED = "found", "none", "undecided"
# How many states the first search may look at, next to two for each call.
QUICK = 1000
# The calls that change nothing at all.
ASKING = ("getverdict", "wait", *STATUSES)
# Calls that change nothing that another run's call could see.
QUIET = ("setverdict", *ASKING)
# The place of a call that there is not.
NEVER = 1 << 62


@dataclass
class Answer:
    """What a search came to: an order, or how far one goes, and which calls could not be next there and why."""

    outcome: str
    steps: List[Step] = field(default_factory=list)
    states: int = 0
    stuck: List[Tuple[Call, str]] = field(default_factory=list)

    @property
    def entries(self) -> List[Entry]:
        return entries_of(self.steps)


Choice = Tuple[Call, List[Entry]]


def target_of(call: Call) -> object:
    op: Op = call.faulty if call.faulty is not None else call.op
    return op.target if op.verb in ("start", "stop", "kill", "wait", *STATUSES) and call.channel is None else None


def ends_case(call: Call) -> bool:
    if call.channel is not None or call.seen:
        return False
    if call.run == 0 and (call.op.verb == "finish" or (call.reply or "").startswith("error ")):
        return True
    return call.op.verb == "stopcase" or call.op.verb in ("stop", "kill") and call.op.target == 0


class Touching:
    """Of each run the last call that touches a component, any group, or asks what an end could change."""

    def __init__(self, calls: List[List[Call]]) -> None:
        self.of_component: Dict[int, Dict[int, int]] = defaultdict(dict)
        self.of_groups: Dict[int, int] = {}
        self.of_questions: Dict[int, int] = {}
        # Of each run the places of the calls that may halt a component, by its number, or all of them; and those of waits.
        self.halts: List[Dict[object, List[int]]] = []
        self.waits: List[Dict[object, List[int]]] = []
        for run, its in enumerate(calls):
            self.halts.append(defaultdict(list))
            self.waits.append(defaultdict(list))
            for at, call in enumerate(its):
                self.note(run, at, call)
        self.halting = [run for run, it in enumerate(self.halts) if it]

    def note(self, run: int, at: int, call: Call) -> None:
        target = target_of(call)
        if isinstance(target, int):
            self.of_component[target][run] = at
        elif target is not None:
            self.of_groups[run] = at
        if call.op.verb in STATUSES and call.channel is None or call.is_error or (call.reply or "").startswith("error "):
            self.of_questions[run] = at
        if ends_case(call):
            self.halts[run]["all"].append(at)
        elif call.op.verb in ("stop", "kill") and call.channel is None:
            self.halts[run][call.op.target].append(at)
        elif call.op.verb == "wait":
            self.waits[run][call.op.target].append(at)

    @staticmethod
    def is_left(last: Dict[int, int], trail: Trail, but: int) -> bool:
        """Whether another run has such a call left."""
        return any(run != but and trail.places[run] <= at for run, at in last.items())

    def others_touch(self, trail: Trail, run: int, component: int) -> bool:
        """Whether another run has a call left that touches the component."""
        return self.is_left(self.of_groups, trail, run) or self.is_left(self.of_component.get(component, {}), trail, run)

    def is_quiet(self, trail: Trail, call: Call) -> bool:
        """Whether a create, start or end of a behaviour can hurt nobody."""
        verb = call.op.verb
        if verb == "create":
            return call.run == 0 or not self.is_left(self.of_groups, trail, call.run)
        if verb == "finish" and call.run != 0:
            return not self.is_left(self.of_questions, trail, call.run)
        if verb == "start" and call.reply == "ok":
            return not self.others_touch(trail, call.run, int(call.op.target))
        return False

    def is_harmless_halt(self, trail: Trail, call: Call) -> bool:
        """Whether a stop or kill of one component stops nobody who has a call left, and nobody else is about it."""
        target = call.op.target
        if call.op.verb not in ("stop", "kill") or not isinstance(target, int) or not 0 < target < len(trail.table.components):
            return False
        component = trail.table.components[target]
        run = component.run if component.phase == "running" else None
        if run is not None and run != call.run and any(it.reply != "ended" for it in trail.calls[run][trail.places[run]:]):
            return False
        return not self.others_touch(trail, call.run, target)

    def may_halt(self, trail: Trail, other: int, component: int) -> bool:
        """Whether the run has a call left that halts the component, or ends the test case, with no wait for its end before it."""
        begin = trail.places[other]
        first = min(next_at(self.halts[other].get(it, []), begin) for it in (component, "all", 0))
        if first == NEVER:
            return False
        return min(next_at(self.waits[other].get(it, []), begin) for it in (component, "all")) > first


def next_at(places: List[int], begin: int) -> int:
    at = bisect_left(places, begin)
    return places[at] if at < len(places) else NEVER


@dataclass
class Frame:
    """A place in the search: how many calls were taken before it, what may be taken there, and how many were tried."""

    depth: int
    choices: Iterator[Choice]
    tried: int = 0


class Search:
    """A search depth first. States from which no order continues are kept, and never entered again."""

    def __init__(self, case: TestCase, states: int, is_timed: bool) -> None:
        calls = [[it for it in run.calls if it.channel is None] for run in case.runs]
        self.trail = Trail(case, calls)
        self.touching = Touching(calls)
        self.total, self.most, self.is_timed = sum(map(len, calls)), states, is_timed
        self.states = 0
        self.best: List[Step] = []
        self.dead: Set[Tuple[object, ...]] = set()

    def is_safe(self, call: Call) -> bool:
        """Whether the call, which can be next, can be taken now without a loss of any order."""
        if call.reply is None or call.is_error:
            return False
        if call.op.verb in QUIET or call.reply == "ended":
            return True
        return self.touching.is_quiet(self.trail, call) or self.touching.is_harmless_halt(self.trail, call)

    def heads(self) -> Iterable[Call]:
        """The next calls, by the guess at their times; with stamps as a law, those that no other must be before."""
        if not self.is_timed:
            return self.trail.next_calls()
        found = list(self.trail.next_calls())
        ends = sorted(it.end for it in found)[:2]
        return [it for it in found if it.begin <= (ends[-1] if it.end == ends[0] else ends[0])]

    def choices(self) -> Iterator[Choice]:
        """The calls that may be taken here, one where it can hurt nobody."""
        open_ones: List[Choice] = []
        void: List[Call] = []
        for call in self.heads():
            # A call without an answer may have had no effect at all.
            void += [call] * (call.reply is None and call.channel is None)
            entries = self.trail.attempt(call)
            if isinstance(entries, str):
                continue
            if self.is_safe(call):
                yield call, entries
                return
            open_ones.append((call, entries))
        yield from open_ones
        yield from ((it, []) for it in void)

    def run(self) -> Answer:
        """Searches, to an order, to the end, or to the limit. If only one call may be taken, the state after it says all."""
        frames: List[Frame] = [Frame(0, self.choices())]
        while frames:
            frame = frames[-1]
            choice = next(frame.choices, None)
            if choice is None:
                self.give_up(frame)
                frames.pop()
                continue
            self.trail.back_to(frame.depth)
            frame.tried += 1
            self.trail.take(*choice)
            if len(self.trail.steps) == self.total:
                return Answer(FOUND, self.trail.steps, self.states + 1)
            if self.dead and self.trail.state() in self.dead:
                continue
            self.states += 1
            if self.states > self.most:
                return self.failed(UNDECIDED)
            frames.append(Frame(frame.depth + 1, self.choices()))
        return self.failed(NONE) if self.total else Answer(FOUND)

    def give_up(self, frame: "Frame") -> None:
        """Notes that no order continues from here."""
        if frame.tried == 1:
            return
        self.trail.back_to(frame.depth)
        if frame.depth > len(self.best):
            self.best = list(self.trail.steps)
        self.dead.add(self.trail.state())

    def failed(self, outcome: str) -> Answer:
        """The answer without an order: the longest that was found, and what could not be next after it."""
        self.best = self.best or list(self.trail.steps)
        self.trail.back_to(0)
        for step in self.best:
            self.trail.take(step.call, step.entries)
        tried = [(it, self.trail.attempt(it)) for it in self.heads()]
        stuck = [(it, why if isinstance(why, str) else "legal, and no order continues after it") for it, why in tried]
        return Answer(outcome, self.trail.steps, self.states, stuck)


def search(case: TestCase, states: int) -> Answer:
    """An order of all calls, if there is one. Most logs have one near the order of their stamps, which is found at once. Then
    the stamps are taken for a law, since that leaves few orders. An order that does not keep them is as good, and looked for last."""
    answer = Search(case, min(states, QUICK + 2 * case.total), is_timed=False).run()
    if answer.outcome != UNDECIDED:
        return answer
    timed = Search(case, states, is_timed=True).run()
    return timed if timed.outcome == FOUND else Search(case, states, is_timed=False).run()


@dataclass
class Verdicts:
    """What was found: a whole schedule for each overall verdict, whether all orders were looked at, and how many states."""

    witnesses: Dict[str, List[Entry]] = field(default_factory=dict)
    is_complete: bool = True
    states: int = 0


def visible(case: TestCase) -> List[List[Call]]:
    """The calls of each run without what is only an observation: in another order that may be another one."""
    return [[it for it in run.calls if not it.seen] for run in case.runs]


class Orders:
    """A search through all orders, depth first. A state in which several calls may be next is entered once. The order of messages is
    kept, answers are as the log has them, and no call comes after the end of a behaviour."""

    def __init__(self, case: TestCase, states: int) -> None:
        calls = visible(case)
        self.case, self.most = case, states
        self.trail = Trail(case, calls)
        self.touching = Touching(calls)
        self.met: Set[Tuple[object, ...]] = set()
        self.found = Verdicts()

    def has_error(self) -> bool:
        return any(it.call.is_error for it in self.trail.steps)

    def overall(self) -> str:
        """The overall verdict of Titan, to which the error of a component counts."""
        return "error" if self.case.errors and self.has_error() else self.trail.table.overall()

    def is_safe(self, call: Call) -> bool:
        """Whether the call can be taken now without a loss of any verdict."""
        if call.channel is not None or call.op.verb in ASKING:
            return True
        if call.reply is None or call.is_error:
            return False
        if call.op.verb == "setverdict":
            component, touching = self.trail.table.component_of_run[call.run], self.touching
            if not any(touching.may_halt(self.trail, other, component) for other in touching.halting if other != call.run):
                return True
            return VERDICTS.index(call.op.verdict) <= VERDICTS.index(self.trail.table.overall())
        return self.touching.is_quiet(self.trail, call)

    def choices(self) -> List[Choice]:
        """The calls that may be next, one where it can be taken without a loss."""
        found: List[Choice] = []
        for call in self.trail.next_calls():
            entries = self.trail.attempt(call) if self.trail.table.is_going_on(call.run) else ""
            if isinstance(entries, str):
                continue
            if self.is_safe(call):
                return [(call, entries)]
            found.append((call, entries))
        return found

    def next_choices(self) -> Iterator[Choice]:
        """The same, none if the test case is over, or where this state was met before."""
        if is_over(self.trail.table):
            self.found.witnesses.setdefault(self.overall(), entries_of(self.trail.steps))
            return
        choices = self.choices()
        if len(choices) > 1:
            state = (*self.trail.state(), bool(self.case.errors) and self.has_error())
            if state in self.met:
                return
            self.met.add(state)
        yield from choices

    def run(self) -> Verdicts:
        """Looks at all orders, up to the limit."""
        frames = [(0, self.next_choices())]
        while frames:
            depth, choices = frames[-1]
            choice = next(choices, None)
            if choice is None:
                frames.pop()
                continue
            self.trail.back_to(depth)
            self.found.states += 1
            if self.found.states > self.most:
                self.found.is_complete = False
                break
            self.trail.take(*choice)
            frames.append((depth + 1, self.next_choices()))
        return self.found


def verdicts_of(case: TestCase, states: int) -> Verdicts:
    return Orders(case, states).run()
