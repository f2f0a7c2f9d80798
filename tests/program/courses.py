"""The courses of a scripted test case in Python.

- All of them by a plain search with no reduction, with the overall and the local verdicts that they give, and how many calls each
  behaviour carries out.
- That of a test case that is run in turn.
- Whether a history is one.
"""
from __future__ import annotations

from dataclasses import replace
from typing import Dict, List, NamedTuple, Optional, Set, Tuple

from script_reader import TestCase, given_name
from table import Op, Table, Target
from texts import Block, Entry, Said


class Going:
    """A run whose pass has not ended: its component, what it knows by a name, and how many of its steps it has called."""

    def __init__(self, case: TestCase, run: int, me: int, args: Tuple[int, ...]) -> None:
        self.case, self.steps, self.me, self.called = case, case.behaviours[run].steps, me, 0
        self.known: Dict[str, Target] = {"mtc": 0, "self": me, "any": "any", "all": "all", **dict(zip(case.behaviours[run].parameters, args))}
        # The wake to come, if its last call was parked.
        self.wake: Optional[Op] = None

    def copy(self) -> Going:
        it = Going.__new__(Going)
        it.__dict__.update(vars(self), known=dict(self.known))
        return it

    def call(self) -> Op:
        if self.wake is not None or self.called == len(self.steps):
            return self.wake or Op("finish")
        verb, *rest = words = self.steps[self.called]
        if verb == "create":
            return Op("create", alive="alive" in rest[1:2], name=given_name(words))
        if verb == "start":
            run = next(at for at, it in enumerate(self.case.behaviours) if it.name == rest[1])
            return Op("start", self.known[rest[0]], run=run, args=tuple(self.known[it] for it in rest[2:]))
        if verb == "wait":
            return Op("wait", self.known[rest[1]], awaited=rest[0])
        if verb == "setverdict":
            return Op("setverdict", verdict=rest[0])
        return Op(verb, self.known[rest[0]]) if rest else Op(verb)


def ends_pass(op: Op, reply: str, me: int) -> bool:
    """Whether a run makes no further call after this one: it was ended or refused, or halted its own component or the case."""
    if reply == "ended" or reply.startswith("error "):
        return True
    halts = [me, 0] if me == 0 else [me, 0, "all"]
    return op.verb in ("finish", "stopcase") or op.verb in ("stop", "kill") and op.target in halts


class State:
    """A test case after some calls."""

    def __init__(self, case: TestCase) -> None:
        self.case, self.table = case, Table(len(case.behaviours))
        self.going = {0: Going(case, 0, 0, ())}

    def copy(self) -> State:
        it = State.__new__(State)
        it.case, it.table = self.case, Table.__new__(Table)
        it.table.behaviours = self.table.behaviours
        it.table.components = [replace(component) for component in self.table.components]
        it.table.component_of_run = dict(self.table.component_of_run)
        it.table.awaited = dict(self.table.awaited)
        it.going = {run: one.copy() for run, one in self.going.items()}
        return it

    def key(self) -> object:
        """All of it, so that two states are different unless nothing differs."""
        return (
            tuple(tuple(vars(it).values()) for it in self.table.components),
            tuple(sorted(self.table.component_of_run.items())),
            tuple(sorted((run, status, str(target)) for run, (status, target) in self.table.awaited.items())),
            tuple((run, it.me, tuple(it.known.items()), it.called, it.wake) for run, it in sorted(self.going.items())),
        )

    def next_of(self, run: int) -> Optional[Entry]:
        """The next call of a run, with its reply; none if it has ended, or its wake would be parked again, which is not recorded."""
        op = self.going[run].call() if run in self.going else None
        reply = self.table.would(run, op) if op else "parked"
        return None if reply == "parked" and (op is None or op.verb == "wake") else Entry(0, run, op, reply)

    def step(self, run: int) -> int:
        """A run makes its next call. The answer is how many it has carried out: all except one that is ended, or a wait to come."""
        one = self.going[run]
        op = one.call()
        reply = self.table.play(run, op)
        if reply.startswith("made "):
            one.known[one.steps[one.called][1]] = int(reply[5:])
        one.called += op.verb != "wake"
        one.wake = Op("wake", op.target, awaited=op.awaited) if reply == "parked" else None
        if op.verb == "start" and reply == "ok":
            self.going[op.run] = Going(self.case, op.run, op.target, op.args)
        if ends_pass(op, reply, one.me):
            del self.going[run]
        return one.called - (reply in ("ended", "parked"))


class Courses(NamedTuple):
    """What all courses of a test case give: overall verdicts, those of each component, and for each behaviour how many calls it
    carries out at most."""

    verdicts: Set[str]
    reached: List[int]
    locals: Dict[int, Set[str]]


def courses_of(case: TestCase, most: int) -> Optional[Courses]:
    """What all courses give; none if there are more states than that many."""
    opening, found = State(case), Courses(set(), [0] * len(case.behaviours), {})
    seen, left = {opening.key()}, [opening]
    while left:
        state = left.pop()
        runs = [run for run, it in state.going.items() if it.wake is None or state.next_of(run)]
        if not runs:
            if state.going:
                raise AssertionError(f"nobody goes on in {case.name}")
            found.verdicts.add(state.table.overall())
            for at, component in enumerate(state.table.components):
                found.locals.setdefault(at, set()).add(component.verdict)
        for run in runs:
            after = state.copy()
            found.reached[run] = max(found.reached[run], after.step(run))
            key = after.key()
            if key not in seen:
                if len(seen) >= most:
                    return None
                seen.add(key)
                left.append(after)
    return found


class NotInTurn(Exception):
    """More than one behaviour continues at a time: what comes first is not known."""


def block_in_turn(case: TestCase) -> Block:
    """The history of a test case in which one behaviour continues at a time: the others wait, begin to wait, or are ended."""
    state, entries = State(case), []  # type: Tuple[State, List[Entry]]
    while state.going:
        calls = [it for it in map(state.next_of, state.going) if it]
        first = [it for it in calls if it.op.verb == "wait" or it.reply == "ended"]
        if len(calls) - len(first) > 1:
            raise NotInTurn
        entries += (first or calls)[:1]
        state.step(entries[-1].caller)
    return with_names(case, Block("2", case.name, len(case.behaviours), entries, 0, state.table.overall()))


def with_names(case: TestCase, block: Block) -> Block:
    """The block of a test case, which says the names of its behaviours."""
    return replace(block, said=[(0, Said(run, "", it.name)) for run, it in enumerate(case.behaviours)])


def fault_of_course(case: TestCase, block: Block) -> str:
    """Why a block is no complete course of a test case with its verdict; nothing if it is one. It may have more behaviours than the
    test case, and leave out the last arguments of a start."""
    if block.name != case.name or block.behaviours < len(case.behaviours):
        return f"{block.name} {block.behaviours} is written for {case.name} {len(case.behaviours)}"
    state = State(case)
    for entry in block.entries:
        wanted = state.next_of(entry.caller)
        if wanted is None or (replace(wanted.op, args=wanted.op.args[:len(entry.op.args)]), wanted.reply) != (entry.op, entry.reply):
            return f"{case.name}, line {entry.line}: {entry.text()}, and {wanted and wanted.text()} is the next call"
        state.step(entry.caller)
    if state.going:
        return f"{case.name}: the runs {sorted(state.going)} have not ended"
    return "" if state.table.overall() == block.verdict else f"{case.name}: {block.verdict}, table gives {state.table.overall()}"
