"""The component table in Python, written from only docs/rules.md. The tests import it, and hold `ttrun` and the page to it."""
from dataclasses import dataclass
from typing import Dict, List, Optional, Tuple, Union

VERDICTS = ("none", "pass", "inconc", "fail", "error")
STATUSES = ("running", "alive", "done", "killed")
# The phases of a component of which each status holds.
PHASES = {"running": ("running",), "alive": ("inactive", "running", "stopped"), "done": ("stopped", "killed"), "killed": ("killed",)}
FAULTS = ("no-component", "not-main", "start-main", "already-running", "not-startable", "no-behaviour", "too-many", "stuck")
MOST_BEHAVIOURS = 256
MOST_COMPONENTS = 1000
MOST_ARGUMENTS = 4

# A component's number, or 'any' or 'all'.
Target = Union[int, str]


def worst(*verdicts: str) -> str:
    return max(verdicts, key=VERDICTS.index)


@dataclass(frozen=True)
class Op:
    """An operation. `target` is the component of a start, the group of a stop or kill, or what is asked or waited for.

    `name` is what a create calls the component, empty if it has no name: no reply depends on it."""

    verb: str
    target: Target = 0
    alive: bool = False
    run: int = 0
    args: Tuple[int, ...] = ()
    awaited: str = ""
    verdict: str = ""
    name: str = ""

    def text(self) -> str:
        words: List[str] = [self.verb]
        if self.verb == "create":
            words += ["alive"] * self.alive + ["named", self.name] * (self.name != "")
        elif self.verb == "start":
            words += [str(self.target), str(self.run), *map(str, self.args)]
        elif self.verb in ("wait", "wake"):
            words += [self.awaited, str(self.target)]
        elif self.verb == "setverdict":
            words += [self.verdict]
        elif self.verb not in ("stopcase", "getverdict", "finish"):
            words += [str(self.target)]
        return " ".join(words)

    def named(self) -> List[Target]:
        if self.verb in ("create", "stopcase", "setverdict", "getverdict", "finish"):
            return []
        return [self.target, *self.args]


@dataclass
class Component:
    """What is known of a component. A phase is 'inactive', 'running', 'stopped' or 'killed'."""

    alive_type: bool
    phase: str = "inactive"
    run: Optional[int] = None
    was_started: bool = False
    is_excused: bool = False
    verdict: str = "none"

    def has(self, status: str) -> bool:
        return self.phase in PHASES[status]

    def halt(self, is_excuse: bool) -> None:
        """What a halt does; if it is running, this is the first halt since its last start."""
        if self.phase == "running":
            self.is_excused = is_excuse
            self.phase = "stopped" if self.alive_type else "killed"


class Table:
    """The components of one test case, and the runs on them."""

    def __init__(self, behaviours: int) -> None:
        main = Component(alive_type=False, phase="running", run=0, was_started=True)
        self.behaviours = behaviours
        self.components = [main]
        self.component_of_run: Dict[int, int] = {0: 0}
        # What a run waits for, if its last entry is a wait or wake that was parked.
        self.awaited: Dict[int, Tuple[str, Target]] = {}

    def overall(self) -> str:
        return worst("none", *(it.verdict for it in self.components))

    def is_going_on(self, run: int) -> bool:
        """Whether this is the running run of its component."""
        at = self.component_of_run.get(run)
        return at is not None and self.components[at].phase == "running" and self.components[at].run == run

    def holds(self, status: str, target: Target) -> bool:
        """The status of one component, or of a group of the parallel ones."""
        if isinstance(target, int):
            return self.components[target].has(status)
        parallel = self.components[1:]
        if target == "any":
            return any(it.has(status) for it in parallel)
        if status == "running":
            return all(it.has("running") or it.is_excused for it in parallel if it.was_started)
        if status == "done":
            return not any(it.has("running") for it in parallel)
        return all(it.has(status) for it in parallel)

    def is_stuck(self) -> bool:
        """Whether each run that continues waits, and waits in vain."""
        going_on = [run for run in self.component_of_run if self.is_going_on(run)]
        if any(run not in self.awaited for run in going_on):
            return False
        return not any(self.holds(*self.awaited[run]) for run in going_on)

    def fault(self, caller: int, op: Op) -> Optional[str]:
        """The first dynamic error of the call that does not need what it waits for."""
        for it in op.named():
            if isinstance(it, int) and it >= len(self.components):
                return "no-component"
        if any(isinstance(it, str) for it in op.named()) and caller != 0:
            return "not-main"
        if op.verb == "start":
            if op.target == 0:
                return "start-main"
            phase = self.components[op.target].phase
            if phase == "running":
                return "already-running"
            if phase == "killed":
                return "not-startable"
            if op.run == 0 or op.run >= self.behaviours or op.run in self.component_of_run:
                return "no-behaviour"
        if op.verb == "create" and len(self.components) >= MOST_COMPONENTS:
            return "too-many"
        return None

    def would(self, caller: int, op: Op) -> str:
        if not self.is_going_on(caller):
            return "ended"
        fault = self.fault(caller, op)
        if fault is not None:
            return "error " + fault
        if op.verb == "create":
            return f"made {len(self.components)}"
        if op.verb in STATUSES:
            return "true" if self.holds(op.verb, op.target) else "false"
        if op.verb == "getverdict":
            return self.components[self.component_of_run[caller]].verdict
        if op.verb in ("wait", "wake"):
            if self.holds(op.awaited, op.target):
                return "matched"
            is_in_vain = op.verb == "wake" and caller == 0 and self.is_stuck()
            return "error stuck" if is_in_vain else "parked"
        return "ok"

    def play(self, caller: int, op: Op) -> str:
        reply = self.would(caller, op)
        if reply == "ended":
            return reply
        self.awaited.pop(caller, None)
        if reply == "parked":
            self.awaited[caller] = (op.awaited, op.target)
        elif reply.startswith("error "):
            self.components[self.component_of_run[caller]].verdict = "error"
            self.end_case()
        else:
            self.change(caller, op)
        return reply

    def change(self, caller: int, op: Op) -> None:
        on = self.component_of_run[caller]
        if op.verb == "create":
            self.components.append(Component(op.alive))
        elif op.verb == "start":
            component = self.components[op.target]
            component.phase, component.run = "running", op.run
            component.was_started, component.is_excused = True, False
            self.component_of_run[op.run] = op.target
        elif op.verb == "setverdict":
            self.components[on].verdict = worst(self.components[on].verdict, op.verdict)
        elif op.verb == "finish":
            self.components[on].halt(is_excuse=False)
        elif op.verb == "stopcase":
            self.components[on].verdict = "error"
            self.end_case()
        elif op.verb in ("stop", "kill"):
            self.halt_group(on, op)
        if self.components[0].phase != "running":
            self.end_case()

    def halt_group(self, on: int, op: Op) -> None:
        """What a stop or kill by a run on that component does."""
        group = [op.target] if isinstance(op.target, int) else range(1, len(self.components))
        for at in group:
            component = self.components[at]
            component.halt(is_excuse=at != on)
            if op.verb == "kill":
                component.phase = "killed"

    def end_case(self) -> None:
        for component in self.components:
            component.phase = "killed"
