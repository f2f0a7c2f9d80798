"""Logs as Titan writes them, made of random legal courses: what happened is known, with every order that could have been."""
import os
import random
import re
from dataclasses import dataclass, field
from typing import Dict, List, Sequence, Tuple

from harness import write
from table import Op, Table, worst

FIRST_REFERENCE = 3
REMAINS = "remains alive and is waiting for next start"
SETTINGS = "TimeStampFormat:=Time; LogEntityName:=No; LogEventTypes:=No; SourceInfoFormat:=None; *.FileMask:=LOG_ALL | MATCHING"
BEGUN = "TTCN-3 Parallel Test Component started on host. Component reference: "
# Of each draw of what a run does next.
DRAWS = ("create", "start", "start", "stop", "kill", "stop all", "wait", "wait", "wait", "set", "set", "set", "get", "finish", "status")


@dataclass
class Made:
    """A campaign of one test case: the lines of each process by its reference, 0 of the main one, and what the table gave."""

    logs: Dict[int, List[str]] = field(default_factory=dict)
    verdict: str = ""
    entries: List[Tuple[int, Op, str]] = field(default_factory=list)
    runs: int = 1


class Course:
    def __init__(self, rng: random.Random, most: int, components: int) -> None:
        self.rng, self.most, self.components = rng, most, components
        self.table, self.made = Table(256), Made(logs={0: []})
        self.time = 1_000_000 * 3600
        self.is_alive: List[bool] = [False]
        self.always_alive = False
        self.component_of: Dict[int, int] = {0: 0}

    def say(self, component: int, text: str) -> None:
        self.time += self.rng.randrange(1, 40)
        seconds, micros = divmod(self.time, 1_000_000)
        stamp = f"{seconds // 3600 % 24:02}:{seconds // 60 % 60:02}:{seconds % 60:02}.{micros:06}"
        role = 0 if component == 0 else component + FIRST_REFERENCE - 1
        self.made.logs.setdefault(role, []).append(f"{stamp} {text}")

    @staticmethod
    def called(component: int) -> str:
        return f"component reference {component + FIRST_REFERENCE - 1}"

    def play(self, run: int, op: Op) -> str:
        reply = self.table.play(run, op)
        self.made.entries.append((run, op, reply))
        return reply

    def going(self) -> List[int]:
        return [run for run in self.component_of if self.table.is_going_on(run)]

    def step(self, run: int) -> None:
        """What a run does next, if the draw can be done without an error."""
        kind = self.rng.choice(DRAWS)
        getattr(self, f"do_{kind.replace(' ', '_')}")(run, self.component_of[run])

    def do_create(self, run: int, at: int) -> None:
        if len(self.is_alive) > self.components:
            return
        is_alive = self.always_alive or self.rng.random() < 0.5
        self.say(at, f"Creating new {'alive ' * is_alive}PTC with component type M.C.")
        number = len(self.is_alive)
        self.play(run, Op("create", alive=is_alive))
        self.is_alive.append(is_alive)
        self.say(number, f"{BEGUN}{number + 2}, component type: M.C. Version: 8.2.0.")
        self.say(at, f"PTC was created. Component reference: {number + 2}, alive: {'yes' if is_alive else 'no'}, type: M.C.")

    def do_start(self, run: int, at: int) -> None:
        number = len(self.component_of)
        fit = [it for it in range(1, len(self.is_alive)) if self.table.fault(run, Op("start", target=it, run=number)) is None]
        if fit and number <= 12:
            self.start(run, at, self.rng.choice(fit))

    def start(self, run: int, at: int, target: int) -> int:
        number = len(self.component_of)
        self.say(at, f"Starting function f{number}() on component {target + 2}.")
        self.play(run, Op("start", target=target, run=number))
        self.component_of[number], self.made.runs = target, number + 1
        self.say(at, "Function was started.")
        self.say(target, f"Starting function f{number}().")
        return number

    def start_to_pass(self, target: int) -> int:
        number = self.start(0, 0, target)
        self.set(number, target, "pass")
        return number

    def halt(self, run: int, at: int, verb: str, target: object) -> None:
        """A stop or kill: what the caller logs, and what those log that it halts."""
        before = [(it, self.component_of[it]) for it in self.going()]
        was_idle = [it for it in range(1, len(self.is_alive)) if self.table.components[it].phase in ("inactive", "stopped")]
        self.play(run, Op(verb, target=target))  # type: ignore[arg-type]
        for other, component in before:
            if not self.table.is_going_on(other) and other != run:
                self.cut(other, component, verb)
        if verb == "kill":
            for component in was_idle:
                if self.table.components[component].phase == "killed":
                    self.say(component, "Kill was requested from MC. Terminating idle PTC.")

    def cut(self, run: int, component: int, verb: str) -> None:
        """The lines of a behaviour that is halted by another."""
        self.say(component, f"{'Stop' if verb == 'stop' else 'Kill'} was requested from MC.")
        self.say(component, f"{'Stopping' if verb == 'stop' else 'Terminating'} test component execution.")
        remains = verb == "stop" and self.is_alive[component]
        self.say(component, f"Function f{run} was stopped. PTC {REMAINS if remains else 'terminates'}.")

    def do_stop(self, run: int, at: int, verb: str = "stop") -> None:
        # Titan kills an ordinary component that was never started; the table has no such stop.
        fit = [it for it in range(1, len(self.is_alive)) if it != at and (verb == "kill" or self.table.components[it].phase != "inactive")]
        if not fit:
            return
        target = self.rng.choice(fit)
        self.say(at, f"{'Stopping' if verb == 'stop' else 'Killing'} PTC with {self.called(target)}.")
        self.halt(run, at, verb, target)
        self.say(at, f"PTC with {self.called(target)} {'was stopped' if verb == 'stop' else 'is killed'}.")

    def do_kill(self, run: int, at: int) -> None:
        self.do_stop(run, at, "kill")

    def do_stop_all(self, run: int, at: int) -> None:
        if at != 0 or self.rng.random() < 0.7:
            return
        self.say(0, "Stopping all components.")
        self.halt(run, at, "stop", "all")
        self.say(0, "All components were stopped.")

    def do_wait(self, run: int, at: int) -> None:
        awaited = self.rng.choice(("done", "done", "killed"))
        if at == 0 and self.rng.random() < 0.2:
            group = self.rng.choice(("any", "all"))
            if self.play(run, Op("wait", target=group, awaited=awaited)) == "matched":
                self.say(at, f"Operation '{group} component.{awaited}' was successful.")
            else:
                self.made.entries.pop()
            return
        fit = [it for it in range(1, len(self.is_alive)) if it != at and self.table.holds(awaited, it)]
        if fit:
            target = self.rng.choice(fit)
            self.play(run, Op("wait", target=target, awaited=awaited))
            self.say(at, f"PTC with {self.called(target)} is {awaited}.")

    def do_status(self, run: int, at: int) -> None:
        fit = list(range(1, len(self.is_alive)))
        if fit:
            verb, target = self.rng.choice(("running", "alive")), self.rng.choice(fit)
            reply = self.play(run, Op(verb, target=target))
            self.say(at, f"AUDIT {verb} {target + 2} -> {reply}")

    def do_set(self, run: int, at: int) -> None:
        self.set(run, at, self.rng.choice(("pass", "pass", "pass", "inconc", "fail", "none")))

    def set(self, run: int, at: int, verdict: str) -> None:
        """Sets a verdict, unless the old one is worse."""
        old = self.table.components[at].verdict
        if worst(verdict, old) == verdict:
            self.play(run, Op("setverdict", verdict=verdict))
            self.say(at, f"setverdict({verdict}): {old} -> {verdict}")

    def do_get(self, run: int, at: int) -> None:
        self.say(at, f"getverdict: {self.play(run, Op('getverdict'))}")

    def do_finish(self, run: int, at: int) -> None:
        if at != 0 and self.rng.random() < 0.5:
            self.finish(run, at)

    def finish(self, run: int, at: int) -> None:
        self.play(run, Op("finish"))
        self.say(at, f"Function f{run} finished. PTC {REMAINS if self.is_alive[at] else 'terminates'}.")

    def end(self) -> None:
        main, *others = [it.verdict for it in self.table.components]
        before = [(it, self.component_of[it]) for it in self.going() if it != 0]
        idle = [it for it in range(1, len(self.is_alive)) if self.table.components[it].phase in ("inactive", "stopped")]
        self.say(0, "Terminating component type M.C.")
        self.play(0, Op("finish"))
        for run, component in before:
            self.cut(run, component, "kill")
        for component in idle:
            self.say(component, "Kill was requested from MC. Terminating idle PTC.")
        for component, verdict in enumerate(others, 1):
            self.say(component, f"Final verdict of PTC: {verdict}")
        self.say(0, "Setting final verdict of the test case.")
        self.verdicts(main, others)

    def verdicts(self, main: str, others: Sequence[str]) -> None:
        """The last lines of the main component: the local verdicts, and that of the test case."""
        self.say(0, f"Local verdict of MTC: {main}")
        overall = main
        for component, verdict in enumerate(others, 1):
            before, overall = overall, worst(overall, verdict)
            self.say(0, f"Local verdict of PTC with {self.called(component)}: {verdict} ({before} -> {overall})")
        self.say(0, f"Test case t finished. Verdict: {overall}")
        self.made.verdict = overall


def begun(components: int, seed: int = 1, most: int = 0, options: str = "") -> Course:
    """The beginning of a test case, with a line of the settings if they are given."""
    it = Course(random.Random(seed), most, components)
    it.say(0, "TTCN-3 Main Test Component started on host. Version: 8.2.0.")
    if options:
        it.say(0, f"TTCN Logger v2.2 options: {options}")
    it.say(0, "Test case t started.")
    return it


def course(seed: int, most: int = 30, components: int = 4) -> Made:
    it = begun(components, seed, most, SETTINGS)
    for _ in range(most):
        it.step(it.rng.choice(it.going()))
    it.end()
    return it.made


def put(made: Made, folder: str, prefix: str = "M.host") -> str:
    for role, lines in made.logs.items():
        write(os.path.join(folder, f"{prefix}-{role or 'mtc'}.log"), "".join(f"{it}\n" for it in lines))
    return folder


def shifted(line: str, by: int) -> str:
    """A line whose stamp is that many microseconds later."""
    hours, minutes, seconds = line[:15].split(":")
    stamp = (int(hours) * 60 + int(minutes)) * 60_000_000 + round(float(seconds) * 1_000_000) + by
    return f"{stamp // 3_600_000_000:02}:{stamp // 60_000_000 % 60:02}:{stamp // 1_000_000 % 60:02}.{stamp % 1_000_000:06}{line[15:]}"


def crowd(components: int, rounds: int) -> Made:
    it = begun(components)
    it.always_alive = True
    it.table.behaviours = components * rounds + 2
    for _ in range(components):
        it.do_create(0, 0)
    for _ in range(rounds):
        runs = [(it.start_to_pass(target), target) for target in range(1, components + 1)]
        for run, target in runs:
            it.do_get(run, target)
            it.finish(run, target)
            it.play(0, Op("wait", target=target, awaited="done"))
            it.say(0, f"PTC with {it.called(target)} is done.")
    it.end()
    return it.made


def told(story: str) -> Made:
    """The logs of a test case t from lines as `mtc: TEXT` and `3: TEXT`, in the order of their stamps. Each of these is several lines:
    `mtc: create 3` and `mtc: create alive 3`, `mtc: start f() on 3`, and `mtc: end none, fail` with the local verdicts."""
    it = begun(0)
    for line in story.strip().splitlines():
        who, _, text = line.strip().partition(": ")
        at = 0 if who == "mtc" else int(who) - FIRST_REFERENCE + 1
        created, started = re.fullmatch(r"create (alive )?(\d+)", text), re.fullmatch(r"start (.*) on (\d+)", text)
        if created:
            reference, alive = created[2], created[1] or ""
            it.say(at, f"Creating new {alive}PTC with component type M.C.")
            it.say(int(reference) - FIRST_REFERENCE + 1, f"{BEGUN}{reference}, component type: M.C.")
            it.say(at, f"PTC was created. Component reference: {reference}, alive: {'yes' if alive else 'no'}, type: M.C.")
        elif started:
            it.say(at, f"Starting function {started[1]} on component {started[2]}.")
            it.say(at, "Function was started.")
            it.say(int(started[2]) - FIRST_REFERENCE + 1, f"Starting function {started[1]}.")
        elif text.startswith("end "):
            main, *others = text[4:].split(", ")
            it.verdicts(main, others)
        else:
            it.say(at, text)
    return it.made
