"""From the lines of each process to calls, and what the logs of one test case say against one another."""
import re
from collections import Counter, defaultdict
from dataclasses import replace
from typing import Dict, List, Optional, Tuple

from .cases import FOREVER, Call, Channel, Run, TestCase
from .limits import MOST_BYTES_OF_A_NAME
from .lines import Line
from .playing import ends_its_run
from .sessions import MAIN
from .table import Op, Target, worst

# What a dynamic error of a start is called by the table, by words in its text.
FAULTS = (("already executing", "already-running"), ("own component reference", "already-running"), ("not alive anymore", "not-startable"),
          ("being killed", "not-startable"), ("being stopped", "not-startable"), ("null component reference", "no-component"),
          ("reference of MTC", "start-main"))
NOT_MAIN = re.compile(r"Operation '(any|all) component\.(running|alive|done|killed|stop|kill)' can only be performed on the MTC")
NAME = re.compile(rf"[A-Za-z][A-Za-z0-9_]{{0,{MOST_BYTES_OF_A_NAME - 1}}}")
NO_NAMES = ("all", "any", "mtc", "self")
LOST = "control connection"
HALTS = {"Stopping": "stop", "Stop": "stop", "stopped": "stop", "stop": "stop", "Killing": "kill", "Kill": "kill", "killed": "kill",
         "kill": "kill", "Terminating": "kill"}
# The local verdict of each component, and the line that says it.
Finals = Dict[int, Tuple[str, Line]]
MESSAGES = {"Sent": "message", "Called": "call", "Replied": "reply", "Raised": "exception"}


def reference_of(word: Optional[str]) -> Optional[int]:
    """The reference in a word as `3`, `pump(3)` or `mtc`."""
    found = re.search(r"(\d+|mtc)\)?$", word or "")
    if found is None:
        return None
    return MAIN if found[1] in ("mtc", "1") else int(found[1])


class Reader:
    """Reads the lines of one process, in their order."""

    def __init__(self, case: TestCase, role: int, runs: List[Run], starts: Dict[int, int], told: Finals) -> None:
        self.case, self.role, self.starts, self.told = case, role, starts, told
        self.lines = case.lines_of(role)
        self.waiting_runs = list(runs)
        self.run: Optional[Run] = case.runs[0] if role == MAIN else None
        self.open: Optional[Call] = None
        self.is_over = self.is_lost = False
        self.requested: Optional[Line] = None
        self.verdict_told: Optional[Tuple[str, Line]] = None
        # The functions that returned a value: Titan logs that after the end of the component, whenever it was.
        self.returned = Counter(it.phrase.words[0] for it in self.lines if it.phrase.name == "returned")
        self.sent: Counter = Counter()
        self.received: Counter = Counter()

    def number(self, reference: Optional[int]) -> int:
        if reference == MAIN:
            return 0
        return self.case.numbers.get(reference if reference is not None else -1, len(self.case.numbers) + 1)

    def disagree(self, text: str) -> None:
        self.case.faults.append(text)

    def add(self, call: Call) -> None:
        """Adds a call to the run that is active."""
        if self.run is None:
            self.disagree(f"a line outside of a behaviour: {call.line}")
        elif self.is_over and not call.seen:
            self.disagree(f"a call after the end of its behaviour: {call.line}")
        else:
            self.run.calls.append(call)

    def target(self, word: str) -> Target:
        return word.lower() if word.lower() in ("any", "all") else self.number(reference_of(word))

    def made(self, line: Line, op: Op, reply: Optional[str], **more: object) -> Call:
        """A call that is over with this line."""
        call = Call(self.run.number if self.run else 0, op, reply, line, min(line.before, line.stamp), line.stamp, line.stamp)
        return replace(call, **more)  # type: ignore[arg-type]

    def add_late(self, line: Line, op: Op, reply: Optional[str] = "ok", **more: object) -> None:
        """Adds a call that begins with this line, and may take effect up to the end of the test case."""
        self.add(self.made(line, op, reply, begin=line.stamp, end=self.case.end, **more))

    def begin(self, line: Line, op: Op) -> None:
        """A call whose answer is another line."""
        self.close(is_allowed=False)
        self.open = self.made(line, op, None, begin=line.stamp, end=FOREVER)

    def answered(self, line: Line, verb: str, reply: str) -> Optional[Call]:
        """The call that the line answers; if there is none the logs disagree."""
        call = self.open
        if call is None or call.op.verb != verb:
            self.disagree(f"an answer without its call: {line}")
            return None
        self.open = None
        call.reply, call.end, call.guess = reply, line.stamp, call.begin if verb == "start" else line.stamp
        self.add(call)
        return call

    def close(self, is_allowed: bool = True) -> None:
        """Ends the call that is open: the log has no answer to it."""
        call, self.open = self.open, None
        if call is None:
            return
        if not is_allowed:
            self.disagree(f"a call without an answer, and its process continues: {call.line}")
        call.end = self.case.end
        self.add(call)

    def read(self) -> None:
        for line in self.lines:
            handler = getattr(self, f"on_{line.phrase.name}", None)
            if handler is not None:
                handler(line, *line.phrase.words)
        self.close()
        for name in sorted(str(it) for it, count in self.returned.items() if count > 0):
            self.disagree(f"component {self.role}: {name} returned a value, and nothing in its log starts or ends it then")
        if self.run is not None and not self.is_over:
            self.run.is_cut = True
            if self.role != MAIN:
                self.just_ends()
            elif self.case.verdict is not None:
                self.disagree("the main component's behaviour has no end in its log")

    def just_ends(self) -> None:
        """The end of a log in the middle of a behaviour: the component was shot, or the log is cut."""
        if self.told.get(self.role, ("", None))[0] != "error" or not self.lines:
            self.case.missing.append(f"the log of component {self.role} just ends: it is cut")
            return
        if self.case.hidden:
            self.disagree(f"the log of component {self.role} just ends")
            return
        self.case.missing.append(f"component {self.role} was shot: its log just ends, and the main component got the verdict error of it")
        self.case.is_shot = True
        self.case.errors += 1
        self.add_late(self.lines[-1], Op("kill", self.number(self.role)), faulty=Op("stopcase"))

    def end_of_value(self, line: Line) -> None:
        """Before a line that only an idle component has: the behaviour has ended, if its function returned a value."""
        name = self.run.function.split("(")[0] if self.run else ""
        if self.role == MAIN or self.is_over or self.requested is not None or self.returned[name] < 1:
            return
        self.returned[name] -= 1
        self.close()
        before = min(line.before, line.stamp)
        self.add(self.made(line, Op("finish"), "ok", begin=before, guess=before))
        self.is_over = True

    def on_creating(self, line: Line, alive: Optional[str]) -> None:
        self.begin(line, Op("create", alive=alive is not None))

    def on_created(self, line: Line, reference: str, alive: str, name: Optional[str]) -> None:
        call = self.answered(line, "create", f"made {self.number(int(reference))}")
        if call is not None:
            if call.op.alive != (alive == "yes"):
                self.disagree(f"an answer of another kind of component than its call: {line}")
            is_name = name is not None and NAME.fullmatch(name) and name not in NO_NAMES
            call.op = Op("create", alive=alive == "yes", name=name if is_name and name else "")

    def on_starting_on(self, line: Line, function: str, word: str) -> None:
        self.begin(line, Op("start", target=self.number(reference_of(word)), run=self.starts.get(id(line), 0)))

    def on_was_started(self, line: Line) -> None:
        self.answered(line, "start", "ok")

    def on_starting(self, line: Line, function: str) -> None:
        if self.role == MAIN:
            return
        self.end_of_value(line)
        if self.run is not None and not self.is_over:
            self.disagree(f"a start while the behaviour before is running: {line}")
        self.close(is_allowed=self.is_over)
        self.run = self.waiting_runs.pop(0) if self.waiting_runs else self.run
        self.is_over, self.requested = False, None

    def on_halting(self, line: Line, verb: str, word: str) -> None:
        self.begin(line, Op(HALTS[verb], self.target(word)))

    def on_was_halted(self, line: Line, word: str, verb: str) -> None:
        # The answer names the target of its call again.
        if self.open is not None and self.open.op.target != self.target(word):
            self.disagree(f"an answer for another component than its call: {line}")
        self.answered(line, HALTS[verb], "ok")

    def on_halted_in_vain(self, line: Line, word: str, verb: str) -> None:
        # An answer if its call is open, otherwise call and answer in one.
        op = Op(HALTS[verb], self.target(word))
        if self.open is not None and self.open.op == op:
            self.answered(line, op.verb, "ok")
        else:
            self.close(is_allowed=False)
            self.add(self.made(line, op, "ok"))

    def on_has_ended(self, line: Line, word: str, status: str) -> None:
        number = self.number(reference_of(word))
        if status == "killed" and self.open is not None and self.open.op == Op("kill", number):
            self.answered(line, "kill", "ok")
            return
        self.close(is_allowed=False)
        self.add(self.made(line, Op("wait", target=number, awaited=status), "matched"))

    def on_group_has_ended(self, line: Line, group: str, status: str, how: str) -> None:
        self.close(is_allowed=False)
        if how == "failed":
            self.add(self.made(line, Op(status, group), "false"))
        else:
            self.add(self.made(line, Op("wait", target=group, awaited=status), "matched"))

    def on_shim_status(self, line: Line, verb: str, word: str, answer: str) -> None:
        self.add(self.made(line, Op(verb, self.target(word)), "true" if answer == "true" else "false"))

    def on_shim_set(self, line: Line, verdict: str) -> None:
        self.verdict_told = (verdict, line)
        self.add(self.made(line, Op("setverdict", verdict=verdict), "ok"))

    def on_set(self, line: Line, verdict: str, old: str, new: str) -> None:
        if worst(verdict, old) != new:
            self.disagree(f"not the worse of the two verdicts: {line}")
        if verdict == "error":
            self.see_before_error(line, old)
            return
        self.close(is_allowed=False)
        told, self.verdict_told = self.verdict_told, None
        if told is not None and told[0] == verdict and self.run is not None and self.run.calls and self.run.calls[-1].line is told[1]:
            self.run.calls.pop()
        getverdict = Op("getverdict")
        self.add(self.made(line, getverdict, old, seen=True))
        self.add(self.made(line, Op("setverdict", verdict=verdict), "ok"))
        self.add(self.made(line, getverdict, new, seen=True))

    def see_before_error(self, line: Line, old: str) -> None:
        """The verdict of a component before its dynamic error, which the line after the error has."""
        calls = self.run.calls if self.run else []
        last = calls[-1] if calls else None
        if last is not None and old != "error" and last.line.phrase.name == "error":
            calls.insert(len(calls) - 1, replace(last, op=Op("getverdict"), reply=old, line=line, seen=True, faulty=None, fault=""))

    def on_got(self, line: Line, verdict: str) -> None:
        self.close(is_allowed=False)
        self.add(self.made(line, Op("getverdict"), verdict))

    def lose(self, line: Line) -> None:
        """An error of the connection to the main controller, as when the main component has crashed: no call, and the end of all."""
        if not self.is_lost:
            who = "the main component" if self.role == MAIN else f"component {self.role}"
            self.case.missing.append(f"{who} lost the main controller: {line}")
            self.is_lost = True
        if self.run is not None and not self.is_over:
            self.close()
            self.mark_cut()
        self.is_over = True

    def on_error(self, line: Line, text: str) -> None:
        if LOST in text:
            self.lose(line)
            return
        if self.is_over and self.role == MAIN:
            self.case.missing.append(f"the main component crashed: {line}")
            return
        if self.is_over:
            self.disagree(f"an error after the end of the behaviour: {line}")
            return
        faulty, fault = Op("stopcase"), ""
        begin = min(line.before, line.stamp)
        not_main = NOT_MAIN.match(text)
        if self.open is not None and self.open.op.verb == "start":
            found = next((name for words, name in FAULTS if words in text), "")
            if found:
                faulty, fault, begin = self.open.op, found, self.open.begin
                if found == "no-component":
                    faulty = replace(faulty, target=len(self.case.numbers) + 1)
            self.open = None
        elif not_main:
            faulty, fault = Op(not_main[2], not_main[1]), "not-main"
        self.close()
        self.add(self.error(line, faulty, fault, begin))
        self.is_over = True

    def error(self, line: Line, faulty: Op, fault: str, begin: int) -> Call:
        """A dynamic error: of the main component it ends the test case, of another only that component."""
        if self.role == MAIN:
            call = self.made(line, faulty, f"error {fault}" if fault else "ok")
            return replace(call, begin=begin, end=self.case.end, guess=self.case.end - 1)
        self.case.errors += 1
        return self.made(line, Op("kill", self.number(self.role)), "ok", faulty=faulty, fault=fault, begin=begin, end=self.case.end)

    def on_requested(self, line: Line, verb: str, more: str) -> None:
        if "Ignored" in more or "idle" in more:
            self.end_of_value(line)
        elif not self.is_over:
            self.requested = line

    def on_halting_self(self, line: Line, verb: str) -> None:
        if self.is_over:
            return
        self.close()
        if self.requested is None:
            self.add_late(line, Op(HALTS[verb], self.number(self.role)), guess=self.case.end - 2 if self.role == MAIN else line.stamp)
        elif self.role != MAIN:
            self.add(self.made(line, Op("getverdict"), "ended", seen=True, begin=self.requested.stamp))
            self.mark_cut()
        else:
            self.mark_cut()
            if not any(it.phrase.name == "stopping_main" for lines in self.case.logs.values() for it in lines):
                self.was_stopped(line)
        self.is_over = True

    def was_stopped(self, line: Line) -> None:
        """The end of a test case that nobody in it stopped."""
        self.case.is_stopped = True
        self.case.missing.append(f"it was stopped from outside, as by an operator, which is written as its own stop: {self.requested}")
        self.add_late(line, Op("stop", 0), guess=self.case.end - 2)

    def mark_cut(self) -> None:
        """Notes that the behaviour was halted by another: what it would have called is in no log."""
        if self.run is not None:
            self.run.is_cut = True

    def on_stopping_main(self, line: Line) -> None:
        self.close()
        if self.role != MAIN:
            self.add_late(line, Op("stop", 0), None, guess=self.case.end - 2)
            self.is_over = True

    def on_finished(self, line: Line, how: str) -> None:
        self.close()
        if self.is_over:
            self.disagree(f"an end of a behaviour that was over: {line}")
            return
        self.add_late(line, Op("finish"))
        self.is_over, self.requested = True, None

    def on_stopped(self, line: Line, how: str) -> None:
        if not self.is_over:
            self.disagree(f"a behaviour was stopped, and nothing in its log stops it: {line}")
        self.requested, self.is_over = None, True

    def on_terminating(self, line: Line) -> None:
        self.end_of_value(line)
        if self.role == MAIN and not self.is_over:
            self.close()
            self.add_late(line, Op("finish"), guess=self.case.end - 1)
            self.is_over = True

    def on_sent(self, line: Line, what: str, word: str) -> None:
        self.message(line, reference_of(word), MESSAGES[what], is_sent=True)

    def on_received(self, line: Line, what: str, word: str) -> None:
        self.message(line, reference_of(word), what, is_sent=False)

    def message(self, line: Line, other: Optional[int], what: str, is_sent: bool) -> None:
        """A message to or from another component of the test case."""
        if other is None or self.run is None or self.is_over:
            return
        counter = self.sent if is_sent else self.received
        channel: Channel = (self.role, other, what) if is_sent else (other, self.role, what)
        counter[channel] += 1
        self.add(self.made(line, Op("getverdict"), None, channel=channel, place=counter[channel], is_sent=is_sent))


def number_components(case: TestCase) -> Dict[int, bool]:
    """Numbers the components by their references, and answers which are alive-type, by the lines of their creation."""
    alive: Dict[int, bool] = {}
    for role in [MAIN, *sorted(case.logs)]:
        for line in case.lines_of(role):
            if line.phrase.name == "created":
                alive[int(line.phrase.words[0] or 0)] = line.phrase.words[1] == "yes"
    every = sorted({*alive, *case.logs})
    case.numbers = {reference: at for at, reference in enumerate(every, 1)}
    for reference in sorted(set(case.logs) - set(alive)):
        case.faults.append(f"component {reference} has a log, and no log creates it")
    case.missing += [f"there is no log of component {it}" for it in sorted(set(alive) - set(case.logs))]
    return alive


def runs_of_logs(case: TestCase) -> Dict[int, List[Run]]:
    """A run for each behaviour that a component's own log begins."""
    case.runs = [Run(0, 0, f"testcase {case.name}")]
    found: Dict[int, List[Run]] = defaultdict(list)
    for reference in sorted(case.logs):
        for line in case.logs[reference]:
            if line.phrase.name == "starting":
                run = Run(len(case.runs), case.numbers[reference], line.phrase.words[0] or "")
                case.runs.append(run)
                found[reference].append(run)
    return found


def is_refused(lines: List[Line], at: int) -> bool:
    """Whether the start in this line was answered by a dynamic error."""
    answers = ("was_started", "error", "requested", "starting_on", "finished", "terminating")
    answer = next((it for it in lines[at + 1:] if it.phrase.name in answers), None)
    return answer is not None and answer.phrase.name == "error"


def starts_by_target(case: TestCase) -> Dict[int, List[Tuple[int, Line, bool]]]:
    """The starts in the logs of those who called them: stamp, line, whether it was refused; by their target."""
    found: Dict[int, List[Tuple[int, Line, bool]]] = defaultdict(list)
    for role in [MAIN, *sorted(case.logs)]:
        lines = case.lines_of(role)
        for at, line in enumerate(lines):
            if line.phrase.name == "starting_on":
                target = reference_of(line.phrase.words[1])
                found[target if target is not None else -1].append((line.stamp, line, is_refused(lines, at)))
    return found


def match_starts(case: TestCase, by_log: Dict[int, List[Run]]) -> Dict[int, int]:
    """The run of each start, by its line's identity: a behaviour in a component's log is that of the first start of its function."""
    found: Dict[int, int] = {}
    by_target = starts_by_target(case)
    for target in sorted({*by_target, *by_log}):
        starts = sorted(by_target.get(target, []), key=lambda it: it[0])
        carried_out = [line for _, line, is_error in starts if not is_error]
        for run in by_log.get(target, []):
            if not carried_out:
                case.faults.append(f"component {target} ran a function that no log starts: {run.function}")
                continue
            line = next((it for it in carried_out if it.phrase.words[0] == run.function), carried_out[0])
            if line.phrase.words[0] != run.function:
                case.faults.append(f"component {target} ran {run.function}, another function than its start has: {line}")
            carried_out.remove(line)
            found[id(line)] = run.number
        for _, line, _ in starts:
            if id(line) not in found:
                found[id(line)] = len(case.runs)
                case.runs.append(Run(len(case.runs), case.numbers.get(target, 0), line.phrase.words[0] or ""))
    return found


def check_kinds(case: TestCase, alive: Dict[int, bool]) -> None:
    """Compares what a component's log says of its end with the kind that its creation has."""
    for reference in sorted(case.logs):
        lines = case.logs[reference]
        for at, line in enumerate(lines):
            if line.phrase.name not in ("finished", "stopped") or reference not in alive:
                continue
            before = [it.phrase for it in lines[max(0, at - 3):at]]
            was_killed = any(it.name in ("stopping_main", "halting_self") or it.name == "requested" and it.words[0] == "Kill" for it in before)
            if not was_killed and (line.phrase.words[0] == "remains") != alive[reference]:
                case.faults.append(f"the end is not that of the component's kind: {line}")


def finals(case: TestCase) -> Tuple[Finals, Finals]:
    """The local verdict of each component by its own log, and those that the main component got."""
    own: Finals = {}
    told: Finals = {}
    overall: Optional[str] = None
    for role in [MAIN, *sorted(case.logs)]:
        lines = case.lines_of(role)
        if any(it.phrase.name == "error" and LOST in it.text for it in lines):
            continue
        for line in lines:
            name, words = line.phrase
            if name == "own_final" and role != MAIN or name == "main_final" and role == MAIN:
                if role in own:
                    case.faults.append(f"a second final verdict: {line}")
                own[role] = words[0] or "", line
                overall = words[0] if role == MAIN else overall
            elif name == "told_final":
                reference = reference_of(words[0])
                told[reference if reference is not None else -1] = words[1] or "", line
                if overall is not None and words[2] != overall or worst(words[1] or "", words[2] or "") != words[3]:
                    case.faults.append(f"it does not follow from the line before it: {line}")
                overall = words[3]
    if overall is not None and case.verdict is not None and overall != case.verdict:
        case.faults.append(f"the test case ended with {case.verdict}, and the local verdicts give {overall}")
    return own, told


def compare_finals(case: TestCase, own: Finals, told: Finals) -> None:
    """Compares what components say of their ends with what the main component got."""
    for reference in case.numbers:
        if reference in told and reference in own and told[reference][0] != own[reference][0]:
            case.faults.append(f"component {reference} ended with {own[reference][0]}, and the main component got {told[reference][0]}")
        elif reference in told and reference not in own and reference in case.logs and not case.is_shot:
            case.missing.append(f"the log of component {reference} has no final verdict")
        elif reference in own and reference not in told and case.verdict is not None:
            case.faults.append(f"the main component got no verdict of component {reference}")
    for reference in sorted(set(told) - set(case.numbers)):
        case.faults.append(f"a verdict of a component that no log creates: {told[reference][1]}")
    if case.verdict is not None and MAIN not in own:
        case.faults.append("the main component's log has no local verdict of its own")


def see_final(case: TestCase, reference: int, verdict: str, line: Line) -> None:
    """The local verdict at the end: an observation before the last halt of the component's last run."""
    number = 0 if reference == MAIN else case.numbers[reference]
    mine = [it for it in case.runs if it.component == number and (it.calls or it.is_cut)]
    if not mine:
        if verdict != "none":
            case.faults.append(f"component {reference} was never started, and ended with {verdict}")
        return
    run = mine[-1]
    is_error = any(it.is_error or it.op.verb == "stopcase" or (it.reply or "").startswith("error ") for it in run.calls)
    if is_error != (verdict == "error"):
        who = "the main component" if reference == MAIN else f"component {reference}"
        case.faults.append(f"the log of {who} {'has an error' if is_error else 'has no error'}, and it ended with {verdict}")
        return
    if is_error:
        return
    at = len(run.calls)
    while at > 0 and run.calls[at - 1].channel is None and ends_its_run(run.calls[at - 1].op, run.calls[at - 1].reply, run.component):
        at -= 1
    before = run.calls[at - 1] if at else None
    behind = run.calls[at] if at < len(run.calls) else None
    begin = before.begin if before else 0
    end = FOREVER if behind is None else behind.begin if behind.op.verb == "finish" else behind.end
    guess = max(before.guess if before else 0, behind.guess - 1 if behind else 0)
    run.calls.insert(at, Call(run.number, Op("getverdict"), verdict, line, begin, max(begin, end), guess, seen=True))


def read_case(case: TestCase) -> TestCase:
    """Fills in the runs and calls of a test case, and what its logs say against one another; of logs without calls nothing."""
    if case.faults:
        case.runs = [Run(0, 0, f"testcase {case.name}")]
        return case
    alive = number_components(case)
    by_log = runs_of_logs(case)
    starts = match_starts(case, by_log)
    check_kinds(case, alive)
    own, told = finals(case)
    for role in [MAIN, *sorted(case.logs)]:
        Reader(case, role, by_log.get(role, []), starts, told).read()
    compare_finals(case, own, told)
    for reference in [MAIN, *case.numbers]:
        if reference in own:
            see_final(case, reference, *own[reference])
    return case
