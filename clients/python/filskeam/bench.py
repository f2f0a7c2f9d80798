"""Runs, test cases and the server: what a bench is written with."""
from __future__ import annotations

import dataclasses
import functools
import queue
import threading
import time
from collections.abc import Coroutine, Generator
from typing import Callable, Dict, List, NoReturn, Optional, Sequence, Set, Tuple, Union

from .errors import DynamicError, Ended, Refused, ServerEnded
from .evidence import VERDICTS, EvidenceFile, Findings, Line, Raised, Result, ends_case, parsed, suits
from .library import InProcess, find_library
from .program import Program, find_program
from .words import Behaviour, Group, component_word, name_of, name_word, plain_text, told

# How many behaviours a test case may start, the main one among them.
MOST_BEHAVIOURS = 256
MOST_ARGUMENTS = 4
# How many seconds behaviours have, once their test case is over, to return; and the server, to answer or to end.
GRACE = 5.0
# The run that this thread is the behaviour of.
_OWN = threading.local()


class Run:
    """A run of a behaviour, which makes its calls on it: only the behaviour's own thread may. `log` is free to all.

    `me` is its component. Components are known by their numbers, which `create` returns. A call raises `Ended` if the run
    was stopped, `DynamicError` if the table replies an error, and `ValueError` for a word that no call has.
    """

    def __init__(self, case: Case, number: int, behaviour: str, me: int) -> None:
        self.number, self.behaviour, self.me = number, behaviour, me
        self.is_started = self.is_done = False
        self._thread = 0
        self._case = case
        self._calling = threading.Lock()
        self._answers: queue.SimpleQueue[Union[str, BaseException]] = queue.SimpleQueue()
        self._asked = ""
        self._is_parked = self._has_ended = False
        self._seen = 0

    def __str__(self) -> str:
        return f"run {self.number} {self.behaviour}"

    def create(self, name: Optional[str] = None, alive: bool = False) -> int:
        """Creates a component: an alive-type one may be started again after its behaviour."""
        words = ["create"] + ["alive"] * alive + ([] if name is None else ["named", name_word(name, "a component")])
        return int(self._call(" ".join(words)).split()[1])

    def start(self, component: int, behaviour: Behaviour, *arguments: int, **others: object) -> None:
        """Starts a function on a component, as behaviour(run, *arguments, **others).

        The arguments are at most four components, which the table sees. It does not see the others."""
        words = [component_word(it) for it in (component, *arguments)]
        if not callable(behaviour):
            raise ValueError(f"{behaviour!r} is no function")
        if len(arguments) > MOST_ARGUMENTS:
            raise ValueError(f"a start has at most {MOST_ARGUMENTS} arguments; hand others over by name")
        self._check_caller()
        run = self._case._new_run(behaviour, component)
        before = self._case._naming(run) or self._remark(f"a test case has at most {MOST_BEHAVIOURS} behaviours, and each start is one")
        with self._calling:
            self._exchange(" ".join(["start", words[0], str(run.number), *words[1:]]), before)
        self._case._begin(run, functools.partial(behaviour, run, *arguments, **others))

    def stop(self, group: Group) -> None:
        """Stops a component, or "all" parallel ones."""
        self._call(f"stop {component_word(group, ('all',))}")

    def kill(self, group: Group) -> None:
        """Kills a component, or "all" parallel ones."""
        self._call(f"kill {component_word(group, ('all',))}")

    def stop_case(self, reason: object = "") -> NoReturn:
        """Ends the test case with the verdict error, and this behaviour."""
        self._call("stopcase", reason)
        raise Ended("the test case was stopped")

    def running(self, target: Group) -> bool:
        """Whether a component, "any" or "all" parallel ones are running."""
        return self._is("running", target)

    def alive(self, target: Group) -> bool:
        """Whether a component, "any" or "all" parallel ones are alive."""
        return self._is("alive", target)

    def done(self, target: Group) -> bool:
        """Whether a component, "any" or "all" parallel ones are done."""
        return self._is("done", target)

    def killed(self, target: Group) -> bool:
        """Whether a component, "any" or "all" parallel ones are killed."""
        return self._is("killed", target)

    def wait_done(self, target: Group, timeout: Optional[float] = None) -> bool:
        """Waits until a component, "any" or "all" parallel ones are done; False if the seconds passed before."""
        return self._wait("done", target, timeout)

    def wait_killed(self, target: Group, timeout: Optional[float] = None) -> bool:
        """Waits until a component, "any" or "all" parallel ones are killed; False if the seconds passed before."""
        return self._wait("killed", target, timeout)

    def set_verdict(self, verdict: str, reason: object = "") -> None:
        """Makes the local verdict this one, if it is worse than the old. The reason goes into the evidence."""
        if verdict not in VERDICTS[:4]:
            raise ValueError(f"{verdict!r} is no verdict to set: there are none, pass, inconc and fail")
        self._call(f"setverdict {verdict}", reason)

    def get_verdict(self) -> str:
        """The local verdict."""
        return self._call("getverdict")

    def log(self, text: object) -> None:
        """Puts a remark into the evidence. Any thread may."""
        self._case._send(self._remark(text))

    def check(self) -> None:
        """Raises `Ended` if this run was stopped: for long loops. It asks the table only after something was stopped."""
        self._check_caller()
        changes = self._case._changes
        if changes != self._seen:
            self._call("getverdict")
            self._seen = changes

    def sleep(self, seconds: float) -> None:
        """Sleeps, and raises `Ended` as soon as this run is stopped."""
        deadline = time.monotonic() + seconds
        self.check()
        while self._case._await_change(self._seen, deadline):
            self.check()

    def _is(self, status: str, target: Group) -> bool:
        return self._call(f"{status} {component_word(target, ('any', 'all'))}") == "true"

    def _wait(self, status: str, target: Group, timeout: Optional[float]) -> bool:
        """With a time-out it asks whenever something may have changed: the table knows no time."""
        if timeout is None:
            self._call(f"wait {status} {component_word(target, ('any', 'all'))}")
            return True
        deadline = time.monotonic() + timeout
        while True:
            changes = self._case._changes
            if self._is(status, target):
                return True
            if not self._case._await_change(changes, deadline):
                return False

    def _remark(self, text: object) -> List[str]:
        plain = plain_text(text) if text != "" else ""
        return [f"{self.number} # {plain}"] if plain else []

    def _check_caller(self) -> None:
        """Whether this thread may call. A run that knows of its end asks the table no more."""
        if threading.get_ident() != self._thread:
            raise RuntimeError(f"the calls of {self} are its own thread's: another may only log")
        if self._has_ended:
            raise Ended(f"{self} has ended")

    def _call(self, words: str, reason: object = "") -> str:
        self._check_caller()
        with self._calling:
            return self._exchange(words, () if reason == "" else self._remark(reason))

    def _exchange(self, words: str, before: Sequence[str], seconds: Optional[float] = None) -> str:
        """Gives these lines and a call, and waits for its answer, for so long; for who holds the lock of the calls."""
        self._asked = words
        self._case._send((*before, f"{self.number} {words}"), seconds)
        answer = self._answers.get(True, seconds)
        if isinstance(answer, BaseException):
            raise answer
        self._has_ended = answer == "ended" or answer.startswith("error ")
        if not self._has_ended:
            return answer
        raise Ended(f"{self} has ended") if answer == "ended" else DynamicError(f"{words} -> {answer}")

    def _expects(self, line: Line) -> bool:
        """Whether the entry, or the refused line, answers what was asked."""
        wanted = "wake" + self._asked[4:] if self._is_parked else self._asked
        return wanted != "" if line.kind == "!" else line.text == wanted and suits(wanted, line.reply)

    def _take(self, line: Line) -> None:
        if line.reply == "parked":
            self._is_parked = True
        elif line.kind == "->":
            self._answer(line.reply)
        elif line.kind == "!":
            self._answer(Refused(f"the server refused a line of {self}: {line.text}"))

    def _answer(self, answer: Union[str, BaseException]) -> None:
        self._asked, self._is_parked = "", False
        self._answers.put(answer)

    def _stop_case_from_outside(self, reason: str, seconds: float) -> None:
        """Stops the test case instead of the behaviour, unless it waits or is just making a call."""
        if self.is_done or self._is_parked or not self._calling.acquire(timeout=0.05):
            return
        try:
            self._exchange("stopcase", self._remark(reason), seconds)
        except (Ended, Refused, queue.Empty):
            pass
        finally:
            self._calling.release()


class Case:
    """A test case: its name and its main behaviour. `run` runs it, once."""

    def __init__(self, name: str, main: Behaviour, timeout: Optional[float] = None, server: Optional[Server] = None) -> None:
        self.name, self.main, self.server = name_word(name, "a test case"), main, server
        self.timeout = timeout
        self._runs: Dict[int, Run] = {}
        self._lines: List[str] = []
        self._raised: List[Raised] = []
        self._late: List[Run] = []
        self._hung: Tuple[str, ...] = ()
        self._is_over = self._is_ended = self._is_timed_out = False
        self._fault = self._reason = ""
        # How many entries there are that may have stopped somebody.
        self._changes = 0
        # It reports an end, a fault and these entries. Its holder writes nothing: the server may wait for its reader.
        self._news = threading.Condition()
        self._sending = threading.Lock()
        self._is_closed = False

    def run(self) -> Result:
        """Runs it: on the given server, or on one of its own. Nothing that a behaviour does makes it raise."""
        if self._runs:
            raise RuntimeError(f"test case {self.name} was run before: make a new one")
        if self.server is not None:
            return self.server._judge(self)
        with Server() as server:
            return server._judge(self)

    def _play(self, program: Union[Program, InProcess], grace: float) -> None:
        """Runs the main behaviour, and closes the test case once it is over, late, or interrupted."""
        self._program, self._grace = program, grace
        main = self._new_run(self.main, 0)
        self._send([f"case {self.name} {MOST_BEHAVIOURS}", *self._naming(main)])
        # The table in this process answers at once: there is nothing to read.
        reader = threading.Thread(target=self._read if isinstance(program, Program) else str, name=f"{self.name} reader", daemon=True)
        reader.start()
        reason = "the bench was interrupted"
        try:
            self._begin(main, functools.partial(self.main, main))
            self._is_timed_out = not self._await(lambda: self._is_over or main.is_done or self._fault, self.timeout)
            reason = f"the test case took longer than {self.timeout:g} s" if self._is_timed_out else "the main behaviour has returned"
        finally:
            self._stop(reason)
            self._await(lambda: not self._going_on(), grace)
            self._hung = tuple(map(str, dict.fromkeys([*self._late, *self._going_on()])))
            self._close()
            reader.join(grace)

    def _result(self) -> Result:
        findings = Findings(self._lines)
        fault = self._fault or ("" if self._is_ended else "the bench was interrupted twice")
        verdict = self._lines[-1].split()[1] if self._is_ended else "error"
        why = findings.why
        if self._is_timed_out and verdict != "error":  # the server was stuck meanwhile
            verdict, why = "error", self._reason
        evidence = "\n".join([*self._lines, ""])
        return Result(self.name, verdict, fault or why, findings.locals, findings.names, evidence, tuple(self._raised),
                      self._hung, self._is_timed_out, fault)

    # What runs do

    def _new_run(self, behaviour: Behaviour, component: int) -> Run:
        with self._news:
            run = Run(self, len(self._runs), name_of(behaviour), component)
            self._runs[run.number] = run
        return run

    def _naming(self, run: Run) -> List[str]:
        """The line that names its behaviour. One more than there may be is named by nobody: the table says what is wrong."""
        return [f"behaviour {run.number} {run.behaviour}"] if run.number < MOST_BEHAVIOURS else []

    def _begin(self, run: Run, behaviour: Callable[[], object]) -> None:
        run.is_started = True
        try:
            threading.Thread(target=self._behave, args=(run, behaviour), name=f"{self.name} {run}", daemon=True).start()
        except RuntimeError:  # there is no thread for it, so nobody waits for its return
            run.is_done = True
            raise

    def _behave(self, run: Run, behaviour: Callable[[], object]) -> None:
        """Runs a behaviour to its end, and reports that to the table."""
        _OWN.run, run._thread = run, threading.get_ident()
        try:
            returned = behaviour()
            if isinstance(returned, (Coroutine, Generator)):
                returned.close()
                raise TypeError("a behaviour is a plain function, and this one has run nothing: call asyncio.run in it")
            run._call("finish")
        except BaseException as raised:
            self._note(run, raised)
        finally:
            with self._news:
                run.is_done = True
                self._news.notify_all()

    def _note(self, run: Run, raised: BaseException) -> None:
        """Keeps what a behaviour raised, and ends the test case unless a call has ended it."""
        if not isinstance(raised, Ended) or isinstance(raised, DynamicError):
            self._raised.append(Raised(run.number, run.behaviour, raised))
        if not isinstance(raised, Ended):
            try:
                (run.log if run._has_ended else run.stop_case)(told(raised))
            except (Ended, Refused):
                pass

    def _going_on(self) -> List[Run]:
        return [run for run in list(self._runs.values()) if run.is_started and not run.is_done]

    def _send(self, lines: Sequence[str], seconds: Optional[float] = None) -> None:
        """Writes lines, unless the test case is closed."""
        if not (self._sending.acquire() if seconds is None else self._sending.acquire(timeout=seconds)):
            return
        try:
            if self._fault:
                raise ServerEnded(self._fault)
            if self._is_closed:
                raise Ended("the test case is closed")
            for line, text in self._program.exchange(lines, seconds):
                self._keep(line, text)
        except (MemoryError, ValueError) as error:  # of the table in this process
            self._lose(told(error))
        finally:
            self._sending.release()

    # What the reader does

    def _read(self) -> None:
        """Hands each answer to the run that asked, to the end of the test case."""
        try:
            while not self._is_ended and not self._fault:
                line = self._program.read()
                if line is None:
                    self._lose(self._program.how_it_ended())
                elif not self._take(line):
                    self._program.kill()
                    self._lose(f"the server wrote what it may not write here: {line[:100]!r}")
        except BaseException as error:  # as no memory: nobody may wait for an answer that nobody reads
            self._program.kill()
            self._lose(f"the client cannot read on: {told(error)}")

    def _take(self, text: str) -> bool:
        line = parsed(text)
        run = self._runs.get(line.run) if line else None
        if not self._lines:
            is_right = text == f"evidence 1 {self.name} {MOST_BEHAVIOURS}"
        elif line is None or run is None:
            is_right = self._is_closed and text == f"end {Findings(self._lines).overall()}"
        else:
            is_right = line.kind in ("behaviour", "#") or run._expects(line)
        if is_right:
            self._keep(line, text)
        return is_right

    def _keep(self, line: Optional[Line], text: str) -> None:
        """Keeps a line, and reports it: first to all runs what it changes, then to its run the answer."""
        self._lines.append(text)
        if line.halts if line is not None else text.startswith("end "):
            with self._news:
                self._changes += 1
                self._is_ended = line is None
                self._is_over = self._is_over or line is not None and ends_case(line)
                self._news.notify_all()
        if line is not None:
            self._runs[line.run]._take(line)

    def _lose(self, fault: str) -> None:
        """Reports to all runs that there is no server any more. The first reason counts."""
        with self._news:
            self._fault = self._fault or fault
            self._changes += 1
            self._news.notify_all()
            for run in self._runs.values():
                run._answer(ServerEnded(fault))

    # What the bench does

    def _await(self, is_so: Callable[[], object], seconds: Optional[float]) -> bool:
        """Waits until it is so; False if the seconds passed before. They may be more than Python can count."""
        with self._news:
            return bool(self._news.wait_for(is_so, seconds and min(seconds, threading.TIMEOUT_MAX)))

    def _await_change(self, seen: int, deadline: float) -> bool:
        """Waits until something may have been stopped; False if the deadline passed before."""
        return self._await(lambda: self._changes != seen, max(0.0, deadline - time.monotonic()))

    def _stop(self, reason: str) -> None:
        """Ends the test case through the table, with the verdict error, instead of a run that does not wait in it."""
        if self._is_over or self._fault:
            return
        self._late = [run for run in self._going_on() if not run._is_parked]
        self._reason = f"{reason}; not returned: {', '.join(map(str, self._late))}"
        deadline = time.monotonic() + self._grace
        while not self._is_over and not self._fault and time.monotonic() < deadline:
            for run in self._going_on():
                if not self._is_over:
                    run._stop_case_from_outside(self._reason, self._grace)
            self._await(lambda: self._is_over, 0.01)

    def _close(self) -> None:
        """Asks for the last line. A server that does not write it is killed."""
        if self._sending.acquire(timeout=self._grace):
            self._is_closed = True
            for _, text in () if self._fault else self._program.exchange(["end"], self._grace):
                self._keep(None, text)
            self._sending.release()
        if not self._await(lambda: self._is_ended or self._fault, self._grace):
            self._lose("the server does not answer")
            self._program.kill()


class Server:
    """What judges test cases one after the other: the table in this process if the library filskeam is found, otherwise `ttrun serve`.

    If that has ended, the next test case starts it again."""

    def __init__(self, command: Optional[Sequence[str]] = None, evidence: Optional[str] = None, grace: float = GRACE, append: bool = False) -> None:
        """A command is started as `ttrun serve` is, whether there is a library or not. The file gets the evidence of each test case. It is emptied first, unless `append`.

        A behaviour that does not return for `grace` seconds after the end of its test case is abandoned: its thread keeps running."""
        self._library = find_library() if command is None else None
        self._command = list(command) if command is not None else [] if self._library else [find_program(), "serve"]
        self._file = EvidenceFile(evidence, append) if evidence is not None else None
        self._grace = min(grace, threading.TIMEOUT_MAX)
        # The names of its test cases so far.
        self.names: Set[str] = set()
        self._program: Union[Program, InProcess, None] = None
        self._status = 0
        self._judging = threading.Lock()

    def run(self, name: str, main: Behaviour, timeout: Optional[float] = None) -> Result:
        """Runs a test case. After that many seconds it is stopped, with the verdict error."""
        return Case(name, main, timeout, self).run()

    def close(self) -> int:
        """Ends it. The status is 0, 1 or 2 by the worst verdict, and 3 if it ended early or refused a line."""
        if self._program is not None:
            self._status = max(self._status, self._program.close())
            self._program = None
        return self._status

    def __enter__(self) -> Server:
        return self

    def __exit__(self, *_: object) -> None:
        self.close()

    def _judge(self, case: Case) -> Result:
        """Runs a test case, and keeps its evidence, even if the bench is interrupted."""
        if hasattr(_OWN, "run"):
            raise RuntimeError(f"{_OWN.run} cannot run test case {case.name}: a test case is run outside of behaviours")
        with self._judging:
            self.names.add(case.name)
            self._program = self._program or (InProcess(self._library) if self._library else Program(self._command, self._grace))
            try:
                case._play(self._program, self._grace)
            finally:
                result = case._result()
                if self._file is not None:
                    result = dataclasses.replace(result, place=self._file.keep(result.evidence, bool(result.fault)))
                self._status = max(self._status, 2 * result.is_timed_out)
                if result.fault:
                    self.close()
                    self._status = 3
        return result
