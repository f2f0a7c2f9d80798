"""Calls of a server, and random sessions: their evidence is what the reference server writes, and legal to the program."""
from __future__ import annotations

import os
import random
import re
import select
import signal
import subprocess
from collections import Counter
from typing import Iterator, List, Sequence

from case import Ran, as_lines, below, faults_in, shown_with
from harness import PROGRAM, call
from random_moves import drawn_op, ends_case
from reference import Server
from table import Op
from texts import NUMBER

SECONDS = 30
SESSIONS = 30
RUNS = (1, 2, 3, 5, 9, 64, 256)
NAMES = ("pump", "probe", "p_1", "A" * 32)
# Lines that are refused at every place inside a case; those with a run begin with one that each case has.
BAD_LINES = ("0 fly", "0", "0fly", "00", "0 ", "0 # ", "0 setverdict error", "0 wake done all", "0 create named all", "0 ! no", "0 # \xe4",
             "0 # " + "x" * 201, "0 wait done", "0 start 1 1 ", "fly", "", "end pass", "case t 1", "behaviour 256 a", "behaviour 0 9a",
             "70000 finish", "0 " + "y" * 999)


class Pipe:
    """A server whose lines come one by one."""

    def __init__(self, command: Sequence[str]) -> None:
        pipes = {"stdin": subprocess.PIPE, "stdout": subprocess.PIPE, "stderr": subprocess.PIPE}
        self.process = subprocess.Popen(list(command), bufsize=0, start_new_session=True, **pipes)

    def write(self, text: bytes) -> None:
        self.process.stdin.write(text)

    def read(self, seconds: float) -> bytes:
        """What it has written, as soon as there is something; nothing if nothing comes for so long."""
        ready, _, _ = select.select([self.process.stdout], [], [], seconds)
        return os.read(self.process.stdout.fileno(), 65536) if ready else b""

    def read_all_of(self, size: int) -> bytes:
        """That many bytes, or those that came in time."""
        text = b""
        while len(text) < size:
            more = self.read(SECONDS)
            if not more:
                break
            text += more
        return text

    def ended(self) -> Ran:
        output, errors = self.process.communicate(timeout=SECONDS)
        return Ran(output, errors, self.process.returncode)

    def __enter__(self) -> Pipe:
        return self

    def __exit__(self, *_: object) -> None:
        if self.process.poll() is None:
            os.killpg(self.process.pid, signal.SIGKILL)
            self.process.wait()
        for stream in (self.process.stdin, self.process.stdout, self.process.stderr):
            stream.close()


class Session:
    """A random input. A server of its own says who continues and who waits, so that most moves may be made, and what is wanted. If it is
    plain, it has no line that is refused."""

    def __init__(self, chance: random.Random, met: Counter, is_plain: bool = False) -> None:
        self.chance, self.met, self.server, self.is_plain = chance, met, Server(), is_plain
        self.lines: List[str] = []
        self.output: List[str] = []
        self.errors: List[str] = []
        for at in range(chance.randrange(1, 9)):
            self.draw_case(f"t{at}")

    def draw_case(self, name: str) -> None:
        behaviours = self.chance.choice(RUNS)
        self.take(f"case {name} {behaviours}")
        daring = self.chance.choice((0.02, 0.1, 0.5))
        if self.chance.random() < 0.5:
            for run in range(1, min(behaviours, 5)):
                self.move(0, Op("create", alive=True))
                self.move(0, Op("start", run, run=run))
        for _ in range(self.chance.randrange(5, 80)):
            what = self.chance.random()
            if what < 0.1:
                run = self.chance.randrange(behaviours)
                said = "".join(chr(self.chance.randrange(32, 127)) for _ in range(self.chance.choice((1, 3, 30, 200))))
                self.add(f"{run} # {said}", "remark")
            elif what < 0.2:
                self.add(f"behaviour {self.chance.randrange(behaviours)} {self.chance.choice(NAMES)}", "naming")
            elif what < 0.23:
                self.add(self.chance.choice(BAD_LINES), "bad line")
            else:
                self.draw_move(daring)
        if self.chance.random() < 0.5:
            self.move(0, Op("finish"))
        self.met["over" if self.server.case.counted() != "error" else "not over, or error"] += 1
        self.take("end")

    def take(self, line: str) -> List[str]:
        """Adds a line; what is written for it, nothing if it is refused."""
        written, told = self.server.take(line)
        is_refused = bool(told) or re.match(f"{NUMBER} ! ", written[0]) is not None
        if is_refused and self.is_plain:
            self.server.is_refused = False
            return []
        self.lines.append(line)
        self.output += written
        self.errors += told
        return [] if is_refused else written

    def add(self, line: str, what: str) -> None:
        """Adds a line that is no move that may be made."""
        self.met[f"{what}, {'taken' if self.take(line) else 'refused'}"] += 1

    def draw_move(self, daring: float) -> None:
        """Adds a move, seldom one of a run that waits."""
        table, waits = self.server.case.table, self.server.case.waits
        able = [run for run in table.component_of_run if table.is_going_on(run) and (run not in waits or self.chance.random() < 0.05)]
        caller = self.chance.choice(able) if able and self.chance.random() < 0.97 else self.chance.choice((0, 1, 300))
        op = drawn_op(self.chance, table, caller, NAMES)
        if self.chance.random() < 0.15:
            op = Op("wait", self.chance.randrange(len(table.components)), awaited=self.chance.choice(("done", "killed")))
        if not ends_case(op, caller, table.would(caller, op)) or self.chance.random() <= daring:
            self.move(caller, op)

    def move(self, caller: int, op: Op) -> None:
        text = f"{caller} {op.text()}"
        written = self.take(text)
        if not written:
            self.met["move, refused"] += 1
            return
        self.met["move, taken"] += 1
        self.met["parked"] += written[0].endswith(" -> parked")
        self.met["woken"] += len(written) - 1
        self.met["woken at once"] += len(written) > 1 and written[0].endswith(" -> parked")
        self.met["woken with others"] += len(written) > 2

    def text(self) -> bytes:
        return "".join(f"{line}\n" for line in self.lines).encode("latin-1")

    def wanted(self) -> Ran:
        return Ran(as_lines(*self.output), as_lines(*(f"ttrun: {line}" for line in self.errors)), self.server.status())


FLOORS = {
    "move, taken": 1500, "move, refused": 60, "remark, taken": 300, "naming, taken": 100, "naming, refused": 100, "bad line, refused": 80,
    "parked": 60, "woken": 40, "woken at once": 10, "woken with others": 4, "over": 4}


def faults_by_program(output: bytes) -> List[str]:
    """What `ttrun check` of the last build, if there is one, has against the evidence."""
    if not os.access(PROGRAM, os.X_OK):
        return []
    ran = call([PROGRAM, "check"], output)
    return [] if ran.status == 0 else [f"ttrun check says: {ran.output[-200:]!r} {ran.errors!r}"]


def random_sessions(command: Sequence[str], seed: int, is_plain: bool = False) -> Iterator[str]:
    chance, met, written = random.Random(f"sessions {seed}"), Counter(), b""
    for _ in range(SESSIONS):
        session = Session(chance, met, is_plain)
        text = session.text()
        came = call(command, text)
        yield from shown_with(faults_in(session.wanted(), came), f"the input: {text[:1500]!r}")
        written += came.output
    yield from faults_by_program(written) + below(met, FLOORS)
