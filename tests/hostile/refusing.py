"""Runs a program under refuse.c, which is loaded into it and refuses it memory, threads and devices. What such a run may answer: the right
output, or a named refusal."""
from __future__ import annotations

import contextlib
import mmap
import os
import re
import shutil
import struct
import subprocess
import sys
import tempfile
from dataclasses import dataclass, replace
from functools import lru_cache
from itertools import accumulate
from typing import Dict, Iterator, List, NamedTuple, Optional, Tuple

sys.dont_write_bytecode = True
HERE = os.path.dirname(os.path.abspath(__file__))
TOP = os.path.dirname(os.path.dirname(HERE))
sys.path += [os.path.join(TOP, "tests", it) for it in ("program", "serve")]

import case
import harness
from case import as_lines, first_difference, untimed
from examples import faults_of_history
from reference import Server
from rows import counts_of
from script_reader import Campaign, read_script

COUNTS = struct.Struct("=6Q")
NO_MEMORY = b"ttrun: no memory\n"
CSV, JUNIT, PROGRESS = "--csv", "--junit", "--progress"
# How a block of a form begins whose test cases may have other histories at each run.
BLOCKS = {"--history": b"history 2 ", "--evidence": b"evidence 1 "}
FAILED = b"failed: "
SERVE = ("serve",)
SUITE_END = "</testsuite>\n</testsuites>\n"


@dataclass
class Ran(case.Ran):
    """What a run gave, what it asked for, how much of that it was refused, -1 if that is not known, and how many bytes the growth asked
    for that was refused last."""

    growths: int = 0
    threads: int = 0
    reads: int = 0
    writes: int = 0
    refused: int = -1
    bytes: int = 0


class Refusing:
    """The library, built once by a compiler of C; each run of a program has a file of its own for what is counted."""

    def __init__(self, folder: str, compiler: str) -> None:
        self.folder = folder
        self.compiler = compiler
        self.library = self.built("refuse", ["-shared", "-fPIC", "-ldl"])

    def built(self, name: str, flags: List[str]) -> str:
        out = os.path.join(self.folder, "".join([name, *flags]))
        words = [self.compiler, "-std=gnu11", "-O1", "-Wall", "-Wextra", "-o", out, os.path.join(HERE, f"{name}.c"), *flags]
        subprocess.run(words, check=True)
        return out

    def run(self, words: List[str], given: bytes = b"", plan: str = "", is_byte_by_byte: bool = False, seconds: int = case.SECONDS) -> Ran:
        """Runs the words with the input under a plan; or byte by byte, one at each read and write."""
        with tempfile.NamedTemporaryFile(dir=self.folder) as kept, tempfile.TemporaryFile(dir=self.folder) as source:
            kept.write(bytes(COUNTS.size))
            kept.flush()
            source.write(given)
            source.seek(0)
            variables = {"LD_PRELOAD": self.library, "REFUSE_COUNTS": kept.name, "REFUSE_PLAN": plan}
            if is_byte_by_byte:
                variables["REFUSE_BYTE_BY_BYTE"] = "1"
            ran = ended(words, source, seconds, variables)
            with mmap.mmap(kept.fileno(), COUNTS.size) as counts:
                ran.growths, ran.threads, ran.reads, ran.writes, ran.refused, ran.bytes = COUNTS.unpack(counts[:COUNTS.size])
            return ran


def plainly(words: List[str], given: bytes, user: Optional[int] = None) -> Ran:
    """Runs the words with the input, without the library; as this user, if there is one."""
    with tempfile.TemporaryFile() as source:
        source.write(given)
        source.seek(0)
        return ended(words, source, case.SECONDS, {}, user)


def limited(words: List[str], given: bytes, limit: str) -> Ran:
    """Runs the words with the input, without the library; the limit is what is after a shell's `ulimit`."""
    return plainly(["sh", "-c", f'ulimit {limit}; exec "$@"', "sh", *words], given)


def ended(words: List[str], source: object, seconds: int, variables: Dict[str, str], user: Optional[int] = None) -> Ran:
    """Waits for the end of a program with these variables in its environment."""
    pipes = {"stdin": source, "stdout": subprocess.PIPE, "stderr": subprocess.PIPE}
    other = {} if user is None else {"user": user, "group": user, "extra_groups": [], "cwd": "/"}
    with subprocess.Popen(words, start_new_session=True, env={**os.environ, **variables}, **pipes, **other) as started:
        return Ran(**vars(harness.ended(started, b"", seconds)))


@contextlib.contextmanager
def refusing() -> Iterator[Optional[Refusing]]:
    """The library, or none if there is no compiler of C."""
    compiler = next((found for found in map(shutil.which, ("cc", "gcc", "clang")) if found), None)
    if compiler is None:
        yield None
        return
    with tempfile.TemporaryDirectory(prefix="refuse-") as folder:
        yield Refusing(folder, compiler)


@dataclass
class Task:
    """Words for the program, with their input."""

    name: str
    words: Tuple[str, ...]
    given: bytes = b""

    @property
    def is_run(self) -> bool:
        return self.words[:1] == ("run",)

    def has(self, word: str) -> bool:
        return word in self.words

    @property
    def block(self) -> bytes:
        return next((begins for form, begins in BLOCKS.items() if self.is_run and self.has(form)), b"")

    def behind(self, option: str) -> List[str]:
        """The words that are after an option."""
        return [word for before, word in zip(self.words, self.words[1:]) if before == option]

    def every_case(self) -> Campaign:
        """The test cases of the script, which histories may follow."""
        return read_script(re.split(rb"(?m)^(?=history |evidence )", self.given, maxsplit=1)[0])

    def campaign(self) -> Campaign:
        """The test cases that are run: those after `--only`, or all, and of these the shard's."""
        only = self.behind("--only")
        cases = [it for it in self.every_case() if not only or it.name in only]
        for shard in self.behind("--shard"):
            number, shards = map(int, shard.split("/"))
            cases = cases[number - 1::shards]
        return cases


@dataclass
class Outcome:
    """What was met: `right`, `refused`, `aborted`, `served in part`, or `wrong` and why."""

    kind: str
    fault: str = ""

    @classmethod
    def of(cls, kind: str, faults: List[str]) -> Outcome:
        """This kind, unless something is wrong."""
        return cls("wrong", "; ".join(faults)) if faults else cls(kind)


def pieces_of(task: Task, text: bytes) -> List[bytes]:
    """The parts of a whole output that belong to its test cases, in order; the header of a table is with the first."""
    if task.has(CSV):
        lines = text.splitlines(keepends=True)
        return [b"".join(lines[:2]), *lines[2:]]
    if task.has(JUNIT):
        return re.findall(rb"<testcase .*?</testcase>\n", text, re.DOTALL)
    body = text[: text.index(b"\ncases ") + 1] if b"\ncases " in text else text
    starts = [it.start() for it in re.finditer(rb"(?m)^" + (task.block or b"testcase "), body)]
    return [body[at:end] for at, end in zip(starts, [*starts[1:], len(body)])]


def header_of(task: Task, text: bytes) -> bytes:
    return text.splitlines(keepends=True)[0] if task.has(CSV) else b""


def bare_element(name: str, end: str) -> bytes:
    """The element of a test case without a report, which ended so."""
    return f'<testcase name="{name}" classname="ttrun">\n{end}\n<system-out>\n</system-out>\n</testcase>\n'.encode()


def aborted_suite(ample: bytes, pieces: List[bytes], names: List[str], why: str) -> bytes:
    """The JUnit report of a campaign that was aborted at the first of these test cases, after those that had finished."""
    unrun = [bare_element(it, '<skipped message="not run"/>') for it in names[1:]]
    elements = [*pieces, bare_element(names[0], f'<error type="aborted" message="{why}"/>'), *unrun]
    failures, errors, skipped = (sum(it.count(kind) for it in elements) for kind in (b"\n<failure ", b"\n<error ", b"\n<skipped"))
    counts = f'tests="{len(elements)}" failures="{failures}" errors="{errors}"'
    head = re.sub(rb'tests="\d+" failures="\d+" errors="\d+"', counts.encode(), ample[: ample.index(b"<testcase ")])
    head = re.sub(rb'skipped="\d+"', f'skipped="{skipped}"'.encode(), head)
    return head + b"".join(elements) + SUITE_END.encode()


def aborted_report(task: Task, ample: bytes, finished: int, name: str, why: str) -> bytes:
    """The output of a campaign that was aborted at this test case, after that many that had finished."""
    pieces = pieces_of(task, ample)[:finished]
    if task.has(JUNIT):
        return aborted_suite(ample, pieces, [it.name for it in task.campaign()][finished:], why)
    text = b"".join(pieces) or header_of(task, ample)
    if task.has(CSV) or task.block:
        return text
    verdicts = [re.split(rb"\s", it.strip())[-1].decode() for it in pieces]
    return text + (counts_of(*verdicts) + f"aborted at {name}: {why}\n").encode()


def faults_of_histories(task: Task, text: bytes, count: Optional[int]) -> List[str]:
    """Why the text has not the histories of the first test cases, as many as are wanted, or any number."""
    if not text:
        return ["no history stands there"] if count else []
    faults = faults_of_history(task.campaign(), text)
    found = text.count(task.block)
    return faults + ([f"{found} histories stand for {count}"] if count not in (None, found) else [])


def differs(task: Task, wanted: bytes, ran: Ran, count: int) -> List[str]:
    """Why the output is not the one that is wanted; histories may be others at each run."""
    if task.block:
        return faults_of_histories(task, ran.output, count)
    return [] if wanted == ran.output else [first_difference(wanted, ran.output)]


def judged_right(task: Task, ample: Ran, ran: Ran) -> Outcome:
    """A run that ended with the status of ample memory."""
    faults = differs(task, ample.output, ran, len(task.campaign()) if task.block else 0)
    return Outcome.of("right", faults + ([] if ran.errors == ample.errors else [f"standard error: {ran.errors[:200]!r}"]))


def judged_aborted(task: Task, ample: Ran, ran: Ran, name: str, why: str) -> Outcome:
    """A campaign that was aborted at a test case."""
    names = [it.name for it in task.campaign()]
    if name not in names or why not in ("no memory", "no thread"):
        return Outcome("wrong", f"aborted at {name}: {why}")
    finished = names.index(name)
    return Outcome.of("aborted", differs(task, aborted_report(task, ample.output, finished, name, why), ran, finished))


def judged_refused(task: Task, ample: Ran, ran: Ran) -> Outcome:
    """A run that was refused memory: nothing is out, or of a live run whole test cases."""
    if not ran.output:
        return Outcome("refused")
    if task.is_run and task.has("--live"):
        if task.block:
            return Outcome.of("refused", faults_of_histories(task, ran.output, None))
        if ran.output in (header_of(task, ample.output), *accumulate(pieces_of(task, ample.output))):
            return Outcome("refused")
    return Outcome("wrong", f"half a report is out: {ran.output[-200:]!r}")


def told_of_first(told: bytes, begun: int, ended: int) -> List[bytes]:
    """The lines about the first test cases that begin and end, and of those again that have failed, and their counts, by what is printed about all."""
    lines = told.splitlines(keepends=True)
    each = [it for it in lines if re.match(rb"\d+/", it)][:begun + ended]
    names = [it.split()[1] for it in each[:2 * ended:2]]
    again = [it for it in lines if it.startswith(FAILED) and it.split()[1] in names]
    return each + again + ([b"%d passed, %d failed, 0.0 s\n" % (len(names) - len(again), len(again))] if names else [])


def judged_told(task: Task, ample: Ran, ran: Ran) -> Outcome:
    """A run with `--progress`: what is printed about test cases, whole or cut after a line, and all else as without it."""
    told, *fault = untimed(ran.errors).partition(b"ttrun: ")
    line = b"".join(fault)
    ample = replace(ample, errors=untimed(ample.errors))
    names = [it.name for it in task.campaign()]
    pairs = [(begun, ended) for ended in range(len(names) + 1) for begun in (ended, ended + 1)]
    ending = re.match(rb"ttrun: aborted at (\w+): ", line)
    if ending and ending[1].decode() in names:
        ended = names.index(ending[1].decode())
        pairs = [(ended + 1, ended)]
    wholes = [told_of_first(ample.errors, *it) for it in pairs]
    cuts = {b"".join(it[:at]) for it in wholes for at in range(len(it) + 1)}
    if told not in cuts:
        return Outcome("wrong", f"told of test cases: {told[-200:]!r}")
    rest = judged(replace(task, words=tuple(it for it in task.words if it != PROGRESS)), replace(ample, errors=b""), replace(ran, errors=line))
    if rest.kind != "right" or told == ample.errors:
        return rest
    return Outcome("refused") if ran.refused else Outcome("wrong", f"nothing was refused, and {told[-200:]!r} is told")


def judged(task: Task, ample: Ran, ran: Ran) -> Outcome:
    """What came of a run, next to the run with ample memory."""
    if task.has(PROGRESS) and not ran.is_late:
        return judged_told(task, ample, ran)
    if ran.is_late:
        return Outcome("wrong", "it hangs")
    if ran.status == ample.status:
        right = judged_right(task, ample, ran)
        if not right.fault or ran.refused == 0:
            return right
    if ran.status != 3:
        return Outcome("wrong", f"it ends with status {ran.status}: {ran.output[-200:]!r}, {ran.errors[-200:]!r}")
    if ran.refused == 0:
        return Outcome("wrong", f"nothing was refused, and it says {ran.errors[-200:]!r}")
    return judged_refusal(task, ample, ran)


class State(NamedTuple):
    """How many bytes were read of the input, and what is out then."""

    read: int
    output: bytes
    errors: bytes


@lru_cache(maxsize=None)
def states(given: bytes) -> List[State]:
    """Before the first line, after each, and at the end of an input whose lines all end, outside a test case or inside one."""
    server, found = Server(), [State(0, b"", b"")]

    def add(read: int, output: List[str], errors: List[str]) -> None:
        last = found[-1]
        found.append(State(last.read + read, last.output + as_lines(*output), last.errors + as_lines(*(f"ttrun: {it}" for it in errors))))

    for line in given.decode("latin-1").splitlines():
        add(len(line) + 1, *server.take(line))
    add(0, *server.finish())
    return found


def after_bytes(given: bytes, count: int) -> State:
    return [it for it in states(given)[:-1] if it.read <= count][-1]


def at_byte(given: bytes, count: int) -> bytes:
    """What is printed when the output takes only that many bytes: about the line too that it does not take."""
    return next(it.errors for it in states(given) if len(it.output) > count)


def judged_served(task: Task, ran: Ran) -> Outcome:
    """A service that was refused memory: what comes of its first lines is out, whole, and then that memory ran out."""
    if any((ran.output, ran.errors) == (it.output, it.errors + NO_MEMORY) for it in states(task.given)):
        return Outcome("served in part")
    return Outcome("wrong", f"half of what comes of a line is out: {ran.output[-200:]!r}, {ran.errors[-200:]!r}")


def judged_refusal(task: Task, ample: Ran, ran: Ran) -> Outcome:
    """A run that ended with status 3."""
    if task.words == SERVE:
        return judged_served(task, ran)
    if ran.errors == NO_MEMORY:
        return judged_refused(task, ample, ran)
    ending = re.fullmatch(rb"ttrun: aborted at (\w+): ([a-z ]+)\n", ran.errors)
    if ending and task.is_run:
        return judged_aborted(task, ample, ran, ending[1].decode(), ending[2].decode())
    return Outcome("wrong", f"standard error {ran.errors[:200]!r}")
