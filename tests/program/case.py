"""The tests of the program: cases, which are a command line with its devices and what is wanted of it, byte by byte, and judgements."""
import argparse
import contextlib
import os
import re
import shlex
import signal
import subprocess
import sys
import threading
import time
from concurrent.futures import ThreadPoolExecutor
from dataclasses import dataclass
from itertools import islice
from typing import Callable, Dict, Iterable, List, Mapping, Tuple, Union

sys.path.append(os.path.dirname(os.path.dirname(os.path.abspath(__file__))))

from harness import Ran, chosen, ended

# A program that has not ended after that many seconds is stopped, and its case has failed.
SECONDS = 60
# A test that has found that many faults ends.
MOST_FAULTS = 10
# Starts the words after it with standard output on a pipe that nobody reads. A process of its own makes the pipe, so that
# no other that is just being started holds its other end.
BROKEN = """
import os, signal, sys
reading, writing = os.pipe()
os.dup2(writing, 1)
os.close(reading)
signal.signal(signal.SIGPIPE, signal.SIG_DFL)
os.execv(sys.argv[1], [os.fsencode(it) for it in sys.argv[1:]])
"""


@dataclass(frozen=True)
class SomeText:
    """A text that is not fixed: not empty, with each of these words in it, and none of those that it is to lack."""

    words: Tuple[str, ...] = ()
    lacking: Tuple[str, ...] = ()


@dataclass(frozen=True)
class Timed:
    """A text that is fixed, except for how long each test case took in the lines of `--progress`."""

    text: bytes


Word = Union[str, bytes]
Wanted = Union[bytes, SomeText, Timed]
# What is before the time in a line of `--progress`, and the time; and the same of its last line.
TIME = re.compile(rb"^(\d+/\d+ \w+ [a-z]+) \d+\.\d{3} s(?=:|$)", re.MULTILINE)
WHOLE_TIME = re.compile(rb"^(\d+ passed, \d+ failed), \d+\.\d s$", re.MULTILINE)


def untimed(text: bytes) -> bytes:
    return WHOLE_TIME.sub(rb"\1, 0.0 s", TIME.sub(rb"\1 0.000 s", text))


@dataclass(frozen=True)
class Case:
    """A run of the program, and what it is to give."""

    name: str
    words: Tuple[Word, ...]
    given: bytes = b""
    output: Wanted = b""
    errors: Wanted = b""
    status: int = 0
    # Redirections as a shell has them, as `>/dev/full`, `<&-`.
    redirect: str = ""
    # What is after a shell's `ulimit`, as `-v 20000`.
    limit: str = ""
    # Standard input is a pipe that stays open after the given bytes.
    stays_open: bool = False
    # Standard output is a pipe that nobody reads any more.
    is_broken: bool = False

    @property
    def is_plain(self) -> bool:
        """Whether it is made of nothing but an input and words that are text."""
        return not (self.redirect or self.limit or self.is_broken) and all(isinstance(it, str) for it in self.words)

    @property
    def command(self) -> str:
        """The command as a reader can type it."""
        words = [it if isinstance(it, str) else repr(it)[1:] for it in self.words]
        shown = " ".join(["ttrun", *map(shlex.quote, words)])
        extra = [self.redirect, self.stays_open and "< (a pipe that stays open)", self.is_broken and "| (nobody)"]
        limit = f"ulimit {self.limit}; " if self.limit else ""
        return limit + " ".join([shown, *(it for it in extra if it)])

    def faults(self, program: str) -> List[str]:
        """What is wrong with a run of the program, nothing if the test passes."""
        return faults_of(self, run(self, program))


def joined(*words: str) -> str:
    """A name made of these words; an option is named without its dashes."""
    return "_".join(it.strip("-") for it in words)


def as_lines(*lines: str) -> bytes:
    """The bytes of these lines, each of which ends with a line feed."""
    return "".join(f"{it}\n" for it in lines).encode()


def refusal(line: str) -> Ran:
    """What the program gives if it refuses an input with this line on standard error."""
    return Ran(b"", as_lines(f"ttrun: {line}"), 3)


def refused(name: str, words: Tuple[Word, ...], given: bytes, line: str, **others: object) -> Case:
    """A run that writes nothing, and is refused with this line on standard error."""
    return Case(name, words, given, errors=as_lines(f"ttrun: {line}"), status=3, **others)


def command_of(case: Case, program: str) -> List[Word]:
    """The words that start the program; a shell sets what only a shell has."""
    plain: List[Word] = [program, *case.words]
    if case.is_broken:
        return [sys.executable, "-c", BROKEN, *plain]
    if not case.redirect and not case.limit:
        return plain
    limit = f"ulimit {case.limit}; " if case.limit else ""
    return ["sh", "-c", f'{limit}exec "$@" {case.redirect}', "sh", *plain]


def run(case: Case, program: str) -> Ran:
    pipes: Dict[str, int] = {"stdin": subprocess.PIPE, "stdout": subprocess.PIPE, "stderr": subprocess.PIPE}
    with subprocess.Popen(command_of(case, program), bufsize=0, start_new_session=True, **pipes) as started:
        if not case.stays_open:
            return ended(started, case.given, SECONDS)
        guard = threading.Timer(SECONDS, os.killpg, (started.pid, signal.SIGKILL))
        guard.start()
        with contextlib.suppress(BrokenPipeError):
            started.stdin.write(case.given)
        guard.cancel()
        return ended(started, None, SECONDS)


def answer(program: str, given: bytes, *words: str) -> Ran:
    return run(Case("", words, given), program)


def first_difference(wanted: bytes, given: bytes) -> str:
    both = [wanted.split(b"\n"), given.split(b"\n")]
    for number in range(max(map(len, both))):
        one, other = (lines[number][:200] if number < len(lines) else None for lines in both)
        if one != other:
            return f"line {number + 1}: wanted {one!r}, came {other!r}"
    return "no difference"


def difference(name: str, wanted: Wanted, given: bytes) -> List[str]:
    """What is wrong with a text that came."""
    if isinstance(wanted, Timed):
        return difference(name, untimed(wanted.text), untimed(given))
    if isinstance(wanted, bytes):
        return [] if wanted == given else [f"{name}, {first_difference(wanted, given)}"]
    lacking = [it for it in wanted.words if it.encode() not in given]
    if lacking:
        return [f"{name} does not name {', '.join(lacking)}: {given[:300]!r}"]
    unwanted = [it for it in wanted.lacking if it.encode() in given]
    if unwanted:
        return [f"{name} names {', '.join(unwanted)}: {given[:300]!r}"]
    return [] if given else [f"{name} is empty, and some text is wanted"]


def faults_in(wanted: Ran, came: Ran) -> List[str]:
    """Everything that is not as it is wanted; the texts that are wanted need not be fixed."""
    if came.is_late:
        return [f"it had not ended after {SECONDS} seconds"]
    faults = [f"status: wanted {wanted.status}, came {came.status}"] if came.status != wanted.status else []
    return faults + difference("standard output", wanted.output, came.output) + difference("standard error", wanted.errors, came.errors)


def faults_of(case: Case, ran: Ran) -> List[str]:
    return faults_in(Ran(case.output, case.errors, case.status), ran)


@dataclass(frozen=True)
class Judgement:
    """A test of more than one run, by a function that gets the program's path and what else is kept for it, and names what is wrong."""

    name: str
    command: str
    judge: Callable[..., Iterable[str]]
    kept: Tuple[object, ...] = ()

    def faults(self, program: str) -> List[str]:
        return list(islice(self.judge(program, *self.kept), MOST_FAULTS))


Test = Union[Case, Judgement]


def below(met: Mapping[str, int], floors: Dict[str, int]) -> List[str]:
    """What was met too seldom for a test to say much."""
    return [f"{name} was met {met.get(name, 0)} times, and {floor} are wanted" for name, floor in floors.items() if met.get(name, 0) < floor]


def shown_with(faults: List[str], *shown: str) -> List[str]:
    """The faults, if there are any, and what they are of."""
    return [*faults, *shown] if faults else []


def lanes() -> int:
    """How many runs go side by side: as many as RT_JOBS says, which ./gate sets; otherwise one for each processor that there is to use."""
    said = os.environ.get("RT_JOBS", "")
    return int(said) if said.isdigit() and int(said) else len(os.sched_getaffinity(0))


def chosen_tests(parser: argparse.ArgumentParser, tests: Callable[[int], List[Test]]) -> Tuple[argparse.Namespace, List[Test]]:
    """The words that the parser takes, and the tests that they choose, which a seed makes."""
    parser.add_argument("--seed", type=int, default=1, help="of the random inputs")
    given, [named] = chosen(parser, ({it.name: it for it in tests(parser.parse_args().seed)}, 0))
    return given, list(named.values())


def guarded(test: Test, program: object) -> List[str]:
    try:
        return test.faults(program)
    except Exception as error:  # a test that breaks has failed, and the others run on
        return [f"{type(error).__name__}: {error}"]


def run_all(tests: List[Test], program: object, title: str) -> int:
    """Runs the tests, several at a time, and prints which have failed; the status."""
    began = time.monotonic()
    with ThreadPoolExecutor(lanes()) as pool:
        answers = list(pool.map(lambda it: guarded(it, program), tests))
    failed = [(test, faults) for test, faults in zip(tests, answers) if faults]
    for test, faults in failed:
        print("\n".join([f"FAILED {test.name}", *(f"  {it}" for it in [test.command] * bool(test.command) + faults)]))
    print(f"{title}: {len(tests)} tests in {time.monotonic() - began:.0f} seconds")
    print(f"{len(tests) - len(failed)} passed, {len(failed)} failed")
    return 1 if failed or not tests else 0
