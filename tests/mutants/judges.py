"""Tests as judges: in a copy of the checkout with a mutant the test that it names must fail, and without one pass.

A test is one in Python, or one that rt runs without a proof: of a crate of tests, or of the program. That is built for each mutant,
which takes about a minute. Some of tests/program that need only a plain standard input, and some rows of tests/serve, are run by
`rt try --cases`, with those that a mutant names: at least one must fail."""
import importlib
import os
import re
import shutil
import subprocess
import sys
import tempfile
from typing import Dict, List, Optional, Set, Tuple

from copies import kept, ran as ran_by_rt
from lists import HERE, TOP, Answer, Mutant, Outcome, Unplanted

from harness import write

sys.path += [os.path.join(TOP, "tests", it) for it in ("program", "serve")]

from case import Case, Ran, faults_of

SECONDS = 300
# What a test says that breaks on a mutant, and does not judge: it has not found it. A test of the folders below may break.
BROKEN = re.compile(r"(?!Fault|ParseError|AssertionError)[A-Z]\w*: ")
MAY_BREAK = ("tests/documents", "tests/page", "tests/play")
# What the tests of a folder get: the built program, and that they run one by one.
WITH_PROGRAM = ("tests/titan", "tests/documents", "tests/page", "tests/play", "tests/embed")
WORDS: Dict[str, List[str]] = {"tests/python": ["--jobs", "1"], "tests/titan": ["--jobs", "1"], "tests/play": ["--in", "Chromium"],
                              "tests/page": ["--model"], "tests/embed": ["--library", os.path.join(TOP, "crates", "filskeam", "out", "library")]}
# What is made of its sources again for the tests of the page to try.
PAGE = os.path.join("page", "play.html")
# Variables by which a test takes other sources than those of the copy.
NAMING = ("FILSKEAM_CLIENT", "FILSKEAM_CPP", "TITAN_CLIENT", "TTRUN", "FILSKEAM_TTRUN")


def ran(words: List[str]) -> List[str]:
    """What a program in Python prints, its errors if that is nothing; the last line says how it ended, if it failed without one."""
    environment = {name: value for name, value in os.environ.items() if name not in NAMING}
    environment.update(RT_JOBS="1", PYTHONDONTWRITEBYTECODE="1")
    try:
        done = subprocess.run([sys.executable, *words], env=environment, stdin=subprocess.DEVNULL, stdout=subprocess.PIPE,
                              stderr=subprocess.PIPE, timeout=SECONDS, check=False)
    except subprocess.TimeoutExpired:
        return ["  Fault: the test had not ended", "0 passed, 1 failed"]
    lines = (done.stdout or done.stderr).decode(errors="replace").splitlines() or [""]
    return lines if done.returncode == 0 or "passed, " in lines[-1] else [*lines, f"it ended with {done.returncode}"]


def made_page(copy: str, mutant: Mutant, engine: str) -> None:
    """Makes the page to try again, of a copy with a mutant. What its engine is linked of is kept in a folder."""
    if not any(it.file.endswith(".c") for it in mutant.changes):
        lines = ran([os.path.join(copy, "page", "play", "make.py"), "--frame"])
    else:
        lines = ran([os.path.join(TOP, HERE, "engine.py"), copy, engine])
    if not lines[-1].startswith("page/play.html: "):
        raise Unplanted(f"the page is not made of it: {' '.join(lines[-2:])}")


class Programs:
    """Runs tests in Python, with a built program."""

    def __init__(self, program: str, engine: str) -> None:
        self.program, self.engine = program, engine

    def run_test(self, copy: str, folder: str, test: str) -> Tuple[str, str]:
        """Runs a test in a copy: the last line, and why it failed if it did."""
        more = [] if test and folder == "tests/page" else WORDS.get(folder, [])  # a test of the page that is named may be one in a browser
        words = [os.path.join(copy, folder, "run.py"), "--only", test, *more]
        lines = ran(words + (["--program", self.program] if folder in WITH_PROGRAM else []))
        return lines[-1], next((it.strip() for it in lines if it.startswith("  ")), " ".join(lines[-2:]))

    @staticmethod
    def tests_of(mutant: Mutant) -> Tuple[str, str]:
        return mutant.test

    def without(self, copy: str, tests: Tuple[str, str]) -> Optional[Answer]:
        last, why = self.run_test(copy, *tests)
        if last.startswith("0 passed, 0 failed, "):
            return Outcome.SKIPPED, f"{tests[1]} is skipped: {why[:150]}"
        is_right = not last.startswith("0") and " 0 failed" in last
        return None if is_right else (Outcome.UNPLANTED, f"{tests[1] or tests[0]} does not pass without it: {why[:150]}")

    def answer(self, copy: str, mutant: Mutant) -> Answer:
        """Whether the test fails as it should, and what it says. The page of the copy is made again of the mutant."""
        folder, test = self.tests_of(mutant)
        if folder == "tests/play" and mutant.changes[0].file.endswith(".c") and not all(map(shutil.which, ("rt", "wasm-opt"))):
            return Outcome.SKIPPED, "there is no rt or no wasm-opt"
        with kept(os.path.join(copy, PAGE)):
            if folder == "tests/play":
                made_page(copy, mutant, self.engine)
            last, why = self.run_test(copy, folder, test)
        if " 0 failed" not in last and "passed, " in last and (folder in MAY_BREAK or not BROKEN.match(why)):
            return Outcome.REFUSED, f"{test or folder} fails: {why[:150]}"
        return Outcome.SURVIVED, f"{test or folder} does not fail: {why[:150]}"


LONGEST = 100_000
# Of the long tables of tests every that many is run: `rt try` takes about half a second for each.
EVERY = 10
TRIED = re.compile(rb"case=c(\d+) run=(\w+) (?:status=(\d+) )?.*proved=no\n")
TESTED = re.compile(r"(?m)^test (\S+) \.\.\. (\w+)")
PROGRAM = "ttrun"
# Each test of a crate has that many seconds: under some mutants many wait for ever.
SECONDS_OF_A_TEST = "40"


def plain_cases(named: Set[str]) -> List[Case]:
    """The tests that a file and words make: all of examples/ and of the sizes, and of the others some, if they are not too long; and
    those with one of these in their names. To read the tables takes seconds."""
    every: List[Case] = []
    groups = [(importlib.import_module(it).cases(), 1) for it in ("examples", "sizes", "progress")]
    groups += [(importlib.import_module(it).cases(), EVERY) for it in ("rows", "scripts", "words", "explain", "chosen_rows")]
    for group, step in (*groups, (importlib.import_module("served_rows").rows(), EVERY)):
        # What is given to a pipe that stays open may be a file.
        plain = [it for it in group if isinstance(it, Case) and it.is_plain and all(it.words)]
        every += [it for at, it in enumerate(plain) if any(word in it.name for word in named) or (at % step == 0 and len(it.given) < LONGEST)]
    return every


def write_cases(folder: str, cases: List[Case]) -> None:
    for at, case in enumerate(cases):
        for ending, content in (("", case.given), (".args", "".join(f"{it}\n" for it in case.words).encode())):
            write(os.path.join(folder, f"c{at}{ending}"), content)


def failing(cases: List[Case], printed: bytes, said: bytes) -> Tuple[int, List[str]]:
    """How many cases were run, and those that failed: `rt try` prints outputs under `== NAME`, and errors before the line of a case."""
    parts = re.split(rb"(?m)^== c(\d+)\n", printed)
    outputs = dict(zip(map(int, parts[1::2]), parts[2::2]))
    failed, count, at = [], 0, 0
    for found in TRIED.finditer(said):
        number, errors = int(found[1]), said[at:found.start()]
        status = int(found[3]) if found[2] == b"ended" and found[3] else -1
        faults = faults_of(cases[number], Ran(outputs.get(number, b""), errors, status))
        failed += [f"{cases[number].name}: {faults[0]}"] if faults else []
        count, at = count + 1, found.end()
    return count, failed


class RattleTests:
    """Runs the tests of crates, and of the program."""

    def __init__(self, rt: List[str], mutants: List[Mutant]) -> None:
        named = {it.fails.partition(" ")[2] for it in mutants} - {""}
        self.rt, self.cases = rt, plain_cases(named) if any(self.tests_of(it) == PROGRAM for it in mutants) else []

    def run_program(self, copy: str) -> Tuple[int, List[str]]:
        """Builds the program and runs its tests: how many were run, and those that failed."""
        with tempfile.TemporaryDirectory(prefix="filskeam-cases-") as folder:
            write_cases(folder, self.cases)
            tried = subprocess.run([*self.rt, "try", "--cases", folder], cwd=os.path.join(copy, "crates", PROGRAM), stdin=subprocess.DEVNULL,
                                   stdout=subprocess.PIPE, stderr=subprocess.PIPE, check=False)
        count, failed = failing(self.cases, tried.stdout, tried.stderr)
        if count != len(self.cases):
            raise Unplanted(f"{count} of {len(self.cases)} tests were run: {tried.stderr[-1500:].decode(errors='replace')}")
        return count, failed

    def run_crate(self, copy: str, crate: str) -> Tuple[int, List[str]]:
        printed = ran_by_rt(self.rt, ["try", "--test", "--seconds", SECONDS_OF_A_TEST], os.path.join(copy, "crates", crate))
        tested = TESTED.findall(printed)
        if not tested:
            raise Unplanted(f"no test was run: {printed[-1500:]}")
        return len(tested), [name for name, how in tested if how != "ok"]

    def run_tests(self, copy: str, crate: str) -> Tuple[int, List[str]]:
        return self.run_program(copy) if crate == PROGRAM else self.run_crate(copy, crate)

    @staticmethod
    def tests_of(mutant: Mutant) -> str:
        return mutant.fails.split()[0]

    def without(self, copy: str, tests: str) -> Optional[Answer]:
        failed = self.run_tests(copy, tests)[1]
        return (Outcome.UNPLANTED, f"tests of {tests} fail without it: {failed[0]}") if failed else None

    def answer(self, copy: str, mutant: Mutant) -> Answer:
        crate = self.tests_of(mutant)
        count, failed = self.run_tests(copy, crate)
        words = f"{len(failed)} of {count} tests of {crate} fail" + (f", as {failed[0]}" if failed else "")
        return Outcome.REFUSED if failed else Outcome.SURVIVED, words
