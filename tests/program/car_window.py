"""A program with test cases of its own: crates/car_window with each option of `ttrun run`, byte by byte."""
import os
import re
from dataclasses import replace
from typing import Iterator, List, Tuple

import progress
from case import Case, Judgement, Ran, SomeText, Timed, Wanted, answer, as_lines, faults_in, refused
from harness import TOP, bytes_of
from progress import all_lines
from rows import CSV_HEADER, ONLY, SHARD, STOP_ON, counts_of
from words import version_line

BENCH = os.path.join(TOP, "crates", "car_window", "out", "car_window")
NAMES = ("closes", "opens_again", "pinches")
VERDICTS = dict(zip(NAMES, ("pass", "pass", "fail")))
# What decides the verdict of the one that fails.
WHY = b"run 2 judge on component 2 judge: setverdict fail -> ok"
OPTIONS = ("csv", "history", "evidence", "junit", "suite", "times", "live", "progress", "stop-on", "list", "only", "shard")
FEWEST = 60


def blocks() -> List[bytes]:
    """The part of each test case in the text report, which the gate compares too."""
    return re.findall(rb"(?ms)^testcase .*?^verdict \w+\n", bytes_of("crates/car_window/stdout"))


def text_of(names: Tuple[str, ...], ending: str = "complete") -> bytes:
    body = b"".join(block for name, block in zip(NAMES, blocks()) if name in names)
    return body + f"{counts_of(*(VERDICTS[it] for it in names))}{ending}\n".encode()


def table_of(names: Tuple[str, ...]) -> bytes:
    rows = {"pass": "3,2,1,0,0,0,pass", "fail": "3,2,0,0,1,0,fail"}
    return CSV_HEADER.encode() + as_lines(*(f"{name},{rows[VERDICTS[name]]}" for name in names))


def told_of(names: Tuple[str, ...]) -> Timed:
    return Timed(all_lines([progress.lines_of(place, len(names), it.encode(), VERDICTS[it].encode(), WHY if VERDICTS[it] == "fail" else b"")
                            for place, it in enumerate(names, 1)]))


# The words of a choice, and the test cases that it takes.
CHOICES: Tuple[Tuple[str, Tuple[str, ...]], ...] = (
    ("", NAMES), ("--only pinches", ("pinches",)), ("--only=pinches --only closes", ("closes", "pinches")), ("--only closes --only closes", ("closes",)),
    ("--shard 1/2", ("closes", "pinches")), ("--shard=2/2", ("opens_again",)), ("--shard 4/4", ()), ("--shard 1/1", NAMES),
    ("--only opens_again --only pinches --shard 2/2", ("pinches",)), ("--stop-on error", NAMES),
    ("--only *es", ("closes", "pinches")), ("--only o* --only pin*", ("opens_again", "pinches")), ("--only * --shard 2/3", ("opens_again",)),
)
def of_words(said: str) -> SomeText:
    """What is printed of words that are refused: this, and the usage of this program."""
    return SomeText((f"error: {said}\n", "Usage: car_window [OPTIONS]\n"), ("ttrun",))


# Words that are refused, and what standard error says.
REFUSED: Tuple[Tuple[str, Wanted], ...] = (
    *((line, of_words(f"the argument '--{one}' cannot be used with '--{other}'"))
      for line, one, other in (("--csv --junit", "csv", "junit"), ("--list --live", "list", "live"), ("--live --junit", "junit", "live"),
                               ("--history --evidence", "history", "evidence"), ("--list --stop-on fail", "list", "stop-on"))),
    *((line, of_words(f"unexpected argument '{line.split()[-1]}' found"))
      for line in ("--failed", "--explain", "--no-explain", "run", "a.script", "help", "--csv run", "--html", "-x")),
    ("--last", SomeText(("error: unexpected argument '--last' found\n", "tip: a similar argument exists: '--list'\n", "Usage: car_window --list\n"), ("ttrun",))),
    ("--stop-on", SomeText(("a value is required for '--stop-on <VERDICT>'",), ("ttrun",))),
    ("--csv --csv", SomeText(("the argument '--csv' cannot be used multiple times",), ("ttrun",))),
    *((line, as_lines(f"ttrun: {said}")) for said, lines in (
        (SHARD, ("--shard 0/1", "--shard 3/2", "--shard x --only z", "--list --shard=")),
        (ONLY, ("--only x", "--list --only x", "--only closes --only x", "--only x*", "--only * --only x*", "--only z- --stop-on x",
                "--live --progress --only x", "--junit --only=")),
        (STOP_ON, ("--stop-on maybe", "--only x --stop-on maybe"))) for line in lines))


def rows() -> Iterator[Case]:
    for line, names in CHOICES:
        words, status = tuple(line.split()), int(any(VERDICTS[it] == "fail" for it in names))
        yield Case(f"car_window: {line}", words, output=text_of(names), status=status)
        yield Case(f"car_window live: {line}", ("--live", *words), output=text_of(names), status=status)
        yield Case(f"car_window csv: {line}", (*words, "--csv", "--progress"), output=table_of(names), errors=told_of(names), status=status)
        if "stop-on" not in line:
            yield Case(f"car_window list: {line}", ("--list", *words), output=as_lines(*names))
    yield Case("car_window, stopped", ("--stop-on", "pass"), output=text_of(("closes",), "stopped after closes"))
    yield Case("car_window, stopped at the last", ("--stop-on=fail", "--live"), output=text_of(NAMES, "stopped after pinches"), status=1)
    yield from (Case(f"car_window refused: {line}", tuple(line.split()), errors=told, status=3) for line, told in REFUSED)
    yield refused("car_window, no text", (b"\xff",), b"", "an argument is not UTF-8")
    for words in ((), ("--csv",), ("--live",), ("--junit",), ("--list",), ("--history",), ("--help",), ("--version",)):
        yield refused(f"car_window to a full device: {words}", words, b"", "write fault", redirect=">/dev/full")
    yield from (Case(f"car_window {it}", (it,), output=b"car_window, with " + version_line()) for it in ("--version", "-V"))


def each_row(_: str) -> List[str]:
    every = list(rows())
    return [f"{row.name}: {it}" for row in every for it in row.faults(BENCH)] + ([f"{len(every)} rows"] if len(every) < FEWEST else [])


def faults_of_unrun(*choice: str) -> List[str]:
    """What is wrong with its JUnit report if the first test case is the last."""
    ran, names = answer(BENCH, b"", "--junit", "--stop-on=none", *choice), answer(BENCH, b"", "--list", *choice).output.decode().split()
    skipped = re.findall(r'<testcase name="(\w+)" [^>]*>\n<skipped message="not run"/>', ran.output.decode())
    counts = f'tests="{len(names)}" failures="0" errors="0" skipped="{len(names) - 1}"'
    return [] if (ran.status, skipped) == (0, names[1:]) and counts in ran.output.decode() else [f"{ran}"]


def forms_are_read(program: str) -> List[str]:
    """`ttrun check` finds its histories and its evidence legal, live or not, and its JUnit report is what `ttrun report` makes of them."""
    faults: List[str] = []
    for words in (("--history",), ("--history", "--live"), ("--evidence",), ("--evidence", "--live")):
        ran = answer(BENCH, b"", *words)
        checked = answer(program, ran.output, "check")
        legal = tuple(re.findall(r"(?m)^legal (\w+)", checked.output.decode()))
        faults += [f"{words}: {ran}, {checked}"] if (ran.status, checked.status, legal) != (1, 0, NAMES) else []
    suite = answer(BENCH, b"", "--junit")
    named = tuple(it.decode() for it in re.findall(rb'<testcase name="(\w+)"', suite.output))
    is_right = suite.status == 1 and named == NAMES and b'tests="3" failures="1" errors="0"' in suite.output
    faults += [] if is_right else [f"--junit: {suite}"]
    return faults + [it for choice in ((), ("--only", "*s"), ("--only", "closes")) for it in faults_of_unrun(*choice)]


def help_names_the_program(_: str) -> List[str]:
    """Its help fits 78 columns, and names each option and the program, and not `ttrun`; and so under another name."""
    faults: List[str] = []
    for word in ("--help", "-h"):
        ran = answer(BENCH, b"", word)
        text = ran.output.decode()
        faults += [f"{len(line)} columns: {line}" for line in text.splitlines() if len(line) > 78]
        faults += [f"{word} names no --{it}" for it in OPTIONS if f"--{it}" not in text]
        # (a JUnit suite without a name of its own is called ttrun)
        wanted = SomeText(("Usage: car_window [OPTIONS]\n",), ("ttrun", "failed", "explain"))
        faults += faults_in(Ran(wanted, b"", 0), replace(ran, output=text.replace("instead of ttrun", "").encode()))
    return faults


def cases() -> List[Judgement]:
    return [Judgement("car_window_rows", "crates/car_window/out/car_window OPTIONS", each_row),
            Judgement("car_window_forms", "car_window --history | ttrun check", forms_are_read),
            Judgement("car_window_help", "car_window --help", help_names_the_program)]
