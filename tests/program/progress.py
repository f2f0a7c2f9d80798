"""Runs with `--progress`: what is printed about each test case, and that the report and the status stay those without it. Runs with
`--live`: the same text as without it, and whole test cases where the run is ended by a signal or a fault."""
import os
import re
import signal
import subprocess
import tempfile
import time
from typing import Callable, Iterator, List, Optional, Sequence, Tuple, Union

import examples
from case import SECONDS, Case, Judgement, Ran, SomeText, Timed, answer, faults_in, first_difference, joined, refused, untimed
from rows import CSV_HEADER, ONLY, counts_of as no_counts, csv_of_verdict, history_of_verdict, of_verdicts, text
from sizes import long_script
from terminal import unwritable

FORMS: Tuple[Tuple[str, ...], ...] = ((), ("--csv",), ("--junit",), ("--live",), ("--live", "--csv"), ("--csv", "--stop-on", "fail"))
# What else the example `verdicts` is run with, whose histories are the same at each run.
CHOICES: Tuple[Tuple[str, ...], ...] = (
    ("--history",), ("--evidence",), ("--live", "--history"), ("--live", "--evidence"), ("--shard", "2/2"), ("--live", "--shard", "1/3"),
    ("--csv", "--only", "t_fail", "--only", "t_pass"), ("--junit", "--only", "t_error"), ("--live", "--csv", "--stop-on", "inconc"),
    ("--evidence", "--stop-on", "error", "--shard", "1/2"), ("--stop-on", "pass"), ("--stop-on", "none", "--only", "t_fail"))
# Each example with the number of its test cases that fail, as inconc, fail or error.
SCRIPTS = (("restart", 1), ("verdicts", 3), ("workers", 0), ("pumps", 0))
FAILED = (b"inconc", b"fail", b"error")
# A test case of a JUnit report, and what decided its verdict.
IN_JUNIT = re.compile(rb'<testcase name="(\w+)" classname="ttrun">\n(?:<(?:failure|error) type="\w+" message="([^"]*)">)?')
SETS = b"run 0 main on mtc: setverdict %s -> ok"


LIVE_FORMS: Tuple[Tuple[str, ...], ...] = ((), ("--csv",), ("--history",), ("--evidence",))
# A campaign that takes some time: each test case starts and awaits 40 components.
STARTED = 40
TEST_CASES = 400
# How often a run is ended by a signal before one is that had begun and was not at its end.
TRIES = 40


def long_campaign() -> bytes:
    starts = "".join(f"create p{it}\nstart p{it} other\n" for it in range(STARTED))
    case = f"behaviour main\n{starts}wait done all\nend\nbehaviour other\nsetverdict pass\nend\nend\n"
    return "".join(f"testcase t{it}\n{case}" for it in range(TEST_CASES)).encode()


def faults_of_live(program: str, given: bytes, options: Tuple[str, ...]) -> List[str]:
    """A run with `--live` gives what the run without it gives."""
    return faults_in(answer(program, given, "run", *options), answer(program, given, "run", "--live", *options))


def killed_runs(program: str, words: Sequence[str], given: bytes, ending: signal.Signals,
                is_time: Callable[[int, int, float], bool]) -> Iterator[Ran]:
    """Runs with their outputs in files, each ended by the signal as soon as it is time, by the sizes of both outputs and the seconds
    since its start; those that had not ended before."""
    for _ in range(TRIES):
        with tempfile.TemporaryFile() as source, tempfile.TemporaryFile() as taken, tempfile.TemporaryFile() as told:
            source.write(given)
            source.seek(0)
            began = time.monotonic()
            with subprocess.Popen([program, *words], stdin=source, stdout=taken, stderr=told) as started:
                while started.poll() is None and time.monotonic() < began + SECONDS:
                    if is_time(*(os.fstat(it.fileno()).st_size for it in (taken, told)), time.monotonic() - began):
                        break
                    time.sleep(0.001)
                started.send_signal(ending)
                status = started.wait(SECONDS)
            taken.seek(0)
            told.seek(0)
            if status == -ending:
                yield Ran(taken.read(), told.read(), status)


def is_begun(written: int, *_: float) -> bool:
    return written >= 200


def ends_of_cases(text: bytes, options: Tuple[str, ...]) -> List[int]:
    if "--csv" in options:
        return [it.end() for it in re.finditer(rb".*\n", text)][1:]
    return [it.end() for it in re.finditer(rb"(?m)^(?:verdict|end) .*\n", text)]


def faults_of_ended(program: str, options: Tuple[str, ...], ending: signal.Signals) -> List[str]:
    """What is out when a signal ends the run is the text up to some test case's end."""
    for ran in killed_runs(program, ["run", "--live", *options], long_campaign(), ending, is_begun):
        ends = ends_of_cases(ran.output, options)
        if not ends:
            return ["no test case was written before the signal"]
        if ends[-1] != len(ran.output):
            return [f"a part of a test case is out: {ran.output[ends[-1]:][:200]!r}"]
        begins = {"--csv": b"t%d,", "--history": b"history 2 t%d ", "--evidence": b"evidence 1 t%d "}.get("".join(options), b"testcase t%d\n")
        lacking = [at for at in range(len(ends)) if begins % at not in ran.output]
        return [f"t{lacking[0]} is not among the first {len(ends)} test cases"] if lacking else []
    return [f"no run of {TRIES} was ended by the signal"]


def nothing_without_live(program: str) -> List[str]:
    """Without `--live` nothing is out before the end: the promise of the default stays."""
    for ran in killed_runs(program, ["run"], long_campaign(), signal.SIGKILL, lambda _, __, seconds: seconds > 0.02):
        return [f"{len(ran.output)} bytes are out"] if ran.output else []
    return [f"no run of {TRIES} was ended by the signal"]


def live_cases() -> Iterator[Union[Case, Judgement]]:
    """Histories may be others at each run: those of the examples are read, and not compared."""
    names = ("restart", "nightly", "stations", "supervisor", "verdicts", "workers")
    yield from (examples.written_is_checked(name, ("--live",)) for name in names)
    runs = [(name, examples.bytes_of(f"{name}.script"), options) for name in names for options in LIVE_FORMS[:2]]
    empty = {(): no_counts() + "complete\n", ("--csv",): CSV_HEADER, ("--history",): "", ("--evidence",): ""}
    for options in LIVE_FORMS:
        runs += [("stopped", examples.bytes_of("verdicts.script"), (*options, "--stop-on", "fail")), ("refused", b"testcase\n", options),
                 ("of_no_test_case", b"", options)]
        for ending in (signal.SIGTERM, signal.SIGKILL):
            command = f"{' '.join(['ttrun run --live', *options])} < (a long campaign), and then {ending.name}"
            yield Judgement(joined("live_ended_by", ending.name, *options), command, faults_of_ended, (options, ending))
        for live in ((), ("--live",)):
            yield Case(joined("no_test_case_at_all", *live, *options), ("run", *live, *options, "--shard", "2/2"), of_verdicts("fail"),
                       empty[options].encode())
        yield from unwritable(joined("output_{}_live", *options), ("run", "--live", *options), of_verdicts("pass", "fail"))
    for name, *kept in runs:
        yield Judgement(joined("live_as_at_the_end", name, *kept[1]), f"ttrun run --live {' '.join(kept[1])}", faults_of_live, tuple(kept))
    yield Judgement("nothing_is_out_before_the_end_without_live", "ttrun run < (a long campaign), and then SIGKILL", nothing_without_live)


def lines_of(place: int, count: int, name: bytes, verdict: bytes, why: bytes) -> Tuple[bytes, bytes, bytes]:
    """The lines of a test case: as it begins, as it ends, and again if it has failed."""
    told, rest = b"%s %s" % (name, verdict), b": %s\n" % why if why else b"\n"
    return b"%d/%d %s ..\n" % (place, count, name), b"%d/%d %s 0.000 s%s" % (place, count, told, rest), \
        b"failed: %s%s" % (told, rest) if verdict in FAILED else b""


def due(program: str, given: bytes, options: Tuple[str, ...]) -> bytes:
    """What is due about the test cases that are chosen so, by the list of their names, their table and their JUnit report."""
    pairs = [it for it in zip(options, options[1:]) if it[0] in ("--only", "--shard", "--stop-on")]
    rule = [word for pair in pairs for word in pair]
    choice = [word for pair in pairs if pair[0] != "--stop-on" for word in pair]
    listed, table, suite = (answer(program, given, "run", *it).output for it in (("--list", *choice), ("--csv", *rule), ("--junit", *rule)))
    records, whys = [it.split(b",") for it in table.splitlines()[1:]], dict(IN_JUNIT.findall(suite))
    return all_lines([lines_of(place, len(listed.split()), it[0], it[-1], whys[it[0]]) for place, it in enumerate(records, 1)])


def all_lines(each: List[Tuple[bytes, bytes, bytes]]) -> bytes:
    """What is printed of these test cases: as they begin and end, those again that have failed, and the counts."""
    return b"".join([*(begun + ended for begun, ended, _ in each), *(again for _, _, again in each), counts_of(each)])


def counts_of(each: List[Tuple[bytes, bytes, bytes]]) -> bytes:
    failed = sum(again != b"" for _, _, again in each)
    return b"%d passed, %d failed, 0.0 s\n" % (len(each) - failed, failed) if each else b""


def failure_lines(each: List[Tuple[bytes, bytes, bytes]]) -> bytes:
    """What is printed if only failures are."""
    return b"".join([*(ended for _, ended, again in each if again), counts_of(each)])


def faults_of_progress(program: str, name: str, options: Tuple[str, ...], count: Optional[int]) -> List[str]:
    """A run with `--progress` gives what the run without it gives, and reports each test case, of which that many have failed."""
    given = examples.bytes_of(f"{name}.script")
    plain, came = answer(program, given, "run", *options), answer(program, given, "run", "--progress", *options)
    faults = faults_in(Ran(plain.output, Timed(due(program, given, options)), plain.status), came)
    found = came.errors.count(b"failed: ")
    return faults + ([f"{found} test cases have failed, and not {count}"] if count not in (None, found) else [])


def as_they_finish(program: str) -> List[str]:
    """If a signal ends a live run, as many test cases are reported as are out, or one more; and the next has begun if all are out."""
    for ran in killed_runs(program, ["run", "--live", "--progress"], long_campaign(), signal.SIGKILL, is_begun):
        # Each starts one behaviour forty times, which is an error at the second.
        why = b"run 0 main on mtc: start 2 run 1 other -> error no-behaviour: run 1 other was started before: a behaviour is started at most once"
        each = [lines_of(it, TEST_CASES, b"t%d" % (it - 1), b"error", why) for it in range(1, TEST_CASES + 1)]
        # The signal may cut a line at the end of a page.
        told = ran.errors[:ran.errors.rfind(b"\n") + 1]
        written, count = len(ends_of_cases(ran.output, ())), told.count(b"\n")
        wanted = b"".join([line for begun, ended, _ in each for line in (begun, ended)][:count])
        if untimed(told) != wanted:
            return [first_difference(wanted, untimed(told))]
        # The lines after those about the test cases that are out.
        behind = count - 2 * written
        return [] if written and behind in (0, 1, 2) else [f"{count} lines are printed, and {written} test cases are out"]
    return [f"no run of {TRIES} was ended by the signal"]


def while_it_runs(program: str) -> List[str]:
    """A test case that has not ended has its first line, and no other."""
    for ran in killed_runs(program, ["run", "--progress"], long_script(), signal.SIGKILL, lambda _, told, __: bool(told)):
        first, _, rest = ran.errors.partition(b"\n")
        if first != b"1/1 t ..":
            return [f"the first line is {first!r}"]
        if not rest:
            return []
    return [f"each test case of {TRIES} ended before the signal"]


def three_hundred() -> Iterator[Case]:
    """As many test cases, of which every hundredth fails."""
    verdicts = ["pass" if at % 100 else "fail" for at in range(300)]
    given = "".join(f"testcase t{at}\nbehaviour main\nsetverdict {it}\nend\nend\n" for at, it in enumerate(verdicts))
    output = CSV_HEADER + "".join(csv_of_verdict(f"t{at}", it) for at, it in enumerate(verdicts))
    each = set_lines(*verdicts, names=[f"t{at}" for at in range(300)])
    for word, told in (("--progress", all_lines(each)), ("--progress=failures", failure_lines(each))):
        yield Case(f"{word[2:].replace('=', '_of_')}_of_three_hundred_test_cases", ("run", word, "--csv"), given.encode(), output.encode(), Timed(told), 1)


def set_lines(*verdicts: str, names: Sequence[str] = "abc") -> List[Tuple[bytes, bytes, bytes]]:
    """The lines of test cases, each of which sets its verdict."""
    return [lines_of(place, len(verdicts), name.encode(), it.encode(), b"" if it == "pass" else SETS % it.encode())
            for place, (name, it) in enumerate(zip(names, verdicts), 1)]


def devices() -> Iterator[Case]:
    """Standard errors that take nothing, and outputs that can't be written."""
    passes, fails = (csv_of_verdict(*it) for it in (("a", "pass"), ("b", "fail")))
    report, words = (CSV_HEADER + passes + fails).encode(), ("run", "--progress", "--csv")
    given, both = of_verdicts("pass", "fail"), set_lines("pass", "fail")
    for live in ((), ("--live",)):
        for how, redirect in (("full", "2>/dev/full"), ("closed", "2>&-")):
            for each in (words, ("run", "--progress=failures", "--csv")):
                yield Case(joined(f"standard_error_{how}", *each, *live), each + live, given, output=report, status=1, redirect=redirect)
    fault = b"ttrun: write fault\n"
    yield Case("output_full_progress", words, given, b"", Timed(all_lines(both) + fault), 3, ">/dev/full")
    # Live the header is refused before any test case begins.
    yield Case("output_full_progress_live", (*words, "--live"), given, b"", fault, 3, ">/dev/full")
    # The first test case is refused, and the next does not begin.
    yield Case("output_full_progress_live_text", ("run", "--progress", "--live"), given, b"", Timed(all_lines(both[:1]) + fault), 3, ">/dev/full")
    for live in ((), ("--live",)):
        yield Case(joined("failures", *live), ("run", "--progress=failures", "--csv", *live), given, report, Timed(failure_lines(both)), 1)
    yield Case("no_failures", ("run", "--progress", "failures"), of_verdicts("pass"), SomeText(("verdict pass\n",)), Timed(failure_lines(set_lines("pass"))))
    yield refused("progress_of_a_refused_script", words, text("testcase t;behaviour main;setverdct pass;end;end"), "line 3: line not understood")
    yield refused("progress_of_no_test_case", ("run", "--progress", "--only", "z"), given, ONLY)
    yield Case("progress_of_an_empty_shard", (*words, "--shard", "3/3"), given, CSV_HEADER.encode())
    worse = all_lines(set_lines("fail", "pass")[:1])
    yield Case("progress_of_a_verdict_worse_than_the_rule", (*words, "--stop-on", "inconc"), of_verdicts("fail", "pass"),
               (CSV_HEADER + csv_of_verdict("a", "fail")).encode(), Timed(worse), 1)
    yield Case("progress_of_what_failed", (*words, "--failed"), given + history_of_verdict("a", "pass").encode(),
               (CSV_HEADER + fails).encode(), Timed(all_lines(set_lines("fail", names="b"))), 1)


def cases() -> Iterator[Union[Case, Judgement]]:
    yield from live_cases()
    runs = [(name, count, options) for name, count in SCRIPTS for options in FORMS] + [("verdicts", 3, options) for options in CHOICES]
    for name, count, options in runs:
        # How many test cases fail is known if all are run.
        known = None if {"--stop-on", "--only", "--shard"} & set(options) else count
        yield Judgement(joined("progress_of", name, *options).replace("/", "_of_"), f"ttrun run --progress {' '.join(options)}",
                        faults_of_progress, (name, options, known))
    yield Judgement("progress_as_test_cases_finish", "ttrun run --live --progress < (a long campaign), and then SIGKILL", as_they_finish)
    yield Judgement("progress_while_a_test_case_runs", "ttrun run --progress < (a long test case), and then SIGKILL", while_it_runs)
    yield from three_hundred()
    yield from devices()
