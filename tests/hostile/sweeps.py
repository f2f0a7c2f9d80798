"""The program's tasks, each with every growth and every thread refused in turn, and under falling limits of address space. Threads
refused by the system itself: the program as a user of its own who may have few of them, which only root can do. Devices by which one byte
goes at a time, and each read and each write of which fails in turn. The calls of the library,
which crates/refused_memory makes and judges, and a program with test cases of its own, crates/car_window."""
import contextlib
import itertools
import os
import re
import shutil
import sys
import tempfile
from collections import Counter
from dataclasses import dataclass, field
from functools import partial
from itertools import accumulate, chain
from types import SimpleNamespace
from typing import Callable, Iterator, List, Optional, Tuple

from exempt import EACH
from refusing import PROGRESS, SERVE, TOP, Ran, Refusing, State, Task, after_bytes, at_byte, judged, limited, pieces_of, plainly, told_of_first

from case import untimed
from examples import bytes_at, bytes_of
from rows import text
from sizes import PASSED, many_behaviours, padded_script
from texts import MOST_BYTES_OF_A_LIST, MOST_BYTES_OF_A_SCRIPT

# The forms of `run`: each can be written live but the JUnit report.
LIVE_FORMS: Tuple[Tuple[str, ...], ...] = ((), ("--csv",), ("--history",), ("--evidence",))
FORMS = (*LIVE_FORMS, ("--junit",))
SCRIPTS = ("restart", "workers", "supervisor", "verdicts", "pumps")
# Lines of two test cases: of each kind, refused ones of a run and of nobody, a run that waits and is woken; the second stays open.
SESSION = text("case t 3;behaviour 1 probe;0 create alive named pump;0 start 1 1;0 wait done 1;1 # 5 V;1 setverdict inconc;fly;1 finish;0 fly;"
               "0 start 1 2 0;2 finish;0 finish;end;case u 256;0 create;0 getverdict")
# A sweep continues until that many runs in a row are refused nothing.
BEHIND = 3
# A sweep that has not come to its end by then never does.
MOST = 100_000
# A sweep ends at that many faults: what is wrong so often is wrong everywhere, and may hang each time.
FAULTS = 5


def with_input(name: str, given: bytes, *lines: str) -> List[Task]:
    return [Task(name, tuple(line.split()), given) for line in lines]


def runs(name: str) -> List[Task]:
    """The runs of an example in each form, live and not."""
    given = bytes_of(f"{name}.script")
    return ([Task(name, ("run", *form), given) for form in FORMS] + [Task(name, ("run", "--live", *form), given) for form in LIVE_FORMS])


def tasks() -> List[Task]:
    found = []
    for name in SCRIPTS:
        found += runs(name) + with_input(name, bytes_of(f"{name}.script"), "run --list", "explore", "explore --history", "explore --details",
                                         "explore --locals")
    chosen = "run --only t_fail --only t_pass"
    found += with_input("verdicts", bytes_of("verdicts.script"), "run --stop-on fail", "run --progress", "run --progress --live",
                        "run --progress --junit", *(" ".join([chosen, *form]) for form in FORMS), "run --only t_nowhere", "run --explain --only t_fial",
                        "explore --explain --only t_fial", "explore --only t_* --shard 2/3", "run --shard 2/3 --list", "run --shard 2/3 --junit")
    found += with_input("a_refused_script", text("testcase t;behaviour main;alive nobody;end;end"), "run")
    found += with_input("a_misspelt_script", text("testcase t;behaviour main;setverdct pass;end;end"), "run --explain")
    found += with_input("a_misspelt_name", text("testcase t;behaviour main;create p;start p wroker q;end;behaviour worker;end;end"), "run --explain")
    found += with_input("a_line_of_ttcn_3", text("testcase t;behaviour main;p.start(worker(self))"), "run --explain")
    found += with_input("sixty_four_behaviours", many_behaviours(64), "run --csv")
    for name in ("groups", "inconc", "restart", "stuck"):
        found += with_input(name, bytes_of(f"{name}.moves"), "replay")
    found += with_input("a_refused_list", text("behaviours 1;0 crate"), "replay", "replay --explain")
    found += with_input("a_refused_history", text("history 1 t 1;0 finish"), "check --explain")
    for name in ("pumps", "restart", "supervisor"):
        found += with_input(name, bytes_of(f"{name}.history"), "check", "model")
    found += with_input("an_illegal_history", text("history 1 t 1;end pass"), "check")
    evidence = text("evidence 1 t 2;behaviour 0 main;0 # too hot: <b>;0 setverdict fail -> ok;1 ! bad move;0 finish -> ok;end fail")
    found += with_input("evidence", evidence, "check", "report --csv", "report --html")
    for name in ("pumps", "supervisor"):
        found += with_input(name, bytes_of(f"{name}.history"), "report --csv", "report --junit", "report --html", "report --summary")
    for name, kept in (("supervisor", "supervisor"), ("restart", "pumps")):
        found += with_input(f"{kept}_after_{name}", bytes_of(f"{name}.script") + bytes_of(f"{kept}.history"), "check --script", "report --script --csv",
                            "report --script --junit", "run --list --failed")
    found += with_input("restart", bytes_of("restart.history"), "report --junit --suite nightly")
    found += with_input("verdicts", bytes_of("verdicts.history"), "check --failed --only t_*", "report --junit --failed --only t_*",
                        "check --explain --only t_fial")
    found += with_input("a_session", SESSION, "serve")
    return found + with_input("words_alone", b"", "--help", "run --help", "frobnicate", "run --stop-on maybe")


@dataclass
class Sweep:
    name: str
    runs: int = 0
    # How many runs were right, refused, aborted, served in part or wrong.
    met: Counter = field(default_factory=Counter)
    refused: int = 0
    faults: List[str] = field(default_factory=list)

    def add(self, task: Task, ample: Ran, ran: Ran, plan: str) -> None:
        outcome = judged(task, ample, ran)
        self.runs += 1
        self.refused += max(ran.refused, 0)
        self.met[outcome.kind] += 1
        if outcome.fault:
            self.faults.append(f"{plan}: {outcome.fault}")

    def is_given_up(self) -> bool:
        return len(self.faults) >= FAULTS


def numbers(most: int, stride: int) -> Iterator[int]:
    """From 1 to the most, each or every that many, the last ones with them."""
    return (it for it in range(1, most + 1) if it % stride == 1 % stride or it > most - BEHIND)


def sweep(refusing: Refusing, program: str, task: Task, what: str, behind: str, stride: int) -> Sweep:
    """Refuses the growths or threads of a task in turn, until none is refused any more."""
    words = [program, *task.words]
    ample = refusing.run(words, task.given)
    done = Sweep(f"{' '.join(task.words)} < {task.name}, {what} N{behind} refused")
    most = ample.growths if what == "growth" else ample.threads
    # The first refusal that aborts a campaign is that of the room for its reports, before any test case is run. It is found if every
    # growth is refused in turn, and the report is the text.
    is_first = what == "growth" and stride == 1 and task.words == ("run",)
    spared = 0
    for number in chain(numbers(most, stride), range(most + 1, MOST)):
        plan = f"{what}:{number}{behind}"
        ran = refusing.run(words, task.given, plan)
        done.add(task, ample, ran, plan)
        if what == "thread" and b"no memory" in ran.output + ran.errors:
            done.faults.append(f"{plan}: memory is told of, and only threads are refused")
        if is_first and b"ttrun: aborted at " in ran.errors:
            is_first = False
            if not ran.output.startswith(b"cases 0 "):
                done.faults.append(f"{task.name}: the first abort has a finished test case before it")
        spared = spared + 1 if number > most and not ran.refused else 0
        if spared == BEHIND or done.is_given_up():
            return done
    done.faults.append(f"growths are refused up to {MOST}")
    return done


def first_abort(refusing: Refusing, words: List[str], count: int, done: Sweep) -> Ran:
    """What comes of that many test cases, run by these words, with the first growth refused by which the campaign is aborted."""
    script = text(";".join(f"testcase t{at};behaviour main;setverdict pass;end;end" for at in range(count)))
    for number in range(1, refusing.run(words, script).growths + 1):
        ran = refusing.run(words, script, f"growth:{number}")
        done.runs, done.refused = done.runs + 1, done.refused + ran.refused
        if ran.errors == b"ttrun: aborted at t0: no memory\n":
            return ran
    done.faults.append(f"{count} test cases are never aborted at the first")
    return Ran(b"", b"", 0)


def room_before_the_first(refusing: Refusing, program: str) -> Sweep:
    """The first growth of a campaign is the room for the reports of all its test cases, for three times as many thrice as large. A live
    run has no such room: its first growth is one of the first test case."""
    done = Sweep("the room for all reports is made first")
    for words, is_room in ((("run",), True), (("run", "--live"), False)):
        few, many = (first_abort(refusing, [program, *words], count, done).bytes for count in (2, 6))
        if (many == 3 * few) != is_room:
            done.faults.append(f"{' '.join(words)}: {few} bytes are refused to two test cases, {many} to six")
    return done


def limits(is_whole: bool) -> Iterator[int]:
    """Limits of address space in kibibytes, from ample memory down to none."""
    yield from range(640_000, 40_000, -10_000 if is_whole else -60_000)
    yield from range(40_000, 6_000, -64 if is_whole else -2_000)
    yield from range(6_000, 0, -4 if is_whole else -100)


def falling(program: str, task: Task, is_whole: bool) -> Sweep:
    """Runs a task under falling limits, until the program cannot be loaded."""
    words = [program, *task.words]
    ample = limited(words, task.given, "-v unlimited")
    done = Sweep(f"{' '.join(task.words)} < {task.name}, falling limits of address space")
    for limit in limits(is_whole):
        ran = limited(words, task.given, f"-v {limit}")
        # The system could not load the program, which has then not begun: its loader ends with this status.
        if ran.status == 127 and not ran.output:
            return done
        done.add(task, ample, ran, f"ulimit -v {limit}")
        if done.is_given_up():
            return done
    done.faults.append("the program was loaded under each limit")
    return done


def large_tasks() -> List[Task]:
    """Tasks that want more memory than a program has at its start."""
    moves = b"behaviours 1\n" + b"0 create\n" * 999 + b"0 running all\n" * 20_000
    history = b"history 2 t 1\n" + b"0 getverdict -> none\n" * 100_000 + b"end none\n"
    found = with_input("many_moves", moves, "replay") + with_input("a_long_history", history, "check")
    found += with_input("sixty_four_behaviours", many_behaviours(64), "run --csv", "run --live --csv")
    found += with_input("all_behaviours", many_behaviours(256), "run")
    found += [Task(name, ("run", *form), bytes_of(f"{name}.script")) for name in ("workers", "verdicts") for form in FORMS]
    return found + with_input("supervisor", bytes_of("supervisor.script"), "explore")


# Tasks of which each growth is refused in the gate too: the first abort of a run is judged, and the witnesses of a search are written.
WHOLE = (("verdicts", ("run",)), ("restart", ("run",)), ("supervisor", ("explore", "--history")))


def jobs(refusing: Refusing, program: str, is_whole: bool) -> List[Callable[[], Sweep]]:
    """All sweeps; in the gate only every so manyth growth is refused, except for some tasks."""
    found: List[Callable[[], Sweep]] = []
    for task in tasks():
        for what, behind, stride in (("growth", "", 5), ("growth", "..", 29), ("thread", "", 1), ("thread", "..", 7)):
            is_each = not behind and ((task.name, task.words) in WHOLE or any(map(task.has, EACH)))
            found.append(partial(sweep, refusing, program, task, what, behind, 1 if is_whole or is_each else stride))
    return [*found, partial(room_before_the_first, refusing, program), *(partial(falling, program, task, is_whole) for task in large_tasks())]


# The users are numbers that no account is likely to have, and others for each call of these tests.
USERS = itertools.count(20_000 + os.getpid() * 131 % 20_000)


def few_threads(program: str, task: Task, behaviours: int, stride: int) -> Sweep:
    """Runs a task with few threads and with as many as it wants."""
    done = Sweep(f"{' '.join(task.words)} < {task.name}, few threads")
    ample = plainly([program, *task.words], task.given)
    for most in numbers(behaviours + 3, stride):
        ran = plainly(["prlimit", f"--nproc={most}:{most}", program, *task.words], task.given, next(USERS))
        done.add(task, ample, ran, f"{most} threads")
        if b"no memory" in ran.output + ran.errors:
            done.faults.append(f"{most} threads: memory is told of, and there is enough")
    return done


def jobs_of_limits(program: str, is_whole: bool) -> List[Callable[[], Sweep]]:
    """All tests, of the examples and of test cases of many behaviours; in the gate every so manyth limit of the large ones."""
    found = [(task, 8, 1) for name in SCRIPTS for task in runs(name)]
    for behaviours, stride in ((64, 9), (256, 60)):
        found += [(task, behaviours, 1 if is_whole else stride)
                  for task in with_input(f"{behaviours}_behaviours", many_behaviours(behaviours), "run --csv", "run --live --csv")]
    return [partial(few_threads, program, *it) for it in found]


def why_not() -> str:
    """Why no user can be refused threads, or nothing."""
    if os.geteuid() != 0:
        return "they want root, who can be another user"
    if sys.version_info < (3, 9):
        return "they want python3 of version 3.9 or later, which can run a program as another user"
    return "" if shutil.which("prlimit") else "there is no prlimit"


@contextlib.contextmanager
def for_each_user(program: str) -> Iterator[Optional[str]]:
    """A copy of the program that each user may run, or none if that cannot be had."""
    if why_not():
        yield None
        return
    with tempfile.TemporaryDirectory(prefix="limited-users-") as folder:
        os.chmod(folder, 0o755)
        copied = shutil.copyfile(program, os.path.join(folder, "ttrun"))
        os.chmod(copied, 0o755)
        yield copied


READ, WRITE, TOO_LONG = (f"ttrun: {it}\n".encode() for it in ("read fault", "write fault", "input too long"))
# Histories of these scripts may be others at each run.
SIDE_BY_SIDE = ("restart", "workers", "supervisor", "pumps")


def told_of(task: Task, ample: Ran, written: int) -> bytes:
    """What is printed about test cases where that many bytes are out: live, of those up to the one that is not out whole, otherwise of all. What
    `report` prints comes after its output."""
    if task.words[0] == "report":
        return b""
    if not task.has(PROGRESS) or not task.has("--live"):
        return ample.errors
    ends = accumulate(map(len, pieces_of(task, ample.output)))
    ended = sum(it <= written for it in ends) + 1
    return b"".join(told_of_first(ample.errors, ended, ended))


def is_same(ran: Ran, wanted: Ran) -> bool:
    """Whether both wrote, printed and ended the same, apart from the times of test cases."""
    return (ran.output, untimed(ran.errors), ran.status) == (wanted.output, untimed(wanted.errors), wanted.status)


def wanted_of(task: Task, ample: Ran, what: str, number: int) -> Ran:
    """What must come if the read or write of this number fails, counted from 1. A service answers as it reads."""
    is_served, before = task.words == SERVE, number - 1
    if number > (ample.reads if what == "read" else ample.writes):
        return ample
    if what == "read":
        state = after_bytes(task.given, before) if is_served else State(0, b"", b"")
        return Ran(state.output, state.errors + READ, 3)
    told = at_byte(task.given, before) if is_served else told_of(task, ample, before)
    return Ran(ample.output[:before], told + WRITE, 3)


def failing(refusing: Refusing, program: str, task: Task, what: str, stride: int) -> Sweep:
    """Has each read or write of a task fail in turn."""
    words = [program, *task.words]
    ample = refusing.run(words, task.given, is_byte_by_byte=True)
    done = Sweep(f"{' '.join(task.words)} < {task.name}, {what} N fails")
    plain = refusing.run(words, task.given)
    if not is_same(plain, ample):
        done.faults.append("byte by byte it answers otherwise")
    for number in numbers((ample.reads if what == "read" else ample.writes) + 2, stride):
        ran = refusing.run(words, task.given, f"{what}:{number}", is_byte_by_byte=True)
        wanted = wanted_of(task, ample, what, number)
        done.runs += 1
        done.refused += ran.refused
        done.met[f"{what}s failed" if wanted is not ample else "right"] += 1
        if not is_same(ran, wanted):
            done.faults.append(f"{what}:{number}: status {ran.status}, {ran.errors!r}, {ran.output[-100:]!r}")
    return done


def slow(refusing: Refusing, program: str, task: Task, wanted: Ran) -> Sweep:
    """A long input, byte by byte."""
    done = Sweep(f"{' '.join(task.words)} < {task.name}, byte by byte", runs=1)
    ran = refusing.run([program, *task.words], task.given, is_byte_by_byte=True)
    done.met["long inputs"] += ran.reads > 1_000_000
    if not is_same(ran, wanted):
        done.faults.append(f"status {ran.status}, {ran.errors!r}, {ran.output[-100:]!r}")
    return done


def tried_again(refusing: Refusing) -> Sweep:
    """Has each read and write fail of a program that tries an interrupted one again, and of one that does not: exactly the first is
    found out."""
    done, task = Sweep("a program that tries again", runs=4), Task("eight_bytes", ("replay",), b"abcdefg\n")
    for flags, is_wrong in ((["-DAGAIN"], True), ([], False)):
        program = refusing.built("again", flags)
        for what in ("read", "write"):
            found = failing(refusing, program, task, what, 1).faults
            if bool(found) != is_wrong:
                done.faults.append(f"{what}s, {flags}: {found}")
    return done


def jobs_of_devices(refusing: Refusing, program: str, is_whole: bool) -> List[Callable[[], Sweep]]:
    """All tests; in the gate every so manyth read or write fails."""
    found: List[Callable[[], Sweep]] = [partial(tried_again, refusing)]
    # Those that read, each of which has one right output.
    reading = [it for it in tasks() if it.given and not (it.block and it.name in SIDE_BY_SIDE)]
    found += [partial(failing, refusing, program, task, what, 1 if is_whole else 37) for task in reading for what in ("read", "write")]
    script = Task("the_longest_script", ("run", "--csv"), padded_script(MOST_BYTES_OF_A_SCRIPT))
    longer = Task("a_script_that_goes_on", ("run",), b"\n" * (2 * MOST_BYTES_OF_A_SCRIPT))
    moves = Task("moves_that_go_on", ("replay",), b"\n" * (2 * MOST_BYTES_OF_A_LIST))
    refused = Ran(b"", TOO_LONG, 3)
    return found + [partial(slow, refusing, program, *it) for it in ((script, Ran(PASSED, b"", 0)), (longer, refused), (moves, refused))]


FOLDER = os.path.join(TOP, "crates", "refused_memory")
CALLS = os.path.join(FOLDER, "out", "refused_memory")
# How many calls of each kind there are, and how many of their growths must be refused at least.
FLOORS = {"tables": (3, 6), "moves on a table": (38, 8), "room on a table": (3, 3), "checks of a history": (2, 7), "states": (6, 15),
          "moves on a state": (38, 3), "copies": (40, 9), "readers": (3, 10), "writers": (46, 88), "writers of a part": (2, 5),
          "forms and summaries": (18, 100), "live writers": (8, 5), "boards": (3, 12), "opened cases": (3, 300), "calls on a pass": (32, 9),
          "last calls on a pass": (270, 18), "closed cases": (2, 10), "runs and campaigns": (6, 165), "calls that take no memory": (74, 0)}
COUNTS = re.compile(r"(.*): (\d+) calls, (\d+) refused, (\d+) answered all the same")


def too_few(lines: List[str]) -> List[str]:
    """The kinds of which fewer calls were made, or fewer growths refused, than there must be."""
    met = {found[1]: tuple(map(int, found.groups()[1:])) for found in map(COUNTS.fullmatch, lines) if found}
    faults = [f"{name} is not told of" for name in FLOORS if name not in met]
    return faults + [f"{name}: {calls} calls, {refused} refused and {kept} answered all the same are too few"
                     for name, (calls, refused, kept) in met.items()
                     if name not in FLOORS or calls < FLOORS[name][0] or refused + kept < FLOORS[name][1]]


def judged_calls(refusing: Refusing) -> Sweep:
    """Runs the program once; it sweeps all calls."""
    done = Sweep("calls of the library", runs=1)
    ran = refusing.run([CALLS], seconds=300)
    if ran.is_late:
        done.faults.append("it hangs")
        return done
    lines = ran.errors.decode().splitlines()
    print("\n".join(lines))
    done.refused = ran.refused
    done.faults += too_few(lines)
    if ran.status or ran.output != bytes_at(FOLDER, "stdout"):
        done.faults.append(f"status {ran.status}, and it prints {ran.output.decode()!r}")
    return done


CAR_WINDOW = os.path.join(TOP, "crates", "car_window", "out", "car_window")
NAMES = ("closes", "opens_again", "pinches")
WORDS_OF_CAR_WINDOW = ("", "--csv", "--junit", "--live", "--live --csv", "--progress", "--stop-on pass", "--list --only pinches", "--only pinches --only closes",
         "--shard 2/2 --csv", "--only nowhere", "--stop-on maybe", "--csv --junit", "--frobnicate", "--help", "--version")


@dataclass
class CarWindowTask(Task):
    """Words for the program, which has no input."""

    @property
    def is_run(self) -> bool:
        return not self.has("--list")

    def every_case(self) -> List[SimpleNamespace]:
        """Its test cases, by their names."""
        return [SimpleNamespace(name=it) for it in NAMES]


def car_window_jobs(refusing: Refusing, is_whole: bool) -> List[Callable[[], Sweep]]:
    """The sweeps; each growth, and in the gate of those from one on every so manyth."""
    found: List[Callable[[], Sweep]] = []
    for line in WORDS_OF_CAR_WINDOW:
        task = CarWindowTask("car_window", tuple(line.split()))
        for what, behind, stride in (("growth", "", 1), ("growth", "..", 29), ("thread", "", 1), ("thread", "..", 1)):
            found.append(partial(sweep, refusing, CAR_WINDOW, task, what, behind, 1 if is_whole else stride))
    return found
