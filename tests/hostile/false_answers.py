"""False answers, each of which must be judged wrong, and true ones next to them: a test of the judge of the other tests."""
from typing import Callable, Iterator, List, Tuple

from refusing import NO_MEMORY, Ran, Task, judged
from sweeps import Sweep, sweep, text

SCRIPT = text("testcase a;behaviour main;setverdict pass;end;end;testcase b;behaviour main;end;end")
FIRST = text("testcase a;run 0 main on 0;  setverdict pass -> ok;  finish -> ok;local 0 pass;verdict pass")
SECOND = text("testcase b;run 0 main on 0;  finish -> ok;local 0 none;verdict none")
WHOLE = FIRST + SECOND + text("cases 2 none 1 pass 1 inconc 0 fail 0 error 0;complete")
ABORTED = FIRST + text("cases 1 none 0 pass 1 inconc 0 fail 0 error 0;aborted at b: no memory")
AT_B = b"ttrun: aborted at b: no memory\n"
AT_A = AT_B.replace(b" b:", b" a:")
# What clap says of itself if memory runs out.
BY_CLAP = b"error: out of memory\n"
HEADER = text("testcase,components,none,pass,inconc,fail,error,verdict")
RECORD = text("a,1,0,1,0,0,0,pass")
HISTORY = text("history 2 a 1;0 setverdict pass -> ok;0 finish -> ok;end pass;history 2 b 1;0 finish -> ok;end none")

COUNTS = b'tests="2" failures="0" errors="0"'
HEAD = (b'<?xml version="1.0" encoding="UTF-8"?>\n<testsuites COUNTS skipped="SKIPPED">\n<testsuite name="ttrun" COUNTS skipped="SKIPPED">\n'
        b'<properties>\n<property name="version" value="1"/>\n</properties>\n')
OF_A = b'<testcase name="a" classname="ttrun">\n<system-out>\n  pass: mtc\n</system-out>\n</testcase>\n'
OF_B = b'<testcase name="b" classname="ttrun">\n<skipped/>\n<system-out>\n  none: mtc\n</system-out>\n</testcase>\n'
NOT_B = OF_B.replace(b"<skipped/>", b'<error type="aborted" message="no memory"/>').replace(b"  none: mtc\n", b"")
UNRUN_B = NOT_B.replace(b'<error type="aborted" message="no memory"/>', b'<skipped message="not run"/>')
TAIL = b"</testsuite>\n</testsuites>\n"
JUNIT = HEAD.replace(b"COUNTS", COUNTS).replace(b"SKIPPED", b"1") + OF_A + OF_B + TAIL
ABORTED_JUNIT = HEAD.replace(b"COUNTS", b'tests="2" failures="0" errors="1"').replace(b"SKIPPED", b"0") + OF_A + NOT_B + TAIL
JUNIT_AT_A = (HEAD.replace(b"COUNTS", b'tests="2" failures="0" errors="1"').replace(b"SKIPPED", b"1")
              + NOT_B.replace(b'name="b"', b'name="a"') + UNRUN_B + TAIL)

PLAIN = Task("two", ("run",), SCRIPT)
LIVE = Task("two", ("run", "--live"), SCRIPT)
TABLE = Task("two", ("run", "--csv"), SCRIPT)
HISTORIES = Task("two", ("run", "--history"), SCRIPT)
SUITE = Task("two", ("run", "--junit"), SCRIPT)
PROGRESS = Task("two", ("run", "--progress"), SCRIPT)
SERVED = Task("three_lines", ("serve",), text("case t 1;fly;0 finish;end"))
LINES = text("evidence 1 t 1;0 finish -> ok;end none")
NOBODY = b"ttrun: line 2: bad line\n"
LIVE_PROGRESS = Task("two", ("run", "--live", "--progress"), SCRIPT)
OF_FIRST, OF_SECOND = text("1/2 a ..;1/2 a pass 0.041 s"), text("2/2 b ..;2/2 b none 0.000 s")
TOLD = {PROGRESS.words: OF_FIRST + OF_SECOND, LIVE_PROGRESS.words: OF_FIRST + OF_SECOND, SERVED.words: NOBODY}
STATUS = {SERVED.words: 3}
AMPLE = {SERVED.words: LINES, PROGRESS.words: WHOLE, LIVE_PROGRESS.words: WHOLE, PLAIN.words: WHOLE, LIVE.words: WHOLE, TABLE.words: HEADER + RECORD + text("b,1,1,0,0,0,0,none"),
         HISTORIES.words: HISTORY, SUITE.words: JUNIT}


def answers() -> Iterator[Tuple[str, Task, Ran]]:
    """A kind, a task and an answer of that kind, by a run that was refused one growth."""
    both = TOLD[PROGRESS.words]
    wrong: List[Tuple[Task, bytes, bytes, int]] = [
        (PLAIN, b"", b"", -11), (PLAIN, b"", b"", -6), (PLAIN, b"", b"", 0), (PLAIN, WHOLE, b"", 3), (PLAIN, WHOLE, b"", 1),
        (PLAIN, WHOLE[:-9], b"", 0), (PLAIN, FIRST, NO_MEMORY, 3), (PLAIN, WHOLE, NO_MEMORY, 3), (PLAIN, b"", NO_MEMORY, 0),
        (PLAIN, b"", NO_MEMORY + NO_MEMORY, 3), (PLAIN, b"", b"ttrun: read fault\n", 3), (PLAIN, WHOLE, b"ttrun: no memory\n", 0),
        (PLAIN, b"", AT_B, 3), (PLAIN, FIRST, AT_B, 3), (PLAIN, ABORTED, AT_B, 0), (PLAIN, ABORTED, AT_A, 3),
        (PLAIN, ABORTED, AT_B.replace(b"no memory", b"no thread"), 3), (PLAIN, ABORTED, AT_B.replace(b"no memory", b"torn"), 3),
        (PLAIN, ABORTED.replace(b"pass 1", b"pass 0"), AT_B, 3), (PLAIN, FIRST, BY_CLAP, 3), (PLAIN, FIRST, b"", 3),
        (PLAIN, b"", BY_CLAP, 3), (PLAIN, b"", b"", 3), (PLAIN, ABORTED, b"", 3), (PLAIN, ABORTED, NO_MEMORY, 3), (LIVE, FIRST, b"", 3),
        (TABLE, HEADER + RECORD, b"", 3), (PLAIN, b"", NO_MEMORY[:-1], 3),
        (LIVE, FIRST[:-1], NO_MEMORY, 3), (LIVE, FIRST + SECOND[:20], NO_MEMORY, 3), (LIVE, SECOND, NO_MEMORY, 3),
        (TABLE, HEADER + RECORD, NO_MEMORY, 3), (TABLE, HEADER, AT_B, 3), (TABLE, RECORD, AT_B, 3),
        (HISTORIES, HISTORY[:-10], b"", 0), (HISTORIES, HISTORY.replace(b"setverdict pass", b"setverdict fail"), b"", 0),
        (HISTORIES, b"", AT_B, 3), (HISTORIES, HISTORY, AT_B, 3), (SUITE, JUNIT, AT_B, 3), (SUITE, JUNIT, NO_MEMORY, 3),
        (SUITE, ABORTED_JUNIT, NO_MEMORY, 3), (SUITE, ABORTED_JUNIT.replace(b'errors="1"', b'errors="0"', 1), AT_B, 3),
        (SUITE, ABORTED_JUNIT.replace(NOT_B, b""), AT_B, 3), (SUITE, JUNIT.replace(TAIL, b""), b"", 0),
        (SUITE, JUNIT_AT_A.replace(UNRUN_B, b""), AT_A, 3), (SUITE, JUNIT_AT_A.replace(b'skipped="1"', b'skipped="0"'), AT_A, 3),
        (SUITE, ABORTED_JUNIT.replace(TAIL, UNRUN_B + TAIL), AT_B, 3),
        (PROGRESS, WHOLE, both[:-1], 0), (PROGRESS, WHOLE, OF_SECOND + OF_FIRST, 0), (PROGRESS, WHOLE, both.replace(b"none", b"fail"), 0),
        (PROGRESS, WHOLE, OF_FIRST + OF_FIRST, 0), (PROGRESS, WHOLE, both.replace(b" 0.041 s", b""), 0),
        (PROGRESS, WHOLE, both + text("failed: b none"), 0), (PROGRESS, WHOLE, both + both, 0), (PROGRESS, FIRST, both, 0),
        (PROGRESS, ABORTED, both + AT_B, 3), (PROGRESS, ABORTED, AT_B + OF_FIRST, 3), (PROGRESS, FIRST, both + NO_MEMORY, 3),
        (PROGRESS, WHOLE, both + NO_MEMORY, 3), (PROGRESS, WHOLE, both, 3), (LIVE_PROGRESS, FIRST[:-1], OF_FIRST + NO_MEMORY, 3),
        (LIVE_PROGRESS, FIRST, OF_FIRST, 3),
        (SERVED, LINES, NOBODY, 0), (SERVED, LINES[:-1], NOBODY, 3), (SERVED, LINES, NOBODY * 2, 3), (SERVED, LINES[:15], b"", 3),
        (SERVED, LINES[:20], NOBODY + NO_MEMORY, 3), (SERVED, LINES[15:], NOBODY + NO_MEMORY, 3), (SERVED, LINES, NO_MEMORY, 3),
        (SERVED, LINES[:-9], NO_MEMORY + NOBODY, 3), (SERVED, b"", NOBODY + NO_MEMORY, 3), (SERVED, LINES[:-9], NO_MEMORY, 3),
    ]
    for task, output, errors, status in wrong:
        yield "wrong", task, Ran(output, errors, status, refused=1)
    yield "wrong", PLAIN, Ran(b"", b"", -9, refused=1, is_late=True)
    # If nothing was refused, nothing may be reported as refused.
    yield "wrong", PLAIN, Ran(b"", NO_MEMORY, 3, refused=0)
    yield "wrong", PLAIN, Ran(ABORTED, AT_B, 3, refused=0)
    yield "wrong", PROGRESS, Ran(WHOLE, OF_FIRST, 0, refused=0)
    one = HISTORY[:HISTORY.index(b"history 2 b")]
    true: List[Tuple[str, Task, bytes, bytes, int]] = [
        ("right", PLAIN, WHOLE, b"", 0), ("right", HISTORIES, HISTORY, b"", 0), ("refused", PLAIN, b"", NO_MEMORY, 3),
        ("aborted", PLAIN, ABORTED, AT_B, 3), ("aborted", TABLE, HEADER + RECORD, AT_B, 3), ("aborted", HISTORIES, one, AT_B, 3),
        ("right", SUITE, JUNIT, b"", 0), ("aborted", SUITE, ABORTED_JUNIT, AT_B, 3), ("aborted", SUITE, JUNIT_AT_A, AT_A, 3), ("refused", SUITE, b"", NO_MEMORY, 3),
        ("refused", LIVE, FIRST, NO_MEMORY, 3), ("refused", LIVE, FIRST + SECOND, NO_MEMORY, 3), ("aborted", LIVE, ABORTED, AT_B, 3),
        ("right", PROGRESS, WHOLE, both.replace(b"0.041", b"12.345"), 0), ("refused", PROGRESS, WHOLE, text("1/2 a .."), 0),
        ("aborted", PROGRESS, ABORTED, both[:both.index(b"2/2 b none")] + AT_B, 3), ("refused", PROGRESS, WHOLE, OF_FIRST, 0), ("refused", PROGRESS, WHOLE, b"", 0),
        ("refused", PROGRESS, b"", both + NO_MEMORY, 3), ("refused", PROGRESS, b"", NO_MEMORY, 3), ("aborted", PROGRESS, ABORTED, OF_FIRST + AT_B, 3),
        ("refused", LIVE_PROGRESS, FIRST, both + NO_MEMORY, 3), ("right", LIVE_PROGRESS, WHOLE, both, 0),
        ("right", SERVED, LINES, NOBODY, 3), ("served in part", SERVED, b"", NO_MEMORY, 3), ("served in part", SERVED, LINES[:15], NO_MEMORY, 3),
        ("served in part", SERVED, LINES[:15], NOBODY + NO_MEMORY, 3), ("served in part", SERVED, LINES[:-9], NOBODY + NO_MEMORY, 3),
    ]
    for kind, task, output, errors, status in true:
        yield kind, task, Ran(output, errors, status, refused=1)


def judged_answers() -> Sweep:
    done = Sweep("false answers")
    for kind, task, ran in answers():
        found = judged(task, Ran(AMPLE[task.words], TOLD.get(task.words, b""), STATUS.get(task.words, 0), refused=0), ran)
        done.runs += 1
        done.met[f"judged {found.kind}"] += 1
        if found.kind != kind:
            done.faults.append(f"{' '.join(task.words)}, {ran}: judged {found.kind} ({found.fault}), and it is {kind}")
    return done


class FalseProgram:
    """Answers as a program that is refused a thread for its second test case, and says this of it."""

    def __init__(self, why: str) -> None:
        self.why = why.encode()

    def run(self, words: List[str], given: bytes = b"", plan: str = "") -> Ran:
        """Only the first thread is refused."""
        if plan != "thread:1":
            return Ran(WHOLE, b"", 0, threads=1, refused=0)
        return Ran(ABORTED.replace(b"no memory", self.why), AT_B.replace(b"no memory", self.why), 3, threads=1, refused=1)


def judged_sweeps() -> Sweep:
    """A program that is refused a thread must not say that memory ran out."""
    done = Sweep("false answers to a refused thread", runs=2)
    for why, is_right in (("no thread", True), ("no memory", False)):
        faults = sweep(FalseProgram(why), "ttrun", PLAIN, "thread", "", 1).faults
        if (not faults) != is_right:
            done.faults.append(f"{why}: {faults}")
    return done


def jobs() -> List[Callable[[], Sweep]]:
    return [judged_answers, judged_sweeps]
