"""What is seen of a server over pipes: when a line is answered, and what a pipe that is closed on either side does."""
import random
import sys
import time
from collections import Counter
from typing import Callable, Dict, Iterable, Iterator, List, Sequence

from case import Ran, as_lines, faults_in
from harness import call
from reference import Server
from sessions import SECONDS, Pipe, Session

Judge = Callable[[Sequence[str]], Iterable[str]]
TESTS: Dict[str, Judge] = {}
# How long nothing must come, if nothing is wanted.
QUIET = 0.2
# How many lines must be answered, each before the next is written.
EXCHANGES = 1000


def test(judge: Judge) -> Judge:
    """Lists a test under its name."""
    TESTS[judge.__name__] = judge
    return judge


def exchanged(pipe: Pipe, given: bytes, wanted: bytes) -> List[str]:
    pipe.write(given)
    came = pipe.read_all_of(len(wanted)) if wanted else pipe.read(QUIET)
    return [] if came == wanted else [f"the answer to {given!r}: wanted {wanted!r}, came {came!r}"]


def told_at_once(pipe: Pipe, given: bytes, wanted: str) -> List[str]:
    """Gives a line and reads what is printed about it."""
    pipe.write(given)
    told = pipe.process.stderr.readline()
    return [] if told == as_lines(wanted) else [f"standard error has {told!r} for {given!r}"]


@test
def each_line_of_random_sessions_is_answered_before_the_next(command: Sequence[str]) -> Iterator[str]:
    """Every answer, and every line on standard error, comes before the client writes more."""
    chance, server, answered = random.Random("exchanges"), Server(), 0
    with Pipe(command) as pipe:
        while answered < EXCHANGES:
            for line in Session(chance, Counter()).lines:
                output, errors = server.take(line)
                given = f"{line}\n".encode("latin-1")
                yield from exchanged(pipe, given, as_lines(*output)) if output else told_at_once(pipe, given, f"ttrun: {errors[0]}")
                answered += 1
        yield from faults_in(Ran(b"", b"", server.status()), pipe.ended())


@test
def answers_of_8192_bytes_are_flushed(command: Sequence[str]) -> Iterator[str]:
    """Those to one read, before the next."""
    made = [f"0 create -> made {number}" for number in range(1, 489)]
    remark = f"0 # {'x' * 18}"
    with Pipe(command) as pipe:
        yield from exchanged(pipe, b"case t 1\n" + b"0 create\n" * 99, as_lines("evidence 1 t 1", *made[:99]))
        yield from exchanged(pipe, b"0 create\n" * 389 + as_lines(remark), as_lines(*made[99:], remark))
        yield from exchanged(pipe, b"0 finish\nend\n", as_lines("0 finish -> ok", "end none"))


@test
def half_a_line_is_not_answered(command: Sequence[str]) -> List[str]:
    """A line byte by byte is answered at its line feed, and not before."""
    with Pipe(command) as pipe:
        faults = exchanged(pipe, b"case t 1", b"") + exchanged(pipe, b"\n0 getverd", b"evidence 1 t 1\n")
        faults += exchanged(pipe, b"ict", b"")
        for byte in b"\n0 finis":
            pipe.write(bytes([byte]))
            time.sleep(0.002)
        faults += exchanged(pipe, b"h\n", b"0 getverdict -> none\n0 finish -> ok\n")
        return faults + faults_in(Ran(b"end none\n", b"ttrun: the input ended inside a test case\n", 0), pipe.ended())


@test
def a_server_ends_at_a_fault_though_the_input_goes_on(command: Sequence[str]) -> List[str]:
    """Outside a case a refused line ends it, while its client still holds the pipe."""
    with Pipe(command) as pipe:
        pipe.write(b"0 finish\n")
        pipe.process.wait(SECONDS)
        return faults_in(Ran(b"", b"ttrun: line 1: no test case is open\n", 3), pipe.ended())


@test
def a_client_that_dies_leaves_whole_evidence(command: Sequence[str]) -> List[str]:
    """What it wrote before stays, half a line is refused, and the case is closed."""
    client = (
        "import os, subprocess, sys, time\n"
        "it = subprocess.Popen(sys.argv[1:], stdin=subprocess.PIPE)\n"
        "it.stdin.write(b'case t 2\\n0 create\\n0 start 1 1'); it.stdin.flush()\n"
        "os.kill(os.getpid(), 9)\n"
    )
    wanted = Ran(b"evidence 1 t 2\n0 create -> made 1\n0 ! no line feed\nend none\n", b"ttrun: the input ended inside a test case\n", -9)
    return faults_in(wanted, call([sys.executable, "-c", client, *command], b""))


@test
def a_server_whose_output_nobody_reads_ends(command: Sequence[str]) -> List[str]:
    """A client that has closed its side is a write fault."""
    with Pipe(command) as pipe:
        pipe.process.stdout.close()
        pipe.write(b"case t 1\n")
        status = pipe.process.wait(SECONDS)
        return faults_in(Ran(b"", b"ttrun: write fault\n", 3), Ran(b"", pipe.process.stderr.read(), status))


def redirected(command: Sequence[str], redirect: str, given: bytes) -> Ran:
    return call(["sh", "-c", f'"$@" {redirect}', "sh", *command], given)


@test
def a_full_device_is_a_write_fault(command: Sequence[str]) -> List[str]:
    """Standard output takes nothing."""
    return faults_in(Ran(b"", b"ttrun: write fault\n", 3), redirected(command, "> /dev/full", b"case t 1\n"))


@test
def an_input_that_cannot_be_read_is_a_read_fault(command: Sequence[str]) -> List[str]:
    """Standard input is open only for writing."""
    return faults_in(Ran(b"", b"ttrun: read fault\n", 3), redirected(command, "0> /dev/null", b""))


@test
def a_closed_standard_error_costs_nothing(command: Sequence[str]) -> List[str]:
    """A refusal that standard error does not take is not reported."""
    wanted = Ran(b"evidence 1 t 1\n0 finish -> ok\nend none\n", b"", 3)
    return [fault for closed in ("2> /dev/full", "2>&-")
            for fault in faults_in(wanted, redirected(command, closed, b"case t 1\nfly\n0 finish\nend\n"))]
