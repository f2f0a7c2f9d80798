#!/usr/bin/env python3
"""Times `ttrun serve`: calls a second of both clients with their processor time, and that of a move next to `replay`.

usage: bench/serve/measure.py PROGRAM [ROUNDS [LIBRARY]]

PROGRAM is the built ttrun, and each figure is the median of ROUNDS, 5 if none is given. With the folder that ./ttrun --library
prints there are calls in process too.
"""
import os
import statistics
import subprocess
import sys
import tempfile
import time
from typing import Callable, Iterator, List, Optional, Sequence, Tuple

sys.dont_write_bytecode = True
HERE = os.path.dirname(os.path.abspath(__file__))
TOP = os.path.dirname(os.path.dirname(HERE))
CPP = os.path.join(TOP, "clients", "cpp")
sys.path.insert(0, os.path.join(TOP, "clients", "python"))

from filskeam import Run, Server
from filskeam.library import FILE, InProcess, find_library

CALLERS = (1, 8)
CALLS = 16_000
CPP_CALLS = 64_000
ALONE = 80_000
MIXED = 60_000
BEHAVIOURS, MOST = 64, 256
KINDS = ("getverdict", "setverdict pass", "running {0}", "alive all", "done any", "setverdict inconc", "killed {0}", "getverdict")


# Calls a second, and the nanoseconds of processor time of a call, which depend less on what else the machine does.
Figure = Tuple[float, float]


def median(rounds: int, figure: Callable[[], Figure]) -> str:
    rate, each = map(statistics.median, zip(*(figure() for _ in range(rounds))))
    return f"{rate:,.0f} ({each:,.0f} ns)"


def timed(calls: int, act: Callable[[], object]) -> Figure:
    began, used = time.perf_counter(), time.process_time()
    act()
    return calls / (time.perf_counter() - began), 1e9 * (time.process_time() - used) / calls


def python_rate(command: Optional[Sequence[str]], callers: int) -> Figure:
    def busy(run: Run) -> None:
        for _ in range(CALLS // callers):
            run.get_verdict()

    def main(run: Run) -> None:
        for _ in range(callers):
            run.start(run.create(), busy)
        run.wait_done("all")

    with Server(command) as server:
        server.run("warm", lambda run: None)
        results = []
        figure = timed(CALLS, lambda: results.append(server.run("t_calls", main)))
    if results[0].verdict != "none" or results[0].evidence.count(" getverdict -> none\n") != CALLS:
        sys.exit(f"calls are missing: {results[0].report()}")
    return figure


def cpp_rate(built: str, command: Sequence[str], callers: int) -> Figure:
    used, seconds = processor_time([built, str(callers), str(CPP_CALLS), *command], "")
    return CPP_CALLS / float(seconds), 1e9 * used / CPP_CALLS


def bare_rate(command: Sequence[str]) -> Figure:
    """Round trips a second over two pipes, without a client and without threads: each call comes after the answer to the one before."""
    with subprocess.Popen(list(command), bufsize=0, stdin=subprocess.PIPE, stdout=subprocess.PIPE) as served:
        def ask(line: bytes) -> bytes:
            os.write(served.stdin.fileno(), line)
            return os.read(served.stdout.fileno(), 4096)

        ask(b"case t_bare 1\n")
        found = set()
        figure = timed(CALLS, lambda: found.update(ask(b"0 getverdict\n") for _ in range(CALLS)))
        ask(b"0 finish\n"), ask(b"end\n")
    return figure if found == {b"0 getverdict -> none\n"} else sys.exit("another answer")


def mixed_moves() -> Iterator[str]:
    """Moves of 64 behaviours, none of which waits."""
    for run in range(1, BEHAVIOURS):
        yield from (f"0 create named c_{run}", f"0 start {run} {run}")
    for at in range(MIXED):
        run = at % BEHAVIOURS
        yield f"{run} {KINDS[at // BEHAVIOURS % len(KINDS)].format((run * 7 + 1) % BEHAVIOURS or 1)}"
    yield from (f"{run} finish" for run in reversed(range(BEHAVIOURS)))


def sleeping_moves() -> Iterator[str]:
    """Moves of one behaviour while all others sleep, each until the next one is done."""
    others = range(1, MOST)
    for run in others:
        yield from (f"0 create named c_{run}", f"0 start {run} {run}")
    yield from (f"{run} wait done {run % len(others) + 1}" for run in others)
    yield from (f"0 {KINDS[at % len(KINDS)].format(at % len(others) + 1)}" for at in range(MIXED))


def processor_time(words: Sequence[str], text: str) -> Tuple[float, str]:
    """The seconds that a program worked for a text, and what it wrote."""
    with tempfile.TemporaryFile("w+") as given, tempfile.TemporaryFile("w+") as written:
        given.write(text)
        given.seek(0)
        process = subprocess.Popen(list(words), stdin=given, stdout=written)
        _, status, used = os.wait4(process.pid, 0)
        process.returncode = os.waitstatus_to_exitcode(status) if hasattr(os, "waitstatus_to_exitcode") else status >> 8
        written.seek(0)
        return used.ru_utime + used.ru_stime, written.read()


def texts_of(moves: Sequence[str], behaviours: int) -> Tuple[str, str]:
    lines = "".join(f"{it}\n" for it in moves)
    return f"case t_moves {behaviours}\n{lines}end\n", f"behaviours {behaviours}\n{lines}"


def next_to_replay(program: str, rounds: int, moves: Sequence[str], behaviours: int) -> Tuple[float, float]:
    """Nanoseconds a move of `serve` and of `replay`, which give the same replies. They take turns."""
    serves, replays = texts_of(moves, behaviours)
    found: List[Tuple[float, float]] = []
    for _ in range(rounds):
        (one, evidence), (other, replies) = processor_time([program, "serve"], serves), processor_time([program, "replay"], replays)
        answers = [it.rpartition(" -> ")[2] for it in evidence.splitlines() if " -> " in it]
        if answers != replies.splitlines()[:-1] or len(answers) != len(moves):
            sys.exit("serve and replay do not give the same replies")
        found.append((one, other))
    return tuple(1e9 * statistics.median(it) / len(moves) for it in zip(*found))  # type: ignore[return-value]


def bare_library_rate() -> Figure:
    """The library itself from Python, without a client."""
    table = InProcess(find_library())
    table.exchange(["case t_bare 1"])
    play, calls = table.library.filskeam_play, range(10 * CALLS)
    try:
        return timed(len(calls), lambda: [table.asked(play, "0 getverdict") for _ in calls])
    finally:
        table.close()


def rates(way: str, rounds: int, command: Optional[Sequence[str]], bare: Callable[[], Figure], *words: str) -> None:
    """Prints calls a second one way; the words are for the compiler of C++."""
    print(f"| calls a second (processor time of a call), {way} | one caller | eight callers |\n|---|---|---|")
    print(f"| from Python without a client and without threads | {median(rounds, bare)} | |")
    one, eight = (median(rounds, lambda: python_rate(command, it)) for it in CALLERS)
    print(f"| the Python client | {one} | {eight} |", flush=True)
    with tempfile.TemporaryDirectory() as room:
        built = os.path.join(room, "callers")
        subprocess.run(["c++", "-std=c++17", "-O2", "-pthread", f"-I{CPP}", os.path.join(HERE, "callers.cpp"), *words, "-o", built], check=True)
        one, eight = (median(rounds, lambda: cpp_rate(built, command or (), it)) for it in CALLERS)
        print(f"| the C++ client | {one} | {eight} |", flush=True)
        if words:
            found = [map(float, subprocess.run([built, "1", "0"], stdout=subprocess.PIPE, check=True).stdout.split()) for _ in range(rounds)]
            alone, locked, four, both = map(statistics.median, zip(*found))
            print(f"| from C++ without a client | {alone:,.0f} | |\n| the same under a lock; four threads | {locked:,.0f} | {four:,.0f} |")
            print(f"\nan open and a close: {both:.0f} ns")
    print()


def times(program: str, rounds: int) -> None:
    print("| a move | serve, ns | replay, ns | ratio |\n|---|---|---|---|")
    lone, mixed, sleeping = [*["0 getverdict"] * ALONE, "0 finish"], list(mixed_moves()), list(sleeping_moves())
    for name, moves, behaviours in ((f"{ALONE:,} getverdict of one behaviour", lone, 1),
                                    (f"{MIXED:,} mixed moves of {BEHAVIOURS} behaviours", mixed, BEHAVIOURS),
                                    (f"the same, in a test case of {MOST} behaviours, as the clients open it", mixed, MOST),
                                    (f"{MIXED:,} mixed moves of one behaviour while {MOST - 1} of {MOST} sleep", sleeping, MOST)):
        one, other = next_to_replay(program, rounds, moves, behaviours)
        print(f"| {name} | {one:.0f} | {other:.0f} | {one / other:.1f} |", flush=True)


def main() -> int:
    if not sys.argv[1:]:
        print(__doc__, file=sys.stderr)
        return 3
    program, rounds = sys.argv[1], int((sys.argv + ["5"])[2])
    served = [program, "serve"]
    rates("over a pipe", rounds, served, lambda: bare_rate(served))
    for folder in sys.argv[3:]:
        os.environ["FILSKEAM_LIBRARY"] = os.path.join(folder, FILE)
        rates("in process", rounds, None, bare_library_rate, "-DIN_PROCESS", os.path.join(folder, "libfilskeam.a"))
    times(program, rounds)
    return 0


if __name__ == "__main__":
    sys.exit(main())
