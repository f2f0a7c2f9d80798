#!/usr/bin/env python3
"""Hostile use: the programs with memory, threads and devices refused, cut and malicious texts, behaviours that halt one another.

usage: tests/hostile/run.py [--program FILE] [--all] [--jobs N]

The programs are those of crates/ttrun, refused_memory and car_window, which `rt ci` and `rt run` leave in their folders `out`.
Without --all, as ./gate runs it, every so manyth growth and byte is tried; with it each one, which takes minutes. If there is
no compiler of C nothing can be refused by a library: that fails. If the tests are not root's no other user can be refused threads:
those tests are skipped, and said to be. The last line is 'N passed, M failed'; the status is 0 if nothing failed, otherwise 1, and
3 if there is no program.
"""
import argparse
import contextlib
import io
import os
import sys
import time
from collections import Counter
from concurrent.futures import ThreadPoolExecutor
from typing import Callable, List, Optional
from unittest.mock import patch

sys.dont_write_bytecode = True

import false_answers
import given_texts
import sweeps
from refusing import Refusing, refusing
from sweeps import Sweep

from case import below, lanes
from harness import PROGRAM

# What must be met in the gate, by the tests that refuse something, and by those of texts.
REFUSING_FLOORS = {"right": 900, "refused": 5000, "aborted": 2000, "served in part": 60}
CAR_WINDOW_FLOORS = {"right": 150, "refused": 1000, "aborted": 50}
DEVICE_FLOORS = {"reads failed": 300, "writes failed": 200, "right": 100, "long inputs": 3}
TEXT_FLOORS = {"accepted": 100, "refused text": 4000}
LIMITED_FLOORS = {"right": 145, "aborted": 39}


def judged(title: str, work: List[Callable[[], Sweep]], floors: dict, threads: int) -> List[List[str]]:
    """Runs the tests of a part; the faults of each, and of the floors. It says what was met."""
    began = time.monotonic()
    with ThreadPoolExecutor(threads) as pool:
        done = list(pool.map(lambda it: it(), work))
    met = sum((it.met for it in done), Counter())
    runs, refused = sum(it.runs for it in done), sum(it.refused for it in done)
    for it in done:
        for fault in it.faults[:5]:
            print(f"FAILED {it.name}: {fault}")
    few = below(met, floors)
    for it in few:
        print(f"FAILED {title}: {it}")
    counts = [f"{runs} runs of {len(done)} tests", f"{refused} refusals", *(f"{count} {it}" for it, count in sorted(met.items()))]
    print(f"{title}: {', '.join(counts)}, in {time.monotonic() - began:.0f} seconds")
    return [it.faults for it in done] + [few]


def refused(library: Optional[Refusing], program: str, is_whole: bool, threads: int) -> List[List[str]]:
    """Runs the tests that a library refuses something; if there is none they fail."""
    parts = (("calls of the library", [lambda: sweeps.judged_calls(library)], {}),
             ("failing devices", sweeps.jobs_of_devices(library, program, is_whole), DEVICE_FLOORS),
             ("refused memory and threads", sweeps.jobs(library, program, is_whole), REFUSING_FLOORS),
             ("a program with test cases of its own", sweeps.car_window_jobs(library, is_whole), CAR_WINDOW_FLOORS))
    if library is not None:
        return [it for title, work, floors in parts for it in judged(title, work, floors, threads)]
    fault = f"{sum(len(work) for _, work, _ in parts)} tests are not run, since there is no compiler of C to build refuse.c"
    print(f"FAILED refused memory, threads and devices: {fault}")
    return [[fault]]


def without_a_compiler(program: str) -> Sweep:
    """Runs the tests that a library refuses something where no compiler is found: they must fail, and say why."""
    done, told = Sweep("without a compiler of C", runs=1), io.StringIO()
    with patch.dict(os.environ, PATH=""), contextlib.redirect_stdout(told), refusing() as library:
        results = refused(library, program, False, 1)
    if not any(results) or "no compiler of C" not in told.getvalue():
        done.faults.append(f"nothing failed, and it was said: {told.getvalue()!r}")
    return done


def limited(program: str, is_whole: bool, threads: int) -> List[List[str]]:
    """Runs the tests that the system refuses threads, or says that they are skipped."""
    with sweeps.for_each_user(program) as copied:
        work = sweeps.jobs_of_limits(copied or program, is_whole)
        if copied is not None:
            return judged("threads refused by the system", work, LIMITED_FLOORS, threads)
    print(f"skipped: {len(work)} tests of threads that the system refuses, since {sweeps.why_not()}")
    return []


def main() -> int:
    parser = argparse.ArgumentParser(description="hostile use of the built ttrun")
    parser.add_argument("--program", type=os.path.abspath, default=PROGRAM)
    parser.add_argument("--all", action="store_true", help="each growth and each byte")
    parser.add_argument("--jobs", type=int, default=lanes(), help="runs at a time")
    given = parser.parse_args()
    for it in (given.program, sweeps.CALLS, sweeps.CAR_WINDOW):
        if not os.access(it, os.X_OK):
            print(f"there is no program {it}: `rt run` in its crate builds it", file=sys.stderr)
            return 3
    results = judged("judged answers", [*false_answers.jobs(), lambda: without_a_compiler(given.program)], {}, 1)
    results += judged("texts", given_texts.jobs(given.program, given.all), TEXT_FLOORS, given.jobs)
    work = given_texts.jobs_of_halts(given.program, given.all)
    results += judged("behaviours that halt one another", work, given_texts.floors_of_halts(given.all), given.jobs)
    results += limited(given.program, given.all, given.jobs)
    with refusing() as library:
        results += refused(library, given.program, given.all, given.jobs)
    failed = sum(bool(it) for it in results)
    print(f"{len(results) - failed} passed, {failed} failed")
    return 1 if failed else 0


if __name__ == "__main__":
    sys.exit(main())
