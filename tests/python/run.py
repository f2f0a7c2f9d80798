#!/usr/bin/env python3
"""The tests of the Python client of `ttrun serve`, over the reference server.

usage: tests/python/run.py [--server COMMAND] [--only WORD] [--jobs N] [--list]

To test over the program: --server "crates/ttrun/out/ttrun serve". With --server "library FOLDER", as ./ttrun --library prints it,
the tests run over the table in this process, except those that are about a server. The last line is 'N passed, M failed', and says how many
were skipped if some were; the status is 0 if nothing failed, otherwise 1. With the variable FILSKEAM_CLIENT the client is
taken from that folder.
"""
import itertools
import os
import sys
import tempfile
from concurrent.futures import ThreadPoolExecutor
from typing import Sequence

sys.dont_write_bytecode = True

import kit

import holding
from case import lanes

holding.load("document_tests", "ending_tests", "model_tests", "server_tests", "word_tests")

FEWEST = 57
# Tests that change what the whole process has: they run one by one, after the others.
ALONE = ("the_program_is_found",)
# The modules of tests that a table in this process runs too, and those of their tests that are about a server.
BOTH_WAYS = ("ending_tests", "word_tests")
OF_PIPES = ("a_case_past_its_time_out_is_no_pass", "a_forked_child_keeps_no_pipe", "a_bench_that_is_interrupted_leaves_its_evidence")


def reached(name: str, command: Sequence[str]) -> str:
    """Runs a test, which must say what it reached."""
    with tempfile.TemporaryDirectory(prefix="filskeam-test-") as room:
        place = kit.Place(room, command)
        holding.TESTS[name](place)
        holding.hold(place.reached, "it does not say what it reached")
        return ", ".join(place.reached)


def main() -> int:
    parser = holding.words_of_clients("tests the Python client of ttrun serve")
    parser.add_argument("--jobs", type=int, default=lanes(), help="how many run side by side")
    given, [tests] = holding.chosen(parser, (holding.TESTS, FEWEST))
    command = holding.command_of(given)
    if command[0] == "library":
        os.environ["FILSKEAM_LIBRARY"] = os.path.join(command[1], "libfilskeam.so")
        tests = [it for it in tests if holding.TESTS[it].__module__ in BOTH_WAYS and it not in OF_PIPES]

    def judged(name: str) -> holding.Answer:
        return holding.answer_of(name, lambda: reached(name, command))

    with ThreadPoolExecutor(given.jobs) as pool:
        together = list(pool.map(judged, [it for it in tests if it not in ALONE]))
        return holding.status_of(itertools.chain(together, (judged(it) for it in tests if it in ALONE)))


if __name__ == "__main__":
    sys.exit(main())
