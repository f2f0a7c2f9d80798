#!/usr/bin/env python3
"""The tests of ttrun-titan: the reader of Titan's logs, the searches, the command, and Titan itself if it is installed.

usage: tests/titan/run.py [--program FILE] [--only WORD] [--jobs N] [--list]

The program is crates/ttrun/out/ttrun, which judges every history. The last line is 'N passed, M failed'; the status is 0 if
nothing failed, otherwise 1, and 3 if there is no program.
"""
import argparse
import os
import sys
from concurrent.futures import ProcessPoolExecutor

sys.dont_write_bytecode = True

from kit import holding, judged

holding.load("command_tests", "reading_tests", "search_tests")
# There are no fewer tests.
FEWEST = 74


def main() -> int:
    parser: argparse.ArgumentParser = holding.words_of("runs the tests of ttrun-titan")
    parser.add_argument("--jobs", type=int, default=min(4, os.cpu_count() or 1))
    given, [tests] = holding.chosen(parser, (holding.TESTS, FEWEST))
    with ProcessPoolExecutor(given.jobs) as pool:
        return holding.status_of(pool.map(judged, tests, [given.program] * len(tests)))


if __name__ == "__main__":
    sys.exit(main())
