#!/usr/bin/env python3
"""The tests of the protocol of `ttrun serve`: rows of texts, pipes, and random sessions that are held to the reference server.

usage: tests/serve/run.py [--server COMMAND] [--only WORD] [--seed N] [--list]

Without --server it is the reference server itself that is tested, tests/serve/reference.py. To test the program:
--server "crates/ttrun/out/ttrun serve". The last line is 'N passed, M failed'; the status is 0 if nothing failed, otherwise 1.
"""
import os
import sys
from typing import List

sys.dont_write_bytecode = True
sys.path.insert(0, os.path.join(os.path.dirname(os.path.dirname(os.path.abspath(__file__))), "program"))

import over_pipes
import served_rows
import sessions
from case import Judgement, chosen_tests, faults_of, run_all
from harness import call
from holding import command_of, words_of_clients

FEWEST_ROWS = 98
SEEDS = 4


def tests(seed: int) -> List[Judgement]:
    table = list(served_rows.rows())
    if len(table) < FEWEST_ROWS or len({row.name for row in table}) < len(table):
        sys.exit(f"there are {len(table)} rows; {FEWEST_ROWS} are wanted, each with a name of its own")
    found = [Judgement(row.name, "", lambda command, row: faults_of(row, call(command, row.given)), (row,)) for row in table]
    found += [Judgement(name, "", judge) for name, judge in over_pipes.TESTS.items()]
    return found + [Judgement(f"{kind}_sessions_{it}", "", sessions.random_sessions, (it, kind == "plain"))
                    for kind in ("random", "plain") for it in range(SEEDS * seed, SEEDS * seed + SEEDS)]


def main() -> int:
    given, chosen = chosen_tests(words_of_clients("tests a server of the protocol of ttrun serve"), tests)
    return run_all(chosen, command_of(given), f"the protocol of ttrun serve, over {given.server}")


if __name__ == "__main__":
    sys.exit(main())
