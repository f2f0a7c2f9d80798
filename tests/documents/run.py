#!/usr/bin/env python3
"""The documents' tests: runs the commands that they show, reads the pipelines, makes a release and unpacks it.

usage: tests/documents/run.py [--program FILE] [--only WORD] [--list]

The program is crates/ttrun/out/ttrun, if none is named. The last line is 'N passed, M failed', and says how many were skipped where
some were; the status is 0 if nothing failed, otherwise 1, and 3 if there is no program.
"""
import sys
import tempfile
from concurrent.futures import ProcessPoolExecutor
from functools import partial
from typing import Callable, Dict

sys.dont_write_bytecode = True

import blocks
import released
import servers
from harness import answer_of, chosen, status_of, words_of
from case import lanes

# A test gets a folder and the program, and returns what it reached.
GROUPS = ((blocks.TESTS, 20), (servers.TESTS, 9), (released.TESTS, 18))


def in_a_room(test: Callable[[str, str], str], program: str) -> str:
    with tempfile.TemporaryDirectory(prefix="documents-test-") as room:
        return test(room, program)


if __name__ == "__main__":
    given, groups = chosen(words_of("runs what the documents show"), *GROUPS)
    tests: Dict[str, Callable] = {name: partial(in_a_room, test, given.program) for group in groups for name, test in group.items()}
    # Processes and not threads: while one writes a file that it then runs, no other may hold it open in a process that begins.
    with ProcessPoolExecutor(lanes()) as processes:
        sys.exit(status_of(processes.map(answer_of, tests, tests.values())))
