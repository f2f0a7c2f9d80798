#!/usr/bin/env python3
"""The program's tests: runs the built ttrun as a user does, and compares standard output, standard error and status.

usage: tests/program/run.py [--program FILE] [--only WORD] [--seed N] [--list]

The program is crates/ttrun/out/ttrun, which `rt ci`, `rt run` and ./ttrun leave there. The last line is
'N passed, M failed'; the status is 0 if nothing failed, otherwise 1, and 3 if there is no program.
"""
import importlib
import sys
from collections import Counter
from typing import List

sys.dont_write_bytecode = True

import sizes
from case import Test, chosen_tests, run_all
from harness import words_of

# The modules of tests, each with the fewest that it may have. Those that a seed makes are not counted.
MODULES = {
    "rows": 150, "scripts": 100, "words": 474, "sizes": 57, "terminal": 111, "progress": 72, "examples": 43,
    "reports": 36, "evidence_rows": 145, "compared": 151, "chosen_rows": 92, "models": 113, "explain": 775, "car_window": 3,
    "random_moves": 0, "random_scripts": 0, "random_courses": 0}


def tests(seed: int) -> List[Test]:
    found: List[Test] = list(sizes.racing())
    for name, fewest in MODULES.items():
        module = importlib.import_module(name)
        group = list(module.cases()) if fewest else []
        if len(group) < fewest:
            sys.exit(f"{name}: {len(group)} tests are fewer than {fewest}")
        found += group + (module.judgements(seed) if hasattr(module, "judgements") else [])
    counts = Counter(it.name for it in found)
    if len(counts) < len(found):
        sys.exit(f"two tests have one name: {', '.join(it for it, count in counts.items() if count > 1)}")
    return found


def main() -> int:
    given, chosen = chosen_tests(words_of("runs the built ttrun as a user does"), tests)
    return run_all(chosen, given.program, "ttrun as a user runs it")


if __name__ == "__main__":
    sys.exit(main())
