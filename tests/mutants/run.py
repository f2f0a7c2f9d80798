#!/usr/bin/env python3
"""Plants mutants into copies of the checkout, one at a time, and shows that the prover or a test refuses each.

usage: tests/mutants/run.py [LIST..] [--only WORD] [--by prover|tests] [--jobs N] [--program FILE] [--rt COMMAND] [--look]

The lists are tests/mutants/LIST.txt: one for each crate, client, page and script, and one for the documents. lists.py says how
they are written. It is no part of the gate: run the list of what you changed, and all of them before a release. The gate looks
whether each mutant can still be planted, as --look does, which takes a second. A mutant of a crate is refused by the proof, which
takes about ten seconds for each, or by tests that rt runs, which take a minute. Any other is refused by a test in Python. The
last line is 'N planted, M refused, K survived', and says how many were not planted or skipped if some were. The status is 0 if
all that were planted were refused and each could be planted, otherwise 1, and 3 if there is no program or no such mutant.
"""
import argparse
import os
import shlex
import sys
import tempfile
from collections import Counter, defaultdict
from concurrent.futures import ThreadPoolExecutor
from typing import Dict, Iterator, List, Tuple

sys.dont_write_bytecode = True

import copies as copies_of
import judges
import lists
import prover
from lists import TOP, Answer, Mutant, Outcome

from case import lanes


def refused_by_prover(chosen: List[Mutant], pool: ThreadPoolExecutor, rt: List[str]) -> Iterator[Tuple[Mutant, Answer]]:
    crates: Dict[str, List[Mutant]] = defaultdict(list)
    for it in chosen:
        crates[it.list.name].append(it)
    for of_crate in pool.map(lambda it: list(prover.answers(it, rt)), crates.values()):
        yield from of_crate


def answers(chosen: List[Mutant], given: argparse.Namespace) -> Iterator[Tuple[Mutant, Answer]]:
    rt, program = shlex.split(given.rt), os.path.abspath(given.program)
    by_prover = [it for it in chosen if it.is_proved]
    by_rt = [it for it in chosen if not it.list.tests and it.fails]
    by_programs = [it for it in chosen if it.list.tests]
    with ThreadPoolExecutor(given.jobs) as pool, copies_of.Copies(given.jobs) as copies:
        with tempfile.TemporaryDirectory(prefix="filskeam-engine-") as engine:
            yield from copies_of.answers(judges.Programs(program, engine), by_programs, pool, copies)
        yield from copies_of.answers(judges.RattleTests(rt, by_rt), by_rt, pool, copies)
        yield from refused_by_prover(by_prover, pool, rt)


def told(counts: Counter) -> str:
    planted = counts[Outcome.REFUSED] + counts[Outcome.SURVIVED]
    parts = [f"{planted} planted", f"{counts[Outcome.REFUSED]} refused", f"{counts[Outcome.SURVIVED]} survived"]
    return ", ".join(parts + [f"{counts[it]} {it.value}" for it in (Outcome.UNPLANTED, Outcome.SKIPPED) if counts[it]])


def main() -> int:
    parser = argparse.ArgumentParser(description="plants mutants, each of which the prover or a test must refuse")
    parser.add_argument("lists", nargs="*", metavar="LIST", help="the lists to take, all if none is named")
    parser.add_argument("--only", default="", help="the mutants with this in LIST/NAME")
    parser.add_argument("--by", choices=("prover", "tests"), help="those that one of the two must refuse")
    parser.add_argument("--jobs", type=int, default=lanes(), help="how many are worked on side by side")
    parser.add_argument("--program", default=os.path.join(TOP, "crates", "ttrun", "out", "ttrun"), help="the built ttrun")
    parser.add_argument("--rt", default="rt", help="the words that start rt")
    parser.add_argument("--look", action="store_true", help="plants none, and says which cannot be planted")
    given = parser.parse_args()
    mutants, unread = lists.read_all()
    known = {it.list.name for it in mutants}
    chosen = [it for it in mutants if (not given.lists or it.list.name in given.lists) and given.only in it.title
              and given.by in (None, "prover" if it.is_proved else "tests")]
    if not chosen or set(given.lists) - known:
        print(f"there is no such mutant; the lists are {', '.join(sorted(known))}", file=sys.stderr)
        return 3
    faults = dict(lists.faults(chosen, TOP))
    for line in [*unread, *(f"{title}: {why}" for title, why in faults.items())]:
        print(f"FAILED {line}", flush=True)
    if given.look:
        print(f"{len(chosen)} mutants, {len(faults) + len(unread)} faults")
        return 1 if faults or unread else 0
    if any(it.list.tests in judges.WITH_PROGRAM for it in chosen) and not os.access(given.program, os.X_OK):
        print(f"there is no program {given.program}: ./ttrun --help builds it", file=sys.stderr)
        return 3
    counts: Counter = Counter({Outcome.UNPLANTED: len(faults)})
    for mutant, (outcome, words) in answers([it for it in chosen if it.title not in faults], given):
        counts[outcome] += 1
        is_right = outcome in (Outcome.REFUSED, Outcome.SKIPPED)
        print(f"{'' if is_right else 'FAILED '}{outcome.value} {mutant.title}: {words}", flush=True)
    print(told(counts))
    return 1 if unread or counts[Outcome.SURVIVED] or counts[Outcome.UNPLANTED] else 0


if __name__ == "__main__":
    sys.exit(main())
