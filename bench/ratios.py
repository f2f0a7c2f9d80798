#!/usr/bin/env python3
"""Times `ttrun` next to a plain Rust program of the same job, run in turn, and prints one table of their ratios.

usage: bench/ratios.py PROGRAM [--rounds N] [--only WORD] [--instructions] [--write]

PROGRAM is the built ttrun. What both print is compared byte by byte first. A ratio is the median over the rounds of ttrun's processor
time by its twin's, and its spread is what lies between the quarters of the rounds. Next to it are the ratio by the clock and, with
--instructions, that of the instructions that valgrind counts in one round. `bench/ratios.txt` has the ratio of processor time, its
spread and the ratio of instructions of each row in an earlier run. A row fails, and then the status is 1, if its ratio of processor
time is above the earlier one by more than the spread, or its ratio of instructions by more than a hundredth. With --write the rows
are written into the file, and none fails.
"""
import argparse
import os
import re
import statistics
import subprocess
import sys
import tempfile
from typing import Dict, List, NamedTuple, Sequence, Tuple

HERE = os.path.dirname(os.path.abspath(__file__))
LANDED = os.path.join(HERE, "ratios.txt")


class Row(NamedTuple):
    """A job: the subcommand, what makes its input, and the source of its twin."""

    command: str
    made_by: Tuple[str, str]
    twin: str


SCRIPTS = ("many", "verdicts", "status", "parked_1", "parked_8", "parked_32", "stopped")
ROWS: Dict[str, Row] = {
    "replay": Row("replay", ("replay", "1048576"), "replay/twin.rs"),
    "replay, a tenth": Row("replay", ("replay", "104857"), "replay/twin.rs"),
    "check, one block": Row("check", ("check", "one"), "check/twin.rs"),
    "check, 342 blocks": Row("check", ("check", "many"), "check/twin.rs"),
    "check, empty blocks": Row("check", ("check", "empty"), "check/twin.rs"),
    **{f"run, {it}": Row("run", ("campaign", it), "campaign/twin/main.rs") for it in SCRIPTS},
}


class Spent(NamedTuple):
    milliseconds: float
    clock: float
    mebibytes: float


class Sides(NamedTuple):
    """The rounds of the program, and of its twin."""

    ours: List[Spent]
    theirs: List[Spent]


def built(source: str, work: str) -> str:
    program = os.path.join(work, source.replace("/", "_"))
    if not os.path.exists(program):
        subprocess.run(["rustc", "--edition", "2024", "-O", os.path.join(HERE, source), "-o", program], check=True)
    return program


def generated(row: Row, work: str) -> str:
    kind, word = row.made_by
    path = os.path.join(work, f"{kind}_{word}")
    with open(path, "wb") as file:
        subprocess.run([sys.executable, os.path.join(HERE, "generate.py"), kind, word], stdout=file, check=True)
    return path


def output_of(words: Sequence[str], path: str) -> bytes:
    with open(path, "rb") as given:
        return subprocess.run(list(words), stdin=given, stdout=subprocess.PIPE, check=False).stdout


def instructions(words: Sequence[str], path: str) -> int:
    command = ["valgrind", "--tool=callgrind", "--callgrind-out-file=/dev/null", *words]
    with open(path, "rb") as given:
        ran = subprocess.run(command, stdin=given, stdout=subprocess.DEVNULL, stderr=subprocess.PIPE, check=False)
    return int(re.search(rb"Collected : (\d+)", ran.stderr)[1])


def timed(measure: str, rounds: int, ours: Sequence[str], theirs: Sequence[str], path: str) -> Sides:
    """Both programs in turn, so that other work meets both."""
    ran = subprocess.run([measure, str(rounds), path, *ours, "--", *theirs], stdout=subprocess.PIPE, check=True, text=True)
    lines = [[float(it) for it in line.split()] for line in ran.stdout.splitlines()]
    return Sides([Spent(*it[:3]) for it in lines], [Spent(*it[3:]) for it in lines])


def spread_of(ratios: List[float]) -> float:
    """What lies between the quarters."""
    if len(ratios) < 4:
        return 0.0
    first, _, third = statistics.quantiles(ratios, n=4)
    return third - first


class Found(NamedTuple):
    """The ratio of processor time to the twin's, its spread, and the ratio of instructions, 0 if they were not counted."""

    ratio: float
    spread: float
    counted: float

    def is_slower(self, before: "Found") -> bool:
        """Of the spreads the larger counts."""
        return self.ratio > before.ratio + max(self.spread, before.spread) or self.counted > before.counted * 1.01 > 0


def landed() -> Dict[str, Found]:
    with open(LANDED, encoding="utf-8") as file:
        lines = [it.split("\t") for it in file.read().splitlines() if not it.startswith("#")]
    return {name: Found(*map(float, figures)) for name, *figures in lines}


def write_landed(found: Dict[str, Found]) -> None:
    with open(LANDED, "w", encoding="utf-8") as file:
        file.write("# To the twin's: processor time, its spread, instructions. By bench/ratios.py --instructions --write.\n")
        file.writelines("\t".join([name, *(f"{it:.3f}" for it in figures)]) + "\n" for name, figures in found.items())


def cells(sides: Sides, found: Found) -> List[str]:
    medians = [f"{statistics.median(it.milliseconds for it in side):.2f}" for side in sides]
    peaks = [f"{max(it.mebibytes for it in side):.1f}" for side in sides]
    by_clock = statistics.median(our.clock / their.clock for our, their in zip(*sides))
    counted = f"{found.counted:.2f}" if found.counted else ""
    return [*medians, f"{found.ratio:.2f}", f"{found.spread:.2f}", f"{by_clock:.2f}", counted, *peaks]


def read_words() -> argparse.Namespace:
    parser = argparse.ArgumentParser(description="ttrun next to its twins, as ratios")
    parser.add_argument("program")
    parser.add_argument("--rounds", type=int, default=15)
    parser.add_argument("--only", default="")
    parser.add_argument("--instructions", action="store_true")
    parser.add_argument("--write", action="store_true")
    return parser.parse_args()


def main() -> int:
    asked = read_words()
    before = landed() if os.path.exists(LANDED) else {}
    found: Dict[str, Found] = {}
    failed = 0
    print("| input | ttrun, ms | twin, ms | ratio | spread | by the clock | instructions | ttrun, MiB | twin, MiB | earlier |")
    print("|---|---|---|---|---|---|---|---|---|---|")
    with tempfile.TemporaryDirectory() as work:
        measure = built("measure.rs", work)
        for name, row in ROWS.items():
            if asked.only not in name:
                continue
            path, ours, theirs = generated(row, work), [asked.program, row.command], [built(row.twin, work)]
            if output_of(ours, path) != output_of(theirs, path):
                print(f"ratios: {name}: the twin prints something else", file=sys.stderr)
                return 1
            sides = timed(measure, asked.rounds, ours, theirs, path)
            counted = instructions(ours, path) / instructions(theirs, path) if asked.instructions else 0.0
            ratios = [our.milliseconds / their.milliseconds for our, their in zip(*sides)]
            found[name] = Found(statistics.median(ratios), spread_of(ratios), counted)
            slower = name in before and found[name].is_slower(before[name])
            failed += slower and not asked.write
            earlier = f"{before[name].ratio:.2f}, {before[name].counted:.2f}" if name in before else ""
            print(f"| {name} | {' | '.join(cells(sides, found[name]))} | {earlier}{', SLOWER' if slower else ''} |", flush=True)
    if asked.write:
        write_landed({**before, **found})
    return 1 if failed else 0


if __name__ == "__main__":
    sys.exit(main())
