"""Writes orders as histories of format 2, and two of them side by side. The program ttrun: its place, what it says of a text of histories,
and the page that it writes of one."""
import os
import re
import shutil
import subprocess
from dataclasses import dataclass, field
from itertools import takewhile
from typing import Dict, Iterator, List, Optional, Sequence

from .cases import TestCase
from .limits import MOST_BYTES_OF_A_HISTORY, MOST_BYTES_OF_A_NAME, MOST_ROWS, SECONDS_OF_A_CALL
from .lines import Refused
from .playing import Entry, ends_its_run, played
from .table import MOST_BEHAVIOURS, MOST_COMPONENTS, Op, Table

COLUMN = 40
LONGEST_ENTRY = 80
NO_NAMES = ("all", "any", "mtc", "self")
TOP = os.path.dirname(os.path.dirname(os.path.dirname(os.path.dirname(os.path.abspath(__file__)))))
BUILT = os.path.join(TOP, "crates", "ttrun", "out", "ttrun")
LEGAL = re.compile(r"legal (\w+) (\d+) (\w+)")


def found_program(given: Optional[str]) -> str:
    """The program: the given one, that of TTRUN or FILSKEAM_TTRUN, the one that this checkout built, or `ttrun` on the path."""
    named = given or os.environ.get("TTRUN") or os.environ.get("FILSKEAM_TTRUN")
    path = named or (BUILT if os.access(BUILT, os.X_OK) else shutil.which("ttrun"))
    if path is None or not os.access(path, os.X_OK):
        raise Refused(f"there is no program {path or BUILT}: ./ttrun --help builds it, TTRUN=FILE or --program FILE names it,"
                      " --unchecked does without it")
    return os.path.abspath(path)


def call(program: str, words: Sequence[str], text: str) -> "subprocess.CompletedProcess[str]":
    try:
        return subprocess.run([program, *words], input=text, capture_output=True, encoding="utf-8", errors="replace",
                              timeout=SECONDS_OF_A_CALL, check=False)
    except (OSError, subprocess.TimeoutExpired) as error:
        raise Refused(f"{program} {' '.join(words)}: {error}") from error


def first_said(ran: "subprocess.CompletedProcess[str]") -> str:
    return (ran.stderr.strip() or f"status {ran.returncode}").splitlines()[0]


def checked(program: Optional[str], blocks: Sequence[str]) -> List[str]:
    """Of each block nothing if `ttrun check` found it legal, otherwise what it said; without a program nothing is asked."""
    said = [""] * len(blocks)
    if program is None or not blocks:
        return said
    ran = call(program, ["check", "--long"], "".join(blocks))
    legal = [it for it in ran.stdout.splitlines() if LEGAL.fullmatch(it)]
    if ran.returncode == 0 and len(legal) == len(blocks):
        return said
    for place, block in enumerate(blocks):
        alone = call(program, ["check"], block)
        if alone.returncode != 0 or not LEGAL.fullmatch(alone.stdout.strip()):
            said[place] = (alone.stdout.strip() or alone.stderr.strip() or f"status {alone.returncode}").splitlines()[-1]
    return said


def page_of(program: str, text: str) -> str:
    ran = call(program, ["report", "--html"], text)
    if not ran.stdout.lstrip()[:9].lower().startswith("<!doctype"):
        raise Refused(f"this ttrun writes no page: {first_said(ran)}; --history FILE keeps the histories")
    return ran.stdout


@dataclass
class Finding:
    """What was found of a test case. `blocks` are its histories, by the verdicts that they show if there may be several."""

    case: TestCase
    outcome: str = ""
    blocks: Dict[str, str] = field(default_factory=dict)
    remarks: List[str] = field(default_factory=list)


def show_to_check(found: Sequence[Finding], program: Optional[str], refused: str) -> None:
    """Shows all histories to `ttrun check`. One that it refuses is left out, and the test case has this outcome."""
    shown = [(one, verdict) for one in found for verdict in one.blocks]
    for (one, verdict), said in zip(shown, checked(program, [one.blocks[verdict] for one, verdict in shown])):
        if said:
            one.outcome = refused
            del one.blocks[verdict]
            one.remarks.insert(0, f"ttrun check says of the order{f' for {verdict}' * bool(verdict)}: {said}")


def name_of(case: TestCase) -> str:
    """A name that a history may have: that of the test case, and which execution it is."""
    end = "" if case.execution == 1 else f"_{case.execution}"
    plain = re.sub(r"[^A-Za-z0-9_]", "_", case.name)[: MOST_BYTES_OF_A_NAME - len(end)]
    if not re.match(r"[A-Za-z]", plain) or plain in NO_NAMES:
        plain = f"t_{plain}"[: MOST_BYTES_OF_A_NAME - len(end)]
    return plain + end


def why_none(case: TestCase) -> str:
    """Why no history can hold the test case, nothing if one can."""
    if len(case.runs) > MOST_BEHAVIOURS:
        return f"{len(case.runs) - 1} starts, and a history holds {MOST_BEHAVIOURS - 1}"
    if len(case.numbers) >= MOST_COMPONENTS:
        return f"{len(case.numbers) + 1} components, and the component table holds {MOST_COMPONENTS}"
    # The longest entry: a create of an alive-type component with a name.
    if case.total * LONGEST_ENTRY > MOST_BYTES_OF_A_HISTORY:
        return f"{case.total} calls, and a history holds {MOST_BYTES_OF_A_HISTORY // LONGEST_ENTRY} of any kind"
    return ""


def ends_of_halted(table: Table, entries: Sequence[Entry]) -> Iterator[Entry]:
    """The end of each behaviour that was halted and has no entry after it: it calls nothing more."""
    last = {it.run: it for it in entries}
    for run in sorted(table.component_of_run):
        if not table.is_going_on(run) and not (run in last and ends_its_run(last[run].op, last[run].reply, table.component_of_run[run])):
            yield Entry(run, Op("finish"), "ended")


def block_of(case: TestCase, entries: Sequence[Entry]) -> str:
    table = played(case, entries)
    lines = [f"history 2 {name_of(case)} {len(case.runs)}", *(it.text() for it in [*entries, *ends_of_halted(table, entries)]), f"end {table.overall()}"]
    return "".join(f"{it}\n" for it in lines)


def side_by_side(one: Sequence[Entry], other: Sequence[Entry], heads: Sequence[str]) -> List[str]:
    """Two orders from where they part: the lines of a table with two columns."""
    left, right = [it.text() for it in one], [it.text() for it in other]
    alike = len(list(takewhile(lambda both: both[0] == both[1], zip(left, right))))
    left, right = left[alike:], right[alike:]
    most = max(len(left), len(right))
    rows = [(heads[0], heads[1])]
    rows += [(left[at] if at < len(left) else "", right[at] if at < len(right) else "") for at in range(min(MOST_ROWS, most))]
    return [f"alike for {alike} entries", *(f"{a:<{COLUMN}} | {b}".rstrip() for a, b in rows), *[".."] * (most > MOST_ROWS)]
