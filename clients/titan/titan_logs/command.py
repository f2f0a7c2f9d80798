"""The command ttrun-titan: its words, and what it prints."""
import argparse
import os
import re
import sys
from collections import Counter, defaultdict
from typing import Dict, Iterator, List, NamedTuple, NoReturn, Optional, Sequence, Tuple
from xml.sax.saxutils import escape, quoteattr

from . import audit as audits
from . import flaky as luck
from .cases import TestCase, cases_of
from .histories import found_program, page_of, show_to_check
from .limits import MOST_BYTES_OF_A_SCRIPT, MOST_STATES, MOST_TEST_CASES_OF_A_SCRIPT, STATES
from .lines import Refused
from .reading import read_case
from .sessions import read_sessions
from .table import VERDICTS

ABOUT = "Reads the logs of Eclipse Titan, and says which verdicts depended on luck."
CONTROL = re.compile(r"[\x00-\x1f\x7f-\x9f]")
STATUSES = "status: 0 nothing was found, 1 something was found, 3 refused, undecided or not judged"


class Parser(argparse.ArgumentParser):
    """Refuses wrong words with status 3."""

    def error(self, message: str) -> NoReturn:
        raise Refused(f"{message}; ttrun-titan --help says what there is")


class Found(NamedTuple):
    """What was read: the test cases, the session of each, and remarks on the logs."""

    cases: List[TestCase]
    sessions: List[str]
    remarks: List[str]


def states_of(word: str) -> int:
    if not word.isdigit() or not 1 <= int(word) <= MOST_STATES:
        raise argparse.ArgumentTypeError(f"a number from 1 to {MOST_STATES} is wanted")
    return int(word)


def parser() -> Parser:
    made = Parser(prog="ttrun-titan", description=ABOUT, epilog=STATUSES, allow_abbrev=False)
    commands = made.add_subparsers(dest="command", metavar="COMMAND", parser_class=Parser)
    texts = (("flaky", "which verdicts depended on who came first"), ("audit", "one legal order of all calls that the logs show"),
             ("script", "what the logs show as a script, for ttrun explore"))
    for name, text in texts:
        command = commands.add_parser(name, help=text, description=text, epilog=STATUSES, allow_abbrev=False)
        command.add_argument("logs", nargs="+", metavar="LOGS", help="a folder of logs, a log, or a file of ttcn3_logmerge")
        command.add_argument("--only", action="append", default=[], metavar="NAME", help="this test case, or NAME#2 for its second execution")
        command.add_argument("--states", type=states_of, default=STATES, metavar="N", help=f"how many states a search may look at ({STATES})")
        command.add_argument("--program", metavar="FILE", help="the program ttrun, if it is not found by itself")
        if name == "script":
            continue
        command.add_argument("--unchecked", action="store_true", help="does without ttrun: no history is shown to ttrun check")
        command.add_argument("--history", metavar="FILE", help="writes the orders that were found as histories")
        command.add_argument("--html", metavar="FILE", help="writes them as a page, which shows two of them side by side")
        command.add_argument("--junit", metavar="FILE", help="writes a JUnit report")
    return made


def is_chosen(case: TestCase, only: Sequence[str]) -> bool:
    return not only or case.name in only or case.title in only


def read(given: argparse.Namespace) -> Found:
    """Reads the logs, and the calls of the chosen test cases."""
    found = Found([], [], [])
    seen: Counter = Counter()
    for session in read_sessions(given.logs):
        for case in cases_of(session):
            seen[case.name] += 1
            case.execution = seen[case.name]
            if is_chosen(case, given.only):
                case.remarks += [f"{text}: what is named may be excluded by one" for _, text in session.left_out()]
                found.cases.append(read_case(case))
                found.sessions.append(os.path.basename(session.name))
        found.remarks.extend(f"{session.name}: {it}" for it in session.remarks)
    if not found.cases:
        raise Refused("no test case is in the logs" if not given.only else f"no test case {' or '.join(given.only)} is in the logs")
    return found


def write(path: Optional[str], text: str) -> None:
    if path is None:
        return
    try:
        with open(path, "w", encoding="utf-8") as file:
            file.write(text)
    except OSError as error:
        raise Refused(f"{path}: {error.strerror}") from error


def program_of(given: argparse.Namespace) -> Optional[str]:
    """The program ttrun, none if it is not wanted."""
    if given.unchecked and given.html is not None:
        raise Refused("--html needs ttrun, and --unchecked does without it")
    return None if given.unchecked else found_program(given.program)


def show(lines: Sequence[str]) -> None:
    """Prints lines; a letter from a log that would move a terminal's cursor is shown as a question mark."""
    print("\n".join(CONTROL.sub("?", it) for it in lines))


def told(found: Found, program: Optional[str]) -> Iterator[str]:
    """The remarks on the logs, and on what was not asked."""
    if program is None:
        yield "note: no history was shown to ttrun check"
    yield from (f"note: {it}" for it in found.remarks)


def table(rows: Sequence[Tuple[str, ...]]) -> Iterator[str]:
    widths = [max(len(row[at]) for row in rows) for at in range(len(rows[0]))]
    yield from ("  ".join(f"{cell:<{width}}" for cell, width in zip(row, widths)).rstrip() for row in rows)


def tally(outcomes: Sequence[str], order: Sequence[str]) -> str:
    """The last line: how many test cases have each outcome."""
    counts = Counter(outcomes)
    return f"{len(outcomes)} test case{'s' * (len(outcomes) != 1)}: " + ", ".join(f"{counts[it]} {it}" for it in order if counts[it])


def worst(statuses: Sequence[int]) -> int:
    """The status of all: a finding counts, whatever else was not judged."""
    return 1 if 1 in statuses else max(statuses)


def seen_verdicts(cases: Sequence[TestCase]) -> Iterator[str]:
    verdicts: Dict[str, Counter] = defaultdict(Counter)
    for case in cases:
        if case.verdict is not None:
            verdicts[case.name][case.verdict] += 1
    for name, counts in verdicts.items():
        if len(counts) > 1:
            yield f"seen: {name} had " + ", ".join(f"{it} {counts[it]} time{'s' * (counts[it] > 1)}" for it in VERDICTS if counts[it])


class Row(NamedTuple):
    """A test case of a JUnit report: `kind` is empty where it passed, otherwise `failure` or `error`."""

    name: str
    session: str
    kind: str
    message: str
    lines: Sequence[str]


def plain(text: str) -> str:
    """The text without letters that XML has no place for."""
    return re.sub(r"[^\t\n\x20-\ud7ff\ue000-\ufffd]", "?", text)


def element_of(row: Row) -> List[str]:
    found = [f"<testcase name={quoteattr(plain(row.name))} classname={quoteattr(plain(row.session))}>"]
    if row.kind:
        found.append(f"<{row.kind} type={quoteattr(row.kind)} message={quoteattr(plain(row.message))}/>")
    if row.lines:
        found += ["<system-out>", escape(plain("\n".join(row.lines))), "</system-out>"]
    return [*found, "</testcase>"]


def report_of(suite: str, rows: Sequence[Row]) -> str:
    failures, errors = (sum(it.kind == kind for it in rows) for kind in ("failure", "error"))
    counts = f'tests="{len(rows)}" failures="{failures}" errors="{errors}" skipped="0"'
    lines = ['<?xml version="1.0" encoding="UTF-8"?>', f"<testsuites {counts}>", f"<testsuite name={quoteattr(suite)} {counts}>"]
    for row in rows:
        lines += element_of(row)
    return "".join(f"{it}\n" for it in [*lines, "</testsuite>", "</testsuites>"])


def run_judged(given: argparse.Namespace) -> int:
    """Judges each test case by `flaky` or `audit`, and says what was found."""
    program, found = program_of(given), read(given)
    by, look, refused = (luck, luck.looked_at, luck.UNEXPLAINED) if given.command == "flaky" else (audits, audits.audited, audits.REFUSED)
    results = [look(it, given.states) for it in found.cases]
    show_to_check(results, program, refused)
    lines, cases, blocks = list(told(found, program)), [], []
    for one, session in zip(results, found.sessions):
        # The page has the histories by their numbers: the first of this test case, and another one.
        first = len(blocks)
        details = one.details(*(f"{given.html}#/{first}/{first + at}" for at in range(len(one.blocks)) if given.html is not None))
        blocks += one.blocks.values()
        if details:
            lines += [one.head, *(f"  {it}" for it in details), ""]
        kind = {0: "", 1: "failure"}.get(by.STATUS[one.outcome], "error")
        cases.append(Row(one.case.title, session, kind, one.head, details))
    write(given.history, "".join(blocks))
    if given.html is not None and program is not None:
        write(given.html, page_of(program, "".join(blocks)))
    write(given.junit, report_of(f"ttrun-titan {given.command}", cases))
    lines += [*table([by.COLUMNS, *(it.row() for it in results)]), *(seen_verdicts(found.cases) if by is luck else ())]
    show([*lines, tally([by.COUNTED[it.outcome] for it in results], tuple(by.COUNTED.values()))])
    return worst([by.STATUS[it.outcome] for it in results])


def run_script(given: argparse.Namespace) -> int:
    program, found = found_program(given.program), read(given)
    scripts = [audits.script_of(it, given.states, program) for it in found.cases]
    for case, (_, why) in zip(found.cases, scripts):
        said = [f"no script holds it: {why}"] if why else [
            f"the error of {it} is written as its kill: explore cannot say error" for it in audits.errors_in(case)]
        for it in said:
            print(CONTROL.sub("?", f"ttrun-titan: {case.title}: {it}"), file=sys.stderr)
    texts = [text for text, why in scripts if not why]
    if len(texts) > MOST_TEST_CASES_OF_A_SCRIPT or sum(map(len, texts)) > MOST_BYTES_OF_A_SCRIPT:
        raise Refused(f"a script holds {MOST_TEST_CASES_OF_A_SCRIPT} test cases and {MOST_BYTES_OF_A_SCRIPT} bytes: choose some with --only")
    sys.stdout.write("".join(texts))
    return 0 if len(texts) == len(scripts) else 3


def main(words: Optional[Sequence[str]] = None) -> int:
    for stream in (sys.stdout, sys.stderr):
        stream.reconfigure(errors="backslashreplace")
    try:
        given = parser().parse_args(words)
        if given.command is None:
            raise Refused("a command is missing; ttrun-titan --help says what there is")
        status = run_script(given) if given.command == "script" else run_judged(given)
        sys.stdout.flush()
        return status
    except Refused as refusal:
        print(CONTROL.sub("?", f"ttrun-titan: {refusal}"), file=sys.stderr)
        return 3
    except BrokenPipeError:
        os.dup2(os.open(os.devnull, os.O_WRONLY), 1)
        return 3
    except OSError as error:
        print(f"ttrun-titan: {error}", file=sys.stderr)
        return 3
