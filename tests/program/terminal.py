"""The program at a terminal: a person sees what a pipe gets with --explain, byte by byte, and before an input that is typed one line, which
says what is read. Devices that fail: closed, full and broken pipes, a directory."""
import contextlib
import os
import pty
import subprocess
import termios
from typing import Iterator, List, Optional, Tuple, Union

import examples
from case import SECONDS, Case, Judgement, Ran, SomeText, Word, answer, difference, faults_in, refusal, refused
from harness import ended, shown_at
from rows import STOP_ON, of_verdicts, text

# A history that is refused, after its script.
BEHIND = b"testcase a\nbehaviour m\nend\nend\nhistory 2 a 1\n0 crate\nend none\n"
RESTART = examples.bytes_of("restart.script")
MISSPELT = b"testcase t\nbehavior b\n"
CRATE = b"history 2 a 1\n0 crate\n"
# Each with its words and its input: from a file, and below typed.
GIVEN: List[Tuple[str, str, bytes]] = [
    ("help", "--help", b""),
    ("help_of_run", "help run", b""),
    ("refused_words", "frobnicate", b""),
    ("report", "run", RESTART),
    ("table", "run --csv", RESTART),
    ("refused_script", "run", b"testcase\n"),
    ("refused_script_of_a_list", "run --list", MISSPELT),
    ("refused_script_of_a_search", "explore", MISSPELT),
    ("unknown_test_case", "run --only t_fial", RESTART),
    ("refused_script_not_explained", "run --no-explain", b"testcase\n"),
    ("refused_history", "check", CRATE),
    ("refused_history_not_explained", "check --no-explain", CRATE),
    ("refused_history_of_a_report", "report --junit", CRATE),
    ("refused_history_behind_a_script", "check --script", BEHIND),
    ("refused_history_of_a_report_behind_a_script", "report --csv --script", BEHIND),
    ("refused_history_of_what_failed", "run --failed", BEHIND),
    ("refused_script_before_a_history", "check --script", b"testcase a\nbehaviour m\nsetverdct pass\nend\nend\nhistory 2 a 1\nend none\n"),
    ("refused_history_of_a_model", "model", CRATE),
    ("refused_moves", "replay", b"behaviours 1\n0 crate\n"),
    ("replies", "replay", b"behaviours 1\n"),
]
TYPED: List[Tuple[str, str, bytes]] = [
    ("typed_script", "run", RESTART),
    ("typed_without_a_word", "", RESTART),
    ("typed_live", "run --live --csv", RESTART),
    ("typed_refusal", "check", b"no history\n"),
    ("typed_report", "report --csv", b"no history\n"),
    ("typed_models", "model --last", b"history 1 t 1\n0 finish -> ok\nend none\n"),
    ("typed_long", "check --long --no-explain", b"no history\n"),
    ("typed_moves", "replay", b"behaviours 1\n0 getverdict\n"),
    ("typed_search", "explore", RESTART),
    ("typed_list", "run --list", RESTART),
    ("typed_lines", "serve", b"case t 1\n0 getverdict\n0 finish\nend\n"),
    ("typed_nothing", "replay", b""),
]
# Words with which no input is read.
UNREAD: List[Tuple[str, str, bytes]] = [
    ("help_with_a_keyboard", "run --help", b""),
    ("refused_with_a_keyboard", "report", b""),
    ("refused_rule_with_a_keyboard", "run --stop-on bad", b""),
]
HISTORIES = b"ttrun: reads histories from the terminal; end them with Ctrl-D\n"
AWAITED = {"check": HISTORIES, "report": HISTORIES, "model": HISTORIES, "replay": b"ttrun: reads a list of moves from the terminal; end it with Ctrl-D\n",
           "serve": b"ttrun: reads lines of test cases from the terminal; end them with Ctrl-D\n"}
SCRIPT = b"ttrun: reads a script from the terminal; end it with Ctrl-D\n"

READ, WRITE = "read fault", "write fault"

# Each command with an input that it takes.
TAKEN = (
    ("replay", ("replay",), text("behaviours 1;0 setverdict fail")),
    ("check", ("check",), text("history 1 t 1;end none")),
    ("model", ("model",), text("history 1 t 1;0 finish -> ok;end none;history 1 t 1;end none")),
    ("check_of_an_illegal_one", ("check",), text("history 1 t 1;end pass")),
    ("run", ("run",), examples.bytes_of("workers.script")),
    ("csv", ("run", "--csv"), RESTART),
    ("history", ("run", "--history"), of_verdicts("error")),
    ("evidence", ("run", "--evidence"), of_verdicts("error")),
    ("serve", ("serve",), text("case t 1;0 finish;end")),
    ("no_word", (), of_verdicts("pass")),
)
REFUSED = (
    ("replay", ("replay",), b"", "line 1: text ends too early"),
    ("check", ("check",), b"\n", "line 1: bad first line"),
    ("run", ("run", "--csv"), b"end\n", "line 1: not allowed here"),
    ("serve", ("serve",), b"end\n", "line 1: no test case is open"),
)


def explained(words: Tuple[str, ...]) -> Tuple[str, ...]:
    """The words for a pipe, where nothing is explained unless that is asked for."""
    if not words:
        return ("run", "--explain")
    takes = words[0] in ("run", "check", "replay", "report", "model", "explore")
    return words + ("--explain",) if takes and "--no-explain" not in words else words


def terminal() -> Tuple[int, int]:
    """A terminal without echo: the end of the person, and that of the program."""
    master, slave = pty.openpty()
    modes = termios.tcgetattr(slave)
    modes[3] &= ~termios.ECHO
    termios.tcsetattr(slave, termios.TCSANOW, modes)
    return master, slave


def seen(program: str, words: Tuple[str, ...], given: bytes, typed: bool, shown: bool, told: bool) -> Ran:
    """What a terminal without echo gets of a run, and then what a pipe gets on standard error. Standard input, output and error are at
    the terminal, or not; what is typed ends with the key for the end."""
    master, slave = terminal()
    ends = [slave if it else subprocess.PIPE for it in (typed, shown, told)]
    with subprocess.Popen([program, *words], stdin=ends[0], stdout=ends[1], stderr=ends[2], start_new_session=True) as started:
        os.close(slave)
        if typed:
            os.write(master, given + b"\x04")
        else:
            started.stdin.write(given)
            started.stdin.close()
        output = shown_at(master, started)
        errors = b"" if told else started.stderr.read()
    return Ran(output.replace(b"\r\n", b"\n"), errors, started.returncode)


def faults_at_a_terminal(program: str, words: Tuple[str, ...], given: bytes, typed: bool, awaited: bytes) -> List[str]:
    """A run whose texts are on one stream, after the line before an input that is typed."""
    ran = answer(program, given, *explained(words))
    faults = ["the pipes got nothing, or both got something"] if bool(ran.output) == bool(ran.errors) else []
    return faults + faults_in(Ran(awaited + ran.output + ran.errors, b"", ran.status), seen(program, words, given, typed, True, True))


def faults_of_standard_error(program: str, typed: bool, shown: bool, told: bool) -> List[str]:
    """Whether a fault is explained depends on standard error only, and the line before the input on standard input only."""
    wanted = (SCRIPT if typed else b"") + answer(program, b"testcase\n", "run", *["--explain"] * told).errors
    came = seen(program, ("run",), b"testcase\n", typed, shown, told)
    return difference("standard error", wanted, came.output if told else came.errors)


def unwritable(name: str, words: Tuple[Word, ...], given: bytes = b"") -> Iterator[Case]:
    """A command whose standard output is full, closed or a pipe that nobody reads."""
    for device, how in (("full", {"redirect": ">/dev/full"}), ("closed", {"redirect": ">&-"}), ("broken", {"is_broken": True})):
        yield refused(name.format(device), words, given, WRITE, **how)


def unwritten() -> Iterator[Case]:
    for name, words, given in TAKEN:
        yield from unwritable(f"output_{{}}_{name}", words, given)
        yield Case(f"output_and_error_full_{name}", words, given, status=3, redirect=">/dev/full 2>/dev/full")
    for name, words, given, line in REFUSED:
        yield refused(f"refused_before_a_full_output_{name}", words, given, line, redirect=">/dev/full")
    for words in (("--help",), ("help", "run"), ("check", "-h")):
        yield from unwritable(f"{{}}_{'_'.join(words)}", words)


def unread() -> Iterator[Case]:
    """Standard input cannot be read, or must not be."""
    for words in (("replay",), ("check",), ("run",), ("run", "--csv"), ("serve",), ()):
        name = words[-1].strip("-") if words else "none"
        for how, redirect in (("closed", "<&-"), ("is_a_directory", "</"), ("is_write_only", "0>/dev/null")):
            yield refused(f"input_{how}_{name}", words, b"", READ, redirect=redirect)
    yield refused("input_and_output_closed", ("replay",), b"", READ, redirect="<&- >&-")
    yield refused("stop_on_before_reading", ("run", "--stop-on", "maybe"), b"", STOP_ON, redirect="</")
    yield Case("words_before_reading", ("run", "--csv", "--history"), errors=SomeText(), status=3, redirect="</")
    yield refused("an_empty_device", ("replay",), b"", "line 1: text ends too early", redirect="</dev/null")


def untold() -> Iterator[Case]:
    """Standard error cannot be written: the status stays."""
    for name, redirect in (("closed", "2>&-"), ("full", "2>/dev/full")):
        for word, words, given, _ in REFUSED:
            yield Case(f"error_{name}_{word}", words, given, status=3, redirect=redirect)
        yield Case(f"error_{name}_words", ("frobnicate",), status=3, redirect=redirect)
        yield Case(f"error_{name}_stop_on", ("run", "--stop-on", "maybe"), status=3, redirect=redirect)
        yield Case(f"error_{name}_not_utf8", (b"\xff",), status=3, redirect=redirect)
        yield Case(f"error_{name}_and_all_is_well", ("replay",), text("behaviours 1;0 setverdict fail"),
                   text("ok;verdict fail"), status=1, redirect=redirect)
        yield Case(f"error_{name}_help", ("--help",), output=SomeText(("Usage",)), redirect=redirect)
    yield Case("everything_closed", ("replay",), status=3, redirect="<&- >&- 2>&-")


def faults_next_to(program: str, words: Tuple[str, ...], given: Optional[int], taken: Optional[int], line: str) -> List[str]:
    """Why a run with these ends of pipes does not end at once with this line on standard error, and with status 3."""
    other = subprocess.DEVNULL
    with subprocess.Popen([program, *words], stdin=other if given is None else given, stdout=other if taken is None else taken,
                          stderr=subprocess.PIPE, start_new_session=True) as started:
        return faults_in(refusal(line), ended(started, b"", SECONDS))


@contextlib.contextmanager
def pipe() -> Iterator[Tuple[int, int]]:
    ends = os.pipe()
    try:
        yield ends
    finally:
        for it in ends:
            os.close(it)


def judge_a_read(program: str) -> List[str]:
    """A read that would block, after a beginning of the input, is a fault, and is not made again."""
    with pipe() as (reading, writing):
        os.set_blocking(reading, False)
        os.write(writing, b"behaviours 1\n")
        return faults_next_to(program, ("replay",), reading, None, READ)


def judge_a_write(program: str) -> List[str]:
    """A write that would block, to a pipe that is full, is a fault, and is not made again."""
    with pipe() as (_, writing):
        os.set_blocking(writing, False)
        with contextlib.suppress(BlockingIOError):
            while os.write(writing, b"x" * 4096):
                pass
        return faults_next_to(program, ("--version",), None, writing, WRITE)


def cases() -> List[Union[Case, Judgement]]:
    found = [*unwritten(), *unread(), *untold(),
             Judgement("a_read_that_would_block", "ttrun replay < (a pipe that does not wait)", judge_a_read),
             Judgement("a_write_that_would_block", "ttrun --version | (a full pipe that does not wait)", judge_a_write)]
    for rows, typed in ((GIVEN, False), (TYPED, True), (UNREAD, True)):
        for name, line, given in rows:
            words = tuple(line.split())
            awaited = AWAITED.get("".join(words[:1]), SCRIPT) if rows is TYPED else b""
            found.append(Judgement(f"at_a_terminal_{name}", " ".join(["ttrun", *words]), faults_at_a_terminal, (words, given, typed, awaited)))
    return found + [Judgement(name, "ttrun run", faults_of_standard_error, tuple(ends)) for name, *ends in (
        ("a_terminal_without_standard_error", False, True, False), ("a_keyboard_without_standard_error", True, False, False),
        ("a_keyboard_and_output_without_standard_error", True, True, False), ("a_terminal_for_standard_error_only", False, False, True))]
