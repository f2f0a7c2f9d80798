"""What --explain prints after the line of a fault, and that nothing else changes. Rows of a line are in explanations.txt."""
import re
from typing import Iterator, List, Tuple

from case import Case, as_lines, refused
from rows import STOP_ON, blocks_of, text


def there(words: str) -> str:
    """What is said of the words that may be where an explanation points."""
    return f"expected: {words}"


def within(test_case: int, behaviour: int = 0) -> List[str]:
    return [f"a behaviour began in line {behaviour}"] * bool(behaviour) + [f"a test case began in line {test_case}"]


STEPS = "end create start stop kill stopcase running alive done killed wait setverdict getverdict"
REPLIES = "made ok true false none pass inconc fail error matched parked ended"
ERRORS = "no-component not-main start-main already-running not-startable no-behaviour too-many stuck"
IN_HISTORY = "a history began in line 1"
SAID = "evidence has such a line: RUN # TEXT, RUN ! TEXT, or behaviour RUN NAME before others of the run"
RETURN = "a carriage return; a line ends with a line feed only"
NAME_RULE = "a name has 1 to 32 letters, digits and _, the first a letter, and is not all, any, mtc or self"
UNBOUND = "a component is named by a parameter, or by a create above"
UNKNOWN = "a start names a behaviour of its test case"
ARGUMENTS = "a start gives as many arguments as the behaviour has parameters"
TWICE = "a name is given once: to a test case of the script, a behaviour of the test case, a component of the behaviour"
TOO_MANY = "one more than there may be"
COMMENT = "a comment has a line of its own, which begins with #"
SOURCE = "the line looks like TTCN-3, which ttrun does not read"
ENDS = "each behaviour and each test case ends with `end`"
MISSING_END = f"an end is missing above: {ENDS}"
ONE_CALL = "a line of a script is one call, in words without ( ) { } ; and :="
NO_LOOPS = "a script has no conditions, loops and alternatives: its calls are made in the order of the text"
NO_PORTS = "a script has no ports and messages"
NO_VALUES = "a script has no types, values and variables: a create makes a component and names it"
NO_CONTROL = "a script has no control part: its test cases are run in the order of the text"
NO_MODULES = "a script has no modules: it begins with `testcase` and a name"
FOUR = "a start has at most 4 arguments"
VERDICT, COMPONENT = there("none, pass, inconc or fail"), there("the name of a component")
STARTED, TESTCASE = there("the behaviour that is started"), there("the name of a test case")
HEADER = there("history F NAME N, with F 1 or 2, and N from 1 to 64 or to 256")
FIRST_LINE = there("behaviours N, with N from 1 to 256")
PUMPS, OTHERS = "bound there: pump1 pump2", "behaviours after the first: worker probe"
LIKE_TTCN = "the text looks like TTCN-3, which ttrun does not read"
LIKE_SCRIPT = "the text looks like a script, which ttrun run reads"

# Line 3 of the first script has a byte that no line has, and line 5 of the second a word of TTCN-3.
SCRIPT = "testcase t\nbehaviour main\n{}\ncreate p\nend\nbehaviour w a\nend\nend\n"
NAMED_SCRIPT = "testcase t\nbehaviour main\ncreate pump1\ncreate pump2\n{}\nend\nbehaviour worker a b\nend\nbehaviour probe\nend\nend\n"

# Words of TTCN-3 that a script has none of, and what is printed about them.
ABSENT: List[Tuple[str, str]] = [
    ("module import group", NO_MODULES),
    ("control execute", NO_CONTROL),
    ("if else for while do alt interleave select repeat goto label altstep activate [", NO_LOOPS),
    ("timer timeout", "a script has no timers"),
    ("port map unmap connect disconnect send receive call reply trigger check", NO_PORTS),
    ("var const type template record set enumerated value", NO_VALUES),
    ("log action", "a script has no log and no texts"),
    ("return", "a behaviour ends with `end`, and returns nothing"),
]

# Name, the line's bytes, how it is shown, what is printed about it.
ODD_LINES: List[Tuple[str, bytes, str, str]] = [
    ("a_carriage_return", b"getverdict\r", "getverdict\\x0D", f"column 11: {RETURN}"),
    ("a_tab", b"\tgetverdict", "\\x09getverdict", "column 1: a tab; a line has spaces only"),
    ("a_zero_byte", b"e\0n\0d\0", "e\\x00n\\x00d\\x00", "column 2: a zero byte, as UTF-16 has them"),
    ("a_letter_that_is_not_ascii", "create p\u00e9".encode(), "create p\\xC3\\xA9", "column 9: the byte \\xC3"),
    ("an_escape", b"\x1b[31m", "\\x1B[31m", "column 1: the byte \\x1B"),
]

# Name, a script that is long, the fault, and what is said of it.
LONG_SCRIPTS: List[Tuple[str, str, str, List[str]]] = [
    ("a_thousand_steps", "testcase t;behaviour a;" + "getverdict;" * 1000 + "start mtc a a a a a", "line 1003: too many",
     [TOO_MANY, "a behaviour has at most 1000 steps", *within(1, 2)]),
    ("behaviours_of_a_script", "testcase t;" + "behaviour b;end;" * 256 + "behaviour b a a a a", "line 514: too many",
     [TOO_MANY, "a test case has at most 256 behaviours", *within(1)]),
    ("test_cases_of_a_script", "testcase t;behaviour b;end;end;" * 1000 + "testcase u", "line 4001: too many",
     [TOO_MANY, "a script has at most 1000 test cases"]),
    ("a_word_of_ten_thousand_bytes", "testcase t;behaviour a;start mtc ^" + "w" * 10000, "line 3: bad name", [STARTED, NAME_RULE, *within(1, 2)]),
    ("ten_thousand_bytes_of_ttcn_3", "testcase t;behaviour a;^p.start(f(" + "w" * 10000 + "))\\x3B", "line 3: line not understood",
     [there(STEPS), SOURCE, ONE_CALL, *within(1, 2)]),
    ("a_long_line", "testcase ^" + "1" * 1000, "line 1: bad name", [TESTCASE, NAME_RULE]),
]


def both(name: str, words: Tuple[str, ...], given: bytes, fault: str, notes: List[str]) -> Iterator[Case]:
    yield Case(f"explain_{name}", words + ("--explain",), given, errors=as_lines(f"ttrun: {fault}", *(f"  {it}" for it in notes)), status=3)
    yield refused(f"unexplained_{name}", words, given, fault)


def quoted(line: str) -> str:
    return f"`{line}`" if len(line) <= 60 else f"`{line[:60]}`.."


def pointed(line: str, *notes: str) -> Tuple[str, List[str]]:
    """The line without its mark, and what is said of it: the line, where the mark is, and these notes."""
    before, mark, behind = line.partition("^")
    line, word = before + behind, behind.partition(" ")[0]
    at = [f"column {len(before) + 1}: {quoted(word) if word else 'the end of the line'}"] if mark else []
    return line, [f"line: {quoted(line)}", *at, *notes]


def of_lines() -> Iterator[Case]:
    """Words of TTCN-3, and bytes that no line has."""
    for words, said in ABSENT:
        for word in words.split():
            line, told = pointed(f"^x {word};", there(STEPS), SOURCE, said, *within(1, 2))
            yield next(both(f"ttcn_3_{word}", ("run",), NAMED_SCRIPT.replace("{}", line).encode(), "line 5: line not understood", told))
    for name, odd, shown, note in ODD_LINES:
        told = [f"line: `{shown}`", note, *within(1, 2)]
        yield from both(name, ("run",), SCRIPT.encode().replace(b"{}", odd), "line 3: byte not allowed", told)


def bytes_of(spelled: str) -> bytes:
    """The input that is spelled so."""
    return re.sub(rb"\\x(..)", lambda it: bytes.fromhex(it[1].decode()), spelled.replace(";", "\n").encode())


def of_text(name: str, words: Tuple[str, ...], marked: str, fault: str, notes: List[str]) -> Iterator[Case]:
    """A whole input. What is said of all of it comes before its line, and there is none if it ends too early or has another byte."""
    given = bytes_of(marked)
    whole = [it for it in notes if it.startswith("the text looks like ")]
    if not fault.endswith(("text ends too early", "byte not allowed")):
        line = given.split(b"\n")[int(fault.split(":")[0][5:]) - 1].decode()
        notes = whole + pointed(line, *notes[len(whole):])[1]
    yield from both(name, words, given.replace(b"^", b""), fault, notes)


def of_file() -> Iterator[Case]:
    """The rows of explanations.txt, which says how they are written."""
    for words, given, said, *rows in blocks_of("explanations.txt"):
        for row in rows:
            name, _, rest = row.rpartition(" | ")
            marked, told = rest.split(" => ")
            line, place = pointed(marked)
            shown = {**globals(), "line": line, "column": len(line) + 2, "pointed": ";  ".join(place), "told": told.format(**globals()) if name else told}
            fault, *notes = said.format(**shown).split(";  ")
            if name and given == "{line}":
                yield from of_text(name, tuple(words.split()), marked, fault, notes)
            else:
                read = given.replace(";", "\n").format(line=line).encode() if name else bytes_of(given.format(line=line))
                yield from both(name or f"{words}: {given.format(line=line)}", (words,), read, fault, notes)


def large() -> Case:
    """A script of nearly 1 MiB, each line of which gives a name; in its last behaviour one is misspelt."""
    creates = b"".join(b"create p%03d\n" % it for it in range(1000))
    others = b"".join(b"behaviour b%d\n%send\n" % (run, creates) for run in range(87))
    script = b"testcase t\n" + others + b"behaviour last\nstart p000 b1\nend\nend\n"
    notes = (UNBOUND, "it is bound after line 3, to the end of that behaviour", "no name is bound there", *within(1, 87176))
    return next(both("a_large_script", ("run",), script, "line 87177: unbound reference", pointed("start ^p000 b1", *notes)[1]))


def cases() -> Iterator[Case]:
    yield from of_lines()
    for name, marked, fault, notes in LONG_SCRIPTS:
        yield from of_text(name, ("run",), f"{marked};", fault, notes)
    yield from of_file()
    yield large()
    # Each word that may be a reply or an error is read as one: an entry that is not read is refused before another is judged.
    replies = ["made 1" if it == "made" else it for it in REPLIES.split()] + [f"error {it}" for it in ERRORS.split()]
    histories = text(";".join(f"history 1 a 1;0 finish -> {it};end none" for it in replies))
    yield Case("each_word_of_a_reply_is_read", ("check",), histories, text("line 2: made 1, table gives ok"), status=3)
    yield Case("a_finish_and_a_wake_are_read", ("replay",), text("behaviours 1;0 finish;0 wake done all"), text("ok;ended;verdict none"))
    yield Case("explain_nothing", ("check", "--explain"), text("history 2 a 1;0 finish -> ok;end none"), output=b"legal a 1 none\n")
    yield refused("explain_no_word_of_stop_on", ("run", "--explain", "--stop-on", "bad"), b"foo\n", STOP_ON)
    yield refused("explain_too_long", ("run", "--explain"), b"#" * 1048577, "input too long")
