#!/usr/bin/env python3
"""Numbers of the documents that a program can count: each is that of the sources.

`python3 tests/claims/counted.py --write` writes them, and the table of what must be believed.
"""
import math
import os
import re
import sys
from typing import Callable, Dict, Iterator, Tuple

sys.dont_write_bytecode = True

import believed
import plain
from sources import TOP, crates, files_below, read, text_of

WORDS = ("none", "one", "two", "three", "four", "five", "six", "seven", "eight", "nine", "ten", "eleven", "twelve")
FEWEST_ROWS_OF_LIMITS = 13
FEWEST_NUMBERS = 70


def constant(path: str, name: str) -> int:
    """The value of a constant of Rattle or Python: a number, or a product of numbers."""
    found = re.search(rf"(?m)^(?:pub(?:\(crate\))? const {name}: \w+|const {name}: \w+|{name}) = ([\d_ *]+)", text_of(path))
    return math.prod(map(int, found[1].replace("_", "").split("*")))


def variants(path: str, name: str) -> int:
    body = re.search(rf"(?ms)^pub enum {name} {{(.*?)^}}", text_of(path))[1]
    return len(re.findall(r"(?m)^    [A-Z]\w*[,({ ]", body))


def believed_lines(of_headline: bool = False, first: int = 0, inside: bool = False) -> int:
    """The lines of definitions on which public clauses, or the headline, rest: of all crates, of the first ones, or those in Inside."""
    all_of, cited, headline = believed.rested_upon()
    crates = believed.libraries()[:first or None]
    places = {it for it in (headline if of_headline else cited) if it[0].split(".")[0] in crates}
    return believed.lines_of({it for it in places if not inside or ".Inside" in it[0]}, all_of)


def greatest(path: str, name: str) -> int:
    """The greatest number that a type which holds only a number can have."""
    return 2 ** found_number(path, rf"pub struct {name}\(pub u(\d+)\)") - 1


def found_number(path: str, pattern: str) -> int:
    return int(re.search(pattern, text_of(path))[1].replace("_", ""))


ENTRY = ("crates/tc_parts_tests/src/entries.rt", r"size_of::<Entry>\(\), (\d+)")
LIMITS, INPUTS, WORKER = "crates/tc_entry/src/limits.rt", "crates/tc_answer/src/limits.rt", "crates/tc_exec/src/worker.rt"
COUNTS: Dict[str, Callable[[], int]] = {
    "behaviours": lambda: constant(LIMITS, "BEHAVIOURS"), "components": lambda: constant(LIMITS, "COMPONENTS"),
    "arguments": lambda: constant(LIMITS, "ARGUMENTS"), "name bytes": lambda: constant(LIMITS, "NAME_BYTES"),
    "stack": lambda: constant(WORKER, "WORKER_STACK"), "stack in MiB": lambda: constant(WORKER, "WORKER_STACK") >> 20,
    "steps": lambda: constant("crates/tc_step/src/limits.rt", "STEPS"),
    "test cases": lambda: constant("crates/tc_reader/src/counts.rt", "TEST_CASES"),
    "behaviours of format 1": lambda: constant("crates/tc_blocks/src/header.rt", "FORMAT_1_BEHAVIOURS"),
    "states": lambda: constant("crates/tc_command/src/word.rt", "STATES"),
    "most states": lambda: found_number("crates/tc_command/src/word.rt", r"--states takes a number from 1 to (\d+)"),
    "kept": lambda: constant("crates/tc_explore/src/limits.rt", "MEMORY"),
    "bytes of histories": lambda: constant(INPUTS, "HISTORY_LIMIT"), "bytes of moves": lambda: constant(INPUTS, "SCRIPT_LIMIT"),
    "bytes of a script": lambda: constant(INPUTS, "SCRIPT_LIMIT"),
    "bytes of a sentence": lambda: constant("crates/tc_blocks/src/sentence.rt", "SENTENCE_BYTES"),
    "rows": lambda: constant("crates/tc_explored/src/race.rt", "ROWS"),
    "column": lambda: len(re.search('const COLUMN: &str = "( *)"', text_of("crates/tc_explored/src/race.rt"))[1]),
    "shown": lambda: constant("crates/tc_explain/src/quote.rt", "SHOWN"), "errors": lambda: variants("crates/tc_entry/src/reply.rt", "Fault"),
    "unbegun": lambda: constant("crates/tc_board/src/rule.rt", "UNBEGUN"), "closed": lambda: constant("crates/tc_board/src/rule.rt", "CLOSED"),
    "headline": lambda: believed_lines(True), "first crates": lambda: believed_lines(False, 12), "in Inside": lambda: believed_lines(inside=True),
    "headline in Inside": lambda: believed_lines(True, inside=True), "edits": lambda: constant("tests/claims/check.py", "MOST_IN_THE_GATE"),
    "edits of a crate": lambda: constant("tests/claims/check.py", "FEWEST_OF_A_CRATE"), "starts": lambda: constant(LIMITS, "BEHAVIOURS") - 1,
    "parallel components": lambda: constant(LIMITS, "COMPONENTS") - 1,
    "states of Titan": lambda: constant("clients/titan/titan_logs/limits.py", "STATES"), "bytes of an entry": lambda: found_number(*ENTRY),
    "bytes of a recorded call": lambda: 2 * found_number(*ENTRY),
    "states of a plain search": lambda: constant("tests/program/random_courses.py", "MOST"),
    "letters in the editor": lambda: found_number("page/play/given.mjs", r"MOST_SHOWN = (\d+)"),
    "lines in the editor": lambda: found_number("page/play/given.mjs", r"MOST_LINES = (\d+)"),
    "words of a sentence": lambda: plain.MOST_WORDS_OF_A_SENTENCE, "letters of a line": lambda: constant("tests/claims/check.py", "WIDTH"),
    "fewest lines of a README": lambda: found_number("tests/claims/check.py", r"MOST_LINES_OF_A_CRATE = (\d+), \d+"),
    "lines of a README": lambda: found_number("tests/claims/check.py", r"MOST_LINES_OF_A_CRATE = \d+, (\d+)"),
    "remark": lambda: constant("clients/python/filskeam/words.py", "MOST_BYTES_OF_A_REMARK"),
    "bytes of a line of serve": lambda: constant("crates/tc_serve/src/order.rt", "LINE_BYTES"),
    "longest remark": lambda: len("255 # ") + constant("crates/tc_blocks/src/sentence.rt", "SENTENCE_BYTES"),
    "bytes of a piece": lambda: found_number("crates/tc_serve/src/service.rt", r"let mut chunk = \[0u8; (\d+)\]"),
    "refusals": lambda: variants("crates/tc_serve/src/order.rt", "Refusal"),
    "bytes of a translated line": lambda: constant("crates/tc_explain/src/source.rt", "LONGEST"),
    "greatest run": lambda: greatest("crates/tc_verdict/src/run.rt", "Run"),
    "greatest component": lambda: greatest("crates/tc_entry/src/comp.rt", "Comp"),
    "cases of random_cases": lambda: found_number("crates/random_cases/src/task.rt", r"cases: (\d+),"),
    "cases of car_window": lambda: found_number("crates/car_window/stdout", r"cases (\d+) "),
    "failed cases of car_window": lambda: found_number("crates/car_window/stdout", r" fail (\d+) error"),
    "line of a fail": lambda: text_of("examples/restart.script").split("\n").index("setverdict fail") + 1,
    "cases of verdicts": lambda: text_of("examples/verdicts.script").count("\ntestcase "),
    "cases of verdicts that are run": lambda: found_number("examples/verdicts.stop-on-fail.report", r"cases (\d+) ")}
# By the document, what is said there with # for the number, and what that counts. It is said once, with spaces for line ends.
NUMBERS: Dict[str, Dict[str, str]] = {
    "docs/rules.md": {"The # errors and their order": "errors"},
    "crates/tc_entry/src/reply.rt": {"these #, and their order": "errors"},
    "docs/texts.md": {"Line 1 is `behaviours N`, N a number from 1 to #.": "behaviours", "with 0 to # arguments |": "arguments",
        "| `1` | 1 to # |": "behaviours of format 1", "| `2` | 1 to #,": "behaviours",
        "Inside come lines of these four forms, none or more of each, in any order. N is from 1 to #;": "behaviours",
        "TEXT has 1 to # bytes": "bytes of a sentence", "neither has more than # entries": "rows", "The first column is at least # bytes wide": "column",
        "If a line or a word has more than # bytes, the first": "shown", "the longest that is taken has # bytes": "longest remark",
        "| has # bytes or more |": "bytes of a line of serve", "why-a-line-is-refused) has # texts": "refusals",
        "The word has at most # bytes": "name bytes", "a name has 1 to # letters": "name bytes", "if NAMES are more than # bytes": "shown",
        "of at most # bytes, is the same in a script": "bytes of a translated line",
        "is a number from 1 to # |": "most states", "bytes, the first # are shown": "shown"},
    "docs/guide.md": {"longer than # lines": "rows",
        "bytes in which a search keeps its states | # (512": "kept",
        "A recorded call takes # bytes": "bytes of a recorded call", "runs # of its four test cases": "cases of verdicts that are run",
        "runs three of its # test cases": "cases of verdicts", "A file above # letters": "letters in the editor",
        "letters or # lines is checked": "lines in the editor", "| #; 100,000 without `--states`": "most states"},
    "docs/scripts.md": {"A name has 1 to # bytes": "name bytes"},
    "crates/tc_board/README.md": {"| `Unbegun` | # |": "unbegun", "| # more than the rank of v |": "closed", "| n is 1 to # |": "behaviours"},
    "docs/library.md": {"a stack of `WORKER_STACK` bytes, # MiB": "stack in MiB", "measured, # behaviours that each set a verdict": "behaviours",
        "is a campaign of # test cases": "cases of car_window", "It prints # reports, one of a test case that fails": "cases of car_window",
        "It prints three reports, # of a test case that fails": "failed cases of car_window"},
    "docs/architecture.md": {"So # lines of definitions say": "headline", "executor as a library, have #.": "first crates",
        "Of the first, # are in `Inside`": "in Inside", "the headline rests on # of these": "headline in Inside",
        "`setverdict fail` is line # of": "line of a fail", "script: line # has the form `setverdict V`": "line of a fail"},
    "docs/proved.md": {"`TooManyBehaviours` exactly if there are more than #.": "behaviours", "A worker's stack has # bytes": "stack",
        "It may have 1 to # behaviours": "behaviours", "at most # components, and a start": "components",
        "and a start at most # arguments": "arguments", "its own jobs and 1 to # behaviours": "behaviours",
        "If 1 to # jobs need more workers": "behaviours", "A case may have # workers": "behaviours",
        "ends within # states": "states of a plain search", "its first odd byte or # bytes": "shown", "An entry takes # bytes": "bytes of an entry"},
    "docs/DECISIONS.md": {"as large as the largest, # bytes": "bytes of an entry", "The gate tries at most # edits": "edits"},
    "crates/tc_serve/README.md": {"A line of # bytes or more is refused by its first 209": "bytes of a line of serve",
        "or more is refused by its first #, as too long": "bytes of a line of serve", "pieces of # bytes": "bytes of a piece"},
    "crates/random_cases/README.md": {"runs CASES test cases, # without arguments": "cases of random_cases"},
    "crates/car_window/README.md": {"It runs # test cases, one of which fails": "cases of car_window",
        "It runs three test cases, # of which fails": "failed cases of car_window"},
    "crates/tc_entry/README.md": {"An entry takes # bytes": "bytes of an entry", "exactly if there are fewer than #. None": "arguments"},
    "crates/tc_explore/README.md": {"all are kept in # bytes": "kept"},
    "CONTRIBUTING.md": {"its files: # to 60 lines": "fewest lines of a README", "its files: 10 to # lines": "lines of a README",
        "short true sentences, # letters a line": "letters of a line",
        "a sentence has # words at most": "words of a sentence", "Give a crate none or at least #:": "edits of a crate"},
    "docs/titan.md": {"may look at in one test case (# without it)": "states of Titan", "A history holds # starts": "starts"},
    "clients/python/README.md": {"Reasons and remarks have at most # letters": "remark"},
    "crates/tc_reader/README.md": {"A test case has at most # behaviours with distinct names": "behaviours"},
    "crates/tc_blocks/README.md": {"Format 1 has at most # behaviours": "behaviours of format 1"},
    "crates/tc_rules/README.md": {"Whether a case is stuck is asked of at most # runs": "behaviours",
        "only if they change one: at most #, 999 and 1 times": "starts",
        "only if they change one: at most 255, # and 1 times": "parallel components"},
}
# In the table of limits: what a row begins with, and what it counts.
ROWS: Tuple[Tuple[str, str], ...] = (
    ("behaviours of a test case, each", "behaviours"), ("bytes of the stack", "stack"), ("components of a test case", "components"),
    ("arguments of a start", "arguments"), ("steps of a behaviour", "steps"), ("test cases of a script", "test cases"),
    ("behaviours of a test case whose history is of format 1", "behaviours of format 1"), ("bytes of a name", "name bytes"),
    ("bytes of a script, or of a list of moves", "bytes of a script"), ("bytes of a script, or of a list of moves", "bytes of moves"),
    ("bytes of a history text", "bytes of histories"), ("the number of a run in a text", "greatest run"),
    ("the number of a component in a text", "greatest component"))

# The tables whose cells give the texts of faults, moves and replies: document, section, column, and whether a text is in the sources as a
# whole, or word by word.
TEXTS = (("docs/scripts.md", "Faults", "text", True), ("docs/texts.md", "Move lists, and what `replay` prints", "text", True),
         ("docs/texts.md", "Histories, and what `check` prints", "text", True), ("docs/texts.md", "Fault lines of the program", "text", True),
         ("docs/texts.md", "What `--explain` prints", "line", True), ("docs/texts.md", "The text report", "TEXT", True), ("docs/texts.md", "Replies", "text", False),
         ("docs/texts.md", "Moves", "text", False))
FEWEST_TEXTS = 130


def number_of(said: str) -> int:
    return WORDS.index(said) if said in WORDS else int(said.replace(",", ""))


def pattern_of(said: str) -> str:
    """What matches what is said, with a number in the place of #."""
    number = r"(\d[\d,]*\d|\d|" + "|".join(WORDS) + ")"
    return re.escape(said).replace(r"\#", number).replace(r"\ ", r"\s+")


def wrong_in(text: str, path: str, said: str, count: int) -> Iterator[str]:
    """Why a text does not say this number once, where # is in what is said."""
    found = [number_of(it) for it in re.findall(pattern_of(said), text)]
    if len(found) != 1:
        yield f"{path}: {said!r} is there {len(found)} times"
    yield from (f"{path}: {said!r} says {it}, and the sources have {count}" for it in found if it != count)


def wrong() -> Iterator[str]:
    counts = {name: count() for name, count in COUNTS.items()}
    for path, numbers in NUMBERS.items():
        text = re.sub(r"(?m)^\s*///? ?", "", text_of(path)) if path.endswith(".rt") else text_of(path)
        for said, name in numbers.items():
            yield from wrong_in(text, path, said, counts[name])
    rows = [[cell for _, cell in row] for _, row in read(TOP, "docs/guide.md").rows("Limits")]
    for begun, name in ROWS:
        found = [number_of(re.match(r"[\d,]+", it[1])[0]) for it in rows if it[0].startswith(begun)]
        if found != [counts[name]]:
            yield f"docs/guide.md: Limits: {begun}: {found}, and the sources have {counts[name]}"
    count = sum(map(len, NUMBERS.values()))
    if len(ROWS) < FEWEST_ROWS_OF_LIMITS or count < FEWEST_NUMBERS:
        yield f"{len(ROWS)} rows and {count} numbers are fewer than wanted"


def unseen() -> Iterator[str]:
    """Numbers of the list that nobody misses where another one is said, or none."""
    for path, said, name in ((path, *it) for path, numbers in NUMBERS.items() for it in numbers.items()):
        other = said.replace("#", "7,777")
        if not list(wrong_in(other, path, said, COUNTS[name]())) or not list(wrong_in("", path, said, 0)):
            yield f"{path}: {said}"


def literals() -> str:
    """The texts of the sources, one after the other."""
    paths = (path for crate in crates() if not crate.endswith("_tests") for path in files_below(f"crates/{crate}/src", ".rt"))
    return "\n".join(it for path in paths for it in re.findall(r'"((?:[^"\\\n]|\\.)*)"', text_of(path)))


def texts() -> Iterator[Tuple[str, str]]:
    """The texts of the tables, each with its place; what represents something else, and numbers, cut them."""
    for path, section, column, is_whole in TEXTS:
        cells = [cell for _, row in read(TOP, path).rows(section) for title, cell in row if title == column]
        for quoted in (it for cell in cells for it in re.findall(r"`([^`]+)`", cell)):
            for part in re.split(r"\b[A-Z][A-Z/]*\b|\d+", quoted):
                yield from ((f"{path}: {section}", it) for it in ([part.strip(" ,:;")] if is_whole else part.split()) if it)


def unsaid() -> Iterator[str]:
    """Texts that a table gives to a fault, a move or a reply, and no source has."""
    said, found = literals(), list(texts())
    yield from (f"{place}: no source says {it!r}" for place, it in found if not re.search(rf"(?<![\w-]){re.escape(it)}(?![\w-])", said))
    if len(found) < FEWEST_TEXTS:
        yield f"{len(found)} texts, where there are no fewer than {FEWEST_TEXTS}"


def written(text: str, said: str, count: int) -> str:
    """The text with this number, in a word if it was one and there is one."""
    def put(found: "re.Match[str]") -> str:
        number = WORDS[count] if found[1] in WORDS and count < len(WORDS) else f"{count:,}"
        return found[0][:found.start(1) - found.start()] + number + found[0][found.end(1) - found.start():]
    return re.sub(pattern_of(said), put, text)


def write() -> None:
    """Writes the numbers of the documents, and the rows of the table of what must be believed."""
    for path in sorted(it for it in NUMBERS if it.endswith(".md")):
        text = text_of(path)
        for said, name in NUMBERS[path].items():
            text = written(text, said, COUNTS[name]())
        if path == "docs/architecture.md":
            head, _, rest = text.partition("\n## What must be believed\n")
            rows = "\n".join(believed.table())
            text = f"{head}\n## What must be believed\n" + re.sub(r"(?m)(^\|---.*\n)(?:\|.*\n)+", lambda it: f"{it[1]}{rows}\n", rest, count=1)
        with open(os.path.join(TOP, path), "w", encoding="utf-8") as file:
            file.write(text)


if __name__ == "__main__":
    if sys.argv[1:] == ["--write"]:
        write()
    print("\n".join(wrong()) or "each number is that of the sources")
