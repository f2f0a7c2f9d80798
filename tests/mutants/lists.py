"""The lists of mutants, tests/mutants/*.txt: how they are read, and whether each mutant can be planted.

A list begins with `below:`, the folder of its files, and `tests:`, the folder of the tests that must fail, which a list of a crate
does not have. A mutant is its name, what must fail, and its changes. Each is a file, the old text in lines that begin with
`- `, and the new text in lines that begin with `+ `. The old text is exactly once in its file; without a line of new text
whole lines are taken out. After `fails:` is the name of a test, as FOLDER/NAME if it is of another folder; without it it is any
test of the page's model. In the list of a crate it is a crate of tests, or `ttrun` and a part of the names of tests that are run
with those that always are. Without it the prover must refuse the mutant. A line that begins with `#` is a comment."""
import os
import re
import sys
from collections import Counter
from dataclasses import dataclass, field
from enum import Enum
from typing import Dict, Iterator, List, Set, Tuple

sys.path.append(os.path.dirname(os.path.dirname(os.path.abspath(__file__))))

from harness import TOP, text_of

HERE = os.path.join("tests", "mutants")
WORDS = ("below", "tests", "mutant", "fails", "file")


class Unplanted(Exception):
    """Why a mutant cannot be planted."""


class Outcome(Enum):
    """What became of a mutant. One is not planted too if its test fails without it, and skipped if what its test needs is missing."""

    REFUSED = "refused"
    SURVIVED = "survived"
    UNPLANTED = "not planted"
    SKIPPED = "skipped"


# What became of a mutant, and who refused it or why nobody did.
Answer = Tuple[Outcome, str]


@dataclass
class MutantList:
    name: str
    below: str = ""
    tests: str = ""


@dataclass
class Change:
    """A file by its path from the top, the lines of its old text, and those of its new text."""

    file: str
    minus: List[str] = field(default_factory=list)
    plus: List[str] = field(default_factory=list)

    @property
    def old(self) -> str:
        """The text that is in the file exactly once."""
        return "\n".join(self.minus) + ("" if self.plus else "\n")

    @property
    def new(self) -> str:
        return "\n".join(self.plus)


@dataclass
class Mutant:
    """A wrong body: what must fail on it is a test, a crate of tests or the program; if nothing is named, the proof of its crate."""

    list: MutantList
    name: str
    fails: str = ""
    changes: List[Change] = field(default_factory=list)

    @property
    def title(self) -> str:
        return f"{self.list.name}/{self.name}"

    @property
    def test(self) -> Tuple[str, str]:
        """The folder and the name of the test that must fail, if the list has tests."""
        folder, _, name = self.fails.rpartition("/")
        return (f"tests/{folder}" if folder else self.list.tests), name

    @property
    def is_proved(self) -> bool:
        """Whether the prover must refuse it."""
        return not self.list.tests and not self.fails

    def planted(self, top: str) -> Dict[str, Tuple[str, str]]:
        """Each file that it changes in the tree below this folder: its text, and its text with the mutant."""
        texts: Dict[str, Tuple[str, str]] = {}
        for change in self.changes:
            path = os.path.join(top, change.file)
            if not os.path.isfile(path):
                raise Unplanted(f"there is no {change.file}")
            if change.file not in texts:
                texts[change.file] = (text_of(path),) * 2
            before, text = texts[change.file]
            if text.count(change.old) != 1 or change.old == change.new:
                raise Unplanted(f"this text is in {change.file} {text.count(change.old)} times, or is not changed: {change.old.strip()}")
            texts[change.file] = (before, text.replace(change.old, change.new))
        return texts


class Reader:
    def __init__(self, name: str) -> None:
        self.list = MutantList(name)
        self.mutants: List[Mutant] = []

    def take(self, line: str) -> None:
        mark, text = line[:1], line[2:]
        changes = self.mutants[-1].changes if self.mutants else []
        if mark in ("-", "+") and line[1:2] in ("", " "):
            if not changes or (mark == "-" and changes[-1].plus) or (mark == "+" and not changes[-1].minus):
                raise ValueError
            (changes[-1].minus if mark == "-" else changes[-1].plus).append(text)
        elif mark not in ("", "#"):
            word, _, rest = line.partition(": ")
            if word not in WORDS or not rest or (word in ("below", "tests")) == bool(self.mutants) and word != "mutant":
                raise ValueError
            self.take_word(word, rest, changes)

    def take_word(self, word: str, rest: str, changes: List[Change]) -> None:
        """Takes a line that begins with one of the words."""
        if word == "mutant":
            self.mutants.append(Mutant(self.list, rest))
        elif word == "fails":
            self.mutants[-1].fails = rest
        elif word == "file":
            changes.append(Change(os.path.normpath(os.path.join(self.list.below, rest))))
        else:
            setattr(self.list, word, rest)


def read_all(top: str = TOP) -> Tuple[List[Mutant], List[str]]:
    """The mutants of all lists, and the lines that are none of a list."""
    mutants, faults = [], []
    for name in sorted(it for it in os.listdir(os.path.join(top, HERE)) if it.endswith(".txt")):
        reader = Reader(name[:-len(".txt")])
        for number, line in enumerate(text_of(top, HERE, name).split("\n"), 1):
            try:
                reader.take(line)
            except ValueError:
                faults.append(f"{HERE}/{name}:{number}: no list has such a line here: {line}")
        mutants += reader.mutants
    return mutants, faults


def words_of_tests(top: str, folder: str) -> Set[str]:
    """The words in the sources of a folder of tests."""
    words: Set[str] = set()
    for at, _, names in os.walk(os.path.join(top, folder)):
        for name in names:
            if name.endswith((".py", ".rt", ".cpp")):
                words |= set(re.findall(r"\w+", text_of(at, name)))
    return words


def fault_of(mutant: Mutant, top: str, words: Dict[str, Set[str]]) -> str:
    """Why a mutant cannot be planted, or which test is not there; `words` are those of each folder of tests."""
    folder, test = mutant.test
    if folder:
        known = words.setdefault(folder, words_of_tests(top, folder))
        # A number at the end may be that of a round.
        if test and not {test, re.sub(r"_?\d+$", "", test), re.sub(r"\d+$", "", test)} & known:
            return f"{folder} has no test {test!r}"
    elif test and not os.path.isdir(os.path.join(top, "crates", test.split()[0])):
        return f"there is no crate {test.split()[0]}"
    try:
        return "" if mutant.planted(top) else "it changes nothing"
    except Unplanted as why:
        return str(why)


def faults(mutants: List[Mutant], top: str = TOP) -> Iterator[Tuple[str, str]]:
    """What is wrong with mutants, without planting them: each has a name of its own in its list, names a test, and can be planted."""
    words: Dict[str, Set[str]] = {}
    for title, count in Counter(it.title for it in mutants).items():
        if count > 1:
            yield title, f"{count} mutants have this name"
    for it in mutants:
        fault = fault_of(it, top, words)
        if fault:
            yield it.title, fault
