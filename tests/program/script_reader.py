"""The script language in Python, written from only docs/scripts.md: the campaign that a script spells, or its first fault."""
import re
from dataclasses import dataclass, field
from typing import List, Optional, Set, Union

from table import MOST_ARGUMENTS, MOST_BEHAVIOURS, STATUSES
from texts import Judged, is_name, lines_of, refused

MOST_TEST_CASES = 1000
MOST_STEPS = 1000


@dataclass
class Behaviour:
    name: str
    parameters: List[str]
    steps: List[List[str]] = field(default_factory=list)


@dataclass
class TestCase:
    name: str
    behaviours: List[Behaviour] = field(default_factory=list)

    def find(self, name: str) -> Optional[Behaviour]:
        return next((it for it in self.behaviours if it.name == name), None)


Campaign = List[TestCase]


@dataclass
class Line:
    """A line that is not skipped."""

    number: int
    text: str
    words: List[str]


# The forms of lines. N is a name, C a component, A a component or all, G a component or a group, S a state and V a verdict; what has a
# `*` may come any number of times.
FORMS = (
    "testcase N", "behaviour N N*", "end", "create N", "create N alive", "create N named N", "create N alive named N", "start C N C*",
    "stop A", "kill A", *(f"{it} G" for it in STATUSES), "wait S G", "setverdict V", "stopcase", "getverdict")
WORDS = {"S": ("done", "killed"), "V": ("none", "pass", "inconc", "fail")}
# What may be in the place of a name or a component besides a name.
PLACES = {"N": (), "C": ("mtc", "self"), "A": ("mtc", "self", "all"), "G": ("mtc", "self", "any", "all")}


def kinds_of(words: List[str]) -> Optional[List[str]]:
    """What each word is by the form of the line, any word being taken in the place of a name or a component; none if it has no form."""
    for form in FORMS:
        kinds = form.split()
        if kinds[0] == words[0] and kinds[-1].endswith("*"):
            kinds[-1:] = [kinds[-1][0]] * (len(words) - len(kinds) + 1)
        if len(kinds) == len(words) and all(kind in PLACES or word in WORDS.get(kind, (kind,)) for kind, word in zip(kinds, words)):
            return kinds
    return None


def given_name(words: List[str]) -> str:
    """The name that a create gives the component that it makes, which is bound under another; empty where it gives none."""
    return words[-1] if len(words) > 3 else ""


class Grammar:
    """Judges the lines one by one, and builds the campaign."""

    def __init__(self) -> None:
        self.campaign: Campaign = []
        self.test_case: Optional[TestCase] = None
        self.behaviour: Optional[Behaviour] = None

    def fault(self, line: Line) -> Optional[str]:
        """The first of the kinds of the upper table that applies to the line."""
        words = line.words
        if re.search("[^ -~]", line.text):
            return "byte not allowed"
        kinds = kinds_of(words)
        if kinds is None:
            return "line not understood"
        if not all(kind not in PLACES or word in PLACES[kind] or is_name(word) for kind, word in zip(kinds, words)):
            return "bad name"
        if not self.is_in_place(words[0]):
            return "not allowed here"
        return "too many" if self.is_too_many(words) else None

    def is_in_place(self, verb: str) -> bool:
        if verb == "testcase":
            return self.test_case is None
        if verb == "behaviour":
            return self.test_case is not None and self.behaviour is None
        if verb == "end":
            return self.test_case is not None and (self.behaviour is not None or bool(self.test_case.behaviours))
        return self.behaviour is not None

    def is_too_many(self, words: List[str]) -> bool:
        if words[0] == "testcase":
            return len(self.campaign) >= MOST_TEST_CASES
        if words[0] == "behaviour":
            return len(self.test_case.behaviours) >= MOST_BEHAVIOURS or len(words) > 2 + MOST_ARGUMENTS
        if words[0] == "end":
            return False
        return len(self.behaviour.steps) >= MOST_STEPS or words[0] == "start" and len(words) > 3 + MOST_ARGUMENTS

    def take(self, words: List[str]) -> None:
        if words[0] == "testcase":
            self.test_case = TestCase(words[1])
            self.campaign.append(self.test_case)
        elif words[0] == "behaviour":
            self.behaviour = Behaviour(words[1], words[2:])
            self.test_case.behaviours.append(self.behaviour)
        elif words[0] != "end":
            self.behaviour.steps.append(words)
        elif self.behaviour is not None:
            self.behaviour = None
        else:
            self.test_case = None


class Names:
    """Judges the lines of a script without a fault of its grammar by what they name."""

    def __init__(self, campaign: Campaign) -> None:
        self.campaign = campaign
        self.at = -1
        self.used: Set[str] = set()
        self.bound: Set[str] = set()
        self.test_cases: Set[str] = set()

    def fault(self, words: List[str]) -> Optional[str]:
        """The first of the kinds of the lower table that applies to the line."""
        verb = words[0]
        if verb == "testcase":
            return "name already used" if words[1] in self.test_cases else None
        if verb == "behaviour":
            is_twice = words[1] in self.used or len({*words[2:]}) < len(words[2:])
            is_main = not self.used and len(words) > 2
            return "name already used" if is_twice else "main behaviour takes no parameters" if is_main else None
        if verb == "create" and words[1] in self.bound:
            return "name already used"
        free = {"mtc", "self", "any", "all"} | self.bound
        if any(kind in PLACES and kind != "N" and word not in free for kind, word in zip(kinds_of(words), words)):
            return "unbound reference"
        if verb == "start":
            behaviour = self.campaign[self.at].find(words[2])
            if behaviour is None:
                return "unknown behaviour"
            if len(behaviour.parameters) != len(words) - 3:
                return "wrong number of arguments"
        return None

    def take(self, words: List[str]) -> None:
        if words[0] == "testcase":
            self.at += 1
            self.used = set()
            self.test_cases.add(words[1])
        elif words[0] == "behaviour":
            self.used.add(words[1])
            self.bound = {*words[2:]}
        elif words[0] == "create":
            self.bound.add(words[1])


def read_script(text: bytes) -> Union[Campaign, Judged]:
    """The campaign that the text spells, or the refusal of its first fault."""
    # Words have spaces between them, and nothing else is a space.
    every = [Line(number, line, [it for it in line.split(" ") if it]) for number, line in enumerate(lines_of(text), 1)]
    lines = [it for it in every if it.words and not it.words[0].startswith("#")]
    grammar = Grammar()
    for line in lines:
        fault = grammar.fault(line)
        if fault is not None:
            return refused(line.number, fault)
        grammar.take(line.words)
    if grammar.test_case is not None or not grammar.campaign:
        return refused(len(every) + 1, "text ends too early")
    names = Names(grammar.campaign)
    for line in lines:
        fault = names.fault(line.words)
        if fault is not None:
            return refused(line.number, fault)
        names.take(line.words)
    return grammar.campaign
