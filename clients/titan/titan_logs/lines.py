"""The lines of a log: its stamps, its event types, its sources; each file is read once."""
import re
from dataclasses import dataclass
from datetime import date
from typing import BinaryIO, Iterator, NamedTuple, Optional, Tuple

from .limits import MOST_BYTES, MOST_BYTES_OF_A_LINE, MOST_FOLLOWING, MOST_LINES
from .phrases import Phrase, recognise

MONTHS = ("Jan", "Feb", "Mar", "Apr", "May", "Jun", "Jul", "Aug", "Sep", "Oct", "Nov", "Dec")
SECOND = 1_000_000
DAY = 86_400 * SECOND
STAMP = re.compile(r"(?:(\d{4})/(\w{3})/(\d\d) )?(\d\d):(\d\d):(\d\d)\.(\d{6}) |(\d{1,12})\.(\d{6}) ")
FAMILIES = "ACTION|DEBUG|DEFAULTOP|ERROR|EXECUTOR|FUNCTION|MATCHING|PARALLEL|PORTEVENT|STATISTICS|TESTCASE|TIMEROP|USER|VERDICTOP|WARNING"
KIND = re.compile(rf"({FAMILIES})(?:_[A-Z]+)* ")
SOURCE = re.compile(r"(?:-|\S+:\d+\S*) ")
ENTITY = re.compile(rf"(?!- |\S+:\d)(\S+) (?=(?:(?:{FAMILIES})(?:_[A-Z]+)* )?(?:- |\S+:\d+\S* )?TTCN-3 )")
OPTIONS = re.compile(r"LogEventTypes:=(\w+); SourceInfoFormat:=(\w+)")


class Refused(Exception):
    """Why the logs, or the arguments, are refused."""


class Line(NamedTuple):
    """A line that says something: its stamp and that of the line before it in the process, both in microseconds."""

    stamp: int
    before: int
    phrase: Phrase
    text: str
    file: str
    number: int

    def __str__(self) -> str:
        return f"{self.file}:{self.number}: {self.text[:110]}"


class Raw(NamedTuple):
    """A line as it is: the entity of a merged file, the family of its event type, or empty texts."""

    stamp: int
    entity: str
    family: str
    text: str
    number: int


@dataclass
class Layout:
    """What is before the text of each line of a file."""

    has_entities: bool = False
    has_kinds: bool = False
    has_sources: bool = False

    @staticmethod
    def guessed(rest: str) -> "Layout":
        """The layout of a file whose first line has this after its stamp."""
        entity = None if KIND.match(rest) else ENTITY.match(rest)
        rest = rest[entity.end():] if entity else rest
        kind = KIND.match(rest)
        rest = rest[kind.end():] if kind else rest
        return Layout(entity is not None, kind is not None, SOURCE.match(rest) is not None)

    def learn(self, text: str) -> None:
        """Takes the settings from the line in which Titan says them."""
        found = OPTIONS.search(text)
        if found:
            self.has_kinds, self.has_sources = found[1] != "No", found[2] != "None"

    def parts(self, rest: str) -> Tuple[str, str, str]:
        entity = family = ""
        if self.has_entities:
            entity, _, rest = rest.partition(" ")
        kind = KIND.match(rest) if self.has_kinds else None
        if kind:
            family, rest = kind[1], rest[kind.end():]
        source = SOURCE.match(rest) if self.has_sources else None
        return entity, family, rest[source.end():] if source else rest


class Budget:
    """What may still be read by this call."""

    def __init__(self) -> None:
        self.bytes, self.lines = MOST_BYTES, MOST_LINES

    def take(self, size: int) -> None:
        self.bytes -= size
        if self.bytes < 0:
            raise Refused(f"the logs have more than {MOST_BYTES} bytes")

    def keep(self) -> None:
        self.lines -= 1
        if self.lines < 0:
            raise Refused(f"the logs have more than {MOST_LINES} lines of components")


class Clock:
    """Stamps in microseconds. Those that have only the time of day continue after midnight."""

    def __init__(self) -> None:
        self.days = self.last = 0

    def read(self, found: "re.Match[str]") -> int:
        if found[8]:
            return int(found[8]) * SECOND + int(found[9])
        inside = ((int(found[4]) * 60 + int(found[5])) * 60 + int(found[6])) * SECOND + int(found[7])
        if found[1]:
            return self.day_of(found) * DAY + inside
        if self.days * DAY + inside < self.last - DAY // 2:
            self.days += 1
        self.last = max(self.last, self.days * DAY + inside)
        return self.days * DAY + inside

    @staticmethod
    def day_of(found: "re.Match[str]") -> int:
        month = MONTHS.index(found[2]) + 1 if found[2] in MONTHS else 1
        try:
            return date(int(found[1]), month, int(found[3])).toordinal()
        except ValueError:
            return 1


def cut_lines(file: BinaryIO, budget: Budget) -> Iterator[Tuple[int, str]]:
    """The numbered lines of a file, none longer than the limit."""
    number, is_rest = 0, False
    for raw in iter(lambda: file.readline(MOST_BYTES_OF_A_LINE), b""):
        budget.take(len(raw))
        if not is_rest:
            number += 1
            yield number, raw.decode("utf-8", "replace").rstrip("\r\n")
        is_rest = not raw.endswith(b"\n")


def raw_lines(file: BinaryIO, budget: Budget, layout: Optional[Layout] = None) -> Iterator[Tuple[Raw, Layout]]:
    """The lines of a file; lines without a stamp belong to the one before them."""
    clock, held, following = Clock(), None, 0
    for number, text in cut_lines(file, budget):
        stamp = STAMP.match(text)
        if stamp is None:
            if held is not None and following < MOST_FOLLOWING:
                held, following = held._replace(text=f"{held.text} {text.strip()}"[:MOST_BYTES_OF_A_LINE]), following + 1
            continue
        if held is not None and layout is not None:
            yield held, layout
        rest = text[stamp.end():]
        layout = layout or Layout.guessed(rest)
        if "TTCN Logger v" in rest[:200]:
            layout.learn(rest)
        held, following = Raw(clock.read(stamp), *layout.parts(rest), number), 0
    if held is not None and layout is not None:
        yield held, layout


def said(raw: Raw, before: int, name: str) -> Optional[Line]:
    """The line that a raw one is, if it says something."""
    phrase = recognise(raw.text, raw.family)
    return Line(raw.stamp, before, phrase, raw.text, name, raw.number) if phrase else None
