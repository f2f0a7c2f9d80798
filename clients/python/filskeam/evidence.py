"""Evidence: its lines, what they say together, and the result of a test case."""
import contextlib
import os
import re
from dataclasses import dataclass
from typing import Dict, List, NamedTuple, Optional, Sequence, Tuple, Union

from .program import asked
from .words import told

VERDICTS = ("none", "pass", "inconc", "fail", "error")


def worst(verdicts: Sequence[str]) -> str:
    return max(verdicts, key=VERDICTS.index, default="none")


class Line(NamedTuple):
    """A line inside evidence: a naming (`behaviour`), an entry (`->`), a remark (`#`) or a refused line (`!`).

    `halts` says whether somebody may have been stopped by an entry, or be done."""

    kind: str
    run: int
    text: str
    reply: str = ""
    halts: bool = False


_NAMING = re.compile(r"behaviour ([0-9]+) ([A-Za-z0-9_]+)")
_SAID = re.compile(r"([0-9]+) ([#!]) ([ -~]{1,200})")
_ENTRY = re.compile(r"([0-9]+) ([a-z][a-zA-Z0-9_ ]*) -> ([a-z][a-z0-9 -]*)")


def parsed(text: str) -> Optional[Line]:
    entry = _ENTRY.fullmatch(text)
    if entry:
        return entry_of(int(entry[1]), entry[2], entry[3])
    said = _SAID.fullmatch(text)
    if said:
        return Line(said[2], int(said[1]), said[3])
    naming = _NAMING.fullmatch(text)
    return Line("behaviour", int(naming[1]), naming[2]) if naming else None


_SUITS = {verb: re.compile(f"{replies}|ended|error [a-z-]+") for verb, replies in {
    "create": "made [0-9]+", "getverdict": "|".join(VERDICTS), "wait": "matched|parked", "wake": "matched",
    **dict.fromkeys(("start", "stop", "kill", "stopcase", "setverdict", "finish"), "ok"),
    **dict.fromkeys(("running", "alive", "done", "killed"), "true|false"),
}.items()}

# The replies of entries after which components, and their verdicts, are as they were.
_SILENT = frozenset((*VERDICTS, "true", "false", "matched", "parked", "ended"))


def suits(call: str, reply: str) -> bool:
    return _SUITS[call.partition(" ")[0]].fullmatch(reply) is not None


def ends_case(line: Line) -> bool:
    is_end = line.text in ("stopcase", "stop 0", "kill 0") or line.run == 0 and line.text == "finish"
    return line.reply.startswith("error ") or is_end and line.reply == "ok"


def entry_of(run: int, call: str, reply: str) -> Line:
    is_halt = reply == "ok" and call.partition(" ")[0] in ("finish", "stop", "kill", "stopcase")
    return Line("->", run, call, reply, is_halt or reply.startswith("error "))


class Findings:
    """What the lines of a test case say: names, local verdicts, and the entry that made the overall verdict."""

    def __init__(self, texts: Sequence[str]) -> None:
        self.behaviours: Dict[int, str] = {}
        self.names: Dict[int, str] = {0: "mtc"}
        self.locals: Dict[int, str] = {0: "none"}
        self.why = "no behaviour set a verdict"
        self._component_of: Dict[int, int] = {0: 0}
        self._said: Dict[int, str] = {}
        for text in texts:
            is_silent = not self._said and text.rpartition(" -> ")[2] in _SILENT and "#" not in text
            line = None if is_silent else parsed(text)
            if line is not None:
                self._take(line)

    def overall(self) -> str:
        return worst(list(self.locals.values()))

    def _take(self, line: Line) -> None:
        if line.kind == "behaviour":
            self.behaviours[line.run] = line.text
        elif line.kind == "#":
            self._said[line.run] = line.text
        elif line.kind == "->":
            words = line.text.split()
            if words[0] == "create" and line.reply.startswith("made "):
                made = int(line.reply[5:])
                self.locals[made], self.names[made] = "none", words[-1] if "named" in words else ""
            elif words[0] == "start" and line.reply == "ok":
                self._component_of.setdefault(int(words[2]), int(words[1]))
            self._judge(line, words)
            self._said.pop(line.run, None)

    def _judge(self, line: Line, words: List[str]) -> None:
        given = "none"
        if line.reply.startswith("error ") or (line.text, line.reply) == ("stopcase", "ok"):
            given = "error"
        elif words[0] == "setverdict" and line.reply == "ok":
            given = words[1]
        component = self._component_of.get(line.run)
        if component is None:
            return
        if VERDICTS.index(given) > VERDICTS.index(self.overall()):
            self.why = self._why(line, component)
        self.locals[component] = worst([self.locals[component], given])

    def _why(self, line: Line, component: int) -> str:
        """The maker of the entry, which entry, and what was said right before it."""
        who = f"run {line.run} {self.behaviours.get(line.run, '')}".rstrip()
        place = "mtc" if component == 0 else f"component {component} {self.names[component]}".rstrip()
        reply = "" if line.reply == "ok" else f" -> {line.reply}"
        reason = f": {self._said[line.run]}" if line.run in self._said else ""
        return f"{who} on {place}: {line.text}{reply}{reason}"


@dataclass(frozen=True)
class Raised:
    run: int
    behaviour: str
    exception: BaseException

    def __str__(self) -> str:
        return f"run {self.run} {self.behaviour}: {told(self.exception)}"


@dataclass(frozen=True)
class Result:
    """What is known of a test case: it is there whatever its behaviours did."""

    name: str
    # The overall verdict; error if the server ended before it wrote one.
    verdict: str
    # The maker of the verdict, its call, and the reason that was given.
    why: str
    # The local verdicts by component, and the names of the components, empty where one has none.
    locals: Dict[int, str]
    names: Dict[int, str]
    # The block of evidence that the server wrote. Its last line is missing where the server ended early.
    evidence: str
    raised: Tuple[Raised, ...] = ()
    # The behaviours that had not returned at the time limit, or some seconds after the end of the test case.
    hung: Tuple[str, ...] = ()
    # Whether the time limit passed; the verdict is error then, whatever the server wrote.
    is_timed_out: bool = False
    # Why the server ended inside the test case; empty where it did not.
    fault: str = ""
    # The file with the block, and its first line there, as FILE:LINE; empty where there is no file.
    place: str = ""

    def local(self, which: Union[int, str]) -> str:
        """The local verdict of a component, or the worst of those with this name."""
        found = [verdict for number, verdict in self.locals.items() if which in (number, self.names[number])]
        if not found:
            raise KeyError(f"test case {self.name} has no component {which!r}")
        return worst(found)

    def report(self, most: int = 20) -> str:
        """The maker of the verdict and why, what was raised, the local verdicts, and the last entries."""
        lines = [f"test case {self.name}: {self.verdict}", f"why: {self.why}"]
        lines += ["the test case took longer than it may"] * self.is_timed_out
        lines += [f"has not returned: {it}" for it in self.hung]
        lines += [f"raised by {it}" for it in self.raised]
        lines += [f"local {f'{number} {self.names[number]}'.rstrip()}: {verdict}" for number, verdict in self.locals.items()]
        entries = self.evidence.splitlines()
        lines += ["evidence:" if len(entries) <= most else f"evidence, the last {most} of {len(entries)} lines:"]
        return "\n".join(lines + [f"  {it}" for it in entries[max(len(entries) - most, 0):]])

    def model(self, program: str = "") -> str:
        """The script of which this test case is a complete course, by `ttrun model`. Raises `ValueError`, with the line and why, if
        there is none."""
        return asked(self.evidence, "model", program=program)

    def verdicts(self, program: str = "") -> List[str]:
        """The verdicts of the same calls in all orders, by `ttrun explore`. Raises `ValueError` if there is no model, or one verdict was
        found before the search met its limit."""
        line = asked(self.model(program), "explore", program=program)
        found = [it for it in line.split()[1:] if it in VERDICTS]
        if len(found) < 2 and not line.endswith(" complete\n"):
            raise ValueError(f"ttrun explore: {line.strip()}")
        return found


class EvidenceFile:
    """A file for blocks of evidence. One without its end would spoil it: that goes into another file next to it, FILE.cut."""

    def __init__(self, path: str, append: bool = False) -> None:
        """Empties the file, unless it is appended to. A file that cannot be written raises `OSError` here, before a test case is run."""
        self._path = path
        self._lines: Dict[str, int] = {}
        if not append:
            with contextlib.suppress(FileNotFoundError):
                os.remove(f"{path}.cut")
        open(path, "a" if append else "w", encoding="latin-1").close()

    def keep(self, block: str, is_cut: bool) -> str:
        path = self._path + ".cut" * is_cut
        with open(path, "a+", encoding="latin-1") as file:
            if path not in self._lines:
                file.seek(0)
                self._lines[path] = sum(1 for _ in file)
            file.write(block)
        first = self._lines[path] + 1
        self._lines[path] += block.count("\n")
        return f"{path}:{first}"
