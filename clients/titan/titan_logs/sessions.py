"""From files to sessions: which process wrote which lines, and which processes ran together."""
import os
import re
import stat
from bisect import bisect_right
from collections import defaultdict
from dataclasses import dataclass, field
from typing import Dict, Iterator, List, Optional, Sequence, Set, Tuple

from .limits import MOST_FILES
from .lines import STAMP, Budget, Clock, Layout, Line, Raw, Refused, raw_lines, said
from .phrases import is_unread

PART = re.compile(r"-part(\d+)(?=\.\w+$|$)")
# The role in the name of a file, and the test case if each has a file of its own; the end of the name of such a file.
ROLE = re.compile(r".*-(mtc|hc|\d+)(?:-(?!part\d+\.)([A-Za-z]\w*|))?(?:-part\d+)?\.\w+$")
OF_CASE = re.compile(r"(?<=-mtc)-(?:[A-Za-z]\w*)?(?=\.\w+$)")
# The mask of a log file; `ConsoleMask` is another one. What it should have, what else is in no log, and phrases that show it:
# first what nothing is judged without, then what keeps calls in an order. That errors are left out is shown by no other line.
MASK = re.compile(r"\bFileMask:=([^;]*)")
CALLS = (("PARALLEL", r"\b(?:LOG_ALL|PARALLEL)", "the calls of components", {"creating", "terminating", "starting_on"}),
         ("VERDICTOP", r"\b(?:LOG_ALL|VERDICTOP)", "verdicts", {"main_final", "set", "got"}),
         ("ERROR", r"\b(?:LOG_ALL|ERROR)", "dynamic errors", {"case_started"}))
NEEDED = (("MATCHING", r"\bMATCHING(?:_DONE)?\b", "waits for any or all components", {"group_has_ended"}),
          ("PORTEVENT", r"\b(?:LOG_ALL|PORTEVENT)\b", "messages between components", {"sent", "received"}))
MAIN = 0
# The roles of processes: 0 is the main component, others have their component reference. Titan gives 1 to the main component.
Role = int
HOST = -1


@dataclass
class Process:
    """What one process logged. `is_begun` says that the log has its first line, `is_typed` that it has event types, `mask` is
    what its settings let into the log, empty where it does not say so."""

    role: Role
    file: str
    is_begun: bool
    is_typed: bool
    lines: List[Line] = field(default_factory=list)
    unknown: List[str] = field(default_factory=list)
    last: int = 0
    first: int = 0
    mask: str = ""

    @property
    def case(self) -> str:
        """The test case in the name of its file, empty if that names none."""
        found = ROLE.match(self.file)
        return found[2] or "" if found else ""

    def take(self, raw: Raw, name: str, budget: Budget) -> None:
        """Keeps a line, if it says something."""
        line = said(raw, self.last or raw.stamp, name)
        self.first, self.last = self.first or raw.stamp, raw.stamp
        if line is not None:
            budget.keep()
            self.lines.append(line)
            if line.phrase.name == "options":
                found = MASK.search(line.text)
                self.mask = found[1] if found else ""
        elif is_unread(raw.text, raw.family):
            self.unknown.append(f"{name}:{raw.number}: {raw.text[:110]}")


@dataclass
class Session:
    name: str
    main: Process
    components: Dict[int, Process] = field(default_factory=dict)
    remarks: List[str] = field(default_factory=list)

    def left_out(self, classes: Sequence[Tuple[str, str, str, Set[str]]] = NEEDED) -> List[Tuple[str, str]]:
        """What the settings of the main component's log leave out, and what is in no log for it. A log that does not say its settings
        may leave out what no line shows."""
        if self.main.mask:
            return [(name, f"the log settings leave {name} out: {text} are in no log") for name, form, text, _ in classes
                    if not re.search(form, self.main.mask)]
        shown = {line.phrase.name for process in (self.main, *self.components.values()) for line in process.lines}
        leave = "leave" if classes is CALLS else "may leave"
        return [(name, f"the log settings, which are in no log, {leave} {name} out: {text} are in no log")
                for name, _, text, phrases in classes if not phrases & shown]


def role_of(line: Optional[Line]) -> Optional[Role]:
    """The role of the process that begins with this line."""
    if line is None:
        return None
    if line.phrase.name == "parallel_started":
        return int(line.phrase.words[0] or 0)
    return {"main_started": MAIN, "host_started": HOST}.get(line.phrase.name)


def role_called(word: str) -> Role:
    return MAIN if word == "mtc" else int(word) if word.isdigit() else HOST


def read_stream(paths: Sequence[str], budget: Budget) -> List[Process]:
    """The processes that wrote this file, or the parts of one: each begins with its first line."""
    found: List[Process] = []
    open_ones: Dict[str, Process] = {}
    layout: Optional[Layout] = None
    for path in paths:
        name, named = os.path.basename(path), ROLE.match(os.path.basename(path))
        with open(path, "rb") as file:
            for raw, layout in raw_lines(file, budget, layout):
                begins = role_of(said(raw, raw.stamp, name)) if "TTCN-3 " in raw.text[:10] else None
                process = None if begins is not None else open_ones.get(raw.entity)
                if process is None:
                    word = raw.entity if layout.has_entities else named[1] if named else ""
                    role = begins if begins is not None else role_called(word)
                    process = Process(role, name, begins is not None, layout.has_kinds)
                    open_ones[raw.entity] = process
                    found.append(process)
                process.take(raw, name, budget)
    return [it for it in found if it.role != HOST]


def first_stamp(path: str) -> Optional[int]:
    """The stamp with which a file begins, none if it begins as no log of Titan does."""
    with open(path, "rb") as file:
        found = STAMP.match(file.read(64).decode("latin-1"))
    return Clock().read(found) if found else None


def logs_in(folder: str) -> List[str]:
    """The logs of a folder, whatever their names."""
    paths = sorted(os.path.join(folder, it) for it in os.listdir(folder))
    return [it for it in paths if os.path.isfile(it) and (it.endswith((".log", ".merged")) or first_stamp(it) is not None)]


def files_in(path: str) -> List[str]:
    """The logs of a folder, or those of the folders in it if it has none; or the file itself."""
    try:
        if os.path.isdir(path):
            below = sorted(it.path for it in os.scandir(path) if it.is_dir())
            return logs_in(path) or [it for folder in below for it in logs_in(folder)]
        if not stat.S_ISREG(os.stat(path).st_mode):
            raise Refused(f"{path} is neither a folder nor a regular file")
    except OSError as error:
        raise Refused(f"{error.filename or path}: {error.strerror}") from error
    return [path]


def streams_of(files: Sequence[str]) -> Iterator[List[str]]:
    """The files, those of one process together: parts of a rotated log by their numbers, logs of each test case by their stamps."""
    parts: Dict[str, List[Tuple[int, int, str]]] = defaultdict(list)
    for path in files:
        found, whole = PART.search(path), PART.sub("", path)
        stem = OF_CASE.sub("", whole)
        parts[stem].append(((first_stamp(path) or 0) if stem != whole else 0, int(found[1]) if found else 0, path))
    for stem in sorted(parts):
        yield [path for _, _, path in sorted(parts[stem])]


def gap_in(paths: Sequence[str]) -> Iterator[str]:
    """What is missing of a rotated log, by the numbers of its parts."""
    numbers = [int(it[1]) for it in map(PART.search, paths) if it]
    missing = sorted(set(range(numbers[0], numbers[-1])) - set(numbers)) if numbers else []
    yield from (f"{os.path.basename(paths[0])}: part {it} of the log is missing" for it in missing[:1])


def groups_of(files: Sequence[str], budget: Budget) -> Tuple[Dict[str, List[Process]], List[str]]:
    """The processes by the call of a test executable that wrote their files, and what is missing of these. Files are of one call if their
    names are the same up to the first dot. If one of these groups has no main component, all are of one call."""
    groups: Dict[str, List[Process]] = defaultdict(list)
    gaps: List[str] = []
    for paths in streams_of(files):
        try:
            processes = read_stream(paths, budget)
        except OSError as error:
            raise Refused(f"{paths[0]}: {error.strerror}") from error
        if processes:
            folder, name = os.path.split(paths[0])
            groups[os.path.join(folder, name.split(".")[0])] += processes
            gaps += gap_in(paths)
    if any(all(it.role != MAIN for it in group) for group in groups.values()):
        return {os.path.dirname(files[0]) or ".": [it for group in groups.values() for it in group]}, gaps
    return groups, gaps


def sessions_of(name: str, processes: Sequence[Process]) -> Iterator[Session]:
    """The sessions of a group: a parallel component belongs to the last main one that began before it."""
    mains = sorted((it for it in processes if it.role == MAIN), key=lambda it: it.first)
    for one, other in zip(mains, mains[1:]):
        if other.first <= one.last:
            raise Refused(f"{other.file}: two sessions are at the same time by their stamps, so nobody knows which logs belong together. If the"
                          " stamps have no date, record with TimeStampFormat := DateTime")
    found = [Session(name if len(mains) == 1 else f"{name}, session {at}", it) for at, it in enumerate(mains, 1)]
    begins = [it.main.first for it in found]
    for process in sorted((it for it in processes if it.role != MAIN and found), key=lambda it: it.first):
        session = found[max(0, bisect_right(begins, process.first) - 1)]
        first = session.components.setdefault(process.role, process)
        if first is not process:
            session.remarks.append(f"component {process.role} has two logs: {first.file} and {process.file}")
    yield from found


def remarks_on(session: Session) -> Iterator[str]:
    """What is said about the logs themselves."""
    every = [session.main, *session.components.values()]
    if not all(it.is_typed for it in every):
        yield "the logs have no event types: a line that the test logs itself may be taken for the runtime's"
    yield from (text for _, text in session.left_out())
    if not session.main.is_begun:
        yield f"{session.main.file}: the beginning of the main component's log is missing"
    begun = [it for it in every[1:] if not it.is_begun]
    if begun:
        yield f"{begun[0].file}: the beginning of the log is missing ({len(begun)} such logs)"
    unknown = [it for process in every for it in process.unknown]
    if unknown:
        yield f"{len(unknown)} lines are not understood, the first is {unknown[0]}"


def read_sessions(paths: Sequence[str]) -> List[Session]:
    budget, found = Budget(), []
    files = [it for path in paths for it in files_in(path)]
    if len(files) > MOST_FILES:
        raise Refused(f"{len(files)} files are more than {MOST_FILES}")
    by_folder: Dict[str, List[str]] = defaultdict(list)
    for path in files:
        by_folder[os.path.dirname(path)].append(path)
    for its in by_folder.values():
        groups, gaps = groups_of(its, budget)
        for session in (it for name, processes in groups.items() for it in sessions_of(name, processes)):
            session.remarks += [*gaps, *remarks_on(session)]
            found.append(session)
    if not found:
        raise Refused("no log of a main component is there" if files else f"no log of Titan is in {' or '.join(paths)}")
    return found
