"""The component table in this process, by the library filskeam: it answers lines as `ttrun serve` does."""
from __future__ import annotations

import ctypes
import functools
import os
from typing import Callable, Dict, List, Optional, Sequence, Tuple

from .errors import NoProgram
from .evidence import VERDICTS, Line, entry_of, parsed
from .program import find_program

FILE = "libfilskeam.so"
# Of clients/cpp/filskeam.h: the calls that are made here, one of their answers, and how many bytes a reply has at most.
CALLS, NO_MEMORY, ROOM = ("open", "play", "would", "overall", "is_over", "close"), 4, 32
# A line of evidence, and its text. The first line and the last of a test case are texts only.
Answer = Tuple[Optional[Line], str]


class Place(ctypes.Structure):
    """A place for a test case: only the library reads or writes it."""

    _fields_ = [("at", ctypes.c_void_p), ("is_open", ctypes.c_bool)]


def find_library() -> Optional[ctypes.PyDLL]:
    """What FILSKEAM_LIBRARY names, which may be empty for none, or the file next to the program or on the loader's path."""
    named = os.environ.get("FILSKEAM_LIBRARY")
    try:
        near = os.path.join(os.path.dirname(os.path.realpath(find_program())), FILE)
    except NoProgram:
        near = FILE
    for path in (near, FILE) if named is None else [named] if named else ():
        try:
            library = ctypes.PyDLL(path)
            for name in CALLS:
                getattr(library, f"filskeam_{name}").restype = ctypes.c_uint8
            return library
        except (OSError, AttributeError) as error:
            if named:
                raise NoProgram(f"{path} cannot be loaded: {error}") from error
    return None


class InProcess:
    """The table of one test case after the other. One call at a time: its caller holds a lock."""

    def __init__(self, library: ctypes.PyDLL) -> None:
        self.library, self._place, self._room = library, Place(), ctypes.create_string_buffer(ROOM)
        self.place, self._play, self._would = ctypes.byref(self._place), library.filskeam_play, library.filskeam_would
        self._size, self._most, self._count = ctypes.c_size_t(), ctypes.c_size_t(ROOM), ctypes.c_size_t()
        self._told = ctypes.byref(self._count)
        # The wakes of the runs that wait.
        self._waits: Dict[int, str] = {}
        self._status = 0

    def exchange(self, lines: Sequence[str], _: Optional[float] = None) -> List[Answer]:
        """What the lines are answered: an entry is followed by the wakes that it allows, in the order of their runs."""
        found: List[Answer] = []
        for line in lines:
            if line[0] <= "9" and " # " not in line:
                self._make(line, found)
            elif line.startswith("case "):
                _hold(self.library.filskeam_open(self.place, ctypes.c_uint16(int(line.rpartition(" ")[2]))), line)
                found.append((None, f"evidence 1{line[4:]}"))
            else:
                found.append((None, self._end()) if line == "end" else (parsed(line), line))
        return found

    def _end(self) -> str:
        verdict, is_over = self.library.filskeam_overall(self.place), self.library.filskeam_is_over(self.place)
        _hold(self.library.filskeam_close(self.place), "end")
        self._waits.clear()
        self._status = max(self._status, (0, 0, 1, 1, 2)[verdict if is_over else 4])
        return f"end {VERDICTS[verdict]}"

    def _make(self, move: str, found: List[Answer]) -> None:
        line, _ = answer = _entry(move, self.asked(self._play, move))
        found.append(answer)
        if line.reply == "parked":
            self._waits[line.run] = f"{line.run} wake{line.text[4:]}"
        elif not line.halts:  # after it nobody can continue who could not before
            return
        for run in sorted(self._waits):
            if self.asked(self._would, self._waits[run]) != "parked":
                wake = self._waits.pop(run)
                found.append(_entry(wake, self.asked(self._play, wake)))

    def asked(self, call: Callable[..., int], move: str) -> str:
        """The reply to a move, by one of two calls of the library."""
        self._size.value = len(move)
        number = call(self.place, move.encode(), self._size, self._room, self._most, self._told)
        if number:
            _hold(number, move)
        return self._room[:self._count.value].decode()

    def kill(self) -> None:
        """A call that has begun is made."""

    def close(self) -> int:
        """Gives back what is still open: the status by the worst verdict."""
        self.library.filskeam_close(self.place)
        return self._status


@functools.lru_cache(1000)
def _entry(move: str, reply: str) -> Tuple[Line, str]:
    run, _, words = move.partition(" ")
    return entry_of(int(run), words, reply), f"{move} -> {reply}"


def _hold(number: int, line: str) -> None:
    if number == NO_MEMORY:
        raise MemoryError("the table ran out of memory")
    if number:
        raise ValueError(f"the table takes no line {line!r}")
