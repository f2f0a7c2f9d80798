"""The program `ttrun serve`: its place, its pipes, its end."""
from __future__ import annotations

import io
import os
import select
import shutil
import subprocess
import tempfile
import weakref
from typing import TYPE_CHECKING, BinaryIO, Optional, Sequence, Tuple, cast

from .errors import NoProgram

if TYPE_CHECKING:
    from .evidence import Line

# No line of evidence is as long.
MOST_BYTES_OF_A_LINE = 1000


def find_program() -> str:
    """The program: what TTRUN or FILSKEAM_TTRUN names, `ttrun` on the path, or the wrapper of the checkout that this file is in."""
    named = os.environ.get("TTRUN") or os.environ.get("FILSKEAM_TTRUN")
    if named:
        return named
    wrapper = os.path.join(os.path.dirname(os.path.abspath(__file__)), *[os.pardir] * 3, "ttrun")
    found = shutil.which("ttrun") or shutil.which(os.path.normpath(wrapper))
    if found is None:
        raise NoProgram("there is no ttrun: let TTRUN name the program, or put it on the path")
    return found


def asked(text: str, *words: str, program: str = "") -> str:
    """What the program prints for these arguments and this input. Raises `ValueError` with its last line on standard error, if that is
    why it prints nothing."""
    command = [program or find_program(), *words]
    try:
        ran = subprocess.run(command, input=text, capture_output=True, encoding="latin-1", check=False)
    except OSError as error:
        raise NoProgram(f"{command[0]} cannot be started: {error.strerror}") from error
    if not ran.stdout:
        raise ValueError((ran.stderr.splitlines() or [f"{' '.join(command)} ended with status {ran.returncode}"])[-1])
    return ran.stdout


class Program:
    """A server that runs: lines go in, lines come out."""

    def __init__(self, command: Sequence[str], grace: float) -> None:
        self._grace = grace
        self._errors = tempfile.TemporaryFile()
        try:
            # In a session of its own, Ctrl-C at a terminal ends the bench, which then closes the test case.
            self._process = subprocess.Popen(list(command), bufsize=0, stdin=subprocess.PIPE, stdout=subprocess.PIPE,
                                             stderr=self._errors, start_new_session=True)
        except OSError as error:
            self._errors.close()
            raise NoProgram(f"{command[0]} cannot be started: {error.strerror}") from error
        self._input = cast(BinaryIO, self._process.stdin)
        self._output = io.BufferedReader(cast(io.RawIOBase, self._process.stdout))
        _PROGRAMS.add(self)

    def exchange(self, lines: Sequence[str], seconds: Optional[float] = None) -> Sequence[Tuple[Optional[Line], str]]:
        """Gives it lines, unless it takes none for that many seconds. One that has ended is noticed by its reader, who has the answers too."""
        text, pipe = "".join(f"{line}\n" for line in lines).encode(), self._input.fileno()
        try:
            if seconds is None or select.select([], [pipe], [], seconds)[1]:
                while text:
                    text = text[os.write(pipe, text):]
        except OSError:
            pass
        return ()

    def read(self) -> Optional[str]:
        """The next line, without its line feed; None at the end, also if the last line is cut."""
        line = self._output.readline(MOST_BYTES_OF_A_LINE)
        if len(line) < MOST_BYTES_OF_A_LINE and not line.endswith(b"\n"):
            return None
        return line.decode("latin-1").rstrip("\n")

    def how_it_ended(self) -> str:
        """How it ended, by its own last line."""
        try:
            status = self._process.wait(self._grace)
        except subprocess.TimeoutExpired:
            return "the server has closed its output"
        self._errors.seek(0)
        told = self._errors.read().decode("utf-8", "replace").strip().splitlines()
        # A program that does not know the word serve says so first, and how to get help last.
        last = next((it for it in told if it.startswith("error: ")), told[-1] if told else "")
        how = f"signal {-status}" if status < 0 else f"status {status}"
        return f"the server ended with {how}" + f": {last}" * bool(last)

    def kill(self) -> None:
        self._process.kill()

    def close(self) -> int:
        """Ends its input, and waits for its end: its status, 3 if it was a signal."""
        self._input.close()
        try:
            status = self._process.wait(self._grace)
        except subprocess.TimeoutExpired:
            self.kill()
            status = self._process.wait()
        self._output.close()
        self._errors.close()
        return status if 0 <= status <= 3 else 3


_PROGRAMS: weakref.WeakSet[Program] = weakref.WeakSet()


def _close_pipes() -> None:
    """In a child made by fork: with a copy of the pipe open, the server would not learn of the end of its input."""
    for it in list(_PROGRAMS):
        it._input.close()
        it._output.raw.close()  # the reader's own lock may be held


os.register_at_fork(after_in_child=_close_pipes)
