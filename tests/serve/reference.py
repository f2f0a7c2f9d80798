#!/usr/bin/env python3
"""The protocol of `ttrun serve`, read independently: lines from standard input, evidence to standard output.

usage: tests/serve/reference.py [serve] < LINES

The tests of the clients run over it, and the tests of the protocol hold `ttrun serve` to it, byte by byte. So it uses nothing of
the clients of a bench, and must not. The table is that of all tests, the reader of moves tests/program/texts.py. If the protocol
leaves a choice, it is made so here:

- A line is of run B if it begins with the number of a run of the case, as numbers are spelled. The next byte, if there
  is one, is below 48: it is neither a digit nor a letter. So lines as `1`, `1,5` and `0 nonsense` are answered in the
  evidence. Lines as `1x`, `01 finish` and, in a case of two, `9 # text` are printed on standard error.
- A line is refused for the first reason that holds: its end, its length, its form, and then whether it may come here.
- A run that waits may still say a remark. Only its moves are refused.
- A naming that is refused is a line without a run.
- A move of a run that the case does not have is answered `ended` and recorded, as everywhere.
- The input's end inside a case is no refused line: the status is that of the worst verdict, and a case that is not over
  counts as error.
- No line of these forms has more than 208 bytes, so of a longer one only the beginning is kept. It is refused at its end.
"""
import os
import re
import sys
from typing import Dict, List, Optional, Set, Tuple

sys.dont_write_bytecode = True
sys.path.insert(0, os.path.join(os.path.dirname(os.path.dirname(os.path.abspath(__file__))), "program"))

from table import Op, Table, worst
from texts import MOST_RUN, NUMBER, behaviours_of, is_name, read_move, status_of

MOST_BYTES_OF_A_LINE = 208
REMARK = re.compile(rf"({NUMBER}) # (.*)", re.DOTALL)
REMARKED = re.compile("[ -~]{1,200}")
NAMING = re.compile(rf"behaviour ({NUMBER}) ([^ ]+)")
HEADER = re.compile(r"case ([^ ]+) ([^ ]+)")


class Refused(Exception):
    """A line is refused, for this reason, and has changed nothing."""


class WriteFault(Exception):
    """Standard output takes nothing any more."""


class Fatal(Exception):
    """A refused line that ends the server."""


class Asked:
    """What a line asks for: a case with a name and behaviours, the end, a move, or a line for a run."""

    def __init__(self, line: str) -> None:
        self.line = line
        remark, naming, header, self.move = REMARK.fullmatch(line), NAMING.fullmatch(line), HEADER.fullmatch(line), read_move(line)
        self.is_end = line == "end"
        self.is_header = bool(header) and is_name(header[1]) and behaviours_of(header[2]) is not None
        self.name, self.behaviours = header.groups() if self.is_header else ("", "0")
        self.is_remark = bool(remark) and int(remark[1]) <= MOST_RUN
        self.is_naming = bool(naming) and int(naming[1]) <= MOST_RUN and is_name(naming[2])
        self.run = int(remark[1]) if self.is_remark else int(naming[1]) if self.is_naming else 0
        if len(line) > MOST_BYTES_OF_A_LINE:
            raise Refused("line too long")
        if self.is_remark and not REMARKED.fullmatch(remark[2]):
            raise Refused("bad remark")
        if header and is_name(header[1]) and re.fullmatch(NUMBER, header[2]) and not self.is_header and int(header[2]) < 1 << 32:
            raise Refused("a test case has 1 to 256 behaviours")
        if not (self.move or self.is_end or self.is_header or self.is_remark or self.is_naming):
            raise Refused("bad line")


class OpenCase:
    """A test case that is open: its table, who waits for what, and of which runs there was a line."""

    def __init__(self, name: str, behaviours: int) -> None:
        self.name, self.behaviours = name, behaviours
        self.table = Table(behaviours)
        self.waits: Dict[int, Op] = {}
        self.met: Set[int] = set()

    def run_of(self, line: str) -> Optional[int]:
        """The run of the case that the line begins with."""
        found = re.match(f"{NUMBER}(?![0-\xff])", line)
        return int(found[0]) if found and int(found[0]) < self.behaviours else None

    def take(self, asked: Asked) -> List[str]:
        """What is written for what a line asks of the case, or why it is refused."""
        if asked.move:
            return self.moved(*asked.move)
        if asked.run >= self.behaviours:
            raise Refused("no such run")
        if asked.is_naming and asked.run in self.met:
            raise Refused("late name")
        self.met.add(asked.run)
        return [asked.line]

    def moved(self, caller: int, op: Op) -> List[str]:
        if op.verb == "wake":
            raise Refused("a wake comes of itself")
        if caller in self.waits:
            raise Refused("the run waits")
        return [self.play(caller, op), *self.wakes()]

    def refuse(self, run: int, why: str) -> str:
        """The line that a refused line of this run leaves."""
        self.met.add(run)
        return f"{run} ! {why}"

    def play(self, caller: int, op: Op) -> str:
        reply = self.table.play(caller, op)
        self.met.add(caller)
        if op.verb == "start":
            self.met.add(op.run)
        self.waits.pop(caller, None)
        if reply == "parked":
            self.waits[caller] = Op("wake", op.target, awaited=op.awaited)
        return f"{caller} {op.text()} -> {reply}"

    def wakes(self) -> List[str]:
        """The wakes of those that would not be parked any more, in the order of their numbers, each after those before it."""
        lines = []
        for run in sorted(self.waits):
            if self.table.would(run, self.waits[run]) != "parked":
                lines.append(self.play(run, self.waits[run]))
        return lines

    def counted(self) -> str:
        """The verdict that counts for the status."""
        is_over = self.table.components[0].phase != "running"
        return self.table.overall() if is_over else "error"


class Server:
    """All test cases of an input, line by line."""

    def __init__(self) -> None:
        self.case: Optional[OpenCase] = None
        self.worst = "none"
        self.is_refused = False
        self.lines = 0

    def take(self, line: str, is_whole: bool = True) -> Tuple[List[str], List[str]]:
        """What a line adds to standard output, and to standard error."""
        self.lines += 1
        try:
            return self.accepted(line, is_whole), []
        except Refused as refused:
            return self.refuse(line, str(refused))

    def refuse(self, line: str, why: str) -> Tuple[List[str], List[str]]:
        self.is_refused = True
        told = f"line {self.lines}: {why}"
        if self.case is None:
            raise Fatal(told)
        run = self.case.run_of(line)
        return ([], [told]) if run is None else ([self.case.refuse(run, why)], [])

    def accepted(self, line: str, is_whole: bool) -> List[str]:
        """What is written for the line, or why it is refused."""
        if not is_whole:
            raise Refused("no line feed")
        asked = Asked(line)
        if asked.is_header:
            return self.begin(asked)
        if self.case is None:
            raise Refused("no test case is open")
        return self.close() if asked.is_end else self.case.take(asked)

    def begin(self, asked: Asked) -> List[str]:
        if self.case:
            raise Refused("a test case is open")
        self.case = OpenCase(asked.name, int(asked.behaviours))
        return [f"evidence 1 {asked.name} {asked.behaviours}"]

    def close(self) -> List[str]:
        self.worst = worst(self.worst, self.case.counted())
        line = f"end {self.case.table.overall()}"
        self.case = None
        return [line]

    def finish(self) -> Tuple[List[str], List[str]]:
        """The input has ended."""
        if self.case is None:
            return [], []
        return self.close(), ["the input ended inside a test case"]

    def status(self) -> int:
        return 3 if self.is_refused else status_of(self.worst)


def write(lines: List[str]) -> None:
    """Writes lines to standard output, at once."""
    text = "".join(f"{line}\n" for line in lines).encode()
    try:
        while text:
            text = text[os.write(1, text):]
    except OSError:
        raise WriteFault from None


def tell(lines: List[str]) -> None:
    """Writes lines to standard error, if it takes them."""
    for line in lines:
        try:
            os.write(2, f"ttrun: {line}\n".encode())
        except OSError:
            return


def answer(server: Server, chunk: bytes, kept: bytes) -> bytes:
    """Answers each line that ends in the chunk; what is kept of the last one, which has not ended."""
    *ended, rest = chunk.split(b"\n")
    written: List[str] = []
    try:
        for line in ended:
            out, err = server.take((kept + line)[:MOST_BYTES_OF_A_LINE + 1].decode("latin-1"))
            kept = b""
            written += out
            tell(err)
    finally:
        write(written)
    return (kept + rest)[:MOST_BYTES_OF_A_LINE + 1]


def serve(server: Server) -> int:
    """Serves standard input to its end; the status."""
    kept = b""
    while True:
        chunk = os.read(0, 4096)
        if not chunk:
            break
        kept = answer(server, chunk, kept)
    if kept:
        out, err = server.take(kept.decode("latin-1"), is_whole=False)
        write(out)
        tell(err)
    out, err = server.finish()
    write(out)
    tell(err)
    return server.status()


def main() -> int:
    if sys.argv[1:] not in ([], ["serve"]):
        print(__doc__, file=sys.stderr)
        return 3
    try:
        return serve(Server())
    except Fatal as fault:
        tell([str(fault)])
    except WriteFault:
        tell(["write fault"])
    except OSError:
        tell(["read fault"])
    return 3


if __name__ == "__main__":
    sys.exit(main())
