"""What the tests of ttrun-titan share: their place, and calls of the command."""
import os
import sys
import tempfile
from dataclasses import dataclass
from typing import List, Sequence

TOP = os.path.dirname(os.path.dirname(os.path.dirname(os.path.abspath(__file__))))
CLIENT = os.environ.get("TITAN_CLIENT", os.path.join(TOP, "clients", "titan"))
sys.path[:0] = [CLIENT, os.path.join(TOP, "tests", "program")]

import holding
from harness import call

LOGS = os.path.join(TOP, "clients", "titan", "logs")


@dataclass
class Ran:
    lines: List[str]
    errors: str
    status: int

    @property
    def text(self) -> str:
        return "\n".join(self.lines)


@dataclass
class Place(holding.Room):
    """The place of a test: a folder of its own, and the program ttrun."""

    program: str

    def log(self, name: str, lines: Sequence[str]) -> str:
        return self.write(name, "".join(f"{it}\n" for it in lines))

    def recorded(self, name: str) -> str:
        """A folder of logs that were recorded, which record.sh keeps in one text."""
        for part in holding.text_of(log(f"{name}.logs"))[len("==> "):].split("\n==> "):
            file, _, text = part.partition(" <==\n")
            self.write(f"{name}/{file}", text)
        return self.path(name)

    def command(self, *words: str) -> Ran:
        environment = {**os.environ, "TTRUN": self.program, "PYTHONDONTWRITEBYTECODE": "1"}
        ran = call([sys.executable, os.path.join(CLIENT, "ttrun-titan"), *words], b"", cwd=self.room, env=environment)
        return Ran(ran.output.decode().splitlines(), ran.errors.decode(), ran.status)

    def says(self, status: int, said: str, *words: str) -> Ran:
        """The same of a call that must end with this status, and say this."""
        ran = self.command(*words)
        holding.hold(ran.status == status and said in ran.text + ran.errors, f"{said} and status {status} are wanted: {ran}")
        return ran


def log(name: str) -> str:
    return os.path.join(LOGS, name)


def lines_of(name: str) -> List[str]:
    return holding.text_of(log(name)).splitlines()


def judged(name: str, program: str) -> holding.Answer:
    with tempfile.TemporaryDirectory(prefix="titan-test-") as room:
        return holding.judged(name, Place(room, program))
