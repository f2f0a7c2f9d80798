"""What the tests of the Python client share: their place, servers, and what a result must be."""
import os
import subprocess
import sys
import time
from dataclasses import dataclass, field
from typing import Callable, List, Tuple

TESTS_FOLDER = os.path.dirname(os.path.dirname(os.path.abspath(__file__)))
CLIENT = os.environ.get("FILSKEAM_CLIENT", os.path.join(os.path.dirname(TESTS_FOLDER), "clients", "python"))
sys.path[:0] = [CLIENT, os.path.join(TESTS_FOLDER, "serve"), os.path.join(TESTS_FOLDER, "program")]

from filskeam import Result, Server
from filskeam.words import Behaviour
from holding import ServerRoom, hold, legal_evidence, whole_block
from texts import Block

SECONDS = 240
# How long a behaviour that hangs is waited for, in these tests; and how long any other may take to return, or a server to end.
HANGS, GRACE = 0.5, 20.0
# A behaviour that hangs does so for longer than any test.
FOR_EVER = 1000.0


@dataclass
class Place(ServerRoom):
    """The place of a test: a folder of its own, the command of the server, and what it has reached."""

    reached: List[str] = field(default_factory=list)

    def server(self, **more: object) -> Server:
        return Server(**{"command": None if self.command[0] == "library" else self.command, "grace": GRACE, **more})

    def run(self, name: str, main: Behaviour, timeout: float = SECONDS, **more: object) -> Result:
        """The result of a test case on a server of its own."""
        with self.server(**more) as server:
            return server.run(name, main, timeout)

    def call(self, *command: str, folder: str = "", **more: str) -> Tuple[int, str]:
        """The status of a command, in a folder or in that of the test, and what it prints. A Python has the client, and TTRUN is the server."""
        path = os.pathsep.join(it for it in (CLIENT, os.environ.get("PYTHONPATH")) if it)
        environment = {**os.environ, "TTRUN": self.program(), "PYTHONPATH": path, "PYTHONDONTWRITEBYTECODE": "1", **more}
        ran = subprocess.run(command, cwd=folder or self.room, env=environment, stdout=subprocess.PIPE, stderr=subprocess.STDOUT,
                             timeout=SECONDS, check=False)
        return ran.returncode, ran.stdout.decode()

    def reach(self, what: str, count: int, least: int) -> None:
        """Says how much the test reached; fails below the floor."""
        self.reached.append(f"{count} {what}")
        hold(count >= least, f"{count} {what}, and {least} are wanted")

    def blocks(self, name: str) -> List[Block]:
        """The evidence in a file, which must be legal."""
        return legal_evidence(self.text(name))


def legal(result: Result) -> Block:
    return whole_block(result.evidence, result.verdict)


def timed(call: Callable[[], Result], most: float) -> Result:
    """The result of a call that must be back in that many seconds."""
    began = time.monotonic()
    result = call()
    hold(time.monotonic() - began < most, f"it took {time.monotonic() - began:.1f} seconds, and {most} are allowed")
    return result
