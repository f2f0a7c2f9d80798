"""What the tests of the clients share: their list, the folder of each, the server, and what any bench must have done."""
import argparse
import importlib
import inspect
import os
import re
import shlex
import sys
from dataclasses import dataclass
from functools import partial
from typing import Callable, Dict, List, Sequence, Type

TESTS_FOLDER = os.path.dirname(os.path.dirname(os.path.abspath(__file__)))
REFERENCE = os.path.join(TESTS_FOLDER, "serve", "reference.py")
sys.path.append(TESTS_FOLDER)

from harness import TOP, Answer, Fault, Folder, Skipped, answer_of, chosen, hold, same, status_of, text_of, words_of
from texts import EVIDENCE, Block, check, read_blocks

# The tests by their names. A test is called with its place, and may answer what it reached.
TESTS: Dict[str, Callable[..., object]] = {}


def load(*modules: str) -> None:
    """Lists the tests of these modules: each function whose only parameter is called `place`."""
    for module in map(importlib.import_module, modules):
        for name, it in vars(module).items():
            if inspect.isfunction(it) and it.__module__ == module.__name__ and list(inspect.signature(it).parameters) == ["place"]:
                if name in TESTS or inspect.getsource(module).count(f"\ndef {name}(") > 1:
                    sys.exit(f"two tests have one name: {name}")
                TESTS[name] = it


def holds_word(word: str, text: str) -> None:
    hold(word in text, f"{text!r} has no {word!r}")


def raises(kind: Type[BaseException], call: Callable[[], object]) -> BaseException:
    """What a call raises, which must be of this kind."""
    try:
        call()
    except kind as raised:
        return raised
    raise Fault(f"no {kind.__name__} was raised")


def evidence_in(text: str) -> List[Block]:
    """The blocks of a text of evidence, which ends with a line feed."""
    hold(text.endswith("\n") or not text, "the last line has no line feed")
    blocks, fault = read_blocks(text.encode()) if text else ([], None)
    hold(not fault and all(it.format == EVIDENCE for it in blocks), f"no evidence, by its fault {fault}: {text}")
    return blocks


def legal_evidence(text: str) -> List[Block]:
    """The blocks of such a text, which must be legal: the table of the tests replies so to each entry, and ends so."""
    blocks = evidence_in(text)
    hold(not blocks or check(text.encode()).status == 0, f"the evidence is not legal: {text}")
    return blocks


def whole_block(text: str, verdict: str) -> Block:
    """The only block of a legal text, which has this verdict, and no refused line."""
    blocks = legal_evidence(text)
    same([(verdict, [])], [(it.verdict, it.marked("!")) for it in blocks], "the verdict, and refused lines:")
    return blocks[0]


def blocks_of(path: str, kind: str) -> List[str]:
    return [text for it, text in re.findall(r"^```(.*)\n((?:.*\n)*?)```$", text_of(path), re.MULTILINE) if it == kind]


def version_of_the_program() -> List[str]:
    """The version that the sources of the program say, once."""
    return re.findall('VERSION: &str = "([^"]+)"', text_of(os.path.join(TOP, "crates", "tc_command", "src", "command.rt")))


def hold_each_call(entries: Sequence[str]) -> int:
    """Holds the entries of a main behaviour that makes each call, and asks for each status of a component at each phase: how many they are."""
    told = ((1, "false true false false"), (1, "false true true false"), (1, "false false true true"), (2, "true true false false"),
            (2, "false false true true"))
    asked = [[f"0 {status} {it} -> {answer}" for status, answer in zip(("running", "alive", "done", "killed"), answers.split())]
             for it, answers in told]
    wanted = ["0 create alive named pump -> made 1", "0 create -> made 2", *asked[0], "0 start 1 1 -> ok", *asked[1], "0 kill 1 -> ok", *asked[2],
              "0 start 2 2 -> ok", *asked[3], "0 stop 2 -> ok", *asked[4], "0 setverdict pass -> ok", "0 getverdict -> pass", "0 finish -> ok"]
    own = [it for it in entries if it.startswith("0 ")]
    same([it for it in own if not it.startswith(("0 wait", "0 wake"))], wanted)
    same({" ".join(it.split()[1:4]) for it in own if it.startswith("0 wait")}, {"wait done 1", "wait killed 2"})
    return len(own)


@dataclass
class Room(Folder):
    room: str

    def path(self, name: str) -> str:
        return os.path.join(self.room, name)


@dataclass
class ServerRoom(Room):
    """A folder, and the command of a server."""

    command: Sequence[str]

    def program(self) -> str:
        """The server as a program that is called with the word serve."""
        return self.called("exit 9", "ttrun")

    def whole_program(self) -> str:
        """The same, with the other commands of ttrun."""
        if self.command[1:] != ["serve"]:
            raise Skipped("the server is not the program ttrun")
        return self.called(f'exec {shlex.quote(self.command[0])} "$@"', "whole_ttrun")

    def called(self, otherwise: str, name: str) -> str:
        return self.write(name, f'#!/bin/sh\n[ "$*" = serve ] || {otherwise}\nexec {shlex.join(self.command)}\n', True)


def words_of_clients(about: str) -> argparse.ArgumentParser:
    """The words that choose tests, and that for another server than that in Python."""
    made = words_of(about, has_program=False)
    made.add_argument("--server", default=shlex.join([sys.executable, REFERENCE]), help="the command of the server")
    return made


def command_of(given: argparse.Namespace) -> List[str]:
    """The words of the command of the server, with its files as paths from any folder."""
    return [os.path.abspath(it) if os.path.exists(it) else it for it in shlex.split(given.server)]


def judged(name: str, place: Room) -> Answer:
    """Runs a test in its place."""
    return answer_of(name, partial(TESTS[name], place))
