"""Models of test cases that a bench ran, and their verdicts in other orders. They are those of the program if the server is that."""
import dataclasses
import itertools
import os
import shlex
import sys
import threading
from typing import Dict, Tuple

from document_tests import pytested, reported
from filskeam import NoProgram, Result, Run
from holding import Skipped, hold, holds_word, raises, same
from kit import FOR_EVER, HANGS, Place, legal

# A behaviour of a bench knows a component by itself: in the model it is handed it.
MODEL = """testcase t_race
behaviour main
  create c1 named pump
  create c2 alive named dog
  start c1 worker
  start c2 watch c1
  getverdict
end
behaviour worker
  setverdict fail
end
behaviour watch c1
  wait done c1
end
end
"""

# What answers for the program if the server is another.
STAND_IN = """import sys
text, is_model = sys.stdin.read(), sys.argv[1:] == ["model"]
name = text.split()[2 if is_model else 1]
if is_model and (name == "t_stopped" or "end " not in text):
    sys.exit("ttrun: line 1: " + ("no model of t_stopped: it is not over" if "end " in text else "text ends too early"))
print(f"{name} {'none fail' if name == 't_race' else 'pass'} complete" if not is_model else MODEL.rstrip() if name == "t_race" else f"testcase {name}")
"""


def program_of(room: Place) -> str:
    """The program, or a server with what answers for the program."""
    try:
        return room.whole_program()
    except Skipped:
        stand_in = room.write("stand_in.py", f"MODEL = {MODEL!r}\n{STAND_IN}")
        return room.called(f'exec {shlex.join([sys.executable, stand_in])} "$@"', "whole_ttrun")


def main(run: Run) -> None:
    """Starts a worker that fails, and does not wait for it: it was there in time."""
    pump, dog = run.create("pump"), run.create("dog", alive=True)
    is_done = threading.Event()

    def worker(own: Run) -> None:
        own.set_verdict("fail")

    def watch(own: Run) -> None:
        own.wait_done(pump)
        is_done.set()

    run.start(pump, worker)
    run.start(dog, watch)
    is_done.wait()
    run.get_verdict()


def stopped(run: Run) -> None:
    """Kills a component whose behaviour makes no call any more."""
    pump, is_there = run.create(), threading.Event()

    def hangs(_: Run) -> None:
        is_there.set()
        threading.Event().wait(FOR_EVER)

    run.start(pump, hangs)
    is_there.wait()
    run.kill(pump)


def ran(place: Place, *mains: object) -> Tuple[Result, ...]:
    with place.server(grace=HANGS) as server:
        return tuple(server.run(f"t_{name}", it, 60) for name, it in zip(("race", "stopped"), mains))


def a_result_has_a_model(place: Place) -> None:
    """The script of its calls, which has the verdicts of all orders; also after the text of a file."""
    program = program_of(place)
    race, = ran(place, main)
    legal(race)
    same((race.verdict, race.model(program), race.verdicts(program)), ("fail", MODEL, ["none", "fail"]))
    place.reach("lines", MODEL.count("\n"), 15)


def a_result_without_a_model_says_why(place: Place) -> None:
    """Its evidence is cut, or a behaviour was stopped and made no call after it; and there may be no program, or none that knows models."""
    program = program_of(place)
    race, late = ran(place, main, stopped)
    cut = dataclasses.replace(race, evidence=race.evidence.rpartition("end ")[0])
    whys: Dict[str, Result] = {"text ends too early": cut, "no model of t_stopped: ": late}
    for (word, result), call in itertools.product(whys.items(), (Result.model, Result.verdicts)):
        holds_word(word, str(raises(ValueError, lambda: call(result, program))))
    silent = place.write("silent", "#!/bin/sh\nexit 7\n", True)
    same(str(raises(ValueError, lambda: race.model(silent))), f"{silent} model ended with status 7")
    raises(NoProgram, lambda: race.model("/nowhere/ttrun"))
    least = place.write("least", "#!/bin/sh\n[ $1 = model ] && exec cat\necho t_race fail undecided after 1 states: limit of states\n", True)
    same(str(raises(ValueError, lambda: race.verdicts(least))), "ttrun explore: t_race fail undecided after 1 states: limit of states")
    place.reach("reasons", len(whys) + 3, 5)


BENCHES = """import kit  # which leads to the others
from model_tests import main, stopped

def test_race(filskeam):
    filskeam.run("t_race", main, expect="fail")

def test_alone(filskeam):
    filskeam.run(lambda run: run.set_verdict("pass"))

def test_stopped(filskeam):
    filskeam.run("t_stopped", stopped, expect="none")
"""


def pytest_marks_luck(place: Place) -> None:
    """In the report and at the end; and with the other option such a test fails, and no other."""
    program_of(place)
    place.write("test_luck.py", BENCHES)
    place.write("pytest.ini", "[pytest]\nfilskeam_program = ./whole_ttrun\nfilskeam_grace = 0.5\npythonpath = "
                f"{os.path.dirname(os.path.abspath(__file__))}\n")
    for option, status in (("", 0), ("--filskeam-luck", 0), ("--filskeam-luck-fails", 1)):
        found, shown = pytested(place, *[option] * bool(option))
        same(found, status, shown)
        told = {it.attrib["name"]: it.attrib["value"] for case in reported(place).values() for it in case.iter("property") if it.attrib["name"].endswith(".luck")}
        same({name: text.partition(":")[0] for name, text in told.items()},
             {"t_race.luck": "none or fail", "t_stopped.luck": "not known"} if option else {}, option)
        hold(("test_luck.py::test_race: t_race: none or fail\n" in shown) == bool(option), shown)
        failed = [name for name, it in reported(place).items() if it.find("failure") is not None]
        same(failed, ["test_race"] * status)
    holds_word("t_race: none or fail in another order of calls", shown)
    place.reach("options", 3, 3)
