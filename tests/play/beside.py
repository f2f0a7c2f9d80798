"""The engine of the page in node, next to the built program: status, output and errors of the same words and input, byte by byte."""
import base64
import json
import os
import random
import select
import subprocess
import sys
from collections import Counter
from contextlib import AbstractContextManager
from typing import Iterator, List, Sequence, Tuple

TESTS_FOLDER = os.path.dirname(os.path.dirname(os.path.abspath(__file__)))
sys.path[1:1] = [TESTS_FOLDER, os.path.join(TESTS_FOLDER, "program"), os.path.join(TESTS_FOLDER, "page")]

import explain
import reports
import rows
import scripts
import sizes
import words as of_words
from case import Case
from harness import SECONDS, TOP, bytes_of, call, hold, reached
from histories import campaign, legal_case, random_block, widest_case
from model import Context
from random_moves import spoilt
from random_scripts import changed, drawn_script

# What the engine says of a run that it does not begin.
LEFT = b"ttrun: a run needs threads, and there are none here: try explore\n"
EXPLORING = (("explore",), ("explore", "--details"), ("explore", "--locals"), ("explore", "--history"), ("explore", "--states", "40"),
             ("run", "--list"), ("run", "--explain"))
CHECKING = (("check",), ("check", "--explain"), ("report", "--csv"), ("report", "--junit"), ("report", "--html"), ("report", "--csv", "--explain"), ("model",))
REPLAYING = (("replay",), ("replay", "--explain"))
TASKS = {".script": EXPLORING, ".history": CHECKING, ".moves": REPLAYING}
Answer = Tuple[int, bytes, bytes]


class Engine(AbstractContextManager):
    """The engine in node, which answers one question after the other."""

    def __init__(self, context: Context) -> None:
        words = [context.node, os.path.join(TOP, "tests", "play", "engine.mjs"), context.page]
        self.process = subprocess.Popen(words, stdin=subprocess.PIPE, stdout=subprocess.PIPE)
        self.memory = 0

    def __exit__(self, *_: object) -> None:
        self.process.stdin.close()
        try:
            self.process.wait(5)
        except subprocess.TimeoutExpired:
            self.process.kill()

    def answer(self, words: Sequence[str], text: bytes, *how: object) -> Answer:
        self.process.stdin.write(json.dumps([words, base64.b64encode(text).decode(), *how]).encode() + b"\n")
        self.process.stdin.flush()
        is_there = select.select([self.process.stdout], [], [], SECONDS)[0]
        line = self.process.stdout.readline() if is_there else b""
        hold(line, f"the engine {'broke off' if is_there else 'does not answer'}: {words}, {text[:300]!r}")
        status, output, errors, self.memory = json.loads(line)
        return status, base64.b64decode(output), base64.b64decode(errors)


def program_answer(context: Context, words: Sequence[str], text: bytes) -> Answer:
    ran = call(["ttrun", *words], text, executable=context.program)
    return ran.status, ran.output, ran.errors


def is_left(context: Context, words: Sequence[str], text: bytes) -> bool:
    """Whether the words ask for a run of test cases that the text spells, which the program would begin."""
    choice = [it for at, it in enumerate(words) if it in ("--only", "--shard") or at and words[at - 1] in ("--only", "--shard")]
    is_run = not words or words[0] == "run"
    return is_run and "--list" not in words and program_answer(context, ("run", "--list", *choice), text)[0] == 0


def compare(context: Context, engine: Engine, met: Counter, words: Sequence[str], text: bytes) -> None:
    """Holds the engine's answer to the program's; a run that it would begin is left, and that is said."""
    found = engine.answer(words, text)
    if found == (3, b"", LEFT):
        hold(is_left(context, words, text), f"{words} is no run that the program begins: {text[:300]!r}")
        met["left"] += 1
        return
    wanted = program_answer(context, words, text)
    for name, one, other in zip(("status", "output", "errors"), wanted, found):
        hold(one == other, f"{' '.join(words)}: {name} of the program {str(one)[:300]}, of the engine {str(other)[:300]}; {text[:400]!r}")
    met[f"{(list(words) + ['run'])[0]} {found[0]}"] += 1
    met["same"] += 1


def texts(ending: str) -> List[bytes]:
    return [bytes_of("examples", name) for name in sorted(os.listdir(os.path.join(TOP, "examples"))) if name.endswith(ending)]


def every_example_and_task(context: Context, engine: Engine) -> str:
    """Each task of each example, and what asks for no task."""
    met = Counter()
    for ending, tasks in TASKS.items():
        for text in texts(ending):
            for words in tasks:
                compare(context, engine, met, words, text)
                hold(engine.answer(words, text) == engine.answer(words, text, "small"), f"{words} with little room")
    for words in (("--help",), ("--version",), ("-h",), ("help",), *((name, "--help") for name in ("run", "explore", "check", "report", "model", "replay")),
                  ("frob",), ("explore", "--frob"), ("explore", "--histroy"), ("run", "--only", "a b"), ("report",), ("", ""), ("\u00e9",)):
        compare(context, engine, met, words, b"")
    return reached(met, {"same": 85, "left": 7, "check 0": 8, "replay 0": 2, "explore 0": 20})


def cases_of_the_program() -> Iterator[Case]:
    """The cases of the program's own tests that need no device, and whose words are text."""
    for group in (rows, scripts, of_words, explain, reports, sizes):
        for case in group.cases():
            if isinstance(case, Case) and case.is_plain and not case.stays_open:
                yield case


def every_case_of_the_program(context: Context, engine: Engine) -> str:
    """All that the tests of the program ask it, the largest inputs among them."""
    met = Counter()
    for case in cases_of_the_program():
        compare(context, engine, met, case.words, case.given)
        met["large"] += len(case.given) >= 1 << 20
    return reached(met, {"same": 250, "left": 30, "large": 5, "run 3": 50, "check 3": 20, "replay 3": 5})


def a_thousand_spoilt_texts(context: Context, engine: Engine) -> str:
    """Scripts, histories and lists of moves with small faults."""
    rng, met = random.Random(f"spoilt {context.seed}"), Counter()
    given = {ending: texts(ending) for ending in TASKS}
    for _ in range(1000):
        met["texts"] += 1
        ending = rng.choice(list(TASKS))
        text = changed(rng, drawn_script(rng, False)) if ending == ".script" and rng.random() < 0.5 else \
            spoilt(rng, given[ending])
        words = rng.choice(TASKS[ending])
        compare(context, engine, met, (*words, "--states", "2000") if words[0] == "explore" and "--states" not in words else words, text)
    return reached(met, {"texts": 1000, "same": 900, "explore 3": 50, "check 3": 50, "report 3": 100, "replay 3": 100, "run 3": 30})


def generated_searches(context: Context, engine: Engine) -> str:
    """Scripts that are drawn, and explored in each form."""
    rng, met = random.Random(f"searches {context.seed}"), Counter()
    for _ in range(150):
        text = drawn_script(rng, False)
        for words in (("explore", "--details"), ("explore", "--history")):
            met["searches"] += 1
            compare(context, engine, met, (*words, "--states", rng.choice(("100", "3000"))), text)
    return reached(met, {"searches": 300, "same": 300, "explore 0": 40, "explore 1": 20, "explore 3": 10})


def generated_histories(context: Context, engine: Engine) -> str:
    """Histories of any kind, most of them not legal, and legal ones of many sizes."""
    rng, met = random.Random(f"histories {context.seed}"), Counter()
    made = ["".join(random_block(rng, rng.random() < 0.5)[0] for _ in range(rng.randrange(1, 4))) for _ in range(150)]
    made += [legal_case(f"t_{runs}", runs, steps) for runs in (1, 3, 40) for steps in (1, 20)] + [widest_case("t_wide"), campaign(40, 200_000)]
    for text in made:
        for words in (rng.choice(CHECKING), ("check",)):
            compare(context, engine, met, words, text.encode())
    return reached(met, {"same": 300, "check 0": 8, "check 3": 100})


def the_largest_inputs(context: Context, engine: Engine) -> str:
    """As many bytes as may be, and one more; as many of everything as a script may have."""
    met, moves, history = Counter(), sizes.LONGEST_LIST, sizes.LONGEST_HISTORY
    for text, tasks in ((moves, REPLAYING), (history, CHECKING)):
        for words in tasks:
            for more in (b"", b"\n"):
                met["largest"] += 1
                compare(context, engine, met, words, text + more)
    for text in (sizes.many_behaviours(256), sizes.many_behaviours(257), sizes.single([f"create p{at}" for at in range(1000)]),
                 sizes.waiting(64, 1000), sizes.padded_script(1 << 20), sizes.padded_script((1 << 20) + 1)):
        for words in EXPLORING:
            met["largest"] += 1
            compare(context, engine, met, (*words, "--states", "3000") if words[0] == "explore" and len(words) < 3 else words, text)
    return reached(met, {"largest": 50, "same": 40})


def memory_is_refused(context: Context, engine: Engine) -> str:
    """With memory for nothing or a part of the work the answer says so, or it is right; with memory again the next one is right."""
    met, moves, history = Counter(), sizes.LONGEST_LIST, sizes.LONGEST_HISTORY
    script, small = sizes.waiting(64, 1000), texts(".history")[0]
    wanted = program_answer(context, ("check",), small)
    for words, text in ((("check",), history), (("report", "--csv"), history), (("explore", "--details"), script), (("explore", "--history"), script),
                        (("run", "--explain"), script[:-5]), (("replay",), moves)):
        whole = program_answer(context, words, text)
        for left in (0, *(1 << power for power in range(17, 27))):
            status, output, errors = found = engine.answer(words, text, "narrowly", left)
            met["whole" if found == whole else "refused"] += 1
            is_prefix = len(output) < len(whole[1]) and whole[1].startswith(output) or not output
            hold(found == whole or (status, errors) == (3, b"ttrun: no memory\n") and is_prefix, f"{words} with {left} bytes: {str(found)[:300]}")
            hold(engine.answer(("check",), small) == wanted, f"after {words} with {left} bytes")
    reached(met, {"refused": 12, "whole": 12})
    return f"{met['refused']} times refused, {met['whole']} not, with {engine.memory} bytes"


def ten_thousand_calls_without_growth(context: Context, engine: Engine) -> str:
    """The memory is what it was after the first few hundred calls."""
    asked = [(words, text) for ending, tasks in TASKS.items() for text in texts(ending) for words in tasks]
    met = Counter()
    with Engine(context) as other:
        for at in range(10_000):
            other.answer(*asked[at % len(asked)])
            met["calls"] += 1
            if at == 300:
                first = other.memory
        hold(other.memory == first, f"{first} bytes after 300 calls, {other.memory} after 10,000")
        reached(met, {"calls": 10_000})
        return f"{met['calls']} calls, {other.memory} bytes"


TESTS = (every_example_and_task, every_case_of_the_program, a_thousand_spoilt_texts, generated_searches, generated_histories,
         the_largest_inputs, memory_is_refused, ten_thousand_calls_without_growth)
