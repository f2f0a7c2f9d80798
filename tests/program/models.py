"""Models: the scripts that `ttrun model` writes of histories, or the first line that has none; and of what a run wrote. The blocks are
complete courses of them, and if nothing was cut off in a run, `explore` finds of its model what it finds of the script."""
import os
import random
import re
from collections import Counter
from typing import Dict, Iterator, List, Tuple

import evidence_rows
from case import Case, Judgement, answer, as_lines, below, faults_in, refused, shown_with
from courses import fault_of_course
from examples import FOLDER, bytes_of
from random_courses import Racing
from rows import ONLY, text
from script_reader import TestCase, read_script
from texts import Judged, check, legal_blocks

# Name, the histories, and the script that is written of them.
MODELS: List[Tuple[str, str, str]] = [
    ("one_call", "evidence 1 t 1;0 setverdict pass -> ok;0 finish -> ok;end pass", "testcase t;behaviour run_0;  setverdict pass;end;end"),
    ("names_that_come_again", "evidence 1 t 256;behaviour 0 main;behaviour 1 phone;behaviour 2 phone;0 create named left -> made 1;0 create alive -> made 2;"
     "0 start 1 1 -> ok;0 start 2 2 -> ok;1 running 2 -> true;1 # hello;1 finish -> ok;0 wait done all -> parked;2 finish -> ok;0 wake done all -> matched;"
     "0 finish -> ok;end none",
     "testcase t;behaviour main;  create c1 named left;  create c2 alive;  start c1 phone c2;  start c2 phone_2;  wait done all;end;"
     "behaviour phone c2;  running c2;end;behaviour phone_2;end;end"),
    ("arguments_and_a_run_that_is_not_started", "evidence 1 t 3;0 create -> made 1;0 start 1 2 0 0 1 -> ok;2 stop 0 -> ok;0 finish -> ended;end none",
     "testcase t;behaviour run_0;  create c1;  start c1 run_2 mtc mtc c1;end;behaviour run_1;end;behaviour run_2 c0 p1 c1;  stop mtc;end;end"),
    ("test_cases_of_one_name", "history 1 t 1;0 finish -> ok;end none;history 1 t 1;0 getverdict -> none;0 finish -> ok;end none",
     "testcase t;behaviour run_0;end;end;testcase t_2;behaviour run_0;  getverdict;end;end"),
    ("given_through_another_run", "history 1 t 3;0 create -> made 1;0 create -> made 2;0 create -> made 3;0 start 1 1 -> ok;1 start 2 2 -> ok;2 kill 3 -> ok;"
     "2 alive 2 -> true;2 finish -> ok;1 finish -> ok;0 finish -> ok;end none",
     "testcase t;behaviour run_0;  create c1;  create c2;  create c3;  start c1 run_1 c2 c3;end;behaviour run_1 c2 c3;  start c2 run_2 c3;end;"
     "behaviour run_2 c3;  kill c3;  alive self;end;end"),
    ("a_start_that_is_refused", "history 1 t 2;0 create -> made 1;0 start 1 1 0 -> ok;0 start 1 1 -> error already-running;1 finish -> ended;end error",
     "testcase t;behaviour run_0;  create c1;  start c1 run_1 mtc;  start c1 run_1 mtc;end;behaviour run_1 c0;end;end"),
    ("a_refused_start_with_more_arguments_than_the_run_was_given", "history 1 t 2;0 create -> made 1;0 create -> made 2;0 start 1 1 -> ok;"
     "0 start 1 1 0 0 0 0 -> error already-running;1 running 2 -> ended;end error",
     "testcase t;behaviour run_0;  create c1;  create c2;  start c1 run_1 c2 mtc mtc mtc;  start c1 run_1 mtc mtc mtc mtc;end;"
     "behaviour run_1 c2 c0 p2 p3;  running c2;end;end"),
    ("a_start_of_the_main_behaviour", "history 1 t 1;0 create -> made 1;0 start 1 0 -> error no-behaviour;end error",
     "testcase t;behaviour run_0;  create c1;  start c1 run_0;end;end"),
    ("a_long_name_that_comes_again", f"history 1 {'n' * 32} 1;0 finish -> ok;end none;history 1 {'n' * 32} 1;0 finish -> ok;end none",
     f"testcase {'n' * 32};behaviour run_0;end;end;testcase {'n' * 26}_2;behaviour run_0;end;end"),
]
LEGAL, OVER, CALLED = "not what the table gives", "a behaviour has not ended", "a call that no script makes here"
GIVEN, ARGUMENTS, STEPS, CASES_OF_A_SCRIPT = "a component that the run is not given", "too many arguments", "too many steps", "too many test cases"
# Models of 81 of these are longer than a script may be, and of 80 are not.
LONG = f"history 1 t 1;{'0 getverdict -> none;' * 1000}0 finish -> ok;end none"
FIVE = ";".join(f"0 create -> made {it}" for it in range(1, 7)) + ";0 start 1 1 -> ok;" + ";".join(f"1 running {it} -> false" for it in range(2, 7))

# Name, the history, its first line that no model has, and why.
REFUSED: List[Tuple[str, str, int, str]] = [
    ("another_reply", "history 1 t 1;0 getverdict -> pass;0 finish -> ok;end none", 2, LEGAL),
    ("another_verdict", "history 1 t 1;0 finish -> ok;end pass", 3, LEGAL),
    ("a_run_that_goes_on", "history 1 t 1;0 setverdict pass -> ok;end pass", 3, OVER),
    ("a_call_after_the_end", "history 1 t 1;0 finish -> ok;0 getverdict -> ended;end none", 3, CALLED),
    ("a_run_that_is_not_started", "history 1 t 2;1 getverdict -> ended;0 finish -> ok;end none", 2, CALLED),
    ("a_run_that_is_not_there", "history 1 t 1;5 getverdict -> ended;0 finish -> ok;end none", 2, CALLED),
    ("a_wake_without_a_wait", "history 1 t 1;0 wake done all -> matched;0 finish -> ok;end none", 2, CALLED),
    ("a_behaviour_that_is_not_there", "history 1 t 1;0 create -> made 1;0 start 1 7 -> error no-behaviour;end error", 3, CALLED),
    ("arguments_for_the_main_behaviour", "history 1 t 1;0 create -> made 1;0 start 1 0 0 -> error no-behaviour;end error", 3, CALLED),
    ("made_after_the_start", "history 1 t 2;0 create -> made 1;0 start 1 1 -> ok;0 create -> made 2;1 running 2 -> false;1 finish -> ok;0 finish -> ok;end none", 5, GIVEN),
    ("made_by_another", "history 1 t 3;0 create -> made 1;0 create -> made 2;0 start 1 1 -> ok;1 create -> made 3;0 start 2 2 -> ok;2 kill 3 -> ok;2 finish -> ok;"
     "1 finish -> ok;0 finish -> ok;end none", 7, GIVEN),
    ("not_there", "history 1 t 1;0 running 9 -> error no-component;end error", 2, GIVEN),
    ("made_after_the_start_next_to_a_fifth_argument", f"history 1 t 3;{FIVE.replace(';0 start 1 1 -> ok', ';0 start 1 1 -> ok;0 create -> made 7').rpartition(';')[0]};"
     "1 start 7 2 6 -> ok;2 finish -> ok;1 finish -> ok;0 finish -> ok;end none", 14, GIVEN),
    ("a_fifth_argument", f"history 1 t 2;{FIVE};1 finish -> ok;0 finish -> ok;end none", 13, ARGUMENTS),
    ("the_1001st_step", f"history 1 t 1;{'0 getverdict -> none;' * 1001}0 finish -> ok;end none", 1002, STEPS),
    ("the_1001st_test_case", ";".join(["history 1 t 1;0 finish -> ok;end none"] * 1001), 3001, CASES_OF_A_SCRIPT),
    ("the_1048577th_byte", ";".join([LONG] * 81), 80241, "too long a script"),
]
PASSED, FAILED = "history 1 a 1;0 setverdict pass -> ok;0 finish -> ok;end pass", "history 1 b 1;0 setverdict fail -> ok;0 finish -> ok;end fail"
OF_A, OF_B = "testcase a;behaviour run_0;  setverdict pass;end;end", "testcase b;behaviour run_0;  setverdict fail;end;end"

# Name, options, and what is written of a history that passed, one that failed, and another of the name of the first.
CHOSEN: List[Tuple[str, str, str]] = [
    ("all", "", f"{OF_A};{OF_B};{OF_A.replace('testcase a', 'testcase a_2')}"),
    ("the_last_of_each_name", "--last", f"{OF_A};{OF_B}"),
    ("what_failed", "--failed", OF_B),
    ("one_name", "--only b", OF_B),
    ("one_pattern", "--only a* --last", OF_A),
    ("one_that_passed_of_what_failed", "--only a --failed", ""),
]


def cases() -> Iterator[Case]:
    for name, given, script in MODELS:
        yield Case(f"model_{name}", ("model",), text(given), text(script))
    for name, given, line, why in REFUSED:
        count, steps = {"the_1001st_test_case": (1000, 0), "the_1048577th_byte": (80, 1000)}.get(name, (0, 0))
        others = (f"testcase {'t' if at == 1 else f't_{at}'};behaviour run_0;{'  getverdict;' * steps}end;end" for at in range(1, count + 1))
        yield Case(f"no_model_{name}", ("model",), text(given), b"".join(map(text, others)), as_lines(f"ttrun: line {line}: no model of t: {why}"), 3)
    for name, words, script in CHOSEN:
        yield Case(f"models_of_{name}", ("model", *words.split()), text(f"{PASSED};{FAILED};{PASSED}"), text(script) if script else b"")
    yield Case("a_model_next_to_a_history_that_has_none", ("model",), text(f"{PASSED};history 1 t 1;end none;{FAILED}"), text(f"{OF_A};{OF_B}"),
               as_lines(f"ttrun: line 6: no model of t: {OVER}"), 3)
    yield refused("a_model_of_a_name_of_none", ("model", "--only", "c"), text(PASSED), ONLY)
    yield refused("a_model_of_a_bad_text", ("model",), text("history 1 t 1;0 crate"), "line 2: bad entry")
    yield refused("a_model_of_nothing", ("model",), b"", "line 1: text ends too early")
    # What is refused as by `check`.
    for it in evidence_rows.cases():
        if isinstance(it, Case) and it.words == ("check",) and it.errors:
            yield Case(f"model_{it.name}", ("model",), it.given, errors=it.errors, status=it.status)


BATCHES = 10
CASES = 200
# What is said of a block that has no model.
NONE = re.compile(r"ttrun: line \d+: no model of (\w+): [a-z,0-9 ]+")
# A start with arguments.
START = re.compile(rb"(?m)^(\d+ start \d+ \d+)( \d+)+ ->")
# What writes histories, and whether the behaviours know components that no start has as arguments, as those of a bench may.
WAYS = ((("run", "--evidence"), False), (("explore", "--history"), False), (("explore", "--evidence"), True), (("run", "--history"), True))
HEAD = re.compile(rb"(?m)^(?=history |evidence )")


class Lasting(Racing):
    """A test case whose behaviours halt nobody, so that most can be run to their ends."""

    def write_steps(self, at: int, count: int) -> None:
        self.steps = {"setverdict": 50, "getverdict": 15, "status": 20, "create": 10, "wait": 5}
        super().write_steps(at, count)


def drawn(chance: random.Random) -> bytes:
    return "".join(f"{line}\n" for at in range(CASES) for line in (Lasting if at % 2 else Racing)(chance, f"t{at}").lines).encode()


def lines_of_explore(program: str, script: bytes) -> Dict[str, str]:
    return {it.split(" ")[0]: it for it in answer(program, script, "explore").output.decode().splitlines()}


def faults_of_verdicts(case: TestCase, model: TestCase, told: str, found: str, met: Counter) -> Iterator[str]:
    """What is wrong with what is found of a model, if its behaviours have all steps of the script, and none has two starts: who comes
    first would decide what it is handed."""
    is_whole = [len(it.steps) for it in case.behaviours] == [len(it.steps) for it in model.behaviours]
    starts = Counter(words[2] for it in case.behaviours for words in it.steps if words[0] == "start")
    if is_whole and max(starts.values(), default=1) == 1 and told.endswith(" complete"):
        met.update(whole=1, several=len(told.split()) > 3)
        if found != told:
            yield f"of the script {told!r}, of the model {found!r}"


def faults_of_models(program: str, script: bytes, written: bytes, met: Counter) -> Iterator[str]:
    """What is wrong with the models of what a run of the script wrote."""
    ran = answer(program, written, "model")
    models, cases = read_script(ran.output), {it.name: it for it in read_script(script)}
    lacking = [NONE.fullmatch(it) for it in ran.errors.decode().splitlines()]
    if isinstance(models, Judged) or not all(lacking) or ran.status != 3 * bool(lacking):
        yield f"status {ran.status}: {ran.errors.decode()[-300:]}, {ran.output[:300]!r}"
        return
    names = {it[1] for it in lacking}
    parts = [it for it in HEAD.split(written)[1:] if it.split()[2].decode() not in names]
    blocks = legal_blocks(b"".join(parts))
    if [it.name for it in models] != [it.name for it in blocks]:
        yield f"models of {[it.name for it in models]}, and {sorted(names)} have none"
    yield from filter(None, map(fault_of_course, models, blocks))
    yield from faults_in(check(b"".join(parts)), answer(program, ran.output + b"".join(parts), "check", "--script"))
    told, found = lines_of_explore(program, script), lines_of_explore(program, ran.output)
    met.update(models=len(models), none=len(names), handed=sum(len(it.parameters) for case in models for it in case.behaviours))
    for model in models:
        yield from faults_of_verdicts(cases[model.name], model, told[model.name], found[model.name], met)


def faults_of_way(program: str, script: bytes, words: Tuple[str, str], is_bench: bool, met: Counter) -> List[str]:
    blocks = {it.split()[2]: it for it in HEAD.split(answer(program, script, *words).output)[1:]}
    written = b"".join(START.sub(rb"\1 ->", it) if is_bench else it for it in blocks.values())  # of each test case the last, and worst
    return shown_with(list(faults_of_models(program, script, written, met)), f"the script: {script.decode()}", f"what was written: {written.decode()}")


def models_of_examples(program: str, names: List[str]) -> Iterator[str]:
    met = Counter()
    for name in names:
        for way in WAYS:
            yield from faults_of_way(program, bytes_of(name), *way, met)
    yield from below(met, {"models": 64, "whole": 32})


def models_of_random_scripts(program: str, seed: int) -> Iterator[str]:
    chance, met = random.Random(f"models {seed}"), Counter()
    for at in range(BATCHES):
        script = drawn(chance)
        yield from faults_of_way(program, script, *WAYS[at % len(WAYS)], met)
    yield from below(met, {"models": 1950, "whole": 200, "several": 40, "handed": 1000})


def judgements(seed: int) -> List[Judgement]:
    names = sorted(it for it in os.listdir(FOLDER) if it.endswith(".script"))
    return [Judgement("models_of_examples", "ttrun run < (examples), and ttrun model", models_of_examples, (names,)),
            Judgement(f"models_of_random_scripts_{seed}", "ttrun run < (random scripts), and ttrun model", models_of_random_scripts, (seed,))]
