"""Random scripts: `run` is held to the script reader, the run in turn and the component table in Python."""
import random
from collections import Counter
from typing import Dict, Iterator, List, Optional, Tuple

import reports
from case import Judgement, Ran, answer, below, faults_in, shown_with
from courses import NotInTurn, block_in_turn
from examples import faults_of_written
from random_moves import spoilt
from script_reader import Campaign, given_name, read_script
from table import STATUSES, VERDICTS
from texts import Block, Judged

IN_TURN = 200
SIDE_BY_SIDE = 120
CHANGED = 600
KINDS = ("byte not allowed", "line not understood", "bad name", "not allowed here", "too many", "text ends too early", "name already used",
         "unbound reference", "unknown behaviour", "main behaviour takes no parameters", "wrong number of arguments")
WORDS = ("testcase", "behaviour", "end", "create", "start", "stop", "kill", "running", "alive", "done", "killed", "wait", "setverdict", "stopcase",
         "getverdict", "pass", "error", "mtc", "self", "any", "all", "b0", "b1", "p", "q", "1x", "zz", "#", "_", "named")


def named_creates(campaign: Campaign) -> int:
    """How many steps of the campaign create a component and give it a name."""
    steps = [words for case in campaign for behaviour in case.behaviours for words in behaviour.steps]
    return sum(words[0] == "create" and given_name(words) != "" for words in steps)


class ScriptWriter:
    """Writes one random test case: behaviours b0, b1 and on, each with steps that name what is bound there."""

    # Names that are given to components: a name binds nothing, and may be one that is bound, or bound later.
    NAMES: Tuple[str, ...] = ()

    def __init__(self, chance: random.Random, name: str, count: int, parameters: Tuple[int, ...], steps: Dict[str, int]) -> None:
        # How often a step is of each kind, in all 100.
        self.chance, self.count, self.steps = chance, count, steps
        self.parameters = [0, *(chance.choice(parameters) for _ in range(count - 1))]
        self.lines = [f"testcase {name}"]
        for at in range(count):
            names = [f"a{number}" for number in range(self.parameters[at])]
            self.lines.append(" ".join(["behaviour", f"b{at}", *names]))
            self.bound = ["self", *names]
            self.behaviour(at)
            self.lines.append("end")
        self.lines.append("end")

    def behaviour(self, at: int) -> None:
        raise NotImplementedError

    def begin(self, other: int) -> None:
        raise NotImplementedError

    def create(self) -> None:
        name = f"p{len(self.bound)}"
        named = ["named", self.chance.choice((*self.NAMES, name))] if self.NAMES and self.chance.random() < 0.4 else []
        self.lines.append(" ".join(["create", name, *["alive"] * (self.chance.random() < 0.5), *named]))
        self.bound.append(name)

    def start(self, on: str, other: int) -> None:
        args = [self.chance.choice(self.bound) for _ in range(self.parameters[other])]
        self.lines.append(" ".join(["start", on, f"b{other}", *args]))

    def target(self, at: int, *groups: str) -> str:
        """A component that is bound, or now and then, usually in the main behaviour, a group."""
        return self.chance.choice(groups if self.chance.random() < (0.3 if at == 0 else 0.02) else self.bound)

    def write_steps(self, at: int, count: int) -> None:
        choice = self.chance.choice
        for kind in self.chance.choices([*self.steps], [*self.steps.values()], k=count):
            if kind == "create":
                self.create()
            elif kind == "start":
                self.begin(self.chance.randrange(1, self.count))
            elif kind == "setverdict":
                self.lines.append(f"setverdict {choice(VERDICTS[:4])}")
            elif kind == "wait":
                self.lines.append(f"wait {choice(('done', 'done', 'killed'))} {self.target(at, 'any', 'all')}")
            elif kind == "halt":
                self.lines.append(f"{choice(('stop', 'kill'))} {self.target(at, 'all')}")
            elif kind == "status":
                self.lines.append(f"{choice(STATUSES)} {self.target(at, 'any', 'all')}")
            else:
                self.lines.append(kind)


class Writer(ScriptWriter):
    """A test case in which each behaviour is started at most once, and awaited at once if one continues at a time."""

    NAMES = ("pump", "named", "alive", "p2", "p3", "a0", "b1", "t0")

    def __init__(self, chance: random.Random, name: str, is_in_turn: bool) -> None:
        self.is_in_turn = is_in_turn
        count = chance.choice((1, 2, 3, 3, 4, 5, 8))
        # The behaviour that starts another is one that is before it in the order.
        self.starters = [-1, *(chance.randrange(at) for at in range(1, count))]
        steps = {"setverdict": 30, "getverdict": 15, "create": 15, "status": 30, "stopcase": 1, "halt": 4, "wait": 5}
        super().__init__(chance, name, count, (0, 0, 1, 2, 4), steps)

    def behaviour(self, at: int) -> None:
        self.bound.append("mtc")
        if self.is_in_turn and at:
            self.steps.pop("wait", None)
        self.write_steps(at, self.chance.randrange(9))
        for other in (it for it in range(self.count) if self.starters[it] == at):
            self.begin(other)
            self.write_steps(at, self.chance.randrange(4))

    def begin(self, other: int) -> None:
        if len(self.bound) > 2 and self.chance.random() < 0.2:
            on = self.chance.choice(self.bound)
        else:
            self.create()
            on = self.bound[-1]
        self.start(on, other)
        if self.is_in_turn:
            self.lines.append(f"wait done {on}")
        elif self.chance.random() < 0.3:
            self.lines.append(f"wait {self.chance.choice(('done', 'killed'))} {self.chance.choice([on, 'all'])}")


def drawn_script(chance: random.Random, is_in_turn: bool) -> bytes:
    """A script that is accepted, with comments, empty lines and more spaces than are needed."""
    lines: List[str] = []
    for at in range(chance.choice((1, 1, 2, 3))):
        lines += Writer(chance, f"t{at}", is_in_turn).lines
    for at in range(len(lines)):
        drawn = chance.random()
        if drawn < 0.2:
            lines[at] = "  " + lines[at].replace(" ", " " * chance.randrange(1, 3)) + " " * chance.randrange(2)
        elif drawn < 0.23:
            lines[at] = f"# what is next\n\n{lines[at]}"
    return ("\n".join(lines) + "\n" * (chance.random() < 0.8)).encode()


def changed(chance: random.Random, text: bytes) -> bytes:
    """The script with a word, a line or a byte changed."""
    if chance.random() < 0.3:
        return spoilt(chance, [text])
    lines = text.decode().split("\n")
    # the first line of a behaviour is rare, and has faults of its own
    heads = [at for at, line in enumerate(lines) if line.split()[:1] == ["behaviour"]]
    at = chance.choice(heads) if chance.random() < 0.15 else chance.randrange(len(lines))
    words = lines[at].split()
    for _ in range(chance.choice((1, 1, 1, 4))):
        place, what = chance.randrange(len(words) + 1), chance.randrange(6)
        if what == 0 or not words:
            words.insert(place, chance.choice(WORDS))
        elif what == 1:
            words[place - 1] = chance.choice(WORDS)
        elif what < 5:
            # the word that is there in a line of the same form
            peers = [it.split() for it in lines if it.split()[:1] == words[:1]]
            words[place - 1] = chance.choice([it[place - 1] for it in peers if len(it) >= place] or words)
        else:
            words.append(words[place - 1])
    if chance.random() < 0.1:
        words += words[-1:] * 5
    lines[at] = " ".join(words)
    return "\n".join(lines).encode()


def blocks_in_turn(campaign: Campaign, stop_on: Optional[str]) -> Tuple[List[Block], str]:
    """The histories of the finished test cases, and the last line of the text report."""
    blocks: List[Block] = []
    for case in campaign:
        blocks.append(block_in_turn(case))
        if stop_on is not None and VERDICTS.index(blocks[-1].verdict) >= VERDICTS.index(stop_on):
            return blocks, f"stopped after {case.name}"
    return blocks, "complete"


def reports_of_scripts_in_turn(program: str, seed: int) -> Iterator[str]:
    """Scripts in which one behaviour continues at a time: the whole report, the table and the status are known."""
    chance, met = random.Random(f"in turn {seed}"), Counter()
    while met["reports"] < IN_TURN:
        text = drawn_script(chance, is_in_turn=True)
        word = chance.choice((None, None, *VERDICTS))
        campaign = read_script(text)
        assert not isinstance(campaign, Judged), f"the script that was drawn is refused: {campaign.errors!r}, {text[:1500]!r}"
        try:
            blocks, ending = blocks_in_turn(campaign, word)
        except NotInTurn:
            met["not in turn"] += 1
            continue
        rule = () if word is None else ("--stop-on", word)
        told = list(map(reports.Told, blocks))
        status = reports.status_for(told)
        faults = faults_in(Ran(reports.text_of(told, ending), b"", status), answer(program, text, "run", *rule))
        faults += faults_in(Ran(reports.csv_of(told), b"", status), answer(program, text, "run", "--csv", *rule))
        yield from shown_with(faults, f"words {rule}, the script: {text[:3000].decode()}")
        entries = [it for block in blocks for it in block.entries]
        met["reports"] += 1
        met[ending.split()[0]] += 1
        met["runs"] += sum(len({it.caller for it in block.entries}) for block in blocks)
        met["named"] += sum(it.op.name != "" for it in entries)
        met.update(it.verdict for it in blocks)
        met.update("reply " + (it.reply if it.reply.startswith("error") else it.reply.split()[0]) for it in entries)
    yield from below(met, {"runs": 500, "named": 150, "complete": 50, "stopped": 30, "reply ended": 5, "reply matched": 100,
                           **dict.fromkeys(VERDICTS, 5), "reply error stuck": 3, "reply error not-main": 3})


def histories_of_scripts(program: str, seed: int) -> Iterator[str]:
    """Scripts whose behaviours continue side by side: each history is legal, and one of its script."""
    chance, met = random.Random(f"side by side {seed}"), Counter()
    for _ in range(SIDE_BY_SIDE):
        text = drawn_script(chance, is_in_turn=False)
        yield from shown_with(faults_of_written(program, text), f"the script: {text[:3000].decode()}")
        met["starts"] += text.count(b"start ")
        met["named"] += named_creates(read_script(text))
    yield from below(met, {"starts": 200, "named": 200})


def changed_scripts_are_judged(program: str, seed: int) -> Iterator[str]:
    """Scripts with a word, a line or a byte changed: the first fault, or a history of what is still a script."""
    chance, met = random.Random(f"changed {seed}"), Counter()
    for _ in range(CHANGED):
        text = changed(chance, drawn_script(chance, is_in_turn=False))
        read = read_script(text)
        if isinstance(read, Judged):
            met[read.errors.decode().rpartition(": ")[2].strip()] += 1
            faults = faults_in(read, answer(program, text, "run"))
        else:
            met["accepted"] += 1
            met["named"] += named_creates(read)
            faults = faults_of_written(program, text)
        yield from shown_with(faults, f"the script: {text[:3000]!r}")
    yield from below(met, {"accepted": 40, "named": 100, **dict.fromkeys(KINDS, 1)})


def judgements(seed: int) -> List[Judgement]:
    kinds = (("reports_of_random_scripts_in_turn", "run [--csv] [--stop-on V] < (random scripts)", reports_of_scripts_in_turn),
             ("histories_of_random_scripts", "run --history < (random scripts) | ttrun check", histories_of_scripts),
             ("changed_scripts_are_judged", "run < (changed scripts)", changed_scripts_are_judged))
    return [Judgement(f"{name}_{one}", f"ttrun {command}", judge, (one,)) for name, command, judge in kinds for one in (2 * seed, 2 * seed + 1)]
