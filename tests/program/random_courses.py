"""Random test cases that race: `explore` is held to a plain search of all schedules, its witnesses to `check`, and the steps that
no schedule carries out and the local verdicts to that search too. What `--details` prints is held to the witnesses and a reading here."""
import random
import re
from collections import Counter
from itertools import takewhile, zip_longest
from typing import Dict, Iterator, List, Set, Tuple

from case import Judgement, answer, below, faults_in, shown_with
from courses import courses_of, fault_of_course, with_names
from random_scripts import ScriptWriter
from reports import Told, line_of
from script_reader import Behaviour, Campaign, TestCase, read_script
from table import VERDICTS, Table
from texts import Block, Entry, Judged, check, legal_blocks

BATCHES = 10
CASES = 250
# A test case with more states than that many in the plain search is left out, and counted.
MOST = 1500
OWN_WAITS = ("wait done self", "wait killed self")
LINE = re.compile(r"\w+(?: (?:none|pass|inconc|fail|error))* (?:complete|undecided after \d+ states: limit of (?:states|memory))")


class Racing(ScriptWriter):
    """One small test case whose behaviours stop, kill, start and wait for one another."""

    def __init__(self, chance: random.Random, name: str) -> None:
        count = chance.choice((2, 3, 3, 4, 4, 5))
        self.left = list(range(1, count))
        steps = {"setverdict": 40, "wait": 15, "halt": 15, "create": 6, "start": 6, "status": 10, "getverdict": 6, "stopcase": 2}
        super().__init__(chance, name, count, (0, 1, 1, 2), steps)

    def behaviour(self, at: int) -> None:
        """The main one starts the next, and usually all."""
        self.bound += ["mtc"] * (self.chance.random() < 0.2)
        if at == 0:
            self.bound = []
            for _ in range(self.chance.choice((1, 2, 2))):
                self.create()
        for other in list(self.left):
            if at == 0 and (other == 1 or self.chance.random() < 0.7) or at > 0 and self.chance.random() < 0.3:
                self.left.remove(other)
                self.begin(other)
        self.write_steps(at, self.chance.choice((0, 1, 2, 2, 3, 4)))

    def begin(self, other: int) -> None:
        """Starts a behaviour on a component that is bound, usually on the last."""
        if len(self.bound) == 1 or self.chance.random() < 0.5:
            self.create()
        self.start(self.bound[-1] if self.chance.random() < 0.8 else self.chance.choice(self.bound), other)


def drawn_campaign(chance: random.Random, count: int) -> Tuple[bytes, Campaign]:
    """A script of that many such test cases, and what it spells."""
    text = "".join(f"{line}\n" for at in range(count) for line in Racing(chance, f"t{at}").lines).encode()
    campaign = read_script(text)
    assert not isinstance(campaign, Judged), f"the script that was drawn is refused: {campaign.errors!r}"
    return text, campaign


def verdicts_in(line: str) -> List[str]:
    """The verdicts that the line of a test case has."""
    return [it for it in line.split(" ") if it in VERDICTS]


def faults_of_witnesses(program: str, text: bytes, campaign: Campaign, found: Dict[str, str]) -> List[str]:
    """What is wrong with the histories of `explore --history`: each is of its test case, and there is one for each verdict."""
    ran = answer(program, text, "explore", "--history")
    blocks, cases = legal_blocks(ran.output), {it.name: it for it in campaign}
    faults = [fault for fault in (fault_of_course(cases[block.name], block) for block in blocks) if fault]
    given = {name: sorted(it.verdict for it in blocks if it.name == name) for name in cases}
    faults += [f"there are witnesses of {given[name]}, and this was told: {found[name]}" for name in cases
               if given[name] != sorted(verdicts_in(found[name]))]
    return faults + faults_in(check(ran.output), answer(program, ran.output, "check"))


def step_text(case: TestCase, behaviour: Behaviour, at: int) -> str:
    """The step at this place, with components by their place and behaviours by their run."""
    before = [it[1] for it in behaviour.steps[:at] if it[0] == "create"]
    places = {name: f"#{number}" for number, name in enumerate([*behaviour.parameters, *before], 1)}
    verb, *rest = behaviour.steps[at]
    if verb == "create":
        return " ".join([verb, *rest[1:]])
    if verb == "start":
        run = next(number for number, it in enumerate(case.behaviours) if it.name == rest[1])
        return " ".join([verb, places.get(rest[0], rest[0]), "run", str(run), *(places.get(it, it) for it in rest[2:])])
    if verb == "setverdict":
        return " ".join([verb, *rest])
    return " ".join([verb, *rest[:-1], *(places.get(it, it) for it in rest[-1:])])


def unseen_lines(case: TestCase, reached: List[int]) -> List[str]:
    """The line of each behaviour with steps that no schedule carries out, unless it only misses a last wait for itself."""
    return [f"  not seen: run {run} from step {at + 1} of {len(it.steps)} on: {step_text(case, it, at)}"
            for run, (it, at) in enumerate(zip(case.behaviours, reached))
            if at < len(it.steps) and not (at + 1 == len(it.steps) and step_text(case, it, at) in OWN_WAITS)]


def local_lines(verdicts: Dict[int, Set[str]]) -> List[str]:
    """The line of each component whose local verdict is not always the same. None of these test cases names one."""
    return [f"  local {at or 'mtc'}: {' or '.join(sorted(it, key=VERDICTS.index))}" for at, it in sorted(verdicts.items()) if len(it) > 1]


def lines_told(output: bytes, start: str) -> Dict[str, List[str]]:
    """The lines of `explore` that begin so, by the names of the test cases."""
    told: Dict[str, List[str]] = {}
    name = ""
    for line in output.decode().splitlines():
        if not line.startswith("  "):
            name = line.split(" ")[0]
            told[name] = []
        elif line.startswith(start):
            told[name].append(line)
    return told


def faults_of_case(case: TestCase, told: str, unseen: List[str], local: List[str], met: Counter) -> List[str]:
    """What is wrong with what is printed about a test case, if the plain search comes to its end; and what that case was like."""
    courses = courses_of(case, MOST)
    if courses is None:
        met["left out"] += 1
        return []
    met["cases"] += 1
    met["races"] += len(courses.verdicts) > 1
    met["unseen"] += len(unseen)
    met["locals"] += len(local)
    met["hidden"] += bool(local) and len(courses.verdicts) == 1
    met.update(courses.verdicts)
    line = " ".join([case.name, *sorted(courses.verdicts, key=VERDICTS.index), "complete"])
    pairs = ((line, told), (unseen_lines(case, courses.reached), unseen), (local_lines(courses.locals), local))
    return [f"{case.name}: wanted {wanted}, came {came}" for wanted, came in pairs if wanted != came]


def every_verdict_is_told(program: str, seed: int) -> Iterator[str]:
    """Test cases that race: what `explore` prints is what a plain search finds, with a witness each, and it says that this is complete
    wherever that search ends; real runs give nothing else. The steps printed as not seen are those that no schedule carries out, and
    the local verdicts with --locals are those that are not the same in all schedules."""
    chance, met = random.Random(f"racing {seed}"), Counter()
    for _ in range(BATCHES):
        text, campaign = drawn_campaign(chance, CASES)
        ran = answer(program, text, "explore")
        found = {it.split(" ")[0]: it for it in ran.output.decode().splitlines()}
        is_read = [*found] == [it.name for it in campaign] and all(map(LINE.fullmatch, found.values()))
        assert is_read, f"lines that are not understood: {ran.output[:500]!r}, {ran.errors!r}"
        unseen = lines_told(answer(program, text, "explore", "--details").output, "  not seen: ")
        local = answer(program, text, "explore", "--locals")
        status = 2 if ["error"] in map(verdicts_in, found.values()) else int(any(len(verdicts_in(it)) > 1 for it in found.values()))
        if (ran.status, local.status) != (status, status):
            yield f"status: wanted {status}, came {ran.status}, and with --locals {local.status}"
        locals_of = lines_told(local.output, "  local ")
        for case in campaign:
            faults = faults_of_case(case, found[case.name], unseen[case.name], locals_of[case.name], met)
            yield from shown_with(faults, f"the script: {text.decode()}")
        yield from faults_of_witnesses(program, text, campaign, found)
        for record in answer(program, text, "run", "--csv").output.decode().splitlines()[1:]:
            name, verdict = record.split(",")[0], record.split(",")[-1]
            if verdict not in verdicts_in(found[name]):
                yield f"{name} gave {verdict}, and this was told: {found[name]}"
    yield from below(met, {"cases": 2400, "races": 600, "unseen": 600, "locals": 600, "hidden": 100, **dict.fromkeys(VERDICTS, 150)})


CASES_WITH_DETAILS = 100
COLUMN = 36
ROWS = 12


def alike(left: List[str], right: List[str]) -> int:
    return len(list(takewhile(lambda both: both[0] == both[1], zip(left, right))))


def end_text(side: str, block: Block, run: int, calls: List[Entry]) -> str:
    """What ended a run whose next call is replied so."""
    table = Table(block.behaviours)
    is_ended = calls and calls[0].reply == "ended"
    for entry in block.entries[:block.entries.index(calls[0])] if is_ended else []:
        was_active = table.is_going_on(run)
        table.play(entry.caller, entry.op)
        if was_active and not table.is_going_on(run):
            return f"; {side}: before it {entry.text()}"
    return ""


def parting_lines(one: Block, other: Block) -> Iterator[str]:
    """For each run the first of its calls that differ."""
    told = Told(one), Told(other)
    for run in sorted({it.caller for it in one.entries + other.entries}):
        left, right = ([it for it in block.entries if it.caller == run and it.reply != "parked"] for block in (one, other))
        same = alike(*(list(map(line_of, calls)) for calls in (left, right)))
        sides = ((one, left[same:]), (other, right[same:]))
        first, second = (names.named(calls[0]) if calls else "not made" for names, (_, calls) in zip(told, sides))
        ends = "".join(end_text(side, block, run, calls) for side, (block, calls) in zip(("left", "right"), sides))
        yield from [f"  run {told[0].run(run)}: call {same + 1}: {first} | {second}{ends}"] * (len(left) > same or len(right) > same)


def race_lines(one: Block, other: Block) -> List[str]:
    """Two witnesses from where they part: next to each other, or run by run if that is long."""
    left, right = ([it.text() for it in block.entries] for block in (one, other))
    same = alike(left, right)
    rows = [(one.verdict, other.verdict), *zip_longest(left[same:], right[same:], fillvalue="")]
    parted = parting_lines(one, other)
    return [f"  {one.verdict} and {other.verdict}: alike for {same} entries",
            *(parted if len(rows) > ROWS + 1 else (f"  {a:<{COLUMN}} | {b}" for a, b in rows))]


def witness_lines(told: Told) -> List[str]:
    """The local verdicts of a witness, what decided its verdict, and who waits for whom."""
    found = ", ".join(" ".join(both) for both in zip(told.components, told.locals))
    return [f"  {told.end}: {found}", *([f"  {told.end}: {told.why()}"] if told.message else []), *told.waits]


def wanted_of(lines: List[str], blocks: List[Block]) -> List[str]:
    """What `explore --details` writes, by the lines of `explore` and its witnesses."""
    wanted: List[str] = []
    for line in lines:
        witnesses = [it for it in blocks if it.name == line.split(" ")[0]]
        wanted += [line, *(it for block in witnesses for it in witness_lines(Told(block)))]
        wanted += [it for other in witnesses[1:] for it in race_lines(witnesses[0], other)]
    return wanted


def details_are_of_the_witnesses(program: str, seed: int) -> Iterator[str]:
    """Random test cases that race: the details are those of the histories."""
    chance, met = random.Random(f"details {seed}"), Counter()
    for _ in range(BATCHES):
        text, campaign = drawn_campaign(chance, CASES_WITH_DETAILS)
        plain, histories, ran = (answer(program, text, "explore", *it) for it in ((), ("--history",), ("--details",)))
        lines = plain.output.decode().splitlines()
        cases = {it.name: it for it in campaign}
        wanted = wanted_of(lines, [with_names(cases[it.name], it) for it in legal_blocks(histories.output)])
        came = [it for it in ran.output.decode().splitlines() if not it.startswith("  not seen: ")]
        if came != wanted or ran.status != plain.status:
            at = alike(came, wanted)
            yield f"line {at + 1}: wanted {wanted[at:at + 3]}, came {came[at:at + 3]}, status {ran.status}"
        met["cases"] += len(lines)
        for words in (": alike for ", "  stuck: ", ": call ", ": before it ", "not made", "started before", "no-component", " with "):
            met[words] += sum(words in it for it in came)
    yield from below(met, {"cases": BATCHES * CASES_WITH_DETAILS, ": alike for ": 50, "  stuck: ": 50, ": call ": 5, ": before it ": 5, "started before": 5})


def judgements(seed: int) -> List[Judgement]:
    return [Judgement(f"every_verdict_is_told_{seed}", "ttrun explore [--history] < (random scripts)", every_verdict_is_told, (seed,)),
            Judgement(f"details_are_of_the_witnesses_{seed}", "ttrun explore --details < (random scripts)", details_are_of_the_witnesses, (seed,))]
