"""What a user may give. Cut and malicious texts: each prefix, and each of the 256 byte values instead of each byte, of a script, of
histories of both formats and of a list of moves. Each is answered as the independent reading of the documents answers it.

And random test cases whose behaviours halt one another. A parallel one stops or kills the main component while it creates and starts
others. Parallel ones stop one another while they set verdicts, components are started again under a kill of all, and any behaviour
stops the test case. Each history must be legal and one of its script, and no run may hang."""
import random
from collections import Counter
from functools import partial
from typing import Callable, Dict, Iterator, List, Tuple

from refusing import Ran, plainly
from sweeps import Sweep

from case import as_lines, faults_in
from examples import faults_of_history, status_in
from rows import text
from script_reader import read_script
from texts import Block, Judged, check, read_history, replay

# A byte of each kind that the texts distinguish, and some of those next to them.
KINDS = b"\x00\t\n\r !#-./0129:;@AZ[_`anz{~\x7f\x80\xc3\xff>"

SCRIPT = text("testcase t;behaviour m;create p alive;start p w mtc;wait done p;end;behaviour w a;setverdict fail;end;end")
# Each format with what it has; the second has names and many behaviours.
HISTORY_1 = text("history 1 t 2;0 create -> made 1;0 start 1 1 0 -> ok;1 setverdict fail -> ok;1 finish -> ok;"
                 "0 wait done any -> matched;0 stop 1 -> ok;end fail")
HISTORY_2 = text("history 2 u 256;0 create alive named pump -> made 1;0 start 1 255 -> ok;255 stopcase -> ok;"
                 "0 getverdict -> ended;end error")
EVIDENCE = text("evidence 1 v 2;behaviour 0 b;0 create -> made 1;0 # x <b>;behaviour 1 c;0 start 1 1 -> ok;1 ! bad move;"
                "1 setverdict fail -> ok;1 # hot;end fail")
MOVES = text("behaviours 1;0 setverdict inconc;0 setverdict pass;0 getverdict")


def fault_of(words: Tuple[str, ...], given: bytes, ran: Ran) -> Tuple[bool, str]:
    """Whether the text is accepted, and what is wrong with what came, by what the documents say of the text."""
    wanted = {"run": read_script, "check": check, "replay": replay}[words[0]](given)
    if isinstance(wanted, Judged):
        return not wanted.errors, "; ".join(faults_in(wanted, ran))
    # The histories of a script may be others at each run: each must be one of its script.
    faults = faults_of_history(wanted, ran.output) if ran.output else ["no history"]
    if ran.output.count(b"history 2 ") != len(wanted) or ran.errors:
        faults.append(f"{len(wanted)} histories are wanted, and {ran.errors!r} is told")
    if not faults and ran.status != status_in("history", ran.output):
        faults.append(f"status {ran.status}")
    return True, "; ".join(faults)


# Each text with the words that read it.
TEXTS: Tuple[Tuple[str, Tuple[str, ...], bytes], ...] = (
    ("script", ("run", "--history"), SCRIPT), ("history_1", ("check",), HISTORY_1), ("history_2", ("check",), HISTORY_2),
    ("evidence", ("check",), EVIDENCE), ("moves", ("replay",), MOVES))


def judged_texts(name: str, program: str, words: Tuple[str, ...], texts: Callable[[], Iterator[bytes]]) -> Sweep:
    done = Sweep(name)
    for given in texts():
        ran = plainly([program, *words], given)
        is_accepted, fault = (False, "it hangs") if ran.is_late else fault_of(words, given, ran)
        done.runs += 1
        done.met["accepted" if is_accepted else "refused text"] += 1
        if fault:
            done.faults.append(f"{given!r}: {fault}")
    return done


def prefixes(given: bytes) -> Iterator[bytes]:
    """All of them, the empty one and the whole among them."""
    return (given[:length] for length in range(len(given) + 1))


def changed(given: bytes, place: int, is_whole: bool) -> Iterator[bytes]:
    """The text with another byte in this place: of all values, or of one of each kind."""
    return (given[:place] + bytes([it]) + given[place + 1:] for it in (range(256) if is_whole else KINDS))


def jobs(program: str, is_whole: bool) -> List[Callable[[], Sweep]]:
    """All tests; in the gate every third place has one byte of each kind."""
    found: List[Callable[[], Sweep]] = []
    for name, words, given in TEXTS:
        found.append(partial(judged_texts, f"prefixes of the {name}", program, words, partial(prefixes, given)))
        found += [partial(judged_texts, f"byte {place} of the {name}", program, words, partial(changed, given, place, is_whole))
                  for place in range(0, len(given), 1 if is_whole else 3)]
    return found


# How many test cases a script has, and how many scripts there are in the gate, and with --all.
CASES = 20
SCRIPTS = 20
ALL_SCRIPTS = 500
# How many components the main one makes between two starts, if it must be halted while it does.
CREATES = 60
# What must be met in as many test cases as the gate has. How often a behaviour is halted in time is up to the threads.
FLOORS = {"cases": 400, "mains halted by another": 50, "mains halted while they create": 30, "halts among others": 60, "restarts": 200,
          "kills of all": 30, "ends by testcase.stop of others": 5, "ends by testcase.stop of mains": 15, "settings": 200, "late verdict calls": 100}


class Drawn:
    def __init__(self, chance: random.Random, name: str) -> None:
        self.chance = chance
        self.workers = chance.randrange(2, 9)
        # The first of the others halts the main component as soon as it can; that waits a moment, and then has much to create.
        self.is_race = chance.random() < 0.3
        self.lines = [f"testcase {name}", *self.main()]
        for at in range(self.workers):
            self.lines += self.worker(at)
        self.lines += ["behaviour nap", "getverdict", "end", "end"]

    def main(self) -> List[str]:
        """It creates and starts in turn, so that the first are active while it makes the others."""
        lines, made = ["behaviour main"], []
        for at in range(self.workers):
            again = bool(made) and self.chance.random() < 0.3
            on = self.chance.choice(made) if again else f"p{at}"
            if again:
                lines.append(f"stop {on}")
            else:
                lines.append(f"create p{at} alive")
                made.append(on)
            others = [self.chance.choice(made) for _ in range(2)]
            lines.append(f"start {on} w{at} {' '.join(others)}")
            lines += [self.quiet() for _ in range(self.chance.randrange(3))]
            if self.is_race:
                lines += ["create s", "start s nap", "wait done s"] * (at == 0)
                lines += [f"create q{at}_{it}" for it in range(CREATES)]
        return [*lines, *self.end(made), "end"]

    def end(self, made: List[str]) -> List[str]:
        one = self.chance.choice(made)
        return self.chance.choice(([], ["wait done all"], ["kill all"], ["kill all", "wait killed all"], ["stop all"], ["stopcase"],
                                   [f"wait done {one}", f"kill {one}"], [f"kill {one}", "wait done all"]))

    def quiet(self) -> str:
        """A call that halts nobody."""
        verdict = self.chance.choice(("none", "pass", "inconc", "fail"))
        return self.chance.choice((f"setverdict {verdict}", "getverdict", "running mtc", "alive self", "done mtc"))

    def worker(self, at: int) -> List[str]:
        """It makes some calls, and may halt itself, its like, the main component or the test case."""
        lines = [f"behaviour w{at} a b"]
        if self.is_race and at == 0:
            lines.append(self.chance.choice(("stop mtc", "kill mtc")))
        for _ in range(self.chance.randrange(1, 7)):
            lines += [self.quiet() for _ in range(self.chance.randrange(4))]
            drawn = self.chance.random()
            if drawn < 0.12:
                lines.append(self.chance.choice(("stop mtc", "kill mtc")))
            elif drawn < 0.5:
                lines.append(f"{self.chance.choice(('stop', 'stop', 'kill'))} {self.chance.choice('ab')}")
            elif drawn < 0.54:
                lines.append("stopcase")
            elif drawn < 0.6:
                lines.append(f"wait {self.chance.choice(('done', 'killed'))} {self.chance.choice('ab')}")
        return [*lines, "end"]


def drawn_script(seed: int) -> bytes:
    chance = random.Random(f"halts {seed}")
    return as_lines(*(line for at in range(CASES) for line in Drawn(chance, f"t{at}").lines))


def count(met: Counter, block: Block, creates: int) -> None:
    """Counts what a history has; its main component would make that many components."""
    started, made = set(), 0
    for entry in block.entries:
        op, is_main = entry.op, entry.caller == 0
        met["late verdict calls"] += op.verb in ("setverdict", "getverdict") and entry.reply == "ended"
        made += op.verb == "create"
        if entry.reply != "ok":
            continue
        if op.verb == "start":
            met["restarts"] += op.target in started
            started.add(op.target)
        elif op.verb in ("stop", "kill") and not is_main:
            met["mains halted by another" if op.target == 0 else "halts among others"] += 1
            met["mains halted while they create"] += op.target == 0 and made < creates
        met["kills of all"] += op.verb == "kill" and op.target == "all"
        met["settings"] += op.verb == "setverdict"
        if op.verb == "stopcase":
            met["ends by testcase.stop of mains" if is_main else "ends by testcase.stop of others"] += 1


def judged_script(program: str, seed: int) -> Sweep:
    done = Sweep(f"halts {seed}", runs=1)
    given = drawn_script(seed)
    campaign = read_script(given)
    ran = plainly([program, "run", "--history"], given)
    if ran.is_late or ran.errors or not ran.output:
        done.faults.append("it hangs" if ran.is_late else f"status {ran.status}, and it says {ran.errors!r}")
        return done
    done.faults += faults_of_history(campaign, ran.output)
    blocks, _ = read_history(ran.output)
    if len(blocks) != CASES or ran.status != status_in("history", ran.output):
        done.faults.append(f"{len(blocks)} histories, status {ran.status}")
    for case, block in zip(campaign, blocks):
        count(done.met, block, sum(words[0] == "create" for words in case.behaviours[0].steps))
    done.met["cases"] += len(blocks)
    return done


def floors_of_halts(is_whole: bool) -> Dict[str, int]:
    return {it: least * (ALL_SCRIPTS // SCRIPTS if is_whole else 1) for it, least in FLOORS.items()}


def jobs_of_halts(program: str, is_whole: bool) -> List[Callable[[], Sweep]]:
    return [partial(judged_script, program, seed) for seed in range(ALL_SCRIPTS if is_whole else SCRIPTS)]
