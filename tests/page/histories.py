"""Histories and evidence for the tests: random ones, which hardly any table makes, and legal ones of any size. The table's word on one, and
what a reader of the tests' own makes of evidence."""
import os
import random
import sys
from collections import Counter
from typing import Dict, Iterator, List, NamedTuple, Optional, Tuple

TESTS = os.path.dirname(os.path.dirname(os.path.abspath(__file__)))
# The rules, the moves and the lines inside evidence, as the tests of the program and of the clients read them.
sys.path += [TESTS, *(os.path.join(TESTS, it) for it in ("serve", "program"))]

from harness import TOP, text_of
from random_moves import PIECES, MoveList
from table import FAULTS, MOST_COMPONENTS, VERDICTS, Table
from texts import MOST_BYTES_OF_A_HISTORY as MOST_BYTES, Block, Entry, read_blocks, read_entry

# The history texts of examples/, by their names.
EXAMPLES = {it[:-8]: text_of("examples", it) for it in sorted(os.listdir(os.path.join(TOP, "examples"))) if it.endswith(".history")}
# Cases of every kind of picture, legal ones and not; cases of evidence, each legal, and a history after them.
KINDS, KINDS_OF_EVIDENCE = text_of("tests/page/kinds.history"), text_of("tests/page/kinds.evidence")
STATUS = ("running", "alive", "done", "killed", "wait done", "wait killed", "wake done", "wake killed")
VERBS = ("create", "create", "start", "start", "start", "stop", "kill", "stopcase", "setverdict", "setverdict", "getverdict", "finish")


def random_entry(rng: random.Random, form: int, is_wild: bool) -> str:
    """Any entry; a wild one has replies that fit no operation, and numbers of no component."""
    def some() -> int:
        return rng.randrange(0, 6 if is_wild else 4)
    run, verb = rng.randrange(0, 5), rng.choice(VERBS + STATUS)
    operation = {
        "create": lambda: "create" + rng.choice(["", " alive"]) + rng.choice(["", " named n_1", " named create"]) * (form == 2),
        "start": lambda: f"start {some()} {rng.randrange(0, 5)}" + "".join(f" {some()}" for _ in range(rng.randrange(0, 5))),
        "stop": lambda: f"stop {rng.choice([some(), 'all'])}",
        "kill": lambda: f"kill {rng.choice([some(), some(), 'all'])}",
        "setverdict": lambda: f"setverdict {rng.choice(VERDICTS[:4])}",
    }.get(verb, lambda: f"{verb} {rng.choice([some(), 'any', 'all'])}" if verb in STATUS else verb)()
    fitting = {"create": [f"made {some()}"], "getverdict": VERDICTS}.get(
        verb, ["true", "false"] if verb in STATUS[:4] else ["matched", "parked"] if verb in STATUS else ["ok"])
    every = ["made 1", "ok", "true", "false", *VERDICTS, "matched", "parked", "ended", "error " + rng.choice(FAULTS)]
    rare = rng.random()
    reply = rng.choice(every) if is_wild and rare < 0.2 else "ended" if rare < 0.06 else \
        "error " + rng.choice(FAULTS) if rare < 0.08 else rng.choice(fitting)
    return f"{run} {operation} -> {reply}"


def random_block(rng: random.Random, is_wild: bool) -> Tuple[str, List[str]]:
    """A block that can be read, and its entries."""
    form = rng.choice([1, 2])
    entries = [random_entry(rng, form, is_wild) for _ in range(rng.randrange(0, 26))]
    text = "".join(f"{it}\n" for it in entries)
    return f"history {form} t_{rng.randrange(100)} 5\n{text}end {rng.choice(VERDICTS)}\n", entries


def random_legal(rng: random.Random, name: str) -> str:
    """A legal block: what the table gives to random moves."""
    return "\n".join(MoveList(rng, Counter(), False).history_lines(name, "2")) + "\n"


def entry_of(line: str) -> Entry:
    found = read_entry(0, line, "2")
    assert found is not None, line
    return found


def tables(block: str) -> Iterator[Table]:
    """The table before the first entry of a legal block, and after each. It is one that changes."""
    head, *lines = block.splitlines()
    table = Table(int(head.split()[3]))
    yield table
    for entry in [entry_of(it) for it in lines if " -> " in it and it.split()[1] not in "#!"]:
        assert table.play(entry.caller, entry.op) == entry.reply, entry
        yield table


def states(table: Table) -> Dict[str, List[str]]:
    """Of each component: what it is doing, its local verdict, and what it waits for."""
    def state(at: int) -> List[str]:
        it = table.components[at]
        awaited = table.awaited.get(it.run) if it.phase == "running" else None
        return [f"running {it.run}" if it.phase == "running" else it.phase, it.verdict, "wait {} {}".format(*awaited) if awaited else ""]
    return {str(at): state(at) for at in range(len(table.components))}


def deciding(lines: List[str]) -> Optional[int]:
    """The first entry of a legal history after which the overall verdict is the one at its end, none if no entry gives one."""
    def given(line: str) -> int:
        move, _, reply = line.partition(" -> ")
        is_set = reply == "ok" and " setverdict " in move
        return 4 if reply.startswith("error ") or reply == "ok" and move.endswith(" stopcase") else VERDICTS.index(move.split()[2]) if is_set else 0
    verdicts = [given(it) for it in lines]
    return verdicts.index(max(verdicts)) if any(verdicts) else None


def workers(rng: random.Random, runs: int, steps: int, verdict: str) -> List[str]:
    """What the started runs do in turns, the main one waiting for all; the last of them sets the verdict."""
    left, out = {run: steps for run in range(1, runs + 1)}, ["0 wait done all -> parked"]
    while left:
        run = rng.choice(list(left))
        for _ in range(min(left[run], rng.randrange(1, 6))):
            out.append(rng.choice([f"{run} getverdict -> none", f"{run} alive 0 -> true", f"{run} running {run} -> true",
                                   f"{run} setverdict none -> ok"]))
            left[run] -= 1
        if not left[run]:
            del left[run]
            out += [f"{run} setverdict {'none' if left else verdict} -> ok", f"{run} finish -> ok"]
            out.append(f"0 wake done all -> {'parked' if left else 'matched'}")
    return out


def legal_case(name: str, runs: int, steps: int, verdict: str = "pass", seed: int = 1) -> str:
    """A main behaviour starts workers and waits for them; each makes the given number of calls, in turns with the others."""
    out = [f"history 2 {name} {runs + 1}"]
    for run in range(1, runs + 1):
        out += [f"0 create {'alive ' if run % 3 == 0 else ''}named worker_{run} -> made {run}"]
    out += [f"0 start {run} {run} 0 -> ok" for run in range(1, runs + 1)]
    out += [*workers(random.Random(seed), runs, steps, verdict), "0 finish -> ok", f"end {verdict}"]
    return "\n".join(out) + "\n"


def widest_case(name: str) -> str:
    """As many components as there may be, a run on as many of them as there may be; all are killed in the end."""
    out = [f"history 2 {name} 256"]
    out += [f"0 create {'alive ' if it % 3 == 0 else ''}named component_{it} -> made {it}" for it in range(1, MOST_COMPONENTS)]
    out += [f"0 start {4 * run - 3 if run < 250 else 744 + run} {run} 0 {run} -> ok" for run in range(1, 256)]
    for run in range(1, 256):
        out += [f"{run} getverdict -> none", f"{run} setverdict {'inconc' if run == 200 else 'pass'} -> ok"]
        out += [f"{run} finish -> ok"] if run % 2 else []
    out += ["0 wait done 1 -> matched", "0 stop 5 -> ok", "0 kill 9 -> ok", "0 stop all -> ok", "0 kill all -> ok", "0 finish -> ok", "end inconc"]
    return "\n".join(out) + "\n"


def campaign(cases: int, size: int) -> str:
    """About the given number of bytes in the given number of test cases, of all verdicts that setverdict sets."""
    steps = max(1, size // cases // 24 // 8)
    made = [legal_case("t_NAME", 8, steps, VERDICTS[it % 4], it) for it in range(12)]
    return "".join(made[it % 12].replace("t_NAME", f"t_case_{it}", 1) for it in range(cases))


def fullest() -> str:
    """A legal history text of exactly as many bytes as there may be."""
    text, call = campaign(1000, 17_000_000), "0 getverdict -> none\n"
    ends = "0 finish -> ok\nend none\n"
    left = MOST_BYTES - len(text) - len("history 2 t 1\n") - len(ends)
    assert left > 0, "the campaign is too long"
    return f"{text}history 2 t{'x' * (left % len(call))} 1\n{call * (left // len(call))}{ends}"


# What a spoilt text of evidence may have instead of something, or between two bytes.
PIECES_OF_EVIDENCE = PIECES + 2 * (b"evidence 1 t 1\n", b"evidence 1 t 257\n", b"evidence 2 t 1\n", b"evidence", b"behaviour 0 x\n", b"behaviour 1 y\n",
        b"behaviour 9 z\n", b"behaviour ", b"behaviour 2 all\n", b"#", b"!", b" # ", b" ! ", b"0 # x\n", b"0 ! y\n", b"1 # \n", b"1 #\n",
        b"9 # late\n", b"255 # z\n", b"\x8b", b"\xe2\x80\xb9", b"\x7f", b"\x1f", b"y" * 200, b"0 # " + b"y" * 201 + b"\n", b"00 # x\n", b"-> ok", b"<")



class Line(NamedTuple):
    """A line inside a block that is no naming: its number, its text, and of a remark or a refused line what it says."""

    number: int
    text: str
    run: int
    mark: str
    said: str


class Case:
    """A block of either kind: its lines without the namings, and the names of behaviours by their runs."""

    def __init__(self, block: Block) -> None:
        self.name, self.verdict = block.name, block.verdict
        self.names = {it.run: it.text for _, it in block.said if not it.mark}
        said = [((at, 0), it.run, it.mark, it.text) for at, it in block.said]
        marked = sorted([*said, *(((at, 1), it.caller, "", it.text()) for at, it in enumerate(block.entries))], key=lambda it: it[0])
        numbered = enumerate(marked, block.last_line - len(marked))
        self.lines = [Line(number, f"{run} {mark} {text}" if mark else text, run, mark, text if mark else "")
                      for number, ((_, is_entry), run, mark, text) in numbered if is_entry or mark]

    def entries(self) -> List[str]:
        return [it.text for it in self.lines if not it.said]

    def why(self) -> Optional[Dict[str, object]]:
        """The entry that made the verdict, the name of its run's behaviour, and the remarks of that run next to it."""
        at = deciding(self.entries())
        if at is None:
            return None
        index = [place for place, it in enumerate(self.lines) if not it.said][at]
        run = self.lines[index].run
        before, behind = (next((it.said for it in lines if it.run == run and it.mark != "!"), "")
                          for lines in (self.lines[:index][::-1], self.lines[index + 1:]))
        return {"index": index, "line": self.lines[index].number, "behaviour": self.names.get(run), "before": before, "behind": behind}


def read_cases(text: bytes) -> Tuple[List[Case], Optional[List[object]]]:
    """The whole blocks of a text, and line and kind of its first fault."""
    blocks, fault = read_blocks(text)
    return [Case(it) for it in blocks], fault and list(fault)


# What may be hard to show or to copy, or may be taken for something else than a remark.
SAYINGS = ("too hot: 85 > 80", "<b>", "</script>", "<!--", "&lt;", "&#60;", "0 finish -> ok", "end pass", "setverdict fail", "# ! #",
           "behaviour 1 x", " ", "  two  ", "a; b", "%% no", "style x:#1;", "wrap: x", "$$x$$", "\\n", '"it\'s"', "`${x}`", "{}", "=SUM(A1)",
           "x" * 200, "<" * 200)


def saying(rng: random.Random) -> str:
    """Something said: 1 to 200 bytes from 32 to 126."""
    if rng.random() < 0.5:
        return rng.choice(SAYINGS)
    return "".join(chr(rng.randrange(32, 127)) for _ in range(rng.choice((1, 5, 20, 60, 200))))


def about(line: str) -> List[int]:
    """The runs that a line is about: the caller's, and the one that is started."""
    words = line.split(" ")
    return [int(words[0])] + ([int(words[3])] if words[1] == "start" else [])


def evidence_of(rng: random.Random, block: str, most: int = 8) -> str:
    """The block as evidence: with names for most runs, remarks and refused lines anywhere."""
    head, *lines, end = block.split("\n")[:-1]
    _, _, name, count = head.split(" ")
    for _ in range(rng.randrange(most + 1)):
        said = f"{rng.randrange(min(int(count), 6))} {rng.choice('###!')} {saying(rng)}"
        lines.insert(rng.randrange(len(lines) + 1), said)
        if rng.random() < 0.5:  # right next to an entry of the same run, as a reason is
            own = [at for at, line in enumerate(lines) if line.split(" ")[0] == said.split(" ")[0]]
            lines.insert(rng.choice(own) + rng.randrange(2), said[:2] + "# " + saying(rng))
    for run in range(min(int(count), 6)):
        first = next((at for at, line in enumerate(lines) if line[0] != "b" and run in about(line)), len(lines))
        if rng.random() < 0.8:
            lines.insert(rng.randrange(first + 1), f"behaviour {run} {rng.choice(['main', 'probe', 'end', 'named', f'b_{run}', 'n' * 32])}")
    return "\n".join([f"evidence 1 {name} {count}", *lines, end]) + "\n"
