"""Random lists of moves and random histories: `replay` and `check` are held to the component table in Python."""
import random
from collections import Counter
from typing import Dict, Iterator, List, Sequence, Tuple

from case import Judgement, answer, as_lines, below, faults_in, shown_with
from table import FAULTS, MOST_COMPONENTS, STATUSES, VERDICTS, Op, Table, Target
from texts import FORMATS, Judged, check, replay

USER_VERDICTS = VERDICTS[:4]
OPERATIONS = ("create", "start", "stop", "kill", *STATUSES, "wait", "wake", "setverdict", "getverdict", "finish", "stopcase")
WEIGHTS = (10, 12, 5, 4, 3, 3, 3, 3, 8, 8, 8, 6, 4, 1)
REPLIES = ("made", "ok", "true", "false", "none", "pass", "inconc", "fail", "matched", "parked", "ended")
LISTS = 700
TEXTS = 250
NAMES = ("pump", "valve", "named", "alive", "create", "p_1", "A" * 32)


def target_of(chance: random.Random, table: Table, caller: int, groups: Tuple[str, ...]) -> Target:
    """A component, usually one that is there, or a group, usually where the main behaviour asks."""
    if groups and chance.random() < (0.4 if caller == 0 else 0.1):
        return chance.choice(groups)
    if chance.random() < 0.02:
        return chance.choice((len(table.components), 999, 1000, 65_536, 4_294_967_295))
    return chance.randrange(len(table.components))


def drawn_op(chance: random.Random, table: Table, caller: int, names: Tuple[str, ...]) -> Op:
    """An operation; a wake is usually that of the wait before it, and a create may have one of the names."""
    verb = chance.choices(OPERATIONS, WEIGHTS)[0]
    if verb == "create":
        return Op("create", alive=chance.random() < 0.6, name=chance.choice((*names, "")))
    if verb == "start":
        args = tuple(target_of(chance, table, caller, ()) for _ in range(chance.choice((0, 0, 0, 1, 2, 4))))
        unused = [it for it in range(table.behaviours) if it not in table.component_of_run]
        runs = unused if unused and chance.random() < 0.9 else [0, 1, table.behaviours, 65_535]
        return Op("start", target_of(chance, table, caller, ()), run=chance.choice(runs), args=args)
    if verb in ("stop", "kill"):
        return Op(verb, target_of(chance, table, caller, ("all",)))
    if verb in STATUSES:
        return Op(verb, target_of(chance, table, caller, ("any", "all")))
    if verb == "wake" and caller in table.awaited and chance.random() < 0.8:
        awaited, target = table.awaited[caller]
        return Op("wake", target, awaited=awaited)
    if verb in ("wait", "wake"):
        return Op(verb, target_of(chance, table, caller, ("any", "all")), awaited=chance.choice(("done", "killed")))
    return Op(verb, verdict=chance.choice(USER_VERDICTS)) if verb == "setverdict" else Op(verb)


def ends_case(op: Op, caller: int, reply: str) -> bool:
    is_end = op.verb == "stopcase" or op.verb == "finish" and caller == 0 or op.verb in ("stop", "kill") and op.target == 0
    return reply != "ended" and is_end or reply.startswith("error ")


def kind_of(op: Op) -> str:
    group = f" {op.target}" if isinstance(op.target, str) else ""
    return f"{op.verb} {op.awaited}{op.verdict}".strip() + " alive" * op.alive + " named" * (op.name != "") + group


class MoveList:
    """A random test case: its moves, and their replies by the table."""

    def __init__(self, chance: random.Random, met: Counter, is_large: bool) -> None:
        self.behaviours = chance.choice((1, 2, 3, 4, 6, 9, 64, 256))
        self.names = chance.choice(((), NAMES))
        self.table = Table(self.behaviours)
        self.moves: List[Tuple[int, Op]] = []
        self.replies: List[str] = []
        if is_large:
            for _ in range(MOST_COMPONENTS - 1):
                self.play(0, Op("create", alive=True))
        daring = chance.choice((0.02, 0.1, 0.5))
        for _ in range(chance.randrange(5, 60)):
            caller, op = self.drawn(chance)
            if not ends_case(op, caller, self.table.would(caller, op)) or chance.random() < daring:
                self.play(caller, op)
        if chance.random() < 0.5:
            self.play_fault(chance, chance.choice(FAULTS))
        for (_, op), reply in zip(self.moves, self.replies):
            met[kind_of(op)] += 1
            met["reply " + (reply if reply.startswith("error ") else reply.split()[0])] += 1

    def drawn(self, chance: random.Random) -> Tuple[int, Op]:
        """A move, usually of a run that continues."""
        going_on = [it for it in self.table.component_of_run if self.table.is_going_on(it)]
        caller = chance.choice(going_on) if going_on and chance.random() < 0.95 else chance.choice((0, 1, 2, 65_535))
        return caller, drawn_op(chance, self.table, caller, self.names)

    def play_fault(self, chance: random.Random, fault: str) -> None:
        """Adds a move that is answered by this error, if one is soon drawn, and then one more."""
        for _ in range(60):
            caller, op = self.drawn(chance)
            if self.table.would(caller, op) == f"error {fault}":
                self.play(caller, op)
                self.play(*self.drawn(chance))
                return

    def play(self, caller: int, op: Op) -> None:
        self.moves.append((caller, op))
        self.replies.append(self.table.play(caller, op))

    def list_text(self) -> bytes:
        return as_lines(f"behaviours {self.behaviours}", *(f"{caller} {op.text()}" for caller, op in self.moves))

    def history_lines(self, name: str, format_of_block: str) -> List[str]:
        """The history, legal if the format can spell it."""
        entries = [f"{caller} {op.text()} -> {reply}" for (caller, op), reply in zip(self.moves, self.replies)]
        return [f"history {format_of_block} {name} {self.behaviours}", *entries, f"end {self.table.overall()}"]


# What a spoilt text may have instead of something, or between two bytes.
PIECES = (b"", b" ", b"  ", b"\n", b"\n\n", b"\r\n", b"\t", b"\0", b"\xc3\xa9", b"\xef\xbb\xbf", b"x", b"_", b"-", b"<", b"0", b"00", b"1",
          b"65536", b"4294967296", b"-1", b"all", b"any", b"ended", b"error", b"error stuck", b"made 1", b"ok", b" -> ", b"->", b"end pass\n",
          b"end\n", b"history 2 t 1\n", b"history 1 t 65\n", b"named all", b" alive", b" named x", b"wait", b"wake ", b"finish", b"HISTORY")


def spoilt(rng: random.Random, texts: List[bytes], pieces: Sequence[bytes] = PIECES) -> bytes:
    """One of the texts with one to three faults."""
    text = rng.choice(texts)
    for _ in range(rng.choice((1, 1, 1, 2, 3))):
        lines, at = text.split(b"\n"), rng.randrange(len(text) + 1)
        line, piece = rng.randrange(len(lines)), bytes([rng.randrange(256)]) if rng.random() < 0.1 else rng.choice(pieces)
        words = lines[line].split(b" ")
        words[rng.randrange(len(words))] = piece
        changed = [b" ".join(words)]
        text = rng.choice((text[:at] + piece + text[at:], text[:at] + piece + text[at + rng.randrange(1, 9):], text[:at],
                           b"\n".join(lines[:line] + lines[line + 1:]), b"\n".join(lines[:line + 1] + lines[line:]), b"\n".join(lines[:line] + changed + lines[line + 1:]),
                           b"\n".join(lines[:line] + lines[line:line + 2][::-1] + lines[line + 2:])))
    return text


def falsified(chance: random.Random, lines: List[str]) -> None:
    """Puts another reply, or another verdict, in one place of a history."""
    at = chance.randrange(1, len(lines))
    if at == len(lines) - 1:
        lines[at] = "end " + chance.choice(VERDICTS)
        return
    replies = ("made 1", "made 0", "error stuck", f"error {chance.choice(FAULTS)}", "error", *REPLIES[1:])
    lines[at] = lines[at].partition(" -> ")[0] + " -> " + chance.choice(replies)


def faults_next_to(program: str, word: str, text: bytes, wanted: Judged) -> List[str]:
    return shown_with(faults_in(wanted, answer(program, text, word)), f"the input: {text[:1500]!r}")


def list_floors() -> Dict[str, int]:
    """How often each operation, reply and error is met at least by the random lists of one test."""
    groups = [f"{status} {group}" for status in STATUSES for group in ("any", "all")] + ["stop all", "kill all"]
    waits = [f"{verb} {awaited}{group}" for verb in ("wait", "wake") for awaited in ("done", "killed") for group in ("", " any", " all")]
    plain = ["create", "create alive", "create named", "create alive named", "start", "stop", "kill", *STATUSES, "stopcase", "getverdict", "finish"]
    return {**dict.fromkeys([*plain, *(f"setverdict {it}" for it in USER_VERDICTS)], 60), **dict.fromkeys(groups + waits, 25),
            **dict.fromkeys((f"reply {it}" for it in REPLIES), 40), **{f"reply error {it}": 1 if it == "too-many" else 4 for it in FAULTS}}


def lists_are_replayed(program: str, seed: int) -> Iterator[str]:
    chance, met = random.Random(f"lists {seed}"), Counter()
    for at in range(LISTS):
        drawn = MoveList(chance, met, is_large=at % 50 == 49)
        text, wanted = drawn.list_text(), replay(drawn.list_text())
        if wanted.output != as_lines(*drawn.replies, f"verdict {drawn.table.overall()}"):
            yield f"the list that was drawn is read otherwise: {text[:1500]!r}"
        yield from faults_next_to(program, "replay", text, wanted)
    yield from below(met, list_floors())


def changed_lists_are_judged(program: str, seed: int) -> Iterator[str]:
    """Lists of moves with a byte or a line changed."""
    chance, met = random.Random(f"changed lists {seed}"), Counter()
    for _ in range(TEXTS):
        text = spoilt(chance, [MoveList(chance, Counter(), is_large=False).list_text()])
        wanted = replay(text)
        met[wanted.errors.decode().rpartition(": ")[2].strip() or "accepted"] += 1
        yield from faults_next_to(program, "replay", text, wanted)
    yield from below(met, {"accepted": 20, "bad move": 40, "bad first line": 2})


def drawn_histories(chance: random.Random, what: str, met: Counter) -> bytes:
    """Histories of both formats, legal or not by what is asked for."""
    lines: List[str] = []
    for at in range(chance.randrange(1, 9)):
        drawn = MoveList(chance, Counter(), is_large=False)
        may_be_first = drawn.behaviours <= FORMATS["1"] and not any(op.name for _, op in drawn.moves)
        is_first = chance.random() < 0.6 if may_be_first else what == "format 1"
        block = drawn.history_lines(f"t{at}", "1" if is_first else "2")
        met["histories"] += 1
        met[f"format {block[0].split()[1]}"] += 1
        met["named"] += sum(" named " in it for it in block)
        if what == "falsified" and chance.random() < 0.3:
            falsified(chance, block)
        lines += block
    text = as_lines(*lines)
    return spoilt(chance, [text]) if what == "changed" else text


def histories_are_checked(program: str, seed: int) -> Iterator[str]:
    """Random histories of both formats: legal ones, ones with another reply or verdict, ones with a byte or a line changed, and ones in
    format 1 that it cannot spell."""
    chance, met = random.Random(f"histories {seed}"), Counter()
    for _ in range(TEXTS):
        text = drawn_histories(chance, chance.choice(("legal", "falsified", "falsified", "changed", "format 1")), met)
        wanted = check(text)
        told = wanted.errors.decode().rpartition(": ")[2].strip()
        met[told or ("legal" if wanted.status == 0 else "not legal")] += 1
        yield from faults_next_to(program, "check", text, wanted)
    yield from below(met, {"histories": 800, "format 1": 250, "format 2": 250, "named": 500, "legal": 40, "not legal": 50, "bad entry": 20,
                           "bad first line": 3})


def judgements(seed: int) -> List[Judgement]:
    """Several of each kind, so that they run side by side."""
    kinds = (("random_lists_are_replayed", "replay < (random lists of moves)", lists_are_replayed, 4),
             ("random_histories_are_checked", "check < (random histories)", histories_are_checked, 4),
             ("changed_lists_are_judged", "replay < (changed lists of moves)", changed_lists_are_judged, 2))
    return [Judgement(f"{name}_{4 * seed + at}", f"ttrun {command}", judge, (4 * seed + at,))
            for name, command, judge, count in kinds for at in range(count)]
