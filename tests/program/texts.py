"""The texts of docs/texts.md in Python: move lists, histories and evidence, what is printed for them, and their first faults."""
import re
from dataclasses import dataclass
from typing import List, NamedTuple, Optional, Sequence, Set, Tuple

from table import FAULTS, MOST_BEHAVIOURS, VERDICTS, Op, Table, Target

MOST_BYTES_OF_A_LIST = MOST_BYTES_OF_A_SCRIPT = 1_048_576
MOST_BYTES_OF_A_HISTORY = 16_777_216

NUMBER = "(?:0|[1-9][0-9]*)"
NAME = "[A-Za-z][A-Za-z0-9_]{0,31}"
NO_NAMES = ("all", "any", "mtc", "self")
MOST_RUN = 65_535
# The formats of a history, each with its most behaviours.
FORMATS = {"1": 64, "2": MOST_BEHAVIOURS}
# What a block of evidence has where a history has its format.
EVIDENCE = "evidence"
MOST_COMPONENT = 4_294_967_295

MOVE = re.compile(
    rf"(?P<caller>{NUMBER}) (?:"
    rf"(?P<create>create)(?P<alive> alive)?(?: named (?P<name>{NAME}))?"
    rf"|(?P<start>start) (?P<on>{NUMBER}) (?P<run>{NUMBER})(?P<args>(?: {NUMBER}){{0,4}})"
    rf"|(?P<halt>stop|kill) (?P<group>{NUMBER}|all)"
    rf"|(?P<status>running|alive|done|killed) (?P<asked>{NUMBER}|any|all)"
    rf"|(?P<wait>wait|wake) (?P<awaited>done|killed) (?P<target>{NUMBER}|any|all)"
    rf"|(?P<set>setverdict) (?P<verdict>none|pass|inconc|fail)"
    rf"|(?P<plain>stopcase|getverdict|finish)"
    rf")"
)
NAMING = re.compile(rf"behaviour ({NUMBER}) ({NAME})")
SAID = re.compile(rf"({NUMBER}) ([#!]) ([ -~]{{1,200}})")
REPLY = re.compile(
    rf"made (?P<made>{NUMBER})|ok|true|false|matched|parked|ended|{'|'.join(VERDICTS)}|error (?:{'|'.join(FAULTS)})"
)


@dataclass(frozen=True)
class Judged:
    """What the program answers to an input: the bytes of standard output, the line of its fault, the status."""

    output: bytes
    errors: bytes
    status: int


def refused(line: int, text: str) -> Judged:
    return Judged(b"", f"ttrun: line {line}: {text}\n".encode(), 3)


def lines_of(text: bytes) -> List[str]:
    """The lines of a text. Each byte is one character."""
    lines = text.decode("latin-1").split("\n")
    return lines[:-1] if lines[-1] == "" else lines


def status_of(verdict: str) -> int:
    return {"none": 0, "pass": 0, "inconc": 1, "fail": 1, "error": 2}[verdict]


def component_of(word: str) -> Optional[Target]:
    """The component or group of a word that is in the place of one."""
    if word in ("any", "all"):
        return word
    return int(word) if int(word) <= MOST_COMPONENT else None


def read_move(text: str) -> Optional[Tuple[int, Op]]:
    """The caller and operation that the text spells."""
    found = MOVE.fullmatch(text)
    if found is None or int(found["caller"]) > MOST_RUN:
        return None
    targets = [component_of(it) for it in (found["on"] or found["group"] or found["asked"] or found["target"] or "0",)]
    args = [component_of(it) for it in (found["args"] or "").split()]
    if None in targets + args or int(found["run"] or 0) > MOST_RUN or found["name"] in NO_NAMES:
        return None
    verb = next(found[it] for it in ("create", "start", "halt", "status", "wait", "set", "plain") if found[it])
    op = Op(verb, target=targets[0], alive=found["alive"] is not None, run=int(found["run"] or 0), args=tuple(args),
            awaited=found["awaited"] or "", verdict=found["verdict"] or "", name=found["name"] or "")
    return int(found["caller"]), op


def is_name(word: str) -> bool:
    return re.fullmatch(NAME, word) is not None and word not in NO_NAMES


def behaviours_of(word: str) -> Optional[int]:
    return int(word) if re.fullmatch(NUMBER, word) and 1 <= int(word) <= MOST_BEHAVIOURS else None


def replay(text: bytes) -> Judged:
    if len(text) > MOST_BYTES_OF_A_LIST:
        return Judged(b"", b"ttrun: input too long\n", 3)
    lines = lines_of(text)
    if not lines:
        return refused(1, "text ends too early")
    first, _, word = lines[0].partition(" ")
    behaviours = behaviours_of(word)
    if first != "behaviours" or behaviours is None:
        return refused(1, "bad first line")
    moves = [read_move(line) for line in lines[1:]]
    if None in moves:
        return refused(2 + moves.index(None), "bad move")
    table = Table(behaviours)
    replies = [table.play(*move) for move in moves]
    output = "".join(f"{line}\n" for line in [*replies, f"verdict {table.overall()}"])
    return Judged(output.encode(), b"", status_of(table.overall()))


@dataclass
class Entry:
    """An entry of a block, with the number of its line."""

    line: int
    caller: int
    op: Op
    reply: str

    def text(self) -> str:
        return f"{self.caller} {self.op.text()} -> {self.reply}"


class Said(NamedTuple):
    """A line that is no entry: a remark (`#`), a refused line (`!`), or without a mark the name of a behaviour."""

    run: int
    mark: str
    text: str


@dataclass
class Block:
    """The history or the evidence of one test case, with the number of its last line, and what each line says that is no entry, with
    how many entries are before it."""

    format: str
    name: str
    behaviours: int
    entries: List[Entry]
    last_line: int
    verdict: str
    said: Sequence[Tuple[int, Said]] = ()

    @property
    def calls(self) -> List[str]:
        """The entries as they are spelled."""
        return [it.text() for it in self.entries]

    def marked(self, mark: str) -> List[Tuple[int, str]]:
        """What its lines of this mark say, each after the number of its run."""
        return [(it.run, it.text) for _, it in self.said if it.mark == mark]

    def history(self) -> str:
        """The block of a history that is left without what says nothing to the table."""
        return "".join(f"{it}\n" for it in [f"history 2 {self.name} {self.behaviours}", *self.calls, f"end {self.verdict}"])


def read_header(line: str) -> Optional[Tuple[str, str, int]]:
    """The format, the name and the number of behaviours in the first line of a block."""
    words = line.split(" ")
    is_evidence = words[:2] == ["evidence", "1"]
    if len(words) != 4 or not is_evidence and (words[0] != "history" or words[1] not in FORMATS) or not is_name(words[2]):
        return None
    behaviours = behaviours_of(words[3])
    if behaviours is None or not is_evidence and behaviours > FORMATS[words[1]]:
        return None
    return EVIDENCE if is_evidence else words[1], words[2], behaviours


def read_entry(line: int, text: str, format_of_block: str) -> Optional[Entry]:
    """The entry that the text spells in a block of this format."""
    move_text, _, reply = text.partition(" -> ")
    move, made = read_move(move_text), REPLY.fullmatch(reply)
    if move is None or made is None or int(made["made"] or 0) > MOST_COMPONENT:
        return None
    return None if move[1].name and format_of_block == "1" else Entry(line, *move, reply)


def read_said(line: str, behaviours: int, met: Set[int]) -> Optional[Said]:
    """What a line says of a run, if it may be there; these are the runs about which there was a line: they are named no more."""
    naming, said = NAMING.fullmatch(line), SAID.fullmatch(line)
    found = Said(int(naming[1]), "", naming[2]) if naming else Said(int(said[1]), said[2], said[3]) if said else None
    if found is None or found.run >= behaviours or naming and (found.run in met or not is_name(found.text)):
        return None
    return found


def read_blocks(text: bytes) -> Tuple[List[Block], Optional[Tuple[int, str]]]:
    """The whole blocks of a text of histories and evidence, up to its first fault, and the line and kind of that."""
    lines = lines_of(text)
    blocks: List[Block] = []
    header: Optional[Tuple[str, str, int]] = None
    entries: List[Entry] = []
    others: List[Tuple[int, Said]] = []
    met: Set[int] = set()
    for number, line in enumerate(lines, 1):
        if header is None:
            header, entries, others, met = read_header(line), [], [], set()
            if header is None:
                return blocks, (number, "bad first line")
        elif line.startswith("end ") and line[4:] in VERDICTS:
            blocks.append(Block(*header, entries, number, line[4:], others))
            header = None
        else:
            entry = read_entry(number, line, header[0])
            said = read_said(line, header[2], met) if entry is None and header[0] == EVIDENCE else None
            if entry is None and said is None:
                return blocks, (number, "bad entry")
            entries += [entry] if entry else []
            others += [(len(entries), said)] if said else []
            # An entry is about its caller, and the run that it starts.
            met |= {said.run} if said else {entry.caller, entry.op.run} if entry.op.verb == "start" else {entry.caller}
    return blocks, (len(lines) + 1, "text ends too early") if header is not None or not lines else None


def read_history(text: bytes) -> Tuple[List[Block], Optional[Judged]]:
    """The blocks of such a text, or the refusal of its first fault."""
    blocks, fault = read_blocks(text)
    return ([], refused(*fault)) if fault else (blocks, None)


def legal_blocks(text: bytes) -> List[Block]:
    """The blocks of a text that must not be refused."""
    blocks, refusal = read_history(text)
    assert refusal is None, refusal
    return blocks


def judge_block(block: Block) -> Tuple[str, bool]:
    """The line that `check` prints for a block, and whether it is legal."""
    table = Table(block.behaviours)
    for entry in block.entries:
        reply = table.play(entry.caller, entry.op)
        if reply != entry.reply:
            return f"line {entry.line}: {entry.reply}, table gives {reply}\n", False
    if table.overall() != block.verdict:
        return f"line {block.last_line}: {block.verdict}, table gives {table.overall()}\n", False
    return f"legal {block.name} {len(block.entries)} {block.verdict}\n", True


def check(text: bytes) -> Judged:
    if len(text) > MOST_BYTES_OF_A_HISTORY:
        return Judged(b"", b"ttrun: input too long\n", 3)
    blocks, refusal = read_history(text)
    if refusal is not None:
        return refusal
    output = ""
    for block in blocks:
        line, is_legal = judge_block(block)
        output += line
        if not is_legal:
            return Judged(output.encode(), b"", 3)
    return Judged(output.encode(), b"", 0)
