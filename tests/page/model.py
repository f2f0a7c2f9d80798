"""Tests of the page's model, which need only node: what is read, refused, concluded and drawn of histories, and shown of evidence."""
import json
import random
import re
from collections import Counter
from concurrent.futures import ThreadPoolExecutor
from dataclasses import dataclass
from functools import lru_cache
from typing import Any, Dict, List, Optional, Set, Tuple

from histories import (EXAMPLES, KINDS, MOST_BYTES, PIECES_OF_EVIDENCE, TOP, Case, Line, deciding, entry_of, evidence_of, legal_case, random_block,
                       random_legal, read_cases, states, tables)
from harness import Ran, call, hold, reached, same
from random_courses import parting_lines
from random_moves import spoilt
from reports import Told
from table import VERDICTS, Table
from texts import Entry, legal_blocks as legal_blocks_of

FAULTS = ("bad first line", "bad entry", "text ends too early")


@dataclass
class Context:
    """What the tests work with: the built program, node, a page or the sources of one, the seed of what is random, a folder."""

    program: str
    node: str
    page: str
    seed: int
    room: str = ""


def ask(context: Context, what: str, texts: List[str]) -> List[Any]:
    ran = call([context.node, f"{TOP}/tests/page/answers.mjs", context.page], json.dumps({"what": what, "texts": texts}))
    same(0, ran.status, ran.errors[-600:])
    return json.loads(ran.output)


@lru_cache(maxsize=4000)
def checked(program: str, text: bytes) -> Ran:
    """What `ttrun check` gives; a program is asked once about a text."""
    return call([program, "check"], text)


def told_fault(context: Context, text: bytes) -> Optional[List[Any]]:
    """Line and kind of the fault that the program prints."""
    errors = checked(context.program, text).errors
    if not errors:
        return None
    found = re.fullmatch(rb"ttrun: (?:line (\d+): )?([a-z ]+)\n", errors)
    hold(found, errors)
    return [int(found[1]) if found[1] else None, found[2].decode()]


def blocks_of(text: str) -> List[str]:
    return re.findall(r"(?ms)^history .*?\nend \w+\n", text)


def edges() -> List[str]:
    head, end = "history 1 t 1\n", "end none\n"
    texts = ["", "\n", head, head + end, head + "end none", head + end + "\n", head + "\n" + end, "\ufeff" + head + end,
             head.replace("\n", "\r\n") + end, head + end + "x", "history 3 t 1\n" + end, head + "end nil\n", head + "end\n", " " + head + end]
    firsts = ["history 1 t 0", "history 1 t 65", "history 2 t 257", "history 1 t 01", "history 1 all 1", "history 1 mtc 1", "history 1  t 1",
              "history 1 t 1 ", "history 1 9t 1", "history 1 " + "n" * 33 + " 1", "history 1 t", "history 1 t- 1", "history 1 t 64",
              "history 2 t 256", "history 1 allx 1", "history 1 " + "n" * 32 + " 1", "history 2 create 1", "history 2 self 1", "history 2 any_1 1"]
    lines = ["create named n -> made 1", "create  -> made 1", "create -> made 01", "create -> made 4294967296", "create alive -> made 4294967295",
             "start 1 -> ok", "start 1 1 2 3 4 5 6 -> ok", "start 1 65536 -> ok", "start 4294967295 65535 1 2 3 4 -> ok", "start 1 1 4294967296 -> ok",
             "stop any -> ok", "stop all all -> ok", "wait running 1 -> parked", "wake killed any -> matched", "stopcase 1 -> ok",
             "setverdict error -> ok", "setverdict -> ok", "finish -> okay", "finish -> error", "finish -> error none", "finish -> error too-many",
             "finish ->  ok", "finish-> ok", "finish -> ok ", "finish -> ok\t", "finish -> made 0", "finish", "running -> true", "running any -> made 0",
             "create dead -> made 1", "create -> parked", "getverdict -> error", "create alive named -> made 1", "create named alive -> made 1"]
    texts += [f"{it}\n{end}" for it in firsts] + [f"{head}0 {it}\n{end}" for it in lines]
    texts += [f"{head}{run} finish -> ok\n{end}" for run in ("65535", "65536", "00", "-1", "", "4294967296", "99999999999")]
    texts += [f"history 2 t 1\n0 create {it} -> made 1\n{end}" for it in ("alive named n", "named all", "named " + "n" * 33, "named n alive", "named n_1")]
    return texts


# Two entries that are folded, the second of which ends a component.
FOLDED = "".join(f"{it}\n" for it in ("history 2 t 2", "0 create -> made 1", "0 start 1 1 -> ok", "1 getverdict -> none",
                                      *("0 getverdict -> none", "0 kill 1 -> ok") * 3, "1 getverdict -> ended", "0 finish -> ok", "end none"))


def legal_blocks(context: Context) -> List[str]:
    """Random blocks that are legal, and at the end those of the examples and one of workers."""
    rng = random.Random(context.seed + 1)
    legal = [block for text in EXAMPLES.values() for block in blocks_of(text)] + [legal_case("t", 3, 6), FOLDED]
    return [random_legal(rng, f"t_{it}") for it in range(250)] + legal


def shape_of(entry: Entry, on: Optional[int], table: Table, phases: List[str], told: Told) -> Tuple[str, str, object]:
    """The form of the picture of a legal entry of a run that is on this component, its label, and what it points to. The table is
    the one after it, the phases are those before it; `told` has the names."""
    op, reply = entry.op, entry.reply
    if on is None:
        return "note", f"run {entry.caller}: {op.text()} \u2192 {reply}", None
    is_named = bool(op.named()) and isinstance(op.target, int)
    words = told.named(entry).partition(" -> ")[0]
    if reply.startswith("error "):
        return "box", f"{words} \u2192 {reply}", None
    if op.verb == "create" and reply != "ended":
        return "create", "create" + " alive" * op.alive, int(reply.split()[1])
    if reply == "matched":
        return ("box" if op.target in ("any", "all", on) else "arrow"), words[5:], op.target if is_named and op.target != on else None
    if reply == "parked":
        return "note", words if op.verb == "wait" else f"still waits: {words[5:]}", None
    if reply != "ok":
        return "note", f"{words} \u2192 {reply}", None
    if op.verb == "start":
        given = [told.component(it) if len(op.args) == 1 else str(it) if it else "mtc" for it in op.args]
        return "arrow", f"start run {op.run}" + f" with {', '.join(given)}" * bool(given), op.target
    if op.verb in ("stop", "kill"):
        if op.target == "all":
            return "all", words, [it for it, phase in enumerate(phases) if phase != "killed" and it not in (0, on)]
        return ("box", f"{op.verb} itself", None) if op.target == on else ("arrow", op.verb, op.target)
    if op.verb == "setverdict":
        local = table.components[on].verdict
        return "box", words + f", stays {local}" * (local != op.verdict), None
    return ("box", "testcase.stop", None) if op.verb == "stopcase" else ("note", f"finish run {entry.caller}", None)


def drawn(shape: Dict[str, Any]) -> Tuple[Optional[int], str, str, object]:
    """The same of a shape of the page, after the component that it is of. The arrow of a wait comes from what it waited for."""
    form, label, one, other = (shape[it] for it in ("form", "label", "from", "to"))
    if form == "arrow" and label.startswith(("done ", "killed ")):
        one, other = other, one
    return one, form, label, None if form in ("box", "note") else other


def activations(diagram: str) -> List[Set[str]]:
    """The participants that are active in a diagram of Mermaid before its first statement, and after each."""
    found: List[Set[str]] = [set()]
    for line in diagram.splitlines()[1:]:
        word, _, rest = line.strip().partition(" ")
        if word.endswith("activate"):
            found[-1] ^= {rest}
        elif word not in ("%%", "participant"):
            found.append(set(found[-1]))
    return found


def points_of_a_block(block: str, answer: Dict[str, Any]) -> int:
    """Holds what is said of a legal block to the table, at each of its points; how many these are."""
    case, lines, over, runs, phases, running = answer["cases"][0], re.findall(r"(?m)^\d.*$", block), None, {}, [], []
    same(*answer["asked"][0], lines)
    why, entries = deciding(lines), [entry_of(it) for it in lines]
    told = Told(legal_blocks_of(block.encode())[0])
    for count, table in enumerate(tables(block)):
        same(states(table), answer["states"][0][count], lines[:count])
        over = count - 1 if over is None and table.components[0].phase != "running" else over
        runs = dict(table.component_of_run) if count == why else runs
        if count:
            on = table.component_of_run.get(entries[count - 1].caller)
            wanted = (on, *shape_of(entries[count - 1], on, table, phases, told))
            same(wanted, drawn(answer["shapes"][0][count - 1]), lines[:count][::-1])
        phases = [it.phase for it in table.components]
        running.append({f"c{at}" for at, phase in enumerate(phases) if phase == "running"})
    same([running[0], *(running[it + 1] for it in answer["rows"][0]), running[-1]], activations(answer["mermaid"][0]), lines)
    same(VERDICTS.index(table.overall()), case["overall"], lines)
    same(why is None, case["why"] is None, lines)
    if why is not None:
        wanted = {"index": why, "line": why + 2, "text": lines[why], "run": entries[why].caller, "on": runs[entries[why].caller]}
        same(wanted, {it: case["why"][it] for it in wanted}, lines)
    same((over is not None, over), (case["isOver"], answer["ends"][0]), lines)
    return count + 1


def it_concludes_as_the_table_does(context: Context) -> str:
    blocks, points = legal_blocks(context), 0
    for text, answer in zip(blocks, ask(context, "games", blocks)):
        same(None, answer["fault"], text)
        points += points_of_a_block(text, answer)
    hold(points >= 6000, points)
    return f"{len(blocks)} histories, at {points} points"


def it_tells_where_two_cases_part(context: Context) -> str:
    text = KINDS + legal_case("t", 2, 9, seed=1) + legal_case("t", 2, 9, seed=2)
    answer, met = ask(context, "games", [text])[0], Counter()
    first = answer["texts"][0]
    for lines, count in zip(answer["texts"], answer["alike"]):
        hold(lines[:count] == first[:count] and lines[count:count + 1] != first[count:count + 1] or lines == first[:count] == first, lines)
        met[count] += 1
    hold(len(met) >= 3, met)
    rng = random.Random(context.seed)
    for told in ask(context, "games", ["".join(evidence_of(rng, it) for it in blocks_of(text)) for _ in range(20)]):
        same(answer["alike"], told["alike"], "evidence")
    return f"{len(answer['texts'])} cases, alike for {sorted(met)} entries"


# On the component of run 1, which a stop ended, run 2 ends before run 1 makes its call; or run 1 was faster.
RESTARTED = "".join(f"history 2 t 3\n0 create alive -> made 1\n0 start 1 1 -> ok\n{first}0 stop 1 -> ok\n0 start 1 2 -> ok\n2 finish -> ok\n"
                    f"{last}0 finish -> ok\nend {verdict}\n"
                    for first, last, verdict in (("", "1 setverdict fail -> ended\n", "none"), ("1 setverdict fail -> ok\n", "", "fail")))


def it_tells_where_each_run_parts(context: Context) -> str:
    """The first call of each run that differs from the first case's, and what ended the run, as `explore --details` has it."""
    rng, met = random.Random(context.seed + 5), Counter()
    texts = [RESTARTED, *("".join(random_legal(rng, "t") for _ in range(3)) for _ in range(200))]
    for text, told in zip(texts, ask(context, "games", texts)):
        first, *others = legal_blocks_of(text.encode())
        wanted = [[], *([it[2:] for it in parting_lines(first, other)] for other in others)]
        same(wanted, told["partings"], text)
        met.update(words for line in sum(wanted, []) for words in (": call ", "before it", "not made") if words in line)
    hold(all(met[it] >= 5 for it in (": call ", "before it", "not made")), met)
    return f"{len(texts)} pairs of cases: {dict(met)}"


def it_makes_the_table_of_several_files(context: Context) -> str:
    """A row for each name, with all its verdicts, what changed, what it opens, and the orders of the rows; of one file a row a case."""
    rng = random.Random(context.seed + 5)
    nights = [[[(f"t_{rng.randrange(12)}", rng.choice(("unfinished", *VERDICTS))) for _ in range(rng.randrange(1, 9))] for _ in range(files)]
              for files in [1, 2, 3] * 20]
    for files, (wanted, found) in zip(nights, ask(context, "nights", list(map(json.dumps, nights)))):
        same(wanted, found, files)
    return f"{len(nights)} tables"


def it_folds_without_loss(context: Context) -> str:
    rng, folded = random.Random(context.seed + 2), 0
    texts = ["".join(rng.choice("ab") for _ in range(rng.randrange(40))) + "ab" * rng.randrange(6) + "c" * rng.randrange(9) for _ in range(300)]
    for text, (part, rows) in zip(texts, ask(context, "rows", texts)):
        at = 0
        for row in rows:
            first, last, size, times = (row[it] for it in ("first", "last", "size", "times"))
            piece = text[at:last + 1]
            hold(first == at and last == at + size * times - 1 and (times == 1 or times >= 3), (text, row))
            hold(piece == text[at:at + size] * times and not at < part <= last and len({it == "c" for it in piece}) == 1, (text, row))
            at, folded = last + 1, folded + (times > 1)
        same(len(text), at, text)
    hold(folded >= 150, folded)
    return f"{len(texts)} lists, {folded} folded rows"


# What may be in a label: nothing that means anything to Mermaid, but by its number.
LABEL = r"(?:[A-Za-z0-9_ ,./()\u00d7\u2192\u201c\u201d-]|:(?= )|#\d+;)+"
STATEMENT = re.compile(rf"  (%% [\w ,]+|participant c\d+ as [\w ,]+|c\d+(-->>|->>|-x)c\d+: {LABEL}|Note over c\d+(,c\d+)?: {LABEL}"
                       r"|(de)?activate c\d+)")


def it_writes_mermaid(context: Context) -> str:
    """Each line is a statement of a sequence diagram, of participants that there are, and no activation is ended twice."""
    count = 0
    for answer in ask(context, "games", [*EXAMPLES.values(), KINDS]):
        for diagram in answer["mermaid"]:
            lines, on, there = diagram.splitlines(), set(), set()
            same("sequenceDiagram", lines[0])
            for line in lines[1:]:
                hold(STATEMENT.fullmatch(line), line)
                word, _, rest = line.strip().partition(" ")
                if word == "participant":
                    there.add(rest.split()[0])
                elif word.endswith("activate"):
                    hold((rest in on) == (word == "deactivate") and rest in there, line)
                    on ^= {rest}
                elif word != "%%":
                    hold(set(re.findall(r"\bc\d+\b", line.partition(":")[0])) <= there, line)
                count += 1
    hold(count >= 250, count)
    return f"{count} statements"


def edges_of_evidence() -> List[str]:
    head, end = "evidence 1 t 3\n", "end none\n"
    firsts = ["evidence 1 t 0", "evidence 1 t 256", "evidence 1 t 257", "evidence 1 t 65", "evidence 1 t 03", "evidence 2 t 3", "evidence 0 t 3",
              "evidence 1 t", "evidence 1 all 3", "evidence 1  t 3", "evidence 1 t 3 ", "evidence t 3", "Evidence 1 t 3", "evidences 1 t 3",
              "evidence 1 " + "n" * 32 + " 3", "evidence 1 " + "n" * 33 + " 3", "history 3 t 3", "evidence 1 t -1"]
    said_lines = ["0 # x", "0 ! x", "2 # x", "3 # x", "2 ! x", "3 ! x", "10 # x", "00 # x", "0 #", "0 # ", "0 #  ", "0  # x", "0 #x", "0 # x ",
                  " 0 # x", "0 ? x", "0 ## x", "0 #! x", "# x", "! x", "0 # \t", "0 # \r", "0 # \x7f", "0 # \x80", "0 # \x1f", "0 # \xe9",
                  "0 # \u2039", "0 # ~", "0 # " + "y" * 200, "0 # " + "y" * 201, "0 ! " + "<" * 200, "0 ! " + "<" * 201, "0 # 0 finish -> ok",
                  "0 # end none", "0 # behaviour 0 x", "4294967296 # x"]
    namings = ["0 x", "2 x", "3 x", "00 x", "0  x", "0 x ", "0", "0 all", "0 allx", "0 " + "n" * 32, "0 " + "n" * 33, "0 9x", "0 x-y", " 0 x",
               "10 x", "0 x\nbehaviour 1 x", "0 x\nbehaviour 0 y", "1 y\n0 start 1 1 -> ok"]
    before = ["0 # x", "0 ! x", "1 # x", "0 getverdict -> none", "0 start 1 1 -> ok", "0 start 1 0 -> ended", "0 start 0 2 -> ok",
              "2 start 1 0 1 -> error stuck", "0 stop 0 -> ok", "1 stop 0 -> ok"]
    others = ["0 start 1 9 -> ok", "9 finish -> ended", "0 create named n -> made 1", "0 create alive named n -> made 1", "0 finish",
              "0 finish -> ok ", "evidence 1 t 3", "end", "end  none", "Behaviour 0 x"]
    inside = [*said_lines, *(f"behaviour {it}" for it in namings), *(f"{it}\nbehaviour 0 y" for it in before), *others]
    texts = [f"{it}\n{end}" for it in firsts] + [f"{head}{it}\n{end}" for it in inside]
    texts += [f"history {form} t 3\n{it}\n{end}" for it in ("0 # x", "0 ! x", "behaviour 0 x", "0 create named n -> made 1") for form in (1, 2)]
    old = f"history 1 t 1\n{end}"
    return texts + [head, head + end, head + end[:-1], head + "0 # x", f"{head}0 # x\n{end}{old}", f"{old}{head}0 # x\n{end}", head + end + head,
                    head + end + "0 # x\n", head + "\n" + end, head + end + "\n", f"{head}{end}history 2 t 1\n0 # x\n{end}"]


def told_of_texts(context: Context, texts: List[bytes]) -> Counter:
    """Holds what the model and the program say of these texts to the tests' own reader, and of legal ones to what is printed."""
    met: Counter = Counter()
    with ThreadPoolExecutor(4) as pool:
        told = list(pool.map(lambda it: checked(context.program, it), texts))
    for text, ran, answer in zip(texts, told, ask(context, "faults", [it.decode("latin-1") for it in texts])):
        cases, fault = read_cases(text)
        same((fault, fault), (told_fault(context, text), answer["fault"]), text)
        wanted = [(it.name, {str(run): name for run, name in it.names.items()}, len(it.entries()), it.verdict) for it in cases]
        same(wanted, [(it["name"], it["names"], it["entries"], VERDICTS[it["told"]]) for it in answer["cases"]], text)
        met[fault[1] if fault else "legal" if ran.status == 0 else "read"] += 1
        met["named"] += sum(bool(it.names) for it in cases)
        met["said"] += sum(bool(line.said) for it in cases for line in it.lines)
        if fault is None:
            legal = [f"legal {it.name} {len(it.entries())} {it.verdict}" for it in cases]
            there = [it for it in ran.output.decode().splitlines() if it.startswith("legal ")]
            hold(there == legal if ran.status == 0 else there == legal[:len(there)] and there != legal, (text, ran))
            hold(ran.status != 0 or all(it["told"] == it["overall"] for it in answer["cases"]), (text, ran))
    return met


def it_tells_faults_as_the_program_does(context: Context) -> str:
    large = "x" * (MOST_BYTES + 1)
    same([told_fault(context, large.encode())], [it["fault"] for it in ask(context, "faults", [large])])
    texts = [*edges(), *edges_of_evidence()]
    met = told_of_texts(context, [it.encode("utf-8" if "\u2039" in it or "\ufeff" in it else "latin-1") for it in texts])
    return reached(met, {"legal": 35, "read": 10, "bad entry": 90, "bad first line": 35, "text ends too early": 5})


def it_reads_spoilt_texts_as_the_program_does(context: Context) -> str:
    """Histories and evidence, whole and with faults."""
    rng = random.Random(context.seed + 4)
    blocks = [it for text in EXAMPLES.values() for it in blocks_of(text)] + blocks_of(KINDS) + [random_block(rng, False)[0] for _ in range(60)]
    histories, whole = [it.encode() for it in blocks], [evidence_of(rng, it).encode() for it in blocks]
    whole += [rng.choice(whole) + block.encode() + rng.choice(whole) for block in blocks[:30]]
    texts = [*histories, *whole, *(spoilt(rng, histories) for _ in range(2000)), *(spoilt(rng, whole, PIECES_OF_EVIDENCE) for _ in range(1500))]
    return reached(told_of_texts(context, texts), {**dict.fromkeys(FAULTS, 150), "bad entry": 1200, "legal": 60, "read": 300, "named": 500, "said": 1500})


def spoken(line: Line) -> str:
    return f"refused: {line.said}" if line.mark == "!" else f"\u201c{line.said}\u201d"


def shape_of_said(case: Case, on: Optional[int], line: Line) -> Tuple[str, str, Optional[int]]:
    """Form, label and component of a remark or a refused line of a run that is on this component."""
    if on is None:
        return "note", f"{named(case, f'run {line.run}')}: {spoken(line)}", None
    return "box" if line.mark == "!" else "note", spoken(line), on


def named(case: Case, label: str) -> str:
    """A label with the names of behaviours next to the numbers of runs."""
    return re.sub(r"\brun (\d+)", lambda found: f"{found[0]} {case.names.get(int(found[1]), '')}".rstrip(), label)


def faults_of_evidence(text: str, told: Dict[str, Any], plain: Dict[str, Any]) -> int:
    """Holds what is shown of evidence to what is shown of the history in it; how many names and remarks there are."""
    case, entries, shown = read_cases(text.encode())[0][0], 0, told["shapes"][0]
    runs = [dict(it.component_of_run) for it in tables(text)]
    same([it.text for it in case.lines], told["texts"][0])
    for key in ("status", "overall", "told", "isOver", "components", "entries"):
        same(plain["cases"][0][key], told["cases"][0][key], key)
    for place, line in enumerate(case.lines):
        same(plain["states"][0][entries], told["states"][0][place], line)
        if line.said:
            same(shape_of_said(case, runs[entries].get(line.run), line), (shown[place]["form"], shown[place]["label"], shown[place]["from"]), line)
        else:
            wanted = plain["shapes"][0][entries]
            same({**wanted, "label": named(case, wanted["label"])}, shown[place], line)
            entries += 1
    same(plain["states"][0][entries], told["states"][0][-1])
    # at a component are the runs that were started on it and have names, in the order of their starts
    starts = [(0, 0), *((it.op.target, it.op.run) for it in map(entry_of, case.entries()) if it.op.verb == "start" and it.reply == "ok")]
    same([[on, ", ".join(named(case, f"run {run}") for at, run in starts if at == on and run in case.names)] for on, _ in told["ran"][0]], told["ran"][0], text)
    over = plain["ends"][0]
    same(None if over is None else [at for at, it in enumerate(case.lines) if not it.said][over], told["ends"][0])
    return len(case.names) + len(case.lines) - entries


def it_shows_evidence_as_its_history(context: Context) -> str:
    """Names and remarks change no state, verdict or picture of an entry; each has its place, and so has its component."""
    rng, count = random.Random(context.seed + 5), 0
    blocks = legal_blocks(context)[100:]
    texts = [evidence_of(rng, it) for it in blocks]
    for text, told, plain in zip(texts, ask(context, "games", texts), ask(context, "games", blocks)):
        count += faults_of_evidence(text, told, plain)
    hold(count >= 1200, count)
    return f"{len(texts)} blocks, {count} names and remarks"


def legal_evidence(context: Context, rounds: int) -> List[str]:
    rng = random.Random(context.seed + 6)
    blocks = legal_blocks(context)[250:]
    extra = [legal_case("t", 3, 5, verdict, seed) for seed, verdict in enumerate(VERDICTS[1:4])]
    return [evidence_of(rng, it, 20) for it in blocks + extra for _ in range(rounds)]


def it_tells_reasons(context: Context) -> str:
    """Next to the entry that made the verdict: the name of its behaviour, and the remarks of its run right before and after it."""
    texts, met = legal_evidence(context, 25), Counter()
    for text, answer in zip(texts, ask(context, "faults", texts)):
        wanted, came = read_cases(text.encode())[0][0].why(), answer["cases"][0]["why"]
        same(wanted is None, came is None, text)
        if wanted is not None:
            same(wanted, {it: came[it] or "" if it == "behind" else came[it] for it in wanted}, text)
            met.update(it for it in ("behaviour", "before", "behind") if wanted[it])
    return reached(met, {"behaviour": 200, "before": 100, "behind": 100})


def it_writes_remarks_for_mermaid(context: Context) -> str:
    """Each name and remark is in the diagram, a remark in a note, spelled so that Mermaid reads nothing else in it."""
    texts, count = legal_evidence(context, 2), 0
    for text, answer in zip(texts, ask(context, "games", texts)):
        case, lines = read_cases(text.encode())[0][0], answer["mermaid"][0].splitlines()
        hold(all(STATEMENT.fullmatch(it) for it in lines[1:]), [it for it in lines[1:] if not STATEMENT.fullmatch(it)])
        read = [re.sub(r"#(\d+);", lambda found: chr(int(found[1])), it) for it in lines]
        for line in case.lines:
            hold(not line.said or any(it.startswith("  Note over ") and spoken(line) in it for it in read), (line, lines))
        for run, name in case.names.items():
            is_started = run == 0 or any(it.op.verb == "start" and it.op.run == run for it in map(entry_of, case.entries()))
            hold(not is_started or any(f"run {run} {name}" in it for it in read), (run, name, lines))
        count += len(case.names) + sum(bool(it.said) for it in case.lines)
    hold(count >= 250, count)
    return f"{count} names and remarks"


TESTS = (it_concludes_as_the_table_does, it_tells_where_two_cases_part, it_tells_where_each_run_parts, it_makes_the_table_of_several_files,
         it_folds_without_loss, it_writes_mermaid, it_tells_faults_as_the_program_does, it_reads_spoilt_texts_as_the_program_does,
         it_shows_evidence_as_its_history, it_tells_reasons, it_writes_remarks_for_mermaid)
