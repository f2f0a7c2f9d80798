"""Forms made of histories, held to a making of our own and to Python's readers of XML and HTML."""
import calendar
import os
import random
import re
import time
import xml.etree.ElementTree as ElementTree
from collections import Counter
from html.parser import HTMLParser
from itertools import takewhile
from typing import Callable, Dict, Iterator, List, Optional, Tuple, Union

import examples
from case import Case, Judgement, Ran, answer, as_lines, below, faults_in, joined, refused
from harness import bytes_of
from rows import CSV_HEADER, counts_of, text
from table import VERDICTS, Op, Table
from texts import Block, Entry, check, legal_blocks, status_of

# The forms that histories have.
FORMS = ("text", "csv", "junit", "html", "summary")
# How many histories of random calls are reported, and the fewest of each kind that must be among them; and how many verdicts are
# decided by a setting and by an error.
RANDOM_BLOCKS = 1000
FLOORS: Dict[str, int] = {"none": 100, "pass": 20, "inconc": 20, "fail": 20, "error": 80, "unfinished": 100, "two components": 200,
                          ": setverdict ": 100, "-> error ": 100}

# A schema of our own: each element with its attributes, and the elements that may be in it, by their order.
SCHEMA: Dict[str, Tuple[Tuple[str, ...], str]] = {
    "testsuites": (("tests", "failures", "errors", "skipped"), "testsuite"),
    "testsuite": (("name", "tests", "failures", "errors", "skipped"), "properties( testcase)*"),
    "properties": ((), "property"), "property": (("name", "value"), ""),
    "testcase": (("name", "classname"), "(failure |error |skipped )?system-out"),
    "failure": (("type", "message"), ""), "error": (("type", "message"), ""), "skipped": ((), ""), "system-out": ((), ""),
}
# The attributes that an element need not have.
OPTIONAL: Dict[str, Tuple[str, ...]] = {"skipped": ("message",)}
# The element for each end of a test case but pass: its name and its type.
ELEMENTS: Dict[str, Tuple[str, str]] = {
    "none": ("skipped", ""), "not run": ("skipped", ""), "inconc": ("failure", "inconc"), "fail": ("failure", "fail"),
    "error": ("error", "error"), "unfinished": ("error", "unfinished"), "missing": ("error", "missing")}
# The messages of the ends that have no text of their own.
MESSAGES = {"unfinished": "the test case is not over", "missing": "there is no history of the test case"}
# What represents a byte in XML.
ESCAPES = {'"': "&quot;", "&": "&amp;", "<": "&lt;", "]": "&#93;"}
# The elements that have a text.
WITH_TEXT = ("failure", "error", "system-out")


def line_of(entry: Entry) -> str:
    """A call and its reply; a Wake is shown as the Wait."""
    text = entry.op.text()
    return f"{'wait' + text[4:] if entry.op.verb == 'wake' else text} -> {entry.reply}"


def lines_by(entries: List[Entry], caller: int, shown: Callable[[Entry], str] = line_of) -> List[str]:
    return [f"  {shown(it)}" for it in entries if it.caller == caller and it.reply != "parked"]


class Told:
    """What a form prints of a block: its name, the local verdicts, how it ended, and what decided a verdict worse than pass."""

    def __init__(self, block: Block) -> None:
        table = Table(block.behaviours)
        verdicts: List[str] = []
        for entry in block.entries:
            table.play(entry.caller, entry.op)
            verdicts.append(table.overall())
        self.name = block.name
        self.locals = [it.verdict for it in table.components]
        made = [it.op for it in block.entries if it.op.verb == "create" and it.reply.startswith("made ")]
        self.components = ["mtc", *(f"{at} {it.name}".rstrip() for at, it in enumerate(made, start=1))]
        self.names = {said.run: said.text for _, said in block.said if not said.mark}
        runs = sorted(table.component_of_run.items())
        self.text = [f"testcase {block.name}",
                     *(line for run, on in runs for line in (f"run {run} {self.names.get(run, '')} on {on}", *lines_by(block.entries, run))),
                     *(f"local {at} {it}" for at, it in enumerate(self.locals)), f"verdict {block.verdict}"]
        self.verdict = block.verdict
        self.end = "unfinished" if table.components[0].phase == "running" else table.overall()
        self.message = MESSAGES.get(self.end, "")
        self.lines: List[str] = []
        self.reasons: List[str] = []
        self.before: List[str] = []
        self.waits = self.waits_in(block) if self.end == "error" else []
        if self.end in VERDICTS[2:]:
            at = verdicts.index(self.end)
            caller = block.entries[at].caller
            on = table.component_of_run[caller]
            self.message = f"run {self.run(caller)} on {'component ' * (on > 0)}{self.component(on)}: {self.named(block.entries[at])}"
            self.message += self.meaning(block.entries[:at], block.entries[at])
            self.reasons = reasons(block, at)
            self.lines = lines_by(block.entries, caller, self.named)
            self.before = lines_by(block.entries[:at], caller, self.named)[-5:]

    def waits_in(self, block: Block) -> List[str]:
        """The lines of the runs that wait, if the main component got the error stuck."""
        before = list(takewhile(lambda it: it.reply != "error stuck", block.entries))
        table, lines = Table(block.behaviours), []
        for entry in before:
            table.play(entry.caller, entry.op)
        for run in range(block.behaviours if len(before) < len(block.entries) else 0):
            if table.is_going_on(run):
                status, target = table.awaited[run]
                doing = "" if isinstance(target, str) else f", {self.doing(table, target)}"
                lines.append(f"  stuck: run {self.run(run)} on {self.component(table.component_of_run[run])} waits for {status} of {self.component(target)}{doing}")
        return lines

    def doing(self, table: Table, component: int) -> str:
        it = table.components[component]
        return {"inactive": "not started", "running": f"where run {self.run(it.run or 0)} is"}.get(it.phase, it.phase)

    def meaning(self, before: List[Entry], entry: Entry) -> str:
        """What the error of this entry means, which comes after these."""
        verb, _, fault = entry.reply.partition(" ")
        run = entry.op.run
        is_again = fault == "no-behaviour" and run and any(it.op.verb == "start" and it.op.run == run and it.reply == "ok" for it in before)
        words = f"run {self.run(run)} was started before: a behaviour is started at most once" if is_again else MEANINGS.get(fault)
        return f": {words}" if verb == "error" else ""

    def why(self) -> str:
        """What decided the verdict, and what was said of it."""
        return self.message + "".join(f': "{said}"' for said in self.reasons)

    def run(self, run: int) -> str:
        return f"{run} {self.names.get(run, '')}".rstrip()

    def component(self, target: Union[int, str]) -> str:
        return self.components[target] if isinstance(target, int) and target < len(self.components) else str(target)

    def named(self, entry: Entry) -> str:
        """A call and its reply, with names next to numbers."""
        op, last = entry.op, line_of(entry)
        if op.verb == "start":
            args = " ".join(map(self.component, op.args))
            return f"start {self.component(op.target)} run {self.run(op.run)}{' with ' * bool(args)}{args} -> {entry.reply}"
        if not op.named():
            return last
        front = last.partition(" -> ")[0].rpartition(" ")[0]
        return f"{front} {self.component(op.target)} -> {entry.reply}"


# What each error of a deciding call means.
MEANINGS = {"no-component": "a component that the call names does not exist", "not-main": "only run 0 may say any or all",
            "start-main": "the main component is never started", "already-running": "another run is running on the component",
            "not-startable": "the component is killed", "no-behaviour": "there is no such run to start",
            "too-many": "there are as many components as a test case may have", "stuck": "no run can continue"}


def reasons(block: Block, at: int) -> List[str]:
    """What the caller of this entry said: the last remark since its entry before, and the first until its next one."""
    caller, own = block.entries[at].caller, [place for place, it in enumerate(block.entries) if it.caller == block.entries[at].caller]
    first, last = max([it + 1 for it in own if it < at], default=0), min([it for it in own if it > at], default=len(block.entries))
    said = [(place, it.text) for place, it in block.said if it.mark == "#" and it.run == caller]
    return [text for place, text in said if first <= place <= at][-1:] + [text for place, text in said if at < place <= last][:1]


def bare_case(name: str, end: str) -> Told:
    """What a form prints of a test case of which there is no block: `missing`, or `not run` if it comes after the last that was run."""
    told = Told(Block("history 2", name, 1, [], 0, "none"))
    told.text, told.locals, told.components, told.end, told.message = [], [], [], end, MESSAGES.get(end, end)
    return told


def blocks_of(text: bytes) -> List[Told]:
    return [Told(it) for it in legal_blocks(text)]


def status_for(told: List[Told]) -> int:
    return max(status_of("error" if it.end in MESSAGES else it.end) for it in told)


def text_of(told: List[Told], ending: str = "complete") -> bytes:
    """The text report, of the test cases that have a block."""
    tally = counts_of(*(it.verdict for it in told if it.text))
    return as_lines(*(line for it in told for line in it.text), f"{tally}{ending}")


def csv_of(told: List[Told]) -> bytes:
    records = ([it.name, str(len(it.locals)), *(str(it.locals.count(v)) for v in VERDICTS), it.end] for it in told)
    return CSV_HEADER.encode() + as_lines(*map(",".join, records))


def wrapped(verdict: str, components: List[str]) -> List[str]:
    """The components with a local verdict, in lines of 78 columns that each end with a comma but the last."""
    lines = [f"  {verdict}: {components[0]}"]
    room = 67 - len(components[0])
    for it in components[1:]:
        if len(it) + 2 > room:
            lines[-1] += ","
            lines.append(f"    {it}")
            room = max(0, 73 - len(it))
        else:
            lines[-1] += f", {it}"
            room -= len(it) + 2
    return lines


def locals_of(it: Told) -> List[str]:
    """The components by their local verdicts."""
    found = ((verdict, [name for name, local in zip(it.components, it.locals) if local == verdict]) for verdict in reversed(VERDICTS))
    return [line for verdict, names in found if names for line in wrapped(verdict, names)]


def junit_of(told: List[Told], version: str, name: str = "ttrun") -> bytes:
    """The JUnit report, byte by byte."""
    kinds = [ELEMENTS.get(it.end, ("",))[0] for it in told]
    counts = f' tests="{len(told)}" failures="{kinds.count("failure")}" errors="{kinds.count("error")}" skipped="{kinds.count("skipped")}"'
    lines = ['<?xml version="1.0" encoding="UTF-8"?>', f"<testsuites{counts}>", f'<testsuite name="{name}"{counts}>',
             "<properties>", f'<property name="version" value="{version}"/>', "</properties>"]
    for it in told:
        lines.append(f'<testcase name="{it.name}" classname="{name}">')
        element, kind = ELEMENTS.get(it.end, ("", ""))
        if kind in MESSAGES:
            lines.append(f'<{element} type="{kind}" message="{it.message}"/>')
        elif kind:
            message = "".join(ESCAPES.get(byte, byte) for byte in it.why())
            lines += [f'<{element} type="{kind}" message="{message}">', message, *it.waits, *it.lines, f"</{element}>"]
        elif element:
            lines.append(f'<{element} message="{it.message}"/>' if it.message else f"<{element}/>")
        lines += ["<system-out>", *locals_of(it), "</system-out>", "</testcase>"]
    return as_lines(*lines, "</testsuite>", "</testsuites>")


def summary_of(told: List[Told]) -> bytes:
    """The summary, byte by byte."""
    ends = [it.end for it in told]
    lines = [counts_of(*ends)[:-1], *(f"{it} {ends.count(it)}" for it in MESSAGES if it in ends)]
    for it in told:
        if it.end in VERDICTS[:2]:
            continue
        lines += ["", f"{it.name}: {it.end}"]
        if it.end in VERDICTS:
            lines += [f"  {it.why()}", *it.waits, *(["  after:"] if it.before else []), *(f"  {line}" for line in it.before)]
        lines += locals_of(it)
    return as_lines(*lines)


def faults_of_element(element: ElementTree.Element) -> Iterator[str]:
    """Why an element is none of the schema."""
    if element.tag not in SCHEMA:
        yield f"an element {element.tag}"
        return
    attributes, inside = SCHEMA[element.tag]
    if tuple(it for it in element.attrib if it not in OPTIONAL.get(element.tag, ())) != attributes:
        yield f"{element.tag} has the attributes {list(element.attrib)}"
    if not re.fullmatch(inside, " ".join(it.tag for it in element)):
        yield f"{element.tag} has {[it.tag for it in element]}"
    if element.tag not in WITH_TEXT and (element.text or "").strip():
        yield f"{element.tag} has the text {element.text!r}"
    for it in element:
        yield from faults_of_element(it)


def faults_of_counts(suite: ElementTree.Element) -> Iterator[str]:
    """Counts of a suite that are not those of its elements."""
    wanted = {"tests": suite.findall("testcase"), "failures": suite.findall("testcase/failure"),
              "errors": suite.findall("testcase/error"), "skipped": suite.findall("testcase/skipped")}
    for name, found in wanted.items():
        if suite.get(name) != str(len(found)):
            yield f"{name} is {suite.get(name)}, and there are {len(found)}"


def faults_of_junit(text: bytes) -> List[str]:
    """Why a text is no JUnit report by the schema, read by Python's own reader."""
    root = ElementTree.fromstring(text)
    faults = list(faults_of_element(root)) + ([] if root.tag == "testsuites" else [f"the root is {root.tag}"])
    for suite in root.findall("testsuite"):
        faults += faults_of_counts(suite)
        faults += [f"the suites' {it} differs" for it in ("tests", "failures", "errors", "skipped") if suite.get(it) != root.get(it)]
    return faults


def version_in(text: bytes) -> str:
    found = ElementTree.fromstring(text).find("testsuite/properties/property[@name='version']")
    return "" if found is None else found.get("value") or ""


MARK = b'<script type="text/plain" id="history">'
# What a page has for `<`.
INSTEAD = "\u2039"


def page_of(text: bytes) -> bytes:
    return bytes_of("page/viewer.html").replace(MARK, MARK + text.replace(b"<", INSTEAD.encode()))


class PageReader(HTMLParser):
    """Reads a page, and keeps what its element of the text holds."""

    def __init__(self) -> None:
        super().__init__(convert_charrefs=True)
        self.held: List[str] = []
        self.is_within = False

    def handle_starttag(self, tag: str, attrs: List[Tuple[str, Optional[str]]]) -> None:
        if tag == "script" and ("id", "history") in attrs:
            self.is_within = True
            self.held.append("")

    def handle_endtag(self, tag: str) -> None:
        if tag == "script":
            self.is_within = False

    def handle_data(self, data: str) -> None:
        if self.is_within:
            self.held[-1] += data


def faults_of_page(page: bytes, text: bytes) -> List[str]:
    """Why a page does not hold the text in one element, byte by byte."""
    reader = PageReader()
    reader.feed(page.decode())
    reader.close()
    return [] if [it.replace(INSTEAD, "<") for it in reader.held] == [text.decode("ascii")] else [f"the page holds {[it[:100] for it in reader.held]}"]


def faults_of_report(program: str, form: str, text: bytes) -> List[str]:
    told = blocks_of(text)
    return faults_of_forms(form, told, text, answer(program, text, "report", f"--{form}"), b"", status_for(told))


def faults_of_forms(form: str, told: List[Told], text: bytes, ran: Ran, errors: bytes, status: int) -> List[str]:
    """What is wrong with a report of these test cases, whose blocks are this text, with these lines on standard error."""
    faults: List[str] = []
    if form == "html":
        wanted, faults = page_of(text), faults_of_page(ran.output, text)
    elif form == "junit":
        version = version_in(ran.output)
        wanted, faults = junit_of(told, version), faults_of_junit(ran.output) + ([] if version else ["it tells no version"])
        read = [it.get("message") for it in ElementTree.fromstring(ran.output).iter() if it.tag in ("failure", "error")]
        faults += [] if read == [it.why() for it in told if ELEMENTS.get(it.end, ("", ""))[1]] else [f"a reader of XML finds {read}"]
    else:
        wanted = {"text": text_of, "csv": csv_of, "summary": summary_of}[form](told)
    return faults + faults_in(Ran(wanted, errors, status), ran)


def faults_of_each_form(program: str, text: bytes) -> List[str]:
    return [fault for form in FORMS for fault in faults_of_report(program, form, text)]


def faults_of_one_run(program: str, stem: str) -> List[str]:
    return faults_of_each_form(program, answer(program, examples.bytes_of(f"{stem}.script"), "run", "--history").output)


def faults_as_run(program: str, stem: str) -> List[str]:
    """Of a script whose verdicts are the same in each run: the forms of `run` and of `report` are the same."""
    script = examples.bytes_of(f"{stem}.script")
    text = answer(program, script, "run", "--evidence").output
    faults: List[str] = []
    for form in ("--csv", "--junit"):
        ran = answer(program, script, "run", form)
        faults += faults_in(Ran(ran.output, b"", ran.status), answer(program, text, "report", form))
    report = answer(program, script, "run")
    if stem == "verdicts":  # the calls of whose runs are the same in each
        faults += faults_in(report, answer(program, answer(program, script, "run", "--evidence").output, "report", "--text"))
    found = re.search(rb"(?m)^cases (\d+) none (\d+) pass (\d+) inconc (\d+) fail (\d+) error (\d+)$", report.output)
    tally = dict(zip(("cases", *VERDICTS), map(int, found.groups())))
    suite = ElementTree.fromstring(ran.output).find("testsuite")
    counts = {"tests": tally["cases"], "failures": tally["inconc"] + tally["fail"], "errors": tally["error"], "skipped": tally["none"]}
    return faults + [f"{name}: {suite.get(name)}, and the text report has {count}" for name, count in counts.items() if suite.get(name) != str(count)]


def spoiled(text: bytes) -> List[bytes]:
    """Texts of histories that are refused: by a line that is none, a reply or a verdict of another table, a part cut off."""
    lines = text.split(b"\n")[:-1]
    ends = [at for at, it in enumerate(lines) if it.startswith(b"end ")]
    found = [b"", text[:-1].rpartition(b"\n")[0] + b"\n", b"history 3" + text[9:], text + b"x\n"]
    for at, line in enumerate(lines):
        if line.endswith(b" -> ok"):
            found.append(b"\n".join([*lines[:at], line[:-2] + b"matched", *lines[at + 1:], b""]))
    for at in ends:
        for verdict in VERDICTS:
            found.append(b"\n".join([*lines[:at], b"end " + verdict.encode(), *lines[at + 1:], b""]))
    return [it for it in found if it == b"" or check(it).status != 0]


def faults_of_refusals(program: str, name: str, fewest: int) -> List[str]:
    """What `check` refuses is refused with its line, and nothing is written."""
    texts = spoiled(examples.bytes_of(name))
    faults = [] if len(texts) >= fewest else [f"{len(texts)} texts are fewer than {fewest}"]
    for text in texts:
        checked = answer(program, text, "check")
        line = checked.errors or b"ttrun: " + checked.output.splitlines(keepends=True)[-1]
        faults += [] if checked.status == 3 else [f"check ends with status {checked.status}"]
        for form in FORMS:
            faults += faults_in(Ran(b"", line, 3), answer(program, text, "report", f"--{form}"))
    return faults


def random_block(source: random.Random, number: int) -> Tuple[str, str]:
    """A legal history of random calls, with its kind: its overall verdict, or that it is not over."""
    behaviours = source.randint(1, 4)
    table = Table(behaviours)
    lines: List[str] = []
    for _ in range(source.randint(0, 12)):
        runs = [it for it in table.component_of_run if table.is_going_on(it)]
        if not runs:
            break
        caller = source.choice(runs)
        op = random_op(source, table)
        lines.append(f"{caller} {op.text()} -> {table.play(caller, op)}")
    over = table.components[0].phase != "running"
    text = as_lines(f"history 2 t{number} {behaviours}", *lines, f"end {table.overall()}").decode()
    return text, table.overall() if over else "unfinished"


def random_op(source: random.Random, table: Table) -> Op:
    """A call, usually no error."""
    comp = source.randrange(len(table.components))
    run_ = source.randrange(table.behaviours)
    return source.choice([Op("create", alive=source.random() < 0.5, name=source.choice(["", "pump"])), Op("create"), Op("start", comp, run=run_),
                          Op("stop", comp), Op("kill", comp), Op("setverdict", verdict=source.choice(VERDICTS[:4])),
                          *(Op("setverdict", verdict=source.choice(VERDICTS[1:4])) for _ in range(4)), Op("getverdict"), Op("finish"),
                          Op("alive", comp), Op("wait", comp, awaited="done")])


def faults_of_random_histories(program: str, seed: int) -> List[str]:
    source = random.Random(seed)
    blocks = [random_block(source, it) for it in range(RANDOM_BLOCKS)]
    text = "".join(it for it, _ in blocks).encode()
    messages = "\n".join(it.message for it in blocks_of(text))
    met = Counter(kind for _, kind in blocks)
    met["two components"] = sum("-> made 1" in it for it, _ in blocks)
    met.update({it: messages.count(it) for it in (": setverdict ", "-> error ")})
    one_by_one = [fault for one, _ in blocks[:40] for fault in faults_of_each_form(program, one.encode())]
    return below(met, FLOORS) + faults_of_each_form(program, text) + one_by_one


def judgements(seed: int) -> List[Judgement]:
    return [Judgement("report_of_random_histories", f"ttrun report, seed {seed}", faults_of_random_histories, (seed,))]


# Histories whose forms are made here too: creates with and without a name, starts with arguments, waits and stops; kills and
# stops of one and of all, a verdict that came too late, a dynamic error, a stop of the test case, a test case that is not over.
DRAWN = {
    "one_test_case": text(
        "history 2 t_supervised 3;0 create named link -> made 1;0 create alive -> made 2;0 start 2 1 1 -> ok;1 wait done 1 -> parked;"
        "0 start 1 2 2 1 -> ok;2 alive 0 -> true;0 wait done 1 -> parked;2 stop 2 -> ok;1 wake done 1 -> ended;"
        "2 setverdict inconc -> ok;2 finish -> ok;0 wake done 1 -> matched;0 done 2 -> true;0 finish -> ok;end inconc"),
    "three_test_cases": text(
        "history 2 a 2;0 create -> made 1;0 start 1 1 -> ok;0 kill 1 -> ok;1 setverdict fail -> ended;0 stop all -> ok;"
        "0 kill all -> ok;0 wait killed all -> matched;0 wait done 1 -> matched;0 start 7 1 -> error no-component;end error;"
        "history 2 b 1;0 setverdict pass -> ok;0 stopcase -> ok;end error;history 2 c 2;0 create -> made 1;0 create -> made 2;"
        "0 start 1 1 -> ok;0 wait done any -> parked;1 wait killed 2 -> parked;end none"),
    "decided_by_components": text(
        "history 2 a 3;0 create named valve -> made 1;0 create alive named pump -> made 2;0 start 2 2 -> ok;0 start 1 1 -> ok;"
        "2 setverdict fail -> ok;1 setverdict fail -> ok;0 finish -> ok;end fail;"
        "history 2 b 2;0 create named valve -> made 1;0 start 1 1 -> ok;0 setverdict fail -> ok;1 stopcase -> ok;end error;"
        "history 2 c 2;0 create -> made 1;0 start 1 1 -> ok;1 setverdict inconc -> ok;0 kill 1 -> ok;1 setverdict fail -> ended;"
        "0 finish -> ok;end inconc;history 2 d 2;0 create named valve -> made 1;0 start 1 1 -> ok;1 alive any -> error not-main;end error"),
}
# Two test cases of many components, whose names have each length.
DRAWN["many_components"] = text(";".join(
    f"history 2 {case} 2;" + ";".join(f"0 create{' named ' + 'n' * (at % 33) if at % 33 else ''} -> made {at}" for at in range(1, most + 1))
    + f";0 start {most} 1 -> ok;1 setverdict {verdict} -> ok;0 finish -> ok;end {verdict}"
    for case, most, verdict in (("a", 999, "fail"), ("b", 70, "inconc"))))
# What a run may say: each byte in turn. Names as long as may be, of each behaviour and of a component; and remarks that are too far away.
EACH_BYTE = "".join(map(chr, range(32, 127)))
DRAWN["a_reason_of_each_byte"] = as_lines("evidence 1 t 1", "behaviour 0 main", f"0 # {EACH_BYTE}", "0 setverdict fail -> ok", "0 # ]]>", "0 finish -> ok", "end fail")
DRAWN["names_of_each_behaviour"] = as_lines(
    "evidence 1 t 256", *(f"behaviour {at} {'n' * 32}" for at in range(256)), f"0 create named {'c' * 32} -> made 1", "0 create -> made 2",
    "0 start 1 255 1 0 2 1 -> ok", "255 wait done 2 -> parked", "0 kill 2 -> ok", "255 wake done 2 -> matched", "255 setverdict inconc -> ok",
    "0 create -> made 3", "0 start 3 256 -> error no-behaviour", "end error")
DRAWN["remarks_far_away"] = text(
    "evidence 1 t 3;0 create named p -> made 1;0 # of another call;0 start 1 1 -> ok;2 # of another run;1 ! refused;1 # first;1 # last;0 # of run 0;"
    "1 setverdict fail -> ok;1 ! refused;0 getverdict -> none;1 # after;1 # more;1 getverdict -> fail;1 # late;0 finish -> ok;end fail")
DRAWN["stuck_in_a_circle"] = text(
    "evidence 1 t 4;behaviour 0 main;behaviour 2 b;0 create named p -> made 1;0 create alive named q -> made 2;0 create -> made 3;0 start 1 1 2 -> ok;"
    "0 start 2 2 1 3 -> ok;0 wait done 1 -> parked;1 wait done 2 -> parked;2 wait killed 3 -> parked;0 wake done 1 -> error stuck;end error")
DRAWN["names_of_some"] = text("evidence 1 t 2;behaviour 1 probe;0 create -> made 1;0 start 1 1 -> ok;1 stop all -> error not-main;end error")
UNFINISHED = b"history 2 t 1\n0 create -> made 1\n0 setverdict pass -> ok\nend pass\n"


def faults_of_a_named_suite(program: str, name: str) -> List[str]:
    """The JUnit reports of a script and of its histories, in a suite of this name."""
    script, history = (examples.bytes_of(f"verdicts.{it}") for it in ("script", "history"))
    faults: List[str] = []
    for words, given, text in ((("run", "--junit", "--suite", name), script, answer(program, script, "run", "--evidence").output),
                               (("report", f"--suite={name}", "--junit"), history, history)):
        told, ran = blocks_of(text), answer(program, given, *words)
        faults += faults_in(Ran(junit_of(told, version_in(ran.output), name), b"", 2), ran) + faults_of_junit(ran.output)
    return faults


def of_form(name: str, form: str, given: bytes) -> Judgement:
    return Judgement(f"report_of_{name}_{form}", f"ttrun report --{form}", faults_of_report, (form, given))


# Which test cases are chosen, with what is added to the script.
CHOICES: Tuple[Tuple[Tuple[str, ...], str], ...] = (
    ((), ""), (("--shard", "1/2"), ""), (("--shard=2/2",), ""), (("--shard", "5/5"), ""), (("--only", "t_*"), ""), (("--only", "t_error", "--only", "*c"), ""),
    (("--only", "t_*r", "--shard", "1/1"), ""), (("--failed",), "verdicts.history"), (("--failed", "--shard", "2/3"), "verdicts.history"))
# How many test cases are skipped in all of them, for each verdict at which they stop.
SKIPPED = {"none": 11, "pass": 11, "inconc": 8, "fail": 3, "error": 0}


def judge_report(program: str, choice: Tuple[str, ...], verdict: str, given: bytes) -> Tuple[List[str], int]:
    """What is wrong with the JUnit report of a run up to this verdict, and how many test cases it skips."""
    words = (*choice, "--stop-on", verdict)
    ran, histories = answer(program, given, "run", "--junit", *words), answer(program, given, "run", "--evidence", *words)
    names = answer(program, given, "run", "--list", *choice).output.decode().split()
    told = blocks_of(histories.output) if histories.output else []
    unrun = names[len(told):]
    faults = [f"{it.name} was run as {name}" for it, name in zip(told, names) if it.name != name]
    wanted = junit_of(told + [bare_case(it, "not run") for it in unrun], version_in(ran.output))
    faults += faults_in(Ran(wanted, b"", histories.status), ran) + faults_of_junit(ran.output)
    skipped = [it.get("name") for it in ElementTree.fromstring(ran.output).iter("testcase") if it.find("skipped[@message='not run']") is not None]
    return faults + ([f"{skipped} are skipped, and {unrun} were not run"] if skipped != unrun else []), len(skipped)


def faults_after(program: str, verdict: str) -> List[str]:
    """The test cases of `examples/verdicts.script`, chosen in each way, up to the first of this verdict or a worse one."""
    faults, all_skipped = [], 0
    for choice, behind in CHOICES:
        given = examples.bytes_of("verdicts.script") + (examples.bytes_of(behind) if behind else b"")
        found, skipped = judge_report(program, choice, verdict, given)
        faults += [f"{' '.join(choice)}: {it}" for it in found]
        all_skipped += skipped
    return faults + ([] if all_skipped == SKIPPED[verdict] else [f"{all_skipped} are skipped"])


# The times of a JUnit report: those of the suite, and that of a test case.
SUITE_TIMES = re.compile(rb' timestamp="(\d{4}-\d\d-\d\dT\d\d:\d\d:\d\d)" time="(\d+\.\d{3})">')
CASE_TIME = re.compile(rb'(?<= classname="ttrun") time="(\d+\.\d{3})">')


def faults_of_times(program: str, *words: str) -> List[str]:
    """With times a JUnit report is that without, and those of the test cases are as `--progress` has them, within that of the suite."""
    given, began = examples.bytes_of("verdicts.script"), int(time.time())
    plain, ran, kept = (answer(program, given, "run", "--junit", *it, *words) for it in ((), ("--times", "--progress"), ("--times",)))
    (stamp, whole), each = SUITE_TIMES.findall(ran.output)[0], CASE_TIME.findall(ran.output)
    is_now = began <= calendar.timegm(time.strptime(stamp.decode(), "%Y-%m-%dT%H:%M:%S")) <= time.time()
    is_right = is_now and each == re.findall(rb"(?m)^\d+/\d+ \w+ \w+ (\S+) s", ran.errors) and sum(map(float, each)) <= float(whole) + 0.001
    without = Ran(CASE_TIME.sub(b">", SUITE_TIMES.sub(b">", ran.output)), b"", ran.status)
    is_kept = len(CASE_TIME.findall(kept.output)) == len(each)
    return faults_in(plain, without) + ([] if is_right and is_kept else [f"{ran}", f"{kept}"])


def many_skipped(program: str) -> List[str]:
    """The first of a thousand test cases is the last."""
    script = "".join(f"testcase t{it}\nbehaviour main\nend\nend\n" for it in range(1000)).encode()
    faults, skipped = judge_report(program, (), "none", script)
    return faults + ([] if skipped == 999 else [f"{skipped} are skipped"])


def cases() -> Iterator[Union[Case, Judgement]]:
    for it in VERDICTS:
        yield Judgement(f"not_run_after_{it}", f"ttrun run --junit --stop-on {it} < examples/verdicts.script", faults_after, (it,))
    for words in ((), ("--stop-on", "fail"), ("--shard", "2/3"), ("--only", "t_error")):
        yield Judgement(joined("junit_with_times", *words), f"ttrun run --junit --times {' '.join(words)}", faults_of_times, words)
    yield Judgement("not_run_of_a_thousand", "ttrun run --junit --stop-on none", many_skipped)
    names = sorted(os.listdir(examples.FOLDER))
    for stem in (it[: -len(".script")] for it in names if it.endswith(".script")):
        yield Judgement(f"report_of_one_run_{stem}", f"ttrun run --history < examples/{stem}.script | ttrun report", faults_of_one_run, (stem,))
        yield Judgement(f"report_as_run_{stem}", f"ttrun run --csv < examples/{stem}.script", faults_as_run, (stem,))
    for name in (it for it in names if it.endswith(".history")):
        yield Judgement(f"report_of_{name}", f"ttrun report < examples/{name}", faults_of_each_form, (examples.bytes_of(name),))
    for name, fewest in (("verdicts.history", 15), ("restart.history", 10)):
        yield Judgement(f"report_refuses_as_check_{name}", f"ttrun report < examples/{name}, with a change", faults_of_refusals, (name, fewest))
    for name in ("nightly", "A_1", "x" * 32):
        yield Judgement(f"junit_of_the_suite_{name}", f"ttrun report --junit --suite {name}", faults_of_a_named_suite, (name,))
    yield Case("report_of_an_unfinished_history", ("report", "--csv"), UNFINISHED, (CSV_HEADER + "t,2,1,1,0,0,0,unfinished\n").encode(), status=2)
    for form in FORMS:
        words = ("report", f"--{form}")
        yield from (of_form(name, form, given) for name, given in DRAWN.items())
        yield of_form("an_unfinished_history", form, UNFINISHED)
        yield refused(f"report_{form}_on_a_full_device", words, UNFINISHED, "write fault", redirect=">/dev/full")
        yield refused(f"report_{form}_to_nobody", words, UNFINISHED, "write fault", is_broken=True)
        yield refused(f"report_{form}_without_an_input", words, b"", "read fault", redirect="<&-")
        yield refused(f"report_{form}_of_too_long_a_text", words, UNFINISHED * (16_777_216 // len(UNFINISHED) + 1), "input too long")
