"""Every file of examples/: scripts with their reports, tables, histories and what is printed about their test cases, and lists of
moves with their replies. The documents' commands that read one, as they are there, and the guide's that read a script of its own."""
import os
import re
import sys
from dataclasses import replace
from functools import partial
from typing import Dict, Iterator, List, Optional, Set, Tuple, Union

from case import Case, Judgement, Ran, Timed, answer, difference, faults_in, joined
from courses import fault_of_course
from harness import TOP, bytes_of as bytes_at
from script_reader import Campaign, read_script
from texts import Judged, check, read_history, replay, status_of

sys.path.append(os.path.join(TOP, "tests", "claims"))

from sources import output_of, read

FOLDER = os.path.join(TOP, "examples")
# What is in a file of it, by its name.
bytes_of = partial(bytes_at, "examples")
FORMS: Dict[str, Tuple[str, ...]] = {"report": (), "csv": ("--csv",), "history": ("--history",), "junit": ("--junit",)}
# The version in a JUnit report: an example has that of the day it was made.
VERSION = re.compile(rb'(?<=<property name="version" value=")[^"]*')


def status_in(form: str, output: bytes) -> int:
    """The status that belongs to a report, a table or histories, by the verdicts that are there."""
    patterns = {"report": rb"^verdict (\w+)$", "csv": rb",(\w+)$", "history": rb"^end (\w+)$", "junit": rb'type="(\w+)"', "summary": rb"^\w+: (\w+)$"}
    verdicts = [it.decode() for it in re.findall(patterns[form], output, re.M) if it != b"verdict"]
    return max((status_of(it) for it in verdicts), default=0)


def words_of(parts: List[str]) -> Tuple[str, ...]:
    """The words of a run by the parts of a file's name: `NAME.report`, `NAME.csv`, `NAME.stop-on-fail.report` and so on."""
    rules = [it[len("stop-on-"):] for it in parts[1:-1] if it.startswith("stop-on-")]
    assert len(parts) == 2 + len(rules), parts
    return ("run", *FORMS[parts[-1]], *(word for it in rules for word in ("--stop-on", it)))


def campaign_of(stem: str) -> Campaign:
    campaign = read_script(bytes_of(f"{stem}.script"))
    assert not isinstance(campaign, Judged), campaign
    return campaign


def faults_of_history(campaign: Campaign, text: bytes) -> List[str]:
    """Why the text is no history of the first test cases of the campaign."""
    blocks, refused_as = read_history(text)
    if refused_as is not None:
        return [refused_as.errors.decode()]
    faults = filter(None, map(fault_of_course, campaign, blocks))
    return [*faults, *["more histories than test cases"] * (len(blocks) > len(campaign))]


def faults_of_written(program: str, script: bytes, *live: str) -> List[str]:
    """`run --history | check`, live or not: what is written is a history of the script, and is found legal."""
    campaign, ran = read_script(script), answer(program, script, "run", *live, "--history")
    faults = faults_in(Ran(ran.output, b"", status_in("history", ran.output or b"end error")), ran) + faults_of_history(campaign, ran.output)
    if ran.output.count(b"history 2 ") != len(campaign):
        faults.append(f"{len(campaign)} histories are wanted: {ran.output[:300]!r}")
    return faults + faults_in(check(ran.output), answer(program, ran.output, "check"))


def written_is_checked(stem: str, live: Tuple[str, ...] = ()) -> Judgement:
    command = f"ttrun {' '.join(['run', *live, '--history'])} < examples/{stem}.script | ttrun check"
    return Judgement(joined(*live, "written_is_checked", stem), command, faults_of_written, (bytes_of(f"{stem}.script"), *live))


def faults_of_junit_example(program: str, name: str) -> List[str]:
    """A JUnit report of examples/ is that of its script, except for the program's version."""
    wanted = bytes_of(name)
    ran = answer(program, bytes_of(f"{name.partition('.')[0]}.script"), *words_of(name.split(".")))
    return faults_in(Ran(VERSION.sub(b"", wanted), b"", status_in("junit", wanted)), replace(ran, output=VERSION.sub(b"", ran.output)))


def faults_of_folder(_: str, names: List[str]) -> List[str]:
    faults = []
    for name in names:
        stem, suffix = name.partition(".")[0], name.rpartition(".")[2]
        given = {"replies": "moves", "summary": "history", **dict.fromkeys([*FORMS, "progress"], "script")}.get(suffix)
        if given is not None and f"{stem}.{given}" not in names or given is None and suffix not in ("script", "moves"):
            faults.append(f"{name} is no output of an example")
        lacking = {"script": f"{stem}.report", "moves": f"{stem}.replies"}.get(suffix, name)
        faults += [f"{name} lacks {lacking}"] * (lacking not in names)
    return faults


def tests_of(name: str) -> Iterator[Union[Case, Judgement]]:
    stem, suffix, text = name.partition(".")[0], name.rpartition(".")[2], bytes_of(name)
    if suffix == "script":
        yield written_is_checked(stem)
    elif suffix == "moves":
        wanted = replay(text)
        yield Case(f"example_{name}", ("replay",), text, bytes_of(f"{stem}.replies"), status=wanted.status)
        yield Judgement(f"example_by_the_rules_{name}", f"examples/{name}",
                        lambda program: difference("the rules", wanted.output, bytes_of(f"{stem}.replies")))
    elif suffix == "history":
        yield Case(f"example_{name}", ("check",), text, check(text).output)
        yield Judgement(f"history_of_its_script_{stem}", f"examples/{stem}.history", lambda program: faults_of_history(campaign_of(stem), text))
    elif suffix == "junit":
        yield Judgement(f"example_{name}", f"ttrun run --junit < examples/{stem}.script", faults_of_junit_example, (name,))
    elif suffix == "summary":
        yield Case(f"example_{name}", ("report", "--summary"), bytes_of(f"{stem}.history"), text, status=status_in(suffix, text))
    elif suffix == "progress":
        table = bytes_of(f"{stem}.csv")
        yield Case(f"example_{name}", ("run", "--progress", "--csv"), bytes_of(f"{stem}.script"), table, Timed(text), status_in("csv", table))
    elif suffix in ("report", "csv"):
        yield Case(f"example_{name}", words_of(name.split(".")), bytes_of(f"{stem}.script"), text, status=status_in(suffix, text))


GUIDE = "docs/guide.md"
# A line of a shell that prints a script, into a file or into the program.
PRINTED = re.compile(r"printf '(?P<text>[^']*)' (?:> (?P<file>[\w.]+)|\| \./ttrun (?P<words>[^|#]*))$")
# A line of a shell that reads such a file.
READS = re.compile(r"\./ttrun (?P<words>[^<|#]*)< (?P<file>[\w.]+)$")


def shown() -> Iterator[Tuple[int, Tuple[str, ...], bytes, bytes]]:
    """The guide's blocks that show what the program writes of a script of the guide: line, words, script, what is written."""
    scripts: Dict[str, bytes] = {}
    last: Optional[Tuple[Tuple[str, ...], bytes]] = None
    for block in read(TOP, GUIDE).blocks():
        if block.language == "sh":
            last = None
            for line in block.text.splitlines():
                printed, reads = PRINTED.match(line), READS.match(line)
                if printed:
                    script = printed["text"].replace("\\n", "\n").encode()
                    if printed["file"]:
                        scripts[printed["file"]] = script
                    else:
                        last = tuple(printed["words"].split()), script
                elif reads and reads["file"] in scripts:
                    last = tuple(reads["words"].split()), scripts[reads["file"]]
        elif block.language == "" and re.match(r"testcase \w+\nbehaviour ", block.text):
            last = ("explore", "--details"), block.text.encode()
        elif block.language == "" and last is not None:
            yield block.line, *last, block.text.encode()
            last = None


def shown_cases() -> List[Case]:
    """Each such block, byte by byte: an explanation is printed on standard error, details are written."""
    found: List[Case] = []
    for number, words, script, written in shown():
        name = f"{GUIDE}_{number}_{'_'.join(words)}"
        if "--explain" in words:
            found.append(Case(name, words, script, errors=written, status=3))
        else:
            verdicts = set(written.split(b"\n")[0].split()[1:-1])
            found.append(Case(name, words, script, output=written, status=2 if verdicts == {b"error"} else int(len(verdicts) > 1)))
    assert [it.words[1] for it in found] == ["--explain", "--locals", "--details", "--details"], [it.name for it in found]
    return found


def of_documents() -> List[Case]:
    """Each command once. What it prints is the file of examples/ that has its output.

    A history, which may be another at each run, is tested with its script."""
    documents = ["README.md", *(f"docs/{it}" for it in sorted(os.listdir(os.path.join(TOP, "docs"))) if it.endswith(".md"))]
    found: List[Case] = []
    seen: Set[Tuple[Tuple[str, ...], str]] = set()
    for path in documents:
        for number, words, file, _ in read(TOP, path).commands():
            if "--history" in words or "--evidence" in words or (words, file) in seen:
                continue
            seen.add((words, file))
            output = bytes_of(output_of(words, file))
            told = Timed(bytes_of(f"{file.partition('.')[0]}.progress") if "--progress" in words else b"")
            form = "summary" if "--summary" in words else "report" if words[0] in ("run", "replay") and "--csv" not in words else "csv"
            found.append(Case(f"{path}_{number}_{'_'.join(words)}_{file}", words, bytes_of(file), output, told,
                              status_in(form, output)))
    return found + shown_cases()


def cases() -> List[Union[Case, Judgement]]:
    names = sorted(os.listdir(FOLDER))
    whole = Judgement("examples_are_whole", "examples/", faults_of_folder, (names,))
    return [whole, *(test for name in names for test in tests_of(name)), *of_documents()]
