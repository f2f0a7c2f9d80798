"""The commands that the documents show to a shell: they end as is said below them, and leave the files that are named there."""
import os
import re
import shutil
import sys
import xml.etree.ElementTree
from dataclasses import dataclass
from typing import Dict, Iterator, List, Tuple

from room import FAILING, PASSING, RACE, SHELLS, VERDICTS, Room
from sources import Block, Document, read
from harness import TOP, Ran, Skipped, call, copy_checkout, hold, same, tests_of, text_of, wait_for

README, PIPELINES, BENCHES, GUIDE, LIBRARY = "README.md", "docs/pipelines.md", "docs/benches.md", "docs/guide.md", "docs/library.md"
# The status of the failing campaign.
WORST = 2
LEAVES = re.compile(r"It leaves (?P<names>.*?)(?: in the folder `(?P<folder>\w+)`)?, and ends with (?P<end>the status of the run|\d)\.")
# How many blocks there are, how many a reader of the guide types, and of the bench in bash.
FEWEST_BLOCKS, FEWEST_OF_THE_GUIDE, FEWEST_OF_THE_BENCH = 6, 7, 2
# The crate that is copied, the copy, and how many names the table has of the crates and of std.
COPIED, COPY, FEWEST_NAMES = "car_window", "my_bench", 30
STD = {"std::sync": ("Wait", "Arc"), "std::thread": ("Threads",)}
# What is there if a shell has come to the last line of a block.
REACHED = "reached"


@dataclass
class Step:
    """A block of commands, with what is said below it: the files that it leaves, and its status, or that it is that of the run."""

    line: int
    text: str
    names: List[str]
    end: str


def step_of(document: Document, block: Block) -> Step:
    """A block, by the paragraph below it."""
    rest = "\n".join(document.lines[block.line - 1 + block.text.count("\n") + 1:]).lstrip("\n")
    said = LEAVES.match(" ".join(rest.split("\n\n")[0].split()))
    hold(said is not None, f"{document.path}:{block.line}: below this block stands nothing of what it leaves")
    names = [f"{said['folder']}/{it}" if said["folder"] else it for it in re.findall(r"`([^`]+)`", said["names"])]
    return Step(block.line, block.text, names, said["end"])


def sections() -> Dict[str, List[Step]]:
    """The headings of the pipelines with the blocks for a shell below each, which run one after the other in one folder."""
    document, found = read(TOP, PIPELINES), {}
    heads = [(number, title) for number, title, depth in document.headings() if depth == 2]
    for block in document.blocks():
        if block.language == "sh":
            title = max(it for it in heads if it[0] < block.line)[1]
            found.setdefault(title, []).append(step_of(document, block))
    return found


def step(title: str, name: str) -> Step:
    """The block of a section that leaves a file of this name."""
    found = [it for it in sections()[title] if name in it.names]
    hold(len(found) == 1, f"{PIPELINES}: {len(found)} blocks of {title!r} leave {name}")
    return found[0]


def hold_junit(room: Room, name: str, cases: List[str]) -> None:
    """Holds a JUnit report to these test cases, and to counts that agree with its elements."""
    suite = xml.etree.ElementTree.fromstring(room.text(name)).find("testsuite")
    hold(sorted(it.get("name") for it in suite.findall("testcase")) == sorted(cases), f"{name}: {room.text(name)}")
    counts = {kind: len(suite.findall(f"testcase/{element}")) for kind, element in (("failures", "failure"), ("errors", "error"))}
    hold({it: int(suite.get(it)) for it in counts} == counts, f"{name}: {counts}")


def hold_page(room: Room, name: str, cases: List[str]) -> None:
    """Holds a page to the histories of these test cases."""
    text = room.text(name)
    hold(text.lower().startswith("<!doctype html"), f"{name} is no page")
    hold(all(f"\nhistory 2 {it} " in text or f">history 2 {it} " in text for it in cases), f"{name} lacks a test case")


def hold_left(room: Room, names: List[str], cases: List[str], status: int) -> None:
    """Holds each file that is left to what its name says."""
    for name in names:
        last = os.path.basename(name)
        if last.endswith(".xml"):
            hold_junit(room, name, cases)
        elif last.endswith(".html"):
            hold_page(room, name, cases)
        elif last in ("run.history", "run.evidence"):
            same(sorted(cases), sorted(room.judged(name)), name)
        elif last == "run.status":
            same(f"{status}\n", room.text(name), name)
        elif last == "run.log":
            hold(status == 0 or "failed: " in room.text(name), f"{name}: {room.text(name)}")
        elif last == "run.program":
            hold(re.fullmatch(r"[0-9a-f]{40,64}\nthe toolchain of the tests\n", room.text(name)), f"{name}: {room.text(name)}")
        elif last == "run.sums":
            same(0, call(["sha256sum", "--check", "--quiet", "--strict", last], cwd=os.path.dirname(room.path(name))).status, f"{name} does not hold")
            same({os.path.basename(it) for it in names} - {last}, {it.split()[1] for it in room.text(name).splitlines()}, name)
        hold(os.path.getsize(room.path(name)) > 0 or name == "part.again.history" and status == 0, f"{name} is empty")


def run_all(above: Room, shell: str, script: str, cases: List[str], worst: int) -> int:
    """Runs the blocks of all sections, each section in a repository of its own, with a campaign that ends so. Each block leaves just
    what is said. Returns how many there are."""
    count = 0
    for number, (title, steps) in enumerate(sections().items()):
        room = Room(above.path(f"{shell}{number}"), above.program, script)
        if title.startswith("Where"):
            room.add_archive()
        room.commit()
        for part in steps:
            before, count, where = room.files(), count + 1, f"{PIPELINES}:{part.line}, by {shell}"
            ran = room.shell(SHELLS[shell], part.text)
            # The search for races stops at a test case that can only end with error.
            ends = 2 if part.names == ["races.txt"] and "stopcase" in script else int(part.end) if part.end.isdigit() else worst
            same(ends, ran.status, f"{where}: {ran}")
            left = sorted(name for name, content in room.files().items() if before.get(name) != content)
            same(sorted(part.names), left, f"what {where} leaves")
            hold_left(room, part.names, cases, worst)
    return count


def typed_blocks(path: str) -> Iterator[Tuple[int, str, List[str]]]:
    """The blocks of a document that a reader types into a shell, each with the files that it writes."""
    for block in read(TOP, path).blocks():
        if block.language == "sh":
            yield block.line, block.text, re.findall(r"(?m) > ([\w.]+)(?: |$)", block.text)


def typed(room: Room, shell: str, where: str, text: str) -> Ran:
    """Runs a block in a shell that ends at the first command that fails. It comes to its last line, and prints what is said next to a
    command as `# NAME VERDICT .. complete`."""
    *before, last = text.rstrip("\n").split("\n")
    ran = room.shell(SHELLS[shell], "\n".join([*before, f": > {REACHED}", last, ""]))
    hold(os.path.exists(room.path(REACHED)), f"{where}, by {shell}: it ends before its last line: {ran}")
    os.remove(room.path(REACHED))
    said = re.findall(r"(?m) # (\w+ .*complete)$", text)
    hold(all(it in ran.output.splitlines() for it in said), f"{where}, by {shell}: {said} is wanted: {ran}")
    return ran


def run_by_jobs(room: Room, program: str, probe: str) -> str:
    """Runs the block that gives the shards to a program, if that is installed and answers, until there is a report."""
    if not shutil.which(program) or call(probe.split()).status:
        raise Skipped(f"there is no {program} that works")
    room.write("make-report", step("Shards", "run.html").text)
    ran = room.shell(SHELLS["github"], next(it.text for it in read(TOP, PIPELINES).blocks() if it.language == "shell" and f"{program} -" in it.text))
    wait_for(lambda: os.path.exists(room.path("run.xml")) and room.text("run.xml").endswith("</testsuites>\n"), f"{ran}")
    hold_left(room, ["run.history", "run.html", "run.summary", "run.xml"], list(VERDICTS), WORST)
    return f"{len(VERDICTS)} test cases"


class Blocks(Room):
    """What the documents show, typed into shells."""

    def every_block_on_a_campaign_that_fails(self) -> str:
        count = sum(run_all(self, shell, FAILING, list(VERDICTS), WORST) for shell in SHELLS)
        hold(count >= FEWEST_BLOCKS * len(SHELLS), f"{count} blocks")
        return f"{count} blocks"

    def every_block_on_a_campaign_that_passes(self) -> str:
        return f"{run_all(self, 'github', PASSING, ['t_pass', 't_waits'], 0)} blocks"

    def a_step_that_runs_out_of_time(self) -> str:
        part = step("One step that keeps what it saw", "run.history")
        ran = self.shell(SHELLS["github"], part.text, CUT="--live")
        hold(ran.status == 124, ran)
        hold_left(self, part.names, ["t_pass"], 124)
        return "one test case was kept"

    def a_step_on_a_script_that_is_refused(self) -> str:
        self.write("campaign.script", "testcase t\nend\n")
        part = step("One step that keeps what it saw", "run.history")
        ran = self.shell(SHELLS["github"], part.text)
        hold(ran.status == 3 and "ttrun: line 2: not allowed here" in ran.errors, ran)
        hold(not self.text("run.history") and not self.text("run.xml"), "something was written")
        return ran.errors.splitlines()[0]

    def a_step_that_keeps_races_out(self) -> str:
        text = step("One step that keeps what it saw", "races.txt").text
        for script, status, said in ((PASSING + RACE, 1, "t_race none fail complete"), (FAILING, 2, "t_error error complete")):
            self.write("campaign.script", script)
            ran = self.shell(SHELLS["github"], text)
            hold(ran.status == status and said in ran.output and (status == 2 or "alike for" in ran.output), ran)
        return "its log says why, of a race and of an error"

    def evidence_of_a_release(self) -> str:
        """Neither git nor rt says what ran, but the manifest."""
        keep, check = sections()["Evidence"]
        said = re.search(r"begin with `(program=[^`]*)`", " ".join(read(TOP, PIPELINES).lines))[1]
        first, _, rest = keep.text.partition("\n")
        hold(first.startswith("program="), first)
        self.write("MANIFEST", "ttrun 1.2.3\ncommit of a release\n")
        ran = self.shell(SHELLS["gitlab"], f"{said}\n{rest}")
        hold(ran.status == WORST and self.text("evidence/run.program") == self.text("MANIFEST"), ran)
        hold(self.shell(SHELLS["gitlab"], check.text).status == 0, "it is not found right later")
        return "a manifest"

    def evidence_of_a_campaign_that_runs_out_of_time(self) -> str:
        keep, check = sections()["Evidence"]
        self.commit()
        hold(self.shell(SHELLS["github"], keep.text, CUT="--live").status == 124, "how it ends")
        hold(self.text("evidence/run.status") == "124\n" and self.judged("evidence/run.evidence") == ["t_pass"], "what is kept")
        ran = self.shell(SHELLS["github"], check.text)
        hold(ran.status == 3 and self.text("run.judged").count("missing t_") == len(VERDICTS) - 1, ran)
        return "the test cases that are missing are named"

    def evidence_that_was_changed(self) -> str:
        parts = sections()["Evidence"]
        hold(len(parts) == 2, f"{len(parts)} blocks")
        for name, old, new in (("run.evidence", "end fail", "end pass"), ("campaign.script", "setverdict fail", "setverdict pass"),
                               ("run.status", "2", "0")):
            it = Room(self.path(f"changed-{name}"), self.program)
            it.commit()
            hold(it.shell(SHELLS["github"], parts[0].text).status == WORST, "it is kept")
            hold(old in it.text(f"evidence/{name}"), f"{name} has no {old}")
            it.write(f"evidence/{name}", it.text(f"evidence/{name}").replace(old, new))
            hold(it.shell(SHELLS["github"], parts[1].text).status != 0, f"{name} was changed, and nobody sees it")
        return "3 changes"

    def commands_in_the_text(self) -> str:
        """The command that the text of the pipelines shows: a pipe whose status is that of the last program."""
        (pipe,) = [it for line in read(TOP, PIPELINES).lines for it in re.findall(r"`([^`]*\| \./ttrun [^`]*)`", line)]
        for words, status in ((("bash", "-e"), 0), (("bash", "-eo", "pipefail"), WORST)):
            ran = self.shell(words, pipe)
            hold(ran.status == status and ran.output.count("legal ") == len(VERDICTS), f"{pipe}: {ran}")
        return pipe

    def shards_that_are_torn(self) -> str:
        """One has a block twice and is torn in another, one was killed, one is empty: the others are reported, and the rest is run again."""
        shards, report, again = sections()["Shards"]
        hold(self.shell(SHELLS["github"], shards.text).status == 0, "the shards")
        torn, killed = (self.text(f"part.{it}.history") for it in (1, 2))
        self.write("part.1.history", "history 2 t_pass 1\n0 finish -> ok\nend none\n" + torn[:torn.index("stopcase") + 4])
        self.write("part.2.history", killed[:killed.index("history", 9)]), self.write("part.3.history", "")
        ran = self.shell(SHELLS["github"], report.text)
        hold(ran.status == 3 and "torn t_error\n" in ran.errors and "t_fail: fail\n" in ran.output, f"{ran}")
        hold_junit(self, "run.xml", list(VERDICTS)), same(["t_error", "t_none", "t_waits"], sorted(re.findall(r"(?m)^missing (\w+)$", ran.errors)))
        hold_left(self, [it for it in report.names if it != "run.xml"], ["t_pass", "t_inconc", "t_fail"], 3)
        for shell, rest in (("gitlab", "history 2 t_none 1\n0 fini"), ("jenkins", "")):
            hold(self.shell(SHELLS[shell], again.text).status == 0 and self.shell(SHELLS[shell], report.text).status == WORST, "not all are there")
            self.write("part.again.history", self.text("part.again.history") + rest)
        same("inconc fail none error waits none inconc fail error".split(), re.findall(r"(?m)^history 2 t_(\w+)", self.text("part.again.history")))
        hold_left(self, report.names, list(VERDICTS), WORST), same(list(VERDICTS), self.judged("run.history"), "not as in the script")
        hold(self.shell(SHELLS["gitlab"], shards.text).status == 0 and not os.path.exists(self.path("part.again.history")), "the last night is taken for this one")
        self.shell(SHELLS["github"], "rm part.*"), same([3, 3], [self.shell(SHELLS[it], report.text).status for it in ("github", "jenkins")], "no shard left a file")
        return "3 shards"

    def a_job_array_of_slurm(self) -> str:
        return run_by_jobs(self, "sbatch", "sinfo")

    def shards_by_gnu_parallel(self) -> str:
        return run_by_jobs(self, "parallel", "parallel --version")

    def blocks_of_the_guide(self) -> str:
        found = list(typed_blocks(GUIDE))
        hold(len(found) >= FEWEST_OF_THE_GUIDE, f"{len(found)} blocks")
        for shell in SHELLS:
            it = Room(self.path(shell), self.program)
            shutil.copytree(os.path.join(TOP, "examples"), it.path("examples"))
            for line, text, names in found:
                ran = typed(it, shell, f"{GUIDE}:{line}", text)
                hold(not ran.errors or "--explain" in text, f"{GUIDE}:{line}: {ran}")
                hold_left(it, names, list(VERDICTS), WORST)
            hold(it.judged("again.history") == ["t_inconc", "t_fail", "t_error"], "not those that failed are run again")
        return f"{len(found)} blocks in {len(SHELLS)} shells"

    def no_block_of_the_guide_runs_all_again_where_nothing_failed(self) -> str:
        self.write("campaign.script", PASSING)
        for _, text, _ in typed_blocks(GUIDE):
            if "campaign.script" in text:
                self.shell(SHELLS["github"], text)
        hold(os.path.isfile(self.path("run.xml")) and not self.text("again.history"), "some are run again")
        return "none"

    def blocks_of_the_bench(self) -> str:
        """The bench in bash fails its test case, and the blocks that read its evidence come to their ends."""
        found = list(typed_blocks(BENCHES))
        hold(len(found) >= FEWEST_OF_THE_BENCH, f"{len(found)} blocks")
        for shell in SHELLS:
            it = Room(self.path(shell), self.program)
            it.write("heater.sh", next(block.text for block in read(TOP, BENCHES).blocks() if block.language == "bash"))
            for line, text, names in found:
                ran = typed(it, shell, f"{BENCHES}:{line}", text)
                hold(ran.status == 1 and not ran.errors, f"{BENCHES}:{line}, by {shell}: {ran}")
                hold(all(os.path.getsize(it.path(name)) > 0 for name in names), f"{BENCHES}:{line}: {names}")
            hold_junit(it, "run.xml", ["t_heater"])
        return f"{len(found)} blocks in {len(SHELLS)} shells"

    def the_race_of_the_readme(self) -> str:
        """Its script, and its commands on it, one of which is said to print a line. A wait for the worker leaves one verdict."""
        document, text = read(TOP, README), " ".join(read(TOP, README).lines)
        self.write("race.script", next(block.text for block in document.blocks() if block.text.startswith("testcase t\n")))
        commands = re.findall(r"`(\./ttrun [^`]*race\.[^`]*)`", text)
        hold(len(commands) == 2, f"{README}: {commands}")
        first, page = (self.shell(("bash",), one) for one in commands)
        hold(first.status == 1 and f"`{first.output.strip()}`" in text and first.output == "t none fail complete\n", f"{first}")
        hold(not page.output and not page.errors, f"{page}")
        hold_page(self, "race.html", ["t"])
        self.write("race.script", self.text("race.script").replace("  start p worker\n", "  start p worker\n  wait done p\n"))
        second = self.shell(("bash",), commands[0])
        hold(second.status == 0 and f"`{second.output.strip()}`" in text and second.output == "t fail complete\n", f"{second}")
        return "3 commands"

    def the_bench_of_the_readme(self) -> str:
        """Its file, and the command below it, which is said to print a word."""
        file, command = (next(it.text for it in read(TOP, README).blocks() if it.language == language and has in it.text)
                         for language, has in (("python", "Server"), ("sh", "bench.py")))
        self.write("bench.py", file)
        os.symlink(os.path.join(TOP, "clients"), self.path("clients"))
        ran, printed = self.shell(("bash",), command), re.search(r"# prints (\w+)$", command, re.MULTILINE)[1]
        same((f"{printed}\n", "", 0), (ran.output, ran.errors, ran.status))
        return printed

    def the_model_of_a_bench(self) -> str:
        """Its script is made of the lines of the bench with two behaviours. It has the line that is shown, and another one without the wait."""
        document, text = read(TOP, BENCHES), " ".join(read(TOP, BENCHES).lines)
        script = next(block.text for block in document.blocks() if block.text.startswith("testcase "))
        wait = re.search(r"Without `([^`]*)` it prints", text)[1]
        hold(script.count(f"  {wait}\n") == 1, f"{BENCHES}: no line {wait}")
        bench = next(block.text for block in document.blocks() if "> two.evidence" in block.text)
        self.write("two.lines", "".join(f"{it}\n" for it in re.findall(r'ask "([^"]*)"', bench)))
        same(script, self.shell(("bash",), "./ttrun serve < two.lines | ./ttrun model").output)
        command = re.search(r"`(\./ttrun explore < two\.script)`", text)[1]
        for given, status in ((script, 0), (script.replace(f"  {wait}\n", ""), 1)):
            self.write("two.script", given)
            ran = self.shell(("bash",), command)
            hold(ran.status == status and f"`{ran.output.strip()}`" in text, f"{BENCHES}: {ran}")
        return "2 scripts"


def exported(crate: str) -> List[str]:
    """The names that a crate's root offers, or a module of it."""
    crate, _, module = crate.partition("::")
    if module:
        return re.findall(r"(?m)^pub fn (\w+)", text_of(f"crates/{crate}/src/{module}.rt"))
    found: List[str] = []
    for names, alone in re.findall(r"pub use [\w:]+::(?:\{([^}]*)\}|(\w+(?: as \w+)?));", text_of(f"crates/{crate}/src/lib.rt")):
        found += [it.split(" as ")[-1].strip() for it in (names or alone).split(",") if it.strip()]
    return found


def rows() -> Dict[str, List[str]]:
    """The table of names: of each crate those that it has."""
    found: Dict[str, List[str]] = {}
    for _, line in read(TOP, LIBRARY).section("Which `use` each name needs"):
        cells = [re.findall(r"`([^`]+)`", it) for it in line.split("|")[1:-1]]
        if len(cells) == 2 and cells[1]:
            found[cells[1][0]] = cells[0]
    return found


class Library(Room):
    """What the document of the library says of names, of the copy to begin with, and of its main, held to the sources."""

    def each_name_is_of_its_crate(self) -> str:
        found = rows()
        for crate, names in found.items():
            there = STD.get(crate) or exported(crate)
            hold(all(it in there for it in names), f"{crate} does not offer {[it for it in names if it not in there]}")
        count = sum(map(len, found.values()))
        hold(count >= FEWEST_NAMES, f"{count} names")
        return f"{count} names"

    def the_main_is_whole(self) -> str:
        main = text_of(f"crates/{COPIED}/src/main.rt")
        code = main[main.index("\nuse crate::"):].strip()
        hold(any(it.language == "rust" and it.text.strip() == code for it in read(TOP, LIBRARY).blocks()), "another main")
        return f"{code.count(chr(10)) + 1} lines"

    def the_copy_is_a_crate_as_the_claims_have_it(self) -> str:
        """Follows the first block in a copy of the repository, up to `rt try`, and asks tests/claims of what is there then."""
        block = next(it for it in read(TOP, LIBRARY).blocks() if it.language == "sh")
        text, last = block.text.partition("cd ")[0], block.text.rstrip("\n").split("\n")[-1]
        hold(last.startswith("rt try"), f"the last line is {last}")
        copy_checkout(self.folder)
        os.remove(self.path("campaign.script"))
        self.commit()
        ran = self.shell(SHELLS["github"], text)
        hold(ran.status == 0, ran)
        wanted = [re.sub(rf"^{COPIED}:", f"{COPY}:", line) for line in text_of("crates.txt").splitlines() if line.startswith(f"{COPIED}:")]
        same(wanted, self.text("crates.txt").splitlines()[-1:], "crates.txt")
        checked = call([sys.executable, self.path("tests/claims/check.py")])
        hold(checked.status == 0, checked.output[-1500:])
        return checked.output.splitlines()[-1]

    def options_of_a_bench_are_taken(self) -> str:
        """Follows the block that gives a bench options, with an rt that runs the one that is copied."""
        bench = os.path.join(TOP, "crates", COPIED, "out", COPIED)
        hold(os.access(bench, os.X_OK), f"there is no program {bench}: `rt run` in its crate builds it")
        block = next(it for it in read(TOP, LIBRARY).blocks() if it.language == "sh" and "bench.history" in it.text)
        self.write(os.path.join(self.bin, "rt"), f'#!/bin/sh\n[ "$1 $2" = "try --" ] || exit 9\nshift 2\nexec {bench} "$@"\n')
        os.makedirs(self.path(f"crates/{COPY}"))
        ran = self.shell(SHELLS["github"], f"cd crates/{COPY}\n{block.text}")
        wrong = [line for line in ran.errors.splitlines() if not line.startswith(("1/1 pinches ", "failed: pinches ", "0 passed, 1 failed"))]
        hold(ran.status == 0 and not wrong, f"{ran}")
        listed = ran.output.splitlines()[:3]
        legal = [line.split()[1] for line in ran.output.splitlines() if line.startswith("legal ")]
        suite, page = (self.text(f"crates/{COPY}/bench.{form}") for form in ("xml", "html"))
        named = re.findall(r'<testcase name="(\w+)"', suite)
        hold(listed == legal == named and len(legal) == 3 and page.startswith("<!DOCTYPE html>"), f"{ran}")
        return f"{len(legal)} test cases"


TESTS = tests_of(Blocks, Library)
