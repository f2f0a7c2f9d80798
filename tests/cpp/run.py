#!/usr/bin/env python3
"""The tests of the C++ client of `ttrun serve`, clients/cpp/filskeam.hpp, over the reference server.

usage: tests/cpp/run.py [--server COMMAND] [--only WORD] [--list]

With --server "library FOLDER", as ./ttrun --library prints it, the tests run over the table in the benches' own process, except
those that are about a server.

The benches are in tests/cpp/bench.cpp; without a compiler of C++ the tests fail, without CMake or GoogleTest some are skipped.
The last line is 'N passed, M failed', with ', K skipped' after it if there are some; the status is 0 if nothing failed,
otherwise 1. With the variable FILSKEAM_CPP the client is taken from that folder.
"""
from __future__ import annotations

import glob
import os
import re
import shutil
import subprocess
import sys
import tempfile
import time
from dataclasses import dataclass, field
from typing import Dict, List, Sequence, Tuple

sys.dont_write_bytecode = True
HERE = os.path.dirname(os.path.abspath(__file__))
sys.path.insert(0, os.path.join(os.path.dirname(HERE), "program"))

import holding
from harness import call
from holding import TESTS, TOP, Fault, ServerRoom, Skipped, blocks_of, hold, legal_evidence, same, text_of, whole_block
from table import Table
from texts import Block

CLIENT = os.environ.get("FILSKEAM_CPP", os.path.join(TOP, "clients", "cpp"))
README = os.path.join(CLIENT, "README.md")
COMPILERS = [it for it in ("g++", "clang++") if shutil.which(it)]
SECONDS = 90
BENCH = os.path.join(HERE, "bench.cpp")
FLAGS = ("-std=c++17", "-O1", "-Wall", "-Wextra", "-Wshadow", "-Werror", "-pthread", f"-I{CLIENT}")
# A server before the server. It holds the answer to one line back until there is that to another, and writes both at once.
HOLDER = """
import subprocess, sys
first, second, *command = sys.argv[1:]
server, answers = subprocess.Popen(command, stdin=subprocess.PIPE, stdout=subprocess.PIPE), []
for line in sys.stdin.buffer:
    server.stdin.write(line)
    server.stdin.flush()
    answers.append(server.stdout.readline())
    line = line.decode().strip()
    first = "" if line == second else first
    if line != first and (len(answers) == 1 or line == second):
        sys.stdout.buffer.write(b"".join(answers))
        sys.stdout.flush()
        answers = []
"""

# The evidence of a test case that sets one verdict.
NEXT = "evidence 1 t_next 256\nbehaviour 0 main\n0 setverdict pass -> ok\n0 finish -> ok\nend pass\n"
# The tests that are about a server in a process of its own, or no bench.
OF_PIPES = ("the_examples_run", "a_project_finds_the_client", "without_a_compiler_nothing_passes", "a_status_that_no_server_has",
            "news_between_a_question_and_its_answer", "a_case_past_its_limit_is_no_pass", "a_server_that_ends_or_writes_nonsense",
            "a_result_says_who_and_why")
# What a bench is linked with for the table in its own process.
IN_PROCESS: List[str] = []
# What starts a server, and writes the number of its process into a file.
NAMED = ("sh", "-c", 'echo $$ > "$SERVER_PROCESS"; exec "$@"', "sh")


@dataclass
class Shown:
    """What a bench shows of a test case."""

    verdict: str = ""
    why: str = ""
    fault: str = ""
    is_timed_out: bool = False
    locals: Dict[str, str] = field(default_factory=dict)
    raised: List[str] = field(default_factory=list)
    hung: List[str] = field(default_factory=list)
    evidence: str = ""

    def block(self) -> Block:
        """Its evidence, which must be whole and legal, with its verdict."""
        return whole_block(self.evidence, self.verdict)


def shown_in(text: str) -> List[Shown]:
    found = []
    for part in re.findall(r"^verdict .*?^done$", text, re.DOTALL | re.MULTILINE):
        head, _, rest = part.partition("\nevidence\n")
        shown = Shown(evidence=rest[:-len("done")])
        for line in head.splitlines():
            word, _, value = line.partition(" ")
            if word in ("verdict", "why", "fault"):
                setattr(shown, word, value)
            elif word == "timed":
                shown.is_timed_out = value == "out 1"
            elif word == "local":
                where, _, verdict = value.rpartition(" ")
                shown.locals[where] = verdict
            elif word in ("raised", "hung"):
                getattr(shown, word).append(value)
        found.append(shown)
    return found


@dataclass
class Place(ServerRoom):
    def bench(self, name: str, command: Sequence[str] = (), **more: str) -> Tuple[List[Shown], str]:
        """Runs a case of the bench: what it shows, and its whole output."""
        ran = call([self.path("bench"), name, *(command or self.command)], env={**os.environ, **more})
        same((ran.status, ran.errors), (0, ""), "the bench:")
        return shown_in(ran.output), ran.output

    def build(self, compiler: str, source: str, *flags: str) -> str:
        target = self.path(os.path.basename(source).rpartition(".")[0])
        printed(compiler, *FLAGS, *flags, source, *IN_PROCESS, "-o", target)
        return target

    def verdicts(self, name: str) -> List[Tuple[str, str]]:
        """The names and verdicts of the evidence in a file, which must be legal."""
        return [(it.name, it.verdict) for it in legal_evidence(self.text(name))]


def printed(*words: str, status: int = 0, **more: str) -> str:
    """What a command prints, which must end with this status."""
    ran = subprocess.run(words, env={**os.environ, **more}, stdout=subprocess.PIPE, stderr=subprocess.STDOUT, timeout=SECONDS * 3, check=False)
    hold(ran.returncode == status, f"{words} ends with {ran.returncode}: {ran.stdout.decode()[-1500:]}")
    return ran.stdout.decode()


def the_examples_run(place: Place) -> str:
    """That of the README and clients/cpp/heater.cpp, each with another of the compilers that are there."""
    sources = (place.write("first.cpp", blocks_of(README, "cpp")[0]), os.path.join(CLIENT, "heater.cpp"))
    for at, (source, variable) in enumerate(zip(sources, ("TTRUN", "FILSKEAM_TTRUN"))):
        program = place.build(COMPILERS[at % len(COMPILERS)], source)
        same(printed("sh", "-c", f"cd {place.room}; exec {program}", status=1, **{variable: place.program()}), blocks_of(README, "")[0])
        same([verdict for _, verdict in place.verdicts("heater.evidence")], ["fail"] * (at + 1))
    return f"{len(sources)} examples, {len(COMPILERS)} compilers"


def a_project_finds_the_client(place: Place) -> str:
    """By pkg-config and CMake, of an installed client and of its folder; and under GoogleTest a wrong verdict fails."""
    if not shutil.which("cmake") or not shutil.which("pkg-config"):
        raise Skipped("there is no CMake or no pkg-config")
    os.mkdir(place.path("clients"))
    os.symlink(CLIENT, place.path("clients/cpp"))
    printed("sh", "-ec", f"cd {place.room}\n{next(it for it in blocks_of(README, 'sh') if 'cmake -S' in it)}", HOME=place.room)
    found = glob.glob(place.path(".local/lib*/pkgconfig/filskeam.pc"))
    same(printed("pkg-config", "--modversion", *found).split()[:1], holding.version_of_the_program(), "the versions of client and program:")
    hold(os.path.isfile(os.path.join(re.findall(r"-I(\S+)", printed("pkg-config", "--cflags", *found))[0], "filskeam.hpp")), found)
    find = "find_package(filskeam REQUIRED)"
    for name, text, more in (("alone", find, ""), ("folder", f"add_subdirectory({CLIENT} filskeam)", ""),
                             ("suite", f"{find}\nfind_package(GTest)\nmessage(NOTICE \"GTest=${{GTest_FOUND}}\")", " GTest::gtest_main")):
        place.write(f"{name}/CMakeLists.txt", f"cmake_minimum_required(VERSION 3.14)\nproject({name} LANGUAGES CXX)\n{text}\n"
                    f"add_executable({name} {HERE}/suite.cpp)\ntarget_link_libraries({name} filskeam::filskeam{more})\n")
        words = ["cmake", "-S", place.path(name), "-B", place.path(name), f"-DCMAKE_PREFIX_PATH={place.path('.local')}"]
        ran = subprocess.run(words, stdout=subprocess.PIPE, stderr=subprocess.STDOUT, timeout=SECONDS, check=False)
        if more and b"GTest=TRUE" not in ran.stdout and b"GTest=1" not in ran.stdout:
            raise Skipped("there is no GoogleTest (Debian: libgtest-dev)")
        same(ran.returncode, 0, ran.stdout.decode()[-1500:])
    printed("cmake", "--build", place.path("suite"))
    return suite_of(place, place.path("suite/suite"))


def suite_of(place: Place, program: str) -> str:
    """Runs the suite: a wrong verdict fails and says why; verdicts are in the report, and the evidence is legal."""
    text = printed(program, f"--gtest_output=xml:{place.path('suite.xml')}", status=1, TTRUN=place.program(), FILSKEAM_EVIDENCE=place.path("suite.evidence"))
    same(re.findall(r"(?m)^\[  FAILED  \] (\S+) \(", text), ["Heater.fails", "Heater.hangs"])
    hold("why: run 0 main on mtc: setverdict fail: too hot\n" in text and "\nthe test case took longer than it may\n" in text, text)
    same(re.findall(r'<property name="verdict" value="(\w+)"', place.text("suite.xml")), ["pass", "fail", "fail", "error", "pass"])
    found = place.verdicts("suite.evidence")
    same(found, [("passes", "pass"), ("fails_as_it_should", "fail"), ("fails", "fail"), ("hangs", "error"), ("a_name_of_a_value_1", "pass")])
    return f"{len(found)} tests of GoogleTest"


def without_a_compiler_nothing_passes(place: Place) -> str:
    """These tests, run where no program is found: all fail, and they say why."""
    first, last = printed(sys.executable, os.path.abspath(__file__), status=1, PATH=place.room).splitlines()
    same(last, f"0 passed, {len(TESTS)} failed")
    hold("no compiler of C++" in first, first)
    return f"{len(TESTS)} tests"


def what_a_behaviour_throws_stops_the_case(place: Place) -> str:
    """With its text as a remark; an Ended and a stop of its own are no exceptions."""
    shown, text = place.bench("raises")
    same([it.why for it in shown], ["run 1 worker on component 1 worker: stopcase: no answer of 10.0.0.7",
        "run 1 worker on component 1 worker: stopcase: what it threw is no std::exception",
        "run 0 main on mtc: stop 7 -> error no-component", "run 1 worker on component 1 worker: stopcase: enough"])
    same([len(it.raised) for it in shown], [1, 1, 1, 0])
    same([it.block().verdict for it in shown], ["error"] * 4)
    hold(text.endswith("status 2\n"), text[-100:])
    return f"{len(shown)} test cases"


def a_watchdog_kills_who_hangs(place: Place) -> str:
    """The test case continues, and the behaviour that hangs is named."""
    (shown,), _ = place.bench("watchdog")
    same((shown.verdict, shown.hung, shown.why), ("inconc", ["run 1 stuck"], "run 2 watch on component 2 watchdog: setverdict inconc: the device is stuck"))
    same(shown.locals, {"0 mtc": "none", "1 pump": "pass", "2 watchdog": "inconc"})
    hold("2 kill 1 -> ok" in shown.block().calls, "nothing was killed")
    return f"{len(shown.block().calls)} entries"


def a_case_past_its_time_out(place: Place) -> str:
    """It ends in error, and who hangs is named: a worker, the main one; or nobody."""
    began = time.monotonic()
    shown, text = place.bench("late")
    hold(time.monotonic() - began < 20, "it took too long")
    same([(it.verdict, it.is_timed_out, it.hung) for it in shown],
         [("error", True, ["run 1 worker"]), ("error", True, ["run 0 main"]), ("error", True, []), ("pass", False, [])])
    hold("\nthe test case took longer than it may\nhas not returned: run 1 worker\n" in text, text)
    for it in shown:
        it.block()
    return f"{len(shown)} test cases"


def a_dynamic_error_ends_who_sleeps(place: Place) -> str:
    """It is news, as a stop is."""
    (shown,), _ = place.bench("errs")
    same((shown.why, shown.hung), ("run 0 main on mtc: stop 7 -> error no-component", []))
    return f"{len(shown.block().calls)} entries"


def why_is_the_first_that_made_the_verdict(place: Place) -> str:
    """A reason is of the next call of its run only."""
    shown, _ = place.bench("whys")
    same([it.why for it in shown], ["run 0 main on mtc: setverdict fail: first", "run 0 main on mtc: setverdict fail"])
    return f"{len(shown)} test cases"


def a_result_has_a_model(place: Place) -> str:
    """The script of its calls; or it says why there is none."""
    _, text = place.bench("models", TTRUN=place.whole_program())
    model = "testcase t,behaviour main,  create c1 named worker,  start c1 worker mtc,  wait done c1,end,behaviour worker c0,  setverdict fail,end,end"
    same(text.splitlines(), [*model.split(","), "ttrun: line 11: text ends too early",
                             "/nowhere/ttrun cannot be started: No such file or directory", "status 1"])
    return f"{len(model.split(','))} lines"


def each_call_has_its_word(place: Place) -> str:
    """Also each status of a component at each of its phases."""
    (shown,), _ = place.bench("calls")
    return f"{holding.hold_each_call(shown.block().calls)} entries"


def a_sleep_and_a_time_out_take_their_seconds(place: Place) -> str:
    """Not fewer, and not twice as many."""
    (shown,), _ = place.bench("seconds")
    took = [int(it) for it in re.findall(r"(?m)^0 # (\d+) thousandths$", shown.evidence)]
    hold(len(took) == 2 and all(1500 <= it < 2900 for it in took), f"they took {took} thousandths")
    return f"{took} thousandths"


def a_status_that_no_server_has(place: Place) -> str:
    """It counts as 3."""
    shown, text = place.bench("waits", ["sh", "-c", '"$@"; exit 9', "sh", *place.command])
    same([it.fault for it in shown], [""])
    hold(text.endswith("status 3\n"), text[-100:])
    return f"{len(shown)} test cases"


def a_case_that_another_behaviour_ends(place: Place) -> str:
    """A main behaviour that hangs is not waited for, and named."""
    began = time.monotonic()
    shown, _ = place.bench("ends")
    hold(time.monotonic() - began < 20, "it took too long")
    same([(it.is_timed_out, it.hung) for it in shown], [(False, ["run 0 main"])] * 4)
    for it in shown:
        it.block()
    return f"{len(shown)} test cases"


def waits_with_a_time_out(place: Place) -> str:
    """They hold or are late, and nobody waits in the table."""
    (shown,), _ = place.bench("waits")
    same(shown.block().marked("#"), [(0, "late late held")])
    hold(not any(" wait " in it for it in shown.block().calls), "it waits in the table")
    return "3 waits"


def a_stop_is_learnt_of(place: Place) -> str:
    """In a loop that checks, and by one that catches each std::exception."""
    (shown,), _ = place.bench("stops")
    same((shown.verdict, shown.hung, shown.raised), ("pass", [], []))
    checks = [it for it in shown.block().calls if it.startswith("1 getverdict")]
    hold(len(checks) <= 8, f"{len(checks)} checks asked the table")
    return f"{len(shown.block().calls)} entries"


def wrong_words_are_not_sent(place: Place) -> str:
    """Each is an invalid argument; remarks are cut and cleaned."""
    (shown,), text = place.bench("words")
    remarks = [it for _, it in shown.block().marked("#")]
    same(remarks[0], "19 of 19")
    same(remarks[1], r"81 \xc2\xb0C " + "x" * 185 + "..")
    same(remarks[2:], ["1 call of another thread"])
    same(shown.block().calls, ["0 finish -> ok"])
    hold(text.startswith("4 names\n") and text.endswith("status 0\n"), text[-100:])
    return "23 words"


def each_byte_and_each_limit(place: Place) -> str:
    """A remark with each byte, as many components as there may be, and reports of 20 and of 21 lines of evidence."""
    (said, many), text = place.bench("limits")
    wanted = ["x y" if it == 32 or 9 <= it <= 13 else f"x{chr(it)}y" if 33 <= it <= 126 else f"x\\x{it:02x}y" for it in range(256)]
    same([it for _, it in said.block().marked("#")], wanted)
    same((many.verdict, len(many.locals), many.block().calls[998]), ("none", 1000, "0 create -> made 999"))
    same(re.findall(r"(?m)^evidence.*:$", text), ["evidence:", "evidence, the last 20 of 21 lines:"])
    return f"{len(wanted)} remarks"


def news_between_a_question_and_its_answer(place: Place) -> str:
    """An end is not missed by a wait with a limit, nor a stop by a check."""
    for name, first, second, wanted in (("misses", "0 done 1", "1 finish", "held"), ("checks", "1 getverdict", "0 stop 1", "ended")):
        (shown,), _ = place.bench(name, [sys.executable, "-c", HOLDER, first, second, *place.command])
        same(shown.block().marked("#"), [(0, wanted)], name)
        answers = [it.partition(" -> ")[0] for it in shown.block().calls]
        hold(f"{first}|{second}" in "|".join(answers), f"{answers}: nothing was held back")
    return "2 orders"


def a_case_past_its_limit_is_no_pass(place: Place) -> str:
    """Also if the server says so in the end."""
    (shown,), text = place.bench("stalls", [*NAMED, *place.command], SERVER_PROCESS=place.path("process"))
    same((shown.verdict, shown.why, shown.is_timed_out, shown.fault), ("error", "the test case took longer than it may", True, ""))
    hold(shown.evidence.endswith("end pass\n") and text.endswith("status 2\n"), text)
    return "error"


def stub(script: str) -> List[str]:
    return ["sh", "-c", script]


def a_server_that_ends_or_writes_nonsense(place: Place) -> str:
    """The verdict is error, and why says how it ended; no signal ends the bench."""
    head = "echo evidence 1 t 256; "
    servers = {
        "exit 3": "the server ended with status 3",
        "echo one >&2; echo ttrun: no memory >&2; exit 3": "the server ended with status 3: ttrun: no memory",
        head + "kill -9 $$": "the server ended with signal 9",
        head + "exec sleep 1000": "the server does not answer",
        head + "exec 0<&-; sleep 0.2; printf '0 getv'; exit 4": "the server ended with status 4",
        **{head + f"printf '{line}\\n'; exec sleep 1000": f"the server wrote what it may not write here: {shown}" for line, shown in (
            ("hello", "hello"), ("", ""), ("9 finish -> ok", "9 finish -> ok"), ("0 stopcase -> ok", "0 stopcase -> ok"), ("end none", "end none"))},
        head + "read a; read b; read c; echo '0 create -> banana'; exec sleep 1000": "the server wrote what it may not write here: 0 create -> banana",
        "echo evidence 1 u 256; exec sleep 1000": "the server wrote what it may not write here: evidence 1 u 256"}
    for script, why in servers.items():
        shown, text = place.bench("loses", stub(script))
        same([(it.verdict, it.fault) for it in shown][0], ("error", why), script)
        same((len(shown), {it.verdict for it in shown}), (2, {"error"}), script)
        hold(text.endswith("status 3\n"), text[-100:])
    return f"{len(servers)} servers"


def random_cases_are_legal(place: Place) -> str:
    """Ten cases of up to forty behaviours at once."""
    shown, _ = place.bench("random")
    blocks = [it.block() for it in shown]
    for it, block in zip(shown, blocks):
        table = Table(block.behaviours)
        for entry in block.entries:
            table.play(entry.caller, entry.op)
        same([verdict for _, verdict in it.locals.items()], [component.verdict for component in table.components], "the local verdicts:")
    entries, runs = sum(len(it.entries) for it in blocks), sum(len(it.marked("")) for it in blocks)
    hold(len(blocks) == 10 and entries >= 800 and runs >= 100, f"{len(blocks)} cases, {entries} entries, {runs} behaviours")
    hold(sum(it.verdict == "error" for it in blocks) < 8, "most cases are an error")
    return f"{entries} entries, {runs} behaviours"


def a_result_says_who_and_why(place: Place) -> str:
    """Its report, local verdicts by names; the file has the evidence of whole test cases, and one next to it that which was cut."""
    began = time.monotonic()
    _, text = place.bench("reports", [*NAMED, *place.command], SERVER_PROCESS=place.path("process"), EVIDENCE=place.path("run.evidence"))
    hold(time.monotonic() - began < 15, "that the server was killed is noticed late")
    lines = text.splitlines()
    same(lines[:2], ["test case t_report: fail", "why: run 2 sets on component 2 pump: setverdict fail: a reason"])
    same(lines[2:7], ["local 0 mtc: none", "local 1 pump: inconc", "local 2 pump: fail", "local 3 pump: pass", "local 4 spare: none"])
    hold(re.fullmatch(r"evidence, the last 20 of 7\d lines:", lines[7]), lines[7])
    same(lines[27:30], ["  end fail", "== fail none none inconc", "test case t_report has no component 'valve'"])
    same(lines[30:32], ["test case t_lost: error", "why: the server ended with signal 9"])
    same(lines[34:], ["== evidence 1 t_lost 25", "test case t_next: pass", "why: run 0 main on mtc: setverdict pass", "local 0 mtc: pass",
                      "evidence:", *(f"  {it}" for it in NEXT.splitlines()), "status 3"])
    same(place.verdicts("run.evidence"), [("t_report", "fail"), ("t_next", "pass")])
    hold(place.text("run.evidence.cut").startswith("evidence 1 t_lost 256\n"), "what was cut is not there")
    ran = call([place.path("bench"), "waits", *place.command], env={**os.environ, "EVIDENCE": "/nowhere/it"})
    hold("/nowhere/it cannot be written" in ran.errors and not ran.output, "a file that cannot be written is reported late")
    return f"{len(lines)} lines"


def nothing_is_left_behind(place: Place) -> str:
    """By the sanitizers of addresses, of leaks and of undefined behaviour: twenty test cases leave no memory, and use none wrongly."""
    with tempfile.TemporaryDirectory(prefix="filskeam-cpp-") as room:
        other = Place(room, place.command)
        other.build("c++", BENCH, "-O0", "-fsanitize=address,undefined", "-fno-sanitize-recover=all")
        for name in ("leaves", "raises", "random"):
            other.bench(name)
    return "3 benches"


def no_thread_races_with_another(place: Place) -> str:
    """By ThreadSanitizer of each compiler that has it."""
    found = []
    for compiler in COMPILERS[:1] if IN_PROCESS else COMPILERS:
        with tempfile.TemporaryDirectory(prefix="filskeam-cpp-") as room:
            other = Place(room, place.command)
            try:
                printed(other.build(compiler, other.write("none.cpp", "int main() {}\n"), "-fsanitize=thread"))
            except Fault:
                continue
            other.build(compiler, BENCH, "-fsanitize=thread")
            for name in ("leaves", "raises", "watchdog", "late", "ends", "stops", "waits", *["loses"] * (not IN_PROCESS), "random", "meets"):
                other.bench(name, stub("echo evidence 1 t 256; exec sleep 1000") if name == "loses" else (), TSAN_OPTIONS="halt_on_error=1")
            found.append(compiler)
    if not found:
        raise Skipped("no compiler has ThreadSanitizer")
    return ", ".join(found)


def callers_that_wait_for_one_another(place: Place) -> str:
    """Eight at once, of which one reads for all: none waits for an answer that nobody reads, or reads when its own has come."""
    text = text_of(os.path.join(CLIENT, "filskeam.hpp"))
    same(text.count("now_and_then(0.01)"), 1)
    with tempfile.TemporaryDirectory(prefix="filskeam-cpp-") as room:
        other = Place(room, place.command)
        other.write("filskeam.hpp", text.replace("now_and_then(0.01)", "now_and_then(1)"))  # who helps out when nobody reads comes late here
        other.build("c++", BENCH, "-iquote", room)
        _, shown = other.bench("meets")
    rates = re.findall(r"^rate 8 (\d+) none$", shown, re.MULTILINE)
    hold(len(rates) == 1 and int(rates[0]) > 2_000, shown)
    return f"{rates[0]} calls a second"


def main() -> int:
    holding.load(__name__)
    given, [names] = holding.chosen(holding.words_of_clients("tests the C++ client of ttrun serve"), (TESTS, 0))
    command = holding.command_of(given)
    if command[0] == "library":
        names = [it for it in names if it not in OF_PIPES]
        IN_PROCESS[:] = ["-DIN_PROCESS", os.path.join(command[1], "libfilskeam.a")]
    if not shutil.which("c++"):
        print(f"there is no compiler of C++: nothing is known of the C++ client\n0 passed, {len(names)} failed")
        return 1
    with tempfile.TemporaryDirectory(prefix="filskeam-cpp-") as room:
        place = Place(room, command)
        place.build("c++", BENCH)
        return holding.status_of(holding.judged(it, place) for it in names)


if __name__ == "__main__":
    sys.exit(main())
