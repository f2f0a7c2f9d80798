"""The README of the client: its example is pasted and run, and its table names the calls that there are. Benches with a device:
a pseudo terminal, and one that is stuck; that of the README is a TCP server. The runners of tests: pytest with the plugin, if it is
installed, and unittest with the base class."""
import ast
import os
import pty
import re
import shutil
import subprocess
import sys
import threading
import time
from typing import Any, Dict, List, Set, Tuple
from xml.etree import ElementTree

from filskeam import Result, Run, __version__, errors
from holding import TOP, Skipped, blocks_of, hold, holds_word, same, text_of, version_of_the_program
from kit import CLIENT, FOR_EVER, HANGS, Place, legal, timed
from sessions import Pipe

# What the client imports of the standard library of Python 3.8.
STANDARD = ("__future__", "base64", "collections", "contextlib", "ctypes", "dataclasses", "functools", "glob", "hashlib", "io", "itertools", "math", "os", "queue",
            "re", "select", "shutil", "subprocess", "tarfile", "tempfile", "threading", "time", "traceback", "typing", "unittest", "weakref", "zipfile")

README, DOCS = os.path.join(CLIENT, "README.md"), os.path.join(TOP, "docs")


def the_example_works_when_it_is_pasted(place: Place) -> None:
    """It prints what is below it, and leaves legal evidence that begins as is shown. A cool device passes, and unittest runs the class."""
    (example, unit, _), shown = blocks_of(README, "python"), blocks_of(README, "")
    passed = "pass pass\nrun 1 probe on component 1 heater: setverdict pass: 80 degrees\n"
    for degrees, wanted in ((85, (1, shown[0])), (80, (0, passed))):
        place.write("heater.py", example.replace("60, 85)", f"60, {degrees})"))
        same(place.call(sys.executable, "heater.py"), wanted)
        place.blocks("heater.evidence")
        text = place.text("heater.evidence")
        hold(text.startswith(shown[1]), text)
        place.reach("lines of evidence", len(text.splitlines()), 12)
    place.write("heater.py", example)
    place.write("test_heater.py", unit)
    status, told = place.call(sys.executable, "-m", "unittest", FILSKEAM_EVIDENCE=place.room)
    same(status, 0, told)
    hold(os.path.exists(place.path("test_heater.HeaterTest.evidence")), "there is no evidence of unittest")


def the_bench_in_bash(place: Place) -> None:
    """It leaves the evidence that is shown, and ends with the status of the server: on a device that is too hot, and on one that is not."""
    page = os.path.join(DOCS, "benches.md")
    (bench,), (commands, _) = blocks_of(page, "bash"), blocks_of(page, "sh")
    shown = next(it for it in blocks_of(page, "") if it.startswith("evidence "))
    place.write("heater.sh", bench)
    for degrees, verdict, status in (("85", "fail", 1), ("20", "pass", 0)):
        same(place.call("bash", "-c", commands.replace("85", degrees)), (status, ""))
        same(place.text("heater.evidence"), shown.replace("85", degrees).replace("fail", verdict))
        place.blocks("heater.evidence")
    place.reach("lines of bash", len(bench.splitlines()), 10)


def the_session_of_the_protocol(place: Place) -> None:
    """Each line of the client gets the lines below it at once, and no others."""
    (session,) = (it for it in blocks_of(os.path.join(DOCS, "texts.md"), "") if it.startswith("> "))
    turns = [part.splitlines() for part in re.findall(r"^(> .*\n(?:< .*\n)*)", session, re.MULTILINE)]
    same(sum(map(len, turns)), len(session.splitlines()), "lines in turns:")
    with Pipe(place.command) as pipe:
        for line, *answers in turns:
            wanted = "".join(f"{it[2:]}\n" for it in answers)
            pipe.write(f"{line[2:]}\n".encode())
            same(pipe.read_all_of(len(wanted)).decode(), wanted, line)
        same((pipe.read(0.1), pipe.ended().status), (b"", 3), "what is left:")
    place.reach("turns", len(turns), 11)


# What an installed package says of itself.
ASKS = """import importlib.metadata as metadata, importlib.util, site, sys
site.addsitedir(sys.argv[1])
import filskeam
points = metadata.entry_points()
found = points.select(group="pytest11") if hasattr(points, "select") else points.get("pytest11", ())
print(filskeam.__file__, importlib.util.find_spec("pytest_filskeam").origin, filskeam.__version__, metadata.version("filskeam"))
print(*(f"{it.name}={it.value}" for it in found if it.name == "filskeam"))
"""


def the_package_is_installed_from_its_folder(place: Place) -> None:
    """Without a network, from the folder, from an archive of its sources, and as a link to it: modules, types, plugin and entry point."""
    if place.call(sys.executable, "-m", "pip", "--version")[0] != 0:
        raise Skipped("pip is not installed")
    folder, archive = place.path("client"), f"filskeam-{__version__}.tar.gz"
    shutil.copytree(CLIENT, folder, ignore=shutil.ignore_patterns("__pycache__"))
    same(place.call(sys.executable, "-c", "import build_backend; print(build_backend.build_sdist('..'))", folder=folder), (0, f"{archive}\n"))
    ways = {"wheel": ["--no-build-isolation", folder], "archive": [place.path(archive)], "link": ["-e", folder]}
    for name, words in ways.items():
        room = place.path(name)
        status, told = place.call(sys.executable, "-m", "pip", "install", "-q", "--no-index", "--disable-pip-version-check", "--target", room, *words)
        same(status, 0, told)
        home, pointed = (folder, ["filskeam.pth"]) if name == "link" else (room, ["filskeam", "pytest_filskeam.py"])
        same(sorted(it for it in os.listdir(room) if not it.startswith("__")), sorted([*pointed, f"filskeam-{__version__}.dist-info"]), name)
        hold(os.path.exists(os.path.join(home, "filskeam", "py.typed")), "its types are not announced")
        modules = [os.path.join(home, it) for it in ("filskeam/__init__.py", "pytest_filskeam.py")]
        same(place.call(sys.executable, "-I", "-c", ASKS, room)[1].split(), [*modules, *[__version__] * 2, "filskeam=pytest_filskeam"], name)
        place.reach("files", sum(len(names) for _, _, names in os.walk(room)), 5)


def the_version_is_that_of_the_program(place: Place) -> None:
    """That of its sources, and of the server if that is the program."""
    found = version_of_the_program()
    if os.path.basename(place.command[0]) == "ttrun":
        found.append(place.call(place.command[0], "--version", TTRUN="")[1].split()[1])
    same(set(found), {__version__})
    place.reach("versions", len(found), 1)


def the_client_needs_python_3_8_and_no_package(place: Place) -> None:
    """Its files have only the grammar of that version, and import only what that version has, and each other."""
    paths = [os.path.join(at, it) for at, _, names in os.walk(CLIENT) for it in names if it.endswith(".py")]
    found: Set[str] = set()
    for path in paths:
        for it in ast.walk(ast.parse(text_of(path), path, feature_version=(3, 8))):
            if isinstance(it, ast.Import):
                found.update(name.name.split(".")[0] for name in it.names)
            elif isinstance(it, ast.ImportFrom) and it.level == 0:
                found.add((it.module or "").split(".")[0])
    same(sorted(found - set(STANDARD)), ["filskeam", "pytest"])
    place.reach("files", len(paths), 8)


def the_tables_name_what_there_is(place: Place) -> None:
    """Each call of a run, each part of a result, each exception and each option of the plugin are in the README, and no others."""
    options, text = set(re.findall('"(filskeam_[a-z]+)"', text_of(os.path.join(CLIENT, "pytest_filskeam.py")))), text_of(README)
    there = {"call": vars(Run), "exception": {it for it in vars(errors) if it[0].isupper()},
             "of a result": {*Result.__dataclass_fields__, *vars(Result)}, "option": options}
    for head, wanted in there.items():
        (rows,) = re.findall(rf"^\| {head} \|.*\n\|---.*\n((?:\|.*\n)+)", text, re.MULTILINE)
        named = set(re.findall(r"`(\w+)[(`]", " ".join(row.split("|")[1] for row in rows.splitlines()))) - {"ValueError", "RuntimeError", "OSError"}
        same(named, {it for it in wanted if not it.startswith("_")}, head)
        place.reach(f"names in the table {head}", len(named), 3)


def a_device_behind_a_pseudo_terminal(place: Place) -> None:
    """A serial line, by the code of the page: the device echoes a frame and says ok, until it hangs; behaviours use it one by one."""
    code: Dict[str, Any] = {}
    exec(blocks_of(os.path.join(DOCS, "benches.md"), "python")[0], code)  # pylint: disable=exec-used
    device_side, other_side = pty.openpty()
    line = code["open_line"](os.ttyname(other_side))
    frames: List[bytes] = []

    def device() -> None:
        while frames[-1:] != [b"hang\n"]:
            frames.append(os.read(device_side, 100))
            if frames[-1] != b"hang\n":
                os.write(device_side, b"ok " + frames[-1])

    def switch(run: Run, *, frame: bytes, seconds: float) -> None:
        answer = code["ask"](line, frame, seconds)
        run.set_verdict("pass" if answer == b"ok " + frame else "fail", answer)

    def main(run: Run) -> None:
        for frame, seconds in ((b"on", 5), (b"level 7", 5), (b"off", 5), (b"hang", 0.2)):
            it = run.create("line")
            run.start(it, switch, frame=frame, seconds=seconds)
            run.wait_done(it)

    threading.Thread(target=device, daemon=True).start()
    result = place.run("t_serial", main, 20)
    for it in (line, other_side, device_side):
        os.close(it)
    same((result.verdict, result.locals), ("error", {0: "none", 1: "pass", 2: "pass", 3: "pass", 4: "error"}))
    holds_word("stopcase: TimeoutError: no answer to b'hang'", result.why)
    hold((3, r"b'ok off'") in legal(result).marked("#"), "the last answer is no reason")
    place.reach("frames", len(frames), 4)


def stuck(run: Run) -> None:
    """A behaviour whose device never answers."""
    time.sleep(FOR_EVER)


def a_stuck_device_is_killed_by_a_watchdog(place: Place) -> None:
    """The watchdog of the README is a component: it kills the stuck one, the test case continues, and what hangs is named."""
    code: Dict[str, Any] = {}
    exec(blocks_of(README, "python")[-1].replace("sleep(10)", "sleep(0.1)"), code)  # pylint: disable=exec-used

    def main(run: Run) -> None:
        pump, dog = run.create("pump"), run.create("watchdog")
        run.start(pump, stuck)
        run.start(dog, code["watchdog"], pump)
        run.wait_done("all")
        run.set_verdict("pass")

    with place.server(grace=HANGS) as server:
        results = [timed(lambda: server.run(f"t_stuck_{at}", main, timeout=20), 10) for at in range(2)]
    for result in results:
        same((result.verdict, result.local("pump"), result.local("watchdog"), result.hung), ("inconc", "none", "inconc", ("run 1 stuck",)))
        same(result.why, "run 2 watchdog on component 2 watchdog: setverdict inconc: the device is stuck")
        hold("2 kill 1 -> ok" in legal(result).calls, "nothing was killed")
        holds_word("has not returned: run 1 stuck", result.report())
    place.reach("stuck devices", len(results), 2)


PYTHONS = (sys.executable, "/usr/bin/python3")
# The main behaviours of the benches below. The second word of the name of a test says how it ends.
MAINS = """import time
def passes(run): run.set_verdict("pass")
def fails(run): run.set_verdict("fail", "too hot")
def unsure(run): run.set_verdict("inconc")
def stops(run): run.stop_case("enough")
def hangs(run): time.sleep(1000)
"""
LOOKED_AT = """import pytest
from mains import fails, passes, stops, unsure

@pytest.fixture
def early(filskeam):
    filskeam.run("t_early", fails)

@pytest.fixture
def late(filskeam):
    yield
    filskeam.run("t_late", fails)

@pytest.mark.parametrize("main", [fails, unsure, stops])
def test_failure_nobody_looks(filskeam, main):
    filskeam.run("t_forgot", main)

def test_failure_it_is_printed(filskeam):
    result = filskeam.run(fails)
    print(result, result.why, result.report())

def test_failure_one_of_two(filskeam):
    assert filskeam.run("t_first", fails).verdict == "fail"
    filskeam.run("t_second", fails)

def test_failure_of_a_fixture(early): pass

def test_error_of_a_late_fixture(late): pass

def test_error_skipped(filskeam):
    filskeam.run(fails)
    pytest.skip("no device")

def test_failure_raises(filskeam):
    filskeam.run(fails)
    raise ValueError

def test_failure_another_is_expected(filskeam):
    filskeam.run("t_other", passes, expect="fail")

def test_failure_no_verdict_is_expected(filskeam):
    filskeam.run("t_wrong", passes, expect="passed")

@pytest.mark.xfail
def test_skipped_expected_to_fail(filskeam):
    filskeam.run(fails)

def test_passed_it_is_looked_at(filskeam):
    assert filskeam.run(unsure).verdict != "fail"

@pytest.mark.parametrize("main, verdict", [(fails, "fail"), (stops, "error"), (passes, "pass")])
def test_passed_expected(filskeam, main, verdict):
    filskeam.run(main, expect=verdict)

def test_passed_under_its_name(filskeam):
    for _ in range(2):
        filskeam.run(passes)
    assert filskeam.run(lambda run: None).name == "test_passed_under_its_name_3"

@pytest.mark.parametrize("it", ["a-b", "c"])
def test_passed_under_a_name_that_is_too_long(filskeam, it):
    filskeam.run(passes)

def test_passed_by_default(filskeam):
    assert filskeam.limit == 60
"""
# What the message of a test, and what pytest shows, must have.
IGNORED = "ended with fail, and the test did not look at the verdict: run 0 fails on mtc: setverdict fail: too hot"
MESSAGES = (
    ("it_is_printed", f"test_failure_it_is_printed {IGNORED}"), ("one_of_two", f"t_second {IGNORED}"), ("nobody_looks[stops]", "t_forgot ended with error"),
    ("another_is_expected", "AssertionError: t_other ended with pass, and fail is expected: run 0 passes on mtc: setverdict pass"),
    ("no_verdict_is_expected", "ValueError: 'passed' is no verdict to expect"),
    ("heater", "AssertionError: run 1 probe on component 1 heater: setverdict fail: too hot"))
SHOWN = ("filskeam: test_failure_raises ended with fail", "why: run 0 fails on mtc: setverdict fail: too hot", "local 0 mtc: fail",
         "  0 setverdict fail -> ok")


def ran(place: Place, python: str, *words: str, **more: str) -> Tuple[int, str]:
    """Calls a runner over the benches of the place: its status, and what it shows."""
    place.write("mains.py", MAINS)
    return place.call(python, "-m", *words, **more)


def pytested(place: Place, *words: str, needs: str = "pytest", **more: str) -> Tuple[int, str]:
    """The same for pytest, with a report in run.xml; the test is skipped if what it needs is not installed."""
    for python in PYTHONS:
        if os.path.exists(python) and place.call(python, "-c", f"import {needs}")[0] == 0:
            return ran(place, python, "pytest", "-p", "pytest_filskeam", "-p", "no:cacheprovider", "--junit-xml=run.xml", *words, **more)
    raise Skipped(f"{needs} is not installed")


def reported(room: Place) -> Dict[str, ElementTree.Element]:
    return {it.attrib["name"]: it for it in ElementTree.parse(room.path("run.xml")).iter("testcase")}


def a_test_that_ignores_the_verdict_fails(place: Place) -> None:
    """It shows who, why and the last entries. The report has verdict, why and place of each test case, also of tests that pass."""
    place.write("test_looked_at.py", LOOKED_AT)
    place.write("test_heater.py", blocks_of(README, "python")[0].replace("def test_heater", "def test_failure_heater"))
    _, shown = pytested(place, "--filskeam-evidence=run.evidence")
    cases = reported(place)
    for name, case in cases.items():
        ends = {it.tag for it in case if it.tag != "properties"} or {"passed"}
        same(ends, {name.split("_")[1], *["skipped"] * (name == "test_error_skipped")}, name)
    for name, word in MESSAGES:
        holds_word(word, cases[f"test_failure_{name}"].find("failure").attrib["message"])
    for word in SHOWN:
        holds_word(word, shown)
    hold("passed_it_is_looked_at ended" not in shown, shown)
    properties = {it.attrib["name"]: it.attrib["value"] for case in cases.values() for it in case.iter("property")}
    same([properties.get(f"test_passed_under_its_name.{it}") for it in ("verdict", "why")], ["pass", "run 0 passes on mtc: setverdict pass"])
    named = [it[:-8] for it in properties if it.endswith(".verdict")]
    hold({"test_passed_under_its_name_2", "test_passed_under_a_name_that_is", "test_passed_under_a_name_that_2"} <= set(named), named)
    lines = place.text("run.evidence").splitlines()
    for name in named:
        path, line = properties[f"{name}.evidence"].split(":")
        same((path, lines[int(line) - 1]), ("run.evidence", f"evidence 1 {name} 256"))
    place.reach("blocks", len(place.blocks("run.evidence")), 22)
    place.reach("tests of pytest", len(cases), 21)


def pytest_has_options(place: Place) -> None:
    """The program, the limit and the grace, which are refused if they are no seconds, and may be without end."""
    ini = "[pytest]\nfilskeam_program = ./ttrun\nfilskeam_limit = 2\nfilskeam_grace = 0.5\n"
    place.write("test_hangs.py", 'from mains import hangs\n\ndef test_hangs(filskeam):\n    print(filskeam.run(hangs, expect="error").report())\n')
    place.write("pytest.ini", ini)
    status, shown = pytested(place, "-s", TTRUN="/nowhere/ttrun")
    same(status, 0, shown)
    holds_word("the test case took longer than 2 s; not returned: run 0 hangs", shown)
    hold(float(reported(place)["test_hangs"].attrib["time"]) < 6, "the grace is not that of the option")
    place.write("test_hangs.py", "from mains import passes\n\ndef test_passes(filskeam):\n    filskeam.run(passes)\n")
    place.write("pytest.ini", ini.replace("2", "inf").replace("0.5", "inf"))
    status, shown = pytested(place)
    same(status, 0, shown)
    wrong = (("2", "soon"), ("0.5", "0"))
    for old, new in wrong:
        place.write("pytest.ini", ini.replace(old, new))
        status, shown = pytested(place)
        same(status, 4, shown)
        holds_word(f"{new!r} is no number of seconds", shown)
    place.reach("wrong options", len(wrong), 2)


def left(folder: str) -> List[str]:
    return sorted(it for it in os.listdir(folder) if it.startswith("run.evidence"))


def the_file_of_the_evidence_is_emptied(place: Place) -> None:
    """At the begin of a session, also if no test uses the fixture. Workers have files of their own, which the line of the README joins."""
    for name in ("run.evidence", "run.evidence.cut", "run.evidence.gw9", "run.evidence.gw9.cut"):
        place.write(name, "of an earlier session\n")
    place.write("test_none.py", "def test_none(): pass\n")
    status, shown = pytested(place, "--filskeam-evidence=run.evidence", needs="xdist")
    same((status, left(place.room), place.text("run.evidence")), (0, ["run.evidence"], ""), shown)
    status, shown = pytested(place, "--filskeam-evidence=nowhere/run.evidence")
    same(status, 4, shown)
    holds_word("--filskeam-evidence: ", shown)
    place.write("test_passes.py", "import pytest\nfrom mains import passes\n\n@pytest.mark.parametrize('at', range(6))\n"
                "def test_passes(filskeam, at):\n    filskeam.run(f't_{at}', passes)\n")
    status, shown = pytested(place, "-n", "2", "--filskeam-evidence=run.evidence")
    same((status, left(place.room)), (0, ["run.evidence.gw0", "run.evidence.gw1"]), shown)
    place.write("run.evidence.gw1.cut", "evidence 1 t_cut 256\n")
    (line,) = re.findall("`(cat [^`]+)`", text_of(README))
    subprocess.run(["sh", "-c", line], cwd=place.room, check=True)
    joined = sorted((it.name, it.verdict) for it in place.blocks("run.evidence"))
    same(joined, [(f"t_{at}", "pass") for at in range(6)])
    status, shown = pytested(place, "-n", "3", "-k", "passes and 0", "--filskeam-evidence=run.evidence")
    same((status, len(left(place.room))), (0, 1), shown)
    place.reach("blocks", len(joined), 6)


UNITTEST = """from filskeam.testing import BenchCase
from mains import fails, hangs, passes

class First(BenchCase):
    grace = 0.5
    limit = 2

    def test_failure_nobody_looks(self):
        self.bench.run("t_forgot", fails)

    def test_failure_asserts(self):
        self.assertVerdict(self.bench.run(fails))

    def test_failure_expected(self):
        self.bench.run(fails, expect="pass")

    def test_passed_hangs(self):
        result = self.bench.run(hangs)
        self.assertVerdict(result, "error")
        self.assertEqual(result.hung, ("run 0 hangs",))

class Second(BenchCase):
    def test_passed(self):
        self.assertEqual(self.bench.limit, 60)
        for _ in range(2):
            self.assertVerdict(self.bench.run(passes))
"""
TOLD = ("FAILED (failures=3)", f"AssertionError: t_forgot {IGNORED}",
        "AssertionError: the verdict pass is wanted\ntest case test_failure_asserts: fail\nwhy: run 0 fails on mtc", "  end fail",
        "AssertionError: test_failure_expected ended with fail, and pass is expected: run 0 fails on mtc")


def a_class_of_unittest_has_a_server(place: Place) -> None:
    """A test that does not look at the verdict fails; the failures show the last entries, and each class has its evidence."""
    place.write("test_bench.py", UNITTEST)
    os.mkdir(place.path("reports"))
    status, shown = ran(place, sys.executable, "unittest", "-v", FILSKEAM_EVIDENCE="reports")
    found: Set[Tuple[str, ...]] = set(re.findall(r"^test_([a-z]+)\w* .*\.\.\. (\w+)$", shown, re.MULTILINE))
    same((status, found), (1, {("failure", "FAIL"), ("passed", "ok")}), shown)
    for word in TOLD:
        holds_word(word, shown)
    hold("testing.py" not in shown and "ResourceWarning" not in shown, shown)
    same(sorted(os.listdir(place.path("reports"))), ["test_bench.First.evidence", "test_bench.Second.evidence"])
    same([it.verdict for it in place.blocks("reports/test_bench.First.evidence")], ["fail", "fail", "fail", "error"])
    same([it.name for it in place.blocks("reports/test_bench.Second.evidence")], ["test_passed", "test_passed_2"])
    place.reach("lines that unittest shows", len(shown.splitlines()), 40)
