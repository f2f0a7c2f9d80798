"""The pytest plugin: the fixture `filskeam`, its options, and what a failed test shows."""
import functools
import glob
import os
from typing import Any, Generator, Iterator, Optional, Tuple

import pytest

from filskeam import NoProgram, Result, Server
from filskeam.bench import GRACE
from filskeam.evidence import EvidenceFile
from filskeam.testing import LIMIT, Bench

BENCH = "_filskeam"
# The end of the name of a property that says what the order of the calls of a test case decides.
LUCK = ".luck"
FAIL = functools.partial(pytest.fail, pytrace=False)
SECONDS = {"filskeam_limit": (LIMIT, "the seconds that a test case may take if its run says nothing else"),
           "filskeam_grace": (GRACE, "the seconds that behaviours have to return after the end of their test case")}


def pytest_addoption(parser: pytest.Parser) -> None:
    group = parser.getgroup("filskeam", "test cases judged by ttrun serve")
    group.addoption("--filskeam-evidence", metavar="FILE", help="writes the evidence of all test cases to FILE")
    group.addoption("--filskeam-luck", action="store_true", help="marks each test with a verdict that depends on the order of calls")
    group.addoption("--filskeam-luck-fails", action="store_true", help="lets such a test fail")
    parser.addini("filskeam_program", "the program ttrun; a path is that from the root folder of the tests", default="")
    for name, (default, text) in SECONDS.items():
        parser.addini(name, f"{text} ({default:g})", default=str(default))


def seconds(config: pytest.Config, name: str) -> float:
    text = config.getini(name)
    try:
        if float(text) > 0:
            return float(text)
    except ValueError:
        pass
    raise pytest.UsageError(f"{name}: {text!r} is no number of seconds")


def evidence_file(config: pytest.Config) -> Optional[str]:
    """The file for the evidence. Each worker of pytest-xdist has its own, with the name of the worker at the end."""
    path, worker = config.getoption("--filskeam-evidence"), getattr(config, "workerinput", None)
    return f"{path}.{worker['workerid']}" if path and worker else path


def pytest_configure(config: pytest.Config) -> None:
    """Empties the file, so that no evidence of an earlier session stays. With workers there are only the files of those that have some."""
    for name in SECONDS:
        seconds(config, name)
    path = config.getoption("--filskeam-evidence")
    if path and not hasattr(config, "workerinput"):
        try:
            EvidenceFile(path)
            for it in glob.glob(f"{glob.escape(path)}.gw*"):
                os.remove(it)
            if config.getoption("dist", "no") != "no":
                os.remove(path)
        except OSError as error:
            raise pytest.UsageError(f"--filskeam-evidence: {error}") from error


def program_of(config: pytest.Config) -> str:
    """The program of the options; empty if they name none."""
    program = config.getini("filskeam_program")
    return os.path.join(config.rootpath, program) if os.path.dirname(program) else program


@pytest.fixture(scope="session")
def filskeam_server(request: pytest.FixtureRequest) -> Generator[Server, None, None]:
    config = request.config
    program = program_of(config)
    with Server([program, "serve"] if program else None, evidence_file(config), seconds(config, "filskeam_grace")) as server:
        yield server


@pytest.fixture
def filskeam(request: pytest.FixtureRequest, filskeam_server: Server) -> Generator[Bench, None, None]:
    """Runs test cases: filskeam.run(name, main, timeout=30) is a `filskeam.Result`. Without a name it has that of the test."""

    def note(result: Result) -> None:
        said = {"verdict": result.verdict, "why": result.why, "evidence": result.place}
        request.node.user_properties.extend((f"{result.name}.{what}", text) for what, text in said.items() if text)

    bench = Bench(filskeam_server, request.node.name, seconds(request.config, "filskeam_limit"), note)
    setattr(request.node, BENCH, bench)
    yield bench
    bench.hold_overlooked(FAIL)


@pytest.hookimpl(trylast=True)
def pytest_runtest_call(item: pytest.Item) -> None:
    """Comes after the test itself, if that has passed."""
    if hasattr(item, BENCH):
        getattr(item, BENCH).hold_overlooked(FAIL)


def luck_of(result: Result, program: str) -> str:
    """The verdicts of the same calls in all orders, if there are several; why they are not known, if they are not."""
    try:
        found = result.verdicts(program)
    except (NoProgram, ValueError) as error:
        return f"not known: {error}"
    return " or ".join(found) if len(found) > 1 else ""


def luck_in(properties: Any) -> Iterator[Tuple[str, str]]:
    """The test cases whose verdicts depend on the order of calls, or may do so, each with what is known."""
    return ((name[:-len(LUCK)], text) for name, text in properties if name.endswith(LUCK))


@pytest.hookimpl(hookwrapper=True)
def pytest_runtest_makereport(item: pytest.Item, call: Any) -> Generator[None, Any, None]:
    """Notes the luck of each test case, if that is asked for. A test that failed shows who, why and the last entries of each, so that
    their verdicts need no second failure."""
    bench, fails = getattr(item, BENCH, None), item.config.getoption("--filskeam-luck-fails")
    if bench and call.when == "call" and (fails or item.config.getoption("--filskeam-luck")):
        found = [(f"{it.name}{LUCK}", luck_of(it.result, program_of(item.config))) for it in bench.results]
        item.user_properties += [it for it in found if it[1]]
    outcome = yield
    report = outcome.get_result()
    several = [f"{name}: {text} in another order of calls" for name, text in luck_in(item.user_properties) if not text.startswith("not known")]
    if several and fails and call.when == "call" and report.passed:
        report.outcome, report.longrepr = "failed", "\n".join(several)
    if report.failed and bench:
        report.sections += [(f"filskeam: {it.name} ended with {it.verdict}", it.report()) for it in bench.results]


def pytest_terminal_summary(terminalreporter: Any) -> None:
    """The test cases whose verdicts depend on the order of calls."""
    found = {(report.nodeid, *each) for reports in terminalreporter.stats.values() for report in reports
             if getattr(report, "when", "") == "call" for each in luck_in(report.user_properties)}
    if found:
        terminalreporter.section("filskeam: verdicts by the order of calls")
    for place, name, text in sorted(found):
        terminalreporter.write_line(f"{place}: {name}: {text}")
