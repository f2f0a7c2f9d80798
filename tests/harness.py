"""What folders of tests share: what a test holds, files, folders of stand-ins, calls of programs, and the run of all tests."""
import argparse
import inspect
import os
import shutil
import signal
import subprocess
import sys
import threading
import time
from contextlib import AbstractContextManager, suppress
from dataclasses import dataclass
from functools import partial
from typing import Any, Callable, Dict, Iterable, Iterator, List, Mapping, Optional, Sequence, Tuple, Union

TOP = os.path.dirname(os.path.dirname(os.path.abspath(__file__)))
PROGRAM = os.path.join(TOP, "crates", "ttrun", "out", "ttrun")
SECONDS = 120
# Nothing of a user's own settings of git, as signatures and files that are not shown.
GIT = {"GIT_CONFIG_GLOBAL": "/dev/null", "GIT_CONFIG_NOSYSTEM": "1", "GIT_AUTHOR_NAME": "a", "GIT_AUTHOR_EMAIL": "a@b",
       "GIT_COMMITTER_NAME": "a", "GIT_COMMITTER_EMAIL": "a@b"}
Tests = Mapping[str, Callable]
# Whether a test has passed, nothing if it was skipped, and the line about it.
Answer = Tuple[Optional[bool], str]


class Fault(Exception):
    """Why a test has failed."""


class Skipped(Exception):
    """What is missing for a test."""


def hold(is_so: object, text: object = "") -> None:
    """Fails the test unless it is so."""
    if not is_so:
        raise Fault(str(text)[:1500])


def same(one: object, other: object, where: object = "") -> None:
    """Fails the test unless both are the same, the one that is wanted and the one that was found."""
    hold(one == other, f"{str(where)[:300]} {str(one)[:500]!r} is not {str(other)[:500]!r}".strip())


def wait_for(is_so: Callable[[], bool], text: str) -> None:
    until = time.monotonic() + SECONDS
    while not is_so():
        hold(time.monotonic() < until, f"in vain: {text}")
        time.sleep(0.05)


def reached(met: Mapping[str, int], floors: Mapping[str, int]) -> str:
    """How often each was met; the test fails below a floor."""
    hold(all(met[it] >= least for it, least in floors.items()), f"{dict(met)} has fewer than {dict(floors)}")
    return ", ".join(f"{count} {it}" for it, count in sorted(met.items()))


def text_of(*path: str) -> str:
    """The text of a file, by its path from the top of the repository or from the root."""
    return bytes_of(*path).decode()


def bytes_of(*path: str) -> bytes:
    """What is in a file, by such a path."""
    with open(os.path.join(TOP, *path), "rb") as file:
        return file.read()


def write(path: str, data: Union[str, bytes], is_run: bool = False) -> str:
    """Writes a file, and the folders above it; a program may be run. Returns its path."""
    os.makedirs(os.path.dirname(path), exist_ok=True)
    with open(path, "wb") as file:
        file.write(data.encode() if isinstance(data, str) else data)
    if is_run:
        os.chmod(path, 0o755)
    return path


def add_tools(folder: str, *without: str) -> str:
    """Makes a folder with links to all tools of the machine but these, and returns it."""
    os.makedirs(folder, exist_ok=True)
    for place in ("/bin", "/usr/bin"):
        for name in os.listdir(place):
            if name not in without and not os.path.lexists(os.path.join(folder, name)):
                os.symlink(os.path.join(place, name), os.path.join(folder, name))
    return folder


@dataclass
class Ran:
    """What a call gave, as texts or as bytes. A status below 0 is the signal that ended it: one that was late is killed."""

    output: Union[str, bytes]
    errors: Union[str, bytes]
    status: int
    is_late: bool = False

    def lines(self) -> List[str]:
        return (self.errors if isinstance(self.errors, str) else self.errors.decode()).splitlines()


def call(words: Sequence[str], given: Union[str, bytes] = "", **how) -> Ran:
    """Calls a program with an input, and waits for its end; it gives texts if the input is one."""
    ran = subprocess.run(words, input=given, capture_output=True, text=isinstance(given, str), timeout=SECONDS, check=False, **how)
    return Ran(ran.stdout, ran.stderr, ran.returncode)


def ended(started: subprocess.Popen, given: Optional[bytes] = b"", seconds: int = SECONDS) -> Ran:
    """Gives the input, or with None keeps the pipe open, and waits for the program's end. One that has not ended then is killed."""
    try:
        if given is None:
            started.wait(seconds)
            return Ran(started.stdout.read(), started.stderr.read(), started.returncode)
        output, errors = started.communicate(given, timeout=seconds)
        return Ran(output or b"", errors or b"", started.returncode)
    except subprocess.TimeoutExpired:
        os.killpg(started.pid, signal.SIGKILL)
        started.wait()
        return Ran(b"", b"", started.returncode, is_late=True)


def shown_at(master: int, started: subprocess.Popen, act: Callable[[bytes], object] = lambda _: None) -> bytes:
    """What a terminal gets until the program has ended, or is killed; after each piece it acts on all that came."""
    guard, output = threading.Timer(SECONDS, os.killpg, (started.pid, signal.SIGKILL)), b""
    guard.start()
    with suppress(OSError):  # which comes at the end of all that is written
        while piece := os.read(master, 65536):
            output += piece
            act(output)
    started.wait()
    guard.cancel()
    os.close(master)
    return output


def checkout(*paths: str) -> List[str]:
    """The files of the repository at these paths, all if there is none, that are there now."""
    listed = call(["git", "ls-files", "-co", "--exclude-standard", *paths], cwd=TOP)
    hold(listed.status == 0, listed)
    return [it for it in listed.output.splitlines() if os.path.isfile(os.path.join(TOP, it))]


def copy_checkout(target: str, *paths: str) -> None:
    """Copies these files into a folder."""
    for name in checkout(*paths):
        os.makedirs(os.path.dirname(os.path.join(target, name)), exist_ok=True)
        shutil.copy2(os.path.join(TOP, name), os.path.join(target, name))


class Folder(AbstractContextManager):
    """A folder of a test, whose files have their names from there."""

    def __init__(self, folder: str) -> None:
        self.folder = folder
        os.makedirs(folder, exist_ok=True)

    def __exit__(self, *_: object) -> None:
        """Leaves the folder to the one who made it."""

    def path(self, name: str) -> str:
        return os.path.join(self.folder, name)

    def text(self, name: str) -> str:
        return text_of(self.path(name))

    def write(self, name: str, data: Union[str, bytes], is_run: bool = False) -> str:
        return write(self.path(name), data, is_run)

    def git(self, *words: str) -> str:
        """What a command of git prints."""
        return subprocess.run(["git", *words], cwd=self.folder, env={**os.environ, **GIT}, capture_output=True, text=True, check=True).stdout

    def commit(self) -> str:
        """Makes it a checkout of git if it is none, and commits everything: the commit."""
        self.git("init", "--quiet")
        self.git("add", "--all")
        self.git("commit", "--quiet", "--allow-empty", "--message", "all")
        return self.git("rev-parse", "HEAD").strip()


def run_in(kind: type, name: str, *made_of: object) -> Optional[str]:
    """Runs a test that is a method of a class, in a folder of its own."""
    with kind(*made_of) as folder:
        return getattr(folder, name)()


def tests_of(*kinds: type) -> Dict[str, Callable]:
    """The tests that are the own methods of classes of folders. Each takes what its folder is made of."""
    return {name: partial(run_in, kind, name) for kind in kinds for name, it in vars(kind).items() if inspect.isfunction(it)}


def answer_of(name: str, test: Callable[[], Optional[str]]) -> Answer:
    began = time.monotonic()
    try:
        reached = str(test() or "")
    except Skipped as lacking:
        return None, f"SKIPPED {name}: {lacking}"
    except KeyboardInterrupt:
        raise
    except BaseException as error:  # a test that breaks has failed, and the others are run
        return False, f"FAILED {name}\n  {type(error).__name__}: {error}"
    return True, f"ok {name}{reached and ': '}{reached}, in {time.monotonic() - began:.0f} seconds"


def answers_of(tests: Tests, act: Callable[[Callable], Optional[str]], lacks: str = "") -> Iterator[Answer]:
    """Runs tests one after the other, by an act that takes one; none of them if something is missing."""
    for name, test in tests.items():
        yield (None, f"SKIPPED {name}: there is no {lacks}") if lacks else answer_of(name, lambda it=test: act(it))


def status_of(answers: Iterable[Answer], until_one_fails: bool = False) -> int:
    """Prints the line of each test as it comes, and how many have passed: the status of the whole."""
    found: List[Optional[bool]] = []
    for has_passed, line in answers:
        print(line, flush=True)
        found.append(has_passed)
        if until_one_fails and not has_passed:
            break
    passed, failed, skipped = (found.count(it) for it in (True, False, None))
    print(f"{passed} passed, {failed} failed" + f", {skipped} skipped" * bool(skipped))
    return 1 if failed or not found else 0


def words_of(description: str, has_program: bool = True) -> argparse.ArgumentParser:
    """The options of a run of tests, to which its own are added."""
    parser = argparse.ArgumentParser(description=description)
    parser.add_argument("--only", default="", help="the tests with this in their names")
    parser.add_argument("--list", action="store_true", help="prints the names of the tests")
    if has_program:
        parser.add_argument("--program", type=os.path.abspath, default=PROGRAM)
    return parser


def chosen(parser: argparse.ArgumentParser, *groups: Tuple[Mapping[str, Any], int]) -> Tuple[argparse.Namespace, List[Dict[str, Any]]]:
    """What is given, and the tests of each group that are chosen. A group has no fewer than its number."""
    given = parser.parse_args()
    for tests, fewest in groups:
        if len(tests) < fewest:
            sys.exit(f"{len(tests)} tests are fewer than {fewest}")
    found = [{name: test for name, test in tests.items() if given.only in name} for tests, _ in groups]
    if given.list:
        print("\n".join(name for tests in found for name in tests))
        sys.exit(0)
    if not os.access(getattr(given, "program", "/bin/sh"), os.X_OK):
        print(f"there is no program {given.program}: ./ttrun --help builds it", file=sys.stderr)
        sys.exit(3)
    return given, found
