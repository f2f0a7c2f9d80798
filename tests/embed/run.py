#!/usr/bin/env python3
"""The tests of the library filskeam: its calls from C, C++, Rust and Python, next to the program and the reference server.

usage: tests/embed/run.py [--library FOLDER] [--program FILE] [--only WORD] [--list]

The folder has what ./ttrun --library makes, which is called if none is given. The last line is 'N passed, M failed', with
', K skipped' after it if there are some; the status is 0 if nothing failed, otherwise 1.
"""
import os
import re
import shlex
import shutil
import subprocess
import sys
import tempfile
import threading
from concurrent.futures import ThreadPoolExecutor
from contextlib import suppress
from functools import lru_cache
from typing import Callable, Dict
from unittest.mock import patch

sys.dont_write_bytecode = True
HERE = os.path.dirname(os.path.abspath(__file__))
TESTS = os.path.dirname(HERE)
sys.path += [TESTS, os.path.join(os.path.dirname(TESTS), "clients", "python")]

from filskeam import Ended, NoProgram, Run, Server
from filskeam.library import NO_MEMORY, ROOM, InProcess, find_library
from harness import TOP, Skipped, answers_of, bytes_of, call, chosen, hold, same, status_of, text_of, words_of, write

SERVER = """import sys
from filskeam.library import InProcess, find_library
table = InProcess(find_library())
for line in sys.stdin:
    print(*[text for _, text in table.exchange([line[:-1]])], sep="\\n", flush=True)
sys.exit(table.close())"""
# What is compiled: its source, its sanitizers, and the words that it is called with.
COMPILED = {
    "each_number_comes_when_it_should": ("places.cpp", "address,undefined", "wrongly"),
    "eight_threads_on_one_test_case": ("places.cpp", "thread", "shared", "5000"),
    "test_cases_at_once": ("places.cpp", "thread", "at_once", "5000"),
    "test_cases_one_after_the_other_take_no_more_memory": ("places.cpp", "", "many", "100000"),
    "each_allocation_is_refused": ("memory.c", "address,undefined"),
    "each_allocation_of_the_client_is_refused": ("places.cpp", "address,undefined", "memory"),
    "a_client_of_cpp_without_memory": ("places.cpp", "thread", "lost"),
    "a_closed_test_case_has_no_more_remarks": ("places.cpp", "thread", "closed", "20"),
    "eight_servers_at_once": ("places.cpp", "thread", "servers", "20"),
    "no_wait_is_late": ("places.cpp", "", "meetings", "100")}
# The tests of others: their folder, and the words that they are called with.
OTHERS = {
    "random_sessions_in_cpp": ("serve", "--only", "plain_sessions_4", "--server", "PLACES lines"),
    "random_sessions_in_python": ("serve", "--only", "plain_sessions_4", "--server", shlex.join([sys.executable, "-c", SERVER])),
    "statuses_in_cpp": ("serve", "--only", "counts", "--server", "PLACES lines"),
    "statuses_in_python": ("serve", "--only", "counts", "--server", shlex.join([sys.executable, "-c", SERVER])),
    "random_moves_as_replay": ("program", "--only", "random_lists_are_replayed_4", "--program", "PLACES"),
    "the_program_in_process": ("program", "--only", "random_histories_are_checked_4", "--program", "PLACES"),
    "the_client_of_python": ("python", "--server", "library LIBRARY"),
    "the_client_of_cpp": ("cpp", "--server", "library LIBRARY")}

# The files that name numbers, and how they do.
NUMBERS = {"crates/tc_table/src/calls.rt": r"const (\w+): u\w+ = (\d+);", "clients/cpp/filskeam.h": r"FILSKEAM_(\w+)(?: =)? (\d+)"}


class Refusing:
    """The library, whose call of this number has no memory, among those that may say so, and how many places are open."""

    def __init__(self, library: object, left: int) -> None:
        self._library, self._left, self.open = library, left, 0

    def __getattr__(self, name: str) -> Callable[..., int]:
        def counted(*words: object) -> int:
            self._left -= name in ("filskeam_open", "filskeam_play")
            if self._left == 0 and name in ("filskeam_open", "filskeam_play"):
                return 4
            number = found(*words)
            self.open += {"filskeam_open": 1, "filskeam_close": -1}.get(name, 0) * (number == 0)
            return number

        found = getattr(self._library, name)
        return counted


class Place:
    """A folder for what is compiled, the folder of the library, and the program."""

    def __init__(self, room: str, library: str, program: str) -> None:
        self.room, self.library, self.program = room, library, program
        os.environ.update(FILSKEAM_LIBRARY=os.path.join(library, "libfilskeam.so"), PYTHONPATH=os.path.join(TOP, "clients", "python"))

    def printed(self, *words: str, given: str = "") -> str:
        ran = call(words, given)
        hold(ran.status == 0, f"{ran.output}{ran.errors}")
        return ran.output.strip()

    @lru_cache(None)
    def compiled(self, source: str, kind: str = "") -> str:
        compiler, archive = (("gcc", "-std=c11"), "_bare") if source.endswith(".c") else (("g++", "-std=c++17"), "")
        target, flags = os.path.join(self.room, f"{source}{kind}"), [f"-fsanitize={kind}"] * bool(kind)
        if kind and call(["g++", *flags, "-x", "c++", "-", "-o", target], "int main() {}").status:
            raise Skipped(f"there are no sanitizers {kind}")
        self.printed(*compiler, "-g", "-O0" if kind else "-O1", "-Wall", "-Wextra", "-Werror", *flags, "-I", os.path.join(TOP, "clients", "cpp"), os.path.join(HERE, source),
                     os.path.join(self.library, f"libfilskeam{archive}.a"), "-pthread", "-o", target)
        return target

    def other(self, folder: str, *words: str) -> str:
        """The last line of the tests of another folder."""
        named = [it.replace("PLACES", self.compiled("places.cpp")).replace("LIBRARY", self.library) for it in words]
        ran = subprocess.run([sys.executable, os.path.join(TESTS, folder, "run.py"), *named], stdout=subprocess.PIPE, text=True, check=False)
        hold(ran.returncode == 0, ran.stdout[-1500:])
        return ran.stdout.splitlines()[-1]

    def without_memory(self) -> str:
        """The client of Python says so, gives no verdict, and runs the next test case."""
        def main(run: Run) -> None:
            run.start(run.create(), lambda worker: (worker.sleep(0.05), worker.set_verdict("pass")))
            run.wait_done("all")

        for refused in (100, *range(7, 0, -1)):
            server = Server()
            server._library = library = Refusing(server._library, refused)
            found = server.run("t", main)
            lost = ("error", "MemoryError: the table ran out of memory", (), -1)
            same(refused < 100, (found.verdict, found.why, found.hung, found.evidence.find("\nend ")) == lost, found.report())
            same(("pass", 3 if refused < 100 else 0, 0), (server.run("t_next", main).verdict, server.close(), library.open), refused)
        return "7 calls"

    def is_found(self) -> str:
        """By its name, which may be empty for none, or next to the program; without one there is a pipe."""
        file, near, far, broken = (os.path.join(self.room, it, "libfilskeam.so") for it in ("named", "near", "far", "broken"))
        write(file, bytes_of(self.library, "libfilskeam.so")), write(near, bytes_of(file)), write(broken, "no library")
        for named, folder, wanted in ((None, far, None), (None, broken, None), (None, near, near), ("", near, None), (file, near, file),
                                      ("/nowhere", near, "cannot"), ("libc.so.6", near, "cannot")):
            with patch.dict(os.environ, {"FILSKEAM_LIBRARY": named or "", "TTRUN": os.path.join(os.path.dirname(folder), "ttrun")}):
                if named is None:
                    del os.environ["FILSKEAM_LIBRARY"]
                try:
                    server = Server()
                    found = server._library and server._library._name
                    same(found is None, bool(server._command), "a pipe instead of a library")
                except NoProgram as fault:
                    found = str(fault).split()[1]
                same(wanted, found, (named, folder))
        return "7 places"

    def in_order(self) -> str:
        """Behaviours in Python that call at once, on four servers: the evidence has each call in its turn, with its reply, and nothing after its end."""
        def chat(run: Run) -> None:
            with suppress(Ended):
                while True:
                    run.log("a remark")

        def main(run: Run) -> None:
            threading.Thread(target=chat, args=[run], daemon=True).start()
            for _ in range(8):
                run.start(run.create(), lambda it: list(it.create() for _ in range(100)))
            run.wait_done("all")

        before = sys.getswitchinterval()
        sys.setswitchinterval(1e-6)
        with ThreadPoolExecutor(4) as pool:
            evidence = list(pool.map(lambda _: Server().run("t", main, 20).evidence, range(20)))
        sys.setswitchinterval(before)
        for it in evidence:
            same([*range(1, 809), 0], list(map(int, re.findall(r"-> made (\d+)\n", re.sub(r"end none\n$", "-> made 0\n", it)))))
        return f"{808 * len(evidence)} calls"

    def numbers(self) -> str:
        """The header's are those of the crate, and so are those of the Python client."""
        crate, header = (dict(re.findall(form, text_of(path).replace("NOT_OPEN", "CLOSED"))) for path, form in NUMBERS.items())
        same(crate, header)
        same((crate["NO_MEMORY"], crate["REPLY"]), (str(NO_MEMORY), str(ROOM)))
        return f"{len(crate)} numbers"

    def in_rust(self) -> str:
        if not shutil.which("cargo"):
            raise Skipped("there is no cargo")
        room = os.path.join(self.room, "heater")
        self.printed("cargo", "new", "--quiet", "--vcs", "none", "--edition", "2021", room)
        shutil.copy(os.path.join(TOP, "clients", "rust", "heater.rs"), os.path.join(room, "src", "main.rs"))
        self.printed("env", f"RUSTFLAGS=-L native={self.library}", "cargo", "build", "--offline", "--quiet", "--manifest-path", os.path.join(room, "Cargo.toml"))
        history = self.printed(os.path.join(room, "target", "debug", "heater"))
        hold(history.endswith("\n1 setverdict fail -> ok\n1 finish -> ok\n0 wait done 1 -> matched\n0 finish -> ok\nend fail"), history)
        return self.printed(self.program, "check", given=history + "\n")


def main() -> int:
    tests: Dict[str, Callable[[Place], str]] = {
        **{name: lambda place, words=words: place.printed(place.compiled(*words[:2]), *words[2:]) for name, words in COMPILED.items()},
        **{name: lambda place, words=words: place.other(*words) for name, words in OTHERS.items()}, "an_executor_in_rust": Place.in_rust,
        "a_client_of_python_without_memory": Place.without_memory, "the_library_is_found": Place.is_found, "each_number_has_one_name": Place.numbers,
        "threads_of_python_call_in_turn": Place.in_order}
    parser = words_of("tests the library filskeam")
    parser.add_argument("--library", type=os.path.abspath)
    given, [named] = chosen(parser, (tests, 23))
    if not shutil.which("g++"):
        return status_of(answers_of(named, str, "compiler of C++"))
    library = given.library or subprocess.run([os.path.join(TOP, "ttrun"), "--library"], stdout=subprocess.PIPE, text=True, check=True).stdout.strip()
    with tempfile.TemporaryDirectory(prefix="filskeam-embed-") as room:
        place = Place(room, library, given.program)
        return status_of(answers_of(named, lambda test: test(place)))


if __name__ == "__main__":
    sys.exit(main())
