"""A tree as the repository's, with the wrapper, three small crates and a stand-in for rt, in which a test calls the wrapper."""
from __future__ import annotations

import contextlib
import fcntl
import os
import pty
import shutil
import signal
import struct
import subprocess
import tempfile
import termios
import threading
import time
from typing import Callable, Dict, Iterator, List, Optional, Sequence, Tuple

import harness
from harness import SECONDS, TOP, Folder, Ran, add_tools, hold, same, text_of, wait_for

NOBODY = 65534
BUILDER = "tools/first_build.py"
# A change that many seconds ago, by its file times, came before the program was built.
OLD = 1000
# Held while a file is written that will be run, and while a call is started: a process that begins at that moment would
# hold the file open for writing, and no such file runs.
STARTING = threading.Lock()
CRATES = "# Each crate.\ntc_low: thiserror\ntc_high: tc_low\ntc_aside: tc_low\nother: tc_low\nttrun: tc_high tc_aside tc_low clap\n"
# After tc_low two crates are built on nothing unbuilt, of which tc_high is the larger one.
LARGE = "-- a line more\n" * 20


def as_user(drops: bool) -> Callable[[], None]:
    """What a call does before it begins: its terminal and signals as a shell gives them, and nobody's rights where they
    are asked for."""

    def begin() -> None:
        for it in (signal.SIGINT, signal.SIGTERM, signal.SIGHUP, signal.SIGPIPE):
            signal.signal(it, signal.SIG_DFL)
        if os.isatty(0):
            fcntl.ioctl(0, termios.TIOCSCTTY, 0)
        if drops and os.geteuid() == 0:
            os.setgroups([])
            os.setgid(NOBODY)
            os.setuid(NOBODY)

    return begin


def ended(started: subprocess.Popen, given: Optional[bytes] = b"") -> Ran:
    """Waits for the end of a call. One that has not ended in time is stopped, and its test has failed."""
    ran = harness.ended(started, given)
    hold(not ran.is_late, f"it had not ended after {SECONDS} seconds")
    return ran


def hold_refused(ran: Ran, *words: str) -> None:
    """Holds a call to one line on standard error that has these words, and to status 3."""
    hold(ran.status == 3 and not ran.output and len(ran.lines()) == 1, f"one line and status 3 are wanted: {ran}")
    hold(all(it in ran.lines()[0] for it in words), f"{words} are not all in {ran.lines()[0]!r}")


def hold_program(ran: Ran, status: int = 0) -> None:
    """Holds a call to what the stand-in program gives, and nothing of the wrapper's own."""
    same((b"<a>", b"told\n", status), (ran.output, ran.errors, ran.status), "a plain run of the program")


def hold_tried(ran: Ran, output: bytes, errors: bytes = b"told\n", status: int = 0) -> None:
    """Holds a call with --try to what the program gave, after the line that it is not proved."""
    first, _, rest = ran.errors.partition(b"\n")
    hold(b"nothing of this is proved" in first, ran)
    same((output, errors, status), (ran.output, rest, ran.status), "what was tried")


class Tree(Folder):
    """The tree, below a folder with a space in its name."""

    def __init__(self) -> None:
        self.room = tempfile.mkdtemp(prefix="wrapper test ")
        os.chmod(self.room, 0o755)
        super().__init__(os.path.join(self.room, "a tree"))
        self.bin, self.tools, self.temporary = (os.path.join(self.room, it) for it in ("bin", "tools", "tmp"))
        for it in (self.bin, self.temporary):
            os.makedirs(it)
        os.chmod(self.temporary, 0o777)
        for crate in ("tc_low", "tc_high", "tc_aside", "other", "ttrun"):
            for part, ending in (("src", "rt"), ("specs", "antt"), ("proofs", "antt"), ("must-fail", "edit")):
                self.write(f"crates/{crate}/{part}/{part} of.{ending}", f"-- {crate} {part}\n")
        self.write("crates/tc_high/src/more.rt", LARGE)
        self.write("crates.txt", CRATES)
        self.write("HANDLES", "Handles allowed: none.\n")
        self.program = self.path("crates/ttrun/out/ttrun")
        self.add_programs()

    def add_programs(self) -> None:
        """Adds the wrapper, its builder, which looks for memory and processors below the room, and the stand-ins."""
        text = text_of(BUILDER)
        for name in ("/proc/meminfo", "/sys/fs/cgroup/"):
            hold(name in text, f"{BUILDER} does not look at {name}")
            text = text.replace(name, f"{self.room}{name}")
        with STARTING:
            shutil.copy2(os.path.join(TOP, "ttrun"), self.folder)
        self.add_program(BUILDER, text)
        for name in ("rt", "sort", "flock"):
            self.add_program(f"../bin/{name}", text_of(f"tests/wrapper/{'rt' if name == 'rt' else 'tools'}.sh"))
        self.give_memory(64)

    def add_program(self, name: str, data: str | bytes) -> str:
        """Writes a file that is run, while no call begins."""
        with STARTING:
            return self.write(name, data, is_run=True)

    def change_builder(self, old: str, new: str) -> None:
        text = self.text(BUILDER)
        hold(old in text, f"{BUILDER} has no {old}")
        self.write(BUILDER, text.replace(old, new))

    def give_memory(self, most: float, in_group: Optional[float] = None) -> None:
        """Says how many gigabytes of memory are free, of the machine and of its group of processes."""
        self.write("../proc/meminfo", f"MemTotal: 99999999 kB\nMemAvailable: {int(most * 1e6)} kB\n")
        if in_group is not None:
            self.write("../sys/fs/cgroup/memory.max", f"{int(in_group * 1e9) + 5_000_000_000}\n")
            self.write("../sys/fs/cgroup/memory.stat", "file 77\nanon 5000000000\n")

    def __exit__(self, *_: object) -> None:
        """Removes the tree; what was just stopped may still write there."""
        for at, _, _ in os.walk(self.room):
            os.chmod(at, 0o755)
        for _ in range(50):
            shutil.rmtree(self.room, ignore_errors=True)
            if not os.path.exists(self.room):
                break
            time.sleep(0.1)

    def change(self, name: str = "tc_low/src/src of.rt", text: str = "-- changed\n") -> None:
        """Writes a file of the crates, by its file times long ago."""
        now = os.stat(self.write(f"crates/{name}", text)).st_mtime
        os.utime(self.path(f"crates/{name}"), (now - OLD, now - OLD))

    def environment(self, has_rt: bool = True, **more: str) -> Dict[str, str]:
        """The environment of a call; without rt there is no other either."""
        path = f"{self.bin}:/usr/bin:/bin" if has_rt else add_tools(self.tools, "rt")
        return {"PATH": path, "HOME": self.room, "TMPDIR": self.temporary, "FAKE_FOLDER": self.room, "TERM": "xterm", "RT_JOBS": "2", **more}

    def start(self, *words: str, command: Sequence[str] = (), drops: bool = False, has_rt: bool = True, folder: str = "",
              streams: Optional[Dict[str, int]] = None, **more: str) -> subprocess.Popen:
        """Starts a call of the wrapper, or of another command in its place."""
        pipes = streams or {"stdin": subprocess.PIPE, "stdout": subprocess.PIPE, "stderr": subprocess.PIPE}
        environment = self.environment(has_rt, **more)
        with STARTING:
            return subprocess.Popen([*(command or [self.path("ttrun")]), *words], cwd=folder or self.room, env=environment,
                                    preexec_fn=as_user(drops), start_new_session=True, **pipes)

    def call(self, *words: str, given: bytes = b"", **how) -> Ran:
        """Calls the wrapper, and waits for its end."""
        return ended(self.start(*words, **how), given)

    def by_shell(self, script: str, *words: str, **how) -> Ran:
        """Calls the wrapper by a shell, whose script gets it and the words as "$@"."""
        return self.call(*words, command=["sh", "-c", script, "sh", self.path("ttrun")], **how)

    def begun(self, *words: str, **how) -> subprocess.Popen:
        """Starts a call, and waits until rt runs."""
        before = len(self.calls())
        started = self.start(*(words or ("a",)), **how)
        wait_for(lambda: len(self.calls()) > before, "rt runs")
        return started

    def at_terminal(self, *words: str, columns: int = 80, keys: bytes = b"", **more: str) -> Tuple[Ran, List[str]]:
        """Calls the wrapper with all it writes, and what it reads, at a terminal. Its output, and the lines of it, are what a
        person sees, who presses the keys once the first crate is begun."""
        master, slave = pty.openpty()
        fcntl.ioctl(slave, termios.TIOCSWINSZ, struct.pack("HHHH", 24, columns, 0, 0))
        started = self.start(*words, streams={"stdin": slave, "stdout": slave, "stderr": slave}, **more)
        os.close(slave)
        left = [keys] if keys else []
        output = harness.shown_at(master, started, lambda seen: left and b"tc_low 0 of" in seen and os.write(master, left.pop()))
        return Ran(output, b"", started.returncode), output.decode().split("\r\n")

    def built(self) -> "Tree":
        """The tree with a program."""
        ran = self.call("a")
        hold(ran.status == 0 and ran.output == b"<a>" and ran.lines()[-2].startswith("ttrun: built in "), f"not built: {ran}")
        self.hold_tidy()
        return self

    def is_built_again(self, change: Callable[[], object] = lambda: None) -> bool:
        """Whether a built program is built again after a change, once."""
        before = len(self.runs())
        change()
        first, second = self.call("a"), self.call("a")
        hold(first.status == 0, first)
        hold_program(second)
        return len(self.runs()) == before + 1

    def calls(self) -> List[str]:
        """The calls of rt, what it saw, and how each ended."""
        return self.text("../calls").splitlines() if os.path.exists(self.path("../calls")) else []

    def runs(self) -> List[str]:
        """The calls that built the program; nothing may have gone wrong in a call of rt."""
        same([], [it for it in self.calls() if it.startswith("fault: ") or "waits for" in it], "what went wrong")
        return [it for it in self.calls() if it.startswith("run ")]

    def hold_runs(self, count: int) -> None:
        hold(len(self.runs()) == count, f"{count} builds are wanted: {self.calls()}")

    def hold_tidy(self) -> None:
        """Holds the builder to no tree left after it."""
        hold(not os.path.exists(self.path("crates/ttrun/out/building")), "the trees of the build are left")

    def hold_no_files(self) -> None:
        same([], os.listdir(self.temporary), "temporary files are left")

    def hold_not_built(self, ran: Ran, *words: str) -> None:
        """Holds a call to a build that failed, and that says these words."""
        log = f"{self.program}.log"
        hold(ran.status == 3 and ran.output == b"", ran)
        hold("ttrun: the program was not built" in ran.lines()[-1] and log in ran.lines()[-1], ran)
        hold(all(it in ran.errors.decode() for it in words), f"{words} are not all told: {ran}")
        hold("end: tc_low, status 0" in text_of(log), "the log is not whole")
        self.hold_tidy()

    def begins(self) -> List[str]:
        """The crates that were begun, in their order, each with its number of jobs."""
        return [f"{it.split()[1]} {it.split()[3]}" for it in self.calls() if it.startswith(("lib ", "run "))]

    def begins_with(self, jobs: str) -> Tuple[List[str], bool]:
        """What is begun with that many processors, if nothing is built, and whether two were built at once. Of two that begin
        at once the one with more jobs is listed first."""
        for it in ("tc_low", "tc_high", "tc_aside", "ttrun"):
            shutil.rmtree(self.path(f"crates/{it}/out"), ignore_errors=True)
        before = len(self.calls())
        hold(self.call("a", RT_JOBS=jobs, FAKE_PAUSE="0.2").status == 0, "it is not built")
        calls, found = self.calls()[before:], self.begins()[-4:]
        at = next((it for it in range(len(calls) - 1) if calls[it].startswith("lib ") and calls[it + 1].startswith("lib ")), None)
        if at is not None:
            first = sum(it.startswith("lib ") for it in calls[:at])
            found[first:first + 2] = sorted(found[first:first + 2], key=lambda it: it[-1], reverse=True)
        return found, at is not None

    def kept(self, *crates: str) -> List[str]:
        paths = [self.path(f"crates/{it}/out/incremental/kept") for it in crates]
        return [text_of(it).strip() if os.path.exists(it) else "" for it in paths]

    @contextlib.contextmanager
    def locked(self, crate: str) -> Iterator[None]:
        """Another rt that works in a crate."""
        other = os.open(self.path(f"crates/{crate}"), os.O_RDONLY)
        try:
            fcntl.flock(other, fcntl.LOCK_EX | fcntl.LOCK_NB)
            yield
        finally:
            os.close(other)

    def is_free(self, crate: str) -> bool:
        """Whether another rt may work in a crate."""
        try:
            with self.locked(crate):
                return True
        except BlockingIOError:
            return False

    def close_to_writing(self, name: str) -> None:
        """Gives the room to nobody, if the tests run as root, and takes the right to write from all below a folder of it."""
        if os.geteuid() == 0:
            for at, _, files in os.walk(self.room):
                for it in (at, *(os.path.join(at, name) for name in files)):
                    os.chown(it, NOBODY, NOBODY, follow_symlinks=False)
        for at, _, files in os.walk(os.path.join(self.room, name)):
            for it in files:
                os.chmod(os.path.join(at, it), os.stat(os.path.join(at, it)).st_mode & 0o555)
            os.chmod(at, 0o555)

    def named(self, name: str = "named") -> str:
        """A program for TTRUN. It says that it was named, whether it still sees TTRUN, and which words it got."""
        return self.add_program(f"../{name}", "#!/usr/bin/env bash\nprintf '<%s>' named \"${TTRUN-unset}\" \"$@\"\ncat\nexit 7\n")
