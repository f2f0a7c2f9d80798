#!/usr/bin/env python3
"""Builds the libraries below a program side by side, and then the program: what ./ttrun starts if it has to build.

usage: tools/first_build.py TOP PROGRAM

An rt locks the folder of each crate that its own is built on, so two of them in one checkout wait for one another. So each library
is built in a small tree of its own, with copies of the sources and hard links of what is built below it, and its out/ is then
moved to the checkout. Meanwhile this program holds those locks, as one rt would. The program itself is built in the checkout.

Standard output says how far it is, in lines that begin with 'news: ' where a crate was begun, and else with 'build: ', and all
that the rt of a crate said once it has ended. The status is 0, or that of the rt that failed, whose words come last.
"""
import fcntl
import os
import re
import shutil
import signal
import subprocess
import sys
import time
from functools import lru_cache
from importlib.machinery import SourceFileLoader
from importlib.util import module_from_spec, spec_from_loader
from typing import Callable, Dict, List, Optional, Set

# Between two looks at what runs, in seconds.
PAUSE = 0.3
# As many as rt itself gives a check at most.
MOST_JOBS = 8
# The only crate that is left begins again with more jobs if it has run for that many seconds: reading what is below it takes a dozen.
WORTH_IT = 45
# How far those give way that others do not wait for so long.
YIELDING = 10
MEMINFO = "/proc/meminfo"
# The files of a group of processes with limits of its own: the limit, the place of what it takes, and after which word.
GROUPS = (
    ("/sys/fs/cgroup/memory.max", "/sys/fs/cgroup/memory.stat", "anon"),
    ("/sys/fs/cgroup/memory/memory.limit_in_bytes", "/sys/fs/cgroup/memory/memory.stat", "total_rss"),
)
QUOTAS = (
    ("/sys/fs/cgroup/cpu.max", "/sys/fs/cgroup/cpu.max", r"\S+ "),
    ("/sys/fs/cgroup/cpu/cpu.cfs_quota_us", "/sys/fs/cgroup/cpu/cpu.cfs_period_us", ""),
)
# What a build takes of memory, and what each of its jobs takes, in bytes, as measured.
OF_BUILD, OF_JOB = 700_000_000, 1_400_000_000
# The statuses of an rt that was killed, most likely for memory.
KILLED = (-signal.SIGKILL, 128 + signal.SIGKILL, 256 - signal.SIGKILL)
FUNCTIONS = re.compile(r"(?:so far:|checked .*,) (\d+ of \d+)(?: functions|$)")
WAITING = "waiting for another rt"
Uses = Dict[str, List[str]]
# The signals that came and are to end the build.
signals: List[int] = []


def pause() -> None:
    """Waits a bit, and ends the build where a signal came. They are looked at only here, so that none comes between two steps."""
    time.sleep(PAUSE)
    if signals:
        raise SystemExit(128 + signals[0])


def say(text: str) -> None:
    """Prints whole lines at once, since the wrapper reads along."""
    print(text, flush=True)


def number_in(path: str, before: str) -> Optional[int]:
    """The number after this text in a file, if it is there."""
    try:
        with open(path, encoding="utf-8") as file:
            found = re.search(rf"(?m)^{before}\s*(\d+)", file.read())
    except OSError:
        return None
    return int(found[1]) if found else None


def processors() -> int:
    """How many processors there are to use, by the group's quota too, or as many as RT_JOBS says."""
    wanted = os.environ.get("RT_JOBS", "")
    if wanted.isdigit() and int(wanted):
        return int(wanted)
    found = len(os.sched_getaffinity(0))
    for quota, period, before in QUOTAS:
        most, each = number_in(quota, ""), number_in(period, before)
        if most and each:
            found = min(found, max(1, most // each))
    return found


def free_memory() -> int:
    """The bytes of memory that are free, under the group's limit too."""
    found = [1024 * (number_in(MEMINFO, "MemAvailable:") or 0)]
    for limit, taken, before in GROUPS:
        most, now = number_in(limit, ""), number_in(taken, before)
        if most and now is not None:
            found.append(most - now)
    return min(found)


def need(jobs: int) -> int:
    return OF_BUILD + jobs * OF_JOB


def uses_of(top: str) -> Uses:
    """The crates of the repository, each with those of them that it uses."""
    found = {}
    with open(f"{top}/crates.txt", encoding="utf-8") as file:
        for line in file:
            name, colon, words = line.partition("#")[0].partition(":")
            if colon:
                found[name.split()[0]] = words.split()
    return {name: [it for it in words if it in found] for name, words in found.items()}


def with_below(uses: Uses, name: str) -> Set[str]:
    """The crate and all that it is built on."""
    found, left = {name}, [name]
    while left:
        new = set(uses[left.pop()]) - found
        found |= new
        left += new
    return found


def chains_of(uses: Uses, size: Callable[[str], int]) -> Dict[str, int]:
    @lru_cache(None)
    def chain(name: str) -> int:
        return size(name) + max((chain(it) for it in uses if name in uses[it]), default=0)

    return {it: chain(it) for it in uses}


def bytes_of(folder: str) -> int:
    """The size of a crate's code, which shows better than that of its lemmas how long its proof takes."""
    return sum(os.path.getsize(f"{at}/{it}") for at, _, names in os.walk(f"{folder}/src") for it in names)


def is_locked(folder: int) -> bool:
    """Whether another process holds the lock of a folder, otherwise takes it. Some file systems have no locks."""
    try:
        fcntl.flock(folder, fcntl.LOCK_EX | fcntl.LOCK_NB)
    except BlockingIOError:
        return True
    except OSError:
        pass
    return False


def link_or_copy(one: str, other: str) -> None:
    """Gives a file a second name, or copies it where the file system has no hard links. No rt writes into a file in place."""
    try:
        os.link(one, other)
    except OSError:
        shutil.copy2(one, other)


def remove(folder: str) -> None:
    """Removes a folder; what was just ended may still write there."""
    for _ in range(50):
        shutil.rmtree(folder, ignore_errors=True)
        if not os.path.lexists(folder):
            break
        time.sleep(0.1)


def sums_of(top: str) -> Dict[str, str]:
    """The sums by which this machine's rt knows what is built of each crate; none if it has another way."""
    kit = os.path.dirname(subprocess.run(["rt", "doc"], stdin=subprocess.DEVNULL, capture_output=True, text=True).stdout.strip())
    loader = SourceFileLoader("rtlib", f"{kit}/bin/rtlib.py")
    rtlib = module_from_spec(spec_from_loader("rtlib", loader))
    try:
        loader.exec_module(rtlib)
        os.chdir(top)
        return {it.name: it.stamp() for it in rtlib.crates_below(top)}
    except (Exception, SystemExit):
        return {}


def keep_proved(top: str, names: List[str]) -> None:
    """Has the libraries that an `rt ci` proved here count as built. It leaves them without the sums that another rt asks for, which
    would prove all of them again. If one is older than a source, or has its sum, nothing is changed."""
    made = [f"{top}/crates/{it}/out/rlib/{it}.rlib/format" for it in names]
    sources = [f"{at}/{file}" for name in names for part in ("src", "specs", "proofs")
               for at, _, files in os.walk(f"{top}/crates/{name}/{part}") for file in files]
    sums = [f"{top}/crates/{it}/out/rlib/stamp" for it in names]
    if not all(map(os.path.exists, made)) or any(map(os.path.exists, sums)):
        return
    if min(map(os.path.getmtime, made)) > max(map(os.path.getmtime, sources)):
        found = sums_of(top)
        for name, path in zip(names, sums):
            if name in found:
                with open(path, "w", encoding="utf-8") as file:
                    file.write(found[name])


class Running:
    """An rt that builds a crate, and what it said so far."""

    def __init__(self, name: str, jobs: int, words: List[str], folder: str, log: str, is_yielding: bool) -> None:
        self.name, self.jobs, self.log, self.told, self.began = name, jobs, log, "", time.monotonic()
        before = ["nice", "-n", str(YIELDING)] if is_yielding else []
        with open(log, "wb") as file:
            self.process = subprocess.Popen([*before, "rt", *words], cwd=folder, stdin=subprocess.DEVNULL, stdout=file, stderr=file)
        self.file = open(log, encoding="utf-8", errors="replace")

    def how_far(self) -> str:
        for line in self.file:
            found = FUNCTIONS.match(line)
            if found:
                self.told = f" {found[1]} functions"
            elif line.startswith("rt: ") and "waiting for " in line:
                self.told = f" {WAITING}"
        return f"{self.name}{self.told}"

    def end(self) -> None:
        self.process.terminate()
        try:
            self.process.wait(10)
        except subprocess.TimeoutExpired:
            self.process.kill()
            self.process.wait()
        self.file.close()


class Builder:
    """The build of a program and of the libraries below it."""

    def __init__(self, top: str, program: str) -> None:
        self.top, self.program = top, program
        every = uses_of(top)
        self.uses = {it: every[it] for it in with_below(every, program)}
        self.chains = chains_of(self.uses, lambda it: bytes_of(f"{top}/crates/{it}"))
        self.room = f"{top}/crates/{program}/out/building"
        # The program is built when another may use the room, so what is said of it has a file of this process.
        self.last = f"{self.room}.{os.getpid()}.log"
        # The memory that was free before what runs now took its part, at least.
        self.lanes, self.memory = processors(), 0
        self.told, self.has_begun = "", False
        self.running: Dict[str, Running] = {}
        self.built: Set[str] = set()
        # Those that were killed next to others: they run again by themselves. And those that began again with more jobs.
        self.killed: Set[str] = set()
        self.widened: Set[str] = set()

    def hold_folders(self) -> List[int]:
        """Waits until no other rt works in the crates' folders, and keeps others out, as an rt does."""
        held = [os.open(it, os.O_RDONLY) for it in sorted(os.path.realpath(f"{self.top}/crates/{it}") for it in self.uses)]
        for it in held:
            while is_locked(it):
                self.tell(WAITING)
                pause()
        return held

    def tell(self, text: str) -> None:
        """Says how far the build is, if that is another thing than before."""
        if text != self.told:
            is_news = self.has_begun or (WAITING in text and WAITING not in self.told)
            say(f"{'news' if is_news else 'build'}: {text}")
            self.told, self.has_begun = text, False

    def ready(self) -> List[str]:
        """The libraries that are built on nothing unbuilt, first the one with the longest chain above it."""
        left = self.uses.keys() - self.built - self.running.keys() - {self.program}
        return sorted((it for it in left if self.built.issuperset(self.uses[it])), key=lambda it: -self.chains[it])

    def jobs_for(self, name: str, share: int) -> int:
        """With how many jobs the crate may begin now, at most its share, and 0 if it has to wait for memory."""
        if self.running and self.killed.intersection([name, *self.running]):
            return 0
        now = free_memory()
        self.memory = max(now, self.memory) if self.running else now
        most = 1 if name in self.killed else min(share, MOST_JOBS)
        free = min(now, self.memory - sum(need(it.jobs) for it in self.running.values()))
        fitting = [it for it in range(1, most + 1) if need(it) <= free]
        return fitting[-1] if fitting else 0 if self.running else 1

    def begin_ready(self) -> None:
        """Begins what may begin. The longest chain gets all processors and goes before; the others share them next to it."""
        ready = self.ready()
        every = [*self.running, *ready]
        longest = max((self.chains[it] for it in every), default=0)
        for name in ready:
            is_longest = self.chains[name] == longest
            share = self.lanes if is_longest else max(1, self.lanes // len(every))
            jobs = self.jobs_for(name, share) if len(self.running) < self.lanes else 0
            if not jobs:
                break
            self.make_tree(name)
            self.begin(name, jobs, ["lib", "--jobs", str(jobs)], f"{self.tree(name)}/crates/{name}", not is_longest)

    def begin(self, name: str, jobs: int, words: List[str], folder: str, is_yielding: bool = False) -> None:
        os.makedirs(os.path.dirname(self.room) if name == self.program else self.room, exist_ok=True)
        self.has_begun = True
        log = self.last if name == self.program else f"{self.room}/{name}.log"
        self.running[name] = Running(name, jobs, words, folder, log, is_yielding)

    def tree(self, name: str) -> str:
        return f"{self.room}/{name}"

    def make_tree(self, name: str) -> None:
        """Makes the tree: the sources of the crate and of those below it, what is built of these, and what is kept of its own."""
        at, names = self.tree(name), with_below(self.uses, name)
        remove(at)
        for it in names:
            one, other = f"{self.top}/crates/{it}", f"{at}/crates/{it}"
            shutil.copytree(one, other, symlinks=True, ignore=lambda at, _, one=one: ["out", "must-fail"] if at == one else [])
            part = "out" if it == name else "out/rlib"
            if os.path.isdir(f"{one}/{part}"):
                shutil.copytree(f"{one}/{part}", f"{other}/{part}", symlinks=True, copy_function=link_or_copy)
        if os.path.exists(f"{self.top}/HANDLES"):
            shutil.copy(f"{self.top}/HANDLES", at)
        with open(f"{self.top}/crates.txt", encoding="utf-8") as every, open(f"{at}/crates.txt", "w", encoding="utf-8") as some:
            some.writelines(it for it in every if it.partition("#")[0].split(":")[0].strip().split(" ")[0] in names)

    def move_back(self, name: str) -> None:
        """Moves what an rt left in the crate's out/ to the checkout, instead of what was there."""
        made, out, old = f"{self.tree(name)}/crates/{name}/out", f"{self.top}/crates/{name}/out", f"{self.tree(name)}/old"
        for it in (made, out, old):
            os.makedirs(it, exist_ok=True)
        for it in {*os.listdir(out), *os.listdir(made)}:
            if os.path.lexists(f"{out}/{it}"):
                shutil.move(f"{out}/{it}", f"{old}/{it}")
            if os.path.lexists(f"{made}/{it}"):
                shutil.move(f"{made}/{it}", f"{out}/{it}")
        remove(self.tree(name))

    def ended(self, it: Running) -> int:
        """Keeps what an rt made that has ended, and says what it said. 0 if the build can continue."""
        del self.running[it.name]
        with it.file, open(it.log, encoding="utf-8", errors="replace") as file:
            said = file.read().replace(self.tree(it.name), self.top).rstrip()
        if it.name != self.program:
            self.move_back(it.name)
        status = it.process.returncode
        if status in KILLED and self.running:
            self.killed.add(it.name)
            say(f"{said}\n{it.name} was killed, and is built again by itself")
            return 0
        if status == 0:
            self.built.add(it.name)
        say(f"{said}\nend: {it.name}, status {status}")
        return status if status >= 0 else 128 - status

    def follow(self) -> int:
        """Looks once at all that runs: the status of what has failed, otherwise 0."""
        parts = ", ".join(it.how_far() for it in self.running.values())
        self.tell(f"{len(self.built)} of {len(self.uses)} crates built; {parts}")
        pause()
        over = [it for it in self.running.values() if it.process.poll() is not None]
        return next((status for status in map(self.ended, over) if status), 0)

    def widen(self) -> None:
        """Has the only crate that is left begin again with more jobs, once. It keeps what it has proved."""
        if len(self.running) != 1 or self.ready():
            return
        [(name, it)] = self.running.items()
        if 2 * it.jobs <= self.lanes and time.monotonic() - it.began > WORTH_IT and name not in self.killed | self.widened:
            self.widened.add(name)
            self.stop(name)

    def build_libraries(self) -> int:
        """Builds all except the program, each as soon as what it is built on is built."""
        status = 0
        while not status and len(self.built) < len(self.uses) - 1:
            self.widen()
            self.begin_ready()
            status = self.follow()
        return status

    def build_program(self) -> int:
        """Builds the program in the checkout, and runs it once for its help; or builds the library filskeam."""
        jobs = self.jobs_for(self.program, self.lanes)
        words = ["lib", "--jobs", str(jobs)] if self.program == "filskeam" else ["run", "--jobs", str(jobs), "--", "--help"]
        self.begin(self.program, jobs, words, f"{self.top}/crates/{self.program}")
        status = 0
        while self.running:
            status = self.follow()
        return status

    def stop(self, name: str) -> None:
        """Ends one, and keeps what it made so far."""
        self.running.pop(name).end()
        if name != self.program:
            self.move_back(name)

    def end_all(self) -> None:
        """Ends all that runs, and keeps what it made so far for the next build."""
        for it in self.running.values():
            it.process.terminate()
        while self.running:
            self.stop(next(reversed(self.running)))


def main(top: str, program: str) -> int:
    """Builds all, and leaves no tree after it."""
    for number in (signal.SIGINT, signal.SIGTERM, signal.SIGHUP):
        if signal.getsignal(number) != signal.SIG_IGN:
            signal.signal(number, lambda number, _: signals.append(number))
    top = os.path.abspath(top)
    builder = Builder(top, program)
    held = builder.hold_folders()
    try:
        keep_proved(top, [it for it in builder.uses if it != program])
        status = builder.build_libraries()
    finally:
        builder.end_all()
        remove(builder.room)
        for it in held:
            os.close(it)
    try:
        return status or builder.build_program()
    finally:
        builder.end_all()
        if os.path.lexists(builder.last):
            os.remove(builder.last)


if __name__ == "__main__":
    sys.dont_write_bytecode = True
    try:
        sys.exit(main(*sys.argv[1:]))
    except (OSError, shutil.Error) as fault:
        sys.exit(f"the build stopped: {fault}")
