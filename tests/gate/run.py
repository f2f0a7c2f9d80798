#!/usr/bin/env python3
"""The gate's tests: runs ./gate in trees of their own, with another program instead of each of its parts.

usage: tests/gate/run.py [--only WORD] [--list]

The last line is 'N passed, M failed'; the status is 0 if nothing failed, otherwise 1. No rt is needed.
"""
import hashlib
import os
import re
import shutil
import signal
import subprocess
import sys
import tempfile
from concurrent.futures import ThreadPoolExecutor
from typing import Dict, List, Tuple

sys.dont_write_bytecode = True
sys.path.append(os.path.dirname(os.path.dirname(os.path.abspath(__file__))))

from harness import SECONDS, TOP, Folder, add_tools, answer_of, call, chosen, hold, same, status_of, tests_of, wait_for, words_of

# The parts in their order, each by the command that it runs.
PARTS = ("tests/claims/check.py", "tests/gate/run.py", "tests/wrapper/run.py", "rt", "tests/program/run.py", "tests/hostile/run.py",
         "tests/serve/run.py", "tests/python/run.py", "tests/cpp/run.py", "tests/embed/run.py", "tests/titan/run.py", "tests/page/run.py",
         "tests/play/run.py", "tests/documents/run.py")
# The words that a part is run with, if it has any.
WORDS = {"rt": "ci", **{f"tests/{it}/run.py": "--server crates/ttrun/out/ttrun serve" for it in ("serve", "python", "cpp")}}
RECORD = "crates/ttrun/out/ttrun.gate"
LEFT = ("crates/ttrun/out/ttrun", "crates/ttrun/out/ttrun.sources", RECORD, "crates/refused_memory/out/refused_memory",
        "crates/car_window/out/car_window")
# How many tests each part passes where a test says nothing else.
NUMBERS = {part: number for number, part in enumerate(PARTS, 1)}
PASSING = {part: f"echo '{number} passed, 0 failed'" for part, number in NUMBERS.items()}
# A part that a gate of one second for each ends, and one that it has to kill.
ENDLESS = "echo '3 passed, 0 failed'; sleep 60"
DEAF = "trap '' TERM; echo '3 passed, 0 failed'; exec sleep 90"
BUILDS = f"echo program > {LEFT[0]}; echo '4 passed, 0 failed'"


def part_of(name: str) -> str:
    return next(it for it in PARTS if name in it)


def counted(failed: int = 0, **passed: int) -> str:
    """The last line of the gate if these parts pass that many tests."""
    return f"{sum({**NUMBERS, **{part_of(name): count for name, count in passed.items()}}.values())} passed, {failed} failed"


class Room(Folder):
    """A checkout with the gate and no more, to which a test adds stand-ins for its parts."""

    def __init__(self) -> None:
        self.below = tempfile.TemporaryDirectory(prefix="gate-test-")
        folder = self.below.name
        super().__init__(folder)
        shutil.copy2(os.path.join(TOP, "gate"), folder)
        self.git("init", "--quiet")
        for name in LEFT:
            self.write(name, "an earlier run left it\n")
        self.environment = {**os.environ, "PATH": f"{folder}/bin:/usr/bin:/bin", "TMPDIR": folder}
        self.environment.pop("RT_JOBS", None)

    def __exit__(self, *_: object) -> None:
        """Removes the tree, in which no temporary file is left."""
        with self.below:
            same([], [it for it in os.listdir(self.folder) if it.startswith("tmp.")], "temporary files are left")

    def put_parts(self, **parts: str) -> None:
        """Puts a stand-in in the place of each part, which notes its call, its words and RT_JOBS, and does as its text says."""
        texts = {**PASSING, **{part_of(name): text for name, text in parts.items()}}
        for part, text in texts.items():
            noted = f'echo "{part} $* ${{RT_JOBS:-none}}" >> "{self.folder}/calls"\n{text}\n'
            if part == "rt":
                self.write("bin/rt", f"#!/usr/bin/env bash\n[ \"$1\" != version ] || {{ echo of tests; exit; }}\n{noted}", is_run=True)
            else:
                self.write(f"{part}.sh", noted)
                self.write(part, "import os, sys\nos.execvp('bash', ['bash', __file__ + '.sh', *sys.argv[1:]])\n")

    def run(self, *words: str, status: int = 0, last: str = "", **parts: str) -> Tuple[List[str], str]:
        """Runs the gate over these stand-ins, and holds it to a status and a last line: its lines, and its standard error."""
        self.put_parts(**parts)
        ran = call([self.path("gate"), *words], cwd="/", env=self.environment)
        lines, last = ran.output.splitlines(), last or counted()
        hold(ran.status == status, f"status {status} is wanted: {ran}")
        hold((lines or [""])[-1] == last or status == 3 and not lines, f"the last line is {lines[-1:]}, and not {last!r}: {ran.errors}")
        return lines, ran.errors

    def calls(self) -> List[str]:
        return self.text("calls").splitlines() if os.path.exists(self.path("calls")) else []

    def record(self) -> List[str]:
        """What the gate leaves for a release."""
        return self.text(RECORD).splitlines()

    def commit(self) -> str:
        """Commits all of the tree but what a run writes."""
        self.put_parts()
        self.write(".gitignore", "out/\ncalls\n/tmp.*\n/bin/\n/tests/\n")
        return super().commit()

    def shorten(self) -> None:
        """Gives each part a second to end, and one more before it is killed."""
        text = re.sub(r"(?m)^part \d+ ", "part 1 ", self.text("gate")).replace("--kill-after=60", "--kill-after=1")
        hold(len(re.findall(r"(?m)^part 1 ", text)) == len(PARTS), "each part has a limit of seconds")
        self.write("gate", text, is_run=True)

    def note_limits(self, name: str) -> None:
        """Puts a timeout there that notes its limit and its command, and runs the command without a limit."""
        self.write(name, f'#!/usr/bin/env bash\nwhile [ "${{1#-}}" != "$1" ]; do shift; done\necho "$*" >> "{self.folder}/limits"\nshift\n'
                         'exec "$@"\n', is_run=True)

    def limits(self) -> Dict[str, int]:
        """The limit of each command that was noted."""
        return {words: int(limit) for limit, _, words in (it.partition(" ") for it in self.text("limits").splitlines())}

    def integrate(self, status: int, processors: int) -> Tuple[List[str], str]:
        """Runs continuous integration, where apt-get installs nothing and the gate ends so: what was called, and standard error."""
        for name, text in (("gate", f"exit {status}"), ("bin/apt-get", "exit 100")):
            self.write(name, f'#!/usr/bin/env bash\necho "{name} $*" >> "{self.folder}/calls"\n{text}\n', is_run=True)
        self.write("bin/nproc", f"#!/usr/bin/env bash\necho {processors}\n", is_run=True)
        ran = call([self.path(".ci/run")], cwd="/", env={"PATH": f"{self.folder}/bin:{self.folder}/tools"})
        calls = self.calls()
        os.remove(self.path("calls"))
        hold(ran.status == status, f"status {status} is wanted: {ran}")
        return calls, ran.errors


class Gate(Room):
    """The tests of ./gate, and of .ci/run."""

    def all_parts_pass(self) -> None:
        _, errors = self.run()
        same(([f"{it} {WORDS.get(it, '')} none" for it in PARTS], ""), (self.calls(), errors))

    def a_count_that_is_not_zero(self) -> None:
        for part in PARTS:
            for status in (1, 0):
                self.run(status=1, last=counted(3, **{part: 4}), **{part: f"echo '4 passed, 3 failed'; exit {status}"})

    def two_parts_fail_together(self) -> None:
        self.run(status=1, last=counted(5, wrapper=2, hostile=6), wrapper="echo '2 passed, 1 failed'; exit 1",
                 hostile="echo '6 passed, 4 failed'; exit 1")
        self.run(status=1, last=counted(11, claims=1, wrapper=1, rt=1, program=3, hostile=2), program="echo '3 passed, 3 failed'",
                 hostile="echo '2 passed, 2 failed'", **{it: "echo '1 passed, 2 failed'; exit 1" for it in ("claims", "wrapper", "rt")})

    def a_part_that_ends_badly_and_counts_no_failure(self) -> None:
        for status in (1, 2, 3, 137):
            _, errors = self.run(status=1, last=counted(1), program=f"echo '5 passed, 0 failed'; exit {status}")
            hold(f"ended with status {status} and counts no failure" in errors, errors)
        self.run(status=1, last=counted(1), rt="echo '4 passed, 0 failed'; exit 1")

    def a_part_that_is_killed(self) -> None:
        _, errors = self.run(status=1, last=counted(1, rt=0), rt=f"echo '9 passed'; kill -{int(signal.SIGKILL)} $$")
        hold("rt ci ended with status 137" in errors, errors)

    def a_part_that_counts_nothing(self) -> None:
        for text in ("exit 0", "exit 1", "echo 'all is well'", "echo '7 passed, 0 failed'; echo behind it", "echo '7 passed, 0 failed '",
                     "echo 'about 7 passed, 0 failed'", "echo '7 passed, no failed'", "echo '7 passed, 0 failed' >&2", "echo '0 passed, 0 failed'",
                     "echo '0 passed, 0 failed, 0 skipped'"):
            _, errors = self.run(status=1, last=counted(1, wrapper=0), wrapper=text)
            hold("counts no failure" in errors, f"{text}: {errors}")

    def a_part_that_skips_some(self) -> None:
        lines, errors = self.run(last=counted(page=8, play=2), page="echo '8 passed, 0 failed, 3 skipped'", play="echo '2 passed, 0 failed, 14 skipped'")
        wanted = [f"gate: SKIPPED, since something is missing: {it}" for it in ("3 tests of the page that shows histories", "14 tests of the page to try")]
        same((wanted, wanted), (lines[-3:-1], errors.splitlines()[-2:]), "what it says at its end")
        hold("SKIPPED" not in "".join(self.run()[0]), "it says of a part that skips nothing that it skips some")
        self.run(status=1, last=counted(1, page=1), page="echo '1 passed, 1 failed, 3 skipped'; exit 1")
        for skipped in (14, 1):
            self.run(last=counted(play=0), play=f"echo '0 passed, 0 failed, {skipped} skipped'")
        self.run(status=1, last=counted(1, page=0), page="echo '8 passed, 0 failed, some skipped'")

    def what_failed_is_named_at_the_end(self) -> None:
        lines, errors = self.run(status=1, last=counted(3, hostile=5, rt=7), rt="echo 'rt: FAILED: tc_run (tests)'; echo '7 passed, 1 failed'; exit 1",
                                 hostile="printf 'FAILED a\\n  why\\nok b\\nFAILED c\\n5 passed, 2 failed\\n'; exit 1")
        wanted = ["gate: rt ci: rt: FAILED: tc_run (tests)", "gate: hostile use: FAILED a", "gate: hostile use: FAILED c"]
        same((wanted, wanted), (lines[-4:-1], errors.splitlines()[-3:]), "what it says at its end")

    def both_outputs_in_one_file(self) -> None:
        self.put_parts(page="echo '8 passed, 0 failed, 3 skipped'")
        with open(self.path("all"), "wb") as file:
            subprocess.run([self.path("gate")], cwd="/", env=self.environment, stdin=subprocess.DEVNULL, stdout=file, stderr=file,
                           timeout=SECONDS, check=False)
        text = self.text("all")
        hold(text.startswith("gate: ") and text.count("SKIPPED") == 2 and "\0" not in text, f"what was written before is lost: {text!r}")

    def a_part_that_cannot_be_run(self) -> None:
        self.run(status=1, last=counted(1, program=0), program="exec /no/such/program")

    def a_part_that_does_not_end(self) -> None:
        self.shorten()
        _, errors = self.run(status=1, last=counted(1), wrapper=ENDLESS)
        hold("was ended after 1 seconds" in errors, errors)

    def a_part_that_does_not_end_if_it_is_told(self) -> None:
        self.shorten()
        _, errors = self.run(status=1, last=counted(1), wrapper=DEAF)
        hold("ended with status 137 and counts no failure" in errors, errors)

    def limits_of_the_parts(self) -> None:
        self.note_limits("bin/timeout")
        self.run()
        limits = self.limits()
        building = [limits.pop(it) for it in ("rt ci", "python3 tests/embed/run.py")]
        hold(building[0] >= 10_000 and building[1] >= 3000 and len(limits) == len(PARTS) - 2, (building, limits))
        hold(all(120 <= limit <= 1200 for limit in limits.values()), limits)

    def a_part_that_fails_stops_no_other(self) -> None:
        self.run(status=1, last=counted(1, claims=0), claims="echo '0 passed, 1 failed'; exit 1")
        same(len(PARTS), len(self.calls()), self.calls())

    def what_an_earlier_run_left(self) -> None:
        self.run(rt=f"for it in {' '.join(LEFT)}; do [ ! -e $it ] || exit 1; done; echo '4 passed, 0 failed'")

    def what_this_run_built_is_left(self) -> None:
        self.run(rt=f"for it in {' '.join(LEFT)}; do : > $it; done; echo '4 passed, 0 failed'",
                 hostile=f"for it in {' '.join(LEFT)}; do [ -e $it ] || exit 1; done; echo '6 passed, 0 failed'")

    def a_record_for_a_release(self) -> None:
        program = hashlib.sha256(b"program\n").hexdigest()
        wanted = [f"commit {self.commit()}", "tree clean", "toolchain of tests", f"program {program}"]
        self.run(rt=BUILDS)
        same([*wanted, f"gate {counted()}"], self.record())
        self.run(status=1, last=counted(3, program=6), rt=BUILDS, program="echo '6 passed, 3 failed'; exit 1")
        same([*wanted, f"gate {counted(3, program=6)}"], self.record())

    def a_record_of_a_tree_that_was_changed(self) -> None:
        name = self.commit()
        self.write("more", "not committed\n")
        self.run(rt=BUILDS)
        same([f"commit {name}", "tree changed"], self.record()[:2])
        os.remove(self.path("more"))
        for change in ("echo >> gate.more", "git -c user.name=a -c user.email=a@b commit --quiet --allow-empty --message more"):
            self.run(rt=BUILDS, titan=f"{change}; {PASSING[part_of('titan')]}")
            same(["commit none", "tree changed"], self.record()[:2], change)
            self.git("clean", "--quiet", "--force")

    def a_record_without_a_program(self) -> None:
        self.commit()
        self.run(rt="rm -rf crates; echo '4 passed, 0 failed'")
        same(["program ", f"gate {counted()}"], self.record()[3:])

    def no_record_of_a_gate_that_was_ended(self) -> None:
        self.commit()
        self.put_parts(page=ENDLESS)
        silent = {"stdin": subprocess.DEVNULL, "stdout": subprocess.DEVNULL, "stderr": subprocess.DEVNULL}
        with subprocess.Popen([self.path("gate")], env=self.environment, start_new_session=True, **silent) as started:
            wait_for(lambda: any("tests/page" in it for it in self.calls()), "the part is begun")
            started.terminate()
            # timeout makes a group of its own, which ends by its limit or with what it runs
            for line in call(["ps", "-eo", "pid,args"]).output.splitlines():
                if f"{self.folder}/tests/page" in line:
                    os.kill(int(line.split()[0]), signal.SIGKILL)
        hold(not os.path.exists(self.path(RECORD)), "it left what a whole gate leaves")

    def minutes_of_each_part(self) -> None:
        busy = "bash -c 'ulimit -t 2; while :; do :; done' 2> /dev/null"
        lines, _ = self.run(rt=f"{busy}; echo '4 passed, 0 failed'", wrapper=f"({busy}); sleep 1; echo '3 passed, 0 failed'")
        found = [re.fullmatch(r"gate: (.*) took (\d+) seconds, and (\d+\.\d\d) processor minutes", it) for it in lines]
        told = {it[1]: (int(it[2]), float(it[3])) for it in found if it}
        hold(len(told) == len(PARTS) + 1 and list(told)[-1] == "the whole", told)
        hold(all(it[0] in lines[lines.index("== gate"):] for it in found if it), "the end does not say again what each part took")
        cost = {name: told[next(it for it in told if name in it)] for name in ("rt ci", "wrapper", "the whole", "hostile")}
        hold(0.02 <= cost["rt ci"][1] <= 0.06 and 0.02 <= cost["wrapper"][1] <= 0.06 and cost["hostile"][1] <= 0.01, told)
        hold(cost["wrapper"][0] >= 2 and cost["the whole"][0] >= 4, told)
        every = sum(it[1] for name, it in told.items() if name != "the whole")
        hold(abs(cost["the whole"][1] - every) < 0.07, f"the whole is not the sum of its parts: {told}")

    def costs_of_hours(self) -> None:
        functions = re.search(r"(?ms)^ask_cpu\(\) \{.*?^\}$.*?^tell_cost\(\) [^\n]*$", self.text("gate"))
        script = f"""spent={self.folder}/spent
    times() {{ printf '0m1.000s 0m1.000s\\n%s %s\\n' "$1" "$2"; }}
    {functions[0]}
    cpu=17 && eval "$(declare -f ask_cpu | sed 's/times >/times $took >/')"
    for took in '445m7.080s 12m0.009s' '0m0,640s 0m0,020s'; do ask_cpu; tell_cost it 9000 "$cpu"; done
    """
        ran = call(["bash", "-c", script])
        same([f"gate: it took 9000 seconds, and {it} processor minutes" for it in ("457.11", "0.01")], ran.output.splitlines(), ran)

    def output_passes_through(self) -> None:
        lines, errors = self.run(claims="echo 'a line of it'; echo 'of errors' >&2; echo '1 passed, 0 failed'")
        hold("a line of it" in lines and "1 passed, 0 failed" in lines and errors == "of errors\n", f"{lines} {errors}")

    def jobs_for_rt(self) -> None:
        self.run("--jobs", "7")
        hold("rt ci 7" in self.calls(), self.calls())

    def words_that_it_does_not_know(self) -> None:
        for words in (["--jobs"], ["--jobs", "0"], ["--jobs", "x"], ["--jobs", "100"], ["rt"], ["--help", "x"]):
            lines, errors = self.run(*words, status=3)
            hold(not lines and errors.startswith("usage: ./gate"), errors)
        self.run("--help", last="usage: ./gate [--jobs N]   N processors for rt ci, as RT_JOBS=N; without it, as many as there are")
        same([], self.calls(), "a part was run")

    def something_is_missing(self) -> None:
        self.put_parts()
        for gone in ("rt", "python3", "git"):
            tools = add_tools(self.path(f"without {gone}"), "rt", gone)
            if gone != "rt":
                shutil.copy2(self.path("bin/rt"), tools)
            ran = call([self.path("gate")], env={"PATH": tools})
            hold(ran.status == 3 and f"no {gone}" in ran.errors and not ran.output, f"{gone}: {ran}")
        same([], self.calls(), "a part was run")

    def what_continuous_integration_runs(self) -> None:
        for folder in (".ci", "tools"):
            os.mkdir(self.path(folder))
        shutil.copy2(os.path.join(TOP, ".ci/run"), self.path(".ci"))
        for name in ("bash", "dirname", "timeout"):
            os.symlink(f"/usr/bin/{name}", self.path(f"tools/{name}"))
        installed = ("nodejs", "chromium", "firefox-esr", "poppler-utils", "parallel", "zsh", "fish")
        wanted = ["bin/apt-get update", *(f"bin/apt-get install --yes --no-install-recommends {it}" for it in installed)]
        for status, processors, jobs in ((0, 64, 4), (1, 2, 2), (3, 4, 4)):
            calls, errors = self.integrate(status, processors)
            hold(calls[:len(wanted)] == wanted and calls[-1] == f"gate --jobs {jobs}", calls)
            lacking = [it for it in installed if f"this could not be installed: {it}\n" not in errors]
            hold(not lacking and "apt-get update failed" in errors, errors)
        os.remove(self.path("tools/timeout"))
        self.note_limits("tools/timeout")
        self.integrate(0, 2)
        limits = self.limits()
        hold(len(limits) > len(installed) and all(it.startswith("apt-get ") and limit >= 300 for it, limit in limits.items()), limits)
        for name in ("node", "chromium", "firefox", "pdftotext", "parallel", "zsh", "fish"):
            self.write(f"bin/{name}", "#!/usr/bin/env bash\n", is_run=True)
        asked = [it for it in self.integrate(1, 8)[0] if "install" in it and " python3-" not in it]
        same([], asked, "what is there is installed")


# There are no fewer tests.
TESTS, FEWEST = tests_of(Gate), 26


if __name__ == "__main__":
    _, [tests] = chosen(words_of("runs ./gate over stand-ins for its parts", has_program=False), (TESTS, FEWEST))
    with ThreadPoolExecutor(4) as threads:
        sys.exit(status_of(threads.map(answer_of, tests, tests.values())))
