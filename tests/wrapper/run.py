#!/usr/bin/env python3
"""The wrapper's tests: calls ./ttrun in trees of their own, over a stand-in for rt that proves nothing and takes time, and writes
a stand-in program.

usage: tests/wrapper/run.py [--only WORD] [--list]

The last line is 'N passed, M failed'; the status is 0 if nothing failed, otherwise 1.
"""
import os
import re
import shutil
import signal
import sys
import time
from concurrent.futures import ThreadPoolExecutor

sys.dont_write_bytecode = True
sys.path.append(os.path.dirname(os.path.dirname(os.path.abspath(__file__))))

from harness import SECONDS, answer_of, call, chosen, hold, same, status_of, tests_of, text_of, wait_for, words_of
from tree import CRATES, LARGE, STARTING, Tree, ended, hold_program, hold_refused, hold_tried


class Calls(Tree):
    """Calls of a program that is there or not: what passes through, and what a call needs."""

    def builds_once_and_runs(self) -> None:
        hold_program(self.built().call("a"))
        self.hold_runs(1)

    def words_and_bytes_pass_through(self) -> None:
        given = bytes(range(256)) * 5000
        for _ in range(2):
            ran = self.call("a b", "", "*", "$x", "--help", given=given)
            hold(ran.output == b"<a b><><*><$x><--help>" + given, f"{len(ran.output)} bytes came")
        same(b"told\n", ran.errors)
        self.hold_runs(1)

    def every_status_passes_through(self) -> None:
        same(2, self.call("a", ENDS="2").status, "the status of the first call")
        for status in (0, 1, 2, 3, 77):
            hold_program(self.call("a", ENDS=str(status)), status)

    def the_program_takes_the_place_of_the_wrapper(self) -> None:
        for _ in range(2):
            started = self.start("id")
            same(b"%d\n" % started.pid, ended(started).output)

    def the_program_inherits_nothing_of_the_wrapper(self) -> None:
        first = self.call("state", folder=self.bin)
        plain = self.call("state", command=[self.program], folder=self.bin)
        same(plain.output, first.output, "after a build")
        same(plain.output, self.call("state", folder=self.bin).output, "without a build")
        os.remove(self.program)
        ignoring = ["sh", "-c", 'trap "" INT HUP; exec "$@"', "sh"]
        found, plain = (self.call("state", command=[*ignoring, it]) for it in (self.path("ttrun"), self.program))
        same(plain.output, found.output, "with signals that are ignored")

    def rt_gets_no_input(self) -> None:
        same(b"<a>all of it", self.call("a", given=b"all of it").output)
        self.hold_runs(1)

    def no_rt(self) -> None:
        hold_refused(self.call("a", has_rt=False), "no rt on the path, the Rattle toolchain, which builds the program: or let TTRUN name a released program")

    def no_rt_but_a_program(self) -> None:
        hold_program(self.built().call("a", has_rt=False))

    def no_folder_for_temporary_files(self) -> None:
        for folder in (os.path.join(self.room, "none"), "relative", self.path("crates.txt")):
            hold_refused(self.call("a", TMPDIR=folder), "temporary", folder)
        self.hold_runs(0)

    def a_folder_for_temporary_files_that_cannot_be_written(self) -> None:
        self.close_to_writing("tmp")
        hold_refused(self.call("a", drops=True), "temporary", self.temporary)
        self.hold_runs(0)

    def no_folder_for_temporary_files_but_a_program(self) -> None:
        hold_program(self.built().call("a", TMPDIR="/nowhere"))

    def a_tree_that_cannot_be_written(self) -> None:
        self.close_to_writing("a tree")
        hold_refused(self.call("a", drops=True), "cannot be written", self.path("crates"))
        self.hold_runs(0)

    def a_library_that_cannot_be_written(self) -> None:
        os.makedirs(self.path("crates/tc_low/out"))
        self.close_to_writing("a tree/crates/tc_low")
        hold_refused(self.call("a", drops=True), "cannot be written", self.path("crates/tc_low/out"))

    def a_tree_that_cannot_be_written_with_a_program(self) -> None:
        self.built().close_to_writing("a tree")
        hold_program(self.call("a", drops=True))
        os.chmod(self.path("crates/ttrun/out"), 0o755)
        os.remove(f"{self.program}.sources")
        os.chmod(self.path("crates/ttrun/out"), 0o555)
        hold_program(self.call("a", drops=True))

    def a_link_to_it(self) -> None:
        self.built()
        near, far, second = os.path.join(self.bin, "near"), os.path.join(self.room, "far"), os.path.join(self.bin, "second")
        for target, link in (("../a tree/ttrun", near), (self.path("ttrun"), far), ("near", second)):
            os.symlink(target, link)
        for command in (near, far, second, "./far", "bin/second", "near", "a tree/ttrun"):
            hold_program(self.call("a", command=["sh", "-c", 'exec "$0" "$@"', command]))
        for command in (["./ttrun"], ["bash", "ttrun"]):
            hold_program(self.call("a", command=command, folder=self.folder))
        self.hold_runs(1)

    def a_copy_of_it(self) -> None:
        copy = self.add_program("../bin/ttrun", self.text("ttrun"))
        hold_refused(self.call("a", command=[copy]), "crates.txt", "link")


class Changes(Tree):
    """Which changes build the program again, and calls at once."""

    def a_restored_program_on_a_fresh_clone(self) -> None:
        self.built()
        with Tree() as clone:
            with STARTING:
                shutil.copytree(self.path("crates/ttrun/out"), clone.path("crates/ttrun/out"))
            for name in os.listdir(clone.path("crates/ttrun/out")):
                os.utime(clone.path(f"crates/ttrun/out/{name}"), (1, 1))
            hold_program(clone.call("a", has_rt=False))
            clone.change()
            hold_refused(clone.call("a", has_rt=False), "no rt")

    def sources_that_were_changed(self) -> None:
        self.built()
        for name in ("tc_low/src/src of.rt", "tc_high/specs/specs of.antt", "ttrun/proofs/proofs of.antt"):
            hold(self.is_built_again(lambda it=name: self.change(it)), f"{name} was changed")
        hold(self.is_built_again(lambda: self.change("../crates.txt", f"# Changed.\n{self.text('crates.txt')}")), "crates.txt")
        same(self.call("sum", command=[self.program]).output, self.call("sum").output, "another program")

    def sources_that_were_added_and_deleted(self) -> None:
        path, name = self.built().path("crates/tc_low/src/src of.rt"), "tc_high/src/deep/more.rt"
        for change, what in ((lambda: self.change(name), "a source was added"), (lambda: os.remove(self.path(f"crates/{name}")), "a source was deleted"),
                             (lambda: shutil.rmtree(self.path("crates/tc_low/proofs")), "a folder was deleted"),
                             (lambda: os.rename(path, f"{path}.rt"), "a source has another name")):
            hold(self.is_built_again(change), what)

    def what_is_no_source_of_the_program(self) -> None:
        self.built()
        for name in ("crates/other/src/src of.rt", "crates/tc_low/must-fail/must-fail of.edit", "crates/tc_low/out/incremental/kept", "README.md"):
            self.write(name, "-- changed\n")
        os.utime(self.path("crates/tc_low/src/src of.rt"))
        hold_program(self.call("a", has_rt=False))

    def a_program_without_a_stamp(self) -> None:
        stamp, later = f"{self.built().program}.sources", time.time() + 60
        for name in ("tc_low/src/src of.rt", "ttrun/src/src of.rt"):
            os.remove(stamp)
            hold_program(self.call("a", has_rt=False))
            os.utime(self.path(f"crates/{name}"), (later, later))
            hold_refused(self.call("a", has_rt=False), "no rt")
            self.change(name)
            os.remove(self.program)
            same(0, self.call("a").status, "it is built again")
        os.remove(stamp)
        os.remove(self.path("crates/tc_low/specs/specs of.antt"))
        os.utime(self.path("crates/tc_low/specs"), (later, later))
        hold_refused(self.call("a", has_rt=False), "no rt")

    def a_program_that_was_exchanged(self) -> None:
        self.built().add_program(self.program, f"{text_of(self.program)}echo exchanged\n")
        hold(self.is_built_again(), "the program was exchanged")

    def a_build_that_was_cut_before_its_stamp(self) -> None:
        was, name = self.built().call("sum").output, "tc_low/src/src of.rt"
        before = self.text(f"crates/{name}")
        self.change(name)
        started = self.start("a", FAKE_LATE="yes")
        wait_for(lambda: self.call("sum", command=[self.program]).output != was, "a new program")
        os.killpg(started.pid, signal.SIGKILL)
        ended(started)
        self.change(name, before)
        same(was, self.call("sum").output, "the program of the other sources was run")
        self.hold_runs(3)

    def a_source_that_is_changed_during_a_build(self) -> None:
        started = self.begun(FAKE_PAUSE="0.4")
        self.change("tc_high/src/src of.rt")
        same(0, ended(started).status, "the first build")
        hold(self.is_built_again(), "a source was changed during the build")

    def two_calls_at_once(self) -> None:
        first = self.begun(FAKE_PAUSE="0.4")
        rans = [ended(it) for it in (first, self.start("b"), self.start("c"))]
        same([b"<a>", b"<b>", b"<c>"], [it.output for it in rans])
        self.hold_runs(1)
        for it in rans[1:]:
            same(["ttrun: waiting for another ttrun, which builds the program", "told"], it.lines())

    def a_wait_of_more_than_a_minute(self) -> None:
        first, waited = self.begun(FAKE_PAUSE="0.4"), os.path.join(self.temporary, "waited")
        second = self.call("b", SHORT_WAIT=waited)
        same((b"<a>", b"<b>"), (ended(first).output, second.output))
        self.hold_runs(1)
        hold(os.path.exists(waited), "the second does not wait")
        same(["ttrun: waiting for another ttrun, which builds the program", "ttrun: still waiting for it", "told"], second.lines())

    def the_first_of_two_fails(self) -> None:
        first = self.begun(FAKE_PAUSE="0.3", FAKE_STATUS="1")
        second = self.start("b")
        same(3, ended(first).status, "the first fails")
        ran = ended(second)
        same((b"<b>", 0), (ran.output, ran.status), ran)
        self.hold_runs(2)


class Builds(Tree):
    """How the crates are built: what fails, what is built at once, and what is kept."""

    def a_build_that_fails(self) -> None:
        for status in ("1", "2", "3"):
            self.hold_not_built(self.call("a", FAKE_STATUS=status), "error: ttrun::one is not proved", f"status {status}")
        self.built().change()
        for _ in range(2):
            self.hold_not_built(self.call("a", FAKE_STATUS="1"), "error: ttrun::one is not proved")
        self.hold_runs(6)

    def a_library_that_fails(self) -> None:
        for status in ("1", "3"):
            ran = self.call("a", FAKE_STATUS=status, FAKE_AT="tc_high")
            self.hold_not_built(ran, f"error: tc_high::one is not proved in {self.path('crates/tc_high')}\n", f"status {status}")
        self.hold_runs(0)
        same(1, self.built().calls().count("built tc_low"), "what was built is built again")

    def what_rt_ci_proved_is_built(self) -> None:
        """It has no sums: these come from the toolchain. It is built again if a source is newer, or the toolchain gives no sums."""
        crates = ("tc_low", "tc_high", "tc_aside")
        self.built()
        sums = {it: self.text(f"crates/{it}/out/rlib/stamp") for it in crates}
        given = f"class Crate:\n    def __init__(self, name, sum): self.name, self.stamp = name, lambda: sum\ndef crates_below(top): return [Crate(*it) for it in {sums}.items()]\n"
        for text, is_old, built in ((given, False, 1), (given, True, 2), ("raise SystemExit(2)\n", False, 3)):
            self.write("../kit/bin/rtlib.py", text)
            for it in crates:
                os.remove(self.path(f"crates/{it}/out/rlib/stamp"))
                made = self.write(f"crates/{it}/out/rlib/{it}.rlib/format", "")
                os.utime(made, (0, 0) if is_old else None)
            os.remove(self.program)
            same((0, b"<a>"), (lambda ran: (ran.status, ran.output))(self.call("a")), "it is built")
            same([built] * 3, [self.calls().count(f"built {it}") for it in crates], self.calls())

    def one_fails_beside_another(self) -> None:
        began = time.monotonic()
        ran = self.call("a", FAKE_STATUS="1", FAKE_AT="tc_aside", FAKE_PAUSE_tc_aside="0.5", FAKE_PAUSE_tc_high="50")
        self.hold_not_built(ran, "error: tc_aside::one is not proved")
        hold(time.monotonic() - began < 20, "the failure is told late")
        hold(self.calls()[-1] == "ended tc_high" and not self.runs(), f"the other one goes on: {self.calls()}")
        same(["whole", "begun"], self.kept("tc_low", "tc_high"), "what is kept of what was done")
        hold("kept of tc_high before: begun\n" in text_of(f"{self.built().program}.log"), "the next call begins from nothing")

    def one_is_killed_beside_another(self) -> None:
        """By the signal itself, or as a program above says it: 137 in a shell, 247 in Python."""
        for ends in ("", "137", "247"):
            with Tree() as it:
                ran = it.call("a", FAKE_FAULT="once", FAKE_AT="tc_aside", FAKE_PAUSE_tc_high="3", FAKE_ENDS=ends)
                same((0, b"<a>"), (ran.status, ran.output), ran)
                calls, begins = it.calls(), it.begins()
                same((["tc_aside 1", "tc_high 2"], ["tc_aside 1", "ttrun 2"]), (sorted(begins[1:3]), begins[3:]), calls)
                hold(calls.index("killed tc_aside") < calls.index("built tc_high") < calls.index("built tc_aside"), f"it is not alone: {calls}")
                hold(calls.count("built tc_aside") == 1 and it.runs(), calls)

    def a_library_that_is_killed_alone(self) -> None:
        self.hold_not_built(self.call("a", FAKE_FAULT="yes", FAKE_AT="tc_aside", FAKE_PAUSE_tc_high="3"), "status 137")
        same(2, self.calls().count("killed tc_aside"), self.calls())

    def two_are_built_at_once(self) -> None:
        ran = self.call("a", FAKE_PAUSE="0.4")
        same(0, ran.status, ran)
        self.hold_runs(1)
        calls = self.calls()
        same(["lib tc_low --jobs 2", "built tc_low", "lib tc_aside --jobs 1", "lib tc_high --jobs 2"], [*calls[:2], *sorted(calls[2:4])], calls)
        same(["run ttrun --jobs 2 -- --help", "built ttrun"], calls[6:], calls)
        same(["whole"] * 4, self.kept("tc_low", "tc_high", "tc_aside", "ttrun"), "what is kept of what was done")
        hold(any(re.search("1 of 4 crates built; tc_high[^,]*, tc_aside", it) for it in ran.lines()), ran.lines())

    def one_processor(self) -> None:
        same(0, self.call("a", RT_JOBS="1", FAKE_PAUSE="0.1").status, "it is built")
        same(["tc_low 1", "tc_high 1", "tc_aside 1", "ttrun 1"], self.begins())
        same(["lib", "built"] * 3 + ["run", "built"], [it.split()[0] for it in self.calls()])

    def a_quota_of_processors(self) -> None:
        self.write("../sys/fs/cgroup/cpu.max", "150000 100000\n")
        same(0, self.call("a", RT_JOBS="").status, "it is built")
        same({"1"}, {it.split()[1] for it in self.begins()}, self.calls())

    def an_older_group_of_processes(self) -> None:
        self.write("../sys/fs/cgroup/cpu/cpu.cfs_quota_us", "100000\n")
        self.write("../sys/fs/cgroup/cpu/cpu.cfs_period_us", "100000\n")
        same(["tc_low 1", "tc_high 1", "tc_aside 1", "ttrun 1"], self.begins_with("")[0])
        self.write("../sys/fs/cgroup/cpu/cpu.cfs_quota_us", "-1\n")
        self.write("../sys/fs/cgroup/memory/memory.limit_in_bytes", "9000000000\n")
        self.write("../sys/fs/cgroup/memory/memory.stat", "rss 1\ntotal_rss 5000000000\n")
        same((["tc_low 2", "tc_high 2", "tc_aside 2", "ttrun 2"], False), self.begins_with("4"))

    def more_processors_than_a_crate_is_checked_with(self) -> None:
        same(["tc_low 8", "tc_high 8", "tc_aside 8", "ttrun 8"], self.begins_with("20")[0])

    def a_chain_of_crates(self) -> None:
        self.write("crates.txt", "tc_low:\ntc_high: tc_low\ntc_aside: tc_high\nttrun: tc_aside\n")
        same(["tc_low 2", "tc_high 2", "tc_aside 2", "ttrun 2"], self.built().begins())
        self.hold_runs(1)
        hold(self.is_built_again(self.change), "the lowest was changed")

    def the_longest_chain_comes_first(self) -> None:
        self.write("crates.txt", "tc_low:\ntc_high: tc_low\ntc_aside:\nttrun: tc_high tc_aside tc_low\n")
        self.write("crates/tc_aside/src/more.rt", LARGE[:len(LARGE) // 2])
        self.write("crates/tc_aside/proofs/more.antt", LARGE * 2)
        same(["tc_low 4", "tc_aside 2", "tc_high 4", "ttrun 4"], self.begins_with("4")[0])
        own, found = os.nice(0), [int(self.text(f"../nice of {it}")) for it in ("tc_low", "tc_aside", "tc_high", "ttrun")]
        same([own, min(own + 10, 19), own, own], found, "another goes before")
        same(["tc_low 1", "tc_high 1", "tc_aside 1", "ttrun 1"], self.begins_with("1")[0])
        os.remove(self.path("crates/tc_high/src/more.rt"))
        same(["tc_aside 1", "tc_low 1", "tc_high 1", "ttrun 1"], self.begins_with("1")[0])

    def one_that_is_left_alone_begins_again_with_more_jobs(self) -> None:
        self.change_builder("WORTH_IT = 45", "WORTH_IT = 1")
        same(0, self.call("a", RT_JOBS="4", FAKE_PAUSE_tc_aside="3").status, "it is built")
        same((["tc_low 4", "tc_aside 2", "tc_high 4"], ["tc_aside 4", "ttrun 4"]), ([*self.begins()[:1], *sorted(self.begins()[1:3])], self.begins()[3:]))
        same((1, 1), tuple(self.calls().count(it) for it in ("ended tc_aside", "built tc_aside")), self.calls())

    def memory_is_short(self) -> None:
        for memory, in_group, wanted, at_once in (
                (64, None, ["tc_low 4", "tc_high 4", "tc_aside 2", "ttrun 4"], True),
                (8.5, None, ["tc_low 4", "tc_high 4", "tc_aside 1", "ttrun 4"], True),
                (8, None, ["tc_low 4", "tc_high 4", "tc_aside 4", "ttrun 4"], False),
                (4, None, ["tc_low 2", "tc_high 2", "tc_aside 2", "ttrun 2"], False),
                (0.5, None, ["tc_low 1", "tc_high 1", "tc_aside 1", "ttrun 1"], False),
                (64, 4, ["tc_low 2", "tc_high 2", "tc_aside 2", "ttrun 2"], False)):
            self.give_memory(memory, in_group)
            same((wanted, at_once), self.begins_with("4"), f"{memory} {in_group}")

    def memory_that_others_take(self) -> None:
        self.write("crates.txt", "tc_low:\ntc_high: tc_low\ntc_aside:\nttrun: tc_high tc_aside tc_low\n")
        started = self.start("a", FAKE_PAUSE_tc_low="1", FAKE_PAUSE_tc_aside="3")
        wait_for(lambda: len(self.calls()) == 2, "two crates are begun")
        self.give_memory(1)
        same(0, ended(started).status, "it is built")
        order = [self.calls().index(it) for it in ("built tc_low", "built tc_aside", "lib tc_high --jobs 1")]
        same(sorted(order), order, self.calls())

    def a_file_system_without_links(self) -> None:
        self.change_builder("os.link(", "os.link('no such file' + ")
        self.built().change("tc_high/src/src of.rt")
        hold(self.is_built_again(), "a source was changed")
        same(1, self.calls().count("built tc_low"), self.calls())

    def a_file_system_without_locks(self) -> None:
        self.change_builder("fcntl.flock(folder,", "fcntl.flock(1_000_000,")
        ran = self.call("a", NO_LOCKS="yes")
        hold(ran.status == 0 and ran.output == b"<a>" and not any("waiting" in it for it in ran.lines()), ran)
        self.hold_runs(1)

    def what_is_built_is_linked(self) -> None:
        self.built().change("tc_high/src/src of.rt")
        started = self.start("a", FAKE_PAUSE_tc_high="3")
        wait_for(lambda: "tc_high 2" in self.begins()[4:], "tc_high is built again")
        below, above = self.path("crates/ttrun/out/building/tc_high/crates/tc_low"), self.path("crates/tc_low")
        hold(os.path.samefile(f"{below}/out/rlib/stamp", f"{above}/out/rlib/stamp"), "a copy of what is built")
        hold(not os.path.samefile(f"{below}/src/src of.rt", f"{above}/src/src of.rt"), "a source could change meanwhile")
        same(0, ended(started).status, "it is built")

    def a_link_among_the_sources(self) -> None:
        os.symlink("src of.rt", self.path("crates/tc_high/src/a link.rt"))
        started = self.start("a", FAKE_PAUSE_tc_high="3")
        wait_for(lambda: any(it.startswith("tc_high ") for it in self.begins()), "tc_high is built")
        hold(os.path.islink(self.path("crates/ttrun/out/building/tc_high/crates/tc_high/src/a link.rt")), "the link is a file now")
        same(0, ended(started).status, "it is built")

    def trees_that_an_earlier_build_left(self) -> None:
        for name in ("tc_low/crates/tc_low/out/rlib/stamp", "tc_low/crates.txt", "gone/crates/gone/src/main.rt"):
            self.write(f"crates/ttrun/out/building/{name}", "left\n")
        self.built().hold_runs(1)

    def a_build_that_is_killed(self) -> None:
        self.hold_not_built(self.call("a", FAKE_FAULT="yes"), "status 137")

    def a_build_that_leaves_no_program(self) -> None:
        self.hold_not_built(self.call("a", FAKE_NOTHING="yes"), "status 0")

    def a_program_that_does_not_run_here(self) -> None:
        self.built().add_program(self.program, b"\x7fELF\x00\x00 of another machine")
        os.remove(f"{self.program}.sources")
        ran = self.call("a", has_rt=False)
        hold(ran.status == 3 and "does not run on this machine" in ran.lines()[-1], ran)


class Stops(Tree):
    """Builds that are stopped, or wait, and what is said of them."""

    def a_build_that_is_stopped(self) -> None:
        building = self.path("crates/ttrun/out/building")
        for number in (signal.SIGINT, signal.SIGTERM, signal.SIGHUP):
            before = len(self.calls())
            started = self.start("a", FAKE_PAUSE_tc_high="50", FAKE_PAUSE_tc_aside="50")
            # Work that an earlier round kept lies in a tree before the rt runs, so each rt must have said that it does.
            wait_for(lambda: {"tc_high", "tc_aside"} <= {it.split()[1] for it in self.calls()[before:]}, "two crates are being built")
            wait_for(lambda: all(os.path.exists(f"{building}/{it}/crates/{it}/out/incremental/kept") for it in ("tc_high", "tc_aside")),
                     "both keep work in the trees of the build")
            began = time.monotonic()
            started.send_signal(number)
            ran = ended(started)
            hold(ran.status == -number and time.monotonic() - began < 30, f"{number!r}: {ran}")
            hold(ran.output == b"" and ran.lines()[-1].startswith("ttrun: stopped"), f"{number!r}: {ran}")
            same(["ended tc_aside", "ended tc_high"], sorted(self.calls()[-2:]), f"{number!r} does not end rt")
            same(["whole", "begun", "begun"], self.kept("tc_low", "tc_high", "tc_aside"), "what is kept of what was done")
            self.hold_tidy()
        same(1, self.built().calls().count("built tc_low"), "tc_low was built again")

    def the_program_is_stopped_while_it_is_built(self) -> None:
        started = self.start("a", FAKE_PAUSE_ttrun="50")
        wait_for(lambda: len(self.runs()) == 1 and self.kept("ttrun") == ["begun"], "the program is being built")
        started.terminate()
        same((-signal.SIGTERM, "ended ttrun"), (ended(started).status, self.calls()[-1]))
        self.hold_tidy()

    def a_hangup_that_is_ignored(self) -> None:
        """As below nohup: neither the build nor the program ends by it."""
        for number in range(2):
            started = self.begun(command=["sh", "-c", 'trap "" HUP; exec "$@"', "sh", self.path("ttrun")], FAKE_PAUSE="0.4")
            os.killpg(started.pid, signal.SIGHUP)
            same((0, b"<a>"), (lambda ran: (ran.status, ran.output))(ended(started)), self.calls())
            self.change(text=f"-- {number}\n")

    def a_line_for_each_crate(self) -> None:
        ran = self.call("a", FAKE_PAUSE="1.5")
        lines = [it for it in ran.lines() if " crates built" in it]
        wanted = ["0 of 4 crates built; tc_low", "1 of 4 crates built; tc_high, tc_aside", "3 of 4 crates built; ttrun"]
        same(wanted, [re.sub(r"^ttrun: 0 min \d+ s: | [07] of 12 functions", "", it) for it in lines])
        hold(b"\x1b" not in ran.errors and b"\r" not in ran.errors, "it writes over where there is no terminal")
        hold("--try" not in ran.lines()[0] and len(ran.lines()) <= len(lines) + 4, ran.lines())

    def a_line_a_minute(self) -> None:
        started = self.begun(FAKE_PAUSE="100")
        second = self.start("b")
        time.sleep(64)
        lines = os.read(second.stderr.fileno(), 65536).decode().splitlines()
        hold(len(lines) == 2 and lines[1] == "ttrun: still waiting for it", f"the second does not wait: {lines}")
        started.terminate()
        lines = [it for it in ended(started).lines() if "tc_low" in it]
        hold(len(lines) == 2 and "1 min " in lines[1], f"two lines in a minute are wanted: {lines}")
        wait_for(lambda: self.calls().count("lib tc_low --jobs 2") == 2, "the second builds")
        second.terminate()
        hold("proving" in ended(second).lines()[0], "the second says nothing of what it does")

    def another_rt_works_in_the_tree(self) -> None:
        with self.locked("tc_aside"):
            started = self.start("a")
            time.sleep(2)
            same([], self.calls(), "it does not wait")
        ran = ended(started)
        hold(ran.status == 0 and any("waiting for another rt" in it for it in ran.lines()), ran)
        self.hold_runs(1)

    def a_wait_for_another_rt_is_stopped(self) -> None:
        left = self.write("crates/ttrun/out/building/tc_low/crates.txt", "of the other\n")
        with self.locked("tc_low"):
            started = self.start("a")
            time.sleep(1.5)
            started.terminate()
            same((-signal.SIGTERM, []), (ended(started).status, self.calls()))
            hold(os.path.exists(left), "it removed what another build may use")

    def another_rt_waits_for_the_build(self) -> None:
        started = self.begun(FAKE_PAUSE_tc_low="1")
        for crate in ("tc_low", "tc_aside", "ttrun"):
            hold(not self.is_free(crate), f"another rt may work in {crate}")
        same(0, ended(started).status, "it is built")

    def folders_are_taken_by_their_names(self) -> None:
        """In that order an rt takes them too: two that wait for one another would wait for ever."""
        with self.locked("tc_high"):
            started = self.start("a")
            wait_for(lambda: not self.is_free("tc_aside"), "the first folder is taken")
            time.sleep(1)
            same([False, True, True], [self.is_free(it) for it in ("tc_aside", "tc_low", "ttrun")], "what is taken before tc_high")
        same(0, ended(started).status, "it is built")

    def two_builders_at_once(self) -> None:
        """As two wrappers begin them where the file system has no locks for the wrapper."""
        command = [sys.executable, self.path("tools/first_build.py"), self.folder, "ttrun"]
        both = [self.start(command=command, FAKE_PAUSE="0.2") for _ in range(2)]
        same([0, 0], [ended(it).status for it in both])
        same(2, len(self.runs()), self.calls())

    def a_build_at_a_terminal(self) -> None:
        _, lines = self.at_terminal("sum", FAKE_PAUSE="1.5")
        hold(len(lines) == 4 and lines[3] == "" and lines[0].startswith("ttrun: proving") and "ttrun --try ARGUMENTS" in lines[0], lines)
        parts = lines[1].split("\r\x1b[K")
        hold(parts[0] == "" and parts[-1].startswith("ttrun: built in "), parts)
        hold(len(parts) > 8 and all(len(it) < 80 for it in parts), parts)
        for it in ("0 of 4 crates built; tc_low 0 of 12 functions", "1 of 4 crates built; tc_high 7 of 12 functions, tc_aside 7",
                   "3 of 4 crates built; ttrun 7 of 12 functions"):
            hold(any(it in part for part in parts), f"{it!r} was not shown: {parts}")
        same(self.call("sum").output, lines[2].encode() + b"\n", "the program's line")

    def a_narrow_terminal(self) -> None:
        parts = self.at_terminal("sum", columns=30, FAKE_PAUSE="0.6")[1][1].split("\r\x1b[K")
        hold(all(len(it) < 30 for it in parts[1:-1]), parts)

    def a_terminal_of_no_width(self) -> None:
        names = [f"tc_{at}_{'x' * 40}" for at in range(2)]
        for it in names:
            self.write(f"crates/{it}/src/src of.rt", "-- a source\n")
        self.write("crates.txt", "".join(f"{it}:\n" for it in names) + f"ttrun: {' '.join(names)}\n")
        parts = self.at_terminal("sum", columns=0, FAKE_PAUSE="0.6")[1][1].split("\r\x1b[K")
        same(79, max(map(len, parts[1:-1])), f"it is taken for another than one of 80 columns: {parts}")

    def a_terminal_that_cannot_write_over(self) -> None:
        ran, _ = self.at_terminal("sum", TERM="dumb", FAKE_PAUSE="0.6")
        hold(b"\x1b" not in ran.output and ran.output.count(b"crates built") == 3, ran)
        os.remove(self.program)
        ran, _ = self.at_terminal("sum", TERM="", FAKE_PAUSE="0.6")
        hold(b"\x1b" not in ran.output and b"4 crates built" in ran.output, ran)

    def a_program_at_a_terminal(self) -> None:
        plain = self.built().call("sum").output
        ran, _ = self.at_terminal("sum")
        same((plain.replace(b"\n", b"\r\n"), 0), (ran.output, ran.status), "more than the program's")

    def a_build_that_fails_at_a_terminal(self) -> None:
        ran, lines = self.at_terminal("a", FAKE_PAUSE="0.6", FAKE_STATUS="1")
        hold(ran.status == 3 and lines[1].endswith("\r\x1b[Kkept of tc_low before: "), f"the line of progress stays: {lines}")

    def a_build_that_is_stopped_by_a_key(self) -> None:
        ran, _ = self.at_terminal("a", FAKE_PAUSE="50", keys=b"\x03")
        hold(ran.status == -signal.SIGINT and ran.output.decode().split("\r\x1b[K")[-1].startswith("ttrun: stopped"), ran)
        wait_for(lambda: self.calls()[-1] == "ended tc_low", "it ends rt")

    def standard_error_that_takes_nothing(self) -> None:
        for redirect in ("2>&-", "2>/dev/full"):
            ran = self.by_shell(f'exec "$@" {redirect}', "sum")
            hold(ran.status == 0 and ran.output, f"{redirect}: {ran}")
            os.remove(self.program)
            same(3, self.by_shell(f'exec "$@" {redirect}', "sum", has_rt=False).status, redirect)

    def standard_error_that_nobody_reads(self) -> None:
        started = self.begun(FAKE_PAUSE="2")
        started.stderr.close()
        started.stdin.close()
        same(-signal.SIGPIPE, started.wait(SECONDS))
        wait_for(lambda: self.calls()[-1] == "ended tc_low", "it ends rt")
        started.stdout.close()


class Tries(Tree):
    """Calls with --try, and with TTRUN."""

    def a_try(self) -> None:
        hold_tried(self.call("--try", "run", "a b", "", "*", "--try", given=b"given\0\xff"), b"<run><a b><><*><--try>given\0\xff")
        hold_tried(self.call("--try"), b"")
        for status in (1, 2, 3, 4, 6, 77):
            hold_tried(self.call("--try", "a", ENDS=str(status)), b"<a>", status=status)
        hold_tried(self.call("--try", "a", FAKE_TRY="odd"), b"<a>", b"run=ended status=9 proved=no\nchecked: ended status=9\ntold\n")
        hold(self.calls()[0] == "try ttrun run a b  * --try" and not self.runs(), self.calls())
        hold(not os.path.exists(self.path("crates/ttrun/out")), "files are left")
        self.hold_no_files()

    def a_try_into_a_full_device(self) -> None:
        ran = self.by_shell('exec "$@" > /dev/full', "--try", "a")
        hold(ran.status == 3 and ran.lines()[-1] == "ttrun: standard output could not be written", ran)
        self.hold_no_files()

    def a_try_of_a_slow_input(self) -> None:
        started = self.start("--try", "a")
        for it in (b"one", b"two"):
            started.stdin.write(it)
            started.stdin.flush()
            time.sleep(0.7)
        same([], self.calls(), "the program is run before its input has ended")
        hold_tried(ended(started), b"<a>onetwo")
        self.hold_runs(0)

    def a_try_at_a_terminal(self) -> None:
        _, lines = self.at_terminal("--try", "a")
        hold("nothing of this is proved" in lines[0] and "nothing is read from a terminal" in lines[1], lines)
        same(["told", "<a>"], lines[2:])

    def a_try_without_an_answer(self) -> None:
        ran = self.call("--try", "a", FAKE_TRY="no")
        same((3, b""), (ran.status, ran.output), ran)
        same(["| told", "checked: no-answer: the program did not end", "run=no-answer proved=no"], ran.lines()[1:4])
        hold("gave no answer" in ran.lines()[4], ran)
        self.hold_no_files()

    def a_try_that_is_stopped(self) -> None:
        for number in (signal.SIGINT, signal.SIGTERM, signal.SIGHUP):
            before = len(self.calls())
            started = self.start("--try", "a", FAKE_TRY="slow")
            started.stdin.close()
            started.stdin = None
            wait_for(lambda: len(self.calls()) > before, "rt runs")
            time.sleep(0.2)
            started.send_signal(number)
            ran = ended(started, None)
            same((-number, "ttrun: stopped", "ended ttrun"), (ran.status, ran.lines()[-1], self.calls()[-1]), ran)
            self.hold_no_files()
        started = self.start("--try", "a")
        time.sleep(0.5)
        started.terminate()
        same(-signal.SIGTERM, started.wait(SECONDS), "while it reads")
        self.hold_no_files()
        ended(started)

    def a_try_without_tools(self) -> None:
        hold_refused(self.call("--try", "a", has_rt=False), "no rt on the path")
        hold_refused(self.call("--try", "a", TMPDIR="/nowhere"), "temporary", "/nowhere")

    def a_try_of_a_tree_that_cannot_be_written(self) -> None:
        self.close_to_writing("a tree")
        hold_tried(self.call("--try", "a", drops=True), b"<a>")

    def no_python(self) -> None:
        self.environment(has_rt=False)
        for name in os.listdir(self.tools):
            if name.startswith("python"):
                os.remove(os.path.join(self.tools, name))
        self.add_program("../tools/rt", self.text("../bin/rt"))
        hold_refused(self.call("a", PATH=self.tools), "no python3")

    def tools_that_sort_in_another_way(self) -> None:
        hold_program(self.built().call("a", OTHER_TOOLS="yes"))
        self.hold_runs(1)

    def a_program_that_is_named(self) -> None:
        path, given = self.named(), bytes(range(256)) * 100
        for has_rt in (True, False):
            ran = self.call("run", "a b", "", "*", given=given, TTRUN=path, has_rt=has_rt)
            same((b"<named><unset><run><a b><><*>" + given, b"", 7), (ran.output, ran.errors, ran.status))
        hold(not self.calls() and not os.path.exists(self.path("crates/ttrun/out")), f"something is built: {self.calls()}")
        started = self.start("-c", "echo $$", TTRUN="/proc/self/exe", command=["sh", "-c", 'exec "$0" "$@"', self.path("ttrun")])
        same(b"%d\n" % started.pid, ended(started).output, "it does not take the place of the wrapper")

    def a_program_that_is_named_from_the_folder_of_the_call(self) -> None:
        self.named()
        for name in ("named", "./named", "a tree/../named"):
            same(b"<named><unset><a>", self.call("a", TTRUN=name).output, name)
        self.named("bin/on_the_path")
        hold_refused(self.call("a", TTRUN="on_the_path"), "TTRUN names ./on_the_path")

    def a_name_of_no_program(self) -> None:
        plain = self.built().write("../plain", "no program\n")
        for name in (plain, self.folder, "/nowhere", "no such"):
            hold_refused(self.call("a", TTRUN=name), "TTRUN names", name, "is no program")
        ran = self.call("a", TTRUN=self.add_program("../plain", b"\x7fELF\x00\x00 of another machine"))
        hold(ran.status == 3 and "TTRUN names" in ran.lines()[-1] and "does not run on this machine" in ran.lines()[-1], ran)
        hold_program(self.call("a", TTRUN=""))

    def a_copy_of_it_with_a_program_that_is_named(self) -> None:
        copy = self.add_program("../bin/ttrun", self.text("ttrun"))
        same(b"<named><unset><a>", self.call("a", command=[copy], TTRUN=self.named()).output)

    def a_wrapper_that_is_named(self) -> None:
        ran = self.call("a", TTRUN=self.path("ttrun"))
        same((0, b"<a>"), (ran.status, ran.output), ran)
        self.hold_runs(1)
        hold_tried(self.call("--try", "a", TTRUN=self.named()), b"<a>")


class Libraries(Tree):
    """The library instead of the program: a folder that a compiler of C takes."""

    def a_library_is_built_like_the_program(self) -> None:
        self.write("crates.txt", f"{CRATES}filskeam staticlib: tc_high\n")
        self.write("crates/filskeam/src/lib.rt", "-- filskeam\n")
        hold("is there a cc" in self.call("--library").lines()[-1], "made without a header")
        self.write("clients/cpp/filskeam.h", "int filskeam_open(void);\n")
        self.write("clients/cpp/filskeam.hpp", '#define FILSKEAM_VERSION "1.2.3"\n')
        self.write("../kit/c/heap.c", "int rattle_alloc(void) { return 7; }\n")
        same(0, call(["sh", "-c", "cc -fPIC -c heap.c && ar rc liblibc_c.a heap.o"], cwd=self.path("../kit/c")).status, "the kit")
        folder = self.path("crates/filskeam/out/library")
        for wanted in (1, 1, 2, 2):
            if wanted > self.text("../calls").splitlines().count("built filskeam"):
                self.change("filskeam/src/more.rt", "-- changed\n")
            ran = self.call("--library", TTRUN="/nowhere")
            same((0, f"{folder}\n".encode()), (ran.status, ran.output), ran)
            same(wanted, self.text("../calls").splitlines().count("built filskeam"), "how often it was built")
        same(["filskeam.h", "filskeam.hpp", "filskeam.pc", "libfilskeam.a", "libfilskeam.so", "libfilskeam_bare.a"], sorted(os.listdir(folder)))
        hold("Version: 1.2.3\n" in text_of(folder, "filskeam.pc"), text_of(folder, "filskeam.pc"))
        same("one.o heap.o", " ".join(call(["ar", "t", os.path.join(folder, "libfilskeam.a")]).output.split()))


# There are no fewer tests.
TESTS, FEWEST = tests_of(Calls, Changes, Builds, Stops, Tries, Libraries), 85


if __name__ == "__main__":
    _, [tests] = chosen(words_of("calls ./ttrun over a stand-in for rt", has_program=False), (TESTS, FEWEST))
    # The one that takes a minute begins first.
    names = sorted(tests, key=lambda it: it != Stops.a_line_a_minute.__name__)
    with ThreadPoolExecutor(8) as threads:
        sys.exit(status_of(threads.map(lambda name: answer_of(name, tests[name]), names)))
