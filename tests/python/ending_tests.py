"""How behaviours end: by themselves, by what they raise, by others, and not at all."""
import asyncio
import multiprocessing
import os
import re
import signal
import subprocess
import sys
import threading
import time
from typing import Callable, Iterator, List
from unittest.mock import patch

from document_tests import README
from filskeam import Case, DynamicError, Ended, Run
from holding import evidence_in, hold, holds_word, raises, same, text_of
from kit import CLIENT, FOR_EVER, HANGS, Place, legal, timed


def alone(behaviour: Callable[..., object], *arguments: int) -> Callable[[Run], None]:

    def main(run: Run) -> None:
        worker = run.create("worker")
        run.start(worker, behaviour, *arguments)
        run.wait_done(worker)

    return main


def no_answer(run: Run) -> None:
    """A behaviour whose device is not there."""
    raise TimeoutError("no answer from 10.0.0.7")


class Mute(Exception):
    """An exception whose text is not available."""

    def __str__(self) -> str:
        raise RuntimeError


RAISED = ((TimeoutError("x"), "TimeoutError: x"), (SystemExit(3), "SystemExit: 3"), (KeyboardInterrupt(), "KeyboardInterrupt"),
          (AssertionError(), "AssertionError"), (ValueError("\n\x00 \xe4\u20ac"), r"ValueError: \x00 \xe4\u20ac"),
          (OSError("x" * 300), f"OSError: {'x' * 300}"), (Mute(), "Mute"))


def a_behaviour_that_raises_stops_the_case(place: Place) -> None:
    """The evidence is there, says what was raised and where; the exception is kept; the next test case runs."""
    with place.server() as server:
        for raised, text in RAISED:

            def worker(run: Run, it: BaseException = raised) -> None:
                run.set_verdict("pass")
                raise it

            result = timed(lambda: server.run("t_raises", alone(worker), timeout=5), 10)
            same((result.verdict, result.local("worker"), result.local("mtc")), ("error", "error", "none"))
            same([it.exception for it in result.raised], [raised])
            hold("1 stopcase -> ok" in legal(result).calls, "there is no stopcase")
            where = f" (ending_tests.py:{worker.__code__.co_firstlineno + 2})"
            told = (text if len(text + where) <= 200 else text[:198 - len(where)] + "..") + where
            same(result.why, f"run 1 worker on component 1 worker: stopcase: {told}")
            same(str(result.raised[0]), f"run 1 worker: {told}")
        same(server.run("t_next", lambda run: run.set_verdict("pass")).verdict, "pass", "the next case:")
        place.reach("exceptions", len(RAISED), 7)


def a_behaviour_that_is_no_plain_function(place: Place) -> None:
    """One that is asynchronous, or a generator, would run nothing and pass: the test case ends in error instead."""
    async def waits(run: Run) -> None:
        run.set_verdict("pass")

    def yields(run: Run) -> Iterator[None]:
        run.set_verdict("pass")
        yield

    with place.server() as server:
        results = [server.run("t_async", alone(it), timeout=20) for it in (waits, yields)]
        results.append(server.run("t_inside", lambda run: asyncio.run(waits(run)), timeout=20))
    for name, result in zip(("waits", "yields"), results):
        same((result.verdict, result.local("worker"), [type(it.exception) for it in result.raised]), ("error", "error", [TypeError]))
        holds_word(f"run 1 {name} on component 1 worker: stopcase: TypeError: a behaviour is a plain function", result.why)
    same((results[2].verdict, results[2].raised), ("pass", ()))
    place.reach("behaviours", len(results), 3)


def a_dynamic_error_is_told(place: Place) -> None:
    """Why has the call and the error; the exception is kept; the others are ended."""
    wrong: List[Callable[[Run], object]] = [
        lambda run: run.stop(7), lambda run: run.start(0, no_answer), lambda run: run.wait_done(run.create()),
        lambda run: run.start(run.create(), no_answer, 9), lambda run: run.start(4_294_967_295, no_answer)]
    errors = ("no-component", "start-main", "stuck", "no-component", "no-component")
    with place.server() as server:
        for call, error in zip(wrong, errors):
            result = server.run("t_wrong", call)
            same((result.verdict, [type(it.exception) for it in result.raised]), ("error", [DynamicError]))
            hold(result.why.startswith("run 0 lambda on mtc: ") and result.why.endswith(f" -> error {error}"), result.why)
            legal(result)
    place.reach("dynamic errors", len(wrong), 5)


def a_thread_that_cannot_be_made(place: Place) -> None:
    """Its starter learns of it as of an exception; nobody waits for the behaviour, or names it as hanging."""
    starts = threading.Thread.start

    def start(thread: threading.Thread) -> None:
        if thread.name == "t_thread run 1 worker":
            raise RuntimeError("can't start new thread")
        starts(thread)

    def worker(run: Run) -> None:
        run.set_verdict("pass")

    with patch.object(threading.Thread, "start", start):
        result = timed(lambda: place.run("t_thread", alone(worker)), 10)
    same((result.verdict, result.hung, [it.run for it in result.raised]), ("error", (), [0]))
    holds_word("run 0 main on mtc: stopcase: RuntimeError: can't start new thread", result.why)
    place.reach("entries", len(legal(result).calls), 3)


def a_case_past_its_time_out(place: Place) -> None:
    """It ends in error, what hangs is named, and the evidence is whole: a worker hangs, the main one, or all."""
    def hang(run: Run) -> None:
        run.set_verdict("pass")
        time.sleep(FOR_EVER)

    def all_hang(run: Run) -> None:
        for _ in range(3):
            run.start(run.create(), hang)
        hang(run)

    def one_hangs_killed(run: Run) -> None:
        worker = run.create()
        run.start(worker, hang)
        run.kill(worker)
        time.sleep(FOR_EVER)

    shown = {"a": ("run 1 hang",), "b": ("run 0 hang",), "c": ("run 0 all_hang", "run 1 hang", "run 2 hang", "run 3 hang"),
             "d": ("run 0 one_hangs_killed", "run 1 hang")}
    with place.server(grace=2) as server:
        server.run("warm", lambda run: None)
        for name, main in (("a", alone(hang)), ("b", hang), ("c", all_hang), ("d", one_hangs_killed)):
            result = timed(lambda: server.run(name, main, timeout=0.5), 15)
            same((result.verdict, result.is_timed_out, result.hung), ("error", True, shown[name]))
            holds_word(f"stopcase: the test case took longer than 0.5 s; not returned: {', '.join(shown[name])}", result.why)
            holds_word("the test case took longer than it may", result.report())
            legal(result)
        same(server.run("e", lambda run: run.set_verdict("pass"), timeout=20).is_timed_out, False)
        same(server.close(), 2, "the status:")
    place.reach("hanging behaviours", sum(map(len, shown.values())), 8)


def a_case_that_is_late_may_still_end_well(place: Place) -> None:
    """A behaviour that learns of the time-out returns. It is named all the same, as in why."""
    def late(run: Run) -> None:
        while True:
            time.sleep(0.02)
            run.check()

    def late_in_the_table(run: Run) -> None:
        while not run.wait_done(run.me, timeout=0.02):
            pass

    def late_in_the_device(run: Run) -> None:
        time.sleep(1.5)

    mains = (late, late_in_the_table, late_in_the_device)
    with place.server() as server:
        server.run("warm", lambda run: None)
        results = [timed(lambda: server.run("t_late", main, timeout=0.5), 10) for main in mains]
    for main, result in zip(mains, results):
        same((result.verdict, result.is_timed_out, result.hung), ("error", True, (f"run 0 {main.__name__}",)))
        holds_word(f"took longer than 0.5 s; not returned: {', '.join(result.hung)}", result.why)
        legal(result)
    place.reach("late behaviours", len(results), 3)


def a_case_past_its_time_out_is_no_pass(place: Place) -> None:
    """The server is stuck until after the limit, and then says pass."""
    def stalls(run: Run) -> None:
        process = server._program._process
        run.set_verdict("pass")
        process.send_signal(signal.SIGSTOP)
        threading.Timer(1, process.send_signal, [signal.SIGCONT]).start()

    with place.server() as server:
        server.run("warm", lambda run: None)
        result = timed(lambda: server.run("t_limit", stalls, timeout=0.5), 20)
        same(server.close(), 2, "the status:")
    same((result.verdict, result.is_timed_out, result.hung), ("error", True, ("run 0 stalls",)))
    same(result.why, "the test case took longer than 0.5 s; not returned: run 0 stalls")
    (block,) = evidence_in(result.evidence)
    same(block.verdict, "pass", "the evidence:")
    place.reach("entries", len(block.entries), 2)


def who_hangs_says_nothing_more_once_it_wakes(place: Place) -> None:
    """A thread that keeps running can put no line into the next test case."""
    wakes, woken = threading.Event(), []

    def sleeper(run: Run) -> None:
        wakes.wait(60)
        for call in (lambda: run.set_verdict("fail"), lambda: run.log("late"), run.check, lambda: run.sleep(9), lambda: run.start(1, sleeper)):
            woken.append(raises(Ended, call))

    def second(run: Run) -> None:
        wakes.set()
        while len(woken) < 5:
            run.sleep(0.02)
        run.set_verdict("pass")

    with place.server(grace=HANGS) as server:
        server.run("warm", lambda run: None)
        first = server.run("t_first", sleeper, timeout=0.3)
        result = server.run("t_second", second, timeout=20)
    same((first.hung, result.verdict, len(legal(result).calls)), (("run 0 sleeper",), "pass", 2))
    place.reach("late calls", len(woken), 5)


def a_case_that_another_behaviour_ends(place: Place) -> None:
    """A main behaviour that hangs in its device is not waited for: the test case is over, and the result names it."""
    wakes = threading.Event()
    ends: List[Callable[[Run], object]] = [lambda run: run.stop(0), lambda run: run.kill(0), lambda run: run.stop_case()]
    with place.server(grace=HANGS) as server:
        for end in ends:

            def main(run: Run, it: Callable[[Run], object] = end) -> None:
                run.start(run.create(), it)
                wakes.wait(30)

            result = timed(lambda: server.run("t_ended", main), 10)
            same((result.hung, result.is_timed_out), (("run 0 main",), False))
            place.reach("entries", len(legal(result).calls), 3)
    wakes.set()


def what_was_raised_is_in_its_order(place: Place) -> None:
    """The first exception is the first in the result."""
    def main(run: Run) -> None:
        run.start(run.create(), no_answer)
        try:
            run.sleep(FOR_EVER)
        except Ended:
            raise ValueError("second") from None

    result = timed(lambda: place.run("t_order", main, 30), 20)
    same([(it.run, type(it.exception)) for it in result.raised], [(1, TimeoutError), (0, ValueError)])
    told = [it for it in result.report().splitlines() if it.startswith("raised by ")]
    same([it.split(" (")[0] for it in told], ["raised by run 1 no_answer: TimeoutError: no answer from 10.0.0.7", "raised by run 0 main: ValueError: second"])
    place.reach("exceptions", len(result.raised), 2)


def nothing_comes_after_a_stop_of_the_case(place: Place) -> None:
    """The behaviour that stops the test case is ended by it."""
    reached: List[Run] = []

    def main(run: Run) -> None:
        run.stop_case("enough")
        reached.append(run)

    result = place.run("t_stop", main)
    same((result.verdict, result.raised, reached), ("error", (), []))
    place.reach("entries", len(legal(result).calls), 1)


def ended_is_no_exception(place: Place) -> None:
    """A behaviour that catches each Exception ends all the same if it is stopped. One that catches all else asks the table once."""
    tries, more = [], []

    def deaf(run: Run) -> None:
        while len(more) < 5000:
            try:
                run.get_verdict()
            except BaseException:
                more.append(raises(Ended, lambda: run.stop_case("late")))
        more.append(raises(Ended, run.check))

    def stubborn(run: Run) -> None:
        while True:
            try:
                tries.append(run.get_verdict())
                raise TimeoutError
            except Exception:
                pass

    def main(run: Run) -> None:
        for it in (stubborn, deaf):
            run.start(run.create(), it)
        while len(tries) < 50:
            time.sleep(0.005)
        run.stop("all")
        while len(more) < 5001:
            time.sleep(0.005)
        run.set_verdict("pass")

    result = place.run("t_stubborn", main, 20)
    same((result.verdict, result.hung, result.raised, set(tries)), ("pass", (), (), {"none"}))
    hold(sum(it.startswith("2 ") and it.endswith("-> ended") for it in legal(result).calls) == 1, "the table was asked again")
    place.reach("calls", len(tries) + len(more), 5050)


def check_and_sleep_learn_of_a_stop(place: Place) -> None:
    """A loop with check asks the table only if something was stopped; a long sleep ends at once."""
    turns, ended = [], []

    def loop(run: Run) -> None:
        try:
            while True:
                run.check()
                turns.append(1)
                time.sleep(0.0001)
        finally:
            ended.append(run.number)

    def sleeper(run: Run) -> None:
        try:
            run.sleep(FOR_EVER)
        finally:
            ended.append(run.number)

    def main(run: Run) -> None:
        workers = [run.create(), run.create()]
        run.start(workers[0], loop)
        run.start(workers[1], sleeper)
        while len(turns) < 300:
            run.sleep(0.01)
        run.stop("all")
        while len(ended) < 2:
            time.sleep(0.01)
        run.set_verdict("pass")

    result = timed(lambda: place.run("t_check", main, 30), 20)
    same((result.verdict, result.hung), ("pass", ()))
    entries = [it for it in legal(result).calls if "getverdict" in it]
    hold(len(entries) <= 8, f"a loop of {len(turns)} turns left {len(entries)} entries")
    place.reach("turns", len(turns), 300)


def a_wait_may_have_a_time_out(place: Place) -> None:
    """False where the time passed before; True as soon as it holds; the run does not wait in the table meanwhile."""
    found, seconds = [], []

    def worker(run: Run) -> None:
        run.sleep(0.4)

    def main(run: Run) -> None:
        it = run.create()
        found.append(run.wait_done(it, timeout=0.05))
        run.start(it, worker)
        found.append(run.wait_done("any", timeout=0.05))
        began = time.monotonic()
        found.append(run.wait_done(it, timeout=20))
        seconds.append(time.monotonic() - began)
        found.append(run.wait_killed(it, timeout=0))
        found.append(run.wait_killed("all"))

    result = place.run("t_wait", main, 30)
    same((result.verdict, found), ("none", [False, False, True, True, True]))
    hold(seconds[0] < 10, f"the wait took {seconds[0]:.1f} seconds")
    waits = [it for it in legal(result).calls if " wait " in it]
    same(waits, ["0 wait killed all -> matched"])
    hold(len(result.evidence.splitlines()) < 25, "it asks too often")
    place.reach("waits", len(found), 5)


def a_sleep_and_a_time_out_take_their_seconds(place: Place) -> None:
    """Not fewer, and not twice as many."""
    took: List[float] = []

    def main(run: Run) -> None:
        it = run.create()
        for call in (lambda: run.sleep(1.5), lambda: run.wait_done(it, timeout=1.5)):
            began = time.monotonic()
            call()
            took.append(time.monotonic() - began)

    same(place.run("t_seconds", main, 30).verdict, "none")
    hold(all(1.5 <= it < 2.9 for it in took), f"they took {took} seconds")
    place.reach("waits", len(took), 2)


def a_wait_with_a_time_out_misses_no_end(place: Place) -> None:
    """What it waits for ends after it was asked, and before the answer is looked at: the wait learns of it all the same."""
    ends, found = threading.Event(), []

    def main(run: Run) -> None:
        asks, it = run._is, run.create()
        run.start(it, lambda worker: ends.wait(20))

        def asks_slowly(status: str, target: object) -> bool:
            answer, before = asks(status, target), run._case._changes
            ends.set()
            while not answer and run._case._changes == before:
                time.sleep(0.001)
            return answer

        run._is = asks_slowly
        found.append(run.wait_done(it, timeout=8))

    result = timed(lambda: place.run("t_missed", main, 30), 6)
    same((result.verdict, found), ("none", [True]))
    place.reach("entries", len(legal(result).calls), 6)


def a_check_misses_no_stop(place: Place) -> None:
    """A stop that comes after it has asked, and before it looks at the answer: the next check learns of it."""
    asked, found = threading.Event(), []

    def worker(run: Run) -> None:
        calls = run._call

        def asks_slowly(words: str) -> None:
            calls(words)
            before = run._case._changes
            asked.set()
            while run._case._changes == before:
                time.sleep(0.001)

        run._call = asks_slowly
        run.check()
        run._call = calls
        found.append(raises(Ended, run.check))

    def main(run: Run) -> None:
        first, second = run.create(), run.create()
        run.start(first, lambda it: None)
        run.wait_done(first)
        run.start(second, worker)
        asked.wait(20)
        run.stop(second)
        while not found:
            run.sleep(0.01)

    result = timed(lambda: place.run("t_missed", main, 8), 20)
    same((result.verdict, len(found), result.raised), ("none", 1, ()))
    place.reach("entries", len(legal(result).calls), 10)


def a_forked_child_keeps_no_pipe(place: Place) -> None:
    """A simulator in a process of its own, which lives on: the server learns of the end of its input, and of the client's."""
    with place.server() as server:
        child = multiprocessing.get_context("fork").Process(target=time.sleep, args=(FOR_EVER,), daemon=True)

        def main(run: Run) -> None:
            child.start()
            run.set_verdict("pass")

        result = server.run("t_fork", main, timeout=20)
        pipes = {os.readlink(f"/proc/{os.getpid()}/fd/{it.fileno()}") for it in (server._program._input, server._program._output)}
        until = time.monotonic() + 5
        kept = pipes
        # the child closes them once it runs, which may be later than its parent continues
        while kept & pipes and time.monotonic() < until:
            kept = {os.readlink(it.path) for it in os.scandir(f"/proc/{child.pid}/fd")}
            time.sleep(0.01)
        began = time.monotonic()
        status = server.close()
        seconds = time.monotonic() - began
        hold(child.is_alive(), "the child has ended")
        child.kill()
    same((result.verdict, status, pipes & kept), ("pass", 0, set()))
    hold(seconds < 5, f"the server took {seconds:.1f} seconds to end")
    place.reach("pipes", len(pipes), 2)


def a_bench_that_is_interrupted_leaves_its_evidence(place: Place) -> None:
    """Ctrl-C stops the test case through the table; the file is whole; the interrupt is raised. SIGTERM does so by the line of the README only."""
    (line,) = re.findall(r"`(signal\.signal\(signal\.SIGTERM, [^`]+)`", text_of(README))
    interrupt(place, "", signal.SIGTERM, b"")
    same(place.text("run.evidence"), "")
    for more, number in (("", signal.SIGINT), (line, signal.SIGTERM)):
        interrupt(place, more, number, b"KeyboardInterrupt")
        found = place.blocks("run.evidence")
        same([it.verdict for it in found], ["error"])
        block = found[0]
        holds_word("the bench was interrupted; not returned: run 1 worker", block.marked("#")[0][1])
        place.reach("entries", len(block.entries), 4)


def interrupt(place: Place, line: str, number: int, shown: bytes) -> None:
    """Sends a signal to a bench with this line, and waits for its end, with that in its standard error."""
    text = f"""import signal, sys
sys.path.insert(0, {CLIENT!r})
from filskeam import Server

signal.signal(signal.SIGINT, signal.default_int_handler)  # a job in the background of a shell ignores it
{line}

def worker(run):
    run.sleep(0.5)
    print("waits", flush=True)
    run.sleep(1000)

def main(run):
    pump = run.create("pump")
    run.start(pump, worker)
    run.wait_done(pump)

with Server({list(place.command)!r}, evidence={place.path('run.evidence')!r}, grace=0.5) as server:
    server.run("t_interrupted", main)
"""
    bench = subprocess.Popen([sys.executable, place.write("bench.py", text)], stdout=subprocess.PIPE, stderr=subprocess.PIPE, start_new_session=True)
    same(bench.stdout.readline(), b"waits\n")
    os.killpg(bench.pid, number)
    _, errors = bench.communicate(timeout=30)
    hold(shown in errors, errors[-300:])


def a_case_runs_once(place: Place) -> None:
    """A test case that was run is not run again, and none inside another, where it would wait for that one's end."""
    def inside(run: Run) -> None:
        run.set_verdict("pass")
        server.run("t_inside", no_answer)

    with place.server() as server:
        case = Case("t_once", lambda run: run.set_verdict("pass"), server=server)
        same(case.run().verdict, "pass")
        raises(RuntimeError, case.run)
        result = timed(lambda: server.run("t_outside", alone(inside), timeout=20), 5)
        holds_word("stopcase: RuntimeError: run 1 inside cannot run test case t_inside: ", result.why)
        same(server.run("t_then", lambda run: run.set_verdict("fail")).verdict, "fail", "the next case:")
    place.reach("cases", 3, 3)


def the_calls_of_a_run_are_its_own_threads(place: Place) -> None:
    """Another thread may log, and do nothing else."""
    found: List[BaseException] = []

    def main(run: Run) -> None:
        def other() -> None:
            run.log("from another thread")
            for call in (run.get_verdict, run.check, lambda: run.set_verdict("fail"), lambda: run.start(1, no_answer), run.create):
                found.append(raises(RuntimeError, call))

        thread = threading.Thread(target=other)
        thread.start()
        thread.join()
        run.set_verdict("pass")

    result = place.run("t_threads", main)
    same((result.verdict, legal(result).marked("#"), len(result.evidence.splitlines())), ("pass", [(0, "from another thread")], 6))
    place.reach("calls", len(found), 5)
