"""Servers that end, hang, or write what they may not; where the program is found; the file of the evidence."""
import os
import shutil
import sys
import time
from typing import List
from unittest.mock import patch

from filskeam import DynamicError, NoProgram, Refused, Run, Server, ServerEnded
from holding import TOP, evidence_in, hold, holds_word, legal_evidence, raises, same
from kit import CLIENT, FOR_EVER, Place, legal, timed

# A server that answers the first lines rightly, and then writes what it was given; then it ends, or waits.
STUB = """import os, sys, time
lines, status = sys.argv[1].encode().decode("unicode_escape").encode("latin-1"), sys.argv[2]
name = sys.stdin.buffer.readline().split()[1]
os.write(1, b"evidence 1 " + name + b" 256\\nbehaviour 0 main\\n")
while b"behaviour" not in sys.stdin.buffer.readline():
    pass
sys.stdin.buffer.readline()
os.write(1, lines)
if status == "hang":
    time.sleep(1000)
sys.stderr.write("something\\nttrun: no memory\\n")
sys.exit(int(status))
"""


def stub(place: Place, lines: str, status: str = "hang") -> List[str]:
    return [sys.executable, place.write("stub.py", STUB), lines, status]


def main_that_calls(run: Run) -> None:
    """A behaviour with two calls."""
    run.set_verdict("pass")
    run.get_verdict()


def a_server_that_is_killed(place: Place) -> None:
    """The evidence so far is there, the verdict is error, no behaviour hangs, and the next test case has a new server."""
    ended: List[int] = []

    def worker(run: Run) -> None:
        try:
            while True:
                run.get_verdict()
        except ServerEnded:
            ended.append(run.number)
            raise

    with place.server() as server:

        def main(run: Run) -> None:
            workers = [run.create() for _ in range(5)]
            for it in workers:
                run.start(it, worker)
            run.set_verdict("pass")
            time.sleep(0.1)
            server._program._process.kill()
            worker(run)

        result = timed(lambda: server.run("t_killed", main, timeout=20), 10)
        same((result.verdict, result.fault, result.why), ("error", "the server ended with signal 9", "the server ended with signal 9"))
        same((sorted(ended), result.hung, result.raised), ([0, 1, 2, 3, 4, 5], (), ()))
        lines = result.evidence.splitlines()
        legal_evidence(result.evidence + "end pass\n")
        legal(server.run("t_next", main_that_calls))
        same(server.close(), 3, "the status:")
    place.reach("lines", len(lines), 17)


def a_program_that_does_not_know_serve(place: Place) -> None:
    """The line that says so is named, and not the last one, which says how to get help."""
    refusal = "echo \"error: unrecognized subcommand 'serve'\" >&2; echo >&2; echo \"For more information, try '--help'.\" >&2; exit 3"
    with Server(["sh", "-c", refusal], grace=0.4) as server:
        result = timed(lambda: server.run("t_old", main_that_calls), 10)
    same(result.why, "the server ended with status 3: error: unrecognized subcommand 'serve'")
    place.reach("refusals", 1, 1)


def a_reader_that_breaks(place: Place) -> None:
    """What breaks the client's own reader ends the test case in error, and no behaviour hangs."""
    def main(run: Run) -> None:
        run.set_verdict("pass")
        run._case._take = breaks
        run.get_verdict()

    def breaks(_: str) -> bool:
        raise MemoryError

    with place.server() as server:
        result = timed(lambda: server.run("t_breaks", main), 10)
        same((result.verdict, result.hung, result.why), ("error", (), "the client cannot read on: MemoryError (server_tests.py:"
                                                         f"{breaks.__code__.co_firstlineno + 1})"))
        legal(server.run("t_next", main_that_calls))
    place.reach("lines", len(result.evidence.splitlines()), 3)


def a_server_that_ends_is_told_by_its_last_line(place: Place) -> None:
    """Its status and the last line of its standard error; half a line that it wrote is no evidence."""
    with Server(stub(place, "0 setverdict pass -> ok\\n0 getv", "3"), grace=0.4) as server:
        result = timed(lambda: server.run("t_ends", main_that_calls), 10)
        same((result.verdict, result.fault), ("error", "the server ended with status 3: ttrun: no memory"))
        same(result.evidence.splitlines()[-1], "0 setverdict pass -> ok")
        same(result.local("mtc"), "pass", "the local verdict:")
        same(server.close(), 3, "the status:")
    place.reach("lines", len(result.evidence.splitlines()), 3)


NONSENSE = (
    "hello\\n", "\\n", "\\xff\\xfe\\n", "0 setverdict pass -> banana\\n", "0 setverdict pass -> matched\\n", "0 setverdict pass -> parked\\n",
    "0 setverdict fail -> ok\\n", "0 getverdict -> none\\n", "1 finish -> ok\\n", "9 # who\\n", "end pass\\n", "end none\\n", "0 wake done 1 -> matched\\n",
    "evidence 1 t_nonsense 256\\n", "0 setverdict pass -> ok\\n0 setverdict pass -> ok\\n", "x" * 5000, "0 # " + "x" * 5000 + "\\n",
    "0 setverdict pass\\n", "0 setverdict pass -> ok \\n", " 0 setverdict pass -> ok\\n", "0 setverdict pass -> ok\\r\\n",
    "0 setverdict pass -> ok\\n0 ! bad line\\n0 ! bad line\\n")


def a_server_that_writes_nonsense(place: Place) -> None:
    """The test case is an error, what was written is named, and the server is ended."""
    for lines in NONSENSE:
        with Server(stub(place, lines), grace=0.4) as server:
            result = timed(lambda: server.run("t_nonsense", main_that_calls, timeout=20), 15)
            same((result.verdict, result.hung), ("error", ()), repr(lines[:60]))
            hold(result.fault.startswith("the server wrote what it may not write here: "), f"{lines[:60]!r}: {result.fault}")
            evidence_in(result.evidence + "end none\n")
            same(server.close(), 3, "the status:")
    place.reach("kinds of nonsense", len(NONSENSE), 22)


def a_wrong_first_or_last_line(place: Place) -> None:
    """A header of another test case, and an end with another verdict."""
    with Server(["sh", "-c", "echo evidence 1 t 256; exec sleep 1000"], grace=0.4) as server:
        result = timed(lambda: server.run("t_header", main_that_calls), 10)
        same((result.verdict, result.evidence), ("error", ""))
        holds_word("'evidence 1 t 256'", result.why)
    lines = "0 setverdict pass -> ok\\n0 getverdict -> pass\\n0 finish -> ok\\nend none\\n"
    with Server(["sh", "-c", 'python=$1; shift; cat > /dev/null & exec "$python" "$@"', "sh", *stub(place, lines)], grace=0.4) as server:
        result = timed(lambda: server.run("t_end", main_that_calls), 10)
        same(result.verdict, "error")
    place.reach("lines", 2, 2)


def a_server_that_hangs(place: Place) -> None:
    """It answers no call, or takes no lines: after the time-out it is killed, and the next one serves."""
    def chatter(run: Run) -> None:
        while True:
            run.log("x" * 200)

    def filler(run: Run) -> None:
        run.log("the last line that it reads")
        time.sleep(0.3)
        pipe = server._program._process.stdin.fileno()
        os.set_blocking(pipe, False)
        try:
            while True:
                os.write(pipe, b"x")
        except BlockingIOError:
            os.set_blocking(pipe, True)
        time.sleep(FOR_EVER)

    with Server(stub(place, ""), grace=0.4) as server:
        for main in (main_that_calls, chatter, filler):
            result = timed(lambda: server.run("t_hangs", main, timeout=1), 15)
            same((result.verdict, result.is_timed_out, result.evidence.splitlines()[1:]), ("error", True, ["behaviour 0 main"]))
            same(result.fault, "the server does not answer")
        same(server.close(), 3, "the status:")
    place.reach("servers", 3, 3)


def a_refused_line_changes_nothing(place: Place) -> None:
    """The run learns of it, the evidence says so, and the server serves on; its status is 3 at the end."""
    found = []

    def main(run: Run) -> None:
        for words in ("fly", "setverdict error", "wake done all", "create named 9a"):
            found.append(str(raises(Refused, lambda: run._exchange(words, ()))))
        run.set_verdict("pass")

    with place.server() as server:
        result = server.run("t_refused", main)
        told = [f"the server refused a line of run 0 main: {why}" for why in ("bad line", "bad line", "a wake comes of itself", "bad line")]
        same((result.verdict, found), ("pass", told))
        block = evidence_in(result.evidence)[0]
        same((len(block.marked("!")), server.run("t_next", main_that_calls).verdict), (4, "pass"))
        same(server.close(), 3, "the status:")
    place.reach("refused lines", len(found), 4)


def the_evidence_goes_into_a_file(place: Place) -> None:
    """Each block as the server wrote it, in order; one without its end goes next to it. What was there before is appended to on demand only."""
    path = place.write("run.evidence", "of an earlier run\n")
    place.write("run.evidence.cut", "of an earlier run\n")
    with place.server(evidence=path) as server:
        results = [server.run(f"t{at}", lambda run: run.set_verdict(verdict)) for at, verdict in enumerate(("pass", "fail", "none"))]

        def main(run: Run) -> None:
            server._program._process.kill()
            run.get_verdict()

        cut = server.run("t_cut", main)
        results.append(server.run("t_last", main_that_calls))
    same(place.text("run.evidence"), "".join(it.evidence for it in results))
    same([it.verdict for it in place.blocks("run.evidence")], ["pass", "fail", "none", "pass"])
    same(place.text("run.evidence.cut"), cut.evidence)
    with place.server(evidence=path, append=True) as server:
        results += [server.run(f"t{at}", main_that_calls) for at in (5, 6)] + [cut]
        more = server.run("t_cut", main)
    lines = place.text("run.evidence").splitlines()
    same([it.name for it in place.blocks("run.evidence")], ["t0", "t1", "t2", "t_last", "t5", "t6"])
    for it in results:
        file, line = it.place.rsplit(":", 1)
        same((file, lines[int(line) - 1]) if it is not cut else it.place, (path, f"evidence 1 {it.name} 256") if it is not cut else f"{path}.cut:1")
    same(more.place, f"{path}.cut:{len(cut.evidence.splitlines()) + 1}")
    raises(OSError, lambda: place.server(evidence="/nowhere/run.evidence"))
    place.reach("blocks", len(results), 7)


def statuses_are_those_of_the_server(place: Place) -> None:
    """0, 1 or 2 by the worst verdict; any other counts as 3."""
    for verdicts, status in ((["none", "pass"], 0), (["inconc", "pass"], 1), (["fail"], 1), (["pass", "error", "fail"], 2)):
        with place.server() as server:
            for verdict in verdicts:
                server.run("t", lambda run: run.stop_case() if verdict == "error" else run.set_verdict(verdict))
            same(server.close(), status)
            same(server.close(), status, "a second time")
    with place.server(command=["sh", "-c", '"$@"; exit 9', "sh", *place.command]) as server:
        server.run("t", lambda run: run.set_verdict("pass"))
        same(server.close(), 3, "a status that no server has:")
    place.reach("statuses", 4, 4)


def the_program_is_found(place: Place) -> None:
    """By a variable, then on the path, then the wrapper of the checkout."""
    path = os.environ["PATH"]
    with patch.dict(os.environ, FILSKEAM_TTRUN=place.program(), TTRUN=""):
        os.mkdir(place.path("other"))
        shutil.copyfile("/bin/false", place.path("other/ttrun"))
        os.chmod(place.path("other/ttrun"), 0o755)
        os.environ["PATH"] = place.path("other") + os.pathsep + path
        with Server(grace=0.4) as server:
            same(server.run("t", main_that_calls).verdict, "pass", "by the variable:")
        os.environ["TTRUN"] = "/nowhere/ttrun"
        holds_word("/nowhere/ttrun cannot be started", str(raises(NoProgram, lambda: Server().run("t", main_that_calls))))
        del os.environ["FILSKEAM_TTRUN"], os.environ["TTRUN"]
        os.environ["PATH"] = place.room + os.pathsep + path
        with Server(grace=0.4) as server:
            same(server.run("t", main_that_calls).verdict, "pass", "by the path:")
        os.environ["PATH"] = "/nowhere"
        if CLIENT.startswith(TOP):
            same(Server()._command, [os.path.join(TOP, "ttrun"), "serve"], "the wrapper:")
    place.reach("ways", 3, 3)


def more_runs_than_there_may_be(place: Place) -> None:
    """A case has 256 behaviours. One more is a dynamic error, which is reported as one, in words."""
    started = []

    def worker(run: Run) -> None:
        started.append(run.number)

    def main(run: Run) -> None:
        it = run.create(alive=True)
        for _ in range(300):
            run.start(it, worker)
            run.wait_done(it)

    result = place.run("t_many", main)
    same((result.verdict, started, type(result.raised[0].exception)), ("error", list(range(1, 256)), DynamicError))
    same(result.why, "run 0 main on mtc: start 1 256 -> error no-behaviour: a test case has at most 256 behaviours, and each start is one")
    same(len(legal(result).marked("")), 256, "names:")
    place.reach("runs", len(started), 255)
