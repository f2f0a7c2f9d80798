"""Words: what is refused before it is sent, remarks, names, what a result says, and random test cases of forty behaviours."""
import functools
import os
import random
from collections import Counter
from typing import Callable, List, Tuple

from filskeam import Case, DynamicError, Result, Run
from harness import call
from holding import hold, hold_each_call, holds_word, raises, same
from kit import FOR_EVER, Place, legal
from table import Table


def nothing(run: Run) -> None:
    """A behaviour without calls."""


WRONG: Tuple[Callable[[Run], object], ...] = (
    lambda run: run.set_verdict("passed"), lambda run: run.set_verdict("error"), lambda run: run.set_verdict("pass\n0 finish"),
    lambda run: run.set_verdict(None), lambda run: run.create("9a"), lambda run: run.create("a b"), lambda run: run.create(""),
    lambda run: run.create("all"), lambda run: run.create("mtc"), lambda run: run.create("a" * 33), lambda run: run.create("b\n"),
    lambda run: run.create(7), lambda run: run.create("\u00e4"), lambda run: run.stop("any"), lambda run: run.kill("self"), lambda run: run.stop(-1),
    lambda run: run.stop(True), lambda run: run.kill(1.0), lambda run: run.kill(None), lambda run: run.wait_done(4_294_967_296),
    lambda run: run.wait_done("1"), lambda run: run.wait_killed("every", timeout=1), lambda run: run.running("0\n0 finish"),
    lambda run: run.alive([1]), lambda run: run.done("none"), lambda run: run.killed(""), lambda run: run.start("any", nothing),
    lambda run: run.start(1, 7), lambda run: run.start(1, nothing, "x"), lambda run: run.start(1, nothing, 0, 0, 0, 0, 0))


def each_call_has_its_word(place: Place) -> None:
    """All calls, and each status of a component: not started, stopped, killed, running."""
    def ask(run: Run, it: int) -> None:
        for call in (run.running, run.alive, run.done, run.killed):
            call(it)

    def main(run: Run) -> None:
        pump, other = run.create("pump", alive=True), run.create()
        ask(run, pump)
        run.start(pump, nothing)
        run.wait_done(pump)
        ask(run, pump)
        run.kill(pump)
        ask(run, pump)
        run.start(other, lambda worker: worker.sleep(FOR_EVER))
        ask(run, other)
        run.stop(other)
        ask(run, other)
        run.wait_killed(other)
        run.set_verdict("pass")
        run.get_verdict()

    place.reach("entries", hold_each_call(legal(place.run("t_calls", main, 30)).calls), 30)


def wrong_words_are_not_sent(place: Place) -> None:
    """Each is a ValueError that names the word; the evidence has nothing of it."""
    found: List[str] = []

    def main(run: Run) -> None:
        for call in WRONG:
            found.append(str(raises(ValueError, lambda: call(run))))

    with place.server() as server:
        result = server.run("t_words", main)
        same((result.verdict, legal(result).calls), ("none", ["0 finish -> ok"]))
        same(server.close(), 0, "the status:")
    same(found[0], "'passed' is no verdict to set: there are none, pass, inconc and fail")
    same(found[13], "'any' is not a component's number or 'all'")
    for name in ("t-bad", "", "all", "a" * 33, "t\n", None):
        holds_word(f"a test case cannot be called {name!r}", str(raises(ValueError, lambda: Case(name, nothing))))
    place.reach("wrong words", len(found) + 6, 36)


REMARKS = (
    ("too hot", "too hot"), (81, "81"), ("", None), ("   ", None), ("a\nb\r\n\tc", "a b c"), ("81 \u00b0C", r"81 \xb0C"), ("\u20ac", r"\u20ac"),
    ("\x1b[31mred\x00\x7f", r"\x1b[31mred\x00\x7f"), ("# -> ok", "# -> ok"), ("x" * 200, "x" * 200), ("x" * 201, "x" * 198 + ".."),
    ("\u00e4" * 60, r"\xe4" * 49 + r"\x" + ".."), ("\ud800", r"\ud800"), (b"\xff\n", r"b'\xff\n'"), (None, "None"), ("~", "~"))


def remarks_are_cut_and_cleaned(place: Place) -> None:
    """Other bytes are escapes, white space is one space, and a long text is cut."""
    def main(run: Run) -> None:
        for text, _ in REMARKS:
            run.log(text)
            run.set_verdict("pass", text)

    with place.server() as server:
        result = server.run("t_remarks", main)
        same(server.close(), 0, "the status:")
    wanted = [(0, plain) for _, plain in REMARKS for _ in range(2) if plain is not None]
    same(legal(result).marked("#"), wanted)
    place.reach("remarks", len(wanted), 28)


class Sampler:
    """A behaviour that is an object."""

    def __call__(self, run: Run, *_: int) -> None:
        run.set_verdict("pass")

    def _method(self, run: Run) -> None:
        run.set_verdict("pass")


def one_function_is_many_behaviours(place: Place) -> None:
    """Each start is a run of its own, named by its function, whatever that is."""
    got: List[Tuple[Tuple[int, ...], str]] = []

    def probe(run: Run, *components: int, word: str = "") -> None:
        got.append((components, word))

    def a_name_that_is_longer_than_a_name_may_be(run: Run) -> None:
        run.set_verdict("pass")

    others = [lambda run: None, Sampler(), Sampler()._method, functools.partial(functools.partial(probe), word="p"),
              a_name_that_is_longer_than_a_name_may_be]
    for name in ("self", "mtc", "any", "all", "_9"):
        others.append(lambda run: None)
        others[-1].__name__ = name

    def main(run: Run) -> None:
        comps = [run.create() for _ in range(4 + len(others))]
        for at in range(4):
            run.start(comps[at], probe, *comps[:at], run.me, word=f"w{at}")
        for comp, other in zip(comps[4:], others):
            run.start(comp, other)
        run.wait_done("all")

    result = place.run("t_functions", main)
    same(result.verdict, "pass")
    names = ["main", *["probe"] * 4, "lambda", "Sampler", "method", "probe", "a_name_that_is_longer_than_a_nam",
             "self_", "mtc_", "any_", "all_", "behaviour_"]
    same(sorted(legal(result).marked("")), list(enumerate(names)))
    same(sorted(got), [((), "p"), ((0,), "w0"), ((1, 0), "w1"), ((1, 2, 0), "w2"), ((1, 2, 3, 0), "w3")])
    hold("0 start 4 4 1 2 3 0 -> ok" in legal(result).calls, "the arguments are not in the evidence")
    place.reach("behaviours", len(names), 15)


def local_verdicts_by_component_and_name(place: Place) -> None:
    """Also of components with one name, without a name, never started, and started again."""
    def sets(run: Run, *, verdict: str) -> None:
        run.set_verdict(verdict)

    def main(run: Run) -> None:
        a, b, c = run.create("pump", alive=True), run.create("pump"), run.create()
        run.create("spare")
        for comp, verdict in ((a, "pass"), (b, "inconc"), (c, "none"), (a, "fail")):
            run.start(comp, sets, verdict=verdict)
            run.wait_done(comp)
        run.set_verdict("pass")

    result = place.run("t_locals", main)
    same(result.locals, {0: "pass", 1: "fail", 2: "inconc", 3: "none", 4: "none"})
    same(result.names, {0: "mtc", 1: "pump", 2: "pump", 3: "", 4: "spare"})
    same([result.local(it) for it in (0, "mtc", 1, 2, "pump", 3, "spare")], ["pass", "pass", "fail", "inconc", "fail", "none", "none"])
    for wrong in ("valve", 5):
        holds_word(f"test case t_locals has no component {wrong!r}", str(raises(KeyError, lambda: result.local(wrong))))
    same(result.why, "run 4 sets on component 1 pump: setverdict fail")
    hold("local 1 pump: fail" in result.report() and "local 3: none" in result.report(), result.report())
    place.reach("components", len(result.locals), 5)


def said(run: Run, *calls: Tuple[str, ...]) -> None:
    """Sets verdicts with reasons, and says remarks between them."""
    for words in calls:
        run.log(*words) if len(words) == 1 and words[0] not in ("none", "pass", "inconc", "fail") else run.set_verdict(*words)


WHY = (
    ((), "no behaviour set a verdict"),
    ((("none",),), "no behaviour set a verdict"),
    ((("pass",), ("pass", "again")), "run 0 main on mtc: setverdict pass"),
    ((("pass",), ("fail", "first"), ("fail", "second"), ("inconc", "third")), "run 0 main on mtc: setverdict fail: first"),
    ((("inconc", "one"), ("fail",)), "run 0 main on mtc: setverdict fail"),
    ((("fail", "x: y -> none"),), "run 0 main on mtc: setverdict fail: x: y -> none"))


def why_is_the_first_that_made_the_verdict(place: Place) -> None:
    """With the reason that was given with it, and no other."""
    with place.server() as server:
        for calls, why in WHY:

            def main(run: Run) -> None:
                said(run, *calls)

            result = server.run("t_why", main)
            same(result.why, why)
            same(result.report().splitlines()[:2], [f"test case t_why: {result.verdict}", f"why: {why}"])
        result = server.run("t_stop", lambda run: run.stop_case("enough"))
        same((result.why, result.raised), ("run 0 lambda on mtc: stopcase: enough", ()))
    place.reach("reasons", len(WHY) + 1, 7)


def a_report_shows_the_last_entries(place: Place) -> None:
    """As many as are asked for, and how many there are."""
    def main(run: Run) -> None:
        for _ in range(50):
            run.get_verdict()

    result = place.run("t_report", main)
    entries = [f"  {it}" for it in result.evidence.splitlines()]
    same(result.report().splitlines()[3:], ["evidence, the last 20 of 54 lines:", *entries[-20:]])
    same(result.report(53).splitlines()[3:], ["evidence, the last 53 of 54 lines:", *entries[1:]])
    same(result.report(54).splitlines()[3:], ["evidence:", *entries])
    same(result.report(0).splitlines()[3:], ["evidence, the last 0 of 54 lines:"])
    place.reach("lines", len(entries), 54)


CASES = 30
BEHAVIOURS = 40
SEED = "a bench"


class Draw:
    def __init__(self, seed: str) -> None:
        self.seed, self.left, self.components = seed, BEHAVIOURS - 1, [0]
        self.is_daring = random.Random(seed).random() < 0.5

    def behave(self, run: Run, *_: int) -> None:
        """Makes a few random calls. The main behaviour creates, starts and waits more."""
        chance = random.Random(f"{self.seed} {run.number}")
        for _ in range(150 if run.number == 0 else chance.randrange(3, 12)):
            self.call(run, chance)
        if run.number == 0:
            run.wait_done("all")

    def call(self, run: Run, chance: random.Random) -> None:
        what, target = chance.random(), chance.choice(self.components)
        if what < 0.4 and self.left > 0:
            self.left -= 1
            made = run.create(chance.choice((None, "pump", "valve")), alive=chance.random() < 0.5)
            self.components.append(made)
            run.start(made, self.behave, *chance.sample(self.components, min(2, len(self.components))))
        elif what < 0.55:
            run.set_verdict(chance.choice(("none", "pass", "pass", "inconc", "fail")), chance.choice(("", "a reason", "\u00e4" * 99)))
        elif what < 0.65:
            chance.choice((run.running, run.alive, run.done, run.killed))(target)
        elif what < 0.7:
            run.wait_done(target, timeout=0.001)
        elif what < 0.78 and target != 0 and target > run.me:
            run.wait_done(target)
        elif what < 0.84 and target != 0:
            chance.choice((run.stop, run.kill))(target)
        elif what < 0.9:
            run.log(f"{chance.random()}")
        elif what < 0.91 and self.is_daring:
            raise TimeoutError("drawn")
        elif what < 0.92 and self.is_daring:
            run.stop(999)
        else:
            run.get_verdict()


def judged(result: Result, met: Counter) -> None:
    """Holds a result to the table of the tests, and counts what is in it."""
    block = legal(result)
    table = Table(block.behaviours)
    for it in block.entries:
        same(table.play(it.caller, it.op), it.reply, it.text())
        met.update([it.op.verb, f"{it.reply.split()[0]} reply"])
    same(result.locals, {at: it.verdict for at, it in enumerate(table.components)}, "the local verdicts:")
    met[result.verdict] += 1
    met["remarks"] += len(block.marked("#"))
    met["raised"] += sum(not isinstance(it.exception, DynamicError) for it in result.raised)
    met["behaviours"] += len(block.marked(""))
    met["hung"] += len(result.hung)


def hold_by_program(place: Place, results: List[Result]) -> None:
    """Holds the evidence to `ttrun check`, if the server is the program."""
    program = place.command[0]
    if os.path.basename(program) != "ttrun":
        return
    text = "".join(it.evidence for it in results)
    ran = call([program, "check"], text)
    wanted = [f"legal {it.name} {len(legal(it).entries)} {it.verdict}" for it in results]
    same((ran.output.splitlines(), ran.errors, ran.status), (wanted, "", 0), "ttrun check:")
    place.reach("blocks for ttrun check", len(wanted), CASES)


def random_cases_are_legal(place: Place) -> None:
    """Thirty cases of up to forty behaviours at once: legal evidence, and the local verdicts of the table."""
    met: Counter = Counter()
    results: List[Result] = []
    with place.server() as server:
        for at in range(CASES):
            results.append(server.run(f"t_{at}", Draw(f"{SEED} {at}").behave, timeout=60))
            hold(not results[-1].is_timed_out, f"{results[-1].name} took too long")
            judged(results[-1], met)
    hold_by_program(place, results)
    same(met["hung"], 0, "hanging behaviours:")
    for what, least in (("behaviours", 450), ("create", 450), ("start", 450), ("setverdict", 100), ("wait", 20), ("wake", 15), ("parked reply", 15),
                        ("ended reply", 30), ("remarks", 60), ("finish", 40), ("raised", 1), ("error reply", 2), ("error", 4), ("fail", 4)):
        place.reach(what, met[what], least)
