"""Tests of the two searches: random courses, plain searches without any reduction, damages, large campaigns."""
import copy
import random
import time
from typing import Iterator, List, Optional, Set, Tuple

import made
from holding import hold, same
from kit import Place, log
from reading_tests import read, read_made
from courses import courses_of
from script_reader import read_script
from table import VERDICTS, Op, Table
from texts import Judged

from titan_logs import audit, cases, flaky, histories, playing, search

STATES = 100_000
COURSES = 120
# A call as the plain searches need it: operation, reply or None. They have no reduction.
Plain = Tuple[Op, Optional[str]]


class TooMany(Exception):
    """The search has more states than are worth the time."""


def plain_states(calls: List[List[Plain]], most: int, is_judged: bool) -> Iterator[Tuple[List[int], Table]]:
    """Every state that calls lead to whose replies are the table's. If verdicts are judged, nobody calls after its end."""
    seen: Set[Tuple[object, ...]] = set()
    waiting = [([0] * len(calls), Table(len(calls)))]
    while waiting:
        places, table = waiting.pop()
        yield places, table
        for run, its in enumerate(calls):
            if places[run] == len(its) or is_judged and not table.is_going_on(run) or table.would(run, its[places[run]][0]) != its[places[run]][1]:
                continue
            other, at = copy.deepcopy(table), list(places)
            other.play(run, its[places[run]][0])
            at[run] += 1
            key = tuple(at), tuple((it.phase, it.run, it.is_excused, it.verdict) for it in other.components)
            if key not in seen:
                seen.add(key)
                if len(seen) > most:
                    raise TooMany
                waiting.append((at, other))


def has_plain_order(calls: List[List[Plain]], most: int) -> bool:
    return any(all(at == len(its) for at, its in zip(places, calls)) for places, _ in plain_states(calls, most, is_judged=False))


def plain_verdicts(calls: List[List[Plain]], most: int) -> Set[str]:
    """Every overall verdict of an order in which the replies are the table's and nobody calls after its end."""
    return {table.overall() for _, table in plain_states(calls, most, is_judged=True) if table.components[0].phase != "running"}


def calls_of(case: cases.TestCase, is_visible: bool) -> List[List[Plain]]:
    return [[(it.op, it.reply) for it in run.calls if it.channel is None and not (is_visible and it.seen)] for run in case.runs]


def every_true_log_has_an_order(place: Place) -> None:
    blocks, calls = [], 0
    for seed in range(COURSES):
        it = made.course(seed, most=20 + seed % 40, components=2 + seed % 6)
        case = read_made(place, it, str(seed))
        one = audit.audited(case, STATES)
        same((one.outcome, one.overall, case.faults), (audit.LEGAL, it.verdict, []), f"seed {seed}: {one.remarks}")
        logged = [entry for entry in it.entries if entry[2] not in ("ended", "parked")]
        shown = [entry for entry in one.answer.entries if entry.reply != "ended"]
        for verb in ("create", "start", "stop", "kill", "wait", "finish", "running", "alive", "setverdict"):
            same(sum(entry.op.verb == verb for entry in shown), sum(entry[1].verb == verb for entry in logged), f"seed {seed} {verb}")
        blocks += one.blocks.values()
        calls += case.total
    hold(calls > 2500, calls)
    same(histories.checked(place.program, blocks), [""] * COURSES)


def clocks_of_several_hosts_do_not_matter(place: Place) -> None:
    for seed in range(COURSES):
        it = made.course(seed, most=20 + seed % 40, components=2 + seed % 6)
        case = read_made(place, it, str(seed))
        by = (100, 1_000, 20_000, -1_000, 2_000_000)[seed % 5]
        it.logs = {role: [made.shifted(line, by if role % 2 else 0) for line in its] for role, its in it.logs.items()}
        other = read_made(place, it, f"shifted{seed}")
        same((audit.audited(other, STATES).outcome, other.faults), (audit.LEGAL, []), f"seed {seed}")
        same(set(search.verdicts_of(other, STATES).witnesses), set(search.verdicts_of(case, STATES).witnesses), f"seed {seed}")


def no_verdict_is_missed_and_none_made_up(place: Place) -> None:
    several = looked = 0
    blocks: List[str] = []
    for seed in range(COURSES * 2):
        case = read_made(place, made.course(seed + 1000, most=16 + seed % 16, components=3), str(seed))
        found = search.verdicts_of(case, STATES)
        hold(found.is_complete and case.verdict in found.witnesses, f"seed {seed}: {found}")
        try:
            wanted = plain_verdicts(calls_of(case, is_visible=True), 20_000)
        except TooMany:
            continue
        same(set(found.witnesses), wanted, f"seed {seed}")
        looked += 1
        several += len(wanted) > 1
        for verdict, entries in found.witnesses.items():
            same(playing.played(case, entries).overall(), verdict, f"seed {seed}")
            blocks.append(histories.block_of(case, entries))
    hold(looked > COURSES and several > 10, (looked, several))
    same(set(histories.checked(place.program, blocks)), {""})


def a_witness_keeps_each_runs_order(place: Place) -> None:
    for seed in range(40):
        case = read_made(place, made.course(seed + 2000, most=14, components=3), str(seed))
        for entries in search.verdicts_of(case, STATES).witnesses.values():
            for run in case.runs:
                mine = [entry.op.text() for entry in entries if entry.run == run.number]
                same(mine, [call.op.text() for call in run.calls if not call.seen][:len(mine)], f"seed {seed} run {run.number}")


def damaged(case: cases.TestCase, rng: random.Random) -> None:
    """Changes the answer of a question, or exchanges two calls of a run."""
    run = rng.choice([it for it in case.runs if len(it.calls) > 1])
    at = rng.randrange(len(run.calls) - 1)
    call = run.calls[at]
    if call.reply in ("true", "false"):
        call.reply = "false" if call.reply == "true" else "true"
    elif call.reply in VERDICTS:
        call.reply = rng.choice(VERDICTS[:4])
    else:
        run.calls[at], run.calls[at + 1] = run.calls[at + 1], call


def no_order_is_found_where_there_is_none(place: Place) -> None:
    rng, outcomes = random.Random(5), [0, 0]
    for seed in range(COURSES * 2):
        case = read_made(place, made.course(seed + 3000, most=12 + seed % 14, components=3), str(seed))
        damaged(case, rng)
        answer = search.search(case, STATES)
        try:
            wanted = has_plain_order(calls_of(case, is_visible=False), 20_000)
        except TooMany:
            continue
        same(answer.outcome == search.FOUND, wanted, f"seed {seed}")
        outcomes[wanted] += 1
        hold(wanted or answer.stuck, "it is not said what could not be next")
    hold(min(outcomes) > 30, outcomes)


def a_large_campaign_takes_seconds(place: Place) -> None:
    folder = made.put(made.crowd(900, 3), place.path("logs"))
    begun = time.time()
    case, = read(folder)
    hold(len(case.runs) == 2701 and case.total > 12_000, (len(case.runs), case.total))
    one, other = audit.audited(case, STATES), flaky.looked_at(case, STATES)
    took = time.time() - begun
    same((one.outcome, other.outcome, one.blocks, other.blocks), (audit.LEGAL, flaky.STEADY, {}, {}))
    hold("2700 starts, and a history holds 255" in "\n".join(one.remarks), one.remarks)
    hold(took < 60, f"it took {took:.1f} seconds")


def a_search_ends_at_its_limit(place: Place) -> None:
    case, = (it for it in read(log("pumps-default.merged")) if it.name == "t_stop_all")
    whole = search.verdicts_of(case, STATES)
    short = search.verdicts_of(case, 3)
    hold(whole.is_complete and not short.is_complete and short.states <= 4 and whole.states > 4, (whole, short))
    hold(flaky.looked_at(case, 3).outcome in (flaky.OPEN, flaky.UNEXPLAINED), "it is decided")


def a_state_is_kept_when_calls_are_taken_back(place: Place) -> None:
    case, = read(log("pumps-full.merged"))[:1]
    trail = playing.Trail(case, [[it for it in run.calls if it.channel is None] for run in case.runs])
    answer = search.search(case, STATES)
    table, states = Table(len(case.runs)), [playing.state_of(Table(len(case.runs)))]
    queue = list(answer.entries)
    while queue:
        call = next(it for it in map(trail.head, range(len(case.runs))) if it is not None and it.run == queue[0].run)
        entries = trail.attempt(call)
        hold(not isinstance(entries, str), entries)
        trail.take(call, entries)
        for entry in entries:
            same(entry, queue.pop(0))
            table.play(entry.run, entry.op)
        states.append(playing.state_of(table))
    for length in (len(states) - 1, 40, 17, 16, 15, 3, 0):
        trail.back_to(length)
        same(playing.state_of(trail.table), states[length], length)
        same(sum(trail.places), length)


def a_stop_of_a_component_that_never_ran_destroys_it(place: Place) -> None:
    table = Table(2)
    table.play(0, Op("create"))
    table.play(0, Op("create", alive=True))
    for verb, target, wanted in (("stop", 1, "kill 1"), ("stop", 2, "stop 2"), ("kill", 1, "kill 1")):
        same(playing.as_played(table, Op(verb, target=target)).text(), wanted)


STOP_OR_START = """
mtc: create alive 3
mtc: create 4
mtc: start f_stop(3) on 4
4: PTC with component reference 3 is not running. Stop operation had no effect.
4: Function f_stop finished. PTC terminates.
mtc: start f_fail() on 3
3: setverdict(fail): none -> fail
3: Function f_fail finished. PTC remains alive and is waiting for next start.
mtc: PTC with component reference 3 is done.
mtc: Terminating component type M.C.
3: Kill was requested from MC. Terminating idle PTC.
3: Final verdict of PTC: fail
4: Final verdict of PTC: none
mtc: end none, fail, none
"""
KILL_AND_QUESTION = """
mtc: create alive 3
mtc: create 4
mtc: create 5
mtc: start f_kill(3) on 4
mtc: start f_ask(3) on 5
4: Killing PTC with component reference 3.
3: Kill was requested from MC. Terminating idle PTC.
3: Final verdict of PTC: none
4: PTC with component reference 3 is killed.
4: Function f_kill finished. PTC terminates.
4: Final verdict of PTC: none
5: AUDIT alive 3 -> true
5: Function f_ask finished. PTC terminates.
5: Final verdict of PTC: none
mtc: PTC with component reference 4 is done.
mtc: PTC with component reference 5 is done.
mtc: Terminating component type M.C.
mtc: end none, none, none, none
"""


def number_of(case: cases.TestCase, caller: int) -> int:
    """The main component's run, or that of the one that stops."""
    return 0 if caller == 0 else next(it.number for it in case.runs if it.function.startswith("f_stop"))


def a_start_behind_a_stop_is_another_state_than_before_it(place: Place) -> None:
    case = read_made(place, made.told(STOP_OR_START))
    same(audit.audited(case, STATES).outcome, audit.LEGAL)
    same(set(search.verdicts_of(case, STATES).witnesses), {"fail", "none"})
    states = []
    for callers in ((0, 0, 0, 1, 0), (0, 0, 0, 0, 1)):
        trail = playing.Trail(case, search.visible(case))
        for caller in callers:
            call = next(it for it in map(trail.head, range(len(case.runs))) if it is not None and it.run == number_of(case, caller))
            trail.take(call, trail.attempt(call))
        states.append(trail.state())
    hold(states[0][0] == states[1][0] and states[0] != states[1], states)


def an_order_against_the_stamps_is_found(place: Place) -> None:
    case = read_made(place, made.told(KILL_AND_QUESTION))
    same(audit.audited(case, STATES).outcome, audit.LEGAL, case.faults)


def a_missing_log_is_no_proof_of_one_verdict(place: Place) -> None:
    case = read_made(place, made.told(STOP_OR_START.replace("mtc: PTC with component reference 3 is done.\n", "")), "whole")
    same(flaky.looked_at(case, STATES).outcome, flaky.LUCK)
    quiet = made.told("\n".join(line for line in KILL_AND_QUESTION.splitlines() if not line.startswith("mtc: PTC with component reference 5 is")))
    same(flaky.looked_at(read_made(place, quiet, "quiet"), STATES).outcome, flaky.STEADY)
    del quiet.logs[5]
    one = flaky.looked_at(read_made(place, quiet, "less"), STATES)
    same((one.outcome, one.remarks[0]), (flaky.UNEXPLAINED, "there is no log of component 5"))


ERROR_OR_END = """
mtc: create 3
mtc: start f_divide(0) on 3
3: Dynamic test case error: Integer division by zero.
3: setverdict(error): none -> error
3: Function f_divide finished with an error. PTC terminates.
3: Final verdict of PTC: error
mtc: setverdict(pass): none -> pass
mtc: Terminating component type M.C.
mtc: end pass, error
"""


def an_error_that_the_end_may_come_before(place: Place) -> None:
    case = read_made(place, made.told(ERROR_OR_END))
    one = flaky.looked_at(case, STATES)
    same((case.faults, one.outcome, one.others), ([], flaky.LUCK, ["pass"]))
    hold("the error of a component is written as its kill: the history of error ends with pass" in one.remarks, one.remarks)


def a_script_has_every_verdict_that_is_named(place: Place) -> None:
    looked = several = 0
    for seed in range(COURSES):
        case = read_made(place, made.course(seed + 5000, most=8 + seed % 10, components=3), str(seed))
        text, why = audit.script_of(case, STATES, place.program)
        if why:
            continue
        campaign = read_script(text.encode())
        hold(not isinstance(campaign, Judged), f"seed {seed}: {campaign} {text}")
        courses = courses_of(next(iter(campaign)), 1500)
        if courses is not None:
            # A script holds no answer fixed, so it may have more.
            named = set(search.verdicts_of(case, STATES).witnesses)
            hold(named <= courses.verdicts, f"seed {seed}: {named} {courses.verdicts}")
            looked, several = looked + 1, several + (len(named) > 1)
    hold(looked > COURSES // 2 and several > 3, (looked, several))


LOST_CONTROLLER = """
mtc: create 3
mtc: create 4
mtc: start f_work() on 3
3: setverdict(pass): none -> pass
mtc: Terminating component type M.C.
mtc: Dynamic test case error: Internal error: Message PTC_VERDICT arrived in invalid state.
3: Dynamic test case error: Sending data on the control connection to MC failed.
3: setverdict(error): pass -> error
3: Final verdict of PTC: error
4: Kill was requested from MC. Terminating idle PTC.
4: Dynamic test case error: Sending data on the control connection to MC failed.
4: setverdict(error): none -> error
4: Dynamic test case error: Trying to send a message to MC, but the control connection is down.
4: Final verdict of PTC: error
"""
OPERATOR = """
mtc: create 3
mtc: start f_work() on 3
3: setverdict(fail): none -> fail
3: AUDIT alive 1 -> true
3: Kill was requested from MC.
3: Terminating test component execution.
3: Function f_work was stopped. PTC terminates.
3: Final verdict of PTC: fail
mtc: Stop was requested from MC.
mtc: Stopping test component execution.
mtc: Terminating component type M.C.
mtc: end none, fail
"""


def a_stop_by_an_operator_is_named(place: Place) -> None:
    """Not a stop by a component; the main component is that which Titan calls 1."""
    case = read_made(place, made.told(OPERATOR))
    one, other = audit.audited(case, STATES), flaky.looked_at(case, STATES)
    same((one.outcome, other.outcome, case.faults), (audit.PART, flaky.UNEXPLAINED, []), one.remarks)
    for remarks in (one.remarks, other.remarks):
        hold(remarks[0].startswith("it was stopped from outside, as by an operator") and "Stop was requested from MC." in remarks[0], remarks)
    hold("1 alive 0 -> true" in [it.text() for it in one.answer.entries], one.blocks)
    story = OPERATOR.replace("3: Kill was requested from MC.\n3: Terminating test component execution.\n", "3: Stopping MTC. The current test case will be terminated.\n")
    case = read_made(place, made.told(story), "stopped")
    same((case.is_stopped, case.missing, audit.audited(case, STATES).outcome), (False, [], audit.LEGAL), case.faults)


def components_that_lost_the_controller_are_named(place: Place) -> None:
    case = read_made(place, made.told(LOST_CONTROLLER))
    one = audit.audited(case, STATES)
    same((one.outcome, case.faults, len(case.missing)), (audit.PART, [], 4), case.missing)
    for word in ("no end of this test case", "the main component crashed", "component 3 lost the main controller", "component 4 lost"):
        hold(any(word in it for it in case.missing), f"{word}: {case.missing}")
