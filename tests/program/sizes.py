"""The largest inputs, one more than each limit, and what is refused because memory or threads ran out."""
import subprocess
from typing import Iterator, List

from case import Case, Judgement, SomeText, Timed, as_lines, joined, refused
from rows import CSV_HEADER, case_of_verdict, counts_of, csv_of_verdict, evidence_of_verdict, history_of_verdict, text
from texts import MOST_BYTES_OF_A_HISTORY, MOST_BYTES_OF_A_LIST, MOST_BYTES_OF_A_SCRIPT

TOO_LONG = "input too long"
PASSING = text("testcase t;behaviour main;setverdict pass;end;end")
PASSED = (CSV_HEADER + csv_of_verdict("t", "pass")).encode()


def many_of(*lines: str) -> str:
    return as_lines(*lines).decode()


def padded_script(length: int) -> bytes:
    """A script of that many bytes: one test case after a comment."""
    return b"#" + b" " * (length - len(PASSING) - 2) + b"\n" + PASSING


def filled(head: bytes, after: bytes, line: bytes, tail: bytes, most: int) -> bytes:
    """A text of that many bytes: the last letter of its head as often as it takes, what comes after it, many lines, and its tail."""
    count, rest = divmod(most - len(head + after + tail), len(line))
    return head + head[-1:] * rest + after + line * count + tail


# As many bytes as may be: a list of moves, a history and what is printed for it, and evidence that is nearly all remarks.
LONGEST_LIST = filled(b"behaviours 1", b"\n", b"0 getverdict\n", b"0 create\n", MOST_BYTES_OF_A_LIST)
LONGEST_HISTORY = filled(b"history 2 t", b" 1\n", b"0 getverdict -> none\n", b"end none\n", MOST_BYTES_OF_A_HISTORY)
LEGAL = b"legal %s %d none\n" % (LONGEST_HISTORY.split()[2], LONGEST_HISTORY.count(b"get"))
LONGEST_EVIDENCE = filled(b"evidence 1 t 1\nbehaviour 0 m", b"\n", b"0 # x\n", b"end none\n", MOST_BYTES_OF_A_HISTORY)


def longest() -> Iterator[Case]:
    """Inputs at their limit, and one byte past it."""
    history, replies = LONGEST_HISTORY, b"none\n" * LONGEST_LIST.count(b"get") + b"made 1\nverdict none\n"
    assert len(LONGEST_LIST) == MOST_BYTES_OF_A_LIST and len(history) == MOST_BYTES_OF_A_HISTORY
    yield Case("longest_list", ("replay",), LONGEST_LIST, replies)
    yield refused("a_list_one_byte_longer", ("replay",), LONGEST_LIST + b"\n", TOO_LONG)
    yield Case("longest_history", ("check",), history, LEGAL)
    yield refused("a_history_one_byte_longer", ("check",), history + b"\n", TOO_LONG)
    yield Case("longest_evidence", ("check",), LONGEST_EVIDENCE, b"legal t 0 none\n")
    for name, whole in (("history", history), ("evidence", LONGEST_EVIDENCE)):
        last = whole.count(b"\n")
        for words in (("check",), ("report", "--csv")):
            yield refused(joined(f"the_longest_{name}_with_a_bad_last_line", *words), words, whole[:-2] + b"x\n", f"line {last}: bad entry")
    block = b"history 2 t 1\n0 finish -> ok\nend none\n"
    count = MOST_BYTES_OF_A_HISTORY // len(block)
    yield Case("most_blocks", ("check",), block * count, b"legal t 1 none\n" * count)
    yield Case("most_blocks_csv", ("report", "--csv"), block * count, CSV_HEADER.encode() + csv_of_verdict("t", "none").encode() * count)
    yield Case("longest_script", ("run", "--csv"), padded_script(MOST_BYTES_OF_A_SCRIPT), PASSED)
    yield refused("a_script_one_byte_longer", ("run", "--csv"), padded_script(MOST_BYTES_OF_A_SCRIPT + 1), TOO_LONG)
    for words in ((), ("--list",)):
        yield refused(joined("a_script_too_long_for_names", *words), ("run", *words, "--only", "z"), b"\n" * (MOST_BYTES_OF_A_SCRIPT + 1), TOO_LONG)
    for name, words, most, fault in (("list", ("replay",), MOST_BYTES_OF_A_LIST, "line 1: bad first line"),
                                     ("history", ("check",), MOST_BYTES_OF_A_HISTORY, "line 1: bad first line"),
                                     ("script", ("run",), MOST_BYTES_OF_A_SCRIPT, f"line {MOST_BYTES_OF_A_SCRIPT + 1}: text ends too early")):
        yield refused(f"a_{name}_that_never_ends", words, b"\n" * (most + 1), TOO_LONG, stays_open=True)
        yield refused(f"a_{name}_of_line_feeds", words, b"\n" * most, fault)


def long_texts() -> Iterator[Case]:
    """Texts of any length, in which each history has the length of a text that is not one."""
    history, legal, name = LONGEST_HISTORY, LEGAL, LONGEST_HISTORY.split()[2].decode()
    block = b"history 2 t 1\nend none\n"
    yield Case("a_long_text", ("check", "--long", "--only", "t*"), history * 2 + block, legal * 2 + b"legal t 0 none\n")
    yield Case("a_long_text_in_csv", ("report", "--csv", "--long", "--last"), history * 2 + block,
               CSV_HEADER.encode() + (csv_of_verdict(name, "none") + csv_of_verdict("t", "none")).replace(",none", ",unfinished").encode(), status=2)
    yield Case("models_of_a_long_text", ("model", "--long", "--only", "t"), history * 2 + block.replace(b"end", b"0 finish -> ok\nend"), b"testcase t\nbehaviour run_0\nend\nend\n")
    yield refused("a_bad_line_of_a_long_text", ("report", "--csv", "--long"), history * 2 + b"x\n", f"line {2 * history.count(10) + 1}: bad first line")
    longer = history.replace(b" t", b" tt", 1)
    for named, given in (("history_one_byte_longer", longer), ("history_that_never_ends", history[:-9] + b"0 getverdict -> none\n"),
                        ("line_that_never_ends", b"x" * (len(history) + 1)), ("history_too_long_after_a_bad_line", b"x\nend \n" + longer),
                        ("rest_too_long_after_a_bad_line", b"x\n" + b"0 # x\n" * (len(history) // 6 + 1))):
        yield refused(f"a_{named}_in_a_long_text", ("check", "--long"), block + given, TOO_LONG)
    yield refused("a_history_one_byte_longer_for_a_model", ("model", "--long"), block + longer, TOO_LONG)


def faults_of_a_long_text(program: str, *words: str) -> List[str]:
    """More than 300 MB of histories go through a pipe, in the memory of what is kept of them and of one."""
    block, count = b"history 2 t 1\n" + b"0 getverdict -> none\n" * 5000 + b"end none\n", 3000
    sent = 0
    with subprocess.Popen(["sh", "-c", 'ulimit -v 14000; exec "$@"', "sh", program, *words, "--long"], stdin=subprocess.PIPE,
                          stdout=subprocess.PIPE) as running:
        assert running.stdin
        for _ in range(count):
            sent += running.stdin.write(block)
        output = running.communicate()[0]
    found = (output.count(b"legal t 5000 none\n"), output.count(b",unfinished\n"))
    right = count in found and running.returncode == (0 if "check" in words else 2) and sent > 300_000_000
    return [] if right else [f"status {running.returncode}, {sent} bytes, {output[:200]!r}"]


def many_behaviours(count: int) -> bytes:
    """The main behaviour starts each other one on a component of its own and waits for all; each other one sets pass."""
    starts = [line for at in range(1, count) for line in (f"create p{at}", f"start p{at} w{at}")]
    others = [line for at in range(1, count) for line in (f"behaviour w{at}", "setverdict pass", "end")]
    return as_lines("testcase t", "behaviour main", *starts, "wait done all", "end", *others, "end")


def report_of_many(count: int) -> bytes:
    starts = [line for at in range(1, count) for line in (f"  create -> made {at}", f"  start {at} {at} -> ok")]
    others = [line for at in range(1, count) for line in (f"run {at} w{at} on {at}", "  setverdict pass -> ok", "  finish -> ok")]
    return as_lines("testcase t", "run 0 main on 0", *starts, "  wait done all -> matched", "  finish -> ok", *others, "local 0 none",
                    *(f"local {at} pass" for at in range(1, count)), "verdict pass", "cases 1 none 0 pass 1 inconc 0 fail 0 error 0", "complete")


def single(steps: List[str]) -> bytes:
    return as_lines("testcase t", "behaviour main", *steps, "end", "end")


def most_steps() -> bytes:
    """A script of more steps than 16 bits count, in behaviours that are never started."""
    others = "".join(f"behaviour w{at};{'stopcase;' * 1000}end;" for at in range(66))
    return text(f"testcase t;behaviour main;setverdict pass;end;{others}end")


def waiting(count: int, steps: int) -> bytes:
    """The main behaviour starts each other one, waits for it, and sets pass until it has made that many calls. A wait is a second
    entry if it is parked, so its log has more entries than that, unless no wait was."""
    main, others = [], []
    for at in range(1, count):
        main += [f"create p{at}", f"start p{at} w{at}", f"wait done p{at}"]
        others += [f"behaviour w{at}", *["setverdict pass"] * 50, "end"]
    main += ["setverdict pass"] * (steps - len(main))
    return as_lines("testcase t", "behaviour main", *main, "end", *others, "end")


def counted() -> Iterator[Case]:
    """As many of a thing as may be, and one more."""
    yield Case("sixty_four_jobs", ("run",), many_behaviours(64), report_of_many(64))
    told = Timed(text("1/1 t ..;1/1 t pass 0.000 s;1 passed, 0 failed, 0.0 s"))
    for words, errors in ((), b""), (("--live",), b""), (("--progress",), told):
        yield Case(joined("two_hundred_and_fifty_six_jobs", *words), ("run", *words), many_behaviours(256), report_of_many(256), errors)
    runs = range(1, 256)
    unstarted = single(["setverdict pass"])[:-len("end\n")] + text(";".join(f"behaviour w{at};end" for at in runs) + ";end")
    for words, script in ((("run", "--evidence"), many_behaviours(256)), (("explore", "--evidence"), unstarted)):
        yield Case(joined("two_hundred_and_fifty_six_jobs", *words), words, script, SomeText(tuple(f"behaviour {at} w{at}\n" for at in runs)))
    yield Case("two_hundred_and_fifty_six_jobs_searched", ("explore",), unstarted, text("t pass complete"))
    stuck = ";".join(("history 2 t 256", *(f"0 create -> made {at};0 start {at} {at} -> ok;{at} wait killed {at} -> parked" for at in runs),
                      "0 wait done all -> parked;0 wake done all -> error stuck;end error"))
    for form in ("junit", "summary"):
        yield Case(f"two_hundred_and_fifty_six_stuck_{form}", ("report", f"--{form}"), text(stuck),
                   SomeText(tuple(f"  stuck: run {at} on {at} waits for killed of {at}, where run {at} is\n" for at in runs)), status=2)
    yield Case("a_thousand_steps", ("run",), single(["setverdict pass"] * 1000), as_lines(
        "testcase t", "run 0 main on 0", *["  setverdict pass -> ok"] * 1000, "  finish -> ok", "local 0 pass", "verdict pass",
        counts_of("pass")[:-1], "complete"))
    creates, many = [f"create p{at}" for at in range(1000)], [f"testcase t{at};behaviour main;end;end" for at in range(1001)]
    for name, script, records, status in (
            ("more_entries_than_steps", waiting(64, 1000), "t,64,0,64,0,0,0,pass\n", 0), ("most_steps", most_steps(), csv_of_verdict("t", "pass"), 0),
            ("a_thousand_components_of_a_script", single(creates), "t,1000,999,0,0,0,1,error\n", 2),
            ("a_component_less", single(creates[1:]), "t,1000,1000,0,0,0,0,none\n", 0),
            ("as_many_of_alive_type", single([f"{it} alive" for it in creates[1:]]), "t,1000,1000,0,0,0,0,none\n", 0),
            ("a_thousand_test_cases", text(";".join(many[:-1])), "".join(csv_of_verdict(f"t{at}", "none") for at in range(1000)), 0),
            ("a_name_of_32_bytes", PASSING.replace(b"testcase t", b"testcase " + b"n" * 32), csv_of_verdict("n" * 32, "pass"), 0)):
        yield Case(name, ("run", "--csv"), script, (CSV_HEADER + records).encode(), status=status)
    yield refused("one_behaviour_too_many", ("run",), many_behaviours(257), "line 1282: too many")
    yield refused("one_step_more", ("run", "--csv"), single(["setverdict pass"] * 1001), "line 1003: too many")
    yield refused("one_test_case_more", ("run", "--csv"), text(";".join(many)), "line 4001: too many")
    four = "testcase t;behaviour main;create p;start p w mtc self p p;wait done p;end;behaviour w a b c d;alive d;end;end"
    yield Case("four_arguments", ("run",), text(four),
               text("testcase t;run 0 main on 0;  create -> made 1;  start 1 1 0 0 1 1 -> ok;  wait done 1 -> matched;"
                    "  finish -> ok;run 1 w on 1;  alive 1 -> true;  finish -> ok;local 0 none;local 1 none;verdict none;"
                    "cases 1 none 1 pass 0 inconc 0 fail 0 error 0;complete"))


ABORTED = text("testcase t;behaviour main;setverdict pass;end;end;testcase u;behaviour main;end;"
               + ";".join(f"behaviour w{at};end" for at in range(1, 64)) + ";end")


def summary(failed: int, cases: str) -> bytes:
    return text(f"cases {failed} none 0 pass 0 inconc 0 fail {failed} error 0;;{cases}")


def long_report() -> Iterator[Case]:
    """The reports of a history of more entries than 16 bits count, by a test case that fails at its end."""
    call, last = "0 getverdict -> none", ("0 setverdict fail -> ok", "0 finish -> ok")
    given = text(";".join(["history 2 t 1", *[call] * 700_000, *last, "end fail"]))
    calls = "".join(f"  {it[2:]}\n" for it in (*[call] * 700_000, *last))
    cause = "run 0 on mtc: setverdict fail -> ok"
    yield Case("junit_of_a_long_history", ("report", "--junit"), given, SomeText((cause, calls)), status=1)
    yield Case("summary_of_a_long_history", ("report", "--summary"), given, summary(
        1, f"t: fail;  {cause};  after:;" + ";".join(["    getverdict -> none"] * 5) + ";  fail: mtc"), status=1)
    names = ("", " named pump", " named valve_of_the_tank", "")
    made = [f"0 create{names[at % 4]} -> made {at}" for at in range(1, 29)]
    waits = ("0 start 1 1 -> ok", "0 wait done 1 -> parked", "1 setverdict pass -> ok", "1 finish -> ok", "0 wake done 1 -> matched")
    yield Case("summary_of_many_components", ("report", "--summary"), text(";".join(
        ["history 2 t 2", *made, *waits, *[call] * 3, *last, "end fail"])), summary(
            1, f"t: fail;  {cause};  after:;    start 1 pump run 1 -> ok;    wait done 1 pump -> matched;" + "    getverdict -> none;" * 3
            + "  fail: mtc;  pass: 1 pump;  none: 2 valve_of_the_tank, 3, 4, 5 pump, 6 valve_of_the_tank, 7, 8,;"
            "    9 pump, 10 valve_of_the_tank, 11, 12, 13 pump, 14 valve_of_the_tank, 15,;"
            "    16, 17 pump, 18 valve_of_the_tank, 19, 20, 21 pump, 22 valve_of_the_tank,;"
            "    23, 24, 25 pump, 26 valve_of_the_tank, 27, 28"), status=1)
    many = "".join(history_of_verdict(f"t{at}", "fail") for at in range(200_000))
    yield Case("summary_of_many_histories", ("report", "--summary"), many.encode(), summary(
        200_000, ";;".join(f"t{at}: fail;  {cause};  fail: mtc" for at in range(200_000))), status=1)
    yield Case("page_of_a_long_history", ("report", "--html"), given, SomeText((given.decode(),)), status=1)


def long_script() -> bytes:
    """A test case that takes some time: 66 behaviours make a thousand calls each."""
    names = [f"w{at}" for at in range(1, 67)]
    starts = [line for it in names for line in (f"create p_{it}", f"start p_{it} {it}")]
    others = [line for it in names for line in (f"behaviour {it}", *["getverdict"] * 999, "setverdict pass", "end")]
    return as_lines("testcase t", "behaviour main", *starts, "wait done all", "end", *others, "end")


def long_case() -> Iterator[Case]:
    """A test case of more entries than 16 bits count."""
    names, script = [f"w{at}" for at in range(1, 67)], long_script()
    calls = ["getverdict -> none"] * 999 + ["setverdict pass -> ok"]
    logs = [many_of(f"run {at} {it} on {at}", *(f"  {call}" for call in calls), "  finish -> ok") for at, it in enumerate(names, 1)]
    entries = [many_of(*(f"{at} {call}" for call in calls)) for at, _ in enumerate(names, 1)]
    starts = [line for at, _ in enumerate(names, 1) for line in (f"0 create -> made {at}", f"0 start {at} {at} -> ok")]
    history = many_of("history 2 t 67", *starts) + "".join(f"{it}{at} finish -> ok\n" for at, it in enumerate(entries, 1))
    for words in ((), ("--live",)):
        yield Case(joined("a_long_case", *words), ("run", *words), script, SomeText((*logs, counts_of("pass") + "complete\n")))
    for form in ("history", "evidence"):
        yield Case(f"a_long_case_{form}", ("run", f"--{form}"), script, SomeText((*entries, "0 finish -> ok\nend pass\n")))
    whole = script + (history + many_of("0 wait done all -> matched", "0 finish -> ok", "end pass")).encode()
    yield Case("a_long_case_compared", ("check", "--script"), whole, text(f"legal t {66 * 1003 + 2} pass"))


def most_components() -> Iterator[Case]:
    """A test case of as many components as may be, in what else is done with it."""
    script = single([*(f"create p{at}" for at in range(999)), "setverdict fail"])
    calls = [*(f"create -> made {at}" for at in range(1, 1000)), "setverdict fail -> ok", "finish -> ok"]
    entries, shown = many_of(*(f"0 {it}" for it in calls)), many_of(*(f"  {it}" for it in calls))
    local = many_of("local 0 fail", *(f"local {at} none" for at in range(1, 1000)))
    block = f"history 2 t 1\n{entries}end fail\n"
    report = f"testcase t\nrun 0 main on 0\n{shown}{local}verdict fail\n{counts_of('fail')}complete\n".encode()
    cause, listed = "run 0 on mtc: setverdict fail -> ok", ("  fail: mtc\n  none: 1, 2, 3,", " 998, 999\n")
    evidence = f"evidence 1 t 1\nbehaviour 0 main\n{entries}end fail\n".encode()
    for words, wanted in ((("run",), report), (("run", "--live"), report), (("run", "--history"), block.encode()), (("run", "--evidence"), evidence),
                          (("run", "--junit"), SomeText((cause.replace("0", "0 main", 1), shown, *listed)))):
        yield Case(joined("a_thousand_components", *words), words, script, wanted, status=1)
    record = (CSV_HEADER + "t,1000,999,0,0,1,0,fail\n").encode()
    for form, wanted in (("csv", record), ("junit", SomeText((cause, shown, *listed))), ("html", SomeText((block,))),
                         ("summary", SomeText((f"t: fail\n  {cause}\n  after:\n", *listed)))):
        yield Case(f"a_thousand_components_report_{form}", ("report", f"--{form}"), block.encode(), wanted, status=1)
    yield Case("a_thousand_components_checked", ("check",), block.encode(), text("legal t 1001 fail"))
    yield Case("a_thousand_components_compared", ("check", "--script"), script + block.encode(), text("legal t 1001 fail"))
    for words, wanted in ((), text("t fail complete")), (("--history",), block.encode()), (("--details",), SomeText(("t fail complete\n", "998 none, 999 none\n"))):
        yield Case(joined("a_thousand_components_searched", *words), ("explore", *words), script, wanted)
    # (with a thousand of them a search of `rt try` takes more than a minute)
    late = single([*(f"create p{at}" for at in range(298)), "start p297 w", "stop p297"])[:-len("end\n")] + text("behaviour w;setverdict pass;end;end")
    yield Case("three_hundred_components_searched_for_locals", ("explore", "--locals"), late, b"t none pass complete\n  local 298: none or pass\n", status=1)
    moves = as_lines("case t 1", *(f"0 {it.split(' -> ')[0]}" for it in calls), "end")
    yield Case("a_thousand_components_served", ("serve",), moves, f"evidence 1 t 1\n{entries}end fail\n".encode(), status=1)


def a_thousand() -> Iterator[Case]:
    """As many test cases as may be, all of which fail, in what else is done with them."""
    names = [f"t{at}" for at in range(1000)]
    script = ";".join(f"testcase {it};behaviour main;setverdict fail;end;end" for it in names)
    blocks = ";".join(f"history 2 {it} 1;0 setverdict fail -> ok;0 finish -> ok;end fail" for it in names)
    records = CSV_HEADER.encode() + b"".join(csv_of_verdict(it, "fail").encode() for it in names)
    why = "run 0 main on mtc: setverdict fail -> ok"
    told = [f"{at}/1000 {it} ..;{at}/1000 {it} fail 0.000 s: {why}" for at, it in enumerate(names, 1)]
    again = [f"failed: {it} fail: {why}" for it in names]
    yield Case("a_thousand_lines_of_progress", ("run", "--csv", "--progress"), text(script), records, Timed(text(";".join([*told, *again, "0 passed, 1000 failed, 0.0 s"]))), 1)
    suite = SomeText(('tests="1000" failures="1000"', *(f'testcase name="{it}"' for it in names)))
    yield Case("a_thousand_test_cases_in_junit", ("run", "--junit"), text(script), suite, status=1)
    yield Case("a_thousand_histories_in_junit", ("report", "--junit"), text(blocks), suite, status=1)
    yield Case("a_thousand_histories_in_a_page", ("report", "--html"), text(blocks), SomeText((text(blocks).decode(),)), status=1)
    yield Case("a_thousand_test_cases_live", ("run", "--live", "--csv"), text(script), records, status=1)
    yield Case("a_thousand_histories", ("run", "--history"), text(script), text(blocks), status=1)
    yield Case("a_thousand_names", ("run", "--list", *(word for it in names for word in ("--only", it))), text(script), text(";".join(names)))
    yield Case("a_thousand_test_cases_compared", ("check", "--script"), text(f"{script};{blocks}"),
               text(";".join(f"legal {it} 2 fail" for it in names)))
    yield Case("a_fault_in_a_late_line", ("run", "--explain"), b"#\n" * 500_000 + b"frobnicate\n", status=3,
               errors=SomeText(("line 500001: line not understood", "  line: `frobnicate`", "testcase")))


def race(count: int, steps: int, last: str) -> bytes:
    """That many behaviours that create components, each of which has the next number."""
    creates = ";".join(f"create q{at}" for at in range(steps))
    others = ";".join(f"behaviour w{at};{creates};end" for at in range(count))
    starts = ";".join(f"create p{at};start p{at} w{at}" for at in range(count))
    return text(f"testcase t;behaviour main;{starts};{last};end;{others};end")


def racing() -> Iterator[Case]:
    """Test cases with more states than 16 bits count, and than have room in memory. They are not among the cases, since `rt try`
    would take minutes for them."""
    yield Case("more_states_than_16_bits_count", ("explore", "--states", "70000"), race(3, 7, "wait done all"),
               text("t none undecided after 70000 states: limit of states"), status=3)
    kept = 536_870_912 // (256 + 66 * 20 + 26 * (19 * 22 + 3))
    yield Case("a_verdict_of_more_states_than_have_room", ("explore",), race(19, 20, "setverdict pass;stop all"),
               text(f"t pass undecided after {kept} states: limit of memory"), status=3)


def unaffordable() -> Iterator[Case]:
    """Memory and threads are refused by a limit on the space for addresses."""
    yield refused("no_memory_for_a_history", ("check", "--explain"), LONGEST_HISTORY, "no memory", limit="-v 9000")
    yield Case("little_memory_for_a_history", ("check", "--only", "t*"), LONGEST_HISTORY, LEGAL, limit="-v 9000")
    yield Case("little_memory_for_remarks", ("check", "--long"), LONGEST_EVIDENCE, b"legal t 0 none\n", limit="-v 9000")
    yield refused("no_memory_for_a_report", ("report", "--csv", "--explain"), LONGEST_HISTORY, "no memory", limit="-v 9000")
    yield refused("no_memory_for_a_long_report", ("report", "--csv", "--long"), LONGEST_EVIDENCE, "no memory", limit="-v 14000")
    first = (case_of_verdict("t", "pass") + counts_of("pass") + "aborted at u: no thread\n").encode()
    line, begun = b"ttrun: aborted at u: no thread\n", text("1/2 t ..;1/2 t pass 0.000 s;2/2 u ..")
    evidence, history = evidence_of_verdict("t", "pass").encode(), history_of_verdict("t", "pass").encode()
    for name, options, output, errors, redirect in (
            ("", "", first, line, ""), ("_csv", "--csv", PASSED, line, ""), ("_progress", "--csv --progress", PASSED, Timed(begun + b"1 passed, 0 failed, 0.0 s\n" + line), ""),
            ("_history", "--history", history, line, ""), ("_evidence", "--evidence", evidence, line, ""),
            ("_and_no_output", "", b"", b"ttrun: write fault\n", ">/dev/full"), ("_untold", "", first, b"", "2>/dev/full")):
        yield Case(f"no_thread{name}", ("run", *options.split()), ABORTED, output, errors, 3, redirect, limit="-v 40000")
    yield Case("stopped_before_no_thread", ("run", "--csv", "--stop-on", "pass"), ABORTED, PASSED, limit="-v 40000")


def cases() -> List[Case]:
    """All of them, except for the search of many states."""
    return [*longest(), *long_texts(), *counted(), *long_report(), *long_case(), *most_components(), *a_thousand(), *unaffordable()]


def judgements(_: int) -> List[Judgement]:
    return [Judgement(joined("a_text_of_300_megabytes", *words), f"ttrun {' '.join(words)} --long < (300 MB)", faults_of_a_long_text, words)
            for words in (("check",), ("report", "--csv"))]
