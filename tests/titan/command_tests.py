"""Tests of the command as a user calls it, over recorded logs of Titan, made ones, and those that Titan writes now if it is installed."""
import os
import re
import shlex
import shutil
import subprocess
import sys
import xml.etree.ElementTree as ElementTree
from collections import Counter
from typing import Dict, List, Tuple

import made
from holding import Skipped, hold, same, text_of
from kit import CLIENT, LOGS, TOP, Place, Ran, lines_of, log
from script_reader import read_script
from table import Op
from texts import Block, Judged, check, read_history

import record
from titan_logs import audit, cases, command, histories, playing

FULL, PAGE = log("pumps-full.merged"), os.path.join(TOP, "docs", "titan.md")
STEADY = ("t_restart", "t_any_all", "t_watched", "t_killed_start", "t_stopped_start", "t_nested", "t_echo", "t_error", "t_stopcase",
          "t_several", "t_self", "t_guard", "t_cut_off", "t_told")


def rows_of(ran: Ran) -> Dict[str, List[str]]:
    """The rows of the table, by the name of the test case."""
    begin = next(at for at, line in enumerate(ran.lines) if line.startswith("test case "))
    return {line.split()[0]: line.split()[1:] for line in ran.lines[begin + 1:] if line.startswith(("t_", "t ", "t#"))}


def blocks_in(place: Place, name: str) -> List[Block]:
    return read_history(place.text(name).encode())[0]


def stand_in(place: Place, *lines: str) -> str:
    """A program of these lines of shell instead of ttrun."""
    return place.write("ttrun", "".join(f"{it}\n" for it in ("#!/bin/sh", *lines)), 0o755)


def the_flaky_ones_are_named(place: Place) -> None:
    ran = place.command("flaky", FULL)
    rows = rows_of(ran)
    same((ran.status, ran.errors, len(rows)), (1, "", 20))
    for name in (*STEADY, "t_stop_all"):
        same(rows[name][1], "-", name)
    named = [name for name, row in rows.items() if row[1] != "-"]
    hold("t_late" in named and {"t_first", "t_first#2", "t_waited"} & set(named), named)
    hold(f"20 test cases: {len(named)} with luck, {20 - len(named)} without" == ran.lines[-1], ran.lines[-1])
    text = ran.text
    hold("t_late: inconc in the log, pass in another order of the same calls\n  inconc and pass: alike for" in text, text)
    cut = r"run 1, f_late\(inconc\) on component 1, which Titan calls \d+, was cut off after 1 call: what it would have called is in no log"
    hold(re.search(cut, text), text)


def the_document_shows_what_is_printed(place: Place) -> None:
    shown = re.search(r"```\n(t_first: .*?)```", text_of(PAGE), re.DOTALL)
    ran = place.command("flaky", FULL, "--only", "t_first")
    hold(shown is not None and shown[1] in ran.text, ran.lines)


def the_commands_of_the_document_run(place: Place) -> None:
    """Each command of its blocks on recorded logs, and with each option of its table."""
    text = text_of(PAGE)
    commands = [shlex.split(line, comments=True) for block in re.findall(r"```sh\n(.*?)```", text, re.DOTALL) for line in block.splitlines()]
    called = [it[1:] for it in commands if it[0] == "clients/titan/ttrun-titan"]
    for words in called:
        ran = place.command(*(FULL if it == "LOGS" else place.program if it == "./ttrun" else it for it in words))
        hold(ran.status in (0, 1) and not ran.errors and ran.lines, (words, ran))
    options = re.findall(r"\| `(--[a-z]+)(?: ([A-Z]+))?` \|", text)
    given = {"NAME": "t_first", "N": "1000", "FILE": place.path("file")}
    for option, value in options:
        words = [option, *([place.program if option == "--program" else given[value]] if value else [])]
        ran = place.command("flaky", FULL, "--only", "t_first", *words)
        hold(ran.status in (0, 1) and not ran.errors, (words, ran))
    same(([it[0] for it in called], len(options)), (["flaky", "audit"], 7))


def the_distance_in_time_is_told(place: Place) -> None:
    it = made.begun(1)
    it.do_create(0, 0)
    it.start_to_pass(1)
    it.time += 12_345
    it.say(0, "setverdict(none): none -> none")
    it.made.logs[3][-1] = it.made.logs[3][-1].replace("pass", "fail")
    it.table.components[1].verdict = "fail"
    begun = it.time
    it.end()
    hold(it.made.verdict == "fail", it.made.verdict)
    ran = place.command("flaky", made.put(it.made, place.path("logs")))
    found = re.search(r"1 setverdict fail and 0 finish are (\d+\.\d{3}) ms apart in the log, by their stamps", ran.text)
    hold(found is not None and 12.345 < float(found[1]) < 12.5, (ran.lines, begun))


def default_settings_name_them_too(place: Place) -> None:
    ran = place.command("flaky", log("pumps-default.merged"))
    rows = rows_of(ran)
    for name in STEADY:
        same(rows[name][1], "-", name)
    hold(rows["t_late"][1] == "pass" and ran.status == 1, rows)
    hold("the log settings leave MATCHING out" in "\n".join(ran.lines[:3]), ran.lines[:3])
    hold("what is named may be excluded by one" in ran.text, ran.lines)


def a_message_keeps_the_order(place: Place) -> None:
    ran = place.command("flaky", FULL, "--only", "t_told")
    same((ran.status, rows_of(ran)["t_told"][:2]), (0, ["fail", "-"]))
    # The same without the lines of the messages: now nothing keeps the fail before the end.
    lines = [it for it in lines_of("pumps-full.merged") if " Sent on " not in it and "Receive operation" not in it]
    ran = place.command("flaky", place.log("cut.merged", lines), "--only", "t_told")
    hold(ran.status == 1 and "pass" in rows_of(ran)["t_told"][1:], ran.lines)


def executions_with_other_verdicts_are_named(place: Place) -> None:
    verdicts: Counter = Counter()
    for seed in range(6):
        it = made.course(seed + 40, most=12)
        made.put(it, place.path("logs"), f"M{seed}.host")
        verdicts[it.verdict] += 1
    ran = place.command("flaky", "logs")
    hold(len(verdicts) > 1, verdicts)
    seen = next(line for line in ran.lines if line.startswith("seen: t had "))
    for verdict, count in verdicts.items():
        hold(f"{verdict} {count} time" in seen, seen)


def every_witness_is_legal(place: Place) -> None:
    place.command("flaky", FULL, log("pumps-default.merged"), "--history", "all.history")
    judged, blocks = check(place.text("all.history").encode()), blocks_in(place, "all.history")
    hold(judged.status == 0 and len(blocks) > 42, judged.output[-300:])
    same([it.verdict for it in blocks if it.name == "t_late"], ["inconc", "pass"])


def a_ttrun_that_refuses_is_believed(place: Place) -> None:
    program = stand_in(place, "cat > /dev/null", "echo 'line 2: ok, table gives ended'", "exit 3")
    for word, outcome in (("flaky", "not judged"), ("audit", "check refuses")):
        ran = place.command(word, FULL, "--only", "t_late", "--program", program, "--history", "refused")
        hold(ran.status == 3 and outcome in ran.lines[-1] and "table gives ended" in ran.text, ran.lines)
        same(place.text("refused"), "", "what check refuses is written")


def a_ttrun_that_ends_badly_is_not_believed(place: Place) -> None:
    """Also if its line says that the order is legal."""
    program = stand_in(place, "cat > /dev/null", "echo 'legal t_late 7 pass'", "exit 3")
    place.says(3, "1 test case: 1 check refuses", "audit", FULL, "--only", "t_late", "--program", program)


def without_ttrun_it_says_so(place: Place) -> None:
    nowhere = Place(place.room, place.path("none"))
    ran = nowhere.command("flaky", FULL)
    hold(ran.status == 3 and "there is no program" in ran.errors and "--unchecked does without it" in ran.errors, ran.errors)
    for word in ("flaky", "audit"):
        one, other = nowhere.command(word, FULL, "--unchecked"), place.command(word, FULL)
        same((one.status, one.lines), (other.status, ["note: no history was shown to ttrun check", *other.lines]))
    same(place.command("flaky", FULL, "--unchecked", "--html", "x").status, 3)


def one_order_of_each_test_case(place: Place) -> None:
    ran = place.command("audit", FULL, log("pumps-default.merged"), *map(place.recorded, ("crowd-twice", "crowd-rotated")), "--history", "h")
    same((ran.status, ran.errors, ran.lines[-1]), (0, "", "43 test cases: 43 legal"))
    same(len(blocks_in(place, "h")), 43)


def an_error_of_a_component_is_marked(place: Place) -> None:
    place.says(0, "is written as its kill: the history ends with pass, Titan with error", "audit", FULL, "--only", "t_error")


def errors_of_the_main_component_are_the_tables(place: Place) -> None:
    ran = place.command("audit", log("faults-full.merged"), "--history", "h")
    same((ran.status, ran.lines[-1]), (0, "16 test cases: 16 legal"))
    found = {it.name: [entry.reply[6:] for entry in it.entries if entry.reply.startswith("error ")] for it in blocks_in(place, "h")}
    wanted = {"t_start_running": "already-running", "t_start_killed": "not-startable", "t_start_ended": "not-startable",
              "t_start_null": "no-component", "t_start_main": "start-main"}
    same({name: its for name, its in found.items() if its}, {name: [it] for name, it in wanted.items()})
    marked = [line.split(":")[0] for line in ran.lines if line.endswith(": legal")]
    same(marked, ["t_part_starts_running", "t_part_starts_killed", "t_part_asks_any"], "those with an error of a component")
    same(place.command("flaky", log("faults-full.merged")).lines[-1], "16 test cases: 16 without")


def functions_that_return_values(place: Place) -> None:
    # Titan logs the end of such a function after the end of its component, whenever it was.
    ran = place.command("audit", log("values-full.merged"))
    same((ran.status, ran.lines[-1], len(ran.lines)), (0, "11 test cases: 11 legal", 13))
    rows = rows_of(place.command("flaky", log("values-full.merged")))
    same([name for name, row in rows.items() if row[1] != "-"], [])
    for old, new, word in (("Function f_value returned integer : 7", "", "just ends"), ("Function f_value returned", "Function f_other returned", "returned a value")):
        damaged = [it.replace(old, new) for it in lines_of("values-full.merged") if new or old not in it]
        place.says(1, word, "audit", place.log("x.merged", damaged))


def crashes_shots_and_mimics_are_named(place: Place) -> None:
    for name, words, status in (("crash.merged", "the main component crashed", 1), ("shot", "component 3 was shot", 1),
                                ("mimic-default", "no order was found beyond", 1), ("quarrel-shim.merged", "3 test cases: 3 legal", 0)):
        place.says(status, words, "audit", log(name) if "." in name else place.recorded(name))
    place.says(3, "1 without, 1 not judged", "flaky", "shot")
    same(place.command("flaky", "shot", FULL).status, 1, "a verdict that depends on luck stands beside a test case that is not judged")


def no_letter_of_a_log_moves_the_cursor(place: Place) -> None:
    path = place.write("x.merged", text_of(FULL).replace("f_late(inconc)", "f_late(\x1b[31m\u00e9\x9b1m)"))
    for encoding in ("utf-8", "ascii"):
        ran = subprocess.run([sys.executable, os.path.join(CLIENT, "ttrun-titan"), "flaky", path, "--unchecked", "--only", "t_late"],
                             env={**os.environ, "PYTHONIOENCODING": encoding}, capture_output=True, check=False)
        hold(ran.returncode == 1 and b"f_late(?[31m" in ran.stdout and b"\x1b" not in ran.stdout, ran)


def a_word_moves_no_cursor_either(place: Place) -> None:
    ran = place.command("audit", FULL, "--only", "\x1b[2J\r")
    same((ran.status, ran.errors), (3, "ttrun-titan: no test case ?[2J? is in the logs\n"))


def nobody_reads_what_is_printed(place: Place) -> None:
    """The status is that of a refusal, and no verdict's."""
    reads, writes = os.pipe()
    os.close(reads)
    words = [sys.executable, os.path.join(CLIENT, "ttrun-titan"), "audit", FULL, "--unchecked", "--only", "t_error"]
    ran = subprocess.run(words, stdout=writes, stderr=subprocess.PIPE, check=False)
    os.close(writes)
    same((ran.returncode, ran.stderr), (3, b""))


def one_execution_is_chosen(place: Place) -> None:
    """By its number. Each is a test case of the script, which is explored, run and checked."""
    for number in range(3):
        made.put(made.course(number + 40, most=6), place.path("logs"), f"M{number}.host")
    for logs, chosen, wanted in ((FULL, "t_first#2", ["t_first#2"]), (FULL, "t_first", ["t_first", "t_first#2"]),
                                 ("logs", "t#3", ["t#3"]), ("logs", "t", ["t", "t#2", "t#3"])):
        ran = place.command("audit", logs, "--only", chosen, "--history", "kept")
        hold(ran.status < 3, ran.errors)
        same(list(rows_of(ran)), wanted)
        same([it.name for it in blocks_in(place, "kept")], [it.replace("#", "_") for it in wanted])
    script = f"{place.command('script', 'logs').text}\n"
    same(sorted(explored(place, script)), ["t", "t_2", "t_3"])
    given = script.encode()
    given += subprocess.run([place.program, "run", "--evidence"], input=given, capture_output=True, check=False).stdout
    ran = subprocess.run([place.program, "check", "--script"], input=given, capture_output=True, check=False)
    same((ran.returncode, [it.split()[:2] for it in ran.stdout.decode().splitlines()]), (0, [["legal", it] for it in ("t", "t_2", "t_3")]))


def what_was_not_decided_is_no_pass(place: Place) -> None:
    for word in ("audit", "flaky"):
        ran = place.command(word, FULL, "--only", "t_late", "--states", "1")
        hold(ran.status == 3 and ran.lines[-1] == "1 test case: 1 undecided", (ran.status, ran.lines))


def junit_has_every_test_case(place: Place) -> None:
    for words, wanted in ((["flaky"], None), (["audit"], 0)):
        ran = place.command(*words, FULL, "--junit", "x.xml")
        suite = ElementTree.parse(place.path("x.xml")).getroot()[0]
        failures = sum(it.find("failure") is not None for it in suite)
        same((len(suite), suite.get("tests"), suite.get("failures"), suite.get("errors")), (20, "20", str(failures), "0"))
        hold(failures > 0 if wanted is None else failures == wanted, failures)
        hold(suite[0].get("name") == "t_restart" and ran.status == (1 if failures else 0), suite[0].attrib)


def junit_counts_what_was_not_decided(place: Place) -> None:
    place.command("flaky", FULL, "--states", "1", "--junit", "x.xml")
    root = ElementTree.parse(place.path("x.xml")).getroot()
    errors = sum(it.find("error") is not None for it in root[0])
    hold(errors > 0, "each search ends with one state")
    same((root.get("errors"), root[0].get("errors")), (str(errors), str(errors)))


def junit_keeps_any_letter(place: Place) -> None:
    text = "it's \"said\" & <done>"
    root = ElementTree.fromstring(command.report_of(text, [command.Row(text, text, "failure", text, [text])]))
    case, = root[0]
    same((root[0].get("name"), case.get("name"), case.get("classname"), case[0].get("message"), (case[1].text or "").strip()), (text,) * 5)
    for seed in range(12):
        it = made.course(seed, most=20)
        for role in it.logs:
            it.logs[role] = [line.replace("function f1()", 'function f1("<&\x01]]>")') for line in it.logs[role]]
        made.put(it, place.path("logs"), f"M{seed}.host")
    place.command("flaky", "logs", "--junit", "x.xml")
    root = ElementTree.parse(place.path("x.xml")).getroot()
    hold(len(root[0]) == 12 and 'f1("<&?]]>") on component' in "".join(root.itertext()), "".join(root.itertext())[:500])


def explored(place: Place, script: str) -> Dict[str, Tuple[str, ...]]:
    """The verdicts that `ttrun explore` finds, none if this ttrun cannot explore."""
    ran = subprocess.run([place.program, "explore"], input=script, capture_output=True, text=True, check=False)
    rows = [line.split() for line in ran.stdout.splitlines()]
    return {row[0]: tuple(row[1:row.index("complete")]) for row in rows if "complete" in row}


def scripts_are_what_explore_reads(place: Place) -> None:
    ran = place.command("script", FULL)
    told = [f"ttrun-titan: {it}: the error of r1 is written as its kill: explore cannot say error\n" for it in ("t_error", "t_stopcase")]
    same((ran.status, ran.errors), (0, "".join(told)))
    marked = [ran.lines[at + 1] for at, line in enumerate(ran.lines) if line == audit.ERROR]
    same(marked, ["  kill self"] * 2)
    same(ran.lines.count("  getverdict"), text_of(FULL).count(" getverdict: "))
    text = f"{ran.text}\n"
    found = read_script(text.encode())
    hold(not isinstance(found, Judged), found)
    verdicts = explored(place, text)
    if verdicts:
        same(len(verdicts), 20)
        for name, row in rows_of(place.command("flaky", FULL)).items():
            wanted = {row[0]} | ({row[1]} - {"-"})
            # A script has no messages, and its parallel component's error is a kill.
            wanted = {"t_told": {"pass", "fail"}, "t_error": {"pass"}}.get(name, wanted)
            same(set(verdicts[name.replace("#", "_")]), wanted, name)


def a_script_of_each_log_is_run(place: Place) -> None:
    for name in ("pumps-full.merged", "pumps-default.merged", "faults-full.merged", "values-full.merged", "crowd-rotated", "crowd-twice"):
        text = f"{place.command('script', log(name) if '.' in name else place.recorded(name)).text}\n"
        ran = subprocess.run([place.program, "run", "--list"], input=text.encode(), capture_output=True, check=False)
        same((ran.stderr, len(ran.stdout.splitlines()) > 0), (b"", True), name)


def the_histories_of_each_log_have_models(place: Place) -> None:
    """In each the behaviours have ended that others halted. A script has no fifth argument, and no component that nobody made."""
    logs = [place.recorded(it[:-len(".logs")]) if it.endswith(".logs") else log(it) for it in os.listdir(LOGS) if not it.endswith(".sh")]
    for word, least in (("audit", 87), ("flaky", 100)):
        place.command(word, *logs, "--history", word)
        ran = subprocess.run([place.program, "model"], input=place.text(word).encode(), capture_output=True, check=False)
        lacking = Counter(line.rpartition(": ")[2] for line in ran.stderr.decode().splitlines())
        hold(ran.stdout.count(b"testcase ") >= least and set(lacking) <= {"too many arguments", "a component that the run is not given"}, (word, lacking))


def orders_side_by_side_are_cut_after_twelve_rows(place: Place) -> None:
    entry = playing.Entry(0, Op("getverdict"), "none")
    for count in (11, 12, 13):
        rows = histories.side_by_side([entry] * 2, [entry] * (2 + count), ("one", "other"))
        same((len(rows), rows[0], rows[-1] == ".."), (2 + min(count, 12) + (count > 12), "alike for 2 entries", count > 12))


def the_most_that_a_history_holds(place: Place) -> None:
    """255 starts; and the name of a test case of 32 letters that is executed twice."""
    for runs, wanted in ((256, ""), (257, "256 starts, and a history holds 255")):
        case = cases.TestCase("t", 0, runs=[cases.Run(it, 0, "f") for it in range(runs)])
        same(histories.why_none(case), wanted)
    for execution, wanted in ((1, "a" * 32), (2, "a" * 30 + "_2"), (12, "a" * 29 + "_12")):
        same(histories.name_of(cases.TestCase("a" * 32, 0, execution=execution)), wanted)


def what_no_script_holds_is_told(place: Place) -> None:
    made.put(made.crowd(300, 1), place.path("logs"))
    ran = place.command("script", "logs")
    hold(ran.status == 3 and ran.lines == [] and "no script holds it: 300 starts, and a history holds 255" in ran.errors, ran)
    place.says(0, "its order is not shown to ttrun check: 300 starts, and a history holds 255", "audit", "logs")
    ran = place.says(3, ": too many arguments: ", "script", log("quarrel-shim.merged"), "--only", "t_quarrel")
    hold(re.search(r"no model of t_quarrel: too many arguments: \d+ .* -> \w+ \(quarrel-shim.merged:\d+: .*\)\n", ran.errors), ran)


def words_that_it_does_not_know(place: Place) -> None:
    known = place.recorded("mimic-typed")
    for words in ([], ["x"], ["flaky"], ["flaky", known, "--x"], ["audit", known, "--states", "0"], ["audit", known, "--states", "x"],
                  ["audit", known, "--stat", "1"], ["audit", known, "--only", "t_none"], ["audit", known, "--program", "/none"],
                  ["audit", known, "--history", "/none/x"]):
        ran = place.command(*words)
        same((ran.status, ran.lines, ran.errors.count("\n"), ran.errors[:13]), (3, [], 1, "ttrun-titan: "), words)
    place.says(0, "flaky", "--help")


def a_page_or_why_there_is_none(place: Place) -> None:
    ran = place.command("flaky", FULL, "--only", "t_late", "--html", "page.html")
    if ran.status == 3:
        hold("this ttrun writes no page" in ran.errors and "--history FILE" in ran.errors, ran.errors)
    else:
        hold("page.html#/0/1" in ran.text and os.path.getsize(place.path("page.html")) > 1000, ran.lines)
    program = stand_in(place, f'[ "$1" = report ] || exec "{place.program}" "$@"', "cat > seen", "echo '<!doctype html>'")
    words = ["flaky", FULL, "--only", "t_late", "--only", "t_restart", "--html", "p.html", "--program", program]
    place.says(1, "compare inconc and pass: p.html#/1/2", *words)
    same([it.verdict for it in blocks_in(place, "seen")], ["pass", "inconc", "pass"])


def recorded(*named: object, **more: object) -> None:
    """Runs a module on Titan, if that is installed."""
    if record.why_not():
        raise Skipped(record.why_not())
    record.record(*named, **more)


def titan_run_anew(place: Place) -> None:
    folder = place.path("full")
    recorded("Pumps", folder, "full")
    other = place.path("default")
    os.mkdir(other)
    shutil.copy2(os.path.join(folder, "Pumps"), other)
    recorded("Pumps", other, "default")
    for logs in (folder, other):
        ran = place.command("audit", logs)
        same((ran.status, ran.lines[-1]), (0, "20 test cases: 20 legal"), ran.text)
        rows = rows_of(place.command("flaky", logs))
        same(len(rows), 20)
        for name in STEADY:
            same(rows[name][1], "-", name)
        # On a busy machine the component may come too late, and is cut off.
        hold(rows["t_late"][:2] == ["inconc", "pass"] or rows["t_late"][0] != "inconc", rows["t_late"])


def titan_with_a_log_for_each_test_case(place: Place) -> None:
    """The log of the first execution of a test case is overwritten by that of its second."""
    folder = place.path("each")
    recorded("Pumps", folder, "each")
    ran = place.command("audit", folder)
    same((ran.status, ran.lines[-1]), (0, "19 test cases: 19 legal"), ran.text)
    hold(sum("-t_first.log: this component belongs to no test case that the log has" in it for it in ran.lines) == 1, ran.lines)


def titan_with_the_shim(place: Place) -> None:
    folder = place.path("quarrel")
    recorded("Quarrel", folder, "full", is_shimmed=True, parameters=["tsp_parts := 4", "tsp_times := 3"])
    text = "".join(text_of(os.path.join(folder, it)) for it in os.listdir(folder) if it.endswith(".log"))
    # How many there are depends on who is stopped first.
    count = len(re.findall(r"AUDIT running (?:\d+|any) -> (?:true|false)", text))
    hold(count > 12 and "AUDIT alive" in text, f"the shim logs {count} answers to running")
    rows = rows_of(place.command("audit", folder))
    # Now and then a kill takes effect after the end of its caller, which no order has.
    hold(len(rows) == 3 and sum(row[1] == "legal" for row in rows.values()) >= 1, rows)
    hold(all(row[1] == "legal" or row[1:5] == ["no", "order", "was", "found"] for row in rows.values()), rows)
