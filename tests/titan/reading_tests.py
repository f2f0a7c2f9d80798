"""Tests of the reader: stamps, layouts, phrases, sessions, rotation, limits, and every single damage of every line of two test cases."""
import os
import re
from collections import Counter
from typing import Dict, Iterator, List, Tuple
from unittest.mock import patch

import made
from holding import Fault, hold, holds_word, raises, same, text_of
from kit import CLIENT, Place, lines_of, log
from table import VERDICTS

from titan_logs import audit, cases, histories, limits, lines, phrases, reading, sessions


def read(*paths: str) -> list:
    """The test cases of logs, with their calls."""
    try:
        return [reading.read_case(it) for session in sessions.read_sessions(list(paths)) for it in cases.cases_of(session)]
    except lines.Refused as refusal:
        raise Fault(f"refused: {refusal}") from refusal


def read_made(place: Place, it: made.Made, name: str = "logs") -> cases.TestCase:
    """The test case of logs that were made, which it writes into this folder."""
    found = read(made.put(it, place.path(name)))
    same(len(found), 1, "test cases:")
    return found[0]


def calls_in(case: cases.TestCase) -> list:
    return [[call.text() for call in run.calls] for run in case.runs]


# Name, family, text, and the words in it.
PHRASES = """\
creating | PARALLEL | Creating new PTC with component type M.C. | None
creating | PARALLEL | Creating new alive PTC with component type M.C, component name: pump. | alive 
created | PARALLEL | PTC was created. Component reference: 3, alive: yes, type: M.C, component name: pump. | 3 yes pump
created | PARALLEL | PTC was created. Component reference: 12, alive: no, type: M.C. | 12 no None
created | PARALLEL | PTC was created. Component reference: 12, alive: no, type: M.C, component name: pump, location: host. | 12 no pump
starting_on | PARALLEL | Starting function f(1, "x on component 9") on component pump(3). | f(1, "x on component 9") 3
starting_on | PARALLEL | Starting function f() on component 7. | f() 7
starting | PARALLEL | Starting function f(3.5). | f(3.5)
was_started | PARALLEL | Function was started. |
halting | PARALLEL | Stopping PTC with component reference 3. | Stopping 3
was_halted | PARALLEL | PTC with component reference 3 was stopped. | 3 stopped
has_ended | PARALLEL | PTC with component reference 3 is killed. | 3 killed
halted_in_vain | PARALLEL | PTC with component reference 3 is not running. Stop operation had no effect. | 3 Stop
halted_in_vain | PARALLEL | PTC with component reference 3 is not alive anymore. Kill operation had no effect. | 3 Kill
halted_in_vain | PARALLEL | No PTCs are running. Operation 'all component.stop' had no effect. | all stop
halted_in_vain | PARALLEL | There are no alive PTCs. Operation 'all component.kill' had no effect. | all kill
group_has_ended | MATCHING | Operation 'any component.done' was successful. | any done was successful
group_has_ended | MATCHING | Operation 'all component.killed' failed because no PTCs were created in this test case. | all killed failed
set | VERDICTOP | setverdict(fail): none -> fail reason: "x", new component reason: "x" | fail none fail
got | VERDICTOP | getverdict: inconc | inconc
error | ERROR | Dynamic test case error: testcase.stop | testcase.stop
error | ERROR | M.ttcn:19: Dynamic test case error: Integer division by zero. | Integer division by zero.
requested | EXECUTOR | Stop was requested from MC. Ignored on idle PTC. | Stop Ignored on idle PTC.
halting_self | PARALLEL | Terminating test component execution. | Terminating
finished | PARALLEL | Function f finished. PTC remains alive and is waiting for next start. | remains
stopped | PARALLEL | Function f was stopped. PTC terminates. | terminates
has_ended | PARALLEL | PTC with component reference 3 is done. Return value: integer : 7 | 3 done
returned | PARALLEL | Function f_value returned integer : 7<unfinished> | f_value
told_final | VERDICTOP | Local verdict of PTC odd name(5): fail (pass -> fail) | odd name(5) fail pass fail
sent | PORTEVENT | Sent on p to odd name(5) integer : 1 | Sent odd name(5)
received | PORTEVENT | Receive operation on port wire succeeded, message from odd name(5): integer : 1 id 1 | message odd name(5)
received | PORTEVENT | Getreply operation on port proc succeeded, reply from 4: @Odd.Ask : { } value 5 id 1 | reply 4
own_final | VERDICTOP | Final verdict of PTC: pass reason: "first" | pass
main_final | VERDICTOP | Local verdict of MTC: none | none
told_final | VERDICTOP | Local verdict of PTC pump(3): fail (pass -> fail) reason: "x" | pump(3) fail pass fail
case_finished | TESTCASE | Test case t finished. Verdict: fail reason: because | t fail
sent | PORTEVENT | Sent on p to mtc integer : 1 | Sent mtc
received | PORTEVENT | Receive operation on port p succeeded, message from 19: @M.T : { n := 2 } id 1 | message 19
shim_status | PARALLEL | AUDIT running all -> false | running all false
"""


def phrases_of_every_kind(place: Place) -> None:
    for row in PHRASES.splitlines():
        name, family, text, words = (it.strip() for it in row.split("|"))
        for typed in (family, ""):
            found = phrases.recognise(text, typed)
            hold(found is not None and found.name == name, f"{text}: {found}")
            same(" ".join(str(it).strip() for it in found.words), words, text)
        hold(phrases.recognise(text, "USER") is None, f"a user's line: {text}")
        hold(phrases.recognise(f"{text} and more", "USER") is None, text)


def lines_that_are_no_phrase(place: Place) -> None:
    for text in ("setverdict(maybe): none -> pass", "getverdict: none of it", "PTC was created.", "Starting functions f().", "", "PTC",
                 "Function was started. "):
        hold(phrases.recognise(text, "PARALLEL") is None and phrases.recognise(text, "") is None, text)


def layouts(place: Place) -> None:
    for rest, wanted in (("TTCN-3 Main Test Component started on vm.", ("", "", "TTCN-3 Main Test Component started on vm.")),
                         ("EXECUTOR_COMPONENT - TTCN-3 Main", ("", "EXECUTOR", "TTCN-3 Main")),
                         ("EXECUTOR_COMPONENT TTCN-3 Main", ("", "EXECUTOR", "TTCN-3 Main")),
                         ("mtc EXECUTOR_COMPONENT - TTCN-3 Main", ("mtc", "EXECUTOR", "TTCN-3 Main")),
                         ("mtc TTCN-3 Main", ("mtc", "", "TTCN-3 Main")),
                         ("12 M.ttcn:3->M.ttcn:4(function:f) TTCN-3 Main", ("12", "", "TTCN-3 Main"))):
        same(lines.Layout.guessed(rest).parts(rest), wanted, rest)


def family_of(line: str) -> str:
    found = phrases.recognise(line[16:], "")
    return next((it.split()[0] for name, it, _ in phrases.FORMS if found and name == found.name), "USER")


def laid_out(its: list, layout: str) -> list:
    """The lines of a log as other settings would have them."""
    found = []
    for at, line in enumerate(its):
        stamp, _, text = line.partition(" ")
        hours, minutes, seconds = stamp.split(":")
        family = family_of(line)
        text = text.replace("LogEventTypes:=No", "LogEventTypes:=Subcategories") if "kinds" in layout else text
        text = text.replace("SourceInfoFormat:=None", "SourceInfoFormat:=Stack") if "sources" in layout else text
        stamp = f"{int(hours) * 3600 + int(minutes) * 60 + float(seconds):.6f}" if "seconds" in layout else stamp
        stamp = f"2026/Nov/26 {stamp}" if "dates" in layout else stamp
        kind = f"{family}_PTC " if "kinds" in layout else ""
        source = ("- " if at < 3 else "M.ttcn:9(testcase:t)->M.ttcn:7 ") if "sources" in layout else ""
        found.append(f"{stamp} {kind}{source}{text}")
    return found


def settings_of_every_kind(place: Place) -> None:
    wanted = None
    for layout in ("", "seconds", "dates", "sources", "kinds", "kinds sources", "seconds kinds sources", "dates kinds sources"):
        it = made.course(9, most=60)
        it.logs = {role: laid_out(its, layout) for role, its in it.logs.items()}
        case = read_made(place, it, layout.replace(" ", "_") or "plain")
        same((case.faults, case.missing, case.verdict), ([], [], it.verdict), layout)
        wanted = wanted or calls_in(case)
        same(calls_in(case), wanted, layout)


def what_the_settings_leave_out_is_told(place: Place) -> None:
    for mask, wanted in (("LOG_ALL | MATCHING", []), ("LOG_ALL | MATCHING_DONE", []), ("LOG_ALL", ["MATCHING"]), ("PARALLEL | MATCHING", ["PORTEVENT"]),
                         ("PARALLEL | PORTEVENT", ["MATCHING"]), ("PARALLEL", ["MATCHING", "PORTEVENT"])):
        it = made.course(9)
        it.logs[0] = [line.replace("LOG_ALL | MATCHING", f"{mask}; *.ConsoleMask:=MATCHING | PORTEVENT") for line in it.logs[0]]
        session, = sessions.read_sessions([made.put(it, place.path("logs"))])
        same([name for name, _ in session.left_out()], wanted, mask)


def settings_without_calls_are_told(place: Place) -> None:
    it = made.course(9)
    for left_out, kept in (("PARALLEL", "TESTCASE EXECUTOR VERDICTOP ERROR"), ("VERDICTOP", "TESTCASE EXECUTOR PARALLEL ERROR")):
        for mask in (kept, ""):  # without a mask the line with the settings is left out too
            logs = {role: [line for line in its if family_of(line) in kept] for role, its in it.logs.items()}
            logs[0] = [line.replace("LOG_ALL | MATCHING", mask) for line in logs[0] if mask or "FileMask" not in line]
            folder = made.put(made.Made(logs), place.path("logs"))
            for word in ("flaky", "audit"):
                ran = place.command(word, folder, "--unchecked")
                hold(f"leave {left_out} out" in ran.text and "disagree" not in ran.text, ran.text)
                same((ran.status, ran.lines[-1]), (3, "1 test case: 1 not judged"), word)


def a_race_that_a_wait_in_no_log_may_exclude(place: Place) -> None:
    """The log does not say its settings, and no line of it shows such a wait."""
    remark = "may leave MATCHING out: waits for any or all components are in no log: what is named may be excluded by one"
    for name, word, is_remarked in (("pumps-default.merged", remark, True), ("pumps-full.merged", "MATCHING", False)):
        story = [line for line in lines_of(name) if "TTCN Logger v" not in line]
        ran = place.command("flaky", place.log("x.merged", story), "--only", "t_late", "--unchecked")
        hold(ran.status == 1 and (word in ran.text) is is_remarked, ran.lines)


def stamps(place: Place) -> None:
    clock, rows = lines.Clock(), (("23:59:59.999999 ", 86399999999), ("23:59:59.999990 ", 86399999990), ("00:00:00.000001 ", 86400000001),
                                  ("2026/Nov/26 00:00:00.000001 ", 63931000 * 10 ** 6 * 0 + 1), ("12.000005 ", 12000005))
    for text, wanted in rows:
        found = clock.read(lines.STAMP.match(text))
        hold(found == wanted if "Nov" not in text else found % lines.DAY == wanted and found > 700000 * lines.DAY, (text, found))
    clock = lines.Clock()
    set_back = [clock.read(lines.STAMP.match(f"{hours}:00:00.000000 ")) // lines.SECOND // 3600 for hours in ("12", "10", "02", "14", "01")]
    same(set_back, [12, 10, 2, 14, 25], "a clock that is set back by two hours, or by ten, goes on in the same day")


def settings_give_the_same_calls(place: Place) -> None:
    full, default = read(log("pumps-full.merged")), read(log("pumps-default.merged"))
    same([it.name for it in full], [it.name for it in default])
    same(len(full), 20)
    for case in full + default:
        same((case.faults, case.missing), ([], []), case.title)
    for one, other in zip(full, default):
        hold(one.name in ("t_late", "t_first", "t_stop_race", "t_waited", "t_cut_off") or len(one.runs) == len(other.runs), one.title)


def a_folder_and_its_merged_file_are_the_same(place: Place) -> None:
    it = made.course(5)
    folder = made.put(it, place.path("logs"))
    every = sorted((line, "mtc" if role == 0 else str(role)) for role, its in it.logs.items() for line in its)
    merged = place.log("all.merged", [f"{line[:16]}{role} {line[16:]}" for line, role in every])
    same(calls_in(read(folder)[0]), calls_in(read(merged)[0]))


def rotated_logs_are_put_together(place: Place) -> None:
    found = read(place.recorded("crowd-rotated"))
    same([(it.title, it.verdict, it.faults, it.missing, len(it.runs)) for it in found], [("t_crowd", "pass", [], [], 9)])


def parts_are_in_the_order_of_their_numbers(place: Place) -> None:
    it = made.course(7, most=80)
    for role, its in it.logs.items():
        size = max(1, -(-len(its) // 12))
        for part in range(-(-len(its) // size)):
            place.log(f"logs/M.host-{role or 'mtc'}-part{part + 1}.log", its[part * size:(part + 1) * size])
    same(calls_in(read(place.path("logs"))[0]), calls_in(read_made(place, it, "whole")))


def a_missing_part_is_told(place: Place) -> None:
    it = made.course(7, most=60)
    for role, its in it.logs.items():
        third = max(1, len(its) // 3)
        for part in range(3 if role == 0 else 1):
            if role != 0 or part != 1:
                kept = its[part * third:] if part == 2 or role else its[part * third:(part + 1) * third]
                place.log(f"logs/M.host-{role or 'mtc'}-part{part + 1}.log", kept)
    place.says(1, "part 2 of the log is missing", "audit", "logs")


def two_sessions_in_the_same_files(place: Place) -> None:
    found = sessions.read_sessions([place.recorded("crowd-twice")])
    same([(len(it.components), it.remarks[1:]) for it in found], [(2, []), (2, [])])
    same([it.verdict for session in found for it in map(reading.read_case, cases.cases_of(session)) if not it.faults], ["pass", "pass"])


def two_nights_at_the_same_time_of_day(place: Place) -> None:
    """Without dates nobody knows which logs belong together; with them it is read."""
    one, other = made.course(3), made.course(4)
    for name, first, second in (("plain", "", ""), ("dated", "2026/Nov/26 ", "2026/Nov/27 ")):
        for role in {*one.logs, *other.logs}:
            its = [f"{first}{it}" for it in one.logs.get(role, [])] + [f"{second}{it}" for it in other.logs.get(role, [])]
            place.log(f"{name}/M.host-{role or 'mtc'}.log", its)
    same([(it.verdict, it.faults) for it in read(place.path("dated"))], [(one.verdict, []), (other.verdict, [])])
    for word in ("flaky", "audit", "script"):
        ran = place.command(word, "plain")
        hold(ran.status == 3 and not ran.lines and "M.host-mtc.log: two sessions are at the same time" in ran.errors, ran)
        hold(ran.errors.endswith("record with TimeStampFormat := DateTime\n"), ran)


def logs_of_other_names_and_places(place: Place) -> None:
    """Another suffix, one folder down, and a log for each test case, of which a second execution has overwritten the first."""
    it = made.course(5)
    wanted = read_made(place, it, "plain")
    begin = next(at for at, line in enumerate(it.logs[0]) if "Test case t started" in line)
    rest = [line.replace("Test case t ", "Test case a ") for line in it.logs[0] if "Test case t" in line or "MTC" in line or "Terminating comp" in line]
    for role, its in it.logs.items():
        place.log(f"below/logs/M.host-{role or 'mtc'}.txt", its)
        place.log(f"each/M.host-{role or 'mtc'}-t.log", its if role else its[begin:])
    place.log("below/notes.txt", ["08:00 began"])
    place.log("each/M.host-mtc-a.log", [made.shifted(line, 60_000_000) for line in rest])
    place.log("each/M.host-mtc-.log", [made.shifted(it.logs[0][-1], 90_000_000).replace("Test case t finished. Verdict:", "Verdict statistics:")])
    lost = "TTCN-3 Parallel Test Component started on host. Component reference: 77, component type: M.C. Version: 8.2.0."
    place.log("each/M.host-77-a.log", [f"{made.shifted(it.logs[0][-1], 1_000_000)[:16]}{lost}"])
    for name, names in (("below", ["t"]), ("each", ["t", "a"])):
        found = read(place.path(name))
        same([(case.name, case.faults) for case in found], [(it, []) for it in names])
        same(calls_in(found[0]), calls_in(wanted))
    session, = sessions.read_sessions([place.path("each")])
    same(len(list(cases.cases_of(session))), 2)
    hold("M.host-77-a.log: this component belongs to no test case that the log has" in session.remarks, session.remarks)
    place.says(3, "no log of Titan is in ", "audit", place.log("none/x", ["hello"])[:-2])


def carriage_returns_change_nothing(place: Place) -> None:
    it = made.course(5)
    ended = made.Made({role: [f"{line}\r" for line in its] for role, its in it.logs.items()})
    one, other = read_made(place, it), read_made(place, ended, "ended")
    same((other.verdict, calls_in(other)), (one.verdict, calls_in(one)))


def a_log_that_begins_inside_a_test_case(place: Place) -> None:
    story = [it for it in lines_of("pumps-full.merged") if "Test case t_restart started" not in it]
    session, = sessions.read_sessions([place.log("x.merged", story)])
    same(len(list(cases.cases_of(session))), 19)
    hold(any("t_restart" in it and it.endswith(": the beginning of this test case is missing") for it in session.remarks), session.remarks)


def two_campaigns_in_one_folder(place: Place) -> None:
    one, other = made.course(3), made.course(4)
    made.put(one, place.path("logs"), "One.host")
    made.put(other, place.path("logs"), "Other.host")
    same([(it.verdict, it.faults) for it in read(place.path("logs"))], [(one.verdict, []), (other.verdict, [])])


def a_file_name_without_the_executable(place: Place) -> None:
    it = made.course(3)
    for role, its in it.logs.items():
        place.log(f"logs/log-{role or 'mtc'}.log", its)
    same([(case.verdict, case.faults) for case in read(place.path("logs"))], [(it.verdict, [])])


def lines_like_the_runtimes_own(place: Place) -> None:
    typed, plain = place.command("audit", place.recorded("mimic-typed")), place.command("audit", place.recorded("mimic-default"))
    same((typed.status, plain.status), (0, 1))
    hold("may be taken for the runtime's" in plain.lines[0] and "may be taken" not in "\n".join(typed.lines), plain.lines)


def a_continued_line_belongs_to_the_one_before(place: Place) -> None:
    first = ["00:00:01.000000 TTCN-3 Main Test Component started on h. Version: 8.2.0.", "00:00:01.000001 Test case t started.",
             '00:00:01.000002 setverdict(fail): none -> fail reason: "a', 'b", new component reason: "a', 'b"',
             "00:00:01.000003 Terminating component type M.C.", "00:00:01.000004 Local verdict of MTC: fail",
             "00:00:01.000005 Test case t finished. Verdict: fail"]
    case, = read(place.log("x.log", first))
    same([it.text() for it in case.runs[0].calls if not it.seen], ["0 setverdict fail -> ok", "0 finish -> ok"])


def no_input_is_a_trap(place: Place) -> None:
    os.mkfifo(place.path("pipe"))
    place.log("empty/x.log", [])
    place.log("text/x.log", ["hello", "2026/Nov/26 08:00:00.000000 hello"])
    place.write("bytes.log", bytes(range(256)) * 2000)
    for words in (["pipe"], ["empty"], ["text"], ["bytes.log"], ["/dev/zero"], ["/dev/null"], ["none"], ["."], [""]):
        ran = place.command("flaky", *words)
        same((ran.status, ran.lines, ran.errors.count("\n")), (3, [], 1), f"{words} {ran.errors}")
    first = made.course(1).logs[0]
    path = place.log("long.log", [first[0], first[1], first[2], f"{first[2][:16]}{'x' * 3_000_000}", *first[3:]])
    same([it.name for it in read(path)], ["t"])


def limits_are_held(place: Place) -> None:
    path = place.log("x.log", made.course(1).logs[0])
    for name, text in (("MOST_BYTES", "bytes"), ("MOST_LINES", "lines")):
        with patch.object(lines, name, 3):
            holds_word(text, str(raises(lines.Refused, lambda: sessions.read_sessions([path]))))


def each_limit_stands_in_one_place(place: Place) -> None:
    names = [it for it in dir(limits) if it.isupper()]
    hold(len(names) >= 14, names)
    for file in os.listdir(os.path.join(CLIENT, "titan_logs")):
        if file.endswith(".py") and file not in ("limits.py", "table.py"):
            text = text_of(os.path.join(CLIENT, "titan_logs", file))
            hold(not any(f"\n{it} =" in text for it in names), f"{file} sets a limit anew")


def damage_between_logs_is_told(place: Place) -> None:
    for change, word in DAMAGES:
        it = made.Made(logs={role: list(its) for role, its in BASE.logs.items()}, verdict=BASE.verdict)
        change(it)
        case = read_made(place, it, word.replace(" ", "_"))
        hold(any(word in fault for fault in case.faults + case.missing), f"{word}: {case.faults} {case.missing}")


# Two components, each of them started twice.
BASE = made.crowd(2, 2)


def replace(it: made.Made, role: int, old: str, new: str) -> None:
    """Changes the first line of a process that has this text; without a new one it is dropped."""
    at = next(number for number, line in enumerate(it.logs[role]) if old in line)
    if new:
        it.logs[role][at] = it.logs[role][at].replace(old, new)
    else:
        del it.logs[role][at]


DAMAGES = (
    (lambda it: it.logs.pop(4), "no log of component 4"),
    (lambda it: replace(it, 0, "PTC was created. Component reference: 4", ""), "no log creates it"),
    (lambda it: replace(it, 0, "Starting function f1() on component 3.", ""), "an answer without its call"),
    (lambda it: replace(it, 0, "Function was started.", ""), "a call without an answer"),
    (lambda it: replace(it, 3, "Final verdict of PTC: pass", "Final verdict of PTC: fail"), "the main component got"),
    (lambda it: replace(it, 3, "Final verdict of PTC: pass", ""), "has no final verdict"),
    (lambda it: replace(it, 0, "(none -> pass)", "(none -> fail)"), "does not follow"),
    (lambda it: replace(it, 0, "finished. Verdict: pass", "finished. Verdict: fail"), "the local verdicts give pass"),
    (lambda it: replace(it, 0, "Local verdict of MTC: none", ""), "no local verdict of its own"),
    (lambda it: replace(it, 0, "Test case t finished. Verdict: pass", ""), "no end of this test case"),
    (lambda it: replace(it, 3, "setverdict(pass): none -> pass", "setverdict(pass): none -> fail"), "not the worse of the two"),
    (lambda it: replace(it, 3, "Starting function f3", "Starting function f9"), "another function"),
    (lambda it: replace(it, 3, "finished. PTC", "finished. PTC terminates. PTC") or replace(it, 0, "alive: yes", "alive: no"), "of another kind"))


# The two test cases, each with any and all, kills, restarts, waits and verdicts.
NAMES = ("t_restart", "t_any_all")
STATES = 20_000
FEWEST = 770
FEWEST_FOUND_OUT = 637
OTHER_WORDS = (("alive: yes", "alive: no"), ("alive: no", "alive: yes"), ("is done", "is killed"), ("is killed", "is done"),
               ("Stopping", "Killing"), ("was stopped", "is killed"), ("any component", "all component"),
               ("all component", "any component"), (".done'", ".killed'"), (".killed'", ".done'"), ("new alive", "new"),
               ("new PTC", "new alive PTC"), ("remains alive", "terminates"), ("terminates", "remains alive"))
# The lines that are one call each, by only their texts.
CALLS = re.compile(r"(setverdict\((?!error)|getverdict: |Function .* finished\. |Operation '... component\.\w+' was successful|PTC was created)")
Lines = Dict[int, List[lines.Line]]


def changed(line: lines.Line, text: str) -> List[lines.Line]:
    """The line with another text; none if it says nothing any more."""
    family = ""
    phrase = phrases.recognise(text, family)
    return [line._replace(text=text, phrase=phrase)] if phrase else []


def other_texts(text: str, references: List[int]) -> Iterator[str]:
    """The texts that differ from this one in one word: a verdict, a component, a kind, an answer."""
    for found in re.finditer(r"\b(?:none|pass|inconc|fail|error)\b", text.split(" reason: ")[0]):
        for verdict in VERDICTS:
            if verdict != found[0]:
                yield text[:found.start()] + verdict + text[found.end():]
    for found in re.finditer(r"(?<=reference )\d+|(?<=reference: )\d+|(?<=component )\d+(?=\.$)", text):
        for reference in references:
            if str(reference) != found[0]:
                yield text[:found.start()] + str(reference) + text[found.end():]
    for one, other in OTHER_WORDS:
        if one in text:
            yield text.replace(one, other, 1)


def damages(its: List[lines.Line], references: List[int]) -> Iterator[Tuple[str, List[lines.Line]]]:
    """Each damage of one process: a line dropped, doubled, exchanged with the next, or with another word."""
    for at, line in enumerate(its):
        yield "dropped", its[:at] + its[at + 1:]
        yield "doubled", its[:at + 1] + its[at:]
        if at + 1 < len(its):
            yield "exchanged", its[:at] + [its[at + 1], line] + its[at + 2:]
        for text in other_texts(line.text, references):
            yield "a word", its[:at] + changed(line, text) + its[at + 1:]
    for at in range(len(its)):
        yield "cut off", its[:at]


def case_of(whole: cases.TestCase, logs: Lines, verdict: str) -> cases.TestCase:
    fresh = cases.TestCase(whole.name, whole.begin, whole.end, verdict, logs[0])
    fresh.logs = {role: its for role, its in logs.items() if role != 0}
    return reading.read_case(fresh)


def said(logs: Lines) -> Counter:
    """What the lines say, read by only their texts: how often each call that has one line of its own."""
    counts: Counter = Counter()
    for its in logs.values():
        for line in its:
            found = CALLS.match(line.text)
            counts[found[1].split("(")[0].split(" ")[0] if found else ""] += 1
    return counts


def shown(one: audit.Audit) -> Counter:
    """The same of the witness."""
    seen = sum(call.seen and call.op.verb == "getverdict" and call.reply != "ended" for run in one.case.runs for call in run.calls)
    verbs = Counter(entry.op.verb for entry in one.answer.entries if entry.reply != "ended")
    groups = sum(entry.op.verb == "wait" and isinstance(entry.op.target, str) for entry in one.answer.entries)
    return Counter({"setverdict": verbs["setverdict"], "getverdict:": verbs["getverdict"] - seen, "Function": verbs["finish"] - 1,
                    "Operation": groups, "PTC": verbs["create"]})


def every_damage_is_found_out_or_another_legal_log(place: Place) -> None:
    session, = sessions.read_sessions([log("pumps-full.merged")])
    count, found_out, blocks = 0, Counter(), []
    kinds: Counter = Counter()
    for whole in cases.cases_of(session):
        if whole.name not in NAMES:
            continue
        logs: Lines = {0: whole.main, **whole.logs}
        references = sorted(whole.logs)
        same(audit.audited(case_of(whole, logs, whole.verdict), STATES).outcome, audit.LEGAL)
        jobs = [(kind, {**logs, role: its}, whole.verdict) for role in logs for kind, its in damages(logs[role], references)]
        jobs += [("a log is missing", {role: its for role, its in logs.items() if role != gone}, whole.verdict) for gone in references]
        jobs += [("another end", logs, it) for it in VERDICTS if it != whole.verdict]
        for kind, its, verdict in jobs:
            case = case_of(whole, its, verdict)
            one = audit.audited(case, STATES)
            count, kinds[kind] = count + 1, kinds[kind] + 1
            hold(one.outcome != audit.OPEN, f"{kind} is undecided")
            if one.outcome != audit.LEGAL:
                found_out[kind] += 1
                continue
            wanted = said(its)
            del wanted[""]
            same({it: n for it, n in shown(one).items() if n}, dict(wanted), f"{kind} of {whole.name}")
            blocks += one.blocks.values()
    same(set(histories.checked(place.program, blocks)), {""})
    hold(count >= FEWEST and len(blocks) > 50, (count, len(blocks)))
    hold(sum(found_out.values()) >= FEWEST_FOUND_OUT, found_out)
    for kind in ("another end", "a log is missing"):
        same(found_out[kind], kinds[kind], kind)
    hold(found_out["a word"] * 10 > kinds["a word"] * 6 and found_out["cut off"] * 10 > kinds["cut off"] * 8, (found_out, kinds))
    print(f"  {count} damages: {sum(found_out.values())} found out, {len(blocks)} the log of another legal run; "
          + ", ".join(f"{kind} {found_out[kind]} of {kinds[kind]}" for kind in sorted(kinds)), flush=True)
