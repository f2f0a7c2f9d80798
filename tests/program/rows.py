"""Worked cases of replay, check and run. A `;` represents the end of a line; each text ends with one."""
from dataclasses import replace
from typing import Dict, Iterator, List, Tuple

from case import Case, refused
from examples import bytes_of
from harness import text_of
from table import VERDICTS
from texts import status_of

CSV_HEADER = "testcase,components,none,pass,inconc,fail,error,verdict\n"
# What is said of words after an option that are none.
ONLY = "--only takes the name of one of the test cases"
SHARD = "--shard takes K/N, with K from 1 to N"
STOP_ON = "--stop-on takes none, pass, inconc, fail or error"


def text(lines: str) -> bytes:
    """The bytes of lines that are written with `;`."""
    return (lines.replace(";", "\n") + "\n").encode()


def blocks_of(name: str) -> List[List[str]]:
    """The lines of each block of a file of rows. An empty line is between two; the first is a comment."""
    return [it.split("\n") for it in text_of(f"tests/program/{name}").rstrip("\n").split("\n\n")[1:]]


# Name, how many behaviours, moves, replies.
REPLAYED: List[Tuple[str, int, str, str]] = [
    ("no_moves", 1, "", "verdict none"),
    ("settings_of_the_main", 1, "0 create;0 setverdict pass;0 setverdict none;0 getverdict;0 finish;0 getverdict",
     "made 1;ok;ok;pass;ok;ended;verdict pass"),
    ("inconc_stays", 1, "0 setverdict inconc;0 setverdict pass;0 getverdict", "ok;ok;inconc;verdict inconc"),
    ("start_of_a_running_component", 3, "0 create;0 start 1 1;0 start 1 2;1 getverdict", "made 1;ok;error already-running;ended;verdict error"),
    ("restart_keeps_fail", 3, "0 create alive;0 start 1 1;1 setverdict fail;1 finish;0 start 1 2;2 getverdict",
     "made 1;ok;ok;ok;ok;fail;verdict fail"),
    ("stopped_ordinary_is_killed", 3, "0 create;0 start 1 1;0 stop 1;0 killed 1;0 start 1 2", "made 1;ok;ok;true;error not-startable;verdict error"),
    ("done_of_groups", 1, "0 done all;0 create;0 done all;0 done any", "true;made 1;true;false;verdict none"),
    ("ptc_asks_of_any", 2, "0 create;0 start 1 1;1 running any", "made 1;ok;error not-main;verdict error"),
    ("stop_and_kill_of_an_inactive_component", 1, "0 create;0 stop 1;0 alive 1;0 kill 1;0 done 1", "made 1;ok;true;ok;true;verdict none"),
    ("stopped_by_another_is_excused", 3, "0 create;0 create;0 start 1 1;0 start 2 2;0 stop 1;0 running all;2 finish;0 running all",
     "made 1;made 2;ok;ok;ok;true;ok;false;verdict none"),
    ("waiting_alone_is_stuck", 1, "0 create;0 wait done 1;0 wake done 1", "made 1;parked;error stuck;verdict error"),
    ("a_ptc_stops_the_main", 2, "0 create;0 start 1 1;1 setverdict pass;1 stop 0;0 getverdict;1 getverdict",
     "made 1;ok;ok;ok;ended;ended;verdict pass"),
    ("a_thousand_components", 1, ";".join(["0 create"] * 1000), "".join(f"made {at};" for at in range(1, 1000)) + "error too-many;verdict error"),
    ("faults_of_a_start_no_argument", 2, "0 create;0 start 1 1 7", "made 1;error no-component;verdict error"),
    ("faults_of_a_start_main", 2, "0 start 0 1", "error start-main;verdict error"),
    ("faults_of_a_start_run_0", 2, "0 create;0 start 1 0", "made 1;error no-behaviour;verdict error"),
    ("faults_of_a_start_no_run", 2, "0 create;0 start 1 2", "made 1;error no-behaviour;verdict error"),
    ("faults_of_a_start_twice", 2, "0 create;0 create;0 start 1 1;0 start 2 1", "made 1;made 2;ok;error no-behaviour;verdict error"),
    ("order_of_faults", 2, "0 create;0 start 1 1;0 start 1 9", "made 1;ok;error already-running;verdict error"),
    ("status_of_a_restarted_component", 3, "0 create alive;0 start 1 1;1 finish;0 done 1;0 start 1 2;0 done 1;0 running 1;0 alive 1",
     "made 1;ok;ok;true;ok;false;true;true;verdict none"),
    ("two_waits_are_stuck", 2, "0 create;0 start 1 1;0 wait done 1;1 wait killed 1;1 wake killed 1;0 wake done 1",
     "made 1;ok;parked;parked;parked;error stuck;verdict error"),
    ("a_finish_wakes", 2, "0 create;0 start 1 1;0 wait done 1;0 wake done 1;1 finish;0 wake done 1",
     "made 1;ok;parked;parked;ok;matched;verdict none"),
    ("groups_of_two", 3,
     "0 create;0 create alive;0 start 2 1;0 killed any;0 stop all;0 done any;0 killed all;0 alive all;0 kill all;0 killed all;0 alive any",
     "made 1;made 2;ok;false;ok;true;false;true;ok;true;false;verdict none"),
    ("a_named_create", 1, "0 create named pump;0 create alive named pump;0 create named named;0 stop 2;0 alive 2",
     "made 1;made 2;made 3;ok;true;verdict none"),
    ("a_name_as_long_as_may_be", 1, f"0 create named {'a' * 32}", "made 1;verdict none"),
    ("a_run_that_was_never_started", 2, "1 setverdict fail;9 finish", "ended;ended;verdict none"),
    ("self_stop_is_not_excused", 2, "0 create;0 start 1 1;1 stop 1;0 running all", "made 1;ok;ok;false;verdict none"),
    ("the_main_is_asked_about", 1, "0 running 0;0 alive 0;0 done 0;0 killed 0", "true;true;false;false;verdict none"),
    ("no_parallel_component", 1, "0 running any;0 alive any;0 done any;0 killed any;0 running all;0 alive all;0 done all;0 killed all",
     "false;false;false;false;true;true;true;true;verdict none"),
    ("stop_of_a_case", 2, "0 create;0 start 1 1;1 setverdict pass;1 stopcase;0 getverdict", "made 1;ok;ok;ok;ended;verdict error"),
    ("stop_of_a_case_by_the_main", 1, "0 stopcase;0 getverdict", "ok;ended;verdict error"),
    ("stop_of_a_case_by_a_run_that_was_never_started", 2, "1 stopcase", "ended;verdict none"),
    ("largest_numbers", 256, "65535 finish;0 running 4294967295", "ended;error no-component;verdict error"),
]

# What comes after the first line of a list of moves of one behaviour, by its name and its fault.
REFUSED_MOVES: Dict[str, Dict[str, str]] = {
    "line 2: bad move": {"refused_move_lists_error": "0 setverdict error", "refused_move_lists_two_spaces": "0  getverdict",
                         "an_empty_line_between": ";0 create", "a_caller_out_of_range": "65536 finish",
                         "a_component_out_of_range": "0 stop 4294967296", "a_run_out_of_range": "0 start 1 65536",
                         "five_arguments": "0 start 1 1 0 0 0 0 0", "stop_of_any": "0 stop any", "start_of_all": "0 start all 1",
                         "wait_for_running": "0 wait running 1", "a_move_without_a_caller": "create", "a_create_named_mtc": "0 create named mtc",
                         "a_create_named_and_no_name": "0 create named", "a_create_named_before_alive": "0 create named pump alive",
                         "a_create_of_two_names": "0 create named pump named valve", "a_create_of_a_name_too_long": f"0 create named {'a' * 33}",
                         "a_stop_of_a_case_with_a_word_too_many": "0 stopcase all", "a_caller_with_a_zero_in_front": "00 finish",
                         "a_space_before_a_move": " 0 finish", "a_space_behind_a_move": "0 finish ", "a_caller_alone": "0",
                         "a_start_without_a_run": "0 start 1", "a_wait_without_a_status": "0 wait all", "two_spaces_before_alive": "0 create  alive",
                         "two_spaces_before_a_name": "0 create named  pump", "a_space_behind_a_name": "0 create named pump ",
                         "a_create_named_by_a_digit": "0 create named 1", "a_create_named_by_a_line": "0 create named _a",
                         "a_create_named_with_a_dash": "0 create named a-b"},
    "line 3: bad move": {"the_second_of_three_moves": "0 create;0 made;0 create x"},
}

# Name, list, line, fault.
REFUSED_LISTS: List[Tuple[str, bytes, int, str]] = [
    ("refused_move_lists_no_behaviours", text("behaviours 0"), 1, "bad first line"),
    ("refused_move_lists_empty", b"", 1, "text ends too early"),
    ("an_empty_line", b"\n", 1, "bad first line"),
    ("a_list_of_257_behaviours", text("behaviours 257"), 1, "bad first line"),
    ("a_number_with_a_zero_in_front", text("behaviours 01"), 1, "bad first line"),
    ("no_number", text("behaviours"), 1, "bad first line"),
    ("a_space_behind_the_number", text("behaviours 1 "), 1, "bad first line"),
    ("a_carriage_return", b"behaviours 1\r\n", 1, "bad first line"),
    ("a_history_for_a_list", text("history 1 t 1"), 1, "bad first line"),
    ("a_byte_zero", b"behaviours 1\n0 create\0\n", 2, "bad move"),
    ("a_byte_above_127", b"behaviours 1\n0 cr\xe9ate\n", 2, "bad move"),
    ("a_tab", b"behaviours 1\n0\tcreate\n", 2, "bad move"),
]

INACTIVE = "history 1 t 1;0 create -> made 1;0 stop 1 -> ok;0 alive 1 -> true;"

# Name, histories, output, status.
CHECKED: List[Tuple[str, str, str, int]] = [
    ("check_of_histories_other_reply", INACTIVE + "0 wait done 1 -> matched;end none", "line 5: matched, table gives parked", 3),
    ("check_of_histories_legal", INACTIVE + "0 wait done 1 -> parked;end none", "legal t 4 none", 0),
    ("check_of_histories_other_verdict", INACTIVE + "0 wait done 1 -> parked;end pass", "line 6: pass, table gives none", 3),
    ("a_case_without_entries", "history 1 t 64;end none", "legal t 0 none", 0),
    ("histories_refused_and_checked_format_2", "history 2 t 1;end none", "legal t 0 none", 0),
    ("two_history_formats", "history 1 a 1;0 create -> made 1;end none;history 2 b 1;0 create named pump -> made 1;end none",
     "legal a 1 none;legal b 1 none", 0),
    ("two_history_formats_in_the_other_order", "history 2 b 1;0 create alive named pump -> made 1;end none;history 1 a 1;0 create -> made 1;end none",
     "legal b 1 none;legal a 1 none", 0),
    ("a_history_of_256", "history 2 t 256;0 create named p -> made 1;0 start 1 255 -> ok;255 finish -> ok;end none", "legal t 3 none", 0),
    ("a_history_of_sixty_five_in_format_2", "history 2 t 65;end none", "legal t 0 none", 0),
    ("a_named_create_is_judged", "history 2 t 1;0 create named p -> made 1;0 create alive named p -> made 1;end none",
     "line 3: made 1, table gives made 2", 3),
    ("two_histories_of_one_name", "history 1 t 1;end none;history 1 t 1;end none", "legal t 0 none;legal t 0 none", 0),
    ("nothing_behind_an_illegal_history", "history 1 a 1;end none;history 1 b 1;0 finish -> ended;end none;history 1 c 1;end none",
     "legal a 0 none;line 4: ended, table gives ok", 3),
    ("error_is_no_status_of_check", "history 1 t 1;0 start 0 0 -> error start-main;end error", "legal t 1 error", 0),
    ("fail_is_no_status_of_check", "history 1 t 1;0 setverdict fail -> ok;end fail", "legal t 1 fail", 0),
    ("another_fault_is_named", "history 1 t 1;0 start 0 0 -> error stuck;end error", "line 2: error stuck, table gives error start-main", 3),
    ("another_component_is_named", "history 1 t 1;0 create -> made 7;end none", "line 2: made 7, table gives made 1", 3),
    ("a_verdict_is_named", "history 1 t 1;0 getverdict -> error;end none", "line 2: error, table gives none", 3),
    ("a_late_setting_that_is_counted", "history 1 t 2;0 create -> made 1;0 start 1 1 -> ok;0 kill 1 -> ok;1 setverdict fail -> ok;end fail",
     "line 5: ok, table gives ended", 3),
    ("a_dropped_setting", "history 1 t 1;0 finish -> ok;end fail", "line 3: fail, table gives none", 3),
    ("histories_of_the_stored_run",
     "history 1 t_pass 2;0 create -> made 1;0 start 1 1 0 -> ok;0 wait done 1 -> parked;1 alive 0 -> true;1 setverdict pass -> ok;"
     "1 finish -> ok;0 wake done 1 -> matched;0 getverdict -> none;0 finish -> ok;end pass;history 1 t_again 3;"
     "0 create alive -> made 1;0 start 1 1 -> ok;1 setverdict pass -> ok;1 finish -> ok;0 wait done 1 -> matched;0 start 1 2 1 -> ok;"
     "2 getverdict -> pass;2 setverdict none -> ok;2 running 1 -> true;2 finish -> ok;0 wait done 1 -> matched;0 kill all -> ok;"
     "0 killed all -> true;0 finish -> ok;end pass", "legal t_pass 9 pass;legal t_again 14 pass", 0),
    ("the_first_of_two_false_replies", "history 1 t 1;0 getverdict -> pass;0 setverdict pass -> ended;0 finish -> ok;end fail",
     "line 2: pass, table gives none", 3),
    ("histories_of_two_cases", "history 1 first 1;0 setverdict pass -> ok;end pass;history 1 second 1;0 finish -> ok;end none",
     "legal first 1 pass;legal second 1 none", 0),
]

# What is in a history of format 1, between its first line and `end none`, by its name and its fault.
REFUSED_ENTRIES: Dict[str, Dict[str, str]] = {
    "line 2: bad entry": {"histories_refused_and_checked_made_01": "0 create -> made 01", "an_arrow_without_spaces": "0 create->made 1",
                          "two_spaces_behind_the_arrow": "0 create ->  made 1", "a_reply_that_is_none": "0 create -> done", "no_reply": "0 create",
                          "a_header_inside_of_a_history": "history 1 t 1", "a_named_create_in_a_history": "0 create named p -> made 1",
                          "an_empty_line_in_a_history": "", "a_space_behind_a_reply": "0 create -> made 1 "},
    "line 4: bad first line": {"a_fault_behind_an_illegal_history": "0 finish -> ended;end none"},
}

# Name, histories, line, fault.
REFUSED_HISTORIES: List[Tuple[str, bytes, int, str]] = [
    ("histories_refused_and_checked_no_behaviours", text("history 1 t 0"), 1, "bad first line"),
    ("histories_refused_and_checked_format_3", text("history 3 t 1;end none"), 1, "bad first line"),
    ("two_history_formats_a_name_in_format_1",
     text("history 1 a 1;0 create -> made 1;end none;history 1 b 1;0 create named pump -> made 1;end none"), 5, "bad entry"),
    ("a_name_in_format_1_behind_format_2",
     text("history 2 a 1;0 create named pump -> made 1;end none;history 1 b 1;0 create alive named pump -> made 1;end none"), 5, "bad entry"),
    ("a_history_of_257", text("history 2 t 257;end none"), 1, "bad first line"),
    ("a_history_of_none_in_format_2", text("history 2 t 0;end none"), 1, "bad first line"),
    ("a_history_of_format_0", text("history 0 t 1;end none"), 1, "bad first line"),
    ("a_history_of_format_02", text("history 02 t 1;end none"), 1, "bad first line"),
    ("a_history_without_a_format", text("history t 1;end none"), 1, "bad first line"),
    ("a_create_named_mtc_in_a_history", text("history 2 t 1;0 create named mtc -> made 1;end none"), 2, "bad entry"),
    ("a_create_named_and_no_name_in_a_history", text("history 2 t 1;0 create named -> made 1;end none"), 2, "bad entry"),
    ("histories_refused_and_checked_cut", text("history 1 t 1;0 create -> made 1"), 3, "text ends too early"),
    ("histories_refused_and_checked_empty", b"", 1, "text ends too early"),
    ("a_fault_behind_a_legal_history", text("history 1 t 1;end none;history 1 t"), 3, "bad first line"),
    ("a_history_of_sixty_five", text("history 1 t 65;end none"), 1, "bad first line"),
    ("a_history_of_a_word_that_is_no_name", text("history 1 mtc 1;end none"), 1, "bad first line"),
    ("a_history_of_a_name_too_long", text(f"history 1 {'a' * 33} 1;end none"), 1, "bad first line"),
    ("an_end_without_a_verdict", text("history 1 t 1;end"), 2, "bad entry"),
    ("an_end_with_another_word", text("history 1 t 1;end passed"), 2, "bad entry"),
    ("a_last_line_cut", b"history 1 t 1\n0 create -> made 1\nend non", 3, "bad entry"),
    ("an_empty_line_behind_a_history", text("history 1 t 1;end none;"), 3, "bad first line"),
    ("a_list_for_a_history", text("behaviours 1;0 create"), 1, "bad first line"),
    ("a_header_with_a_zero_in_front", text("history 1 t 01;end none"), 1, "bad first line"),
    ("a_header_with_two_spaces", text("history 1 t  1;end none"), 1, "bad first line"),
    ("a_header_without_a_number", text("history 1 t;end none"), 1, "bad first line"),
    ("an_empty_line_before_a_history", text(";history 1 t 1;end none"), 1, "bad first line"),
    ("a_header_alone", text("history 1 t 1"), 2, "text ends too early"),
    ("a_space_behind_an_end", text("history 1 t 1;end none "), 2, "bad entry"),
    ("an_alive_behind_a_name_in_a_history", text("history 2 t 1;0 create named p alive -> made 1;end none"), 2, "bad entry"),
]

SOLO = "testcase solo;behaviour main;create p;setverdict pass;wait done p;end;end"


def of_verdicts(*verdicts: str) -> bytes:
    """A script of test cases a, b, c and on, each of one behaviour that sets its verdict, or with `error` starts the main one."""
    lines: List[str] = []
    for name, verdict in zip("abcdefgh", verdicts):
        step = "start mtc main" if verdict == "error" else f"setverdict {verdict}"
        lines += [f"testcase {name}", "behaviour main", step, "end", "end"]
    return text(";".join(lines))


def case_of_verdict(name: str, verdict: str) -> str:
    calls = "  start 0 0 -> error start-main" if verdict == "error" else f"  setverdict {verdict} -> ok\n  finish -> ok"
    return f"testcase {name}\nrun 0 main on 0\n{calls}\nlocal 0 {verdict}\nverdict {verdict}\n"


def counts_of(*verdicts: str) -> str:
    return " ".join([f"cases {len(verdicts)}", *(f"{it} {verdicts.count(it)}" for it in VERDICTS)]) + "\n"


def csv_of_verdict(name: str, verdict: str) -> str:
    counts = ",".join(str(int(it == verdict)) for it in VERDICTS)
    return f"{name},1,{counts},{verdict}\n"


def history_of_verdict(name: str, verdict: str) -> str:
    calls = "0 start 0 0 -> error start-main" if verdict == "error" else f"0 setverdict {verdict} -> ok\n0 finish -> ok"
    return f"history 2 {name} 1\n{calls}\nend {verdict}\n"


def evidence_of_verdict(name: str, verdict: str) -> str:
    header, _, rest = history_of_verdict(name, verdict).partition("\n")
    return header.replace("history 2", "evidence 1") + "\nbehaviour 0 main\n" + rest


def stopping_cases() -> Iterator[Case]:
    """Each word of `--stop-on` over one test case of each verdict, in each form, and each single verdict's status."""
    statuses = (0, 0, 1, 1, 2)
    writers = (((), case_of_verdict), (("--csv",), csv_of_verdict), (("--history",), history_of_verdict), (("--evidence",), evidence_of_verdict))
    for words, one in writers:
        form = words[0][2:] if words else "text"
        for at, word in enumerate(VERDICTS):
            run = VERDICTS[: at + 1]
            output = CSV_HEADER * (form == "csv") + "".join(map(one, "abcde", run))
            output += (counts_of(*run) + f"stopped after {'abcde'[at]}\n") * (form == "text")
            yield Case(f"words_of_stop_on_{word}_{form}", ("run", "--stop-on", word, *words), of_verdicts(*VERDICTS), output.encode(),
                       status=statuses[at])
    for verdict, status in zip(VERDICTS, statuses):
        for name, words, ending in (("status_of_one", ("run",), "complete"),
                                    ("stop_after_the_last", ("run", f"--stop-on={verdict}"), "stopped after a")):
            output = f"{case_of_verdict('a', verdict)}{counts_of(verdict)}{ending}\n"
            yield Case(f"{name}_{verdict}", words, of_verdicts(verdict), output.encode(), status=status)


def run_cases() -> Iterator[Case]:
    yield Case("stored_run", (), bytes_of("workers.script"), bytes_of("workers.report"))
    yield Case("stored_run_by_its_word", ("run",), bytes_of("workers.script"), bytes_of("workers.report"))
    yield Case("restarted_component_report", ("run",), bytes_of("restart.script"), bytes_of("restart.report"), status=1)
    three = ("pass", "fail", "pass")
    for name, rule, count in (("campaign_stops_on_fail", ("--csv", "--stop-on", "fail"), 2), ("no_stopping_rule", ("--csv",), 3),
                              ("options_in_the_other_order", ("--stop-on", "fail", "--csv"), 2),
                              ("not_met_by_a_better_verdict", ("--csv", "--stop-on", "error"), 3)):
        table = CSV_HEADER + "".join(map(csv_of_verdict, "abc", three[:count]))
        yield Case(name, ("run", *rule), of_verdicts(*three), table.encode(), status=1)
    output = case_of_verdict("a", "inconc") + case_of_verdict("b", "error") + counts_of("inconc", "error") + "stopped after b\n"
    yield Case("worse_than_the_rule", ("run", "--stop-on", "fail"), of_verdicts("inconc", "error", "fail"), output.encode(), status=2)
    solo = text("history 2 solo 1;0 create -> made 1;0 setverdict pass -> ok;0 wait done 1 -> parked;"
                "0 wake done 1 -> error stuck;end error")
    yield Case("history_of_a_stuck_case", ("run", "--history"), text(SOLO), solo, status=2)
    named = solo.replace(b"history 2 solo 1\n", b"evidence 1 solo 1\nbehaviour 0 main\n")
    yield Case("evidence_of_a_stuck_case", ("run", "--evidence"), text(SOLO), named, status=2)
    yield Case("check_of_the_evidence_of_a_stuck_case", ("check",), named, b"legal solo 4 error\n")
    yield Case("check_of_the_history_of_a_stuck_case", ("check",), solo, b"legal solo 4 error\n")
    yield Case("report_of_a_stuck_case", ("run",), text(SOLO),
               text("testcase solo;run 0 main on 0;  create -> made 1;  setverdict pass -> ok;  wait done 1 -> error stuck;"
                    "local 0 error;local 1 none;verdict error;cases 1 none 0 pass 0 inconc 0 fail 0 error 1;complete"), status=2)
    yield refused("words_of_stop_on_maybe", ("run", "--stop-on", "maybe"), of_verdicts(*three), STOP_ON)
    for word in ("Fail", "", "fail ", "0", "pass,fail"):
        yield refused(f"words_of_stop_on_{word!r}", ("run", f"--stop-on={word}"), of_verdicts(*three), STOP_ON)


def cases() -> List[Case]:
    found = [Case(name, ("replay",), text(f"behaviours {behaviours};{moves}" if moves else f"behaviours {behaviours}"), text(replies),
                  status=status_of(replies.split()[-1])) for name, behaviours, moves, replies in REPLAYED]
    found += [replace(it, name=f"{it.name}_without_the_last_line_feed", given=it.given[:-1]) for it in found[:3]]
    found += [Case(name, ("check",), text(given), text(output), status=status) for name, given, output, status in CHECKED]
    for word, frame, lines, rows in (("replay", "behaviours 1;{}", REFUSED_MOVES, REFUSED_LISTS),
                                     ("check", "history 1 t 1;{};end none", REFUSED_ENTRIES, REFUSED_HISTORIES)):
        found += [refused(name, (word,), text(frame.format(it)), fault) for fault, named in lines.items() for name, it in named.items()]
        found += [refused(name, (word,), given, f"line {line}: {fault}") for name, given, line, fault in rows]
    return [*found, *run_cases(), *stopping_cases()]
