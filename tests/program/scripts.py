"""Scripts that are refused, line by line and kind by kind, and lines that are accepted."""
from typing import Dict, Iterator, List, Tuple

from case import Case, refused
from rows import CSV_HEADER, counts_of, text

FRAME = "testcase t;behaviour main;{};end;behaviour w a;end;end"

# Line 3 of the frame by its name and its fault, which is the first kind that applies. The frame has a behaviour `w` with one parameter.
THIRD_LINES: Dict[str, Dict[str, str]] = {
    "bad name": {"a_name_that_begins_with_a_digit": "create 1x", "stop_of_any_in_a_script": "stop any",
                 "a_create_named_mtc_in_a_script": "create p named mtc", "an_alive_create_named_all_in_a_script": "create p alive named all",
                 "a_create_with_a_name_of_33_bytes": "create p named " + "l" * 33, "a_named_create_of_self": "create self named l",
                 "kill_of_any": "kill any", "create_of_mtc": "create mtc", "create_of_self": "create self", "create_of_all": "create all alive",
                 "a_name_of_33_bytes": "create " + "p" * 33, "a_name_with_a_dash": "create p-q", "a_name_that_begins_with_a_line": "create _p",
                 "start_of_any": "start any w mtc", "start_of_a_behaviour_all": "start mtc all", "an_argument_all": "start mtc w all",
                 "name_before_place": "behaviour all"},
    "line not understood": {"setverdict_error": "setverdict error", "an_unknown_word": "foo", "a_word_too_few": "create",
                            "a_word_too_many": "getverdict now", "alive_misspelt": "create p living",
                            "wait_for_running_in_a_script": "wait running mtc", "wait_without_a_target": "wait done",
                            "words_in_capitals": "GETVERDICT", "a_stop_of_the_case_with_a_word_too_many": "stopcase all",
                            "a_named_create_without_a_name": "create p named", "a_named_create_of_alive_without_a_name": "create p alive named",
                            "a_word_behind_the_name_of_a_create": "create p named l alive", "alive_misspelt_before_a_name": "create p living named l",
                            "named_misspelt": "create p alive called l", "line_before_name": "create 1x 2x",
                            "line_before_the_name_of_a_create": "create 1x called mtc"},
    "byte not allowed": {"a_tab_in_front": "\tgetverdict", "a_byte_above_126": "create p\x7f", "a_carriage_return_in_a_script": "getverdict\r",
                         "byte_before_line": "foo\t"},
    "not allowed here": {"a_behaviour_in_a_behaviour": "behaviour b", "a_test_case_in_a_test_case": "testcase u",
                         "place_before_many": "behaviour b p q r s u"},
    "too many": {"five_arguments_in_a_script": "start mtc w mtc mtc mtc mtc mtc"},
    "unbound reference": {"an_unbound_component": "start x w mtc", "an_unbound_argument": "start mtc w x", "an_unbound_target": "running q",
                          "an_unbound_wait": "wait killed q", "an_unbound_group": "stop q", "a_parameter_of_another_behaviour": "alive a",
                          "reference_before_behaviour": "start x zz", "reference_before_arguments": "start x w"},
    "unknown behaviour": {"no_such_behaviour": "start mtc zz mtc"},
    "wrong number of arguments": {"too_few_arguments": "start mtc w", "too_many_arguments": "start mtc w mtc self"},
}

# Further lines in the place of line 3, by their fault.
MORE_LINES: Dict[str, Tuple[str, ...]] = {
    "byte not allowed": ("\tend", "end \u00e9"),
    "line not understood": (
        "End", "end end", "testcase", "testcase a b", "behaviour", "create p dead", "create 1 dead", "create named named",
        "create p alive alive", "create p called l", "create p named named l", "create p dead named l", "create p alive named l m",
        "create 1 called mtc", "start p", "wait running p", "getverdict p", "finish"),
    "bad name": (
        "testcase all", "behaviour b mtc", "create mtc named l", "create p named 1", "create 1 alive named l", "start all b",
        "start p mtc", "start p b any", "done 1"),
}

# The places of a name in a line, and the fault where the name has 32 letters; with 33 it is a bad name.
PLACES: List[Tuple[str, str]] = [
    ("testcase {}", "not allowed here"), ("behaviour {}", "not allowed here"), ("behaviour b p {} q", "not allowed here"),
    ("create {}", ""), ("create {} alive", ""), ("create {} named l", ""), ("create p named {}", ""),
    ("create {} alive named l", ""), ("create p alive named {}", ""),
    ("start {} w", "unbound reference"), ("start mtc {}", "unknown behaviour"), ("start mtc w {} mtc", "unbound reference"),
    *((f"{it} {{}}", "unbound reference") for it in ("stop", "kill", "running", "alive", "done", "killed", "wait done", "wait killed")),
]

# Name, line 3 of the frame, what it calls and its reply, verdict, status.
ACCEPTED_LINES: List[Tuple[str, str, str, str, int]] = [
    ("a_comment_with_a_tab", "#\t", "finish -> ok", "none", 0),
    ("a_comment_behind_spaces", "   # start x w mtc", "finish -> ok", "none", 0),
    ("an_empty_line_in_a_script", "", "finish -> ok", "none", 0),
    ("a_line_of_spaces", "   ", "finish -> ok", "none", 0),
    ("spaces_between_words", "  setverdict    pass  ", "setverdict pass -> ok;  finish -> ok", "pass", 0),
    ("start_of_the_main_component", "start mtc w mtc", "start 0 1 0 -> error start-main", "error", 2),
    ("start_of_the_behaviour_of_the_main", "start self main", "start 0 0 -> error start-main", "error", 2),
    ("stop_of_the_main", "stop mtc", "stop 0 -> ok", "none", 0),
    ("kill_of_self", "kill self", "kill 0 -> ok", "none", 0),
    ("stop_of_a_case_in_a_script", "stopcase", "stopcase -> ok", "error", 2),
    ("status_of_groups", "running all", "running all -> true;  finish -> ok", "none", 0),
    ("wait_for_the_main_itself", "wait done self", "wait done 0 -> error stuck", "error", 2),
    ("wait_for_nobody", "wait done all", "wait done all -> matched;  finish -> ok", "none", 0),
]

# Name, script, line, fault.
REFUSED: List[Tuple[str, bytes, int, str]] = [
    ("refused_scripts_unbound", text("testcase t;behaviour main;create p;start q worker;end;behaviour worker;end;end"), 4, "unbound reference"),
    ("refused_scripts_arguments", text("testcase t;behaviour main;create p;start p worker mtc;end;behaviour worker;end;end"),
     4, "wrong number of arguments"),
    ("refused_scripts_cut_in_a_line", b"testcase t\nbehaviour main\nsetver", 3, "line not understood"),
    ("refused_scripts_cut_between_lines", text("testcase t;behaviour main;setverdict pass"), 4, "text ends too early"),
    ("refused_scripts_empty", b"", 1, "text ends too early"),
    ("two_behaviours_of_one_name", text(FRAME.format("getverdict").replace("w a", "main")), 5, "name already used"),
    ("a_parameter_of_the_main", text(FRAME.format("getverdict").replace("main", "main p")), 2, "main behaviour takes no parameters"),
    ("comments_alone", text("# nothing; ;#"), 4, "text ends too early"),
    ("a_test_case_without_a_behaviour", text("testcase t;end"), 2, "not allowed here"),
    ("an_end_of_nothing", text("end"), 1, "not allowed here"),
    ("an_end_too_many", text("testcase t;behaviour main;end;end;end"), 5, "not allowed here"),
    ("a_behaviour_outside", text("behaviour main"), 1, "not allowed here"),
    ("a_step_outside", text("getverdict"), 1, "not allowed here"),
    ("a_step_between_behaviours", text("testcase t;behaviour main;end;getverdict;end"), 4, "not allowed here"),
    ("an_open_test_case", text("testcase t;behaviour main;end"), 4, "text ends too early"),
    ("cut_before_the_last_line", text(FRAME.format("getverdict"))[:-4], 7, "text ends too early"),
    ("two_test_cases_of_one_name", text("testcase t;behaviour main;end;end;testcase t;behaviour main;end;end"), 5, "name already used"),
    ("a_component_bound_twice", text("testcase t;behaviour main;create p;create p;end;end"), 4, "name already used"),
    ("a_component_bound_twice_with_two_names", text("testcase t;behaviour main;create p named l;create p named m;end;end"), 4, "name already used"),
    ("a_name_of_a_create_is_not_bound", text("testcase t;behaviour main;create p named l;kill l;end;end"), 4, "unbound reference"),
    ("a_name_of_a_create_before_names", text("testcase t;behaviour main;create p;create p named mtc;end;end"), 4, "bad name"),
    ("a_parameter_bound_twice", text("testcase t;behaviour main;end;behaviour w a a;end;end"), 4, "name already used"),
    ("a_component_named_as_a_parameter", text("testcase t;behaviour main;end;behaviour w a;create a;end;end"), 5, "name already used"),
    ("a_component_used_above_its_create", text("testcase t;behaviour main;kill p;create p;end;end"), 3, "unbound reference"),
    ("a_component_of_another_behaviour", text("testcase t;behaviour main;create p;end;behaviour w;kill p;end;end"), 6, "unbound reference"),
    ("a_behaviour_of_another_test_case",
     text("testcase t;behaviour main;end;behaviour w;end;end;testcase u;behaviour main;create p;start p w;end;end"), 10, "unknown behaviour"),
    ("five_parameters", text("testcase t;behaviour main;end;behaviour w a b c d e;end;end"), 4, "too many"),
    ("grammar_before_names", text("testcase t;behaviour main;kill p;end;end;testcase t;behaviour main;end"), 9, "text ends too early"),
    ("place_before_names", text("testcase t;behaviour m;stop p;end;end;;end"), 7, "not allowed here"),
    ("a_cut_before_names", text("testcase t;behaviour m;stop p;end"), 5, "text ends too early"),
    ("twice_before_a_parameter_of_the_main", text("testcase t;behaviour m p p;end;end"), 2, "name already used"),
    ("a_test_case_behind_a_first_line", text("testcase t;testcase u"), 2, "not allowed here"),
    ("the_first_of_two_faults", text("testcase t;behaviour main;create 1x;foo;end;end"), 3, "bad name"),
    ("a_byte_above_127_in_a_script", b"testcase t\nbehaviour main\nsetverdict p\xc3\xa4ss\nend\nend\n", 3, "byte not allowed"),
    ("a_byte_zero_in_a_script", b"testcase t\0\n", 1, "byte not allowed"),
    ("a_list_for_a_script", text("behaviours 1;0 create"), 1, "line not understood"),
    ("a_history_for_a_script", text("history 1 t 1;end none"), 1, "line not understood"),
    ("a_script_with_carriage_returns", b"testcase t\r\nbehaviour main\r\nend\r\nend\r\n", 1, "byte not allowed"),
]


# Name, line 3 of the frame, the call of that line.
NAMED_CREATES: List[Tuple[str, str, str]] = [
    ("a_create_with_the_name_of_its_component", "create named named named", "create named named"),
    ("a_create_with_the_name_alive", "create p named alive", "create named alive"),
    ("an_alive_create_with_the_name_alive", "create p alive named alive", "create alive named alive"),
    ("an_alive_create_of_alive", "create alive alive named named", "create alive named named"),
    ("spaces_in_a_create", "create  p   alive", "create alive"),
    ("spaces_in_a_named_create", "create  p  named  all_pumps ", "create named all_pumps"),
    ("a_create_with_a_name_of_32_bytes", "create p named " + "l" * 32, "create named " + "l" * 32),
]

# Names of components that are those of others, or bound.
SHARED_NAMES = text("testcase t;behaviour main;create p named q;create q alive named q;create r named t;kill q;end;end")

# A worker names itself, the main component, its parameters and a component of its own.
WORKER = text("testcase t;behaviour main;create p;create q alive;start q w p self;wait done q;end;"
              "behaviour w a b;alive self;running mtc;killed a;create c;alive c;kill a;alive b;stop self;end;end")
WORKED = text("testcase t;run 0 main on 0;  create -> made 1;  create alive -> made 2;  start 2 1 1 0 -> ok;  wait done 2 -> matched;"
              "  finish -> ok;run 1 w on 2;  alive 2 -> true;  running 0 -> true;  killed 1 -> false;  create -> made 3;  alive 3 -> true;"
              "  kill 1 -> ok;  alive 0 -> true;  stop 2 -> ok;local 0 none;local 1 none;local 2 none;local 3 none;verdict none;"
              "cases 1 none 1 pass 0 inconc 0 fail 0 error 0;complete")

# Scripts whose names are bound: a component after the line of its create, a parameter in its whole behaviour.
BOUND = (
    ("a_component_bound_lines_before", text("testcase t;behaviour m;create p;# p;;stop p;end;end")),
    ("parameters_in_their_whole_behaviour", text("testcase t;behaviour m;end;behaviour w a b;stop a;create c;stop b;kill a;end;end")),
)


def of_places() -> Iterator[Case]:
    """Names of 32 and of 33 letters in each place of a name."""
    for line, fault in PLACES:
        longest, too_long = text(FRAME.format(line.format("n" * 32))), text(FRAME.format(line.format("n" * 33)))
        name = line.replace("{}", "_").replace(" ", "_")
        yield (refused(f"longest_name_in_{name}", ("run",), longest, f"line 3: {fault}") if fault
               else Case(f"longest_name_in_{name}", ("run", "--list"), longest, b"t\n"))
        yield refused(f"too_long_a_name_in_{name}", ("run",), too_long, "line 3: bad name")


def of_one(name: str, line: str, calls: str, components: str, verdict: str, status: int = 0) -> Case:
    """A script of the frame with this line: what its report has of its calls and of its components, and the verdict."""
    output = f"testcase t;run 0 main on 0;  {calls};{components};verdict {verdict};{counts_of(verdict)[:-1]};complete"
    return Case(name, ("run",), text(FRAME.format(line)), text(output), status=status)


def cases() -> Iterator[Case]:
    """A refused script is refused alike in each form."""
    thirds = [(name, text(FRAME.format(line)), 3, fault) for fault, lines in THIRD_LINES.items() for name, line in lines.items()]
    thirds += [(f"{fault.replace(' ', '_')}_{line!r}", text(FRAME.format(line)), 3, fault) for fault, lines in MORE_LINES.items() for line in lines]
    forms: Tuple[Tuple[str, ...], ...] = (("run",), ("run", "--csv"), ("run", "--history"), ("run", "--stop-on", "fail"), ())
    for at, (name, given, line, fault) in enumerate(thirds + REFUSED):
        yield refused(name, forms[at % len(forms)], given, f"line {line}: {fault}")
    for name, line, calls, verdict, status in ACCEPTED_LINES:
        yield of_one(name, line, calls, f"local 0 {verdict}", verdict, status)
    for name, line, call in NAMED_CREATES:
        yield of_one(name, line, f"{call} -> made 1;  finish -> ok", "local 0 none;local 1 none", "none")
    yield Case("names_of_components_are_not_distinct", ("run", "--csv"), SHARED_NAMES, (CSV_HEADER + "t,4,4,0,0,0,0,none\n").encode())
    yield Case("places_of_a_worker", ("run",), WORKER, WORKED)
    yield from (Case(name, ("run", "--list"), given, b"t\n") for name, given in BOUND)
    yield from of_places()
