"""What is written for given lines: texts in, evidence, standard error and status out, each under a plain name."""
from typing import Iterator, List, Tuple

from case import Case

ENDED_INSIDE = "the input ended inside a test case"
BEHAVIOURS = "a test case has 1 to 256 behaviours"


def row(name: str, given: bytes, output: bytes, errors: bytes, status: int) -> Case:
    """A row: an input, and what the server gives for it."""
    return Case(name, ("serve",), given, output, errors, status)


def text_of(lines: str) -> str:
    """The lines of a row, which semicolons separate."""
    return "".join(f"{line.strip()}\n" for line in lines.split(";") if line.strip())


# A name; the number of behaviours of the one test case, t; the status; the lines of the client between its header and the finish of
# its main behaviour; what they leave in the evidence; the lines on standard error.
FRAMED: List[Tuple[object, ...]] = [
    ("a_case_that_is_none", 1, 0, "", ""),
    # behaviours and remarks
    ("behaviours_are_written_through", 3, 0, "behaviour 0 main; behaviour 2 probe", "behaviour 0 main; behaviour 2 probe"),
    ("two_runs_of_one_behaviour", 3, 0, "behaviour 1 probe; behaviour 2 probe", "behaviour 1 probe; behaviour 2 probe"),
    ("a_name_twice", 2, 3, "behaviour 1 a; behaviour 1 a", "behaviour 1 a", "line 3: late name"),
    ("a_name_behind_a_move", 2, 3, "0 getverdict; behaviour 0 main", "0 getverdict -> none", "line 3: late name"),
    ("a_name_behind_a_start", 2, 3, "0 create; 0 start 1 1; behaviour 1 a", "0 create -> made 1; 0 start 1 1 -> ok", "line 4: late name"),
    ("a_name_behind_a_remark", 2, 3, "1 # x; behaviour 1 a", "1 # x", "line 3: late name"),
    ("a_name_behind_a_refused_line", 2, 3, "1 x; behaviour 1 a", "1 ! bad line", "line 3: late name"),
    ("a_name_of_no_run_of_the_case", 2, 3, "behaviour 2 a", "", "line 2: no such run"),
    ("a_behaviour_whose_name_is_none", 2, 3, "behaviour 1 a-b", "", "line 2: bad line"),
    ("a_behaviour_called_all", 2, 3, "behaviour 1 all", "", "line 2: bad line"),
    ("a_behaviour_without_a_name", 2, 3, "behaviour 1", "", "line 2: bad line"),
    ("a_number_with_a_leading_zero", 2, 3, "behaviour 01 a; 00 finish", "", "line 2: bad line", "line 3: bad line"),
    ("a_remark", 1, 0, "0 # 5 V -> 3 V # !", "0 # 5 V -> 3 V # !"),
    ("a_remark_of_a_run_that_was_never_started", 9, 0, "8 # x", "8 # x"),
    ("a_remark_of_no_run_of_the_case", 2, 3, "2 # x", "", "line 2: no such run"),
    ("a_refusal_from_outside", 1, 3, "0 ! bad line", "0 ! bad line"),
    # waits
    ("a_wait_that_holds", 2, 0, "0 wait done all", "0 wait done all -> matched"),
    ("two_who_wait_are_woken_in_their_order", 3, 0,
     "0 create; 0 create; 0 start 2 2; 0 start 1 1; 2 wait done 1; 0 wait done 1; 1 finish",
     "0 create -> made 1; 0 create -> made 2; 0 start 2 2 -> ok; 0 start 1 1 -> ok; 2 wait done 1 -> parked; "
     "0 wait done 1 -> parked; 1 finish -> ok; 0 wake done 1 -> matched; 2 wake done 1 -> matched"),
    ("who_is_killed_while_it_waits_is_woken", 2, 0, "0 create; 0 create; 0 start 1 1; 1 wait done 2; 0 kill 1",
     "0 create -> made 1; 0 create -> made 2; 0 start 1 1 -> ok; 1 wait done 2 -> parked; 0 kill 1 -> ok; 1 wake done 2 -> ended"),
    ("a_wake_from_outside", 1, 3, "0 wake done all", "0 ! a wake comes of itself"),
    ("a_wait_of_who_is_not_there", 2, 0, "1 wait done all", "1 wait done all -> ended"),
    # moves that are answered, though no bench makes them
    ("a_move_of_a_run_out_of_range", 2, 0, "9 getverdict; 65535 wait done all", "9 getverdict -> ended; 65535 wait done all -> ended"),
    ("a_component_with_a_name", 1, 0, "0 create alive named pump", "0 create alive named pump -> made 1"),
    # lines that are refused
    ("a_component_whose_name_is_none", 1, 3, "0 create named 9a; 0 create alive named self", "0 ! bad line; 0 ! bad line"),
    ("a_number_and_nothing_else", 2, 3, "1", "1 ! bad line"),
    ("a_number_and_letters", 2, 3, "1finish; 1,5 # x; 01 finish; 1: x", "1 ! bad line", "line 2: bad line", "line 4: bad line", "line 5: bad line"),
    ("a_move_without_its_caller", 2, 3, "finish", "", "line 2: bad line"),
    ("a_bad_move_of_no_run_of_the_case", 2, 3, "2 fly", "", "line 2: bad line"),
    ("an_entry_for_a_move", 1, 3, "0 finish -> ok", "0 ! bad line"),
    ("a_caller_that_is_too_large", 1, 3, "65536 finish", "", "line 2: bad line"),
    ("five_arguments", 2, 3, "0 start 1 1 0 0 0 0 0", "0 ! bad line"),
    ("a_second_case_inside_one", 1, 3, "case u 1", "", "line 2: a test case is open"),
    ("a_second_case_whose_name_is_none", 1, 3, "case u- 1", "", "line 2: bad line"),
    ("an_end_with_a_verdict", 1, 3, "end pass", "", "line 2: bad line"),
    ("256_behaviours", 256, 0, "behaviour 255 z", "behaviour 255 z"),
    # the main behaviour waits for run 1, and this comes while it does
    *((name, 2, status, f"0 create; 0 start 1 1; 0 wait done 1; {line}; 1 finish",
       f"0 create -> made 1; 0 start 1 1 -> ok; 0 wait done 1 -> parked; {left}; 1 finish -> ok; 0 wake done 1 -> matched")
      for name, status, line, left in (
          ("a_remark_of_a_run_that_waits", 0, "0 # x", "0 # x"),
          ("a_wait_that_is_woken", 0, "", ""),
          ("a_move_of_a_run_that_waits", 3, "0 getverdict", "0 ! the run waits"),
          ("a_second_wait_of_a_run_that_waits", 3, "0 wait done 1", "0 ! the run waits"),
          ("a_wake_of_who_waits_from_outside", 3, "0 wake done 1", "0 ! a wake comes of itself"))),
]

# The same of other inputs: a name; all lines; what they leave; the lines on standard error; the status.
TABLE: List[Tuple[str, str, str, str, int]] = [
    ("no_line_at_all", "", "", "", 0),
    ("a_case_that_passes", "case t 1; 0 setverdict pass; 0 finish; end", "evidence 1 t 1; 0 setverdict pass -> ok; 0 finish -> ok; end pass", "", 0),
    ("the_worst_case_counts", "case a 1; 0 setverdict fail; 0 finish; end; case b 1; 0 finish; end",
     "evidence 1 a 1; 0 setverdict fail -> ok; 0 finish -> ok; end fail; evidence 1 b 1; 0 finish -> ok; end none", "", 1),
    ("inconc_counts_one", "case t 1; 0 setverdict inconc; 0 finish; end",
     "evidence 1 t 1; 0 setverdict inconc -> ok; 0 finish -> ok; end inconc", "", 1),
    ("stopcase_counts_two", "case t 1; 0 stopcase; end", "evidence 1 t 1; 0 stopcase -> ok; end error", "", 2),
    ("a_case_that_is_not_over_counts_as_error", "case t 1; 0 setverdict pass; end", "evidence 1 t 1; 0 setverdict pass -> ok; end pass", "", 2),
    ("the_input_ends_inside_a_case", "case t 1; 0 setverdict pass", "evidence 1 t 1; 0 setverdict pass -> ok; end pass", ENDED_INSIDE, 2),
    ("the_input_ends_behind_a_case_that_is_over", "case t 1; 0 setverdict pass; 0 finish",
     "evidence 1 t 1; 0 setverdict pass -> ok; 0 finish -> ok; end pass", ENDED_INSIDE, 0),
    ("two_cases_of_one_name", "case t 1; 0 finish; end; case t 256; 0 finish; end",
     "evidence 1 t 1; 0 finish -> ok; end none; evidence 1 t 256; 0 finish -> ok; end none", "", 0),
    ("a_name_behind_a_start_in_vain", "case t 2; 0 start 1 1; behaviour 1 a; end",
     "evidence 1 t 2; 0 start 1 1 -> error no-component; end error", "line 3: late name", 3),
    ("a_remark_behind_the_end_of_the_case", "case t 1; 0 finish; 0 # x; end", "evidence 1 t 1; 0 finish -> ok; 0 # x; end none", "", 0),
    ("a_wait_that_is_stuck", "case t 2; 0 create; 0 wait done 1; end",
     "evidence 1 t 2; 0 create -> made 1; 0 wait done 1 -> parked; 0 wake done 1 -> error stuck; end error", "", 2),
    ("all_are_stuck_by_the_last_who_waits",
     "case t 2; 0 create; 0 create; 0 start 1 1; 0 wait done 1; 1 wait done 2; end",
     "evidence 1 t 2; 0 create -> made 1; 0 create -> made 2; 0 start 1 1 -> ok; 0 wait done 1 -> parked; 1 wait done 2 -> parked; "
     "0 wake done 1 -> error stuck; 1 wake done 2 -> ended; end error", "", 2),
    ("a_move_behind_the_end_of_the_case", "case t 1; 0 finish; 0 finish; end", "evidence 1 t 1; 0 finish -> ok; 0 finish -> ended; end none", "", 0),
    ("a_dynamic_error", "case t 2; 0 start 0 1; 0 getverdict; end",
     "evidence 1 t 2; 0 start 0 1 -> error start-main; 0 getverdict -> ended; end error", "", 2),
    ("a_verdict_that_is_none", "case t 1; 0 setverdict passed; 0 setverdict error; 0 setverdict pass; 0 finish; end",
     "evidence 1 t 1; 0 ! bad line; 0 ! bad line; 0 setverdict pass -> ok; 0 finish -> ok; end pass", "", 3),
    ("a_good_case_behind_a_bad_line", "case t 1; 0 x; 0 finish; end; case u 1; 0 finish; end",
     "evidence 1 t 1; 0 ! bad line; 0 finish -> ok; end none; evidence 1 u 1; 0 finish -> ok; end none", "", 3),
    # lines that end the server
    ("an_end_outside_a_case", "end; case t 1", "", "line 1: no test case is open", 3),
    ("an_end_behind_an_end", "case t 1; 0 finish; end; end; case u 1", "evidence 1 t 1; 0 finish -> ok; end none", "line 4: no test case is open", 3),
    ("a_move_outside_a_case", "0 finish", "", "line 1: no test case is open", 3),
    ("a_remark_outside_a_case", "0 # x", "", "line 1: no test case is open", 3),
    ("a_behaviour_outside_a_case", "behaviour 0 main", "", "line 1: no test case is open", 3),
    ("no_behaviours", "case t 0", "", f"line 1: {BEHAVIOURS}", 3),
    ("257_behaviours", "case t 257; 0 finish", "", f"line 1: {BEHAVIOURS}", 3),
    ("4294967295_behaviours", "case t 4294967295", "", f"line 1: {BEHAVIOURS}", 3),
    ("more_behaviours_than_are_read", "case t 4294967296", "", "line 1: bad line", 3),
    ("behaviours_inside_a_case", "case t 1; case u 300; 0 finish; end", "evidence 1 t 1; 0 finish -> ok; end none", f"line 2: {BEHAVIOURS}", 3),
    ("a_case_whose_name_is_none", "case t-bad 1", "", "line 1: bad line", 3),
    ("a_case_called_all", "case all 2", "", "line 1: bad line", 3),
    ("a_case_with_a_name_of_33_letters", f"case {'a' * 33} 2", "", "line 1: bad line", 3),
    ("a_case_with_a_name_of_32_letters", f"case {'a' * 32} 2; 0 finish; end", f"evidence 1 {'a' * 32} 2; 0 finish -> ok; end none", "", 0),
    ("a_case_without_a_number", "case t", "", "line 1: bad line", 3),
    ("a_header_of_evidence", "evidence 1 t 1", "", "line 1: bad line", 3),
]

HEAD = b"evidence 1 t 2\n"
TAIL = b"0 finish -> ok\nend none\n"
ENDED = b"ttrun: the input ended inside a test case\n"

# What the table above cannot spell: bytes, long lines, a last line without its line feed.
BYTES: List[Case] = [
    row("an_empty_line_inside", b"case t 2\n\n0 finish\nend\n", HEAD + TAIL, b"ttrun: line 2: bad line\n", 3),
    row("an_empty_line_outside", b"\n", b"", b"ttrun: line 1: bad line\n", 3),
    row("a_carriage_return", b"case t 2\n0 finish\r\n0 finish\nend\n", HEAD + b"0 ! bad line\n" + TAIL, b"", 3),
    row("a_space_in_front", b"case t 2\n 0 finish\n0 finish\nend\n", HEAD + TAIL, b"ttrun: line 2: bad line\n", 3),
    row("a_space_behind", b"case t 2\n0 finish \n0 finish\nend\n", HEAD + b"0 ! bad line\n" + TAIL, b"", 3),
    row("two_spaces", b"case t 2\n0  finish\n0 finish\nend\n", HEAD + b"0 ! bad line\n" + TAIL, b"", 3),
    row("a_zero_byte", b"case t 2\n0 fin\0sh\n0 finish\nend\n", HEAD + b"0 ! bad line\n" + TAIL, b"", 3),
    row("a_byte_of_no_text_in_a_remark", b"case t 2\n0 # \xc3\xa4\n0 # \t\n0 # \x7f\n0 finish\nend\n", HEAD + b"0 ! bad remark\n" * 3 + TAIL, b"", 3),
    row("bytes_that_are_no_run", b"case t 2\n\xff\xfe finish\n0 finish\nend\n", HEAD + TAIL, b"ttrun: line 2: bad line\n", 3),
    row("an_empty_remark", b"case t 2\n0 # \n0 #\n0 finish\nend\n", HEAD + b"0 ! bad remark\n0 ! bad line\n" + TAIL, b"", 3),
    row("a_remark_of_a_space", b"case t 2\n0 #  \n0 finish\nend\n", HEAD + b"0 #  \n" + TAIL, b"", 0),
    row("a_remark_of_200_bytes", b"case t 2\n0 # " + b"x" * 200 + b"\n0 finish\nend\n", HEAD + b"0 # " + b"x" * 200 + b"\n" + TAIL, b"", 0),
    row("a_remark_of_201_bytes", b"case t 2\n0 # " + b"x" * 201 + b"\n0 finish\nend\n", HEAD + b"0 ! bad remark\n" + TAIL, b"", 3),
    row("the_longest_line", b"case t 256\n255 # " + b"~" * 200 + b"\n0 finish\nend\n",
        b"evidence 1 t 256\n255 # " + b"~" * 200 + b"\n" + TAIL, b"", 0),
    row("a_line_of_208_bytes", b"case t 2\n65535 # " + b"~" * 200 + b"\n0 finish\nend\n", HEAD + TAIL, b"ttrun: line 2: no such run\n", 3),
    row("a_line_of_209_bytes", b"case t 2\n65535 # " + b"~" * 201 + b"\n0 finish\nend\n", HEAD + TAIL, b"ttrun: line 2: line too long\n", 3),
    row("a_line_of_100000_bytes_of_a_run", b"case t 2\n1 " + b"x" * 100_000 + b"\n0 finish\nend\n", HEAD + b"1 ! line too long\n" + TAIL, b"", 3),
    row("a_line_of_100000_bytes_of_nobody", b"case t 2\n" + b"x" * 100_000 + b"\n0 finish\nend\n", HEAD + TAIL, b"ttrun: line 2: line too long\n", 3),
    row("a_number_of_100000_digits", b"case t 2\n" + b"1" * 100_000 + b" finish\n0 finish\nend\n", HEAD + TAIL, b"ttrun: line 2: line too long\n", 3),
    row("a_long_name_in_a_long_line", b"case t 2\n0 create named " + b"a" * 300 + b"\n0 finish\nend\n", HEAD + b"0 ! line too long\n" + TAIL, b"", 3),
    row("a_long_line_outside", b"x" * 100_000 + b"\ncase t 1\n", b"", b"ttrun: line 1: line too long\n", 3),
    row("half_a_line_at_the_end", b"case t 2\n0 finish\n0 getver", HEAD + b"0 finish -> ok\n0 ! no line feed\nend none\n", ENDED, 3),
    row("a_whole_move_without_its_line_feed", b"case t 2\n0 finish", HEAD + b"0 ! no line feed\nend none\n", ENDED, 3),
    row("an_end_without_its_line_feed", b"case t 2\n0 finish\nend", HEAD + TAIL, b"ttrun: line 3: no line feed\n" + ENDED, 3),
    row("half_a_line_of_nobody_at_the_end", b"case t 2\n0 finish\nbehav", HEAD + TAIL, b"ttrun: line 3: no line feed\n" + ENDED, 3),
    row("a_case_without_its_line_feed", b"case t 2", b"", b"ttrun: line 1: no line feed\n", 3),
    row("half_a_long_line_at_the_end", b"case t 2\n0 finish\n1 " + b"x" * 10_000, HEAD + b"0 finish -> ok\n1 ! no line feed\nend none\n", ENDED, 3),
]


def all_wait() -> Case:
    """A row in which every run but the last waits for that one, and is woken by its end."""
    others, last = range(1, 256), 255
    starts = [(f"0 create{it}", f"0 create{it} -> made {run}") for run in others for it in (" alive" if run % 2 else "",)]
    starts += [(f"0 start {run} {run}", f"0 start {run} {run} -> ok") for run in others]
    waits = [(f"{run} wait done {last}", f"{run} wait done {last} -> parked") for run in (*reversed(range(1, last)), 0)]
    wakes = [f"{run} wake done {last} -> matched" for run in range(last)]
    lines = ["case t 256", *(it for it, _ in (*starts, *waits)), f"{last} finish", "0 finish", "end"]
    output = ["evidence 1 t 256", *(it for _, it in (*starts, *waits)), f"{last} finish -> ok", *wakes, "0 finish -> ok", "end none"]
    return row("all_runs_wait_for_the_last", "".join(f"{it}\n" for it in lines).encode(), "".join(f"{it}\n" for it in output).encode(), b"", 0)


def many_cases(count: int) -> Case:
    """A row of that many test cases, the first of which fails."""
    given = "".join(f"case t{at} 1\n0 setverdict {'pass' if at else 'fail'}\n0 finish\nend\n" for at in range(count))
    output = "".join(f"evidence 1 t{at} 1\n0 setverdict {it} -> ok\n0 finish -> ok\nend {it}\n"
                     for at in range(count) for it in ("pass" if at else "fail",))
    return row("more_cases_than_16_bits_count", given.encode(), output.encode(), b"", 1)


def rows() -> Iterator[Case]:
    framed = [(name, f"case t {behaviours}; {given}; 0 finish; end", f"evidence 1 t {behaviours}; {output}; 0 finish -> ok; end none",
               ";".join(errors), status) for name, behaviours, status, given, output, *errors in FRAMED]
    for name, given, output, errors, status in framed + TABLE:
        told = "".join(f"ttrun: {line}\n" for line in text_of(errors).splitlines())
        yield row(name, text_of(given).encode(), text_of(output).encode(), told.encode(), status)
    yield from BYTES
    yield all_wait()
    yield many_cases(70_000)
