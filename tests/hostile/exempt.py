"""The public calls that crates/refused_memory does not make, and why: the whole program makes them, or another call that it makes.

tests/claims/memory.py holds these lists and those of the program to the calls that there are.
"""
from typing import Tuple

Exempt = Tuple[Tuple[str, ...], str]

# Each growth of these is refused in turn by the sweeps of the whole program, which goes through them in each of its tasks.
REFUSED_BY_THE_PROGRAM = ("explain", "html_page", "read_task", "read_cases_task", "answer", "answer_cases", "carry_out", "read_text",
                          "read_script", "chosen_cases", "choose_cases", "with_jobs", "line_with", "refuse", "refuse_words", "give_answer",
                          "run_cases", "serve", "choose", "read_evidence", "Block::history", "check_text", "check_input", "report_text",
                          "report_input", "compare_text", "report_compared", "cases_to_run", "explore_locals", "append_locals",
                          "append_unknown", "explore", "tc_explored::append_line", "append_witnesses", "append_details", "is_course", "models_of",
                          "notes_of", "counted")
# The tasks by which nothing else refuses these calls each growth: in the gate too each one is refused.
EACH = ("--explain", "--html", "--text", "serve", "--live", "--progress", "--shard", "--script", "--failed", "--summary", "--suite", "--locals", "--details", "model")
# These can answer that memory ran out, and are refused none by themselves.
UNREFUSED: Tuple[Exempt, ...] = (
    (("read_counted",), "read_input is this call over a reader that is counted"),
    (("read_moves_into", "MoveList::begin", "MoveList::take"), "read_moves makes them for a list"),
    (("append_first_line", "append_line", "append_named_block"), "write_evidence makes them"),
    (("append_parts", "append_shown"), "explain and explore make them"),
    (("cause_of", "append_decision", "names_in", "namings_of", "append_named_call", "append_component", "append_component_in",
      "append_run_in", "append_waits", "Said::take"), "report and explore make them"),
    (("read_line", "read_words"), "read_campaign makes them"),
    (("CaseState::play_entry", "play_short"), "replay and replay_check make it"),
    (("Book::new",), "open_case makes it"),
    (("Book::record", "Book::call"), "the calls on a pass make them"),
    (("Look::close", "Book::close", "locals_of"), "close_case makes them"),
    (("Kept::with_room", "without_room"), "run_campaign makes them"),
    (("Stopwatch::make_room",), "run makes it"),
    (("Sentence::of_bytes",), "read_evidence_into makes it"),
    (("append_said", "append_refusal"), "serve makes them"),
    (("append_entries", "append_end"), "write_block makes them"),
    (("append_replayed", "append_closing"), "report makes them"),
    (("read_evidence_into", "read_evidence_from"), "report and check make them"),
    (("read_part",), "it is handed no allocator"),
    (("Sequence::start", "Sequence::take", "Sequence::close"), "read_evidence makes them"),
    (("append_whole_block",), "no program writes whole blocks of evidence"),
    (("answer_alone",), "it makes the calls of answer; tests/play takes the memory from it"),
    (("append_place", "tell"), "fault_line and refuse make them"),
    (("stop_word",), "it is handed no allocator: its one fault is that the word names no verdict"),
    (("Course::opening", "Course::copied", "Course::with", "Standing::take_in"), "is_course and explore make them"),
)
# What these are handed holds no allocator, so that they can ask for no memory; memory.py looks at their heads.
WITHOUT_ALLOCATOR = ("SlowReader::new", "InputFault::text", "WriteFault::text", "Shard::new", "Shard::place", "Shard::shards", "Shard::has",
                     "WordFault::text", "Step::operation", "Places::new", "Places::push", "Places::as_slice", "Script::is_script",
                     "ScriptKind::text", "read_reference", "is_comment", "is_word", "Keyword::text", "read_keyword", "tc_reader::read_name",
                     "Lines::new", "Lines::next", "awaited_line", "of_input", "fault_of", "split_script", "deciding_entry", "component_of",
                     "name_of", "Refusal::text", "Pattern::read", "Pattern::bytes", "Pattern::matches", "Group::is_of", "is_behaviours",
                     "may_create", "as_behaviours", "TextKind::text", "TextFault::at", "Name::of_bytes", "after", "take_line_end",
                     "is_plain", "read_number", "take_number", "take_run", "take_verdict", "take_name", "ShortOp::op", "take_long_move",
                     "take_short_move", "take_reply", "Reply::is_ok", "Reply::is_ended", "Reply::is_fault", "ends_case", "ends_pass",
                     "created", "started_on", "is_halting", "keeps_phases", "OutFault::text", "CaseError::text", "CloseFault::text",
                     "verdict_status", "MetRuns::none", "MetRuns::add_refused", "MetRuns::contains", "counts", "is_met", "Everyone::allow",
                     "has_gone_on", "is_asked", "is_of_judged", "is_picked", "limit_of", "patterns_match", "component", "group", "target", "arguments",
                     "read_short_move")
# These take no memory, and are not made with every growth refused by themselves.
UNTRIED: Tuple[Exempt, ...] = (
    (WITHOUT_ALLOCATOR, "they are handed no allocator"),
    (("CountedReader::new", "CountedWriter::new", "NarrowWriter::new", "LiveWriter::new", "Progress::new", "Timed::new", "Times::none", "Stopwatch::new", "Script::new", "ScriptJob::new",
      "Kept::into_results", "bare_summary", "no_names", "Said::new", "Choice::all", "Standing::opening", "Answer::silent", "refuse_with"), "they put together what they are handed"),
    (("Stopwatch::begin", "Stopwatch::finish", "Stopwatch::whole", "Stopwatch::take_times", "Timed::take"), "they look at the clock, and have room"),
    (("Progress::begin", "Progress::take", "LiveWriter::take"),
     "the sweeps of the whole program refuse what they write: they have no answer for that, and the end of the run has"),
    (("write_whole", "write_counted", "write_abort", "CountedReader::read", "CountedWriter::write"),
     "the memory that their reader or writer takes is its own"),
    (("Job::call", "ScriptJob::call"), "they make the calls of their behaviour"),
    (("Kept::take", "Sequence::begin"), "run_campaign and read_evidence make them"),
    (("filskeam_answer",), "it makes answer_alone, and has no answer but its text if memory runs out"),
    (("filskeam_open", "filskeam_play", "filskeam_would", "filskeam_overall", "filskeam_is_over", "filskeam_history", "filskeam_close",
      "tc_table::call", "tc_table::history", "give_text", "HeldCase::is_open", "HeldCase::take", "HeldCase::put"),
     "tests/embed/memory.c makes them, and refuses each growth in turn"),
    (("Pass::make_room",), "it has no answer if memory runs out: the calls on a pass refuse it, and compare the pass"),
    (("CaseState::comp_of", "Table::parked"), "close_case and the calls on a pass make them"),
    (("Block::name", "Sentence::bytes", "MetRuns::add_line", "explored_status", "first_names", "level", "is_found", "steps_of", "next_call", "CaseState::parked", "CaseState::active_on", "Course::known", "Course::turn",
      "Course::would", "Course::carried", "Course::is_over", "Course::components", "Course::phase_of", "Course::is_alive_type",
      "Course::is_active", "Course::local", "Course::verdict", "Course::history", "Standing::comp", "Standing::bound",
      "Standing::called", "Standing::has_left", "Standing::wake"), "they only look at what they are lent"),
)
