"""Evidence that `run` writes, and evidence through `check` and `report`: worked texts, each fault, long texts, and random and spoilt
ones next to the tests' reader."""
import os
import random
import re
import sys
from collections import Counter
from concurrent.futures import ThreadPoolExecutor
from typing import Dict, Iterator, List, Tuple, Union

import examples
import reports
from case import Case, Judgement, Ran, answer, as_lines, below, difference, faults_in, joined, refused, shown_with
from harness import TOP, text_of
from random_moves import spoilt
from random_scripts import drawn_script
from rows import text
from script_reader import Campaign, read_script
from sizes import LONGEST_EVIDENCE
from texts import Block, check, legal_blocks

# The tests of the page have random evidence.
sys.path.append(os.path.join(TOP, "tests", "page"))

from histories import PIECES_OF_EVIDENCE, evidence_of

# How many bytes `check` reads at a time, at most: what the sources say, so that the rows cut lines where `check` does.
BYTES_OF_A_PART = int(re.findall(r"(?m)^const PART: usize = (\d+);$", text_of("crates/tc_blocks/src/source.rt"))[0])

CASE = ("evidence 1 t 3;behaviour 0 main;0 create named heater -> made 1;behaviour 1 probe;0 # first <b>;0 start 1 1 -> ok;"
        "1 ! bad move;1 setverdict fail -> ok;1 # too hot: 85 > 80, and 80 <= limit;2 # never started;1 finish -> ok")
# A test case that is over, in which run 1 gives the verdict, and the same without what says nothing to the table.
WHOLE = f"{CASE};0 finish -> ok;end fail"
PLAIN = ("history 2 t 3;0 create named heater -> made 1;0 start 1 1 -> ok;1 setverdict fail -> ok;1 finish -> ok;0 finish -> ok;"
         "end fail")

# Name, text, output, status.
CHECKED: List[Tuple[str, str, str, int]] = [
    ("evidence_without_lines", "evidence 1 t 1;end none", "legal t 0 none", 0),
    ("evidence_of_each_kind_of_line", WHOLE, "legal t 5 fail", 0),
    ("evidence_without_what_is_said", PLAIN, "legal t 5 fail", 0),
    ("remarks_are_no_entries", "evidence 1 t 1;0 # 0 setverdict pass -> ok;0 ! 0 setverdict fail -> ok;0 # end fail;end none", "legal t 0 none", 0),
    ("evidence_of_256_behaviours", "evidence 1 t 256;behaviour 255 last;255 # x;255 ! y;end none", "legal t 0 none", 0),
    ("a_sentence_of_200_bytes", f"evidence 1 t 1;0 # {'x' * 200};0 ! {'<' * 200};end none", "legal t 0 none", 0),
    ("a_sentence_of_one_space", "evidence 1 t 1;0 #  ;0 !  ;end none", "legal t 0 none", 0),
    ("sentences_behind_the_end_of_the_case", f"{CASE};0 finish -> ok;0 # late;1 finish -> ended;1 ! later;end fail", "legal t 6 fail", 0),
    ("evidence_before_and_behind_histories",
     f"history 1 a 1;end none;{WHOLE};history 2 b 1;0 create named p -> made 1;end none;evidence 1 c 1;0 # x;end none",
     "legal a 0 none;legal t 5 fail;legal b 1 none;legal c 0 none", 0),
    ("another_reply_behind_remarks", CASE.replace("1 setverdict fail -> ok", "1 setverdict fail -> ended") + ";end fail",
     "line 8: ended, table gives ok", 3),
    ("the_first_of_two_replies_in_evidence", "evidence 1 t 1;0 # x;0 getverdict -> pass;0 # y;0 getverdict -> fail;0 ! z;end pass",
     "line 3: pass, table gives none", 3),
    ("another_verdict_behind_remarks", f"{CASE};end pass", "line 12: pass, table gives fail", 3),
    ("a_verdict_of_a_remark", "evidence 1 t 1;0 # setverdict fail;0 # 0 setverdict fail -> ok;end fail", "line 4: fail, table gives none", 3),
    ("an_illegal_history_behind_evidence", f"{WHOLE};history 1 b 1;0 finish -> ended;end none", "legal t 5 fail;line 15: ended, table gives ok", 3),
    ("illegal_evidence_behind_a_history", "history 1 b 1;end none;evidence 1 a 1;0 # x;0 finish -> ended;end none;evidence 1 c 1;end none",
     "legal b 0 none;line 5: ended, table gives ok", 3),
    ("a_run_named_behind_another_one_s_start", "evidence 1 t 3;0 create -> made 1;0 start 1 1 -> ok;behaviour 2 x;end none", "legal t 2 none", 0),
]

# Name, text, line, fault.
REFUSED: List[Tuple[str, bytes, int, str]] = [
    ("evidence_of_format_2", text("evidence 2 t 1;end none"), 1, "bad first line"),
    ("evidence_of_no_format", text("evidence t 1;end none"), 1, "bad first line"),
    ("evidence_of_no_behaviours", text("evidence 1 t 0;end none"), 1, "bad first line"),
    ("evidence_of_257_behaviours", text("evidence 1 t 257;end none"), 1, "bad first line"),
    ("evidence_of_a_word_that_is_no_name", text("evidence 1 any 1;end none"), 1, "bad first line"),
    ("evidence_with_a_space_behind_its_number", text("evidence 1 t 1 ;end none"), 1, "bad first line"),
    ("a_header_inside_of_evidence", text("evidence 1 t 1;evidence 1 t 1;end none"), 2, "bad entry"),
    ("a_bad_header_behind_evidence", text(f"{WHOLE};evidence 3 t 1"), 14, "bad first line"),
    ("an_empty_line_behind_evidence", text(f"{WHOLE};"), 14, "bad first line"),
    ("a_remark_behind_evidence", text(f"{WHOLE};0 # x"), 14, "bad first line"),
    ("an_empty_line_in_evidence", text("evidence 1 t 1;0 # x;;end none"), 3, "bad entry"),
    ("a_long_line_in_evidence", text(f"evidence 1 t 1;0 # x;0 # {'x' * 100_000};end none"), 3, "bad entry"),
    ("an_empty_sentence", text("evidence 1 t 1;0 # ;end none"), 2, "bad entry"),
    ("no_sentence", text("evidence 1 t 1;0 #;end none"), 2, "bad entry"),
    ("a_sentence_of_201_bytes", text(f"evidence 1 t 1;0 # {'x' * 201};end none"), 2, "bad entry"),
    ("a_refused_line_of_201_bytes", text(f"evidence 1 t 1;0 ! {'x' * 201};end none"), 2, "bad entry"),
    ("a_byte_31_in_a_sentence", b"evidence 1 t 1\n0 # \x1f\nend none\n", 2, "bad entry"),
    ("a_byte_127_in_a_sentence", b"evidence 1 t 1\n0 # \x7f\nend none\n", 2, "bad entry"),
    ("the_character_that_stands_for_another", "evidence 1 t 1\n0 # \u2039\nend none\n".encode(), 2, "bad entry"),
    ("a_remark_of_no_run_of_the_case", text("evidence 1 t 2;1 # x;2 # x;end none"), 3, "bad entry"),
    ("a_refused_line_of_no_run_of_the_case", text("evidence 1 t 2;1 ! x;2 ! x;end none"), 3, "bad entry"),
    ("a_name_for_no_run_of_the_case", text("evidence 1 t 2;behaviour 1 x;behaviour 2 y;end none"), 3, "bad entry"),
    ("a_remark_with_another_mark", text("evidence 1 t 1;0 ? x;end none"), 2, "bad entry"),
    ("a_remark_of_run_00", text("evidence 1 t 1;00 # x;end none"), 2, "bad entry"),
    ("a_run_named_twice", text("evidence 1 t 2;behaviour 0 x;behaviour 1 x;behaviour 0 x;end none"), 4, "bad entry"),
    ("a_run_named_behind_its_remark", text("evidence 1 t 1;0 # x;behaviour 0 x;end none"), 3, "bad entry"),
    ("a_run_named_behind_its_refused_line", text("evidence 1 t 1;0 ! x;behaviour 0 x;end none"), 3, "bad entry"),
    ("a_run_named_behind_its_entry", text("evidence 1 t 1;0 getverdict -> none;behaviour 0 x;end none"), 3, "bad entry"),
    ("a_run_named_behind_its_start", text("evidence 1 t 2;0 create -> made 1;0 start 1 1 -> ok;behaviour 1 x;end none"), 4, "bad entry"),
    ("a_run_named_behind_a_start_that_failed", text("evidence 1 t 2;0 start 0 1 -> error start-main;behaviour 1 x;end error"), 3, "bad entry"),
    ("a_behaviour_of_a_word_that_is_no_name", text("evidence 1 t 1;behaviour 0 all;end none"), 2, "bad entry"),
    ("a_behaviour_without_a_name", text("evidence 1 t 1;behaviour 0;end none"), 2, "bad entry"),
    ("a_remark_in_a_history", text("history 2 t 1;0 # x;end none"), 2, "bad entry"),
    ("a_refused_line_in_a_history", text("history 1 t 1;0 ! x;end none"), 2, "bad entry"),
    ("a_behaviour_in_a_history", text(f"{WHOLE};history 2 t 1;behaviour 0 x;end none"), 15, "bad entry"),
    ("a_named_create_in_a_history_behind_evidence", text(f"{WHOLE};history 1 t 1;0 create named p -> made 1;end none"), 15, "bad entry"),
    ("an_end_with_another_word_in_evidence", text("evidence 1 t 1;end x"), 2, "bad entry"),
    ("a_header_of_evidence_alone", text("evidence 1 t 1"), 2, "text ends too early"),
    ("evidence_cut_behind_a_remark", text("evidence 1 t 1;0 # x"), 3, "text ends too early"),
    ("evidence_cut_behind_a_history", text("history 1 t 1;end none;evidence 1 t 1;0 ! x"), 5, "text ends too early"),
    ("a_fault_behind_illegal_evidence", text("evidence 1 t 1;0 # x;0 finish -> ended;end none;end none"), 5, "bad first line"),
]


def long_texts() -> Iterator[Case]:
    """A text as long as may be, and one byte more, each of evidence."""
    head, tail, filled = b"evidence 1 t 1\n", b"end none\n", LONGEST_EVIDENCE
    yield Case("the_longest_evidence_in_less_memory_than_its_bytes", ("check",), filled, b"legal t 0 none\n", limit="-v 14000")
    yield refused("evidence_that_is_too_long", ("check",), filled + b"\n", "input too long")
    # What is wrong with a text is said only when its last byte is read: there may be too many of them.
    late = b"evidence 1 t 1\n0 getverdict -> pass\nend none\n" + filled[:filled.index(b"\n", 3_000_000)] + b"\nx\n"
    yield refused("a_fault_before_too_many_bytes", ("check",), b"x\n" + filled, "input too long")
    yield refused("a_fault_before_a_million_bytes", ("check",), b"x\n" + filled[:1_000_000], "line 1: bad first line")
    last = late.count(b"\n")
    yield refused("a_fault_long_behind_an_illegal_block", ("check",), late, f"line {last}: bad entry")
    yield refused("a_line_of_two_million_bytes", ("check",), head + b"0 # " + b"x" * 2_000_000 + b"\n" + tail, "line 2: bad entry")


def parted_texts() -> Iterator[Case]:
    """Texts that `check` reads in several parts: each byte of a line, and each end of one, is the first of a part in some text."""
    head, tail, line = "evidence 1 t 1\n", "end none\n", "0 getverdict -> none\n"
    for cut in range(len(line) + 1):
        count, rest = divmod(BYTES_OF_A_PART - cut - len(head), 205)
        letters = rest + 195
        remarks = "".join(f"0 # {'x' * it}\n" for it in (*[200] * (count - 1), letters // 2, letters - letters // 2))
        before = head + remarks
        assert len(before) == BYTES_OF_A_PART - cut, (cut, len(before))
        number, name = before.count("\n") + 1, f"a_part_that_begins_in_byte_{cut}_of_a_line"
        whole, early = before + line + tail, before + line + remarks
        yield Case(name, ("check",), (before + remarks * 2 + line + tail).encode(), b"legal t 1 none\n")
        yield Case(f"{name}_of_the_first", ("check",), (whole * 2)[:-1].encode(), b"legal t 1 none\n" * 2)
        wrong = before + line.replace("none", "pass") + remarks * 2 + tail
        yield Case(f"{name}_that_is_wrong", ("check",), wrong.encode(), as_lines(f"line {number}: pass, table gives none"), status=3)
        bad = before + line[:-2] + "\n" + before + remarks * 2 + tail
        yield refused(f"{name}_that_is_none", ("check",), bad.encode(), f"line {number}: bad entry")
        end = early.count("\n") + 1
        yield refused(f"{name}_behind_which_nothing_ends", ("check",), early.encode(), f"line {end}: text ends too early")


def held_page(program: str) -> List[str]:
    """No byte of a page of evidence but those of its two parts is `<`; turning U+2039 back gives the text."""
    given = text(f"{WHOLE};evidence 1 u 1;0 # </script><script>alert(1)</script><!--;0 ! {'<' * 200};end none")
    page = answer(program, given, "report", "--html").output
    head, tail = reports.page_of(b"\0").split(b"\0")
    inside = page[len(head):len(page) - len(tail)]
    faults = [] if page == head + inside + tail and b"<" not in inside else ["the page has a tag in its text"]
    return faults + difference("the text", given, inside.replace("\u2039".encode(), b"<"))


def written_of(campaign: Campaign, blocks: List[Block]) -> bytes:
    """Evidence of the campaign with these entries and verdicts: each block names its behaviours first, in their order."""
    return b"".join(as_lines(f"evidence 1 {case.name} {len(case.behaviours)}", *(f"behaviour {at} {it.name}" for at, it in enumerate(case.behaviours)),
                             *block.calls, f"end {block.verdict}") for case, block in zip(campaign, blocks))


def faults_of_a_run(program: str, script: bytes, live: Tuple[str, ...], met: Counter) -> List[str]:
    """What is wrong with `run --evidence`: it names each behaviour, and what is left without the names is a history of the script, of
    which `check` and the forms of `report` say the same."""
    ran = answer(program, script, "run", *live, "--evidence")
    campaign, blocks = read_script(script), legal_blocks(ran.output)
    plain = "".join(it.history() for it in blocks).encode()
    faults = faults_in(Ran(written_of(campaign, blocks), b"", examples.status_in("history", plain)), ran)
    faults += examples.faults_of_history(campaign, plain)
    faults += [] if len(blocks) == len(campaign) else [f"{len(blocks)} blocks of {len(campaign)} test cases"]
    for words in (("check",), ("report", "--csv")):
        of_both = [answer(program, it, *words) for it in (plain, ran.output)]
        faults += [] if of_both[0] == of_both[1] else [f"{words}: {of_both[1]} of evidence, and {of_both[0]} of the history in it"]
    met.update(blocks=len(blocks), names=sum(len(it.marked("")) for it in blocks), entries=sum(len(it.entries) for it in blocks), live=len(live))
    return faults + reports.faults_of_each_form(program, ran.output)


def cases() -> Iterator[Union[Case, Judgement]]:
    """What `check` refuses or finds illegal: `report` prints its line on standard error, and writes nothing."""
    for name, given, output, status in CHECKED:
        yield Case(name, ("check",), text(given), text(output), status=status)
        if status == 0:
            yield from (reports.of_form(name, form, text(given)) for form in reports.FORMS)
        else:
            yield refused(f"report_of_{name}", ("report", "--csv"), text(given), output.split(";")[-1])
    for name, given, line, fault in REFUSED:
        yield refused(name, ("check",), given, f"line {line}: {fault}")
        yield refused(f"report_of_{name}", ("report", "--csv"), given, f"line {line}: {fault}")
    yield Judgement("a_page_of_evidence_has_no_tag_in_its_text", "ttrun report --html", held_page)
    for stem in sorted(it.partition(".")[0] for it in os.listdir(examples.FOLDER) if it.endswith(".script")):
        for live in ((), ("--live",)):
            yield Judgement(joined(*live, "evidence_of", stem), f"{' '.join(['ttrun run', *live, '--evidence'])} < examples/{stem}.script",
                            faults_of_a_run, (examples.bytes_of(f"{stem}.script"), live, Counter()))
    yield from long_texts()
    yield from parted_texts()


# What random texts must meet at least.
FLOORS: Dict[str, int] = {"legal": 200, "another reply": 100, "another verdict": 40, "bad first line": 60, "bad entry": 300,
                          "text ends too early": 30}
BLOCKS = 1000
# Random scripts that are run.
RUNS = 60


def other(source: random.Random, block: str) -> str:
    """The block with another reply or verdict, now and then."""
    if source.random() < 0.5:
        return block
    lines = block.split("\n")
    ends = [at for at, it in enumerate(lines) if " -> " in it and it[0].isdigit() and " # " not in it and " ! " not in it or it.startswith("end ")]
    at = source.choice(ends)
    lines[at] = re.sub(r"\S+$", source.choice(["none", "pass", "fail"]), lines[at])
    return "\n".join(lines)


def kind_of(judged) -> str:
    if judged.errors:
        return judged.errors.decode().rstrip("\n").partition(": ")[2].partition(": ")[2]
    last = judged.output.splitlines()[-1].decode()
    return "legal" if last.startswith("legal ") else "another verdict" if last.split(": ")[1].startswith(tuple(
        f"{it}, table gives {other}" for it in reports.VERDICTS for other in reports.VERDICTS)) else "another reply"


def texts_of(source: random.Random) -> Tuple[List[str], List[bytes]]:
    """Legal blocks of both kinds, and texts of some of them: legal, with another reply or verdict, and spoilt."""
    blocks = [reports.random_block(source, it)[0] for it in range(BLOCKS)]
    blocks = [evidence_of(source, it) if source.random() < 0.8 else it for it in blocks]
    some = ["".join(source.choice(blocks) for _ in range(source.randint(1, 3))).encode() for _ in range(300)]
    other_some = ["".join(other(source, source.choice(blocks)) for _ in range(source.randint(1, 3))).encode() for _ in range(500)]
    return blocks, some + other_some + [spoilt(source, some, PIECES_OF_EVIDENCE) for _ in range(900)]


def faults_of_random_texts(program: str, seed: int) -> List[str]:
    """Random texts next to what the tests' own reader says."""
    texts = texts_of(random.Random(seed))[1]
    wanted = [check(it) for it in texts]
    with ThreadPoolExecutor(4) as pool:
        answers = list(pool.map(lambda it: answer(program, it, "check"), texts))
    faults = [f"{fault}: {text[:200]!r}" for text, *both in zip(texts, wanted, answers) for fault in faults_in(*both)]
    return below(Counter(map(kind_of, wanted)), FLOORS) + faults


def faults_of_a_thousand_blocks(program: str, seed: int) -> List[str]:
    blocks = texts_of(random.Random(seed + 1))[0]
    given = "".join(blocks).encode()
    count = sum(it.startswith("evidence") for it in blocks)
    faults = [] if count >= 700 and len(blocks) - count >= 100 and given.count(b"<") >= 1000 else [f"{count} blocks of evidence"]
    plain = "".join(legal_blocks(it.encode())[0].history() if it.startswith("evidence") else it for it in blocks).encode()
    for it in (given, plain):
        faults += faults_in(check(given), answer(program, it, "check"))
    return faults + reports.faults_of_each_form(program, given)


def faults_of_random_runs(program: str, seed: int) -> Iterator[str]:
    source, met = random.Random(f"evidence of {seed}"), Counter()
    for at in range(RUNS):
        script = drawn_script(source, is_in_turn=False)
        yield from shown_with(faults_of_a_run(program, script, ("--live",) * (at % 2), met), f"the script: {script[:3000].decode()}")
    yield from below(met, {"blocks": RUNS, "names": 3 * RUNS, "entries": 10 * RUNS, "live": RUNS // 2})


def judgements(seed: int) -> List[Judgement]:
    return [Judgement(f"evidence_of_random_scripts_{seed}", "ttrun run [--live] --evidence < (random scripts)", faults_of_random_runs, (seed,)),
            Judgement("random_and_spoilt_evidence", f"ttrun check, seed {seed}", faults_of_random_texts, (seed,)),
            Judgement("a_thousand_blocks_of_both_kinds", f"ttrun check and report, seed {seed}", faults_of_a_thousand_blocks, (seed,))]
