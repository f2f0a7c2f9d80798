"""Rows of test cases that are chosen: patterns of names, and what explore looks at. Histories that are chosen without their script:
`check` and `report` with --only, --failed and --last, worked texts, and random ones next to a choice made here. The same of `--list`,
`--only` and `--shard` of run and explore, on random scripts."""
import random
import re
from collections import Counter
from dataclasses import dataclass
from typing import Dict, Iterator, List, Sequence, Tuple

import reports
from case import Case, Judgement, Ran, answer, as_lines, below, faults_in, refusal, refused, shown_with
from compared import LEGAL_A, LEGAL_B, LEGAL_C, OF_A, OF_B, OF_C, Choice, choice, counted, takes
from rows import ONLY, SHARD, text
from table import VERDICTS
from texts import Block, judge_block, read_history, status_of

NAMES = ("t_one", "t_two", "u_one", "one")
SCRIPT = ";".join(f"testcase {it};behaviour main;end;end" for it in NAMES)

# Name, the patterns, and the test cases that they choose; none if a pattern matches no name.
PATTERNS: List[Tuple[str, str, str]] = [
    ("a_star_alone", "*", "t_one t_two u_one one"),
    ("a_star_at_the_end", "t_*", "t_one t_two"),
    ("a_star_at_the_begin", "*one", "t_one u_one one"),
    ("a_star_for_nothing", "on*e", "one"),
    ("a_star_within", "t*e", "t_one"),
    ("stars_on_both_sides", "*_*", "t_one t_two u_one"),
    ("two_stars_side_by_side", "t**", "t_one t_two"),
    ("a_name_and_a_pattern", "one t_t*", "t_two one"),
    ("patterns_that_overlap", "t_* *_one", "t_one t_two u_one"),
    ("a_name_with_stars_around", "*one*", "t_one u_one one"),
    ("a_part_of_a_name_without_a_star", "t_", ""),
    ("a_name_and_more", "one_*", ""),
    ("a_pattern_longer_than_the_name", "*t_one*_", ""),
    ("one_of_two_that_matches_nothing", "t_* v*", ""),
    ("sixty_four_bytes", "*" * 60 + "_one", "t_one u_one"),
]

# Patterns that are none, whatever the names are.
NO_PATTERNS: List[Tuple[str, str]] = [("sixty_five_bytes", "*" * 65), ("a_byte_of_no_name", "t-*"), ("a_space", "t *"), ("nothing", ""),
                                      ("thirty_three_letters", "t" * 33), ("a_reserved_word", "all"), ("a_question_mark", "t?one")]

# Many stars against a name that they nearly match: each is tried in one pass.
SLOW = f"testcase {'a' * 32};behaviour main;end;end"

# Histories of two test cases, one of which passed.
PASSED = "history 2 t_two 1;end fail;history 2 one 1;0 setverdict pass -> ok;end pass"


# The words of commands that take a choice and explain a name that is nearly one.
NEARLY = {"run": ("run",), "list": ("run", "--list"), "explore": ("explore",), "check": ("check", "--script")}
NEAR_TOLD = as_lines("ttrun: " + ONLY, "  no test case has the name t_tow", "  nearest: t_two")
LAST_TOLD = as_lines("ttrun: " + ONLY, "  no test case has the name the_lats", "  nearest: the_last")


def chosen_by(words: Tuple[str, ...], name: str, only: str, chosen: str, told: str) -> Case:
    """What a command makes of the script with these patterns."""
    words = (*words, *(f"--only={it}" for it in only.split()))
    if not chosen:
        return refused(name, words, text(SCRIPT), ONLY)
    return Case(name, words, text(SCRIPT), as_lines(*(f"{it}{told}" for it in chosen.split())))


def explained() -> Iterator[Case]:
    """Names of no test case, and what is explained of them."""
    for name, words in NEARLY.items():
        yield Case(f"a_name_that_is_nearly_one_{name}", words + ("--explain", "--only", "t_one", "--only", "t_tow"), text(SCRIPT), b"", NEAR_TOLD, 3)
    many = ";".join(f"testcase {it};behaviour main;end;end" for it in (*NAMES, *(f"v{it:03}" for it in range(100)), "the_last"))
    yield Case("a_name_that_is_nearly_the_last_of_many", ("run", "--explain", "--only", "the_lats"), text(many), b"", LAST_TOLD, 3)
    for name, words, unknown in (("the_first_of_two_unknown_names", ("--only", "x*", "--only", "t_tow"), "x*"),
                                 ("a_pattern_of_no_name_explained", ("--only=v*",), "v*")):
        told = as_lines("ttrun: " + ONLY, f"  no test case has the name {unknown}")
        yield Case(name, ("run", "--explain", *words), text(SCRIPT), b"", told, 3)
    yield refused("a_name_of_no_test_case_not_explained", ("run", "--no-explain", "--only=t_tow"), text(SCRIPT), ONLY)
    for words in (("run", "--failed"), ("check", "--script"), ("report", "--csv", "--script"), ("explore", "--failed")):
        yield Case(f"a_name_that_is_nearly_one_before_histories_{words[0]}", words + ("--explain", "--only", "t_tow"), text(f"{SCRIPT};{PASSED}"),
                   b"", NEAR_TOLD, 3)


def of_explore() -> Iterator[Case]:
    for name, options, behind, chosen in (
            ("explore_of_a_shard", "--shard 2/3", "", "t_two"), ("explore_of_an_empty_shard", "--shard 5/5", "", ""),
            ("explore_what_failed", "--failed", PASSED, "t_one t_two u_one"),
            ("explore_one_that_failed", "--failed --only t_t* --only one", PASSED, "t_two"),
            ("explore_nothing_that_failed", "--failed --only one --history", PASSED, "")):
        yield Case(name, ("explore", *options.split()), text(f"{SCRIPT};{behind}" if behind else SCRIPT),
                   as_lines(*(f"{it} none complete" for it in chosen.split())))
    yield refused("explore_of_a_bad_history", ("explore", "--failed"), text(f"{SCRIPT};history 2 a 1;0 crate"), "line 2: bad entry")
    yield refused("explore_of_a_script_with_a_history", ("explore",), text(f"{SCRIPT};history 2 a 1;end none"), "line 17: line not understood")
    yield refused("explore_of_three_of_a_name", ("explore",), text(";".join(["testcase t;behaviour main;end;end"] * 3)), "line 5: name already used")
    yield refused("a_bad_shard_of_explore", ("explore", "--shard", "0/1", "--only", "-", "--states", "0"), b"", SHARD)
    yield refused("a_bad_name_of_explore", ("explore", "--only", "-", "--states", "0"), b"", ONLY)


EACH = f"{OF_A};{OF_B};{OF_C}"
INCONC_B, PASS_B = OF_B.replace("fail", "inconc"), OF_B.replace("fail", "pass")
ERROR_C = "history 2 c 1;0 stopcase -> ok;end error"
BAD_B = OF_B.replace("end fail", "end pass")
BAD_C = OF_C.replace("getverdict -> none", "getverdict -> pass")

# Name, options, histories of a, b and c, what `check` prints, status.
ROWS: List[Tuple[str, str, str, str, int]] = [
    ("one_of_three", "--only b", EACH, LEGAL_B, 0),
    ("two_of_three_in_the_order_of_the_text", "--only c --only a", EACH, f"{LEGAL_A};{LEGAL_C}", 0),
    ("a_star", "--only *", EACH, f"{LEGAL_A};{LEGAL_B};{LEGAL_C}", 0),
    ("a_star_and_a_name", "--only=b* --only a", EACH, f"{LEGAL_A};{LEGAL_B}", 0),
    ("a_name_twice", "--only a --only a", f"{OF_A};{OF_B};{OF_A}", f"{LEGAL_A};{LEGAL_A}", 0),
    ("three_of_a_name", "--only b", f"{OF_B};{PASS_B};{OF_A};{INCONC_B}", f"{LEGAL_B};legal b 6 pass;legal b 6 inconc", 0),
    ("what_failed", "--failed", EACH, LEGAL_B, 0),
    ("inconc_and_error", "--failed", f"{OF_A};{INCONC_B};{ERROR_C}", "legal b 6 inconc;legal c 1 error", 0),
    ("nothing_failed", "--failed", f"{OF_A};{PASS_B};{OF_C}", "", 0),
    ("what_failed_of_a_name", "--failed --only b", EACH, LEGAL_B, 0),
    ("a_name_that_passed", "--only a --failed", EACH, "", 0),
    ("what_failed_of_a_name_that_is_twice", "--failed --only b", f"{PASS_B};{OF_B};{PASS_B}", LEGAL_B, 0),
    ("an_illegal_one_that_is_chosen", "--only c", f"{OF_A};{OF_B};{BAD_C}", "line 15: pass, table gives none", 3),
    ("an_illegal_one_that_is_not_chosen", "--only a", f"{OF_A};{BAD_B};{OF_C}", f"{LEGAL_A};line 12: pass, table gives fail", 3),
    ("an_illegal_one_before_the_chosen", "--only c", f"{OF_A};{BAD_B};{OF_C}", "line 12: pass, table gives fail", 3),
    ("an_illegal_one_that_says_pass", "--failed", f"{OF_A};{BAD_B};{OF_C}", "line 12: pass, table gives fail", 3),
    ("an_illegal_one_and_a_name_of_none", "--only d", f"{OF_A};{BAD_B};{OF_C}", "line 12: pass, table gives fail", 3),
    ("the_last_of_a_name", "--last", f"{OF_A};{OF_B};{OF_C};{PASS_B}", f"{LEGAL_A};legal b 6 pass;{LEGAL_C}", 0),
    ("the_last_of_each_name", "--last", f"{OF_A};{OF_B};{OF_A};{OF_C};{INCONC_B};{OF_A};{PASS_B}", f"{LEGAL_A};legal b 6 pass;{LEGAL_C}", 0),
    ("the_last_of_a_name_is_asked_for", "--last --only b", f"{PASS_B};{OF_A};{OF_B}", LEGAL_B, 0),
    ("the_last_of_what_failed", "--last --failed", f"{OF_B};{OF_A};{PASS_B};{ERROR_C}", "legal c 1 error", 0),
    ("the_last_fails_again", "--failed --last", f"{PASS_B};{OF_A};{OF_B}", LEGAL_B, 0),
    ("names_that_are_there_once", "--last", EACH, f"{LEGAL_A};{LEGAL_B};{LEGAL_C}", 0),
    ("an_illegal_one_that_does_not_count", "--last", f"{BAD_B};{OF_A};{OF_B}", f"{LEGAL_B};{LEGAL_A}", 0),
    ("an_illegal_one_that_counts", "--last", f"{OF_A};{OF_B};{OF_C};{BAD_B}", f"{LEGAL_A};line 26: pass, table gives fail", 3),
    ("no_more_after_an_illegal_one", "--only c --failed", f"{BAD_B};{ERROR_C}", "line 8: pass, table gives fail", 3),
]

# Name, options, text, the fault's line.
REFUSED: List[Tuple[str, str, bytes, str]] = [
    ("a_name_of_none", "--only d", text(EACH), ONLY),
    ("a_pattern_of_none", "--only a --only d*", text(EACH), ONLY),
    ("a_name_of_none_that_failed", "--only d --failed", text(EACH), ONLY),
    ("a_name_in_capitals", "--only A", text(EACH), ONLY),
    ("the_second_of_a_name", "--only b#2", text(f"{OF_B};{OF_B}"), ONLY),
    ("a_bad_text_and_the_last_of_a_name", "--last", text(f"{BAD_B};{OF_B};history 2 b 1;0 create"), "line 18: bad entry"),
    ("a_name_of_none_that_counts", "--last --only d", text(f"{BAD_B};{OF_B}"), ONLY),
    ("a_bad_text_and_a_name_of_none", "--only d", text(f"{EACH};history 2 d 1;0 create"), "line 20: bad entry"),
    ("a_bad_text_after_an_illegal_one", "--only a", text(f"{OF_A};{BAD_B};history 3"), "line 13: bad first line"),
    ("no_text", "--failed", b"", "line 1: text ends too early"),
    ("no_pattern", "--only 1", b"no text\n", ONLY),
]

# Histories one of whose names is nearly t_tow, and many of which the last is nearly the_lats.
NEAR_TEXT = text(";".join(OF_A.replace(" a ", f" {it} ") for it in ("t_one", "t_two", "u_one")))
MANY_TEXT = text(";".join(OF_A.replace(" a ", f" {it} ") for it in (*(f"v{it:03}" for it in range(100)), "the_last")))


def chosen_of(blocks: List[Block], only: Sequence[str], failed: bool) -> List[bool]:
    return [(not only or any(takes(it, block.name) for it in only)) and not (failed and block.verdict in ("none", "pass")) for block in blocks]


def wanted_of(given: bytes, only: Sequence[str], failed: bool, last: bool) -> Tuple[Ran, List[reports.Told]]:
    """What `check` answers, and what the forms have of the chosen blocks."""
    blocks, refused_as = read_history(given)
    if refused_as is not None:
        return Ran(b"", refused_as.errors, 3), []
    blocks, output = counted(blocks, last), ""
    chosen = chosen_of(blocks, only, failed)
    for block, is_chosen in zip(blocks, chosen):
        line, is_legal = judge_block(block)
        if not is_legal:
            return Ran((output + line).encode(), b"", 3), []
        output += line if is_chosen else ""
    if not all(any(takes(it, block.name) for block in blocks) for it in only):
        return refusal(ONLY), []
    return Ran(output.encode(), b"", 0), [reports.Told(it) for it, is_chosen in zip(blocks, chosen) if is_chosen]


def faults_of(program: str, words: List[str], given: bytes, wanted: Ran, told: List[reports.Told], form: str) -> List[str]:
    checked, ran = answer(program, given, "check", *words), answer(program, given, "report", f"--{form}", *words)
    faults = [] if checked == wanted else [f"check gave {checked}, and {wanted} is wanted"]
    if wanted.status:
        return faults + faults_in(Ran(b"", wanted.errors or b"ttrun: " + wanted.output.splitlines(keepends=True)[-1], 3), ran)
    return faults + reports.faults_of_forms(form, told, given, ran, b"", reports.status_for(told) if told else 0)


def faults_of_worked_texts(program: str, form: str) -> List[str]:
    """A form of each worked text, and of each that is refused."""
    faults: List[str] = []
    for name, options, given in [(name, options, text(given)) for name, options, given, _, __ in ROWS] + [it[:3] for it in REFUSED[:-1]]:
        words = options.replace("=", " ").split()
        wanted, told = wanted_of(given, [it for it in words if not it.startswith("--")], "--failed" in words, "--last" in words)
        faults += [f"{name}: {it}" for it in faults_of(program, words, given, wanted, told, form)]
    return faults


def random_text(chance: random.Random) -> bytes:
    """Some random histories, some of them with another verdict, and now and then a text that is cut."""
    blocks = []
    for number in chance.sample(range(12), chance.randint(1, 6)):
        block = reports.random_block(chance, number)[0]
        if chance.random() < 0.04:
            block = f"{block.rpartition('end ')[0]}end {chance.choice(VERDICTS)}\n"
        blocks += [block] * (2 if chance.random() < 0.1 else 1)
    given = "".join(blocks).encode()
    return given[:-4] if chance.random() < 0.03 else given


def faults_of_random_texts(program: str, seed: int) -> Iterator[str]:
    """Random histories and choices next to a choice made here."""
    chance, met = random.Random(f"chosen histories {seed}"), Counter()
    for at in range(400):
        given = random_text(chance)
        blocks = read_history(given)[0]
        only, failed = choice(chance, sorted({it.name for it in blocks}) or ["t1"]).only, chance.random() < 0.5
        last = chance.random() < 0.3
        words = [word for it in only for word in ("--only", it)] + ["--last"] * last
        words[chance.choice((0, len(words))):0] = ["--failed"] if failed else []
        wanted, told = wanted_of(given, only, failed, last)
        faults = faults_of(program, words, given, wanted, told, ("csv", "junit", "summary")[at % 3])
        yield from shown_with(faults, f"the words: {words}", f"the text: {given.decode()}")
        met["not counted"] += len(blocks) - len(counted(blocks, last))
        blocks = counted(blocks, last)
        illegal = [it for it in blocks if not judge_block(it)[1]][:1]
        met["names of none"] += wanted == refusal(ONLY)
        met["refused texts"] += bool(wanted.errors) and wanted != refusal(ONLY)
        met["illegal"] += bool(illegal)
        met["illegal and not chosen"] += bool(illegal) and not chosen_of(illegal, only, failed)[0]
        if not wanted.status:
            met["choices"] += 1
            met["left out"] += len(blocks) - len(told)
            met["left out of names"] += bool(only) and len(told) < len(blocks)
            met["left out of what failed"] += failed and not only and 0 < len(told) < len(blocks)
            met["both"] += failed and bool(only) and bool(told)
            met["nothing"] += not told
    yield from below(met, {"choices": 200, "left out": 200, "left out of names": 50, "left out of what failed": 15, "both": 25, "nothing": 20,
                           "names of none": 10, "not counted": 20, "illegal": 12, "illegal and not chosen": 4, "refused texts": 2})


# How many scripts are drawn, and the fewest choices, of each kind, that they have to reach.
RANDOM_SCRIPTS = 12
FEWEST = {"choices": 100, "empty choices": 5, "names": 40, "shards": 40, "names and shards": 15, "unknown names": 4, "live": 20, "stars": 30,
          "stars that take some": 10}

# Steps after which the verdict is the same in each run, with that verdict.
BODIES: Tuple[Tuple[str, str], ...] = (("setverdict pass", "pass"), ("setverdict fail", "fail"), ("setverdict inconc", "inconc"),
                                       ("getverdict", "none"), ("setverdict fail\nsetverdict pass", "fail"), ("create p\nalive p", "none"),
                                       ("stopcase", "error"), ("create p\nstart p other\nwait done p\nsetverdict pass", "inconc"))


@dataclass(frozen=True)
class Script:
    """A script's text, and the verdict of each of its test cases, by its name and in its order."""

    text: bytes
    verdicts: Dict[str, str]


def script(source: random.Random) -> Script:
    verdicts: Dict[str, str] = {}
    lines: List[str] = []
    for number in source.sample(range(100), source.randint(1, 9)):
        steps, verdict = source.choice(BODIES)
        name = f"t{number}"
        verdicts[name] = verdict
        lines += [f"testcase {name}", "behaviour main", *steps.split("\n"), "end"]
        if "start p other" in steps:
            lines += ["behaviour other", "setverdict inconc", "end"]
        lines.append("end")
    return Script(as_lines(*lines), verdicts)


def blocks_by_name(text: bytes) -> Dict[str, bytes]:
    """The block of each test case of a text of histories."""
    return {it.split()[1].decode(): b"history " + it for it in re.split(rb"(?m)^history ", text)[1:]}


def without_schedules(blocks: Dict[str, bytes]) -> Dict[str, bytes]:
    """The blocks, but of one in which a behaviour is started only the verdict: what runs first there differs from run to run."""
    return {name: block.splitlines()[-1] if b" start " in block else block for name, block in blocks.items()}


def faults_of_choice(program: str, given: Script, asked: Choice, source: random.Random, met: Counter) -> List[str]:
    names, words, live = list(given.verdicts), asked.words(source), ["--live"] if source.random() < 0.4 else []
    listed, ran, explored = (answer(program, given.text, *it, *words) for it in (("run", "--list"), ("run", "--history", *live), ("explore",)))
    has_stars = any("*" in it for it in asked.only)
    met["choices"] += 1
    met["live"] += bool(live)
    met["names"] += bool(asked.only)
    met["shards"] += bool(asked.shard)
    met["names and shards"] += bool(asked.only and asked.shard)
    met["stars"] += has_stars
    if asked.lacks(names):
        met["unknown names"] += 1
        return [f"{words}: {it}" for it in (listed, ran, explored) if it != refusal(ONLY)]
    chosen = asked.of(names)
    met["empty choices"] += not chosen
    met["stars that take some"] += has_stars and 0 < len(chosen) < len(names)
    status = max((status_of(given.verdicts[it]) for it in chosen), default=0)
    is_run = ([*blocks_by_name(ran.output)], ran.errors, ran.status) == (chosen, b"", status)
    is_right = {"list": listed == Ran(as_lines(*chosen), b"", 0), "run": is_run,
                "search": explored == Ran(as_lines(*(f"{it} {given.verdicts[it]} complete" for it in chosen)), b"", status if status == 2 else 0)}
    return [f"{words}, {chosen} were chosen: the {it} gave {listed}, {ran}, {explored}" for it, right in is_right.items() if not right]


def faults_of_shards(program: str, given: Script, shards: int) -> Iterator[str]:
    """What is wrong with the histories of all shards: after each other they are a text for `check`, of the whole campaign."""
    whole = answer(program, given.text, "run", "--history")
    parts = [answer(program, given.text, "run", "--history", "--shard", f"{number}/{shards}") for number in range(1, shards + 1)]
    text = b"".join(it.output for it in parts)
    checked = answer(program, text, "check")
    told = [line.split()[1].decode() for line in checked.output.splitlines()]
    if checked.status or checked.errors or sorted(told) != sorted(given.verdicts):
        yield f"{shards} shards: check gave {checked}"
    if without_schedules(blocks_by_name(text)) != without_schedules(blocks_by_name(whole.output)):
        yield f"{shards} shards: their histories are not those of the campaign"
    if max(it.status for it in parts) != whole.status:
        yield f"{shards} shards: the worst status is not {whole.status}"


def faults_of_choices(program: str, seed: int) -> Iterator[str]:
    source, met = random.Random(f"choosing {seed}"), Counter()
    for _ in range(RANDOM_SCRIPTS):
        given = script(source)
        for _ in range(10):
            yield from faults_of_choice(program, given, choice(source, list(given.verdicts)), source, met)
        yield from faults_of_shards(program, given, source.randint(1, 5))
    yield from below(met, FEWEST)


def of_histories() -> Iterator[Case]:
    for name, options, given, output, status in ROWS:
        yield Case(f"chosen_histories_{name}", ("check", *options.split()), text(given), text(output) if output else b"", status=status)
    for name, options, given, fault in REFUSED:
        yield refused(f"chosen_histories_{name}", ("check", *options.split()), given, fault)
    for words in (("check",), ("report", "--csv")):
        yield Case(f"a_name_that_is_nearly_one_{words[0]}_without_a_script", words + ("--explain", "--only", "t_one", "--only", "t_tow"), NEAR_TEXT,
                   b"", NEAR_TOLD, 3)
        yield Case(f"a_name_that_is_nearly_the_last_of_many_{words[0]}", words + ("--explain", "--only", "the_lats"), MANY_TEXT, b"", LAST_TOLD, 3)
        full = {"redirect": ">/dev/full"}
        yield refused(f"chosen_histories_{words[0]}_on_a_full_device", words + ("--only", "b"), text(EACH), "write fault", **full)
        yield refused(f"a_name_of_none_{words[0]}_on_a_full_device", words + ("--only", "d"), text(EACH), ONLY, **full)


def cases() -> Iterator[Case]:
    for name, only, chosen in PATTERNS:
        yield chosen_by(("run", "--list"), f"listed_by_{name}", only, chosen, "")
        yield chosen_by(("explore",), f"explored_by_{name}", only, chosen, " none complete")
    for name, only in NO_PATTERNS:
        for words in (("run",), ("explore",), ("check", "--script")):
            yield refused(f"no_pattern_of_{name}_{words[0]}", words + ("--only", only), b"not a script\n", ONLY)
    yield refused("a_pattern_of_many_stars", ("run", "--list", "--only", "a" + "*a" * 31 + "b"), text(SLOW), ONLY)
    yield Case("a_pattern_of_stars_that_matches", ("run", "--list", "--only", "*a" * 32), text(SLOW), output=b"a" * 32 + b"\n")
    yield from explained()
    yield from of_explore()
    yield from of_histories()


def judgements(seed: int) -> List[Judgement]:
    found = [Judgement(f"chosen_histories_as_{it}", f"ttrun report --{it} [--only NAME].. [--failed]", faults_of_worked_texts, (it,))
             for it in ("csv", "junit", "summary")]
    return [*found, Judgement(f"chosen_random_histories_{seed}", "ttrun check and report [--only NAME].. [--failed] < (random histories)",
                              faults_of_random_texts, (seed,)),
            Judgement(f"chosen_test_cases_{seed}", "ttrun run [--list], explore [--only NAME].. [--shard K/N] < (random scripts)", faults_of_choices, (seed,))]
