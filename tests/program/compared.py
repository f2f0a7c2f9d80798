"""Histories and evidence after their script: worked texts of `check --script`, and random campaigns whose blocks are changed, next
to a reading of their own. Their reports, by `report --script`, and what failed, which `run --failed` runs next to a choice made here."""
import random
import re
from collections import Counter
from dataclasses import dataclass, replace
from typing import Iterator, List, Optional, Tuple, Union

import reports
from case import Case, Judgement, Ran, answer, as_lines, below, faults_in, refusal, refused, shown_with
from courses import fault_of_course
from random_courses import drawn_campaign
from rows import ONLY, SHARD, text
from script_reader import Campaign, read_script
from table import VERDICTS
from texts import Block, Judged, check, judge_block, read_history

A = "testcase a;behaviour m;setverdict pass;end;end"
B = "testcase b;behaviour m;create p;start p other p mtc;wait done p;end;behaviour other q r;setverdict fail;end;end"
C = "testcase c;behaviour m;getverdict;end;end"
OF_A = "history 2 a 1;0 setverdict pass -> ok;0 finish -> ok;end pass"
OF_B = ("history 2 b 2;0 create -> made 1;0 start 1 1 1 0 -> ok;1 setverdict fail -> ok;1 finish -> ok;0 wait done 1 -> matched;"
        "0 finish -> ok;end fail")
OF_C = "evidence 1 c 1;behaviour 0 m;0 getverdict -> none;0 # nothing was set;0 finish -> ok;end none"
OF_D = OF_C.replace(" c ", " d ")
LESS_A = "history 2 a 1;0 finish -> ok;end none"
LEGAL_A, LEGAL_B, LEGAL_C = "legal a 2 pass", "legal b 6 fail", "legal c 2 none"
OTHER_ORDER = OF_B.replace("1 finish -> ok;0 wait done 1 -> matched", "0 wait done 1 -> parked;1 finish -> ok;0 wake done 1 -> matched")
SCRIPT = f"{A};{B};{C}"

# Name, blocks after the script of a, b and c, what is printed, status.
ROWS: List[Tuple[str, str, str, int]] = [
    ("each_once", f"{OF_A};{OF_B};{OF_C}", f"{LEGAL_A};{LEGAL_B};{LEGAL_C}", 0),
    ("another_schedule", f"{OF_A};{OTHER_ORDER};{OF_C}", f"{LEGAL_A};legal b 7 fail;{LEGAL_C}", 0),
    ("the_first_is_missing", f"{OF_B};{OF_C}", f"{LEGAL_B};{LEGAL_C};missing a", 3),
    ("the_last_is_missing", f"{OF_A};{OF_B}", f"{LEGAL_A};{LEGAL_B};missing c", 3),
    ("two_are_missing", OF_B, f"{LEGAL_B};missing a;missing c", 3),
    ("twice_in_turn", f"{OF_A};{OF_A};{OF_B};{OF_C}", f"{LEGAL_A};{LEGAL_A};{LEGAL_B};{LEGAL_C};twice a", 3),
    ("twice_apart", f"{OF_A};{OF_B};{OF_C};{OF_A}", f"{LEGAL_A};{LEGAL_B};{LEGAL_C};{LEGAL_A};twice a", 3),
    ("three_times", f"{OF_A};{OF_B};{OF_B};{OF_B};{OF_C}", f"{LEGAL_A};{LEGAL_B};{LEGAL_B};{LEGAL_B};{LEGAL_C};twice b;twice b", 3),
    ("two_in_the_wrong_order", f"{OF_B};{OF_A};{OF_C}", f"{LEGAL_B};{LEGAL_A};{LEGAL_C};out of order a", 3),
    ("all_in_the_wrong_order", f"{OF_C};{OF_B};{OF_A}", f"{LEGAL_C};{LEGAL_B};{LEGAL_A};out of order b;out of order a", 3),
    ("the_last_one_first", f"{OF_C};{OF_A};{OF_B}", f"{LEGAL_C};{LEGAL_A};{LEGAL_B};out of order a;out of order b", 3),
    ("of_no_test_case", f"{OF_A};{OF_B};{OF_D}", f"{LEGAL_A};{LEGAL_B};legal d 2 none;unknown d;missing c", 3),
    ("of_no_test_case_twice", f"{OF_A};{OF_B};{OF_C};{OF_D};{OF_D}",
     f"{LEGAL_A};{LEGAL_B};{LEGAL_C};legal d 2 none;legal d 2 none;unknown d;unknown d", 3),
    ("a_step_is_missing", f"history 2 a 1;0 finish -> ok;end none;{OF_B};{OF_C}", f"legal a 1 none;{LEGAL_B};{LEGAL_C};no course a", 3),
    ("the_end_is_missing", f"history 2 a 1;0 setverdict pass -> ok;end pass;{OF_B};{OF_C}", f"legal a 1 pass;{LEGAL_B};{LEGAL_C};no course a", 3),
    ("a_run_that_never_called", f"{OF_A};history 2 b 2;0 create -> made 1;0 start 1 1 -> ok;0 wait done 1 -> parked;end none;{OF_C}",
     f"{LEGAL_A};legal b 3 none;{LEGAL_C};no course b", 3),
    ("another_setting", f"history 2 a 1;0 setverdict fail -> ok;0 finish -> ok;end fail;{OF_B};{OF_C}",
     f"legal a 2 fail;{LEGAL_B};{LEGAL_C};no course a", 3),
    ("a_step_more", f"history 2 a 1;0 setverdict pass -> ok;0 getverdict -> pass;0 finish -> ok;end pass;{OF_B};{OF_C}",
     f"legal a 3 pass;{LEGAL_B};{LEGAL_C};no course a", 3),
    ("more_behaviours_than_the_script", f"{OF_A.replace('a 1', 'a 2')};{OF_B.replace('b 2', 'b 256')};{OF_C}", f"{LEGAL_A};{LEGAL_B};{LEGAL_C}", 0),
    ("fewer_behaviours_than_the_script", f"{OF_A};history 2 b 1;0 create -> made 1;0 start 1 1 1 0 -> error no-behaviour;end error;{OF_C}",
     f"{LEGAL_A};legal b 2 error;{LEGAL_C};no course b", 3),
    ("a_start_of_a_behaviour_that_the_script_has_not", f"{OF_A};history 2 b 3;0 create -> made 1;0 start 1 2 1 0 -> ok;2 setverdict fail -> ok;"
     f"2 finish -> ok;0 wait done 1 -> matched;0 finish -> ok;end fail;{OF_C}", f"{LEGAL_A};{LEGAL_B};{LEGAL_C};no course b", 3),
    ("the_last_argument_is_left_out", f"{OF_A};{OF_B.replace('1 1 1 0', '1 1 1')};{OF_C}", f"{LEGAL_A};{LEGAL_B};{LEGAL_C}", 0),
    ("all_arguments_are_left_out", f"{OF_A};{OF_B.replace('1 1 1 0', '1 1')};{OF_C}", f"{LEGAL_A};{LEGAL_B};{LEGAL_C}", 0),
    ("the_first_argument_is_left_out", f"{OF_A};{OF_B.replace('1 1 1 0', '1 1 0')};{OF_C}", f"{LEGAL_A};{LEGAL_B};{LEGAL_C};no course b", 3),
    ("another_last_argument", f"{OF_A};{OF_B.replace('1 1 1 0', '1 1 1 1')};{OF_C}", f"{LEGAL_A};{LEGAL_B};{LEGAL_C};no course b", 3),
    ("an_argument_more", f"{OF_A};{OF_B.replace('1 1 1 0', '1 1 1 0 0')};{OF_C}", f"{LEGAL_A};{LEGAL_B};{LEGAL_C};no course b", 3),
    ("arguments_and_behaviours_are_left_out", f"{OF_A};{OTHER_ORDER.replace('1 1 1 0', '1 1').replace('b 2', 'b 3')};{OF_C}",
     f"{LEGAL_A};legal b 7 fail;{LEGAL_C}", 0),
    ("no_entries", f"history 2 a 1;end none;{OF_B};{OF_C}", f"legal a 0 none;{LEGAL_B};{LEGAL_C};no course a", 3),
    ("another_verdict", f"{OF_A.replace('end pass', 'end fail')};{OF_B};{OF_C}", "line 4: fail, table gives pass;no course a", 3),
    ("another_reply", f"{OF_A};{OF_B};{OF_C.replace('getverdict -> none', 'getverdict -> pass')}",
     f"{LEGAL_A};{LEGAL_B};line 15: pass, table gives none;no course c", 3),
    ("an_illegal_block_and_a_missing_one", OF_A.replace("finish -> ok", "finish -> ended"),
     "line 3: ended, table gives ok;no course a;missing b;missing c", 3),
    ("a_block_that_is_twice_and_no_course", f"{OF_A};history 2 a 1;end none;{OF_B};{OF_C}",
     f"{LEGAL_A};legal a 0 none;{LEGAL_B};{LEGAL_C};twice a", 3),
    ("a_block_that_is_late_and_no_course", f"{OF_B};history 2 a 1;end none;{OF_C}", f"{LEGAL_B};legal a 0 none;{LEGAL_C};out of order a", 3),
]

# Name, the words of a choice, blocks after the script of a, b and c, what is printed, status.
CHOSEN: List[Tuple[str, str, str, str, int]] = [
    ("the_first_shard", "--shard 1/2", f"{OF_A};{OF_C}", f"{LEGAL_A};{LEGAL_C}", 0),
    ("the_second_shard", "--shard 2/2", OF_B, LEGAL_B, 0),
    ("a_block_of_another_shard", "--shard 1/2", f"{OF_A};{OF_B};{OF_C}", f"{LEGAL_A};{LEGAL_B};{LEGAL_C};unknown b", 3),
    ("the_blocks_of_another_shard", "--shard 2/2", f"{OF_A};{OF_C}", f"{LEGAL_A};{LEGAL_C};unknown a;unknown c;missing b", 3),
    ("the_last_of_a_shard_is_missing", "--shard 1/2", OF_A, f"{LEGAL_A};missing c", 3),
    ("a_shard_in_the_wrong_order", "--shard=1/2", f"{OF_C};{OF_A}", f"{LEGAL_C};{LEGAL_A};out of order a", 3),
    ("a_shard_without_test_cases", "--shard 4/4", OF_A, f"{LEGAL_A};unknown a", 3),
    ("one_of_three", "--only b", OF_B, LEGAL_B, 0),
    ("names_in_another_order", "--only c --only a", f"{OF_A};{OF_C}", f"{LEGAL_A};{LEGAL_C}", 0),
    ("a_block_in_the_order_of_the_names", "--only c --only a", f"{OF_C};{OF_A}", f"{LEGAL_C};{LEGAL_A};out of order a", 3),
    ("a_name_that_is_missing", "--only c --only a", OF_A, f"{LEGAL_A};missing c", 3),
    ("no_course_of_a_chosen_one", "--only a", "history 2 a 1;end none", "legal a 0 none;no course a", 3),
    ("the_last_of_a_name", "--last", f"{LESS_A};{OF_B};{OF_C};{OF_A}", f"{LEGAL_A};{LEGAL_B};{LEGAL_C}", 0),
    ("the_last_of_a_name_is_no_course", "--last", f"{OF_A};{OF_B};{OF_C};{LESS_A}", f"legal a 1 none;{LEGAL_B};{LEGAL_C};no course a", 3),
    ("the_last_of_a_name_is_late", "--last", f"{OF_B};{OF_C};{OF_A};{OF_B}", f"{LEGAL_B};{LEGAL_C};{LEGAL_A};out of order a", 3),
    ("the_last_of_an_unknown_name", "--last", f"{OF_A};{OF_B};{OF_C};{OF_D};{OF_D}", f"{LEGAL_A};{LEGAL_B};{LEGAL_C};legal d 2 none;unknown d", 3),
    ("one_that_is_not_legal_before_the_last", "--last", f"{OF_A.replace('end pass', 'end fail')};{OF_B};{OF_C};{OF_A}",
     f"{LEGAL_A};{LEGAL_B};{LEGAL_C}", 0),
    ("the_last_of_a_chosen_name", "--last --only a", f"{LESS_A};{OF_A}", LEGAL_A, 0),
    ("the_last_of_a_chosen_name_is_no_course", "--only a --last", f"{OF_A};{LESS_A}", "legal a 1 none;no course a", 3),
    ("the_last_of_a_shard", "--last --shard 1/2", f"{LESS_A};{OF_C};{OF_A}", f"{LEGAL_A};{LEGAL_C}", 0),
    ("the_last_shard_of_two_names", "--only a --only c --shard 2/2", OF_C, LEGAL_C, 0),
    ("the_first_shard_of_two_names", "--only a --only c --shard 1/2", OF_C, f"{LEGAL_C};unknown c;missing a", 3),
]

# Name, the words of a choice, text, the fault's line.
REFUSED_CHOICES: List[Tuple[str, str, bytes, str]] = [
    ("a_name_of_no_test_case", "--only d", text(f"{SCRIPT};{OF_A}"), ONLY),
    ("a_name_of_no_test_case_and_a_bad_block", "--only d", text(f"{SCRIPT};history 2 a 1;0 create"), ONLY),
    ("a_bad_script_and_a_name", "--only d", text(f"testcase a;behaviour m;setverdict good;end;end;{OF_A}"), "line 3: line not understood"),
    ("a_bad_block_of_another_shard", "--shard 2/2", text(f"{SCRIPT};history 2 a 1;0 create"), "line 2: bad entry"),
    ("a_name_that_is_none", "--only 1 --shard 1/2", text(SCRIPT), ONLY),
    ("a_bad_shard", "--only 1 --shard 0/2", text(SCRIPT), SHARD),
    ("no_block_of_an_empty_shard", "--shard 4/4", text(SCRIPT), "line 1: text ends too early"),
]

# Name, text, the fault's line.
REFUSED: List[Tuple[str, bytes, str]] = [
    ("no_input", b"", "line 1: text ends too early"),
    ("no_script", text(f"{OF_A}"), "line 1: text ends too early"),
    ("no_block", text(SCRIPT), "line 1: text ends too early"),
    ("a_script_with_a_fault", text(f"testcase a;behaviour m;setverdict good;end;end;{OF_A}"), "line 3: line not understood"),
    ("a_script_and_a_block_with_faults", text(f"testcase a;behaviour m;setverdict good;end;end;history 2 a 1;0 create"), "line 3: line not understood"),
    ("a_script_with_a_fault_and_no_block", text("testcase a;behaviour m;setverdict good;end;end"), "line 3: line not understood"),
    ("a_script_that_is_cut", text(f"testcase a;behaviour m;{OF_A}"), "line 3: text ends too early"),
    ("a_cut_block", text(f"{SCRIPT};{OF_A};history 2 b 2;0 create -> made 1"), "line 7: text ends too early"),
    ("a_bad_entry", text(f"{SCRIPT};{OF_A};history 2 b 2;0 create"), "line 6: bad entry"),
    ("a_script_behind_a_block", text(f"{A};{OF_A};{C}"), "line 5: bad first line"),
    ("a_space_before_a_block", text(f"{A}; {OF_A}"), "line 6: line not understood"),
    ("a_block_behind_no_line_feed", text(A)[:-1] + text(OF_A), "line 5: line not understood"),
]


def refused_texts(name: str, words: Tuple[str, ...], part_words: Tuple[str, ...] = ()) -> List[Case]:
    """Each text that is refused, with these words, or with others if test cases are chosen."""
    found = [refused(f"{name}_a_script_{it}", words, given, fault) for it, given, fault in REFUSED]
    return found + [refused(f"{name}_a_part_of_a_script_{it}", (*(part_words or words), *chosen.split()), given, fault)
                    for it, chosen, given, fault in REFUSED_CHOICES]


def notes_of(campaign: Campaign, blocks: List[Block]) -> List[str]:
    """What is wrong with the blocks as courses of the test cases, each once and in their order."""
    cases = {it.name: (at, it) for at, it in enumerate(campaign)}
    names = [it.name for it in blocks]
    notes: List[str] = []
    for number, block in enumerate(blocks):
        before = [cases[it][0] for it in names[:number] if it in cases]
        if block.name not in cases:
            notes.append(f"unknown {block.name}")
        elif block.name in names[:number]:
            notes.append(f"twice {block.name}")
        elif any(it > cases[block.name][0] for it in before):
            notes.append(f"out of order {block.name}")
        elif fault_of_course(cases[block.name][1], block):
            notes.append(f"no course {block.name}")
    return notes + [f"missing {it.name}" for it in campaign if it.name not in names]


def wanted_of(campaign: Campaign, behind: bytes) -> Union[Ran, Judged]:
    """What `check --script` answers to these blocks after their script."""
    blocks, refused_as = read_history(behind)
    if refused_as is not None:
        return refused_as
    legal, notes = check(behind), notes_of(campaign, blocks)
    return Ran(legal.output + as_lines(*notes), b"", 3 if notes else legal.status)


def changed(chance: random.Random, blocks: List[List[bytes]]) -> List[List[bytes]]:
    """The blocks with some change or other."""
    found, at = [list(it) for it in blocks], chance.randrange(len(blocks))
    drawn = chance.randrange(11)
    if drawn == 0:
        del found[at]
    elif drawn == 1:
        found.insert(chance.randrange(len(found) + 1), list(found[at]))
    elif drawn == 2:
        other = chance.randrange(len(found))
        found[at], found[other] = found[other], found[at]
    elif drawn == 3:
        found[at][0] = found[at][0].replace(b" t", b" u")
    elif drawn == 4:
        other = chance.randrange(len(found))
        found[at] = [found[at][0], *found[other][1:]]
    elif drawn == 5 and len(found[at]) > 2:
        del found[at][chance.randrange(1, len(found[at]) - 1)]
    elif drawn == 6 and len(found[at]) > 3:
        one = chance.randrange(1, len(found[at]) - 2)
        found[at][one], found[at][one + 1] = found[at][one + 1], found[at][one]
    elif drawn == 7:
        found[at][0] = re.sub(rb"\d+\n", b"%d\n" % chance.choice((1, 2, 3, 256)), found[at][0])
    elif drawn == 8:
        found[at] = [re.sub(rb"( start \d+ \d+.*?)( \d+)?( -> .*)", chance.choice((rb"\1\3", rb"\1\2\2\3", rb"\1 0\2\3")), it) for it in found[at]]
    elif drawn == 9:
        found[at][-1] = f"end {chance.choice(VERDICTS)}\n".encode()
    return found


@dataclass(frozen=True)
class Choice:
    """The words of a choice; a `*` in a name matches any letters, or none."""

    only: Tuple[str, ...]
    shard: Optional[Tuple[int, int]]

    def words(self, source: random.Random) -> List[str]:
        """The options that ask for it, each name in one word with its option or after it."""
        spelled = [["--only", name] if source.random() < 0.5 else [f"--only={name}"] for name in self.only]
        if self.shard:
            word = f"{self.shard[0]}/{self.shard[1]}"
            spelled.insert(source.randint(0, len(spelled)), ["--shard", word] if source.random() < 0.5 else [f"--shard={word}"])
        return [word for words in spelled for word in words]

    def lacks(self, names: List[str]) -> bool:
        return not all(any(takes(it, name) for name in names) for it in self.only)

    def of(self, names: List[str]) -> List[str]:
        named = [name for name in names if not self.only or any(takes(it, name) for it in self.only)]
        if self.shard is None:
            return named
        number, shards = self.shard
        return named[number - 1::shards]


def takes(pattern: str, name: str) -> bool:
    return re.fullmatch(pattern.replace("*", ".*"), name) is not None


def starred(source: random.Random, name: str) -> str:
    """A pattern that the name or another one like it matches: a part of the name is a star, or two are, or a star is put in."""
    for _ in range(source.randint(1, 2)):
        at = source.randint(0, len(name))
        name = name[:at] + "*" + name[source.randint(at, len(name)):]
    return name


def choice(source: random.Random, names: List[str]) -> Choice:
    """A random choice; now and then of a name that no test case has."""
    only = source.sample(names, source.randint(1, len(names))) if source.random() < 0.6 else []
    if only and source.random() < 0.3:
        only.append(source.choice(only))
    if source.random() < 0.15:
        only.insert(source.randint(0, len(only)), source.choice(("t100", "T", "t")))
    only = [starred(source, name) if source.random() < 0.3 else name for name in only]
    shards = source.randint(1, 5)
    return Choice(tuple(only), (source.randint(1, shards), shards) if source.random() < 0.6 else None)


def drawn_choice(chance: random.Random, campaign: Campaign, blocks: List[List[bytes]]) -> Tuple[Choice, Campaign, List[List[bytes]]]:
    """A choice, or none; the test cases that it takes; and usually only the blocks of these."""
    names = [it.name for it in campaign]
    asked = choice(chance, names) if chance.random() < 0.5 else Choice((), None)
    taken = asked.of(names)
    if chance.random() < 0.7:
        blocks = [it for it in blocks if it[0].split()[2].decode() in taken] or blocks
    return asked, [it for it in campaign if it.name in taken], blocks


@dataclass
class Compared:
    """Blocks after the script of a campaign, with a choice: its words, and the test cases that it takes."""

    script: bytes
    behind: bytes
    asked: Choice
    words: List[str]
    taken: Campaign
    lacks: bool

    def answer(self, program: str, *words: str) -> Ran:
        """What the program gives for the script and the blocks with these words and those of the choice."""
        return answer(program, self.script + self.behind, *words, *self.words)

    def shown(self) -> List[str]:
        return [f"the choice: {self.asked}", f"the text: {(self.script + self.behind).decode()}"]


def drawn_comparisons(chance: random.Random, program: str, scripts: int, texts: int, changes: Tuple[int, ...]) -> Iterator[Compared]:
    """Texts of what real runs of random scripts wrote, some of them with changes and choices, after their scripts."""
    for _ in range(scripts):
        script, campaign = drawn_campaign(chance, chance.choice((1, 3, 6)))
        history = answer(program, script, "run", chance.choice(("--history", "--evidence"))).output
        written = [it.splitlines(keepends=True) for it in re.split(rb"(?m)^(?=history |evidence )", history)[1:]]
        for _ in range(texts):
            asked, taken, blocks = drawn_choice(chance, campaign, written)
            for _ in range(chance.choice(changes)):
                blocks = changed(chance, blocks) or blocks
            behind = b"".join(b"".join(it) for it in blocks)
            yield Compared(script, behind, asked, asked.words(chance), taken, asked.lacks([it.name for it in campaign]))


def runs_and_changed_runs(program: str, seed: int) -> Iterator[str]:
    """What real runs wrote is found whole, and what was changed of it is found wrong as by the tests' own reading."""
    chance, met = random.Random(f"compared {seed}"), Counter()
    for _ in range(60):
        script, _ = drawn_campaign(chance, chance.choice((1, 3, 6)))
        history = answer(program, script, "run", "--history").output
        faults = faults_in(check(history), answer(program, script + history, "check", "--script"))
        yield from shown_with(faults, f"what a run wrote: {(script + history).decode()}")
        met["entries"] += len(history.splitlines())
    for it in drawn_comparisons(chance, program, 60, 8, (0, 1, 1, 2, 3)):
        ran = it.answer(program, "check", "--script")
        yield from shown_with(faults_in(refusal(ONLY) if it.lacks else wanted_of(it.taken, it.behind), ran), *it.shown())
        met["names of none"] += it.lacks
        met["texts"] += 1
        met["choices"] += bool(it.words)
        met["right choices"] += bool(it.words) and ran.status == 0
        met["right"] += ran.status == 0
        met.update(line.rpartition(" ")[0] for line in ran.output.decode().splitlines() if not line.startswith(("legal", "line")))
    yield from below(met, {"texts": 400, "right": 20, "choices": 100, "right choices": 20, "names of none": 5, "entries": 1500,
                           "missing": 60, "twice": 30, "out of order": 15, "unknown": 40, "no course": 60})


def witnesses_are_courses(program: str, seed: int) -> List[str]:
    """Each witness of `explore --history` is a course of its script: the first of each test case is found right."""
    script, _ = drawn_campaign(random.Random(f"witnesses {seed}"), 300)
    history = answer(program, script, "explore", "--history").output
    lines = answer(program, script + history, "check", "--script").output.decode().splitlines()
    wrong = [it for it in lines if not it.startswith(("legal ", "twice "))]
    return wrong[:5] + below(Counter(it.split()[0] for it in lines), {"legal": 300, "twice": 30})


def long_input(cases: int) -> Case:
    names = [f"t{at}" for at in range(cases)]
    script, blocks = b"".join(text(A.replace(" a;", f" {it};")) for it in names), b"".join(text(OF_A.replace(" a ", f" {it} ")) for it in names)
    return Case("script_of_many_test_cases", ("check", "--script"), script + blocks, as_lines(*(f"legal {it} 2 pass" for it in names)))


HEADER = "testcase,components,none,pass,inconc,fail,error,verdict"
ROW_A, ROW_B, ROW_C = "a,1,0,1,0,0,0,pass", "b,2,1,0,0,1,0,fail", "c,1,1,0,0,0,0,none"
OPEN_A = "history 2 a 1;0 setverdict pass -> ok;end pass"
MISSING = "0,0,0,0,0,0,missing"

# Name, the words of a choice, blocks after the script of a, b and c, the records of the table, what is printed on standard error,
# status.
TABLES: List[Tuple[str, str, str, str, str, int]] = [
    ("each_once", "", f"{OF_A};{OF_B};{OF_C}", f"{ROW_A};{ROW_B};{ROW_C}", "", 1),
    ("the_first_is_missing", "", f"{OF_B};{OF_C}", f"{ROW_B};{ROW_C};a,{MISSING}", "missing a", 3),
    ("the_last_is_missing", "", f"{OF_A};{OF_B}", f"{ROW_A};{ROW_B};c,{MISSING}", "missing c", 3),
    ("two_are_missing", "", OF_B, f"{ROW_B};a,{MISSING};c,{MISSING}", "missing a;missing c", 3),
    ("a_pass_and_two_are_missing", "", OF_A, f"{ROW_A};b,{MISSING};c,{MISSING}", "missing b;missing c", 3),
    ("three_times", "", f"{OF_A};{OF_A};{OF_B};{OF_A};{OF_C}", f"{ROW_A};{ROW_A};{ROW_B};{ROW_A};{ROW_C}", "twice a;twice a", 3),
    ("the_last_of_a_name", "--last", f"{LESS_A};{OF_B};{OF_C};{OF_A}", f"{ROW_A};{ROW_B};{ROW_C}", "", 1),
    ("the_last_of_a_name_and_one_is_missing", "--last", f"{LESS_A};{OF_C};{OF_A}", f"{ROW_A};{ROW_C};b,{MISSING}", "missing b", 3),
    ("the_last_of_a_chosen_name", "--last --only a", f"{LESS_A};{OF_A}", ROW_A, "", 0),
    ("the_last_of_a_shard", "--shard 1/2 --last", f"{LESS_A};{OF_C};{OF_A}", f"{ROW_A};{ROW_C}", "", 0),
    ("in_the_wrong_order", "", f"{OF_C};{OF_A};{OF_B}", f"{ROW_C};{ROW_A};{ROW_B}", "out of order a;out of order b", 3),
    ("of_no_test_case", "", f"{OF_A};{OF_B};{OF_C.replace(' c ', ' d ')}", f"{ROW_A};{ROW_B};{ROW_C.replace('c', 'd', 1)};c,{MISSING}", "unknown d;missing c", 3),
    ("no_course", "", f"{LESS_A};{OF_B};{OF_C}", f"a,1,1,0,0,0,0,none;{ROW_B};{ROW_C}", "no course a", 3),
    ("not_over", "", f"{OPEN_A};{OF_B};{OF_C}", f"a,1,0,1,0,0,0,unfinished;{ROW_B};{ROW_C}", "no course a", 3),
    ("a_shard", "--shard 1/2", f"{OF_A};{OF_C}", f"{ROW_A};{ROW_C}", "", 0),
    ("a_shard_that_lacks_one", "--shard 1/2", OF_C, f"{ROW_C};a,{MISSING}", "missing a", 3),
    ("a_block_of_another_shard", "--shard 2/2", f"{OF_A};{OF_B}", f"{ROW_A};{ROW_B}", "unknown a", 3),
    ("names", "--only c --only a", f"{OF_A};{OF_C}", f"{ROW_A};{ROW_C}", "", 0),
    ("names_of_which_one_is_missing", "--only c --only b", OF_C, f"{ROW_C};b,{MISSING}", "missing b", 3),
]

RUN_A = '<testcase name="a" classname="ttrun">\n<system-out>\n  pass: mtc\n</system-out>\n</testcase>\n'
RUN_C = '<testcase name="c" classname="ttrun">\n<skipped/>\n<system-out>\n  none: mtc\n</system-out>\n</testcase>\n'
NO_RUN = ('<testcase name="{}" classname="ttrun">\n<error type="missing" message="there is no history of the test case"/>\n'
          '<system-out>\n</system-out>\n</testcase>\n')

# Name, blocks, the elements of the test cases that were run, the names of those that are missing, the counts.
SUITES: List[Tuple[str, str, Tuple[str, ...], Tuple[str, ...], str]] = [
    ("one_is_missing", f"{OF_A};{OF_C}", (RUN_A, RUN_C), ("b",), 'tests="3" failures="0" errors="1" skipped="1"'),
    ("two_are_missing", OF_A, (RUN_A,), ("b", "c"), 'tests="3" failures="0" errors="2" skipped="0"'),
]


def faults_of_report(program: str, form: str, words: List[str], script: bytes, campaign: Campaign, behind: bytes) -> Tuple[List[str], Ran]:
    """What is wrong with the report of these blocks after their script, of which these test cases are chosen."""
    ran = answer(program, script + behind, "report", f"--{form}", "--script", *words)
    (blocks, refused_as), judged = read_history(behind), check(behind)
    if refused_as is not None or judged.status:
        line = refused_as.errors if refused_as else b"ttrun: " + judged.output.splitlines(keepends=True)[-1]
        return faults_in(Ran(b"", line, 3), ran), ran
    notes, names = notes_of(campaign, blocks), [it.name for it in blocks]
    told = reports.blocks_of(behind) + [reports.bare_case(it.name, "missing") for it in campaign if it.name not in names]
    return reports.faults_of_forms(form, told, behind, ran, as_lines(*notes), 3 if notes else reports.status_for(told)), ran


def faults_of_worked_blocks(program: str, form: str) -> List[str]:
    """A form of each text of blocks that `check --script` is tested on."""
    campaign = read_script(text(SCRIPT))
    return [f"{name}: {it}" for name, blocks, _, _ in ROWS for it in faults_of_report(program, form, [], text(SCRIPT), campaign, text(blocks))[0]]


def faults_of_suite(program: str, blocks: str, elements: Tuple[str, ...], missing: Tuple[str, ...], counts: str) -> List[str]:
    """A JUnit report, byte by byte except the version."""
    ran = answer(program, text(f"{SCRIPT};{blocks}"), "report", "--script", "--junit")
    cases = "".join([*elements, *map(NO_RUN.format, missing)])
    wanted = (f'<?xml version="1.0" encoding="UTF-8"?>\n<testsuites {counts}>\n<testsuite name="ttrun" {counts}>\n'
              f'<properties>\n<property name="version" value="{reports.version_in(ran.output)}"/>\n</properties>\n{cases}</testsuite>\n</testsuites>\n')
    return faults_in(Ran(wanted.encode(), as_lines(*(f"missing {it}" for it in missing)), 3), ran)


def faults_of_random_campaigns(program: str, seed: int) -> Iterator[str]:
    """Forms of real runs and of what was changed of them, with choices, as by the tests' own making."""
    chance, met = random.Random(f"compared reports {seed}"), Counter()
    for it in drawn_comparisons(chance, program, 60, 6, (0, 0, 1, 1, 2)):
        form = chance.choice(reports.FORMS)
        if it.lacks:
            faults = faults_in(refusal(ONLY), it.answer(program, "report", f"--{form}", "--script"))
        else:
            faults, ran = faults_of_report(program, form, it.words, it.script, it.taken, it.behind)
            met[form] += 1
            met["whole"] += ran.status < 3
            met["failed"] += ran.status in (1, 2)
            met["nothing"] += not ran.output
            met.update(line.rpartition(" ")[0] for line in ran.errors.decode().splitlines())
        yield from shown_with(faults, *it.shown())
    yield from below(met, {**dict.fromkeys(reports.FORMS, 40), "whole": 40, "failed": 10, "nothing": 5, "missing": 12, "twice": 5, "out of order": 3,
                           "unknown": 10, "no course": 5})


BAD_A = OF_A.replace("-> ok", "-> none", 1)
PASS_OF_B = OF_B.replace("fail", "pass")
FAILED_A = "history 2 a 1;0 setverdict fail -> ok;0 finish -> ok;end fail"
NOT_OF_C = OF_C.replace(" c ", " d ")

# Name, the words of a choice, blocks after the script of a, b and c, the names of the test cases that are run.
LISTS: List[Tuple[str, str, str, str]] = [
    ("what_is_not_pass_or_none", "", f"{OF_A};{OF_B};{OF_C}", "b"),
    ("what_is_missing", "", f"{OF_A};{OF_B}", "b;c"),
    ("all_but_one", "", OF_C, "a;b"),
    ("nothing_failed", "", f"{OF_A};{PASS_OF_B};{OF_C}", ""),
    ("inconc", "", f"{OF_A};{OF_B.replace('fail', 'inconc')};{OF_C}", "b"),
    ("error", "", f"{OF_A};{OF_B};history 2 c 1;0 stopcase -> ok;end error", "b;c"),
    ("twice_with_one_failure", "", f"{OF_A};{FAILED_A};{OF_B};{OF_C}", "a;b"),
    ("twice_with_one_failure_first", "", f"{FAILED_A};{OF_A};{OF_B};{OF_C}", "a;b"),
    ("twice_without_failure", "", f"{OF_A};{OF_A};{OF_B};{OF_C}", "b"),
    ("another_order", "", f"{OF_C};{OF_B};{OF_A}", "b"),
    ("a_name_of_no_test_case", "", f"{NOT_OF_C};{OF_A};{OF_B}", "b;c"),
    ("not_legal", "", f"{PASS_OF_B};{OF_C};{BAD_A}", "a"),
    ("not_legal_by_its_verdict", "", f"{OF_A};{OF_B.replace('end fail', 'end pass')};{OF_C}", "b"),
    ("behind_one_that_is_not_legal", "", f"{BAD_A};{PASS_OF_B}", "a;c"),
    ("twice_and_once_legal", "", f"{OF_A};{BAD_A};{OF_C}", "a;b"),
    ("twice_and_the_last_passed", "--last", f"{FAILED_A};{OF_B};{OF_C};{OF_A}", "b"),
    ("twice_and_the_last_failed", "--last", f"{OF_A};{PASS_OF_B};{OF_C};{FAILED_A}", "a"),
    ("twice_and_the_last_is_legal", "--last", f"{BAD_A};{OF_A};{OF_C}", "b"),
    ("twice_and_the_last_is_not_legal", "--last", f"{OF_A};{OF_C};{PASS_OF_B};{BAD_A}", "a"),
    ("all_passed_at_last", "--last", f"{FAILED_A};{OF_B};{OF_C};{OF_A};{PASS_OF_B}", ""),
    ("some_names_at_last", "--last --only a --only b", f"{OF_A};{FAILED_A};{PASS_OF_B}", "a"),
    ("a_shard_at_last", "--shard 1/2 --last", f"{FAILED_A};{OF_C};{OF_A}", ""),
    ("of_some_names", "--only a --only b", OF_A, "b"),
    ("of_a_name_that_passed", "--only a", f"{OF_A};{OF_B}", ""),
    ("of_a_shard", "--shard 1/2", OF_C, "a"),
    ("of_the_other_shard", "--shard 2/2", f"{OF_A};{OF_C}", "b"),
    ("of_a_shard_of_names", "--only c --shard 1/1 --only b", PASS_OF_B, "c"),
]

# Name, options, blocks after the script, output, status.
RUNS: List[Tuple[str, str, str, str, int]] = [
    ("one", "--csv", f"{OF_A};{OF_B};{OF_C}", f"{HEADER};b,2,1,0,0,1,0,fail", 1),
    ("two", "--csv --live", PASS_OF_B, f"{HEADER};a,1,0,1,0,0,0,pass;c,1,1,0,0,0,0,none", 0),
    ("none", "--csv", f"{OF_A};{PASS_OF_B};{OF_C}", HEADER, 0),
    ("up_to_a_rule", "--csv --stop-on pass", OF_C, f"{HEADER};a,1,0,1,0,0,0,pass", 0),
]


def counted(blocks: List[Block], last: bool) -> List[Block]:
    """The last of each name, in the order in which the names come first; or all."""
    return list({it.name: it for it in blocks}.values()) if last else blocks


def not_passed(names: List[str], blocks: List[Block]) -> List[str]:
    """Those of the names that have no block, or one that is not legal or has a verdict other than none and pass."""
    found = []
    for name in names:
        passed = [it.verdict in ("none", "pass") and judge_block(it)[1] for it in blocks if it.name == name]
        if not passed or not all(passed):
            found.append(name)
    return found


def faults_of_what_failed(program: str, seed: int) -> Iterator[str]:
    """What real runs wrote, and what was changed of it, next to a choice by the texts."""
    chance, met = random.Random(f"failed {seed}"), Counter()
    for it in drawn_comparisons(chance, program, 30, 6, (0, 1, 1, 2)):
        read, refused_as = read_history(it.behind)
        if it.lacks:
            wanted = refusal(ONLY)
        elif refused_as is not None:
            wanted = refused_as
            met["refused"] += 1
        else:
            taken = [case.name for case in it.taken]
            names = not_passed(taken, read)
            wanted = Ran(as_lines(*names), b"", 0)
            again = replace(it, behind=it.behind + answer(program, it.script, "run", "--history").output)
            both, _ = read_history(again.behind)
            at_last = not_passed(taken, counted(both, True))
            yield from shown_with(faults_in(Ran(as_lines(*at_last), b"", 0), again.answer(program, "run", "--list", "--failed", "--last")), *again.shown())
            met["passed at last"] += at_last != not_passed(taken, both)
            met["lists"] += 1
            met["left out"] += len(it.taken) - len(names)
            met["failed"] += sum(any(block.name == name for block in read) for name in names)
            met["illegal"] += sum(not judge_block(block)[1] for block in read)
            met["missing"] += sum(all(block.name != name for block in read) for name in names)
        yield from shown_with(faults_in(wanted, it.answer(program, "run", "--list", "--failed")), *it.shown())
    yield from below(met, {"lists": 100, "left out": 40, "failed": 40, "illegal": 8, "missing": 8, "passed at last": 5})


def of_a_long_text() -> Case:
    """A script and evidence that are longer together than a script may be."""
    remark = f"0 # {'x' * 190}"
    behind = f"evidence 1 a 1;0 setverdict pass -> ok;{';'.join([remark] * 6_000)};0 finish -> ok;end pass"
    return Case("failed_after_a_long_text", ("run", "--list", "--failed"), text(f"{SCRIPT};{behind}"), text("b;c"))


def failed_cases() -> List[Case]:
    words = ("run", "--failed")
    found = [Case(f"failed_{name}", ("run", "--list", "--failed", *chosen.split()), text(f"{SCRIPT};{blocks}"), text(names) if names else b"")
             for name, chosen, blocks, names in LISTS]
    found += [Case(f"failed_and_run_{name}", (*words, *options.split()), text(f"{SCRIPT};{blocks}"), text(output), status=status)
              for name, options, blocks, output, status in RUNS]
    found += [refused(f"failed_{it}_{name}", (*words, *(("--list",) if it == "listed" else ())), given, fault)
              for it in ("run", "listed") for name, given, fault in REFUSED]
    found += [refused(f"failed_of_a_part_{name}", (*words, *chosen.split()), given, fault) for name, chosen, given, fault in REFUSED_CHOICES]
    given = text(f"{SCRIPT};{FAILED_A};{PASS_OF_B};{OF_A}")
    return [*found, of_a_long_text(), Case("explored_at_last", ("explore", "--failed", "--last"), given, b"c none complete\n")]


def report_cases() -> List[Case]:
    words = ("report", "--csv", "--script")
    found = [Case(f"report_beside_a_script_{name}", (*words, *chosen.split()), text(f"{SCRIPT};{blocks}"),
                  text(f"{HEADER};{records}"), text(errors) if errors else b"", status) for name, chosen, blocks, records, errors, status in TABLES]
    full = refused("report_beside_a_script_on_a_full_device", words, text(f"{SCRIPT};{OF_A}"), "write fault", redirect=">/dev/full")
    return [*found, *refused_texts("report_beside", ("report", "--script", "--junit"), words), full]


def cases() -> List[Case]:
    words = ("check", "--script")
    chosen = [(f"beside_a_script_{name}", "", *row) for name, *row in ROWS] + [(f"beside_a_part_of_a_script_{name}", *row) for name, *row in CHOSEN]
    found = [Case(name, (*words, *choice.split()), text(f"{SCRIPT};{given}"), text(output), status=status)
             for name, choice, given, output, status in chosen]
    return [*found, *refused_texts("beside", words), long_input(1_000), *report_cases(), *failed_cases()]


def judgements(seed: int) -> List[Judgement]:
    found = [Judgement(f"report_beside_a_script_of_worked_blocks_{it}", f"ttrun report --script --{it}", faults_of_worked_blocks, (it,))
             for it in reports.FORMS]
    found += [Judgement(f"suite_beside_a_script_{name}", "ttrun report --script --junit", faults_of_suite, tuple(kept)) for name, *kept in SUITES]
    seeded = (("reports_of_random_campaigns_beside_their_script", "ttrun report --script < (random scripts and runs)", faults_of_random_campaigns),
              ("runs_and_changed_runs_beside_their_script", "ttrun check --script < (random scripts and runs)", runs_and_changed_runs),
              ("runs_of_what_failed", "ttrun run --list --failed < (random scripts and runs)", faults_of_what_failed),
              ("witnesses_are_courses", "ttrun explore --history, and check --script", witnesses_are_courses))
    return found + [Judgement(f"{name}_{seed}", command, judge, (seed,)) for name, command, judge in seeded]
