"""Command lines: help in all its spellings, and words that are refused before any input is read."""
import re
import shlex
from typing import Iterator, List, Tuple, Union

from case import Case, Judgement, SomeText, Word, answer, as_lines, joined, refused
from harness import text_of
from rows import ONLY, SHARD, STOP_ON, blocks_of, text

COMMANDS = ("run", "serve", "check", "replay", "explore", "report", "model", "\n  ttrun run < FILE\nNo argument at all means run.\n",
            "Each command reads standard input and writes standard output:\n",
            "Status of run, serve, replay and report: 0 for none and pass, 1 for inconc and\nfail, 2 for error.\n",
            "Status of check: 0 if each history is legal.\n", "Status of model: 0 if each chosen history has a model.\n",
            "Status of explore: 0 if each test case has one verdict, 1 if one has several,\n2 if one has no verdict but error.\n",
            "3 says that a test case was aborted, a history is not legal, or a search met\nits limit;"
            " or that the arguments or the input were refused, memory ran out, or\n"
            "standard input or output failed: standard error says which.\n")
EXPLAIN = "says more of the fault of a refused text\n"
NO_EXPLAIN = "says no more of it, also at a terminal\n"
# A line for each option, as it is in the help.
ALL_OPTIONS = ("runs the campaign of a script, and writes its report\n",
               "  --csv                    writes the report as CSV\n",
               "  --history                writes the histories of the test cases\n",
               "  --evidence               writes histories with the names of behaviours\n",
               "  --junit                  writes the report as a JUnit suite\n",
               "  --suite <NAME>           calls the JUnit suite NAME instead of ttrun\n",
               "  --times                  gives the JUnit suite times\n",
               "  --live                   writes each test case as it finishes\n",
               "  --progress [<failures>]  reports all, or failures, on standard error\n",
               "  --stop-on <VERDICT>      ends after a test case of this verdict or worse\n",
               "  --list                   prints the names of test cases, and runs none\n",
               "  --only <NAME>            runs this test case; may be given several times\n",
               "  --shard <K/N>            runs the K-th of N shards of the test cases\n",
               "  --failed                 leaves out what passed by evidence in the input\n",
               "  --last                   counts only the last history of each name\n",
               "  --explain                " + EXPLAIN, "  --no-explain             " + NO_EXPLAIN,
               "Standard input is a script: ttrun run < FILE. Standard output is the report.\n"
               "With --failed it is a script, and after it histories or evidence of its test\n"
               "cases: cat FILE EVIDENCE | ttrun run --failed runs those that are missing, are\n"
               "not legal, or have a verdict other than none and pass. With --last only the\nlast of each name counts.\n",
               "VERDICT is none, pass, inconc, fail or error. A * in NAME stands for any\nletters, or none: --only 't_*'."
               " --shard K/N runs every N-th of the chosen test\ncases, from the K-th on. --list takes no form, no --live, no --progress"
               " and no\n--stop-on, and --junit is not taken with --live.\n",
               "Status: 0 for none and pass, 1 for inconc and fail, 2 for error, 3 for an\nabort or a refusal.\n")
EXPLORE = ("looks for every overall verdict that a test case can have\n",
           "  --history      writes a history for each verdict that was found\n",
           "  --evidence     writes these histories with the names of behaviours\n",
           "  --details      says where schedules part and who waits for whom\n",
           "  --locals       says which local verdicts are not always the same\n",
           "  --states <N>   looks at N states of a test case at most\n",
           "  --only <NAME>  explores this test case; may be given again, for others\n",
           "  --shard <K/N>  explores the K-th of N shards of the test cases\n",
           "  --failed       leaves out what passed by evidence in the input\n",
           "  --last         counts only the last history of each name\n",
           "  --explain      " + EXPLAIN, "  --no-explain   " + NO_EXPLAIN,
           "Standard input is a script: ttrun explore < FILE. Standard output is a line\n"
           "for each test case: its name, the verdicts found, and how the search ended.\n"
           "N is from 1 to 1000000, and 100000 without --states. --only, --shard and\n--failed choose test cases as those of run do, with --last too.\n",
           "Status: 0 if each test case has one verdict, 1 if one has several, 2 if one\nhas no verdict but error, 3 if a search met its limit, or for a refusal.\n")
# The options of `report` and `check`, each with a column of its own width.
OF_HISTORIES = (("--script", "reads their script first, and compares them with it\n"), ("--only <NAME>", "chooses this test case; may be given again, for others\n"),
                ("--shard <K/N>", "awaits the K-th of N shards of the test cases\n"), ("--failed", "leaves out what has the verdict none or pass\n"),
                ("--last", "counts only the last history of each name\n"), ("--long", "takes any number of histories, 16 MiB each at most\n"),
                ("--explain", EXPLAIN), ("--no-explain", NO_EXPLAIN))
REPORT = ("reads histories, and writes them in one of these forms\n",
          "  --text          writes the text report\n",
          "  --csv           writes a table as CSV\n", "  --junit         writes a JUnit suite\n",
          "  --suite <NAME>  calls the JUnit suite NAME instead of ttrun\n",
          "  --html          writes a page for a browser\n",
          "  --summary       writes the counts, and why test cases failed\n",
          *(f"  {option:16}{said}" for option, said in OF_HISTORIES),
          "Standard input is histories or evidence: ttrun report --csv < FILE. Nothing is\n"
          "written to standard output if one of them is not legal. --only and --failed\n"
          "choose as those of check do, with --last too, but not for --html. With\n"
          "--script the input is what check --script reads, and --only and --shard choose\n"
          "as there. Test cases that are missing come last, and the lines of check\n"
          "--script go to standard error. --long is as for check, without --text and\n--html.\n",
          "Status: 0 for none and pass, 1 for inconc and fail, 2 for error and for a test\n"
          "case that is not over, 3 if a history is not legal, for such a line, or for a\nrefusal.\n")
CHECK = ("replays histories and evidence, and says which are legal\n",
         *(f"  {option:15}{said}" for option, said in OF_HISTORIES),
         "Standard input is histories or evidence: ttrun check < FILE. Standard output\n"
         "has a line for each, and none after the first that is not legal. --only, as\n"
         "for run, and --failed leave out lines of legal ones. With --last only the last\nof each name counts."
         " With --long the input may have any length, and each\nhistory 16 MiB; no fault is explained.\n"
         "With --script the input is a script, and after it histories or evidence of its\n"
         "test cases: cat FILE EVIDENCE | ttrun check --script. With --only and --shard,\n"
         "as for run, it is as if the script had only these test cases. --failed is not\n"
         "taken with it. After the lines of check a line says\n",
         "  unknown NAME       the script has no test case NAME\n", "  twice NAME         NAME came before\n",
         "  out of order NAME  a later test case came before\n",
         "  no course NAME     this is no complete course of the scripts of NAME\n",
         "  missing NAME       there is nothing of NAME\n",
         "Status: 0 if each history is legal, and with --script no such line is printed;\notherwise 3.\n")
MODEL = ("writes a script of which histories and evidence are courses\n",
         *(f"  {option:15}{said}" for option, said in OF_HISTORIES if option not in ("--script", "--shard <K/N>")),
         "Standard input is histories or evidence: ttrun model < FILE. Standard output\n"
         "is a script with a test case for each: ttrun explore says of it whether\n"
         "another order of the same calls gives another verdict. --only, --failed,\n"
         "--last and --long are as for check. Of a history that has no such script\n"
         "standard error names the first line that none has, and says why.\n",
         "Status: 0 if each chosen history has one; otherwise 3.\n")
REPLAY = ("replays a list of moves, and prints each reply and the verdict\n", "  --explain     " + EXPLAIN, "  --no-explain  " + NO_EXPLAIN,
          "Standard input is a list of moves: ttrun replay < FILE. Standard output is a\n"
          "line for each reply, and then the overall verdict.\n",
          "Status: 0 for none and pass, 1 for inconc and fail, 2 for error, 3 for a\nrefusal.\n")
SERVE = ("answers moves line by line, and writes evidence of the test cases\n",
         "Standard input is lines, each answered as soon as it has come:\n",
         "  case NAME N       opens a test case of N behaviours, 1 to 256\n",
         "  behaviour K NAME  names the behaviour of run K\n",
         "  MOVE              a move of a list, but no wake: its reply\n",
         "  B # TEXT          a remark of run B, 1 to 200 printable ASCII bytes\n",
         "  end               closes the test case: its overall verdict\n",
         "Standard output is evidence of the test cases. A refused line changes nothing;\noutside a test case it ends the service.\n",
         "Status: 0 for none and pass, 1 for inconc and fail, 2 for error and for a test\ncase that is not over, 3 for a refused line or a fault.\n")

# The words, and what the help names.
HELP: List[Tuple[Tuple[str, ...], Tuple[str, ...]]] = [
    (("--help",), COMMANDS), (("-h",), COMMANDS), (("help",), COMMANDS),
    (("help", "run"), ALL_OPTIONS), (("run", "--help"), ALL_OPTIONS), (("run", "-h"), ALL_OPTIONS),
    (("run", "--csv", "--help"), ALL_OPTIONS), (("run", "--stop-on", "fail", "-h"), ALL_OPTIONS),
    (("run", "--csv", "--history", "--help"), ALL_OPTIONS), (("--help", "check"), COMMANDS), (("help", "help"), ()),
    (("help", "check"), CHECK), (("check", "--help"), CHECK), (("check", "-h"), CHECK),
    (("help", "explore"), EXPLORE), (("explore", "-h"), EXPLORE),
    (("help", "report"), REPORT), (("report", "--help"), REPORT),
    (("help", "model"), MODEL), (("model", "--help"), MODEL),
    (("help", "replay"), REPLAY), (("replay", "--help"), REPLAY), (("replay", "-h"), REPLAY),
    (("help", "serve"), SERVE), (("serve", "--help"), SERVE), (("serve", "-h"), SERVE),
]

# What the first line of a refusal says, and below it the command lines of which it is said: `{last}` is their last word, `{option}` that word up
# to `=`, `{valued}` the last option that takes a value, and `{twice}` the option that comes twice.
MISTAKES = """\
a value is required for '{valued}' but none was supplied
    explore --states, run --only, run --only --list, run --shard, run --stop-on, run --stop-on --csv, run --stop-on --live, run --junit --suite,
    check --script --shard, check --only, explore --only, model --only
one of the arguments '--text', '--csv', '--junit', '--html' and '--summary' is needed
    report, report --, report --explain, report --suite a, report --only a, report --failed, report --script --only a
the argument '--suite' needs '--junit'
    report --csv --suite a, report --suite 7 --summary, run --suite a, run --suite 7 --stop-on no, run --list --suite a
the argument '--times' needs '--junit'
    run --times, run --times --csv, run --list --times, run --times --progress --live, run --failed --times --stop-on no
the argument '--last' needs '--failed'
    run --last, run --list --last, explore --last, explore --last --only a
the arguments '--shard', and '--only' with '--html', need '--script'
    check --shard 0/1, check --shard 1/2 --only a --explain, check --failed --shard 0/1, report --html --only a, report --only a --html --shard 1/2,
    report --shard 1/2
the argument '{twice}' cannot be used multiple times
    run --junit --suite a --suite b, report --summary --summary, check --explain --explain, check --no-explain --no-explain, check --script --script,
    model --last --last, model --failed --only a --failed, check --script --shard 1/2 --shard 1/2, check --long --long, model --long --long, check --failed --failed, check --last --last, explore --details --details,
    explore --locals --locals,
    explore --history --history, explore --states 1 --states 1, report --csv --csv, report --html --html, report --failed --failed --csv,
    report --junit --junit, run --csv --csv, run --evidence --evidence, run --failed --failed, explore --shard 1/2 --shard 1/2,
    run --history --history, run --junit --junit, run --list --list, run --live --live, run --progress --progress, run --shard 1/2 --shard 1/2,
    run --stop-on pass --stop-on pass, run --junit --times --times
unexpected value 'yes' for '{option}' found; no more were expected
    run --csv=yes, run --junit=yes, run --list=yes, run --live=yes, run --junit --times=yes
unrecognized subcommand '{last}'
    '', Run, chec, frobnicate, help a.script, help more, help run check, list, repla, version
unexpected argument '{last}' found
    check --summary, run --summary, -- run, --csv, --explain, --frobnicate, --junit, --list, --live, --progress, -x, check --csv, check --evidence,
    model --script, model --shard, model more, model --csv, check --html, check --junit, check --live, check --progress, check --times, check more, explore --csv, explore --progress, explore --times, explore more,
    replay --list, replay --live, replay more, report --evidence, report --history, report --live, report --junit --times, report more, serve --explain, serve --no-explain,
    serve --evidence, serve --history, serve more, run '', run -, run -- --csv, run -- --live, report --chart, run --chart, run --cs, run --x.y,
    run --a/b, run --csv check, run --details, run --html, run --liv, run --live more, run --only a b, run --version, run -V, run -c, run check,
    run help, run more
unexpected argument '--suite' found
    check --suite a
unexpected argument '--csv' found
    --csv run
unexpected argument '--live' found
    --live run
unexpected argument '--stop-on' found
    --stop-on fail, explore --stop-on fail, replay --stop-on fail
unexpected argument '--states' found
    run --states 7
unexpected argument '-c' found
    run -csv
"""

# Two options that are not taken together, in the order in which they are said, and command lines that have both.
CONFLICTS = """\
list junit: run --list --junit --suite a, run --list --junit, run --list --junit --times
text csv: report --csv --text, report --text --junit --csv
text junit: report --junit --text
text html: report --html --text
text summary: report --summary --text
csv summary: report --csv --summary
html summary: report --summary --html
junit summary: report --summary --junit --suite a
explain no-explain: check --explain --no-explain, check --no-explain --script --explain, report --explain --junit --no-explain,
    model --no-explain --only a --explain, run --no-explain --explain, run --explain --list --no-explain, replay --explain --no-explain, explore --explain --no-explain
script failed: check --failed --script, report --csv --script --failed
history details: explore --details --history, explore --locals --details --history, explore --history --states=1 --details
history locals: explore --locals --history
evidence details: explore --details --evidence
evidence locals: explore --locals --evidence --only a
csv junit: report --csv --junit, report --explain --csv --junit, report --junit --csv, run --junit --csv
csv html: report --html --csv
junit html: report --html --junit
html failed: report --failed --html, report --html --failed --only a
html last: report --last --html, report --html --script --last
script long: check --long --script, report --csv --script --long
text long: report --long --text
html long: report --html --long
explain long: check --long --explain, model --long --explain, report --explain --junit --long
csv evidence: run --csv --evidence, run --evidence --csv
csv history: run --csv --history, run --csv --history --junit, run --csv --history --stop-on no, run --csv --live --history, run --history --csv,
    run --history --stop-on pass --csv, run --live --csv --history
list csv: run --csv --list --only a, run --list --csv
history evidence: explore --evidence --history, run --evidence --history, run --history --evidence, run --live --evidence --history
evidence junit: run --evidence --junit, run --junit --evidence
list evidence: run --evidence --list, run --list --evidence
history junit: run --history --junit, run --junit --history
list history: run --history --list, run --list --history
junit live: run --junit --live, run --live --junit, run --progress --junit --live, run --times --junit --live
list live: run --list --live, run --live --list
list progress: run --list --progress, run --progress --list
list stop-on: run --list --stop-on fail
"""

# Options with a value, as a refusal shows them.
SHOWN = {"--suite": "--suite <NAME>", "--progress": "--progress [<failures>]", "--only": "--only <NAME>", "--shard": "--shard <K/N>", "--states": "--states <N>",
         "--stop-on": "--stop-on <VERDICT>"}


def lines_under_heads(listed: str, head: str) -> Iterator[Tuple[str, ...]]:
    """What each head is made of, and after it each of its command lines, which commas separate."""
    for *parts, lines in re.findall(head, listed):
        yield from ((*parts, line.strip()) for line in lines.split(","))


def mistakes() -> Iterator[Tuple[Tuple[str, ...], str]]:
    """The words of each mistake, and what the first line of the refusal says."""
    for said, line in lines_under_heads(MISTAKES, r"(?m)^(\S.*)((?:\n    .*)+)"):
        words = tuple(shlex.split(line))
        valued = [SHOWN[it] for it in words if it in SHOWN]
        twice = [SHOWN.get(it, it) for it in words if words.count(it) > 1]
        yield words, said.format(last=words[-1], option=words[-1].partition("=")[0], valued="".join(valued[-1:]), twice="".join(twice[:1]))
    for one, other, line in lines_under_heads(CONFLICTS, r"(?m)^(\S+) (\S+):(.*(?:\n    .*)*)"):
        yield tuple(line.split()), f"the argument '--{one}' cannot be used with '--{other}'"

REFUSED: List[Tuple[str, Tuple[Word, ...]]] = [
    ("a_command_in_capitals", ("RUN",)),
    ("history_without_run", ("--history",)),
    ("an_unknown_option_of_run", ("run", "--frobnicate")),
    ("an_option_of_run_cut", ("run", "--hist")),
    ("history_with_a_value", ("run", "--history=")),
    ("both_forms_and_a_rule", ("run", "--history", "--stop-on", "fail", "--csv")),
    ("both_forms_and_a_word_that_is_no_verdict", ("run", "--csv", "--history", "--stop-on", "maybe")),
    ("stop_on_without_a_word_behind_csv", ("run", "--csv", "--stop-on")),
    ("stop_on_twice", ("run", "--stop-on", "fail", "--stop-on", "fail")),
    ("a_verdict_behind_run", ("run", "fail")),
    ("help_of_an_unknown_word", ("help", "frobnicate")),
]

# A script of one test case, t.
NAMED = text("testcase t;behaviour main;end;end")

SUITE = "--suite takes 1 to 32 letters, digits or _, a letter first"
STATES = "--states takes a number from 1 to 1000000"
PROGRESS = "--progress takes failures, or no value"

# Of several faults the first is printed: of the shard, of a word that is no name, of the suite, of the stopping rule, of the
# text, and then of the names.
ORDERED: List[Tuple[str, bytes, str]] = [
    ("run --only z --stop-on x --shard 0/2", b"x\n", SHARD),
    ("run --only z --stop-on x", b"x\n", STOP_ON),
    ("run --only z", b"x\n", "line 1: line not understood"),
    ("run --list --only z", b"x\n", "line 1: line not understood"),
    ("run --shard 0/2", b"x\n", SHARD),
    ("run --list --only z --shard 0/2", b"x\n", SHARD),
    ("run --stop-on x", b"x\n", STOP_ON),
    ("run --only z- --stop-on x", NAMED, ONLY),
    ("run --only z- --stop-on x --shard 0/1", NAMED, SHARD),
    ("run --junit --suite 7 --stop-on x", b"x\n", SUITE),
    ("run --junit --suite 7 --only z-", NAMED, ONLY),
    ("run --junit --suite 7 --only z", NAMED, SUITE),
    ("report --script --junit --suite 7 --shard 0/1", b"x\n", SHARD),
    ("report --script --junit --suite 7 --only z", NAMED, SUITE),
    ("report --junit --suite 7", b"x\n", SUITE),
    ("report --junit --suite t", b"x\n", "line 1: bad first line"),
    ("explore --states 0", b"x\n", STATES),
    ("explore --states 1", b"x\n", "line 1: line not understood"),
    ("run --only z --shard 1/2", b"", "line 1: text ends too early"),
    *((line, NAMED, ONLY) for line in (
        "run --only z --stop-on pass", "run --only z --only z", "run --only t --only t --only z", "run --list --only z --shard 1/1",
        "run --live --progress --only z")),
]

# Words after options that name nothing.
NAMELESS: List[Tuple[str, Tuple[str, ...]]] = [
    (STOP_ON, ("run --stop-on ", "run --stop-on -", "run --stop-on=--csv", "run --stop-on=--live", "run --stop-on run", "run --stop-on help",
               "run --stop-on no --only a")),
    (PROGRESS, ("run --progress=yes", "run --progress= --only a", "run --csv --progress all", "run --progress a.script --csv")),
    (SHARD, ("run --list --shard 0/1", "run --shard 1/02", "run --shard=many", "run --only a --shard= --only 1", "run --stop-on fail --shard 3/2",
             "run --stop-on no --shard 3/2")),
    (SUITE, ("run --junit --suite=", "run --junit --suite 1", "run --suite a-b --junit", "report --junit --suite all",
             "report --junit --script --suite " + "a" * 33)),
    (ONLY, ("run --only=", "run --list --only all", "run --only a --only 2b", "run --stop-on no --only 1",
            "model --only=", "model --last --only all")),
]

# How the text about refused words ends.
MORE = "\nFor more information, try '--help'.\n"

# What is said if no file's name was given.
NO_TIP = SomeText(lacking=("tip: ttrun ",))

# A file's name instead of a subcommand.
FILES = ("examples/workers.script", "campaign.txt", "./run", "../script", "run/")

# A file's name after a subcommand.
GIVEN_FILES = ("run campaign.txt", "run --csv ./a.script", "run --list -- a.script", "check run.history", "check --script a/run.history",
               "report --junit run/x", "explore --states 7 a.b", "model last.evidence", "replay moves/a", "serve x.y", "run a.script more")

# Of these words the last is not expected, and is no file's name; the one before is the value of an option.
NO_FILES = ("run --stop-on a.b more", "run --only a/b more")

# Words that are nearly a subcommand, and words that are not.
NEARLY = (("rnu", "run"), ("Run", "run"), ("runn", "run"), ("chec", "check"), ("repla", "replay"), ("exlpore", "explore"),
          ("reprot", "report"), ("modle", "model"), ("srve", "serve"), ("RuN", "run"))
NOT_NEARLY = ("list", "version", "frobnicate", "RUN", "help list", "help more")

# Options that ask for nothing, and the subcommand whose usage is shown.
USAGES = (("run --csv --junit", "run"), ("run --no-explain --explain", "run"), ("explore --details --history", "explore"), ("report", "report"),
          ("report --csv --html", "report"), ("report --html --only a", "report"), ("check --shard 1/2", "check"), ("check --script --failed", "check"),
          ("report --csv --suite a", "report"), ("run --suite a", "run"),
          ("check --no-explain --explain", "check"), ("model --explain --no-explain", "model"))

NOT_UTF8: List[Tuple[str, Tuple[Word, ...]]] = [
    ("a_word_that_is_not_utf8", (b"\xff",)),
    ("a_verdict_that_is_not_utf8", ("run", "--stop-on", b"f\xe4il")),
    ("help_and_a_word_that_is_not_utf8", ("--help", b"\xc3")),
]


# A test case of two verdicts, whose search needs more states than one.
RACE = text("testcase t;behaviour main;create p;start p w;kill p;end;behaviour w;setverdict fail;end;end")


def version_line() -> bytes:
    """The line of the version, which is that of the newest changes."""
    version = re.search(r"(?m)^## (\d+\.\d+\.\d+),", text_of("CHANGELOG.md"))[1]
    return f"ttrun {version}\n".encode()


def of_explore() -> Iterator[Case]:
    """The words of `explore`, the rows of explored.txt, and its output where it can't be written."""
    forms: Tuple[Tuple[str, ...], ...] = ((), ("--history",), ("--details",), ("--locals",))
    for word in ("0", "x", "", "01", "1000001"):
        for form in forms:
            yield unread("_".join(["unread_with_states", word or "empty", *form]), ("explore", *form, "--states", word), STATES)
    for head, script, *output in blocks_of("explored.txt"):
        name, command, status = re.split(": |, status ", head)
        yield Case(name, tuple(command.split()), text(script), as_lines(*output), status=int(status))
    for form in forms:
        for device, redirect in (("full", ">/dev/full"), ("closed", ">&-")):
            yield refused(joined(f"output_{device}_explore", *form), ("explore", *form), RACE, "write fault", redirect=redirect)


def faults_of_wide_help(program: str) -> List[str]:
    """The help of the program and of each subcommand fits a terminal of 80 columns."""
    lines = [(name, line) for name in ("", "run", "serve", "explore", "check", "report", "model", "replay")
             for line in answer(program, b"", *name.split(), "--help").output.decode().splitlines()]
    faults = [f"{name}: {len(line)} columns: {line}" for name, line in lines if len(line) > 78]
    return faults + ([] if len(lines) > 100 else [f"{len(lines)} lines"])


def unread(name: str, words: Tuple[Word, ...], said: Union[str, SomeText]) -> Case:
    """Words that are refused before standard input is read: it is a pipe that stays open, and a program that reads it does not end."""
    return Case(name, words, errors=as_lines(f"ttrun: {said}") if isinstance(said, str) else said, status=3, stays_open=True)


def files() -> Iterator[Case]:
    """Names of files instead of subcommands and after them, and words that are nearly subcommands."""
    for word in FILES:
        for more in ((), ("more",)):
            yield unread("_".join(["refused_file", word, *more]), (word, *more),
                         SomeText((f"unrecognized subcommand '{word}'", f"\n  tip: ttrun run < {word}\n")))
    for line in GIVEN_FILES:
        given = line.split(" ")
        file = next(it for it in given if "." in it or "/" in it)
        yield unread(f"refused_file: {line}", tuple(given), SomeText(
            (f"error: unexpected argument '{file}' found\n", f"\n  tip: ttrun {given[0]} < {file}\n", f"Usage: ttrun {given[0]}", MORE)))
    for line in NO_FILES:
        yield unread(f"refused_and_no_file: {line}", tuple(line.split(" ")), SomeText(("error: unexpected argument 'more' found\n",), NO_TIP.lacking))
    for word, name in NEARLY:
        yield unread(f"nearly_a_subcommand_{word}", (word,), SomeText(
            (f"error: unrecognized subcommand '{word}'\n", f"\n  tip: a similar subcommand exists: '{name}'\n")))
    for line in NOT_NEARLY:
        yield unread(f"not_nearly_a_subcommand: {line}", tuple(line.split(" ")), SomeText(("unrecognized subcommand",), ("tip:",)))


def cases() -> Iterator[Union[Case, Judgement]]:
    for words, named in HELP:
        yield Case("help_" + "_".join(words), words, output=SomeText(("Usage", *named)), stays_open=True)
    for name, words in REFUSED:
        yield unread(f"refused_{name}", words, NO_TIP)
    for words, said in mistakes():
        yield unread(f"refused: {' '.join(words)}", words, SomeText((f"error: {said}\n", MORE), NO_TIP.lacking))
    for said, lines in NAMELESS:
        yield from (unread(f"unread: {line}", tuple(line.split(" ")), said) for line in lines)
    for line, given, said in ORDERED:
        yield refused(f"names_are_judged_last: {line}", tuple(line.split(" ")), given, said)
    yield from files()
    for line, name in USAGES:
        yield unread(f"usage_of_a_subcommand: {line}", tuple(line.split(" ")), SomeText((f"Usage: ttrun {name} [OPTIONS]\n", MORE)))
    for name, words in NOT_UTF8:
        yield unread(f"refused_{name}", words, "an argument is not UTF-8")
    for word in ("maybe", "PASS"):
        for form in ((), ("--csv",), ("--history",), ("--evidence",)):
            yield unread("_".join(["unread_with", word, *form]), ("run", *form, "--stop-on", word), STOP_ON)
    for word in ("", "1", "0/2", "3/2", "1/0", "01/2", "1/2/3", "a/b", "1/4294967296"):
        for form in ((), ("--csv",), ("--list",)):
            yield unread("_".join(["unread_with_shard", word or "empty", *form]), ("run", *form, "--shard", word), SHARD)
    for words in (("--version",), ("-V",), ("--version", "more")):
        yield Case("version_" + "_".join(words), words, output=version_line(), stays_open=True)
    yield from of_explore()
    yield Judgement("help_in_78_columns", "ttrun SUBCOMMAND --help", faults_of_wide_help)
