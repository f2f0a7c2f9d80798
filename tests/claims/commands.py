"""The commands of the documents: which test runs each block of them, and each in a sentence, and whether each option is one."""
import re
from typing import Dict, Iterator, List, Tuple

from script_reader import read_script
from sources import TOP, Document, cells_of, files_below, read, text_of
from texts import Judged

# What begins a command.
BEGINS = re.compile(r"(?m)^(?:\S*\./ttrun|\./gate|\./release|rt |python3 |clients/|cp -r|pip |c\+\+ |git |tar )")
PIPELINES, GUIDE, LIBRARY = "docs/pipelines.md", "docs/guide.md", "docs/library.md"
BLOCKS, SHOWN = "tests/documents/blocks.py", "tests/program/examples.py"
# A document, what the blocks have, and the test that runs them: its file, and its name.
RUN: Tuple[Tuple[str, str, str, str], ...] = (
    ("README.md", "./ttrun run < examples/restart.script", SHOWN, "of_documents"), ("README.md", "python3 bench.py", BLOCKS, "the_bench_of_the_readme"),
    (PIPELINES, "", BLOCKS, "every_block_on_a_campaign_that_fails"), (GUIDE, "< examples/", SHOWN, "of_documents"),
    (GUIDE, "", BLOCKS, "blocks_of_the_guide"), (GUIDE, "printf 'testcase", SHOWN, "shown_cases"),
    (GUIDE, "./ttrun explore --details < race.script", SHOWN, "shown_cases"),
    (LIBRARY, "cp -r crates/car_window", BLOCKS, "the_copy_is_a_crate_as_the_claims_have_it"),
    (LIBRARY, "> bench.history", BLOCKS, "options_of_a_bench_are_taken"),
    ("docs/titan.md", "clients/titan/ttrun-titan", "tests/titan/command_tests.py", "the_commands_of_the_document_run"),
    ("docs/benches.md", "", BLOCKS, "blocks_of_the_bench"),
    ("docs/benches.md", "bash heater.sh", "tests/python/document_tests.py", "the_bench_in_bash"),
    ("docs/benches.md", "< heater.evidence", "tests/documents/released.py", "the_archive_runs_benches"),
    ("clients/cpp/README.md", "c++ -std=c++17", "tests/cpp/run.py", "heater.cpp"),
    ("clients/cpp/README.md", "cmake -S", "tests/cpp/run.py", "a_project_finds_the_client"),
    ("clients/python/README.md", "pip install clients/python", "tests/python/document_tests.py", "the_package_is_installed_from_its_folder"))
# The same of commands that a sentence has: those with an input.
TYPED: Tuple[Tuple[str, str, str, str], ...] = (
    ("README.md", "race.script", BLOCKS, "the_race_of_the_readme"),
    (GUIDE, "< examples/", SHOWN, "of_documents"), (PIPELINES, "campaign.script", BLOCKS, "commands_in_the_text"),
    ("docs/benches.md", "< two.script", BLOCKS, "the_model_of_a_bench"))
# A command with an input; one with a word in capitals is a pattern.
INPUT, PATTERN = re.compile(r"(?:\./ttrun|cat) .*[<|]"), re.compile(r"\b[A-Z]{2,}\b")
# Options of programs that are not of this repository, by the first word of a command.
OTHERS: Dict[str, Tuple[str, ...]] = {
    "rt": ("--jobs", "--only", "--test", "--minutes", "--fail-alloc"), "git": ("--short",), "sha256sum": ("--check",),
    "tar": ("--strip-components", "--wildcards"), "prlimit": ("--nproc",), "c++": ("--wrap",), "pytest": ("--junit-xml",),
    "sbatch": ("--parsable", "--array", "--time", "--output", "--dependency"), "parallel": ("--sshlogin",), "what is gone": ("--chart",)}
OPTION = re.compile(r"(?<![\w-])--[a-z][a-z-]*\b")
FEWEST_OPTIONS = 25
# The table of lines that a script has where TTCN-3 has others, and how many there are at least.
NEXT_TO_TTCN, FEWEST_LINES = ("docs/scripts.md", "If you know TTCN-3"), 12


def typed(document: Document) -> List[Tuple[int, str]]:
    """The commands with an input that the sentences of a document have, with their lines."""
    lines = [(number, line) for number, line, is_code in document.marked() if not is_code]
    return [(number, it) for number, line in lines for it in re.findall(r"`([^`]+)`", line) if INPUT.match(it) and not PATTERN.search(it)]


def unlisted(there: List[Tuple[str, int, str]], table: Tuple[Tuple[str, str, str, str], ...], what: str) -> Iterator[str]:
    """Commands that no test of the table runs, each by its document and line, and tests of the table that are not there, or run none."""
    for path, has, file, name in table:
        if not re.search(rf"\b{re.escape(name)}", text_of(file)):
            yield f"{file} has no {name}"
        if not any(at == path and has in text for at, _, text in there):
            yield f"{path}: no {what} has {has!r}"
    for at, line, text in there:
        if not any(path == at and has in text for path, has, _, _ in table):
            yield f"{at}:{line}: no test runs {text if what == 'command' else 'this block'}"


def unrun(documents: List[Document]) -> Iterator[str]:
    """Blocks of commands that no test of the list runs, and tests of the list that are not there, or run no block."""
    blocks = [(document.path, it.line, it.text) for document in documents for it in document.blocks()
              if it.language == "sh" or it.language == "" and BEGINS.search(it.text)]
    return unlisted(blocks, RUN, "block")


def untyped(documents: List[Document]) -> Iterator[str]:
    """The same of commands in sentences."""
    return unlisted([(document.path, line, it) for document in documents for line, it in typed(document)], TYPED, "command")


def unread_lines() -> Iterator[str]:
    """Lines of the table next to TTCN-3 that no script may have."""
    path, section = NEXT_TO_TTCN
    rows = [cells_of(line)[1] for _, line in read(TOP, path).section(section) if line.startswith("|")]
    lines = [it for cell in rows for it in re.findall(r"`([^`]+)`", cell)]
    for line in lines:
        before = "" if line.startswith("create ") else "create p\n"
        if isinstance(read_script(f"testcase t\nbehaviour main\n{before}{line}\nend\nbehaviour worker a\nend\nend\n".encode()), Judged):
            yield f"{path}: no script has the line {line}"
    if len(lines) < FEWEST_LINES:
        yield f"{path}: {section} has {len(lines)} lines of scripts, and no fewer than {FEWEST_LINES} are wanted"


def own_options() -> List[str]:
    """The options that the program, and the scripts of this repository, take."""
    found = [f"--{it}" for it in re.findall(r'"([a-z-]+)" => "', text_of("crates/tc_command/src/command.rt"))]
    for path in ("ttrun", "gate", "release", "bench/run.sh"):
        found += OPTION.findall(text_of(path))
    for text in (text_of(path) for folder in ("tests", "tools", "page", "bench", "clients") for path in files_below(folder, ".py")):
        for pair in re.findall(r'(?:add_argument|addoption)\(\s*(?:"-\w", )?"(--[a-z-]+)"|"(--[a-z-]+)" in sys\.argv', text):
            found += filter(None, pair)
    return sorted({*found, "--help", "--version"})


def no_options(documents: List[Document]) -> Iterator[str]:
    known = {*own_options(), *(it for some in OTHERS.values() for it in some)}
    seen = set()
    for document in documents:
        if document.path != "CHANGELOG.md":
            for number, line, is_code in document.marked():
                named = OPTION.findall(line if is_code else "` `".join(re.findall(r"`([^`]+)`", line)))
                seen.update(named)
                yield from (f"{document.path}:{number}: nothing takes {it}" for it in named if it not in known)
    if len(seen) < FEWEST_OPTIONS:
        yield f"{len(seen)} options are named, where there are no fewer than {FEWEST_OPTIONS}"


def unseen() -> Iterator[str]:
    """Blocks and options that are planted, and that nobody finds."""
    plant = Document("docs/plant.md", ["```sh", "./ttrun explore --fly < race.script", "```", "Or `./ttrun run < it.script`."])
    if not any(it.startswith("docs/plant.md:2: no test") for it in unrun([plant])):
        yield "nobody finds a block that no test runs"
    if "docs/plant.md:4: no test runs ./ttrun run < it.script" not in list(untyped([plant])):
        yield "nobody finds a command in a sentence that no test runs"
    if "docs/plant.md:2: nothing takes --fly" not in list(no_options([plant])):
        yield "nobody finds an option that there is not"
