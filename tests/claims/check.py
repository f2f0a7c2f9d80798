#!/usr/bin/env python3
"""Checks what the documents claim: names, quotations, commands and links, and a few rules of the repository.

The last line is 'N passed, M failed'.
"""
import os
import re
import shutil
import sys
import tempfile
from collections import Counter
from typing import Callable, Dict, Iterator, List, Tuple

sys.dont_write_bytecode = True

from sources import TOP, Block, Document, Sources, cells_of, crates, files_below, named_by, read, text_of

sys.path += [os.path.join(TOP, it) for it in ("tests", "tests/program", "tests/mutants", "page")]

import believed
import commands as shell
import counted
import make
import graph
import lists
import memory
import plain
from harness import Answer, Skipped, call, checkout as tracked, status_of, write
from lists import Change, Mutant, MutantList
from script_reader import read_script
from texts import Judged

# The tables whose cells name what is in the sources, except in the columns that are in words: document, section, and the fewest rows.
TABLES = (("docs/proved.md", "", 100), ("CONTRIBUTING.md", "Add an operation", 8))
IN_WORDS = ("question", "claim", "what")
# A name as a link to the file that it is of. The clauses of its contract that say it come after it, unless the only one has no name.
LINKED = re.compile(r"\[`([^`\]]+)`\]\(([^)]+\.(?:rt|antt))\)(?: \(((?:`\w+`(?:, )?)+)\))?")
# The most words of a document, and of all together.
MOST_WORDS = {"README.md": 1000, "docs/proved.md": 3500, "": 42000}
WIDTH = 120
FEWEST_LINES_OF_A_CRATE, MOST_LINES_OF_A_CRATE = 10, 60
# The programs that are here; one that a reader adds, as a copy to begin with, may have a line.
OWN_CRATES = ("ttrun", "one_case", "car_window", "random_cases", "refused_memory")
# A sentence of that many words is in one document only; the history of changes is none of these.
FEWEST_WORDS_SAID_ONCE = 11
# In backquotes, what is spelt as a name of the sources.
NAME = re.compile(r"\w+(?:_\w+)+|\w+(?:::\w+)+|(?:[A-Z][a-z]+){2,}")
# A path in backquotes; but one with a word in capitals represents many, and what is built is not there before.
PATH = re.compile(r"[\w.*+-]+(?:/[\w.*+-]+)+/?|[\w-]+\.(?:rt|antt|edit|py|sh)")
# Names in backquotes that are in parentheses.
ASIDE = re.compile(r"\((`\w+`(?:,\s`\w+`)*)\)")
OF_MANY = re.compile(r"\*|\b[A-Z]{2,}\b(?!\.md)|\b[A-Z]/[A-Z]\b|/out/")
CODE = re.compile(r"`([^`]+)`")
# The begin of a block that is a whole text of the program, and no pattern of one.
WHOLE = re.compile(r"testcase,|history \d \w+ \d|behaviours \d|legal |cases \d|testcase \w+\nrun \d")
# A number that only a reader of some other list could look up.
NUMBER = re.compile(r"(?<![\w.#])(?:[TDW](?:1?\d|2[0-2])[a-g]?|R(?:1[0-5]|[1-9])|B[1-5])(?![\w.(<])|\b[Rr]ows?[ _]\d+\b|\bw\d{1,2}_")
OPTIONS = re.compile(r"(?:run)?(?: (?:--csv|--history|--evidence|--progress|--only \w+|--stop-on (?:none|pass|inconc|fail|error)))*|check|replay|report --summary")
# Each edit that the gate tries takes 10 to 60 seconds, and a crate that has some is proved again for them.
MOST_IN_THE_GATE = 130
FEWEST_OF_A_CRATE = 3
FEWEST_MUTANTS = 800


def unlinked(text: str) -> List[str]:
    return [name for quoted in CODE.findall(LINKED.sub("", text)) for name in quoted.split()]


def unknown_in_tables(sources: Sources) -> Iterator[str]:
    """What the cells of the tables name, and is not in the sources."""
    for path, section, fewest in TABLES:
        rows = list(read(TOP, path).rows(section))
        for number, row in rows:
            names = [it for title, cell in row if title not in IN_WORDS for it in unlinked(cell)]
            yield from (f"{path}:{number}: {it} stands nowhere" for it in names if not sources.has(it))
        if len(rows) < fewest:
            yield f"{path}: the section {section!r} has {len(rows)} rows, and no fewer than {fewest} are wanted"


def fault_of_link(sources: Sources, name: str, file: str, clauses: List[str]) -> str:
    """Why a name is not of its file, or its contract does not say these clauses."""
    promises = sources.promises(file, name) if file.endswith(".rt") else []
    if not sources.defines(file, name) or "::" in name and not promises:
        return f"{name} is not defined in {file}"
    if any(it.issuperset(clauses or [""]) for it in promises) or not promises and not clauses:
        return ""
    return f"the contract of {name} has the clauses {' or '.join(map(str, map(sorted, promises)))}, and not {clauses}"


def wrong_links_to_names(sources: Sources, documents: List[Document]) -> Iterator[str]:
    """Names that are not in the file to which they lead, and clauses that the contract there does not have."""
    for document in documents:
        for number, line in enumerate(document.lines, 1):
            for name, link, clauses in LINKED.findall(line):
                file = os.path.normpath(os.path.join(os.path.dirname(document.path), link))
                fault = fault_of_link(sources, name, file, CODE.findall(clauses))
                if fault:
                    yield f"{document.path}:{number}: {fault}"


def unseen_links(sources: Sources) -> Iterator[str]:
    """Links to names that are planted and wrong, and that nobody finds."""
    file = "../crates/tc_rules/src/table.rt"
    for planted in ("`Table::plays`", "`CaseState::play`", "`Table::play`", "`Table::play`] (`ads`)", "`Table::would`] (`reply`)"):
        name, _, clauses = planted.partition("]")
        if not list(wrong_links_to_names(sources, [Document("docs/plant.md", [f"[{name}]({file}){clauses}"])])):
            yield f"nobody finds {planted}"
    for planted in ("explore (`again`)", "its `Table::plays`"):
        if not list(unknown_names(sources, "tc_explore", [planted])):
            yield f"nobody finds {planted}"


def long_documents(documents: List[Document]) -> Iterator[str]:
    """Documents with more words than they may have, and whether all have more together."""
    for path, most in MOST_WORDS.items():
        words = sum(len(line.split()) for it in documents if path in ("", it.path) for line in it.lines)
        if words > most:
            yield f"{path or 'all documents'}: {words} words, where {most} are the most"


def example(name: str) -> str:
    return text_of(f"examples/{name}")


def fault_of_block(block: Block) -> str:
    """Why a block that quotes an example, or is a text of the program, is not what is there."""
    names = [it for it in named_by(block) if example(it)]
    is_part = "begin" in block.before.rsplit("\n\n", 1)[-1]
    if any(f"\n{block.text}" in f"\n{text_of(it)}" for it in files_below("examples", "")):
        is_whole = any(example(it) == block.text for it in names)
        is_begun = is_part and any(example(it).startswith(block.text) for it in names)
        return "" if not names or is_whole or is_begun else f"it is not the whole of {' or '.join(names)}"
    if block.text.startswith("verdict "):
        return "" if text_of("crates/car_window/stdout").endswith(block.text) else "it is not the end of crates/car_window/stdout"
    if WHOLE.match(block.text):
        return f"it stands in no file of examples/{', as ' + ' or '.join(names) if names else ''}"
    if re.match(r"(?:#.*\n)?testcase \w+\n\s*(?:#.*\n\s*)?behaviour ", block.text):
        read_as = read_script(re.sub(r"(?m)^X$", "getverdict", block.text).encode())
        return read_as.errors.decode().strip() if isinstance(read_as, Judged) else ""
    return ""


def believed_lines() -> Iterator[str]:
    rows = [line for _, line in read(TOP, "docs/architecture.md").section("What must be believed") if line.startswith("|")][2:]
    wanted = list(believed.table())
    yield from (f"the sources have the row {it}" for it in wanted if it not in rows)
    yield from (f"the sources have no row {it}" for it in rows if it not in wanted)


def quotations(documents: List[Document]) -> Iterator[str]:
    for document in documents:
        for block in document.blocks():
            fault = fault_of_block(block) if not block.language else ""
            if fault:
                yield f"{document.path}:{block.line}: {fault}"


def squeezed(text: str) -> str:
    return " ".join(text.split())


def quoted_code(documents: List[Document]) -> Iterator[str]:
    """Blocks of Rattle, and of definitions, that are in no file of the crate that the document, right before them, names."""
    for document in documents:
        text = "\n".join(document.lines)
        named = [(text.count("\n", 0, it.start()) + 1, it.group(1))
                 for it in re.finditer(r"(?:program\s+is|code\s+below\s+is\s+of)\s+`crates/(\w+)`", text)]
        for block in document.blocks():
            if block.language not in ("rust", "antt"):
                continue
            before = [crate for line, crate in named if line < block.line]
            if not before:
                yield f"{document.path}:{block.line}: it does not say of which crate its code is"
                continue
            folder, ending = ("src", ".rt") if block.language == "rust" else ("specs", ".antt")
            if not any(squeezed(block.text) in squeezed(text_of(it)) for it in files_below(f"crates/{before[-1]}/{folder}", ending)):
                yield f"{document.path}:{block.line}: this code stands in no file of crates/{before[-1]}"


def commands(documents: List[Document]) -> Iterator[str]:
    for document in documents:
        for number, words, file, _ in document.commands():
            if not example(file):
                yield f"{document.path}:{number}: there is no examples/{file}"
            if not OPTIONS.fullmatch(" ".join(words)):
                yield f"{document.path}:{number}: the program does not take {' '.join(words)}"
        for number, line in enumerate(document.lines, 1):
            for name in re.findall(r"examples/([\w-]+(?:\.[\w-]+)*\.[a-z]+)", line):
                if not example(name):
                    yield f"{document.path}:{number}: there is no examples/{name}"


def links(documents: List[Document]) -> Iterator[str]:
    for document in documents:
        for number, link in document.links():
            if re.match(r"[a-z]+:", link):
                continue
            path, _, anchor = link.partition("#")
            target = os.path.normpath(os.path.join(os.path.dirname(document.path), path)) if path else document.path
            if not os.path.exists(os.path.join(TOP, target)):
                yield f"{document.path}:{number}: {link} leads to no file"
            elif anchor and anchor not in read(TOP, target).anchors():
                yield f"{document.path}:{number}: {link} leads to no heading"


def long_lines(documents: List[Document]) -> Iterator[str]:
    """Lines of prose that are too long, though they might be broken."""
    for document in documents:
        for number, line, is_code in document.marked():
            is_prose = not is_code and not line.startswith("|")
            if is_prose and len(line) > WIDTH and " " in re.sub(r"`[^`]*`|\[[^\]]*\]", "", line).strip():
                yield f"{document.path}:{number}: {len(line)} letters, where {WIDTH} are the most"


def said_twice(documents: List[Document]) -> Iterator[str]:
    """Sentences and cells of some length that are in two documents."""
    first: Dict[Tuple[str, ...], str] = {}
    for document in documents:
        if document.path == "CHANGELOG.md":
            continue
        sentences = [it for _, paragraph in plain.paragraphs(document) for it in plain.sentences(paragraph)]
        for text in [*sentences, *(cell for line in document.lines for cell in cells_of(line))]:
            words = tuple(re.findall(r"\w+", text.lower()))
            other = first.setdefault(words, document.path)
            if len(words) >= FEWEST_WORDS_SAID_ONCE and other != document.path:
                yield f"{document.path}: this stands in {other} too: {text[:60]}.."


def unknown_names(sources: Sources, crate: str, lines: List[str]) -> Iterator[str]:
    """What a README of a crate names that is not in the sources. What it names in parentheses, as a clause of one word, is of the crate
    or of one that it uses."""
    path = f"crates/{crate}/README.md"
    text = re.sub(r"```.*?```", "", "\n".join(lines), flags=re.DOTALL)
    yield from (f"{path}: {it} stands nowhere" for it in unlinked(text) if NAME.fullmatch(it) and not sources.has(it))
    aside = [it for names in ASIDE.findall(LINKED.sub("", text)) for it in CODE.findall(names)]
    known = {crate, *sources.crates[crate]}
    yield from (f"{path}: {it} is no name of {crate}, or of what it uses" for it in aside if known.isdisjoint(sources.places.get(it, ())))


def readmes_of_crates(sources: Sources) -> Iterator[str]:
    """Crates without a README, and READMEs that are too long or short, or name what there is not. Crates of tests have none."""
    for crate in sources.crates:
        path = f"crates/{crate}/README.md"
        if crate.endswith("_tests"):
            continue
        if not os.path.isfile(os.path.join(TOP, path)):
            yield f"there is no {path}"
            continue
        lines = read(TOP, path).lines
        if not re.fullmatch(rf"# {crate}: \w.*", lines[0]):
            yield f"{path}: the first line does not say what {crate} is"
        fewest = FEWEST_LINES_OF_A_CRATE if crate in OWN_CRATES or crate.startswith("tc_") else 1
        if not fewest <= len(lines) - 1 <= MOST_LINES_OF_A_CRATE:
            yield f"{path}: {len(lines) - 1} lines, where {fewest} to {MOST_LINES_OF_A_CRATE} are wanted"
        yield from unknown_names(sources, crate, lines)


def paths(documents: List[Document]) -> Iterator[str]:
    """Paths that lead to nothing: each begins at the top, or in the README of a folder next to it."""
    for document in documents:
        folders = [TOP, *([os.path.join(TOP, os.path.dirname(document.path))] if document.path.endswith("/README.md") else [])]
        for number, line in enumerate(document.lines, 1):
            for name in (it for quoted in CODE.findall(line) for it in quoted.split()):
                if not PATH.fullmatch(name) or OF_MANY.search(name):
                    continue
                if not any(os.path.exists(os.path.join(it, name)) for it in folders):
                    yield f"{document.path}:{number}: {name} is no path from the top"


def numbers() -> Iterator[str]:
    """Numbers that represent a rule or a case which is written elsewhere."""
    for path in tracked():
        try:
            lines = text_of(path).split("\n")
        except UnicodeDecodeError:
            continue
        for number, line in enumerate(lines, 1):
            # (a long word of letters and digits is bytes that are spelled so)
            found = NUMBER.search(re.sub(r"[\w+/=]{1000,}", "", line))
            if found:
                yield f"{path}:{number}: {found[0]}"


def nameless() -> Iterator[str]:
    """Sources whose first line does not say what they are. The answers and the invariants of a function are named by their path."""
    for path in tracked():
        if path.endswith(("/Answers.antt", "/Invariants.antt")) or not path.endswith((".rt", ".antt", ".py", ".sh", ".rs", ".txt")):
            continue
        lines = [it for it in text_of(path).split("\n", 2) if not it.startswith("#!/")]
        if not re.match(r'(?://!?|--|#) \w|"""\w', lines[0]):
            yield f"{path}: {lines[0]}"


def edit_of(crate: str, path: str) -> Mutant:
    """An edit that the gate tries, as a mutant of its crate."""
    found, file = Mutant(MutantList(crate), os.path.basename(path)[: -len(".edit")]), ""
    for line in text_of(path).split("\n"):
        word, _, rest = line.partition(":")
        rest = rest[1:] if rest.startswith(" ") else rest
        if word == "file":
            file = f"crates/{crate}/{rest.strip()}"
        elif word == "old":
            found.changes.append(Change(file, [rest]))
        elif word == "new":
            found.changes[-1].plus = [rest]
    return found


def faults_of_edits() -> Iterator[str]:
    """Edits and mutants that cannot be planted, or share a name in the crates; a gate that has too many edits, or a crate with too few."""
    mutants, unread = lists.read_all(TOP)
    yield from unread
    yield from (f"the mutant {title}: {why}" for title, why in lists.faults(mutants, TOP))
    if len(mutants) < FEWEST_MUTANTS:
        yield f"{len(mutants)} mutants, where there are no fewer than {FEWEST_MUTANTS}"
    paths = [(crate, path) for crate in crates() for path in files_below(f"crates/{crate}/must-fail", ".edit")]
    gate = [edit_of(*it) for it in paths]
    unplanted = ((path, lists.fault_of(edit, TOP, {})) for (_, path), edit in zip(paths, gate))
    yield from (f"{path}: {fault}" for path, fault in unplanted if fault)
    for name, count in Counter(it.name for it in [*gate, *(it for it in mutants if not it.list.tests)]).items():
        if count > 1:
            yield f"{count} edits or mutants of crates are named {name}"
    for crate, count in Counter(crate for crate, _ in paths).items():
        if count < FEWEST_OF_A_CRATE:
            yield f"{crate} has {count} edits: none or at least {FEWEST_OF_A_CRATE} pay for the proof that they begin with"
    if len(gate) > MOST_IN_THE_GATE:
        yield f"the gate has {len(gate)} edits, {MOST_IN_THE_GATE} at most"


def faults_of_layout(texts: Dict[str, str]) -> Iterator[str]:
    """The files, each with its text, that `rt fmt` changes in a copy, and what it prints if it cannot read one."""
    if not shutil.which("rt"):
        raise Skipped("there is no rt on the path")
    with tempfile.TemporaryDirectory() as folder:
        copies = {path: write(os.path.join(folder, "src", path), text) for path, text in texts.items()}
        ran = call(["rt", "fmt"], cwd=folder)
        yield from (f"{path} is in another layout: run `rt fmt` in its crate" for path, it in copies.items() if text_of(it) != texts[path])
        if ran.status:
            told = (ran.output + ran.errors).replace(f"{folder}/src/", "").splitlines()
            yield from [it for it in told if not it.startswith("rt: formatted ")] or [f"rt fmt ended with {ran.status}"]


def wrong_layouts() -> Iterator[str]:
    """The files of each crate's `src`, `specs` and `proofs` in another layout than that of `rt fmt`. Without `rt` this is skipped."""
    parts = [f"crates/{crate}/{part}" for crate in crates() for part in ("src", "specs", "proofs")]
    return faults_of_layout({path: text_of(path) for part in parts for path in files_below(part, "")})


def unseen_layouts() -> Iterator[str]:
    """Files that are planted and not found, and one in the layout that is."""
    planted = {"a/src/kept.rt": "fn it() {}\n", "a/src/wide.rt": "fn  it() {}\n", "a/proofs/cut.antt": "pub it : Bool\nit = (\n"}
    found = [it.split()[0].rstrip(":") for it in faults_of_layout(planted)]
    if sorted(found) != ["a/proofs/cut.antt", "a/src/wide.rt"]:
        yield f"found are {found}"


def other_checks() -> Iterator[str]:
    """Crates of tests whose checks are not the same functions."""
    found = {it: re.search(r"(?ms)^/// Ends the test unless what was found.*?^}.*?^}", text_of(it)) for it in tracked() if it.endswith("/checks.rt")}
    yield from (path for path, it in found.items() if not it or it[0] != next(filter(None, found.values()))[0])


def answers(checks: Dict[str, Callable[[], Iterator[str]]]) -> Iterator[Answer]:
    """Whether each check has found nothing, and its lines."""
    for name, check in checks.items():
        try:
            faults = list(check())
            yield not faults, "\n  ".join([f"{'FAILED' if faults else 'ok'}: {name}", *faults])
        except Skipped as lacking:
            yield None, f"SKIPPED: {name}: {lacking}"


def main() -> int:
    sources = Sources()
    documents = [read(TOP, it) for it in tracked() if it.endswith(".md")]
    checks: Dict[str, Callable[[], Iterator[str]]] = {
        "what the tables name stands in the sources": lambda: unknown_in_tables(sources),
        "each name that leads to a file is defined there, and its contract has the clauses": lambda: wrong_links_to_names(sources, documents),
        "a planted name, and a planted clause, are found": lambda: unseen_links(sources),
        "the lines that must be believed are as many as the table says": believed_lines,
        "public clauses rest on each definition of specs/ outside of Inside": believed.unused,
        "each definition outside of Inside has a name of its own": believed.named_twice,
        "what a crate cites of the proofs of another are its lemmas": believed.cited_inside,
        "each Prelude passes on what others cite and no more, and each Lib what its definitions name": believed.passed_on,
        "each line of crates.txt lists what its crate names, and no more": graph.edges,
        "the drawing of the crates is that of crates.txt": graph.undrawn,
        "what the documents quote of examples/ stands there": lambda: quotations(documents),
        "the code that the documents quote stands in its crate": lambda: quoted_code(documents),
        "the commands that name an example name one, with words that there are": lambda: commands(documents),
        "a test runs each block of commands": lambda: shell.unrun(documents),
        "a test runs each command with an input that a sentence has": lambda: shell.untyped(documents),
        "the options that the documents name are options": lambda: shell.no_options(documents),
        "a planted block of commands and a planted option are found": shell.unseen,
        "the lines of scripts next to those of TTCN-3 are read": shell.unread_lines,
        "all links lead somewhere": lambda: links(documents),
        "the text of each link is on one line": lambda: plain.broken_links(documents),
        "all paths begin at the top, and lead somewhere": lambda: paths(documents),
        "no line of prose is too long": lambda: long_lines(documents),
        "no document has too many words, and all together have few": lambda: long_documents(documents),
        "no sentence and no cell of the documents is too long, or has an idiom": lambda: plain.in_documents(documents),
        "no sentence of the comments is too long, or has an idiom": lambda: plain.in_comments(tracked()),
        "no text that a client or a script prints has an idiom": lambda: plain.in_messages(tracked()),
        "what the comments name stands in the sources": lambda: plain.unknown_names(tracked(), sources),
        "each definition outside of Inside is said in words": lambda: plain.wordless(tracked()),
        "a planted idiom or long sentence is found": plain.unseen,
        "the numbers of the documents that can be counted are those of the sources": counted.wrong,
        "another number in a document is found": counted.unseen,
        "the sources have the texts that tables give to faults, moves and replies": counted.unsaid,
        "no sentence stands in two documents": lambda: said_twice(documents),
        "each decision has its reason and its consequence": lambda: plain.decisions(read(TOP, "docs/DECISIONS.md")),
        "each document begins with who reads it": lambda: plain.readers(documents),
        "each change was added, changed, fixed or removed": lambda: plain.changes(read(TOP, "CHANGELOG.md")),
        "each library and program has a README, and what it names stands in the sources": lambda: readmes_of_crates(sources),
        "each bug can be planted, has a name of its own, and the gate has few": faults_of_edits,
        "each public call is refused memory in turn, or made with none, or says why not": memory.unlisted,
        "no value is kept for ever, no wait is bare, and no lock is taken under itself": memory.slips,
        "a planted wait, lock or value that is kept is found": lambda: (it for it in memory.PLANTED if not list(memory.slips_in(it))),
        "no number stands for a rule that is written elsewhere": numbers,
        "the first line of each source says what it is": nameless,
        "the files of each crate are in the layout of rt fmt": wrong_layouts,
        "a planted file in another layout is found": unseen_layouts,
        "each copy of the version is the program's": lambda: call([os.path.join(TOP, "tools/version"), "--check"]).output.splitlines(),
        "all crates of tests have the same checks": other_checks,
        "the page is what its sources make": make.differing}
    return status_of(answers(checks))


if __name__ == "__main__":
    sys.exit(main())
