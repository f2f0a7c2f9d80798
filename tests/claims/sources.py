"""The files of the repository, and the names in the sources: functions, types, clauses, definitions, edits, mutants, words of texts. The
documents: their sections, tables, fenced blocks, links, and the commands that name a file of examples/."""
import os
import re
from collections import defaultdict
from dataclasses import dataclass, field
from typing import Dict, Iterator, List, Optional, Set, Tuple

TOP = os.path.dirname(os.path.dirname(os.path.dirname(os.path.abspath(__file__))))
BLOCK = re.compile(r"(?ms)^(?:pub(?:\([a-z]+\))? )?(impl|trait|mod|struct|enum)\b([^{;]*)\{(.*?)^\}")
FUNCTION = re.compile(r'(?m)^\s*(?:pub(?:\([a-z]+\))? )?(?:const |unsafe |extern "C" )*fn (\w+)')
TYPE = re.compile(r"(?m)^\s*(?:pub(?:\([a-z]+\))? )?(?:struct|enum|trait|type|const|static|mod) (\w+)")
MEMBER = re.compile(r"(?m)^    (?:pub(?:\([a-z]+\))? )?([A-Za-z]\w*)[,({: ]")
CLAUSE = re.compile(r"\b(?:ensures|requires|ghost invariant) (\w+) \{")
PROMISE = re.compile(r"\bensures (?:(\w+) )?\{")
HEAD = re.compile(r"(?m)^(?:pub(?:\([a-z]+\))? )?(?:impl|trait)\b([^{;]*)\{")
REEXPORT = re.compile(r"(?ms)^pub use ([^;]*);")
TEXT = re.compile(r'"((?:[^"\\\n]|\\.)*)"')
DEFINITION = re.compile(r"(?m)^ *(?:(?:abbrev|unfoldable|pub) )*(?:(?:record|data) )?([A-Za-z]\w*)(?: [({].*[)}])? :")
FIELD = re.compile(r"(?m)^  pub (\w+) :")
# Of documents: a command that names an example, its name, a link.
COMMAND = re.compile(r"\./ttrun(?: --try)?(?P<words>[^<|`\n]*)< examples/(?P<file>[\w.-]+)(?P<check> \| \./ttrun check)?")
EXAMPLE = re.compile(r"examples/([\w-]+(?:\.[\w-]+)+)")
LINK = re.compile(r"\[[^\]\n]*\]\(([^)\s]+)\)")


def text_of(path: str) -> str:
    """A file, by its path from the top; empty if there is none."""
    whole = os.path.join(TOP, path)
    if not os.path.isfile(whole):
        return ""
    with open(whole, encoding="utf-8") as file:
        return file.read()


def files_below(folder: str, ending: str) -> Iterator[str]:
    """The files with this ending below a folder, in order. Both are paths from the top."""
    for at, folders, names in os.walk(os.path.join(TOP, folder)):
        folders.sort()
        yield from (os.path.relpath(os.path.join(at, it), TOP) for it in sorted(names) if it.endswith(ending))


def crates() -> Dict[str, List[str]]:
    """The crates in the order of crates.txt, each with the libraries that it uses."""
    pairs = [line.partition("#")[0].partition(":") for line in text_of("crates.txt").split("\n")]
    return {name.split()[0]: used.split() for name, colon, used in pairs if colon}


class Sources:
    def __init__(self) -> None:
        self.crates = crates()
        # For each name the crates that have it, and the types, traits, modules and crates around it.
        self.places: Dict[str, Set[str]] = defaultdict(set)
        self.around: Dict[str, Set[str]] = defaultdict(set)
        self.words: Set[str] = {it for used in self.crates.values() for it in used}
        self.edits: Set[str] = set()
        for crate in self.crates:
            self.read_crate(crate)

    def read_crate(self, crate: str) -> None:
        self.places[crate].add(crate)
        for part, ending, read in (("src", ".rt", self.read_code), ("specs", ".antt", self.read_definitions),
                                   ("proofs", ".antt", self.read_definitions), ("must-fail", ".edit", self.read_edit)):
            folder = f"crates/{crate}/{part}"
            for path in files_below(folder, ending):
                read(crate, os.path.relpath(path, folder)[: -len(ending)].split(os.sep), text_of(path))
        for name in re.findall(r"(?m)^mutant: (\w+)$", text_of(f"tests/mutants/{crate}.txt")):
            self.read_edit(crate, [name], "")

    def add(self, crate: str, name: str, around: Set[str]) -> None:
        self.places[name].add(crate)
        self.around[name] |= around | {crate}

    def read_code(self, crate: str, modules: List[str], text: str) -> None:
        for name in modules:
            self.add(crate, name, set())
        for pattern in (FUNCTION, TYPE, CLAUSE):
            for name in pattern.findall(text):
                self.add(crate, name, {*modules})
        for names in REEXPORT.findall(text):
            for name in re.findall(r"\w+", names.rpartition("::")[2] if "{" not in names else names.partition("{")[2]):
                self.around[name] |= {*modules, crate}
        for block in BLOCK.finditer(text):
            members = MEMBER if block[1] in ("struct", "enum") else FUNCTION
            for name in members.findall(block[3]):
                self.add(crate, name, {*re.findall(r"\w+", block[2])})
        for literal in TEXT.findall(text):
            self.words.update(literal.replace("\\n", " ").split())

    def read_definitions(self, crate: str, modules: List[str], text: str) -> None:
        for pattern in (DEFINITION, FIELD):
            for name in pattern.findall(text):
                self.add(crate, name, {*modules})

    def read_edit(self, crate: str, modules: List[str], _: str) -> None:
        self.edits.add(modules[-1])
        self.add(crate, modules[-1], set())

    def defines(self, file: str, name: str) -> bool:
        patterns = (FUNCTION, TYPE) if file.endswith(".rt") else (DEFINITION,)
        return any(name.split("::")[-1] in it.findall(text_of(file)) for it in patterns)

    def promises(self, file: str, name: str) -> List[Set[str]]:
        """The clauses that each function of this name in a file ensures, within the types or modules before `::`; one may have no name."""
        text, (*outer, last) = text_of(file), name.split("::")
        found, functions = [], [*FUNCTION.finditer(text)]
        for at, function in enumerate(functions):
            around = {*re.findall(r"\w+", "".join(HEAD.findall(text, 0, function.start())[-1:])), *re.findall(r"\w+", file)}
            if function[1] == last and around.issuperset(outer):
                found.append({*PROMISE.findall(text, function.end(), functions[at + 1].start() if at + 1 < len(functions) else len(text))})
        return found

    def has(self, name: str) -> bool:
        if "/" in name or name.endswith((".antt", ".rt", ".md")):
            return os.path.exists(os.path.join(TOP, name))
        if name.endswith(".edit"):
            return name[:-5] in self.edits
        if "::" in name:
            path = name.split("::")  # the last of which must be within the others
            return path[-1] in self.places and all(outer in self.around[inner] for outer, inner in zip(path, path[1:]))
        return name.lstrip("-") in self.places or name.lstrip("-") in self.words


@dataclass
class Block:
    line: int
    language: str
    text: str
    before: str


@dataclass
class Document:
    path: str
    lines: List[str] = field(default_factory=list)

    def marked(self) -> Iterator[Tuple[int, str, bool]]:
        """The numbered lines, and whether each is in a block."""
        is_code = False
        for number, line in enumerate(self.lines, 1):
            is_code ^= line.lstrip().startswith("```")
            yield number, line, is_code

    def headings(self) -> Iterator[Tuple[int, str, int]]:
        for number, line, is_code in self.marked():
            found = re.match(r"(#+) (.*)", line)
            if found and not is_code:
                yield number, found[2], len(found[1])

    def anchors(self) -> List[str]:
        return [re.sub(r"[^\w\- ]", "", text.lower()).replace(" ", "-") for _, text, _ in self.headings()]

    def section(self, title: str) -> List[Tuple[int, str]]:
        """The numbered lines below a heading, to the next one of its depth; an empty title is the whole document."""
        if not title:
            return list(enumerate(self.lines, 1))
        heads = list(self.headings())
        for at, (number, text, depth) in enumerate(heads):
            if text == title:
                ends = [line for line, _, other in heads[at + 1:] if other <= depth] + [len(self.lines) + 1]
                return [(line, self.lines[line - 1]) for line in range(number + 1, ends[0])]
        return []

    def rows(self, section: str) -> Iterator[Tuple[int, List[Tuple[str, str]]]]:
        """The rows of the tables of a section: the number of the line, and each cell after the title of its column."""
        head: List[str] = []
        for number, line in self.section(section):
            cells = cells_of(line)
            if cells and head and not re.fullmatch("[-:| ]+", line):
                yield number, list(zip(head, cells))
            head = (head or cells) if cells else []

    def blocks(self) -> Iterator[Block]:
        """The fenced blocks. What is before one reaches back to the block of output or the heading before it."""
        before: List[str] = []
        inside: Optional[Tuple[int, str, List[str]]] = None
        for number, line in enumerate(self.lines, 1):
            if inside is not None and line.startswith("```"):
                begun, language, text = inside
                yield Block(begun, language, "".join(f"{it}\n" for it in text), "\n".join(before))
                before = before + text if language else []
                inside = None
            elif inside is not None:
                inside[2].append(line)
            elif line.startswith("```"):
                inside = number + 1, line[3:].strip(), []
            else:
                before = [] if line.startswith("#") else [*before, line]

    def commands(self) -> Iterator[Tuple[int, Tuple[str, ...], str, bool]]:
        """The commands that read an example: line, words, file, whether `check` reads what is written."""
        for number, line in enumerate(self.lines, 1):
            for found in COMMAND.finditer(line):
                yield number, tuple(found["words"].split()), found["file"], found["check"] is not None

    def links(self) -> Iterator[Tuple[int, str]]:
        for number, line in enumerate(self.lines, 1):
            for found in LINK.finditer(line):
                yield number, found[1]


def read(top: str, path: str) -> Document:
    with open(os.path.join(top, path), encoding="utf-8") as file:
        return Document(path, file.read().split("\n"))


def cells_of(line: str) -> List[str]:
    """The cells of a line of a table, none of another line."""
    return [it.strip() for it in re.split(r"(?<!\\)\|", line)[1:-1]] if line.startswith("|") else []


def output_of(words: Tuple[str, ...], file: str) -> str:
    """The file of examples/ that has the output of a command on a file of examples/."""
    stem = file.partition(".")[0]
    if words[:1] == ("replay",):
        return f"{stem}.replies"
    rule = ""
    if "--stop-on" in words:
        rule = f".stop-on-{words[words.index('--stop-on') + 1]}"
    form = next((it for it in ("csv", "history", "evidence", "summary") if f"--{it}" in words), "report")
    return f"{stem}{rule}.{form}"


def named_by(block: Block) -> List[str]:
    """The files of examples/ that are before a block, and those with the output of the commands before it."""
    names = [output_of(tuple(it["words"].split()), it["file"]) for it in COMMAND.finditer(block.before)]
    return names + EXAMPLE.findall(block.before)
