"""What of specs/ a reader must believe: the definitions that the clauses of public functions rest on.

`python3 tests/claims/believed.py` prints the table that is in docs/architecture.md.
"""
import os
import re
from functools import lru_cache
from typing import Dict, Iterator, List, NamedTuple, Set, Tuple

from memory import offered_by, used
from sources import TOP, crates, files_below, text_of

# Of these, what a case that was run reports, and the results of a campaign of cases.
HEADLINE = (("tc_exec", "run_case"), ("tc_exec", "run_case_with"), ("tc_campaign", "run_campaign"), ("tc_campaign", "run_campaign_with"))
# What a type keeps of the histories that it represents. Clauses only pass it on: a new state represents no entries, each call adds its
# entry, and each answer is about every list that is represented. So they say the same whatever it is, and nobody has to believe it.
PASSED_ON = {("tc_rules.specs.Standing", "StandsFor")}
USE = re.compile(r"^\s*(?:unfoldable )?(?:pub )?(?:ghost )?use (?:Rattle\.)?([\w.]+?)(?:\.(\{.*\})|\.(\S+) as (\w+)| as (\w+));?\s*$")
HEAD = re.compile(r"^(?:(?:abbrev|unfoldable|pub|record|data) )*")
WORD = re.compile(r"[^\s(){}\[\],;:]+")

Place = Tuple[str, str]


class Definition(NamedTuple):
    """A definition: its place, what it cites of its own module and of others, and its lines without comments."""

    crate: str
    file: str
    name: str
    cites: Set[Place]
    lines: int


def listed_names(listed: str, below: str = "") -> Iterator[str]:
    """The names of an import's braces, those of inner braces with the path before them."""
    depth, begin = 0, 0
    for at, letter in enumerate(listed + ","):
        depth += (letter == "{") - (letter == "}")
        if letter != "," or depth:
            continue
        path, inner, rest = listed[begin:at].strip().partition(".{")
        begin = at + 1
        yield from listed_names(rest[:-1], f"{below}{path}.") if inner else [below + path] if path else []


class Imports:
    """What the words of a file mean by its imports."""

    def __init__(self, text: str):
        self.modules: Dict[str, str] = {}
        self.names: Dict[str, Place] = {}
        for line in text.split("\n"):
            found = USE.match(line)
            if not found:
                continue
            module, listed, last, by, other = found.groups()
            for name in listed_names((listed or "{}")[1:-1]):
                old, _, new = name.partition(" as ")
                below, _, own = old.rpartition(".")
                self.names[(new or own).strip("◌")] = (f"{module}.{below}".rstrip("."), own.strip("◌"))
            if by or other:
                self.modules[by or other] = f"{module}.{last}" if last else module

    def places(self, word: str, module: str) -> Iterator[Place]:
        """What a word may mean, which is in this module."""
        first, _, rest = word.partition(".")
        if first in self.modules and rest:
            yield self.modules[first], rest.split(".")[0]
        if first in self.names:
            yield self.names[first]
        yield module, first


def module_of(path: str) -> str:
    """`crates/tc_rules/specs/Inside/Steps.antt` as `tc_rules.specs.Inside.Steps`."""
    return path[len("crates/"):-len(".antt")].replace("/", ".")


def at_the_margin(text: str) -> Iterator[str]:
    """The lines of a file, those in modules with parameters as if they had none."""
    margin, in_head = 0, False
    for line in text.split("\n"):
        indent = len(line) - len(line.lstrip())
        if line.strip():
            margin = margin if indent >= margin or in_head else indent
        if in_head or line[margin:].startswith("module "):
            in_head = not line.endswith("where")
            margin += 0 if in_head else 2
        else:
            yield line[margin:]


def blocks_of(text: str) -> Iterator[List[str]]:
    """The definitions of a file: lines up to an empty one, or to one of comment at the margin."""
    block: List[str] = []
    for line in [*at_the_margin(text), ""]:
        if line.strip() and not re.match(r"--|(?:unfoldable )?(?:pub )?use |(?:pub )?mod |infix", line):
            block += [] if line.lstrip().startswith("--") else [line]
        elif block:
            yield block
            block = []


def constructors(block: List[str]) -> Iterator[str]:
    if re.match(r"(?:pub )?data\b", block[0]):
        for line in block[1:]:
            found = re.match(r"\s+(?:pub )?([^\W\d]\w*) :", line)
            if found:
                yield found[1]


def defined() -> Dict[Place, Definition]:
    """All definitions of specs/, by module and name; a constructor leads to its type."""
    found: Dict[Place, Definition] = {}
    for crate in sorted(crates()):
        for path in files_below(f"crates/{crate}/specs", ".antt"):
            text, module = text_of(path), module_of(path)
            imports = Imports(text)
            for line in re.findall(r"(?m)^(?:unfoldable )?pub (use .*)$", text):
                for name, place in Imports(line).names.items():
                    found[module, name] = Definition(crate, path, name, {place}, 0)
            for block in blocks_of(text):
                name = WORD.match(HEAD.sub("", block[0]))
                if not name:
                    raise ValueError(f"{path}: no name in {block[0]!r}")
                body = "\n".join(block)
                cites = {place for word in WORD.findall(body) for place in imports.places(word, module)}
                own = name[0].strip("◌")
                # (a comment between two cases of a definition does not end it)
                begun = found.pop((module, own), Definition(crate, path, own, set(), 0))
                it = Definition(crate, path, own, begun.cites | cites, begun.lines + len(block))
                for key in (own, *constructors(block)):
                    found.setdefault((module, key), it)
    return found


def items_of(text: str) -> Iterator[Tuple[str, str, bool, str]]:
    """The functions and ghost members of a file: the type of the impl or the trait around it or none, the name, whether it may be
    called from elsewhere, and its clauses."""
    around, is_open, lines, at = "", False, text.split("\n"), 0
    while at < len(lines):
        line = lines[at]
        impl = re.match(r"(?:pub )?(impl|trait)\b(?:<[^{]*?>)? *(?:([\w:]+)(?:<[^{]*?>)? for )?(?:&?(?:mut )?)?([\w]+)", line)
        if impl and line.rstrip().endswith("{"):
            around, is_open = impl[3], impl[1] == "trait" or impl[2] is not None
        elif line.startswith("}"):
            around, is_open = "", False
        ghost = re.match(r"\s*ghost (\w+)(?::| =)", line)
        function = re.match(r"\s*(pub )?(?:const |extern \"C\" )?fn (\w+)", line)
        if ghost and not re.match(r"\s*ghost use", line):
            body = line
            while not re.search(r"\}[;,]?\s*$", lines[at]):
                at += 1
                body += "\n" + lines[at]
            yield around, ghost[1], True, body
        elif function:
            body, first = "", at
            while not re.match(r"\s*\{", lines[at]) and not lines[at].rstrip().endswith((";", "{}")) and not (
                    at == first and lines[at].rstrip().endswith("{")):
                at += 1
                body += "\n" + lines[at]
            clauses = re.search(r"\b(?:requires|ensures)\b[\s\S]*", body)
            yield around, function[2], bool(function[1]) or is_open, clauses[0] if clauses else ""
        at += 1


def public_clauses(crate: str) -> Iterator[Tuple[str, Set[Place]]]:
    """The functions that a crate offers, each with what its clauses cite."""
    offered, types = offered_by(crate)
    types |= {name for _, name in used(text_of(f"crates/{crate}/src/lib.rt"))}
    for path in files_below(f"crates/{crate}/src", ".rt"):
        text = text_of(path)
        imports = Imports(text)
        for around, name, is_open, clauses in items_of(text):
            is_offered = around in types if around else {name, "*"} & offered[path]
            # (what a type keeps under its view is proved, and nobody has to believe it)
            if is_open and name != "invariant" and is_offered:
                yield name, {place for word in WORD.findall(clauses) for place in imports.places(word, "")}


def rested_on(places: Set[Place], all_of: Dict[Place, Definition]) -> Set[Place]:
    found: Set[Place] = set()
    left = list(places)
    while left:
        place = left.pop()
        it = all_of.get(place)
        if it and (key := (module_of(it.file), it.name)) not in found:
            found.add(key)
            left.extend(it.cites if key not in PASSED_ON else ())
    return found


def lines_of(places: Set[Place], all_of: Dict[Place, Definition]) -> int:
    return sum(all_of[it].lines for it in places)


def libraries() -> List[str]:
    """The crates that have definitions, in the order of crates.txt."""
    return [it for it in crates() if os.path.isdir(os.path.join(TOP, "crates", it, "specs"))]


@lru_cache(maxsize=None)
def rested_upon() -> Tuple[Dict[Place, Definition], Set[Place], Set[Place]]:
    """All definitions, those on which the clauses of public functions rest, and those on which the headline does."""
    all_of = defined()
    cited: Set[Place] = set()
    headline: Set[Place] = set()
    for crate in libraries():
        for name, places in public_clauses(crate):
            cited |= places
            headline |= places if (crate, name) in HEADLINE else set()
    return all_of, rested_on(cited, all_of), rested_on(headline, all_of)


def table() -> Iterator[str]:
    all_of, cited, headline = rested_upon()
    for crate in libraries():
        own, of_headline = ({it for it in some if it[0].split(".")[0] == crate} for some in (cited, headline))
        yield f"| `{crate}` | {lines_of(own, all_of)} | {lines_of(of_headline, all_of) or ''} |".replace("|  |", "| |")
    yield f"| all | {lines_of(cited, all_of)} | {lines_of(headline, all_of)} |"


def unused() -> Iterator[str]:
    all_of, cited, _ = rested_upon()
    for place in sorted({(module_of(it.file), it.name) for it in all_of.values() if it.lines} - cited):
        if ".Inside" not in place[0]:
            yield f"{place[0]}.{place[1]}: {all_of[place].lines} lines"


def named_twice() -> Iterator[str]:
    """Names that two definitions outside of Inside have, in any two files of specs/."""
    places: Dict[str, Set[str]] = {}
    for it in defined().values():
        if it.lines and ".Inside" not in module_of(it.file):
            places.setdefault(it.name, set()).add(it.file)
    for name, files in sorted(places.items()):
        if len(files) > 1:
            yield f"{name}: {', '.join(sorted(files))}"


def files_of(crate: str) -> Iterator[str]:
    """The sources, definitions and proofs of a crate."""
    for ending in (".antt", ".rt"):
        yield from (it for it in files_below(f"crates/{crate}", ending) if "/out/" not in it and "/must-fail/" not in it)


def imported(path: str) -> Set[Place]:
    """What the imports of a file name: modules, and names in them."""
    imports = Imports(text_of(path))
    return {*imports.names.values(), *((module, "") for module in imports.modules.values())}


def cited_inside() -> Iterator[str]:
    """Proofs of a crate that another cites, and that are neither a lemma made for it nor what the toolchain makes of a type."""
    for crate in sorted(crates()):
        for path in files_of(crate):
            for module, _ in sorted(imported(path)):
                other, _, cited = module.partition(".proofs.")
                if cited and other.startswith("tc_") and other != crate and not cited.startswith("Lemmas") and not cited.endswith("TheSendSync"):
                    yield f"{path}: {module}"


def cited_of(crate: str) -> Dict[str, Set[str]]:
    """What the files of a crate import of the Prelude of each other crate."""
    found: Dict[str, Set[str]] = {}
    for module, name in (it for path in files_of(crate) for it in imported(path)):
        if module.endswith(".specs.Prelude") and name:
            found.setdefault(module.split(".")[0], set()).add(name)
    return found


def passed_on() -> Iterator[str]:
    """Names of a Prelude that no other crate cites, and crates whose Lib leaves out a lower one that their definitions name."""
    cited: Dict[str, Set[str]] = {}
    for crate in crates():
        for other, names in cited_of(crate).items():
            cited.setdefault(other, set()).update(names if other != crate else ())
    for crate in libraries():
        specs = [it for it in files_below(f"crates/{crate}/specs", ".antt") if "/Inside" not in it and not it.endswith(("/Lib.antt", "/Prelude.antt"))]
        named = {module.split(".")[0] for path in specs for module, _ in imported(path) if re.match(r"tc_\w+\.specs\.Prelude$", module)} - {crate}
        passed = set(re.findall(r"(?m)^pub use Rattle\.(tc_\w+)\.specs\.Prelude as", text_of(f"crates/{crate}/specs/Lib.antt")))
        yield from (f"crates/{crate}/specs/Lib.antt: it does not pass on {it}" for it in sorted(named - passed))
        prelude = f"crates/{crate}/specs/Prelude.antt"
        if os.path.isfile(os.path.join(TOP, prelude)):
            offered_names = {name for _, name in imported(prelude)} - {""}
            yield from (f"{prelude}: no other crate cites {it}" for it in sorted(offered_names - cited.get(crate, set())))


if __name__ == "__main__":
    print("\n".join(table()))
