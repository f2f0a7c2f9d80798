"""The public calls of the libraries: where each is refused memory, or made with none. And what no clause can say: that a value is let go,
that a wait looks again, and that no lock is taken under itself.

A call that can answer that memory ran out has each of its growths refused in turn, and one that cannot is made with every growth
refused. `crates/refused_memory` names its calls where a refusal begins. What it does not make is in tests/hostile/exempt.py, each with
a reason. `python3 tests/claims/memory.py` prints the public calls and where each is made.
With --plant each is taken out of its list in turn, and must be missed.
"""
import os
import re
import sys
from collections import defaultdict
from typing import Dict, Iterable, Iterator, List, NamedTuple, Set, Tuple

sys.dont_write_bytecode = True
sys.path.append(os.path.join(os.path.dirname(os.path.dirname(os.path.abspath(__file__))), "hostile"))

from sources import crates, files_below, text_of
from exempt import REFUSED_BY_THE_PROGRAM, UNREFUSED, UNTRIED, WITHOUT_ALLOCATOR

PROGRAM = "crates/refused_memory/src"
# What the toolchain's library answers if memory runs out, and clap, whose error may be that.
REFUSALS = {"NoMemory", "AllocError", "AllocFailed", "Error"}
# What reports a refusal though it is no Result: a campaign that was aborted, a behaviour that was starved, a task that ended so. Only a
# call that is passed an allocator or a handle makes one of it.
TELLING = {"Results", "CampaignEnd", "Back", "Outcome", "Ending"}
# What holds an allocator, of the toolchain's library.
HOLDERS = {"Global", "Vec", "Box", "Arc", "String", "Mutex", "IndexMap"}
HEAD = re.compile(r"^( *)(pub )?(?:const |unsafe |extern \"C\" )*fn (\w+)\s*(?=[<(])")
TYPE = re.compile(r"(?ms)^(pub )?(struct|enum|trait) (\w+)(.*?)^[};]")
IMPL = re.compile(r"^(?:unsafe )?(?:impl|pub trait|trait)\b")
USE = re.compile(r"(?ms)^pub use ([^;]*);")
MODULE = re.compile(r"(?m)^pub mod (\w+);")
CALLED = re.compile(r"\b(\w+)(?:::<[^(]*?>)?\(")
# A function of the program; where a refusal begins, each growth by `begin_each`, up to its end.
FUNCTION = re.compile(r"(?ms)^ *(?:pub(?:\(crate\))? )?fn (\w+)(.*?)(?=^ *(?:pub(?:\(crate\))? )?fn |\Z)")
REGION = re.compile(r'(?s)\.begin(_each)?\(\s*"([^"]*)",?\s*\)(.*?)\.end\(\)')


class Call(NamedTuple):
    """A public call: its crate, the type or trait that it is of, or none, its name, and its head."""

    crate: str
    owner: str
    name: str
    head: str

    @property
    def path(self) -> str:
        return f"{self.owner}::{self.name}" if self.owner else self.name


def libraries() -> List[str]:
    """The libraries, without the crates of tests."""
    return [it for it in crates() if not it.endswith("_tests") and text_of(f"crates/{it}/src/lib.rt")]


def used(text: str) -> Iterator[Tuple[List[str], str]]:
    """What a file passes on: the modules that lead there, and the name."""
    for tree in USE.findall(text):
        path, brace, names = re.sub(r"\s", "", tree).partition("::{")
        modules = path.split("::")
        for name in names.rstrip("}").split(",") if brace else [modules.pop()]:
            if name:
                yield [it for it in modules if it != "crate"], name


def file_of(crate: str, modules: List[str]) -> str:
    return f"crates/{crate}/src/{'/'.join(modules) if modules else 'lib'}.rt"


def reachable(crate: str, modules: List[str]) -> Iterator[Tuple[str, str]]:
    """The names that a public module offers, each with its file; `*` for all of a file."""
    text = text_of(file_of(crate, modules))
    if modules:
        yield file_of(crate, modules), "*"
    for path, name in used(text):
        if text_of(file_of(crate, path)):
            yield file_of(crate, path), name
    for name in MODULE.findall(text):
        yield from reachable(crate, [*modules, name])


def offered_by(crate: str) -> Tuple[Dict[str, Set[str]], Set[str]]:
    """What a library offers: the names of each file, `*` for all of it; and all names, with the types and traits of such a file."""
    offered: Dict[str, Set[str]] = defaultdict(set)
    for file, name in reachable(crate, []):
        offered[file].add(name)
    names = {name for all_of in offered.values() for name in all_of}
    return offered, {it[2] for file, kinds in offered.items() if "*" in kinds for it in TYPE.findall(text_of(file)) if it[0]} | names


def heads(text: str) -> Iterator[Tuple[str, str, bool, str, str]]:
    """Each function of a file: what it is of, the trait that this is an impl of, or none, whether it is public, its name and its head."""
    owner, trait, lines = "", "", text.split("\n")
    for at, line in enumerate(lines):
        block = IMPL.match(line)
        if block:
            words = re.sub(r"<[^<>]*>", "", re.sub(r"<[^<>]*>", "", " ".join(lines[at:at + 4]).partition("{")[0]))
            names = re.findall(r"\w+", words.split(" for ")[-1].partition("where")[0].partition(":")[0])
            owner = next(it for it in names if it not in ("impl", "pub", "trait", "unsafe"))
            trait = re.findall(r"\w+", words.partition(" for ")[0])[-1] if " for " in words else ""
        elif line.startswith("}"):
            owner, trait = "", ""
        found = HEAD.match(line)
        if found:
            rest = re.split(r"(?m)^\s+(?:requires|ensures)\b|\{\s*$|;\s*$", "\n".join(lines[at:at + 14]), maxsplit=1)[0]
            yield owner if found[1] else "", trait, bool(found[2]), found[3], " ".join(rest.split())


def surface() -> List[Call]:
    """The public calls of all libraries, as they can be named from the root of each, and what public types make of the calls of their
    traits; but their laws, which do nothing."""
    found: Dict[Call, None] = {}
    offers = {crate: offered_by(crate) for crate in libraries()}
    every = {name for _, types in offers.values() for name in types}
    for crate, (offered, types) in offers.items():
        for file in files_below(f"crates/{crate}/src", ".rt"):
            for owner, trait, is_public, name, head in heads(text_of(file)):
                is_offered = bool({name, "*"} & offered[file]) if not owner else owner in types
                is_call = is_offered and is_public if not trait else trait in every and owner in every
                if is_call and not file.endswith("/laws.rt"):
                    found[Call(crate, owner, name, head)] = None
    return list(found)


def types() -> Iterator[Tuple[str, str, str]]:
    """The types of the libraries: the kind, the name, and the body without comments."""
    for path in (it for crate in libraries() for it in files_below(f"crates/{crate}/src", ".rt")):
        yield from ((kind, name, re.sub(r"//.*", "", body)) for _, kind, name, body in TYPE.findall(text_of(path)))


def with_those_that_have(found: Set[str], parts: Iterable[Tuple[str, Set[str]]]) -> Set[str]:
    """These types, and each that has one of them among its parts, or one of those."""
    left = list(parts)
    while True:
        more = {name for name, its in left if its & found} - found
        if not more:
            return found
        found = found | more


def faults() -> Set[str]:
    """The types by which a call can answer that memory ran out: that, and each that has one of them in it as a cause."""
    return with_those_that_have(REFUSALS, ((name, set(re.findall(r"\w+", body))) for kind, name, body in types() if kind == "enum"))


def can_be_refused(call: Call, causes: Set[str]) -> bool:
    taken, _, answer = call.head.rpartition(") -> ")
    error = answer.partition("Result<")[2]
    tells = set(re.findall(r"\w+", answer)) & TELLING and re.search(r"\b(?:alloc|rt):", taken)
    return bool(set(re.findall(r"\w+", error)) & causes or tells)


class Lists:
    """The calls that crates/refused_memory names, each with its files, and what each of its functions calls."""

    def __init__(self) -> None:
        self.refused: Dict[str, List[str]] = defaultdict(list)
        self.quiet: Dict[str, List[str]] = defaultdict(list)
        self.makes: Dict[str, Set[str]] = defaultdict(set)
        self.faults: List[str] = []
        texts = {os.path.basename(it): text_of(it) for it in files_below(PROGRAM, ".rt")}
        functions = [(file, *it) for file, text in texts.items() for it in FUNCTION.findall(text)]
        for _, name, body in functions:
            self.makes[name] |= set(CALLED.findall(body))
        for file, _, body in functions:
            self.read_regions(file, body)

    def read_regions(self, file: str, body: str) -> None:
        """The beginnings of refusals, each up to its end."""
        for each, names, region in REGION.findall(body):
            made = self.all_made(set(CALLED.findall(region)))
            for name in names.replace("\\", " ").split():
                (self.quiet if each else self.refused)[name].append(file)
                if name.split("::")[-1] not in made:
                    self.faults.append(f"{file}: {name} is not called where a refusal begins that names it")

    def all_made(self, names: Set[str]) -> Set[str]:
        """What is called, and what the functions of the program call that are."""
        found, more = set(names), set(names)
        while more:
            more = {it for name in more for it in self.makes.get(name, ())} - found
            found |= more
        return found


def meant(path: str, calls: List[Call]) -> List[Call]:
    """The public calls that a list names: as `call` or `Type::call`, with the crate before it where two have the same."""
    return [it for it in calls if path in (it.path, f"{it.crate}::{it.path}")]


def misnamed(names: Iterable[str], calls: List[Call], exempt: bool) -> Iterator[str]:
    """Names of a list that are no public call, or of several; an exemption may be of several that are alike."""
    for name in names:
        count = len(meant(name, calls))
        if not count or (count > 1 and not exempt):
            yield f"{name} is the name of {count} public calls"


def held(body: str) -> Set[str]:
    """The types of the fields of a type, by its body: the words of that without the names of its fields and variants."""
    text = re.sub(r"#\[.*", "", body)
    return set(re.findall(r"\w+", re.sub(r"(?m)^\s*(?:pub(?:\(crate\))? )?\w+\b(?!<)", "", text)))


def holds_allocator(call: Call, holding: Set[str]) -> bool:
    """Whether what a call is handed may hold an allocator, by the types in its head and its own type."""
    taken = call.head.partition(" -> ")[0]
    types = set(re.findall(r"\w+", taken)) | ({call.owner} if re.search(r"\bself\b", taken) else set())
    return bool(types & holding or re.search(r"\b(?:alloc|rt):|: (?:Read|Write)\b", taken))


def unlisted() -> Iterator[str]:
    """Public calls that are in no list, and what the lists name wrongly."""
    yield from unlisted_in(surface(), faults(), Lists())


def unlisted_in(calls: List[Call], causes: Set[str], lists: Lists) -> Iterator[str]:
    """The same of these calls and these lists; the causes are the types that report a refusal."""
    yield from lists.faults
    holding = with_those_that_have(HOLDERS, ((name, held(body)) for kind, name, body in types() if kind != "trait"))
    for name in WITHOUT_ALLOCATOR:
        yield from (f"{it.crate}: {it.path} is handed an allocator" for it in meant(name, calls) if holds_allocator(it, holding))
    for title, made, exemptions, wanted in (("memory is refused in turn to", [*lists.refused, *REFUSED_BY_THE_PROGRAM], UNREFUSED, True),
                                            ("no memory is given to", list(lists.quiet), UNTRIED, False)):
        exempt = [it for names, _ in exemptions for it in names]
        yield from misnamed(made, calls, False)
        yield from misnamed(exempt, calls, True)
        yield from (f"{it} is exempt, and made" for it in exempt if it in made)
        listed = {it for name in [*made, *exempt] for it in meant(name, calls)}
        for call in calls:
            if can_be_refused(call, causes) is wanted and call not in listed:
                yield f"{call.crate}: {call.path} stands in no list of the calls that {title}"
            if call in listed and wanted and not can_be_refused(call, causes):
                yield f"{call.crate}: {call.path} cannot answer that memory was refused"


def missed_nowhere() -> Iterator[str]:
    """The calls of the program's lists that nobody misses if they are taken out: none should be."""
    calls, causes, lists = surface(), faults(), Lists()
    for made, wanted in ((lists.refused, True), (lists.quiet, False)):
        for name in [it for it in made if any(can_be_refused(call, causes) is wanted for call in meant(it, calls))]:
            files = made.pop(name)
            if not any(name.split("::")[-1] in it for it in unlisted_in(calls, causes, lists)):
                yield name
            made[name] = files


KEPT = re.compile(r"\bmem::forget\b|\bforget\(|\bManuallyDrop\b|\bBox::leak\b|\.leak\(")
# In a file that has a condition; `wait_while` looks again each time it wakes.
BARE = re.compile(r"\bCondvar::wait\(|\.wait\(")
WHOLE = re.compile(r"(?ms)^( *)(?:pub(?:\([a-z]+\))? )?fn (\w+)(.*?)^\1\}")
PLANTED = ("mem::forget(book);", "let kept = ManuallyDrop::new(board);", "Box::leak(boxed);", "use std::sync::Condvar;\nchanged.wait(rt, book);",
           "fn record() {\n    let book = book.lock(rt);\n    book.lock(rt);\n}", "fn wait() {\n    book.lock(rt);\n}\nfn wake() {\n    self.wait(rt);\n    book.lock(rt);\n}")


def slips_in(text: str) -> Iterator[str]:
    """What a file has of it."""
    code = re.sub(r"//.*", "", text)
    yield from KEPT.findall(code)
    if "Condvar" in code:
        yield from (f"a bare {it}" for it in BARE.findall(code))
    bodies = {name: body for _, name, body in WHOLE.findall(code)}
    locking = [name for name, body in bodies.items() if ".lock(" in body]
    for name, body in bodies.items():
        if body.count(".lock(") + sum(len(re.findall(rf"\bself\.{it}\(", body)) for it in locking) > 1:
            yield f"{name} takes a lock twice"


def slips() -> Iterator[str]:
    """The same of each file of code."""
    for path in files_below("crates", ".rt"):
        yield from (f"{path}: {it}" for it in slips_in(text_of(path)))


def main() -> int:
    if "--plant" in sys.argv:
        found = list(missed_nowhere())
        print("\n".join(found) or "each call is missed where it is taken out of its list")
        return 1 if found else 0
    causes, lists = faults(), Lists()
    for call in surface():
        kind, where = ("refused", lists.refused) if can_be_refused(call, causes) else ("quiet", lists.quiet)
        files = [file for name in (call.path, f"{call.crate}::{call.path}") for file in where.get(name, [])]
        print(f"{call.crate:14} {call.path:34} {kind:8} {' '.join(sorted(set(files)))}".rstrip())
    return 0


if __name__ == "__main__":
    sys.exit(main())
