#!/usr/bin/env python3
"""The graph of the crates: whether each line of crates.txt lists what its crate names and no more, and its drawing.

`python3 tests/claims/graph.py` prints the drawing that is in docs/architecture.md; with --write it is written there.
"""
import os
import re
import sys
from typing import Dict, Iterator, List, Set

from sources import TOP, crates, files_below, text_of

PAGE = "docs/architecture.md"
BEGIN, END = "<!-- the graph of the crates, by tests/claims/graph.py -->\n", "<!-- the end of the graph -->\n"
COMMENT = re.compile(r"(?m)(?://|--).*$")
# What a file names: a library of Rust, or the definitions and lemmas of one.
NAMED = re.compile(r"(?<![\w.:])([a-z]\w*)::|\buse ([a-z]\w*)\b|\bRattle\.([a-z]\w*)")


def named(crate: str) -> Set[str]:
    """The words of a crate's files that may be libraries: what is no module of its own."""
    found: Set[str] = set()
    own: Set[str] = set()
    for part, ending in (("src", ".rt"), ("specs", ".antt"), ("proofs", ".antt")):
        for path in files_below(f"crates/{crate}/{part}", ending):
            text = COMMENT.sub("", text_of(path))
            found.update(it for some in NAMED.findall(text) for it in some)
            own.update(re.findall(r"(?m)^(?:pub )?mod (\w+)", text) if part == "src" else [])
    return found - own


def edges() -> Iterator[str]:
    """Libraries that a line of crates.txt lists and no file of its crate names, or that a file names and the line does not list."""
    lines = crates()
    libraries = {it for used in lines.values() for it in used}
    for crate, used in lines.items():
        there = (named(crate) & libraries) - {crate}
        yield from (f"crates.txt: no file of {crate} names {it}" for it in used if it not in there)
        yield from (f"crates.txt: {crate} names {it}, and its line does not" for it in sorted(there.difference(used)))


def below(crate: str, lines: Dict[str, List[str]]) -> Set[str]:
    own = [it for it in lines[crate] if it in lines]
    return {*own, *(deep for it in own for deep in below(it, lines))}


def title(crate: str) -> str:
    return text_of(f"crates/{crate}/README.md").partition("\n")[0].partition(": ")[2].strip()


def drawing() -> Iterator[str]:
    """The libraries and the program by their layers, lowest first, each with those that it is built on and none of these does."""
    lines = {name: used for name, used in crates().items() if re.fullmatch(r"tc_(?!\w*_tests$)\w+|ttrun", name)}
    deep = {it: below(it, lines) for it in lines}
    layer: Dict[str, int] = {}
    for it in sorted(lines, key=lambda name: len(deep[name])):
        layer[it] = 1 + max((layer[under] for under in deep[it]), default=-1)
    yield "| layer | crate | what it is | built on |"
    yield "|---|---|---|---|"
    before = -1
    for it in sorted(lines, key=lambda name: (layer[name], name)):
        direct = sorted(deep[it].difference(*(deep[under] for under in deep[it])))
        number = str(layer[it]) if layer[it] != before else ""
        yield " ".join(("|", number, "|", f"[{it}](../crates/{it}/README.md)", "|", title(it), "|", ", ".join(direct), "|")).replace("  ", " ")
        before = layer[it]


def page_with_drawing() -> str:
    (head, begin, rest), block = text_of(PAGE).partition(BEGIN), "\n".join(drawing())
    _, end, tail = rest.partition(END)
    if not begin or not end:
        raise ValueError(f"{PAGE} has not both marks of the graph")
    return f"{head}{BEGIN}\n{block}\n\n{END}{tail}"


def undrawn() -> Iterator[str]:
    if page_with_drawing() != text_of(PAGE):
        yield f"{PAGE}: the drawing is not what crates.txt gives; tests/claims/graph.py --write writes it"


if __name__ == "__main__":
    if "--write" in sys.argv:
        page = page_with_drawing()
        with open(os.path.join(TOP, PAGE), "w", encoding="utf-8") as file:
            file.write(page)
    else:
        print("\n".join(drawing()))
