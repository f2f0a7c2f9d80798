#!/usr/bin/env python3
"""Joins the sources of the page into one file, and makes the constants of the crate tc_answer of it.

usage: page/make.py [--check]

It writes page/viewer.html, which is the page with no history in it, and the two parts between which a history text is put:
crates/tc_answer/src/head.rt and crates/tc_answer/src/tail.rt. With --check nothing is written: a line for each file that is not
what the sources make, and status 1 if there is one.
"""
import base64
import hashlib
import json
import os
import re
import sys
from typing import Dict, List

TOP = os.path.dirname(os.path.dirname(os.path.abspath(__file__)))
# A page is HEAD, a history text as it is, and TAIL. HEAD ends with this mark, which is there once.
MARK = '<script type="text/plain" id="history">'
# The crate that has the two parts, and the folders of the sources of the pages.
CRATE, FOLDERS = "crates/tc_answer", ("page", "page/play")
IMPORT = re.compile(r'(?m)^import \{ ([^;]*?) \} from "\.{1,2}/(\w+)\.mjs";\n')
DEFINED = re.compile(r"(?m)^(?:export )?(?:async )?(?:function|class|const|let) (\w+)")


def source(name: str) -> str:
    (path,) = [path for path in (os.path.join(TOP, folder, name) for folder in FOLDERS) if os.path.exists(path)]
    with open(path, encoding="utf-8") as file:
        return file.read()


def modules(name: str, met: List[str]) -> List[str]:
    """A module after all that it imports, each once."""
    for _, imported in IMPORT.findall(source(f"{name}.mjs")):
        if imported not in met:
            modules(imported, met)
    met.append(name)
    return met


def bare(text: str) -> str:
    """The text without empty lines, leading blanks, and lines that are a comment."""
    lines = (line.strip() for line in text.split("\n"))
    return "\n".join(line for line in lines if line and not line.startswith("// ") and not re.fullmatch(r"/\*.*\*/", line)) + "\n"


def style(*names: str) -> str:
    return "\n" + bare("".join(map(source, names)))


def meanings() -> str:
    """What each dynamic error means, by its name, and as `last` that its run was started before: the words of the program."""
    found = re.findall(r'(?:Fault::|let )(\w+) =>? "(?:: )?(.*)"', source("../crates/tc_report/src/meaning.rt"))
    return json.dumps({re.sub(r"\B(?=[A-Z])", "-", name).lower(): words for name, words in found})


def script(main: str) -> str:
    """All modules of a page as one script, in one scope, without the words that part them."""
    joined = "".join(IMPORT.sub("", source(f"{name}.mjs")) for name in modules(main, [])).replace("MEANINGS = {}", f"MEANINGS = {meanings()}")
    names = DEFINED.findall(joined)
    twice = sorted({name for name in names if names.count(name) > 1})
    if twice:
        sys.exit(f"two modules of the page define {', '.join(twice)}")
    return '\n"use strict";\n' + bare(re.sub(r"(?m)^export ", "", joined))


def policy(style_text: str, script_text: str) -> str:
    """What a page may load: this style and this script, by their hashes, and nothing else."""
    sums = [base64.b64encode(hashlib.sha256(it.encode()).digest()).decode() for it in (style_text, script_text)]
    return "style-src 'sha256-{}'; script-src 'sha256-{}'".format(*sums)


def filled(frame: str, parts: Dict[str, str]) -> str:
    text = bare(re.sub(r"(?s)<!-- .*? -->\n", "", source(frame)))
    return re.sub(r"\{\{(\w+)\}\}", lambda found: parts[found[1]], text)


def version() -> str:
    return re.search(r'VERSION: &str = "([^"]*)"', source("../crates/tc_command/src/command.rt"))[1]


def page() -> str:
    parts = {"style": style("page.css"), "script": script("main")}
    return filled("page.html", {**parts, "policy": policy(parts["style"], parts["script"]), "version": version()})


def constant(name: str, says: str, text: str) -> str:
    """A module of the crate tc_answer with one constant."""
    escaped = text.replace("\\", "\\\\").replace('"', '\\"').replace("\n", "\\n")
    return f'//! {says}\n\n/// {says}\npub const {name}: &[u8] =\n    b"{escaped}";\n'


def made() -> Dict[str, str]:
    """Each file that is made, by its path from the top."""
    text = page()
    head, tail = text.split(MARK)
    return {"page/viewer.html": text,
            f"{CRATE}/src/head.rt": constant("HEAD", "What a page has before the histories.", head + MARK),
            f"{CRATE}/src/tail.rt": constant("TAIL", "What a page has after the histories.", tail)}


def differing() -> List[str]:
    """The files that are not what the sources make, each with what to do."""
    read = lambda path: open(path, encoding="ascii", errors="replace").read() if os.path.exists(path) else ""
    return [f"{path} is not what the sources of the page make: python3 page/make.py" for path, text in made().items() if read(os.path.join(TOP, path)) != text]


def main() -> int:
    if sys.argv[1:] == ["--check"]:
        lines = differing()
        print("".join(f"{line}\n" for line in lines), end="")
        return 1 if lines else 0
    if sys.argv[1:]:
        print(__doc__, file=sys.stderr)
        return 3
    for path, text in made().items():
        with open(os.path.join(TOP, path), "w", encoding="ascii") as file:
            file.write(text)
    return 0


if __name__ == "__main__":
    sys.exit(main())
