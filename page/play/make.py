#!/usr/bin/env python3
"""Makes page/play.html, the page to try: one file with the proved program in it, as WebAssembly.

usage: page/play/make.py [--frame | --check]

Without a word it builds the engine of the tree as it is, which is proved first if it is not, and then the page; that takes two
minutes on a proved tree. With --frame the page keeps its engine, and only the rest is made of the sources. With --check nothing
is written: a line says whether the rest of the page is what the sources make, and the status is 1 if not.
"""
import base64
import gzip
import hashlib
import json
import os
import re
import shutil
import subprocess
import sys
from typing import Dict, Iterable, List

HERE = os.path.dirname(os.path.abspath(__file__))
TOP = os.path.dirname(os.path.dirname(HERE))
sys.dont_write_bytecode = True
sys.path[:0] = [os.path.join(TOP, "page"), os.path.join(TOP, "page", "engine")]

import build
import make

PAGE = os.path.join(TOP, "page", "play.html")
# The parts that come from the engine, as they are in a page.
ENGINE = re.compile(r'<script type="text/plain" id="engine">([^<]*)</script>')
SUMS = re.compile(r"(?s)<b>ttrun ([\w.]+)</b>.*?as SHA-256:</p><pre>([^<]*)</pre>")
# What makes the engine of the proved program.
TOOLS = tuple(f"page/engine/{name}" for name in ("build.py", "heap.c", "helpers.c"))
# The examples that only the page has come first.
OWN = (("a race", "race.script"), ("a circle of waits", "circle.script"))
SORTS = (".script", ".history", ".moves")


def read(*path: str) -> str:
    with open(os.path.join(TOP, *path), encoding="utf-8") as file:
        return file.read()


def examples() -> Dict[str, str]:
    names = sorted(name for name in os.listdir(os.path.join(TOP, "examples")) if name.endswith(SORTS))
    names.sort(key=lambda name: SORTS.index(os.path.splitext(name)[1]))
    return {**{title: read("page", "play", name) for title, name in OWN}, **{name: read("examples", name) for name in names}}


def sum_of(paths: Iterable[str]) -> str:
    """One sum of the names and the content of files."""
    lines = [f"{hashlib.sha256(open(os.path.join(TOP, path), 'rb').read()).hexdigest()}  {path}\n" for path in sorted(paths)]
    return hashlib.sha256("".join(lines).encode()).hexdigest()


def sources() -> List[str]:
    """The sources of the proved program, for the engine."""
    parts = [os.path.join(TOP, "crates", crate, part) for crate in (build.CRATE, *build.below()) for part in ("src", "specs", "proofs")]
    found = [os.path.join(folder, name) for part in parts for folder, _, names in os.walk(part) for name in names]
    return ["crates.txt", *(os.path.relpath(it, TOP) for it in found)]


def sums(engine: bytes) -> str:
    """What the engine is made of."""
    version = lambda words: subprocess.run(words, capture_output=True, text=True, check=False).stdout.strip()
    rows = (("sources of the program", sum_of(sources())), ("page/engine", sum_of(TOOLS)), ("engine", hashlib.sha256(engine).hexdigest()))
    return "".join(f"{name:24}{value}\n" for name, value in rows) + f"{'toolchain':24}{version(['rt', 'version'])}, {version(['wasm-opt', '--version'])}"


def lines_of(name: str) -> str:
    return str(sum(bool(line.strip()) and not line.startswith("//") for line in read("page", "engine", name).split("\n")))


def page(engine: str, version: str, made_of: str) -> str:
    parts = {"style": make.style("page.css", "play.css"), "script": make.script("play"), "engine": engine, "version": version, "sums": made_of}
    parts["policy"] = make.policy(parts["style"], parts["script"] + "").replace("script-src ", "script-src 'wasm-unsafe-eval' ")
    parts["worker"] = "\n" + make.bare(make.source("worker.mjs"))
    parts.update(examples=json.dumps(examples(), indent=0).replace("<", "\\u003c"), heap=lines_of("heap.c"), helpers=lines_of("helpers.c"))
    return make.filled("frame.html", parts)


def kept() -> List[str]:
    """The engine of the page that is there, its version, and what it was made of."""
    text = read("page", "play.html")
    return [ENGINE.search(text)[1], *SUMS.search(text).groups()]


def packed(module: bytes) -> str:
    """A module as it is in a page: packed, and spelled in letters."""
    return base64.b64encode(gzip.compress(module, 9, mtime=0)).decode()


def built() -> List[str]:
    """A new engine, its version, and what it is made of."""
    module = build.engine()
    return [packed(module), make.version(), sums(module)]


def hold_version(path: str, version: str) -> None:
    """Ends unless the engine of a page, asked by node, answers that it has this version."""
    if not shutil.which("node"):
        print("the new engine was not asked anything, since there is no node: run tests/play/run.py where there is one")
        return
    asked = json.dumps([["--version"], ""]).encode() + b"\n"
    ran = subprocess.run(["node", os.path.join(TOP, "tests", "play", "engine.mjs"), path], input=asked, capture_output=True, check=False)
    status, output = json.loads(ran.stdout or "[3, \"\"]")[:2]
    if (status, base64.b64decode(output).decode()) != (0, f"ttrun {version}\n"):
        build.fail(f"asked for its version it answers {ran.stdout[:300]!r}, {ran.stderr[:300]!r}")


def write(text: str, version: str, is_new: bool) -> None:
    """Writes the page, whole or not at all."""
    with open(f"{PAGE}.new", "w", encoding="ascii") as file:
        file.write(text)
    try:
        if is_new:
            hold_version(file.name, version)
        os.replace(file.name, PAGE)
    finally:
        if os.path.exists(file.name):
            os.remove(file.name)
    print(f"page/play.html: {len(text)} bytes")


def main() -> int:
    words = sys.argv[1:]
    if words not in ([], ["--frame"], ["--check"]):
        print(__doc__, file=sys.stderr)
        return 3
    parts = kept() if words else built()
    text = page(*parts)
    if words == ["--check"]:
        is_made = text == read("page", "play.html")
        print("" if is_made else "page/play.html is not what its sources make: python3 page/play/make.py --frame\n", end="")
        return 0 if is_made else 1
    write(text, parts[1], not words)
    return 0


if __name__ == "__main__":
    sys.exit(main())
