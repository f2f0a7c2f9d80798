#!/usr/bin/env python3
"""The tests of page/play.html: the engine in it, next to the built program, and the page in two browsers.

usage: tests/play/run.py [--program FILE] [--page FILE] [--only WORD] [--in BROWSER] [--seed N] [--list]

The program is crates/ttrun/out/ttrun. The engine is run by node: what it answers has to be what the program answers. The page is
driven in Chromium and in Firefox, headless. If there is no node, no Chromium or no Firefox, the tests in it are skipped, and said to
be. The last line is 'N passed, M failed', with ', K skipped' after it if there are some; the status is 0 if nothing failed, otherwise
1, and 3 if there is no program.
"""
import os
import re
import shutil
import sys
from typing import Any, Callable, ContextManager, Iterator

sys.dont_write_bytecode = True

import beside
from beside import TOP, Context, Engine

import making
import page_answers
from browser import Chromium
from firefox import Firefox
from harness import Answer, Ran, Tests, answers_of, call, chosen, hold, same, status_of, text_of, words_of
from shown import hold_apart

MOST_MADE = 500_000


def it_is_made_of_its_sources(context: Context) -> str:
    """Everything except the engine is what page/play/make.py makes."""
    same(Ran("", "", 0), call([sys.executable, making.MAKER, "--check"]))
    return "it is"


def it_loads_nothing(context: Context) -> str:
    """One file, and nothing from elsewhere."""
    text = text_of(context.page)
    allowed = re.search(r'Content-Security-Policy" content="([^"]*)"', text)[1]
    hold(re.fullmatch(r"default-src 'none'; base-uri 'none'; form-action 'none'; worker-src blob:; style-src 'sha256-[^' ]*'; "
                      r"script-src 'wasm-unsafe-eval' 'sha256-[^' ]*'", allowed), allowed)
    return hold_apart(text, MOST_MADE, 4)


def it_is_of_this_version(context: Context) -> str:
    version = re.search(r"<b>ttrun ([\w.]+)</b>", text_of(context.page))[1]
    same(f"ttrun {version}\n".encode(), beside.program_answer(context, ("--version",), b"")[1])
    return version


SOURCES = (it_is_made_of_its_sources, it_loads_nothing, it_is_of_this_version, *making.TESTS)
# The tests of the sources, of the engine and of the page, and the fewest of each.
GROUPS = [({it.__name__: it for it in tests}, fewest) for tests, fewest in (
    (SOURCES, 7), (beside.TESTS, 8), (page_answers.TESTS, 15))]


def within(made: ContextManager, test: Callable[[Context, Any], str], context: Context) -> str:
    """Runs a test in an engine or a browser of its own. A page must have said of no fault of its own."""
    with made as it:
        reached = test(context, it)
        same([], getattr(it, "errors", []))
        return reached


def answers(context: Context, of_sources: Tests, of_engine: Tests, of_page: Tests, named: str) -> Iterator[Answer]:
    yield from answers_of(of_sources, lambda it: it(context))
    yield from answers_of(of_engine, lambda it: within(Engine(context), it, context), lacks="" if context.node else "node")
    for browser in (Chromium, Firefox):
        if named in browser.__name__:
            tests = {f"{name} in {browser.__name__}": test for name, test in of_page.items()}
            yield from answers_of(tests, lambda it: within(browser(browser.find()), it, context), lacks="" if browser.find() else browser.__name__)


if __name__ == "__main__":
    parser = words_of("tests page/play.html")
    parser.add_argument("--page", type=os.path.abspath, default=os.path.join(TOP, "page", "play.html"))
    parser.add_argument("--in", dest="within", default="", help="the browser with this in its name")
    parser.add_argument("--seed", type=int, default=1, help="of the random texts")
    given, groups = chosen(parser, *GROUPS)
    context = Context(given.program, shutil.which("node") or "", given.page, given.seed)
    sys.exit(status_of(answers(context, *groups, given.within)))
