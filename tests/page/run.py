#!/usr/bin/env python3
"""The page's tests: what page/ makes of histories and evidence, next to what the built program says of them.

usage: tests/page/run.py [--program FILE] [--only WORD] [--model] [--seed N] [--list]

The program is crates/ttrun/out/ttrun, as for tests/program/run.py. The model of the page is tested by node, without a browser;
what it shows by Chromium, headless. If there is no node, or no Chromium, these tests are skipped, and said to be. With --model
only the tests of the model are run, up to the first that fails. The last line is 'N passed, M failed', with ', K skipped' after
it if there are some; the status is 0 if nothing failed, otherwise 1, and 3 if there is no program.
"""
import contextlib
import os
import re
import shutil
import sys
import tempfile
from typing import Callable, Iterator

sys.dont_write_bytecode = True

import model
import shown
from browser import Browser, Chromium
from harness import TOP, Answer, Tests, answers_of, chosen, hold, same, status_of, text_of, words_of
from model import Context

MOST_LINES, WIDTH, MOST_MADE = 1300, 130, 76_000


def the_sources_are_small_and_plain(_: Context) -> str:
    names = [it for it in os.listdir(os.path.join(TOP, "page")) if it in ("page.html", "page.css") or it.endswith(".mjs")]
    texts = [text_of("page", it) for it in names]
    lines = [line for text in texts for line in text.split("\n")[:-1]]
    hold(len(texts) >= 12 and len(lines) <= MOST_LINES, f"{len(lines)} lines")
    hold(max(map(len, lines)) <= WIDTH, max(lines, key=len))
    hold(all(text.isascii() and re.match(r"//|/\*|<!DOCTYPE html>\n<!--", text) for text in texts), "a file does not say what it is")
    return f"{len(texts)} files, {len(lines)} lines"


def each_import_names_what_is_there(_: Context) -> str:
    count, pages = 0, {it: text_of("page", it) for it in os.listdir(os.path.join(TOP, "page")) if it.endswith(".mjs")}
    for name, text in pages.items():
        for names, other in re.findall(r'(?m)^import \{ ([^}]*) \} from "\./(\w+\.mjs)";$', text):
            for word in names.split(", "):
                hold(re.search(rf"(?m)^export .*[ ,]{re.escape(word)}(?![\w$])", pages[other]), f"{name}: {other} has no {word}")
                hold(len(re.findall(rf"(?<![\w$])(?<!\w\.){re.escape(word)}(?![\w$])", text)) >= 2, f"{name} does not use {word}")
                count += 1
    hold(count >= 60, count)
    return f"{count} names"


def the_page_loads_nothing(_: Context) -> str:
    text = text_of("page/viewer.html")
    hold(text.count(shown.make.MARK) == 1 and text.count(shown.make.MARK + "</script>") == 1, "there is no place for a text")
    hold(not re.search(r"unsafe|\beval\b|fetch\(", text), "a page that may do more than it has to")
    return shown.hold_apart(text, MOST_MADE, 2)


SOURCES = (the_sources_are_small_and_plain, each_import_names_what_is_there, the_page_loads_nothing)
# The tests of the sources, of the model and of what is shown, and the fewest of each.
GROUPS = [({it.__name__: it for it in tests}, fewest) for tests, fewest in (
    (SOURCES, 3), (model.TESTS, 11), (shown.TESTS, 14))]


def in_browser(test: Callable[[Context, Browser], str], context: Context, browser: Browser) -> str:
    """Runs a test in the browser. The page must have said of no fault of its own."""
    browser.errors.clear()
    reached = test(context, browser)
    same([], browser.errors)
    return reached


def answers(context: Context, of_sources: Tests, of_model: Tests, of_browser: Tests) -> Iterator[Answer]:
    yield from answers_of(of_sources, lambda it: it(context))
    yield from answers_of(of_model, lambda it: it(context), lacks="" if context.node else "node")
    path = Chromium.find() if of_browser else None
    with Chromium(path) if path else contextlib.nullcontext() as browser:
        yield from answers_of(of_browser, lambda it: in_browser(it, context, browser), lacks="" if path else "Chromium")


if __name__ == "__main__":
    parser = words_of("tests the page that shows histories")
    parser.add_argument("--model", action="store_true", help="only the tests of the model, up to the first that fails")
    parser.add_argument("--seed", type=int, default=1, help="of the random texts")
    given, groups = chosen(parser, *GROUPS)
    with tempfile.TemporaryDirectory(prefix="page-test-") as room:
        context = Context(given.program, shutil.which("node") or "", os.path.join(TOP, "page"), given.seed, room)
        if given.model and context.node:
            sys.exit(status_of(answers(context, {}, groups[1], {}), until_one_fails=True))
        sys.exit(status_of(answers(context, *groups)))
