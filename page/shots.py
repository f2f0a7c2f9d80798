#!/usr/bin/env python3
"""Makes the pictures of the page in docs/, of the histories of examples/ and of a race that tests/page/kinds.history has.

usage: page/shots.py
"""
import base64
import os
import sys
import tempfile

sys.dont_write_bytecode = True
TOP = os.path.dirname(os.path.dirname(os.path.abspath(__file__)))
sys.path += [os.path.join(TOP, "tests"), os.path.join(TOP, "tests", "page")]

import make
from browser import Chromium
from harness import write
from histories import EXAMPLES, KINDS

# Each picture: its name, the case that it shows, if any, and the size of the window in points.
SHOTS = (("table", "", (1000, 500)), ("case", "t_supervised", (1080, 660)), ("compare", "t_race", (1000, 640)))


def main() -> None:
    text = "".join(EXAMPLES.values()) + KINDS.split("history 2 t_kinds")[0]
    with tempfile.TemporaryDirectory(prefix="page-shots-") as room, Chromium(Chromium.find() or sys.exit("there is no Chromium")) as browser:
        page = write(os.path.join(room, "nightly.html"), make.page().replace(make.MARK, make.MARK + text))
        for name, case, (width, height) in SHOTS:
            browser.open(page, width, height)
            browser.js(f"goTo(...app.cases.filter(one => one.name === '{case}'))")
            browser.settle()
            picture = browser.call("Page.captureScreenshot", format="png", optimizeForSpeed=False)["data"]
            write(os.path.join(TOP, "docs", f"page-{name}.png"), base64.b64decode(picture))


main()
