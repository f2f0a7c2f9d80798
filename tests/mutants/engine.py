"""Makes page/play.html of a copy of the checkout with an engine of the copy's own files of C.

usage: tests/mutants/engine.py COPY KEPT

The bitcode is of the program that is proved in this checkout. What only it is compiled to is kept in the folder KEPT."""
import fcntl
import os
import shutil
import sys
import tempfile
from typing import List

sys.dont_write_bytecode = True
COPY, KEPT = sys.argv[1:]
TOP = os.path.dirname(os.path.dirname(os.path.dirname(os.path.abspath(__file__))))
sys.path.insert(0, os.path.join(COPY, "tests", "play"))

from making import module


def engine(builder: object) -> bytes:
    """The engine that the scripts and the C of the copy make of the program, whose own object is compiled once."""
    folder, run, code = builder.kit(), builder.run, os.path.join(KEPT, "kept.bc")

    def run_once(words: List[str], **how: str) -> str:
        kept = os.path.join(KEPT, os.path.basename(words[-1]))
        if not kept.endswith(("whole.ll", "engine.o")):
            return run(words, **how)
        if not os.path.exists(kept):
            run([*words[:-1], kept], **how)
        shutil.copyfile(kept, words[-1])
        return ""

    builder.TOP, builder.run = TOP, run_once
    with open(os.path.join(KEPT, "lock"), "w", encoding="ascii") as lock, tempfile.TemporaryDirectory(dir=KEPT) as room:
        fcntl.flock(lock, fcntl.LOCK_EX)
        if not os.path.exists(code):
            builder.bitcode(folder, KEPT, lambda what: None)
        return builder.linked(code, folder, room, lambda what: None)


made = module(os.path.join(COPY, "page", "play", "make.py"))
parts = made.kept()
parts[0] = made.packed(engine(module(os.path.join(COPY, "page", "engine", "build.py"))))
made.write(made.page(*parts), parts[1], False)
