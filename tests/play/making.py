"""The scripts that make the page: what it is made of is said on it, and another toolchain never makes a wrong engine."""
import base64
import gzip
import hashlib
import importlib.util
import os
import sys
import tempfile
from typing import Callable

from beside import TOP, Context
from harness import Fault, call, hold, same, text_of, write

# The scripts that make the page, and the engine.
MAKER, BUILDER = os.path.join(TOP, "page", "play", "make.py"), os.path.join(TOP, "page", "engine", "build.py")
# The text of a bitcode that can be retargeted, by its lines.
HEAD = ('target datalayout = "e-m:e-p270:32:32-i64:64"', 'target triple = "x86_64-unknown-linux-gnu"')
DECLARED = ("declare { i64, ptr } @rattle_alloc(i64, i64)", "declare void @rattle_dealloc(ptr)",
            "declare void @llvm.memcpy.p0.p0.i64(ptr, ptr, i64, i1)")
DEFINED = ('define i8 @filskeam_answer(ptr %0) #0 {', "  ret i8 0", "}",
           'attributes #0 = { "probe-stack"="inline-asm" "target-cpu"="x86-64-v2" nounwind }')
# A stand-in for the kit's rattle: it starts the clang that it is given, as rattle does, in a folder with the bitcode.
RATTLE = """#!/bin/sh
while [ "$1" != --toolchain ]; do shift; done
cd "$(mktemp -d -p "$ROOM")" || exit 2
{make}
"$2/bin/clang" -O3 -c module.bc -o module.o
"""


def module(path: str) -> object:
    """A script of the page, as a module of its own, with the scripts of its own tree that it imports."""
    spec, paths = importlib.util.spec_from_file_location("script_of_the_page", path), list(sys.path)
    made = importlib.util.module_from_spec(spec)
    for name in ("make", "build"):
        sys.modules.pop(name, None)
    spec.loader.exec_module(made)
    sys.path[:] = paths
    return made


def fails(act: Callable[[], object], word: str) -> None:
    """Holds that no engine is made, and that the reason has this word."""
    try:
        made = act()
    except SystemExit as ended:
        hold(str(ended.code).startswith("no engine was made: ") and word in str(ended.code), ended.code)
    else:
        raise Fault(f"it makes {str(made)[:300]} where it should say {word!r}")


def the_sums_are_those_of_the_sources(context: Context) -> str:
    """The page says what it is made of: its engine, and the scripts and files of C that it was made with, as they are."""
    made, text = module(MAKER), text_of(context.page)
    said = {line[:24].strip(): line[24:] for line in made.SUMS.search(text)[2].splitlines()}
    engine = gzip.decompress(base64.b64decode(made.ENGINE.search(text)[1]))
    same(hashlib.sha256(engine).hexdigest(), said["engine"], "the engine has another sum")
    same(made.sum_of(made.TOOLS), said["page/engine"], "page/engine has changed since: python3 page/play/make.py")
    hold(engine[:8] == b"\0asm\1\0\0\0" and said["toolchain"].startswith("rattle-kit-"), said)
    is_of_these = said["sources of the program"] == made.sum_of(made.sources())
    return "of these sources" if is_of_these else "of other sources of the program, which answer the same"


def other_bitcode_is_refused(context: Context) -> str:
    """Bitcode that asks for more than memory, has code of a processor, or another head, is not linked."""
    build = module(BUILDER)
    lines = [*HEAD, *DECLARED, *DEFINED]
    made = build.retarget("\n".join(lines) + "\n")
    hold('target triple = "wasm64-unknown-unknown"' in made and f'target datalayout = "{build.LAYOUT}"' in made and "x86" not in made, made)
    hold("probe-stack" not in made and "nounwind" in made, made)
    changes = [
        (lines + ["declare i32 @write(i32, ptr, i64)"], "write"), (lines + ['declare void @"a_name"()'], "a_name"),
        (lines + ["declare i64 @llvm.x86.rdtsc()"], "code of the processor"), (lines + ["declare void @rattle_thread(ptr)"], "rattle_thread"),
        (lines[:6] + ['  call void asm sideeffect "pause", ""()'] + lines[6:], "code of the processor"),
        (lines + ['module asm "nop"'], "code of the processor"), (lines[1:], "datalayout"),
        (lines[:1] + lines[2:], "triple"), (lines + [HEAD[1]], "triple")]
    for text, word in changes:
        fails(lambda text=text: build.retarget("\n".join(text) + "\n"), word)
    return f"{len(changes)} changes"


def a_kit_without_bitcode_makes_nothing(context: Context) -> str:
    """If a kit hands over no bitcode, fails, or is missing, there is no engine, and the page stays as it is."""
    build = module(BUILDER)
    for make, word in (("true", "hands no module.bc"), ("exit 1", "rattle ended with 1"), ("echo BC > module.bc; exit 3", "rattle ended with 3"),
                       ("echo BC > other.bc", "hands no module.bc"), (": > module.bc", "hands no module.bc"), ("echo BC > module.bc", "")):
        with tempfile.TemporaryDirectory(prefix="play-kit-") as room:
            kit, work = os.path.join(room, "kit"), os.path.join(room, "work")
            for name, text in (("bin/rattle", RATTLE.format(make=make)), ("toolchain/bin/clang", "#!/bin/sh\n: > module.o\n"), ("rlibs/none", "")):
                write(os.path.join(kit, name), text, is_run=True)
            os.makedirs(work)
            os.environ["ROOM"] = room
            if word:
                fails(lambda: build.keep_bitcode(kit, work), word)
            else:
                same("BC\n", text_of(build.keep_bitcode(kit, work)), "it keeps other bitcode")
    before = os.stat(os.path.join(TOP, "page", "play.html"))
    for words, status in ((["--frob"], 3), ([], 1)):
        ran = call([sys.executable, MAKER, *words], env={"PATH": "/nowhere"})
        hold(ran.status == status and ("no rt on the path" in ran.errors) == (not words), ran)
    after = os.stat(os.path.join(TOP, "page", "play.html"))
    same(*((it.st_mtime_ns, it.st_size, it.st_ino) for it in (before, after)), "the page was written")
    return "8 times"


def a_wrong_module_is_refused(context: Context) -> str:
    """A module that imports something, has other exports, or says that it has another version, is no engine."""
    build = module(BUILDER)
    head = b"\0asm\1\0\0\0"
    name = lambda text: bytes([len(text)]) + text.encode()
    section = lambda number, items: bytes([number, len(b"".join(items)) + 1, len(items)]) + b"".join(items)
    exports = [name(it) + b"\0\0" for it in ("filskeam_answer", "host_alloc", "host_free")] + [name("memory") + b"\2\0"]
    build.hold_module(head + section(1, [b"\x60\0\0"]) + section(7, exports))
    for data, word in ((b"", "no module"), (b"\x7fELF" + b"\0" * 60, "no module"), (head, "exports"), (head + section(7, exports[1:]), "exports"),
                       (head + section(7, [*exports, name("malloc") + b"\0\0"]), "exports"),
                       (head + section(2, [name("env") + name("write") + b"\0\0"]) + section(7, exports), "imports")):
        fails(lambda data=data: build.hold_module(data), word)
    made = module(MAKER)
    if context.node:
        made.hold_version(context.page, made.kept()[1])
        fails(lambda: made.hold_version(context.page, "0.0.1"), "asked for its version")
        fails(lambda: made.hold_version(os.devnull, made.kept()[1]), "asked for its version")
    return "8 modules"


TESTS = (the_sums_are_those_of_the_sources, other_bitcode_is_refused, a_kit_without_bitcode_makes_nothing, a_wrong_module_is_refused)
