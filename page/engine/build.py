"""The engine: the crate filskeam as a WebAssembly module, made of the bitcode that the proved build hands to clang.

The kit's own way to WebAssembly takes no code that allocates. So the crate is built for x86-64 as `rt lib` builds it, with a
folder of tools whose clang also keeps the bitcode. The kit's clang and ld.lld link that for WebAssembly, with heap.c and
helpers.c. Then wasm-opt (of binaryen) gives it the memory of 32 bits that every browser has. Nothing of this is proved. If a kit
hands over no bitcode, or other bitcode than this takes, nothing is made.
"""

import os
import re
import shlex
import shutil
import subprocess
import sys
import tempfile
import time
from typing import Callable, Dict, List, Tuple

HERE = os.path.dirname(os.path.abspath(__file__))
TOP = os.path.dirname(os.path.dirname(HERE))
CRATE, EXPORTS = "filskeam", ("filskeam_answer", "host_alloc", "host_free")
LAYOUT = "e-m:e-p:64:64-p10:8:8-p20:8:8-i64:64-i128:128-n32:64-S128"
FEATURES = ("bulk-memory", "multivalue", "sign-ext", "nontrapping-fptoint")
OPT_FEATURES = ("bulk-memory", "multivalue", "sign-ext", "nontrapping-float-to-int", "mutable-globals")
# Bytes of the stack, and of the memory at most.
STACK, MEMORY = 4 << 20, 2 << 30
# What rattle starts instead of the kit's clang, with no environment. It keeps the bitcode, and leaves an empty file for the object of
# x86-64, which nobody needs and would take half a minute. A call without bitcode is clang's.
STAND_IN = """#!/bin/sh
for word; do if [ "$last" = -o ]; then made=$word; fi; last=$word; done
if [ -f module.bc ] && [ -n "$made" ]; then cp module.bc {kept} && : > "$made"; exit; fi
exec {clang} "$@"
"""
# What the bitcode may ask of others; anything else is not linked.
FOREIGN = re.compile(r"rattle_(alloc|realloc|dealloc)|llvm\.[\w.]+")


def fail(why: str) -> None:
    """Ends without an engine."""
    sys.exit(f"no engine was made: {why}")


def run(words: List[str], **how) -> str:
    """What a tool writes; if it fails, or says something, that is the end."""
    ran = subprocess.run(words, stdin=subprocess.DEVNULL, capture_output=True, text=True, check=False, **how)
    if ran.returncode:
        fail(f"{os.path.basename(words[0])} ended with {ran.returncode}\n{ran.stdout[-3000:]}{ran.stderr[-3000:]}")
    return ran.stdout + ran.stderr


def uses() -> Dict[str, List[str]]:
    """The libraries that each crate uses."""
    with open(os.path.join(TOP, "crates.txt"), encoding="utf-8") as file:
        lines = [line.split("#")[0].split(":") for line in file]
    return {line[0].split()[0]: line[1].split() for line in lines if len(line) == 2}


def below() -> List[str]:
    """The crates of the repository that the engine is built on."""
    lines, met = uses(), [CRATE]
    for one in met:
        met += [it for it in lines[one] if it in lines and it not in met]
    return met[1:]


def is_built(folder: str) -> bool:
    """Whether each of these crates is built of its sources as they are. The kit keeps a sum of them, so no time of a file is asked."""
    sys.path.append(os.path.join(folder, "bin"))
    try:
        import rtlib
        sums: Dict[str, str] = {}
        made = rtlib.Crate.stamp
        rtlib.Crate.stamp = lambda crate: sums.get(crate.folder) or sums.setdefault(crate.folder, made(crate))
        return all(crate.is_built() for crate in rtlib.Crate(os.path.join(TOP, "crates", CRATE), TOP, {}).below())
    except (Exception, SystemExit) as fault:  # another kit may have no such call
        print(f"engine: this kit does not say whether a crate is built: {fault}", flush=True)
        return False
    finally:
        sys.path.pop()


def kit() -> str:
    """The folder of the toolchain."""
    if not shutil.which("rt"):
        fail("there is no rt on the path: the Rattle toolchain")
    return os.path.dirname(run(["rt", "doc"]).strip())


def library(name: str, folder: str) -> str:
    """A library as it was built: the repository's own, or the kit's."""
    own = os.path.join(TOP, "crates", name, "out", "rlib", f"{name}.rlib")
    return own if os.path.isdir(os.path.join(TOP, "crates", name)) else os.path.join(folder, "rlibs", f"{name}.rlib")


def build_words(folder: str, tools: str, archive: str) -> List[str]:
    """The call that builds the crate as a static library, as `rt lib` makes it, with these tools."""
    crates = uses()
    words = ["rattle", "build", "--crate-name", CRATE, "src/lib.rt"]
    for name in ("std", *crates[CRATE]):
        words += ["--extern", f"{name}={library(name, folder)}"]
    for place in [os.path.join(folder, "rlibs"), *sorted(os.path.dirname(library(name, folder)) for name in crates)]:
        words += ["-L", f"dependency={place}"] if os.path.isdir(place) else []
    words += ["--antt-project", os.path.join(folder, "rattle/logic/antt-project.json"), "--logic-built", os.path.join(folder, "logic_built")]
    return [*words, "--links", f"{CRATE}=", "--crate-type", "staticlib", "--jobs", "1", "--toolchain", tools, "--backend", "llvm",
            "--incremental", "out/incremental", "-o", archive]


def keep_bitcode(folder: str, room: str) -> str:
    """Builds the proved crate, and keeps what is handed to clang meanwhile."""
    tools, kept = os.path.join(room, "tools"), os.path.join(room, "kept.bc")
    os.makedirs(os.path.join(tools, "bin"))
    with open(os.path.join(tools, "bin", "clang"), "w", encoding="utf-8", opener=lambda path, flags: os.open(path, flags, 0o755)) as file:
        file.write(STAND_IN.format(kept=shlex.quote(kept), clang=shlex.quote(os.path.join(folder, "toolchain", "bin", "clang"))))
    for name in os.listdir(os.path.join(folder, "toolchain")):
        if name != "bin":
            os.symlink(os.path.join(folder, "toolchain", name), os.path.join(tools, name))
    for name in os.listdir(os.path.join(folder, "toolchain", "bin")):
        if name != "clang":
            os.symlink(os.path.join(folder, "toolchain", "bin", name), os.path.join(tools, "bin", name))
    words = build_words(folder, tools, os.path.join(room, "engine.a"))
    run([os.path.join(folder, "bin", "rattle"), *words[1:]], cwd=os.path.join(TOP, "crates", CRATE))
    if not os.path.exists(kept) or not os.path.getsize(kept):
        fail("this kit hands no module.bc to clang")
    return kept


def retarget(text: str) -> str:
    """The text of the bitcode, for WebAssembly instead of x86-64."""
    foreign = set(re.findall(r'(?m)^declare .*?@"?([\w.$]+)"?\(', text))
    strange = sorted(name for name in foreign if not FOREIGN.fullmatch(name))
    if strange or " asm " in text or "llvm.x86" in text:
        fail(f"the bitcode asks for more than memory: {', '.join(strange) or 'code of the processor'}")
    for what, value in (("datalayout", LAYOUT), ("triple", "wasm64-unknown-unknown")):
        text, count = re.subn(rf'(?m)^target {what} = ".*"$', f'target {what} = "{value}"', text)
        if count != 1:
            fail(f"the bitcode has {count} lines of its {what}")
    return re.sub(r' "(?:probe-stack|stack-probe-size|target-cpu|target-features)"="[^"]*"', "", text)


def link(bitcode: str, folder: str, room: str) -> str:
    """The module with a memory of 64 bits."""
    clang = [os.path.join(folder, "toolchain", "bin", "clang"), "--no-default-config"]
    at = lambda name: os.path.join(room, name)
    run([*clang, "-x", "ir", "-S", "-emit-llvm", "-Xclang", "-disable-llvm-passes", bitcode, "-o", at("whole.ll")])
    with open(at("whole.ll"), encoding="utf-8") as file:
        text = retarget(file.read())
    with open(at("engine.ll"), "w", encoding="utf-8") as file:
        file.write(text)
    to = ["--target=wasm64-unknown-unknown", *(f"-m{name}" for name in FEATURES)]
    run([*clang, *to, "-Os", "-mllvm", "-expand-div-rem-bits=64", "-Wno-override-module", "-c", "-x", "ir", at("engine.ll"), "-o", at("engine.o")])
    for name in ("heap", "helpers"):
        free = ["-ffreestanding", "-nostdinc", "-fno-builtin", "-fwrapv", "-Wall", "-Wextra", "-Wno-unused-parameter", "-Werror"]
        run([*clang, *to, "-O2", *free, "-c", os.path.join(HERE, f"{name}.c"), "-o", at(f"{name}.o")])
    os.symlink(os.path.join(folder, "toolchain", "bin", "ld.lld"), at("wasm-ld"))
    exports = [f"--export={name}" for name in EXPORTS]
    run([at("wasm-ld"), "-mwasm64", "--no-entry", "--stack-first", "--fatal-warnings", f"--max-memory={MEMORY}", "-z", f"stack-size={STACK}",
         "--gc-sections", "--strip-all", *exports, at("engine.o"), at("heap.o"), at("helpers.o"), "-o", at("engine64.wasm")])
    return at("engine64.wasm")


def narrow(module: str, room: str) -> bytes:
    """The module with a memory of 32 bits."""
    allowed = [f"--enable-{name}" for name in OPT_FEATURES]
    wide, small = os.path.join(room, "wide.wasm"), os.path.join(room, "small.wasm")
    run(["wasm-opt", "--enable-memory64", *allowed, "--memory64-lowering", module, "-o", wide])
    run(["wasm-opt", *allowed, "-O2", wide, "-o", small])
    with open(small, "rb") as file:
        return file.read()


def number_at(data: bytes, at: int) -> Tuple[int, int]:
    """A number of a module, and where it ends."""
    value, shift = 0, 0
    while True:
        value, shift, at = value | (data[at] & 0x7f) << shift, shift + 7, at + 1
        if data[at - 1] < 0x80:
            return value, at


def exports_of(data: bytes) -> List[str]:
    """The names that a module exports, by its section of exports."""
    count, at = number_at(data, 0)
    names = []
    for _ in range(count):
        size, at = number_at(data, at)
        names.append(data[at:at + size].decode())
        _, at = number_at(data, at + size + 1)
    return names


def hold_module(data: bytes) -> None:
    """Ends without an engine if a module imports anything, or exports anything else than it should."""
    if data[:8] != b"\0asm\1\0\0\0":
        fail("wasm-opt wrote no module")
    sections, at = {}, 8
    while at < len(data):
        kind, (size, start) = data[at], number_at(data, at + 1)
        sections[kind], at = data[start:start + size], start + size
    if 2 in sections:
        fail("the module imports something")
    if sorted(exports_of(sections.get(7, b"\0"))) != sorted((*EXPORTS, "memory")):
        fail(f"the module has other exports: {', '.join(exports_of(sections.get(7, bytes(1))))}")


def bitcode(folder: str, room: str, say: Callable[[str], None]) -> str:
    """The bitcode of the sources as they are. What the crate is built on is proved first, if something has changed."""
    if not is_built(folder):
        say("proving what has changed")
        run(["rt", "check", "--jobs", "2"], cwd=os.path.join(TOP, "crates", CRATE))
    say("building, which proves the crate itself")
    return keep_bitcode(folder, room)


def linked(code: str, folder: str, room: str, say: Callable[[str], None]) -> bytes:
    """The module of a bitcode."""
    say("linking for WebAssembly")
    module = link(code, folder, room)
    say("a memory of 32 bits")
    made = narrow(module, room)
    hold_module(made)
    return made


def engine() -> bytes:
    """The module, made of the sources as they are."""
    began, folder = time.monotonic(), kit()
    say = lambda what: print(f"engine: {time.monotonic() - began:.0f} s, {what}", flush=True)
    if not shutil.which("wasm-opt"):
        fail("there is no wasm-opt on the path, of binaryen: apt-get install binaryen")
    with tempfile.TemporaryDirectory(prefix="engine-") as room:
        made = linked(bitcode(folder, room, say), folder, room, say)
    say(f"{len(made)} bytes")
    return made
