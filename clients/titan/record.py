#!/usr/bin/env python3
"""Runs a module of modules/ on Eclipse Titan and leaves its logs in a folder.

usage: clients/titan/record.py MODULE FOLDER [--logging full|default|typed|rotated|each|appended] [--shim] [--set NAME=VALUE]

It needs the package eclipse-titan. The status is 0 if the campaign ran to its end or its main component crashed, 3 if it
could not be run.
"""
import argparse
import os
import re
import shutil
import subprocess
import sys
import time
from pathlib import Path
from typing import List, Optional

HERE = Path(__file__).resolve().parent
SECONDS = 120
LOGGING = {
    "default": [], "typed": ["LogEventTypes := Yes"], "rotated": ["LogFileSize := 1", "LogFileNumber := 30"], "each": ['LogFile := "%e.%h-%r-%c.%s"'],
    "appended": ["LogEventTypes := Yes", "AppendFile := Yes"],
    "full": ["FileMask := LOG_ALL | MATCHING", "TimeStampFormat := DateTime", "LogEventTypes := Detailed", "SourceInfoFormat := Stack"]}
WRAPPED = ("_ZN12TTCN_Runtime17component_runningEi", "_ZN12TTCN_Runtime15component_aliveEi")
# The folder of Titan in Debian's package.
ENVIRONMENT = {"TTCN3_DIR": "/usr", "TTCN3_SUBDIR": "/titan", **os.environ}
NOTHING = subprocess.DEVNULL


def why_not() -> str:
    """Why Titan cannot be run here, nothing if it can."""
    missing = [it for it in ("ttcn3_makefilegen", "ttcn3_compiler", "mctr_cli", "make", "g++") if shutil.which(it) is None]
    return f"there is no {missing[0]} (apt-get install eclipse-titan)" if missing else ""


def configuration(module: str, logging: str, parameters: List[str]) -> str:
    """The configuration of a campaign on one machine."""
    lines = ["[LOGGING]", *LOGGING[logging], "[EXECUTE]", f"{module}.control", "[MODULE_PARAMETERS]", *parameters,
             "[MAIN_CONTROLLER]", "LocalAddress := 127.0.0.1", "TCPPort := 0", "NumHCs := 1", "KillTimer := 2.0"]
    return "".join(f"{it}\n" for it in lines)


def build(module: str, folder: Path, is_shimmed: bool) -> None:
    sources = [HERE / "modules" / f"{module}.ttcn", *[HERE / "shim" / "shim.cc"] * is_shimmed]
    for it in sources:
        shutil.copy(it, folder)
    subprocess.run(["ttcn3_makefilegen", "-f", "-g", "-e", module, *(it.name for it in sources)], cwd=folder, env=ENVIRONMENT, check=True,
                   stdout=NOTHING, stderr=NOTHING)
    if is_shimmed:
        makefile, flags = folder / "Makefile", "LDFLAGS = -Wl," + ",".join(f"--wrap={it}" for it in WRAPPED)
        makefile.write_text(re.sub(r"(?m)^LDFLAGS = .*$", flags, makefile.read_text(encoding="utf-8")), encoding="utf-8")
    with open(folder / "build.txt", "w", encoding="utf-8") as log:
        subprocess.run(["make", "CXXFLAGS=-O0"], cwd=folder, env=ENVIRONMENT, check=True, stdout=log, stderr=log)


def port_of(output: Path) -> str:
    """The port on which the main controller listens, once it says so."""
    for _ in range(200):
        found = re.search(r"TCP port (\d+)\.", output.read_text(encoding="utf-8", errors="replace"))
        if found:
            return found[1]
        time.sleep(0.02)
    raise OSError(f"the main controller names no port: {output}")


def campaign(module: str, folder: Path) -> None:
    """Runs the executable with a main controller and one host controller."""
    output = folder / "controller.txt"
    with open(output, "w", encoding="utf-8") as log:
        started = [subprocess.Popen(["mctr_cli", "campaign.cfg"], cwd=folder, stdin=NOTHING, stdout=log, stderr=log)]
        try:
            words = [folder / module, "127.0.0.1", port_of(output)]
            started.append(subprocess.Popen(words, cwd=folder, stdin=NOTHING, stdout=NOTHING, stderr=NOTHING))
            for process in started:
                process.wait(SECONDS)
        finally:
            for process in started:
                if process.poll() is None:
                    process.kill()
                    process.wait()


def record(module: str, where: str, logging: str = "full", is_shimmed: bool = False, parameters: Optional[List[str]] = None) -> None:
    """Builds a module in a folder and runs it there."""
    folder = Path(where).resolve()
    folder.mkdir(parents=True, exist_ok=True)
    if not (folder / module).exists():
        build(module, folder, is_shimmed)
    (folder / "campaign.cfg").write_text(configuration(module, logging, parameters or []), encoding="utf-8")
    campaign(module, folder)
    if not any("-mtc" in it for it in os.listdir(folder)):
        raise OSError(f"no main component ran: {folder / 'controller.txt'} says why")


def main() -> int:
    parser = argparse.ArgumentParser(description="runs a module on Eclipse Titan and leaves its logs in a folder")
    parser.add_argument("module", choices=sorted(it.stem for it in HERE.glob("modules/*.ttcn")))
    parser.add_argument("folder")
    parser.add_argument("--logging", choices=sorted(LOGGING), default="full")
    parser.add_argument("--shim", action="store_true", help="links shim/shim.cc, which logs running and alive")
    parser.add_argument("--set", action="append", default=[], metavar="NAME=VALUE", help="a module parameter")
    given = parser.parse_args()
    try:
        why = why_not()
        if why:
            raise OSError(why)
        record(given.module, given.folder, given.logging, given.shim, [it.replace("=", " := ", 1) for it in given.set])
    except (OSError, subprocess.SubprocessError) as error:
        print(f"record.py: {error}", file=sys.stderr)
        return 3
    return 0


if __name__ == "__main__":
    sys.exit(main())
