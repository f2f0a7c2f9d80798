#!/usr/bin/env python3
"""Times `explore` on generated test cases, of which three in ten race, and on one whose orders all differ. Counts how their
lines end: measure.py PROGRAM.

The cases are the same at every run.
"""
import random
import resource
import statistics
import subprocess
import sys
import time

SIZES = ((4, 10, 40), (8, 10, 40), (16, 10, 40), (32, 8, 20), (64, 8, 10))
WIDE = (20, 20)
LONGEST = 60
ENDINGS = ("complete", "undecided")


def behaviour(chance, at, steps, racing):
    """A behaviour of that many steps: verdicts and questions; where it races, calls about the component started before it."""
    lines = [f"behaviour b{at} before"]
    for _ in range(steps):
        drawn = chance.random()
        if racing and drawn < 0.1:
            lines.append(chance.choice(("wait done before", "stop before", "kill before")) if at > 1 else "stop self")
        elif drawn < 0.4:
            lines.append(f"setverdict {'fail' if racing and chance.random() < 0.1 else 'pass'}")
        else:
            lines.append(chance.choice(("getverdict", "running self", "alive self")))
    return lines + ["end"]


def testcase(chance, name, count, steps):
    """The main behaviour starts all others, waits for all, or for some and then ends or stops the rest."""
    racing = chance.random() < 0.3
    lines = [f"testcase {name}", "behaviour b0"]
    for at in range(1, count):
        lines += [f"create p{at}", f"start p{at} b{at} p{max(at - 1, 1)}"]
    if racing:
        lines += [f"wait done p{at}" for at in range(1, count) if chance.random() < 0.5]
        lines += [chance.choice(("setverdict pass", "stop all", "kill all"))]
    else:
        lines += ["wait done all", "setverdict pass"]
    lines.append("end")
    for at in range(1, count):
        lines += behaviour(chance, at, steps, racing)
    return "\n".join(lines + ["end"]) + "\n"


def wide(count, steps):
    """A test case whose behaviours create components, so that no two orders lead to one state, and are stopped at some time."""
    lines = ["testcase t", "behaviour b0"]
    for at in range(1, count):
        lines += [f"create p{at}", f"start p{at} b{at}"]
    lines += ["setverdict pass", "stop all", "end"]
    for at in range(1, count):
        lines += [f"behaviour b{at}", *(f"create q{it}" for it in range(steps - 1)), f"setverdict {'fail' if at == 1 else 'pass'}", "end"]
    return "\n".join(lines + ["end"]) + "\n"


def ending(line):
    return next((it for it in ENDINGS if f" {it}" in line), "no line")


def processor_seconds():
    used = resource.getrusage(resource.RUSAGE_CHILDREN)
    return used.ru_utime + used.ru_stime


def measure(program, texts):
    """The seconds that each of these test cases took, how many took longer than is waited for, and how many lines end how."""
    seconds, unended, told = [], 0, {}
    for text in texts:
        begun = time.monotonic()
        try:
            ran = subprocess.run([program, "explore"], input=text.encode(), capture_output=True, timeout=LONGEST, check=False)
            seconds.append(time.monotonic() - begun)
            end = ending(ran.stdout.decode())
            told[end] = told.get(end, 0) + 1
        except subprocess.TimeoutExpired:
            unended += 1
    return seconds, unended, told


def main():
    for count, steps, cases in (*SIZES, (*WIDE, 1)):
        chance = random.Random(f"{count} {steps}")
        texts = [wide(count, steps)] if cases == 1 else [testcase(chance, f"t{at}", count, steps) for at in range(cases)]
        before = processor_seconds()
        seconds, unended, told = measure(sys.argv[1], texts)
        used = processor_seconds() - before
        if seconds:
            ends = ", ".join(f"{told[it]} {it}" for it in (*ENDINGS, "no line") if it in told)
            print(f"{count} behaviours, {steps} steps, {cases} cases: median {statistics.median(seconds):.3f} s, "
                  f"longest {max(seconds):.3f} s, {unended} took more than {LONGEST} s; {used:.2f} s of a processor together; {ends}", flush=True)
        else:
            print(f"{count} behaviours, {steps} steps, {cases} cases: each took more than {LONGEST} s", flush=True)


main()
