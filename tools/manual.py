#!/usr/bin/env python3
"""Writes the manual page of ttrun and its completions for bash, zsh and fish, made of what the program says with --help.

usage: tools/manual.py PROGRAM FOLDER

The files are ttrun.1, ttrun.bash, _ttrun and ttrun.fish.
"""
import os
import re
import subprocess
import sys
from dataclasses import dataclass
from typing import Dict, List

COMMAND = re.compile(r"^  (\w+) +(.*)$", re.MULTILINE)
OPTION = re.compile(r"^ +(?:-(?P<short>\w), +)?--(?P<name>[a-z-]+)(?P<word>[= \[]+<?[\w/]+>?\]?)?  +(?P<help>.*)$", re.MULTILINE)
# What the help says a value is, as `VERDICT is none, pass, inconc, fail or error.`
VALUES = re.compile(r"\b([A-Z]+) is ((?:\w+, )+\w+ or \w+)\.")


@dataclass
class Option:
    """An option, what the help calls its value, and the values that there are if the help lists them."""

    name: str
    word: str
    help: str
    values: List[str]


@dataclass
class Help:
    """What the program says of itself or of a subcommand: the first line, the usage, the options, and the text after them."""

    about: str
    usage: str
    options: List[Option]
    text: str


def help_of(program: str, *words: str) -> str:
    return subprocess.run([program, *words, "--help"], stdin=subprocess.DEVNULL, stdout=subprocess.PIPE, text=True, check=True).stdout


def read_help(text: str) -> Help:
    head, _, rest = text.partition("\nOptions:\n")
    options, _, after = rest.partition("\n\n")
    values = {word: re.split(", | or ", its) for word, its in VALUES.findall(" ".join(after.split()))}
    found = [(it["name"], (it["word"] or "").strip(" =[<>]"), it["help"]) for it in OPTION.finditer(options)]
    optional = re.findall(r"--([a-z-]+)\[=", options)
    return Help(text.partition("\n")[0], re.search("Usage: (.*)", head)[1],
                [Option(name, word + "?" * (name in optional), said, values.get(word, [word] if word.islower() else [])) for name, word, said in found],
                after.rstrip("\n"))


def roff(text: str) -> str:
    """A text of a manual page, in which no line is a request."""
    return re.sub(r"(?m)^(?=[.'])", r"\\&", text.replace("\\", r"\e").replace("-", r"\-"))


def shown(option: Option) -> str:
    word = option.word.rstrip("?")
    return rf"\fB{roff('--' + option.name)}\fR" + (f"[={roff(word)}]" if word != option.word else rf" \fI{roff(word)}\fR" if word else "")


def manual(version: str, program: Help, commands: Dict[str, Help]) -> str:
    lines = [f'.TH TTRUN 1 "" "{version}"', ".SH NAME", rf"ttrun \- {roff(program.about)}", ".SH SYNOPSIS", r"\fBttrun\fR [\fICOMMAND\fR] [\fIOPTIONS\fR] < \fIFILE\fR",
             ".SH DESCRIPTION", ".nf", roff(program.text), ".fi", ".SH OPTIONS", *(f".TP\n{shown(it)}\n{roff(it.help)}" for it in program.options)]
    for name, it in commands.items():
        lines += [f'.SH "TTRUN {name.upper()}"', rf"\fBttrun {name}\fR {roff(it.about)}", *(f".TP\n{shown(one)}\n{roff(one.help)}" for one in it.options),
                  ".PP", ".nf", roff(it.text), ".fi"]
    return "\n".join(lines) + "\n"


def bash(program: Help, commands: Dict[str, Help]) -> str:
    every = {it.name: it for some in commands.values() for it in some.options if it.word and not it.word.endswith("?")}
    lines = ["# Completions of ttrun for bash.", "_ttrun() {", '    local word=${COMP_WORDS[COMP_CWORD]} words=""', '    case ${COMP_WORDS[COMP_CWORD - 1]} in']
    lines += [f'        --{it.name}) COMPREPLY=($(compgen -W "{" ".join(it.values)}" -- "$word")); return ;;' for it in every.values()]
    lines += ["    esac", "    case $COMP_CWORD:${COMP_WORDS[1]} in"]
    lines += [f'        1:*) words="{" ".join([*commands, *(f"--{it.name}" for it in program.options)])}" ;;']
    for name, it in commands.items():
        words = [f"--{one.name}" for one in it.options] + [f"--{one.name}={its}" for one in it.options if one.word.endswith("?") for its in one.values]
        lines.append(f'        *:{name}) words="{" ".join(words)}" ;;')
    return "\n".join([*lines, "    esac", '    COMPREPLY=($(compgen -W "$words" -- "$word"))', "}", "complete -o default -F _ttrun ttrun"]) + "\n"


def quoted(text: str) -> str:
    return text.replace("'", r"'\''")


def zsh(commands: Dict[str, Help]) -> str:
    def spec(it: Option) -> str:
        word = it.word.rstrip("?")
        value = f"{':' * (1 + (word != it.word))}{word}:({' '.join(it.values)})" if word else ""
        again, equals = "*" * ("again" in it.help), "=-" * (word != it.word)
        return f"'{again}--{it.name}{equals}[{quoted(it.help)}]{value}'"

    lines = ["#compdef ttrun", "local -a commands=(", *(f"    '{name}:{quoted(it.about)}'" for name, it in commands.items()), ")",
             "if ((CURRENT == 2)); then", "    _describe command commands", "    _arguments '--help[Print help]' '--version[Print version]'", "    return", "fi",
             "case $words[2] in"]
    for name, it in commands.items():
        lines.append(f"    {name}) shift words; ((CURRENT--)); _arguments {' '.join(map(spec, it.options))} ;;")
    return "\n".join([*lines, "esac"]) + "\n"


def fish(program: Help, commands: Dict[str, Help]) -> str:
    first, lines = "complete -c ttrun -n __fish_use_subcommand", ["# Completions of ttrun for fish."]
    lines += [f"{first} -f -a {name} -d '{quoted(it.about)}'" for name, it in commands.items()]
    lines += [f"{first} -l {it.name} -d '{quoted(it.help)}'" for it in program.options]
    for name, it in commands.items():
        for one in it.options:
            value = f" -x -a '{' '.join(one.values)}'" if one.word and one.word[-1] != "?" else f" -f -a '{' '.join(one.values)}'" if one.word else ""
            lines.append(f"complete -c ttrun -n '__fish_seen_subcommand_from {name}' -l {one.name}{value} -d '{quoted(one.help)}'")
    return "\n".join(lines) + "\n"


def main() -> None:
    if len(sys.argv) != 3:
        sys.exit(__doc__)
    program, folder = os.path.abspath(sys.argv[1]), sys.argv[2]
    text = help_of(program)
    whole, names = read_help(text), [name for name, _ in COMMAND.findall(text.partition("\nOptions:")[0]) if name != "help"]
    commands = {name: read_help(help_of(program, name)) for name in names}
    version = subprocess.run([program, "--version"], stdout=subprocess.PIPE, text=True, check=True).stdout.strip()
    for name, made in (("ttrun.1", manual(version, whole, commands)), ("ttrun.bash", bash(whole, commands)), ("_ttrun", zsh(commands)),
                       ("ttrun.fish", fish(whole, commands))):
        with open(os.path.join(folder, name), "w", encoding="utf-8") as file:
            file.write(made)


if __name__ == "__main__":
    main()
