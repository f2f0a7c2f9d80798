"""A user's repository in a folder of its own: a campaign that fails, ./ttrun, git, and stand-ins for rt and timeout."""
import hashlib
import os
import shutil
import sys
import tarfile
from typing import Any, Dict, List, Sequence

TESTS_FOLDER = os.path.dirname(os.path.dirname(os.path.abspath(__file__)))
sys.path += [TESTS_FOLDER, *(os.path.join(TESTS_FOLDER, it) for it in ("claims", "program", "page"))]

from harness import GIT, TOP, Folder, Ran, Skipped, bytes_of, call, hold, write

# A shell ends at the first command that fails. These are GitHub's, GitLab's and Jenkins's.
SHELLS: Dict[str, Sequence[str]] = {"github": ("bash", "-e"), "gitlab": ("bash", "-eo", "pipefail"), "jenkins": ("sh", "-e")}
# Test cases with each overall verdict, none of which races.
VERDICTS = {"t_pass": "setverdict pass", "t_inconc": "setverdict inconc", "t_fail": "setverdict fail", "t_none": "getverdict",
            "t_error": "stopcase", "t_waits": "create p\nstart p worker\nwait done p"}
RACE = "testcase t_race\nbehaviour main\ncreate p\nstart p worker\nend\nbehaviour worker\nsetverdict fail\nend\nend\n"
RT = "#!/bin/sh\n[ \"$*\" = version ] || exit 9\necho 'the toolchain of the tests'\n"
# If CUT is among the words of a command, it ends as at its limit of time after its first test case, which is out if it is live.
TIMEOUT = """#!/usr/bin/env bash
[[ $1 =~ ^[0-9]+m?$ ]] || exit 125
shift
[[ " $* " == *" ${CUT:-none} "* ]] || exec "$@"
[[ " $* " == *" --live "* ]] || exit 124
"$@" | sed '/^end /q'
exit 124
"""


def script_of(*names: str) -> str:
    """A campaign of these test cases."""
    worker = "behaviour worker\nsetverdict pass\nend\n"
    return "".join(f"testcase {it}\nbehaviour main\n{VERDICTS[it]}\nend\n{worker if 'worker' in VERDICTS[it] else ''}end\n" for it in names)


FAILING, PASSING = script_of(*VERDICTS), script_of("t_pass", "t_waits")


def read_yaml(text: str) -> Any:
    """What PyYAML reads, each scalar a text. No key may be there twice."""
    try:
        import yaml
    except ImportError:
        raise Skipped("there is no PyYAML") from None

    class Loader(yaml.BaseLoader):
        def construct_mapping(self, node: yaml.MappingNode, deep: bool = False) -> Dict[str, Any]:
            hold(len({key.value for key, _ in node.value}) == len(node.value), f"a key is there twice: {node.start_mark}")
            return super().construct_mapping(node, deep)

    return yaml.load(text, Loader=Loader)


class Room(Folder):
    """The repository, below a folder that a test throws away."""

    def __init__(self, above: str, program: str, script: str = FAILING) -> None:
        super().__init__(os.path.join(above, "a repository"))
        self.above, self.bin, self.program = above, os.path.join(above, "bin"), program
        shutil.copy2(os.path.join(TOP, "ttrun"), self.folder)
        self.write("campaign.script", script)
        for name, text in (("rt", RT), ("timeout", TIMEOUT)):
            write(os.path.join(self.bin, name), text, is_run=True)

    def add_archive(self) -> None:
        """Adds the archive of a release, with the program under test."""
        top = "ttrun-1.2.3-x86_64-linux"
        with tarfile.open(self.path(f"{top}.tar.gz"), "w:gz", compresslevel=1) as archive:
            archive.add(self.program, f"{top}/ttrun")
            archive.add(write(os.path.join(self.above, "MANIFEST"), "of a release\n"), f"{top}/MANIFEST")

    def files(self) -> Dict[str, str]:
        """Each file, and a sum of its content."""
        paths = (os.path.join(at, name) for at, _, names in os.walk(self.folder) for name in names)
        names = [os.path.relpath(it, self.folder) for it in paths]
        return {it: hashlib.sha256(bytes_of(self.path(it))).hexdigest() for it in names if not it.startswith(".git/")}

    def shell(self, shell: Sequence[str], text: str, **more: str) -> Ran:
        """Runs commands in a shell, as a server does: from a file. They find the program under test as ./ttrun, and the stand-ins."""
        path = write(os.path.join(self.above, "commands"), text)
        environment = {**os.environ, **GIT, "PATH": f"{self.bin}:{os.environ['PATH']}", "TTRUN": self.program, "LC_ALL": "C", **more}
        return call([*shell, path], cwd=self.folder, env=environment)

    def judged(self, name: str) -> List[str]:
        """The test cases of a text of histories, which must be legal."""
        ran = call([self.program, "check"], self.text(name))
        hold(ran.status == 0, f"{name} is refused: {ran}")
        return [it.split()[1] for it in ran.output.splitlines()]
