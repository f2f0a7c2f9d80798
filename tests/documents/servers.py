"""The pipelines that the documents show: read as their servers would, and their commands run job by job, each in a clean checkout."""
import fnmatch
import os
import re
import shutil
import subprocess
from dataclasses import dataclass, field
from functools import partial
from typing import Callable, Dict, List, Optional, Tuple

from blocks import PIPELINES, WORST, hold_junit, hold_left, step
from room import SHELLS, VERDICTS, Room, read_yaml
from sources import Block, read
from harness import TOP, Ran, bytes_of, hold, same, text_of

DOCUMENTS = (PIPELINES, "docs/titan.md")
FEWEST_TEXTS, SHARDS = 3, 4
MADE = "make-report"
# The shard whose limit of time ends it after its first test case; it lacks the other one.
CUT, LACKING = "2/4", "t_waits"
# What follows `uses:`, without its version.
ACTIONS = ("actions/checkout", "actions/cache", "actions/upload-artifact", "actions/download-artifact")
JUNIT = "run.xml"
LEFT = ["run.history", "run.html", JUNIT]
# A file that a server keeps: its content, and whether it may be run.
Files = Dict[str, Tuple[bytes, int]]
# What is in a checkout, of which the wrapper builds the program in a job that needs it: a copy, which is counted.
SOURCES = {"crates.txt": "ttrun:\n", "crates/ttrun/src/main.rt": "//! The program.\n", ".gitignore": "out/\n",
           "tools/first_build.py": """import os, shutil, sys
shutil.copy2(os.environ["PROGRAM"], os.path.join(sys.argv[1], "crates/ttrun/out/ttrun"))
open(os.environ["BUILDS"], "a").write("built\\n")
"""}
VALUES = {"vars.RATTLE": "a toolchain", "hashFiles('crates/**')": "a sum"}


@dataclass
class Done:
    """What a job gave: how it ended, what it printed, and the files that the server kept."""

    status: int = 0
    output: str = ""
    kept: Files = field(default_factory=dict)


class Server:
    """A server with one repository, which it checks out for each job, and the shell that it uses."""

    def __init__(self, folder: str, program: str, shell: str, cut: str) -> None:
        self.folder, self.program, self.shell, self.cut = folder, program, SHELLS[shell], cut
        self.builds, self.jobs = os.path.join(folder, "builds"), 0
        self.cache: Dict[str, Files] = {}
        self.origin = Room(os.path.join(folder, "origin"), program)
        self.origin.write(MADE, step("Shards", "run.html").text)
        for name, text in SOURCES.items():
            self.origin.write(name, text)
        self.origin.commit()

    def checkout(self, files: Files) -> Room:
        self.jobs += 1
        room = Room(os.path.join(self.folder, f"job{self.jobs}"), self.program)
        shutil.rmtree(room.folder)
        subprocess.run(["git", "clone", "--quiet", self.origin.folder, room.folder], check=True)
        put(room, files)
        return room

    def run(self, room: Room, text: str, **more: str) -> Ran:
        """Runs commands; the limit of time ends the shard that must be cut. No TTRUN names the program."""
        return room.shell(self.shell, text, **{"CUT": self.cut, "TTRUN": "", "PROGRAM": self.program, "BUILDS": self.builds, **more})

    def count(self) -> int:
        return len(text_of(self.builds).splitlines()) if os.path.exists(self.builds) else 0


def put(room: Room, files: Files) -> None:
    """Puts files into a checkout, which are older than all that is there."""
    for name, (content, mode) in files.items():
        path = room.write(name, content)
        os.chmod(path, mode)
        os.utime(path, (1_000_000_000, 1_000_000_000))


def collected(room: Room, patterns: List[str]) -> Files:
    """The files that match, or are below a folder that is named; what git has is none of them."""
    tracked = room.git("ls-files").split()
    names = [name for name in room.files() if name not in tracked
             and any(fnmatch.fnmatch(name, it) or name.startswith(it.rstrip("/") + "/") for it in patterns)]
    return {it: (bytes_of(room.path(it)), os.stat(room.path(it)).st_mode & 0o777) for it in names}


def block_with(language: str, word: str) -> str:
    """The text of the only block of the document that has a word."""
    [found] = [it.text for it in read(TOP, PIPELINES).blocks() if it.language == language and word in it.text]
    return found


def gitlab_job(server: Server, job: Dict, kept: Files, **names: str) -> Done:
    """A job of GitLab: all lines of its script in one shell."""
    hold(set(job) <= {"stage", "script", "artifacts", "cache", "parallel", "when", "needs"}, f"{sorted(job)}")
    room = server.checkout(kept)
    cache = job.get("cache", {})
    put(room, server.cache.get(str(cache.get("key")), {}))
    ran = server.run(room, "".join(f"{it.rstrip()}\n" for it in job["script"]), **names)
    done = Done(ran.status, ran.output + ran.errors)
    if cache:
        server.cache[cache["key"]] = collected(room, cache["paths"])
    artifacts = job.get("artifacts", {})
    if ran.status == 0 or artifacts.get("when") == "always":
        reports = list(artifacts.get("reports", {}).values())
        done.kept = collected(room, artifacts.get("paths", []) + reports)
        hold(all(it in done.kept for it in reports), f"there is no {reports}: {ran}")
    return done


def gitlab(server: Server, unpack: str = "") -> Tuple[List[int], Optional[Done]]:
    """The pipeline of GitLab: how each shard ended, and the job of the report. With a released program, each job unpacks it first."""
    text = read_yaml(block_with("yaml", ".gitlab-ci.yml"))
    stages = text.pop("stages")
    if unpack:
        text.pop("program")
        text = {name: {**job, "script": [unpack, *job["script"]]} for name, job in text.items()}
    hold(all(it["stage"] in stages for it in text.values()), f"stages that are not in {stages}")
    kept: Files = {}
    ends: Dict[str, List[Done]] = {}
    for stage in stages:
        has_failed = any(it.status for done in ends.values() for it in done)
        for name, job in text.items():
            if job["stage"] == stage and (not has_failed or job.get("when") == "always"):
                shards = range(1, int(job.get("parallel", 1)) + 1)
                ends[name] = [gitlab_job(server, job, dict(kept), CI_NODE_INDEX=str(it), CI_NODE_TOTAL=str(len(shards))) for it in shards]
                for done in ends[name]:
                    kept.update(done.kept)
    return [it.status for it in ends["campaign"]], ends["report"][0]


def filled(text: str, names: Dict[str, str]) -> str:
    """A text of GitHub's with the values of its expressions."""
    return re.sub(r"\$\{\{ *([^}]*?) *\}\}", lambda it: {**VALUES, **names}[it[1]], text)


def github_job(server: Server, job: Dict, store: Dict[str, Files], names: Dict[str, str]) -> Done:
    """A job of GitHub: each step in a shell of its own, and after a failure only those that come always."""
    room: Optional[Room] = None
    done, saving = Done(), []
    for it in job["steps"]:
        if done.status and it.get("if") != "always()":
            continue
        action = it.get("uses", "").partition("@")[0]
        hold(action in ACTIONS or "run" in it, f"{it}")
        if action == "actions/checkout":
            room = server.checkout({})
        elif action == "actions/cache":
            saving.append((filled(it["with"]["key"], names), it["with"]["path"]))
            put(room, server.cache.get(saving[-1][0], {}))
        elif action == "actions/upload-artifact":
            found = collected(room, filled(it["with"]["path"], names).split("\n"))
            hold(found, f"nothing is there to be kept: {it}")
            # It keeps no rights.
            store[filled(it["with"]["name"], names)] = {name: (content, 0o644) for name, (content, _) in found.items()}
            done.kept.update(found)
        elif action == "actions/download-artifact":
            for name, files in store.items():
                if fnmatch.fnmatch(name, it["with"]["pattern"]):
                    put(room, files)
        else:
            ran = server.run(room, filled(it["run"], names), GITHUB_STEP_SUMMARY=os.path.join(server.folder, "summary"))
            done.output += ran.output + ran.errors
            done.status = done.status or ran.status
    for key, path in saving:
        if not done.status and key not in server.cache:
            server.cache[key] = collected(room, [path])
    return done


def github(server: Server, unpack: str = "") -> Tuple[List[int], Optional[Done]]:
    """The workflow of GitHub. With a released program, each job unpacks it instead of the cache."""
    jobs = read_yaml(block_with("yaml", ".github/workflows"))["jobs"]
    needs = [(name, job.get("needs")) for name, job in jobs.items()]
    hold(needs == [("program", None), ("campaign", "program"), ("report", "campaign")], f"{needs}")
    store: Dict[str, Files] = {}
    if unpack:
        for job in jobs.values():
            job["steps"] = [{"run": unpack} if it.get("uses", "").startswith("actions/cache@") else it for it in job["steps"]]
    else:
        hold(github_job(server, jobs["program"], store, {}).status == 0, "the program is built")
    strategy = jobs["campaign"]["strategy"]
    hold(strategy["fail-fast"] == "false", "a shard that fails ends the others")
    ends = [github_job(server, jobs["campaign"], store, {"matrix.shard": it}).status for it in strategy["matrix"]["shard"]]
    if any(ends) and jobs["report"].get("if") != "always()":
        return ends, None
    done = github_job(server, jobs["report"], store, {})
    hold(text_of(os.path.join(server.folder, "summary")).startswith(f"    cases {len(VERDICTS)} "), "the summary of the step")
    return ends, done


# A command of Jenkins, and what catches its failure.
COMMAND = re.compile(r"(?P<caught>catchError\([^)]*\) \{\s*)?\bsh (?:'''(?P<long>.*?)'''|'(?P<short>[^'\n]*)')", re.DOTALL)


def jenkins_part(server: Server, room: Room, text: str, **names: str) -> Done:
    """The commands of a stage of Jenkins, up to the first that fails and is not caught."""
    done = Done()
    for found in COMMAND.finditer(text):
        ran = server.run(room, (found["long"] or found["short"]).replace("\\\n", "") + "\n", **names)
        done.output += ran.output + ran.errors
        done.status = done.status or ran.status
        if ran.status and not found["caught"]:
            break
    return done


def jenkins(server: Server) -> Tuple[List[int], Optional[Done]]:
    """The pipeline of Jenkins, whose language is not read here except for its commands and what they leave."""
    text = block_with("groovy", "Jenkinsfile")
    hold(all(text.count(one) == text.count(other) for one, other in ("{}", "()")) and text.count("'") % 2 == 0, "brackets")
    built, _, campaign = text.partition("stage('campaign')")
    campaign, _, report = campaign.partition("stage('report')")
    room = server.checkout({})
    hold(jenkins_part(server, room, built).status == 0, "the program is built")
    program = collected(room, re.search(r"stash name: 'program', includes: '([^']*)'", built)[1].split(", "))
    shards = re.findall(r"'(\d+)'", re.search(r"values ([^}]*)", campaign)[1])
    ends, parts = [], {}
    for shard in shards:
        room = server.checkout(program if "unstash 'program'" in campaign else {})
        done = jenkins_part(server, room, campaign, SHARD=shard)
        ends.append(done.status)
        parts.update(collected(room, [re.search(r'stash .*includes: "([^"]*)"', campaign)[1].replace("${SHARD}", shard)]))
    hold(f"1..{len(shards)}" in report, "not all parts are put together")
    # The files come after the first command, which clears the folder of the run before.
    clearing, _, rest = report.partition("unstash 'program'")
    room = server.checkout({"part.7.history": (b"of the run before\n", 0o644)})
    hold(jenkins_part(server, room, clearing).status == 0 and "part.7.history" not in room.files(), "the folder is not cleared")
    put(room, {**program, **parts})
    done = jenkins_part(server, room, rest)
    always = rest.partition("always {")[2]
    names = [it for found in re.findall(r"(?:artifacts|testResults): '([^']*)'", always) for it in found.split(", ")]
    done.kept = collected(room, names)
    return ends, done


Pipeline = Callable[[Server], Tuple[List[int], Optional[Done]]]


def hold_report(server: Server, done: Done, missing: List[str], status: int) -> None:
    """Holds the job of the report to a status, and to what it keeps of the test cases, of which these are missing."""
    hold(done is not None and done.status == status, f"the report ends otherwise: {done}")
    hold(all(it in done.kept for it in LEFT), f"{sorted(done.kept)} are kept")
    room = server.checkout({name: it for name, it in done.kept.items() if name in LEFT})
    hold_left(room, [it for it in LEFT if it != JUNIT], [it for it in VERDICTS if it not in missing], status)
    hold_junit(room, JUNIT, list(VERDICTS))
    for name in VERDICTS:
        is_told = re.search(f'<testcase name="{name}" [^>]*>\n<error type="missing"', room.text(JUNIT)) is not None
        hold(is_told == (name in missing), f"{JUNIT}: {name}")
        hold((f"missing {name}\n" in done.output) == (name in missing), f"the output: {name}: {done.output}")
    hold(server.count() == 1, f"the program was built {server.count()} times")


def all_shards_end(room: str, program: str, shell: str, pipeline: Pipeline) -> str:
    """The campaign fails, and no shard runs out of time."""
    server = Server(room, program, shell, "none")
    ends, done = pipeline(server)
    same([0] * SHARDS, ends)
    hold_report(server, done, [], WORST)
    if shell != "jenkins":  # whose agents keep what they have built
        pipeline(server)
        same(1, server.count(), "the next run builds again what the cache has")
    return f"{server.jobs} checkouts"


def a_shard_runs_out_of_time(room: str, program: str, shell: str, pipeline: Pipeline) -> str:
    """The report comes all the same, and has what had finished and what had not."""
    server = Server(room, program, shell, CUT)
    ends, done = pipeline(server)
    same([0, 1, 0, 0], ends, "the shard that was cut fails, and no other")
    hold_report(server, done, [LACKING], 3)
    return f"{LACKING} is missing"


def a_released_program(room: str, program: str, shell: str, pipeline: Callable[[Server, str], Tuple[List[int], Optional[Done]]]) -> str:
    """The repository has the archive of a release instead of the sources, and nothing is built."""
    server = Server(room, program, shell, "none")
    for name in SOURCES:
        os.remove(server.origin.path(name))
    server.origin.add_archive()
    server.origin.commit()
    ends, done = pipeline(server, step("Where `ttrun` comes from", "MANIFEST").text)
    hold(ends == [0] * SHARDS and done is not None and done.status == WORST, f"{ends}: {done}")
    hold(all(it in done.kept for it in LEFT) and server.count() == 0, f"{sorted(done.kept)}, and {server.count()} builds")
    return f"{server.jobs} checkouts"


def texts() -> List[Tuple[str, Block]]:
    found = [(it, block) for it in DOCUMENTS for block in read(TOP, it).blocks() if block.language == "yaml"]
    hold(len(found) >= FEWEST_TEXTS, f"{len(found)} texts of YAML")
    return found


def every_yaml_is_read(_: str, __: str) -> str:
    values = [read_yaml(block.text) for _, block in texts()]
    hold(all(isinstance(it, dict) and it for it in values), f"one is no map: {values}")
    return f"{sum(map(len, values))} keys"


OF_SERVERS = {"github_whole": (all_shards_end, github), "github_late": (a_shard_runs_out_of_time, github),
              "github_released": (a_released_program, github), "gitlab_whole": (all_shards_end, gitlab),
              "gitlab_late": (a_shard_runs_out_of_time, gitlab), "gitlab_released": (a_released_program, gitlab),
              "jenkins_whole": (all_shards_end, jenkins), "jenkins_late": (a_shard_runs_out_of_time, jenkins)}
TESTS = {"every_yaml_is_read": every_yaml_is_read, **{name: partial(test, shell=pipeline.__name__, pipeline=pipeline) for name, (test, pipeline) in OF_SERVERS.items()}}
