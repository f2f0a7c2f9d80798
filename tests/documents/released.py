"""The script release: what it refuses, and what its archive and its packages give to a user who has no toolchain."""
import hashlib
import os
import re
import shutil
import tarfile
import time
from typing import List

import words as of_words
from browser import Chromium
from sources import Document, output_of, read
from harness import Folder, Ran, Skipped, add_tools, bytes_of, call, checkout, copy_checkout, hold, same, tests_of, text_of
from room import read_yaml

GREEN = "2345 passed, 0 failed"
TOOLCHAIN = "the toolchain of the tests"
MARK = '<script type="text/plain" id="history">'
# What must be in the archive, each by a file of it.
PARTS = ("ttrun", "MANIFEST", "SHA256SUMS", "README.md", "CHANGELOG.md", "docs/guide.md", "docs/pipelines.md", "docs/library.md",
         "docs/page-case.png", "docs/benches.md", "examples/restart.script", "page/viewer.html", "clients/titan/ttrun-titan",
         "clients/titan/titan_logs/table.py", "clients/python/README.md", "clients/python/build_backend.py", "clients/python/pytest_filskeam.py",
         "clients/python/filskeam/py.typed", "clients/cpp/README.md", "clients/cpp/filskeam.hpp", "clients/cpp/heater.cpp",
         "clients/cpp/filskeam.h", "clients/cpp/filskeam_gtest.hpp", "clients/cpp/CMakeLists.txt", "page/play.html")
# What a release is made of and by.
NEEDED = ("release", ".gitignore", "*.md", "docs", "examples", "page", "clients", "tools/manual.py")
MANUAL, BASH, ZSH, FISH = (f"share/{it}" for it in ("man/man1/ttrun.1", "bash-completion/completions/ttrun", "zsh/vendor-completions/_ttrun",
                                                  "fish/vendor_completions.d/ttrun.fish"))
SUBCOMMANDS = ("run", "serve", "explore", "check", "report", "model", "replay")
VERDICTS_TO_STOP_ON = ["none", "pass", "inconc", "fail", "error"]


class Tree(Folder):
    """A clean checkout of the files that a release is made of, with the program. CHANGELOG.md has the program's own version: it may
    have been built before a new one was begun."""

    def __init__(self, room: str, program: str) -> None:
        super().__init__(os.path.join(room, "a tree"))
        self.room, self.program, said = room, self.path("crates/ttrun/out/ttrun"), call([program, "--version"]).output
        hold(re.fullmatch(r"ttrun \d+\.\d+\.\d+\n", said), f"the program says {said!r}, where a version and no more is wanted")
        self.version = said.split()[1]
        copy_checkout(self.folder, *NEEDED)
        os.makedirs(os.path.dirname(self.program))
        shutil.copy2(program, self.program)
        self.write("CHANGELOG.md", re.sub(r"(?m)^## (?:Unreleased$|[\d.]+,)", f"## {self.version},", self.text("CHANGELOG.md"), count=1))
        self.commit()

    def record(self, **lines: str) -> None:
        """Leaves what a gate does, with other lines if they are given."""
        wanted = {"commit": self.git("rev-parse", "HEAD").strip(), "tree": "clean", "toolchain": TOOLCHAIN,
                  "program": hashlib.sha256(bytes_of(self.program)).hexdigest(), "gate": GREEN, **lines}
        self.write("crates/ttrun/out/ttrun.gate", "".join(f"{key} {value}\n" for key, value in wanted.items()))

    def release(self, *words: str, mask: str = "022") -> Ran:
        """Makes a release, as a user whose files have these rights taken away."""
        return call(["sh", "-c", f'umask {mask}; exec "$0" "$@"', self.path("release"), *words], cwd=self.room)

    def hold_none(self, *words: str) -> None:
        """Holds a release to a refusal that has these words."""
        ran = self.release()
        hold(ran.status == 3 and not ran.output and ran.errors.startswith("release: "), ran)
        hold(all(it in ran.errors for it in words), f"{words} are not told: {ran}")
        same([], [it for it in os.listdir(os.path.dirname(self.program)) if it.endswith((".gz", ".deb", ".whl", ".MANIFEST"))], "what is left")


class Unpacked(Folder):
    """The folder of an archive that a tree made, unpacked elsewhere. Its commands find no rt, nor anything else that names a program."""

    def __init__(self, room: str, program: str) -> None:
        self.tree, top = Tree(room, program), os.path.join(room, "else where")
        self.tree.record()
        ran, version = self.tree.release(room), self.tree.version
        self.wheel, self.package, self.archive = self.made = [os.path.join(room, it) for it in (
            f"filskeam-{version}-py3-none-any.whl", f"filskeam_{version}_amd64.deb", f"ttrun-{version}-x86_64-linux.tar.gz")]
        hold(ran.status == 0 and not ran.errors, ran)
        same("".join(f"{hashlib.sha256(bytes_of(it)).hexdigest()}  {os.path.basename(it)}\n" for it in self.made), ran.output)
        self.manifest = f"{self.archive[:-len('.tar.gz')]}.MANIFEST"
        same(sorted([*self.made, self.manifest]), sorted(it.path for it in os.scandir(room) if it.is_file()), "what it leaves")
        with tarfile.open(self.archive) as archive:
            plain = [(it.isfile() or it.isdir()) and it.uid == 0 and ".." not in it.name for it in archive.getmembers()]
            hold(all(plain), "a file of another kind")
            archive.extractall(top)
        same([os.path.basename(self.archive)[:-len(".tar.gz")]], os.listdir(top))
        super().__init__(os.path.join(top, *os.listdir(top)))
        tools = add_tools(os.path.join(room, "tools"), "rt")
        hold(shutil.which("rt", path=tools) is None, "there is an rt")
        self.environment = {"PATH": tools, "HOME": room, "LC_ALL": "C.UTF-8", "TMPDIR": room}

    def shell(self, text: str, **more: str) -> Ran:
        return call(["bash", "-c", text], cwd=self.folder, env={**self.environment, **more})

    def completed(self, *words: str) -> List[str]:
        """What bash offers for the last of these words."""
        typed = " ".join(f"'{it}'" for it in words)
        ran = self.shell(f". {BASH}; COMP_WORDS=({typed}) COMP_CWORD={len(words) - 1}; _ttrun; printf '%s\\n' \"${{COMPREPLY[@]}}\"")
        return ran.output.split()

    def files(self) -> List[str]:
        return sorted(os.path.relpath(os.path.join(at, it), self.folder) for at, _, names in os.walk(self.folder) for it in names)

    def read(self, name: str) -> Document:
        return read(self.folder, name)


class Archive(Unpacked):
    """What an archive gives to a user who has no toolchain."""

    def an_archive_is_what_it_says(self) -> str:
        there = self.files()
        same([], [name for name in PARTS if name not in there], "what is not there")
        ran = self.shell("sha256sum --check --strict --quiet SHA256SUMS && cut -c 67- SHA256SUMS")
        same((0, there), (ran.status, sorted([*ran.output.splitlines(), "SHA256SUMS"])), "not every file has its sum")
        newest = max((tuple(map(int, it.split(b"."))) for it in re.findall(rb"GLIBC_(\d+(?:\.\d+)+)", bytes_of(self.tree.program))), default=())
        wanted = [f"ttrun {self.tree.version}", f"commit {self.tree.git('rev-parse', 'HEAD').strip()}", f"toolchain {TOOLCHAIN}", f"gate {GREEN}",
                  f"machine x86_64-linux, glibc {'.'.join(map(str, newest))} or later"]
        same(wanted, self.text("MANIFEST").splitlines()[:5])
        needed = [it for it in self.shell("ldd ./ttrun").output.split() if it.startswith("lib") and not it.startswith("libc.")]
        same([], needed, "more than the C library is needed")
        same(self.text("MANIFEST") + self.shell(f"cd '{self.tree.room}' && sha256sum *.whl *.deb *.tar.gz").output, self.text(self.manifest))
        return f"{len(there)} files, {os.path.getsize(self.archive) // 1024} KiB"

    def the_same_bytes_again(self) -> str:
        before = list(map(bytes_of, [*self.made, self.manifest]))
        os.utime(self.tree.path("README.md"), (1, 1))
        time.sleep(1.1)
        same(0, self.tree.release(self.tree.room, mask="077").status, "the second one")
        hold(list(map(bytes_of, [*self.made, self.manifest])) == before, "other files of the same commit")
        return f"{sum(map(len, before))} bytes"

    def the_package_is_installed_and_removed(self) -> str:
        """Into a folder that has nothing but what dpkg notes."""
        if os.geteuid() != 0:
            raise Skipped("dpkg wants to be root")
        with Folder(os.path.join(self.tree.room, "root")) as root:
            root.write("var/lib/dpkg/status", ""), root.write("var/lib/dpkg/info/none", ""), root.write("var/lib/dpkg/updates/none", "")
            os.remove(root.path("var/lib/dpkg/updates/none"))
            dpkg = ["dpkg", f"--root={root.folder}", "--force-depends", "--log=/dev/null"]
            ran = call([*dpkg, "--install", self.package])
            hold(ran.status == 0, ran)
            ran = call([root.path("usr/bin/ttrun"), "explore"], "testcase t\nbehaviour main\nsetverdict pass\nend\nend\n")
            same(("t pass complete\n", "", 0), (ran.output, ran.errors, ran.status))
            same(self.text(MANUAL), call(["gzip", "-dc", root.path(f"usr/{MANUAL}.gz")]).output, "another manual page")
            same(0, call([root.path("usr/bin/ttrun-titan"), "--help"]).status, "the reader of Titan's logs does not run")
            doc = "usr/share/doc/filskeam/"
            same([], [it for it in PARTS if it not in ("ttrun", "SHA256SUMS") and not os.path.exists(root.path(doc + it))], "what is not there")
            same([], [it for it in (BASH, ZSH, FISH) if self.text(it) != root.text(f"usr/{it}")], "other completions")
            same(f"ii filskeam {self.tree.version}", call(["dpkg-query", f"--root={root.folder}", "-f", "${db:Status-Abbrev}${Package} ${Version}", "-W"]).output)
            ran = call([*dpkg, "--purge", "filskeam"])
            hold(ran.status == 0 and not os.path.exists(root.path("usr")), f"{ran}: {os.listdir(root.folder)}")
        return f"{os.path.getsize(self.package) // 1024} KiB"

    def the_package_has_the_library_of_the_gate(self) -> str:
        out = "crates/filskeam/out/library/"
        for name, text in (("libfilskeam.a", "archive"), ("libfilskeam.so", "shared"), ("filskeam.h", "header"), ("filskeam.pc", "prefix=/x\nlibdir=/y\n")):
            self.tree.write(out + name, text)
        self.tree.record(library=hashlib.sha256(b"archive").hexdigest())
        same(0, self.tree.release(self.tree.room).status)
        same(0, call(["dpkg-deb", "-x", self.package, self.path("tree")]).status)
        found = [self.text(f"tree/usr/{it}") for it in ("include/filskeam.h", *(f"lib/x86_64-linux-gnu/{it}" for it in (
            "libfilskeam.a", "libfilskeam.so", "pkgconfig/filskeam.pc")))]
        same(["header", "archive", "shared", "prefix=/usr\nlibdir=${prefix}/lib/x86_64-linux-gnu\n"], found)
        self.tree.write(f"{out}libfilskeam.a", "another")
        ran = self.tree.release(self.tree.room)
        hold(ran.status == 3 and "is not the library of the gate" in ran.errors, ran)
        return "4 files"

    def the_wheel_has_the_client(self) -> str:
        self.write("bench.py", "import filskeam\nwith filskeam.Server() as server:\n    print(server.run('t', lambda run: run.set_verdict('pass')).verdict, filskeam.__version__)\n")
        ran = self.shell(f"rm -r clients && python3 -B bench.py", PYTHONPATH=self.wheel, TTRUN=self.path("ttrun"))
        same((f"pass {self.tree.version}\n", "", 0), (ran.output, ran.errors, ran.status))
        return os.path.basename(self.wheel)

    def the_manual_and_the_completions_name_all(self) -> str:
        """Each subcommand, and each option with its values, as the tests of the help have them: in the manual, and as shells complete them."""
        page, zsh, count = self.text(MANUAL).replace("\\-", "-"), self.text(ZSH), 0
        first = [*SUBCOMMANDS, "--help", "--version"]
        same(first, self.completed("ttrun", ""), "what bash begins with")
        same([], [it for it in first if it not in page or it not in zsh], "what the manual or zsh lacks")
        for command in SUBCOMMANDS:
            lines = "".join(next(lines for words, lines in of_words.HELP if words == ("help", command)))
            wanted = [*re.findall(r"(?m)^  (--[a-z-]+)", lines), "--help"]
            of_page, of_zsh = page.partition(f'.SH "TTRUN {command.upper()}"')[2].partition(".SH ")[0], re.search(rf"(?m)^    {command}\) .*$", zsh)[0]
            same([], [it for it in wanted if rf"\fB{it}\fR" not in of_page or not re.search(rf"'\*?{it}[=-]*\[", of_zsh)], f"{command} lacks")
            same(sorted(wanted), [it for it in sorted(self.completed("ttrun", command, "--")) if "=" not in it], f"bash, {command}")
            count += len(wanted)
        for shown in (self.completed("ttrun", "run", "--stop-on", ""), re.search(r"'--stop-on\[[^']*:\(([^)]*)\)'", zsh)[1].split()):
            same(VERDICTS_TO_STOP_ON, shown)
        same(["--stop-on"], self.completed("ttrun", "run", "--st"))
        return f"{count} options"

    def other_shells_read_their_completions(self) -> str:
        shells = [it for it in ("zsh", "fish") if shutil.which(it)]
        for it, name in (("zsh", ZSH), ("fish", FISH)):
            ran = self.shell(f"{it} -n {name}" if it in shells else "true")
            hold(ran.status == 0 and not ran.errors, ran)
        if "fish" not in shells:
            raise Skipped("there is no fish")
        for typed, wanted in (("run --stop-on ", VERDICTS_TO_STOP_ON), ("", [*SUBCOMMANDS]), ("replay --", ["--explain", "--help", "--no-explain"])):
            ran = self.shell(f"fish --no-config -c 'source {FISH}; complete -C \"ttrun {typed}\"'")
            same(sorted(wanted), sorted(it.split("\t")[0] for it in ran.output.splitlines() if it), typed)
        return ", ".join(shells)

    def the_archive_runs_without_a_toolchain(self) -> str:
        count, readme = 0, self.read("README.md")
        self.write("race.script", next(block.text for block in readme.blocks() if re.match(r"testcase \w+\nbehaviour ", block.text)))
        ran = self.shell("./ttrun explore < race.script")
        said = re.search(r"`(t none [a-z ]+)`", " ".join(readme.lines))[1]
        same((f"{said}\n", "", 1), (ran.output, ran.errors, ran.status))
        for document in (readme, self.read("docs/guide.md")):
            for _, words, file, _ in document.commands():
                if "--history" not in words and "--progress" not in words:
                    ran = self.shell(f"./ttrun {' '.join(words)} < examples/{file}")
                    same((self.text(f"examples/{output_of(words, file)}"), ""), (ran.output, ran.errors), f"{words} {file}")
                    hold(ran.status < 3, ran)
                    count += 1
        hold(count >= 3, f"{count} commands")
        ran = self.shell("./ttrun run --history < examples/verdicts.script | ./ttrun report --junit > run.xml; ls run.xml")
        same("run.xml\n", ran.output, ran)
        hold(not self.shell("command -v rt").output, "there is an rt")
        return f"{count} commands"

    def the_archive_writes_its_page_which_opens(self) -> str:
        ran, found = self.shell("./ttrun report --html < examples/restart.history > restart.html"), Chromium.find()
        hold(ran.status == 1, ran)
        same(self.text("page/viewer.html").replace(MARK, MARK + self.text("examples/restart.history")), self.text("restart.html"), "another page than the viewer's")
        if found is None:
            raise Skipped("there is no Chromium")
        with Chromium(found) as browser:
            for name, words in (("page/viewer.html", ()), ("restart.html", ("t_fail", "fail"))):
                browser.open(self.path(name))
                text = browser.js("document.body.innerText")
                hold(not browser.errors and text.strip() and all(it in text for it in words), f"{name}: {browser.errors} {text[:300]!r}")
        return "2 pages"

    def the_archive_reads_logs_of_titan(self) -> str:
        logs = sorted(line.split("  ")[1] for line in self.text("SHA256SUMS").splitlines() if "clients/titan/logs/pumps-default" in line)
        hold(logs, "there are no logs")
        document = self.read("docs/titan.md")
        typed = next(block.text for block in document.blocks() if block.language == "sh")
        ran = self.shell(typed.replace(" LOGS", f" {logs[0]}"))
        hold(ran.status in (0, 1) and " in the log, " in ran.output and "no program" not in ran.errors, ran)
        job = read_yaml(next(block.text for block in document.blocks() if block.language == "yaml"))["flaky"]
        again = self.shell("\n".join(job["script"]), LOGS=logs[0])
        same(ran.status, again.status, again)
        hold("<testsuite" in self.text(job["artifacts"]["reports"]["junit"]), "no JUnit report")
        return f"{logs[0]}, status {ran.status}"

    def the_archive_runs_benches(self) -> str:
        """The examples in Python and C++, as their pages say; the Python client finds the program of the archive by itself."""
        for language, source, typed in (("python", "heater.py", "PYTHONPATH=clients/python python3 heater.py"), ("cpp", "heater.cpp", "")):
            first = {block.language: block.text for block in list(self.read(f"clients/{language}/README.md").blocks())[::-1]}
            self.write(source, first[language])
            ran = self.shell(typed or first["sh"])
            same((first[""], "", 1), (ran.output, ran.errors, ran.status), source)
        ran = self.shell(next(block.text for block in self.read("docs/benches.md").blocks() if "< heater.evidence" in block.text))
        hold(len(re.findall(r"(?m)^legal t_heater \d+ fail$", ran.output)) == 2 and not ran.errors and ran.status == 1, ran)
        message = "run 1 probe on component 1 heater: setverdict fail -> ok: &quot;too hot&quot;"
        same(2, self.text("run.xml").count(f'<failure type="fail" message="{message}">'), "the report does not say who failed")
        hold(MARK + "evidence 1 t_heater 256\n" in self.text("run.html"), "the page has no evidence")
        return "2 benches"

    def links_of_the_archive_lead_to_it_or_to_sources(self) -> str:
        count = 0
        for path in (name for name in self.files() if name.endswith(".md")):
            for _, link in self.read(path).links():
                target = os.path.normpath(os.path.join(os.path.dirname(path), link.partition("#")[0])) if link[:1] != "#" else path
                outside = link.startswith("http") or target == "CONTRIBUTING.md" or target.startswith(("crates/", "bench/"))
                hold(outside or os.path.exists(self.path(target)), f"{path}: {link} leads nowhere")
                count += 1
        hold(count >= 50, f"{count} links")
        return f"{count} links"


class Release(Tree):
    """What the script refuses."""

    def no_release_without_a_green_gate(self) -> str:
        self.hold_none("run ./gate")
        for last in ("2345 passed, 1 failed", "0 passed, 0 failed", "", "2345 passed", "about 2345 passed, 0 failed"):
            self.record(gate=last)
            self.hold_none("the gate has failed")
        self.record()
        same(0, self.release().status, "a green gate")
        return "5 last lines"

    def no_release_of_another_tree(self) -> str:
        self.record(tree="changed")
        self.hold_none("was changed")
        self.record(commit="none")
        self.hold_none("the gate ran on commit none")
        self.record()
        more = self.write("more", "not committed\n")
        self.hold_none("not committed", "more")
        os.remove(more)
        self.write("README.md", f"{self.text('README.md')}more\n")
        self.hold_none("not committed", "README.md")
        self.commit()
        self.hold_none("the gate ran on commit")
        return "5 trees"

    def no_release_of_another_program(self) -> str:
        self.record(program="0" * 64)
        self.hold_none("is not the program of the gate")
        self.record()
        self.write(self.program, bytes_of(self.program) + b"\n")
        self.hold_none("is not the program of the gate")
        os.remove(self.program)
        self.hold_none("no program")
        return "3 programs"

    def no_release_of_a_version_without_its_changes(self) -> str:
        text = self.text("CHANGELOG.md")
        for other in ("## 9.9.9,", "## Unreleased"):
            self.write("CHANGELOG.md", text.replace(f"## {self.version},", other))
            self.commit()
            self.record()
            self.hold_none("CHANGELOG.md")
        return "two"

    def words_that_release_does_not_know(self) -> str:
        self.record()
        for words in (["--more"], ["a", "b"], ["/nowhere"]):
            same(3, self.release(*words).status, words)
        ran = self.release("--help")
        hold(ran.status == 0 and ran.output.startswith("usage: ./release"), ran)
        return "4 calls"

    def no_source_and_no_document_names_a_toolchain(self) -> str:
        listed = checkout("crates", "tools", "ttrun", "gate", "release", "page", "clients", "bench", "*.md")
        names = [it for it in listed if it.endswith((".rt", ".antt", ".py", ".mjs", ".txt", ".md")) or "." not in os.path.basename(it)]
        for name in names:
            found = re.search(r"rattle-kit|\bkit[- ]?\d+", text_of(name))
            hold(found is None, f"{name} names {found and found[0]}")
        hold(len(names) > 500, f"{len(names)} sources")
        return f"{len(names)} sources"


TESTS = tests_of(Archive, Release)
