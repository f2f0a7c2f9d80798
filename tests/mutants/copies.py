"""Copies of the checkout, in each of which mutants are planted one after the other."""
import contextlib
import os
import queue
import shutil
import subprocess
import tempfile
from concurrent.futures import Executor
from typing import Any, Dict, Iterator, List, Tuple

from lists import TOP, Answer, Mutant, Outcome, Unplanted

from harness import bytes_of, copy_checkout, write


def link(path: str, into: str) -> None:
    """Links a file that was built, if that can be done, so that nothing is proved twice."""
    try:
        os.link(path, into)
    except OSError:
        shutil.copy2(path, into)


@contextlib.contextmanager
def copy_of_checkout(has_built: bool = False) -> Iterator[str]:
    """A copy of the files that are the repository's own, with what was built of its crates if that is wanted; it is taken away at the end."""
    with tempfile.TemporaryDirectory(prefix="filskeam-mutants-") as room:
        copy = os.path.join(room, "copy")
        copy_checkout(copy)
        for crate in os.listdir(os.path.join(TOP, "crates")) if has_built else ():
            built = os.path.join(TOP, "crates", crate, "out")
            if os.path.isdir(built):
                shutil.copytree(built, os.path.join(copy, "crates", crate, "out"), symlinks=True, copy_function=link)
        subprocess.run(["git", "init", "--quiet", copy], check=True)
        yield copy


def put(copy: str, texts: Dict[str, Tuple[str, str]], which: int) -> None:
    """Writes the files: 0 as they were, 1 with the mutant, which must be Python still if it was."""
    for path, both in texts.items():
        try:
            compile(both[which], path, "exec") if path.endswith(".py") else None
        except SyntaxError as error:
            raise Unplanted(f"it is no Python: {error}") from None
        write(os.path.join(copy, path), both[which])


@contextlib.contextmanager
def planted(copy: str, *mutants: Mutant) -> Iterator[None]:
    texts: Dict[str, Tuple[str, str]] = {}
    try:
        for it in mutants:
            made = it.planted(copy)
            texts.update({path: (texts.get(path, both)[0], both[1]) for path, both in made.items()})
            put(copy, made, 1)
        yield
    finally:
        put(copy, texts, 0)


@contextlib.contextmanager
def kept(path: str) -> Iterator[None]:
    before = bytes_of(path)
    try:
        yield
    finally:
        write(path, before)


class Copies:
    """As many copies as are worked on at a time. Each is made when it is first needed."""

    def __init__(self, count: int) -> None:
        self.rooms = contextlib.ExitStack()
        self.free: "queue.Queue[str]" = queue.Queue()
        for _ in range(count):
            self.free.put("")

    def __enter__(self) -> "Copies":
        return self

    def __exit__(self, *_: object) -> None:
        self.rooms.close()

    @contextlib.contextmanager
    def one(self) -> Iterator[str]:
        """A copy that nobody else has meanwhile."""
        copy = self.free.get()
        try:
            copy = copy or self.rooms.enter_context(copy_of_checkout())
            yield copy
        finally:
            self.free.put(copy)


def answers(judge: Any, mutants: List[Mutant], pool: Executor, copies: Copies) -> Iterator[Tuple[Mutant, Answer]]:
    """What a judge says of each mutant in a copy. It is asked of the tests without a mutant first, and then of those that pass."""
    wrong: Dict[object, Answer] = {}

    def look(tests: object) -> None:
        try:
            with copies.one() as copy:
                answer = judge.without(copy, tests)
        except Unplanted as why:
            answer = Outcome.UNPLANTED, f"the tests do not run without it: {why}"
        wrong.update({tests: answer} if answer else {})

    def judged(mutant: Mutant) -> Answer:
        if judge.tests_of(mutant) in wrong:
            return wrong[judge.tests_of(mutant)]
        try:
            with copies.one() as copy, planted(copy, mutant):
                return judge.answer(copy, mutant)
        except Unplanted as why:
            return Outcome.UNPLANTED, str(why)

    list(pool.map(look, sorted({judge.tests_of(it) for it in mutants})))
    yield from zip(mutants, pool.map(judged, mutants))


def ran(rt: List[str], words: List[str], folder: str) -> str:
    """What rt prints, all of it."""
    return subprocess.run([*rt, *words], cwd=folder, stdin=subprocess.DEVNULL, stdout=subprocess.PIPE, stderr=subprocess.STDOUT,
                          text=True, errors="replace", check=False).stdout
