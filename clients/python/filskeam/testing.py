"""What pytest's fixture `filskeam` is, and a base class for unittest."""
import itertools
import os
import unittest
from typing import Callable, List, Optional, Sequence, Union

from .bench import GRACE, Server
from .evidence import VERDICTS, Result
from .words import Behaviour, as_name

# How many seconds a test case may take if nothing else is said.
LIMIT = 60.0
# unittest shows no frames of this module.
__unittest = True


class Judged(Result):
    """A result that notes whether its verdict was read."""

    def __init__(self, result: Result) -> None:
        vars(self).update(vars(result), result=result, is_seen=False)

    def __getattribute__(self, name: str) -> object:
        if name == "verdict":
            vars(self)["is_seen"] = True
        return super().__getattribute__(name)

    def report(self, most: int = 20) -> str:
        """The same as that of the result: it may be shown to nobody, so the verdict is not read by it."""
        return self.result.report(most)

    def __repr__(self) -> str:
        return repr(self.result)


class Bench:
    """Runs the test cases of one test, and knows whose verdict the test has not looked at."""

    def __init__(self, server: Server, test: str, limit: float = LIMIT, note: Callable[[Result], None] = lambda _: None) -> None:
        """The bench of the test with this name. Each result is noted as soon as it is there."""
        self.server, self.test, self.limit, self._note = server, test, limit, note
        self.results: List[Judged] = []

    def run(self, name: Union[str, Behaviour], main: Optional[Behaviour] = None, timeout: Optional[float] = None,
            expect: Optional[str] = None) -> Result:
        """Runs a test case: run(name, main), or run(main) under the name of the test.

        After `timeout` seconds, or the limit of the bench, it is stopped with the verdict error. If a verdict is expected, any
        other raises `AssertionError`."""
        __tracebackhide__ = True  # pylint: disable=unused-variable
        if expect not in (None, *VERDICTS):
            raise ValueError(f"{expect!r} is no verdict to expect: there are {', '.join(VERDICTS)}")
        if callable(name):
            name, main = self._own_name(), name
        result = Judged(self.server.run(name, main, self.limit if timeout is None else timeout))
        self.results.append(result)
        self._note(result.result)
        if expect is not None and result.verdict != expect:
            raise AssertionError(f"{result.name} ended with {result.verdict}, and {expect} is expected: {result.why}")
        return result

    def hold_overlooked(self, fail: Callable[[str], object]) -> None:
        """Fails a test if nobody has read the verdict of a test case that ended with inconc, fail or error. Each is named once."""
        bad = [it for it in self.results if not it.is_seen and it.result.verdict in VERDICTS[2:]]
        if bad:
            fail("\n".join(f"{it.name} ended with {it.verdict}, and the test did not look at the verdict: {it.why}" for it in bad))

    def _own_name(self) -> str:
        """The name of the test; with a number, if the server had a test case of this name."""
        names = (as_name(self.test, f"_{at}" if at > 1 else "") for at in itertools.count(1))
        return next(it for it in names if it not in self.server.names)


class BenchCase(unittest.TestCase):
    """Tests of a class share a server. Each runs its test cases by `self.bench.run`, and holds them by `assertVerdict`.

    With a folder for the evidence, that of each class is in its file MODULE.CLASS.evidence, next to the reports of the runner."""

    command: Optional[Sequence[str]] = None
    grace: float = GRACE
    limit: float = LIMIT
    evidence_folder: Optional[str] = os.environ.get("FILSKEAM_EVIDENCE")
    server: Server

    @classmethod
    def setUpClass(cls) -> None:
        """Makes the server; the first test case starts it."""
        super().setUpClass()
        evidence = cls.evidence_folder and os.path.join(cls.evidence_folder, f"{cls.__module__}.{cls.__qualname__}.evidence")
        cls.server = Server(cls.command, evidence, cls.grace)
        cls.addClassCleanup(cls.server.close)

    def setUp(self) -> None:
        super().setUp()
        self.bench = Bench(self.server, self.id().rpartition(".")[2], self.limit)
        self.addCleanup(self.bench.hold_overlooked, self.fail)

    def assertVerdict(self, result: Result, verdict: str = "pass") -> None:
        """Fails the test, and shows the last entries, unless the result has this verdict."""
        if result.verdict != verdict:
            self.fail(f"the verdict {verdict} is wanted\n{result.report()}")
