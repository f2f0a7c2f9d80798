"""One call of a log on the component table: the entries that it is in a history, or why it cannot be next."""
from bisect import bisect_left, insort
from dataclasses import dataclass, field
from typing import Dict, Iterable, Iterator, List, NamedTuple, Optional, Tuple, Union

from .cases import Call, Channel, TestCase
from .table import Component, Op, Table


class Entry(NamedTuple):
    run: int
    op: Op
    reply: str

    def text(self) -> str:
        return f"{self.run} {self.op.text()} -> {self.reply}"


# Why a call cannot be next.
Reason = str


@dataclass
class Step:
    """A call that was taken, and its entries: none if it is a message, or had no effect."""

    call: Call
    entries: List[Entry] = field(default_factory=list)


def copy_of(table: Table) -> Table:
    """A table of its own with the same state."""
    made = Table(table.behaviours)
    made.components = [Component(it.alive_type, it.phase, it.run, it.was_started, it.is_excused, it.verdict) for it in table.components]
    made.component_of_run = dict(table.component_of_run)
    return made


def state_of(table: Table) -> Tuple[Tuple[object, ...], ...]:
    """All that later replies depend on."""
    return tuple((it.phase, it.run, it.is_excused, it.verdict) for it in table.components)


def ends_its_run(op: Op, reply: Optional[str], component: int) -> bool:
    """Whether a call with this reply, by a run on this component, ends the run, or is after its end."""
    ends = op.verb in ("finish", "stopcase") or op.verb in ("stop", "kill") and op.target in (component, 0)
    return ends or reply in (None, "ended") or (reply or "").startswith("error ")


def is_over(table: Table) -> bool:
    return table.components[0].phase != "running"


def as_played(table: Table, op: Op) -> Op:
    """The operation of the table that does what Titan's does, which destroys an ordinary component by a stop if it was never started."""
    if op.verb != "stop" or not isinstance(op.target, int) or op.target >= len(table.components):
        return op
    component = table.components[op.target]
    return Op("kill", target=op.target) if component.phase == "inactive" and not component.alive_type else op


def try_error(table: Table, call: Call) -> Union[List[Entry], Reason]:
    """A parallel component's dynamic error, which ends only that component."""
    if call.fault and call.faulty is not None:
        fault = table.fault(call.run, call.faulty)
        if fault != call.fault:
            return f"table gives {'error ' + fault if fault else 'no error'}"
    return [Entry(call.run, call.op, "ok")]


def try_call(table: Table, call: Call) -> Union[List[Entry], Reason]:
    """The entries of a call that is next, or why it cannot be; the table stays as it is."""
    if call.channel is not None:
        return [] if table.is_going_on(call.run) else "table gives ended"
    if call.reply == "ended" and call.run not in table.component_of_run:
        return "its behaviour is not started"
    if not table.is_going_on(call.run):
        return [Entry(call.run, call.op, "ended")] if call.reply in (None, "ended") else "table gives ended"
    if call.reply == "ended":
        return "its behaviour is still running"
    if call.is_error:
        return try_error(table, call)
    op = as_played(table, call.op)
    reply = table.would(call.run, op)
    if call.reply is None and not reply.startswith("error ") or reply == call.reply:
        return [Entry(call.run, op, reply)]
    return f"table gives {reply}"


def play(table: Table, entries: Iterable[Entry]) -> Table:
    for entry in entries:
        table.play(entry.run, entry.op)
    return table


def played(case: TestCase, entries: Iterable[Entry]) -> Table:
    """The table after these entries."""
    return play(Table(len(case.runs)), entries)


def entries_of(steps: Iterable[Step]) -> List[Entry]:
    return [entry for step in steps for entry in step.entries]


class Trail:
    """The calls that were taken so far, with the table after them; the last ones can be taken back.

    The table is kept at only some places, and played again from the last of them. In a large test case most calls are never
    taken back, and to copy a thousand components at each call would take minutes."""

    def __init__(self, case: TestCase, calls: List[List[Call]]) -> None:
        self.calls = calls
        self.table = Table(len(case.runs))
        self.steps: List[Step] = []
        self.places = [0] * len(calls)
        # How many messages were sent on each channel whose sendings are in the logs; one on another may come at any time.
        self.sent: Dict[Channel, int] = {it.channel: 0 for its in calls for it in its if it.is_sent and it.channel is not None}
        self.every = max(16, sum(map(len, calls)) // 64)
        self.kept: List[Tuple[int, Table]] = [(0, copy_of(self.table))]
        # The runs that have a call left, by the guess at its time.
        self.heads: List[Tuple[int, int]] = sorted((it[0].guess, run) for run, it in enumerate(calls) if it)

    def head(self, run: int) -> Optional[Call]:
        at = self.places[run]
        return self.calls[run][at] if at < len(self.calls[run]) else None

    def next_calls(self) -> Iterator[Call]:
        """The next call of each run that has one left, by the guess at their times."""
        yield from (self.calls[run][self.places[run]] for _, run in tuple(self.heads))

    def move(self, call: Call, by: int) -> None:
        """Moves over a call in its run, forward or back."""
        run, old = call.run, self.head(call.run)
        if call.is_sent and call.channel is not None:
            self.sent[call.channel] += by
        if old is not None:
            del self.heads[bisect_left(self.heads, (old.guess, run))]
        self.places[run] += by
        new = self.head(run)
        if new is not None:
            insort(self.heads, (new.guess, run))

    def attempt(self, call: Call) -> Union[List[Entry], Reason]:
        """The entries of a call that is next, or why it cannot be: a message is received after its sending."""
        if call.channel is not None and not call.is_sent and self.sent.get(call.channel, call.place) < call.place:
            return "its message is not sent yet"
        return try_call(self.table, call)

    def take(self, call: Call, entries: List[Entry]) -> None:
        play(self.table, entries)
        self.steps.append(Step(call, entries))
        self.move(call, 1)
        if len(self.steps) % self.every == 0:
            self.kept.append((len(self.steps), copy_of(self.table)))

    def back_to(self, length: int) -> None:
        """Takes back all calls but the first ones."""
        if length == len(self.steps):
            return
        for step in reversed(self.steps[length:]):
            self.move(step.call, -1)
        del self.steps[length:]
        while self.kept[-1][0] > length:
            self.kept.pop()
        begin, table = self.kept[-1]
        self.table = copy_of(table)
        for step in self.steps[begin:]:
            play(self.table, step.entries)

    def state(self) -> Tuple[object, ...]:
        return tuple(self.places), state_of(self.table)
