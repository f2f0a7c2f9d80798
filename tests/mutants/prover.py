"""The prover as judge: it must refuse each mutant of a crate that names no tests.

Mutants of different functions are shown at once, since a function is proved by the contracts of those that it calls, and not by their
bodies. So a crate is checked about as often as there are mutants of one function. Mutants of anything else, and those that are
no source together, are shown one by one, by `rt must-fail`."""
import os
import re
from typing import FrozenSet, Iterator, List, Set, Tuple

from copies import copy_of_checkout, planted, ran
from lists import Answer, Mutant, Outcome, Unplanted

from harness import text_of, write

# What `rt must-fail` says of an edit: who refused it, or that nobody did.
SAID = re.compile(r"must-fail (\w+)/(\w+)\.edit: (.*)")
# What `rt check` says: that it came to a verdict, or where the text is no source; a goal without an answer, and an answer that is none.
JUDGED = re.compile(r"(?m)^logic=(?:not-)?proved")
NO_SOURCE = re.compile(r"(?m)^(src/\S+?):(\d+):\d+: error\[")
NO_ANSWER = re.compile(r"(?m)^note: (src/\S+?):(\d+):\d+: it is not proved that")
OPEN = re.compile(r"(?m)^fn \w+::(\S+): .*`search` did not prove (.*)$")
ANSWER = re.compile(r"(?m)^\./proofs/(\S+)/(?:Answers|Invariants|Proof)\.antt:\d+:\d+: error: (.*)$")
# An answer that names what a mutant has taken away: that says little of the contract.
NAMED = re.compile(r"has no field|\(nearest: |is not in scope|has no `|can be named from here|was not admitted|`goal\.[^`]*`: module")
HEAD = re.compile(r' *(?:pub(?:\(crate\))? )?(?:extern "C" )?fn (\w+)')
REFUSED = "refused, as it must be"


def function_at(text: str, at: int) -> str:
    """The name of the function whose head or body is at this place of a file; empty if there is none."""
    for line in reversed(text[:text.index("\n", at)].split("\n")):
        found = HEAD.match(line)
        if found or line == "}":
            return found[1] if found else ""
    return ""


def functions_of(mutant: Mutant, copy: str) -> FrozenSet[str]:
    """The names of the functions that a mutant changes; none if it changes something else too."""
    texts, found = mutant.planted(copy), set()
    for change in mutant.changes:
        text = texts[change.file][0]
        found.add(function_at(text, text.index(change.old)) if change.old in text else "")
    return frozenset(found) if all(found) else frozenset()


def functions_in(folder: str, places: List[Tuple[str, str]]) -> Set[str]:
    """The names of the functions that are in these lines of files of the crate in this folder."""
    found = set()
    for file, line in places:
        text = text_of(folder, file)
        found.add(function_at(text, len("".join(text.splitlines(True)[:int(line) - 1]))))
    return found


class Crate:
    """A crate in a copy of the checkout, with what was built of it."""

    def __init__(self, copy: str, mutants: List[Mutant], rt: List[str]) -> None:
        self.copy, self.rt, self.name = copy, rt, mutants[0].list.name
        self.folder = os.path.join(copy, mutants[0].list.below)
        self.functions = {it.name: functions_of(it, copy) for it in mutants}

    def rounds_of(self, mutants: List[Mutant]) -> List[List[Mutant]]:
        """The mutants in groups, in each of which no two change functions of one name."""
        rounds: List[List[Mutant]] = []
        for it in mutants:
            own = self.functions[it.name]
            free = [them for them in rounds if not any(own & self.functions[other.name] for other in them)]
            if free:
                free[0].append(it)
            else:
                rounds.append([it])
        return rounds

    def verdict_on(self, mutant: Mutant, told: str, unproved: Set[str]) -> Answer:
        """Whether a clause refused the mutant, by what `rt check` said and the functions in which a goal has no answer, and who did."""
        own = self.functions[mutant.name]
        answered = [(path.replace("/", "::"), why) for path, why in ANSWER.findall(told)]
        refusing = [it for it in OPEN.findall(told) + answered if own & set(it[0].split("::"))]
        for path, why in refusing:
            if not NAMED.search(why):
                return Outcome.REFUSED, f"{path}: {why[:160]}"
        if own & unproved:
            return Outcome.REFUSED, f"{', '.join(sorted(own & unproved))}: a goal has no answer"
        if refusing:
            return Outcome.SURVIVED, "refused only because a proof file names what the mutant took away: change a value and keep the names"
        return Outcome.SURVIVED, "its function is still proved"

    def shown_together(self, mutants: List[Mutant]) -> Tuple[str, Set[str], Set[str]]:
        """What `rt check` says of the crate with these mutants; the functions that are no source by them, and those in which a goal has no answer."""
        with planted(self.copy, *mutants):
            told = ran(self.rt, ["check", "--jobs", "1"], self.folder)
            unread, unproved = (functions_in(self.folder, it.findall(told)) for it in (NO_SOURCE, NO_ANSWER))
        return told, unread, unproved

    def shown_alone(self, mutants: List[Mutant]) -> Iterator[Tuple[Mutant, Answer]]:
        """What `rt must-fail` says of each mutant. An edit that it takes has texts of one line."""
        long = [it for it in mutants if any(len(change.minus) > 1 or len(change.plus) > 1 for change in it.changes)]
        yield from ((it, (Outcome.UNPLANTED, "it changes several lines, and not only functions: rt must-fail takes no such edit")) for it in long)
        mutants = [it for it in mutants if it not in long]
        place = os.path.join(self.folder, "must-fail")
        os.makedirs(place, exist_ok=True)
        for name in os.listdir(place):
            os.remove(os.path.join(place, name))
        for it in mutants:
            edits = [(os.path.relpath(change.file, it.list.below), change.minus[0], change.new) for change in it.changes]
            write(os.path.join(place, f"{it.name}.edit"), "".join("file: {}\nold: {}\nnew: {}\n".format(*edit) for edit in edits))
        told = ran(self.rt, ["must-fail", self.name], self.copy) if mutants else ""
        said = {it[2]: it[3] for it in SAID.finditer(told)}
        for it in mutants:
            words = said.get(it.name, f"nothing was said of it: {told[-1500:]}")
            is_refused = words.startswith(REFUSED) and "(only" not in words
            yield it, (Outcome.REFUSED if is_refused else Outcome.SURVIVED, words)

    def judged(self, mutants: List[Mutant]) -> Iterator[Tuple[Mutant, Answer]]:
        alone = [it for it in mutants if not self.functions[it.name]]
        rounds = self.rounds_of([it for it in mutants if self.functions[it.name]])
        while rounds:
            together = rounds.pop()
            try:
                told, unread, unproved = self.shown_together(together)
            except Unplanted:  # the text that one takes out is in what another one puts in
                rounds += [together[::2], together[1::2]]
                continue
            if JUDGED.search(told):
                verdicts = [(it, self.verdict_on(it, told, unproved)) for it in together]
                # Goals of a function may not have been tried, as one that it calls is not proved: what is not refused is shown without the others.
                again = [it for it, (outcome, _) in verdicts if outcome is not Outcome.REFUSED]
                if len(again) == len(together) > 1:
                    rounds += [together[::2], together[1::2]]
                    continue
                again = again if len(again) < len(together) else []
                yield from ((it, answer) for it, answer in verdicts if it not in again)
            else:
                again = [it for it in together if not self.functions[it.name] & unread]
                again = again if len(again) < len(together) else []
                alone += [it for it in together if it not in again]
            rounds += [again] if again else []
        if alone:
            yield from self.shown_alone(alone)


def answers(mutants: List[Mutant], rt: List[str]) -> Iterator[Tuple[Mutant, Answer]]:
    with copy_of_checkout(has_built=True) as copy:
        yield from Crate(copy, mutants, rt).judged(mutants)
