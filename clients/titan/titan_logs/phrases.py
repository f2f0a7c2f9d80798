"""Titan's sentences: what a line of a log says, by a name and the words in it."""
import re
from typing import Dict, List, NamedTuple, Optional, Pattern, Tuple

# A component as Titan spells it, `3`, `pump(3)` or `component reference 3`; the main one is `mtc`.
WHO = r"(?:with )?(?:component reference )?(.+?)"
# The other end of a message; a component's name may have spaces.
OTHER = r"(mtc|system|\d+|[^()]*\(\d+\))"
VERDICT = r"(none|pass|inconc|fail|error)"

# Name, the families of event types that such a line has, and its form. The first that fits is the one.
FORMS: Tuple[Tuple[str, str, str], ...] = (
    ("main_started", "EXECUTOR", r"TTCN-3 Main Test Component started on .*"),
    ("parallel_started", "EXECUTOR", r"TTCN-3 Parallel Test Component started on .*?Component reference: (?:[^,]*\()?(\d+)\)?,.*"),
    ("host_started", "EXECUTOR", r"TTCN-3 Host Controller started on .*"),
    ("options", "EXECUTOR", r"TTCN Logger v\S+ options: (.*)"),
    ("case_started", "TESTCASE", r"Test case (\S+) started\."),
    ("case_finished", "TESTCASE", rf"Test case (\S+) finished\. Verdict: {VERDICT}(?: reason: .*)?"),
    ("creating", "PARALLEL", r"Creating new (alive )?PTC with component type .*"),
    ("created", "PARALLEL", r"PTC was created\. Component reference: (\d+), alive: (yes|no), type: [^,]*?(?:, component name: ([^,]*?))?(?:, .*)?\.?"),
    ("starting_on", "PARALLEL", r"Starting function (.*) on component (?:[^()]*\()?(\d+|mtc|null)\)?\."),
    ("was_started", "PARALLEL", r"Function was started\."),
    ("starting", "PARALLEL", r"Starting function (.*)\."),
    ("halting", "PARALLEL", rf"(Stopping|Killing) PTC {WHO}\."),
    ("halting", "PARALLEL", r"(Stopping|Killing) (all) components\."),
    ("stopping_main", "PARALLEL", r"Stopping MTC\..*"),
    ("was_halted", "PARALLEL", rf"PTC {WHO} was (stopped|killed)\."),
    ("was_halted", "PARALLEL", r"(All) components were (stopped|killed)\."),
    ("halted_in_vain", "PARALLEL", r"No PTCs are running\. Operation '(all) component\.(stop|kill)' had no effect\.?"),
    ("halted_in_vain", "PARALLEL", r"There are no alive PTCs\. Operation '(all) component\.(stop|kill)' had no effect\.?"),
    ("halted_in_vain", "PARALLEL", rf"PTC {WHO} is not (?:running|alive anymore)\. (Stop|Kill) operation had no effect\.?"),
    ("has_ended", "PARALLEL", rf"PTC {WHO} is (done|killed)\.(?: Return value: .*)?"),
    ("group_has_ended", "MATCHING", r"Operation '(any|all) component\.(done|killed)' (was successful|failed)\b.*"),
    ("set", "VERDICTOP", rf"setverdict\({VERDICT}\): {VERDICT} -> {VERDICT}\b.*"),
    ("got", "VERDICTOP", rf"getverdict: {VERDICT}"),
    ("error", "ERROR", r"Dynamic test case error: (.*)"),
    ("requested", "PARALLEL EXECUTOR", r"(Stop|Kill) was requested from MC\.(.*)"),
    ("halting_self", "PARALLEL", r"(Stopping|Terminating) test component execution\."),
    ("finished", "PARALLEL", r"Function .* finished\. PTC (terminates|remains)\b.*"),
    ("stopped", "PARALLEL", r"Function .* was stopped\. PTC (terminates|remains)\b.*"),
    ("finished_badly", "PARALLEL", r"Function .* finished with an error\b.*"),
    ("returned", "PARALLEL", r"Function (\S+) returned .*"),
    ("terminating", "PARALLEL", r"Terminating component type .*"),
    ("own_final", "VERDICTOP", rf"Final verdict of PTC: {VERDICT}\b.*"),
    ("main_final", "VERDICTOP", rf"Local verdict of MTC: {VERDICT}\b.*"),
    ("told_final", "VERDICTOP", rf"Local verdict of PTC {WHO}: {VERDICT} \({VERDICT} -> {VERDICT}\).*"),
    ("shim_status", "PARALLEL", r"AUDIT (running|alive|done|killed) (any|all|\d+) -> (true|false|no|maybe)"),
    ("shim_set", "PARALLEL", rf"AUDIT setverdict {VERDICT}"),
    ("sent", "PORTEVENT", rf"(Sent|Called|Replied|Raised) on \S+ to {OTHER}(?: .*)?"),
    ("received", "PORTEVENT", rf"(?:Receive|Trigger|Getcall|Getreply|Catch) operation on .*?succeeded, (message|call|reply|exception) from {OTHER}:.*"),
)

# Lines of these families that say nothing about the component table.
OTHERS = re.compile(
    r"Initializing variables|Component type|Executing control part|Execution of control part|(?:Dis)?[Cc]onnect|Port |Map|Unmap|Waiting for PTCs"
    r"|Setting final verdict|No PTCs were created|Test execution summary|Verdict statistics|Operation 'al|Termination of|Terminating MTC|Exit was requested"
)
READ_WHOLE = ("PARALLEL", "VERDICTOP")


class Phrase(NamedTuple):
    """What a line says: the name of its form, and the words in it."""

    name: str
    words: Tuple[Optional[str], ...]


def first_word(text: str) -> str:
    """The letters at the beginning of a text, by which the forms of a line are found."""
    found = re.match(r"[A-Za-z0-9'-]+", text)
    return found[0] if found else ""


def by_first_word() -> Dict[str, List[Tuple[str, str, Pattern[str]]]]:
    """The forms by the first word of a line; a form that begins with a choice of words is under each of them."""
    found: Dict[str, List[Tuple[str, str, Pattern[str]]]] = {}
    for name, families, form in FORMS:
        choice = re.match(r"\((?:\?:)?([A-Za-z|]+)\)", form)
        for word in choice[1].split("|") if choice else [first_word(form)]:
            found.setdefault(word, []).append((name, families, re.compile(form, re.DOTALL)))
    return found


INDEX = by_first_word()
# The place of the error in the source, which Titan says in the line itself if the log has no sources.
PLACE = re.compile(r"\S+:\d+: (?=Dynamic test case error: )")


def recognise(text: str, family: str) -> Optional[Phrase]:
    """The phrase of a line of this family of event types; the family is empty where the log has no event types."""
    place = PLACE.match(text)
    if place:
        text = text[place.end():]
    for name, families, form in INDEX.get(first_word(text), ()):
        if not family or family in families:
            found = form.fullmatch(text)
            if found:
                return Phrase(name, found.groups())
    return None


def is_unread(text: str, family: str) -> bool:
    """Whether a line without a phrase may be one that the reader ought to know."""
    return family in READ_WHOLE and OTHERS.match(text) is None
