"""From a report to its findings one by one; what a finding can be is one table, each kind by its id."""
from dataclasses import dataclass, replace
from typing import Dict, Iterator, Optional, Tuple, Union

from zirofen_host.ask.guards import GUARD_AT, GUARDS, UNKNOWN_GUARD
from zirofen_host.collect.notes import FAILED
from zirofen_host.collect.model import OWNER
from zirofen_host.judge import long_lists
from zirofen_host.judge.finding_lines import NOTHING_ASKED as NOTHING_ASKED_LINE
from zirofen_host.judge.finding_lines import (CAPABILITY, INSIDE_MEANS, MOUNT_OPTIONS, MOUNTED_OVER, acceptance_line, differs_line,
                                              entry_line, fault_line, held_line, inside_line, opened_line, premise_line,
                                              processes_text, runs_line, version_1_line)
from zirofen_host.judge.host_model import ABSENT, Absent
from zirofen_host.judge.severity import ACCEPTED, Severity, of_answer, of_fault
from zirofen_host.judge.standing import is_empty
from zirofen_host.judge.model import (DiffersFinding, EntryFinding, HeldFinding, OpenedFinding, PremiseFinding, Report, RootInside,
                                      RunsElsewhere, Whom, Within)

NOTHING_ASKED, VERSION_1, DIFFERS = "nothing-asked", "version-1", "differs"
OPENED, OPENED_DIRECTORY = "opened", "opened/dir"
ROOT_INSIDE, ROOT_HELD = "root-inside", "root-inside/held"
# what an answer takes not to be, and where it may be
RUNS, RUNS_UNSETTLED = "runs-elsewhere", "runs-elsewhere/unsettled"
HELD, HELD_PERHAPS = "held-entry", "held-entry/perhaps"
PREMISES = (MOUNT_OPTIONS, MOUNTED_OVER, CAPABILITY)
# whom a container lets out
ROOT = Whom(OWNER, 0, "root(0)", ())
PROVED = {Severity.ESCAPES: ("escapes", "Proved: there are operations of theirs that break the subtree"),
          Severity.UNSETTLED: ("unsettled", "Nothing that was tried breaks the subtree, and nothing shows that it holds")}
SEEN = "Seen by the helper, and not proved."


@dataclass(frozen=True)
class Rule:
    """A kind of finding, how grave each of it is, and what it is: in a sentence, with what is to be said of it."""
    word: str
    # of an entry the guard that stands on it, or what else tells it from others of its word
    at: str
    severity: Severity
    what: str
    more: str = ""

    @property
    def id(self) -> str:
        return f"{self.word}/{self.at}" if self.at else self.word

    @property
    def description(self) -> str:
        return f"{self.what} {self.more}" if self.more else self.what


def made_rules() -> Iterator[Rule]:
    for severity, (word, proof) in PROVED.items():
        for guard in GUARDS.values():
            yield Rule(word, guard.word, severity, f"{guard.finding[0].upper()}{guard.finding[1:]}.", f"{proof}.")
    yield Rule(OPENED, "", Severity.OPENED, "Somebody writes a limit that they shouldn't, or an entry that the service manager keeps for "
               "itself.", SEEN)
    yield Rule(OPENED, "dir", Severity.OPENED,
               "Somebody writes a directory in which a service manager will make what others run in.", SEEN)
    yield Rule(ROOT_INSIDE, "", Severity.OPENED, "Processes of root's in a container get at cgroup files outside of it.", SEEN)
    yield Rule(ROOT_INSIDE, "held", Severity.CONTAINED, "Processes of root's in a container don't get at cgroup files outside of it.",
               "It speaks of cgroup files alone, and is seen by the helper, and not proved.")
    yield from rules_of_premises()
    yield Rule(DIFFERS, "", Severity.CONTAINED, "What was handed over isn't as a service manager leaves it.", "It isn't counted.")
    yield Rule("fault", "", Severity.FAULT, "There is no answer for a subtree or for somebody.")
    yield Rule("fault", "own", Severity.OWN_FAULT, "There is no answer for a subtree, which is the making of those alone who hold it.")
    yield Rule(FAILED, "", Severity.FAULT, "A look at the host failed; all else holds.")
    yield Rule(VERSION_1, "", Severity.NOT_LOOKED_AT, "Limits are in the hands of cgroup v1, and weren't looked at.")
    yield Rule("acceptance", "", Severity.STALE, "An acceptance is over, meets nothing, or what it is of got worse.")
    yield Rule(NOTHING_ASKED, "", Severity.NOTHING_ASKED, "Nothing was found to ask: neither a delegation nor a container of root's.")


def rules_of_premises() -> Iterator[Rule]:
    """What an answer takes not to be."""
    yield Rule(RUNS, "", Severity.OPENED, "Threads of a user's process run in another cgroup than the one by which it is listed, over an "
               "edge or where root keeps them.", SEEN)
    yield Rule(RUNS, "unsettled", Severity.UNSETTLED, "Threads of a process run in another cgroup than the one by which it is listed, on "
               "the same side of each edge, or as root's, or it isn't known where.", SEEN)
    yield Rule(HELD, "", Severity.OPENED, "Somebody holds an entry open for writing that they couldn't open now.", SEEN)
    yield Rule(HELD, "perhaps", Severity.UNSETTLED, "Somebody perhaps holds an entry open for writing that they couldn't open now.", SEEN)
    yield Rule(MOUNT_OPTIONS, "", Severity.UNSETTLED, "The hierarchy hasn't the options with which the service manager mounts it.", SEEN)
    yield Rule(MOUNTED_OVER, "", Severity.UNSETTLED, "Something is mounted over a file of a cgroup, which isn't read.", SEEN)
    yield Rule(CAPABILITY, "", Severity.UNSETTLED, "A process of somebody's who holds a subtree, or inside of another's, passes over "
               "owners.", SEEN)


RULES: Dict[str, Rule] = {rule.id: rule for rule in made_rules()}
# what somebody may accept by itself
ACCEPTABLE = tuple(rule.id for rule in RULES.values()
                   if rule.id == ROOT_INSIDE or rule.word in (OPENED, RUNS, HELD, *PREMISES, *(word for word, _ in PROVED.values())))


@dataclass(frozen=True)
class Finding:
    """One thing that a report tells of. What is no entry has none, and what is of the host alone has no path."""
    rule: Rule
    path: str
    entry: str
    line: str
    whom: Tuple[Whom, ...] = ()
    # subtrees that it breaks
    subtrees: Tuple[str, ...] = ()
    # operations of somebody that break one
    example: Tuple[str, ...] = ()
    changes: Tuple[str, ...] = ()
    setting: Optional[str] = None
    # why it was accepted, where it was
    accepted: Union[str, Absent] = ABSENT
    # whose own making its cgroup is
    within: Within = ABSENT
    # lines of root's files that give it away, or may, where they were looked for
    causes: Union[Tuple[str, ...], Absent] = ABSENT
    # its place by the name of the container that it is in
    name: Optional[str] = None

    @property
    def place(self) -> str:
        """What stays as long as its container is made again under its name."""
        return self.name or self.path

    @property
    def cause_lines(self) -> Tuple[str, ...]:
        """What of root's files gives it away."""
        return () if isinstance(self.causes, Absent) else tuple(f"cause: {each}" for each in self.causes)

    @property
    def is_counted(self) -> bool:
        """Whether it is part of the status."""
        return self.accepted is ABSENT and self.rule.severity is not Severity.CONTAINED


def of_entry(each: EntryFinding) -> Finding:
    word = PROVED.get(of_answer(each.answer), PROVED[Severity.ESCAPES])[0]
    example = tuple(long_lists.shown(each.example.lines)) if each.example else ()
    return Finding(RULES[f"{word}/{GUARD_AT.get(each.entry, UNKNOWN_GUARD).word}"], each.path, each.entry, entry_line([each]), each.whom,
                   each.subtrees, example, each.changes, each.setting, each.accepted, each.within, each.causes)


def of_opened(each: OpenedFinding) -> Finding:
    rule = RULES[OPENED_DIRECTORY if each.file == "dir" else OPENED]
    return Finding(rule, each.path, each.file, opened_line(each), each.whom, changes=each.changes, setting=each.setting,
                   accepted=each.accepted, within=each.within, causes=each.causes)


def of_differs(each: DiffersFinding) -> Finding:
    return Finding(RULES[DIFFERS], each.path, "", differs_line(each), changes=each.changes, setting=each.setting,
                   causes=each.causes)


def of_inside(each: RootInside) -> Finding:
    """A container of root's; its entry is what lets it out."""
    return Finding(RULES[ROOT_HELD if each.held else ROOT_INSIDE], each.path, " ".join(each.ways) or "held", inside_line(each),
                   () if each.held else (ROOT,), example=(INSIDE_MEANS,), changes=each.changes, setting=each.setting,
                   accepted=each.accepted)


def of_running(each: RunsElsewhere) -> Finding:
    """A process that runs elsewhere; in the place of an entry stands its program."""
    return Finding(RULES[RUNS if each.is_across else RUNS_UNSETTLED], each.path, each.program, runs_line(each), each.whom,
                   example=(processes_text(each.processes),), changes=each.changes, setting=each.setting, accepted=each.accepted,
                   within=each.within)


def of_held(each: HeldFinding) -> Finding:
    """An entry that is held; behind it stands the program."""
    return Finding(RULES[HELD if each.is_sure else HELD_PERHAPS], each.path, f"{each.file} {each.program}", held_line(each), each.whom,
                   example=(processes_text(each.processes),), changes=each.changes, setting=each.setting, accepted=each.accepted,
                   within=each.within)


def of_premise(each: PremiseFinding) -> Finding:
    """What answers take to be otherwise."""
    example = (processes_text(each.processes),) if each.processes else ()
    return Finding(RULES[each.what], each.path, each.entry, premise_line(each), each.whom, example=example, changes=each.changes,
                   accepted=each.accepted, within=each.within)


def findings_of(report: Report) -> Iterator[Finding]:
    """Everything that a report tells of, each with the name of its place."""
    names = report.names
    for each in unnamed_findings(report):
        name = names.of(each.path)
        yield each if name is None else replace(each, name=name)


def unnamed_findings(report: Report) -> Iterator[Finding]:
    """Everything in its order; a fault once for each subtree that it is of."""
    yield from map(of_entry, report.entries)
    yield from map(of_opened, report.opened)
    yield from map(of_inside, report.containers)
    yield from map(of_running, report.running)
    yield from map(of_held, report.held)
    yield from map(of_premise, report.broken)
    for fault in report.faults:
        rule = RULES["fault" if of_fault(fault) is Severity.FAULT else "fault/own"]
        yield from (Finding(rule, path, "", fault_line(fault, [path])) for path in fault.subtrees)
    for note in (*report.unseen, *report.snapshot):
        if note.kind == FAILED:
            yield Finding(RULES[FAILED], "", "", note.line)
    if report.version_1:
        yield Finding(RULES[VERSION_1], "", "", version_1_line(report.version_1))
    yield from map(of_differs, report.differs)
    if not isinstance(report.acceptances, Absent):
        yield from (Finding(RULES["acceptance"], each.path, each.entry, acceptance_line(each)) for each in report.acceptances
                    if each.state != ACCEPTED)
    if is_empty(report):
        yield Finding(RULES[NOTHING_ASKED], "", "", NOTHING_ASKED_LINE)
