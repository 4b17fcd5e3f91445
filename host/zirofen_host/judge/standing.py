"""From a report to the severity of each subtree and of all of it, and to what its status is by."""
from collections import Counter, defaultdict
from typing import AbstractSet, DefaultDict, Dict, FrozenSet, Iterable, Iterator, Optional, Set, Tuple, Union

from zirofen_host.ask.held import PROCS
from zirofen_host.collect.notes import FAILED, RUN
from zirofen_host.judge import limits
from zirofen_host.judge.finding_lines import CAPABILITY, MOUNTED_OVER
from zirofen_host.judge.held import CONTROL
from zirofen_host.judge.host_model import ABSENT, Absent
from zirofen_host.judge.marked import CAPABLE, COVERED, RUNS
from zirofen_host.judge.model import (EntryFinding, FaultFinding, HeldFinding, HolderAnswer, OpenedFinding, PremiseFinding, Report,
                                      RootInside, RunsElsewhere, Subtree)
from zirofen_host.judge.running import places_of
from zirofen_host.judge.severity import ACCEPTED, Severity, of_answer, of_fault, of_premise, unless, worst
from zirofen_host.profile import ancestors, is_inside, parent_of, path_of, tree_order

# what a status is by: of one, and of several
CAUSES: Dict[Tuple[str, Severity], Tuple[str, str]] = {
    ("entry", Severity.ESCAPES): ("an entry by which somebody escapes", "{} entries by which somebody escapes"),
    ("entry", Severity.UNSETTLED): ("an entry that isn't settled", "{} entries that aren't settled"),
    ("entry", Severity.FAULT): ("an entry without an answer", "{} entries without an answer"),
    ("answer", Severity.ESCAPES): ("a subtree that is escaped from", "{} subtrees that are escaped from"),
    ("answer", Severity.OPENED): ("a subtree that is open", "{} subtrees that are open"),
    ("answer", Severity.UNSETTLED): ("a subtree that isn't settled", "{} subtrees that aren't settled"),
    ("answer", Severity.FAULT): ("a subtree without an answer", "{} subtrees without an answer"),
    ("opened", Severity.OPENED): ("an opened entry", "{} opened entries"),
    ("root-inside", Severity.OPENED): ("a container of root's that isn't held", "{} containers of root's that aren't held"),
    ("runs-elsewhere", Severity.OPENED): ("a program that runs elsewhere", "{} programs that run elsewhere"),
    ("runs-elsewhere", Severity.UNSETTLED): ("a program that may run elsewhere", "{} programs that may run elsewhere"),
    ("held-entry", Severity.OPENED): ("a held entry", "{} held entries"),
    ("premise", Severity.UNSETTLED): ("what answers take to be otherwise", "{} things that answers take to be otherwise"),
    ("held-entry", Severity.UNSETTLED): ("an entry that may be held", "{} entries that may be held"),
    ("fault", Severity.FAULT): ("a fault", "{} faults"),
    ("fault", Severity.OWN_FAULT): ("a fault of its holder's own making alone", "{} faults of their holders' own making alone"),
    ("failed", Severity.FAULT): ("a look that failed", "{} looks that failed"),
    ("host", Severity.NOTHING_ASKED): ("nothing that was found to ask", ""),
    ("host", Severity.NOT_LOOKED_AT): ("limits that are v1's", ""),
    ("plan", Severity.UNSETTLED): ("what a plan doesn't know", ""),
    ("acceptance", Severity.STALE): ("an acceptance that doesn't hold", "{} acceptances that don't hold")}


def is_empty(report: Report) -> bool:
    """Whether neither anything to ask nor a container of root's was found, in a run that came to an end of its own. What has no answer
    was found."""
    has_ended = not any((each.kind, each.place) == (FAILED, RUN) for each in report.unseen)
    return has_ended and not report.asked and not report.containers and not report.faults


def accepted_subtrees(report: Report) -> FrozenSet[str]:
    """The subtrees of which nothing but what was accepted lets somebody in."""
    accepted = {path for each in report.entries if each.accepted is not ABSENT for path in each.subtrees}
    if not accepted:
        return frozenset()
    others = {path for each in report.entries if each.accepted is ABSENT for path in each.subtrees}
    return frozenset(walked_down((each.path for each in report.subtrees), accepted, others))


def walked_down(paths: Iterable[str], accepted: AbstractSet[str], others: AbstractSet[str]) -> Iterator[str]:
    """Those of some paths that are inside of what is accepted and of nothing else: from the top down, so that each is looked at once."""
    wanted = set(paths)
    above = [("/", "/" in accepted, "/" in others)]
    for path in sorted(wanted.union(accepted, others), key=lambda path: tree_order(path_of(path))):
        while not is_inside(path, above[-1][0]):
            above.pop()
        _, is_accepted, is_other = above[-1]
        above.append((path, is_accepted or path in accepted, is_other or path in others))
        if path in wanted and above[-1][1:] == (True, False):
            yield path


def of_answers(subtree: Subtree) -> Set[Severity]:
    """What those who hold a subtree were answered; what lies in their own isn't listed where something else is."""
    found = {Severity.ABOVE if each.is_above else of_answer(each.word) for each in subtree.answers}
    return found - {Severity.ABOVE} if len(found) > 1 else found


class Premises:
    """What the answers of a report take not to be, by what it changes."""

    def __init__(self, report: Report) -> None:
        self.marked = {each.path for each in report.subtrees if each.marks is not ABSENT}
        # by a subtree's mark and path, by a holder and what is held, and by whoever passes over owners
        self.at: DefaultDict[Tuple[str, str], Set[Severity]] = defaultdict(set)
        self.held: DefaultDict[Tuple[Optional[int], Optional[str], str], Set[Severity]] = defaultdict(set)
        self.capable: DefaultDict[Optional[int], Set[Severity]] = defaultdict(set)
        self.covered: DefaultDict[str, Set[Severity]] = defaultdict(set)
        for each in report.running:
            self.add(RUNS, places_of(each), unless(each.accepted, of_premise(each.is_across)))
        for held in report.held:
            place, file = ("", PROCS) if held.file == PROCS else (held.path, held.file if held.file == CONTROL else "")
            for key in {(held.whom[0].id, place, file), (held.whom[0].id, held.path, "")}:
                self.held[key].add(unless(held.accepted, of_premise(held.is_sure)))
        for broken in report.broken:
            severity = unless(broken.accepted, Severity.UNSETTLED)
            self.add(CAPABLE if broken.what == CAPABILITY else COVERED, (broken.path,), severity)
            if broken.what == CAPABILITY:
                self.capable[broken.whom[0].id].add(severity)
            if broken.what == MOUNTED_OVER:
                self.covered[broken.path].add(severity)

    def add(self, mark: str, places: Iterable[str], severity: Severity) -> None:
        """What stands at some places is of each marked subtree that they are inside of."""
        for path in {above for place in places for above in (place, *ancestors(place))} & self.marked:
            self.at[mark, path].add(severity)

    def of(self, subtree: Subtree) -> Iterator[Severity]:
        """What a subtree's marks stand for; a mark of which nothing else is known stands for what its kind may be."""
        for mark in () if isinstance(subtree.marks, Absent) else subtree.marks:
            # what is mounted over a file is reported below it too
            above = (subtree.path, *ancestors(subtree.path)) if mark == COVERED else ()
            found = {severity for path in above for severity in self.covered.get(path, ())} | self.at.get((mark, subtree.path), set())
            yield from found or {otherwise(mark)}
        for answer in subtree.answers:
            for mark in () if isinstance(answer.marks, Absent) else answer.marks:
                yield from self.of_answer(subtree, answer, mark) or {otherwise(mark)}

    def of_answer(self, subtree: Subtree, answer: HolderAnswer, mark: str) -> Set[Severity]:
        if mark == CAPABLE:
            return {severity for uid in answer.uids for severity in self.capable.get(uid, ())}
        keys = [(uid, *key) for uid in answer.uids for key in (("", PROCS), (subtree.path, ""), (parent_of(subtree.path), CONTROL))]
        return {severity for key in keys for severity in self.held.get(key, ())}


def otherwise(mark: str) -> Severity:
    return Severity.UNSETTLED if mark in (CAPABLE, COVERED) else Severity.OPENED


def severities_at(report: Report) -> Iterator[Tuple[str, Severity]]:
    """What findings tell of places: of subtrees, and of cgroups where something is seen beside the answers."""
    for entry in report.entries:
        yield from ((path, unless(entry.accepted, of_answer(entry.answer))) for path in entry.subtrees)
    for fault in report.faults:
        yield from ((path, of_fault(fault)) for path in fault.subtrees)
    yield from ((each.path, unless(each.accepted, Severity.OPENED)) for each in report.opened)
    yield from ((each.path, unless(each.accepted, Severity.OPENED)) for each in report.containers if not each.held)
    yield from ((each.path, unless(each.accepted, of_premise(each.is_across))) for each in report.running)
    yield from ((each.path, unless(each.accepted, of_premise(each.is_sure))) for each in report.held)
    yield from ((each.path, unless(each.accepted, Severity.UNSETTLED)) for each in report.broken)


def delegations(report: Report) -> Set[str]:
    """The subtrees, also those of which nobody could be asked."""
    found: Tuple[Union[EntryFinding, FaultFinding], ...] = (*report.entries, *report.faults)
    return {*(each.path for each in report.subtrees), *(path for each in found for path in each.subtrees)}


def standings(report: Report) -> Dict[str, Severity]:
    """How each subtree stands, by the gravest that is found of it."""
    accepted, premises, asked = accepted_subtrees(report), Premises(report), delegations(report)
    found: DefaultDict[str, Set[Severity]] = defaultdict(set)
    for path, severity in severities_at(report):
        if path in asked:
            found[path].add(severity)
    for each in report.subtrees:
        found[each.path].update({Severity.ACCEPTED} if each.path in accepted else of_answers(each), premises.of(each))
    # where nobody was asked of anything root alone holds what there is
    least = Severity.NOT_ASKED if not report.asked else Severity.LIMITED if limits.narrowing(report) else Severity.CONTAINED
    spared = {each.path for each in report.subtrees
              if least is Severity.LIMITED and each.is_against_everybody and not limits.narrowing_of(report, each)}
    return {path: worst(found[path]) if path in spared or worst(found[path]) is not Severity.CONTAINED else least for path in sorted(asked)}


def findings_in(report: Report) -> Iterator[Tuple[str, Severity]]:
    """Each thing that a report tells of and that counts, with what it is."""
    yield from (("entry", of_answer(each.answer)) for each in report.entries if each.accepted is ABSENT)
    yield from (("opened", Severity.OPENED) for each in report.opened if each.accepted is ABSENT)
    yield from (("fault", of_fault(each)) for each in report.faults)
    yield from (("failed", Severity.FAULT) for each in (*report.unseen, *report.snapshot) if each.kind == FAILED)
    yield from (("root-inside", Severity.OPENED) for each in report.containers if not each.held and each.accepted is ABSENT)
    yield from (("runs-elsewhere", of_premise(each.is_across)) for each in report.running if each.accepted is ABSENT)
    yield from (("held-entry", of_premise(each.is_sure)) for each in report.held if each.accepted is ABSENT)
    yield from (("premise", Severity.UNSETTLED) for each in report.broken if each.accepted is ABSENT)
    if is_empty(report):
        yield "host", Severity.NOTHING_ASKED
    if report.version_1:
        yield "host", Severity.NOT_LOOKED_AT
    if any(each.kind == limits.PLAN for each in limits.narrowing(report)):
        yield "plan", Severity.UNSETTLED
    if not isinstance(report.acceptances, Absent):
        yield from (("acceptance", Severity.STALE) for each in report.acceptances if each.state != ACCEPTED)


def quiet(report: Report) -> Iterator[Severity]:
    """What tells a report without anything that counts from one of which all is shown to be contained."""
    if limits.narrowing(report):
        yield Severity.LIMITED
    if not report.asked:
        yield Severity.NOT_ASKED
    found: Tuple[Union[EntryFinding, OpenedFinding, RootInside, RunsElsewhere, HeldFinding, PremiseFinding], ...] = (
        *report.entries, *report.opened, *report.containers, *report.running, *report.held, *report.broken)
    yield from (Severity.ACCEPTED for each in found if each.accepted is not ABSENT)


def severity_of(report: Report) -> Severity:
    """The worst that a report tells of."""
    answers = (each for each in standings(report).values() if each is not Severity.ABOVE)
    return worst([*(severity for _, severity in findings_in(report)), *answers, *quiet(report)])


def cause_of(report: Report, severity: Severity) -> str:
    """All that is of a severity, in words."""
    counts = Counter(kind for kind, found in findings_in(report) if found is severity)
    if not counts and severity.status:
        counts["answer"] = sum(each is severity for each in standings(report).values())
    causes = [CAUSES[kind, severity][number > 1].format(number) for kind, number in counts.items()]
    return " and ".join([", ".join(causes[:-1]), causes[-1]] if len(causes) > 1 else causes)


def status_text(report: Report) -> str:
    """The status, and what it is by."""
    severity = severity_of(report)
    by = cause_of(report, severity)
    return f"{severity.status} by {by}" if by else str(severity.status)
