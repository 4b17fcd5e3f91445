"""From a run to JUnit's XML: a case for each answer, for what stands open and for what was accepted."""
import time
from collections import defaultdict
from dataclasses import dataclass, field
from typing import DefaultDict, Dict, Iterable, Iterator, List, Mapping, Optional, Tuple
from xml.etree import ElementTree

from zirofen_host.collect.model import OWNER
from zirofen_host.fault import plain
from zirofen_host.judge import limits
from zirofen_host.judge.host_model import Absent
from zirofen_host.judge.severity import Severity, of_answer
from zirofen_host.judge.model import HolderAnswer, Subtree
from zirofen_host.judge.notes import Outside
from zirofen_host.judge.finding_lines import CAPABILITY, MOUNT_OPTIONS, MOUNTED_OVER
from zirofen_host.judge.rules import (DIFFERS, HELD, NOTHING_ASKED, OPENED, OPENED_DIRECTORY, ROOT_HELD, ROOT_INSIDE, RUNS, VERSION_1,
                                      Finding)
from zirofen_host.profile import ancestors
from zirofen_host.show import words
from zirofen_host.show.run import Run

PASSED, SKIPPED, FAILURE, ERROR = "passed", "skipped", "failure", "error"
OF_SEVERITY: Dict[Severity, str] = {
    **dict.fromkeys((Severity.ESCAPES, Severity.OPENED, Severity.UNSETTLED, Severity.NOT_LOOKED_AT, Severity.STALE), FAILURE),
    Severity.CONTAINED: PASSED}
HOST = "the host"
# what is found of the host as a whole has a case in each report
OF_HOST = {NOTHING_ASKED: "something is asked", VERSION_1: "no limits are v1's"}


@dataclass
class Case:
    """A case of a suite: what came of it, with the lines that say so."""
    subject: str
    name: str
    outcome: str = PASSED
    kind: str = ""
    lines: List[str] = field(default_factory=list)

    def add(self, outcome: str, kind: str, lines: Iterable[str]) -> None:
        """Something that was found: what fails goes before what was accepted."""
        order = (PASSED, SKIPPED, FAILURE, ERROR)
        if order.index(outcome) > order.index(self.outcome):
            self.outcome, self.kind = outcome, kind
        self.lines += lines


class Cases:
    """The cases of a report in their order, each once."""

    def __init__(self) -> None:
        self.found: Dict[Tuple[str, str], Case] = {}

    def at(self, subject: str, name: str) -> Case:
        return self.found.setdefault((subject, name), Case(subject, name))


def outcome_of(found: Finding) -> str:
    return OF_SEVERITY.get(found.rule.severity, ERROR) if isinstance(found.accepted, Absent) else SKIPPED


def details(found: Finding) -> List[str]:
    """All that is said of a finding, with what mends it."""
    accepted = [] if isinstance(found.accepted, Absent) else [f"accepted: {found.accepted}"]
    setting = [f"setting, at the next start: {found.setting}"] if found.setting else []
    return [found.line, *found.example, *(f"change: {each}" for each in found.changes), *setting, *found.cause_lines, *accepted]


def severity_of(each: HolderAnswer) -> Severity:
    """How grave an answer of who holds a subtree is; what lies in their own is open to them."""
    return Severity.CONTAINED if each.is_above else of_answer(each.word)


def holder_case(cases: Cases, subtree: Subtree, by_subtree: Mapping[str, List[Finding]]) -> None:
    """A case for each answer of whoever holds a subtree; the entries that it rests on say more."""
    behind = [found for place in (subtree.path, *ancestors(subtree.path)) for found in by_subtree.get(place, ())]
    for each in subtree.answers:
        case = cases.at(subtree.path, f"held by {each.who}")
        severity = severity_of(each)
        if severity is Severity.CONTAINED:
            continue
        is_accepted = bool(behind) and not any(isinstance(found.accepted, Absent) for found in behind)
        outcome = SKIPPED if is_accepted else OF_SEVERITY.get(severity, ERROR)
        case.add(outcome, each.word, [*each.lines, *(line for found in behind for line in details(found))])
    if not subtree.answers:
        cases.at(subtree.path, "held by root alone")


def is_holders(subtree: Optional[Subtree], by: str, number: Optional[int]) -> bool:
    """Whether the answers of who holds a subtree say it already."""
    return subtree is not None and by == OWNER and any(
        number in each.uids and severity_of(each) is not Severity.CONTAINED for each in subtree.answers)


def entry_cases(cases: Cases, found: Finding, subtrees: Dict[str, Subtree]) -> None:
    """A case for whom an entry lets in beside who holds the subtree."""
    for whom in found.whom:
        for path in found.subtrees:
            if not is_holders(subtrees.get(path), whom.by, whom.id):
                cases.at(path, f"let in: {whom.name}").add(outcome_of(found), found.rule.id, details(found))


def place_of(found: Finding) -> Tuple[str, str]:
    """The subject and the name of the case of what isn't an entry's finding."""
    if found.rule.id in OF_HOST:
        return HOST, OF_HOST[found.rule.id]
    if found.rule.id in (OPENED, OPENED_DIRECTORY):
        return found.path, f"opened {found.entry}"
    if found.rule.id in (ROOT_INSIDE, ROOT_HELD):
        return found.path, "root inside"
    if found.rule.word in (RUNS, HELD, CAPABILITY):
        return found.path, f"{found.rule.word} {found.entry} of {found.whom[0].name}"
    if found.rule.word in (MOUNT_OPTIONS, MOUNTED_OVER):
        return found.path, f"{found.rule.word} {found.entry}"
    if found.rule.severity is Severity.STALE:
        return found.path, f"acceptance {found.entry}".rstrip()
    return found.path or HOST, DIFFERS if found.rule.id == DIFFERS else "answered"


def cases_of(run: Run) -> Iterable[Case]:
    cases = Cases()
    by_subtree: DefaultDict[str, List[Finding]] = defaultdict(list)
    for found in run.findings:
        for path in found.subtrees:
            by_subtree[path].append(found)
    subtrees = {each.path: each for each in run.report.subtrees}
    for subtree in run.report.subtrees:
        holder_case(cases, subtree, by_subtree)
    for name in OF_HOST.values():
        cases.at(HOST, name)
    if not run.report.opened:
        cases.at(HOST, "nothing else is open")
    for each in limits.narrowing(run.report):
        cases.at(HOST, "all of it is asked about").add(SKIPPED, f"limits/{each.kind}", [f"{limits.HEAD}: {each.text}"])
    for note in run.report.unseen:
        if note.kind == Outside.kind:
            cases.at(HOST, "processes outside of what their users hold").add(PASSED, note.kind, [note.line])
    for found in run.findings:
        if found.subtrees:
            entry_cases(cases, found, subtrees)
        else:
            cases.at(*place_of(found)).add(outcome_of(found), found.rule.id, details(found))
    return cases.found.values()


def add_case(suite: ElementTree.Element, case: Case, subject: str) -> None:
    names = {"classname": plain(subject), "name": plain(case.name), "time": "0"}
    output = "\n".join(map(plain, dict.fromkeys(case.lines)))
    element = ElementTree.SubElement(suite, "testcase", names)
    if not output:
        return
    if case.outcome == SKIPPED:
        ElementTree.SubElement(element, SKIPPED, message=plain(case.lines[-1]))
    if case.outcome in (PASSED, SKIPPED):
        ElementTree.SubElement(element, "system-out").text = output
    else:
        ElementTree.SubElement(element, case.outcome, type=case.kind, message=plain(case.lines[0])).text = output


def parts_of(run: Run) -> Iterator[str]:
    """The XML of a report: one suite, which is of a host or of a tree text."""
    cases = list(cases_of(run))
    numbers = {"tests": len(cases), **{f"{word}s": sum(case.outcome == word for case in cases) for word in (FAILURE, ERROR)},
               "skipped": sum(case.outcome == SKIPPED for case in cases)}
    counts = {**{name: str(number) for name, number in numbers.items()}, "time": f"{run.seconds:.3f}"}
    moment, subject = time.strftime("%Y-%m-%dT%H:%M:%S", time.gmtime(run.ended)), plain(run.subject)
    suites = ElementTree.Element("testsuites", {"name": "zirofen", **counts})
    suite = ElementTree.SubElement(suites, "testsuite", {"name": subject, **counts, "timestamp": moment, "hostname": subject})
    properties = ElementTree.SubElement(suite, "properties")
    for name, value in words.makers(run.report).items():
        ElementTree.SubElement(properties, "property", {"name": name, "value": plain(value)})
    names = run.report.names
    for case in cases:
        add_case(suite, case, names.of(case.subject) or case.subject)
    ElementTree.indent(suites, " ")
    yield '<?xml version="1.0" encoding="UTF-8"?>\n'
    yield ElementTree.tostring(suites, encoding="unicode")
    yield "\n"
