"""From a report and an earlier one to what is new, worse, gone or changed since then."""
import dataclasses
import json
from itertools import chain
from typing import Dict, FrozenSet, Iterable, Iterator, List, NamedTuple, Optional, Tuple, Union

from zirofen_host import output
from zirofen_host.ask.program import CONTAINED
from zirofen_host.collect.bounded import REPORT_FILE, read_opened
from zirofen_host.fault import Fault
from zirofen_host.judge import as_json
from zirofen_host.judge.finding_lines import (MOUNT_OPTIONS, above_line, differs_line, entry_line, fault_line, inside_line, opened_line,
                                              premise_line, version_1_line)
from zirofen_host.judge.host_model import ABSENT, Absent, PlaceNames
from zirofen_host.judge.severity import ACCEPTED as IN_FORCE
from zirofen_host.judge.severity import Severity, of_answer, of_fault, worst
from zirofen_host.judge.standing import accepted_subtrees, is_empty
from zirofen_host.collect.notes import FAILED
from zirofen_host.judge.model import (VERSION, Comparison, Difference, DiffersFinding, EntryFinding, OpenedFinding, Report, RootInside,
                                      Subtree, Whom, Within)
from zirofen_host.judge.rules import Finding, of_held, of_premise, of_running
from zirofen_host.judge.saved import LACKING
from zirofen_host.profile import shown

KINDS = ("new", "worse", "stand", "changed", "gone")
# findings that are shown as accepted; where there are more, it is shown how many
ACCEPTED = 64
# a finding by its kind, where it stands, and what it is of
Key = Tuple[str, str, str]


class Found(NamedTuple):
    """A finding: how grave it is, its line, what it lets in, and what mends it."""
    severity: Severity
    line: str
    lets_in: FrozenSet[Tuple[object, ...]] = frozenset()
    mended: Union[EntryFinding, OpenedFinding, DiffersFinding, RootInside, Finding, None] = None
    # whose own making it is
    within: Within = ABSENT
    # it is accepted by itself, and reported so
    is_accepted: bool = False
    # its line, with the names of containers in place of their paths
    named: str = ""


def read(file: str) -> Optional[Report]:
    """An earlier report, or None where there is no such file; only one of this version of its keys can be compared, and as root
    none that somebody else could have put there."""
    none = Fault(f"the baseline {shown(file)} is no report of zirofen-host check --json")
    try:
        with output.opened_back(file) as opened:
            before = json.loads(read_opened(opened, REPORT_FILE).text("ascii"))
    except FileNotFoundError:
        return None
    except OSError as error:
        raise Fault(f"can't read the baseline {shown(file)}: {error.strerror}") from None
    except (ValueError, RecursionError):
        raise none from None
    version = before.get("version") if isinstance(before, dict) else None
    if version != VERSION:
        raise Fault(f"the baseline {shown(file)} has version {json.dumps(version)[:40]}, and this helper compares version {VERSION}")
    try:
        report = as_json.made_of(Report, before, "report", LACKING)
        found_in(report)
        return report
    except (as_json.Wrong, KeyError, IndexError, RecursionError):
        raise none from None


def accepted_lines(report: Report) -> Iterator[str]:
    """What a baseline of a report accepts. Nobody accepts a fault."""
    found = [(key, each) for key, each in sorted(found_in(report).items(), key=lambda pair: (pair[1].severity.rank, pair[0]))
             if is_standing(key, each, False)]
    for key, each in found[:ACCEPTED]:
        yield f"accepted: {each.line}" if key[0] != "fault" else f"not accepted: {each.line}: a fault counts in each run"
    if len(found) > ACCEPTED:
        yield f"accepted: {len(found) - ACCEPTED} more"


def write(file: str, report: Report, is_accepted: bool) -> None:
    """Leaves a report as a baseline: the whole of it, or what stood there before."""
    kept = dataclasses.replace(report, baseline=ABSENT, accepted=is_accepted)
    output.write(file, chain(as_json.parts_of(kept), ["\n"]), "the baseline")


def found_in(report: Report) -> Dict[Key, Found]:
    """All that a report tells of, by what it is and where it stands: in a container with a name, by that."""
    names = report.names
    if not names.words:
        return found_by_path(report)
    return {(what, names.of(path) or path, of): each._replace(named=names.line(each.line, path))
            for (what, path, of), each in found_by_path(report).items()}


def found_of(before: Report, names: PlaceNames) -> Dict[Key, Found]:
    """What an earlier report tells of, by the names of then; where it has none of a place, by what that is named now."""
    return {(what, names.of(place) or place, of): each for (what, place, of), each in found_in(before).items()}


def found_by_path(report: Report) -> Dict[Key, Found]:
    """All that a report tells of, by what it is and at which cgroup."""
    accepted = accepted_subtrees(report)
    found = {("subtree", each.path, ""): subtree_found(each, each.path in accepted) for each in report.subtrees}
    for entry in report.entries:
        found["entry", entry.path, entry.entry] = Found(
            of_answer(entry.answer), entry_line([entry]), let_in(entry.whom, entry.subtrees), entry, entry.within,
            entry.accepted is not ABSENT)
    for opened in report.opened:
        found["opened", opened.path, opened.file] = Found(Severity.OPENED, opened_line(opened), let_in(opened.whom, ()), opened,
                                                          opened.within, opened.accepted is not ABSENT)
    for inside in report.containers:
        found["root-inside", inside.path, ""] = Found(
            Severity.CONTAINED if inside.held else Severity.OPENED, inside_line(inside), frozenset((way,) for way in inside.ways),
            inside, is_accepted=inside.accepted is not ABSENT)
    for premise in (*map(of_running, report.running), *map(of_held, report.held)):
        found[premise.rule.word, premise.path, f"{premise.entry} {premise.whom[0].id}"] = Found(
            premise.rule.severity, premise.line, frozenset(), premise, premise.within, premise.accepted is not ABSENT)
    for each in report.broken:
        # of the host's options one that is missing more is worse
        lacks = frozenset((word,) for word in each.entry.split()) if each.what == MOUNT_OPTIONS else frozenset()
        key = (each.what, each.path, "" if lacks else f"{each.entry} {each.whom[0].id}")
        found[key] = Found(Severity.UNSETTLED, premise_line(each), lacks, of_premise(each), each.within, each.accepted is not ABSENT)
    for fault in report.faults:
        for path in fault.subtrees:
            found["fault", path, fault.fault] = Found(of_fault(fault), fault_line(fault, [path]))
    for differs in report.differs:
        found["differs", differs.path, ""] = Found(
            Severity.CONTAINED, differs_line(differs), frozenset((name,) for name in differs.entries), differs)
    for above in report.above:
        found["above", above.handed, above.who] = Found(Severity.CONTAINED, above_line(above), within=above.within)
    for note in (*report.unseen, *report.snapshot):
        if note.kind == FAILED:
            found[FAILED, note.place, note.text] = Found(Severity.FAULT, note.line)
    if report.version_1:
        found["version-1", "", ""] = Found(Severity.NOT_LOOKED_AT, version_1_line(report.version_1))
    return found


def subtree_found(subtree: Subtree, is_accepted: bool) -> Found:
    """What those who hold a subtree were answered."""
    if not subtree.answers:
        return Found(Severity.CONTAINED, f"{subtree.path}: held by root alone", within=subtree.within)
    severities = [Severity.CONTAINED if each.is_above else of_answer(each.word) for each in subtree.answers]
    answers = "; ".join(f"{each.lines[0]}, by {each.who} who holds it" for each in subtree.answers)
    return Found(worst(severities), f"{subtree.path}: {answers}", within=subtree.within, is_accepted=is_accepted)


def let_in(whom: Iterable[Whom], subtrees: Iterable[str]) -> FrozenSet[Tuple[object, ...]]:
    """Whom and to what, as far as more of it is worse."""
    users = {("whom", each.by, each.id, user) for each in whom for user in (None, *each.users)}
    return frozenset({*users, *(("subtree", path) for path in subtrees)})


def compared(report: Report, before: Report, file: str) -> Comparison:
    """What differs from an earlier report, and what stands since then, with its status."""
    now, then = found_in(report), found_of(before, report.names)
    differing: Dict[str, List[Difference]] = {kind: [] for kind in KINDS}
    severities = []
    for key in sorted({*now, *then}):
        if key in now and now[key].is_accepted:
            continue
        kind = kind_of(now.get(key), then.get(key))
        if kind in ("new", "worse"):
            severities.append(now[key].severity)
        elif key in now and is_standing(key, now[key], before.accepted is True):
            severities.append(now[key].severity)
            differing["stand"].append(difference(key, now[key], then[key]))
        if kind:
            differing[kind].append(difference(key, now.get(key), then.get(key)))
    differing["changed"] += changes_of_host(report, before)
    if not isinstance(report.acceptances, Absent):
        severities += [Severity.STALE for each in report.acceptances if each.state != IN_FORCE]
    if is_empty(report) and not is_empty(before):
        severities.append(Severity.NOTHING_ASKED)
    new, worse, stand, changed, gone = (tuple(differing[kind]) for kind in KINDS)
    return Comparison(file, before.time, new, worse, stand, changed, gone, worst(severities).status)


def is_standing(key: Key, now: Found, is_accepted: bool) -> bool:
    """Whether a finding that was there already counts: a fault always does, and others where nobody accepted them. A subtree's
    row is reported by the entries that it rests on."""
    if now.is_accepted or now.severity is Severity.CONTAINED or key[0] == "subtree":
        return False
    return not is_accepted or key[0] in ("fault", FAILED)


def changes_of_host(report: Report, before: Report) -> Iterable[Difference]:
    for what, now, then in (("host", report.host, before.host), ("program", report.program, before.program),
                            ("helper", report.helper, before.helper), ("kernel", report.kernel, before.kernel),
                            ("mount", report.mount, before.mount)):
        if now != then and then is not ABSENT:
            yield Difference(what, f"{what}: {now}", f"{what}: {then}", CONTAINED, (), None)


def kind_of(now: Optional[Found], then: Optional[Found]) -> Optional[str]:
    if then is None:
        return "worse" if now and isinstance(now.mended, Finding) and now.mended.rule.word == MOUNT_OPTIONS else "new"
    if now is None:
        return "gone"
    if now.severity.rank < then.severity.rank or now.lets_in - then.lets_in:
        return "worse"
    return "changed" if (now.named or now.line) != (then.named or then.line) and now.line != then.line else None


def difference(key: Key, now: Optional[Found], then: Optional[Found]) -> Difference:
    mended = now.mended if now else None
    either = now or then
    return Difference(key[0], either.line if either else "", then.line if now and then else None, now.severity.status if now else CONTAINED,
                      mended.changes if mended else (), mended.setting if mended else None, either.within if either else ABSENT)
