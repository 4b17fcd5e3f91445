"""From a report to a view by its places: how each delegation stands, to whom it was handed, and the findings."""
import dataclasses
from collections import defaultdict
from dataclasses import dataclass
from functools import cached_property
from typing import Callable, Dict, Iterable, Iterator, List, Mapping, Optional, Sequence, Set, Tuple, TypeVar, Union

from zirofen_host.collect.model import Value
from zirofen_host.collect.walk import OWNERS_MARK
from zirofen_host.files import CONTROL_FILES, TEXT_FILES, HANDED_OVER, NUMBER_FILES, is_usual
from zirofen_host.judge.host_model import Absent, NamedScope, Owner, ReportCgroup, ReportFile, ReportProcess, ReportUser
from zirofen_host.judge.model import (DiffersFinding, EntryFinding, FaultFinding, HeldBy, HeldFinding, OpenedFinding, PremiseFinding,
                                      Report, RootInside, RunsElsewhere, Subtree, Whom)
from zirofen_host.judge.severity import Severity, of_answer, of_fault, of_premise
from zirofen_host.judge.standing import delegations, severity_of, standings
from zirofen_host.profile import ancestors, parent_of
from zirofen_host.show import words
from zirofen_host.show.lines import alike, entry_in_common, opened_in_common
from zirofen_host.show.words import ACCEPTED, CONTAINED, COUNTED, LIMITED, NOT_ASKED, STANDINGS, visible

Part = Union[EntryFinding, OpenedFinding, FaultFinding, DiffersFinding, RootInside, RunsElsewhere, HeldFinding, PremiseFinding]
SomePart = TypeVar("SomePart", bound=Part)
One = TypeVar("One")
Made = TypeVar("Made")


@dataclass(frozen=True)
class Grouped:
    """Findings of a report that stand together: their key in the report, and the numbers that they have there."""
    # whether somebody accepted it or not; what doesn't count has none
    severity: Optional[Severity]
    key: str
    numbers: Sequence[int]
    parts: Sequence[Part]

    @property
    def answer(self) -> str:
        """The word of what was found."""
        return self.severity.value if self.severity else DIFFERS

    @property
    def kind(self) -> str:
        """The word of how it stands, where somebody may have accepted it."""
        return ACCEPTED if accepted_of(self.parts[0]) is not None else self.answer


@dataclass(frozen=True)
class Escape:
    """Somebody who breaks a subtree, and the answer's lines."""
    who: str
    uid: Optional[int]
    gids: Tuple[int, ...]
    subtree: str
    # as they are shown, and what is said of it where they aren't the program's or may not run
    lines: Tuple[str, ...]
    why_shown: str = ""


DIFFERS, RUNNING, HELD, PREMISES = "differs", "runs_elsewhere", "held_entries", "premises"


def seen(value: object, shown: Callable[[str], str]) -> object:
    """What is in a report, with its texts written so that each can be seen as it is."""
    if isinstance(value, str):
        return shown(value)
    if isinstance(value, tuple):
        return tuple(seen(each, shown) for each in value)
    if isinstance(value, Mapping):
        return {shown(key): seen(each, shown) for key, each in value.items()}
    return with_texts(value, shown) if dataclasses.is_dataclass(value) else value


def with_texts(made: Made, shown: Callable[[str], str]) -> Made:
    """A part of a report with its texts shown; the lines of a limit's value stay lines."""
    shown_here = by_lines(shown) if isinstance(made, ReportFile) else shown
    return dataclasses.replace(made, **{name: seen(each, shown_here) for name, each in vars(made).items()})


def by_lines(shown: Callable[[str], str]) -> Callable[[str], str]:
    return lambda text: "\n".join(map(shown, text.split("\n")))


def present(parts: Union[Tuple[One, ...], Absent]) -> Tuple[One, ...]:
    return () if isinstance(parts, Absent) else parts


def is_handed(entry: Union[Owner, ReportFile], held: HeldBy) -> bool:
    """Whether an entry lets in those who hold a subtree."""
    if held.by == "owner":
        return entry.uid in held.ids
    mode = int(entry.mode, 8)
    if held.by == "group":
        return bool(entry.gid in held.ids and mode & 0o020)
    return bool(held.by == "others" and mode & 0o002)


def subtrees_of(part: Part) -> Tuple[str, ...]:
    """The subtrees that a finding is of, where it names them."""
    return part.subtrees if isinstance(part, (EntryFinding, FaultFinding)) else ()


def place_of(part: Part) -> str:
    """The cgroup of a finding; that of a fault is in no tree."""
    return "" if isinstance(part, FaultFinding) else part.path


def entry_of(part: Part) -> str:
    """The directory or the file that a finding is of."""
    if isinstance(part, (EntryFinding, PremiseFinding)):
        return part.entry
    return part.file if isinstance(part, (OpenedFinding, HeldFinding)) else ""


def whom_of(part: Part) -> Tuple[Whom, ...]:
    """Whom a finding lets in."""
    return part.whom if isinstance(part, (EntryFinding, OpenedFinding, RunsElsewhere, HeldFinding, PremiseFinding)) else ()


def is_held(part: Part) -> bool:
    """Whether it is a container of root's that is held."""
    return isinstance(part, RootInside) and part.held


def accepted_of(part: Part) -> Optional[str]:
    """Why a finding isn't counted, where somebody accepted it."""
    why = None if isinstance(part, (FaultFinding, DiffersFinding)) else part.accepted
    return None if isinstance(why, Absent) else why


def severity_of_part(part: Part) -> Optional[Severity]:
    """How grave a finding is, whether somebody accepted it or not."""
    if isinstance(part, EntryFinding):
        return of_answer(part.answer)
    if isinstance(part, FaultFinding):
        return of_fault(part)
    if isinstance(part, RunsElsewhere):
        return of_premise(part.is_across)
    if isinstance(part, HeldFinding):
        return of_premise(part.is_sure)
    if isinstance(part, PremiseFinding):
        return Severity.UNSETTLED
    return None if isinstance(part, DiffersFinding) else Severity.OPENED


def grouped(key: str, found: Sequence[SomePart], in_common: Callable[[SomePart], object]) -> Iterator[Grouped]:
    """Findings that stand together below one key of the report."""
    at = 0
    for parts in alike(found, lambda each: (in_common(each), accepted_of(each))):
        yield Grouped(severity_of_part(parts[0]), key, range(at, at + len(parts)), parts)
        at += len(parts)


def alone(key: str, found: Sequence[Part]) -> Iterator[Grouped]:
    """Findings of which each stands by itself."""
    return (Grouped(severity_of_part(part), key, (number,), (part,)) for number, part in enumerate(found))


@dataclass(frozen=True, eq=False)
class Host:
    """What a report tells of a host."""
    report: Report
    rows: Mapping[str, ReportCgroup]
    subtrees: Mapping[str, Subtree]
    processes: Mapping[int, ReportProcess]
    users: Mapping[int, ReportUser]
    groups: Mapping[int, Optional[str]]

    @cached_property
    def children(self) -> Mapping[str, List[str]]:
        found: Dict[str, List[str]] = defaultdict(list)
        for path in sorted(self.rows, key=words.in_order):
            above = parent_of(path)
            if above is not None:
                found[above].append(path)
        return found

    @cached_property
    def findings(self) -> List[Grouped]:
        """What to mend: entries at one place that let in the same to the same are one; the gravest first."""
        report = self.report
        found = [*grouped("entries", report.entries, entry_in_common), *grouped("opened", report.opened, opened_in_common),
                 *(each for each in alone("root_inside", report.containers) if not is_held(each.parts[0])),
                 *alone(RUNNING, report.running), *alone(HELD, report.held), *alone(PREMISES, report.broken),
                 *grouped("faults", report.faults, lambda each: (each.fault, each.subtrees, each.made_by is None)),
                 *grouped("differs", report.differs, lambda each: each.path)]
        return sorted(found, key=lambda each: (*STANDINGS, DIFFERS).index(each.kind))

    @cached_property
    def standing(self) -> Mapping[str, List[Tuple[str, Optional[int]]]]:
        """How each delegation stands, the gravest first, each with the number of the first finding that says so."""
        found: Dict[str, Dict[str, Optional[int]]] = {path: {} for path in self.subtrees}
        for number, finding in enumerate(self.findings):
            if finding.kind in STANDINGS:
                for path in (path for part in finding.parts for path in subtrees_of(part) or [place_of(part)]):
                    found.setdefault(path, {}).setdefault(finding.kind, number)
        for path, severity in standings(self.report).items():
            if not found.setdefault(path, {}) or severity.rank < min(STANDINGS.index(kind) for kind in found[path]):
                found[path][severity.value] = None
        for path, row in self.rows.items():
            if OWNERS_MARK in row.marks and path not in found:
                found[path] = {NOT_ASKED: None}
        return {path: sorted(kinds.items(), key=lambda each: STANDINGS.index(each[0])) for path, kinds in found.items()}

    @cached_property
    def severity(self) -> Severity:
        """The gravest that is found of it."""
        return severity_of(self.report)

    @cached_property
    def numbers(self) -> Tuple[int, int, int]:
        """How many delegations there are, how many of them are shown to be contained as far as was asked, and how many findings are
        open."""
        contained = sum(self.standing[path][0][0] in (CONTAINED, LIMITED) for path in self.delegations)
        return len(self.delegations), contained, sum(each.kind in COUNTED for each in self.findings)

    @cached_property
    def delegations(self) -> Set[str]:
        """The subtrees, also those of which nobody could be asked."""
        return delegations(self.report)

    @cached_property
    def lost(self) -> List[Tuple[str, FaultFinding]]:
        """Subtrees without an answer that aren't in the tree any more, each with its finding."""
        first = [each.parts[0] for each in self.findings]
        return [(path, each) for each in first if isinstance(each, FaultFinding) for path in each.subtrees if path not in self.rows]

    @cached_property
    def notes(self) -> Mapping[str, List[Tuple[int, Grouped]]]:
        """The findings at each cgroup where an entry stands that lets somebody in."""
        found: Dict[str, List[Tuple[int, Grouped]]] = defaultdict(list)
        for number, finding in enumerate(self.findings):
            if not isinstance(finding.parts[0], FaultFinding):
                found[place_of(finding.parts[0])].append((number, finding))
        return found

    @cached_property
    def inside(self) -> Set[str]:
        """The delegations and what is inside them."""
        found: Set[str] = set()
        for path in sorted(self.rows, key=len):
            if path in self.subtrees or parent_of(path) in found:
                found.add(path)
        return found

    @cached_property
    def unfolded(self) -> Set[str]:
        """The cgroups that aren't folded: delegations with what is inside them, marks, findings, containers of root's, and what is
        above these."""
        return {"/", *self.standing, *self.notes, *self.ways, *self.inside, *self.root_inside}

    @cached_property
    def ways(self) -> Set[str]:
        """What is above a delegation, a mark or a finding."""
        return {above for path in {*self.standing, *self.notes, *self.root_inside} for above in ancestors(path)}

    @cached_property
    def scopes(self) -> Mapping[str, NamedScope]:
        """Containers and pods by their paths."""
        return self.report.scopes_by_path

    @cached_property
    def root_inside(self) -> Mapping[str, RootInside]:
        """The containers of root's."""
        return {each.path: each for each in self.report.containers}

    def split(self, path: str) -> Tuple[List[str], List[str]]:
        """What is shown below a cgroup, and all that is folded there."""
        shown = [each for each in self.children[path] if each in self.unfolded]
        folded = [each for each in self.children[path] if each not in self.unfolded]
        return shown, [below for each in folded for below in self.below(each)]

    def below(self, path: str) -> List[str]:
        """A cgroup and all below it."""
        found, left = [], [path]
        while left:
            found.append(left.pop())
            left += reversed(self.children[found[-1]])
        return found

    def is_roots(self, path: str) -> bool:
        row = self.rows[path]
        return not row.dir.uid and not any(each.uid for each in row.files.values())

    def user(self, uid: Optional[int]) -> str:
        user = None if uid is None else self.users.get(uid)
        return f"{user.name}({uid})" if user and user.name else f"uid {uid}"

    def group(self, gid: int) -> str:
        name = self.groups.get(gid)
        return f"group {name}({gid})" if name else f"group {gid}"

    def holder(self, path: str) -> str:
        """To whom a delegation was handed."""
        held = self.subtrees[path].held_by
        if held.by in ("owner", "group"):
            return words.listed(map(self.user if held.by == "owner" else self.group, held.ids))
        return "everybody" if held.by else "root alone"

    def entries(self, path: str) -> List[str]:
        """By which entries it was handed over."""
        held, row = self.subtrees[path].held_by, self.rows[path]
        entries: Dict[str, Union[Owner, ReportFile]] = {"dir": row.dir, **row.files}

        def among(names: Iterable[str]) -> List[str]:
            return [name for name in names if name in entries and is_handed(entries[name], held)]

        handed = among(("dir", *CONTROL_FILES, *NUMBER_FILES)) or among(TEXT_FILES)
        return sorted(handed, key=lambda name: name not in HANDED_OVER)

    def value(self, path: str, file: str) -> Optional[Value]:
        """What a limit file has, where one is known."""
        row = self.rows.get(path)
        found = row.files.get(file) if row else None
        return None if found is None or isinstance(found.value, Absent) else found.value

    def limits(self, path: str) -> List[Tuple[str, str]]:
        """The limits that are set at a cgroup, with their values."""
        files = self.rows[path].files
        values = [(file, files[file].value) for file in sorted(files)]
        return [(file, words.size(file, value)) for file, value in values
                if not isinstance(value, Absent) and not is_usual(file, value)]

    def escape(self, part: EntryFinding) -> Optional[Escape]:
        """Who breaks what by an entry, and how; an example of somebody else's, or the answer of who holds a subtree."""
        if part.example:
            return self.as_shown(Escape(part.example.who, part.example.uid, part.example.gids, part.example.subtree, part.example.lines))
        let_in = {each.id for each in part.whom if each.by == "owner"}
        found = [(not let_in.intersection(answer.uids), path, answer) for path in part.subtrees if path in self.subtrees
                 for answer in self.subtrees[path].answers
                 if not answer.is_above and answer.word == part.answer]
        if not found:
            return None
        _, path, answer = min(found, key=lambda each: each[:2])
        uid = next((uid for uid in answer.uids if uid in let_in), answer.uids[0] if answer.uids else None)
        user = None if uid is None else self.users.get(uid)
        gids = max(user.groups if user else (), key=len, default=answer.gids)
        return self.as_shown(Escape(self.user(uid), uid, gids, path, answer.lines))

    def as_shown(self, escape: Escape) -> Escape:
        """An escape with the processes that can be moved, where the report has such a list."""
        found = next((each for each in self.report.lists if (each.subtree, each.lines) == (escape.subtree, escape.lines)), None)
        return dataclasses.replace(escape, lines=found.shown, why_shown=found.told) if found else escape


def host_of(report: Report, shown: Callable[[str], str] = visible) -> Host:
    """A report's parts by what they are of, with its texts as they are shown."""
    report = with_texts(report, shown)
    return Host(report, {each.path: each for each in present(report.cgroups)}, {each.path: each for each in report.subtrees},
                {each.pid: each for each in present(report.processes)}, {each.uid: each for each in present(report.users)},
                {each.gid: each.name for each in present(report.groups)})
