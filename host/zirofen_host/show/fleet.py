"""From a folder of reports, read one after another and each as hostile, to a row for each host, and no more."""
import hashlib
import itertools
import json
import os
from dataclasses import dataclass
from datetime import datetime, timedelta, timezone
from typing import Callable, Iterable, Iterator, List, Mapping, Optional, Sequence, Set, Tuple

from zirofen_host import version
from zirofen_host.collect import bounded
from zirofen_host.collect.attempts import why_of
from zirofen_host.collect.notes import FAILED
from zirofen_host.fault import FAULT, Fault
from zirofen_host.judge import limits, saved
from zirofen_host.judge.finding_lines import (differs_line, entry_line, fault_line, held_line, inside_line, opened_line,
                                              premise_line, runs_line)
from zirofen_host.judge.host_model import Absent
from zirofen_host.judge.severity import OF_STATUS, worst
from zirofen_host.judge.model import (DiffersFinding, EntryFinding, FaultFinding, HeldFinding, OpenedFinding, PremiseFinding, Report,
                                      RootInside, RunsElsewhere)
from zirofen_host.profile import shown
from zirofen_host.show.view import Grouped, Host, accepted_of, host_of, place_of
from zirofen_host.show.words import STANDINGS

ENDING = ".json"
# lines of findings that a row keeps, and letters of one, of a name and of why a report doesn't count
MOST_LINES, LONGEST_LINE, LONGEST_NAME, LONGEST_WHY = 3, 160, 80, 200
# findings and lines of what no answer looks at in one report
MOST_FINDINGS = 100_000
TIME = "%Y-%m-%dT%H:%M:%SZ"
# how far a host's clock may be ahead
AHEAD = timedelta(days=1)
NO_REPORT = "no report"


@dataclass(frozen=True)
class Row:
    """What is known of a host, by its name; why its report doesn't count, where it doesn't."""
    name: str
    why: Optional[str]
    status: int
    # the word of the gravest that is found
    kind: str
    delegations: int = 0
    contained: int = 0
    open: int = 0
    time: str = ""
    # another host that its report is of
    of: Optional[str] = None
    # whether it is among the hosts that should be there, where these are known
    is_listed: bool = True
    # what speaks against trusting its report
    notes: Tuple[str, ...] = ()
    # the first findings in a line each, and how many there are
    lines: Tuple[str, ...] = ()
    findings: int = 0
    # of hosts that are alike the same
    alike: bytes = b""
    # what narrows its report, by its kinds; one of 0.2.0 doesn't tell it
    limits: Optional[Tuple[str, ...]] = ()
    # what stands behind an answer of it
    mark: str = ""
    # the helper that made its report, where that is known
    helper: Optional[str] = None

    def place(self) -> Tuple[int, int, str]:
        """Where it stands in a table: the gravest first."""
        return ORDER.index(self.kind), -self.open, self.name


ORDER = (NO_REPORT, *STANDINGS)


@dataclass(frozen=True)
class Alike:
    """Hosts that have the same findings, or reports that don't count for the same reason."""
    rows: Sequence[Row]

    @property
    def first(self) -> Row:
        return self.rows[0]


@dataclass(frozen=True)
class Fleet:
    """The hosts, the worst first, and how many other files are in the folder."""
    rows: Sequence[Row]
    others: int

    @property
    def status(self) -> int:
        """That of the gravest."""
        return min(self.rows, key=Row.place).status if self.rows else FAULT

    @property
    def unknown_limits(self) -> int:
        """How many hosts there are of which it isn't known what narrows their reports."""
        return sum(row.limits is None for row in self.rows)

    def groups(self, is_each: bool = False) -> List[Alike]:
        """The hosts that are alike together, the worst first."""
        if is_each:
            return [Alike([row]) for row in self.rows]
        by_alike = sorted(self.rows, key=lambda row: row.alike)
        groups = [Alike(list(rows)) for _, rows in itertools.groupby(by_alike, key=lambda row: row.alike)]
        return sorted(groups, key=lambda group: group.first.place())


def cut(text: str, most: int) -> str:
    """A text as it can be shown, and not longer than so many letters."""
    text = shown(text)
    return text if len(text) <= most else text[:most - 2] + ".."


def report_in(path: str) -> Report:
    """The report in a file that may be anybody's; a fault of one line where it is none."""
    try:
        read = bounded.read_regular(path, bounded.SENT_REPORT)
    except OSError as error:
        raise Fault(f"it can't be read: {error.strerror}") from None
    if read.is_cut:
        raise Fault(f"it is over {bounded.SENT_REPORT >> 20} MB")
    if not read.data.strip():
        raise Fault("it is empty")
    parts, values = read.data.count(b"{") + read.data.count(b"["), read.data.count(b",")
    if parts > bounded.SENT_PARTS or values > bounded.SENT_VALUES:
        raise Fault(f"it has over {bounded.SENT_PARTS} lists and keys, or {bounded.SENT_VALUES} values")
    try:
        value = json.loads(read.text())
    except (ValueError, RecursionError) as error:
        raise Fault(f"no JSON: {error}; {saved.cure_of(read.text(errors='replace'))}") from None
    keys = ("entries", "opened", "faults", "differs", "above", "unseen", "snapshot", "root_inside", "runs_elsewhere", "held_entries",
            "premises")
    lists = [value.get(key) for key in keys] if isinstance(value, dict) else []
    if sum(len(each) for each in lists if isinstance(each, list)) > MOST_FINDINGS:
        raise Fault(f"it has over {MOST_FINDINGS} findings")
    report = saved.check(value, "")
    if report.status not in OF_STATUS:
        raise Fault("report.status isn't what a report has there")
    return report


def missing(name: str, why: str) -> Row:
    """The row of a host of which no report counts."""
    why = cut(why, LONGEST_WHY)
    return Row(name, why, FAULT, NO_REPORT, alike=hashlib.sha256(why.encode()).digest())


def finding_lines(found: Grouped) -> Iterator[str]:
    """A finding in lines, as a check prints it, with why it was accepted."""
    why = accepted_of(found.parts[0])
    if why is not None:
        yield from (f"accepted: {line}: {why}" for line in plain_lines(found))
    else:
        yield from plain_lines(found)


def plain_lines(found: Grouped) -> Iterator[str]:
    """A finding in lines, whether somebody accepted it or not."""
    entries = [each for each in found.parts if isinstance(each, EntryFinding)]
    if entries:
        yield entry_line(entries)
    for each in found.parts:
        if isinstance(each, OpenedFinding):
            yield opened_line(each)
        elif isinstance(each, FaultFinding):
            yield fault_line(each, each.subtrees)
        elif isinstance(each, DiffersFinding):
            yield differs_line(each)
        elif isinstance(each, RootInside):
            yield inside_line(each)
        elif isinstance(each, RunsElsewhere):
            yield runs_line(each)
        elif isinstance(each, HeldFinding):
            yield held_line(each)
        elif isinstance(each, PremiseFinding):
            yield premise_line(each)


def row_of(name: str, host: Host, is_listed: bool) -> Row:
    """The row of a host by its report."""
    report, (delegations, contained, open_findings) = host.report, host.numbers
    # what another version of this helper has found may be graver than what this one finds in its report
    severity = host.severity if host.severity.status == report.status else worst((host.severity, OF_STATUS[report.status]))
    narrowed = [f"{limits.HEAD}: {each.text}" for each in limits.narrowing(report)[:len(limits.KINDS)]]
    notes = [*narrowed, *(each.line for each in report.unseen if each.kind == FAILED)][:len(narrowed) + MOST_LINES]
    alike, lines = hashlib.sha256(repr((severity.value, notes)).encode()), []
    names = report.names
    for number, finding in enumerate(host.findings):
        found = [names.line(line, place) for line in finding_lines(finding) for place in [place_of(finding.parts[0])]]
        alike.update(repr(found).encode())
        if number < MOST_LINES:
            lines.append(cut(found[0], LONGEST_LINE))
    of = None if is_of(name, report.host) else cut(report.host, LONGEST_NAME)
    kinds = None if isinstance(report.limits, Absent) else tuple(each.kind for each in report.limits)
    return Row(name, None, severity.status, severity.value, delegations, contained, open_findings, cut(report.time, 20), of, is_listed,
               tuple(cut(each, LONGEST_LINE) for each in notes), tuple(lines), len(host.findings), alike.digest(),
               kinds, limits.mark_of(report), None if isinstance(report.helper, Absent) else cut(report.helper, LONGEST_NAME))


def is_of(name: str, host: str) -> bool:
    """Whether a report's host can be the one that a file is named after; one of them may be named in full."""
    one, other = sorted((name.lower(), host.lower()), key=len)
    return not one or one == other or other.startswith(f"{one}.")


@dataclass(frozen=True)
class Rules:
    """What a report has to be to count: not older than so many days, and of a host that should be there."""
    now: datetime
    older: Optional[int] = None
    hosts: Optional[Set[str]] = None

    def why_not(self, report: Report) -> Optional[str]:
        """Why a report doesn't count by its time, where it doesn't."""
        if self.older is None:
            return None
        try:
            time = datetime.strptime(report.time, TIME).replace(tzinfo=timezone.utc)
        except ValueError:
            return "it doesn't have its time"
        if time > self.now + AHEAD:
            return "its time is to come"
        days = (self.now - time).days
        return f"it is older than {self.older} days" if self.now - time > timedelta(days=self.older) and days >= 0 else None

    def is_listed(self, name: str) -> bool:
        return self.hosts is None or name in self.hosts


def rows(folder: str, names: Iterable[str], rules: Rules, draw: Callable[[str, Report], None]) -> Iterator[Row]:
    """The rows of the hosts that have a file. Each whose report counts is drawn, and what goes wrong with one is reported of it alone."""
    for name in names:
        try:
            report = report_in(os.path.join(folder, name + ENDING))
            why = rules.why_not(report)
            row = missing(name, why) if why else row_of(name, host_of(report), rules.is_listed(name))
            if not why:
                draw(name, report)
        except Fault as fault:
            row = missing(name, str(fault).lstrip(": "))
        except (Exception, RecursionError, MemoryError) as error:
            row = missing(name, f"it can't be shown: {why_of(error)}")
        yield row


def hosts_in(file: str) -> Set[str]:
    """The names in a file, a line each; what is behind # isn't one."""
    try:
        read = bounded.read_named(file, bounded.HOSTS_FILE)
    except OSError as error:
        raise Fault(f"can't read the list of hosts: {error}") from None
    if read.is_cut:
        raise Fault(f"the list of hosts is over {bounded.HOSTS_FILE >> 20} MB")
    lines = (line.partition("#")[0].strip() for line in read.text(errors="surrogateescape").splitlines())
    return set(filter(None, lines))


def read_fleet(folder: str, rules: Rules, draw: Callable[[str, Report], None]) -> Fleet:
    """All hosts of a folder, and those that should be there."""
    try:
        listed = bounded.list_folder(folder, bounded.NAMES)
    except OSError as error:
        raise Fault(f"can't read the folder {shown(folder)}: {error.strerror}") from None
    files = sorted(name for name, _ in listed.names)
    names = [name[:-len(ENDING)] for name in files if name.endswith(ENDING) and name != ENDING]
    found = list(rows(folder, names, rules, draw))
    found += [missing(name, "there is none") for name in sorted((rules.hosts or set()) - set(names))]
    if not found:
        raise Fault(f"there is no report, NAME{ENDING}, in {shown(folder)}")
    return Fleet(sorted(found, key=Row.place), len(files) - len(names))


def value_of(fleet: Fleet) -> Mapping[str, object]:
    """What --json has."""
    hosts: List[Mapping[str, object]] = [
        {"host": row.name, "counts": row.why is None, "why": row.why, "status": row.status, "answer": row.kind,
         "delegations": row.delegations, "contained": row.contained, "open": row.open, "time": row.time or None,
         "of": row.of, "helper": row.helper, "listed": row.is_listed, "limits": row.limits, "notes": list(row.notes),
         "findings": row.findings, "first": list(row.lines)}
        for row in fleet.rows]
    alike = [{"hosts": [row.name for row in group.rows], "answer": group.first.kind, "why": group.first.why,
              "findings": group.first.findings} for group in fleet.groups() if len(group.rows) > 1]
    return {"version": 1, "helper": version.helper_line(), "status": fleet.status, "hosts": hosts, "alike": alike}
