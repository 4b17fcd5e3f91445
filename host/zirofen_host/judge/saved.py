"""From a file that zirofen-host check --json wrote to its report: what isn't one is a fault.

Nothing else of it is believed.
"""
import json
from typing import Iterator, Optional

from zirofen_host.collect.bounded import REPORT_FILE, read_named
from zirofen_host.fault import Fault
from zirofen_host.judge import as_json
from zirofen_host.judge.host_model import ABSENT, Absent, ReportCgroup, ReportProcess
from zirofen_host.judge.model import VERSION, AboveFinding, Comparison, Difference, FaultFinding, HolderAnswer, OpenedFinding, Report
from zirofen_host.profile import is_root, parent_of

# letters of a text that is no report, in which it is looked at whether it is a tree's
READ_FOR_CURE = 1 << 16
# what an earlier report may lack, and what stands in its place
LACKING: as_json.Lacking = {
    (HolderAnswer, "users"): 0, (FaultFinding, "uid"): None, (FaultFinding, "gids"): (), (FaultFinding, "made_by"): None,
    (AboveFinding, "uid"): 0, (OpenedFinding, "why"): None, (ReportCgroup, "enabled"): (), (ReportProcess, "capabilities"): (),
    (Comparison, "file"): "", (Comparison, "status"): 0, (Comparison, "stand"): (), (Difference, "status"): 0, (Difference, "what"): "",
    (Report, "version_1"): (), (Report, "lists"): ()}


def named_in(report: Report) -> Iterator[str]:
    """The cgroups that a report names as those of its tree."""
    yield from (each.path for each in report.subtrees)
    yield from (each.path for each in report.opened)
    yield from (each.path for each in report.entries)
    yield from (each.path for each in report.differs)
    yield from (each.path for each in report.containers)
    yield from (each.path for each in report.running)
    yield from (each.path for each in report.held)
    yield from (each.path for each in report.broken)
    yield from (path for entry in report.entries for path in entry.subtrees)
    yield from (path for above in report.above for path in above.subtrees)
    if not isinstance(report.processes, Absent):
        yield from (process.at for process in report.processes)
    yield from (entry.example.subtree for entry in report.entries if entry.example)


def wrong_places(report: Report) -> Optional[str]:
    """What of the places in a report doesn't stand in its tree, or None."""
    paths = [] if isinstance(report.cgroups, Absent) else [each.path for each in report.cgroups]
    known = set(paths)
    # of a run that came to the end of its time there are none
    if len(known) != len(paths) or paths and not any(map(is_root, known)):
        return "its cgroups are no tree"
    for path in paths:
        if not is_root(path) and (path[:1] != "/" or path.endswith("/") or parent_of(path) not in known):
            return f"the cgroup {path!a} has none above it"
    lost = next((path for path in named_in(report) if path not in known), None)
    return None if lost is None else f"{lost!a} is none of its cgroups"


def check(value: as_json.Json, name: str) -> Report:
    """The report that a value is, or the fault of its first place that is none."""
    if not isinstance(value, dict) or value.get("version") != VERSION:
        raise Fault(f"{name}: a report of zirofen-host check --json of version {VERSION} is wanted, and this is none")
    if "hosts" in value:
        raise Fault(f"{name}: this is what zirofen-host fleet --json writes, and no report of a host")
    try:
        report = as_json.made_of(Report, value, "report", LACKING)
        for key in ("users", "groups", "cgroups", "processes"):
            if vars(report)[key] is ABSENT:
                raise as_json.Wrong(f"report.{key}")
    except as_json.Wrong as wrong:
        raise Fault(f"{name}: {wrong} isn't what a report has there") from None
    places = wrong_places(report)
    if places:
        raise Fault(f"{name}: {places}")
    return report


def cure_of(text: str) -> str:
    """What to do with a text that stands where a report should, and is none of JSON."""
    lines = text[:READ_FOR_CURE].splitlines()
    if any(line.startswith(("format =", "controllers =", "[[cgroup]]")) for line in lines):
        return "this is a tree text: zirofen-host check --tree FILE --json writes a report of it"
    if any(line.startswith("UID  ") and line.endswith("  PATH") for line in lines):
        return "this is what a check prints for people: with --json it writes the report"
    return "a report is what zirofen-host check --json writes"


def read(file: str) -> Report:
    """The report in a file; - is standard input."""
    try:
        text = read_named(file, REPORT_FILE).text()
        value = json.loads(text)
    except OSError as error:
        raise Fault(f"can't read the report: {error}") from None
    except UnicodeDecodeError as error:
        raise Fault(f"{file}: no JSON: {error}") from None
    except (ValueError, RecursionError) as error:
        raise Fault(f"{file}: no JSON: {error}", [f"  {cure_of(text)}"]) from None
    return check(value, file)
