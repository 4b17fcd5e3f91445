"""From what changes to a tree would be answered, beside the tree as it is, to lines."""
from typing import Iterator

from zirofen_host import fault
from zirofen_host.judge import as_json, limits
from zirofen_host.judge.host_model import Absent
from zirofen_host.judge.model import Comparison, Report
from zirofen_host.judge.notes import NotPlanned
from zirofen_host.judge.plan import AS_IT_IS, status_of
from zirofen_host.judge.severity import OF_STATUS, Severity
from zirofen_host.judge.standing import CAUSES, cause_of
from zirofen_host.show.lines import COUNTED, asked_line, by_kind, difference_lines, made_lines
from zirofen_host.show.words import listed


def lines_of(report: Report, compared: Comparison) -> Iterator[str]:
    """What differs, each by itself, faults that were there before, and the sum behind the changes."""
    found = [(kind, each) for kind, some in by_kind(compared) if kind != "stand" for each in some]
    yield from (line for kind, each in found for line in difference_lines(kind, each))
    if not found:
        yield f"nothing is new, worse, changed or gone beside {AS_IT_IS}"
    yield from (f"as before: {each.line}" for each in compared.stand)
    yield from (each.line for each in report.unseen if each.kind == NotPlanned.kind)
    yield from made_lines(report)
    yield f"{status_text(report, compared)}; {asked_line(report)}"


def status_text(report: Report, compared: Comparison) -> str:
    """The status, and what it is by: what is new or worse, a fault that stands, and what can't be known."""
    status = status_of(compared, report)
    if not status:
        return str(status)
    counts = {word: sum(each.status == status for each in found) for word, found in by_kind(compared)}
    by = [f"{counts[kind]} {word}" for kind, word in COUNTED.items() if counts[kind]]
    if status == Severity.UNSETTLED.status and any(each.kind == limits.PLAN for each in limits.narrowing(report)):
        by.append(CAUSES["plan", Severity.UNSETTLED][0])
    return f"{status} by {listed(by or [cause_of(report, OF_STATUS[status])])}"


def write(report: Report, is_json: bool) -> int:
    """Writes what differs, or all of it; the status is that of what is new or worse."""
    compared = report.baseline
    assert not isinstance(compared, Absent)
    if is_json:
        fault.write([*as_json.parts_of(report), "\n"])
    else:
        fault.write_lines(lines_of(report, compared))
    return status_of(compared, report)
