"""From the rows of many hosts to Prometheus' text format: sums over all of them, and never a host's name.

Labels are of this module's making.
"""
from collections import Counter
from datetime import datetime, timezone
from typing import Iterator

from zirofen_host.judge.severity import OF_STATUS
from zirofen_host.show.fleet import ORDER, TIME, Fleet, Row
from zirofen_host.show.metrics import ALONE, Gauge, Values, about, lines_of


def moments(fleet: Fleet) -> Iterator[float]:
    """When the reports were made that count, as far as these tell."""
    for row in fleet.rows:
        if row.why is None:
            try:
                yield datetime.strptime(row.time, TIME).replace(tzinfo=timezone.utc).timestamp()
            except ValueError:
                continue


def total(fleet: Fleet, number: str) -> Values:
    return {ALONE: sum(int(getattr(row, number)) for row in fleet.rows)}


def is_another(row: Row) -> bool:
    """Whether a report is of another host than its name says, or of one that shouldn't be there."""
    return row.why is None and (row.of is not None or not row.is_listed)


def gauges(fleet: Fleet, seconds: float, ended: float) -> Iterator[Gauge]:
    kinds, statuses = Counter(row.kind for row in fleet.rows), Counter(row.status for row in fleet.rows)
    yield Gauge("zirofen_fleet_info", "The helper that made this, by its version and the sum of its files.", {about(): 1})
    yield Gauge("zirofen_fleet_hosts", "Hosts by the gravest that is found of each; no_report: its report is missing or doesn't count.",
                {(("answer", kind.replace(" ", "_")),): kinds[kind] for kind in ORDER})
    yield Gauge("zirofen_fleet_hosts_with_status", "Hosts by the status of each.",
                {(("status", str(status)),): statuses[status] for status in sorted(OF_STATUS)})
    yield Gauge("zirofen_fleet_delegations", "Delegations of all hosts.", total(fleet, "delegations"))
    yield Gauge("zirofen_fleet_contained_delegations", "Delegations of all hosts that are shown to be contained.",
                {ALONE: sum(row.contained for row in fleet.rows if not row.mark)})
    yield Gauge("zirofen_fleet_open_findings", "Findings of all hosts that are open.", total(fleet, "open"))
    yield Gauge("zirofen_fleet_unexpected_reports", "Reports of other hosts than their names say, or of hosts that shouldn't be there.",
                {ALONE: sum(map(is_another, fleet.rows))})
    yield Gauge("zirofen_fleet_other_files", "Files that are no report and were passed over.", {ALONE: fleet.others})
    yield Gauge("zirofen_fleet_oldest_report_timestamp_seconds", "When the oldest report was made that counts; 0 where none has one.",
                {ALONE: round(min(moments(fleet), default=0))})
    yield Gauge("zirofen_fleet_status", "The status of the worst host.", {ALONE: fleet.status})
    yield Gauge("zirofen_fleet_run_seconds", "How long it took to read the reports.", {ALONE: round(seconds, 3)})
    yield Gauge("zirofen_fleet_last_run_timestamp_seconds", "When the reports were read.", {ALONE: round(ended)})


def parts_of(fleet: Fleet, seconds: float, ended: float) -> Iterator[str]:
    """The text of all metrics."""
    return (line for gauge in gauges(fleet, seconds, ended) for line in lines_of(gauge))
