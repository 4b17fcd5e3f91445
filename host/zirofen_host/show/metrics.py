"""From a run to Prometheus' text format, for node_exporter's textfile collector: numbers alone.

Labels are of this module's making, and say which helper and program made it.
"""
from collections import Counter
from typing import Dict, Iterator, Mapping, NamedTuple, Tuple

from zirofen_host import version
from zirofen_host.fault import plain
from zirofen_host.judge import limits
from zirofen_host.judge.host_model import ABSENT, Absent
from zirofen_host.judge.severity import Severity
from zirofen_host.judge.rules import RULES, Rule
from zirofen_host.judge.standing import standings
from zirofen_host.show.run import Run

# what isn't a finding of an entry is a fault, or shown by the status
FAULTS: Dict[str, str] = {"fault": "anybody", "fault/own": "holders", "failed": "look"}
NAMES: Dict[Severity, str] = {
    Severity.ESCAPES: "escapes", Severity.OPENED: "escapes", Severity.UNSETTLED: "unsettled", Severity.CONTAINED: "contained",
    Severity.NOT_LOOKED_AT: "not_looked_at", Severity.NOTHING_ASKED: "nothing_asked", Severity.STALE: "stale"}
# how a host stands, and no subtree
OF_HOST = (Severity.NOTHING_ASKED, Severity.NOT_LOOKED_AT, Severity.STALE, Severity.NOT_ASKED)
Values = Mapping[Tuple[Tuple[str, str], ...], float]
ALONE: Tuple[Tuple[str, str], ...] = ()


class Gauge(NamedTuple):
    """A metric with its values by labels."""
    name: str
    help: str
    values: Values


def label(severity: Severity) -> str:
    return severity.value.replace(" ", "_")


def about() -> Tuple[Tuple[str, str], ...]:
    """Labels of which helper this is."""
    return ("version", version.VERSION), ("sum", version.digits())


def quoted(text: str) -> str:
    """A label's value, as the format has it."""
    return '"' + plain(text).replace("\\", "\\\\").replace('"', '\\"') + '"'


def kind_labels(rule: Rule) -> Tuple[Tuple[str, str], ...]:
    """Labels of a kind of finding: of an entry's the guard, which the severity stands beside."""
    kind = rule.at if rule.word == NAMES[rule.severity] else rule.id
    return ("kind", kind), ("gravity", NAMES[rule.severity])


def gauges(run: Run) -> Iterator[Gauge]:
    found = run.findings
    counts = Counter(each.rule.id for each in found if each.accepted is ABSENT)
    standing = standings(run.report)
    answers = Counter(standing.values())
    yield Gauge("zirofen_host_info", "The helper that made this, by its version and the sum of its files, and the program that it asked.",
                {(*about(), ("program", run.report.program or "")): 1})
    yield Gauge("zirofen_subtrees_asked", "Subtrees that were asked of.", {ALONE: len(standing) - answers[Severity.NOT_ASKED]})
    yield Gauge("zirofen_subtrees", "Subtrees by the gravest that was found of each.",
                {(("answer", label(each)),): answers[each] for each in Severity if each not in OF_HOST})
    yield Gauge("zirofen_findings", "Findings by kind and gravity, without those that were accepted.",
                {kind_labels(rule): counts[rule.id] for rule in RULES.values() if rule.id not in FAULTS})
    yield Gauge("zirofen_faults", "What has no answer, by whose making.", {(("of", word),): counts[kind] for kind, word in FAULTS.items()})
    yield Gauge("zirofen_accepted_findings", "Findings that were accepted and aren't counted.",
                {ALONE: sum(not isinstance(each.accepted, Absent) for each in found)})
    kinds = {each.kind for each in limits.narrowing(run.report)}
    yield Gauge("zirofen_answer_limits", "What narrows the answers, by kind.",
                {(("kind", kind),): int(kind in kinds) for kind in limits.KINDS})
    yield Gauge("zirofen_status", "The status that the check ended with.", {ALONE: run.status})
    yield Gauge("zirofen_run_seconds", "How long the check took.", {ALONE: round(run.seconds, 3)})
    yield Gauge("zirofen_last_run_timestamp_seconds", "When the check ended.", {ALONE: round(run.ended)})


def lines_of(gauge: Gauge) -> Iterator[str]:
    yield f"# HELP {gauge.name} {gauge.help}\n# TYPE {gauge.name} gauge\n"
    for labels, value in gauge.values.items():
        pairs = ",".join(f"{name}={quoted(word)}" for name, word in labels)
        yield f"{gauge.name}{{{pairs}}} {value}\n" if pairs else f"{gauge.name} {value}\n"


def parts_of(run: Run) -> Iterator[str]:
    """The text of all metrics."""
    return (line for gauge in gauges(run) for line in lines_of(gauge))
