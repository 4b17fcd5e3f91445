"""From the options of `check` to everybody's answers, as a report in each form that was asked for."""
import argparse
import dataclasses
import functools
import time
from datetime import datetime, timezone
from typing import Callable, Iterable, List, NamedTuple, Optional, Tuple

from zirofen_host import fault
from zirofen_host.ask import accepted, named
from zirofen_host.ask.program import program_at
from zirofen_host.ask.questions import subtrees_by
from zirofen_host.collect import turns
from zirofen_host.collect.attempts import Attempts, why_of
from zirofen_host.installed import NAME
from zirofen_host.judge import acceptances, baseline, check, ended, settings
from zirofen_host.judge.host_model import Absent
from zirofen_host.judge.model import Report
from zirofen_host.options import CheckOptions, Way
from zirofen_host.profile import shown
from zirofen_host.show import formats
from zirofen_host.show.run import Run


# seconds in which a report of a run that came to the end of its time is written
TO_TELL = 60


class Found(NamedTuple):
    """The report, the copy of the text that it is of, and whether it is the first that a baseline is made of."""
    report: Report
    text: Optional[str] = None
    is_first: bool = False


def run(given: argparse.Namespace) -> int:
    turns.begin()
    given.format, given.mends = tuple(given.format), tuple(given.mends)
    options, began = CheckOptions(**vars(given)), time.monotonic()
    ways = formats.ways_to_check(options)
    try:
        found = report_of(options, ways)
    except fault.OutOfTime as late:
        seconds = fault.bound_anew(TO_TELL)
        if seconds is None:
            raise
        fault.warn(f"{NAME} check: {late}")
        found = Found(ended.report(options, seconds))
        # a baseline is of a whole run alone
        options = dataclasses.replace(options, baseline=None, baseline_update=None)
    report = found.report
    status = report.status if isinstance(report.baseline, Absent) else report.baseline.status
    made = Run(report, status, options.tree, found.text, time.monotonic() - began, time.time(), options.help_uri)
    return status if write_all(options, ways, made, found.is_first) else fault.FAULT


def report_of(options: CheckOptions, ways: Iterable[Way]) -> Found:
    """The report, with what somebody accepts and what differs from an earlier one."""
    options = named.with_only(dataclasses.replace(options, program=program_at(options.program)))
    before = baseline.read(options.baseline) if options.baseline else None
    granted = acceptances_of(options)
    is_first = bool(options.baseline) and before is None
    is_whole = bool(formats.is_whole(ways) or options.html or options.baseline_update or is_first)
    attempts = Attempts()
    before_the_walk = attempts.at(settings.ATTEMPT, lambda: settings.read(settings.systemctl_of(options)), check.NO_SETTINGS)
    taken = accepted.take(options, subtrees_by(options))
    taken = dataclasses.replace(taken, notes=(*taken.notes, *attempts.failed))
    report = check.report(taken, options, is_whole, before_the_walk)
    if granted is not None:
        report = acceptances.applied(report, granted, datetime.now(timezone.utc).date())
    if before and options.baseline:
        report = dataclasses.replace(report, baseline=baseline.compared(report, before, options.baseline))
    return Found(report, taken.source.file, is_first)


def acceptances_of(options: CheckOptions) -> Optional[Tuple[acceptances.Given, ...]]:
    """What somebody accepts one by one; where the file isn't there a line says that this is nothing."""
    if options.accept is None:
        return None
    given = acceptances.read(options.accept)
    if given is None:
        fault.warn(f"{NAME} check: {shown(options.accept)} isn't there, and so nothing is accepted by it")
    return given


def write_all(options: CheckOptions, ways: Iterable[Way], run: Run, is_first: bool) -> bool:
    """Writes a report in each way that was asked for. Where one fails a line says which, and the others are written; whether all
    were."""
    written: List[Tuple[str, Callable[[], None]]] = [
        (formats.name_of(way), functools.partial(formats.write, way, run, options.each)) for way in ways]
    if options.html:
        written.append(("the page", functools.partial(write_page, options.html, run.report)))
    if options.baseline or options.baseline_update:
        written.append(("the baseline", lambda: keep_baseline(options, ways, run.report, is_first)))
    failed = 0
    for what, write in written:
        try:
            write()
        except Exception as error:
            failed += 1
            fault.warn(f"{NAME} check: {'' if isinstance(error, fault.Fault) else what + ': '}{why_of(error)}")
    return not failed


def write_page(file: str, report: Report) -> None:
    from zirofen_host.show import page
    page.write(file, [report])


def keep_baseline(options: CheckOptions, ways: Iterable[Way], report: Report, is_first: bool) -> None:
    """Leaves what was found as a baseline: that of a first run accepts nothing, and one that was asked for all of it."""
    if options.baseline and is_first and options.baseline != options.baseline_update:
        baseline.write(options.baseline, report, False)
        fault.warn(f"{NAME} check: {shown(options.baseline)} is a baseline from now on, which accepts nothing")
    if options.baseline_update:
        baseline.write(options.baseline_update, report, True)
        if Way("text") in ways:
            fault.write_lines(baseline.accepted_lines(report))
