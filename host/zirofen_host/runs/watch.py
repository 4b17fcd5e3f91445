"""From the options of `watch` to a watch: a host is checked once, and asked again when something happened."""
import argparse
import dataclasses
import functools
import time
from typing import Optional, Tuple

from zirofen_host import fault
from zirofen_host.ask.program import program_at
from zirofen_host.collect.mount import refuse_what_is_no_host
from zirofen_host.judge import baseline
from zirofen_host.judge.host_model import Absent
from zirofen_host.judge.model import Report
from zirofen_host.options import WatchOptions, Way
from zirofen_host.runs.check import write_all
from zirofen_host.show import formats
from zirofen_host.show.run import Run
from zirofen_host.watch import known, messages, numbers
from zirofen_host.watch.hooks import Hooks
from zirofen_host.watch.journal import JOURNAL, Datagrams, Manager, datagram, entry_of
from zirofen_host.watch.loop import Loop, Outside

METRICS = "metrics"


def run(given: argparse.Namespace) -> int:
    given.format, given.mends = tuple(given.format), tuple(given.mends)
    options = WatchOptions(**vars(given))
    options = dataclasses.replace(options, program=program_at(options.program))
    # each check has a bound of its own
    fault.unbound()
    if not options.plain_folder:
        refuse_what_is_no_host(options.mount)
    ways = ways_of(options)
    before = baseline.read(options.baseline) if options.baseline else None
    Loop(options, outside_of(options, ways), known.items_of(before) if before else None).run()
    return 0


def ways_of(options: WatchOptions) -> Tuple[Way, ...]:
    """The forms of a report that were asked for."""
    return formats.ways_apart((*options.format, *([formats.JSON] if options.json else []), *options.mends))


def outside_of(options: WatchOptions, ways: Tuple[Way, ...]) -> Outside:
    """Where this watch tells of what it found."""
    files = tuple(way for way in ways if way.kind == METRICS and way.file != formats.STANDARD_OUTPUT)
    forms = tuple(way for way in ways if way not in files)
    journal = Datagrams(JOURNAL) if options.journal else None
    hooks = Hooks(options.exec) if options.exec else None
    manager = Manager()

    def tell(each: messages.Message) -> None:
        if journal is None or not journal.send(datagram(entry_of(each))):
            fault.write_lines(messages.lines_of(each))
        if hooks and each.is_counted:
            hooks.add(each)

    def leave_numbers(whole: str, found: numbers.Numbers) -> None:
        for way in files:
            formats.write_parts(way, numbers.parts_of(whole, found))

    return Outside(tell, functools.partial(write, options, forms or (Way("text"),)), bool(forms or options.html),
                   formats.is_whole(forms) or bool(options.html), leave_numbers if files else None, manager.tell, manager.within,
                   hooks.go_on if hooks else lambda: None)


def write(options: WatchOptions, ways: Tuple[Way, ...], report: Report, seconds: float) -> None:
    """Writes a report as a check with these words writes it."""
    before: Optional[Report] = baseline.read(options.baseline) if options.baseline else None
    if before and options.baseline:
        report = dataclasses.replace(report, baseline=baseline.compared(report, before, options.baseline))
    options = dataclasses.replace(options, baseline_update=None)
    status = report.status if isinstance(report.baseline, Absent) else report.baseline.status
    if not write_all(options, ways, Run(report, status, None, None, seconds, time.time(), options.help_uri), False):
        raise fault.Fault("not every form was written")
