"""From reports that were kept to one page."""
import argparse
from typing import List

from zirofen_host import fault
from zirofen_host.installed import NAME
from zirofen_host.judge import saved
from zirofen_host.judge.model import Report
from zirofen_host.options import PageOptions
from zirofen_host.show import page


def run(given: argparse.Namespace) -> int:
    options = PageOptions(tuple(given.reports), given.out)
    if len(options.reports) > page.MOST_REPORTS:
        raise fault.Fault(f"a page has {page.MOST_REPORTS} reports at most: {NAME} fleet writes an index, and a page for each")
    reports: List[Report] = []
    unread: List[page.Unread] = []
    for file in options.reports:
        try:
            reports.append(saved.read(file))
        except fault.Fault as why:
            unread.append(page.Unread(file, str(why)))
            for line in (f"{NAME} page: {why}", *why.help_lines):
                fault.warn(line)
    if not reports:
        return fault.FAULT
    page.write(options.out, reports, unread)
    return fault.FAULT if unread else 0
