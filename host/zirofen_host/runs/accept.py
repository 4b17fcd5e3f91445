"""From a report that was kept to a draft of acceptances."""
import argparse
import datetime

from zirofen_host import fault
from zirofen_host.judge import saved
from zirofen_host.show import drafts

# how long an acceptance holds where no day is named
DAYS = 90


def run(given: argparse.Namespace) -> int:
    if not given.reason.strip():
        raise fault.Fault("an acceptance has a reason, and this is empty")
    try:
        until = datetime.date.fromisoformat(given.until) if given.until else datetime.date.today() + datetime.timedelta(DAYS)
    except ValueError:
        raise fault.Fault(f"{given.until} is no day, as 2027-01-31") from None
    report = saved.read(given.report)
    if given.host and not report.host:
        raise fault.Fault(f"{given.report} names no host")
    fault.write_lines(drafts.drafts(report, drafts.Wanted(given.reason, until, report.host if given.host else None), given.only or ()))
    return 0
