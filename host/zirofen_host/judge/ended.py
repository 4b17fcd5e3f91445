"""From a run that came to the end of its time to a report that says so, and with whom the time went."""
from zirofen_host import version
from zirofen_host.collect import turns
from zirofen_host.collect.model import About
from zirofen_host.collect.notes import RUN, Failed
from zirofen_host.collect.snapshot import about_this_host
from zirofen_host.fault import FAULT
from zirofen_host.judge.limits import TIME
from zirofen_host.judge.model import VERSION, AnswerLimit, Report, ReportNote
from zirofen_host.options import Options


def report(options: Options, seconds: int) -> Report:
    """A report with no answer, of which each form says that there is none."""
    about = About() if options.tree else about_this_host()
    why = f"it took longer than {seconds} seconds: {turns.shares_text()}"
    return Report(
        VERSION, None, about.host or "", about.kernel or "", about.time or "", options.mount, False, False,
        subtrees=(), entries=(), opened=(), faults=(), differs=(), above=(), unseen=(ReportNote.of(Failed(RUN, why)),), snapshot=(),
        status=FAULT, version_1=(), lists=(), users=(), groups=(), cgroups=(), processes=(),
        limits=(AnswerLimit(TIME, f"it isn't whole: nothing is known of any subtree within {seconds} seconds"),),
        helper=version.helper_line())
