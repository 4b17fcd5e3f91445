"""From a tree and root's changes to the text behind them, and what that is answered beside the tree as it is."""
import contextlib
import dataclasses
import os
import re
import subprocess
from typing import Iterator, NamedTuple, Optional, Sequence, Tuple

from zirofen_host import ending, output
from zirofen_host.arguments import NEW_SYSTEMD
from zirofen_host.ask import accepted
from zirofen_host.ask.program import ESCAPES, UNSETTLED
from zirofen_host.ask.questions import subtrees_by
from zirofen_host.collect import bounded, changes, elsewhere, fitting, snapshot, unit_files
from zirofen_host.collect.accounts import accounts_of
from zirofen_host.collect.elsewhere import Accepted
from zirofen_host.collect.makers import makers_in
from zirofen_host.collect.model import Snapshot
from zirofen_host.fault import FAULT, Fault
from zirofen_host.judge import baseline, check, limits, settings, units
from zirofen_host.judge.host_model import ABSENT
from zirofen_host.judge.model import NOTHING_ASKED, AnswerLimit, Comparison, Report, ReportNote
from zirofen_host.judge.notes import NotPlanned
from zirofen_host.options import PlanOptions
from zirofen_host.profile import text_of

AS_IT_IS = "the tree as it is"
# as a script begins
SCRIPT = b"#!"


def operations(file: str) -> str:
    """The lines of a file with changes."""
    try:
        read = bounded.read_named(file, bounded.CHANGES)
        if read.is_cut:
            raise Fault(f"the changes are longer than {bounded.CHANGES} bytes")
        return read.text("ascii")
    except OSError as error:
        raise Fault(f"can't read the changes: {error.strerror}") from None
    except UnicodeDecodeError:
        raise Fault("the changes aren't ASCII") from None


def as_read(text: str) -> Iterator[str]:
    """Changes as they were read, without comments."""
    return (" ".join(words) for _, words in changes.lines_in(text))


def carried(of: Snapshot, folder: Optional[str]) -> Iterator[str]:
    """What a text has beside its tree; one that carries nothing carries nothing behind changes either."""
    yield from fitting.changing_lines(of)
    yield from elsewhere.narrowing(of.source.options)
    if of.source.file is None or of.source.carried:
        yield from elsewhere.carried(of, accounts_of(folder, of))


def text_of_host(options: PlanOptions) -> str:
    """The text of this host with all that a check elsewhere takes."""
    taken = snapshot.take(options, subtrees_by(options))
    makers = makers_in(taken, accounts_of(options.accounts, taken).charged_user)
    return elsewhere.fitting_text(taken, makers, lambda of: carried(of, options.accounts), not options.no_processes)[1]


def version_of(options: PlanOptions) -> int:
    """The version of systemd that units are for."""
    systemctl = settings.systemctl_of(options)
    if options.systemd is None and systemctl:
        with contextlib.suppress(OSError, subprocess.TimeoutExpired):
            found = re.match(r"systemd ([0-9]{1,4})", ending.run([systemctl, "--version"], settings.SECONDS).stdout)
            return int(found[1]) if found else NEW_SYSTEMD
    return NEW_SYSTEMD if options.systemd is None else options.systemd


class Planned(NamedTuple):
    """The changes that are asked about, what of them isn't known, and what of that may give entries away."""
    lines: str
    named: Sequence[str] = ()
    may_give: Sequence[str] = ()


def is_script(file: str) -> bool:
    """Whether a file of this host's begins as a script does."""
    try:
        return bounded.read_regular(file, len(SCRIPT)).data == SCRIPT
    except (OSError, ValueError):
        return False


def no_slice(_: str) -> Optional[unit_files.UnitFile]:
    return None


def slice_here(name: str) -> unit_files.UnitFile:
    return unit_files.read_slice(name, unit_files.FOLDERS)


def planned_lines(found: Accepted, options: PlanOptions) -> Planned:
    """The changes of a file, or those that starting units comes to."""
    if options.ops:
        return Planned(operations(options.ops))
    taken = elsewhere.read(found, options.mount)
    files = unit_files.read_units(options.unit, () if options.tree else unit_files.FOLDERS)
    host = taken.about.host
    known = {"H": host, "l": host.partition(".")[0]} if host else {}
    of_host = (no_slice, lambda _: False) if options.tree else (slice_here, is_script)
    plan = units.planned(taken, accounts_of(options.accounts, taken).lists, files, version_of(options), known, *of_host)
    return Planned("".join(f"{' '.join(words)}\n" for words in plan.lines), plan.named, plan.may_give)


def accept(text: str, options: PlanOptions) -> Accepted:
    with output.temporary_folder() as folder:
        file = os.path.join(folder, "tree.toml")
        output.make(file, text.encode())
        return accepted.accept(file, options.program)


def before(options: PlanOptions) -> Accepted:
    """The tree as it is: a text, or this host's."""
    if not options.tree:
        return accept(text_of_host(options), options)
    if options.only or options.tree_format:
        raise Fault("--only and --tree-format go with a host, and not with --tree")
    return accepted.accept(options.tree, options.program)


def text_behind(found: Accepted, planned: Planned, options: PlanOptions) -> Tuple[str, Planned]:
    """The text of the tree behind the changes, and what of them it has no place for, listed with what else isn't known."""
    changed, unplaced = changes.carried_out(elsewhere.read(found, options.mount), planned.lines)
    named, may_give = list(planned.named), list(planned.may_give)
    if unplaced.idle:
        named.append(f"{' '.join(unplaced.idle)}: no answer rests on these")
    for path, name in unplaced.others:
        may_give.append(f"{name} of {text_of(path)}: the text has no place for it")
        named.append(may_give[-1])
    return elsewhere.text_with(changed, carried(changed, options.accounts), True), planned._replace(named=named, may_give=may_give)


def report(found: Accepted, options: PlanOptions) -> Report:
    options = dataclasses.replace(options, tree=found.file, only=None, tree_format=None)
    return check.report(accepted.take(options, subtrees_by(options)), options, True)


def compared(found: Accepted, text: str, options: PlanOptions, planned: Planned = Planned("")) -> Report:
    """What is answered behind the changes, with what is new or worse than before; what was there before counts as accepted, but for
    faults. What isn't known and may give entries away narrows it."""
    was, now = report(found, options), report(accept(text, options), options)
    comparison = dataclasses.replace(baseline.compared(now, dataclasses.replace(was, accepted=True), AS_IT_IS), time="")
    notes = tuple(ReportNote.of(NotPlanned("", each)) for each in planned.named if each not in planned.may_give)
    # the text that was asked is gone, and no command can name it
    now = dataclasses.replace(now, unseen=(*notes, *now.unseen), options=ABSENT, baseline=comparison)
    return narrowed(now, comparison, planned.may_give) if planned.may_give else now


def narrowed(now: Report, comparison: Comparison, may_give: Sequence[str]) -> Report:
    """A report of a plan of which not all is known that may give entries away: what escapes and faults stay what they are."""
    text = f"what may give entries away isn't known: {'; '.join(may_give)}"
    differing = {kind: tuple(dataclasses.replace(each, line=each.line + limits.MARK) if each.what == "subtree" else each
                             for each in vars(comparison)[kind]) for kind in ("new", "worse", "changed")}
    comparison = dataclasses.replace(comparison, **differing, status=at_least_unsettled(comparison.status))
    return dataclasses.replace(now, limits=(*limits.narrowing(now), AnswerLimit(limits.PLAN, text)), baseline=comparison,
                               status=at_least_unsettled(now.status))


def at_least_unsettled(status: int) -> int:
    return status if status in (ESCAPES, FAULT) else UNSETTLED


def status_of_printed(planned: Planned) -> int:
    """That of the changes or the text in the place of answers, by which nobody can tell what may give entries away."""
    return UNSETTLED if planned.may_give else 0


def status_of(comparison: Comparison, now: Report) -> int:
    return comparison.status if comparison.status or now.asked else NOTHING_ASKED
