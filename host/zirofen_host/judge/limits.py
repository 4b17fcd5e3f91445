"""From the options of a run, and what was left out, to one list of what narrows its answers."""
from collections import Counter
from typing import Iterable, Iterator, List, Mapping, Optional, Tuple

from zirofen_host.ask.in_time import NotInTime
from zirofen_host.collect.notes import BUDGETS, LACKING, WALK, Note
from zirofen_host.judge.checked import Checked
from zirofen_host.judge.finding_lines import version_1_line
from zirofen_host.judge.host_model import Absent
from zirofen_host.judge.model import AnswerLimit, Report, Subtree
from zirofen_host.options import Options
from zirofen_host.profile import NEWEST, is_root, shown, text_of

# behind an answer: that not all was asked, and that limits are those of version 1
MARK, VERSION_1_MARK = " [limited]", " [v1]"
HEAD = "limits of this answer"
ONLY, NO_PROCESSES, TREE_FORMAT, PLAIN_FOLDER = "only", "no-processes", "tree-format", "plain-folder"
TIME, ACCOUNTS, PREMISES, LATER, VERSION_1 = "time", "accounts", "premises", "later", "v1"
KINDS = (ONLY, NO_PROCESSES, TREE_FORMAT, TIME, PLAIN_FOLDER, ACCOUNTS, PREMISES, LATER, WALK, BUDGETS, LACKING, VERSION_1)
# what isn't known of people, which answers against everybody don't rest on
OF_PEOPLE = (ACCOUNTS,)
# of a plan: what it can't tell and what may give entries away
PLAN = "plan"
# what notes say that narrow an answer, before how many there are of each kind
OF_NOTES: Mapping[str, str] = {WALK: "not every cgroup was looked at", BUDGETS: "not all that may be many was looked at",
                               LACKING: "this helper lacks capabilities by which it would have seen more"}


def limits_of(checked: Checked, notes: Iterable[Note]) -> Iterator[AnswerLimit]:
    """Each thing that was left out of the question: by an option, for want of time, by a text, and by what the host is."""
    yield from of_options(checked.options)
    late = sum(isinstance(why, NotInTime) for why in checked.answers.refused.values())
    if late:
        yield AnswerLimit(TIME, f"it isn't whole: there was no time to ask of {late} subtree{'' if late == 1 else 's'}")
    yield from of_text(checked)
    found = list(notes)
    for kind, sentence in OF_NOTES.items():
        counts = Counter(each.kind for each in found if each.narrows == kind)
        if counts:
            yield AnswerLimit(kind, f"{sentence} ({', '.join(f'{word} {count}' for word, count in sorted(counts.items()))})")
    if checked.snapshot.version_1:
        yield of_version_1(checked.snapshot.version_1)


def of_options(options: Options) -> Iterator[AnswerLimit]:
    if options.only is not None and not is_root(text_of(options.only)):
        yield AnswerLimit(ONLY, f"nothing but {shown(options.only)} was asked about, what is inside and what is above")
    if options.no_processes:
        yield AnswerLimit(NO_PROCESSES, "the text has no process: what is unsettled may be an escape, and an "
                          "escape may be refused")
    if options.tree is None and options.text_format.number != NEWEST:
        yield AnswerLimit(TREE_FORMAT, f"a text of format {options.text_format.number} has three controllers alone, and no "
                          "limit file of format 4")
    if options.tree is None and options.plain_folder:
        yield AnswerLimit(PLAIN_FOLDER, "the mount was taken as a folder of plain files: nothing was asked of root, mounts and namespaces")


def of_text(checked: Checked) -> Iterator[AnswerLimit]:
    """What a text doesn't tell of its host, by the options that it was written with too."""
    source = checked.snapshot.source
    if source.file is None:
        return
    asked = {each.kind for each in of_options(checked.options)}
    yield from (each for each in of_options(source.options) if each.kind not in asked)
    is_of_people = any(path not in checked.against_everybody for path in checked.questions.subtrees)
    if source.carried is None and checked.options.accounts is None and is_of_people:
        yield AnswerLimit(ACCOUNTS, "it was asked by number, without groups and subordinate ids")
    if source.carried is None or not source.carried.has_descriptors:
        yield AnswerLimit(PREMISES, "threads' places and held entries aren't known")
    if source.carried is not None and source.carried.unknown:
        yield AnswerLimit(LATER, f"the text is of a later version of this helper, and {source.carried.unknown} of its records aren't known")


def of_version_1(controllers: Tuple[str, ...]) -> AnswerLimit:
    return AnswerLimit(VERSION_1, version_1_line(controllers))


def narrowing(report: Report) -> Tuple[AnswerLimit, ...]:
    """What narrows a report. One of 0.2.0 doesn't tell it, but for limits of version 1."""
    if not isinstance(report.limits, Absent):
        return report.limits
    return (of_version_1(report.version_1),) if report.version_1 else ()


def narrowing_of(report: Report, subtree: Subtree) -> Tuple[AnswerLimit, ...]:
    """What narrows the answers of a subtree: those against everybody not what isn't known of people."""
    return tuple(each for each in narrowing(report) if not subtree.is_against_everybody or each.kind not in OF_PEOPLE)


def mark_of(report: Report, subtree: Optional[Subtree] = None) -> str:
    """What stands behind an answer of a report, or behind those of one subtree."""
    kinds = {each.kind for each in (narrowing(report) if subtree is None else narrowing_of(report, subtree))}
    return (VERSION_1_MARK if VERSION_1 in kinds else "") + (MARK if kinds - {VERSION_1} else "")


def lines_of(report: Report) -> Iterator[str]:
    """Each by itself, in a line of its own."""
    yield from (f"limit: {each.kind}: {each.text}" for each in narrowing(report))


def kinds_of(report: Report) -> str:
    """Which there are, in the last line of a report, or nothing."""
    kinds = Counter(each.kind for each in narrowing(report))
    found = [f"{count} {kind}" if count > 1 else kind for kind, count in kinds.items()]
    return f"{HEAD}: {', '.join(found)}" if found else ""


def line_of(report: Report) -> str:
    """All of it in one line, or nothing."""
    found: List[str] = [each.text for each in narrowing(report)]
    return f"{HEAD}: {'; '.join(found)}" if found else ""
