"""From a report to the lines that are printed of it."""
import itertools
from collections import Counter
from typing import Callable, Dict, Iterable, Iterator, List, Mapping, Optional, Sequence, Tuple, TypeVar, Union

from zirofen_host.collect.notes import LimitsOfVersion1
from zirofen_host.installed import MANUAL
from zirofen_host.judge import limits, long_lists
from zirofen_host.judge.baseline import KINDS
from zirofen_host.judge.finding_lines import (INSIDE_MEANS, NOTHING_ASKED, PREMISES_MEAN, SHOWN, above_line, acceptance_line, differs_line,
                                              entry_line, fault_line, held_line, opened_line, premise_line,
                                              processes_text, runs_line, whom_text, why_command)
from zirofen_host.judge.host_model import ABSENT, Absent, NamedScope
from zirofen_host.judge.lists import pids_in
from zirofen_host.judge.marked import marks_text
from zirofen_host.judge.model import (AboveFinding, Comparison, Difference, DiffersFinding, EntryFinding, HeldFinding, HolderAnswer,
                                      OpenedFinding, PremiseFinding, Report, ReportNote, RootInside, RunsElsewhere, ShownList, Subtree)
from zirofen_host.judge.notes import JOINED
from zirofen_host.judge.severity import Severity
from zirofen_host.judge.standing import cause_of, is_empty, standings, status_text
from zirofen_host.profile import ancestors
from zirofen_host.show import container_lines, everybody
from zirofen_host.show.folded import Part, folded
from zirofen_host.show.joined import fact_of, joined, rest_of
from zirofen_host.show.words import NOT_ASKED, STANDINGS, listed, made_by, standing_text

# how far the table's columns are filled up; a longer word stands out
WIDEST = (20, 24, 48)
# who holds what root alone does, and its answer
NOBODY, ROOT_ALONE = "-", "held by root alone"
# lines of each kind of what no answer looks at, for what one person made
LINES_OF_KIND = 4
# what a comparison's status may be by
COUNTED = {"new": "new", "worse": "worse", "stand": "that have been open since then"}
# what brings changes and a setting
Mended = Union[EntryFinding, OpenedFinding, DiffersFinding, RootInside, RunsElsewhere, HeldFinding, PremiseFinding, Difference]
One = TypeVar("One")
# the table's columns, and what stands below them
Row = Tuple[str, str, str, str, Sequence[str]]


def gids_text(gids: Iterable[int]) -> str:
    return ",".join(map(str, gids)) or "-"


def who_text(each: HolderAnswer) -> str:
    """Who holds a subtree, by name."""
    return each.who if isinstance(each.names, Absent) else ",".join(each.names)


def scope_text(each: NamedScope) -> str:
    """A container or a pod by the word that names it, and whose it is where root didn't start it."""
    word = f"{each.engine}:{each.name or each.id}" if isinstance(each.word, Absent) else each.word
    return word + (f" of {each.of}" if each.of else "")


def beside(scopes: Mapping[str, NamedScope], path: str) -> str:
    """Which container or pod a cgroup is of, the nearest, behind its path."""
    scope = next((scopes[place] for place in (path, *ancestors(path)) if place in scopes), None) if scopes else None
    return f" [{scope_text(scope)}]" if scope else ""


def shown_list(lists: Sequence[ShownList], subtree: str, lines: Sequence[str]) -> Tuple[str, ...]:
    """The operations of an answer as they are shown: those of a graver list, where the report has one, with why."""
    found = next((each for each in lists if (each.subtree, each.lines) == (subtree, tuple(lines)) and not pids_in(each.shown)), None)
    return (*long_lists.shown(found.shown), f"# {found.told}") if found else tuple(long_lists.shown(lines))


def rows_of(subtree: Subtree, mark: str = "", is_named: bool = False, lists: Sequence[ShownList] = ()) -> Iterator[Row]:
    """The table's rows of a subtree: one for each answer of whoever holds it, each with a mark where limits aren't looked at."""
    for each in subtree.answers:
        first = each.lines[0]
        answer, below = (f"above: {first}", ()) if each.is_above else (first, shown_list(lists, subtree.path, each.lines))
        marks = marks_text(subtree.marks, each.marks) + mark
        yield who_text(each) if is_named else each.who, gids_text(each.gids), answer + marks, subtree.path, below
    if not subtree.answers:
        yield NOBODY, NOBODY, ROOT_ALONE + marks_text(subtree.marks) + mark, subtree.path, ()


def words_of(subtree: Subtree) -> List[str]:
    """A word for each of the table's rows of a subtree, by which those that are alike are counted."""
    return ["above" if each.is_above else each.word for each in subtree.answers] or ["held"]


def table(report: Report, is_each: bool = False) -> Iterator[str]:
    """Columns of who holds a subtree, their groups, the answer and the path, which may be long; what it shows stands below. What
    somebody made below their own delegation stands last."""
    mark = limits.mark_of(report)
    scopes = report.scopes_by_path
    marks = {each.path: limits.mark_of(report, each) if each.answers else mark for each in report.subtrees}
    rows = [(subtree.within, word, (who, gids, answer, path + beside(scopes, path), below)) for subtree in report.subtrees
            for word, (who, gids, answer, path, below) in zip(words_of(subtree), rows_of(subtree, marks[subtree.path], True, report.lists))]
    roots = [row for within, word, row in rows if within is ABSENT and row[0] == NOBODY and row[2] == ROOT_ALONE + mark]
    if not is_each and len(roots) > 1:
        paths = [each.path for each in report.subtrees if each.within is ABSENT and not each.answers and each.marks is ABSENT]
        rows = [each for each in rows if each[2] not in roots]
        rows.append((ABSENT, "held", (NOBODY, NOBODY, ROOT_ALONE + mark, container_lines.roots_alone(report, paths), ())))
    head: Row = ("UID", "GIDS", "ANSWER", "PATH", ())
    shown = [head, *(row for _, _, row in rows)]
    widths = [min(most, max(len(row[at]) for row in shown)) for at, most in enumerate(WIDEST)]
    yield from (line for row in (head, *(row for within, _, row in rows if within is ABSENT)) for line in row_lines(row, widths))
    made = [Part(within, (within, row[:2], word), word, None, list(row_lines(row, widths)))
            for within, word, row in rows if not isinstance(within, Absent)]
    yield from folded(made, is_each)


def row_lines(row: Row, widths: Sequence[int]) -> Iterator[str]:
    *columns, path, below = row
    yield "  ".join([word.ljust(width) for word, width in zip(columns, widths)] + [path])
    yield from (f"    {line}" for line in below)


def together(commands: Iterable[str]) -> List[str]:
    """Commands of one word and one mode or owner in one line."""
    found: Dict[Tuple[str, ...], List[str]] = {}
    for command in dict.fromkeys(commands):
        words = command.split(" ", 2)
        key = tuple(words[:2]) if words[0] in ("chown", "chmod") else (command,)
        found.setdefault(key, []).extend(words[2:] if len(key) == 2 else ())
    return [" ".join([*key, *places]) for key, places in found.items()]


def causes_of(found: Iterable[object]) -> Iterable[str]:
    """What of root's files gives findings away, each once."""
    causes = [each.causes for each in found if isinstance(each, (EntryFinding, OpenedFinding, DiffersFinding))]
    return dict.fromkeys(cause for of in causes if not isinstance(of, Absent) for cause in of)


def what_to_change(found: Sequence[Mended]) -> Iterator[str]:
    """What mends findings at one place, what brings their values back, and what of root's files gave them away."""
    yield from (f"    change: {command}" for command in together(command for each in found for command in each.changes))
    yield from (f"    then: {each.effect}" for each in found if isinstance(each, PremiseFinding) and each.effect)
    settings = dict.fromkeys(filter(None, (each.setting for each in found)))
    if settings:
        yield f"    setting, at the next start: {', '.join(settings)}"
    yield from (f"    cause: {cause}" for cause in causes_of(found))


def entry_lines(entries: Sequence[EntryFinding], given: Sequence[str]) -> Iterator[str]:
    """The line of entries at one place, with an example and what to change."""
    yield entry_line(entries)
    example = entries[0].example
    if example:
        yield f"    by {example.who} of {example.subtree}: {example.lines[0]}"
        yield from (f"    {line}" for line in long_lists.shown(example.lines))
    why = why_command(entries[0], given)
    if why:
        yield f"    why: {why}"
    yield from what_to_change(entries)


def alike(found: Iterable[One], in_common: Callable[[One], object]) -> List[List[One]]:
    """Findings in lists of those that follow one another and have the same in common."""
    return [list(each) for _, each in itertools.groupby(found, key=in_common)]


def entry_in_common(each: EntryFinding) -> object:
    return each.path, each.answer, each.whom, each.subtrees, each.example


def opened_in_common(each: OpenedFinding) -> object:
    return each.path, each.whom


def opened_lines(opened: Sequence[OpenedFinding]) -> Iterator[str]:
    yield from map(opened_line, opened)
    yield from what_to_change(opened)


def finding_lines(report: Report, is_each: bool = False) -> Iterator[str]:
    """Everything that counts, and then what doesn't; at last what somebody made below their own delegation."""
    entries = [(found[0].within, found) for found in alike((each for each in report.entries if each.accepted is ABSENT), entry_in_common)]
    opened = [(each[0].within, each) for each in alike((each for each in report.opened if each.accepted is ABSENT), opened_in_common)]
    yield from (line for within, found in entries if within is ABSENT for line in entry_lines(found, report.given))
    yield from (line for within, each in opened if within is ABSENT for line in opened_lines(each))
    for fault in report.faults:
        yield fault_line(fault, fault.subtrees)
    if report.entries and not report.has_advice:
        yield "what to change of an entry isn't known: this program has no advise"
    for differs in report.differs:
        yield differs_line(differs)
        yield from what_to_change([differs])
    made = [Part(within, (found[0].answer, owners, found[0].whom), found[0].answer, others_in(found),
                 list(entry_lines(found, report.given)))
            for within, found in entries if not isinstance(within, Absent)
            for owners in [tuple((each.entry, each.owner) for each in found)]]
    made += [Part(within, ("opened", owners, each[0].whom), "opened", others_in(each), list(opened_lines(each)))
             for within, each in opened if not isinstance(within, Absent) for owners in [tuple((one.file, one.owner) for one in each)]]
    yield from folded(made, is_each)


def others_in(found: Sequence[Union[EntryFinding, OpenedFinding]]) -> Optional[str]:
    """Whom entries let in, but where they are nobody's matter but theirs who made them."""
    return None if all(each.is_own is True for each in found) else whom_text(found[0].whom)


def inside_lines(report: Report, is_each: bool = False) -> Iterator[str]:
    """The containers of root's, those that are alike together, with what to set where they aren't held."""
    labels = container_lines.Labels(report)
    for of in container_lines.alike_containers(report, is_each):
        yield container_lines.line_of(labels, of, beside(labels.scopes, of[0].path))
        yield from what_to_change(of)


def premise_lines(report: Report, is_each: bool = False) -> Iterator[str]:
    """What an answer takes not to be, each with the processes that it is of; what one person's processes do, so many lines of it."""
    found: List[Tuple[Union[RunsElsewhere, HeldFinding, PremiseFinding], str, str]] = [
        *((each, runs_line(each), "runs-elsewhere") for each in report.running),
        *((each, held_line(each), "held-entry") for each in report.held),
        *((each, premise_line(each), each.what) for each in report.broken)]
    parts = [(each.within, reason, [f"{line} ({processes_text(each.processes)})" if each.processes else line, *what_to_change([each])])
             for each, line, reason in found if each.accepted is ABSENT]
    yield from (line for within, _, lines in parts if within is ABSENT for line in lines)
    yield from folded((Part(within, (number,), reason, None, lines) for number, (within, reason, lines) in enumerate(parts)
                       if not isinstance(within, Absent)), is_each)


def note_lines(found: Iterable[ReportNote], is_each: bool) -> Iterator[str]:
    """What no answer looks at; of what somebody made, so many lines of each kind."""
    notes = list(found)
    listed = [each for each in notes if is_each or each.kind not in JOINED]
    yield from few_of_each_kind([each for each in listed if each.within is ABSENT], is_each)
    yield from joined_lines(each for each in notes if not is_each and each.kind in JOINED)
    for kind in sorted({each.kind for each in listed}):
        yield from folded((Part(each.within, (number,), each.kind, None, [each.line]) for number, each in enumerate(listed)
                           if each.kind == kind and not isinstance(each.within, Absent)), is_each, LINES_OF_KIND)


def few_of_each_kind(found: Sequence[ReportNote], is_each: bool) -> Iterator[str]:
    """So many lines of each kind, and how many more there are."""
    counts: Counter[str] = Counter()
    for each in found:
        counts[each.kind] += 1
        if is_each or counts[each.kind] <= LINES_OF_KIND:
            yield each.line
    for kind, count in counts.items():
        if not is_each and count > LINES_OF_KIND:
            yield f"{kind}: .. and {count - LINES_OF_KIND} more: --each lists them"


def joined_lines(found: Iterable[ReportNote]) -> Iterator[str]:
    """What is one fact of several, in one line."""
    for of in joined(found):
        if len(of) < 2:
            yield from (each.line for each in of)
            continue
        parts = [" ".join(filter(None, (each.place, rest_of(each)))) for each in of[:SHOWN]]
        more = [f"{len(of) - SHOWN} more"] if len(of) > SHOWN else []
        yield f"{of[0].kind}: {fact_of(of[0])}: {'; '.join(parts + more)}"


def above_lines(found: Iterable[AboveFinding], is_each: bool) -> Iterator[str]:
    listed = list(found)
    yield from (above_line(each) for each in listed if each.within is ABSENT)
    yield from folded((Part(each.within, each.handed, "above", None, [above_line(each)]) for each in listed
                       if not isinstance(each.within, Absent)), is_each)


def sum_line(report: Report) -> str:
    """All of it in one line: the status, and what it is by, and how all that was asked stands."""
    return f"{status_text(report)}; {asked_line(report)}"


def asked_line(report: Report) -> str:
    """How many subtrees were asked of, and how many of them stand how; what a limited answer holds to be contained has its mark."""
    counts = Counter(each.value for each in standings(report).values())
    roots = counts.pop(NOT_ASKED, 0)
    counted = ", ".join(f"{counts[word]} {standing_text(word, report)}" for word in STANDINGS if counts[word])
    asked = (f"{sum(counts.values())} asked: {counted or 'nothing'}", f"{roots} {ROOT_ALONE}" if roots else "")
    return "; ".join(filter(None, (*asked, inside_sum(report), limits.kinds_of(report))))


def inside_sum(report: Report) -> str:
    """How many containers of root's there are, and how they stand."""
    counts = Counter("accepted" if each.accepted is not ABSENT else "held" if each.held else "not held" for each in report.containers)
    counted = ", ".join(f"{counts[word]} {word}" for word in ("not held", "accepted", "held") if counts[word])
    return f"{sum(counts.values())} with root inside: {counted}" if counts else ""


def lines_of(report: Report, is_each: bool = False) -> Iterator[str]:
    """The report as it is printed."""
    if report.subtrees:
        yield from table(report, is_each)
        yield from everybody.lines_of(report)
    if is_empty(report):
        yield NOTHING_ASKED
    found = list(finding_lines(report, is_each))
    if found:
        yield ""
        yield "What lets somebody in, each once; opened and differs were seen by this helper and aren't proved:"
        yield from found
    insides = list(inside_lines(report, is_each))
    if insides:
        yield ""
        yield f"Containers whose processes are root's; {INSIDE_MEANS}:"
        yield from insides
    premises = list(premise_lines(report, is_each))
    if premises:
        yield ""
        yield f"What answers take to be otherwise; {PREMISES_MEAN}:"
        yield from premises
    if not isinstance(report.acceptances, Absent) and report.acceptances:
        yield ""
        yield "What was accepted, each for a reason and until a day; what isn't so any more is counted:"
        yield from map(acceptance_line, report.acceptances)
    if report.above:
        yield ""
        yield "What lies below what was handed to somebody is open to them, and isn't counted:"
        yield from above_lines(report.above, is_each)
    yield ""
    yield f"What none of these answers looks at ({MANUAL}):"
    yield from note_lines(report.unseen, is_each)
    # what is version 1's is said in the sum
    snapshot = (each for each in report.snapshot if each.kind != LimitsOfVersion1.kind)
    yield from (f"snapshot: {line}" for line in note_lines(snapshot, is_each))
    if not report.unseen and not report.snapshot:
        yield "this host has nothing of these"
    yield from made_lines(report)
    yield sum_line(report)


def made_lines(report: Report) -> Iterator[str]:
    """What narrows a report, each in its line, and which program and which helper it is of, before its last line."""
    yield from limits.lines_of(report)
    names = listed(made_by(report))
    if names:
        yield f"made with {names}"


def by_kind(compared: Comparison) -> Iterator[Tuple[str, Tuple[Difference, ...]]]:
    """What differs from a baseline or stands since then, by its kind."""
    return zip(KINDS, (compared.new, compared.worse, compared.stand, compared.changed, compared.gone))


def standing_line(compared: Comparison) -> str:
    """What stands since a baseline, and was accepted by nobody."""
    lines = "; ".join(each.line for each in compared.stand[:SHOWN])
    more = f"; and {len(compared.stand) - SHOWN} more" if len(compared.stand) > SHOWN else ""
    verb = "finding is open" if len(compared.stand) == 1 else "findings are open"
    return f"{len(compared.stand)} {verb} since {compared.time or compared.file}: {lines}{more}"


def comparison_lines(report: Report, compared: Comparison, is_each: bool = False) -> Iterator[str]:
    """The lines of what differs from a baseline; what somebody made below their own delegation stands last."""
    differing = [(kind, found) for kind, found in by_kind(compared) if kind != "stand"]
    for kind, found in differing:
        yield from (line for each in found if each.within is ABSENT for line in difference_lines(kind, each))
    for kind, found in differing:
        yield from folded((Part(each.within, (each.what, each.status, each.changes == ()), kind, None, list(difference_lines(kind, each)))
                           for each in found if not isinstance(each.within, Absent)), is_each)
    if compared.stand:
        yield standing_line(compared)
        yield from what_to_change([each for each in compared.stand if each.within is ABSENT])
        yield from folded((Part(each.within, (each.what, each.status), each.what, None, list(what_to_change([each])))
                           for each in compared.stand if not isinstance(each.within, Absent) and each.changes), is_each)
    if not isinstance(report.acceptances, Absent):
        yield from map(acceptance_line, report.acceptances)
    if any(each.what == "root-inside" for _, found in by_kind(compared) for each in found):
        yield INSIDE_MEANS
    if not any(found for _, found in by_kind(compared)):
        yield f"nothing is new, worse, changed or gone since {compared.time or compared.file}"
    yield from made_lines(report)
    yield compared_line(report, compared)


def compared_line(report: Report, compared: Comparison) -> str:
    """The status of a comparison, and what it is by: what is new or worse, and what stands since then and nobody accepted."""
    counts = {word: sum(each.status == compared.status for each in found) for word, found in by_kind(compared)}
    counted = [f"{counts[kind]} {word}" for kind, word in COUNTED.items() if counts[kind]] if compared.status else []
    other = Severity.NOTHING_ASKED if compared.status == Severity.NOTHING_ASKED.status else Severity.STALE
    by = listed(counted) or (cause_of(report, other) if compared.status else "")
    return "; ".join(filter(None, (f"{compared.status} by {by}" if by else str(compared.status), limits.kinds_of(report))))


def difference_lines(kind: str, each: Difference) -> Iterator[str]:
    yield f"{kind}: {each.line}"
    if each.before and each.before != each.line:
        yield f"    before: {each.before}"
    if kind in ("new", "worse"):
        yield from what_to_change([each])
