"""From a report to against whom what is contained is so: everybody but root, or those who were found."""
from typing import Dict, Iterator, List, Tuple

from zirofen_host.judge import limits
from zirofen_host.judge.finding_lines import some
from zirofen_host.judge.host_model import Absent
from zirofen_host.judge.model import EVERYBODY, Report
from zirofen_host.judge.severity import Severity
from zirofen_host.judge.standing import standings

# so many lines of those who were found
MOST_LINES = 4


def against(report: Report) -> Dict[Tuple[str, ...], List[str]]:
    """The subtrees that are contained for all who hold them, by against whom: a program that can't ask everybody tells of none."""
    found: Dict[Tuple[str, ...], List[str]] = {}
    for each in report.subtrees if report.asked else ():
        if {answer.word for answer in each.answers} == {"contained"} and not isinstance(each.against, Absent):
            found.setdefault(each.against, []).append(each.path)
    return found


def lines_of(report: Report) -> Iterator[str]:
    found = against(report)
    every, mark = sum(map(len, found.values())), limits.mark_of(report)
    paths = found.pop((EVERYBODY,), [])
    spared = next((limits.mark_of(report, each) for each in report.subtrees if each.is_against_everybody), mark)
    if paths:
        yield f"against everybody but root, whoever there is: {len(paths)} of {every} contained{spared}"
    for names, those in [*found.items()][:MOST_LINES]:
        yield f"against {', '.join(names)}, who {'was' if len(names) == 1 else 'were'} found, contained{mark}: {some(those)}"
    left = sum(map(len, [*found.values()][MOST_LINES:]))
    if left:
        yield f"against others who were found, contained{mark}: {left}"


def sentence_of(report: Report) -> str:
    """Of the delegations that are shown to be contained, in a sentence, how many are so against everybody; or nothing."""
    standing = standings(report)
    shown = [each for each in report.subtrees if standing[each.path] in (Severity.CONTAINED, Severity.LIMITED)
             and not isinstance(each.against, Absent)]
    everybody = sum(each.is_against_everybody for each in shown)
    if not shown or not report.asked:
        return ""
    if everybody == len(shown):
        return "What is contained is so against everybody but root, whoever there is."
    return (f"Of what is contained {everybody} of {len(shown)} {'is' if everybody == 1 else 'are'} so against everybody but root, whoever "
            "there is, and the others against those who were found.")
