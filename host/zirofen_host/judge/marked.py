"""From what answers take for granted and isn't so to the marks of these answers."""
from dataclasses import replace
from typing import Iterable, Iterator, Optional, Set, Tuple, Union

from zirofen_host.judge.finding_lines import CAPABILITY, MOUNTED_OVER
from zirofen_host.judge.held import is_changed_by
from zirofen_host.judge.host_model import ABSENT, Absent
from zirofen_host.judge.model import HeldFinding, HolderAnswer, PremiseFinding, RunsElsewhere, Subtree
from zirofen_host.judge.running import is_place_of
from zirofen_host.profile import ancestors

RUNS, HELD, COVERED, CAPABLE = "runs elsewhere", "held entry", "mounted over", "capability"


class Broken:
    """What takes answers back, by the cgroups that it is in and above, so that each subtree is looked up once."""

    def __init__(self, premises: Iterable[PremiseFinding]) -> None:
        self.covered: Set[str] = set()
        # what has something of it inside
        self.with_covered: Set[str] = set()
        self.with_capable: Set[str] = set()
        self.capable: Set[Optional[int]] = set()
        for each in premises:
            if each.what == MOUNTED_OVER:
                self.covered.add(each.path)
                self.with_covered.update((each.path, *ancestors(each.path)))
            if each.what == CAPABILITY:
                self.with_capable.update((each.path, *ancestors(each.path)))
                self.capable.add(each.whom[0].id)

    def is_covered(self, path: str) -> bool:
        """Whether something is mounted over a file of a subtree, or of what is above it."""
        return path in self.with_covered or bool(self.covered) and not self.covered.isdisjoint(ancestors(path))


def marked(subtrees: Iterable[Subtree], running: Tuple[RunsElsewhere, ...], held: Tuple[HeldFinding, ...],
           premises: Iterable[PremiseFinding]) -> Tuple[Subtree, ...]:
    """Subtrees with marks: of those with a process that runs elsewhere or passes over owners, or with something mounted over what they
    rest on, and of answers that are changed by what somebody has open or can."""
    broken = Broken(premises)
    return tuple(replace(each, answers=tuple(answer_of(each, answer, held, broken) for answer in each.answers),
                         marks=tuple(marks_of(each, running, broken)) or ABSENT) for each in subtrees)


def marks_of(subtree: Subtree, running: Tuple[RunsElsewhere, ...], broken: Broken) -> Iterator[str]:
    if is_place_of(subtree, running):
        yield RUNS
    if broken.is_covered(subtree.path):
        yield COVERED
    if subtree.path in broken.with_capable:
        yield CAPABLE


def answer_of(subtree: Subtree, answer: HolderAnswer, held: Tuple[HeldFinding, ...], broken: Broken) -> HolderAnswer:
    is_capable = subtree.path not in broken.with_capable and not broken.capable.isdisjoint(answer.uids)
    found = [*([HELD] if is_changed_by(subtree, answer.uids, held) else []), *([CAPABLE] if is_capable else [])]
    return replace(answer, marks=tuple(found)) if found else answer


def marks_text(*marks: Union[Tuple[str, ...], Absent]) -> str:
    """Marks as they stand behind an answer."""
    return "".join(f" [{mark}]" for each in marks if not isinstance(each, Absent) for mark in each)
