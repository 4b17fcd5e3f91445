"""From parts of which somebody can make any number to few lines: what is alike is one with a number.

The gravest stands first.
"""
from collections import Counter
from dataclasses import dataclass
from typing import Dict, Hashable, Iterable, Iterator, List, Optional, Sequence, Tuple

from zirofen_host.collect.bounded import LINES
from zirofen_host.judge import severity


@dataclass(frozen=True)
class Part:
    """Something that is reported of what one person made."""
    within: int
    # what it has in common with others that are alike
    alike: Hashable
    # a word that it is counted by
    word: str
    # whom it lets in beside whose making it is, which is never left out
    others: Optional[str]
    lines: Sequence[str]


@dataclass(frozen=True)
class Run:
    """Parts that are alike, of which the first is shown."""
    first: Part
    count: int

    def severity(self) -> Tuple[bool, int]:
        """What lets in another goes first, and then by its word."""
        return self.first.others is None, severity.place(self.first.word)[0]

    def lines(self) -> Iterator[str]:
        yield from self.first.lines
        if self.count > 1:
            yield f"    .. and {self.count - 1} more that are alike, in what uid {self.first.within} made: --each lists them"


def folded(parts: Iterable[Part], is_each: bool = False, most: int = LINES.most) -> Iterator[str]:
    """The lines of what some persons made, so many runs of each of them, and how many more there are of what."""
    persons: Dict[int, List[Part]] = {}
    for part in parts:
        persons.setdefault(part.within, []).append(part)
    for _, made in sorted(persons.items()):
        if is_each:
            yield from (line for part in made for line in part.lines)
            continue
        runs = runs_of(made)
        for run in runs[:most]:
            yield from run.lines()
        yield from left_out(runs[most:])


def runs_of(parts: Iterable[Part]) -> List[Run]:
    """What is alike together, the gravest first."""
    first: Dict[Hashable, Part] = {}
    counts: Dict[Hashable, int] = Counter()
    for part in parts:
        first.setdefault(part.alike, part)
        counts[part.alike] += 1
    return sorted((Run(part, counts[alike]) for alike, part in first.items()), key=Run.severity)


def left_out(runs: Iterable[Run]) -> Iterator[str]:
    """How many more there are, by whom they let in and by their words."""
    counts: Dict[Tuple[int, Optional[str]], Counter[str]] = {}
    for run in runs:
        counts.setdefault((run.first.within, run.first.others), Counter())[run.first.word] += run.count
    for (within, others), words in counts.items():
        let_in = f" that let in {others}" if others else ""
        yield f".. and {sum(words.values())} more in what uid {within} made{let_in}: {counted(words)}"


def counted(counts: Dict[str, int]) -> str:
    """Counts by word, the gravest first."""
    return ", ".join(f"{counts[word]} {word}" for word in sorted(counts, key=severity.place))
