"""From a snapshot and its questions to tree texts: one where all of it goes in, else as many as are needed.

A `contained` rests on the subtree's ancestors and on what is inside, so that these are all in one text; of processes, on which no
`contained` rests, those inside go in first, and then as many of the others as there is room for, with their places.

Each run of the program reads a whole text, and what isn't contained takes it as long as the text is large. So what somebody made, who may
make much of that, is asked of in small texts, however large the one of the host is.
"""
import time
from bisect import bisect_left
from dataclasses import dataclass, replace
from functools import partial
from itertools import accumulate
from typing import AbstractSet, Callable, Container, Dict, FrozenSet, Iterable, List, Mapping, Sequence, Set, Tuple

from zirofen_host import output, progress
from zirofen_host.ask.in_time import HolderOf, ask_in_time
from zirofen_host.ask.model import Abilities, Advice, Pair, Question
from zirofen_host.ask.program import UNSETTLED, Answered, Program, Refused, TreeRefused
from zirofen_host.ask.reasons import TextRefused, TooLargeForText, TooLong, TooManyCgroups
from zirofen_host.collect import snapshot as snapshots
from zirofen_host.collect.attempts import Attempts
from zirofen_host.collect.model import Placed, Snapshot, Tree, User
from zirofen_host.collect.notes import Failed
from zirofen_host.collect.reasons import Reason
from zirofen_host.collect.tree import head_text, in_order, process_text, row_text
from zirofen_host.options import Options
from zirofen_host.profile import TEXT_FORMATS, CgroupPath, TextFormat, ancestors, parent_of

# bytes for the lines at the head of a text
HEAD = 4096
# of this format each text is a small one
SMALL = 2
# bytes of memory that a run of the program takes at most: for each byte of a text that is written here, and for each of its cgroups
# and processes besides
OF_BYTE, OF_ROW = 48, 8192
# so long the program is asked in large texts, before it is in small ones
LARGE_SECONDS = 150


@dataclass(frozen=True)
class Layout:
    """The rows of a tree in the order of their paths, its processes in the order of their rows, and how long all of these are."""
    tree: Tree
    order: Sequence[CgroupPath]
    numbers: Mapping[CgroupPath, int]
    row_texts: Sequence[str]
    # behind which number the rows inside of each one end
    ends: Sequence[int]
    processes: Sequence[Placed]
    # the number of each process's row
    places: Sequence[int]
    # before each row, how long the rows are, and how many the processes and how long these
    sizes: Sequence[int]
    counts: Sequence[int]
    process_sizes: Sequence[int]

    def span(self, path: CgroupPath) -> Tuple[int, int]:
        """From which number of a row to which one a subtree goes."""
        start = self.numbers[path]
        return start, self.ends[start]

    def size(self, path: CgroupPath) -> int:
        number = self.numbers[path]
        return self.sizes[number + 1] - self.sizes[number]


def layout_of(tree: Tree) -> Layout:
    order = in_order(tree.rows)
    numbers = {path: number for number, path in enumerate(order)}
    row_texts = [row_text(tree.rows[path], tree.format) for path in order]
    numbered = sorted((numbers[process[2]], process) for process in tree.processes)
    counts, sizes = [0] * len(order), [0] * len(order)
    for number, process in numbered:
        counts[number] += 1
        sizes[number] += len(process_text(process))
    return Layout(tree, order, numbers, row_texts, ends_of(order, numbers), [process for _, process in numbered],
                  [number for number, _ in numbered], [0, *accumulate(map(len, row_texts))], [0, *accumulate(counts)],
                  [0, *accumulate(sizes)])


def ends_of(order: Sequence[CgroupPath], numbers: Mapping[CgroupPath, int]) -> List[int]:
    """Behind which number the rows inside of each one end."""
    inside = [1] * len(order)
    for number in range(len(order) - 1, 0, -1):
        parent = parent_of(order[number])
        if parent is not None:
            inside[numbers[parent]] += inside[number]
    return [number + count for number, count in enumerate(inside)]


class Text:
    """A text that is being filled with what its subtrees need."""

    def __init__(self, layout: Layout, with_processes: bool, most: TextFormat) -> None:
        self.layout = layout
        # of this format it is no more than it takes, whichever it is written in
        self.most = most
        self.with_processes = with_processes
        self.rows: Set[CgroupPath] = set()
        self.processes: List[Placed] = []
        self.subtrees: List[CgroupPath] = []
        self.bytes = self.end = 0

    @property
    def room(self) -> int:
        """How many bytes of rows and processes it takes."""
        return self.most.longest - HEAD

    @property
    def is_large(self) -> bool:
        small = TEXT_FORMATS[SMALL]
        return (len(self.rows) > small.most_rows or len(self.processes) > small.most_processes or self.bytes > small.longest - HEAD)

    @property
    def memory(self) -> int:
        """How many bytes of memory a run of the program takes for it, at most."""
        return OF_BYTE * self.bytes + OF_ROW * (len(self.rows) + len(self.processes))

    def needs(self, subtree: CgroupPath) -> Tuple[List[CgroupPath], Tuple[int, int]]:
        """The ancestors and the numbers of rows that a subtree needs and that don't stand here yet."""
        start, end = self.layout.span(subtree)
        if start < self.end:
            return [], (start, start)
        return [path for path in ancestors(subtree) if path not in self.rows], (start, end)

    def take(self, subtree: CgroupPath) -> bool:
        """Takes a subtree where it fits: whether it did. Subtrees come in the order of their paths."""
        layout = self.layout
        above, (start, end) = self.needs(subtree)
        size = sum(layout.size(path) for path in above) + layout.sizes[end] - layout.sizes[start]
        inside = 0
        if self.with_processes:
            inside = layout.counts[end] - layout.counts[start]
            size += layout.process_sizes[end] - layout.process_sizes[start]
        if (len(self.rows) + len(above) + end - start > self.most.most_rows or self.bytes + size > self.room
                or len(self.processes) + inside > self.most.most_processes):
            return False
        self.rows.update(above, layout.order[start:end])
        if inside:
            self.processes += layout.processes[bisect_left(layout.places, start):bisect_left(layout.places, end)]
        self.bytes += size
        self.subtrees.append(subtree)
        self.end = max(self.end, end)
        return True

    def fill(self, first: AbstractSet[int]) -> None:
        """Takes other processes as far as there is room, those of some uids first."""
        if not self.with_processes:
            return
        taken = {pid for pid, _, _ in self.processes}
        others = sorted(self.layout.tree.processes, key=lambda process: (process[1] not in first, process[1] == 0))
        for process in others:
            if len(self.processes) == self.most.most_processes:
                return
            if process[0] not in taken:
                self.add_process(process)

    def add_process(self, process: Placed) -> None:
        place = process[2]
        above = [path for path in (place, *ancestors(place)) if path not in self.rows]
        size = len(process_text(process)) + sum(self.layout.size(path) for path in above)
        if len(self.rows) + len(above) <= self.most.most_rows and self.bytes + size <= self.room:
            self.rows.update(above)
            self.processes.append(process)
            self.bytes += size

    def is_whole(self) -> bool:
        return len(self.rows) == len(self.layout.order) and len(self.processes) == len(self.layout.processes)

    def written(self, head: Sequence[str]) -> str:
        layout = self.layout
        parts = [head_text(layout.tree, head)]
        parts += [layout.row_texts[number] for number, path in enumerate(layout.order) if path in self.rows]
        return "".join(parts + list(map(process_text, sorted(self.processes))))


@dataclass(frozen=True)
class Texts:
    """The texts for the subtrees of a tree, and why some subtrees go into none."""
    texts: Sequence[Text]
    refused: Mapping[CgroupPath, Reason]

    def without_processes(self) -> Tuple[CgroupPath, ...]:
        """The subtrees that go without any."""
        return tuple(path for text in self.texts if not text.with_processes for path in text.subtrees)

    def fill(self, uids_of: Callable[[CgroupPath], AbstractSet[int]]) -> None:
        """Fills the texts with further processes, first those of the users that `uids_of` gives for a subtree."""
        for text in self.texts:
            text.fill({uid for path in text.subtrees for uid in uids_of(path)})


def texts_of(tree: Tree, subtrees: Iterable[CgroupPath], with_processes: bool = True, made: Container[CgroupPath] = (),
             is_large: bool = True) -> Texts:
    """One text of everything where it fits, else texts with as many subtrees each as fit. Where that is large those of `made` are in
    small texts beside it, and all are where it may not be."""
    layout, some, small = layout_of(tree), in_order(subtrees), TEXT_FORMATS[SMALL]
    most = tree.format if is_large else small
    whole = Text(layout, with_processes, most)
    has_whole = whole.take(layout.order[0])
    is_apart = whole.is_large if has_whole else most.most_rows > small.most_rows
    theirs = [path for path in some if is_apart and path in made]
    mine = [path for path in some if not is_apart or path not in made]
    whole.subtrees = mine
    of_mine = Texts([whole], {}) if has_whole else parted(layout, mine, with_processes, most)
    of_theirs = parted(layout, theirs, with_processes, small)
    return Texts([*of_mine.texts, *of_theirs.texts], {**of_mine.refused, **of_theirs.refused})


def parted(layout: Layout, subtrees: Sequence[CgroupPath], with_processes: bool, most: TextFormat) -> Texts:
    """Texts with as many subtrees each as fit. Where the processes inside of a subtree don't, it goes without any."""
    texts, without = packed(layout, subtrees, True, most) if with_processes else ([], subtrees)
    more, refused = packed(layout, without, False, most)
    return Texts([*texts, *more], {path: why_refused(layout, path, most) for path in refused})


def packed(layout: Layout, subtrees: Iterable[CgroupPath], with_processes: bool,
           most: TextFormat) -> Tuple[List[Text], List[CgroupPath]]:
    """Texts with the subtrees that fit, one after another, and the subtrees that fit into none."""
    texts: List[Text] = []
    left = []
    for path in subtrees:
        if texts and texts[-1].take(path):
            continue
        text = Text(layout, with_processes, most)
        if text.take(path):
            texts.append(text)
        else:
            left.append(path)
    return texts, left


def why_refused(layout: Layout, path: CgroupPath, most: TextFormat) -> TooLargeForText:
    start, end = layout.span(path)
    count = end - start + len(list(ancestors(path)))
    if count > most.most_rows:
        return TooManyCgroups(count, most.most_rows)
    return TooLong()


@dataclass(frozen=True)
class Programs:
    """The program, to be asked in the texts of a host."""
    texts: Sequence[Text]
    of: Mapping[CgroupPath, Program]
    # where a text couldn't be kept, and why
    failed: Sequence[Failed] = ()

    def able_to(self, abilities: Abilities) -> "Programs":
        """The same, where the program is asked in the ways that it has."""
        able = {program: replace(program, takes_pairs=abilities.has_pairs) for program in set(self.of.values())}
        return replace(self, of={path: able[program] for path, program in self.of.items()})

    def held(self) -> FrozenSet[CgroupPath]:
        """The subtrees that are contained against everybody but root. Of a text that the program doesn't answer of, for a fault or for want
        of time, there are none, and it is asked of people."""
        found: Set[CgroupPath] = set()
        until = time.monotonic() + LARGE_SECONDS
        for text in self.texts:
            if text.subtrees:
                progress.tell(f"asking everybody of {len(text.subtrees)} subtrees")
                try:
                    found |= self.of[text.subtrees[0]].until(until).in_half().held(text.subtrees)
                except Refused as refused:
                    if refused.is_too_large:
                        raise refused.fault() from None
        return frozenset(found)

    def ask(self, questions: Sequence[Question], holder_of: HolderOf) -> Tuple[Answered, Dict[CgroupPath, Reason]]:
        """The answers that aren't contained, and the subtrees whose text was refused, each with the program's line, or for which there
        was no time."""
        found: Answered = {}
        refused: Dict[CgroupPath, Reason] = {}
        until = time.monotonic() + LARGE_SECONDS
        for number, text in enumerate(self.texts, 1):
            mine = set(text.subtrees)
            some = [Question(each.users, tuple(path for path in each.subtrees if path in mine)) for each in questions]
            some = [each for each in some if each.subtrees]
            if some:
                progress.tell(f"asking of {len(text.subtrees)} subtrees in text {number} of {len(self.texts)}")
                try:
                    answers, late = ask_in_time(self.of[text.subtrees[0]].until(until), some, holder_of)
                    found.update(answers)
                    refused.update(late)
                except TreeRefused as fault:
                    if len(self.texts) == 1:
                        raise
                    refused.update(dict.fromkeys(text.subtrees, TextRefused(str(fault))))
        return found, refused

    def settled(self, found: Answered, users: Sequence[User], may_settle: Callable[[CgroupPath], bool],
                made: Container[CgroupPath]) -> Answered:
        """The answers, with those of some subtrees of the first text settled where they were unsettled, those of `made` last."""
        first = set(self.texts[0].subtrees) if self.texts else set()
        some = {pair: answer for pair, answer in found.items() if may_settle(pair.subtree) and pair.subtree in first}
        if not any(answer.status == UNSETTLED for answer in some.values()):
            return found
        others = {pair: answer for pair, answer in found.items() if pair not in some}
        return {**others, **self.of[next(iter(some)).subtree].settled(some, users, made)}

    def advise(self, pairs: Sequence[Pair]) -> List[Advice]:
        """What is advised for pairs of one text."""
        return self.of[pairs[0].subtree].in_half().advise(pairs)


def write(texts: Texts, options: Options, place: str, snapshot: Snapshot) -> Programs:
    """Writes the texts for the program to be asked in them, into files whose paths begin so, and to where they are to be kept."""
    of: Dict[CgroupPath, Program] = {}
    attempts = Attempts()
    for number, text in enumerate(texts.texts, 1):
        file = snapshot.source.file
        if not (file and text.is_whole()):
            file, written = f"{place}{number}.toml", text.written(snapshots.head(snapshot))
            output.make(file, written.encode("ascii"))
            if options.keep:
                kept = f"{options.keep}.{number}" if number > 1 else options.keep
                attempts.at("keep", partial(output.write, kept, [written], "the tree text"), None)
        of.update(dict.fromkeys(text.subtrees, Program(options.program, file, text.memory, text.is_large)))
    return Programs(texts.texts, of, attempts.failed)
