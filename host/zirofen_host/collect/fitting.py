"""From a host that is too large for one text to a snapshot that fits, and says what it lacks.

What is inside of whoever has most is left out until the rest fits. A check of it has a fault of what it lacks alone.
"""
from collections import Counter, defaultdict
from dataclasses import replace
from typing import Callable, DefaultDict, Dict, Iterator, List, Optional

from zirofen_host.collect.carried import CHANGING, Changing
from zirofen_host.collect.makers import Makers
from zirofen_host.collect.model import Placed, Snapshot
from zirofen_host.collect.notes import ProcessesOverText, TooLarge
from zirofen_host.collect.reasons import LeftOutToFit
from zirofen_host.collect.tree import row_text
from zirofen_host.profile import CgroupPath, ancestors, parent_of, path_of, text_of, topmost

# how much each cgroup takes of what there is too much of
Weight = Callable[[CgroupPath], int]


def fitted(snapshot: Snapshot, makers: Makers) -> Snapshot:
    """A snapshot with no more cgroups and processes than a text takes, where those of somebody's own making can be left out."""
    most = snapshot.tree.format.most_rows
    while len(snapshot.tree.rows) > most:
        person = heaviest(snapshot, makers, lambda _: 1)
        if person is None:
            return snapshot
        snapshot = without_inside(snapshot, makers, person, most, "cgroups")
    return without_processes(snapshot, makers)


def heaviest(snapshot: Snapshot, makers: Makers, weight: Weight) -> Optional[int]:
    """Who made the most of what is there."""
    weights: Dict[int, int] = Counter()
    for path in snapshot.tree.rows:
        maker = makers.within(path)
        if maker is not None:
            weights[maker] += weight(path)
    return min(weights, key=lambda person: (-weights[person], person)) if weights else None


def length(snapshot: Snapshot) -> Weight:
    """How long a cgroup's lines in a text are, with what is carried of it."""
    lengths: Dict[CgroupPath, int] = Counter()
    for note in snapshot.notes:
        lengths[path_of(note.place)] += len(note.place) + len(note.text)

    def of(path: CgroupPath) -> int:
        marks = snapshot.cgroups[path].marks.values()
        row = row_text(snapshot.tree.rows[path], snapshot.tree.format)
        return len(row) + lengths[path] + 40 * len(snapshot.cgroups[path].files) + sum(map(len, marks))
    return of


def without_inside(snapshot: Snapshot, makers: Makers, person: int, most: int, what: str) -> Snapshot:
    """A snapshot without the cgroups that somebody made, and what is inside of these, since a text has so many of something at most.
    What is noted of each place where some were stands at the first of them."""
    made = {path for path in snapshot.tree.rows if makers.within(path) == person}
    lost = {path for path in snapshot.tree.rows if path in made or not made.isdisjoint(ancestors(path))}
    by_parent: DefaultDict[CgroupPath, List[CgroupPath]] = defaultdict(list)
    for path in sorted(topmost(made)):
        parent = parent_of(path)
        if parent is not None:
            by_parent[parent].append(path)
    counts = Counter(top for path in lost for top in (path, *ancestors(path)) if top in by_parent)
    reasons = {parent: LeftOutToFit(person, counts[parent], text_of(parent), most, what) for parent in by_parent}
    tree = snapshot.tree
    return replace(
        snapshot, cgroups={path: found for path, found in snapshot.cgroups.items() if path not in lost},
        tree=replace(tree, rows={path: row for path, row in tree.rows.items() if path not in lost},
                     processes=[each for each in tree.processes if each.at not in lost]),
        notes=(*(note for note in snapshot.notes if makers.within(path_of(note.place)) != person),
               *(TooLarge(text_of(parent), reason) for parent, reason in reasons.items())),
        changing={**snapshot.changing, **{by_parent[parent][0]: reason for parent, reason in reasons.items()}},
        makers={**snapshot.makers, **{paths[0]: person for paths in by_parent.values()}})


def without_processes(snapshot: Snapshot, makers: Makers) -> Snapshot:
    """A snapshot with no more processes than a text takes: those of whoever has most are left out."""
    processes: List[Placed] = list(snapshot.tree.processes)
    notes, most = list(snapshot.notes), snapshot.tree.format.most_processes
    while len(processes) > most:
        counts = Counter(makers.charged_user(each.uid) if each.uid else 0 for each in processes)
        person = max(sorted(counts), key=lambda each: (each != 0, counts[each]))
        processes = [each for each in processes if (makers.charged_user(each.uid) if each.uid else 0) != person]
        notes.append(ProcessesOverText("/", person, counts[person], most))
    return replace(snapshot, tree=replace(snapshot.tree, processes=processes), notes=tuple(notes))


def changing_lines(snapshot: Snapshot) -> Iterator[str]:
    """What a text always carries: what it lacks, and why."""
    return (CHANGING.line(Changing(path, why)) for path, why in snapshot.changing.items())
