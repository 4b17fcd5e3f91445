"""From a snapshot and its questions to the subtrees without an answer, as something there changed or can't be read."""
from collections import defaultdict
from dataclasses import dataclass
from typing import DefaultDict, Dict, FrozenSet, Mapping, Optional, Set

from zirofen_host.ask.model import Holders
from zirofen_host.ask.questions import Questions
from zirofen_host.collect.accounts import Accounts
from zirofen_host.collect.model import Snapshot
from zirofen_host.collect.reasons import Reason
from zirofen_host.files import COUNTING
from zirofen_host.profile import ANYBODY, CgroupPath, ancestors


@dataclass(frozen=True)
class Changed:
    """What changed or can't be read, and by path who made what of it is inside of a cgroup; 0 stands for what is of nobody's."""
    places: FrozenSet[CgroupPath]
    inside: Mapping[CgroupPath, Set[int]]


def changed_in(snapshot: Snapshot, accounts: Accounts) -> Changed:
    inside: DefaultDict[CgroupPath, Set[int]] = defaultdict(set)
    for place in snapshot.changing:
        maker = maker_of(snapshot, accounts, place)
        for above in ancestors(place):
            inside[above].add(maker)
    return Changed(frozenset(snapshot.changing), inside)


def maker_of(snapshot: Snapshot, accounts: Accounts, place: CgroupPath) -> int:
    """Who made a cgroup, as far as it is known, or else whose the nearest one above it is."""
    rows = snapshot.tree.rows
    uids = (rows[above].directory.uid for above in ancestors(place) if above in rows)
    return snapshot.makers.get(place) or accounts.charged_user(next((uid for uid in uids if uid), 0))


def unanswerable(snapshot: Snapshot, questions: Questions) -> Dict[CgroupPath, Reason]:
    """The subtrees of which nothing is asked, each with why. What somebody else made inside of one is left out of it, and changes
    no answer of it but of how much there may be."""
    changed = changed_in(snapshot, questions.accounts)
    return {path: why for path, why in snapshot.unanswerable.items()
            if not is_spared(snapshot, questions.accounts, changed, questions.holders.get(path), path)}


def is_spared(snapshot: Snapshot, accounts: Accounts, changed: Changed, holders: Optional[Holders], path: CgroupPath) -> bool:
    """Whether a subtree is answered without what changed inside of it: all of that was made by others than who holds it. Of what is inside
    an answer rests on nothing but how many cgroups and levels there are, where a limit counts these."""
    row = snapshot.tree.rows.get(path)
    if row is None or holders is None or ANYBODY in holders.uids or any(isinstance(row.values.get(name), int) for name in COUNTING):
        return False
    if not changed.places.isdisjoint((path, *ancestors(path))):
        return False
    inside = changed.inside.get(path, set())
    return bool(inside) and inside.isdisjoint({0, *map(accounts.charged_user, holders.uids)})
