"""From what was known to stand open, and a part that was asked again, to what differs, as a baseline is compared."""
from typing import Dict, FrozenSet, Iterable, List, NamedTuple, Optional, Set, Tuple

from zirofen_host.judge.baseline import Found, Key, difference, found_by_path, kind_of
from zirofen_host.judge.model import Difference, Report
from zirofen_host.judge.notes import MountedElsewhere
from zirofen_host.judge.severity import Severity
from zirofen_host.profile import is_inside, is_root

NEW, WORSE, MENDED, GONE = KINDS = ("new", "worse", "mended", "gone")
OPEN = (NEW, WORSE)

# what the program answers: what is unsettled of it in a part, a check of the whole host may settle
ANSWERED = {"subtree", "entry"}


class Item(NamedTuple):
    """What a report tells of, and the cgroup where that stands, by its path."""
    found: Found
    path: str


Items = Dict[Key, Item]


class Change(NamedTuple):
    """What differs: what stands where, and at which entry."""
    kind: str
    path: str
    entry: str
    difference: Difference


class Asked(NamedTuple):
    """A cgroup with what is inside, but not inside of some others."""
    path: str
    without: FrozenSet[str]

    def has(self, path: str) -> bool:
        return is_inside(path, self.path) and not any(is_inside(path, top) for top in self.without)

    def concerns(self, path: str) -> bool:
        """Whether it may have anything of a cgroup and what is inside."""
        return self.has(path) or is_inside(self.path, path)


class Part(NamedTuple):
    """What was asked again, and the cgroups that stand there; and what was asked once more since then, by checks that ended before."""
    path: str
    without: FrozenSet[str]
    there: FrozenSet[str]
    since: Tuple[Asked, ...] = ()

    @property
    def is_of_all(self) -> bool:
        """Whether the whole host was looked at, inside of what everybody holds, so that a check of more can't settle what this one left."""
        return is_root(self.path) and not self.without

    @property
    def is_whole(self) -> bool:
        return self.is_of_all and not self.since

    @property
    def asked(self) -> Asked:
        return Asked(self.path, self.without)

    def has(self, path: str) -> bool:
        return self.asked.has(path) and not self.is_old(path)

    def is_left(self, path: str) -> bool:
        return not self.has(path)

    def is_old(self, path: str) -> bool:
        """Whether something newer is known of a cgroup."""
        return any(each.has(path) for each in self.since)


class Compared(NamedTuple):
    """What differs, what is known then, and whether it takes a check of the whole host to say more."""
    changes: Tuple[Change, ...]
    known: Items
    needs_whole: bool


def items_of(report: Report) -> Items:
    """All that a report tells of: in a container with a name, by that."""
    names = report.names
    found = {**found_by_path(report), **mounted_elsewhere(report)}
    if not names.words:
        return {key: Item(each, key[1]) for key, each in found.items()}
    return {(what, names.of(path) or path, of): Item(each._replace(named=names.line(each.line, path)), path)
            for (what, path, of), each in found.items()}


def mounted_elsewhere(report: Report) -> Dict[Key, Found]:
    """The hierarchy's other mounts, of which no answer speaks: one that comes is reported."""
    return {(each.kind, each.place, each.text): Found(Severity.CONTAINED, each.line) for each in report.unseen
            if each.kind == MountedElsewhere.kind}


def subtrees_in(found: Found) -> Iterable[str]:
    """The subtrees to which something lets in."""
    return (str(each[1]) for each in found.lets_in if each[0] == "subtree")


def with_what_was_left(now: Item, then: Item, part: Part) -> Item:
    """What stands now, with the subtrees that weren't asked again."""
    left = frozenset(each for each in then.found.lets_in if each[0] == "subtree" and not part.has(str(each[1])))
    return now._replace(found=now.found._replace(lets_in=now.found.lets_in | left))


def kind_within(now: Optional[Item], then: Optional[Item], part: Part) -> Optional[str]:
    """How something differs in what was asked again."""
    then = None if then and then.found.is_accepted else then
    if now is None and then is None or now is not None and now.found.is_accepted:
        return None
    kind = kind_of(now.found if now else None, then.found if then else None)
    if kind == "gone" and then:
        return MENDED if then.path in part.there else GONE
    if kind not in (NEW, WORSE) and now and then:
        return MENDED if now.found.severity.rank > then.found.severity.rank else None
    return kind


def kind_above(now: Optional[Item], then: Optional[Item]) -> Optional[str]:
    """The same of what stands above it: only more of it is seen."""
    if now is None or now.found.is_accepted:
        return None
    if then is None or then.found.is_accepted:
        return NEW
    return WORSE if now.found.severity.rank < then.found.severity.rank or now.found.lets_in - then.found.lets_in else None


def compared(known: Items, now: Items, part: Part) -> Compared:
    """What differs from what was known, and what is known then. Of a part what is unsettled may be contained by the whole host."""
    kept, changes, needs_whole = dict(known), [], False
    reported: Set[str] = set()
    for key in sorted({*known, *now}):
        mine, then = now.get(key), known.get(key)
        if any(each is not None and part.is_old(each.path) for each in (mine, then)):
            continue
        is_asked = any(each is not None and part.has(each.path) for each in (mine, then))
        kind = kind_within(mine, then, part) if is_asked else kind_above(mine, then)
        if not part.is_of_all and kind in (NEW, WORSE) and mine and mine.found.severity is Severity.UNSETTLED and key[0] in ANSWERED:
            needs_whole = True
            continue
        if mine is not None and then is not None:
            mine = with_what_was_left(mine, then, part) if not part.is_whole else mine
        if mine is not None and (is_asked or kind or then is None):
            kept[key] = mine
        elif is_asked:
            kept.pop(key, None)
        elif mine is None and then is not None and any(map(part.has, subtrees_in(then.found))):
            needs_whole = True
        if kind:
            changes.append(change_of(kind, key, mine, then))
            reported.update(() if key[0] == "subtree" else reported_with(mine, then))
    # of a subtree's row all that differs is reported with what it rests on, where that is reported
    changes = [each for each in changes if each.difference.what != "subtree" or each.path not in reported]
    return Compared(tuple(changes), kept, needs_whole and not part.is_of_all)


def reported_with(*items: Optional[Item]) -> Iterable[str]:
    """The subtrees that something concerns."""
    return (path for each in items if each for path in (each.path, *subtrees_in(each.found)))


def change_of(kind: str, key: Key, now: Optional[Item], then: Optional[Item]) -> Change:
    there = now or then
    differs = difference(key, now.found if now else None, then.found if then else None)
    return Change(kind, there.path if there else "", key[2], differs)


def is_counted(change: Change) -> bool:
    """Whether something is new or worse that counts."""
    return change.kind in (NEW, WORSE) and change.difference.status != 0


def standing(known: Items) -> List[str]:
    """The lines of what stands open, without rows of subtrees, for which stands what they rest on."""
    return [each.found.line for key, each in sorted(known.items())
            if key[0] != "subtree" and each.found.severity.status and not each.found.is_accepted]
