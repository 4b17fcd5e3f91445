"""From a mount to the last of two walks that agree, what changed meanwhile, and the subtrees without an answer by that."""
from typing import Callable, Dict, Iterable, NamedTuple, Optional, Sequence

from zirofen_host.collect.bounded import ChargedUser
from zirofen_host.collect.reasons import CHANGED, Changed, NeverAgreed, Reason
from zirofen_host.collect.walk import NOTHING, Below, Walk, Whys, walk_over
from zirofen_host.fault import Fault
from zirofen_host.profile import ROOT, CgroupPath, ancestors, shown

# so many walks are made beside the first two
MOST_WALKS = 8


class Agreed(NamedTuple):
    """The last walk, without what changed all the time or can't be read; these, and the subtrees without an answer by that, with why."""
    walk: Walk
    changing: Whys
    unanswerable: Whys


def walk_until_agreed(mount: str, only: Optional[CgroupPath], subtrees_of: Callable[[Walk, Whys], Iterable[CgroupPath]],
                      charged_user: ChargedUser = int, text_files: Sequence[str] = (), below: Below = NOTHING,
                      shallow: Sequence[int] = ()) -> Agreed:
    """Walks until two walks in a row agree on all that can matter for a subtree: itself, what is inside, and its ancestors.
    Only what doesn't agree is walked over again. `subtrees_of` gives the subtrees that are asked of, by a walk and by what
    changes; the values of some limit files of format 4 are read. `below` has what is mounted inside of the mount."""
    tops = None if only is None else (only,)
    before = walk_over(mount, tops, None, charged_user, (), below, shallow)
    walk = walk_over(mount, tops, before, charged_user, text_files, below, shallow)
    walk.charged_tops = {**before.charged_tops, **walk.charged_tops}
    if only is not None and only not in walk.found and only not in walk.unread:
        raise Fault(f"there is no cgroup {shown(only)}")
    changing: Whys = walk.differing(before)
    unanswerable: Whys = unanswerable_by(changing, subtrees_of(walk, changing)) if changing else {}
    for _ in range(MOST_WALKS):
        again: Sequence[CgroupPath] = [ROOT] if ROOT in changing else [
            path for path, why in unanswerable.items() if isinstance(why, Changed)]
        if not again:
            break
        part = walk_over(mount, again, walk, charged_user, text_files, below, shallow)
        changing = {**{path: why for path, why in changing.items() if not part.covers(path)}, **part.differing(walk)}
        walk.take(part)
        unanswerable = unanswerable_by(changing, subtrees_of(walk, changing))
    if ROOT in changing:
        raise Fault(f"the root cgroup: {changing[ROOT]}, through {MOST_WALKS} walks")
    unanswerable = unanswerable_of(changing, subtrees_of(walk, changing) if changing else ())
    walk.without(changing)
    return Agreed(walk, changing, unanswerable)


def unanswerable_of(changing: Whys, subtrees: Iterable[CgroupPath]) -> Dict[CgroupPath, Reason]:
    """The subtrees that are unanswerable at last; what can't be read is listed also where it is in no subtree that is known of."""
    unanswerable = {path: NeverAgreed(MOST_WALKS) if isinstance(why, Changed) else why
                    for path, why in unanswerable_by(changing, subtrees).items()}
    for path, why in changing.items():
        if not isinstance(why, Changed) and unanswerable.keys().isdisjoint((path, *ancestors(path))):
            unanswerable[path] = why
    return unanswerable


def unanswerable_by(changing: Whys, subtrees: Iterable[CgroupPath]) -> Dict[CgroupPath, Reason]:
    """The subtrees for which something matters that changed, each with why; what can't be read goes before what changed."""
    inside: Dict[CgroupPath, Reason] = {}
    for path, why in changing.items():
        for place in (path, *ancestors(path)):
            if inside.get(place, CHANGED) == CHANGED:
                inside[place] = why
    unanswerable = {}
    for subtree in subtrees:
        of = (inside.get(subtree), *(changing.get(place) for place in ancestors(subtree)))
        whys = {why for why in of if why is not None}
        if whys:
            unanswerable[subtree] = min(whys - {CHANGED}, key=str, default=CHANGED)
    return unanswerable
