"""From whose events they are to the checks that they start: each person who owns folders has a lane of their own.

A lane has a tenth of a processor, and root's, which is one more, three. What happens is counted for the owner of the folder in which it is,
found from the mount on: what is root's inside of what somebody holds is theirs.
"""
import bisect
import os
from collections import Counter
from typing import Callable, Dict, FrozenSet, Iterable, List, Mapping, NamedTuple, Optional, Set, Tuple

from zirofen_host.collect.bounded import ChargedUser
from zirofen_host.options import EVERYBODY
from zirofen_host.profile import ROOT, CgroupPath, ancestors, is_inside, parent_of
from zirofen_host.watch.doers import Doer
from zirofen_host.watch.kernel import ATTRIB, CREATE, DELETE, IS_FOLDER, MODIFY, Event

# seconds without an event after which a burst is one, and after which one that goes on is asked of
QUIET, LONGEST_BURST = 0.2, 1.0
# the part of a processor for one lane, and the seconds of it that may be spent at once; and how many times that is root's: beside whoever
# makes and removes cgroups all the time each look takes longer
SHARE, AT_ONCE, TIMES_OF_ROOT = 0.1, 6.0, 3
# entries of a lane that are known by who changed them, and processes of one
MOST_TOUCHED, MOST_DOERS = 512, 4
# files that matter when they are written: which limit files there are, what of limits makes a subtree too large, and of which type it is
WRITTEN = {b"cgroup.subtree_control", b"cgroup.max.depth", b"cgroup.max.descendants", b"cgroup.type"}
# root's lane, and that of checks of the whole host, which have the time of whoever's check asked for them
HOST, DEEP = 0, -1
# cgroups from which on what somebody holds is asked of in their own lane, and each hour
MANY = 512
DIRECTORY = "dir"

Place = Tuple[CgroupPath, str]


def concerned(event: Event) -> Optional[CgroupPath]:
    """The cgroup on whose guarded entries, or inside of which, an event lies; None where it matters to no answer."""
    child = CgroupPath((b"" if event.folder == ROOT else event.folder) + b"/" + event.name)
    if event.mask & IS_FOLDER:
        return child if event.name else event.folder
    if event.mask & (ATTRIB | CREATE | DELETE):
        return event.folder
    return event.folder if event.mask & MODIFY and event.name in WRITTEN else None


def place_of(event: Event) -> Place:
    """The entry at which something happened."""
    if event.mask & IS_FOLDER:
        child = CgroupPath((b"" if event.folder == ROOT else event.folder) + b"/" + event.name)
        return child if event.name else event.folder, DIRECTORY
    return event.folder, os.fsdecode(event.name)


def common(one: CgroupPath, other: CgroupPath) -> CgroupPath:
    """The nearest cgroup that has both."""
    while not is_inside(other, one):
        one = parent_of(one) or ROOT
    return one


class Touched(NamedTuple):
    """What happened to an entry since its lane was asked: what, how often, when first and last, and by whom."""
    mask: int
    number: int
    first: float
    last: float
    doers: Tuple[Doer, ...]


def together(one: Touched, other: Touched) -> Touched:
    """What happened to an entry at two times: who did the last of it comes first."""
    earlier, later = sorted((one, other), key=lambda each: each.last)
    doers = (*later.doers, *(doer for doer in earlier.doers if doer not in later.doers))[:MOST_DOERS]
    return Touched(one.mask | other.mask, one.number + other.number, min(one.first, other.first), later.last, doers)


class Touches:
    """What happened to entries, to be looked up for many of them."""

    def __init__(self, touched: Mapping[Place, Touched]) -> None:
        self.touched = touched
        self.by_path: Dict[CgroupPath, List[Place]] = {}
        for place in touched:
            self.by_path.setdefault(place[0], []).append(place)
        self.paths = sorted(self.by_path)

    def near(self, path: CgroupPath, entry: str, has_inside: bool = True, after: float = 0.0) -> Optional[Place]:
        """Where something happened after a time that concerns an entry: itself, else its cgroup, else above, else inside where that may be
        why."""
        own = ((place,) for place in ((path, entry), (path, DIRECTORY)) if place in self.touched)
        around = (self.by_path.get(each, ()) for each in (path, *ancestors(path)))
        inside = (self.by_path[each] for each in self.inside(path)) if has_inside else ()
        return next((place for places in (*own, *around, *inside) for place in places if self.touched[place].last > after), None)

    def inside(self, path: CgroupPath) -> List[CgroupPath]:
        """The paths below one at which something happened, the longest first."""
        top = b"" if path == ROOT else path
        begin, end = (bisect.bisect_left(self.paths, CgroupPath(top + mark)) for mark in (b"/", b"0"))
        return sorted(self.paths[begin:end], key=len, reverse=True)


class Owners:
    """To whom a folder is charged, as checks found it: nobody is asked again for each event. One that no check found is of who has what
    is above it."""

    def __init__(self, owner_of: Callable[[CgroupPath], int], charged_user: ChargedUser) -> None:
        self.owner_of, self.charged_user = owner_of, charged_user
        self.known: Dict[CgroupPath, int] = {}

    def forget(self) -> None:
        self.known.clear()

    def many(self, paths: Iterable[CgroupPath]) -> List[int]:
        """Who has many cgroups."""
        counts = Counter(map(self.of, paths))
        return [person for person, number in counts.items() if person != HOST and number >= MANY]

    def parts_of(self, persons: Iterable[int], paths: Iterable[CgroupPath], part: CgroupPath) -> Mapping[int, CgroupPath]:
        """By person, or of everybody but root, the nearest cgroup that has all of theirs in a part."""
        wanted = set(persons)
        found: Dict[int, CgroupPath] = {}
        for path in paths if wanted else ():
            person = self.of(path)
            if (person in wanted or EVERYBODY in wanted and person != HOST) and is_inside(path, part):
                found[person] = common(found[person], path) if person in found else path
        return found

    def of(self, path: CgroupPath) -> int:
        """The last on the way to a folder who isn't root."""
        if path not in self.known:
            above = parent_of(path)
            uid = HOST if above is None else self.owner_of(path)
            self.known[path] = self.charged_user(uid) if uid else HOST if above is None else self.of(above)
        return self.known[path]


class Lane:
    """What waits to be asked of one person's folders, and the time that they have for it."""

    def __init__(self, person: int, now: float) -> None:
        self.person = person
        times = TIMES_OF_ROOT if person == HOST else 1
        self.share, self.at_once = times * SHARE, times * AT_ONCE
        self.left, self.since = self.at_once, now
        self.part: Optional[CgroupPath] = None
        self.is_whole, self.why = False, ""
        self.first, self.last = now, now
        self.touched: Dict[Place, Touched] = {}
        # whose checks asked for one of the whole host
        self.payers: Set[int] = set()
        self.events = 0
        self.is_running = False

    def refill(self, now: float) -> None:
        self.left = min(self.at_once, self.left + self.share * (now - self.since))
        self.since = now

    def spend(self, seconds: float) -> None:
        self.left -= seconds

    @property
    def is_waiting(self) -> bool:
        """Whether more happens than is asked of."""
        return self.left < 0

    @property
    def is_busy(self) -> bool:
        """Whether something happens in it now; what root did beside it is no event of it."""
        return self.is_waiting or self.events > 0 and (self.part is not None or self.is_running)

    @property
    def is_urgent(self) -> bool:
        """Whether what is asked of it comes before what is asked of whoever changes much."""
        return self.person <= HOST or self.left > self.at_once / 2

    def add(self, part: CgroupPath, now: float) -> None:
        if self.part is None:
            self.first = now
        self.part = part if self.part is None else common(self.part, part)
        self.last = now

    def has_enough(self, folder: CgroupPath) -> bool:
        """Whether nothing more is kept of what happens in a person's folder: it is asked of anyway, and who did what there is known of
        enough entries."""
        return self.person > HOST and len(self.touched) >= MOST_TOUCHED and self.part is not None and is_inside(folder, self.part)

    def go_on(self, count: int, now: float) -> None:
        """Has what waits already wait for the end of a burst."""
        self.events += count
        self.last = now

    def ask_whole(self, now: float, why: str, is_whole: bool = True) -> None:
        """Has the whole host asked, also inside of what others hold who have too much where that is said."""
        self.add(ROOT, now)
        self.is_whole |= is_whole
        self.why = why

    def touch(self, event: Event, count: int, now: float, doer: Optional[Doer]) -> None:
        """Keeps who changed an entry, and when."""
        self.events += count
        place = place_of(event)
        then = self.touched.get(place)
        if then is None:
            if len(self.touched) < MOST_TOUCHED:
                self.touched[place] = Touched(event.mask, count, now, now, (doer,) if doer else ())
            return
        doers = then.doers if doer is None or len(then.doers) >= MOST_DOERS or doer in then.doers else (*then.doers, doer)
        self.touched[place] = Touched(then.mask | event.mask, then.number + count, then.first, now, doers)

    def give_back(self, asked: "Asked") -> None:
        """Keeps what happened before a check that couldn't say all of it for the one behind it."""
        for place, each in asked.touched.items():
            there = self.touched.get(place)
            if there is not None or len(self.touched) < MOST_TOUCHED:
                self.touched[place] = each if there is None else together(each, there)

    def due(self) -> Optional[float]:
        """When it is to be asked, where something waits."""
        if self.part is None or self.is_running:
            return None
        quiet = min(self.last + QUIET, self.first + LONGEST_BURST)
        return quiet if self.left >= 0 else max(quiet, self.since - self.left / self.share)

    def take(self) -> "Asked":
        """What is to be asked now; what comes from here on waits for the next time."""
        payers = self.payers if self.person == DEEP else {self.person}
        taken = Asked(self.person, self.part or ROOT, self.is_whole, self.why, self.first, self.touched, frozenset(payers))
        self.part, self.is_whole, self.why, self.touched, self.payers = None, False, "", {}, set()
        self.is_running = True
        return taken


class Asked(NamedTuple):
    """What a check is of, and what happened before it."""
    person: int
    part: CgroupPath
    is_whole: bool
    why: str
    first: float
    touched: Dict[Place, Touched]
    # who pays for it, each an equal part: nobody for a check of the whole host that no check asked for
    payers: FrozenSet[int]

    @property
    def has_made_folders(self) -> bool:
        """Whether folders were made before it, as far as that is kept."""
        is_full = len(self.touched) >= MOST_TOUCHED
        return is_full or any(each.mask & CREATE and place[1] == DIRECTORY for place, each in self.touched.items())


class Lanes:
    """All lanes, by person."""

    def __init__(self, now: float) -> None:
        self.all: Dict[int, Lane] = {HOST: Lane(HOST, now), DEEP: Lane(DEEP, now)}
        # who has had more than is asked of, and was named
        self.named: List[int] = []

    @property
    def host(self) -> Lane:
        return self.all[HOST]

    @property
    def deep(self) -> Lane:
        return self.all[DEEP]

    def of(self, person: int, now: float) -> Lane:
        if person not in self.all:
            self.all[person] = Lane(person, now)
        return self.all[person]

    def spend(self, asked: Asked, seconds: float, now: float) -> None:
        """Takes what a check took from those who pay for it."""
        for person in asked.payers:
            self.of(person, now).spend(seconds / len(asked.payers))

    def refill(self, now: float) -> None:
        """Gives each their share, and forgets whoever has all of it and nothing that waits."""
        for person, lane in list(self.all.items()):
            lane.refill(now)
            if person > HOST and lane.part is None and not lane.is_running and lane.left >= lane.at_once:
                del self.all[person]

    def shallow(self, person: int) -> Tuple[int, ...]:
        """The others who have more than is asked of: inside of theirs nothing is read for anybody else."""
        others = ((each, lane) for each, lane in self.all.items() if each > HOST and each != person)
        return tuple(sorted(each for each, lane in others if lane.is_waiting or lane.is_running))

    def busy(self) -> Tuple[int, ...]:
        """In whose folders something happens now, or more than is asked of."""
        return tuple(sorted(person for person, lane in self.all.items() if person > HOST and lane.is_busy))

    def newly_waiting(self) -> Iterable[int]:
        """Whoever has more than is asked of now, each once."""
        for person, lane in self.all.items():
            if lane.is_waiting and person not in self.named:
                self.named.append(person)
                yield person

    def next(self, is_free: Callable[[Lane], bool]) -> Optional[Lane]:
        """The lane that is to be asked first."""
        due = [(when, person) for person, lane in self.all.items() for when in [lane.due()] if when is not None and is_free(lane)]
        return self.all[min(due)[1]] if due else None
