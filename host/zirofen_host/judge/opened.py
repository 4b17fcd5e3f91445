"""From entries of cgroups to findings of limits that somebody sets at a cgroup that isn't theirs.

So it goes over directories in which a manager will make what it starts. All of it is seen by the helper on the host, and not proved. The
answers speak of the limit files that a tree text has at subtrees that are asked of; everything else by which something is set is looked
at here.
"""
from collections import Counter, defaultdict
from dataclasses import dataclass, replace
from typing import AbstractSet, DefaultDict, Dict, FrozenSet, Iterable, Iterator, List, Mapping, Tuple

from zirofen_host.ask.questions import Questions
from zirofen_host.collect.bounded import Spent
from zirofen_host.collect.model import GROUP, OTHERS, OWNER, Entry, Snapshot, User
from zirofen_host.collect.walk import MANAGERS_MARK
from zirofen_host.files import CONTROL_FILES, LIMIT_FILES, PRESSURE, is_known, may_set
from zirofen_host.judge.judged import LetIn, Place
from zirofen_host.profile import ANYBODY, CgroupPath, is_root, tree_order

GROUP_WRITES, OTHERS_WRITE, SOMEBODY_WRITES = 0o020, 0o002, 0o222
# why a directory counts in which a manager makes what it starts: it adopts a cgroup that it finds there
WHO_IS_FIRST = "who is there first owns what is started there"


@dataclass(frozen=True)
class Looked:
    """What of a snapshot is looked at."""
    snapshot: Snapshot
    questions: Questions
    asked: AbstractSet[CgroupPath]
    unknown: Mapping[str, bool]

    def covers(self, place: Place) -> bool:
        """Whether no answer speaks of an entry, and something is set by it."""
        path, name = place
        if name == "dir":
            return is_made_in(self.questions, path)
        if name in CONTROL_FILES:
            return is_root(path) or path in self.questions.kept
        if name in LIMIT_FILES and name in self.snapshot.tree.rows[path].files:
            return path not in self.asked
        if name == "cgroup.threads":
            return self.has_threads(path)
        return may_set(name) if is_known(name) else self.unknown[name]

    def has_threads(self, path: CgroupPath) -> bool:
        """Whether threads go in or out by cgroup.threads: in domain mode a kernel takes none."""
        return self.snapshot.cgroups[path].kind != "domain" or is_root(path)


def is_made_in(questions: Questions, path: CgroupPath) -> bool:
    """Whether a manager makes what it starts in a cgroup: the root, what the system's manager keeps, or what has its mark."""
    return is_root(path) or path in questions.kept or questions.meant.get(path) == MANAGERS_MARK


def unknown_files(snapshot: Snapshot) -> Mapping[str, bool]:
    """The files of names that aren't known, each with whether it counts as a limit: where the mode that most cgroups have it with
    has write bits. Those that root owns are counted, since others may have another mode by their owners' will."""
    tables = {id(found.files): found.files for found in snapshot.cgroups.values()}
    times = Counter(id(found.files) for found in snapshot.cgroups.values())
    modes: DefaultDict[str, Counter[Tuple[bool, int]]] = defaultdict(Counter)
    for number, files in tables.items():
        for name, entry in files.items():
            if not is_known(name):
                modes[name][not entry.uid, entry.mode & SOMEBODY_WRITES] += times[number]
    most = {name: max(counts, key=lambda each: (each[0], counts[each], each[1])) for name, counts in modes.items()}
    return {name: bool(mode) for name, (_, mode) in sorted(most.items())}


def find_openings(snapshot: Snapshot, questions: Questions, spent: Spent) -> Iterator[Tuple[Place, Entry, List[LetIn]]]:
    """Every opening, with whom it lets in, but for what is over the budget of whoever made its cgroup."""
    looked = Looked(snapshot, questions, set(questions.subtrees), unknown_files(snapshot))
    for path in sorted(snapshot.cgroups, key=tree_order):
        found = snapshot.cgroups[path]
        for name, entry in sorted({"dir": found.directory, **found.files}.items()):
            if entry.is_reached and looked.covers(Place(path, name)):
                whom = whom_of(snapshot, questions, Place(path, name), entry)
                if whom and spent.take(questions.makers.within(path) or 0):
                    yield Place(path, name), entry, whom


def whom_of(snapshot: Snapshot, questions: Questions, place: Place, entry: Entry) -> List[LetIn]:
    """Whom an entry lets in, but for those whose it is."""
    def others(users: Iterable[User]) -> FrozenSet[int]:
        return frozenset(user.uid for user in users if not is_theirs(snapshot, questions, user, place))

    of, whom = questions.delegations.users, []
    if entry.uid:
        whom.append(LetIn(OWNER, entry.uid, others(of("uid", entry.uid))))
    if entry.mode & GROUP_WRITES:
        whom.append(LetIn(GROUP, entry.gid, others(user for user in of("gid", entry.gid) if user.uid != entry.uid)))
    if entry.mode & OTHERS_WRITE:
        whom.append(LetIn(OTHERS, None, frozenset({ANYBODY})))
    return [each for each in whom if each.uids]


def is_theirs(snapshot: Snapshot, questions: Questions, user: User, place: Place) -> bool:
    """Whether it lies inside of what was handed to a user, or is made to be handed over with what was."""
    if questions.is_inside_his(user, place.path):
        return True
    if place.name == "dir":
        is_handed = place.path in questions.meant and questions.holders[place.path].by != OTHERS
        return is_handed and questions.is_holder(user, place.path)
    return place.name in snapshot.kernel_list and bool(questions.has_directory(user, place.path))


def what_differs(snapshot: Snapshot, path: CgroupPath) -> Dict[str, Entry]:
    """The entries at a subtree that was meant to be handed over which differ from what a manager leaves there: a directory
    or a file of the list that more than its owner writes, a file of the list that is neither root's nor the directory's owner's, and
    other files that aren't root's."""
    found, differs = snapshot.cgroups[path], {}
    for name, entry in {"dir": found.directory, **found.files}.items():
        if name in PRESSURE:
            continue
        handed = name == "dir" or name in snapshot.kernel_list
        by_group = entry.mode & GROUP_WRITES and entry.gid
        is_anothers = entry.uid and (not handed or entry.uid != found.directory.uid)
        if entry.mode & OTHERS_WRITE or by_group and (entry.uid or not handed) or is_anothers:
            differs[name] = entry if is_anothers else replace(entry, uid=0)
    return differs
