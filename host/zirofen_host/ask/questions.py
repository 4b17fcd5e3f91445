"""From a snapshot to what is asked of it: its subtrees, and everybody who can matter for one of them."""
import itertools
import re
from collections import Counter, defaultdict
from dataclasses import dataclass, replace
from functools import cached_property
from typing import (AbstractSet, Callable, Collection, Container, DefaultDict, Dict, FrozenSet, Iterable, Iterator, List, Mapping,
                    Optional, Set, Tuple)

from zirofen_host.ask.delegations import Delegations
from zirofen_host.ask.model import Answer, Cut, Guarded, Holders, Pair, Plan, Question
from zirofen_host.ask.program import ESCAPES
from zirofen_host.collect.accounts import Accounts, accounts_of
from zirofen_host.collect.makers import Makers, handed_in
from zirofen_host.collect.model import CLASSES, GROUP, OTHERS, OWNER, Snapshot, Tree, User
from zirofen_host.collect.reasons import Reason
from zirofen_host.collect.snapshot import SubtreesOf
from zirofen_host.collect.tree import in_order
from zirofen_host.collect.walk import MANAGERS_MARK
from zirofen_host.files import COUNTING, HANDED_OVER
from zirofen_host.options import Options
from zirofen_host.profile import ANYBODY, MOST_GROUPS, CgroupPath, ancestors, is_root, parent_of, text_of, topmost

# a unit of the system's manager stands in slices alone; those of a user's manager stand in a unit
_UNIT = re.compile(r"(/[^/]+\.slice)*/([^/]+\.(service|scope))\Z")
_SLICE = re.compile(r"(/[^/]+\.slice)+\Z")
_USERS_MANAGER = re.compile(r"user@([1-9][0-9]*)\.service\Z")

# of those whom nothing but everybody's bits lets in, so many are asked of each subtree
FURTHER = 8
# so many pairs of whoever has what is above are asked one by one; the subtrees of a block are asked of who holds one of them
MANY, BLOCK = 256, 32

NOBODY = Holders(None, (), frozenset())


def unit_of(path: CgroupPath) -> Optional[str]:
    """The name of a unit of the system's manager, or None."""
    unit = _UNIT.match(text_of(path))
    return unit[2] if unit else None


def is_slice(path: CgroupPath) -> bool:
    """Whether a cgroup is a slice of the system's manager below the root, which is handed to nobody."""
    return _SLICE.match(text_of(path)) is not None


def with_groups(user: User, matter: AbstractSet[int], gids_of_tree: Container[int]) -> Tuple[Optional[User], int]:
    """A user with their primary group and those further ones that stand in the tree, and how many of these were left out;
    or None, and how many matter, where these are too many."""
    return Further(user, gids_of_tree).few(matter)


class Further:
    """A user's further groups that stand in the tree, which may be tens of thousands and are gone over once."""

    def __init__(self, user: User, gids_of_tree: Container[int]) -> None:
        self.user = user
        self.gids = {gid: None for gid in user.gids[1:] if gid in gids_of_tree}

    def few(self, matter: AbstractSet[int]) -> Tuple[Optional[User], int]:
        """The user with no more groups than the program takes, those first that matter, and how many others were left out; or None,
        and how many matter, where these are too many."""
        first = self.gids.keys() & matter if len(self.gids) < len(matter) else {gid for gid in matter if gid in self.gids}
        if 1 + len(first) > MOST_GROUPS:
            return None, 1 + len(first)
        others = itertools.islice((gid for gid in self.gids if gid not in matter), MOST_GROUPS - 1 - len(first))
        kept = sorted((*first, *others))
        return User(self.user.uid, (*self.user.gids[:1], *kept)), len(self.gids) - len(kept)


@dataclass(frozen=True)
class Questions:
    """The subtrees of a tree that are asked of, and who holds them or has what is above."""
    tree: Tree
    accounts: Accounts
    marks: Mapping[CgroupPath, Mapping[str, bytes]]
    delegations: Delegations
    # what is meant to be handed over, each with why
    meant: Mapping[CgroupPath, str]
    # what the system's manager keeps for itself, whoever owns it
    kept: FrozenSet[CgroupPath]
    # those of which something can be asked
    subtrees: Tuple[CgroupPath, ...]
    # who holds each subtree, also of those of which nothing can be asked
    holders: Mapping[CgroupPath, Holders]

    def without(self, paths: Container[CgroupPath]) -> "Questions":
        """The same without subtrees of which nothing can be asked."""
        return replace(self, subtrees=tuple(path for path in self.subtrees if path not in paths))

    def guarded(self, subtree: CgroupPath) -> Iterable[Guarded]:
        """The entries of a subtree that its guards stand on."""
        return self.delegations.guarded(subtree)

    def names_anybody(self, subtrees: Collection[CgroupPath]) -> bool:
        """Whether anybody but root holds one of some subtrees, or has a process in one."""
        if any(self.holders[path].uids for path in subtrees):
            return True
        tops = set(subtrees)
        return any(uid and not tops.isdisjoint((at, *ancestors(at))) for _, uid, at in self.tree.processes)

    def is_open(self, subtree: CgroupPath) -> bool:
        """Whether everybody writes an entry on which a guard of a subtree stands."""
        return any(self.delegations.entry(each.path, each.name).mode & 0o002 for each in self.guarded(subtree))

    def gids_that_matter(self, subtree: CgroupPath) -> Set[int]:
        return {self.delegations.entry(each.path, each.name).gid for each in self.guarded(subtree)}

    def is_holder(self, user: User, subtree: CgroupPath) -> bool:
        """Whether a user is among those who hold a subtree. Of somebody unknown no more is known than their group."""
        holders = self.holders[subtree]
        if user.uid not in holders.uids or user.uid != ANYBODY or holders.by == OWNER:
            return user.uid in holders.uids
        return user.gids[:1] == holders.ids[:1] if holders.by == GROUP else not user.gids

    def person_of(self, path: CgroupPath) -> int:
        """The person by whom a subtree is held, the first of several."""
        return min((self.accounts.charged_user(uid) for uid in self.holders[path].uids), default=0)

    def is_asked_as_holder(self, user: User, path: CgroupPath) -> bool:
        """Whether a user holds a subtree and isn't above it, or nobody holds it who isn't."""
        return self.is_holder(user, path) and (not self.is_above(user.uid, path) or self.is_held_from_above(path))

    def is_held_from_above(self, path: CgroupPath) -> bool:
        """Whether all who hold a subtree are above it."""
        if path not in self._held_from_above:
            self._held_from_above[path] = all(self.is_above(uid, path) for uid in self.holders[path].uids)
        return self._held_from_above[path]

    @cached_property
    def _held_from_above(self) -> Dict[CgroupPath, bool]:
        return {}

    def is_above(self, uid: int, path: CgroupPath) -> bool:
        """Whether a uid's person has a directory above, in their own name or a subordinate one."""
        return path not in self.meant and any(self.is_of(place, uid) for place in ancestors(path))

    def has_directory(self, user: User, path: CgroupPath) -> Optional[str]:
        """By which class a cgroup's directory was handed to a user; what everybody writes was handed to nobody."""
        entry = self.tree.rows[path].directory
        by = user.class_of(entry)
        if by == OTHERS or not self.is_handed_over(path) or not user.reaches(entry) or by == GROUP and not entry.gid:
            return None
        return by

    def handed_above(self, user: User, subtree: CgroupPath) -> Optional[CgroupPath]:
        """The topmost cgroup above a subtree that a user was handed, where that explains what they can do to the subtree: it
        isn't meant as somebody's delegation, and they own what is above or are themselves who holds the subtree."""
        if subtree in self.meant:
            return None
        persons = self.accounts.persons(user.uid)
        is_theirs = any(not persons.isdisjoint(self.accounts.persons(uid)) for uid in self.holders[subtree].uids)
        for place in reversed(list(ancestors(subtree))):
            by = self.has_directory(user, place)
            if by == OWNER or by and is_theirs or self.is_of(place, user.uid):
                return place
        return None

    def is_of(self, path: CgroupPath, uid: int) -> bool:
        """Whether a cgroup's directory is that of a person, by their own uid or by subordinate ones."""
        owner = self.tree.rows[path].directory.uid
        return owner != 0 and self.is_handed_over(path) and not self.accounts.roots(owner).isdisjoint(self.accounts.roots(uid))

    def expected_above(self, plan: Plan) -> Iterator[Tuple[int, CgroupPath, CgroupPath]]:
        """Who has something above subtrees of which their pairs weren't asked: the uid, the topmost place that is theirs, and the
        subtree."""
        for owners, paths in plan.expected_of.items():
            for path in topmost(paths):
                for uid in owners:
                    handed = next((place for place in reversed(list(ancestors(path))) if self.is_of(place, uid)), None)
                    if handed is not None:
                        yield uid, handed, path

    def is_inside_his(self, user: User, path: CgroupPath) -> bool:
        """Whether a cgroup lies properly inside one that was handed to that person."""
        persons = self.accounts.persons(user.uid)
        return any(self.is_handed_over(place) and (self.tree.rows[place].directory.uid in persons or self.has_directory(user, place))
                   for place in ancestors(path))

    def is_handed_over(self, path: CgroupPath) -> bool:
        """Whether a cgroup may be somebody's delegation: the root isn't, nor what the system's manager keeps."""
        return not is_root(path) and path not in self.kept

    def already_over(self, subtree: CgroupPath) -> bool:
        row = self.tree.rows[subtree]
        limits = [row.values.get(name, "max") for name in COUNTING]
        return any(isinstance(limit, int) and count > limit for count, limit in zip(self.below[subtree], limits))

    @cached_property
    def makers(self) -> Makers:
        """Whose making each cgroup is."""
        return Makers(self.tree.rows, self.accounts.charged_user, handed_in(self.marks))

    @cached_property
    def below(self) -> Mapping[CgroupPath, Tuple[int, int]]:
        """Numbers of descendants, and of levels below, of each cgroup."""
        counts: Dict[CgroupPath, int] = Counter()
        depths: Dict[CgroupPath, int] = Counter()
        for path in sorted(self.tree.rows, key=len, reverse=True):
            parent = parent_of(path)
            if parent is not None:
                counts[parent] += counts[path] + 1
                depths[parent] = max(depths[parent], depths[path] + 1)
        return {path: (counts[path], depths[path]) for path in self.tree.rows}


def questions_of(snapshot: Snapshot, accounts: Accounts) -> Questions:
    """What can be asked of a snapshot."""
    marks = {path: found.marks for path, found in snapshot.cgroups.items() if found.marks}
    delegations, meant = Delegations(snapshot.tree, accounts), meant_in(snapshot)
    kept = kept_in(snapshot, meant)
    subtrees = subtrees_in(delegations, meant, kept)
    return Questions(snapshot.tree, accounts, marks, delegations, meant, kept, tuple(subtrees),
                     {path: holders_of(delegations, path, path in meant) for path in subtrees})


def subtrees_by(options: Options) -> SubtreesOf:
    """Which subtrees are asked of, by a snapshot that may have changed while it was taken."""
    accounts: List[Accounts] = []

    def subtrees_of(snapshot: Snapshot, _: Mapping[CgroupPath, Reason]) -> List[CgroupPath]:
        if not accounts:
            accounts.append(accounts_of(options.accounts, snapshot))
        meant = meant_in(snapshot)
        return subtrees_in(Delegations(snapshot.tree, accounts[0]), meant, kept_in(snapshot, meant))
    return subtrees_of


def subtrees_in(delegations: Delegations, meant: Iterable[CgroupPath], kept: Container[CgroupPath]) -> List[CgroupPath]:
    """What was handed over and what is meant to be. What the manager keeps is no delegation, whoever reaches it."""
    return in_order({path for path in delegations.handed() if path not in kept}.union(meant))


def meant_in(snapshot: Snapshot) -> Dict[CgroupPath, str]:
    """What is meant to be handed over, each with why: by the system manager's mark, as a user's manager, or, where the manager
    sets no marks, as a unit with a user of its own."""
    rows = snapshot.tree.rows
    marked = {path for path in rows if not is_root(path) and snapshot.cgroups[path].marks.get(MANAGERS_MARK, b"0") != b"0"}
    units = {path for path in rows if (name := unit_of(path))
             and (_USERS_MANAGER.match(name) or not marked and rows[path].directory.uid)}
    return {path: MANAGERS_MARK if path in marked else "unit" for path in rows if path in marked or path in units}


def kept_in(snapshot: Snapshot, meant: Mapping[CgroupPath, str]) -> FrozenSet[CgroupPath]:
    """What the system's manager keeps for itself: slices, and units without its mark where others have it. It starts there what
    it likes, as root."""
    has_marks = MANAGERS_MARK in meant.values()
    return frozenset(path for path in snapshot.tree.rows if path not in meant and (is_slice(path) or has_marks and unit_of(path)))


def holders_of(delegations: Delegations, path: CgroupPath, is_meant: bool) -> Holders:
    """Who holds a subtree: its own user, or those of the group that it was handed to."""
    held = None if is_meant else strongest(delegations, path, delegations.reached_newly)
    # what is meant for somebody, or has a limit alone that somebody reaches, is held by whom it is
    return held or strongest(delegations, path, delegations.reached) or NOBODY


def strongest(delegations: Delegations, path: CgroupPath, reached: Callable[[User, CgroupPath], Iterable[str]]) -> Optional[Holders]:
    """Those who hold a subtree by what they reach, as far as owner goes before group and group before everybody."""
    held: DefaultDict[str, Set[Tuple[Optional[int], int]]] = defaultdict(set)
    for user in delegations.few_candidates(delegations.tree.rows[path]):
        for name in reached(user, path):
            entry = delegations.entry(path, name)
            by = user.class_of(entry)
            held[by].add((entry.gid if by == GROUP else entry.uid if by == OWNER else None, user.uid))
    for by in CLASSES:
        if held[by]:
            return Holders(by, tuple(sorted({number for number, _ in held[by] if number is not None})),
                           frozenset(uid for _, uid in held[by]))
    return None


def named_by(questions: Questions) -> Dict[CgroupPath, Set[User]]:
    """The users that the entries and the processes of each subtree name, and its guards' entries."""
    of = questions.delegations
    uids: DefaultDict[CgroupPath, Set[int]] = defaultdict(set)
    for uid, at in {(uid, at) for _, uid, at in questions.tree.processes}:
        for path in (at, *ancestors(at)):
            uids[path].add(uid)
    found = {}
    for path in questions.subtrees:
        entries = {of.entry(each.path, each.name) for each in questions.guarded(path)}
        entries |= {of.entry(path, name) for name in HANDED_OVER}
        users = {user for entry in entries for user in of.users_at(entry)}
        users |= {user for uid in uids[path] - {0} for user in of.users("uid", uid)}
        found[path] = {user for user in users if user.uid}
    return found


def plan_of(questions: Questions) -> Plan:
    """What to ask, and what is left out since the program takes so many groups. Where everybody writes, somebody of whom
    nothing is known stands for those whom nothing else lets in."""
    named = named_by(questions)
    users = sorted(set().union(*named.values())) if named else []
    matter: Set[int] = set().union(*map(questions.gids_that_matter, questions.subtrees))
    asked_as: Dict[User, User] = {}
    left_out: Dict[int, int] = Counter()
    asked: DefaultDict[CgroupPath, Set[User]] = defaultdict(set)
    many: List[Further] = []
    for user in users:
        further = Further(user, questions.delegations.gids_of_tree)
        few, count = further.few(matter)
        if few:
            asked_as[user] = few
            left_out[few.uid] = max(left_out[few.uid], count)
        else:
            many.append(further)
    cut: List[List[Cut]] = [[] for _ in many]
    for path in questions.subtrees if many else ():
        of_path = questions.gids_that_matter(path)
        for further, of_user in zip(many, cut):
            few, count = further.few(of_path)
            if few:
                asked[path].add(few)
                left_out[few.uid] = max(left_out[few.uid], count)
            else:
                of_user.append(Cut(further.user, path, count))
    plan = Plan((), tuple(itertools.chain.from_iterable(cut)), tuple(users), named, asked_as, left_out, {})
    return with_questions(plan, questions, asked)


def with_questions(plan: Plan, questions: Questions, asked: Mapping[CgroupPath, AbstractSet[User]]) -> Plan:
    """A plan with everybody of every subtree that isn't open to everybody; of the others those whom an entry names. Further
    users are asked of some subtrees alone."""
    everybody = frozenset(plan.asked_as.values())
    by_uid: DefaultDict[int, List[User]] = defaultdict(list)
    for user in everybody:
        by_uid[user.uid].append(user)
    by_users: DefaultDict[FrozenSet[User], List[CgroupPath]] = defaultdict(list)
    expected_of = {}
    for owners, paths in by_owners_above(questions).items():
        left = everybody - expected(questions, everybody, owners, paths)
        for path in paths:
            users = left.intersection(named_as_asked(plan, path)) if questions.is_open(path) else left
            by_users[users | asked[path] if path in asked else users].append(path)
        if len(left) < len(everybody):
            expected_of[owners] = tuple(paths)
            for some in (paths[start:start + BLOCK] for start in range(0, len(paths), BLOCK)):
                holders: Set[User] = set()
                for path in some:
                    those = (user for uid in questions.holders[path].uids for user in by_uid.get(uid, ()) if user not in holders)
                    holders.update([user for user in those if questions.is_asked_as_holder(user, path)])
                by_users[frozenset(holders)] += some
    asks = tuple(Question(tuple(sorted(users)), tuple(paths)) for users, paths in by_users.items() if users)
    return replace(plan, questions=asks, expected_of=expected_of)


def named_as_asked(plan: Plan, path: CgroupPath) -> Set[User]:
    return {plan.asked_as[user] for user in plan.named[path] if user in plan.asked_as}


def by_owners_above(questions: Questions) -> Dict[FrozenSet[int], List[CgroupPath]]:
    """The subtrees by who has a directory above, where they aren't meant as somebody's; subordinate ids are their owner's."""
    found = defaultdict(list)
    for path in questions.subtrees:
        above = () if path in questions.meant else ancestors(path)
        uids = {questions.tree.rows[place].directory.uid for place in above if questions.is_handed_over(place)} - {0}
        found[frozenset(root for uid in uids for root in questions.accounts.roots(uid))].append(path)
    return found


def expected(questions: Questions, users: Iterable[User], owners: FrozenSet[int], paths: Collection[CgroupPath]) -> FrozenSet[User]:
    """Whom not to ask of subtrees since what they can do there is expected: where these are so many pairs that whoever has
    what is above them makes them by the thousand."""
    roots = questions.accounts.roots
    theirs = frozenset(user for user in users if not owners.isdisjoint(roots(user.uid))) if owners else frozenset()
    return theirs if len(theirs) * len(paths) > MANY else frozenset()


def further_of(questions: Questions, plan: Plan, found: Mapping[Pair, Answer]) -> Tuple[Tuple[Question, ...], Dict[CgroupPath, int]]:
    """What to ask where everybody is let in, and of all that were asked nobody escapes: some of those who hold something
    elsewhere, who may be able to do more than anybody. Of the rest it is said how many weren't asked."""
    escaped = {path for (user, path), answer in found.items() if answer.status == ESCAPES
               and not questions.is_holder(user, path) and not questions.handed_above(user, path)}
    uids = {uid for path in questions.subtrees for uid in questions.holders[path].uids}
    holders = list(dict.fromkeys(few for user, few in plan.asked_as.items() if user.uid in uids))
    everybody, not_asked = set(plan.asked_as.values()), {}
    further: DefaultDict[Tuple[User, ...], List[CgroupPath]] = defaultdict(list)
    for path in questions.subtrees:
        if path not in escaped and questions.is_open(path):
            of = named_as_asked(plan, path)
            some = tuple(sorted(itertools.islice((user for user in holders if user not in of), FURTHER)))
            further[some].append(path)
            left = len(everybody - of) - len(some)
            not_asked.update({path: left} if left else {})
    return tuple(Question(users, tuple(paths)) for users, paths in further.items() if users), not_asked
