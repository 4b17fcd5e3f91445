"""From a tree and accounts to the users who reach at a cgroup what they don't reach one level up."""
from collections import defaultdict
from functools import cached_property
from typing import Collection, DefaultDict, Dict, FrozenSet, Iterable, Iterator, List, Sequence, Set, Tuple

from zirofen_host.ask.guards import COMMON_ANCESTOR, LIMIT_FILE, PARENT_CONTROL, PARENT_DIRECTORY
from zirofen_host.ask.model import Delegation, Guarded
from zirofen_host.collect.accounts import Accounts
from zirofen_host.collect.model import Entry, Row, Tree, User, set_of_groups
from zirofen_host.files import CONTROL, DIRECTORY, HANDED_OVER, PROCS
from zirofen_host.profile import ANYBODY, MOST_GROUPS, CgroupPath, ancestors, is_root, parent_of, tree_order


class Alike:
    """The users of a uid, who differ by their groups alone and may be thousands: by some groups few of them differ."""

    def __init__(self, users: Sequence[User]) -> None:
        self.users = users
        # those in a group, as bits
        self.members: DefaultDict[int, int] = defaultdict(int)
        for number, user in enumerate(users if len(users) > 1 else ()):
            for gid in set_of_groups(user.gids):
                self.members[gid] |= 1 << number

    def apart(self, gids: Iterable[int]) -> List[User]:
        """One user for each way to be in some of the groups."""
        if len(self.users) < 2:
            return list(self.users)
        found = [(1 << len(self.users)) - 1]
        for members in (self.members[gid] for gid in gids if gid in self.members):
            found = [part for each in found for part in (each & members, each & ~members) if part]
        return [self.users[(part & -part).bit_length() - 1] for part in found]


class Delegations:
    """Finds the delegations of a tree; each once, by path and then by user."""

    def __init__(self, tree: Tree, accounts: Accounts) -> None:
        self.tree = tree
        self.accounts = accounts
        # the users of each uid and each gid that was looked at
        self.known: Dict[Tuple[str, int], Sequence[User]] = {}
        self.alike: Dict[int, Alike] = {}
        self.groups: Dict[int, Tuple[FrozenSet[int], Tuple[User, ...]]] = {}

    def find(self) -> List[Delegation]:
        found: Set[Delegation] = set()
        for path, row in self.tree.rows.items():
            if not is_root(path):
                found |= {Delegation(path, user) for user in self.candidates(row) if self.is_handed(user, path)}
        return sorted(found, key=lambda each: (tree_order(each.path), each.user))

    @cached_property
    def gids_of_tree(self) -> FrozenSet[int]:
        return frozenset(entry.gid for row in self.tree.rows.values() for entry in self.entries(row))

    def entries(self, row: Row) -> List[Entry]:
        return [row.entry(name) for name in (*HANDED_OVER, *self.tree.limit_files(row.path))]

    def handed(self) -> Iterator[CgroupPath]:
        """The cgroups at which something was handed to somebody."""
        for path, row in self.tree.rows.items():
            if not is_root(path) and any(self.is_handed(user, path) for user in self.few_candidates(row)):
                yield path

    def candidates(self, row: Row) -> Set[User]:
        """The users that a row's entries may mean."""
        return {user for entry in set(self.entries(row)) for user in self.users_at(entry)}

    def few_candidates(self, row: Row) -> Set[User]:
        """The same, but of those of a uid whom neither the row's nor its parent's entries tell apart one alone."""
        parent = parent_of(row.path)
        entries = set(self.entries(row))
        gids = {entry.gid for entry in entries} | {self.entry(parent, name).gid for name in HANDED_OVER if parent is not None}
        users: Set[User] = set()
        for uid in {entry.uid for entry in entries} - {0}:
            users.update(self.alike_of(uid).apart(gids))
        for gid in {entry.gid for entry in entries if entry.mode & 0o020}:
            uids, others = self.group_of(gid)
            users.update(others)
            users.update(user for uid in uids for user in self.alike_of(uid).apart(gids) if gid in user.gids)
        if any(entry.mode & 0o002 for entry in entries):
            users.add(User(ANYBODY, ()))
        return users

    def alike_of(self, uid: int) -> Alike:
        if uid not in self.alike:
            self.alike[uid] = Alike(self.users("uid", uid))
        return self.alike[uid]

    def group_of(self, gid: int) -> Tuple[FrozenSet[int], Tuple[User, ...]]:
        """The uids of a group's users, and those users who are none of their uid's."""
        if gid not in self.groups:
            users = self.users("gid", gid)
            uids = frozenset(user.uid for user in users if user.uid != ANYBODY)
            known = {user for uid in uids for user in self.alike_of(uid).users}
            self.groups[gid] = uids, tuple(user for user in users if user not in known)
        return self.groups[gid]

    def users_at(self, entry: Entry) -> List[User]:
        """The users who reach an entry, as far as it names them."""
        users = list(self.users("uid", entry.uid)) if entry.uid else []
        if entry.mode & 0o020:
            users += self.users("gid", entry.gid)
        if entry.mode & 0o002:
            users.append(User(ANYBODY, ()))
        return users

    def users(self, kind: str, number: int) -> Sequence[User]:
        """The users of a uid or in a group. Somebody unknown stands for a group without known members, but for root's."""
        if (kind, number) not in self.known:
            found = self.accounts.users_of(number) if kind == "uid" else self.accounts.members_of(number)
            if kind == "gid" and number and not found:
                found = [User(ANYBODY, (number,))]
            self.known[kind, number] = found
        return self.known[kind, number]

    def guarded(self, subtree: CgroupPath) -> Iterator[Guarded]:
        """The entries that a containment of a subtree stands on, in the order of the guards; a long list for one that lies
        deep, and not kept."""
        yield from (Guarded(COMMON_ANCESTOR.word, place, PROCS) for place in ancestors(subtree))
        yield from (Guarded(LIMIT_FILE.word, subtree, file) for file in self.tree.limit_files(subtree))
        parent = parent_of(subtree)
        if parent is not None:
            yield Guarded(PARENT_CONTROL.word, parent, CONTROL)
            yield Guarded(PARENT_DIRECTORY.word, parent, DIRECTORY)

    def entry(self, path: CgroupPath, name: str) -> Entry:
        return self.tree.rows[path].entry(name)

    def reached(self, user: User, path: CgroupPath) -> Set[str]:
        row = self.tree.rows[path]
        return {name for name in HANDED_OVER if user.reaches(row.entry(name))}

    def reached_above(self, user: User, path: CgroupPath) -> Set[str]:
        """What a user reaches one level up. What is theirs at the root counts as handed to them at each cgroup below it, since
        the root is no subtree."""
        parent = parent_of(path)
        return set() if parent is None or is_root(parent) else self.reached(user, parent)

    def reached_newly(self, user: User, path: CgroupPath) -> Set[str]:
        """What is handed over at a cgroup, of which a user doesn't reach the same one level up."""
        return self.reached(user, path) - self.reached_above(user, path)

    def is_handed(self, user: User, path: CgroupPath) -> bool:
        """Whether a user reaches a part of a delegation that they don't one level up, or a limit though nothing is theirs there."""
        above = self.reached_above(user, path)
        if self.reached(user, path) - above:
            return True
        row = self.tree.rows[path]
        return not above and any(user.reaches(row.entry(file)) for file in self.tree.limit_files(path))

    def with_few_groups(self, user: User, first: Collection[int]) -> Tuple[User, List[int]]:
        """No more groups than a user of the program may have, and which of the tree's were left out: those of `first` go in
        before others of the tree, and these before groups that the tree has nowhere."""
        if len(user.gids) <= MOST_GROUPS:
            return user, []
        others = sorted(user.gids[1:], key=lambda gid: (gid not in first, gid not in self.gids_of_tree))
        left_out = [gid for gid in others[MOST_GROUPS - 1:] if gid in self.gids_of_tree]
        return User(user.uid, (user.gids[0], *sorted(others[:MOST_GROUPS - 1]))), left_out
