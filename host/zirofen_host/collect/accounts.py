"""From account files, subordinate ids and running processes to users, and who is in which group."""
import grp
import os
import pwd
from bisect import bisect_left, bisect_right
from collections import defaultdict
from functools import cached_property
from itertools import accumulate
from typing import DefaultDict, Dict, FrozenSet, Iterable, List, Mapping, Optional, Sequence, Set, Tuple

from zirofen_host.collect import bounded
from zirofen_host.collect.bounded import ChargedUser
from zirofen_host.collect.model import Account, AccountLists, Group, Process, Range, Snapshot, User, group_list, set_of_groups
from zirofen_host.fault import Fault
from zirofen_host.profile import LARGEST_ID


def lines_of(path: str, fields: int) -> List[List[str]]:
    """The lines of an account file, each cut at its colons; none where there is no such file."""
    try:
        text = bounded.read_file(path, bounded.ACCOUNT_FILE).text("utf-8", "replace")
    except FileNotFoundError:
        return []
    lines = [line.split(":") for line in text.split("\n") if not line.startswith("#")]
    return [line for line in lines if len(line) >= fields]


def is_id(word: str, most: int = LARGEST_ID) -> bool:
    """Whether a word is a uid or a gid, or a number up to some other one."""
    return word.isascii() and word.isdigit() and len(word) <= 20 and int(word) <= most


def read_ranges(path: str) -> Tuple[Range, ...]:
    return tuple(Range(owner, int(first), int(count)) for owner, first, count in
                 (line[:3] for line in lines_of(path, 3)) if is_id(first) and is_id(count, LARGEST_ID + 1))


def read_folder(folder: str) -> AccountLists:
    """The account files of a folder, which is /etc on a host."""
    if not (os.path.isfile(f"{folder}/passwd") or os.path.isfile(f"{folder}/group")):
        raise Fault(f"there are no accounts in {folder!r}: neither passwd nor group")
    accounts = [Account(name, int(uid), int(gid)) for name, _, uid, gid in
                (line[:4] for line in lines_of(f"{folder}/passwd", 4)) if is_id(uid) and is_id(gid)]
    groups = [Group(int(gid), tuple(members.split(",")) if members else (), name) for name, _, gid, members in
              (line[:4] for line in lines_of(f"{folder}/group", 4)) if is_id(gid)]
    return AccountLists(tuple(accounts), tuple(groups), read_ranges(f"{folder}/subuid"), read_ranges(f"{folder}/subgid"))


def read_host(users: Iterable[User]) -> AccountLists:
    """All that the host's own look-up lists, which may be more than its files; and the accounts of some users who aren't listed,
    and yet there where they are asked for."""
    accounts = [Account(each.pw_name, each.pw_uid, each.pw_gid) for each in pwd.getpwall()]
    groups = [Group(each.gr_gid, tuple(each.gr_mem), each.gr_name) for each in grp.getgrall()]
    for uid in {user.uid for user in users if user.uid} - {each.uid for each in accounts}:
        try:
            found = pwd.getpwuid(uid)
        except KeyError:
            continue
        accounts.append(Account(found.pw_name, uid, found.pw_gid))
        groups += [Group(gid, (found.pw_name,)) for gid in os.getgrouplist(found.pw_name, found.pw_gid)]
    return AccountLists(tuple(accounts), tuple(groups), read_ranges("/etc/subuid"), read_ranges("/etc/subgid"))


class Counted:
    """Ranges in order, each with how many numbers its owner has in those before it as they were given."""

    def __init__(self, ranges: Iterable[Range]) -> None:
        counts: DefaultDict[str, int] = defaultdict(int)
        self.ranges: List[Tuple[int, int, str, int]] = []
        for each in ranges:
            self.ranges.append((each.first, each.first + each.count, each.owner, counts[each.owner]))
            counts[each.owner] += each.count
        self.ranges.sort()
        self.firsts = [first for first, _, _, _ in self.ranges]
        # where ranges overlap, how far those up to each one go
        self.furthest = list(accumulate((end for _, end, _, _ in self.ranges), lambda one, other: max(one, other)))

    def owners(self, number: int) -> List[Tuple[str, int]]:
        """Whose ranges have a number, and its place in all that the owner has."""
        found = []
        place = bisect_right(self.firsts, number) - 1
        while place >= 0 and self.furthest[place] > number:
            first, end, owner, before = self.ranges[place]
            if number < end:
                found.append((owner, before + number - first))
            place -= 1
        return found[::-1]


def number_at(ranges: Iterable[Range], owner: str, place: int) -> Optional[int]:
    """The number at a place of all that an owner has, or None."""
    for each in ranges:
        if each.owner == owner:
            if place < each.count:
                return each.first + place
            place -= each.count
    return None


class Accounts:
    """The users that may stand behind a uid or a gid of an entry."""

    def __init__(self, lists: AccountLists = AccountLists(), users: Iterable[User] = ()) -> None:
        self.lists = lists
        self.running = {user for user in users if user.uid != 0}
        self._persons: Dict[int, Set[int]] = {}
        self._charged_users: Dict[int, int] = {}

    @cached_property
    def owners_of_uids(self) -> Counted:
        return Counted(self.lists.subordinate_uids)

    @cached_property
    def owners_of_gids(self) -> Counted:
        return Counted(self.lists.subordinate_gids)

    @cached_property
    def known(self) -> Tuple[Mapping[int, Sequence[User]], Mapping[int, Sequence[User]]]:
        """The users of accounts and of running processes, by uid and by gid, each in order and once."""
        gids: DefaultDict[str, Set[int]] = defaultdict(set)
        for group in self.lists.groups:
            for member in group.members:
                gids[member].add(group.gid)
        by_uid: DefaultDict[int, List[User]] = defaultdict(list)
        by_gid: DefaultDict[int, List[User]] = defaultdict(list)
        users = {User(each.uid, group_list((each.gid, *sorted(gids[each.name] - {each.gid})))) for each in self.lists.accounts}
        for user in distinct(users | self.running):
            by_uid[user.uid].append(user)
            for gid in set_of_groups(user.gids):
                by_gid[gid].append(user)
        return by_uid, by_gid

    def users_of(self, uid: int) -> List[User]:
        """The users with a uid: of accounts, of running processes, of subordinate ids; else the uid alone."""
        known = self.known[0].get(uid, ())
        if known:
            return list(known)
        gids = (number_at(self.lists.subordinate_gids, owner, place) for owner, place in self.owners_of_uids.owners(uid))
        return distinct({User(uid, () if gid is None else (gid,)) for gid in gids}) or [User(uid, ())]

    def members_of(self, gid: int) -> List[User]:
        """The users in a group, root left out."""
        users = [user for user in self.known[1].get(gid, ()) if user.uid != 0]
        for owner, place in self.owners_of_gids.owners(gid):
            uid = number_at(self.lists.subordinate_uids, owner, place)
            user = User(gid if uid is None else uid, (gid,))
            # those that are known may have long lists, and aren't compared with one another again
            at = bisect_left(users, user)
            if user.uid != 0 and users[at:at + 1] != [user]:
                users.insert(at, user)
        return users

    @cached_property
    def names(self) -> Mapping[int, str]:
        """The accounts' names by uid."""
        names: Dict[int, str] = {}
        for account in self.lists.accounts:
            names.setdefault(account.uid, account.name)
        return names

    @cached_property
    def uids(self) -> Mapping[str, int]:
        return {account.name: account.uid for account in self.lists.accounts}

    def uid_of(self, owner: str) -> Optional[int]:
        """The uid of an owner of ranges, who is named or numbered."""
        return self.uids.get(owner, int(owner) if is_id(owner) else None)

    def persons(self, uid: int) -> Set[int]:
        """The uids of whoever stands behind a uid: their own, and that of whose subordinate ids it is one."""
        if uid not in self._persons:
            owners = {self.uid_of(owner) for owner, _ in self.owners_of_uids.owners(uid)}
            self._persons[uid] = {uid} | {owner for owner in owners if owner is not None}
        return self._persons[uid]

    def roots(self, uid: int) -> Set[int]:
        """Whoever has a uid that is no account's among their subordinate ones, or that uid itself."""
        return {uid} if uid in self.names else self.persons(uid) - {uid} or {uid}

    def charged_user(self, uid: int) -> int:
        """To whom is charged what a uid made: to themselves, or to whose subordinate uid it is. Root pays for nobody."""
        if uid not in self._charged_users:
            self._charged_users[uid] = min(self.roots(uid) - {0}, default=uid)
        return self._charged_users[uid]

    def subordinate_to(self, uid: int) -> Sequence[Range]:
        """The ranges of subordinate uids of an account."""
        return self.ranges_by_uid.get(uid, ())

    @cached_property
    def ranges_by_uid(self) -> Mapping[Optional[int], Sequence[Range]]:
        found: DefaultDict[Optional[int], List[Range]] = defaultdict(list)
        for each in self.lists.subordinate_uids:
            found[self.uid_of(each.owner)].append(each)
        return found


def distinct(users: Iterable[User]) -> List[User]:
    """Users in order, without those that differ only in the order of their further groups."""
    kept: Dict[Tuple[int, Tuple[int, ...], FrozenSet[int]], User] = {}
    for user in sorted(users):
        kept.setdefault((user.uid, user.gids[:1], set_of_groups(user.gids)), user)
    return list(kept.values())


def accounts_here(folder: Optional[str], processes: Iterable[Process]) -> Accounts:
    """The accounts of a folder, or else this host's."""
    users = {process.user for process in processes}
    return Accounts(read_folder(folder) if folder else read_host(users), users)


def charged_user_of(folder: Optional[str]) -> ChargedUser:
    """By whom uids are paid for, as the accounts of a folder or of this host have it; each for itself where these can't be read."""
    try:
        return Accounts(read_folder(folder) if folder else read_host(())).charged_user
    except (Fault, OSError):
        return int


def accounts_of(folder: Optional[str], snapshot: Snapshot) -> Accounts:
    """The accounts of a folder, those that a text carries, or else this host's. A text without any is judged by number: a uid is in
    no group, a group has no members, and no ids are subordinate."""
    source = snapshot.source
    if folder or source.file is None:
        return accounts_here(folder, snapshot.known_processes)
    lists = source.carried.accounts if source.carried else AccountLists()
    return Accounts(lists, {process.user for process in snapshot.known_processes})
