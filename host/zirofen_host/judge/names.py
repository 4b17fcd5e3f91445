"""From uids and gids to names, as a line can show them."""
from dataclasses import dataclass
from typing import Callable, Mapping, Optional, Sequence

from zirofen_host.collect.accounts import Accounts
from zirofen_host.collect.model import GROUP, Range, User
from zirofen_host.profile import ANYBODY, shown


# from where systemd takes uids of a service with DynamicUser=, and of a container with a user namespace (systemd's UIDS-GIDS)
RANGES = (("a dynamic user's", 61184, 65519), ("nspawn's range", 524288, 1879048191))


@dataclass(frozen=True)
class Names:
    """The names of a host's accounts, by uid and by gid."""
    users: Mapping[int, str]
    groups: Mapping[int, str]
    # whose a subordinate uid is, or else that uid
    charged_user: Callable[[int], int] = int
    # ranges of owners who have no account, as those that engines take uids from
    ranges: Sequence[Range] = ()

    def range_of(self, uid: int) -> Optional[str]:
        """What range a uid is of that has no account."""
        owner = self.charged_user(uid)
        if uid in self.users:
            return None
        if owner != uid:
            return f"a subordinate id of {self.user_name(owner) or owner}'s"
        found = next((each.owner for each in self.ranges if each.first <= uid < each.first + each.count), None)
        if found is not None:
            return f"a subordinate id of {shown(found)}'s"
        return next((name for name, first, last in RANGES if first <= uid <= last), None)

    def user(self, uid: int) -> str:
        return f"{shown(self.users[uid])}({uid})" if uid in self.users else f"uid {uid}"

    def user_name(self, uid: int) -> Optional[str]:
        return shown(self.users[uid]) if uid in self.users else None

    def member(self, uid: int) -> str:
        """A member of a group, who may be unknown."""
        return self.user(uid) if uid != ANYBODY else "members unknown"

    def who(self, user: User) -> str:
        """A user as they were asked of; uid 65534 stands for somebody of whom nothing or a group alone is known."""
        if user.uid != ANYBODY:
            return self.user(user.uid)
        return f"a member of {self.group(user.gids[0])}" if user.gids else "anybody"

    def group(self, gid: int) -> str:
        return f"group {shown(self.groups[gid])}({gid})" if gid in self.groups else f"group {gid}"

    def by_class(self, by: str, number: Optional[int]) -> str:
        """Somebody that an entry lets in."""
        return "everybody" if number is None else self.group(number) if by == GROUP else self.user(number)


def names_of(accounts: Accounts) -> Names:
    ranges = [each for each in accounts.lists.subordinate_uids if each.owner not in set(accounts.names.values())]
    return Names(accounts.names, {group.gid: group.name for group in accounts.lists.groups if group.name}, accounts.charged_user, ranges)
