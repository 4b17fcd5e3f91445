"""From the delegations of a tree to lines."""
from typing import Dict

from zirofen_host.ask.delegations import Delegations
from zirofen_host.collect.model import User
from zirofen_host.fault import warn, write
from zirofen_host.profile import MOST_GROUPS, CgroupPath, text_of
from zirofen_host.show.lines import gids_text


def line(path: CgroupPath, user: User) -> str:
    return f"{user.uid}\t{gids_text(user.gids)}\t{text_of(path)}\n"


def write_lines(delegations: Delegations) -> bool:
    """A line for each, and one on standard error for a user whose groups don't all go in. Whether all that matter do."""
    found = delegations.find()
    first = {delegations.entry(each.path, each.name).gid for path in {each.path for each in found}
             for each in delegations.guarded(path)}
    lines, all_matter = [], True
    cut: Dict[int, int] = {}
    few = {user: delegations.with_few_groups(user, first) for user in {user for _, user in found}}
    for path, each in found:
        user, left_out = few[each]
        all_matter = all_matter and first.isdisjoint(left_out)
        cut.update({user.uid: len(left_out)} if left_out else {})
        lines.append(line(path, user))
    write(lines)
    for uid, count in sorted(cut.items()):
        warn(f"groups: uid {uid}: {count} of their groups that are in the tree left out: a user has {MOST_GROUPS} at most")
    return all_matter
