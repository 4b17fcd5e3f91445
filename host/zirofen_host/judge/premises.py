"""From one user and one subtree to lines of what their answer takes for granted and isn't so on this host."""
from typing import Iterable, Iterator

from zirofen_host.ask.held import held_in
from zirofen_host.collect.accounts import Accounts
from zirofen_host.collect.model import Snapshot, User
from zirofen_host.judge.running import is_one_domain
from zirofen_host.profile import CgroupPath, is_inside, shown


def lines_of(snapshot: Snapshot, accounts: Accounts, users: Iterable[User], subtree: CgroupPath) -> Iterator[str]:
    """A line for each process that runs in the subtree or is listed there, and not both, and for each entry that one of these users
    has open and couldn't open now."""
    for process in sorted(snapshot.processes.values(), key=lambda each: each.pid):
        places = process.places
        if any(is_inside(place, subtree) for place in places) and not is_one_domain(snapshot.cgroups, places):
            yield (f"process {process.pid} is listed in {shown(places[0])} and runs in {' '.join(map(shown, places[1:]))}, and the answer "
                   "takes it to run where it is listed")
    uids = {user.uid for user in users}
    for each, _ in held_in(snapshot, accounts):
        if each.uid in uids:
            yield (f"{each.file} at {shown(each.path)} is {each.holding.value} in process {each.pid} of theirs, and the answer takes "
                   "nobody to hold an entry open")
