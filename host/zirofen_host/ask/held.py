"""From a snapshot to the entries that processes have open and couldn't open now.

Who opened one isn't known: they may have had it from root, or from before it was taken from them.
"""
from typing import FrozenSet, Iterable, Iterator, Tuple

from zirofen_host.collect.accounts import Accounts
from zirofen_host.collect.model import Entry, HeldEntry, Snapshot, User

PROCS = "cgroup.procs"


def held_in(snapshot: Snapshot, accounts: Accounts) -> Iterator[Tuple[HeldEntry, Entry]]:
    """What is open so, with the entry as it is now. Of root's in a container it is what they see on no mount that they write."""
    for each in snapshot.held:
        cgroup = snapshot.cgroups.get(each.path)
        entry = cgroup.files.get(each.file) if cgroup else None
        if entry and not (each.uid and opens_now(snapshot, accounts, each, entry)):
            yield each, entry


def opens_now(snapshot: Snapshot, accounts: Accounts, held: HeldEntry, entry: Entry) -> bool:
    """Whether a holder could open an entry, as the process that has it open or as anybody of their uid."""
    process = snapshot.processes.get(held.pid)
    if process and "DAC_OVERRIDE" in process.capabilities:
        return True
    users: Iterable[User] = (*([process.user] if process else ()), *accounts.users_of(held.uid))
    return any(user.reaches(entry) for user in users)


def movers(snapshot: Snapshot, accounts: Accounts) -> FrozenSet[int]:
    """The uids that have a cgroup.procs open so: the guards alone are asked of these, since another list may begin by that."""
    return frozenset(each.uid for each, _ in held_in(snapshot, accounts) if each.file == PROCS)
