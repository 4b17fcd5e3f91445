"""From a snapshot and /proc to what processes have open of a hierarchy: every user's, and root's in a container.

A service of root's on the host itself can open what it likes, and isn't looked at.
"""
from typing import Iterable, List, Optional, Tuple

from zirofen_host.collect.bounded import ChargedUser
from zirofen_host.collect.descriptors import Descriptors, Held, Hierarchy, inodes_of
from zirofen_host.collect.inside import Inspection
from zirofen_host.collect.model import HeldEntry, PrivateMount, Process, Snapshot, Unheld
from zirofen_host.collect.processes import program_of

# what is held, what of it wasn't looked at, and the mounts of the hierarchy that users have in namespaces of their own
Found = Tuple[Tuple[HeldEntry, ...], Tuple[Unheld, ...], Tuple[PrivateMount, ...]]


def look(proc: str, found: Snapshot, charged_user: ChargedUser, containers: Optional[Inspection]) -> Found:
    """What is open, each once, and what else the processes of users tell."""
    hierarchy = Hierarchy(found.mount, inodes_of(found.places))
    roots = [pid for pid, process in found.processes.items() if not process.user.uid and not process.is_kernel_thread]
    users = [(process, process.user.uid) for process in found.processes.values() if process.user.uid]
    of_users = Descriptors(proc, charged_user, hierarchy, roots, found.about.kernel or "")
    held = {entry_of(proc, found.processes[each.pid], each): None for each in of_users.held(users)}
    unlooked = [Unheld(each.whose, None, each.why) for each in of_users.unlooked]
    if containers:
        more, unlooked_there = look_inside(proc, found, hierarchy, roots, containers)
        held.update(dict.fromkeys(more))
        unlooked += unlooked_there
    found_held = tuple(sorted(held, key=lambda each: (*each[:-1], each.holding.value)))
    return found_held, tuple(unlooked), tuple(of_users.mounts.private())


def look_inside(proc: str, found: Snapshot, hierarchy: Hierarchy, roots: Iterable[int],
                containers: Inspection) -> Tuple[List[HeldEntry], List[Unheld]]:
    """What processes of root's in a container have open, and couldn't open by a mount that they see; charged to each by itself."""
    units = {unit: number for number, unit in enumerate(sorted({containers.unit_of(pid) for pid in containers.pids}), 1)}
    looked = Descriptors(proc, int, hierarchy, roots, found.about.kernel or "")
    processes = [(found.processes[pid], units[containers.unit_of(pid)]) for pid in sorted(containers.pids)]
    held = [entry_of(proc, found.processes[each.pid], each) for each in looked.held(processes)
            if not containers.writes(each.pid, each.path)]
    by_number = {number: unit for unit, number in units.items()}
    return held, [Unheld(0, by_number[each.whose], each.why) for each in looked.unlooked]


def entry_of(proc: str, process: Process, held: Held) -> HeldEntry:
    return HeldEntry(process.user.uid, held.path, held.file, process.pid, program_of(proc, process.thread), held.holding)
