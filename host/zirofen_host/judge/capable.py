"""From the capabilities of processes to findings of those that pass over owners, and take an answer back.

These are processes of a user who holds something, or inside of what somebody holds.
"""
from collections import defaultdict
from typing import DefaultDict, Dict, Iterator, List, NamedTuple, Tuple

from zirofen_host.collect.model import OWNER
from zirofen_host.judge.checked import Checked
from zirofen_host.judge.finding_lines import CAPABILITY
from zirofen_host.judge.model import PremiseFinding, Whom
from zirofen_host.profile import CgroupPath, ancestors, text_of


class CapableUser(NamedTuple):
    """Processes of a user in one place: the nearest subtree that they are inside of, or else where they are."""
    place: CgroupPath
    is_inside: bool
    uid: int
    # the PIDs with each list of capabilities
    by_names: Tuple[Tuple[Tuple[str, ...], Tuple[int, ...]], ...]


def capable_users(checked: Checked) -> Iterator[CapableUser]:
    """Those inside of what somebody else than root holds, and everybody's but root's elsewhere."""
    asked = {path for path in checked.questions.subtrees if checked.questions.holders[path].by}
    found: DefaultDict[Tuple[CgroupPath, bool, int], Dict[Tuple[str, ...], List[int]]] = defaultdict(lambda: defaultdict(list))
    for pid, _, at in checked.snapshot.tree.processes:
        process = checked.snapshot.processes[pid]
        held = [place for place in (at, *ancestors(at)) if place in asked]
        if process.capabilities and (held or process.user.uid):
            found[held[0] if held else at, bool(held), process.user.uid][process.capabilities].append(pid)
    for (place, is_in, uid), by_names in sorted(found.items()):
        yield CapableUser(place, is_in, uid, tuple((names, tuple(pids)) for names, pids in sorted(by_names.items())))


def takes_back(checked: Checked, each: CapableUser) -> bool:
    """Whether what such processes can takes an answer back: root's are root's anyway."""
    return each.uid != 0 and (each.is_inside or each.uid in checked.held)


def findings(checked: Checked) -> Iterator[PremiseFinding]:
    for each in capable_users(checked):
        if takes_back(checked, each):
            names = sorted({f"CAP_{name}" for of, _ in each.by_names for name in of})
            pids = tuple(sorted(pid for _, of in each.by_names for pid in of))
            who = checked.names.user(each.uid)
            yield PremiseFinding(
                CAPABILITY, text_of(each.place), " ".join(names), (Whom(OWNER, each.uid, who, ()),),
                f"{who} has {' '.join(names)} there, and passes over owners and over these answers", pids,
                tuple(f"kill {pid}" for pid in pids), None, checked.makers.charged_user(each.uid))
