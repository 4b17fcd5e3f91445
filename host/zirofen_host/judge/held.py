"""From entries that processes have open and couldn't open now to findings: seen by the helper, and not proved."""
from collections import defaultdict
from typing import DefaultDict, Dict, Iterable, Iterator, List, NamedTuple, Sequence

from zirofen_host.ask.held import PROCS, held_in
from zirofen_host.collect.model import OWNER, DescriptorKind, Entry, HeldEntry
from zirofen_host.judge.checked import Checked
from zirofen_host.judge.host_model import ABSENT, Owner
from zirofen_host.judge.model import HeldFinding, Subtree, Whom, Within
from zirofen_host.profile import CgroupPath, parent_of, shown, text_of


CONTROL = "cgroup.subtree_control"


class Holder(NamedTuple):
    """An entry and what has it open: a program of a user's."""
    path: CgroupPath
    file: str
    uid: int
    program: str


def findings(checked: Checked) -> Iterator[HeldFinding]:
    """Each entry once for each program of each user that has it open."""
    by: DefaultDict[Holder, List[HeldEntry]] = defaultdict(list)
    entries: Dict[Holder, Entry] = {}
    for each, entry in held_in(checked.snapshot, checked.questions.accounts):
        holder = Holder(each.path, each.file, each.uid, each.program)
        by[holder].append(each)
        entries[holder] = entry
    for holder in sorted(by):
        yield finding(checked, holder, entries[holder], by[holder])


def finding(checked: Checked, holder: Holder, entry: Entry, held: Sequence[HeldEntry]) -> HeldFinding:
    pids = tuple(sorted({each.pid for each in held}))
    whom = Whom(OWNER, holder.uid, checked.names.user(holder.uid), ())
    how = {each.holding for each in held}
    return HeldFinding(text_of(holder.path), holder.file, Owner(entry.uid, entry.gid, f"{entry.mode:03o}"), (whom,), shown(holder.program),
                       pids, tuple(sorted(each.value for each in how)), how != {DescriptorKind.PERHAPS},
                       tuple(f"kill {pid}" for pid in pids), None, made_by(checked, holder.uid))


def made_by(checked: Checked, uid: int) -> Within:
    """To whom what a process of somebody's does is charged; root's is charged to nobody."""
    return checked.makers.charged_user(uid) if uid else ABSENT


def is_changed_by(subtree: Subtree, uids: Iterable[int], found: Iterable[HeldFinding]) -> bool:
    """Whether what some users were answered of a subtree is changed by what one of them has open: a cgroup.procs moves processes from
    anywhere, the parent's cgroup.subtree_control takes limit files away, and a file of the subtree's own top sets its limit."""
    holders, above = set(uids), parent_of(subtree.path)
    return any(each.whom[0].id in holders and (each.file == PROCS or each.path == subtree.path
                                               or (each.path, each.file) == (above, CONTROL)) for each in found)
