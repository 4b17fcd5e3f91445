"""From a host that was asked to the host itself in a report, of which a page or a tree can be drawn."""
from typing import Iterable, Tuple

from zirofen_host.ask.questions import unit_of
from zirofen_host.collect.attempts import Attempts
from zirofen_host.collect.model import Entry
from zirofen_host.collect.snapshot import value_of
from zirofen_host.collect.tree import in_order
from zirofen_host.files import CONTROL_FILES, WITHOUT_VALUE, is_other_limit
from zirofen_host.judge.checked import Checked
from zirofen_host.judge.findings import owner_of
from zirofen_host.judge.host_model import ABSENT, FileValue, ReportCgroup, ReportFile, ReportGroup, ReportProcess, ReportUser
from zirofen_host.profile import CgroupPath, shown, text_of


def users_of(checked: Checked) -> Iterable[ReportUser]:
    """All who were asked, who hold something or have a process, those who were asked with their groups."""
    for uid in sorted({*checked.asked, *checked.held, *(uid for _, uid, _ in checked.snapshot.tree.processes)}):
        yield ReportUser(uid, checked.names.user_name(uid), tuple(user.gids for user in checked.asked.get(uid, ())))


def groups_of(checked: Checked) -> Iterable[ReportGroup]:
    return (ReportGroup(gid, shown(name)) for gid, name in sorted(checked.names.groups.items()))


def cgroups_of(checked: Checked, attempts: Attempts) -> Tuple[ReportCgroup, ...]:
    return attempts.each("cgroups", in_order(checked.snapshot.cgroups), lambda path: cgroup_of(checked, path))


def cgroup_of(checked: Checked, path: CgroupPath) -> ReportCgroup:
    """A cgroup with the files that a tree text has, and other limits with what they have now. What can't be read has no value;
    it isn't read twice as the others are."""
    tree, found = checked.snapshot.tree, checked.snapshot.cgroups[path]
    row = tree.rows[path]
    others = {name: entry for name, entry in found.files.items() if is_other_limit(name)}
    files = {name: file_of(row.entry(name), row.values.get(name, ABSENT)) for name in (*CONTROL_FILES, *tree.limit_files(path))
             if name not in others}
    for name, entry in others.items():
        files[name] = file_of(entry, None if name in WITHOUT_VALUE else value_of(checked.snapshot, path, name))
    marks = {name: mark.decode("ascii", "replace") for name, mark in sorted(found.marks.items())}
    return ReportCgroup(text_of(path), owner_of(row.directory), row.enabled, unit_of(path), marks, files)


def file_of(entry: Entry, value: FileValue) -> ReportFile:
    owner = owner_of(entry)
    return ReportFile(owner.uid, owner.gid, owner.mode, value)


def processes_of(checked: Checked) -> Iterable[ReportProcess]:
    for pid, uid, at in sorted(checked.snapshot.tree.processes):
        found = checked.snapshot.processes[pid]
        yield ReportProcess(pid, uid, text_of(at), shown(found.name), found.capabilities)
