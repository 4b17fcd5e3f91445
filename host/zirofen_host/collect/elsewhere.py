"""From a snapshot of a host to a text for a check elsewhere, and from such a text back to a snapshot.

Comments of a text carry what the tree has no place for (`carried`): all of what a check on the host itself would have looked at, but for
the settings of units.
"""
from dataclasses import dataclass, replace
from typing import Any, Callable, Dict, Iterable, Iterator, Mapping, Set, Tuple

from zirofen_host.collect import carried as carrying
from zirofen_host.collect import containers, fitting
from zirofen_host.collect import snapshot as snapshots
from zirofen_host.collect.accounts import Accounts
from zirofen_host.collect.carried import Records
from zirofen_host.collect.makers import Makers
from zirofen_host.collect.model import (About, AccountLists, Carried, Cgroup, Entry, Process, Row, Scope, Snapshot, Source, Tree, User)
from zirofen_host.collect.mount import read_kernel_list
from zirofen_host.collect.notes import LimitsOfVersion1, Note, OtherType
from zirofen_host.fault import Fault
from zirofen_host.files import CONTROL_FILES, DIRECTORY, NUMBER_FILES, OF_LIMITS, is_known, is_other_limit
from zirofen_host.options import Options
from zirofen_host.profile import CgroupPath, is_root, text_of


@dataclass(frozen=True)
class Accepted:
    """A text that the program takes: a copy of the file, its text and its tree."""
    file: str
    text: str
    tree: Tree


def read(accepted: Accepted, mount: str) -> Snapshot:
    """A snapshot as it is read back from a text; where the text doesn't name the mount, it is the given one."""
    tree = with_defaults(accepted.tree)
    found = gather(accepted.text, tree)
    host, notes, rows = found.last(carrying.HOST), tuple(found.all(carrying.NOTE)), tree.rows
    cgroups = cgroups_of(tree, found)
    scopes = tuple(each for each in found.all(carrying.SCOPE) if each.path in rows)
    return Snapshot(about=About(host.host, host.kernel, host.time) if host else About(), mount=host.mount if host else mount,
                    mount_options=host.options if host else (), cgroups=cgroups, tree=tree, processes=processes_of(tree, found),
                    kernel_threads=0, places={}, notes=notes, version_1=version_1_in(notes),
                    kernel_list=frozenset(host.delegate if host else ()) or read_kernel_list(None),
                    changing={each.path: each.why for each in found.all(carrying.CHANGING)}, unanswerable={},
                    source=Source(accepted.file, carried_by(found) if host else None, found.last(carrying.OPTIONS) or Options()),
                    inside=tuple(each for each in found.all(carrying.INSIDE) if each.path in rows), held=tuple(found.all(carrying.HELD)),
                    unheld=tuple(found.all(carrying.UNHELD)), mounts=tuple(found.all(carrying.MOUNT)),
                    private=tuple(found.all(carrying.PRIVATE)),
                    covered=tuple(each for each in found.all(carrying.COVERED) if each.path in rows),
                    scopes=scopes or (by_cgroups(cgroups) if host else ()),
                    in_hosts_namespace=tuple(each for each in found.all(carrying.SHARING) if each in rows))


def gather(text: str, tree: Tree) -> Records:
    """What the comments of a text carry."""
    found = Records()
    pids: Set[int] = set()
    for line in carrying.records_in(text):
        try:
            made = found.take(line)
            pids.update({made.pid} if isinstance(made, Process) else ())
            # what isn't in the tree, or of no process before it, is none
            if isinstance(made, carrying.CarriedCgroup) and made.path not in tree.rows:
                raise KeyError
            if isinstance(made, carrying.Runs) and made.pid not in pids:
                raise KeyError
        except (KeyError, IndexError, TypeError, ValueError, RecursionError):
            raise Fault(f"line {line.number} of the text: what it carries isn't known") from None
    return found


def processes_of(tree: Tree, found: Records) -> Dict[int, Process]:
    """The processes that a text carries, with what those tell that run elsewhere, and those of the tree alone."""
    processes = {process.pid: process for process in found.all(carrying.PROCESS)}
    for runs in found.all(carrying.RUNS):
        processes[runs.pid] = replace(processes[runs.pid], **runs._asdict())
    for pid, uid, _ in tree.processes:
        processes.setdefault(pid, Process(pid, uid, User(uid, ()), False))
    return processes


def carried_by(found: Records) -> Carried:
    lists = AccountLists(tuple(found.all(carrying.ACCOUNT)), tuple(found.all(carrying.GROUP)), tuple(found.all(carrying.SUBUID)),
                         tuple(found.all(carrying.SUBGID)))
    values = {(each.path, name): value for each in found.all(carrying.CGROUP) for name, value in each.values.items()}
    return Carried(lists, values, carrying.DESCRIPTORS in (found.last(carrying.LOOKED) or ()), found.unknown)


def by_cgroups(cgroups: Mapping[CgroupPath, Cgroup]) -> Tuple[Scope, ...]:
    """Containers as far as their cgroups tell, where a text of a host of 0.2.0 carries none: no file of this host names them."""
    return tuple(containers.scopes(cgroups, names=containers.NoFiles()))


def with_defaults(tree: Tree) -> Tree:
    """A tree with the values that aren't written since they are the default. The root has no limits."""
    rows = {}
    for path, row in tree.rows.items():
        values = {name: NUMBER_FILES[name].usual for name in tree.limit_files(path) if name in NUMBER_FILES}
        rows[path] = row if is_root(path) else replace(row, values={**values, **row.values})
    return replace(tree, rows=rows)


def cgroups_of(tree: Tree, found: Records) -> Dict[CgroupPath, Cgroup]:
    """Cgroups as the tree has them, with what is carried of each."""
    files: Dict[CgroupPath, Dict[str, Entry]] = {path: {} for path in tree.rows}
    marks: Dict[CgroupPath, Dict[str, bytes]] = {path: {} for path in tree.rows}
    for each in found.all(carrying.CGROUP):
        files[each.path].update(each.files)
        marks[each.path].update(each.marks)
    # what a cgroup's type is, where a note tells that it isn't in domain mode
    kinds = {note.place: note.text.partition(":")[0] for note in reversed(found.all(carrying.NOTE)) if note.kind == OtherType.kind}
    return {path: cgroup_of(tree, row, files[path], marks[path], kinds.get(text_of(path), "domain")) for path, row in tree.rows.items()}


def cgroup_of(tree: Tree, row: Row, carried: Mapping[str, Entry], marks: Mapping[str, bytes], kind: str) -> Cgroup:
    own = {name: row.entry(name) for name in (*CONTROL_FILES, *tree.limit_files(row.path))}
    others = {name: entry for name, entry in carried.items() if name != DIRECTORY}
    return Cgroup(carried.get(DIRECTORY, row.directory), {**own, **others}, {}, {}, row.enabled, (), kind, marks, ())


def version_1_in(notes: Iterable[Note]) -> Tuple[str, ...]:
    """The controllers with limits of version 1, which a note names."""
    words = {word.strip(",") for note in notes if note.kind == LimitsOfVersion1.kind for word in note.text.split()}
    return tuple(sorted(words & OF_LIMITS))


def carried(snapshot: Snapshot, accounts: Accounts) -> Iterator[str]:
    """What a text carries beside its tree, as lines of comments."""
    about, lists = snapshot.about, accounts.lists
    running = [process for process in snapshot.processes.values() if not process.is_kernel_thread]
    yield carrying.HOST.line(carrying.Host(about.host, about.kernel, about.time, snapshot.mount, snapshot.mount_options,
                                           tuple(sorted(snapshot.kernel_list))))
    yield from map(carrying.NOTE.line, snapshot.notes)
    yield from (carrying.CGROUP.line(carried_of(snapshot, path, found)) for path, found in snapshot.cgroups.items())
    yield from map(carrying.PROCESS.line, running)
    yield carrying.LOOKED.line((carrying.DESCRIPTORS,))
    yield from (carrying.RUNS.line(process) for process in running if process.places or process.is_headless)
    others: Tuple[Tuple[carrying.Record[Any], Iterable[Any]], ...] = (
        (carrying.HELD, snapshot.held), (carrying.UNHELD, snapshot.unheld), (carrying.INSIDE, snapshot.inside),
        (carrying.MOUNT, snapshot.mounts), (carrying.PRIVATE, snapshot.private), (carrying.COVERED, snapshot.covered),
        (carrying.SHARING, snapshot.in_hosts_namespace), (carrying.SCOPE, snapshot.scopes),
        (carrying.ACCOUNT, lists.accounts), (carrying.GROUP, lists.groups),
        (carrying.SUBUID, lists.subordinate_uids), (carrying.SUBGID, lists.subordinate_gids))
    for record, found in others:
        yield from map(record.line, found)


def narrowing(options: Options) -> Iterator[str]:
    """By which options less of a host was looked at than there is, as a line of a text."""
    if carrying.OPTIONS.to_json(options) != carrying.OPTIONS.to_json(Options()):
        yield carrying.OPTIONS.line(options)


def carried_of(snapshot: Snapshot, path: CgroupPath, found: Cgroup) -> carrying.CarriedCgroup:
    """What a text carries of a cgroup: other files than the tree's, as far as they matter, other limits, and marks."""
    row = snapshot.tree.rows[path]
    others = {name: entry for name, entry in found.files.items()
              if is_other_limit(name) or not is_known(name) or entry.is_reached or entry.mode > 0o777}
    # what the row tells isn't carried again
    in_tree = {name for name in row.text_files if row.files[name] == others.get(name)}
    if found.directory.mode > 0o777:
        others[DIRECTORY] = found.directory
    values = {name: value for name in others if is_other_limit(name) and name not in row.values
              and (value := snapshots.value_of(snapshot, path, name)) is not None}
    return carrying.CarriedCgroup(path, {name: entry for name, entry in others.items() if name not in in_tree}, values, found.marks)


def text_with(snapshot: Snapshot, lines: Iterable[str], with_processes: bool) -> str:
    """The tree text of a snapshot with what it carries."""
    return snapshots.tree_text(snapshot, with_processes) + carrying.text_of_lines(lines)


def fitting_text(snapshot: Snapshot, makers: Makers, lines: Callable[[Snapshot], Iterable[str]],
                 with_processes: bool) -> Tuple[Snapshot, str]:
    """One text with what it carries, and what it is of: what is inside of whoever has most is left out until it fits."""
    if not with_processes:
        snapshot = replace(snapshot, tree=replace(snapshot.tree, processes=()))
    snapshot, most = fitting.fitted(snapshot, makers), snapshot.tree.format.longest
    while True:
        text = text_with(snapshot, lines(snapshot), with_processes)
        if len(text) <= most:
            return snapshot, text
        person = fitting.heaviest(snapshot, makers, fitting.length(snapshot))
        if person is None:
            raise Fault(f"{len(text)} bytes, and a tree text has {most} at most: --only PATH writes less, and so does a text "
                        "without --with-host, whose accounts are named by --accounts")
        snapshot = fitting.without_inside(snapshot, makers, person, most, "bytes")
