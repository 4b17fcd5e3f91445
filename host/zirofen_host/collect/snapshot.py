"""From what was found on a host to a tree that the format carries, with a note of each thing changed or left out."""
import os
import time
from collections import Counter
from dataclasses import replace
from typing import Callable, Container, Dict, Iterable, Iterator, List, Mapping, Optional, Sequence, Set, Tuple

from zirofen_host.collect import containers, held, inside, walk
from zirofen_host.collect.accounts import charged_user_of
from zirofen_host.collect.agreement import Agreed, walk_until_agreed
from zirofen_host.collect.attempts import Attempts
from zirofen_host.collect.bounded import ChargedUser
from zirofen_host.collect.further_mounts import further_mounts
from zirofen_host.collect.model import About, Cgroup, Covered, Entry, Inside, Placed, Process, Row, Scope, Snapshot, Tree, Value
from zirofen_host.collect.mount import Mounts, mounts_of_folder, read_kernel_list, refuse_what_is_no_host
from zirofen_host.collect.notes import (ANY_MODE, Changing, FileOfNoController, LimitsOfVersion1, NamedAsFile, NoFile, Note, NoValue,
                                        OtherControllers, OtherModes, OtherPid, OtherType, OtherValue, ProcessesBeside,
                                        UnknownProcess, UnlistedProcesses, WrongName)
from zirofen_host.collect.once import reached_in
from zirofen_host.collect.processes import Reader, lacking_notes
from zirofen_host.collect.tree import tree_text as text_of_tree
from zirofen_host.fault import Fault
from zirofen_host.files import CONTROL_FILES, TEXT_FILES, KERNEL_LIST, KINDS, NUMBER_FILES, accepts
from zirofen_host.options import PROC, Options
from zirofen_host.profile import (LARGEST_PID, ROOT, CgroupPath, TextFormat, ancestors, is_inside, is_line, is_root, parent_of, shown,
                                  text_of, topmost)

NOTHING_HELD: held.Found = (), (), ()
# names of files that may stand nowhere yet
KNOWN = {name.encode() for name in (*KINDS, *TEXT_FILES)}

Cgroups = Mapping[CgroupPath, Cgroup]
# the subtrees that are asked of, by a snapshot that may have changed while it was taken, and by what changed
SubtreesOf = Callable[[Snapshot, walk.Whys], Iterable[CgroupPath]]


def changing_notes(changing: walk.Whys) -> Iterator[Note]:
    for path in sorted(topmost(changing)):
        yield Changing(shown(path), changing[path])


def name_notes(walked: walk.Walk) -> Iterator[Note]:
    for path, count in sorted(walked.left_out.items()):
        yield WrongName(shown(path), count - 1)
    files = {*map(os.fsencode, {file for found in walked.found.values() for file in found.files}), *KNOWN}
    for path in sorted({*walked.found, *walked.left_out}):
        if path.rpartition(b"/")[2] in files:
            yield NamedAsFile(shown(path))


def controller_notes(cgroups: Cgroups, text_format: TextFormat) -> Iterator[Note]:
    """Controllers that a format leaves out, as far as a cgroup enables them."""
    others = Counter(name for found in cgroups.values() for name in found.enabled if name not in text_format.controllers)
    if others:
        yield OtherControllers("/", tuple(sorted(others.items())))


def process_notes(reader: Reader) -> Iterator[Note]:
    for pid in sorted(reader.unknown):
        yield UnknownProcess("/", pid)


def version_1_notes(mounts: Mounts) -> Iterator[Note]:
    """Controllers of limits that a version 1 hierarchy has are no part of what is looked at."""
    names = mounts.limits_of_version_1()
    if names:
        yield LimitsOfVersion1("/", names)


class Conversion:
    """What a tree text carries of cgroups, with a note of each thing that it changes or leaves out."""

    def __init__(self, cgroups: Cgroups, text_format: TextFormat, covered: Container[Tuple[CgroupPath, str]] = ()) -> None:
        self.cgroups = cgroups
        # files over which something is mounted
        self.covered = covered
        self.text_format = text_format
        self.notes: List[Note] = []
        # the entries of the cgroup whose row is made that have more in their modes than a text has
        self.modes: List[Tuple[str, int]] = []
        # the limit files of format 4 that a text has, by the table of files that cgroups with the same ones share
        self.reached: Dict[int, List[str]] = {}

    def row(self, path: CgroupPath, found: Cgroup) -> Row:
        if found.kind != "domain":
            self.notes.append(OtherType(text_of(path), found.kind))
        self.modes = []
        directory = self.plain("dir", found.directory)
        files = {file: self.plain(file, found.files[file]) for file in CONTROL_FILES}
        values: Dict[str, Value] = {}
        parent = parent_of(path)
        available = self.cgroups[parent].enabled if parent else ()
        for file, limit in NUMBER_FILES.items():
            stands = limit.is_brought_by(available)
            if file not in found.files:
                if stands and parent and (path, file) not in self.covered:
                    self.notes.append(NoFile(text_of(path), file, limit.usual))
            elif stands:
                files[file] = self.plain(file, found.files[file])
                values[file] = self.value(path, file, found.texts[file])
            else:
                self.notes.append(FileOfNoController(text_of(path), file, limit.controller))
        for file in self.text_files(path, found, available):
            files[file] = self.plain(file, found.files[file])
            value = self.text_value(path, file, found.read.get(file, ""))
            if value is not None:
                values[file] = value
        if self.modes:
            self.notes.append(OtherModes(text_of(path), tuple(self.modes)))
        return Row(path, directory, files, values, tuple(name for name in self.text_format.controllers if name in found.enabled))

    def text_files(self, path: CgroupPath, found: Cgroup, available: Sequence[str]) -> List[str]:
        """The limit files of format 4 that a text has: those that somebody but root reaches, and that the parent brings."""
        reached = self.reached.get(id(found.files))
        if reached is None:
            reached = self.reached[id(found.files)] = reached_in(found.files) if self.text_format.text_files else []
        if not reached or is_root(path):
            return []
        brought = [file for file in reached if TEXT_FILES[file].is_brought_by(available)]
        for file in sorted(set(reached).difference(brought)):
            self.notes.append(FileOfNoController(text_of(path), file, TEXT_FILES[file].controller))
        return brought

    def text_value(self, path: CgroupPath, file: str, text: str) -> Optional[str]:
        """What such a file has, as lines of a text. Nothing is in one that isn't set, or that wasn't read."""
        lines = [line.rstrip(" ") for line in text.split("\n")]
        if text and all(map(is_line, lines)):
            return "\n".join(lines)
        if text:
            self.notes.append(NoValue(text_of(path), file, text))
        return None

    def plain(self, name: str, entry: Entry) -> Entry:
        """An entry without what its mode has beside read, write and search: its owner may give such a mode to each of many files, and
        it is one note of a cgroup."""
        if entry.mode <= ANY_MODE:
            return entry
        self.modes.append((name, entry.mode))
        return Entry(entry.uid, entry.gid, entry.mode & ANY_MODE)

    def value(self, path: CgroupPath, file: str, text: str) -> Value:
        value: Value = int(text) if text.isdigit() and len(text) <= 20 else text
        if accepts(file, value):
            return value
        replacement = 1 if value == 0 else NUMBER_FILES[file].usual
        self.notes.append(OtherValue(text_of(path), file, text, replacement))
        return replacement

    def places(self) -> Dict[int, CgroupPath]:
        """Where each process is that a tree text can carry."""
        places = {}
        for path, found in self.cgroups.items():
            if found.pids is None:
                self.notes.append(UnlistedProcesses(text_of(path)))
            for pid in found.pids or ():
                if 1 <= pid <= LARGEST_PID:
                    places[pid] = path
                else:
                    self.notes.append(OtherPid(text_of(path), pid))
        return places

    def placed(self, rows: Mapping[CgroupPath, Row], processes: Mapping[int, Process]) -> Tuple[List[Placed], int]:
        """The processes of a tree text, and how many kernel threads aren't among them."""
        placed, threads = [], 0
        beside: Counter[CgroupPath] = Counter()
        for pid, path in self.places().items():
            process = processes.get(pid)
            if process is None:
                continue
            if process.is_kernel_thread:
                threads += 1
            elif rows[path].enabled and not is_root(path):
                beside[path] += 1
            else:
                placed.append(Placed(pid, process.uid, path))
        for path, count in sorted(beside.items()):
            self.notes.append(ProcessesBeside(text_of(path), count, rows[path].enabled))
        return placed, threads


def about_this_host() -> About:
    names = os.uname()
    return About(names.nodename, f"{names.sysname} {names.release}", time.strftime("%Y-%m-%dT%H:%M:%SZ", time.gmtime()))


def snapshot_of(agreed: Agreed, reader: Reader, options: Options, mounts: Mounts) -> Snapshot:
    """What was found of this host, as a snapshot."""
    walked, processes = agreed.walk, reader.found
    cgroups: Cgroups = walked.found
    root = cgroups[ROOT]
    text_format = options.text_format
    conversion = Conversion(cgroups, text_format, walked.covered)
    conversion.notes += [*changing_notes(agreed.changing), *name_notes(walked), *controller_notes(cgroups, text_format),
                         *process_notes(reader)]
    attempts = Attempts()
    rows = {row.path: row for row in attempts.each("cgroups", cgroups, lambda path: conversion.row(path, cgroups[path]))}
    kept = walk.whole(rows)
    rows = kept if len(kept) < len(rows) else rows
    cgroups = {path: cgroups[path] for path in rows}
    placed, threads = conversion.placed(rows, processes)
    tree = Tree(tuple(name for name in text_format.controllers if name in root.available), rows, placed, text_format)
    lacking = () if options.plain_folder else attempts.all("capabilities", lambda: lacking_notes(PROC))
    kernel_list = attempts.at("delegate", lambda: read_kernel_list(None if options.plain_folder else KERNEL_LIST), read_kernel_list(None))
    return Snapshot(about=about_this_host(), mount=options.mount, mount_options=tuple(mounts.options(options.mount)), cgroups=cgroups,
                    tree=tree, processes=processes, kernel_threads=threads, places=walked.places,
                    kernel_list=kernel_list,
                    notes=(*conversion.notes, *version_1_notes(mounts), *lacking, *reader.failed, *attempts.failed),
                    changing=agreed.changing, unanswerable=agreed.unanswerable,
                    version_1=mounts.limits_of_version_1(),
                    makers={path: walked.charged_tops[path].uid for path in agreed.changing if path in walked.charged_tops},
                    over=reader.over(), covered=tuple(Covered(path, file, kind) for (path, file), kind in sorted(walked.covered.items())
                                                      if path in rows))


def take(options: Options, subtrees_of: SubtreesOf) -> Snapshot:
    """A snapshot of this host."""
    mounts = mounts_of_folder(options.proc) if options.plain_folder else refuse_what_is_no_host(options.mount)
    charged_user = charged_user_of(options.accounts)
    running: List[Reader] = []

    def subtrees_in(walked: walk.Walk, changing: walk.Whys) -> Iterable[CgroupPath]:
        if not running:
            running.append(look_at_processes(options, charged_user, gids_in(walked.found)))
        found = snapshot_of(Agreed(walked, {}, {}), running[0], options, mounts)
        return subtrees_of(found, changing)

    agreed = walk_until_agreed(options.mount, options.only, subtrees_in, charged_user, options.text_format.text_files,
                               mounts.below(options.mount), options.shallow)
    reader = look_at_processes(options, charged_user, gids_in(agreed.walk.found))
    found, attempts = snapshot_of(agreed, reader, options, mounts), Attempts()
    inspection = attempts.at("root-inside", lambda: inside.inspect(options.proc, found.cgroups, found.processes), None)
    insides = attempts.all("root-inside", inspection.found) if inspection else ()
    entries, unheld, private = attempts.at("descriptors", lambda: held.look(options.proc, found, charged_user, inspection), NOTHING_HELD)
    scopes = () if options.plain_folder else attempts.all("containers", lambda: containers.scopes(found.cgroups))
    further = attempts.all("mounts", lambda: further_mounts(mounts, options.mount))
    # of a part what is above it is there for the answers, and isn't reported by itself
    return replace(found, inside=tuple(each for each in insides if is_inside(each.path, options.only or ROOT)), held=entries, unheld=unheld,
                   scopes=scopes, mounts=further, private=private,
                   in_hosts_namespace=tuple(sorted(in_hosts_namespace(inspection, insides, scopes))),
                   notes=(*found.notes, *attempts.failed))


def in_hosts_namespace(inspection: Optional[inside.Inspection], insides: Iterable[Inside], scopes: Iterable[Scope]) -> Iterable[CgroupPath]:
    """The containers of root's that have the host's own cgroup namespace, whose processes may be anybody's."""
    of_root = {each.path for each in scopes if each.holder is None and each.engine != containers.POD}
    shared = set(inspection.in_hosts_namespace(of_root) if inspection else ())
    others = {each.path for each in insides if not each.has_own_namespace}
    return shared.union(path for path in others if shared.isdisjoint((path, *ancestors(path))))


def gids_in(cgroups: Cgroups) -> Set[int]:
    """The groups of entries. Cgroups with the same files share one table of them."""
    tables = {id(found.files): found.files for found in cgroups.values()}
    gids = {entry.gid for files in tables.values() for entry in files.values()}
    return gids.union(found.directory.gid for found in cgroups.values())


def look_at_processes(options: Options, charged_user: ChargedUser, gids: Container[int]) -> Reader:
    """Processes, as far as they can be read, each with those of its groups that matter."""
    attempts, reader = Attempts(), Reader(options.proc, charged_user, gids)
    attempts.at("processes", reader.look, reader)
    reader.failed += attempts.failed
    return reader


def all_that_changes(_: Snapshot, changing: walk.Whys) -> Iterable[CgroupPath]:
    """What is asked of where nothing is known of it yet: everything that changes is walked over again."""
    return topmost(changing)


def value_of(snapshot: Snapshot, path: CgroupPath, name: str) -> Optional[str]:
    """What a file has that isn't a limit of every text: as the tree tells it, or now, or as the text has it."""
    value = snapshot.tree.rows[path].values.get(name)
    if value is not None:
        return str(value)
    if snapshot.source.file is not None:
        carried = snapshot.source.carried
        return carried.values.get((path, name)) if carried else None
    folder = b"" if is_root(path) else path
    return walk.value_of(os.fsencode(snapshot.mount) + folder, name)


def head(snapshot: Snapshot) -> List[str]:
    """What a text says at its head that it is of."""
    if snapshot.source.file is not None:
        return ["A part of a text that was taken elsewhere"]
    return [f"A snapshot of cgroups by zirofen-host snapshot, on {snapshot.about.kernel}:",
            f"{len(snapshot.tree.rows)} cgroups, {len(snapshot.tree.processes)} processes; "
            f"left out {snapshot.kernel_threads} kernel threads, and what standard error said"]


def tree_text(snapshot: Snapshot, with_processes: bool = True) -> str:
    """One tree text of everything."""
    tree = snapshot.tree if with_processes else replace(snapshot.tree, processes=())
    most = tree.format.most_rows
    if len(tree.rows) > most:
        raise Fault(f"{len(tree.rows)} cgroups, and a tree text has {most} at most: --only PATH writes less")
    return text_of_tree(tree, head(snapshot))


def note_lines(snapshot: Snapshot) -> List[str]:
    return [note.line for note in snapshot.notes]
