"""From what /proc lists of processes to the files of cgroups that they have open for writing.

They are in a table of descriptors, or registered with an io_uring. No file system is asked but that of cgroups: another may be a user's
own, which answers when they like.
"""
import os
from typing import Dict, Iterable, Iterator, List, Mapping, NamedTuple, Optional, Sequence, Tuple

from zirofen_host.collect import bounded, rings
from zirofen_host.collect.bounded import Budget, ChargedUser, Spent
from zirofen_host.collect.model import DescriptorKind, Process
from zirofen_host.collect.mount_kinds import Kinds, MountKinds, mount_of, number_in
from zirofen_host.collect.processes import names_in, status_fields
from zirofen_host.collect.reasons import (MoreThanLookedAt, Reason, UnknownMounts, UnknownPaths, UnlookedHeadless, UnlookedRing,
                                          UnlookedTables)
from zirofen_host.collect.tables import Tables
from zirofen_host.collect.threads import Fields
from zirofen_host.profile import CgroupPath

WRITES = os.O_WRONLY | os.O_RDWR

# a file of a hierarchy by its cgroup and its name
FileOf = Tuple[CgroupPath, str]


class Held(NamedTuple):
    """A file of the hierarchy that a process may write by what it has open."""
    pid: int
    path: CgroupPath
    file: str
    holding: DescriptorKind


class Unlooked(NamedTuple):
    """What isn't looked at: whose it is, and why."""
    whose: int
    why: Reason


class Stopped(Exception):
    """Somebody has more than is looked at."""

    def __init__(self, budget: Budget) -> None:
        super().__init__(budget)
        self.why = MoreThanLookedAt(budget.most, budget.what)


class UnknownFile(Exception):
    """Which file a descriptor is of isn't known."""


class Hierarchy(NamedTuple):
    """A hierarchy whose files are looked for: where it is mounted, and those by which something is set, by their inodes."""
    mount: str
    files: Mapping[int, FileOf]


class Descriptors:
    """What processes have open, charged to whose they are, and what of it isn't looked at."""

    def __init__(self, proc: str, charged_user: ChargedUser, hierarchy: Hierarchy, roots: Iterable[int] = (), release: str = "") -> None:
        self.proc, self.hierarchy = proc, hierarchy
        self.links, self.infos, self.long, self.threads, self.rings, self.ring_bytes = (
            Spent(budget, charged_user) for budget in (bounded.LINKS, bounded.DESCRIPTORS, bounded.LONG_DESCRIPTORS,
                                                       bounded.TABLE_THREADS, bounded.RINGS, bounded.RING_BYTES))
        self.mounts = MountKinds(proc, charged_user, roots)
        self.tables = Tables(proc)
        self.unlooked: List[Unlooked] = []
        self.has_paths = rings.lists_paths(release)
        self.names = frozenset(os.fsencode(name) for _, name in hierarchy.files.values())

    def held(self, processes: Iterable[Tuple[Process, int]]) -> Iterator[Held]:
        """What processes have open, which are given with whose they are: those of one after another's."""
        by: Dict[int, List[Process]] = {}
        self.mounts.read_own()
        for process, whose in sorted(processes, key=lambda each: each[0].pid):
            by.setdefault(whose, []).append(process)
            # a descriptor may be of a mount in another's namespace, so these are all known first
            self.mounts.read_of(process.thread, whose)
        for whose, of in sorted(by.items()):
            try:
                yield from self.held_by(whose, of)
            except Stopped as stopped:
                self.unlooked.append(Unlooked(whose, stopped.why))

    def held_by(self, whose: int, processes: Iterable[Process]) -> Iterator[Held]:
        unknown = 0
        for process in processes:
            for folder in self.folders(process, whose):
                for number in self.numbers(f"{folder}/fd"):
                    self.charge(self.links, whose)
                    try:
                        yield from self.of_descriptor(process.pid, whose, folder, number)
                    except UnknownFile:
                        unknown += 1
        if unknown:
            self.unlooked.append(Unlooked(whose, UnknownMounts(unknown)))

    def folders(self, process: Process, whose: int) -> Sequence[str]:
        """The folders of a process that tell of its tables, each table once."""
        own = f"{self.proc}/{process.pid}"
        if process.threads < 2:
            return [own]
        threads = [int(name) for name in self.numbers(f"{own}/task") if name.isdigit() and int(name) != process.thread]
        if not self.threads.take(whose, len(threads)):
            # what other processes have open is looked at all the same
            self.unlooked.append(Unlooked(whose, UnlookedTables(process.pid, len(threads), self.threads.budget.most)))
            threads = []
        if process.is_headless and process.living is None:
            self.unlooked.append(Unlooked(whose, UnlookedHeadless(process.pid)))
        found = self.tables.apart(process.pid, [process.thread, *threads], lambda count: self.charge(self.links, whose, count))
        return [own if thread == process.pid else f"{own}/task/{thread}" for thread in found]

    def numbers(self, folder: str) -> Iterable[str]:
        try:
            return names_in(folder, bounded.LINKS.most + 1)
        except OSError:
            return ()

    def of_descriptor(self, pid: int, whose: int, folder: str, number: str) -> Iterable[Held]:
        """What a descriptor with a path is of, or what is registered with a ring; of others /proc may have much to tell, as of all that
        is waited for."""
        try:
            link = bounded.read_link(f"{folder}/fd/{number}")
        except OSError:
            return ()
        if link == rings.RING:
            return self.of_ring(pid, whose, f"{folder}/fdinfo/{number}")
        fields = self.fields(whose, folder, number) if link[:1] == "/" else None
        return () if fields is None or not is_for_writing(fields) else self.of_file(pid, f"{folder}/fd/{number}", fields)

    def of_file(self, pid: int, link: str, fields: Fields) -> Iterable[Held]:
        mount, inode, files = number_in(fields, "mnt_id"), number_in(fields, "ino"), self.hierarchy.files
        kind = self.mounts.kinds.get(mount)
        if kind is None and (inode < 0 or inode in files):
            kind = self.mounts.kind_by_root(mount)
        if kind is None and inode < 0:
            raise UnknownFile
        if inode < 0 and kind:
            inode = inode_of(link, self.mounts.kinds)
        is_held = kind is not False and inode in files
        return [Held(pid, *files[inode], DescriptorKind.OPEN if kind else DescriptorKind.PERHAPS)] if is_held else ()

    def fields(self, whose: int, folder: str, number: str) -> Optional[Fields]:
        """What /proc has of a descriptor."""
        self.charge(self.infos, whose)
        try:
            read = bounded.read_file(f"{folder}/fdinfo/{number}", bounded.DESCRIPTOR)
        except OSError:
            return None
        if read.is_cut:
            # a kernel makes all of it before it gives the first byte
            self.charge(self.long, whose)
        return status_fields(read.text("utf-8", "replace"))

    def of_ring(self, pid: int, whose: int, place: str) -> Iterable[Held]:
        """The files that are registered with a ring."""
        self.charge(self.rings, whose)
        found = None
        for _ in range(rings.TURNS):
            try:
                read = bounded.read_file(place, bounded.RING)
            except OSError:
                return ()
            self.charge(self.ring_bytes, whose, len(read.data))
            found = rings.registered(read.data, os.fsencode(self.hierarchy.mount), self.names, self.has_paths)
            if found is not None and not read.is_cut:
                break
        if found is None or read.is_cut:
            self.unlooked.append(Unlooked(whose, UnlookedRing(pid)))
        elif found.unknown:
            self.unlooked.append(Unlooked(whose, UnknownPaths(pid, found.unknown)))
        return () if found is None else [Held(pid, path, file, DescriptorKind.RING) for path, file in found.files]

    def charge(self, spent: Spent, whose: int, amount: int = 1) -> None:
        if not spent.take(whose, amount):
            raise Stopped(spent.budget)


def is_for_writing(fields: Fields) -> bool:
    try:
        return int(fields["flags"][0], 8) & WRITES != 0
    except (ValueError, KeyError, IndexError):
        return False


def inode_of(link: str, kinds: Kinds) -> int:
    """The inode of what a descriptor is of where a kernel doesn't tell it, or -1. What stands behind a link may be another file by
    now, so that it is held first and asked of its mount, and then of its inode where the mount is one of cgroups."""
    try:
        opened = bounded.open_path(link)
    except OSError:
        return -1
    try:
        return os.fstat(opened).st_ino if kinds.get(mount_of(opened)) else -1
    except OSError:
        return -1
    finally:
        os.close(opened)


def inodes_of(places: Mapping[Tuple[int, int], FileOf]) -> Mapping[int, FileOf]:
    """Files by their inodes alone; all are of one hierarchy."""
    return {inode: place for (_, inode), place in places.items()}
