"""From the processes of a host to those of root's in containers, and what of cgroups they get at.

In a container is a process whose cgroup namespace or root isn't PID 1's. Of a process its status, its list of mounts and the names of its
namespaces are read, by a thread that lives. Nothing below its root or its working folder is opened or asked: that may be a file system of
a user's own, which answers when they like.
"""
import os
from collections import Counter, defaultdict
from dataclasses import dataclass
from functools import cached_property
from typing import AbstractSet, Collection, Counter as Counts, DefaultDict, Dict, Iterable, List, Mapping, Optional, Sequence, Set, Tuple

from zirofen_host.collect import bounded
from zirofen_host.collect.model import Cgroup, CgroupMount, Inside, Process
from zirofen_host.collect.mount import FIRST_NAMESPACE, FIRST_PID_NAMESPACE, unescaped
from zirofen_host.collect.processes import FIRST_USER_NAMESPACE
from zirofen_host.profile import ROOT, CgroupPath, ancestors, is_inside, is_root, parts_of, path_of

BY_NAMESPACE, BY_ROOT, BY_UNREAD = "cgroup namespace", "root", "namespaces that aren't known"
# by their numbers, the capabilities of a bounding set that decide whether cgroup files are kept from a container
SEARCH, MODULE, RAWIO, ADMIN = "DAC_READ_SEARCH", "SYS_MODULE", "SYS_RAWIO", "SYS_ADMIN"
DECIDING = {2: SEARCH, 16: MODULE, 17: RAWIO, 21: ADMIN}
UNIT_ENDINGS = (b".scope", b".service")
# of a cgroup that no unit is of, the names that stand for one
TOPMOST = 3

# a device, and what of its file system is the root
RootMount = Tuple[bytes, bytes]
# a mount namespace and the number of the mount that a process has as its root
SeenFrom = Tuple[str, bytes]


@dataclass(frozen=True)
class First:
    """What PID 1 has."""
    cgroups: str
    pids: str
    root: RootMount


@dataclass(frozen=True)
class Found:
    """A process of root's in a container."""
    pid: int
    # by which thread it is read
    thread: int
    by: Tuple[str, ...]
    cgroups: str
    seen_from: SeenFrom


def unit_above(path: CgroupPath) -> CgroupPath:
    """The unit that a cgroup is of, or what stands for one: what a container can make lies in it."""
    names = parts_of(path)
    at = next((at for at, name in enumerate(names) if name.endswith(UNIT_ENDINGS)), TOPMOST - 1)
    return CgroupPath(b"/".join(names[:at + 1])) or ROOT


def namespace(proc: str, pid: int, kind: str) -> Optional[str]:
    """The name of a process's namespace; none where it has ended, or where that isn't seen."""
    try:
        return bounded.read_link(f"{proc}/{pid}/ns/{kind}")
    except OSError:
        return None


def root_line(proc: str, pid: int) -> Sequence[bytes]:
    """The words of the line of a process's root in its list of mounts, which has no more than that read; none where its root is no
    mount. Another that stands there is mounted over it, and comes later."""
    try:
        for line in bounded.Lines(f"{proc}/{pid}/mountinfo", bounded.MOUNT_BYTES.most):
            words = line.split(b" ")
            if len(words) > 5 and words[4] == b"/":
                return words
    except OSError:
        pass
    return ()


def root_in(words: Sequence[bytes]) -> Optional[RootMount]:
    return (words[2], words[3]) if words else None


def first_of(proc: str) -> Optional[First]:
    """What PID 1 has, or None where its root isn't seen. A host's are the namespaces that a kernel begins with."""
    root = root_in(root_line(proc, 1))
    if root is None:
        return None
    return First(namespace(proc, 1, "cgroup") or FIRST_NAMESPACE, namespace(proc, 1, "pid") or FIRST_PID_NAMESPACE, root)


def cgroup_mounts(proc: str, pid: int, most: int) -> Tuple[List[Tuple[str, CgroupPath, bool]], int, bool]:
    """The mounts of cgroups that a process sees: where, their tops, and whether they may be written; how many bytes were read, and
    whether there were more."""
    found = []
    lines = bounded.Lines(f"{proc}/{pid}/mountinfo", most)
    try:
        for line in lines:
            before, after = (part.split(" ") for part in os.fsdecode(line).partition(" - ")[::2])
            if len(before) > 5 and len(after) > 2 and after[0] == "cgroup2":
                is_writable = "ro" not in (*before[5].split(","), *after[2].split(","))
                found.append((unescaped(before[4]), path_of(unescaped(before[3])), is_writable))
    except OSError:
        return [], lines.read, True
    return found, lines.read, lines.is_cut


def shows_above(top: CgroupPath, places: AbstractSet[CgroupPath]) -> bool:
    """Whether a mount shows what is above the root of a cgroup namespace with processes at these places. That root is shown nowhere: it
    is where they all are or above, so that a mount's top is at it or below where one of them is inside of it, or where it is the
    nearest above all of those that it shows."""
    if is_root(top):
        return True
    if any(not is_root(place) and is_inside(top, place) for place in places):
        return False
    shown = [place for place in places if is_inside(place, top)]
    return not shown or os.path.commonpath(shown) != top


class Inspection:
    """Looks at the processes of a host."""

    def __init__(self, proc: str, first: First, cgroups: Mapping[CgroupPath, Cgroup], processes: Mapping[int, Process]) -> None:
        self.proc, self.first, self.processes = proc, first, processes
        self.at = {pid: path for path, found in cgroups.items() for pid in found.pids or ()
                   if pid in processes and not processes[pid].is_kernel_thread}
        self.threads = {pid: processes[pid].thread for pid in self.at}
        self.cgroups = {pid: name for pid, thread in self.threads.items() if (name := namespace(proc, thread, "cgroup"))}
        # where the processes of each cgroup namespace are
        self.places: DefaultDict[str, Set[CgroupPath]] = defaultdict(set)
        for pid, name in self.cgroups.items():
            self.places[name].add(self.at[pid])
        # of a unit and a mount namespace, how many roots were read, and the last
        self.roots: Counts[Tuple[CgroupPath, str]] = Counter()
        self.last: Dict[Tuple[CgroupPath, str], Sequence[bytes]] = {}
        # of a unit, the bytes that were read of whole lists of mounts
        self.read: Counts[CgroupPath] = Counter()
        self.mounts: Dict[SeenFrom, Tuple[List[Tuple[str, CgroupPath, bool]], bool]] = {}

    @cached_property
    def by_path(self) -> Mapping[CgroupPath, Sequence[Found]]:
        """The processes of root's in containers, by their cgroups."""
        by_path: DefaultDict[CgroupPath, List[Found]] = defaultdict(list)
        for pid in sorted(self.at):
            process = self.process(pid) if pid in self.cgroups else self.unread(pid)
            if process:
                by_path[self.at[pid]].append(process)
        return by_path

    @property
    def pids(self) -> Iterable[int]:
        return (each.pid for found in self.by_path.values() for each in found)

    def found(self) -> Iterable[Inside]:
        """Each cgroup with such processes; of a unit with more of them than are looked at, the others together."""
        by_unit: DefaultDict[CgroupPath, List[CgroupPath]] = defaultdict(list)
        for path in sorted(self.by_path):
            by_unit[unit_above(path)].append(path)
        for unit, paths in by_unit.items():
            yield from (self.inside(path, self.by_path[path]) for path in paths[:bounded.INSIDES])
            if len(paths) > bounded.INSIDES:
                yield self.unlooked(unit, [each for path in paths[bounded.INSIDES:] for each in self.by_path[path]])

    def in_hosts_namespace(self, paths: AbstractSet[CgroupPath]) -> AbstractSet[CgroupPath]:
        """Those of some cgroups in which a process of the host's own cgroup namespace is."""
        places = {self.at[pid] for pid, name in self.cgroups.items() if name == self.first.cgroups}
        return {path for place in places for path in (place, *ancestors(place)) if path in paths}

    def unit_of(self, pid: int) -> CgroupPath:
        return unit_above(self.at[pid])

    def writes(self, pid: int, path: CgroupPath) -> bool:
        """Whether a process sees a cgroup on a mount that may be written."""
        found = next(each for each in self.by_path[self.at[pid]] if each.pid == pid)
        return any(is_writable and is_inside(path, top) for _, top, is_writable in self.mounts_of(self.unit_of(pid), found)[0])

    def unread(self, pid: int) -> Optional[Found]:
        """A process of root's that is listed, and whose namespaces can't be read; one that has ended is none."""
        process = self.processes[pid]
        if process.uid and process.user.uid or pid == 1:
            return None
        try:
            bounded.read_link(f"{self.proc}/{process.thread}/ns/cgroup")
            return None
        except (FileNotFoundError, ProcessLookupError):
            is_there = process.is_headless and process.living is None
        except OSError:
            is_there = True
        return Found(pid, pid, (BY_UNREAD,), self.first.cgroups, ("", b"")) if is_there else None

    def process(self, pid: int) -> Optional[Found]:
        """A process of root's in a container, or None where it is none."""
        process = self.processes[pid]
        if process.uid and process.user.uid:
            return None
        mounts = namespace(self.proc, process.thread, "mnt")
        if mounts is None:
            return self.unread(pid)
        words, name = self.root(pid, mounts), self.cgroups[pid]
        differs = {BY_NAMESPACE: name != self.first.cgroups, BY_ROOT: root_in(words) != self.first.root}
        by = tuple(each for each, is_so in differs.items() if is_so)
        return Found(pid, process.thread, by, name, (mounts, words[0] if words else b"")) if by else None

    def root(self, pid: int, mounts: str) -> Sequence[bytes]:
        """The line of a process's root; of a unit and a mount namespace so many are read, and others are taken as the last."""
        key = unit_above(self.at[pid]), mounts
        if self.roots[key] < bounded.ROOTS:
            self.roots[key] += 1
            self.last[key] = root_line(self.proc, self.threads[pid])
        return self.last[key]

    def mounts_of(self, unit: CgroupPath, found: Found) -> Tuple[List[Tuple[str, CgroupPath, bool]], bool]:
        """What a process sees of cgroups, read once for all that see the same, and whether that isn't all."""
        if found.seen_from not in self.mounts:
            left = bounded.MOUNT_BYTES.most - self.read[unit]
            mounts, read, is_cut = cgroup_mounts(self.proc, found.thread, left) if left > 0 else ([], 0, True)
            self.read[unit] += read
            self.mounts[found.seen_from] = mounts, is_cut
        return self.mounts[found.seen_from]

    def inside(self, path: CgroupPath, found: Sequence[Found]) -> Inside:
        """What the processes of one cgroup get at, all together."""
        mounts: Set[CgroupMount] = set()
        is_cut = False
        for each in {(each.seen_from, each.cgroups): each for each in found}.values():
            seen, cut = self.mounts_of(unit_above(path), each)
            is_own, is_cut = each.cgroups != self.first.cgroups, is_cut or cut
            mounts |= {CgroupMount(place, top, is_writable, is_own and shows_above(top, self.places[each.cgroups]))
                       for place, top, is_writable in seen}
        return self.made(path, found, sorted(mounts), is_cut or any(BY_UNREAD in each.by for each in found))

    def unlooked(self, unit: CgroupPath, found: Sequence[Found]) -> Inside:
        return self.made(unit, found, (), True)

    def made(self, path: CgroupPath, found: Sequence[Found], mounts: Collection[CgroupMount], is_cut: bool) -> Inside:
        bits = 0
        for each in found:
            # what a process may get by a user namespace of its own reaches its mounts, and nothing else of the host
            is_first = namespace(self.proc, each.thread, "user") in (FIRST_USER_NAMESPACE, None)
            bits |= self.processes[each.pid].bounding & (-1 if is_first else 1 << 21)
        return Inside(path, len(found), tuple(by for by in (BY_NAMESPACE, BY_ROOT, BY_UNREAD) if any(by in each.by for each in found)),
                      tuple(mounts), tuple(name for number, name in DECIDING.items() if bits >> number & 1),
                      all(each.cgroups != self.first.cgroups for each in found),
                      any(namespace(self.proc, each.thread, "pid") in (self.first.pids, None) for each in found), is_cut)


def inspect(proc: str, cgroups: Mapping[CgroupPath, Cgroup], processes: Mapping[int, Process]) -> Optional[Inspection]:
    """The containers of root's, as they are inspected; none where what PID 1 has isn't seen."""
    first = first_of(proc)
    return Inspection(proc, first, cgroups, processes) if first else None
