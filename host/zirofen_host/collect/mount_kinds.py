"""From the mounts that processes see to those of cgroups, and those in a mount namespace of somebody's own."""
import os
from collections import defaultdict
from typing import DefaultDict, Dict, Iterable, Iterator, Optional, Set, Tuple

from zirofen_host.collect import bounded
from zirofen_host.collect.bounded import ChargedUser, Spent
from zirofen_host.collect.model import PrivateMount
from zirofen_host.collect.mount import unescaped
from zirofen_host.collect.processes import status_fields
from zirofen_host.collect.threads import Fields
from zirofen_host.profile import path_of

CGROUPS = b"cgroup2"

# a mount by its number, which is no other's in any namespace, and whether it is one of cgroups
Kinds = Dict[int, bool]
# where a mount is, and the cgroup that is its top
Seen = Tuple[bytes, bytes]


class MountKinds:
    """The mounts of each namespace that processes are in; each namespace is read once."""

    def __init__(self, proc: str, charged_user: ChargedUser, roots: Iterable[int] = ()) -> None:
        self.proc, self.roots, self.charged_user = proc, roots, charged_user
        self.spent = Spent(bounded.MOUNT_BYTES, charged_user)
        self.namespaces: Set[str] = set()
        self.kinds: Kinds = {}
        # of cgroups what this process sees, and what each person has beside that, so many of each
        self.own: Set[Seen] = set()
        self.others: DefaultDict[int, Set[Seen]] = defaultdict(set)

    def private(self) -> Iterator[PrivateMount]:
        """The mounts of the hierarchy that somebody has elsewhere than this process sees them, or of another top."""
        for person, mounts in sorted(self.others.items()):
            for place, top in sorted(mounts - self.own):
                yield PrivateMount(person, unescaped(os.fsdecode(place)), path_of(unescaped(os.fsdecode(top))))

    def read_own(self) -> None:
        """Reads the mounts that this process sees, and the one that no list has."""
        self.own.update(self.of_cgroups("self", bounded.HOST_MOUNTS)[0])
        number = memory_mount(self.proc)
        if number >= 0:
            self.kinds.setdefault(number, False)

    def read_of(self, thread: int, whose: int) -> None:
        """Reads the mounts that a process sees, where no other of its namespace was asked and there is room for them."""
        if not self.spent.is_over(whose):
            found, read = self.of_cgroups(str(thread), max(self.spent.left(whose), 0))
            self.spent.take(whose, read)
            theirs = self.others[self.charged_user(whose)] if whose and found else set()
            theirs.update(sorted(found - self.own)[:bounded.FURTHER_MOUNTS - len(theirs)])

    def kind_by_root(self, number: int) -> Optional[bool]:
        """Whether a mount that no list has so far is one of cgroups, by the namespaces of root's processes, which are read once: a
        service of root's hands out files that it opened in its own."""
        left = bounded.HOST_MOUNTS
        for pid in self.roots:
            left -= self.of_cgroups(str(pid), max(left, 0))[1]
        self.roots = ()
        return self.kinds.get(number)

    def of_cgroups(self, process: str, most: int) -> Tuple[Set[Seen], int]:
        """The mounts of cgroups in a namespace that wasn't read so far, and the bytes that were read."""
        seen: Set[Seen] = set()
        try:
            namespace = bounded.read_link(f"{self.proc}/{process}/ns/mnt")
        except OSError:
            namespace = process
        if namespace in self.namespaces:
            return seen, 0
        self.namespaces.add(namespace)
        lines = bounded.Lines(f"{self.proc}/{process}/mountinfo", most)
        try:
            for line in lines:
                before, _, after = line.partition(b" - ")
                words = before.split(b" ")
                if words[0].isdigit() and len(words[0]) < 20:
                    self.kinds[int(words[0])] = after.partition(b" ")[0] == CGROUPS
                    if self.kinds[int(words[0])] and len(words) > 4:
                        seen.add((words[4], words[3]))
        except OSError:
            pass
        return seen, lines.read


def number_in(fields: Fields, key: str) -> int:
    """A number that /proc has of a descriptor, or -1."""
    words = fields.get(key, [])
    return int(words[0]) if words and words[0].isascii() and words[0].isdigit() and len(words[0]) <= 20 else -1


def mount_of(opened: int, proc: str = "/proc") -> int:
    """The mount of a file that this process has open, or -1."""
    try:
        read = bounded.read_file(f"{proc}/self/fdinfo/{opened}", bounded.DESCRIPTOR)
    except OSError:
        return -1
    return number_in(status_fields(read.text("utf-8", "replace")), "mnt_id")


def memory_mount(proc: str) -> int:
    """The mount that a kernel has files of memory on, as memfd_create makes them, or -1: many processes have such files open, whose
    inodes are small numbers as those of cgroups are."""
    try:
        opened = os.memfd_create("mount")
    except OSError:
        return -1
    try:
        return mount_of(opened, proc)
    finally:
        os.close(opened)
