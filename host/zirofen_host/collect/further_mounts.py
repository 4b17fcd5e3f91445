"""From the list of mounts to the other mounts of a hierarchy, and the folders on the way to each.

A file system that somebody may answer for is asked nothing.
"""
import errno
import os
import stat
from typing import Iterator, List, Mapping

from zirofen_host.collect import bounded
from zirofen_host.collect.model import Entry, FurtherMount
from zirofen_host.collect.mount import Mounts
from zirofen_host.collect.mount_kinds import mount_of
from zirofen_host.collect.walk import owned_of
from zirofen_host.profile import path_of

# file systems whose answers are the kernel's
OF_KERNEL = frozenset("bcachefs btrfs cgroup cgroup2 devtmpfs erofs ext2 ext3 ext4 f2fs overlay proc ramfs rootfs squashfs sysfs "
                      "tmpfs vfat xfs zfs".split())
EVERYBODY_SEARCHES = 0o111


def further_mounts(mounts: Mounts, mount: str) -> Iterator[FurtherMount]:
    for place, top in mounts.further(mount)[:bounded.FURTHER_MOUNTS]:
        folders: List[Entry] = []
        try:
            is_known = look(place, mounts.types, folders)
        except OSError:
            is_known = False
        yield FurtherMount(place, path_of(top), tuple(folders), is_known)


def look(place: str, types: Mapping[int, str], folders: List[Entry]) -> bool:
    """Gathers the folders above a place that don't let everybody through; whether each was asked."""
    opened = bounded.open_path("/")
    try:
        for name in place.strip("/").split("/"):
            if types.get(mount_of(opened)) not in OF_KERNEL:
                return False
            found = owned_of(os.stat(opened))
            if found[2] & EVERYBODY_SEARCHES != EVERYBODY_SEARCHES:
                folders.append(Entry(*found))
            below = bounded.open_path_in(name, opened)
            os.close(opened)
            opened = below
        return True
    finally:
        os.close(opened)


def read_theirs(file: str, uid: int, types: Mapping[int, str], most: int, top: str = "/") -> bounded.Read:
    """What a regular file of somebody's has, which is theirs or root's as each folder on the way: no link is followed, and no file
    system is asked that somebody may answer for. It is opened as what was looked at, whatever stands there by then."""
    opened = bounded.open_path(top)
    try:
        for name in file.strip("/").split("/"):
            below = bounded.open_path_in(name, opened)
            os.close(opened)
            opened = below
            if types.get(mount_of(opened)) not in OF_KERNEL or os.stat(opened).st_uid not in (0, uid):
                raise OSError(errno.EPERM, "somebody else owns it")
        if not stat.S_ISREG(os.stat(opened).st_mode):
            raise OSError(errno.EINVAL, "it is no regular file")
        return bounded.read_file(f"/proc/self/fd/{opened}", most, bounded.NAMED | os.O_NONBLOCK)
    finally:
        os.close(opened)
