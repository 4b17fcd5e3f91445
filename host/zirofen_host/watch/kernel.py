"""From a hierarchy that changes to its events: by fanotify, with the process, or by inotify, without it."""
import contextlib
import ctypes
import os
import struct
import time
from collections import Counter
from typing import Callable, Dict, List, Mapping, NamedTuple, Optional, Tuple, Union

from zirofen_host.collect import bounded
from zirofen_host.profile import ROOT, CgroupPath
from zirofen_host.watch.drain import Drain

# both interfaces have the same bits for these
MODIFY, ATTRIB, CREATE, DELETE = 0x2, 0x4, 0x100, 0x200
LOST, IS_FOLDER = 0x4000, 0x40000000
WANTED = MODIFY | ATTRIB | CREATE | DELETE
# bytes that are read at once of what happened to files of a folder
PART = 1 << 18
# folders that are known by what a kernel calls them, and those that are looked up in one turn, and the seconds for that: whoever makes
# and removes cgroups all the time has each look wait
MOST_FOLDERS, LOOKED_UP, LOOKING = 65536, 64, 0.02
AT_FDCWD = -100
CLOSED_AND_NOT_WAITING = os.O_CLOEXEC | os.O_NONBLOCK
# how many folders inotify watches for one uid, the part of them that one person's may be, and their number where that isn't known
MOST_WATCHES, PART_OF_WATCHES, FEW_WATCHES = "/proc/sys/fs/inotify/max_user_watches", 8, 8192

# fanotify
CLOEXEC, NONBLOCK, FOLDER_AND_NAME = 0x1, 0x2, 0xC00
MARK_ADD, MARK_FILE_SYSTEM = 0x1, 0x100
HEAD, OF_FOLDER_AND_NAME, OF_FOLDER = 24, 2, 3
# an event's length, mask and PID, the kind and the length of what follows, and how many bytes the handle in that has
WHOLE = struct.Struct("<I4xQ4xIBxH8xI")
# where the handle begins, and what stands there before its own bytes
HANDLE, HANDLE_SIZE = WHOLE.size - 4, 8
# how the handle of a cgroup begins: eight bytes of the kind that is kernfs's, which are its inode's number
HANDLE_HEAD = b"\x08\0\0\0\xfe\0\0\0"
# inotify
ONLY_FOLDERS, NO_LINKS, IGNORED, WATCH_HEAD = 0x1000000, 0x2000000, 0x8000, 16

_libc = ctypes.CDLL(None, use_errno=True)


class Event(NamedTuple):
    """What happened to something in a cgroup's folder; of the folder itself without a name. The PID is of who did it."""
    folder: CgroupPath
    name: bytes
    mask: int
    pid: Optional[int]


# the handle of a folder, a name, what happened and the PID, with how often
Record = Tuple[bytes, bytes, int, int]
Records = Dict[Record, int]


class Batch(NamedTuple):
    """Events, each of its kind once, with how many there were, and whether others were lost; and those of folders that aren't known."""
    counts: Dict[Event, int]
    is_lost: bool
    unknown: Records


def call(name: str, *words: object) -> int:
    """A call of the system, or an OSError."""
    found = int(getattr(_libc, name)(*words))
    if found < 0:
        number = ctypes.get_errno()
        raise OSError(number, os.strerror(number))
    return found


def number_at(data: bytes, place: int, size: int) -> int:
    return int.from_bytes(data[place:place + size], "little")


def within(mount: bytes, place: bytes) -> Optional[CgroupPath]:
    """A folder's path from the mount on, or None where it isn't in it."""
    if place == mount:
        return ROOT
    return CgroupPath(place[len(mount):]) if place.startswith(mount + b"/") else None


class Fanotify:
    """All events of a mount's file system, with who did it. A kernel that doesn't mark it refuses that with an OSError."""
    has_pids = True
    is_short = False

    def __init__(self, mount: str) -> None:
        self.mount = os.path.realpath(os.fsencode(mount))
        self.folders: Dict[bytes, CgroupPath] = {}
        self.handles: Dict[CgroupPath, bytes] = {}
        self.left, self.until = 0, 0.0
        opened = call("fanotify_init", CLOEXEC | NONBLOCK | FOLDER_AND_NAME, os.O_RDONLY)
        try:
            marks = ctypes.c_uint64(WANTED | IS_FOLDER)
            call("fanotify_mark", opened, MARK_ADD | MARK_FILE_SYSTEM, marks, AT_FDCWD, os.fsencode(mount))
            self.top = bounded.open_folder(mount, None, bounded.FOLDER & ~os.O_NOFOLLOW)
        except OSError:
            os.close(opened)
            raise
        self.drain = Drain(opened)

    def close(self) -> None:
        self.drain.close()
        os.close(self.top)

    def take(self) -> Batch:
        """What is there to be read now, at most one part of it."""
        counts, is_lost = records_of(self.drain.take())
        events: Dict[Event, int] = {}
        unknown: Records = {}
        for record, count in counts.items():
            event = self.event_of(record)
            if event is not None:
                events[event] = events.get(event, 0) + count
            elif not self.may_look:
                unknown[record] = count
        return Batch(events, is_lost, unknown)

    def event_of(self, record: Record) -> Optional[Event]:
        """What happened where, as far as that folder is known, or may be looked up."""
        handle, name, mask, pid = record
        folder = self.folders.get(handle)
        if folder is None and self.may_look:
            self.left -= 1
            folder = self.looked_up(handle)
        return None if folder is None else Event(folder, b"" if name == b"." else name, mask, pid)

    def begin_turn(self) -> None:
        """Has folders looked up again, a few."""
        self.left, self.until = LOOKED_UP, time.monotonic() + LOOKING

    def end_turn(self) -> None:
        self.left = 0

    @property
    def may_look(self) -> bool:
        return self.left > 0 and time.monotonic() < self.until

    def know(self, inodes: Mapping[CgroupPath, int]) -> None:
        """Knows the folders of cgroups by what their handles have."""
        for path, inode in inodes.items():
            self.keep(path, HANDLE_HEAD + inode.to_bytes(8, "little"))

    def keep(self, path: CgroupPath, handle: bytes) -> None:
        self.forget(path)
        if not self.is_full:
            self.folders[handle], self.handles[path] = path, handle

    def looked_up(self, handle: bytes) -> Optional[CgroupPath]:
        """The path of a folder by its handle; one that went before it was asked for has none. No cgroup is renamed."""
        try:
            opened = call("open_by_handle_at", self.top, handle, os.O_PATH | os.O_CLOEXEC)
        except OSError:
            return None
        try:
            place = os.fsencode(bounded.read_link(f"/proc/self/fd/{opened}"))
        finally:
            os.close(opened)
        path = None if place.endswith(b" (deleted)") else within(self.mount, place)
        if path is not None:
            self.keep(path, handle)
        return path

    def may_watch(self, _: int) -> bool:
        """Whether more of a person's is watched: all of it is."""
        return True

    def watch(self, path: CgroupPath, _: int = 0) -> bool:
        """Knows a folder that was made, so that what happens in it takes no look; all of it is watched."""
        with contextlib.suppress(OSError):
            self.know({path: os.stat(self.mount + path).st_ino})
        return False

    def forget(self, path: CgroupPath) -> None:
        """Knows no more of a folder that went."""
        self.folders.pop(self.handles.pop(path, b""), None)

    def went(self, path: CgroupPath) -> None:
        """The same, as an event says; one of the same name that came behind it is looked up."""
        self.forget(path)

    @property
    def is_full(self) -> bool:
        """Whether no more folders are known."""
        return len(self.folders) >= MOST_FOLDERS


def records_of(data: bytes) -> Tuple[Records, bool]:
    """The events of what fanotify wrote, and whether others were lost."""
    counts: Records = {}
    place, is_lost, end_of_all = 0, False, len(data)
    data += bytes(WHOLE.size)
    while place + HEAD <= end_of_all:
        length, mask, pid, kind, info, size = WHOLE.unpack_from(data, place)
        if length < HEAD:
            break
        is_lost |= bool(mask & LOST)
        if length >= HANDLE + HANDLE_SIZE and kind in (OF_FOLDER_AND_NAME, OF_FOLDER):
            end = place + HANDLE + HANDLE_SIZE + size
            name = data[end:place + HEAD + info].partition(b"\0")[0] if kind == OF_FOLDER_AND_NAME else b""
            key = data[place + HANDLE:end], name, mask & (WANTED | IS_FOLDER), pid
            counts[key] = counts.get(key, 0) + 1
        place += length
    return counts, is_lost


class Inotify:
    """Events of folders that are watched one by one, without who did it."""
    has_pids = False
    # what happens in a folder that isn't watched is no event
    is_full = False

    def __init__(self, mount: str) -> None:
        self.mount = os.fsencode(mount).rstrip(b"/")
        self.opened = call("inotify_init1", CLOSED_AND_NOT_WAITING)
        self.drain = Drain(self.opened)
        self.paths: Dict[int, CgroupPath] = {}
        self.watches: Dict[CgroupPath, int] = {}
        # whose each is that is somebody's, how many each has, and how many each may have
        self.persons: Dict[CgroupPath, int] = {}
        self.by: "Counter[int]" = Counter()
        self.most = most_watches() // PART_OF_WATCHES
        # not every folder could be watched
        self.is_short = False

    def close(self) -> None:
        self.drain.close()

    def full(self, path: CgroupPath) -> bytes:
        return self.mount if path == ROOT else self.mount + path

    def may_watch(self, person: int) -> bool:
        """Whether somebody has fewer watches than would be others'; root has all."""
        return not person or self.by[person] < self.most

    def watch(self, path: CgroupPath, person: int = 0) -> bool:
        """Watches one folder more, of a person's or root's, as far as there are watches; whether it wasn't watched yet."""
        if path in self.watches or not self.may_watch(person):
            return False
        try:
            number = call("inotify_add_watch", self.opened, self.full(path), ctypes.c_uint32(WANTED | ONLY_FOLDERS | NO_LINKS))
        except FileNotFoundError:
            return False
        except OSError:
            self.is_short = True
            return False
        self.paths[number], self.watches[path] = path, number
        if person:
            self.persons[path] = person
            self.by[person] += 1
        return True

    def forget(self, path: CgroupPath) -> None:
        """Knows no more of a folder that went; a kernel takes its watch away."""
        self.paths.pop(self.watches.pop(path, -1), None)
        if path in self.persons:
            self.by[self.persons.pop(path)] -= 1

    def went(self, path: CgroupPath) -> None:
        """Nothing: a kernel says that a watch ended, in its turn."""

    def take(self) -> Batch:
        data = self.drain.take()
        counts: Dict[Event, int] = {}
        place, is_lost = 0, False
        while place + WATCH_HEAD <= len(data):
            number, mask = number_at(data, place, 4), number_at(data, place + 4, 4)
            length = number_at(data, place + 12, 4)
            name = data[place + WATCH_HEAD:place + WATCH_HEAD + length].rstrip(b"\0")
            place += WATCH_HEAD + length
            is_lost |= bool(mask & LOST)
            if mask & IGNORED:
                self.forget(self.paths.get(number, ROOT) if number in self.paths else CgroupPath(b""))
            elif number in self.paths and mask & WANTED:
                event = Event(self.paths[number], name, mask & (WANTED | IS_FOLDER), None)
                counts[event] = counts.get(event, 0) + 1
        return Batch(counts, is_lost, {})

    def know(self, inodes: Mapping[CgroupPath, int]) -> None:
        """Nothing: folders are known by their watches."""

    def begin_turn(self) -> None:
        """Nothing."""

    def end_turn(self) -> None:
        """Nothing."""

    def event_of(self, record: Record) -> Optional[Event]:
        """None: no folder has a handle here."""
        return None


def most_watches() -> int:
    """How many folders a kernel watches for one uid."""
    try:
        return int(bounded.read_file(MOST_WATCHES, bounded.STATUS).data)
    except (OSError, ValueError):
        return FEW_WATCHES


class FolderWatch:
    """Whether one of some files of a folder was written or replaced."""
    CHANGES = 0x2 | 0x8 | 0x80 | 0x100 | 0x200

    def __init__(self, folder: str, names: Tuple[bytes, ...]) -> None:
        self.names = names
        self.opened = call("inotify_init1", CLOSED_AND_NOT_WAITING)
        call("inotify_add_watch", self.opened, os.fsencode(folder), ctypes.c_uint32(self.CHANGES | ONLY_FOLDERS))

    def fileno(self) -> int:
        return self.opened

    def has_changed(self) -> List[bytes]:
        """The names of the files that were changed."""
        data, found, place = bounded.read_ready(self.opened, PART), [], 0
        while place + WATCH_HEAD <= len(data):
            length = number_at(data, place + 12, 4)
            name = data[place + WATCH_HEAD:place + WATCH_HEAD + length].rstrip(b"\0")
            place += WATCH_HEAD + length
            if name in self.names and name not in found:
                found.append(name)
        return found


Source = Union[Fanotify, Inotify]


def source_of(mount: str, is_plain: bool, refused: Callable[[str], None]) -> Source:
    """What tells events: fanotify, or inotify where the mark is refused; why it was is given."""
    if not is_plain:
        try:
            return Fanotify(mount)
        except (OSError, AttributeError) as error:
            refused(error.strerror or "" if isinstance(error, OSError) else str(error))
    return Inotify(mount)
