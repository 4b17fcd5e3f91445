"""From what a user can choose, and a bound, to what was read there: the one module that reads such files.

These are /proc, extended attributes, the files of cgroups, and files that are named. Each reader has its bound as an argument, and tells
in what it gives whether something was cut.
"""
import errno
import os
import stat
from collections import Counter
from itertools import islice
from typing import Callable, Dict, Iterator, List, Mapping, NamedTuple, Optional, Sequence, Tuple, Union

from zirofen_host.collect import turns
from zirofen_host.collect.reasons import OverBudget

Place = Union[str, bytes]

# bytes of one read of a cgroup's file: more than a limit has, and more than a list of all PIDs
CGROUP_FILE = 1 << 26
# bytes of a text of /proc
PROC_FILE = 1 << 30
# bytes of a list of accounts
ACCOUNT_FILE = 1 << 30
# bytes of a report, which has each cgroup of a host
REPORT_FILE = 1 << 32
# bytes of what somebody accepts
ACCEPTANCES = 1 << 20
# bytes of a unit's file
UNIT_FILE = 1 << 20
# bytes of changes of root's to a tree
CHANGES = 1 << 24
# bytes of all operations that are turned into commands
OPERATIONS = 1 << 30
# bytes that are kept of one extended attribute: a mark has one digit
ATTRIBUTE = 16
# names in one folder
NAMES = 1 << 30
# bytes of what /proc tells of one process, of its flags, and of one descriptor: its first lines, which are all that is used
STATUS, FLAGS, DESCRIPTOR = 1 << 20, 1 << 12, 1 << 12
# bytes of what it tells of one io_uring, with the files that are registered there
RING = 1 << 20
# bytes of the host's own list of mounts
HOST_MOUNTS = 1 << 26
# bytes of a report that another host sent, how many lists and keys it has in all, and how many values
SENT_REPORT, SENT_PARTS, SENT_VALUES = 1 << 26, 1 << 20, 1 << 22
# files that tell names of containers, bytes of one, and of all
NAME_FILES, NAME_FILE, NAME_BYTES = 4096, 1 << 22, 1 << 26
# files of root's in which it is looked for what gives a cgroup away, bytes of one, and of all
ROOT_FILES, ROOT_FILE, ROOT_BYTES = 8192, 1 << 18, 1 << 26
# bytes of a list of hosts
HOSTS_FILE = 1 << 26

PART = 1 << 14
FOLDER = os.O_RDONLY | os.O_DIRECTORY | os.O_NOFOLLOW | os.O_CLOEXEC
FILE = os.O_RDONLY | os.O_NOFOLLOW | os.O_NONBLOCK | os.O_CLOEXEC
# as a file is opened that was named on the command line, or that the host has: a link is followed
NAMED = os.O_RDONLY | os.O_CLOEXEC
STANDARD_INPUT = "-"


class Budget(NamedTuple):
    """How much is spent on what one person made, under their own uid and the subordinate ones together."""
    what: str
    most: int

    def exceeded_by(self, person: int) -> OverBudget:
        """Why something of whoever has more is left out."""
        return OverBudget(person, self.most, self.what)


# all that is spent on one person: in a walk over the mount
CGROUPS = Budget("cgroups", 32768)
CGROUP_BYTES = Budget("bytes in the files and marks of cgroups", 1 << 26)
# each cgroup has as many as it has cgroups above it, all of which its answer rests on
LEVELS = Budget("levels above cgroups", 1 << 20)
# of /proc: what is over them is no part of any answer but that person's own
PROCESSES = Budget("processes", 16384)
THREADS = Budget("threads", 4096)
# threads that are asked whether they share their table of descriptors
TABLE_THREADS = Budget("threads", 65536)
PROCESS_BYTES = Budget("bytes in what /proc has of processes", 1 << 26)
# of all their processes together, and of processes that differ in their uid or groups
GROUPS, GROUP_LISTS = Budget("groups", 1 << 20), Budget("lists of groups", 4096)
MOUNT_BYTES = Budget("bytes in lists of mounts", 1 << 22)
LINKS = Budget("open files", 65536)
DESCRIPTORS = Budget("open files with a path", 4096)
LONG_DESCRIPTORS = Budget("open files of which /proc has much", 16)
RINGS, RING_BYTES = Budget("io_urings", 1024), Budget("bytes in what /proc has of io_urings", 1 << 22)
# further mounts of the hierarchy that are reported
FURTHER_MOUNTS = 64
# of one unit with containers of root's: cgroups of theirs, and processes of one mount namespace whose root is looked at
INSIDES, ROOTS = 64, 256
# of the program
USERS = Budget("uids to ask of", 4096)
RUNS = Budget("questions that differ in whom they ask of", 256)
# of a report: entries that let somebody in to what a holder made below their own delegation, each for each whom it lets in
ENTRIES = Budget("entries that let somebody in", 16384)
# of the lines of a report, for what is below a holder's own delegation
LINES = Budget("lines", 16)
# runs of the program for advice, of a whole host, one in each text
ADVICE = 64
# lists of operations in which other processes are tried, each by one run
REPLAYS = 16

# by whom a uid's budgets are spent
ChargedUser = Callable[[int], int]


class Spent:
    """What was spent on each person so far, against one budget. What is root's is charged to nobody."""

    def __init__(self, budget: Budget, charged_user: ChargedUser) -> None:
        self.budget, self.charged_user = budget, charged_user
        self.by: Dict[int, int] = Counter()

    def take(self, uid: int, amount: int = 1) -> bool:
        """Charges a uid, to whom time goes from now on; whether what is charged stayed within the budget."""
        if not uid:
            turns.turn_to(turns.HOST)
            return True
        person = self.charged_user(uid)
        turns.turn_to(person)
        self.by[person] += amount
        return self.by[person] <= self.budget.most

    def is_over(self, uid: int) -> bool:
        """Whether somebody has more than is looked at."""
        return bool(uid) and self.by.get(self.charged_user(uid), 0) > self.budget.most

    def left(self, uid: int) -> int:
        """What may still be spent on a uid."""
        return self.budget.most - self.by.get(self.charged_user(uid), 0)

    def over(self) -> List[int]:
        """The persons who have more."""
        return sorted(person for person, amount in self.by.items() if amount > self.budget.most)


class Read(NamedTuple):
    """What was read, and whether there was more."""
    data: bytes
    is_cut: bool

    def text(self, encoding: str = "utf-8", errors: str = "strict") -> str:
        return self.data.decode(encoding, errors)


class Listed(NamedTuple):
    """The names in a folder, with whether each is a folder, and whether there were more."""
    names: Sequence[Tuple[str, bool]]
    is_cut: bool


class Attributes(NamedTuple):
    """The first bytes of extended attributes by name, and how many bytes were read for them."""
    values: Mapping[str, bytes]
    read: int


def read_opened(opened: int, most: int) -> Read:
    """What an opened file has from where it stands, up to so many bytes."""
    parts, left = [], most + 1
    while left and (part := os.read(opened, PART if left > PART else left)):
        parts.append(part)
        left -= len(part)
    data = b"".join(parts)
    return Read(data, False) if left else Read(data[:most], True)


def read_ready(opened: int, most: int) -> bytes:
    """What one read of an opened file that isn't waited for gives; nothing where there is none yet."""
    try:
        return os.read(opened, most)
    except BlockingIOError:
        return b""


def read_file(path: Place, most: int, flags: int = NAMED, folder: Optional[int] = None) -> Read:
    """What a file has, up to so many bytes; of an opened folder, where there is one."""
    opened = os.open(path, flags, dir_fd=folder)
    try:
        return read_opened(opened, most)
    finally:
        os.close(opened)


def read_where(path: Place, first: int, most: int, is_wanted: Callable[[bytes], bool]) -> Optional[Read]:
    """What a file has where its first bytes are of one that is wanted, or None. It is opened once, since a kernel makes all that it
    tells for the first byte."""
    opened = os.open(path, NAMED)
    try:
        head = os.read(opened, first)
        if not is_wanted(head):
            return None
        rest = read_opened(opened, most - len(head))
        return Read(head + rest.data, rest.is_cut)
    finally:
        os.close(opened)


def owner_of(path: Place) -> int:
    """The uid whose a file is; of a folder of /proc the effective one of its process."""
    return os.stat(path).st_uid


def read_named(file: str, most: int) -> Read:
    """What a file of the command line has; - is standard input."""
    return read_opened(0, most) if file == STANDARD_INPUT else read_file(file, most)


def open_named(path: Place) -> int:
    """A descriptor of a file, which is to be closed: it is waited for what a kernel writes there."""
    return os.open(path, NAMED)


def open_folder(path: Place, folder: Optional[int] = None, flags: int = FOLDER) -> int:
    """A folder's descriptor, which is to be closed."""
    return os.open(path, flags, dir_fd=folder)


def open_path(path: Place) -> int:
    """A descriptor of what a path leads to, which is to be closed; its file system isn't asked for it."""
    return os.open(path, os.O_PATH | os.O_CLOEXEC)


def open_path_in(name: Place, folder: int) -> int:
    """A descriptor of what stands in an opened folder, which is to be closed; neither a link is followed nor its file system asked."""
    return os.open(name, os.O_PATH | os.O_NOFOLLOW | os.O_CLOEXEC, dir_fd=folder)


def list_folder(folder: Union[str, int], most: int) -> Listed:
    """The names in a folder, up to so many."""
    with os.scandir(folder) as entries:
        names = [(entry.name, entry.is_dir(follow_symlinks=False)) for entry in islice(entries, most + 1)]
    return Listed(names[:most], True) if len(names) > most else Listed(names, False)


def folders_in(folder: int) -> List[str]:
    try:
        return [name for name, is_folder in list_folder(folder, NAMES).names if is_folder]
    except OSError:
        return []


def count_folders(folder: int, name: bytes, most: int) -> int:
    """How many folders one is, with all inside, however deep: one folder is open at a time. No more than one over so many are
    counted."""
    count, levels, here = 0, [[os.fsdecode(name)]], os.dup(folder)
    try:
        while levels and count <= most:
            is_up = not levels[-1]
            try:
                below = open_folder(".." if is_up else levels[-1].pop(), here)
            except OSError:
                # it went, and there is no way up from what went
                if is_up:
                    break
                continue
            os.close(here)
            here = below
            if is_up:
                levels.pop()
            else:
                count += 1
                levels.append(folders_in(here))
        return max(count, 1)
    finally:
        os.close(here)


def read_link(path: Place) -> str:
    """Where a link leads, which a kernel bounds."""
    return os.readlink(os.fsdecode(path))


class Lines:
    """The lines of a file one after another, as far as so many bytes go; how many were read, and whether there were more."""

    def __init__(self, path: Place, most: int) -> None:
        self.path, self.most = path, most
        self.read, self.is_cut = 0, False

    def __iter__(self) -> Iterator[bytes]:
        opened = os.open(self.path, NAMED)
        try:
            rest = b""
            while part := os.read(opened, PART):
                self.read += len(part)
                *lines, rest = (rest + part).split(b"\n")
                yield from lines
                if self.read > self.most:
                    self.is_cut = True
                    return
            yield rest
        finally:
            os.close(opened)


def read_attributes(folder: int, wanted: Sequence[str], most: int) -> Attributes:
    """The first bytes of those of some extended attributes that an opened folder has. A kernel gives a whole one, of at most
    2^16 bytes; one that isn't there, or that the file system doesn't know, has no value."""
    values, read = {}, 0
    for name in wanted:
        try:
            value = os.getxattr(folder, name)
        except OSError as error:
            if error.errno in (errno.ENODATA, errno.ENOTSUP):
                continue
            raise
        values[name], read = value[:most], read + len(value)
    return Attributes(values, read)


def read_regular(path: Place, most: int) -> Read:
    """What a file has that somebody else may have put where it is: no link, and nothing but a regular file, is opened to be read."""
    opened = os.open(path, FILE)
    try:
        if not stat.S_ISREG(os.fstat(opened).st_mode):
            raise OSError(errno.EINVAL, "it is no regular file")
        return read_opened(opened, most)
    finally:
        os.close(opened)


def refuse_others(opened: int, may_be_sticky: bool = False) -> None:
    """Ends where somebody but root owns or writes what was opened. In a sticky folder a file of root's stays what it is."""
    found = os.fstat(opened)
    is_sticky = may_be_sticky and found.st_mode & stat.S_ISVTX and stat.S_ISDIR(found.st_mode)
    if found.st_uid or found.st_mode & 0o022 and not is_sticky:
        raise OSError(errno.EPERM, "somebody but root owns or writes it")


def open_roots(folders: Sequence[str], top: str = "/", may_be_sticky: bool = False) -> int:
    """A folder's descriptor, which is to be closed: it and each folder on the way are root's, nobody else writes them, and none is a
    link."""
    opened = open_folder(top)
    try:
        refuse_others(opened)
        for each in folders:
            within = open_folder(each, opened)
            os.close(opened)
            opened = within
            refuse_others(opened, may_be_sticky)
    except OSError:
        os.close(opened)
        raise
    return opened


def read_roots_in(folder: int, name: str, most: int) -> Read:
    """What a regular file of root's has in an opened folder, which nobody else writes."""
    file = os.open(name, FILE, dir_fd=folder)
    try:
        refuse_others(file)
        if not stat.S_ISREG(os.fstat(file).st_mode):
            raise OSError(errno.EINVAL, "it is no regular file")
        return read_opened(file, most)
    finally:
        os.close(file)


def read_roots(place: str, most: int, top: str = "/") -> Read:
    """What a regular file of root's has, where each folder on the way is root's too, and nobody else writes any of them; no link is
    followed."""
    *folders, name = place.strip("/").split("/")
    opened = open_roots(folders, top)
    try:
        return read_roots_in(opened, name, most)
    finally:
        os.close(opened)
