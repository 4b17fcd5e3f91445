"""What is collected of a host, or read back from a text of another one: the first form of the data."""
from dataclasses import dataclass, field
from enum import Enum
from functools import cached_property
from typing import Collection, FrozenSet, Iterable, List, Mapping, NamedTuple, Optional, Sequence, Tuple, Union

from zirofen_host.collect.notes import Note
from zirofen_host.collect.reasons import Reason
from zirofen_host.files import TEXT_FILES, standing
from zirofen_host.options import Options
from zirofen_host.profile import DIRECTORY_MODE, FILE_MODE, TEXT_FORMATS, CgroupPath, TextFormat, parent_of

OWNER, GROUP, OTHERS = CLASSES = ("owner", "group", "others")

# the group's and everybody's bits
SOMEBODY_ELSE_WRITES = 0o022
# a limit's value as a tree text has it; or a text, with a newline between two lines
Value = Union[int, str]
# a device and an inode
FilePlace = Tuple[int, int]


@dataclass(frozen=True, order=True)
class Entry:
    """The owner, the group and the mode of a directory or a file."""
    __slots__ = ("uid", "gid", "mode")
    uid: int
    gid: int
    mode: int

    @property
    def is_reached(self) -> bool:
        """Whether somebody but root owns or writes it."""
        return bool(self.uid or self.mode & SOMEBODY_ELSE_WRITES)


DEFAULT_FILE = Entry(0, 0, FILE_MODE)


class LongList(Tuple[int, ...]):
    """A list of groups that is hashed and searched without going over it again: a process may have 65,536 of them."""

    @cached_property
    def _hash(self) -> int:
        return super().__hash__()

    @cached_property
    def numbers(self) -> FrozenSet[int]:
        return frozenset(self)

    def __hash__(self) -> int:
        return self._hash

    def __contains__(self, number: object) -> bool:
        return number in self.numbers


# a list of no more groups is a tuple as any other
SHORT = 16


def group_list(gids: Iterable[int]) -> Tuple[int, ...]:
    """The groups of a user, in a form that is hashed once where they are many."""
    found = tuple(gids)
    return found if len(found) <= SHORT else LongList(found)


def set_of_groups(gids: Tuple[int, ...]) -> FrozenSet[int]:
    return gids.numbers if isinstance(gids, LongList) else frozenset(gids)


class User(NamedTuple):
    """A uid with its groups, the primary one first. A tuple, since who is asked of what is sets of many of them."""
    uid: int
    gids: Tuple[int, ...]

    def class_of(self, entry: Entry) -> str:
        """The first class that matches, as a kernel asks."""
        return OWNER if entry.uid == self.uid else GROUP if entry.gid in self.gids else OTHERS

    def writes(self, entry: Entry) -> bool:
        return bool(entry.mode & {OWNER: 0o200, GROUP: 0o020, OTHERS: 0o002}[self.class_of(entry)])

    def reaches(self, entry: Entry) -> bool:
        """An owner may set the mode first, so they reach what they own."""
        return entry.uid == self.uid or self.writes(entry)


@dataclass(frozen=True)
class Cgroup:
    """A cgroup as it was found: every file with its owner, and the texts that matter."""
    __slots__ = ("directory", "files", "texts", "read", "enabled", "available", "kind", "marks", "pids")
    directory: Entry
    files: Mapping[str, Entry]
    # what the limit files have
    texts: Mapping[str, str]
    # what limit files of format 4 had, as far as they were read, that somebody but root reaches: no answer rests on it
    read: Mapping[str, str]
    enabled: Tuple[str, ...]
    available: Tuple[str, ...]
    # what cgroup.type has
    kind: str
    marks: Mapping[str, bytes]
    # none where it is threaded, and lists none
    pids: Optional[Tuple[int, ...]]


@dataclass(frozen=True)
class Row:
    """What a tree text carries of a cgroup."""
    path: CgroupPath
    directory: Entry = Entry(0, 0, DIRECTORY_MODE)
    files: Mapping[str, Entry] = field(default_factory=dict)
    values: Mapping[str, Value] = field(default_factory=dict)
    enabled: Tuple[str, ...] = ()

    def entry(self, name: str) -> Entry:
        """The directory or a file by its name; a file that isn't named has its default."""
        return self.directory if name == "dir" else self.files.get(name, DEFAULT_FILE)

    @property
    def text_files(self) -> List[str]:
        """The limit files that it names whose values are texts, in their order."""
        return [] if TEXT_FILES.keys().isdisjoint(self.files) else sorted(name for name in self.files if name in TEXT_FILES)


class Placed(NamedTuple):
    """What a tree text carries of a process."""
    pid: int
    uid: int
    at: CgroupPath


@dataclass(frozen=True)
class Tree:
    """What a tree text carries: the root's controllers, rows by path, and processes; and the format that it is written in."""
    controllers: Tuple[str, ...]
    rows: Mapping[CgroupPath, Row]
    processes: Sequence[Placed] = ()
    format: TextFormat = TEXT_FORMATS[2]

    def limit_files(self, path: CgroupPath) -> List[str]:
        """The limit files of a cgroup, in their order: those of every text that stand there, and the others that its row names."""
        parent = parent_of(path)
        enabled = self.rows[parent].enabled if parent else ()
        first = standing(enabled)
        named = self.rows[path].text_files
        return first + named if named else first


@dataclass(frozen=True)
class Process:
    """A process as /proc tells of it. Its uid is the real one; as a user it acts under the effective ones."""
    pid: int
    uid: int
    user: User
    is_kernel_thread: bool
    name: str = ""
    # those that it or one of its threads is permitted, whether they are effective or not
    capabilities: Tuple[str, ...] = ()
    # whether it has any capability, by which a kernel may refuse that it is moved
    is_privileged: bool = False
    # how many of its threads weren't looked at
    threads_left: int = 0
    # the capabilities that it or one of its threads may ever get, as bits
    bounding: int = 0
    threads: int = 1
    # its first thread has ended, and others live on
    is_headless: bool = False
    # of such a process a thread that lives, where one was found
    living: Optional[int] = None
    # where its first thread is, and behind it where else threads of it run; nothing where all are in one place. One that was removed
    # is named as a kernel names it, with a word behind its path
    places: Tuple[CgroupPath, ...] = ()
    # of one that runs elsewhere, the place of its program
    program: str = ""

    @property
    def thread(self) -> int:
        """The thread by which /proc tells of its namespaces, its mounts and its files."""
        return self.living or self.pid


class CgroupMount(NamedTuple):
    """A mount of cgroups that a container sees: where, which cgroup is its top, whether it may be written through, and whether it
    shows what is above the root of the container's cgroup namespace."""
    place: str
    top: CgroupPath
    is_writable: bool
    is_above: bool


@dataclass(frozen=True)
class Inside:
    """Processes of root's in a container, all of one cgroup, and what of cgroups they get at."""
    path: CgroupPath
    processes: int
    # what differs from PID 1's
    by: Tuple[str, ...]
    mounts: Tuple[CgroupMount, ...]
    # of those that decide, what is in a bounding set of theirs
    capabilities: Tuple[str, ...]
    # all are in another cgroup namespace than PID 1
    has_own_namespace: bool
    # one is in PID 1's PID namespace
    has_host_pids: bool
    # not all mounts were looked at
    is_cut: bool


class DescriptorKind(Enum):
    """How a process has an entry open, as far as /proc shows it."""
    OPEN = "open for writing"
    # on a mount that nothing tells of, so that it may be another file
    PERHAPS = "perhaps open for writing"
    # of which the flags aren't known
    RING = "registered with an io_uring"


class HeldEntry(NamedTuple):
    """An entry that a process may write by what it has open, whatever its owner and mode are now."""
    uid: int
    path: CgroupPath
    file: str
    pid: int
    # the place of its program, as a link of /proc has it; nothing where that isn't known
    program: str
    holding: DescriptorKind


class Unheld(NamedTuple):
    """Processes of which not all that they have open was looked at: whose they are, of a container of root's which, and why."""
    uid: int
    path: Optional[CgroupPath]
    why: Reason


class Scope(NamedTuple):
    """A container's or a pod's cgroup: its engine, its short id, its name where that is known, and its holder where root didn't start
    it; -1 where that may be anybody."""
    path: CgroupPath
    engine: str
    id: str
    name: Optional[str]
    holder: Optional[int]


class PrivateMount(NamedTuple):
    """A mount of the hierarchy in a mount namespace of somebody's processes: whose, where in there, and which cgroup is its top."""
    uid: int
    place: str
    top: CgroupPath


class FurtherMount(NamedTuple):
    """Another mount of the hierarchy: where, which cgroup is its top, and the folders on the way that don't let everybody through;
    whether all of these were looked at."""
    place: str
    top: CgroupPath
    folders: Tuple[Entry, ...]
    is_known: bool


class Covered(NamedTuple):
    """A file of a cgroup over which something is mounted, and of what type the file system is, where that is known."""
    path: CgroupPath
    file: str
    type: str


@dataclass(frozen=True)
class About:
    """What a snapshot is of, and when it was taken; of a text that doesn't say it, nothing."""
    host: Optional[str] = None
    kernel: Optional[str] = None
    time: Optional[str] = None


class Account(NamedTuple):
    name: str
    uid: int
    gid: int


class Group(NamedTuple):
    gid: int
    members: Tuple[str, ...]
    name: str = ""


@dataclass(frozen=True)
class Range:
    """Subordinate ids of an owner, who is named or numbered."""
    owner: str
    first: int
    count: int


@dataclass(frozen=True)
class AccountLists:
    """The accounts that a host lists, or that a text carries."""
    accounts: Tuple[Account, ...] = ()
    groups: Tuple[Group, ...] = ()
    subordinate_uids: Tuple[Range, ...] = ()
    subordinate_gids: Tuple[Range, ...] = ()


@dataclass(frozen=True)
class Carried:
    """What a text of another host carries beside its tree: accounts, and values that a tree has no place for."""
    accounts: AccountLists
    values: Mapping[Tuple[CgroupPath, str], str]
    # where threads run, and what processes have open, was looked at
    has_descriptors: bool = False
    # records of a later version, which aren't known here
    unknown: int = 0


@dataclass(frozen=True)
class Source:
    """Where a snapshot is from: a text's file, which the program took, and what it carries; of this host, neither."""
    file: Optional[str] = None
    carried: Optional[Carried] = None
    # what the text was asked for, as far as that left something out
    options: Options = Options()


@dataclass(frozen=True)
class Snapshot:
    """All that was found, the tree that a text carries of it, and what was left out on the way."""
    about: About
    # where the hierarchy is mounted, and by which options
    mount: str
    mount_options: Tuple[str, ...]
    cgroups: Mapping[CgroupPath, Cgroup]
    tree: Tree
    # by PID, those too that stand in no cgroup of the tree
    processes: Mapping[int, Process]
    kernel_threads: int
    # each file by which something is set, with its cgroup and its name
    places: Mapping[FilePlace, Tuple[CgroupPath, str]]
    # the files that this kernel says are made to be handed over
    kernel_list: FrozenSet[str]
    notes: Tuple[Note, ...]
    # what changed all the time or can't be read, and the subtrees without an answer by that, each with why
    changing: Mapping[CgroupPath, Reason]
    unanswerable: Mapping[CgroupPath, Reason]
    # the controllers whose limits are those of version 1
    version_1: Tuple[str, ...] = ()
    source: Source = Source()
    # whose that is which changed or can't be read, as far as it is somebody's
    makers: Mapping[CgroupPath, int] = field(default_factory=dict)
    # of whom not all processes were looked at, each with why
    over: Mapping[int, Reason] = field(default_factory=dict)
    # containers whose processes are root's
    inside: Tuple[Inside, ...] = ()
    # containers and pods by their names
    scopes: Tuple[Scope, ...] = ()
    # what processes have open, and what of that wasn't looked at
    held: Tuple[HeldEntry, ...] = ()
    unheld: Tuple[Unheld, ...] = ()
    # other mounts of the hierarchy, and files of cgroups over which something is mounted
    mounts: Tuple[FurtherMount, ...] = ()
    private: Tuple[PrivateMount, ...] = ()
    covered: Tuple[Covered, ...] = ()
    # containers of root's in the host's own cgroup namespace
    in_hosts_namespace: Tuple[CgroupPath, ...] = ()

    @property
    def known_processes(self) -> Collection[Process]:
        """The processes of which all is known that accounts are found by; of a text that carries nothing, none."""
        return () if self.source.file is not None and self.source.carried is None else self.processes.values()
