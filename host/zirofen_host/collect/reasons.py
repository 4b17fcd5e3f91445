"""From why something of a host is left out, or has no answer, to a sentence: a class for each kind."""
from abc import ABC, abstractmethod
from dataclasses import dataclass
from typing import ClassVar


@dataclass(frozen=True)
class Reason(ABC):
    """Why something is left out, or has no answer."""
    # it is what somebody does or has, and no fault of the host's
    is_by_somebody: ClassVar[bool] = False

    @abstractmethod
    def __str__(self) -> str:
        """The sentence that is shown."""


@dataclass(frozen=True)
class Changed(Reason):
    """A cgroup changed between two walks."""
    is_by_somebody = True

    def __str__(self) -> str:
        return "it came, went or changed while it was read"


@dataclass(frozen=True)
class NeverAgreed(Reason):
    """What matters for a subtree changed through so many walks."""
    walks: int

    def __str__(self) -> str:
        return f"what matters for it came, went or changed through {self.walks} walks"


@dataclass(frozen=True)
class Unreadable(Reason):
    """A cgroup can't be read."""
    why: str

    def __str__(self) -> str:
        return f"can't read it: {self.why}"


@dataclass(frozen=True)
class MountedOver(Reason):
    """Something is mounted over a cgroup, or over a file of it without which nothing is known of it; of what type, where that is
    known."""
    type: str
    file: str = ""

    def __str__(self) -> str:
        return f"{f'{self.file}: ' if self.file else ''}something is mounted over it{f' ({self.type})' if self.type else ''}"


@dataclass(frozen=True)
class OverBudget(Reason):
    """Somebody has more of something than is looked at."""
    is_by_somebody = True
    person: int
    most: int
    what: str

    def __str__(self) -> str:
        return f"uid {self.person} has over {self.most} {self.what}"


@dataclass(frozen=True)
class LeftOutToFit(Reason):
    """Somebody's cgroups in a place were left out of a text that takes so much of something at most."""
    is_by_somebody = True
    person: int
    count: int
    place: str
    most: int
    what: str

    def __str__(self) -> str:
        return f"uid {self.person} has {self.count} cgroups in {self.place}, left out: a text has {self.most} {self.what} at most"


@dataclass(frozen=True)
class CarriedReason(Reason):
    """A reason as a text of another host carries it, which is its sentence alone."""
    sentence: str

    def __str__(self) -> str:
        return self.sentence


class CarriedOfSomebody(CarriedReason):
    """One that is what somebody does or has."""
    is_by_somebody = True


CHANGED = Changed()


@dataclass(frozen=True)
class MoreThanLookedAt(Reason):
    """Somebody's processes have more of something than is looked at."""
    most: int
    what: str

    def __str__(self) -> str:
        return f"more than {self.most} {self.what} are in their processes: not all were looked at"


@dataclass(frozen=True)
class UnknownMounts(Reason):
    """So many open files are on mounts that nothing tells of."""
    count: int

    def __str__(self) -> str:
        return (f"{self.count} open files are on mounts that nothing names, and this kernel doesn't say which files they are: they "
                "weren't looked at")


@dataclass(frozen=True)
class UnlookedTables(Reason):
    """So many threads of a process may have a table of descriptors of their own."""
    pid: int
    count: int
    most: int

    def __str__(self) -> str:
        return f"{self.count} threads of process {self.pid} weren't looked at: more than {self.most} run"


@dataclass(frozen=True)
class UnlookedHeadless(Reason):
    """No thread is known that lives of a process whose first one has ended."""
    pid: int

    def __str__(self) -> str:
        return f"what process {self.pid} holds, whose first thread has ended, wasn't looked at"


@dataclass(frozen=True)
class UnlookedRing(Reason):
    """A kernel doesn't tell what is registered with an io_uring."""
    pid: int

    def __str__(self) -> str:
        return f"an io_uring of process {self.pid} wasn't looked at: its files aren't known"


@dataclass(frozen=True)
class UnknownPaths(Reason):
    """So many files that are registered with an io_uring have names of cgroups' files, and no path on the mount."""
    pid: int
    count: int

    def __str__(self) -> str:
        return (f"an io_uring of process {self.pid} wasn't looked at: no path on this mount is known of {self.count} of its files, which "
                "are named as a cgroup's")
