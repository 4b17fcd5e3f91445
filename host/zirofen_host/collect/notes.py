"""From what a tree text changes or leaves out to a note of it, a class for each kind, and the text of a note.

A note's `kind` is the word that a report and the docs have for it; notes of one kind may be of several classes.
"""
from abc import ABC, abstractmethod
from dataclasses import dataclass
from typing import Iterator, Tuple, Type, Union

from zirofen_host.collect.reasons import LeftOutToFit, Reason

ANY_MODE = 0o777
# letters of a value that a note shows
SHOWN = 64
# the kind of what failed, which counts as a fault
FAILED = "failed"
# the place of a run that came to the end of its time
RUN = "run"
# what a note may be of by which an answer is limited: not all cgroups were walked, a budget was reached, or a capability lacks
WALK, BUDGETS, LACKING = "walk", "budgets", "lacking"
# notes of cgroups that stand in no text
LEFT_OUT = ("changing", "large", "name")


@dataclass(frozen=True)
class Note(ABC):
    """Something that no answer looks at, or that a tree text changes or leaves out."""
    # a cgroup as it is shown, or somebody by name, or nothing
    place: str
    # what is said once of all notes of its kind
    meaning = ""
    # by what an answer is limited where there is such a note, if it is
    narrows = ""

    @property
    @abstractmethod
    def kind(self) -> str:
        """The word of its kind."""

    @property
    @abstractmethod
    def text(self) -> str:
        """What is said of its place."""

    @property
    def line(self) -> str:
        return line_of(self.kind, self.place, self.text)


@dataclass(frozen=True)
class JoinedNote(Note):
    """One fact of several, which a line has together: what they have in common, and what is of each."""

    @property
    @abstractmethod
    def fact(self) -> str:
        """What they have in common."""

    @property
    @abstractmethod
    def rest(self) -> str:
        """What is of this one."""

    @property
    def text(self) -> str:
        return f"{self.fact}: {self.rest}"


def line_of(kind: str, place: str, text: str) -> str:
    return ": ".join(word for word in (kind, place, text) if word)


@dataclass(frozen=True)
class CarriedNote(Note):
    """One as a text of another host carries it, which is its word and its text."""
    word: str
    sentence: str

    @property
    def narrows(self) -> str:  # type: ignore[override]
        return WALK if self.word in LEFT_OUT else ""

    @property
    def kind(self) -> str:
        return self.word

    @property
    def text(self) -> str:
        return self.sentence


@dataclass(frozen=True)
class Failed(Note):
    """A look at the host failed, which is its place, and so many more of its kind."""
    kind = FAILED
    why: str
    more: int = 0

    @property
    def text(self) -> str:
        return self.why + (f", and {self.more} more" if self.more else "")


@dataclass(frozen=True)
class Changing(Note):
    """A cgroup that changed all the time, or can't be read."""
    kind = "changing"
    narrows = WALK
    reason: Reason

    @property
    def text(self) -> str:
        return f"left out, with all inside: {self.reason}"


@dataclass(frozen=True)
class WrongName(Note):
    """A cgroup whose path no text takes, with so many inside."""
    kind = "name"
    narrows = WALK
    inside: int

    @property
    def text(self) -> str:
        inside = f", and {self.inside} cgroups inside" if self.inside else ""
        return f"left out{inside}: no name of the format, or too long a path"


@dataclass(frozen=True)
class NamedAsFile(Note):
    """A cgroup that has the name of a controller's file."""
    kind = "file-name"

    @property
    def text(self) -> str:
        return "named as a file: a controller with that file can't be enabled above"


@dataclass(frozen=True)
class OtherControllers(Note):
    """Controllers that the format hasn't, each with how many cgroups enable it."""
    kind = "controller"
    counts: Tuple[Tuple[str, int], ...]

    @property
    def text(self) -> str:
        counted = ", ".join(f"{name} ({count})" for name, count in self.counts)
        return f"left out, with how many cgroups enable each: {counted}"


@dataclass(frozen=True)
class UnknownProcess(Note):
    """A process of which what /proc tells isn't known."""
    kind = "pid"
    pid: int

    @property
    def text(self) -> str:
        return f"{self.pid} left out: what /proc has of the process isn't known"


@dataclass(frozen=True)
class OtherPid(Note):
    """A PID that a text hasn't."""
    kind = "pid"
    pid: int

    @property
    def text(self) -> str:
        return f"{self.pid} left out: a process of another PID namespace, or no PID of the format"


@dataclass(frozen=True)
class LimitsOfVersion1(Note):
    """Controllers whose limits are those of version 1."""
    kind = "version-1"
    controllers: Tuple[str, ...]

    @property
    def text(self) -> str:
        return f"limits of {', '.join(self.controllers)} are v1's and weren't looked at"


@dataclass(frozen=True)
class OtherType(Note):
    """A cgroup that isn't in domain mode."""
    kind = "type"
    type: str

    @property
    def text(self) -> str:
        return f"{self.type}: threaded mode is left out"


@dataclass(frozen=True)
class NoFile(Note):
    """A limit file that should be there."""
    kind = "no-file"
    file: str
    default: Union[int, str]

    @property
    def text(self) -> str:
        return f"{self.file} isn't there, and is written with its default, {self.default}"


@dataclass(frozen=True)
class FileOfNoController(Note):
    """A limit file of a controller that isn't enabled above."""
    kind = "file"
    file: str
    controller: Union[str, None]

    @property
    def text(self) -> str:
        return f"{self.file} left out: the parent doesn't enable {self.controller}"


@dataclass(frozen=True)
class OtherValue(Note):
    """A limit's value that the format hasn't, and what is written for it."""
    kind = "value"
    file: str
    value: str
    written: Union[int, str]

    @property
    def text(self) -> str:
        return f"{self.file} is {self.value!r}, written as {self.written}"


@dataclass(frozen=True)
class NoValue(Note):
    """A value of a limit file of format 4 that the format hasn't, and for which nothing is written."""
    kind = "value"
    file: str
    value: str

    @property
    def text(self) -> str:
        cut = f"{self.value[:SHOWN]!a}{'' if len(self.value) <= SHOWN else '..'}"
        return f"{self.file} is {cut}, and is written without it: the format has no such value"


@dataclass(frozen=True)
class OtherModes(Note):
    """Entries with more in their modes than a text has."""
    kind = "mode"
    modes: Tuple[Tuple[str, int], ...]

    @property
    def text(self) -> str:
        return "; ".join(f"{name} has mode 0o{mode:o}, written as 0o{mode & ANY_MODE:03o}" for name, mode in self.modes)


@dataclass(frozen=True)
class UnlistedProcesses(Note):
    """A threaded cgroup, whose processes aren't listed."""
    kind = "processes"

    @property
    def text(self) -> str:
        return "left out: the cgroup is threaded and doesn't list them"


@dataclass(frozen=True)
class ProcessesBeside(Note):
    """Processes in a cgroup that enables controllers, which no text has."""
    kind = "processes"
    count: int
    enabled: Tuple[str, ...]

    @property
    def text(self) -> str:
        return f"{self.count} left out: the cgroup enables {' '.join(self.enabled)}"


@dataclass(frozen=True)
class ProcessesOverText(Note):
    """Somebody's processes, of which there are more than a text takes."""
    kind = "processes"
    narrows = BUDGETS
    person: int
    count: int
    most: int

    @property
    def text(self) -> str:
        return f"{self.count} of uid {self.person} left out: a text has {self.most} at most"


@dataclass(frozen=True)
class TooLarge(Note):
    """Somebody's cgroups, of which there are more than a text takes."""
    kind = "large"
    narrows = WALK
    reason: LeftOutToFit

    @property
    def text(self) -> str:
        return str(self.reason)


@dataclass(frozen=True)
class Lacking(Note):
    """A capability that the helper hasn't, and what isn't seen without it."""
    kind = "lacking"
    narrows = LACKING
    meaning = "The helper ran without a capability by which it would have seen more."
    capability: str
    unseen: str

    @property
    def text(self) -> str:
        return f"this helper hasn't CAP_{self.capability}: {self.unseen}"


def classes(above: Type[Note] = Note) -> Iterator[Type[Note]]:
    """Every class of notes that a module which was imported has."""
    for each in above.__subclasses__():
        if isinstance(each.kind, str):
            yield each
        yield from classes(each)
