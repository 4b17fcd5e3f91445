"""A report: the third form of the data, of which text, JSON, page and all other forms are made.

Its JSON has the keys and the order of these fields, of which those that are ABSENT have no key; the paths in it are texts, as they are
shown.
"""
from dataclasses import dataclass, field
from typing import Annotated, FrozenSet, Mapping, Optional, Tuple, Union

from zirofen_host.collect.notes import JoinedNote, Note, line_of
from zirofen_host.judge.host_model import (ABSENT, NO_KEY, Absent, AllWanted, Filled, NamedScope, Owner, PlaceNames, ReportCgroup,
                                           ReportGroup, ReportProcess, ReportUser)

# of the keys that a report has
VERSION = 1
# the status of a report of a host on which nothing was found to ask
NOTHING_ASKED = 4
# against whom a subtree's answers are, where these are all users but root; else their names
EVERYBODY = "everybody"
# whose own making something is: the uid of somebody who can have made it; what root made or handed over has none
Within = Union[int, Absent]
# the lines of an answer, of which the first has its word
Lines = Annotated[Tuple[str, ...], Filled()]


def word_of(lines: Lines) -> str:
    """The word of an answer."""
    return lines[0].split(" ")[0]


@dataclass(frozen=True)
class HeldBy:
    by: Optional[str]
    ids: Tuple[int, ...]


@dataclass(frozen=True)
class HolderAnswer:
    """What some of those who hold a subtree were answered."""
    who: str
    uids: Tuple[int, ...]
    users: int
    gids: Tuple[int, ...]
    lines: Lines
    # it lies in what was handed to the same person
    is_above: bool
    # of those that `who` numbers, where one has a name
    names: Union[Tuple[str, ...], Absent] = ABSENT
    # what it takes for granted that isn't so
    marks: Union[Tuple[str, ...], Absent] = ABSENT

    @property
    def word(self) -> str:
        return word_of(self.lines)


@dataclass(frozen=True)
class Subtree:
    path: str
    meant: Optional[str]
    unit: Optional[str]
    held_by: HeldBy
    answers: Tuple[HolderAnswer, ...]
    within: Within = ABSENT
    # what every answer of it takes for granted that isn't so
    marks: Union[Tuple[str, ...], Absent] = ABSENT
    # against whom it is contained: everybody but root, or some of those who were found; a program without that question doesn't tell
    against: Union[Tuple[str, ...], Absent] = ABSENT

    @property
    def is_against_everybody(self) -> bool:
        return self.against == (EVERYBODY,)


@dataclass(frozen=True)
class Whom:
    """Somebody that an entry lets in: by its owner, by its group or with everybody."""
    by: str
    id: Optional[int]
    name: str
    users: Tuple[str, ...]
    # the uids of its users; of a report that was read they aren't known
    members: Optional[FrozenSet[int]] = field(default=None, compare=False, metadata=NO_KEY)


AllLetIn = Annotated[Tuple[Whom, ...], Filled()]


@dataclass(frozen=True)
class Example:
    who: str
    uid: int
    gids: Tuple[int, ...]
    subtree: str
    lines: Lines


@dataclass(frozen=True)
class EntryFinding:
    """An entry that lets somebody in to subtrees."""
    path: str
    entry: str
    owner: Optional[Owner]
    answer: str
    whom: AllLetIn
    subtrees: Tuple[str, ...]
    example: Optional[Example]
    changes: Tuple[str, ...]
    setting: Optional[str]
    within: Within = ABSENT
    # nobody but that person is let in, and to nothing that isn't theirs
    is_own: Union[bool, Absent] = ABSENT
    # why it isn't counted, where somebody accepted it
    accepted: Union[str, Absent] = ABSENT
    # lines of root's files that give it away, or may; where none was looked for it isn't there
    causes: Union[Tuple[str, ...], Absent] = ABSENT


@dataclass(frozen=True)
class OpenedFinding:
    """A limit, or a directory that a manager makes something in, that stands open to somebody; seen, and not proved."""
    path: str
    file: str
    owner: Owner
    whom: AllLetIn
    changes: Tuple[str, ...]
    setting: Optional[str]
    # of a directory, why it counts
    why: Optional[str]
    within: Within = ABSENT
    is_own: Union[bool, Absent] = ABSENT
    accepted: Union[str, Absent] = ABSENT
    causes: Union[Tuple[str, ...], Absent] = ABSENT


@dataclass(frozen=True)
class FaultFinding:
    """Subtrees without an answer of somebody."""
    who: str
    uid: Optional[int]
    gids: Tuple[int, ...]
    fault: str
    subtrees: Tuple[str, ...]
    # those who hold the subtrees, where it is of their own making
    made_by: Optional[str]


@dataclass(frozen=True)
class DiffersFinding:
    """Entries that aren't as a service manager leaves them."""
    path: str
    entries: Tuple[str, ...]
    setting: Optional[str]
    changes: Tuple[str, ...]
    causes: Union[Tuple[str, ...], Absent] = ABSENT


@dataclass(frozen=True)
class AboveFinding:
    """What lies below what was handed to somebody, and isn't counted."""
    who: str
    uid: int
    handed: str
    subtrees: Tuple[str, ...]
    within: Within = ABSENT


@dataclass(frozen=True)
class RootInside:
    """Processes of root's in a container, all of one cgroup, and whether cgroup files are kept from them; seen, and not proved."""
    path: str
    processes: int
    # what they have that isn't PID 1's
    by: Tuple[str, ...]
    held: bool
    # what holds them, or else what lets them out
    why: Tuple[str, ...]
    # a word for each of what lets them out
    ways: Tuple[str, ...]
    changes: Tuple[str, ...]
    # of the container, what to set
    setting: Optional[str]
    accepted: Union[str, Absent] = ABSENT


@dataclass(frozen=True)
class RunsElsewhere:
    """A program of somebody's of which threads run in other cgroups than the one by which it is listed; seen, and not proved."""
    path: str
    elsewhere: Tuple[str, ...]
    # whose it is
    whom: AllLetIn
    # the place of its program, or its name
    program: str
    processes: Tuple[int, ...]
    # it is a user's, and an edge is between two places, or one is kept from them
    is_across: bool
    why: Tuple[str, ...]
    changes: Tuple[str, ...]
    setting: Optional[str]
    within: Within = ABSENT
    accepted: Union[str, Absent] = ABSENT


@dataclass(frozen=True)
class HeldFinding:
    """An entry that a program of somebody's holds, and that they couldn't open now; seen, and not proved."""
    path: str
    file: str
    owner: Owner
    # who holds it
    whom: AllLetIn
    program: str
    processes: Tuple[int, ...]
    # how it is held
    how: Tuple[str, ...]
    # it is this entry
    is_sure: bool
    changes: Tuple[str, ...]
    setting: Optional[str]
    within: Within = ABSENT
    accepted: Union[str, Absent] = ABSENT


@dataclass(frozen=True)
class PremiseFinding:
    """Something of the host that answers take to be otherwise: by its rule's id, its place and what it is of; seen, and not proved."""
    what: str
    path: str
    # the options that are missing, the file over which something is mounted, or capabilities
    entry: str
    whom: AllLetIn
    told: str
    processes: Tuple[int, ...]
    changes: Tuple[str, ...]
    # what the change does beside
    effect: Optional[str]
    within: Within = ABSENT
    accepted: Union[str, Absent] = ABSENT

    @property
    def setting(self) -> None:
        """No setting of a unit brings it back."""


@dataclass(frozen=True)
class ShownList:
    """An escape's lines as a page shows them, where they aren't those of the program or may not run, and why."""
    subtree: str
    lines: Lines
    shown: Lines
    told: str


@dataclass(frozen=True)
class ReportNote:
    """What no answer looks at, or what a tree text leaves out."""
    kind: str
    place: str
    text: str
    within: Within = ABSENT
    # what several of a kind have in common, with which the text begins
    fact: Union[str, Absent] = ABSENT
    # the note that it is made of; of a report that was read there is none
    note: Optional[Note] = field(default=None, compare=False, metadata=NO_KEY)

    @classmethod
    def of(cls, note: Note, within: Within = ABSENT) -> "ReportNote":
        return cls(note.kind, note.place, note.text, within, note.fact if isinstance(note, JoinedNote) else ABSENT, note)

    @property
    def line(self) -> str:
        return line_of(self.kind, self.place, self.text)


@dataclass(frozen=True)
class Difference:
    what: str
    line: str
    before: Optional[str]
    status: int
    changes: Tuple[str, ...]
    setting: Optional[str]
    within: Within = ABSENT


@dataclass(frozen=True)
class Comparison:
    """What differs from an earlier report."""
    file: str
    time: str
    new: Tuple[Difference, ...]
    worse: Tuple[Difference, ...]
    # what stands since then and was accepted by nobody, and faults, which nobody accepts
    stand: Tuple[Difference, ...]
    changed: Tuple[Difference, ...]
    gone: Tuple[Difference, ...]
    status: int


@dataclass(frozen=True)
class Acceptance:
    """What somebody accepts, and how that stands: accepted, over, worse or unmet."""
    what: str
    path: str
    entry: str
    whom: Tuple[str, ...]
    reason: str
    until: str
    state: str
    # of the finding that stands there
    line: Optional[str]
    # of one by the path of a container, the name to write in its place
    name: Union[str, Absent] = ABSENT


@dataclass(frozen=True)
class AnswerLimit:
    """What narrows what a report answers: a word for its kind, and what was left out."""
    kind: str
    text: str


@dataclass(frozen=True)
class Report:
    version: int
    program: Optional[str]
    host: str
    kernel: str
    time: str
    mount: str
    asked: bool
    has_advice: bool
    subtrees: Tuple[Subtree, ...]
    entries: Tuple[EntryFinding, ...]
    opened: Tuple[OpenedFinding, ...]
    faults: Tuple[FaultFinding, ...]
    differs: Tuple[DiffersFinding, ...]
    above: Tuple[AboveFinding, ...]
    unseen: Tuple[ReportNote, ...]
    snapshot: Tuple[ReportNote, ...]
    status: int
    # the controllers whose limits are those of version 1, which aren't looked at
    version_1: Tuple[str, ...]
    lists: Tuple[ShownList, ...]
    # where there are some
    root_inside: Union[Tuple[RootInside, ...], Absent] = ABSENT
    scopes: Union[Tuple[NamedScope, ...], Absent] = ABSENT
    runs_elsewhere: Union[Tuple[RunsElsewhere, ...], Absent] = ABSENT
    held_entries: Union[Tuple[HeldFinding, ...], Absent] = ABSENT
    # the host itself, where the report is to be whole
    users: Union[Tuple[ReportUser, ...], Absent] = ABSENT
    groups: Union[Tuple[ReportGroup, ...], Absent] = ABSENT
    cgroups: Union[Tuple[ReportCgroup, ...], Absent] = ABSENT
    processes: Union[Tuple[ReportProcess, ...], Absent] = ABSENT
    baseline: Union[Comparison, Absent] = ABSENT
    # of a baseline, whether what it tells of is accepted
    accepted: Union[bool, Absent] = ABSENT
    # what somebody accepts one by one, where they do
    acceptances: Union[Tuple[Acceptance, ...], Absent] = ABSENT
    # what narrows the question; a report of 0.2.0 doesn't tell it
    limits: Union[Tuple[AnswerLimit, ...], Absent] = ABSENT
    # what answers take to be otherwise, where something is
    premises: Union[Tuple[PremiseFinding, ...], Absent] = ABSENT
    # the options of the run, as words that a command which it prints carries; a report of 0.2.0 doesn't tell them
    options: Union[Tuple[str, ...], Absent] = ABSENT
    # the helper that made it, as its --version says; a report of 0.2.0 doesn't tell it
    helper: Union[str, Absent] = ABSENT
    # what settings of units say of limits, as far as systemctl tells it; of a report that was read nothing is known
    wanted: AllWanted = field(default_factory=dict, compare=False, metadata=NO_KEY)

    @property
    def containers(self) -> Tuple[RootInside, ...]:
        """Those whose processes are root's."""
        return () if isinstance(self.root_inside, Absent) else self.root_inside

    @property
    def running(self) -> Tuple[RunsElsewhere, ...]:
        """What runs elsewhere than it is listed."""
        return () if isinstance(self.runs_elsewhere, Absent) else self.runs_elsewhere

    @property
    def held(self) -> Tuple[HeldFinding, ...]:
        """What is held open by whoever couldn't open it now."""
        return () if isinstance(self.held_entries, Absent) else self.held_entries

    @property
    def broken(self) -> Tuple[PremiseFinding, ...]:
        """What answers take to be otherwise."""
        return () if isinstance(self.premises, Absent) else self.premises

    @property
    def names(self) -> "PlaceNames":
        """Containers and pods by the words that name them."""
        return PlaceNames(() if isinstance(self.scopes, Absent) else self.scopes)

    @property
    def given(self) -> Tuple[str, ...]:
        """The options of the run, as far as they are known."""
        return () if isinstance(self.options, Absent) else self.options

    @property
    def scopes_by_path(self) -> Mapping[str, NamedScope]:
        """Containers and pods by their cgroups."""
        return {} if isinstance(self.scopes, Absent) else {each.path: each for each in self.scopes}
