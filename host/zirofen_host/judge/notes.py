"""From what no answer looks at to a note of it, a class for each kind, and the text of a note."""
from dataclasses import dataclass
from typing import Iterable, Mapping, Optional, Tuple

from zirofen_host.collect.notes import BUDGETS, JoinedNote, Note, classes
from zirofen_host.collect.reasons import Reason
from zirofen_host.judge.finding_lines import some
from zirofen_host.judge.wanted import LostLimit
from zirofen_host.profile import MOST_GROUPS


def numbers(found: Iterable[int]) -> str:
    return some(list(map(str, sorted(found))))


@dataclass(frozen=True)
class UnlookedDescriptors(Note):
    """What processes of a user, or of root's in a container, have open and wasn't looked at."""
    kind = "descriptor"
    narrows = BUDGETS
    meaning = "What was opened before is still written through, and this wasn't looked at."
    why: Reason

    @property
    def text(self) -> str:
        return str(self.why)


@dataclass(frozen=True)
class MakesAbove(Note):
    """Where a user makes cgroups above subtrees of others'."""
    kind = "makes-above"
    meaning = "Who makes cgroups above another's subtree can make it invalid while it is empty."
    path: str
    subtrees: Tuple[str, ...]

    @property
    def text(self) -> str:
        return (f"they make cgroups in {self.path}, above {some(self.subtrees)}: by a threaded one they keep processes from being moved "
                "there")


@dataclass(frozen=True)
class GroupClass(Note):
    """Entries that nothing but a group keeps its members from."""
    kind = "group-class"
    meaning = "A group that only keeps its members out is no wall: they can drop it."
    group: str
    entries: Tuple[str, ...]

    @property
    def text(self) -> str:
        return f"only {self.group} keeps its members from {' '.join(self.entries)}, which they can drop"


@dataclass(frozen=True)
class Subordinate(JoinedNote):
    """Uids that are a user's too, and those of them that were asked of."""
    kind = "subordinate"
    meaning = "Subordinate uids are their owner's."
    first: int
    last: int
    asked: Tuple[int, ...]

    @property
    def fact(self) -> str:
        return "theirs too, and asked above" if self.asked else "theirs too, and none of them has anything here"

    @property
    def rest(self) -> str:
        return f"uids {self.first} to {self.last}" + (f", asked {numbers(self.asked)}" if self.asked else "")


@dataclass(frozen=True)
class Deputy(JoinedNote):
    """Units into which the service manager moves a user's processes."""
    kind = "deputy"
    meaning = "The service manager acts as root for whoever asks it."
    units: Tuple[str, ...]

    @property
    def fact(self) -> str:
        return "the service manager moves their processes, from anywhere, on request"

    @property
    def rest(self) -> str:
        return f"into {some(self.units)}"


@dataclass(frozen=True)
class Outside(JoinedNote):
    """Where a user has processes outside of what they hold."""
    kind = "outside"
    meaning = "Other services start processes for these users outside of what they hold."
    paths: Tuple[str, ...]

    @property
    def fact(self) -> str:
        return "processes of theirs are outside of what they hold"

    @property
    def rest(self) -> str:
        return f"in {some(self.paths)}"


@dataclass(frozen=True)
class Capable(Note):
    """Processes of a user in one place that pass over owners: the PIDs with each list of capabilities."""
    kind = "capability"
    meaning = "A process with such capabilities passes over owners, and over these answers."
    who: str
    is_inside: bool
    processes: Tuple[Tuple[Tuple[str, ...], Tuple[int, ...]], ...]

    @property
    def text(self) -> str:
        capabilities = "; ".join(f"process {numbers(pids)} of {self.who} has {' '.join('CAP_' + name for name in names)}"
                                 for names, pids in self.processes)
        return f"{'inside' if self.is_inside else 'beside'}: {capabilities}, and passes over owners"


@dataclass(frozen=True)
class UnlookedThreads(Note):
    """Threads of a user that weren't looked at."""
    kind = "capability"
    narrows = BUDGETS
    count: int
    most: int
    # of whoever has more of something else than is looked at
    over: Optional[Reason] = None

    @property
    def text(self) -> str:
        return f"{self.count} threads weren't looked at: {self.over or f'more than {self.most} run'}"


@dataclass(frozen=True)
class Unsearched(Note):
    """A directory that a user can't search."""
    kind = "search"
    meaning = "A directory that isn't searched keeps out whom the answers let in, on one mount alone."
    path: str
    # where else what is inside is mounted
    around: Tuple[str, ...]

    @property
    def text(self) -> str:
        if self.around:
            return f"they can't search {self.path}, and what is inside is mounted at {some(self.around)} too: the answer holds"
        return f"they can't search {self.path} on this mount: by another, as of a cgroup namespace inside, the answer holds"


@dataclass(frozen=True)
class OwnersMark(JoinedNote):
    """A mark that an owner can set, with none of root's beside it."""
    kind = "mark"
    meaning = "A mark that its owner can set proves nothing."
    mark: str
    owner: str

    @property
    def fact(self) -> str:
        return f"{self.mark} alone, which its owner can set, so that nothing is asked for it"

    @property
    def rest(self) -> str:
        return f"of {self.owner}"


@dataclass(frozen=True)
class LeftOutGroups(Note):
    """Groups of a user that the program wasn't given."""
    kind = "groups"
    meaning = f"The program takes {MOST_GROUPS} groups of a user."
    count: int

    @property
    def text(self) -> str:
        return f"{self.count} of their groups that are in the tree were left out; no entry that a guard is about names them"


@dataclass(frozen=True)
class UnaskedUsers(Note):
    """Users who weren't asked of what everybody is let in to: the counts of some subtrees."""
    kind = "everybody"
    narrows = BUDGETS
    meaning = "Where everybody is let in, some users are asked for all."
    counts: Tuple[int, ...]

    @property
    def text(self) -> str:
        many = f"{'' if len(self.counts) == 1 else 'up to '}{max(self.counts)} more"
        return (f"{many} users are let in as everybody is, and weren't asked: where the answer is unsettled, one of them may escape")


@dataclass(frozen=True)
class UnknownFiles(Note):
    """Files whose names aren't known, each with whether it counts as a limit."""
    kind = "unknown-file"
    meaning = "A newer kernel's files, taken by the mode that most cgroups have them with."
    files: Tuple[Tuple[str, bool], ...]

    @property
    def text(self) -> str:
        names = [f"{name} ({'a limit' if is_limit else 'no limit'})" for name, is_limit in self.files]
        return f"{some(names)}: by the mode that most cgroups have these with, since their names aren't known"


@dataclass(frozen=True)
class Restart(Note):
    """Limits that a unit's settings don't bring."""
    kind = "restart"
    meaning = "A unit's cgroup is made anew when it is started again, with its own settings alone."
    unit: str
    limits: Tuple[LostLimit, ...]

    @property
    def text(self) -> str:
        return f"{self.unit} is started anew with its own settings alone: {'; '.join(map(str, self.limits))}"


@dataclass(frozen=True)
class NoCause(Note):
    """Cgroups at which somebody is let in, and nothing that was read says why."""
    kind = "cause"
    meaning = "What gives an entry away may be anywhere that root runs something."
    paths: Tuple[str, ...]
    # files that aren't root's alone, links, and what was over the bounds
    unread: int

    @property
    def text(self) -> str:
        more = f", and {self.unread} files that aren't root's alone, are links or are too large" if self.unread else ""
        return (f"nothing that was read gives away what lets somebody in at {some(self.paths)}. Not read was what else root runs, and what "
                f"was done by hand{more}")


@dataclass(frozen=True)
class NotPlanned(Note):
    """What of a plan isn't known, and no answer rests on as far as is known."""
    kind = "not-told"
    meaning = "A plan says what follows from a unit's settings, and not what is carried out."
    said: str

    @property
    def text(self) -> str:
        return self.said


@dataclass(frozen=True)
class OfText(Note):
    """What a text doesn't tell: one that carries something of its host or nothing, with accounts beside it or without."""
    kind = "elsewhere"
    is_carried: bool
    # it carries where threads run and what processes have open
    has_descriptors: bool
    has_accounts: bool

    @property
    def text(self) -> str:
        if self.is_carried:
            more = "" if self.has_descriptors else "where threads run, open descriptors and "
            return f"this is judged by a text: {more}it lacks the settings of units"
        number, names = ("", "") if self.has_accounts else ("by number, ", " and no names (--accounts FOLDER does)")
        return (f"this was judged {number}by cgroups and processes alone: the text carries nothing of its host (zirofen-host snapshot "
                f"--with-host does){names}")


@dataclass(frozen=True)
class ClaimedName(Note):
    """A name that several containers have."""
    kind = "claimed-name"
    meaning = "A name that two containers have names neither."
    paths: Tuple[str, ...]

    @property
    def text(self) -> str:
        return f"{len(self.paths)} have that name, so that it names none of them: {some(self.paths)}"


@dataclass(frozen=True)
class OwnContainers(JoinedNote):
    """Containers that a user started themselves, by the names that they gave."""
    kind = "container"
    meaning = "Containers inside of what their users hold are theirs, as all that is inside is."
    names: Tuple[str, ...]

    @property
    def fact(self) -> str:
        return "containers of theirs, by their own names, inside of what they hold"

    @property
    def rest(self) -> str:
        return some(self.names)


@dataclass(frozen=True)
class MountedElsewhere(Note):
    """Another mount of the hierarchy, and who gets to it."""
    kind = "mount"
    meaning = "What the hierarchy has is reached by each of its mounts."
    mounted_at: str
    reached_by: str

    @property
    def text(self) -> str:
        return f"mounted at {self.mounted_at} too, which is reached by {self.reached_by}"


@dataclass(frozen=True)
class MountedByThem(JoinedNote):
    """Mounts of the hierarchy that somebody has in mount namespaces of their own: the top of each, and where it is."""
    kind = "mount"
    mounts: Tuple[Tuple[str, str], ...]

    @property
    def fact(self) -> str:
        return "mounted in mount namespaces of theirs too, where whoever is inside goes by these"

    @property
    def rest(self) -> str:
        return some([f"{top} at {place}" for top, place in self.mounts])


@dataclass(frozen=True)
class UnlookedProcesses(Note):
    """Processes of a user that weren't looked at."""
    kind = "processes"
    narrows = BUDGETS
    reason: Reason

    @property
    def text(self) -> str:
        return f"{self.reason}: not all were looked at"


@dataclass(frozen=True)
class WithoutProcesses(Note):
    """Processes in a subtree that was asked of without them."""
    kind = "processes"
    narrows = BUDGETS
    count: int

    @property
    def text(self) -> str:
        return (f"{self.count} inside, more than a text takes: it was asked of without any, so that an unsettled answer might have been "
                "an escape")


@dataclass(frozen=True)
class NotAdvised(Note):
    """Entries without advice on what to change, and how often the program is asked."""
    kind = "advice"
    entries: int
    most: int

    @property
    def text(self) -> str:
        return (f"what to change isn't known of {self.entries} entries: the program is asked {self.most} times, once in each text. Ask "
                "again after these changes")


# what is said once of all notes of a kind, by its word
MEANINGS: Mapping[str, str] = {str(each.kind): each.meaning for each in classes() if each.meaning}
JOINED = frozenset(str(each.kind) for each in classes() if issubclass(each, JoinedNote))
