"""From a finding to its one line, as a report and a comparison of two have it."""
import json
import shlex
from typing import Iterable, Optional, Sequence

from zirofen_host.collect.model import GROUP, OTHERS, OWNER
from zirofen_host.collect.notes import LimitsOfVersion1
from zirofen_host.judge.host_model import Absent, Owner
from zirofen_host.judge.model import (AboveFinding, Acceptance, DiffersFinding, EntryFinding, FaultFinding, HeldFinding, OpenedFinding,
                                      PremiseFinding, RootInside, RunsElsewhere, Whom)
from zirofen_host.profile import shown

# names in a line; where there are more, it tells how many
SHOWN = 8
NOTHING_ASKED = ("nothing was found to ask: looked for were cgroups that somebody but root was handed, by a mark, a unit or the owners "
                 "and modes of their entries, and processes of root's in a container, by their cgroup namespace and root")
NSDELEGATE = "nsdelegate"
# the ids of what answers take to be otherwise
MOUNT_OPTIONS, MOUNTED_OVER, CAPABILITY = "mount-options", "mounted-over", "capability"
# what each report says of what an answer takes for granted
PREMISES_MEAN = "seen and not proved"
# what each report says of root inside
INSIDE_MEANS = "held speaks of cgroup files alone, and is seen and not proved"


def some(names: Sequence[str], most: int = SHOWN) -> str:
    more = f" and {len(names) - most} more" if len(names) > most else ""
    return " ".join(names[:most]) + more


def whom_text(whom: Iterable[Whom]) -> str:
    """Whom an entry lets in."""
    return ", ".join("everybody" if each.by == OTHERS else f"{each.name}: {some(each.users)}" if each.by == GROUP and each.users
                     else each.name for each in whom)


def owner_text(owner: Owner) -> str:
    return f"{owner.uid}:{owner.gid} {owner.mode}"


def entry_line(entries: Sequence[EntryFinding]) -> str:
    """The line of the entries at one place that let in the same to the same."""
    entry = entries[0]
    what = " ".join(f"{each.entry} ({owner_text(each.owner)})" if each.owner else each.entry for each in entries)
    return f"{entry.path} {what}: {entry.answer}, by {whom_text(entry.whom)}, of {some(entry.subtrees)}"


def explaining(user: int, subtree: str, given: Sequence[str]) -> str:
    """The command that says of a user and a subtree what each guard asks, with the options of the run."""
    return shlex.join(("zirofen-host", "ask", str(user), "--explain", subtree, *given))


def asking(user: int, subtree: str, given: Sequence[str]) -> str:
    """The command that asks of a user and a subtree."""
    return shlex.join(("zirofen-host", "ask", str(user), subtree, *given))


def why_command(each: EntryFinding, given: Sequence[str]) -> Optional[str]:
    """The command that says why, of the user and the subtree that it is shown of, or else of the first whom the entry lets in as its
    owner."""
    if each.example:
        return explaining(each.example.uid, each.example.subtree, given)
    owner = next((whom.id for whom in each.whom if whom.by == OWNER and whom.id is not None), None)
    return None if owner is None else explaining(owner, each.subtrees[0], given)


def opened_line(each: OpenedFinding) -> str:
    return f"opened {each.path} {each.file} by {whom_text(each.whom)}" + (f": {each.why}" if each.why else "")


def fault_line(each: FaultFinding, subtrees: Sequence[str]) -> str:
    """The line of a fault, of some of its subtrees."""
    own = f", of {each.made_by}'s own making" if each.made_by else ""
    return f"fault: {each.who} of {some(subtrees)}: {each.fault}{own}"


def differs_line(each: DiffersFinding) -> str:
    return f"differs {each.path}: {some(each.entries)}: not as a service manager leaves it"


def above_line(each: AboveFinding) -> str:
    return f"above: {each.who}, below {each.handed}: {some(each.subtrees)}"


def inside_line(each: RootInside) -> str:
    """The line of a container of root's, without what may change from run to run."""
    return f"root-inside {each.path}: {inside_text(each)}"


def inside_text(each: RootInside) -> str:
    """By what a container of root's is held, or what lets it out."""
    if not each.held:
        return f"not held: {'; '.join(each.why)}"
    return f"held{' by' if each.why[0] == NSDELEGATE else ':'} {'; '.join(each.why)}"


def inside_count(each: RootInside) -> str:
    """How many processes a container has, and by what it is known."""
    return f"{each.processes} process{'' if each.processes == 1 else 'es'}, by {' and '.join(each.by)}"


def runs_line(each: RunsElsewhere) -> str:
    """The line of what runs elsewhere, without the PIDs, which differ from run to run."""
    elsewhere = f"run in {some(tuple(map(shown, each.elsewhere)))}" if each.elsewhere else "aren't known to run there"
    why = f": {'; '.join(each.why)}" if each.why else ""
    return f"runs-elsewhere {shown(each.path)}: threads of {each.program} of {whom_text(each.whom)} {elsewhere}{why}"


def held_line(each: HeldFinding) -> str:
    """The line of an entry that is held, without the PIDs."""
    return (f"held-entry {each.path} {each.file} ({owner_text(each.owner)}): {' and '.join(each.how)} in {each.program} of "
            f"{whom_text(each.whom)}, who can't open it now")


def premise_line(each: PremiseFinding) -> str:
    """The line of what answers take to be otherwise, without the PIDs."""
    place = " ".join(filter(None, (each.path, each.entry if each.what == MOUNTED_OVER else "")))
    return f"{each.what} {place}: {each.told}"


def processes_text(pids: Sequence[int]) -> str:
    return f"process {some(tuple(map(str, pids)))}"


def acceptance_line(each: Acceptance) -> str:
    """The line of what somebody accepts: of what is so, and of what isn't so any more and counts."""
    if each.state == "accepted":
        by_name = "" if isinstance(each.name, Absent) else f"; path = {json.dumps(each.name)} holds too when it is made again"
        return f"accepted: {each.line}: {each.reason}, until {each.until}{by_name}"
    what = " ".join(filter(None, (each.what, each.path, each.entry))) + f" by {', '.join(each.whom)}: {each.reason}, until {each.until}"
    state = {"over": "is over", "worse": "doesn't hold, it got worse", "unmet": "meets nothing"}[each.state]
    return f"an acceptance {state}: {what}" + (f"; now: {each.line}" if each.line else "")


def version_1_line(controllers: Iterable[str]) -> str:
    return LimitsOfVersion1("/", tuple(controllers)).text
