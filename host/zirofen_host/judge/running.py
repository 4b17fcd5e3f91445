"""From where threads run to findings of processes that run elsewhere than listed: seen by the helper, and not proved."""
from collections import defaultdict
from typing import DefaultDict, Iterable, Iterator, List, Mapping, NamedTuple, Optional, Sequence, Tuple

from zirofen_host.collect.model import OWNER, Cgroup, Process
from zirofen_host.collect.threads import DELETED
from zirofen_host.judge.checked import Checked
from zirofen_host.judge.held import made_by
from zirofen_host.judge.model import RunsElsewhere, Subtree, Whom
from zirofen_host.profile import ROOT, CgroupPath, ancestors, is_inside, shown, text_of

THREADED = ("threaded", "domain threaded")
HEADLESS = "its first thread has ended"
UNREAD = "not all of its threads were looked at"

Cgroups = Mapping[CgroupPath, Cgroup]


class Program(NamedTuple):
    """A program of a user's, and where it is listed."""
    first: CgroupPath
    uid: int
    name: str


def findings(checked: Checked) -> Iterator[RunsElsewhere]:
    """Each program of each user at one place once."""
    by: DefaultDict[Program, List[Process]] = defaultdict(list)
    at = {pid: path for path, found in checked.snapshot.cgroups.items() for pid in found.pids or ()}
    for process in checked.snapshot.processes.values():
        first = place_listed(checked, process, at.get(process.pid))
        if first is not None:
            # their person is whose real uid it is, or whoever they became
            by[Program(first, process.uid or process.user.uid, process.program or process.name)].append(process)
    for program in sorted(by):
        yield finding(checked, program, by[program])


def place_listed(checked: Checked, process: Process, listed: Optional[CgroupPath]) -> Optional[CgroupPath]:
    """Where a process is listed that runs elsewhere, or may."""
    first = process.places[0] if process.places else listed
    if first is None or not (process.places or is_unread(process)) or is_one_domain(checked.snapshot.cgroups, process.places):
        return None
    only = checked.options.only or ROOT
    return first if any(is_inside(place, only) for place in (first, *process.places)) else None


def is_unread(process: Process) -> bool:
    """Whether it isn't known where a process runs whose first thread has ended."""
    return process.is_headless and process.threads_left > 0


def is_one_domain(cgroups: Cgroups, places: Iterable[CgroupPath]) -> bool:
    """Whether places are those of one threaded subtree, where threads may be apart."""
    found = {domain_of(cgroups, place) for place in places}
    return len(found) == 1 and None not in found


def domain_of(cgroups: Cgroups, place: CgroupPath) -> Optional[CgroupPath]:
    """The top of the threaded subtree that a cgroup is in, if it is in one."""
    for above in (place, *ancestors(place)):
        cgroup = cgroups.get(above)
        if cgroup is None or cgroup.kind not in THREADED:
            return None
        if cgroup.kind != "threaded":
            return above
    return None


def is_across(checked: Checked, process: Process) -> bool:
    """Whether a delegation's edge is between two places of a user's process, or one is a cgroup that root keeps from them."""
    uid, (first, *others) = process.uid or process.user.uid, process.places or (ROOT,)
    if not uid or not others:
        return False
    subtrees = checked.questions.subtrees
    if any(is_inside(first, subtree) != is_inside(other, subtree) for other in others for subtree in subtrees):
        return True
    users = (process.user, *checked.questions.accounts.users_of(uid))
    entries = [cgroup.files["cgroup.procs"] for place in process.places if (cgroup := checked.snapshot.cgroups.get(place))]
    return any(not any(user.reaches(entry) for user in users) for entry in entries)


def finding(checked: Checked, program: Program, found: Sequence[Process]) -> RunsElsewhere:
    others = sorted({place for process in found for place in process.places[1:]})
    path = next(place for place in (program.first, *ancestors(program.first)) if place in checked.snapshot.cgroups)
    pids = tuple(sorted(process.pid for process in found))
    whom = Whom(OWNER, program.uid, checked.names.user(program.uid), ())
    return RunsElsewhere(text_of(path), tuple(map(text_of, others)), (whom,), shown(program.name), pids,
                         any(is_across(checked, process) for process in found), tuple(whys(checked, program, found, others)),
                         tuple(f"kill {pid}" for pid in pids), None, made_by(checked, program.uid))


def whys(checked: Checked, program: Program, found: Iterable[Process], others: Iterable[CgroupPath]) -> Iterator[str]:
    """What is to be said of how a program runs elsewhere."""
    cgroups = checked.snapshot.cgroups
    if any(process.is_headless for process in found):
        yield HEADLESS
    if any(map(is_unread, found)):
        yield UNREAD
    if program.first not in cgroups:
        yield f"its first thread was in {shown(program.first)}"
    silent = [place for place in others if place in cgroups and not cgroups[place].pids]
    if silent:
        yield f"no process is listed in {' '.join(map(shown, silent))}"


def is_place_of(subtree: Subtree, found: Iterable[RunsElsewhere]) -> bool:
    """Whether a process that runs elsewhere is listed in a subtree, or runs there."""
    return any(is_inside(place, subtree.path) for each in found for place in places_of(each))


def places_of(each: RunsElsewhere) -> Tuple[str, ...]:
    """Where it is listed, and where it runs."""
    return (each.path, *map(place_of, each.elsewhere))


def place_of(text: str) -> str:
    """A place without the word behind one that was removed."""
    return text[:-len(DELETED)] if text.endswith(DELETED.decode()) else text
