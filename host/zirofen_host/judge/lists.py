"""From an escape's operations to a list that can be tried, with other processes where these can't be moved.

A kernel may refuse to move a process that has capabilities, or that is its own: another of the same cgroup stands in its place. Where a
list ends by a limit that matters less, one that lifts another is shown, if the program says that it breaks the subtree. The program's own
list stays as it is in a report's lines.
"""
from typing import Dict, Iterable, Iterator, List, NamedTuple, Optional, Sequence, Set, Tuple

from zirofen_host.ask.program import Program, Refused
from zirofen_host.collect.bounded import REPLAYS
from zirofen_host.collect.model import Snapshot, User
from zirofen_host.judge.checked import Checked
from zirofen_host.judge.long_lists import is_whole
from zirofen_host.judge.model import EntryFinding, ShownList, Subtree
from zirofen_host.profile import CgroupPath, ancestors, is_inside, is_number, path_of, text_of

# operations whose first word behind their own is a process
OF_PROCESSES = ("move", "fork", "exit")
# cgroups above and processes that are tried to cross an edge with
PLACES_TRIED = 3
# limits by how much it matters that somebody lifts them, and what they write
LIFTED = {"memory.max": "max", "memory.high": "max", "memory.swap.max": "max", "cpu.max": "max 100000", "cpu.weight": "10000",
          "pids.max": "max"}


class Tried(NamedTuple):
    """A list as it can be tried, with what is said of it where it isn't the program's own as it was."""
    lines: Tuple[str, ...]
    why: Optional[str]


def tried(snapshot: Snapshot, program: Program, user: User, subtree: CgroupPath, lines: Sequence[str]) -> Tried:
    """A list in which other processes stand for those that can't be moved, where it breaks the subtree as well."""
    wanted = [pid for pid in pids_in(lines) if not is_movable(snapshot, pid)]
    if not wanted:
        return Tried(tuple(lines), None)
    others = others_for(snapshot, user, wanted, set(pids_in(lines)))
    if others is None:
        return Tried(tuple(lines), f"process {wanted[0]} has capabilities or is the kernel's, and no other is there that hasn't: "
                     "a kernel may refuse to move it")
    changed = tuple(with_others(line, others) for line in lines)
    swaps = ", ".join(f"{other} for {pid}" for pid, other in others.items())
    try:
        breaks = program.breaks(user, subtree, changed)
    except Refused:
        breaks = False
    if not breaks:
        return Tried(tuple(lines), f"with process {swaps} it isn't shown to break the subtree: this list is the program's own, and a "
                     "kernel may refuse it")
    return Tried(changed, f"process {swaps}, which has capabilities or is the kernel's; the program was asked again, and it breaks the "
                 "subtree")


def graver(snapshot: Snapshot, program: Program, user: User, subtree: CgroupPath, lines: Sequence[str]) -> Optional[Tried]:
    """A list that lifts the limit which matters most, where these set one that matters less; None where there is none."""
    words = lines[-1].split(" ") if lines else []
    if len(words) < 3 or words[0] != "set" or words[1] != text_of(subtree):
        return None
    row = snapshot.tree.rows[subtree]
    ranked = list(LIFTED)
    before = ranked[:ranked.index(words[2])] if words[2] in LIFTED else ranked
    for name in (each for each in before if each in row.files and user.reaches(row.files[each])):
        entry, place = row.files[name], f"{words[1]} {name}"
        opened = () if user.writes(entry) else (f"chmod {place} {entry.mode | 0o200:03o}",)
        changed = (*opened, f"set {place} {LIFTED[name]}")
        try:
            if program.breaks(user, subtree, changed):
                return Tried(changed, f"the program says of this list, too, that it breaks the subtree; its own is: {'; '.join(lines)}")
        except Refused:
            continue
    return None if words[2] in LIFTED else crossing(snapshot, program, user, subtree, lines)


def crossing(snapshot: Snapshot, program: Program, user: User, subtree: CgroupPath, lines: Sequence[str]) -> Optional[Tried]:
    """A list that moves a process over the subtree's edge, where these change a limit of numbers; None where none is found."""
    outer = [each for each in ancestors(subtree) if user.writes(snapshot.tree.rows[each].entry("cgroup.procs"))]
    moved = [each.pid for each in snapshot.tree.processes if is_inside(each.at, subtree) and is_movable(snapshot, each.pid)]
    for place in outer[:PLACES_TRIED]:
        for pid in moved[:PLACES_TRIED]:
            changed = (f"move {pid} {text_of(place)}",)
            try:
                if program.breaks(user, subtree, changed):
                    return Tried(changed, "the program says of this list, too, that it breaks the subtree; its own is: "
                                 f"{'; '.join(lines)}")
            except Refused:
                continue
    return None


def pids_in(lines: Iterable[str]) -> List[int]:
    """The processes that operations name, each once, but for those that they start."""
    found: Dict[int, None] = {}
    started: Set[int] = set()
    for words in (line.split(" ") for line in lines):
        if len(words) > 1 and words[0] in OF_PROCESSES and is_number(words[1]) and int(words[1]) not in started:
            found[int(words[1])] = None
        if words[0] == "fork" and len(words) > 2 and is_number(words[2]):
            started.add(int(words[2]))
    return list(found)


def is_movable(snapshot: Snapshot, pid: int) -> bool:
    process = snapshot.processes.get(pid)
    return process is None or not process.is_kernel_thread and not process.is_privileged and not process.capabilities


def others_for(snapshot: Snapshot, user: User, wanted: Iterable[int], taken: Set[int]) -> Optional[Dict[int, int]]:
    """Another process of the same cgroup for each, the user's own first; None where one has none."""
    places = {placed.pid: placed.at for placed in snapshot.tree.processes}
    found: Dict[int, int] = {}
    for pid in wanted:
        beside = [each for each in snapshot.tree.processes if pid in places and each.at == places[pid] and each.pid not in taken
                  and each.pid not in found.values() and is_movable(snapshot, each.pid)]
        if not beside:
            return None
        found[pid] = min(beside, key=lambda each: (each.uid != user.uid, each.pid)).pid
    return found


def with_others(line: str, others: Dict[int, int]) -> str:
    """An operation with other processes in the place of some."""
    words = line.split(" ")
    if len(words) > 1 and words[0] in OF_PROCESSES and is_number(words[1]):
        words[1] = str(others.get(int(words[1]), words[1]))
    return " ".join(words)


def shown_lists(checked: Checked, subtrees: Iterable[Subtree], entries: Iterable[EntryFinding]) -> Iterator[ShownList]:
    """The lists of a report that aren't shown as the program has them, of so many at most."""
    seen: Set[Tuple[str, Tuple[str, ...]]] = set()
    for user, path, lines in escapes_in(checked, subtrees, entries):
        subtree = path_of(path)
        if (path, lines) in seen or len(seen) == REPLAYS or subtree not in checked.programs.of or not is_whole(lines):
            continue
        seen.add((path, lines))
        asked = checked.snapshot, checked.programs.of[subtree], user, subtree, lines[1:]
        found = graver(*asked) or tried(*asked)
        if found.why:
            yield ShownList(path, lines, (lines[0], *found.lines), found.why)


def escapes_in(checked: Checked, subtrees: Iterable[Subtree],
               entries: Iterable[EntryFinding]) -> Iterator[Tuple[User, str, Tuple[str, ...]]]:
    """Each escape that a report tells of, with whom it is by."""
    for entry in entries:
        if entry.example and entry.answer == "escapes":
            yield User(entry.example.uid, entry.example.gids), entry.example.subtree, entry.example.lines
    for subtree in subtrees:
        for answer in subtree.answers:
            if answer.uids and answer.lines[0] == "escapes":
                yield longest(checked, answer.uids[0], answer.gids), subtree.path, answer.lines


def longest(checked: Checked, uid: int, gids: Tuple[int, ...]) -> User:
    """A user with the longest list of groups that was asked of."""
    return max(checked.asked.get(uid, ()), key=lambda user: len(user.gids), default=User(uid, gids))
