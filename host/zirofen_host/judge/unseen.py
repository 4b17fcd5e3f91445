"""From a host that was asked to notes of what no answer looks at: of a user, a cgroup or the host."""
from bisect import bisect_left
from collections import Counter, defaultdict
from typing import DefaultDict, FrozenSet, Iterator, List, Set, Tuple

from zirofen_host.collect import bounded
from zirofen_host.collect.attempts import Attempts
from zirofen_host.collect.model import OWNER
from zirofen_host.collect.notes import Note
from zirofen_host.collect.walk import MANAGERS_MARK, OWNERS_MARK
from zirofen_host.judge import capable, hierarchy, settings
from zirofen_host.judge.advised import Advised
from zirofen_host.judge.checked import Checked
from zirofen_host.judge.finding_lines import some
from zirofen_host.judge.findings import texts_of
from zirofen_host.judge.model import ReportNote
from zirofen_host.judge.notes import (Capable, ClaimedName, Deputy, GroupClass, LeftOutGroups, MakesAbove, MountedByThem,
                                      MountedElsewhere, NoCause, NotAdvised, OfText, Outside, OwnersMark, OwnContainers, Subordinate,
                                      UnaskedUsers, UnknownFiles, UnlookedDescriptors, UnlookedProcesses, UnlookedThreads,
                                      Unsearched, WithoutProcesses)
from zirofen_host.judge.opened import unknown_files
from zirofen_host.profile import ANYBODY, CgroupPath, ancestors, is_inside, path_of, shown, text_of


def of_user(checked: Checked, uid: int, note: Note) -> ReportNote:
    """A note of a user, charged to whose uid it is."""
    return ReportNote.of(note, checked.makers.charged_user(uid))


def of_cgroup(checked: Checked, path: CgroupPath, note: Note) -> ReportNote:
    """A note of a cgroup, charged to whose making it is."""
    return ReportNote.of(note, checked.within(path))


def lines(checked: Checked, advised: Advised, attempts: Attempts) -> Tuple[ReportNote, ...]:
    """Goes over a host once, each function by itself."""
    found: List[ReportNote] = []
    for find in (descriptors, makers_above, group_class, subordinates, deputies, outside, capabilities, search_bits, marks, groups,
                 everybody, unknown, restarts, causes, about_the_mount, processes, containers_seen):
        found += attempts.all(find.__name__, lambda: find(checked))
    return (*found, *not_advised(advised))


def descriptors(checked: Checked) -> Iterator[ReportNote]:
    """What of what processes have open wasn't looked at."""
    for each in checked.snapshot.unheld:
        if each.path is None:
            yield of_user(checked, each.uid, UnlookedDescriptors(checked.names.user(each.uid), each.why))
        else:
            yield of_cgroup(checked, each.path, UnlookedDescriptors(text_of(each.path), each.why))


def makers_above(checked: Checked) -> Iterator[ReportNote]:
    """Who makes cgroups further above a subtree of another's than a guard stands: a threaded one there makes the subtree's cgroup
    invalid, and no process can be moved into it."""
    delegations, charged_user = checked.questions.delegations, checked.makers.charged_user
    below: DefaultDict[Tuple[CgroupPath, FrozenSet[int]], List[CgroupPath]] = defaultdict(list)
    for subtree in checked.questions.subtrees:
        holders = frozenset(map(charged_user, checked.questions.holders[subtree].uids))
        for place in [*ancestors(subtree)][1:-1]:
            if delegations.entry(place, "dir").is_reached:
                below[place, holders].append(subtree)
    found: DefaultDict[Tuple[int, CgroupPath], List[CgroupPath]] = defaultdict(list)
    for (place, holders), subtrees in below.items():
        for uid in {user.uid for user in delegations.users_at(delegations.entry(place, "dir"))} - {0}:
            if charged_user(uid) not in holders:
                found[uid, place] += subtrees
    for (uid, place), subtrees in sorted(found.items()):
        yield of_user(checked, uid, MakesAbove(checked.names.user(uid), text_of(place), texts_of(subtrees)))


def group_class(checked: Checked) -> Iterator[ReportNote]:
    """What only a group keeps its members from is no wall where they can drop it: a line for each group at a cgroup."""
    walls: DefaultDict[Tuple[CgroupPath, int], Set[str]] = defaultdict(set)
    for subtree in checked.questions.subtrees:
        for _, path, name in checked.questions.guarded(subtree):
            entry = checked.snapshot.tree.rows[path].entry(name)
            if entry.gid and entry.mode & 0o002 and not entry.mode & 0o020:
                walls[path, entry.gid].add(name)
    for (path, gid), names in sorted(walls.items()):
        yield of_cgroup(checked, path, GroupClass(text_of(path), checked.names.group(gid), tuple(sorted(names))))


def subordinates(checked: Checked) -> Iterator[ReportNote]:
    asked = sorted({user.uid for user in checked.answers.plan.users} - {ANYBODY})
    for uid in sorted(checked.held):
        for each in checked.questions.accounts.subordinate_to(uid):
            last = each.first + each.count - 1
            found = asked[bisect_left(asked, each.first):bisect_left(asked, last + 1)]
            yield of_user(checked, uid, Subordinate(checked.names.user(uid), each.first, last, tuple(found)))


def deputies(checked: Checked) -> Iterator[ReportNote]:
    """The manager acts as root for whoever has a unit of their own; a group has no manager."""
    for uid, paths in sorted(checked.held.items()):
        found = [path for path in paths if path in checked.questions.meant and checked.questions.holders[path].by == OWNER]
        if found:
            yield of_user(checked, uid, Deputy(checked.names.user(uid), texts_of(found)))


def outside(checked: Checked) -> Iterator[ReportNote]:
    """Processes of a user who holds something in none of their subtrees; cron and others start them."""
    held = {uid: set(paths) for uid, paths in checked.held.items()}
    places: DefaultDict[int, Set[CgroupPath]] = defaultdict(set)
    for _, uid, at in checked.snapshot.tree.processes:
        if uid in held and held[uid].isdisjoint((at, *ancestors(at))):
            places[uid].add(at)
    for uid, found in sorted(places.items()):
        yield of_user(checked, uid, Outside(checked.names.user(uid), tuple(dict.fromkeys(map(checked.container_text, sorted(found))))))


def capabilities(checked: Checked) -> Iterator[ReportNote]:
    """Processes that pass over owners, but for those that take an answer back, which are findings."""
    for each in capable.capable_users(checked):
        if not capable.takes_back(checked, each):
            yield of_cgroup(checked, each.place, Capable(text_of(each.place), checked.names.user(each.uid), each.is_inside, each.by_names))
    left: Counter[int] = Counter()
    for process in checked.snapshot.processes.values():
        left[process.uid] += process.threads_left
    for uid, count in sorted((uid, count) for uid, count in left.items() if count):
        over = checked.snapshot.over.get(checked.makers.charged_user(uid))
        yield of_user(checked, uid, UnlookedThreads(checked.names.user(uid), count, bounded.THREADS.most, over))


def search_bits(checked: Checked) -> Iterator[ReportNote]:
    seen: Set[Tuple[int, CgroupPath]] = set()
    for uid, paths in sorted(checked.held.items()):
        for user in checked.questions.delegations.users("uid", uid):
            seen |= {(uid, place) for path in paths for place in ancestors(path)
                     if not hierarchy.searches(user, checked.snapshot.cgroups[place].directory)}
    for uid, place in sorted(seen):
        yield of_user(checked, uid, Unsearched(checked.names.user(uid), text_of(place), hierarchy.around(checked, text_of(place), uid)))


def marks(checked: Checked) -> Iterator[ReportNote]:
    for path, found in sorted(checked.questions.marks.items()):
        if OWNERS_MARK in found and MANAGERS_MARK not in found:
            owner = checked.names.user(checked.snapshot.cgroups[path].directory.uid)
            yield of_cgroup(checked, path, OwnersMark(text_of(path), OWNERS_MARK, owner))


def groups(checked: Checked) -> Iterator[ReportNote]:
    for uid, count in sorted(checked.answers.plan.left_out.items()):
        if count:
            yield of_user(checked, uid, LeftOutGroups(checked.names.user(uid), count))


def everybody(checked: Checked) -> Iterator[ReportNote]:
    """Users who weren't asked of what everybody is let in to."""
    counts = set(checked.answers.not_asked.values())
    if counts:
        yield ReportNote.of(UnaskedUsers(some(texts_of(checked.answers.not_asked)), tuple(sorted(counts))))


def unknown(checked: Checked) -> Iterator[ReportNote]:
    """Files of names that aren't in the table of them."""
    files = tuple(unknown_files(checked.snapshot).items())
    if files:
        yield ReportNote.of(UnknownFiles("", files))


def restarts(checked: Checked) -> Iterator[ReportNote]:
    """Limits that a service's settings don't bring, and that are gone when it is started anew."""
    asked = {path: each for path, each in checked.agreed.items() if path in checked.questions.holders and each.unit.endswith(".service")}
    for note in settings.restarts(asked):
        yield of_cgroup(checked, path_of(note.place), note)


def causes(checked: Checked) -> Iterator[ReportNote]:
    """Where somebody is let in, and nothing of root's files is known to do that."""
    paths = {place.path for place in (*checked.judged.entries, *(place for place, _, _ in checked.openings))}
    without = [path for path in sorted(paths) if checked.causes(path) == ()]
    if without and checked.found_in_files:
        yield ReportNote.of(NoCause("", texts_of(without), checked.found_in_files.unread))


def about_the_mount(checked: Checked) -> Iterator[ReportNote]:
    """What is different about a text, and about how the hierarchy is mounted."""
    if checked.snapshot.source.file is not None:
        carried = checked.snapshot.source.carried
        has_descriptors = carried is not None and carried.has_descriptors
        yield ReportNote.of(OfText("", carried is not None, has_descriptors, checked.options.accounts is not None))
    for mount in checked.snapshot.mounts:
        yield ReportNote.of(MountedElsewhere(text_of(mount.top), shown(mount.place), hierarchy.reached_by(checked, mount)))
    yield from mounted_by_users(checked)


def mounted_by_users(checked: Checked) -> Iterator[ReportNote]:
    """What users have mounted in namespaces of their own, but for containers, each of which has a name or a line of its own, and for
    what stands where the host has it, as what managers mount for a service."""
    found: DefaultDict[int, List[Tuple[str, str]]] = defaultdict(list)
    for each in checked.snapshot.private:
        is_in_place = each.place == checked.snapshot.mount + text_of(each.top)
        if not is_in_place and checked.scopes.keys().isdisjoint((each.top, *ancestors(each.top))):
            found[each.uid].append((shown(text_of(each.top)), shown(each.place)))
    for uid, mounts in sorted(found.items()):
        yield of_user(checked, uid, MountedByThem(checked.names.user(uid), tuple(sorted(mounts))))


def processes(checked: Checked) -> Iterator[ReportNote]:
    """Users of whom not all processes were looked at, where no answer of theirs hangs on it: they hold nothing, or what is contained
    against everybody."""
    holders = {checked.makers.charged_user(uid) for uid, paths in checked.held.items()
               if any(path not in checked.against_everybody for path in paths)}
    for person, why in sorted(checked.snapshot.over.items()):
        if person not in holders:
            yield of_user(checked, person, UnlookedProcesses(checked.names.user(person), why))
    for path in checked.answers.without_processes:
        count = sum(is_inside(at, path) for _, _, at in checked.snapshot.tree.processes)
        yield of_cgroup(checked, path, WithoutProcesses(text_of(path), count))


def containers_seen(checked: Checked) -> Iterator[ReportNote]:
    """Containers of users, which are inside of what these hold, and names that two have."""
    own: DefaultDict[int, List[str]] = defaultdict(list)
    words: DefaultDict[str, List[str]] = defaultdict(list)
    for each in checked.snapshot.scopes:
        word = checked.word_of(each)
        if each.holder is not None and each.holder > 0:
            own[each.holder].append(word or text_of(each.path))
        if word and each.name is not None:
            words[word].append(text_of(each.path))
    for uid, names in sorted(own.items()):
        yield of_user(checked, uid, OwnContainers(checked.names.user(uid), tuple(names)))
    for word, paths in sorted(words.items()):
        if len(paths) > 1:
            yield of_cgroup(checked, path_of(paths[0]), ClaimedName(word, tuple(paths)))


def not_advised(advised: Advised) -> Iterator[ReportNote]:
    if advised.unasked:
        yield ReportNote.of(NotAdvised("", advised.unasked, bounded.ADVICE))
