"""From one user and one subtree to what they may do there at all, by the owners and modes of entries.

The entries are those of it, and those that its guards stand on. No answer of the program's is asked for.
"""
from collections import defaultdict
from typing import DefaultDict, Dict, Iterable, Iterator, List, NamedTuple, Sequence, Tuple

from zirofen_host.ask.delegations import Delegations
from zirofen_host.ask.guards import GUARDS, IN_SUBTREE, LIMIT_FILE
from zirofen_host.collect.accounts import accounts_of
from zirofen_host.collect.model import OWNER, Entry, Snapshot, User
from zirofen_host.collect.tree import in_order
from zirofen_host.fault import Fault
from zirofen_host.files import HANDED_OVER
from zirofen_host.judge.finding_lines import some
from zirofen_host.judge.names import names_of
from zirofen_host.judge.one import Warn, is_known, users_of
from zirofen_host.options import AskOptions
from zirofen_host.profile import CgroupPath, ancestors, is_inside, path_of, shown, text_of

# kinds of cgroups that are named; where there are more, it is said how many
MOST = 64


class Lets(NamedTuple):
    """An entry by which a user does something, and what that is."""
    name: str
    entry: Entry
    by: str
    what: str

    def line(self) -> str:
        first = "" if self.is_written else "sets its mode first, and then "
        return f"    {self.name} {self.entry.uid}:{self.entry.gid} {self.entry.mode:03o}, by {self.by}: {first}{self.what}"

    @property
    def is_written(self) -> bool:
        """Whether it is written as it is; else its owner gives themselves that."""
        return self.by != OWNER or bool(self.entry.mode & 0o200)


def lets_at(delegations: Delegations, user: User, path: CgroupPath, whats: Iterable[Tuple[str, str]]) -> Tuple[Lets, ...]:
    """What some entries of a cgroup let a user do, which are given by name."""
    entries = ((name, delegations.entry(path, name), what) for name, what in whats)
    return tuple(Lets(name, entry, user.class_of(entry), what) for name, entry, what in entries if user.reaches(entry))


def above(delegations: Delegations, user: User, subtree: CgroupPath) -> Iterator[Tuple[CgroupPath, Tuple[Lets, ...]]]:
    """What they do from above."""
    for each in delegations.guarded(subtree):
        if each.guard != LIMIT_FILE.word:
            lets = lets_at(delegations, user, each.path, [(each.name, GUARDS[each.guard].deed)])
            if lets:
                yield each.path, lets


def inside(delegations: Delegations, user: User, subtree: CgroupPath) -> Iterator[Tuple[CgroupPath, Tuple[Lets, ...]]]:
    """What they do at the subtree's top and below."""
    for path in in_order(path for path in delegations.tree.rows if is_inside(path, subtree)):
        files = [(file, f"sets {file}") for file in delegations.tree.limit_files(path)]
        lets = lets_at(delegations, user, path, [*((name, IN_SUBTREE[name]) for name in HANDED_OVER), *files])
        if lets:
            yield path, lets


def moved_among(delegations: Delegations, user: User, paths: Sequence[CgroupPath]) -> Iterator[List[CgroupPath]]:
    """The cgroups among which they move processes: those below one of which they write cgroup.procs, by way of which each move goes."""
    written = {path for path in paths if user.reaches(delegations.entry(path, "cgroup.procs"))}
    tops: Dict[CgroupPath, List[CgroupPath]] = {}
    for path in in_order(written):
        top = next((place for place in [*ancestors(path)][::-1] if place in written), path)
        tops.setdefault(top, []).append(path)
    return (among for among in tops.values() if len(among) > 1)


def lines_of(delegations: Delegations, user: User, subtree: CgroupPath) -> Iterator[str]:
    """All of it: cgroups that are alike together."""
    alike: DefaultDict[Tuple[Lets, ...], List[CgroupPath]] = defaultdict(list)
    for path, lets in above(delegations, user, subtree):
        yield f"{text_of(path)}, above"
        yield from (each.line() for each in lets)
    found = list(inside(delegations, user, subtree))
    for path, lets in found:
        alike[lets].append(path)
    for lets, paths in list(alike.items())[:MOST]:
        yield some([text_of(path) for path in paths])
        yield from (each.line() for each in lets)
    if len(alike) > MOST:
        yield f"and {sum(len(paths) for paths in list(alike.values())[MOST:])} more cgroups, otherwise"
    for among in moved_among(delegations, user, [path for path, _ in found]):
        yield f"moves processes among {some([text_of(path) for path in among])}"


def may(snapshot: Snapshot, options: AskOptions, warn: Warn) -> List[str]:
    """What a user may do with a subtree, by each list of their groups where it differs."""
    accounts, path = accounts_of(options.accounts, snapshot), path_of(options.path)
    delegations = Delegations(snapshot.tree, accounts)
    users = users_of(options.user, accounts, not options.accounts and snapshot.source.file is None)
    if path not in snapshot.tree.rows:
        why = snapshot.changing.get(path)
        raise Fault(f"there is no cgroup {shown(options.path)}" + (f": {why}" if why else ""))
    if not any(is_known(user, snapshot.tree, accounts) for user in users):
        warn(f"uid {users[0].uid} owns nothing, writes nothing of their own, has no process and no account here")
    for place in sorted(place for place in snapshot.changing if is_inside(place, path)):
        warn(f"{shown(place)} isn't looked at: {snapshot.changing[place]}")
    name = names_of(accounts).user(users[0].uid)
    by_user = {user: list(lines_of(delegations, user, path)) for user in sorted(set(users))}
    if len({tuple(lines) for lines in by_user.values()}) == 1:
        by_user = {users[0]: next(iter(by_user.values()))}
    found: List[str] = []
    for user, lines in by_user.items():
        found += [f"# uid {user.uid}, groups {','.join(map(str, user.gids)) or '-'}"] if len(by_user) > 1 else []
        found += [f"{name} in {shown(options.path)}, by owners and modes:", *lines] if lines else [
            f"{name} owns and writes no entry of {shown(options.path)}, and none above it that a guard is about"]
    return found
