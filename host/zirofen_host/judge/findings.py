"""From judged answers to the findings of a report."""
from collections import Counter, defaultdict
from typing import DefaultDict, Dict, Iterable, Iterator, List, Mapping, Optional, Set, Tuple, Union

from zirofen_host.ask.in_time import NotInTime
from zirofen_host.ask.program import ESCAPES
from zirofen_host.ask.questions import unit_of
from zirofen_host.ask.reasons import TextRefused, TooLargeForText
from zirofen_host.collect.attempts import Attempts
from zirofen_host.collect.model import GROUP, OTHERS, OWNER, Entry, User
from zirofen_host.collect.reasons import OverBudget, Reason
from zirofen_host.collect.tree import in_order, row_text
from zirofen_host.collect.walk import MANAGERS_MARK
from zirofen_host.judge import long_lists
from zirofen_host.judge.advised import Advised
from zirofen_host.judge.checked import Checked
from zirofen_host.judge.finding_lines import some
from zirofen_host.judge.host_model import ABSENT, Absent, Owner
from zirofen_host.judge.judged import LetIn, LetsIn, Place
from zirofen_host.judge.model import AboveFinding, DiffersFinding, EntryFinding, Example, FaultFinding, OpenedFinding, Whom, word_of
from zirofen_host.judge.names import Names
from zirofen_host.judge.opened import GROUP_WRITES, OTHERS_WRITE, WHO_IS_FIRST, what_differs
from zirofen_host.judge.shell import closing_commands
from zirofen_host.judge.wanted import files_with, is_decided, is_same, written
from zirofen_host.profile import CgroupPath, ancestors, is_inside, shown, text_of, topmost

NO_CLOSING: Mapping[CgroupPath, Tuple[str, ...]] = {}


def owner_of(entry: Entry) -> Owner:
    return Owner(entry.uid, entry.gid, f"{entry.mode:03o}")


def setting_of(path: CgroupPath) -> Optional[str]:
    """The settings of a unit that bring back the owners of what it hands over. A scope isn't started again, and a slice hands
    nothing over."""
    unit = unit_of(path)
    return f"Delegate= and User= of {unit}" if unit and unit.endswith(".service") else None


def texts_of(paths: Iterable[CgroupPath]) -> Tuple[str, ...]:
    return tuple(map(text_of, paths))


def whom_of(names: Names, let_in: Iterable[LetIn]) -> Tuple[Whom, ...]:
    """Whom an entry lets in, by owner, group and everybody."""
    return tuple(Whom(each.by, each.id, names.by_class(each.by, each.id),
                      tuple(names.member(uid) for uid in sorted(each.uids)) if each.by == GROUP else (), each.uids) for each in let_in)


def entry_findings(checked: Checked, advised: Advised, attempts: Attempts) -> Tuple[EntryFinding, ...]:
    closing = attempts.at("closing", lambda: closing_of_directories(checked), NO_CLOSING)
    return attempts.each("entries", [found for _, found in sorted(checked.judged.entries.items())],
                         lambda found: entry_finding(checked, advised, found, closing.get(found.place.path, ())))


def entry_finding(checked: Checked, advised: Advised, found: LetsIn, closing: Tuple[str, ...]) -> EntryFinding:
    """An entry with what to change of it, and what closes the directory beside it."""
    (user, subtree), place, lines = found.worst, found.place, found.answer.lines
    # an entry of others is everybody's; who of them was asked is among the users
    is_own, path = checked.questions.is_holder(user, subtree), text_of(place.path)
    kept = long_lists.kept(lines, user.uid, text_of(subtree), checked.options.carried)
    example = None if is_own else Example(checked.names.who(user), user.uid, user.gids, text_of(subtree), kept)
    changes = checked.commands(advised.changes_of(found))
    return EntryFinding(path, place.name, owner_of(found.entry) if found.entry else None, word_of(lines),
                        whom_of(checked.names, found.whom), texts_of(found.subtrees), example,
                        (*changes, *(() if place.name == "dir" else closing), *restoring(checked, place)), setting_at(checked, place),
                        checked.within(place.path),
                        is_own_affair(checked, place, found.whom, found.subtrees), causes=checked.causes(place.path))


def is_own_affair(checked: Checked, place: Place, let_in: Iterable[LetIn], subtrees: Iterable[CgroupPath]) -> Union[bool, Absent]:
    """Whether an entry of somebody's own making lets in them alone, and to nothing that another holds."""
    person = checked.makers.within(place.path)
    if person is None:
        return ABSENT
    uids = {uid for each in let_in for uid in each.uids}.union(*(checked.questions.holders[path].uids for path in subtrees))
    return checked.makers.is_all_of(person, uids)


def closing_of(checked: Checked, place: Place, entry: Entry, let_in: Iterable[LetIn]) -> Tuple[str, ...]:
    """What keeps out those whom an entry shouldn't let in, and nobody else."""
    by = {each.by for each in let_in}
    kept = sum(bits for kind, bits in ((GROUP, GROUP_WRITES), (OTHERS, OTHERS_WRITE)) if kind not in by)
    closed = {place.name: Entry(entry.uid if OWNER in by else 0, entry.gid, entry.mode & ~kept)}
    threads = checked.snapshot.cgroups[place.path].files.get("cgroup.threads")
    if place.name == "dir" and place.path in checked.questions.kept and threads:
        # it is nobody's either, and no finding of its own while nothing there is threaded
        closed["cgroup.threads"] = threads
    return closing_commands(checked.snapshot.mount, text_of(place.path), closed)


def closing_of_directories(checked: Checked) -> Mapping[CgroupPath, Tuple[str, ...]]:
    """What closes each directory that a manager makes something in, and that stands open."""
    return {place.path: closing_of(checked, place, entry, let_in) for place, entry, let_in in checked.openings if place.name == "dir"}


def opened_findings(checked: Checked) -> Iterable[Tuple[Place, OpenedFinding]]:
    """Everything that stands open, but for what the answers show."""
    closing = closing_of_directories(checked)
    for place, entry, let_in in checked.openings:
        if not is_shown(checked, place, let_in):
            is_directory = place.name == "dir"
            changes = closing_of(checked, place, entry, let_in)
            yield place, OpenedFinding(
                text_of(place.path), place.name, owner_of(entry), whom_of(checked.names, let_in),
                (*changes, *(() if is_directory else closing.get(place.path, ())), *restoring(checked, place)), setting_at(checked, place),
                WHO_IS_FIRST if is_directory else None, checked.within(place.path), is_own_affair(checked, place, let_in, ()),
                causes=checked.causes(place.path))


def restoring(checked: Checked, place: Place) -> Iterator[str]:
    """What writes again what root's settings say of a limit, where it has something else."""
    found, wanted = checked.agreed.get(place.path), checked.wanted.get(place.path, {})
    for file in files_with(place.name) if found else ():
        if found and file in wanted and file in found.values:
            value = found.values[file]
            if is_decided(file, value, wanted[file]) and not is_same(file, value, wanted[file]):
                yield written(checked.snapshot.mount, text_of(place.path), file, wanted[file])


def setting_at(checked: Checked, place: Place) -> Optional[str]:
    """The setting of a unit that brings a limit at its next start."""
    wanted, files = checked.wanted.get(place.path, {}).get(place.name), checked.found_in_files if place.path in checked.wanted else None
    if not wanted or not wanted.is_set:
        return None
    unit = checked.agreed[place.path].unit
    line = files.setting(unit, place.name) if files else None
    return f"{wanted.setting} of {unit}" + (f" ({line})" if line else "")


def is_shown(checked: Checked, place: Place, let_in: Iterable[LetIn]) -> bool:
    """Whether the answers show an entry: of a directory that a manager makes something in, an escape of all whom it lets in."""
    shown_by = checked.judged.entries.get(place)
    if shown_by is None or place.name != "dir":
        return shown_by is not None
    return shown_by.answer.status == ESCAPES and {(each.by, each.id) for each in let_in} <= {(each.by, each.id) for each in shown_by.whom}


def fault_findings(checked: Checked, advised: Advised) -> Iterable[FaultFinding]:
    """Subtrees that can't be asked of anybody, pairs without an answer, and users of whom not all was looked at."""
    by_why: Dict[Tuple[Reason, Optional[str]], List[str]] = defaultdict(list)
    below = makers_below(checked)
    for path, why in sorted(checked.answers.refused.items()):
        by_why[why, makers_of(checked, below, path, why)].append(shown(text_of(path)))
    yield from (FaultFinding("everybody", None, (), str(why), tuple(paths), made_by) for (why, made_by), paths in by_why.items())
    yield from faults_of_pairs(checked.names, advised)
    yield from faults_of_budgets(checked)


def faults_of_budgets(checked: Checked) -> Iterable[FaultFinding]:
    """Whoever has more processes than are looked at may have groups that aren't known: a fault of what they hold, but for what is contained
    against everybody. So is it where more lets somebody in to what they made than is reported."""
    holders, spent = checked.questions.holders, checked.judged.spent
    for person, why in sorted(checked.snapshot.over.items()):
        held = held_by(checked, person, (path for path in checked.questions.subtrees if path not in checked.against_everybody))
        if held:
            yield fault_of_budget(checked, person, f"{why}: not all were looked at", held)
    for person in spent.over():
        made = held_by(checked, person, holders) or [path for path in checked.snapshot.cgroups if checked.makers.within(path) == person]
        yield fault_of_budget(checked, person, f"{spent.budget.exceeded_by(person)}: not all are listed", made)


def held_by(checked: Checked, person: int, paths: Iterable[CgroupPath]) -> List[CgroupPath]:
    """Those of some subtrees that a person holds, by whichever of their uids."""
    holders = checked.questions.holders
    return [path for path in paths if any(checked.makers.charged_user(uid) == person for uid in holders[path].uids)]


def fault_of_budget(checked: Checked, person: int, why: str, paths: Iterable[CgroupPath]) -> FaultFinding:
    name = checked.names.user(person)
    return FaultFinding(name, person, (), why, texts_of(in_order(topmost(paths))), name)


def makers_below(checked: Checked) -> Mapping[CgroupPath, Set[Optional[str]]]:
    """By whose making something is left out at a cgroup or inside of it; None stands for what is of nobody's."""
    found: DefaultDict[CgroupPath, Set[Optional[str]]] = defaultdict(set)
    for place, why in checked.snapshot.changing.items():
        maker = holder_at(checked, place) if why.is_by_somebody else None
        for above in (place, *ancestors(place)):
            found[above].add(maker)
    return found


def makers_of(checked: Checked, below: Mapping[CgroupPath, Set[Optional[str]]], path: CgroupPath,
              why: Reason) -> Optional[str]:
    """Those by whose own making alone a subtree goes without an answer: it is too large, or what they hold inside of it changes
    all the time. What is above it, or what root alone has, is of nobody's making, and so is what can't be read or asked in time."""
    if isinstance(why, (NotInTime, TextRefused)) or not checked.snapshot.changing.keys().isdisjoint(ancestors(path)):
        return None
    if isinstance(why, OverBudget) and path not in below:
        # of each subordinate uid it is one person's
        return checked.names.user(why.person)
    largest = maker_of_most(checked, path) if isinstance(why, TooLargeForText) else None
    makers = below.get(path) or {largest or holder_at(checked, path)}
    return None if None in makers else some(sorted(filter(None, makers)))


def maker_of_most(checked: Checked, path: CgroupPath) -> Optional[str]:
    """Whose making most of what is inside of a subtree is that root handed over: who holds it may have made little of that."""
    tree, made = checked.snapshot.tree, Counter[int]()
    for place in tree.rows if checked.makers.within(path) is None else ():
        person = checked.makers.within(place) if is_inside(place, path) else None
        if person is not None:
            made[person] += len(row_text(tree.rows[place], tree.format))
    return checked.names.user(min(made, key=lambda person: (-made[person], person))) if made else None


def holder_at(checked: Checked, path: CgroupPath) -> Optional[str]:
    """Who holds the nearest subtree that a cgroup is in, or that cgroup itself where it was left out."""
    holders, makers = checked.questions.holders, checked.snapshot.makers
    if makers.get(path):
        return checked.names.user(makers[path])
    for place in (path, *ancestors(path)):
        if place in holders and holders[place].by:
            return holder_of(checked, place)
    return None


def holder_of(checked: Checked, path: CgroupPath) -> str:
    """Who holds a subtree, in few words."""
    holders = checked.questions.holders[path]
    return " ".join(checked.names.by_class(holders.by or "", number) for number in holders.ids) or "everybody"


def faults_of_pairs(names: Names, advised: Advised) -> Iterable[FaultFinding]:
    """Each fault once for those subtrees of which it is; whom it is of, with the groups where it is one user."""
    users: Dict[Tuple[str, Tuple[str, ...]], List[User]] = defaultdict(list)
    for (user, line), subtrees in advised.faults.items():
        users[line, texts_of(subtrees)].append(user)
    for (line, paths), of in users.items():
        uid, gids = (of[0].uid, of[0].gids) if len(of) == 1 else (None, ())
        yield FaultFinding(some([names.who(user) for user in of]), uid, gids, line, paths, None)


def differs_findings(checked: Checked, opened: Iterable[Place]) -> Iterable[DiffersFinding]:
    """What else isn't as the manager leaves it where its mark stands."""
    reported = {*opened, *checked.judged.entries}
    for path, by in checked.questions.meant.items():
        differs = what_differs(checked.snapshot, path) if by == MANAGERS_MARK else {}
        differs = {name: entry for name, entry in differs.items() if Place(path, name) not in reported}
        if differs:
            yield DiffersFinding(text_of(path), tuple(sorted(differs)), setting_of(path),
                                 closing_commands(checked.snapshot.mount, text_of(path), differs), checked.causes(path))


def above_findings(checked: Checked) -> Iterable[AboveFinding]:
    for (uid, handed), subtrees in sorted(checked.judged.above.items()):
        yield AboveFinding(checked.names.user(uid), uid, text_of(handed), texts_of(in_order(topmost(subtrees))),
                           checked.makers.charged_user(uid))
