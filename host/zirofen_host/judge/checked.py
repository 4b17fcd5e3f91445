"""From a snapshot and answers to what findings are made of: who was asked of what, and what the answers come to."""
from collections import defaultdict
from dataclasses import dataclass, field
from functools import cached_property
from typing import AbstractSet, DefaultDict, Dict, FrozenSet, Iterable, List, Mapping, Optional, Sequence, Set, Tuple, Union

from zirofen_host.ask.model import Answers, Pair
from zirofen_host.ask.questions import Questions
from zirofen_host.ask.texts import Programs
from zirofen_host.collect.attempts import Attempts
from zirofen_host.collect.causes import Found, look
from zirofen_host.collect.containers import word_of
from zirofen_host.collect.makers import Makers
from zirofen_host.collect.model import Entry, Scope, Snapshot, User
from zirofen_host.files import Kind, kind_of
from zirofen_host.judge.host_model import ABSENT, Absent, Wanted
from zirofen_host.judge.judged import Judged, LetIn, Place
from zirofen_host.judge.model import EVERYBODY, Within
from zirofen_host.judge.names import Names
from zirofen_host.judge.opened import find_openings
from zirofen_host.judge.settings import CGROUP, ATTEMPT, Agreed, Settings, agreed_at, systemctl_of
from zirofen_host.judge.shell import Change, change_commands
from zirofen_host.judge.wanted import unit_at, wanted_by
from zirofen_host.options import Options
from zirofen_host.profile import ANYBODY, CgroupPath, ancestors, parent_of, path_of, text_of


# of those who were found so many are named
MOST_NAMED = 8


class Against:
    """Against whom the answers of each subtree are."""

    def __init__(self, checked: "Checked") -> None:
        self.checked = checked
        # of whom a subtree isn't contained
        self.let_in: DefaultDict[CgroupPath, Set[int]] = defaultdict(set)
        for pair in (*checked.answers.found, *(Pair(each.user, each.subtree) for each in checked.answers.plan.cut)):
            self.let_in[pair.subtree].add(pair.user.uid)
        # subtrees that are alike in who was asked of them have one list
        self.asked: Dict[Tuple[int, ...], FrozenSet[int]] = {}

    def of(self, path: CgroupPath) -> Union[Tuple[str, ...], Absent]:
        """Everybody, or those who were found and for whom it is contained, of whom the first are named; nothing is said where a program
        can't ask everybody."""
        if self.checked.answers.against_everybody is None:
            return ABSENT
        if path in self.checked.against_everybody:
            return (EVERYBODY,)
        uids = self.asked_of(path) - self.let_in[path]
        names = ["anybody" if uid == ANYBODY else self.checked.names.user(uid) for uid in sorted(uids)[:MOST_NAMED]]
        return (*names, *([f"{len(uids) - MOST_NAMED} more"] if len(uids) > MOST_NAMED else [])) or ABSENT

    def asked_of(self, path: CgroupPath) -> FrozenSet[int]:
        asked = self.checked.asked_of.get(path, ())
        key = tuple(map(id, asked))
        if key not in self.asked:
            self.asked[key] = frozenset(user.uid for users in asked for user in users)
        return self.asked[key]


@dataclass(frozen=True)
class Checked:
    """A host that was asked, and what its answers come to."""
    snapshot: Snapshot
    options: Options
    names: Names
    questions: Questions
    answers: Answers
    programs: Programs
    judged: Judged
    # everybody who was asked, by uid
    asked: Mapping[int, List[User]]
    # for each subtree the lists of those who were asked of it
    asked_of: Mapping[CgroupPath, List[FrozenSet[User]]]
    # whose making each cgroup is
    makers: Makers
    # of units, before the host was looked at
    settings: Settings
    # of which some fail
    attempts: Attempts = field(default_factory=Attempts)

    @cached_property
    def openings(self) -> List[Tuple[Place, Entry, List[LetIn]]]:
        """What stands open and no answer speaks of."""
        return list(find_openings(self.snapshot, self.questions, self.judged.spent))

    @cached_property
    def held(self) -> Mapping[int, Sequence[CgroupPath]]:
        """What each uid holds."""
        held: DefaultDict[int, List[CgroupPath]] = defaultdict(list)
        for path in self.questions.subtrees:
            for uid in self.questions.holders[path].uids - {ANYBODY}:
                held[uid].append(path)
        return held

    @cached_property
    def agreed(self) -> Mapping[CgroupPath, Agreed]:
        """What root's settings say of the units whose limits matter, and what these have."""
        matter = {path: unit for path, unit in self.units.items() if self.is_limit_open(path) or path in self.questions.holders}
        if not matter:
            return {}
        return self.attempts.at(ATTEMPT, lambda: agreed_at(self.snapshot, matter, systemctl_of(self.options), self.settings), {})

    @cached_property
    def wanted(self) -> Mapping[CgroupPath, Mapping[str, Wanted]]:
        """What the settings of each of these units say of each limit."""
        return {path: wanted_by(each.settings) for path, each in self.agreed.items()}

    @cached_property
    def found_in_files(self) -> Optional[Found]:
        """What root's files of this host have that gives cgroups away; of a text, and of plain files, they aren't looked at."""
        return None if self.snapshot.source.file or self.options.plain_folder else look(self.snapshot.mount)

    def causes(self, path: CgroupPath) -> Union[Tuple[str, ...], Absent]:
        """The lines that give something of a cgroup away; of what somebody made none is looked for."""
        if self.makers.within(path) is not None or self.found_in_files is None:
            return ABSENT
        return tuple(map(str, self.found_in_files.of(text_of(path), unit_at(path))))

    @property
    def units(self) -> Mapping[CgroupPath, str]:
        """The units whose settings are known, by their cgroups. What somebody made may have the name of another unit, unless the manager
        says that the unit is there."""
        named = {path: unit_at(path) for path in self.snapshot.cgroups} if self.settings else {}
        return {path: unit for path, unit in named.items() if unit is not None and unit in self.settings
                and (self.makers.within(path) is None or self.settings[unit].get(CGROUP) == text_of(path))}

    def is_limit_open(self, path: CgroupPath) -> bool:
        """Whether somebody but root reaches a limit of a cgroup, or what takes all of a controller's from it."""
        above = parent_of(path)
        files = self.snapshot.cgroups[path].files
        controls = self.snapshot.cgroups[above].files.get("cgroup.subtree_control") if above else None
        return bool(controls and controls.is_reached) or any(entry.is_reached and kind_of(name) is Kind.LIMIT
                                                             for name, entry in files.items())

    def within(self, path: CgroupPath) -> Within:
        """Whose own making a cgroup is."""
        person = self.makers.within(path)
        return ABSENT if person is None else person

    def word_of(self, scope: Scope) -> Optional[str]:
        """A container by its engine and its name, of a user's own behind theirs; None where that may be anybody."""
        if scope.holder is not None and scope.holder < 0:
            return None
        return word_of(scope, None if scope.holder is None else self.names.user_name(scope.holder))

    def container_text(self, path: CgroupPath) -> str:
        """A container by its word, or by its cgroup."""
        found = next((self.scopes[place] for place in (path, *ancestors(path)) if place in self.scopes), None)
        return found and self.word_of(found) or text_of(path)

    @cached_property
    def scopes(self) -> Mapping[CgroupPath, Scope]:
        return {each.path: each for each in self.snapshot.scopes}

    @property
    def is_asked(self) -> bool:
        """Whether anything was found to ask."""
        return bool(self.answers.plan.questions or self.answers.plan.cut) or self.questions.names_anybody(self.against_everybody)

    @property
    def against_everybody(self) -> AbstractSet[CgroupPath]:
        """The subtrees that are contained against everybody but root, as far as the program can tell."""
        return self.answers.against_everybody or frozenset()

    @cached_property
    def against(self) -> "Against":
        return Against(self)

    def entry(self, path: str, name: str) -> Entry:
        """An entry by the words that name it."""
        return self.questions.delegations.entry(path_of(path), name)

    def commands(self, changes: Iterable[Change]) -> Tuple[str, ...]:
        return change_commands(self.snapshot.mount, changes, self.entry)
