"""What is asked of the program, and what it answers: the second form of the data, between a snapshot and a report."""
from dataclasses import dataclass
from typing import AbstractSet, FrozenSet, Mapping, NamedTuple, Optional, Tuple

from zirofen_host.collect.model import User
from zirofen_host.collect.reasons import Reason
from zirofen_host.profile import CgroupPath


class Delegation(NamedTuple):
    path: CgroupPath
    user: User


class Guarded(NamedTuple):
    """An entry that a containment stands on, and by which guard."""
    guard: str
    path: CgroupPath
    name: str


@dataclass(frozen=True)
class Holders:
    """By which class somebody holds a subtree, and which uids or which gid that class is."""
    by: Optional[str]
    ids: Tuple[int, ...]
    uids: FrozenSet[int]


class Question(NamedTuple):
    """Each of these users asked of each of these subtrees."""
    users: Tuple[User, ...]
    subtrees: Tuple[CgroupPath, ...]


@dataclass(frozen=True)
class Cut:
    """Who isn't asked of a subtree, since too many of their groups matter there."""
    user: User
    subtree: CgroupPath
    count: int


@dataclass(frozen=True)
class Plan:
    """What to ask, and what isn't asked, with why."""
    questions: Tuple[Question, ...]
    cut: Tuple[Cut, ...]
    # everybody who reaches an entry of a guard, or owns or has a process in a subtree, and of which subtree that is so
    users: Tuple[User, ...]
    named: Mapping[CgroupPath, AbstractSet[User]]
    # each user as they are asked, with the groups that matter
    asked_as: Mapping[User, User]
    # how many of a uid's groups were left out
    left_out: Mapping[int, int]
    # the subtrees of which the owners above them aren't asked
    expected_of: Mapping[FrozenSet[int], Tuple[CgroupPath, ...]]


class Pair(NamedTuple):
    user: User
    subtree: CgroupPath


@dataclass(frozen=True)
class Answer:
    """The program's answer: its status, and its lines, of which the first has the word."""
    status: int
    lines: Tuple[str, ...]


class Advice(NamedTuple):
    """A guard that fails, as words, and what to change."""
    fails: Tuple[str, ...]
    changes: Tuple[Tuple[str, ...], ...]


@dataclass(frozen=True)
class Abilities:
    """What the program can do, and its version where it tells it."""
    has_audit_all: bool
    has_advise: bool
    version: Optional[str]
    has_settle: bool = False
    has_explain: bool = False
    # whether `audit` takes lines of pairs
    has_pairs: bool = False
    # whether it asks everybody, of subtrees that a file names
    has_everybody: bool = False


@dataclass(frozen=True)
class Answers:
    """What was asked, and every pair that isn't contained."""
    plan: Plan
    # what was asked behind the plan, where everybody is let in
    further: Tuple[Question, ...]
    found: Mapping[Pair, Answer]
    # how many users weren't asked of a subtree that everybody is let in to
    not_asked: Mapping[CgroupPath, int]
    # subtrees of which nothing was asked, each with why
    refused: Mapping[CgroupPath, Reason]
    # subtrees that were asked of without processes, since they have too many
    without_processes: Tuple[CgroupPath, ...]
    version: Optional[str]
    has_advise: bool
    # the subtrees that are contained against everybody but root, of which nobody is asked further; None where a program can't tell
    against_everybody: Optional[FrozenSet[CgroupPath]] = None
