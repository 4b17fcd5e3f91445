"""What is answered."""
from __future__ import annotations

from dataclasses import dataclass
from typing import List, Optional, Tuple, Union

from zirofen.users import User, read_user


@dataclass(frozen=True)
class Contained:
    """The subtree is held, whatever the user does."""


@dataclass(frozen=True)
class Escapes:
    """These operations of the user, in turn, break the subtree. Without one it is over its own limits already."""
    operations: Tuple[str, ...]


@dataclass(frozen=True)
class Unsettled:
    """A guard fails at this cgroup, and nothing that was tried breaks anything: nothing is shown either way."""
    guard: str
    path: str


Answer = Union[Contained, Escapes, Unsettled]


@dataclass(frozen=True)
class Finding:
    """A user and a subtree for which it isn't shown that they are contained. Where only the first was asked for, the user's groups aren't
    told."""
    user: User
    subtree: str
    answer: Union[Escapes, Unsettled]


@dataclass(frozen=True)
class Audit:
    """Every user with every subtree. Each subtree is held against all who aren't listed with it, whatever these do together."""
    findings: Tuple[Finding, ...]

    @property
    def is_contained(self) -> bool:
        return not self.findings

    def __bool__(self) -> bool:
        raise TypeError("an audit is no truth value: ask for is_contained")


@dataclass(frozen=True)
class Advice:
    """Which entries let somebody in, and the changes that mend it for all of them; without any it is contained."""
    fails: Tuple[str, ...]
    changes: Tuple[str, ...]
    is_contained: bool


@dataclass(frozen=True)
class Explained:
    """What each guard asks of a user and a subtree, a line each, and what settle may say."""
    user: User
    subtree: str
    lines: Tuple[str, ...]
    says: str


@dataclass(frozen=True)
class Replayed:
    """The outcome of each operation, and where a subtree was named whether they kept it."""
    outcomes: Tuple[str, ...]
    verdict: Optional[str] = None


def read_answer(lines: List[str]) -> Answer:
    """The answer of the lines that `check` and `settle` print.

    >>> read_answer(["unsettled parent-dir /"])
    Unsettled(guard='parent-dir', path='/')
    """
    first, *rest = lines
    if first == "contained" and not rest:
        return Contained()
    if first == "escapes":
        return Escapes(tuple(rest))
    word, guard, path = first.split(" ")
    if word != "unsettled" or rest:
        raise ValueError(f"no line of an answer: {first!r}")
    return Unsettled(guard, path)


def pairs_of(lines: List[str]) -> List[Tuple[User, str, List[str]]]:
    """The pairs of a report, each with the lines below it."""
    found: List[Tuple[User, str, List[str]]] = []
    for line in lines:
        if line.startswith("pair "):
            _, user, subtree = line.split(" ")
            found.append((read_user(user), subtree, []))
        else:
            found[-1][2].append(line)
    return found


def read_audit(lines: List[str]) -> Audit:
    if lines == ["contained"]:
        return Audit(())
    found = []
    for user, subtree, rest in pairs_of(lines):
        answer = read_answer(rest)
        if isinstance(answer, Contained):
            raise ValueError("a pair that is listed isn't contained")
        found.append(Finding(user, subtree, answer))
    if not found:
        raise ValueError("a report that names no pair")
    return Audit(tuple(found))


def read_advice(lines: List[str]) -> Advice:
    if lines == ["contained"]:
        return Advice((), (), True)
    fails = tuple(it for it in lines if it.startswith("fails "))
    return Advice(fails, tuple(it for it in lines if not it.startswith("fails ")), False)


def read_explained(lines: List[str]) -> Tuple[Explained, ...]:
    return tuple(Explained(user, subtree, tuple(rest[:-1]), rest[-1]) for user, subtree, rest in pairs_of(lines))
