"""The host itself as a report has it: users, groups, cgroups and processes, containers, and settings of units.

Its JSON has the keys and the order of these fields.
"""
import re
from dataclasses import dataclass
from enum import Enum
from typing import Annotated, Dict, Iterable, List, Mapping, Optional, Tuple, Union

from zirofen_host.profile import ancestors

# of a field that a report's JSON has no key for
NO_KEY: Mapping[str, bool] = {"has no key": True}


class Absent(Enum):
    ABSENT = "absent"


ABSENT = Absent.ABSENT
# what a limit file has; one that can't be read has none
FileValue = Union[int, str, None, Absent]


@dataclass(frozen=True)
class Matching:
    """A text that a pattern matches."""
    pattern: str

    def admits(self, text: str) -> bool:
        return re.fullmatch(self.pattern, text) is not None


@dataclass(frozen=True)
class Filled:
    """A list with something in it."""

    def admits(self, parts: Tuple[object, ...]) -> bool:
        return bool(parts)


Mode = Annotated[str, Matching("[0-7]{3,4}")]


@dataclass(frozen=True)
class Owner:
    uid: int
    gid: int
    mode: Mode


@dataclass(frozen=True)
class ReportUser:
    uid: int
    name: Optional[str]
    groups: Tuple[Tuple[int, ...], ...]


@dataclass(frozen=True)
class ReportGroup:
    gid: int
    name: Optional[str]


@dataclass(frozen=True)
class ReportFile:
    uid: int
    gid: int
    mode: Mode
    value: FileValue = ABSENT


@dataclass(frozen=True)
class ReportCgroup:
    path: str
    dir: Owner
    enabled: Tuple[str, ...]
    unit: Optional[str]
    marks: Mapping[str, str]
    files: Mapping[str, ReportFile]


@dataclass(frozen=True)
class ReportProcess:
    pid: int
    uid: int
    at: str
    name: str
    capabilities: Tuple[str, ...]


@dataclass(frozen=True)
class Wanted:
    """What the settings of a unit, which are root's, say that a limit of its cgroup has."""
    # as it is written into the file
    value: str
    # the setting with its value
    setting: str
    # the unit sets it, or its manager for it; else it is what the file has by itself
    is_set: bool


# by the path of a unit's cgroup and by the file
AllWanted = Mapping[str, Mapping[str, Wanted]]


@dataclass(frozen=True)
class NamedScope:
    """A container's or a pod's cgroup, by the name that a file of root's tells; of one that root didn't start, with whose it is."""
    path: str
    engine: str
    id: str
    name: Optional[str]
    of: Optional[str]
    # by which it may be named in place of its path, where it has a name
    word: Union[str, Absent] = ABSENT


class PlaceNames:
    """Places in containers by names that stay when a container is made again. A word that two claim names none."""

    def __init__(self, scopes: Iterable[NamedScope]) -> None:
        paths: Dict[str, List[str]] = {}
        for each in scopes:
            if not isinstance(each.word, Absent):
                paths.setdefault(each.word, []).append(each.path)
        self.words = {found[0]: word for word, found in paths.items() if len(found) == 1}
        self.claimed = {word: found for word, found in paths.items() if len(found) > 1}

    def scope(self, path: str) -> Optional[str]:
        """The nearest named container that a place is in."""
        return next((place for place in (path, *ancestors(path)) if place in self.words), None) if self.words and path else None

    def of(self, path: str) -> Optional[str]:
        """A place by its container's name, and behind it where it is in there."""
        scope = self.scope(path)
        return None if scope is None else self.words[scope] + (f":{path[len(scope):]}" if path != scope else "")

    def line(self, line: str, path: str) -> str:
        """A line of a place with its container's name where its path stands."""
        scope = self.scope(path)
        return line if scope is None else line.replace(scope, self.words[scope])
