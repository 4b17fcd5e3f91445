"""From a cgroup to whose making it is: of what somebody makes below their own delegation there may be any number."""
from typing import Callable, Container, Dict, FrozenSet, Iterable, Mapping, Optional

from zirofen_host.collect.model import Row, Snapshot
from zirofen_host.collect.walk import MANAGERS_MARK
from zirofen_host.profile import CgroupPath, ancestors, is_root, parent_of

GROUP_OR_OTHERS = 0o022


def handed_in(marks: Mapping[CgroupPath, Mapping[str, bytes]]) -> FrozenSet[CgroupPath]:
    """The cgroups with the mark that root alone sets."""
    return frozenset(path for path, found in marks.items() if found.get(MANAGERS_MARK, b"0") != b"0")


def makers_in(snapshot: Snapshot, charged_user: Callable[[int], int]) -> "Makers":
    marks = {path: found.marks for path, found in snapshot.cgroups.items() if found.marks}
    return Makers(snapshot.tree.rows, charged_user, handed_in(marks))


class Makers:
    """By path to whom a cgroup is charged that somebody can have made; what root handed over is root's making, and so is what has
    the mark that root alone sets."""

    def __init__(self, rows: Mapping[CgroupPath, Row], charged_user: Callable[[int], int], handed: Container[CgroupPath] = ()) -> None:
        self.charged_user = charged_user
        # whose each cgroup is, by its directory or the nearest above that isn't root's
        self.persons: Dict[CgroupPath, int] = {}
        self.makers: Dict[CgroupPath, int] = {}
        for path in sorted(rows, key=len):
            parent = None if is_root(path) else parent_of(path)
            above = self.persons.get(parent, 0) if parent else 0
            uid = rows[path].directory.uid
            person = self.persons[path] = charged_user(uid) if uid and parent else above
            is_made = parent and (above == person or rows[parent].directory.mode & GROUP_OR_OTHERS)
            if person and is_made and path not in handed:
                self.makers[path] = person

    def within(self, path: CgroupPath) -> Optional[int]:
        """Whose own making a cgroup is, or None where it is root's. What was left out is whose that is above it."""
        if path in self.persons:
            return self.makers.get(path)
        return next((self.persons[place] for place in ancestors(path) if place in self.persons), 0) or None

    def is_all_of(self, person: int, uids: Iterable[int]) -> bool:
        """Whether some uids are all one person's."""
        return all(self.charged_user(uid) == person for uid in uids)
