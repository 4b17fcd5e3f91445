"""From what was read of one cgroup to the equal of it that is held once, and shared by all alike."""
from typing import Dict, List, Mapping, Tuple

from zirofen_host.collect.model import Entry
from zirofen_host.files import TEXT_FILES

# a uid, a gid and a mode
Owned = Tuple[int, int, int]


class Once:
    """What is equal in many cgroups, which is held once."""

    def __init__(self) -> None:
        self.entries: Dict[Owned, Entry] = {}
        self.files: Dict[Tuple[Tuple[str, Owned], ...], Mapping[str, Entry]] = {}
        self.texts: Dict[Tuple[Tuple[str, str], ...], Mapping[str, str]] = {}
        # by the table that stands in `files`, which is held as long
        self.reached: Dict[int, Tuple[str, ...]] = {}

    def entry(self, owned: Owned) -> Entry:
        if owned not in self.entries:
            self.entries[owned] = Entry(*owned)
        return self.entries[owned]

    def files_of(self, pairs: Tuple[Tuple[str, Owned], ...]) -> Mapping[str, Entry]:
        found = self.files.get(pairs)
        if found is None:
            found = self.files[pairs] = {name: self.entry(owned) for name, owned in pairs}
        return found

    def reached_in(self, files: Mapping[str, Entry]) -> Tuple[str, ...]:
        """The limit files of format 4 in a table of `files_of` that somebody but root reaches."""
        if id(files) not in self.reached:
            self.reached[id(files)] = tuple(reached_in(files))
        return self.reached[id(files)]

    def texts_of(self, pairs: Tuple[Tuple[str, str], ...]) -> Mapping[str, str]:
        found = self.texts.get(pairs)
        if found is None:
            found = self.texts[pairs] = dict(pairs)
        return found


def reached_in(files: Mapping[str, Entry]) -> List[str]:
    """The limit files of format 4 of a cgroup that somebody but root reaches, in their order."""
    return sorted(file for file, entry in files.items() if file in TEXT_FILES and entry.is_reached)
