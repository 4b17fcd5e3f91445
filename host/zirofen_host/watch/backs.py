"""From the events between two checks to what opened and closed meanwhile, since nobody could be asked of it."""
from typing import AbstractSet, Dict, Iterator, List, Mapping, Tuple

from zirofen_host.profile import CgroupPath, is_inside, path_of, shown, text_of
from zirofen_host.watch.checks import ENTRIES, Guarded, Result
from zirofen_host.watch.kernel import ATTRIB, CREATE, DELETE
from zirofen_host.watch.lanes import DIRECTORY, Asked, Place, Touched
from zirofen_host.watch.messages import BACK, Message

# cgroups of which owners and modes are kept; of more nothing is reported from events alone
MOST = 65536


class Entries:
    """Owners and modes as the last check of each cgroup found them."""

    def __init__(self) -> None:
        self.all: Dict[CgroupPath, Tuple[Guarded, ...]] = {}
        self.once: Dict[Tuple[Guarded, ...], Tuple[Guarded, ...]] = {}

    def owner_of(self, path: CgroupPath) -> int:
        """Whose a cgroup's folder is; root's, where that isn't known."""
        found = self.all.get(path)
        return found[0][1] if found else 0

    def take(self, made: Result) -> List[CgroupPath]:
        """Puts those of a check in the place of what it was of; the cgroups that went."""
        if made.part.is_whole:
            self.once.clear()
        part = path_of(made.part.path)
        gone = [path for path in self.all if path not in made.entries and is_inside(path, part) and not made.part.is_left(text_of(path))]
        for path in gone:
            del self.all[path]
        for path, found in made.entries.items():
            if len(self.all) < MOST or path in self.all:
                self.all[path] = self.once.setdefault(found, found)
        return gone

    def of(self, place: Place) -> Tuple[Guarded, ...]:
        return entry_in(self.all, place)


def entry_in(entries: Mapping[CgroupPath, Tuple[Guarded, ...]], place: Place) -> Tuple[Guarded, ...]:
    """An entry, or nothing where it isn't there."""
    return tuple(each for each in entries.get(place[0], ()) if each[0] == place[1])


def backs(before: Entries, made: Result, asked: Asked, said: AbstractSet[Place]) -> Iterator[Message]:
    """What stands as it stood, though it was changed, and cgroups that came, were changed and went."""
    for place, touched in asked.touched.items():
        path, entry = place
        if place in said or not made.part.has(text_of(path)):
            continue
        then, now = before.of(place), entry_in(made.entries, place)
        if touched.mask & ATTRIB and not touched.mask & (CREATE | DELETE) and entry in (*ENTRIES, DIRECTORY) and then and then == now:
            yield message_of(place, touched, "changed and back")
        elif entry == DIRECTORY and touched.mask & CREATE and touched.mask & DELETE and not then and not now and is_changed(path, asked):
            yield message_of(place, touched, "made, changed and gone")


def is_changed(path: CgroupPath, asked: Asked) -> bool:
    """Whether owners or modes of a cgroup, or of what is in it, were changed."""
    return any(each.mask & ATTRIB and is_inside(place, path) for (place, _), each in asked.touched.items())


def message_of(place: Place, touched: Touched, what: str) -> Message:
    path, entry = text_of(place[0]), place[1]
    where = shown(path) if what.endswith("gone") else f"{shown(path)} {shown(entry)}"
    return Message(BACK, f"{where}: {what} within {touched.last - touched.first:.1f} s; not asked", touched.last, (), touched.doers,
                   "entry", path, entry)
