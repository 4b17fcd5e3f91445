"""From a tree and lines of root's changes to the tree behind them, as far as a kernel lets root make them.

The first that it doesn't let, or that isn't known, is a fault.
"""
from dataclasses import replace
from typing import Callable, Dict, Iterable, Iterator, List, Mapping, NamedTuple, NoReturn, Sequence, Tuple

from zirofen_host.collect.accounts import is_id
from zirofen_host.collect.model import DEFAULT_FILE, Cgroup, Entry, Placed, Row, Snapshot, Value
from zirofen_host.collect.walk import MARKS
from zirofen_host.fault import Fault
from zirofen_host.files import CONTROL_FILES, TEXT_FILES, NUMBER_FILES, PRESSURE, Kind, accepts, is_known, kind_of, standing
from zirofen_host.profile import (DIRECTORY_MODE, LARGEST_PID, LONGEST_PATH, CgroupPath, ancestors, is_inside, is_line, is_name, is_number,
                                  is_root, parent_of, path_of, shown, text_of)

DIRECTORY = Entry(0, 0, DIRECTORY_MODE)
# what managers hand over with a subgroup, and a kernel doesn't list
HANDED_OVER_TOO = ("cgroup.type",)
# what stands for a change, before its words
Words = Sequence[str]


def refuse(why: str) -> NoReturn:
    raise Fault(why)


def lines_in(text: str) -> Iterator[Tuple[int, Words]]:
    """The changes in a text, each with its line; an empty line and a comment are none."""
    for number, line in enumerate(text.split("\n"), 1):
        words = line.split()
        if words and not words[0].startswith("#"):
            yield number, words


class Unplaced(NamedTuple):
    """Files that were given to somebody: the names of those on which no answer rests, and others, with their cgroups, that a text which
    carries nothing of its host has no place for."""
    idle: Tuple[str, ...] = ()
    others: Tuple[Tuple[CgroupPath, str], ...] = ()


class Changes:
    """A snapshot on its way to another one."""

    def __init__(self, snapshot: Snapshot) -> None:
        self.snapshot = snapshot
        self.unplaced: Dict[Tuple[CgroupPath, str], Entry] = {}
        self.rows: Dict[CgroupPath, Row] = dict(snapshot.tree.rows)
        self.cgroups: Dict[CgroupPath, Cgroup] = dict(snapshot.cgroups)
        self.placed: Dict[int, Placed] = {each.pid: each for each in snapshot.tree.processes}

    def changed(self) -> Snapshot:
        tree = replace(self.snapshot.tree, rows=self.rows, processes=list(self.placed.values()))
        return replace(self.snapshot, cgroups=self.cgroups, tree=tree)

    def carry_out(self, lines: Iterable[Tuple[int, Words]]) -> None:
        for number, (word, *words) in lines:
            try:
                if word not in OPERATIONS:
                    refuse(f"{word!a} is no change: {', '.join(OPERATIONS)}")
                OPERATIONS[word](self, words)
            except ValueError:
                raise Fault(f"line {number}: {USAGES[word]} is wanted") from None
            except Fault as fault:
                raise Fault(f"line {number}: {fault}") from None

    def path(self, word: str) -> CgroupPath:
        """A cgroup that is there."""
        path = path_of(word)
        return path if path in self.rows else refuse(f"there is no cgroup {word!a}")

    def controllers_for(self, path: CgroupPath) -> Sequence[str]:
        """The controllers that a cgroup may enable."""
        parent = parent_of(path)
        return self.rows[parent].enabled if parent else self.snapshot.tree.controllers

    def limit_files(self, path: CgroupPath) -> List[str]:
        return [] if is_root(path) else standing(self.controllers_for(path))

    def is_text_file(self, path: CgroupPath, name: str) -> bool:
        """Whether a name is that of a limit file of format 4 that stands at a cgroup, and that the text's format has."""
        is_in_format = name in self.snapshot.tree.format.text_files and not is_root(path)
        return is_in_format and TEXT_FILES[name].is_brought_by(self.controllers_for(path))

    def children(self, path: CgroupPath) -> List[CgroupPath]:
        return [each for each in self.rows if parent_of(each) == path]

    def make(self, words: Words) -> None:
        word, = words
        path = path_of(word)
        parent = parent_of(path) if word.startswith("/") else None
        if path in self.rows:
            refuse(f"{word!a} is there already")
        if parent is None or not is_name(path.rpartition(b"/")[2]) or len(path) > LONGEST_PATH:
            refuse(f"{word!a} is no path of a cgroup")
        self.path(text_of(parent))
        for depth, above in enumerate(ancestors(path), 1):
            self.has_room(above, "cgroup.max.depth", depth)
            self.has_room(above, "cgroup.max.descendants", sum(is_inside(each, above) for each in self.rows))
        self.rows[path] = Row(path)
        self.cgroups[path] = Cgroup(DIRECTORY, {}, {}, {}, (), (), "domain", {}, ())
        for file in self.limit_files(path):
            self.bring(path, file)

    def has_room(self, path: CgroupPath, file: str, count: int) -> None:
        most = self.rows[path].values.get(file, "max")
        if isinstance(most, int) and count > most:
            refuse(f"{file} of {shown(path)} is {most}")

    def bring(self, path: CgroupPath, file: str) -> None:
        """A limit file comes, with its default."""
        row = self.rows[path]
        files = {**row.files, file: DEFAULT_FILE}
        self.rows[path] = replace(row, files=files, values={**row.values, file: NUMBER_FILES[file].usual})
        self.cgroups[path] = replace(self.cgroups[path], files={**self.cgroups[path].files, file: DEFAULT_FILE})

    def take_away(self, path: CgroupPath, file: str) -> None:
        row, found = self.rows[path], self.cgroups[path]
        values = {name: value for name, value in row.values.items() if name != file}
        self.rows[path] = replace(row, files=without(row.files, file), values=values)
        self.cgroups[path] = replace(found, files=without(found.files, file))

    def entry(self, path: CgroupPath, name: str) -> Entry:
        """The directory or a file that is there."""
        if name in ("dir", *CONTROL_FILES, *self.limit_files(path)):
            return self.rows[path].entry(name)
        found, controllers = self.cgroups[path].files.get(name), ("cgroup", *self.controllers_for(path))
        # files of pressure stand whatever is enabled
        stands = name in PRESSURE or is_known(name) and name.partition(".")[0] in controllers
        if name not in NUMBER_FILES and (found or stands):
            return found or DEFAULT_FILE
        return refuse(f"there is no {name!a} at {shown(path)}, as far as is known")

    def put(self, path: CgroupPath, name: str, entry: Entry) -> None:
        row, found = self.rows[path], self.cgroups[path]
        if name == "dir":
            self.rows[path], self.cgroups[path] = replace(row, directory=entry), replace(found, directory=entry)
            return
        if name in CONTROL_FILES or name in NUMBER_FILES or self.is_text_file(path, name):
            self.rows[path] = replace(row, files={**row.files, name: entry})
        elif self.snapshot.source.file is not None and self.snapshot.source.carried is None:
            if name not in HANDED_OVER_TOO and kind_of(name) not in (Kind.TELLS, Kind.DELEGATED):
                refuse(f"the text carries nothing of its host, and has no place for {name}")
            self.unplaced[path, name] = entry
        elif kind_of(name) is Kind.TELLS:
            self.unplaced[path, name] = entry
        self.cgroups[path] = replace(found, files={**found.files, name: entry})

    def own(self, words: Words) -> None:
        word, name, owner = words
        path = self.path(word)
        entry, (uid, gid) = self.entry(path, name), owner.split(":")
        if not is_id(uid) or not is_id(gid):
            raise ValueError
        self.put(path, name, Entry(int(uid), int(gid), entry.mode))

    def set_mode(self, words: Words) -> None:
        word, name, mode = words
        path = self.path(word)
        entry = self.entry(path, name)
        if len(mode) != 3:
            raise ValueError
        self.put(path, name, Entry(entry.uid, entry.gid, int(mode, 8)))

    def control(self, words: Words) -> None:
        word, *changes = words
        path, known = self.path(word), self.snapshot.tree.format.controllers
        enabled = set(self.rows[path].enabled)
        for change in changes:
            sign, name = change[:1], change[1:]
            if sign not in ("+", "-") or name not in known:
                raise ValueError
            if sign == "+" and name not in self.controllers_for(path):
                refuse(f"{name} isn't there to be enabled at {shown(path)}")
            if sign == "-" and any(name in self.rows[each].enabled for each in self.children(path)):
                refuse(f"a cgroup in {shown(path)} enables {name}")
            (enabled.add if sign == "+" else enabled.discard)(name)
        if enabled and not is_root(path) and any(each.at == path for each in self.placed.values()):
            refuse(f"there are processes in {shown(path)}, and so it enables nothing")
        self.enable(path, tuple(name for name in known if name in enabled))

    def enable(self, path: CgroupPath, enabled: Tuple[str, ...]) -> None:
        children = self.children(path)
        before = {each: self.limit_files(each) for each in children}
        disabled = {*self.rows[path].enabled}.difference(enabled)
        self.rows[path] = replace(self.rows[path], enabled=enabled)
        self.cgroups[path] = replace(self.cgroups[path], enabled=enabled)
        for each in children:
            behind = self.limit_files(each)
            gone = {file for file in self.snapshot.tree.format.text_files if TEXT_FILES[file].controller in disabled}
            for file in gone.union(before[each]).difference(behind):
                self.take_away(each, file)
            for file in set(behind) - set(before[each]):
                self.bring(each, file)

    def set_limit(self, words: Words) -> None:
        word, file, *parts = words
        path, text = self.path(word), " ".join(parts)
        if parts and self.is_text_file(path, file):
            self.set_text(path, file, text)
            return
        if len(parts) != 1:
            raise ValueError
        value: Value = int(text) if is_number(text) and len(text) <= 20 else text
        if file not in self.limit_files(path):
            refuse(f"{file!a} at {shown(path)} is no limit that a tree text carries")
        if not accepts(file, value):
            refuse(f"{file} doesn't take {text!a}")
        self.rows[path] = replace(self.rows[path], values={**self.rows[path].values, file: value})

    def set_text(self, path: CgroupPath, file: str, text: str) -> None:
        if not is_line(text):
            refuse(f"{file} doesn't take {text!a}")
        self.put(path, file, self.entry(path, file))
        self.rows[path] = replace(self.rows[path], values={**self.rows[path].values, file: text})

    def run(self, words: Words) -> None:
        pid, uid, word = words
        path = self.path(word)
        if not is_number(pid) or not 1 <= int(pid) <= LARGEST_PID or not is_id(uid):
            raise ValueError
        if int(pid) in self.placed:
            refuse(f"there is a process {pid} already")
        if self.rows[path].enabled and not is_root(path):
            refuse(f"{shown(path)} enables a controller, and so nothing runs in it")
        self.placed[int(pid)] = Placed(int(pid), int(uid), path)

    def mark(self, words: Words) -> None:
        word, = words
        path, source = self.path(word), self.snapshot.source
        if source.file is not None and source.carried is None:
            refuse("the text carries nothing of its host, and has no place for marks")
        found = self.cgroups[path]
        self.cgroups[path] = replace(found, marks={**found.marks, **{name: b"1" for name in MARKS}})

    def of_no_place(self) -> Unplaced:
        """What has no place in the text. No answer rests on a file that only tells, nor on one that goes with a directory of the same
        owner's."""
        others = tuple(key for key, entry in self.unplaced.items() if not self.is_idle(*key, entry))
        return Unplaced(tuple(sorted({name for _, name in self.unplaced} - {name for _, name in others})), others)

    def is_idle(self, path: CgroupPath, name: str, entry: Entry) -> bool:
        parent = parent_of(path)
        owners = {self.rows[path].directory.uid, *([self.rows[parent].directory.uid] if parent and name in HANDED_OVER_TOO else [])}
        return kind_of(name) is Kind.TELLS or not entry.is_reached or owners == {entry.uid}


def without(files: Mapping[str, Entry], file: str) -> Mapping[str, Entry]:
    return {name: entry for name, entry in files.items() if name != file}


OPERATIONS: Dict[str, Callable[[Changes, Words], None]] = {
    "mkdir": Changes.make, "chown": Changes.own, "chmod": Changes.set_mode, "control": Changes.control, "set": Changes.set_limit,
    "process": Changes.run, "mark": Changes.mark}
USAGES: Dict[str, str] = {
    "mkdir": "mkdir PATH", "chown": "chown PATH ENTRY UID:GID", "chmod": "chmod PATH ENTRY MODE", "control": "control PATH +CONTROLLER ..",
    "set": "set PATH FILE VALUE", "process": "process PID UID PATH", "mark": "mark PATH"}


def changed(snapshot: Snapshot, text: str) -> Snapshot:
    """A snapshot behind the changes in a text."""
    return carried_out(snapshot, text)[0]


def carried_out(snapshot: Snapshot, text: str) -> Tuple[Snapshot, Unplaced]:
    """A snapshot behind the changes in a text, and what of them it has no place for."""
    changes = Changes(snapshot)
    changes.carry_out(lines_in(text))
    return changes.changed(), changes.of_no_place()
