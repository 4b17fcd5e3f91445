"""From a cgroup v2 mount, or a folder of plain files that looks like one, to its cgroups as they were read.

What changes during the walk, or can't be read, is listed by itself: the rest of what was found stands.
"""
import contextlib
import errno
import os
import stat
import sys
from typing import Collection, Dict, FrozenSet, Iterable, Iterator, List, Mapping, NamedTuple, Optional, Sequence, Set, Tuple, TypeVar

from zirofen_host import progress
from zirofen_host.collect import bounded
from zirofen_host.collect.bounded import ChargedUser, Spent
from zirofen_host.collect.model import Cgroup, Entry, FilePlace
from zirofen_host.collect.once import Once, Owned
from zirofen_host.collect.reasons import CHANGED, MountedOver, Reason, Unreadable
from zirofen_host.fault import Fault
from zirofen_host.files import CONTROL_FILES, CONTROLLERS, NUMBER_FILES, may_set
from zirofen_host.options import EVERYBODY
from zirofen_host.profile import LONGEST_PATH, ROOT, CgroupPath, ancestors, is_name, parent_of, shown, topmost

MANAGERS_MARK, OWNERS_MARK = MARKS = ("trusted.delegate", "user.delegate")
# the longest path that a kernel takes; what is in a folder is read by the folder's descriptor
LONGEST_FOLDER = 4095

Of = TypeVar("Of")
NONE: FrozenSet[str] = frozenset()
# why something is left out, by its path
Whys = Mapping[CgroupPath, Reason]
# what is mounted inside of a mount, by its path from there, and of what type each is
Below = Mapping[bytes, str]
NOTHING: Below = {}


class Vanished(Exception):
    """A cgroup, or a file of it, went while it was read."""


class LeftOut(Exception):
    """A cgroup that is left out, with why."""

    def __init__(self, reason: Reason) -> None:
        super().__init__(str(reason))
        self.reason = reason


class Unread(LeftOut):
    """A cgroup that can't be read."""


class TooMuch(LeftOut):
    """Somebody has more than is looked at."""


class ChargedTop(NamedTuple):
    """The topmost cgroup of somebody's own, and whose."""
    path: CgroupPath
    uid: int


class Walk:
    """One walk over a mount: the cgroups that were found by path, what was left out on the way, what went before it was read,
    and what can't be read. Where tops are named, it is these with what is inside, and their ancestors. What is read is charged to
    the owner of a cgroup, and of root's own inside of somebody's to whose that is. Of some limit files of format 4 values are read, where
    somebody but root reaches them. What is mounted inside of the mount is no cgroup's, nor what is of another device."""

    def __init__(self, mount: str, tops: Optional[Iterable[CgroupPath]] = None, charged_user: ChargedUser = int,
                 text_files: Sequence[str] = (), below: Below = NOTHING, shallow: Sequence[int] = ()) -> None:
        # persons of whose cgroups the topmost ones are read alone
        self.shallow = frozenset(shallow)
        self.mount = os.fsencode(mount)
        self.below = below
        # the mount's device, and the files over which something is mounted, with of what type that is
        self.device: Optional[int] = None
        self.covered: Dict[Tuple[CgroupPath, str], str] = {}
        self.charged_user = charged_user
        self.text_files = frozenset(text_files)
        self.cgroups, self.bytes, self.levels = (
            Spent(budget, charged_user) for budget in (bounded.CGROUPS, bounded.CGROUP_BYTES, bounded.LEVELS))
        self.tops: Optional[FrozenSet[CgroupPath]] = None if tops is None else topmost(tops)
        self.on_the_way = {place for top in self.tops or () for place in ancestors(top)}
        self.found: Dict[CgroupPath, Cgroup] = {}
        self.left_out: Dict[CgroupPath, int] = {}
        self.unread: Dict[CgroupPath, Reason] = {}
        self.gone: Set[CgroupPath] = set()
        # each file by which something is set, by its device and inode
        self.places: Dict[FilePlace, Tuple[CgroupPath, str]] = {}
        # whose each cgroup is that was left out or not found again, where it is somebody's
        self.charged_tops: Dict[CgroupPath, ChargedTop] = {}
        self.charged: Optional[ChargedTop] = None
        self.once = Once()

    def walk(self) -> None:
        waiting: List[Tuple[CgroupPath, Optional[ChargedTop]]] = [(ROOT, None)]
        while waiting:
            path, self.charged = waiting.pop()
            if self.charged and self.charged.path in self.unread:
                continue
            try:
                self.found[path], children = self.read(path)
            except Vanished:
                self.gone.add(path)
                continue
            except Unread as unread:
                self.unread[path] = unread.reason
                continue
            except TooMuch as over:
                # all of it is given up at once, and what was read of it is dropped at last
                self.unread[self.charged.path if self.charged else path] = over.reason
                continue
            finally:
                if self.charged:
                    self.charged_tops[path] = self.charged
            waiting += [(child, self.charged) for child in children]
            progress.tell(f"{len(self.found)} cgroups read, {len(waiting)} known to be left")
        if self.unread:
            self.without(self.unread)

    def note_owner(self, path: CgroupPath, uid: int) -> None:
        """Whose a cgroup is, by the owner of its directory."""
        person = self.charged_user(uid) if uid else 0
        if path != ROOT and person and (self.charged is None or self.charged.uid != person):
            self.charged = ChargedTop(path, person)

    def charge(self, spent: Spent, amount: int = 1) -> None:
        """Charges whose cgroup is read."""
        if self.charged and not spent.take(self.charged.uid, amount):
            raise TooMuch(spent.budget.exceeded_by(self.charged.uid))

    def full_name(self, path: CgroupPath, name: str) -> bytes:
        """A file of a cgroup by its path from the mount."""
        return (b"" if path == ROOT else path) + b"/" + os.fsencode(name)

    def full(self, path: CgroupPath) -> bytes:
        return self.mount if path == ROOT else self.mount + path

    def read(self, path: CgroupPath) -> Tuple[Cgroup, List[CgroupPath]]:
        """A cgroup, and the paths below it that are to be walked."""
        folder = None
        try:
            folder = bounded.open_folder(self.full(path), None, bounded.FOLDER if path != ROOT else bounded.FOLDER & ~os.O_NOFOLLOW)
            status = os.stat(folder)
            if self.is_covered(path, status):
                raise Unread(MountedOver(self.below.get(path, "")))
            directory = owned_of(status)
            self.note_owner(path, directory[0])
            self.charge(self.cgroups)
            self.charge(self.bytes, len(path))
            self.charge(self.levels, path.count(b"/"))
            found, names = self.read_files(path, folder, directory)
            return found, self.children(path, folder, names)
        except (OSError, ValueError, Vanished, Unread) as error:
            if path == ROOT:
                raise Fault(f"{shown(self.mount)} isn't a cgroup: {error}") from None
            if isinstance(error, (Vanished, Unread)):
                raise
            if isinstance(error, ValueError):
                raise Unread(Unreadable(str(error))) from None
            # it went, or a file was opened and then its cgroup went
            if error.errno in (errno.ENODEV, errno.ENOENT, errno.ENOTDIR) and not self.is_there(path, folder):
                raise Vanished from None
            file = f"{error.filename}: " if folder is not None and isinstance(error.filename, str) else ""
            raise Unread(Unreadable(f"{file}{error.strerror}")) from None
        finally:
            if folder is not None:
                os.close(folder)

    def is_covered(self, path: bytes, status: os.stat_result) -> bool:
        """Whether what stands at a path is no part of the hierarchy, but mounted there."""
        if path == ROOT:
            self.device = status.st_dev
        return status.st_dev != self.device or path in self.below

    def is_there(self, path: CgroupPath, folder: Optional[int]) -> bool:
        """Whether a folder that was opened is still what its path names."""
        try:
            return folder is not None and os.path.samestat(os.stat(folder), os.lstat(self.full(path)))
        except OSError:
            return False

    def read_files(self, path: CgroupPath, folder: int, directory: Owned) -> Tuple[Cgroup, List[bytes]]:
        """A cgroup, and the names of the folders in it."""
        pairs, names = [], []
        with still_listed():
            for name, is_folder in bounded.list_folder(folder, bounded.NAMES).names:
                if is_folder:
                    names.append(os.fsencode(name))
                    continue
                status = os.lstat(name, dir_fd=folder)
                if status.st_dev != self.device or self.below and self.full_name(path, name) in self.below:
                    self.covered[path, name] = self.below.get(self.full_name(path, name), "")
                elif stat.S_ISREG(status.st_mode):
                    name, owned = sys.intern(name), owned_of(status)
                    pairs.append((name, owned))
                    if may_set(name):
                        self.places[status.st_dev, status.st_ino] = path, name
        files = self.once.files_of(tuple(pairs))
        for file in CONTROL_FILES:
            if (path, file) in self.covered:
                raise Unread(MountedOver(self.covered[path, file], file))
            if file not in files:
                raise FileNotFoundError(errno.ENOENT, os.strerror(errno.ENOENT), file)
        return self.cgroup(folder, files, directory, self.text_files if path != ROOT else NONE), names

    def cgroup(self, folder: int, files: Mapping[str, Entry], directory: Owned, text_files: FrozenSet[str]) -> Cgroup:
        with still_listed():
            texts = self.once.texts_of(tuple((file, text_of(folder, file)) for file in NUMBER_FILES if file in files))
        # each is a number or a word: a kernel writes it
        self.charge(self.bytes, sum(map(len, texts.values())) + len(texts))
        kind = self.text(folder, "cgroup.type") if "cgroup.type" in files else "domain"
        marks = marks_of(folder)
        self.charge(self.bytes, marks.read)
        others = self.read_texts(folder, [file for file in self.once.reached_in(files) if file in text_files] if text_files else ())
        return Cgroup(directory=self.once.entry(directory), files=files, texts=texts, read=others,
                      enabled=tuple(map(sys.intern, self.text(folder, "cgroup.subtree_control").split())),
                      available=tuple(map(sys.intern, self.text(folder, "cgroup.controllers").split())),
                      kind=sys.intern(kind), marks=marks.values, pids=self.pids(folder))

    def read_texts(self, folder: int, files: Iterable[str]) -> Mapping[str, str]:
        """What some files have, as far as they can be read."""
        found = []
        for file in files:
            try:
                found.append((file, self.text(folder, file)))
            except OSError:
                continue
        return self.once.texts_of(tuple(found))

    def text(self, folder: int, file: str) -> str:
        """What a file has, charged to whose cgroup it is of."""
        text = text_of(folder, file)
        self.charge(self.bytes, len(text) + 1)
        return text

    def pids(self, folder: int) -> Optional[Tuple[int, ...]]:
        """The processes of a cgroup, or None where it lists none since it is threaded."""
        try:
            words = self.text(folder, "cgroup.procs").split()
        except OSError as error:
            if error.errno == errno.EOPNOTSUPP:
                return None
            raise
        if not all(word.isascii() and word.isdigit() and len(word) < 20 for word in words):
            raise ValueError("cgroup.procs has no list of PIDs")
        return tuple(map(int, words))

    def children(self, path: CgroupPath, folder: int, names: Iterable[bytes]) -> List[CgroupPath]:
        """The paths below that are to be walked; the others are written down as left out."""
        if self.charged and not self.shallow.isdisjoint((self.charged.uid, EVERYBODY)):
            return []
        is_on_the_way = path in self.on_the_way
        children = []
        for name in names:
            child = CgroupPath((b"" if path == ROOT else path) + b"/" + name)
            if is_on_the_way and child not in (self.tops or ()) and child not in self.on_the_way:
                continue
            if is_name(name) and len(child) <= LONGEST_PATH and len(self.full(child)) <= LONGEST_FOLDER:
                children.append(child)
            else:
                self.left_out[child] = self.count(folder, name)
                self.charge(self.bytes, len(child))
        return children

    def count(self, folder: int, name: bytes) -> int:
        """How many cgroups one is that is left out, charged to its owner, or to whose it stands in."""
        try:
            uid = os.stat(name, dir_fd=folder, follow_symlinks=False).st_uid
        except OSError:
            return 1
        uid = uid or (self.charged.uid if self.charged else 0)
        count = bounded.count_folders(folder, name, max(self.cgroups.left(uid), 0) if uid else self.cgroups.budget.most)
        if not self.cgroups.take(uid, count) and self.charged and self.charged_user(uid) == self.charged.uid:
            raise TooMuch(self.cgroups.budget.exceeded_by(self.charged.uid))
        return count

    def covers(self, path: CgroupPath) -> bool:
        """Whether a path is among those that this walk was of."""
        return self.tops is None or path in self.on_the_way or not self.tops.isdisjoint((path, *ancestors(path)))

    def differing(self, before: "Walk") -> Dict[CgroupPath, Reason]:
        """What two walks in a row don't agree on, of what this one was of; each with why."""
        paths = {*self.found, *self.gone, *filter(self.covers, before.found), *filter(self.covers, before.gone)}
        differing: Dict[CgroupPath, Reason] = {
            path: CHANGED for path in paths if not is_alike(self.found.get(path), before.found.get(path)) or not self.is_top_down(path)}
        # a file may go in the midst of a change; what can't be read twice can't be read
        return {**differing, **{path: why if before.unread.get(path) == why else CHANGED for path, why in self.unread.items()}}

    def is_top_down(self, path: CgroupPath) -> bool:
        """Whether a cgroup enables no controller that the one above it doesn't: where it does, one of them was changed in between."""
        found, parent = self.found.get(path), parent_of(path)
        above = self.found.get(parent) if parent else None
        return found is None or above is None or not set(found.enabled).intersection(CONTROLLERS).difference(above.enabled)

    def take(self, later: "Walk") -> None:
        """Puts a later walk in the place of what it was of."""
        put_in_place(self.found, later.found, later)
        put_in_place(self.left_out, later.left_out, later)
        put_in_place(self.unread, later.unread, later)
        self.gone = {path for path in self.gone if not later.covers(path)} | later.gone
        self.places.update(later.places)
        self.covered = {**{each: kind for each, kind in self.covered.items() if not later.covers(each[0])}, **later.covered}
        self.charged_tops.update(later.charged_tops)
        self.without(())

    def without(self, paths: Collection[CgroupPath]) -> None:
        """Leaves out some cgroups, with what is inside, and what is inside of none."""
        self.found = whole(self.found, paths)


def walk_over(mount: str, tops: Optional[Iterable[CgroupPath]] = None, before: Optional[Walk] = None, charged_user: ChargedUser = int,
              text_files: Sequence[str] = (), below: Below = NOTHING, shallow: Sequence[int] = ()) -> Walk:
    """A walk; what is equal to what one before found is held once. The first reads no limit file of format 4, since nothing that two have
    to agree on is in one."""
    walk = Walk(mount, tops, charged_user, text_files if before else (), below, shallow)
    if before:
        walk.once = before.once
    walk.walk()
    return walk


def whole(found: Mapping[CgroupPath, Of], without: Collection[CgroupPath] = ()) -> Dict[CgroupPath, Of]:
    """What of some cgroups isn't left out and has all of theirs above."""
    kept: Dict[CgroupPath, Of] = {}
    for path in sorted(found, key=len):
        if path not in without and (path == ROOT or parent_of(path) in kept):
            kept[path] = found[path]
    return kept


def put_in_place(mine: Dict[CgroupPath, Of], its: Mapping[CgroupPath, Of], later: Walk) -> None:
    for path in [path for path in mine if later.covers(path)]:
        del mine[path]
    mine.update(its)


def is_alike(found: Optional[Cgroup], before: Optional[Cgroup]) -> bool:
    """Whether two walks agree on a cgroup; processes come and go."""
    return found is not None and before is not None and key_of(found) == key_of(before)


def key_of(found: Cgroup) -> Tuple[object, ...]:
    return found.directory, found.files, found.texts, found.enabled, found.available, found.kind, found.marks


@contextlib.contextmanager
def still_listed() -> Iterator[None]:
    """Looks at files that a folder has: one that went since then is no file that can't be read, as whoever enables its controller and
    disables it again and again has it go in each walk. The cgroup counts as one that went, until it stays as it is."""
    try:
        yield
    except OSError as error:
        if error.errno in (errno.ENOENT, errno.ENODEV):
            raise Vanished(str(error)) from None
        raise


def owned_of(status: os.stat_result) -> Owned:
    return status.st_uid, status.st_gid, stat.S_IMODE(status.st_mode)


def marks_of(folder: int) -> bounded.Attributes:
    """The marks of delegation that a service manager sets: `trusted.` ones are root's, `user.` ones any owner's."""
    return bounded.read_attributes(folder, MARKS, bounded.ATTRIBUTE)


def text_of(folder: int, file: str) -> str:
    """What a file of an opened folder has, as text."""
    return bounded.read_file(file, bounded.CGROUP_FILE, bounded.FILE, folder).data.decode("ascii", "replace").strip()


def value_of(path: bytes, file: str) -> Optional[str]:
    """What a file of a folder has now, or nothing where it can't be read."""
    try:
        folder = bounded.open_folder(path)
        try:
            return text_of(folder, file)
        finally:
            os.close(folder)
    except OSError:
        return None
