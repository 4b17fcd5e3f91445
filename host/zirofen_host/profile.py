"""From paths, names and numbers to whether a tree text can carry them, and how much its formats have at most."""
import os
import re
from typing import Dict, FrozenSet, Iterable, Iterator, List, NamedTuple, NewType, Optional, Tuple, TypeVar, Union

from zirofen_host.files import CONTROL_FILES, CONTROLLERS, TEXT_FILES, NUMBER_FILES

# a cgroup's path from the mount on, with the bytes that its names have; the root's is /
CgroupPath = NewType("CgroupPath", bytes)
ROOT = CgroupPath(b"/")
# a cgroup's path, or the text of one as it is shown
AnyPath = TypeVar("AnyPath", str, CgroupPath)


class TextFormat(NamedTuple):
    """A format in which tree texts are written: the controllers that it names, what a text of it has at most, and the limit files
    that it names with texts as values."""
    number: int
    controllers: Tuple[str, ...]
    most_rows: int
    most_processes: int
    longest: int
    text_files: Tuple[str, ...] = ()


# bytes of one line of a value that is a text
LONGEST_LINE = 4095

RESERVED_NAMES = {".", "..", "cgroup.controllers", *CONTROL_FILES, *NUMBER_FILES}
DIRECTORY_MODE = 0o755
FILE_MODE = 0o644
LONGEST_PATH = 4095
# of a user of the program, and the largest uid or gid, and PID
MOST_GROUPS = 32
LARGEST_ID, LARGEST_PID = 4294967295, 4194303

# by their numbers; a text of format 1 has no more than one of format 2, and is written so
TEXT_FORMATS: Dict[int, TextFormat] = {
    2: TextFormat(2, ("cpu", "memory", "pids"), 4096, 4096, 16777216),
    4: TextFormat(4, CONTROLLERS, 65536, 65536, 67108864, tuple(TEXT_FILES)),
}
NEWEST = 4
# bytes of the longest text that is read
LONGEST_TEXT = max(each.longest for each in TEXT_FORMATS.values())

# stands for a user of whom nothing is known but what everybody may do
ANYBODY = 65534

# words with one space between two
_LINE = re.compile(r"[!-~]+( [!-~]+)*\Z")
_NAME = re.compile(rb"[\x21-\x2e\x30-\x7e]{1,255}\Z")


def is_name(name: bytes) -> bool:
    """Whether bytes are a cgroup's name in a tree text."""
    return _NAME.match(name) is not None and name.decode("ascii") not in RESERVED_NAMES


def is_line(text: str) -> bool:
    """Whether a tree text takes a line as one of a value that is a text."""
    return len(text) <= LONGEST_LINE and _LINE.match(text) is not None


def is_number(word: str) -> bool:
    """Whether a word is a number as the formats write one."""
    return word.isascii() and word.isdigit() and (word == "0" or word[0] != "0")


def path_of(text: str) -> CgroupPath:
    """A path by its text; a text that stands for no bytes is a ValueError."""
    return CgroupPath(os.fsencode(text))


def is_root(path: AnyPath) -> bool:
    """Whether a path is that of the topmost cgroup."""
    return path in ("/", ROOT)


def parts_of(path: CgroupPath) -> List[bytes]:
    """The names on the way to a cgroup."""
    return path.split(b"/")


def tree_order(path: CgroupPath) -> bytes:
    """What paths are sorted by to be in the order of their tree: as their names are, of which none has a byte of 0."""
    return path.replace(b"/", b"\0")


def text_of(path: CgroupPath) -> str:
    """A path as a text that stands for its bytes, as it is shown."""
    return os.fsdecode(path)


def parent_of(path: AnyPath) -> Optional[AnyPath]:
    """The path one level up; the root has none."""
    if isinstance(path, str):
        return None if path == "/" else path.rpartition("/")[0] or "/"
    return None if path == ROOT else CgroupPath(path.rpartition(b"/")[0]) or ROOT


def is_inside(path: AnyPath, subtree: AnyPath) -> bool:
    """Whether a path is that of a subtree or of what is below it."""
    if isinstance(subtree, str):
        return subtree == "/" or path == subtree or path.startswith(subtree + "/")
    return subtree == ROOT or path == subtree or path.startswith(subtree + b"/")


def ancestors(path: AnyPath) -> Iterator[AnyPath]:
    """The proper ancestors, the nearest first."""
    above = parent_of(path)
    while above is not None:
        yield above
        above = parent_of(above)


def topmost(paths: Iterable[AnyPath]) -> FrozenSet[AnyPath]:
    """The paths that are inside of no other of them."""
    known = set(paths)
    return frozenset(path for path in known if known.isdisjoint(ancestors(path)))


def shown(path: Union[str, bytes]) -> str:
    """A path or a name as a line can show it, whatever is in it: quoted where a terminal would act on it."""
    if isinstance(path, str):
        return path if path.isascii() and path.isprintable() else ascii(path)
    return path.decode("ascii") if all(0x21 <= byte <= 0x7E for byte in path) else repr(path)
