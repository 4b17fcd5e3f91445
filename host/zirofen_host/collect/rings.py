"""From the fdinfo of an io_uring's descriptor to the files that are registered with it.

A new kernel lists their paths, and tells nothing of a ring while that is busy; an older one, as 6.1, lists their names alone, one for
each slot, and none while it is busy. By which flags one was opened no kernel tells.
"""
import re
from typing import AbstractSet, NamedTuple, Optional, Tuple

from zirofen_host.profile import ROOT, CgroupPath

RING = "anon_inode:[io_uring]"
# how often a ring is asked that is busy
TURNS = 4
NONE = b"<none>"
# the first release that lists paths
WITH_PATHS = (6, 16)

_COUNT = re.compile(rb"^UserFiles:\t([0-9]{1,10})$", re.MULTILINE)
_FILE = re.compile(rb"^ {0,4}[0-9]{1,10}: (.*)$", re.MULTILINE)
_OCTAL = re.compile(rb"\\([0-7]{3})")

FileOf = Tuple[CgroupPath, str]


class Registered(NamedTuple):
    """Files of cgroups that are registered with a ring, and how many more may be such files."""
    files: Tuple[FileOf, ...]
    unknown: int


def registered(text: bytes, mount: bytes, names: AbstractSet[bytes], has_paths: bool) -> Optional[Registered]:
    """What of a hierarchy's files a ring's fdinfo lists, or None where it doesn't list its files. A file that has the name of one, and
    isn't on the mount by its path, may be one."""
    count = _COUNT.search(text)
    if count is None:
        return None
    listed = _FILE.findall(text, count.end())
    if int(count[1]) and not listed and not has_paths:
        return None
    files = [_OCTAL.sub(octal_byte, each) if has_paths else each for each in listed if each != NONE]
    maybe = [each for each in files if each.rpartition(b"/")[2] in names]
    on_mount = [each for each in maybe if each.startswith(mount + b"/")]
    return Registered(tuple(file_of(each[len(mount):]) for each in on_mount), len(maybe) - len(on_mount))


def octal_byte(octal: "re.Match[bytes]") -> bytes:
    return bytes([int(octal[1], 8) & 0xFF])


def lists_paths(release: str) -> bool:
    """Whether a kernel lists paths, by its release; such a one leaves out slots that are empty."""
    words = re.match(r"([0-9]{1,4})\.([0-9]{1,4})", release)
    return words is not None and (int(words[1]), int(words[2])) >= WITH_PATHS


def file_of(path: bytes) -> FileOf:
    folder, _, name = path.rpartition(b"/")
    return CgroupPath(folder) or ROOT, name.decode("ascii", "replace")
