"""From the list of mounts to those of cgroups, and whether a snapshot can be taken here."""
import os
from typing import Dict, FrozenSet, List, Mapping, Optional, Tuple

from zirofen_host.collect import bounded
from zirofen_host.fault import Fault
from zirofen_host.files import CONTROL_FILES, OF_LIMITS, USUAL_LIST
from zirofen_host.options import PROC
from zirofen_host.profile import LARGEST_ID

# the number of the cgroup namespace that a kernel begins with
FIRST_NAMESPACE = "cgroup:[4026531835]"
FIRST_PID_NAMESPACE = "pid:[4026531836]"
CGROUPS = "cgroup2"
# what version 1 calls otherwise
V1_NAMES = {"blkio": "io"}
WHOLE_UID_MAP = ["0", "0", str(LARGEST_ID)]


class Mounts:
    """What a mountinfo text says of cgroups."""

    def __init__(self, text: str) -> None:
        # of version 2 the top and the options by where it is mounted, of version 1 the options
        self.second: Dict[str, Tuple[str, List[str]]] = {}
        self.first: List[str] = []
        # of each mount the type of its file system, by its number and by where it is
        self.types: Dict[int, str] = {}
        self.places: Dict[str, str] = {}
        # a path may have all that ends a line or parts words elsewhere, but for what stands for itself in octal digits
        for line in text.split("\n"):
            before, after = (part.split(" ") for part in line.partition(" - ")[::2])
            if len(before) < 6 or len(after) < 3:
                continue
            self.places[unescaped(before[4])] = after[0]
            if before[0].isascii() and before[0].isdigit() and len(before[0]) < 20:
                self.types[int(before[0])] = after[0]
            if after[0] == CGROUPS:
                self.second[unescaped(before[4])] = (before[3], before[5].split(",") + after[2].split(","))
            elif after[0] == "cgroup":
                self.first.append(after[2])

    def refuse(self, mount: str) -> None:
        """Ends with a clear line where a folder isn't the top of a cgroup v2 mount."""
        found = self.second.get(mount.rstrip("/") or "/")
        if found is None:
            where = f"; one is at {sorted(self.second)[0]}: name it by --mount" if self.second else ""
            raise Fault(f"{mount} isn't a cgroup v2 mount{where}")
        if found[0] != "/":
            raise Fault(f"{mount} is a part of the hierarchy, {found[0]}, and not the whole")

    def limits_of_version_1(self) -> Tuple[str, ...]:
        """The controllers with limits that a hierarchy of version 1 has, as version 2 calls them."""
        names = {V1_NAMES.get(name, name) for options in self.first for name in options.split(",")}
        return tuple(sorted(names & OF_LIMITS))

    def is_in_place(self, place: str, mount: str) -> bool:
        """Whether what is mounted inside of a mount is what stands there anyway, as systemd does with a confined service's
        memory.pressure."""
        return self.places[place] == CGROUPS and place == mount.rstrip("/") + unescaped(self.second[place][0])

    def below(self, mount: str) -> Mapping[bytes, str]:
        """What else is mounted inside of a mount, by its path from there, and of what type each is."""
        top = mount.rstrip("/") + "/"
        inside = (place for place in self.places if place.startswith(top) and place != top)
        return {os.fsencode(place[len(top) - 1:]): self.places[place] for place in inside if not self.is_in_place(place, mount)}

    def further(self, mount: str) -> List[Tuple[str, str]]:
        """Where else the hierarchy of a mount is mounted, and the top of each."""
        here = mount.rstrip("/") or "/"
        found = ((place, top) for place, (top, _) in self.second.items() if place != here and not self.is_in_place(place, here))
        return sorted(found) if here in self.second else []

    def options(self, mount: str) -> List[str]:
        found = self.second.get(mount.rstrip("/") or "/")
        return found[1] if found else []


def unescaped(text: str) -> str:
    """A path of a mountinfo text, where a space is written as three octal digits."""
    for octal, byte in (("\\040", " "), ("\\011", "\t"), ("\\012", "\n"), ("\\134", "\\")):
        text = text.replace(octal, byte)
    return text


def refuse_what_is_no_host(mount: str) -> Mounts:
    """Ends with a clear line where owners, paths or PIDs would be read wrongly."""
    if os.geteuid() != 0:
        raise Fault("run this as root: others don't see every process, nor every descriptor")
    if bounded.read_file("/proc/self/uid_map", bounded.PROC_FILE).text("ascii").split() != WHOLE_UID_MAP:
        raise Fault("inside a user namespace: owners would be shown wrongly. Run this on the host")
    if bounded.read_link("/proc/self/ns/cgroup") != FIRST_NAMESPACE:
        raise Fault("inside a cgroup namespace: what is above its root isn't seen. Run this on the host")
    if bounded.read_link("/proc/self/ns/pid") != FIRST_PID_NAMESPACE:
        raise Fault("inside a PID namespace: processes outside of it aren't seen. Run this on the host")
    mounts = mounts_of_host()
    mounts.refuse(mount)
    return mounts


def mounts_of_host(proc: str = PROC) -> Mounts:
    return Mounts(bounded.read_file(f"{proc}/self/mountinfo", bounded.PROC_FILE).text("utf-8", "surrogateescape"))


def mounts_of_folder(proc: str) -> Mounts:
    """The mounts of a made-up host, where its /proc tells them."""
    try:
        return Mounts("") if proc == PROC else mounts_of_host(proc)
    except FileNotFoundError:
        return Mounts("")


def read_kernel_list(file: Optional[str]) -> FrozenSet[str]:
    """The files that this kernel says are made to be handed over with a subtree; without a file of it, the usual ones."""
    try:
        listed = bounded.read_file(file, bounded.PROC_FILE).text("ascii", "replace").split() if file else USUAL_LIST
    except OSError:
        listed = USUAL_LIST
    return frozenset((*listed, *CONTROL_FILES))
