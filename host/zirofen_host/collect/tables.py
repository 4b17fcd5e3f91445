"""From the threads of a process to their tables of descriptors.

They share one, unless a thread left it (`unshare(CLONE_FILES)`).
"""
import ctypes
import os
from typing import Callable, Dict, FrozenSet, Iterable, List, Optional, Tuple

from zirofen_host.collect import bounded
from zirofen_host.options import PROC

# the number of kcmp by machine, and its kind for tables of descriptors
NUMBERS = {"x86_64": 312, "aarch64": 272, "riscv64": 272, "ppc64le": 354, "s390x": 343}
FILES = 2
SAME, LESS, MORE = 0, 1, 2

# where each descriptor leads, by its number
Links = FrozenSet[Tuple[str, str]]
# charges what was read
Charge = Callable[[int], None]


class Tables:
    """Tells tables apart: by kcmp where the kernel has it, else by what is in them."""

    def __init__(self, proc: str) -> None:
        self.proc = proc
        number = NUMBERS.get(os.uname().machine) if proc == PROC else None
        self.order = None if number is None else kcmp_by(number)

    def apart(self, pid: int, threads: Iterable[int], charge: Charge) -> List[int]:
        """Of some threads of a process those by which each of its tables is read once; what is read to tell them apart is charged."""
        threads = list(threads)
        found = None if self.order is None else apart_by(self.order, threads)
        return self.apart_by_links(pid, threads, charge) if found is None else found

    def apart_by_links(self, pid: int, threads: Iterable[int], charge: Charge) -> List[int]:
        """The same by what is in the tables: of those that are alike one is read."""
        found: Dict[Links, int] = {}
        for thread in threads:
            links = self.links(pid, thread)
            charge(len(links))
            found.setdefault(links, thread)
        return list(found.values())

    def links(self, pid: int, thread: int) -> Links:
        place = f"{self.proc}/{pid}/task/{thread}/fd"
        try:
            names = bounded.list_folder(place, bounded.LINKS.most).names
            return frozenset((name, bounded.read_link(f"{place}/{name}")) for name, _ in names)
        except OSError:
            return frozenset()


# how the tables of two threads stand to one another
Order = Callable[[int, int], int]


def apart_by(order: Order, threads: Iterable[int]) -> Optional[List[int]]:
    """One thread of each table, in the order that a kernel keeps tables in; none where it doesn't say."""
    found: List[int] = []
    for thread in threads:
        low, high = 0, len(found)
        while low < high:
            middle = (low + high) // 2
            stands = order(thread, found[middle])
            if stands == SAME:
                break
            if stands not in (LESS, MORE):
                return None
            low, high = (low, middle) if stands == LESS else (middle + 1, high)
        else:
            found.insert(low, thread)
    return found


def kcmp_by(number: int) -> Optional[Order]:
    """The system call that compares what two threads have, where this machine's C library lets it be called."""
    try:
        call = ctypes.CDLL(None).syscall
    except (OSError, AttributeError):
        return None
    return lambda one, other: int(call(ctypes.c_long(number), ctypes.c_int(one), ctypes.c_int(other), ctypes.c_int(FILES),
                                       ctypes.c_ulong(0), ctypes.c_ulong(0)))
