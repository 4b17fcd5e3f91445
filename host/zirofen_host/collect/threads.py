"""From what /proc has of a process's threads to where each runs, what it is permitted, and one that lives."""
import re
from typing import Iterable, List, Mapping, NamedTuple, Optional, Sequence, Tuple

from zirofen_host.collect import bounded
from zirofen_host.collect.bounded import ChargedUser, Spent
from zirofen_host.profile import CgroupPath

# the states of what has ended
ENDED = ("Z", "X")
ALL = "ffffffffffffffff"
# bytes of a thread's places: a path that a kernel takes, and those of hierarchies of version 1
PLACES = 1 << 16
DELETED = b" (deleted)"

_STATUS = re.compile(rb"^(State|CapPrm|CapBnd):[ \t]*(\S+)", re.MULTILINE)

Fields = Mapping[str, List[str]]


class Threads(NamedTuple):
    """What the threads of a process tell, all together."""
    # the capabilities that one of them is permitted, and those of their bounding sets, as bits
    permitted: int
    bounding: int
    # how many there are, and how many of them weren't looked at
    number: int = 1
    left: int = 0
    is_headless: bool = False
    living: Optional[int] = None
    places: Tuple[CgroupPath, ...] = ()


class ThreadStatus(NamedTuple):
    """What the status of one thread tells."""
    is_living: bool
    permitted: int
    bounding: int


class ThreadReader:
    """Reads the threads of processes, charged to whose they are."""

    def __init__(self, proc: str, charged_user: ChargedUser, read: Spent) -> None:
        self.proc, self.read = proc, read
        # those of processes whose first thread has ended have a budget of their own, so that nobody hides one behind many others
        self.spent, self.spent_headless = (Spent(bounded.THREADS, charged_user) for _ in range(2))

    def look(self, pid: int, fields: Fields) -> Threads:
        """The threads of a process, by its status."""
        first = Threads(*bits_in(fields), number=int(fields.get("Threads", ["1"])[0]))
        if first.number < 2:
            return first
        uid, is_headless = int(fields["Uid"][0]), fields.get("State", ["R"])[0] in ENDED
        spent = self.spent_headless if is_headless else self.spent
        try:
            most = min(first.number, max(spent.left(uid), 0)) if uid else first.number
            names = bounded.list_folder(f"{self.proc}/{pid}/task", most).names
        except OSError:
            return first._replace(left=first.number if is_headless else 0, is_headless=is_headless)
        found = first._replace(left=max(first.number - len(names), 0), is_headless=is_headless)
        return self.with_each(pid, uid, spent, found, [int(name) for name, _ in names if name.isdigit()])

    def with_each(self, pid: int, uid: int, spent: Spent, found: Threads, numbers: Sequence[int]) -> Threads:
        """What is known of a process with what each of its threads tells."""
        for place, number in enumerate(numbers):
            if self.read.is_over(uid):
                numbers = numbers[:place]
                found = found._replace(left=found.number - place)
                break
            spent.take(uid)
            status = self.status_of(pid, number, uid)
            if status:
                living = number if found.living is None and found.is_headless and status.is_living else found.living
                found = found._replace(permitted=found.permitted | status.permitted, bounding=found.bounding | status.bounding,
                                       living=living)
        places = self.places(pid, uid, numbers)
        # all threads move at once, but a walk over them is none: where they differ they are asked again
        return found._replace(places=self.places(pid, uid, numbers) if len(places) > 1 else ())

    def status_of(self, pid: int, number: int, uid: int) -> Optional[ThreadStatus]:
        try:
            read = bounded.read_file(f"{self.proc}/{pid}/task/{number}/status", bounded.STATUS)
        except OSError:
            # it has ended
            return None
        self.read.take(uid, len(read.data))
        words = {key: word.decode("ascii", "replace") for key, word in _STATUS.findall(read.data)}
        return ThreadStatus(words.get(b"State", "R") not in ENDED, int(words.get(b"CapPrm", "0"), 16), int(words.get(b"CapBnd", ALL), 16))

    def places(self, pid: int, uid: int, numbers: Iterable[int]) -> Tuple[CgroupPath, ...]:
        """The place of the first thread, and behind it where else threads run, as far as it can be read."""
        first = self.place(pid, pid, uid)
        if first is None:
            return ()
        others = {place for number in numbers if number != pid for place in [self.place(pid, number, uid)] if place is not None}
        others.discard(first)
        return (first, *sorted(others)) if others else ()

    def place(self, pid: int, number: int, uid: int) -> Optional[CgroupPath]:
        try:
            read = bounded.read_file(f"{self.proc}/{pid}/task/{number}/cgroup", PLACES)
        except OSError:
            return None
        self.read.take(uid, len(read.data))
        return place_in(read.data)


def place_in(text: bytes) -> Optional[CgroupPath]:
    """The cgroup of version 2 that a list of a thread's places names; one that was removed is named with a word behind it."""
    start = 0 if text.startswith(b"0::") else text.find(b"\n0::") + 1
    if not text.startswith(b"0::", start):
        return None
    return CgroupPath(text[start + 3:].partition(b"\n")[0]) or None


def bits_in(fields: Fields) -> Tuple[int, int]:
    """The capabilities that a status says are permitted, and those of its bounding set, which is all where it doesn't say."""
    return int(fields.get("CapPrm", ["0"])[0], 16), int(fields.get("CapBnd", [ALL])[0], 16)
