"""From /proc to processes, and of whom not all could be read."""
from typing import Container, Dict, Iterator, List, Mapping, Optional, Tuple

from zirofen_host.collect import bounded
from zirofen_host.collect.bounded import ChargedUser, Spent
from zirofen_host.collect.model import Process, User, group_list
from zirofen_host.collect.notes import Failed, Lacking
from zirofen_host.collect.reasons import Reason
from zirofen_host.collect.threads import Fields, ThreadReader

KERNEL_THREAD = 0x00200000

# capabilities by which a process passes over owners, or becomes who does, by their numbers in CapPrm: what is
# permitted and not effective is raised again at will
CAPABILITIES = {0: "CHOWN", 1: "DAC_OVERRIDE", 3: "FOWNER", 6: "SETGID", 7: "SETUID", 16: "SYS_MODULE", 17: "SYS_RAWIO",
                19: "SYS_PTRACE", 21: "SYS_ADMIN"}
# what a helper sees by a capability alone: the numbers of which one is enough, its name, and what isn't seen without
NEEDED = (({21}, "SYS_ADMIN", "the mark trusted.delegate can't be seen, so that what was handed over by it alone isn't asked"),
          ({19}, "SYS_PTRACE", "what others' processes hold open, and their namespaces, can't be seen"),
          ({1, 2}, "DAC_READ_SEARCH", "what its owner closed to others can't be read"))
FIRST_USER_NAMESPACE = "user:[4026531837]"


def status_fields(text: str) -> Fields:
    """The words behind each key; a process's name may have all that parts lines but for a newline."""
    return {key: value.split() for key, _, value in (line.partition(":") for line in text.split("\n"))}


def names_in(folder: str, most: int = bounded.NAMES) -> List[str]:
    return [name for name, _ in bounded.list_folder(folder, most).names]


class Reader:
    """Reads processes, charged to whose they are."""

    def __init__(self, proc: str, charged_user: ChargedUser = int, gids: Optional[Container[int]] = None) -> None:
        self.proc = proc
        # the groups that are kept, where not all are
        self.gids = gids
        self.spent = self.groups, self.lists, self.bytes, self.count = [
            Spent(budget, charged_user) for budget in (bounded.GROUPS, bounded.GROUP_LISTS, bounded.PROCESS_BYTES, bounded.PROCESSES)]
        self.users: Dict[User, User] = {}
        self.threads = ThreadReader(proc, charged_user, self.bytes)
        self.found: Dict[int, Process] = {}
        # of which what /proc has isn't known
        self.unknown: List[int] = []
        self.failed: List[Failed] = []

    def over(self) -> Mapping[int, Reason]:
        """Of whom not all processes were looked at, each with why."""
        return {person: spent.budget.exceeded_by(person) for spent in self.spent for person in spent.over()}

    def look(self) -> "Reader":
        """Reads all processes, as far as the budgets of their users go."""
        for name in names_in(self.proc):
            process = self.process(int(name)) if name.isdigit() else None
            if process:
                self.found[process.pid] = process
        return self

    def process(self, pid: int) -> Optional[Process]:
        """A process, or None where it has ended or isn't looked at. Its uid is the real one; as a user it acts under the effective
        ones."""
        try:
            if self.is_over(bounded.owner_of(f"{self.proc}/{pid}")):
                return None
            fields = self.fields(pid)
            user = self.user(fields) if fields else None
            if fields is None or user is None:
                return None
            stat = bounded.read_file(f"{self.proc}/{pid}/stat", bounded.FLAGS).text("utf-8", "replace")
            flags = int(stat.rpartition(")")[2].split()[6])
            threads = self.threads.look(pid, fields)
            names = capabilities_of(self.proc, threads.living or pid, threads.permitted)
            return Process(pid, int(fields["Uid"][0]), user, flags & KERNEL_THREAD != 0,
                           " ".join(fields.get("Name", ())), names, threads.permitted != 0, threads.left, threads.bounding,
                           threads.number, threads.is_headless, threads.living, threads.places,
                           program_of(self.proc, threads.living or pid) if threads.places or threads.is_headless else "")
        except (FileNotFoundError, ProcessLookupError):
            return None
        except (ValueError, KeyError, IndexError, OSError):
            self.unknown.append(pid)
            return None

    def fields(self, pid: int) -> Optional[Fields]:
        """What a process's status has, or None where its user has more than is looked at. The head says whose it is, and a list of
        groups may be long."""
        read = bounded.read_where(f"{self.proc}/{pid}/status", bounded.FLAGS, bounded.STATUS, self.is_wanted)
        fields = status_fields(read.text("utf-8", "replace")) if read else {}
        return fields if read and self.bytes.take(int(fields["Uid"][0]), len(read.data)) else None

    def is_wanted(self, head: bytes) -> bool:
        """Whether the process is looked at whose status begins so, which is charged."""
        uid = int(status_fields(head.decode("utf-8", "replace"))["Uid"][0])
        return self.count.take(uid) and not self.is_over(uid)

    def is_over(self, uid: int) -> bool:
        """Whether somebody has more of anything than is looked at."""
        return any(spent.is_over(uid) for spent in self.spent)

    def user(self, fields: Fields) -> Optional[User]:
        """As whom a process acts, or None where whoever it is has more groups than are looked at. Of the further ones those are kept that
        an entry has."""
        uid, gid, words = int(fields["Uid"][0]), int(fields["Gid"][1]), fields.get("Groups", ())
        if not self.groups.take(uid, len(words)):
            return None
        others = (int(word) for word in words)
        kept = dict.fromkeys(other for other in others if other != gid and (self.gids is None or other in self.gids))
        made = User(int(fields["Uid"][1]), group_list((gid, *kept)))
        if made not in self.users:
            if not self.lists.take(uid):
                return None
            self.users[made] = made
        return self.users[made]


def capabilities_of(proc: str, pid: int, bits: int) -> Tuple[str, ...]:
    """Those that count on the host: a user namespace's own don't reach outside of it."""
    names = tuple(name for number, name in CAPABILITIES.items() if bits >> number & 1)
    try:
        return names if not names or bounded.read_link(f"{proc}/{pid}/ns/user") == FIRST_USER_NAMESPACE else ()
    except OSError:
        return names


def program_of(proc: str, thread: int) -> str:
    """The place of a process's program; nothing where it isn't known."""
    try:
        return bounded.read_link(f"{proc}/{thread}/exe")
    except OSError:
        return ""


def lacking_notes(proc: str) -> Iterator[Lacking]:
    """What this process can't see for want of a capability."""
    status = bounded.read_file(f"{proc}/self/status", bounded.STATUS).text("utf-8", "replace")
    bits = int(status_fields(status)["CapEff"][0], 16)
    for numbers, name, unseen in NEEDED:
        if not any(bits >> number & 1 for number in numbers):
            yield Lacking("/", name, unseen)


def read_processes(proc: str, gids: Optional[Container[int]] = None) -> Dict[int, Process]:
    """All processes by their PIDs, with all of their groups or with some."""
    return Reader(proc, gids=gids).look().found
