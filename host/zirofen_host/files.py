"""From the name of a cgroup's file to what writing it does, and to all facts of those by which a limit is set."""
from dataclasses import dataclass
from enum import Enum
from functools import cached_property, lru_cache
from typing import Collection, Dict, Iterator, List, NamedTuple, Optional, Tuple, Union


class Kind(Enum):
    """What writing a file does."""
    # it sets what stands until it is set again
    LIMIT = "limit"
    # nothing: it tells, or wakes whoever wrote it
    TELLS = "tells"
    # it does something to processes, or to what is counted, at once
    ACTS = "acts"
    # a kernel lists it in KERNEL_LIST, as made to be delegated
    DELEGATED = "delegated"


class Form(Enum):
    """How the setting of a unit says what a limit file has."""
    NUMBER = "one number"
    SHARE = "a share of a processor's time"
    IDLE = "the word idle"
    WEIGHT = "a weight of all devices"
    LIST = "a list of numbers"
    # as by a device's name, which a cgroup's file doesn't tell
    OTHER = "otherwise"


class Range(NamedTuple):
    """The numbers that a tree text takes of a limit, and whether it takes max."""
    least: int
    greatest: int
    takes_max: bool


# every controller that a tree text may name, in the order of each text
CONTROLLERS = ("cpuset", "cpu", "io", "memory", "hugetlb", "pids", "rdma", "misc", "dmem")
DIRECTORY = "dir"
CONTROL_FILES = PROCS, CONTROL = "cgroup.procs", "cgroup.subtree_control"
# what is handed over with a subtree's top
HANDED_OVER = (DIRECTORY, *CONTROL_FILES)
# the size of a huge page in a name, and the sizes that a tree text names
SIZE, PAGE_SIZES = "SIZE", ("16GB", "16MB", "1GB", "1MB", "2GB", "2MB", "32MB", "512MB", "64KB")
# microseconds of cpu.max where nobody set others; bytes of a page, in which memory is kept
PERIOD, PAGE = 100000, 4096
# as many bytes as no machine has: where a kernel doesn't write max, its own bound rounded down to whole pages, below 2^63
NO_LIMIT = 2**62
# what takes bytes
OF_BYTES = ("memory.", "hugetlb.")
USUAL_RANGE = Range(0, 2**63 - 1, True)


@dataclass(frozen=True)
class LimitFile:
    """A file by which a limit or its like is set. One that a tree text may name is a row of the table in docs/MODEL.md."""
    name: str
    # what it has where nobody set it
    usual: Union[int, str]
    # the first kernel that has it, in a hierarchy of version 2
    since: Tuple[int, int]
    # the first format of tree texts that names it: 1 with a number, 4 with a text, or None
    since_format: Optional[int] = 4
    kind: Kind = Kind.LIMIT
    # the setting of a unit that brings its value back, and how
    setting: Optional[str] = None
    form: Form = Form.NUMBER
    # it has a line for each device or resource, of which each may have one
    is_keyed: bool = False
    # more of it is more than root's settings say; of all others less is
    is_share: bool = False
    # the limit files that whoever writes it changes, where it isn't itself alone: an idle cgroup takes no weight
    changes: Tuple[str, ...] = ()
    # what is below that it counts
    counts: Optional[str] = None
    # of what is a number in tree texts
    range: Optional[Range] = None

    @cached_property
    def controller(self) -> Optional[str]:
        """The controller that brings it, by which its name begins."""
        word = self.name.partition(".")[0]
        return None if word == "cgroup" else word

    def is_brought_by(self, enabled: Collection[str]) -> bool:
        """Whether it stands below a cgroup that enables some controllers."""
        return self.controller is None or self.controller in enabled


CPU_WEIGHTS = ("cpu.idle", "cpu.weight")
# first the rows of docs/MODEL.md, in their order, and then others
LIMITS = (
    LimitFile("cgroup.max.descendants", "max", (4, 14), 1, counts="cgroups", range=USUAL_RANGE),
    LimitFile("cgroup.max.depth", "max", (4, 14), 1, counts="levels", range=USUAL_RANGE),
    LimitFile("cpu.weight", 100, (4, 15), 1, setting="CPUWeight", is_share=True, range=Range(1, 10000, False)),
    LimitFile("memory.min", 0, (4, 18), 1, setting="MemoryMin", is_share=True, range=USUAL_RANGE),
    LimitFile("memory.low", 0, (4, 5), 1, setting="MemoryLow", is_share=True, range=USUAL_RANGE),
    LimitFile("memory.high", "max", (4, 5), 1, setting="MemoryHigh", range=USUAL_RANGE),
    LimitFile("memory.max", "max", (4, 5), 1, setting="MemoryMax", range=USUAL_RANGE),
    LimitFile("pids.max", "max", (4, 5), 1, setting="TasksMax", range=USUAL_RANGE),

    LimitFile("cgroup.freeze", "0", (5, 2), kind=Kind.ACTS),
    LimitFile("cpu.idle", "0", (5, 15), setting="CPUWeight", form=Form.IDLE, changes=CPU_WEIGHTS),
    LimitFile("cpu.max", f"max {PERIOD}", (4, 15), setting="CPUQuota", form=Form.SHARE),
    LimitFile("cpu.max.burst", "0", (5, 14)),
    LimitFile("cpu.uclamp.max", "max", (5, 4)),
    LimitFile("cpu.uclamp.min", "0.00", (5, 4)),
    LimitFile("cpu.weight.nice", "0", (4, 15), setting="CPUWeight", form=Form.OTHER, changes=CPU_WEIGHTS),
    LimitFile("cpuset.cpus", "", (5, 0), setting="AllowedCPUs", form=Form.LIST),
    LimitFile("cpuset.cpus.exclusive", "", (6, 7)),
    LimitFile("cpuset.cpus.partition", "member", (5, 0)),
    LimitFile("cpuset.mems", "", (5, 0), setting="AllowedMemoryNodes", form=Form.LIST),
    LimitFile("dmem.low", "0", (6, 14), is_keyed=True),
    LimitFile("dmem.max", "max", (6, 14), is_keyed=True),
    LimitFile("dmem.min", "0", (6, 14), is_keyed=True),
    LimitFile("hugetlb.SIZE.max", "max", (5, 6)),
    LimitFile("hugetlb.SIZE.rsvd.max", "max", (5, 7)),
    LimitFile("io.bfq.weight", "default 100", (4, 12)),
    LimitFile("io.latency", "", (4, 19), setting="IODeviceLatencyTargetSec", form=Form.OTHER),
    LimitFile("io.max", "max", (4, 5), setting="IOReadBandwidthMax", form=Form.OTHER),
    LimitFile("io.prio.class", "no-change", (5, 14)),
    LimitFile("io.weight", "default 100", (4, 5), setting="IOWeight", form=Form.WEIGHT, is_share=True),
    LimitFile("memory.swap.high", "max", (5, 8)),
    LimitFile("memory.swap.max", "max", (4, 5), setting="MemorySwapMax"),
    LimitFile("memory.zswap.max", "max", (5, 19), setting="MemoryZSwapMax"),
    LimitFile("memory.zswap.writeback", "1", (6, 8)),
    LimitFile("misc.max", "max", (5, 13), is_keyed=True),
    LimitFile("rdma.max", "max", (4, 11), is_keyed=True),

    LimitFile("io.cost.model", "", (5, 4), None),
    LimitFile("io.cost.qos", "", (5, 4), None),
    LimitFile("cgroup.pressure", "1", (6, 1), None, Kind.ACTS),
    LimitFile("cgroup.type", "domain", (4, 14), None, Kind.ACTS),
    LimitFile("memory.oom.group", "0", (4, 19), None, Kind.DELEGATED))
BY_NAME: Dict[str, LimitFile] = {row.name: row for row in LIMITS}


def whole_names() -> Iterator[Tuple[str, LimitFile]]:
    """The limit files that tree texts name, of each size of a huge page one: first those of format 1, then others in the order of names."""
    for row in LIMITS:
        if row.since_format == 1:
            yield row.name, row
    yield from sorted((row.name.replace(SIZE, size), row) for row in LIMITS if row.since_format == 4
                      for size in (PAGE_SIZES if SIZE in row.name else ("",)))


# those that tree texts name, by their whole names
LIMIT_FILES: Dict[str, LimitFile] = dict(whole_names())
# and those of them whose values are numbers, which are in every text, or texts, of format 4
NUMBER_FILES = {name: row for name, row in LIMIT_FILES.items() if row.range}
TEXT_FILES = {name: row for name, row in LIMIT_FILES.items() if not row.range}
# by the settings that bring them, the limit files that have one number by these
BY_SETTING: Dict[str, str] = {row.setting: row.name for row in LIMITS if row.setting and row.form is Form.NUMBER}
# those that bound how much is below a cgroup, and what each counts
COUNTING: Dict[str, str] = {row.name: row.counts for row in LIMITS if row.counts}

# Documentation/admin-guide/cgroup-v2.rst, "Core Interface Files" and "Controllers": all that isn't in LIMITS
NAMES: Dict[Kind, Tuple[str, ...]] = {
    Kind.TELLS: (
        "cgroup.controllers", "cgroup.events", "cgroup.stat", "cgroup.stat.local",
        "cpu.pressure", "cpu.stat", "cpu.stat.local",
        "cpuset.cpus.effective", "cpuset.cpus.exclusive.effective", "cpuset.cpus.isolated", "cpuset.mems.effective",
        "dmem.capacity", "dmem.current",
        "hugetlb.SIZE.current", "hugetlb.SIZE.events", "hugetlb.SIZE.events.local", "hugetlb.SIZE.numa_stat",
        "hugetlb.SIZE.rsvd.current",
        "io.pressure", "io.stat", "irq.pressure",
        "memory.current", "memory.events", "memory.events.local", "memory.numa_stat", "memory.peak", "memory.pressure",
        "memory.stat", "memory.swap.current", "memory.swap.events", "memory.swap.peak", "memory.zswap.current",
        "misc.capacity", "misc.current", "misc.events", "misc.events.local", "misc.peak",
        "pids.current", "pids.events", "pids.events.local", "pids.peak",
        "rdma.current", "rdma.events", "rdma.events.local", "rdma.peak"),
    Kind.ACTS: ("cgroup.kill",),
    Kind.DELEGATED: (*CONTROL_FILES, "cgroup.threads", "memory.reclaim"),
}
KINDS: Dict[str, Kind] = {**{row.name: row.kind for row in LIMITS}, **{name: kind for kind, names in NAMES.items() for name in names}}
# the kernel's own list of what is made to be delegated, and what stands there where it has none
KERNEL_LIST = "/sys/kernel/cgroup/delegate"
USUAL_LIST = tuple(sorted(name for name, kind in KINDS.items() if kind is Kind.DELEGATED))
# the controllers that have limits
OF_LIMITS = frozenset(row.controller for row in LIMITS if row.kind is Kind.LIMIT and row.controller)
# of those by which something is set, the ones that can't be read, or that list what isn't a value
WITHOUT_VALUE = ("cgroup.kill", *NAMES[Kind.DELEGATED])
# files of the kind that tells which a manager hands to whoever wants to be woken
PRESSURE = tuple(name for name in NAMES[Kind.TELLS] if name.endswith(".pressure"))


def in_tables(file: str) -> str:
    """A file's name as it stands in the tables."""
    controller, *rest = file.split(".")
    return ".".join([controller, SIZE, *rest[1:]]) if controller == "hugetlb" and rest else file


def kind_of(file: str) -> Optional[Kind]:
    """What a file is by its name; None for a name that isn't known."""
    return KINDS.get(in_tables(file))


def is_known(file: str) -> bool:
    return kind_of(file) is not None


@lru_cache(maxsize=1024)
def may_set(file: str) -> bool:
    """Whether something is, or may be, set by writing a file. Of a name that isn't known the kernel's mode tells."""
    return kind_of(file) is not Kind.TELLS


def is_other_limit(file: str) -> bool:
    """Whether something is set by a file that isn't in every text."""
    return is_known(file) and may_set(file) and file not in CONTROL_FILES and file not in NUMBER_FILES


def standing(enabled: Collection[str]) -> List[str]:
    """The limit files of every text that stand below a cgroup that enables some controllers."""
    return [file for file, row in NUMBER_FILES.items() if row.is_brought_by(enabled)]


def setting_of(file: str) -> Optional[str]:
    """The setting of a unit that brings a file's value back."""
    return BY_NAME[file].setting if file in BY_NAME else None


def usual_of(file: str) -> Union[int, str]:
    """What a file has where nobody set it; of a name that isn't known by its ending."""
    row = BY_NAME.get(in_tables(file))
    return row.usual if row else {"max": "max", "high": "max", "min": "0", "low": "0"}.get(file.rpartition(".")[2], "")


def is_usual(file: str, value: Union[int, str, None]) -> bool:
    """Whether a limit is as it is where nobody has set it."""
    usual, row = usual_of(file), BY_NAME.get(file)
    if file in NUMBER_FILES:
        return value == usual
    if row and row.is_keyed:
        return all(word.rpartition("=")[2] == usual for line in str(value or "").splitlines() for word in line.split()[1:])
    is_none = usual == "max" and str(value).isdigit() and int(value or 0) >= NO_LIMIT
    return is_none or value in (None, "", usual)


def accepts(file: str, value: Union[int, str]) -> bool:
    """Whether a limit file whose value is a number, or max, may have one."""
    taken = NUMBER_FILES[file].range or USUAL_RANGE
    return value == "max" and taken.takes_max if isinstance(value, str) else taken.least <= value <= taken.greatest
