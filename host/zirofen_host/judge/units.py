"""From units to the changes that their manager makes to a tree when it starts them, and what isn't known of these."""
import re
from collections import Counter
from dataclasses import dataclass, field
from typing import Callable, Dict, Iterable, Iterator, List, Mapping, Optional, Sequence, Set, Tuple

from zirofen_host.ask.questions import unit_of
from zirofen_host.collect.accounts import is_id
from zirofen_host.collect.model import AccountLists, Snapshot
from zirofen_host.collect.unit_files import UnitFile, filled, specifiers
from zirofen_host.fault import Fault
from zirofen_host.files import (
    BY_SETTING, CONTROL_FILES, CONTROLLERS, HANDED_OVER, NUMBER_FILES, PAGE, TEXT_FILES, USUAL_LIST, accepts, standing)
from zirofen_host.profile import LARGEST_PID, ROOT, CgroupPath, ancestors, is_name, is_root, parent_of, path_of, text_of

SERVICE, SLICE = "service", "slice"
# what a manager of this version and of newer ones knows: subgroups, and giving a unit to a group alone
SUBGROUPS = 254
# handed over with a delegated unit; where the cgroup above enables memory what is in OF_MEMORY, too
DELEGATED = (*HANDED_OVER, "cgroup.threads")
OF_MEMORY = tuple(file for file in USUAL_LIST if file.startswith("memory."))
# of a subgroup all of its files are, and these are limits
OF_A_SUBGROUP = tuple(standing(()))
# uids that a manager takes for users that are there while a service runs
DYNAMIC = range(61184, 65520)
FACTORS = {"": 1, "B": 1, "K": 2**10, "M": 2**20, "G": 2**30, "T": 2**40, "P": 2**50, "E": 2**60}
YES, NO = ("1", "yes", "y", "true", "t", "on"), ("0", "no", "n", "false", "f", "off")
# the limit file that each setting sets, with what it is in
LIMITS: Dict[str, str] = {setting: file for setting, file in BY_SETTING.items() if file in NUMBER_FILES}
# the controllers that a manager enables, all of them for a unit with Delegate=yes; and the settings for which it enables some
MANAGED = ("cpuset", "cpu", "io", "memory", "pids")
ENABLING = {"cpuset": re.compile(r"(Startup)?Allowed(CPUs|MemoryNodes)\Z"), "cpu": re.compile(r"(Startup)?CPU(Weight|Shares|Quota)"),
            "io": re.compile(r"(Startup)?(Block)?IO(?!Scheduling|Accounting)")}
# settings of what a cgroup has or who runs in it, which this can't tell; others have no bearing on owners, modes and limits
CONTROLLED = re.compile(r"CPU(?!Scheduling|Affinity)|Memory(?!DenyWriteExecute|KSM|THP)|IO(?!Scheduling)|BlockIO|Tasks|Allowed|Startup|"
                        r"DefaultMemory|DefaultStartup|ManagedOOM|DisableControllers|OOMPolicy")
ACCOUNTING = re.compile(r"(CPU|Memory|IO|BlockIO|Tasks)Accounting\Z")
RUNNING = ("PAMName", "SupplementaryGroups", "AmbientCapabilities", "PermissionsStartOnly", "PrivateUsers")
CARRIED_OUT = {"User", "Group", "DynamicUser", "Delegate", "DelegateSubgroup", "Slice", *LIMITS}
_SIZE = re.compile(r"([0-9]+)\s*([BKMGTPE]?)\Z")
_SLICE = re.compile(r"[A-Za-z0-9:_.\\-]+\.slice\Z")
_WORD = re.compile(r"[!-~]+\Z")
# what the answers lack where it isn't known: who else runs there, and with what
UNANSWERED = ("PAMName", "SupplementaryGroups", "AmbientCapabilities", "PermissionsStartOnly", "User", "Group", "Delegate", "Slice")
# programs that carry out a script
INTERPRETERS = re.compile(r"(ba|da|k|z|fi)?sh|env|python[0-9.]*|perl|ruby|lua|awk|busybox")
SCRIPT = re.compile(r".*\.(sh|py|pl|rb|lua)\Z")
NSPAWN = "systemd-nspawn"
_PREFIX = re.compile(r"[-@:|!+]*")
# a command that root carries out; !! does so on kernels alone that nobody has any more
_AS_ROOT = re.compile(r"[-@:|]*(\+|!(?!!))")


# a change, as the words of a line
Words = Tuple[str, ...]


@dataclass
class Plan:
    """The lines for some units, and what of these isn't known."""
    snapshot: Snapshot
    accounts: AccountLists
    systemd: int
    # what further specifiers stand for
    known: Mapping[str, str] = field(default_factory=dict)
    # reads a slice that a unit brings
    slices: Callable[[str], Optional[UnitFile]] = lambda _: None
    # begins with what makes a file a script
    is_script: Callable[[str], bool] = lambda _: False
    lines: List[Words] = field(default_factory=list)
    named: List[str] = field(default_factory=list)
    # what of that may give entries away
    may_give: List[str] = field(default_factory=list)
    # the controllers that each cgroup enables
    enabled: Dict[CgroupPath, Set[str]] = field(default_factory=dict)
    taken: Set[int] = field(default_factory=set)
    pids: Set[int] = field(default_factory=set)

    def __post_init__(self) -> None:
        tree = self.snapshot.tree
        self.enabled = {path: set(row.enabled) for path, row in tree.rows.items()}
        entries = (entry for row in tree.rows.values() for entry in (row.directory, *row.files.values()))
        self.taken = {entry.uid for entry in entries} | {each.uid for each in self.accounts.accounts}
        self.taken |= {each.uid for each in tree.processes}
        self.pids = {each.pid for each in tree.processes}

    def change(self, *words: str) -> None:
        """One more change, each word of which stays one in a line."""
        if not all(map(_WORD.match, words)):
            raise Fault(f"no change can be written with {' '.join(words)!a}: a word has printable ASCII alone, and no blank")
        self.lines.append(words)

    @property
    def can_carry(self) -> bool:
        """Whether there is a place for what a tree text alone has none for."""
        return self.snapshot.source.file is None or self.snapshot.source.carried is not None

    def text_files(self, path: CgroupPath) -> List[str]:
        """The limit files of format 4 that a text has of a cgroup, as far as the cgroup above still brings them."""
        row, parent = self.snapshot.tree.rows.get(path), parent_of(path)
        brought = self.enabled[parent] if parent else ()
        return [file for file in row.text_files if TEXT_FILES[file].is_brought_by(brought)] if row else []

    def cgroup(self, path: CgroupPath) -> None:
        """A cgroup is there, and all above it; files of one that was there are as a new one's."""
        for place in [*reversed(list(ancestors(path))), path]:
            if place not in self.enabled:
                self.change("mkdir", text_of(place))
                self.enabled[place] = set()

    def enable(self, path: CgroupPath, controllers: Iterable[str]) -> None:
        """Each cgroup above one enables these controllers, as far as the root has them."""
        wanted = set(controllers) & set(self.snapshot.tree.controllers)
        for place in reversed(list(ancestors(path))):
            more = [name for name in CONTROLLERS if name in wanted - self.enabled[place]]
            if more:
                self.change("control", text_of(place), *(f"+{name}" for name in more))
                self.enabled[place].update(more)

    def usual_tasks(self) -> Optional[str]:
        """The pids.max that most services have, where some have the same."""
        rows = self.snapshot.tree.rows.items()
        counts = Counter(row.values.get("pids.max") for path, row in rows if (unit_of(path) or "").endswith(".service"))
        [(value, count)] = counts.most_common(1) or [(None, 0)]
        return str(value) if isinstance(value, int) and count > 1 else None

    def uid_for_nobody(self) -> int:
        uid = next(each for each in DYNAMIC if each not in self.taken)
        self.taken.add(uid)
        return uid

    def pid(self) -> int:
        pid = next(each for each in range(LARGEST_PID, 0, -1) if each not in self.pids)
        self.pids.add(pid)
        return pid


@dataclass(frozen=True)
class Started:
    """A unit on its way into a plan."""
    plan: Plan
    unit: UnitFile
    known: Mapping[str, str]

    def name_it(self, setting: str, value: str, why: str, may_give: bool = False) -> None:
        self.plan.named.append(f"{self.unit.name.text}: {setting}={value}: {why}")
        if may_give:
            self.plan.may_give.append(self.plan.named[-1])

    def value(self, setting: str) -> Optional[str]:
        """The last value of a setting, with its specifiers replaced."""
        last = self.unit.last(setting)
        found = None if last is None else filled(last, self.known)
        if last is not None and found is None:
            self.name_it(setting, last, "a specifier that isn't known here", setting in UNANSWERED)
        return found

    def flag(self, setting: str) -> bool:
        value = self.value(setting)
        if value is not None and value.lower() not in (*YES, *NO):
            self.name_it(setting, value, "neither yes nor no")
        return value is not None and value.lower() in YES

    def slice(self) -> CgroupPath:
        """The cgroup of the slice that it is in."""
        name = self.unit.name
        if name.kind == SLICE:
            return slice_path(name.text)
        given = self.value("Slice")
        if given and not _SLICE.match(given):
            self.name_it("Slice", given, "no name of a slice")
            given = None
        usual = "system.slice" if name.instance is None else f"system-{escaped(name.prefix)}.slice"
        return slice_path(given or usual)

    def path(self) -> CgroupPath:
        if self.unit.name.kind == SLICE:
            return self.slice()
        above = self.slice()
        return path_of(f"{'' if is_root(above) else text_of(above)}/{cgroup_name(self.unit.name.text)}")

    def delegated(self) -> Optional[Set[str]]:
        """The controllers that are delegated with it, or None where it isn't."""
        found: Optional[Set[str]] = None
        for value in self.unit.of("Delegate"):
            if value.lower() in YES:
                found = set(MANAGED)
            elif value.lower() in NO:
                found = None
            else:
                found = (found or set()) | set(value.split()) if value else set()
        return found if self.unit.name.kind == SERVICE else None

    def user(self) -> Tuple[Optional[int], Optional[int]]:
        """Whose the service's processes are: of root's neither."""
        if self.flag("DynamicUser"):
            stands = self.plan.uid_for_nobody()
            if self.unit.last("User"):
                self.name_it("User", str(self.unit.last("User")), f"a dynamic user's name: uid {stands} is in its place")
            return stands, stands
        user, group = self.value("User"), self.value("Group")
        uid, gid = self.account(user) if user else (None, None)
        if group:
            gid = next((each.gid for each in self.plan.accounts.groups if each.name == group), int(group) if is_id(group) else None)
            if gid is None:
                self.name_it("Group", group, "no group that is known")
        return uid, gid

    def account(self, user: str) -> Tuple[Optional[int], Optional[int]]:
        for each in self.plan.accounts.accounts:
            if user in (each.name, str(each.uid)):
                return each.uid, each.gid
        if is_id(user):
            return int(user), int(user)
        if user == "root":
            return 0, 0
        self.name_it("User", user, "no account that is known: it is taken for one that isn't anybody else's")
        uid = self.plan.uid_for_nobody()
        return uid, uid

    def limits(self) -> Iterator[Tuple[str, str]]:
        """The limits that its settings bring, and for the others their defaults."""
        for setting, file in LIMITS.items():
            value = self.value(setting)
            number = None if value is None else of_text(file, value)
            if value is not None and number is None:
                self.name_it(setting, value, "no number that can be known here")
            if number is not None:
                yield file, number
            elif value is None and setting == "TasksMax" and self.unit.name.kind == SERVICE:
                usual = self.plan.usual_tasks()
                self.name_it(setting, "", "it isn't set, and so pids.max is the manager's DefaultTasksMax=, which isn't known"
                             + (f": {usual} is what other services have" if usual else ""))
                yield file, usual or "max"

    def controllers(self, delegated: Optional[Set[str]]) -> Set[str]:
        """What its slices have to enable for it."""
        wanted = set(delegated or ())
        wanted |= {name for name, setting in (("memory", "MemoryAccounting"), ("pids", "TasksAccounting"))
                   if (self.unit.last(setting) or "yes").lower() not in NO}
        wanted |= {name for name, setting in (("io", "IOAccounting"), ("io", "BlockIOAccounting"))
                   if (self.unit.last(setting) or "no").lower() in YES}
        wanted |= {str(NUMBER_FILES[file].controller) for setting, file in LIMITS.items() if self.is_limited(setting, file)}
        return wanted | {name for name, enabling in ENABLING.items() if any(enabling.match(each.name) for each in self.unit.settings)}

    def is_limited(self, setting: str, file: str) -> bool:
        """Whether it has a limit. Of processes a service has the manager's DefaultTasksMax=, where it says nothing."""
        value = self.unit.last(setting)
        if value is None:
            return setting == "TasksMax" and self.unit.name.kind == SERVICE
        return of_text(file, value) != str(NUMBER_FILES[file].usual)

    def start_slices(self, path: CgroupPath) -> None:
        """The slices that it brings, which aren't there yet, with what their files say."""
        missing = [place for place in reversed(list(ancestors(path))) if not is_root(place) and place not in self.plan.enabled]
        unread = []
        for place in missing:
            name = text_of(place).rpartition("/")[2]
            unit = self.plan.slices(name)
            if unit is None:
                unread.append(name)
            else:
                Started(self.plan, unit, specifiers(unit.name, self.plan.known)).start()
        if unread:
            self.plan.named.append(f"{self.unit.name.text}: of {' '.join(unread)} no file is read with --tree: name it with --unit")

    def start(self) -> None:
        path, delegated = self.path(), self.delegated()
        self.start_slices(path)
        was_there = path in self.plan.enabled
        if was_there and self.unit.name.kind == SERVICE:
            self.plan.named.append(f"{self.unit.name.text}: {text_of(path)} is there already: its files are planned as those of a new "
                                   "one, and what is inside stays as it is")
        self.plan.cgroup(path)
        self.plan.enable(path, self.controllers(delegated))
        parent = parent_of(path)
        files = standing(self.plan.enabled[parent]) if parent else []
        if was_there and self.unit.name.kind == SERVICE:
            named = self.plan.text_files(path)
            for name in ("dir", *CONTROL_FILES, *files, *named):
                self.plan.change("chown", text_of(path), name, "0:0")
                self.plan.change("chmod", text_of(path), name, "755" if name == "dir" else "644")
            for file in files:
                self.plan.change("set", text_of(path), file, str(NUMBER_FILES[file].usual))
        for file, number in self.limits():
            if file in files:
                self.plan.change("set", text_of(path), file, number)
        if self.unit.name.kind == SERVICE:
            self.run(path, delegated is not None)
        self.tell_the_rest()

    def run(self, path: CgroupPath, is_delegated: bool) -> None:
        """Who runs in it, and what is handed over to them."""
        uid, gid = self.user()
        subgroup = self.value("DelegateSubgroup")
        if subgroup and not (subgroup.isascii() and is_name(subgroup.encode())):
            self.name_it("DelegateSubgroup", subgroup, "no name of a cgroup")
            subgroup = None
        if subgroup and self.plan.systemd < SUBGROUPS:
            self.name_it("DelegateSubgroup", subgroup, f"systemd {self.plan.systemd} doesn't know it")
            subgroup = None
        places = [path]
        if is_delegated:
            if self.plan.can_carry:
                self.plan.change("mark", text_of(path))
            if subgroup:
                places.append(path_of(f"{text_of(path)}/{subgroup}"))
                self.plan.cgroup(places[-1])
            is_given = uid is not None or gid is not None and self.plan.systemd >= SUBGROUPS
            for place in places if is_given else ():
                names = self.handed_over(place, place != path)
                for name in names:
                    self.plan.change("chown", text_of(place), name, f"{uid or 0}:{gid or 0}")
        commands = self.unit.listed("ExecStart")
        if commands:
            runs_as_root = all(map(_AS_ROOT.match, commands))
            self.plan.change("process", str(self.plan.pid()), str(0 if runs_as_root else uid or 0), text_of(places[-1]))

    def handed_over(self, path: CgroupPath, is_subgroup: bool) -> Iterator[str]:
        """The entries of a cgroup that are given to whoever runs in it, as far as the text has a place for them."""
        has_memory = "memory" in self.plan.enabled[parent_of(path) or ROOT]
        for name in (*DELEGATED, *(OF_MEMORY if has_memory else ()), *(OF_A_SUBGROUP if is_subgroup else ())):
            if self.plan.can_carry or name in ("dir", *CONTROL_FILES, *NUMBER_FILES):
                yield name

    def tell_the_rest(self) -> None:
        """Each setting of what it has or who runs in it that can't be known here."""
        for _, name, value, *_ in self.unit.settings:
            if not value or name in CARRIED_OUT or ACCOUNTING.match(name):
                continue
            if name.startswith("Exec"):
                self.tell_of_command(name, value)
            elif CONTROLLED.match(name):
                self.name_it(name, value, "no limit that a tree text carries")
            elif name in RUNNING:
                self.name_it(name, value, "what it makes of who runs there isn't known", name in UNANSWERED)
        if self.is_roots and self.delegated() is not None:
            self.name_it("Delegate", str(self.unit.last("Delegate") or ""), "what root's command hands over inside isn't known", True)

    @property
    def is_roots(self) -> bool:
        """Whether its commands are root's: it names nobody else."""
        named = [self.unit.last(name) for name in ("User", "DynamicUser")]
        return self.unit.name.kind == SERVICE and named[0] in (None, "root", "0") and str(named[1] or "no").lower() in NO

    def tell_of_command(self, name: str, value: str) -> None:
        """A command that root carries out, and of which it isn't known whether it gives entries away."""
        words = _PREFIX.sub("", value, count=1).split()
        program = words[0].rpartition("/")[2] if words else ""
        if program == NSPAWN and any(word == "-U" or word.startswith("--private-users") and not word.endswith("=no") for word in words):
            self.name_it(name, value, "what runs inside is handed to another uid", True)
        elif _AS_ROOT.match(value):
            self.name_it(name, value, "root carries it out, and what it does isn't known", True)
        elif self.is_roots and (self.plan.snapshot.mount in value or INTERPRETERS.fullmatch(program) or SCRIPT.match(program)
                                or words and self.plan.is_script(words[0])):
            self.name_it(name, value, "a script or a command that root carries out, and what it does isn't known", True)


def escaped(prefix: str) -> str:
    """A unit's prefix as a part of a slice's name."""
    return prefix.replace("-", "\\x2d")


def cgroup_name(unit: str) -> str:
    """The cgroup of a unit; a name that might be one of the kernel's begins with _."""
    is_file = unit[:1] in ("_", ".") or unit.startswith(("cgroup.", "notify_on_release", "release_agent", "tasks"))
    return f"_{unit}" if is_file or unit.partition(".")[0] in ("cpu", "cpuset", "io", "memory", "pids", "hugetlb", "rdma", "misc") else unit


def slice_path(name: str) -> CgroupPath:
    """The cgroup of a slice, which stands in those that its name begins with."""
    stem = name[:-len(".slice")]
    if stem == "-":
        return ROOT
    parts = stem.split("-")
    if not all(parts):
        raise Fault(f"{name!a} is no name of a slice")
    return path_of("".join(f"/{'-'.join(parts[:count])}.slice" for count in range(1, len(parts) + 1)))


def of_text(file: str, value: str) -> Optional[str]:
    """What a limit file has where a unit has a value; None for a share of what the host has, and for what is no number."""
    if value == "infinity":
        return "max" if accepts(file, "max") else None
    found = _SIZE.match(value)
    if found is None or found[2] and not file.startswith(("memory.", "pids.")):
        return None
    number = int(found[1]) * FACTORS[found[2]]
    return str(number // PAGE * PAGE if file.startswith("memory.") else number)


def planned(snapshot: Snapshot, accounts: AccountLists, units: Sequence[UnitFile], systemd: int, known: Mapping[str, str],
            slices: Callable[[str], Optional[UnitFile]] = lambda _: None, is_script: Callable[[str], bool] = lambda _: False) -> Plan:
    """The changes that starting units comes to, one after another, slices first; and what of them isn't known."""
    plan = Plan(snapshot, accounts, systemd, known, slices, is_script)
    in_turn: Callable[[UnitFile], bool] = lambda unit: unit.name.kind != SLICE
    for unit in sorted(units, key=in_turn):
        Started(plan, unit, specifiers(unit.name, known)).start()
    return plan
