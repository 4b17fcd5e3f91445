"""From findings to what mends them so that it stays: entries are given back, and limits get what root's settings say.

No drop-in is written. What a file of a cgroup has says nothing of who wrote it, and an entry that was taken back by one script is root's
at the next: a setting that would keep such a value, or hand something over for good, is given with its reason.
"""
import re
import shlex
from collections import defaultdict
from dataclasses import dataclass, replace
from typing import Callable, DefaultDict, Dict, Iterable, Iterator, List, Mapping, Optional, Sequence, Tuple, Union

from zirofen_host.arguments import MENDS
from zirofen_host.ask.guards import OVER, UNKNOWN
from zirofen_host.collect.notes import FAILED
from zirofen_host.collect.model import OWNER
from zirofen_host.files import BY_NAME, COUNTING, HANDED_OVER, LIMIT_FILES, NUMBER_FILES, PERIOD, TEXT_FILES, Form, is_usual, setting_of
from zirofen_host.judge.finding_lines import whom_text
from zirofen_host.judge.host_model import ABSENT, Absent, ReportCgroup, Wanted
from zirofen_host.judge.model import Report
from zirofen_host.judge.notes import Restart
from zirofen_host.judge.rules import (ACCEPTABLE, DIFFERS, NOTHING_ASKED, OPENED, OPENED_DIRECTORY, ROOT_HELD, ROOT_INSIDE, VERSION_1,
                                      Finding)
from zirofen_host.judge.shell import place as place_of
from zirofen_host.judge.wanted import IDLE, OF_ALL, LostLimit, files_with, is_decided, is_same, unit_at, written
from zirofen_host.profile import is_root, parent_of, path_of, tree_order

# the kinds of mends that are written
KINDS = MENDS
SHELL = KINDS[1]
# a drop-in's name, which stands behind those that systemctl set-property writes
DROP_IN = "60-zirofen.conf"
SERVICE, SLICE = "Service", "Slice"
DELEGATE = "Delegate=yes"
CONTROL = "cgroup.subtree_control"
NOT_FOUND = "nothing that was read gives it away"
NOT_LOOKED = "no file of the host was looked at for what gives it away"
# what is said of what has no entry
ELSE: Dict[str, str] = {
    VERSION_1: "boot with systemd.unified_cgroup_hierarchy=1",
    NOTHING_ASKED: "nothing is to mend where nobody was handed anything; marks are seen by root alone",
    "acceptance": "mend the finding, or look at it anew and write down what is accepted now",
    FAILED: "run it as root, on the host and outside of containers"}
NO_ANSWER = "no file of this host mends that: the line says why there is no answer"
_NUMBER = re.compile(r"[0-9]+")
_QUOTA = re.compile(r"([0-9]+) ([1-9][0-9]*)")
_LIST = re.compile(r"[0-9][0-9,-]*")


@dataclass(frozen=True)
class Unit:
    """A unit of the system's manager: a service or a slice, or a scope, which has no file."""
    name: str

    @property
    def section(self) -> Optional[str]:
        return SERVICE if self.name.endswith(".service") else SLICE if self.name.endswith(".slice") else None

    @property
    def drop_in(self) -> str:
        return f"/etc/systemd/system/{self.name}.d/{DROP_IN}"


@dataclass(frozen=True)
class Withheld:
    """Settings of a unit that aren't written, and why."""
    unit: Unit
    settings: Tuple[str, ...]
    why: str


@dataclass(frozen=True)
class Mend:
    """What mends what is found at one cgroup."""
    # the findings, or what else is reported
    lines: Tuple[str, ...]
    # commands that mend it now
    changes: Tuple[str, ...]
    # what stays, in words
    remarks: Tuple[str, ...]
    withheld: Tuple[Withheld, ...] = ()


def of_number(setting: str, value: str) -> List[str]:
    return [f"{setting}={'infinity' if value == 'max' else value}"] if value == "max" or _NUMBER.fullmatch(value) else []


def of_quota(setting: str, value: str) -> List[str]:
    """cpu.max as a share of one processor, and its period where that isn't the usual one."""
    found = _QUOTA.fullmatch(value)
    if found is None:
        return []
    quota, period = int(found[1]), int(found[2])
    share = f"{quota * 100 / period:.2f}".rstrip("0").rstrip(".")
    return [f"{setting}={share}%", *([] if period == PERIOD else [f"CPUQuotaPeriodSec={period}us"])]


def of_idle(setting: str, value: str) -> List[str]:
    return [f"{setting}={IDLE}"] if value == "1" else []


def of_weight(setting: str, value: str) -> List[str]:
    """The weight for all devices, where none has another."""
    number = value[len(OF_ALL):]
    return [f"{setting}={number}"] if value.startswith(OF_ALL) and _NUMBER.fullmatch(number) else []


def of_list(setting: str, value: str) -> List[str]:
    """A list in place of the unit's own, which a manager would add it to."""
    return [f"{setting}=", f"{setting}={value}"] if _LIST.fullmatch(value) else []


# what brings the value of a limit file
BRINGS: Dict[Form, Callable[[str, str], List[str]]] = {
    Form.NUMBER: of_number, Form.SHARE: of_quota, Form.IDLE: of_idle, Form.WEIGHT: of_weight, Form.LIST: of_list}


def settings_for(file: str, row: Optional[ReportCgroup]) -> List[str]:
    """The settings that bring what a file has now; none where nobody set it, and where it isn't known."""
    return settings_of(file, value_in(row, file))


def settings_of(file: str, value: Union[int, str, None]) -> List[str]:
    setting = setting_of(file)
    if not setting or value is None or is_usual(file, value):
        return []
    form = BY_NAME[file].form
    return BRINGS[form](setting, " ".join(str(value).split())) if form in BRINGS else []


@dataclass(frozen=True)
class Place:
    """A cgroup with what is found there."""
    path: str
    report: Report
    rows: Mapping[str, ReportCgroup]
    found: Sequence[Finding]
    # the limits that its next start doesn't bring back
    restarts: Sequence[Restart]

    @property
    def row(self) -> Optional[ReportCgroup]:
        return self.rows.get(self.path)

    @property
    def unit(self) -> Optional[Unit]:
        name = unit_at(self.path)
        return Unit(name) if name is not None else None

    @property
    def wanted(self) -> Mapping[str, Wanted]:
        """What root's settings say of its limits."""
        return self.report.wanted.get(self.path, {})

    @property
    def files(self) -> List[str]:
        """The limit files that a setting might keep: those of the findings, and those that the next start doesn't bring back."""
        return sorted({*(each.entry for each in self.found), *self.gone})

    @property
    def gone(self) -> Mapping[str, LostLimit]:
        """The limits that the next start doesn't bring back, by their files."""
        return {limit.file: limit for restart in self.restarts for limit in restart.limits}

    def value(self, file: str) -> Union[int, str, None]:
        """What a file has; of one that is root's alone, which the report's rows don't have, what its unit's next start loses."""
        found = value_in(self.row, file)
        return self.gone[file].value if found is None and file in self.gone else found

    @property
    def owner(self) -> Optional[str]:
        """To whom a service was handed by somebody else than the manager."""
        whom = {each.name for found in self.found if found.rule.id in (OPENED, OPENED_DIRECTORY) and found.entry in HANDED_OVER
                for each in found.whom if each.by == OWNER}
        return whom.pop() if self.unit and self.unit.section == SERVICE and len(whom) == 1 else None

    def is_brought(self, file: str) -> bool:
        """Whether the settings say what a limit has."""
        wanted = self.wanted.get(file)
        return wanted is not None and is_decided(file, self.value(file), wanted)

    def changes(self) -> Tuple[str, ...]:
        """What takes the entries back, and then what writes again what root's settings say of limits that were open: somebody may write
        one between the check and that."""
        taken = dict.fromkeys(change for each in self.found for change in each.changes)
        restored = [command for each in self.found for file in files_with(each.entry)
                    for command in restoring(self.report, self.rows, self.path, file)]
        if any(each.entry == CONTROL for each in self.found):
            restored += restored_below(self.report, self.rows, self.path)
        return tuple(dict.fromkeys([*(each for each in taken if each not in restored), *restored]))

    def withheld(self) -> Iterator[Withheld]:
        """The settings that would keep what stands now, and aren't written."""
        if self.unit is None or not self.unit.section:
            return
        if self.owner:
            yield Withheld(self.unit, (DELEGATE,), (
                f"it hands the cgroup over for good, which no file of root's is known to say. Where it is meant for {self.owner}, whom "
                f"User= has to name, {DELEGATE} hands over the directory, cgroup.procs and cgroup.subtree_control, and no limit file"))
        for why, files in self.why_withheld():
            settings = tuple(dict.fromkeys(setting for file in files if not self.is_brought(file)
                                           for setting in settings_of(file, self.value(file))))
            if settings:
                yield Withheld(self.unit, settings, why)

    def why_withheld(self) -> Iterator[Tuple[str, List[str]]]:
        """The limit files whose values of now aren't written, by the reason."""
        opened = [each for each in self.found if each.entry in self.files and (each.entry in LIMIT_FILES)]
        by_whom = dict.fromkeys(whom_text(each.whom) for each in opened)
        for whom in by_whom:
            yield (f"it is the value of now, which {whom} could write", [each.entry for each in opened if whom_text(each.whom) == whom])
        known = {each.entry for each in opened}
        yield ("it is the value of now, and a cgroup's file doesn't say who wrote it: what was open and taken back is root's too",
               [file for file in self.files if file not in known])

    def remarks(self) -> Iterator[str]:
        """What stays, in words."""
        entries = {each.entry for each in self.found if each.rule.id in ACCEPTABLE}
        if OVER in entries:
            yield (f"no setting of a unit brings {' and '.join(COUNTING)}: what sets them has to at each start, before anything is made "
                   "inside, as ExecStartPre=+")
        if UNKNOWN in entries:
            yield "nothing is known to make it: report it"
        if entries - {OVER, UNKNOWN} or any(each.rule.id == DIFFERS for each in self.found):
            yield from self.remarks_on_causes()
        yield from self.remarks_on_settings()
        if any(setting_of(file) and not settings_for(file, self.row) and is_set(file, self.row) for file in self.files):
            yield "a setting brings a limit of a device by its name, which a cgroup doesn't have: set it by hand in the unit"
        if self.restarts and not any(map(setting_of, self.gone)):
            yield "no setting brings these limits: what sets them has to at each start, as ExecStartPost=+"

    def remarks_on_causes(self) -> Iterator[str]:
        """What gives the entries away, as far as it was looked for and found."""
        looked = [each.causes for each in self.found if not isinstance(each.causes, Absent)]
        causes = dict.fromkeys(cause for of in looked for cause in of)
        yield from (f"has it: {cause}" for cause in causes)
        if not causes:
            paths = {each.path for each in self.found}
            unit = self.unit if len(paths) < 2 else Unit(f"these {len(paths)} scopes")
            yield f"{NOT_FOUND if looked else NOT_LOOKED}. {where_to_look(self.path, unit)}"

    def remarks_on_settings(self) -> Iterator[str]:
        """What root's settings say of the limits."""
        limits = [file for file in self.files if setting_of(file) and (is_in(file, self.row) or file in self.gone)]
        own = dict.fromkeys(self.wanted[file].setting for file in limits if file in self.wanted and self.wanted[file].is_set)
        if own and self.unit:
            yield f"{' '.join(own)} of {self.unit.name} says it, and its next start brings it: no drop-in is wanted"
        if limits and self.unit and self.unit.section and self.found and not self.wanted:
            yield f"what the settings of {self.unit.name} say isn't known here: its next start brings that, and no value is written"


def value_in(row: Optional[ReportCgroup], file: str) -> Union[int, str, None]:
    """What a file has; nothing where it isn't known."""
    found = row.files.get(file) if row else None
    return None if found is None or isinstance(found.value, Absent) else found.value


def is_in(file: str, row: Optional[ReportCgroup]) -> bool:
    return row is not None and file in row.files


def is_set(file: str, row: Optional[ReportCgroup]) -> bool:
    """Whether a file has a value that somebody set."""
    value = value_in(row, file)
    return value is not None and not is_usual(file, value)


def restoring(report: Report, rows: Mapping[str, ReportCgroup], path: str, file: str) -> Iterator[str]:
    """What writes into a limit file what root's settings say. What nothing sets is written where somebody took more of a share."""
    wanted, row = report.wanted.get(path, {}).get(file), rows.get(path)
    if wanted is None or not is_in(file, row):
        return
    value = value_in(row, file)
    if is_decided(file, value, wanted) and (wanted.is_set or not is_same(file, value, wanted)):
        yield written(report.mount, path, file, wanted)


def restored_below(report: Report, rows: Mapping[str, ReportCgroup], path: str) -> Iterator[str]:
    """What brings back the limits of the units in a cgroup whose controllers somebody could take away: the controllers first, which bring
    their files as they are where nobody has set them."""
    if path not in rows:
        return
    above = rows.get(parent_of(path) or "")
    brought = set((above or rows[path]).enabled)
    units = [each for each in sorted(report.wanted) if parent_of(each) == path and each != path and each in rows]
    said = {each: [file for file, wanted in report.wanted[each].items() if wanted.is_set] for each in units}
    controllers = {of for files in said.values() for file in files if (of := controller_of(file))}
    lost = sorted(controllers.intersection(brought).difference(rows[path].enabled))
    if lost:
        yield f"echo {' '.join('+' + name for name in lost)} >{place_of(report.mount, path, CONTROL)}"
    for each in units:
        for file in said[each]:
            wanted = report.wanted[each][file]
            if is_in(file, rows[each]) or controller_of(file) in lost and not is_usual(file, wanted.value):
                yield written(report.mount, each, file, wanted)


def controller_of(file: str) -> Optional[str]:
    found = NUMBER_FILES.get(file) or TEXT_FILES.get(file)
    return found.controller if found else None


def where_to_look(path: str, unit: Optional[Unit]) -> str:
    """Where that is which gives an entry to somebody, by what its cgroup is."""
    if is_root(path):
        return "Look for chown and chmod of the mount in hooks and timers of root's; what was done by hand ends with the next boot"
    if unit is None:
        return f"Look for what makes {path}, and for chown and chmod in hooks and timers of root's"
    if unit.section == SERVICE:
        return (f"Look at ExecStartPre=+, ExecStartPost=+ and their like (systemctl cat {shlex.quote(unit.name)}), and at hooks "
                f"and timers of root's; what was done by hand ends when {unit.name} is started again")
    if unit.section == SLICE:
        return (f"Look at ExecStartPre=+ and ExecStartPost=+ of the units in {unit.name}, and at hooks and timers of root's; hand over a "
                "unit with Delegate= and not its slice, which stays as it is as long as anything runs in it")
    return (f"Look at the settings of whatever makes {unit.name}, as an engine of containers or a login does, and at its hooks; a scope "
            "has no file, and what was done by hand ends with it")


def mends_of(report: Report, found: Iterable[Finding]) -> Tuple[Mend, ...]:
    """What mends each thing that wasn't accepted, place by place; what somebody made below their own delegation stands last, once
    for each of them."""
    by_path: DefaultDict[str, List[Finding]] = defaultdict(list)
    made: DefaultDict[int, List[Finding]] = defaultdict(list)
    others: List[Finding] = []
    for each in found:
        # a container that is held needs no mend
        if each.accepted is not ABSENT or each.rule.id == ROOT_HELD:
            continue
        if not isinstance(each.within, Absent) and each.path not in report.wanted:
            made[each.within].append(each)
        elif each.rule.id in (*ACCEPTABLE, DIFFERS):
            by_path[each.path].append(each)
        else:
            others.append(each)
    restarts: DefaultDict[str, List[Restart]] = defaultdict(list)
    for note in report.unseen:
        if isinstance(note.note, Restart):
            restarts[note.place].append(note.note)
    rows: Mapping[str, ReportCgroup] = {} if isinstance(report.cgroups, Absent) else {each.path: each for each in report.cgroups}
    # what is above first: whoever writes it takes back what was written below
    places = [Place(path, report, rows, by_path.get(path, ()), restarts.get(path, ()))
              for path in sorted({*by_path, *restarts}, key=lambda each: tree_order(path_of(each)))]
    return (*map(mend_at, alike_together(places)), *(mend_of_maker(uid, each) for uid, each in sorted(made.items())),
            *(Mend((each.line,), each.changes, (ELSE.get(each.rule.id, NO_ANSWER),)) for each in others))


def alike_together(places: Iterable[Place]) -> Iterable[Place]:
    """Containers of root's of which nothing but one thing that lets them out is found, together where they are alike."""
    found: Dict[Tuple[object, ...], Place] = {}
    for place in places:
        first, scope = next(iter(place.found), None), place.unit and not place.unit.section
        key: Tuple[object, ...] = (place.path,)
        if first and first.rule.id == ROOT_INSIDE and scope and len(place.found) == 1 and not place.restarts:
            key = (first.entry, first.changes, first.setting)
        before = found.get(key)
        found[key] = place if before is None else replace(before, found=(*before.found, *place.found))
    return found.values()


def mend_at(place: Place) -> Mend:
    lines = (*(each.line for each in place.found), *(each.line for each in place.restarts))
    return Mend(lines, place.changes(), tuple(place.remarks()), tuple(place.withheld()))


def mend_of_maker(uid: int, found: Sequence[Finding]) -> Mend:
    """Of cgroups that somebody made themselves: no file of root's makes them."""
    count = f"{len(found)} findings" if len(found) > 1 else found[0].line
    return Mend((f"{count}, in what uid {uid} made below what was handed to them",) if len(found) > 1 else (count,),
                tuple(dict.fromkeys(change for each in found for change in each.changes)),
                ("they make these cgroups, and no file of this host's: what stays is theirs to mend",))
