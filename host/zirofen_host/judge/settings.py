"""From what systemctl says to the settings of units, and the limits that a unit's next start doesn't bring back.

Settings are asked for before and behind the walk, and what they don't agree on isn't used.
"""
import os
import shutil
import subprocess
from typing import Dict, Iterable, Iterator, List, Mapping, NamedTuple, Optional, Sequence

from zirofen_host import ending
from zirofen_host.collect.model import Snapshot, Value
from zirofen_host.collect.snapshot import value_of
from zirofen_host.fault import Fault
from zirofen_host.files import BY_SETTING, NUMBER_FILES, PAGE, Kind, is_usual, kind_of, setting_of
from zirofen_host.judge.notes import Restart
from zirofen_host.judge.wanted import PROPERTIES, LostLimit, Shown, wanted_by
from zirofen_host.judge.wanted import is_same as wanted_is_same
from zirofen_host.options import Options
from zirofen_host.profile import CgroupPath, shown, text_of

# by a unit's name, and by what a setting is called where it is asked for
Settings = Mapping[str, Shown]

# what is loaded of the units that have a cgroup
UNIT_PATTERNS = ("*.service", "*.slice", "*.scope")
# the cgroup that a unit has, which says that a path is its
CGROUP = "ControlGroup"
# the limit of which a setting says what share of a second it is, and how it begins where there is none
SHARE, NO_SHARE = "cpu.max", "max "
# that systemctl has, which asks the manager about unit after unit
SECONDS = 120
# what is named where it fails
ATTEMPT = "settings of units"


class Agreed(NamedTuple):
    """What the limits of a unit have, and its settings, which were the same before that and behind it."""
    unit: str
    values: Mapping[str, Optional[Value]]
    settings: Shown


def systemctl_of(options: Options) -> Optional[str]:
    """What tells the settings of this host's units, where there is one."""
    has_manager = not options.plain_folder and not options.tree and os.path.isdir("/run/systemd/system")
    return shutil.which("systemctl") if has_manager else None


def read(systemctl: Optional[str], units: Sequence[str] = UNIT_PATTERNS) -> Settings:
    """The settings of units; none where there is no manager. One that doesn't answer is a fault: what limits are to have isn't known."""
    if not systemctl or not units:
        return {}
    words = [systemctl, "show", f"--property=Id,{CGROUP},{','.join(PROPERTIES)}", "--", *units]
    try:
        said = ending.run(words, SECONDS)
    except subprocess.TimeoutExpired:
        raise Fault(f"systemctl show didn't answer within {SECONDS} seconds") from None
    if said.returncode and not said.stdout:
        raise Fault(f"systemctl show ended with {said.returncode}: {shown(said.stderr.strip().partition(chr(10))[0])}")
    blocks = [dict(line.split("=", 1) for line in block.splitlines() if "=" in line) for block in said.stdout.split("\n\n")]
    return {block["Id"]: block for block in blocks if block.get("Id")}


def agreed(before: Settings, behind: Settings) -> Settings:
    """What the settings of each unit were both times."""
    return {unit: dict(before[unit].items() & settings.items()) for unit, settings in behind.items() if unit in before}


def values_of(snapshot: Snapshot, path: CgroupPath) -> Dict[str, Optional[Value]]:
    """What the limits of a cgroup have: of the tree's at the walk, and of others now, with the share of processors whoever's it is."""
    carried = snapshot.tree.rows[path].values
    values: Dict[str, Optional[Value]] = {name: carried[name] for name in NUMBER_FILES if name in carried}
    others = {name for name in snapshot.cgroups[path].files if kind_of(name) is Kind.LIMIT and name not in NUMBER_FILES}
    values.update({name: value_of(snapshot, path, name) for name in sorted(others | {SHARE})})
    return values


def lost(values: Mapping[str, Optional[Value]], settings: Mapping[str, str]) -> List[LostLimit]:
    """The limits that a unit's next start doesn't bring back, each with why."""
    return [*different(values, settings), *unsettable(values)]


def different(values: Mapping[str, Optional[Value]], settings: Mapping[str, str]) -> Iterator[LostLimit]:
    wanted = wanted_by(settings)
    for name, file in BY_SETTING.items():
        value = values.get(file)
        if name in settings and value is not None and not is_same(settings[name], file, value):
            yield LostLimit(file, str(value), f"{name}={settings[name]}", wanted.get(file))
    brought = wanted.get(SHARE)
    quota = " ".join(str(values.get(SHARE) or "").split())
    if brought and quota and not wanted_is_same(SHARE, quota, brought) and (brought.is_set or not quota.startswith(NO_SHARE)):
        yield LostLimit(SHARE, quota, brought.setting if brought.is_set else "CPUQuota= isn't set", brought)


def unsettable(values: Mapping[str, Optional[Value]]) -> Iterable[LostLimit]:
    """Limits that are set and that no setting brings."""
    return (LostLimit(file, " ".join(str(value).split()), "no setting brings it") for file, value in values.items()
            if not setting_of(file) and not is_usual(file, value))


def is_same(setting: str, file: str, value: Value) -> bool:
    """Whether a setting, as systemctl tells it, is what a limit file has; memory is kept in whole pages."""
    if setting in ("infinity", "18446744073709551615"):
        return is_usual(file, value) or value == "max"
    if not setting.isascii() or not setting.isdigit() or len(setting) > 20:
        return is_usual(file, value)
    pages = PAGE if file.startswith("memory.") else 1
    return str(value).isdigit() and int(setting) // pages == int(value) // pages


def is_at(settings: Optional[Shown], path: CgroupPath) -> bool:
    """Whether settings are those of the unit that has a cgroup; a manager that doesn't tell it goes by its name."""
    return settings is not None and settings.get(CGROUP, text_of(path)) == text_of(path)


def agreed_at(snapshot: Snapshot, units: Mapping[CgroupPath, str], systemctl: Optional[str],
              before: Settings) -> Dict[CgroupPath, Agreed]:
    """The limits and the settings of the units that some cgroups are of. Values are read before the settings are asked for again."""
    known = {path: unit for path, unit in sorted(units.items()) if is_at(before.get(unit), path)}
    values = {path: values_of(snapshot, path) for path in known}
    found = agreed(before, read(systemctl, sorted(set(known.values()))))
    return {path: Agreed(unit, values[path], found[unit]) for path, unit in known.items() if is_at(found.get(unit), path)}


def restarts(found: Mapping[CgroupPath, Agreed]) -> Iterator[Restart]:
    """For each unit what goes at its next start."""
    for path, each in found.items():
        limits = lost(each.values, each.settings)
        if limits:
            yield Restart(text_of(path), each.unit, tuple(limits))
