"""Random hosts of units: what root's settings say of each, what root gave away by hand, what users wrote then, and what a script of mends
makes of it. The model of a manager is its own, and knows nothing of the helpers."""
import os
import random
import re
import shlex
from dataclasses import dataclass, field
from typing import NamedTuple

MARK = "trusted.delegate"
USERS, TEAM = (1000, 1001, 1002), 50
HANDED = ("dir", "cgroup.procs", "cgroup.subtree_control", "cgroup.threads")
CONTROLLERS = ("cpuset", "cpu", "io", "memory", "pids")


class Limit(NamedTuple):
    """A limit file: what brings it, its setting, how that is shown and what the file has where nothing is set, the like where something
    is, and what a user writes."""
    controller: str
    setting: str
    unset: tuple
    said: tuple
    written: tuple
    # more of it is more than root's settings say
    is_share: bool = False


SIZES = (("104857600", "104857600"), ("1073741824", "1073741824"))
MORE = ("943718400", "max", "4096")
LIMITS = {
    "memory.max": Limit("memory", "MemoryMax", ("infinity", "max"), SIZES, MORE),
    "memory.high": Limit("memory", "MemoryHigh", ("infinity", "max"), SIZES, MORE),
    "memory.low": Limit("memory", "MemoryLow", ("0", "0"), SIZES, MORE, True),
    "memory.min": Limit("memory", "MemoryMin", ("0", "0"), SIZES, MORE, True),
    "memory.swap.max": Limit("memory", "MemorySwapMax", ("infinity", "max"), (("0", "0"), *SIZES), MORE),
    "pids.max": Limit("pids", "TasksMax", ("1754", "1754"), (("40", "40"),), ("max", "9000", "1")),
    "cpu.weight": Limit("cpu", "CPUWeight", ("[not set]", "100"), (("50", "50"),), ("10000", "1"), True),
    "cpu.max": Limit("cpu", "CPUQuotaPerSecUSec", ("infinity", "max 100000"),
                     (("200ms", "20000 100000"), ("1s 500ms", "150000 100000")), ("max 100000", "900000 100000")),
    "io.weight": Limit("io", "IOWeight", ("[not set]", "default 100"), (("50", "default 50"),), ("default 10000", "default 1"), True),
    "cpuset.cpus": Limit("cpuset", "AllowedCPUs", ("", ""), (("0-3 6", "0-3,6"),), ("0-63", "0")),
    "cgroup.max.depth": Limit("", "", ("", "max"), (), ("1", "0"))}


@dataclass
class Place:
    """A unit's cgroup: to whom its settings hand it, what they say of its limits, and what is there."""
    path: str
    holder: int = 0
    # by file what its settings show, and what the file has by that
    said: dict = field(default_factory=dict)
    owners: dict = field(default_factory=dict)
    modes: dict = field(default_factory=dict)
    values: dict = field(default_factory=dict)
    enabled: tuple = ()

    @property
    def unit(self):
        return self.path.rpartition("/")[2]

    def owner(self, entry):
        """Whose an entry is by its settings."""
        return self.holder if entry in HANDED else 0

    def should_have(self, file):
        return self.said.get(file, LIMITS[file].unset)[1]

    def settings(self):
        """As systemctl shows them."""
        shown = {limit.setting: self.said.get(file, limit.unset)[0] for file, limit in LIMITS.items() if limit.setting}
        return {"Id": self.unit, "ControlGroup": self.path, **shown}

    def start(self, files):
        """Made anew by its manager."""
        self.owners = {entry: (self.owner(entry), 0) for entry in ("dir", *HANDED, *files)}
        self.modes = {entry: 0o755 if entry == "dir" else 0o644 for entry in self.owners}
        self.values = {file: self.should_have(file) for file in files}

    def is_right(self, entry):
        """Whether an entry is with whom its settings say, and nobody else writes it."""
        uid, gid = self.owners[entry]
        return uid == self.owner(entry) and not self.modes[entry] & (0o022 if gid else 0o002)

    def reached_by(self, entry, uid):
        owner, group = self.owners[entry]
        mode = self.modes[entry]
        in_group = uid == 1002 and group == TEAM
        return owner == uid or bool(mode & 0o020 and in_group) or bool(mode & 0o002 and not in_group)


class Host:
    """A host of units, drawn at random."""

    def __init__(self, seed):
        self.random = random.Random(seed)
        self.places = {}
        self.drop_ins = {}
        for path, holder in self.drawn_units():
            place = self.places[path] = Place(path, holder)
            place.enabled = CONTROLLERS if path.endswith(".slice") or path == "/" else ()
            place.said = {file: self.random.choice(limit.said) for file, limit in LIMITS.items()
                          if path != "/" and limit.said and self.random.random() < 0.3}
        for place in self.places.values():
            place.start(self.files(place))
        for _ in range(self.random.randint(1, 4)):
            self.give_away()
        for place in self.places.values():
            self.written_by_hand(place)
            self.write_as_users(place)

    def drawn_units(self):
        yield from (("/", 0), ("/system.slice", 0))
        for name in "abc"[:self.random.randint(1, 3)]:
            yield f"/system.slice/{name}.service", self.random.choice((0, *USERS))
        yield from (("/user.slice", 0), ("/user.slice/user-1000.slice", 0), ("/user.slice/user-1000.slice/user@1000.service", 1000))

    def files(self, place):
        """The limit files that stand at a place."""
        above = self.places.get(os.path.dirname(place.path)) if place.path != "/" else None
        return [file for file, limit in LIMITS.items() if above and (not limit.controller or limit.controller in above.enabled)]

    def give_away(self):
        place = self.random.choice([each for each in self.places.values() if each.path != "/"])
        entry = self.random.choice(("dir", "cgroup.procs", "cgroup.subtree_control", *self.files(place), *self.files(place)))
        entries = [*place.owners] if self.random.random() < 0.2 else [entry]
        how = self.random.choice(("owner", "group", "others"))
        for each in entries:
            if how == "owner":
                place.owners[each] = (self.random.choice(USERS), 0)
            elif how == "group":
                place.owners[each] = (place.owners[each][0], TEAM)
            place.modes[each] |= {"owner": 0, "group": 0o020, "others": 0o002}[how]

    def written_by_hand(self, place):
        """A limit that root set by hand, in a file that is root's alone; no setting has it."""
        files = [file for file in place.values if place.is_right(file) and file not in place.said and not LIMITS[file].is_share]
        if files and self.random.random() < 0.2:
            file = self.random.choice(files)
            place.values[file] = {"cpu.max": "30000 100000", "cpuset.cpus": "0-1", "cgroup.max.depth": "5"}.get(file, "73728")

    def write_as_users(self, place):
        """What users write who reach an entry."""
        for entry in [*place.owners]:
            uid = next((uid for uid in USERS if place.reached_by(entry, uid)), None)
            if uid is None or place.is_right(entry) and entry not in LIMITS:
                continue
            if entry in LIMITS and self.random.random() < 0.8:
                place.values[entry] = self.random.choice(LIMITS[entry].written)
            if place.owners[entry][0] == uid and self.random.random() < 0.2:
                place.modes[entry] |= 0o022
            if entry == "cgroup.subtree_control" and self.random.random() < 0.6:
                self.switch_off(place)

    def switch_off(self, place):
        """Takes a controller from what is below, and maybe gives it back, so that each limit of it is as where nobody set one."""
        below = [each for each in self.places.values() if each.path != "/" and os.path.dirname(each.path) == place.path]
        free = [name for name in place.enabled if not any(name in each.enabled for each in below)]
        if not free:
            return
        taken, enabled = self.random.choice(free), place.enabled
        place.enabled = tuple(name for name in enabled if name != taken)
        files = [file for file, limit in LIMITS.items() if limit.controller == taken]
        if self.random.random() < 0.5:
            place.enabled = enabled
        for each in below:
            for file in files:
                self.lose(each, file)
                if taken in place.enabled:
                    self.bring(each, file)

    def lose(self, place, file):
        for of in (place.owners, place.modes, place.values):
            of.pop(file, None)

    def bring(self, place, file):
        """A kernel's own."""
        place.owners[file], place.modes[file] = (0, 0), 0o644
        place.values[file] = "max" if file == "pids.max" else LIMITS[file].unset[1]

    def settings(self):
        return {place.unit: place.settings() for place in self.places.values() if place.path != "/"}

    def write(self, host):
        """The host as plain files."""
        for place in self.places.values():
            others = [file for file in place.values if file not in ("cgroup.max.depth", *TEXTS)]
            host.cgroup(place.path, owners=place.owners, modes=place.modes, values=place.values, enabled=" ".join(place.enabled),
                        more=("cgroup.threads", *others), marks=(MARK,) if place.holder else ())

    def restart(self):
        """Everything is made anew, by its settings and by drop-ins that a script wrote."""
        for place in self.places.values():
            place.enabled = CONTROLLERS if place.enabled or place.path.endswith(".slice") or place.path == "/" else ()
        for place in self.places.values():
            place.start(self.files(place))
            for name, value in self.drop_ins.get(place.unit, ()):
                if name == "Delegate":
                    place.owners.update({entry: (1000, 0) for entry in HANDED})
                place.values.update({file: value for file, limit in LIMITS.items() if limit.setting.startswith(name)})

    def wrong(self):
        """What isn't as root's settings say."""
        for place in self.places.values():
            yield from (f"{place.path} {entry}" for entry in place.owners if not place.is_right(entry))
            yield from (f"{place.path} {file} is {value}" for file, value in place.values.items() if value != place.should_have(file))


# limit files that a made-up host writes by itself
TEXTS = ("cpu.weight", "memory.min", "memory.low", "memory.high", "memory.max", "pids.max")


class Script:
    """Carries out a script of mends on such a host; a command that it doesn't know is a fault of the script."""

    def __init__(self, host, mount):
        self.host, self.mount = host, mount

    def run(self, text):
        lines = iter(text.splitlines())
        for line in lines:
            words = shlex.split(line, comments=True)
            if not words or words == ["systemctl", "daemon-reload"] or words[0] == "mkdir":
                continue
            if words[0] == "cat":
                self.drop_in(words[1].lstrip(">"), lines)
            elif words[0] in ("chown", "chmod"):
                for file in words[2:]:
                    (self.own if words[0] == "chown" else self.set_mode)(*self.entry(file), words[1])
            elif words[0] == "echo" and words[-1].startswith(">"):
                self.write(*self.entry(words[-1][1:]), " ".join(words[1:-1]))
            else:
                raise AssertionError(f"what a script may not do: {line}")

    def entry(self, file):
        place = file[len(self.mount):] or "/"
        if place in self.host.places:
            return self.host.places[place], "dir"
        above, _, entry = place.rpartition("/")
        return self.host.places[above or "/"], entry

    def own(self, place, entry, owner):
        uid, _, gid = owner.partition(":")
        place.owners[entry] = (0 if uid == "root" else int(uid), int(gid or place.owners[entry][1]))

    def set_mode(self, place, entry, mode):
        if mode.isdigit():
            place.modes[entry] = int(mode, 8)
            return
        whom, bits = re.fullmatch("([go]+)-(w)", mode).groups()
        place.modes[entry] &= ~sum({"g": 0o020, "o": 0o002}[each] for each in whom) if bits else 0

    def write(self, place, entry, value):
        if entry == "cgroup.subtree_control":
            names = [word[1:] for word in value.split()]
            place.enabled = tuple(name for name in CONTROLLERS if name in (*place.enabled, *names))
            for each in self.host.places.values():
                if each.path != "/" and os.path.dirname(each.path) == place.path:
                    for file in set(self.host.files(each)) - set(each.values):
                        self.host.bring(each, file)
            return
        assert entry in place.values, f"{entry} isn't there at {place.path}"
        place.values[entry] = value

    def drop_in(self, file, lines):
        unit = file.split("/")[-2][:-len(".d")]
        found = self.host.drop_ins.setdefault(unit, [])
        for line in iter(lines.__next__, "END"):
            name, is_setting, value = line.partition("=")
            if is_setting:
                found.append((name, value))
