#!/usr/bin/env python3
"""Opens entries of units' cgroups by hand, has a user write what they may then, carries out what `zirofen-host check --mends shell` writes,
and compares each entry's owner, mode and value with what the manager had made. Run by hand, as root, in a machine with systemd that may be
thrown away:

    tests/host/openings_trial.py HOST_FOLDER [--only NAME,NAME]   each by itself: the script, and then a restart of its unit
    tests/host/openings_trial.py HOST_FOLDER --together           all at once: the script, and then the machine is to be booted again
    tests/host/openings_trial.py HOST_FOLDER --restarted          behind that in a boot's place: a restart of each unit
    tests/host/openings_trial.py HOST_FOLDER --booted             behind a boot
    tests/host/openings_trial.py HOST_FOLDER --remove

HOST_FOLDER has zirofen-host. What no setting of root's decides is to stand in the script as a comment with its cgroup and file; a line of
what a next start doesn't bring has to stay as long as that is so. Status 1 says that something is otherwise.
"""
import argparse
import json
import os
import pwd
import re
import subprocess
import sys
import tempfile
import time
from dataclasses import dataclass

from limits_trial import MOUNT, read, said, write, written_as

UNITS, KEPT = "/etc/systemd/system", "/var/lib/zirofen-openings.json"
USER, PREFIX = "zirofen-one", "zo-"
SYSTEM, PARENT = "/system.slice", "/zos.slice"
# the files whose values are compared
LIMITS = ("cgroup.freeze", "cgroup.max.depth", "cgroup.max.descendants", "cpu.idle", "cpu.max", "cpu.weight", "cpuset.cpus", "cpuset.mems",
          "io.max", "io.weight", "memory.high", "memory.low", "memory.max", "memory.min", "memory.swap.max", "pids.max")
CONTROL = "cgroup.subtree_control"
# files by which whoever may write is told of something, and which set nothing
MONITORED = ("cpu.pressure", "io.pressure", "memory.pressure", "irq.pressure", "memory.peak", "memory.swap.peak")
# without a finding; 4 is that of a host on which nobody was handed anything
CLEAN = (0, 4)
OTHERS, OWNER, GROUP, WHOLE = "mode", "owner", "group", "whole"


@dataclass(frozen=True)
class Opening:
    """What root opened by hand in the cgroup of a unit, or of its slice, and what the user wrote."""
    name: str
    settings: str
    entry: str
    how: str
    written: str = ""
    # what is opened is the slice's, and not the service's
    of_slice: bool = False
    # whether root's settings decide it, so that the script brings it
    is_decided: bool = True

    @property
    def unit(self):
        return f"{PREFIX}{self.name}.service"

    @property
    def slice(self):
        return f"zos-{self.name}.slice"

    @property
    def path(self):
        """Of the service."""
        return f"{self.above}/{self.unit}"

    @property
    def above(self):
        return f"{PARENT}/{self.slice}" if self.of_slice else SYSTEM

    @property
    def opened(self):
        """The cgroup whose entry is opened."""
        return self.above if self.of_slice else self.path

    @property
    def paths(self):
        return (self.above, self.path) if self.of_slice else (self.path,)

    def file(self, entry=None):
        return f"{MOUNT}{self.opened}" + ("" if (entry or self.entry) == "dir" else f"/{entry or self.entry}")


OPENINGS = (
    Opening("memory", "MemoryMax=100M", "memory.max", OTHERS, "943718400"),
    Opening("pids", "TasksMax=40", "pids.max", OWNER, "max"),
    Opening("quota", "CPUQuota=20%", "cpu.max", GROUP, "max 100000"),
    Opening("period", "CPUQuota=150%\nCPUQuotaPeriodSec=20ms", "cpu.max", OTHERS, "900000 100000"),
    Opening("weight", "CPUWeight=50", "cpu.weight", OTHERS, "10000"),
    Opening("nice", "CPUWeight=50", "cpu.weight.nice", OWNER, "-20"),
    Opening("idle", "CPUWeight=idle", "cpu.idle", OTHERS, "0"),
    Opening("idler", "CPUWeight=50", "cpu.idle", OTHERS, "1"),
    Opening("cpus", "AllowedCPUs=0", "cpuset.cpus", OTHERS, "0-1"),
    Opening("nodes", "AllowedMemoryNodes=0", "cpuset.mems", OWNER, ""),
    Opening("io", "IOWeight=50", "io.weight", OTHERS, "default 10000"),
    Opening("device", "IOReadBandwidthMax=/dev/vda 1M", "io.max", OTHERS, "DEVICE rbps=max", is_decided=False),
    Opening("swap", "MemorySwapMax=0", "memory.swap.max", OWNER, "max"),
    Opening("low", "", "memory.low", OTHERS, "67108864"),
    Opening("high", "", "memory.high", OTHERS, "67108864", is_decided=False),
    Opening("depth", "", "cgroup.max.depth", OWNER, "7", is_decided=False),
    Opening("tree", "MemoryMax=100M\nTasksMax=50", "memory.max", WHOLE, "943718400"),
    Opening("parent", "MemoryMax=100M", "dir", OTHERS, "", True),
    Opening("procs", "MemoryMax=100M", "cgroup.procs", OTHERS, "", True),
    Opening("control", "MemoryMax=100M\nTasksMax=50\nCPUWeight=50", CONTROL, OWNER, "-memory -pids", True),
)


def uid():
    return pwd.getpwnam(USER).pw_uid


def gid():
    return pwd.getpwnam(USER).pw_gid


def make(openings):
    said("useradd", "--system", "--user-group", "--no-create-home", USER, check=False)
    for each in openings:
        above = f"Slice={each.slice}\n" if each.of_slice else ""
        write(f"{UNITS}/{each.unit}", f"[Service]\nUser={USER}\n{above}{each.settings}\nExecStart=/bin/sleep infinity\n"
                                      "[Install]\nWantedBy=multi-user.target\n")
    said("systemctl", "daemon-reload")
    said("systemctl", "enable", "--now", *(each.unit for each in openings))
    wait(openings)


def wait(openings):
    """Until the manager has made each of them, whatever it is about."""
    for _ in range(120):
        states = said("systemctl", "is-active", *(each.unit for each in openings), check=False).split()
        if {*states} == {"active"} and all(os.path.exists(f"{MOUNT}{each.path}/pids.max") for each in openings):
            time.sleep(2)
            return
        time.sleep(2)
    raise RuntimeError("units don't start")


def remove(openings):
    said("systemctl", "disable", "--now", *(each.unit for each in openings), check=False)
    for each in openings:
        if os.path.exists(f"{UNITS}/{each.unit}"):
            os.remove(f"{UNITS}/{each.unit}")
    said("systemctl", "daemon-reload")


def state_of(opening):
    """Each entry of its cgroups that can be written: owner, the group that may, mode and, of a limit, the value."""
    found = {}
    for path in opening.paths:
        for name in ("dir", *sorted(name for name in os.listdir(MOUNT + path) if os.path.isfile(f"{MOUNT}{path}/{name}"))):
            file = f"{MOUNT}{path}" + ("" if name == "dir" else f"/{name}")
            there = os.lstat(file)
            # what root's own group may is root's, and a group that may not write has nothing
            mode = there.st_mode & (0o777 if there.st_gid else 0o757)
            group = there.st_gid if mode & 0o020 else 0
            value = f" {read(file)}" if name in LIMITS or name == CONTROL and path == opening.above else ""
            if mode & 0o222 and not name.endswith(MONITORED):
                found[f"{path} {name}"] = f"{there.st_uid}:{group} {mode:03o}{value}"
    return found


def differing(before, after):
    """What isn't as it was made, or is gone."""
    return [f"{name} {after.get(name, 'gone')} and not {was}" for name, was in before.items() if after.get(name) != was]


def open_up(opening):
    """What root does by hand, and then the user with it; how the user's write ended."""
    entries = [opening.entry]
    if opening.how == WHOLE:
        entries = ["dir", *(name for name in os.listdir(MOUNT + opening.opened) if os.path.isfile(f"{MOUNT}{opening.opened}/{name}"))]
    for entry in entries:
        if opening.how in (OWNER, WHOLE):
            os.chown(opening.file(entry), uid(), gid())
        elif opening.how == GROUP:
            os.chown(opening.file(entry), 0, gid())
            os.chmod(opening.file(entry), 0o664)
        else:
            os.chmod(opening.file(entry), 0o777 if entry == "dir" else 0o646 if entry == "cgroup.procs" else 0o666)
    return tried(opening)


def tried(opening):
    """How what the user writes ends; nothing where it is carried out."""
    if opening.entry == "dir":
        return made_as_user(f"{opening.file()}/theirs-{time.monotonic_ns()}")
    if opening.entry == "cgroup.procs":
        return moved_as_user(opening)
    disk = sorted(name for name in os.listdir("/sys/block") if not re.match("loop|ram|zram|sr|fd", name))[0]
    text = opening.written.replace("DEVICE", read(f"/sys/block/{disk}/dev"))
    return written_as(uid(), gid(), opening.file(), f"{text}\n")


def as_user(*words):
    return subprocess.run(["setpriv", "--reuid", str(uid()), "--regid", str(gid()), "--clear-groups", *words], stdin=subprocess.DEVNULL,
                          capture_output=True, text=True)


def made_as_user(folder):
    ended = as_user("mkdir", folder)
    return "" if not ended.returncode else "EACCES" if "denied" in ended.stderr else ended.stderr.strip()


def moved_as_user(opening):
    """Whether the entry can be opened: a move would want what is above, too."""
    ended = as_user("sh", "-c", f"exec 3>>{opening.file()}")
    return "" if not ended.returncode else "EACCES" if "denied" in ended.stderr else ended.stderr.strip()


class Checked:
    """A check, with the script of its mends."""

    def __init__(self, options):
        with tempfile.TemporaryDirectory() as folder:
            start = time.monotonic()
            words = [f"{options.folder}/zirofen-host", "check", "--format", f"json={folder}/report", "--mends", f"shell={folder}/mends"]
            ended = subprocess.run(words, stdin=subprocess.DEVNULL, capture_output=True, text=True)
            if not os.path.exists(f"{folder}/mends"):
                raise RuntimeError(f"the check: {ended.stderr}")
            self.report, self.script = json.loads(read(f"{folder}/report")), read(f"{folder}/mends")
        self.text, self.status = ended.stdout, ended.returncode
        print(f"check: {time.monotonic() - start:.1f} s, status {self.status}", file=sys.stderr, flush=True)
        if options.verbose:
            print(self.text, self.script, sep="\n", file=sys.stderr, flush=True)

    def finding(self, opening):
        """The finding that tells of an opening, and its causes."""
        rows = [(f"{each['answer']}", each) for each in self.report["entries"] if each["entry"] in (opening.entry, "dir")]
        rows += [("opened", each) for each in self.report["opened"] if each["file"] in (opening.entry, "dir")]
        return next((word for word, each in rows if each["path"] == opening.opened), "")

    def restarts(self, opening):
        """The files of which it says that the next start doesn't bring what they have."""
        return {file for line in self.text.splitlines() if line.startswith(f"restart: {opening.path}:")
                for file in re.findall(r"([a-z]+\.[a-z.]+) is ", line)}

    def has_reason(self, opening):
        lines = self.script.splitlines()
        return any(line.startswith("#") and opening.opened in line and opening.entry in line for line in lines)

    def carry_out(self):
        return subprocess.run(["sh", "-eu"], input=self.script, capture_output=True, text=True)


def wrongs_of(opening, before, checked, then):
    """What is otherwise behind the script: an entry that isn't root's, a limit that isn't what root's settings say and has no reason."""
    now = state_of(opening)
    for wrong in differing(before, now):
        place, _, rest = wrong.partition(" and not ")
        path, name, *_ = place.split(" ")
        has = now.get(f"{path} {name}", "").split(" ")[:2]
        was = before[f"{path} {name}"].split(" ")[:2]
        is_value_alone = has == was
        if not (is_value_alone and not opening.is_decided and name == opening.entry and checked.has_reason(opening)):
            yield wrong
        elif then is not None and name not in then.restarts(opening) and name in checked.restarts(opening):
            yield f"{name}: what a restart doesn't bring isn't told any more"
    if not checked.finding(opening):
        yield "not told"
    if tried(opening) not in ("EACCES", "EPERM"):
        yield "the user writes it still"


def restart(*openings):
    said("systemctl", "daemon-reload")
    said("systemctl", "restart", *(each.unit for each in openings))
    wait(openings)


def play(options, opening):
    """An opening by itself; whether something is otherwise."""
    before = state_of(opening)
    refused = open_up(opening)
    checked = Checked(options)
    ended = checked.carry_out()
    then = Checked(options)
    wrong = list(wrongs_of(opening, before, checked, then))
    if ended.returncode:
        wrong.append(f"the script ends with {ended.returncode}: {ended.stderr.strip()}")
    stays = [each for each in differing(before, state_of(opening))]
    restart(opening)
    wrong += [f"after a restart {each}" for each in differing(before, state_of(opening))]
    row = f"{start_of_row(opening, refused, checked)}, status {checked.status} | {'; '.join(stays) or 'as made'} | status {then.status}"
    print(f"| {row} | {otherwise(wrong)} |", flush=True)
    return bool(wrong)


def each_by_itself(options, openings):
    make(openings)
    first = Checked(options)
    print(f"before: status {first.status}\n\n| Unit | Settings | Opened | Written | Told | Behind the script | Told then | |\n"
          "|---|---|---|---|---|---|---|---|", flush=True)
    return sum(play(options, each) for each in openings) + (first.status not in CLEAN)


def together(options, openings):
    make(openings)
    before = {each.name: state_of(each) for each in openings}
    write(KEPT, json.dumps(before))
    refused = {each.name: open_up(each) for each in openings}
    checked = Checked(options)
    ended = checked.carry_out()
    then = Checked(options)
    failed = ended.returncode != 0
    print(f"status {checked.status}, the script ends with {ended.returncode} {ended.stderr.strip()}, then status {then.status}\n\n"
          "| Unit | Settings | Opened | Written | Told | Behind the script | |\n|---|---|---|---|---|---|---|", flush=True)
    for each in openings:
        wrong = list(wrongs_of(each, before[each.name], checked, then))
        failed += bool(wrong)
        stays = differing(before[each.name], state_of(each))
        print(f"| {start_of_row(each, refused[each.name], checked)} | {'; '.join(stays) or 'as made'} | {otherwise(wrong)} |", flush=True)
    print("\nboot the machine again, and go on with --booted; or with --restarted", flush=True)
    return failed


def start_of_row(opening, refused, checked):
    return (f"{opening.name} | {opening.settings.replace(chr(10), ' ') or 'none'} | {opening.entry}, {opening.how} | "
            f"{opening.written or '-'}: {refused or 'carried out'} | {checked.finding(opening) or 'nothing'}")


def otherwise(wrong):
    return "<br>".join(f"**{each}**" for each in wrong) or "as it is to be"


def restarted(options, openings):
    restart(*openings)
    return booted(options, openings)


def booted(options, openings):
    wait(openings)
    before = json.loads(read(KEPT))
    found = {each.name: differing(before[each.name], state_of(each)) for each in openings if each.name in before}
    for name, wrong in found.items():
        print(f"{name}: {'; '.join(wrong) or 'as made'}", flush=True)
    status = Checked(options).status
    print(f"status {status}", flush=True)
    return sum(map(bool, found.values())) + (status not in CLEAN)


def main():
    parser = argparse.ArgumentParser(description=__doc__, formatter_class=argparse.RawDescriptionHelpFormatter)
    parser.add_argument("folder", metavar="HOST_FOLDER")
    parser.add_argument("--only", default="", help=f"of {' '.join(each.name for each in OPENINGS)}")
    for name in ("--together", "--restarted", "--booted", "--remove", "--verbose"):
        parser.add_argument(name, action="store_true")
    options = parser.parse_args()
    openings = [each for each in OPENINGS if not options.only or each.name in options.only.split(",")]
    if options.remove:
        remove(openings)
        return 0
    print(f"Linux {os.uname().release}, {said('systemctl', '--version').split(chr(10), 1)[0]}\n", flush=True)
    ways = ((options.booted, booted), (options.restarted, restarted), (options.together, together), (True, each_by_itself))
    failed = next(act for is_asked, act in ways if is_asked)(options, openings)
    print(f"\n{failed} otherwise", flush=True)
    return 1 if failed else 0


if __name__ == "__main__":
    sys.exit(main())
