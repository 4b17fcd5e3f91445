#!/usr/bin/env python3
"""Plans units by `zirofen-host plan --unit`, starts them, and writes the planned cgroups beside those of a check: owners, modes, limits,
what is enabled and marks. Run by hand, as root, in a machine with systemd that may be thrown away:

    tests/host/units_trial.py HOST_FOLDER

HOST_FOLDER has zirofen-host. What a plan says it can't tell is left out where a case names it; a row says what that is. Status 1 says
that something else differs.
"""
import argparse
import json
import os
import re
import subprocess
import sys
import time
from dataclasses import dataclass

FOLDER = "/run/systemd/system"
SLEEP = "ExecStart=/bin/sleep infinity\n"
ACCOUNTS = ("zirofen-one", "zirofen-two")
GROUP = "zirofen-team"
# the limits that a tree text carries; a plan has no values of others
LIMITS = ("cgroup.max.descendants", "cgroup.max.depth", "cpu.weight", "memory.min", "memory.low", "memory.high", "memory.max", "pids.max")
# of a subgroup these are its user's too, which a plan leaves out: they lie inside of what was handed over
OF_A_SUBGROUP = ("cgroup.freeze", "cgroup.kill", "cgroup.pressure", "cgroup.type")
# owner and mode of what nobody was handed
ROOTS = ("0:0 644", "0:0 444", "0:0 200")


@dataclass(frozen=True)
class Case:
    """A unit with its files (of a slice or an instance too), and what of its cgroup a plan can't tell."""
    name: str
    files: dict
    settings: str
    # what isn't compared: entries that it says it can't tell, and whose a dynamic user's are
    apart: tuple = ()


def service(text):
    return f"[Service]\n{SLEEP}{text}"


CASES = (
    Case("zt-user.service", {"zt-user.service": service("User=zirofen-one\nMemoryMax=64M\nTasksMax=50\n")},
         "User=, MemoryMax=, TasksMax="),
    Case("zt-handed.service", {"zt-handed.service": service("User=zirofen-one\nGroup=zirofen-team\nDelegate=yes\nMemoryHigh=48M\n"
                                                            "MemoryLow=4097\n")},
         "User=, Group=, Delegate=yes, MemoryHigh=, MemoryLow="),
    Case("zt-listed.service", {"zt-listed.service": service("User=zirofen-two\nDelegate=memory\nDelegate=pids\nCPUWeight=50\n"
                                                            "TasksMax=infinity\n")},
         "Delegate= with a list, CPUWeight=, TasksMax=infinity"),
    Case("zt-in@one.service", {"zt-in@.service": service("User=zirofen-%i\nDelegate=yes\nMemoryMax=1G\n"),
                               "zt-in@.service.d/50-less.conf": "[Service]\nMemoryMax=32M\n",
                               "zt-in@one.service.d/60-own.conf": "[Service]\nTasksMax=12\n"},
         "a template with %i, a drop-in of it and one of the instance"),
    Case("zt-deep.service", {"zt-deep.service": service("Slice=zt-a-b.slice\nMemoryMin=1M\n"),
                             "zt-a.slice": "[Slice]\nMemoryMax=512M\n", "zt-a-b.slice": "[Slice]\nCPUWeight=200\nTasksMax=400\n"},
         "Slice= with slices in one another, .slice units with limits, MemoryMin="),
    Case("zt-dynamic.service", {"zt-dynamic.service": service("DynamicUser=yes\nDelegate=yes\nMemoryMax=40M\n")},
         "DynamicUser=, Delegate=", ("owner",)),
    Case("zt-named.service", {"zt-named.service": service("DynamicUser=yes\nUser=zirofen-three\nTasksMax=20\n")},
         "DynamicUser= with User=", ("owner",)),
    Case("zt-sub.service", {"zt-sub.service": service("User=zirofen-two\nDelegate=yes\nDelegateSubgroup=main\nMemoryMax=30M\n")},
         "DelegateSubgroup=", OF_A_SUBGROUP),
    Case("zt-root.service", {"zt-root.service": service("Delegate=cpu\nStartupCPUWeight=30\nCPUQuota=50%\nTasksMax=10\n")},
         "Delegate= of root's, StartupCPUWeight=, CPUQuota=", ("cpu.weight",)),
    Case("zt-group.service", {"zt-group.service": service("Group=zirofen-team\nDelegate=yes\n")}, "Group= alone, Delegate="),
    Case("zt-bare.service", {"zt-bare.service": service("User=zirofen-one\nSlice=zt-bare.slice\nMemoryAccounting=no\nTasksAccounting=no\n"
                                                        "CPUAccounting=no\n"),
                             "zt-bare.slice": "[Slice]\n"},
         "accounting off, in a slice of its own"),
    Case("zt-plus.service", {"zt-plus.service": service("User=zirofen-one\nExecStartPre=+/bin/true\nExecStartPost=!/bin/true\n"
                                                        "MemoryMax=50%\nIOWeight=50\n")},
         "commands with + and !, a share, IOWeight=", ("memory.max",)),
    Case("zt-off.service", {"zt-off.service": service("User=zirofen-one\nDelegate=yes\nDelegate=no\nMemoryMax=20M\nMemoryMax=\n")},
         "Delegate= and a limit taken back"),
    Case("cpu.service", {"cpu.service": service("User=zirofen-two\nDelegate=yes\nCPUWeight=idle\n")},
         "a name of the kernel's, CPUWeight=idle", ("cpu.weight",)),
)


def said(*words, check=True):
    return subprocess.run(words, stdin=subprocess.DEVNULL, capture_output=True, text=True, check=check).stdout.strip()


def asked(options, *words):
    """The cgroups of a report, by path, and what standard error has."""
    start = time.monotonic()
    command = [f"{options.folder}/zirofen-host", *words, "--json"]
    ended = subprocess.run(command, stdin=subprocess.DEVNULL, capture_output=True, text=True)
    if not ended.stdout:
        raise RuntimeError(f"{words[0]}: {ended.stderr}")
    print(f"{words[0]}: {time.monotonic() - start:.1f} s", file=sys.stderr, flush=True)
    return {each["path"]: each for each in json.loads(ended.stdout)["cgroups"]}, ended.stderr.split("\n")


def write_units():
    for case in CASES:
        for name, text in case.files.items():
            os.makedirs(os.path.dirname(f"{FOLDER}/{name}"), exist_ok=True)
            with open(f"{FOLDER}/{name}", "w", encoding="ascii") as out:
                out.write(text)


def units_of(case):
    """What a plan is given: the unit, and its slices."""
    return [f"{FOLDER}/{name}" for name in (case.name, *(name for name in case.files if name.endswith(".slice")))]


def flat(row, is_dynamic):
    """What is compared of a cgroup: each entry with its owner, mode and value. Of a dynamic user whose it is is left open."""
    found = {"enabled": " ".join(row["enabled"]), "marks": " ".join(sorted(row["marks"]))}
    for name, entry in (("dir", row["dir"]), *row["files"].items()):
        uid, gid = (("dynamic" if is_dynamic and each >= 61184 else each) for each in (entry["uid"], entry["gid"]))
        found[name] = f"{uid}:{gid} {entry['mode']}" + (f" {entry['value']}" if name in LIMITS else "")
    return found


def differing(planned, there, case):
    """The entries of a cgroup that differ, with what a plan and a host have. A file that a plan doesn't name has to be root's."""
    if planned is None or there is None:
        return [] if planned is there else [f"{'not planned' if planned is None else 'planned'}, {'not' if there is None else ''} there"]
    was, now = (flat(row, "owner" in case.apart) for row in (planned, there))
    of_root = {name: found for name, found in now.items() if name not in was and found.startswith(ROOTS)}
    return [f"{name}: planned {was.get(name, 'none')}, there {now.get(name, 'none')}" for name in sorted({*was, *now} - {*of_root})
            if was.get(name) != now.get(name) and name not in case.apart]


def places_of(case, cgroups):
    """The cgroups of a case: the unit's, what is inside, and its slices."""
    ends = [f"/{name}" for name in case.files if name.endswith(".slice")]
    named = rf"/_?{re.escape(case.name)}(/|$)"
    return {path for path in cgroups if re.search(named, path) or any(path.endswith(end) for end in ends)}


def row_of(case, planned, there, lines):
    """A line of the table, and whether something differs that isn't named."""
    paths = sorted(places_of(case, planned) | places_of(case, there))
    found = [f"{path}: {each}" for path in paths for each in differing(planned.get(path), there.get(path), case)]
    entries = sum(len(flat(there[path], False)) for path in paths if path in there)
    named = [line.partition(f"{case.name}: ")[2] for line in lines if f" {case.name}: " in line]
    print(f"| {case.name} | {case.settings} | {len(paths)} | {entries} | {'<br>'.join(found) or 'none'} | "
          f"{'<br>'.join(named) or 'nothing'} |", flush=True)
    return bool(found) or not paths


def main():
    parser = argparse.ArgumentParser(description=__doc__, formatter_class=argparse.RawDescriptionHelpFormatter)
    parser.add_argument("folder", metavar="HOST_FOLDER")
    options = parser.parse_args()
    said("groupadd", "--force", "--system", GROUP)
    for name in ACCOUNTS:
        said("useradd", "--system", "--user-group", "--no-create-home", name, check=False)
    write_units()
    said("systemctl", "daemon-reload")
    planned, lines = asked(options, "plan", *(word for case in CASES for unit in units_of(case) for word in ("--unit", unit)))
    said("systemctl", "start", "--no-block", *(case.name for case in CASES))
    time.sleep(30)
    states = {case.name: said("systemctl", "show", "--property=ActiveState", "--value", case.name) for case in CASES}
    there, _ = asked(options, "check")
    print(f"Linux {os.uname().release}, {said('systemctl', '--version').split(chr(10), 1)[0]}\n\n| Unit | Settings | Cgroups | Entries | "
          "Differences | Named as not told |\n|---|---|---|---|---|---|", flush=True)
    failed = sum(row_of(case, planned, there, lines) for case in CASES)
    idle = ", ".join(name for name, state in states.items() if state != "active")
    print(f"\nnot active: {idle or 'none'}; {failed} otherwise", flush=True)
    return 1 if failed else 0


if __name__ == "__main__":
    sys.exit(main())
