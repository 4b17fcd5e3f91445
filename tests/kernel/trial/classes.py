"""Where a running kernel differs: a rule for each entry of docs/MODEL.md's list, by the name that stands in bold before it.

A rule of outcomes is asked of a difference of outcomes, and says whether the entry explains it. A rule of values is asked of a
number that a kernel keeps otherwise than it was written; texts are held against shown.py, and
`SHOWN` has the entries of these. A rule of ways is asked of what threads and descriptors do, which no operation of the model has
(ways.c). Any other entry never comes up, since the cases are made so that it can't, or aren't compared in it:
`LEFT_OUT` says how.
"""
import errno
import os
import re
from dataclasses import dataclass

from second import rules
from second.controllers import ALL_CONTROLLERS
from second.limit_files import MAX, MOST, TEXT_FILES
from trial import shown

LIST = os.path.join(os.path.dirname(os.path.abspath(__file__)), "../../../docs/MODEL.md")
PAGE = 4096
PAGES_FROM = 2 ** 63 - PAGE
SMALL = 2 ** 21
# of a process that doesn't do what it is asked for
NO_ANSWER = 255
# of the nine those that bar internal processes on a kernel
DOMAIN = frozenset(["io", "memory", "hugetlb", "rdma", "misc", "dmem"])
GREATEST = {rules.DESCENDANTS: 2147483647, rules.DEPTH: 2147483647, "pids.max": 4194304}


@dataclass
class Outcome:
    """A step of a user, the model's state before it and after, what the program says, and the kernel's error number and state."""
    state: rules.State
    user: tuple
    step: tuple
    said: str
    number: int
    there: rules.State

    def lets_through(self):
        return self.said != "ok" and self.number == 0

    def refuses(self, *numbers):
        return self.said == "ok" and self.number in numbers


def internal_process(outcome):
    """Refused here for cpuset, cpu and pids alone."""
    if not outcome.lets_through() or not outcome.said.startswith("refused internal-process"):
        return False
    if outcome.step[0] == "move":
        enabled = outcome.state.cgroups[outcome.step[2]].enabled
    else:
        enabled = rules.enabled_after(outcome.state, outcome.step[1], outcome.step[2])
    return not enabled & DOMAIN


def value_taken(outcome):
    """A value past the kernel's greatest is refused there, and a memory limit of 2^63 or more is let through."""
    if outcome.step[0] != "set":
        return False
    _, _, file, value = outcome.step
    if file in TEXT_FILES:
        return False
    if outcome.said == f"refused bad-value {file}":
        return outcome.number == 0 and file.startswith("memory.") and value >= 2 ** 63
    return outcome.refuses(errno.EINVAL, errno.ERANGE) and value != MAX and value > GREATEST.get(file, MOST)


def text_refused(outcome):
    """A text that a limit file doesn't take, at least beside what the others of its cgroup have."""
    if outcome.step[0] != "set" or outcome.step[2] not in TEXT_FILES:
        return False
    if not outcome.refuses(errno.EINVAL, errno.ERANGE, errno.ENODEV, errno.EOPNOTSUPP) or is_idle(outcome):
        return False
    now = outcome.there.cgroups[outcome.step[1]].values
    return shown.turned_by(*outcome.step[2:], now) is None or among_partitions(outcome)


def among_partitions(outcome):
    """CPUs that another cgroup has for itself."""
    names = ("cpuset.cpus.exclusive", shown.PARTITION)
    return outcome.step[2].startswith("cpuset.cpus") and any(
        cgroup.values.get(name, "member") != "member" for cgroup in outcome.there.cgroups.values() for name in names)


def is_idle(outcome):
    """Whether a set is one of the weight of what is idle."""
    return outcome.step[2] in shown.OF_WEIGHT and outcome.there.cgroups[outcome.step[1]].values.get(shown.IDLE) == "1"


def weight_of_the_idle(outcome):
    """What turns the weight is refused while its cgroup is idle."""
    return outcome.step[0] == "set" and outcome.refuses(errno.EINVAL) and is_idle(outcome)


def file_is_unknown(outcome):
    """A limit file of format 4 that the kernel doesn't have anywhere, or at its root; or one that it has there too, which is root's."""
    if outcome.step[0] not in ("set", "chmod") or outcome.step[2] not in TEXT_FILES:
        return False
    _, path, file, _ = outcome.step
    if not path and outcome.said.startswith("refused no-such-file"):
        return outcome.number == (errno.EACCES if outcome.step[0] == "set" else errno.EPERM)
    there = outcome.there.cgroups
    return outcome.number == errno.ENOENT and path in there and (not path or not any(file in cgroup.named for cgroup in there.values()))


def value_kept(file, written, kept, _now):
    """The greatest of `cgroup.max.*` is kept as `max`; memory is kept in whole pages, and what is near to 2^63 as `max`."""
    if file in (rules.DESCENDANTS, rules.DEPTH):
        return written == GREATEST[file] and kept == MAX
    if not file.startswith("memory.") or written == MAX:
        return False
    return kept == (written // PAGE * PAGE if written < PAGES_FROM else MAX)


def weight_turned(file, _written, kept, now):
    """`cpu.weight` is what the nice value or the idleness of its cgroup makes it."""
    return file == shown.WEIGHT and kept in shown.weights_of(now)


def name_of_file(outcome):
    """mkdir of a name that a file has there; and rmdir of one, where who writes the directory is asked first."""
    if outcome.step[0] == "rmdir":
        is_it = outcome.said.startswith("refused no-such-cgroup") and outcome.number == errno.EACCES
    else:
        is_it = outcome.step[0] == "mkdir" and outcome.number == errno.EEXIST
    return is_it and is_file_name(outcome.step[1][-1])


def is_file_name(name):
    return name.split(".")[0] in ("cgroup", "irq", *ALL_CONTROLLERS) and "." in name


def unknown_controller(outcome):
    """A change of a controller that the kernel doesn't have, which is refused before anything but access."""
    if outcome.step[0] != "control" or outcome.number != errno.EINVAL:
        return False
    return any(name not in outcome.there.controllers for _, name in outcome.step[2])


def capabilities_of_the_moved(outcome):
    """A process of root, which has all capabilities, comes by a move or a control to where another cgroup's cpuset holds."""
    if outcome.step[0] not in ("move", "control") or not outcome.refuses(errno.EPERM):
        return False
    after = rules.next_state(outcome.state, outcome.user, outcome.step)
    return any(uid == 0 and cpuset_of(outcome.state, place) != cpuset_of(after, after.live[pid][1])
               for pid, (uid, place) in outcome.state.live.items())


def cpuset_of(state, path):
    """The nearest cgroup that has a cpuset of its own: the root, or a child of one that enables `cpuset`."""
    return next(above for above in rules.upwards(path) if not above or "cpuset" in rules.brought(state, above))


def folder_in_the_way(outcome):
    """A controller's files can't stand where a directory has the name of one."""
    if outcome.step[0] != "control" or not outcome.refuses(errno.EEXIST):
        return False
    return any(is_file_name(child[-1]) for child in rules.children(outcome.state, outcome.step[1]))


def effect_of_limits(outcome):
    """A fork that a full pids.max refuses or that what is frozen doesn't do, or what memory a limit of almost nothing refuses, there
    or above; and what brings processes to where partitions have all CPUs."""
    there = outcome.there
    if outcome.step[0] in ("move", "control") and outcome.refuses(errno.ENOSPC):
        return any(cgroup.values.get(shown.PARTITION) in ("root", "isolated") for cgroup in there.cgroups.values())
    if outcome.step[0] not in ("fork", "mkdir", "control"):
        return False
    place = outcome.state.live[outcome.step[1]][1] if outcome.step[0] == "fork" and outcome.said == "ok" else outcome.step[1]
    above = [path for path in rules.upwards(place) if path in there.cgroups] if isinstance(place, tuple) else []
    if outcome.step[0] == "fork" and outcome.refuses(errno.EAGAIN):
        places = [place for _, place in there.live.values()]
        return any(limit_of(there, path, "pids.max") <= sum(rules.inside(at, path) for at in places) for path in above)
    if outcome.step[0] == "fork" and outcome.refuses(NO_ANSWER):
        return any(there.cgroups[path].values.get("cgroup.freeze") == "1" for path in above)
    return outcome.refuses(errno.ENOMEM) and any(limit_of(there, path, "memory.max") < SMALL for path in above)


def limit_of(state, path, file):
    value = state.cgroups[path].values.get(file, MAX)
    return MOST if value == MAX else value


RULES = {
    "internal process": internal_process,
    "range of values": value_taken,
    "name of a file": name_of_file,
    "unknown controller": unknown_controller,
    "directory in the way": folder_in_the_way,
    "capabilities of the moved": capabilities_of_the_moved,
    "effects of limits": effect_of_limits,
    "any value": text_refused,
    "file that turns another": weight_of_the_idle,
    "unknown file": file_is_unknown,
}
VALUES = {"range of values": value_kept, "file that turns another": weight_turned}
# of texts that a kernel shows after a set: comparing.text_differences says where
SHOWN = ("read back", "one line of several")
# of each way the numbers that it ends with: of errors, and of the second whether its process is listed where the thread was, before and
# behind. Where one place were all that a process has, and each write opened what it writes, the second would be EACCES, 0 and 0, and EACCES
WAYS = {
    # root's move, and then theirs; the same where the first thread lives
    "dead first thread": (0, 0, 0, errno.EACCES),
    "exec": (0, 1),
    # by what is held, and by what is opened now
    "stale descriptor": (0, errno.EACCES),
    "inherited descriptor": (0, errno.EACCES),
    # the user's write, and root's move to what is beside it
    "threaded": (0, errno.EOPNOTSUPP),
}
LEFT_OUT = {
    "weight of the idle": "no tree has the weight 0, which the program refuses",
    "long writes": "no line of a case is as long",
    "zombies": "the init waits for what has ended",
    "kernel threads": "the machine has no kvm and no vhost",
    "lines of devices": "no device goes",
    "setgid directories": "no case has a mode past 0777",
    "no identity": "the cases have 4294967294 in its place",
}


def listed():
    """The names of docs/MODEL.md's list, in its order."""
    with open(LIST, encoding="utf-8") as text:
        part = text.read().partition("## Where a running kernel differs")[2].partition("\n## ")[0]
    return re.findall(r"^- \*\*(.+?)\*\*", part, re.MULTILINE)


def way_differs(name, numbers):
    """What a kernel does in a way that the entry doesn't say, or None."""
    return None if numbers == WAYS[name] else f"{name}: {numbers} in place of {WAYS[name]}"


def kind_of(outcome):
    """The entry that explains a difference of outcomes, or None."""
    return next((name for name, explains in RULES.items() if explains(outcome)), None)


def kind_of_value(file, written, kept, now):
    """The entry that explains how a value is kept in a cgroup that shows this now, or None."""
    return next((name for name, explains in VALUES.items() if explains(file, written, kept, now)), None)
