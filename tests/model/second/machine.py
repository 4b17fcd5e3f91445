"""The machine that refuses as little as containment takes: docs/MODEL.md, "What a kernel has to refuse". Written from there alone.

It lets through all that no refusal of REFUSALS is about. A file is (entry, value), and of a value that isn't known None; an act is
("move", pid, path), ("mkdir", path, files), ("rmdir", path), ("write", path, file, values), ("chmod", path, file, gid, mode),
("enable", path, files by child), ("fork", parent, child) or ("exit", pid). A machine is never changed: an act makes another one.
"""
from dataclasses import dataclass, replace

from . import rules
from .rules import CONTROL, DEPTH, DESCENDANTS, DIR, PROCS, STANDING

# each with the kind of act that it is about
REFUSALS = {
    "of a move without the common ancestor": "move",
    "of a mkdir where something is": "mkdir",
    "of a mkdir without room for descendants": "mkdir",
    "of a mkdir without room for levels": "mkdir",
    "of a rmdir without the parent's directory": "rmdir",
    "of a rmdir of what has a child": "rmdir",
    "of a write to what they can't write": "write",
    "of a chmod of what they don't own": "chmod",
    "of an enabling without the control file": "enable",
    "of a fork into a PID that lives": "fork",
}
GUARDS = ("above", "limits", "control", "dir", "fits")


@dataclass(frozen=True)
class Machine:
    """`cgroups` by path the files of each, by name; `live` from a PID to a path."""
    cgroups: dict
    live: dict


def view(state):
    """The machine of a state of the exact model."""
    cgroups = {path: {name: (replace(entry, value=None), entry.value) for name, entry in cgroup.entries.items()} for path, cgroup in state.cgroups.items()}
    return Machine(cgroups, {pid: path for pid, (_, path) in state.live.items()})


def entry_is(machine, path, file, test):
    """Whether a file is there and its entry passes a test."""
    found = machine.cgroups.get(path, {}).get(file)
    return found is not None and test(found[0])


def can_write(machine, user, path, file):
    return entry_is(machine, path, file, lambda entry: rules.writes(user, entry))


def bound(machine, path, file):
    """The number that a limit has, or None."""
    value = machine.cgroups.get(path, {}).get(file, (None, None))[1]
    return value if isinstance(value, int) else None


def descendants(machine, top):
    return sum(rules.inside(path, top) and path != top for path in machine.cgroups)


def is_full(machine, path):
    """Whether a cgroup above has no room for one more descendant, and whether one has none for so many levels."""
    most = [(top, bound(machine, top, DESCENDANTS), bound(machine, top, DEPTH)) for top in rules.upwards(path)[1:]]
    return (any(count is not None and 1 + descendants(machine, top) > count for top, count, _ in most),
            any(levels is not None and len(path) - len(top) > levels for top, _, levels in most))


def has_child(machine, path):
    return any(len(other) == len(path) + 1 and rules.inside(other, path) for other in machine.cgroups)


def bars(machine, user, act):
    """The refusals that an act meets, in the order of REFUSALS; those of its kind are asked alone."""
    kind, *words = act
    if kind == "move":
        pid, to = words
        met = [pid not in machine.live or not can_write(machine, user, rules.common(machine.live[pid], to), PROCS)]
    elif kind == "mkdir":
        met = [words[0] in machine.cgroups, *is_full(machine, words[0])]
    elif kind == "rmdir":
        met = [not can_write(machine, user, words[0][:-1], DIR), has_child(machine, words[0])]
    elif kind == "write":
        met = [not can_write(machine, user, words[0], words[1])]
    elif kind == "chmod":
        met = [not entry_is(machine, words[0], words[1], lambda entry: rules.owns(user, entry))]
    elif kind == "enable":
        met = [not can_write(machine, user, words[0], CONTROL)]
    elif kind == "fork":
        met = [words[1] in machine.live]
    else:
        met = []
    return [name for name, is_met in zip([name for name, about in REFUSALS.items() if about == kind], met) if is_met]


def done(machine, act):
    """What is, once an act is let through."""
    kind, *words = act
    cgroups, live = machine.cgroups, machine.live
    if kind == "move":
        return replace(machine, live={**live, words[0]: words[1]} if words[0] in live else live)
    if kind == "fork":
        others = {pid: path for pid, path in live.items() if pid != words[1]}
        return replace(machine, live={**others, words[1]: live[words[0]]} if words[0] in live else others)
    if kind == "exit":
        return replace(machine, live={pid: path for pid, path in live.items() if pid != words[0]})
    if kind == "rmdir":
        return replace(machine, cgroups={path: files for path, files in cgroups.items() if path != words[0]})
    if kind == "mkdir":
        return replace(machine, cgroups={**cgroups, words[0]: words[1]})
    if kind == "enable":
        return replace(machine, cgroups={path: equipped(files, words[1].get(path, {})) if is_child(path, words[0]) else files
                                         for path, files in cgroups.items()})
    changed = rewritten if kind == "write" else reopened
    return replace(machine, cgroups={**cgroups, words[0]: changed(cgroups[words[0]], *words[1:])} if words[0] in cgroups else cgroups)


def is_child(path, top):
    return len(path) == len(top) + 1 and rules.inside(path, top)


def equipped(files, made):
    return {**{name: files[name] for name in STANDING if name in files}, **made}


def rewritten(files, _file, values):
    """With what is written, and what that turns beside it: `values` by file."""
    return {name: (entry, values.get(name, value)) if name not in STANDING else (entry, value) for name, (entry, value) in files.items()}


def reopened(files, file, gid, mode):
    return {**files, file: (replace(files[file][0], gid=gid, mode=mode), files[file][1])} if file in files else files


def step(machine, user, act, left_out=()):
    """What an act leaves, with some refusals left out, and whether it was let through."""
    is_let = all(name in left_out for name in bars(machine, user, act))
    return (done(machine, act), True) if is_let else (machine, False)


def limits_of(machine, top):
    return {name: value for name, (_, value) in machine.cgroups[top].items() if name not in STANDING}


def fits(machine, top):
    """Whether a cgroup has no more descendants and levels than it says."""
    count, levels = bound(machine, top, DESCENDANTS), bound(machine, top, DEPTH)
    deepest = max((len(path) - len(top) for path in machine.cgroups if rules.inside(path, top)), default=0)
    return (count is None or descendants(machine, top) <= count) and (levels is None or deepest <= levels)


def broken(limits, before, after, top):
    """What an act breaks of a subtree that had these limits at the start, or None."""
    if top not in after.cgroups:
        return "gone"
    for pid, path in before.live.items():
        if pid in after.live and rules.inside(path, top) != rules.inside(after.live[pid], top):
            return f"crossed {pid}"
    if limits_of(after, top) != limits:
        return "limits"
    return None if fits(after, top) else "counts"


def guards_failed(machine, user, top):
    """The guards that fail for a user: each of GUARDS once at most."""
    def is_reached(path, file):
        return entry_is(machine, path, file, lambda entry: rules.reaches(user, entry))

    files = [name for name in machine.cgroups[top] if name not in STANDING]
    failed = {"above": any(is_reached(path, PROCS) for path in rules.upwards(top)[1:]), "limits": any(is_reached(top, file) for file in files),
              "control": is_reached(top[:-1], CONTROL), "dir": is_reached(top[:-1], DIR), "fits": not fits(machine, top)}
    return [name for name in GUARDS if failed[name]]

