"""A second model of Zirofen: the rules. Written from docs/MODEL.md and docs/FORMATS.md alone, and from no code of crates/.

Keep it so: whoever changes it reads these two pages and nothing below crates/, since what was written from the code repeats
the code's mistakes. It is plain and slow: each count is taken anew from all paths, and each try of an answer is carried out.

A path is a tuple of names. A user is (uid, gids). A state and what it holds are never changed: a step makes another state.
"""
import functools
import itertools
from dataclasses import dataclass, replace
from typing import Union

from .controllers import ALL_CONTROLLERS, CONTROLLERS
from .limit_files import LIMIT_FILES, MAX, accepts, files_in, other_value

# the limit files that bound what is made
DESCENDANTS, DEPTH = "cgroup.max.descendants", "cgroup.max.depth"
DIR, PROCS, CONTROL = "dir", "cgroup.procs", "cgroup.subtree_control"
STANDING = (DIR, PROCS, CONTROL)
RESERVED = {"cgroup.controllers", PROCS, CONTROL, *files_in(1)}
# the entries with which each cgroup is written
WRITTEN = {*STANDING, *files_in(1)}
LONGEST_PATH, LONGEST_NAME = 4095, 255
LAST_PID = 4194303
DIR_MODE, FILE_MODE = 0o755, 0o644


@dataclass(frozen=True)
class Entry:
    """`value` is a limit file's: a number, `max`, or a text with a newline between two lines; None where it isn't known."""
    uid: int = 0
    gid: int = 0
    mode: int = FILE_MODE
    value: Union[int, str, None] = None


@dataclass(frozen=True)
class Cgroup:
    """`entries` by name: the directory, the control files and all limit files that stand. `named`: of the limit files of format 4 those that
    the tree text names, and those that a set or a chmod named since."""
    entries: dict
    enabled: frozenset = frozenset()
    named: frozenset = frozenset()

    @property
    def values(self):
        """The values of the limit files of which they are known."""
        return {name: entry.value for name, entry in self.entries.items() if entry.value is not None}


@dataclass(frozen=True)
class State:
    """`cgroups` by path, `live` from a PID to (uid, path), `used` the PIDs that a process ever had; the format in which it is written,
    which is 2 or 4."""
    controllers: frozenset
    cgroups: dict
    live: dict
    used: frozenset
    form: int = 2


def text_of(path):
    return "/" + "/".join(path)


def path_of(text):
    """The path that a text spells, or None."""
    if text == "/":
        return ()
    names = text.split("/")
    if names[0] != "" or len(names) == 1 or len(text) > LONGEST_PATH:
        return None
    return tuple(names[1:]) if all(is_name(name) for name in names[1:]) else None


def is_name(name):
    is_word = 1 <= len(name) <= LONGEST_NAME and all(0x21 <= ord(letter) <= 0x7E for letter in name)
    return is_word and name not in (".", "..") and name not in RESERVED


def inside(path, top):
    return path[:len(top)] == top


def below(state, top):
    return [path for path in state.cgroups if inside(path, top) and path != top]


def children(state, top):
    return [path for path in below(state, top) if len(path) == len(top) + 1]


def depth_below(state, top):
    return max((len(path) - len(top) for path in below(state, top)), default=0)


def common(one, other):
    length = 0
    while length < min(len(one), len(other)) and one[length] == other[length]:
        length += 1
    return one[:length]


def upwards(path):
    """The path and its ancestors, the nearest first."""
    return [path[:length] for length in range(len(path), -1, -1)]


def owns(user, entry):
    return entry.uid == user[0]


def class_of(user, entry):
    if owns(user, entry):
        return "owner"
    return "group" if entry.gid in user[1] else "others"


def writes(user, entry):
    bit = {"owner": 0o200, "group": 0o020, "others": 0o002}[class_of(user, entry)]
    return entry.mode & bit != 0


def reaches(user, entry):
    return writes(user, entry) or owns(user, entry)


def made_by(user, mode):
    return Entry(user[0], user[1][0] if user[1] else 0, mode)


def available(state, path):
    return state.cgroups[path[:-1]].enabled if path else state.controllers


def brought(state, path):
    """The controllers whose files stand at a path."""
    return state.cgroups[path[:-1]].enabled if path else frozenset()


def controllers_of(state):
    """`cpu`, `memory`, `pids` and what else the root has: all others are off everywhere for good."""
    return [c for c in ALL_CONTROLLERS if c in CONTROLLERS or c in state.controllers]


@functools.lru_cache(maxsize=None)
def standing(controllers, is_root):
    """The limit files that stand where these controllers bring theirs, in their order."""
    return tuple(file for file, row in LIMIT_FILES.items()
                 if (row.controller in controllers if row.controller else row.at_root or not is_root))


def files_at(state, path):
    """The limit files that belong at a path, in their order."""
    return standing(brought(state, path), not path)


def is_shown(state, path, name):
    """Whether reports name an entry, and trees are written with it: all but limit files of format 4 that nothing named."""
    return name in WRITTEN or name in state.cgroups[path].named


def default_of(file):
    return LIMIT_FILES[file].default


def rising(state):
    """The live PIDs in their order."""
    return sorted(state.live)


def lives_at(state, path):
    return any(place == path for _, place in state.live.values())


# Operations: ("move", pid, path), ("control", path, ((sign, controller), ..)), ("mkdir", path), ("rmdir", path),
# ("set", path, file, value), where the value is of the file's form, ("fork", parent, child), ("exit", pid),
# ("chmod", path, entry, mode).


def entry_bar(state, user, path, name):
    return [] if writes(user, state.cgroups[path].entries[name]) else [f"no-access {text_of(path)} {name}"]


def bars(state, user, operation):
    """The clauses that an operation fails, in order."""
    return BARS[operation[0]](state, user, *operation[1:])


def missing(state, path):
    return [] if path in state.cgroups else [f"no-such-cgroup {text_of(path)}"]


def move_bars(state, user, pid, to):
    found = missing(state, to)
    if to in state.cgroups:
        found += entry_bar(state, user, to, PROCS)
    if pid not in state.live:
        found.append(f"no-such-process {pid}")
    else:
        found += entry_bar(state, user, common(state.live[pid][1], to), PROCS)
    if to and to in state.cgroups and state.cgroups[to].enabled:
        found.append(f"internal-process {text_of(to)}")
    return found


def effective(changes):
    """Of several changes on one controller the last."""
    return {controller: sign for sign, controller in changes}


def enabled_after(state, path, changes):
    last = effective(changes)
    enabled = state.cgroups[path].enabled
    return frozenset(c for c in ALL_CONTROLLERS if last.get(c, "+" if c in enabled else "-") == "+")


def control_bars(state, user, path, changes):
    if path not in state.cgroups:
        return missing(state, path)
    found = entry_bar(state, user, path, CONTROL)
    last = effective(changes)
    for controller in ALL_CONTROLLERS:
        used = any(controller in state.cgroups[child].enabled for child in children(state, path))
        if last.get(controller) == "+" and controller not in available(state, path):
            found.append(f"not-available {controller}")
        if last.get(controller) == "-" and controller in state.cgroups[path].enabled and used:
            found.append(f"child-uses {controller}")
    if path and enabled_after(state, path, changes) - state.cgroups[path].enabled and lives_at(state, path):
        found.append(f"internal-process {text_of(path)}")
    return found


def bounds(state, path):
    """The most cgroups below a path, and the most levels."""
    return [state.cgroups[path].entries[file].value for file in (DESCENDANTS, DEPTH)]


def limit_bars(state, parent):
    """What bars a further child of a cgroup: of each ancestor, the nearest first, its descendants and then its depth."""
    found = []
    for top in upwards(parent):
        most, deepest = bounds(state, top)
        if most != MAX and len(below(state, top)) >= most:
            found.append(f"descendant-limit {text_of(top)}")
        if deepest != MAX and len(parent) - len(top) >= deepest:
            found.append(f"depth-limit {text_of(top)}")
    return found


def mkdir_bars(state, user, path):
    if path in state.cgroups:
        return [f"exists {text_of(path)}"]
    parent = path[:-1]
    return missing(state, parent) or entry_bar(state, user, parent, DIR) + limit_bars(state, parent)


def rmdir_bars(state, user, path):
    if not path:
        return ["root-cgroup"]
    if path not in state.cgroups:
        return missing(state, path)
    found = entry_bar(state, user, path[:-1], DIR)
    if children(state, path):
        found.append(f"has-children {text_of(path)}")
    if lives_at(state, path):
        found.append(f"has-processes {text_of(path)}")
    return found


def set_bars(state, user, path, file, value):
    found = missing(state, path)
    if not found and file not in state.cgroups[path].entries:
        found.append(f"no-such-file {text_of(path)} {file}")
    elif not found:
        found += entry_bar(state, user, path, file)
    return found if accepts(file, value) else found + [f"bad-value {file}"]


def fork_bars(state, user, parent, child):
    return exit_bars(state, user, parent) + ([f"pid-used {child}"] if child in state.used else [])


def exit_bars(state, user, pid):
    if pid not in state.live:
        return [f"no-such-process {pid}"]
    return [] if state.live[pid][0] == user[0] else [f"not-yours {pid}"]


def chmod_bars(state, user, path, name, _mode):
    if path not in state.cgroups:
        return missing(state, path)
    if name not in state.cgroups[path].entries:
        return [f"no-such-file {text_of(path)} {name}"]
    return [] if owns(user, state.cgroups[path].entries[name]) else [f"not-owner {text_of(path)} {name}"]


BARS = {"move": move_bars, "control": control_bars, "mkdir": mkdir_bars, "rmdir": rmdir_bars, "set": set_bars,
        "fork": fork_bars, "exit": exit_bars, "chmod": chmod_bars}


def next_state(state, user, operation):
    """The state after an operation that nothing bars."""
    return NEXT[operation[0]](state, user, *operation[1:])


def with_cgroup(state, path, cgroup):
    return replace(state, cgroups={**state.cgroups, path: cgroup})


def after_move(state, _user, pid, to):
    return replace(state, live={**state.live, pid: (state.live[pid][0], to)})


def refitted(state, user, path):
    """A cgroup with the limit files that belong at it: one that stands is kept, and one that comes is the user's, with its default."""
    old = state.cgroups[path]
    entries = {name: old.entries[name] for name in STANDING}
    for file in files_at(state, path):
        entries[file] = old.entries.get(file) or replace(made_by(user, FILE_MODE), value=default_of(file))
    return replace(old, entries=entries, named=old.named & {*entries})


def after_control(state, user, path, changes):
    state = with_cgroup(state, path, replace(state.cgroups[path], enabled=enabled_after(state, path, changes)))
    for child in children(state, path):
        state = with_cgroup(state, child, refitted(state, user, child))
    return state


def after_mkdir(state, user, path):
    entries = {DIR: made_by(user, DIR_MODE), PROCS: made_by(user, FILE_MODE), CONTROL: made_by(user, FILE_MODE)}
    state = with_cgroup(state, path, Cgroup(entries))
    return with_cgroup(state, path, refitted(state, user, path))


def after_rmdir(state, _user, path):
    return replace(state, cgroups={other: cgroup for other, cgroup in state.cgroups.items() if other != path})


def with_entry(state, path, name, **changes):
    """A state in which something of an entry is changed."""
    old = state.cgroups[path]
    entries = {**old.entries, name: replace(old.entries[name], **changes)}
    return with_cgroup(state, path, replace(old, entries=entries, named=old.named | {name} - WRITTEN))


def after_set(state, _user, path, file, value):
    return with_entry(state, path, file, value=value)


def after_fork(state, _user, parent, child):
    return replace(state, live={**state.live, child: state.live[parent]}, used=state.used | {child})


def after_exit(state, _user, pid):
    return replace(state, live={other: process for other, process in state.live.items() if other != pid})


def after_chmod(state, _user, path, name, mode):
    return with_entry(state, path, name, mode=mode)


NEXT = {"move": after_move, "control": after_control, "mkdir": after_mkdir, "rmdir": after_rmdir, "set": after_set,
        "fork": after_fork, "exit": after_exit, "chmod": after_chmod}


def step(state, user, operation):
    """The state after an operation, and its refusal or None."""
    found = bars(state, user, operation)
    return (state, found[0]) if found else (next_state(state, user, operation), None)


# Subtrees


def crossing(before, after, top):
    """The processes that live in both states and are inside in one alone, rising."""
    both = sorted(before.live.keys() & after.live.keys())
    return [pid for pid in both if inside(before.live[pid][1], top) != inside(after.live[pid][1], top)]


def over(state, top):
    """The limits of a cgroup that it is over, with what is there."""
    there = {DESCENDANTS: len(below(state, top)), DEPTH: depth_below(state, top)}
    return {file: count for (file, count), most in zip(there.items(), bounds(state, top)) if most != MAX and count > most}


def limits_of(state, top):
    """The limit files that stand at a cgroup, with their values."""
    return {name: entry.value for name, entry in state.cgroups[top].entries.items() if name in LIMIT_FILES}


def broken(limits, before, after, top):
    """The first thing that a step breaks of a subtree whose limits at the start of the run are given, or None."""
    if top not in after.cgroups:
        return "gone"
    crossed = crossing(before, after, top)
    if crossed:
        return f"crossed {crossed[0]}"
    if limits_of(after, top) != limits:
        return "limits"
    exceeded = over(after, top)
    if DESCENDANTS in exceeded:
        return "descendants"
    return "depth" if DEPTH in exceeded else None


def verdict(states, top):
    """Over the states of a run, the first of which is its start."""
    limits = limits_of(states[0], top)
    for number, after in enumerate(states):
        before = states[max(number - 1, 0)]
        # a step that left the state as it was breaks nothing
        what = broken(limits, before, after, top) if number == 0 or after is not before else None
        if what:
            return f"broken {number} {what}"
    return "kept"


def guarded(state, top):
    """The guarded entries in order: each guard with the cgroup and the name of its entry."""
    found = [("common-ancestor", path, PROCS) for path in upwards(top)[1:]]
    found += [("limit-file", top, file) for file in files_at(state, top)]
    return found + [("parent-control", top[:-1], CONTROL), ("parent-dir", top[:-1], DIR)]


def failures(state, user, top):
    """The guards that fail, in order, each with the cgroup and the entry: None for already-over."""
    found = [each for each in guarded(state, top) if reaches(user, state.cgroups[each[1]].entries[each[2]])]
    return found + ([("already-over", top, None)] if over(state, top) else [])


def plain_tries(state, top):
    yield []
    for file in files_at(state, top):
        yield [("set", top, file, other_value(file, state.cgroups[top].entries[file].value))]
    for controller, sign in itertools.product(controllers_of(state), "-+"):
        yield [("control", top[:-1], ((sign, controller),))]
    yield [("rmdir", top)]
    for pid in rising(state):
        is_in = inside(state.live[pid][1], top)
        yield from ([("move", pid, path)] for path in sorted(state.cgroups) if inside(path, top) != is_in)
    yield from probes(state, top)


def probes(state, top):
    for ancestor in upwards(top)[1:]:
        number = 0
        while ancestor + (f"probe{number}",) in state.cgroups:
            number += 1
        probe = ancestor + (f"probe{number}",)
        if len(text_of(probe)) <= LONGEST_PATH:
            for pid in rising(state):
                if inside(state.live[pid][1], top):
                    yield [("mkdir", probe), ("move", pid, probe)]


def opening(state, user, top):
    found = []
    for _, path, name in guarded(state, top):
        entry = state.cgroups[path].entries[name]
        if owns(user, entry) and not writes(user, entry):
            found.append(("chmod", path, name, entry.mode | 0o200))
    return found


def tries(state, user, top):
    opened = opening(state, user, top)
    for operations in plain_tries(state, top):
        yield operations
        if opened:
            yield opened + operations


def breaks(state, user, top, operations):
    states = [state]
    for operation in operations:
        states.append(step(states[-1], user, operation)[0])
    return verdict(states, top) != "kept"


def answer(state, user, top):
    """("contained",), ("escapes", operations) or ("unsettled", guard, path)."""
    failed = failures(state, user, top)
    if not failed:
        return ("contained",)
    for operations in tries(state, user, top):
        if breaks(state, user, top, operations):
            return ("escapes", operations)
    return ("unsettled", failed[0][0], failed[0][1])


# Advice: for each entry that lets somebody in the reasons, and the changes that mend it for all of them; then the limits


def advice(state, pairs):
    """The lines of each entry that lets the user of a pair in, where the pairs meet it first, and of each subtree's limits."""
    let_in = {}
    for user, top in pairs:
        for guard, path, name in guarded(state, top):
            if reaches(user, state.cgroups[path].entries[name]):
                let_in.setdefault((path, name), (guard, []))[1].append(user)
    lines = []
    for (path, name), (guard, users) in let_in.items():
        lines += entry_lines(guard, f"{text_of(path)} {name}", state.cgroups[path].entries[name], users)
    for top in dict.fromkeys(top for _, top in pairs):
        lines += limit_lines(state, top)
    return lines


def limit_lines(state, top):
    """The lines of a subtree's limits, where it is over one."""
    exceeded = over(state, top)
    told = [f"fails already-over {text_of(top)}"] if exceeded else []
    return told + [f"set {text_of(top)} {file} {count}" for file, count in exceeded.items()]


def class_lines(guard, where, entry, classes):
    """A line for each of some classes by which an entry is reached, in their order."""
    told = f"fails {guard} {where} {entry.uid}:{entry.gid} {entry.mode:03o}"
    return [f"{told} {name}" for name in ("owner", "group", "others") if name in classes]


def entry_lines(guard, where, entry, users):
    return class_lines(guard, where, entry, {class_of(user, entry) for user in users}) + entry_changes(users, entry, where)


def entry_changes(users, entry, where):
    changes = []
    if any(owns(user, entry) for user in users):
        entry = replace(entry, uid=0)
        changes.append(f"chown {where} {entry.uid}:{entry.gid}")
    mode = entry.mode
    for user in users:
        mode &= ~(0o020 if class_of(user, entry) == "group" else 0o002)
    if mode != entry.mode:
        changes.append(f"chmod {where} {mode:03o}")
    return changes
