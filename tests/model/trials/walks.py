"""Walks of the machine that refuses as little as containment takes: random acts, most of them near a subtree."""
from dataclasses import dataclass

from second import machine, rules
from second.rules import CONTROL, DEPTH, DESCENDANTS, DIR, FILE_MODE, MAX, PROCS, STANDING, Entry

NEW = ["a", "new", "z"]
VALUES = [None, MAX, 0, 1, 2, 9, "1 2"]
MODES = [0, 0o020, 0o444, 0o600, 0o644, 0o664, 0o666, 0o777]
FILES = (DESCENDANTS, DEPTH, "cpu.weight", "cpu.max")
KINDS = {"move": 5, "mkdir": 5, "rmdir": 4, "write": 4, "chmod": 5, "enable": 3, "fork": 2, "exit": 1}
FIRST_NEW_PID = 5000000
MOST_ACTS = 40
DEEPER = 3


@dataclass
class Walk:
    """Where a walk is: the subtree, the users against whom it is contained, and the others among whom these act."""
    start: machine.Machine
    top: tuple
    users: list
    others: list = ()
    left_out: frozenset = frozenset()


def fault_of(rng, walk, acts=MOST_ACTS):
    """Walks, and returns what is broken and by which acts, or None. Others' acts that would break the subtree, or leave what is guarded
    within the users' reach, aren't made. Where nothing is left out the guards hold again after each act, or that is the fault."""
    here, limits, made = walk.start, machine.limits_of(walk.start, walk.top), []
    for _ in range(rng.randrange(1, acts + 1)):
        user = rng.choice(walk.users) if not walk.others or rng.random() < 0.7 else rng.choice(walk.others)
        act = random_act(rng, here, user, walk.top)
        after, is_let = machine.step(here, user, act, walk.left_out)
        if not is_let:
            continue
        what = machine.broken(limits, here, after, walk.top)
        is_open = not what and any(machine.guards_failed(after, each, walk.top) for each in walk.users)
        if user not in walk.users and (what or is_open):
            continue
        made.append((user, act))
        if what or is_open and not walk.left_out:
            return f"{what or 'a guard fails'} after {made}"
        here = after
    return None


def random_act(rng, here, user, top):
    kind = rng.choices(list(KINDS), list(KINDS.values()))[0]
    return (kind, *MAKERS[kind](rng, here, user, top))


def some_path(rng, here, top):
    """Mostly one on the way to the subtree, or in it."""
    if rng.random() < 0.5:
        return top[:rng.randrange(len(top) + 1)]
    near = [path for path in here.cgroups if rules.inside(path, top)]
    return rng.choice(near if near and rng.random() < 0.3 else list(here.cgroups) or [()])


def some_inode(rng, user):
    return rng.choice([Entry(user[0], 0, FILE_MODE), Entry(user[0], 0, FILE_MODE), Entry(0, 0, FILE_MODE), Entry(0, 0, 0o666)])


def some_limits(rng, user):
    return {file: (some_inode(rng, user), rng.choice(VALUES)) for file in FILES if rng.random() < 0.6}


def move(rng, here, _user, top):
    return (rng.choice(list(here.live)) if here.live else 1), some_path(rng, here, top)


def mkdir(rng, here, user, top):
    """At times of what was removed on the way to the subtree, with all that the user wants in it."""
    path, gone = some_path(rng, here, top), [path for path in rules.upwards(top) if path not in here.cgroups]
    if gone and rng.random() < 0.7:
        path = gone[-1]
    elif rng.random() < 0.75 and len(path) < len(top) + DEEPER:
        path = path + (rng.choice(NEW),)
    files = {name: (some_inode(rng, user), None) for name in STANDING}
    return path, {**files, **some_limits(rng, user)}


def rmdir(rng, here, user, top):
    """Mostly where the user may write the parent's directory, and there at times of what is above the subtree."""
    able = [path for path in here.cgroups if path and machine.can_write(here, user, path[:-1], DIR)]
    above = [path for path in able if rules.inside(top, path)]
    if above and rng.random() < 0.5:
        return (rng.choice(above),)
    return (rng.choice(able) if able and rng.random() < 0.6 else some_path(rng, here, top),)


def write(rng, here, _user, top):
    path = some_path(rng, here, top)
    files = [name for name in here.cgroups.get(path, {}) if name not in STANDING] or [DESCENDANTS]
    file = rng.choice(files)
    turned = {name: rng.choice(VALUES) for name in files if rng.random() < 0.2}
    return path, file, {**turned, file: rng.choice(VALUES)}


def chmod(rng, here, user, top):
    path = some_path(rng, here, top)
    file = rng.choice([*here.cgroups.get(path, {}), DIR, PROCS, CONTROL])
    return path, file, rng.choice([0, *user[1]]), rng.choice(MODES)


def enable(rng, here, user, top):
    path = top[:-1] if rng.random() < 0.3 else some_path(rng, here, top)
    return path, {child: some_limits(rng, user) for child in here.cgroups if machine.is_child(child, path)}


def fork(rng, here, _user, _top):
    child = rng.choice(list(here.live)) if here.live and rng.random() < 0.3 else FIRST_NEW_PID + rng.randrange(1000)
    return (rng.choice(list(here.live)) if here.live else 1), child


def leave(rng, here, _user, _top):
    return (rng.choice(list(here.live)) if here.live else 1,)


MAKERS = {"move": move, "mkdir": mkdir, "rmdir": rmdir, "write": write, "chmod": chmod, "enable": enable, "fork": fork, "exit": leave}
