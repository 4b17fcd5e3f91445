"""Operations that are aimed at a subtree: all that a program would let through which forgot a guard, a group, a class of a mode, an
ancestor, a child or a limit file.
"""
from second import rules
from second.limit_files import is_text

# how many of each kind are tried where a tree is drawn
MOST = 80


def tries_of(state, users, tops):
    """All that users try against subtrees, and behind it what empties and removes these."""
    found = [(user, step) for top in tops for user in users for step in steps_at(state, user, top)]
    behind = [(user, step) for top in tops for user in users for step in emptying(state, user, top)]
    return found, behind


def steps_at(state, user, top):
    for _, path, name in [each for each in rules.guarded(state, top) if rules.is_shown(state, *each[1:])]:
        yield "chmod", path, name, 0o777
    for file in [file for file in rules.files_at(state, top) if not is_text(file)]:
        yield "set", top, file, rules.other_value(file, state.cgroups[top].entries[file].value)
    for controller in sorted(state.controllers):
        for sign in "-+":
            yield "control", top[:-1], ((sign, controller),)
    yield "rmdir", top
    takers = [path for path, cgroup in sorted(state.cgroups.items()) if not path or not cgroup.enabled]
    for pid in rules.rising(state):
        is_in = rules.inside(state.live[pid][1], top)
        yield from (("move", pid, path) for path in takers if rules.inside(path, top) != is_in)
    for ancestor in rules.upwards(top)[1:]:
        yield "mkdir", ancestor + (f"aimed{user[0]}",)
        yield from (("move", pid, ancestor + (f"aimed{user[0]}",)) for pid in rules.rising(state) if rules.inside(state.live[pid][1], top))


def emptying(state, user, top):
    """The user's processes end, and cgroups are removed, the deepest first."""
    yield from (("exit", pid) for pid, (uid, place) in sorted(state.live.items()) if uid == user[0] and rules.inside(place, top))
    inside = sorted((path for path in state.cgroups if rules.inside(path, top)), key=len, reverse=True)
    yield from (("rmdir", path) for path in inside)
