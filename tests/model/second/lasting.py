"""The second model: the second row of guards, by the words of docs/MODEL.md. Written from that page alone, as rules.py is.

What lasts is found by taking away what nothing supports until all that is left is supported: the greatest.
"""
import itertools
from dataclasses import dataclass

from . import rules
from .rules import CONTROL, DEPTH, DESCENDANTS, DIR, MAX, PROCS


@dataclass
class Lasting:
    """The cgroups that stay, and the pairs of a cgroup and a controller that stay on and that stay off."""
    stays: set
    on: set
    off: set


def is_reached(state, users, path, name):
    entry = state.cgroups[path].entries.get(name)
    return entry is not None and any(rules.reaches(user, entry) for user in users)


def supported(those, is_supported):
    """The greatest part of a set in which each member is supported by the others."""
    while True:
        left = {one for one in those if is_supported(one, those)}
        if left == those:
            return left
        those = left


def lasting_of(state, users):
    stays = supported(set(state.cgroups), lambda path, others: not path or not is_reached(state, users, path[:-1], DIR)
                      or any(child in others for child in rules.children(state, path)))
    pairs = set(itertools.product(stays, rules.controllers_of(state)))
    on = supported({(path, c) for path, c in pairs if c in state.cgroups[path].enabled},
                   lambda pair, others: is_on(state, users, others, *pair))
    off = supported({(path, c) for path, c in pairs if c not in state.cgroups[path].enabled},
                    lambda pair, others: not is_reached(state, users, pair[0], CONTROL) or is_away(state, others, *pair))
    return Lasting(stays, on, off)


def is_on(state, users, on, path, controller):
    """Whether a controller that a cgroup enables is never disabled there."""
    return not is_reached(state, users, path, CONTROL) or any((child, controller) in on for child in rules.children(state, path))


def is_away(state, off, path, controller):
    return (path[:-1], controller) in off if path else controller not in state.controllers


def is_full(state, users, lasting, path):
    return any(bounds(state, users, lasting, top, path) for top in rules.upwards(path))


def bounds(state, users, lasting, top, path):
    """Whether the limits of a cgroup above a path, or of the path itself, leave no room for a child of the path."""
    left = {DESCENDANTS: sum(one in lasting.stays for one in rules.below(state, top)), DEPTH: len(path) - len(top)}
    return any(most != MAX and most <= count and not is_reached(state, users, top, file)
               for (file, count), most in zip(left.items(), rules.bounds(state, top)))


def takes_none(state, users, lasting, path):
    if not is_reached(state, users, path, PROCS):
        return True
    return bool(path) and "memory" in state.cgroups[path].enabled and is_on(state, users, lasting.on, path, "memory")


def grows_none(state, users, lasting, path):
    return not is_reached(state, users, path, DIR) or is_full(state, users, lasting, path)


def second_row_holds(state, users, top):
    """Whether it holds for some users together."""
    lasting = lasting_of(state, users)
    if top not in lasting.stays or rules.over(state, top):
        return False
    if any((top[:-1], controller) not in lasting.on | lasting.off for controller in rules.controllers_of(state)):
        return False
    if any(is_reached(state, users, top, file) for file in rules.LIMIT_FILES):
        return False
    edges = [above for above in rules.upwards(top)[1:] if is_reached(state, users, above, PROCS)]
    closed = [path for path in state.cgroups if edges and rules.inside(path, top) or rules.common(path, top) in edges]
    return all(takes_none(state, users, lasting, path) and grows_none(state, users, lasting, path) for path in closed)
