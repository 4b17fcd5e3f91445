"""The second model: what each guard and the second row ask of one user and one subtree, and by what it is so, by the words of
docs/FORMATS.md and docs/MODEL.md. Written from these pages alone, as rules.py is.
"""
from . import lasting, rules
from .rules import CONTROL, DEPTH, DESCENDANTS, DIR, PROCS, text_of


def lines_of(state, user, top):
    """All lines of a pair but the first, which names it, and the last, which is its answer."""
    further = second_row(state, [user], top) if rules.failures(state, user, top) else []
    return first_row(state, user, top) + further + limits(state, top)


def line_of(holds, *words):
    return " ".join(["holds" if holds else "fails", *map(str, words)])


def first_row(state, user, top):
    shown = [each for each in rules.guarded(state, top) if rules.is_shown(state, *each[1:])]
    return [entry_line(user, guard, path, name, state.cgroups[path].entries[name]) for guard, path, name in shown]


def entry_line(user, guard, path, name, entry):
    reached = rules.reaches(user, entry)
    words = [guard, text_of(path), name, f"{entry.uid}:{entry.gid}", f"{entry.mode:03o}"]
    return line_of(not reached, *words, *[rules.class_of(user, entry)] * reached)


def second_row(state, users, top):
    found = lasting.lasting_of(state, users)
    lines = [line_of(top in found.stays, "stays", text_of(top), stays_by(state, users, found, top))]
    for controller in rules.controllers_of(state):
        by = control_by(state, users, found, top[:-1], controller)
        lines.append(line_of(by != "turned", "control", text_of(top[:-1]), controller, by))
    reached = any(lasting.is_reached(state, users, top, file) for file in rules.LIMIT_FILES)
    lines.append(line_of(not reached, "files", text_of(top), "reached" if reached else "spared"))
    for path in led_to(state, users, top):
        takes, grows = takes_by(state, users, found, path), grows_by(state, users, found, path)
        lines.append(line_of(takes != "takes" and grows != "grows", "shut", text_of(path), takes, grows))
    return lines


def stays_by(state, users, found, top):
    if not lasting.is_reached(state, users, top[:-1], DIR):
        return "spared"
    return "upheld" if any(child in found.stays for child in rules.children(state, top)) else "removed"


def control_by(state, users, found, parent, controller):
    if (parent, controller) in found.on:
        return "on"
    return "off" if would_stay_off(state, users, parent, controller) else "turned"


def would_stay_off(state, users, path, controller):
    """Whether a controller would stay off at a cgroup if that and all above it stayed."""
    if controller in state.cgroups[path].enabled:
        return False
    if not lasting.is_reached(state, users, path, CONTROL):
        return True
    return would_stay_off(state, users, path[:-1], controller) if path else controller not in state.controllers


def led_to(state, users, top):
    """The cgroups to which a move over the edge may lead, in the order of paths."""
    doors = [above for above in rules.upwards(top)[1:] if lasting.is_reached(state, users, above, PROCS)]
    return [path for path in sorted(state.cgroups) if (doors if rules.inside(path, top) else rules.common(path, top) in doors)]


def takes_by(state, users, found, path):
    if not lasting.is_reached(state, users, path, PROCS):
        return "spared"
    return "enabling" if lasting.takes_none(state, users, found, path) else "takes"


def grows_by(state, users, found, path):
    if not lasting.is_reached(state, users, path, DIR):
        return "spared"
    return "full" if lasting.is_full(state, users, found, path) else "grows"


def limits(state, top):
    there = {DESCENDANTS: len(rules.below(state, top)), DEPTH: rules.depth_below(state, top)}
    return [line_of(file not in rules.over(state, top), "already-over", text_of(top), file, count, state.cgroups[top].entries[file].value)
            for file, count in there.items()]
