"""Limit files whose values are texts, made at random: what trees have of them, with its faults, and operations on them, with lines that are
nearly such."""
import itertools

from second import rules
from second.controllers import ALL_CONTROLLERS
from second.limit_files import LIMIT_FILES, LINES, LONGEST_DEVICE, LONGEST_LINE, LONGEST_VALUE, NUMBER_FILES, TEXT_FILES, is_text, is_value, other_value
from second.rules import text_of
from trials import trees
from trials.spelling import Raw

# those whose lines begin with a device
DEVICE_FILES = [file for file, row in LIMIT_FILES.items() if row.form == LINES]
# of another kind, of a size that has no row, or spelled otherwise
NONE = ["memory.oom.group", "memory.reclaim", "pids.peak", "pids.current", "io.cost.qos", "cgroup.kill", "cgroup.type", "cgroup.freez",
        "cpu.maximum", "cpu.max.", "CPU.MAX", "cpu", "cpu.stat", "cpuset.cpus.effective", "cpuset.mems.effective", "hugetlb.4MB.max",
        "hugetlb.2MB", "hugetlb.2mb.max", "hugetlb.2MB.rsvd", "hugetlb.2MB.current", "rdma.current", "misc.capacity", "dmem.current"]
VALUES = ["max", "0", "1", "05", "-5", "+5", "default 50", "50000 100000", "8:0 rbps=1048576 wiops=120", "0-3,5", "a b c d", "~", "\\",
          "'\"", "max max", "cpu.max 1", "member"]
# devices and resources; the last is a byte too long
DEVICES = ["8:0", "253:16", "sev", "mlx5_0", "drm/0000:03:00.0/vram0", "max", "default", *2 * [LONGEST_DEVICE * "d"],
           *2 * [(LONGEST_DEVICE + 1) * "d"]]
# what no value is; the last are a byte too long
BAD_VALUES = ["", " ", "1 ", " 1", *3 * ["1  2"], "1\t2", "1\x1f", *6 * ["\x7f", "1 \x7f"], "\xe9", "1\r", "1\0",
              (LONGEST_VALUE + 1) * "x", "x" + (LONGEST_VALUE // 2) * " x"]
LONG = [LONGEST_VALUE * "x", "xx" + (LONGEST_VALUE // 2 - 1) * " x"]
# what a text may have, longer than a line of operations may be; numbers; what is no value; and what is none at all
LONG_LINES = [(LONGEST_VALUE + 1) * "x", *2 * [LONGEST_LINE * "x"], "x" + (LONGEST_LINE // 2) * " x"]
NUMBERS = [0, 5, -5, 100, 1073741824, 2 ** 63 - 1, -2 ** 63]
NO_LINES = ["", " ", "1 ", " 1", "1  2", "1\t2", "1\n2", "1\n", "\x7f", "\xe9", *3 * [(LONGEST_LINE + 1) * "x"],
            "xx" + (LONGEST_LINE // 2) * " x"]
NO_ARRAYS = [*4 * [[]], [""], ["1", ""], ["1", "2 "], ["1\n2"], ["1", "1", "1  2"], ["1", (LONGEST_LINE + 1) * "x"]]
WRONG = [True, {}, Raw("1.5"), Raw("07:32:00"), [1], ["1", 2], [["1"]], [True], [{}], ["", 1], {"value": "1"}]


def texts_at(state, path):
    """The limit files of a path whose values are texts, in their order."""
    return [file for file in rules.files_at(state, path) if is_text(file)]


def named_at(state, path):
    """Those of them that a tree's text, a set or a chmod named."""
    return [file for file in texts_at(state, path) if file in state.cgroups[path].named]


def some_text(rng, file):
    """A value for a limit file, mostly a short one."""
    return rng.choice([LIMIT_FILES[file].loose, rng.choice(VALUES), rng.choice(VALUES)]) if rng.random() < 0.96 else rng.choice(LONG)


def file_where(rng, state, holds):
    """A path and a limit file of it for which something holds, where there is one; mostly, and often one that was named."""
    found = [(path, name) for path in state.cgroups for name in texts_at(state, path)
             if holds(state.cgroups[path].entries[name])]
    named = [(path, name) for path, name in found if name in named_at(state, path)]
    if found and rng.random() < 0.7:
        return rng.choice(named if named and rng.random() < 0.6 else found)
    path = rng.choice(list(state.cgroups))
    return path + ("new",) * (rng.random() < 0.15), rng.choice(TEXT_FILES)


def some_operation(rng, state, user):
    """A set or a chmod of a limit file, mostly where the user may."""
    if rng.random() < 0.4:
        return "chmod", *file_where(rng, state, lambda entry: rules.owns(user, entry)), rng.choice([0o000, 0o222, 0o444, 0o644, 0o600])
    path, file = file_where(rng, state, lambda entry: rules.writes(user, entry))
    return "set", path, file, near_text(rng, state, path, file)


def near_text(rng, state, path, file):
    """A value for a limit file: at times what it has, or its first line."""
    has = state.cgroups[path].values.get(file, "") if path in state.cgroups else ""
    lines = [text for text in (has, has.split("\n")[0]) if is_value(text)]
    return rng.choice(lines) if lines and rng.random() < 0.4 else some_text(rng, file)


def some_deed(rng, state, path):
    """A set or a chmod of a limit file at a path, one that stands there if any does."""
    file = rng.choice(texts_at(state, path) or TEXT_FILES)
    return rng.choice([("set", path, file, some_text(rng, file)), ("chmod", path, file, rng.choice([0o400, 0o444, 0o600]))])


# What texts name


def name_some(rng, tree):
    """Has a tree's text name some limit files, most often of the subtree's, at times of all that stand in a cgroup."""
    for path in [path for path in tree.rows if path]:
        able = files_of(tree, path)
        if rng.random() < (0.6 if path == tree.subtree else 0.2):
            named = rng.sample(able, min(len(able), rng.choice([1, 1, 2, 3, 3, len(able)])))
            for file in named:
                name_one(rng, tree, path, file)
            if rng.random() < 0.35:
                share_one(rng, tree, path, rng.choice(named))


def share_one(rng, tree, path, file):
    """Lets the user reach it, or be near to it, at times where it has the text that loosens it, alone or among other lines."""
    trees.share(rng, tree, path, file)
    if rng.random() < 0.3:
        device = f"{rng.choice(DEVICES)} " if file in DEVICE_FILES and rng.random() < 0.7 else ""
        line, other = device + LIMIT_FILES[file].loose, device + rng.choice(VALUES)
        tree.entry(path, file)["value"] = rng.choice([line, [line], [line, other], [other, line]])


def files_of(tree, path):
    """The limit files that stand in a cgroup of a tree other than the root."""
    brought = tree.rows[path[:-1]].get("enabled", [])
    return [file for file in TEXT_FILES if LIMIT_FILES[file].controller in (None, *brought)]


def name_one(rng, tree, path, file):
    table = tree.entry(path, file)
    own = {"uid": tree.user[0]} if path != tree.subtree else {}
    table.update(rng.choice([{}, {}, {"uid": 0}, {"gid": 5}, {"uid": 7, "mode": 0o600}, {"gid": 77, "mode": 0o664}, own, own]))
    if rng.random() < 0.8:
        table["value"] = some_value(rng, file)


def some_value(rng, file):
    """A value as a text has it."""
    loose, chance = LIMIT_FILES[file].loose, rng.random()
    if file in DEVICE_FILES and rng.random() < 0.6:
        return value_of_device(rng, file)
    if chance < 0.25:
        digits = loose.removeprefix("-").isdigit()
        return rng.choice([loose, loose, other_value(file, loose), "0", [loose], int(loose) if digits else loose])
    if chance < 0.4:
        return rng.choice(NUMBERS)
    if chance < 0.43:
        return rng.choice([*LONG_LINES, [rng.choice(LONG_LINES), "1"]])
    if chance < 0.7:
        return rng.choice(VALUES)
    return [rng.choice([*VALUES, loose]) for _ in range(rng.choice([1, 1, 2, 2, 3, 8]))]


def value_of_device(rng, file):
    """A value of a file whose lines begin with a device: at times with a line of another one or one more of the same, or with a first line
    of one word."""
    device, other = rng.choice(DEVICES), rng.choice(DEVICES)
    loose = LIMIT_FILES[file].loose
    line = f"{device} {rng.choice([*3 * [loose], LIMIT_FILES[file].other, rng.choice(VALUES)])}"
    return rng.choice([*5 * [line], [line], *2 * [[line, f"{other} {loose}"]], [f"{other} 1", line], *2 * [[f"{device} 1", line]],
                       [f"{other} 1", loose], [device, line], [device, f"{other} 1"], [device, "1"], device, loose, loose])


# Faults of a document that names them


def turn(rng, parts):
    rng.choice([bad_lines, bad_lines, wrong_type, bad_entry, nowhere, nowhere, two_nowhere, of_other_formats])(rng, parts)


def named_row(rng, parts):
    """A row with the table of a limit file, which it may have had before."""
    row = rng.choice([rng.choice(parts["cgroup"]), parts["cgroup"][-1]])
    files = row.setdefault("files", {})
    there = [name for name in files if name in TEXT_FILES]
    return files.setdefault(rng.choice(there) if there and rng.random() < 0.7 else rng.choice(TEXT_FILES), {})


def bad_lines(rng, parts):
    named_row(rng, parts)["value"] = rng.choice(rng.choice([NO_LINES, NO_ARRAYS]))
    if rng.random() < 0.3:
        rng.choice([bad_entry, wrong_type, bad_lines])(rng, parts)


def wrong_type(rng, parts):
    """What isn't of its type, and keys that the table hasn't."""
    if rng.random() < 0.8:
        named_row(rng, parts)["value"] = rng.choice(WRONG)
    else:
        named_row(rng, parts)[rng.choice(["values", "uid", "owner", "gid"])] = rng.choice(["0", [], True])


def bad_entry(rng, parts):
    named_row(rng, parts).update(rng.choice([{"uid": -1}, {"uid": 2 ** 32}, {"gid": 2 ** 32}, {"gid": -1}, {"mode": 0o1000}, {"mode": -1},
                                            {"mode": 644}]))


def nowhere(rng, parts):
    """Mostly one that doesn't stand; at the root none has a key."""
    roots = [row for row in parts["cgroup"] if row["path"] == "/"]
    if roots and rng.random() < 0.5:
        roots[0].setdefault("files", {})[rng.choice(["cgroup.freeze", "cgroup.freeze", rng.choice(TEXT_FILES)])] = {}
    else:
        named_row(rng, parts)


def two_nowhere(rng, parts):
    """One in a row, and one whose values are numbers in another."""
    rows = rng.sample(parts["cgroup"], 2) if len(parts["cgroup"]) > 1 else 2 * parts["cgroup"]
    rows[0].setdefault("files", {})[rng.choice(TEXT_FILES[1:])] = {}
    rows[1].setdefault("files", {}).setdefault(rng.choice(NUMBER_FILES[2:]), {})


def of_other_formats(rng, parts):
    named_row(rng, parts)
    parts["format"] = rng.choice([1, 2, 2])


# Operations that belong together


def make_room(rng, tree):
    """Hands the subtree over with nothing in the way of cgroups in it, and enables above it all that the root has, most of the nine, so that
    its user brings files."""
    tree.controllers += [c for c in ALL_CONTROLLERS if c not in tree.controllers and rng.random() < 0.8]
    above = rules.upwards(tree.subtree)
    for path in above[1:]:
        tree.rows[path]["enabled"] = list(tree.controllers)
    for process in tree.processes:
        process["at"] = "/" if process["at"] in map(text_of, above) else process["at"]
    for path, file in itertools.product(above, (rules.DESCENDANTS, rules.DEPTH)):
        tree.entry(path, file).pop("value", None)
    for name in rules.STANDING:
        tree.entry(tree.subtree, name).clear()
        tree.entry(tree.subtree, name)["uid"] = tree.user[0]
    if rng.random() < 0.15:
        tree.entry(tree.subtree[:-1], rules.CONTROL)["uid"] = tree.user[0]


def open_device(rng, tree):
    """Lets the user reach a file of the subtree, or be near to it, whose lines mostly begin with a device, and more often one whose other text
    is a row of its own; its value is one of such a file."""
    make_room(rng, tree)
    able = [file for file in files_of(tree, tree.subtree) if file in (*DEVICE_FILES, "io.weight") or rng.random() < 0.03] or ["cgroup.freeze"]
    file = rng.choices(able, [2 if LIMIT_FILES[file].other != "0" else 1 for file in able])[0]
    tree.entry(tree.subtree, file).clear()
    trees.share(rng, tree, tree.subtree, file)
    if rng.random() < 0.9:
        tree.entry(tree.subtree, file)["value"] = value_of_device(rng, file)


def some_operations(rng, state, user):
    """At times operations that belong together: a limit file that a user or a text named goes and comes back, a set or a chmod of
    each in turn, be it there or not, or sets of one to what it has."""
    again = [(path, file) for path in state.cgroups for file in named_at(state, path)
             if rules.writes(user, state.cgroups[path].entries[file]) and is_value(first_line(state, path, file))]
    if again and rng.random() < 0.4:
        return set_again(rng, state, *rng.choice(again))
    parents = [path for path, cgroup in state.cgroups.items() if rules.available(state, path) and not rules.lives_at(state, path) and all(
        rules.writes(user, cgroup.entries[name]) for name in (rules.DIR, rules.CONTROL))]
    if not parents or rng.random() < 0.1:
        return []
    parent = rng.choice(parents)
    named = [(child, file) for child in rules.children(state, parent) for file in named_at(state, child) if LIMIT_FILES[file].controller]
    if named and rng.random() < 0.4:
        return named_and_back(rng, state, parent, *rng.choice(named))
    return (every_file if rng.random() < 0.45 else gone_and_back)(rng, parent, sorted(rules.available(state, parent)))


def first_line(state, path, file):
    return state.cgroups[path].values.get(file, "").split("\n")[0]


def set_again(rng, state, path, file):
    again = ("set", path, file, first_line(state, path, file))
    return [again, *rng.choice([[], [("set", path, file, some_text(rng, file)), again]])]


def named_and_back(rng, state, parent, child, file):
    """A file that a text names goes with its controller, or another's goes, and it is set or its mode changes."""
    away = [LIMIT_FILES[file].controller] if rng.random() < 0.7 else rng.sample(sorted(state.cgroups[parent].enabled), 1)
    seen = [("set", child, file, near_text(rng, state, child, file)), ("chmod", child, file, rng.choice([0o400, 0o600]))]
    return [control(parent, sign, controller) for controller in away for sign in "-+"] + rng.sample(seen, 2)


def every_file(rng, parent, controllers):
    child, files = parent + ("new",), rng.sample(TEXT_FILES, len(TEXT_FILES))
    deeds = [("chmod", child, file, 0o600) if rng.random() < 0.2 else ("set", child, file, some_text(rng, file)) for file in files]
    at_root = rng.choice([("set", (), "cgroup.freeze", "0"), ("chmod", (), "cgroup.freeze", 0o644)])
    return [at_root, ("control", parent, tuple(("+", c) for c in controllers)), ("mkdir", child), *deeds]


def gone_and_back(rng, parent, controllers):
    """With its controller or its cgroup, or not at all, where another's comes or it is enabled once more."""
    controller, child = rng.choice(controllers), parent + ("new",)
    names = [name for name in TEXT_FILES if LIMIT_FILES[name].controller == controller]
    file, value = rng.choice(names or ["cgroup.freeze"]), some_text(rng, "cpu.max")
    deeds = [("set", child, file, value), ("chmod", child, file, rng.choice([0o400, 0o000, 0o444]))]
    away = [[control(parent, "-", controller), control(parent, "+", controller)], [("rmdir", child), ("mkdir", child)],
            [control(parent, "+", controller)], [control(parent, "+-", rng.choice(ALL_CONTROLLERS))]]
    seen = [("set", child, file, value), ("set", child, rng.choice(names or [file]), value)]
    return [control(parent, "+", controller), ("mkdir", child), *deeds[rng.choice([0, 1]):], *rng.choice(away), *seen]


def control(parent, signs, controller):
    return "control", parent, tuple((sign, controller) for sign in signs)


def later_line(rng):
    """A line that is an operation's in format 4 alone."""
    path, file = rng.choice(["/", "/a"]), rng.choice(TEXT_FILES)
    return rng.choice([f"set {path} {file} {rng.choice(VALUES)}", f"chmod {path} {file} 644"]).encode()


def bad_line(rng):
    """A line that is no operation's in format 4 either."""
    file, value = rng.choice(TEXT_FILES), rng.choice(BAD_VALUES)
    return rng.choice([*5 * [f"set / {file} {value}"], *4 * [f"set / {file} {(LONGEST_VALUE + 1) * 'x'}"], f"set / {file}",
                       f"set {file} max", f"set / {rng.choice(NONE)} max",
                       *2 * ["set / hugetlb.4MB.max max"], f"set /  {file} max", f"chmod / {rng.choice(NONE)} 644", f"chmod / {file} 0644",
                       f"chmod / {file} 644 644",
                       f"set / {rng.choice(NUMBER_FILES)} max max", f"set / {rng.choice(NUMBER_FILES)} -1"]
                      ).encode("latin-1")
