"""Cases that are each directed at one rule, asked in turn and not by chance: the order of any two tries and the text of each, the bounds of
every limit file, each name that is none, limits of every cgroup above, who owns what comes, and the order in which classes are advised."""
import itertools

from second import commands, rules
from second.controllers import ALL_CONTROLLERS
from second.limit_files import LIMIT_FILES, LINES, MAX, MOST, NUMBER_FILES, TEXT_FILES, accepts, is_text, other_value
from second.rules import text_of
from trials import trees

PARENT, TOP = ("a",), ("a", "b")
USER = (1000, ())
# tries in their order: those of limit files, and by the entry that lets them through the others
REMOVAL, MOVE, PROBE = "removal", "move", "probe"
TRIED = [*LIMIT_FILES, rules.CONTROL, REMOVAL, MOVE, PROBE]
NAMES = [*sorted(rules.RESERVED), ".", ".."]
GOOD_NAMES = [chr(byte) for byte in range(0x21, 0x7F) if chr(byte) not in "/."]
NEAR_NAMES = ["...", "..a", ".a", "cgroup.controllers2", "cgroup.controller", "cgroup.max", "CGROUP.PROCS", "pids.max.x", "cgroup.kill",
              "cpu.max", "memory.stat"]
BAD_BYTES = [b" ", b"\t", b"\0", b"\r", b"\x1f", b"\x7f", b"\x80", b"\xff", b"\xc3\xa9", b"/", b"//x", b"/./x", b""]
# who is let in by one class or another of an entry of uid 1000 and gid 5
CLASSES = {"owner": [(1000, ()), (1000, (5,))], "group": [(1001, (5,)), (1002, (6, 5))], "others": [(1003, ()), (1003, (6,))]}


def bare_tree(form, enabled):
    """A subtree of root's in a cgroup of root's, both of which have what is enabled."""
    controllers = list(ALL_CONTROLLERS if form == 4 else rules.CONTROLLERS)
    rows = {path: {"path": text_of(path)} for path in ((), PARENT, TOP)}
    rows[()]["enabled"] = list(controllers)
    rows[PARENT]["enabled"] = [name for name in enabled if name in controllers]
    return trees.Tree(form, controllers, rows, [], USER, TOP)


def user_words(user):
    return ["--uid", str(user[0])] + [word for gid in user[1] for word in ("--gid", str(gid))]


# Two tries, of which the first is the one that is printed


def two_tries(rng, turn, first, later):
    tree = bare_tree(2 if {first, later}.isdisjoint(TEXT_FILES) else 4, ALL_CONTROLLERS)
    for tried in (first, later):
        let_through(tree, tried)
    for file in [tried for tried in (first, later) if tried in LIMIT_FILES]:
        give_value(rng, tree, file, turn == 0)
    if {first, later} <= {MOVE, PROBE}:
        tree.processes = [{"pid": rng.choice(trees.FEW_PIDS), "uid": 0, "at": text_of(TOP)}]
    return tree, ["check", *user_words(USER), "--subtree", text_of(TOP)], None


def let_through(tree, tried):
    """Has the user own what a try takes; a process that is moved in or out goes by the root."""
    own = {"uid": USER[0]}
    if tried in LIMIT_FILES:
        tree.entry(TOP, tried).update(own)
    elif tried in (rules.CONTROL, REMOVAL):
        tree.entry(PARENT, rules.CONTROL if tried == rules.CONTROL else rules.DIR).update(own)
    else:
        for path in ((), TOP):
            tree.entry(path, rules.PROCS).update(own)
        if tried == PROBE:
            tree.entry((), rules.DIR).update(own)
        tree.processes = [{"pid": 10, "uid": 0, "at": "/"}]


def give_value(rng, tree, file, is_loose):
    """A value that the try has to turn: at first the one that loosens the file, and then any."""
    if not is_text(file):
        known = [rules.default_of(file), MAX, 0, 1, 100, 10000]
        tree.entry(TOP, file)["value"] = rng.choice([value for value in known if accepts(file, value)])
        return
    loose = LIMIT_FILES[file].loose
    other = other_value(file, loose)
    device = rng.choice(["8:0", "sev", "d" * 255]) + " " if LIMIT_FILES[file].form == LINES and rng.random() < 0.6 else ""
    value = rng.choice([loose] if is_loose else [loose, [loose, other], [other, loose], other, "7"])
    if is_loose or rng.random() < 0.85:
        tree.entry(TOP, file)["value"] = [device + line for line in value] if isinstance(value, list) else device + value


# Bounds of a limit file, as an operation and as a text says them


def bounds_of(file):
    least, greatest, _ = LIMIT_FILES[file].form
    return [rules.default_of(file), least, least + 1, greatest - 1, greatest, MAX, *[least - 1] * (least > 0), greatest + 1]


def set_to_bounds(rng, _turn, file):
    tree = bare_tree(rng.choice([1, 2]), rules.CONTROLLERS)
    tree.entry(TOP, file)["uid"] = USER[0]
    values = [*bounds_of(file), 2 ** 63, 2 ** 64 - 1]
    rng.shuffle(values)
    return replayed(tree, [("set", TOP, file, value) for value in values])


def read_at_bounds(rng, _turn, file):
    tree = bare_tree(rng.choice([1, 2]), rules.CONTROLLERS)
    values = [value for value in [*bounds_of(file), -1] if value == MAX or value <= MOST]
    tree.entry(TOP, file)["value"] = rng.choice(values)
    return tree, ["upgrade"], None


# Names


def named(rng, _turn, name):
    """A name that is none, in a line, in a text or on the command line."""
    tree, place = bare_tree(rng.choice([1, 2]), []), rng.randrange(3)
    tree.entry(PARENT, rules.DIR)["uid"] = USER[0]
    path = PARENT + (name,)
    if place == 0:
        return replayed(tree, [("mkdir", PARENT + ("x",)), ("mkdir", path), ("rmdir", PARENT + ("x",))])
    if place == 1:
        tree.rows[path] = {"path": text_of(path)}
        return tree, ["upgrade"], None
    return tree, ["check", *user_words(USER), "--subtree", text_of(path)], None


def good_names(rng, _turn):
    tree, names = bare_tree(2, []), [*GOOD_NAMES, *NEAR_NAMES]
    tree.entry(PARENT, rules.DIR)["uid"] = USER[0]
    rng.shuffle(names)
    return replayed(tree, [("mkdir", PARENT + (name,)) for name in names])


def bad_name(rng, _turn):
    tree = bare_tree(2, [])
    tree.entry(PARENT, rules.DIR)["uid"] = USER[0]
    tree, words, lines = replayed(tree, [("mkdir", PARENT + ("x",))])
    return tree, words, [*lines, b"mkdir /a/" + rng.choice([b"", b"y"]) + rng.choice(BAD_BYTES), *lines]


# Limits of a cgroup above what is made


def limited(rng, _turn, path, file):
    """Cgroups are made one in the other until a limit bars the next."""
    tree = bare_tree(rng.choice([1, 2]), [])
    for each in tree.rows:
        tree.entry(each, rules.DIR)["uid"] = USER[0]
    tree.entry(path, file)["value"] = len(TOP) - len(path) + rng.choice([0, 0, 1, 2])
    made = [TOP + ("x",) * depth for depth in range(1, 5)] + [PARENT + ("y",), ("z",)]
    return replayed(tree, [("mkdir", each) for each in made])


# What comes is theirs


def theirs_behind_a_control(rng, _turn, sign):
    """A cgroup is made, then a control above it brings or takes files; what it had is still its maker's."""
    names = rng.sample(ALL_CONTROLLERS, rng.choice([1, 1, 2, 9]))
    tree = bare_tree(4, [] if sign == "+" else ALL_CONTROLLERS)
    for name in rules.STANDING:
        tree.entry(PARENT, name)["uid"] = USER[0]
    new = PARENT + ("new",)
    files = ["cgroup.freeze", *(file for file in TEXT_FILES if LIMIT_FILES[file].controller in names)]
    deeds = [("set", new, file, "1") for file in files] + [("chmod", new, file, 0o600) for file in files]
    turned = ("control", PARENT, tuple((sign, name) for name in names))
    return replayed(tree, [("mkdir", new), turned, deeds[0], *rng.sample(deeds, min(len(deeds), 6))])


# Classes of one entry


def two_classes(rng, _turn, *classes):
    tree = bare_tree(2, rules.CONTROLLERS)
    path, name = rng.choice([((), rules.PROCS), (TOP, "pids.max"), (PARENT, rules.CONTROL), (PARENT, rules.DIR)])
    tree.entry(path, name).update({"uid": 1000, "gid": 5, "mode": rng.choice([0o666, 0o777])})
    users = [rng.choice(CLASSES[each]) for each in classes]
    rng.shuffle(users)
    words = [word for uid, gids in users for word in ("--uid", f"{uid}:{','.join(map(str, gids))}".rstrip(":"))]
    return tree, ["advise", *words, "--subtree", text_of(TOP)], None


def replayed(tree, operations):
    lines = [commands.spelling(each).encode("ascii") for each in operations]
    return tree, ["replay", *user_words(tree.user), "--subtree", text_of(TOP)], lines


# each with what it is about
ROWS = [*((two_tries, *pair) for pair in zip(TRIED, TRIED[1:])),
        *((maker, file) for maker in (set_to_bounds, read_at_bounds) for file in NUMBER_FILES),
        *((named, name) for name in NAMES), (good_names,), (bad_name,), (bad_name,),
        *((limited, path, file) for path in ((), PARENT, TOP) for file in (rules.DESCENDANTS, rules.DEPTH)),
        *((theirs_behind_a_control, sign) for sign in "+-"),
        *((two_classes, *classes) for count in (2, 3) for classes in itertools.combinations(CLASSES, count))]


# rows of one kind are asked one after the other by no run; it has no divisor with their number
STRIDE = 37


def row_of(number):
    return ROWS[number * STRIDE % len(ROWS)]


def is_wide(number):
    """Whether the row of a number is of format 4."""
    maker, *about = row_of(number)
    return maker == theirs_behind_a_control or maker == two_tries and not {*about}.isdisjoint(TEXT_FILES)


def drawn(rng, number):
    """A tree, words and lines of operations, or None, of the row of a number."""
    maker, *about = row_of(number)
    return maker(rng, number // len(ROWS) % 2, *about)
