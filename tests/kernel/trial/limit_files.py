"""Cases of the limit files whose values are texts: operations and escapes of random trees that name them, contained subtrees whose users
set every file that they may, for each file of a kernel the trees in which it alone is reached, and what a neighbour's file turns. They run
in the wide machine, and know which of the files the kernel has."""
import itertools
import random

from second import rules
from second.limit_files import LIMIT_FILES, TEXT_FILES
from trial import advice, asking, made, making, shown
from trials import cases, format_4, limit_files, trees

# the word by which kinds of cases are named on the command line, in what was recorded and in seeds
KIND, NEIGHBOURS = "further", "further neighbours"
OPERATIONS, ESCAPES, CONTAINED, ADVICE = (f"{KIND} {kind}" for kind in ("operations", "escapes", "contained", "advice"))
# how many of a boot's random cases are of each kind
SHARES = {OPERATIONS: 0.4, ESCAPES: 0.35, CONTAINED: 0.25}
TRIES, STEPS, ODD = 60, 16, 0.04
# which is refused where a cgroup beside it has the same CPUs
EXCLUSIVE = "cpuset.cpus.exclusive"
PARTITION = [("top",), ("beside",)]
DISC, OTHER_DISC = shown.DISCS
# what loosens the limits of a disc, whose line a kernel doesn't show then
OF_DISC = f"{DISC} rbps=max wbps=max riops=max wiops=max"
LINES = [f"{DISC} rbps=1048576 wbps=max riops=max wiops=max", f"{OTHER_DISC} rbps=max wbps=max riops=max wiops=120"]
SIZES = ["max", "0", "2097152", "1073741824"]
# what a kernel shows as it is written, and trees have as values; the first isn't the text that loosens the file
VALUES = {
    "cgroup.freeze": ["1", "0"], "cpu.idle": ["1", "0"], "cpu.max": ["50000 100000", "max 100000", "20000 50000"],
    "cpu.max.burst": ["1", "0", "1000"], "cpu.weight.nice": ["5", "-20", "-19", "0"], "cpuset.cpus": ["0", "0-1", "1"],
    "cpuset.cpus.exclusive": ["0", "0-1"], "cpuset.cpus.partition": ["root", "member"], "cpuset.mems": ["0", "0-1"],
    "io.max": [LINES[0], LINES, LINES[:1]], "io.weight": ["default 100", "default 10000", "default 9999"],
    **{file: ["0", "max", "1073741824"] for file in TEXT_FILES if file.startswith(("hugetlb.", "memory.swap.", "memory.zswap.max"))},
    "cpu.uclamp.max": ["50.00", "max"], "cpu.uclamp.min": ["0.00", "max", "12.50"], shown.WRITEBACK: ["0", "1"],
}
# what else is written to a file, beside what the program prints of it
WRITTEN = {"cpu.max": ["max", "30000"], "cpuset.cpus": ["0,1"], "cpuset.mems": ["0,1"], "io.weight": ["500"],
           "memory.swap.max": ["5000"], "memory.zswap.max": ["5000"], "io.max": [*LINES, OF_DISC, f"{DISC} wiops=7"],
           "hugetlb.2MB.max": ["2097153"]}


def some_text(rng, file):
    """What is set: mostly what a kernel takes, and at times what no kernel does."""
    if rng.random() < ODD:
        return rng.choice(limit_files.VALUES)
    texts = [text for text in VALUES.get(file, []) if isinstance(text, str)] + WRITTEN.get(file, [])
    if file in ("cgroup.freeze", shown.IDLE):
        # a process that is frozen can't be asked to fork
        return "0" if file == "cgroup.freeze" or rng.random() < 0.7 else "1"
    return rng.choice(texts or [LIMIT_FILES[file].loose])


def name_some(rng, tree, files):
    """Has a tree's text name some of a kernel's files, most often of the subtree's, with values that it shows so."""
    for path in [path for path in tree.rows if path]:
        able = [file for file in limit_files.files_of(tree, path) if file in files]
        if rng.random() < (0.9 if path == tree.subtree else 0.35):
            for file in rng.sample(able, min(len(able), rng.choice([1, 2, 3, 5, len(able)]))):
                limit_files.name_one(rng, tree, path, file)
                give_value(rng, tree, path, file)
            if rng.random() < 0.5:
                file = rng.choice(able)
                trees.share(rng, tree, path, file)
                give_value(rng, tree, path, file)


def give_value(rng, tree, path, file):
    """A value, or none, which isn't known. What turns `cpu.weight` is given with what that shows then."""
    table = tree.entry(path, file)
    table.pop("value", None)
    if file not in VALUES or file == EXCLUSIVE or rng.random() < 0.15:
        return
    table["value"] = rng.choice(VALUES[file]) if file not in ("cgroup.freeze", shown.IDLE, shown.PARTITION) else VALUES[file][1]
    if file == shown.NICE:
        tree.entry(path, shown.WEIGHT)["value"] = shown.weights_of({shown.NICE: table["value"]})[0]


def random_tree(rng, controllers, files):
    """A small random tree of format 4 with a subtree, that names limit files, with its text and its state."""
    while True:
        tree = trees.random_tree(rng)
        format_4.widen(rng, tree)
        if tree.subtree and rng.random() < 0.7:
            limit_files.make_room(rng, tree)
        keep_controllers(tree, controllers)
        if not tree.subtree or not making.is_small(tree):
            continue
        name_some(rng, tree, files)
        tree, text, state = making.settled(rng, tree, controllers)
        if state:
            return tree, text, state


def keep_controllers(tree, controllers):
    """Before it names files: takes from a tree what the kernel doesn't have."""
    for row in tree.rows.values():
        if "enabled" in row:
            row["enabled"] = [name for name in row["enabled"] if name in controllers]


def steps_of(rng, tree, state, users, count, files):
    """Operations of these users, chosen in the trees that those before them leave in the model: often of limit files, alone
    or several that belong together."""
    steps, several = [], []
    while len(steps) < count:
        user = several[0][0] if several else rng.choice(users)
        if not several and rng.random() < 0.15:
            several = [(user, step) for step in limit_files.some_operations(rng, state, user)][:8]
        if several:
            step = several.pop(0)[1]
        elif rng.random() < 0.5:
            step = limit_files.some_operation(rng, state, user)
        else:
            step = cases.random_operation(rng, tree, state, user)
        step = spoken(rng, making.settled_step(rng, state, step), files)
        state = rules.step(state, user, step)[0]
        steps.append((user, step))
    return steps


def spoken(rng, step, files):
    """A set or a chmod of such a limit file, mostly of one that the kernel has, with a text that it may take."""
    if step[0] not in ("set", "chmod") or step[2] not in TEXT_FILES:
        return step
    alike = [file for file in files if LIMIT_FILES[file].controller == LIMIT_FILES[step[2]].controller]
    file = step[2] if step[2] in files or not alike or rng.random() < 0.1 else rng.choice(alike)
    return (*step[:2], file, step[3] if step[0] == "chmod" else some_text(rng, file))


def of_operations(rng, _program, controllers, files):
    tree, text, state = random_tree(rng, controllers, files)
    return [making.Case(OPERATIONS, text, steps_of(rng, tree, state, [tree.user], STEPS, files), [tree.subtree], state)]


def of_escape(rng, program, controllers, files):
    tree, text, state = random_tree(rng, controllers, files)
    _, escape = asking.check(program, text, tree.user, tree.subtree)
    return [making.Case(ESCAPES, text, [(tree.user, step) for step in escape], [tree.subtree], state)] if escape else []


def of_contained(rng, program, controllers, files):
    """A case of what users try against all of whom its subtrees are contained, or none."""
    tree, text, state = random_tree(rng, controllers, files)
    users = list({tree.user, *(making.group_user(trees.user_of(rng)) for _ in range(rng.choice([0, 0, 1])))})
    tops = asking.contained(program, text, users, [path for path in state.cgroups if path])
    if not tops or not state.live:
        return []
    return [making.Case(CONTAINED, text, [], tops[:3], state, tries=steps_of(rng, tree, state, users, TRIES, files))]


MAKERS = {OPERATIONS: of_operations, ESCAPES: of_escape, CONTAINED: of_contained}


def random_cases(name, count, program, controllers, files):
    """So many random cases of a name, of each kind its share."""
    found = []
    for kind, share in SHARES.items():
        found += making.random_cases(lambda rng, *words, maker=MAKERS[kind]: maker(rng, *words, files), f"{kind} {name}",
                                     max(1, round(count * share)), program, controllers)
    return found


# Trees in which one file alone is reached


def wide_tree(controllers):
    """The bare tree of advice, in format 4, with every controller enabled above the subtree."""
    tree = advice.bare_tree()
    tree.form, tree.rows[()]["enabled"], tree.rows[advice.ABOVE]["enabled"] = 4, list(controllers), list(controllers)
    return tree


def trees_of_files(controllers, files):
    """Of each file that a kernel has trees in which the user reaches it alone, each in another way: as it is, with another text than
    that which loosens it, and with that one, where the kernel takes them."""
    ways = itertools.cycle(advice.WAYS)
    for file in files:
        loose = OF_DISC if file == "io.max" else LIMIT_FILES[file].loose
        for value in [None, *(text for text in (*VALUES.get(file, [])[:1], loose) if takes(file, text))]:
            tree = partition(controllers) if (file, value) == (shown.PARTITION, "root") else wide_tree(controllers)
            table = tree.entry(tree.subtree, file)
            table.update(next(ways))
            if value:
                table["value"] = value
            if file == shown.NICE and value:
                tree.entry(tree.subtree, shown.WEIGHT)["value"] = shown.weights_of({shown.NICE: value})[0]
            yield tree


def takes(file, text):
    """Whether a kernel takes a text of a file that shows what it does at first."""
    return shown.turned_by(file, text, {}) is not None


def partition(controllers):
    """A subtree below the root that has a CPU for itself, and a cgroup beside it."""
    paths = [(), *PARTITION]
    tree = trees.Tree(4, list(controllers), {path: {"path": rules.text_of(path)} for path in paths}, [], made.USER, PARTITION[0])
    tree.processes = [{"pid": 10, "uid": made.USER[0], "at": rules.text_of(PARTITION[1])}]
    tree.rows[()]["enabled"] = ["cpuset"]
    tree.entry(tree.subtree, "cpuset.cpus")["value"] = "0"
    tree.entry(tree.subtree, shown.PARTITION)["value"] = "root"
    return tree


def of_files(program, controllers, files):
    """Of each tree the printed escape, and the same with what is advised carried out before it."""
    found = []
    for number, tree in enumerate(trees_of_files(controllers, files)):
        rng = random.Random(f"further {number}")
        for case in advice.cases_of(rng, program, *advice.settled(tree, controllers), tries=6):
            case.kind = {"escapes": ESCAPES, "advice": ADVICE}[case.kind]
            found.append(case)
    return found


# Steps by which each mutant of mutants.OF_LIMIT_FILES is found
OWN, CHILD = ("own",), ("own", "child")
STEPS_OF_MUTANTS = {
    "lets anyone set a limit file": ("set", OWN, "cpu.max", "50000 100000"),
    "lets anyone set the mode of a limit file": ("chmod", OWN, "io.weight", 0o666),
    "takes limit files that a user brings for root's": ("set", CHILD, "cpu.max", "50000 100000"),
}


def made_operations(controllers):
    """The user owns /own, enables `cpu` there, and sets what that brings to its child."""
    tree = made.tree_of(4, controllers, {(): list(controllers)}, [(), OWN, CHILD], [])
    steps = list(STEPS_OF_MUTANTS.values())
    steps.insert(2, ("control", OWN, (("+", "cpu"),)))
    case = made.case_of(OPERATIONS, random.Random("made"), tree, controllers, steps)
    return [case]


def neighbours(controllers):
    """A partition that is contained against a user who reaches `cpuset.cpus` of the cgroup beside it, and sets it to each of its texts."""
    for text_set in ("0", "0-1"):
        tree = partition(controllers)
        tree.entry(PARTITION[1], "cpuset.cpus")["uid"] = made.USER[0]
        _, text, state = making.settled(random.Random("made"), tree, controllers)
        step = ("set", PARTITION[1], "cpuset.cpus", text_set)
        yield making.Case(NEIGHBOURS, text, [(made.USER, step)], [tree.subtree], state)


def made_cases(program, controllers, files):
    return made_operations(controllers) + of_files(program, controllers, files) + list(neighbours(controllers))
