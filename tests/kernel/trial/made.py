"""Made cases of operations: two in which each mutant is wrong at a step of its own, so that it is found in a run of however few
cases; three in which a process of root comes to another cpuset; and for each controller two of what internal processes bar where it
alone is enabled."""
import random

from second import rules
from trial import making
from trials import trees

USER, OTHER = (1000, (5, 6)), 1001
SHARED, ONE, TWO = ("shared",), ("shared", "one"), ("shared", "two")
OWN, FLAT, CHILD, LEAF, BUSY = ("own",), ("own", "flat"), ("own", "child"), ("own", "child", "leaf"), ("own", "busy")
ALONE = "one controller"
# by the mutant of mutants.MUTANTS that says something else of it
STEPS = {
    "asks nothing of the common ancestor": ("move", 10, TWO),
    "knows the first group alone": ("set", ONE, "pids.max", 7),
    "sets modes of what is another's": ("chmod", SHARED, rules.PROCS, 0o666),
    "enables what isn't available": ("control", ONE, (("+", "memory"),)),
    "disables what a child uses": ("control", OWN, (("-", "pids"),)),
    "has no limit of descendants": ("mkdir", CHILD + ("x",)),
    "has no limit of depth": ("mkdir", FLAT + ("x",)),
    "removes what has children": ("rmdir", CHILD),
    "removes what has processes": ("rmdir", BUSY),
    "ends processes of others": ("exit", 11),
    "moves its own processes alone": ("move", 11, LEAF),
    "doesn't exempt the root": ("move", 10, ()),
}
# by that of mutants.OF_FORMAT_4
STEPS_OF_FORMAT_4 = {
    "has cpu, memory and pids alone": ("control", FLAT, (("+", "hugetlb"),)),
    "takes processes where another controller is enabled": ("move", 12, CHILD),
    "disables another controller that a child uses": ("control", OWN, (("-", "io"), ("+", "memory"))),
    "enables another controller that isn't available": ("control", CHILD, (("+", "misc"),)),
}


def tree_of(form, controllers, enabled, paths, places):
    """A tree whose user owns the directory and the control files of every cgroup but the root and SHARED, and may move at the root."""
    rows = {path: {"path": rules.text_of(path), "enabled": enabled.get(path, [])} for path in paths}
    processes = [{"pid": pid, "uid": uid, "at": rules.text_of(path)} for pid, uid, path in places]
    tree = trees.Tree(form, list(controllers), rows, processes, USER, paths[1])
    for path in paths:
        if path and path != SHARED:
            for name in rules.STANDING:
                tree.entry(path, name)["uid"] = USER[0]
    tree.entry((), rules.PROCS)["mode"] = 0o646
    return tree


def made_tree():
    enabled = {(): list(rules.CONTROLLERS), SHARED: ["pids"], OWN: ["pids"], CHILD: ["pids"]}
    places = [(10, USER[0], ONE), (11, OTHER, ONE), (12, USER[0], BUSY)]
    tree = tree_of(2, rules.CONTROLLERS, enabled, [(), SHARED, ONE, TWO, OWN, FLAT, CHILD, LEAF, BUSY], places)
    tree.entry(ONE, "pids.max").update({"gid": USER[1][1], "mode": 0o664})
    tree.entry(CHILD, rules.DESCENDANTS)["value"] = 1
    tree.entry(FLAT, rules.DEPTH)["value"] = 0
    return tree


def made_tree_of_format_4(controllers):
    enabled = {(): list(controllers), OWN: ["io", "memory", "hugetlb"], CHILD: ["io"]}
    return tree_of(4, controllers, enabled, [(), OWN, FLAT, CHILD, LEAF, BUSY], [(12, USER[0], BUSY)])


def trees_of_one(controllers, controller):
    """Two trees with one step each, barred by internal processes: a move to where one controller alone is enabled, and that where
    a process is."""
    enabled = {(): [controller]}
    yield tree_of(4, controllers, {**enabled, OWN: [controller]}, [(), OWN, FLAT], [(10, USER[0], ())]), ("move", 10, OWN)
    yield tree_of(4, controllers, enabled, [(), OWN, FLAT], [(10, USER[0], OWN)]), ("control", OWN, (("+", controller),))


def trees_of_cpusets(controllers):
    """Three trees with one step each, by which a process of root comes to another cpuset."""
    paths, on = [(), OWN, FLAT], {(): ["cpuset"], OWN: ["cpuset"]}
    yield tree_of(4, controllers, {(): ["cpuset"]}, paths, [(10, 0, ())]), ("move", 10, OWN)
    yield tree_of(4, controllers, on, paths, [(10, 0, FLAT)]), ("control", OWN, (("-", "cpuset"),))
    yield tree_of(4, controllers, {(): ["cpuset"]}, paths, [(10, 0, FLAT)]), ("control", OWN, (("+", "cpuset"),))


def case_of(kind, rng, drawn, controllers, steps):
    tree, text, state = making.settled(rng, drawn, controllers)
    return making.Case(kind, text, [(tree.user, step) for step in steps], [tree.subtree], state)


def made_cases(controllers):
    """The cases of operations for kernels with some controllers."""
    rng = random.Random("made")
    return [case_of("operations", rng, made_tree(), controllers, STEPS.values()),
            case_of("operations", rng, made_tree_of_format_4(controllers), controllers, STEPS_OF_FORMAT_4.values()),
            *(case_of("operations", rng, tree, controllers, [step]) for tree, step in trees_of_cpusets(controllers)),
            *(case_of(ALONE, rng, tree, controllers, [step]) for name in controllers for tree, step in trees_of_one(controllers, name))]
