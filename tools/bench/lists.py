"""Lists of operations for tools/bench/run, each made from a fixed seed."""
import random

from texts import cgroup, delegated, head, process

MOST_OPERATIONS = 65536


class List:
    """A tree's text, operations that prepare it, those that are measured, and a list half as long, the first half if no other."""

    def __init__(self, name, tree, ops, before=(), half=None):
        self.name, self.tree, self.ops, self.before = name, tree, list(ops), list(before)
        self.half = half or self.ops[: len(self.ops) // 2]

    def texts(self):
        """The lines of what prepares, of that with half of the operations, and of that with all."""
        return ["".join(op + "\n" for op in self.before + ops) for ops in ([], self.half, self.ops)]


def root_alone(controllers=()):
    return head(controllers) + cgroup("/", delegated(1000))


def mkdirs(order):
    """As many mkdirs below the root as a replay has operations."""
    names = ["/m%05d" % i for i in range(MOST_OPERATIONS)]
    order(names)
    return root_alone(), ["mkdir " + name for name in names]


def fan_out(count=MOST_OPERATIONS, width=16):
    """Mkdirs level by level, so many below each cgroup."""
    paths = [""]
    for i in range(count):
        paths.append("%s/c%02d" % (paths[i // width], i % width))
    return root_alone(), ["mkdir " + path for path in paths[1:]]


def chain(rng, levels, count):
    """Operations at cgroups of a chain: a cgroup is made below one, gets a limit and another mode, and is removed."""
    rows, path, paths = [cgroup("/", delegated(1000))], "", []
    for _ in range(levels):
        path += "/a"
        paths.append(path)
        rows.append(cgroup(path, delegated(1000)))
    return head([]) + "".join(rows) + process(7, path), in_turn([rng.choice(paths) for _ in range(count // 4)])


def in_turn(places):
    """A cgroup is made below each of these, gets a limit and another mode, and is removed."""
    ops = []
    for place in places:
        ops += ["mkdir %s/x" % place, "set %s/x cgroup.max.depth 3" % place, "chmod %s/x dir 700" % place, "rmdir %s/x" % place]
    return ops


def wide(rng, top="", count=4095):
    """A wide tree with 4096 processes, and its places: the cgroups below a cgroup or the root."""
    places = [top + "/c%04d" % i for i in range(count)]
    above = [cgroup("/")] + [cgroup(top, delegated(1000))] if top else [cgroup("/", delegated(1000))]
    rows = above + [cgroup(p, delegated(1000)) for p in places]
    return head(["memory"]) + "".join(rows) + "".join(process(p, rng.choice(places)) for p in range(1, 4097)), places


def mixed(rng, top="", count=4095):
    """A wide tree, and operations of all kinds, nearly all of which are carried out, below a cgroup or the root."""
    tree, places = wide(rng, top, count)
    live = list(range(1, 4097))
    made, unused, ops = ["%s/x" % places[0]], 5000, ["mkdir %s/x" % places[0]]
    while len(ops) < MOST_OPERATIONS:
        kind = rng.randrange(8)
        if kind == 0:
            ops.append("move %d %s" % (rng.choice(live), rng.choice(places)))
        elif kind == 1:
            ops.append("control %s" % rng.choice(places))
        elif kind == 2 or len(made) < 2:
            made.append("%s/x%d" % (rng.choice(places), len(ops)))
            ops.append("mkdir %s" % made[-1])
        elif kind == 3:
            ops.append("rmdir %s" % made.pop(rng.randrange(len(made))))
        elif kind == 4:
            ops.append("set %s cgroup.max.depth %d" % (rng.choice(made), rng.randrange(100)))
        elif kind == 5:
            unused += 1
            ops.append("fork %d %d" % (rng.choice(live), unused))
            live.append(unused)
        elif kind == 6:
            ops.append("exit %d" % live.pop(rng.randrange(len(live))))
        else:
            ops.append("chmod %s dir 755" % rng.choice(places))
    return tree, ops


def moves(rng):
    """Each of 4096 processes is moved again and again."""
    tree, places = wide(rng)
    return tree, ["move %d %s" % (i % 4096 + 1, rng.choice(places)) for i in range(MOST_OPERATIONS)]


def controls(at, count=MOST_OPERATIONS):
    """Memory is turned on and off at a cgroup in turn."""
    return ["control %s %smemory" % (at, "+-"[i % 2]) for i in range(count)]


def of_children(count):
    """A cgroup with so many children, below a root that enables memory."""
    rows = [cgroup("/", 'enabled = ["memory"]\n'), cgroup("/s", delegated(1000))]
    return head(["memory"]) + "".join(rows + [cgroup("/s/c%04d" % i, delegated(1000)) for i in range(count)])


def after_mkdirs(at):
    """A cgroup with one child and one that gets 49000, and then 16000 controls at one of them."""
    rows = [cgroup("/", 'enabled = ["memory"]\n')] + [cgroup(path, delegated(1000)) for path in ("/few", "/many", "/few/c")]
    before = ["mkdir /many/c%05d" % i for i in range(49000)]
    return head(["memory"]) + "".join(rows), controls(at, 16000), before


def removed(count):
    """A cgroup is made and removed so many times beside one that stays, and then memory turned on and off above, twice as often."""
    return ["mkdir /s/x", "rmdir /s/x"] * count + controls("/s", 2 * count)


def removed_at_once(count):
    """The same where all are made before the first is removed."""
    paths = ["/s/x%05d" % i for i in range(count)]
    return ["mkdir " + path for path in paths] + ["rmdir " + path for path in paths] + controls("/s", 2 * count)


def lists():
    """Every list, the trees of some being as large as a text may have them."""
    rng = random.Random(20261122)
    yield List("65536 mkdirs, rising", *mkdirs(lambda names: None))
    yield List("65536 mkdirs, falling", *mkdirs(list.reverse))
    yield List("65536 mkdirs, shuffled", *mkdirs(rng.shuffle))
    yield List("65536 mkdirs, 16 below each", *fan_out())
    yield List("12000 along a chain 1023 deep", *chain(rng, 1023, 12000))
    yield List("12000 along a chain 2042 deep", *chain(rng, 2042, 12000))
    yield List("65536 mixed, 4096 cgroups", *mixed(rng))
    yield List("65536 moves of 4096 processes", *moves(rng))
    yield List("65536 controls, 4000 children", of_children(4000), controls("/s"))
    yield List("16000 controls, 1 child of 49000", *after_mkdirs("/few"))
    yield List("16000 controls, 49000 children", *after_mkdirs("/many"))
    tree, places = wide(rng)
    for name, ops in (("in turn", removed), ("at once", removed_at_once)):
        many = MOST_OPERATIONS // 4
        yield List("65536: removed %s, controls" % name, of_children(1), ops(many), half=ops(many // 2))
    yield List("65536: make, set, chmod, remove", tree, in_turn([rng.choice(places) for _ in range(MOST_OPERATIONS // 4)]))
