"""Random cases that a kernel can be told: trees, users and operations of tests/model/trials, without what Linux has no word for."""
import itertools
import random
from dataclasses import dataclass, field

from second import rules, texts
from second.limit_files import MAX, MOST, NUMBER_FILES
from trial import aimed, asking, script
from trial.classes import GREATEST
from trials import cases, format_4, spelling, trees

NO_IDENTITY = 4294967295
SOMEBODY = 4294967294
SEARCH = 0o111
STEPS = 16
MOST_ROWS, LONGEST_PATH = 16, 1024
TRIES = 100
# how many of all trees are of format 4, and how many of its changes of a controller that the kernel doesn't have are left
OF_FORMAT_4, UNKNOWN = 0.5, 0.2
# what a user can try without privileges, and the model leaves out
OTHERS = ("threads", "rename", "born", "xattr", "chown", "write")
WRITTEN = ("cgroup.type", "cgroup.freeze", "cgroup.kill", "cgroup.threads", "cgroup.pressure", "memory.oom.group", "memory.reclaim",
           "memory.swap.max", "memory.swap.high", "cpu.max", "cpu.weight.nice", "cpu.idle", "cpu.max.burst", "memory.peak",
           "cgroup.controllers", "cgroup.events", "cgroup.stat", "cpu.pressure", "memory.pressure", "memory.zswap.max",
           "irq.pressure", "io.weight", "cpuset.mems", "cpuset.cpus.partition", *script.OTHERS.values())
TEXTS = ("0", "1", "max", "threaded", "domain", "10", "+pids", "100000", "root")


@dataclass
class Case:
    """The text of a tree and what is carried out on it: changes by root, steps and then tries, both with their users; and the
    subtrees that are looked at. The state is told before, after each change, each step and each try that was let through, and
    where there are tries at the end again. A case of a mutant has its name."""
    kind: str
    text: str
    steps: list
    subtrees: list
    state: rules.State = field(default=None, repr=False)
    mends: list = field(default_factory=list)
    tries: list = field(default_factory=list)
    turned: str = ""

    def as_record(self):
        return {"kind": self.kind, "text": self.text, "subtrees": [rules.text_of(top) for top in self.subtrees],
                "mends": self.mends, "steps": self.steps, "tries": self.tries, "turned": self.turned}

    @staticmethod
    def of_record(record):
        subtrees = [rules.path_of(top) for top in record["subtrees"]]
        state = texts.tree_of(record["text"].encode())
        return Case(record["kind"], record["text"], deeds_of(record["steps"]), subtrees, state, record["mends"],
                    deeds_of(record["tries"]), record["turned"])


def deeds_of(listed):
    return [((uid, tuple(gids)), tupled(step)) for (uid, gids), step in listed]


def tupled(value):
    return tuple(map(tupled, value)) if isinstance(value, list) else value


def identity(number):
    return SOMEBODY if number == NO_IDENTITY else number


def group_user(user):
    """A process has one group at least: who has none gets one that nothing in a tree has."""
    return identity(user[0]), tuple(map(identity, user[1])) or (4242,)


def settle(rng, tree, controllers):
    """Takes from a random tree what a kernel with some controllers can't be told: each line a difference of docs/MODEL.md or what it
    leaves out."""
    tree.user, tree.controllers = group_user(tree.user), list(controllers if tree.form == 4 else rules.CONTROLLERS)
    rename_rows(tree)
    for process in tree.processes:
        process["uid"] = identity(process["uid"])
    for path, row in tree.rows.items():
        if "enabled" in row:
            row["enabled"] = [name for name in row["enabled"] if name in tree.controllers]
        settle_entry(row.setdefault("dir", {}), 0o755, SEARCH)
        for name, entry in row.get("files", {}).items():
            settle_entry(entry, 0o644, 0)
            if "value" in entry and name in NUMBER_FILES:
                entry["value"] = settled_value(rng, name, entry["value"])


def settle_entry(entry, default, bits):
    for key in ("uid", "gid"):
        if key in entry:
            entry[key] = identity(entry[key])
    entry["mode"] = entry.get("mode", default) | bits


def settled_value(rng, file, value):
    """A value that stands there as it was written, and that doesn't end what runs."""
    if value == MAX or not file.startswith("memory."):
        return value if value == MAX else min(value, GREATEST.get(file, MOST) - 1)
    if value == MOST:
        return MAX
    return (value or (rng.choice([0, 1]) if file in ("memory.min", "memory.low") else 1)) * 2 ** 24


def rename_rows(tree):
    """No cgroup has the name of a file that its parent has, or gets."""
    spelled = {path: tuple("m" if name == "memory.stat" else name for name in path) for path in tree.rows}
    rows = {}
    for path, row in tree.rows.items():
        rows[spelled[path]] = {**row, "path": rules.text_of(spelled[path])}
    for process in tree.processes:
        place = rules.path_of(process["at"])
        process["at"] = rules.text_of(spelled.get(place, place))
    tree.rows, tree.subtree = rows, spelled.get(tree.subtree, tree.subtree)


def settled_step(rng, state, step):
    """A step that a kernel can be told: directories can be searched, and a child has a PID of its own."""
    if state.form == 4 and step[0] in STEPS_OF_FORMAT_4:
        return STEPS_OF_FORMAT_4[step[0]](rng, state, *step)
    if step[0] == "chmod" and step[2] == rules.DIR:
        return (*step[:3], step[3] | SEARCH)
    if step[0] == "fork":
        return (*step[:2], next(pid for pid in itertools.count(5001) if pid not in state.used))
    if step[0] == "set" and step[2] in ("memory.high", "memory.max") and step[3] != MAX and step[3] < 2 ** 20:
        return (*step[:3], step[3] * 2 ** 24 + 2 ** 24)
    return step


def control_of_others(rng, state, kind, path, changes):
    """Mostly without the controllers that the kernel doesn't have."""
    return kind, path, changes if rng.random() < UNKNOWN else tuple(each for each in changes if each[1] in state.controllers)


def mkdir_of_others(rng, _state, kind, path):
    """Of any controller's file in the place of the one whose name the random ones have."""
    return kind, path[:-1] + (rng.choice(FILE_NAMES),) if path[-1:] == FILE_NAMES[:1] else path


FILE_NAMES = ("memory.stat", *script.OTHERS.values())
STEPS_OF_FORMAT_4 = {"control": control_of_others, "mkdir": mkdir_of_others}


def settled(rng, tree, controllers):
    """A tree, settled, with its text and its state, which is None where the text is faulty."""
    settle(rng, tree, controllers)
    text = spelling.document(rng, {**tree.document(rng), "format": max(2, tree.form)}).decode().removeprefix("\ufeff")
    return tree, text, cases.state_of(text.encode())


def is_small(tree):
    """A machine under emulation tells a small tree soon, and takes no path that is as long as one may be behind its own folder's."""
    return max(len(tree.rows), len(tree.processes)) <= MOST_ROWS and all(len(row["path"]) <= LONGEST_PATH for row in tree.rows.values())


def drawn_tree(rng):
    """A random tree, at times of format 4."""
    tree = trees.random_tree(rng)
    if rng.random() < OF_FORMAT_4:
        format_4.widen(rng, tree)
    return tree


def random_tree(rng, controllers):
    """A small random tree with a subtree, settled, with its text and its state."""
    while True:
        tree, text, state = settled(rng, drawn_tree(rng), controllers)
        if state and tree.subtree and is_small(tree):
            return tree, text, state


def of_operations(rng, _program, controllers):
    """A case of random operations of one user."""
    tree, text, state = random_tree(rng, controllers)
    return [Case("operations", text, [(tree.user, step) for step in steps_of(rng, tree, state)], [tree.subtree], state)]


def steps_of(rng, tree, state):
    steps = []
    for _ in range(STEPS):
        step = settled_step(rng, state, cases.random_operation(rng, tree, state, tree.user))
        state = rules.step(state, tree.user, step)[0]
        steps.append(step)
    return steps


def of_escape(rng, program, controllers):
    """A case whose steps are a printed escape, or none."""
    tree, text, state = random_tree(rng, controllers)
    _, escape = asking.check(program, text, tree.user, tree.subtree)
    return [Case("escapes", text, [(tree.user, step) for step in escape], [tree.subtree], state)] if escape else []


def of_contained(rng, program, controllers):
    """A case of operations of every kind by users against all of whom its subtrees are contained, or none."""
    tree, text, state = random_tree(rng, controllers)
    users = list({tree.user, *(group_user(trees.user_of(rng)) for _ in range(rng.choice([0, 0, 1, 2])))})
    tops = asking.contained(program, text, users, [path for path in state.cgroups if path])
    if not tops or not state.live:
        return []
    found, behind = aimed.tries_of(state, users, tops[:3])
    few = [found[at] for at in sorted(rng.sample(range(len(found)), min(len(found), aimed.MOST)))]
    first = [(user, settled_step(rng, state, step)) for user, step in few]
    return [Case("contained", text, [], tops[:3], state, tries=first + tries_of(rng, tree, state, users, TRIES) + behind[:aimed.MOST])]


def tries_of(rng, tree, state, users, count, first=0):
    """Operations of every kind by these users, chosen in the trees that those before them leave in the model; what is born has a number
    from the first one on."""
    tries = []
    for number in range(first, first + count):
        user = rng.choice(users)
        step = other_step(rng, state, user, number) if rng.random() < 0.3 else settled_step(
            rng, state, cases.random_operation(rng, tree, state, user))
        if step[0] in rules.BARS:
            state = rules.step(state, user, step)[0]
        tries.append((user, step))
    return tries


def other_step(rng, state, user, number):
    kind = rng.choice(OTHERS)
    path, other = (rules.text_of(rng.choice(list(state.cgroups))) for _ in range(2))
    entry = rng.choice([rules.DIR, rules.PROCS, rules.CONTROL, *NUMBER_FILES])
    return {"threads": ("threads", rng.choice(list(state.live) or [7]), path), "rename": ("rename", path, other.rstrip("/") + "/r"),
            "born": ("born", path, 9000 + number), "xattr": ("xattr", path, entry), "chown": ("chown", path, entry, user[0]),
            "write": ("write", path, rng.choice(WRITTEN), rng.choice(TEXTS))}[kind]


MAKERS = {"operations": of_operations, "escapes": of_escape, "contained": of_contained}


def random_cases(maker, name, count, program, controllers):
    """The first so many cases that a maker gives of a name, for kernels with some controllers."""
    found, number, unanswered = [], 0, 0
    while len(found) < count and unanswered <= count:
        try:
            found += maker(random.Random(f"kernel {name} {number}"), program, controllers)
        except asking.NoReport as what:
            asking.UNANSWERED.append(f"{name}, draw {number}: {what}")
            unanswered += 1
        number += 1
    return found
