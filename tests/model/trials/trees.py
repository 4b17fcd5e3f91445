"""Random trees, as documents of a tree text: delegations that hold, and such with one thing or another open."""
import itertools
from dataclasses import dataclass

from second import commands, rules
from second.controllers import ALL_CONTROLLERS
from second.limit_files import LIMIT_FILES, MAX, MOST, NUMBER_FILES, accepts
from second.rules import text_of
from trials import small

NAMES = ["a", "b", "c", "probe0", "probe1", "x.y", "a-b", "memory.stat", "~", "it's", 'q"q', "\\x2d", "a=[b]#"]
# names of which one is the front of another, and what follows is less than a slash: in order otherwise than their texts are
FRONTS = ["a", "a-b", "a!", "a.b", "b"]
LONG = ["n" * 255, "m" * 254, "o" * 200]
UIDS = [0, 1000, 1001, 1002, 4294967295]
# as many as a user may not have, and as many processes as a tree has at most
GIDS = [0, 5, 6, 50, 4294967295, *range(100, 128)]
PIDS = [1, 7, 10, 11, 12, 99, 4194303, *range(200, 233)]
FEW_PIDS = PIDS[:7]
MOST_PATHS, DEEPEST = 60, 12
NUMBERS = [0, 1, 2, 3, 100, 4096, 10000, MOST]


@dataclass
class Tree:
    """A document in the making: rows by path, and whom it is about."""
    form: int
    controllers: list
    rows: dict
    processes: list
    user: tuple
    subtree: tuple

    def document(self, rng):
        rows = list(self.rows.values())
        if rng.random() < 0.4:
            rng.shuffle(rows)
        parts = {"format": self.form, "controllers": self.controllers, "cgroup": rows, "process": self.processes}
        if not self.processes and rng.random() < 0.5:
            del parts["process"]
        return parts

    def entry(self, path, name):
        """The table of an entry, made where it is missing."""
        if name == rules.DIR:
            return self.rows[path].setdefault("dir", {})
        return self.rows[path].setdefault("files", {}).setdefault(name, {})


def user_of(rng):
    gids = rng.choice([(), (), (5,), (5, 6), (50, 5), (0,), (6, 4294967295)])
    if rng.random() < 0.2:
        gids = tuple(rng.sample(GIDS, rng.choice([3, 4, 17, 24, 32, 32])))
    return rng.choice([1000, 1000, 1000, 1001, 4294967295]), gids


def random_tree(rng):
    chance = rng.random()
    if chance < 0.09:
        return tree_to_probe(rng)
    if chance < 0.21:
        return tree_of_doors(rng)
    paths = random_paths(rng)
    form = rng.choice([1, 2, 2])
    user = user_of(rng)
    controllers = [c for c in rules.CONTROLLERS if rng.random() < 0.75]
    rng.shuffle(controllers)
    if controllers and rng.random() < 0.1:
        controllers.append(controllers[0])
    below = [path for path in paths if path]
    tree = Tree(form, controllers, {path: {"path": text_of(path)} for path in paths}, [], user, rng.choice(below or [()]))
    enable(rng, tree)
    if rng.random() < 0.75:
        delegate(rng, tree, user, tree.subtree)
        if rng.random() < 0.3:
            delegate(rng, tree, user_of(rng), rng.choice(paths))
        for _ in range(rng.choice([0, 1, 1, 1, 2, 3])):
            open_one(rng, tree)
        if tree.subtree and rng.random() < 0.08:
            open_two(rng, tree)
    else:
        scatter(rng, tree)
    set_values(rng, tree)
    if rng.random() < 0.06:
        overfill(rng, tree)
    add_processes(rng, tree)
    return tree


def tree_of_state(rng, of_two=9, wide=False):
    """A small state of a search, most of whose subtrees fail a guard and break by no try; of so many in 100 two users have to break
    one together. It is of format 2 or of format 4."""
    states = [wide_state if wide else small.random_state, small.state_of_site, small.state_of_two]
    state = rng.choices(states, [89 - of_two, 11, of_two])[0](rng)
    if wide:
        state = small.in_format_4(rng, state)
    parts = commands.document_of(state)
    rows = {path: row for path, row in zip(sorted(state.cgroups), parts["cgroup"])}
    pairs = list(itertools.product(small.USERS, [path for path in rows if path]))
    hard = [(user, top) for user, top in pairs if rules.answer(state, user, top)[0] == "unsettled"]
    return Tree(state.form, parts["controllers"], rows, parts["process"], *rng.choice(hard or pairs))


def wide_state(rng):
    return small.random_state(rng, names=ALL_CONTROLLERS)


def tree_to_probe(rng):
    """Cgroups that enable something, down to a subtree with a process. The files of one are shared, so that a probe may be made
    there, and some probes are there; its path may be as long that the probe's is as long as a path may be, or nearly so."""
    controller, names = rng.choice(rules.CONTROLLERS), [rng.choice(NAMES) for _ in range(rng.choice([1, 1, 2, 3, 5, DEEPEST - 1]))]
    shared = rng.randrange(1, len(names) + 1)
    if rng.random() < 0.3:
        names = ["n" * 255] * 15 + ["n" * rng.choice([246, 247, 247, 248])]
        shared = len(names)
    above = [tuple(names[:length]) for length in range(len(names) + 1)]
    rows = {path: {"path": text_of(path), "enabled": [controller]} for path in above}
    top = above[-1] + (rng.choice(NAMES[:3]),)
    beside = [above[shared] + (f"probe{number}",) for number in range(rng.choice([0, 0, 1, 2, 3]))]
    for path in [top, *beside]:
        if len(text_of(path)) <= rules.LONGEST_PATH:
            rows.setdefault(path, {"path": text_of(path)})
    tree = Tree(rng.choice([1, 2]), [controller], rows, [], user_of(rng), top)
    for name in (rules.PROCS, rules.DIR):
        share(rng, tree, above[shared], name)
    if rng.random() < 0.15:
        tree.entry(above[shared], rules.PROCS).update({"uid": tree.user[0], "mode": 0o444})
    if rng.random() < 0.5:
        tree.entry(above[shared], rules.DIR).update(tree.entry(above[shared], rules.PROCS))
    tree.processes.append({"pid": rng.choice(PIDS), "uid": 1000, "at": text_of(top)})
    return tree


def tree_of_doors(rng):
    """A cgroup that enables something and whose processes the user may move, above a subtree and other places, some of which take
    them. Mostly there are more processes, which nobody but root moves."""
    controller, above = rng.choice(rules.CONTROLLERS), (rng.choice(NAMES),)
    rows = {path: {"path": text_of(path), "enabled": [controller]} for path in ((), above)}
    places = [above + (name,) for name in [FRONTS[0], *rng.sample(FRONTS[1:], rng.choice([1, 2, 3]))]]
    places += [path + (name,) for path in places for name in rng.sample(FRONTS, rng.choice([0, 1, 2]))]
    rows.update((path, {"path": text_of(path)}) for path in places)
    tree = Tree(rng.choice([1, 2]), [controller], rows, [], user_of(rng), rng.choice(places))
    for path in [above, *(path for path in places if rng.random() < 0.6)]:
        share(rng, tree, path, rules.PROCS)
    pids = rng.sample(PIDS, rng.choice([1, 2, 12, 40, 40]))
    for number, pid in enumerate(pids):
        at = rng.choice(places) if number < 2 else ()
        tree.processes.append({"pid": pid, "uid": rng.choice(UIDS), "at": text_of(at)})
    return tree


def random_paths(rng):
    """Mostly a few; else up to as many as a tree has, some of them deep or with long names."""
    paths, names, deep = [()], rng.choice([NAMES, NAMES, NAMES, FRONTS]), 0.4
    count = rng.choice([1, 2, 3, 4, 5, 6, 8, 11] if rng.random() < 0.97 else [0])
    if rng.random() < 0.08:
        count, names, deep = rng.choice([16, 24, 32, 48]), rng.choice([NAMES, FRONTS, LONG]), rng.choice([0.2, 0.6, 0.95])
    for _ in range(count if count < 16 else 2 * count):
        parent = rng.choice(paths[-2:] if rng.random() < deep else paths)
        path = parent + (rng.choice(names),)
        if path not in paths and len(path) <= DEEPEST and len(text_of(path)) <= rules.LONGEST_PATH and len(paths) < MOST_PATHS:
            paths.append(path)
    return paths


def enable(rng, tree):
    share = rng.choice([0, 0.3, 0.7])
    for path in sorted(tree.rows, key=len):
        available = tree.rows[path[:-1]].get("enabled", []) if path else tree.controllers
        enabled = [c for c in dict.fromkeys(available) if rng.random() < (share if path else 0.7)]
        if enabled or rng.random() < 0.3:
            tree.rows[path]["enabled"] = enabled


def files_at(tree, path):
    brought = tree.rows[path[:-1]].get("enabled", []) if path else []
    return [file for file in NUMBER_FILES if LIMIT_FILES[file].controller in (None, *brought)]


def delegate(rng, tree, user, top):
    """Hands a subtree over: the directory and both control files of its top, and all that is below."""
    for path in tree.rows:
        if rules.inside(path, top):
            for name in rules.STANDING:
                if rng.random() < 0.93:
                    tree.entry(path, name)["uid"] = user[0]
            if path != top:
                for file in files_at(tree, path):
                    if rng.random() < 0.6:
                        tree.entry(path, file)["uid"] = user[0]


def open_one(rng, tree):
    """Lets the user reach a guarded entry of the subtree, or be near to it."""
    top = tree.subtree
    if not top:
        return
    guarded = [(path, rules.PROCS) for path in rules.upwards(top)[1:]]
    guarded += [(top[:-1], rules.CONTROL)] * 3 + [(top[:-1], rules.DIR)] * 2
    if rng.random() < 0.35:
        open_limits(rng, tree, top)
    else:
        share(rng, tree, *rng.choice(guarded))
    if rng.random() < 0.35:
        # so that it may be removed
        for path in [path for path in tree.rows if rules.inside(path, top) and path != top]:
            del tree.rows[path]
    elif rng.random() < 0.25:
        # so that a probe may be made beside it
        parent = rng.choice(rules.upwards(top)[1:])
        for name in (rules.PROCS, rules.DIR):
            share(rng, tree, parent, name)
    elif rng.random() < 0.2:
        tree.entry(top, rng.choice([rules.DESCENDANTS, rules.DEPTH]))["value"] = rng.choice([0, 0, 1])


def open_two(rng, tree):
    """Gives the user two guarded entries, of which they have to open the one that is tried first."""
    top = tree.subtree
    guarded = [(top, file) for file in files_at(tree, top)]
    if rng.random() < 0.4:
        guarded += [(top[:-1], rules.CONTROL), (top[:-1], rules.DIR)]
    first, other = sorted(rng.sample(range(len(guarded)), 2))
    tree.entry(*guarded[first]).update({"uid": tree.user[0], "mode": 0o444})
    tree.entry(*guarded[other]).update({"uid": tree.user[0]})


def open_limits(rng, tree, top):
    """Shares a limit file of the subtree, or some."""
    files = files_at(tree, top)
    if rng.random() < 0.25:
        files = [file for file in files if file == "cpu.weight"]
    for file in rng.sample(files, min(len(files), rng.choice([1, 1, 1, 2, 4]))):
        share(rng, tree, top, file)
        if file == "cpu.weight":
            tree.entry(top, file)["value"] = rng.choice([1, 50, 100, 10000])


def share(rng, tree, path, name):
    uid, gids = tree.user
    # of many groups the first and above all the last
    gids = [*gids[:3], *gids[3:][-1:] * 4]
    entry = tree.entry(path, name)
    ways = [{"uid": uid}, {"uid": uid, "mode": 0o444}, {"uid": uid, "mode": 0o446}, {"mode": 0o646}, {"uid": 7, "mode": 0o602}]
    if tree.form != 1:
        ways += [{"gid": gid, "mode": mode} for gid in [*gids, 77] for mode in (0o664, 0o666, 0o646, 0o620)]
        ways += [{"uid": uid, "gid": gid, "mode": mode} for gid in gids for mode in (0o464, 0o446, 0o664, 0o666)]
    entry.update(rng.choice(ways))


def scatter(rng, tree):
    """Any owners and modes anywhere."""
    for path in tree.rows:
        for name in [*rules.STANDING, *files_at(tree, path)]:
            if rng.random() < 0.5:
                entry = tree.entry(path, name)
                entry["uid"] = rng.choice(UIDS)
                if rng.random() < 0.5:
                    entry["mode"] = rng.choice([0, 0o644, 0o646, 0o755, 0o444, 0o200, 0o002, 0o757, 0o555])
                if tree.form != 1:
                    entry["gid"] = rng.choice(GIDS)
                    entry["mode"] = entry.get("mode", 0o644) | rng.choice([0, 0o020])


def set_values(rng, tree):
    for path in tree.rows:
        for file in files_at(tree, path):
            counted = file in (rules.DESCENDANTS, rules.DEPTH)
            if rng.random() < (0.3 if counted else 0.25):
                tree.entry(path, file)["value"] = value_of(rng, tree, path, file)


def overfill(rng, tree):
    """Makes one with cgroups below it, where there is one, the subtree, and both its limits less than what is there."""
    able = [path for path in tree.rows if path and any(rules.inside(other, path) and other != path for other in tree.rows)]
    tree.subtree = rng.choice(able or [tree.subtree])
    for file in (rules.DESCENDANTS, rules.DEPTH):
        tree.entry(tree.subtree, file)["value"] = 0


def value_of(rng, tree, path, file):
    if file in (rules.DESCENDANTS, rules.DEPTH) and rng.random() < 0.7:
        levels = [len(other) - len(path) for other in tree.rows if rules.inside(other, path)]
        there = len(levels) - 1 if file == rules.DESCENDANTS else max(levels)
        return max(0, there + rng.choice([-1, 0, 0, 1, 1, 2]))
    return rng.choice([v for v in [*NUMBERS, MAX, 50] if accepts(file, v)])


def add_processes(rng, tree):
    places = [path for path in tree.rows if not path or not tree.rows[path].get("enabled")]
    many = rng.random() < 0.05
    for pid in rng.sample(PIDS, rng.choice([10, 20, 40])) if many else rng.sample(FEW_PIDS, rng.choice([0, 1, 2, 3, 4, 5])):
        uid = rng.choice([tree.user[0], tree.user[0], *UIDS])
        tree.processes.append({"pid": pid, "uid": uid, "at": text_of(rng.choice(places))})
