"""Tree texts as abstract trees, in which what a user reaches is all that is left of owners and modes; and random ones of three kinds.

A row has its parent's number, the letters of what the user reaches (d: the directory, p: cgroup.procs, c: cgroup.subtree_control), the
controllers that it enables as bits (cpu, memory, pids), and its limits of descendants and of depth, -1 where it has none or one that
the user raises. Rows come parents first.
"""
import os
import random
import sys
from dataclasses import dataclass

sys.path.insert(0, os.path.join(os.path.dirname(os.path.dirname(os.path.dirname(os.path.abspath(__file__)))), "tests/model"))
from second import commands, rules
from trials import spelling

LETTERS = {"d": rules.DIR, "p": rules.PROCS, "c": rules.CONTROL}


@dataclass
class Row:
    parent: int
    reached: str
    enabled: int
    descendants: int = -1
    depth: int = -1


@dataclass
class Abstract:
    """`others` and `own` are the numbers of the rows with a process of somebody else's, and of the user's own."""
    controllers: int
    rows: list
    others: list
    own: list
    top: int


def bits(controllers):
    return sum(1 << number for number, name in enumerate(rules.CONTROLLERS) if name in controllers)


def of_state(state, user, top):
    """The abstract tree of a state, a user and a subtree."""
    paths = sorted(state.cgroups)
    numbers = {path: number for number, path in enumerate(paths)}
    rows = [row_of(state, user, top, path, numbers) for path in paths]
    own = {numbers[path] for uid, path in state.live.values() if uid == user[0]}
    others = {numbers[path] for uid, path in state.live.values() if uid != user[0]}
    return Abstract(bits(state.controllers), rows, sorted(others), sorted(own), numbers[top])


def text_of(state):
    """The text of a state, without what is as it would be without being said."""
    parts = commands.document_of(state)
    for row in parts["cgroup"]:
        row["dir"] = said_of(row["dir"], rules.DIR_MODE, None)
        values = {name: rules.default_of(name) for name in row["files"] if name in rules.LIMIT_FILES}
        files = {name: said_of(entry, rules.FILE_MODE, values.get(name)) for name, entry in row["files"].items()}
        row["files"] = {name: entry for name, entry in files.items() if entry}
        for key in ("enabled", "dir", "files"):
            if not row[key]:
                del row[key]
    return spelling.document(random.Random(0), parts)


def said_of(entry, mode, value):
    usual = {"uid": 0, "gid": 0, "mode": mode, "value": value}
    return {key: said for key, said in entry.items() if said != usual[key]}


def row_of(state, user, top, path, numbers):
    cgroup = state.cgroups[path]
    reached = "".join(letter for letter, name in LETTERS.items() if rules.reaches(user, cgroup.entries[name]))
    limits = [-1 if cgroup.values[file] == rules.MAX or path != top and rules.reaches(user, cgroup.entries[file]) else cgroup.values[file]
              for file in (rules.DESCENDANTS, rules.DEPTH)]
    return Row(numbers[path[:-1]] if path else -1, reached, bits(cgroup.enabled), *limits)


# Random ones

KINDS = ("even", "limited", "deep")


def random_tree(rng, kind):
    """Of cgroups as they come; with limits near to what is there at almost each; or a chain with some beside it."""
    count = rng.randint(4, 9)
    nearest = 2 if kind == "deep" else count
    parents = [-1] + [rng.randint(max(0, number - nearest), number - 1) for number in range(1, count)]
    controllers, often = rng.choice([0, 1, 2, 2, 3, 7]), rng.choice([0.3, 0.6, 0.9])
    chances = {letter: rng.choice([0.1, 0.3, 0.6, 0.9]) for letter in LETTERS}
    rows = []
    for parent in parents:
        available = rows[parent].enabled if rows else controllers
        enabled = sum(1 << bit for bit in range(3) if available >> bit & 1 and rng.random() < often)
        rows.append(Row(parent, "".join(letter for letter, chance in chances.items() if rng.random() < chance), enabled))
    limit(rng, rows, {"even": 0.2, "limited": 0.9, "deep": 0.3}[kind])
    places = [number for number, row in enumerate(rows) if number == 0 or not row.enabled]
    others, own = ([rng.choice(places) for _ in range(rng.choice([0, 1, 1, 2]))] for _ in range(2))
    return Abstract(controllers, rows, sorted(set(others)), sorted(set(own)), 1)


def limit(rng, rows, chance):
    """Limits of what is below, near to what is there, and at times less."""
    above = [[] for _ in rows]
    for number, row in enumerate(rows):
        above[number] = above[row.parent] + [row.parent] if number else []
    for number, row in enumerate(rows):
        levels = [len(those) - len(above[number]) for those in above if number in those]
        if rng.random() < chance:
            row.descendants = max(0, len(levels) + rng.choice([0, 0, 0, 1, 1, -1]))
        if rng.random() < chance / 3:
            row.depth = max(0, max(levels, default=0) + rng.choice([0, 0, 1, -1]))


def state_of(abstract, user, name_of="c{}".format):
    """A state of an abstract tree: what the user reaches is theirs, and all else root's. Rows are named by their number."""
    paths = []
    for number, row in enumerate(abstract.rows):
        paths.append(paths[row.parent] + (name_of(number),) if number else ())
    enabled = [frozenset(name for bit, name in enumerate(rules.CONTROLLERS) if row.enabled >> bit & 1) for row in abstract.rows]
    controllers = frozenset(name for bit, name in enumerate(rules.CONTROLLERS) if abstract.controllers >> bit & 1)
    cgroups = {path: rules.Cgroup({}, those) for path, those in zip(paths, enabled)}
    bare = rules.State(controllers, cgroups, {}, frozenset())
    for path, row in zip(paths, abstract.rows):
        for letter, name in LETTERS.items():
            mode = rules.DIR_MODE if name == rules.DIR else rules.FILE_MODE
            cgroups[path].entries[name] = rules.Entry(user[0] if letter in row.reached else 0, 0, mode)
        for file in rules.files_at(bare, path):
            cgroups[path].entries[file] = rules.Entry(value=rules.default_of(file))
        for file, value in ((rules.DESCENDANTS, row.descendants), (rules.DEPTH, row.depth)):
            cgroups[path].entries[file] = rules.Entry(value=rules.MAX if value < 0 else value)
    live = {10 + at: (uid, paths[place]) for at, (uid, place) in enumerate(
        [(0, place) for place in abstract.others] + [(user[0], place) for place in abstract.own])}
    return rules.State(controllers, cgroups, live, frozenset(live))
