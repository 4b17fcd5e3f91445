"""The trees that tests/program/upgrades.py writes anew beside those of examples/, and what it asks of each tree and of what was written.

host/ has to be on the path.
"""
import collections
import dataclasses
import itertools
import re

from device_rows import ANSWERS, ASKED, FAULTS
from of_one import OF_ONE
from trial_rows import CHECKS, REPLAYS, lines
from zirofen_host.files import CONTROL_FILES, TEXT_FILES, NUMBER_FILES, accepts
from zirofen_host.profile import LONGEST_PATH, MOST_GROUPS, TEXT_FORMATS, is_root, path_of, text_of
from zirofen_host.collect.tree import Row, Tree, tree_text
from zirofen_host.collect.model import Entry, Placed

# a command's words, on the tree that is standard input; where OPS stands in them, the file of these operations
Asked = collections.namedtuple("Asked", "words operations")
OPS = "OPS"

NAME_BYTES = "".join(map(chr, range(0x21, 0x7F))).replace("/", "")
THREE, NINE = (TEXT_FORMATS[number].controllers for number in (2, 4))
LARGEST_ID, LARGEST_PID, LARGEST_MODE = 2**32 - 1, 4194303, 0o777
GROUP_WRITES = 0o020
STRANGER = 4242
DEEP, WIDE = 100, 2050
# lines of values that are texts, each of which is spelled in another way, and the longest
LINES = ("max 100000", 'a"b', "a\\b", "it's", "'\"", "'''\\", "'''\"\"\"\\", 4095 * "7")
# cgroups whose text, as `upgrade` writes it, is some 20 MB long
LARGE = 45000
SOME_USERS, SOME_PATHS, SOME_PIDS = 3, 4, 3


# ---- trees at the edges of what a text can say

def owned(path, uid, gid=0, mode=0o644, **more):
    """A cgroup whose directory and control files are of one owner, group and mode."""
    return Row(path, Entry(uid, gid, mode | 0o111), {name: Entry(uid, gid, mode) for name in CONTROL_FILES}, **more)


def tree_of(rows, processes=(), number=2):
    """The tree of rows and of processes, in which paths are texts, of a format that has all controllers at the root."""
    rows = [dataclasses.replace(row, path=path_of(row.path)) for row in rows]
    processes = [Placed(pid, uid, path_of(path)) for pid, uid, path in processes]
    return Tree(TEXT_FORMATS[number].controllers, {row.path: row for row in rows}, processes, TEXT_FORMATS[number])


def named():
    """Each allowed byte as a name where it is one, all of them in one name, the longest name and the longest path."""
    paths = [f"/{name}" for name in (*NAME_BYTES.replace(".", ""), NAME_BYTES, "n" * 255)]
    chain = ["/" + "/".join(("d" * 255,) * depth) for depth in range(1, 16)]
    paths += [*chain, chain[-1] + "/" + "e" * (LONGEST_PATH - len(chain[-1]) - 1)]
    processes = [(pid, 1000, path) for pid, path in enumerate(paths, 1)]
    return tree_of([Row("/"), *(owned(path, 1000) for path in paths)], processes)


def bound(file, bounds):
    """The first of some values that a file accepts, else its default."""
    return next((value for value in bounds if accepts(file, value)), NUMBER_FILES[file].usual)


def limited():
    """Cgroups with every limit file at the least value, at the largest, at `max` and with what it has by default."""
    rows = [Row("/", enabled=THREE)]
    for name, bounds in (("least", (0, 1)), ("most", (2**63 - 1, 10000)), ("max", ("max",)), ("default", ())):
        rows.append(owned(f"/{name}", 1000, values={file: bound(file, bounds) for file in NUMBER_FILES} if bounds else {}))
        rows.append(owned(f"/{name}/in", 1000))
    return tree_of(rows, [(1, 1000, "/least/in"), (LARGEST_PID, 1000, "/most")])


def of_texts():
    """Every limit file of format 4 with a line, with several, and with none; of root, of a user, and with a group that writes."""
    owners = itertools.cycle((Entry(0, 0, 0o644), Entry(1000, 1000, 0o644), Entry(0, 1000, 0o664)))
    lines, rows = itertools.cycle(LINES), [Row("/", enabled=NINE)]
    for name, count in (("line", 1), ("lines", 3), ("as-it-is", 0)):
        row = owned(f"/{name}", 1000, 1000)
        files = {**row.files, **{file: next(owners) for file in TEXT_FILES}}
        values = {file: "\n".join(next(lines) for _ in range(count)) for file in TEXT_FILES if count}
        rows.append(dataclasses.replace(row, files=files, values=values))
    return tree_of(rows, [(1, 1000, "/line")], 4)


def grouped():
    """Owners and groups at their bounds, in all pairs; the group writes."""
    ids = (0, 1, 2**31, LARGEST_ID)
    rows = [owned(f"/{uid}-{gid}", uid, gid, 0o664) for uid, gid in itertools.product(ids, ids)]
    return tree_of([owned("/", 0, LARGEST_ID, 0o664), *rows], [(pid, uid, "/0-1") for pid, uid in enumerate(ids, 1)])


def with_modes(allowed):
    """Every allowed mode, of a directory and of both control files by turns."""
    modes = [mode for mode in range(LARGEST_MODE + 1) if allowed(mode)]
    rows = [Row("/")]
    for at in range(0, len(modes), 3):
        directory, *files = (modes[at:at + 3] * 3)[:3]
        rows.append(Row(f"/m{at}", Entry(1000, 0, directory), {name: Entry(1000, 0, it) for name, it in zip(CONTROL_FILES, files)}))
    return tree_of(rows, [(1, 1000, "/m0"), (2, 1001, "/")])


def nested():
    """A chain of cgroups that are named as controllers, each of which enables one less than the one above it; beside each a cgroup
    with a process, of the name of a file that no text has."""
    rows, processes, above = [Row("/", enabled=NINE)], [], ""
    for depth, name in enumerate(NINE, 1):
        rows += [owned(f"{above}/{name}", 1000 + depth % 3, enabled=NINE[depth:]), owned(f"{above}/{name}.stat", 1000 + depth % 2)]
        processes.append((depth, 1000 + depth % 2, f"{above}/{name}.stat"))
        above += f"/{name}"
    return tree_of(rows, processes, 4)


def deep():
    """A chain of cgroups that all enable every controller, with processes at its end."""
    paths = ["/d" * depth for depth in range(1, DEEP + 1)]
    rows = [owned(path, 1000 + len(path) % 3, enabled=NINE) for path in paths[:-1]]
    return tree_of([Row("/", enabled=NINE), *rows, owned(paths[-1], 1000)], [(pid, 1000, paths[-1]) for pid in (1, 2, 3)], 4)


def wide():
    """More cgroups and processes than a text of format 2 may have."""
    rows = [owned(f"/u{uid}", uid, enabled=("io", "pids")) for uid in range(1000, 1000 + WIDE)]
    rows += [owned(f"{row.path}/in", row.directory.uid) for row in rows]
    processes = [(pid, row.directory.uid, row.path) for pid, row in enumerate(2 * rows[WIDE:], 1)]
    return tree_of([Row("/", enabled=("io", "pids")), *rows], processes, 4)


def unsorted(text):
    """A text whose lists of controllers are in another order, some of them named twice."""
    def turned(found):
        names = found[2].split(", ")
        return f"{found[1]} = [{', '.join([names[-1], *names[1::2], *names])}]"
    return re.sub(r"^(controllers|enabled) = \[(.+)\]$", turned, text, flags=re.M)


def large_text():
    """A text of user 1000's cgroups, and of as many processes as may be. What `upgrade` writes of it is a large text."""
    rows = [f"[[cgroup]]\npath = '/c{number}'\nfiles.'cgroup.procs'.uid = 1000\n" for number in range(1, LARGE + 1)]
    processes = [f"[[process]]\npid = {pid}\nuid = 1000\nat = '/c1'\n" for pid in range(1, TEXT_FORMATS[4].most_processes + 1)]
    root = "controllers = ['pids', 'io']\nformat = 4\n[[cgroup]]\npath = '/'\nfiles.'cgroup.procs'.uid = 1000\n"
    return "".join([root, *rows, *processes])


# what is granted in it, how what is written of it begins, and what stands in front of it for another beginning
LARGE_MOVE = ["may", "--uid", "1000", "--pid", str(TEXT_FORMATS[4].most_processes), "--to", f"/c{LARGE}"]
LARGE_BEGINNING = 'controllers = ["io", "pids"]\nformat = 4\n'
BEFORE_LARGE = ("\n", "# a tree\n", " ", "\ufeff")


def is_wide(tree):
    """Whether a tree has so many cgroups that each command takes long."""
    return len(tree.rows) > WIDE


def edge_trees():
    """Each text with what it is."""
    one = "format = 1\ncontrollers = []\ncgroup = [{ path = '/' }]\n"
    yield "a root alone", one
    yield "a root alone, no processes", one + "process = []\n"
    yield "a root alone, format 4", one.replace("format = 1", "format = 4", 1)
    for number, names in ((2, THREE), (4, NINE)):
        yield f"a root alone that enables all, format {number}", tree_text(tree_of([Row("/", enabled=names)], [(1, 0, "/")], number), [])
    yield "no processes", tree_text(tree_of([Row("/"), owned("/a", 1000), owned("/a/b", 1000)]), [])
    for name, tree in (("names", named()), ("limits", limited()), ("modes", with_modes(lambda mode: not mode & GROUP_WRITES))):
        text = tree_text(tree, [])
        yield f"{name}, format 2", text
        yield f"{name}, format 1", text.replace("format = 2", "format = 1", 1)
    yield "limit files of format 4", tree_text(of_texts(), [])
    yield "groups", tree_text(grouped(), [])
    yield "all modes", tree_text(with_modes(lambda mode: True), [])
    yield "a controller less at each level", tree_text(nested(), [])
    yield "a controller less at each level, in no order and twice", unsorted(tree_text(nested(), []))
    yield "a deep tree", unsorted(tree_text(deep(), []))
    yield "a wide tree", tree_text(wide(), [])


# ---- what is asked of a tree

def some(things, most):
    """At most so many of some things, from the first to the last."""
    step = max(1, -(-(len(things) - 1) // max(1, most - 1)))
    return [*dict.fromkeys([*things[::step], *things[-1:]])][:most]


def users_of(tree):
    """Some who own something, the last of them with all groups too, and a stranger, each as uid and gids."""
    entries = [row.entry(name) for row in tree.rows.values() for name in ("dir", *row.files)]
    uids = some(sorted({entry.uid for entry in entries} - {0}), SOME_USERS) or [STRANGER - 1]
    gids = tuple(sorted({entry.gid for entry in entries}))[:MOST_GROUPS]
    return [*((uid, ()) for uid in uids), (uids[-1], gids), (STRANGER, gids[-1:])]


def operations(tree, paths, pids):
    """Every operation at some cgroups, of some processes."""
    free = next(pid for pid in range(LARGEST_PID, 0, -1) if pid not in {each[0] for each in tree.processes})
    said = []
    for path in paths:
        inside = f"{path.rstrip('/')}/probe"
        said += [f"chmod {path} {entry} 700" for entry in ("dir", *CONTROL_FILES)]
        said += [f"mkdir {inside}", f"mkdir {inside}/in"]
        said += [f"control {path} {sign}{name}" for name in tree.format.controllers for sign in "+-"]
        said += [f"control {path} +memory +pids -cpu", f"rmdir {inside}/in"]
        said += [f"set {at} {file} {value}" for at in (path, inside) for file in NUMBER_FILES for value in ("max", 7)]
        said += [f"move {pid} {at}" for pid in pids for at in (inside, path)] + [f"rmdir {inside}"]
    said += [f"fork {pid} {free}" for pid in pids] + [f"exit {pid}" for pid in (*pids, free)]
    return "".join(f"{line}\n" for line in said)


def asked_of_all(tree):
    """Every command, of some users about some cgroups and processes of a tree; of a wide one each with the same options once."""
    asked, seen = [*asked_of_users(tree)], set()
    for each in asked:
        options = (each.words[0], *sorted({word for word in each.words if word.startswith("--")}))
        if options not in seen or not is_wide(tree):
            seen.add(options)
            yield each


def asked_of_users(tree):
    """The same, of any tree."""
    paths = some([text_of(path) for path in tree.rows if not is_root(path)], SOME_PATHS)
    pids = some([each[0] for each in tree.processes], SOME_PIDS)
    users, script = users_of(tree), operations(tree, ["/", *paths], pids)
    listed = [word for uid, gids in users for word in ("--uid", ":".join([str(uid), ",".join(map(str, gids))]).rstrip(":"))]
    for uid, gids in users:
        user = ["--uid", str(uid), *(word for gid in gids for word in ("--gid", str(gid)))]
        for path in paths:
            yield from (Asked([command, *user, "--subtree", path], "") for command in (*OF_ONE, "advise"))
        for pid, path in zip(itertools.cycle(pids), ["/", *paths] if pids else ()):
            yield Asked(["may", *user, "--pid", str(pid), "--to", path], "")
        yield Asked(["replay", *user, "--ops", OPS], script)
        for path in some(paths, 2):
            yield Asked(["replay", *user, "--ops", OPS, "--subtree", path], script)
    subtrees = [word for path in paths or ["/"] for word in ("--subtree", path)]
    pairs = "".join(f"pair {user} {path}\n" for user, path in itertools.product(listed[1::2], subtrees[1::2]))
    yield Asked(["advise", *listed, *subtrees], "")
    yield Asked(["advise", "--settle", *listed, *subtrees], "")
    for command in ("advise", "audit", "explain"):
        yield Asked([command, "--pairs", OPS], pairs)
    yield Asked(["audit", *listed, *subtrees], "")
    yield Asked(["audit", "--all", *listed, *subtrees], "")
    yield Asked(["audit", "--settle", *listed, *subtrees], "")
    yield Asked(["audit", "--settle", "--all", *listed, *subtrees], "")
    for command in ("audit", "advise", "explain"):
        yield Asked([command, "--everybody", *subtrees], "")
        yield Asked([command, "--everybody", "--subtrees", OPS], "".join(f"{path}\n" for path in subtrees[1::2]))
    yield Asked(["explain", *listed, *subtrees], "")


def asked_of(example, files):
    """What the other tables of the gate ask of an example, whose files of operations have these names."""
    rows = [words for tree, words, *_ in (*ANSWERS, *ASKED) if tree == example]
    rows += [words for words, *_ in FAULTS if example == "delegation" and "{folder}" not in words]
    for words in rows:
        yield Asked(words.replace("--tree {tree}", "").format(**files).split(), "")
    for tree, subtree, *_ in CHECKS:
        if tree == example:
            yield Asked(["check", "--uid", "1000", "--subtree", subtree], "")
    for tree, subtree, text, *_ in REPLAYS:
        if tree == example:
            yield Asked(["replay", "--uid", "1000", "--ops", OPS, "--subtree", subtree], lines(text))
