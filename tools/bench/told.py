"""Trees of format 4 whose cgroups name limit files of format 4, and what is asked of them, for tools/bench/run."""
from itertools import chain
from typing import NamedTuple, Sequence

from lists import in_turn
from texts import cgroup, delegated, head, process

CONTROLLERS = ["cpuset", "cpu", "io", "memory", "hugetlb"]
ENABLED = "enabled = [%s]\n" % ", ".join('"%s"' % name for name in CONTROLLERS)
TEN = (
    '"cpu.max" = { value = "50000 100000" }\n',
    '"cpu.max.burst" = { value = 1000 }\n',
    '"cpu.uclamp.max" = { value = "50" }\n',
    '"cpuset.cpus" = { value = "0-1" }\n',
    '"cpuset.mems" = { value = 0 }\n',
    '"hugetlb.2MB.max" = { value = 4194304 }\n',
    '"io.max" = { value = ["8:0 rbps=1048576", "8:16 wiops=120"] }\n',
    '"io.weight" = { value = "default 200" }\n',
    '"memory.swap.max" = { value = 1073741824 }\n',
    '"memory.zswap.max" = { value = "max" }\n',
)
# what each cgroup tells of: of nothing, of one file and of ten
TOLD = ((), TEN[:1], TEN)
OPERATIONS = 256


class Asked(NamedTuple):
    """What is asked of a tree: the words of a command, and the lines of operations in the file that they name."""
    name: str
    text: str
    words: Sequence[str]
    lines: Sequence[str] = ()


def places(count):
    return ["/c%05d" % i for i in range(count - 2)]


def telling(count, told, root="", last="", has_processes=True):
    """A root, children of a user's below it, each of which tells of these files, and `/s`, which tells of none of them; as many
    processes in `/s` and the first 512."""
    paths = places(count)
    rows = [cgroup("/", ENABLED + root)] + [cgroup(path, delegated(1000) + "".join(told)) for path in paths]
    rows.append(cgroup("/s", delegated(1000) + last))
    held = ["/s"] + paths[:512]
    live = [process(i + 1, held[i % len(held)]) for i in range(count)] if has_processes else []
    return head(CONTROLLERS, 4) + "".join(rows + live)


def open_to_all(told):
    return [line.replace("{ ", "{ mode = 0o646, ") for line in told]


def questions(count, told):
    for name, root, last in (
            ("contained", "", ""),
            ("an escape by a move", '[cgroup.files]\n"cgroup.procs" = { mode = 0o646 }\n', ""),
            ("an escape by a file of format 4", "", '"cgroup.freeze" = { uid = 1000 }\n'),
            ("unsettled", "dir = { uid = 1000 }\n", "")):
        yield Asked("check, " + name, telling(count, told, root, last), ["check", "--uid", "1000", "--subtree", "/s"])
    users = [word for uid in range(2000, 2012) for word in ("--uid", str(uid))]
    pairs = users + [word for path in places(count)[:60] for word in ("--subtree", path)]
    tree, writable = telling(count, told), telling(count, told, "dir = { mode = 0o757 }\n")
    yield Asked("audit --all, 720 pairs, contained", tree, ["audit", "--all"] + pairs)
    yield Asked("audit --all, 720 pairs, unsettled", writable, ["audit", "--all"] + pairs)
    yield Asked("advise, 720 pairs, contained", tree, ["advise"] + pairs)
    yield Asked("advise, 720 pairs, files open to all", telling(count, open_to_all(told)), ["advise"] + pairs)
    yield Asked("upgrade", tree, ["upgrade"])


def replays(count, told, ops):
    """Operations that are all carried out, on trees without processes below a root of the user's; they stand in the file `ops`."""
    tree, named = telling(count, told, delegated(1000), has_processes=False), places(count)
    behind, before = [["/%s%05d" % (letter, i) for i in range(OPERATIONS // 2)] for letter in "za"]
    for name, lines in (
            ("nothing", []),
            ("make, set, chmod, remove", in_turn(named[:OPERATIONS // 4])),
            ("controls with nothing below", ["control /s %scpu" % "+-"[i % 2] for i in range(OPERATIONS)]),
            ("removals", ["rmdir " + path for path in named[:OPERATIONS]]),
            ("made and set, behind the others", made_and_set(behind)),
            ("made and set, before the others", made_and_set(before[::-1]))):
        yield Asked("replay, " + name, tree, ["replay", "--uid", "1000", "--ops", ops], lines)


def made_and_set(paths):
    """Cgroups are made, and a file of format 4 of each is set, which nothing named."""
    return [line for path in paths for line in ("mkdir " + path, "set %s cpu.idle 1" % path)]


def asked(count, ops):
    """What is asked of trees of so many cgroups, each time of one for each of `TOLD`."""
    return zip(*(chain(questions(count, told), replays(count, told, ops)) for told in TOLD))
