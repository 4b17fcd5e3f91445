"""The rows that tests/program/answers.py has of trees of format 4: of its controllers, and of large texts."""
import itertools
import json
import os
import tempfile

from case import PIPE, Case
from of_one import FURTHER, OF_ONE

NINE = ("cpuset", "cpu", "io", "memory", "hugetlb", "pids", "rdma", "misc", "dmem")
THREE = ("cpu", "memory", "pids")
# bytes that a text may have, and one that says at its beginning that it is large; cgroups and processes of formats 2 and 4
LONGEST, LONGEST_LARGE = 16777216, 67108864
MOST_ROWS, MOST_ROWS_OF_4 = 4096, 65536

# User 1002 writes what the root enables, and 1001 what /p enables. 1000 has /p/s, which has io by /p and gives cpuset to a job
BUILDS = b"""format = 4
controllers = ["pids", "io", "hugetlb", "cpuset", "io"]
[[cgroup]]
path = '/'
enabled = ["pids", "io", "cpuset", "pids"]
files."cgroup.subtree_control" = { uid = 1002 }
[[cgroup]]
path = '/p'
enabled = ["io", "cpuset"]
files."cgroup.subtree_control" = { uid = 1001 }
[[cgroup]]
path = '/p/s'
enabled = ["cpuset"]
dir = { uid = 1000 }
files."cgroup.procs" = { uid = 1000 }
files."cgroup.subtree_control" = { uid = 1000 }
[[cgroup]]
path = '/p/s/job'
dir = { uid = 1000 }
files."cgroup.procs" = { uid = 1000 }
[[process]]
pid = 7
uid = 1000
at = '/p/s/job'
"""
# operations of a user, with the subtree that is watched, what comes of each, and the verdict
REPLAYS = (
    ("1001", "/p/s", ("control /p +dmem", "control /p +rdma -rdma", "control /p -cpuset", "control /p +hugetlb -io", "control / -pids",
                      "control /p/s +cpuset", "control /p +io +io", "control /p +pids -io", "set /p/s pids.max 5"),
     ("refused not-available dmem", "ok", "refused child-uses cpuset", "refused not-available hugetlb",
      "refused no-access / cgroup.subtree_control", "refused no-access /p/s cgroup.subtree_control", "ok", "ok", "ok"), "broken 8 limits"),
    ("1002", "/p", ("control / +io", "control / -io", "control / +misc", "control / +hugetlb"),
     ("ok", "refused child-uses io", "refused not-available misc", "ok"), "broken 4 limits"),
    ("1000", "/p/s", ("control /p/s +io", "control /p/s/job +cpuset", "mkdir /p/s/io", "move 7 /p/s/io", "control /p/s/io +io",
                      "control /p/s -io"),
     ("ok", "refused no-access /p/s/job cgroup.subtree_control", "ok", "ok", "refused internal-process /p/s/io", "ok"), "kept"),
)
# of a user and a subtree: what `check` says, which an operation of another controller is, and what a replay says of that
ESCAPES = (("1001", "/p/s", "control /p -io"), ("1002", "/p", "control / +hugetlb"))
GUARDS_OF_S = ("holds common-ancestor /p cgroup.procs 0:0 644", "holds common-ancestor / cgroup.procs 0:0 644",
               "holds limit-file /p/s cgroup.max.descendants 0:0 644", "holds limit-file /p/s cgroup.max.depth 0:0 644")
WITHIN = ("holds already-over /p/s cgroup.max.descendants 1 max", "holds already-over /p/s cgroup.max.depth 1 max")
TOLD_OF_1001 = (
    "pair 1001 /p/s", *GUARDS_OF_S, "fails parent-control /p cgroup.subtree_control 1001:0 644 owner", "holds parent-dir /p dir 0:0 755",
    "holds stays /p/s spared", "holds control /p cpuset on", "holds control /p cpu off", "fails control /p io turned",
    "holds control /p memory off", "holds control /p hugetlb off", "fails control /p pids turned", "holds files /p/s spared", *WITHIN,
    "escapes")
TOLD_OF_1000 = ("pair 1000 /p/s", *GUARDS_OF_S, "holds parent-control /p cgroup.subtree_control 1001:0 644",
                "holds parent-dir /p dir 0:0 755", *WITHIN, "contained")
ADVISED = ("fails parent-control /p cgroup.subtree_control 1001:0 644 owner", "chown /p cgroup.subtree_control 0:0")

# of a limit file that is the user's: its value as the text has it, and the text to which the user sets it, which for some files
# stands behind the device that the value names first
DEVICE, TOO_LONG = 255 * "d", 256 * "d"
LOOSE, TURNED = "rbps=max wbps=max riops=max wiops=max", "rbps=2 wbps=2 riops=2 wiops=2"
SETS = (
    ("io.max", None, LOOSE), ("io.max", "max", LOOSE), ("io.max", "8:0 rbps=1", f"8:0 {LOOSE}"), ("io.max", f"8:0 {LOOSE}", f"8:0 {TURNED}"),
    ("io.max", [f"8:0 {LOOSE}", "8:16 rbps=1"], f"8:0 {TURNED}"), ("io.max", LOOSE, f"rbps=max {LOOSE}"),
    ("misc.max", ["res_a max", "res_b 4"], "res_a 0"), ("misc.max", ["res_a 4", "res_a max"], "res_a 0"),
    ("misc.max", ["res_a 4", "res_b max"], "res_a max"), ("io.weight", ["default 10000", "8:16 200"], "default 9999"),
    ("io.latency", None, "target=max"), ("io.latency", "target=max", "target=1"), ("io.latency", "8:0 target=5", "8:0 target=max"),
    ("rdma.max", "mlx5_0 hca_handle=2 hca_object=2000", "mlx5_0 hca_handle=max hca_object=max"),
    ("rdma.max", "mlx5_0 hca_handle=max hca_object=max", "mlx5_0 hca_handle=0 hca_object=0"),
    ("dmem.low", "drm/0000:03:00.0/vram0 1", "drm/0000:03:00.0/vram0 max"), ("dmem.max", "a max", "a 0"), ("dmem.min", "a 0", "a max"),
    ("misc.max", None, "max"), ("misc.max", "max", "0"), ("misc.max", 0, "max"), ("misc.max", "sev", "max"), ("misc.max", "sev 1", "sev max"),
    ("misc.max", ["sev", "foo 1"], "max"), ("misc.max", ["sev 1", "foo 1"], "sev max"), ("misc.max", f"{DEVICE} max", f"{DEVICE} 0"),
    ("misc.max", f"{TOO_LONG} max", "max"), ("io.weight", "8:0 50", "default 10000"), ("io.weight", "default 10000", "default 9999"),
    ("memory.swap.max", "8:0 max", "max"), ("memory.swap.max", "max", "0"), ("cpu.max", 5, "max 100000"))

# User 1003 writes what /q enables, and turns nothing: /q/s uses io, and the root enables nothing else
HELD = b"""format = 4
controllers = ["dmem", "io"]
cgroup = [
    { path = "/", enabled = ["io"] },
    { path = "/q", enabled = ["io"], files = { "cgroup.subtree_control" = { uid = 1003 } } },
    { path = "/q/s", enabled = ["io"] },
]
"""
TOLD_OF_1003 = (
    "pair 1003 /q/s", "holds common-ancestor /q cgroup.procs 0:0 644", "holds common-ancestor / cgroup.procs 0:0 644",
    "holds limit-file /q/s cgroup.max.descendants 0:0 644", "holds limit-file /q/s cgroup.max.depth 0:0 644",
    "fails parent-control /q cgroup.subtree_control 1003:0 644 owner", "holds parent-dir /q dir 0:0 755", "holds stays /q/s spared",
    "holds control /q cpu off", "holds control /q io on", "holds control /q memory off", "holds control /q pids off",
    "holds control /q dmem off", "holds files /q/s spared", "holds already-over /q/s cgroup.max.descendants 0 max",
    "holds already-over /q/s cgroup.max.depth 0 max", "contained")


def asked(command, uid, subtree, *more):
    return [*command.split(), "--uid", uid, "--subtree", subtree, *more]


def replayed(uid, *more):
    return ["replay", "--uid", uid, "--ops", PIPE, *more]


def lines(texts):
    return "".join(f"{text}\n" for text in texts).encode("ascii")


def answers():
    """What each command says of the two trees."""
    def of(tree, words, status, *told, **more):
        return Case(words, status, [*told], given=tree, **more)
    for uid, subtree, operations, outcomes, verdict in REPLAYS:
        yield of(BUILDS, replayed(uid), 0, *outcomes, piped=lines(operations))
        yield of(BUILDS, replayed(uid, "--subtree", subtree), int(verdict != "kept"), *outcomes, verdict, piped=lines(operations))
    for uid, subtree, operation in ESCAPES:
        for command in OF_ONE:
            yield of(BUILDS, asked(command, uid, subtree), 1, "escapes", operation)
        for command in "audit", "audit --all", "audit --settle", "audit --settle --all":
            yield of(BUILDS, asked(command, uid, subtree, "--uid", "1000"), 1, f"pair {uid} {subtree}", "escapes", operation)
        yield of(BUILDS, replayed(uid, "--subtree", subtree), 1, "ok", "broken 1 limits", piped=lines([operation]))
    for command in (*OF_ONE, "audit", "audit --all", "advise"):
        yield of(BUILDS, asked(command, "1000", "/p/s"), 0, "contained")
    yield of(BUILDS, asked("explain", "1001", "/p/s", "--uid", "1000"), 1, *TOLD_OF_1001, *TOLD_OF_1000)
    yield of(BUILDS, asked("advise", "1001", "/p/s"), 1, *ADVISED)
    yield of(BUILDS, ["advise", "--pairs", PIPE], 1, *ADVISED, piped=b"pair 1000 /p/s\npair 1001 /p/s\n")
    yield of(HELD, asked("check", "1003", "/q/s"), 2, "unsettled parent-control /q")
    yield of(HELD, asked("audit --all", "1003", "/q/s"), 2, "pair 1003 /q/s", "unsettled parent-control /q")
    for command in (*FURTHER, "audit --settle", "audit --settle --all", "advise --settle"):
        yield of(HELD, asked(command, "1003", "/q/s"), 0, "contained")
    yield of(HELD, asked("explain", "1003", "/q/s"), 0, *TOLD_OF_1003)


def of_root(number, controllers, more="", root=""):
    """A tree of a root that has some controllers and further keys, with further tables below it."""
    return f'format = {number}\ncontrollers = {json.dumps(controllers)}\n[[cgroup]]\npath = "/"\n{root}\n{more}'


def operation_lines():
    """Lines name all controllers where a text is of format 4, and of which there is none at the root too."""
    owned = 'files."cgroup.subtree_control".uid = 1000'
    for name in NINE:
        for number, controllers in ((2, THREE), (4, NINE), (4, ()), (1, ())):
            tree, line = of_root(number, controllers, root=owned).encode("ascii"), f"control / +{name}\n".encode("ascii")
            if number < 4 and name not in THREE:
                yield Case(replayed("1000"), 3, ["ok"], "fault: line 2 bad-word", given=tree, piped=b"control / -cpu\n" + line)
            else:
                yield Case(replayed("1000"), 0, ["ok" if name in controllers else f"refused not-available {name}"], given=tree, piped=line)
    for word in "perf_event", "IO", "io.max", "cpusets", "":
        tree = of_root(4, NINE, root=owned).encode("ascii")
        yield Case(replayed("1000"), 3, fault="fault: line 1 bad-word", given=tree, piped=f"control / +{word}\n".encode("ascii"))


def lines_at_the_root():
    """No limit file of format 4 stands there, cgroup.freeze neither."""
    for name in "cgroup.freeze", "io.max":
        for line in f"set / {name} 0", f"chmod / {name} 644":
            yield Case(replayed("1000"), 0, [f"refused no-such-file / {name}"], given=of_root(4, NINE).encode("ascii"), piped=lines([line]))


def sets():
    """Of a limit file that is the user's the escape, and that it is one."""
    for name, value, text in SETS:
        more = "" if value is None else f", value = {json.dumps(value)}"
        tree = of_root(4, NINE, row("/a", f'files."{name}" = {{ uid = 1000{more} }}'), f"enabled = {json.dumps(NINE)}").encode("ascii")
        escape = f"set /a {name} {text}"
        for command in OF_ONE:
            yield Case(asked(command, "1000", "/a"), 1, ["escapes", escape], given=tree)
        yield Case(replayed("1000", "--subtree", "/a"), 1, ["ok", "broken 1 limits"], given=tree, piped=lines([escape]))


def is_read(tree, *more):
    """A tree has no fault."""
    return Case(["replay", "--uid", "1000", "--ops", os.devnull, *more], 0, given=None if more else tree.encode("ascii"))


def is_fault(fault, tree, *more):
    return Case(["upgrade", *more], 3, fault=f"fault: tree {fault}", given=None if more else tree.encode("ascii"))


def row(path, more=""):
    return f"[[cgroup]]\npath = '{path}'\n{more}\n"


def process(pid, path):
    return f"[[process]]\npid = {pid}\nuid = 1000\nat = '{path}'\n"


def tree_faults():
    for number in 0, 3, 5, 44:
        yield is_fault("format", of_root(number, ()))
    yield is_read(of_root(4, NINE, row("/a", "enabled = ['dmem', 'io', 'dmem']"), "enabled = ['io', 'dmem']"))
    for name, number in itertools.product(NINE, (1, 2, 4)):
        is_known = number == 4 or name in THREE
        at_root, below = of_root(number, [name]), of_root(number, (), row("/a", f"enabled = ['{name}']"))
        yield is_read(at_root) if is_known else is_fault("bad-controller top", at_root)
        # where the format has it, what is wrong is that the root doesn't enable it
        yield is_fault("top-down cgroup 2" if is_known else "bad-controller cgroup 2", below)
    for name in "perf_event", "IO", "io.max", "cpusets", "":
        yield is_fault("bad-controller top", of_root(4, ["io", name]))
        yield is_fault("bad-controller cgroup 2", of_root(4, NINE, row("/a", f"enabled = ['{name}']")))
    yield is_fault("top-down cgroup 1", of_root(4, ["io"], root="enabled = ['io', 'rdma']"))
    yield is_fault("internal-process process 1", of_root(4, ["io"], row("/a", "enabled = ['io']") + process(1, "/a"), "enabled = ['io']"))
    yield is_fault("no-such-file cgroup 2", of_root(4, NINE, row("/a", 'files."pids.max".value = 1'), "enabled = ['io']"))
    # a limit file of format 4: what it takes, and that no cgroup is kept from its name
    yield is_fault("shape cgroup 2", of_root(4, NINE, row("/a", 'files."io.maxx".uid = 1000'), "enabled = ['io']"))
    yield is_read(of_root(4, NINE, row("/a", 'files."io.max".uid = 1000'), "enabled = ['io']"))
    yield is_fault("shape cgroup 2", of_root(2, ["cpu"], row("/a", 'files."cpu.max".uid = 1000'), "enabled = ['cpu']"))
    long = 4096 * "1"
    for value in '[]', '""', '" 1"', '"1 "', '"1  2"', '"1\\n2"', '["1", ""]', '["1", "1  2"]', '"\\u00e9"', f'"{long}"', f'["{long}"]':
        yield is_fault("bad-value cgroup 2", of_root(4, NINE, row("/a", f'files."io.max".value = {value}'), "enabled = ['io']"))
    for value in '5', '-5', '"5"', '["5"]', '["5", "6 7"]', f'"{long[1:]}"':
        yield is_read(of_root(4, NINE, row("/a", f'files."io.max".value = {value}'), "enabled = ['io']"))
    for value in 'true', '1.5', '[5]', '["5", 5]', '{}':
        yield is_fault("shape cgroup 2", of_root(4, NINE, row("/a", f'files."io.max".value = {value}'), "enabled = ['io']"))
    yield is_fault("bad-entry cgroup 2", of_root(4, NINE, row("/a", 'files."io.max".uid = 4294967296'), "enabled = ['io']"))
    yield is_fault("no-such-file cgroup 2", of_root(4, NINE, row("/a", 'files."io.max".uid = 1'), "enabled = ['cpu']"))
    yield is_fault("no-such-file cgroup 1", of_root(4, NINE, row("/a"), 'files."cgroup.freeze".uid = 1'))
    yield is_read(of_root(4, NINE, row("/io.max") + row("/cpuset.cpus") + row("/io")))
    yield is_fault("bad-path cgroup 2", of_root(4, NINE, row("/memory.max")))
    yield is_read(of_root(4, (), row("/a", "dir = { gid = 5, mode = 0o775 }")))


def sizes():
    """How many cgroups and processes a text may have."""
    for number, most in ((1, MOST_ROWS), (2, MOST_ROWS), (4, MOST_ROWS_OF_4)):
        yield is_fault("too-many", of_root(number, (), most * "[[cgroup]]\n"))
        yield is_fault("too-many", of_root(number, (), (most + 1) * "[[process]]\n"))
        yield is_fault("shape cgroup 2", of_root(number, (), (most - 1) * "[[cgroup]]\n"))
        yield is_fault("shape process 1", of_root(number, (), most * "[[process]]\n"))
    rows, processes = (row(f"/a{number}") for number in range(MOST_ROWS)), (process(pid, "/a7") for pid in range(1, MOST_ROWS + 2))
    yield is_read(of_root(4, (), "".join([*rows, *processes])))


# How a text begins that says that it is large, and what is nearly so
LARGE = ("format = 4\n", "controllers = []\nformat = 4\n", 'controllers = ["cpu", "io"]\nformat = 4\n',
         f"controllers = {json.dumps(NINE)}\nformat = 4\n")
NOT_LARGE = (
    "", "\n", "format = 2\n", "format = 44\n", "\nformat = 4\n", "# a tree\nformat = 4\n", " format = 4\n", "\ufeffformat = 4\n",
    "format = 4\r\n", "format=4\n", "format = 4 \n", "format = 4 # nine controllers\n", "format = +4\n",
    "controllers = []\nformat = 2\n", "controllers = []\n\nformat = 4\n", "controllers = []\r\nformat = 4\n",
    "controllers = [ ]\nformat = 4\n", 'controllers = ["io", "cpu"]\nformat = 4\n',
    'controllers = ["io", "io"]\nformat = 4\n', 'controllers = ["cpu","io"]\nformat = 4\n', 'controllers = ["io", ]\nformat = 4\n',
    "controllers = ['io']\nformat = 4\n", 'controllers = ["perf_event"]\nformat = 4\n')


def large_texts():
    """How long a text may be. Those that are no TOML are empty but for their beginnings, and take no room on a disk."""
    with tempfile.TemporaryDirectory() as folder:
        file = f"{folder}/tree.toml"

        def of_length(beginning, length):
            with open(file, "wb") as text:
                text.write(beginning.encode("utf-8"))
                text.truncate(length)
            return "--tree", file
        for beginning in LARGE:
            yield is_fault("not-toml", "", *of_length(beginning, LONGEST + 1))
        for beginning in NOT_LARGE:
            yield is_fault("too-long", "", *of_length(beginning, LONGEST + 1))
        yield is_fault("not-toml", "", *of_length(NOT_LARGE[0], LONGEST))
        yield is_fault("not-toml", "", *of_length(LARGE[0], LONGEST_LARGE))
        yield is_fault("too-long", "", *of_length(LARGE[0], LONGEST_LARGE + 1))
    tree = of_root(4, NINE)
    tree += "#" + (LONGEST - len(tree) - 2) * "x"
    yield is_read(f"\n{tree}")
    yield is_read(f"{tree}\n\n")
    yield is_fault("too-long", f"\n{tree}\n")
    yield is_fault("too-long", f"# a tree\n{tree}")


def rows():
    for table in answers, operation_lines, lines_at_the_root, sets, tree_faults, sizes, large_texts:
        yield from table()
