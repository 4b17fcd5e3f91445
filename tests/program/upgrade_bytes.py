"""Trees, each with every byte that `upgrade` writes of it, spelled by hand from docs/FORMATS.md, "What is written of a tree"."""

ROOT_ALONE = """format = 1
controllers = []
cgroup = [{ path = '/' }]
"""
ROOT_ALONE_WRITTEN = """controllers = []
format = 2
process = []

[[cgroup]]
enabled = []
path = "/"

[cgroup.dir]
gid = 0
mode = 493
uid = 0

[cgroup.files."cgroup.max.depth"]
gid = 0
mode = 420
uid = 0
value = "max"

[cgroup.files."cgroup.max.descendants"]
gid = 0
mode = 420
uid = 0
value = "max"

[cgroup.files."cgroup.procs"]
gid = 0
mode = 420
uid = 0

[cgroup.files."cgroup.subtree_control"]
gid = 0
mode = 420
uid = 0
"""

# rows, keys and controllers in another order, a name that goes on where another one ends, and PIDs of other lengths
OF_FORMAT_2 = """# a tree
controllers = ["pids", "memory", "cpu", "pids"]
format = 2

[[process]]
uid = 1000
pid = 10
at = '/a/c'

[[process]]
at = '/a-b'
uid = 4294967295
pid = 9

[[cgroup]]
path = '/a-b'
files = { "pids.max" = { value = 7, mode = 0o666, gid = 5, uid = 1000 } }
dir.mode = 0o700

[[cgroup]]
path = '/a/c'

[[cgroup]]
path = '/a'
files."cgroup.procs" = { uid = 1000 }
files."cgroup.max.depth".value = 9223372036854775807

[[cgroup]]
enabled = ["pids", "cpu"]
path = '/'
"""
OF_FORMAT_2_WRITTEN = """controllers = ["cpu", "memory", "pids"]
format = 2

[[cgroup]]
enabled = ["cpu", "pids"]
path = "/"

[cgroup.dir]
gid = 0
mode = 493
uid = 0

[cgroup.files."cgroup.max.depth"]
gid = 0
mode = 420
uid = 0
value = "max"

[cgroup.files."cgroup.max.descendants"]
gid = 0
mode = 420
uid = 0
value = "max"

[cgroup.files."cgroup.procs"]
gid = 0
mode = 420
uid = 0

[cgroup.files."cgroup.subtree_control"]
gid = 0
mode = 420
uid = 0

[[cgroup]]
enabled = []
path = "/a"

[cgroup.dir]
gid = 0
mode = 493
uid = 0

[cgroup.files."cgroup.max.depth"]
gid = 0
mode = 420
uid = 0
value = 9223372036854775807

[cgroup.files."cgroup.max.descendants"]
gid = 0
mode = 420
uid = 0
value = "max"

[cgroup.files."cgroup.procs"]
gid = 0
mode = 420
uid = 1000

[cgroup.files."cgroup.subtree_control"]
gid = 0
mode = 420
uid = 0

[cgroup.files."cpu.weight"]
gid = 0
mode = 420
uid = 0
value = 100

[cgroup.files."pids.max"]
gid = 0
mode = 420
uid = 0
value = "max"

[[cgroup]]
enabled = []
path = "/a/c"

[cgroup.dir]
gid = 0
mode = 493
uid = 0

[cgroup.files."cgroup.max.depth"]
gid = 0
mode = 420
uid = 0
value = "max"

[cgroup.files."cgroup.max.descendants"]
gid = 0
mode = 420
uid = 0
value = "max"

[cgroup.files."cgroup.procs"]
gid = 0
mode = 420
uid = 0

[cgroup.files."cgroup.subtree_control"]
gid = 0
mode = 420
uid = 0

[[cgroup]]
enabled = []
path = "/a-b"

[cgroup.dir]
gid = 0
mode = 448
uid = 0

[cgroup.files."cgroup.max.depth"]
gid = 0
mode = 420
uid = 0
value = "max"

[cgroup.files."cgroup.max.descendants"]
gid = 0
mode = 420
uid = 0
value = "max"

[cgroup.files."cgroup.procs"]
gid = 0
mode = 420
uid = 0

[cgroup.files."cgroup.subtree_control"]
gid = 0
mode = 420
uid = 0

[cgroup.files."cpu.weight"]
gid = 0
mode = 420
uid = 0
value = 100

[cgroup.files."pids.max"]
gid = 5
mode = 438
uid = 1000
value = 7

[[process]]
at = "/a-b"
pid = 9
uid = 4294967295

[[process]]
at = "/a/c"
pid = 10
uid = 1000
"""

# every way to write a text, each as the tree spells it and as it is written
APOSTROPHE = ('"it\'s"', '"it\'s"')
QUOTE = ('"/a\\"b"', "'/a\"b'")
BACKSLASH = ('"a\\\\b"', "'a\\b'")
BOTH_QUOTES = ('"\'a\\"b"', '"""\'a"b"""')
ALL_THREE = ('"\'a\\"b\\\\"', "\'\'\'\'a\"b\\\'\'\'")
NO_OTHER = ('"\'\'\'\\"\\\\"', '"\'\'\'\\"\\\\"')
# values that are texts: one line, several, an integer and none
OF_FORMAT_4 = f"""format = 4
controllers = ["memory", "io"]

[[cgroup]]
path = '/'
enabled = ["memory", "io"]

[[cgroup]]
path = {QUOTE[0]}
[cgroup.files]
"memory.swap.max" = {{ value = 5 }}
"memory.swap.high" = {{ value = {BOTH_QUOTES[0]} }}
"memory.zswap.max" = {{ value = {ALL_THREE[0]} }}
"memory.max" = {{ value = 4096 }}
"io.max" = {{ value = ["8:16 wiops=120", "8:0 rbps=1048576"] }}
"io.weight" = {{ gid = 1000, mode = 0o664 }}
"io.prio.class" = {{ value = {NO_OTHER[0]} }}
"io.latency" = {{ value = [{APOSTROPHE[0]}, {BACKSLASH[0]}] }}
"cgroup.freeze" = {{}}
"""
OF_FORMAT_4_WRITTEN = f"""controllers = ["io", "memory"]
format = 4
process = []

[[cgroup]]
enabled = ["io", "memory"]
path = "/"

[cgroup.dir]
gid = 0
mode = 493
uid = 0

[cgroup.files."cgroup.max.depth"]
gid = 0
mode = 420
uid = 0
value = "max"

[cgroup.files."cgroup.max.descendants"]
gid = 0
mode = 420
uid = 0
value = "max"

[cgroup.files."cgroup.procs"]
gid = 0
mode = 420
uid = 0

[cgroup.files."cgroup.subtree_control"]
gid = 0
mode = 420
uid = 0

[[cgroup]]
enabled = []
path = {QUOTE[1]}

[cgroup.dir]
gid = 0
mode = 493
uid = 0

[cgroup.files."cgroup.freeze"]
gid = 0
mode = 420
uid = 0

[cgroup.files."cgroup.max.depth"]
gid = 0
mode = 420
uid = 0
value = "max"

[cgroup.files."cgroup.max.descendants"]
gid = 0
mode = 420
uid = 0
value = "max"

[cgroup.files."cgroup.procs"]
gid = 0
mode = 420
uid = 0

[cgroup.files."cgroup.subtree_control"]
gid = 0
mode = 420
uid = 0

[cgroup.files."io.latency"]
gid = 0
mode = 420
uid = 0
value = [{APOSTROPHE[1]}, {BACKSLASH[1]}]

[cgroup.files."io.max"]
gid = 0
mode = 420
uid = 0
value = ["8:16 wiops=120", "8:0 rbps=1048576"]

[cgroup.files."io.prio.class"]
gid = 0
mode = 420
uid = 0
value = {NO_OTHER[1]}

[cgroup.files."io.weight"]
gid = 1000
mode = 436
uid = 0

[cgroup.files."memory.high"]
gid = 0
mode = 420
uid = 0
value = "max"

[cgroup.files."memory.low"]
gid = 0
mode = 420
uid = 0
value = 0

[cgroup.files."memory.max"]
gid = 0
mode = 420
uid = 0
value = 4096

[cgroup.files."memory.min"]
gid = 0
mode = 420
uid = 0
value = 0

[cgroup.files."memory.swap.high"]
gid = 0
mode = 420
uid = 0
value = {BOTH_QUOTES[1]}

[cgroup.files."memory.swap.max"]
gid = 0
mode = 420
uid = 0
value = "5"

[cgroup.files."memory.zswap.max"]
gid = 0
mode = 420
uid = 0
value = {ALL_THREE[1]}
"""

# a tree of format 4 that enables nothing, with a process at the root
OF_PROCESS = """format = 4
process = [{ pid = 4194303, uid = 0, at = '/' }]
cgroup = [{ path = '/', dir = { uid = 1, gid = 2, mode = 0o0 }, files = { "cgroup.max.descendants" = { value = 0 } } }]
controllers = ["dmem", "misc", "rdma", "pids", "hugetlb", "memory", "io", "cpu", "cpuset"]
"""
OF_PROCESS_WRITTEN = """controllers = ["cpuset", "cpu", "io", "memory", "hugetlb", "pids", "rdma", "misc", "dmem"]
format = 4

[[cgroup]]
enabled = []
path = "/"

[cgroup.dir]
gid = 2
mode = 0
uid = 1

[cgroup.files."cgroup.max.depth"]
gid = 0
mode = 420
uid = 0
value = "max"

[cgroup.files."cgroup.max.descendants"]
gid = 0
mode = 420
uid = 0
value = 0

[cgroup.files."cgroup.procs"]
gid = 0
mode = 420
uid = 0

[cgroup.files."cgroup.subtree_control"]
gid = 0
mode = 420
uid = 0

[[process]]
at = "/"
pid = 4194303
uid = 0
"""

WRITTEN = {
    "the bytes of a root alone, format 1": (ROOT_ALONE, ROOT_ALONE_WRITTEN),
    "the bytes of a tree of format 2": (OF_FORMAT_2, OF_FORMAT_2_WRITTEN),
    "the bytes of a tree of format 4": (OF_FORMAT_4, OF_FORMAT_4_WRITTEN),
    "the bytes of a root with a process, format 4": (OF_PROCESS, OF_PROCESS_WRITTEN),
}
