"""Rows of format 4: small trees with what has to be answered, made by hand from docs/FORMATS.md and docs/MODEL.md.

A change of a tree is a list of pairs of a text that stands in it once and of what stands in its place. An answer is its lines, and its
status behind them; of a fault it is the line.
"""
H = '''format = 4
controllers = ["cpuset", "cpu", "io", "memory", "pids"]

[[cgroup]]
path = "/"
enabled = ["cpuset", "cpu", "io", "memory"]

[[cgroup]]
path = "/s"
dir = { uid = 1000 }
[cgroup.files]
"cgroup.procs" = { uid = 1000 }
"cgroup.subtree_control" = { uid = 1000 }
"cpu.weight" = { value = 50 }

[[cgroup]]
path = "/s/a"
dir = { uid = 1000 }
[cgroup.files]
"cgroup.procs" = { uid = 1000 }
"cgroup.subtree_control" = { uid = 1000 }

[[cgroup]]
path = "/t"

[[process]]
pid = 10
uid = 1000
at = "/s/a"
'''
P = '''format = 4
controllers = ["memory", "io"]

[[cgroup]]
path = "/"
enabled = ["io", "memory"]

[[cgroup]]
path = "/p"
enabled = ["io"]
[cgroup.files]
"cgroup.procs" = { uid = 1000 }

[[cgroup]]
path = "/p/s"

[[process]]
pid = 20
uid = 1000
at = "/p/s"
'''
NINE = ("cpuset", "cpu", "io", "memory", "hugetlb", "pids", "rdma", "misc", "dmem")
# no controller at all
TWO = 'format = 2\ncontrollers = []\ncgroup = [{ path = "/" }, { path = "/s" }]\n'
WEIGHT = '"cpu.weight" = { value = 50 }'
NAMED, ENABLED = 'controllers = ["cpuset", "cpu", "io", "memory", "pids"]', 'enabled = ["cpuset", "cpu", "io", "memory"]'


def behind(line, *more):
    """A change that adds lines below one."""
    return line, "\n".join([line, *more])


def controlled(*controllers):
    """Changes of H: the root has some controllers and enables none, and its cgroup.subtree_control is the user's."""
    return [(NAMED, f"controllers = {[*controllers]}"), (ENABLED, 'files = { "cgroup.subtree_control" = { uid = 1000 } }'), (WEIGHT, "")]


def named(*files):
    """A change of H: /s has no cpu.weight but these files."""
    return WEIGHT, "\n".join(files)


def valued(value):
    """A change of H: /s has io.max with a value."""
    return named(f'"io.max" = {{ value = {value} }}')


# the text that loosens io.max, behind the device that its value tells of first, and the other one
LOOSE, TURNED = "rbps=max wbps=max riops=max wiops=max", "rbps=2 wbps=2 riops=2 wiops=2"
SET_LOOSE = f"set /s io.max {LOOSE}"
OWN_CONTROL = behind(ENABLED, 'files = { "cgroup.subtree_control" = { uid = 1000 } }')
SHUT_CONTROL = behind(ENABLED, 'files = { "cgroup.subtree_control" = { uid = 1000, mode = 0o444 } }')
GROUPS_CONTROL = behind(ENABLED, 'files = { "cgroup.subtree_control" = { gid = 50, mode = 0o664 } }')
CHECK, AS_ONE = "check --uid 1000 --subtree /s", "replay --uid 1000 --gid 7 --subtree /s --ops OPS"
EXPLAINED_P = """\
pair 1000 /p/s
fails common-ancestor /p cgroup.procs 1000:0 644 owner
holds common-ancestor / cgroup.procs 0:0 644
holds limit-file /p/s cgroup.max.descendants 0:0 644
holds limit-file /p/s cgroup.max.depth 0:0 644
holds parent-control /p cgroup.subtree_control 0:0 644
holds parent-dir /p dir 0:0 755
holds stays /p/s spared
holds control /p cpu off
holds control /p io on
holds control /p memory off
holds control /p pids off
holds files /p/s spared
fails shut /p takes spared
holds shut /p/s spared spared
holds already-over /p/s cgroup.max.descendants 0 max
holds already-over /p/s cgroup.max.depth 0 max
unsettled common-ancestor /p
""".splitlines()
# of H with a change what CHECK answers
TEXTS = [
    ([], "contained"),
    *(([("format = 4", f"format = {number}")], "fault: tree format") for number in (0, 3, 5, 6, -4, 44, 2 ** 32 + 4)),
    *(([("format = 4", f"format = {number}")], "fault: tree shape top") for number in ("4.0", '"4"', "[4]", "true")),
    *(([("format = 4", f"format = {number}")], "contained") for number in ("0x4", "+4", "0b100")),
    *(([("format = 4", f"format = {number}")], "fault: tree bad-controller top") for number in (1, 2)),
    *(([("format = 4", f"format = {number}"), (NAMED, 'controllers = ["cpu", "memory"]')], "fault: tree bad-controller cgroup 1")
      for number in (1, 2)),
    *(([("format = 4", f"format = {number}"), (NAMED, 'controllers = ["cpu"]'), (ENABLED, 'enabled = ["cpu"]')], "contained")
      for number in (1, 2, 4)),
    *(([("format = 4", "format = 2"), (NAMED, f'controllers = ["{name}"]')], "fault: tree bad-controller top")
      for name in ("cpuset", "io", "hugetlb", "rdma", "misc", "dmem")),
    *(([(NAMED, f'controllers = ["{name}"]'), (ENABLED, f'enabled = ["{name}"]'), (WEIGHT, "")], "contained")
      for name in ("cpuset", "cpu", "io", "memory", "hugetlb", "pids", "rdma", "misc", "dmem")),
    *(([(NAMED, f'controllers = ["cpu", "{name}"]')], "fault: tree bad-controller top")
      for name in ("perf_event", "net_cls", "IO", "io ", "", "cpu.weight", "freezer")),
    *(([(ENABLED, f'enabled = ["cpu", "{name}"]')], "fault: tree bad-controller cgroup 1") for name in ("perf_event", "net_cls", "Dmem")),
    ([(NAMED, 'controllers = ["memory", "io", "cpu", "cpuset", "io"]'), (ENABLED, 'enabled = ["memory", "cpu", "memory"]')], "contained"),
    ([(ENABLED, 'enabled = ["cpuset", "cpu", "io", "rdma"]')], "fault: tree top-down cgroup 1"),
    ([behind('path = "/t"', 'enabled = ["cpuset", "pids"]')], "fault: tree top-down cgroup 4"),
    ([behind('path = "/t"', 'enabled = ["cpuset", "io"]')], "contained"),
    *(([named(f'"{name}" = {{}}')], "fault: tree shape cgroup 2") for name in (
        "cpu.stat", "io", "hugetlb.4MB.max", "cpu.max.", "CPU.MAX", "memory.oom.group", "io.cost.qos", "cgroup.kill", "cgroup.type", "")),
    *(([named(f'"{name}" = {{}}')], "contained") for name in (
        "cpu.max", "io.max", "io.weight", "cpuset.cpus", "cgroup.freeze", "memory.swap.max", "cpu.weight.nice", "memory.zswap.writeback")),
    *(([named(f'"{name}" = {{}}')], "fault: tree no-such-file cgroup 2") for name in ("hugetlb.2MB.max", "misc.max", "rdma.max", "dmem.low")),
    ([named('"io.max" = 5')], "fault: tree shape cgroup 2"),
    ([named('"io.max" = { values = 5 }')], "fault: tree shape cgroup 2"),
    ([named('"cgroup.procs.max" = { value = 5 }')], "fault: tree shape cgroup 2"),
    *(([valued(value)], "contained") for value in (
        "0", "-5", "0x10", "9223372036854775807", "-9223372036854775808", '"5"', '"max 100000"', "'\"'", '"# ~ !"', '["a"]', '["a", "b c"]',
        '["a", "a"]', f'"{4095 * "x"}"', f'["1", "x{2047 * " x"}"]')),
    *(([valued(value)], "fault: tree bad-value cgroup 2") for value in (
        '""', '" "', '"1 "', '" 1"', '"1  2"', '"1\\t2"', '"1\\n2"', '"1\\n"', '"\\u007f"', '"\u00e9"', "[]", '[""]', '["1", ""]', '["1 ", "2"]',
        '["1\\n2"]', f'"{4096 * "x"}"', f'["1", "xx{2047 * " x"}"]')),
    *(([valued(value)], "fault: tree shape cgroup 2") for value in (
        "true", "1.5", "{}", "[1]", '["1", 2]', '["", 2]', '[["1"]]', "[true]", "1979-05-27", '{ value = "1" }')),
    *(([named(f'"io.max" = {{ {key} }}')], "fault: tree bad-entry cgroup 2") for key in (
        "uid = -1", "gid = 4294967296", "mode = 0o1000", "mode = 644")),
    ([named('"io.max" = { uid = 4294967295, gid = 4294967295, mode = 0o664 }')], "contained"),
    # of a row an entry comes before a value, and of two rows the first; both before what doesn't stand, which goes by rows alone
    ([named('"io.max" = { value = [] }', '"rdma.max" = { uid = -1 }')], "fault: tree bad-entry cgroup 2"),
    ([named('"io.max" = { value = [] }'), behind('path = "/t"', 'dir = { uid = -1 }')], "fault: tree bad-value cgroup 2"),
    ([named('"rdma.max" = { value = "" }')], "fault: tree bad-value cgroup 2"),
    ([named('"rdma.max" = {}'), behind('path = "/t"', 'files = { "cpu.max" = { value = "" } }')], "fault: tree bad-value cgroup 4"),
    ([named('"rdma.max" = {}'), behind('path = "/t"', 'files = { "pids.max" = {} }')], "fault: tree no-such-file cgroup 2"),
    ([named('"pids.max" = {}'), behind('path = "/t"', 'files = { "rdma.max" = {} }')], "fault: tree no-such-file cgroup 2"),
    ([named('"io.max" = {}'), behind('path = "/t"', 'files = { "rdma.max" = {} }')], "fault: tree no-such-file cgroup 4"),
    ([named('"rdma.max" = {}'), behind('path = "/t"', 'enabled = ["pids"]')], "fault: tree top-down cgroup 4"),
    ([named('"rdma.max" = {}'), ("pid = 10", "pid = 0")], "fault: tree no-such-file cgroup 2"),
    *(([behind(ENABLED, f'files = {{ "{name}" = {{}} }}')], "fault: tree no-such-file cgroup 1") for name in ("cgroup.freeze", "cpu.max", "io.max")),
    *(([("format = 4", f"format = {number}"), (NAMED, 'controllers = ["cpu"]'), (ENABLED, 'enabled = ["cpu"]'), named(f'"{name}" = {{}}')],
       "fault: tree shape cgroup 2") for number in (1, 2) for name in ("cpu.max", "cgroup.freeze")),
    ([(WEIGHT, '"pids.max" = {}')], "fault: tree no-such-file cgroup 2"),
    ([(WEIGHT, '"cpu.weight" = { value = "max" }')], "fault: tree bad-value cgroup 2"),
    ([(WEIGHT, '"cpu.weight" = { value = ["50"] }')], "fault: tree shape cgroup 2"),
    ([(ENABLED, 'enabled = ["cpuset", "io", "memory"]')], "fault: tree no-such-file cgroup 2"),
    ([(WEIGHT, '"cpu.weight" = { gid = 5, mode = 0o664 }')], "contained"),
    ([(WEIGHT, '"cpu.weight" = { gid = 4294967296 }')], "fault: tree bad-entry cgroup 2"),
    ([("format = 4", "format = 1"), (NAMED, 'controllers = ["cpu"]'), (ENABLED, 'enabled = ["cpu"]'), (WEIGHT, '"cpu.weight" = { gid = 0 }')],
     "fault: tree shape cgroup 2"),
    ([behind('path = "/s/a"', 'enabled = ["io"]'), behind('path = "/s"', 'enabled = ["io"]')], "fault: tree internal-process process 1"),
    ([('at = "/s/a"', 'at = "/s"'), behind('path = "/s"', 'enabled = ["cpuset"]')], "fault: tree internal-process process 1"),
    ([('at = "/s/a"', 'at = "/"')], "contained"),
    ([('path = "/t"', 'path = "/io.max"')], "contained"),
    ([('path = "/t"', 'path = "/cpuset"')], "contained"),
    ([('path = "/t"', 'path = "/cpu.weight"')], "fault: tree bad-path cgroup 4"),
]
# a tree with a change, words, and what is answered
ANSWERS = [
    (H, [OWN_CONTROL], CHECK, ["escapes", "control / -cpuset"], 1),
    (H, [SHUT_CONTROL], CHECK, ["escapes", "chmod / cgroup.subtree_control 644", "control / -cpuset"], 1),
    (H, [GROUPS_CONTROL], "check --uid 1000 --gid 5 --gid 50 --subtree /s", ["escapes", "control / -cpuset"], 1),
    (H, [GROUPS_CONTROL], CHECK, ["contained"], 0),
    # what is enabled below isn't disabled
    (H, [OWN_CONTROL, behind('path = "/s"', 'enabled = ["cpuset"]')], CHECK, ["escapes", "control / -cpu"], 1),
    (H, [OWN_CONTROL, behind('path = "/s"', 'enabled = ["cpuset", "cpu"]')], CHECK, ["escapes", "control / -io"], 1),
    (H, [OWN_CONTROL, behind('path = "/t"', 'enabled = ["io", "cpuset", "cpu"]')], CHECK, ["escapes", "control / -memory"], 1),
    (H, [OWN_CONTROL, behind('path = "/t"', 'enabled = ["io", "cpuset", "cpu", "memory"]')], CHECK, ["escapes", "control / +pids"], 1),
    *((H, controlled(name), CHECK, ["escapes", f"control / +{name}"], 1)
      for name in ("cpuset", "cpu", "io", "memory", "hugetlb", "pids", "rdma", "misc", "dmem")),
    (H, controlled(), CHECK, ["unsettled parent-control /"], 2),
    (H, controlled("io", "cpu"), CHECK, ["escapes", "control / +cpu"], 1),
    (H, controlled("dmem", "pids", "hugetlb"), CHECK, ["escapes", "control / +hugetlb"], 1),
    (H, controlled("dmem", "misc", "rdma", "pids"), CHECK, ["escapes", "control / +pids"], 1),
    (H, [OWN_CONTROL], "audit --uid 1001 --uid 1000 --subtree /s", ["pair 1000 /s", "escapes", "control / -cpuset"], 1),
    (H, [OWN_CONTROL], "advise --uid 1000 --subtree /s",
     ["fails parent-control / cgroup.subtree_control 1000:0 644 owner", "chown / cgroup.subtree_control 0:0"], 1),
    # limit files of the subtree that a text names, whose values are texts
    (H, [named('"io.max" = { uid = 1000 }')], CHECK, ["escapes", SET_LOOSE], 1),
    (H, [named('"io.max" = { uid = 1000, mode = 0o444 }')], CHECK, ["escapes", "chmod /s io.max 644", SET_LOOSE], 1),
    (H, [named('"io.max" = { gid = 50, mode = 0o664 }')], "check --uid 1000 --gid 5 --gid 50 --subtree /s", ["escapes", SET_LOOSE], 1),
    (H, [named('"io.max" = { gid = 50, mode = 0o664 }')], CHECK, ["contained"], 0),
    (H, [named('"io.max" = { mode = 0o646 }')], "audit --uid 1001 --subtree /s", ["pair 1001 /s", "escapes", SET_LOOSE], 1),
    *((H, [named(f'"{name}" = {{ uid = 1000, value = {value} }}')], CHECK, ["escapes", f"set /s {name} {other}"], 1) for name, value, other in (
        ("io.max", '"8:0 rbps=1"', f"8:0 {LOOSE}"), ("io.max", '"max"', LOOSE), ("io.weight", '"default 10000"', "default 9999"),
        ("io.weight", '["default 10000"]', "default 9999"), ("io.weight", '["default 10000", "default 10000"]', "default 9999"),
        ("io.weight", '["default 10000", "8:16 200"]', "default 9999"), ("io.weight", '["8:16 200", "default 10000"]', "default 9999"),
        ("io.weight", '["default 100", "8:16 200"]', "default 10000"),
        ("io.max", "0", LOOSE), ("cpu.idle", "0", "1"), ("cpu.idle", '["0"]', "1"), ("cpu.idle", '"00"', "0"), ("cpu.idle", "1", "0"),
        ("cpu.max", '"max 100000"', "max 50000"), ("cpu.max", "5", "max 100000"), ("cpu.weight.nice", "-20", "-19"), ("cpuset.cpus", '"0-3,5"', "0-1"),
        ("cgroup.freeze", "1", "0"))),
    # the eight come first, and then the others by their names
    (H, [named('"cpu.max" = { uid = 1000 }', '"memory.max" = { uid = 1000 }')], CHECK, ["escapes", "set /s memory.max 0"], 1),
    (H, [named('"cpuset.mems" = { uid = 1000 }', '"cpu.uclamp.min" = { uid = 1000 }')], CHECK, ["escapes", "set /s cpu.uclamp.min max"], 1),
    (H, [named('"cpuset.mems" = { uid = 1000, mode = 0o400 }', '"cpu.idle" = { uid = 1000, mode = 0o444 }')], CHECK,
     ["escapes", "chmod /s cpu.idle 644", "chmod /s cpuset.mems 600", "set /s cpu.idle 0"], 1),
    (H, [named('"io.max" = { uid = 1000 }'), OWN_CONTROL], CHECK, ["escapes", SET_LOOSE], 1),
    (H, [behind('path = "/t"', 'files = { "io.max" = { uid = 1000 } }')], CHECK, ["contained"], 0),
    (H, [named('"io.max" = { uid = 1000, value = 5 }')], "advise --uid 1000 --subtree /s",
     ["fails limit-file /s io.max 1000:0 644 owner", "chown /s io.max 0:0"], 1),
    (H, [named('"io.max" = { gid = 5, mode = 0o666 }', '"cgroup.freeze" = { uid = 1000, mode = 0o606 }')], "advise --uid 1001:5 --uid 1000 --subtree /s",
     ["fails limit-file /s cgroup.freeze 1000:0 606 owner", "fails limit-file /s cgroup.freeze 1000:0 606 others", "chown /s cgroup.freeze 0:0",
      "chmod /s cgroup.freeze 604", "fails limit-file /s io.max 0:5 666 group", "fails limit-file /s io.max 0:5 666 others", "chmod /s io.max 644"], 1),
    (H, [named('"io.max" = { uid = 1000 }')], "settle --uid 1000 --subtree /s", ["escapes", SET_LOOSE], 1),
    (H, [named('"io.max" = { uid = 1000 }')], "advise --settle --uid 1001 --uid 1000 --subtree /s",
     ["fails limit-file /s io.max 1000:0 644 owner", "chown /s io.max 0:0"], 1),
    (P, [('path = "/p/s"', 'path = "/p/s"\nfiles = { "io.weight" = {}, "io.max" = { gid = 5, mode = 0o640, value = "max" } }')],
     "explain --uid 1000 --subtree /p/s", [*EXPLAINED_P[:5], "holds limit-file /p/s io.max 0:5 640", "holds limit-file /p/s io.weight 0:0 644",
                                           *EXPLAINED_P[5:]], 2),
    (P, [('path = "/p/s"', 'path = "/p/s"\nfiles = { "io.max" = { gid = 5, mode = 0o660 } }')], "explain --uid 1001:5 --subtree /p/s",
     ["pair 1001:5 /p/s", "holds common-ancestor /p cgroup.procs 1000:0 644", *EXPLAINED_P[2:5], "fails limit-file /p/s io.max 0:5 660 group",
      *EXPLAINED_P[5:12], "fails files /p/s reached", *EXPLAINED_P[15:17], "escapes"], 1),
    (P, [], "check --uid 1000 --subtree /p/s", ["unsettled common-ancestor /p"], 2),
    (P, [], "may --uid 1000 --pid 20 --to /p", ["refused internal-process /p"], 1),
    # memory alone is counted on
    (P, [('enabled = ["io"]', 'enabled = ["memory"]')], "settle --uid 1000 --subtree /p/s", ["contained"], 0),
    (P, [('enabled = ["io"]', 'enabled = ["io", "memory"]')], "settle --uid 1000 --subtree /p/s", ["contained"], 0),
    (P, [], "settle --uid 1000 --subtree /p/s", ["unsettled common-ancestor /p"], 2),
    (P, [], "explain --uid 1000 --subtree /p/s", EXPLAINED_P, 2),
]
# the root has all nine controllers and enables them
EVERY = f"""format = 4
controllers = {[*NINE]}
cgroup = [{{ path = '/', enabled = {[*NINE]} }}, {{ path = '/s' }}]
"""
# of EVERY with a value of a file of the subtree, which is the user's, the text to which CHECK sets it
DEVICE, TOO_LONG = 255 * "d", 256 * "d"
DEVICES = [
    ("io.max", f'"8:0 {LOOSE}"', f"8:0 {TURNED}"), ("io.max", f'["8:0 {LOOSE}"]', f"8:0 {TURNED}"), ("io.max", f'"8:0 {TURNED}"', f"8:0 {LOOSE}"),
    ("io.max", '"8:0 max"', f"8:0 {LOOSE}"), ("io.max", f'["8:0 {LOOSE}", "8:16 rbps=1"]', f"8:0 {TURNED}"),
    ("io.max", f'["8:16 rbps=1", "8:0 {LOOSE}"]', f"8:16 {LOOSE}"), ("io.max", f'["8:16 rbps=1", "8:16 {LOOSE}"]', f"8:16 {TURNED}"),
    ("io.max", '["8:16 rbps=1", "8:0 rbps=1"]', f"8:16 {LOOSE}"), ("io.max", f'"{LOOSE}"', f"rbps=max {LOOSE}"), ("io.max", '"8:0"', LOOSE),
    ("io.max", f'"rbps=max {LOOSE}"', f"rbps=max {TURNED}"), ("io.max", "5", LOOSE), ("io.max", '["8:0", "8:16 rbps=1"]', LOOSE),
    ("io.latency", '"target=max"', "target=1"), ("io.latency", '"target=1"', "target=max"), ("io.latency", '"8:0"', "target=max"),
    ("io.latency", '"8:0 target=75000"', "8:0 target=max"), ("io.latency", '"8:0 target=max"', "8:0 target=1"),
    ("rdma.max", '"mlx5_0 hca_handle=2 hca_object=2000"', "mlx5_0 hca_handle=max hca_object=max"),
    ("rdma.max", '"mlx5_0 hca_handle=max hca_object=max"', "mlx5_0 hca_handle=0 hca_object=0"),
    ("rdma.max", '"hca_handle=max hca_object=max"', "hca_handle=max hca_handle=max hca_object=max"),
    *((name, f'"drm/0000:03:00.0/vram0 {value}"', f"drm/0000:03:00.0/vram0 {text}") for name in ("dmem.low", "dmem.max", "dmem.min")
      for value, text in (("1048576", "max"), ("max", "0"), ("0", "max"))),
    *(("misc.max", value, text) for value, text in (
        ('"sev 1"', "sev max"), ('"sev max"', "sev 0"), ('"sev 0"', "sev max"), ('"max"', "0"), ('["max"]', "0"), ('"0"', "max"), ('"sev"', "max"),
        ('"max max"', "max 0"), ('"sev max 1"', "sev max"), ('"! 1"', "! max"), ('["sev 1", "foo 2"]', "sev max"), ('["sev max", "foo 2"]', "sev 0"),
        ('["res_a max", "res_b 4"]', "res_a 0"), ('["res_a 4", "res_b 4", "res_a max"]', "res_a 0"), ('["res_a 4", "res_b max"]', "res_a max"),
        ('["res_a 4", "max"]', "res_a max"), ('["sev max 1", "foo max"]', "sev max"),
        ('["sev max", "sev max"]', "sev 0"), ('["sev", "foo 1"]', "max"), ('["sev", "sev max"]', "max"), ('["max", "max"]', "0"),
        ('["sev", "max"]', "0"),
        ('["sev", "foo"]', "max"), (f'"{DEVICE} 1"', f"{DEVICE} max"), (f'"{DEVICE} max"', f"{DEVICE} 0"), (f'["{DEVICE} max", "1"]', f"{DEVICE} 0"),
        (f'"{DEVICE}"', "max"), (f'"{TOO_LONG} 1"', "max"), (f'"{TOO_LONG} max"', "max"), (f'["{TOO_LONG} 1", "sev 1"]', "max"))),
    # of these no line begins with a device
    ("io.weight", '"8:0 50"', "default 10000"), ("io.bfq.weight", '"8:0 1000"', "default 1000"), ("io.prio.class", '"8:0 no-change"', "no-change"),
    ("memory.swap.max", '"8:0 max"', "max"), ("hugetlb.2MB.max", '"8:0 max"', "max"), ("cpu.max", '"8:0 max 100000"', "max 100000"),
]
# of H operations, one after another, each with its outcome, by AS_ONE; at the end the subtree is kept
OUTCOMES = [
    ("control /s +pids", "refused not-available pids"),
    ("control /s +rdma +hugetlb", "refused not-available hugetlb"),
    ("control /s +dmem +cpuset", "refused not-available dmem"),
    ("control /s -dmem", "ok"),
    ("control /x +io", "refused no-such-cgroup /x"),
    ("control / +cpuset", "refused no-access / cgroup.subtree_control"),
    ("control /s +memory +io", "ok"),
    ("set /s/a memory.max 1", "ok"),
    ("set /s/a cpu.weight 1", "refused no-such-file /s/a cpu.weight"),
    ("control /s/a +io", "refused internal-process /s/a"),
    ("control /s/a +cpuset", "refused not-available cpuset"),
    ("mkdir /s/b", "ok"),
    ("control /s/b +io", "ok"),
    ("control /s -memory -io", "refused child-uses io"),
    ("control /s -io +io", "ok"),
    ("move 10 /s/b", "refused internal-process /s/b"),
    ("move 10 /s", "refused internal-process /s"),
    ("control /s/b -io", "ok"),
    ("move 10 /s/b", "ok"),
    ("control /s -io -memory +cpuset", "ok"),
    ("set /s/a memory.max 1", "refused no-such-file /s/a memory.max"),
    ("control /s -cpuset", "ok"),
    ("move 10 /s", "ok"),
    ("control /s +io", "refused internal-process /s"),
    ("control /s -io", "ok"),
]
# the same on limit files whose values are texts
OUTCOMES_OF_TEXTS = [
    ("set /x cpu.max max", "refused no-such-cgroup /x"),
    ("set / cpu.max max 100000", "refused no-such-file / cpu.max"),
    ("set / cgroup.freeze 0", "refused no-such-file / cgroup.freeze"),
    ("set /s cpu.max max 100000", "refused no-access /s cpu.max"),
    ("set /s cgroup.freeze 0", "refused no-access /s cgroup.freeze"),
    ("set /s rdma.max max", "refused no-such-file /s rdma.max"),
    ("set /s hugetlb.2MB.rsvd.max max", "refused no-such-file /s hugetlb.2MB.rsvd.max"),
    ("set /s memory.swap.max no value at all", "refused no-access /s memory.swap.max"),
    ("set /s/a cpu.max 1", "refused no-such-file /s/a cpu.max"),
    ("set /s/a cgroup.freeze 1", "refused no-access /s/a cgroup.freeze"),
    ("chmod /x io.max 644", "refused no-such-cgroup /x"),
    ("chmod / io.max 600", "refused no-such-file / io.max"),
    ("chmod / cgroup.freeze 600", "refused no-such-file / cgroup.freeze"),
    ("chmod /s misc.max 600", "refused no-such-file /s misc.max"),
    ("chmod /s io.weight 666", "refused not-owner /s io.weight"),
    ("control /s +memory +io", "ok"),
    ("set /s/a io.max 8:0 rbps=1048576 wiops=120", "ok"),
    ("set /s/a io.max 8:0 rbps=1048576 wiops=120", "ok"),
    ("set /s/a memory.zswap.writeback -1", "ok"),
    ("chmod /s/a io.weight 400", "ok"),
    ("set /s/a io.weight default 60", "refused no-access /s/a io.weight"),
    ("set /s/a io.latency max", "ok"),
    ("control /s +io +memory", "ok"),
    ("set /s/a io.weight default 60", "refused no-access /s/a io.weight"),
    ("set /s/a cgroup.freeze 1", "refused no-access /s/a cgroup.freeze"),
    ("control /s -memory", "ok"),
    ("set /s/a memory.swap.max 0", "refused no-such-file /s/a memory.swap.max"),
    ("chmod /s/a memory.swap.max 600", "refused no-such-file /s/a memory.swap.max"),
    ("set /s/a io.weight default 60", "refused no-access /s/a io.weight"),
    ("chmod /s/a io.weight 200", "ok"),
    ("set /s/a io.weight default 60", "ok"),
    ("chmod /s/a io.weight 000", "ok"),
    ("control /s -io +io", "ok"),
    ("set /s/a io.weight default 60", "refused no-access /s/a io.weight"),
    ("control /s -io", "ok"),
    ("set /s/a io.weight default 60", "refused no-such-file /s/a io.weight"),
    ("control /s +io", "ok"),
    ("set /s/a io.weight default 60", "ok"),
    ("mkdir /s/b", "ok"),
    ("set /s/b io.bfq.weight 500", "ok"),
    ("set /s/b cgroup.freeze 1", "ok"),
    ("chmod /s/b cgroup.freeze 444", "ok"),
    ("set /s/b cgroup.freeze 0", "refused no-access /s/b cgroup.freeze"),
    ("set /s/b cpuset.cpus 0-3", "refused no-such-file /s/b cpuset.cpus"),
    ("rmdir /s/b", "ok"),
    ("set /s/b cgroup.freeze 0", "refused no-such-cgroup /s/b"),
    ("mkdir /s/b", "ok"),
    ("set /s/b cgroup.freeze 0", "ok"),
]
# of H with a change operations, and what is printed by AS_ONE
VERDICTS = [
    ([OWN_CONTROL], ["control / -cpuset +cpuset", "control / -pids", "control / -cpuset"], ["ok", "ok", "ok", "broken 3 limits"]),
    ([OWN_CONTROL], ["control / -io", "control / +io"], ["ok", "ok", "broken 1 limits"]),
    ([OWN_CONTROL], ["control / +dmem", "control / +io"], ["refused not-available dmem", "ok", "kept"]),
    (controlled("rdma"), ["control / +rdma"], ["ok", "broken 1 limits"]),
    (controlled("rdma", "misc"), ["control / -misc", "control / +misc +rdma -misc -rdma", "control / +misc"], ["ok", "ok", "ok", "broken 3 limits"]),
    ([], ["control /s +io", "control /s -io", "control /s +cpuset"], ["ok", "ok", "ok", "kept"]),
    ([], ["control /s +io", "set /s/a io.max max", "chmod /s/a io.max 600", "control /s -io"], ["ok", "ok", "ok", "ok", "kept"]),
    ([OWN_CONTROL], ["control / -io", "control / +io", "set /s io.max max"], ["ok", "ok", "ok", "broken 1 limits"]),
    # what a text has of the subtree
    *(([named(f'"io.max" = {{ uid = 1000, value = {value} }}')], [f"set /s io.max {text}"], ["ok", verdict]) for value, text, verdict in (
        ("5", "5", "kept"), ("+5", "5", "kept"), ('"5"', "5", "kept"), ('["5"]', "5", "kept"), ('"05"', "5", "broken 1 limits"),
        ("-5", "-5", "kept"), ("0x10", "16", "kept"), ('"a b"', "a b", "kept"), ('["a b"]', "a b", "kept"), ('["a", "b"]', "a b", "broken 1 limits"),
        ('["a", "b"]', "a", "broken 1 limits"), ('["a", "a"]', "a", "broken 1 limits"), ("5", "max", "broken 1 limits"))),
    ([named('"io.max" = { uid = 1000 }')], ["set /s io.max max"], ["ok", "broken 1 limits"]),
    *(([named(f'"io.max" = {{ uid = 1000, value = "8:0 {LOOSE}" }}')], [f"set /s io.max {text}"], ["ok", verdict]) for text, verdict in (
        (f"8:0 {LOOSE}", "kept"), (LOOSE, "broken 1 limits"), (f"8:16 {LOOSE}", "broken 1 limits"), (f"8:0 {TURNED}", "broken 1 limits"))),
    ([named('"io.max" = { gid = 7, mode = 0o664, value = 5 }')], ["set /s io.max 5", "chmod /s io.max 600", "set /s io.max 6"],
     ["ok", "refused not-owner /s io.max", "ok", "broken 3 limits"]),
    ([named('"io.max" = { uid = 1000, value = ["a", "b"] }')], ["chmod /s io.max 444", "set /s io.max 1", "chmod /s io.max 644"],
     ["ok", "refused no-access /s io.max", "ok", "kept"]),
    ([named('"io.max" = { value = 5 }')], ["set /s io.max 5", "chmod /s io.max 666", "set /s io.weight 5"],
     ["refused no-access /s io.max", "refused not-owner /s io.max", "refused no-access /s io.weight", "kept"]),
    ([named('"io.max" = { value = 5 }'), OWN_CONTROL], ["control / -io +io", "control / -io", "control / +io", "set /s io.max 5"],
     ["ok", "ok", "ok", "ok", "broken 2 limits"]),
]
# of a cgroup in the subtree what a text has is kept until its controller is disabled or the cgroup removed
B = """format = 4
controllers = ["io", "memory"]
[[cgroup]]
path = "/"
enabled = ["io", "memory"]
[[cgroup]]
path = "/s"
enabled = ["io", "memory"]
dir = { uid = 1000 }
files = { "cgroup.subtree_control" = { uid = 1000 } }
[[cgroup]]
path = "/s/a"
[cgroup.files]
"cgroup.freeze" = { uid = 1000, value = 1 }
"io.max" = { mode = 0o600, value = 5 }
"memory.swap.max" = { gid = 7, mode = 0o420 }
"""
OUTCOMES_OF_NAMED = [
    ("set /s/a io.max 6", "refused no-access /s/a io.max"),
    ("chmod /s/a io.max 666", "refused not-owner /s/a io.max"),
    ("set /s/a io.weight 6", "refused no-access /s/a io.weight"),
    ("set /s/a memory.swap.max 6", "ok"),
    ("chmod /s/a memory.swap.max 666", "refused not-owner /s/a memory.swap.max"),
    ("set /s/a cgroup.freeze 0", "ok"),
    ("chmod /s/a cgroup.freeze 400", "ok"),
    ("set /s/a cgroup.freeze 1", "refused no-access /s/a cgroup.freeze"),
    ("control /s -memory +io", "ok"),
    ("set /s/a io.max 6", "refused no-access /s/a io.max"),
    ("set /s/a memory.swap.max 6", "refused no-such-file /s/a memory.swap.max"),
    ("control /s -io", "ok"),
    ("chmod /s/a io.max 666", "refused no-such-file /s/a io.max"),
    ("control /s +io +memory", "ok"),
    ("set /s/a io.max 6", "ok"),
    ("chmod /s/a memory.swap.max 420", "ok"),
    ("set /s/a cgroup.freeze 1", "refused no-access /s/a cgroup.freeze"),
    ("rmdir /s/a", "ok"),
    ("mkdir /s/a", "ok"),
    ("set /s/a cgroup.freeze 1", "ok"),
    ("set /s/a io.max 6", "ok"),
]
# how a text begins, and whether it is read where it goes on past 16777216 bytes
BEGINNINGS = [
    (b"format = 4\n", True),
    (b"format = 4\ncontrollers = []\n", True),
    (b"controllers = []\nformat = 4\n", True),
    (b'controllers = ["dmem"]\nformat = 4\n', True),
    (b'controllers = ["cpu", "io"]\nformat = 4\n', True),
    (b'controllers = ["io", "cpu"]\nformat = 4\n', False),
    (b'controllers = ["cpu", "cpu"]\nformat = 4\n', False),
    (b'controllers = ["cpuset", "cpu", "io", "memory", "hugetlb", "pids", "rdma", "misc", "dmem"]\nformat = 4\n', True),
    (b'controllers = ["cpu", "perf_event"]\nformat = 4\n', False),
    (b'controllers = ["cpu", ""]\nformat = 4\n', False),
    (b'controllers = ["cpu","io"]\nformat = 4\n', False),
    (b'controllers = ["cpu",  "io"]\nformat = 4\n', False),
    (b'controllers = ["cpu" , "io"]\nformat = 4\n', False),
    (b'controllers = ["cpu", "io",]\nformat = 4\n', False),
    (b'controllers = ["cpu", "io", ]\nformat = 4\n', False),
    (b'controllers = [ "cpu" ]\nformat = 4\n', False),
    (b'controllers = ["cpu",\n"io"]\nformat = 4\n', False),
    (b"controllers = ['cpu']\nformat = 4\n", False),
    (b"controllers = [ ]\nformat = 4\n", False),
    (b"controllers=[]\nformat = 4\n", False),
    (b'"controllers" = []\nformat = 4\n', False),
    (b"controllers = [] # none\nformat = 4\n", False),
    (b"controllers = []\r\nformat = 4\n", False),
    (b"controllers = []\nformat = 4\r\n", False),
    (b"controllers = []\n\nformat = 4\n", False),
    (b"controllers = []\n# a host\nformat = 4\n", False),
    (b"controllers = []\nprocess = []\nformat = 4\n", False),
    (b"controllers = []\nformat = 2\n", False),
    (b"\xef\xbb\xbfformat = 4\n", False),
    (b"\nformat = 4\n", False),
    (b" format = 4\n", False),
    (b"# a host\nformat = 4\n", False),
    (b"format=4\n", False),
    (b"format = 0x4\n", False),
    (b"format = +4\n", False),
    (b"format = 4 # large\n", False),
    (b"format = 4 \n", False),
    (b"format = 4\r\n", False),
    (b"format = 44\n", False),
    (b"format = 1\n", False),
    (b"format = 2\n", False),
    (b"process = []\nformat = 4\n", False),
]
# of a tree of a format, which is H or has / and /s alone, lines that are each a bad word
BAD_WORDS = [
    (4, "control /s +perf_event"),
    (4, "control /s +net_cls"),
    (4, "control /s +IO"),
    (4, "control /s +io,cpu"),
    (4, "control /s +io +"),
    (4, "control /s io"),
    (4, "control /s +io "),
    (4, "control /s +cpuset.cpus"),
    *((4, f"set /s {name} max") for name in (
        "cgroup.kill", "cpu.stat", "cpu", "cpu.max.", "CPU.MAX", "io.cost.qos", "hugetlb.4MB.max", "hugetlb.2MB.current",
        "hugetlb.2MB.rsvd", "memory.oom.group", "memory.reclaim", "pids.peak", "cpuset.cpus.effective", "memory.swap.max/", "")),
    *((4, f"chmod /s {name} 644") for name in ("cgroup.kill", "cgroup.type", "cgroup.threads", "io.stat", "hugetlb.max")),
    *((4, f"set /s io.max{value}") for value in (
        "", " ", " 1 ", "  1", " 1  2", " 1\t2", " 1\x1f", " \x7f", " 1\r", " 1\0", " " + 3801 * "x", " 1" + 1900 * " x")),
    (4, "set s io.max 1"),
    (4, "set /s/ io.max 1"),
    (4, "set io.max 1"),
    (4, "chmod /s io.max 0644"),
    (4, "chmod /s io.max"),
    (4, "chmod /s io.max 644 644"),
    (4, "set /s memory.max max max"),
    (4, "set /s memory.max default"),
    (4, "control /s io.max"),
    *((2, f"set /s {name} max") for name in ("cgroup.freeze", "cpu.max", "io.max", "memory.swap.max")),
    *((2, f"chmod /s {name} 644") for name in ("cgroup.freeze", "cpuset.cpus")),
    *((2, f"control /s {sign}{name}") for name in ("cpuset", "io", "hugetlb", "rdma", "misc", "dmem") for sign in "+-"),
    (2, "control /s +cpu -io"),
]
# of a tree of a format lines that are each an operation's, be its controller the root's or not
GOOD_WORDS = [
    *((4, f"control / +{name}") for name in ("cpuset", "cpu", "io", "memory", "hugetlb", "pids", "rdma", "misc", "dmem")),
    *((2, f"control / -{name}") for name in ("cpu", "memory", "pids")),
]
# values that are texts
VALUES = ["0", "-20", "05", "max 100000", "8:0 rbps=1048576 wiops=120", "!", "~ ~", "# \" ' \\", "+io", 3800 * "x", "12" + 1899 * " x"]
# values that are texts as a tree text has them, and as upgrade writes them
VALUES_OF_TEXTS = [
    ("5", "5"), ("+5", "5"), ("-5", "-5"), ("0x10", "16"), ("0", "0"), ("-0", "0"), ("9223372036854775807", "9223372036854775807"),
    ("-9223372036854775808", "-9223372036854775808"), ('"5"', "5"), ('"05"', "05"), ('"a b"', "a b"), ('["a b"]', "a b"), ('["a", "b"]', ["a", "b"]),
    ('["a", "a"]', ["a", "a"]), ("['\"', '\\']", ['"', "\\"]), ('["8:0 rbps=1", "8:16 max", "5"]', ["8:0 rbps=1", "8:16 max", "5"])]
# a text, and what upgrade writes of it
UPGRADED = '''format = 4
controllers = ["dmem", "memory", "cpuset", "io", "io"]

[[cgroup]]
path = "/s"
dir = { gid = 5 }

[[cgroup]]
path = "/"
enabled = ["dmem", "io", "cpuset", "io"]
'''
WRITTEN = '''controllers = ["cpuset", "io", "memory", "dmem"]
format = 4
process = []

[[cgroup]]
enabled = ["cpuset", "io", "dmem"]
path = "/"

[cgroup.dir]
gid = 0
mode = 493
uid = 0

[cgroup.files."cgroup.max.depth"]
gid = 0
mode = 420
uid = 0
value = "max"

[cgroup.files."cgroup.max.descendants"]
gid = 0
mode = 420
uid = 0
value = "max"

[cgroup.files."cgroup.procs"]
gid = 0
mode = 420
uid = 0

[cgroup.files."cgroup.subtree_control"]
gid = 0
mode = 420
uid = 0

[[cgroup]]
enabled = []
path = "/s"

[cgroup.dir]
gid = 5
mode = 493
uid = 0

[cgroup.files."cgroup.max.depth"]
gid = 0
mode = 420
uid = 0
value = "max"

[cgroup.files."cgroup.max.descendants"]
gid = 0
mode = 420
uid = 0
value = "max"

[cgroup.files."cgroup.procs"]
gid = 0
mode = 420
uid = 0

[cgroup.files."cgroup.subtree_control"]
gid = 0
mode = 420
uid = 0
'''
