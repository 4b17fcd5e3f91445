"""The cases of the kernel's own test of cgroups, tools/testing/selftests/cgroup/test_core.c: what each does as operations on a tree text,
what it wants of them, or why it is outside of the model. There root makes the cgroups; here a user who owns the root's entries.
"""
import re
from dataclasses import dataclass

OWNED = '{ uid = 1000, gid = 1000 }'
# the cgroup in which the test is run, and the test's own process
TREE = f"""format = 2
controllers = ["memory"]

[[cgroup]]
path = "/"
enabled = ["memory"]
dir = {OWNED}
files = {{ "cgroup.procs" = {OWNED}, "cgroup.subtree_control" = {OWNED} }}

[[process]]
pid = 10
uid = 1000
at = "/"
"""
# two cgroups of root's, of which somebody else has cgroup.procs alone, and root's process in the first
LESSER = """format = 2
controllers = ["memory"]

[[cgroup]]
path = "/"

[[cgroup]]
path = "/cg_test_a"
files = { "cgroup.procs" = { uid = 65534 } }

[[cgroup]]
path = "/cg_test_b"
files = { "cgroup.procs" = { uid = 65534 } }

[[process]]
pid = 10
uid = 0
at = "/cg_test_a"
"""
FAMILY = ("mkdir /cg_test_parent", "mkdir /cg_test_parent/cg_test_child")
A, B, C, D = "/cg_test_a", "/cg_test_a/cg_test_b", "/cg_test_a/cg_test_b/cg_test_c", "/cg_test_a/cg_test_b/cg_test_d"
THREADS = "threaded cgroups (cgroup.type) are left out"


@dataclass(frozen=True)
class Row:
    """A case: its operations, what the kernel's test wants of each, and what is outside of the model; no operations where all is."""
    name: str
    operations: tuple = ()
    wanted: tuple = ()
    outside: str = ""
    uid: int = 1000
    tree: str = TREE


def of_user(name, *operations, outside=""):
    """A case of operations that are all let through, but for those with the refusal that the test wants."""
    parted = [each.partition(" -> ") for each in operations]
    return Row(name, tuple(each[0] for each in parted), tuple(each[2] or "ok" for each in parted), outside)


ROWS = (
    of_user("test_cgcore_internal_process_constraint", *FAMILY, "control /cg_test_parent +memory",
            "move 10 /cg_test_parent -> refused internal-process /cg_test_parent", outside="a process that is cloned into a cgroup"),
    of_user("test_cgcore_top_down_constraint_enable", *FAMILY,
            "control /cg_test_parent/cg_test_child +memory -> refused not-available memory"),
    of_user("test_cgcore_top_down_constraint_disable", *FAMILY, "control /cg_test_parent +memory",
            "control /cg_test_parent/cg_test_child +memory", "control /cg_test_parent -memory -> refused child-uses memory"),
    Row("test_cgcore_no_internal_process_constraint_on_threads", outside=THREADS),
    Row("test_cgcore_parent_becomes_threaded", outside=THREADS),
    Row("test_cgcore_invalid_domain", outside=THREADS),
    of_user("test_cgcore_populated", *(f"mkdir {path}" for path in (A, B, C, D)), f"move 10 {C}", "move 10 /",
            *(f"rmdir {path}" for path in (D, C, B, A)), outside="cgroup.events, and a process that is cloned into a cgroup"),
    of_user("test_cgcore_proc_migration", "mkdir /cg_src", "mkdir /cg_dst", "move 10 /cg_src", "move 10 /cg_dst", "move 10 /",
            "rmdir /cg_dst", "rmdir /cg_src", outside="threads: all of a process are in one place"),
    Row("test_cgcore_thread_migration", outside=THREADS),
    of_user("test_cgcore_destroy", *("mkdir /cg_test", "fork 10 11", "move 11 /cg_test", "exit 11", "rmdir /cg_test"),
            outside="that a process takes time to end"),
    Row("test_cgcore_lesser_euid_open", ("move 10 /cg_test_b",), ("refused no-access / cgroup.procs",),
        "an entry that one user opens and another writes: asked is who opened it, as of the user here", 65534, LESSER),
    Row("test_cgcore_lesser_ns_open", outside="cgroup namespaces are left out"),
)


def names_in(source):
    """The cases of a kernel's test_core.c."""
    return re.findall(r"^\tT\((\w+)\),?$", source, re.M)


def faults(source):
    """Which cases of a kernel's test have no row, and which rows no case."""
    cases, rows = {*names_in(source)}, {row.name for row in ROWS}
    return [*(f"no row of {name}" for name in sorted(cases - rows)), *(f"no case {name}" for name in sorted(rows - cases))]
