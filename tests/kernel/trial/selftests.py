"""The kernel's own test of cgroups, test_core.c of its selftests: compiled, run in the machine, and read."""
import glob
import os
import re

from trial import core_cases, packages

FOLDER = "tools/testing/selftests"
TEST = "test_core"
# what the test stands on; newer sources have it in a folder of its own
HELPERS = ("cgroup_util.c", "lib/cgroup_util.c")
SCRIPT = "selftests\n"
CASE = re.compile(r"s (not )?ok \d+ (# SKIP )?(\w+).*")
PASSED = "passed"


def compiled(sources, to):
    """Compiles the test of a kernel's sources as these do; what the compiler says where it fails."""
    top = os.path.join(sources, FOLDER)
    files = [f"{top}/cgroup/{TEST}.c"] + [found for name in HELPERS for found in glob.glob(f"{top}/cgroup/{name}")]
    found = packages.ran("cc", "-static", "-O1", "-pthread", "-D_GNU_SOURCE=", f"-I{top}", f"-I{top}/cgroup/lib/include", "-o", to, *files)
    return found.stderr if found.returncode else ""


def of_sources(sources, room):
    """The names of the cases of a kernel's sources, and the file for the machine."""
    said = compiled(sources, os.path.join(room, TEST))
    if said:
        raise packages.Missing(f"no {TEST}: {said.strip().splitlines()[0]}")
    with open(f"{sources}/{FOLDER}/cgroup/{TEST}.c", encoding="utf-8") as text:
        names = core_cases.names_in(text.read())
    with open(os.path.join(room, TEST), "rb") as program:
        return names, (TEST, 0o100755, program.read())


def told_in(said, names):
    """What became of each case, of what the machine said."""
    lines = [CASE.fullmatch(line) for line in said.split("\n")]
    found = {line[3]: "failed" if line[1] else "skipped" if line[2] else PASSED for line in lines if line}
    return {name: found.get(name, "not told of") for name in names}


def lines_of(told):
    """What the report says of them, where they were run."""
    if not told:
        return []
    others = "".join(f"; {name} {became}" for name, became in told.items() if became != PASSED)
    return [f"- The kernel's own {TEST}.c: {[*told.values()].count(PASSED)} of {len(told)} cases pass{others}."]
