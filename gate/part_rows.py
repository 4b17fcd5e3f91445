"""The parts of ./verify beside proofs and edits: what each runs, and all that it reads.

A part runs in a folder that has what its row names and nothing else of the repository, so it can't read what the row doesn't name.
A row names Debian's packages of the tools that it calls, also by a pattern; BASE is there for all.
"""
import dataclasses
import glob
import os
import re
from dataclasses import dataclass

# PROGRAM stands for the program's path, in words and among what is read
PROGRAM = "PROGRAM"
# OBJECT and OTHER_OBJECT for the paths of its objects, for x86-64 and arm64, and OTHER_PROGRAM for the program for arm64
OBJECT, OTHER_OBJECT, OTHER_PROGRAM = "OBJECT", "OTHER_OBJECT", "OTHER_PROGRAM"
# for the folder of the library for C, for x86-64
LIBRARY = "LIBRARY"
# SOURCES stands for src/ of the crates below the program
SOURCES = "SOURCES"
# what ./zirofen needs to see that a program is of these sources, and what tools/released and tools/package take beside it
WRAPPER = ("zirofen", "tools/program.py", "tools/linked.py", "runtime", "gate/kit.py", "gate/crates.py", "crates.txt", SOURCES, PROGRAM,
           OTHER_PROGRAM)
# CRATE NAME stands for all of a crate and of those below it, but for their mutants, and for the lines of these in crates.txt
CRATE = "CRATE "
BASE = ("bash", "coreutils", "findutils", "grep", "sed", "gawk", "mawk", "tar", "gzip", "libc6", "procps", "util-linux", "dash")


@dataclass(frozen=True)
class Part:
    group: str
    words: str
    reads: tuple
    packages: tuple = ()
    # drawn at random, and so made in each run: nothing is kept of it
    is_fresh: bool = False
    needs_toolchain: bool = False

    @property
    def name(self):
        return f"{self.group}: {self.words}"


def of_toolchain(words, *reads):
    """A part of a group of its own, which runs the toolchain."""
    group = words.removeprefix("gate/").replace(" --", "_")
    return Part(group, words, (words.split()[0], "gate/kit.py", "gate/crates.py", *reads), needs_toolchain=True)


def of_program(words, *reads, packages=(), is_fresh=False):
    """A test of the program, from end to end."""
    return Part("end_to_end", words, (words.split()[0], *reads), packages, is_fresh)


def program_tests(name, *reads):
    return of_program(f"tests/program/{name}.py", *WRAPPER, "tests/program/case.py", "tests/program/of_one.py", "examples", *reads)


def of_object(words, *reads, packages=()):
    """A test of the program's object, once that is built and linked with more."""
    linked = ("tools/linked.py", "runtime", "gate/kit.py", "gate/crates.py")
    return Part("objects", words, (words.split()[0], *linked, *reads), packages, needs_toolchain=True)


def of_library(words, *reads, packages=(), is_fresh=False):
    """A test of the library for C, beside the program."""
    beside = ("examples", "include", "runtime", "tools/linked_library.py", "crates/library/src/version.rt")
    return Part("library", f"tests/library/calls.py PROGRAM LIBRARY --part {words}", ("tests/library", LIBRARY, *beside, *WRAPPER, *reads),
                (*COMPILER, *packages), is_fresh)


def of_model(words, *reads, **more):
    return of_program(f"tests/model/{words}", PROGRAM, "gate/kept.py", "tests/model/second", "tests/model/trials", *reads, **more)


def of_folder(folder, *reads, packages=(), words=""):
    """Tests that need no proof."""
    return Part("unit_tests", f"tests/unit_tests {folder}{words}", ("tests/unit_tests", "tests/checkout.py", *reads), packages)


def modules_of(folder, file):
    """Returns a file of tests, and the files of its folder that it imports, and those that these do."""
    found = [file]
    for it in found:
        with open(f"{folder}/{it}", encoding="utf-8") as text:
            names = re.findall(r"^\s*(?:from|import) (\w+)", text.read(), re.M)
        found += [name for name in (f"{it}.py" for it in names) if os.path.exists(f"{folder}/{name}") and name not in found]
    return sorted(f"{folder}/{it}" for it in found)


def host_tests():
    """The tests of the helpers, file by file."""
    helpers = sorted({*glob.glob("tests/host/*")} - {*glob.glob("tests/host/*_test.py"), "tests/host/__pycache__"})
    reads = ("host", "examples", "docs", "README.md", "CHANGELOG.md", "tools", "crates/cg_cgroup/specs", "tests/program/of_one.py", *helpers, *WRAPPER,
             *USERS)
    for file in sorted(map(os.path.basename, glob.glob("tests/host/*_test.py"))):
        modules = modules_of("tests/host", file)
        packages = tuple(it for name, of_module in READERS.items() if f"tests/host/{name}" in modules for it in of_module)
        asked = ("tests/kernel/refusals.c", "tests/tap.py") if file == "refusals_test.py" else ()
        part = of_folder("tests/host", *modules, *asked, *reads, packages=packages, words=f" {file}")
        yield dataclasses.replace(part, is_fresh=file in OF_THE_MACHINE)


# with what Debian's package of no version stands for
COMPILER = ("gcc", "gcc-[0-9]*", "cpp-[0-9]*", "binutils*", "libc6-dev")
# what sees a byte beside a block, and a block that isn't freed
MEMORY_TOOLS = ("libgcc-[0-9]*-dev", "libasan*", "libubsan*", "valgrind", "pkgconf", "pkgconf-bin")
# what looks at the machine itself, which no row can name
OF_THE_MACHINE = ("real_mount_test.py", "refusals_test.py")
# of the machine: a file that is named whole is read where it is
USERS = ("/etc/passwd", "/etc/group", "/etc/subuid", "/etc/subgid", "/etc/localtime")
# what reads what the helpers write, by the module that calls it
READERS = {"debian_readers.py": ("prometheus", "prometheus-node-exporter", "python3-jsonschema", "python3-junitparser"), "browser.py": ("chromium", "chromium-common")}
PACKAGING = ("tests/packaging/*.py", "tools", "host", "python", "include", "crates/library/src/version.rt", "release/library", "examples", "docs", "*.md",
             *WRAPPER)
MODEL = ("tests/model/[!d]*",)
EMULATOR = ("qemu-user-static",)
DEVICES = ("tests/program/case.py", "tests/program/device_rows.py", "tests/program/of_one.py", "tests/program/failing.c", "examples")
MAKERS = ("lintian", "groff", "mandoc", "man-db", "fish", "zsh", "ansible-core", "python3-pip", "python3-setuptools", "python3-wheel", "pkgconf", "pkgconf-bin")
PARTS = [
    Part("released", "tools/released", ("tools/released", *WRAPPER)),
    Part("released", "tools/released --library", ("tools/released", "tools/library_folder.py", "tools/linked_library.py", "tools/program.py", "tools/linked.py",
                                                  "gate/kit.py", "gate/crates.py", "crates.txt", "crates/*/src", "include", "runtime", "release/library")),
    Part("promises", "tools/promises", ("tools", "gate", "crates.txt", "crates", "docs/*.md", "host/zirofen_host")),
    of_toolchain("gate/laid_out", "crates", "crates.txt"),
    Part("plant", "gate/plant --compare", ("gate", "tools/believed.py", "crates", "crates.txt", "HANDLES")),
    of_toolchain("gate/tests", "HANDLES", *(f"{CRATE}{it}" for it in ("test_calls", "test_layers", "test_plans"))),
    of_toolchain("gate/tests --unproved", "HANDLES", *(f"{CRATE}{it}" for it in ("test_calls", "test_layers"))),
    of_toolchain("gate/trials", "HANDLES", f"{CRATE}trials", "tests/program/trial_rows.py", "tests/program/of_one.py", "examples"),
    of_toolchain("gate/test_edits", "gate/edits", "gate/proofs", "gate/*.py"),
    of_toolchain("gate/test_kept", "gate/edits", "gate/proofs", "gate/*.py"),
    program_tests("answers", "tests/program/format_4_rows.py", "tests/program/json_rows.py"),
    program_tests("examples", "README.md", "docs/FORMATS.md", "docs/PROGRAMS.md", "docs/QUESTIONS.md"),
    of_program("tests/program/upgrades.py PROGRAM", PROGRAM, "tests/program/*.py", "examples", "host/zirofen_host"),
    program_tests("migrations"),
    program_tests("words", "tests/program/json_rows.py"),
    program_tests("help", "tests/program/json_rows.py"),
    of_program("tests/program/surroundings.py PROGRAM", PROGRAM, "tests/program/case.py", "examples"),
    of_program("tests/program/emulated.py OTHER_PROGRAM", OTHER_PROGRAM, "tests/program", "tests/model/run", "gate/kept.py", "tests/model/second",
               "tests/model/trials", "examples", "host/zirofen_host", SOURCES, "crates.txt", "gate/crates.py", packages=EMULATOR),
    of_object("tests/program/devices.py PROGRAM OBJECT", PROGRAM, OBJECT, *DEVICES),
    of_object("tests/program/devices.py PROGRAM OTHER_OBJECT --emulated", PROGRAM, OTHER_OBJECT, *DEVICES, packages=EMULATOR),
    of_library("made wrong", "tests/unit_tests", "tests/python", "python", "docs/PROGRAMS.md", "host", *USERS, packages=MEMORY_TOOLS),
    of_library("answers words help migrations", "tests/program/*.py"),
    of_library("random --cases 300", *MODEL, "gate/kept.py", is_fresh=True),
    of_model("run PROGRAM --seed 51 --cases 7500 --blind --table --kept"),
    of_model("run PROGRAM --cases 1000", is_fresh=True),
    of_model("rows PROGRAM"),
    of_model("fuzz PROGRAM"),
    of_model("search PROGRAM --blind", is_fresh=True),
    of_model("search PROGRAM --large --trees 40", is_fresh=True),
    of_program("tests/model/walks --trees 500", "tests/model/second", "tests/model/trials", is_fresh=True),
    of_folder("tests/gate", "tests/gate", "gate", "verify", "tools", "runtime", "zirofen", "crates.txt", "crates/machine",
              "tests/program/trial_rows.py", "tests/program/of_one.py"),
    of_folder("tests/tools", "tests/tools", "tests/model/trials", "tests/model/second", "tests/program/*.py", "tools", "gate", "crates.txt", "crates", "docs", "*.md",
              "tests/kernel/RESULTS.md", "host/zirofen_host",
              "examples", "runtime", "include", "python", "zirofen", PROGRAM),
    of_folder("tests/runtime", "tests/runtime", "runtime", packages=COMPILER),
    *host_tests(),
    of_folder("tests/python", "tests/python", "python", "examples", "include", "docs/PROGRAMS.md", "crates/library/src/version.rt", "host", *WRAPPER, *USERS),
    Part("unit_tests", "host/lint", ("host", "tests/host", "python", "tests/python"), ("mypy", "flake8")),
    of_folder("tests/model/tests", *MODEL, "tests/program/*.py", "tests/host/debian_readers.py", "docs/answers.schema.json", "gate/kept.py", "examples",
              "tools/bench", "tools/limit_table.py", "docs/MODEL.md", PROGRAM, packages=("python3-jsonschema",)),
    of_folder("tests/kernel/tests", "tests/tap.py", "tests/kernel/[!fd]*", *MODEL, "tools/program.py", "tools/linked.py", "gate/crates.py", "gate/kit.py",
              "docs/MODEL.md", "examples", PROGRAM, packages=COMPILER),
    of_folder("tests/packaging", *PACKAGING, packages=MAKERS, words=" package_test.py"),
    of_folder("tests/packaging", *PACKAGING, packages=("systemd", "python3-pip", "python3-setuptools", "python3-wheel"), words=" parts_test.py"),
]
# those that gate/traced looks at in each ./verify; by hand it looks at any
TRACED = ("promises: tools/promises", "plant: gate/plant --compare", "end_to_end: tests/program/examples.py", "unit_tests: tests/unit_tests tests/host lists_test.py")
PARTS.append(Part("traced", "gate/traced", ("gate/traced", "gate/parts", "gate/*.py", *(read for it in PARTS if it.name in TRACED for read in it.reads)), ("strace",)))
