"""How the program is linked: the object that the toolchain builds of its proved crates, and runtime/, which stands in place of a C
library. The toolchain's own compiler of C and its linker do that, so the bytes are the same on every machine."""
import os, subprocess, sys, tempfile
from dataclasses import dataclass

sys.dont_write_bytecode = True
TOP = os.path.dirname(os.path.dirname(os.path.realpath(__file__)))
sys.path[:0] = [f"{TOP}/gate"]
import kit

RUNTIME = f"{TOP}/runtime/runtime.c"
COMPILED = ("-std=c11", "-O2", "-ffreestanding", "-fno-builtin", "-nostdinc", "-fPIE", "-fvisibility=hidden", "-fno-stack-protector",
            "-fno-asynchronous-unwind-tables", "-Wall", "-Wextra", "-Werror")
# at a place that each run draws; nothing is left to be found at a start but where that is
LINKED = ("-static", "-pie", "--no-dynamic-linker", "--strip-all", "--build-id=none", "-z", "text", "-z", "now", "-z", "relro",
          "-z", "noexecstack")


@dataclass(frozen=True)
class Machine:
    """A kind of processor: the toolchain's name for it, Debian's, and the largest pages of memory that Linux may have there."""
    target: str
    debian: str
    page: int


# by what `uname -m` calls them
MACHINES = {"x86_64": Machine("x86_64-unknown-linux-gnu", "amd64", 4096), "aarch64": Machine("aarch64-unknown-linux-gnu", "arm64", 65536)}


def compile_c(machine: str, file: str, to: str) -> None:
    """Compiles a file of C for a processor, without a C library; paths are no part of what that gives."""
    words = [f"{kit.folder()}/toolchain/bin/clang", f"--target={MACHINES[machine].target}", *COMPILED, "-c", os.path.basename(file)]
    at = os.path.dirname(os.path.abspath(file))
    subprocess.run([*words, "-o", os.path.abspath(to)], cwd=at, check=True, stdin=subprocess.DEVNULL)


def link(machine: str, built: str, program: str, *more: str) -> None:
    """Links the object of a program with the runtime, and with what else is given, into an executable file."""
    page = f"max-page-size={MACHINES[machine].page}", f"common-page-size={MACHINES[machine].page}"
    with tempfile.TemporaryDirectory() as room:
        compile_c(machine, RUNTIME, f"{room}/runtime.o")
        words = [f"{kit.folder()}/toolchain/bin/ld.lld", *LINKED, "-z", page[0], "-z", page[1], "-o", f"{room}/program"]
        subprocess.run([*words, built, f"{room}/runtime.o", *more], check=True, stdin=subprocess.DEVNULL)
        # as a whole: the program that stands there may be running
        os.replace(copied(f"{room}/program", f"{program}.begun"), program)


def copied(file: str, to: str) -> str:
    with open(file, "rb") as it, open(to, "wb") as out:
        out.write(it.read())
    os.chmod(to, 0o755)
    return to
