"""How the library for C is linked: the archive that the toolchain builds of its proved crates, and runtime/library.c, which has its
memory by the C library of whoever calls it. The toolchain's own compiler of C and its linker do that, so the bytes are the same on every
machine. No C library is linked: its names are found when the library is loaded."""
import os, re, shutil, subprocess, sys, tempfile

sys.dont_write_bytecode = True
TOP = os.path.dirname(os.path.dirname(os.path.realpath(__file__)))
sys.path[:0] = [f"{TOP}/gate", f"{TOP}/tools"]
import kit
from linked import MACHINES

# ABI: the number of the file's name
SHARED, ARCHIVE, PKG_CONFIG = "libzirofen.so.0", "libzirofen.a", "zirofen.pc"
COMPILED = ("-std=c11", "-O2", "-ffreestanding", "-fno-builtin", "-nostdinc", "-fPIC", "-fno-stack-protector",
            "-fno-asynchronous-unwind-tables", "-Wall", "-Wextra", "-Werror")
LINKED = ("-shared", "--strip-all", "--build-id=none", "-z", "text", "-z", "now", "-z", "relro", "-z", "noexecstack", "-soname", SHARED,
          "--version-script", f"{TOP}/runtime/library.map")
# what a program that calls it has of its C library
OF_C = ("malloc", "realloc", "free", "memcpy", "memmove", "memset", "memcmp", "bcmp")
ABOUT = """libdir={libraries}
includedir={headers}

Name: zirofen
Description: Checks cgroup v2 delegation on Linux
Version: {version}
Libs: -L${{libdir}} -lzirofen
Cflags: -I${{includedir}}
"""


def run(tool, *words, cwd=None):
    subprocess.run([f"{kit.folder()}/toolchain/bin/{tool}", *words], cwd=cwd, check=True, stdin=subprocess.DEVNULL)


def compile_c(machine, file, to):
    """Compiles a file of C for a processor, with the header of the library and the toolchain's own types."""
    headers = ["-isystem", f"{TOP}/runtime/include", "-I", f"{TOP}/include"]
    at, name = os.path.split(os.path.abspath(file))
    run("clang", f"--target={MACHINES[machine].target}", *COMPILED, *headers, "-c", name, "-o", os.path.abspath(to), cwd=at)


def shared_words(machine, whole):
    page = MACHINES[machine].page
    return [*LINKED, "-z", f"max-page-size={page}", "-z", f"common-page-size={page}", "--whole-archive", *whole, "--no-whole-archive"]


def test_names(machine, whole, room):
    """Fails where the library wants a name of a C library that isn't among those that it may."""
    with open(f"{room}/of_c.c", "w", encoding="utf-8") as out:
        out.writelines(f"void {it}(void) {{}}\n" for it in OF_C)
    compile_c(machine, f"{room}/of_c.c", f"{room}/of_c.o")
    run("ld.lld", "-shared", "-o", f"{room}/of_c.so", f"{room}/of_c.o")
    run("ld.lld", *shared_words(machine, whole), f"{room}/of_c.so", "-z", "defs", "-o", f"{room}/tested.so")


def link(machine, archive, to):
    """Links the archive of the proved crates into the shared and the static library of a folder."""
    with tempfile.TemporaryDirectory() as room:
        compile_c(machine, f"{TOP}/runtime/library.c", f"{room}/library.o")
        test_names(machine, [archive, f"{room}/library.o"], room)
        run("ld.lld", *shared_words(machine, [archive, f"{room}/library.o"]), "-o", f"{room}/{SHARED}")
        shutil.copyfile(archive, f"{room}/{ARCHIVE}")
        run("llvm-ar", "rD", f"{room}/{ARCHIVE}", f"{room}/library.o")
        for name in (SHARED, ARCHIVE):
            os.replace(shutil.copyfile(f"{room}/{name}", f"{to}/.{name}"), f"{to}/{name}")


def version():
    """Returns the version that the library's sources name."""
    with open(f"{TOP}/crates/library/src/version.rt", encoding="utf-8") as it:
        return re.search(r'"(\d+\.\d+\.\d+) \(library\)"', it.read())[1]


def pkg_config(libraries, headers):
    """Returns the text of the file by which pkg-config has the library found in a folder."""
    return ABOUT.format(version=version(), libraries=libraries, headers=headers)


def put_beside(to):
    """Puts the header and the file of pkg-config beside the libraries of a folder, and the name by which a linker finds the shared one."""
    os.makedirs(f"{to}/include", exist_ok=True)
    shutil.copyfile(f"{TOP}/include/zirofen.h", f"{to}/include/zirofen.h")
    with open(f"{to}/{PKG_CONFIG}", "w", encoding="utf-8") as out:
        out.write(pkg_config("${pcfiledir}", "${pcfiledir}/include"))
    if not os.path.lexists(f"{to}/libzirofen.so"):
        os.symlink(SHARED, f"{to}/libzirofen.so")
