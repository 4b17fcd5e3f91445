"""A kernel of Debian's, and a small machine in which it runs a file of cases under plain emulation."""
import os
import shutil
import subprocess
import tempfile

from trial.packages import Missing, ran

HERE = os.path.dirname(os.path.abspath(__file__))
SOURCES = {"init": ("init.c", "ways.c"), "refusals": ("refusals.c",)}
WAYS = "ways.c"
WARNINGS = ["-Wall", "-Wextra", "-Werror"]
QEMU = "qemu-system-x86_64"
NEEDED = {QEMU: "qemu-system-x86", "apt-cache": "apt", "dpkg-deb": "dpkg", "cc": "gcc"}
# on a busy host the timer of an emulated machine can be too late for the kernel's check of it, which ends the boot
WORDS = "console=ttyS0 quiet loglevel=1 panic=-1 cgroup_no_v1=all mitigations=off no_timer_check"
FOLDERS = ["dev", "proc", "sys"]
# a second CPU and a second node of memory, pages of 1 GB, and two discs of a kind that these kernels have no module for
CPUS = ["-smp", "1"]
WIDE = ["-smp", "2", "-cpu", "qemu64,+pdpe1gb"] + [
    word for at in (0, 1) for word in ("-object", f"memory-backend-ram,id=m{at},size=256M", "-numa", f"node,memdev=m{at},cpus={at}",
                                       "-drive", f"driver=null-co,size=1M,read-zeroes=on,if=none,id=d{at}",
                                       "-device", f"nvme,drive=d{at},serial=d{at}")]


def need_machine():
    if os.geteuid() != 0:
        raise Missing("no root: Debian's packages are fetched and unpacked by root")
    for name, package in NEEDED.items():
        if not shutil.which(name):
            raise Missing(f"no {name}: it is of Debian's package {package}")


def compiled(name, to):
    """Compiles one of the programs; what the compiler says, which is nothing where it is right."""
    return of_sources(to, SOURCES[name])


def compile_ways(to):
    """Compiles what carries the ways out on a mount of this machine; what the compiler says."""
    return of_sources(to, (WAYS,), "-DALONE")


def of_sources(to, names, *words):
    sources = [os.path.join(HERE, "..", name) for name in names]
    return ran("cc", "-static", "-O1", *WARNINGS, *words, "-o", to, *sources).stderr


def programs_in(room):
    """The programs of the machine, compiled, for its archive."""
    files = []
    for name in SOURCES:
        said = compiled(name, os.path.join(room, name))
        if said:
            raise Missing(f"no {name}: {said.splitlines()[0]}")
        with open(os.path.join(room, name), "rb") as text:
            files.append((name, 0o100755, text.read()))
    return files


def archive(files):
    """An archive of the form newc of (name, mode, bytes)."""
    data = bytearray()
    for number, (name, mode, content) in enumerate([*files, ("TRAILER!!!", 0, b"")], 1):
        spelled = name.encode() + b"\0"
        fields = [number, mode, 0, 0, 1, 0, len(content), 0, 0, 0, 0, len(spelled), 0]
        data += b"070701" + b"".join(b"%08x" % field for field in fields) + spelled
        data += b"\0" * (-len(data) % 4) + content
        data += b"\0" * (-len(data) % 4)
    return bytes(data)


def run(kernel, script, seconds, wide=False, *more):
    """What the init writes of a script in one boot, of the wide machine or the other one, beside more files, and the console's text."""
    with tempfile.TemporaryDirectory() as room:
        files = [(name, 0o040755, b"") for name in FOLDERS] + [*programs_in(room), *more, ("cases", 0o100644, script.encode())]
        with open(os.path.join(room, "archive"), "wb") as out:
            out.write(archive(files))
        words = [QEMU, "-accel", "tcg", *(WIDE if wide else CPUS), "-m", "512", "-nodefaults", "-display", "none", "-no-reboot",
                 "-kernel", kernel, "-initrd", os.path.join(room, "archive"), "-append", WORDS,
                 "-serial", f"file:{room}/console", "-serial", f"file:{room}/said"]
        try:
            subprocess.run(words, capture_output=True, timeout=seconds)
        except subprocess.TimeoutExpired:
            pass
        return [read(os.path.join(room, name)) for name in ("said", "console")]


def read(path):
    if not os.path.exists(path):
        return ""
    with open(path, encoding="latin-1", newline="\n") as text:
        return text.read()
