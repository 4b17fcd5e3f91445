"""A small checkout with a released program, and a toolchain that only plays its part: for tests of ./zirofen and the gate."""
import hashlib
import os
import shutil
import subprocess
import sys
import tempfile

TOP = os.path.dirname(os.path.dirname(os.path.abspath(__file__)))
FILES = ("zirofen", "tools/build", "tools/program.py", "tools/linked.py", "tools/released", "gate/from_nothing", "gate/kit.py",
         "gate/crates.py", "runtime/errors.h", "runtime/runtime.c")
MACHINES = ("", "-aarch64")
KIT = "some-kit logic 1"

CRATES = """# name: the libraries that it uses
low: arrayvec
middle: low toml   # a comment
beside: low
zirofen: middle clap
"""

PROGRAM = """#!/bin/sh
# NAME
case "$1" in
    --version) echo 'zirofen 0.3.1 (DIGITS)'; exit;;
    --help) exit;;
esac
echo "NAME ran $*"
cat
exit 2
"""

TOOLCHAIN = """#!/bin/sh
if [ "$1" = version ]; then cat "$PLAYED/kit"; exit; fi
if [ "$1" = doc ]; then echo "$PLAYED/START-HERE.md"; exit; fi
echo "$*" >>"$PLAYED/starts"
echo 'logic=proved functions=179'
echo 'rt: waiting for another rt to finish in /somewhere' >&2
echo 'so far: 3 of 9 functions checked; the verdict comes last' >&2
mktemp >"$PLAYED/temporary"
mkdir -p out
sed "s/(DIGITS)/($(sed -n 's/.*(\\([0-9a-f]*\\)).*/\\1/p' src/version.rt))/" "$PLAYED/program" >out/zirofen
chmod +x out/zirofen
cp out/zirofen out/zirofen.o
if [ -e "$PLAYED/slow" ]; then sleep 600 & echo $! >"$PLAYED/child"; wait; fi
if [ -e "$PLAYED/fails" ]; then echo 'error: no proof of it' >&2; exit 1; fi
if [ -e "$PLAYED/changes" ]; then echo changed >../low/src/lib.rt; fi
out/zirofen --help
"""

# of a compiler and a linker that only play their part a program is its object
COMPILER = """#!/bin/sh
while [ "$1" != -o ]; do shift; done
: >"$2"
"""
LINKER = """#!/bin/sh
while [ "$1" != -o ]; do shift; done
cp "$3" "$2"
"""
OBJECTS = """#!/bin/sh
[ ! -e "$PLAYED/fails" ] || { echo 'gate: the library of low is neither'; exit 1; }
[ "$1" != --left ] || shift
cd "$1/crates/zirofen" || exit 1
mkdir -p out
for it in "$@"; do
    sed "s/(DIGITS)/($(sed -n 's/.*(\\([0-9a-f]*\\)).*/\\1/p' src/version.rt))/" "$PLAYED/program" >"out/zirofen-${it##*/}.o"
done
rm "out/zirofen-${1##*/}.o"
"""


def write(path, text, executable=False):
    os.makedirs(os.path.dirname(path), exist_ok=True)
    with open(path, "w", encoding="utf-8") as out:
        out.write(text)
    if executable:
        os.chmod(path, 0o755)


def read(path):
    with open(path, encoding="ascii") as text:
        return text.read()


class Checkout:
    """The checkout below `room`, whose name may be any."""

    def __init__(self, test, name="check out"):
        folder = tempfile.TemporaryDirectory()
        test.addCleanup(folder.cleanup)
        self.room = folder.name
        self.top = os.path.join(self.room, name)
        self.played = os.path.join(self.room, "played")
        self.temporary = os.path.join(self.room, "temporary")
        os.makedirs(self.temporary)
        for crate in ("low", "middle", "beside", "zirofen"):
            write(f"{self.top}/crates/{crate}/src/lib.rt", crate)
            write(f"{self.top}/crates/{crate}/specs/Lib.antt", crate)
        write(f"{self.top}/crates.txt", CRATES)
        write(f"{self.top}/crates/zirofen/src/version.rt", f'"0.3.1 ({"0" * 12})"')
        for file in FILES:
            os.makedirs(os.path.dirname(f"{self.top}/{file}"), exist_ok=True)
            shutil.copy(f"{TOP}/{file}", f"{self.top}/{file}")
        write(f"{self.played}/kit", KIT + "\n")
        write(f"{self.played}/program", PROGRAM.replace("NAME", "built"))
        write(f"{self.played}/tools/rt", TOOLCHAIN, executable=True)
        write(f"{self.played}/toolchain/bin/clang", COMPILER, executable=True)
        write(f"{self.played}/toolchain/bin/ld.lld", LINKER, executable=True)
        write(f"{self.top}/gate/objects", OBJECTS, executable=True)
        self.environment = dict(os.environ, PLAYED=self.played, TMPDIR=self.temporary,
                                PATH=f"{self.played}/tools:{os.environ['PATH']}")
        self.release(PROGRAM.replace("NAME", "released"))

    def release(self, program):
        """Writes release/ with the sums of what is there."""
        sources = self.sum_of_sources()
        program = program.replace("DIGITS", sources[:12])
        write(f"{self.top}/crates/zirofen/src/version.rt", f'"0.3.1 ({sources[:12]})"')
        lines = {"version": "0.3.1", "kit": KIT, "sources": sources}
        for machine in MACHINES:
            write(f"{self.top}/release/zirofen{machine}", program, executable=True)
            lines |= {f"{key}{machine}": hashlib.sha256(program.encode()).hexdigest() for key in ("object", "program")}
        write(f"{self.top}/release/MANIFEST", "".join(f"{key} {value}\n" for key, value in lines.items()))

    def sum_of_sources(self):
        words = [sys.executable, "-c", "import program; print(program.sum_of_sources())"]
        how = {"env": {**os.environ, "PYTHONPATH": f"{self.top}/tools"}, "stdout": subprocess.PIPE, "text": True, "check": True}
        return subprocess.run(words, **how).stdout.strip()

    def call(self, *words, program=None, cwd=None, **environment):
        return subprocess.run([program or f"{self.top}/zirofen", *words], input="given\n", text=True,
                              capture_output=True, timeout=7200, cwd=cwd or self.room, env={**self.environment, **environment})
