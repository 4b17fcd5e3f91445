"""Tests of gate/objects over a small checkout, and a prover that only plays its part."""
import os
import shutil
import subprocess
import sys
import unittest

from checkout import TOP, Checkout, read, write
from kit import TRIED

SCRIPTS = ("objects", "kept.py", "proved.py")
PROVER = """#!/bin/sh
echo "$*" >>"$PLAYED/../calls"
if [ -e "$PLAYED/../fails" ]; then echo 'logic=not-proved'; exit 1; fi
while [ "$1" != -o ]; do shift; done
printf made >"$2"
"""


class ObjectsTest(unittest.TestCase):
    def setUp(self):
        self.checkout = Checkout(self, "top")
        self.top, self.played = self.checkout.top, self.checkout.played
        for it in SCRIPTS:
            shutil.copy(f"{TOP}/gate/{it}", f"{self.top}/gate/{it}")
        write(f"{self.played}/kit", f"{TRIED[0]}\n")
        write(f"{self.played}/bin/rattle", PROVER, executable=True)
        self.out = f"{self.top}/crates/zirofen/out"
        environment = {it: value for it, value in self.checkout.environment.items() if it != "GATE_ANEW"}
        self.environment = {**environment, "GATE_KEPT": f"{self.checkout.room}/kept"}

    def proves(self, *names):
        for name in names:
            os.makedirs(f"{self.top}/crates/{name}/out/rlib/{name}.rlib")

    def build(self, *machines, left=()):
        """How it ended, what it said, and how it called the prover since the last time."""
        words = [f"{self.top}/gate/objects", *left, self.top, *machines]
        ended = subprocess.run(words, text=True, capture_output=True, env=self.environment)
        self.assertEqual(ended.stderr, "")
        calls = read(f"{self.checkout.room}/calls").splitlines() if os.path.exists(f"{self.checkout.room}/calls") else []
        write(f"{self.checkout.room}/calls", "")
        return ended.returncode, ended.stdout, calls

    def made(self):
        return sorted(it for it in os.listdir(self.out) if it.endswith("64.o"))

    def test_an_object_for_each_machine_is_built_once(self):
        self.proves("low", "middle")
        status, said, calls = self.build()
        self.assertEqual((status, said, self.made()), (0, "", ["zirofen-aarch64.o", "zirofen-x86_64.o"]))
        self.assertEqual([it.split("--target ")[1].split("-")[0] for it in calls], ["x86_64", "aarch64"])
        for it in calls:
            self.assertRegex(it, r"^build --crate-name zirofen src/main.rt .* --extern middle=\S+/libraries/middle.rlib .* --backend llvm")
        shutil.rmtree(self.out)
        self.assertEqual((*self.build(), self.made()), (0, "", [], ["zirofen-aarch64.o", "zirofen-x86_64.o"]))
        write(f"{self.top}/crates/low/src/lib.rt", "changed")
        self.assertEqual([len(it) for it in self.build("aarch64", left=["--left"])[1:]], [0, 1])

    def test_a_library_that_is_nowhere(self):
        self.proves("middle")
        status, said, calls = self.build("aarch64")
        self.assertEqual((status, calls), (1, []))
        self.assertIn("the library of low is neither kept nor, newer than its sources, in out/ of its crate", said)

    def test_a_library_that_is_older_than_its_sources(self):
        """Unless it is said to be just made. One that is kept is taken first."""
        self.proves("low", "middle")
        made = f"{self.top}/crates/low/out/rlib/low.rlib"
        os.utime(made, (1, 1))
        status, said, calls = self.build("aarch64")
        self.assertEqual((status, calls, "library of low" in said), (1, [], True))
        self.assertEqual([len(it) for it in self.build("aarch64", left=["--left"])[1:]], [0, 1])
        keeping = "import kept, proved; kept.Store().keep(proved.MADE, 'low', proved.Sums('.').of('low'), {}, ('crates/low/out', ['rlib']))"
        write(f"{made}/format", "")
        environment = {**self.environment, "PYTHONPATH": f"{self.top}/gate"}
        subprocess.run([sys.executable, "-c", keeping], cwd=self.top, check=True, env=environment)
        self.assertEqual([len(it) for it in self.build("x86_64")[1:]], [0, 1])

    def test_what_is_not_proved(self):
        self.proves("low", "middle")
        write(f"{self.checkout.room}/fails", "")
        status, said, _ = self.build("x86_64")
        self.assertEqual((status, said.splitlines()[0], self.made()), (1, "logic=not-proved", []))

    def test_what_the_toolchain_left_is_taken_unless_a_source_is_newer(self):
        self.proves("low", "middle")
        write(f"{self.out}/zirofen.o", "left")
        os.utime(f"{self.out}/zirofen.o", (1, 1))
        self.build("x86_64")
        self.assertEqual(read(f"{self.out}/zirofen-x86_64.o"), "made")
        shutil.rmtree(f"{self.checkout.room}/kept")
        os.utime(f"{self.out}/zirofen.o")
        self.assertEqual(self.build("x86_64"), (0, "", []))
        self.assertEqual(read(f"{self.out}/zirofen-x86_64.o"), "left")

    def test_the_archive_of_the_library(self):
        """It is built as a static library, or taken as the toolchain left it."""
        self.proves("low", "middle")
        write(f"{self.top}/crates/c_library/src/lib.rt", "c")
        write(f"{self.top}/crates.txt", read(f"{self.top}/crates.txt") + "c_library staticlib: middle\n")
        out = f"{self.top}/crates/c_library/out"
        status, said, [call] = self.build("aarch64", left=["--library"])
        self.assertEqual((status, said, os.listdir(out)), (0, "", ["c_library-aarch64.a"]))
        self.assertRegex(call, r"^build --crate-name c_library src/lib.rt .* --backend llvm --crate-type staticlib -o \S+/c_library-aarch64.a$")
        write(f"{out}/libc_library.a", "left")
        self.assertEqual(self.build("x86_64", left=["--left", "--library"]), (0, "", []))
        self.assertEqual(read(f"{out}/c_library-x86_64.a"), "left")

    def test_words_that_are_none(self):
        for words in ((self.top, "sparc"), ("/none",)):
            ended = subprocess.run([f"{self.top}/gate/objects", *words], text=True, capture_output=True, env=self.environment)
            self.assertEqual((ended.returncode, ended.stdout), (1, ""))
            self.assertIn("Builds the object of the program for each processor", ended.stderr)
