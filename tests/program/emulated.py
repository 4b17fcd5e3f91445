#!/usr/bin/env python3
"""Runs the program for arm64, on another kind of processor under qemu's user emulation: all tables of calls of this folder, and cases of
the second model.

Usage: tests/program/emulated.py PROGRAM [--cases N]. PROGRAM is the one for arm64, and N (2000) the cases. What it is linked for is
looked at without emulation; where qemu-user-static isn't installed a line says that no call was tried. The last line is 'N passed, M
failed', a count of what each table counts.
"""
import argparse
import concurrent.futures
import os
import re
import shutil
import struct
import subprocess
import sys
import tempfile

sys.dont_write_bytecode = True
HERE = os.path.dirname(os.path.abspath(__file__))
TOP = os.path.dirname(os.path.dirname(HERE))
QEMU = "qemu-aarch64-static"
SEED = 51
TABLES = ("answers", "words", "help", "migrations", "upgrades")
COUNT = re.compile(r"^(\d+) passed, (\d+) failed\n\Z", re.M)
# elf(5): for AArch64, executable or shared, and of the parts an interpreter, and the stack's flag of execution
MACHINE, SHARED, INTERPRETER, STACK, EXECUTED = 183, 3, 3, 0x6474e551, 1


def looked_at(program):
    """What is wrong about how a program is linked, each with whether it is."""
    with open(program, "rb") as it:
        data = it.read()
    kind, machine = struct.unpack_from("<HH", data, 16)
    at, size, count = struct.unpack_from("<Q", data, 32)[0], *struct.unpack_from("<HH", data, 54)
    parts = [struct.unpack_from("<II", data, at + size * i) for i in range(count)]
    return {"it isn't for arm64": machine != MACHINE, "it isn't to be placed anywhere": kind != SHARED,
            "it needs a loader": any(kind == INTERPRETER for kind, _ in parts),
            "its stack may be executed": (STACK, EXECUTED) in [(kind, flags & EXECUTED) for kind, flags in parts]}


def ended(words):
    return subprocess.run(words, stdin=subprocess.DEVNULL, stdout=subprocess.PIPE, stderr=subprocess.STDOUT, text=True, errors="replace")


def counted(words, ran):
    """Shows what a table said, and returns its count."""
    print(f"== {' '.join(map(os.path.basename, words))}", ran.stdout, sep="\n", end="", flush=True)
    count = COUNT.search(ran.stdout)
    passed, failed = map(int, count.groups()) if count else (0, 1)
    return passed, failed or int(ran.returncode != 0)


def main():
    parser = argparse.ArgumentParser(description=__doc__, formatter_class=argparse.RawDescriptionHelpFormatter)
    parser.add_argument("program", metavar="PROGRAM", type=os.path.abspath)
    parser.add_argument("--cases", type=int, default=2000)
    given = parser.parse_args()
    wrong = looked_at(given.program)
    for it in (it for it, holds in wrong.items() if holds):
        print(f"emulated: FAILED: {given.program}: {it}")
    counts = [(len(wrong) - sum(wrong.values()), sum(wrong.values()))]
    if not shutil.which(QEMU):
        print("emulated: no call was tried, for lack of Debian's package qemu-user-static")
    else:
        with tempfile.TemporaryDirectory() as room:
            launcher = f"{room}/zirofen"
            with open(launcher, "w", encoding="utf-8") as out:
                out.write(f'#!/bin/sh\nexec {QEMU} -0 zirofen "{given.program}" "$@"\n')
            os.chmod(launcher, 0o755)
            calls = [[f"{TOP}/tests/model/run", launcher, "--cases", str(given.cases), "--seed", str(SEED)]]
            calls += [[f"{HERE}/{it}.py", launcher] for it in TABLES]
            # side by side: each call takes a hundred times as long as without emulation
            with concurrent.futures.ThreadPoolExecutor(os.cpu_count()) as pool:
                counts += [counted(*it) for it in zip(calls, pool.map(ended, calls))]
    passed, failed = (sum(it) for it in zip(*counts))
    print(f"{passed} passed, {failed} failed")
    return 1 if failed else 0


if __name__ == "__main__":
    sys.exit(main())
