#!/usr/bin/env python3
"""Asks the library for C what tables ask the program, and compares the answers byte for byte.

Usage: tests/library/calls.py PROGRAM FOLDER [--part NAME ..] [--cases N]

FOLDER has the library for x86-64, libzirofen.so.0 and libzirofen.a, as tools/library writes it. These are its parts, of which all are made
where none is named:

  made    Some calls are made with each room from 0 on, with ASan and under valgrind, from eight threads at once with a small stack each,
          and with each call of malloc refused. The example for C and the tests of the module for Python are run over the library.
  wrong   The same calls tell wrong libraries from it (wrong.py).
  answers, words, help, migrations, upgrades    What that table of tests/program asks of the program is asked of both (beside says how).
  random  The same of N cases (2000) of tests/model/run.

The last line is 'N passed, M failed'.
"""
import argparse
import collections
import os
import re
import shutil
import subprocess
import sys
import tempfile

sys.dont_write_bytecode = True
HERE = os.path.dirname(os.path.abspath(__file__))
TOP = os.path.dirname(os.path.dirname(HERE))
sys.path[:0] = [f"{TOP}/tools"]
import linked_library
import wrong

TABLES = ("answers", "words", "help", "migrations", "upgrades")
PARTS = ("made", "wrong", *TABLES, "random")
VALGRIND = ("valgrind", "--quiet", "--error-exitcode=99", "--leak-check=full")
# valgrind looks for blocks that aren't freed: ASan's own search fails where a process may not be traced
LEAKS_ELSEWHERE = {**os.environ, "ASAN_OPTIONS": "detect_leaks=0"}
# by its name a way of calling: how the caller is linked with the archive, its option, and what it runs under
WAYS = {"ASan": (["-fsanitize=address,undefined"], ["--all"], ()),
        "refused": (["-DREFUSING", "-Wl,--wrap=malloc,--wrap=realloc"], ["--refused"], ()),
        "valgrind": ([], [], VALGRIND)}
EXAMPLES = f"{TOP}/examples"
ONE = ["--uid", "1000", "--subtree", "/c0"]
# the tree, the other text and the words of calls that are made in many ways
MADE = [("delegation", "", ["check", *ONE]), ("delegation-limit-writable", "", ["check", *ONE]), ("delegation-ancestor-group", "", ["check", *ONE]),
        ("delegation-parent-directory", "", ["settle", *ONE]), ("delegation-second-user", "", ["audit", *ONE, "--uid", "1001:1001"]),
        ("delegation-ancestor-group", "", ["advise", "--uid", "1000:50", "--subtree", "/c0"]), ("delegation", "", ["explain", *ONE]),
        ("delegation", "", ["may", "--uid", "1000", "--pid", "11", "--to", "/c0/c01"]), ("delegation", "", ["upgrade"]),
        ("delegation", "exit 11\nmkdir /c0/a\n", ["replay", "--uid", "1000", "--ops", "OPS"]), ("fault-no-parent", "", ["upgrade"]),
        ("delegation", "exit 11\nmkdri /c0/a\n", ["replay", "--uid", "1000", "--ops", "OPS"]), ("delegation", "", ["chek"]),
        ("delegation", "", ["check", "--uid", "0", "--subtree", "/c0"]), ("delegation", "", ["check", "--help"]),
        ("delegation", "pair 1000 /c0\n", ["audit", "--pairs", "PAIRS"]),
        ("delegation", "/c0\n/c1\n", ["audit", "--everybody", "--subtrees", "SUBTREES"]),
        ("delegation-ancestor-owned", "/c0\n/c1\n", ["advise", "--everybody", "--subtrees", "SUBTREES"]),
        ("delegation", "", ["explain", "--everybody", "--subtree", "/c0"]),
        ("delegation-ancestor-owned", "", ["check", "--format", "json", *ONE]),
        ("delegation", "exit 11\nmkdri /c0/a\n", ["replay", "--format", "json", "--uid", "1000", "--ops", "OPS"])]


def tree_of(name):
    with open(f"{EXAMPLES}/{name}.toml", "rb") as file:
        return file.read()


def compile_caller(room, name, *more):
    """Compiles by_library.c with what it is linked with, and returns the program."""
    words = ["gcc", "-std=c11", "-O1", "-g", "-Wall", "-Wextra", "-Werror", f"-I{room}/include", f"{HERE}/by_library.c", "-o", f"{room}/{name}"]
    subprocess.run([*words, *more, "-lpthread"], check=True)
    return f"{room}/{name}"


class Tests:
    def __init__(self, program, room):
        self.program, self.room, self.archive = os.path.abspath(program), room, f"{room}/{linked_library.ARCHIVE}"
        self.counts, self.passed, self.failed = collections.Counter(), 0, 0

    def count(self, name, is_right, why=""):
        self.passed, self.failed = self.passed + bool(is_right), self.failed + (not is_right)
        if not is_right:
            print(f"library: FAILED: {name}: {why}"[:2000], flush=True)

    def ask_table(self, caller, *words):
        """Runs a table of calls of the program, and compares the library's answer to each."""
        name, said = os.path.basename(words[0]), f"{self.room}/said"
        ended = subprocess.run([words[0], f"{HERE}/beside", *words[1:]], env={**os.environ, "BESIDE": f"{self.program}:{caller}:{said}"},
                               capture_output=True, text=True)
        lines = open(said, encoding="utf-8").read().splitlines() if os.path.exists(said) else []
        for line in lines:
            kind, _, why = line.partition(": ")
            if kind == "left out":
                self.counts[why] += 1
            else:
                self.count(f"a call of {name}", kind == "same", why)
        self.count(name, ended.returncode == 0 and "same" in lines, f"{ended.stdout[-1500:]}{ended.stderr[-500:]}")
        print(f"library: {name}: {sum(it == 'same' for it in lines)} of {len(lines)} calls are answered the same", flush=True)
        if lines:
            os.remove(said)

    def asked(self, how, caller, before=()):
        """Makes each of some calls in a way, and yields what it is and why its answer isn't the program's, or nothing."""
        for name, other, words in MADE:
            tree = tree_of(name)
            with tempfile.NamedTemporaryFile(dir=self.room) as file:
                file.write(other.encode())
                file.flush()
                named = [file.name if it in ("OPS", "PAIRS", "SUBTREES") else it for it in words]
                by_program = subprocess.run([self.program, *named], input=tree, capture_output=True)
                ended = subprocess.run([*before, caller, *how, file.name, *named], input=tree, capture_output=True, env=LEAKS_ELSEWHERE)
            expected = by_program.stderr if by_program.returncode == 3 else by_program.stdout
            report = ended.stderr if by_program.returncode == 3 else ended.stdout
            report = re.sub(rb"^  \d+ calls refused\n", b"", report, flags=re.M) if "--refused" in how else report
            is_same = (ended.returncode, report) == (by_program.returncode, expected)
            why = "" if is_same else f"{ended.returncode} {ended.stderr.decode(errors='replace')[-1000:]}"
            yield f"{' '.join([*before, *how])} {' '.join(words)} of {name}", why

    def ask(self, how, caller, before=()):
        for name, why in self.asked(how, caller, before):
            self.count(name, not why, why)

    def ask_wrong(self):
        """Of each wrong library a call fails, in the way that is to see it, and of the right one none."""
        for way, (flags, how, before) in WAYS.items():
            for name, text in wrong.libraries(way):
                wrong.compile_c(text, f"{self.room}/wrong.o")
                caller = compile_caller(self.room, "caller_of_wrong", f"{self.room}/wrong.o", self.archive, *flags)
                whys = [why for _, why in self.asked(how, caller, before) if why]
                self.count(f"{way}: {name}", bool(whys) != (name == wrong.RIGHT), whys)

    def run_module(self):
        """The tests of the module for Python, which asks the library."""
        environment = {**os.environ, "ZIROFEN_LIBRARY": f"{self.room}/{linked_library.SHARED}"}
        words = [f"{TOP}/tests/unit_tests", f"{TOP}/tests/python", "module_test.py", "AnswersTest"]
        ended = subprocess.run(words, env=environment, capture_output=True, text=True)
        self.count("tests/python", ended.returncode == 0, ended.stdout[-1500:] + ended.stderr[-500:])

    def run_examples(self):
        """The programs of docs/PROGRAMS.md, as pkg-config has them compiled; that in Go where Debian's Go is there."""
        environment = {**os.environ, "PKG_CONFIG_PATH": self.room, "LD_LIBRARY_PATH": self.room, "GOCACHE": f"{self.room}/go", "GOPROXY": "off"}
        found = subprocess.run(["pkg-config", "--cflags", "--libs", "zirofen"], env=environment, capture_output=True, text=True, check=True).stdout
        compilers = {"c": ["gcc", "-std=c11", "-Wall", "-Wextra", "-Werror", f"{EXAMPLES}/before.c", *found.split()]}
        if os.path.exists("/usr/bin/go"):
            compilers["go"] = ["/usr/bin/go", "build", f"{EXAMPLES}/before.go"]
        for kind, words in compilers.items():
            at = words.index(f"{EXAMPLES}/before.{kind}")
            subprocess.run([*words[:at], "-o", f"{self.room}/before_{kind}", *words[at:]], env=environment, check=True)
            for name, status, said in (("delegation", 0, "hand it out\n"), ("fault-no-parent", 2, ""),
                                       ("delegation-limit-writable", 1, "keep it:\nescapes\nset /c0 memory.max max\n")):
                ended = subprocess.run([f"{self.room}/before_{kind}", "1000", "/c0"], input=tree_of(name), env=environment, capture_output=True)
                self.count(f"before.{kind} of {name}", (ended.returncode, ended.stdout.decode()) == (status, said), f"{ended}")


def make(tests, part, shared, cases):
    if part == "made":
        tests.run_examples()
        tests.run_module()
        tests.ask(["--threads", "8"], shared)
        for flags, how, before in WAYS.values():
            tests.ask(how, compile_caller(tests.room, "static", tests.archive, *flags), before)
    elif part == "wrong":
        tests.ask_wrong()
    elif part == "random":
        tests.ask_table(shared, f"{TOP}/tests/model/run", "--cases", str(cases))
    else:
        tests.ask_table(shared, f"{TOP}/tests/program/{part}.py")


def main():
    parser = argparse.ArgumentParser()
    parser.add_argument("program")
    parser.add_argument("folder")
    parser.add_argument("--part", nargs="+", choices=PARTS, default=PARTS)
    parser.add_argument("--cases", type=int, default=2000)
    given = parser.parse_args()
    with tempfile.TemporaryDirectory() as room:
        for it in (linked_library.SHARED, linked_library.ARCHIVE):
            shutil.copy(f"{given.folder}/{it}", room)
        linked_library.put_beside(room)
        tests = Tests(given.program, room)
        shared = compile_caller(room, "shared", f"-L{room}", "-lzirofen", f"-Wl,-rpath,{room}")
        for part in given.part:
            make(tests, part, shared, given.cases)
        for why, count in sorted(tests.counts.items()):
            print(f"library: {count} calls are left out: {why}")
        print(f"{tests.passed} passed, {tests.failed} failed")
        return 1 if tests.failed or not tests.passed else 0


if __name__ == "__main__":
    sys.exit(main())
