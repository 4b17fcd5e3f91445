"""Tests that a toolchain that the gate wasn't tried with is warned of once, and fails only where something really is otherwise."""
import contextlib
import io
import json
import os
import re
import subprocess
import tempfile
import unittest
from unittest import mock

import kit
from checkout import TOP, read, write

NEW = "rattle-kit-99z logic 0"
# `rt` on the PATH, and in its folder the script that the gate loads as a module
TOOL = """#!/bin/sh
case "$1" in
    version) echo '{version}';;
    doc) echo {folder}/START-HERE.md;;
    *) exec python3 {folder}/bin/rt "$@";;
esac
"""
SCRIPT = '''import os, re, types
LIMIT = 120
rtlib = types.SimpleNamespace(VERDICT=re.compile(r"^logic=proved\\n\\Z", re.M))
STORE = "/none/kept"

class Kept:
    def __init__(self, crates, anew=False):
        self.at = None if STORE == os.devnull + "/none" else STORE

class Crate:
    # those whose first proof is killed
    KILLED = []

    def __init__(self, name):
        self.name, self.is_program, self.folder = name, name == "program", f"crates/{name}"
        self.is_static = name == "for_c"

    def ci(self, flags, tests):
        statements = [] if self.is_program or self.is_static else ["--statements"]
        return self.prove(["build", self.name, *flags, *statements])

    def prove(self, *commands):
        said = "logic=proved\\n"
        for words in commands:
            print("called:", *words, flush=True)
            if "--incremental" in words:
                os.makedirs(words[-1] + "/work", exist_ok=True)
                said = "logic=proved incremental=trusted\\n"
        if self.name in Crate.KILLED:
            Crate.KILLED.remove(self.name)
            return -9
        return 0 if rtlib.VERDICT.search(said) else 1

def proved(crate):
    status = crate.ci(["--jobs", "1"], False)
    return crate.ci(["--jobs", "3"], False) if status == -9 else status

def say(text, out=None):
    print(text, file=out)

def main(words):
    failed = sum(proved(Crate(name)) for name in ("low", "high", "program"))
    print(f"{3 - failed} passed, {failed} failed")
    return 1 if failed else 0
'''


class ToolchainTest(unittest.TestCase):
    def setUp(self):
        room = tempfile.TemporaryDirectory()
        self.addCleanup(room.cleanup)
        self.room = room.name
        write(f"{self.room}/crates.txt", "low:\nhigh: low\nprogram: high\n")
        self.bring(NEW, SCRIPT)

    def bring(self, version, script):
        write(f"{self.room}/tools/rt", TOOL.format(version=version, folder=f"{self.room}/kit"), executable=True)
        write(f"{self.room}/kit/bin/rt", script)
        self.environment = {**os.environ, "PATH": f"{self.room}/tools:{os.environ['PATH']}", "RT_JOBS": "1",
                            "GATE_KEPT": f"{self.room}/kept-results"}
        self.environment.pop(kit.COMPARED, None)

    def call(self, *words, **environment):
        return subprocess.run([f"{TOP}/gate/{words[0]}", *words[1:]], cwd=self.room, text=True, capture_output=True,
                              env={**self.environment, **environment})

    def prove(self):
        return self.call("proofs", f"{self.room}/kept{len(os.listdir(self.room))}")


class VersionTest(ToolchainTest):
    def test_another_toolchain_is_warned_of_and_everything_goes_on(self):
        ended = self.prove()
        self.assertEqual((ended.stdout.splitlines()[-1], ended.returncode), ("3 passed, 0 failed", 0), ended.stderr)
        for told in ("warning", NEW, *kit.TRIED, "gate/test_edits", "./verify --each"):
            self.assertIn(told, ended.stderr)

    def test_it_is_warned_of_once_for_a_run(self):
        first = subprocess.run(["python3", f"{TOP}/gate/kit.py"], text=True, capture_output=True, env=self.environment)
        self.assertEqual((first.stdout, first.stderr.count(NEW), first.returncode), ("", 1, 0))
        self.environment[kit.COMPARED] = NEW
        self.assertEqual(self.prove().stderr, "")
        # gate/from_nothing starts gate/proofs
        self.environment.pop(kit.COMPARED)
        for name in ("low", "high", "program"):
            write(f"{self.room}/crates/{name}/src/lib.rt", name)
        self.assertEqual(self.call("from_nothing", "program").stderr.count(NEW), 1)

    def test_the_gate_says_to_its_parts_that_it_has_warned(self):
        self.assertIn(f"export {kit.COMPARED}=$(rt version)\n", read(f"{TOP}/verify"))

    def test_one_that_was_tried_is_not_named(self):
        self.bring(kit.TRIED[0], SCRIPT)
        self.assertEqual(self.prove().stderr, "")

    def test_no_toolchain(self):
        os.remove(f"{self.room}/tools/rt")
        python = os.path.dirname(subprocess.run(["which", "python3"], text=True, capture_output=True).stdout)
        for words in (["proofs", f"{self.room}/kept"], ["edits"], ["tests"], ["trials"]):
            with self.subTest(words[0]):
                ended = self.call(*words, PATH=f"{self.room}/tools:{python}")
                self.assertEqual((ended.stdout, ended.returncode), ("0 passed, 1 failed\n", 1))
                self.assertRegex(ended.stderr, r"\Agate: .*`rt version` doesn't run: .*\n\Z")


class GateTest(ToolchainTest):
    def test_a_static_library_is_proved_and_leaves_nothing(self):
        self.bring(NEW, SCRIPT.replace('"high"', '"for_c"'))
        write(f"{self.room}/crates.txt", "low:\nfor_c staticlib: low\nprogram: low\n")
        ended = self.prove()
        self.assertEqual(ended.stdout.splitlines()[-1], "3 passed, 0 failed", ended.stderr)
        self.assertEqual([*kit.PROVED.findall(ended.stdout)], ["low", "for_c", "program"])
        self.assertRegex(ended.stdout, r"called: build for_c --jobs [1-4]\n")

    def test_libraries_keep_their_work_and_are_said_to_be_proved(self):
        said = self.prove().stdout
        self.assertEqual([*kit.PROVED.findall(said)], ["low", "high", "program"])
        # where few crates are proved each has the processors that are free
        self.assertRegex(said, r"called: build low --jobs [1-4] --incremental \S+/low\n")
        self.assertRegex(said, r"called: build program --jobs [1-4]\n")

    def test_two_that_are_said_to_be_proved_on_one_line(self):
        said = "gate: low is proved, by what is kept: in 3 s on 2026-12-01gate: high is proved, in 4 s from 2 s on, --jobs 1\nrt: low proved"
        self.assertEqual(kit.PROVED.findall(said), ["low", "high"])

    def test_a_proof_that_was_killed_and_made_again(self):
        self.bring(NEW, SCRIPT.replace("KILLED = []", "KILLED = ['low']"))
        said = self.prove().stdout
        self.assertEqual([*kit.PROVED.findall(said)], ["low", "high", "program"])
        self.assertRegex(" ".join(re.findall(r"called: build low --jobs (\d)", said)), r"\A[1-4] 3\Z")

    def test_a_toolchain_that_keeps_nothing_of_earlier_runs(self):
        store = SCRIPT.index("STORE ="), SCRIPT.index("class Crate")
        self.bring(NEW, SCRIPT[:store[0]] + SCRIPT[store[1]:])
        ended = self.prove()
        self.assertEqual((ended.stdout.splitlines()[-1], ended.returncode), ("3 passed, 0 failed", 0), ended.stderr)

    def test_what_is_otherwise_is_said_and_fails(self):
        for was, now, told in (
                ("class Kept", "class Stored", "its script has no `Kept` that takes 1 arguments"),
                ("if STORE ==", "if '/none/kept' ==", "isn't kept in the folder that its script has as STORE"),
                ("proved\\n\\Z", "proved", "verdicts are held to other words than the pattern VERDICT"),
                ("LIMIT =", "SECONDS =", "its gate doesn't end programs after so many seconds as its script has as LIMIT"),
                ("VERDICT=", "PATTERN=", "verdicts are held to other words than the pattern VERDICT"),
                ("def ci(self, flags, tests)", "def ci(self, flags)", "its script has no `Crate.ci` that takes 3 arguments"),
                ("class Crate", "class Package", "its script has no `Crate.prove`"),
                ("def main(words)", "def main()", "its script has no `main` that takes 1 arguments"),
                ("[\"--statements\"]", "[]", "nothing was kept of the proof of low"),
                ("import os, re", "import os; re = ", "can't be loaded as a module")):
            with self.subTest(was):
                self.assertIn(was, SCRIPT)
                self.bring(NEW, SCRIPT.replace(was, now))
                ended = self.prove()
                self.assertEqual((ended.stdout.splitlines()[-1], ended.returncode), ("0 passed, 1 failed", 1))
                self.assertIn("gate: the toolchain is otherwise than gate/kit.py takes for granted: ", ended.stderr)
                self.assertIn(told, ended.stderr)
                self.assertNotIn("Traceback", ended.stderr)


class PlacesTest(unittest.TestCase):
    def setUp(self):
        room = tempfile.TemporaryDirectory()
        self.addCleanup(room.cleanup)
        self.room = room.name

    def assert_otherwise(self, told, call, *given):
        with self.assertRaisesRegex(kit.Otherwise, re.escape(told)):
            call(*given)

    def test_a_library(self):
        self.assert_otherwise("low is proved, and its library isn't in out/rlib", kit.library, self.room, "low")
        made = f"{self.room}/crates/low/out/rlib/low.rlib"
        os.makedirs(made)
        self.assertEqual(kit.library(self.room, "low"), made)

    def test_the_names_of_functions(self):
        for text in (None, "[", json.dumps({"low::one": {}}), json.dumps([["low::one"]]), "3"):
            if text:
                write(f"{self.room}/toolchain/mir.json", text)
            self.assert_otherwise("a library has no list of its functions", kit.names_of_functions, self.room)
        write(f"{self.room}/toolchain/mir.json", json.dumps([["low::one", {}], ["low::two", {}]]))
        self.assertEqual(kit.names_of_functions(self.room), {"low::one", "low::two"})

    def test_a_call_that_the_prover_does_not_take(self):
        kit.expect_a_check(1, ["logic=not-proved"])
        self.assert_otherwise("unexpected argument '--progress'", kit.expect_a_check, 2, ["error: unexpected argument '--progress'"])

    def test_a_program_that_is_tried_elsewhere(self):
        write(f"{self.room}/tools/rt", "#!/bin/sh\nexit $STATUS\n", executable=True)
        os.makedirs(f"{self.room}/crates/one")
        self.addCleanup(os.chdir, os.getcwd())
        os.chdir(self.room)
        for status in (0, 1):
            os.makedirs(f"{self.room}/at{status}")
            with mock.patch.dict(os.environ, {"PATH": f"{self.room}/tools:{os.environ['PATH']}", "STATUS": str(status)}):
                tried = kit.tried_program, "one", 2000, f"{self.room}/at{status}"
                if status == 0:
                    self.assert_otherwise("ran a program, and it never stood at", *tried)
                else:
                    self.assertEqual(tried[0](*tried[1:]), (None, ""))

    def test_jobs(self):
        known = {"low": [], **{f"c{it}": ["low"] for it in range(kit.MANY)}, "high": ["low", *(f"c{it}" for it in range(kit.MANY))]}
        with mock.patch.dict(os.environ, {"RT_JOBS": "4"}):
            self.assertEqual([kit.jobs_of(known, *it) for it in (("low", 0), ("high", 0), ("high", 1))], [1, 2, 1])
        with mock.patch.dict(os.environ), mock.patch.object(kit, "processors", lambda: 4):
            os.environ.pop("RT_JOBS", None)
            for free, others, jobs in ((64e9, 0, 4), (64e9, 2, 2), (64e9, 3, 1), (8e9, 0, 2), (1e9, 0, 1)):
                with mock.patch.object(kit, "free_memory", lambda free=free: free):
                    self.assertEqual(kit.jobs_of(known, "low", others), jobs)


class RunTest(unittest.TestCase):
    def test_what_is_otherwise_is_one_line_and_a_count(self):
        def main():
            kit.expect(False, "this")

        out, err = io.StringIO(), io.StringIO()
        with mock.patch.object(kit, "warn", lambda: None), contextlib.redirect_stdout(out), contextlib.redirect_stderr(err):
            with self.assertRaises(SystemExit) as ended:
                kit.run(main)
        self.assertEqual((ended.exception.code, out.getvalue()), (1, "0 passed, 1 failed\n"))
        self.assertEqual(err.getvalue(), "gate: the toolchain is otherwise than gate/kit.py takes for granted: this\n")


if __name__ == "__main__":
    unittest.main()
