"""Tests of which parts of ./verify are run again, and of what a part gets to see."""
import os
import shutil
import subprocess
import tempfile
import unittest

from checkout import TOP, read, write

ROWS = '''from part_rows_of_gate import BASE, CRATE, LIBRARY, OBJECT, OTHER_OBJECT, OTHER_PROGRAM, PROGRAM, SOURCES, Part

PARTS = [
    Part("group", "tests/one PROGRAM", ("tests/one", "data", "list/*.txt", PROGRAM), ("some-package",)),
    Part("group", "tests/two", ("tests/two",)),
    Part("machine", "tests/two", ("tests/two", "MACHINE/passwd")),
    Part("random", "tests/random", ("tests/random",), is_fresh=True),
    Part("crates", "tests/list", ("tests/list", f"{CRATE}middle")),
    Part("helpers", "tests/helpers", ("tests/helpers", "host")),
    Part("objects", "tests/given OBJECT", ("tests/given", OBJECT, OTHER_OBJECT, OTHER_PROGRAM)),
    Part("library", "tests/given LIBRARY", ("tests/given", LIBRARY)),
]
'''
# writes what it sees and its environment, and passes unless data/row says otherwise
ONE = """#!/bin/sh
find . -type f | sort
env | sort
"./$1"
echo changed >>"$(cat data/checkout)/data/late" 2>/dev/null
if grep -q wrong data/row; then echo '1 passed, 1 failed'; exit 1; fi
echo '2 passed, 0 failed'
"""
TWO = "#!/bin/sh\necho '3 passed, 0 failed'\n"
GIVEN = "#!/bin/sh\necho \"$*\"\ngrep -r '' release | sort\necho '1 passed, 0 failed'\n"
LIST = "#!/bin/sh\nfind crates -type f | sort\ncat crates.txt\necho '1 passed, 0 failed'\n"
HELPERS = "#!/bin/sh\nls -d host/*.py host/*/*.py host/__pycache__ host/deep/__pycache__\necho '1 passed, 0 failed'\n"
DPKG = "#!/bin/sh\ncat \"$0.versions\"\n"


class PartsTest(unittest.TestCase):
    def setUp(self):
        room = tempfile.TemporaryDirectory()
        self.addCleanup(room.cleanup)
        self.room, self.top, self.tools = room.name, f"{room.name}/top", f"{room.name}/tools"
        for file in ("parts", "kept.py", "kit.py", "crates.py"):
            os.makedirs(f"{self.top}/gate", exist_ok=True)
            shutil.copy(f"{TOP}/gate/{file}", f"{self.top}/gate/{file}")
        shutil.copy(f"{TOP}/gate/part_rows.py", f"{self.top}/gate/part_rows_of_gate.py")
        write(f"{self.top}/gate/part_rows.py", ROWS.replace("MACHINE", self.room))
        for name, text in (("one", ONE), ("two", TWO), ("random", TWO), ("list", LIST), ("helpers", HELPERS), ("given", GIVEN)):
            write(f"{self.top}/tests/{name}", text, executable=True)
        for path in ("data/row", "data/deep/other", "list/a.txt", "list/b.md", "secret", "release/MANIFEST", "data/out/made"):
            write(f"{self.top}/{path}", path)
        write(f"{self.top}/release/zirofen", "#!/bin/sh\necho ran\n", executable=True)
        for path in ("host/deep/one.py", "host/two.py"):
            write(f"{self.top}/{path}", "import os\n")
        write(f"{self.top}/crates.txt", "low: toml\nmiddle: low\nhigh: middle\n")
        for name in ("low", "middle", "high"):
            write(f"{self.top}/crates/{name}/src/lib.rt", name)
            write(f"{self.top}/crates/{name}/must-fail/one.edit", name)
        write(f"{self.tools}/dpkg-query", DPKG, executable=True)
        write(f"{self.tools}/dpkg-query.versions", "some-package 1 installed\n")
        self.environment = {it: value for it, value in os.environ.items() if not it.startswith(("GATE_", "LC_", "LANG"))}
        self.environment |= {"GATE_KEPT": f"{self.room}/kept", "PATH": f"{self.tools}:{os.environ['PATH']}", "LANG": "C.UTF-8"}

    def run_parts(self, *words, **environment):
        """Which parts are run, and what is said."""
        ended = subprocess.run([f"{self.top}/gate/parts", *(words or ["group"])], cwd=self.top, text=True, capture_output=True,
                               env={**self.environment, **environment})
        self.said, self.status = ended.stdout.splitlines(), ended.returncode
        self.assertEqual(ended.stderr, "")
        return [line.removeprefix("run: ") for line in self.said if line.startswith("run: ")]

    def assert_both(self, *words, **environment):
        self.assertEqual(self.run_parts(*words, **environment), ["group: tests/one PROGRAM", "group: tests/two"])

    def assert_one(self, *words, **environment):
        self.assertEqual(self.run_parts(*words, **environment), ["group: tests/one PROGRAM"])

    def assert_none(self, *words, **environment):
        self.assertEqual(self.run_parts(*words, **environment), [])


class KeptTest(PartsTest):
    def test_what_passed_is_counted_and_not_run_again(self):
        self.assert_both()
        self.assertEqual(self.said[-2:], ["gate: group: 0 of 2 parts are kept, 2 were run", "5 passed, 0 failed"])
        self.assert_none()
        self.assertEqual(self.said[-2:], ["gate: group: 2 of 2 parts are kept, 0 were run", "5 passed, 0 failed"])
        self.assertRegex(self.said[0], r"\Akept: group: tests/one PROGRAM: 2 passed on \d{4}-\d\d-\d\d, in \d+ s\Z")
        self.assertEqual(self.status, 0)

    def test_another_checkout_has_the_same(self):
        self.assert_both()
        os.rename(self.top, f"{self.room}/elsewhere")
        self.top = f"{self.room}/elsewhere"
        self.assert_none()

    def test_the_program_wherever_it_was_built(self):
        self.assert_both()
        os.renames(f"{self.top}/release", f"{self.top}/built/in")
        write(f"{self.top}/release/zirofen", "#!/bin/sh\necho an older one\n", executable=True)
        self.assert_none("--program", "built/in/zirofen", "group")
        self.assert_one()
        self.assertIn("an older one", self.said)

    def test_each_thing_that_a_row_names(self):
        self.assert_both()
        changes = (("data/row", "changed"), ("data/deep/other", "changed"), ("data/new", "new"), ("list/a.txt", "changed"), ("list/c.txt", "new"),
                   ("release/zirofen", "#!/bin/sh\necho changed\n"), ("release/MANIFEST", "changed"), ("tests/one", ONE + "# changed\n"))
        for path, text in changes:
            with self.subTest(path):
                write(f"{self.top}/{path}", text, executable=path in ("release/zirofen", "tests/one"))
                self.assert_one()
                self.assert_none()
        os.remove(f"{self.top}/data/new")
        self.assert_one()
        os.chmod(f"{self.top}/data/row", 0o755)
        self.assert_one()

    def test_the_row_and_the_scripts(self):
        self.assert_both()
        write(f"{self.top}/gate/part_rows.py", ROWS.replace('"data", ', '"data", "secret", ').replace("MACHINE", self.room))
        self.assert_one()
        for script in ("parts", "kept.py"):
            write(f"{self.top}/gate/{script}", read(f"{self.top}/gate/{script}") + "# changed\n", executable=script == "parts")
            self.assert_both()

    def test_a_file_of_the_machine(self):
        for text in ("root:0", "root:0 alice:1000"):
            write(f"{self.room}/passwd", text)
            self.assertEqual(self.run_parts("machine"), ["machine: tests/two"])
            self.assertEqual(self.run_parts("machine"), [])

    def test_what_no_row_names(self):
        self.assert_both()
        for path in ("secret", "list/b.md", "data/out/made", "crates/low/src/lib.rt", "tests/random"):
            write(f"{self.top}/{path}", "changed")
        self.assert_none(SOME_VARIABLE="1", GATE_OTHER="1", LANG="de_DE.UTF-8", LC_ALL="C", TZ="Europe/Berlin", PYTHONUNBUFFERED="1")

    def test_tools(self):
        self.assert_both()
        write(f"{self.tools}/dpkg-query.versions", "some-package 2 installed\n")
        self.assert_both()
        write(f"{self.tools}/python3", "#!/bin/sh\n[ \"$1\" != -c ] || { echo other; exit; }\nexec /usr/bin/env -S PATH=" + os.environ["PATH"] + " python3 \"$@\"\n",
              executable=True)
        self.assert_both()

    def test_nothing_is_kept_where_the_versions_of_tools_are_not_known(self):
        write(f"{self.tools}/dpkg-query.versions", "")
        for _ in range(2):
            self.assert_both()

    def test_what_is_drawn_at_random_is_always_run(self):
        for _ in range(2):
            self.assertEqual(self.run_parts("random"), ["random: tests/random"])

    def test_nothing_is_taken_and_nothing_kept_anew(self):
        self.assert_both(GATE_ANEW="1")
        self.assert_both()
        self.assert_both(GATE_ANEW="1")


class FailureTest(PartsTest):
    def test_a_failing_row_behind_a_kept_run(self):
        self.assert_both()
        write(f"{self.top}/data/row", "wrong")
        for _ in range(2):
            self.assert_one()
            self.assertEqual((self.said[-1], self.status), ("4 passed, 1 failed", 1))
        write(f"{self.top}/data/row", "data/row")
        self.assert_none()

    def test_a_part_without_its_count_and_one_that_counts_nothing(self):
        for text in ("exit 1", "echo '3 passed, 0 failed'; exit 1", "echo '0 passed, 0 failed'", "echo '3 passed, 1 failed'", "echo '3 passed, 0 failed'; echo more",
                     "kill -9 $$"):
            with self.subTest(text):
                write(f"{self.top}/tests/two", f"#!/bin/sh\n{text}\n", executable=True)
                for _ in range(2):
                    self.assertIn("group: tests/two", self.run_parts())
                    self.assertEqual(self.status, 1)
                    self.assertRegex(self.said[-1], r"\A\d passed, 1 failed\Z")

    def test_objects_stand_beside_the_programs(self):
        """And decide, wherever they were built."""
        for path, text in (("release/zirofen-aarch64", "other"), ("built/zirofen-x86_64.o", "one"), ("built/zirofen-aarch64.o", "two")):
            write(f"{self.top}/{path}", f"{text}\n")
        self.assertEqual(self.run_parts("--objects", "built", "objects"), ["objects: tests/given OBJECT"])
        self.assertEqual(self.said[1:5], ["release/zirofen-x86_64.o", "release/zirofen-aarch64.o:two", "release/zirofen-aarch64:other",
                                          "release/zirofen-x86_64.o:one"])
        self.assertEqual(self.run_parts("--objects", "built", "objects"), [])
        write(f"{self.top}/built/zirofen-aarch64.o", "changed\n")
        self.assertEqual(self.run_parts("--objects", "built", "objects"), ["objects: tests/given OBJECT"])

    def test_the_library_stands_beside_the_program(self):
        """Or where it was built."""
        for folder in ("release/library", "built"):
            for file in ("libzirofen.a", "libzirofen.so.0"):
                write(f"{self.top}/{folder}/x86_64/{file}", f"{folder} {file}\n")
        self.assertEqual(self.run_parts("library"), ["library: tests/given LIBRARY"])
        told = ["release/library/x86_64", *(f"release/library/x86_64/{it}:{{}} {it}" for it in ("libzirofen.a", "libzirofen.so.0"))]
        self.assertEqual(self.said[1:4], [it.format("release/library") for it in told])
        self.assertEqual(self.run_parts("library"), [])
        self.assertEqual(self.run_parts("--library", "built", "library"), ["library: tests/given LIBRARY"])
        self.assertEqual(self.said[1:4], [it.format("built") for it in told])

    def test_a_group_that_is_none(self):
        ended = subprocess.run([f"{self.top}/gate/parts", "none"], cwd=self.top, text=True, capture_output=True, env=self.environment)
        self.assertEqual((ended.stdout, ended.returncode), ("", 2))
        self.assertIn("group: tests/two", ended.stderr)


class SeenTest(PartsTest):
    def test_a_part_sees_what_its_row_names_and_nothing_else(self):
        self.assert_both(SOME_VARIABLE="1", GATE_OTHER="1", PYTHONPATH="/some/where", LANG="de_DE.UTF-8", TZ="Europe/Berlin")
        self.assertEqual([line for line in self.said if line.startswith("./")],
                         ["./data/deep/other", "./data/row", "./list/a.txt", "./release/MANIFEST", "./release/zirofen", "./tests/one"])
        self.assertIn("ran", self.said)
        self.assertFalse([line for line in self.said if line.startswith(("SOME_VARIABLE", "GATE_OTHER", "PYTHONPATH", "TZ"))])
        self.assertFalse([line for line in self.said if line.startswith(f"HOME={os.environ['HOME']}") and "part-" not in line])
        self.assertIn("LANG=C.UTF-8", self.said)

    def test_the_helpers_have_byte_code_that_is_in_no_sum(self):
        self.assertEqual(self.run_parts("helpers"), ["helpers: tests/helpers"])
        self.assertEqual(self.said[1:-2], ["host/__pycache__", "host/deep/__pycache__", "host/deep/one.py", "host/two.py", "1 passed, 0 failed"])
        self.assertFalse(os.path.exists(f"{self.top}/host/__pycache__"))
        write(f"{self.top}/host/__pycache__/two.pyc", "other")
        self.assertEqual(self.run_parts("helpers"), [])
        write(f"{self.top}/host/two.py", "import re\n")
        self.assertEqual(self.run_parts("helpers"), ["helpers: tests/helpers"])

    def test_what_changes_meanwhile_is_not_what_passed(self):
        write(f"{self.top}/data/checkout", self.top)
        self.assert_both()
        self.assertTrue(os.path.exists(f"{self.top}/data/late"))
        self.assert_one()

    def test_a_part_over_crates_has_these_and_those_below_without_mutants(self):
        self.assertEqual(self.run_parts("crates"), ["crates: tests/list"])
        self.assertEqual(self.said[1:-2], ["crates/low/src/lib.rt", "crates/middle/src/lib.rt", "low: toml", "middle: low", "1 passed, 0 failed"])
        write(f"{self.top}/crates/low/must-fail/one.edit", "changed")
        write(f"{self.top}/crates.txt", "low: toml\nmiddle: low\nhigh:\n")
        self.assertEqual(self.run_parts("crates"), [])
        write(f"{self.top}/crates.txt", "low:\nmiddle: low\nhigh:\n")
        self.assertEqual(self.run_parts("crates"), ["crates: tests/list"])


if __name__ == "__main__":
    unittest.main()
