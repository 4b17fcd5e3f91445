"""Tests of the kernel's own test of cgroups: how it is compiled, read and counted; a short one is in its place."""
import contextlib
import io
import os
import subprocess
import sys
import tempfile
import unittest
import unittest.mock

TOP = os.path.dirname(os.path.dirname(os.path.abspath(__file__)))
sys.path[:0] = [TOP, os.path.join(TOP, "..", "model")]
import played
import run_test
from trial import packages, script, selftests, tally

NAMES = ("test_cgcore_one", "test_cgcore_two")
HELPER = "cgroup_util"
TEST = f"""#include <stdio.h>
#include "../kselftest.h"
#include "{HELPER}.h"
struct test {{ int (*fn)(void); const char *name; }};
#define T(x) {{ x, #x }}
static int {NAMES[0]}(void) {{ return passes(); }}
static int {NAMES[1]}(void) {{ return passes(); }}
struct test tests[] = {{
	T({NAMES[0]}),
	T({NAMES[1]}),
}};
int main(void)
{{
	for (int at = 0; at < 2; at++)
		printf("%sok %d %s\\n", tests[at].fn() == KSFT_PASS ? "" : "not ", at + 1, tests[at].name);
	return 0;
}}
"""


def write(path, text):
    os.makedirs(os.path.dirname(path), exist_ok=True)
    with open(path, "w", encoding="utf-8") as out:
        out.write(text)


def sources(room, helpers="", headers=""):
    """A folder as that of a kernel's sources, with the short test, and what it stands on in folders of its own."""
    top = os.path.join(room, selftests.FOLDER)
    write(f"{top}/kselftest.h", "#define KSFT_PASS 0\n")
    write(f"{top}/cgroup/test_core.c", TEST)
    write(f"{top}/cgroup/{helpers}{HELPER}.c", f'#include "{HELPER}.h"\nint passes(void) {{ return 0; }}\n')
    write(f"{top}/cgroup/{headers or helpers}{HELPER}.h", "int passes(void);\n")
    return room


def said_of(*lines):
    return "".join(f"s {line}\n" for line in lines)


class SelftestsTest(unittest.TestCase):
    def test_compiled_and_run_it_tells_of_each_case(self):
        for folders in (("", ""), ("lib/", "lib/include/")):
            with self.subTest(folders), tempfile.TemporaryDirectory() as room, tempfile.TemporaryDirectory() as to:
                names, (name, mode, program) = selftests.of_sources(sources(room, *folders), to)
                self.assertEqual((tuple(names), name, mode, program[:4]), (NAMES, "test_core", 0o100755, b"\x7fELF"))
                said = subprocess.run([os.path.join(to, name)], capture_output=True, text=True, check=True).stdout
                self.assertEqual(selftests.told_in(said_of(*said.splitlines()), NAMES), dict.fromkeys(NAMES, selftests.PASSED))

    def test_what_does_not_compile_is_missing(self):
        with tempfile.TemporaryDirectory() as room, tempfile.TemporaryDirectory() as to:
            os.remove(os.path.join(sources(room), selftests.FOLDER, "kselftest.h"))
            with self.assertRaisesRegex(packages.Missing, "no test_core: .*kselftest.h"):
                selftests.of_sources(room, to)

    def test_only_what_is_said_to_pass_passes(self):
        for line, became in (("ok 1 test_cgcore_one", "passed"), ("not ok 1 test_cgcore_one", "failed"),
                             ("ok 1 # SKIP test_cgcore_one", "skipped"), ("ok 1 test_cgcore_two", "not told of"), ("", "not told of"),
                             ("# ok 1 test_cgcore_one", "not told of")):
            self.assertEqual(selftests.told_in(f"case 1\n{said_of(line)}end\n", NAMES[:1]), {NAMES[0]: became})
        self.assertEqual(selftests.told_in("t ok 1 test_cgcore_one\nend\n", NAMES[:1]), {NAMES[0]: "not told of"})

    def test_one_that_does_not_pass_is_a_failure(self):
        counted = tally.Tally("6", None, "/none")
        with contextlib.redirect_stdout(io.StringIO()) as said:
            counted.take_selftests({NAMES[0]: "passed", NAMES[1]: "skipped"})
        self.assertEqual((counted.counts["selftest cases"], counted.failures), (2, 1))
        self.assertEqual(said.getvalue(), f"kernel: FAILED: 6: selftests: {NAMES[1]}: skipped\n")
        self.assertIn(f"- The kernel's own test_core.c: 1 of 2 cases pass; {NAMES[1]} skipped.", tally.lines_of(counted))


class CalledTest(run_test.Called):
    def run_of(self, answers, *words):
        def kernel(_kernel, lines, _seconds, _wide, *files):
            scripts.append((lines, [name for name, _, _ in files]))
            own = "".join(f"s {answer} {at} {name}\n" for at, (answer, name) in enumerate(zip(answers, NAMES), 1))
            return played.Kernel().run(lines).removesuffix("end\n") + own * len(files) + "end\n", ""
        scripts = []
        with tempfile.TemporaryDirectory() as room, tempfile.TemporaryDirectory() as of_kernel:
            asked = []
            with unittest.mock.patch.object(packages, "sources_of", lambda version, _kept: asked.append(version) or sources(of_kernel)):
                return *self.run_with(room, *words, kernel=kernel), scripts, asked

    def test_alone(self):
        status, said, scripts, asked = self.run_of(("ok", "ok"), "--selftests", "6.12", "--only", "selftests")
        self.assertEqual((status, said.splitlines()[-1], asked), (0, "4 passed, 0 failed", ["6.12"]))
        self.assertEqual([files for _, files in scripts], [["test_core"]] * 2)
        self.assertTrue(all(lines.endswith(selftests.SCRIPT) for lines, _ in scripts))

    def test_beside_others(self):
        status, said, _, _ = self.run_of(("ok", "not ok"), "--selftests", "6.1", "--only", "ways", "--kernel", "6.1")
        self.assertEqual((status, said.splitlines()[-1]), (1, "16 passed, 1 failed"))
        self.assertIn(f"kernel: FAILED: 6.1: selftests: {NAMES[1]}: failed", said)

    def test_not_without_the_option(self):
        status, said, scripts, asked = self.run_of(("ok", "ok"), "--only", "ways", "--kernel", "6.1")
        self.assertEqual((status, said.splitlines()[-1], asked), (0, "15 passed, 0 failed", []))
        self.assertEqual([(lines, files) for lines, files in scripts if files or selftests.SCRIPT in lines], [])


class SourcesTest(unittest.TestCase):
    def test_what_is_kept_is_not_fetched(self):
        with tempfile.TemporaryDirectory() as room:
            folder = sources(os.path.join(room, "linux-source-6.12"))
            write(f"{folder}/Documentation/admin-guide/cgroup-v2.rst", "")
            self.assertEqual(packages.sources_of("6.12", room), folder)

    def test_what_is_not_fetched_is_missing(self):
        with tempfile.TemporaryDirectory() as room, \
             unittest.mock.patch.object(packages, "ran", lambda *_, **__: unittest.mock.Mock(returncode=1, stderr="E: no such package")):
            with self.assertRaisesRegex(packages.Missing, "linux-source-6.12 isn't fetched: E: no such package"):
                packages.sources_of("6.12", room)


if __name__ == "__main__":
    unittest.main()
