"""The refusals on which a yes rests, asked of this machine's own kernel at its own mount of cgroup v2."""
import os
import shutil
import subprocess
import tempfile
import unittest

import tap

SOURCE = os.path.join(os.path.dirname(os.path.dirname(os.path.abspath(__file__))), "kernel", "refusals.c")
WARNINGS = ["-Wall", "-Wextra", "-Werror"]
SKIPPED = 4


@unittest.skipUnless(shutil.which("cc"), "there is no C compiler here")
class RefusalsTest(unittest.TestCase):
    @classmethod
    def setUpClass(cls):
        cls.room = tempfile.TemporaryDirectory()
        cls.addClassCleanup(cls.room.cleanup)
        cls.program = os.path.join(cls.room.name, "refusals")
        subprocess.run(["cc", "-O1", *WARNINGS, "-o", cls.program, SOURCE], check=True)

    def asked(self, *words):
        return subprocess.run([self.program, *words], capture_output=True, text=True, check=False)

    def test_each_is_refused_and_let_through_where_it_is_opened(self):
        plain, opened = self.asked(), self.asked("--opened")
        runs = tap.read(plain.stdout + opened.stdout)
        if runs[0].why_none:
            self.skipTest(runs[0].why_none)
        self.assertEqual(tap.faults_of(runs), [], plain.stdout + opened.stdout)
        self.assertEqual((plain.returncode, opened.returncode), (0, 1))
        self.assertEqual({name.partition(":")[0] for name in runs[0].passed + runs[0].skipped}, {f"refusal {it}" for it in range(1, 10)})

    def test_where_there_is_no_mount(self):
        with tempfile.TemporaryDirectory() as nowhere:
            found = self.asked(nowhere)
            self.assertEqual(found.returncode, SKIPPED)
            self.assertIn("1..0 # SKIP ", found.stdout)
            self.assertEqual(os.listdir(nowhere), [])

    def test_words_that_it_has_not(self):
        self.assertEqual(self.asked("--opened", "/a", "/b").returncode, 2)


if __name__ == "__main__":
    unittest.main()
