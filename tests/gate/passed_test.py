"""Tests of the record of the last run from nothing that passed."""
import os
import shutil
import subprocess
import tempfile
import unittest

from checkout import TOP, read, write


class RecordTest(unittest.TestCase):
    def setUp(self):
        room = tempfile.TemporaryDirectory()
        self.addCleanup(room.cleanup)
        self.top = room.name
        for file in ("passed", "kept.py"):
            os.makedirs(f"{self.top}/gate", exist_ok=True)
            shutil.copy(f"{TOP}/gate/{file}", f"{self.top}/gate/{file}")
        write(f"{self.top}/crates/low/src/lib.rt", "low")
        write(f"{self.top}/release/zirofen", "program")

    def call(self, *words):
        ended = subprocess.run([f"{self.top}/gate/passed", *words], cwd=self.top, text=True, capture_output=True)
        return ended.stdout, ended.returncode

    def test_there_is_none(self):
        self.assertEqual(self.call(), ("gate: there is no record in release/PASSED of a run from nothing that passed\n", 0))
        write(f"{self.top}/release/PASSED", "passed 5\n")
        self.assertIn("there is no record", self.call()[0])

    def test_these_sources_and_others(self):
        self.assertEqual(self.call("--note", "35000", "3600", "12000"), ("", 0))
        self.assertRegex(read(f"{self.top}/release/PASSED"), r"\Aday \d{4}-\d\d-\d\d\ncommit .*\nsources \w{64}\npassed 35000\nclock 3600\nprocessors 12000\n\Z")
        told = r"gate: everything passed from nothing last on \S+, at {}: 35000 passed, in 3600 s by the clock and 12000 of processors\n"
        self.assertRegex(self.call()[0], told.format("these sources"))
        for path in (".chosen", "crates/low/out/made", "gate/__pycache__/kept.pyc"):
            write(f"{self.top}/{path}", "made")
        self.assertRegex(self.call()[0], told.format("these sources"))
        for path in ("docs/new", "crates/low/src/lib.rt", "release/zirofen"):
            write(f"{self.top}/{path}", f"changed {path}")
            self.assertRegex(self.call()[0], told.format("other sources, those of commit none"))
            self.call("--note", "35000", "3600", "12000")
            self.assertRegex(self.call()[0], told.format("these sources"))

    def test_other_words(self):
        for words in (["--note"], ["--note", "1", "2", "many"], ["--other"]):
            self.assertEqual(self.call(*words), ("", 1))


if __name__ == "__main__":
    unittest.main()
