"""Tests of what gate/seconds says: by the times at which a prover's files were written."""
import os
import subprocess
import sys
import tempfile
import unittest

from checkout import TOP, write


def said_of(*folders):
    ran = subprocess.run([sys.executable, f"{TOP}/gate/seconds", *folders], capture_output=True, text=True, check=True)
    return ran.stdout.splitlines()


class SecondsTest(unittest.TestCase):
    def setUp(self):
        room = tempfile.TemporaryDirectory()
        self.addCleanup(room.cleanup)
        self.room = room.name

    def step(self, name, ended):
        path = f"{self.room}/work/made/{name}.oantt"
        write(path, "")
        os.utime(path, (ended, ended))

    def test_what_lies_between_is_the_next_ones(self):
        self.step("Rattle.Syntax", 100)
        self.step("Rattle-low-proofs.row.Row.first.Lts", 104)
        self.step("Rattle-low-proofs.row.Row.first.Answers.decls", 110)
        self.step("Rattle-low-specs.contracts.row.new.Key", 111)
        self.step("Rattle-low-proofs.row.new.Lts.Given", 113)
        self.assertEqual(said_of(f"{self.room}/work")[1:], ["    10.0  low::row.Row.first", "     3.0  low::row.new"])

    def test_what_no_step_wrote_counts_for_nothing(self):
        self.step("Rattle-low-proofs.one.Lts", 100)
        self.step("rattle-last-used", 140)
        self.step("Rattle-low-proofs.two.Lts", 141)
        self.assertEqual(said_of(f"{self.room}/work"), [
            "The functions whose proofs took longest, in seconds, of 1 of 1 crates:", "     1.0  low::two"])

    def test_no_work(self):
        self.assertEqual(said_of(self.room), ["The functions whose proofs took longest, in seconds, of 0 of 1 crates:"])


if __name__ == "__main__":
    unittest.main()
