"""Tests of how what refusals.c says is read."""
import os
import sys
import unittest

TOP = os.path.dirname(os.path.dirname(os.path.abspath(__file__)))
sys.path[:0] = [TOP, os.path.join(TOP, ".."), os.path.join(TOP, "..", "model")]
import tap
from trial import refusals

PLAIN = "TAP version 13\n1..3\nok 1 refusal 1: move\n# refused: Permission denied\nok 2 refusal 4: rmdir\nok 3 refusal 9: fork # SKIP no\n"
OPENED = "TAP version 13\n1..3\nnot ok 1 refusal 1: move\nnot ok 2 refusal 4: rmdir\nok 3 refusal 9: fork # SKIP no\n"


class RefusalsTest(unittest.TestCase):
    def test_runs_are_read(self):
        plain, opened = tap.read(PLAIN + OPENED)
        self.assertEqual((plain.passed, plain.failed, plain.skipped), (["refusal 1: move", "refusal 4: rmdir"], [], ["refusal 9: fork"]))
        self.assertEqual((opened.planned, opened.failed), (3, ["refusal 1: move", "refusal 4: rmdir"]))
        self.assertEqual(tap.read("TAP version 13\n1..0 # SKIP no cgroup v2 is mounted\n")[0].why_none, "no cgroup v2 is mounted")

    def test_what_is_wrong(self):
        self.assertEqual(tap.faults_of(tap.read(PLAIN + OPENED)), [])
        self.assertEqual(tap.faults_of(tap.read(PLAIN.replace("ok 2", "not ok 2") + OPENED)), ["not refused: refusal 4: rmdir"])
        self.assertEqual(tap.faults_of(tap.read(PLAIN + OPENED.replace("not ok 1", "ok 1"))),
                         ["refused though it is opened: refusal 1: move"])
        for cut in (PLAIN, PLAIN.replace("1..3", "1..4") + OPENED, PLAIN + OPENED.replace("not ok 2 refusal 4: rmdir\n", ""), ""):
            self.assertEqual(tap.faults_of(tap.read(cut)), ["the two runs didn't come to their ends"])

    def test_line_of_the_report(self):
        said = "controllers cpu\n" + "".join(f"t {line}\n" for line in (PLAIN + OPENED).splitlines()) + "end\n"
        self.assertEqual(refusals.line_of(refusals.runs_in(said)), "- Refusals: 2 of 3 cases are refused, and 2 are let through where the "
                         "set-up lets the act through; of refusal 9: fork the kernel says nothing.")
        self.assertEqual(refusals.line_of([]), "- Refusals: not asked.")


if __name__ == "__main__":
    unittest.main()
