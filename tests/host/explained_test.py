"""Tests of why one user and one subtree are answered so."""
import os
import sys
import unittest
from unittest import mock

import example
from check_test import HostTest, owned
from shown import made
from zirofen_host.fault import Fault
from zirofen_host.judge import explained
from zirofen_host.judge.finding_lines import explaining
from zirofen_host.judge.names import Names
from zirofen_host.options import AskOptions
from zirofen_host.show import page
from zirofen_host.show.lines import finding_lines

NAMES = Names({0: "root", 1000: "alice"}, {0: "root", 50: "staff"})


class ExplainedTest(HostTest):
    def explain(self, user, path, **more):
        self.warnings = []
        return explained.explain(self.host.snapshot(), self.options(AskOptions, user=user, path=path, explain=True, **more),
                                 self.warnings.append)

    def setUp(self):
        super().setUp()
        self.host.cgroup("/a", owners={"cgroup.procs": (0, 50)}, modes={"cgroup.procs": 0o664})
        self.host.cgroup("/a/b", owners=owned(1002))

    def test_why_it_is_contained(self):
        self.can("all", "settle", "explain")
        lines, status = self.explain("bob", "/a/b")
        self.assertEqual((lines[0].endswith(" in /a/b:"), lines[-1], status), (True, "contained", 0))
        self.assertTrue(all(line.startswith("    holds: ") for line in lines[1:-1]), lines)
        self.assertEqual(lines[-2], "    holds: 0 levels below /a/b, and no limit")

    def test_why_it_is_not(self):
        self.can("all", "settle", "explain")
        with mock.patch.dict(os.environ, MADE_UP_OPENER="1002"):
            lines, status = self.explain("carol", "/a/b")
        self.assertEqual(status, 2)
        failing = [line for line in lines if line.startswith("    fails: ")]
        self.assertEqual(failing, [
            "    fails: cgroup.procs of /a (uid 0, group team(50), 664) is theirs through its group: whoever writes it moves processes "
            "over the subtree's edge, into what else they write cgroup.procs of", "    fails: the subtree may be removed"])
        self.assertEqual(lines[-1], "unsettled common-ancestor /a")

    def test_where_not_all_cgroups_are_there(self):
        """What else may keep the subtree rests on all of them, and isn't told."""
        self.can("all", "settle", "explain")
        lines, status = self.explain("carol", "/a/b", only=b"/a")
        self.assertEqual((lines[-2], status), ("unsettled", 2))
        self.assertIn("hasn't every cgroup", lines[-1])
        self.assertFalse([line for line in lines if "may be removed" in line])
        lines, status = self.explain("bob", "/a/b", only=b"/a")
        self.assertEqual((lines[-2], status), ("contained", 0))

    def test_lists_of_groups_are_asked_in_one_run(self):
        """Where the program takes pairs; what has a fault is asked by itself, and told as it was."""
        self.host.process(7, uid=1002, gid=1002, groups=(51,))
        self.host.cgroup("/x", owners={"cgroup.procs": (0, 51)})
        self.host.cgroup("/a/odd", owners=owned(1002))
        self.can("all", "settle", "explain")
        with mock.patch.dict(os.environ, MADE_UP_OPENER="1002"):
            each, before = self.explain("carol", "/a/b"), len(self.called())
            self.can("all", "settle", "explain", "pairs")
            self.assertEqual(self.explain("carol", "/a/b"), each)
        self.assertEqual(sum(line.endswith("/a/b:") for line in each[0]), 2)
        self.assertEqual([call[0] for call in self.called()], ["explain"] * 3)
        self.assertEqual((before, "--pairs" in self.called()[-1]), (2, True))
        self.can("all", "settle", "explain", "pairs")
        with self.assertRaisesRegex(Fault, "^fault: subtree missing$"):
            self.explain("carol", "/a/odd")
        self.assertEqual([call[0] for call in self.called()], ["explain"] * 6)

    def test_faults(self):
        self.can("all", "explain")
        with self.assertRaisesRegex(Fault, "^fault: subtree missing$"):
            self.explain("1000", "/odd")
        self.can("all")
        with self.assertRaisesRegex(Fault, "^this zirofen has no explain$"):
            self.explain("1000", "/a")

    def test_a_finding_names_the_command(self):
        report = made(example.kept())
        commands = ["zirofen-host ask 1002 --explain /batch.slice/nightly.service",
                    "zirofen-host ask 990 --explain /system.slice/build.service",
                    "zirofen-host ask 1000 --explain /user.slice/user-1000.slice/user@1000.service"]
        told = [line for line in finding_lines(report) if line.startswith("    why: ")]
        self.assertEqual(told, [f"    why: {each}" for each in commands])
        shown = page.page([report])
        self.assertEqual([shown.count(f"<code>{each}</code>") for each in commands], [1, 1, 1])
        self.assertEqual(explaining(5, "/a;b", ("--mount", "/a b")), "zirofen-host ask 5 --explain '/a;b' --mount '/a b'")

    def test_each_kind_of_line(self):
        for line, told in (
                ("holds parent-dir / dir 0:0 755", "holds: the directory of / (root(0), group root(0), 755) is out of their reach: "
                 "whoever writes it removes the subtree where it is empty, and makes others beside it"),
                ("fails limit-file /c0 memory.max 1000:50 646 others", "fails: memory.max of /c0 (alice(1000), group staff(50), 646) is "
                 "theirs as one of all others: whoever writes it sets this limit"),
                ("holds stays /c0 upheld", "holds: the subtree stays: a cgroup below it does"),
                ("fails control / memory turned", "fails: memory may be enabled or disabled in /"),
                ("holds files /c0 spared", "holds: they reach no limit file of the subtree"),
                ("fails shut /c1 takes full", "fails: /c1: they may move a process there; a limit leaves no room for a cgroup in it"),
                ("fails already-over /c0 cgroup.max.descendants 2 1", "fails: 2 cgroups below /c0, and 1 at most"),
                ("holds something else", "holds something else")):
            with self.subTest(line):
                self.assertEqual(explained.line_of(NAMES, line), told)


if __name__ == "__main__":
    sys.exit(unittest.main())
