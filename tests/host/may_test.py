"""Tests of what somebody may do with a subtree at all, beside what the program says of single operations."""
import os
import subprocess
import unittest
from unittest import mock

from called import called
from check_test import REAL_PROGRAM, HostTest, owned
from made_up import TOP
from zirofen_host.fault import Fault
from zirofen_host.judge import may
from zirofen_host.options import AskOptions


class MayTest(HostTest):
    def may(self, user, path, **more):
        self.warnings = []
        return may.may(self.host.snapshot(), self.options(AskOptions, user=user, path=path, may=True, **more), self.warnings.append)

    def test_entries_of_each_class_and_what_follows(self):
        self.host.cgroup("/a", owners={**owned(1002), "memory.max": (0, 50), "cgroup.max.depth": 0},
                         modes={"memory.max": 0o664, "cgroup.max.depth": 0o646, "cgroup.procs": 0o444}, enabled="memory")
        self.assertEqual(self.may("carol", "/a"), [
            "carol(1002) in /a, by owners and modes:", "/a", "    dir 1002:0 755, by owner: makes and removes cgroups here",
            "    cgroup.procs 1002:0 444, by owner: sets its mode first, and then moves processes into it",
            "    cgroup.subtree_control 1002:0 644, by owner: enables and disables controllers here, and so limit files below",
            "    cgroup.max.depth 0:0 646, by others: sets cgroup.max.depth", "    memory.max 0:50 664, by group: sets memory.max"])
        self.assertEqual((self.warnings, os.path.exists(self.calls)), ([], False))

    def test_the_first_class_that_matches_counts(self):
        """A group's members get in by its bits alone, whatever everybody may."""
        self.host.cgroup("/a", owners={"cgroup.max.depth": (0, 50)}, modes={"cgroup.max.depth": 0o646})
        self.assertEqual(self.may("carol", "/a"), ["carol(1002) owns and writes no entry of /a, and none above it that a guard is about"])
        self.assertEqual(self.may("bob", "/a")[1:], ["/a", "    cgroup.max.depth 0:50 646, by others: sets cgroup.max.depth"])

    def test_what_a_guard_stands_on_above(self):
        self.host.cgroup("/up", owners={**owned(1000)})
        self.host.cgroup("/up/a")
        self.host.cgroup("/up/b", owners=owned(1000))
        self.assertEqual(self.may("alice", "/up/a"), [
            "alice(1000) in /up/a, by owners and modes:", "/up, above",
            "    cgroup.procs 1000:0 644, by owner: moves processes over the subtree's edge, into what else they write cgroup.procs of",
            "/up, above", "    cgroup.subtree_control 1000:0 644, by owner: takes limit files of the subtree away, and brings them",
            "/up, above", "    dir 1000:0 755, by owner: removes the subtree where it is empty, and makes others beside it"])

    def test_processes_are_moved_among_what_lies_below_one(self):
        procs = {"cgroup.procs": 1000}
        for path, owners in (("/a", {}), ("/a/b", procs), ("/a/b/c", {}), ("/a/b/c/d", procs), ("/a/e", procs), ("/a/f", {}),
                             ("/a/f/g", procs), ("/a/f/h", procs)):
            self.host.cgroup(path, owners=owners)
        among = [line for line in self.may("alice", "/a") if line.startswith("moves")]
        self.assertEqual(among, ["moves processes among /a/b /a/b/c/d"])

    def test_cgroups_that_are_alike_are_told_together(self):
        self.host.cgroup("/a")
        for number in range(10, 22):
            self.host.cgroup(f"/a/{number}", owners={"dir": 1000})
        self.host.cgroup("/a/9", owners={"dir": 1000}, modes={"dir": 0o775})
        lines = self.may("alice", "/a")
        self.assertEqual(lines[1], "/a/10 /a/11 /a/12 /a/13 /a/14 /a/15 /a/16 /a/17 and 4 more")
        self.assertEqual(lines[3:], ["/a/9", "    dir 1000:0 775, by owner: makes and removes cgroups here"])
        with mock.patch.object(may, "MOST", 1):
            self.assertEqual(self.may("alice", "/a")[3:], ["and 1 more cgroups, otherwise"])

    def test_each_list_of_groups(self):
        self.host.cgroup("/a", owners={"cgroup.max.depth": (0, 60)}, modes={"cgroup.max.depth": 0o664}, pids=(7,))
        self.host.process(7, uid=1000, gid=1000, groups=(60,))
        self.assertEqual(self.may("alice", "/a"), [
            "# uid 1000, groups 1000", "alice(1000) owns and writes no entry of /a, and none above it that a guard is about",
            "# uid 1000, groups 1000,60", "alice(1000) in /a, by owners and modes:", "/a",
            "    cgroup.max.depth 0:60 664, by group: sets cgroup.max.depth"])

    def test_faults_and_warnings(self):
        for user, path, line in (("nobody-here", "/", "there is no account 'nobody-here'"), ("1000", "/none", "^there is no cgroup /none$"),
                                 ("1000", "/\x1b", "^there is no cgroup '/")):
            with self.subTest(user), self.assertRaisesRegex(Fault, line):
                self.may(user, path)
        self.may("78", "/")
        self.assertEqual(self.warnings, ["uid 78 owns nothing, writes nothing of their own, has no process and no account here"])


@unittest.skipUnless(REAL_PROGRAM, "there is no program here")
class CommandTest(unittest.TestCase):
    """By the command, on a tree whose operations the program is asked of too."""

    def run_it(self, *words):
        return called("ask", *words, "--zirofen", REAL_PROGRAM, env={**os.environ})

    def test_either_order_of_words(self):
        tree = f"{TOP}/examples/delegation.toml"
        ended = self.run_it("1000", "--may", "/c0", "--tree", tree)
        self.assertEqual((ended.returncode, ended.stderr), (0, ""))
        self.assertEqual(ended.stdout, self.run_it("1000", "/c0", "--may", "--tree", tree).stdout)
        self.assertIn("moves processes among /c0 /c0/c00 /c0/c01\n", ended.stdout)

    def test_what_it_says_of_moves_is_what_the_program_grants(self):
        tree = f"{TOP}/examples/delegation.toml"
        for place, word in (("/c0/c01", "granted\n"), ("/c1", "refused no-access / cgroup.procs\n")):
            said = subprocess.run([REAL_PROGRAM, "may", "--tree", tree, "--uid", "1000", "--pid", "11", "--to", place],
                                  capture_output=True, text=True).stdout
            among = self.run_it("1000", "--may", "/", "--tree", tree).stdout
            together = any(line.startswith("moves") and {"/c0/c00", place} <= set(line.split()) for line in among.splitlines())
            self.assertEqual((said, together), (word, word == "granted\n"), place)


if __name__ == "__main__":
    unittest.main()
