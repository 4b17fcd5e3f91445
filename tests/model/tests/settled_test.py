"""What the second model takes for a right answer of settle, and for a right list of an audit's pairs."""
import os
import sys
import unittest

sys.path.insert(0, os.path.dirname(os.path.dirname(os.path.abspath(__file__))))
from second import commands, rules
from trials_test import example

SETTLE = "settle --uid 1000 --subtree /c0"
LIST = ["exit 11", "rmdir /c0/c00", "rmdir /c0/c01", "rmdir /c0"]
# the root's directory is everybody's, and /a can't be removed: the guard fails for both, and the second row holds
KEPT = """format = 2
controllers = []
[[cgroup]]
path = "/"
dir = { mode = 0o757 }
[[cgroup]]
path = "/a"
[[cgroup]]
path = "/a/b"
"""
# 1000 moves what is below /a, to nowhere; 1001, for whom the guards hold, lets it into /a/s
TOGETHER = """format = 2
controllers = ["memory"]
[[cgroup]]
path = "/"
enabled = ["memory"]
[[cgroup]]
path = "/a"
enabled = ["memory"]
files = { "cgroup.procs" = { uid = 1000 } }
[[cgroup]]
path = "/a/s"
files = { "cgroup.procs" = { uid = 1001 } }
[[cgroup]]
path = "/a/z"
[[process]]
pid = 10
uid = 0
at = "/a/z"
"""


def is_right(words, tree, lines, status):
    """Whether a report is right; what is expected is one report, or more than one is right."""
    expected, wanted, fault = commands.respond(words.split(" "), tree.encode() if isinstance(tree, str) else tree, {})
    if isinstance(expected[0], commands.Open):
        return expected[0].is_right(lines, status)
    return (expected, wanted, fault) == (lines, status, "")


class SettledTest(unittest.TestCase):
    def assert_right(self, words, tree, lines, status, right=True):
        self.assertEqual(is_right(words, tree, lines, status), right, lines)

    def test_a_list_has_to_break_at_its_last_operation_with_nothing_refused(self):
        tree = example("delegation-parent-directory.toml")
        self.assert_right(SETTLE, tree, ["escapes", *LIST], 1)
        self.assert_right(SETTLE, tree, ["unsettled parent-dir /"], 2)
        for lines, status in ((["escapes", *LIST], 2), (["escapes", *LIST[:-1]], 1), (["escapes", *LIST, "rmdir /c0"], 1),
                              (["escapes", *LIST, "fork 10 99"], 1), (["escapes", "exit 99", *LIST], 1), (["escapes", "exit x", *LIST], 1),
                              (["escapes", *LIST[1:]], 1), (["escapes"], 1), (["contained"], 0), (["unsettled common-ancestor /"], 2),
                              (["unsettled parent-dir /c0"], 2), (["unsettled parent-dir /"], 1), ([], 1), (["escapes now", *LIST], 1)):
            self.assert_right(SETTLE, tree, lines, status, False)

    def test_a_list_has_fewer_than_65536_operations(self):
        state = commands.tree_of(example("delegation-parent-directory.toml"))
        operations = [commands.operation_of(line.encode()) for line in LIST]
        idle = [("chmod", ("c0",), rules.DIR, 0o755)]
        most = commands.settled.MOST_OPERATIONS - len(operations)
        self.assertTrue(commands.settled.is_escape(state, (1000, ()), ("c0",), idle * most + operations))
        self.assertFalse(commands.settled.is_escape(state, (1000, ()), ("c0",), idle * (most + 1) + operations))

    def test_what_check_settles_stays(self):
        self.assert_right(SETTLE, example("delegation.toml"), ["contained"], 0)
        for mode, right in (("646", True), ("666", False)):
            lines = ["escapes", f"chmod / cgroup.procs {mode}", "move 10 /c0"]
            self.assert_right(SETTLE, example("delegation-ancestor-owned.toml"), lines, 1, right)

    def test_the_second_row_settles(self):
        self.assert_right("check --uid 1000 --subtree /a", KEPT, ["unsettled parent-dir /"], 2)
        self.assert_right("settle --uid 1000 --subtree /a", KEPT, ["contained"], 0)
        self.assert_right("settle --uid 1000 --subtree /a", KEPT, ["unsettled parent-dir /"], 2, False)

    def test_an_audit_asks_of_all_without_a_list_together(self):
        first = ["pair 1000 /a/s", "unsettled common-ancestor /a"]
        for words, lines, status, right in (
                ("--uid 1000", ["contained"], 0, True), ("--uid 1001", ["contained"], 0, True),
                ("--uid 1000 --uid 1001", ["contained"], 0, False), ("--uid 1000 --uid 1001", first, 2, True),
                ("--uid 1000 --uid 1001", first, 1, False), ("--uid 1000 --uid 1001", ["pair 1001 /a/s", *first[1:]], 2, False),
                ("--uid 1000 --uid 1001", [first[0], "escapes", "move 10 /a/s"], 1, False),
                ("--uid 1001 --uid 1000 --all", first, 2, True), ("--uid 1001 --uid 1000 --all", ["contained"], 0, False),
                ("--uid 1001 --uid 1000 --all", [*first, "pair 1001 /a/s", "unsettled common-ancestor /a"], 2, False),
                ("--uid 1001 --uid 1000 --all", [*first, *first], 2, False)):
            self.assert_right(f"audit {words} --subtree /a/s --settle", TOGETHER, lines, status, right)

    def test_an_audit_lists_those_with_a_list_and_asks_of_the_others(self):
        tree = example("delegation-parent-directory.toml")
        words = "audit --uid 1000 --uid 1001 --subtree /c0 --settle --all"
        self.assert_right(words, tree, ["pair 1000 /c0", "escapes", *LIST], 1)
        self.assert_right(words, tree, ["pair 1000 /c0", "unsettled parent-dir /"], 2)
        self.assert_right(words, tree, ["contained"], 0, False)
        self.assert_right(words, tree, ["pair 1000 /c0", "escapes", *LIST], 2, False)

    def test_the_first_pair_is_one_that_a_list_may_begin_with(self):
        state = commands.tree_of(TOGETHER.encode())
        first, other, top = (1000, ()), (1001, ()), ("a", "s")
        unsettled = ("unsettled", "common-ancestor", ("a",))
        for users, before, user, answer, right in (
                ([first, other], [], first, unsettled, True), ([first], [], first, unsettled, False),
                ([other, first], [(other, top)], first, unsettled, True), ([first, other], [(first, top)], other, unsettled, False),
                ([first, other], [], first, ("contained",), False), ([first, other], [], first, ("escapes", []), False)):
            self.assertEqual(commands.settled.is_first(state, users, before, (user, top), answer), right)

    def test_a_pair_before_the_first_isnt_one_that_is_listed(self):
        state = commands.tree_of(example("delegation-parent-directory.toml"))
        user, other, top = (1000, ()), (1001, ()), ("c0",)
        answer = ("escapes", [commands.operation_of(line.encode()) for line in LIST])
        self.assertTrue(commands.settled.is_first(state, [user, other], [(other, top)], (user, top), answer))
        self.assertFalse(commands.settled.is_first(state, [user, (1000, (7,))], [(user, top)], ((1000, (7,)), top), answer))

    def test_advice_is_none_where_the_second_row_holds(self):
        self.assert_right("advise --uid 1000 --subtree /a --settle", KEPT, ["contained"], 0)
        self.assert_right("advise --uid 1000 --subtree /a", KEPT, ["fails parent-dir / dir 0:0 757 others", "chmod / dir 755"], 1)

    def test_advice_asks_of_all_users_together_and_then_changes_all(self):
        mended = ["fails common-ancestor /a cgroup.procs 1000:0 644 owner", "chown /a cgroup.procs 0:0"]
        for users in ("--uid 1000", "--uid 1001", "--uid 1001 --uid 1001:0"):
            self.assert_right(f"advise {users} --subtree /a/s --settle", TOGETHER, ["contained"], 0)
        self.assert_right("advise --uid 1000 --uid 1001 --subtree /a/s --settle", TOGETHER, mended, 1)
        # of /a/z the second row holds for both, and of /a/s it doesn't
        tree = TOGETHER.replace('path = "/a/z"', 'path = "/a/z"\nfiles = { "cgroup.max.depth" = { uid = 1001 } }')
        self.assert_right("advise --uid 1000 --uid 1001 --subtree /a/s --subtree /a --settle", TOGETHER, mended, 1)
        self.assert_right("advise --uid 1000 --uid 1001 --subtree /a --subtree /a/z --settle", tree, [
            *mended, "fails limit-file /a/z cgroup.max.depth 1001:0 644 owner", "chown /a/z cgroup.max.depth 0:0"], 1)

    def test_advice_of_pairs_looks_no_further(self):
        asked = "advise --uid 1000 --subtree /a --settle"
        for words in ("advise --pairs pairs --settle", f"{asked}=x", f"{asked} --settle", "advise --uid 1000 --settle",
                      "advise --settle --subtree /a"):
            self.assertEqual(commands.respond(words.split(" "), KEPT.encode(), {"pairs": b""}), ([], 3, "fault: usage"))
        self.assert_right("advise --uid 1000 --gid 5 --settle --subtree /a", KEPT, ["contained"], 0)


if __name__ == "__main__":
    unittest.main()
