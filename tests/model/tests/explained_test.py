"""What the second model tells of one user and one subtree, on trees by hand and against the two rows of guards."""
import os
import random
import sys
import unittest

sys.path.insert(0, os.path.dirname(os.path.dirname(os.path.abspath(__file__))))
from second import commands, explained, lasting, rules
from second.rules import DEPTH, DESCENDANTS
from trials import small
from search_test import state_of
from settled_test import TOGETHER
from trials_test import example

USER = small.USERS[0]


def lines_of(rows, top, begins, live=()):
    return [line for line in explained.lines_of(state_of(rows, live), USER, rules.path_of(top)) if line[6:].startswith(begins)]


class ExplainedTest(unittest.TestCase):
    def test_the_second_row_holds_where_no_line_of_it_fails(self):
        for number in range(150):
            state = small.random_state(random.Random(number))
            for top in [path for path in state.cgroups if path]:
                limits = explained.limits(state, top)
                told = explained.second_row(state, [USER], top) + limits
                self.assertEqual(not any(line.startswith("fails") for line in told), lasting.second_row_holds(state, [USER], top))
                told = explained.first_row(state, USER, top) + limits
                self.assertEqual(not any(line.startswith("fails") for line in told), not rules.failures(state, USER, top))

    def test_the_second_row_is_told_where_a_guard_fails(self):
        for owned, values, told in (("", {}, False), ("p", {}, True), ("", {DEPTH: 0}, True)):
            rows = [("/", owned, [], {}), ("/s", "", [], values), ("/s/a", "", [], {})]
            self.assertEqual(bool(lines_of(rows, "/s", "stays")), told)

    def test_an_entry_is_told_by_its_class(self):
        for uid, gid, mode, told in ((1000, 5, 0o020, "fails 1000:5 020 owner"), (0, 5, 0o664, "fails 0:5 664 group"),
                                     (0, 5, 0o646, "holds 0:5 646"), (0, 6, 0o007, "fails 0:6 007 others")):
            line = explained.entry_line(USER, "parent-dir", (), "dir", rules.Entry(uid, gid, mode))
            self.assertEqual(line, told[:5] + " parent-dir / dir" + told[5:])

    def test_a_subtree_is_spared_or_upheld_or_removed(self):
        lines = ["holds stays /s spared", "holds stays /s upheld", "fails stays /s removed"]
        for owned, below, line in zip("pdd", ["", "", "d"], lines):
            rows = [("/", owned, [], {}), ("/s", below, [], {}), ("/s/a", "", [], {})]
            self.assertEqual(lines_of(rows, "/s", "stays"), [line])

    def test_controllers_of_a_parent_that_may_go(self):
        rows = [("/", "d", ["cpu"], {}), ("/a", "d", ["cpu"], {}), ("/a/s", "", [], {})]
        self.assertEqual(lines_of(rows, "/a/s", "control"), [
            "fails control /a cpu turned", "holds control /a memory off", "holds control /a pids off"])

    def test_a_controller_is_off_by_what_is_above(self):
        for owned, word, by in (("", "holds", "off"), ("c", "fails", "turned")):
            rows = [("/", owned, [], {}), ("/a", "c", [], {}), ("/a/s", "", [], {})]
            self.assertEqual(lines_of(rows, "/a/s", "control"), [
                f"{word} control /a cpu {by}", f"{word} control /a memory {by}", "holds control /a pids off"])

    def test_moves_over_the_edge(self):
        rows = [("/", "", ["memory"], {}), ("/a", "p", ["memory"], {DESCENDANTS: 3}), ("/a/s", "d", [], {}), ("/a/s/i", "p", [], {}),
                ("/a/s.x", "pd", [], {}), ("/a/s.x/y", "", [], {}), ("/b", "pd", [], {})]
        self.assertEqual(lines_of(rows, "/a/s", "shut"), [
            "holds shut /a enabling spared", "fails shut /a/s spared grows", "fails shut /a/s/i takes spared",
            "fails shut /a/s.x takes grows", "holds shut /a/s.x/y spared spared"])
        # what is below /a/s and below /a/s.x may go
        rows[1] = ("/a", "p", ["memory"], {DESCENDANTS: 2})
        self.assertEqual(lines_of(rows, "/a/s", "shut")[1], "holds shut /a/s spared full")
        rows[1] = ("/a", "", ["memory"], {})
        self.assertEqual(lines_of(rows[:1] + rows[1:2] + [("/a/s", "", [], {})], "/a/s", "shut"), [])

    def test_counts_and_limits(self):
        rows = [("/", "", [], {}), ("/s", "", [], {DESCENDANTS: 2, DEPTH: 1}), ("/s/a", "", [], {}), ("/s/a/b", "", [], {})]
        self.assertEqual(lines_of(rows, "/s", "already-over"), [
            "holds already-over /s cgroup.max.descendants 2 2", "fails already-over /s cgroup.max.depth 2 1"])
        self.assertEqual(lines_of(rows, "/s/a/b", "already-over")[1], "holds already-over /s/a/b cgroup.max.depth 0 max")


class ReportTest(unittest.TestCase):
    def test_pairs_come_by_user_and_then_subtree(self):
        words = "explain --uid 1001 --uid 01000:05 --uid 1000:5 --subtree /a/z --subtree /a/s --subtree /a/z"
        lines, status, fault = commands.respond(words.split(" "), TOGETHER.encode(), {})
        self.assertEqual([line for line in lines if line.startswith("pair")], [
            "pair 1001 /a/z", "pair 1001 /a/s", "pair 1000:5 /a/z", "pair 1000:5 /a/s"])
        self.assertEqual((lines[-1], status, fault), ("contained", 0, ""))

    def test_the_last_line_is_the_first_that_settle_may_print(self):
        tree = example("delegation-parent-directory.toml")
        words = "explain --uid 1000 --subtree /c0"
        told = commands.respond(words.split(" "), tree, {})[0][0]
        state = commands.tree_of(tree)
        lines = ["pair 1000 /c0", *explained.lines_of(state, (1000, ()), ("c0",))]
        for end, status, right in (("escapes", 1, True), ("unsettled parent-dir /", 2, True), ("escapes", 2, False),
                                   ("contained", 0, False), ("unsettled parent-dir /c0", 2, False), ("unsettled common-ancestor /", 2, False)):
            self.assertEqual(told.is_right([*lines, end], status), right, end)
        for wrong in (lines, [*lines, "escapes", "rmdir /c0"], [*lines[1:], "escapes"], [*lines[:-1], "escapes"], []):
            self.assertFalse(told.is_right(wrong, 1))

    def test_users_are_named_as_for_an_audit(self):
        for words in ("--uid 1000 --gid 5 --subtree /c0", "--uid +5 --subtree /c0", "--uid 1000", "--subtree /c0",
                      "--uid 1000 --subtree /c0 --settle", "--uid 1000 --subtree /c0 --all"):
            lines, status, fault = commands.respond(["explain", *words.split(" ")], example("delegation.toml"), {})
            self.assertEqual((lines, status, fault), ([], 3, "fault: usage"))


if __name__ == "__main__":
    unittest.main()
