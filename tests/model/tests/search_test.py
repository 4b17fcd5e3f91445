"""The second row of guards on trees by hand, and the search on the ones that it breaks."""
import importlib.machinery
import importlib.util
import itertools
import os
import random
import sys
import unittest

FOLDER = os.path.dirname(os.path.dirname(os.path.abspath(__file__)))
sys.path.insert(0, FOLDER)
from second import lasting, rules
from second.rules import CONTROL, DEPTH, DESCENDANTS, DIR, PROCS, Cgroup, Entry, State
from trials import small, row_mutants

ONE, OTHER = small.USERS
ALL_LETTERS = {"d": DIR, "p": PROCS, "c": CONTROL}


def load_search():
    loader = importlib.machinery.SourceFileLoader("search", os.path.join(FOLDER, "search"))
    module = importlib.util.module_from_spec(importlib.util.spec_from_loader("search", loader))
    loader.exec_module(module)
    return module


search = load_search()


def state_of(rows, live=()):
    """From rows of a path's text, what the first user owns (d, p, c; capitals: the second), what is enabled, and limits."""
    controllers, cgroups = frozenset(["cpu", "memory"]), {}
    for text, owned, enabled, values in rows:
        path = rules.path_of(text)
        entries = {}
        for letter, name in ALL_LETTERS.items():
            uid = ONE[0] if letter in owned else OTHER[0] if letter.upper() in owned else 0
            entries[name] = Entry(uid, 0, rules.DIR_MODE if name == DIR else rules.FILE_MODE)
        cgroups[path] = Cgroup(entries, frozenset(enabled))
        for file in rules.files_at(State(controllers, cgroups, {}, frozenset()), path):
            entries[file] = Entry(value=values.get(file, rules.default_of(file)))
    return State(controllers, cgroups, dict(live), frozenset(dict(live)))


def found(state, top, users=(ONE,)):
    """Whether the second row holds, and whether the search breaks the subtree."""
    top = rules.path_of(top)
    return lasting.second_row_holds(state, list(users), top), search.find_break(state, list(users), top, 500)[0] is not None


class RowTest(unittest.TestCase):
    def test_guards_that_hold_are_a_case(self):
        self.assertEqual(found(state_of([("/", "", [], {}), ("/s", "dpc", [], {})], {7: (1000, ())}), "/s"), (True, False))

    def test_a_hold_is_judged_by_memory_alone(self):
        for controller, holds in (("memory", True), ("cpu", False)):
            on = [controller]
            rows = [("/", "", on, {}), ("/a", "p", on, {}), ("/a/y", "p", on, {}), ("/a/s", "", [], {})]
            state = state_of(rows, {10: (0, ())})
            # the model bars processes by each controller, a kernel by memory alone
            self.assertEqual(found(state, "/a/s"), (holds, False))

    def test_a_hold_at_the_common_ancestor_and_inside(self):
        rows = [("/", "p", [], {}), ("/s", "p", [], {})]
        self.assertEqual(found(state_of(rows, {7: (0, ())}), "/s"), (False, True))

    def test_an_inner_directory_keeps_the_subtree(self):
        for owned, answer in (("", (True, False)), ("d", (False, True))):
            rows = [("/", "d", [], {}), ("/s", owned, [], {}), ("/s/a", "", [], {})]
            self.assertEqual(found(state_of(rows), "/s"), answer)

    def test_a_controller_stays_on_by_a_child(self):
        for owned, answer in (("", (True, False)), ("c", (False, True))):
            rows = [("/", "", ["memory"], {}), ("/a", "c", ["memory"], {}), ("/a/s", "", [], {}), ("/a/b", owned, ["memory"], {})]
            state = state_of(rows)
            state = State(frozenset(["memory"]), state.cgroups, state.live, state.used)
            self.assertEqual(found(state, "/a/s"), answer)

    def test_a_controller_stays_off_above(self):
        for owned, answer in (("", (True, False)), ("c", (False, True))):
            rows = [("/", owned, [], {}), ("/a", "c", [], {}), ("/a/s", "", [], {})]
            self.assertEqual(found(state_of(rows), "/a/s"), answer)

    def test_limits_leave_no_room(self):
        for values, answer in (({DESCENDANTS: 2}, (True, False)), ({DEPTH: 1}, (True, False)), ({DESCENDANTS: 3}, (False, True))):
            rows = [("/", "", ["memory"], {}), ("/a", "p", ["memory"], values), ("/a/b", "", [], {}), ("/a/s", "d", [], {})]
            self.assertEqual(found(state_of(rows, {7: (0, ("a", "b"))}), "/a/s"), answer)

    def test_room_is_made_by_removing(self):
        rows = [("/", "", ["memory"], {}), ("/a", "p", ["memory"], {DESCENDANTS: 3}), ("/a/b", "", [], {}), ("/a/s", "d", [], {}),
                ("/a/s/q", "", [], {})]
        state = state_of(rows, {7: (0, ("a", "b"))})
        self.assertEqual(found(state, "/a/s"), (False, True))
        self.assertTrue(row_mutants.holds(row_mutants.RARE[0], state, [ONE], ("a", "s")))

    def test_a_limit_is_raised(self):
        rows = [("/", "", ["memory"], {}), ("/a", "p", ["memory"], {DESCENDANTS: 2}), ("/a/b", "", [], {}), ("/a/s", "d", [], {})]
        state = state_of(rows, {7: (0, ("a", "b"))})
        state.cgroups[("a",)].entries[DESCENDANTS] = Entry(ONE[0], value=2)
        self.assertEqual(found(state, "/a/s"), (False, True))
        self.assertTrue(row_mutants.holds(row_mutants.RARE[1], state, [ONE], ("a", "s")))

    def test_two_who_are_each_contained_alone_may_break_it_together(self):
        rows = [("/", "P", [], {}), ("/a", "p", [], {}), ("/a/s", "p", [], {}), ("/a/z", "P", [], {}), ("/b", "", [], {})]
        state = state_of(rows, {10: (0, ("b",))})
        self.assertEqual(found(state, "/a/s", [ONE, OTHER]), (False, True))


class SearchTest(unittest.TestCase):
    def test_random_states_are_well_formed(self):
        for number, draw in itertools.product(range(200), (small.random_state, small.state_about_plans)):
            state = draw(random.Random(number))
            for path, cgroup in state.cgroups.items():
                self.assertLessEqual(cgroup.enabled, rules.available(state, path))
                self.assertEqual(list(cgroup.entries), [*rules.STANDING, *rules.files_at(state, path)])
            for _, place in state.live.values():
                self.assertTrue(not place or not state.cgroups[place].enabled)

    def test_a_row_that_is_turned_is_told(self):
        state = state_of([("/", "P", [], {}), ("/s", "", [], {})], {7: (0, ())})
        self.assertFalse(lasting.second_row_holds(state, [ONE, OTHER], ("s",)))
        self.assertTrue(row_mutants.holds("the first user's reach for all of them", state, [ONE, OTHER], ("s",)))


if __name__ == "__main__":
    unittest.main()
