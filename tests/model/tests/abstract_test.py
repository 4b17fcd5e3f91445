"""The abstract trees of tools/bench/settled: a state of one, and one of a state."""
import os
import random
import sys
import unittest

TOP = os.path.dirname(os.path.dirname(os.path.dirname(os.path.dirname(os.path.abspath(__file__)))))
sys.path[:0] = [os.path.join(TOP, "tools", "bench"), os.path.join(TOP, "tests", "model")]
import abstract
from second import rules, texts

USER = (1000, ())


class AbstractTest(unittest.TestCase):
    def trees(self):
        return [abstract.random_tree(random.Random(f"{kind} {number}"), kind) for kind in abstract.KINDS for number in range(40)]

    def test_a_state_of_a_tree_is_read_as_the_tree(self):
        for tree in self.trees():
            state = abstract.state_of(tree, USER)
            top = next(path for path in state.cgroups if path and path[-1] == f"c{tree.top}")
            found = abstract.of_state(state, USER, top)
            # rows come in the order of their paths there
            self.assertEqual(sorted(map(str, found.rows), key=len), sorted(map(str, self.renumbered(tree, state).rows), key=len))
            self.assertEqual((found.controllers, len(found.others), len(found.own)), (tree.controllers, len(tree.others), len(tree.own)))

    def renumbered(self, tree, state):
        """The tree with its rows in the order of their paths."""
        paths = list(state.cgroups)
        order = sorted(range(len(paths)), key=lambda number: paths[number])
        place = {number: at for at, number in enumerate(order)}
        rows = [abstract.Row(place.get(row.parent, -1), row.reached, row.enabled, row.descendants, row.depth) for row in tree.rows]
        return abstract.Abstract(tree.controllers, [rows[number] for number in order], tree.others, tree.own, place[tree.top])

    def test_a_text_has_the_whole_state(self):
        for tree in self.trees():
            state = abstract.state_of(tree, USER)
            self.assertEqual(texts.tree_of(abstract.text_of(state)), state)

    def test_what_a_user_raises_is_no_limit_but_at_the_subtree(self):
        rows = [abstract.Row(-1, "", 0), abstract.Row(0, "", 0, 3, 2), abstract.Row(1, "", 0, 3, 2)]
        state = abstract.state_of(abstract.Abstract(0, rows, [], [], 2), USER)
        for path in (("c1",), ("c1", "c2")):
            state.cgroups[path].entries[rules.DEPTH] = rules.replace(state.cgroups[path].entries[rules.DEPTH], uid=1000)
        found = abstract.of_state(state, USER, ("c1", "c2")).rows
        self.assertEqual([(row.descendants, row.depth) for row in found], [(-1, -1), (3, -1), (3, 2)])

    def test_random_trees_are_well_formed(self):
        for tree in self.trees():
            state = abstract.state_of(tree, USER)
            for path, cgroup in state.cgroups.items():
                self.assertLessEqual(cgroup.enabled, rules.available(state, path))
            for _, place in state.live.values():
                self.assertTrue(not place or not state.cgroups[place].enabled)


if __name__ == "__main__":
    unittest.main()
