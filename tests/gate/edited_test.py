"""Tests of how the must-fail edits of a crate are put into checks."""
import json
import tempfile
import unittest

from checkout import write
from edited import Crate, crates_of, groups_of


class GroupsTest(unittest.TestCase):
    def groups(self, edits):
        """The groups of a crate that has so many edits, each of a function of its own."""
        folder = tempfile.TemporaryDirectory()
        self.addCleanup(folder.cleanup)
        top, numbers = f"{folder.name}/crate", range(edits)
        write(f"{top}/src/lib.rt", "\n".join(f"pub fn f{it}() -> u32 {{\n    {it} + 1000\n}}\n" for it in numbers))
        for it in numbers:
            write(f"{top}/must-fail/e{it}.edit", f"file: src/lib.rt\nold:     {it} + 1000\nnew:     {it}\n")
        write(f"{folder.name}/rlib/toolchain/mir.json", json.dumps([[f"crate::f{it}", {}] for it in numbers]))
        crate = Crate(top, set())
        crate.read_edits()
        crate.read_functions(f"{folder.name}/rlib")
        self.assertEqual([it.verdict for it in crate.edits], [None] * edits)
        return groups_of(crate.edits)

    def test_each_edit_is_in_one_group(self):
        names = [it.name for group in self.groups(40) for it in group]
        self.assertEqual(sorted(names), sorted(f"crate/e{it}" for it in range(40)))

    def test_groups_are_as_few_and_as_even_as_can_be(self):
        self.assertEqual([len(it) for it in self.groups(40)], [20, 20])
        self.assertEqual([len(it) for it in self.groups(32)], [32])

    def test_no_edits(self):
        self.assertEqual(groups_of([]), [])


class CratesTest(unittest.TestCase):
    def test_nothing_is_tried_over_a_static_library(self):
        """Nor over a program: neither leaves a list of its functions."""
        with tempfile.TemporaryDirectory() as top:
            write(f"{top}/crates.txt", "low:\nexported staticlib: low\nprogram: low\n")
            for path in ("low/src/lib.rt", "exported/src/lib.rt", "program/src/main.rt"):
                write(f"{top}/crates/{path}", "pub fn one() -> u32 {\n    1\n}\n")
                write(f"{top}/crates/{path.partition('/')[0]}/must-fail/two.edit", f"file: {path.partition('/')[2]}\nold:     1\nnew:     2\n")
            found = crates_of(top, [])
            leaves = {name: (it.is_library, it.leaves_library) for name, it in found.items()}
            self.assertEqual(leaves, {"low": (True, True), "exported": (True, False), "program": (False, False)})
            found["exported"].read_functions(None)
            [two] = found["exported"].edits
            self.assertEqual(([it["name"] for it in two.functions()], two.part(), two.is_in_bodies()), (["one"], "one", False))


if __name__ == "__main__":
    unittest.main()
