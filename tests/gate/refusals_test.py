"""Tests of what gate/refusals leaves out of the definitions of crates/machine, and of its record."""
import unittest

import left_out
from checkout import TOP
from edited import text_of
from left_out import LeftOut

SAID = """rt: chose --jobs 2 for machine
./proofs/Untouched.antt:101:7: error: `rmdir-other`: expected type `A`, but this has type `B`
./proofs/Untouched.antt:120:7: error: 2 declarations that depend on `rmdir-other`, which was not admitted, were not checked: x, y
./proofs/Edges.antt:12:7: error: `edge-move`: `Some` is not in scope
fn machine::one_user: not proved
"""


class LeftOuts(unittest.TestCase):
    def test_each_stands_once_in_the_definitions(self):
        whole = text_of(f"{TOP}/crates/{left_out.CRATE}/{left_out.FILE}")
        for it in left_out.ALL:
            self.assertNotEqual(left_out.without(whole, it), whole, it.name)
        self.assertEqual(len({it.name for it in left_out.ALL}), len(left_out.ALL))
        with self.assertRaisesRegex(ValueError, "nothing: `of old` stands in specs/Machines.antt 0 times"):
            left_out.without(whole, LeftOut("nothing", "of old", "", set()))

    def test_what_a_check_refused(self):
        self.assertEqual(left_out.refused_in(SAID), ["edge-move", "rmdir-other"])
        self.assertEqual(left_out.refused_in("./proofs/Edges.antt:1:2: error: no module\n"), ["no module"])
        self.assertEqual(left_out.refused_in("fn machine::one_user: proved\n"), [])

    def test_what_is_wrong(self):
        it = LeftOut("rmdir", "", "", {"rmdir-above", "rmdir-other"})
        self.assertIsNone(left_out.fault_of(it, ["rmdir-other"]))
        self.assertEqual(left_out.fault_of(it, []), "rmdir: what is left out is refused by no proof of its own")
        self.assertEqual(left_out.fault_of(it, ["edge-move", "rmdir-other"]), "rmdir: refused by edge-move, which isn't of it")


class Record(unittest.TestCase):
    def test_is_read_as_it_is_written(self):
        told = {"move": ["edge-move"], "guard_dir": ["closed-same", "rmdir-other"]}
        self.assertEqual(left_out.read(left_out.written("12ab", "kit logic 1", told)), ("12ab", told))

    def test_is_of_these_sources_and_of_all_that_is_left_out(self):
        total, told = left_out.read(text_of(f"{TOP}/{left_out.RECORD}"))
        self.assertEqual(total, left_out.sum_of_sources(TOP), "the crate has changed since: run gate/refusals")
        self.assertEqual([*told], [it.name for it in left_out.ALL])
        for it in left_out.ALL:
            self.assertIsNone(left_out.fault_of(it, told[it.name]))


if __name__ == "__main__":
    unittest.main()
