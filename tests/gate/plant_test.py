"""Tests of how gate/plant reads functions and what `rt plant` says of them, and of what it finds missing."""
import collections
import os
import shutil
import subprocess
import tempfile
import unittest

import planted
from checkout import TOP, write
from edited import Crate
from planted import Now, Planted, Row, Told

DOOR = """//! A door.

pub struct Door {
    pub times: u32,
}

pub trait Opens {
    fn open(&mut self) -> bool
        ensures { result ≡ true };

    fn is_open(&self) -> bool {
        true
    }
}

trait Shuts {
    fn shut(&mut self) -> bool {
        true
    }
}

impl Door {
    /// A door.
    pub fn new(times: u32) -> Door
        ensures { result.times ≡ times }
    {
        Door { times }
    }

    fn inner(&self) -> u32 {
        self.times
    }

    pub(crate) fn outer(&self) -> u32 {
        self.times
    }
}

impl<T: Drop> From<Option<T>> for Door {
    fn from(_it: Option<T>) -> Door {
        Door::new(0)
    }
}

pub fn law()
    ensures { (n : ℕ) → n ≡ n }
{}
"""
PUBLIC = ["toy::door::<Door as From<Option<T>>>::from", "toy::door::Door::new", "toy::door::Opens::is_open"]

# of rattle-kit-13f
SAID = """\
proves      src/door.rt:24 Door::new: { Door { times: 0 } }
refused     src/door.rt:24 Door::new: { Door { times: 1 } }  (returns, it is not proved that { result })
not-source  src/door.rt:24 Door::new: { match Self::new(times) { Some(x) => Some(0), None => None } }
not-judged  src/door.rt:24 Door::new: { Self::new(times) }  (the unchanged call did not prove: the check gave no reason)
untested    src/door.rt:40 <Door as From<Option<T>>>::from()
same        src/door.rt:40 <Door as From<Option<T>>>::from: { }
untested    src/door.rt:45 door::law()
note: a body that only returns the out-of-memory error or fmt::Error is not planted: test that a call can succeed
plants crate=toy planted-in=3 untested=2 no-ensures=0 proves=1 same=1 refused=1 elsewhere=0 not-judged=1 not-source=1 not-run=0
"""

TOOL = """#!/bin/sh
case "$1" in
    version) echo 'some-kit logic 1';;
    doc) echo /none/START-HERE.md;;
    check) [ -z "$UNPROVED" ] || { echo 'fn toy::f: not proved'; exit 1; };;
    plant) test "$PWD" != "$TOY" && test -f ../../HANDLES && cat "$SAID";;
esac
"""


LOOKED_AT = "plant: {} of {} public functions are looked at, at these sources: {} by an edit, {} by plants, {} by a reason"
LEFT = ("plant: {} of {} public functions aren't, at these sources: {} with the limits of tactics, {} with plants of other sources,"
        " {} with nothing")


def told(bodies=(), over="1", **counts):
    return Told(over, collections.Counter({kind.replace("_", "-"): count for kind, count in counts.items()}), list(bodies))


class FunctionsTest(unittest.TestCase):
    def setUp(self):
        folder = tempfile.TemporaryDirectory()
        self.addCleanup(folder.cleanup)
        self.top = folder.name
        with open(f"{self.top}/crates.txt", "w", encoding="ascii") as out:
            out.write("toy: arrayvec\nlaws:\ntest_toy: toy\ntrials: toy\n")
        for name, text in {"toy": DOOR, "laws": DOOR[DOOR.index("pub fn law") :], "test_toy": DOOR, "trials": DOOR}.items():
            self.write(f"{name}/src/door.rt", text)

    def write(self, path, text):
        write(f"{self.top}/crates/{path}", "")
        with open(f"{self.top}/crates/{path}", "w", encoding="utf-8") as out:
            out.write(text)

    def test_public_functions_that_have_a_body_count(self):
        functions = planted.read_functions(Crate(f"{self.top}/crates/toy", set()))
        self.assertEqual(sorted(it["path"] for it in functions if it["counts"]), PUBLIC)

    def test_crates_of_tests_and_of_laws_alone_have_none(self):
        self.assertEqual([*planted.now_of(self.top)], ["toy"])

    def test_functions_that_edits_change(self):
        self.write("toy/must-fail/a.edit", "file: src/door.rt\nold:         Door { times }\nnew:         Door { times: 0 }\n")
        self.write("toy/must-fail/gone.edit", "file: src/door.rt\nold: nothing\nnew: else\n")
        self.assertEqual(planted.now_of(self.top)["toy"].edited, {"toy::door::Door::new"})

    def test_what_is_said_of_each_function(self):
        functions = planted.read_functions(Crate(f"{self.top}/crates/toy", set()))
        new, turned, is_open = "toy::door::Door::new", "toy::door::<Door as From<Option<T>>>::from", "toy::door::Opens::is_open"
        found = planted.told_of(functions, planted.rows_of(SAID), {new: "1", turned: "2", is_open: "3"})
        self.assertEqual(found, {
            new: told(["Door { times: 0 }"], proves=1, refused=1, not_judged=1, not_source=1),
            turned: told(over="2", same=1, untested=1),
            is_open: told(over="3"),
        })
        self.assertEqual([*planted.told_of(functions, planted.rows_of(SAID), {turned: "2"})], [turned])

    def test_a_row_of_no_function_is_an_error(self):
        with self.assertRaisesRegex(ValueError, "src/door.rt:23, where there is none"):
            planted.told_of(planted.read_functions(Crate(f"{self.top}/crates/toy", set())), [Row("same", "src/door.rt", 23, "0")], {})


    def call(self, *words, **environment):
        """Runs gate/plant on these crates, with a toolchain that only plays its part."""
        shutil.copytree(f"{TOP}/gate", f"{self.top}/gate", ignore=lambda _, names: {it for it in names if it.startswith("plant_")})
        write(f"{self.top}/tools/believed.py", planted.text_of(f"{TOP}/tools/believed.py"))
        for path, text in {"HANDLES": "", "tools/rt": TOOL, "said": SAID, "gate/plant_reasons.txt": "", "gate/plants.txt": ""}.items():
            self.write(f"../{path}", text)
        os.chmod(f"{self.top}/tools/rt", 0o755)
        self.environment = {"PATH": f"{self.top}/tools:{os.environ['PATH']}", "TOY": f"{self.top}/crates/toy", "SAID": f"{self.top}/said"}
        self.environment = {**os.environ, **self.environment, **environment}
        return subprocess.run([f"{self.top}/gate/plant", *words], env=self.environment, text=True, capture_output=True)

    def test_a_run_writes_the_record_and_compares(self):
        ended = self.call("--said", self.top, "toy")
        self.assertEqual((ended.stdout.splitlines(), ended.returncode), ([
            "plant: toy is recorded, 3 functions after 0 minutes",
            "plant: FAILED: toy::door::Opens::is_open has neither an edit nor a plant that was judged, and no reason",
            "plant: FAILED: toy::door::Door::new can be { Door { times: 0 } }, which is not accepted",
            LOOKED_AT.format(2, 3, 0, 2, 0), LEFT.format(1, 3, 0, 0, 1),
            "2 passed, 2 failed",
        ], 1))
        record = planted.read(planted.text_of(f"{self.top}/gate/plants.txt"))
        now = planted.now_of(self.top)["toy"]
        self.assertEqual((record["toy"].kit, {path: it.sum for path, it in record["toy"].functions.items()}), ("some-kit logic 1", now.sums))
        self.assertEqual(planted.text_of(f"{self.top}/toy.txt"), SAID)
        # what is recorded of these sources isn't tried again, and a function that changed is, alone
        again = subprocess.run([f"{self.top}/gate/plant"], text=True, capture_output=True, env=self.environment)
        self.assertNotIn("is recorded", again.stdout)
        self.write("toy/src/door.rt", DOOR.replace("ensures { result.times ≡ times }", "ensures { result.times ≤ times }"))
        again = subprocess.run([f"{self.top}/gate/plant"], text=True, capture_output=True, env=self.environment)
        self.assertIn("plant: toy is recorded, 2 functions after 0 minutes", again.stdout)

    def test_a_crate_that_is_not_proved_is_not_recorded(self):
        ended = self.call(UNPROVED="1")
        self.assertIn("plant: FAILED: toy: rt check ended with status 1: fn toy::f: not proved", ended.stdout)
        self.assertEqual((ended.stdout.splitlines()[-1], ended.returncode), ("0 passed, 1 failed", 1))
        self.assertEqual(planted.text_of(f"{self.top}/gate/plants.txt"), "")

    def test_comparing_plants_nothing(self):
        ended = self.call("--compare", UNPROVED="1")
        self.assertEqual((ended.stdout.splitlines(), ended.returncode),
                         ([LOOKED_AT.format(0, 3, 0, 0, 0), LEFT.format(3, 3, 0, 0, 3), "0 passed, 0 failed"], 0))

    def test_a_crate_that_is_not_there(self):
        self.assertEqual(self.call("laws").returncode, 2)


class SaidTest(unittest.TestCase):
    def test_bodies(self):
        bodies = [it.body for it in planted.rows_of(SAID)]
        self.assertEqual(bodies, ["Door { times: 0 }", "Door { times: 1 }",
                                  "match Self::new(times) { Some(x) => Some(0), None => None }", "Self::new(times)", None, "", None])

    def test_an_end_without_a_count(self):
        with self.assertRaisesRegex(ValueError, "ended without its count"):
            planted.rows_of(SAID.rpartition("plants ")[0])

    def test_rows_that_were_not_read(self):
        with self.assertRaisesRegex(ValueError, "counts otherwise"):
            planted.rows_of(SAID.replace("same        src", "alike       src"))

    def test_plants_that_were_not_run(self):
        with self.assertRaisesRegex(ValueError, "1 plants weren't run"):
            planted.rows_of(SAID.replace("not-source  src", "not-run     src").replace("not-source=1 not-run=0", "not-source=0 not-run=1"))


class RecordTest(unittest.TestCase):
    def test_what_is_written_is_read(self):
        functions = {"toy::new": told(["Err(NoMemory)", "match x { A => { 0 } }"], proves=2, not_source=1), "toy::<A as B<C>>::f": told(over="2f"),
                     "toy::get": told(untested=1, refused=3)}
        record = {"toy": Planted("some-kit logic 1", functions), "low": Planted("some-kit logic 1", {})}
        self.assertEqual(planted.read(planted.written(record)), record)

    def test_its_text(self):
        record = {"toy": Planted("kit 1", {"toy::f": told(["0"], over="0a", proves=1, refused=2), "toy::e": told()})}
        self.assertEqual(planted.written(record),
                         "toy: by kit 1\n  toy::e: over 1: nothing\n  toy::f: over 0a: proves 1, refused 2\n    { 0 }\n")

    def test_a_line_of_none(self):
        for text in ("toy\n", "  toy::f: over 1: refused 1\n", "toy: by kit 1\n    { 0 }\n", "toy: by kit 1\n  toy::f: refused 1\n"):
            with self.subTest(text), self.assertRaisesRegex(ValueError, "none of a record"):
                planted.read(text)


class ComparisonTest(unittest.TestCase):
    def faults(self, functions, reasons="", edited=(), paths=("toy::f",)):
        now = {"toy": Now({it: "1" for it in paths}, {*edited})}
        return planted.faults_of(now, {"toy": Planted("kit 1", functions)}, planted.reasons_of(reasons))

    def test_a_plant_that_was_judged_or_an_edit_or_a_reason_will_do(self):
        for kind in ("refused", "same"):
            self.assertEqual(self.faults({"toy::f": told(**{kind: 1})}), (1, []))
        self.assertEqual(self.faults({"toy::f": told(not_source=1)}, edited=["toy::f"]), (1, []))
        self.assertEqual(self.faults({"toy::f": told(elsewhere=1, untested=1)}, "toy::f: it writes for people\n"), (2, []))

    def test_a_function_that_nothing_is_said_of(self):
        self.assertEqual(self.faults({"toy::f": told(elsewhere=1, not_judged=2)}),
                         (1, ["toy::f has neither an edit nor a plant that was judged, and no reason"]))
        self.assertEqual(self.faults({}), (0, []))

    def test_a_body_that_proves(self):
        proving = {"toy::f": told(["Err(NoMemory)", "0"], proves=2)}
        said = "toy::f can be { %s }, which is not accepted"
        self.assertEqual(self.faults(proving), (3, [said % "Err(NoMemory)", said % "0"]))
        self.assertEqual(self.faults(proving, "toy::* { Err(NoMemory) }: memory may lack\n"), (4, [said % "0"]))
        self.assertEqual(self.faults(proving, "toy::f { 0 }: it may\n* { Err(NoMemory) }: memory may lack\n"), (5, []))

    def test_reasons_for_nothing(self):
        refused = {"toy::f": told(refused=1)}
        self.assertEqual(self.faults(refused, "toy::g: none\n")[1], ["toy::g has a reason, and is no public function"])
        self.assertEqual(self.faults(refused, "toy::f: none\n")[1],
                         ["toy::f has a reason, and also an edit or a plant that was judged"])
        self.assertEqual(self.faults({"toy::f": told()}, "toy::f: none\n", edited=["toy::f"])[1],
                         ["toy::f has a reason, and also an edit or a plant that was judged"])
        self.assertEqual(self.faults(refused, "toy::f { 0 }: none\n")[1], ["toy::f { 0 } is accepted, and no such plant proves"])

    def test_a_plant_of_other_sources_shows_nothing_and_fails_nothing(self):
        functions = {"toy::f": told(["0"], over="2", proves=1), "toy::h": told(refused=1), "toy::i": told(over="2", not_judged=1)}
        self.assertEqual(self.faults(functions, paths=["toy::f", "toy::g", "toy::h", "toy::i"]), (1, []))
        now = {"toy": Now({"toy::f": "1", "toy::g": "1", "toy::h": "1"}, {"toy::g"}), "low": Now({"low::f": "1"}, set())}
        record = {"toy": Planted("kit 1", functions), "low": Planted("kit 1", {"low::f": told(not_judged=1)})}
        self.assertEqual(planted.older(now, record), {"toy": ["toy::f"]})
        self.assertEqual(planted.older(now, {}), {"toy": ["toy::f", "toy::h"], "low": ["low::f"]})

    def test_how_functions_are_looked_at(self):
        now = {"toy": Now({f"toy::{it}": "1" for it in "abcdefg"}, {"toy::a"})}
        functions = {"toy::a": told(over="2", refused=1), "toy::b": told(same=1), "toy::c": told(not_judged=1), "toy::d": told(not_judged=1),
                     "toy::e": told(over="2", refused=1), "toy::f": told(over="2", not_source=1)}
        reasons = planted.reasons_of("toy::c: a device says it\ntoy::d: an equation; the tactics meet a limit at each plant\n")
        ways = planted.ways_of(now, {"toy": Planted("kit 1", functions)}, reasons)
        self.assertEqual(ways, dict(zip(now["toy"].sums, ("an edit", "plants", "a reason", "the limits of tactics", "plants of other sources",
                                                          "nothing", "nothing"))))
        self.assertEqual({*ways.values()}, {*planted.LOOKED_AT, *planted.LEFT})

    def test_reasons_are_read(self):
        read = planted.reasons_of("# a comment\n\na::<B as C<D>>::f { match x { A => 0 } }: so: it is\na::f: it { may }: be\n")
        self.assertEqual([tuple(it) for it in read], [("a::<B as C<D>>::f", "match x { A => 0 }", "so: it is"),
                                                      ("a::f", None, "it { may }: be")])
        with self.assertRaisesRegex(ValueError, "a line that is not"):
            planted.reasons_of("a::f\n")


if __name__ == "__main__":
    unittest.main()
