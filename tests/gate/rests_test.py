"""Tests of what the results of a wrong body rest on."""
import tempfile
import unittest

import planted
from checkout import write
from edited import Crate
from rests import Rests

LOW = """//! Numbers.
ghost use Rattle.std.specs.Prelude.{◌≡◌};
ghost use Rattle.low.specs.Low.{more};

/// One more.
pub fn next(number: u32) -> u32
    ensures { result ≡ more number }
{
    number + 1
}

/// None more.
pub fn same(number: u32) -> u32
    ensures { result ≡ number }
{
    number
}
"""
TOY = """//! Doors.
ghost use Rattle.std.specs.Prelude.{◌≡◌};
ghost use Rattle.toy.specs.Toy.{is_two};

use low::next;

/// Two.
pub fn two() -> u32
    ensures { is_two result }
{
    next(next(0))
}
"""
SPECS = {"low/specs/Low.antt": "abbrev pub more : ℕ → ℕ\nmore n = n + 1\n\nabbrev pub less : ℕ → ℕ\nless n = n - 1\n",
         "toy/specs/Toy.antt": "use Rattle.low.specs.Low.{more}\n\nabbrev pub is_two : ℕ → Type 0\nis_two n = n ≡ more (one)\n\n"
                               "abbrev pub one : ℕ\none = 1\n\nabbrev pub three : ℕ\nthree = 3\n"}


class RestsTest(unittest.TestCase):
    def setUp(self):
        folder = tempfile.TemporaryDirectory()
        self.addCleanup(folder.cleanup)
        self.top = folder.name
        self.texts = {"low/src/lib.rt": LOW, "toy/src/lib.rt": TOY, **SPECS}
        write(f"{self.top}/crates.txt", "low:\ntoy: low\nother:\n")
        write(f"{self.top}/crates/other/src/lib.rt", LOW.replace("more", "less"))

    def sum(self, file="", old="", new=""):
        """The sum of `two` where a text stands in the place of another."""
        for path, text in self.texts.items():
            write(f"{self.top}/crates/{path}", text.replace(old, new) if path == file else text)
        functions = {it: planted.read_functions(Crate(f"{self.top}/crates/{it}", set())) for it in ("low", "toy", "other")}
        [two] = functions["toy"]
        return Rests(self.top, functions).sum_of("toy", two)

    def test_it_rests_on_what_is_called_and_stated(self):
        before = self.sum()
        self.assertRegex(before, "^[0-9a-f]{16}$")
        for file, old, new in (("toy/src/lib.rt", "next(next(0))", "next(1)"), ("toy/src/lib.rt", "is_two result", "result ≡ 2"),
                               ("low/src/lib.rt", "result ≡ more number", "result ≡ number"), ("low/specs/Low.antt", "n + 1", "n + 2"),
                               ("toy/specs/Toy.antt", "more (one)", "more (more one)"), ("toy/specs/Toy.antt", "one = 1", "one = 2")):
            with self.subTest(old):
                self.assertNotEqual(self.sum(file, old, new), before)

    def test_it_rests_on_what_is_handed_on(self):
        self.texts["toy/src/lib.rt"] = TOY.replace("next(next(0))", "Some(1).map(next)")
        self.assertNotEqual(self.sum("low/src/lib.rt", "result ≡ more number", "result ≡ number"), self.sum())

    def test_it_rests_on_nothing_else(self):
        before = self.sum()
        for file, old, new in (("low/src/lib.rt", "number + 1", "1 + number"), ("low/src/lib.rt", "result ≡ number", "number ≡ result"),
                               ("low/src/lib.rt", "/// One more", "/// More"), ("toy/src/lib.rt", "/// Two", "/// 2"),
                               ("low/specs/Low.antt", "n - 1", "n - 2"), ("toy/specs/Toy.antt", "three = 3", "three = 4")):
            with self.subTest(old):
                self.assertEqual(self.sum(file, old, new), before)


if __name__ == "__main__":
    unittest.main()
