"""Tests of what tools/promises wants of the tables of must-fail edits, over a small crate and one below it."""
import os
import tempfile
import unittest

from edit_tables import faults_of
from promised import Sources

LOW = """/// Counts.
pub trait Counts {
    /// How many.
    fn many(&self) -> u32
        ensures more { 0 < result };
}
"""

HIGH = """use low::Counts;

/// Some.
pub struct Some {
    held: u32,
}

impl Counts for Some {
    fn many(&self) -> u32 {
        self.held + 1
    }
}

impl From<u32> for Some {
    ghost from_gives = { λ held some. some.held ≡ held };

    fn from(held: u32) -> Some {
        Some { held }
    }
}

fn doubled(number: u32) -> u32
    ensures { result ≡ twice number }
{
    number * 2
}
"""

EDITS = {
    "many_is_0": ("self.held + 1", "self.held"),
    "from_0": ("Some { held }", "Some { held: held - held }"),
    "doubled_is_tripled": ("number * 2", "number * 3"),
}
ROWS = [
    "| `many_is_0` | `Some::many`: `more` | that there is one | One user |",
    "| `from_0` | `Some::from`: `from_gives` | which it is; `doubled_is_tripled` is of how many, `low` of whose | |",
    "| `doubled_is_tripled` | `doubled`: `twice` | how many | Out of memory, reads and writes |",
]
HEAD = "# Must-fail edits of `high`\n\n| Edit | Refused by | It alone shows | Promise |\n|---|---|---|---|\n"
THEOREMS = "# Theorems\n\n## 1. One user\n\n## Out of memory, reads and writes\n"


class EditTablesTest(unittest.TestCase):
    def setUp(self):
        room = tempfile.TemporaryDirectory()
        self.addCleanup(room.cleanup)
        self.addCleanup(os.chdir, os.getcwd())
        os.chdir(room.name)
        self.write("crates/low/src/lib.rt", LOW)
        self.write("crates/high/src/lib.rt", HIGH)
        for name, (old, new) in EDITS.items():
            self.write(f"crates/high/must-fail/{name}.edit", f"file: src/lib.rt\nold: {old}\nnew: {new}\n")

    def write(self, path, text):
        os.makedirs(os.path.dirname(path), exist_ok=True)
        with open(path, "w", encoding="utf-8") as file:
            file.write(text)

    def faults(self, rows):
        if rows is not None:
            self.write("crates/high/must-fail/README.md", HEAD + "".join(f"{it}\n" for it in rows))
        uses = {"low": [], "high": ["low"]}
        checked, faults = faults_of(THEOREMS, Sources(["crates/low", "crates/high"]), uses)
        self.assertEqual(len(EDITS), checked)
        return [it.removeprefix("crates/high/must-fail/README.md: ") for it in faults]

    def with_row(self, number, old, new):
        self.assertIn(old, ROWS[number])
        return self.faults([it.replace(old, new) if at == number else it for at, it in enumerate(ROWS)])

    def test_whole(self):
        self.assertEqual([], self.faults(ROWS))

    def test_no_table(self):
        self.assertEqual(["crates/high/must-fail/README.md isn't there"], self.faults(None))

    def test_edit_without_row(self):
        self.assertEqual(["from_0: it has no row"], self.faults([ROWS[0], ROWS[2]]))

    def test_row_without_edit(self):
        row = "| `gone` | `doubled`: `twice` | nothing | |"
        self.assertEqual(["gone: there is no such edit"], self.faults([*ROWS, row]))

    def test_two_rows(self):
        again = ROWS[2].replace("how many", "how many there are")
        self.assertEqual(["doubled_is_tripled: it has two rows"], self.faults([*ROWS, again]))

    def test_what_another_shows(self):
        self.assertEqual(["two rows say: that there is one"], self.with_row(2, "how many", "that there is one"))

    def test_another_call(self):
        self.assertEqual(["many_is_0: it doesn't change doubled"], self.with_row(0, "Some::many`: `more", "doubled`: `twice"))

    def test_missing_clause(self):
        wrong = "many_is_0: Some::many promises nothing by the name of fewer"
        self.assertEqual([wrong], self.with_row(0, "more", "fewer"))

    def test_missing_definition(self):
        wrong = "doubled_is_tripled: doubled promises nothing by the name of thrice"
        self.assertEqual([wrong], self.with_row(2, "twice", "thrice"))

    def test_missing_section(self):
        wrong = "many_is_0: Two users is no section of docs/THEOREMS.md"
        self.assertEqual([wrong], self.with_row(0, "One user", "Two users"))

    def test_missing_other(self):
        wrong = "from_0: there is no edit, and no crate, doubled_is_halved"
        self.assertEqual([wrong], self.with_row(1, "doubled_is_tripled", "doubled_is_halved"))

    def test_nothing_shown(self):
        row = "| `doubled_is_tripled` | `doubled`: `twice` |  | |"
        self.assertEqual([f"a line is no row: {row}", "doubled_is_tripled: it has no row"], self.faults([*ROWS[:2], row]))
