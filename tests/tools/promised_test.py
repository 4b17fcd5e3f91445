"""Tests of what tools/promises compares, and of its table, over a small crate."""
import os
import tempfile
import unittest

from promised import Sources, edits_missing, faults_of_claims, faults_of_edits, faults_of_silence, tables_of

ROOT = """//! A crate.
pub mod counts;
mod inner;

pub use inner::shown;
"""

COUNTS = """//! Counts.
use crate::inner::helped;

/// Counts.
pub trait Counts {
    /// How many.
    fn many(&self) -> u32
        ensures more { 0 < result };
}

/// What nobody else sees.
trait Hidden {
    fn hidden(&self) -> u32;
}

/// Some.
pub struct Some {
    held: u32,
}

impl Some {
    /// Less, or
    /// as many.
    ///
    /// # Errors
    /// None.
    pub fn less(&self) -> u32
        ensures bound { result < 10 }
        ensures held { result < self.now.held }
    {
        self.held / 2
    }
}

impl Counts for Some {
    fn many(&self) -> u32 {
        doubled(self.held)
    }
}

impl Hidden for Some {
    fn hidden(&self) -> u32 {
        1
    }
}

fn doubled(number: u32) -> u32
    ensures { result ≡ number | 2 }
{
    number * 2
}

/// A law.
pub fn all_are_few()
    ensures few { 1 < 2 }
{}
"""

INNER = """//! What stands below.
pub fn helped() -> u32 {
    3
}

pub fn shown() -> u32
    ensures three { result == 3 }
{
    helped() + 0
}
"""

EDITS = {
    "less_by_nothing": ("src/counts.rt", "self.held / 2", "self.held", "as many are told as less"),
    "doubled_thrice": ("src/counts.rt", "number * 2", "number * 3", "half as many again are told"),
    "shown_is_more": ("src/inner.rt", "helped() + 0", "helped() + 1", "one more is shown"),
    "none_are_held": ("src/counts.rt", "    held: u32,", "    held: u8,", "many can't be told"),
}

TABLE = """# Promises

## low

| Call | It says | Clauses | Edits that the prover refuses |
|---|---|---|---|
| `shown` |  | `three` | `shown_is_more`: one more is shown |

## low::counts

| Call | It says | Clauses | Edits that the prover refuses |
|---|---|---|---|
| `Counts::many` | How many. | `more` |  |
| `Some::less` | Less, or as many. | `bound`, `held` | `less_by_nothing`: as many are told as less |
| `Some::many` (`Counts`) |  |  |  |
| `doubled`, private |  | unnamed | `doubled_thrice`: half as many again are told |
| `all_are_few` | A law. | `few` |  |

## low, outside its calls

| Call | It says | Clauses | Edits that the prover refuses |
|---|---|---|---|
|  |  |  | `none_are_held`: many can't be told |"""


class Crates(unittest.TestCase):
    def setUp(self):
        room = tempfile.TemporaryDirectory()
        self.addCleanup(room.cleanup)
        self.folder = f"{room.name}/crates/low"
        for part in ("src", "must-fail"):
            os.makedirs(f"{self.folder}/{part}")
        for name, text in (("lib", ROOT), ("counts", COUNTS), ("inner", INNER)):
            self.write(f"src/{name}.rt", text)
        for name, (path, old, new, breaks) in EDITS.items():
            self.write_edit(name, f"# breaks: {breaks}\n", path=path, old=old, new=new)

    def sources(self):
        return Sources([self.folder])

    def write(self, path, text):
        with open(f"{self.folder}/{path}", "w", encoding="utf-8") as it:
            it.write(text)

    def write_edit(self, name, more, path="src/counts.rt", old="number * 2", new="number * 4"):
        self.write(f"must-fail/{name}.edit", f"{more}file: {path}\nold: {old}\nnew: {new}\n")


class Edits(Crates):
    def faults(self):
        return faults_of_edits(self.sources())[1]

    def test_all_are_right(self):
        self.assertEqual(faults_of_edits(self.sources()), (4, []))

    def test_edit_that_cannot_be_applied(self):
        self.write_edit("doubled_thrice", "# breaks: nothing\n", old="nowhere")
        [fault] = self.faults()
        self.assertIn("low/doubled_thrice: it can't be applied", fault)

    def test_edit_that_names_a_module_that_is_not_there(self):
        self.write_edit("doubled_thrice", "# breaks: nothing\n", new="low::gone::helped()")
        self.assertEqual(self.faults(), ["low/doubled_thrice: it names the module low::gone, which isn't there"])
        self.write_edit("doubled_thrice", "# breaks: nothing\n", new="low::inner::helped()")
        self.assertEqual(self.faults(), [])

    def test_edit_that_says_nothing_of_a_user(self):
        fault = "low/doubled_thrice: it has {} lines that say what it breaks for a user ('# breaks: TEXT'), and not one".format
        for text, count in (("", 0), ("# breaks:\n", 0), ("# breaks:  \n", 0), ("# breaks: one\n# breaks: two\n", 2)):
            self.write_edit("doubled_thrice", text)
            self.assertEqual(self.faults(), [fault(count)])

    def test_line_that_nothing_reads(self):
        self.write_edit("doubled_thrice", "# breaks: nothing\ngoal: returns\n")
        self.assertEqual(self.faults(), ["low/doubled_thrice: it has a line that nothing reads: goal: returns"])

    def test_two_edits_that_say_the_same(self):
        self.write_edit("some_more", "# breaks: one more is shown\n")
        self.assertEqual(self.faults(), ["low/some_more: it breaks for a user just what low/shown_is_more does"])


class Pages(Crates):
    def test_clauses_of_calls(self):
        page = "That (`Some::less`: `bound`, `held`; `low::shown`: `three`) and `Counts`: `more`. A `word`: `other` words."
        self.assertEqual(faults_of_claims(page.split(" A ")[0], self.sources()), (4, []))
        self.assertEqual(faults_of_claims(page, self.sources()), (5, ["there is no call, module or type word"]))

    def test_clause_that_is_not_there(self):
        page = "`Some::less`: `bound` and `helt`; `inner::shown`: `three`"
        faults = ["no call of `Some::less` has a clause helt", "there is no call, module or type inner::shown"]
        self.assertEqual(faults_of_claims(page, self.sources()), (3, faults))

    def test_functions_that_promise_nothing(self):
        silent = "- `low::shown` promises nothing: it is shown.\n"
        self.assertEqual(faults_of_silence("", self.sources())[1], [])
        self.assertEqual(faults_of_silence(silent, self.sources())[1], ["`low::shown` is told to promise nothing, and isn't such a call"])
        self.write("src/counts.rt", f"{COUNTS}\npub fn spoken(held: u32) -> u32 {{\n    held\n}}\n")
        self.assertEqual(faults_of_silence("", self.sources())[1], ["`low::counts::spoken` has no clause, and no line says why"])
        self.assertEqual(faults_of_silence(silent.replace("shown`", "counts::spoken`"), self.sources())[1], [])

    def test_edits_that_a_page_names(self):
        page = "| Rule | Edits |\n|---|---|\n| Less, by `none_*` | `less_*`, `{}` |\n\n| Other |\n|---|\n| `none` |\n"
        self.assertEqual(edits_missing(page.format("doubled_thrice"), [*EDITS]), (2, []))
        self.assertEqual(edits_missing(page.format("gone"), [*EDITS]), (2, ["there is no edit gone"]))

    def test_table(self):
        self.assertEqual(tables_of(self.sources(), []), TABLE)
        self.assertEqual(tables_of(self.sources(), ["low"]), TABLE)
        self.assertEqual(tables_of(self.sources(), ["high"]), "# Promises")

    def test_table_of_an_edit_that_cannot_be_applied(self):
        self.write_edit("less_by_nothing", "", old="nowhere")
        self.assertNotIn("less_by_nothing", tables_of(self.sources(), []))

    def test_public_calls(self):
        found = ["::".join(it.paths()[0][1:]) for it in self.sources().calls if it.is_public]
        at_traits = ["counts::Counts::many", "counts::Counts::many"]
        self.assertEqual(sorted(found), [*at_traits, "counts::Some::less", "counts::all_are_few", "shown"])


if __name__ == "__main__":
    unittest.main()
