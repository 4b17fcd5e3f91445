"""Tests of what tools/believed counts, over two small crates and over this repository's own."""
import os
import tempfile
import unittest

import named_once
import theorems
from believed import World, closure, definitions_of, nearest_first
from checkout import TOP

WORDS = """-- Words of the crate below, which a reader of contracts meets.
use Rattle.std.specs.Prelude.{◌≡◌, ◌+◌, ℕ, List, Option, Some, None}
use Rattle.std.specs.FinMap as map
use Rattle.low.specs.declared.kinds.Kind.{Kind}
use Rattle.low.specs.declared.kinds.Kind.TheVariants.{Lone as Single}
use Rattle.low.specs.declared.kinds.TheConstants.{MOST}
pub use Rattle.low.specs.Steps.{◌>>=◌, stepped}

-- how many there are
abbrev pub many : Kind → ℕ
many Single = 1
many kind = MOST

abbrev pub other : ℕ
other = 2

-- a parameter, what a pattern and what a λ names are no definitions
abbrev pub bound : ℕ → List ℕ → Option ℕ
bound other (many ∷ rest) = map.get (λ stepped. stepped) other   -- many

unfoldable pub twice : ℕ → Option ℕ
twice n = do
  first ← Some n
  Some (first + n)

pub record Held (n : ℕ) : Type 0 where
  pub other : n ≡ many Single
  -- of the field before it
  pub again : n ≡ other

pub data Course : Type 0 where
  Plain : (n : ℕ) → Course
  Watched : (held : Held 1) → Course

abbrev pub told : ℕ → Course
told n = Plain (record { other = n; text = "twice" }).other
"""

STEPS = """-- Steps.
use Rattle.std.specs.Prelude.{Option, option_and_then}

infixl 10 ◌>>=◌
abbrev pub ◌>>=◌ : {A B : Type 0} → Option A → (A → Option B) → Option B
o >>= f = option_and_then f o

stepped : Option ℕ
stepped = None
"""

KINDS = """//! Kinds.
use crate::named::{Name as Called, Pair};

/// How many at most.
pub const MOST: u32 = 10;

/// A kind.
#[derive(Clone, Copy)]
pub enum Kind {
    /// One alone.
    #[error("one")]
    Lone,
    Named(Called), // by its name
    Both { pair: Pair },
}

/// What is kept.
pub trait Keeps {
    /// What it holds.
    ghost held: { Self → Held };

    /// One.
    fn one(&self) -> u32
        ensures more { held self.now ≡ held self.now };
}
"""

NAMED = """//! Names.
mod inner;

pub use inner::Pair;

pub struct Name {
    text: String,
}

impl Model for Name {
    ghost use Rattle.low.specs.Words.{twice};

    ghost Value = { twice };

    ghost view = { λ n. n };
}
"""

HIGH = """//! What is called.
ghost use Rattle.std.specs.Prelude.{◌≡◌, IfOk};
ghost use Rattle.low.specs.Words.{many, twice as doubled, stepped, told, Plain, Held};

pub mod parts;

use low::kinds::{Keeps, Kind};

pub use parts::shown;

/// A call.
pub fn called<K: Keeps>(kind: Kind, keeper: &K, told: u32) -> Result<u8, Fault>
    requires few { told ≡ 1 }
    requires kept { stepped ≡ stepped }
    // of the kind
    ensures many { IfOk result (λ stepped. many kind ≡ record { text = stepped }) }
    ensures kept { K.held keeper.now ≡ doubled told }
{
    if many(kind) { told } else { 1 }
}

impl Kind {
    pub fn of(self) -> u32
        ensures { Plain self.now ≡ Plain self.now }
    {
        1
    }
}

fn uncalled() {}
"""

PARTS = """//! Parts.
ghost use Rattle.std.specs.Prelude.{◌≡◌};
ghost use Rattle.low.specs.Words.{stepped};

pub fn shown()
    ensures { stepped ≡ stepped }
{}
"""

FILES = {
    "crates.txt": "low:\nhigh: low\n",
    "crates/low/specs/Lib.antt": "pub mod Steps\npub mod Words\n",
    "crates/low/specs/Words.antt": WORDS,
    "crates/low/specs/Steps.antt": STEPS,
    "crates/low/src/kinds.rt": KINDS,
    "crates/low/src/named.rt": NAMED,
    "crates/low/src/named/inner.rt": "pub struct Pair(u32, u32);\n\npub struct Alone;\n",
    "crates/high/src/lib.rt": HIGH,
    "crates/high/src/parts.rt": PARTS,
}

PAGE = """# Theorems

## 1. Called

It is called.

`high::called`:

```
```

Carried by `high::called`: `many`; `high::shown`.

Read: `stepped`, and then
`Keeps`.

## Trusted

`high::Kind::of` is no theorem's.
"""


class Small(unittest.TestCase):
    """Over a folder with two crates."""

    def setUp(self):
        room = tempfile.TemporaryDirectory()
        self.addCleanup(room.cleanup)
        self.top = room.name
        for path, text in FILES.items():
            self.write(path, text)

    def write(self, path, text):
        os.makedirs(os.path.dirname(f"{self.top}/{path}"), exist_ok=True)
        with open(f"{self.top}/{path}", "w", encoding="utf-8") as it:
            it.write(text)

    def reached(self, name, *clauses):
        return {it.name: len(it.lines) for it in closure([World(self.top).named(name, clauses)])[0]}


class Definitions(Small):
    KINDS = {"Kind": 5, "Name": 1, "Pair": 1, "twice": 4, "◌>>=◌": 2}

    def test_names_that_a_text_binds(self):
        self.assertEqual(self.reached("low::specs::Words::bound"), {"bound": 2})

    def test_variants_constants_and_models(self):
        self.assertEqual(self.reached("low::specs::Words::many"), {"many": 3, "MOST": 1, **self.KINDS})

    def test_steps_of_a_do(self):
        self.assertEqual(self.reached("low::specs::Words::twice"), {"twice": 4, "◌>>=◌": 2})

    def test_fields_of_a_record(self):
        self.assertEqual(self.reached("low::specs::Words::Held"), {"Held": 3, "many": 3, "MOST": 1, **self.KINDS})

    def test_variants_of_data(self):
        reached = self.reached("low::specs::Words::told")
        self.assertEqual({it: reached.pop(it) for it in ("told", "Course", "Held")}, {"told": 2, "Course": 3, "Held": 3})
        self.assertEqual(reached, {"many": 3, "MOST": 1, **self.KINDS})

    def test_name_that_is_shown_again(self):
        self.assertEqual(self.reached("low::specs::Words::stepped"), {"stepped": 2})

    def test_libraries_are_named(self):
        named = {(it.crate, it.name) for it in closure([World(self.top).named("low::specs::Words::bound")])[1]}
        self.assertEqual(named, {("std", it) for it in ("List", "Option", "get", "ℕ")})

    def test_what_is_not_there(self):
        with self.assertRaisesRegex(LookupError, "there is no definition low::specs::Words::none"):
            self.reached("low::specs::Words::none")
        self.write("crates/low/specs/Steps.antt", "use Rattle.low.specs.Words.{none}\n\nstepped : none\nstepped = none\n")
        with self.assertRaisesRegex(LookupError, "there is no definition Rattle::low::specs::Words::none"):
            self.reached("low::specs::Words::stepped")


class Order(Small):
    def test_the_nearest_comes_first(self):
        roots = [World(self.top).named("high::called", ["kept"])]
        self.assertEqual([it.name for it in nearest_first(roots)], ["stepped", "twice", "Keeps", "◌>>=◌"])
        self.assertEqual({*nearest_first(roots)}, closure(roots)[0])


class Contracts(Small):
    def test_clauses_and_the_types_that_they_speak_of(self):
        kinds = {"many": 3, "MOST": 1, **Definitions.KINDS}
        self.assertEqual(self.reached("high::called", "many"), kinds)
        self.assertEqual(self.reached("high::called", "few"), {})
        self.assertEqual(self.reached("high::called", "kept"), {"stepped": 2, "twice": 4, "◌>>=◌": 2, "Keeps": 1})
        self.assertEqual(self.reached("high::called"), {**kinds, "stepped": 2, "Keeps": 1})

    def test_call_of_a_type(self):
        self.assertIn("Course", self.reached("high::Kind::of"))
        self.assertEqual(self.reached("low::kinds::Keeps::one"), {"Keeps": 1})

    def test_call_that_a_module_shows(self):
        self.assertEqual(self.reached("high::shown"), {"stepped": 2})

    def test_calls_and_clauses_that_are_not_there(self):
        for name in ("high::uncalled", "high::none", "none::called", "high::called::none", "called"):
            with self.assertRaisesRegex(LookupError, f"there is no call {name} with a contract"):
                self.reached(name)
        with self.assertRaisesRegex(LookupError, "there is no call high::called with few and none"):
            self.reached("high::called", "few", "none")


class Page(Small):
    def test_statements(self):
        page = "`high::called`, `kept`:\n\n```\nof old\n```\n\n`high::called`:\n\n```\n```\n"
        right = theorems.mended(page, self.top)
        kept = "stepped ≡ stepped\n-- kept\nK.held keeper.now ≡ doubled told\n"
        self.assertTrue(right.startswith(f"`high::called`, `kept`:\n\n```\n-- kept\n{kept}```\n\n"))
        self.assertIn("```\n-- few\ntold ≡ 1\n-- kept\nstepped ≡ stepped\n-- many\nIfOk result", right)
        self.assertEqual(theorems.faults_of(right, self.top)[1], [])
        self.assertEqual(theorems.faults_of(right.replace("told ≡ 1", "told ≡ 2"), self.top)[1],
                         ["by the sources it has 'told ≡ 1': tools/believed --write"])

    def test_statement_of_a_record_and_of_lines(self):
        self.write("crates/high/src/lib.rt", HIGH.replace("{ Plain self.now ≡ Plain self.now }",
                                                          "{ (n : ℕ)\n        → Plain n ≡ record {\n            text = n;\n        } }"))
        page = theorems.mended("`high::Kind::of`:\n\n```\n```\n", self.top)
        self.assertIn("```\n(n : ℕ)\n    → Plain n ≡ record {\n        text = n;\n    }\n```\n", page)

    def test_what_is_read(self):
        right = theorems.mended(PAGE, self.top)
        self.assertEqual(theorems.faults_of(right, self.top), (2, []))
        faults = theorems.faults_of(right.replace("`Keeps`", "`Held`"), self.top)[1]
        self.assertEqual(faults, ["`Held` is to be read for a theorem that doesn't reach it"])
        nothing = right.replace("`many`", "`none`")
        self.assertEqual(theorems.faults_of(nothing, self.top), (1, ["there is no call high::called with none"]))

    def test_names_of_a_statement(self):
        self.write("crates/high/src/lib.rt", HIGH.replace("stepped ≡ stepped", "stepped ≡ Far.stepped × (Kind.Lone ≡ Kind.Lone)"))
        right = theorems.mended(PAGE, self.top)
        told = "`Far.stepped` of high::called is on no page that tools/believed prints, nor linked to a row of MODEL.md"
        self.assertEqual(theorems.faults_of(right, self.top)[1], [told])
        linked = right.replace("It is called.", "It is called, [`Far.stepped`](MODEL.md#steps).")
        self.assertEqual(theorems.faults_of(linked, self.top)[1], [])

    def test_each_law_stands_there_once(self):
        self.write("crates/theorems/src/lib.rt", PARTS)
        right = theorems.mended(PAGE, self.top)
        missing = ["the theorem theorems::shown stands there 0 times"]
        self.assertEqual(theorems.faults_of(right, self.top)[1], missing)
        for listed in ("`theorems::shown`:\n\n```\n```\n\nCarried", "`theorems::shown`. It is so.\n\nCarried"):
            there = theorems.mended(right.replace("Carried", listed), self.top)
            self.assertEqual(theorems.faults_of(there, self.top)[1], [])
        twice = theorems.faults_of(there.replace("It is so", "`theorems::shown` is so"), self.top)[1]
        self.assertEqual(twice, ["the theorem theorems::shown stands there 2 times"])
        self.assertEqual(theorems.faults_of(f"`theorems::shown`\n\n{right}", self.top)[1], missing)

    def test_all_that_a_clause_names(self):
        told = [("`high::called`", (True, True)), ("`high::called`, `kept`,", (False, True)), ("`high::called`, `many`,", (True, False))]
        for what, are_there in told:
            page = PAGE.replace("Read: `stepped`, and then\n`Keeps`.", f"All that {what} names:\n\n```\n```")
            named = theorems.mended(page, self.top).partition("names:\n\n```\n")[2].partition("\n```\n")[0]
            self.assertEqual(("many Single = 1" in named, "ghost held: " in named), are_there)

    def test_each_edit_is_there(self):
        page = "Turned by `one_less`. Turned\nby `two_less`."
        self.assertEqual(theorems.edits_of(page, ["one_less", "two_less"]), (2, []))
        self.assertEqual(theorems.edits_of(page, ["one_less"]), (2, ["there is no edit two_less"]))

    def test_all_that_a_law_names(self):
        self.write("crates/high/specs/Lib.antt", "pub mod Course\n")
        self.write("crates/high/specs/Course.antt", "-- Premises.\n-- A course.\nuse Rattle.low.specs.Words.{many}\n\n-- how long\n"
                   "abbrev pub long : ℕ\nlong = many\n\nabbrev pub short : ℕ\nshort = 0\n")
        self.write("crates/high/src/parts.rt", PARTS.replace("{stepped};", "{stepped};\nghost use Rattle.high.specs.Course.{long};")
                   .replace("{ stepped ≡ stepped }", "{ long ≡ long }"))
        page = PAGE.replace("Read: `stepped`, and then\n`Keeps`.", "All that `high::shown` names, in order:\n\n```\nof old\n```")
        right = theorems.mended(page, self.top)
        named = right.partition("in order:\n\n```\n")[2].partition("\n```\n")[0].split("\n\n")
        self.assertEqual([named[0], named[-1]], ["-- Premises.\n-- A course.", "-- how long\nabbrev pub long : ℕ\nlong = many"])
        self.assertIn("pub enum Kind {\n    Lone,", "\n".join(named))
        self.assertIn("-- how many there are\nabbrev pub many : Kind → ℕ\nmany Single = 1\nmany kind = MOST", named)
        self.assertNotIn("other", "\n".join(named))
        again = theorems.mended(page + "\nAll that `high::shown` names and that isn't above:\n\n```\nof old\n```\n", self.top)
        self.assertEqual(again, right + "\nAll that `high::shown` names and that isn't above:\n\n```\n\n```\n")
        told = [f"`{it}` of high::shown is a library's, and its part says nothing of it"
                for it in ("+", "Option", "Some", "option_and_then", "ℕ", "≡")]
        self.assertEqual(theorems.faults_of(right, self.top)[1], told)
        explained = right.replace("It is called.", "`ℕ`, `Option`, `Some`, `option_and_then`, `+` and `≡` are known.")
        self.assertEqual(theorems.faults_of(explained, self.top)[1], [])
        self.assertEqual(theorems.faults_of(explained.replace("long = many", "long = 2"), self.top)[1],
                         ["by the sources it has 'long = many': tools/believed --write"])

    def test_what_no_theorem_reaches(self):
        self.assertEqual([it.name for it in theorems.unreached(PAGE, World(self.top))], ["other", "bound", "Held", "Course", "told"])

    def test_marks(self):
        count, faults = theorems.marks_of(PAGE, self.top)
        self.assertEqual(faults, [])
        far, mark = "crates/low/specs/Far.antt", f"-- How it is kept: {theorems.MARK}\n"
        self.write(far, "abbrev pub far : ℕ\nfar = 1\n")
        told = f"no theorem reaches {far}: its first line ends with '{theorems.MARK}'"
        self.assertEqual(theorems.marks_of(PAGE, self.top), (count + 1, [told]))
        self.write(far, mark + "abbrev pub far : ℕ\nfar = 1\n")
        self.assertEqual(theorems.marks_of(PAGE, self.top), (count + 1, []))
        words = "crates/low/specs/Words.antt"
        self.write(words, mark + theorems.text_of(f"{self.top}/{words}"))
        told = f"a theorem reaches {words}, whose first line says otherwise"
        self.assertEqual(theorems.marks_of(PAGE, self.top)[1], [told])


class Names(Small):
    def test_name_that_stands_twice(self):
        self.assertEqual(named_once.faults_of("", self.top), (9, []))
        self.write("crates/high/specs/Words.antt", "abbrev pub many : ℕ\nmany = 1\n\nabbrev pub Many : ℕ\nMany = 1\n")
        self.assertEqual(named_once.faults_of("", self.top), (10, ["the definition many stands in high, low"]))
        self.assertEqual(named_once.faults_of("many high low: two ideas\n", self.top)[1], [])
        self.assertEqual(len(named_once.faults_of("many high low:\n", self.top)[1]), 1)
        self.assertEqual(len(named_once.faults_of("many high: one idea\n", self.top)[1]), 1)

    def test_name_that_stands_once(self):
        stale = "the definition told stands once, and tools/names_twice.txt says otherwise"
        self.assertEqual(named_once.faults_of("told high low: two ideas\n", self.top)[1], [stale])


class Repository(unittest.TestCase):
    """What holds of this repository's crates, whatever stands in them."""

    def setUp(self):
        self.world = World(TOP)

    def reached(self, name, *clauses):
        found = closure([self.world.named(name, clauses)])[0]
        return {(it.file.split("/")[1], it.name) for it in found}

    def test_contained_is_of_runs_alone(self):
        reached = self.reached("cg_model::specs::Held::IsContained")
        self.assertLessEqual({("cg_model", "verdict"), ("cg_model", "bars"), ("cg_model", "Op"), ("cg_model", "State")}, reached)
        self.assertFalse({"cg_format", "cg_text", "cg_check", "cg_tries", "cg_indexed"} & {crate for crate, _ in reached})

    def test_check_reaches_what_its_clauses_do(self):
        contained, report, stranger = (self.reached("cg_cli::check::check_bytes", it) for it in ("contained", "report", "stranger"))
        self.assertLessEqual({("cg_format", "IsTextOf"), ("cg_model", "IsContained")}, contained)
        self.assertNotIn(("cg_model", "tries"), contained)
        self.assertIn(("cg_model", "tries"), report)
        self.assertNotIn(("cg_model", "bars"), stranger)
        self.assertEqual(self.reached("cg_cli::check::check_bytes"), contained | report | stranger)

    def test_how_it_is_kept_is_never_reached(self):
        for name in ("check::check_bytes", "audit::audit_bytes", "may::may_bytes", "replay::replay_bytes", "replay::replay_from"):
            reached = self.reached(f"cg_cli::{name}")
            self.assertFalse({"cg_places", "cg_counts", "cg_indexed", "cg_rows"} & {crate for crate, _ in reached}, name)
            self.assertNotIn(("cg_text", "tree_of"), reached, name)

    def test_the_yes_is_on_one_page(self):
        page = closure([self.world.named("machine::one_user")])[0]
        self.assertLessEqual(sum(theorems.lines_of(page).values()), 165)

    def test_all_that_definitions_name_is_there(self):
        for it in definitions_of(self.world):
            self.assertIsInstance(it.named, set)


if __name__ == "__main__":
    unittest.main()
