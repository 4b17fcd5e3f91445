"""Tests of which crates and edits are taken as they were kept: another byte in anything that decided a proof takes it from all that
stands on it, and nothing else does."""
import os
import tempfile
import unittest
from unittest import mock

import kept
import kit
import proved
from checkout import write

USES = {"low": ["arrayvec"], "middle": ["low"], "beside": ["low"], "program": ["middle"]}
ABOVE = {"low": {"low", "middle", "beside", "program"}, "middle": {"middle", "program"}, "beside": {"beside"}, "program": {"program"}}
TEST_CODE = "#[test]\nfn one() {}\n"


class ProvedTest(unittest.TestCase):
    def setUp(self):
        room = tempfile.TemporaryDirectory()
        self.addCleanup(room.cleanup)
        self.top = f"{room.name}/top"
        environment = {it: value for it, value in os.environ.items() if not it.startswith(("GATE_", *proved.OPTIONS))}
        for it in (mock.patch.dict(os.environ, {**environment, "GATE_KEPT": f"{room.name}/kept"}, clear=True),
                   mock.patch.object(kit, "stamp", lambda: self.toolchain)):
            it.start()
            self.addCleanup(it.stop)
        self.toolchain = "one"
        self.write_list()
        for name in USES:
            for file in ("src/lib.rt", "src/deep/one.rt", "specs/Lib.antt", "proofs/one/Answers.antt"):
                write(f"{self.top}/crates/{name}/{file}", f"{file} of {name}")
        write(f"{self.top}/crates/low/must-fail/one.edit", "old: 1")
        write(f"{self.top}/crates/beside/src/tests.rt", TEST_CODE)
        self.prove_all()

    def write_list(self, **uses):
        write(f"{self.top}/crates.txt", "".join(f"{name}: {' '.join(used)}\n" for name, used in {**USES, **uses}.items()))

    def run_over(self):
        return proved.Proofs(self.top, kept.Store(), self.top)

    def out(self, name):
        return f"{self.top}/crates/{name}/out"

    def prove_all(self, made=""):
        """Keeps each crate as if it had been proved, and the edits."""
        run = self.run_over()
        for name in USES:
            files = ["rlib"] if name != "program" else ["program", "program.by-rattle"]
            for it in files:
                write(f"{self.out(name)}/{it}" + ("/file" if it == "rlib" else ""), f"{made}{it} of {name}")
            run.keep(name, False, self.out(name), files, 1)
        write(f"{self.out('beside')}/beside_tests", "tests")
        run.keep("beside", True, self.out("beside"), ["beside_tests"], 1)
        run.end()
        edits = proved.Edits(run.store, self.top, run.sums)
        edits.keep("low", "one.edit", "a goal")

    def assert_ahead(self, names):
        run = self.run_over()
        self.assertEqual(run.ahead, {*names})
        return run


class SumTest(ProvedTest):
    def test_nothing_is_proved_again(self):
        run = self.assert_ahead([])
        self.assertEqual(run.needed, set())
        for name in USES:
            os.rename(self.out(name), f"{self.top}/was-{name}")
            self.assertTrue(run.taken(name, False, self.out(name)))
        self.assertEqual({*os.listdir(self.out("program"))}, {"program", "program.by-rattle"})
        self.assertFalse(os.path.exists(f"{self.out('low')}/rlib"))
        self.assertTrue(run.taken("beside", True, self.out("beside")))
        self.assertEqual(os.listdir(self.out("beside")), ["beside_tests"])

    def test_a_byte_of_each_kind_of_input(self):
        for crate, above in ABOVE.items():
            for file in ("src/lib.rt", "src/deep/one.rt", "specs/Lib.antt", "proofs/one/Answers.antt", "src/new.rt", "specs/New.antt", "c/new.c",
                         "proofs/New.antt", "src/out/new.rt", "src/__pycache__/new.rt"):
                path = f"{self.top}/crates/{crate}/{file}"
                was = os.path.exists(path)
                with self.subTest(file, crate=crate):
                    write(path, "changed")
                    self.assert_ahead(above)
                    write(path, f"{file} of {crate}") if was else os.remove(path)
                    self.assert_ahead([])

    def test_what_is_in_no_sum(self):
        for file in ("crates/low/out/new", "crates/low/README.md", "docs/MODEL.md", "crates/program/stdout"):
            write(f"{self.top}/{file}", "new")
        with mock.patch.dict(os.environ, {"RT_JOBS": "3", "HOME": "/other"}):
            self.assert_ahead([])

    def test_a_file_that_went_or_was_renamed(self):
        os.rename(f"{self.top}/crates/beside/specs/Lib.antt", f"{self.top}/crates/beside/specs/Other.antt")
        self.assert_ahead(["beside"])
        os.remove(f"{self.top}/crates/middle/src/deep/one.rt")
        self.assert_ahead(["beside", "middle", "program"])

    def test_what_a_crate_uses(self):
        self.write_list(beside=["low", "toml"])
        self.assert_ahead(["beside"])
        self.write_list(low=[])
        self.assert_ahead(ABOVE["low"])

    def test_whether_a_crate_is_a_static_library(self):
        text = "".join(f"{name}{' staticlib' * (name == 'beside')}: {' '.join(used)}\n" for name, used in USES.items())
        write(f"{self.top}/crates.txt", text)
        self.assert_ahead(["beside"])

    def test_handles_toolchain_options_and_scripts(self):
        self.toolchain = "two"
        self.assert_ahead(USES)
        self.toolchain = "one"
        with mock.patch.dict(os.environ, {"RT_BACKEND": "llvm"}):
            self.assert_ahead(USES)
        for script in (*proved.PROVING, *proved.TRYING):
            real = kept.sums_of_files
            changed = lambda top, paths, *given, script=script, real=real: {**real(top, paths, *given), **({script: "changed"} if script in paths else {})}
            with self.subTest(script), mock.patch.object(kept, "sums_of_files", changed):
                # the scripts that try edits decide nothing else
                self.assert_ahead(USES if script in proved.PROVING else ["low"])
        write(f"{self.top}/HANDLES", "Handles allowed: Threads.\n")
        self.assert_ahead(USES)

    def test_an_edit_that_is_new_or_changed_has_its_crate_proved_and_nothing_else(self):
        write(f"{self.top}/crates/low/must-fail/one.edit", "old: 2")
        self.assert_ahead(["low"])
        write(f"{self.top}/crates/low/must-fail/one.edit", "old: 1")
        write(f"{self.top}/crates/middle/must-fail/new.edit", "old: 1")
        self.assert_ahead(["middle"])

    def test_an_edit_that_went_is_no_reason(self):
        os.remove(f"{self.top}/crates/low/must-fail/one.edit")
        self.assert_ahead([])


class LibraryTest(ProvedTest):
    def change(self, crate):
        write(f"{self.top}/crates/{crate}/src/lib.rt", "changed")
        for name in USES:
            os.rename(self.out(name), f"{self.top}/was-{name}")

    def test_libraries_stand_where_something_is_proved_over_them(self):
        self.change("middle")
        run = self.assert_ahead(["middle", "program"])
        self.assertEqual(run.needed, {"low", "middle"})
        self.assertTrue(run.taken("low", False, self.out("low")))
        self.assertEqual(os.listdir(f"{self.out('low')}/rlib"), ["file"])
        self.assertTrue(run.taken("beside", False, self.out("beside")))
        self.assertFalse(os.path.exists(self.out("beside")))
        self.assertFalse(run.taken("middle", False, self.out("middle")))

    def test_one_that_is_damaged_or_gone_is_proved_again(self):
        path = kept.Store().path("made", "low", self.run_over().sums.of("low"))
        self.change("middle")
        with open(path, "r+b") as it:
            it.seek(200)
            it.write(b"x")
        self.assertFalse(self.run_over().taken("low", False, self.out("low")))
        self.assertFalse(os.path.exists(f"{self.out('low')}/rlib"))
        os.remove(path)
        run = self.run_over()
        self.assertFalse(run.taken("low", False, self.out("low")))
        # and it goes on over the libraries that it needs
        self.assertEqual(run.needed, {"low", "middle"})

    def test_one_fits_only_the_libraries_that_it_was_made_with(self):
        low = self.run_over().sums.of("low")
        self.change("program")
        os.remove(kept.Store().path("made", "low", low))
        run = self.assert_ahead(["program"])
        self.assertFalse(run.taken("low", False, self.out("low")))
        write(f"{self.out('low')}/rlib/file", "rlib of low")
        run.keep("low", False, self.out("low"), ["rlib"], 1)
        self.assertTrue(run.taken("middle", False, self.out("middle")))
        write(f"{self.out('low')}/rlib/file", "other bytes of low")
        run.keep("low", False, self.out("low"), ["rlib"], 1)
        self.assertFalse(run.taken("middle", False, self.out("middle")))
        run.end()

    def test_a_program_that_is_not_there_whole_is_proved_again(self):
        os.remove(kept.Store().path("made", "program", self.run_over().sums.of("program")))
        run = self.assert_ahead(["program"])
        self.assertEqual(run.needed, {"low", "middle"})

    def test_tests_that_are_not_there_whole_are_proved_again(self):
        os.remove(kept.Store().path("made", "beside_tests", self.run_over().sums.of("beside")))
        run = self.assert_ahead([])
        self.assertEqual(run.needed, {"low"})
        self.assertFalse(run.taken("beside", True, self.out("beside")))

    def test_what_changed_meanwhile_and_what_lacks_a_build_is_not_kept(self):
        self.change("beside")
        run = self.run_over()
        write(f"{self.top}/crates/low/specs/Lib.antt", "changed meanwhile")
        write(f"{self.out('beside')}/rlib/file", "rlib of beside")
        write(f"{self.out('low')}/rlib/file", "rlib of low")
        run.keep("low", False, self.out("low"), ["rlib"], 1)
        run.keep("beside", False, self.out("beside"), ["rlib"], 1)
        run.keep("program", False, self.out("program"), None, 1)
        run.end()
        self.assert_ahead(USES)


if __name__ == "__main__":
    unittest.main()
