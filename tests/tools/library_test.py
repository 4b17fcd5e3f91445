"""Tests of tools/library_folder.py: which library is of these sources, over files that only play its part."""
import os
import shutil
import sys
import tempfile
import unittest
from unittest import mock

TOP = os.path.dirname(os.path.dirname(os.path.dirname(os.path.abspath(__file__))))
sys.path.insert(0, f"{TOP}/tools")
import library_folder  # noqa: E402
from library_folder import FILES, MACHINES, Library  # noqa: E402

KIT = library_folder.program.TRIED[0]


def link(machine, archive, to):
    """In place of tools/linked_library.py: a library has its archive's text."""
    with open(archive, encoding="ascii") as file:
        text = file.read()
    for name in FILES.values():
        with open(f"{to}/{name}", "w", encoding="ascii") as out:
            out.write(f"{machine} {name} {text}")


class LibraryTest(unittest.TestCase):
    def setUp(self):
        room = tempfile.TemporaryDirectory()
        self.addCleanup(room.cleanup)
        for target, name, made in ((library_folder.linked_library, "link", link), (library_folder.program, "toolchain", lambda: KIT)):
            patched = mock.patch.object(target, name, made)
            patched.start()
            self.addCleanup(patched.stop)
        self.archives, self.library = f"{room.name}/archives", Library(f"{room.name}/library")
        os.mkdir(self.archives)
        for it in MACHINES:
            self.write(library_folder.archive_of(it, self.archives), it)
        self.library.fill(self.archives)

    def write(self, path, text, how="w"):
        with open(path, how, encoding="ascii") as out:
            out.write(text)

    def assert_differs(self, why):
        self.assertIn(why, self.library.differs())
        self.library.fill(self.archives)
        self.assertEqual(self.library.differs(), "")

    def turn(self, old, new):
        text = self.library.text()
        self.assertEqual(text.count(old), 1)
        self.write(self.library.manifest, text.replace(old, new))

    def test_what_was_linked_is_of_these_sources(self):
        self.assertEqual((self.library.changed(), self.library.differs(), self.library.differs_from(self.archives)), ("", "", ""))
        self.assertEqual(sorted(os.listdir(self.library.folder)), ["MANIFEST", *sorted(MACHINES)])
        self.assertEqual(oct(os.stat(self.library.folder).st_mode & 0o777), "0o755")

    def test_what_is_missing(self):
        shutil.rmtree(self.library.folder)
        self.assert_differs("it isn't there")
        for machine in MACHINES:
            for kind in FILES:
                os.remove(self.library.file(machine, kind))
                self.assert_differs("not all of it is there")

    def test_each_byte_counts(self):
        for machine in MACHINES:
            for kind in FILES:
                self.write(self.library.file(machine, kind), "x", "a")
                self.assert_differs("it isn't what its MANIFEST says")

    def test_each_line_counts(self):
        sources = self.library.says("sources")
        self.turn(sources, "0" * 64)
        self.assert_differs(f"it is of other sources, with the sum {'0' * 64} and not {sources}")
        self.turn(f"kit {KIT}", "kit some-kit")
        self.assert_differs(f"it was made by some-kit, and this toolchain is {KIT}")
        self.turn(f"kit {KIT}", f"kit {library_folder.program.TRIED[-1]}")
        self.assertEqual(self.library.differs(), "")
        self.write(self.library.manifest, "further line\n", "a")
        self.assert_differs("it isn't what its MANIFEST says")
        self.turn("version ", "version 1")
        self.assert_differs("it is of version 1")

    def test_the_program_has_the_same_version(self):
        with mock.patch.object(library_folder.program, "version", lambda: ("0.0.1", "")):
            self.assertIn("and the program of 0.0.1", self.library.differs())

    def test_each_source_counts(self):
        self.assertLess({"crates/library", "crates/c_library", "crates/commands"},
                        {f"crates/{it}" for it in library_folder.program.crates.below(library_folder.program.crates.read(TOP), "c_library")})
        sums = {library_folder.sum_of_sources()}
        for it in library_folder.LINKING:
            with mock.patch.object(library_folder, "LINKING", [each for each in library_folder.LINKING if each != it]):
                sums.add(library_folder.sum_of_sources())
        self.assertEqual(len(sums), 1 + len(library_folder.LINKING))

    def test_other_archives_give_another(self):
        for it in MACHINES:
            self.write(library_folder.archive_of(it, self.archives), "other")
            self.assertEqual(self.library.differs_from(self.archives), f"{it}/libzirofen.so.0 isn't what these sources give")
            self.library.fill(self.archives)
        os.remove(library_folder.archive_of(it, self.archives))
        self.assertIn("can't be linked", self.library.differs_from(self.archives))


if __name__ == "__main__":
    unittest.main()
