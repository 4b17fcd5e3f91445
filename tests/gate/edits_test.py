"""Tests of what a check of edits looks at."""
import importlib.machinery
import importlib.util
import types
import unittest

from checkout import TOP


def loaded():
    loader = importlib.machinery.SourceFileLoader("edits", f"{TOP}/gate/edits")
    module = importlib.util.module_from_spec(importlib.util.spec_from_loader("edits", loader))
    loader.exec_module(module)
    return module


EDITS = loaded()
LIBRARY, PROGRAM = types.SimpleNamespace(leaves_library=True), types.SimpleNamespace(leaves_library=False)


def edit(*names, part=None):
    return types.SimpleNamespace(names=lambda: {*names}, part=lambda: part)


class PartsTest(unittest.TestCase):
    def test_of_a_library_the_edited_functions(self):
        edits = [edit("low::path::Path::parse"), edit("low::one"), edit("low::one_edited_1")]
        self.assertEqual(EDITS.parts_of(LIBRARY, edits, False), ["one", "one_edited_1", "path::Path::parse"])

    def test_of_a_library_all_where_an_edit_is_outside_functions_or_tried_at_last(self):
        self.assertEqual(EDITS.parts_of(LIBRARY, [edit()], False), [])
        self.assertEqual(EDITS.parts_of(LIBRARY, [edit("low::one"), edit()], False), [])
        self.assertEqual(EDITS.parts_of(LIBRARY, [edit("low::one")], True), [])

    def test_of_a_program_the_module(self):
        for is_last in (False, True):
            self.assertEqual(EDITS.parts_of(PROGRAM, [edit(part="main")], is_last), ["main"])


if __name__ == "__main__":
    unittest.main()
