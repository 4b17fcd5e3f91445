"""Tests that docs/THEOREMS.md tells as many rows and mutants of the tests as there are."""
import os
import re
import sys
import unittest

TOP = os.path.dirname(os.path.dirname(os.path.dirname(os.path.abspath(__file__))))
sys.path[:0] = [os.path.join(TOP, "tests", folder) for folder in ("model", "program")]

import help as told_below  # noqa: E402
import migrations  # noqa: E402
from trials import mutants, row_mutants, row_tables, rows  # noqa: E402


class FiguresTest(unittest.TestCase):
    def assert_told(self, pattern, *counts):
        with open(os.path.join(TOP, "docs/THEOREMS.md"), encoding="utf-8") as page:
            told = re.search(pattern, re.sub(r"\s+", " ", page.read()))
        self.assertTrue(told, pattern)
        self.assertEqual(tuple(map(int, told.groups())), counts)

    def test_rows_of_the_second_model(self):
        self.assert_told(r"draws nothing: (\d+) rows ask", sum(len([*table()]) for table in rows.TABLES.values()))

    def test_mutants(self):
        own = len(row_tables.MUTANTS)
        self.assert_told(r"each of (\d+) mutants of the model ", len(mutants.MUTANTS) - own)
        self.assert_told(r"tell (\d+) mutants, (\d+) of them of its own", len(row_tables.TABLE_OF), own)
        self.assert_told(r"each of (\d+) mutants of the row\.", len(row_mutants.SEARCHED))

    def test_rows_of_help(self):
        mistyped = [*told_below.command_lines(), *told_below.arguments(), *told_below.trees(), *told_below.slips(), *told_below.pairs(),
                    *told_below.subtrees(), *told_below.operations(), *told_below.formats()]
        others = [*told_below.strangers(), *told_below.modes(), *told_below.missing_paths(), *told_below.terminals(), *told_below.beside_json()]
        self.assert_told(r"what (\d+) mistyped command lines, .* beside (\d+) other answers and faults", len(mistyped), len(others))
        self.assertEqual(len(mistyped) + len(others), len([*told_below.rows(None)]))

    def test_migrations(self):
        in_each_format = [*migrations.migrations(None)]
        self.assert_told(r"and (\d+) migrations that a kernel answered, each asked in format 4 as well", len(in_each_format) // 2)


if __name__ == "__main__":
    unittest.main()
