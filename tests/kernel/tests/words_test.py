"""Tests of what the kernel's own words and cases are held against; nothing is fetched, and no machine is started."""
import os
import subprocess
import sys
import tempfile
import unittest

HERE = os.path.dirname(os.path.abspath(__file__))
TOP = os.path.join(HERE, "..", "..", "..")
sys.path[:0] = [os.path.join(HERE, ".."), os.path.join(HERE, "..", "..", "model")]
from second import commands
from trial import core_cases, document

PROGRAM = f"{TOP}/release/zirofen"
DOCUMENT = """
Basic Operations
================

Processes
---------

Processes live in cgroups.  Only one process can be
migrated on a single write(2) call.  More follows.

Tree
~~~~

A child is made by this::

  # mkdir x

Threads
-------

Nothing of this.
"""
SAID = "Only one process can be migrated on a single write(2) call."
RULES = (("One process a write", "Processes", "Only one process", document.sum_of(SAID)),
         ("A child", "Tree", "A child is made", document.sum_of("A child is made by this::")))
CASES = "struct t {\n} tests[] = {\n" + "".join(f"\tT({row.name}),\n" for row in core_cases.ROWS) + "};\n"


class DocumentTest(unittest.TestCase):
    def test_a_sentence_stands_whatever_its_lines_are(self):
        self.assertEqual(document.faults(DOCUMENT, RULES), [])
        self.assertEqual(document.faults(DOCUMENT.replace("can be\nmigrated", "can\nbe migrated"), RULES), [])
        self.assertEqual(document.sections(DOCUMENT)["Threads"], "Nothing of this.")
        self.assertIn("A child is made by this::", document.sections(DOCUMENT)["Basic Operations"])

    def test_a_changed_sentence_is_named_with_its_rule(self):
        for old, new, told in (("single write(2)", "write(2)",
                                "'Processes' says otherwise what begins with 'Only one process', on which rests: One"),
                               ("Only one process", "One process",
                                "'Processes' has no sentence 'Only one process', on which rests: One process"),
                               ("Tree\n~~~~", "Trees\n~~~~~", "no section 'Tree', on which rests: A child")):
            found = document.faults(DOCUMENT.replace(old, new), RULES)
            self.assertEqual(len(found), 1, found)
            self.assertIn(told, found[0])

    def test_each_rule_that_names_sections_rests_on_sentences_of_these(self):
        with open(f"{TOP}/docs/MODEL.md", encoding="utf-8") as text:
            model = text.read()
        named = dict(document.named_sections(model))
        self.assertGreaterEqual(sum(bool(sections) for sections in named.values()), 10)
        for rule, sections in named.items():
            resting = {section for begin, section, _, _ in document.RULES if rule.startswith(begin)}
            self.assertLessEqual(resting, {*sections}, rule)
            self.assertEqual(bool(resting), bool(sections), rule)
        for begin, *_ in document.RULES:
            self.assertIn(begin, model)


class CasesTest(unittest.TestCase):
    def lines_of(self, row):
        words = ["replay", "--uid", str(row.uid), "--ops", "ops"]
        return commands.respond(words, row.tree.encode(), {"ops": "".join(f"{line}\n" for line in row.operations).encode()})

    def test_each_case_has_a_row(self):
        self.assertEqual(len(core_cases.ROWS), 12)
        self.assertEqual(core_cases.faults(CASES), [])
        self.assertEqual(core_cases.faults(CASES.replace("T(test_cgcore_destroy)", "T(test_cgcore_new)")),
                         ["no row of test_cgcore_new", "no case test_cgcore_destroy"])

    def test_each_row_agrees_or_says_why_it_does_not(self):
        for row in core_cases.ROWS:
            with self.subTest(row.name):
                self.assertTrue(row.outside or row.operations)
                self.assertEqual(self.lines_of(row), ([*row.wanted], 0, ""))

    @unittest.skipUnless(os.path.exists(PROGRAM), "there is no program")
    def test_the_program_says_what_the_kernel_does(self):
        for row in core_cases.ROWS:
            with self.subTest(row.name), tempfile.NamedTemporaryFile("w", suffix=".ops") as ops:
                ops.write("".join(f"{line}\n" for line in row.operations))
                ops.flush()
                words = [PROGRAM, "replay", "--uid", str(row.uid), "--ops", ops.name]
                said = subprocess.run(words, input=row.tree, capture_output=True, text=True, check=False)
                self.assertEqual((said.stdout.splitlines(), said.returncode), ([*row.wanted], 0), said.stderr)


if __name__ == "__main__":
    unittest.main()
