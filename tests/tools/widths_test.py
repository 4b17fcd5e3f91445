"""Tests of widths.py."""
import os, tempfile, unittest

from widths import WIDEST, faults_of, wide_lines


class Widths(unittest.TestCase):
    def test_a_line_may_be_as_wide_as_the_widest(self):
        self.assertEqual(wide_lines("x" * WIDEST + "\n" + "x" * (WIDEST + 1)), [2])

    def test_columns_are_characters(self):
        self.assertEqual(wide_lines("∙" * WIDEST), [])

    def test_an_import_may_be_wider(self):
        self.assertEqual(wide_lines("use " + "x" * WIDEST + "\npub use " + "x" * WIDEST + "\n  use " + "x" * WIDEST), [3])

    def test_files_of_proofs_are_read_at_any_depth_and_no_others(self):
        with tempfile.TemporaryDirectory() as top:
            for folder in ("one/proofs", "one/proofs/f/g", "one/specs"):
                os.makedirs(f"{top}/{folder}", exist_ok=True)
                with open(f"{top}/{folder}/A.antt", "w", encoding="utf-8") as it:
                    it.write("x" * (WIDEST + 1))
            checked, faults = faults_of(top)
            self.assertEqual((checked, len(faults)), (2, 2))


if __name__ == "__main__":
    unittest.main()
