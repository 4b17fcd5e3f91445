"""Tests of what reads TOML for the second model, and of what it says nothing of."""
import os
import random
import sys
import tomllib
import unittest

sys.path.insert(0, os.path.dirname(os.path.dirname(os.path.abspath(__file__))))
from second import documents

# no TOML 1.0, and TOML 1.1
NEWER = [
    'x = "\\e"', 'x = "\\x41"', 'x = "\\\\\\e"', 'x = """\n\\e"""', '"\\x41" = 1',
    "x = { a = 1,\n}", "x = { a = 1, }", "x = { a = 1,\t}", "x = {\n}", "x = { # }\n}", "x = {\r\n a = 1 }", "x = [{ a = [1],\n}]",
    'cgroup = [{ path = "/", dir = { uid = 0 }\n}]', 'cgroup = [{ path = "/", dir = { uid = 0 } # and a comment\n}]',
    "x = { a = { b = 1 }, c = '}'\n}", 'x = { a = "{", b = "}"\n}', "x = { a = '''}'''\n}", "# \"\nx = { a = 1,\n}",
    "x = 07:32", "x = 1979-05-27T07:32", "x = 1979-05-27 07:32Z", "x = [07:32, 07:32:00]", "x = 1979-05-27T07:32-07:00",
]
# TOML 1.0, and what Python has no word for
MOMENTS = ["x = 23:59:60", "x = 0000-01-01"]
# no TOML of any version
REFUSED = [
    "x = ", "x = [", "x = ]", "x = {", "x = { a = 1 }}", "x = [{ a = 1 ]}", "x = { a = [1,\n}", 'x = "', "x = '\n'", 'x = """\\e',
    "x = '\\e", 'x = "\\\\e', 'x = "\\q"', 'x = "\\\\x" 1', "x = '\\x41' 1", 'x = """"""" 1', "x = '''\\e''' 1", "x = { a = [1,\n2] } 1",
    "x = { a = '''\n''' } 1", "x = [ # {\n] 1", "x = '07:32' 1", "# 07:32\nx =", "x = [1,\n] 1", "[x\n", "x = { a = 1 } }\n", "x = [,]",
]
# what stands where a reader may think that a table ends or begins, each as TOML 1.0
BODIES = ["1", "'}'", '"{"', '"\\""', "'\\'", '"""\n}""\\\n"""', "'''\n{''\n'''", "[\n1, # }\n]", "{}", "{ y = '#' }", "[{ y = [\n] }]"]


class DocumentsTest(unittest.TestCase):
    def test_texts_that_are_toml_1_1_alone_are_left_open(self):
        for text in [*NEWER, *MOMENTS]:
            self.assertRaises(ValueError, tomllib.loads, text)
            self.assertTrue(documents.may_be_newer(text), text)
            with self.assertRaises(documents.Unsure, msg=text):
                documents.document_of(text.encode())

    def test_texts_of_no_toml_are_refused(self):
        for text in REFUSED:
            self.assertFalse(documents.may_be_newer(text), text)
            with self.assertRaises(documents.Fault, msg=text):
                documents.document_of(text.encode())
        with self.assertRaises(documents.Fault):
            documents.document_of(b"x = 1 # \xff")

    def test_a_newline_is_seen_behind_whatever_an_inline_table_holds(self):
        for number in range(400):
            rng = random.Random(number)
            table = ", ".join(f"k{at} = {rng.choice(BODIES)}" for at in range(rng.randrange(1, 4)))
            before = f"a = {rng.choice(BODIES)}\n[[t]]\n[[t]]\nb = ["
            for end in ("\n", " # '\n", ", ", ",\n", "\r\n"):
                old, new = (f"{before}{{ {table}{between}}}]\n" for between in (" ", end))
                tomllib.loads(old)
                self.assertFalse(documents.may_be_newer(old), old)
                self.assertTrue(documents.may_be_newer(new), new)

    def test_numbers_past_64_bits_are_refused(self):
        for number in (2 ** 63, -2 ** 63 - 1, "1e400"):
            with self.assertRaises(documents.Fault, msg=number):
                documents.document_of(f"x = [{{ y = {number} }}]".encode())
        self.assertEqual(documents.document_of(f"x = {2 ** 63 - 1}".encode()), {"x": 2 ** 63 - 1})

    def test_what_may_be_too_deep_is_left_open(self):
        for text in ("a = " + "[" * 90 + "]" * 90, ".".join("a" * 90) + " = 1"):
            with self.assertRaises(documents.Unsure):
                documents.document_of(text.encode())
        for text in ("a = '" + "[." * 90 + "'", 'a = "' + "[." * 90 + '"', "# " + "[." * 90):
            documents.document_of(text.encode())

    def test_a_text_is_at_most_as_long_as_is_said(self):
        data = b"#" * documents.MOST_BYTES
        self.assertEqual(documents.document_of(data), {})
        with self.assertRaisesRegex(documents.Fault, "too-long"):
            documents.document_of(data + b"#")


if __name__ == "__main__":
    unittest.main()
