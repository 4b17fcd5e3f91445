"""Tests of what is drawn and written for the pages: the gallery's table of examples, and the diagram of a delegation."""
import os
import runpy
import tempfile
import unittest

from checkout import TOP


def tool(name):
    return runpy.run_path(f"{TOP}/tools/{name}")


def text(path):
    with open(f"{TOP}/{path}", encoding="ascii") as file:
        return file.read()


class GalleryTest(unittest.TestCase):
    def test_the_table_is_of_the_examples(self):
        self.assertEqual(tool("gallery")["page"](), text("docs/GALLERY.md"), "tools/gallery --write writes it anew")

    def test_each_example_has_a_row(self):
        for name in os.listdir(f"{TOP}/examples"):
            if name.endswith(".toml"):
                self.assertIn(f"(../examples/{name}) |", text("docs/GALLERY.md"))


class DiagramTest(unittest.TestCase):
    def test_both_are_as_drawn(self):
        with tempfile.TemporaryDirectory() as room:
            tool("diagram")["main"](room)
            for name in ("delegation-light.svg", "delegation-dark.svg"):
                with open(f"{room}/{name}", encoding="ascii") as drawn:
                    self.assertEqual(drawn.read(), text(f"docs/{name}"), "tools/diagram draws it anew")


if __name__ == "__main__":
    unittest.main()
