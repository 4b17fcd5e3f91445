"""Tests that what CHANGELOG.md says of a released version stays as it was, and that it has a place for what isn't released."""
import importlib.machinery
import importlib.util
import os
import unittest

TOP = os.path.dirname(os.path.dirname(os.path.dirname(os.path.abspath(__file__))))


def script(path):
    loader = importlib.machinery.SourceFileLoader("changelog", f"{TOP}/{path}")
    made = importlib.util.module_from_spec(importlib.util.spec_from_loader("changelog", loader))
    loader.exec_module(made)
    return made


changelog = script("tools/changelog")
TEXT = "# Changes\n\n## Unreleased\n\n- New.\n\n## 0.2.0, 2026-11-25\n\n- Two.\n\n## 0.1.0, 2026-11-20\n\n- One.\n"


class ChangelogTest(unittest.TestCase):
    def sums(self):
        return "".join(f"{version} {told[0]}\n" for version, told in changelog.sections(TEXT).items())

    def faults(self, text):
        return [each.split(" ")[0] for each in changelog.faults(text, self.sums())]

    def test_released_sections_are_as_they_were(self):
        text = changelog.read(changelog.CHANGES)
        self.assertEqual(list(changelog.faults(text, changelog.read(changelog.SUMS))), [])
        self.assertIn("\n## Unreleased\n", text)

    def test_what_is_found(self):
        self.assertEqual(self.faults(TEXT), [])
        self.assertEqual(self.faults(TEXT.replace("New", "Newer")), [])
        self.assertEqual(self.faults(TEXT.replace("- Two.", "- Two.\n- More.")), ["0.2.0"])
        self.assertEqual(self.faults(TEXT.replace("2026-11-20", "2026-11-21")), ["0.1.0"])
        self.assertEqual(self.faults(TEXT.replace("## Unreleased", "## 0.3.0, 2026-12-01")), ["0.3.0"])
        self.assertEqual(self.faults(TEXT.replace("## Unreleased", "## 0.2.0, 2026-12-01")), ["0.2.0"])
        self.assertEqual(self.faults(TEXT.partition("## 0.1.0")[0]), ["0.1.0"])


if __name__ == "__main__":
    unittest.main()
