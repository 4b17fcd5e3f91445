"""Tests of the links of all pages: what is within the repository is there, with its heading, and what leads outward is of the web."""
import collections
import glob
import os
import re
import unittest

from checkout import TOP

LINK = re.compile(r"\]\(([^()\s]+(?:\([^()\s]*\)[^()\s]*)*)\)|(?:src|srcset|href)=\"([^\"]+)\"")


def pages():
    return sorted(glob.glob("*.md", root_dir=TOP) + glob.glob("docs/*.md", root_dir=TOP))


def text(path):
    with open(f"{TOP}/{path}", encoding="utf-8") as page:
        return page.read()


def without_code(page):
    """A page without its blocks of code and what stands in backticks."""
    fenced = re.sub(r"^```.*?^```$", "", page, flags=re.M | re.S)
    return re.sub(r"`[^`\n]*`", "", re.sub(r"^    .*$", "", fenced, flags=re.M))


def links_of(path):
    return [first or second for first, second in LINK.findall(without_code(text(path)))]


def anchors_of(page):
    """The anchors of its headings, as GitHub makes them."""
    seen, found = collections.Counter(), set()
    for head in re.findall(r"^#+ (.*)$", re.sub(r"^```.*?^```$", "", page, flags=re.M | re.S), re.M):
        anchor = re.sub(r"[^\w\- ]", "", re.sub(r"\[([^]]*)\]\([^)]*\)", r"\1", head).lower()).replace(" ", "-")
        found.add(f"{anchor}-{seen[anchor]}" if seen[anchor] else anchor)
        seen[anchor] += 1
    return found


class LinksTest(unittest.TestCase):
    def test_anchors_are_made_as_github_makes_them(self):
        page = "# A `b` c's\n## Keys of `--json`\n## Keys of `--json`\n```\n# none\n```\n"
        self.assertEqual(anchors_of(page), {"a-b-cs", "keys-of---json", "keys-of---json-1"})

    def test_what_is_linked_is_there(self):
        for path in pages():
            for link in links_of(path):
                file, _, anchor = link.partition("#")
                if "://" in link:
                    continue
                with self.subTest(path, link=link):
                    target = os.path.normpath(os.path.join(os.path.dirname(path), file)) if file else path
                    self.assertTrue(os.path.exists(f"{TOP}/{target}"))
                    if anchor:
                        self.assertIn(anchor, anchors_of(text(target)))

    def test_what_leads_outward_is_of_the_web(self):
        outward = [link for path in pages() for link in links_of(path) if "://" in link]
        self.assertGreaterEqual(len(set(outward)), 40)
        for link in outward:
            self.assertRegex(link, r"^https://[\w.-]+/\S*$|^https://[\w.-]+$")


if __name__ == "__main__":
    unittest.main()
