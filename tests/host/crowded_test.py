"""Tests of the page of a host with many delegations, measured in a real browser."""
import tempfile
import unittest

import browser
import crowded
import paper
from page_reader import PageReader
from shown import made
from zirofen_host.judge import saved
from zirofen_host.show import page, words

MANY, MOST = 300, 2000
LONGEST, DEEPEST = 95, 15


def setUpModule():
    folder = tempfile.TemporaryDirectory()
    unittest.addModuleCleanup(folder.cleanup)
    CrowdedTest.folder = folder.name
    for name, report in (("many", crowded.report(MANY)), ("most", crowded.report(MOST)),
                         ("long", crowded.report(MANY, LONGEST, DEEPEST))):
        saved.check(report, name)
        page.write(f"{folder.name}/{name}.html", [made(report)])
    CrowdedTest.browser = browser.Browser()
    unittest.addModuleCleanup(CrowdedTest.browser.__exit__)


class CrowdedTest(unittest.TestCase):
    folder = browser = None

    def file(self, name):
        return f"{self.folder}/{name}.html"

    def text(self, name):
        with open(self.file(name), encoding="utf-8") as opened:
            return opened.read()

    def open(self, name, width=1280, **more):
        self.browser.open(self.file(name), width, **more)

    def shown(self, selector):
        """The texts of what can be seen of these."""
        return self.browser.value(f"[...document.querySelectorAll('{selector}')].filter(each => each.checkVisibility())"
                                  ".map(each => each.innerText.trim())")

    def number(self, expression):
        return self.browser.value(f"document.{expression}")

    def type(self, word):
        for letter in word:
            self.browser.key(letter)
        self.browser.settle()


class WholeTest(CrowdedTest):
    def test_it_is_well_formed_and_has_each_delegation_once(self):
        for name, count in (("many", MANY), ("most", MOST)):
            reader = PageReader(self.text(name))
            self.assertEqual(reader.faults, [])
            self.assertEqual(sum(each.startswith("host-1-subtrees-") for each in reader.ids), count)
            self.assertEqual(reader.tags.count("article"), len(crowded.KINDS))

    def test_two_thousand_delegations_are_under_two_megabytes(self):
        self.assertLess(len(self.text("most").encode()), 2_000_000)

    def test_heights_where_all_is_folded(self):
        for width, most in ((1280, 6000), (390, 12000)):
            self.open("many", width)
            self.browser.value("document.querySelectorAll('.finding > details').forEach(each => { each.open = false; })")
            self.assertLess(self.number("documentElement.scrollHeight"), most, width)

    def test_nothing_stands_out(self):
        for name in ("many", "long"):
            for width in (1280, 768, 390, 320):
                for scheme in ("light", "dark"):
                    self.open(name, width, scheme=scheme)
                    self.browser.value("document.querySelectorAll('details').forEach(each => { each.open = true; })")
                    self.assertLessEqual(self.number("documentElement.scrollWidth"), width, (name, width, scheme))

    def test_what_speaks_against_the_sum_stands_in_the_first_view(self):
        for width, height in ((1280, 720), (768, 1024), (390, 844), (320, 568)):
            self.open("many", width)
            self.assertLess(self.number("querySelector('.against').getBoundingClientRect().bottom"), height, width)
            self.assertIn("5 delegations without an answer", self.shown(".against")[0])

    def test_on_paper(self):
        self.open("many", 794, media="print")
        self.browser.printed(f"{self.folder}/many.pdf")
        sheets = paper.filled(f"{self.folder}/many.pdf")
        self.assertLessEqual(len(sheets), 25)
        self.assertGreaterEqual(min(sheets[:-1]), 0.5, sheets)
        rows = self.number("querySelectorAll('tbody tr').length")
        self.assertEqual((rows, len(self.shown("tbody tr"))), (MANY, MANY))
        self.assertEqual(len(self.shown(".tree .at")), self.number("querySelectorAll('.tree .at').length"))
        # of what is alike one has its picture
        self.assertEqual((self.number("querySelectorAll('.finding figure').length"), len(self.shown(".finding figure"))), (10, 2))
        self.assertEqual([self.number(f"querySelector('svg.{size}').checkVisibility()") for size in ("wide", "tall")], [True, False])
        self.assertEqual(len(self.shown(".member")), 30)

    def test_two_thousand_on_a_screen_and_on_paper(self):
        """With a note on each of them: notes and rows that hold are folded."""
        self.open("most")
        self.assertLessEqual(self.number("documentElement.scrollHeight"), 15000)
        self.assertEqual(len(self.shown("#host-1-unseen span")), 12)
        self.open("most", 794, media="print")
        self.browser.printed(f"{self.folder}/most.pdf")
        self.assertLessEqual(len(paper.filled(f"{self.folder}/most.pdf")), 45)

    def test_names_are_put_in_order_by_their_numbers(self):
        self.assertLess(words.in_order("/a9.slice/b"), words.in_order("/a10.slice/b"))


class CostTest(CrowdedTest):
    def cost(self, name, width):
        """The seconds of processor for loading a page, and of each key of a search."""
        self.browser.call("Page.navigate", url="about:blank")
        self.browser.settle()
        self.open(name, width)
        self.browser.settle()
        seconds = [self.browser.seconds()]
        self.browser.value("document.querySelector('.search input').focus()")
        for letter in "user1":
            before = self.browser.seconds()
            self.browser.key(letter)
            self.browser.settle()
            seconds.append(self.browser.seconds() - before)
        return seconds

    def measure(self):
        """Seven times the delegations cost at most eight times as much, by hand: `python3 -m unittest crowded_test.CostTest.measure`."""
        for width in (1280, 390):
            few, many = ([min(each) for each in zip(*(self.cost(name, width) for _ in range(3)))] for name in ("many", "most"))
            for what, one, other in zip(["load", *"user1"], few, many):
                self.assertLess(other, 8 * one, (width, what, few, many))


class SearchTest(CrowdedTest):
    """By keyboard alone."""

    def focus(self, selector):
        """Goes to an element by the key Tab."""
        for _ in range(40):
            self.browser.key("Tab")
            if self.browser.value(f"document.activeElement.matches('{selector}')"):
                return
        self.fail(f"no way to {selector}")

    def said(self, box=".search"):
        return self.number(f"querySelector('{box} output').textContent")

    def test_search_opens_what_it_finds_and_counts(self):
        self.open("many")
        self.focus(".search input")
        self.assertEqual(self.shown(".hit"), [])
        self.type("user-10251")
        self.assertEqual(self.said(), "2 hits")
        row, branch = self.shown(".hit")
        self.assertIn("/user.slice/user-10251.slice/user@10251.service", row)
        self.assertEqual(branch, "user-10251.slice")
        self.browser.key("Enter")
        self.assertEqual((self.said(), len(self.shown(".here"))), ("1 of 2 hits", 1))
        self.browser.key("Enter", shift=True)
        self.assertEqual(self.said(), "2 of 2 hits")
        self.assertTrue(self.browser.value("(at => at.top >= 0 && at.bottom <= innerHeight)"
                                           "(document.querySelector('.here').getBoundingClientRect())"))
        self.assertTrue(self.browser.value("(at => at.top >= 0 && at.bottom <= innerHeight)"
                                           "(document.querySelector('.search input').getBoundingClientRect())"))
        self.type("x")
        self.assertEqual((self.said(), self.shown(".hit"), self.number("querySelectorAll('.rest[open]').length")), ("no hit", [], 0))

    def test_search_and_filters_dont_reach_into_print(self):
        self.open("many")
        self.browser.value("document.querySelector('.search input').focus()")
        self.type("job1")
        self.browser.value("document.querySelector('.filters input').focus()")
        self.type("job10000")
        self.assertEqual((len(self.shown("tbody tr")), self.said(".filters")), (1, "1 of 300"))
        self.browser.call("Emulation.setEmulatedMedia", media="print")
        self.assertEqual((len(self.shown("tbody tr")), self.shown(".search, .filters")), (MANY, []))
        self.assertEqual(self.browser.value("getComputedStyle(document.querySelector('.hit')).backgroundColor"), "rgba(0, 0, 0, 0)")

    def test_filters(self):
        self.open("many")
        for at, value, kept, said in ((0, "fault", 5, "5 of 300"), (0, "contained", 275, "275 of 300"), (0, "", MANY, ""),
                                      (1, "user10007(10007)", 1, "1 of 300"), (1, "", MANY, "")):
            self.browser.value(f"(field => {{ field.value = '{value}'; field.dispatchEvent(new Event('input', {{ bubbles: true }})); }})"
                               f"(document.querySelectorAll('.filters select')[{at}])")
            self.assertEqual((len(self.shown("tbody tr")), self.said(".filters")), (kept if value else MANY, said), value)

    def test_a_link_opens_the_fold_that_it_leads_into(self):
        self.open("many")
        self.focus("tbody a")
        for _ in range(7):
            self.browser.key("Tab")
        place = self.browser.value("document.activeElement.hash")
        self.browser.key("Enter")
        self.browser.settle()
        self.assertTrue(self.number(f"querySelector('{place}').checkVisibility()"), place)
        self.assertTrue(self.number(f"querySelector('{place} pre').checkVisibility()"), place)


if __name__ == "__main__":
    unittest.main()
