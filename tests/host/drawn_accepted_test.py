"""Tests of findings that were accepted, as a page, a tree and many hosts draw them."""
import json
import os
import tempfile
import unittest
from dataclasses import replace
from datetime import datetime, timezone

import example
from page_reader import PageReader
from shown import made, value_of
from zirofen_host.judge.standing import severity_of
from zirofen_host.judge.model import Acceptance
from zirofen_host.show import chart, fleet, page, tree_view
from zirofen_host.show.finding import Place
from zirofen_host.show.tree_view import Drawing
from zirofen_host.show.view import host_of

WHY = "it lifts <its> own limit, until 2027-03-31"
BUILD = "/system.slice/build.service"


def accepted(which=lambda each: True):
    """The docs' host with some of its findings accepted."""
    report = made(example.kept())
    report = replace(report, entries=tuple(replace(each, accepted=WHY) if which(each) else each for each in report.entries),
                     opened=tuple(replace(each, accepted=WHY) if which(each) else each for each in report.opened))
    return replace(report, status=severity_of(report).status)


def is_of_build(each):
    return each.path == BUILD


def tree_of(report):
    return tree_view.draw(report, Drawing(None, True))


class PageTest(unittest.TestCase):
    maxDiff = None

    def reader(self, report):
        found = PageReader(page.page([report]))
        self.assertEqual(found.faults, [])
        # without its style and its script
        return found.text().partition("cgroup delegations of\n")[2].partition("// Search and filters.")[0]

    def test_one_of_several(self):
        before, behind = self.reader(made(example.kept())), self.reader(accepted(is_of_build))
        self.assertIn("2 of 6 delegations can be broken", before)
        self.assertIn("1 of 6 delegations can be broken", behind)
        self.assertIn(f"Accepted, and not counted: {WHY}.", behind)
        self.assertIn("1 finding was accepted, and not counted.", behind)
        self.assertIn("= accepted", behind)
        self.assertNotIn("accepted", before)
        # how it is done, and what mends it, is told as before
        self.assertIn("build(990) changes a limit of /system.slice/build.service", behind)
        self.assertEqual(before.count("chown root /sys/fs/cgroup/system.slice/build.service/memory.max"),
                         behind.count("chown root /sys/fs/cgroup/system.slice/build.service/memory.max"))

    def test_all_of_them(self):
        report = accepted()
        self.assertEqual(report.status, 0)
        told = self.reader(report)
        self.assertIn("3 of 6 delegations are open by what somebody accepted, and 3 are shown to be contained.", told)
        self.assertIn("0 findings open", told)

    def test_an_acceptance_that_doesnt_hold(self):
        over = Acceptance("opened", "/x", "cpu.max", ("everybody",), "a <reason>", "2026-01-01", "over", None)
        told = self.reader(replace(accepted(is_of_build), acceptances=(over, replace(over, state="accepted", line="kept"))))
        self.assertIn("an acceptance is over: opened /x cpu.max by everybody: a <reason>, until 2026-01-01", told)
        self.assertNotIn("kept", told)

    def test_no_arrow_is_drawn_of_it(self):
        for report, arrows in ((made(example.kept()), 2), (accepted(is_of_build), 1), (accepted(), 0)):
            found = chart.Chart(host_of(report), Place("host-1", True))
            self.assertEqual(len(found.arrows), arrows)
            self.assertTrue(all(found.kind(path) for path in host_of(report).subtrees))

    def test_what_was_accepted_stands_apart_from_what_wasnt(self):
        """Two entries of one place that let in the same."""
        report = made(example.kept())
        first, second, *_ = [each for each in report.entries if each.path == "/user.slice/user-1000.slice"]
        report = replace(report, entries=(replace(first, accepted=WHY), second), opened=())
        self.assertEqual([(each.kind, each.answer, list(each.numbers)) for each in host_of(report).findings
                          if each.key == "entries"], [("escapes", "escapes", [1]), ("accepted", "escapes", [0])])
        self.assertEqual(host_of(report).numbers[2], 1)


class TreeTest(unittest.TestCase):
    def test_as_accepted(self):
        lines = tree_of(accepted(is_of_build))
        at = next(number for number, line in enumerate(lines) if "build.service" in line)
        self.assertTrue(lines[at].endswith("build.service  = accepted"), lines[at])
        self.assertTrue(any(line.endswith(f"= memory.max lets in build(990), accepted: {WHY}") for line in lines[at:at + 5]), lines)
        self.assertTrue(any(line.startswith("= accepted: ") for line in lines))
        self.assertFalse(any("accepted" in line for line in tree_of(made(example.kept()))))


class FleetTest(unittest.TestCase):
    def rows(self, **reports):
        with tempfile.TemporaryDirectory() as folder:
            for name, report in reports.items():
                with open(os.path.join(folder, f"{name}.json"), "w", encoding="utf-8") as out:
                    json.dump({**value_of(report), "host": name}, out)
            return fleet.read_fleet(folder, fleet.Rules(datetime.now(timezone.utc)), lambda *_: None).rows

    def test_how_a_host_stands(self):
        first, second, third = self.rows(a=accepted(), b=accepted(is_of_build), c=made(example.kept()))
        self.assertEqual([(each.name, each.kind, each.status, each.open) for each in (first, second, third)],
                         [("c", "escapes", 1, 4), ("b", "escapes", 1, 3), ("a", "accepted", 0, 0)])
        self.assertTrue(all(line.startswith("accepted: ") for line in third.lines))
        self.assertTrue(third.lines[0].endswith(WHY) or len(third.lines[0]) == fleet.LONGEST_LINE)
        self.assertEqual(len({each.alike for each in (first, second, third)}), 3)


if __name__ == "__main__":
    unittest.main()
