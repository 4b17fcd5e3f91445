"""Tests of what a host's check asks of everybody, and of whom it asks what isn't held so."""
import os
import unittest
from dataclasses import replace
from unittest import mock

import answer_limits_test
from check_test import REAL_PROGRAM, HostTest, owned
from made_up import path
from zirofen_host.ask.program import Ended, Program, Refused, abilities_of
from zirofen_host.collect import bounded
from zirofen_host.judge import check, limits
from zirofen_host.judge.standing import standings
from zirofen_host.show import page
from zirofen_host.show.lines import lines_of

EVERYBODY = ["everybody"]


def against(found):
    return {each["path"]: each.get("against") for each in found["subtrees"]}


class EverybodyTest(HostTest):
    """Three delegations, of which one lies in a slice that somebody writes."""

    def setUp(self):
        super().setUp()
        self.host.cgroup("/alice", owners=owned(1000))
        self.host.cgroup("/bob", owners=owned(1001))
        self.host.cgroup("/up", modes={"cgroup.procs": 0o646})
        self.host.cgroup("/up/carol", owners=owned(1002))

    def reports(self):
        """The report where the program asks everybody, and where it can't; both without their times."""
        found = []
        for more in ("everybody",), ():
            if os.path.exists(self.calls):
                os.remove(self.calls)
            self.can("all", "advise", "pairs", "settle", *more)
            found.append({**self.report(), "time": None})
        return found

    def without_against(self, found):
        return {**found, "subtrees": [{**{key: value for key, value in each.items() if key != "against"},
                                       "answers": [{**answer, "gids": []} for answer in each["answers"]]} for each in found["subtrees"]]}

    def test_a_report_says_against_whom(self):
        self.can("all", "advise", "pairs", "everybody")
        found = self.report()
        self.assertEqual((against(found)["/alice"], against(found)["/bob"]), (EVERYBODY, EVERYBODY))
        self.assertNotEqual(against(found)["/up/carol"], EVERYBODY)
        asked = [call for call in self.called() if call[:2] == ["audit", "--everybody"]]
        self.assertEqual(["--subtrees" in call for call in asked], [True])
        self.assertNotIn("/alice", [word for call in self.called() if call not in asked for word in call])

    def test_nothing_else_is_asked_where_all_is_held(self):
        self.host.cgroup("/up")
        self.can("all", "advise", "pairs", "settle", "everybody")
        found = self.report()
        self.assertEqual(({*map(tuple, against(found).values())}, found["status"]), ({("everybody",)}, 0))
        self.assertEqual(sum(call[0] == "audit" for call in self.called()), 1)
        self.assertEqual({answer for _, _, answer, _ in self.rows(found)}, {"contained"})

    def test_answers_are_those_of_a_program_that_cannot_ask_everybody(self):
        """Whatever stands open; but that nothing is said of against whom, and of the groups by which it was asked."""
        openings = ({}, {"modes": {"cgroup.procs": 0o646}}, {"owners": {"dir": (1001, 0)}}, {"modes": {"cgroup.subtree_control": 0o666}})
        for opened in openings:
            self.host.cgroup("/up", **opened)
            known, older = self.reports()
            with self.subTest(opened):
                self.assertEqual(self.without_against(known), self.without_against(older))
                self.assertEqual({*against(older).values()}, {None})

    def test_lines_say_against_whom(self):
        """Of whom a group keeps from what others write, what was found of them is what it stands on."""
        self.host.cgroup("/up", owners={"cgroup.procs": (0, 50)}, modes={"cgroup.procs": 0o664})
        self.host.accounts(group="team:x:50:bob\n")
        self.can("all", "advise", "pairs", "everybody")
        options = self.options()
        lines = self.lines(check.report(self.host.snapshot(tree_format=options.tree_format), options, False))
        told = [line for line in lines if line.startswith("against ")]
        self.assertEqual(told[0], "against everybody but root, whoever there is: 3 of 4 contained")
        self.assertEqual(told[1:], ["against carol(1002), who was found, contained: /up/carol"])

    def test_groups_that_are_not_known_concern_what_is_listed_alone(self):
        """Whoever has more processes than are looked at may be in any group."""
        for pid in range(10, 30):
            self.host.process(pid, uid=1000, gid=1000)
            self.host.process(100 + pid, uid=1002, gid=1002)
        small = mock.patch.object(bounded, "PROCESSES", bounded.PROCESSES._replace(most=5))
        with small:
            known, older = self.reports()
        self.assertEqual([each["subtrees"] for each in older["faults"]], [["/alice"], ["/up/carol"]])
        self.assertEqual([each["subtrees"] for each in known["faults"]], [["/up/carol"]])

    def test_a_fault_against_everybody_is_none_of_people(self):
        """It is asked of them as before."""
        self.host.cgroup("/strange", owners=owned(1000))
        known, older = self.reports()
        self.assertNotIn(EVERYBODY, against(known).values())
        self.assertEqual(self.without_against(known), self.without_against(older))

    @unittest.skipUnless(REAL_PROGRAM and abilities_of(REAL_PROGRAM).has_everybody, "no program that asks everybody is there")
    def test_the_program_answers_as_it_is_played(self):
        held = []
        for self.program in self.program, REAL_PROGRAM:
            self.can("all", "advise", "pairs", "everybody")
            held.append([top for top, whom in against(self.report()).items() if whom == EVERYBODY])
        self.assertEqual(held, 2 * [["/alice", "/bob", "/up"]])

    def test_what_wasnt_asked_for_is_refused(self):
        held = ["fails parent-dir / dir 1000:0 755 owner"]
        for lines, status in ((["subtree /b", *held], 1), (["subtree /a"], 1), (["subtree /a", *held], 0), (["subtree /a", "escapes"], 1),
                              (["contained"], 1), (["contained", "contained"], 0), (held, 1)):
            with self.subTest(lines), mock.patch.object(Program, "run", lambda *_: Ended(status, lines)), self.assertRaises(Refused):
                Program("none", f"{self.host.folder}/tree").held([path("/a")])
        for lines, status, found in ((["subtree /a", *held], 1, set()), (["contained"], 0, {path("/a")})):
            with mock.patch.object(Program, "run", lambda *_: Ended(status, lines)):
                self.assertEqual(Program("none", f"{self.host.folder}/tree").held([path("/a")]), found)


class LimitsTest(HostTest):
    """What isn't known of people, of a text without accounts, in which everybody breaks one of two delegations."""

    written, of_text = answer_limits_test.AnswerLimitsTest.written, answer_limits_test.AnswerLimitsTest.of_text

    def setUp(self):
        super().setUp()
        self.host.cgroup("/a", owners=owned(1000))
        self.host.cgroup("/b", owners={**owned(1001), "memory.max": (0, 0)}, modes={"memory.max": 0o666})

    def told(self, **more):
        self.can("all", "advise", "pairs", "everybody")
        report = self.of_text(self.written(is_carried=False), **more)
        return report, [line for line in lines_of(report) if "  /" in line]

    def test_what_is_held_against_everybody_has_no_mark_of_it(self):
        report, rows = self.told()
        self.assertEqual({each.kind for each in report.limits}, {limits.ACCOUNTS, limits.PREMISES})
        premises = replace(report, limits=tuple(each for each in report.limits if each.kind == limits.ACCOUNTS))
        self.assertEqual([limits.mark_of(premises, each) for each in premises.subtrees], ["", limits.MARK])
        self.assertEqual([severity.value for _, severity in sorted(standings(premises).items())], ["contained", "escapes"])
        self.assertEqual(len(rows), 2)

    def test_where_all_is_held_it_is_no_limit(self):
        self.host.cgroup("/b", owners=owned(1001))
        report, _ = self.told()
        self.assertEqual([each.kind for each in report.limits], [limits.PREMISES])
        self.can("all", "advise", "pairs")
        self.assertEqual([each.kind for each in self.of_text(self.written(is_carried=False)).limits], [limits.ACCOUNTS, limits.PREMISES])

    def test_the_page_says_against_whom(self):
        self.host.cgroup("/b", owners=owned(1001))
        made = page.page([self.told()[0]])
        self.assertIn("What is contained is so against everybody but root, whoever there is.", made)


class WhoIsThereTest(HostTest):
    def test_somebody_with_a_process_alone_was_asked(self):
        """Nobody but root holds anything."""
        self.host.cgroup("/system.slice")
        self.host.cgroup("/system.slice/a.service", marks=("trusted.delegate",), pids=[7])
        self.host.process(7, uid=1000, gid=1000)
        found = {}
        for more in ("everybody",), ():
            self.can("all", "advise", "pairs", *more)
            report = self.report()
            found[more] = (report["asked"], report["status"], self.rows(report))
        self.assertEqual(found["everybody",], found[()])
        self.assertEqual(found[()][:2], (True, 0))


if __name__ == "__main__":
    unittest.main()
