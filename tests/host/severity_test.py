"""Tests of the one order of severities: whatever is made of a report, in whichever form, has the same status and the same numbers."""
import itertools
import json
import os
import random
import re
import tempfile
import unittest
from dataclasses import replace
from xml.etree import ElementTree

from check_test import GROUP, PASSWD, SUBORDINATE, HostTest
from made_up import MEMORY, TOP, MadeUp
from made_up_hosts import TODAY, DrawnHost
from page_reader import PageReader
from shown import made, value_of
from zirofen_host.arguments import DESCRIPTIONS
from zirofen_host.judge import acceptances, check, limits
from zirofen_host.judge.host_model import ABSENT, Owner, ReportCgroup
from zirofen_host.judge.model import (Acceptance, AnswerLimit, EntryFinding, FaultFinding, HeldBy, HeldFinding, HolderAnswer,
                                      OpenedFinding, Report, ReportNote, RootInside, RunsElsewhere, Subtree, Whom)
from zirofen_host.ask.guards import GUARD_AT
from zirofen_host.judge.severity import STATUSES, Severity
from zirofen_host.judge.standing import severity_of, standings
from zirofen_host.show import fleet, fleet_lines, junit, lines, metrics, page, sarif, tree_view
from zirofen_host.show.run import Run
from zirofen_host.show.tree_view import Drawing

HOSTS = 200
OWNED, WHY = Owner(1000, 0, "644"), "a reason, until 2099-01-01"
ANSWERS = ("contained", "escapes", "unsettled parent-dir /", "fault: odd")
LAST = re.compile(r"([0-9])(?: by .+?)?; ([0-9]+) asked: ")


class Drawn:
    """A made-up host's report, in which things are drawn by chance."""

    def __init__(self, seed):
        self.chance = random.Random(seed)
        # quiet hosts and loud ones
        self.odds = self.chance.choice((0.0, 0.03, 0.15, 0.5))
        # of a quiet host nothing counts but one thing, or nothing
        self.one = None if self.odds else self.chance.choice((None, "own", "v1", "stale", "inside"))

    def some(self, most=2):
        return range(sum(self.chance.random() < self.odds for _ in range(most)))

    def accepted(self):
        return WHY if self.chance.random() < 0.3 else ABSENT

    def whom(self):
        uid = self.chance.choice((1000, 1001, 1002))
        return (Whom("owner", uid, f"uid {uid}", ()),)

    def report(self):
        chance = self.chance
        paths = [f"/s{number}" for number in range(0 if self.one == "inside" else chance.choice((0, 1, 1, 3, 6)))]
        subtrees = tuple(map(self.subtree, paths))
        found = Report(1, "zirofen 0.0.0", "drawn", "6.1", "2026-11-29T00:00:00Z", "/sys/fs/cgroup", bool(paths), True, subtrees,
                       self.entries(paths), self.opened(paths), self.faults(paths), (), (), tuple(self.failed()), (), 0,
                       ("memory",) if self.one == "v1" or chance.random() < self.odds / 2 else (), (), limits=self.limits())
        running = self.running(paths)
        marked = {path for each in running for path in (each.path, *each.elsewhere)}
        found = replace(found, subtrees=tuple(
            replace(each, marks=("runs elsewhere",)) if each.path in marked else each for each in subtrees))
        found = replace(found, runs_elsewhere=running or ABSENT, held_entries=self.held(paths) or ABSENT,
                        root_inside=self.inside(paths) or ABSENT, users=(), groups=(), processes=(),
                        acceptances=tuple(self.stale()) or ABSENT,
                        cgroups=tuple(ReportCgroup(path, Owner(0, 0, "755"), (), None, {}, {}) for path in ("/", *paths, "/x")))
        if found.version_1:
            found = replace(found, limits=(*found.limits, AnswerLimit("v1", "limits of memory are v1's and weren't looked at")))
        return replace(found, status=severity_of(found).status)

    def subtree(self, path):
        uid = self.chance.choice((1000, 1001, 1002))
        answer = self.chance.choice(ANSWERS) if self.chance.random() < self.odds else "contained"
        lines = (answer, f"set {path} memory.max max") if answer == "escapes" else (answer,)
        given = HolderAnswer(str(uid), (uid,), 1, (), lines, self.chance.random() < self.odds / 3)
        return Subtree(path, None, None, HeldBy("owner", (uid,)), (given,))

    def entries(self, paths):
        names = [name for name in GUARD_AT if name not in ("unknown", "already-over")]
        return tuple(EntryFinding(path, self.chance.choice(names), OWNED, self.chance.choice(ANSWERS[1:2] + ("unsettled",)), self.whom(),
                                  (path,), None, (), None, accepted=self.accepted()) for path in paths for _ in self.some())

    def opened(self, paths):
        return tuple(OpenedFinding(path, "cpu.max", OWNED, self.whom(), (), None, None, accepted=self.accepted())
                     for path in (*paths, "/x") for _ in self.some(1))

    def faults(self, paths):
        return tuple(FaultFinding("uid 1000", 1000, (), "odd", (path,), self.chance.choice((None, "uid 1000")))
                     for path in paths for _ in self.some(1)) or tuple(
            FaultFinding("uid 1000", 1000, (), "odd", (path,), "uid 1000") for path in paths if self.one == "own")

    def failed(self):
        return (ReportNote("failed", "accounts", "a look that failed") for _ in self.some(1))

    def limits(self):
        kinds = [AnswerLimit("only", "nothing but /s0 was asked about")] if self.chance.random() < 0.2 else []
        return tuple(kinds)

    def running(self, paths):
        return tuple(RunsElsewhere(path, ("/x",), self.whom(), "sh", (7,), self.chance.random() < 0.5, (), (), None,
                                   accepted=self.accepted()) for path in (*paths, "/") for _ in self.some(1))

    def held(self, paths):
        return tuple(HeldFinding(path, "cgroup.procs", OWNED, self.whom(), "sh", (7,), ("open",), self.chance.random() < 0.5, (), None,
                                 accepted=self.accepted()) for path in (*paths, "/") for _ in self.some(1))

    def inside(self, paths):
        return tuple(RootInside(path, 1, ("root",), is_held, ("nsdelegate" if is_held else "it loads code",),
                                () if is_held else ("module",), (), None, ABSENT if is_held else self.accepted())
                     for path in (*paths, "/x") for _ in (self.some(1) or range(self.one == "inside"))
                     for is_held in [self.one == "inside" or self.chance.random() < 0.5])

    def stale(self):
        return (Acceptance("opened", "/x", "cpu.max", ("everybody",), "a reason", "2026-01-01", "over", None)
                for _ in (self.some(1) or range(self.one == "stale")))


class Forms(unittest.TestCase):
    """That the forms of a report say the same of how it stands."""

    def forms_agree(self, report):
        """Status, last line, table, the page's head, the tree, JUnit's, SARIF's and metrics' counts, and the fleet's row."""
        severity, standing = severity_of(report), standings(report)
        run = Run(report, report.status, ended=1795736189.0)
        *_, last = lines.lines_of(report)
        status, asked = map(int, LAST.match(last).groups())
        self.assertEqual((status, asked), (report.status, len(standing)), last)
        self.assertEqual(" by " in last.partition(";")[0], report.status != 0, last)
        contained = sum(each in (Severity.CONTAINED, Severity.LIMITED) for each in standing.values())
        for each in Severity:
            count = sum(found is each for found in standing.values())
            word = "contained [" if each is Severity.LIMITED else each.value
            self.assertEqual(f"{count} {word}" in last.partition("asked: ")[2], count > 0, (last, each))
        self.the_table(report, standing)
        self.the_page(report, severity, contained)
        self.the_fleet(report, severity, contained)
        self.the_others(run, severity, standing)

    def the_table(self, report, standing):
        """Each subtree has its rows, and one that is contained no other answer."""
        shown = list(lines.table(report, True)) if report.subtrees else []
        for subtree in report.subtrees:
            for who, _, answer, path, _ in lines.rows_of(subtree, limits.mark_of(report), True):
                row = [line for line in shown if line.startswith(who) and f"  {answer} " in line and path in line]
                self.assertTrue(row, (who, answer, path))
                if standing[path] in (Severity.CONTAINED, Severity.LIMITED) and not answer.startswith("above: "):
                    self.assertRegex(answer, r"^(contained|held by root alone)( \[(limited|v1)\])*$")
                    self.assertEqual("[" in answer, bool(report.limits))

    def the_page(self, report, severity, contained):
        drawn = page.page([report])
        head = re.search(r'<p class="sentence ([a-z-]+)">', drawn)[1]
        numbers = tuple(map(int, re.findall(r"<strong>([0-9]+)</strong>", drawn)[:3]))
        self.assertEqual((head, numbers[:2]), (severity.value.replace(" ", "-"), (len(standings(report)), contained)))
        self.assertEqual(PageReader(drawn).faults, [])
        tree = "\n".join(tree_view.draw(report, Drawing(None, True)))
        self.assertIn(f"Status {report.status}", tree)
        self.assertIn(f": {contained} shown to be contained", tree)

    def the_fleet(self, report, severity, contained):
        with tempfile.TemporaryDirectory() as folder:
            with open(os.path.join(folder, "drawn.json"), "w", encoding="utf-8") as out:
                json.dump(value_of(report), out)
            found = fleet.read_fleet(folder, fleet.Rules(None), lambda name, each: None)
        (row,) = found.rows
        self.assertEqual((row.kind, row.status, found.status, row.delegations, row.contained),
                         (severity.value, report.status, report.status, len(standings(report)), contained))
        self.assertTrue(fleet_lines.sum_line(found).startswith(f"1 host: 1 {severity.value}"))

    def the_others(self, run, severity, standing):
        (log,) = json.loads("".join(sarif.parts_of(run)))["runs"]
        self.assertEqual(log["invocations"][0]["exitCode"], run.status)
        levels = {each["level"] for each in log["results"] if "suppressions" not in each}
        graver = {level for level in levels if level != "note"}
        counted = [each for each in log["results"] if "suppressions" not in each and each["level"] != "note"]
        self.assertEqual(len(counted), sum(each.is_counted for each in run.findings))
        if not any(kind is severity for kind in standing.values()) or severity not in STATUSES:
            self.assertEqual(bool(graver), run.status != 0, (severity, log["results"]))
        suite = ElementTree.fromstring("".join(junit.parts_of(run)))
        failing = int(suite.get("failures")) + int(suite.get("errors"))
        self.assertEqual(failing > 0, run.status != 0, severity)
        failed = {case.get("classname") for case in suite.iter("testcase")
                  if case.find("failure") is not None or case.find("error") is not None}
        for path, of in standing.items():
            if of in (Severity.CONTAINED, Severity.LIMITED, Severity.ESCAPES):
                self.assertEqual(path in failed, of is Severity.ESCAPES, (path, of))
        told = dict(re.findall(r'zirofen_subtrees\{answer="([a-z_]+)"\} ([0-9]+)', "".join(metrics.parts_of(run))))
        counts = {each.value.replace(" ", "_"): sum(found is each for found in standing.values()) for each in Severity}
        self.assertEqual({word: int(count) for word, count in told.items()}, {word: counts[word] for word in told})
        self.assertEqual(sum(map(int, told.values())), len(standing))


class DrawnTest(Forms):
    """Reports that are drawn as data: all that one may tell, together as no host has it."""

    def test_all_forms_agree(self):
        severities = set()
        for seed in range(HOSTS):
            report = made(value_of(Drawn(seed).report()))
            severities.add(severity_of(report))
            with self.subTest(seed):
                self.forms_agree(report)
        self.assertEqual(severities, set(Severity) - {Severity.ABOVE}, "what no host of them is")


class WalkedTest(Forms, HostTest):
    """Hosts that are made up, walked over and asked."""

    folder = MEMORY

    def report_of(self, seed):
        """The report of a host, with what is accepted of it."""
        with tempfile.TemporaryDirectory(dir=MEMORY) as folder:
            self.host = MadeUp(folder)
            self.host.accounts(passwd=PASSWD, group=GROUP, subuid=SUBORDINATE, subgid=SUBORDINATE)
            drawn = DrawnHost(seed, self.host)
            drawn.write()
            options = self.options(**drawn.options)
            with drawn.seen() as mount_options:
                taken = replace(self.host.snapshot(only=options.only), mount_options=mount_options)
                report = check.report(taken, options, True)
        given = drawn.accepted(report)
        return acceptances.applied(report, given, TODAY) if given else report

    def test_all_forms_agree(self):
        severities = set()
        for seed in range(HOSTS):
            with self.subTest(seed):
                report = self.report_of(seed)
                severities.add(severity_of(report))
                self.value_of(report)
                self.forms_agree(report)
        self.assertEqual(severities, set(Severity) - {Severity.ABOVE}, "what no host of them is")


class TableTest(unittest.TestCase):
    def test_help_and_docs_have_the_statuses_of_the_table(self):
        statuses = [str(status) for status, _ in itertools.groupby(each.status for each in Severity)]
        for name in ("check", "fleet"):
            told = DESCRIPTIONS[name].partition("The status is ")[2]
            found = re.findall(r"\b([0-4])\s+where|else\s+(0)\.", told)
            self.assertEqual(found, [(each, "") for each in statuses[:-1]] + [("", "0")], name)
        with open(f"{TOP}/docs/REPORTS.md", encoding="utf-8") as page_of_reports:
            section = page_of_reports.read().partition("## How grave a host is\n")[2].partition("\n## ")[0]
        self.assertEqual(re.findall(r"^\| `([a-z ]+)` \|.*\| ([0-4]) \|$", section, re.M),
                         [(each.value, str(each.status)) for each in Severity])

    def test_a_fault_is_gravest_but_where_a_holder_makes_it(self):
        self.assertEqual([each.status for each in Severity], [3, 1, 1, 2, 3, 4, 2, 2, 0, 0, 0, 0, 0])


if __name__ == "__main__":
    unittest.main()
