"""Tests of which helper a report is of: its version, and the sum over its own files."""
import json
import os
import re
import shutil
import subprocess
import sys
import tempfile
import unittest
from dataclasses import replace

from check_test import HostTest, owned
from made_up import COMMAND, TOP
from zirofen_host import version
from zirofen_host.judge import as_json, baseline, check
from zirofen_host.judge.host_model import ABSENT
from zirofen_host.judge.mends import KINDS, SHELL

from zirofen_host.show import fleet, fleet_lines, fleet_metrics, fleet_page, junit, lines, mends, metrics, page, sarif, tree_view
from zirofen_host.show.run import Run

PACKAGE = f"{TOP}/host/zirofen_host"
LINE = re.compile(r"zirofen-host 0\.3\.0 \([0-9a-f]{12}\)")


class VersionTest(HostTest):
    def said(self, command=COMMAND):
        environment = {**os.environ, "ZIROFEN": self.program, "PYTHONDONTWRITEBYTECODE": "1"}
        return subprocess.run([sys.executable, command, "--version"], capture_output=True, text=True, env=environment, check=False)

    def test_the_helper_and_the_program_say_theirs(self):
        ended = self.said()
        self.assertEqual((ended.stdout, ended.stderr, ended.returncode), (f"{version.helper_line()}\nmade-up 1.0\n", "", 0))
        self.assertTrue(LINE.fullmatch(version.helper_line()))

    def test_the_sum_is_of_every_file(self):
        with tempfile.TemporaryDirectory() as folder:
            copy = f"{folder}/host/zirofen_host"
            shutil.copytree(PACKAGE, copy, ignore=shutil.ignore_patterns("__pycache__"))
            shutil.copy(COMMAND, f"{folder}/host/zirofen-host")
            before = version.sum_of(copy)
            self.assertEqual(before, version.sum_of(PACKAGE))
            os.mkdir(f"{copy}/__pycache__")
            with open(f"{copy}/__pycache__/x.pyc", "wb") as out:
                out.write(b"x")
            self.assertEqual(version.sum_of(copy), before)
            with open(f"{copy}/show/templates/page.css", "a", encoding="ascii") as out:
                out.write("\n")
            self.assertNotEqual(version.sum_of(copy), before)
            # an installed one has its sum beside it, and sums nothing
            with open(f"{copy}/{version.SUM}", "w", encoding="ascii") as out:
                out.write("0123456789ab\n")
            self.assertIn("(0123456789ab)\n", self.said(f"{folder}/host/zirofen-host").stdout)

    def test_each_report_carries_both(self):
        self.host.cgroup("/a", owners=owned(1000))
        report = check.report(self.host.snapshot(), self.options(), True)
        value, run = self.value_of(report), Run(report, report.status)
        self.assertEqual((value["helper"], value["program"]), (version.helper_line(), "made-up 1.0"))
        (log,) = json.loads("".join(sarif.parts_of(run)))["runs"]
        self.assertEqual(f"zirofen-host {log['tool']['driver']['version']}", version.helper_line())
        self.assertEqual(log["properties"]["program"], "made-up 1.0")
        for said in ("".join(junit.parts_of(run)), page.page([report]), tree_view.draw(report, tree_view.Drawing())[0],
                     list(lines.lines_of(report))[-2], *(list(mends.lines_of(run, kind))[at] for at, kind in ((0, KINDS[0]), (2, SHELL)))):
            self.assertIn(version.helper_line(), said)
            self.assertIn("made-up 1.0", said)
        self.assertIn(f'zirofen_host_info{{version="{version.VERSION}",sum="{version.digits()}",program="made-up 1.0"}} 1\n',
                      "".join(metrics.parts_of(run)))
        compared = replace(report, baseline=baseline.compared(report, report, "before.json"))
        self.assertIn(version.helper_line(), list(lines.comparison_lines(compared, compared.baseline))[-2])

    def test_a_program_may_say_anything(self):
        self.host.cgroup("/a", owners=owned(1000))
        report = replace(check.report(self.host.snapshot(), self.options(), True), program='a"\\\n\x1b')
        self.assertIn('program="a\\"\\\\\\\\n\\\\x1b"} 1\n', "".join(metrics.parts_of(Run(report, 0))))

    def test_what_fleet_writes_has_the_helper(self):
        self.host.cgroup("/a", owners=owned(1000))
        report, folder = check.report(self.host.snapshot(), self.options(), True), f"{self.host.folder}/reports"
        os.mkdir(folder)
        for name, helper in (("a", report.helper), ("b", ABSENT)):
            with open(f"{folder}/{name}.json", "w", encoding="utf-8") as out:
                out.writelines(as_json.parts_of(replace(report, helper=helper)))
        found = fleet.read_fleet(folder, fleet.Rules(None), lambda name, each: None)
        value = fleet.value_of(found)
        self.assertEqual((value["helper"], [each["helper"] for each in value["hosts"]]),
                         (version.helper_line(), [version.helper_line(), None]))
        self.assertEqual(list(fleet_lines.lines_of(found, False))[-2], f"made with {version.helper_line()}")
        self.assertIn(f"Made with {version.helper_line()}.", fleet_page.Index(found).html())
        self.assertIn(f'zirofen_fleet_info{{version="{version.VERSION}",sum="{version.digits()}"}} 1\n',
                      "".join(fleet_metrics.parts_of(found, 1.0, 2.0)))


if __name__ == "__main__":
    unittest.main()
