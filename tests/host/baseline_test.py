"""Tests of comparing with an earlier report."""
import json
import os
import re
import unittest
from dataclasses import replace

from called import called
from check_test import MARK, HostTest, owned
from zirofen_host.judge import baseline
from shown import comparison_lines, made
from zirofen_host.fault import Fault


class BaselineTest(HostTest):
    def setUp(self):
        super().setUp()
        self.file = f"{self.host.folder}/baseline.json"
        self.host.cgroup("/a", owners=owned(1000))
        self.host.cgroup("/up", owners={"cgroup.procs": (0, 50)}, modes={"cgroup.procs": 0o664})
        self.host.cgroup("/up/b", owners=owned(1001))

    def keep(self, is_accepted=True):
        baseline.write(self.file, made(self.report(json=True)), is_accepted)

    def compared(self, found=None):
        found = replace(made(found or self.report(json=True)))
        compared = baseline.compared(found, baseline.read(self.file), self.file)
        found = replace(found, baseline=compared)
        self.assertEqual(made(self.value_of(found)).baseline, compared)
        *lines, last = comparison_lines(found)
        self.assertRegex(last, f"^{compared.status}($| by |;)")
        told = [line for line in lines if not re.match("    |[0-9]+ findings? (?:is|are) open since|only |limit: |limits of ", line)]
        self.assertEqual(all(line.split(":")[0] in baseline.KINDS for line in told), any(
            getattr(compared, kind) for kind in baseline.KINDS))
        return compared.status, lines

    def test_nothing_is_new(self):
        self.keep()
        status, lines = self.compared()
        self.assertEqual(status, 0)
        self.assertRegex(lines[0], "^nothing is new, worse, changed or gone since 20")

    def test_new(self):
        self.keep()
        self.host.cgroup("/c", owners=owned(1002))
        self.assertEqual(self.compared(), (0, ["new: /c: contained, by 1002 who holds it"]))
        self.host.cgroup("/d", owners={**owned(1002), "memory.max": 1002}, more=("cpu.max",), modes={"cpu.max": 0o666})
        place = f"{self.host.mount}/d"
        self.assertEqual(self.compared(), (1, [
            "new: /d memory.max (1002:0 644): escapes, by carol(1002), of /d", f"    change: chown root {place}/memory.max",
            "new: opened /d cpu.max by everybody", f"    change: chmod o-w {place}/cpu.max",
            "new: /c: contained, by 1002 who holds it", "new: /d: escapes, by 1002 who holds it"]))

    def test_a_new_fault(self):
        self.keep()
        self.host.cgroup("/odd", owners=owned(1000))
        status, lines = self.compared()
        self.assertEqual(status, 3)
        self.assertIn("new: fault: alice(1000) bob(1001) carol(1002) of /odd: fault: subtree missing", lines)
        self.keep()
        status, lines = self.compared()
        self.assertEqual((status, lines[0].partition(": ")[2]), (3, (
            "fault: alice(1000) bob(1001) carol(1002) of /odd: fault: subtree missing")))

    def test_what_nobody_accepted_stands(self):
        self.host.cgroup("/up/b", owners={**owned(1001), "cgroup.max.depth": 1001})
        self.keep(is_accepted=False)
        for _ in range(2):
            status, lines = self.compared()
            self.assertEqual(status, 1)
            self.assertRegex(lines[0], "^2 findings are open since 20[0-9-]*T[0-9:]*Z: /up cgroup.procs .*; /up/b cgroup.max.depth .*$")
            self.assertEqual(lines[1:], [f"    change: chmod 644 {self.host.mount}/up/cgroup.procs",
                                         f"    change: chown root {self.host.mount}/up/b/cgroup.max.depth"])
        self.keep()
        status, lines = self.compared()
        self.assertEqual((status, len(lines)), (0, 1))
        self.assertRegex(lines[0], "^nothing is new")

    def test_what_is_new_isnt_accepted_by_being_seen(self):
        self.keep()
        self.host.cgroup("/c", modes={"cgroup.max.depth": 0o646})
        for _ in range(2):
            self.assertEqual(self.compared()[0], 1)

    def test_a_baseline_of_a_plain_report_accepts_nothing(self):
        baseline.write(self.file, made(self.report(json=True)), True)
        with open(self.file, encoding="ascii") as kept:
            before = json.load(kept)
        del before["accepted"], before["version_1"]
        with open(self.file, "w", encoding="ascii") as out:
            json.dump(before, out)
        self.assertEqual(self.compared()[0], 2)

    def test_what_stands_and_changed_counts(self):
        self.keep(is_accepted=False)
        self.host.cgroup("/up", owners={"cgroup.procs": (7, 50)}, modes={"cgroup.procs": 0o664})
        self.host.cgroup("/up/b")
        self.host.cgroup("/a", modes={"cgroup.max.depth": 0o646})
        self.keep(is_accepted=False)
        self.host.cgroup("/a", modes={"cgroup.max.depth": 0o647})
        status, lines = self.compared()
        self.assertEqual((status, lines[0].split(":")[0]), (1, "changed"))
        self.assertRegex(lines[-2], "^1 finding is open since")

    def test_what_an_update_accepts(self):
        self.host.cgroup("/odd", owners=owned(1000))
        told = list(baseline.accepted_lines(made(self.report())))
        self.assertEqual([line.split(":")[0] for line in told], ["not accepted", "accepted"])
        self.assertTrue(told[0].endswith(": a fault counts in each run"))

    def test_limits_of_version_1_stand_until_they_are_accepted(self):
        self.host.cgroup("/up")
        self.host.cgroup("/up/b")
        found = replace(made(self.report(json=True)), version_1=("cpu", "memory"))
        for is_accepted, status in ((False, 2), (True, 0)):
            baseline.write(self.file, found, is_accepted)
            self.assertEqual(self.compared(found)[0], status)

    def test_worse(self):
        self.keep()
        self.host.cgroup("/up", owners={"cgroup.procs": (0, 50)}, modes={"cgroup.procs": 0o666})
        status, lines = self.compared()
        self.assertEqual(status, 2)
        at = lines.index("worse: /up cgroup.procs (0:50 666): unsettled, by group team(50): carol(1002), everybody, of /up/b")
        self.assertEqual(lines[at + 1:at + 3], [
            "    before: /up cgroup.procs (0:50 664): unsettled, by group team(50): carol(1002), of /up/b",
            f"    change: chmod 644 {self.host.mount}/up/cgroup.procs"])

    def test_an_answer_that_got_worse(self):
        self.host.cgroup("/a", owners={**owned(1000), "memory.max": (0, 50)}, modes={"memory.max": 0o646})
        self.keep()
        self.host.cgroup("/a", owners={**owned(1000), "memory.max": 1000})
        status, lines = self.compared()
        self.assertEqual(status, 1)
        self.assertIn("worse: /a memory.max (1000:0 644): escapes, by alice(1000), of /a", lines)

    def test_one_member_more_is_worse(self):
        self.keep()
        self.host.accounts(group="team:x:50:carol,bob\n")
        status, lines = self.compared()
        self.assertEqual(status, 2)
        self.assertIn("worse: /up cgroup.procs (0:50 664): unsettled, by group team(50): bob(1001) carol(1002), of /up/b", lines)
        self.assertIn("changed: /up: contained, by 1001,1002 who holds it", lines)

    def test_changed_and_gone(self):
        self.host.cgroup("/m.service", owners=owned(1000, 1000), marks=(MARK,), modes={"dir": 0o775})
        self.host.cgroup("/a/in", owners=owned(1001))
        self.keep()
        self.host.cgroup("/up", owners={"cgroup.procs": (7, 50)}, modes={"cgroup.procs": 0o664})
        self.host.cgroup("/m.service", owners=owned(1000, 1000), marks=(MARK,))
        self.host.cgroup("/a/in")
        status, lines = self.compared()
        self.assertEqual(status, 2)
        self.assertIn("changed: /up: contained, by 7 who holds it", lines)
        self.assertEqual([line for line in lines if line.startswith("gone")], [
            "gone: differs /m.service: dir: not as a service manager leaves it", "gone: /a/in: contained, by 1001 who holds it",
            "gone: above: alice(1000), below /a: /a/in"])
        self.host.cgroup("/up")
        status, lines = self.compared()
        self.assertEqual((status, "gone: /up cgroup.procs (0:50 664): unsettled, by group team(50): carol(1002), of /up/b"
                          in lines), (0, True))

    def test_another_host(self):
        found = self.report(json=True)
        before = {**found, "host": "other"}
        compared = baseline.compared(made(found), made({**before, "accepted": True}), self.file)
        self.assertEqual((compared.status, [each.before for each in compared.changed]), (0, ["host: other"]))

    def test_nothing_to_ask_any_more(self):
        self.keep()
        found = made({**self.report(json=True), "asked": False, "entries": [], "subtrees": []})
        self.assertEqual(baseline.compared(found, baseline.read(self.file), "").status, 4)
        baseline.write(self.file, found, True)
        self.assertEqual(baseline.compared(found, baseline.read(self.file), "").status, 0)

    def test_what_is_no_baseline(self):
        for text, told in (("", "no report"), ("{", "no report"), ("[" * 100000, "no report"), ("[]", "version null"),
                           ('{"version": 7}', "version 7"), ('{"version": 1}', "no report"),
                           ('{"version": 1, "subtrees": 3}', "no report"), ("\xff", "no report")):
            with self.subTest(text[:20]):
                with open(self.file, "w", encoding="latin-1") as out:
                    out.write(text)
                with self.assertRaisesRegex(Fault, told):
                    baseline.read(self.file)
        with self.assertRaisesRegex(Fault, "can't read the baseline"):
            baseline.read(self.host.folder)
        self.assertIsNone(baseline.read(f"{self.host.folder}/none"))

    def test_what_cant_be_written(self):
        found = made(self.report(json=True))
        with self.assertRaisesRegex(Fault, "can't write the baseline"):
            baseline.write(f"{self.host.folder}/none/file", found, True)
        baseline.write(self.file, found, True)
        self.assertEqual(baseline.read(self.file), replace(found, accepted=True))
        self.assertEqual([name for name in os.listdir(self.host.folder) if "baseline" in name or name[:1] == "."], ["baseline.json"])

    @unittest.skipUnless(os.geteuid() == 0, "only root gives files away")
    def test_from_outside(self):
        def script(*words):
            return called("check", "--plain-folder", "--mount", self.host.mount, "--proc", self.host.proc, "--accounts", self.host.etc,
                          "--zirofen", self.program, *words)
        plain, first = script(), script("--baseline", self.file)
        self.assertEqual((first.returncode, first.stdout), (2, plain.stdout))
        self.assertEqual(first.stderr, f"zirofen-host check: {self.file} is a baseline from now on, which accepts nothing\n")
        ended = script("--baseline", self.file)
        self.assertEqual((ended.returncode, ended.stdout.split(" since ")[0]), (2, "1 finding is open"))
        ended = script("--baseline-update", self.file)
        self.assertEqual((ended.returncode, ended.stdout), (2, plain.stdout + (
            "accepted: /up cgroup.procs (0:50 664): unsettled, by group team(50): carol(1002), of /up/b\n")))
        ended = script("--baseline", self.file)
        self.assertEqual((ended.returncode, ended.stdout.split(" since ")[0]), (0, "nothing is new, worse, changed or gone"))
        self.host.cgroup("/bad", owners={**owned(1000), "memory.max": 1000})
        ended = script("--baseline", self.file, "--json", "--baseline-update", self.file)
        found = json.loads(ended.stdout)
        self.assertEqual((ended.returncode, found["status"], len(found["baseline"]["new"])), (1, 1, 2))
        with open(self.file, encoding="ascii") as kept:
            self.assertNotIn("baseline", json.load(kept))
        self.assertEqual(script("--baseline", self.file).returncode, 0)


if __name__ == "__main__":
    unittest.main()
