"""Tests of drafts of acceptances: what they accept of the report that they were made of, and that a mistyped word is told the nearest."""
import datetime
import json
import unittest
from dataclasses import replace

from called import called
from check_test import REAL_PROGRAM, HostTest, owned
from made_up import TOP
from shown import made
from zirofen_host.collect.tree import toml_reader
from zirofen_host.judge import acceptances
from zirofen_host.judge.rules import findings_of
from zirofen_host.show import drafts

DAY = datetime.date(2027, 3, 31)
TREE = f"{TOP}/examples/host-service-chown.toml"


@unittest.skipUnless(REAL_PROGRAM, "the program isn't built")
class DraftsTest(HostTest):
    def setUp(self):
        super().setUp()
        self.program = REAL_PROGRAM

    def written(self, lines):
        file = f"{self.host.folder}/accept.toml"
        with open(file, "w", encoding="utf-8") as out:
            out.write("\n".join(lines) + "\n")
        return file

    def test_what_is_drafted_is_accepted(self):
        report = called("check", "--tree", TREE, "--json").stdout
        kept = f"{self.host.folder}/report.json"
        with open(kept, "w", encoding="ascii") as out:
            out.write(report)
        ended = called("accept", kept, "--reason", 'until it is "split"', "--until", str(DAY))
        self.assertEqual((ended.returncode, ended.stderr), (0, ""))
        blocks = toml_reader("a draft")(ended.stdout)["accept"]
        self.assertEqual(len(blocks), 1)
        self.assertEqual((blocks[0]["reason"], blocks[0]["until"]), ('until it is "split"', DAY))
        named = [(row["what"], row["path"], entry) for row in blocks[0]["findings"] for entry in row["entry"]]
        self.assertEqual(named, [("escapes/limit-file", each["path"], each["entry"]) for each in json.loads(report)["entries"]])
        self.assertGreater(len(named), 2)
        checked = called("check", "--tree", TREE, "--accept", self.written(ended.stdout.splitlines()))
        self.assertEqual(checked.returncode, 0, checked.stdout)

    def test_every_kind_that_a_made_up_host_has(self):
        self.host.cgroup("/", enabled="memory")
        self.host.cgroup("/up", enabled="memory", modes={"cgroup.procs": 0o646})
        self.host.cgroup("/up/svc", owners={**owned(1000), "memory.max": 1000})
        report = made(self.report())
        wanted = drafts.Wanted("known", DAY)
        lines = drafts.drafts(report, wanted)
        given = acceptances.read(self.written(lines))
        self.assertGreater(len(given), 1)
        accepted = acceptances.applied(report, given, datetime.date(2026, 1, 1))
        self.assertEqual({each.state for each in accepted.acceptances}, {"accepted"})
        self.assertEqual(drafts.drafts(accepted, wanted), ["# nothing of this report is to be accepted"])
        self.assertEqual(len([line for line in drafts.drafts(report, wanted, ["/none"]) if line == "[[accept]]"]), 0)

    def test_one_block_for_one_cause(self):
        self.host.cgroup("/", enabled="memory", modes={"cgroup.procs": 0o646})
        self.host.cgroup("/a", owners={**owned(1000), "memory.max": 1000})
        for path in ("/team", "/team/in"):
            self.host.cgroup(path, enabled="memory", owners={"memory.max": (0, 50)}, modes={"memory.max": 0o664})
        self.host.cgroup("/team/in/b")
        report = made(self.report())
        blocks = toml_reader("a draft")("\n".join(drafts.drafts(report, drafts.Wanted("known", DAY, "web1"))))["accept"]
        # what is open at the root is another cause than what is open below it
        self.assertEqual([block["whom"] for block in blocks], [["everybody"], ["alice(1000)"], ["group team(50)"]])
        self.assertEqual({block["host"] for block in blocks}, {"web1"})
        self.assertEqual((blocks[1]["path"], blocks[1]["entry"]), ("/a", "memory.max"))
        self.assertEqual({row["path"] for row in blocks[2]["findings"]}, {"/team", "/team/in"})

    def test_lines_of_roots_files_are_causes(self):
        self.host.cgroup("/", enabled="memory")
        for name in ("a", "b", "c"):
            self.host.cgroup(f"/{name}", owners={**owned(1000), "memory.max": 1000})
        found = list(findings_of(made(self.report())))
        causes = {"/a": ("/etc/x:1: chown -R alice /sys/fs/cgroup/a /sys/fs/cgroup/b",)}
        causes["/b"] = causes["/a"]
        told = [replace(each, causes=causes.get(each.path, ())) for each in found]
        self.assertEqual([[each.path for each in of] for of in drafts.by_cause(told)], [["/a", "/b"], ["/c"]])

    def test_of_a_host_that_isnt_named(self):
        with open(f"{self.host.folder}/report.json", "w", encoding="ascii") as out:
            out.write(called("check", "--tree", TREE, "--json").stdout)
        ended = called("accept", f"{self.host.folder}/report.json", "--reason", "known", "--host")
        self.assertEqual((ended.returncode, ended.stdout), (3, ""))
        self.assertIn("names no host", ended.stderr)

    def test_faults(self):
        for words, told in (((TREE, "--reason", "known"), "no JSON"), (("-", "--reason", " "), "has a reason"),
                            (("-", "--reason", "known", "--until", "soon"), "soon is no day")):
            ended = called("accept", *words)
            self.assertEqual((ended.returncode, ended.stdout), (3, ""))
            self.assertIn(told, ended.stderr)


class NearestTest(unittest.TestCase):
    def test_what_is_mistyped_is_told_the_nearest(self):
        for words, told in ((("chekc",), "there is no command chekc (check is near)"), (("xyzzy",), "there is no command xyzzy; "),
                            (("check", "--acept", "x"), "--acept x (--accept is near); "),
                            (("tree", "--colour", "blue"), "argument --colour/--color: invalid choice: 'blue'")):
            ended = called(*words)
            self.assertEqual((ended.returncode, ended.stdout, ended.stderr.count("\n")), (3, "", 1), words)
            self.assertIn(told, ended.stderr)


if __name__ == "__main__":
    unittest.main()
