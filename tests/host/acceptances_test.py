"""Tests of findings that are accepted one by one."""
import datetime
import json
import os
import random
import unittest
from dataclasses import replace

import debian_readers
from called import called
from check_test import HostTest, owned
from formats_test import run_of, schema
from made_up import TOP
from shown import comparison_lines, lines_of, made
from zirofen_host.fault import Fault
from zirofen_host.judge import acceptances, baseline, standing
from zirofen_host.judge.rules import RULES
from zirofen_host.profile import ancestors
from zirofen_host.show import junit, metrics, sarif

TODAY = datetime.date(2026, 11, 26)
ROW = {"what": "escapes/limit-file", "path": "/a", "entry": "memory.max", "whom": "alice(1000)", "reason": "a test host",
       "until": "2026-12-31"}


def toml(*rows):
    """The text of a file with these acceptances."""
    def value(each):
        return each.isoformat() if isinstance(each, datetime.date) else json.dumps(each)
    return "".join("[[accept]]\n" + "".join(f"{key} = {value(each)}\n" for key, each in row.items()) for row in rows)


class AcceptancesTest(HostTest):
    def setUp(self):
        super().setUp()
        self.file = f"{self.host.folder}/accept.toml"
        self.host.cgroup("/", enabled="memory")
        self.host.cgroup("/a", owners={**owned(1000), "memory.max": 1000})
        self.host.cgroup("/up", owners={"cgroup.procs": (0, 50)}, modes={"cgroup.procs": 0o664})
        self.host.cgroup("/up/b", owners=owned(1001))
        self.host.cgroup("/web", more=("cpu.max",), modes={"cpu.max": 0o646})

    def write(self, *rows, text=None):
        with open(self.file, "w", encoding="utf-8") as out:
            out.write(toml(*rows) if text is None else text)
        os.chmod(self.file, 0o644)

    def given(self, *rows):
        self.write(*rows)
        return acceptances.read(self.file)

    def applied(self, *rows, today=TODAY):
        found = acceptances.applied(made(self.report(json=True)), self.given(*rows), today)
        self.value_of(found)
        return found

    def states(self, *rows, **more):
        return [each.state for each in self.applied(*rows, **more).acceptances]

    ALL = (ROW, {**ROW, "what": "unsettled/common-ancestor", "path": "/up", "entry": "cgroup.procs", "whom": "group team(50): carol(1002)"},
           {**ROW, "what": "opened", "path": "/web", "entry": "cpu.max", "whom": "everybody"})

    def test_what_is_accepted_is_told_and_not_counted(self):
        plain, found = made(self.report()), self.applied(*self.ALL)
        self.assertEqual((plain.status, found.status, [each.state for each in found.acceptances]), (1, 0, ["accepted"] * 3))
        lines = list(lines_of(found))
        at = lines.index("What was accepted, each for a reason and until a day; what isn't so any more is counted:")
        self.assertEqual(lines[at + 1:at + 4], [
            "accepted: /a memory.max (1000:0 644): escapes, by alice(1000), of /a: a test host, until 2026-12-31",
            "accepted: /up cgroup.procs (0:50 664): unsettled, by group team(50): carol(1002), of /up/b: a test host, until 2026-12-31",
            "accepted: opened /web cpu.max by everybody: a test host, until 2026-12-31"])
        self.assertNotIn("What lets somebody in", "\n".join(lines))
        self.assertEqual(lines[-1], "0; 3 asked: 2 accepted, 1 contained")

    def test_each_alone_leaves_the_others_counted(self):
        for at, status in ((0, 1), (1, 1), (2, 1)):
            found = self.applied(self.ALL[at])
            self.assertEqual((found.status, found.acceptances[0].state), (status, "accepted"))
            accepted = [each for each in (*found.entries, *found.opened) if each.accepted == "a test host, until 2026-12-31"]
            self.assertEqual([each.path for each in accepted], [self.ALL[at]["path"]])
        self.assertEqual(self.applied(self.ALL[0], self.ALL[2]).status, 2)

    def test_how_somebody_is_named(self):
        for whom in ("alice(1000)", "uid 1000", "1000", ["uid 1000", "bob(1001)"], "bob(1001), other(1000)"):
            self.assertEqual(self.states({**ROW, "whom": whom}), ["accepted"], whom)
        for whom in ("group team(50)", "group 50", "group team(50): carol(1002) bob(1001)", "group 50: uid 1002"):
            self.assertEqual(self.states({**self.ALL[1], "whom": whom}), ["accepted"], whom)

    def test_one_that_is_over(self):
        until = datetime.date(2026, 11, 25)
        found = self.applied({**ROW, "until": until})
        self.assertEqual((found.acceptances[0].state, found.status), ("over", 1))
        self.assertIn("an acceptance is over: escapes/limit-file /a memory.max by alice(1000): a test host, until 2026-11-25; now: "
                      "/a memory.max (1000:0 644): escapes, by alice(1000), of /a", list(lines_of(found)))
        self.assertEqual(self.states({**ROW, "until": TODAY}), ["accepted"])
        self.assertEqual(self.states({**ROW, "until": until, "path": "/none"}), ["over"])

    def test_one_that_meets_nothing_counts(self):
        for path in ("/a", "/up", "/web"):
            self.host.cgroup(path, more=("cpu.max",) if path == "/web" else ())
        for row in ({**ROW, "path": "/none"}, {**ROW, "path": "/a"}):
            found = self.applied(row)
            self.assertEqual((found.acceptances[0].state, found.status), ("unmet", 2))
        self.assertIn("an acceptance meets nothing: escapes/limit-file /a memory.max by alice(1000): a test host, until 2026-12-31",
                      list(lines_of(found)))

    def test_what_got_worse(self):
        unsettled = {**self.ALL[1], "what": "escapes/common-ancestor"}
        # better than what was accepted is accepted too
        self.assertEqual(self.states(unsettled), ["accepted"])
        self.host.cgroup("/a", owners={**owned(1000), "memory.max": 1001})
        # another uid
        self.assertEqual(self.states(ROW), ["worse"])
        self.host.cgroup("/a", owners={**owned(1000), "memory.high": 1000})
        # another entry
        self.assertEqual(self.states(ROW), ["worse"])
        # one member more
        self.host.accounts(group="team:x:50:carol,bob\n")
        found = self.applied(self.ALL[1])
        self.assertEqual((found.acceptances[0].state, found.status), ("worse", 1))
        self.assertIn("an acceptance doesn't hold, it got worse: unsettled/common-ancestor /up cgroup.procs by group team(50): "
                      "carol(1002): "
                      "a test host, until 2026-12-31; now: /up cgroup.procs (0:50 664): unsettled, by group team(50): bob(1001) "
                      "carol(1002), of /up/b", list(lines_of(found)))

    def test_an_escape_for_an_unsettled(self):
        report = made(self.report(json=True))
        given = self.given({**ROW, "what": "unsettled/limit-file"})
        self.assertEqual(acceptances.applied(report, given, TODAY).acceptances[0].state, "worse")
        report = replace(report, entries=tuple(replace(each, answer="unsettled") for each in report.entries))
        self.assertEqual(acceptances.applied(report, given, TODAY).acceptances[0].state, "accepted")

    def test_what_stands_beside_one_and_is_accepted_isnt_worse(self):
        self.host.cgroup("/web", more=("cpu.max", "cpu.idle"), modes={"cpu.idle": 0o646})
        rows = [{**self.ALL[2], "entry": entry} for entry in ("cpu.idle", "cpu.max")]
        self.assertEqual(self.states(*rows), ["accepted", "unmet"])

    def of_one_cause(self, **more):
        """The text of one block for what is accepted of alice's, and of it all with one finding more."""
        rows = "".join(f'{{what = "{what}", path = "{path}", entry = {json.dumps(entry)}}}, ' for what, path, entry in (
            ("escapes/limit-file", "/a", ["memory.max", "memory.high"]), ("escapes/limit-file", "/none", "memory.max")))
        keys = {"whom": "alice(1000)", "reason": "one cause", "until": "2026-12-31", **more}
        return f"[[accept]]\nfindings = [{rows}]\n" + "".join(f"{key} = {json.dumps(value)}\n" for key, value in keys.items())

    def test_one_block_of_several_findings(self):
        self.write(text=self.of_one_cause())
        given = acceptances.read(self.file)
        self.assertEqual([(each.what, each.path, each.entry, each.reason) for each in given], [
            ("escapes/limit-file", "/a", "memory.max", "one cause"), ("escapes/limit-file", "/a", "memory.high", "one cause"),
            ("escapes/limit-file", "/none", "memory.max", "one cause")])
        found = acceptances.applied(made(self.report(json=True)), given, TODAY)
        # each finding is accepted by itself, and what isn't there any more is told
        self.assertEqual([each.state for each in found.acceptances], ["accepted", "unmet", "unmet"])

    def test_one_for_some_hosts_alone(self):
        report = made(self.report(json=True))
        for host, states in (("web1", ["accepted"]), (["db", "web1"], ["accepted"]), ("db", []), ("", [])):
            found = acceptances.applied(replace(report, host="web1"), self.given({**ROW, "host": host}), TODAY)
            self.assertEqual(([each.state for each in found.acceptances], found.status), (states, 1), host)
            self.assertEqual(any(each.path == "/a" and isinstance(each.accepted, str) for each in found.entries), bool(states))
        self.assertEqual(acceptances.applied(replace(report, host=""), self.given({**ROW, "host": "db"}), TODAY).acceptances, ())

    def test_what_no_block_of_several_may_have(self):
        for text, told in ((self.of_one_cause(path="/a"), "'path' isn't known"), (self.of_one_cause(host=1), "until is a day"),
                           (self.of_one_cause().replace('what = "escapes/limit-file", ', "", 1), "what isn't there"),
                           (self.of_one_cause().replace("entry = ", "until = 1, entry = ", 1), "'until' isn't known"),
                           (self.of_one_cause().replace('"memory.high"', "1"), "until is a day"),
                           (self.of_one_cause().replace("findings = [", "findings = 1 #"), "until is a day")):
            self.write(text=text)
            with self.subTest(told), self.assertRaisesRegex(Fault, told):
                acceptances.read(self.file)

    def test_what_no_file_may_have(self):
        without = {key: value for key, value in ROW.items() if key != "until"}
        for row, told in ((without, "until isn't there"), ({**ROW, "more": 1}, "'more' isn't known"),
                          ({**ROW, "path": 1}, "until is a day"),
                          ({**ROW, "what": "fault"}, "'fault' is nothing that can be accepted: escapes/common-ancestor,"),
                          ({**ROW, "what": "differs"}, "'differs' is nothing"), ({**ROW, "reason": " "}, "reason is empty"),
                          ({**ROW, "until": "soon"}, "until is a day"), ({**ROW, "until": 3}, "until is a day"),
                          ({**ROW, "whom": "alice"}, "whom 'alice' is nobody as a line names them"),
                          ({**ROW, "whom": 1000}, "until is a day"),
                          ({**ROW, "whom": "group team(50): a(1) and 3 more"}, "whom names all members of a group, or none")):
            with self.subTest(told), self.assertRaisesRegex(Fault, r"accept.toml: \[\[accept\]\] 2: " + told):
                self.given(ROW, row)
        for text in ("{", "accept = 1", "more = 1", "[[accept]]\nwhat", "accept = " + "[" * 3000, "until = 2026-13-45"):
            self.write(text=text)
            with self.subTest(text[:20]), self.assertRaisesRegex(Fault, r"are no TOML with tables \[\[accept\]\] alone"):
                acceptances.read(self.file)
        with open(self.file, "wb") as out:
            out.write(b"# \xff\n")
        with self.assertRaisesRegex(Fault, "aren't UTF-8"):
            acceptances.read(self.file)
        self.write(text="#" * (1 << 20) + "\n")
        with self.assertRaisesRegex(Fault, "is longer than 1048576 bytes"):
            acceptances.read(self.file)
        self.assertIsNone(acceptances.read(f"{self.file}.none"))
        self.assertEqual(self.given(), ())

    @unittest.skipUnless(os.geteuid() == 0, "only root is careful whose word it takes")
    def test_root_takes_roots_word_alone(self):
        for owner, mode in ((1000, 0o644), (0, 0o664), (0, 0o646)):
            self.write(ROW)
            os.chown(self.file, owner, 50)
            os.chmod(self.file, mode)
            with self.assertRaisesRegex(Fault, "somebody else owns or writes it"):
                acceptances.read(self.file)
        self.write(ROW)
        os.chown(self.file, 0, 0)
        os.mkdir(f"{self.host.folder}/theirs")
        os.chown(f"{self.host.folder}/theirs", 1000, 0)
        os.rename(self.file, f"{self.host.folder}/theirs/accept.toml")
        with self.assertRaisesRegex(Fault, "somebody else owns or writes the folder"):
            acceptances.read(f"{self.host.folder}/theirs/accept.toml")
        os.symlink("theirs/accept.toml", self.file)
        os.lchown(self.file, 1000, 0)
        with self.assertRaisesRegex(Fault, "it is a link of somebody else's"):
            acceptances.read(self.file)
        os.remove(self.file)
        os.mkfifo(self.file)
        with self.assertRaisesRegex(Fault, "it is no file"):
            acceptances.read(self.file)

    def test_in_each_format(self):
        run = run_of(self.applied(*self.ALL, {**ROW, "path": "/none"}))
        log = json.loads("".join(sarif.parts_of(run)))
        self.assertEqual(debian_readers.faults_by_schema(schema(), [log]), [[]])
        told = {each["ruleId"]: each.get("suppressions") for each in log["runs"][0]["results"]}
        accepted = [{"kind": "external", "status": "accepted", "justification": "a test host, until 2026-12-31"}]
        self.assertEqual(told, {"escapes/limit-file": accepted, "unsettled/common-ancestor": accepted, "opened": accepted,
                                "acceptance": None})
        [(_, numbers, cases)] = debian_readers.junit_suites(["".join(junit.parts_of(run))])
        self.assertEqual([(subject, name) for subject, name, kinds in cases if kinds == ["Failure"]], [("/none", "acceptance memory.max")])
        self.assertEqual(numbers[1:3], [1, 0])
        self.assertEqual({subject for subject, _, kinds in cases if kinds == ["Skipped"]}, {"/a", "/up/b", "/web"})
        text = "".join(metrics.parts_of(run))
        for line in ("zirofen_accepted_findings 3", 'zirofen_subtrees{answer="accepted"} 2',
                     'zirofen_findings{kind="opened",gravity="escapes"} 0',
                     'zirofen_findings{kind="acceptance",gravity="stale"} 1'):
            self.assertIn(f"{line}\n", text)

    def test_beside_a_baseline(self):
        """What is accepted by itself neither stands nor is new; what is over stands again."""
        before = made(self.report(json=True))
        for rows, status in ((self.ALL, 0), (self.ALL[:2], 1), ((*self.ALL[:2], {**self.ALL[2], "until": "2026-11-25"}), 1),
                             ((*self.ALL, {**ROW, "path": "/none"}), 2)):
            found = self.applied(*rows)
            compared = baseline.compared(found, before, "before.json")
            self.assertEqual(compared.status, status)
            lines = list(comparison_lines(replace(found, baseline=compared)))
            self.assertEqual(sum(line.startswith("accepted: ") for line in lines), min(len(rows), 3) - (status == 1 and len(rows) == 3))
        first = baseline.compared(self.applied(*self.ALL), replace(before, entries=(), opened=(), subtrees=()), "before.json")
        self.assertEqual(([each.line for each in first.new], first.status), (["/up: contained, by 1002 who holds it"], 0))

    @unittest.skipUnless(os.geteuid() == 0, "only root gives files away")
    def test_what_is_inside_of_what_is_accepted(self):
        """As by all ancestors of each one, also beside names that go before a slash."""
        names = ("a", "a.b", "a!", "b", "a-b")
        paths = [f"/{one}{more}" for one in names for more in ("", *(f"/{two}{last}" for two in names for last in ("", "/a", "/a.b")))]
        rng = random.Random(1)
        for _ in range(300):
            some, accepted, others = (set(rng.sample(["/", *paths], rng.randrange(most))) for most in (40, 4, 4))
            by_ancestors = {path for path in some for above in [{path, *ancestors(path)}] if above & accepted and not above & others}
            self.assertEqual(set(standing.walked_down(some, accepted, others)), by_ancestors)

    def test_from_outside(self):
        def script(*words):
            return called("check", "--plain-folder", "--mount", self.host.mount, "--proc", self.host.proc, "--accounts", self.host.etc,
                          "--zirofen", self.program, *words)
        self.write(*({**row, "until": "9999-12-31"} for row in self.ALL))
        ended = script("--accept", self.file)
        self.assertEqual((ended.returncode, ended.stderr, ended.stdout.count("\naccepted: ")), (0, "", 3))
        self.assertEqual([each["state"] for each in json.loads(script("--accept", self.file, "--json").stdout)["acceptances"]],
                         ["accepted"] * 3)
        ended = script("--accept", f"{self.file}.none")
        self.assertEqual((ended.returncode, ended.stderr), (
            1, f"zirofen-host check: {self.file}.none isn't there, and so nothing is accepted by it\n"))
        before = len(self.called())
        self.write(text="accept = 1")
        self.assertEqual((script("--accept", self.file).returncode, len(self.called())), (3, before))

    def test_each_finding_has_a_section(self):
        with open(f"{TOP}/docs/HOSTS.md", encoding="ascii") as text:
            heads = [line for line in text if line.startswith("### ")]
        for kind in RULES:
            self.assertEqual(sum(f"`{kind}`" in head for head in heads), 1, kind)

    def test_all_that_can_be_accepted(self):
        self.assertEqual({kind for kind in RULES if kind not in acceptances.ACCEPTABLE}, {
            "differs", "fault", "fault/own", "failed", "version-1", "nothing-asked", "acceptance", "root-inside/held"})


if __name__ == "__main__":
    unittest.main()
