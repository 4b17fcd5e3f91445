"""Tests of what others read: SARIF, JUnit and metrics, of every kept report and of made-up hosts."""
import json
import os
import shlex
import stat
import subprocess
import tempfile
import unittest
from dataclasses import replace

import debian_readers
import example
from as_json_test import kept_reports
from called import called
from check_test import MARK, HostTest, owned
from made_up import HERE, TOP
from shown import made
from zirofen_host.fault import Fault
from zirofen_host.judge import baseline
from zirofen_host.judge.host_model import Owner
from zirofen_host.judge.model import FaultFinding, OpenedFinding, ReportNote, Whom
from zirofen_host.judge.rules import RULES, findings_of
from zirofen_host.options import CheckOptions, Way
from zirofen_host.show import formats, junit, markup, metrics, rule_help, sarif
from zirofen_host.show.run import Run

# what a user may have as a name, and no reader may act on
ODD = "/a/{0}[b](http://x)<&\"'\x1b[31m\u202e"
ESCAPING = f"{TOP}/examples/delegation-limit-writable.toml"


def schema():
    with open(f"{HERE}/data/sarif.schema.json", encoding="ascii") as text:
        return json.load(text)


def run_of(value, **more):
    report = made(value)
    return Run(report, **{"status": report.status, "seconds": 1.5, "ended": 1795736189.0, **more})


def odd_report():
    """A report with one of each kind of finding, under names that are made to harm. Without its faults nothing was found to ask."""
    found = made(example.kept())
    whom = (Whom("others", None, "everybody", ()),)
    opened = OpenedFinding(ODD, "cpu.max", Owner(0, 0, "666"), whom, (f"chmod o-w {shlex.quote(ODD)}",), None, None)
    faults = (FaultFinding("everybody", None, (), "it <changes>", (ODD,), None),
              FaultFinding("alice(1000)", 1000, (), "too large", ("/a/b",), "alice(1000)"))
    entries = tuple(replace(each, path=ODD, answer=answer) for each in found.entries[:1] for answer in ("escapes", "unsettled"))
    return replace(found, opened=(opened, *found.opened), faults=faults, entries=(*entries, *found.entries), asked=False, status=3,
                   version_1=("cpu",), host="web\u202e1", unseen=(ReportNote("failed", "accounts", "no"), *found.unseen))


def runs():
    """A run of each kept report, and one with all that can harm."""
    for name, report in kept_reports():
        yield name, run_of(report)
    yield "odd", run_of(odd_report())


class SarifTest(unittest.TestCase):
    def log(self, run):
        return json.loads("".join(sarif.parts_of(run)))

    def results(self, run):
        return self.log(run)["runs"][0]["results"]

    def test_every_report_is_as_the_schema_says(self):
        names, logs = zip(*((name, self.log(run)) for name, run in runs()))
        for name, faults in zip(names, debian_readers.faults_by_schema(schema(), logs)):
            self.assertEqual(faults, [], name)

    def test_the_schema_finds_what_isnt_so(self):
        log = self.log(run_of(odd_report()))
        result = log["runs"][0]["results"][0]
        result["level"], result["more"], result["message"]["text"] = "fatal", 1, "{0}"
        [faults] = debian_readers.faults_by_schema(schema(), [log])
        self.assertEqual(sorted(faults), ["$.runs[0].results[0]", "$.runs[0].results[0].level", "$.runs[0].results[0].message.text"])

    def test_names_harm_no_reader(self):
        text = "".join(sarif.parts_of(run_of(odd_report())))
        self.assertTrue(text.isascii())
        for each in self.results(run_of(odd_report())):
            self.assertTrue(each["message"]["text"].replace("\n", "").isprintable())
            self.assertNotRegex(each["message"]["text"], r"(?<!\\)\[[^\]]*\]\(|(?<!\{)\{0")

    def test_levels_are_by_severity(self):
        reports = (odd_report(), replace(odd_report(), faults=()))
        levels = {each["ruleId"]: each["level"] for report in reports for each in self.results(run_of(report))}
        self.assertLessEqual({"escapes/limit-file", "unsettled/common-ancestor", "opened", "fault", "fault/own", "failed", "version-1",
                              "nothing-asked"}, set(levels))
        for kind, level in levels.items():
            is_error = kind.startswith(("escapes/", "opened")) or kind in ("fault", "failed")
            self.assertEqual(level, "error" if is_error else "note" if kind == "differs" else "warning", kind)

    def test_each_rule_is_told_of_once(self):
        log = self.log(run_of(example.kept()))
        rules = [rule["id"] for rule in log["runs"][0]["tool"]["driver"]["rules"]]
        self.assertEqual(rules, list(RULES))
        self.assertTrue(all(rules[each["ruleIndex"]] == each["ruleId"] for each in log["runs"][0]["results"]))

    def test_each_rule_has_what_the_docs_say_of_it(self):
        copied = subprocess.run([f"{TOP}/tools/findings"], stdout=subprocess.PIPE, text=True, check=True).stdout
        self.assertEqual(markup.read(rule_help.FILE), copied, "tools/findings --write writes it anew")
        for page in (None, "https://example.org/docs/HOSTS.md"):
            run = replace(run_of(example.kept()), help_uri=page)
            for rule in self.log(run)["runs"][0]["tool"]["driver"]["rules"]:
                text = rule["help"]["markdown"]
                self.assertIn("*Means*: ", text)
                self.assertIn(f"\n\n*How grave*: `{RULES[rule['id']].severity.value}`, status ", text)
                self.assertIs("](" in text, bool(page) and "](" in rule_help.sections()[rule["id"]].markdown, rule["id"])
                self.assertNotIn("](#", text)
                self.assertEqual("helpUri" in rule, bool(page))
        rules = {rule["id"]: rule for rule in self.log(run)["runs"][0]["tool"]["driver"]["rules"]}
        self.assertEqual(rules["escapes/limit-file"]["helpUri"], f"{page}#escapeslimit-file-unsettledlimit-file")
        self.assertEqual([faults for faults in debian_readers.faults_by_schema(schema(), [self.log(run)])], [[]])

    def test_a_page_that_is_none(self):
        for word in ("docs/HOSTS.md", "https://", "javascript:x", "https://a b"):
            ended = called("check", "--tree", ESCAPING, "--help-uri", word)
            self.assertEqual((ended.returncode, ended.stdout), (3, ""))
            self.assertIn("it is no address of a page", ended.stderr)

    def test_a_fingerprint_stays_while_the_finding_does(self):
        report = made(example.kept())
        first = report.entries[0]
        worse = replace(first, whom=(*first.whom, Whom("others", None, "everybody", ())), subtrees=(*first.subtrees, "/x"))
        (before, *_), (after, *_) = (self.results(run_of(replace(report, entries=(each,)))) for each in (first, worse))
        self.assertEqual(before["partialFingerprints"], after["partialFingerprints"])
        everywhere = [each["partialFingerprints"][sarif.FINGERPRINT] for _, run in runs() for each in self.results(run)]
        self.assertEqual(len(set(everywhere)), len(everywhere))

    def test_the_line_of_a_row(self):
        report = replace(made(example.kept()), entries=(replace(made(example.kept()).entries[0], path="/c0"),), opened=())
        for tree, uri in ((ESCAPING, "examples/delegation-limit-writable.toml"), ("./a b/%.toml", "a%20b/%25.toml"),
                          ("/etc/x", "file:///etc/x")):
            with self.subTest(tree):
                here = os.getcwd()
                os.chdir(TOP)
                try:
                    [result, *_] = self.results(run_of(report, tree=tree, text=ESCAPING))
                finally:
                    os.chdir(here)
                place = result["locations"][0]["physicalLocation"]
                self.assertEqual((place["artifactLocation"]["uri"], place["region"]), (uri, {"startLine": 25}))
        with open(ESCAPING, encoding="ascii") as text:
            self.assertEqual(text.read().split("\n")[24], 'path = "/c0"')

    def test_a_host_is_a_logical_location(self):
        [result, *_] = self.results(run_of(example.kept()))
        self.assertEqual(list(result["locations"][0]), ["logicalLocations"])
        self.assertTrue(result["locations"][0]["logicalLocations"][0]["fullyQualifiedName"].startswith("web1:/"))
        [result, *_] = self.results(run_of(example.kept(), tree="-"))
        self.assertEqual(list(result["locations"][0]), ["logicalLocations"])


class JunitTest(unittest.TestCase):
    def suites(self, named):
        return debian_readers.junit_suites(["".join(junit.parts_of(run)) for run in named])

    def test_every_report_is_read_back(self):
        named = [run for _, run in runs()]
        for run, (name, numbers, cases) in zip(named, self.suites(named)):
            outcomes = [kind for _, _, kinds in cases for kind in kinds]
            self.assertEqual(numbers, [len(cases), outcomes.count("Failure"), outcomes.count("Error"), outcomes.count("Skipped")])
            self.assertTrue("".join(junit.parts_of(run)).isascii())
            # whatever counts fails a case
            self.assertEqual(any(numbers[1:3]), run.status != 0, name)

    def test_a_case_for_each_subtree_and_whom(self):
        [(name, _, cases)] = self.suites([run_of(example.kept())])
        told = {(subject, case): kinds for subject, case, kinds in cases}
        self.assertEqual(name, "web1")
        report = made(example.kept())
        for subtree in report.subtrees:
            for each in subtree.answers:
                failed = not each.is_above and each.lines[0] != "contained"
                self.assertEqual(told[subtree.path, f"held by {each.who}"], ["Failure"] if failed else [])
        for each in report.opened:
            self.assertEqual(told[each.path, f"opened {each.file}"], ["Failure"])
        self.assertEqual(told["/batch.slice/nightly.service", "let in: group team(50)"], ["Failure"])

    def test_faults_are_errors(self):
        [(_, _, cases)] = self.suites([run_of(odd_report())])
        told = {(subject, case): kinds for subject, case, kinds in cases}
        self.assertEqual(told["/a/b", "answered"], ["Error"])
        self.assertEqual(told["the host", "answered"], ["Error"])
        self.assertEqual((told["the host", "something is asked"], told["the host", "no limits are v1's"]), ([], ["Failure"]))
        [(_, _, cases)] = self.suites([run_of(replace(odd_report(), faults=()))])
        self.assertIn(["the host", "something is asked", ["Error"]], cases)


class MetricsTest(unittest.TestCase):
    def test_promtool_has_nothing_against_any(self):
        for name, run in runs():
            self.assertEqual(debian_readers.promtool("".join(metrics.parts_of(run))), "", name)

    def test_labels_name_nothing_of_a_host(self):
        """All series are there, whatever a host has. The kept reports were made by programs of several versions."""
        of_one = [replace(run, report=replace(run.report, program="zirofen")) for _, run in runs()]
        kinds = {tuple(line.rpartition(" ")[0] for line in "".join(metrics.parts_of(run)).splitlines()) for run in of_one}
        self.assertEqual(len(kinds), 1)

    def test_the_numbers(self):
        run = run_of(odd_report())
        told = dict(line.rsplit(" ", 1) for line in "".join(metrics.parts_of(run)).splitlines() if line[0] != "#")
        self.assertEqual((told["zirofen_status"], told["zirofen_run_seconds"], told["zirofen_last_run_timestamp_seconds"]),
                         ("3", "1.5", "1795736189"))
        self.assertEqual([told[f'zirofen_faults{{of="{word}"}}'] for word in ("anybody", "holders", "look")], ["1", "1", "1"])
        counted = [found.rule.id for found in findings_of(run.report)]
        self.assertEqual(told['zirofen_findings{kind="opened",gravity="escapes"}'], str(counted.count("opened")))
        self.assertEqual(told['zirofen_findings{kind="limit-file",gravity="escapes"}'], str(counted.count("escapes/limit-file")))
        self.assertEqual(float(told["zirofen_subtrees_asked"]),
                         sum(float(value) for name, value in told.items() if name.startswith("zirofen_subtrees{")))

    def test_node_exporter_serves_them(self):
        with tempfile.TemporaryDirectory() as folder:
            file = f"{folder}/zirofen.prom"
            formats.write(Way("metrics", file), run_of(example.kept()))
            self.assertEqual((stat.S_IMODE(os.stat(file).st_mode), os.listdir(folder)), (0o644, ["zirofen.prom"]))
            with debian_readers.node_exporter(folder) as served:
                lines = served()
                self.assertIn("node_textfile_scrape_error 0", lines)
                told = dict(line.rsplit(" ", 1) for line in lines if line.startswith("zirofen_"))
                self.assertEqual(len(told), sum(line[0] != "#" for line in "".join(metrics.parts_of(run_of(example.kept()))).splitlines()))
                self.assertEqual(float(told["zirofen_status"]), 1)
                self.assertEqual(float(told["zirofen_last_run_timestamp_seconds"]), 1795736189)


class WaysTest(HostTest):
    def test_the_ways_of_a_command_line(self):
        text, json_, file = Way("text"), Way("json"), Way("sarif", "x")
        for options, ways in (({}, (text,)), ({"json": True}, (json_,)), ({"format": (file,)}, (text, file)),
                              ({"format": (file,), "json": True}, (file, json_)), ({"format": (Way("junit"),)}, (Way("junit"),))):
            self.assertEqual(formats.ways_to_check(CheckOptions(**options)), ways)
        for given in ((text, json_), (file, Way("junit", "x"))):
            with self.assertRaisesRegex(Fault, "two reports would go to"):
                formats.ways_to_check(CheckOptions(format=given))

    def script(self, *words):
        return called("check", "--plain-folder", "--mount", self.host.mount, "--proc", self.host.proc, "--accounts", self.host.etc,
                      "--zirofen", self.program, *words)

    @unittest.skipUnless(os.geteuid() == 0, "only root gives files away")
    def test_several_from_one_walk(self):
        self.host.cgroup("/a", owners={**owned(1000), "memory.max": 1000}, marks=(MARK,))
        plain = self.script()
        files = {kind: f"{self.host.folder}/{kind}" for kind in ("text", "json", "sarif", "junit", "metrics")}
        before = len(self.called())
        ended = self.script(*(word for kind, file in files.items() for word in ("--format", f"{kind}={file}")))
        self.assertEqual((ended.returncode, ended.stdout, ended.stderr), (1, plain.stdout, ""))
        self.assertEqual(len(self.called()), 2 * before)
        with open(files["text"], encoding="ascii") as text:
            self.assertEqual(text.read(), plain.stdout)
        with open(files["json"], encoding="ascii") as text:
            self.assertEqual(json.load(text)["status"], 1)
        ended = self.script("--format", "metrics")
        self.assertEqual((ended.returncode, ended.stdout.splitlines()[5]), (1, "zirofen_subtrees_asked 1"))
        self.assertEqual(json.loads(self.script("--format", "json").stdout).keys(), json.loads(self.script("--json").stdout).keys())

    def test_what_isnt_a_format(self):
        for word, told in (("yaml", "'yaml' is none of text, json, sarif, junit, metrics"), ("sarif=", "there is no file behind =")):
            ended = self.script("--format", word)
            self.assertEqual((ended.returncode, ended.stdout), (3, ""))
            self.assertIn(told, ended.stderr)

    @unittest.skipUnless(os.geteuid() == 0, "only root is refused others' folders")
    def test_metrics_go_below_a_folder_of_others_and_nothing_else_does(self):
        """As Debian's /var/lib/prometheus, which isn't root's, and its node-exporter, which is."""
        folder = f"{self.host.folder}/prometheus"
        os.makedirs(f"{folder}/node-exporter")
        os.chown(folder, 1000, 1000)
        run, file = run_of(example.kept()), f"{folder}/node-exporter/x.prom"
        formats.write(Way("metrics", file), run)
        with self.assertRaisesRegex(Fault, "somebody else owns or writes the folder"):
            formats.write(Way("sarif", file), run)
        os.symlink("node-exporter", f"{folder}/link")
        os.lchown(f"{folder}/link", 1000, 1000)
        with self.assertRaisesRegex(Fault, "is a link of somebody else's"):
            formats.write(Way("metrics", f"{folder}/link/x.prom"), run)
        os.chown(f"{folder}/node-exporter", 1000, 1000)
        with self.assertRaisesRegex(Fault, "somebody else owns or writes the folder"):
            formats.write(Way("metrics", file), run)
        self.assertEqual(os.listdir(f"{folder}/node-exporter"), ["x.prom"])

    def test_beside_a_baseline(self):
        """What the baseline accepts is so in each of them."""
        self.host.cgroup("/a", owners={**owned(1000), "memory.max": 1000}, marks=(MARK,))
        before = replace(made(self.report(json=True)), accepted=True)
        self.host.cgroup("/b", owners={**owned(1000), "memory.max": 1000}, marks=(MARK,))
        report = made(self.report(json=True))
        run = run_of(replace(report, baseline=baseline.compared(report, before, "before.json")))
        found = json.loads("".join(sarif.parts_of(run)))["runs"][0]["results"]
        told = {each["locations"][0]["logicalLocations"][0]["fullyQualifiedName"].partition(":")[2]: each for each in found}
        self.assertEqual((told["/a"]["baselineState"], told["/b"]["baselineState"]), ("unchanged", "new"))
        self.assertEqual(([each["status"] for each in told["/a"]["suppressions"]], "suppressions" in told["/b"]), (["accepted"], False))
        self.assertEqual(debian_readers.faults_by_schema(schema(), [json.loads("".join(sarif.parts_of(run)))]), [[]])
        [(_, numbers, cases)] = debian_readers.junit_suites(["".join(junit.parts_of(run))])
        self.assertEqual((numbers[1:], [kinds for subject, _, kinds in cases if subject == "/a"]), ([1, 0, 1], [["Skipped"]]))
        self.assertIn("zirofen_accepted_findings 1\n", "".join(metrics.parts_of(run)))


if __name__ == "__main__":
    unittest.main()
