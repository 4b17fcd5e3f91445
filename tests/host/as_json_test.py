"""A report between its dataclasses and JSON, and its schema."""
import glob
import gzip
import json
import os
import unittest

import example
import report_schema
from made_up import HERE
from shown import value_of
from zirofen_host.judge import as_json
from zirofen_host.judge.host_model import ABSENT
from zirofen_host.judge.model import Comparison, Report


def kept_reports():
    """The example's report and those of real trees, by name."""
    yield "web1", example.kept()
    for path in sorted(glob.glob(f"{HERE}/data/*.json.gz")):
        with gzip.open(path, "rt", encoding="ascii") as text:
            yield os.path.basename(path), json.load(text)


class AsJsonTest(unittest.TestCase):
    def test_a_report_is_read_and_written_as_it_was(self):
        for name, report in kept_reports():
            with self.subTest(name):
                made = as_json.made_of(Report, report, "report", {})
                self.assertEqual("".join(as_json.parts_of(made)), json.dumps(report, indent=1))

    def test_bytes_that_are_in_no_utf_8_are_read_by_strict_readers(self):
        texts = {"al\udcffice": "al\\udcffice", "\ud83d\udcff": "\ud83d\udcff".encode("utf-16", "surrogatepass").decode("utf-16"),
                 "\\udcff": "\\udcff", "\\\udcff\n": "\\\\udcff\n", "\U0001f600\ud83d": "\U0001f600\\ud83d", "j\xfcrgen": "j\xfcrgen"}
        report = {**example.kept(), "unseen": [{"kind": "x", "place": "", "text": text} for text in texts]}
        found = json.loads("".join(as_json.parts_of(as_json.made_of(Report, report, "report", {}))))
        self.assertEqual([each["text"] for each in found["unseen"]], list(texts.values()))
        for each in texts.values():
            each.encode()

    def test_what_is_absent_has_no_key(self):
        report = example.kept()
        without = {key: value for key, value in report.items() if key not in ("users", "groups", "cgroups", "processes")}
        made = as_json.made_of(Report, without, "report", {})
        self.assertIs(made.cgroups, ABSENT)
        self.assertEqual(json.dumps(value_of(made)), json.dumps(without))

    def test_the_place_of_what_is_wrong(self):
        for spoil, place in (({"host": 1}, "report.host"),
                             ({"unseen": [{"kind": "x", "place": "", "text": None}]}, "report.unseen[0].text"),
                             ({"subtrees": {}}, "report.subtrees"), ({"status": True}, "report.status"),
                             ({"opened": [{"path": "/", "file": "x", "owner": {"uid": 0, "gid": 0, "mode": "8"}}]},
                              "report.opened[0].owner.mode"),
                             ({"baseline": {"file": "x"}}, "report.baseline.time")):
            with self.subTest(place), self.assertRaisesRegex(as_json.Wrong, f"^{place}$".replace("[", "\\[").replace("]", "\\]")):
                as_json.made_of(Report, {**example.kept(), **spoil}, "report", {})

    def test_what_may_lack(self):
        value = {"time": "", "new": [], "worse": [], "changed": [], "gone": []}
        lacking = {(Comparison, "file"): "", (Comparison, "status"): 0, (Comparison, "stand"): ()}
        self.assertEqual(as_json.made_of(Comparison, value, "it", lacking), Comparison("", "", (), (), (), (), (), 0))


class SchemaTest(unittest.TestCase):
    def test_it_is_that_of_the_dataclasses(self):
        self.assertEqual(report_schema.schema_of(Report), report_schema.kept(), "tests/host/report_schema.py writes it anew")

    def test_every_kept_report_is_as_it_says(self):
        for name, report in kept_reports():
            with self.subTest(name):
                self.assertEqual(report_schema.faults_of(report), [])

    def test_what_isnt_as_it_says(self):
        report = example.kept()
        owner = {"uid": 0, "gid": 0, "mode": "9"}
        compared = [f"report.baseline.{key}" for key in ("file", "time", "new", "worse", "stand", "changed", "gone", "status")]
        for spoil, places in (({"host": 1}, ["report.host"]), ({"version": 2}, ["report.version"]), ({"new": 1}, ["report.new"]),
                              ({"status": True}, ["report.status"]), ({"baseline": {}}, compared),
                              ({"entries": [{**report["entries"][0], "whom": []}]}, ["report.entries[0].whom"]),
                              ({"entries": [{**report["entries"][0], "owner": owner}]}, ["report.entries[0].owner"]),
                              ({"opened": [{**report["opened"][0], "owner": owner}]}, ["report.opened[0].owner.mode"])):
            with self.subTest(places):
                self.assertEqual(report_schema.faults_of({**report, **spoil}), places)


if __name__ == "__main__":
    unittest.main()
