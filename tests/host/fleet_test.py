"""Tests of many hosts at once: their table, their pages, what a broken or hostile report does, and what all of it costs."""
import contextlib
import io
import json
import os
import re
import subprocess
import sys
import tempfile
import unittest
from datetime import datetime, timedelta, timezone

import browser
import crowded
import debian_readers
import example
from called import called
from made_up import COMMAND, MEMORY
from page_reader import PageReader
from zirofen_host import command
from zirofen_host.show import fleet, fleet_page

NOW = datetime.now(timezone.utc)
HOSTS, SAME, ESCAPING = 2000, 312, 48
# each of five hosts: why its report doesn't count
NONE = "a report of zirofen-host check --json of version 1 is wanted, and this is none"
BROKEN = {"empty": "it is empty", "cut": "no JSON: ", "list": NONE, "version": NONE,
          "key": "report.subtrees isn't what a report has there", "link": "it can't be read: Too many levels of symbolic links",
          "old": "it is older than 3 days", "missing": "there is none"}
OF_EACH = 5


def at(days):
    return (NOW - timedelta(days=days)).strftime(fleet.TIME)


def report_of(name, kinds=(), days=1, first=10000):
    """A small report, with a delegation of each of these kinds and two more."""
    crowd = crowded.Crowd()
    for number, kind in enumerate((*kinds, None, None)):
        crowd.one(first + number, kind)
    crowd.report["unseen"] = []
    return {**crowd.report, "host": name, "time": at(days), "status": 1 if kinds else 0}


class Folder:
    """A folder of reports."""

    def __init__(self, folder):
        self.folder = folder
        os.makedirs(folder, exist_ok=True)

    def put(self, name, text):
        with open(os.path.join(self.folder, f"{name}.json"), "w", encoding="utf-8") as out:
            out.write(text if isinstance(text, str) else json.dumps(text))

    def put_like(self, names, kinds=()):
        """The same report of several hosts."""
        text = json.dumps(report_of("NAME", kinds))
        for name in names:
            self.put(name, text.replace('"NAME"', json.dumps(name)))

    def put_broken(self):
        """In each way five hosts; of what is missing the names."""
        whole = json.dumps(report_of("x"))
        texts = {"empty": " \n", "cut": whole[:len(whole) // 2], "list": "[]", "version": whole.replace('"version": 1', '"version": 2'),
                 "key": whole.replace('"subtrees": [', '"subtree": [', 1)}
        for way in BROKEN:
            for number in range(OF_EACH):
                name = f"{way}{number}"
                if way in texts:
                    self.put(name, texts[way])
                elif way == "link":
                    os.symlink("/etc/passwd", os.path.join(self.folder, f"{name}.json"))
                elif way == "old":
                    self.put(name, report_of(name, days=4))
        return [f"missing{number}" for number in range(OF_EACH)]


def run(*given):
    """What the helper prints and ends with."""
    out, said = io.StringIO(), io.StringIO()
    with contextlib.redirect_stdout(out), contextlib.redirect_stderr(said):
        status = command.main(["fleet", *given])
    return out.getvalue(), status


def used(*given):
    """The seconds of processor and the memory that a run of its own takes."""
    with subprocess.Popen([sys.executable, COMMAND, "fleet", *given], stdout=subprocess.DEVNULL) as running:
        _, _, usage = os.wait4(running.pid, 0)
        running.returncode = 0
    return usage.ru_utime + usage.ru_stime, usage.ru_maxrss


class FleetTest(unittest.TestCase):
    def setUp(self):
        room = tempfile.TemporaryDirectory(dir=MEMORY)
        self.addCleanup(room.cleanup)
        self.room = room.name
        self.folder = Folder(f"{room.name}/reports")
        self.out = f"{room.name}/out"

    def read(self, **rules):
        return fleet.read_fleet(self.folder.folder, fleet.Rules(NOW, **rules), lambda *_: None)

    def index(self):
        with open(f"{self.out}/index.html", encoding="utf-8") as opened:
            text = opened.read()
        reader = PageReader(text, os.listdir(self.out))
        self.assertEqual(reader.faults, [])
        return text, reader


class ManyTest(FleetTest):
    maxDiff = None

    def test_two_thousand_hosts_of_which_forty_are_broken(self):
        names = self.folder.put_broken()
        good = [f"app{number:04}" for number in range(HOSTS - len(BROKEN) * OF_EACH)]
        self.folder.put_like(good[:SAME], ("group", "opened"))
        self.folder.put_like(good[SAME:-ESCAPING])
        for number, name in enumerate(good[-ESCAPING:]):
            self.folder.put(name, report_of(name, ("limit",), first=20000 + number))
        with open(f"{self.room}/hosts", "w", encoding="ascii") as out:
            out.write("# who should be there\n" + "".join(f"{name}  # in rack 1\n" for name in (*good, *names)))
        given = (self.folder.folder, "--older", "3", "--hosts", f"{self.room}/hosts")
        text, status = run(*given, "--html", self.out)
        self.assertEqual(status, 3)
        lines = text.splitlines()
        contained = HOSTS - 40 - SAME - ESCAPING
        self.assertEqual(lines[-1], f"{HOSTS} hosts: 40 no report, {ESCAPING} escapes, {SAME} opened, {contained} contained")
        # the worst on top
        answers = [re.split("  +", line)[1] for line in lines[1:-2] if line[0] != " "]
        self.assertEqual(list(dict.fromkeys(answers)), ["no report", "escapes", "opened", "contained"])
        self.assertRegex(text, f"\n{SAME} hosts +opened +4 +2 +2 +20")
        self.assertIn("    the same 2 findings:\n    opened /system.slice/job10001.service cpu.max by everybody\n", text)
        self.assertIn("    app0000 app0001 app0002 app0003 app0004 app0005 app0006 app0007 and 304 more\n", text)
        told, _ = run(*given, "--json", "--format", f"metrics={self.room}/fleet.prom")
        found = json.loads(told)
        self.has_all(found, good)
        self.has_metrics()
        self.has_pages(found, good)

    def has_all(self, found, good):
        """Each host is told of once, and why it doesn't count."""
        self.assertEqual((found["version"], found["status"], len(found["hosts"])), (1, 3, HOSTS))
        hosts = {each["host"]: each for each in found["hosts"]}
        self.assertEqual(sorted(hosts), sorted([*good, *(f"{way}{number}" for way in BROKEN for number in range(OF_EACH))]))
        for way, why in BROKEN.items():
            for number in range(OF_EACH):
                each = hosts[f"{way}{number}"]
                self.assertEqual((each["counts"], each["status"], each["answer"]), (False, 3, "no report"))
                self.assertTrue(each["why"].startswith(why), each)
        self.assertTrue(all(hosts[name]["counts"] and hosts[name]["listed"] for name in good))
        alike = {each["answer"]: len(each["hosts"]) for each in found["alike"] if each["why"] is None}
        self.assertEqual(alike, {"opened": SAME, "contained": HOSTS - 40 - SAME - ESCAPING})

    def has_metrics(self):
        """Promtool has nothing against them, and they name no host."""
        with open(f"{self.room}/fleet.prom", encoding="ascii") as opened:
            text = opened.read()
        self.assertEqual(debian_readers.promtool(text), "")
        self.assertNotRegex(text, "app0|empty0|/")
        told = dict(line.rsplit(" ", 1) for line in text.splitlines() if line[0] != "#")
        hosts = {"no_report": 40, "escapes": ESCAPING, "opened": SAME, "contained": HOSTS - 40 - SAME - ESCAPING}
        for kind in ("no_report", "escapes", "opened", "unsettled", "fault", "accepted", "not_asked", "above", "contained"):
            self.assertEqual(told[f'zirofen_fleet_hosts{{answer="{kind}"}}'], str(hosts.get(kind, 0)))
        self.assertEqual([told[f'zirofen_fleet_hosts_with_status{{status="{status}"}}'] for status in range(5)],
                         [str(hosts["contained"]), str(SAME + ESCAPING), "0", "40", "0"])
        self.assertEqual(told["zirofen_fleet_status"], "3")
        self.assertEqual(told["zirofen_fleet_delegations"], str(2 * hosts["contained"] + 4 * SAME + 3 * ESCAPING))
        self.assertEqual(told["zirofen_fleet_oldest_report_timestamp_seconds"], str(round((NOW - timedelta(days=1)).timestamp() - 0.5)))

    def has_pages(self, found, good):
        text, reader = self.index()
        self.assertLess(len(text.encode()), 2_000_000)
        self.assertEqual(set(os.listdir(self.out)), {"index.html", *(f"{name}.html" for name in good)})
        self.assertEqual(set(reader.links), {f"{name}.html" for name in good})
        for each in found["hosts"]:
            self.assertIn(each["host"], reader.text())
            self.assertIn(each["why"] or "", reader.text())
        self.assertEqual(text.count('<tr class="lost">'), len({each["why"] for each in found["hosts"] if each["why"]}))
        with open(f"{self.out}/{good[-1]}.html", encoding="utf-8") as opened:
            page = PageReader(opened.read(), ["index.html"])
        self.assertEqual(page.faults, [])
        self.assertIn("changes a limit of", page.text())

    def test_an_index_of_two_thousand_that_all_differ_is_small(self):
        line = '"' * fleet.LONGEST_LINE
        made = [fleet.Row("&" * 76 + f"{number:04}", None, 1, "escapes", 300, 270, 30, at(1), None, True, (), (line,) * 3, 30,
                          str(number).encode()) for number in range(HOSTS)]
        self.assertLess(len(fleet_page.Index(fleet.Fleet(made, 0)).html().encode()), 1_980_000)

    def measure(self):
        """Twenty times the hosts take at most twenty-five times the seconds, by hand: `python3 -m unittest fleet_test.ManyTest.measure`."""
        few = Folder(f"{self.room}/few")
        few.put_like([f"app{number:04}" for number in range(HOSTS // 20)], ("limit", "group"))
        self.folder.put_like([f"app{number:04}" for number in range(HOSTS)], ("limit", "group"))
        seconds, memory = used(few.folder, "--html", f"{self.room}/few-out")
        many_seconds, many_memory = used(self.folder.folder, "--html", self.out)
        self.assertLess(many_seconds, 25 * seconds)
        self.assertLess(many_memory, 1.3 * memory)


class RulesTest(FleetTest):
    def test_the_status_is_the_worst(self):
        worst = []
        for name, kinds, status in (("a", (), 0), ("b", (), 4), ("c", ("group",), 2), ("d", ("limit",), 1), ("e", ("fault",), 3)):
            report = report_of(name, kinds)
            report["status"] = status
            report["asked"] = status != 4
            self.folder.put(name, report)
            worst.append(self.read().status)
        self.assertEqual(worst, [0, 4, 2, 1, 3])
        os.remove(f"{self.folder.folder}/e.json")
        self.assertEqual((self.read().status, self.read(hosts={"d", "f"}).status), (1, 3))

    def test_a_report_that_says_less_than_it_tells(self):
        report = report_of("a", ("limit",))
        report["status"] = 0
        self.folder.put("a", report)
        self.assertEqual(self.read().status, 1)

    def test_times(self):
        for name, time in (("new", at(2.9)), ("old", at(3.1)), ("none", ""), ("odd", "yesterday"), ("soon", at(-0.5)), ("late", at(-2))):
            self.folder.put(name, {**report_of(name), "time": time})
        found = {row.name: row.why for row in self.read(older=3).rows}
        self.assertEqual(found, {"new": None, "soon": None, "old": "it is older than 3 days", "none": "it doesn't have its time",
                                 "odd": "it doesn't have its time", "late": "its time is to come"})
        self.assertEqual(self.read().status, 0)

    def test_whose_a_report_is(self):
        for name, host in (("web1", "web1"), ("web2", "web2.example.com"), ("web3.example.com", "WEB3"), ("web4", "web44"), ("web5", "")):
            self.folder.put(name, report_of(host))
        found = self.read(hosts={"web1", "web2", "web3.example.com", "web4"})
        self.assertEqual({row.name: (row.of, row.is_listed) for row in found.rows}, {
            "web1": (None, True), "web2": (None, True), "web3.example.com": (None, True), "web4": ("web44", True), "web5": (None, False)})
        text, status = run(self.folder.folder)
        self.assertIn("5 hosts  contained  2            2          0", text)
        self.assertIn("    1 of the reports are of other hosts than their names say\n", text)
        self.assertEqual(status, 0)

    def test_each_host_by_itself(self):
        self.folder.put_like(["a", "b"], ("limit",))
        self.assertIn("2 hosts  escapes  ", run(self.folder.folder)[0])
        text, status = run(self.folder.folder, "--each")
        self.assertEqual((text.count("escapes  3 "), status), (2, 1))

    def test_what_is_written(self):
        self.folder.put_like(["a", "b"], ("limit",))
        text, status = run(self.folder.folder, "--format", f"json={self.room}/json", "--format", f"metrics={self.room}/metrics")
        self.assertEqual((text.splitlines()[-1], status), ("2 hosts: 2 escapes", 1))
        with open(f"{self.room}/json", encoding="ascii") as opened:
            self.assertEqual(opened.read(), run(self.folder.folder, "--json")[0])
        self.assertEqual(run(self.folder.folder, "--format", "json")[0], run(self.folder.folder, "--json")[0])
        self.assertTrue(run(self.folder.folder, "--format", "metrics")[0].startswith("# HELP zirofen_fleet_info "))
        # everybody may read metrics, whatever the umask is
        self.assertEqual(os.stat(f"{self.room}/metrics").st_mode & 0o777, 0o644)
        for given in (("--json", "--format", "metrics"), ("--format", "sarif"), ("--format", "json=")):
            with self.assertRaises(command.fault.Fault):
                run(self.folder.folder, *given)

    def test_metrics_of_hosts_of_which_none_counts(self):
        self.folder.put("a", "")
        text, status = run(self.folder.folder, "--format", "metrics")
        self.assertEqual((debian_readers.promtool(text), status), ("", 3))
        self.assertIn("\nzirofen_fleet_oldest_report_timestamp_seconds 0\n", text)

    def test_faults(self):
        for given in ((f"{self.room}/none",), (self.folder.folder,), (self.folder.folder, "--hosts", f"{self.room}/none"),
                      (self.folder.folder, "--html", f"{self.room}/none/out")):
            with self.assertRaises(command.fault.Fault):
                run(*given)


class HostileTest(FleetTest):
    NAMES = ("<script>alert(1)<", '"onload="alert(2)', "index", "host-0123456789abcdef", "-x", "a b", "\n", "x" * 240, "\u202e", "..x", "é",
             "&lt;", "%2e%2e%2fx", "x.html")

    def test_a_name_is_no_path_and_no_other_file(self):
        told = report_of("../x", ("limit",))
        for name in self.NAMES:
            self.folder.put(name, told)
        self.folder.put(".", told)
        with open(os.fsencode(self.folder.folder) + b"/\xff\xfe.json", "w", encoding="ascii") as out:
            json.dump(told, out)
        before = sorted(os.listdir(self.room))
        text, status = run(self.folder.folder, "--html", self.out)
        self.assertEqual(status, 1)
        self.assertTrue(all(each.isprintable() and each.isascii() or each == "\n" for each in text))
        self.assertEqual(sorted(os.listdir(self.room)), sorted([*before, "out"]))
        files = set(os.listdir(self.out))
        # beside these names . and one that is no text, and the index
        self.assertEqual(len(files), len(self.NAMES) + 3)
        self.assertTrue(all(re.fullmatch(r"[A-Za-z0-9_.@-]+\.html", name) and name[0] not in ".-" for name in files), files)
        _, reader = self.index()
        self.assertEqual(set(reader.links), files - {"index.html"})

    def test_what_is_too_much(self):
        whole = json.dumps(report_of("a"))
        with open(f"{self.folder.folder}/large.json", "wb") as out:
            out.truncate(200_000_000)
        lines = ",".join(['{"kind":"","place":"","text":""}'] * 1_000_000)
        self.folder.put("million", whole.replace('"unseen": []', f'"unseen": [{lines}]'))
        self.folder.put("lists", "[" + "[]," * 2_000_000 + "[]]")
        self.folder.put("values", "[" + "1," * 5_000_000 + "1]")
        self.folder.put("deep", "[" * 200_000)
        self.folder.put("digits", whole.replace('"gid": 50', '"gid": ' + "9" * 100_000))
        os.mkfifo(f"{self.folder.folder}/pipe.json")
        os.mkdir(f"{self.folder.folder}/folder.json")
        self.folder.put("good", whole)
        seconds, memory = used(self.folder.folder)
        self.assertLess(seconds, 60)
        self.assertLess(memory, 1 << 20)
        found = {row.name: row.why for row in self.read().rows}
        self.assertEqual({name: found[name] for name in ("large", "million", "pipe", "folder", "good")}, {
            "large": "it is over 64 MB", "million": "it has over 100000 findings", "pipe": "it can't be read: it is no regular file",
            "folder": "it can't be read: it is no regular file", "good": None})
        for name, why in (("lists", "it has over "), ("values", "it has over "), ("deep", "no JSON: "), ("digits", "no JSON: ")):
            self.assertTrue(found[name].startswith(why), (name, found[name]))

    def test_what_cant_be_drawn_is_told_of_that_host_alone(self):
        self.folder.put_like(["a", "b"])

        def draw(name, _):
            if name == "a":
                raise KeyError("x")
        found = fleet.read_fleet(self.folder.folder, fleet.Rules(NOW), draw)
        self.assertEqual([(row.name, row.why) for row in found.rows], [("a", "it can't be shown: KeyError('x')"), ("b", None)])


class BrowserTest(FleetTest):
    def test_the_index(self):
        for name in HostileTest.NAMES:
            self.folder.put(name, report_of('"><script>alert(3)</script>', ("limit",), first=len(name) + 10000))
        self.folder.put_broken()
        self.folder.put_like([f"app{number:04}" for number in range(50)])
        run(self.folder.folder, "--html", self.out)
        with browser.Browser() as opened:
            for width, scheme in ((1280, "light"), (768, "dark"), (390, "light"), (320, "dark")):
                events = opened.open(f"{self.out}/index.html", width, scheme=scheme)
                self.assertFalse({each["method"] for each in events} & {
                    "Log.entryAdded", "Runtime.exceptionThrown", "Runtime.consoleAPICalled", "Page.javascriptDialogOpening"})
                opened.value("document.querySelectorAll('details').forEach(each => { each.open = true; })")
                self.assertLessEqual(opened.value("document.documentElement.scrollWidth"), width)
                self.assertEqual(opened.value("document.scripts.length"), 1)
            opened.value("document.querySelector('.filters input').focus()")
            for letter in "app0007":
                opened.key(letter)
            opened.settle()
            shown = opened.value("[...document.querySelectorAll('tbody tr')].filter(each => each.checkVisibility()).length")
            self.assertEqual((shown, opened.value("document.querySelector('.filters output').textContent")[:4]), (1, "1 of"))


class PageTest(FleetTest):
    def page(self, *given):
        return called("page", *given)

    def test_a_report_that_is_empty_is_a_row(self):
        self.folder.put("web2", "")
        ended = self.page(example.KEPT, f"{self.folder.folder}/web2.json")
        self.assertEqual((ended.returncode, ended.stderr.count("\n")), (3, 2))
        reader = PageReader(ended.stdout)
        self.assertEqual(reader.faults, [])
        self.assertRegex(reader.text(), r"/web2.json ∅ no report.*web2.json: no JSON: Expecting value")
        self.assertIn("2 of 6 delegations can be broken", reader.text())
        only = self.page(f"{self.folder.folder}/web2.json", f"{self.folder.folder}/web2.json")
        self.assertEqual((only.returncode, only.stdout, only.stderr.count("\n")), (3, "", 4))

    def test_more_than_twenty_are_too_many(self):
        ended = self.page(*[example.KEPT] * 21)
        self.assertEqual((ended.returncode, ended.stdout), (3, ""))
        self.assertIn("zirofen-host fleet writes an index", ended.stderr)


if __name__ == "__main__":
    unittest.main()
