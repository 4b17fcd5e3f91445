"""Tests of the page, by a checker over html.parser and, where there is one, in a real browser."""
import gzip
import json
import os
import re
import tempfile
import time
import unittest

import browser
import example
from called import called
from check_test import BY_GROUP, MARK, REAL_PROGRAM, HostTest, owned
from made_up import HERE
from page_reader import PageReader
from shown import made
from zirofen_host.judge import saved
from zirofen_host.show import page, view, words
from zirofen_host.show.finding import Place
from zirofen_host.fault import Fault

PARTS = ("subtrees", "entries", "opened", "faults", "differs", "above", "unseen", "snapshot")
# keys of a report that nothing is drawn from, or that are asked for elsewhere
NOT_NEEDED = ("enabled", "capabilities", "value", "version", "users", "names", "marks", "files", "above[0].uid",
              "version_1", "lists", "made_by", "why", "within", "stand", "limits", "options", "helper", "premises", "causes", "fact",
              "against")
REAL = sorted(name for name in os.listdir(f"{HERE}/data") if name.endswith(".json.gz"))
HOSTILE = ("<script>alert(1)</script>", '"onload="alert(2)" x="', "'><img src=//x.y onerror=alert(3)>",
           "</title></svg></style></script>", "${title}$id&lt;&#60;", "javascript:alert(4)", "\u202egnp.exe\u2066", "x" * 250,
           "\x1b[31m\x07", "<!-- \xe9\u05d0", "]]><![CDATA[", "\ud800")


def real(name):
    with gzip.open(f"{HERE}/data/{name}", "rt", encoding="ascii") as opened:
        return checked(json.load(opened), name)


def checked(report, name):
    """The value of a report, which is one."""
    saved.check(report, name)
    return report


def page_of(*reports):
    return page.page([made(each) for each in reports])


def hostile(report):
    """A report in which everybody and everything has a hostile name."""
    text = json.dumps(report)
    names = {"alice": HOSTILE[0], "build": HOSTILE[1], "carol": HOSTILE[2], "bash": HOSTILE[3], "nightly": HOSTILE[4],
             "zirofen": HOSTILE[5], "web1": HOSTILE[6], "session-2": HOSTILE[7], "Linux": HOSTILE[8], "team": HOSTILE[9],
             "container": HOSTILE[10], "bob": HOSTILE[11], "backup": HOSTILE[0]}
    for name, bad in names.items():
        # a path's names have no slash
        for quote in ("/", '"', "(", " "):
            text = text.replace(f"{quote}{name}", quote + json.dumps(bad.replace("/", "") if quote == "/" else bad)[1:-1])
    return checked(json.loads(text), "hostile")


def many(count):
    """A report with twice as many delegations, of which so many escape, each with its picture."""
    report = example.kept()
    top = "/user.slice/user-1000.slice"
    of_alice = {key: [each for each in report[key] if each.get("path", each.get("at", "")).startswith(top)]
                for key in ("cgroups", "subtrees", "entries", "processes")}
    of_alice["users"] = [each for each in report["users"] if each["uid"] == 1000]
    for key, values in of_alice.items():
        report[key] = [each for each in report[key] if each not in values]
        for number in range(10000, 10000 + count):
            text = json.dumps(values).replace("1000", str(number)).replace("alice", f"user{number}")
            report[key] += json.loads(text.replace("2000", str(number + 20000)).replace("1500", str(number + 40000)))
    return report


class PageTest(unittest.TestCase):
    maxDiff = None

    def read(self, *reports):
        made = page_of(*reports)
        reader = PageReader(made)
        self.assertEqual(reader.faults, [])
        self.assertEqual((reader.tags.count("script"), reader.tags.count("style")), (1, 1))
        for at, report in enumerate(reports, 1):
            self.has_all(reader, f"host-{at}", report)
        return reader

    def has_all(self, reader, name, report):
        """Every part of the report is in the page once, with its place."""
        def ids_of(key):
            return [each for each in reader.ids if each.startswith(f"{name}-{key}-") and each.rpartition("-")[2].isdigit()]

        for key in PARTS:
            self.assertEqual(len(ids_of(key)), len(report[key]), key)
            for number, part in enumerate(report[key], 1):
                told = reader.text(f"{name}-{key}-{number}")
                alike = [at for at, each in enumerate(report[key], 1) if part.get("fact") and (each["kind"], each.get("fact")) == (
                    part["kind"], part["fact"])]
                if len(alike) > 1:
                    # what several have in common stands once, above what is of each
                    together = reader.text(f"{name}-{key}-{alike[0]}-together")
                    self.assertEqual((together.count(words.visible(part["fact"])), together.count(told) > 0), (1, True))
                    told = f"{words.visible(part['fact'])}: {told.removeprefix(words.visible(part['place'])).strip()}"
                for value in (part.get("entry"), part.get("file"), part.get("fault"), part.get("text"), part.get("handed")):
                    if value not in (None, "dir", "already-over", "unknown"):
                        self.assertIn(words.visible(value), told)
        findings = [reader.text(each) for each in ids_of("finding")]
        for key in ("entries", "opened", "differs"):
            for part in report[key]:
                self.assertTrue(any(words.visible(part["path"]) in told for told in findings), part["path"])


class WholeTest(PageTest):
    def test_an_example_host(self):
        reader = self.read(example.kept())
        self.assertIn("2 of 6 delegations can be broken by somebody whom they should hold.", reader.text())
        # of each escape one, and the host's in two sizes
        self.assertEqual(reader.tags.count("svg"), 4)
        for told in (
                "alice(1000) moves a process over the edge of /user.slice/user-1000.slice/user@1000.service",
                "move process 2000 (bash) from /user.slice/user-1000.slice/session-2.scope to "
                "/user.slice/user-1000.slice/user@1000.service/init.scope: it goes into the subtree",
                "setpriv --reuid 1000 --regid 1000 --clear-groups sh -c 'echo 2000 >/sys/fs/cgroup/user.slice/user-1000.slice/"
                "user@1000.service/init.scope/cgroup.procs'",
                "build(990) changes a limit of /system.slice/build.service", "set memory.max of /system.slice/build.service from 4G to max",
                "Everybody sets limits of /system.slice/backup.service", "chmod o-w /sys/fs/cgroup/system.slice/backup.service/cpu.max",
                "carol(1002) may break /batch.slice/nightly.service",
                "Members of group team(50) (carol(1002)) write cgroup.procs (0:50 664) of /batch.slice, which is its parent.",
                "web1, Linux 6.12.9, at 2026-11-25T08:00:00Z"):
            self.assertIn(told, reader.text())
        # those of the table, and of the tree
        self.assertEqual([int(link.rpartition("-")[2]) for link in reader.links if link.startswith("#host-1-finding-")],
                         [1, 2, 4] + [4, 4, 3, 1, 1, 2, 2])

    def test_real_hosts(self):
        for name in REAL:
            with self.subTest(name):
                self.read(real(name))

    def test_several_hosts_with_the_worst_on_top(self):
        reports = [real(name) for name in REAL] + [example.kept()]
        reader = self.read(*reports)
        links = [link for link in reader.links if link.count("-") == 1]
        self.assertEqual(len(links), len(reports))
        hosts = [view.host_of(made(reports[int(link.rpartition("-")[2]) - 1])) for link in links]
        kinds = [page.HostPage(each, Place("host-1", True)).kind for each in hosts]
        self.assertEqual(kinds, sorted(kinds, key=words.STANDINGS.index))
        self.assertLess(kinds.index("escapes"), kinds.index("contained"))

    def test_hostile_names(self):
        report = hostile(example.kept())
        reader = self.read(report)
        for name in HOSTILE:
            if name != HOSTILE[3]:
                self.assertIn(words.visible(name.replace("/", "")), reader.text().replace("/", ""), name)
        self.assertFalse([each for each in reader.text() if not each.isprintable() and each != "\n"])
        self.assertIn("default-src 'none'", reader.policy)

    def test_a_page_of_four_hundred_is_small_and_soon_made(self):
        report = many(400)
        self.assertEqual(len(report["subtrees"]), 405)
        start = time.process_time()
        made = page_of(report)
        self.assertLess(time.process_time() - start, 5)
        self.assertLess(len(made.encode()), 2_000_000)
        # of the escapes that are alike twelve have a picture, and each has its place, and a line of what to change
        self.assertEqual(made.count('<svg class="picture"'), 13)
        reader = PageReader(made)
        self.assertEqual(reader.faults, [])
        self.assertEqual(sum(name.startswith("host-1-finding-") and name.rpartition("-")[2].isdigit() for name in reader.ids), 403)
        self.assertEqual(reader.tags.count("article"), 4)
        self.assertEqual(reader.text().count("What to change, for all 400\n"), 0)
        for number in range(10000, 10400):
            self.assertIn(f"chown root /sys/fs/cgroup/user.slice/user-{number}.slice/cgroup.procs ", reader.text())

    def test_no_limit_is_told_where_a_kernel_writes_its_own_bound(self):
        for file, value, usual in (("hugetlb.2MB.max", "9223372036852678656", True), ("hugetlb.1GB.max", "9223372036854771712", True),
                                   ("memory.swap.max", "max", True), ("memory.swap.max", "4611686018427387903", False),
                                   ("hugetlb.2MB.max", "0", False), ("memory.low", "9223372036854771712", False),
                                   ("memory.max", 9223372036854771712, False), ("cpu.max", "max 100000", True)):
            self.assertEqual(view.is_usual(file, value), usual, (file, value))

    def test_what_differs_from_an_earlier_report(self):
        report = example.kept()
        self.assertNotIn("Since", self.read(report).text())
        report["baseline"] = {"time": "2026-11-24T08:00:00Z", "new": [], "worse": [], "changed": [], "gone": []}
        self.assertIn("Since 2026-11-24T08:00:00Z\nNothing is new, worse, changed or gone.", self.read(report).text())
        for kind in ("new", "worse", "changed", "gone"):
            each = {"line": f"a {kind} <b>", "before": "what &amp; was", "changes": [], "setting": None}
            report["baseline"][kind] = [each, dict(each)]
        reader = self.read(checked(report, "x"))
        for kind in ("new", "worse", "changed", "gone"):
            self.assertEqual(reader.text(f"host-1-{kind}-2"), f"a {kind} <b>before: what &amp; was")
        report["baseline"]["new"][0]["line"] = None
        with self.assertRaisesRegex(Fault, "^x: report.baseline.new.0..line isn't what a report has there$"):
            saved.check(report, "x")

    def test_a_deep_tree(self):
        report = example.kept()
        row = next(each for each in report["cgroups"] if each["path"] == "/init.scope")
        for depth in range(1, 1500):
            report["cgroups"].append({**row, "path": "/init.scope" + "/d" * depth})
        report["opened"][0]["path"] = report["cgroups"][-1]["path"]
        self.read(report)

    def test_the_policy_has_the_sums_of_what_is_in_the_page(self):
        made = page_of(example.kept())
        for tag in ("style", "script"):
            inline = made.partition(f"<{tag}>")[2].partition(f"</{tag}>")[0]
            self.assertIn(f"{tag}-src {page.sum_of(inline)};", made)

    def test_what_cant_be_told_of_an_escape_spoils_nothing(self):
        for lines in (["escapes"], ["escapes", "move x /a"], ["escapes", "new word"], ["escapes", "chmod"],
                      ["escapes", "set /system.slice/build.service"]):
            report = example.kept()
            subtree = next(each for each in report["subtrees"] if each["path"] == "/system.slice/build.service")
            subtree["answers"][0]["lines"] = lines
            with self.subTest(lines):
                self.assertIn(" ".join(lines[1:]), self.read(report).text())
            subtree["answers"] = []
            self.read(report)


class PictureTest(PageTest):
    """What a picture shows of each way to break a subtree."""

    TOP = "/user.slice/user-1000.slice"
    MANAGER = f"{TOP}/user@1000.service"

    def picture(self, *lines):
        """The picture of these operations, its lines by their classes, and the text beside it."""
        report = example.kept()
        subtree = next(each for each in report["subtrees"] if each["path"] == self.MANAGER)
        subtree["answers"][0]["lines"] = ["escapes", *lines]
        reader = self.read(report)
        svg = page_of(report).split('<svg class="picture"')[2].partition("</svg>")[0]
        lines = re.findall('<text class="([a-z]+)"[^>]*>([^<]*)', svg)
        return svg, lines, reader.text("host-1-finding-2")

    def test_a_process_that_crosses(self):
        for lines, boxes, ends in (
                ((f"move 2000 {self.MANAGER}/init.scope",),
                 ["/", "user.slice", "user-1000.slice", "session-2.scope", "user@1000.service", "init.scope"],
                 [("from", "process 2000 (bash)"), ("to", "process 2000, moved in")]),
                ((f"mkdir {self.MANAGER}/new", f"move 860 {self.MANAGER}/new"),
                 ["/", "user.slice", "user-1000.slice", "user@1000.service", "new", "system.slice/build.service"],
                 [("to", "process 860, moved in"), ("from", "process 860 (make)")]),
                ((f"move 1500 {self.TOP}/session-2.scope",),
                 ["/", "user.slice", "user-1000.slice", "session-2.scope", "user@1000.service", "init.scope"],
                 [("to", "process 1500, moved out"), ("from", "process 1500 (systemd)")])):
            with self.subTest(lines):
                svg, found, text = self.picture(*lines)
                self.assertEqual([text for kind, text in found if kind == "name"], boxes)
                self.assertEqual([each for each in found if each[0] in ("from", "to")], ends)
                self.assertEqual((svg.count('class="edge"'), svg.count('class="arrow"'), svg.count('class="head"')), (1, 1, 1))
                self.assertIn("moves a process over the edge of", text)
                # the arrow's ends stand at the lines of the process
                at = {kind: int(y) for kind, y in re.findall('<text class="(from|to)" x="[0-9]*" y="([0-9]*)"', svg)}
                start, end = map(int, re.search('class="arrow" d="M[0-9]* ([0-9]*)H[0-9]*V([0-9]*)H', svg).groups())
                self.assertEqual((start, end), (at["from"] - 4, at["to"] - 4))

    def test_limits_that_change_and_what_is_removed(self):
        for lines, told, verb in (
                ((f"set {self.MANAGER} memory.max max",), ["memory.max: 2G → max"], "changes a limit of"),
                (("control / -memory", f"control {self.TOP} -memory"), [
                    "memory.min: 0 → no limit file", "memory.low: 0 → no limit file", "memory.high: max → no limit file",
                    "memory.max: 2G → no limit file"], "changes a limit of"),
                (("control / -memory -pids", f"control {self.TOP} -memory -pids"), [
                    "memory.min: 0 → no limit file", "memory.low: 0 → no limit file", "memory.high: max → no limit file",
                    "memory.max: 2G → no limit file", "and 1 more limit"], "changes a limit of"),
                ((f"control {self.TOP} +cpu",), ["cpu.weight: no limit file → 100"], "changes a limit of"),
                ((f"rmdir {self.MANAGER}",), ["✗ the whole cgroup is removed"], "removes"),
                ((), ["✗ over its own limits"], "is over its own limits"),
                ((f"rmdir {self.TOP}/session-2.scope",), [], "breaks")):
            with self.subTest(lines):
                svg, found, text = self.picture(*lines)
                self.assertEqual([text for kind, text in found if kind == "limit"], told)
                self.assertNotIn("arrow", svg)
                self.assertIn(verb, text)

    def test_the_entries_are_marked(self):
        _, found, _ = self.picture(f"rmdir {self.MANAGER}")
        self.assertEqual([each for each in found if each[0] in ("mark", "entry")], [
            ("mark", "✗ alice(1000) owns"), ("entry", "   cgroup.procs"), ("entry", "   cgroup.subtree_control"),
            ("entry", "   the directory")])


class MadeUpTest(HostTest, PageTest):
    """Reports that are made of a host here."""

    def a_host(self):
        self.host.cgroup("/up", owners={"cgroup.procs": (0, 50)}, modes={"cgroup.procs": 0o664}, enabled="memory")
        self.host.cgroup("/up/svc", owners={**owned(1000), "memory.max": 1000}, values={"memory.max": 4096})
        self.host.cgroup("/up/svc/in", owners=owned(100000), more=("cpu.max",), modes={"cpu.max": 0o666})
        self.host.cgroup("/up/m.service", owners={**owned(1001), "cgroup.stat": 1001}, marks=(MARK,), modes={"dir": 0o1777},
                         more=("cgroup.stat",))
        self.host.cgroup("/odd", owners=owned(1000))
        self.host.cgroup("/team", owners=owned(0, 50), modes=BY_GROUP)
        self.host.cgroup("/over", owners=owned(1000), values={"cgroup.max.depth": 0})
        self.host.cgroup("/over/in", owners=owned(1000))

    def test_every_kind_of_part(self):
        self.a_host()
        report = self.report(json=True)
        for key in PARTS:
            self.assertTrue(report[key], key)
        self.read(report)

    def test_nothing_to_ask(self):
        self.assertIn("Nothing was found to ask", self.read(self.report(json=True)).text())

    def test_all_contained(self):
        self.host.cgroup("/good", owners=owned(1000))
        text = self.read(self.report(json=True)).text()
        self.assertIn("The one delegation is shown to be contained", text)
        self.assertIn("There are none.", text)

    def test_contained_with_something_open(self):
        self.host.cgroup("/good", owners=owned(1000))
        self.host.cgroup("/web", more=("cgroup.kill",), modes={"cgroup.kill": 0o222})
        self.assertIn("1 limit is open to somebody, and 1 of 1 delegation is shown to be contained.",
                      self.read(self.report(json=True)).text())

    @unittest.skipUnless(os.geteuid() == 0, "only root gives files away")
    def test_a_check_writes_its_page(self):
        self.host.cgroup("/bad", owners={**owned(1000), "memory.max": 1000})
        out = f"{self.host.folder}/page.html"
        words_ = ["check", "--plain-folder", "--mount", self.host.mount, "--proc", self.host.proc, "--accounts", self.host.etc,
                  "--zirofen", self.program]
        plain, ended = called(*words_), called(*words_, "--html", out)
        self.assertEqual((ended.stdout, ended.stderr, ended.returncode), (plain.stdout, "", 1))
        with open(out, encoding="utf-8") as opened:
            self.assertIn("alice(1000) changes a limit of", PageReader(opened.read()).text())
        self.assertEqual([name for name in os.listdir(self.host.folder) if name.startswith(".")], [])
        with self.assertRaisesRegex(Fault, "^can't write the page .*/etc: Is a directory$"):
            page.write(self.host.etc, [made(example.kept())])
        self.assertEqual([name for name in os.listdir(self.host.folder) if name.startswith(".")], [])
        with open(f"{self.host.folder}/before.json", "w", encoding="ascii") as before:
            before.write(called(*words_, "--json").stdout)
        self.host.cgroup("/new", owners=owned(1001))
        called(*words_, "--baseline", before.name, "--html", out)
        with open(out, encoding="utf-8") as opened:
            self.assertRegex(PageReader(opened.read()).text("host-1-baseline"), "Since 20.*\nNew\n/new: contained, by 1001 who holds it")
        none, plain = called(*words_, "--html", f"{out}/none/x"), called(*words_)
        self.assertEqual((none.stdout, none.returncode, none.stderr.count("\n")), (plain.stdout, 3, 1))

    @unittest.skipUnless(REAL_PROGRAM, "the program isn't built")
    def test_the_kept_answers_are_the_programs(self):
        self.program = REAL_PROGRAM
        with tempfile.TemporaryDirectory() as folder:
            found = example.Example(folder).report(REAL_PROGRAM)
        kept = {**example.kept(), "program": found["program"]}
        if not found["has_advice"]:
            # the rest is the same without it
            for report in (found, kept):
                report["has_advice"] = False
                for entry in report["entries"]:
                    entry["changes"] = []
        self.assertEqual(found, kept)


class SavedTest(unittest.TestCase):
    def test_a_tree_text_is_told_what_to_do_with(self):
        with self.assertRaisesRegex(Fault, "no JSON") as raised:
            saved.read(f"{HERE}/../../examples/delegation.toml")
        self.assertEqual(raised.exception.help_lines, (
            "  this is a tree text: zirofen-host check --tree FILE --json writes a report of it",))

    def fault_of(self, text):
        with tempfile.NamedTemporaryFile("w", suffix=".json", encoding="utf-8") as file:
            file.write(text)
            file.flush()
            with self.assertRaises(Fault) as caught:
                saved.read(file.name)
        return str(caught.exception).replace(file.name, "FILE")

    def test_what_is_no_report(self):
        version = "FILE: a report of zirofen-host check --json of version 1 is wanted, and this is none"
        for text, fault in (("", "FILE: no JSON: Expecting value: line 1 column 1 (char 0)"), ("[]", version), ("{}", version),
                            ('{"version": 2}', version), ('{"version": 1}', "FILE: report.program isn't what a report has there")):
            self.assertEqual(self.fault_of(text), fault)
        self.assertIn("FILE: no JSON", self.fault_of("[" * 100000))
        with self.assertRaisesRegex(Fault, "can't read the report"):
            saved.read(f"{HERE}/none.json")

    def test_each_key_is_asked_for(self):
        """Whatever is taken away or of another type is named, and nothing else is raised."""
        report = example.kept()

        def spoil(value, place):
            if isinstance(value, dict):
                for key in list(value):
                    kept = value.pop(key)
                    yield f"{place}.{key}"
                    value[key] = [[]]
                    yield f"{place}.{key}"
                    value[key] = kept
                    yield from spoil(kept, f"{place}.{key}")
            elif isinstance(value, list) and value:
                yield from spoil(value[0], f"{place}[0]")

        spoiled = 0
        for place in spoil(report, "report"):
            if any(f".{key}" in place for key in NOT_NEEDED):
                continue
            spoiled += 1
            with self.assertRaisesRegex(Fault, "^x: "):
                saved.check(report, "x")
        self.assertGreater(spoiled, 80)
        saved.check(report, "x")

    def test_places_stand_in_the_tree(self):
        paths = ("/none/x", "/init.scope", "<script>", "/batch.slice/", "", "/a//b")
        for key, spoil in (("subtrees", {"path": "/none"}), ("entries", {"subtrees": ["/none"]}), ("processes", {"at": "/none"}),
                           *(("cgroups", {"path": path}) for path in paths)):
            report = example.kept()
            report[key][1 if len(report[key]) > 1 else 0].update(spoil)
            with self.assertRaisesRegex(Fault, "^x: "):
                saved.check(report, "x")


class ScriptTest(unittest.TestCase):
    def test_help_says_what_they_are(self):
        for name in ("page", "tree"):
            ended = called(name, "--help")
            self.assertIn("no part of the proved program", ended.stdout)

    def page(self, *words_, given=None):
        return called("page", *words_, given=given)

    def test_reports_of_files_and_of_standard_input(self):
        made = page_of(example.kept())
        self.assertEqual((self.page(example.KEPT).stdout, self.page(example.KEPT).returncode), (made, 0))
        with open(example.KEPT, encoding="ascii") as text:
            self.assertEqual(self.page("-", given=text.read()).stdout, made)
        self.assertIn('id="host-2"', self.page(example.KEPT, example.KEPT).stdout)

    def test_faults(self):
        for given in ((), ("--none",), (f"{HERE}/none.json",), (example.__file__,),
                      (example.KEPT, "--out", f"{HERE}/none/page.html")):
            ended = self.page(*given)
            self.assertEqual((ended.returncode, ended.stdout), (3, ""), given)
            self.assertIn("page", ended.stderr)


class BrowserTest(unittest.TestCase):
    """Pages in a real browser."""

    @classmethod
    def setUpClass(cls):
        cls.browser = browser.Browser()
        cls.addClassCleanup(cls.browser.__exit__)
        folder = tempfile.TemporaryDirectory()
        cls.addClassCleanup(folder.cleanup)
        cls.folder = folder.name

    def written(self, name, *reports):
        file = f"{self.folder}/{name}.html"
        page.write(file, [made(each) for each in reports])
        return file

    def test_no_error_no_request_no_script_of_a_name(self):
        bad = hostile(example.kept())
        pages = {"example": [example.kept()], "hostile": [bad], "all": [bad, *map(real, REAL)]}
        for name, reports in pages.items():
            file = self.written(name, *reports)
            for width, media, scheme in ((390, "screen", "light"), (1280, "screen", "dark"), (794, "print", "light")):
                with self.subTest(name, width=width):
                    events = self.browser.open(file, width, media, scheme)
                    methods = {each["method"] for each in events}
                    self.assertFalse(methods & {"Log.entryAdded", "Runtime.exceptionThrown", "Runtime.consoleAPICalled",
                                                "Page.javascriptDialogOpening"}, methods)
                    asked = [each["params"] for each in events if each["method"] == "Network.requestWillBeSent"]
                    self.assertEqual({each["request"]["url"] for each in asked} - {"data:,"}, {f"file://{file}"})
                    self.assertLessEqual(self.browser.value("document.documentElement.scrollWidth"), width)
                    self.assertEqual(self.browser.value("document.scripts.length"), 1)
                    self.assertEqual(self.browser.value("document.images.length"), 0)

    def shown(self, selector):
        """The texts of what can be seen of these."""
        return self.browser.value(f"[...document.querySelectorAll('{selector}')].filter(each => each.checkVisibility())"
                                  ".map(each => each.innerText)")

    def test_the_search_box_hides_nothing(self):
        self.browser.open(self.written("search", example.kept()), 1280)
        self.assertEqual((len(self.shown(".search")), len(self.shown(".finding"))), (1, 4))
        self.browser.value("const box = document.querySelector('.search input'); box.value = 'NIGHTLY';"
                           "box.dispatchEvent(new Event('input'))")
        self.assertEqual(self.browser.value("document.querySelector('.search output').textContent"), "4 hits")
        self.assertIn("nightly.service", "".join(self.shown(".hit")))
        self.assertEqual((len(self.shown(".finding")), len(self.shown("tbody tr"))), (4, 6))

    def test_links_lead_to_what_can_be_seen(self):
        self.browser.open(self.written("links", example.kept()), 390)
        for at in range(self.browser.value("document.links.length")):
            self.browser.value(f"document.links[{at}].click()")
            self.browser.settle()
            self.assertTrue(self.browser.value("document.querySelector(location.hash).checkVisibility()"), at)

    def test_texts_of_a_picture_stay_in_their_boxes(self):
        self.browser.open(self.written("boxes", example.kept(), hostile(example.kept()), *map(real, REAL)), 1280)
        outside = self.browser.value("""[...document.querySelectorAll('svg text')].filter(each => {
            const right = each.closest('svg').viewBox.baseVal.width, box = each.getBBox();
            return box.x < 0 || box.x + box.width > right; }).map(each => each.textContent)""")
        self.assertEqual(outside, [])


if __name__ == "__main__":
    unittest.main()
