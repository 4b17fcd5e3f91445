"""Tests of the hierarchy itself: the options that it is mounted with, its further mounts, what is mounted over its files, and who passes
over owners."""
import datetime
import json
import os
import re
import tempfile
import unittest
from collections import Counter
from dataclasses import replace
from unittest import mock

from acceptances_test import toml
from check_test import HostTest, owned
from shown import comparison_lines, lines_of
from zirofen_host.ask.questions import subtrees_by
from zirofen_host.collect import bounded, elsewhere, walk
from zirofen_host.collect.accounts import Accounts
from zirofen_host.collect.model import Covered, Entry, FurtherMount, PrivateMount, Scope
from zirofen_host.collect.mount import Mounts
from zirofen_host.collect.tree import read_tree
from zirofen_host.judge import acceptances, baseline, check
from zirofen_host.judge.host_model import ABSENT
from zirofen_host.profile import path_of
from zirofen_host.show import fleet, fleet_lines, junit, metrics, page, sarif, tree_view
from zirofen_host.show.run import Run
from zirofen_host.show.tree_view import Drawing

BOTH = ("rw", "nsdelegate", "memory_recursiveprot")
REMOUNT = "mount -o remount,nsdelegate,memory_recursiveprot"
TODAY = datetime.date(2026, 11, 29)
ROW = {"reason": "a test host", "until": "2026-12-31", "path": "/", "whom": "everybody"}
FOWNER = 1 << 3


class HierarchyTest(HostTest):
    """A host whose manager is systemd, with one delegation."""

    def setUp(self):
        super().setUp()
        self.host.cgroup("/init.scope", pids=(1,))
        self.host.process(1)
        self.host.cgroup("/a", owners=owned(1000))

    def of(self, mount_options=BOTH, about=None, **more):
        """The report on this host, with more that was found there."""
        taken = replace(self.host.snapshot(), mount_options=mount_options, **more)
        taken = taken if about is None else replace(taken, about=replace(taken.about, kernel=about))
        return check.report(taken, self.options(), True)

    def applied(self, report, *rows):
        file = f"{self.host.folder}/accept.toml"
        with open(file, "w", encoding="utf-8") as out:
            out.write(toml(*({**ROW, **row} for row in rows)))
        return acceptances.applied(report, acceptances.read(file), TODAY)

    def forms_of(self, report):
        """What each form says, by its name."""
        run = Run(report, status=report.status, seconds=1.0, ended=1795736189.0)
        with tempfile.TemporaryDirectory() as folder:
            with open(os.path.join(folder, "host.json"), "w", encoding="utf-8") as out:
                out.write(json.dumps(self.value_of(report)))
            found = fleet.read_fleet(folder, fleet.Rules(None), lambda name, found: None)
        return {"text": "\n".join(lines_of(report)), "tree": "\n".join(tree_view.draw(report, Drawing(width=1000))),
                "page": page.page([report]), "json": json.dumps(self.value_of(report)), "sarif": "".join(sarif.parts_of(run)),
                "junit": "".join(junit.parts_of(run)), "fleet": json.dumps(fleet.value_of(found)),
                "fleet's lines": "\n".join(fleet_lines.lines_of(found, True)), "metrics": "".join(metrics.parts_of(run))}


class OptionsTest(HierarchyTest):
    """Absence is news, and presence isn't."""

    def entries(self, *words, **more):
        return [each.entry for each in self.of(*words, **more).broken]

    def test_with_both_there_is_no_line(self):
        report = self.of()
        self.assertEqual((report.status, report.premises), (0, ABSENT))
        for name, said in self.forms_of(report).items():
            if name == "sarif":
                # each rule says what it is of
                said = json.dumps(json.loads(said)["runs"][0]["results"])
            if name != "metrics":
                self.assertNotIn("nsdelegate", said, name)

    def test_each_that_is_missing(self):
        for options, expected in ((("rw",), ["nsdelegate memory_recursiveprot"]), (BOTH[:2], ["memory_recursiveprot"]),
                                  (("rw", BOTH[2]), ["nsdelegate"]), (BOTH, [])):
            self.assertEqual(self.entries(options, about="Linux 6.12.1"), expected, options)
        # what isn't told isn't missing, and a manager before systemd 248 on an older kernel mounts without the second
        self.assertEqual((self.entries(()), self.entries(BOTH[:2], about="Linux 5.10.0")), ([], []))
        self.assertEqual(self.entries(("rw",), about="Linux 5.10.0"), ["nsdelegate memory_recursiveprot"])

    def test_another_manager_mounts_as_it_likes(self):
        for path in ("/init.scope",):
            os.rename(self.host.mount + path, self.host.mount + "/service")
        self.assertEqual(self.entries(("rw",)), [])

    def test_one_remount_brings_both_and_its_effect_is_told(self):
        each, = self.of(("rw",)).broken
        self.assertEqual(each.changes, (f"{REMOUNT} {self.host.mount}",))
        self.assertIn("containers run on", each.effect)
        for cause in ("docker run --cgroupns=host of anything", "any mount -t cgroup2"):
            self.assertIn(cause, each.told)
        lines = list(lines_of(self.of(("rw",))))
        at = next(at for at, line in enumerate(lines) if line.startswith("mount-options /: nsdelegate and memory_recursiveprot are off"))
        self.assertEqual(lines[at + 1], f"    change: {REMOUNT} {self.host.mount}")
        self.assertTrue(lines[at + 2].startswith("    then: containers run on"))

    def test_the_container_with_the_hosts_namespace_is_named(self):
        self.host.cgroup("/docker-4fb087512345.scope")
        path = path_of("/docker-4fb087512345.scope")
        report = self.of(("rw",), in_hosts_namespace=(path, path_of("/a")),
                         scopes=(Scope(path, "docker", "4fb087512345", "we\x1bb", None),))
        self.assertIn("docker:'we\\x1bb' /a have that namespace now", report.broken[0].told)
        self.assertNotIn("namespace now", self.of(("rw",)).broken[0].told)

    def test_in_each_form(self):
        report = self.of(("rw",))
        self.assertEqual(report.status, 2)
        for name, said in self.forms_of(report).items():
            self.assertIn("mount-options" if name != "page" else "The hierarchy lacks mount options", said, name)
        for line in ('zirofen_findings{kind="mount-options",gravity="unsettled"} 1', "zirofen_status 2"):
            self.assertIn(line, self.forms_of(report)["metrics"])
        result, = [each for each in json.loads(self.forms_of(report)["sarif"])["runs"][0]["results"] if each["ruleId"] == "mount-options"]
        self.assertEqual((result["level"], result["properties"]["changes"]), ("warning", [f"{REMOUNT} {self.host.mount}"]))

    def test_newly_so_is_worse(self):
        with_both, one, none = self.of(), self.of(BOTH[:2]), self.of(("rw",))
        for now, before, kind in ((none, with_both, "worse"), (one, with_both, "worse"), (none, one, "worse"), (with_both, none, "gone"),
                                  (none, none, "stand")):
            compared = baseline.compared(now, before, "before.json")
            self.assertEqual({name: len(getattr(compared, name)) for name in baseline.KINDS if getattr(compared, name)}, {kind: 1})
            self.assertEqual(compared.status, 0 if kind == "gone" else 2)
        lines = list(comparison_lines(replace(none, baseline=baseline.compared(none, with_both, "before.json"))))
        self.assertTrue(lines[0].startswith("worse: mount-options /: "), lines)
        self.assertEqual(lines[1], f"    change: {REMOUNT} {self.host.mount}")

    def test_what_is_accepted(self):
        row = {"what": "mount-options", "entry": "nsdelegate memory_recursiveprot"}
        for options, rows, state in ((("rw",), row, "accepted"), (BOTH[:2], row, "accepted"),
                                     (("rw",), {**row, "entry": "memory_recursiveprot"}, "worse"), (BOTH, row, "unmet")):
            found = self.applied(self.of(options), rows)
            self.assertEqual((found.acceptances[0].state, found.status), (state, 0 if state == "accepted" else 2))

    def test_a_text_carries_what_was_found(self):
        path = path_of("/a")
        taken = replace(self.host.snapshot(), mount_options=("rw",), in_hosts_namespace=(path,),
                        covered=(Covered(path, "memory.max", "ext4"),),
                        mounts=(FurtherMount("/home/bob/in", path, (Entry(1001, 0, 0o700),), True),),
                        scopes=(Scope(path, "docker", "4fb0", "web", None),))
        text = elsewhere.text_with(taken, elsewhere.carried(taken, Accounts()), True)
        file = f"{self.host.folder}/text.toml"
        with open(file, "w", encoding="utf-8") as out:
            out.write(text)
        found = elsewhere.read(elsewhere.Accepted(file, text, read_tree(text)), "/none")
        for name in ("mount_options", "in_hosts_namespace", "covered", "mounts", "private", "scopes"):
            self.assertEqual(getattr(found, name), getattr(taken, name), name)


class FurtherMountsTest(HierarchyTest):
    """Each other mount is named with who reaches it, and no line says that one keeps somebody out."""

    def setUp(self):
        super().setUp()
        self.host.cgroup("/secret", modes={"dir": 0o700}, enabled="memory")
        self.host.cgroup("/secret/in", owners=owned(1001))

    def lines(self, *folders, is_known=True, place="/home/bob/in", top="/secret/in"):
        mount = FurtherMount(place, path_of(top), tuple(Entry(*each) for each in folders), is_known)
        return [line for line in lines_of(self.of(mounts=(mount,))) if line.startswith(("mount:", "search:"))]

    def test_who_reaches_one(self):
        for folders, who in (((), "everybody"), (((1001, 1001, 0o700),), "bob(1001)"), (((0, 0, 0o700),), "root alone"),
                             (((0, 50, 0o750),), "carol(1002)"), (((1001, 0, 0o700), (1000, 0, 0o700)), "root alone"),
                             (((1001, 0, 0o600),), "root alone")):
            self.assertIn(f"mount: /secret/in: mounted at /home/bob/in too, which is reached by {who}", self.lines(*folders), who)
        self.assertIn("mount: /secret/in: mounted at '/h\\x1b' too, which is reached by whomever the file systems on the way let in",
                      self.lines(is_known=False, place="/h\x1b"))

    def test_search_goes_by_all_mounts(self):
        told = "search: bob(1001): they can't search /secret, and what is inside is mounted at /home/bob/in too: the answer holds"
        self.assertIn(told, self.lines())
        self.assertIn(told, self.lines(top="/secret"))
        for lines in (self.lines(top="/a"), self.lines(top="/secretly")):
            self.assertIn("search: bob(1001): they can't search /secret on this mount: by another, as of a cgroup namespace inside, the "
                          "answer holds", lines)

    def test_no_line_says_safer(self):
        for line in lines_of(self.of()):
            self.assertNotIn("safer", line)

    def test_which_are_further_ones(self):
        mounts = Mounts("31 22 0:29 / /sys/fs/cgroup rw - cgroup2 c rw\n32 22 0:29 /a /home/bob/i\\040n rw - cgroup2 c rw\n"
                        "33 31 0:40 / /sys/fs/cgroup/a/memory.max rw - tmpfs t rw\n34 22 0:41 / /sys/fs/cgroupies rw - tmpfs t rw\n")
        self.assertEqual(mounts.further("/sys/fs/cgroup/"), [("/home/bob/i n", "/a")])
        self.assertEqual((mounts.below("/sys/fs/cgroup"), mounts.below("/none")), ({b"/a/memory.max": "tmpfs"}, {}))
        self.assertEqual(mounts.further("/none"), [])

    def test_what_stands_there_anyway_is_mounted_over_nothing(self):
        """As systemd mounts a confined service's own memory.pressure, but not where something else is mounted over that."""
        own = "33 31 0:29 /a\\040b/memory.max /sys/fs/cgroup/a\\040b/memory.max rw - cgroup2 c rw\n"
        others = ("34 31 0:29 /b/memory.max /sys/fs/cgroup/a\\040b/memory.max rw - cgroup2 c rw\n",
                  "34 33 0:40 / /sys/fs/cgroup/a\\040b/memory.max rw - tmpfs t rw\n")
        here = "31 22 0:29 / /sys/fs/cgroup rw - cgroup2 c rw\n"
        self.assertEqual((Mounts(here + own).below("/sys/fs/cgroup"), Mounts(here + own).further("/sys/fs/cgroup/")), ({}, []))
        for other in others:
            self.assertEqual([*Mounts(here + own + other).below("/sys/fs/cgroup")], [b"/a b/memory.max"])


class PrivateMountsTest(HierarchyTest):
    """What users have mounted in namespaces of their own, as /proc tells of their processes."""
    OWN = "31 22 0:29 / /sys/fs/cgroup rw - cgroup2 c rw\n"
    THEIRS = OWN + ("41 22 0:29 /a/in /mnt rw - cgroup2 c rw\n42 22 0:29 / /home/i\\040n ro - cgroup2 c rw\n"
                    "43 22 0:9 / /tmp rw - tmpfs t rw\n")

    def taken(self):
        return self.host.take(subtrees_by(self.options()))

    def put(self, *processes):
        """A host whose processes have these mounts: the PID, the uid, the namespace and what is mounted there."""
        self.host.mounts("self", self.OWN, 1)
        for pid, uid, namespace, text in processes:
            self.host.process(pid, uid=uid)
            self.host.mounts(pid, text, namespace)

    def lines(self, **more):
        return [line for line in lines_of(self.of(**more)) if line.startswith(("mount:", "search:"))]

    def test_each_namespace_once_and_what_is_in_the_own_never(self):
        self.put((7, 1000, 2, self.THEIRS), (8, 1000, 2, self.THEIRS), (9, 1001, 1, self.THEIRS), (10, 1001, 3, self.OWN),
                 (11, 0, 4, self.THEIRS), (12, 100005, 5, "41 22 0:29 /a/in /x rw - cgroup2 c rw\n"))
        self.assertEqual(self.taken().private, tuple(PrivateMount(1000, place, path_of(top)) for place, top in (
            ("/home/i n", "/"), ("/mnt", "/a/in"), ("/x", "/a/in"))))

    def test_so_many_of_one_person(self):
        many = "".join(f"{number} 22 0:29 /a /m{number} rw - cgroup2 c rw\n" for number in range(100, 300))
        self.put((7, 1000, 2, many), (8, 100001, 3, many), (9, 1001, 4, self.THEIRS))
        counts = Counter(each.uid for each in self.taken().private)
        self.assertEqual(counts, {1000: bounded.FURTHER_MOUNTS, 1001: 2})

    def test_they_are_named_but_for_containers(self):
        self.host.cgroup("/a/libpod-1.scope")
        own = Scope(path_of("/a/libpod-1.scope"), "podman", "1", "app", 1000)
        private = tuple(PrivateMount(uid, place, path_of(top)) for uid, place, top in (
            (1000, "/mnt", "/a/in"), (1000, "/sys/fs/cgroup", "/a/libpod-1.scope/container"), (1001, "/h\x1b", "/")))
        # as a manager mounts memory.pressure for a service
        in_place = PrivateMount(1000, self.of().mount + "/a/memory.pressure", path_of("/a/memory.pressure"))
        self.assertEqual(self.lines(private=(in_place,)), [])
        self.assertEqual(self.lines(private=private, scopes=(own,)), [
            "mount: mounted in mount namespaces of theirs too, where whoever is inside goes by these: alice(1000) /a/in at /mnt; "
            "bob(1001) / at '/h\\x1b'"])
        self.assertEqual(self.lines(private=private[1:2], scopes=(own,)), [])
        for name, said in self.forms_of(self.of(private=private)).items():
            if name in ("text", "json", "page"):
                self.assertIn("mounted in mount namespaces of theirs too", said, name)

    def test_search_goes_by_them(self):
        self.host.cgroup("/secret", modes={"dir": 0o700}, enabled="memory")
        self.host.cgroup("/secret/in", owners=owned(1001))
        private = PrivateMount(1001, "/mnt", path_of("/secret/in"))
        for each, told in ((private, "and what is inside is mounted at /mnt in a mount namespace of theirs too: the answer holds"),
                           (private._replace(uid=1000), "on this mount: by another, as of a cgroup namespace inside, the answer holds")):
            line, = [line for line in self.lines(private=(each,)) if line.startswith("search:")]
            self.assertTrue(line.startswith("search: bob(1001): they can't search /secret") and line.endswith(told), line)


class MountedOverTest(HierarchyTest):
    """Nothing that is mounted over a file is read as a cgroup's."""

    def setUp(self):
        super().setUp()
        self.host.cgroup("/a", owners=owned(1000), values={"memory.max": 123})
        self.host.cgroup("/b", owners=owned(1001))

    def over(self, *places, kind="ext4"):
        lines = "".join(f"{number} 31 0:40 / {self.host.mount}{place} rw - {kind} x rw\n" for number, place in enumerate(places, 40))
        self.host.mounts("self", f"31 22 0:29 / {self.host.mount} rw,nsdelegate,memory_recursiveprot - cgroup2 c rw\n{lines}")

    def report_over(self, *places):
        self.over(*places)
        report = check.report(self.host.take(subtrees_by(self.options())), self.options(), True)
        self.value_of(report)
        return report

    def test_a_limit_file(self):
        os.chmod(f"{self.host.mount}/a/memory.max", 0o666)
        self.host.own(f"{self.host.mount}/a/memory.max", 1000, 0o666)
        report = self.report_over("/a/memory.max")
        each, = report.broken
        self.assertEqual((each.what, each.path, each.entry), ("mounted-over", "/a", "memory.max"))
        self.assertEqual((report.entries, report.opened, report.status), ((), (), 2))
        lines = list(lines_of(report))
        self.assertIn(f"mounted-over /a memory.max: something is mounted over {self.host.mount}/a/memory.max (ext4): what the cgroup has "
                      "there isn't known", lines)
        rows = [re.split("  +", line) for line in lines]
        self.assertEqual({row[-1]: row[-2] for row in rows if row[-1] in ("/a", "/b")},
                         {"/a": "contained [mounted over]", "/b": "contained"})
        for name, said in self.forms_of(report).items():
            self.assertIn("Something is mounted over" if name == "page" else "mounted-over", said, name)
        # neither as what it has, nor as what isn't there
        self.assertEqual([each.text for each in report.snapshot if each.kind == "no-file"], [])
        row, = [each for each in report.cgroups if each.path == "/a"]
        self.assertEqual(row.files["memory.max"].value, ABSENT)

    def test_what_is_of_another_device(self):
        """As in the moment before the list of mounts tells it."""
        before = walk.os.lstat

        def lstat(path, **more):
            found = before(path, **more)
            return os.stat_result((*found[:2], found.st_dev + 1, *found[3:10])) if path == "memory.max" else found
        with mock.patch.object(walk.os, "lstat", lstat):
            report = check.report(self.host.snapshot(), self.options(), True)
        self.assertEqual([(each.path, each.entry) for each in report.broken], [
            (path, "memory.max") for path in ("/a", "/b", "/init.scope")])

    def test_no_call_of_the_system_more(self):
        """The walk's own stats tell it."""
        counted = []
        before = walk.os.lstat
        with mock.patch.object(walk.os, "lstat", lambda path, **more: counted.append(path) or before(path, **more)):
            walk.walk_over(self.host.mount)
            first = len(counted)
            walk.walk_over(self.host.mount, below={b"/a/memory.max": "ext4"})
        self.assertEqual(len(counted), 2 * first)

    def test_what_is_hidden_is_no_yes(self):
        for place, told in (("/a/cgroup.procs", "cgroup.procs: something is mounted over it (ext4)"),
                            ("/a", "something is mounted over it (ext4)")):
            report = self.report_over(place)
            fault, = report.faults
            self.assertEqual((fault.subtrees, fault.fault, fault.made_by, report.status), (("/a",), told, None, 3))
        self.host.cgroup("/a/in")
        self.assertEqual([each.subtrees for each in self.report_over("/a/in").faults], [("/a",)])

    def test_one_that_is_accepted(self):
        report = self.applied(self.report_over("/a/memory.max"), {"what": "mounted-over", "path": "/a", "entry": "memory.max"})
        self.assertEqual((report.acceptances[0].state, report.status), ("accepted", 0))
        self.assertEqual(baseline.compared(self.report_over("/a/memory.max"), self.report_over(), "before.json").status, 2)


class CapableTest(HierarchyTest):
    """A user's own process that passes over owners takes their answers back."""

    def setUp(self):
        super().setUp()
        self.host.cgroup("/a", owners=owned(1000), pids=(100,))
        self.host.cgroup("/b", owners=owned(1001))
        self.host.cgroup("/c", pids=(101,))

    def answers(self, report):
        return {each.path: (each.marks, [answer.marks for answer in each.answers]) for each in report.subtrees}

    def test_in_their_own_service(self):
        self.host.process(100, uid=1000, permitted=FOWNER)
        report = self.of()
        each, = report.broken
        self.assertEqual((each.what, each.path, each.entry, each.whom[0].name, each.processes, report.status),
                         ("capability", "/a", "CAP_FOWNER", "alice(1000)", (100,), 2))
        self.assertEqual(self.answers(report), {"/a": (("capability",), [ABSENT]), "/b": (ABSENT, [ABSENT])})
        lines = list(lines_of(report))
        self.assertIn("capability /a: alice(1000) has CAP_FOWNER there, and passes over owners and over these answers (process 100)", lines)
        self.assertTrue(any("contained [capability]" in line and line.endswith("/a") for line in lines))
        for name, said in self.forms_of(report).items():
            self.assertIn("Owners are passed over" if name == "page" else "capability", said, name)

    def test_where_they_hold_nothing_it_is_theirs_all_the_same(self):
        self.host.process(101, uid=1000, permitted=FOWNER)
        report = self.of()
        self.assertEqual([each.path for each in report.broken], ["/c"])
        self.assertEqual(self.answers(report), {"/a": (ABSENT, [("capability",)]), "/b": (ABSENT, [ABSENT])})

    def test_who_holds_nothing_has_a_line_alone(self):
        self.host.process(101, uid=1002, permitted=FOWNER)
        report = self.of()
        self.assertEqual((report.broken, report.status), ((), 0))
        self.assertIn("capability: /c: beside: process 101 of carol(1002) has CAP_FOWNER, and passes over owners", list(lines_of(report)))
        # inside of what somebody holds it takes that back
        self.host.process(100, uid=1002, permitted=FOWNER)
        self.assertEqual(self.answers(self.of())["/a"], (("capability",), [ABSENT]))

    def test_one_that_is_accepted(self):
        self.host.process(100, uid=1000, permitted=FOWNER)
        row = {"what": "capability", "path": "/a", "entry": "CAP_CHOWN CAP_FOWNER", "whom": "alice(1000)"}
        self.assertEqual(self.applied(self.of(), row).status, 0)
        self.assertEqual(self.applied(self.of(), {**row, "entry": "CAP_CHOWN"}).status, 2)


if __name__ == "__main__":
    unittest.main()
