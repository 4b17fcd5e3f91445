"""Tests of the table of what a cgroup's files are, and of what follows from it."""
import os
import re
import unittest
from unittest import mock

from check_test import HostTest, owned
from zirofen_host import files
from zirofen_host.collect import bounded
from zirofen_host.files import CONTROL_FILES, TEXT_FILES, LIMITS, NUMBER_FILES, USUAL_LIST, Form, Kind, kind_of

REAL_MOUNT = "/sys/fs/cgroup"


class TableTest(unittest.TestCase):
    def test_each_name_is_there_once(self):
        names = [*(limit.name for limit in LIMITS), *(name for some in files.NAMES.values() for name in some)]
        self.assertEqual(len(names), len(set(names)))
        self.assertEqual(set(files.KINDS.values()), set(Kind))

    def test_which_texts_tell_of_limits(self):
        by_format = {each: [limit.name for limit in LIMITS if limit.since_format == each] for each in (1, 4, None)}
        self.assertEqual(by_format[1], list(NUMBER_FILES))
        self.assertEqual(by_format[4], sorted(by_format[4]))
        self.assertEqual({files.in_tables(name) for name in TEXT_FILES}, {*by_format[4]})
        never = {limit.name for limit in LIMITS if limit.kind is Kind.LIMIT and limit.since_format is None}
        self.assertEqual(never, {"io.cost.model", "io.cost.qos"})

    def test_settings_bring_values(self):
        """A file without a setting has no form of one, and a number is brought by one setting alone."""
        self.assertEqual({limit.form for limit in LIMITS if not limit.setting}, {Form.NUMBER})
        self.assertEqual(len(files.BY_SETTING), sum(limit.form is Form.NUMBER for limit in LIMITS if limit.setting))
        self.assertEqual({each for limit in LIMITS for each in limit.changes} - set(files.BY_NAME), set())

    def test_what_others_name_is_in_it(self):
        self.assertEqual({kind_of(file) for file in NUMBER_FILES}, {Kind.LIMIT})
        self.assertEqual({kind_of(file) for file in (*CONTROL_FILES, *USUAL_LIST)}, {Kind.DELEGATED})
        self.assertEqual({kind_of(file) for file in files.PRESSURE}, {Kind.TELLS})
        self.assertTrue(all(files.may_set(file) and files.is_known(file) for file in (*files.BY_NAME, *files.WITHOUT_VALUE)))

    def test_names_are_whole(self):
        for file, kind in (("cpuset.cpus.effective", Kind.TELLS), ("cpuset.mems.effective", Kind.TELLS),
                           ("cpuset.cpus.isolated", Kind.TELLS), ("cpuset.cpus.exclusive.effective", Kind.TELLS),
                           ("cpuset.cpus", Kind.LIMIT), ("cpuset.cpus.partition", Kind.LIMIT), ("cgroup.pressure", Kind.ACTS),
                           ("memory.pressure", Kind.TELLS), ("cgroup.kill", Kind.ACTS), ("cgroup.freeze", Kind.ACTS),
                           ("hugetlb.2MB.max", Kind.LIMIT), ("hugetlb.1GB.rsvd.max", Kind.LIMIT), ("hugetlb.2MB.events", Kind.TELLS),
                           ("memory.maximum", None), ("cgroup.freezer", None), ("hugetlb", None), ("hugetlb.2MB", None), ("", None)):
            with self.subTest(file):
                self.assertEqual(kind_of(file), kind)

    @unittest.skipUnless(os.path.isfile(f"{REAL_MOUNT}/cgroup.controllers") or os.path.isdir(f"{REAL_MOUNT}/unified"), "no mount here")
    def test_what_this_kernel_has_is_in_it(self):
        mount = REAL_MOUNT if os.path.isfile(f"{REAL_MOUNT}/cgroup.controllers") else f"{REAL_MOUNT}/unified"
        with os.scandir(mount) as entries:
            names = [entry.name for entry in entries if entry.is_file(follow_symlinks=False)]
        self.assertEqual([name for name in names if not files.is_known(name)], [])
        release = tuple(map(int, re.match(r"([0-9]+)\.([0-9]+)", os.uname().release).groups()))
        self.assertEqual([name for name in names if name in files.BY_NAME and files.BY_NAME[name].since > release], [])


class OpenFilesTest(HostTest):
    """What of a cgroup's files is told as open."""

    def test_what_only_tells_is_no_finding(self):
        names = ("cpuset.cpus.effective", "cpuset.mems.effective", "cpuset.cpus.isolated", "memory.pressure", "memory.peak")
        self.host.cgroup("/a", more=names, owners=dict.fromkeys(names, 1000), modes=dict.fromkeys(names, 0o644))
        found = self.report(json=True)
        self.assertEqual((found["opened"], self.told(found, "unknown-file")), ([], []))
        listed = {each["path"]: set(each["files"]) for each in found["cgroups"]}
        self.assertEqual(listed["/a"] & set(names), set())

    def test_what_acts_is_one(self):
        self.manager()
        names = ("cgroup.freeze", "cgroup.kill", "cgroup.pressure", "cgroup.type")
        self.host.cgroup("/a", more=names, modes=dict.fromkeys(names, 0o666))
        opened = [f"/a {name} by everybody" for name in names]
        for number, told in ((4, opened[1:]), (2, opened)):
            found = self.report(tree_format=number)
            self.assertEqual((found["status"], self.opened(found)), (1, told))
            # of this one a text of format 4 tells
            self.assertEqual([each["entry"] for each in found["entries"]], ["cgroup.freeze"] if number == 4 else [])

    def test_threads_are_looked_at_where_there_are_any(self):
        for kind, told in (("domain", []), ("domain threaded", ["/a cgroup.threads by everybody"]),
                           ("threaded", ["/a cgroup.threads by everybody"])):
            with self.subTest(kind):
                self.setUp()
                self.host.cgroup("/a", more=("cgroup.threads",), modes={"cgroup.threads": 0o666}, kind=kind)
                self.assertEqual(self.opened(self.report()), told)

    def test_an_unknown_name_is_a_limit_where_most_have_it_writable(self):
        for path in ("/a", "/b", "/c"):
            self.host.cgroup(path, more=("memory.fancy", "memory.seen"), modes={"memory.seen": 0o444})
        self.host.cgroup("/d", more=("memory.fancy", "memory.seen"), owners={"memory.seen": 1000}, modes={"memory.fancy": 0o666})
        found = self.report()
        self.assertEqual((found["status"], self.opened(found)), (1, ["/d memory.fancy by everybody"]))
        self.assertEqual(self.told(found, "unknown-file"), [
            ": memory.fancy (a limit) memory.seen (no limit): by the mode that most cgroups have these with, since their names "
            "aren't known"])

    def test_what_others_own_doesnt_outvote_root(self):
        self.host.cgroup("/a", more=("memory.fancy",))
        for number in range(5):
            self.host.cgroup(f"/a/{number}", owners={**owned(1000), "memory.fancy": 1000}, more=("memory.fancy",),
                             modes={"memory.fancy": 0o444})
        self.assertEqual(self.opened(self.report()), [f"/a/{number} memory.fancy by alice(1000)" for number in range(5)])


class CapabilitiesTest(HostTest):
    """What a process may raise again counts as what it has."""

    def found(self, report):
        return [(each.path, each.entry, each.whom[0].name, tuple(each.processes))
                for each in report.report.broken if each.what == "capability"]

    def test_what_is_permitted_and_not_effective(self):
        self.host.cgroup("/svc.service", owners=owned(1000), pids=(7, 8))
        self.host.process(7, uid=1000, gid=1000, capabilities=0, permitted=0b10)
        self.host.process(8, uid=1000, gid=1000, capabilities=0)
        self.assertEqual(self.found(self.report()), [("/svc.service", "CAP_DAC_OVERRIDE", "alice(1000)", (7,))])

    def test_what_a_thread_has_alone(self):
        self.host.cgroup("/svc.service", owners=owned(1000), pids=(7,))
        self.host.process(7, uid=1000, gid=1000, threads=(0, 1 << 21))
        self.assertEqual(self.found(self.report()), [("/svc.service", "CAP_SYS_ADMIN", "alice(1000)", (7,))])

    def test_more_threads_than_are_looked_at(self):
        self.host.cgroup("/svc.service", owners=owned(1000), pids=(7, 2000))
        self.host.cgroup("/b.service", owners=owned(1001), pids=(9000,))
        for pid, uid in ((7, 1000), (2000, 1000)):
            self.host.process(pid, uid=uid, gid=uid, threads=(0,) * 1500)
        self.host.process(9000, uid=1001, gid=1001, threads=(1 << 21,))
        with mock.patch.object(bounded, "THREADS", bounded.Budget("threads", 2000)):
            found = self.report()
        self.assertEqual(self.found(found), [("/b.service", "CAP_SYS_ADMIN", "bob(1001)", (9000,))])
        self.assertEqual(self.told(found, "capability"), ["alice(1000): 1002 threads weren't looked at: more than 2000 run"])


if __name__ == "__main__":
    unittest.main()
