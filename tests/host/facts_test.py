"""Tests of lines that say one fact once, and of nothing that is no news."""
import unittest

from check_test import BY_GROUP, MARK, REAL_PROGRAM, HostTest, owned
from made_up import small_texts
from zirofen_host.ask.model import Answer, Pair
from zirofen_host.ask.program import ESCAPES
from zirofen_host.collect import mount, snapshot
from zirofen_host.collect.model import OTHERS, OWNER, User
from zirofen_host.collect.mount import Mounts
from zirofen_host.fault import Fault
from zirofen_host.ask.guards import OVER
from zirofen_host.judge.judged import LetIn, Place, Uncontained, lets_in
from zirofen_host.profile import path_of
from unittest import mock

V1 = "30 25 0:26 / /sys/fs/cgroup/{0} rw - cgroup cgroup rw,{1}\n"
V2 = "31 25 0:27 / /sys/fs/cgroup/unified rw - cgroup2 cgroup2 rw,nsdelegate\n"


class OneLineTest(HostTest):
    """What is one fact of several is one line."""

    def lines_of_kind(self, kind):
        return [line for line in self.lines() if line.startswith(f"{kind}: ")]

    def test_deputies_and_processes_elsewhere(self):
        for uid, name in ((1000, "a"), (1001, "b"), (1002, "c")):
            self.host.cgroup(f"/{name}.service", owners=owned(uid), marks=(MARK,))
            self.host.process(uid, uid=uid, gid=uid)
        self.host.cgroup("/cron", pids=(1000, 1001, 1002))
        self.assertEqual(self.lines_of_kind("deputy"), [
            "deputy: the service manager moves their processes, from anywhere, on request: alice(1000) into /a.service; "
            "bob(1001) into /b.service; carol(1002) into /c.service"])
        self.assertEqual(self.lines_of_kind("outside"), [
            "outside: processes of theirs are outside of what they hold: alice(1000) in /cron; bob(1001) in /cron; carol(1002) in /cron"])

    def test_marks_and_more_than_are_shown(self):
        self.host.cgroup("/a", owners=owned(1000))
        for number in range(10, 22):
            self.host.cgroup(f"/a/{number}", owners=owned(1000), marks=("user.delegate",))
        line, = self.lines_of_kind("mark")
        self.assertTrue(line.endswith("/a/17 of alice(1000); 4 more"), line)
        self.assertEqual(len(self.told(self.report(), "mark")), 12)

    def test_one_of_each_person_stands_before_a_second(self):
        self.host.cgroup("/a", owners=owned(1000))
        self.host.cgroup("/b", owners=owned(1001), marks=())
        for number in range(10, 22):
            self.host.cgroup(f"/a/{number}", owners=owned(1000), marks=("user.delegate",))
        self.host.cgroup("/b/1", owners=owned(1001), marks=("user.delegate",))
        line, = self.lines_of_kind("mark")
        self.assertIn("/b/1 of bob(1001)", line)

    def test_roots_services_beside_an_open_slice_have_no_line(self):
        self.host.cgroup("/system.slice", owners=owned(0, 50), modes=BY_GROUP)
        for number in range(13):
            self.host.cgroup(f"/system.slice/s{number}.service", pids=(100 + number,))
            self.host.process(100 + number, capabilities=1 << 21 | 2)
        found = self.report()
        self.assertEqual((found["status"], self.told(found, "capability"), found["subtrees"]), (1, [], []))

    def test_capabilities_of_one_user_at_one_place(self):
        self.host.cgroup("/svc.service", owners=owned(1000), marks=(MARK,), pids=(7,))
        self.host.cgroup("/svc.service/in", owners=owned(1000), pids=(8, 9))
        for pid, bits in ((7, 2), (8, 2), (9, 1)):
            self.host.process(pid, capabilities=bits)
        self.assertEqual(self.told(self.report(), "capability"), [
            "/svc.service: inside: process 9 of uid 0 has CAP_CHOWN; process 7 8 of uid 0 has CAP_DAC_OVERRIDE, and passes over owners"])

    def test_what_everybody_is_let_in_to(self):
        self.host.accounts(passwd="".join(f"u{uid}:x:{uid}:{uid}::/:\n" for uid in range(1000, 1014)))
        self.host.cgroup("/up", modes={"cgroup.procs": 0o666})
        for name in ("a", "b"):
            self.host.cgroup(f"/up/{name}", owners=owned(1000))
        for uid in range(1001, 1014):
            self.host.cgroup(f"/s{uid}", owners=owned(uid))
        self.assertEqual(self.told(self.report(), "everybody"), ["/up/a /up/b: 5 more users are let in as everybody is, and weren't "
                                                                 "asked: where the answer is unsettled, one of them may escape"])

    def test_users_with_several_lists_of_groups_count_once(self):
        self.host.cgroup("/up", modes={"cgroup.procs": 0o666})
        self.host.cgroup("/up/a", owners=owned(1000), pids=(7, 8))
        self.host.cgroup("/b", owners=owned(1001), pids=(9, 10))
        for pid, uid, groups in ((7, 1000, (50,)), (8, 1000, ()), (9, 1001, (50,)), (10, 1001, (60,))):
            self.host.process(pid, uid=uid, gid=uid, groups=groups)
        self.assertEqual(self.told(self.report(), "everybody"), [])

    def test_everybodys_rows_say_anybody(self):
        self.host.cgroup("/open", modes={"dir": 0o777})
        self.host.cgroup("/nobodys", owners=owned(65534))
        self.assertEqual([(row[0], row[3]) for row in self.rows(self.report())], [("65534", "/nobodys"), ("anybody", "/open")])

    def test_whom_no_entry_lets_in(self):
        subtree, answer = path_of("/a"), Answer(ESCAPES, ("escapes",))
        found = [Uncontained(Pair(User(uid, ()), subtree), answer, None) for uid in (65534, 1000)]
        over = lets_in(mock.Mock(), Place(subtree, OVER), found)
        self.assertEqual(over.whom, (LetIn(OTHERS, None, {65534}), LetIn(OWNER, 1000, {1000})))

    @unittest.skipUnless(REAL_PROGRAM, "the program isn't built")
    def test_what_to_change_of_what_is_over_and_everybodys(self):
        self.program = REAL_PROGRAM
        self.host.cgroup("/open", modes={"dir": 0o777}, values={"cgroup.max.descendants": 0})
        self.host.cgroup("/open/in")
        found = self.report()
        self.assertEqual([(each["entry"], [whom["by"] for whom in each["whom"]], each["changes"]) for each in found["entries"]],
                         [(OVER, [OTHERS], [f"echo 1 >{self.host.mount}/open/cgroup.max.descendants"])])
        self.assertEqual(self.told(found, "advice"), [])

    def test_processes_of_what_is_over_full(self):
        self.host.cgroup("/full", owners=owned(1000), pids=range(10, 30))
        self.host.cgroup("/b", owners=owned(1001))
        for pid in range(10, 30):
            self.host.process(pid, uid=1000)
        with small_texts(processes=10):
            found = self.report()
            without = self.report(no_processes=True)
        self.assertEqual(self.told(found, "processes"), [
            "/full: 20 inside, more than a text takes: it was asked of without any, so that an unsettled answer might have been an escape"])
        self.assertEqual(self.told(without, "processes"), [])


class FirstVersionTest(HostTest):
    """A hybrid host: what version 1 limits is looked at by nobody."""

    def hybrid(self, *options):
        mounts = Mounts("".join(V1.format(number, option) for number, option in enumerate(options)) + V2)
        with mock.patch.object(snapshot, "mounts_of_folder", lambda _: mounts):
            return self.report()

    def test_which_controllers_have_limits(self):
        for options, limits in ((("cpu,cpuacct", "memory", "pids"), ("cpu", "memory", "pids")), (("blkio", "cpuset"), ("cpuset", "io")),
                                (("net_cls,net_prio", "devices", "freezer", "perf_event", "name=systemd"), ())):
            with self.subTest(options):
                text = "".join(V1.format(number, option) for number, option in enumerate(options))
                self.assertEqual(Mounts(text + V2).limits_of_version_1(), limits)

    def test_it_is_never_0(self):
        self.host.cgroup("/good", owners=owned(1000))
        self.assertEqual(self.hybrid("net_cls")["status"], 0)
        found = self.hybrid("cpu,cpuacct", "memory", "pids")
        self.assertEqual((found["status"], found["version_1"]), (2, ["cpu", "memory", "pids"]))
        lines = self.lines(found)
        self.assertRegex(lines[1], "contained .v1.")
        self.assertIn("limit: v1: limits of cpu, memory, pids are v1's and weren't looked at", lines)
        self.assertEqual(lines[-1], "2 by limits that are v1's; 1 asked: 1 contained [v1]; limits of this answer: v1")
        self.assertEqual(sum("v1's" in line for line in lines), 2)

    def test_what_is_found_counts_before_it(self):
        self.host.cgroup("/bad", owners={**owned(1000), "cgroup.max.depth": 1000})
        self.assertEqual(self.hybrid("memory")["status"], 1)

    def test_nothing_to_ask_stays_4(self):
        self.assertEqual(self.hybrid("memory")["status"], 4)


class NamespacesTest(unittest.TestCase):
    """Where owners, paths or PIDs look otherwise, a host isn't walked."""

    def refused(self, **spaces):
        spaces = {"cgroup": "cgroup:[4026531835]", "pid": "pid:[4026531836]", **spaces}
        with mock.patch.object(mount.os, "geteuid", lambda: 0), \
                mock.patch.object(mount.bounded, "read_link", lambda place: spaces[place.rpartition("/")[2]]):
            mount.refuse_what_is_no_host("/none")

    def test_a_pid_namespace(self):
        with self.assertRaisesRegex(Fault, "^inside a PID namespace: processes outside of it aren't seen"):
            self.refused(pid="pid:[4026532222]")

    def test_a_cgroup_namespace(self):
        with self.assertRaisesRegex(Fault, "^inside a cgroup namespace"):
            self.refused(cgroup="cgroup:[4026532222]")

    def test_the_host(self):
        with self.assertRaisesRegex(Fault, "isn't a cgroup v2 mount"):
            self.refused()


if __name__ == "__main__":
    unittest.main()
