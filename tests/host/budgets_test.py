"""What one user makes is charged to them: the two others are answered as if it weren't there, and no more is read, asked and told
than the budgets say. All of it is counted, and nothing timed."""
import json
import os
import subprocess
import sys
import time
import unittest
from unittest import mock

import made_up_program
import scaling
from check_test import HostTest, owned
from made_up import COMMAND, MEMORY, accounts_with, small_texts
from shown import made
from zirofen_host import command, fault
from zirofen_host.ask import accepted, in_time
from zirofen_host.ask import program as asking
from zirofen_host.ask.model import Question
from zirofen_host.ask.affordable import Runs, bounded_further
from zirofen_host.ask.questions import subtrees_by
from zirofen_host.collect import bounded, descriptors, mount_kinds, processes, snapshot, turns, walk
from zirofen_host.collect.notes import FAILED
from zirofen_host.collect.accounts import Accounts
from zirofen_host.collect.bounded import Budget, Spent
from zirofen_host.collect.makers import Makers
from zirofen_host.collect.model import AccountLists, Process, Range, User, group_list
from zirofen_host.judge import check, findings, held, saved, unseen, whole
from zirofen_host.profile import ROOT, path_of
from zirofen_host.show import lines

OTHERS = [("contained", "/bob"), ("escapes", "/carol")]
MOUNT = "3 1 0:29 / /sys/fs/cgroup rw - cgroup2 cgroup2 rw\n"


class ThreeTest(HostTest):
    """One hostile user, one who is well handed over, and one with a limit left open."""

    folder = MEMORY

    def setUp(self):
        super().setUp()
        self.host.cgroup("/alice", owners=owned(1000, 1000), enabled="memory")
        self.host.cgroup("/bob", owners=owned(1001))
        self.host.cgroup("/carol", owners={**owned(1002), "cgroup.max.depth": 1002})

    def others(self, found):
        self.assertEqual([row[2:] for row in self.rows(found) if row[3] in ("/bob", "/carol")], OTHERS)
        (entry,) = [each for each in found["entries"] if each["path"] == "/carol"]
        self.assertEqual(entry["changes"], [f"chown root {self.host.mount}/carol/cgroup.max.depth"])
        told = self.lines(found)
        self.assertTrue(any(line.startswith("/carol cgroup.max.depth (1002:0 644): escapes, by carol(1002), of /carol") for line in told))

    def small(self, name, most):
        patched = mock.patch.object(bounded, name, Budget(getattr(bounded, name).what, most))
        patched.start()
        self.addCleanup(patched.stop)

    def counted(self, call):
        """What a call gives, and how many bytes were read in it."""
        self.bytes, read = 0, os.read

        def reading(opened, most):
            data = read(opened, most)
            self.bytes += len(data)
            return data
        with mock.patch.object(bounded.os, "read", reading):
            return call()


class SpentTest(unittest.TestCase):
    def test_a_subordinate_uid_is_its_owners_and_root_pays_for_nobody(self):
        charged_user = Accounts(AccountLists(subordinate_uids=(Range("1000", 100000, 10), Range("0", 200000, 10)))).charged_user
        spent = Spent(Budget("things", 2), charged_user)
        self.assertEqual([charged_user(uid) for uid in (0, 1000, 1001, 100003, 200003)], [0, 1000, 1001, 1000, 200003])
        self.assertEqual([spent.take(0), spent.take(1000), spent.take(100001), spent.take(1001), spent.take(100002)],
                         [True, True, True, True, False])
        self.assertEqual((spent.over(), spent.is_over(100009), spent.is_over(1001), spent.left(1001)), ([1000], True, False, 1))

    def test_what_root_handed_over_is_nobodys_making(self):
        charged_user, rows = accounts_with(uids=(Range("1000", 100000, 10),)).charged_user, {}
        for path, uid, mode in (("/", 0, 0o755), ("/a", 1000, 0o755), ("/a/in", 100001, 0o755), ("/a/in/roots", 0, 0o755),
                                ("/a/bobs", 1001, 0o755), ("/tmp", 0, 0o777), ("/tmp/x", 1001, 0o755)):
            rows[path_of(path)] = mock.Mock(directory=mock.Mock(uid=uid, mode=mode))
        rows[path_of("/a/m.service")] = rows[path_of("/a/in")]
        holds = Makers(rows, charged_user, {path_of("/a/m.service")})
        self.assertEqual([holds.within(path_of(path)) for path in (*rows, "/a/in/gone", "/gone")],
                         [None, None, 1000, 1000, None, None, 1001, None, 1000, None])

    def test_what_questions_cost(self):
        """Each costs whoever made some of its subtrees one, further ones too."""
        a, b, c, d = map(path_of, ("/a", "/a/b", "/a/c", "/d"))
        makers = mock.Mock(within=lambda path: 1000 if path.startswith(b"/a") else None)
        one, two = User(1, ()), User(2, ())
        for most, kept in ((2, [(b, c, d), (a, d)]), (1, [(b, c, d), (d,)]), (0, [(d,), (d,)])):
            runs = Runs(makers, Spent(Budget("questions", most), int))
            asked, over = runs.affordable([Question((one, two), (b, c, d)), Question((one,), (a, d))])
            further, left = bounded_further([Question((two, one), (c,))], {d: 5}, runs)
            self.assertEqual(([each.subtrees for each in asked], further), (kept, ()))
            self.assertEqual(set(map(str, over.values())), set() if most == 2 else {f"uid 1000 has over {most} questions"})
            self.assertEqual(left, {d: 5, c: 2})
        runs = Runs(makers, Spent(Budget("questions", 1), int))
        self.assertEqual(bounded_further([Question((two, one), (c,))], {d: 5}, runs), ((Question((two, one), (c,)),), {d: 5}))


class CgroupsTest(ThreeTest):
    def test_more_cgroups_than_are_read(self):
        for number in range(30):
            self.host.cgroup(f"/alice/c{number}", owners=owned(1000))
        self.counted(lambda: self.others(self.report()))
        whole = self.bytes
        self.small("CGROUPS", 10)
        found = self.counted(self.report)
        self.others(found)
        self.assertEqual([(each["subtrees"], each["fault"], each["made_by"]) for each in found["faults"]],
                         [(["/alice"], "uid 1000 has over 10 cgroups", "alice(1000)")])
        self.assertLess(self.bytes, whole / 2)

    def test_a_deep_chain_is_charged_by_its_levels(self):
        path = "/alice"
        for _ in range(9):
            path += "/c"
            self.host.cgroup(path, owners=owned(1000))
        self.small("LEVELS", 30)
        found = self.report()
        self.others(found)
        self.assertEqual([(each["subtrees"], each["fault"]) for each in found["faults"]],
                         [(["/alice"], "uid 1000 has over 30 levels above cgroups")])

    def test_cgroups_of_subordinate_uids_are_their_owners(self):
        for number in range(9):
            self.host.cgroup(f"/alice/c{number}", owners=owned(100000 + number))
        self.small("CGROUPS", 6)
        found = self.report()
        self.others(found)
        self.assertEqual([each["fault"] for each in found["faults"]], ["uid 1000 has over 6 cgroups"])

    def test_anothers_cgroups_inside_of_his_are_the_others(self):
        self.host.cgroup("/alice/daves", owners=owned(1003))
        for number in range(9):
            self.host.cgroup(f"/alice/daves/c{number}", owners=owned(1003))
        self.small("CGROUPS", 6)
        found = self.report()
        self.others(found)
        self.assertEqual([(each["subtrees"], each["fault"]) for each in found["faults"]],
                         [(["/alice/daves"], "uid 1003 has over 6 cgroups")])
        self.assertIn(("contained", "/alice"), [row[2:] for row in self.rows(found)])

    def test_each_byte_of_a_limit_is_charged(self):
        charged = []
        for value in ("max", "1000000"):
            self.host.cgroup("/alice/c", owners=owned(1000), values={"cgroup.max.depth": value})
            with self.host.owned():
                charged.append(walk.walk_over(self.host.mount).bytes.by[1000])
        self.assertEqual(charged[1] - charged[0], len("1000000") - len("max"))

    def test_long_marks(self):
        for number in range(9):
            self.host.cgroup(f"/alice/c{number}", owners=owned(1000))
        self.host.cgroup("/alice/c0", owners=owned(1000), marks=("user.delegate",))

        def marks_of(folder):
            return bounded.Attributes({"user.delegate": b"1" * 16}, 60000) if os.fstat(folder).st_uid else bounded.Attributes({}, 0)
        with mock.patch.object(self.host, "marks_of", marks_of):
            found = self.report(json=True)
            self.others(found)
            self.assertEqual({len(each["marks"].get("user.delegate", "")) for each in found["cgroups"]}, {0, 16})
            self.small("CGROUP_BYTES", 300000)
            found = self.report()
        self.others(found)
        self.assertEqual([each["subtrees"] for each in found["faults"]], [["/alice"]])

    def test_a_controller_that_comes_behind_the_first_walk_and_goes_behind_the_second(self):
        self.host.cgroup("/alice/in", owners=owned(1000))
        self.host.cgroup("/alice/in/deep", owners=owned(1000))
        turns, read = [], walk.Walk.read

        def reading(of, path):
            if path == b"/alice":
                turns.append(path)
                for deep in ("/alice/in", "/alice/in/deep"):
                    for name in ("memory.max", "memory.high", "memory.low", "memory.min"):
                        if deep.endswith("deep") and os.path.exists(f"{self.host.mount}{deep}/{name}"):
                            os.remove(f"{self.host.mount}{deep}/{name}")
                self.host.cgroup("/alice/in", owners=owned(1000), enabled="memory" if len(turns) == 2 else "")
                self.host.cgroup("/alice/in/deep", owners={**owned(1000), "memory.max": 1000} if len(turns) == 2 else owned(1000))
            return read(of, path)
        with mock.patch.object(walk.Walk, "read", reading):
            taken = self.host.take(accounts=self.host.etc)
        self.assertGreater(len(turns), 2)
        with mock.patch.object(self.host, "snapshot", lambda **_: taken):
            for is_json in (False, True):
                self.others(self.report(json=is_json))


class UidsTest(ThreeTest):
    def test_many_subordinate_uids_are_one_fault(self):
        """Each has a cgroup, and they are more than are asked of: one person's, in one line."""
        self.small("USERS", 20)
        for number in range(30):
            self.host.cgroup(f"/alice/c{number}", owners=owned(100000 + number))
        found = self.report()
        self.others(found)
        (fault_of,) = found["faults"]
        self.assertEqual((fault_of["fault"], fault_of["made_by"], len(fault_of["subtrees"])),
                         ("uid 1000 has over 20 uids to ask of", "alice(1000)", 31))
        self.assertEqual(len([line for line in self.lines(found) if line.startswith("fault: ")]), 1)


class ProcessesTest(ThreeTest):
    def test_more_processes_than_are_looked_at(self):
        for pid in range(10, 30):
            self.host.process(pid, uid=1000, gid=1000)
        self.host.process(31, uid=1001, gid=1001)
        self.small("PROCESSES", 5)
        found = self.report()
        self.others(found)
        self.assertEqual([(each["who"], each["subtrees"], each["fault"]) for each in found["faults"]],
                         [("alice(1000)", ["/alice"], "uid 1000 has over 5 processes: not all were looked at")])

    def test_who_holds_nothing_has_a_line_alone(self):
        for pid in range(10, 30):
            self.host.process(pid, uid=1003, gid=1003)
        self.small("PROCESSES", 5)
        found = self.report()
        self.others(found)
        self.assertEqual((found["faults"], self.told(found, "processes")),
                         ([], ["uid 1003: uid 1003 has over 5 processes: not all were looked at"]))

    def test_long_lists_of_groups(self):
        for pid in range(10, 20):
            self.host.process(pid, uid=1000, gid=1000, groups=range(100000, 110000))
        self.small("PROCESS_BYTES", 100000)
        found = self.counted(self.report)
        self.others(found)
        self.assertLess(self.bytes, 400000)
        self.assertEqual([each["subtrees"] for each in found["faults"]], [["/alice"]])

    def told_of_processes(self, gids=None):
        reader = processes.Reader(self.host.proc, int, gids).look()
        # a folder is in any order
        uids = [process.uid for process in reader.found.values()]
        return uids.count(1000), uids.count(1001), {person: str(why) for person, why in reader.over().items()}

    def test_more_groups_than_are_looked_at(self):
        """All of a user's processes together; the other users' are looked at."""
        for pid in range(10, 20):
            self.host.process(pid, uid=1000, gid=1000, groups=range(100, 150))
        self.host.process(30, uid=1001, gid=1001, groups=range(100, 150))
        self.small("GROUPS", 200)
        self.assertEqual(self.told_of_processes(), (4, 1, {1000: "uid 1000 has over 200 groups"}))
        found = self.report()
        self.others(found)
        self.assertEqual([(each["subtrees"], each["fault"]) for each in found["faults"]],
                         [(["/alice"], "uid 1000 has over 200 groups: not all were looked at")])

    def test_lists_of_groups_are_counted_where_they_differ(self):
        for pid in range(10, 20):
            self.host.process(pid, uid=1000, gid=1000, groups=(50, 100 + pid))
        self.small("GROUP_LISTS", 3)
        self.assertEqual(self.told_of_processes(), (3, 0, {1000: "uid 1000 has over 3 lists of groups"}))
        self.assertEqual(self.told_of_processes({50}), (10, 0, {}))

    def test_groups_are_kept_where_an_entry_has_them(self):
        self.host.process(10, uid=1000, gid=1000, groups=(7, *range(100, 150)))
        self.host.cgroup("/alice", owners={**owned(1000, 1000), "memory.max": (1000, 120)}, enabled="memory")
        self.assertEqual(self.host.take().processes[10].user, User(1000, (1000, 120)))

    def test_nothing_is_read_of_whoever_is_known_to_have_more(self):
        """By the owner of a process's folder, which is its effective uid."""
        for pid in range(10, 20):
            self.host.process(pid, uid=1000, gid=1000)
        self.small("PROCESSES", 3)
        opened = []
        with mock.patch.object(bounded, "owner_of", lambda path: 1000), \
                mock.patch.object(bounded, "read_where", lambda *of, read=bounded.read_where: opened.append(of[0]) or read(*of)):
            self.assertEqual(self.told_of_processes()[2], {1000: "uid 1000 has over 3 processes"})
        self.assertEqual(len(opened), 4)

    def test_threads_are_left_where_what_they_tell_is_too_much(self):
        """A kernel makes a list of all groups for each of them."""
        self.host.process(10, uid=1000, gid=1000, groups=range(100000, 110000), threads=(0,) * 50)
        self.small("PROCESS_BYTES", 300000)
        found = self.counted(self.report)
        self.others(found)
        self.assertLess(self.bytes, 1200000)
        (line,) = self.told(found, "capability")
        self.assertRegex(line, r"^alice\(1000\): 4[67] threads weren't looked at: uid 1000 has over 300000 bytes in what /proc has")

    def test_a_long_list_is_hashed_once(self):
        groups = group_list(range(1000))
        self.assertEqual((hash(groups), groups, 999 in groups, 1000 in groups), (hash(tuple(range(1000))), tuple(range(1000)), True, False))
        self.assertEqual({User(1, groups)}, {User(1, tuple(range(1000)))})
        self.assertIs(type(group_list(range(16))), tuple)


class MountsTest(ThreeTest):
    def mounts(self, count):
        return "".join(f"{number} 1 0:30 / /tmp/{'n' * 200}/{number} rw - tmpfs none rw\n" for number in range(10, 10 + count)) + MOUNT

    def test_each_namespace_is_read_once(self):
        for pid in range(10, 50):
            self.host.process(pid, uid=1000)
            self.host.mounts(pid, self.mounts(100), namespace=4026532000)
        self.others(self.counted(self.report))
        self.assertLess(self.bytes, 2 * len(self.mounts(100)) + 40 * 2000)

    def test_no_more_than_his_budget_is_read(self):
        for pid in range(10, 20):
            self.host.process(pid, uid=1000)
            self.host.mounts(pid, self.mounts(500), namespace=4026532000 + pid)
        self.small("MOUNT_BYTES", 50000)
        self.others(self.counted(self.report))
        self.assertLess(self.bytes, 50000 + 2 * bounded.PART + 60000)
        self.assertGreater(10 * len(self.mounts(500)), 1000000)


class DescriptorsTest(ThreeTest):
    def setUp(self):
        super().setUp()
        self.host.process(7, uid=1000)
        self.sure, self.perhaps = ([("alice(1000)", "cgroup.max.depth", "/bob", f"{word}open for writing", [7])]
                                   for word in ("", "perhaps "))

    def test_a_mount_that_another_namespace_has(self):
        self.host.opens(7, 3, "/bob/cgroup.max.depth", os.O_WRONLY, mount=31)
        self.host.mounts(7, "40 1 0:30 / / rw - ext4 none rw\n", namespace=4026532001)
        self.host.process(8, uid=1001)
        self.host.mounts(8, MOUNT.replace("3 1", "31 1"), namespace=4026531832)
        self.host.cgroup("/bob", owners=owned(1001), pids=(8,))
        self.assertEqual(self.held(self.report()), self.sure)

    def test_a_file_that_a_service_of_roots_handed_out(self):
        """As a login's manager does, in whose own namespace the file was opened: it is another's, though its inode is a limit's."""
        self.host.opens(7, 3, "/bob/cgroup.max.depth", os.O_WRONLY, mount=188)
        self.host.process(9)
        for kind, told in (("tmpfs", []), ("cgroup2", self.sure)):
            self.host.mounts(9, f"188 1 0:30 / /run rw - {kind} none rw\n")
            self.assertEqual(self.held(self.report()), told)

    def test_a_mount_that_nothing_tells_of(self):
        self.host.opens(7, 3, "/bob/cgroup.max.depth", os.O_WRONLY, mount=31)
        with mock.patch.object(bounded, "open_path") as asked:
            found = self.report()
        self.assertEqual((self.held(found), asked.called), (self.perhaps, False))
        self.others(found)

    def test_a_file_of_memory_is_none_of_cgroups(self):
        self.host.opens(7, 3, "/bob/cgroup.max.depth", os.O_RDWR, mount=31)
        with mock.patch.object(mount_kinds, "memory_mount", lambda proc: 31):
            self.assertEqual(self.held(self.report()), [])
        # of this process: one whose inode a cgroup's file might have
        opened = os.memfd_create("held")
        self.addCleanup(os.close, opened)
        looked = descriptors.Descriptors("/proc", lambda uid: uid, descriptors.Hierarchy("/", {os.fstat(opened).st_ino: (ROOT, "file")}))
        self.assertEqual(([*looked.held([(Process(os.getpid(), 1000, User(1000, ()), False), 1000)])], looked.unlooked), ([], []))
        self.assertIs(looked.mounts.kinds[mount_kinds.mount_of(opened)], False)
        # a made-up host tells nothing of it, and then no mount is taken for that one
        mounts = mount_kinds.MountKinds(self.host.proc, lambda uid: uid)
        mounts.read_own()
        self.assertEqual((mount_kinds.memory_mount(self.host.proc), mounts.kinds.get(-1)), (-1, None))

    def test_without_an_inode_it_is_told_as_not_looked_at(self):
        self.host.opens(7, 3, "/bob/cgroup.max.depth", os.O_WRONLY, mount=31, has_inode=False)
        found = self.report()
        self.assertEqual(self.told(found, "descriptor"), [
            "alice(1000): 1 open files are on mounts that nothing names, and this kernel doesn't say which files they are: they "
            "weren't looked at"])

    def test_of_an_older_kernel_a_file_is_held_before_it_is_asked(self):
        self.host.opens(7, 3, "/bob/cgroup.max.depth", os.O_WRONLY, has_inode=False)

        def number_in(fields, key):
            return 3 if key == "mnt_id" else -1
        with mock.patch.object(descriptors, "number_in", number_in), mock.patch.object(mount_kinds, "number_in", number_in):
            self.assertEqual(self.held(self.report()), self.sure)
        self.assertEqual(descriptors.inode_of(f"{self.host.mount}/bob/cgroup.max.depth", {}), -1)
        self.assertEqual(descriptors.inode_of(f"{self.host.mount}/none", {3: True}), -1)

    def test_what_has_no_path_isnt_asked_what_it_has_to_tell(self):
        for number in range(3, 40):
            self.host.opens(7, number, "/bob/cgroup.max.depth", os.O_WRONLY, more="tfd: 1\n" * 15000)
            os.remove(f"{self.host.proc}/7/fd/{number}")
            os.symlink("anon_inode:[eventpoll]", f"{self.host.proc}/7/fd/{number}")
        self.host.opens(7, 40, "/bob/cgroup.max.depth", os.O_WRONLY)
        found = self.counted(self.report)
        self.others(found)
        self.assertEqual(self.held(found), self.sure)
        self.assertLess(self.bytes, 30000)

    def test_what_tells_much_is_looked_at_a_few_times(self):
        for number in range(3, 40):
            self.host.opens(7, number, "/bob/cgroup.max.depth", os.O_WRONLY, more="lock: 1\n" * 15000)
        found = self.counted(self.report)
        self.others(found)
        self.assertEqual(self.held(found), self.sure)
        self.assertEqual(self.told(found, "descriptor"), [
            "alice(1000): more than 16 open files of which /proc has much are in their processes: not all were "
            "looked at"])
        self.assertLess(self.bytes, 150000)


class LinesTest(ThreeTest):
    def test_what_is_alike_is_one_with_a_number(self):
        for number in range(50):
            self.host.cgroup(f"/alice/c{number}", owners=owned(1000), modes={name: 0o666 for name in ("cgroup.procs", "memory.max")})
        found = self.report()
        self.others(found)
        told = self.lines(found)
        self.assertLess(len(told), 40)
        self.assertEqual([line for line in told if "49 more" in line][-1],
                         "    .. and 49 more that are alike, in what uid 1000 made: --each lists them")
        entries = [each for each in found["entries"] if each["path"].startswith("/alice/c")]
        self.assertEqual({each["path"] for each in entries}, {f"/alice/c{number}" for number in range(50)})
        self.assertEqual({tuple(each["changes"]) for each in entries if each["path"] == "/alice/c49" and each["entry"] == "memory.max"},
                         {(f"chmod 664 {self.host.mount}/alice/c49/memory.max",)})
        each = list(self.lines_each(found))
        self.assertTrue(all(any(line.startswith(f"/alice/c{number} ") for line in each) for number in range(50)))
        first = next(line for line in told if line.startswith("/alice/c") or line.startswith("/carol "))
        self.assertTrue(first.startswith("/carol "))

    def lines_each(self, found):
        return lines.lines_of(made(found), True)

    def test_odd_names_are_told_a_few_times(self):
        for number in range(50):
            os.makedirs(f"{self.host.mount}/alice/o d{number}")
        found = self.report()
        self.others(found)
        told = [line for line in self.lines(found) if line.startswith("snapshot: name: ")]
        self.assertEqual((len(told), len([each for each in found["snapshot"] if each["kind"] == "name"])), (4, 50))
        self.assertIn("snapshot: .. and 46 more in what uid 1000 made: 46 name", self.lines(found))

    def test_what_isnt_alike_is_cut_and_counted(self):
        for number in range(64):
            self.host.cgroup(f"/alice/c{number}", owners=owned(1000), modes={"memory.max": 0o602 | number << 3 & 0o070 | number & 0o4})
        found = self.report()
        self.others(found)
        self.host.cgroup("/alice/c0", owners=owned(1000), modes={"memory.max": 0o602, "cgroup.procs": 0o606})
        modes = {tuple((each["owner"]["mode"]) for each in found["entries"] if each["path"] == f"/alice/c{number}") for number in range(64)}
        self.assertGreaterEqual(len(modes), 8)
        with mock.patch("zirofen_host.show.folded.folded.__defaults__", (False, 3)):
            told = self.lines(found)
        (more,) = [line for line in told if line.startswith(".. and") and "let in" in line]
        self.assertRegex(more, r"^\.\. and [0-9]+ more in what uid 1000 made that let in everybody: [0-9]+ escapes$")
        self.assertLess(len(told), 60)

    def test_the_program_is_asked_for_advice_so_many_times(self):
        for number in range(200):
            self.host.cgroup(f"/alice/c{number}", owners=owned(1000), modes={"memory.max": 0o602 | (number & 0o7) << 3,
                                                                             "memory.high": 0o602 | number & 0o70})
        found = self.report()
        self.others(found)
        self.assertEqual(len([words for words in self.called() if words[0] == "advise" and "--pairs" in words]), 1)
        self.assertEqual(self.told(found, "advice"), [])
        with mock.patch.object(bounded, "ADVICE", 0):
            (told,) = self.told(self.report(), "advice")
        self.assertRegex(told, "^: what to change isn't known of [0-9]+ entries: the program is asked 0 times, once in each text")

    def test_the_sum(self):
        self.host.cgroup("/odd", owners=owned(1003))
        self.assertEqual(self.lines(self.report())[-1], "3 by a fault; 4 asked: 1 fault, 1 escapes, 2 contained")


class EntriesTest(ThreeTest):
    """What lets others in to what somebody made."""

    def setUp(self):
        super().setUp()
        for number in range(9):
            self.host.cgroup(f"/alice/c{number}", owners=owned(1000), more=("cgroup.kill",),
                             modes={"memory.max": 0o646, "cgroup.kill": 0o646})

    def told_of(self, found):
        """What is told of what alice made, and her faults."""
        return ([each["path"] for key in ("entries", "opened") for each in found[key] if each["path"].startswith("/alice/")],
                [(each["who"], each["subtrees"], each["fault"], each["made_by"]) for each in found["faults"]])

    def test_no_more_is_told_than_the_budget_says(self):
        paths = [f"/alice/c{number}" for number in range(9)]
        whole = self.report()
        self.assertEqual(self.told_of(whole), ([*paths, *paths], []))
        # of each cgroup an answer about everybody, and then what is opened; what is over is dropped, and so is all behind it
        for most, told in ((18, [*paths, *paths]), (17, [*paths, *paths[:8]]), (9, paths), (5, paths[:5]), (0, [])):
            self.small("ENTRIES", most)
            found = self.report()
            self.others(found)
            why = f"uid 1000 has over {most} entries that let somebody in: not all are listed"
            self.assertEqual(self.told_of(found), (told, [("alice(1000)", ["/alice"], why, "alice(1000)")] if most < 18 else []), most)
            self.assertEqual((found["status"], self.rows(found)), (1, self.rows(whole)))

    def test_advice_isnt_asked_of_what_is_over(self):
        self.small("ENTRIES", 5)
        asked, advise = [], asking.Program.advise

        def advising(of, pairs):
            asked.extend(pairs)
            return advise(of, pairs)
        with mock.patch.object(asking.Program, "advise", advising):
            self.report()
        self.assertEqual(sum(pair.subtree.startswith(b"/alice/") for pair in asked), 5)

    def test_what_is_anothers_is_told(self):
        """Also inside of what somebody made, and where an entry of theirs lets in to it."""
        self.host.cgroup("/alice/c0", owners=owned(1000), modes={"cgroup.procs": 0o646})
        self.host.cgroup("/alice/c0/roots", owners={**owned(1003), "cgroup.max.depth": 1003}, marks=("trusted.delegate",))
        self.small("ENTRIES", 0)
        found = self.report()
        self.others(found)
        entries = [each for each in found["entries"] if each["path"].startswith("/alice")]
        self.assertEqual([(each["path"], each["entry"]) for each in entries], [
            ("/alice", "cgroup.procs"), ("/alice/c0", "cgroup.procs"), ("/alice/c0", "cgroup.subtree_control"), ("/alice/c0", "dir"),
            ("/alice/c0/roots", "cgroup.max.depth")])
        self.assertEqual({path for each in entries for path in each["subtrees"]}, {"/alice/c0/roots"})

    def test_whose_subtrees_have_no_answer(self):
        """What they made stands in the line, where they hold nothing that is asked about."""
        self.host.cgroup("/alice", enabled="memory", modes={"dir": 0o777, "cgroup.procs": 0o666, "cgroup.subtree_control": 0o666})
        self.small("ENTRIES", 0)
        found = self.report()
        self.others(found)
        (fault,) = [each for each in found["faults"] if each["who"] == "alice(1000)"]
        self.assertEqual(fault["subtrees"], [f"/alice/c{number}" for number in range(9)])


class AttemptsTest(ThreeTest):
    """Each look stands alone."""

    def broken(self, module, name):
        def fails(*_):
            raise KeyError("memory.max")
        patched = mock.patch.object(module, name, fails)
        patched.start()
        self.addCleanup(patched.stop)

    def test_each_look_stands_alone(self):
        for module, name, what in ((held, "held_in", "descriptors"), (whole, "users_of", "users"), (unseen, "unknown_files", "unknown"),
                                   (findings, "closing_of_directories", "closing"), (findings, "what_differs", "differs")):
            with self.subTest(name):
                self.host.cgroup("/m.service", owners=owned(1001), marks=("trusted.delegate",))
                original = getattr(module, name)
                self.broken(module, name)
                found = self.report(json=True)
                setattr(module, name, original)
                self.others(found)
                if what:
                    self.assertIn(f"{what}: KeyError('memory.max')", self.told(found, FAILED))
                    self.assertEqual(found["status"], 3)

    def test_what_is_collected_stands_alone(self):
        row, process = snapshot.Conversion.row, processes.Reader.process

        def odd_row(of, path, found):
            return {}["memory.max"] if path == path_of("/alice/in") else row(of, path, found)

        def odd_process(of, pid):
            return {}["Uid"] if pid == 8 else process(of, pid)
        self.host.process(8, uid=1000)
        for place in ("/alice/in", "/alice/in/deep"):
            self.host.cgroup(place, owners=owned(1000))
        for module, name, what, odd in ((snapshot.Conversion, "row", "cgroups: KeyError('memory.max')", odd_row),
                                        (processes.Reader, "process", "processes: KeyError('Uid')", odd_process),
                                        (snapshot, "lacking_notes", "", None), (check, "accounts_of", "accounts: OSError('no')", None)):
            with self.subTest(name), mock.patch.object(module, name, odd or mock.Mock(side_effect=OSError("no"))):
                found = self.report(json=True)
                self.assertEqual([row_[2:] for row_ in self.rows(found) if row_[3] in ("/bob", "/carol")], OTHERS)
                self.assertEqual([f"{each['place']}: {each['text']}" for each in found["snapshot"] if each["kind"] == FAILED],
                                 [what] if what else [])
                self.assertEqual(found["status"], 3 if what else 1)

    def test_the_ways_to_write_stand_alone(self):
        out = []
        words = ["check", "--plain-folder", "--mount", self.host.mount, "--proc", self.host.proc, "--accounts", self.host.etc,
                 "--zirofen", self.program, "--html", f"{self.host.folder}/none/page.html",
                 "--baseline-update", f"{self.host.folder}/base.json"]
        warned = []
        with mock.patch("zirofen_host.fault.write", lambda parts: out.append("".join(parts))), \
                mock.patch("zirofen_host.fault.warn", warned.append), self.host.owned():
            self.assertEqual(command.main(words), 3)
        self.assertIn("/carol cgroup.max.depth (1002:0 644): escapes", "".join(out))
        self.assertEqual(len([line for line in warned if "the page" in line]), 1)
        with open(f"{self.host.folder}/base.json", encoding="ascii") as kept:
            self.assertEqual(json.load(kept)["status"], 1)


class SecondsTest(ThreeTest):
    WORDS = "it isn't whole: nothing is known of any subtree within 1 seconds"
    LATE = "zirofen-host check: it took longer than 1 seconds, and this is no answer\n"

    def words(self, *more):
        return ["check", "--plain-folder", "--mount", self.host.mount, "--proc", self.host.proc, "--accounts", self.host.etc,
                "--seconds", "1", *more]

    def test_a_run_is_cut_off(self):
        """A program that doesn't come to its end."""
        program = f"{self.host.folder}/slow"
        with open(program, "w", encoding="ascii") as out:
            out.write("#!/bin/sh\nexec sleep 20\n")
        os.chmod(program, 0o755)
        ended = subprocess.run([sys.executable, COMMAND, *self.words("--zirofen", program)], capture_output=True, text=True)
        self.assertEqual((ended.stderr, ended.returncode), (self.LATE, 3))
        self.assertIn(self.WORDS, ended.stdout)
        self.assertIn("failed: run: it took longer than 1 seconds: none went to what one user holds", ended.stdout)

    def cut_off(self, *more):
        """A walk over which the time ends, of which most went to alice; the status, and what was said beside the forms."""
        def take(*_):
            turns._Turns.went.update({1000: 41.0, 1001: 2.4, 0: 99.0, 1002: 0.4})
            raise fault.out_of_time()
        clock = mock.patch.multiple(fault._Clock, end_of_asking=0.0, end=0.0, seconds=1, message="it took longer than 1 seconds")
        warned = []
        with clock, mock.patch.object(accepted, "take", take), mock.patch("zirofen_host.fault.bound", lambda _: None), \
                mock.patch("signal.alarm", lambda _: None), mock.patch("zirofen_host.fault.warn", warned.append), \
                mock.patch("zirofen_host.fault.write", lambda _: None):
            return command.main(self.words(*more)), warned

    def test_each_form_says_that_it_isnt_whole(self):
        """And with whom the time went to; what may be compared with later is left as it was."""
        kinds = {"json": "json", "sarif": "sarif", "junit": "junit", "metrics": "metrics", "text": "text"}
        files = {kind: f"{self.host.folder}/late.{kind}" for kind in kinds}
        page, base = f"{self.host.folder}/late.html", f"{self.host.folder}/base.json"
        words = [word for kind, file in files.items() for word in ("--format", f"{kind}={file}")]
        status, warned = self.cut_off(*words, "--html", page, "--baseline", base)
        self.assertEqual((status, warned), (3, ["zirofen-host check: it took longer than 1 seconds"]))
        for kind, file in {**files, "html": page}.items():
            with self.subTest(kind), open(file, encoding="utf-8") as written:
                text = written.read().replace("&#x27;", "'")
                if kind == "metrics":
                    self.assertIn('zirofen_answer_limits{kind="time"} 1', text)
                    self.assertIn("zirofen_status 3", text)
                else:
                    self.assertIn(self.WORDS, text)
                    self.assertIn("41 went to what uid 1000 holds, 2 went to what uid 1001 holds", text)
        self.assertFalse(os.path.exists(base))
        with open(files["json"], encoding="utf-8") as written:
            self.assertEqual(saved.check(json.load(written), "late").status, 3)

    def test_time_goes_to_whoever_is_looked_at(self):
        times = iter((0.0, 10.0, 12.0, 17.0, 18.0))
        spent = Spent(Budget("cgroups", 9), lambda uid: uid % 1000)
        with mock.patch("time.monotonic", lambda: next(times)):
            turns.begin()
            for uid in (5, 1005, 0, 6, 6):
                spent.take(uid)
            self.assertEqual(turns.shares_text(), "2 went to what uid 5 holds, 1 went to what uid 6 holds")
        turns.begin()

    def test_what_was_asked_in_time_is_told(self):
        """A program that never comes to an end where one user's many subtrees are asked of: the others have their answers."""
        for number in range(5):
            self.host.cgroup(f"/alice{number}", owners=owned(1000))
        start, slow = asking.Program.start, []

        def started(of, words):
            if any(word.startswith("/alice") for word in words):
                slow.append(of.limit)
                raise subprocess.TimeoutExpired(words, 1)
            return start(words)
        clock = mock.patch.multiple(fault._Clock, end_of_asking=time.monotonic() + 100, end=time.monotonic() + 200)
        with clock, mock.patch.object(asking.Program, "start", started):
            found = self.report()
        self.others(found)
        self.assertEqual((found["status"], len(slow)), (3, 2))
        (fault_of,) = found["faults"]
        self.assertRegex(fault_of["fault"], "^there was no time to ask of it: of [0-9]+ seconds [0-9]+ went to what uid [0-9]+ holds$")
        self.assertEqual(fault_of["subtrees"], ["/alice", *(f"/alice{number}" for number in range(5))])
        self.assertEqual(found["limits"], [{"kind": "time", "text": "it isn't whole: there was no time to ask of 6 subtrees"}])

    def test_whoever_holds_the_most_is_asked_of_last(self):
        one, two = User(1, ()), User(2, ())
        asked = [Question((one, two), (b"/a1", b"/b1", b"/a2")), Question((one,), (b"/a3", b"/c1"))]
        found = in_time.by_holder(asked, lambda path: {b"a": 1000, b"b": 1001, b"c": 1002}[path[1:2]])
        self.assertEqual([(person, [each.subtrees for each in some]) for person, some in found.items()],
                         [(1002, [(b"/c1",)]), (1001, [(b"/b1",)]), (1000, [(b"/a1", b"/a2"), (b"/a3",)])])


class LargeTest(ThreeTest):
    def test_a_text_leaves_out_what_is_inside_of_whoever_has_most(self):
        for number in range(30):
            self.host.cgroup(f"/alice/c{number}", owners=owned(1000))
        self.host.cgroup("/bob/in", owners=owned(1001))
        file = f"{self.host.folder}/tree.toml"
        words = ["snapshot", "--with-host", "--plain-folder", "--mount", self.host.mount, "--proc", self.host.proc, "--accounts",
                 self.host.etc]
        out, warned = [], []
        with small_texts(rows=20), \
                mock.patch("zirofen_host.fault.write", lambda parts: out.append("".join(parts))), \
                mock.patch("zirofen_host.fault.warn", warned.append), self.host.owned():
            self.assertEqual(command.main(words), 0)
        why = "uid 1000 has 30 cgroups in /alice, left out: a text has 20 cgroups at most"
        self.assertIn(f"large: /alice: {why}", warned)
        with open(file, "w", encoding="ascii") as kept:
            kept.write("".join(out))
        self.assertIn("/bob/in", "".join(out))
        options = self.options(tree=file, accounts=None)
        found = self.value_of(check.report(accepted.take(options, subtrees_by(options)), options, False))
        self.others(found)
        self.assertEqual([(each["subtrees"], each["fault"], each["made_by"]) for each in found["faults"]],
                         [(["/alice"], why, "alice(1000)")])
        self.assertEqual(found["status"], 1)

    def test_a_text_of_too_many_bytes(self):
        """What is inside of whoever has most is left out, by how long it is and not by how many cgroups it is."""
        for number in range(3):
            self.host.cgroup(f"/alice/c{number}", owners={**owned(1000), "cgroup.freeze": 1000}, values={"cgroup.freeze": "7" * 2000})
        for number in range(9):
            self.host.cgroup(f"/bob/c{number}", owners=owned(1001))
        words = ["snapshot", "--with-host", "--plain-folder", "--mount", self.host.mount, "--proc", self.host.proc, "--accounts",
                 self.host.etc]
        out, warned = [], []

        def taken(longest):
            with small_texts(longest=longest), mock.patch("zirofen_host.fault.write", lambda parts: out.append("".join(parts))), \
                    mock.patch("zirofen_host.fault.warn", warned.append), self.host.owned():
                self.assertEqual(command.main(words), 0)
            return out.pop()
        whole = len(taken(100000))
        self.assertGreater(whole, 6000)
        self.assertEqual(len(taken(whole)), whole)
        self.assertEqual([line for line in warned if line.startswith("large")], [])
        text = taken(whole - 1)
        self.assertEqual([line for line in warned if line.startswith("large")],
                         [f"large: /alice: uid 1000 has 3 cgroups in /alice, left out: a text has {whole - 1} bytes at most"])
        self.assertEqual([text.count(f"path = '/{name}/") for name in ("alice", "bob")], [0, 9])


class ScalingTest(HostTest):
    folder = MEMORY

    def test_runs_and_lines_dont_grow_and_bytes_grow_as_what_is_there(self):
        def play(of, words):
            return made_up_program.play(words)
        with mock.patch.object(asking.Program, "start", play):
            few, many = scaling.cost(self.program, 40), scaling.cost(self.program, 160)
        self.assertEqual((few[0], few[2]), (many[0], many[2]))
        self.assertLess(many[1], 5 * few[1])


if __name__ == "__main__":
    unittest.main()
