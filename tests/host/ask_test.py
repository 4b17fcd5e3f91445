"""Tests of asking by name, and of operations as shell commands."""
import os
import subprocess
import unittest

from called import called
from check_test import HostTest, owned
from zirofen_host.judge import one, shell
from zirofen_host.options import AskOptions
from zirofen_host.fault import Fault
from zirofen_host.collect.model import Entry, User


class AskTest(HostTest):
    def ask(self, user, path, **more):
        self.warnings = []
        return one.ask(self.host.snapshot(), self.options(AskOptions, user=user, path=path, **more), self.warnings.append)

    def test_by_name_and_by_uid(self):
        self.host.cgroup("/a", owners={"cgroup.procs": (0, 50)}, modes={"cgroup.procs": 0o664})
        self.host.cgroup("/a/b", owners=owned(1002))
        for user in ("carol", "1002"):
            self.assertEqual(self.ask(user, "/a/b"), ([
                "unsettled common-ancestor /a", "# fails common-ancestor /a cgroup.procs 0:50 664 group",
                f"#     change: chmod 644 {self.host.mount}/a/cgroup.procs"], 2))
            self.assertIn("--uid 1002 --gid 1002 --gid 50 --subtree /a/b", " ".join(self.called()[-2]))
        self.assertEqual(self.ask("bob", "/a/b"), (["contained"], 0))
        self.assertEqual(self.warnings, [])

    def test_each_list_of_groups(self):
        self.host.cgroup("/a", owners={"cgroup.procs": (0, 60)}, modes={"cgroup.procs": 0o664})
        self.host.cgroup("/a/b", owners=owned(1000), pids=(7,))
        self.host.process(7, uid=1000, gid=1000, groups=(60,))
        self.can("all")
        self.assertEqual(self.ask("alice", "/a/b"), ([
            "# uid 1000, groups 1000", "contained", "# uid 1000, groups 1000,60", "unsettled common-ancestor /a"], 2))

    def test_who_has_nothing_here(self):
        self.host.cgroup("/a", owners={**owned(77), "cgroup.procs": (0, 88)}, modes={"cgroup.procs": 0o666}, pids=(7,))
        self.host.process(7, uid=99, gid=99)
        for user, warned in (("77", False), ("99", False), ("1000", False), ("78", True)):
            self.ask(user, "/a")
            self.assertEqual(bool(self.warnings), warned, user)
        self.assertEqual(self.warnings, ["uid 78 owns nothing, writes nothing of their own, has no process and no account here"])

    def test_faults(self):
        for user, path, line in (("nobody-here", "/a", "there is no account 'nobody-here'"),
                                 ("1000", "/odd", "^fault: subtree missing$")):
            with self.subTest(user), self.assertRaisesRegex(Fault, line):
                self.ask(user, path)

    def test_more_groups_than_go_in(self):
        path, gids = "", range(100, 140)
        self.host.accounts(passwd="alice:x:1000:1000::/:\n", group="".join(f"g{gid}:x:{gid}:alice\n" for gid in gids))
        for gid in gids:
            path += f"/d{gid}"
            self.host.cgroup(path, owners={"cgroup.procs": (0, gid)})
        self.assertEqual(self.ask("alice", "/d100/d101"), (["contained"], 0))
        self.assertRegex(self.warnings[0], "^[0-9]+ of their groups that are in the tree are left out")
        with self.assertRaisesRegex(Fault, "40 of their groups matter here, and the program takes 32"):
            self.ask("alice", path)


MOUNT = "/sys/fs/cgroup"
OPERATIONS = r"""move 10 /c0
control /it's -cpu +memory
control / +cpuset +cpu +io +memory +hugetlb +pids +rdma +misc +dmem
mkdir /a\x20$b
rmdir /a
set /c0 memory.max max
set / cgroup.max.depth 3
chmod /c0 dir 755
chmod /c0 memory.max 644
fork 1 2
exit 1
"""
COMMANDS = [
    "echo 10 >/sys/fs/cgroup/c0/cgroup.procs",
    "echo '-cpu +memory' >'/sys/fs/cgroup/it'\"'\"'s/cgroup.subtree_control'",
    "echo '+cpuset +cpu +io +memory +hugetlb +pids +rdma +misc +dmem' >/sys/fs/cgroup/cgroup.subtree_control",
    r"mkdir '/sys/fs/cgroup/a\x20$b'",
    "rmdir /sys/fs/cgroup/a",
    "echo max >/sys/fs/cgroup/c0/memory.max",
    "echo 3 >/sys/fs/cgroup/cgroup.max.depth",
    "chmod 755 /sys/fs/cgroup/c0",
    "chmod 644 /sys/fs/cgroup/c0/memory.max",
    "# fork 1 2",
    "# exit 1",
]


class CommandsTest(HostTest):
    def test_each_operation(self):
        self.assertEqual(shell.commands(MOUNT, OPERATIONS), COMMANDS)

    def test_lines_of_an_answer_are_comments(self):
        self.assertEqual(shell.commands(MOUNT, "pair 1000 /a\nescapes\nrmdir /a\n# a word\n"),
                         ["# pair 1000 /a", "# escapes", "rmdir /sys/fs/cgroup/a", "# a word"])

    def test_as_a_user(self):
        for user, words in ((User(1000, (1000, 50, 60)), "--regid 1000 --groups 50,60"),
                            (User(1000, (1000,)), "--regid 1000 --clear-groups"),
                            (User(1000, ()), "--regid 65534 --clear-groups")):
            self.assertEqual(shell.commands(MOUNT, "rmdir /a'b\nexit 1\n", user)[0::1], [
                f"setpriv --reuid 1000 {words} sh -c " + shell.shlex.quote("rmdir '/sys/fs/cgroup/a'\"'\"'b'"), "# exit 1"])

    def test_what_is_no_operation(self):
        for line in ("move 10", "move x /a", "move 010 /a", "mkdir a", "mkdir /a/../b", "set /a cgroup.kill 1", "set /a memory.max -1",
                     "chmod /a dir 88", "chmod /a dir 999", "control /a +fancy", "rm /a", "mkdir /a; reboot", "move 1 /a\x1b[1m"):
            with self.subTest(line), self.assertRaisesRegex(Fault, "^line 2 is no operation$"):
                shell.commands(MOUNT, f"rmdir /a\n{line}\n")

    def test_a_shell_carries_them_out(self):
        self.host.cgroup("/c0")
        text = "mkdir /it's\\x20$HOME\nset /c0 memory.max 7\nmove 10 /c0\nchmod /c0 memory.max 600\n"
        lines = shell.commands(self.host.mount, text)
        subprocess.run(["sh", "-e"], input="\n".join(lines), text=True, check=True)
        self.assertTrue(os.path.isdir(f"{self.host.mount}/it's\\x20$HOME"))
        with open(f"{self.host.mount}/c0/memory.max", encoding="ascii") as found:
            self.assertEqual(found.read(), "7\n")
        self.assertEqual(os.lstat(f"{self.host.mount}/c0/memory.max").st_mode & 0o777, 0o600)

    def test_script(self):
        def script(*words, given=OPERATIONS):
            return called("commands", *words, given=given)
        self.assertEqual(script().stdout.splitlines(), COMMANDS)
        ended = script("--uid", "1000", "--gid", "5", "--gid", "6", "--mount", "/m", given="rmdir /a\n")
        self.assertEqual(ended.stdout, "setpriv --reuid 1000 --regid 5 --groups 6 sh -c 'rmdir /m/a'\n")
        for words, given in (((), "rmdir /a\nno\n"), (("--gid", "5"), ""), (("--uid", "x"), ""), ((), "caf\xe9")):
            ended = script(*words, given=given)
            self.assertEqual((ended.returncode, ended.stdout), (3, ""))

    def test_advice_of_several_classes_leaves_no_bit_that_one_takes(self):
        entry = Entry(1000, 50, 0o666)
        self.assertEqual(shell.change_commands(MOUNT, [
            ["chown", "/a", "cgroup.procs", "0:50"], ["chmod", "/a", "cgroup.procs", "646"],
            ["chmod", "/a", "cgroup.procs", "664"], ["set", "/a", "cgroup.max.depth", "max"],
            ["chown", "/", "dir", "0:0"]], lambda *_: entry), (
                "chown root /sys/fs/cgroup/a/cgroup.procs", "echo max >/sys/fs/cgroup/a/cgroup.max.depth",
                "chown root:0 /sys/fs/cgroup", "chmod 644 /sys/fs/cgroup/a/cgroup.procs"))
        with self.assertRaisesRegex(Fault, "isn't known"):
            shell.change_commands(MOUNT, [["remove", "/a"]], lambda *_: entry)


if __name__ == "__main__":
    unittest.main()
