"""Tests of changes of root's that are asked about before they are made."""
import json
import os
import unittest
from dataclasses import replace

import report_schema
from called import called
from check_test import MANAGER, REAL_PROGRAM, HostTest, owned
from made_up import TOP, path_of
from shown import without_makers
from zirofen_host.collect import changes, elsewhere
from zirofen_host.collect.elsewhere import Accepted
from zirofen_host.collect.model import AccountLists, Carried, Entry, Source
from zirofen_host.collect.tree import read_tree
from zirofen_host.collect.walk import MARKS
from zirofen_host.fault import Fault
from zirofen_host.judge import plan
from zirofen_host.options import PlanOptions
from zirofen_host.show import plan_lines

DELEGATION = f"{TOP}/examples/delegation.toml"
ROOT = """format = 2
controllers = ["cpu", "memory", "pids"]

[[cgroup]]
path = "/"
enabled = ["memory", "pids"]

"""
TREE = ROOT + """[[cgroup]]
path = "/a"
enabled = ["memory"]
[cgroup.files]
"memory.max" = { value = 4096 }
"cgroup.max.depth" = { value = 2 }
"cgroup.max.descendants" = { value = 3 }

[[cgroup]]
path = "/a/b"
dir = { uid = 1000 }

[[process]]
pid = 7
uid = 1000
at = "/a/b"
"""
# what is told of a text that carries nothing of its host
LIMITS = "limits of this answer: accounts, premises"
LIMIT_LINES = ["limit: accounts: it was asked by number, without groups and subordinate ids",
               "limit: premises: threads' places and held entries aren't known"]
# what holds against everybody rests on no account
EVERYBODY_LIMITS, EVERYBODY_LIMIT_LINES = "limits of this answer: premises", LIMIT_LINES[1:]


def snapshot_of(text=TREE, is_carrying=True):
    found = elsewhere.read(Accepted("a.toml", text, read_tree(text)), "/mnt")
    return replace(found, source=Source("a.toml", Carried(AccountLists(), {}))) if is_carrying else found


def changed(*lines, **more):
    return changes.changed(snapshot_of(**more), "\n".join(lines))


class ChangesTest(unittest.TestCase):
    def row(self, path, *lines):
        return changed(*lines).tree.rows[path_of(path)]

    def refused(self, *lines, **more):
        with self.assertRaises(Fault) as raised:
            changed(*lines, **more)
        return str(raised.exception)

    def test_a_cgroup_is_made_as_a_kernel_makes_it(self):
        found = self.row("/a/c", "mkdir /a/c")
        self.assertEqual((found.directory, found.enabled), (Entry(0, 0, 0o755), ()))
        self.assertEqual(found.values, {"cgroup.max.descendants": "max", "cgroup.max.depth": "max", "memory.min": 0, "memory.low": 0,
                                        "memory.high": "max", "memory.max": "max"})
        self.assertEqual({found.entry(name) for name in (*found.values, "cgroup.procs")}, {Entry(0, 0, 0o644)})

    def test_owners_modes_and_values(self):
        found = self.row("/a", "chown /a dir 1000:50", "chmod /a dir 775", "chown /a memory.max 5:0", "set /a memory.max 8192",
                         "set /a pids.max max", "chmod /a memory.max 664")
        self.assertEqual((found.directory, found.entry("memory.max")), (Entry(1000, 50, 0o775), Entry(5, 0, 0o664)))
        self.assertEqual((found.values["memory.max"], found.values["pids.max"]), (8192, "max"))

    def test_controllers_bring_and_take_files(self):
        found = changed("mkdir /b", "mkdir /b/c", "control /b +memory +pids", "chown /b/c pids.max 9:9", "control /b -memory")
        rows = found.tree.rows
        self.assertEqual(rows[path_of("/b")].enabled, ("pids",))
        self.assertEqual(sorted(rows[path_of("/b/c")].values), ["cgroup.max.depth", "cgroup.max.descendants", "pids.max"])
        self.assertEqual(rows[path_of("/b/c")].entry("pids.max"), Entry(9, 9, 0o644))
        self.assertEqual(found.cgroups[path_of("/b/c")].files["pids.max"], Entry(9, 9, 0o644))
        again = changed("mkdir /b", "mkdir /b/c", "control /b +pids", "chown /b/c pids.max 9:9", "set /b/c pids.max 3", "control /b -pids",
                        "control /b +pids")
        row = again.tree.rows[path_of("/b/c")]
        # what went and came has its defaults again
        self.assertEqual((row.entry("pids.max"), row.values["pids.max"]), (Entry(0, 0, 0o644), "max"))

    def test_controllers_of_a_tree_are_those_of_its_format(self):
        large = TREE.replace("format = 2", "format = 4").replace('"pids"]\n\n', '"pids", "io", "dmem"]\n\n', 1)
        found = changed("mkdir /b", "mkdir /b/c", "control / +io +dmem", "control /b +pids +io", "chown /b/c io.max 9:9", text=large)
        self.assertEqual(found.tree.format.number, 4)
        rows = found.tree.rows
        self.assertEqual((rows[path_of("/")].enabled, rows[path_of("/b")].enabled), (("io", "memory", "pids", "dmem"), ("io", "pids")))
        # no file of theirs is one of a tree text
        self.assertEqual(sorted(rows[path_of("/b/c")].values), ["cgroup.max.depth", "cgroup.max.descendants", "pids.max"])
        self.assertEqual(found.cgroups[path_of("/b/c")].files["io.max"], Entry(9, 9, 0o644))
        self.assertIn("line 1: cpuset isn't there to be enabled at /", self.refused("control / +cpuset", text=large))
        self.assertTrue(self.refused("control / +fancy", text=large).startswith("line 1: control PATH +CONTROLLER"))
        for line in ("control / +io", "control / +cpuset"):
            self.assertTrue(self.refused(line).startswith("line 1: control PATH +CONTROLLER"))

    def test_processes_marks_and_other_files(self):
        found = changed("mkdir /b", "process 9 33 /b", "mark /b", "chown /b cgroup.kill 33:33", "chmod /b memory.swap.max 666")
        self.assertEqual([each for each in found.tree.processes if each.pid == 9], [(9, 33, path_of("/b"))])
        cgroup = found.cgroups[path_of("/b")]
        self.assertEqual((cgroup.marks, cgroup.files["cgroup.kill"], cgroup.files["memory.swap.max"]),
                         ({name: b"1" for name in MARKS}, Entry(33, 33, 0o644), Entry(0, 0, 0o666)))

    def test_what_a_kernel_doesnt_let_root_do(self):
        for line, why in (
                ("mkdir /a", "'/a' is there already"), ("mkdir /x/y", "there is no cgroup '/x'"), ("mkdir x", "'x' is no path of a cgroup"),
                ("mkdir /memory.max", "'/memory.max' is no path of a cgroup"), ("mkdir /..", "'/..' is no path of a cgroup"),
                ("chown /none dir 0:0", "there is no cgroup '/none'"), ("chown /a/b pids.max 0:0", "there is no 'pids.max' at /a/b"),
                ("chown /a io.max 0:0", "there is no 'io.max' at /a"), ("chmod /a nothing 644", "there is no 'nothing' at /a"),
                ("control /a/b +pids", "pids isn't there to be enabled at /a/b"),
                ("control /a/b +memory", "there are processes in /a/b"), ("control / -memory", "a cgroup in / enables memory"),
                ("set /a cpu.weight 5", "'cpu.weight' at /a is no limit that a tree text carries"),
                ("set /a cpu.max 5", "'cpu.max' at /a is no limit"), ("set / pids.max 5", "'pids.max' at / is no limit"),
                ("set /a memory.max -1", "memory.max doesn't take '-1'"), ("set /a memory.max 1G", "memory.max doesn't take '1G'"),
                ("process 7 0 /a/b", "there is a process 7 already"), ("process 9 0 /a", "/a enables a controller"),
                ("mkdirs /b", "'mkdirs' is no change: mkdir, chown,")):
            self.assertIn(f"line 1: {why}", self.refused(line), line)
        for line in ("mkdir", "mkdir /b /c", "chown /a dir 0", "chown /a dir x:0", "chown /a dir 0:4294967296", "chmod /a dir 8",
                     "chmod /a dir 888",
                     "control /a memory", "control /a +io", "set /a memory.max", "process 0 0 /a/b", "process x 0 /a/b", "mark"):
            self.assertIn(f"{line.split()[0]} ", self.refused("# a comment", "", line))
            self.assertTrue(self.refused("# a comment", "", line).startswith("line 3: "), line)

    def test_limits_of_how_many_cgroups_hold_root_too(self):
        self.assertIn("line 2: cgroup.max.depth of /a is 2", self.refused("mkdir /a/b/c", "mkdir /a/b/c/d"))
        self.assertIn("line 3: cgroup.max.descendants of /a is 3", self.refused("mkdir /a/c", "mkdir /a/d", "mkdir /a/e"))
        changed("mkdir /a/c", "mkdir /a/d")

    def test_a_text_that_carries_nothing_has_no_place_for_some(self):
        for line in ("mark /a", "chown /a cgroup.kill 5:5"):
            self.assertIn("the text carries nothing of its host", self.refused(line, is_carrying=False))
        changed("chown /a cgroup.procs 5:5", is_carrying=False)

    def test_every_entry_that_real_hand_overs_chown(self):
        """The lists of systemd, of nspawn and of a kernel, and what watches pressure, with any controllers; of a subgroup all files are
        handed over."""
        names = ("cgroup.controllers", "cgroup.events", "cgroup.procs", "cgroup.stat", "cgroup.subtree_control", "cgroup.threads",
                 "cgroup.type", "memory.oom.group", "memory.reclaim", "memory.pressure", "cpu.pressure", "memory.events")
        lines = [f"chown /a {name} 5:5" for name in ("dir", *names)]
        for is_carrying in (True, False):
            changed(*lines, is_carrying=is_carrying)
        _, unplaced = changes.carried_out(snapshot_of(TREE, False), "\n".join(lines))
        # one line for those on which no answer rests, and one for what a kernel doesn't list
        self.assertEqual((unplaced.idle, unplaced.others), (
            ("cgroup.controllers", "cgroup.events", "cgroup.stat", "cgroup.threads", "cpu.pressure", "memory.events", "memory.oom.group",
             "memory.pressure", "memory.reclaim"), ((path_of("/a"), "cgroup.type"),)))
        # below a directory of theirs it is theirs, and what is handed to somebody else is another's
        _, unplaced = changes.carried_out(snapshot_of(TREE, False), "\n".join((
            "chown /a dir 1000:0", "chown /a/b cgroup.type 1000:0", "chown /a/b cgroup.threads 1000:0", "chown /a memory.oom.group 7:7",
            "chown /a/b memory.reclaim 0:0")))
        self.assertEqual(unplaced, (("cgroup.threads", "cgroup.type", "memory.reclaim"), ((path_of("/a"), "memory.oom.group"),)))


@unittest.skipUnless(REAL_PROGRAM, "there is no program")
class CommandTest(HostTest):
    def plan(self, *words, ops=""):
        return called("plan", "--zirofen", REAL_PROGRAM, "--ops", "-", *words, given=ops)

    def test_what_is_new_and_worse(self):
        said = self.plan("--tree", DELEGATION, ops="mkdir /new\nchown /new dir 1001:1001\nchown /new cgroup.procs 1001:1001\n"
                         "chown /new cgroup.subtree_control 1001:1001\nchown / cgroup.procs 1000:0\n")
        self.assertEqual((said.returncode, said.stderr), (1, ""))
        self.assertEqual(without_makers(said.stdout.splitlines()), [
            "new: / cgroup.procs (1000:0 644): escapes, by uid 1000, of /c0 /c1 /new", "    change: chown root /sys/fs/cgroup/cgroup.procs",
            "new: /new: contained, by 1001 who holds it",
            "worse: /c0: escapes, by 1000 who holds it", "    before: /c0: contained, by 1000 who holds it",
            "worse: /c1: escapes, by 1000 who holds it", "    before: /c1: contained, by 1000 who holds it",
            *LIMIT_LINES, f"1 by 1 new and 2 worse; 3 asked: 3 escapes; {LIMITS}"])

    def test_nothing_changes(self):
        said = self.plan("--tree", DELEGATION, ops="# nothing\n")
        self.assertEqual((without_makers(said.stdout.splitlines()), said.returncode), (
            ["nothing is new, worse, changed or gone beside the tree as it is", *EVERYBODY_LIMIT_LINES,
             f"0; 2 asked: 2 contained [limited]; {EVERYBODY_LIMITS}"], 0))
        # what stands before counts as before
        said = self.plan("--tree", f"{TOP}/examples/delegation-ancestor-owned.toml", ops="set /c0 memory.max 9\n")
        self.assertEqual((said.returncode, said.stdout.splitlines()[-1]), (0, f"0; 2 asked: 2 escapes; {LIMITS}"))
        said = self.plan("--tree", f"{TOP}/examples/delegation-ancestor-owned.toml",
                         ops="chown / cgroup.procs 0:0\nchmod / cgroup.procs 644\n")
        self.assertEqual((said.returncode, said.stdout.splitlines()[-1]), (0, f"0; 2 asked: 2 contained [limited]; {EVERYBODY_LIMITS}"))
        self.assertIn("gone: / cgroup.procs (1000:0 446): escapes", said.stdout)

    def test_what_no_answer_rests_on_is_said_once(self):
        files = ("dir", "cgroup.procs", "cgroup.subtree_control", "cgroup.threads", "memory.pressure")
        ops = "mkdir /new\n" + "".join(f"chown /new {name} 1001:1001\n" for name in files)
        said = self.plan("--tree", DELEGATION, ops=ops)
        *lines, last = without_makers(said.stdout.splitlines())
        self.assertEqual((said.returncode, said.stderr, lines), (0, "", [
            "new: /new: contained, by 1001 who holds it", "not-told: cgroup.threads memory.pressure: no answer rests on these",
            *EVERYBODY_LIMIT_LINES]))
        self.assertNotIn("isn't known: ", last)
        said = self.plan("--tree", DELEGATION, ops=f"{ops}chown /new cgroup.type 1001:1001\n")
        *lines, last = without_makers(said.stdout.splitlines())
        self.assertEqual((said.returncode, last.partition(";")[0]), (2, "2 by what a plan doesn't know"))
        self.assertEqual(lines[-1],
                         "limit: plan: what may give entries away isn't known: cgroup.type of /new: the text has no place for it")

    def test_in_place_of_answers(self):
        ops = "# a comment\nmkdir   /new\nchown /new dir 9:9\n"
        self.assertEqual(self.plan("--tree", DELEGATION, "--print", "lines", ops=ops).stdout, "mkdir /new\nchown /new dir 9:9\n")
        said = self.plan("--tree", DELEGATION, "--print", "text", ops=ops)
        self.assertEqual(said.returncode, 0)
        self.assertEqual(read_tree(said.stdout).rows[path_of("/new")].directory, Entry(9, 9, 0o755))
        self.assertEqual(read_tree(said.stdout).format.number, 2)
        again = self.plan("--tree", DELEGATION, "--json", ops=ops)
        value = json.loads(again.stdout)
        self.assertEqual((report_schema.faults_of(value), value["baseline"]["status"]), ([], again.returncode))

    def test_faults(self):
        for words, ops, told in ((("--tree", DELEGATION), "mkdir /c0", "line 1: '/c0' is there already"),
                                 (("--tree", DELEGATION), "mkdir /\xe9", "the changes aren't ASCII"),
                                 (("--tree", "-"), "", "the tree and the changes can't both be standard input"),
                                 (("--tree", DELEGATION, "--only", "/c0"), "", "--only and --tree-format go with a host, and not with"),
                                 (("--tree", DELEGATION, "--tree-format", "2"), "", "--only and --tree-format go with a host, and"),
                                 (("--tree-format", "1"), "", "argument --tree-format: invalid choice: 1 (choose from 2, 4)"),
                                 (("--tree", DELEGATION, "--ops", "/none"), "", "can't read the changes: No such file or directory")):
            said = self.plan(*words, ops=ops)
            self.assertEqual((said.returncode, said.stdout), (3, ""))
            self.assertIn(f"zirofen-host plan: {told}", said.stderr)


class HostPlanTest(HostTest):
    """Of a host, with its accounts and marks."""

    def planned(self, lines):
        options = self.options(PlanOptions)
        with self.host.owned():
            found = plan.before(options)
        report = plan.compared(found, plan.text_behind(found, plan.Planned(lines), options)[0], options)
        return list(plan_lines.lines_of(report, report.baseline)), plan.status_of(report.baseline, report)

    def test_a_unit_that_is_handed_over(self):
        self.manager()
        self.host.cgroup("/system.slice", enabled="memory")
        unit = "/system.slice/a.service"
        hand_over = "".join(f"chown {unit} {name} 1001:0\n" for name in owned(0))
        lines, status = self.planned(f"mkdir {unit}\n{hand_over}mark {unit}\nprocess 99 1001 {unit}\n")
        self.assertIn(f"new: {unit}: contained, by 1001 who holds it", lines)
        self.assertEqual((status, lines[-1]), (0, "0; 2 asked: 2 contained"))
        # without the manager's mark it is what the manager keeps
        lines, status = self.planned(f"mkdir {unit}\n{hand_over}")
        self.assertEqual(status, 1)
        self.assertTrue(any(line.startswith(f"new: opened {unit} cgroup.procs by bob(1001)") for line in lines), lines)

    def test_what_another_users_manager_is_open_to(self):
        self.manager()
        lines, status = self.planned(f"chown {os.path.dirname(MANAGER)} cgroup.procs 1001:0\n")
        self.assertEqual(status, 1 if any("escapes" in line for line in lines) else 2)
        self.assertTrue(any(line.startswith("new: /user.slice/user-1000.slice cgroup.procs (1001:0 644)") for line in lines), lines)


if __name__ == "__main__":
    unittest.main()
