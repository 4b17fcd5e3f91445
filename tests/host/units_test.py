"""Tests of units as changes to a tree."""
import json
import os
import tempfile
import unittest
from dataclasses import replace

import report_schema
from called import called
from check_test import REAL_PROGRAM
from made_up import TOP, path_of
from plan_test import ROOT, snapshot_of
from shown import without_makers
from zirofen_host.collect import changes
from zirofen_host.collect.model import Account, AccountLists, Carried, Entry, Group, Source
from zirofen_host.collect.unit_files import FOLDERS, UnitFile, UnitName, read_slice, read_units, specifiers
from zirofen_host.collect.walk import MARKS
from zirofen_host.fault import Fault
from zirofen_host.judge import plan, units
from zirofen_host.options import PlanOptions

ACCOUNTS = AccountLists((Account("root", 0, 0), Account("app", 900, 901), Account("taken", 61184, 61184)), (Group(77, (), "ops"),))
TREE = ROOT + """[[cgroup]]
path = "/system.slice"
enabled = ["memory", "pids"]

[[cgroup]]
path = "/system.slice/old.service"
dir = { uid = 5 }
[cgroup.files]
"memory.max" = { uid = 5, value = 4096 }
"pids.max" = { value = 33 }

[[cgroup]]
path = "/system.slice/other.service"
[cgroup.files]
"pids.max" = { value = 33 }
"""


ROOTS_DELEGATE = ["a.service: Delegate=yes: what root's command hands over inside isn't known"]


class UnitsTest(unittest.TestCase):
    maxDiff = None

    def setUp(self):
        room = tempfile.TemporaryDirectory()
        self.addCleanup(room.cleanup)
        self.room = room.name

    def write(self, name, text, folder=""):
        file = os.path.join(self.room, folder, name)
        os.makedirs(os.path.dirname(file), exist_ok=True)
        with open(file, "w", encoding="utf-8") as out:
            out.write(text)
        return file

    def planned(self, *files, systemd=257, folders=(), tree=TREE, slices=lambda _: None, is_script=lambda _: False):
        snapshot = replace(snapshot_of(tree), source=Source("a.toml", Carried(ACCOUNTS, {})))
        plan = units.planned(snapshot, ACCOUNTS, read_units(files, folders), systemd, {"H": "web1.example", "l": "web1"}, slices, is_script)
        lines, named, self.may_give = [" ".join(words) for words in plan.lines], plan.named, plan.may_give
        # whatever is planned can be carried out
        self.behind = changes.changed(snapshot, "\n".join(lines))
        return lines, named

    def service(self, text, name="a.service", **more):
        return self.planned(self.write(name, "[Service]\nExecStart=/bin/true\nTasksMax=9\n" + text), **more)

    def row(self, path):
        return self.behind.tree.rows[path_of(path)]


class MadeTest(UnitsTest):
    def test_a_service_of_roots(self):
        lines, named = self.planned(self.write("a.service", "[Unit]\nAfter=x\n[Service]\nExecStart=/bin/true\n[Install]\nWantedBy=y\n"))
        self.assertEqual(lines, ["mkdir /system.slice/a.service", "set /system.slice/a.service pids.max 33",
                                 "process 4194303 0 /system.slice/a.service"])
        self.assertEqual(named, ["a.service: TasksMax=: it isn't set, and so pids.max is the manager's DefaultTasksMax=, which isn't "
                                 "known: 33 is what other services have"])

    def test_one_that_is_handed_over(self):
        lines, named = self.service("User=app\nDelegate=yes\n")
        self.assertEqual(named, [])
        self.assertIn("mark /system.slice/a.service", lines)
        self.assertIn("control / +cpu", lines)
        self.assertEqual(lines[-1], "process 4194303 900 /system.slice/a.service")
        found, row = self.behind.cgroups[path_of("/system.slice/a.service")], self.row("/system.slice/a.service")
        handed = Entry(900, 901, 0o644)
        self.assertEqual((found.marks, row.directory, row.entry("cgroup.procs"), row.entry("cgroup.subtree_control"),
                          found.files["cgroup.threads"]), ({name: b"1" for name in MARKS}, Entry(900, 901, 0o755), handed, handed, handed))
        self.assertEqual([found.files[name] for name in ("memory.oom.group", "memory.reclaim")], [handed, handed])
        # no limit file is
        self.assertEqual({row.entry(name) for name in row.values}, {Entry(0, 0, 0o644)})

    def test_how_much_is_delegated(self):
        for text, is_delegated, controllers in (
                ("Delegate=no\n", False, []), ("Delegate=\n", True, []), ("Delegate=cpu io\n", True, ["cpu"]),
                ("Delegate=pids\n", True, []),
                ("Delegate=cpu\nDelegate=no\n", False, []), ("Delegate=true\n", True, ["cpu"])):
            lines, _ = self.service(text + "User=app\n")
            enabled = [line.split("+")[1] for line in lines if line.startswith("control / ")]
            self.assertEqual(("mark /system.slice/a.service" in lines, enabled), (is_delegated, controllers), text)
            self.assertEqual(any(line.startswith("chown") for line in lines), is_delegated)

    def test_which_controllers_a_unit_has_enabled(self):
        """In format 4, and with the root's."""
        tree = TREE.replace("format = 2", "format = 4").replace('"cpu", ', '"cpuset", "cpu", "io", "hugetlb", "misc", ', 1)
        for text, controllers in (
                ("Delegate=yes\n", ["cpuset cpu io"]), ("Delegate=io misc\n", ["io misc"]), ("Delegate=\n", []),
                ("IOWeight=5\n", ["io"]), ("BlockIOReadBandwidth=/dev/a 5\n", ["io"]), ("StartupIOWeight=5\n", ["io"]),
                ("IOAccounting=yes\n", ["io"]), ("IOAccounting=no\n", []), ("IOSchedulingClass=idle\n", []),
                ("AllowedCPUs=0-3\n", ["cpuset"]), ("StartupAllowedMemoryNodes=0\n", ["cpuset"]), ("CPUAffinity=0\n", []),
                ("CPUQuota=20%\n", ["cpu"]), ("StartupCPUWeight=5\n", ["cpu"]), ("CPUAccounting=yes\n", [])):
            lines, _ = self.service(text, tree=tree)
            self.assertEqual([line.split("/ ")[1].replace("+", "") for line in lines if line.startswith("control / ")], controllers, text)

    def test_files_of_memory_are_handed_over_where_it_is_enabled(self):
        above = "[Slice]\nMemoryAccounting=no\n"
        for text, has_memory in (("", True), ("MemoryAccounting=no\n", False)):
            lines, _ = self.planned(self.write("b.slice", above), self.write("b.service", f"""[Service]
Slice=b.slice\nDelegate=cpu\nUser=app\n{text}"""))
            self.assertEqual([line for line in lines if line.endswith("memory.reclaim 900:901")],
                             ["chown /b.slice/b.service memory.reclaim 900:901"] * has_memory, text)

    def test_a_text_that_carries_nothing_has_no_place_for_them(self):
        snapshot = replace(snapshot_of(TREE), source=Source("a.toml", None))
        unit = self.write("a.service", "[Service]\nUser=app\nDelegate=yes\nExecStart=/x\n")
        lines = units.planned(snapshot, ACCOUNTS, read_units((unit,), ()), 257, {}).lines
        changes.changed(snapshot, "\n".join(map(" ".join, lines)))
        self.assertEqual([words[2] for words in lines if words[0] == "chown"], ["dir", "cgroup.procs", "cgroup.subtree_control"])

    def test_whose_it_is(self):
        for text, owner, uid in (("User=app\nGroup=ops\n", "900:77", 900), ("User=900\n", "900:901", 900),
                                 ("User=1234\n", "1234:1234", 1234),
                                 ("Group=ops\n", "0:77", 0), ("User=root\nGroup=ops\n", "0:77", 0), ("User=root\n", "0:0", 0),
                                 ("DynamicUser=yes\n", "61185:61185", 61185)):
            lines, named = self.service(f"Delegate=yes\n{text}")
            self.assertEqual(named, ROOTS_DELEGATE if uid == 0 else [])
            self.assertIn(f"chown /system.slice/a.service cgroup.procs {owner}", lines, text)
            self.assertEqual(lines[-1].split()[2], str(uid))
        # an older manager gives nothing to a group alone
        for text, systemd in (("", 257), ("Group=ops\n", 252)):
            lines, _ = self.service(f"Delegate=yes\n{text}", systemd=systemd)
            self.assertFalse([line for line in lines if line.startswith("chown")])
        lines, named = self.service("Delegate=yes\nUser=nobody-knows\nGroup=none\n")
        self.assertIn("chown /system.slice/a.service dir 61185:0", lines)
        self.assertEqual(named, ["a.service: User=nobody-knows: no account that is known: it is taken for one that isn't anybody else's",
                                 "a.service: Group=none: no group that is known"])
        both, _ = self.planned(*(self.write(name, "[Service]\nDynamicUser=on\nExecStart=/x\n") for name in ("b.service", "c.service")))
        self.assertEqual([line.split()[1:3] for line in both if line.startswith("process")], [["4194303", "61185"], ["4194302", "61186"]])

    def test_pids_are_counted_for_the_usual_limit(self):
        """Without accounting too, as long as a service has a limit; a slice has none by itself."""
        slices = "[Slice]\nTasksAccounting=no\nMemoryAccounting=no\n"
        for text, enabled in (("", ["pids"]), ("TasksMax=5\n", ["pids"]), ("TasksMax=infinity\n", []),
                              ("TasksMax=infinity\nTasksAccounting=yes\n", ["pids"]),
                              ("TasksMax=infinity\nMemoryMax=infinity\n", []), ("TasksMax=infinity\nMemoryMin=infinity\n", ["memory"]),
                              ("MemoryAccounting=yes\n", ["memory", "pids"])):
            self.planned(self.write("b.slice", slices), self.write("b.service", f"""[Service]
Slice=b.slice\nTasksAccounting=no\nMemoryAccounting=no\n{text}"""))
            self.assertEqual(list(self.row("/b.slice").enabled), enabled, text)

    def test_a_subgroup_as_the_version_has_it(self):
        text = "Delegate=yes\nUser=app\nDelegateSubgroup=main\n"
        lines, named = self.service(text)
        self.assertEqual((lines[-1], named), ("process 4194303 900 /system.slice/a.service/main", []))
        self.assertEqual(self.row("/system.slice/a.service/main").directory, Entry(900, 901, 0o755))
        # all files of it, and of the unit itself no limit
        for path, whose in (("main", ["900:901"] * 2), ("", [])):
            place = f"/system.slice/a.service/{path}".rstrip("/")
            self.assertEqual([line.split()[3] for line in lines if line.startswith(f"chown {place} cgroup.max.")], whose)
        lines, named = self.service(text, systemd=252)
        self.assertEqual((lines[-1], named), ("process 4194303 900 /system.slice/a.service",
                                              ["a.service: DelegateSubgroup=main: systemd 252 doesn't know it"]))

    def test_limits(self):
        self.service("MemoryMax=1G\nMemoryHigh=5000\nMemoryMin=infinity\nCPUWeight=50\nMemoryMax=2M\n")
        self.assertEqual({name: value for name, value in self.row("/system.slice/a.service").values.items() if value not in ("max", 0)},
                         {"memory.max": 2097152, "memory.high": 4096, "cpu.weight": 50, "pids.max": 9})
        self.assertEqual(self.row("/system.slice/a.service").values["memory.min"], "max")
        lines, _ = self.service("MemoryMax=1G\nMemoryMax=\n")
        self.assertFalse([line for line in lines if "memory.max" in line])

    def test_what_cant_be_told_is_named(self):
        _, named = self.service("MemoryMax=20%\nCPUWeight=idle\nCPUQuota=20%\nIOWeight=5\nStartupCPUWeight=9\nAllowedCPUs=0\n"
                                "PAMName=login\n"
                                "SupplementaryGroups=ops\nExecStartPre=+/bin/chown -R app /x\nExecStartPost=-!/bin/y\nExecReload=!!/bin/z\n"
                                "MemoryMaximum=1\nCPUSchedulingPolicy=rr\nMemoryDenyWriteExecute=yes\nPrivateTmp=yes\n"
                                "MemoryAccounting=yes\n"
                                "DynamicUser=maybe\nUser=%Z\n")
        told = [each.split(": ")[1] for each in named]
        self.assertEqual(told, ["CPUWeight=idle", "MemoryMax=20%", "DynamicUser=maybe", "User=%Z", "CPUQuota=20%", "IOWeight=5",
                                "StartupCPUWeight=9", "AllowedCPUs=0", "PAMName=login", "SupplementaryGroups=ops",
                                "ExecStartPre=+/bin/chown -R app /x", "ExecStartPost=-!/bin/y", "MemoryMaximum=1"])

    def test_what_may_give_entries_away(self):
        user = "User=app\nTasksMax=1\n"
        for text, may_give in (
                (f"{user}ExecStartPost=+/bin/chown -R 1000 /x", True), (f"{user}ExecStartPost=!/bin/x", True),
                (f"{user}ExecStart=/bin/sh x", False), (f"{user}PAMName=login", True),
                (f"{user}PermissionsStartOnly=yes", True), (f"{user}PrivateUsers=yes", False),
                (f"{user}CPUQuota=5%", False), ("TasksMax=1\nExecStartPre=/bin/sh -c 'chown -R 1000 /x'", True),
                ("TasksMax=1\nExecStart=/usr/sbin/daemon", False), ("TasksMax=1\nExecStart=/usr/local/sbin/hook.sh", True),
                ("TasksMax=1\nExecStart=/usr/sbin/script-by-its-head", True),
                ("TasksMax=1\nExecStop=/bin/chown 1000 /mnt/system.slice", True),
                ("User=root\nTasksMax=1\nExecStart=-/usr/bin/python3 /x", True), ("User=%Z\nTasksMax=1\n", True)):
            _, named = self.planned(self.write("d.service", f"[Service]\n{text}\n"), is_script=lambda file: file.endswith("by-its-head"))
            self.assertEqual(bool(self.may_give), may_give, text)
            self.assertLessEqual(set(self.may_give), set(named))

    def test_what_roots_command_hands_over(self):
        unit = ("[Service]\nExecStart=systemd-nspawn --quiet --keep-unit --boot --link-journal=try-guest --network-veth -U "
                "--settings=override --machine=%i\nSlice=machine.slice\nDelegate=yes\nTasksMax=16384\n")
        self.write("systemd-nspawn@.service", unit)
        _, named = self.planned(os.path.join(self.room, "systemd-nspawn@box.service"), slices=lambda name: UnitFile(UnitName(name), ()))
        self.assertEqual(named, self.may_give)
        self.assertEqual([each.rpartition(": ")[2] for each in named], ["what runs inside is handed to another uid",
                                                                        "what root's command hands over inside isn't known"])
        for option, is_told in (("--private-users=no", False), ("--private-users=pick", True), ("", False)):
            _, named = self.service(f"ExecStart=\nExecStart=/usr/bin/systemd-nspawn {option} -D /x\n")
            self.assertEqual(any("another uid" in each for each in named), is_told)

    def test_who_carries_out_its_commands(self):
        for command, uid in (("/bin/x", "900"), ("+/bin/x", "0"), ("-@!/bin/x", "0"), ("!!/bin/x", "900"), ("-/bin/x", "900")):
            lines, _ = self.planned(self.write("b.service", f"[Service]\nUser=app\nExecStart=/bin/old\nExecStart=\nExecStart={command}\n"))
            self.assertEqual(lines[-1].split()[2], uid, command)
        self.assertFalse([line for line in self.planned(self.write("c.service", "[Service]\nUser=app\n"))[0] if line.startswith("process")])

    def test_a_unit_that_runs_is_made_anew(self):
        lines, named = self.planned(self.write("old.service", "[Service]\nExecStart=/x\nTasksMax=infinity\n"))
        self.assertEqual(named, ["old.service: /system.slice/old.service is there already: its files are planned as those of a new one, "
                                 "and what is inside stays as it is"])
        row = self.row("/system.slice/old.service")
        self.assertEqual((row.directory, row.entry("memory.max"), row.values["memory.max"], row.values["pids.max"]),
                         (Entry(0, 0, 0o755), Entry(0, 0, 0o644), "max", "max"))
        self.assertFalse([line for line in lines if line.startswith("mkdir")])

    def test_further_limit_files_of_a_unit_that_runs_are_roots_again(self):
        tree = TREE.replace("format = 2", "format = 4").replace('"memory.max" = { uid = 5', """"memory.swap.max" = { uid = 5, value = 7 }
"cgroup.freeze" = { mode = 0o666 }
"memory.max" = { uid = 5""")
        lines, _ = self.planned(self.write("old.service", "[Service]\nExecStart=/x\nTasksMax=infinity\n"), tree=tree)
        row = self.row("/system.slice/old.service")
        self.assertEqual(row.text_files, ["cgroup.freeze", "memory.swap.max"])
        self.assertEqual({row.entry(file) for file in row.text_files}, {Entry(0, 0, 0o644)})
        self.assertIn("chown /system.slice/old.service memory.swap.max 0:0", lines)


class SliceTest(UnitsTest):
    def test_slices_stand_in_one_another(self):
        for name, path in (("a.slice", "/a.slice"), ("a-b-c.slice", "/a.slice/a-b.slice/a-b-c.slice"), ("-.slice", "/")):
            self.assertEqual(units.slice_path(name), path_of(path))
        for name in ("a--b.slice", "-a.slice"):
            with self.assertRaises(Fault):
                units.slice_path(name)

    def test_a_service_in_a_slice_with_limits(self):
        lines, _ = self.planned(self.write("a@1.service", "[Service]\nExecStart=/x\nSlice=jobs-%i.slice\nTasksMax=1\n"),
                                self.write("jobs.slice", "[Slice]\nMemoryMax=8K\nDelegate=yes\n"))
        # the slice first, and what it has isn't handed over
        self.assertEqual(lines[:2], ["mkdir /jobs.slice", "set /jobs.slice memory.max 8192"])
        self.assertEqual(self.row("/jobs.slice").enabled, ("memory", "pids"))
        self.assertEqual(self.row("/jobs.slice/jobs-1.slice/a@1.service").values["pids.max"], 1)
        self.assertFalse([line for line in lines if line.startswith(("mark", "chown"))])

    def test_where_an_instance_is_by_itself(self):
        self.write("my-app@.service", "[Service]\nExecStart=/x %i\nTasksMax=1\nUser=%i\n")
        lines, _ = self.planned(os.path.join(self.room, "my-app@app.service"))
        self.assertIn("mkdir /system.slice/system-my\\x2dapp.slice/my-app@app.service", lines)
        self.assertEqual(lines[-1].split()[2], "900")

    def test_names_of_the_kernels(self):
        for name, cgroup in (("memory.service", "_memory.service"), ("_x.service", "__x.service"), ("memoryx.service", "memoryx.service"),
                             ("cgroup.a.service", "_cgroup.a.service")):
            self.assertEqual(units.cgroup_name(name), cgroup)
        _, named = self.service("Slice=none.service\n")
        self.assertEqual(named, ["a.service: Slice=none.service: no name of a slice"])


class BroughtSliceTest(UnitsTest):
    """The slices that a unit brings, with their drop-ins."""

    def test_a_users_manager(self):
        self.write("user@.service", "[Service]\nUser=%i\nSlice=user-%i.slice\nExecStart=/x\nTasksMax=infinity\nDelegate=pids memory\n")
        self.write("usr/user-.slice.d/10-defaults.conf", "[Unit]\nAfter=x\n\n[Slice]\nTasksMax=33%\nMemoryMax=8K\n")
        self.write("etc/user-1002.slice.d/50.conf", "[Slice]\nMemoryHigh=4K\n")
        self.write("usr/user.slice", "[Slice]\nMemoryMax=1M\n")
        folders = [os.path.join(self.room, each) for each in ("etc", "usr")]
        lines, named = self.planned(os.path.join(self.room, "user@1002.service"), slices=lambda name: read_slice(name, folders))
        self.assertEqual([line for line in lines if line.startswith(("mkdir", "set"))], [
            "mkdir /user.slice", "set /user.slice memory.max 1048576", "mkdir /user.slice/user-1002.slice",
            "set /user.slice/user-1002.slice memory.high 4096", "set /user.slice/user-1002.slice memory.max 8192",
            "mkdir /user.slice/user-1002.slice/user@1002.service", "set /user.slice/user-1002.slice/user@1002.service pids.max max"])
        self.assertEqual(named, ["user-1002.slice: TasksMax=33%: no number that can be known here"])
        self.assertEqual(self.may_give, [])

    def test_one_that_is_there_or_given(self):
        slices = []
        lines, _ = self.planned(self.write("a.service", "[Service]\nUser=app\nSlice=b-c.slice\nTasksMax=1\n"),
                                self.write("b-c.slice", "[Slice]\nMemoryMax=4K\n"), slices=lambda name: slices.append(name))
        self.assertEqual((slices, lines[0]), (["b.slice"], "mkdir /b.slice"))
        slices.clear()
        self.service("", slices=lambda name: slices.append(name))
        self.assertEqual(slices, [])

    def test_where_none_is_read(self):
        _, named = self.planned(self.write("a.service", "[Service]\nUser=app\nSlice=b-c.slice\nTasksMax=1\n"))
        self.assertEqual(named, ["a.service: of b.slice b-c.slice no file is read with --tree: name it with --unit"])


class FilesTest(UnitsTest):
    def test_drop_ins_in_their_order(self):
        file = self.write("a-b@1.service", "[Service]\nExecStart=/x\nTasksMax=1\nMemoryMax=4K\nUser=root\n")
        first, second = (os.path.join(self.room, name) for name in ("etc", "usr"))
        for folder, name, text in (
                ("usr/a-b@1.service.d", "10.conf", "TasksMax=2"), ("usr/a-b@.service.d", "20.conf", "TasksMax=3"),
                ("usr/service.d", "05.conf", "TasksMax=4\nMemoryMax=8K"), ("usr/a-@.service.d", "15.conf", "User=app"),
                ("etc/a-b@1.service.d", "20.conf", "MemoryHigh=4K"), ("etc/a-b@1.service.d", "30.txt", "TasksMax=5"),
                ("etc/b-.service.d", "90.conf", "TasksMax=6")):
            self.write(name, f"[Service]\n{text}\n", folder)
        [unit] = read_units([file], [first, second])
        # by their own names; one of a folder before hides the one behind
        self.assertEqual([unit.last(name) for name in ("TasksMax", "MemoryMax", "MemoryHigh", "User")], ["2", "8K", "4K", "app"])
        # those that are named stand last
        given = self.write("00.conf", "[Service]\nTasksMax=7\n", "ci/a-b@1.service.d")
        [unit] = read_units([given, file], [first, second])
        self.assertEqual(unit.last("TasksMax"), "7")
        self.assertFalse([folder for folder in FOLDERS if "home" in folder])

    def test_what_a_file_can_have(self):
        file = self.write("a.service", "# x\n; y\n[Unit]\nUser=no\n[Service]\n ExecStart = /x \\\n# in between\n  --more\\\n  z\n\n"
                          "User=app # not one\n")
        [unit] = read_units([file], ())
        self.assertEqual([(each.name, each.value) for each in unit.settings], [("ExecStart", "/x --more z"), ("User", "app # not one")])

    def test_faults(self):
        for name, text, told in (
                ("a.timer", "", "is no name of a service or a slice"),
                ("a@.service", "", "is a template: name an instance, as a@NAME.service"),
                ("a.service", "User=x\n", "line 1 of"), ("a.service", "[Service]\nnothing\n", "line 2 of"),
                ("x y.service", "", "is no name of a service"), ("1.conf", "[Service]\n", "is no name of a service or a slice")):
            with self.assertRaises(Fault) as raised:
                read_units([self.write(name, text)], ())
            self.assertIn(told, str(raised.exception))
        with self.assertRaises(Fault) as raised:
            read_units([self.write("1.conf", "[Service]\n", "none.service.d")], ())
        self.assertIn("is a drop-in of none.service, whose own file isn't given", str(raised.exception))
        with self.assertRaises(Fault):
            read_units([f"{self.room}/missing.service"], ())

    def test_specifiers(self):
        known = specifiers(UnitName("my-app@x-y\\x20z.service"), {"H": "web1"})
        self.assertEqual({each: known[each] for each in "nNpPiIjJH%u"}, {
            "n": "my-app@x-y\\x20z.service", "N": "my-app@x-y\\x20z", "p": "my-app", "P": "my/app", "i": "x-y\\x20z", "I": "x/y z",
            "j": "app", "J": "app", "H": "web1", "%": "%", "u": "root"})


@unittest.skipUnless(REAL_PROGRAM, "there is no program")
class CommandTest(UnitsTest):
    def plan(self, *words):
        return called("plan", "--zirofen", REAL_PROGRAM, "--tree", f"{TOP}/examples/delegation.toml", *words)

    def test_a_unit_is_asked_about(self):
        file = self.write("a.service", "[Service]\nUser=900\nDelegate=yes\nExecStart=/x\nTasksMax=5\nPAMName=login\n")
        said = self.plan("--unit", file)
        untold = "a.service: PAMName=login: what it makes of who runs there isn't known"
        slices = "a.service: of system.slice no file is read with --tree: name it with --unit"
        self.assertEqual((said.returncode, said.stderr), (2, ""))
        self.assertEqual(without_makers(said.stdout.splitlines()), [
            "new: /system.slice/a.service: contained, by 900 who holds it [limited]", f"not-told: {slices}",
            "limit: premises: threads' places and held entries aren't known",
            f"limit: plan: what may give entries away isn't known: {untold}",
            "2 by what a plan doesn't know; 3 asked: 3 contained [limited]; limits of this answer: premises, plan"])
        lines = self.plan("--unit", file, "--print", "lines")
        self.assertEqual((lines.stdout.splitlines()[:2], lines.stderr, lines.returncode),
                         ([f"# not known: {slices}", f"# not known: {untold}"], "", 2))
        # what was printed is what can be read again
        ops = self.write("ops", lines.stdout)
        new, *narrowed, last = without_makers(self.plan("--ops", ops).stdout.splitlines())
        self.assertEqual((new, last.split("; ")[:2]), ("new: /system.slice/a.service: contained, by 900 who holds it",
                                                       ["0", "3 asked: 3 contained [limited]"]))
        self.assertEqual(len(narrowed), 1)
        self.assertNotIn("plan", last)

    def test_what_root_carries_out_makes_it_no_yes(self):
        """In each form, with the status of what escapes or of a fault before it."""
        unit = "[Service]\nUser=900\nDelegate=yes\nExecStart=/x\nTasksMax=5\n"
        file = self.write("a.service", f"{unit}ExecStartPost=+/bin/chown -R 1000 /sys/fs/cgroup/system.slice/a.service\n")
        said = self.plan("--unit", file)
        self.assertEqual((said.returncode, said.stderr), (2, ""))
        last = said.stdout.splitlines()[-1]
        self.assertTrue(last.startswith("2 by what a plan doesn't know; 3 asked: 3 contained [limited]; limits of this answer: "))
        self.assertIn("\nlimit: plan: what may give entries away isn't known: a.service: ExecStartPost=+/bin/chown -R 1000 ", said.stdout)
        for form in ("lines", "text"):
            self.assertEqual(self.plan("--unit", file, "--print", form).returncode, 2)
        value = json.loads(self.plan("--unit", file, "--json").stdout)
        self.assertEqual((report_schema.faults_of(value), value["status"], value["baseline"]["status"]), ([], 2, 2))
        self.assertEqual([each["kind"] for each in value["limits"]][-1], "plan")
        self.assertEqual(self.plan("--unit", self.write("b.service", unit)).returncode, 0)
        # what escapes behind it is an escape
        options = PlanOptions(tree=f"{TOP}/examples/delegation.toml", program=REAL_PROGRAM)
        found = plan.before(options)
        for ops, status in (("chown / cgroup.procs 1000:0\n", 1), ("", 2)):
            text, planned = plan.text_behind(found, plan.Planned(ops, ("x",), ("x",)), options)
            report = plan.compared(found, text, options, planned)
            self.assertEqual((report.status, report.baseline.status, plan.status_of(report.baseline, report)), (status, status, status))
        self.assertEqual([plan.at_least_unsettled(status) for status in (0, 1, 2, 3, 4)], [2, 1, 2, 3, 2])

    def test_either_is_wanted(self):
        for words in ((), ("--ops", "/dev/null", "--unit", "/x/a.service")):
            said = self.plan(*words)
            self.assertEqual((said.returncode, said.stderr), (3, "zirofen-host plan: either --ops or --unit is wanted\n"))


if __name__ == "__main__":
    unittest.main()
