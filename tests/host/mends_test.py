"""Tests of what mends findings so that it stays."""
import json
import os
import subprocess
import unittest
from dataclasses import replace
from unittest import mock

import example
from called import called
from check_test import MANAGER, MARK, PROGRAM, HostTest, owned
from formats_test import odd_report, run_of
from shown import made
from zirofen_host.judge import check, mends, settings, wanted
from zirofen_host.judge.host_model import ABSENT, ReportCgroup, ReportFile
from zirofen_host.judge.model import ReportNote
from zirofen_host.judge.notes import Restart
from zirofen_host.judge.rules import findings_of
from zirofen_host.judge.wanted import LostLimit
from zirofen_host.show import formats
from zirofen_host.show import mends as written

LOOK_AT_SERVICE = ("no file of the host was looked at for what gives it away. Look at ExecStartPre=+, ExecStartPost=+ and their like "
                   "(systemctl cat {0}), and at hooks and timers of root's; what was done by hand ends when {0} is started again")


def row(**values):
    """A cgroup with limit files that have these values."""
    files = {name.replace("_", "."): ReportFile(0, 0, "644", value) for name, value in values.items()}
    return ReportCgroup("/a.service", None, (), "a.service", {}, files)


def text(run, kind):
    return "".join(written.parts_of(run, kind))


class SettingsTest(HostTest):
    """What brings a value, and of which unit."""

    def test_each_limit_has_its_setting(self):
        for file, value, kept in (
                ("memory.max", 4096, ["MemoryMax=4096"]), ("memory.high", 1, ["MemoryHigh=1"]),
                ("memory.low", "max", ["MemoryLow=infinity"]),
                ("pids.max", 7, ["TasksMax=7"]), ("cpu.weight", 50, ["CPUWeight=50"]), ("memory.swap.max", "0", ["MemorySwapMax=0"]),
                ("cpu.max", "20000 100000", ["CPUQuota=20%"]), ("cpu.max", "150000 100000", ["CPUQuota=150%"]),
                ("cpu.max", "2500 20000", ["CPUQuota=12.5%", "CPUQuotaPeriodSec=20000us"]), ("cpu.idle", "1", ["CPUWeight=idle"]),
                ("io.weight", "default 50", ["IOWeight=50"]), ("cpuset.cpus", "0-3,5", ["AllowedCPUs=", "AllowedCPUs=0-3,5"]),
                ("cpuset.mems", "0", ["AllowedMemoryNodes=", "AllowedMemoryNodes=0"])):
            self.assertEqual(mends.settings_for(file, row(**{file.replace(".", "_"): value})), kept, file)

    def test_what_isnt_set_or_has_no_setting_brings_none(self):
        for file, value in (("memory.max", "max"), ("pids.max", "max"), ("cpu.weight", 100), ("cpu.max", "max 100000"),
                            ("cgroup.max.depth", 3), ("io.max", "8:0 rbps=1"), ("io.weight", "default 50\n8:0 70"), ("memory.max", None),
                            ("memory.max", ABSENT), ("cpu.max", "1;reboot 100000"), ("cpuset.cpus", "0\nUser=root"), ("cgroup.kill", None)):
            self.assertEqual(mends.settings_for(file, row(**{file.replace(".", "_"): value})), [], file)
        self.assertEqual(mends.settings_for("memory.max", None), [])

    def test_the_unit_of_a_cgroup(self):
        for path, name, section in (
                ("/system.slice/a.service", "a.service", "Service"), ("/user.slice/user-1000.slice", "user-1000.slice", "Slice"),
                (MANAGER, "user@1000.service", "Service"), ("/system.slice/_cpu.service", "cpu.service", "Service"),
                ("/user.slice/session-1.scope", "session-1.scope", None)):
            unit = mends.Unit(wanted.unit_at(path))
            self.assertEqual((unit.name, unit.section), (name, section))
        for path in ("/", "/a", f"{MANAGER}/app.slice/a.service", "/a/b.service", "/system.slice/a b.service"):
            self.assertIsNone(wanted.unit_at(path))


class MendsTest(HostTest):
    def mends(self, **more):
        report = made(self.report(json=True, **more))
        return mends.mends_of(report, findings_of(report))

    def mend_at(self, path):
        [found] = [each for each in self.mends() if any(f"{path} " in line for line in each.lines)]
        return found

    def test_a_value_that_a_unit_brings(self):
        self.host.cgroup("/", enabled="memory pids")
        self.host.cgroup("/system.slice", enabled="memory pids")
        self.host.cgroup("/system.slice/a.service", owners={**owned(1000), "memory.max": 1000}, marks=(MARK,),
                         values={"memory.max": 8192, "pids.max": 5})
        found = self.mend_at("/system.slice/a.service")
        # the limit that is open, and no other; of the settings of units nothing is told here
        [kept] = found.withheld
        self.assertEqual((kept.unit.drop_in, kept.unit.section, kept.settings, kept.why),
                         ("/etc/systemd/system/a.service.d/60-zirofen.conf", "Service", ("MemoryMax=8192",),
                          "it is the value of now, which alice(1000) could write"))
        self.assertEqual(found.remarks, (LOOK_AT_SERVICE.format("a.service"), "what the settings of a.service say isn't known here: its "
                                         "next start brings that, and no value is written"))

    def test_a_service_that_was_handed_over_by_hand(self):
        self.host.cgroup("/")
        self.host.cgroup("/system.slice")
        self.host.cgroup("/system.slice/a.service", owners=owned(1000))
        self.host.cgroup("/system.slice/b.service", owners=owned(1001), marks=(MARK,))
        found = self.mend_at("/system.slice/a.service")
        [kept] = found.withheld
        self.assertEqual((kept.settings, kept.why), (("Delegate=yes",), (
            "it hands the cgroup over for good, which no file of root's is known to say. Where it is meant for alice(1000), whom User= has "
            "to name, Delegate=yes hands over the directory, cgroup.procs and cgroup.subtree_control, and no limit file")))
        # who is one of several isn't whom a unit can name
        self.host.cgroup("/system.slice/a.service", owners={**owned(1000), "cgroup.procs": 1001})
        self.assertEqual(self.mend_at("/system.slice/a.service").withheld, ())

    def test_what_no_setting_brings_is_told_in_words(self):
        self.host.cgroup("/", enabled="memory")
        self.host.cgroup("/user.slice", enabled="memory")
        self.host.cgroup("/user.slice/user-1000.slice", owners=owned(1000), enabled="memory")
        self.host.cgroup(MANAGER, owners=owned(1000), marks=(MARK,), values={"memory.max": 4096})
        self.host.cgroup("/user.slice/run.scope", owners={**owned(1001), "memory.max": 1001}, marks=(MARK,))
        self.host.cgroup("/box", owners={**owned(1002), "memory.max": 1002}, values={"memory.max": 4096})
        for path, words in (("/user.slice/user-1000.slice", "units in user-1000.slice"), ("/user.slice/run.scope", "a scope has no file"),
                            ("/box", "Look for what makes /box, and for chown and chmod")):
            found = self.mend_at(path)
            self.assertEqual((found.withheld, len(found.remarks)), ((), 1))
            self.assertIn("no file of the host was looked at for what gives it away", found.remarks[0])
            self.assertIn(words, found.remarks[0])
            self.assertTrue(found.changes)

    def test_what_is_no_entry(self):
        report = made(example.kept())
        over = ("no setting of a unit brings cgroup.max.descendants and cgroup.max.depth: what sets them has to at each start, before "
                "anything is made inside, as ExecStartPre=+")
        for entry, words in (("already-over", over), ("unknown", "nothing is known to make it: report it")):
            changed = replace(report, entries=(replace(report.entries[0], entry=entry, owner=None),), opened=(), differs=(), unseen=())
            [found] = mends.mends_of(changed, findings_of(changed))
            self.assertEqual((found.remarks, found.withheld), ((words,), ()))

    def test_a_limit_that_the_next_start_doesnt_bring(self):
        report = made(example.kept())
        told = ReportNote.of(Restart("/system.slice/web.service", "web.service", (
            LostLimit("memory.max", "4294967296", "MemoryMax=infinity"), LostLimit("memory.swap.max", "0", "MemorySwapMax=infinity"))))
        report = replace(report, entries=(), opened=(), differs=(), unseen=(told,), cgroups=(
            replace(row(memory_max=4294967296, memory_swap_max=0, memory_high=4096, pids_max=1754), path=told.place),))
        [found] = mends.mends_of(report, findings_of(report))
        self.assertEqual((found.lines, found.changes), ((f"restart: {told.place}: {told.text}",), ()))
        # these and no other, such as the manager's own number of tasks; what was taken back from somebody is in such a file too
        [kept] = found.withheld
        self.assertEqual((kept.settings, kept.why), (("MemoryMax=4294967296", "MemorySwapMax=0"), (
            "it is the value of now, and a cgroup's file doesn't say who wrote it: what was open and taken back is root's too")))

    def test_a_limit_of_a_finding_and_one_that_goes(self):
        self.host.cgroup("/", enabled="memory pids")
        self.host.cgroup("/system.slice", enabled="memory pids")
        self.host.cgroup("/system.slice/a.service", owners={**owned(1000), "memory.high": 1000}, marks=(MARK,),
                         values={"memory.max": 8192, "memory.high": 4096, "pids.max": 5})
        report = made(self.report(json=True))
        told = ReportNote.of(Restart("/system.slice/a.service", "a.service", (LostLimit("memory.max", "8192", "MemoryMax=infinity"),)))
        report = replace(report, unseen=(*report.unseen, told))
        [found] = [each for each in mends.mends_of(report, findings_of(report)) if each.withheld]
        self.assertEqual([each.settings for each in found.withheld], [("MemoryHigh=4096",), ("MemoryMax=8192",)])

    def test_what_somebody_made_gets_no_drop_in(self):
        """Whoever writes a slice's directory makes in there what looks like a unit of root's, with values of their own."""
        self.host.cgroup("/", enabled="memory")
        self.host.cgroup("/user.slice", enabled="memory")
        self.host.cgroup("/user.slice/user-1000.slice", owners=owned(1000), enabled="memory")
        for name in ("ssh.service", "cron.service"):
            self.host.cgroup(f"/user.slice/user-1000.slice/{name}", owners={**owned(1000), "memory.max": 1000},
                             modes={"memory.max": 0o666}, values={"memory.max": 4096})
        found = self.mends()
        self.assertEqual({each.withheld for each in found}, {()})
        self.assertIn("they make these cgroups", found[-1].remarks[0])

    def test_what_was_accepted_needs_no_mend(self):
        report = made(example.kept())
        entries = tuple(replace(each, accepted="a test") for each in report.entries)
        before, behind = (mends.mends_of(each, findings_of(each)) for each in (report, replace(report, entries=entries)))
        gone = {line for each in before for line in each.lines} - {line for each in behind for line in each.lines}
        self.assertEqual(gone, {each.line for each in findings_of(report) if each in [*findings_of(report)][:len(entries)]})


class SettingsOfUnitsTest(HostTest):
    """Where root's settings are known, they are what is written."""

    def mend(self, told, **more):
        self.host.cgroup("/", enabled="cpu memory pids")
        self.host.cgroup("/system.slice", enabled="cpu memory pids")
        self.host.cgroup("/system.slice/app.service", **more)
        told = {"app.service": {"Id": "app.service", "ControlGroup": "/system.slice/app.service", **told}}
        with mock.patch.object(settings, "read", lambda *_: told):
            report = check.report(self.host.snapshot(), self.options(), True, told)
        return report, "".join(written.parts_of(run_of(report), "shell")).splitlines()

    def test_the_units_own_limit_is_restored(self):
        """MemoryMax=100M in the unit's own file, and everybody wrote 900M."""
        report, lines = self.mend({"MemoryMax": "104857600", "TasksMax": "1754"}, owners=owned(1001), marks=(MARK,),
                                  modes={"memory.max": 0o666}, values={"memory.max": 943718400, "pids.max": 1754})
        place = f"{self.host.mount}/system.slice/app.service/memory.max"
        self.assertEqual([line for line in lines if not line.startswith("#")][1:], [f"chmod 664 {place}", f"echo 104857600 >{place}"])
        self.assertIn("#   MemoryMax=104857600 of app.service says it, and its next start brings it: no drop-in is wanted", lines)
        self.assertFalse([line for line in lines if "943718400" in line and "restart: " not in line])
        [entry] = report.entries
        self.assertEqual((entry.changes, entry.setting), ((f"chmod 664 {place}", f"echo 104857600 >{place}"),
                                                          "MemoryMax=104857600 of app.service"))
        # where nobody lifted it yet a check has nothing to write, and the script has, since they may until it runs
        report, lines = self.mend({"MemoryMax": "104857600"}, owners=owned(1001), marks=(MARK,), modes={"memory.max": 0o666},
                                  values={"memory.max": 104857600})
        self.assertEqual(report.entries[0].changes, (f"chmod 664 {place}",))
        self.assertIn(f"echo 104857600 >{place}", lines)

    def test_what_nothing_sets(self):
        """A limit may be root's by hand, and stands; of a share nobody has more than there is by itself. No default is kept."""
        _, lines = self.mend({"MemoryMax": "infinity", "MemoryLow": "0", "TasksMax": "1754"}, marks=(MARK,),
                             owners={**owned(1001), "memory.max": 1001, "memory.low": 1001, "pids.max": 1001},
                             values={"memory.max": 62914560, "memory.low": 943718400, "pids.max": 1754})
        place = f"{self.host.mount}/system.slice/app.service"
        self.assertEqual([line for line in lines if line.startswith("echo")],
                         [f"echo 0 >{place}/memory.low", f"echo 1754 >{place}/pids.max"])
        at = lines.index("#   not written, since it is the value of now, which bob(1001) could write:")
        self.assertEqual(lines[at + 1:at + 4], ["#     /etc/systemd/system/app.service.d/60-zirofen.conf", "#     [Service]",
                                                "#     MemoryMax=62914560"])
        self.assertNotIn("TasksMax=1754", " ".join(lines[at:]))

    def test_a_weight_is_written_behind_what_lets_a_cgroup_take_one(self):
        """An idle cgroup takes no weight."""
        _, lines = self.mend({"CPUWeight": "50"}, marks=(MARK,), owners=owned(1001), more=("cpu.idle",), modes={"cpu.idle": 0o646},
                             values={"cpu.idle": "1", "cpu.weight": 0})
        place = f"{self.host.mount}/system.slice/app.service"
        self.assertEqual([line for line in lines if line.startswith("echo")], [f"echo 0 >{place}/cpu.idle", f"echo 50 >{place}/cpu.weight"])

    def test_a_unit_that_is_elsewhere(self):
        """Somebody made a cgroup of its name."""
        _, lines = self.mend({"MemoryMax": "104857600", "ControlGroup": "/system.slice/other/app.service"}, owners=owned(1001),
                             marks=(MARK,), modes={"memory.max": 0o666}, values={"memory.max": 943718400})
        self.assertFalse([line for line in lines if line.startswith("echo")])

    def test_what_a_user_took_with_a_controller(self):
        self.host.cgroup("/", enabled="memory pids")
        self.host.cgroup("/batch.slice", modes={"cgroup.subtree_control": 0o666}, enabled="pids")
        self.host.cgroup("/batch.slice/a.service", owners=owned(1001), marks=(MARK,))
        told = {"a.service": {"Id": "a.service", "ControlGroup": "/batch.slice/a.service", "MemoryMax": "4096", "TasksMax": "7"}}
        with mock.patch.object(settings, "read", lambda *_: told):
            report = check.report(self.host.snapshot(), self.options(), True, told)
        place = f"{self.host.mount}/batch.slice"
        self.assertEqual([line for line in text(run_of(report), "shell").splitlines() if line.startswith("echo")], [
            f"echo +memory >{place}/cgroup.subtree_control", f"echo 4096 >{place}/a.service/memory.max",
            f"echo 7 >{place}/a.service/pids.max"])


class WantedTest(unittest.TestCase):
    """systemctl's words as what a file has."""

    def test_each_setting(self):
        for shown, file, value, is_set in (
                ({"MemoryMax": "104857601"}, "memory.max", "104857600", True), ({"MemoryMax": "infinity"}, "memory.max", "max", False),
                ({"MemoryLow": "infinity"}, "memory.low", "max", True), ({"MemoryLow": "0"}, "memory.low", "0", False),
                ({"MemoryMin": "[not set]"}, "memory.min", "0", False), ({"MemorySwapMax": "0"}, "memory.swap.max", "0", True),
                ({"TasksMax": "18446744073709551615"}, "pids.max", "max", False), ({"CPUWeight": "[not set]"}, "cpu.weight", "100", False),
                ({"CPUWeight": "idle"}, "cpu.idle", "1", True), ({"CPUWeight": "50"}, "cpu.idle", "0", True),
                ({"CPUWeight": "[not set]"}, "cpu.idle", "0", False),
                ({"CPUQuotaPerSecUSec": "200ms"}, "cpu.max", "20000 100000", True),
                ({"CPUQuotaPerSecUSec": "1.5s", "CPUQuotaPeriodUSec": "10ms"}, "cpu.max", "15000 10000", True),
                ({"CPUQuotaPerSecUSec": "1min 500ms", "CPUQuotaPeriodUSec": "infinity"}, "cpu.max", "6050000 100000", True),
                ({"CPUQuotaPerSecUSec": "infinity"}, "cpu.max", "max 100000", False), ({"IOWeight": "50"}, "io.weight", "default 50", True),
                ({"AllowedCPUs": "0-3 6"}, "cpuset.cpus", "0-3,6", True), ({"AllowedMemoryNodes": ""}, "cpuset.mems", "", False)):
            found = wanted.wanted_by(shown)[file]
            self.assertEqual((found.value, found.is_set), (value, is_set), shown)

    def test_what_isnt_known_is_wanted_by_nothing(self):
        for shown in ({"MemoryMax": "1;reboot"}, {"CPUQuotaPerSecUSec": "1ms"}, {"CPUQuotaPerSecUSec": "soon"}, {"IOWeight": "-1"},
                      {"AllowedCPUs": "0 $(reboot)"}, {"CPUWeight": "idle"}):
            self.assertNotIn(next(iter({"MemoryMax": "memory.max", "CPUQuotaPerSecUSec": "cpu.max", "IOWeight": "io.weight",
                                        "AllowedCPUs": "cpuset.cpus", "CPUWeight": "cpu.weight"}[name] for name in shown)),
                             wanted.wanted_by(shown))


class WrittenTest(HostTest):
    def test_a_script_is_what_a_shell_can_read(self):
        for run in (run_of(example.kept()), run_of(odd_report())):
            said = subprocess.run(["sh", "-n"], input=text(run, "shell"), capture_output=True, text=True, check=False)
            self.assertEqual((said.returncode, said.stderr), (0, ""))

    def test_names_end_no_line_and_no_drop_in(self):
        report = odd_report()
        path = "/system.slice/x\nEND\nreboot\n$(reboot)`reboot`'\".service"
        report = replace(report, entries=tuple(replace(each, path=path, entry="memory.max") for each in report.entries), opened=(),
                         cgroups=(replace(row(memory_max=4096), path=path),))
        for kind in mends.KINDS:
            lines = text(run_of(report), kind).splitlines()
            self.assertFalse([line for line in lines if line.startswith(("END\n", "reboot", "$"))])
            self.assertEqual([line for line in lines if not line.isprintable()], [])

    def test_no_drop_in_is_written(self):
        """Each line of a script is a comment, gives an entry back, or writes what root's settings say."""
        for run in (run_of(example.kept()), run_of(odd_report())):
            lines = text(run, "shell").splitlines()
            self.assertFalse([line for line in lines if line and not line.startswith(("#", "chown root", "chmod ", "echo "))])
            self.assertIn("#     MemoryMax=4294967296", lines)
            self.assertFalse([line for line in text(run, "systemd").splitlines() if line and not line.startswith("#")])

    def test_drop_ins_stand_as_comments(self):
        lines = text(run_of(example.kept()), "systemd").splitlines()
        at = lines.index("#     /etc/systemd/system/backup.service.d/60-zirofen.conf")
        self.assertEqual(lines[at - 1:at + 3], ["#   not written, since it is the value of now, which everybody could write:", lines[at],
                                                "#     [Service]", "#     CPUQuota=20%"])

    def test_nothing_is_to_mend(self):
        report = replace(made(example.kept()), entries=(), opened=(), differs=(), unseen=())
        self.assertEqual(text(run_of(report), "systemd"), f"# made with {report.program}\n\n# nothing is to mend\n")
        self.assertNotIn("systemctl", text(run_of(report), "shell"))


class CommandTest(HostTest):
    def check(self, *words):
        self.host.cgroup("/", enabled="memory")
        self.host.cgroup("/system.slice", enabled="memory")
        self.host.cgroup("/system.slice/a.service", owners={**owned(os.geteuid() or 1000), "memory.max": os.geteuid() or 1000},
                         values={"memory.max": 8192})
        return called("check", "--mount", self.host.mount, "--proc", self.host.proc, "--plain-folder", "--accounts", self.host.etc,
                      "--zirofen", PROGRAM, *words)

    def test_mends_stand_in_place_of_the_text(self):
        plain, said = self.check(), self.check("--mends", "systemd")
        self.assertEqual((plain.returncode, said.returncode, said.stderr), (1, 1, ""))
        self.assertIn("#     /etc/systemd/system/a.service.d/60-zirofen.conf\n#     [Service]\n#     MemoryMax=8192\n", said.stdout)
        self.assertNotIn("asked:", said.stdout)

    def test_into_files_the_text_stays(self):
        files = {kind: f"{self.host.folder}/{kind}" for kind in mends.KINDS}
        said = self.check(*(word for kind, file in files.items() for word in ("--mends", f"{kind}={file}")))
        self.assertIn("asked:", said.stdout)
        for file in files.values():
            with open(file, encoding="ascii") as out:
                self.assertIn("MemoryMax=8192", out.read())

    def test_two_of_them_dont_go_to_one_place(self):
        for words in (("--mends", "shell", "--json"), ("--mends", "shell", "--mends", "systemd"), ("--mends", "sarif"),
                      ("--mends", "shell=")):
            said = self.check(*words)
            self.assertEqual((said.returncode, said.stdout), (3, ""), words)
        self.assertIn("two reports would go to standard output: KIND=FILE puts each into a file of its own",
                      self.check("--mends", "shell", "--json").stderr)

    def test_how_it_is_told_of(self):
        self.assertEqual([formats.name_of(formats.Way(kind)) for kind in ("text", "json", "shell")], ["the lines", "the json", "the mends"])
        self.assertEqual(json.loads(self.check("--json").stdout)["status"], 1)
