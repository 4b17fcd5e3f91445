"""Tests of what a unit's next start doesn't bring back, against a systemctl that is played."""
import os
import unittest
from unittest import mock

from check_test import HostTest, owned
from shown import lines_of
from zirofen_host.ask import accepted
from zirofen_host.fault import Fault
from zirofen_host.judge import check, settings
from zirofen_host.options import CheckOptions
from zirofen_host.runs import check as runs_check

SHOWN = {"MemoryMax": "infinity", "MemoryHigh": "8200", "TasksMax": "7", "MemoryLow": "0", "MemoryMin": "[not set]",
         "CPUQuotaPerSecUSec": "infinity"}


class RestartTest(HostTest):
    def setUp(self):
        super().setUp()
        self.host.cgroup("/", enabled="memory pids")

    def systemctl(self, **told):
        """A systemctl that shows these settings of each unit."""
        file = f"{self.host.folder}/systemctl"
        with open(file, "w", encoding="ascii") as out:
            out.write("#!/bin/sh\n" + "".join(f"printf 'Id={unit.replace('_', '.')}\\n{lines}\\n\\n'\n" for unit, lines in (
                (unit, "".join(f"{name}={value}\\n" for name, value in {**SHOWN, **more}.items())) for unit, more in told.items())))
        os.chmod(file, 0o755)
        return file

    def restarts(self, before=None, **behind):
        """The lines, where settings were told before the walk, and others behind it."""
        with mock.patch("shutil.which", lambda _: f"{self.host.folder}/systemctl"), mock.patch("os.path.isdir", lambda _: True):
            self.systemctl(**(behind if before is None else before))
            options = self.options(plain_folder=False)
            first = settings.read(settings.systemctl_of(options))
            self.systemctl(**behind)
            return self.told(self.value_of(check.report(self.host.snapshot(), options, False, first)), "restart")

    def test_what_a_setting_doesnt_bring(self):
        self.host.cgroup("/svc.service", owners=owned(1000), values={"memory.max": 40960, "memory.high": 8192, "pids.max": 7})
        self.assertEqual(self.restarts(svc_service={}, other_service={"MemoryMax": "1"}), [
            "/svc.service: svc.service is started anew with its own settings alone: memory.max is 40960, and MemoryMax=infinity"])

    def test_what_no_setting_brings(self):
        self.host.cgroup("/svc.service", owners=owned(1000), more=("cgroup.kill",),
                         values={"cgroup.max.descendants": 50, "pids.max": 7, "memory.high": 8192, "cpu.max": "50000 100000",
                                 "cpu.max.burst": "7", "hugetlb.2MB.max": "max", "rdma.max": "mlx hca_handle=max hca_object=max"})
        self.assertEqual(self.restarts(svc_service={}), [
            "/svc.service: svc.service is started anew with its own settings alone: cpu.max is 50000 100000, and CPUQuota= isn't set; "
            "cgroup.max.descendants is 50, and no setting brings it; cpu.max.burst is 7, and no setting brings it"])
        self.assertEqual(self.restarts(svc_service={"CPUQuotaPerSecUSec": "500ms"}), [
            "/svc.service: svc.service is started anew with its own settings alone: "
            "cgroup.max.descendants is 50, and no setting brings it; cpu.max.burst is 7, and no setting brings it"])

    def test_a_share_of_processors_whoever_it_is_of(self):
        """What somebody wrote is told as long as it stands, also once the entry is root's again, of which no text tells."""
        line = "/svc.service: svc.service is started anew with its own settings alone: cpu.max is {}, and {}"
        unlimited, half, never = {}, {"CPUQuotaPerSecUSec": "500ms"}, {"CPUQuotaPerSecUSec": "1ms"}
        for value, shown, why in (
                ("20000 100000", unlimited, "CPUQuota= isn't set"), ("max 100000", unlimited, None), ("max 20000", unlimited, None),
                ("50000 100000", half, None), ("20000 100000", half, "CPUQuotaPerSecUSec=500ms"),
                ("max 100000", half, "CPUQuotaPerSecUSec=500ms"),
                ("50000 20000", {**half, "CPUQuotaPeriodUSec": "100ms"}, "CPUQuotaPerSecUSec=500ms"),
                ("10000 20000", {**half, "CPUQuotaPeriodUSec": "20ms"}, None), ("1000 1000000", never, None)):
            self.host.cgroup("/svc.service", owners=owned(1000), values={"pids.max": 7, "memory.high": 8192, "cpu.max": value})
            self.assertEqual(self.restarts(svc_service=shown), [line.format(value, why)] if why else [], (value, shown))
        os.remove(f"{self.host.mount}/svc.service/cpu.max")
        self.assertEqual(self.restarts(svc_service=half), [])

    def test_settings_that_change_meanwhile_are_told_by_nobody(self):
        self.host.cgroup("/svc.service", owners=owned(1000), values={"memory.max": 40960, "memory.high": 8192, "pids.max": 9})
        self.assertEqual(self.restarts({"svc_service": {"MemoryMax": "40960"}}, svc_service={"MemoryMax": "81920"}), [
            "/svc.service: svc.service is started anew with its own settings alone: pids.max is 9, and TasksMax=7"])

    def test_a_unit_that_wasnt_there_before(self):
        self.host.cgroup("/svc.service", owners=owned(1000), values={"memory.max": 40960})
        self.assertEqual(self.restarts({}, svc_service={}), [])

    def test_a_scope_is_never_started_again(self):
        self.host.cgroup("/run-1.scope", owners=owned(1000), values={"cgroup.max.depth": 5})
        with mock.patch.object(settings, "UNIT_PATTERNS", ("*",)):
            self.assertEqual(self.restarts(run_1_scope={}), [])

    def test_where_there_is_no_manager(self):
        self.assertIsNone(settings.systemctl_of(self.options()))
        self.assertEqual(settings.read(None), {})

    def failing(self, text="echo 'Failed to connect to bus' >&2; exit 1"):
        """A systemctl that doesn't tell."""
        file = self.systemctl()
        with open(file, "w", encoding="ascii") as out:
            out.write(f"#!/bin/sh\n{text}\n")
        return file

    def test_one_that_doesnt_answer_is_a_fault(self):
        with self.assertRaisesRegex(Fault, "^systemctl show ended with 1: Failed to connect to bus$"):
            settings.read(self.failing())
        with mock.patch.object(settings, "SECONDS", 0.1), self.assertRaisesRegex(Fault, "^systemctl show didn't answer within 0.1 seconds"):
            settings.read(self.failing("exec sleep 60"))
        self.assertRaises(OSError, settings.read, f"{self.host.folder}/none")

    def test_it_is_told_that_it_didnt_answer(self):
        """What limits should have isn't known then, and a limit that somebody lifted is told by nothing else."""
        self.host.cgroup("/svc.service", owners=owned(1000), values={"memory.max": 40960})
        line = "failed: settings of units: systemctl show ended with 1: Failed to connect to bus"
        with mock.patch("shutil.which", lambda _: f"{self.host.folder}/systemctl"), mock.patch("os.path.isdir", lambda _: True):
            options = self.options(plain_folder=False)
            self.systemctl(svc_service={})
            first = settings.read(settings.systemctl_of(options))
            self.failing()
            behind = check.report(self.host.snapshot(), options, False, first)
            with mock.patch.object(accepted, "take", lambda *_: self.host.snapshot()):
                before = runs_check.report_of(CheckOptions(**vars(options)), ()).report
        for report in (behind, before):
            told = [each for each in lines_of(report) if "failed: " in each or each.startswith("restart: ")]
            self.assertEqual((report.status, told), (3, [line if report is behind else f"snapshot: {line}"]))


if __name__ == "__main__":
    unittest.main()
