"""Tests of the lines of root's files that give cgroups away: one planted in each place, and what isn't read."""
import json
import os
import unittest
from dataclasses import replace
from unittest import mock

from check_test import MANAGER, MARK, HostTest, owned
from formats_test import run_of
from page_reader import PageReader
from shown import lines_of, made
from zirofen_host.collect import bounded, causes
from zirofen_host.judge import check, settings
from zirofen_host.judge.wanted import unit_at
from zirofen_host.show import junit, page, sarif
from zirofen_host.show import mends as written

MOUNT = "/sys/fs/cgroup"
APP = "/system.slice/app.service"
CHOWN = "/bin/chown -R bob /sys/fs/cgroup/system.slice/app.service"


class PlantedTest(HostTest):
    def setUp(self):
        super().setUp()
        self.top = f"{self.host.folder}/root"
        os.mkdir(self.top)

    def plant(self, file, text, mode=0o644):
        place = f"{self.top}{file}"
        os.makedirs(os.path.dirname(place), exist_ok=True)
        with open(place, "w", encoding="utf-8") as out:
            out.write(text)
        os.chmod(place, mode)
        return place

    def found(self, path=APP, mount=MOUNT):
        return [str(each) for each in causes.look(mount, self.top).of(path, unit_at(path))]


@unittest.skipIf(os.geteuid(), "files are root's only where root makes them")
class LookTest(PlantedTest):
    def test_one_in_each_place(self):
        for file, line in (
                ("/etc/systemd/system/app.service", f"[Service]\nUser=bob\nExecStartPre=+{CHOWN}\n"),
                ("/etc/systemd/system/app.service.d/10-hook.conf", f"[Service]\n\nExecStartPost=!{CHOWN}\n"),
                ("/usr/lib/systemd/system/app-.service.d/x.conf", f"[Service]\n\nExecReload=+{CHOWN}\n"),
                ("/etc/systemd/system/fix.service", f"[Service]\n#\nExecStart={CHOWN}\n"),
                ("/etc/tmpfiles.d/open.conf", f"# x\n\nZ {MOUNT}{APP} 0755 bob - -\n"),
                ("/usr/lib/udev/rules.d/99-x.rules", f'# x\n\nACTION=="add", RUN+="{CHOWN}"\n'),
                ("/etc/crontab", f"# x\n\n@reboot root {CHOWN}\n"), ("/etc/cron.d/x", f"# x\n\n@reboot root {CHOWN}\n"),
                ("/etc/cron.daily/x", f"#!/bin/sh\n\n{CHOWN}\n"),
                ("/etc/pam.d/sshd", f"# x\n\nsession optional pam_exec.so {CHOWN}\n"), ("/etc/rc.local", f"#!/bin/sh\n\n{CHOWN}\n")):
            place = self.plant(file, line)
            # of a drop-in for each name that begins so, another unit is one
            path = APP.replace("app", "app-1") if "app-." in file else APP
            self.assertEqual(self.found(path), [f"{file}:3: {line.splitlines()[2]}"])
            os.remove(place)
        self.assertEqual(self.found(), [])

    def test_the_crontab_of_root(self):
        place = self.plant("/var/spool/cron/crontabs/root", f"# x\n\n@reboot {CHOWN}\n", 0o600)
        os.chmod(os.path.dirname(place), 0o1730)
        self.assertEqual(self.found(), [f"/var/spool/cron/crontabs/root:3: @reboot {CHOWN}"])

    def test_a_limit_of_a_slice(self):
        """As Debian has it, for each user's slice, and one that goes before it."""
        path = os.path.basename(os.path.dirname(MANAGER))
        self.plant("/usr/lib/systemd/system/user-.slice.d/10-defaults.conf", "#  SPDX\n\n[Unit]\nDescription=x\n\n[Slice]\nTasksMax=33%\n")
        found = causes.look(MOUNT, self.top)
        self.assertEqual(str(found.setting(path, "pids.max")), "/usr/lib/systemd/system/user-.slice.d/10-defaults.conf:7: TasksMax=33%")
        self.assertIsNone(found.setting(path, "memory.max"))
        self.plant("/etc/systemd/system/user-1000.slice.d/50-own.conf", "[Slice]\nTasksMax=9\n")
        self.assertEqual(str(causes.look(MOUNT, self.top).setting(path, "pids.max")),
                         "/etc/systemd/system/user-1000.slice.d/50-own.conf:2: TasksMax=9")
        # one of the same name in a folder that goes first hides it
        self.plant("/etc/systemd/system/user-.slice.d/10-defaults.conf", "[Slice]\n")
        os.remove(f"{self.top}/etc/systemd/system/user-1000.slice.d/50-own.conf")
        self.assertIsNone(causes.look(MOUNT, self.top).setting(path, "pids.max"))

    def test_a_script_that_a_unit_calls(self):
        unit = "/etc/systemd/system/app.service"
        self.plant(unit, "[Service]\nUser=bob\nExecStartPost=-+/usr/local/sbin/give away\n")
        self.assertEqual(self.found(), [f"{unit}:3: ExecStartPost=-+/usr/local/sbin/give away"])
        self.plant("/usr/local/sbin/give", f"#!/bin/sh\nset -e\n{CHOWN}\n", 0o755)
        self.assertEqual(self.found(), [f"{unit}:3: ExecStartPost=-+/usr/local/sbin/give away", f"/usr/local/sbin/give:3: {CHOWN}"])
        # where root runs the unit itself, too; what /bin leads to is read in /usr
        os.makedirs(f"{self.top}/usr/bin", exist_ok=True)
        os.symlink("usr/bin", f"{self.top}/bin")
        self.plant("/usr/bin/hook", f"#!/bin/sh\n{CHOWN}\n", 0o755)
        self.plant(unit, "[Service]\nExecStart=/bin/hook x\n")
        self.assertEqual(self.found(), [f"/usr/bin/hook:2: {CHOWN}"])
        # no program that isn't a script has lines, and no other setting gives anything away
        self.plant("/usr/bin/hook", f"\x7fELF\n{CHOWN}\n", 0o755)
        self.plant("/etc/systemd/system/other.service", f"[Service]\nReadWritePaths={MOUNT}{APP}\n")
        self.assertEqual(self.found(), [])
        # a user's commands, and those of another unit, are none
        self.plant(unit, "[Service]\nUser=bob\nExecStart=/usr/local/sbin/give\nExecStop=@/bin/x x\n")
        self.plant("/etc/systemd/system/other.service", "[Service]\nExecStartPost=+/bin/x\n")
        self.assertEqual(self.found(), [])

    def test_which_place_a_line_is_of(self):
        for line, is_its in ((f"chown -R bob {MOUNT}", True), (f"chown bob {MOUNT}", False), (f"chown -R bob {MOUNT}/system.slice", True),
                             (f"chown bob {MOUNT}{APP}/memory.max", True), (f"chown -R bob {MOUNT}/user.slice", False),
                             (f"chown bob {MOUNT}/system.slice/*", True), (f"chown bob {MOUNT}/$1/x", True),
                             (f"chmod 666 '{MOUNT}{APP}'/cgroup.procs", True), (f"chown bob {MOUNT}{APP}2", False),
                             (f"find {MOUNT}/ -name memory.max -exec chmod 666", True), (f"mount -t cgroup2 none {MOUNT}2", False),
                             ("session optional pam_cgfs.so -c memory", True)):
            self.plant("/etc/crontab", f"{line}\n")
            self.assertEqual(bool(self.found()), is_its, line)

    def test_what_isnt_roots_isnt_read(self):
        place = self.plant("/etc/cron.d/x", f"{CHOWN}\n")
        os.chown(place, 1000, 0)
        theirs = self.plant("/home/bob/y", f"{CHOWN}\n")
        os.symlink(theirs, f"{self.top}/etc/cron.d/y")
        os.mkfifo(f"{self.top}/etc/cron.d/z")
        # a folder of theirs, and a link to one
        self.plant("/etc/tmpfiles.d/x.conf", f"{CHOWN}\n")
        os.chown(f"{self.top}/etc/tmpfiles.d", 1000, 0)
        os.makedirs(f"{self.top}/usr/lib")
        os.symlink(f"{self.top}/home/bob", f"{self.top}/usr/lib/tmpfiles.d")
        look = causes.look(MOUNT, self.top)
        self.assertEqual(list(look.of(APP, "app.service")), [])
        self.assertEqual(look.unread, 5)

    def test_names_that_lead_to_other_units_lack_nothing(self):
        """Aliases, and units that are masked, of which every host has dozens."""
        folder = os.path.dirname(self.plant("/usr/lib/systemd/system/app.service", f"[Service]\nExecStartPre=+{CHOWN}\n"))
        for to, name in (("app.service", "web.service"), ("/lib/systemd/system/app.service", "old.service"), ("/dev/null", "rc.service"),
                         ("../system/app.service", "new.service")):
            os.symlink(to, f"{folder}/{name}")
        look = causes.look(MOUNT, self.top)
        self.assertEqual((look.unread, len(look.of(APP, "app.service"))), (0, 1))
        for to, name in (("/opt/app/app.service", "opt.service"), ("../../../../tmp/app.service", "tmp.service")):
            os.symlink(to, f"{folder}/{name}")
        self.assertEqual(causes.look(MOUNT, self.top).unread, 2)

    def test_what_is_too_much(self):
        self.plant("/etc/cron.d/x", "x" * bounded.ROOT_FILE + f"\n{CHOWN}\n")
        self.plant("/etc/cron.d/y", f"{CHOWN} {'y' * 1000}\n" * 40)
        look = causes.look(MOUNT, self.top)
        self.assertEqual((look.unread, len(list(look.of(APP, "app.service")))), (1, causes.MOST))
        self.assertLess(len(str(next(iter(look.of(APP, "app.service"))))), 300)
        with mock.patch.object(bounded, "ROOT_FILES", 1):
            self.assertEqual(causes.look(MOUNT, self.top).unread, 2)


@unittest.skipIf(os.geteuid(), "files are root's only where root makes them")
class ReportTest(PlantedTest):
    def setUp(self):
        super().setUp()
        self.host.cgroup("/", enabled="memory pids")
        self.host.cgroup("/system.slice", enabled="memory pids")
        self.host.cgroup(APP, owners={**owned(1001), "memory.max": 1001}, marks=(MARK,), values={"memory.max": 943718400})
        self.host.cgroup("/system.slice/b.service", owners={**owned(1001), "memory.max": 1001}, marks=(MARK,))

    def checked(self, **more):
        told = {"app.service": {"Id": "app.service", "ControlGroup": APP, "MemoryMax": "104857600"}}
        with mock.patch.object(settings, "read", lambda *_: told), mock.patch.object(causes, "TOP", self.top):
            return check.report(self.host.snapshot(), self.options(**{"plain_folder": False, **more}), True, told)

    def test_the_line_that_does_it(self):
        unit = "/etc/systemd/system/app.service"
        self.plant(unit, f"[Service]\nUser=bob\nMemoryMax=100M\nExecStartPre=+/bin/chown -R USER {self.host.mount}{APP}\n")
        report = self.checked()
        cause = f"{unit}:4: ExecStartPre=+/bin/chown -R USER {self.host.mount}{APP}"
        self.assertEqual([(each.path, each.causes) for each in report.entries], [(APP, (cause,)), ("/system.slice/b.service", ())])
        self.assertEqual(report.entries[0].setting, f"MemoryMax=104857600 of app.service ({unit}:3: MemoryMax=100M)")
        lines = list(lines_of(report))
        self.assertIn(f"    cause: {cause}", lines)
        # every other form has it beside the finding
        (log,) = json.loads("".join(sarif.parts_of(run_of(report))))["runs"]
        messages = [each["message"]["text"] for each in log["results"] if f"cause: {cause}" in each["message"]["text"]]
        self.assertEqual(len(messages), 1)
        self.assertIn(f"cause: {cause}", "".join(junit.parts_of(run_of(report))))
        reader = PageReader(page.page([report]))
        self.assertEqual(reader.faults, [])
        self.assertIn(f"What of root's files gives it away: {cause}", reader.text())
        [told] = [line for line in lines if line.startswith("cause: ")]
        self.assertIn("nothing that was read gives away what lets somebody in at /system.slice/b.service", told)
        script = "".join(written.parts_of(run_of(report), "shell")).splitlines()
        self.assertIn(f"#   has it: {cause}", script)
        self.assertIn(f"# {told}", script)
        self.assertTrue([line for line in script if line.startswith("#   nothing that was read gives it away. Look at ExecStartPre=+")])

    def test_where_it_isnt_looked_for(self):
        report = self.checked(plain_folder=True)
        self.assertEqual({each.causes for each in made(report).entries}, {made(replace(report)).entries[0].causes})
        self.assertFalse([line for line in lines_of(report) if line.startswith("cause: ")])
        self.assertIn("#   no file of the host was looked at for what gives it away. Look at",
                      "".join(written.parts_of(run_of(report), "shell")))


if __name__ == "__main__":
    unittest.main()
