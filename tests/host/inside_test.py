"""Tests of containers whose processes are root's: who counts as one, what is looked at, and when it is held."""
import contextlib
import datetime
import json
import os
import shutil
import unittest
from dataclasses import replace
from unittest import mock

import debian_readers
import report_schema
from called import called
from check_test import HostTest, owned
from formats_test import run_of, schema
from page_reader import PageReader
from shown import comparison_lines, lines_of, made
from zirofen_host.ask.accepted import accept
from zirofen_host.collect import bounded, elsewhere, inside
from zirofen_host.collect.accounts import Accounts
from zirofen_host.collect.inside import shows_above, unit_above
from zirofen_host.collect.model import CgroupMount, Inside
from zirofen_host.judge import acceptances, baseline, check
from zirofen_host.judge.finding_lines import NOTHING_ASKED, inside_line
from zirofen_host.judge.inside import ALL_CAPABILITIES, judged
from zirofen_host.profile import path_of
from zirofen_host.show import fleet, junit, metrics, page, sarif
from zirofen_host.show.tree_view import Drawing, draw
from zirofen_host.show.view import host_of

ADMIN, MODULE, RAWIO, SEARCH, CHOWN = 1 << 21, 1 << 16, 1 << 17, 1 << 2, 1
EVERY = (1 << 41) - 1
# PID 1's, and those of a container
OWN, PIDS, MOUNTS = "cgroup:[4026531835]", "pid:[4026531836]", "mnt:[4026531841]"
ROOT = "25 1 8:1 / / rw,relatime - ext4 /dev/sda1 rw\n"
HOSTS = ROOT + "30 25 0:26 / /sys/fs/cgroup rw,nosuid - cgroup2 cgroup2 rw,nsdelegate\n"
IMAGE = "400 300 0:50 / / rw,relatime - overlay overlay rw\n"
DOCKER = "/system.slice/docker-4fb087512345.scope"
NSDELEGATE = ("rw", "nsdelegate", "memory_recursiveprot")
REMOUNT = "mount -o remount,nsdelegate,memory_recursiveprot /sys/fs/cgroup"
HELD = "held by nsdelegate"
FREE = "it writes no mount of cgroups, and has no CAP_SYS_ADMIN"
BY_ADMIN = "it mounts cgroups and makes cgroup namespaces as it likes (CAP_SYS_ADMIN)"
BY_HANDLE = "it opens what is above by a handle (CAP_DAC_READ_SEARCH)"
BY_PIDS = "it gets at what the host's processes see (the host's PIDs)"


def cgroups_at(top, way="rw", place="/sys/fs/cgroup", number=401):
    return f"{number} 400 0:26 {top} {place} {way},nosuid - cgroup2 cgroup rw\n"


class InsideTest(HostTest):
    """A made-up host with services of root's, to which containers are added."""

    def setUp(self):
        super().setUp()
        self.host.cgroup("/init.scope", pids=(1,))
        self.process(1)
        self.host.cgroup("/system.slice")
        for number, name in enumerate(("ssh", "cron", "systemd-logind", "systemd-udevd"), 10):
            self.host.cgroup(f"/system.slice/{name}.service", pids=(number,))
            self.process(number, mounts=f"mnt:[{4026532000 + number}]")

    def process(self, pid, cgroups=OWN, pids=PIDS, mounts=MOUNTS, text=HOSTS, bounding=EVERY, user=4026531837, **more):
        """A process with its namespaces and what it sees mounted."""
        self.host.process(pid, namespace=user, **more)
        with open(f"{self.host.proc}/{pid}/status", "a", encoding="ascii") as out:
            out.write(f"CapBnd:\t{bounding:016x}\n")
        for kind, name in (("cgroup", cgroups), ("pid", pids), ("mnt", mounts)):
            os.symlink(name, f"{self.host.proc}/{pid}/ns/{kind}")
        with open(f"{self.host.proc}/{pid}/mountinfo", "w", encoding="ascii") as out:
            out.write(text)

    def container(self, path=DOCKER, pid=100, top=None, way="rw", text=None, **more):
        """A cgroup with a process of root's in a container, as engines make one."""
        self.host.cgroup(path, pids=(pid,))
        self.process(pid, **{"cgroups": "cgroup:[4026532500]", "pids": "pid:[4026532501]", "mounts": "mnt:[4026532502]",
                             "text": IMAGE + cgroups_at(top or path, way) if text is None else text, "bounding": CHOWN, **more})

    def found(self, mount_options=NSDELEGATE, **more):
        return self.report(mount_options=mount_options, **more)

    def stood(self, mount_options=NSDELEGATE):
        """How the one container stands, and what is to be set."""
        each, = self.found(mount_options)["root_inside"]
        line = inside_line(made(self.found(mount_options)).containers[0])
        self.assertTrue(line.startswith(f"root-inside {each['path']}: "), line)
        return line.partition(": ")[2], each["changes"], each["setting"]


class WhoTest(InsideTest):
    """Who is in a container."""

    def by(self):
        return {each["path"]: (each["processes"], each["by"]) for each in self.found().get("root_inside", ())}

    def test_a_host_as_it_is_installed_has_none(self):
        """A service with PrivateTmp= or ProtectSystem= has mounts of its own, and the host's root."""
        private = ROOT.replace("25 1 ", "301 300 ") + "320 301 8:1 /tmp/systemd-private-1/tmp /tmp rw - ext4 /dev/sda1 rw\n"
        read_only = ROOT.replace("25 1 8:1 / / rw", "301 300 8:1 / / ro") + cgroups_at("/", "ro", number=330)
        for number, text in enumerate((private, read_only), 40):
            self.host.cgroup(f"/system.slice/s{number}.service", pids=(number,))
            self.process(number, text=text, mounts=f"mnt:[{4026532400 + number}]")
        found = self.found()
        self.assertEqual((found.get("root_inside"), found["status"]), (None, 4))
        self.assertEqual([line for line in lines_of(found) if "root-inside" in line], [])

    def test_nothing_found_says_what_was_looked_for(self):
        line = self.lines(self.found())[0]
        self.assertEqual(line, NOTHING_ASKED)
        for word in ("a mark", "a unit", "owners", "processes of root's in a container", "cgroup namespace", "root"):
            self.assertIn(word, line)

    def test_by_namespace_by_root_and_by_both(self):
        self.container()
        self.container("/system.slice/chroot.service", 101, cgroups=OWN)
        self.container("/system.slice/unshared.service", 102, text=HOSTS)
        self.assertEqual(self.by(), {DOCKER: (1, ["cgroup namespace", "root"]), "/system.slice/chroot.service": (1, ["root"]),
                                     "/system.slice/unshared.service": (1, ["cgroup namespace"])})

    def test_the_same_device_with_another_folder_is_another_root(self):
        self.container(text="400 300 8:1 /srv/root / rw - ext4 /dev/sda1 rw\n", cgroups=OWN)
        self.assertEqual(self.by(), {DOCKER: (1, ["root"])})

    def test_a_root_that_is_no_mount_is_another(self):
        self.container(text="26 25 0:5 / /dev rw - devtmpfs dev rw\n", cgroups=OWN)
        self.assertEqual(self.by(), {DOCKER: (1, ["root"])})

    def test_what_is_mounted_over_a_root_is_none(self):
        self.container(text=ROOT + "90 25 0:60 / / rw - tmpfs tmpfs rw\n", cgroups=OWN)
        self.assertEqual(self.by(), {})

    def test_each_cgroup_with_its_number(self):
        self.container()
        self.container(f"{DOCKER}/in", 101)
        self.host.cgroup(DOCKER, pids=(100, 102, 103))
        for pid in (102, 103):
            self.process(pid, cgroups="cgroup:[4026532500]", mounts="mnt:[4026532502]", text=IMAGE)
        self.assertEqual(self.by(), {DOCKER: (3, ["cgroup namespace", "root"]), f"{DOCKER}/in": (1, ["cgroup namespace", "root"])})

    def test_others_processes_and_kernel_threads_are_none(self):
        self.container(uid=1000)
        self.container("/kthreads", 101, flags=0x00200040)
        self.assertEqual(self.by(), {})

    def test_one_that_is_root_by_its_effective_uid_counts(self):
        self.container(uid=1000)
        status = f"{self.host.proc}/100/status"
        with open(status, encoding="ascii") as text:
            changed = text.read().replace("Uid:\t1000\t1000", "Uid:\t1000\t0")
        with open(status, "w", encoding="ascii") as out:
            out.write(changed)
        self.assertEqual(self.by(), {DOCKER: (1, ["cgroup namespace", "root"])})

    def test_who_has_the_hosts_cgroup_namespace(self):
        """Whoever its processes are of, as docker run --cgroupns=host makes one."""
        other = "/system.slice/docker-2.scope"
        self.container(cgroups=OWN, uid=1000)
        self.container(other, 101)
        taken = self.host.snapshot()
        inspection = inside.inspect(self.host.proc, taken.cgroups, taken.processes)
        self.assertEqual(inspection.in_hosts_namespace({path_of(DOCKER), path_of(other)}), {path_of(DOCKER)})

    def test_one_that_ends_meanwhile_is_none(self):
        self.container()
        os.remove(f"{self.host.proc}/100/ns/cgroup")
        self.container("/b.scope", 101)
        os.remove(f"{self.host.proc}/101/ns/mnt")
        self.assertEqual(self.by(), {})

    def test_without_what_pid_1_has_nothing_is_told(self):
        self.container()
        shutil.rmtree(f"{self.host.proc}/1")
        self.assertEqual(self.by(), {})

    def test_where_its_namespaces_arent_seen_a_hosts_first_ones_stand_for_them(self):
        self.container()
        shutil.rmtree(f"{self.host.proc}/1/ns")
        self.assertEqual(self.by(), {DOCKER: (1, ["cgroup namespace", "root"])})

    def test_nothing_below_a_root_or_a_working_folder_is_asked(self):
        """A user's file system answers when it likes: links to one are there, and nothing goes through them."""
        self.container(top="/")
        for name in ("root", "cwd"):
            os.symlink(f"{self.host.folder}/none", f"{self.host.proc}/100/{name}")
        asked = []

        def noted(call):
            return lambda place, *words, **more: asked.append(str(place)) or call(place, *words, **more)
        with contextlib.ExitStack() as patched:
            for name in ("open", "readlink", "scandir", "listdir", "stat", "lstat", "getxattr"):
                patched.enter_context(mock.patch.object(os, name, noted(getattr(os, name))))
            self.found()
        of = {place.partition("/proc/100/")[2] for place in asked if "/proc/100/" in place}
        self.assertEqual(of, {"status", "stat", "mountinfo", "fd", "ns/cgroup", "ns/mnt", "ns/pid", "ns/user"})


class HeldTest(InsideTest):
    """When a container is held, by what, and what lets it out."""

    def test_a_usual_one(self):
        """Its own part alone, read-only, without CAP_SYS_ADMIN: either of both holds it."""
        self.container(way="ro")
        self.assertEqual(self.stood(), (f"{HELD}; {FREE}", [], None))
        self.assertEqual(self.stood(()), (f"held: {FREE}", [], None))
        self.assertEqual((self.found()["status"], self.found(())["status"]), (0, 0))

    def test_a_writable_mount_takes_nsdelegate(self):
        self.container()
        self.assertEqual(self.stood(), (HELD, [], None))
        self.assertEqual(self.stood(("rw",)), (
            f"not held: it writes {DOCKER} at /sys/fs/cgroup; nsdelegate is off",
            [f"mount -o remount,nsdelegate,memory_recursiveprot {self.host.mount}"], None))
        self.assertEqual((self.found()["status"], self.found(())["status"]), (0, 1))

    def test_a_mount_is_read_only_by_its_own_options_or_its_file_systems(self):
        self.container(text=IMAGE + cgroups_at(DOCKER).replace("cgroup rw", "cgroup ro"))
        self.assertEqual(self.stood(()), (f"held: {FREE}", [], None))

    def again(self, **more):
        """Another container in the place of the one."""
        self.host.cgroup(DOCKER)
        shutil.rmtree(f"{self.host.proc}/100", ignore_errors=True)
        self.container(**more)

    def test_admin(self):
        """It goes past nsdelegate by a cgroup namespace inside of its own, and past what isn't writable by a mount."""
        for way in ("ro", "rw"):
            with self.subTest(way):
                self.again(bounding=ADMIN, way=way)
                self.assertEqual(self.stood(), (f"not held: {BY_ADMIN}", [], "without CAP_SYS_ADMIN"))
                self.assertEqual(self.found(())["status"], 1)

    def test_handles(self):
        """What is above is opened by its handle, and written where the mount that it is opened by is writable."""
        self.container(bounding=SEARCH)
        self.assertEqual(self.stood(), (f"not held: it writes {DOCKER} at /sys/fs/cgroup; {BY_HANDLE}", [], "without CAP_DAC_READ_SEARCH"))

    def test_handles_by_a_mount_that_is_read_only(self):
        self.container(bounding=SEARCH, way="ro")
        self.assertEqual(self.stood(), (f"held: {FREE}", [], None))

    def test_the_hosts_pids(self):
        """Some process of the host's has no capability which the container hasn't: it gets at what that one sees."""
        for bits in (CHOWN, 0):
            for way in ("ro", "rw"):
                with self.subTest(bits, way=way):
                    self.again(bounding=bits, pids=PIDS, way=way)
                    self.assertEqual(self.stood(), (f"not held: {BY_PIDS}", [], "a PID namespace of its own"))

    def test_admin_with_the_hosts_pids(self):
        self.container(bounding=ADMIN, pids=PIDS)
        self.assertEqual(self.stood(), (f"not held: {BY_ADMIN}; {BY_PIDS}", [], "without CAP_SYS_ADMIN; a PID namespace of its own"))

    def test_the_hosts_hierarchy_bound_in(self):
        self.container(text=IMAGE + cgroups_at(DOCKER) + cgroups_at("/", place="/host", number=402))
        self.assertEqual(self.stood(), (
            f"not held: it writes / at /host, {DOCKER} at /sys/fs/cgroup; it sees what is above its cgroup namespace: / at /host",
            [], "no mount at /host"))

    def test_the_hosts_hierarchy_read_only(self):
        """What it sees it can't write, as long as it can't mount it anew."""
        text = IMAGE + cgroups_at("/", "ro", place="/host")
        self.container(text=text)
        self.assertEqual(self.stood(), (f"held: {FREE}", [], None))
        self.container("/b.scope", 101, text=text, bounding=ADMIN, cgroups="cgroup:[4026532700]", mounts="mnt:[4026532701]")
        held, other = made(self.found()).containers
        self.assertEqual((held.path, other.held), ("/b.scope", True))
        self.assertEqual((held.held, held.ways), (False, ("CAP_SYS_ADMIN",)))

    def test_a_part_of_the_hierarchy_above_it(self):
        self.container(top="/system.slice")
        self.assertEqual(self.stood()[0], "not held: it writes /system.slice at /sys/fs/cgroup; it sees what is above its cgroup "
                                          "namespace: /system.slice at /sys/fs/cgroup")

    def test_the_hosts_cgroup_namespace(self):
        """nsdelegate holds what is in a cgroup namespace of its own, and nothing else."""
        self.container(cgroups=OWN)
        self.assertEqual(self.stood(), (f"not held: it writes {DOCKER} at /sys/fs/cgroup; its cgroup namespace is the host's", [],
                                        "a cgroup namespace of its own"))

    def test_a_privileged_one(self):
        self.container(bounding=EVERY)
        self.assertEqual(self.stood(), (
            f"not held: {ALL_CAPABILITIES}; it writes {DOCKER} at /sys/fs/cgroup",
            [], "without --privileged, which gives it CAP_SYS_MODULE, CAP_SYS_RAWIO, CAP_SYS_ADMIN, CAP_DAC_READ_SEARCH"))

    def test_module_and_rawio_each_alone(self):
        for bits, name in ((MODULE, "CAP_SYS_MODULE"), (RAWIO, "CAP_SYS_RAWIO")):
            with self.subTest(name):
                self.again(bounding=bits, way="ro")
                self.assertEqual(self.stood()[1:], ([], f"without {name}"))

    def test_no_mount_of_cgroups(self):
        self.container(text=IMAGE)
        self.assertEqual(self.stood(()), (f"held: {FREE}", [], None))

    def test_capabilities_of_a_user_namespace_reach_its_mounts_alone(self):
        self.container(bounding=EVERY, user=4026532900, way="ro")
        self.assertEqual(self.stood(()), (f"not held: {BY_ADMIN}", [], "without CAP_SYS_ADMIN"))

    def test_the_worst_of_one_cgroups_processes_counts(self):
        self.container(way="ro")
        self.host.cgroup(DOCKER, pids=(100, 101))
        self.process(101, cgroups="cgroup:[4026532500]", pids="pid:[4026532501]", mounts="mnt:[4026532502]", text=IMAGE, bounding=MODULE)
        self.assertEqual(self.stood()[0], "not held: it loads code into the kernel (CAP_SYS_MODULE)")

    def test_a_bounding_set_that_isnt_told_has_all(self):
        self.container()
        status = f"{self.host.proc}/100/status"
        with open(status, encoding="ascii") as text:
            changed = "".join(line for line in text if not line.startswith("CapBnd"))
        with open(status, "w", encoding="ascii") as out:
            out.write(changed)
        self.assertEqual(made(self.found()).containers[0].ways,
                         ("CAP_SYS_MODULE", "CAP_SYS_RAWIO", "CAP_SYS_ADMIN", "mount", "CAP_DAC_READ_SEARCH"))

    def test_a_threads_bounding_set_counts(self):
        self.container(threads=(0,))
        with open(f"{self.host.proc}/100/task/101/status", "a", encoding="ascii") as out:
            out.write(f"CapBnd:\t{MODULE:016x}\n")
        with open(f"{self.host.proc}/100/task/100/status", "a", encoding="ascii") as out:
            out.write("CapBnd:\t0\n")
        self.assertEqual(made(self.found()).containers[0].ways, ("CAP_SYS_MODULE",))

    def test_every_way_out_and_none(self):
        """By the rule, over all that is looked at."""
        for bits in range(256):
            is_on, own, host_pids, writable, above, module, admin, search = (bool(bits >> at & 1) for at in range(8))
            names = tuple(name for name, is_there in (("DAC_READ_SEARCH", search), ("SYS_MODULE", module), ("SYS_ADMIN", admin))
                          if is_there)
            each = Inside(path_of("/a"), 1, ("root",), (CgroupMount("/c", path_of("/a"), writable, above),), names, own, host_pids, False)
            with self.subTest(bits):
                found = judged(each, None if is_on else REMOUNT)
                by_namespace = is_on and own and not above and not search
                self.assertEqual(found.held, (not writable or by_namespace) and not (module or admin or host_pids))
                self.assertEqual((bool(found.ways), bool(found.changes or found.setting)), (not found.held,) * 2)


class AboveTest(unittest.TestCase):
    """What a mount shows beside the root of a cgroup namespace."""

    def test_tops_and_places(self):
        for top, places, expected in (
                ("/a.scope", ("/a.scope",), False),
                ("/a.scope", ("/a.scope", "/a.scope/b"), False),
                ("/a.scope/b", ("/a.scope",), False),
                # a system in a container
                ("/a.scope", ("/a.scope/init.scope", "/a.scope/system.slice/cron.service"), False),
                ("/", ("/a.scope",), True), ("/", ("/",), True),
                ("/s", ("/s/a.scope",), True),
                # what is beside it
                ("/b.scope", ("/a.scope",), True),
                # somebody entered it from a session
                ("/s/a.scope", ("/s/a.scope", "/user.slice/session-1.scope"), False),
                ("/s", ("/s/a.scope", "/user.slice/session-1.scope"), True),
                ("/s/a.scope", ("/s/a.scope", "/"), False), ("/s", ("/s/a.scope", "/"), True)):
            with self.subTest(top, places=places):
                self.assertEqual(shows_above(path_of(top), set(map(path_of, places))), expected)

    def test_units(self):
        for path, unit in (("/", "/"), ("/a", "/a"), ("/docker/1/in/it", "/docker/1"), ("/a.slice/b.scope/c/d.service", "/a.slice/b.scope"),
                           ("/a.slice/a-b.slice/x.service", "/a.slice/a-b.slice/x.service")):
            self.assertEqual(unit_above(path_of(path)), path_of(unit), path)


class BudgetTest(InsideTest):
    """What a container can make any number of."""

    def test_more_cgroups_than_are_looked_at_are_one_that_isnt_held(self):
        self.host.cgroup(DOCKER)
        with mock.patch.object(bounded, "INSIDES", 2):
            for number in range(4):
                self.container(f"{DOCKER}/{number}", 100 + number)
            self.container("/other.scope", 90, cgroups="cgroup:[4026532600]", mounts="mnt:[4026532601]")
            found = made(self.found()).containers
        self.assertEqual([(each.path, each.processes, each.held) for each in found if each.path != "/other.scope"],
                         [(f"{DOCKER}/0", 1, True), (f"{DOCKER}/1", 1, True), (DOCKER, 2, False)])
        self.assertEqual([each.held for each in found if each.path == "/other.scope"], [True])

    def test_a_long_list_of_mounts_isnt_held(self):
        more = "".join(f"{500 + at} 400 0:70 / /m{at} rw - tmpfs tmpfs rw\n" for at in range(2000))
        self.container(text=IMAGE + more)
        self.container("/other.scope", 90, cgroups="cgroup:[4026532600]", mounts="mnt:[4026532601]")
        with mock.patch.object(bounded, "MOUNT_BYTES", bounded.MOUNT_BYTES._replace(most=1 << 14)):
            found = {each.path: each for each in made(self.found()).containers}
        self.assertEqual((found[DOCKER].ways, found["/other.scope"].held), (("unknown",), True))

    def test_many_processes_have_the_root_of_those_that_were_read(self):
        pids = tuple(range(100, 110))
        self.host.cgroup(DOCKER, pids=pids)
        for pid in pids:
            self.process(pid, cgroups="cgroup:[4026532500]", mounts="mnt:[4026532502]", text=IMAGE)
        read = []
        root_line = inside.root_line
        with mock.patch.object(bounded, "ROOTS", 3), \
                mock.patch.object(inside, "root_line", side_effect=lambda proc, pid: read.append(pid) or root_line(proc, pid)):
            each, = made(self.found()).containers
        self.assertEqual((each.processes, [pid for pid in read if pid >= 100]), (10, [100, 101, 102]))


class ToldTest(InsideTest):
    """How it is told, in each way that a report is written."""

    def setUp(self):
        super().setUp()
        self.host.cgroup("/a", owners=owned(1000))
        self.container()
        self.container("/system.slice/docker-5.scope", 101, bounding=MODULE)

    def whole(self):
        return made(self.found(json=True))

    def test_the_text(self):
        lines = self.lines(self.found())
        at = lines.index("Containers whose processes are root's; held speaks of cgroup files alone, and is seen and not proved:")
        self.assertEqual(lines[at + 1:at + 4], [
            f"root-inside {DOCKER}: held by nsdelegate (1 process, by cgroup namespace and root)",
            "root-inside /system.slice/docker-5.scope: not held: it loads code into the kernel (CAP_SYS_MODULE) (1 process, by cgroup "
            "namespace and root)", "    setting, at the next start: without CAP_SYS_MODULE"])
        self.assertEqual((lines[-1], self.found()["status"]), (
            "1 by a container of root's that isn't held; 1 asked: 1 contained; 2 with root inside: 1 not held, 1 held", 1))

    def test_statuses(self):
        """One that isn't held is 1; held ones alone are no finding, and something was found."""
        self.assertEqual(self.found()["status"], 1)
        shutil.rmtree(f"{self.host.proc}/101")
        self.assertEqual(self.found()["status"], 0)
        self.host.cgroup("/a")
        found = self.found()
        self.assertEqual((found["status"], found["asked"]), (0, False))
        self.assertEqual(self.lines(found)[-1], "0; 0 asked: nothing; 1 with root inside: 1 held")
        self.assertNotIn(NOTHING_ASKED, self.lines(found))

    def test_the_schema_takes_no_other_key(self):
        value = self.found(json=True)
        self.assertEqual(report_schema.faults_of(value), [])
        value["root_inside"][0]["more"] = 1
        self.assertEqual(report_schema.faults_of(value), ["report.root_inside[0].more"])

    def test_a_report_of_before_has_none(self):
        value = self.found(json=True)
        del value["root_inside"]
        self.assertEqual(made(value).containers, ())

    def test_sarif(self):
        log = json.loads("".join(sarif.parts_of(run_of(self.found(json=True)))))
        results = {each["ruleId"]: each for each in log["runs"][0]["results"] if each["ruleId"].startswith("root-inside")}
        self.assertEqual({name: each["level"] for name, each in results.items()}, {"root-inside": "error", "root-inside/held": "note"})
        for each in results.values():
            self.assertIn("seen and not proved", each["message"]["text"])
        self.assertIn("without CAP_SYS_MODULE", results["root-inside"]["message"]["text"])

    def test_sarif_is_valid(self):
        log = json.loads("".join(sarif.parts_of(run_of(self.found(json=True)))))
        self.assertEqual(debian_readers.faults_by_schema(schema(), [log]), [[]])

    def test_a_fingerprint_stays_while_processes_come_and_go(self):
        def prints():
            log = json.loads("".join(sarif.parts_of(run_of(self.found(json=True)))))
            return {each["partialFingerprints"]["zirofen/v1"] for each in log["runs"][0]["results"]
                    if each["ruleId"].startswith("root-inside")}
        before = prints()
        self.host.cgroup(DOCKER, pids=(100, 102))
        self.process(102, cgroups="cgroup:[4026532500]", mounts="mnt:[4026532502]", pids="pid:[4026532501]", bounding=CHOWN,
                     text=IMAGE + cgroups_at(DOCKER))
        self.assertEqual(self.whole().containers[0].processes, 2)
        self.assertEqual(prints(), before)

    def test_junit(self):
        cases = {(case.subject, case.name): case for case in junit.cases_of(run_of(self.found(json=True)))}
        held, other = cases[DOCKER, "root inside"], cases["/system.slice/docker-5.scope", "root inside"]
        self.assertEqual((held.outcome, other.outcome, other.kind), ("passed", "failure", "root-inside"))
        self.assertIn("held speaks of cgroup files alone, and is seen and not proved", held.lines)

    def test_metrics(self):
        text = "".join(metrics.parts_of(run_of(self.found(json=True))))
        for line in ('zirofen_findings{kind="root-inside",gravity="escapes"} 1',
                     'zirofen_findings{kind="root-inside/held",gravity="contained"} 1'):
            self.assertIn(f"\n{line}\n", text)
        self.assertNotIn("docker", text)

    def test_the_tree(self):
        lines = draw(self.whole(), Drawing(is_ascii=True))
        told = "\n".join(lines)
        self.assertIn("docker-4fb087512345.scope", told)
        self.assertIn("root inside, held by nsdelegate", told)
        self.assertIn("! root inside, not held: it loads code into the kernel (CAP_SYS_MODULE)", told)
        self.assertIn("root inside: held speaks of cgroup files alone, and is seen and not proved", lines)

    def page_text(self, report):
        reader = PageReader(page.page([report]))
        self.assertEqual(reader.faults, [])
        return reader.text()

    def test_the_page(self):
        report = self.whole()
        text = self.page_text(report)
        self.assertIn("Root inside of 2 containers, 1 of them not held: held speaks of cgroup files alone, and is seen and not "
                      "proved.", text)
        self.assertIn("Root in /system.slice/docker-5.scope gets at cgroup files outside of its container", text)
        self.assertIn("What its manager sets for it: without CAP_SYS_MODULE.", text)
        self.assertIn(f"{DOCKER}: held by nsdelegate (1 process, by cgroup namespace and root)", text)
        self.assertIn("Root in 1 container isn't held, and 1 of 1 delegation is shown to be contained.", text)
        self.assertEqual(host_of(report).numbers, (1, 1, 1))

    def test_a_page_of_held_ones_alone(self):
        shutil.rmtree(f"{self.host.proc}/101")
        self.host.cgroup("/a")
        text = self.page_text(self.whole())
        self.assertIn("No delegation was found, and 1 container of root's.", text)
        self.assertIn("Root inside of 1 container, all held", text)

    def test_many_hosts(self):
        row = fleet.row_of("web1", host_of(self.whole()), True)
        self.assertEqual((row.status, row.kind, row.open, row.lines), (
            1, "opened", 1, ("root-inside /system.slice/docker-5.scope: not held: it loads code into the kernel (CAP_SYS_MODULE)",)))

    def test_a_host_that_tells_less_in_its_status(self):
        self.assertEqual(fleet.row_of("web1", host_of(replace(self.whole(), status=0)), True).status, 1)

    def test_since_an_earlier_report(self):
        before = self.whole()
        shutil.rmtree(f"{self.host.proc}/101")
        self.container("/system.slice/docker-5.scope", 101, bounding=MODULE | RAWIO)
        self.container("/system.slice/docker-6.scope", 102, bounding=RAWIO)
        now = self.whole()
        compared = baseline.compared(now, replace(before, accepted=True), "then.json")
        self.assertEqual(([each.line.partition(":")[0] for each in compared.new if each.what == "root-inside"],
                          [each.line.partition(":")[0] for each in compared.worse], compared.status),
                         (["root-inside /system.slice/docker-6.scope"], ["root-inside /system.slice/docker-5.scope"], 1))
        lines = list(comparison_lines(self.value_of(replace(now, baseline=compared))))
        self.assertIn("held speaks of cgroup files alone, and is seen and not proved", lines)
        self.assertIn("    setting, at the next start: without CAP_SYS_RAWIO", lines)

    def test_more_processes_are_no_difference(self):
        before = self.whole()
        self.host.cgroup(DOCKER, pids=(100, 102))
        self.process(102, cgroups="cgroup:[4026532500]", mounts="mnt:[4026532502]", pids="pid:[4026532501]", bounding=CHOWN,
                     text=IMAGE + cgroups_at(DOCKER))
        compared = baseline.compared(self.whole(), replace(before, accepted=True), "then.json")
        self.assertEqual([each for found in (compared.new, compared.worse, compared.changed, compared.gone) for each in found], [])

    def accepted(self, **more):
        file = f"{self.host.folder}/accept.toml"
        row = {"what": "root-inside", "path": "/system.slice/docker-5.scope", "entry": "CAP_SYS_MODULE", "whom": "root(0)",
               "reason": "it loads drivers", "until": "2027-01-31", **more}
        with open(file, "w", encoding="ascii") as out:
            out.write("[[accept]]\n" + "".join(f"{key} = {json.dumps(value)}\n" for key, value in row.items()))
        os.chmod(file, 0o644)
        found = acceptances.applied(self.whole(), acceptances.read(file), datetime.date(2026, 11, 27))
        return found, [each.state for each in found.acceptances]

    def test_an_accepted_one_is_told_and_not_counted(self):
        found, states = self.accepted()
        self.assertEqual((states, found.status), (["accepted"], 0))
        lines = list(lines_of(self.value_of(found)))
        self.assertIn("accepted: root-inside /system.slice/docker-5.scope: not held: it loads code into the kernel (CAP_SYS_MODULE): "
                      "it loads drivers, until 2027-01-31", lines)
        self.assertEqual(lines[-1], "0; 1 asked: 1 contained; 2 with root inside: 1 accepted, 1 held")
        log = "".join(sarif.parts_of(run_of(self.value_of(found))))
        self.assertIn('"justification": "it loads drivers, until 2027-01-31"', log)

    def test_one_that_is_let_out_by_less_is_accepted_and_by_more_it_isnt(self):
        self.assertEqual(self.accepted(entry="CAP_SYS_MODULE CAP_SYS_RAWIO")[1], ["accepted"])
        found, states = self.accepted(entry="CAP_SYS_RAWIO")
        self.assertEqual((states, found.status), (["worse"], 1))
        self.assertEqual(self.accepted(path="/system.slice/docker-9.scope")[1], ["unmet"])

    def test_names_of_its_mounts_harm_nobody(self):
        """A container mounts where it likes."""
        self.container("/c.scope", 103, text=IMAGE + cgroups_at("/c.scope", place="/\\033[31m\\012x<script>"), cgroups=OWN)
        report = self.whole()
        self.assertNotIn("<script>x", page.page([report]))
        self.assertFalse([line for line in lines_of(self.found()) if "\x1b" in line or "\n" in line])

    def test_a_text_carries_them(self):
        snapshot = replace(self.host.snapshot(), mount_options=NSDELEGATE)
        text = elsewhere.text_with(snapshot, elsewhere.carried(snapshot, Accounts()), True)
        file = f"{self.host.folder}/tree.toml"
        with open(file, "w", encoding="ascii") as out:
            out.write(text)
        read = elsewhere.read(accept(file, self.program), "/sys/fs/cgroup")
        self.assertEqual(read.inside, snapshot.inside)
        told = self.value_of(check.report(read, self.options(), True))
        self.assertEqual([each["held"] for each in told["root_inside"]], [True, False])

    def test_a_text_that_carries_what_is_none_is_a_fault(self):
        file = f"{self.host.folder}/tree.toml"
        for value in ("[]", '["/", 1, ["root"], [], [], 1, false, false]', '["/", 1, ["root"], [["/x"]], [], true, false, false]'):
            with open(file, "w", encoding="ascii") as out:
                out.write('format = 1\ncontrollers = []\n[[cgroup]]\npath = "/"\n#= {"inside": ' + value + "}\n")
            ended = called("check", "--tree", file, "--zirofen", self.program)
            self.assertEqual((ended.returncode, "what it carries isn't known" in ended.stderr), (3, True), value + ended.stderr)


if __name__ == "__main__":
    unittest.main()
