"""The helpers on a real mount, where this machine has one, in a part of it that is made for this and removed again."""
import json
import os
import subprocess
import sys
import tempfile
import time
import unittest

from check_test import PROGRAM, REAL_PROGRAM
from made_up import COMMAND
from zirofen_host.collect.mount import mounts_of_host, refuse_what_is_no_host
from zirofen_host.fault import Fault

LIFT = "(echo 7 > /mnt/cgroup.max.depth) && echo lifted || echo refused; exec sleep 60"
LOOP = """
import os, sys
places = [os.path.join(sys.argv[1], name) for name in ("a", "a/b", "a/b/c", "d")]
while True:
    for place in places:
        os.mkdir(place)
    for place in reversed(places):
        os.rmdir(place)
"""


def real_mount():
    """A mount of the whole hierarchy in which cgroups can be made, or None."""
    for mount in mounts_of_host().second:
        try:
            refuse_what_is_no_host(mount)
            place = os.path.join(mount, f"zirofen-can-{os.getpid()}")
            os.mkdir(place)
            os.rmdir(place)
            return mount
        except (Fault, OSError):
            continue
    return None


MOUNT = real_mount() if os.geteuid() == 0 else None
# where limits are those of version 1, what would be 0 isn't
GOOD = 2 if MOUNT and mounts_of_host().limits_of_version_1() else 0


@unittest.skipUnless(MOUNT, "there is no mount of cgroups here that can be written to")
class OnMountTest(unittest.TestCase):
    """A part of a mount with two delegations and a cgroup that is nobody's."""
    def setUp(self):
        self.top = f"/zirofen-test-{os.getpid()}"
        self.make("")
        for name, uid in (("alice", 1000), ("bob", 1001)):
            self.make(f"/{name}")
            for file in ("", "/cgroup.procs", "/cgroup.subtree_control"):
                os.chown(f"{MOUNT}{self.top}/{name}{file}", uid, uid)
        self.make("/beside")

    def make(self, path):
        place = f"{MOUNT}{self.top}{path}"
        os.mkdir(place)
        self.addCleanup(os.rmdir, place)

    def report(self, *words):
        ended = subprocess.run([sys.executable, COMMAND, "check", "--mount", MOUNT, "--only", self.top, "--json", "--zirofen",
                                REAL_PROGRAM or PROGRAM, *words], capture_output=True, text=True,
                               env={**os.environ, "MADE_UP": "all,advise", "CALLS": os.devnull})
        self.assertEqual(ended.stderr, "")
        found = json.loads(ended.stdout)
        answers = {each["path"]: answer["lines"][0] for each in found["subtrees"] for answer in each["answers"]}
        return found, ended.returncode, {path[len(self.top):]: line for path, line in answers.items()}


class RealMountTest(OnMountTest):
    def loop(self, path):
        running = subprocess.Popen([sys.executable, "-c", LOOP, f"{MOUNT}{self.top}{path}"])
        self.addCleanup(self.end, running, path)

    def end(self, running, path):
        running.kill()
        running.wait()
        for name in ("a/b/c", "a/b", "a", "d"):
            place = f"{MOUNT}{self.top}{path}/{name}"
            if os.path.isdir(place):
                os.rmdir(place)

    def test_a_quiet_one(self):
        found, status, answers = self.report()
        self.assertEqual((status, answers, found["faults"]), (GOOD, {"/alice": "contained", "/bob": "contained"}, []))

    def test_a_further_limit_file_that_is_somebodys(self):
        os.chown(f"{MOUNT}{self.top}/alice/cgroup.freeze", 1000, 0)
        ended = subprocess.run([sys.executable, COMMAND, "snapshot", "--mount", MOUNT, "--only", self.top], capture_output=True, text=True)
        row = ended.stdout.partition(f"path = '{self.top}/alice'\n")[2].partition("\n\n")[0].split("\n")
        self.assertIn('"cgroup.freeze" = { uid = 1000, value = "0" }', row)
        self.assertEqual(ended.stdout.count("cgroup.freeze"), 1)
        found, status, _ = self.report("--zirofen", PROGRAM)
        self.assertEqual([(each["path"], each["entry"], each["answer"], each["changes"]) for each in found["entries"]], [
            (f"{self.top}/alice", "cgroup.freeze", "escapes", [f"chown root {MOUNT}{self.top}/alice/cgroup.freeze"])])
        self.assertEqual((found["opened"], status), ([], 1))

    def without(self, name):
        """The report of a helper that lacks a capability, with its lines of that."""
        words = ["setpriv", f"--bounding-set=-{name}", sys.executable, COMMAND, "check", "--mount", MOUNT, "--only", self.top, "--json",
                 "--zirofen", REAL_PROGRAM or PROGRAM]
        found = json.loads(subprocess.run(words, capture_output=True, text=True,
                                          env={**os.environ, "MADE_UP": "all,advise", "CALLS": os.devnull}).stdout)
        return found, [each["text"] for each in found["snapshot"] if each["kind"] == "lacking"]

    def test_a_helper_that_lacks_a_capability_says_so(self):
        """What it finds less is a mark, and a descriptor of another's process."""
        self.make("/marked")
        os.setxattr(f"{MOUNT}{self.top}/marked", "trusted.delegate", b"1")
        file = f"{MOUNT}{self.top}/beside/cgroup.max.depth"
        os.chown(file, 1000, 1000)
        held = subprocess.Popen(["setpriv", "--reuid", "1000", "--clear-groups", "sh", "-c", 'exec 3>>"$0"; echo; exec sleep 60', file],
                                stdout=subprocess.PIPE)
        self.addCleanup(self.end_process, held)
        held.stdout.readline()
        os.chown(file, 0, 0)
        with open(f"{MOUNT}{self.top}/alice/cgroup.procs", "w", encoding="ascii") as out:
            out.write(f"{held.pid}\n")

        def seen(found):
            return ([each["path"] for each in found["subtrees"] if each["meant"]],
                    [each["file"] for each in found.get("held_entries", ()) if each["file"] == "cgroup.max.depth"])
        marked, descriptor = seen(self.report()[0])
        self.assertEqual((marked, len(descriptor)), ([f"{self.top}/marked"], 1))
        found, lacking = self.without("sys_admin")
        self.assertEqual((seen(found), lacking), (([], descriptor), [
            "this helper hasn't CAP_SYS_ADMIN: the mark trusted.delegate can't be seen, so that what was handed over by it alone isn't "
            "asked"]))
        found, lacking = self.without("sys_ptrace")
        self.assertEqual((seen(found), lacking), ((marked, []), [
            "this helper hasn't CAP_SYS_PTRACE: what others' processes hold open, and their namespaces, can't be seen"]))
        self.assertEqual([each for each in self.report()[0]["snapshot"] if each["kind"] == "lacking"], [])

    def end_process(self, started):
        started.kill()
        started.communicate()

    def container(self, name, way, *more):
        """A process of root's with namespaces of its own, alone in a cgroup, and whether it lifts a limit there."""
        self.make(f"/{name}")
        inner = f"umount -l /sys/fs/cgroup; mount -t cgroup2 -o {way} none /mnt; exec {' '.join(more)} sh -c '{LIFT}'"
        outer = f"echo 0 > {MOUNT}{self.top}/{name}/cgroup.procs; exec unshare --cgroup --mount sh -c \"$0\""
        return self.started(["unshare", "--pid", "--fork", "--kill-child", "sh", "-c", outer, inner])

    def started(self, words):
        running = subprocess.Popen(words, stdout=subprocess.PIPE, stderr=subprocess.DEVNULL, text=True)
        self.addCleanup(self.end_container, running)
        return running.stdout.readline().strip()

    def end_container(self, running):
        running.kill()
        running.communicate()
        # what it started ends with it, and its cgroup is empty soon
        for _ in range(100):
            if not any(b"populated 1" in self.read(each, "cgroup.events") for each in os.listdir(f"{MOUNT}{self.top}")
                       if os.path.isdir(f"{MOUNT}{self.top}/{each}")):
                break
            time.sleep(0.1)

    def read(self, name, file):
        with open(f"{MOUNT}{self.top}/{name}/{file}", "rb") as opened:
            return opened.read()

    def insides(self, *words):
        found, status, _ = self.report(*words)
        return {each["path"][len(self.top):]: (each["held"], each["ways"], each["by"]) for each in found.get("root_inside", ())}, status

    @unittest.skipIf("nsdelegate" in mounts_of_host().options(MOUNT or ""), "nsdelegate is on here")
    def test_containers_of_roots_beside_what_they_can(self):
        """Where it is told that one writes cgroups it does, and where it is held by what it lacks it doesn't."""
        by, dropped = ["cgroup namespace"], ("setpriv", "--bounding-set=-all")
        lifted = {"writable": self.container("writable", "rw", *dropped), "ro": self.container("ro", "ro", *dropped),
                  "admin": self.container("admin", "ro", "setpriv", "--bounding-set=-all,+sys_admin"),
                  "mounts": self.service("mounts")}
        self.assertEqual(lifted, {"writable": "lifted", "ro": "refused", "admin": "refused", "mounts": "ready"})
        self.assertEqual(self.insides(), ({
            "/writable": (False, ["mount", "nsdelegate"], by), "/ro": (True, [], by),
            "/admin": (False, ["CAP_SYS_ADMIN"], by)}, 1))

    def service(self, name):
        """One with mounts of its own, and the host's root, as PrivateTmp= makes it."""
        self.make(f"/{name}")
        outer = f"echo 0 > {MOUNT}{self.top}/{name}/cgroup.procs; exec unshare --mount sh -c \"$0\""
        return self.started(["sh", "-c", outer, "mount -t tmpfs none /tmp; echo ready; exec sleep 60"])

    def over(self, source, path, *words):
        """Mounts something over what stands at a path."""
        place = f"{MOUNT}{self.top}{path}"
        subprocess.run(["mount", *words, source, place], check=True)
        self.addCleanup(subprocess.run, ["umount", place], check=True)

    def test_what_is_mounted_over_files_and_cgroups(self):
        """Another's file over a limit, a device over another, and a cgroup of its own over one: only the list of mounts tells the last."""
        self.make("/alice/in")
        with tempfile.NamedTemporaryFile() as file:
            os.chown(file.name, 1000, 1000)
            self.over(file.name, "/alice/cgroup.max.depth", "--bind")
            self.over("/dev/null", "/alice/cgroup.max.descendants", "--bind")
            self.over(f"{MOUNT}{self.top}/beside/cgroup.max.depth", "/bob/cgroup.max.depth", "--bind")
            found, status, answers = self.report()
            self.assertEqual([(each["path"][len(self.top):], each["entry"]) for each in found["premises"]], [
                ("/alice", "cgroup.max.depth"), ("/alice", "cgroup.max.descendants"), ("/bob", "cgroup.max.depth")])
            self.assertEqual((status, answers), (2, {"/alice": "contained", "/bob": "contained"}))
            self.assertEqual((found["entries"], found["opened"]), ([], []))
            self.assertEqual([each["marks"] for each in found["subtrees"]], [["mounted over"]] * 2)
            self.assertEqual([each for each in found["snapshot"] if each["kind"] == "no-file"], [])
        for words in (("tmpfs", "-t", "tmpfs"), (f"{MOUNT}{self.top}/beside", "--bind")):
            with self.subTest(words):
                self.over(words[0], "/alice/in", *words[1:])
                found, status, answers = self.report()
                self.assertEqual(([each["subtrees"] for each in found["faults"]], status), ([[f"{self.top}/alice"]], 3))
                self.assertNotIn("/alice", answers)

    def test_a_further_mount_is_named_with_who_reaches_it(self):
        os.chmod(f"{MOUNT}{self.top}", 0o700)
        with tempfile.TemporaryDirectory() as folder:
            os.chown(folder, 1001, 1001)
            place = os.path.join(folder, "in")
            os.mkdir(place)
            subprocess.run(["mount", "--bind", f"{MOUNT}{self.top}/bob", place], check=True)
            try:
                found = self.report()[0]
            finally:
                subprocess.run(["umount", place], check=True)
        told = {(each["kind"], each["place"]): each["text"] for each in found["unseen"] if each["kind"] in ("mount", "search")}
        self.assertRegex(told["mount", f"{self.top}/bob"], f"^mounted at {place} too, which is reached by (uid 1001|.*\\(1001\\))$")
        searched = [text for (kind, who), text in told.items() if kind == "search" and "1001" in who]
        self.assertEqual(searched, [f"they can't search {self.top}, and what is inside is mounted at {place} too: the answer holds"])

    def test_what_comes_and_goes_beside(self):
        self.loop("/beside")
        for _ in range(3):
            found, status, answers = self.report()
            self.assertEqual((status, answers, found["faults"]), (GOOD, {"/alice": "contained", "/bob": "contained"}, []))

    def test_what_comes_and_goes_in_one_of_two(self):
        self.loop("/alice")
        for _ in range(3):
            found, status, answers = self.report()
            self.assertEqual(answers["/bob"], "contained")
            spoiled = [path for each in found["faults"] for path in each["subtrees"]]
            self.assertEqual((status, spoiled), (3, [f"{self.top}/alice"]) if "/alice" not in answers else (GOOD, []))

    def test_an_escape_and_a_text_of_it(self):
        os.chown(f"{MOUNT}{self.top}/bob/cgroup.max.depth", 1001, 1001)
        _, status, answers = self.report()
        self.assertEqual((status, answers), (1, {"/alice": "contained", "/bob": "escapes"}))
        text = subprocess.run([sys.executable, COMMAND, "snapshot", "--mount", MOUNT, "--only", self.top, "--with-host"],
                              capture_output=True, text=True).stdout
        there = subprocess.run([sys.executable, COMMAND, "check", "--tree", "-", "--zirofen", REAL_PROGRAM or PROGRAM],
                               input=text, capture_output=True, text=True,
                               env={**os.environ, "MADE_UP": "all,advise", "CALLS": os.devnull})
        self.assertEqual((there.returncode, there.stderr), (1, ""))
        self.assertRegex(there.stdout, fr"escapes {'' if GOOD == 0 else '.v1. '}\[limited\] *{self.top}/bob")


if __name__ == "__main__":
    unittest.main()
