"""Tests of what one user does to keep others from their answers, or to have the helpers lie, hang or end badly."""
import ast
import glob
import grp
import json
import os
import pwd
import re
import shutil
import subprocess
import sys
import unittest
from unittest import mock

import made_up_program
from check_test import BY_GROUP, HostTest, owned
from made_up import COMMAND, TOP, small_texts
from zirofen_host import fault
from zirofen_host.collect import bounded, processes
from zirofen_host.ask import questions
from shown import lines_of, made
from zirofen_host.judge import as_json
from zirofen_host.collect.accounts import accounts_here
from zirofen_host.collect.model import Entry
from zirofen_host.collect.mount import Mounts
from zirofen_host.ask.texts import Programs

OLDEST = (3, 9)
# modules that it has
MODULES = set("abc argparse atexit base64 bisect collections concurrent contextlib ctypes dataclasses datetime difflib enum errno "
              "functools gc grp hashlib html importlib itertools json operator os pickle pwd re resource select shlex shutil signal "
              "socket stat string struct subprocess sys tempfile textwrap threading time types typing unicodedata urllib xml".split())
# what reads a text takes one of these
READERS = {"tomllib", "tomli"}
# what came later, by its name
LATER = {"pairwise", "batched", "bit_count", "file_digest", "StrEnum", "Self", "chdir", "Match", "TryStar", "TypeAlias"}
LATER_OPTIONS = {("zip", "strict"), ("bisect_left", "key"), ("bisect_right", "key"), ("dataclass", "slots"),
                 ("dataclass", "kw_only"), ("map", "strict")}


def runs(python):
    """A Python of that version, or nothing where there is none."""
    found = shutil.which(python)
    return found if found and subprocess.run([found, "-c", ""], capture_output=True).returncode == 0 else ""


OLDEST_HERE = runs("python3.9")


class NamesTest(HostTest):
    def setUp(self):
        super().setUp()
        self.host.cgroup("/alice", owners=owned(1000))
        self.host.cgroup("/bob", owners=owned(1001))

    def others(self, found):
        self.assertEqual([row[2:] for row in self.rows(found)][-1:], [("contained", "/bob")])

    def harmless(self, found):
        text = json.dumps(found) + "\n".join(map(fault.plain, lines_of(found)))
        self.assertTrue(all(each == "\n" or each.isascii() and each.isprintable() for each in text))

    def test_every_odd_byte(self):
        odd = [bytes([byte]) for byte in range(1, 256) if byte not in b"/." and not 0x21 <= byte <= 0x7E]
        for name in odd:
            os.makedirs(os.path.join(os.fsencode(self.host.mount), b"alice", b"n" + name + b"n"))
        found = self.report()
        self.others(found)
        self.harmless(found)
        self.assertEqual((found["status"], len([each for each in found["snapshot"] if each["kind"] == "name"])), (0, len(odd)))

    def test_a_child_below_the_longest_path(self):
        folder = os.open(f"{self.host.mount}/alice", os.O_RDONLY)
        self.addCleanup(os.close, folder)
        length = len(self.host.mount) + len("/alice")
        names = []
        while length < 4000:
            names.append("n" * min(250, 4000 - length - 1) if 4000 - length > 3 else "n")
            length += len(names[-1]) + 1
        for name in (*names, "c" * 250, "d" * 250):
            os.mkdir(name, dir_fd=folder)
            below = os.open(name, os.O_RDONLY, dir_fd=folder)
            os.dup2(below, folder)
            os.close(below)
            for file in ("cgroup.procs", "cgroup.subtree_control", "cgroup.controllers"):
                os.close(os.open(file, os.O_WRONLY | os.O_CREAT, 0o644, dir_fd=folder))
        with mock.patch.object(self.host, "owners", PlainOwners(self.host.owners)):
            found = self.report()
        self.others(found)
        self.assertEqual(found["status"], 0)
        (note,) = [each for each in found["snapshot"] if each["kind"] == "name"]
        self.assertEqual((note["place"][-251:], note["text"]), (
            "/" + "c" * 250, "left out, and 1 cgroups inside: no name of the format, or too long a path"))

    def test_what_is_left_out_is_counted_only_so_far(self):
        for number in range(9):
            os.makedirs(f"{self.host.mount}/alice/o d/{number}")
        with mock.patch.object(bounded, "CGROUPS", bounded.Budget("cgroups", 5)):
            found = self.report()
        self.others(found)
        self.assertEqual([(each["fault"], each["subtrees"]) for each in found["faults"]], [("uid 1000 has over 5 cgroups", ["/alice"])])

    def test_names_of_accounts_and_processes(self):
        self.host.accounts(passwd="al\x1b[2Jice:x:1000:1000::/:\nbob:x:1001:1001::/:\n", group="te\x07am:x:50:bob\n")
        self.host.cgroup("/alice", owners={**owned(1000), "memory.max": (0, 50)}, modes={"memory.max": 0o664}, pids=(7,))
        self.host.process(7, uid=1000, gid=1000, capabilities=2, name="x\x1b[31m")
        found = self.report(json=True)
        self.harmless(found)
        self.assertIn("'al\\x1b[2Jice'(1000)", "\n".join(lines_of(found)))
        self.assertEqual(found["processes"][0]["name"], "'x\\x1b[31m'")

    def test_a_name_of_no_utf_8_in_the_hosts_own_look_up(self):
        """The look-up keeps such a byte, and JSON with it is read nowhere else."""
        self.host.cgroup("/alice", owners={**owned(1000), "memory.max": (0, 50)}, modes={"memory.max": 0o664}, pids=(7,))
        self.host.process(7, uid=1000, gid=1000)
        accounts = [pwd.struct_passwd(("al\udcffice", "x", 1000, 1000, "", "/", ""))]
        groups = [grp.struct_group(("te\udcfeam", "x", 50, ["al\udcffice"]))]
        with mock.patch.object(pwd, "getpwall", lambda: accounts), mock.patch.object(grp, "getgrall", lambda: groups):
            found = self.report(json=True, accounts=None)
        written = "".join(as_json.parts_of(made(found)))
        json.dumps(json.loads(written), ensure_ascii=False).encode("utf-8")
        self.harmless(found)
        self.assertEqual({each["uid"]: each["name"] for each in found["users"]}, {1000: "'al\\udcffice'", 1001: None})
        self.assertIn({"gid": 50, "name": "'te\\udcfeam'"}, found["groups"])

    def test_a_process_cant_name_itself_another_user(self):
        self.host.process(7, uid=1000, gid=1000, name="x\x0bUid:\t0\t0\x0cGid:")
        (process,) = processes.read_processes(self.host.proc).values()
        self.assertEqual((process.uid, process.user.uid), (1000, 1000))

    def test_a_mount_cant_name_itself_another(self):
        line = "31 22 0:29 / /sys/fs/cgroup rw - cgroup2 cgroup2 rw"
        for odd in ("\x0b", "\x0c", "\x1c", "\x85", "\r"):
            mounts = Mounts(f"{line}\n40 22 0:30 / /home/a{odd}31 22 0:29 / /else rw - cgroup2 x rw,nsdelegate\nx y\n\n")
            self.assertEqual((mounts.options("/sys/fs/cgroup"), "/else" in mounts.second), (["rw", "rw"], False))


class PlainOwners(dict):
    """Owners by inode, root's where none was set."""

    def __missing__(self, _):
        return Entry(0, 0, 0o644)


class GarbageTest(HostTest):
    def test_garbage_in_a_file_of_his(self):
        self.host.cgroup("/bob", owners=owned(1001))
        for file, text in (("cgroup.procs", "7\nx\n"), ("cgroup.procs", "9" * 5000), ("memory.max", "\x00\x1b[31m"),
                           ("memory.max", "1" * 5000), ("cgroup.type", "\x1b"), ("cgroup.subtree_control", "\x1b +x")):
            with self.subTest(file, text=text[:5]):
                self.host.cgroup("/alice", owners=owned(1000), values={file: text})
                found = self.report()
                self.assertEqual([row[2:] for row in self.rows(found)][-1:], [("contained", "/bob")])
                self.assertEqual([each["subtrees"] for each in found["faults"]], [["/alice"]] if file == "cgroup.procs" else [])
                printed = "\n".join(map(fault.plain, lines_of(found)))
                self.assertNotIn("\x1b", printed)

    def test_garbage_in_the_accounts(self):
        self.host.accounts(passwd="a:x:\u00b2:1::/:\nb:x:4294967296:1::/:\nc:x:" + "9" * 5000 + ":1::/:\nd\n::::\nbob:x:1001:1001::/:\n",
                           group="g:x:\u00b2:bob\nh:x:-1:bob\nt:x:50:bob,,none\n", subuid="bob:x:y\nbob:1:99999999999\nbob:\n")
        accounts = accounts_here(self.host.etc, ())
        self.assertEqual(([each.uid for each in accounts.lists.accounts], [each.gid for each in accounts.lists.groups],
                          accounts.lists.subordinate_uids), ([1001], [50], ()))

    def test_garbage_in_proc(self):
        self.host.cgroup("/bob", owners=owned(1001))
        self.host.process(7)
        for file, text in (("status", "Uid:\tx\n"), ("status", ""), ("stat", "7 (a) S\n")):
            self.host.process(8)
            with open(f"{self.host.proc}/8/{file}", "w", encoding="ascii") as out:
                out.write(text)
            found = self.report()
            self.assertEqual([row[2:] for row in self.rows(found)][-1:], [("contained", "/bob")])
            self.assertIn("8 left out: what /proc has of the process isn't known", [each["text"] for each in found["snapshot"]])

    def test_a_descriptor_of_a_file_system_of_his_own_isnt_asked(self):
        self.host.cgroup("/svc", owners=owned(1000))
        self.host.process(7, uid=1000)
        self.host.opens(7, 3, "/cgroup.subtree_control", os.O_WRONLY)
        with open(f"{self.host.proc}/7/mountinfo", "w", encoding="ascii") as out:
            out.write("3 1 0:30 / /home/alice/own rw - fuse own rw\n4 1 0:29 / /sys/fs/cgroup rw - cgroup2 cgroup2 rw\n")
        self.assertEqual(self.held(self.report()), [])
        with open(f"{self.host.proc}/7/mountinfo", "w", encoding="ascii") as out:
            out.write("3 1 0:29 / /sys/fs/cgroup rw - cgroup2 cgroup2 rw\n")
        self.assertEqual(len(self.held(self.report())), 1)

    def test_more_descriptors_than_are_looked_at(self):
        self.host.cgroup("/svc", owners=owned(1000))
        self.host.process(7, uid=1000)
        for number in range(5):
            self.host.opens(7, number, "/cgroup.subtree_control", os.O_WRONLY)
        with mock.patch.object(bounded, "DESCRIPTORS", bounded.Budget("open files with a path", 3)):
            found = self.report()
        told, = self.told(found, "descriptor")
        self.assertEqual(len(self.held(found)), 1)
        self.assertIn("not all were looked at", told)

    def test_a_text_that_is_refused_is_a_fault_of_its_subtrees(self):
        self.host.cgroup("/a", owners=owned(1000))
        self.host.cgroup("/b", owners=owned(1001))
        played = made_up_program.main

        def refusing(words):
            if words[0] == "audit" and "/b" in words:
                return made_up_program.fault("fault: tree bad-path cgroup 2")
            return played(words)
        with mock.patch.object(made_up_program, "main", refusing):
            with self.assertRaisesRegex(fault.Fault, "^fault: tree bad-path cgroup 2$"):
                self.report()
            with small_texts(rows=2):
                found = self.report()
        self.assertEqual([row[2:] for row in self.rows(found)], [("contained", "/a")])
        self.assertEqual([(each["who"], each["fault"], each["subtrees"]) for each in found["faults"]],
                         [("everybody", "fault: tree bad-path cgroup 2", ["/b"])])
        self.assertEqual(found["status"], 3)


class GrowthTest(HostTest):
    """What is asked, told and held grows with what was found."""

    def chain(self, count, owner_of):
        self.host.cgroup("/alice", owners=owned(1000))
        self.host.cgroup("/bob", owners=owned(1001))
        path = "/alice"
        for number in range(count):
            path += "/d"
            self.host.cgroup(path, owners=owner_of(number))
        return len(json.dumps(self.report(json=True)["above"]))

    def test_nested_subordinate_ids(self):
        def owner_of(number):
            return owned(100000 + number)
        asked = []
        ask = Programs.ask

        def asking(of, plan, *more):
            asked.append(sum(len(users) * len(paths) for users, paths in plan))
            return ask(of, plan, *more)
        with mock.patch.object(questions, "MANY", 20), mock.patch.object(questions, "BLOCK", 4), \
                mock.patch.object(Programs, "ask", asking):
            few = self.chain(20, owner_of)
            self.setUp()
            many = self.chain(40, owner_of)
            found = self.report()
        # so many bytes of paths are in it that they grow by themselves
        self.assertLess(many, 4 * few)
        self.assertLess(asked[2], 2.5 * asked[0])
        self.assertEqual((found["status"], found["entries"], len(found["subtrees"])), (0, [], 42))
        self.assertTrue(all(each["answers"][0]["lines"] == ["contained"] for each in found["subtrees"]))
        self.assertEqual([(each["who"], each["handed"], each["subtrees"]) for each in found["above"]][0],
                         ("alice(1000)", "/alice", ["/alice/d"]))

    def test_every_holder_is_asked_of_what_he_holds(self):
        for many in (10, 100000):
            with mock.patch.object(questions, "MANY", many), mock.patch.object(questions, "BLOCK", 3):
                self.setUp()
                self.chain(12, lambda number: owned(100000 + number, 50 if number % 2 else 0))
                of = questions.questions_of(self.host.snapshot(), self.host.read_accounts())
                plan = questions.plan_of(of)
                pairs = {(user, path) for users, paths in plan.questions for user in users for path in paths}
                for path in of.subtrees:
                    for user in plan.asked_as.values():
                        if not of.is_above(user.uid, path):
                            self.assertIn((user, path), pairs)
                    self.assertTrue(any(of.is_holder(user, path) and (user, path) in pairs for user in plan.asked_as.values()))

    def test_many_cgroups_that_a_group_writes(self):
        self.host.accounts(group="team:x:50:alice,bob,carol\n")
        self.host.cgroup("/alice", owners=owned(1000))
        for number in range(20):
            self.host.cgroup(f"/alice/c{number:02}", owners=owned(1000, 50), modes=BY_GROUP)
        with mock.patch.object(questions, "MANY", 10), mock.patch.object(questions, "BLOCK", 4):
            found = self.report()
        self.assertEqual([(row[0], row[2]) for row in self.rows(found)],
                         [("1000", "contained")] + [("1001,1002", "contained")] * 20)
        self.assertEqual([(each["who"], each["handed"], len(each["subtrees"])) for each in found["above"]],
                         [("alice(1000)", "/alice", 20)])
        self.assertEqual(found["status"], 0)

    def test_an_entry_tells_of_the_outermost(self):
        self.host.cgroup("/up", owners={"cgroup.procs": (0, 50)}, modes={"cgroup.procs": 0o664})
        self.host.cgroup("/up/b", owners=owned(1001))
        self.host.cgroup("/up/b/in", owners=owned(1000))
        self.host.cgroup("/up/c", owners=owned(1001))
        self.assertEqual(self.let_in(self.report()), [("/up", "cgroup.procs", [("group", 50)], ["/up/b", "/up/c"])])

    def test_a_long_word_widens_no_other_row(self):
        self.host.cgroup("/" + "n" * 200, owners=owned(1000))
        self.host.cgroup("/" + "n" * 200 + "/in", owners=owned(1000), modes={"cgroup.max.depth": 0o646})
        self.host.cgroup("/bob", owners=owned(1001))
        (line,) = [line for line in self.lines() if line.endswith("/bob")]
        self.assertLess(len(line), 100)


@unittest.skipUnless(os.geteuid() == 0, "only root gives files away")
class OutputTest(HostTest):
    """The scripts' own output, as it may be."""

    def setUp(self):
        super().setUp()
        self.host.cgroup("/bad", owners={**owned(1000), "memory.max": 1000})

    def script(self, name, *words, shell=""):
        words = {"check": ("--zirofen", self.program, "--accounts", self.host.etc),
                 "ask": ("--zirofen", self.program, "--accounts", self.host.etc, "alice", "/bad"), "snapshot": ()}[name] + words
        command = [sys.executable, COMMAND, name, "--plain-folder", "--mount", self.host.mount, "--proc", self.host.proc]
        return subprocess.run(["bash", "-c", f'"$@" {shell}', "bash", *command, *words], capture_output=True, text=True)

    def test_an_output_that_takes_nothing(self):
        for name in ("check", "ask", "snapshot"):
            for shell, told in ((">/dev/full", "can't write the output: No space left on device"),
                                (">&-", "standard output is closed")):
                with self.subTest(name, shell=shell):
                    ended = self.script(name, shell=shell)
                    self.assertEqual((ended.returncode, ended.stdout), (3, ""))
                    self.assertIn(f"zirofen-host {name}: {told}\n", ended.stderr)
                    self.assertNotIn("Traceback", ended.stderr)
            self.assertEqual(self.script(name, shell="2>&- | true; exit ${PIPESTATUS[0]}").stderr, "")
            ended = self.script(name, shell="2>/dev/full >/dev/full")
            self.assertEqual((ended.returncode, ended.stderr), (3, ""))

    def test_what_cant_be_kept(self):
        """The answers are there all the same."""
        for keep in ("/dev/full", f"{self.host.folder}/none/file"):
            plain, ended = self.script("check"), self.script("check", "--keep", keep)
            line = f"failed: keep: can't write the tree text {keep}: "
            self.assertEqual((ended.returncode, ended.stderr), (3, ""))
            self.assertEqual([each for each in ended.stdout.splitlines() if not each.startswith(line)][:-1], plain.stdout.splitlines()[:-1])
            self.assertIn(f"\n{line}", ended.stdout)
            plain, ended = self.script("ask"), self.script("ask", "--keep", keep)
            self.assertEqual((ended.returncode, ended.stdout, ended.stderr.count("can't write the tree text")), (3, plain.stdout, 1))

    def test_words_from_elsewhere(self):
        for words in (("--only", "/a\x1b[31m"), ("--\x1b[31m",), ("--accounts", "/\x1b[31m")):
            ended = self.script("check", *words)
            self.assertEqual((ended.returncode, ended.stdout, "\x1b" in ended.stderr), (3, "", False))
            self.assertEqual(ended.stderr.count("\n"), 1, ended.stderr)


class OldestPythonTest(unittest.TestCase):
    """The helpers run on the oldest Python that hosts have, with no package."""

    def sources(self):
        for path in (COMMAND, *sorted(glob.glob(f"{TOP}/host/zirofen_host/**/*.py", recursive=True))):
            with open(path, encoding="utf-8") as source:
                yield path, source.read()

    def test_syntax(self):
        self.assertGreater(len(list(self.sources())), 20)
        for path, text in self.sources():
            with self.subTest(path):
                tree = ast.parse(text, path, feature_version=OLDEST)
                self.assertFalse(re.search(r"^ *with \($", text, re.MULTILINE))
                for node in ast.walk(tree):
                    names = {type(node).__name__, getattr(node, "attr", ""), getattr(node, "id", "")}
                    self.assertFalse(names & LATER)
                    if isinstance(node, ast.Call):
                        options = {(getattr(node.func, "id", ""), keyword.arg) for keyword in node.keywords}
                        self.assertFalse(options & LATER_OPTIONS)

    def test_imports(self):
        for path, text in self.sources():
            for node in ast.walk(ast.parse(text)):
                names = [alias.name for alias in node.names] if isinstance(node, ast.Import) else \
                    [node.module] if isinstance(node, ast.ImportFrom) else []
                for name in names:
                    with self.subTest(path, name=name):
                        self.assertIn(name.split(".")[0], MODULES | READERS | {"zirofen_host"})

    def test_an_older_one_is_told_so(self):
        ended = subprocess.run([sys.executable, "-c", "import sys; sys.version_info = (3, 8); sys.path.insert(0, sys.argv[1]);"
                                "import zirofen_host", f"{TOP}/host"], capture_output=True, text=True)
        self.assertEqual((ended.returncode, ended.stderr), (3, "the helpers in host/ take Python 3.9 or newer\n"))

    @unittest.skipUnless(OLDEST_HERE, "there is no Python 3.9 here")
    def test_it_runs_there(self):
        for name in ("check", "ask", "commands", "delegations", "snapshot"):
            ended = subprocess.run([OLDEST_HERE, COMMAND, name, "--help"], capture_output=True, text=True)
            self.assertEqual((ended.returncode, ended.stderr), (0, ""))


if __name__ == "__main__":
    unittest.main()
