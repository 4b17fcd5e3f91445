"""Two ways out of a contained subtree, on a real mount: a process whose threads run elsewhere than its first one, which has ended, and
entries that a process holds open, by each of the ways that /proc tells."""
import json
import os
import subprocess
import sys
import unittest

import real_mount_test
from check_test import PROGRAM, REAL_PROGRAM
from made_up import COMMAND
from real_mount_test import MOUNT
from shown import lines_of, made
from zirofen_host.judge import acceptances, baseline, saved
from zirofen_host.show import page
from zirofen_host.show.tree_view import Drawing, draw

HOLDER = os.path.join(os.path.dirname(os.path.abspath(__file__)), "holder.py")
ALICE = 1000


class HolderTest(real_mount_test.OnMountTest):
    """Alice's subtree is /alice with a and c in it, and what root keeps from her is /beside with jail in it."""

    def setUp(self):
        super().setUp()
        for path in ("/alice/a", "/alice/c", "/beside/jail"):
            self.make(path)
        for name in ("a", "c"):
            os.chown(self.place(f"/alice/{name}/cgroup.procs"), ALICE, ALICE)

    def place(self, path):
        return f"{MOUNT}{self.top}{path}"

    def start(self, way, *files, at="/alice/a", uid=ALICE):
        """A process of somebody's, as holder.py has it."""
        running = subprocess.Popen([sys.executable, HOLDER, way, str(uid), self.place(at), *map(self.place, files)],
                                   stdin=subprocess.PIPE, stdout=subprocess.PIPE)
        self.addCleanup(self.end, running)
        told = running.stdout.readline()
        if way == "ring" and not told:
            self.skipTest("this machine has no io_uring")
        self.assertEqual(told, b"ready\n")
        return running

    def end(self, running):
        running.kill()
        running.communicate()

    def put(self, path, running):
        with open(self.place(f"{path}/cgroup.procs"), "w", encoding="ascii") as out:
            out.write(f"{running.pid}\n")

    def asked_to_go(self, running, path):
        """What a process says that writes itself to a cgroup."""
        running.stdin.write(f"{self.place(path)}\n".encode())
        running.stdin.flush()
        return running.stdout.readline().decode().strip()

    def listed(self, path):
        with open(self.place(f"{path}/cgroup.procs"), encoding="ascii") as text:
            return text.read().split()

    def held(self, *words):
        """The status, and what is held: the entry, how and by whom."""
        found, status, _ = self.report(*words)
        return status, [(each["path"][len(self.top):], each["file"], each["how"], each["whom"][0]["id"], each["processes"])
                        for each in found.get("held_entries", ())]


class FirstThreadTest(HolderTest):
    def test_a_process_whose_first_thread_has_ended_leaves_a_contained_subtree(self):
        running = self.start("headless")
        self.put("/beside/jail", running)
        # the kernel moved the living thread alone
        self.assertEqual((self.listed("/alice/a"), self.listed("/beside/jail")), ([str(running.pid)], []))
        found, status, answers = self.report()
        runs, = found["runs_elsewhere"]
        self.assertEqual((runs["path"], runs["elsewhere"], runs["processes"], runs["whom"][0]["id"], runs["is_across"]),
                         (f"{self.top}/alice/a", [f"{self.top}/beside/jail"], [running.pid], ALICE, True))
        self.assertEqual((status, answers["/alice"], runs["changes"]), (1, "contained", [f"kill {running.pid}"]))
        alice, bob = found["subtrees"]
        self.assertEqual((alice["marks"], "marks" in bob), (["runs elsewhere"], False))
        # and it goes back, which it can't as long as its first thread lives
        self.assertEqual(self.asked_to_go(running, "/alice/c"), "done")
        living = self.start("inherited")
        self.put("/beside/jail", living)
        self.assertEqual((self.listed("/beside/jail"), self.asked_to_go(living, "/alice/c")), ([str(living.pid)], "Permission denied"))

    def test_in_one_subtree_it_is_unsettled(self):
        running = self.start("headless")
        self.assertEqual(self.asked_to_go(running, "/alice/c"), "done")
        found, status, _ = self.report()
        runs, = found["runs_elsewhere"]
        self.assertEqual((runs["is_across"], status), (False, 2))
        self.assertEqual(runs["why"], ["its first thread has ended", f"no process is listed in {self.top}/alice/c"])

    def test_what_root_has_there_is_unsettled(self):
        running = self.start("headless", uid=0)
        self.put("/beside/jail", running)
        found, status, _ = self.report()
        self.assertEqual(([each["is_across"] for each in found["runs_elsewhere"]], status), ([False], 2))

    def test_one_whose_threads_are_together_is_none(self):
        self.start("headless")
        found, status, _ = self.report()
        self.assertNotIn("runs_elsewhere", found)
        self.assertEqual(status, real_mount_test.GOOD)


class HeldTest(HolderTest):
    def test_each_way(self):
        """Inherited from root, in a table that one thread has for itself, registered with an io_uring, and by a process whose first
        thread has ended; what she could open now is none, and root's on the host isn't looked at."""
        files = ("cgroup.max.depth", "cgroup.procs", "cgroup.subtree_control", "cgroup.threads")
        for way, how in (("inherited", "open for writing"), ("table", "open for writing"), ("ring", "registered with an io_uring"),
                         ("headless", "open for writing")):
            with self.subTest(way):
                running = self.start(way, *(f"/beside/{file}" for file in files), "/alice/c/cgroup.procs")
                self.assertEqual(self.held(), (1, [("/beside", file, [how], ALICE, [running.pid]) for file in files]))
                self.end(running)
        self.start("inherited", "/beside/cgroup.procs", uid=0)
        self.assertEqual(self.held(), (real_mount_test.GOOD, []))

    def test_what_was_theirs_when_they_opened_it(self):
        os.chown(self.place("/beside/cgroup.max.depth"), ALICE, ALICE)
        running = self.start("inherited", "/beside/cgroup.max.depth")
        self.assertEqual(self.held()[1], [])
        os.chown(self.place("/beside/cgroup.max.depth"), 0, 0)
        self.assertEqual(self.held(), (1, [("/beside", "cgroup.max.depth", ["open for writing"], ALICE, [running.pid])]))

    def test_an_inherited_one_moves_anywhere(self):
        """What the finding is of: the kernel goes by who opened it."""
        inner = "exec setpriv --reuid 1000 --clear-groups sh -c 'echo $$ >&3 && echo moved' 3>\"$0\""
        told = subprocess.run(["sh", "-c", inner, self.place("/beside/jail/cgroup.procs")], stdout=subprocess.PIPE, text=True).stdout
        self.assertEqual(told, "moved\n")

    def test_what_it_changes_is_marked(self):
        self.start("inherited", "/bob/cgroup.procs")
        found = self.report()[0]
        marks = {each["path"][len(self.top):]: [answer.get("marks") for answer in each["answers"]] for each in found["subtrees"]}
        self.assertEqual(marks, {"/alice": [["held entry"]], "/bob": [None]})


class FormsTest(HolderTest):
    """Both findings in each form."""

    def setUp(self):
        super().setUp()
        self.running = self.start("headless", "/beside/cgroup.procs")
        self.put("/beside/jail", self.running)
        self.written = {kind: f"/tmp/zirofen-{os.getpid()}.{kind}" for kind in ("sarif", "junit", "metrics")}
        for file in self.written.values():
            self.addCleanup(lambda file=file: os.path.exists(file) and os.remove(file))
        self.found = self.report(*(word for kind, file in self.written.items() for word in ("--format", f"{kind}={file}")))[0]
        self.program = self.found["held_entries"][0]["program"]

    def text(self, kind):
        with open(self.written[kind], encoding="utf-8") as text:
            return text.read()

    def test_lines(self):
        lines = list(lines_of(self.found))
        row, = (line for line in lines if line.endswith(f"{self.top}/alice"))
        self.assertRegex(row, r"contained \[runs elsewhere\] \[held entry\]")
        self.assertTrue(any(line.startswith(f"runs-elsewhere {self.top}/alice/a: threads of {self.program} of ") for line in lines))
        self.assertTrue(any(line.startswith(f"held-entry {self.top}/beside cgroup.procs (0:0 644): open for writing in {self.program}")
                            for line in lines))
        self.assertEqual(lines.count(f"    change: kill {self.running.pid}"), 2)

    def test_files(self):
        rules = [each["ruleId"] for each in json.loads(self.text("sarif"))["runs"][0]["results"]]
        self.assertEqual([rule for rule in rules if rule in ("runs-elsewhere", "held-entry")], ["runs-elsewhere", "held-entry"])
        for word in ("runs-elsewhere", "held-entry"):
            self.assertIn(f'<failure type="{word}"', self.text("junit"))
            self.assertIn(f'zirofen_findings{{kind="{word}",gravity="escapes"}} 1', self.text("metrics"))
        self.assertIn('zirofen_subtrees{answer="opened"} 1', self.text("metrics"))

    def test_page_and_tree(self):
        report = saved.check(self.found, "report")
        html, tree = page.page([report]), "\n".join(draw(report, Drawing(is_ascii=True)))
        self.assertIn("elsewhere than in", html)
        self.assertIn("held open", html)
        self.assertIn("cgroup.procs held open by", tree)
        self.assertIn("elsewhere: ", tree)
        self.assertNotIn("alice  + contained", tree)

    def test_acceptances_and_baselines(self):
        given = [self.given("runs-elsewhere", "/alice/a", self.program),
                 self.given("held-entry", "/beside", f"cgroup.procs {self.program}")]
        for whom, status in (("uid 1000", real_mount_test.GOOD), ("uid 1001", 1)):
            of_whom = [one for each in given for one in each(whom)]
            report = acceptances.applied(made(self.found), of_whom, acceptances.datetime.date(2026, 1, 1))
            self.assertEqual(report.status, status)
        without = {key: value for key, value in self.found.items() if key not in ("runs_elsewhere", "held_entries")}
        compared = baseline.compared(made(self.found), made({**without, "status": 0}), "base")
        self.assertEqual(sorted(each.what for each in compared.new), ["held-entry", "runs-elsewhere"])
        self.assertEqual(baseline.compared(made(self.found), made({**self.found, "accepted": True}), "base").new, ())

    def given(self, what, path, entry):
        return lambda whom: acceptances.given_in({"what": what, "path": f"{self.top}{path}", "entry": entry, "whom": whom,
                                                  "reason": "known", "until": "2027-01-01"}, "a test")

    def test_a_text_of_it(self):
        text = f"/tmp/zirofen-{os.getpid()}.toml"
        self.addCleanup(lambda: os.path.exists(text) and os.remove(text))
        words = [sys.executable, COMMAND, "snapshot", "--with-host", "--mount", MOUNT, "--only", self.top]
        with open(text, "w", encoding="utf-8") as out:
            subprocess.run(words, stdout=out, stderr=subprocess.DEVNULL, check=True)
        ended = subprocess.run([sys.executable, COMMAND, "check", "--tree", text, "--json", "--zirofen", REAL_PROGRAM or PROGRAM],
                               capture_output=True, text=True, env={**os.environ, "MADE_UP": "all,advise", "CALLS": os.devnull})
        found = json.loads(ended.stdout)
        self.assertEqual([found[key] for key in ("runs_elsewhere", "held_entries")],
                         [self.found[key] for key in ("runs_elsewhere", "held_entries")])


if __name__ == "__main__":
    unittest.main()
