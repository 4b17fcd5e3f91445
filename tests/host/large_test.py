"""Tests of hosts that are too large for one text, and of hosts that change while they are walked over."""
import errno
import io
import os
import shutil
import subprocess
import tempfile
import time
import unittest
from unittest import mock

import made_up_program
from check_test import BY_GROUP, MARK, REAL_PROGRAM, HostTest, InTurn, owned
from made_up import MEMORY, path, small_texts
from zirofen_host import fault, progress
from zirofen_host.files import CONTROLLERS, TEXT_FILES
from zirofen_host.profile import TEXT_FORMATS, text_of
from zirofen_host.collect import bounded, walk
from zirofen_host.ask import program as asking
from zirofen_host.ask import texts
from zirofen_host.ask.model import Question
from zirofen_host.ask.program import Program
from zirofen_host.ask.reasons import TooLong
from zirofen_host.ask.questions import subtrees_by
from zirofen_host.judge import check
from zirofen_host.collect.tree import Row, Tree, read_tree
from zirofen_host.collect.model import Entry, User

ALL_THE_TIME = "what matters for it came, went or changed through 8 walks"


class LargeTest(HostTest):
    folder = MEMORY

    def texts(self):
        """The paths, the processes and the subtrees of each text that the program was asked in."""
        found = []
        written = texts.Text.written

        def kept(text, head):
            tree = read_tree(written(text, head))
            found.append((sorted(map(text_of, tree.rows)), [pid for pid, _, _ in sorted(tree.processes)],
                          list(map(text_of, text.subtrees))))
            return written(text, head)
        patched = mock.patch.object(texts.Text, "written", kept)
        patched.start()
        self.addCleanup(patched.stop)
        return found

    def small(self, rows, processes=1000):
        patched = small_texts(rows, processes)
        patched.start()
        self.addCleanup(patched.stop)

    def test_a_large_host(self):
        pids = iter(range(10, 30000))

        def some(count, uid):
            made = [next(pids) for _ in range(count)]
            for pid in made:
                self.host.process(pid, uid=uid, gid=uid)
            return made
        self.host.accounts(passwd="".join(f"u{uid}:x:{uid}:{uid}::/:\n" for uid in range(1000, 1020)))
        self.host.cgroup("/large", owners=owned(1000))
        for number in range(4096):
            self.host.cgroup(f"/large/c{number}", pids=some(1, 1000), owners=owned(1000))
        self.host.cgroup("/large/c7/in", owners=owned(1001))
        for uid in range(1002, 1011):
            self.host.cgroup(f"/s{uid}", owners=owned(uid), pids=some(1000, uid))
            for number in range(100):
                self.host.cgroup(f"/s{uid}/c{number}", owners=owned(uid))
        self.host.cgroup("/many", owners=owned(1011), pids=some(5000, 1011))
        self.host.cgroup("/bad", owners={**owned(1012), "memory.max": 1012}, pids=some(1900, 1012))
        answers = [("escapes", "/bad"), ("contained", "/large/c7/in"), ("contained", "/many"),
                   *(("contained", f"/s{uid}") for uid in range(1002, 1011))]
        made = self.texts()
        found = self.report(json=True, tree_format=2)
        self.assertEqual((len(found["cgroups"]), len(found["processes"])), (4097 + 2 + 909 + 2, 4096 + 9000 + 5000 + 1900))
        self.assertEqual(found["faults"], [{"who": "everybody", "uid": None, "gids": [], "subtrees": ["/large"],
                                            "fault": "4099 cgroups, and a tree text has 4096 at most", "made_by": "u1000(1000)"}])
        self.assertEqual([row[2:] for row in self.rows(found)], answers)
        self.assertEqual(len(made), 4)
        made.clear()
        # it is one text of format 4
        found = self.report()
        self.assertEqual(([(len(rows), len(processes)) for rows, processes, _ in made], found["faults"]), ([(5010, 19996)], []))
        self.assertEqual([row[2:] for row in self.rows(found)], [answers[0], ("contained", "/large"), *answers[1:]])

    def test_what_doesnt_fit_goes_in_several_texts(self):
        made = self.texts()
        self.small(5)
        self.host.cgroup("/", pids=(1, 2))
        for name, uid in (("a", 1000), ("b", 1001), ("c", 1002)):
            self.host.cgroup(f"/{name}", owners=owned(uid), pids=(uid,))
            self.host.cgroup(f"/{name}/in", owners=owned(uid))
            self.host.process(uid, uid=uid, gid=uid)
        self.host.process(1)
        self.host.process(2, uid=1002, gid=1002)
        self.assertEqual(self.report()["status"], 0)
        self.assertEqual(made, [(["/", "/a", "/a/in", "/b", "/b/in"], [1, 2, 1000, 1001], ["/a", "/b"]),
                                (["/", "/a", "/b", "/c", "/c/in"], [1, 2, 1000, 1001, 1002], ["/c"])])

    def test_of_processes_the_users_own_go_in_first(self):
        made = self.texts()
        self.small(4, 3)
        self.host.cgroup("/", pids=(1, 2, 3))
        for name, uid in (("a", 1000), ("b", 1001)):
            self.host.cgroup(f"/{name}", owners=owned(uid), pids=(uid,))
            self.host.cgroup(f"/{name}/in")
            self.host.process(uid, uid=uid, gid=uid)
        self.host.cgroup("/cron", pids=(20, 21, 22))
        for pid, uid in ((1, 0), (2, 1000), (3, 1001), (20, 1000), (21, 1001), (22, 0)):
            self.host.process(pid, uid=uid, gid=uid)
        self.report()
        self.assertEqual(made, [(["/", "/a", "/a/in", "/cron"], [2, 20, 1000], ["/a"]),
                                (["/", "/b", "/b/in", "/cron"], [3, 21, 1001], ["/b"])])

    def test_what_has_too_many_processes_goes_without(self):
        made = self.texts()
        self.small(20, 3)
        self.host.cgroup("/a", owners=owned(1000), pids=(1, 2, 3, 4))
        self.host.cgroup("/b", owners=owned(1001), pids=(5,))
        for pid in range(1, 6):
            self.host.process(pid, uid=1000)
        self.assertEqual(self.report()["status"], 0)
        self.assertEqual(made, [(["/", "/a", "/b"], [1, 2, 5], ["/b"]), (["/", "/a"], [], ["/a"])])
        made.clear()
        self.assertEqual(self.report(no_processes=True)["status"], 0)
        self.assertEqual(made, [(["/", "/a", "/b"], [], ["/a", "/b"])])

    def test_the_answers_of_several_texts_are_those_of_one(self):
        self.host.cgroup("/", owners={"cgroup.procs": (0, 50)}, modes={"cgroup.procs": 0o666}, enabled="memory")
        for number in range(3):
            self.host.cgroup(f"/s{number}", owners={**owned(1000 + number), "memory.max": 1001})
            self.host.cgroup(f"/s{number}/in", owners=owned(1001))
        self.host.cgroup("/m.service", owners=owned(0, 50), modes=BY_GROUP, marks=(MARK,))
        whole = self.report(json=True)
        self.small(4)
        made = self.texts()
        self.assertEqual({**self.report(json=True), "time": 0}, {**whole, "time": 0})
        self.assertEqual(len(made), 3)

    def test_long_paths_fill_a_text_too(self):
        self.host.cgroup("/a")
        rows = [Row(path(place), files={"cgroup.procs": Entry(1000, 0, 0o644)})
                for number in range(4) for place in (f"/{number}", f"/{number}/{'n' * 200}")]
        some = [path(f"/{number}") for number in range(4)]

        def packed_in(room, subtrees):
            small = TEXT_FORMATS[4]._replace(longest=texts.HEAD + room)
            return texts.texts_of(Tree((), {row.path: row for row in (Row(path("/")), *rows)}, (), small), subtrees)
        packed = packed_in(1000, some)
        self.assertEqual([(text.subtrees, len(text.rows)) for text in packed.texts], [(some[:2], 5), (some[2:], 5)])
        packed = packed_in(300, [some[0], path(f"/1/{'n' * 200}")])
        self.assertEqual((packed.texts, str(packed.refused[some[0]])),
                         ([], "what it needs goes into no tree text: its paths and limits are too long"))

    def test_whose_making_it_is_that_is_too_large(self):
        """Of most of it, and not of who holds what it is inside of."""
        self.host.cgroup("/alice", owners=owned(1000))
        self.host.cgroup("/alice/in", owners=owned(1000))
        self.host.cgroup("/alice/bobs", owners=owned(1001), marks=(MARK,))
        for number in range(9):
            self.host.cgroup(f"/alice/bobs/c{number}", owners={**owned(1001), "cgroup.freeze": 1001}, values={"cgroup.freeze": "0"})
        self.host.cgroup("/carol", owners={**owned(1002), "memory.max": 1002})
        for most, why in (({"rows": 10}, "{} cgroups, and a tree text has 10 at most"), ({"longest": texts.HEAD + 1300}, str(TooLong()))):
            with small_texts(**most):
                found = self.report()
            self.assertEqual([(each["subtrees"], each["fault"], each["made_by"]) for each in found["faults"]],
                             [([place], why.format(count), "bob(1001)") for place, count in (("/alice", 13), ("/alice/bobs", 12))]
                             if "rows" in most else [(["/alice", "/alice/bobs"], why, "bob(1001)")])
            self.assertEqual(found["status"], 1)

    def test_progress_is_told_at_a_terminal(self):
        class Terminal(io.StringIO):
            def isatty(self):
                return True
        for stream, told in ((Terminal(), True), (io.StringIO(), False)):
            with mock.patch("sys.stderr", stream), mock.patch.object(progress, "SECONDS", 0), \
                    mock.patch.object(progress, "_line", progress._Line()):
                self.report()
                progress.end()
            shown = stream.getvalue()
            self.assertEqual(["cgroups read" in shown, "known to be left" in shown, "\n" in shown], [told, told, False])
            self.assertEqual(shown[-1:], "\r" if told else "")

    def test_texts_are_kept(self):
        self.small(2)
        for name in "ab":
            self.host.cgroup(f"/{name}", owners=owned(1000))
        self.report(keep=f"{self.host.folder}/kept")
        for name, place in (("kept", "/a"), ("kept.2", "/b")):
            with open(f"{self.host.folder}/{name}", encoding="ascii") as text:
                self.assertIn(path(place), read_tree(text.read()).rows)


class BesideTest(HostTest):
    """A host that is one text, which isn't small: what somebody made is asked of in small ones."""

    texts = LargeTest.texts

    def setUp(self):
        super().setUp()
        patched = small_texts(6, 4, formats=(2,))
        patched.start()
        self.addCleanup(patched.stop)
        self.host.cgroup("/alice", owners=owned(1000))
        for number in range(6):
            self.host.cgroup(f"/alice/c{number}", owners=owned(100000 + number))
        self.host.cgroup("/bob", owners=owned(1001), pids=(7,))
        self.host.cgroup("/carol", owners={**owned(1002), "memory.max": 1002})
        self.host.process(7, uid=1001)
        self.paths = ["/", "/alice", *(f"/alice/c{number}" for number in range(6)), "/bob", "/carol"]

    def test_what_somebody_made(self):
        made = self.texts()
        found = self.report(json=True)
        self.assertEqual(made, [(self.paths, [7], ["/alice", "/bob", "/carol"]),
                                (self.paths[:6], [], self.paths[2:6]),
                                (["/", "/alice", *self.paths[6:9]], [7], self.paths[6:8])])
        self.assertEqual((found["faults"], found["status"]), ([], 1))
        with small_texts(formats=(2,)):
            made.clear()
            whole = self.report(json=True)
        self.assertEqual((len(made), {**whole, "time": 0}), (1, {**found, "time": 0}))

    def test_what_goes_into_no_small_one(self):
        """It is a fault of its own making, and what has it is answered."""
        for number in range(6):
            self.host.cgroup(f"/alice/c0/d{number}", owners=owned(100000))
        made = self.texts()
        found = self.report()
        self.assertEqual([of for _, _, of in made], [["/alice", "/bob", "/carol"], self.paths[3:7], self.paths[7:8]])
        self.assertEqual([(each["subtrees"], each["fault"], each["made_by"]) for each in found["faults"]],
                         [(["/alice/c0"], "9 cgroups, and a tree text has 6 at most", "uid 100000")])
        self.assertEqual([row[2:] for row in self.rows(found) if row[3] == "/alice"], [("contained", "/alice")])

    def test_a_host_of_several_large_texts(self):
        made = self.texts()
        with small_texts(9, formats=(4,)):
            self.report()
        self.assertEqual([of for _, _, of in made], [["/alice", "/bob"], ["/carol"], self.paths[2:6], self.paths[6:8]])
        made.clear()
        self.report(tree_format=2)
        self.assertEqual([of for _, _, of in made], [self.paths[2:6], self.paths[6:]])

    def test_few_runs_at_once_where_each_takes_much_memory(self):
        pools = []

        class Pool(InTurn):
            def __init__(self, workers):
                super().__init__(workers)
                pools.append(workers)
        with mock.patch.object(asking, "ThreadPoolExecutor", Pool), mock.patch("os.cpu_count", lambda: 8):
            for memory, workers in ((1 << 30, 8), (50000, 1), (1, 1)):
                with mock.patch.object(asking, "MOST_MEMORY", memory):
                    self.report()
                self.assertEqual(min(pools), workers)
                pools.clear()

    def memory_of(self, most, status=3):
        """A program that reads no text of more bytes: it tells so, is ended, or takes too long."""
        played = made_up_program.play

        def playing(words):
            if words[0] == "audit" and "--tree" in words and os.path.getsize(words[words.index("--tree") + 1]) > most:
                if status is None:
                    raise subprocess.TimeoutExpired(words, 1)
                return subprocess.CompletedProcess(words, status, "", "fault: memory\n" if status == 3 else "")
            return played(words)
        return mock.patch.object(made_up_program, "play", playing)

    def test_where_the_program_has_no_memory_or_time_for_a_large_one(self):
        made = self.texts()
        for status in (3, -9, None):
            with self.subTest(status), self.memory_of(1400, status):
                made.clear()
                found = self.report()
                self.assertEqual([of for _, _, of in made[3:]], [self.paths[2:6], self.paths[6:]])
                self.assertEqual([row[2:] for row in self.rows(found)][-2:], [("contained", "/bob"), ("escapes", "/carol")])
                self.assertEqual([(each["subtrees"], each["fault"]) for each in found["faults"]],
                                 [(["/alice"], "8 cgroups, and a tree text has 6 at most")])
        # of a small one it is a fault of each pair, as another is
        with self.memory_of(0):
            found = self.report()
        self.assertEqual({each["fault"] for each in found["faults"]}, {"fault: memory", "8 cgroups, and a tree text has 6 at most"})
        with self.memory_of(0, None), self.assertRaises(fault.OutOfTime):
            self.report()

    def test_settling_ends_where_it_takes_too_long(self):
        self.can("all", "advise", "settle")
        self.host.cgroup("/", owners={"cgroup.procs": (0, 50)}, modes={"cgroup.procs": 0o664}, enabled="memory")
        played, asked = made_up_program.play, []

        def playing(words):
            if "--settle" not in words or "--help" in words:
                return played(words)
            asked.append([word for word in words if word in self.paths])
            if len(asked) == 2:
                raise subprocess.TimeoutExpired(words, 1)
            return played(words)
        with mock.patch.object(made_up_program, "play", playing), mock.patch.object(asking, "SETTLED", 1):
            found = self.report()
        # what was settled before stays, and the others are unsettled
        self.assertEqual(asked, [["/alice"], ["/bob"]])
        self.assertEqual({subtree for each in found["entries"] for subtree in each["subtrees"]}, {"/bob", "/carol", *self.paths[2:8]})
        self.assertEqual({each["answer"] for each in found["entries"]}, {"unsettled"})

    def test_what_is_settled_is_in_the_large_one(self):
        self.can("all", "advise", "settle")
        self.host.cgroup("/alice", owners=owned(1000), modes={"cgroup.procs": 0o664, "dir": 0o775})
        self.host.cgroup("/", owners={"cgroup.procs": (0, 50)}, modes={"cgroup.procs": 0o664}, enabled="memory")
        found = self.report()
        settled = [words for words in self.called() if "--settle" in words]
        self.assertEqual([[word for word in words if word.startswith("/") and "toml" not in word] for words in settled],
                         [["/alice", "/bob", "/carol"]])
        self.assertEqual({(*each["subtrees"], each["answer"]) for each in found["entries"]}, {(*self.paths[2:8], "unsettled")})

    def test_what_somebody_made_is_settled_last(self):
        self.can("all", "advise", "settle")
        self.host.cgroup("/", owners={"cgroup.procs": (0, 50)}, modes={"cgroup.procs": 0o664}, enabled="memory")
        with small_texts(formats=(2,)), mock.patch.object(asking, "SETTLED", 3):
            self.report()
        settled = [[word for word in words if word in self.paths] for words in self.called() if "--settle" in words]
        self.assertEqual(settled, [["/alice", "/bob", "/carol"], self.paths[2:5], self.paths[5:8]])


class MemoryTest(unittest.TestCase):
    @unittest.skipUnless(REAL_PROGRAM, "the program isn't built")
    def test_a_run_takes_no_more_than_is_reckoned_with(self):
        """Of cgroups with each limit file of format 4 in few bytes, and with none: it answers, and with a quarter of that it doesn't."""
        for files, count in ((TEXT_FILES, 700), ((), 3000)):
            entry, top = Entry(1000, 0, 0o644), Row(path("/a"), files={"cgroup.procs": Entry(1000, 0, 0o644)}, enabled=CONTROLLERS)
            below = [Row(path(f"/a/{number}"), Entry(1000, 0, 0o755), dict.fromkeys(files, entry)) for number in range(count)]
            rows = {row.path: row for row in (Row(path("/"), enabled=CONTROLLERS), top, *below)}
            (text,) = texts.texts_of(Tree(CONTROLLERS, rows, (), TEXT_FORMATS[4]), [path("/a")]).texts
            with tempfile.NamedTemporaryFile("w", encoding="ascii") as out:
                out.write(text.written(()))
                out.flush()
                for most, status in ((text.memory, 0), (text.memory // 4, 3)):
                    said = subprocess.run(["prlimit", f"--as={most}", REAL_PROGRAM, "check", "--uid", "1000", "--subtree", "/a", "--tree",
                                           out.name], capture_output=True, text=True)
                    self.assertEqual((said.returncode, said.stderr), (status, "fault: memory\n" if status else ""), (len(files), most))


class SlowTest(unittest.TestCase):
    def test_how_long_the_program_is_asked_in_a_large_text(self):
        with tempfile.TemporaryDirectory() as folder:
            program = f"{folder}/slow"
            with open(program, "w", encoding="ascii") as out:
                out.write("#!/bin/sh\nexec sleep 20\n")
            os.chmod(program, 0o755)
            for seconds in (0.2, -9):
                asked = Program(program, "none", 0, True).until(time.monotonic() + seconds)
                with self.assertRaisesRegex(asking.TooLarge, "^the program took too long$"):
                    asked.ask([Question((User(1000, ()),), (path("/a"),))])
            self.assertEqual(Program(program, "none").until(5), Program(program, "none"))


class BusyTest(HostTest):
    """One user changes something while the helper walks, again and again."""

    def setUp(self):
        super().setUp()
        self.turn = 0
        self.host.cgroup("/alice", owners=owned(1000, 1000), enabled="memory")
        self.host.cgroup("/alice/in", owners=owned(1000, 1000))
        self.host.cgroup("/bob", owners=owned(1001))
        self.host.cgroup("/bob/in", owners=owned(1001))
        self.host.cgroup("/carol", owners={**owned(1002), "memory.max": 1002})

    def busy(self, act, before=b"/bob"):
        """A report while something is done each time that a cgroup is read."""
        self.walks = []
        read, start = walk.Walk.read, walk.Walk.__init__

        def reading(of, path):
            if path == before:
                self.turn += 1
                act(self.turn)
            return read(of, path)

        def started(of, *words):
            self.walks.append(words[1:2])
            start(of, *words)
        options = self.options(json=True)
        with mock.patch.object(walk.Walk, "read", reading), mock.patch.object(walk.Walk, "__init__", started):
            taken = self.host.take(subtrees_by(options))
        return self.value_of(check.report(taken, options, True))

    def others(self, found, of):
        self.assertEqual([(row[2], row[3]) for row in self.rows(found) if row[3] != of],
                         [each for each in (("contained", "/alice"), ("contained", "/bob"), ("escapes", "/carol")) if each[1] != of])

    def one_is_spoiled(self, found, why=ALL_THE_TIME, made_by="alice(1000)"):
        """Alice's own making hides no escape of carol's."""
        self.others(found, "/alice")
        self.assertEqual((found["faults"], found["status"]), ([{"who": "everybody", "uid": None, "gids": [], "fault": why,
                                                               "subtrees": ["/alice"], "made_by": made_by}], 1 if made_by else 3))

    def come_and_go(self, path, turn, uid=1000):
        if turn % 2:
            self.host.cgroup(path, owners=owned(uid))
        else:
            shutil.rmtree(self.host.mount + path)

    def test_cgroups_of_his_come_and_go(self):
        found = self.busy(lambda turn: self.come_and_go("/alice/new", turn), b"/alice")
        self.one_is_spoiled(found)
        self.assertEqual(self.walks[:3], [(None,), (None,), ([b"/alice"],)])
        self.assertEqual(len(self.walks), 10)

    def test_his_limits_change(self):
        def act(turn):
            with open(f"{self.host.mount}/alice/in/memory.high", "w", encoding="ascii") as out:
                out.write(f"{turn * 4096}\n")
        self.one_is_spoiled(self.busy(act, b"/alice"))

    def test_files_of_his_come_and_go(self):
        def act(turn):
            self.host.cgroup("/alice", owners=owned(1000, 1000), enabled="memory" if turn % 2 else "")
            shutil.rmtree(f"{self.host.mount}/alice/in")
            self.host.cgroup("/alice/in", owners=owned(1000))
        self.one_is_spoiled(self.busy(act, b"/alice"))

    def test_what_somebody_else_makes_is_no_fault_of_the_holder(self):
        self.host.cgroup("/up")
        self.host.cgroup("/up/dave", owners=owned(1003))

        def act(turn):
            self.host.cgroup("/up", values={"cgroup.max.depth": 10 + turn})
        found = self.busy(act, b"/up")
        self.assertEqual([(each["subtrees"], each["made_by"]) for each in found["faults"]], [(["/up/dave"], None)])
        self.assertEqual(found["status"], 3)

    def test_whose_making_it_is_inside_of_anothers(self):
        self.host.cgroup("/alice/in/bobs", owners=owned(1001))
        found = self.busy(lambda turn: self.come_and_go("/alice/in/bobs/new", turn, 1001), b"/alice")
        self.assertEqual([(each["subtrees"], each["made_by"]) for each in found["faults"]], [(["/alice/in/bobs"], "bob(1001)")])
        self.assertIn(("contained", "/alice"), [row[2:] for row in self.rows(found)])

    def test_an_answer_that_hangs_on_how_much_there_is(self):
        self.host.cgroup("/alice", owners=owned(1000, 1000), enabled="memory", values={"cgroup.max.descendants": 100})
        self.host.cgroup("/alice/in/bobs", owners=owned(1001))
        found = self.busy(lambda turn: self.come_and_go("/alice/in/bobs/new", turn, 1001), b"/alice")
        self.assertEqual([(each["subtrees"], each["made_by"]) for each in found["faults"]], [(["/alice", "/alice/in/bobs"], "bob(1001)")])

    def test_a_delegation_that_changes_itself(self):
        def act(turn):
            self.host.cgroup("/alice", owners=owned(1000, 1000), enabled="memory" if turn % 2 else "")
        self.one_is_spoiled(self.busy(act, b"/alice"))

    def test_where_nothing_else_is_found_the_sum_says_so(self):
        self.host.cgroup("/carol")
        found = self.busy(lambda turn: self.come_and_go("/alice/new", turn), b"/alice")
        self.assertEqual(found["status"], 3)
        lines = self.lines(found)
        self.assertTrue(lines[-1].startswith("3 by a fault of its holder's own making alone; "), lines[-1])
        self.assertIn(f"fault: everybody of /alice: {ALL_THE_TIME}, of alice(1000)'s own making", lines)

    def test_a_file_that_goes_each_time_it_is_read(self):
        """Behind its listing, or behind its opening: it is a change of whoever disables its controller, and no file that can't be read."""
        listed, read, place = bounded.list_folder, walk.text_of, f"{self.host.mount}/alice/in"

        def is_in(folder):
            return os.path.samestat(os.stat(folder), os.stat(place))

        def listing(folder, most):
            found = listed(folder, most)
            if is_in(folder):
                os.remove(f"{place}/memory.max")
            return found

        def reading(folder, file):
            if file == "memory.max" and is_in(folder):
                raise OSError(errno.ENODEV, os.strerror(errno.ENODEV))
            return read(folder, file)
        for module, name, played in ((bounded, "list_folder", listing), (walk, "text_of", reading)):
            with self.subTest(name), mock.patch.object(module, name, played):
                found = self.busy(lambda _: self.host.cgroup("/alice/in", owners=owned(1000, 1000)), b"/alice/in")
                self.one_is_spoiled(found)
                self.assertEqual(len(self.walks), 10)

    def test_a_file_of_the_root_that_goes(self):
        listed = bounded.list_folder

        def listing(folder, most):
            found = listed(folder, most)
            if os.path.samestat(os.stat(folder), os.stat(self.host.mount)):
                os.remove(f"{self.host.mount}/cgroup.controllers")
            return found
        with mock.patch.object(bounded, "list_folder", listing), self.assertRaisesRegex(fault.Fault, "mount isn't a cgroup: .*controllers"):
            self.host.snapshot()

    def test_a_cgroup_that_goes_each_time_it_is_read(self):
        def act(_):
            shutil.rmtree(f"{self.host.mount}/alice/in", ignore_errors=True)
        remade = walk.Walk.children

        def children(of, path, folder, names):
            if path == b"/alice":
                self.host.cgroup("/alice/in", owners=owned(1000))
                names = [b"in"]
            return remade(of, path, folder, names)
        with mock.patch.object(walk.Walk, "children", children):
            self.one_is_spoiled(self.busy(act, b"/alice/in"))

    def test_a_file_that_goes_between_two_walks(self):
        """It was found by a walk, a process still has it open, and it isn't there at last."""
        file, kept = f"{self.host.mount}/alice/memory.high", f"{self.host.folder}/kept"
        os.link(file, kept)
        self.host.process(7, uid=1000)
        self.host.opens(7, 0, "/../kept", os.O_WRONLY)
        self.host.opens(7, 1, "/cgroup.subtree_control", os.O_WRONLY)

        def act(turn):
            if turn == 2:
                self.host.cgroup("/alice", owners=owned(1000, 1000), enabled="memory", values={"memory.low": 4096})
            elif turn == 3:
                os.unlink(file)
        found = self.busy(act, b"/alice")
        self.assertEqual((self.turn, found["faults"]), (4, []))
        self.assertEqual(self.held(found), [("alice(1000)", "cgroup.subtree_control", "/", "open for writing", [7])])

    def test_what_cant_matter_begins_no_walk_again(self):
        self.host.cgroup("/system")
        found = self.busy(lambda turn: self.come_and_go("/system/scope", turn), b"/system")
        self.others(found, "")
        self.assertEqual((found["status"], found["faults"], len(self.walks)), (1, [], 2))
        self.assertIn({"kind": "changing", "place": "/system/scope",
                       "text": "left out, with all inside: it came, went or changed while it was read"}, found["snapshot"])

    def test_one_change_is_walked_over_again(self):
        found = self.busy(lambda turn: turn == 2 and self.host.cgroup("/alice/new", owners=owned(1000)), b"/alice")
        self.others(found, "")
        self.assertEqual((found["status"], found["faults"], self.walks[2:]), (1, [], [([b"/alice"],)]))
        self.assertIn("/alice/new", [each["path"] for each in found["cgroups"]])

    def test_what_is_inside_of_his_and_anothers(self):
        self.host.cgroup("/alice/in/bobs", owners=owned(1001), marks=(MARK,))
        found = self.busy(lambda turn: self.come_and_go("/alice/new", turn), b"/alice")
        self.assertEqual([each["subtrees"] for each in found["faults"]], [["/alice"]])
        self.assertIn(("unsettled common-ancestor /alice/in", "/alice/in/bobs"),
                      [(each["lines"][0], subtree["path"]) for subtree in found["subtrees"] for each in subtree["answers"]]
                      + [(entry["example"]["lines"][0], entry["subtrees"][0]) for entry in found["entries"] if entry["example"]])

    def test_controllers_that_he_turns_within_each_walk(self):
        """Two walks agree, and no tree is so: a program would refuse the whole text."""
        self.host.cgroup("/", enabled="memory io")

        def act(turn):
            self.host.cgroup("/alice", owners=owned(1000, 1000), enabled="memory")
            self.host.cgroup("/alice/in", owners=owned(1000, 1000), enabled="memory io")
        self.one_is_spoiled(self.busy(act, b"/alice"))
        self.assertEqual(len(self.walks), 10)

    def test_what_cant_be_read(self):
        os.remove(f"{self.host.mount}/alice/cgroup.controllers")
        self.one_is_spoiled(self.busy(lambda turn: None), "can't read it: cgroup.controllers: No such file or directory", None)
        self.assertEqual(len(self.walks), 2)

    def test_more_cgroups_than_are_read(self):
        for number in range(9):
            self.host.cgroup(f"/alice/in/c{number}", owners=owned(1000))
        with mock.patch.object(bounded, "CGROUPS", bounded.Budget("cgroups", 6)):
            self.one_is_spoiled(self.busy(lambda turn: None), "uid 1000 has over 6 cgroups")

    def test_the_root_changes_all_the_time(self):
        with self.assertRaisesRegex(check.Fault, "the root cgroup: it came, went or changed"):
            self.busy(lambda turn: self.host.own(self.host.mount, 0, 0o755 - turn % 2), b"/")


if __name__ == "__main__":
    unittest.main()
