"""Tests of the snapshot: what is written, and what is bent or left out with a line for each."""
import glob
import inspect
import os
import shutil
import sys
import unittest
from dataclasses import replace
from unittest import mock

from made_up import DELEGATED, KERNEL_THREAD, TOP, MadeUpTest, path
from zirofen_host import command, files
from zirofen_host.collect import mount, walk
from zirofen_host.fault import Fault
from zirofen_host.files import TEXT_FILES, NUMBER_FILES
from zirofen_host.profile import TEXT_FORMATS, text_of
from zirofen_host.collect.mount import Mounts
from zirofen_host.collect.snapshot import note_lines, tree_text
from zirofen_host.collect.tree import read_tree, tree_text as text_of_tree

CONTROLLERS = 'controllers = ["cpu", "memory", "pids"]\n'
PAGES = ("64KB", "128KB", "256KB", "512KB", "1MB", "2MB", "4MB", "8MB", "16MB", "32MB", "64MB", "128MB", "256MB", "512MB", "1GB", "2GB",
         "16GB")
# limit files beyond those of every text, the 42 that a text of format 4 tells of where they aren't root's among them
FURTHER = sorted({name.replace(files.SIZE, size) for name, kind in files.KINDS.items() if kind is files.Kind.LIMIT for size in PAGES}
                 - set(NUMBER_FILES))
WRITTEN = r"""
[[cgroup]]
path = '/'
enabled = ["memory", "pids"]
dir = { mode = 0o555 }

[[cgroup]]
path = '/a-b'

[[cgroup]]
path = '/a.slice'
enabled = ["memory"]
dir = { uid = 1000 }
[cgroup.files]
"cgroup.procs" = { uid = 1000 }
"cgroup.subtree_control" = { uid = 1000, gid = 50, mode = 0o664 }
"cgroup.max.depth" = { value = 3 }
"memory.low" = { value = "max" }
"pids.max" = { value = 50 }

[[cgroup]]
path = '/a.slice/with\x20space\x2d.service'

[[cgroup]]
path = "/it's\\x20"

[[process]]
pid = 7
uid = 1000
at = '/a.slice/with\x20space\x2d.service'

[[process]]
pid = 9
uid = 0
at = '/'
"""


def as_taken(tree, text_format):
    """A tree as a snapshot in a format has it: of limit files of format 4 with those that the format names and somebody but root
    reaches."""
    def told(row, parts):
        return {name: part for name, part in parts.items()
                if name not in TEXT_FILES or (name in text_format.text_files and row.entry(name).is_reached)}
    rows = {place: replace(row, files=told(row, row.files), values=told(row, row.values)) for place, row in tree.rows.items()}
    return replace(tree, rows=rows, format=text_format)


class SnapshotTest(MadeUpTest):
    def body(self, snapshot):
        """The text behind its head, which is as it is in this format."""
        head, found, body = tree_text(snapshot).partition(CONTROLLERS)
        lines = ["# A snapshot", "# 5 cgroups"]
        wanted = ["format = 4", *lines, "", ""] if snapshot.tree.format.number == 4 else [*lines, "", "format = 2", ""]
        self.assertEqual([line[:len(start)] for line, start in zip(head.split("\n"), wanted)], wanted)
        self.assertEqual((len(head.split("\n")), found), (len(wanted), CONTROLLERS))
        return body

    def kinds(self, snapshot):
        return [(note.kind, note.place) for note in snapshot.notes]

    def test_text(self):
        host = self.host
        host.cgroup("/", enabled="memory pids", pids=(2, 9), values={"cgroup.controllers": "cpu memory pids"})
        host.cgroup("/a.slice", owners={**DELEGATED, "cgroup.subtree_control": (1000, 50)}, enabled="memory",
                    modes={"cgroup.subtree_control": 0o664},
                    values={"pids.max": 50, "memory.low": "max", "cgroup.max.depth": 3})
        host.cgroup("/a.slice/with\\x20space\\x2d.service", pids=(7, 8))
        host.cgroup("/a-b")
        host.cgroup("/it's\\x20")
        host.own(host.mount, 0, 0o555)
        host.process(7, uid=1000)
        host.process(9)
        host.process(2, flags=KERNEL_THREAD)
        for number in (None, 2, 4):
            taken = host.snapshot(tree_format=number)
            self.assertEqual(self.body(taken), WRITTEN)
            self.assertEqual(note_lines(taken), [])
            self.assertIn("left out 1 kernel threads", tree_text(taken))
        self.assertTrue(tree_text(host.snapshot()).startswith("format = 4\n"))

    def test_example_trees_come_back(self):
        for file in sorted(glob.glob(f"{TOP}/examples/*.toml")):
            if os.path.basename(file).startswith("fault-"):
                continue
            with self.subTest(os.path.basename(file)), open(file, encoding="ascii") as text:
                self.setUp()
                tree = read_tree(text.read())
                self.host.tree(tree)
                for number, each in TEXT_FORMATS.items():
                    taken = self.host.snapshot(tree_format=number)
                    self.assertEqual(text_of_tree(taken.tree, []), text_of_tree(as_taken(tree, each), []))
                    others = {name for row in tree.rows.values() for name in row.enabled} - set(each.controllers)
                    self.assertEqual({kind for kind, _ in self.kinds(taken)}, {"controller"} if others else set())

    def test_nine_controllers(self):
        """In the order of the format, of which one is none, and two by turns in what is below."""
        host = self.host
        host.cgroup("/", enabled="dmem misc rdma pids hugetlb memory io cpu cpuset fancy",
                    values={"cgroup.controllers": "fancy dmem misc rdma pids hugetlb memory io cpu cpuset"})
        host.cgroup("/a", enabled="io cpuset fancy", pids=(7,))
        host.cgroup("/a/b", enabled="cpuset")
        host.process(7)
        taken, old = host.snapshot(), host.snapshot(tree_format=2)
        names = ("cpuset", "cpu", "io", "memory", "hugetlb", "pids", "rdma", "misc", "dmem")
        for found, enabled in ((taken, (names, names, ("cpuset", "io"), ("cpuset",))), (old, (*[("cpu", "memory", "pids")] * 2, (), ()))):
            rows = found.tree.rows
            self.assertEqual((found.tree.controllers, *(rows[path(each)].enabled for each in ("/", "/a", "/a/b"))), enabled)
        self.assertIn(f"""controllers = [{", ".join(f'"{name}"' for name in names)}]\n""", tree_text(taken))
        self.assertIn("""path = '/a'\nenabled = ["cpuset", "io"]\n""", tree_text(taken))
        self.assertNotIn("io", tree_text(old).partition("controllers")[2])
        left_out = "controller: /: left out, with how many cgroups enable each: "
        self.assertEqual(note_lines(taken), [f"{left_out}fancy (2)", "processes: /a: 1 left out: the cgroup enables cpuset io"])
        self.assertEqual(note_lines(old), [f"{left_out}cpuset (3), dmem (1), fancy (2), hugetlb (1), io (2), misc (1), rdma (1)"])
        self.assertEqual([len(found.tree.processes) for found in (taken, old)], [0, 1])
        # it comes back
        self.assertEqual(read_tree(tree_text(taken)).format, TEXT_FORMATS[4])
        self.assertEqual(text_of_tree(read_tree(tree_text(taken)), []), text_of_tree(taken.tree, []))

    def written(self, *words):
        """What the command writes, and what it warns of."""
        host, out, warned = self.host, [], []
        with mock.patch("zirofen_host.fault.write", out.append), mock.patch("zirofen_host.fault.warn", warned.append), host.owned():
            self.assertEqual(command.main(["snapshot", "--plain-folder", "--mount", host.mount, "--proc", host.proc, *words]), 0)
        return out, warned

    def test_further_limit_files(self):
        """Sixty in each cgroup, all root's and unset: the text is byte for byte that of the cgroups without them."""
        host, names = self.host, " ".join(walk.CONTROLLERS)
        unset = {name: str(files.usual_of(name) or "max") for name in FURTHER}
        self.assertEqual(len(FURTHER), 60)
        ways = ((), ("--no-processes",), ("--tree-format", "2"), ("--tree-format", "4"), ("--only", "/a.slice/b"))
        texts = []
        for values in ({}, unset):
            host.cgroup("/", enabled=names, values={**values, "cgroup.controllers": names})
            host.cgroup("/a.slice", owners=DELEGATED, enabled="cpu io memory", values={**values, "memory.max": 4096})
            host.cgroup("/a.slice/b", owners={**DELEGATED, "memory.max": 1000}, modes={"memory.max": 0o666}, pids=(7,), values=values)
            host.cgroup("/c", values=values)
            host.process(7, uid=1000)
            self.assertEqual(set(values) & set(host.snapshot().cgroups[path("/a.slice/b")].files), set(values))
            texts.append([self.written(*words) for words in ways])
        self.assertEqual(texts[0], texts[1])

    def test_formats_of_texts_that_are_read(self):
        for number, taken in ((1, 2), (2, 2), (4, 4)):
            text = f"format = {number}\ncontrollers = []\n[[cgroup]]\npath = '/'\n"
            self.assertIs(read_tree(text).format, TEXT_FORMATS[taken])

    def test_how_large_a_text_may_be(self):
        self.assertEqual([each[2:5] for each in TEXT_FORMATS.values()], [(4096, 4096, 16777216), (65536, 65536, 67108864)])

    def test_odd_names(self):
        host = self.host
        host.cgroup("/")
        host.cgroup("/plain", owners=DELEGATED)
        odd = ["a b", "tab\there", "line\n[[cgroup]]", "\x1b[31m", "caf\xe9", "memory.max", "cgroup.procs.d", "..."]
        os.makedirs(os.fsencode(host.mount) + b"/plain/\xff\xfe/inside/more")
        for name in odd:
            if name in ("cgroup.procs.d", "..."):
                host.cgroup(f"/plain/{name}")
            else:
                os.makedirs(f"{host.mount}/plain/{name}")
        for folder, _, _ in os.walk(os.fsencode(host.mount)):
            host.owners.setdefault(os.lstat(folder).st_ino, host.owners[os.lstat(host.mount).st_ino])
        taken = host.snapshot()
        self.assertEqual(sorted(map(text_of, taken.tree.rows)), ["/", "/plain", "/plain/...", "/plain/cgroup.procs.d"])
        lines = [line for line in note_lines(taken) if line.startswith("name: ")]
        self.assertEqual(len(lines), 7)
        why = "no name of the format, or too long a path"
        self.assertIn(rf"name: b'/plain/\xff\xfe': left out, and 2 cgroups inside: {why}", lines)
        self.assertIn(rf"name: b'/plain/\x1b[31m': left out: {why}", lines)
        self.assertIn("file-name: /plain/memory.max: named as a file: a controller with that file can't be enabled above",
                      note_lines(taken))
        self.assertTrue(all(line.isprintable() and line.isascii() for line in lines))

    def test_a_name_of_a_file_that_stands_nowhere(self):
        """Of a controller that nothing enables yet, and of which a text takes the name."""
        self.host.cgroup("/")
        for name in ("io.max", "hugetlb.2MB.max", "rdma.current", "io.mine"):
            self.host.cgroup(f"/a.{name}" if name == "io.mine" else f"/{name}")
        taken = self.host.snapshot()
        self.assertEqual((len(taken.tree.rows), note_lines(taken)), (5, [
            f"file-name: /{name}: named as a file: a controller with that file can't be enabled above"
            for name in ("hugetlb.2MB.max", "io.max", "rdma.current")]))

    def test_long_paths(self):
        host = self.host
        host.cgroup("/")
        deep = ""
        for _ in range(13):
            deep += "/" + "n" * 255
            host.cgroup(deep)
        self.assertEqual(len(host.snapshot().tree.rows), 14)
        with mock.patch.object(walk, "LONGEST_FOLDER", 2000):
            taken = host.snapshot()
        self.assertLess(len(taken.tree.rows), 9)
        self.assertRegex(note_lines(taken)[0], "left out, and [0-9]+ cgroups inside: .* too long a path")

    def test_deep_paths_take_no_deep_calls(self):
        host = self.host
        host.cgroup("/")
        deep = ""
        for _ in range(200):
            deep += "/d"
            host.cgroup(deep)
        os.rename(f"{host.mount}/d", f"{host.mount}/d d")
        host.cgroup("/e")
        usual = sys.getrecursionlimit()
        self.addCleanup(sys.setrecursionlimit, usual)
        sys.setrecursionlimit(len(inspect.stack()) + 100)
        odd = host.snapshot()
        os.rename(f"{host.mount}/d d", f"{host.mount}/d")
        plain = host.snapshot()
        sys.setrecursionlimit(usual)
        self.assertEqual((len(odd.tree.rows), len(plain.tree.rows)), (2, 202))
        self.assertIn("and 199 cgroups inside", note_lines(odd)[0])

    def test_what_is_bent(self):
        host = self.host
        host.cgroup("/", enabled="cpu memory pids cpuset", pids=(0, 12))
        host.cgroup("/set", modes={"dir": 0o2755, "cgroup.procs": 0o1644})
        host.cgroup("/idle", values={"cpu.weight": 0})
        host.cgroup("/worker", enabled="cpu pids cpuset", pids=(5, 6))
        host.cgroup("/worker/thread", kind="threaded", without=("cgroup.max.depth",))
        host.cgroup("/extra", more=("memory.stat",))
        host.cgroup("/extra/below", values={"memory.max": 4096})
        host.cgroup("/extra/memory.stat.d")
        host.cgroup("/idle/memory.stat")
        for pid in (5, 6, 12):
            host.process(pid)
        taken = host.snapshot(tree_format=2)
        rows = {text_of(path): row for path, row in taken.tree.rows.items()}
        self.assertEqual(rows["/set"].directory.mode, 0o755)
        self.assertEqual(rows["/set"].files["cgroup.procs"].mode, 0o644)
        self.assertEqual(rows["/idle"].values["cpu.weight"], 1)
        self.assertEqual(rows["/worker"].enabled, ("cpu", "pids"))
        self.assertEqual(taken.tree.processes, [(12, 0, path("/"))])
        self.assertNotIn("memory.max", rows["/extra/below"].files)
        self.assertEqual(sorted(note_lines(taken)), [
            "controller: /: left out, with how many cgroups enable each: cpuset (2)",
            "file-name: /idle/memory.stat: named as a file: a controller with that file can't be enabled above",
            "file: /extra/below: memory.max left out: the parent doesn't enable memory",
            "mode: /set: dir has mode 0o2755, written as 0o755; cgroup.procs has mode 0o1644, written as 0o644",
            "no-file: /worker/thread: cgroup.max.depth isn't there, and is written with its default, max",
            "pid: /: 0 left out: a process of another PID namespace, or no PID of the format",
            "processes: /worker: 2 left out: the cgroup enables cpu pids",
            "type: /worker/thread: threaded: threaded mode is left out",
            "value: /idle: cpu.weight is '0', written as 1",
        ])

    def test_only_a_part(self):
        host = self.host
        host.cgroup("/", pids=(3,))
        for place, pid in (("/a", 4), ("/a/b", 5), ("/a/b/c", 6), ("/a/bb", 7), ("/d", 8)):
            host.cgroup(place, pids=(pid,))
            host.process(pid)
        host.process(3)
        taken = host.snapshot(only=b"/a/b")
        self.assertEqual(sorted(map(text_of, taken.tree.rows)), ["/", "/a", "/a/b", "/a/b/c"])
        self.assertEqual([pid for pid, _, _ in sorted(taken.tree.processes)], [3, 4, 5, 6])
        with self.assertRaisesRegex(Fault, "there is no cgroup /a/x"):
            host.snapshot(only=b"/a/x")

    def test_a_cgroup_that_goes_while_it_is_read(self):
        host = self.host
        host.cgroup("/")
        host.cgroup("/a")
        listed = walk.text_of

        def gone(folder, file):
            if os.path.isdir(f"{host.mount}/a") and os.fstat(folder).st_ino == os.lstat(f"{host.mount}/a").st_ino:
                shutil.rmtree(f"{host.mount}/a")
            return listed(folder, file)

        with host.owned(), mock.patch.object(walk, "text_of", gone):
            found = walk.walk_over(host.mount)
        self.assertEqual((sorted(found.found), found.gone, found.unread), ([b"/"], {b"/a"}, {}))

    def test_no_cgroup_at_all(self):
        with self.assertRaisesRegex(Fault, "isn't a cgroup"):
            walk.walk_over(f"{self.host.mount}/none")
        open(f"{self.host.mount}/file", "w", encoding="ascii").close()
        with self.assertRaisesRegex(Fault, "isn't a cgroup"):
            walk.walk_over(self.host.mount)

    def test_a_text_without_processes(self):
        self.host.cgroup("/", pids=range(1, 5))
        for pid in range(1, 5):
            self.host.process(pid)
        self.assertNotIn("process", tree_text(self.host.snapshot(), with_processes=False).split("left out 0 kernel threads")[1])

    def test_a_process_that_ended(self):
        self.host.cgroup("/", pids=(3, 4))
        self.host.process(4)
        self.assertEqual(self.host.snapshot().tree.processes, [(4, 0, path("/"))])


MOUNTS = Mounts(r"""22 1 0:20 / / rw - ext4 /dev/sda1 rw
31 22 0:29 / /sys/fs/cgroup rw,relatime - cgroup2 cgroup2 rw,nsdelegate,memory_recursiveprot
32 22 0:29 /a.slice /srv/with\040space ro,relatime - cgroup2 cgroup2 rw
33 22 0:30 / /sys/fs/cgroup1 rw,relatime - cgroup cgroup rw,cpu,cpuacct
""")


class MountsTest(unittest.TestCase):
    def test_the_whole_hierarchy(self):
        MOUNTS.refuse("/sys/fs/cgroup")
        MOUNTS.refuse("/sys/fs/cgroup/")
        self.assertIn("nsdelegate", MOUNTS.options("/sys/fs/cgroup"))

    def test_refusals(self):
        for mount_point, line in (("/srv/with space", "a part of the hierarchy, /a.slice"),
                                  ("/sys/fs/cgroup1", "isn't a cgroup v2 mount; one is at /srv/with space"),
                                  ("/", "isn't a cgroup v2 mount")):
            with self.subTest(mount_point), self.assertRaisesRegex(Fault, line):
                MOUNTS.refuse(mount_point)
        with self.assertRaisesRegex(Fault, "isn't a cgroup v2 mount$"):
            Mounts("").refuse("/sys/fs/cgroup")

    def test_who_may_take_one(self):
        with mock.patch("os.geteuid", lambda: 1000), self.assertRaisesRegex(Fault, "as root"):
            mount.refuse_what_is_no_host("/sys/fs/cgroup")
        with mock.patch("os.geteuid", lambda: 0), mock.patch("os.readlink", lambda _: "cgroup:[4026532444]"), \
                mock.patch.object(mount, "WHOLE_UID_MAP", open("/proc/self/uid_map", encoding="ascii").read().split()), \
                self.assertRaisesRegex(Fault, "inside a cgroup namespace"):
            mount.refuse_what_is_no_host("/sys/fs/cgroup")
        with mock.patch("os.geteuid", lambda: 0), mock.patch.object(mount, "WHOLE_UID_MAP", ["0", "0", "1"]), \
                self.assertRaisesRegex(Fault, "inside a user namespace"):
            mount.refuse_what_is_no_host("/sys/fs/cgroup")
