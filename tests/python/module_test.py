"""Tests of the module zirofen for Python, over the released program or the library that ZIROFEN_LIBRARY names, and of what docs/PROGRAMS.md
shows."""
import doctest
import importlib
import os
import pkgutil
import re
import subprocess
import sys
import unittest
from unittest import mock

TOP = os.path.dirname(os.path.dirname(os.path.dirname(os.path.abspath(__file__))))
PROGRAM = f"{TOP}/release/zirofen" if os.uname().machine == "x86_64" else f"{TOP}/release/zirofen-{os.uname().machine}"
sys.path.insert(0, f"{TOP}/python")
if "ZIROFEN_LIBRARY" not in os.environ:
    os.environ["ZIROFEN_PROGRAM"] = PROGRAM
import zirofen  # noqa: E402
from zirofen.asked import Program  # noqa: E402

MODULES = [importlib.import_module(f"zirofen.{it.name}") for it in pkgutil.iter_modules(zirofen.__path__)]
ALICE = zirofen.User(1000)


def text(path):
    with open(f"{TOP}/{path}", encoding="utf-8") as file:
        return file.read()


def example(name):
    return text(f"examples/{name}.toml")


class AnswersTest(unittest.TestCase):
    def test_documentation(self):
        for module in [zirofen, *MODULES]:
            with self.subTest(module.__name__):
                self.assertEqual(doctest.testmod(module).failed, 0)

    def test_checks(self):
        rows = [("delegation", zirofen.Contained()), ("delegation-limit-writable", zirofen.Escapes(("set /c0 memory.max max",))),
                ("delegation-over-limit", zirofen.Escapes(())), ("delegation-parent-directory", zirofen.Unsettled("parent-dir", "/"))]
        for name, answer in rows:
            with self.subTest(name):
                self.assertEqual(zirofen.check(example(name), ALICE, "/c0"), answer)
        self.assertEqual(len(zirofen.settle(example("delegation-parent-directory"), 1000, "/c0").operations), 4)

    def test_audits(self):
        tree, users = example("delegation-second-user"), [1000, zirofen.User(1001, (1001,))]
        found = zirofen.audit(tree, users, ["/c0", "/c1"])
        self.assertEqual([(it.user, it.subtree) for it in found.findings], [(users[1], "/c0")])
        self.assertFalse(found.is_contained)
        self.assertTrue(zirofen.audit(example("delegation"), [1000], ["/c0"]).is_contained)
        with self.assertRaises(TypeError):
            bool(found)
        self.assertEqual(len(zirofen.audit(tree, users, ["/c0", "/c1"], every=False).findings), 1)
        self.assertEqual(zirofen.audit(tree, users, ["/c0", "/c1"], settle=True), found)

    def test_what_is_told(self):
        self.assertEqual(zirofen.advise(example("delegation"), [1000], ["/c0"]), zirofen.Advice((), (), True))
        group = zirofen.advise(example("delegation-ancestor-group"), [zirofen.User(1000, (50,))], ["/c0"])
        fails = "fails common-ancestor / cgroup.procs 0:50 664 group"
        self.assertEqual(group, zirofen.Advice((fails,), ("chmod / cgroup.procs 644",), False))
        told, = zirofen.explain(example("delegation"), [1000], ["/c0"])
        self.assertEqual((told.user, told.subtree, told.says, told.lines[0]),
                         (ALICE, "/c0", "contained", "holds common-ancestor / cgroup.procs 0:0 644"))
        self.assertEqual(zirofen.may(example("delegation"), ALICE, 11, "/c0/c01"), (True, "granted"))
        self.assertEqual(zirofen.may(example("delegation"), 1001, 11, "/c0/c01"), (False, "refused no-access /c0/c01 cgroup.procs"))

    def test_replays(self):
        tree = example("delegation-ancestor-owned")
        escape = zirofen.check(tree, 1000, "/c0")
        self.assertEqual(zirofen.replay(tree, 1000, escape.operations, "/c0"), zirofen.Replayed(("ok", "ok"), "broken 2 crossed 10"))
        self.assertEqual(zirofen.replay(tree, 1000, []), zirofen.Replayed(()))
        with self.assertRaises(zirofen.Fault) as caught:
            zirofen.replay(tree, 1000, ["exit 11", "mvoe 10 /c0"])
        self.assertEqual((caught.exception.words, caught.exception.place), (("line", "bad-word"), "line 2"))

    def test_faults(self):
        rows = [("fault-no-parent", "/c0", ("tree", "no-parent"), "cgroup 2"), ("delegation", "/", ("subtree", "root"), None),
                ("delegation", "c0", ("path",), None)]
        for name, subtree, words, place in rows:
            with self.subTest(words), self.assertRaises(zirofen.Fault) as caught:
                zirofen.check(example(name), ALICE, subtree)
            self.assertEqual((caught.exception.words, caught.exception.place), (words, place))
            self.assertIn(" ".join(words), str(caught.exception))

    def test_what_is_no_question(self):
        """Words that would be other words of the command line, and numbers that are none, aren't asked."""
        check, audit = zirofen.check, zirofen.audit
        for asked in (lambda: check("", "1000", "/c0"), lambda: check("", True, "/c0"), lambda: audit("", [1], "/c0")):
            with self.assertRaises(TypeError):
                asked()
        for subtree in ("/c0\n--uid\n0", "/c0\0"):
            with self.assertRaises(ValueError):
                zirofen.check("", 1000, subtree)
        # a subtree that looks like an option is a path that is none
        with self.assertRaises(zirofen.Fault) as caught:
            zirofen.check(example("delegation"), 1000, "--help")
        self.assertEqual(caught.exception.words, ("path",))

    def test_a_program_that_is_ended(self):
        with mock.patch("zirofen.asking.who", lambda: Program("/bin/sh")), self.assertRaises(zirofen.Unavailable):
            zirofen.run(["-c", "kill -9 $$"])


@unittest.skipIf(sys.version_info < (3, 11), "a tree is read from Python 3.11 on")
class TreeTest(unittest.TestCase):
    def test_each_example_is_read_and_written_as_the_same_tree(self):
        for name in sorted(os.listdir(f"{TOP}/examples")):
            tree = example(name.removesuffix(".toml")) if name.endswith(".toml") else "format = 1"
            if re.search(r"^format = 1$", tree, re.M) or name.startswith("fault-"):
                continue
            with self.subTest(name):
                # written in format 4 both are of it
                as_wide = re.sub(r"^format = 2$", "format = 4", tree, flags=re.M)
                self.assertEqual(zirofen.upgrade(zirofen.Tree.read(tree)), zirofen.upgrade(as_wide))

    def test_what_is_no_tree(self):
        for tree in ("format = 1\ncontrollers = []", "format = 2", "format = 4\ncontrollers = []\n[[cgroup]]\npth = '/'"):
            with self.assertRaises(ValueError):
                zirofen.Tree.read(tree)


class PageTest(unittest.TestCase):
    def test_the_call_is_that_of_the_header(self):
        call = re.search(r"^int zirofen_run\(.*?\);$", text("include/zirofen.h"), re.M | re.S)[0]
        self.assertIn(f"```c\n{call}\n```", text("docs/PROGRAMS.md"))

    def test_the_library_has_the_programs_version(self):
        versions = [re.search(r'"(\d+\.\d+\.\d+) ', text(f"crates/{it}/src/version.rt"))[1] for it in ("zirofen", "library")]
        self.assertEqual(versions[0], versions[1])
        self.assertIn(f'version = "{versions[0]}"', text("python/pyproject.toml"))

    def test_examples(self):
        environment = {**os.environ, "PYTHONPATH": f"{TOP}/python"}
        rows = [("delegation", "hand it out\n"),
                ("delegation-limit-writable",
                 "keep it: Escapes(operations=('set /c0 memory.max max',))\nor before: chown /c0 memory.max 0:0\n")]
        for name, said in rows:
            words = [sys.executable, "-B", f"{TOP}/examples/before.py", f"{TOP}/examples/{name}.toml"]
            self.assertEqual(subprocess.run(words, env=environment, capture_output=True, text=True).stdout, said)
        shell = subprocess.run(["sh", "examples/before.sh"], cwd=TOP, capture_output=True, text=True)
        self.assertEqual((shell.returncode, shell.stdout.splitlines()[-1]), (0, "hand it out"), shell.stderr)


if __name__ == "__main__":
    unittest.main()
