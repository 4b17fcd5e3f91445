"""Tests of a whole turn of tests/kernel/run, with the second model in the places of the program and of the kernels."""
import contextlib
import importlib.machinery
import importlib.util
import io
import os
import sys
import tempfile
import types
import unittest
import unittest.mock

TOP = os.path.dirname(os.path.dirname(os.path.abspath(__file__)))
sys.path[:0] = [TOP, os.path.join(TOP, "..", "model")]
import played
from trial import asking, comparing, machine, mutants, near, packages, settled, tally, wrong


def loaded():
    loader = importlib.machinery.SourceFileLoader("kernel_run", os.path.join(TOP, "run"))
    module = importlib.util.module_from_spec(importlib.util.spec_from_loader(loader.name, loader))
    loader.exec_module(module)
    return module


class Called(unittest.TestCase):
    """Tests that call the whole program."""

    def run_with(self, room, *words, kernel=lambda _kernel, script, _seconds, _wide: (played.Kernel().run(script), ""),
                 program=played.report_of):
        """The status of a call and what it writes."""
        run = loaded()
        patches = [unittest.mock.patch.object(asking, "report_of", program),
                   unittest.mock.patch.object(asking, "asked", program),
                   unittest.mock.patch.object(machine, "run", kernel),
                   unittest.mock.patch.object(machine, "need_machine", lambda: None),
                   unittest.mock.patch.object(packages, "kernel_of", lambda version, _kept: ("", f"linux-image-{version}")),
                   unittest.mock.patch.object(sys, "argv", ["run", "--program", sys.executable, "--kept", room, *words])]
        with contextlib.ExitStack() as stack, contextlib.redirect_stdout(io.StringIO()) as said:
            for patch in patches:
                stack.enter_context(patch)
            return run.main(), said.getvalue()


class RunTest(Called):
    def test_a_turn_runs_every_kind_on_both_kernels(self):
        with tempfile.TemporaryDirectory() as room:
            results = os.path.join(room, "results")
            status, said = self.run_with(room, "--seed", "1", "--cases", "2", "--results", results)
            self.assertEqual(status, 0, said)
            self.assertRegex(said.splitlines()[-1], r"^\d+ passed, 0 failed$")
            with open(results) as text:
                report = text.read()
            for part in ("## 6.1\n", "## 6.12\n", "- Refusals: 2 of 2 cases are refused, and 2 are let through where ",
                         "- Ways of threads and descriptors, as the list says in so many of 3 turns: dead first thread 3, exec 3, ",
                         "- Operations: 7 cases", "- Contained: 32 cases", "- Settled, escapes: 2 lists",
                         "- Settled, contained: 2 pairs", "- Wrong programs: 15 of 15 noticed by 51 cases",
                         "- Controllers: cpuset, cpu, io, memory, hugetlb, pids, rdma, misc.",
                         "- Of format 4: operations ", "one controller 16",
                         "- Limit files whose values are texts: the kernel has 23 of the 43",
                         "- Limit files whose values are texts, operations: 2 cases", "- Unexplained: 0."):
                self.assertIn(part, report)
            self.assertTrue(all(name in report.replace("\n  ", " ") for name in tally.WRONG))

    def test_refusals_alone(self):
        with tempfile.TemporaryDirectory() as room:
            status, said = self.run_with(room, "--only", "refusals")
            self.assertEqual((status, said.splitlines()[-1]), (0, "8 passed, 0 failed"))
            status, said = self.run_with(room, "--only", "refusals", kernel=lambda _kernel, script, _seconds, _wide: (
                played.Kernel().run(script).replace("\nt ok 2 rmdir", "\nt not ok 2 rmdir"), ""))
            self.assertEqual((status, said.splitlines()[-1]), (1, "6 passed, 2 failed"))
            self.assertIn("kernel: FAILED: 6.1: refusals: not refused: rmdir", said)

    def test_ways_alone(self):
        with tempfile.TemporaryDirectory() as room:
            status, said = self.run_with(room, "--only", "ways")
            self.assertEqual((status, said.splitlines()[-1]), (0, "30 passed, 0 failed"))
            status, said = self.run_with(room, "--only", "ways", kernel=lambda _kernel, script, _seconds, _wide: (
                played.Kernel().run(script).replace("\nw exec 0 1", "\nw exec 0 0"), ""))
            self.assertEqual((status, said.splitlines()[-1]), (1, "24 passed, 6 failed"))
            self.assertIn("kernel: FAILED: 6.1: ways: exec: (0, 0) in place of (0, 1)", said)

    def test_no_two_wrong_programs_have_one_name(self):
        self.assertEqual(len(set(tally.WRONG)), len(tally.WRONG))

    def test_kinds_of_few_cases_are_in_one_boot(self):
        for cases, kinds, boots in [(12, ["escapes", "advice", "further"], [["escapes", "advice"], ["further"]]),
                                    (12, ["further"], [["further"]]), (12, ["escapes"], [["escapes"]]),
                                    (None, ["escapes", "advice"], [["escapes"], ["advice"]]),
                                    (21, ["escapes", "further"], [["escapes"], ["further"]]), (12, [], [])]:
            asked = types.SimpleNamespace(arguments=types.SimpleNamespace(cases=cases))
            self.assertEqual(loaded().Run.together(asked, kinds), boots)

    def test_a_wrong_program_that_is_not_found_fails(self):
        with tempfile.TemporaryDirectory() as room, unittest.mock.patch.object(tally, "WRONG", [*tally.WRONG, "is right"]):
            status, said = self.run_with(room, "--seed", "1", "--cases", "1", "--kernel", "6")
            self.assertEqual(status, 1)
            self.assertRegex(said.splitlines()[-1], r"^\d+ passed, 1 failed$")
            self.assertIn("not found: is right", said.replace("\n  ", " "))

    def test_wrong_programs_alone_and_one_that_is_not_noticed_fails(self):
        is_right = unittest.mock.patch.dict(wrong.CHECKS, {"asks of the first user alone": lambda *_: False})
        with tempfile.TemporaryDirectory() as room, is_right:
            status, said = self.run_with(room, "--kernel", "6", "--only", wrong.KIND)
            self.assertEqual(status, 1)
            self.assertIn("; not noticed: asks of the first user alone. So many", said.replace("\n  ", " "))
            self.assertRegex(said.splitlines()[-1], r"^\d+ passed, 1 failed$")

    def test_what_is_not_built_notices_nothing(self):
        def kernel(_kernel, script, _seconds, _wide):
            return played.Kernel().run(script).replace("\n+c /p ", "\n! 1 mkdir /p\n+c /p "), ""
        with tempfile.TemporaryDirectory() as room:
            status, said = self.run_with(room, "--kernel", "6", "--only", wrong.KIND, kernel=kernel)
            self.assertEqual(status, 1)
            self.assertIn("kernel: FAILED: wrong programs, kept as ", said)
            self.assertIn("- Wrong programs: 3 of 15 noticed", said)

    def test_each_wrong_program_is_noticed_by_made_cases(self):
        """But for the one that has trees of its own: limit_files_test."""
        for name in [it for it in wrong.NAMES if it != mutants.FORGETS]:
            with self.subTest(name), tempfile.TemporaryDirectory() as room:
                kind = settled.CONTAINED if name in wrong.SETTLES else "contained"
                status, said = self.run_with(room, "--seed", "1", "--cases", "1", "--kernel", "6", "--only", kind, "--wrong", name)
                self.assertEqual(status, 1, said)
                self.assertRegex(said, f"kernel: FAILED: {kind}, kept as ")

    def test_a_text_without_an_answer_is_a_failure_and_ends_nothing(self):
        def report_of(program, text, command, *words):
            asked.append(command)
            if command == "audit" and len(asked) % 7 == 0:
                raise asking.NoReport("status 3, fault: tree shape cgroup 2")
            return played.report_of(program, text, command, *words)
        asked = []
        with tempfile.TemporaryDirectory() as room, unittest.mock.patch.object(near, "made_cases", lambda *_: []):
            status, said = self.run_with(room, "--seed", "1", "--cases", "6", "--kernel", "6", "--only", "contained", program=report_of)
            self.assertEqual(status, 1, said)
            self.assertIn("kernel: FAILED: no answer: contained 1, draw ", said)
            self.assertRegex(said.splitlines()[-1], r"^[1-9]\d* passed, [1-9]\d* failed$")

    def test_a_case_that_cannot_be_taken_is_a_failure_and_ends_nothing(self):
        with tempfile.TemporaryDirectory() as room, unittest.mock.patch.object(comparing, "break_of", lambda *_: {}["nothing"]):
            status, said = self.run_with(room, "--seed", "1", "--cases", "1", "--kernel", "6", "--only", "escapes")
            self.assertEqual(status, 1, said)
            self.assertIn("KeyError: 'nothing'", said)

    def test_what_a_kernel_lets_through_is_found(self):
        def kernel(_kernel, script, _seconds, _wide):
            return played.Kernel().run(script).replace("o 1\n", "o 0\n"), ""
        with tempfile.TemporaryDirectory() as room:
            status, said = self.run_with(room, "--seed", "1", "--cases", "2", "--kernel", "6", kernel=kernel)
            self.assertEqual(status, 1)
            self.assertRegex(said.splitlines()[-1], r"^\d+ passed, [1-9]\d* failed$")
            self.assertTrue(os.listdir(os.path.join(room, "differing")))

    def test_a_boot_that_is_cut_fails(self):
        def kernel(_kernel, script, _seconds, _wide):
            return played.Kernel().run(script).removesuffix("end\n"), ""
        with tempfile.TemporaryDirectory() as room:
            status, said = self.run_with(room, "--seed", "1", "--cases", "2", "--kernel", "6", kernel=kernel)
            self.assertEqual(status, 1)
            self.assertIn("didn't come to its end", said)

    def test_a_machine_that_says_nothing_is_missing(self):
        for said_there, what in (("", "the machine says nothing: panic"), ("controllers \nend\n", "the kernel tells of no controllers")):
            with tempfile.TemporaryDirectory() as room:
                status, said = self.run_with(room, "--cases", "1", kernel=lambda *_: (said_there, "panic"))
                self.assertEqual((status, said), (2, f"kernel: {what}\n"))


if __name__ == "__main__":
    unittest.main()
