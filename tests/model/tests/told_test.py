"""Tests of what tests/model/run takes of an earlier run: which case tells a mutant apart, as long as the program writes the same there."""
import importlib.machinery
import importlib.util
import os
import sys
import tempfile
import types
import unittest
from unittest import mock

MODEL = os.path.dirname(os.path.dirname(os.path.abspath(__file__)))
sys.path.insert(0, MODEL)
from trials import mutants


def loaded():
    loader = importlib.machinery.SourceFileLoader("model_run", f"{MODEL}/run")
    module = importlib.util.module_from_spec(importlib.util.spec_from_loader("model_run", loader))
    loader.exec_module(module)
    return module


RUN = loaded()
WRITTEN = [(b"one\n", 0, b""), (b"two\n", 1, b""), (b"three\n", 0, b"fault: read\n")]


class ToldTest(unittest.TestCase):
    def setUp(self):
        room = tempfile.TemporaryDirectory()
        self.addCleanup(room.cleanup)
        self.asked = []
        for it in (mock.patch.dict(os.environ, {"GATE_KEPT": f"{room.name}/kept", "GATE_ANEW": ""}),
                   mock.patch.object(mutants, "able", lambda _: ["a", "b"]), mock.patch.object(RUN.judged, "ALL", {}),
                   mock.patch.object(RUN, "tell_apart", self.tell_apart), mock.patch("builtins.print")):
            it.start()
            self.addCleanup(it.stop)

    def tell_apart(self, work):
        names, _, _, start, written = work
        self.asked.append((*names,))
        return {"a": start + 1, "b": start + 2} if len(written) > 2 else {}

    def asked_over(self, written, seed=51, known=("check",), kept=True):
        """Which mutants are tried over what a program wrote, and how many are told apart."""
        self.asked.clear()
        arguments = types.SimpleNamespace(seed=seed, kept=kept)
        pool = types.SimpleNamespace(map=lambda call, given, chunksize: [*map(RUN.tell_apart, given)])
        return [*self.asked], RUN.blindness(pool, arguments, frozenset(known), written), [*self.asked]

    def test_what_told_them_apart_is_taken(self):
        self.assertEqual(self.asked_over(WRITTEN)[1:], ((2, 0), [("a", "b")]))
        self.assertEqual(self.asked_over(WRITTEN)[1:], ((2, 0), []))

    def test_a_mutant_is_tried_again_where_the_program_writes_something_else(self):
        self.asked_over(WRITTEN)
        self.assertEqual(self.asked_over([(b"other\n", 0, b""), *WRITTEN[1:]])[2], [])
        for other in ((b"two\n", 0, b""), (b"two", 1, b""), (b"two\n", 1, b"x")):
            self.asked_over(WRITTEN)
            self.assertEqual(self.asked_over([WRITTEN[0], other, WRITTEN[2]])[2], [("a",)])

    def test_another_seed_other_commands_another_model_and_no_wish(self):
        self.asked_over(WRITTEN)
        self.assertEqual(self.asked_over(WRITTEN, seed=52)[2], [("a", "b")])
        self.assertEqual(self.asked_over(WRITTEN, known=("check", "may"))[2], [("a", "b")])
        self.assertEqual(self.asked_over(WRITTEN, kept=False)[2], [("a", "b")])
        with mock.patch.object(RUN.kept, "sums_of_files", lambda *_: {"second/rules.py": "changed"}):
            self.assertEqual(self.asked_over(WRITTEN)[2], [("a", "b")])
        self.assertEqual(self.asked_over(WRITTEN)[2], [])

    def test_fewer_cases(self):
        self.asked_over(WRITTEN)
        self.assertEqual(self.asked_over(WRITTEN[:2])[1:], ((1, 1), [("b",)]))


if __name__ == "__main__":
    unittest.main()
