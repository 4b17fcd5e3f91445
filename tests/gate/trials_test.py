"""Tests of which trials gate/trials begins behind the reading of a tree."""
import importlib.machinery
import importlib.util
import sys
import unittest

from checkout import TOP

sys.path.append(f"{TOP}/tests/program")
from trial_rows import Trial, all_trials  # noqa: E402


def loaded():
    loader = importlib.machinery.SourceFileLoader("trials", f"{TOP}/gate/trials")
    module = importlib.util.module_from_spec(importlib.util.spec_from_loader("trials", loader))
    loader.exec_module(module)
    return module


TRIALS = loaded()


def row(call, tree, words=(), free=False):
    return Trial(call, ("bytes", *words), tree, "", free)


class ReadingTest(unittest.TestCase):
    def test_each_call_and_each_tree_is_read_wholly(self):
        rows = [it for it in all_trials() if it.words[0] == "bytes" and not it.free]
        whole = {*rows} - TRIALS.read_elsewhere(all_trials())
        self.assertEqual({it.call for it in whole}, {it.call for it in rows})
        self.assertEqual({it.tree for it in whole}, {it.tree for it in rows})

    def test_few_are(self):
        rows = [row("may", "a"), row("check", "a"), row("check", "b"), row("check", "b", ["more"])]
        self.assertEqual(TRIALS.read_elsewhere(rows), {rows[1], rows[3]})

    def test_others_have_all(self):
        rows = [Trial("may", ("rows", "may"), "a", "", False), row("may", "a"), row("may", "a", free=True)]
        self.assertEqual(TRIALS.read_elsewhere(rows), set())

    def test_the_allocations_of_a_reading_are_counted(self):
        made = 57
        for before in (0, 3, 40):
            def run(_program, _trial, spent, begin, _end, before=before):
                if begin:
                    return f"begin {TRIALS.REFUSED - 1 - before}\n"
                return "end 1\n" if TRIALS.REFUSED - spent <= before + made else "after\n"

            was, TRIALS.run = TRIALS.run, run
            try:
                self.assertEqual(TRIALS.made_by_reading("program", "tree"), made)
            finally:
                TRIALS.run = was


if __name__ == "__main__":
    unittest.main()
