"""Tests of the runs of the program in which a host's questions are asked: how many these are, and that each has its answers."""
import math
import os
import random
import subprocess
import time
import unittest
from dataclasses import replace
from unittest import mock

import made_up_program
from check_test import REAL_PROGRAM, HostTest, owned
from made_up import path
from zirofen_host import fault
from zirofen_host.ask import gathered, program as asking
from zirofen_host.ask.model import Pair, Question
from zirofen_host.ask.program import Program, abilities_of
from zirofen_host.collect.model import User


def users(count, first=1000):
    return tuple(User(uid, (uid,)) for uid in range(first, first + count))


def subtrees(count, first=0):
    return tuple(path(f"/s{number}") for number in range(first, first + count))


class GatheredTest(unittest.TestCase):
    def test_each_pair_is_in_one_run(self):
        """Of questions at random, of which some have pairs in common."""
        chance = random.Random(100)
        for _ in range(50):
            questions = [Question(users(chance.randint(1, 90), chance.randint(1000, 1020)),
                                  subtrees(chance.randint(1, 90), chance.randint(0, 9))) for _ in range(chance.randint(0, 12))]
            with mock.patch.object(gathered, "ROOM", chance.choice((2_000, 900_000))):
                runs = gathered.gathered(questions, chance.choice((1, 4)))
                named = [run.pairs for run in runs if isinstance(run, gathered.Pairs)]
                self.assertLessEqual(max((gathered.size(map(gathered.pair_line, pairs)) for pairs in named), default=0), gathered.ROOM)
            asked = [pair for pairs in named for pair in pairs]
            self.assertEqual(len(asked), len(set(asked)))
            self.assertEqual({pair for run in runs for pair in gathered.pairs_of(run)},
                             {Pair(user, path) for question in questions for user in question.users for path in question.subtrees})

    def test_how_many_runs(self):
        """One of all that is of few pairs, several at once where there are many; one question, and one of many pairs, is asked of each
        user with each subtree."""
        few, many = [Question(users(2, 1000 + number), subtrees(1, number)) for number in range(100)], Question(users(70), subtrees(70))
        (run,) = gathered.gathered(few, 4)
        self.assertEqual(len(run.pairs), 200)
        self.assertEqual(gathered.gathered([many, *few], 4), [many, run])
        self.assertEqual(gathered.gathered(few[:1], 4), few[:1])
        self.assertEqual(gathered.gathered([], 4), [])
        most = [Question(users(8, 1000 + number), subtrees(1, number)) for number in range(300)]
        self.assertEqual([len(run.pairs) for run in gathered.gathered(most, 4)], [600] * 4)
        self.assertEqual([len(run.pairs) for run in gathered.gathered(most, 1)], [2400])

    def test_halves(self):
        one, two = users(2)
        a, b, c = subtrees(3)
        self.assertEqual(gathered.halves_of(Question((one, two), (a, b, c))), [Question((one, two), (a, b)), Question((one, two), (c,))])
        self.assertEqual(gathered.halves_of(Question((one, two), (a,))), [Question((one,), (a,)), Question((two,), (a,))])
        self.assertEqual(gathered.halves_of(Question((one,), (a,))), [])
        pairs = (Pair(one, a), Pair(two, b), Pair(one, c))
        self.assertEqual(gathered.halves_of(gathered.Pairs(pairs)), [gathered.Pairs(pairs[:2]), gathered.Pairs(pairs[2:])])
        self.assertEqual(gathered.halves_of(gathered.Pairs(pairs[:1])), [])


class RunsTest(HostTest):
    """Hosts with one wrong mode of root's above many delegations."""

    def below_one_mode(self, count):
        self.host.accounts(passwd="".join(f"u{uid}:x:{uid}:{uid}::/:\n" for uid in range(1000, 1000 + count)))
        self.host.cgroup("/up", modes={"cgroup.procs": 0o646})
        for number in range(count):
            self.host.cgroup(f"/up/s{number}", owners=owned(1000 + number))

    def without_time(self):
        return {**self.report(), "time": None}

    def audits(self, *can):
        """The report, and how often the program was asked of answers for it."""
        if os.path.exists(self.calls):
            os.remove(self.calls)
        self.can("all", "advise", *can)
        found = self.without_time()
        return found, sum(call[0] == "audit" for call in self.called())

    def test_as_many_runs_whatever_stands_open_above(self):
        for count in (6, 12, 40):
            self.below_one_mode(count)
            (found, runs), (before, each) = self.audits("pairs"), self.audits()
            self.assertEqual(found, before)
            self.assertEqual([answer for _, _, answer, _ in self.rows(found)], ["contained", *["unsettled common-ancestor /up"] * count])
            self.assertEqual(runs, 2)
            self.assertGreaterEqual(each, count)

    def test_what_makes_a_fault_is_found(self):
        """And all others have their answers, in runs whose number doesn't grow as the delegations do."""
        for count in (6, 40):
            self.below_one_mode(count)
            self.host.cgroup("/up/odd", owners=owned(1000))
            (found, runs), (before, _) = self.audits("pairs"), self.audits()
            self.assertEqual(found, before)
            self.assertEqual({subtree for each in found["faults"] for subtree in each["subtrees"]}, {"/up/odd"})
            # of anybody, its owner and eight more, in two runs, each of which is halved down to them
            self.assertLessEqual(runs, 2 * (1 + 2 * math.ceil(math.log2(8 * count)) + 10))

    def test_what_wasnt_asked_for_is_a_fault(self):
        asked = [Question(users(1), subtrees(1)), Question(users(1, 1001), subtrees(1, 1))]
        for lines, status in ((["pair 1000:1000 /s1", "escapes"], 1), (["pair 1000 /s0", "escapes"], 1), (["contained"], 1),
                              (["pair 1000:1000 /s0", "escapes", "pair 1000:1000 /s0", "escapes"], 1), (["pair 1000:1000 /s0"], 1),
                              (["pair 1000:1000 /s0", "contained"], 0), (["pair 1000:1000 /s0", "escapes"], 2)):
            def run(_, *words, lines=lines, status=status):
                return asking.Ended(status, lines)
            with self.subTest(lines), mock.patch.object(Program, "run", run):
                found = Program("none", f"{self.host.folder}/tree", takes_pairs=True).ask(asked)
                self.assertEqual({pair: answer.status for pair, answer in found.items()},
                                 {Pair(*users(1), *subtrees(1)): 3, Pair(*users(1, 1001), *subtrees(1, 1)): 3})

    def test_a_fault_of_all_is_told_once(self):
        def run(_, *words):
            raise told
        for told, kind in ((asking.Refused("fault: tree no-root", True), fault.Fault),
                           (asking.Refused("fault: memory", True, (), True), asking.TooLarge), (asking.Late(), fault.OutOfTime)):
            with self.subTest(told), mock.patch.object(Program, "run", run), self.assertRaises(kind):
                Program("none", f"{self.host.folder}/tree", takes_pairs=True).ask([Question(users(1), subtrees(1, at)) for at in range(9)])

    def test_whoever_takes_the_time_keeps_nobody_elses_answers(self):
        """A run of all pairs that doesn't come to its end: each person's are asked by themselves."""
        self.below_one_mode(5)
        start, slow = asking.Program.start, []

        def started(_, words):
            asked = [subtree for _, subtree in made_up_program.pairs_in(words[-1])] if words[0] == "audit" and "--pairs" in words else words
            if "/up/s3" in asked:
                slow.append(words)
                raise subprocess.TimeoutExpired(words, 1)
            return start(words)
        self.can("all", "advise", "pairs")
        clock = mock.patch.multiple(fault._Clock, end_of_asking=time.monotonic() + 100, end=time.monotonic() + 200)
        with clock, mock.patch.object(asking.Program, "start", started):
            found = self.report()
        self.assertEqual(([each["subtrees"] for each in found["faults"]], found["status"], len(slow)), ([["/up/s3"]], 3, 2))
        self.assertEqual([path for _, _, answer, path in self.rows(found) if answer.startswith("unsettled")],
                         ["/up/s0", "/up/s1", "/up/s2", "/up/s4"])

    @unittest.skipUnless(REAL_PROGRAM, "no program is there")
    def test_the_program_answers_as_it_is_asked_of_each(self):
        """And says itself that it takes pairs."""
        self.program = REAL_PROGRAM
        self.below_one_mode(20)
        self.host.cgroup("/up/s3", owners={**owned(1003), "cgroup.max.depth": 1004})
        self.assertTrue(abilities_of(REAL_PROGRAM).has_pairs)
        found = self.without_time()
        older = replace(abilities_of(REAL_PROGRAM), has_pairs=False)
        with mock.patch("zirofen_host.ask.asking.abilities_of", lambda _: older):
            self.assertEqual(self.without_time(), found)
        self.assertEqual(found["status"], 1)


if __name__ == "__main__":
    unittest.main()
