"""What the second model says against everybody, beside what check's guards say of each user that a small tree can tell apart."""
import copy
from dataclasses import replace
import functools
import itertools
import os
import random
import sys
import unittest

sys.path.insert(0, os.path.dirname(os.path.dirname(os.path.abspath(__file__))))
from second import commands, everybody, rules
from second.rules import CONTROL, DEPTH, DESCENDANTS, DIR, PROCS
from trials import small
from search_test import state_of
from trials_test import example

# 5,000 by hand: python3 tests/model/tests/everybody_test.py 5000
TREES = 150
MOST_GIDS = 4


def entries_of(state):
    return [entry for cgroup in state.cgroups.values() for entry in cgroup.entries.values()]


def users_of(state, asked):
    """All who are meant and whom a tree can tell apart: each uid of an entry or of a list and one more, with each set of the entries' gids,
    but who is left out or in a listed group that doesn't list them."""
    uids = {entry.uid for entry in entries_of(state)} | set(asked.but) | {uid for _, some in asked.groups for uid in some} | {0}
    gids = sorted({entry.gid for entry in entries_of(state)})
    sets = [some for count in range(len(gids) + 1) for some in itertools.combinations(gids, count)]
    listed = {gid: {uid for other, some in asked.groups if other == gid for uid in some} for gid, _ in asked.groups}
    return [(uid, some) for uid, some in itertools.product([*sorted(uids), max(uids) + 1], sets)
            if uid and uid not in asked.but and all(uid in listed.get(gid, {uid}) for gid in some)]


def asked_of(rng, state):
    """Everybody, and at times all but some of the tree's uids, with who is in some of its groups."""
    uids, gids = [sorted({getattr(entry, name) for entry in entries_of(state)} | {1000}) for name in ("uid", "gid")]
    def some(values):
        return tuple(rng.choice([*values, 4000]) for _ in range(rng.randrange(3)))

    return rng.choice([everybody.Asked(), everybody.Asked(some(uids), tuple((gid, some(uids)) for gid in some(gids)))])


def is_member(user, line):
    """Whether a user is of the class that a line names, by what the line says alone."""
    *_, owned, _, name = line.split(" ")
    uid, gid = map(int, owned.split(":"))
    return name == ("owner" if user[0] == uid else "group" if gid in user[1] else "others")


def small_tree(rng):
    """A small tree of either format, in which at times few of the entries that matter are reached."""
    state = small.random_state(rng)
    if rng.random() < 0.3:
        state = small.with_named(rng, small.in_format_4(rng, state))
    for path, entry_of in [(path, cgroup.entries) for path, cgroup in state.cgroups.items()]:
        for name, entry in [each for each in entry_of.items() if rules.is_shown(state, path, each[0])]:
            uid, mode = rng.choice([0, entry.uid, 1000, 1002]), rng.choice([entry.mode, 0o644, 0o644, 0o664, 0o646, 0o222, 0o400])
            entry_of[name] = rules.Entry(uid, rng.choice([0, entry.gid, 5, 7]), mode, entry.value) if rng.random() < 0.15 else entry
    return state


def compare(test, state, asked, counts):
    """Of each subtree of a tree: whoever check doesn't call contained is in a class that is listed, by the entries that they reach."""
    users = users_of(state, asked)
    for top in [path for path in state.cgroups if path]:
        lines = everybody.lines_of(state, top, asked)
        over = f"fails already-over {rules.text_of(top)}"
        for user in users:
            failed = rules.failures(state, user, top)
            by_entry = [f"fails {guard} {rules.text_of(path)} {name}" for guard, path, name in failed if name]
            told = [line for line in lines if line != over and is_member(user, line)]
            test.assertEqual([" ".join(line.split(" ")[:4]) for line in told], by_entry, (state, top, user))
            test.assertEqual(over in lines, any(name is None for *_, name in failed))
        answers = {not rules.failures(state, user, top) for user in users}
        test.assertEqual(not lines, answers == {True}, (state, top))
        # each class that is listed has a member among them
        for line in lines[:-1] if over in lines else lines:
            test.assertTrue(any(is_member(user, line) for user in users), line)
        counts["contained" if not lines else "over" if lines == [over] else "listed"] += 1
    counts["users"] += len(users)


def compared(test, trees, seed=0):
    counts = dict.fromkeys(("contained", "over", "listed", "users", "trees"), 0)
    number = 0
    while counts["trees"] < trees:
        rng = random.Random(f"{seed} {number}")
        state, number = small_tree(rng), number + 1
        if len({entry.gid for entry in entries_of(state)}) <= MOST_GIDS:
            compare(test, state, asked_of(rng, state), counts)
            counts["trees"] += 1
    return counts


def made(state, line):
    """A tree with a line of advice carried out; `fails` changes nothing."""
    kind, path, name, *value = line.split(" ")
    if kind == "fails":
        return state
    new = copy.deepcopy(state)
    cgroup = new.cgroups[rules.path_of(path)]
    turned = (dict(zip(("uid", "gid"), map(int, value[0].split(":")))) if kind == "chown" else
              {"mode": int(value[0], 8)} if kind == "chmod" else {"value": int(value[0])})
    cgroup.entries[name] = replace(cgroup.entries[name], **turned)
    return new


def compare_advice(test, state, asked, tops, counts):
    """With all changes made nobody is let in, with any one left out somebody is, and nobody is let in anywhere who wasn't."""
    lines = everybody.advice(state, tops, asked)
    changes = [line for line in lines if not line.startswith("fails ")]
    test.assertEqual(not lines, not any(everybody.lines_of(state, top, asked) for top in tops))
    after = functools.reduce(made, changes, state)
    test.assertFalse(any(everybody.lines_of(after, top, asked) for top in tops), (state, tops, asked, lines))
    for left in range(len(changes)):
        short = functools.reduce(made, changes[:left] + changes[left + 1:], state)
        test.assertTrue(any(everybody.lines_of(short, top, asked) for top in tops), (state, tops, asked, changes[left]))
    held = [(user, top) for user in users_of(state, asked) for top in state.cgroups if top and not rules.failures(state, user, top)]
    test.assertEqual([pair for pair in held if rules.failures(after, *pair)], [])
    told = [line for top in dict.fromkeys(tops) for line in everybody.lines_of(state, top, asked)]
    test.assertEqual({line for line in lines if line.startswith("fails ")}, {*told})
    for change in changes or ["none"]:
        counts[change.split(" ")[0]] += 1


def advised(test, trees, seed=0):
    counts = dict.fromkeys(("chown", "chmod", "set", "none"), 0)
    for number in range(trees):
        rng = random.Random(f"{seed} {number} advice")
        state = small_tree(rng)
        below = [path for path in state.cgroups if path]
        if below and len({entry.gid for entry in entries_of(state)}) <= MOST_GIDS:
            compare_advice(test, state, asked_of(rng, state), rng.choices(below, k=rng.choice([1, 1, 2, 3])), counts)
    return counts


class EverybodyTest(unittest.TestCase):
    def test_whom_check_does_not_call_contained_is_in_a_listed_class(self):
        counts = compared(self, TREES)
        for what in ("contained", "over", "listed"):
            self.assertGreater(counts[what], 0, what)

    def test_all_changes_of_the_advice_let_nobody_in_and_each_is_needed(self):
        counts = advised(self, TREES)
        for what in ("chown", "chmod", "set", "none"):
            self.assertGreater(counts[what], 0, what)

    def test_changes_by_hand(self):
        for entry, asked, changes in (
                ((1000, 5, 0o644), everybody.Asked(), ["chown E 0:5"]), ((0, 5, 0o664), everybody.Asked(), ["chmod E 644"]),
                ((1000, 5, 0o777), everybody.Asked(), ["chown E 0:5", "chmod E 755"]),
                ((1000, 5, 0o664), everybody.Asked((), ((5, (1000,)),)), ["chown E 0:5", "chmod E 644"]),
                ((1000, 5, 0o666), everybody.Asked((), ((5, ()),)), ["chown E 0:5", "chmod E 664"]),
                ((1000, 5, 0o664), everybody.Asked((1000,)), ["chmod E 644"]), ((1000, 5, 0o664), everybody.Asked((1000,), ((5, (1000,)),)), [])):
            self.assertEqual(everybody.changes_of(rules.Entry(*entry), "E", asked), changes, entry)

    def test_classes_by_hand(self):
        for uid, mode, classes in ((0, 0o755, []), (0, 0o664, ["group"]), (0, 0o646, ["others"]), (1000, 0o400, ["owner"]),
                                   (1000, 0o662, ["owner", "group", "others"]), (1000, 0o604, ["owner"]), (0, 0o200, [])):
            self.assertEqual(everybody.classes_of(rules.Entry(uid, 50, mode), everybody.Asked()), classes)

    def test_classes_of_who_is_left_out_and_of_listed_groups(self):
        for asked, uid, classes in (
                (everybody.Asked((1000,)), 1000, ["group"]), (everybody.Asked((1001,)), 1000, ["owner", "group"]),
                (everybody.Asked((), ((50, ()),)), 0, []), (everybody.Asked((), ((50, (0, 1000)),)), 1000, ["owner"]),
                (everybody.Asked((), ((50, (0, 1000)), (51, ()), (50, (7,)))), 1000, ["owner", "group"]),
                (everybody.Asked((7,), ((50, (7,)),)), 0, []), (everybody.Asked((), ((51, ()),)), 0, ["group"])):
            self.assertEqual(everybody.classes_of(rules.Entry(uid, 50, 0o664), asked), classes, asked)

    def test_lines_are_those_of_the_guards_in_their_order(self):
        rows = [("/", "p", [], {}), ("/a", "pcd", [], {}), ("/a/s", "", [], {DEPTH: 0}), ("/a/s/x", "", [], {})]
        state = state_of(rows)
        told = [line.split(" ")[1:4] for line in everybody.lines_of(state, ("a", "s"), everybody.Asked())]
        self.assertEqual(told, [["common-ancestor", "/a", PROCS], ["common-ancestor", "/", PROCS], ["parent-control", "/a", CONTROL],
                                ["parent-dir", "/a", DIR], ["already-over", "/a/s"]])


class ReportTest(unittest.TestCase):
    def ask(self, words, name):
        lines, status, fault = commands.respond(words.split(" "), example(name), {})
        return lines + [fault] * bool(fault), status

    def test_answers(self):
        asked = "audit --everybody --subtree /c0 --subtree /c1"
        self.assertEqual(self.ask(asked, "delegation.toml"), (["contained"], 0))
        line = "fails common-ancestor / cgroup.procs 1000:0 446"
        self.assertEqual(self.ask(asked, "delegation-ancestor-owned.toml"), (
            [each for top in ("/c0", "/c1") for each in (f"subtree {top}", f"{line} owner", f"{line} others")], 1))

    def test_advice(self):
        asked = "advise --everybody --subtree /c0 --subtree /c1"
        self.assertEqual(self.ask(asked, "delegation.toml"), (["contained"], 0))
        line = "fails common-ancestor / cgroup.procs 1000:0 446"
        self.assertEqual(self.ask(asked, "delegation-ancestor-owned.toml"), (
            [f"{line} owner", f"{line} others", "chown / cgroup.procs 0:0", "chmod / cgroup.procs 444"], 1))
        self.assertEqual(self.ask(f"{asked} --but 1000", "delegation-ancestor-owned.toml"), (
            [f"{line} others", "chmod / cgroup.procs 444", "but 1000"], 1))
        told, status = self.ask("advise --everybody --subtree /c0 --subtree /c0", "delegation-over-limit.toml")
        self.assertEqual((told[0], told[1].split(" ")[:2], status), ("fails already-over /c0", ["set", "/c0"], 1))

    def test_whom_each_entry_lets_in(self):
        told, status = self.ask("explain --everybody --subtree /c0 --group 0=", "delegation-ancestor-owned.toml")
        self.assertEqual((told[:4], told[-1], status), (
            ["subtree /c0", "fails common-ancestor / cgroup.procs 1000:0 446 owner", "fails common-ancestor / cgroup.procs 1000:0 446 others",
             told[3]], "group 0=", 1))
        self.assertEqual({line.split(" ")[0] for line in told[3:-1]}, {"holds"})
        self.assertEqual([line.split(" ")[1:4] for line in told[-3:-1]], [["already-over", "/c0", file] for file in (DESCENDANTS, DEPTH)])
        told, status = self.ask("explain --everybody --subtree /c0 --subtree /c1 --subtree /c0", "delegation.toml")
        self.assertEqual(([line for line in told if not line.startswith("holds ")], status), (["subtree /c0", "subtree /c1"], 0))

    def test_a_subtree_that_is_named_again_counts_once(self):
        asked = "audit --everybody --subtree /c0"
        self.assertEqual(self.ask(f"{asked} --subtree /c0", "delegation-over-limit.toml"), self.ask(asked, "delegation-over-limit.toml"))

    def test_what_an_answer_stands_on_is_told_last(self):
        asked = "audit --everybody --but 1000 --group 7=5,06 --group 7= --but 1000 --subtree /c0"
        self.assertEqual(self.ask(asked, "delegation.toml"),
                         (["contained", "but 1000", "but 1000", "group 7=5,6", "group 7="], 0))
        self.assertEqual(self.ask(asked, "delegation-ancestor-owned.toml"), (
            ["subtree /c0", "fails common-ancestor / cgroup.procs 1000:0 446 others", "but 1000", "but 1000", "group 7=5,6", "group 7="], 1))

    def test_words(self):
        for words in ("--but", "--but x", "--but -1", "--but 4294967296", "--group 5", "--group =5", "--group 5=,", "--group 5=6,", "--group 5:6",
                      "--group 5=4294967296", "--group 5==6"):
            self.assertEqual(self.ask(f"audit --everybody --subtree /c0 {words}", "delegation.toml"), (["fault: usage"], 3), words)
        for words in ("--but 5", "--group 5="):
            self.assertEqual(self.ask(f"audit --uid 1000 --subtree /c0 {words}", "delegation.toml"), (["fault: usage"], 3), words)
        for words in ("--uid 1000 --subtree /c0", "--all --subtree /c0", "--settle --subtree /c0", "--pairs -", "", "--everybody --subtree /c0",
                      "--gid 5 --subtree /c0"):
            self.assertEqual(self.ask(f"audit --everybody {words}".strip(), "delegation.toml"), (["fault: usage"], 3), words)
        for command in ("advise", "explain"):
            for words in ("--uid 1000", "--gid 5", "--settle", "--all", "--pairs -", "--everybody", "--subtrees x"):
                self.assertEqual(self.ask(f"{command} --everybody --subtree /c0 {words}", "delegation.toml"), (["fault: usage"], 3), words)
        for paths, fault in (("/ /nowhere", "subtree root"), ("/nowhere /", "subtree missing"), ("/nowhere a", "path")):
            words = " ".join(f"--subtree {path}" for path in paths.split(" "))
            self.assertEqual(self.ask(f"audit --everybody {words}", "delegation.toml"), ([f"fault: {fault}"], 3))


if __name__ == "__main__":
    if len(sys.argv) == 2 and sys.argv[1].isdigit():
        drawn = random.SystemRandom().randrange(10 ** 9)
        print(compared(unittest.TestCase(), int(sys.argv[1]), drawn), advised(unittest.TestCase(), int(sys.argv[1]), drawn))
    else:
        unittest.main()
