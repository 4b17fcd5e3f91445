"""The machine that refuses as little as containment takes, act by act, and what judges by it."""
import importlib.machinery
import importlib.util
import os
import random
import sys
import unittest
from unittest import mock

FOLDER = os.path.dirname(os.path.dirname(os.path.abspath(__file__)))
sys.path.insert(0, FOLDER)
from second import machine, rules, texts
from second.machine import REFUSALS, Machine
from second.rules import CONTROL, DEPTH, DESCENDANTS, DIR, MAX, PROCS, STANDING, Entry
from trials import cases, judged, small, steps, walks

EXAMPLES = os.path.join(FOLDER, "..", "..", "examples")
USER = (1000, (5,))
MINE, ROOTS = Entry(1000, 0, 0o644), Entry(0, 0, 0o644)
TOP = ("s",)


def made(owned=(), limits=None):
    """The root with a subtree and a cgroup in it, and beside it another one; what is owned is the user's."""
    paths = [(), TOP, TOP + ("i",), ("b",)]
    cgroups = {path: {file: (MINE if (path, file) in owned else ROOTS, None) for file in STANDING} for path in paths}
    for path in paths:
        cgroups[path].update({file: (MINE if (path, file) in owned else ROOTS, MAX) for file in (DESCENDANTS, DEPTH, "pids.max")})
    for file, value in (limits or {}).items():
        cgroups[TOP][file] = (ROOTS, value)
    return Machine(cgroups, {1: TOP, 2: ("b",)})


def emptied(start):
    """Without the cgroup in the subtree."""
    return Machine({path: files for path, files in start.cgroups.items() if path != TOP + ("i",)}, start.live)


def example(name):
    with open(os.path.join(EXAMPLES, name), "rb") as text:
        return text.read()


class MachineTest(unittest.TestCase):
    def test_each_act_is_refused_for_its_own_reason(self):
        plain, small_one = made(), made(limits={DESCENDANTS: 1, DEPTH: 1})
        for start, act, names in (
                (plain, ("move", 1, ("b",)), ["of a move without the common ancestor"]),
                (plain, ("mkdir", TOP, {}), ["of a mkdir where something is"]),
                (small_one, ("mkdir", TOP + ("n",), {}), ["of a mkdir without room for descendants"]),
                (small_one, ("mkdir", TOP + ("i", "n"), {}), ["of a mkdir without room for descendants", "of a mkdir without room for levels"]),
                (plain, ("rmdir", TOP), ["of a rmdir without the parent's directory", "of a rmdir of what has a child"]),
                (plain, ("write", TOP, DEPTH, {}), ["of a write to what they can't write"]),
                (plain, ("chmod", TOP, DIR, 5, 0o777), ["of a chmod of what they don't own"]),
                (plain, ("enable", (), {}), ["of an enabling without the control file"]),
                (plain, ("fork", 1, 2), ["of a fork into a PID that lives"])):
            self.assertEqual(machine.bars(start, USER, act), names)
            self.assertEqual(machine.step(start, USER, act), (start, False))
            self.assertTrue(machine.step(start, USER, act, frozenset(names))[1])

    def test_what_acts_leave(self):
        start = made({((), PROCS), ((), DIR), ((), CONTROL), (("b",), DEPTH), (("b",), PROCS)})
        self.assertEqual(machine.step(start, USER, ("move", 1, ("b",)))[0].live, {1: ("b",), 2: ("b",)})
        self.assertEqual(machine.step(start, USER, ("move", 7, ("b",)))[0], start)
        self.assertNotIn(("b",), machine.step(start, USER, ("rmdir", ("b",)))[0].cgroups)
        left = machine.step(start, USER, ("write", ("b",), DEPTH, {DEPTH: 3, "pids.max": 4}))[0].cgroups[("b",)]
        self.assertEqual((left[DEPTH], left["pids.max"], left[DESCENDANTS]), ((MINE, 3), (ROOTS, 4), (ROOTS, MAX)))
        left = machine.step(start, USER, ("chmod", ("b",), PROCS, 5, 0o020))[0].cgroups[("b",)]
        self.assertEqual(left[PROCS], (Entry(1000, 5, 0o020), None))
        left = machine.step(start, USER, ("enable", (), {TOP: {"cpu.max": (MINE, "1 2")}}))[0].cgroups
        self.assertEqual(({*left[TOP]}, {*left[("b",)]}, {*left[TOP + ("i",)]}),
                         ({*STANDING, "cpu.max"}, {*STANDING}, {*STANDING, DESCENDANTS, DEPTH, "pids.max"}))
        self.assertEqual(machine.step(start, USER, ("fork", 1, 9))[0].live, {1: TOP, 2: ("b",), 9: TOP})
        self.assertEqual(machine.step(start, USER, ("exit", 1))[0].live, {2: ("b",)})

    def test_what_is_broken(self):
        start = made(limits={DESCENDANTS: 1, DEPTH: 1})
        limits = machine.limits_of(start, TOP)
        for act, what in ((("rmdir", TOP), "gone"), (("move", 2, TOP + ("i",)), "crossed 2"), (("write", TOP, DEPTH, {DEPTH: MAX}), "limits"),
                          (("mkdir", TOP + ("n",), {}), "counts"), (("move", 1, TOP + ("i",)), None)):
            self.assertEqual(machine.broken(limits, start, machine.done(start, act), TOP), what)

    def test_guards(self):
        for owned, names in (((), []), ([((), PROCS)], ["above"]), ([(TOP, "pids.max")], ["limits"]),
                             ([((), CONTROL), ((), DIR)], ["control", "dir"]), ([(TOP, PROCS), (TOP, DIR), (("b",), PROCS)], [])):
            self.assertEqual(machine.guards_failed(made(owned), USER, TOP), names)
        self.assertEqual(machine.guards_failed(made(limits={DEPTH: 0}), USER, TOP), ["fits"])

    def test_steps_of_the_exact_model_are_acts(self):
        counts = [steps.compared(random.Random(number), small.random_state(random.Random(number)), None, small.USERS[0], 30) for number in range(40)]
        self.assertEqual([wrong for _, wrong in counts if wrong], [])
        self.assertGreater(sum(count for count, _ in counts), 200)

    def test_a_wrong_step_of_the_exact_model_is_found(self):
        def compared():
            return [it for number in range(40) for it in steps.compared(random.Random(number), small.random_state(random.Random(number)), None,
                                                                       small.USERS[0], 30)[1]]
        with mock.patch.dict(rules.NEXT, {"set": lambda state, *_: state}):
            self.assertEqual({it.removeprefix("no act of the machine: ").split()[0] for it in compared()}, {"set"})


class WalksTest(unittest.TestCase):
    def test_what_is_guarded_is_never_broken(self):
        rng, start = random.Random(3), made(limits={DESCENDANTS: 3})
        for others in ([], [(1001, ())]):
            self.assertEqual([what for what in (walks.fault_of(rng, walks.Walk(start, TOP, [USER], others)) for _ in range(300)) if what], [])

    def test_what_is_left_out_is_found(self):
        owned = {((), PROCS): "above", (TOP, DEPTH): "limits", ((), CONTROL): "control", ((), DIR): "dir"}
        for at, guard in owned.items():
            self.assertEqual(machine.guards_failed(made([at]), USER, TOP), [guard])
            self.assertTrue(self.is_broken(emptied(made([at])), frozenset(["a guard"])), guard)
        self.assertTrue(self.is_broken(made(limits={DEPTH: 0}), frozenset(["a guard"])))
        deep = ("p", "s")
        above = Machine({**made([((), DIR)]).cgroups, ("p",): made().cgroups[("b",)], deep: made().cgroups[TOP]}, {1: deep})
        for name in REFUSALS:
            limits = {DEPTH: 1} if "levels" in name else {DESCENDANTS: 1}
            start, top = (above, deep) if name == "of a rmdir of what has a child" else (made(limits=limits), TOP)
            if name == "of a rmdir without the parent's directory":
                start = emptied(start)
            self.assertEqual(machine.guards_failed(start, USER, top), [])
            self.assertTrue(self.is_broken(start, frozenset([name]), top), name)

    def is_broken(self, start, left_out, top=TOP):
        rng = random.Random(1)
        return any(walks.fault_of(rng, walks.Walk(start, top, [USER], left_out=left_out)) for _ in range(2000))


class JudgedTest(unittest.TestCase):
    def test_a_wrong_yes_is_found(self):
        words = ["check", "--uid", "1000", "--subtree", "/c0"]
        said = (b"contained\n", 0, b"")
        self.assertEqual(judged.fault_of(cases.Case(words, example("delegation.toml")), said), "")
        self.assertEqual(judged.fault_of(cases.Case(words, example("delegation-ancestor-owned.toml")), (b"escapes\n", 1, b"")), "")
        wrong = [judged.fault_of(cases.Case([*words, *["--gid", str(gid)]], example("delegation-ancestor-owned.toml")), said) for gid in range(20)]
        self.assertTrue(all("contained, by what is written, and a walk of the machine has /c0" in what for what in wrong if what))
        self.assertTrue(any(wrong))

    def test_what_is_asked(self):
        tree = example("delegation.toml")
        start, users, tops = judged.asked(cases.Case(["audit", "--uid", "1000", "--uid", "1001:5", "--subtree", "/c0"], tree))
        self.assertEqual((users, tops, start), ([(1000, ()), (1001, (5,))], [("c0",)], machine.view(texts.tree_of(tree))))
        check = ["check", "--uid", "1000", "--subtree", "/c0"]
        for words, text in ((check[:3], tree), (["settle", *check[1:]], tree), (check, b"format = 9"), ([*check, "--tree", "none"], tree)):
            self.assertIsNone(judged.asked(cases.Case(words, text)))

    def test_what_is_left_out_is_told(self):
        said, words = (b"contained\n", 0, b""), ["check", "--uid", "1000", "--subtree", "/c0"]
        asked = [cases.Case([*words, "--gid", str(gid)], example("delegation.toml")) for gid in range(8)]
        told = {name for case in asked for name in judged.told_by(judged.ALL, case, said)}
        self.assertIn(judged.LEFT_OUT[list(REFUSALS).index("of a write to what they can't write")], told)
        self.assertFalse(told & {*judged.GUARDS_LEFT_OUT})
        opened = cases.Case(words, example("delegation-ancestor-owned.toml"))
        self.assertLessEqual({*judged.told_by(judged.ALL, opened, (b"escapes\n", 1, b""))}, {*judged.GUARDS_LEFT_OUT[:1]})


def load_walks():
    loader = importlib.machinery.SourceFileLoader("walks_script", os.path.join(FOLDER, "walks"))
    module = importlib.util.module_from_spec(importlib.util.spec_from_loader(loader.name, loader))
    loader.exec_module(module)
    return module


class ScriptTest(unittest.TestCase):
    def test_trees_are_tried(self):
        script = load_walks()
        counts, wrong, told = script.try_chunk((5, range(40), True))
        self.assertEqual(wrong, [])
        self.assertGreater(min(counts[name] for name in ("steps", "pairs", "walks of 1", "walks of 2", "walks among others")), 0)
        self.assertIn("of a write to what they can't write", told)


if __name__ == "__main__":
    unittest.main()
