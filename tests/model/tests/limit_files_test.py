"""Tests of the second model's limit files by docs/MODEL.md and docs/FORMATS.md, on states that no text is of as well."""
import os
import sys
import unittest

sys.path.insert(0, os.path.dirname(os.path.dirname(os.path.abspath(__file__))))
from second import commands, explained, lasting, limit_files, rules, texts
from second.limit_files import LIMIT_FILES, NUMBER_FILES, TEXT_FILES
from second.rules import Entry
from trials.limit_files import DEVICE_FILES, named_at, texts_at
import rows_of_format_4 as rows
import limit_table

ONE, TOP, CHILD = (1000, (7,)), ("s",), ("s", "a")
NINE, OF_NINE = rules.ALL_CONTROLLERS, rows.EVERY


def tree(text=rows.H):
    return texts.tree_of(text.encode())


def opened(name, mode=0o644):
    """H with a limit file of the subtree that is the user's, whose value isn't known."""
    return rules.with_entry(tree(), TOP, name, uid=1000, mode=mode)


def values_of(state, path):
    """The values of a path's limit files that are texts, where they are known."""
    return {name: value for name, value in state.cgroups[path].values.items() if name in TEXT_FILES}


def run(state, *lines, user=ONE):
    """The states of a run, each operation of which is accepted."""
    states = [state]
    for line in lines:
        after, refusal = rules.step(states[-1], user, commands.operation_of(line.encode(), 4))
        if refusal:
            raise ValueError(f"{line}: {refusal}")
        states.append(after)
    return states


class FilesTest(unittest.TestCase):
    def test_the_table_is_that_of_the_docs(self):
        for row, (name, file) in zip(limit_table.rows_of_docs(), LIMIT_FILES.items(), strict=True):
            form = (*file.form, False) if name in NUMBER_FILES else (None, None, False, file.form.has_devices)
            texts_tried = tuple(map(str, (file.loose, file.other)))
            self.assertEqual(row, limit_table.File(name, file.controller, *form, file.default, *texts_tried, file.since, file.at_root))

    def test_files_are_in_the_order_of_their_names_but_for_the_first(self):
        self.assertEqual((len(LIMIT_FILES), limit_files.files_in(1), limit_files.files_in(2)), (51, NUMBER_FILES, NUMBER_FILES))
        self.assertEqual(limit_files.files_in(4), [*NUMBER_FILES, *sorted(TEXT_FILES)])
        for name, row in LIMIT_FILES.items():
            self.assertEqual(name.partition(".")[0], row.controller or "cgroup")

    def test_where_files_stand(self):
        state = tree(OF_NINE)
        self.assertEqual(rules.files_at(state, ()), (rules.DESCENDANTS, rules.DEPTH))
        self.assertEqual(rules.files_at(state, TOP), (*LIMIT_FILES,))
        self.assertEqual(rules.files_at(tree(), CHILD), (rules.DESCENDANTS, rules.DEPTH, "cgroup.freeze"))
        for controller in NINE:
            some = tree(OF_NINE.replace(f"enabled = {[*NINE]}", f"enabled = ['{controller}']"))
            found = tuple(name for name in LIMIT_FILES if name.startswith((f"{controller}.", "cgroup.")))
            self.assertEqual(rules.files_at(some, TOP), found)

    def test_at_the_root_two_stand_for_anybody(self):
        for name in [*LIMIT_FILES][2:]:
            for user in ((0, ()), (0, (0,)), ONE):
                self.assertEqual(rules.bars(tree(OF_NINE), user, ("set", (), name, 100 if name in NUMBER_FILES else "0")), [f"no-such-file / {name}"])
                self.assertEqual(rules.bars(tree(OF_NINE), user, ("chmod", (), name, 0o644)), [f"no-such-file / {name}"])

    def test_values_of_a_text(self):
        for value, text in ((5, "5"), (-5, "-5"), ("5", "5"), (["5"], "5"), ("a b", "a b"), (["a", "b"], "a\nb")):
            self.assertTrue(limit_files.are_lines(value))
            self.assertEqual(limit_files.value_read("io.max", value), text)
            self.assertEqual(limit_files.value_read("io.max", limit_files.value_written("io.max", text)), text)
        self.assertEqual([limit_files.value_written("io.max", text) for text in ("5", "a b", "a\nb")], ["5", "a b", ["a", "b"]])
        for value in (5, "max"):
            self.assertEqual((limit_files.value_read("pids.max", value), limit_files.value_written("pids.max", value)), (value, value))
        for value in ("", " 1", "1 ", "1  2", "1\n2", "\xe9", [], [""], ["1", "2 "], 4096 * "x", ["1", 4096 * "x"]):
            self.assertFalse(limit_files.are_lines(value), value)
        self.assertTrue(limit_files.are_lines([4095 * "x", 4095 * "y"]))
        self.assertEqual([limit_files.is_value(length * "x") for length in (3800, 3801)], [True, False])

    def test_what_a_text_names(self):
        state = tree(rows.H.replace(rows.WEIGHT, '"io.weight" = {}\n"io.max" = { uid = 5, gid = 6, mode = 0o60, value = ["b", "a"] }'))
        self.assertEqual(named_at(state, TOP), ["io.max", "io.weight"])
        self.assertEqual([state.cgroups[TOP].entries[name] for name in ("io.max", "io.weight")], [Entry(5, 6, 0o60, "b\na"), Entry()])
        self.assertEqual([line.split(" ")[3] for line in explained.first_row(state, ONE, TOP) if "limit-file" in line][-2:], ["io.max", "io.weight"])
        limits = rules.limits_of(state, TOP)
        self.assertEqual([limits[name] for name in (rules.DEPTH, "io.max", "io.weight")], ["max", "b\na", None])

    def test_what_no_text_names_is_roots_and_not_known(self):
        for text in (rows.H, OF_NINE, rows.TWO):
            state = tree(text)
            for path in state.cgroups:
                self.assertEqual(named_at(state, path), [])
                self.assertLessEqual({state.cgroups[path].entries[name] for name in texts_at(state, path)}, {Entry(0, 0, 0o644, None)})
        self.assertFalse(any(name in line for line in explained.lines_of(tree(OF_NINE), ONE, TOP) for name in TEXT_FILES))


class NamedTest(unittest.TestCase):
    def test_what_comes_is_of_whoever_brought_it(self):
        state = run(tree(), "control /s +io", "mkdir /s/b")[-1]
        own = Entry(1000, 7, 0o644)
        self.assertEqual(state.cgroups[CHILD].entries["io.max"], own)
        self.assertEqual(state.cgroups[CHILD].entries["cgroup.freeze"], Entry())
        made = state.cgroups[("s", "b")].entries
        self.assertEqual({made[name] for name in texts_at(state, ("s", "b"))}, {own})
        self.assertEqual(made[rules.DEPTH], rules.replace(own, value="max"))
        self.assertEqual(run(tree(), "control /s +io", user=(1000, ()))[-1].cgroups[CHILD].entries["io.max"], Entry(1000, 0, 0o644))

    def test_a_set_and_a_chmod_are_of_one_file(self):
        state = run(tree(), "control /s +io", "chmod /s/a io.max 600", "set /s/a io.weight default 5")[-1]
        self.assertEqual(named_at(state, CHILD), ["io.max", "io.weight"])
        self.assertEqual(state.cgroups[CHILD].entries["io.max"], Entry(1000, 7, 0o600))
        self.assertEqual(state.cgroups[CHILD].entries["io.latency"], Entry(1000, 7, 0o644))
        self.assertEqual(values_of(state, CHILD), {"io.weight": "default 5"})
        after = run(state, "set /s/a io.weight 7", "chmod /s/a io.weight 400")[-1]
        self.assertEqual(after.cgroups[CHILD].values["io.weight"], "7")

    def test_what_was_done_is_forgotten_with_its_file(self):
        state = run(tree(), "control /s +io +memory", "set /s/a io.max 1", "chmod /s/a io.max 600", "set /s/a memory.swap.max 1")[-1]
        after = run(state, "control /s -io", "control /s +io")[-1]
        self.assertEqual(named_at(after, CHILD), ["memory.swap.max"])
        self.assertEqual(after.cgroups[CHILD].entries["io.max"], Entry(1000, 7, 0o644))
        self.assertNotIn("io.max", after.cgroups[CHILD].values)
        made = run(state, "mkdir /s/b", "set /s/b io.max 1", "rmdir /s/b", "mkdir /s/b")[-1]
        self.assertEqual(named_at(made, ("s", "b")), [])


class SubtreeTest(unittest.TestCase):
    def test_a_set_at_the_subtree_breaks_it_once_its_value_is_known(self):
        first, state = run(opened("io.max"), "set /s io.max max")
        self.assertEqual(rules.verdict([first, state], TOP), "broken 1 limits")
        self.assertEqual(rules.verdict(run(state, "set /s io.max max"), TOP), "kept")
        self.assertEqual(rules.verdict(run(state, "chmod /s io.max 600", "set /s io.max 0"), TOP), "broken 2 limits")
        self.assertEqual(rules.verdict(run(opened("io.max"), "chmod /s io.max 600"), TOP), "kept")
        self.assertEqual(rules.verdict(run(tree(), "control /s +io", "set /s/a io.max max"), TOP), "kept")

    def test_guards_are_in_the_order_of_the_files(self):
        state = opened("io.max")
        found = [name for guard, _, name in rules.guarded(state, TOP) if guard == "limit-file"]
        self.assertEqual(found, [*rules.files_at(state, TOP)])
        self.assertEqual(rules.failures(state, ONE, TOP), [("limit-file", TOP, "io.max")])
        self.assertEqual(rules.answer(state, ONE, TOP), ("escapes", [("set", TOP, "io.max", rows.LOOSE)]))
        self.assertEqual(rules.answer(opened("io.max", 0o444), ONE, TOP),
                         ("escapes", [("chmod", TOP, "io.max", 0o644), ("set", TOP, "io.max", rows.LOOSE)]))
        self.assertFalse(lasting.second_row_holds(state, [ONE], TOP))
        self.assertTrue(lasting.second_row_holds(tree(), [ONE], TOP))

    def test_another_value_is_tried(self):
        for name, value, other in (("io.max", None, rows.LOOSE), ("io.max", "1", rows.LOOSE), ("misc.max", "max", "0"), ("cpu.idle", None, "0"),
                                   ("cpu.idle", "0", "1"), ("cpu.idle", "max", "0"), ("cpu.max", "max", "max 100000"),
                                   ("cpu.max", "max 100000", "max 50000"), ("cpuset.cpus.partition", "root", "member"), ("pids.max", "max", 0), ("pids.max", 5, "max"),
                                   ("memory.min", 0, "max"), ("cpu.weight", 100, 1), ("cpu.weight", 1, 100), ("cpu.weight", 10000, 100)):
            self.assertEqual(rules.other_value(name, value), other, (name, value))
        for name, row in LIMIT_FILES.items():
            self.assertEqual(rules.other_value(name, None), row.loose)
            self.assertTrue(name in DEVICE_FILES or rules.other_value(name, row.loose) == row.other, name)
            self.assertNotEqual(rules.other_value(name, row.loose), row.loose)
            self.assertTrue(rules.accepts(name, row.loose) and rules.accepts(name, row.other))

    def test_the_device_of_a_value(self):
        for value, device in ((None, ""), ("", ""), (" ", ""), (" 1", ""), ("8:0", ""), ("8:0 ", ""), ("8:0 1", "8:0"), ("8:0  1", "8:0"), ("8:0 \n", "8:0"),
                              ("8:0\n8:16 1", ""), ("8:0 1\n8:16 1", "8:0"), ("8:0\t1 1", ""), ("\x7f 1", ""), ("\xe9 1", ""), ("! 1", "!"),
                              ("~/ 1", "~/"), (255 * "d" + " 1", 255 * "d"), (256 * "d" + " 1", ""), (255 * "d", "")):
            for name in TEXT_FILES:
                self.assertEqual(limit_files.device_of(name, value), device if name in DEVICE_FILES else "", (name, value))

    def test_the_text_that_is_tried_stands_behind_the_device(self):
        self.assertEqual(len(DEVICE_FILES), 7)
        for name in DEVICE_FILES:
            loose, other = LIMIT_FILES[name].loose, LIMIT_FILES[name].other
            for value, text in (("a 1", loose), (f"a {loose}", other), (f"a {other}", loose), (f"a {loose} ", loose), (f"a {loose} 1", loose)):
                self.assertEqual(rules.other_value(name, value), f"a {text}", (name, value))

    def test_the_other_text_is_tried_where_a_line_is_the_one_that_loosens(self):
        for name in TEXT_FILES:
            loose, other = LIMIT_FILES[name].loose, LIMIT_FILES[name].other
            for lines, text in (([loose], other), ([other], loose), ([loose, "b 1"], other), ([loose, loose], other), (["b", loose], other),
                                (["b", "c 1", loose, "d 1"], other), (["b", f"{loose} 1"], loose), (["b", f"1 {loose}"], loose)):
                if name not in DEVICE_FILES or " " not in lines[0]:
                    self.assertEqual(rules.other_value(name, "\n".join(lines)), text, (name, lines))

    def test_the_other_text_is_tried_where_a_line_is_the_one_that_loosens_the_device(self):
        for name in DEVICE_FILES:
            loose, other = LIMIT_FILES[name].loose, LIMIT_FILES[name].other
            for lines, text in (([f"a {loose}", "b 1"], other), ([f"a {loose}", f"a {loose}"], other), (["a 1", f"a {loose}"], other),
                                (["a 1", "b 1", f"a {loose}", "c"], other), (["a 1", f"b {loose}"], loose), (["a 1", loose], loose),
                                (["a 1", f"a {loose} 1"], loose), ([f"a {loose} 1", "b 1"], loose)):
                self.assertEqual(rules.other_value(name, "\n".join(lines)), f"a {text}", (name, lines))


if __name__ == "__main__":
    unittest.main()
