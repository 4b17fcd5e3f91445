"""The rows of format 4 by the second model, and what format 4 has in common with format 2."""
import os
import random
import re
import sys
import tomllib
import unittest

sys.path.insert(0, os.path.dirname(os.path.dirname(os.path.abspath(__file__))))
from second import commands, documents, rules, texts
from second.limit_files import LIMIT_FILES, TEXT_FILES
from trials import cases, format_4, limit_files, programs, spelling, trees
import rows_of_format_4 as rows

MOST, LARGE = documents.MOST_BYTES, documents.MOST_LARGE


def changed(tree, change):
    for line, other in change:
        if tree.count(line) != 1:
            raise ValueError(f"stands not once: {line}")
        tree = tree.replace(line, other)
    return tree.encode()


def ask(words, tree, operations=()):
    """The lines of an answer, with those of a fault, and its status."""
    case = cases.Case(words.split(" "), tree, {"OPS": "".join(line + "\n" for line in operations).encode()})
    lines, status, fault = case.expected()
    return lines + [fault] * bool(fault), status


def written_of(tree):
    """The document that is written of a tree."""
    lines, status = ask("upgrade", tree)
    assert status == 0, lines
    return tomllib.loads("\n".join(lines))


class RowsTest(unittest.TestCase):
    def test_texts(self):
        for change, answer in rows.TEXTS:
            self.assertEqual(ask(rows.CHECK, changed(rows.H, change)), ([answer], 3 if answer.startswith("fault") else 0), change)

    def test_answers(self):
        for tree, change, words, lines, status in rows.ANSWERS:
            said = ask(words, changed(tree, change))
            if programs.is_open(said[0]):
                self.assertTrue(said[0][0].is_right(lines, status), words)
            else:
                self.assertEqual(said, (lines, status), (change, words))

    def test_outcomes(self):
        for tree, outcomes in ((rows.H, rows.OUTCOMES), (rows.H, rows.OUTCOMES_OF_TEXTS), (rows.B, rows.OUTCOMES_OF_NAMED)):
            lines = [outcome for _, outcome in outcomes]
            self.assertEqual(ask(rows.AS_ONE, tree.encode(), [operation for operation, _ in outcomes]), ([*lines, "kept"], 0))

    def test_verdicts(self):
        for change, operations, lines in rows.VERDICTS:
            self.assertEqual(ask(rows.AS_ONE, changed(rows.H, change), operations), (lines, int(lines[-1] != "kept")), operations)

    def test_words(self):
        for form, line in rows.BAD_WORDS:
            said = ask(rows.AS_ONE, (rows.H if form == 4 else rows.TWO).encode(), [line])
            self.assertEqual(said, (["fault: line 1 bad-word"], 3), line)
        for form, line in rows.GOOD_WORDS:
            said = ask(rows.AS_ONE, (rows.H if form == 4 else rows.TWO).encode(), [line])
            self.assertEqual(said, (["refused no-access / cgroup.subtree_control", "kept"], 0), line)

    def test_words_of_files_whose_values_are_texts(self):
        for name in TEXT_FILES:
            for line in (f"set / {name} max", f"chmod / {name} 644"):
                for tree in (rows.H, rows.EVERY):
                    self.assertEqual(ask(rows.AS_ONE, tree.encode(), [line]), ([f"refused no-such-file / {name}", "kept"], 0))
                self.assertEqual(ask(rows.AS_ONE, rows.TWO.encode(), [line]), (["fault: line 1 bad-word"], 3))
        for value in rows.VALUES:
            line = f"set / io.max {value}"
            self.assertEqual(ask(rows.AS_ONE, rows.H.encode(), [line]), (["refused no-such-file / io.max", "kept"], 0), line)
            self.assertEqual(commands.operation_of(line.encode(), 4), ("set", (), "io.max", value))
            self.assertEqual(commands.spelling(("set", (), "io.max", value)), line)

    def test_each_limit_file_has_a_key_where_it_stands(self):
        every, text = format_4.ALL_CONTROLLERS, rows.EVERY
        for name in TEXT_FILES:
            controller, loose = LIMIT_FILES[name].controller, LIMIT_FILES[name].loose
            key = f"files = {{ '{name}' = {{ uid = 1000 }} }}"
            self.assertEqual(ask(rows.CHECK, changed(text, [("'/s'", f"'/s', {key}")])), (["escapes", f"set /s {name} {loose}"], 1))
            self.assertEqual(ask(rows.CHECK, changed(text, [("'/', ", f"'/', {key}, ")])), (["fault: tree no-such-file cgroup 1"], 3))
            other = changed(text, [("'/s'", f"'/s', {key}"), (f"enabled = {[*every]}", f"enabled = {[c for c in every if c != controller]}")])
            expected = (["fault: tree no-such-file cgroup 2"], 3) if controller else (["escapes", f"set /s {name} {loose}"], 1)
            self.assertEqual(ask(rows.CHECK, other), expected)

    def test_devices_of_values(self):
        for name, value, text in rows.DEVICES:
            tree = changed(rows.EVERY, [("'/s'", f"'/s', files = {{ '{name}' = {{ uid = 1000, value = {value} }} }}")])
            escape = f"set /s {name} {text}"
            self.assertEqual(ask(rows.CHECK, tree), (["escapes", escape], 1), (name, value))
            self.assertEqual(ask(rows.AS_ONE, tree, [escape]), (["ok", "broken 1 limits"], 1), (name, value))

    def test_upgrade_of_named_files(self):
        for value, written in rows.VALUES_OF_TEXTS:
            text = changed(rows.H, [rows.named(f'"io.max" = {{ value = {value} }}', '"cpu.max" = { uid = 5, gid = 6, mode = 0o660 }')])
            files = {row["path"]: row["files"] for row in written_of(text)["cgroup"]}
            self.assertEqual(files["/s"]["io.max"], {"uid": 0, "gid": 0, "mode": 0o644, "value": written}, value)
            self.assertEqual(files["/s"]["cpu.max"], {"uid": 5, "gid": 6, "mode": 0o660})
            self.assertEqual({name for path, names in files.items() for name in names if name in TEXT_FILES}, {"io.max", "cpu.max"})
            self.assertEqual(ask("upgrade", spelling.document(random.Random(value), written_of(text))), ask("upgrade", text))

    def test_upgrade(self):
        for text in (rows.UPGRADED, rows.WRITTEN):
            self.assertEqual(written_of(text.encode()), tomllib.loads(rows.WRITTEN))
        for form, written in ((1, 2), (2, 2), (4, 4)):
            text = changed(rows.TWO, [("format = 2", f"format = {form}")])
            self.assertEqual(written_of(text)["format"], written)


class SizesTest(unittest.TestCase):
    def test_beginnings(self):
        for begins, read in rows.BEGINNINGS:
            self.assertEqual(documents.is_large(begins), read, begins)
            most = LARGE if read else MOST
            with self.assertRaisesRegex(documents.Fault, "too-long"):
                documents.document_of(begins + b"#" * (most + 1 - len(begins)))

    def test_bytes(self):
        for begins, most in ((b"format = 4\n", LARGE), (b"controllers = []\nformat = 4\n", LARGE), (b"\nformat = 4\n", MOST), (b"", MOST)):
            self.assertEqual(documents.document_of(begins + b"#" * (most - len(begins))), tomllib.loads(begins.decode()))

    def test_rows(self):
        for name in ("cgroup", "process"):
            for form, most in ((1, 4096), (2, 4096), (4, 65536)):
                for count, fault in ((most, f"shape {name} 1"), (most + 1, "too-many")):
                    text = f"format = {form}\ncontrollers = []\n{name} = [{count * '1,'}]\n"
                    self.assertEqual(ask(rows.CHECK, text.encode()), ([f"fault: tree {fault}"], 3), (form, name, count))

    def test_as_many_rows_as_may_be_are_read(self):
        words = "may --uid 1000 --pid 10 --to /"
        for row, count in (('[[process]]\npid = {0}\nuid = 0\nat = "/"\n', 65536), ('[[cgroup]]\npath = "/c{0}"\n', 8000)):
            text = 'format = 4\ncontrollers = []\n[[cgroup]]\npath = "/"\n' + "".join(row.format(number) for number in range(1, count + 1))
            self.assertEqual(ask(words, text.encode()), (["refused no-access / cgroup.procs"], 1))


class FormatTest(unittest.TestCase):
    def test_a_tree_of_format_2_says_the_same_in_format_4(self):
        same = 0
        for number in range(150):
            case = cases.random_case("format", number, frozenset(commands.OPTIONS) - {"upgrade"})
            said = programs.expected_of(case)
            if said and not programs.is_open(said[0]) and not re.search("tree|bad-word", said[2]) and b"format = 2" in self.tree_of(case):
                other = cases.Case(case.words, self.in_format_4(case.stdin), {}, case.full)
                other.files.update((name, self.in_format_4(data)) for name, data in case.files.items())
                self.assertEqual(programs.expected_of(other), said)
                same += 1
        self.assertGreater(same, 20)

    def tree_of(self, case):
        return case.files.get(cases.TREE, case.stdin)

    def in_format_4(self, data):
        return data.replace(b"format = 2", b"format = 4")

    def test_random_trees_are_trees_and_written_anew_the_same(self):
        for number in range(200):
            rng = random.Random(number)
            tree = trees.tree_of_state(rng, wide=True) if number % 2 else trees.random_tree(rng)
            format_4.widen(rng, tree)
            state = texts.tree_of(spelling.document(rng, tree.document(rng)))
            self.assertEqual(state.form, 4)
            document = commands.document_of(state)
            self.assertEqual(texts.tree_of(spelling.document(rng, document)), state)

    def test_random_trees_name_each_limit_file(self):
        found = set()
        for number in range(60):
            rng = random.Random(number)
            tree = trees.random_tree(rng)
            format_4.widen(rng, tree)
            limit_files.name_some(rng, tree)
            state = texts.tree_of(spelling.document(rng, tree.document(rng)))
            found.update(name for path in state.cgroups for name in limit_files.named_at(state, path))
            self.assertEqual(texts.tree_of(spelling.document(rng, commands.document_of(state))), state)
        self.assertEqual(found, {*TEXT_FILES})

    def test_random_trees_have_each_controller(self):
        found = set()
        for number in range(60):
            rng = random.Random(number)
            tree = trees.random_tree(rng)
            format_4.widen(rng, tree)
            found.update(*(row.get("enabled", []) for path, row in tree.rows.items() if path))
        self.assertEqual(found, {*format_4.ALL_CONTROLLERS})


if __name__ == "__main__":
    unittest.main()
