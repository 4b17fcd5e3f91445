"""Tests of what tests/model/run and tests/model/fuzz stand on; they need no program."""
import collections
import json
import os
import random
import re
import sys
import tomllib
import unittest

sys.path.insert(0, os.path.dirname(os.path.dirname(os.path.abspath(__file__))))
sys.path.append(os.path.join(os.path.dirname(os.path.abspath(__file__)), "../../program"))
import upgrade_bytes
from second import as_json, commands, rules
from trials import cases, directed, format_4, labels, programs, row_tables, rows, spelling, trees, mutants

OLDER = frozenset([*commands.OPTIONS, "audit --all", "advise --pairs", "audit --settle", "advise --settle",
                   cases.FORMAT])
ALL = OLDER | {format_4.FORMAT_4}
# which random cases seldom notice, and those of a turn of the directed ones do
SELDOM = ["tries the removal before controls", "tells of others before the group", "cpu.weight may be 10001",
          "a name may be cgroup.controllers", "a name may be two dots", "the root's cgroup.max.depth bars no mkdir",
          "cpu.max.burst comes before cpu.max", "cgroup.freeze of a cgroup that they made is root's behind a control above it",
          "dmem.min comes first of the three", "what is reserved of huge pages comes behind all else of them", "cpu.idle is turned by 0"]
EXAMPLES = os.path.join(os.path.dirname(os.path.abspath(__file__)), "../../../examples")


def example(name):
    with open(os.path.join(EXAMPLES, name), "rb") as text:
        return text.read()


class ModelTest(unittest.TestCase):
    def ask(self, words, tree, ops=b""):
        lines, status, fault = commands.respond(words.split(" "), example(tree), {"ops": ops})
        return lines + ([fault] if fault else []), status

    def test_examples(self):
        check = "check --uid 1000 --subtree /c0"
        self.assertEqual(self.ask(check, "delegation.toml"), (["contained"], 0))
        self.assertEqual(self.ask(check, "delegation-ancestor-owned.toml"),
                         (["escapes", "chmod / cgroup.procs 646", "move 10 /c0"], 1))
        self.assertEqual(self.ask(check, "delegation-parent-directory.toml"), (["unsettled parent-dir /"], 2))
        self.assertEqual(self.ask(check, "delegation-over-limit.toml"), (["escapes"], 1))
        self.assertEqual(self.ask("replay --uid 1000 --subtree /c0 --ops ops", "delegation.toml", b"exit 11\nexit"),
                         (["ok", "fault: line 2 cut"], 3))

    def test_advice_names_the_class_and_the_change(self):
        entry = rules.Entry(1000, 5, 0o664)
        self.assertEqual(rules.entry_changes([(1000, (5,))], entry, "/ dir"), ["chown / dir 0:5", "chmod / dir 644"])
        self.assertEqual(rules.entry_changes([(1000, ())], entry, "/ dir"), ["chown / dir 0:5"])
        self.assertEqual(rules.entry_changes([(1001, ())], rules.Entry(0, 5, 0o666), "/ dir"), ["chmod / dir 664"])
        both = [(1001, ()), (1002, (5,))]
        self.assertEqual(rules.entry_changes(both, rules.Entry(0, 5, 0o666), "/ dir"), ["chmod / dir 644"])


class TrialsTest(unittest.TestCase):
    def test_each_wrong_model_differs_by_a_text_that_stands_once(self):
        self.assertGreaterEqual(len(mutants.MUTANTS), 210)
        for name in mutants.MUTANTS:
            self.assertIsNot(mutants.respond_of(name), as_json.respond)
            self.assertIsNone(programs.expected_of(cases.Case(["upgrade"], b"x = 07:32"), mutants.respond_of(name)), name)

    def test_trees_are_as_large_as_is_said(self):
        most = collections.Counter()
        for number in range(1500):
            tree = trees.random_tree(random.Random(number))
            entries = [entry for row in tree.rows.values() for entry in [row.get("dir", {}), *row.get("files", {}).values()]]
            sizes = {"gids": len({entry["gid"] for entry in entries if "gid" in entry}), "cgroups": len(tree.rows),
                     "processes": len(tree.processes), "gids of a user": len(tree.user[1]),
                     "bytes of a path": max(len(row["path"]) for row in tree.rows.values())}
            most |= collections.Counter(sizes)
        self.assertEqual(most, {"gids": 33, "cgroups": 60, "processes": 40, "gids of a user": 32, "bytes of a path": 4095})

    def test_probes_come_up_at_every_depth(self):
        found = set()
        for number in range(400):
            tree = trees.tree_to_probe(random.Random(number))
            found |= {len(path) for path in tree.rows if path and path[-1].startswith("probe") and path[:-1] in rules.upwards(tree.subtree)}
        self.assertGreaterEqual(found, set(range(2, 13)))

    def test_each_spelling_spells_the_document(self):
        for number in range(100):
            rng = random.Random(number)
            parts = trees.random_tree(rng).document(rng)
            read = tomllib.loads(spelling.document(rng, parts).decode("utf-8").removeprefix("\ufeff"))
            self.assertEqual(read, parts)

    def test_a_case_is_made_again_by_its_seed_and_from_its_record(self):
        for number in range(20):
            case = cases.random_case("seed", number, ALL)
            self.assertEqual(case, cases.random_case("seed", number, ALL))
            self.assertEqual(case, cases.Case.of_record(json.loads(json.dumps(case.as_record()))))

    def test_each_row_of_directed_cases_comes_up_in_turn(self):
        numbers = [number for number in range(5 * len(directed.ROWS)) if cases.directed_row(number) is not None]
        self.assertEqual([cases.directed_row(number) for number in numbers], list(range(len(directed.ROWS))))
        rows = [directed.row_of(number) for number in range(len(directed.ROWS))]
        self.assertEqual(sorted(map(str, rows)), sorted(map(str, directed.ROWS)))

    def test_a_turn_of_directed_cases_notices_what_random_ones_seldom_do(self):
        for seed in range(2):
            missing = set(SELDOM)
            for number in range(cases.ONE_DIRECTED_OF - 1, cases.ONE_DIRECTED_OF * len(directed.ROWS), cases.ONE_DIRECTED_OF):
                case = cases.random_case(seed, number, ALL)
                expected, wide = programs.expected_of(case), cases.is_wide(seed, number, ALL)
                missing -= {name for name in missing if mutants.shows(name, case, wide)
                            and programs.expected_of(case, mutants.respond_of(name)) != expected}
            self.assertEqual(missing, set(), seed)

    def test_tables_of_rows_tell_what_random_cases_seldom_do(self):
        self.assertLessEqual({*SELDOM, *row_tables.MUTANTS}, {*row_tables.TABLE_OF})
        self.assertLessEqual({*row_tables.TABLE_OF.values()}, {*rows.TABLES})
        for file in ("memory.max", "io.max"):
            asked = list(rows.TABLES[file]())
            self.assertLessEqual({"check", "settle", "advise", "replay"}, {case.words[0] for case in asked})
            self.assertGreaterEqual(len({case.stdin for case in asked}), 12)

    def test_a_tree_is_written_byte_for_byte(self):
        """As the program's own tests have it, spelled by hand."""
        for given, expected in upgrade_bytes.WRITTEN.values():
            lines, status, fault = commands.respond(["upgrade"], given.encode(), {})
            self.assertEqual(("".join(f"{line}\n" for line in lines), status, fault), (expected, 0, ""))

    def test_cases_of_other_formats_are_those_of_a_program_without_format_4(self):
        wide = [cases.is_wide("seed", number, ALL) for number in range(60)]
        self.assertIn(True, wide)
        for number in [number for number in range(60) if not wide[number]]:
            self.assertEqual(cases.random_case("seed", number, ALL), cases.random_case("seed", number, OLDER))
        self.assertFalse(any(cases.is_wide("seed", number, OLDER) for number in range(60)))

    def test_a_mutant_of_format_4_is_asked_of_its_cases(self):
        self.assertEqual({*mutants.able(ALL)}, {*mutants.MUTANTS} - {*row_tables.MUTANTS})
        self.assertEqual({*mutants.able(ALL)} - {*mutants.able(OLDER)}, {name for _, _, turns in mutants.KINDS_4 for name in turns})
        short, large = cases.Case(["upgrade"], b"format = 4\n"), cases.Case(["upgrade"], b"#" * 16777217)
        for name, case, wide, shown in (("format 3 is one", short, True, True), ("format 3 is one", short, False, False),
                                        ("every text is large", short, True, False), ("every text is large", large, True, True),
                                        ("three controllers last", short, True, False), ("format 1 has gids", short, False, True)):
            self.assertEqual(mutants.shows(name, case, wide), shown, name)

    def test_a_difference_is_seen(self):
        expected = (["ok", "kept"], 0, "")
        self.assertEqual(programs.difference((b"ok\nkept\n", 0, b""), expected), "")
        for written in ((b"ok\nkept", 0, b""), (b"ok\nkept\n", 1, b""), (b"ok\nkept\n", 0, b"fault: read\n"), (b"", -11, b"")):
            self.assertNotEqual(programs.difference(written, expected), "", written)
        self.assertEqual(programs.form_fault((b"", 3, b"fault: tree not-toml\n")), "")
        for written in ((b"", 3, b""), (b"", -11, b""), (b"", 4, b"fault: usage\n"), (b"", 3, b"oh\nfault: usage\n")):
            self.assertNotEqual(programs.form_fault(written), "", written)

    def test_a_program_is_run_with_the_stack_that_is_said(self):
        with programs.Room("/bin/sh", 256 * 1024) as room:
            self.assertEqual(room.run(cases.Case(["-c", "ulimit -s; exit 3"])), (b"256\n", 3, b""))
            self.assertEqual(room.run(cases.Case(["-c", "kill -SEGV $$"]))[1], -11)

    def test_a_text_that_is_not_read_has_labels(self):
        for tree in (b"format = 4\ncgroup = 5\n", b"format = 4\ncgroup = [5]\n", b"format = 4\n[[cgroup]]\nfiles = 5\n", b"=", b""):
            for words in (["check", "--uid", "1000", "--subtree", "/a"], ["replay", "--uid", "1000", "--subtree", "/a", "--ops", cases.OPS]):
                case = cases.Case(words, tree, {cases.OPS: b"exit 11\n"})
                expected = case.expected()
                self.assertEqual(expected[:2], ([], 3), tree)
                self.assertIn(re.sub(r" \d+$", "", expected[2]), labels.labels_of(case, expected), tree)

    def test_all_that_is_wanted_can_be_said(self):
        self.assertEqual(len(set(labels.wanted(ALL))), len(labels.wanted(ALL)))


if __name__ == "__main__":
    unittest.main()
