"""Tests of what is tried of limit files whose values are texts; they need no machine, and read what a kernel said before."""
import contextlib
import errno
import functools
import gzip
import io
import json
import os
import random
import sys
import tempfile
import unittest
import unittest.mock

TOP = os.path.dirname(os.path.dirname(os.path.abspath(__file__)))
sys.path[:0] = [TOP, os.path.join(TOP, "..", "model")]
import played
from second import rules, texts
from second.limit_files import LIMIT_FILES, TEXT_FILES, other_value
from trial import advice, asking, classes, comparing, limit_files, machine, making, mutants, script, shown, tally

CONTROLLERS = tuple(played.CONTROLLERS)
DISC, OTHER = shown.DISCS
MAXES = " rbps=max wbps=max riops=max wiops=max"


@functools.lru_cache(maxsize=None)
def recorded(kind):
    """Of each case of a kind the case, what the program said of it and what a kernel made of it."""
    with gzip.open(os.path.join(TOP, "tests", "further.json.gz"), "rt") as text:
        parts = json.load(text)
    records, ended = script.records_of(parts["said"])
    assert ended and len(records) == len(parts["cases"])
    return [(making.Case.of_record(case), answers, records[number])
            for number, (case, answers) in enumerate(zip(parts["cases"], parts["answers"])) if case["kind"] == kind]


def files_of_record():
    """The limit files that the recorded kernel has, as far as the cases name them."""
    return {name for _, _, record in recorded(limit_files.ESCAPES) for state in record.states for cgroup in state.cgroups.values()
            for name in cgroup.named}


class ShownTest(unittest.TestCase):
    def turned(self, file, text, now=()):
        return (shown.turned_by(file, text, dict(now)) or {}).get(file)

    def test_texts_are_shown_as_kernels_show_them(self):
        for file, text, kept in [
                ("cpu.max", "max", "max 100000"), ("cpu.max", "20000", "20000 100000"), ("cpu.max", "999 100000", None),
                ("cpu.max", "0", None), ("cpu.max", "max 1000001", None), ("cpu.max.burst", "1", "1"), ("cpu.max.burst", "max", None),
                ("cpu.idle", "2", None), ("cgroup.freeze", "01", "1"), ("cgroup.freeze", "max", None), ("cpu.weight.nice", "-20", "-20"),
                ("cpu.weight.nice", "20", None), ("cpuset.cpus", "0,1", "0-1"), ("cpuset.cpus", "0-2", None), ("cpuset.mems", "max", None),
                ("cpuset.cpus.partition", "0", None), ("hugetlb.2MB.max", "2097153", "2097152"), ("hugetlb.2MB.rsvd.max", "1", "0"),
                ("hugetlb.2MB.max", str(2 ** 63 - 1), "max"), ("memory.swap.max", "5000", "4096"), ("memory.swap.high", "x", None),
                ("io.weight", "500", "default 500"), ("io.weight", "default 0", None), ("misc.max", "max", None), ("rdma.max", "max", None),
                ("io.max", "max", None), ("io.max", f"{DISC} max", None), ("io.max", f"{DISC} rbps=0", None), ("io.max", DISC, None),
                ("io.max", f"{DISC} rbps=1", None), ("io.max", "8:0 rbps=9", None), ("io.max", DISC + MAXES, ""),
                ("io.max", f"{DISC} rbps=2", f"{DISC} rbps=2 wbps=max riops=max wiops=max"), ("memory.zswap.max", "5000", "4096"),
                ("memory.zswap.writeback", "0", "0"), ("memory.zswap.writeback", "2", None), ("cpu.uclamp.max", "50", "50.00"),
                ("cpu.uclamp.min", "12.345", "12.35"), ("cpu.uclamp.min", "0", "0.00"), ("cpu.uclamp.max", "100", "max"),
                ("cpu.uclamp.max", "99.95", "99.95"), ("cpu.uclamp.max", "99.96", "max"), ("cpu.uclamp.max", "max", "max"),
                ("cpu.uclamp.max", "100.01", None), ("cpu.uclamp.max", "-5", None), ("cpu.uclamp.min", "0-3,5", "0.00"),
                ("cpu.uclamp.min", "max max", None), ("io.latency", "max", None)]:
            self.assertEqual(self.turned(file, text), kept, (file, text))

    def test_a_write_of_one_disc_leaves_the_others(self):
        one = f"{DISC} rbps=9 wbps=max riops=max wiops=max"
        now = {"io.max": one}
        self.assertEqual(self.turned("io.max", f"{OTHER} wiops=7", now), f"{one}\n{OTHER} rbps=max wbps=max riops=max wiops=7")
        self.assertEqual(self.turned("io.max", f"{DISC} riops=4", now), f"{DISC} rbps=9 wbps=max riops=4 wiops=max")
        self.assertTrue(shown.are_alike("io.max", "a\nb", "b\na"))
        self.assertFalse(shown.are_alike("cpu.max", "a\nb", "b\na"))

    def test_a_quota_and_its_burst_bound_each_other(self):
        self.assertIsNone(self.turned("cpu.max.burst", "50001", {"cpu.max": "50000 100000"}))
        self.assertIsNone(self.turned("cpu.max", "40000", {"cpu.max": "50000 100000", "cpu.max.burst": "50000"}))
        self.assertEqual(self.turned("cpu.max", "max", {"cpu.max": "50000 20000", "cpu.max.burst": "9"}), "max 20000")

    def test_what_turns_the_weight_turns_each_other(self):
        self.assertEqual(shown.turned_by("cpu.idle", "1", {}), {"cpu.idle": "1", "cpu.weight.nice": "19"})
        for file, value in (("cpu.weight", 200), ("cpu.weight.nice", "3")):
            self.assertIsNone(shown.turned_by(file, value, {"cpu.idle": "1"}))
        for weight, nice in ((200, "-3"), (1, "19"), (33, "5"), (10000, "-20"), (4000, "-16"), (3, "16"), (100, "0")):
            self.assertEqual(shown.turned_by("cpu.weight", weight, {}), {"cpu.weight.nice": nice}, weight)
        for nice, weight in (("-20", 8668), ("-19", 7007), ("5", 33), ("0", 100)):
            self.assertEqual(shown.weights_of({"cpu.weight.nice": nice}), (weight,))


class FurtherTest(unittest.TestCase):
    def compared(self, kind, turn=None):
        for case, answers, record in recorded(kind):
            said = mutants.answers_of(turn, case, answers) if turn else answers
            yield case, record, comparing.compare(case, said, record)

    def test_recorded_run_is_explained(self):
        kinds = (limit_files.OPERATIONS, limit_files.ESCAPES, limit_files.NEIGHBOURS)
        found = [each for kind in kinds for _, _, compared in self.compared(kind) for each in compared.differences]
        self.assertEqual([each for each in found if not each.kind], [])
        self.assertGreaterEqual({each.kind for each in found}, {"any value", "read back", "file that turns another"})

    def test_recorded_escapes_by_each_file_change_it_or_are_refused(self):
        changed, refused, through = {}, set(), set()
        for case, _, record in recorded(limit_files.ESCAPES):
            kind, _, *words = case.steps[-1][1]
            if kind == "set" and case.subtrees[0] in (advice.TOP, limit_files.PARTITION[0]):
                there = comparing.break_of(case, record, case.subtrees[0])
                through |= set() if record.numbers[-1] else {words[0]}
                refused |= {words[0]} if record.numbers[-1] else set()
                if there == f"broken {len(case.steps)} limits":
                    changed.setdefault(words[0], set()).add(words[1])
        files = files_of_record()
        self.assertEqual(refused - through, {"misc.max", "rdma.max"} | refused & {"io.max"} - through)
        for file in files - {"misc.max", "rdma.max", "io.max"}:
            loose = LIMIT_FILES[file].loose
            self.assertEqual(changed[file], {loose, other_value(file, loose)}, file)

    def test_recorded_neighbour_turns_a_partition_that_is_contained(self):
        for case, _, record in recorded(limit_files.NEIGHBOURS):
            (user, step), top = case.steps[0], case.subtrees[0]
            self.assertEqual((rules.answer(case.state, user, top)[0], record.numbers, step[2]), ("contained", [0], "cpuset.cpus"))
            before, after = (state.cgroups[top].values[shown.PARTITION] for state in record.states)
            self.assertEqual((before, after.split(" (")[0]), ("root", "root invalid"))

    def test_recorded_contained_subtrees_hold(self):
        cases = recorded(limit_files.CONTAINED)
        for case, _, record in cases:
            self.assertTrue(script.is_whole(case, record), record.faults)
            for top in case.subtrees:
                self.assertEqual((comparing.break_of(case, record, top), comparing.turned_entries(case, record, top)), ("kept", []))
        self.assertGreater(sum(step[0] == "set" and step[2] in TEXT_FILES and not number for case, _, record in cases
                               for (_, step), number in zip(case.tries, record.numbers)), 10)

    def test_recorded_advice_refuses_the_escape(self):
        def check(_program, text, user, top):
            return rules.answer(texts.tree_of(text.encode()), user, top)[0], []
        with unittest.mock.patch.object(asking, "check", check):
            for case, _, record in recorded(limit_files.ADVICE):
                found = comparing.compare_advice(None, case, record)
                self.assertEqual((found.faults, found.refused > 0), ([], bool(case.steps)))

    def test_wrong_programs_are_found(self):
        for name, turn in mutants.OF_LIMIT_FILES.items():
            compared = [found for _, _, found in self.compared(limit_files.OPERATIONS, turn)]
            self.assertTrue(any(not each.kind for found in compared for each in found.differences), name)
        broken = [case for case, _, record in recorded(limit_files.ESCAPES) if comparing.break_of(case, record, case.subtrees[0]) != "kept"]
        forgotten = [case for case in broken if mutants.forgets(case.state, case.steps[0][0], case.subtrees[0])]
        self.assertGreater(len(forgotten), 20)

    def test_each_wrong_program_is_wrong_at_its_own_step_of_the_made_case(self):
        case, = limit_files.made_operations(CONTROLLERS)
        answers, state = [], case.state
        for user, step in case.steps:
            state, refusal = rules.step(state, user, step)
            answers.append(f"refused {refusal}" if refusal else "ok")
        for name, turn in mutants.OF_LIMIT_FILES.items():
            said = mutants.answers_of(turn, case, answers)
            wrong = [case.steps[at][1] for at, pair in enumerate(zip(said, answers)) if len(set(pair)) > 1]
            self.assertEqual(wrong, [limit_files.STEPS_OF_MUTANTS[name]], name)

    def test_a_value_or_an_owner_that_turns_by_itself_is_found(self):
        for file, changes in (("cpu.max", {"value": "7 7"}), ("cpu.max", {"uid": 7})):
            case, answers, record = recorded(limit_files.OPERATIONS)[0]
            last = record.states[-1]
            row = last.cgroups[limit_files.CHILD]
            other = rules.replace(row, entries={**row.entries, file: rules.replace(row.entries[file], **changes)})
            states = [*record.states[:-1], rules.replace(last, cgroups={**last.cgroups, limit_files.CHILD: other})]
            found = comparing.compare(case, answers, script.Record([], states, record.numbers))
            self.assertTrue(any(not each.kind for each in found.differences))
            self.assertEqual(comparing.turned_entries(case, script.Record([], [last, states[-1]]), limit_files.CHILD), [file] * ("uid" in changes))

    def outcome(self, step, said, number, values=(), entries=("cgroup.freeze",)):
        files = {name: rules.Entry(1000, value=dict(values).get(name)) for name in (*rules.STANDING, *entries, *dict(values))}
        row = rules.Cgroup(files, frozenset(["cpu"]), frozenset(files) - rules.WRITTEN)
        state = rules.State(frozenset(CONTROLLERS), {(): row, ("a",): row}, {7: (1000, ("a",))}, frozenset([7]), 4)
        return classes.kind_of(classes.Outcome(state, (1000, ()), step, said, number, state))

    def test_outcomes_are_explained_by_the_list(self):
        path, burst, idle = ("a",), {"cpu.max.burst": "50000"}, {"cpu.idle": "1"}
        any_value, turns, unknown, effects = "any value", "file that turns another", "unknown file", "effects of limits"
        for step, number, values, kind in [
                (("set", path, "cpu.max", "junk"), errno.EINVAL, {}, any_value), (("set", path, "cpu.max", "max"), errno.EINVAL, {}, None),
                (("set", path, "cpu.max", "40000"), errno.EINVAL, burst, any_value),
                (("set", path, "cpu.max", "junk"), errno.EACCES, {}, None),
                (("set", path, "rdma.max", "max"), errno.ENODEV, {}, any_value),
                (("set", path, "cpu.weight", 5), errno.EINVAL, idle, turns),
                (("set", path, "cpu.weight", 5), errno.EINVAL, {}, None), (("set", path, "cpu.idle", "5"), errno.EINVAL, idle, any_value),
                (("chmod", path, "cpu.uclamp.max", 0o600), errno.ENOENT, {}, unknown),
                (("set", path, "cpu.uclamp.max", "max"), errno.ENOENT, {}, unknown),
                (("set", path, "cgroup.freeze", "0"), errno.ENOENT, {}, None),
                (("set", (), "cpu.uclamp.max", "max"), errno.EACCES, {}, None),
                (("set", (), "cgroup.freeze", "0"), errno.ENOENT, {}, unknown), (("fork", 7, 9), 255, {"cgroup.freeze": "0"}, None),
                (("fork", 7, 9), 255, {"cgroup.freeze": "1"}, effects), (("move", 7, ()), errno.ENOSPC, {shown.PARTITION: "root"}, effects),
                (("move", 7, ()), errno.ENOSPC, {shown.PARTITION: "root invalid (x)"}, None)]:
            self.assertEqual(self.outcome(step, "ok", number, values), kind, (step, number))

    def test_a_file_that_the_root_has_there_is_explained(self):
        file = "memory.zswap.writeback"
        said, elsewhere = f"refused no-such-file / {file}", f"refused no-such-file /a {file}"
        for step, told, number, kind in [
                (("set", (), file, "1"), said, errno.EACCES, "unknown file"),
                (("chmod", (), file, 0o600), said, errno.EPERM, "unknown file"),
                (("set", (), file, "1"), said, 0, None), (("chmod", (), file, 0o600), said, errno.EACCES, None),
                (("set", ("a",), file, "1"), elsewhere, errno.EACCES, None)]:
            self.assertEqual(self.outcome(step, told, number), kind, (step, number))

    def test_weights_are_explained_by_what_turns_them(self):
        for kept, now, kind in [(0, {"cpu.idle": "1"}, True), (1, {"cpu.idle": "1"}, True), (33, {"cpu.weight.nice": "5"}, True),
                                (34, {"cpu.weight.nice": "5"}, False), (0, {}, False)]:
            self.assertEqual(classes.kind_of_value("cpu.weight", 100, kept, now) == "file that turns another", kind, (kept, now))

    def test_partitions_turn_elsewhere_and_nothing_else_does(self):
        for file, one, other, is_turned in [(shown.PARTITION, "root", "root invalid (x)", True),
                                            (shown.PARTITION, "root invalid (x)", "root", True),
                                            (shown.PARTITION, "root invalid", "root invalid", False), ("cpu.max", "max 1", "max 2", False),
                                            (shown.PARTITION, "root", "member", False)]:
            self.assertEqual(shown.is_turned_elsewhere(file, one, other), is_turned, (one, other))

    def test_a_set_that_is_let_through_against_the_rules_is_found(self):
        row = rules.Cgroup({"cpu.max": rules.Entry(value="max 100000")}, named=frozenset(["cpu.max"]))
        state = rules.State(frozenset(), {("a",): row}, {}, frozenset(), 4)
        found = comparing.text_differences(1, state, ("set", ("a",), "cpu.max", "junk"), state, state)
        self.assertEqual([each.kind for each in found], [None])


class ScriptTest(unittest.TestCase):
    def case(self):
        tree = limit_files.wide_tree(CONTROLLERS)
        tree.entry(advice.TOP, "io.max").update({"uid": 1000, "value": limit_files.LINES})
        tree.entry(advice.TOP, "cpu.idle").update({"value": "1"})
        _, text, state = advice.settled(tree, CONTROLLERS)
        return making.Case(limit_files.OPERATIONS, text, [((1000, (5,)), ("set", advice.TOP, "cpu.max", "max 5000"))], [advice.TOP], state)

    def test_a_case_watches_what_it_names(self):
        lines = script.lines_of(0, self.case())
        self.assertEqual(lines[1], "watch cpu.idle cpu.max cpu.weight.nice io.max")
        for line in (*(f"set /above/top io.max {line}" for line in limit_files.LINES), "own /above/top io.max 1000 0 644",
                     "do set /above/top cpu.max max 5000"):
            self.assertIn(line, lines)
        again = making.Case.of_record(json.loads(json.dumps(self.case().as_record())))
        self.assertEqual(script.lines_of(0, again), lines)

    def test_values_are_read_whole(self):
        words = "- 0:0:755 0:0:644 0:0:644 cpu.weight=0:0:644:5 io.max=7:8:600:259:0%20rbps=2%0A%25 cpuset.cpus=0:0:644:"
        cgroup = script.cgroup_of(words.split(" "))
        self.assertEqual(cgroup.values, {"cpu.weight": 5, "io.max": "259:0 rbps=2\n%"})
        self.assertEqual((cgroup.entries["io.max"], cgroup.entries["cpuset.cpus"]), (rules.Entry(7, 8, 0o600, "259:0 rbps=2\n%"), rules.Entry()))

    def test_a_file_that_the_root_has_there_is_in_no_text(self):
        row = "- 0:0:755 0:0:644 0:0:644 cgroup.max.depth=0:0:644:max cgroup.max.descendants=0:0:644:max"
        state = script.state_of([f"c / {row} memory.zswap.writeback=0:0:644:1", f"c /a {row} cgroup.freeze=0:0:644:0"], [])
        self.assertEqual(sorted(state.cgroups[()].entries), sorted([*rules.STANDING, rules.DESCENDANTS, rules.DEPTH]))
        self.assertEqual(state.cgroups[("a",)].values["cgroup.freeze"], "0")
        self.assertEqual(texts.tree_of(advice.text_of_state(state).encode()).cgroups.keys(), state.cgroups.keys())

    def test_a_case_without_an_answer_fails_and_ends_nothing(self):
        def no_report(*_):
            raise asking.NoReport("fault: tree no-such-file cgroup 1")
        with unittest.mock.patch.object(asking, "replay", no_report), tempfile.TemporaryDirectory() as room:
            counted = tally.Tally("6", None, room)
            with contextlib.redirect_stdout(io.StringIO()) as said:
                counted.take(self.case(), "1", script.Record())
        self.assertEqual(counted.failures, 1)
        self.assertIn("no-such-file cgroup 1", said.getvalue())

    def test_the_files_that_a_kernel_has_are_known(self):
        said = played.Kernel().run(script.standing_script())
        self.assertEqual(script.standing_in(said), tuple(file for file in TEXT_FILES if file in shown.TAKERS))
        self.assertEqual(script.standing_in("controllers \nend\n"), ())


class MadeTest(unittest.TestCase):
    def test_trees_name_what_a_kernel_has(self):
        files, named = tuple(file for file in shown.TAKERS if file in TEXT_FILES), set()
        for number in range(60):
            _, _, state = limit_files.random_tree(random.Random(number), CONTROLLERS, files)
            named |= {name for cgroup in state.cgroups.values() for name in cgroup.named}
        self.assertEqual(named, set(files))

    def test_values_of_trees_are_shown_as_they_are_written(self):
        for file, values in limit_files.VALUES.items():
            for text in [line for text in values for line in (text if isinstance(text, list) else [text])]:
                if file in shown.TAKERS:
                    self.assertEqual(shown.turned_by(file, text, {})[file], text, file)

    def test_each_tree_of_a_file_lets_the_user_reach_it_alone(self):
        files, reached = tuple(file for file in TEXT_FILES if file in shown.TAKERS), []
        for tree in limit_files.trees_of_files(CONTROLLERS, files):
            _, _, state = advice.settled(tree, CONTROLLERS)
            (guard, path, file), = rules.failures(state, tree.user, tree.subtree)
            self.assertEqual((guard, path), ("limit-file", tree.subtree))
            reached.append(file)
        self.assertEqual(list(dict.fromkeys(reached)), list(files))
        self.assertEqual({file: reached.count(file) for file in files},
                         {file: 1 if file in ("misc.max", "rdma.max") else 3 for file in files})

    def test_a_turn_by_the_second_model_is_as_said(self):
        """With the second model in the places of the program and of a kernel that shows what shown.py says."""
        files = tuple(file for file in TEXT_FILES if file in shown.TAKERS)
        patch = unittest.mock.patch.object
        with patch(asking, "report_of", played.report_of), patch(asking, "asked", played.report_of), tempfile.TemporaryDirectory() as room:
            cases = limit_files.made_operations(CONTROLLERS) + limit_files.of_files(None, CONTROLLERS, files) + limit_files.random_cases(
                "7", 8, None, CONTROLLERS, files)
            records, _ = script.records_of(played.Kernel().run(script.script_of(cases)))
            counted = tally.Tally("6", None, room)
            for number, case in enumerate(cases):
                counted.take(case, str(number), records[number])
            counted.files = files
            self.assertEqual(counted.failures, 0, os.listdir(room))
            lines = tally.lines_of_files(counted)
        self.assertIn("| `cpu.max` | `max 100000`, `max 50000` | `max 100000` (not known) |  |", lines)
        self.assertIn("| `misc.max` |  |  | `max` (not known, EINVAL) |", lines)
        self.assertIn("- Limit files whose values are texts, mutants of the program: 4 of 4 found.", lines)
        self.assertGreaterEqual(counted.told.keys(), {*mutants.OF_LIMIT_FILES, mutants.FORGETS})

    def test_the_wide_machine_has_what_the_texts_name(self):
        self.assertEqual((machine.WIDE[:2], sum(word.startswith("nvme") for word in machine.WIDE)), (["-smp", "2"], len(shown.DISCS)))


if __name__ == "__main__":
    unittest.main()
