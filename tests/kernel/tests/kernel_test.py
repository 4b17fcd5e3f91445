"""Tests of what tests/kernel/run stands on; they need no machine, and read what a kernel said before."""
import contextlib
import errno
import functools
import gzip
import io
import json
import os
import random
import sys
import tempfile
import unittest
import unittest.mock

TOP = os.path.dirname(os.path.dirname(os.path.abspath(__file__)))
sys.path[:0] = [TOP, os.path.join(TOP, "..", "model")]
from second import commands, rules, texts
from second.controllers import ALL_CONTROLLERS
from second.limit_files import MAX, MOST
from trial import advice, asking, classes, comparing, machine, made, making, mutants, packages, script, settled, tally
from trials import format_4, trees

# how many mutants have to be found
WRONG = 14
KINDS = ("operations", made.ALONE, "escapes", "contained", "advice", "wrong advice")
# those of the recorded kernel
CONTROLLERS = tuple(name for name in ALL_CONTROLLERS if name != "dmem")


@functools.lru_cache(maxsize=None)
def recorded(kind):
    """Of each case of a kind the case, what the program said of it and what a kernel made of it."""
    with gzip.open(os.path.join(TOP, "tests", "recorded.json.gz"), "rt") as text:
        parts = json.load(text)
    records, ended = script.records_of(parts["said"])
    cases = [making.Case.of_record(record) for record in parts["cases"]]
    assert ended and len(records) == len(cases)
    return [(case, answers, records[number]) for number, (case, answers) in enumerate(zip(cases, parts["answers"]))
            if case.kind == kind]


def second_check(_program, text, user, top):
    """What the second model says in the program's place."""
    answer = rules.answer(texts.tree_of(text.encode()), user, top)
    return commands.answer_lines(answer)[0], answer[1] if answer[0] == "escapes" else []


def second_advice(_program, text, pairs):
    return asking.changes_in(rules.advice(texts.tree_of(text.encode()), pairs))


class KernelTest(unittest.TestCase):
    def compared(self, turn=None):
        """Of each case of operations that was recorded what it differs by, as a mutant's where there is one."""
        for case, answers, record in recorded("operations"):
            said = mutants.answers_of(turn, case, answers) if turn else answers
            yield case, record, comparing.compare(case, said, record)

    def test_programs_of_the_machine_are_compiled_without_a_warning(self):
        with tempfile.TemporaryDirectory() as room:
            self.assertEqual([name for name, _, _ in machine.programs_in(room)], ["init", "refusals"])

    def test_classes_are_those_of_the_list(self):
        names = {*classes.RULES, *classes.VALUES, *classes.SHOWN, *classes.WAYS, *classes.LEFT_OUT}
        self.assertEqual(sorted(classes.listed()), sorted(names))
        self.assertFalse({*classes.RULES, *classes.VALUES, *classes.SHOWN, *classes.WAYS} & classes.LEFT_OUT.keys())

    def test_recorded_run_is_explained(self):
        found = [each for _, _, compared in self.compared() for each in compared.differences]
        self.assertEqual([each for each in found if not each.kind], [])
        self.assertGreaterEqual({each.kind for each in found}, {"internal process", "range of values", "name of a file"})

    def test_recorded_escapes_break_as_the_program_says(self):
        breaks = set()
        for case, answers, record in recorded("escapes"):
            there, found = comparing.break_of(case, record, case.subtrees[0]), comparing.compare(case, answers, record)
            if there == answers[-1]:
                breaks.add(there.split(" ")[2])
            else:
                self.assertEqual((there, [each.kind for each in found.differences]), ("kept", ["capabilities of the moved"]))
        self.assertEqual(breaks, {"gone", "crossed", "limits"})

    def test_recorded_escapes_turn_each_other_controller(self):
        found = set()
        for case, _, record in recorded("escapes"):
            kind, *words = case.steps[-1][1]
            if kind == "control" and words[0] == case.subtrees[0][:-1]:
                self.assertEqual(comparing.break_of(case, record, case.subtrees[0]), f"broken {len(case.steps)} limits")
                found |= set(words[1])
        self.assertGreaterEqual(found, {(sign, name) for sign in "+-" for name in CONTROLLERS if name in format_4.OTHERS})

    def test_recorded_internal_processes_bar_at_domain_controllers(self):
        barred = {"move": set(), "control": set()}
        for case, answers, record in recorded(made.ALONE):
            self.assertEqual(answers[0], "refused internal-process /own")
            barred[case.steps[0][1][0]] |= case.state.cgroups[()].enabled if record.numbers[0] == errno.EBUSY else set()
        self.assertEqual(barred, {kind: classes.DOMAIN & set(CONTROLLERS) for kind in barred})

    def test_recorded_cases_are_of_both_formats(self):
        for kind in ("operations", "escapes", "contained", "advice"):
            self.assertEqual({case.state.form for case, _, _ in recorded(kind)}, {2, 4}, kind)

    def test_recorded_operations_turn_all_controllers(self):
        let_through, enabled = set(), set()
        for case, _, record in recorded("operations"):
            for (_, step), number in zip(case.steps, record.numbers):
                let_through |= set(step[2]) if step[0] == "control" and not number else set()
            enabled |= {name for state in record.states for cgroup in state.cgroups.values() for name in cgroup.enabled}
        self.assertEqual(enabled, set(CONTROLLERS))
        self.assertGreaterEqual(let_through, {(sign, name) for sign in "+-" for name in ("cpuset", "io", "hugetlb")})

    def test_files_that_stand_elsewhere_are_found(self):
        state = script.state_of({f"c / io {' '.join(3 * ['0:0:644'])}"}, CONTROLLERS)
        row = state.cgroups[()]
        state = rules.replace(state, cgroups={(): row, ("a",): rules.replace(row, enabled=frozenset())})
        for words, found in (["x", "io.max"], []), (["x"], ["! at /a stand the files of []"]), (
                ["io.max", "misc.max"], ["! at /a stand the files of ['io', 'misc']"]):
            self.assertEqual(script.misplaced({"c /a " + " ".join(words), "p 7 0 /a"}, state), found)

    def test_recorded_contained_subtrees_hold(self):
        for case, _, record in recorded("contained"):
            self.assertTrue(script.is_whole(case, record))
            self.assertEqual({comparing.break_of(case, record, top) for top in case.subtrees}, {"kept"})

    def advised(self, kind):
        """Of each case of advice that was recorded what a kernel made of it."""
        with unittest.mock.patch.object(asking, "check", second_check):
            for case, _, record in recorded(kind):
                yield case, record, comparing.compare_advice(None, case, record)

    def test_recorded_advice_holds(self):
        words = set()
        for case, _, found in self.advised("advice"):
            self.assertEqual(found.faults, [])
            self.assertEqual(found.refused > 0, bool(case.steps))
            words |= {line.split(" ")[0] for line in case.mends}
        self.assertEqual(words, set(asking.CHANGES))

    def test_wrong_advice_is_found_on_the_kernel(self):
        found = {case.turned for case, _, found in self.advised("wrong advice") if found.verdict.startswith("broken")}
        self.assertEqual(found, set(mutants.ADVICE))

    def test_changes_that_were_not_made_are_found(self):
        told = set()
        for case, record, found in self.advised("advice"):
            self.assertEqual(comparing.changes_differences(case, case.mends, record), [])
            for name, turn in mutants.ADVICE.items():
                if turn(case.mends) != case.mends:
                    self.assertTrue(comparing.changes_differences(case, turn(case.mends), record), (name, case.mends))
                    told.add(name)
        self.assertEqual(told, set(mutants.ADVICE))

    def test_wrong_programs_are_found(self):
        found = [name for name, turn in tally.OF_OPERATIONS.items()
                 if any(not each.kind for _, _, compared in self.compared(turn) for each in compared.differences)]
        self.assertEqual(found, list(tally.OF_OPERATIONS))
        self.assertGreaterEqual(len(found), WRONG)

    def test_each_wrong_program_is_wrong_at_its_own_step_of_its_made_case(self):
        of_programs = ((mutants.MUTANTS, made.STEPS), (mutants.OF_FORMAT_4, made.STEPS_OF_FORMAT_4))
        for case, (turns, steps) in zip(made.made_cases(CONTROLLERS), of_programs):
            answers = self.second_answers(case)
            for name, turn in turns.items():
                said = mutants.answers_of(turn, case, answers)
                self.assertEqual([at for at, pair in enumerate(zip(said, answers)) if len(set(pair)) > 1], [list(steps).index(name)], name)

    def second_answers(self, case):
        """What the second model says of a case's steps."""
        answers, state = [], case.state
        for user, step in case.steps:
            state, refusal = rules.step(state, user, step)
            answers.append(f"refused {refusal}" if refusal else "ok")
        return answers

    def test_state_that_differs_is_found(self):
        case, answers, record = next(each for each in recorded("operations") if not comparing.compare(*each).differences)
        last = record.states[-1]
        row = last.cgroups[()]
        entry = rules.Entry(7, 7, 0o777)
        for changed in (rules.replace(row, entries={**row.entries, rules.PROCS: entry}), rules.replace(row, enabled=frozenset()),
                        rules.replace(row, entries={**row.entries, rules.DEPTH: rules.replace(row.entries[rules.DEPTH], value=77)})):
            states = [*record.states[:-1], rules.replace(last, cgroups={**last.cgroups, (): changed})]
            other = script.Record([], states, record.numbers)
            if changed != row:
                self.assertTrue(any(not each.kind for each in comparing.compare(case, answers, other).differences))

    def test_values_are_kept_as_the_list_says(self):
        kept = [("memory.max", 100, 0), ("memory.low", MOST, MAX), (rules.DEPTH, 2147483647, MAX),
                ("memory.max", 4097, 4096)]
        for each in kept:
            self.assertEqual(classes.kind_of_value(*each, {}), "range of values", each)
        for each in [("memory.max", 4096, 0), ("pids.max", 5, 6), (rules.DEPTH, 5, MAX), ("memory.max", MAX, 0)]:
            self.assertIsNone(classes.kind_of_value(*each, {}), each)

    def test_removal_of_a_file_is_explained(self):
        for name, number, kind in [("memory.stat", errno.EACCES, "name of a file"), ("memory.stat", errno.EPERM, None),
                                   ("a", errno.EACCES, None)]:
            step, said = ("rmdir", (name,)), f"refused no-such-cgroup /{name}"
            self.assertEqual(classes.kind_of(classes.Outcome(None, None, step, said, number, None)), kind)

    def outcome(self, step, said, number, uid=0):
        """An outcome where the root enables cpuset and io, `/a` has a process, and `/b` none."""
        row = rules.Cgroup({name: rules.Entry(1000) for name in rules.STANDING})
        cgroups = {(): rules.replace(row, enabled=frozenset(["cpuset", "io"])), ("a",): row, ("b",): row}
        state = rules.State(frozenset(CONTROLLERS), cgroups, {7: (uid, ("a",))}, frozenset([7]), 4)
        return classes.kind_of(classes.Outcome(state, (1000, ()), step, said, number, state))

    def test_moves_of_capabilities_are_explained(self):
        named, move, cpuset, io = "capabilities of the moved", ("move", 7, ("b",)), (("-", "cpuset"),), (("-", "io"),)
        for step, number, uid, kind in [(move, errno.EPERM, 0, named), (move, errno.EPERM, 5, None), (move, errno.EACCES, 0, None),
                                        (("move", 7, ("a",)), errno.EPERM, 0, None), (("control", (), cpuset), errno.EPERM, 0, named),
                                        (("control", (), cpuset), errno.EPERM, 5, None), (("control", (), io), errno.EPERM, 0, None)]:
            self.assertEqual(self.outcome(step, "ok", number, uid), kind, step)

    def test_controllers_that_a_kernel_does_not_have_are_explained(self):
        for changes, said, number, kind in [((("-", "dmem"),), "ok", errno.EINVAL, "unknown controller"),
                                            ((("+", "dmem"),), "refused not-available dmem", errno.EINVAL, "unknown controller"),
                                            ((("+", "misc"),), "ok", errno.EINVAL, None), ((("-", "dmem"),), "ok", errno.EBUSY, None)]:
            self.assertEqual(self.outcome(("control", (), changes), said, number), kind)

    def test_internal_processes_are_explained_by_what_is_enabled(self):
        for name, kind in (("hugetlb", None), ("dmem", None), ("cpuset", "internal process"), ("pids", "internal process")):
            step = ("control", ("a",), (("+", name),))
            self.assertEqual(self.outcome(step, "refused internal-process /a", 0), kind, name)

    def test_controllers_are_those_of_the_nine_in_their_order(self):
        self.assertEqual(script.controllers_of("controllers misc io cpu perf_event\ncase 0\n"), ("cpu", "io", "misc"))
        self.assertEqual(script.controllers_of("case 0\n"), ())

    def test_trees_of_format_4_have_what_the_kernel_has(self):
        forms = set()
        for number in range(40):
            _, _, state = making.random_tree(random.Random(number), CONTROLLERS)
            forms.add(state.form)
            self.assertEqual(state.controllers, set(CONTROLLERS if state.form == 4 else rules.CONTROLLERS))
        self.assertEqual(forms, {2, 4})

    def test_a_case_is_read_again(self):
        for kind in KINDS:
            for case, _, _ in recorded(kind)[:3]:
                again = making.Case.of_record(json.loads(json.dumps(case.as_record())))
                self.assertEqual(case, again)
                self.assertEqual(script.script_of([case]), script.script_of([again]))

    def test_answers_are_read(self):
        self.assertEqual(self.asked(asking.check, ["escapes", "move 10 /", "chmod / dir 755"]),
                         ("escapes", [("move", 10, ()), ("chmod", (), "dir", 0o755)]))
        self.assertEqual(self.asked(asking.check, ["unsettled parent-dir /"]), ("unsettled parent-dir /", []))
        self.assertEqual(self.asked(asking.advise, ["contained"]), [])
        lines = ["fails common-ancestor / cgroup.procs 0:50 664 group", "chmod / cgroup.procs 644"]
        self.assertEqual(self.asked(asking.advise, lines), lines[1:])
        with unittest.mock.patch.object(asking, "report_of", return_value=lines):
            self.assertEqual(asking.advise_pairs("", "", [((1000, (5,)), ("a",)), ((7, ()), ())]), lines[1:])
        self.assertEqual([asking.listed(user) for user in ((7, ()), (1000, (5, 6)))], ["7", "1000:5,6"])
        with unittest.mock.patch.object(asking, "asked", return_value=["pair 1000:5 /a", "unsettled parent-dir /"]):
            self.assertEqual(asking.contained("", "", [(1000, (5,))], [("a",), ("b",)]), [("b",)])

    def asked(self, ask, lines):
        with unittest.mock.patch.object(asking, "asked", return_value=lines):
            return ask("", "", (1000, (5,)), ("a",))

    def test_advice_for_pairs_holds_in_the_model(self):
        found = []
        with unittest.mock.patch.object(asking, "check", second_check), unittest.mock.patch.object(asking, "advise_pairs", second_advice):
            for number in range(60):
                rng = random.Random(f"pairs {number}")
                found += advice.cases_of_pairs(rng, None, *making.random_tree(rng, CONTROLLERS))
        for case in found:
            states = [advice.changed(case.state, case.mends)]
            for user, step in case.steps + case.tries:
                if step[0] in rules.BARS:
                    states.append(rules.step(states[-1], user, step)[0])
            self.assertEqual(rules.verdict(states, case.subtrees[0]), "kept")
        self.assertGreater(max(len({user for user, _ in case.tries}) for case in found), 1)
        self.assertGreater(len(found), 10)

    def test_too_few_answers_are_a_difference(self):
        case, answers, record = recorded("operations")[0]
        found = comparing.compare(case, answers[:len(case.steps) - 1], record)
        self.assertIsNone(found.differences[0].kind)

    def test_made_trees_fail_each_guard(self):
        settled_ones = [advice.settled(tree) for tree in advice.made_trees()]
        failed = {(failure[0], rules.class_of(tree.user, state.cgroups[failure[1]].entries[failure[2]]) if failure[2] else "")
                  for tree, _, state in settled_ones for failure in rules.failures(state, tree.user, tree.subtree)}
        ways = {(guard, way) for guard in ("common-ancestor", "limit-file", "parent-control", "parent-dir")
                for way in ("owner", "group", "others")}
        self.assertEqual(failed, ways | {("already-over", "")})

    def test_a_third_stays_on_their_side(self):
        for number in range(30):
            rng = random.Random(number)
            tree, _, state = making.settled(rng, trees.tree_of_state(rng, wide=number % 2), CONTROLLERS)
            top = tree.subtree
            for user, step in settled.beside_a_third(rng, tree, state) if state.live else []:
                if user == settled.THIRD:
                    self.assertIn(step[0], ("move", "fork", "exit"))
                    after = rules.next_state(state, user, step)
                    self.assertEqual(rules.crossing(state, after, top), [])
                    state = after
                elif step[0] in rules.BARS:
                    state = rules.step(state, user, step)[0]

    def test_a_tally_counts_what_fails(self):
        with tempfile.TemporaryDirectory() as room, unittest.mock.patch.object(asking, "check", second_check):
            counted = tally.Tally("6", None, room)
            for kind in ("contained", "advice"):
                case, _, record = recorded(kind)[0]
                counted.take(case, "0", record)
                self.assertEqual(counted.failures, 0)
            with contextlib.redirect_stdout(io.StringIO()) as said:
                counted.take(case, "1", script.Record())
            self.assertIn("FAILED: advice, kept as", said.getvalue())
            self.assertEqual((counted.failures, counted.counts["advice cases"]), (1, 2))
            self.assertEqual(len(os.listdir(room)), 1)
            self.assertIn("- Unexplained: 1.", tally.lines_of(counted))

    def test_what_is_missing_is_said(self):
        with unittest.mock.patch("shutil.which", return_value=None), self.assertRaises(packages.Missing):
            machine.need_machine()


if __name__ == "__main__":
    unittest.main()
