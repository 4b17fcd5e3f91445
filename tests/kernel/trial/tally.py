"""What a run of a kernel came to: each case is taken by its kind, and what isn't as it should be is kept."""
import collections
import errno
import json
import os

from second.controllers import ALL_CONTROLLERS
from second.limit_files import TEXT_FILES
import tap
from trial import asking, classes, comparing, limit_files, made, refusals, script, selftests, settled, shown, mutants, wrong
from trials.format_4 import OTHERS

OF_OPERATIONS = {**mutants.MUTANTS, **mutants.OF_FORMAT_4}
OF_LIMIT_FILES = [*mutants.OF_LIMIT_FILES, mutants.FORGETS]
WRONG = [*OF_OPERATIONS, *mutants.ADVICE, *OF_LIMIT_FILES, *wrong.OF_MADE]


class Tally:
    def __init__(self, kernel, program, folder):
        self.kernel, self.program, self.folder = kernel, program, folder
        self.counts, self.kinds, self.breaks = collections.Counter(), collections.Counter(), collections.defaultdict(collections.Counter)
        # of each way of threads and descriptors the turns in which it was as the list says
        self.ways = collections.Counter()
        self.failures, self.told, self.seconds, self.controllers, self.files, self.runs = 0, {}, 0, (), (), []
        # of each wrong program how many of the cases that it calls contained break
        self.noticed = collections.Counter()
        # what the kernel's own test says of each of its cases
        self.selftests = {}
        # by what came of a set of a limit file in which an escape ends the texts of each file; "not known" marks those of a file
        # of whose value the tree's text tells nothing, and so no device
        self.sets = collections.defaultdict(lambda: collections.defaultdict(set))
        # by the kind of a step the controllers at which a kernel bars it for internal processes, where they alone are enabled
        self.barring = {"move": set(), "control": set()}
        self.takers = {"operations": self.operations, made.ALONE: self.alone, "escapes": self.escapes, "contained": self.contained,
                       "advice": self.advice, "wrong advice": self.wrong_advice, settled.ESCAPES: self.escapes,
                       settled.CONTAINED: self.contained, limit_files.OPERATIONS: self.operations, limit_files.ESCAPES: self.escapes,
                       limit_files.CONTAINED: self.contained, limit_files.ADVICE: self.advice, limit_files.NEIGHBOURS: self.neighbours,
                       wrong.KIND: self.wrong_program}

    def take(self, case, name, record):
        self.counts[f"{case.kind} cases"] += 1
        self.counts[f"{case.kind} of format 4"] += case.state.form == 4
        try:
            self.takers[case.kind](case, name, record)
        # whatever a case comes to, the others are taken
        except Exception as what:  # pylint: disable=broad-except
            self.fail(case, name, f"{type(what).__name__}: {what}")

    def take_refusals(self, runs):
        """Takes the two runs of what a kernel was asked to refuse."""
        self.runs, faults = runs, tap.faults_of(runs)
        self.counts["refusals cases"] += max(sum(it.planned for it in runs), len(faults))
        self.failures += len(faults)
        for it in faults:
            print(f"kernel: FAILED: {self.kernel}: refusals: {it}")

    def take_ways(self, ways):
        """What came of the ways of threads and descriptors in each turn; what the list doesn't say is a failure, and so is one without an
        end."""
        for name in classes.WAYS:
            told = ways.get(name, [])
            for numbers in told + [()] * (script.WAY_TURNS - len(told)):
                differs = classes.way_differs(name, numbers)
                self.counts["way cases"] += 1
                self.ways[name] += differs is None
                self.failures += differs is not None
                if differs:
                    print(f"kernel: FAILED: {self.kernel}: ways: {differs}")

    def take_selftests(self, told):
        """What the kernel's own test says of each of its cases; one that it doesn't say has passed is a failure."""
        self.selftests = told
        for name, became in told.items():
            self.counts["selftest cases"] += 1
            self.failures += became != selftests.PASSED
            if became != selftests.PASSED:
                print(f"kernel: FAILED: {self.kernel}: selftests: {name}: {became}")

    def fail(self, case, name, what):
        os.makedirs(self.folder, exist_ok=True)
        path = os.path.join(self.folder, f"{case.kind.replace(' ', '-')}-{self.kernel}-{name}.json")
        with open(path, "w") as out:
            json.dump(case.as_record(), out, indent=1)
        self.failures += 1
        print(f"kernel: FAILED: {case.kind}, kept as {path}: {what[:2000]}")

    def cut(self, name, whole, count):
        """A boot that didn't come to its end is a failure; the cases before are taken."""
        self.failures += 1
        print(f"kernel: FAILED: {name}: the boot didn't come to its end; {whole} of {count} cases are taken")

    def missed(self, names):
        return [name for name in names if name not in self.told and not self.noticed[name]]

    def compared(self, case, name, answers, record):
        found = comparing.compare(case, answers, record)
        self.counts[f"{case.kind} steps"] += found.steps
        self.count_others(case.steps[:found.steps], record.numbers)
        self.kinds.update(each.kind for each in found.differences if each.kind)
        unexplained = [each for each in found.differences if not each.kind]
        if unexplained:
            self.fail(case, name, f"step {unexplained[0].step}: {unexplained[0].what}")
        return found

    def count_others(self, deeds, numbers):
        """Counts the steps that turn another controller than cpu, memory and pids."""
        for (_, step), number in zip(deeds, numbers):
            if turns_others(step):
                self.counts["further"] += 1
                self.counts["further let through"] += number == 0

    def alone(self, case, name, record):
        self.compared(case, name, asking.replay(self.program, case), record)
        if record.numbers and record.numbers[-1]:
            self.barring[case.steps[-1][1][0]] |= case.state.cgroups[()].enabled

    def operations(self, case, name, record):
        answers = asking.replay(self.program, case)
        found = self.compared(case, name, answers, record)
        if all(each.kind for each in found.differences):
            for wrong, turn in (mutants.OF_LIMIT_FILES if case.kind == limit_files.OPERATIONS else OF_OPERATIONS).items():
                if wrong not in self.told and comparing.tells_apart(turn, case, answers, record):
                    self.told[wrong] = self.counts[f"{case.kind} cases"]

    def escapes(self, case, name, record):
        answers = asking.replay(self.program, case)
        found = self.compared(case, name, answers, record)
        if not script.is_whole(case, record):
            return
        there = comparing.break_of(case, record, case.subtrees[0])
        self.breaks[case.kind][" ".join(there.split(" ")[::2])] += 1
        self.counts[f"{case.kind} as said"] += there == answers[-1]
        self.counts["further escapes"] += turns_others(case.steps[-1][1])
        self.take_set(case, record, there)
        # a value that the kernel keeps as `max` isn't changed by a write of `max`
        if answers[-1] == "kept" or there != answers[-1] and not found.differences:
            self.fail(case, name, f"the program says {answers[-1]}, and there it is {there}")

    def take_set(self, case, record, there):
        """Notes an escape that ends in a set of a limit file whose values are texts, and whether check could forget these."""
        user, step = case.steps[-1]
        if step[0] != "set" or step[2] not in TEXT_FILES:
            return
        number = record.numbers[-1]
        is_known = step[2] in case.state.cgroups[step[1]].values
        what = "changes" if there != "kept" else "refused" if number else "nothing"
        marks = ([] if is_known else ["not known"]) + ([errno.errorcode[number]] if number else [])
        self.sets[what][step[2]].add(f"`{step[3]}`" + (f" ({', '.join(marks)})" if marks else ""))
        if there != "kept" and mutants.forgets(case.state, user, case.subtrees[0]):
            self.told.setdefault(mutants.FORGETS, self.counts[f"{case.kind} cases"])

    def neighbours(self, case, name, record):
        """The program says contained, and on a kernel what a neighbour has turns the subtree's own partition, and nothing else."""
        (user, _), top = case.steps[0], case.subtrees[0]
        said, _ = asking.check(self.program, case.text, user, top)
        self.compared(case, name, asking.replay(self.program, case), record)
        if said != "contained" or len(record.states) != 2:
            self.fail(case, name, f"check says {said}, {len(record.states)} states")
            return
        before, after = (state.cgroups[top].values for state in record.states)
        turned = sorted(file for file in before.keys() | after.keys() if before.get(file) != after.get(file))
        self.counts["partitions turned"] += turned == [shown.PARTITION]
        if turned not in ([], [shown.PARTITION]) or comparing.turned_entries(case, record, top):
            self.fail(case, name, f"turns {turned} of the subtree")

    def contained(self, case, name, record):
        if not script.is_whole(case, record):
            self.fail(case, name, f"not built or carried out: {record.faults[:3]}, {len(record.states)} states")
            return
        users = {user for user, _ in case.tries} - {settled.THIRD}
        self.counts[f"{case.kind} steps"] += len(case.tries)
        self.counts[f"{case.kind} steps let through"] += record.numbers.count(0)
        self.count_others(case.tries, record.numbers)
        self.counts[f"{case.kind} pairs"] += len(case.subtrees) * len(users)
        self.counts[f"{case.kind} steps of a third let through"] += sum(
            user == settled.THIRD and not number for (user, _), number in zip(case.tries, record.numbers))
        for top in case.subtrees:
            there, turned = comparing.break_of(case, record, top), comparing.turned_entries(case, record, top)
            if there != "kept" or turned:
                self.fail(case, name, f"{top}: {there}, owners and modes of {turned}")

    def wrong_program(self, case, name, record):
        """It has to be built and carried out, and each wrong program's to break once."""
        if not script.is_whole(case, record):
            self.fail(case, name, f"not built or carried out: {record.faults[:3]}, {len(record.states)} states")
            return
        top, = case.subtrees
        if comparing.break_of(case, record, top) != "kept" or comparing.turned_entries(case, record, top):
            self.noticed.update(case.turned.split(", "))

    def advice(self, case, name, record):
        found = comparing.compare_advice(self.program, case, record)
        if found.faults:
            self.fail(case, name, found.faults[0])
            return
        self.counts[f"{case.kind} changes"] += len(case.mends)
        self.counts[f"{case.kind} escapes"] += bool(case.steps)
        self.counts[f"{case.kind} escapes refused"] += found.refused > 0
        self.counts[f"{case.kind} escape steps"] += len(case.steps)
        self.counts[f"{case.kind} escape steps refused"] += found.refused
        self.counts[f"{case.kind} steps"] += len(case.tries)
        self.counts[f"{case.kind} steps let through"] += record.numbers[len(case.mends) + len(case.steps):].count(0)

    def wrong_advice(self, case, name, record):
        """It has to break on the kernel itself, whatever the program says of it."""
        found = comparing.compare_advice(self.program, case, record)
        if found.verdict not in ("", "kept"):
            self.told.setdefault(case.turned, self.counts["wrong advice cases"])


def turns_others(step):
    return step[0] == "control" and any(controller in OTHERS for _, controller in step[2])


def listed(counter):
    return ", ".join(f"{name} {number}" for name, number in sorted(counter.items())) or "none"


def settled_lines(tally):
    """What came of what settle says, where the program has it."""
    of, escapes, contained = tally.counts, settled.ESCAPES, settled.CONTAINED
    if not of[f"{escapes} cases"] + of[f"{contained} cases"]:
        return []
    return [
        f"- Settled, escapes: {of[f'{escapes} cases']} lists of {of[f'{escapes} steps']} operations, {of[f'{escapes} as said']} of which "
        f"break at the step and by the clause that the program says. There: {listed(tally.breaks[escapes])}.",
        f"- Settled, contained: {of[f'{contained} pairs']} pairs, {of[f'{contained} steps']} steps of the user and of a third, of which "
        f"the kernel let {of[f'{contained} steps let through']} through, {of[f'{contained} steps of a third let through']} of the third's."]


def lines_of_files(tally):
    """What came of the limit files whose values are texts."""
    of, named = tally.counts, "- Limit files whose values are texts"
    if not of[f"{limit_files.OPERATIONS} cases"]:
        return []
    return [
        f"{named}: the kernel has {len(tally.files)} of the {len(TEXT_FILES)}.",
        f"{named}, operations: {of[f'{limit_files.OPERATIONS} cases']} cases, {of[f'{limit_files.OPERATIONS} steps']} operations compared "
        "with their states.",
        f"{named}, escapes: {of[f'{limit_files.ESCAPES} cases']} lists of {of[f'{limit_files.ESCAPES} steps']} operations, "
        f"{of[f'{limit_files.ESCAPES} as said']} of which break at the step and by the clause that the program says. There: "
        f"{listed(tally.breaks[limit_files.ESCAPES])}.",
        f"{named}, contained: {of[f'{limit_files.CONTAINED} cases']} cases, {of[f'{limit_files.CONTAINED} pairs']} pairs of a user and a subtree, "
        f"{of[f'{limit_files.CONTAINED} steps']} steps, of which the kernel let {of[f'{limit_files.CONTAINED} steps let through']} through.",
        f"{named}, advice: {of[f'{limit_files.ADVICE} cases']} pairs advised, {of[f'{limit_files.ADVICE} changes']} changes carried out. Of "
        f"{of[f'{limit_files.ADVICE} escapes']} escapes {of[f'{limit_files.ADVICE} escapes refused']} were refused afterwards.",
        f"{named}, neighbours: {of['partitions turned']} of {of[f'{limit_files.NEIGHBOURS} cases']} contained partitions were turned invalid "
        "by `cpuset.cpus` of a cgroup beside them.",
        f"{named}, mutants of the program: {len(tally.told.keys() & OF_LIMIT_FILES)} of {len(OF_LIMIT_FILES)} found.", *table_of_sets(tally)]


def table_of_sets(tally):
    """Of each limit file that the kernel has the texts of the sets in which printed escapes end, by what came of them there."""
    columns = ["changes", "nothing", "refused"]
    rows = ["| `" + file + "` | " + " | ".join(", ".join(sorted(tally.sets[column].get(file, []))) for column in columns) + " |"
            for file in tally.files]
    return ["", "| The set that ends an escape, of | changes it | changes nothing | is refused |", "|---|---|---|---|", *rows, ""]


def lines_of_others(tally):
    """What came of trees of format 4."""
    of = tally.counts
    kinds = ", ".join(f"{name.removesuffix(' of format 4')} {number}" for name, number in of.items() if name.endswith(" of format 4"))
    lines = [f"- Of format 4: {kinds or 'none'}. {of['further']} steps turn another controller than cpu, memory and pids, of which the "
             f"kernel let {of['further let through']} through; {of['further escapes']} lists end with one."]
    if of[f"{made.ALONE} cases"]:
        lines.append("- Internal processes bar, where one controller alone is enabled, "
                     + "; ".join(f"a {kind} at {in_order(named)}" for kind, named in tally.barring.items()) + ".")
    return lines


def way_lines(tally):
    """What came of the ways of threads and descriptors, where they were carried out."""
    if not tally.counts["way cases"]:
        return []
    turns = ", ".join(f"{name} {tally.ways[name]}" for name in classes.WAYS)
    return [f"- Ways of threads and descriptors, as the list says in so many of {script.WAY_TURNS} turns: {turns}."]


def in_order(controllers):
    return ", ".join(name for name in ALL_CONTROLLERS if name in controllers) or "none"


def wrong_lines(tally):
    """What came of wrong programs, where what they alone call contained was carried out."""
    count = tally.counts[f"{wrong.KIND} cases"]
    if not count:
        return []
    missed = tally.missed(wrong.OF_MADE)
    return [f"- Wrong programs: {len(wrong.OF_MADE) - len(missed)} of {len(wrong.OF_MADE)} noticed by {count} cases that they alone call "
            "contained" + (f"; not noticed: {', '.join(missed)}" if missed else "") + ". So many of these break: "
            + ", ".join(f"{name} {tally.noticed[name]}" for name in wrong.OF_MADE) + "."]


def lines_of(tally):
    """A kernel's part of the report: of each kind that was asked for its own line, and then what is of all."""
    of, mutated = tally.counts, [name for name in WRONG if name not in wrong.OF_MADE]
    missed = tally.missed(mutated)
    kinds = {
        "operations": f"- Operations: {of['operations cases']} cases, {of['operations steps']} operations compared with their states.",
        "escapes": f"- Escapes: {of['escapes cases']} lists of {of['escapes steps']} operations, {of['escapes as said']} of which break at "
        f"the step and by the clause that the program says. There: {listed(tally.breaks['escapes'])}.",
        "contained": f"- Contained: {of['contained cases']} cases, {of['contained pairs']} pairs of a user and a subtree, "
        f"{of['contained steps']} steps, of which the kernel let {of['contained steps let through']} through.",
        "advice": f"- Advice: {of['advice cases']} pairs advised, {of['advice changes']} changes carried out. Of {of['advice escapes']} "
        f"escapes {of['advice escapes refused']} were refused afterwards, of their {of['advice escape steps']} operations "
        f"{of['advice escape steps refused']}. {of['advice steps']} further steps, of which the kernel let "
        f"{of['advice steps let through']} through."}
    found = [
        f"- Mutants of the program: {len(mutated) - len(missed)} of {len(mutated)} found"
        + (f"; not found: {', '.join(missed)}" if missed else "")
        + ". By the case of its kind: " + ", ".join(f"{name} {number}" for name, number in tally.told.items()) + "."]
    return [f"## {tally.kernel}", "", f"- Controllers: {in_order(tally.controllers)}.", refusals.line_of(tally.runs),
            *way_lines(tally), *selftests.lines_of(tally.selftests),
            *(line for kind, line in kinds.items() if of[f"{kind} cases"]), *settled_lines(tally), *wrong_lines(tally),
            *lines_of_others(tally),
            f"- Differences by kind: {listed(tally.kinds)}.", f"- Unexplained: {tally.failures}.",
            *(found if of["operations cases"] else []), *lines_of_files(tally), f"- Time: {tally.seconds:.0f} s.", ""]
