"""Holds what the program says of a case against what a kernel made of it: outcome by outcome, and the state after each."""
import errno
from dataclasses import dataclass, replace

from second import commands, rules
from second.limit_files import LIMIT_FILES, NUMBER_FILES, TEXT_FILES
from second.rules import text_of
from trial import advice, asking, classes, script, mutants, shown

# the error numbers by which a kernel refuses what the program does, by the first word of the refusal
NUMBERS = {
    "no-such-cgroup": {errno.ENOENT, errno.ENOTDIR}, "no-access": {errno.EACCES}, "no-such-process": {errno.ESRCH},
    "internal-process": {errno.EBUSY}, "not-available": {errno.ENOENT}, "child-uses": {errno.EBUSY}, "exists": {errno.EEXIST},
    "descendant-limit": {errno.EAGAIN}, "depth-limit": {errno.EAGAIN}, "root-cgroup": {errno.EBUSY, errno.EACCES},
    "has-children": {errno.EBUSY}, "has-processes": {errno.EBUSY}, "no-such-file": {errno.ENOENT},
    "bad-value": {errno.EINVAL, errno.ERANGE}, "not-yours": {errno.EPERM}, "not-owner": {errno.EPERM}}


@dataclass
class Difference:
    """The step at which something differs, the entry that explains it or None, and what differs."""
    step: int
    kind: str
    what: str


@dataclass
class Advised:
    """What a kernel made of a case of advice: what isn't as it should be, the first break of the subtree after the changes or
    `kept`, and how many steps of the escape were refused."""
    faults: list
    verdict: str
    refused: int


@dataclass
class Compared:
    """How many steps were compared, and what differs; behind a difference of outcomes no step is compared."""
    steps: int
    differences: list


def same_outcome(said, number):
    return number == 0 if said == "ok" else number in NUMBERS[said.split(" ")[1]]


def values_of(state):
    """Those that are numbers, or `max`."""
    return {(path, file): value for path, cgroup in state.cgroups.items() for file, value in cgroup.values.items() if file in NUMBER_FILES}


def without_values(state, watched=()):
    """Owners and modes of what every tree is written with and of the limit files that are watched, and what is enabled."""
    return {path: ({name: replace(entry, value=None) for name, entry in cgroup.entries.items() if name in rules.WRITTEN or name in watched},
                   cgroup.enabled) for path, cgroup in state.cgroups.items()}


def there_of(state):
    """The same of a kernel's state, which has what it watched."""
    return without_values(state, {name for cgroup in state.cgroups.values() for name in cgroup.named})


def state_differences(number, model, there, watched=()):
    """What of a state differs: rows, entries and places have no entry that explains them, numbers may."""
    found = []
    mine, its = without_values(model, watched), there_of(there)
    for path in sorted(mine.keys() | its.keys()):
        if mine.get(path) != its.get(path):
            found.append(Difference(number, None, f"{text_of(path)}: {mine.get(path)} is {its.get(path)}"))
    if model.live != there.live:
        found.append(Difference(number, None, f"processes: {model.live} are {there.live}"))
    written, kept = values_of(model), values_of(there)
    for path, file in sorted(written.keys() & kept.keys()):
        if written[path, file] != kept[path, file]:
            kind = classes.kind_of_value(file, written[path, file], kept[path, file], there.cgroups[path].values)
            found.append(Difference(number, kind, f"{text_of(path)} {file}: {written[path, file]} is {kept[path, file]}"))
    return found


def compare(case, answers, record):
    """The steps that were compared, and the differences: the first of outcomes ends it, and a value's counts once."""
    if not script.is_whole(case, record):
        return Compared(0, [Difference(0, None, f"not built or carried out: {record.faults[:3]}, {len(record.states)} states")])
    if len(answers) < len(case.steps):
        return Compared(0, [Difference(0, None, f"{len(answers)} answers to {len(case.steps)} steps")])
    watched = standing_of(case, record)
    found = state_differences(0, case.state, record.states[0], watched) + value_differences(case.state, record.states[0])
    seen, model = {each.what for each in found}, case.state
    for number, ((user, step), said, number_said) in enumerate(zip(case.steps, answers, record.numbers), 1):
        if not same_outcome(said, number_said):
            kind = classes.kind_of(classes.Outcome(model, user, step, said, number_said, record.states[number - 1]))
            what = f"{commands.spelling(step)}: {said}, and there {errno.errorcode.get(number_said, number_said)}"
            return Compared(number, found + [Difference(number, kind, what)])
        new = text_differences(number, model, step if said == "ok" else (), *record.states[number - 1:number + 1])
        model = rules.step(model, user, step)[0]
        new += [each for each in state_differences(number, model, record.states[number], watched) if each.what not in seen]
        seen |= {each.what for each in new}
        found += new
        if any(each.kind is None for each in new):
            return Compared(number, found)
    return Compared(len(case.steps), found)


def standing_of(case, record):
    """Of the limit files that a case watches those that stand somewhere on the kernel: the others it doesn't have."""
    standing = {name for state in record.states for cgroup in state.cgroups.values() for name in cgroup.named}
    return [file for file in script.watched(case) if file in standing]


def value_differences(model, there):
    """Texts that a kernel shows otherwise than they were written while the tree was built."""
    found = []
    for path, cgroup in model.cgroups.items():
        for file in [file for file in cgroup.values if file in TEXT_FILES and path in there.cgroups]:
            value, text, now = cgroup.values[file], there.cgroups[path].values.get(file, ""), {}
            for line in value.split("\n"):
                now.update(shown.turned_by(file, line, now) or {})
            if not shown.are_alike(file, value, text):
                kind = "read back" if shown.are_alike(file, now.get(file), text) else None
                found.append(Difference(0, kind, f"{text_of(path)} {file}: {value!r} is {text!r}"))
    return found


def text_differences(number, model, step, before, after):
    """What a kernel shows of texts after a step that was let through, where it shows another text than it was to by
    the rules of shown.py, or where that is another one than was set."""
    found, turned = [], {}
    if step[:1] == ("set",) and (step[2] in TEXT_FILES or step[2] == shown.WEIGHT):
        now = before.cgroups[step[1]].values
        turned = shown.turned_by(step[2], step[3], now)
        if turned is None:
            return [Difference(number, None, f"{commands.spelling(step)}: let through, and a kernel was to refuse it")]
        found += kind_of_set(number, model, step, now, turned)
    for path, file in sorted(texts_of(after)):
        text, was = after.cgroups[path].values.get(file, ""), shown.FIRST.get(file, "")
        if (path, file) in texts_of(before):
            was = before.cgroups[path].values.get(file, "")
        if step[1:2] == (path,):
            was = turned.get(file, was)
        if shown.is_turned_elsewhere(file, was, text):
            found.append(Difference(number, "file that turns another", f"{text_of(path)} {file}: {was!r} is {text!r}"))
        elif not shown.are_alike(file, was, text):
            found.append(Difference(number, None, f"{text_of(path)} {file}: was to be {was!r}, and is {text!r}"))
    return found


def texts_of(state):
    return {(path, file) for path, cgroup in state.cgroups.items() for file in cgroup.named}


def kind_of_set(number, model, step, now, turned):
    """The entry that a set falls under where a kernel shows other than its text, or shows it already."""
    _, path, file, text = step
    what, found = commands.spelling(step), []
    if [name for name in turned if name != file and name in now and now[name] != turned[name]]:
        found.append(Difference(number, "file that turns another", f"{what}: turns {turned}"))
    if file in TEXT_FILES and not shown.are_alike(file, turned[file], str(text)):
        kind = "one line of several" if file == "io.max" else "read back"
        found.append(Difference(number, kind, f"{what}: is shown as {turned[file]!r}"))
    elif file in TEXT_FILES and now.get(file) == text and model.cgroups[path].values.get(file) != text:
        found.append(Difference(number, "read back", f"{what}: stands there already"))
    return found


def turned_entries(case, record, top):
    """The limit files of a subtree's top whose owner or mode isn't what it was at the first."""
    first, *rest = [state.cgroups[top].entries for state in record.states[len(case.mends):] if top in state.cgroups]
    return sorted({file for file in LIMIT_FILES for entries in rest if owner_of(entries.get(file)) != owner_of(first.get(file))})


def owner_of(entry):
    """An owner, a group and a mode, where there is an entry."""
    return entry and (entry.uid, entry.gid, entry.mode)


def tells_apart(turn, case, answers, record):
    """Whether a mutant's answers differ from what a kernel did by what nothing explains."""
    found = compare(case, mutants.answers_of(turn, case, answers), record)
    return any(not each.kind for each in found.differences)


def break_of(case, record, top):
    """The verdict on a subtree over a kernel's own states, from the end of the changes on."""
    return rules.verdict(record.states[len(case.mends):], top)


def compare_advice(program, case, record):
    """Holds a kernel's states against the changes: they are made and no more, the program says contained, and nothing breaks."""
    if not script.is_whole(case, record):
        return Advised([f"not built or carried out: {record.faults[:3]}, {len(record.states)} states"], "", 0)
    users, top, count = dict.fromkeys(user for user, _ in case.steps + case.tries), case.subtrees[0], len(case.mends)
    there = replace(record.states[count], form=case.state.form, controllers=case.state.controllers)
    faults = [f"{line}: {errno.errorcode.get(number, number)}" for line, number in zip(case.mends, record.numbers) if number]
    faults += [each.what for each in changes_differences(case, case.mends, record)]
    for user in users:
        said, _ = asking.check(program, advice.text_of_state(there), user, top)
        if said != "contained":
            faults.append(f"after the changes check says {said}")
    verdict = break_of(case, record, top)
    if verdict != "kept":
        faults.append(f"after the changes {verdict}")
    return Advised(faults, verdict, sum(map(bool, record.numbers[count:count + len(case.steps)])))


def changes_differences(case, mends, record):
    """What of the state that a kernel has after a case's changes isn't the tree with these changes."""
    there = record.states[len(case.mends)]
    model, watched = advice.changed(case.state, mends), standing_of(case, record)
    return [each for each in state_differences(0, model, there, watched) + value_differences(model, there) if not each.kind]
