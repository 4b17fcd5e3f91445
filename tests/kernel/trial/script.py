"""The lines that tests/kernel/init.c takes and writes: from a case to a script, and from what was said to a record."""
from dataclasses import dataclass, field
from urllib.parse import unquote

from second import commands, rules
from second.controllers import ALL_CONTROLLERS
from second.limit_files import NUMBER_FILES, TEXT_FILES
from second.rules import text_of
from trial import classes, shown

# a file of each controller that has no limit file here, which stands at the children of a cgroup that enables it
OTHERS = {"cpuset": "cpuset.cpus", "io": "io.max", "hugetlb": "hugetlb.2MB.max", "rdma": "rdma.max", "misc": "misc.max",
          "dmem": "dmem.max"}
# how often each way of threads and descriptors is carried out in a boot
WAY_TURNS = 3


@dataclass
class Record:
    """What a kernel made of a case: what failed while it was built, the states, and the error number of each operation."""
    faults: list = field(default_factory=list)
    states: list = field(default_factory=list)
    numbers: list = field(default_factory=list)


def head():
    return "files " + " ".join(NUMBER_FILES) + "\nothers " + " ".join(OTHERS.values())


def spelled(step):
    """A step's line: an operation of the model, or one of the other kinds, which are words already."""
    return commands.spelling(step) if step[0] in rules.BARS else " ".join(map(str, step))


def watched(case):
    """The limit files whose values are texts that a case names, in their order, and with one of those that turn `cpu.weight` the other one."""
    named = {name for cgroup in case.state.cgroups.values() for name in cgroup.named}
    named |= {step[2] for _, step in [*case.steps, *case.tries] if step[0] in ("set", "chmod")}
    if named & {shown.IDLE, shown.NICE}:
        named |= {shown.IDLE, shown.NICE}
    return [file for file in TEXT_FILES if file in named] if case.state.form == 4 else []


def lines_of(number, case):
    """A case's lines: the tree, what root changes of it, what users do and what they try."""
    watch = watched(case)
    lines = [f"case {number}", *(["watch " + " ".join(watch)] if watch else []), *building_lines(case), "state"]
    lines += [f"mend {line}" for line in case.mends]
    for verb, deeds in (("do", case.steps), ("try", case.tries)):
        for user, step in deeds:
            lines += ["user " + " ".join(map(str, [user[0], *user[1]])), f"{verb} {spelled(step)}"]
    return [*lines, "state"] if case.tries else lines


def building_lines(case):
    """A tree, built by root from the top down, its processes, and then owners, modes and values."""
    state = case.state
    rows = sorted(state.cgroups.items(), key=lambda row: len(row[0]))
    lines = [f"mkdir {text_of(path)}" for path, _ in rows if path]
    for path, cgroup in rows:
        if cgroup.enabled:
            lines.append(f"control {text_of(path)} " + " ".join(f"+{name}" for name in sorted(cgroup.enabled)))
    lines += [f"process {pid} {uid} {text_of(path)}" for pid, (uid, path) in sorted(state.live.items())]
    for path, cgroup in rows:
        lines += value_lines(path, cgroup)
        lines += [f"own {text_of(path)} {name} {entry.uid} {entry.gid} {entry.mode:o}" for name, entry in cgroup.entries.items()
                  if rules.is_shown(state, path, name)]
        if case.tries:
            # a delegation that hands over the one hands over the other; the model has no cgroup.threads
            procs = cgroup.entries[rules.PROCS]
            lines.append(f"own {text_of(path)} cgroup.threads {procs.uid} {procs.gid} {procs.mode:o}")
    return lines


def value_lines(path, cgroup):
    """The values of a cgroup's files: of numbers those that aren't there anyway, and of texts a line for each of theirs."""
    lines = [f"set {text_of(path)} {file} {value}" for file, value in cgroup.values.items()
             if file in NUMBER_FILES and value != rules.default_of(file)]
    return lines + [f"set {text_of(path)} {file} {line}" for file in TEXT_FILES if file in cgroup.values
                    for line in cgroup.values[file].split("\n")]


def is_whole(case, record):
    """Whether a case was built, and carried out to its end."""
    count = 1 + len(case.mends) + len(case.steps) + len(case.tries) + bool(case.tries)
    return not record.faults and len(record.states) == count


def script_of(cases):
    return "\n".join([head()] + [line for number, case in enumerate(cases) for line in lines_of(number, case)]) + "\n"


def standing_script():
    """What has a kernel say which limit files it has whose values are texts."""
    enabling = [f"control / +{name}" for name in ALL_CONTROLLERS]
    lines = [head(), "case 0", "watch " + " ".join(TEXT_FILES), *enabling, "mkdir /a", "state", "case 1"]
    return "\n".join(lines + [way_line(name) for _ in range(WAY_TURNS) for name in classes.WAYS]) + "\n"


def way_line(name):
    return f"way {name.replace(' ', '-')}"


def ways_in(said):
    """The numbers that each way ended with in each turn, by its name."""
    found = {}
    for line in said.split("\n"):
        sign, name, *numbers = line.split(" ") if line.startswith("w ") else ("", "")
        if sign:
            found.setdefault(name.replace("-", " "), []).append(tuple(map(int, numbers)))
    return found


def standing_in(said):
    """The limit files that a kernel says so, in their order."""
    found, _ = records_of(said)
    return tuple(file for file in TEXT_FILES if found and file in found[0].states[0].cgroups[("a",)].named)


def controllers_of(said):
    """The controllers that a kernel has, of the nine and in their order."""
    named = next((line.split(" ")[1:] for line in said.split("\n") if line.startswith("controllers ")), [])
    return tuple(name for name in ALL_CONTROLLERS if name in named)


def records_of(said):
    """The records by number of case, and whether the run came to its end."""
    found, record, lines, changed, controllers = {}, Record(), set(), False, controllers_of(said)
    for line in said.split("\n"):
        sign, rest = line[:1], line[1:]
        changed = changed or sign in ("+", "-")
        if line.startswith("case "):
            record, lines = found.setdefault(int(line[5:]), Record()), set()
        elif sign == "!":
            record.faults.append(line)
        elif line.startswith("o "):
            record.numbers.append(int(line[2:]))
        elif sign == "+":
            lines.add(rest)
        elif sign == "-":
            lines.discard(rest)
        elif line == ".":
            if changed or not record.states:
                record.states.append(state_of(lines, controllers))
                record.faults += misplaced(lines, record.states[-1])
            else:
                record.states.append(record.states[-1])
            changed = False
    return found, said.endswith("end\n")


def misplaced(lines, state):
    """The cgroups at which other files stand than what their parents enable brings."""
    found = []
    for path, *words in (line.split(" ")[1:] for line in lines if line.startswith("c ")):
        standing = {name for name, file in OTHERS.items() if file in words}
        if standing != rules.brought(state, rules.path_of(path)) & OTHERS.keys():
            found.append(f"! at {path} stand the files of {sorted(standing)}")
    return found


def state_of(lines, controllers):
    """A kernel's state in the model's terms; values that are no numbers stay texts. A limit file that the root alone has there has no
    place in a tree, and is left out."""
    cgroups, live = {}, {}
    for line in lines:
        kind, *words = line.split(" ")
        if kind == "p":
            live[int(words[0])] = (int(words[1]), rules.path_of(words[2]))
        else:
            path = rules.path_of(words[0])
            cgroups[path] = cgroup_of(words[1:] if path else [word for word in words[1:] if word.partition("=")[0] not in TEXT_FILES])
    state = rules.State(frozenset(controllers), cgroups, live, frozenset(live), 4)
    for path, cgroup in cgroups.items():
        # what wasn't watched, and comes and goes with its controller
        cgroup.entries.update((file, rules.Entry()) for file in TEXT_FILES if file in rules.files_at(state, path) and file not in cgroup.entries)
    return state


def cgroup_of(words):
    enabled, *standing = words[:4]
    entries = {name: entry_of(word.split(":")) for name, word in zip(rules.STANDING, standing)}
    for word in words[4:]:
        name, is_limit, rest = word.partition("=")
        if not is_limit:
            continue
        *entry, value = rest.split(":", 3)
        entries[name] = entry_of(entry, unquote(value) or None if name in TEXT_FILES else int(value) if value.isdigit() else value)
    return rules.Cgroup(entries, frozenset(enabled.split(",")) & frozenset(ALL_CONTROLLERS), frozenset(entries) - rules.WRITTEN)


def entry_of(words, value=None):
    return rules.Entry(int(words[0]), int(words[1]), int(words[2], 8), value)
