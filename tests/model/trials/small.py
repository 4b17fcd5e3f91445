"""Small random states for a search: few cgroups and processes, and entries that one or two users reach in each way."""
from dataclasses import replace

from second import rules
from second.controllers import ALL_CONTROLLERS
from second.limit_files import LIMIT_FILES, MAX, is_text
from second.rules import CONTROLLERS, DEPTH, DESCENDANTS, DIR, Cgroup, Entry, State

USERS = [(1000, (5,)), (1001, ())]
STRANGER = 0
PIDS = [1, 2, 3]


def random_state(rng, most=6, names=CONTROLLERS):
    """A well-formed state of 3 cgroups or more, of which some are about room for new ones alone; of some controllers of those named."""
    paths = random_paths(rng, rng.randint(3, most))
    if rng.random() < 0.4:
        return state_about_room(rng, paths)
    controllers = frozenset(rng.sample(names, rng.choice([0, 1, 1, 1, 2])))
    chances = {name: rng.choice([0.0, 0.1, 0.5, 0.8]) for name in rules.STANDING}
    often = rng.choice([0.2, 0.5, 0.8])
    enabled = {(): frozenset(c for c in sorted(controllers) if rng.random() < often)}
    for path in paths[1:]:
        enabled[path] = frozenset(c for c in sorted(enabled[path[:-1]]) if rng.random() < often)
    cgroups = cgroups_of(rng, controllers, enabled, chances)
    return with_limits(rng, with_processes(rng, controllers, cgroups), rng.choice([0, 0, 0.3, 0.8]))


def in_format_4(rng, state):
    """A state in format 4, at times with a controller more, or two, that other formats don't have."""
    more, cgroups = rng.sample([c for c in ALL_CONTROLLERS if c not in CONTROLLERS], rng.choice([0, 1, 1, 2])), {}
    for path, cgroup in sorted(state.cgroups.items()):
        able = [c for c in more if not path or c in cgroups[path[:-1]].enabled and not rules.lives_at(state, path)]
        cgroups[path] = replace(cgroup, enabled=cgroup.enabled | {c for c in able if rng.random() < 0.6})
    wider = replace(state, controllers=state.controllers | {*more}, cgroups=cgroups, form=4)
    for path, cgroup in cgroups.items():
        cgroup.entries.update((file, Entry()) for file in rules.files_at(wider, path) if file not in cgroup.entries)
    return wider


def with_named(rng, state):
    """A state of format 4 that names some limit files whose values are texts, at times as such that are reached."""
    cgroups = {}
    for path, cgroup in state.cgroups.items():
        named = [file for file in rules.files_at(state, path) if is_text(file) and rng.random() < 0.06]
        values = {file: rng.choice(["1", MAX, LIMIT_FILES[file].loose, f"1 {LIMIT_FILES[file].loose}", "1\n2", "1\n2 3"])
                  for file in named if rng.random() < 0.6}
        entries = {file: replace(random_entry(rng, 0.15), value=values.get(file)) for file in named}
        cgroups[path] = replace(cgroup, entries={**cgroup.entries, **entries}, named=cgroup.named | {*named})
    return replace(state, cgroups=cgroups)


def state_about_room(rng, paths):
    """Every cgroup with a child enables memory, and processes are moved past one of these into new cgroups alone."""
    controllers = frozenset(["memory"])
    inner = {path[:-1] for path in paths if path}
    chances = {DIR: rng.choice([0.2, 0.5, 0.8]), rules.PROCS: 0, rules.CONTROL: 0}
    cgroups = cgroups_of(rng, controllers, {path: controllers if path in inner else frozenset() for path in paths}, chances)
    above = rng.choice([path for path in paths if path in inner and path] or [()])
    cgroups[above].entries[rules.PROCS] = random_entry(rng, 1)
    state = with_limits(rng, with_processes(rng, controllers, cgroups), rng.choice([0, 0.4]))
    if rng.random() < 0.5:
        set_value(cgroups[above], DESCENDANTS, len(rules.below(state, above)))
    return state


def state_about_plans(rng, least=3, most=5):
    """A state about lists of several operations: places that have to be opened, or room to be made, or processes that have to leave."""
    kinds = [state_about_closed_places, state_about_full_places, state_about_leaving, state_about_nesting]
    return rng.choice(kinds)(rng, rng.randint(least, most))


def head_of(rng):
    """A subtree with what is above it, and one of these cgroups, at which there are many places."""
    head = rng.choice([[(), ("s",)], [(), ("p",), ("p", "s")]])
    return head, rng.choice([head[-1], head[-1], head[-2]])


def with_chances(rng, paths, controllers, enabled, chance):
    """Of a chance to be reached for each entry of each path, with processes."""
    enabled = {path: enabled.get(path, frozenset()) for path in sorted(paths)}
    cgroups = cgroups_of(rng, controllers, enabled, {name: 0 for name in rules.STANDING})
    for path, cgroup in cgroups.items():
        for name in (*rules.STANDING, DESCENDANTS, DEPTH):
            cgroup.entries[name] = replace(random_entry(rng, chance(path, name), name == DIR), value=cgroup.entries[name].value)
    return with_processes(rng, controllers, cgroups, [1, 1, 2, 3])


def state_about_closed_places(rng, number):
    """Many places enable a controller, which may go off at few of them."""
    head, at = head_of(rng)
    places = [at + (f"c{count}",) for count in range(number)]
    paths = head + places + [place + ("d",) for place in places if rng.random() < 0.3]
    on, open_ones = frozenset(["cpu"]), {place for place in places if rng.random() < 0.1}
    enabled = {path: on for path in paths if path[:-1] not in open_ones and path not in open_ones and
               (len(path) <= len(at) or rng.random() < (0.9 if path in places else 0.5))}
    enabled = {path: those for path, those in enabled.items() if not path or all(path[:length] in enabled for length in range(len(path)))}
    few = rng.choice([0.15, 0.3])

    def chance(path, name):
        if path in head:
            return {rules.PROCS: 0.6 if path != at else 0.1, DIR: 0.15}.get(name, 0.05)
        return {rules.PROCS: 0.9, rules.CONTROL: few}.get(name, 0.1)
    return with_chances(rng, paths, on, enabled, chance)


def state_about_full_places(rng, number):
    """Many places may get no child, by limits that few of them may raise, or make room for."""
    head, at = head_of(rng)
    places = [at + (f"c{count}",) for count in range(number)]
    paths = head + places + [place + (f"d{count}",) for place in places for count in range(rng.choice([0, 0, 0, 1, 2]))]
    memory, few = frozenset(["memory"]), rng.choice([0.15, 0.3])
    enabled = {path[:-1]: memory for path in paths if path}

    def chance(path, name):
        if path in head:
            return {rules.PROCS: 0.7}.get(name, 0.1)
        return {DIR: 0.8, rules.PROCS: 0.05, rules.CONTROL: 0.05}.get(name, few)
    state = with_chances(rng, paths, memory, enabled, chance)
    for path, cgroup in state.cgroups.items():
        if rng.random() < (0.3 if path in head else 0.9):
            set_value(cgroup, DESCENDANTS, max(0, len(rules.below(state, path)) - rng.choice([0, 0, 0, 1])))
        if rng.random() < 0.1:
            set_value(cgroup, DEPTH, rules.depth_below(state, path))
    return state


def state_about_leaving(rng, number):
    """Processes are in a chain whose controls are reached, with places beside it."""
    chain = [tuple("abcd"[:length]) for length in range(rng.choice([4, 5]))]
    paths = list(chain)
    for count in range(max(1, number - 3)):
        paths.append(rng.choice(paths[:-1]) + (f"x{count}",))
    controllers, first = frozenset([rng.choice(["cpu", "memory"])]), rng.randint(0, 2)
    enabled = {}
    for path in sorted(paths):
        if (not path or path[:-1] in enabled) and (len(path) < first if path in chain else rng.random() < 0.4):
            enabled[path] = controllers
    moved, made, raised = rng.choice([0.3, 0.6]), rng.choice([0, 0.3, 0.6]), rng.choice([0.1, 0.5])

    def chance(path, name):
        return {rules.CONTROL: 0.9 if path in chain[:-1] else 0.4, rules.PROCS: moved, DIR: made}.get(name, raised)
    state = with_chances(rng, paths, controllers, enabled, chance)
    return with_limits(rng, state, rng.choice([0, 0.4]))


def state_about_nesting(rng, number):
    """Room is made by the removal of several cgroups, some of which lie in others."""
    paths, memory = random_paths(rng, number + 1), frozenset(["memory"])
    inner, often, enabled = {path[:-1] for path in paths if path}, rng.choice([0.3, 1]), {}
    for path in sorted(paths):
        if (not path or path[:-1] in enabled) and path in inner and rng.random() < often:
            enabled[path] = memory
    removed, moved = rng.choice([0.5, 0.8]), rng.choice([0.1, 0.4])

    def chance(_, name):
        return {DIR: removed, rules.PROCS: moved}.get(name, 0.1)
    state = with_chances(rng, paths, memory, enabled, chance)
    for path, cgroup in state.cgroups.items():
        if rng.random() < 0.4:
            set_value(cgroup, DESCENDANTS, max(0, len(rules.below(state, path)) - rng.choice([0, 0, 1, 1, 2])))
    return state


def state_of_site(rng):
    """Processes are moved past one cgroup alone, and to nowhere but into new cgroups there."""
    paths, controllers = [(), ("a",), ("a", "b"), ("a", "b", "c")], frozenset(["memory"])
    paths += [path for path in random_paths(rng, rng.randint(1, 3)) if path]
    inner = [path for path in paths if any(other[:-1] == path for other in paths if other)]
    cgroups = cgroups_of(rng, controllers, {path: controllers if path in inner else frozenset() for path in paths},
                         {DIR: 0, rules.PROCS: 0, rules.CONTROL: 0})
    above = ("a",)
    for name in (rules.PROCS, DIR):
        cgroups[above].entries[name] = random_entry(rng, 1, name == DIR)
    state = with_processes(rng, controllers, cgroups)
    if rng.random() < 0.3:
        set_value(cgroups[above], DESCENDANTS, len(rules.below(state, above)))
    return state


def state_of_two(rng):
    """One user moves processes past a cgroup, to nowhere; another lets them into one cgroup there, or makes one there. At times these
    move processes past the root."""
    paths = [(), ("a",), ("a", "b"), ("a", "c")] + [path for path in random_paths(rng, rng.randint(1, 3)) if path]
    memory = frozenset(["memory"])
    enabled = {path: memory if any(other[:-1] == path for other in paths if other) else frozenset() for path in paths}
    cgroups = cgroups_of(rng, memory, enabled, {name: 0 for name in rules.STANDING})
    for path in (("a", "b"), ("a", "c")):
        cgroups[path].entries.update((file, Entry(value=value)) for file, value in cgroups[path].values.items())
    one, other = rng.sample(USERS, 2)
    cgroups[("a",)].entries[rules.PROCS] = Entry(one[0], 0, rng.choice([0o644, 0o444]))
    cgroups[rng.choice([("a", "b"), ("a", "c")])].entries[rng.choice([rules.PROCS, DIR])] = Entry(other[0], 0, 0o644)
    if rng.random() < 0.35:
        cgroups[()].entries[rules.PROCS] = Entry(other[0])
    return with_processes(rng, memory, cgroups)


def cgroups_of(rng, controllers, enabled, chances):
    cgroups = {}
    for path, those in enabled.items():
        entries = {name: random_entry(rng, chances[name], name == DIR) for name in rules.STANDING}
        cgroups[path] = Cgroup(entries, those)
        for file in rules.files_at(State(controllers, cgroups, {}, frozenset()), path):
            entries[file] = Entry() if is_text(file) else replace(random_entry(rng, 0.15), value=rules.default_of(file))
    return cgroups


def set_value(cgroup, file, value):
    cgroup.entries[file] = replace(cgroup.entries[file], value=value)


def with_processes(rng, controllers, cgroups, numbers=(0, 1, 1, 2)):
    places = [path for path, cgroup in cgroups.items() if not path or not cgroup.enabled]
    pids = rng.sample(PIDS, rng.choice(numbers))
    live = {pid: (rng.choice([STRANGER, STRANGER, 1000, 1001]), rng.choice(places)) for pid in pids}
    return State(controllers, cgroups, live, frozenset(live))


def random_paths(rng, number):
    paths = [()]
    while len(paths) < number:
        paths.append(rng.choice(paths[-3:] if rng.random() < 0.4 else paths) + (f"c{len(paths)}",))
    return paths


def random_entry(rng, chance, is_dir=False):
    """Reached with some chance: owned, with or without the owner's bit, or written as one of the group or of all others."""
    mode = rules.DIR_MODE if is_dir else rules.FILE_MODE
    if rng.random() >= chance:
        return Entry(0, 0, mode)
    uid, _ = rng.choice(USERS[:1] + USERS)
    return rng.choice([Entry(uid, 0, mode), Entry(uid, 0, mode & ~0o200), Entry(0, 5, mode | 0o020), Entry(0, 0, mode | 0o002)])


def with_limits(rng, state, chance):
    """The state with limits of what is below, near to what is there."""
    for path, cgroup in state.cgroups.items():
        for file, there in ((DESCENDANTS, len(rules.below(state, path))), (DEPTH, rules.depth_below(state, path))):
            limited = rng.random() < chance
            set_value(cgroup, file, max(0, there + rng.choice([0, 0, 0, 1, 2, -1, -2])) if limited else MAX)
    return state
