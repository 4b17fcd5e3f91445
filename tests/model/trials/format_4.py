"""What format 4 has beyond format 2, made at random of a tree, of its text and of its operations."""
import itertools

from second import documents, rules
from second.controllers import ALL_CONTROLLERS, CONTROLLERS
from second.limit_files import LIMIT_FILES, NUMBER_FILES
from trials import limit_files, spelling
from trials.spelling import Raw

# among the commands that a program has: that it reads this format
FORMAT_4 = "format 4"
TREE = b'format = 4\ncontrollers = ["dmem"]\n[[cgroup]]\npath = "/"\n'
OTHERS = [c for c in ALL_CONTROLLERS if c not in CONTROLLERS]
# names of no controller, some of which are a kernel's, and of files that have no key
NONE = ["perf_event", "net_cls", "cgroup", "", "IO", "io ", "cpuset.cpus", "freezer"]
KEYLESS = ["pids.peak", "memory.oom.group", "hugetlb.4MB.max", "io.cost.qos", "cgroup.kill", "cgroup.type", "cpu.max.", "CPU.MAX", "io.stat"]
MANY = 4097
# a byte order mark
MARK = "\ufeff"
# what turns the beginning of a large text into that of none: a text that stands in it, and one in its place
NEAR = [("format = 4", "format = 4 "), ("format = 4", "format=4"), ("format = 4", "format = 0o4"), ("format = 4", "format = 2"),
        ("format", " format"), ("format", "# x\nformat"), ("controllers", "\ncontrollers"), ("controllers", "# x\ncontrollers"), ('"', "'"),
        (", ", ","), (", ", ",  "), ("[", "[ "), ("\n", "\r\n"), ("\n", "\n\n"), ('"]', '",]'), ("cpu", "cpus"), ("= [", "=["),
        ("controllers = ", "process = []\ncontrollers = "), ("format = 4", "process = []\nformat = 4"), ("format = 4", "format = 4 # x"),
        ("format = 4", MARK + "format = 4"), ("controllers", MARK + "controllers")]
# how a large text begins, of a random number generator and the controllers of its tree
RIGHT = [lambda _rng, _controllers: "format = 4\n", lambda _rng, _controllers: beginning([]),
         lambda _rng, controllers: beginning(in_order(controllers))]
# how none begins, though each name is a controller's
DISORDERED = [lambda controllers: beginning(in_order(controllers)[::-1]), lambda controllers: beginning([*in_order(controllers), controllers[-1]]),
              lambda controllers: beginning([in_order(controllers)[0], *in_order(controllers)])]


def widen(rng, tree):
    """Makes a tree one of format 4: with other controllers in the place of some that it has, and with more."""
    tree.form = 4
    if rng.random() < 0.5:
        rename(rng, tree)
    tree.controllers += [c for c in OTHERS if c not in tree.controllers and rng.random() < 0.4]
    rng.shuffle(tree.controllers)
    busy = {process["at"] for process in tree.processes}
    for path in sorted(tree.rows, key=len):
        row, above = tree.rows[path], tree.rows[path[:-1]].get("enabled", []) if path else tree.controllers
        able = [c for c in dict.fromkeys(above) if c not in row.get("enabled", [])]
        often = 0 if path and row["path"] in busy else 0.7 if row.get("enabled") or rules.inside(tree.subtree, path) else 0.3
        if able and rng.random() < often:
            row["enabled"] = [*row.get("enabled", []), *[c for c in able if rng.random() < 0.6]]
    if tree.subtree and rng.random() < 0.12:
        tree.entry(tree.subtree[:-1], rules.CONTROL).update({"uid": tree.user[0], "mode": rng.choice([0o644, 0o444])})


def rename(rng, tree):
    """What goes by a controller's new name is its limit files."""
    named = {c: other for c, other in zip(CONTROLLERS, rng.sample(OTHERS, len(CONTROLLERS))) if rng.random() < 0.5}
    gone = [file for file in NUMBER_FILES if LIMIT_FILES[file].controller in named]
    tree.controllers = [named.get(c, c) for c in tree.controllers]
    for row in tree.rows.values():
        if "enabled" in row:
            row["enabled"] = [named.get(c, c) for c in row["enabled"]]
        for file in gone:
            row.get("files", {}).pop(file, None)


def some_control(rng, tree, state, user):
    """A path and a change of a controller that other formats don't have: where the user may write, at times above the subtree; of each
    outcome alike."""
    paths = [path for path, cgroup in state.cgroups.items() if rules.writes(user, cgroup.entries[rules.CONTROL])]
    paths = [tree.subtree[:-1]] if tree.subtree[:-1] in paths and rng.random() < 0.6 else rng.sample(paths, min(len(paths), 12))
    found = {}
    for path, sign, controller in itertools.product(paths, "+-", OTHERS):
        refusals = rules.control_bars(state, user, path, ((sign, controller),))
        is_same = (sign == "+") == (controller in state.cgroups[path].enabled)
        outcome = refusals[0].partition(" ")[0] if refusals else "nothing" if is_same else "ok " + sign
        found.setdefault(outcome, []).append((path, ((sign, controller),)))
    if found:
        return rng.choice(found[rng.choice(sorted(found))])
    return rng.choice(list(state.cgroups)), ((rng.choice("+-"), rng.choice(OTHERS)),)


def later_line(rng):
    """A line that is an operation's in format 4 alone."""
    return f"control {rng.choice(['/', '/a'])} {rng.choice('+-')}{rng.choice(OTHERS)}".encode()


def bad_line(rng):
    """A line that is no operation's in format 4 either."""
    return rng.choice([f"control / +{rng.choice(NONE)}", f"control / -{rng.choice(OTHERS)}x", f"control / {rng.choice(OTHERS)}",
                       f"control / +{rng.choice(OTHERS)},cpu", f"control / +{rng.choice(OTHERS).upper()}"]).encode()


# Faults of a document


def bad_controller(rng, parts):
    named = rng.choice([parts["controllers"], rng.choice(parts["cgroup"]).setdefault("enabled", [])])
    named.insert(rng.randrange(len(named) + 1), rng.choice(NONE))


def another_form(rng, parts):
    parts["format"] = rng.choice([1, 2, 2, 3, 5, 6])


def enabled_of_others(rng, parts):
    """Another format, whose root has what it may have, and of which a cgroup may enable what it may not."""
    parts["format"] = rng.choice([1, 2, 2])
    parts["controllers"] = [c for c in parts["controllers"] if c in CONTROLLERS]
    rng.choice(parts["cgroup"]).setdefault("enabled", []).append(rng.choice(OTHERS))


def too_many(rng, parts):
    parts[rng.choice(["cgroup", "process"])] = Raw("[" + "1," * rng.choice([4096, 4097, 65536, 65536, 65537, 65537]) + "]")


def top_down(rng, parts):
    rng.choice(parts["cgroup"]).setdefault("enabled", []).append(rng.choice(OTHERS))


def internal_process(rng, parts):
    """Where the parent enables nothing of the kind it is a fault before."""
    row = rng.choice([row for row in parts["cgroup"] if row.get("enabled")] or parts["cgroup"])
    row["enabled"] = [c for c in row.get("enabled", []) if c in OTHERS]
    parts["process"] = [*parts.get("process", []), {"pid": 77, "uid": 0, "at": row["path"]}]


def keyless(rng, parts):
    rng.choice(parts["cgroup"]).setdefault("files", {})[rng.choice(KEYLESS)] = rng.choice([{}, {"uid": 1000}, {"value": "max"}])


def gid(rng, parts):
    rng.choice(parts["cgroup"])["dir"] = {"gid": rng.choice([0, 5, 2 ** 32 - 1, 2 ** 32]), "mode": rng.choice([0o775, 0o755, 0o1000])}


FAULTS = [*2 * [bad_controller], *2 * [another_form], enabled_of_others, *2 * [too_many], top_down, *2 * [internal_process], keyless, gid,
          *7 * [limit_files.turn]]


def turn_document(rng, parts):
    for fault in rng.sample(FAULTS, rng.choice([1, 1, 1, 2])):
        try:
            fault(rng, parts)
        except (KeyError, TypeError, AttributeError):
            pass


# Large texts


def with_many(rng, data):
    """A text with more cgroups or processes than one of another format may have."""
    row = rng.choice(["[[cgroup]]\npath = '/many{0}'\n", "[[process]]\npid = 1{0:05}\nuid = 1000\nat = '/'\n"])
    return data + "".join(row.format(number) for number in range(MANY)).encode()


def large_text(rng, parts, number):
    """A text of about as many bytes as one may have that isn't large, or as a large one may have; of each number another kind."""
    kind = number % (len(NEAR) + len(DISORDERED) + len(RIGHT) + 2)
    begins, most = RIGHT[number % len(RIGHT)](rng, own_controllers(parts)), documents.MOST_BYTES + 1
    if kind < len(DISORDERED):
        begins = DISORDERED[kind](own_controllers(parts))
    elif kind < len(DISORDERED) + len(NEAR):
        begins = near_beginning(rng, parts, *NEAR[kind - len(DISORDERED)])
    elif kind >= len(DISORDERED) + len(NEAR) + len(RIGHT):
        most = documents.MOST_LARGE + number % 2
    rest = {key: value for key, value in parts.items() if key != "format" and f"{key} =" not in begins}
    data = begins.encode() + spelling.document(rng, rest).removeprefix(MARK.encode())
    return data + b"#" * (most - len(data))


def own_controllers(parts):
    """Those of a document, and two at least."""
    named = parts.get("controllers")
    named = [c for c in named if c in ALL_CONTROLLERS] if isinstance(named, list) else []
    return list(dict.fromkeys([*named, "io", "cpu"]))


def in_order(controllers):
    return sorted(controllers, key=ALL_CONTROLLERS.index)


def near_beginning(rng, parts, text, other):
    """A beginning that is a large text's but for one thing."""
    begins = rng.choice([begins for begins in (right(rng, own_controllers(parts)) for right in RIGHT) if text in begins])
    return begins.replace(text, other, rng.choice([1, -1]))


def beginning(controllers):
    return "controllers = [" + ", ".join(f'"{c}"' for c in controllers) + "]\nformat = 4\n"
