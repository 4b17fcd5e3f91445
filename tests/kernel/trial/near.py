"""Made trees of which each opens one entry to a user in one way, or nearly does. A right program calls those contained that nearly do; a
wrong one others, too, which what is aimed at them breaks.
"""
import os
import random
from dataclasses import replace

from second import commands, rules, texts
from trial import aimed, asking, making, settled, wrong

EXAMPLES = os.path.join(os.path.dirname(os.path.abspath(__file__)), "../../../examples")
# the user whose second group is let in, and one who is asked about beside them
USER, OTHER = (1000, (7, 5)), (1001, (8,))
PARENT, TOP, CHILD, BESIDE = ("p",), ("p", "s"), ("p", "s", "c"), ("p", "o")
# how an entry is opened, by what it has more, with the bits for a file and for a directory
OPENED = {"owner": ({"uid": 1000}, 0o644, 0o755), "owner by a chmod": ({"uid": 1000}, 0o444, 0o555),
          "group": ({"gid": 5}, 0o664, 0o775), "others": ({}, 0o646, 0o757)}
# in which a member of the group has less than all others
NO_BIT = "a group without a bit"
NEARLY = {NO_BIT: ({"gid": 5}, 0o646, 0o757), "another's": ({"uid": 1002}, 0o644, 0o755),
          "another group": ({"gid": 6}, 0o664, 0o775)}
GUARDED = [((), rules.PROCS), (PARENT, rules.PROCS), (PARENT, rules.CONTROL), (PARENT, rules.DIR),
           *((TOP, file) for file in (rules.DESCENDANTS, rules.DEPTH, "memory.min", "memory.low", "memory.high", "memory.max"))]
# examples whose subtree a list breaks that check doesn't find
PLANNED = {
    "delegation-parent-directory": (("c0",), "exit 11|rmdir /c0/c01|rmdir /c0/c00|rmdir /c0"),
    "planned-four-closed-places": (("s",), "control /s/e -cpu|move 11 /s/e"),
    "planned-four-full-places": (("s",), "set /s/e cgroup.max.descendants max|mkdir /s/e/probe0|move 11 /s/e/probe0"),
    "planned-one-process-alone": (("p", "s"), "exit 13|rmdir /p/s/b|mkdir /p/probe0|move 11 /p/probe0"),
    "planned-refuge-in-two-moves": (("a", "p", "s"), "move 13 /a|move 13 /a/p/x|control / +cpu|control /a +cpu|control /a/p +cpu"),
    "planned-refuge-to-raise": (("q", "p", "s"), "set /q cgroup.max.descendants max|mkdir /q/probe0|move 12 /q/probe0|control /q/p +cpu"),
    "planned-room-one-in-another": (("s",), "rmdir /b/c/d|rmdir /b/c|mkdir /s/probe0|move 5 /s/probe0"),
    "planned-room-side-by-side": (("s",), "rmdir /b/d|rmdir /b/c|mkdir /s/probe0|move 5 /s/probe0"),
    "planned-three-closed-places": (("s",), "control /s/e -cpu|move 11 /s/e"),
}


def text_of(entries=(), values=()):
    """A delegation to the user below /p, with a cgroup beside it of which they may take processes, and some entries and values more."""
    rows = {(): {"enabled": ["memory"]}, PARENT: {"enabled": ["memory"]}, TOP: {}, CHILD: {}, BESIDE: {}}
    for path in (TOP, CHILD, BESIDE):
        rows[path] = {name: {"uid": USER[0]} for name in (rules.STANDING if path != BESIDE else (rules.PROCS,))}
    for path, name, entry in entries:
        rows[path][name] = entry
    for path, name, value in values:
        rows[path].setdefault(name, {})["value"] = value
    lines = ["format = 2", 'controllers = ["memory"]']
    for path, row in rows.items():
        lines += ["[[cgroup]]", f'path = "{rules.text_of(path)}"', *(['enabled = ["memory"]'] if "enabled" in row else [])]
        for name in row:
            if name != "enabled":
                table = ", ".join(f"{key} = {value}" if key != "value" else f'value = {value}' for key, value in row[name].items())
                lines.append(f'{"dir" if name == rules.DIR else f"files.{chr(34)}{name}{chr(34)}"} = {{ {table} }}')
    for pid, uid, path in ((10, 0, ()), (11, USER[0], CHILD), (12, 0, BESIDE)):
        lines += ["[[process]]", f"pid = {pid}", f"uid = {uid}", f'at = "{rules.text_of(path)}"']
    return "".join(f"{line}\n" for line in lines)


def made_texts():
    """Each text with the users who are asked about."""
    for path, name in GUARDED:
        for how, (more, file_mode, dir_mode) in {**OPENED, **NEARLY}.items():
            users = [USER] if how == NO_BIT else [OTHER, USER]
            yield text_of([(path, name, {**more, "mode": dir_mode if name == rules.DIR else file_mode})]), users
    for file in (rules.DESCENDANTS, rules.DEPTH):
        yield text_of(values=[(TOP, file, 0)]), [OTHER, USER]


def made_cases(rng, program):
    """A case for each made tree of which the program says that it is contained."""
    cases = []
    for text, users in made_texts():
        tops = asking.contained(program, text, users, [TOP])
        if tops:
            state = texts.tree_of(text.encode())
            found, behind = aimed.tries_of(state, users, tops)
            cases.append(making.Case("contained", text, [], tops, state, tries=told(rng, state, found + behind)))
    return cases


def told(rng, state, tries):
    """Tries as a kernel can be told them."""
    return [(user, making.settled_step(rng, state, step)) for user, step in tries]


def planned_cases(program, kind):
    """A case for each example that settle calls contained, though a list breaks it."""
    cases = []
    for name, (top, lines) in PLANNED.items():
        with open(os.path.join(EXAMPLES, f"{name}.toml"), encoding="utf-8") as example:
            text = example.read()
        if asking.settle(program, text, (USER[0], ()), top)[0] == "contained":
            steps = [commands.operation_of(line.encode(), 4) for line in lines.split("|")]
            # a process has one group at least
            tries = [((USER[0], (4242,)), step) for step in steps]
            cases.append(making.Case(kind, text, [], [top], texts.tree_of(text.encode()), tries=tries))
    return cases


def cases_by(program, *names):
    """All made cases by what is tried of which subtree: those of the program, or of a wrong one in its place."""
    with asking.in_place(names):
        found = made_cases(random.Random("contained"), program) + planned_cases(program, settled.CONTAINED)
    return {(case.text, *case.subtrees, *case.tries): case for case in found}


def wrong_cases(program):
    """The made cases that wrong programs alone call contained, each with the names of all that do."""
    right, found, named = cases_by(program), {}, {}
    for name in wrong.OF_MADE:
        for key, case in cases_by(program, name).items():
            if key not in right:
                found[key] = case
                named.setdefault(key, []).append(name)
    return [replace(case, kind=wrong.KIND, turned=", ".join(named[key])) for key, case in found.items()]
