"""Mutants of the second model, with one thing changed. Each has to be told apart from the program."""
import functools
import sys
import types

from second import (as_json, commands, controllers, documents, everybody, explained, from_json, lasting, limit_files, rules, settled, texts,
                    written)
from trials import row_tables
from trials.cases import FORMAT
from trials.format_4 import FORMAT_4

# in the order in which one takes from another: those before the one that is changed are the right model's own
MODULES = {"controllers": controllers, "limit_files": limit_files, "documents": documents, "rules": rules, "lasting": lasting, "settled": settled,
           "explained": explained, "everybody": everybody, "texts": texts, "written": written, "commands": commands,
           "from_json": from_json, "as_json": as_json}
USERS = "return list(itertools.product(dict.fromkeys(call.users), dict.fromkeys(tops)))"
MEMBER = 'return "group" if entry.gid in user[1] else "others"'
LIVE_ITEMS = "for other, process in state.live.items() if other != pid}"
PID_BOUND = "if call.pid is not None and not 1 <= call.pid <= rules.LAST_PID"
CONTROLS = """    for controller, sign in itertools.product(controllers_of(state), "-+"):
        yield [("control", top[:-1], ((sign, controller),))]
"""
REMOVAL = '    yield [("rmdir", top)]\n'
HAS_CHILDREN = '    if children(state, path):\n        found.append(f"has-children {text_of(path)}")\n'
HAS_PROCESSES = '    if lives_at(state, path):\n        found.append(f"has-processes {text_of(path)}")\n'
SHAPES = ['    first("shape cgroup", rows, lambda row: not cgroup_form(form)(row))\n',
          '    first("shape process", processes, lambda row: not process_form(row))\n']
REFUSED_PLACES = ['("duplicate-pid", pid in live)', '("no-such-place", path not in cgroups)']
FIRSTS = """firsts = {path: place for place, path in reversed(list(enumerate(paths)))}
    first("duplicate cgroup", numbered, lambda each: firsts[paths[each[0]]] < each[0])"""
OVER = ["DESCENDANTS: len(below(state, top))", "DEPTH: depth_below(state, top)"]
MANY_GIDS = '        if len(gids) > MOST_GIDS:\n'
MADE = "made_by(user, FILE_MODE)"
COMES = f"replace({MADE}, value=default_of(file))"


def asked_once(same):
    """The users of an audit, of whom those that are the same in something are one."""
    return USERS.replace("dict.fromkeys(call.users)", f"[user for at, user in enumerate(call.users) "
                         f"if {same}(user) not in map({same}, call.users[:at])]")


# of each the module, what stands there once, and what stands in its place
OF_RULES = {
    "lets one cgroup more than cgroup.max.descendants": (
        "len(below(state, top)) >= most:", "len(below(state, top)) > most:"),
    "lets one level more than cgroup.max.depth": ("len(parent) - len(top) >= deepest:", "len(parent) - len(top) > deepest:"),
    "asks the limits of the farthest cgroup first": ("for top in upwards(parent):", "for top in reversed(upwards(parent)):"),
    "asks the others' bit of everybody": ("return entry.mode & bit != 0", "return entry.mode & (bit | 0o002) != 0"),
    "of the gids the first counts": (MEMBER, MEMBER.replace("user[1]", "user[1][:1]")),
    "of the gids the first 2 count": (MEMBER, MEMBER.replace("user[1]", "user[1][:2]")),
    "of the gids the first 16 count": (MEMBER, MEMBER.replace("user[1]", "user[1][:16]")),
    "of the gids the first 31 count": (MEMBER, MEMBER.replace("user[1]", "user[1][:31]")),
    "what a user makes is root's": ("return Entry(user[0], user[1][0]", "return Entry(0, user[1][0]"),
    "a limit file that comes is root's": (COMES, COMES.replace(MADE, "Entry()")),
    "the source of a move is asked, and not the common ancestor": (
        "entry_bar(state, user, common(state.live[pid][1], to), PROCS)", "entry_bar(state, user, state.live[pid][1], PROCS)"),
    "a move asks for the process first": (
        '        found.append(f"no-such-process {pid}")', '        found.insert(0, f"no-such-process {pid}")'),
    "the root isn't exempt of a move": (
        "if to and to in state.cgroups and state.cgroups[to].enabled:", "if to in state.cgroups and state.cgroups[to].enabled:"),
    "the root isn't exempt of a control": (
        "if path and enabled_after(state, path, changes) - state.cgroups[path].enabled and lives_at(state, path):",
        "if enabled_after(state, path, changes) - state.cgroups[path].enabled and lives_at(state, path):"),
    "of several changes the first counts": (
        "return {controller: sign for sign, controller in changes}", "return {controller: sign for sign, controller in reversed(changes)}"),
    "of what isn't available the last first": (
        'found.append(f"not-available {controller}")', 'found.insert(0, f"not-available {controller}")'),
    "an rmdir asks for the cgroup's own directory": (
        "found = entry_bar(state, user, path[:-1], DIR)", "found = entry_bar(state, user, path, DIR)"),
    "an rmdir looks at processes first": (HAS_CHILDREN + HAS_PROCESSES, HAS_PROCESSES + HAS_CHILDREN),
    "a bad value comes first": ('else found + [f"bad-value {file}"]', 'else [f"bad-value {file}"] + found'),
    "a fork's PID may be used again": ("used=state.used | {child})", "used=state.used)"),
    "an ended process's PID may be used again": (LIVE_ITEMS + ")", LIVE_ITEMS + ", used=state.used - {pid})"),
    "a fork's child is at the root": ("child: state.live[parent]}", "child: (state.live[parent][0], ())}"),
    "what begins as the subtree's text is inside": (
        "return path[:len(top)] == top", "return text_of(path).startswith(text_of(top))"),
    "limits are compared with those at the end": (
        "limits = limits_of(states[0], top)", "limits = limits_of(states[-1] if top in states[-1].cgroups else states[0], top)"),
    "a limit file that goes is no change": (
        "if limits_of(after, top) != limits:", "if not limits_of(after, top).items() <= limits.items():"),
    "of two counts the depth is told": ("if DESCENDANTS in exceeded:", "if DESCENDANTS in exceeded and DEPTH not in exceeded:"),
    "of two counts the depth is mended first": ("{%s, %s}" % (*OVER,), "{%s, %s}" % (*OVER[::-1],)),
    "who owns an entry doesn't reach it": ("return writes(user, entry) or owns(user, entry)", "return writes(user, entry)"),
    "of the common ancestors the parent is guarded alone": (
        'for path in upwards(top)[1:]]', 'for path in upwards(top)[1:2]]'),
    "limit files in the order of their names": (
        "for file in files_at(state, top)]", "for file in sorted(files_at(state, top))]"),
    "the parent's directory is guarded first": (
        '[("parent-control", top[:-1], CONTROL), ("parent-dir", top[:-1], DIR)]',
        '[("parent-dir", top[:-1], DIR), ("parent-control", top[:-1], CONTROL)]'),
    "tries to disable all before it enables": (
        'controller, sign in itertools.product(controllers_of(state), "-+")',
        'sign, controller in itertools.product("-+", controllers_of(state))'),
    "tries the removal before controls": (CONTROLS + REMOVAL, REMOVAL + CONTROLS),
    "tries processes inside alone": ("if inside(path, top) != is_in)", "if is_in and not inside(path, top))"),
    "tries the first 4 processes": ("return sorted(state.live)", "return sorted(state.live)[:4]"),
    "tries paths in the order of their texts": (
        "for path in sorted(state.cgroups) if", "for path in sorted(state.cgroups, key=text_of) if"),
    "tries no probes": ("yield from probes(state, top)", "yield from []"),
    "tries probes at the parent alone": ("for ancestor in upwards(top)[1:]:", "for ancestor in upwards(top)[1:2]:"),
    "tries no probe of 4095 bytes": ("if len(text_of(probe)) <= LONGEST_PATH:", "if len(text_of(probe)) < LONGEST_PATH:"),
    "tries probe0 and probe1 alone": (
        'while ancestor + (f"probe{number}",) in state.cgroups:', 'if ancestor + (f"probe{number}",) in state.cgroups:'),
    "opens what is open": ("if owns(user, entry) and not writes(user, entry):", "if owns(user, entry):"),
    "opens to 0o644": ("found.append((\"chmod\", path, name, entry.mode | 0o200))", 'found.append(("chmod", path, name, 0o644))'),
    "opens the last entry first": ('found.append(("chmod", path, name', 'found.insert(0, ("chmod", path, name'),
    "tries all without the opening first": (
        "        if opened:\n            yield", "    for operations in plain_tries(state, top) if opened else []:\n            yield"),
    "names the last guard that fails": ("failed[0][0], failed[0][1])", "failed[-1][0], failed[-1][1])"),
    "advises less than the class's bit": ('mode &= ~(0o020 if', 'mode &= ~(0o022 if'),
    "advises no mode behind an owner": ("    if mode != entry.mode:", "    if mode != entry.mode and not changes:"),
    "advises for the last user's class alone": ("        mode &= ~", "        mode = entry.mode & ~"),
    "advises a chown for the first user alone": (
        "if any(owns(user, entry) for user in users):", "if any(owns(user, entry) for user in users[:1]):"),
    "tells of others before the group": (
        '("owner", "group", "others") if name in classes', '("owner", "others", "group") if name in classes'),
    "advises the limits of the first subtree alone": (
        "for top in dict.fromkeys(top for _, top in pairs):", "for top in [top for _, top in pairs][:1]:"),
    "the root's cgroup.max.depth bars no mkdir": (
        "if deepest != MAX and len(parent)", "if top and deepest != MAX and len(parent)"),
    "a name may be cgroup.controllers": ('RESERVED = {"cgroup.controllers", PROCS', "RESERVED = {PROCS"),
    "a name may be two dots": ('name not in (".", "..")', 'name != "."'),
    "a name of 255 bytes is none": ("1 <= len(name) <= LONGEST_NAME", "1 <= len(name) < LONGEST_NAME"),
    "a path of 4095 bytes is none": ("len(text) > LONGEST_PATH", "len(text) >= LONGEST_PATH"),
}
OF_NUMBER = "return other if value == loose else loose"
OF_LIMIT_FILES = {
    "tries another weight": (OF_NUMBER, OF_NUMBER.replace("value == loose", '(value != other if file == "cpu.weight" else value == loose)')),
    "cpu.weight may be 10001": ("1, 10000, False)", "1, 10001, False)"),
}
OF_COMMANDS = {
    "a list is too long behind one operation more": ("if number > MOST_STEPS:", "if number > MOST_STEPS + 1:"),
    "a line of 8192 bytes is too long": ("if len(line) > LONGEST_LINE:", "if len(line) >= LONGEST_LINE:"),
    "a list is read whole first": (
        'in lines_of(files[call.one("--ops")], state.form):', 'in list(lines_of(files[call.one("--ops")], state.form)):'),
    "a value may be 2^64": ("int(word) < 2 ** 64", "int(word) <= 2 ** 64"),
    "a verdict counts what is accepted alone": ("states.append(state)", "states += [] if refusal else [state]"),
    "uid 0 is a fault without groups alone": ("if uid == 0:", "if uid == 0 and not gids:"),
    "faults of all uids come before those of gids": (MANY_GIDS, "    for _, gids in call.users:\n" + MANY_GIDS),
    "33 groups are taken": ("if len(gids) > MOST_GIDS:", "if len(gids) > MOST_GIDS + 1:"),
    "the path is tested before the PID": (PID_BOUND, PID_BOUND + ' and rules.path_of(call.one("--to")) is not None'),
    "PID 4194303 is a fault": (PID_BOUND, PID_BOUND.replace("<= rules", "< rules")),
    "words are tested before files are read": ("    tree = files.get(named)\n", "    test_arguments(call, call.subtrees())\n    tree = files.get(named)\n"),
    "of the subtrees the root is a fault first": (
        "for word in subtrees]\n    return", 'for word in sorted(subtrees, key=lambda word: word != "/")]\n    return'),
    "advises all users of pairs with all their subtrees": ('zip(call.users, tops) if "--pairs" in call.given else ', ""),
    "a line is a pair's that begins with the word": ('line.startswith(b"pair ")', 'line.startswith(b"pair")'),
    "a line of pairs that is cut is passed over": ('    if end:\n        raise Fault(f"line {len(lines) + 1} cut")\n', ""),
    "a line that no audit writes is passed over": ("        elif not is_audited(line):", "        elif False:"),
    "a line of pairs may be anything that begins as an answer": ('line in (b"contained", b"escapes")', 'line.startswith((b"contained", b"escapes"))'),
    "an operation among pairs is one of format 2": ("operation_of(line, 4) is not None", "operation_of(line) is not None"),
    "a text may name no pair": ("    if not pairs and data != NOTHING_LISTED:", "    if False:"),
    "a text without a pair has to say so at its beginning alone": ("data != NOTHING_LISTED", "not data.startswith(NOTHING_LISTED)"),
    "16777216 bytes of pairs are too many": ("    if len(data) > LONGEST_LIST:", "    if len(data) >= LONGEST_LIST:"),
    "audit goes by subtree first": (
        "in asked(call, tops):", "in sorted(asked(call, tops), key=lambda pair: tops.index(pair[1])):"),
    "audit asks who is named again": (USERS, USERS.replace("dict.fromkeys(call.users)", "call.users")),
    "audit takes users of one uid for one": (USERS, asked_once("(lambda user: user[0])")),
    "audit takes groups in another order for the same": (USERS, asked_once("(lambda user: (user[0], set(user[1])))")),
    "audit asks of the first 16 users": (USERS, USERS.replace("call.users", "call.users[:16]")),
    "audit asks of the first 8 subtrees": (USERS, USERS.replace("(tops)", "(tops[:8])")),
    "audit --all stops behind 24 lines": ("    if not kinds:\n", "    del lines[24:]\n    if not kinds:\n"),
    "audit --all has the status of the least": ('("escapes", "unsettled") if', '("unsettled", "escapes") if'),
    "upgrade writes cgroups in the order of their texts": (
        "for path in sorted(state.cgroups)]", "for path in sorted(state.cgroups, key=text_of)]"),
    "upgrade writes processes in the order of their digits": (
        "in sorted(state.live.items())]", "in sorted(state.live.items(), key=lambda each: str(each[0]))]"),
}
STAYS_BY_A_CHILD = "\n                      or any(child in others for child in rules.children(state, path))"
ON_BY_A_CHILD = " or any((child, controller) in on for child in rules.children(state, path))"
BY_MEMORY = '"memory" in state.cgroups[path].enabled and is_on(state, users, lasting.on, path, "memory")'
OFF_ABOVE = "return (path[:-1], controller) in off if path"
SITES = "grows_none(state, users, lasting, path) for path in closed)"
OF_LASTING = {
    "a cgroup takes no processes by whatever it enables": (
        BY_MEMORY, "any(is_on(state, users, lasting.on, path, controller) for controller in state.cgroups[path].enabled)"),
    "a cgroup isn't kept by one below": (STAYS_BY_A_CHILD, ""),
    "every cgroup stays": ("stays = supported(set(state.cgroups), lambda path, others: not path",
                           "stays = supported(set(state.cgroups), lambda path, others: True or not path"),
    "a controller isn't kept on by a child": (ON_BY_A_CHILD, ""),
    "a controller is never disabled": ("return not is_reached(state, users, path, CONTROL)" + ON_BY_A_CHILD, "return True"),
    "a controller that is away is away for good": (OFF_ABOVE, "return controller not in rules.available(state, path) if path"),
    "a controller that is away is never away for good": (OFF_ABOVE, "return False if path"),
    "no cgroup is made": (SITES, SITES.replace("grows_none(state, users, lasting, path)", "True")),
    "none is made at a cgroup above the subtree": (SITES, SITES.replace("grows_none(", "(path in edges or grows_none(").replace(
        "path) for", "path)) for")),
    "limits leave room": ("or is_full(state, users, lasting, path)", ""),
    "no process is moved": ("all(takes_none(state, users, lasting, path) and", "all("),
    "of a user's reach owning is none": (
        "any(rules.reaches(user, entry) for user in users)", "any(rules.writes(user, entry) for user in users)"),
    "the parent's controllers go unasked": ("if any((top[:-1], controller) not in lasting.on | lasting.off "
                                            "for controller in rules.controllers_of(state)):",
                                            "if False:"),
    "places beside the subtree go unasked": ("or rules.common(path, top) in edges]", "]"),
}
LISTED = "else answers[user]) for"
OF_SETTLED = {
    "the first user's reach for that of all": ("holds = is_contained(state, others, top)", "holds = is_contained(state, others[:1], top)"),
    "all but those for whom the guards hold are asked together": (
        "holds = is_contained(state, others, top)",
        'holds = is_contained(state, [user for user in others if answers[user][0] != "contained"], top)'),
    "who has a list is asked with all others": ("holds = is_contained(state, others, top)", "holds = is_contained(state, users, top)"),
    "the second row is asked of one user at a time": (
        "(None if holds or answers[user][0] ==", "(None if is_contained(state, [user], top) or answers[user][0] =="),
    "who is left unsettled is listed though the second row holds": ("(None if holds or answers", "(None if answers"),
    "who is listed is named by the last guard that fails": (LISTED, "else (answers[user][0], *rules.failures(state, user, top)[-1][:2])) for"),
    "who is listed is named by the first guard that fails for one of all": (
        LISTED, "else (answers[user][0], *[each[:2] for each in rules.guarded(state, top) if lasting.is_reached(state, others, *each[1:])][0])) for"),
    "a list goes on behind what it breaks": ('startswith(f"broken {len(operations)} ")', 'startswith(f"broken {len(operations) - 1} ")'),
}
# of advise --settle
OF_SETTLED_ADVICE = {
    "advise --settle asks of one user at a time": (
        "all(settled.is_contained(state, call.users, top) for top in tops)",
        "all(settled.is_contained(state, [user], top) for user in call.users for top in tops)"),
    "advise --settle asks of the first subtree alone": (
        "all(settled.is_contained(state, call.users, top) for top in tops)", "settled.is_contained(state, call.users, tops[0])"),
}
PAIRS_OF = "for user, top in asked(call, tops)]"
OF_EXPLAIN = {
    "explain goes by subtree first": (
        PAIRS_OF, "for user, top in sorted(asked(call, tops), key=lambda pair: tops.index(pair[1]))]"),
    "explain has the status of its last pair": ("return worst({end[0] for end in ends})", "return STATUS[ends[-1][0]]"),
    "explain prints the operations of an escape": ("[*some, *answer_lines(end)[:1]]", "[*some, *answer_lines(end)]"),
    "explain names a user by their uid": ("[head_of(user, top), *explained", "[head_of(user[:1], top), *explained"),
}
FURTHER = "second_row(state, [user], top) if rules.failures(state, user, top) else []"
HOLDS_SHUT = 'line_of(takes != "takes" and grows != "grows", "shut"'
OF_EXPLAINED = {
    "an owner is told as one of the group or of all others": (
        "rules.class_of(user, entry)", "rules.class_of((-1, user[1]), entry)"),
    "an entry is told by what lets somebody write it": (
        "rules.class_of(user, entry)", 'next((name for name, bit in (("owner", 0o200), ("group", 0o020)) if entry.mode & bit '
        'and name in (rules.class_of(user, entry), rules.class_of((-1, user[1]), entry))), "others")'),
    "an entry that a user owns and doesn't write is told to hold": (
        "reached = rules.reaches(user, entry)", "reached = rules.writes(user, entry)"),
    "a mode is told without zeros before it": ('f"{entry.mode:03o}"', 'f"{entry.mode:o}"'),
    "the second row is told where no guard fails": (FURTHER, "second_row(state, [user], top)"),
    "the second row isn't told where a limit alone is passed": (
        "if rules.failures(state, user, top) else []", "if any(name for *_, name in rules.failures(state, user, top)) else []"),
    "a subtree stays by a cgroup below it before its parent's directory": (
        '    if not lasting.is_reached(state, users, top[:-1], DIR):\n        return "spared"\n    return "upheld" if',
        '    return "spared" if not lasting.is_reached(state, users, top[:-1], DIR) and not rules.children(state, top) else "upheld" if'),
    "a subtree with a cgroup in it stays": ("if any(child in found.stays for", "if any(True for"),
    "a controller is off where the parent stays alone": (
        '"off" if would_stay_off(state, users, parent, controller)', '"off" if (parent, controller) in found.off'),
    "a controller is on by itself alone": ("if (parent, controller) in found.on:", "if controller in state.cgroups[parent].enabled "
                                           "and not lasting.is_reached(state, users, parent, CONTROL):"),
    "a controller is off by itself alone": (
        "return would_stay_off(state, users, path[:-1], controller) if path else", "return False if path else"),
    "a move into the subtree goes by the parent alone": ("if (doors if", "if (top[:-1] in doors if"),
    "a move out of the subtree goes by any cgroup above": ("else rules.common(path, top) in doors)", "else doors)"),
    "a move leads to what is below the subtree, and not to itself": ("rules.inside(path, top) else", "rules.inside(path, top) and path != top else"),
    "cgroups of moves in the order of their texts": ("in sorted(state.cgroups) if (doors", "in sorted(state.cgroups, key=text_of) if (doors"),
    "a move is kept out by whatever a cgroup enables": (
        "lasting.takes_none(state, users, found, path)", "state.cgroups[path].enabled"),
    "enabling is told before what is spared": ('return "enabling" if lasting', 'return "enabling" if "memory" in state.cgroups[path].enabled or lasting'),
    "a cgroup is full by what is there": ("lasting.is_full(state, users, found, path)", "rules.limit_bars(state, path)"),
    "a cgroup is shut by one of two": (HOLDS_SHUT, HOLDS_SHUT.replace(" and ", " or ")),
    "counts the subtree among its descendants": ("DESCENDANTS: len(rules.below(state, top)),", "DESCENDANTS: len(rules.below(state, top)) + 1,"),
    "counts levels from the subtree's own": ("DEPTH: rules.depth_below(state, top)}", "DEPTH: rules.depth_below(state, top) + 1}"),
    "counts children for descendants": ("len(rules.below(state, top)),", "len(rules.children(state, top)),"),
    "a limit that is reached is passed": (
        "line_of(file not in rules.over(state, top),", "line_of(state.cgroups[top].values[file] != count,"),
}
OF_TEXTS = {
    "format 1 has the group's bit": ("0 <= mode <= 0o777) or form == 1 and mode & 0o020 != 0", "0 <= mode <= 0o777)"),
    "format 1 has gids": ("if form != 1:", "if form:"),
    "4096 rows are too many": ("max(len(rows), len(processes)) > MOST_ROWS[form]", "max(len(rows), len(processes)) >= MOST_ROWS[form]"),
    "the shape of processes is tested first": ("".join(SHAPES), "".join(SHAPES[::-1])),
    "tests of a row by itself go by the test": (
        "for (place, row), (what, is_bad) in itertools.product(enumerate(rows, 1), OWN_FAULTS):",
        "for (what, is_bad), (place, row) in itertools.product(OWN_FAULTS, enumerate(rows, 1)):"),
    "of equal rows the first is a fault": (
        FIRSTS, FIRSTS.replace("reversed(list(enumerate(paths)))", "enumerate(paths)").replace("<", ">")),
    "a row enables what its tree has": ("(at[path[:-1]] if path else set(controllers))", "set(controllers)"),
    "of a process the place is tested before its PID": (", ".join(REFUSED_PLACES), ", ".join(REFUSED_PLACES[::-1])),
    "a directory's mode is a file's": ("Entry(mode=rules.DIR_MODE)", "Entry(mode=rules.FILE_MODE)"),
}
TOO_LONG = "len(data) > (MOST_LARGE if is_large(data) else MOST_BYTES)"
OF_DOCUMENTS = {
    "a byte order mark is no TOML": ('.removeprefix("\\ufeff")', ""),
    "16777216 bytes are too many": (TOO_LONG, TOO_LONG.replace("MOST_BYTES", "MOST_BYTES - 1")),
}
# of format 4
NINE = '"cpuset", "cpu", "io", "memory", "hugetlb", "pids", "rdma", "misc", "dmem"'
NAMES = controllers.ALL_CONTROLLERS
OF_FORM = "return ALL_CONTROLLERS if form == 4"
OF_CONTROLLERS_4 = {
    "formats 1 and 2 have nine controllers": (OF_FORM, OF_FORM.replace("form == 4", "form")),
    "format 4 has three controllers": (OF_FORM, OF_FORM.replace("form == 4", "form > 4")),
    **{f"format 4 has no {name}": (NINE, NINE.replace(f'"{name}", ', "").replace(f', "{name}"', ""))
       for name in NAMES if name not in controllers.CONTROLLERS},
    **{f"{other} comes before {one}": (NINE, NINE.replace(f'"{one}", "{other}"', f'"{other}", "{one}"')) for one, other in zip(NAMES, NAMES[1:])},
}
EVERY = "[c for c in ALL_CONTROLLERS if c in CONTROLLERS or c in state.controllers]"
UNLIKE = "limits_of(after, top) != limits:"
KNOWN = "{name: value for name, value in %s.items() if value is not None}"
KEPT_OUT = "if to and to in state.cgroups and state.cgroups[to].enabled:"
TURNED = "frozenset(c for c in ALL_CONTROLLERS if last"
OF_RULES_4 = {
    "three controllers are told and tried": (EVERY, "CONTROLLERS"),
    "nine controllers are told": (EVERY, "ALL_CONTROLLERS"),
    "what the root has is told and tried": (EVERY, "[c for c in ALL_CONTROLLERS if c in state.controllers]"),
    "the three are told and tried first": (EVERY, "[*CONTROLLERS, *sorted(state.controllers - {*CONTROLLERS}, key=ALL_CONTROLLERS.index)]"),
    "three controllers bar a control": ("for controller in ALL_CONTROLLERS:", "for controller in CONTROLLERS:"),
    "a control bars in the order of its changes": ("for controller in ALL_CONTROLLERS:", "for controller in last:"),
    "a control turns three controllers": (TURNED, TURNED.replace("frozenset", "enabled - {*CONTROLLERS} | frozenset").replace("ALL_", "")),
    "files without a known value come and go unseen": ("if name in LIMIT_FILES}", "if name in LIMIT_FILES and entry.value is not None}"),
    **{f"files without a known value that {word} are no change": (
        UNLIKE, f"{KNOWN % 'limits_of(after, top)'} != {KNOWN % 'limits'} or not limits_of(after, top).keys() {sign} limits.keys():")
       for word, sign in (("go", "<="), ("come", ">="))},
    "the three alone keep a move out": (KEPT_OUT, KEPT_OUT.replace("enabled:", "enabled & {*CONTROLLERS}:")),
    "cpuset, cpu and pids let a move in": (KEPT_OUT, KEPT_OUT.replace("enabled:", 'enabled - {"cpuset", "cpu", "pids"}:')),
    "processes bar the three alone": (
        "- state.cgroups[path].enabled and lives_at(state, path)", "- state.cgroups[path].enabled & {*CONTROLLERS} and lives_at(state, path)"),
}
OF_LASTING_4 = {
    "any controller but cpuset, cpu and pids takes none": (
        BY_MEMORY, "any(is_on(state, users, lasting.on, path, one) for one in state.cgroups[path].enabled - {'cpuset', 'cpu', 'pids'})"),
    "three of the parent's controllers are asked of": ("for controller in rules.controllers_of(state)):", "for controller in rules.CONTROLLERS):"),
    "three controllers last": ("itertools.product(stays, rules.controllers_of(state))", "itertools.product(stays, rules.CONTROLLERS)"),
    "limit files of format 4 are forgotten by the second row": ("for file in rules.LIMIT_FILES)", "for file in rules.files_in(1))"),
}
SHOWN = "if rules.is_shown(state, *each[1:])]"
OF_EXPLAINED_4 = {
    "explain tells of three controllers": ("for controller in rules.controllers_of(state):", "for controller in rules.CONTROLLERS:"),
    "explain looks for limit files of format 1 alone": ("for file in rules.LIMIT_FILES)", "for file in rules.files_in(1))"),
    "explain has no line of a limit file of format 4 that isn't reached": (
        SHOWN, SHOWN.removesuffix("]") + ' and (each[0] != "limit-file" or each[2] in rules.files_in(1) or rules.reaches(user, state.cgroups[top].entries[each[2]]))]'),
    "explain has no line of a limit file of format 4": (
        SHOWN, SHOWN.removesuffix("]") + ' and (each[0] != "limit-file" or each[2] in rules.files_in(1))]'),
    "explain has a line of each limit file": (SHOWN, "if True]"),
}
OF_ROOT, OF_CGROUP = 'set(document["controllers"]) <= set(controllers_in(form))', 'set(row.get("enabled", [])) <= set(controllers_in(form))'
OCCUPIED = "bool(path) and path in cgroups and bool(cgroups[path].enabled)"
OF_TEXTS_4 = {
    "format 3 is one": ("4: 65536}", "4: 65536, 3: 4096}"),
    "format 5 is one": ("4: 65536}", "4: 65536, 5: 65536}"),
    "format 1 has 65536 rows": ("1: 4096,", "1: 65536,"),
    "format 2 has 65536 rows": ("2: 4096,", "2: 65536,"),
    "format 4 has 4096 rows": ("4: 65536}", "4: 4096}"),
    "format 4 has 65535 rows": ("4: 65536}", "4: 65535}"),
    "format 4 has 65537 rows": ("4: 65536}", "4: 65537}"),
    "format 4 has no gids": ("if form != 1:", "if form == 2:"),
    "format 4 hasn't the group's bit": ("form == 1 and mode & 0o020", "form != 2 and mode & 0o020"),
    "a root of format 4 has three controllers": (OF_ROOT, OF_ROOT.replace("controllers_in(form)", "controllers_in(1)")),
    "a root of format 2 has nine controllers": (OF_ROOT, OF_ROOT.replace("controllers_in(form)", "controllers_in(4)")),
    "a cgroup of format 4 enables three controllers": (OF_CGROUP, OF_CGROUP.replace("controllers_in(form)", "controllers_in(1)")),
    "a cgroup of format 2 enables nine controllers": (OF_CGROUP, OF_CGROUP.replace("controllers_in(form)", "controllers_in(4)")),
    "the three alone keep a process out": (OCCUPIED, OCCUPIED.replace(".enabled", ".enabled & {*rules.CONTROLLERS}")),
    "a tree of format 4 is one of format 2": ("frozenset(), max(form, 2))", "frozenset())"),
    "a tree of format 2 is one of format 4": ("frozenset(), max(form, 2))", "frozenset(), 4)"),
}
BEGINS, BEGINNING = "LARGE.match(data)", "LARGE.match(data"
BRACKETS, ORDERED = 'are_in_order(begins[1].split(b", "))', "names == [name for name in QUOTED_NAMES if name in names]"
OF_DOCUMENTS_4 = {
    "no text is large": ("MOST_LARGE if is_large(data) else", "MOST_LARGE if False else"),
    "every text is large": ("MOST_LARGE if is_large(data) else", "MOST_LARGE if True else"),
    "67108864 bytes are too many": ("67108864", "67108863"),
    "67108865 bytes aren't too many": ("67108864", "67108865"),
    "a large text begins with its format": ("return bool(begins) and (", "return bool(begins) and begins[1] is None and ("),
    "a large text begins with its controllers": ("return bool(begins) and (", "return bool(begins) and begins[1] is not None and ("),
    "a large text has a controller": ("(not begins[1] or", "(begins[1] is None or"),
    "a large text has any controllers": (BRACKETS, "True"),
    "controllers of a large text stand in any order": (ORDERED, "sorted(names) == sorted(name for name in QUOTED_NAMES if name in names)"),
    "a controller of a large text may stand twice": (ORDERED, ORDERED.replace("names ==", "list(dict.fromkeys(names)) ==")),
    "controllers of a large text need no space": (BRACKETS, 'are_in_order(begins[1].replace(b" ", b"").split(b","))'),
    "controllers of a large text stand in any quotes": (BRACKETS, """are_in_order(begins[1].replace(b"'", b'"').split(b", "))"""),
    "controllers of a large text end with a comma": (BRACKETS, BRACKETS.replace("begins[1]", 'begins[1].rstrip(b",")')),
    "a mark may stand before a large text": (BEGINNING, f'{BEGINNING}.removeprefix(b"\\xef\\xbb\\xbf")'),
    "empty lines may stand before a large text": (BEGINNING, f'{BEGINNING}.lstrip(b"\\n")'),
    "a comment may stand before a large text": (BEGINNING, f'{BEGINNING}.removeprefix(b"# x\\n")'),
    "another key may stand before a large text": (BEGINNING, f'{BEGINNING}.removeprefix(b"process = []\\n")'),
    "a large text has its format anywhere": (BEGINS, BEGINS.replace("match", "search")),
    "lines of a large text end with two bytes": (BEGINNING, f'{BEGINNING}[:300].replace(b"\\r\\n", b"\\n")'),
    "spaces of a large text are any": ("format = 4\\n\")", " ?format ?= ?4 ?\\n\")"),
    "a text of format 2 may be large": ("format = 4\\n\")", "format = [24]\\n\")"),
}
OF_COMMANDS_4 = {
    "a list for any format may name nine controllers": ("word[1:] in controllers_in(form)", "word[1:] in controllers_in(4)"),
    "a list for format 4 may name three controllers": ("word[1:] in controllers_in(form)", "word[1:] in controllers_in(2)"),
    "upgrade writes format 2 of every tree": ('{"format": state.form,', '{"format": 2,'),
    "upgrade writes format 4 of every tree": ('{"format": state.form,', '{"format": 4,'),
    "upgrade writes three controllers of the root": (
        "controllers = [c for c in rules.ALL_CONTROLLERS if", "controllers = [c for c in rules.CONTROLLERS if"),
    "upgrade writes three controllers of a cgroup": ("enabled = [c for c in rules.ALL_CONTROLLERS if", "enabled = [c for c in rules.CONTROLLERS if"),
}
CPU_MAX = '"cpu.max": LimitFile("cpu", TEXT, None, "max 100000", "max 50000", 4),'
BURST = '"cpu.max.burst": LimitFile("cpu", TEXT, None, "0", "1", 4),'
DMEM = "\n    ".join(f'"dmem.{end}": LimitFile("dmem", LINES, None, "max", "0", 4),' for end in ("low", "max", "min"))
OF_LIMIT_FILES_4 = {
    "a value of several words is none": ("all(is_word(word) for word in text.split(\" \"))", "is_word(text)"),
    "a value's words end at the first space": ("all(is_word(word) for word in text.split(\" \"))", "is_word(text.split(\" \")[0])"),
    "words of a value may have more than a space between them": ('word != "" and all', "all"),
    "a value of 3800 bytes is none": ("len(text) <= LONGEST_VALUE", "len(text) < LONGEST_VALUE"),
    "a value may have 3801 bytes": ("len(text) <= LONGEST_VALUE", "len(text) <= LONGEST_VALUE + 1"),
    "a value has bytes past ASCII's printable ones": ("<= 0x7E", "<= 0x7F"),
    "cgroup.freeze is no limit file": ('    "cgroup.freeze": LimitFile(None, TEXT, None, "0", "1", 4),\n', ""),
    "a huge page of 512 MB has no limit files": ('"512MB", ', ""),
    "a huge page of 4 MB has limit files": ('"512MB", ', '"512MB", "4MB", '),
    "what is reserved of huge pages is no limit": ('("max", "rsvd.max")', '("max",)'),
    "memory.swap.max comes with no controller": ('"memory.swap.max": LimitFile("memory",', '"memory.swap.max": LimitFile(None,'),
    "cpu.max.burst comes before cpu.max": (f"{CPU_MAX}\n    {BURST}", f"{BURST}\n    {CPU_MAX}"),
    "what is reserved of huge pages comes behind all else of them": (
        'for size in SIZES for end in ("max", "rsvd.max")', 'for end in ("max", "rsvd.max") for size in SIZES'),
    "dmem.min comes first of the three": (DMEM, "\n    ".join([DMEM.split("\n    ")[at] for at in (2, 0, 1)])),
    "cpu.idle is turned by 0": ('"cpu.idle": LimitFile("cpu", TEXT, None, "0", "1"', '"cpu.idle": LimitFile("cpu", TEXT, None, "0", "0"'),
    "cpuset.mems comes with cpu": ('"cpuset.mems": LimitFile("cpuset",', '"cpuset.mems": LimitFile("cpu",'),
    "a value that is a text is max or 0": ("        return True\n", "        return value in (MAX, \"0\")\n"),
}
# of the texts that are tried, and the device before them
HAVE_DEVICES = '    if LIMIT_FILES[file].form != LINES:\n        return ""\n'
DEVICE, CUT = "is_device = is_word(first)", 'first, _, rest = (value or "").partition(" ")'
LINES_THERE = '(value or "").split("\\n")'
IS_LOOSE = f"loose in {LINES_THERE}"
TURNED_BY = f"return other if {IS_LOOSE} else loose"
NOT_THERE = 'f"{device} {text}" if device else text for text'
DEVICE_FILES = [name for name, row in limit_files.LIMIT_FILES.items() if row.form == limit_files.LINES]


def row_start(name, form):
    return f'"{name}": LimitFile("{limit_files.LIMIT_FILES[name].controller}", {form},'


OF_DEVICES_4 = {
    "no file has devices": ('return first if is_device else ""', 'return ""'),
    "every file whose values are texts has devices": (HAVE_DEVICES, ""),
    **{f"{name} has no devices": (row_start(name, "LINES"), row_start(name, "TEXT")) for name in DEVICE_FILES},
    "io.weight has devices": (row_start("io.weight", "TEXT"), row_start("io.weight", "LINES")),
    "a device is one with nothing behind it": (' and rest != ""', ""),
    "a device may have the end of a line in it": (DEVICE, DEVICE.replace("is_word(first)", 'first != ""')),
    "a device ends with a line as well": (CUT, CUT.replace(".partition", '.replace("\\n", " ").partition')),
    "a device is the last line's": (CUT, CUT.replace(".partition", '.split("\\n")[-1].partition')),
    "a device is the first one that a line has behind it": (
        CUT, CUT.replace('(value or "")', 'next((line for line in (value or "").split("\\n") if " " in line), "")')),
    "a device is all but the last word": (CUT, CUT.replace(".partition", ".rpartition")),
    "a device of 255 bytes is none": ("len(first) <= LONGEST_DEVICE", "len(first) < LONGEST_DEVICE"),
    "a device may have 256 bytes": ("LONGEST_DEVICE = 255", "LONGEST_DEVICE = 256"),
    "a device stands in the text that loosens alone": (TURNED_BY, TURNED_BY.replace("return other", "return LIMIT_FILES[file].other")),
    "a device stands in the other text alone": (TURNED_BY, TURNED_BY.replace("else loose", "else LIMIT_FILES[file].loose")),
    "a value with a device is compared with the text without it": (TURNED_BY, TURNED_BY.replace("loose in", "LIMIT_FILES[file].loose in")),
    "a value is compared with the text alone too": (
        TURNED_BY, TURNED_BY.replace(IS_LOOSE, "{loose, LIMIT_FILES[file].loose} & {*%s}" % LINES_THERE)),
    "the whole value is compared with the text": (TURNED_BY, TURNED_BY.replace(IS_LOOSE, "value == loose")),
    "of several lines the first is compared with the text": (TURNED_BY, TURNED_BY.replace(LINES_THERE, f"{LINES_THERE}[:1]")),
    "of several lines the last is compared with the text": (TURNED_BY, TURNED_BY.replace(LINES_THERE, f"{LINES_THERE}[-1:]")),
    "a line is the text that it has in it": (TURNED_BY, TURNED_BY.replace(LINES_THERE, '(value or "")')),
    "a text stands behind its device without a space": (NOT_THERE, NOT_THERE.replace("{device} {text}", "{device}{text}")),
    "io.latency is loosened by max": ('"target=max", "target', '"max", "target'),
    "io.max is loosened by max": ('"rbps=max wbps=max riops=max wiops=max", "rbps', '"max", "rbps'),
    "rdma.max is loosened by max": ('"hca_handle=max hca_object=max", "hca', '"max", "hca'),
    "io.latency is turned by 0": ('"target=1", 4', '"0", 4'),
    "io.max is turned by 0": ('"rbps=2 wbps=2 riops=2 wiops=2", 4', '"0", 4'),
    "rdma.max is turned by 0": ('"hca_handle=0 hca_object=0", 4', '"0", 4'),
    "tries max of each limit file": (TURNED_BY, "return MAX if value != MAX else '0'"),
    "tries the text that loosens a file that has it": (TURNED_BY, "return LIMIT_FILES[file].loose"),
}
# of values that are texts, as a tree text has them
AS_LINES = "list(map(str, value if isinstance(value, list) else [value]))"
JOINED, IS_ARRAY = 'return "\\n".join(lines_of(value)) if', "return lines if len(lines) > 1 else value"
OF_VALUES_4 = {
    '5 and "5" are two values': (AS_LINES, AS_LINES.replace("map(str,", 'map(lambda line: line if isinstance(line, str) else f"+{line}",')),
    "an array of one line isn't that line": (
        JOINED, JOINED.replace(" if", ' + "\\n" * (isinstance(value, list) and len(value) == 1) if')),
    "lines of a value are in whatever order": (JOINED, JOINED.replace("lines_of(value)", "sorted(lines_of(value))")),
    "of several lines of a value the first is kept": (JOINED, "return lines_of(value)[0] if"),
    "of several lines of a value the last is kept": (JOINED, "return lines_of(value)[-1] if"),
    "no lines are a value": ("return len(lines) > 0 and all(", "return all("),
    "of several lines of a value the first is tested": ("for line in lines)", "for line in lines[:1])"),
    "a line of a text has 3800 bytes at most": ("= 3800, 4095", "= 3800, 3800"),
    "a line of 4095 bytes is none": ("len(text) <= LONGEST_LINE", "len(text) < LONGEST_LINE"),
    "a line may have 4096 bytes": ("len(text) <= LONGEST_LINE", "len(text) <= LONGEST_LINE + 1"),
    "a line of a text is any text": ("len(text) <= LONGEST_LINE and are_words(text)", "1 <= len(text) <= LONGEST_LINE"),
    "upgrade writes one line as an array": (IS_ARRAY, "return lines if is_text(file) else value"),
    "upgrade writes several lines as a text": (IS_ARRAY, "return value"),
}
OF_KEYS, ARRAYS = "for name in files_in(form))", "return number_value(value) or texts(value)"
STAND, NOWHERE = "files = [rules.files_at(bare, path) for path in paths]", '    first("no-such-file cgroup", numbered, lambda each: named'
READ, HAS_VALUE, NAMED = "entry_of(name, table, entries[name])", 'if "value" in table else usual.value', "at[path], names - rules.WRITTEN) for"
IS_TEXT = "name in LIMIT_FILES and is_text(name)"
OF_TEXTS_NAMED_4 = {
    "texts of any format name limit files of format 4": (OF_KEYS, "for name in files_in(4))"),
    "no text names a limit file of format 4": (OF_KEYS, "for name in files_in(1))"),
    "a value that is a text is no array": (ARRAYS, "return number_value(value)"),
    "a value that is a text is no number": (ARRAYS, "return is_a(value, str) or texts(value)"),
    "an array may have numbers among its lines": (ARRAYS, "return number_value(value) or is_a(value, list)"),
    "a limit file of format 4 of a text is root's": (
        READ, READ.replace("table,", f'{{key: table[key] for key in table if key == "value"}} if {IS_TEXT} else table,')),
    "a value that a text leaves out is max": (HAS_VALUE, f'if "value" in table else MAX if {IS_TEXT} else usual.value'),
    "a value that is a text isn't known": (HAS_VALUE, f'if "value" in table and not is_text(name) else usual.value'),
    "a limit file that a text names without a value isn't named": (
        NAMED, 'at[path], frozenset(name for name in names - rules.WRITTEN if "value" in each[1]["files"][name])) for'),
    "cgroup.freeze has a key at the root": (STAND, STAND.replace("path)", 'path) + ("cgroup.freeze",) * (not path)')),
    "a text names limit files of format 4 wherever it is": (
        STAND, STAND.replace("rules.files_at(bare, path)", "tuple(file for file in LIMIT_FILES if is_text(file) or file in rules.files_at(bare, path))")),
    "a text names cgroup.freeze of them alone": (
        NOWHERE, '    first("no-such-file cgroup", numbered, lambda each: {*filter(is_text, named[each[0]])} - {"cgroup.freeze"})\n' + NOWHERE),
    "limit files of format 1 are looked for first": (
        NOWHERE, '    first("no-such-file cgroup", numbered, lambda each: not {name for name in named[each[0]] if not is_text(name)} '
                 "<= {*files[each[0]]})\n" + NOWHERE),
    "the entry of a limit file of format 4 isn't tested": (
        '*row.get("files", {}).values()]', f'*(table for name, table in row.get("files", {{}}).items() if not ({IS_TEXT}))]'),
    "a value that is a text isn't tested": ("return not are_lines(value)", "return False"),
    "a value that is a text is tested as a number": ("return not are_lines(value)", "return not MAX == value and not number(value)"),
}
LATER = "LIMIT_FILES[file].since == 4"
FILES_AT, BY_CONTROLLER = "return standing(brought(state, path), not path)", "row.controller in controllers if"
STOOD, STAYING = "entries[file] = old.entries.get(file) or", "entries = {name: old.entries[name] for name in STANDING}"
SET, CHMOD = "path, file, value=value)", "    return with_entry(state, path, name, mode=mode)"
LIMIT_GUARDS, TRIED_FILES = "for file in files_at(state, top)]", "for file in files_at(state, top):"


def some_files(test):
    """The files that stand at a path, but for those that don't pass a test."""
    return f"return tuple(file for file in standing(brought(state, path), not path) if {test})"


OF_RULES_FILES_4 = {
    "a limit file of format 4 that comes is root's": (COMES, COMES.replace(MADE, f"Entry() if {LATER} else {MADE}")),
    "a limit file of format 4 that stands is theirs by a control": (
        STOOD, f'entries[file] = (None if {LATER} and file not in (*old.named, "cgroup.freeze") else old.entries.get(file)) or'),
    "cgroup.freeze of a cgroup that is made is root's": (COMES, COMES.replace(MADE, f'Entry() if file == "cgroup.freeze" else {MADE}')),
    "cgroup.freeze of a cgroup that they made is root's behind a control above it": (
        STOOD, 'entries[file] = (Entry() if file == "cgroup.freeze" and {file} & old.entries.keys() - old.named else old.entries.get(file)) or'),
    "a controller's limit files of format 4 of a cgroup that is made are root's": (
        COMES, COMES.replace(MADE, f"Entry() if {LATER} and LIMIT_FILES[file].controller and len(old.entries) == len(STANDING) else {MADE}")),
    "a limit file that was named outlasts its controller": (
        STAYING, "entries = {name: entry for name, entry in old.entries.items() if name in STANDING or name in old.named and LIMIT_FILES[name].since == 4}"),
    "what was done to a limit file of format 4 goes with any control": (
        STOOD, f"entries[file] = (Entry() if {LATER} and file in old.named else old.entries.get(file)) or"),
    "the three controllers alone bring limit files of format 4": (
        BY_CONTROLLER, "row.controller in (controllers & {*CONTROLLERS} if row.since == 4 else controllers) if"),
    "cgroup.freeze is at the root": ("row.at_root or not is_root", "True"),
    "cgroup.freeze is at the children of the root alone": (FILES_AT, some_files('file != "cgroup.freeze" or len(path) < 2')),
    "a controller's limit files of format 4 are at the root": (
        FILES_AT, some_files("path or LIMIT_FILES[file].since == 4 or not LIMIT_FILES[file].controller").replace(
            "brought(state, path)", "(brought if path else available)(state, path)")),
    "limit files of format 4 are where the root has their controller": (
        FILES_AT, "return tuple(file for file in standing(state.controllers, not path) if file in standing(brought(state, path), not path) "
                  f"or path and {LATER})"),
    "cgroup.freeze is where a controller is": (FILES_AT, some_files('file != "cgroup.freeze" or brought(state, path)')),
    "a chmod of a limit file of format 4 has no effect": (
        CHMOD, f"    if name in LIMIT_FILES and {LATER.replace('file', 'name')}:\n        return state\n" + CHMOD),
    "a chmod of a limit file of format 4 is of all of its controller": (
        CHMOD, "    for one in [one for one in files_at(state, path) if LIMIT_FILES[one].since == 4 and one not in state.cgroups[path].named "
               "and name in LIMIT_FILES and LIMIT_FILES[name][::5] == LIMIT_FILES[one][::5]]:\n"
               "        state = with_entry(state, path, one, mode=mode)\n" + CHMOD),
    "a limit file of format 4 is set by whoever owns it": (
        "found += entry_bar(state, user, path, file)",
        f"found += [] if {LATER} and owns(user, state.cgroups[path].entries[file]) else entry_bar(state, user, path, file)"),
    "a limit file of format 4 that isn't there isn't written": (
        'found.append(f"no-such-file {text_of(path)} {file}")',
        f"found.append(f\"no-{{'access' if {LATER} else 'such-file'}} {{text_of(path)}} {{file}}\")"),
    "limit files of format 4 are forgotten by the guards": (LIMIT_GUARDS, "for file in files_at(state, top) if file in files_in(1)]"),
    "limit files of format 4 are forgotten by the tries": (TRIED_FILES, "for file in [file for file in files_at(state, top) if file in files_in(1)]:"),
    "limit files of format 4 are tried first": (TRIED_FILES, "for file in sorted(files_at(state, top), key=lambda file: -LIMIT_FILES[file].since):"),
    "values of limit files of format 1 alone are limits of a subtree": (
        "return {name: entry.value for name, entry in state", "return {name: entry.value if name in files_in(1) else None for name, entry in state"),
    "a set of a value that isn't known is no change": (
        UNLIKE, "limits_of(after, top).keys() != limits.keys() or any(None is not limits[file] != value for file, value in limits_of(after, top).items()):"),
    "a set of a limit file of format 4 is a change whatever it is": (SET, f'path, file, value=f"{{value}} " if {LATER} else value)'),
    "a chmod of a limit file of format 4 turns its value": (
        CHMOD, CHMOD.replace("mode=mode)", f"mode=mode, **{{'value': None for one in LIMIT_FILES if one == name and LIMIT_FILES[one].since == 4}})")),
}
OF_COMMANDS_FILES_4 = {
    "lines for any format name limit files of format 4": ("return word if word in files_in(form)", "return word if word in files_in(4)"),
    "no line names a limit file of format 4": ("return word if word in files_in(form)", "return word if word in files_in(1)"),
    "a chmod names none of the limit files of format 4": ("else limit_word(word, form)\n", "else limit_word(word, 2)\n"),
    "a value that is a text is one word": ("rest, value = [*rest[:2], \" \".join(rest[2:])], text_word", "value = text_word"),
    "a value that is a text is max or a number": (
        "rest, value = [*rest[:2], \" \".join(rest[2:])], text_word", "value = value_word"),
    "upgrade leaves limit files of format 4 out": (
        "if rules.is_shown(state, path, name)}", "if name not in rules.LIMIT_FILES or rules.LIMIT_FILES[name].since == 1}"),
    "upgrade leaves values that are texts out": ("{} if entry.value is None else", "{} if entry.value is None or is_text(name) else"),
    "upgrade writes a file that nothing names": (
        "if rules.is_shown(state, path, name)}", 'if name == "cgroup.freeze" or rules.is_shown(state, path, name)}'),
}
ASKED = "return in_json(words, stdin, files) if"
OF_ENTRIES = 'int(word) if name in NUMBERS or name == "limit" and word != "max" else word'
OF_JSON = {
    "JSON has a space between two tokens": ('separators=(",", ":")', 'separators=(", ", ": ")'),
    "members are in the order in which they are told": ("sort_keys=True, ", ""),
    "several objects are one list": (
        ASKED, "return (lambda texts, *ended: ([f\"[{','.join(texts)}]\"] if texts[1:] else texts, *ended))(*in_json(words, stdin, files)) if"),
    "a fault is an object, too": (
        ASKED, 'return (lambda texts, status, fault: (texts + [text_of_object({"fault": fault})] * bool(fault), status, fault))'
               '(*in_json(words, stdin, files)) if'),
    "JSON ends with status 0": (
        ASKED, "return (lambda texts, status, fault: (texts, 3 if fault else 0, fault))(*in_json(words, stdin, files)) if"),
    "lines are written where JSON is asked for": (".format == commands.JSON", ".format == 0"),
    "JSON is written where lines are asked for": (".format == commands.JSON", '.given.get("--format") is not None'),
    "a first pair is named by the uid alone": ('return names_first_alone(words) and "--settle" not in words', "return False"),
    "a pair has no gids where the user has none": (
        '"gids": [int(gid) for gid in gids.split(",") if gid]', '**({"gids": [int(gid) for gid in gids.split(",")]} if gids else {})'),
    "the gids of a pair are sorted": ('[int(gid) for gid in gids.split(",") if gid]', '[*sorted(int(gid) for gid in gids.split(",") if gid)]'),
    "the uid of a pair is a text": ('"uid": int(uid),', '"uid": uid,'),
    "a pair has no subtree": (', "subtree": subtree}', "}"),
    "what isn't told of has no object": ("    if not starts:\n        return [answer_of(lines)] if lines else []", "    if not starts:\n        return []"),
    "an escape without operations has no list": ('if answer == "escapes" else {}', "if lines[1:] else {}"),
    "an unsettled answer has no path": ('fields(("guard", "path"), rest), **more}', 'fields(("guard",), rest), **more}'),
    "what is explained has no answer": ('"answer": answer, **fields(("guard", "path"), rest)}', '**fields(("guard", "path"), rest)}'),
    "what holds isn't explained": ("[guard_of(line) for line in told]", '[guard_of(line) for line in told if line.startswith("fails")]'),
    "whether a guard holds is a text": ('"holds": word == "holds"', '"holds": word'),
    "a pid is a text": ('NUMBERS = "pid", ', "NUMBERS = "),
    "a count is a text": ('"after", "count", "uid"', '"after", "uid"'),
    "how many operations a verdict is behind is a text": ('"child", "after", ', '"child", '),
    "a limit is a text": (OF_ENTRIES, OF_ENTRIES.replace(' or name == "limit" and word != "max"', "")),
    "a limit that isn't one is null": (OF_ENTRIES, f'None if name == "limit" and word == "max" else {OF_ENTRIES}'),
    "a mode of an entry is a number": (OF_ENTRIES, f'int(word, 8) if name == "mode" else {OF_ENTRIES}'),
    "a mode of an operation is a number": ('f"{part:03o}" if name == "mode"', 'part if name == "mode"'),
    "a value that is a number is a text": ('if name == "path" else part', 'if name == "path" else str(part)'),
    "the changes of a control are one text": ("return [sign + controller for sign, controller in part]",
                                              'return " ".join(sign + controller for sign, controller in part)'),
    "an owner is one text": ('members["uid"], members["gid"] = map(int, word.split(":"))', 'members["owner"] = word'),
    "each class of an entry is an object": ('for name in ("guard", "path", "entry")):', "for name in (True,)) or True:"),
    "the classes of an entry are one text": ('found[-1]["classes"].append(rest[-1])', 'found[-1]["classes"] = rest[-1]'),
    "what isn't contained is advised as unsettled": ('{"answer": "fails", "fails": failing(lines)}', '{"answer": "unsettled", "fails": failing(lines)}'),
    "a refusal's word is the answer": ('{"answer": answer, "refusal": rest[0],', '{"answer": rest[0],'),
    "of a refusal nothing but its word is told": ("**fields(REFUSALS[rest[0]], rest[1:])}", "}"),
    "an operation that is done has no object": (
        "return [step_of(line) for line in lines]", 'return [step_of(line) for line in lines if line != "ok"]'),
}
OF_FORMATS = {
    "--format takes any word": ("if self.format not in FORMATS:", "if False:"),
    "--format takes words in capitals": ("if self.format not in FORMATS:", "if self.format.lower() not in FORMATS:"),
    "--format is taken twice": ("and len(given) > 1:", 'and len(given) > (option == "--format") + 1:'),
    "--format without a word is lines": (
        '            if value is None or re.match("-.", value):\n', '            if value is None and option == "--format":\n                return\n'
        '            if value is None or re.match("-.", value):\n'),
}
# of each kind the module, and the command without which a program isn't told from what is turned there
KINDS = [("documents", "may", OF_DOCUMENTS), ("limit_files", "may", OF_LIMIT_FILES), ("rules", "may", OF_RULES), ("lasting", "settle", OF_LASTING),
         ("settled", "audit --settle", OF_SETTLED), ("explained", "explain", OF_EXPLAINED), ("texts", "may", OF_TEXTS),
         ("commands", "may", OF_COMMANDS), ("commands", "advise --settle", OF_SETTLED_ADVICE), ("commands", "explain", OF_EXPLAIN),
         ("as_json", FORMAT, OF_JSON), ("commands", FORMAT, OF_FORMATS)]
KINDS_4 = [("controllers", FORMAT_4, OF_CONTROLLERS_4), ("rules", FORMAT_4, OF_RULES_4), ("texts", FORMAT_4, OF_TEXTS_4),
           ("documents", FORMAT_4, OF_DOCUMENTS_4), ("commands", FORMAT_4, OF_COMMANDS_4), ("lasting", "settle", OF_LASTING_4),
           ("explained", "explain", OF_EXPLAINED_4), ("limit_files", FORMAT_4, OF_LIMIT_FILES_4), ("rules", FORMAT_4, OF_RULES_FILES_4),
           ("commands", FORMAT_4, OF_COMMANDS_FILES_4), ("limit_files", FORMAT_4, OF_VALUES_4), ("texts", FORMAT_4, OF_TEXTS_NAMED_4),
           ("limit_files", FORMAT_4, OF_DEVICES_4)]
KINDS += KINDS_4
MUTANTS = {**{name: (module, *turn) for module, _, turns in KINDS for name, turn in turns.items()}, **row_tables.MUTANTS}


def able(known):
    """The wrong models of which something shows in the commands that a program has."""
    return [name for kind in KINDS if kind[1] in known and (FORMAT_4 in known or kind not in KINDS_4) for name in kind[2]]


def shows(name, case, wide):
    """Whether a mutant is asked of a case, which is mostly of format 4 or of another."""
    words, needed = case.words, next(command for _, command, turns in KINDS if name in turns)
    if name in OF_DOCUMENTS_4 and max(map(len, [case.stdin, *case.files.values()])) <= documents.MOST_BYTES:
        return False
    if not wide and any(name in turns for _, _, turns in KINDS_4):
        return False
    if needed == FORMAT:
        return any(word.startswith(FORMAT) for word in words)
    if needed == "settle":
        return not {"settle", "--settle", "explain"}.isdisjoint(words)
    return needed in ("may", FORMAT_4) or words[:1] == needed.split(" ")[:1] and {*needed.split(" ")} <= {*words}


@functools.lru_cache(maxsize=None)
def respond_of(name):
    """The answers of a mutant."""
    changed, text, other = MUTANTS[name]
    package = types.ModuleType(f"mutant{list(MUTANTS).index(name)}")
    package.__path__ = []
    sys.modules[package.__name__] = package
    names = list(MODULES)
    for module in names:
        made = MODULES[module]
        if names.index(module) >= names.index(changed):
            made = made_anew(package, module, *([text, other] if module == changed else []))
        sys.modules[f"{package.__name__}.{module}"] = made
        setattr(package, module, made)
    return package.as_json.respond


def made_anew(package, module, text="", other=""):
    """A module of a package, made from its source with a text changed that stands there once."""
    made = types.ModuleType(f"{package.__name__}.{module}")
    made.__package__ = package.__name__
    exec(code_of(module, text, other), made.__dict__)
    return made


@functools.lru_cache(maxsize=len(MODULES))
def code_of(module, text, other):
    """Kept, since most modules of a mutant are as they are."""
    with open(MODULES[module].__file__) as source:
        whole = source.read()
    if text and whole.count(text) != 1:
        raise ValueError(f"stands not once in {module}.py: {text}")
    return compile(whole.replace(text, other) if text else whole, module, "exec")
