"""Mutants of the second model that the tables of rows.py tell apart in every run, each by the table that is named."""

TEXT_ORDER = """    "io.latency": LimitFile("io", LINES, None, "target=max", "target=1", 4),
    "io.max": LimitFile("io", LINES, None, "rbps=max wbps=max riops=max wiops=max", "rbps=2 wbps=2 riops=2 wiops=2", 4),
"""
NUMBER_ORDER = """    "memory.low": LimitFile("memory", COUNT, 0, MAX, 0, 1),
    "memory.high": LimitFile("memory", COUNT, MAX, MAX, 0, 1),
"""
HUGE_PAGES = 'LimitFile("hugetlb", TEXT, None, "max", "0", 4) for size'
LETS_IN = '{"owner": asked.is_meant(entry.uid), "group": entry.mode & 0o020 and asked.has_members(entry), "others": entry.mode & 0o002}'
IS_MEANT, OF_GROUP = "return uid != 0 and uid not in self.but", "lists = [uids for other, uids in self.groups if other == gid]"
MEMBERS = "any(self.is_meant(uid) and uid != entry.uid for uid in uids)"
GUARDED = "for guard, path, name in rules.guarded(state, top)]"
OVER_LAST = """return lines + ([f"fails already-over {text_of(top)}"] if rules.over(state, top) else [])"""
CHOWNED, TAKEN = "entry = replace(entry, uid=0)", 'bits = sum(bit for name, bit in (("group", 0o020), ("others", 0o002)) if name in let_in)'
TOLD = "rules.class_lines(guard, where, entry, classes_of(entry, asked)) or [held]"
PREMISES = '{"but": [int(line.split(" ")[1]) for line in lines if line.startswith("but ")],'
LIVE_PID = "found = [(\"bad-pid\", not 1 <= pid <= rules.LAST_PID)"


def swapped(text):
    """Two lines, the second first."""
    one, other = text.splitlines(keepends=True)
    return text, other + one


# of each the table, the module, what stands there once, and what stands in its place
OF_ROWS = {
    "a uid of a text may be 2^32": ("bounds", "texts", "0 <= uid <= LAST_ID and", "0 <= uid <= LAST_ID + 1 and"),
    "a gid of a text may be negative": ("bounds", "texts", "0 <= gid <= LAST_ID", "gid <= LAST_ID"),
    "a mode of a text may be 0o1777": ("bounds", "texts", "0 <= mode <= 0o777", "0 <= mode <= 0o1777"),
    "PID 0 of a text is one": ("bounds", "texts", LIVE_PID, LIVE_PID.replace("1 <= pid", "0 <= pid")),
    "a process of a text may be of uid 2^32": ("bounds", "texts", 'not 0 <= row["uid"] <= LAST_ID', 'not 0 <= row["uid"] <= LAST_ID + 1'),
    "a PID of a line may be 4194304": (
        "bounds", "commands", "return found if 1 <= found <= rules.LAST_PID", "return found if 1 <= found <= rules.LAST_PID + 1"),
    "a number of a line may have zeros before it": ("bounds", "commands", 'NUMBER = r"0|[1-9][0-9]*"', 'NUMBER = r"[0-9]+"'),
    "a mode of a line may have four digits": ("bounds", "commands", '"[0-7]{3}"', '"[0-7]{3,4}"'),
    "a uid of a command line may be 2^32": ("bounds", "commands", "int(word) > LAST_ID:", "int(word) > LAST_ID + 1:"),
    "a uid of several may be 2^32": ("bounds", "commands", "if max(uid, *gids, 0) > LAST_ID:", "if max(uid, *gids, 0) > LAST_ID + 1:"),
    "pids.max may be 2^63": ("bounds", "limit_files", '"pids.max": LimitFile("pids", COUNT,', '"pids.max": LimitFile("pids", Number(0, MOST + 1, True),'),
    "memory.low takes no max": (
        "bounds", "limit_files", '"memory.low": LimitFile("memory", COUNT,', '"memory.low": LimitFile("memory", Number(0, MOST, False),'),
    "cpu.weight may be 0": ("bounds", "limit_files", "Number(1, 10000, False)", "Number(0, 10000, False)"),
    "a value of memory.min is set to 0 whatever is said": (
        "memory.min", "rules", "path, file, value=value)", 'path, file, value=0 if file == "memory.min" else value)'),
    "memory.high is no guarded entry": (
        "memory.high", "rules", "for file in files_at(state, top)]", 'for file in files_at(state, top) if file != "memory.high"]'),
    "nobody is advised of pids.max": (
        "pids.max", "rules", "if reaches(user, state.cgroups[path].entries[name]):\n                let_in",
        'if name != "pids.max" and reaches(user, state.cgroups[path].entries[name]):\n                let_in'),
    "huge pages of 64 KB are loosened by 0": (
        "hugetlb.64KB.max", "limit_files", HUGE_PAGES, HUGE_PAGES.replace('"max"', '"0" if size == "64KB" else "max"')),
    "memory.zswap.writeback is loosened by 0": (
        "memory.zswap.writeback", "limit_files", '"memory.zswap.writeback": LimitFile("memory", TEXT, None, "1"',
        '"memory.zswap.writeback": LimitFile("memory", TEXT, None, "0"'),
    "cpuset.cpus.partition is turned by isolated": (
        "cpuset.cpus.partition", "limit_files", '"member", "root"', '"member", "isolated"'),
    "cpu.uclamp.max is turned by 0": ("cpu.uclamp.max", "limit_files", '"max", "50"', '"max", "0"'),
    "a name may have a byte 0x7f": ("names", "rules", "0x21 <= ord(letter) <= 0x7E for", "0x21 <= ord(letter) <= 0x7F for"),
    "a name that begins with a dot is none": ("names", "rules", 'name not in (".", "..")', 'not name.startswith(".")'),
    "a name may be memory.max": ("names", "rules", "PROCS, CONTROL, *files_in(1)}", 'PROCS, CONTROL, *({*files_in(1)} - {"memory.max"})}'),
    "limit files of format 4 are no names": ("names", "rules", "PROCS, CONTROL, *files_in(1)}", "PROCS, CONTROL, *files_in(4)}"),
    "a name with a backslash is none": ("names", "rules", 'name not in (".", "..")', '"\\\\" not in name'),
    "memory.high is tried before memory.low": ("two tries", "limit_files", *swapped(NUMBER_ORDER)),
    "io.max is tried before io.latency": ("two tries", "limit_files", *swapped(TEXT_ORDER)),
    "the root's cgroup.max.descendants bars no mkdir": (
        "at the root", "rules", "if most != MAX and len(below", "if top and most != MAX and len(below"),
    "a text names the limit files of format 1 at the root": (
        "at the root", "texts", "files = [rules.files_at(bare, path) for path in paths]",
        "files = [rules.files_at(bare, path) if path else tuple(files_in(1)) for path in paths]"),
    "upgrade writes the keys of a table in another order": (
        "written", "written", "for key in sorted(table)]", "for key in sorted(table, reverse=True)]"),
    "upgrade writes the files of a cgroup in the order of the page": (
        "written", "written", 'for name in sorted(row["files"]):', 'for name in row["files"]:'),
    "upgrade writes no key of processes where there is none": ("written", "written", "or not document[key]})", "and document[key]})"),
    "upgrade writes processes before cgroups": (
        "written", "written", '    for row in document["process"]:\n        lines += ["", "[[process]]", *values_of(row)]\n    return lines',
        '    return lines + [line for row in document["process"] for line in ["", "[[process]]", *values_of(row)][1:]]'),
    "a class forgotten: an entry's owner": ("everybody", "everybody", LETS_IN, LETS_IN.replace("asked.is_meant(entry.uid)", "False")),
    "a class forgotten: an entry's group": ("everybody", "everybody", LETS_IN, LETS_IN.replace("entry.mode & 0o020", "False")),
    "a class forgotten: all others": ("everybody", "everybody", LETS_IN, LETS_IN.replace("entry.mode & 0o002", "False")),
    "an owner who doesn't write is let in by nothing": (
        "everybody", "everybody", LETS_IN, LETS_IN.replace("asked.is_meant(entry.uid)", "asked.is_meant(entry.uid) and entry.mode & 0o200")),
    "an owner is let in by no mode alone": (
        "everybody", "everybody", LETS_IN, LETS_IN.replace("asked.is_meant(entry.uid)", "asked.is_meant(entry.uid) and entry.mode & 0o777")),
    "root is let in as an owner": ("everybody", "everybody", LETS_IN, LETS_IN.replace("asked.is_meant(entry.uid)", "True")),
    "a group's write is its owner's": (
        "everybody", "everybody", LETS_IN, LETS_IN.replace("entry.mode & 0o020", "entry.mode & 0o020 and entry.uid != 0")),
    "group 0 has no members but root": ("everybody", "everybody", LETS_IN, LETS_IN.replace("entry.mode & 0o020", "entry.mode & 0o020 and entry.gid")),
    "a group's write is all others', too": ("everybody", "everybody", LETS_IN, LETS_IN.replace("entry.mode & 0o002", "entry.mode & 0o022")),
    "all others are let in where the group is": (
        "everybody", "everybody", LETS_IN, LETS_IN.replace("entry.mode & 0o002", "entry.mode & 0o022 == 0o022")),
    "others before the group of an entry against everybody": (
        "everybody", "everybody", ".entries[name], classes)\n", ".entries[name], classes)[::-1]\n"),
    "an ancestor left out": (
        "everybody", "everybody", GUARDED, GUARDED.replace("]", ' if guard != "common-ancestor" or path == top[:-1]]')),
    "the root cgroup's left out": ("everybody", "everybody", GUARDED, GUARDED.replace("]", ' if guard != "common-ancestor" or path]')),
    "a limit file of format 4 lets nobody in": (
        "everybody", "everybody", GUARDED, GUARDED.replace("]", " if name not in rules.LIMIT_FILES or name in rules.files_in(1)]")),
    "the subtree's own directory is asked against everybody": (
        "everybody", "everybody", GUARDED, GUARDED.replace("rules.guarded(state, top)", "[*rules.guarded(state, top), (\"parent-dir\", top, \"dir\")]")),
    "over its limits forgotten": ("everybody", "everybody", OVER_LAST, "return lines"),
    "over its limits is told first": (
        "everybody", "everybody", OVER_LAST, OVER_LAST.replace("return lines + (", "return (").replace("else [])", "else []) + lines")),
    "over its limits by descendants alone": (
        "everybody", "everybody", OVER_LAST, OVER_LAST.replace("if rules.over(state, top)", "if rules.DESCENDANTS in rules.over(state, top)")),
    "entries against everybody in the order of paths": (
        "everybody", "everybody", "return [each for each in found if each[-1]]", "return sorted(each for each in found if each[-1])"),
    "subtrees against everybody in the order of paths": (
        "everybody", "commands", "    for top in dict.fromkeys(tops):\n", "    for top in sorted({*tops}):\n"),
    "a subtree that is named again is listed again": (
        "everybody", "commands", "    for top in dict.fromkeys(tops):\n", "    for top in tops:\n"),
    "the first subtree alone is listed against everybody": (
        "everybody", "commands", "    for top in dict.fromkeys(tops):\n", "    for top in tops[:1]:\n"),
    "a subtree that is held has a line": (
        "everybody", "commands", 'lines += [f"subtree {text_of(top)}", *found] if found else []', 'lines += [f"subtree {text_of(top)}", *found]'),
    "who is left out is asked about": ("left out", "everybody", IS_MEANT, "return uid != 0"),
    "where somebody is left out so are all owners": ("left out", "everybody", IS_MEANT, "return uid != 0 and not self.but"),
    "the first who is left out alone": ("left out", "everybody", IS_MEANT, "return uid != 0 and uid not in self.but[:1]"),
    "a listed group has members whoever is listed": ("left out", "everybody", MEMBERS, "True"),
    "a listed group has none": ("left out", "everybody", MEMBERS, "False"),
    "the owner is a member of their entry's group": (
        "left out", "everybody", MEMBERS, "any(self.is_meant(uid) for uid in uids)"),
    "root and who is left out are members": ("left out", "everybody", MEMBERS, "any(uid != entry.uid for uid in uids)"),
    "the lists of one group are every group's": ("left out", "everybody", OF_GROUP, "lists = [uids for _, uids in self.groups]"),
    "the first list of a group alone": ("left out", "everybody", OF_GROUP, OF_GROUP + "[:1]"),
    "of a group that isn't listed nobody is a member": (
        "left out", "everybody", "for uid in uids} if lists else None", "for uid in uids}"),
    "what an answer stands on isn't told": ("left out", "commands", " + call.asked.lines()", ""),
    "what an answer stands on is told where it is contained alone": (
        "left out", "commands", " + call.asked.lines()", " + call.asked.lines() * is_held"),
    "who is left out may stand beside users": ("left out", "commands", '{"--subtrees", *OF_EVERYBODY} or not', '{"--subtrees"} or not'),
    "a chown to root takes the group along": ("changed and told", "everybody", CHOWNED, CHOWNED.replace("uid=0", "uid=0, gid=0")),
    "whoever owned an entry is of no class of it behind the chown": (
        "changed and told", "everybody", "        let_in = classes_of(entry, asked)\n    bits", "    bits"),
    "both bits are taken where one lets in": ("changed and told", "everybody", TAKEN, "bits = entry.mode & 0o022"),
    "the group's bit stays": ("changed and told", "everybody", TAKEN, TAKEN.replace("0o020", "0")),
    "an entry is changed where it is met last": (
        "changed and told", "everybody", "met.setdefault((path, name), (guard, classes))", "met[path, name] = met.pop((path, name), (guard, classes))"),
    "entries are changed in the order of paths": (
        "changed and told", "everybody", "for (path, name), (guard, classes) in met.items():", "for (path, name), (guard, classes) in sorted(met.items()):"),
    "limits are changed before entries": (
        "changed and told", "everybody", "        lines += rules.limit_lines(state, top)\n", "        lines = rules.limit_lines(state, top) + lines\n"),
    "the limits of a subtree that is named again are told again": (
        "changed and told", "everybody", "    for top in dict.fromkeys(tops):\n", "    for top in tops:\n"),
    "what holds against everybody isn't told": ("changed and told", "everybody", TOLD, TOLD.replace(" or [held]", "")),
    "of what fails against everybody its hold is told, too": ("changed and told", "everybody", TOLD, TOLD.replace(" or [held]", " + [held]")),
    "limits aren't told against everybody": ("changed and told", "everybody", "return lines + explained.limits(state, top)", "return lines"),
    "a text may name no subtree": ("lines of subtrees", "commands", "    if not words:\n", "    if False:\n"),
    "the first path of a text is dropped": ("lines of subtrees", "commands", "    return words\n", "    return words[1:] or words\n"),
    "the last path of a text is dropped": ("lines of subtrees", "commands", "    return words\n", "    return words[:-1] or words\n"),
    "paths of a text in their own order": ("lines of subtrees", "commands", "    return words\n", "    return sorted(words)\n"),
    "a line that is no path is a fault of its path": (
        "lines of subtrees", "commands", "        if rules.path_of(word) is None:\n", "        if False:\n"),
    "a last path without its newline counts": (
        "lines of subtrees", "commands", "    words = [line.decode", "    lines, end = lines + [end] * bool(end), b\"\"\n    words = [line.decode"),
    "a first pair has the status of the worst": (
        "as JSON", "as_json", "status if answer is None else commands.STATUS[answer], fault", "status, fault"),
    "of a process that crossed no pid is told": ("as JSON", "as_json", '("after", "what", "pid")', '("after", "what")'),
    "who is left out is a text": ("as JSON", "as_json", PREMISES, PREMISES.replace('int(line.split(" ")[1])', 'line.split(" ")[1]')),
    "that nobody is left out isn't told": (
        "as JSON", "as_json", PREMISES, PREMISES.replace('{"but"', '{} if not {*"bg"} & {line[0] for line in lines} else {"but"')),
    "a group has the uids that are listed as texts": (
        "as JSON", "as_json", '"uids": [int(uid) for uid in uids.split(",") if uid]', '"uids": [uid for uid in uids.split(",") if uid]'),
    "subtrees against everybody are keys": (
        "as JSON", "as_json", '{"subtree": path, "fails": failing(below)}', "{path: failing(below)}"),
    "what is held against everybody is told without an answer": (
        "as JSON", "as_json", '{"answer": "fails" if subtrees else "contained", "subtrees"', '{**({"answer": "fails"} if subtrees else {}), "subtrees"'),
    "what is explained against everybody is contained": ("as JSON", "as_json", '"contained" if holds else "fails"', '"contained"'),
    "of an advice against everybody nothing is told below": (
        "as JSON", "as_json", 'if line.split(" ")[0] not in ("but", "group")]), **premises_of(lines)}', 'if line.split(" ")[0] not in ("but", "group")])}'),
    "upgrade puts a backslash before each quote": ("written", "written", "if \"'\" not in text:", 'if text == "":'),
}
# which of the other mutants are told apart by which table
OF_OTHERS = {
    "tries the removal before controls": "two tries", "cpu.max.burst comes before cpu.max": "two tries",
    "dmem.min comes first of the three": "two tries",
    "what is reserved of huge pages comes behind all else of them": "two tries", "cpu.idle is turned by 0": "cpu.idle",
    "cpu.weight may be 10001": "bounds", "a name may be cgroup.controllers": "names", "a name may be two dots": "names",
    "a name of 255 bytes is none": "bounds", "a path of 4095 bytes is none": "bounds",
    "the root's cgroup.max.depth bars no mkdir": "at the root",
    "cgroup.freeze of a cgroup that they made is root's behind a control above it": "theirs",
    "tells of others before the group": "classes",
}
MUTANTS = {name: turn for name, (_, *turn) in OF_ROWS.items()}
TABLE_OF = {**{name: table for name, (table, *_) in OF_ROWS.items()}, **OF_OTHERS}
